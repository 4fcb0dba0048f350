"""Measures what an aggregator costs in a run, what a series costs that it keeps, and what one costs that sees nothing:
aggregators.py WORK PROGRAM.

Each runs alone, with windows of ten seconds, beside a run without aggregators, over small lines, which have ten series; minmax also over lines
of 10 series and of 100,000. The lines are of old days: so each aggregator has a grace that reaches back to them, and takes them all. Prints
processor seconds (the least of several runs, in turn) and each bound with what was measured; the status is 1 where one isn't met.
"""

import sys

import kit
from kit import input_of, whole

SIZES = [10_000, 1_000_000]
SERIES = [10, 100_000]
SERIES_LINES = 1_000_000
RUNS = kit.runs_or(7)
GROWTH, SERIES_COST, UNSEEN_COST = 1.1, 2.5, 0.1

# 58 years, in hours: from 1970 on.
TIMES = 'period = "10s"\ngrace = "510000h"\n'
NONE, UNSEEN = "no aggregator", "minmax that sees nothing"
KINDS = {
    "minmax": "[[aggregators.minmax]]\n" + TIMES,
    "basicstats": "[[aggregators.basicstats]]\n" + TIMES,
    "merge": "[[aggregators.merge]]\n" + TIMES,
    "final": "[[aggregators.final]]\n" + TIMES,
    UNSEEN: '[[aggregators.minmax]]\nnamepass = ["nothing"]\n' + TIMES,
}


def check_kinds(bounds, work, program, folder):
    """Each kind alone, at each size, and what one costs that sees nothing."""
    used = {}
    for lines in SIZES:
        source = input_of(work, "small", lines)
        peers = [kit.run_of(program, folder, name, source, tables) for name, tables in [(NONE, ""), *KINDS.items()]]
        kit.say(f"measuring {whole(lines)} lines, {RUNS} runs each")
        used[lines] = kit.in_turn(peers, "", folder, RUNS)
    rows = [
        [name, whole(lines), f"{used[lines][name].processor:.4f}", whole(lines / used[lines][name].processor)]
        for lines in SIZES for name in [NONE, *KINDS]
    ]
    kit.print_table(["aggregator", "lines", "processor s", "lines/processor s"], rows)
    few, many = SIZES
    for name in KINDS:
        growth = used[many][name].processor / many / (used[few][name].processor / few)
        bounds.say(f"{name}: processor time a line at {whole(many)} lines by that at {whole(few)}, at most {GROWTH}", f"{growth:.2f}",
                   growth <= GROWTH)
    more = used[many][UNSEEN].processor / used[many][NONE].processor - 1
    bounds.say(f"{UNSEEN}: more processor time than {NONE}, at most {UNSEEN_COST}", f"{more:.3f}", more <= UNSEEN_COST)


def check_series(bounds, work, program, folder):
    """A minmax over few series, and over many."""
    peers = [
        kit.run_of(program, folder, f"minmax of {series}", kit.lines_of_series(work, series, SERIES_LINES), KINDS["minmax"])
        for series in SERIES
    ]
    kit.say(f"measuring a minmax over {whole(SERIES_LINES)} lines, {RUNS} runs each")
    used = kit.in_turn(peers, "", folder, RUNS)
    few, many = (used[peer.name].processor for peer in peers)
    bounds.say(f"minmax: processor time with {whole(SERIES[1])} series by that with {SERIES[0]}, at most {SERIES_COST}",
               f"{many / few:.2f}", many / few <= SERIES_COST)


def main(work, program):
    folder = kit.runs_folder(work)
    print(kit.machine(), flush=True)
    bounds = kit.Bounds()
    check_kinds(bounds, work, program, folder)
    check_series(bounds, work, program, folder)
    return 0 if bounds.all_met else 1


if __name__ == "__main__":
    sys.exit(main(*sys.argv[1:]))
