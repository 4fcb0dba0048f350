"""Measures how fast each kind of processor works in a run, and what a series costs that a dedup keeps:
processors.py WORK PROGRAM.

Each kind runs alone over lines as Telegraf writes them, beside a run without processors. These have ever more series: so what a dedup's
line costs is also measured over few and many lines of 10 series, and over as many of 100,000. Prints processor seconds (the least of several runs, in turn) and each bound with what was measured; the status is 1 where one
isn't met.
"""

import sys

import kit
from kit import input_of, whole

SIZES = [10_000, 1_000_000]
SERIES = [10, 100_000]
RUNS = kit.runs_or(7)
GROWTH, SERIES_COST = 1.1, 2.5

NONE, DEDUP = "no processor", "dedup"
KINDS = {
    "converter": '[[processors.converter]]\nfields = {float = ["usage_*", "used"]}\ntags = {string = ["rack"]}\n',
    DEDUP: '[[processors.dedup]]\ndedup_interval = "10s"\n',
    "regex": "[[processors.regex]]\ntags = [{key = \"host\", pattern = '^node-(\\d+)\\.', replacement = 'n${1}.'}]\n",
    "rename": '[[processors.rename]]\nreplace = [{tag = "host", dest = "node"}, {field = "used", dest = "in_use"}]\n',
}


def check_kinds(bounds, work, program, folder):
    """Each kind alone, at each size."""
    used = {}
    for lines in SIZES:
        source = input_of(work, "telegraf", lines)
        peers = [kit.run_of(program, folder, name, source, steps) for name, steps in [(NONE, ""), *KINDS.items()]]
        kit.say(f"measuring {whole(lines)} lines, {RUNS} runs each")
        used[lines] = kit.in_turn(peers, "", folder, RUNS)
    rows = [
        [name, whole(lines), f"{used[lines][name].processor:.4f}", whole(lines / used[lines][name].processor)]
        for lines in SIZES for name in [NONE, *KINDS]
    ]
    kit.print_table(["processor", "lines", "processor s", "lines/processor s"], rows)
    few, many = SIZES
    for name in [it for it in KINDS if it != DEDUP]:
        growth = used[many][name].processor / many / (used[few][name].processor / few)
        bounds.say(f"{name}: processor time a line at {whole(many)} lines by that at {whole(few)}, at most {GROWTH}", f"{growth:.2f}",
                   growth <= GROWTH)


def check_dedup(bounds, work, program, folder):
    """A dedup over few lines of few series, over many of few series, and over as many of many series."""
    few, many = SIZES
    peers = [
        kit.run_of(program, folder, f"dedup of {series} over {lines}", kit.lines_of_series(work, series, lines), KINDS[DEDUP])
        for series, lines in [(SERIES[0], few), (SERIES[0], many), (SERIES[1], many)]
    ]
    kit.say(f"measuring a dedup over lines of {SERIES[0]} and {whole(SERIES[1])} series, {RUNS} runs each")
    found = kit.in_turn(peers, "", folder, RUNS)
    used = [found[peer.name].processor for peer in peers]
    growth, more = used[1] / many / (used[0] / few), used[2] / used[1]
    bounds.say(f"dedup: processor time a line at {whole(many)} lines of {SERIES[0]} series by that at {whole(few)}, at most {GROWTH}",
               f"{growth:.2f}", growth <= GROWTH)
    bounds.say(f"dedup: processor time with {whole(SERIES[1])} series by that with {SERIES[0]}, at most {SERIES_COST}", f"{more:.2f}",
               more <= SERIES_COST)


def main(work, program):
    folder = kit.runs_folder(work)
    print(kit.machine(), flush=True)
    bounds = kit.Bounds()
    check_kinds(bounds, work, program, folder)
    check_dedup(bounds, work, program, folder)
    return 0 if bounds.all_met else 1


if __name__ == "__main__":
    sys.exit(main(*sys.argv[1:]))
