"""Measures what a tracked input costs in a run, and how fast generated lines go through one: tracked.py WORK PROGRAM.

Small lines go through `run` from an input that isn't tracked and from one that is, with gathers of 1,000 pieces and of one, of which
then 100,000 may be undelivered. And `gen` sends its lines through a processor and an aggregator to three outputs. Prints processor
seconds (the least of several runs, in turn) and each bound with what was measured; the status is 1 where one isn't met.
"""

import os
import sys

import kit
from kit import input_of, whole

LINES = 1_000_000
SIZES = [10_000, 1_000_000]
RUNS = kit.runs_or(7)
COST, GROWTH, PEAK = 1.1, 1.1, 24.0

TRACKED = "tracked = true\nmax_undelivered_messages = %d\n"
GATHERS = {"gathers of 1,000": (1000, 1000), "gathers of one": (1, 100_000)}
EXAMPLE = """[global_tags]
dc = "x"
[[inputs.file]]
files = ["cpu.in"]
tracked = true
[[inputs.file]]
files = ["web.in"]
data_format = "statsd"
[[processors.rename]]
[[processors.rename.replace]]
tag = "host"
dest = "node"
[[aggregators.minmax]]
period = "10s"
delay = "0s"
drop_original = true
namepass = ["cpu"]
[[outputs.file]]
files = ["a.out"]
[[outputs.file]]
files = ["b.out"]
data_format = "graphite"
namedrop = ["cpu"]
[[outputs.file]]
files = ["c.out"]
data_format = "openmetrics"
namepass = ["cpu"]
"""


def run_of(program, folder, name, source, pieces, more):
    """A run of an input, with these lines of its own, by gathers of so many pieces."""
    place = kit.write_configuration(
        folder, name.replace(" ", "-"), "[agent]\ngather_pieces = %d\n" % pieces, kit.plugins("inputs", [source], more),
        kit.plugins("outputs", [os.path.join(folder, "output")]))
    return kit.Peer(name, [program, "run", place], {})


def check_runs(bounds, work, program, folder):
    """A tracked input beside one that isn't, by gathers of many pieces and of one."""
    source, rows = input_of(work, "small", LINES), []
    for name, (pieces, most) in GATHERS.items():
        peers = [
            run_of(program, folder, name, source, pieces, ""),
            run_of(program, folder, name + " tracked", source, pieces, TRACKED % most),
        ]
        kit.say("measuring %s, %s lines, %d runs each" % (name, whole(LINES), RUNS))
        used = kit.in_turn(peers, "", folder, RUNS)
        plain, tracked = (used[peer.name] for peer in peers)
        rows += [[it, f"{used[it].processor:.4f}", kit.megabytes(used[it].kilobytes)] for it in used]
        ratio = tracked.processor / plain.processor
        bounds.say(f"{name}: processor time of a tracked input by that of one that isn't, at most {COST}", f"{ratio:.3f}", ratio <= COST)
        bounds.peak(name + " of a tracked input", PEAK, tracked)
    print()
    kit.print_table(["run", "processor s", "peak MB"], rows)


def check_generated(bounds, program, folder):
    """Generated lines, few and many."""
    place = kit.write_configuration(folder, "generated", EXAMPLE)
    peers = [kit.Peer("gen %s" % whole(lines), [program, "gen", str(lines), place], {}) for lines in SIZES]
    kit.say("measuring generated lines, %d runs each" % RUNS)
    used = kit.in_turn(peers, "", folder, RUNS)
    few, many = (used[peer.name] for peer in peers)
    kit.print_table(
        ["run", "processor s", "lines/processor s", "peak MB"],
        [[name, f"{it.processor:.4f}", whole(lines / it.processor), kit.megabytes(it.kilobytes)]
         for lines, (name, it) in zip(SIZES, used.items())])
    growth = many.processor / SIZES[1] / (few.processor / SIZES[0])
    bounds.say(f"gen: processor time a line at {whole(SIZES[1])} lines by that at {whole(SIZES[0])}, at most {GROWTH}", f"{growth:.2f}",
               growth <= GROWTH)
    bounds.peak("gen %s" % whole(SIZES[1]), PEAK, many)


def main(work, program):
    folder = kit.runs_folder(work)
    print(kit.machine(), flush=True)
    bounds = kit.Bounds()
    check_runs(bounds, work, program, folder)
    check_generated(bounds, program, folder)
    return 0 if bounds.all_met else 1


if __name__ == "__main__":
    sys.exit(main(*sys.argv[1:]))
