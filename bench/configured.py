"""Measures how fast configurations are run, beside `pipe`, and the peak memory of a long one:
configured.py WORK PROGRAM.

Prints processor seconds (the least of several runs, in turn) and each bound with what was measured; the status is 1
where one isn't met.
"""

import os
import sys

import kit
from kit import Peer, input_of, run_once, whole

KINDS = ["telegraf", "small"]
SHARED_KIND = "small"
LINES = 1_000_000
RUNS = kit.runs_or(7)
# Of each of two inputs.
MEMORY_LINES = 5_000_000
RUN_RATIO, FILTER_COST, MEGABYTES = 0.97, 1.1, 24.0

PIPE = kit.OURS
ONE = "run, one input and one output"
FILTERED = "run, the output with namepass = [\"*\"]"
TAGGED = "run, two global tags"
TWO_IN = "run, two inputs"
THREE_OUT = "run, three outputs"
ALL = "run, two global tags, two inputs, three outputs"
# Lines a processor second on small lines by those of one input and one output, at least.
SHARES = {TAGGED: 0.8, THREE_OUT: 0.75}


def configuration(folder, name, inputs, outputs, tags=(), of_output=""):
    """Writes a configuration, and gives its place."""
    global_tags = "[global_tags]\n" + "".join(f'{tag} = "berlin-{tag}"\n' for tag in tags)
    return kit.write_configuration(
        folder, name, global_tags, kit.plugins("inputs", inputs), kit.plugins("outputs", outputs, of_output))


def second_name(work, source):
    """Another name of an input, since no two inputs have one place."""
    other = source + ".again"
    if not os.path.lexists(other):
        os.symlink(source, other)
    return other


def peers_of(work, program, kind, lines, folder):
    """The programs to be measured, with the lines that each reads and the outputs that it writes. Where there are two
    inputs each has half of the lines."""
    source, half = input_of(work, kind, lines), input_of(work, kind, lines // 2)
    two = [half, second_name(work, half)]
    outputs = [os.path.join(folder, name) for name in ("output", "output2", "output3")]
    tags = ("cluster", "room")

    def peer(name, *given, **others):
        words = [program, "run", configuration(folder, f"{kind}-{len(made)}", *given, **others)]
        made.append((Peer(name, words, {}), len(given[1])))

    made = [(kit.pipe_of(program, source, outputs[0]), 1)]
    peer(ONE, [source], outputs[:1])
    peer(FILTERED, [source], outputs[:1], of_output='namepass = ["*"]\n')
    peer(TAGGED, [source], outputs[:1], tags=tags)
    peer(TWO_IN, two, outputs[:1])
    peer(THREE_OUT, [source], outputs)
    peer(ALL, two, outputs, tags=tags)
    return made


def check_kind(bounds, work, program, kind, folder):
    """Measures one kind of input."""
    made = peers_of(work, program, kind, LINES, folder)
    kit.say(f"measuring {kind}, {whole(LINES)} lines, {RUNS} runs each")
    best = kit.in_turn([peer for peer, _ in made], "", folder, RUNS)
    used = {name: one.processor for name, one in best.items()}
    rows = [
        [name, kind, whole(LINES), f"{used[name]:.4f}", whole(LINES / used[name]), whole(LINES * outputs / used[name])]
        for name, outputs in [(peer.name, outputs) for peer, outputs in made]
    ]
    kit.print_table(
        ["program", "input", "lines", "processor s", "lines/processor s", "lines/processor s, over outputs"], rows)
    bounds.say(
        f"{kind}: lines a processor second of run by those of pipe, at least {RUN_RATIO}",
        f"{used[PIPE] / used[ONE]:.3f}", used[PIPE] / used[ONE] >= RUN_RATIO)
    bounds.say(
        f"{kind}: processor time with an output filter by that without, at most {FILTER_COST}",
        f"{used[FILTERED] / used[ONE]:.3f}", used[FILTERED] / used[ONE] <= FILTER_COST)
    if kind != SHARED_KIND:
        return
    for name, share in SHARES.items():
        bounds.at_least(f"{kind}: lines a processor second of {name}, by those of one output", share, used[ONE] / used[name])


def check_memory(bounds, work, program, folder):
    """The peak memory of a long run: two inputs of small lines to two outputs."""
    half = input_of(work, "small", MEMORY_LINES)
    outputs = [os.path.join(folder, name) for name in ("output", "output2")]
    config = configuration(folder, "memory", [half, second_name(work, half)], outputs)
    kit.say(f"memory of {whole(2 * MEMORY_LINES)} small lines")
    used = run_once(Peer("memory", [program, "run", config], {}), "", folder)
    bounds.peak(f"run over {whole(2 * MEMORY_LINES)} small lines in two inputs to two outputs", MEGABYTES, used)


def main(work, program):
    folder = kit.runs_folder(work)
    print(kit.machine(), flush=True)
    bounds = kit.Bounds()
    for kind in KINDS:
        check_kind(bounds, work, program, kind, folder)
    check_memory(bounds, work, program, folder)
    return 0 if bounds.all_met else 1


if __name__ == "__main__":
    sys.exit(main(*sys.argv[1:]))
