"""Runs the programs side by side and prints the tables, and each bound with what was measured:
measure.py WORK PROGRAM KIND.., with --quick before the kinds for the ratios alone."""

import os
import subprocess
import sys

import callgrind
from kit import (
    HERE,
    OURS,
    Bounds,
    Peer,
    best,
    in_turn,
    input_of,
    machine,
    megabytes,
    pipe_of,
    print_table,
    run_back,
    runs_folder,
    runs_or,
    say,
    whole,
)

SIZES = sorted(int(word) for word in os.environ.get("HOGZENT_BENCH_LINES", "10000 100000 1000000").split())
QUICK_SIZE, QUICK_RUNS = 100_000, 3
GO = "go"
RUST = "rust, with journal"

# Our lines a processor second by those of another program, at the most lines. (The Rust program reads no escapes.)
RATIO_BOUNDS = {RUST: {"telegraf": 1.9, "small": 1.8}, GO: {"telegraf": 3.5, "small": 2.8, "escaped": 1.3}}
INSTRUCTIONS_BOUNDS = {"telegraf": 16_000, "small": 4_000}
ALLOCATIONS_BOUNDS = {"telegraf": 6, "small": 5}
# Processor time a line at the most lines by that at the fewest.
GROWTH_BOUNDS = {"telegraf": 1.05, "small": 1.05, "escaped": 1.1}


def runs_of(lines):
    """How often each program is run at a size."""
    return runs_or(15 if lines <= 10_000 else 7 if lines <= 100_000 else 5)


def peers_of(work, program):
    """The programs that there are; IN and OUT stand for the places."""
    peers = [pipe_of(program)]
    go, rust = os.path.join(work, "peer-go-main"), os.path.join(work, "peer-rust-main")
    if os.path.exists(go):
        peers.append(Peer(GO, [go, "IN", "OUT"], {}))
        peers.append(Peer("go, one thread", [go, "IN", "OUT"], {"GOMAXPROCS": "1"}))
    if os.path.exists(rust):
        peers.append(Peer(RUST, [rust, "pipe", "IN", "OUT", "peer.journal"], {}))
        peers.append(Peer("copy by lines", [rust, "copy", "IN", "OUT"], {}))
    return peers


def measure(peers, source, lines, folder):
    """The least that each program used, of several runs in turn; the peak memory is the greatest."""
    fit = []
    for peer in peers:
        if run_back(peer, source, folder) is not None:
            fit.append(peer)
        else:
            print("Left out: %s, which doesn't give back %s." % (peer.name, os.path.basename(source)))
    return in_turn(fit, source, folder, runs_of(lines))


def together(first, second):
    """What is known of the programs of two measurements of the same size."""
    known = dict(first)
    for name, two in second.items():
        known[name] = best([known.get(name, two), two])
    return known


HEAD = [
    "program", "input", "lines", "bytes", "seconds", "lines/s",
    "processor s", "lines/processor s", "peak MB", "ratio to ours",
]


def row_of(name, kind, lines, size, used, ours):
    ratio = ours.processor / used.processor if ours else None
    return [
        name, kind, whole(lines), whole(size), "%.3f" % used.seconds, whole(lines / used.seconds),
        "%.4f" % used.processor, whole(lines / used.processor), megabytes(used.kilobytes),
        "-" if ratio is None else "%.2f" % ratio,
    ]


def growth_row(name, kind, few, many, results):
    """Processor time a line and peak memory at two sizes, and how the time grew."""
    small, great = results[kind, few][name], results[kind, many][name]
    each = [used.processor / lines * 1e6 for used, lines in ((small, few), (great, many))]
    row = [
        name, kind, whole(few), "%.3f" % each[0], megabytes(small.kilobytes),
        whole(many), "%.3f" % each[1], megabytes(great.kilobytes), "%.2f" % (each[1] / each[0]),
    ]
    return row, each[1] / each[0]


def profiled(work, program, kinds):
    """What a line of each kind costs by callgrind; none where the profile can't be made."""
    say("profiling")
    env = dict(os.environ, HOGZENT_PROGRAM=program)
    made = subprocess.run([os.path.join(HERE, "profile")] + kinds, env=env, stdout=subprocess.DEVNULL, check=False)
    if made.returncode:
        return {}
    folder = os.path.join(work, "profile")
    return {kind: callgrind.Cost(folder, kind, callgrind.SIZES) for kind in kinds}


def measured(peers, work, kinds, sizes, folder):
    """What each program used, by kind and size."""
    results = {}
    for kind in kinds:
        # The fewest lines come once more behind the most, so that a busy minute alone doesn't make the growth.
        for lines in sizes + sizes[:1] if len(sizes) > 1 else sizes:
            say("measuring %s, %s lines, %d runs" % (kind, whole(lines), runs_of(lines)))
            used = measure(peers, input_of(work, kind, lines), lines, folder)
            results[kind, lines] = together(results.get((kind, lines), {}), used)
    return results


def print_tables(work, kinds, sizes, results):
    """The table of all runs, and that of the growth."""
    rows, growth = [], []
    for (kind, lines), used in results.items():
        size = os.path.getsize(input_of(work, kind, lines))
        for name, one in used.items():
            rows.append(row_of(name, kind, lines, size, one, used.get(OURS)))
    print()
    print_table(HEAD, rows)
    few, many = min(sizes), max(sizes)
    for kind in kinds:
        for name in results[kind, few]:
            if few != many and name in results[kind, many]:
                growth.append(growth_row(name, kind, few, many, results)[0])
    if growth:
        print_table(["program", "input", "lines", "us/line", "peak MB", "lines", "us/line", "peak MB", "growth"], growth)


def check_times(bounds, kinds, sizes, results):
    """The bounds on lines a processor second and on their growth."""
    few, many = min(sizes), max(sizes)
    for (kind, lines), used in results.items():
        if OURS not in used:
            bounds.say("%s, %s lines: gives back its input" % (kind, whole(lines)), "it doesn't", False)
    for kind in kinds:
        used = results[kind, many]
        for name, by_kind in RATIO_BOUNDS.items():
            if kind not in by_kind:
                continue
            text = "%s, %s lines: our lines a processor second by those of %s" % (kind, whole(many), name)
            if OURS in used and name in used:
                bounds.at_least(text, by_kind[kind], used[name].processor / used[OURS].processor)
            else:
                bounds.unknown(text)
        if few != many and OURS in used and OURS in results[kind, few]:
            text = "%s: processor time a line at %s lines by that at %s" % (kind, whole(many), whole(few))
            bounds.at_most(text, GROWTH_BOUNDS[kind], growth_row(OURS, kind, few, many, results)[1], "%.2f")


def check_costs(bounds, kinds, costs):
    """The bounds on instructions and allocations."""
    for kind in kinds:
        texts = ["%s: %s a line" % (kind, word) for word in ("instructions", "allocations")]
        if kind in costs:
            bounds.at_most(texts[0], INSTRUCTIONS_BOUNDS[kind], round(costs[kind].instructions_later), "%d")
            bounds.at_most(texts[1], ALLOCATIONS_BOUNDS[kind], costs[kind].allocations(), "%.2f")
        else:
            for text in texts:
                bounds.unknown(text)


def main(work, program, *words):
    quick = words[:1] == ("--quick",)
    kinds = list(words[1:] if quick else words)
    if quick:
        os.environ["HOGZENT_BENCH_RUNS"] = str(QUICK_RUNS)
    sizes = [QUICK_SIZE] if quick else SIZES
    peers = peers_of(work, program)
    if quick:
        peers = [peer for peer in peers if peer.name == OURS or peer.name in RATIO_BOUNDS]
    print(machine(), flush=True)
    results = measured(peers, work, kinds, sizes, runs_folder(work))
    print_tables(work, kinds, sizes, results)
    bounds = Bounds()
    check_times(bounds, kinds, sizes, results)
    with_costs = [kind for kind in kinds if kind in INSTRUCTIONS_BOUNDS]
    if with_costs and not quick:
        check_costs(bounds, with_costs, profiled(work, program, with_costs))
    return 0 if bounds.all_met else 1


if __name__ == "__main__":
    sys.exit(main(*sys.argv[1:]))
