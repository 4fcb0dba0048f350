"""Measures how fast each format goes through `run`, beside a plain program in Rust, and the peak memory of a long input
of expositions: formats.py WORK PROGRAM PEER [KIND..], without a KIND of all.

Each format is written as it was read, StatsD as line protocol; files stand on both sides, and both write a journal.
Before they are timed what both wrote is compared: they must have written all metrics, and how many lines of the two
outputs differ is printed (but for the times of StatsD, which are those of the run). Prints processor seconds (the least
of several runs, in turn) and each bound with what was measured; the status is 1 where one isn't met.
"""

import os
import re
import sys
from collections import namedtuple
from itertools import zip_longest

import kit
from kit import TEMPLATES, Peer, input_of, megabytes, run_once, whole
from measure import RUST, SIZES

LINES = max(SIZES)
RUNS = kit.runs_or(5)
# Samples that are 200 MB of expositions.
MEMORY_LINES, MEMORY_BYTES = 2_000_000, 200_000_000
MEGABYTES = 40.0
OURS = "hogzent run"

# A kind of input, how it is read and written, our lines a processor second by those of the plain program, at least,
# further lines of `agent` and of the input, and whether the times that are written are those of the run.
Way = namedtuple("Way", "kind read write ratio agent input at_moment", defaults=["", "", False])
WAYS = [
    Way("telegraf", "influx", "influx", 1.9),
    Way("small", "influx", "influx", 1.8),
    Way("statsd", "statsd", "influx", 1.75, at_moment=True),
    Way("graphite", "graphite", "graphite", 1.9, input=f"templates = {TEMPLATES}\n"),
    # One exposition has 1,000 samples: as many metrics a round as the lines of the other inputs are, and as the plain
    # program takes at once.
    Way("openmetrics", "openmetrics", "openmetrics", 2.2, agent="gather_pieces = 1\n"),
]


def peers_of(program, peer, way, source, folder):
    """Our program and the plain one, over one input."""
    config = kit.write_configuration(
        folder, way.kind, f"[agent]\n{way.agent}",
        kit.plugins("inputs", [source], f'data_format = "{way.read}"\n{way.input}'),
        kit.plugins("outputs", [os.path.join(folder, "output")], f'data_format = "{way.write}"\n'))
    templates = TEMPLATES if way.read == "graphite" else []
    return [
        Peer(OURS, [program, "run", config], {}),
        Peer(RUST, [peer, "pipe", "IN", "OUT", "peer.journal", way.read, *templates], {}),
    ]


def written(way, peer, source, folder):
    """The file that a program's run wrote, under another name; it must have written anything."""
    if run_once(peer, source, folder) is None:
        sys.exit(f"bench: {peer.name} failed on {way.kind}")
    kept = os.path.join(folder, "kept-" + peer.name.split()[0])
    os.replace(os.path.join(folder, "output"), kept)
    return kept


def lines_of(file, way):
    """The lines of an output, without the times of a run."""
    return (re.sub(rb" \d+\n$", b"\n", line) for line in file) if way.at_moment else file


def compare(way, peers, source, folder):
    """How many metrics each program wrote, and how many of their lines differ."""
    kept = [written(way, peer, source, folder) for peer in peers]
    counts, differing = [0, 0], 0
    with open(kept[0], "rb") as first, open(kept[1], "rb") as second:
        for lines in zip_longest(lines_of(first, way), lines_of(second, way)):
            for at, line in enumerate(lines):
                counts[at] += line is not None and not line.startswith(b"#")
            differing += lines[0] != lines[1]
    for path in kept:
        os.unlink(path)
    return counts, differing


def check_way(bounds, work, program, peer, way, folder):
    """Measures one kind of input; the rows of its table."""
    source = input_of(work, way.kind, LINES)
    peers = peers_of(program, peer, way, source, folder)
    kit.say(f"measuring {way.kind}, {whole(LINES)} lines, {RUNS} runs each")
    counts, differing = compare(way, peers, source, folder)
    bounds.say(
        f"{way.kind}: metrics written by ours and by rust, {whole(LINES)} each",
        f"{whole(counts[0])} and {whole(counts[1])}, {whole(differing)} lines differ", counts == [LINES, LINES])
    used = kit.in_turn(peers, source, folder, RUNS)
    ratio = used[RUST].processor / used[OURS].processor
    bounds.at_least(f"{way.kind}: our lines a processor second by those of {RUST}", way.ratio, ratio)
    return [
        [name, f"{way.kind}, {way.read} to {way.write}", f"{one.seconds:.3f}", f"{one.processor:.4f}",
         whole(LINES / one.processor), megabytes(one.kilobytes), f"{used[OURS].processor / one.processor:.2f}"]
        for name, one in used.items()
    ]


def check_memory(bounds, work, program, peer, folder):
    """The peak memory of a long input of expositions."""
    way = WAYS[-1]
    source = input_of(work, way.kind, MEMORY_LINES)
    size = os.path.getsize(source)
    kit.say(f"memory of {whole(size)} bytes of expositions")
    if size < MEMORY_BYTES:
        sys.exit(f"bench: there are only {whole(size)} bytes of expositions")
    used = run_once(peers_of(program, peer, way, source, folder)[0], source, folder)
    bounds.peak(f"run over {whole(size)} bytes of expositions", MEGABYTES, used)


def main(work, program, peer, *kinds):
    folder = kit.runs_folder(work)
    print(kit.machine(), flush=True)
    bounds, rows = kit.Bounds(), []
    for way in WAYS:
        if not kinds or way.kind in kinds:
            rows += check_way(bounds, work, program, peer, way, folder)
    print()
    kit.print_table(
        ["program", "input", "seconds", "processor s", "lines/processor s", "peak MB", "ratio to ours"], rows)
    if not kinds or "openmetrics" in kinds:
        check_memory(bounds, work, program, peer, folder)
    return 0 if bounds.all_met else 1


if __name__ == "__main__":
    sys.exit(main(*sys.argv[1:]))
