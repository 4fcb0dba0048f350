"""Measures how fast format_probe reads a format, and writes it, beside a program in Go:
reading.py WORK PROBE PEER FORMAT. Both must count the same pieces and metrics.

Prints processor seconds (the least of several runs, in turn) at each size, and each bound with what was measured;
the status is 1 where one isn't met.
"""

import os
import resource
import subprocess
import sys
from collections import namedtuple

import kit
import worst

RUNS, WORST_RUNS = 7, 3
# Processor time a line at the most lines by that at the fewest.
GROWTH = 1.1
# What writing small lines as Graphite costs by what line protocol does.
SMALL, WRITING = 1_000_000, 1.0

# What is done: the further words of the probe, and those of the Go program, in which IN and OUT stand for places. Our
# lines a processor second must be at least so many times those of go.
Way = namedtuple("Way", "done ours theirs ratio")
# What is measured of a format: of what its input is made, at which sizes, what is done with it, and the most processor
# seconds that a text made to cost the reader may take, in the last of these ways.
Form = namedtuple("Form", "unit sizes ways worst seconds")
FORMS = {
    "statsd": Form("line", [10_000, 1_000_000], [Way("read", ["count"], ["IN"], 1.2)], worst.statsd, 0.1),
    "graphite": Form(
        "line", [100_000, 1_000_000],
        [Way("read", ["count", ".", *kit.TEMPLATES], ["IN", *kit.TEMPLATES], 2.0)], worst.graphite, 0.1),
    "openmetrics": Form(
        "sample", [100_000, 1_000_000],
        [Way("read", ["count"], ["IN"], 2.0), Way("read and written", ["openmetrics"], ["IN", "OUT"], 1.5)],
        worst.openmetrics, 1.0),
}


def run(words, source):
    """What a program says of an input, and its processor seconds."""
    before = resource.getrusage(resource.RUSAGE_CHILDREN)
    with open(source, "rb") as stdin:
        told = subprocess.run(words, stdin=stdin, stdout=subprocess.PIPE, check=True).stdout
    after = resource.getrusage(resource.RUSAGE_CHILDREN)
    return told, after.ru_utime + after.ru_stime - before.ru_utime - before.ru_stime


def least(programs, source):
    """What each program says of an input at last, and its least processor seconds of several runs in turn."""
    used, told = {name: [] for name in programs}, {}
    for _ in range(RUNS):
        for name, words in programs.items():
            said, seconds = run(words, source)
            told[name] = said.splitlines()[-1:]
            used[name].append(seconds)
    return told, {name: min(seconds) for name, seconds in used.items()}


def compare(work, probe, peer, name, form, way):
    """The processor seconds of a line by program and size."""
    each, out = {}, os.path.join(work, name + "-written")
    for lines in form.sizes:
        source = kit.input_of(work, name, lines)
        theirs = [{"IN": source, "OUT": out}.get(word, word) for word in way.theirs]
        told, used = least({"hogzent": [probe, name, *way.ours], "go": [peer, *theirs]}, source)
        if told["hogzent"] != told["go"]:
            sys.exit("bench: they count differently: %r, %r" % (told["hogzent"], told["go"]))
        for program, seconds in used.items():
            each[program, lines] = seconds / lines
            print("%-8s %9d %ss %s, %.4f processor s, %9.0f %ss a processor s" % (
                program, lines, form.unit, way.done, seconds, lines / seconds, form.unit), flush=True)
    return each


def check_way(bounds, name, form, way, each):
    """The bounds on one of the ways: beside go, and where there is more to do."""
    most, few = max(form.sizes), min(form.sizes)
    ratio = each["go", most] / each["hogzent", most]
    bounds.at_least("%s: our %ss a processor second by those of go, %s" % (name, form.unit, way.done), way.ratio, ratio)
    text = "%s: processor time a %s at %d by that at %d, %s" % (name, form.unit, most, few, way.done)
    bounds.at_most(text, GROWTH, each["hogzent", most] / each["hogzent", few], "%.2f")


def check_writing(bounds, work, probe):
    """The bound on what it costs to write small lines as Graphite and as line protocol, less reading alone."""
    source = kit.input_of(work, "small", SMALL)
    _, used = least({shown: [probe, "influx", shown] for shown in ("count", "influx", "graphite")}, source)
    for shown, seconds in used.items():
        print("influx %-8s %9d small lines, %.4f processor s" % (shown, SMALL, seconds), flush=True)
    cost = (used["graphite"] - used["count"]) / (used["influx"] - used["count"])
    bounds.at_most("graphite: what writing small lines costs by what line protocol does", WRITING, cost, "%.2f")


def check_worst(bounds, work, probe, name, form):
    """The bounds on texts that are made to cost the reader."""
    path = os.path.join(work, name + "-worst")
    for said, text in form.worst():
        with open(path, "wb") as out:
            out.write(text + b"\n")
        seconds = min(run([probe, name, *form.ways[-1].ours], path)[1] for _ in range(WORST_RUNS))
        bounds.at_most("%s: processor seconds of a longest piece, %s" % (name, said), form.seconds, seconds, "%.3f")


def main(work, probe, peer, name):
    print(kit.machine(), flush=True)
    bounds, form = kit.Bounds(), FORMS[name]
    each = [(way, compare(work, probe, peer, name, form, way)) for way in form.ways]
    for way, of_way in each:
        check_way(bounds, name, form, way, of_way)
    if name == "graphite":
        check_writing(bounds, work, probe)
    check_worst(bounds, work, probe, name, form)
    return 0 if bounds.all_met else 1


if __name__ == "__main__":
    sys.exit(main(*sys.argv[1:]))
