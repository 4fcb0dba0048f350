"""What the measurements share: inputs, configurations, runs of programs and what they used, tables, and bounds."""

import datetime
import filecmp
import os
import re
import subprocess
import sys
import zlib
from collections import namedtuple

HERE = os.path.dirname(os.path.realpath(__file__))
OURS = "hogzent pipe"
# Of the lines of Graphite seven in ten are served by the first.
TEMPLATES = ["servers.* .host.measurement.field*", "environment.service.measurement* source=graphite"]

# What a run used: seconds, processor seconds (user and system, of all threads), and its peak in units of 1,024 bytes.
Used = namedtuple("Used", "seconds processor kilobytes")
# A program that is measured: IN and OUT stand for the places in its words, and `env` is added to the environment.
Peer = namedtuple("Peer", "name words env")


def say(text):
    print("bench: " + text, file=sys.stderr, flush=True)


def whole(number):
    return format(round(number), ",")


def megabytes(kilobytes):
    return "%.1f" % (kilobytes * 1024 / 1e6)


def runs_or(default):
    """How often each program is run: as HOGZENT_BENCH_RUNS says, or else so often."""
    return int(os.environ.get("HOGZENT_BENCH_RUNS") or default)


def input_of(work, kind, lines):
    """The file of an input, made where there is none of this kind and size from this maker."""
    maker = os.path.join(HERE, "inputs.py")
    with open(maker, "rb") as source:
        mark = zlib.crc32(source.read())
    path = os.path.join(work, "%s-%d-%08x" % (kind, lines, mark))
    if not os.path.exists(path):
        say("making %s, %s lines" % (kind, format(lines, ",")))
        subprocess.run([sys.executable, maker, kind, str(lines), path + ".new"], check=True)
        os.rename(path + ".new", path)
    return path


def lines_of_series(work, series, lines):
    """A file of lines of so many series in turn, each with another value."""
    path = os.path.join(work, "series-%d-%d" % (series, lines))
    if not os.path.exists(path):
        say("making %s lines of %s series" % (whole(lines), whole(series)))
        with open(path + ".new", "w", encoding="utf-8") as file:
            for line in range(lines):
                file.write("cpu,host=node-%06d v=%di %d\n" % (line % series, line, 1_790_000_000_000_000_000 + line))
        os.rename(path + ".new", path)
    return path


def runs_folder(work):
    """The folder in which programs are run."""
    folder = os.path.join(work, "runs")
    os.makedirs(folder, exist_ok=True)
    return folder


def plugins(word, places, more=""):
    """The inputs or outputs of these places, each with these lines, in a configuration."""
    return "".join(f'[[{word}.file]]\nfiles = ["{place}"]\n{more}' for place in places)


def write_configuration(folder, name, *tables):
    """Writes a configuration of these tables, and gives its place."""
    path = os.path.join(folder, name + ".toml")
    with open(path, "w", encoding="utf-8") as file:
        file.write("".join(tables))
    return path


def run_of(program, folder, name, source, tables):
    """A run of an input to an output with these tables between them."""
    output = os.path.join(folder, "output")
    place = write_configuration(folder, name.replace(" ", "-"), plugins("inputs", [source]), tables, plugins("outputs", [output]))
    return Peer(name, [program, "run", place], {})


def pipe_of(program, source="IN", target="OUT"):
    """The program's `pipe`."""
    return Peer(OURS, [program, "pipe", source, target, "1000", "10000"], {})


def run(peer, source, folder):
    """Runs a program in the folder; its status and what it used."""
    target = os.path.join(folder, "output")
    for name in ("output", "agent.journal", "peer.journal"):
        path = os.path.join(folder, name)
        if os.path.exists(path):
            os.unlink(path)
    places = {"IN": source, "OUT": target}
    words = [places.get(word, word) for word in peer.words]
    status, *used = subprocess.run(
        [os.path.join(HERE, "once"), sys.executable] + words,
        cwd=folder, env=dict(os.environ, **peer.env), stdout=subprocess.PIPE, check=True,
    ).stdout.split()
    return int(status), Used(float(used[0]), float(used[1]), int(used[2]))


def run_once(peer, source, folder):
    """What a program used; None where it failed."""
    status, used = run(peer, source, folder)
    return used if status == 0 else None


def run_back(peer, source, folder):
    """What a program used that gave back its input; None where it failed or wrote another text."""
    used = run_once(peer, source, folder)
    if used is None or not filecmp.cmp(source, os.path.join(folder, "output"), shallow=False):
        return None
    return used


def best(runs):
    """The least times of runs; of their peaks the greatest."""
    seconds, processor, kilobytes = zip(*runs)
    return Used(min(seconds), min(processor), max(kilobytes))


def in_turn(peers, source, folder, runs):
    """The best of several runs of each program, in turn, by the programs' names."""
    used = {peer.name: [] for peer in peers}
    for _ in range(runs):
        for peer in peers:
            one = run_once(peer, source, folder)
            if one is None:
                sys.exit("bench: %s failed" % peer.name)
            used[peer.name].append(one)
    return {name: best(all_runs) for name, all_runs in used.items()}


def print_table(head, rows):
    """A table in Markdown, its first two columns to the left."""
    rows = [head] + rows
    widths = [max(len(row[i]) for row in rows) for i in range(len(head))]

    def line(row):
        cells = [c.ljust(w) if i < 2 else c.rjust(w) for i, (c, w) in enumerate(zip(row, widths))]
        return "| " + " | ".join(cells) + " |"

    marks = ["-" * w if i < 2 else "-" * (w - 1) + ":" for i, w in enumerate(widths)]
    for row in [rows[0], marks] + rows[1:]:
        print(line(row))
    print(flush=True)


def machine():
    """What the machine is, and how busy it is."""
    with open("/proc/cpuinfo") as info:
        model = re.search(r"model name\s*: (.*)", info.read())
    memory = os.sysconf("SC_PAGE_SIZE") * os.sysconf("SC_PHYS_PAGES") / 1e9
    return "%s. %d cores, %s, %.0f GB; load %.1f, %.1f, %.1f." % (
        (datetime.date.today(), os.cpu_count(), model.group(1) if model else "unknown", memory) + os.getloadavg())


class Bounds:
    """The bounds, each printed with what was measured."""

    def __init__(self):
        self.all_met = True

    def say(self, text, measured, met):
        self.all_met = self.all_met and met
        print("- %s: %s, %s" % (text, measured, "met" if met else "NOT MET"), flush=True)

    def at_least(self, text, bound, measured):
        self.say("%s, at least %g" % (text, bound), "%.2f" % measured, measured >= bound)

    def at_most(self, text, bound, measured, form):
        self.say("%s, at most %s" % (text, form % bound), form % measured, measured <= bound)

    def peak(self, text, bound, used):
        """The bound in MB on the peak of a run, which is None where it failed."""
        if used is None:
            self.say("%s: peak memory in MB, at most %.1f" % (text, bound), "it failed", False)
        else:
            self.at_most("%s: peak memory in MB" % text, bound, used.kilobytes * 1024 / 1e6, "%.1f")

    def unknown(self, text):
        print("- %s: not measured" % text)
