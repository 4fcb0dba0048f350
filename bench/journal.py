"""Measures how fast format_probe reads journals, beside a plain program in Rust, and how much memory it takes:
journal.py WORK PROGRAM PROBE PEER.

The journals are those of runs of PROGRAM over small and telegraf lines, with one output; both must count the same of
each. Then the texts of hostile_journals.py are read. Prints processor seconds (the least of several runs, in turn), the
peak memory, and each bound with what was measured; the status is 1 where one isn't met.
"""

import os
import sys

import hostile
import hostile_journals
import kit
from kit import Peer, input_of, megabytes, whole
from measure import SIZES

KINDS = ["small", "telegraf"]
FEW, MANY = min(SIZES), max(SIZES)
RUNS, HOSTILE_RUNS = kit.runs_or(5), 3
OURS, RUST = "format_probe", "rust"
# Lines a processor second by those of the plain program, processor time a line at the most lines by that at the fewest,
# and bytes of memory a byte of the text.
RATIO, GROWTH, BYTES_A_BYTE = 1.2, 1.1, 24
# The bounds on each hostile text.
SECONDS, HOSTILE_BYTES = 2, 80
TOLD = "told"
HEAD = ["program", "input", "lines of it", "lines", "bytes", "seconds", "processor s", "lines/processor s", "peak MB",
        "bytes a byte", "ratio to ours"]


def reader_of(name, words, journal):
    """A program that reads a journal as its standard input, and counts what it has."""
    return Peer(name, ["sh", "-c", 'exec "$0" "$@" < "$JOURNAL"', *words], {"JOURNAL": journal, "TOLD": TOLD})


def told_in(folder):
    """What the last program told."""
    with open(os.path.join(folder, TOLD), "rb") as file:
        return file.read()


def journal_of(program, work, kind, lines, folder):
    """The journal of a run over an input, and how many lines it has."""
    journal = os.path.join(folder, "journal-of-%s" % kind)
    config = kit.write_configuration(
        folder, "journal-of-%s" % kind, '[agent]\njournal = "%s"\n' % journal,
        kit.plugins("inputs", [input_of(work, kind, lines)]), kit.plugins("outputs", ["/dev/null"]))
    if kit.run_once(Peer("run", [program, "run", config], {}), "", folder) is None:
        sys.exit("bench: the run over %s lines of %s failed" % (whole(lines), kind))
    with open(journal, "rb") as file:
        return journal, sum(part.count(b"\n") for part in iter(lambda: file.read(1 << 20), b""))


def compare(peers, kind, lines, folder):
    """Ends the program where the two count differently."""
    told = []
    for peer in peers:
        if kit.run_once(peer, "", folder) is None:
            sys.exit("bench: %s failed on the journal of %s lines of %s" % (peer.name, whole(lines), kind))
        told.append(told_in(folder))
    if told[0] != told[1] or b" items %d " % lines not in told[0]:
        sys.exit("bench: they count differently: %r, %r" % tuple(told))


def check_size(bounds, given, kind, lines, folder):
    """Measures the journal of a kind of input at one size; the processor seconds of a line by program, and the rows."""
    work, program, probe, rust = given
    journal, count = journal_of(program, work, kind, lines, folder)
    size = os.path.getsize(journal)
    peers = [reader_of(OURS, [probe, "journal", "count"], journal), reader_of(RUST, [rust, "journal"], journal)]
    kit.say("measuring the journal of %s lines of %s, %d runs each" % (whole(lines), kind, RUNS))
    compare(peers, kind, lines, folder)
    used = kit.in_turn(peers, "", folder, RUNS)
    os.unlink(journal)
    each = {name: one.kilobytes * 1024 / size for name, one in used.items()}
    text = "%s, %s lines: bytes of memory a byte of the journal" % (kind, whole(lines))
    bounds.at_most(text, BYTES_A_BYTE, each[OURS], "%.1f")
    rows = [
        [name, kind, whole(lines), whole(count), whole(size), "%.3f" % one.seconds, "%.4f" % one.processor,
         whole(count / one.processor), megabytes(one.kilobytes), "%.1f" % each[name],
         "%.2f" % (used[OURS].processor / one.processor)]
        for name, one in used.items()
    ]
    return {name: one.processor / count for name, one in used.items()}, rows


def check_kind(bounds, given, kind, folder):
    """The bounds on the journals of a kind of input; the rows of its table."""
    many, rows_of_many = check_size(bounds, given, kind, MANY, folder)
    text = "%s, %s lines: our lines a processor second by those of %s" % (kind, whole(MANY), RUST)
    bounds.at_least(text, RATIO, many[RUST] / many[OURS])
    if FEW == MANY:
        return rows_of_many
    few, rows_of_few = check_size(bounds, given, kind, FEW, folder)
    text = "%s: processor time a line at %s lines by that at %s" % (kind, whole(MANY), whole(FEW))
    bounds.at_most(text, GROWTH, many[OURS] / few[OURS], "%.2f")
    return rows_of_few + rows_of_many


def check_hostile(bounds, probe, given, folder):
    """The bounds on a hostile text, of which the probe must say what is right; the row of its table."""
    path = os.path.join(folder, "hostile-journal")
    with open(path, "wb") as file:
        file.write(given.text)
    words = ["prlimit", "--as=%d" % hostile.LIMIT, probe, "journal", "count"]
    text = "%s, %s bytes" % (given.name, whole(len(given.text)))
    runs = []
    for _ in range(HOSTILE_RUNS):
        status, used = kit.run(reader_of(OURS, words, path), "", folder)
        told = told_in(folder)
        if status != 0 or told != given.told:
            bounds.say(text, "it failed, with status %d and %r" % (status, told[:100]), False)
            return [given.name, whole(len(given.text)), "-", "-", "-", "-"]
        runs.append(used)
    used = kit.best(runs)
    each = used.kilobytes * 1024 / len(given.text)
    bounds.say("%s: processor seconds, under %d" % (text, SECONDS), "%.3f" % used.processor, used.processor < SECONDS)
    bounds.say("%s: bytes of memory a byte, under %d" % (text, HOSTILE_BYTES), "%.1f" % each, each < HOSTILE_BYTES)
    numbers = ["%.3f" % used.seconds, "%.3f" % used.processor, megabytes(used.kilobytes), "%.1f" % each]
    return [given.name, whole(len(given.text)), *numbers]


def main(*given):
    folder = kit.runs_folder(given[0])
    print(kit.machine(), flush=True)
    bounds, rows = kit.Bounds(), []
    for kind in KINDS:
        rows += check_kind(bounds, given, kind, folder)
    print()
    kit.print_table(HEAD, rows)
    rows = []
    for one in hostile_journals.texts():
        kit.say("reading %s" % one.name)
        rows.append(check_hostile(bounds, given[2], one, folder))
    print()
    kit.print_table(["hostile text", "bytes", "seconds", "processor s", "peak MB", "bytes a byte"], rows)
    return 0 if bounds.all_met else 1


if __name__ == "__main__":
    sys.exit(main(*sys.argv[1:]))
