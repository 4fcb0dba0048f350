"""Compares the program's reading of seeded lines with a plain one:

    fuzz_formats.py FORMAT COUNT SEED PROBE PROGRAM

PROBE is format_probe: each piece that it reads must give the line, or the fault and its place, that the
module format_FORMAT gives, which follows docs/users/formats.md alone. Where the format is line protocol PROGRAM is the
agent: `pipe` must write these lines too, and what it wrote must be read by `pipe` without a refusal and written
again, as the same line; where the document itself has another line, that one must come, and the number of these
lines is printed. Graphite is read with seeded separators and templates, written too, also from line protocol, and
of lists of texts each must be templates, or no templates, in both. Expositions are read with types and without, where
samples out of range are passed over and where they refuse theirs, and written, also from line protocol; those at whole
seconds go through the Python client of Prometheus too, where there is one. Of the differences the first ten are printed,
with their bytes.
"""

import importlib
import os
import random
import re
import subprocess
import sys
import tempfile
from collections import namedtuple
from functools import partial

import format_influx
from format_influx import Refused

MOMENT = 7
LONGEST = 65_536
# How many lines the probe gets at once, and after how many differences no more are counted.
CHUNK = 5_000
MOST = 500
SHOWN = 10
# How many lines are read with each list of templates, and how many lines there are for each list of texts that
# may be none.
LINES_EACH = 200
LINES_PER_LIST = 20

# So many metrics make an exposition.
BATCH = 1_000
# Where Debian puts the Python client of Prometheus.
CLIENT = "/usr/lib/python3/dist-packages"


def pieces_of(text):
    """The pieces of a text, None for one that is too long: each line, and what is left at the end."""
    *lines, rest = text.split(b"\n")
    pieces = [None if len(line) > LONGEST else line.removesuffix(b"\r") for line in lines]
    return pieces + ([None if len(rest) > LONGEST else rest] if rest else [])


# How texts are read and written: the words of the probe, the plain reading of a piece, which gives its metrics and how
# many samples are passed over, the plain writing, which gives the lines of a metric, and how a text is cut.
Way = namedtuple("Way", "words read write cut", defaults=[pieces_of])


def expected_of(way, text):
    """What the probe is to write of a text: the lines for its pieces, and the numbers of these."""
    told, refused, passed, metrics = [], 0, 0, 0
    pieces = way.cut(text)
    for piece in pieces:
        try:
            if piece is None:
                raise TooLong
            read, more = way.read(piece, MOMENT)
            for metric in read:
                told += way.write(metric)
                metrics += 1
            passed += more
        except (Refused, TooLong) as fault:
            told.append(str(fault).encode())
            refused += 1
    return told, (len(pieces), refused, passed, metrics)


def listed(read, piece, moment):
    """The metrics of a piece, of a reading that gives one, none or a list of them; no sample is passed over."""
    metrics = read(piece, moment)
    return (metrics if isinstance(metrics, list) else [] if metrics is None else [metrics]), 0


class TooLong(Exception):
    """A piece is too long."""

    def __str__(self):
        return "TooLong"


def probed(probe, words, lines):
    """What the probe writes of these lines."""
    ran = subprocess.run([probe, *words], input=b"".join(lines), stdout=subprocess.PIPE, check=False)
    return ran.stdout if ran.returncode == 0 else b"status %d\n" % ran.returncode


def wanted(expected):
    """What it is to write of lines, given what is expected of each."""
    told = [it for one, _ in expected for it in one]
    sums = tuple(sum(numbers[at] for _, numbers in expected) for at in range(4))
    told.append(b"pieces %d refused %d passed %d metrics %d" % sums)
    return b"".join(it + b"\n" for it in told)


def differing(probe, words, lines, expected, most):
    """The places of up to so many lines of which the probe writes something else than is expected."""
    if most <= 0 or not lines or probed(probe, words, lines) == wanted(expected):
        return []
    if len(lines) == 1:
        return [0]
    half = len(lines) // 2
    first = differing(probe, words, lines[:half], expected[:half], most)
    second = differing(probe, words, lines[half:], expected[half:], most - len(first))
    return first + [half + at for at in second]


def endings_of(line):
    """Texts that end in each way, and lines about as long as a piece may be."""
    ends = (b"", b"\n", b"\r", b"\r\n")
    texts = [*ends, b"\n\r", b" ", line, line + b"\r\r", line + b"\r\r\n", line + b"\n" + line]
    return texts + [line.ljust(LONGEST + more) + end for more in (-1, 0, 1) for end in ends]


def compare_endings(way, example, probe):
    """Compares what the probe writes of texts that end in each way; a text for each difference."""
    found = []
    for text in endings_of(example):
        said, right = probed(probe, way.words, [text]), wanted([expected_of(way, text)])
        if said != right:
            texts = (text[-20:], len(text), said, right)
            found.append("%r, %d bytes\n    probe:    %r\n    document: %r" % texts)
    return found


def compare_lines(parts, probe, between=b"\n"):
    """Compares what the probe writes of parts, each a way and its lines; a text for each line where they differ."""
    found, kinds = [], {}
    for way, lines in parts:
        # What follows the last newline is a piece too.
        lines = [line + between for line in lines[:-1]] + lines[-1:]
        expected = [expected_of(way, line) for line in lines]
        for told, (_, refused, _, metrics) in expected:
            kind = "metrics" if metrics else told[0].split()[0].decode() if refused else "nothing"
            kinds[kind] = kinds.get(kind, 0) + 1
        for at in differing(probe, way.words, lines, expected, MOST - len(found)):
            texts = (way.words, lines[at], probed(probe, way.words, [lines[at]]), wanted(expected[at : at + 1]))
            found.append("%r\n    line:     %r\n    probe:    %r\n    document: %r" % texts)
    print("fuzz-formats: " + ", ".join("%s %d" % it for it in sorted(kinds.items(), key=lambda it: -it[1])))
    return found


def compare_reading(way, example, parts, probe):
    """Compares the probe's reading with the plain one, in one way first where texts end; the differences."""
    return compare_endings(way, example, probe) + compare_lines(parts, probe)


def chunks(way, lines):
    """These lines, in parts that the probe gets at once."""
    for begin in range(0, len(lines), CHUNK):
        yield way, lines[begin : begin + CHUNK]


def way_of(reader, form):
    """How a format is read and written as line protocol, without further words."""
    return Way([form, "influx"], partial(listed, reader.read), lambda metric: [format_influx.write(metric)])


def graphite_ways(reader, separator, texts):
    """How Graphite is read with a separator and templates, and written as line protocol and as Graphite."""
    templates = [reader.read_template(text) for text in texts]
    read = partial(listed, partial(reader.read, templates=templates, separator=separator))
    words = [separator, *texts]
    yield Way(["graphite", "influx", *words], read, lambda metric: [format_influx.write(metric)])
    yield Way(["graphite", "graphite", *words], read, reader.write)


def compare_templates(reader, lists, probe):
    """Compares which lists of texts are templates; a text for each difference."""
    found, good = [], 0
    for texts in lists:
        ran = subprocess.run([probe, "graphite", "count", ".", *texts], input=b"", stdout=subprocess.PIPE, check=False)
        taken = all(reader.is_template(text) for text in texts)
        good += taken
        if (ran.returncode, ran.stdout) != ((0, wanted([])) if taken else (2, b"")):
            found.append("%r\n    probe:    status %d\n    document: %r" % (texts, ran.returncode, taken))
    print("fuzz-formats: %d lists of %d are templates" % (good, len(lists)))
    return found


def compare_graphite(reader, rng, count, probe):
    """Compares the reading of Graphite and of templates, and the writing; the differences."""
    setups = [(list(graphite_ways(reader, *words)), lines) for *words, lines in reader.setups(rng, count, LINES_EACH)]
    shown = [[(ways[at], lines) for ways, lines in setups] for at in range(2)]
    found = compare_reading(way_of(reader, "graphite"), reader.EXAMPLES[0], shown[0], probe)
    report("graphite, %d lines, beside a reading by docs/users/formats.md" % count, found)
    written = compare_lines(shown[1], probe)
    report("graphite, %d lines, written as Graphite" % count, written)
    lines = list(reader.written_lines(rng, count // 2)) + list(format_influx.lines(rng, count - count // 2))
    others = compare_lines(chunks(Way(["influx", "graphite"], partial(listed, format_influx.read), reader.write), lines), probe)
    report("influx, %d lines, written as Graphite" % count, others)
    lists = list(reader.template_lists(rng, count // LINES_PER_LIST))
    refused = compare_templates(reader, lists, probe)
    report("graphite, %d lists of templates" % len(lists), refused)
    return found + written + others + refused


def batches_of(way, text):
    """The batches of a text's metrics, and what the probe is to write of it where they are written as expositions."""
    told, batches = [], [[]]
    expected, numbers = expected_of(way._replace(write=lambda metric: [metric]), text)
    for one in expected:
        if isinstance(one, bytes):
            told.append(one + b"\n")
            continue
        batches[-1].append(one)
        if len(batches[-1]) == BATCH:
            told.append(way.write(batches[-1]))
            batches.append([])
    batches = [batch for batch in batches if batch]
    if batches and len(batches[-1]) < BATCH:
        told.append(way.write(batches[-1]))
    return batches, b"".join(told) + wanted([([], numbers)])


def compare_batches(parts, probe):
    """Compares what the probe writes of parts as expositions, each a way and its texts; the differences, of few texts
    each, and the batches."""
    found, batches = [], []
    for way, texts in parts:
        batches += batches_of(way, b"".join(texts))[0]
        while texts and probed(probe, way.words, texts) != batches_of(way, b"".join(texts))[1]:
            half = len(texts) // 2
            halves = [part for part in (texts[:half], texts[half:]) if part and len(part) < len(texts)]
            halves = [part for part in halves if probed(probe, way.words, part) != batches_of(way, b"".join(part))[1]]
            if not halves:
                said, right = probed(probe, way.words, texts), batches_of(way, b"".join(texts))[1]
                found.append("%r\n    texts:    %r\n    probe:    %r\n    document: %r" % (way.words, texts, said, right))
            texts = halves[0] if halves else []
    return found, batches


def client_families():
    """The Python client's parser of expositions; None where there is none."""
    try:
        return importlib.import_module("prometheus_client.openmetrics.parser").text_string_to_metric_families
    except ImportError:
        if CLIENT in sys.path:
            return None
        sys.path.append(CLIENT)
        return client_families()


def client_samples(parse, text):
    """What the client reads in an exposition: its families with their samples."""
    try:
        return [
            (one.name, one.type, [(it.name, it.labels, float(it.value), float(it.timestamp)) for it in one.samples])
            for one in parse(text.decode())
        ]
    except ValueError as fault:
        return repr(fault)


def compare_client(reader, batches):
    """Compares what the client reads in the expositions of batches with their samples; a text for each difference."""
    found, parse = [], client_families()
    if parse is None:
        print("fuzz-formats: left out: there is no Python client of Prometheus")
        return found
    for batch in batches:
        right = [
            (family.decode(), "unknown", [sample_behind(family, *sample) for sample in samples])
            for family, samples in reader.families_of(batch)
        ]
        said = client_samples(parse, reader.write(batch))
        if said != right:
            found.append("client:   %r\n    document: %r" % (said, right))
    return found


def sample_behind(family, labels, text, time):
    """A sample as the client gives it."""
    labels = {label.decode(): value.decode() for label, value in labels.items()}
    return family.decode(), labels, float(text), float(time // format_influx.BILLION)


def compare_openmetrics(reader, rng, count, probe):
    """Compares the reading of expositions, and the writing; the differences."""
    texts = list(reader.texts(rng, count))
    ways = [
        Way(["openmetrics", "influx", *words], partial(reader.read, **dict.fromkeys(words, True)), write_line, reader.pieces_of)
        for words in ([], ["type_tag"], ["pass_out_of_range"], ["type_tag", "pass_out_of_range"])
    ]
    # A text without its last newline, or without an end, is a piece with the next one: it stands alone.
    ended = [text for text in texts if text.endswith((b"\n# EOF\n",)) or text == b"# EOF\n"]
    alone = [text for text in texts if not (text.endswith((b"\n# EOF\n",)) or text == b"# EOF\n")]
    parts = [part for at, way in enumerate(ways) for part in chunks(way, ended[at :: len(ways)])]
    parts += [(ways[at % len(ways)], [text]) for at, text in enumerate(alone)]
    found = compare_lines(parts, probe, b"")
    report("openmetrics, %d texts, beside a reading by docs/users/formats.md" % count, found)
    way = Way(["openmetrics", "openmetrics"], reader.read, reader.write, reader.pieces_of)
    again, _ = compare_batches(chunks(way, ended), probe)
    report("openmetrics, %d texts, written as expositions" % len(ended), again)
    way = Way(["influx", "openmetrics"], partial(listed, format_influx.read), reader.write)
    lines = [line + b"\n" for line in list(reader.lines(rng, count)) + list(format_influx.lines(rng, count // 4))]
    written, _ = compare_batches(chunks(way, lines), probe)
    report("influx, %d lines, written as expositions" % len(lines), written)
    whole = [line for line in lines if line.endswith(b"000000000\n") or line.endswith(b" 0\n")]
    others, batches = compare_batches(chunks(way, whole), probe)
    whole = [[metric for metric in batch if metric[3] % format_influx.BILLION == 0] for batch in batches]
    clients = compare_client(reader, whole)
    report("influx, %d batches, written as expositions, through the Python client" % len(whole), clients)
    return found + again + written + others + clients


def write_line(metric):
    """The line of a metric."""
    return [format_influx.write(metric)]


def piped(program, source, target):
    """Runs the agent over a file; the pieces, refusals and metrics of its account, and the output's lines."""
    with tempfile.TemporaryDirectory() as folder:
        words = [program, "pipe", source, target, "1000", "10000"]
        ran = subprocess.run(words, cwd=folder, stdin=subprocess.DEVNULL, capture_output=True, check=False)
    account = re.match(rb"input 0 pieces (\d+) refused (\d+) .* gathered (\d+) ended\n", ran.stdout)
    if ran.returncode != 0 or not account:
        sys.exit("fuzz-formats: pipe ended with status %d: %r, %r" % (ran.returncode, ran.stdout, ran.stderr))
    with open(target, "rb") as file:
        *lines, rest = file.read().split(b"\n")
    return tuple(int(it) for it in account.groups()), lines + [rest] * (rest != b"")


def compare_written(reader, lines, account, written):
    """Compares what the agent counted and wrote of lines with the document; a text for each difference."""
    found, metrics, refused = [], [], 0
    pieces = pieces_of(b"\n".join(lines))
    for piece in pieces:
        try:
            metrics.append(reader.read(piece, None) if piece is not None else None)
            refused += piece is None
        except reader.Refused:
            refused += 1
    metrics = [it for it in metrics if it is not None]
    counts = (len(pieces), refused, len(metrics))
    if account != counts:
        found.append("pieces, refused, gathered are %r, and not %r" % (account, counts))
    if len(written) != len(metrics):
        found.append("%d lines were written" % len(written))
    for said, (*metric, time) in zip(written, metrics):
        # Where the line had no time it has the moment at which it was read.
        line = reader.write((*metric, time if time is not None else int(re.search(rb"\d*$", said)[0] or 0)))
        if said != line:
            found.append("pipe wrote: %r\n    document:   %r" % (said, line))
    return found


def compare_again(way, written, account, again):
    """Compares what the agent wrote of its own lines with these; gives the differences, and the lines
    that the document itself changes."""
    found, changed = [], []
    if account != (len(written), 0, len(written)) or len(again) != len(written):
        found.append("pieces, refused, gathered are %r, of %d lines" % (account, len(written)))
    for line, said in zip(written, again):
        told, _ = expected_of(way, line + b"\n")
        if [said] != told:
            found.append("%r\n    written again: %r\n    document:      %r" % (line, said, told))
        elif said != line:
            changed.append(line)
    return found, changed


def compare_pipe(reader, form, lines, program):
    """Runs the agent over the lines, and over what it wrote; the differences."""
    with tempfile.TemporaryDirectory() as folder:
        path, first, second = (os.path.join(folder, name) for name in ("in", "first", "second"))
        with open(path, "wb") as file:
            file.write(b"\n".join(lines))
        account, written = piped(program, path, first)
        account_again, again = piped(program, first, second)
    found = compare_written(reader, lines, account, written)
    report("%s, what pipe wrote, beside the document" % form, found)
    found_again, changed = compare_again(way_of(reader, form), written, account_again, again)
    report("%s, what pipe wrote, through pipe again" % form, found_again)
    if changed:
        print("fuzz-formats: %d of these lines are another line by the document itself, as" % len(changed))
        for line in changed[:3]:
            print("  %r" % line)
    return found + found_again


def report(name, found):
    """Prints how many differences there are, and the first ones."""
    count = "%d or more" % MOST if len(found) >= MOST else "%d" % len(found)
    print("fuzz-formats: %s: %s differences" % (name, count))
    for text in found[:SHOWN]:
        print("  " + text)
    sys.stdout.flush()


def main(form, count, seed, probe, program):
    """Makes the lines and compares; the status."""
    reader = importlib.import_module("format_" + form)
    rng, count = random.Random("%s %s" % (form, seed)), int(count)
    if form in ("graphite", "openmetrics"):
        compare = compare_graphite if form == "graphite" else compare_openmetrics
        return 1 if compare(reader, rng, count, probe) else 0
    lines, way = list(reader.lines(rng, count)), way_of(reader, form)
    reading = compare_reading(way, reader.EXAMPLES[0], chunks(way, lines), probe)
    report("%s, %d lines, beside a reading by docs/users/formats.md" % (form, count), reading)
    # The agent reads line protocol alone.
    return 1 if reading + (compare_pipe(reader, form, lines, program) if form == "influx" else []) else 0


if __name__ == "__main__":
    sys.exit(main(*sys.argv[1:]))
