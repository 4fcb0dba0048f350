"""Runs tools/journal-picture as a person does, by its command line: journal_picture.py PROGRAM.

What is expected is written by hand (journal_texts.py), or is the account that the program reported, or what another reader
of journals says (running_journal.py). The tool runs with little room and little time, so that one which takes room for what
a text only names fails.
"""

import os
import random
import re
import resource
import shutil
import subprocess
import sys
import tempfile
import xml.etree.ElementTree
import zlib
from collections import Counter, namedtuple

import journal_texts as texts
import running_journal
from running_journal import held, require

TOP = os.path.dirname(os.path.dirname(os.path.realpath(__file__)))
TOOL = os.path.join(TOP, "tools", "journal-picture")
JOURNAL, PICTURE = running_journal.JOURNAL, "picture.svg"
SECONDS = 60
# The most room for addresses that the tool has; it wants some 25 MB.
ROOM = 200 << 20
FATES = ["filtered", "late", "consumed", "written", "buffered", "dropped"]
RANDOM_RUNS, RANDOM_TEXTS, CHANGED_TEXTS = 25, 60, 150
NAMES, TAGS = ["zebra", "quagga", "okapi", "tapir"], ["north", "south", "east"]
OUTPUT = re.compile(r"output (\d+) filtered (\d+) late (\d+) consumed (\d+) written (\d+) buffered (\d+) dropped (\d+)\n")
INPUT = re.compile(r"(input \d+) pieces (\d+) refused (\d+) passed (\d+) filtered (\d+) gathered (\d+) ended\n")
MADE = re.compile(r"items made (\d+) ")

# What a command did: its status, and what it wrote.
Did = namedtuple("Did", "status out told")
# A picture: its text, how wide each ribbon is and what its number is by output, source and fate.
Drawn = namedtuple("Drawn", "text widths counts")


class LeftOut(Exception):
    """A case can't be run here."""


def do(words, folder, text=b"", room=None):
    """Runs a command in a folder over a text, with so much room for addresses where that is said."""

    def limit():
        resource.setrlimit(resource.RLIMIT_AS, (room, room))

    ran = subprocess.run(
        words, cwd=folder, input=text, capture_output=True, timeout=SECONDS, preexec_fn=limit if room else None, check=False)
    return Did(ran.returncode, ran.stdout.decode(), ran.stderr.decode())


def tell(folder, *words, text=b""):
    """Runs the tool over what lies in a folder, or over a text as its standard input."""
    return do([TOOL, *words], folder, text, ROOM)


def same(found, wanted):
    """Raises where a run of the tool isn't a good one that prints what is wanted."""
    require(found == Did(0, wanted, ""), f"{found}, and wanted\n{wanted}")


def refused(found, name):
    """Raises where a run of the tool has another status than 1, or other than one line for people."""
    lines = found.told.splitlines()
    require(found.status == 1 and len(lines) == 1 and lines[0].startswith("journal-picture: "), f"{name}: {found}")


def lay(folder, files):
    """Writes files into a folder."""
    for name, content in files.items():
        with open(os.path.join(folder, name), "wb") as file:
            file.write(content)


def drawn(folder, *words, text=b""):
    """The picture that the tool draws: that it is XML, that each ribbon has a title, and what the ribbons say."""
    found = tell(folder, *words, PICTURE, text=text)
    require(found.status == 0 and not found.told, f"{found}")
    whole = held(folder, PICTURE).decode()
    widths, counts = {}, {}
    for it in xml.etree.ElementTree.fromstring(whole).iter():
        if "data-count" in it.attrib:
            key = int(it.attrib["data-output"]), it.attrib["data-source"], it.attrib["data-fate"]
            require(key not in counts and it.find("{http://www.w3.org/2000/svg}title").text, f"a ribbon of {key}")
            widths[key], counts[key] = float(it.attrib["stroke-width"]), int(it.attrib["data-count"])
    return Drawn(whole, widths, counts)


def two_lines(program, folder):
    """A run of two lines."""
    lay(folder, {"a": texts.TWO_LINES})
    require(do([program, "pipe", "a", "b", "10", "100"], folder).status == 0, "the run failed")
    same(tell(folder, JOURNAL), texts.TWO_TABLE)
    same(tell(folder, "-", text=held(folder, JOURNAL)), texts.TWO_TABLE)


def full(program, folder):
    """A run of five lines, of which three may wait, to an output that accepts nothing."""
    lay(folder, {"a": texts.FIVE_LINES})
    require(do([program, "pipe", "a", "/dev/full", "2", "3"], folder).status == 6, "the run didn't end with 6")
    same(tell(folder, JOURNAL), texts.FULL_TABLE)


def readme(program, folder):
    """The run of README.md, with filters, whose picture it shows."""
    lay(folder, texts.README_FILES)
    require(do([program, "run", "agent.toml"], folder).status == 0, "the run failed")
    same(tell(folder, JOURNAL), texts.README_TABLE)
    require(held(os.path.join(TOP, "docs"), "run.svg").decode() == drawn(folder, JOURNAL).text, "docs/run.svg is another one")


def written(name):
    """A case: a journal that was written by hand."""

    def run(program, folder):
        same(tell(folder, "-", text=getattr(texts, name)), getattr(texts, name + "_TABLE"))

    return run


def head_of(entries, is_whole):
    """The line about a text of which so many entries were read."""
    count = "1 entry" if entries == 1 else f"{entries} entries"
    if is_whole:
        return f"a whole journal, {count}"
    return f"the front of a journal, {count}; the text ends there: the run goes on, or was cut off"


def fronts(program, folder):
    """Two journals, cut off behind each line, within it, and before its newline."""
    for text, entries in ((texts.TWO, texts.TWO_ENTRIES), (texts.FORMS, texts.FORMS_ENTRIES)):
        lines = text.splitlines(keepends=True)
        for number, line in enumerate(lines):
            before = b"".join(lines[:number])
            for front in (before, before + line[:1], before + line[:-1]):
                found = tell(folder, "-", text=front)
                if entries[number] is None:
                    refused(found, front)
                else:
                    head = head_of(entries[number], False)
                    is_right = (found.status, found.out.split("\n")[0], found.told) == (0, head, "")
                    require(is_right, f"{front[-60:]}: {found}")


def unfinished(program, folder):
    """A gather of which a metric is lacking counts for nothing, nor does what was made and isn't there."""
    for text, lines in ((texts.FORMS, 10), (texts.FORMS, 27)):
        front = b"".join(text.splitlines(keepends=True)[:lines])
        before = front[: front.rindex(b"gather " if lines == 10 else b"tick ")]
        require(tell(folder, "-", text=front) == tell(folder, "-", text=before), f"the front of {lines} lines")


def toml_of(rng, filters):
    """Some lines of a configuration: a filter, or none."""
    return "".join(line + "\n" for line in rng.sample(filters, rng.choice([0, 0, 1, 1, 2])))


def random_run(rng, folder):
    """Writes a configuration with its inputs; gives how many outputs it has."""
    filters = ['namepass = ["z*", "okapi"]', 'namedrop = ["t*"]', 'tagpass = {herd = ["north", "s*"]}', 'fieldexclude = ["v"]']
    parts = [f"[agent]\ngather_pieces = {rng.choice([1, 3, 8, 1000])}\n"]
    for index in range(rng.randint(1, 3)):
        lines = []
        for number in range(rng.randrange(25)):
            fields = rng.choice([f"v={number}i", f"w={number}i", f"v={number}i,w=2i"])
            lines.append(f"{rng.choice(NAMES)},herd={rng.choice(TAGS)} {fields} {number}")
            lines += rng.choice([[], [], [], [""], ["# a comment"], ["cpu v=x"]])
        lay(folder, {f"in{index}": "".join(line + "\n" for line in lines).encode()})
        parts.append(f'[[inputs.file]]\nfiles = ["in{index}"]\n' + toml_of(rng, filters))
    if rng.random() < 0.5:
        exposition = "# TYPE herd gauge\n" + "".join(f'herd{{n="{it}"}} {rng.choice(["1", "NaN"])}\n' for it in range(5))
        lay(folder, {"more": (exposition + "# EOF\n").encode()})
        parts.append('[[inputs.file]]\nfiles = ["more"]\ndata_format = "openmetrics"\n')
    for kind in rng.sample(["merge", "minmax", "final"], rng.choice([0, 0, 1, 2])):
        # The metrics are of 1970: an aggregator with this grace takes them, another one finds them late.
        times = rng.choice(['grace = "510000h"\n', 'grace = "510000h"\n', ""])
        keeps = f'drop_original = {rng.choice(["true", "false"])}\n'
        parts.append(f"[[aggregators.{kind}]]\n" + times + keeps + toml_of(rng, filters))
    outputs = rng.sample(["out0", "out1", "out2", "/dev/full"], rng.randint(1, 3))
    for place in outputs:
        limit = rng.choice([1, 2, 5, 20, 1000])
        sizes = f"metric_batch_size = {rng.randint(1, limit)}\nmetric_buffer_limit = {limit}\n"
        parts.append(f'[[outputs.file]]\nfiles = ["{place}"]\n' + sizes + toml_of(rng, filters))
    lay(folder, {"agent.toml": "".join(parts).encode()})


def compare_run(report, picture, out):
    """Raises where a picture, or what was printed, isn't as the account that the program reported."""
    outputs = [[int(it) for it in found] for found in OUTPUT.findall(report)]
    inputs = INPUT.findall(report)
    made = MADE.search(report)[1]
    require(len(inputs) + len(outputs) + 1 == len(report.splitlines()), f"the report {report}")
    # None of these runs has processors, so each that an input gathered is routed, and has a fate at each output.
    for row in inputs:
        require(re.search("^" + " +".join([*row, "0", "0", row[-1]]) + "$", out, re.M), f"no row of {row} in\n{out}")
    require(made == "0" or re.search(rf"^made .* {made}$", out, re.M), f"no row of {made} that were made in\n{out}")
    for index, *numbers in outputs:
        sums = Counter()
        for (output, _, fate), count in picture.counts.items():
            sums[fate] += count if output == index else 0
        require([sums[fate] for fate in FATES] == numbers, f"output {index}: {sums}, and the account has {numbers}")
        for source, *_, gathered in [*inputs, ("made", made)]:
            routed = sum(count for key, count in picture.counts.items() if key[:2] == (index, source))
            require(routed == int(gathered), f"output {index}: {routed} metrics of {source}, and {gathered} were gathered")
        total = re.search(rf"^output {index} .*\n(?:(?:input|made) .*\n)*total +(.*)$", out, re.M)
        require([int(it) for it in total[1].split()] == numbers, f"output {index}: the table has the totals {total[1]}")
    require(len(outputs) == len(re.findall(r"^output ", out, re.M)), "there is another number of tables than of outputs")


def compare_widths(picture):
    """Raises where the ribbons of an output aren't as wide as their shares, or one is narrower than a pixel."""
    for index in {key[0] for key in picture.counts}:
        wide = {key: width for key, width in picture.widths.items() if key[0] == index}
        require(min(wide.values()) >= 1, f"output {index}: a ribbon of {min(wide.values())} pixels")
        shares = [width / picture.counts[key] for key, width in wide.items() if width > 1]
        require(not shares or max(shares) - min(shares) < 0.001 * max(shares), f"output {index}: {wide}")


def narrow(program, folder):
    """One metric of a thousand is filtered."""
    lines = [b"gather 0 0 1000 0 0 0 1000 -", *[b"m a|v=i0|0"] * 1000, b"take 0", b"route 0 = passes / -"]
    for item in range(1, 1000):
        lines += [b"take %d" % item, b"route %d = passes / =" % item, b"begin 0 %d %d" % (item - 1, item), b"done 0 ok"]
    picture = drawn(folder, "-", text=set_up(*lines))
    filtered, accepted = ((0, "input 0", fate) for fate in ("filtered", "written"))
    require(picture.counts == {filtered: 1, accepted: 999}, f"{picture.counts}")
    require(picture.widths[filtered] == 1 and picture.widths[accepted] > 99, f"{picture.widths}")


def random_runs(program, folder):
    """Seeded random runs: the numbers of the pictures are those of the accounts, and no text of a metric is in them."""
    totals = Counter()
    for seed in range(RANDOM_RUNS):
        inner = os.path.join(folder, str(seed))
        os.mkdir(inner)
        random_run(random.Random(f"journal-picture {seed}"), inner)
        ran = do([program, "run", "agent.toml"], inner)
        require(ran.status in (0, 6), f"seed {seed}: {ran}")
        found, picture = tell(inner, JOURNAL), drawn(inner, JOURNAL)
        require(found.status == 0 and found.out.startswith("a whole journal, "), f"seed {seed}: {found}")
        compare_run(ran.out, picture, found.out)
        compare_widths(picture)
        named = [word for word in [*NAMES, *TAGS, "herd"] if word in picture.text]
        require(not named, f"seed {seed}: the picture has {named}")
        for key, count in picture.counts.items():
            totals[key[2]] += count
    missing = [fate for fate in FATES if not totals[fate]]
    require(not missing, f"no metric is {missing}")
    return f"{RANDOM_RUNS} runs, " + ", ".join(f"{totals[fate]} {fate}" for fate in FATES if totals[fate])


def killed_waiting(program, folder):
    """A run over 1,000 lines is killed while its input is open."""
    with running_journal.running(program, folder, "stdin", subprocess.PIPE) as started:
        started.stdin.write(running_journal.lines_of(1_000))
        started.stdin.flush()
        require(running_journal.wait_until(lambda: running_journal.has_sent(folder, 1_000), SECONDS), "nothing was sent")
        require(running_journal.kill(started), "the run ended, and its input is open")
    same(tell(folder, JOURNAL), texts.KILLED_TABLE)


def killed_busy(program, folder):
    """A run is killed while it reads, and its journal is also cut off within a gather: as another reader has it."""
    lay(folder, {"in": running_journal.lines_of(4_000)})
    with running_journal.running(program, folder, "in", subprocess.DEVNULL) as started:
        running_journal.wait_until(lambda: b"\ndone " in held(folder, JOURNAL) or started.poll() is not None, SECONDS)
        running_journal.kill(started)
    text, told = held(folder, JOURNAL), []
    for size in (len(text), len(text) - 7, 20_000, 200):
        reader, _ = running_journal.read_front(text[:size])
        # A gather of which metrics are lacking isn't whole.
        entries = reader.entries - (1 if reader.to_come else 0)
        found = tell(folder, "-", text=text[:size])
        row = re.search(r"\ninput 0 .* (\d+)\n", found.out)
        require(found.status == 0 and found.out.split("\n")[0] == head_of(entries, reader.whole), f"{entries} entries: {found}")
        require(row and int(row[1]) == reader.routed, f"{reader.routed} were routed: {found}")
        told.append(str(entries))
    return "entries: " + ", ".join(told)


def other_accounts(program, folder):
    """Each number of an account is changed, and `ended` is: the line is named, and the tables are those of the entries."""
    lines = texts.FORMS.splitlines(keepends=True)
    behind = next(at for at, line in enumerate(lines) if line.startswith(b"input 0 pieces"))
    tried = 0
    for at in range(behind, len(lines)):
        for found in re.finditer(rb"\b\d+\b|ended", lines[at]):
            other = b"unread" if found[0] == b"ended" else b"%d" % (int(found[0]) + 1)
            line = lines[at][: found.start()] + other + lines[at][found.end() :]
            did = tell(folder, "-", text=b"".join([*lines[:at], line, *lines[at + 1 :]]))
            names = re.fullmatch(rf"journal-picture: standard input, line {at + 1}: it is .*\n", did.told)
            require(did.status == 1 and did.out == texts.FORMS_TABLE and names, f"{line}: {did}")
            tried += 1
    return f"{tried} accounts"


def set_up(*lines):
    """The set-up of a journal with an input and an output, and lines behind it."""
    return b"\n".join([b"journal 1", b"start 0", b"input 0 plain", b"output 0 2 3", *lines, b""])


GATHER = [b"gather 0 0 1 0 0 0 1 -", b"m a|v=i0|0"]
ROUTED = [*GATHER, b"take 0", b"route 0 = passes / ="]
# Texts that are no journal, by what they are.
HOSTILE_TEXTS = {
    "nothing": b"", "a newline": b"\n", "another first line": b"journal 2\n", "a first line with more": b"journal 1 \n",
    "a first line that is cut": b"journal 1", "zeros": bytes(1000), "many zeros": bytes(10_000_000),
    "zeros behind the first line": texts.TWO[:10] + bytes(1000) + b"\n", "another journal behind it": texts.TWO * 2,
    "zeros at the end": texts.TWO[:-6] + bytes(1000), "a long line without an end": texts.TWO[:10] + b"x" * 10_000_000,
    "a word without an end": texts.TWO[:-6] + b"takes", "a line without an end": texts.TWO[:-6] + b"tak 1",
    "a byte behind it": texts.TWO + b"x", "a set-up without a start": b"journal 1\ninput 0 plain\n",
    "an account twice": texts.TWO.replace(b"end 9\n", b"input 0 plain\nend 9\nend 9\n"),
    "seventeen inputs": b"journal 1\nstart 0\n" + b"".join(b"input %d plain\n" % it for it in range(17)),
    "a million outputs": b"journal 1\nstart 0\n" + b"".join(b"output %d 1 1\n" % it for it in range(1_000_000)),
    "an input of a huge number": b"journal 1\nstart 0\ninput 1000000000000 plain\n",
}
# Lines behind a set-up that make it none.
HOSTILE_LINES = [
    (b"gather 0 0 1 0 0 0 1000000000000 -",), (b"gather 0 0 1 0 0 0 1000000000000 -", b"m a|v=i0|0", b"ended 0"),
    (b"gather 0 0 1 0 0 0 4000000000 -", b"m a|v=i0|0", b"ended 0"), (b"tick 0 1000000000000",), (b"stop 0 9999999999999",),
    (b"gather 0 0 1 0 0 0 " + b"9" * 30_000 + b" -",), (b"gather 0 0 1 0 0 0 -1 -",), (b"gather 0 0 1 0 0 0 1e3 -",),
    (b"gather 0 0 1 0 0 0 \xd9\xa1 -",), (b"gather 0 0 x 0 0 0 1 -", b"m a|v=i0|0"), (b"gather 1 0 1 0 0 0 0 -",),
    (b"gather 1000000000000 0 1 0 0 0 0 -",), (b"gather 0 0 1 0 0 0 1 -", b"ended 0"), (b"gather",), (b"",), (b" ",),
    (b"gather 0 0 0 0 0 0 0 7", b"gather 0 0 0 0 0 0 0 7"), (b"report 0 delivered",), (b"ended 1",), (b"ended x",),
    (b"take x",), (b"route 0 = passes / =",), (*GATHER, b"route"), (*GATHER, b"route 1 = passes / ="),
    (*GATHER, b"route 0 = passes / = ="), (*GATHER, b"route 0 = passes = / ="), (*GATHER, b"route 0 = flies / ="),
    (*GATHER, b"route 0 = passes ="), (*GATHER, b"route 0 = passes"), (*GATHER, b"route 0 - removed / -"),
    (*GATHER, b"route 0 = passes = /"), (*GATHER, b"route 0 = passes" + b" =" * 1_000_000), (*ROUTED, b"route 0 = passes / ="),
    (*ROUTED, b"begin 0 0 1000000000000"), (*ROUTED, b"begin 0 1 2"), (*ROUTED, b"begin 0 0 0"), (*ROUTED, b"begin 1 0 1"),
    (*ROUTED, b"begin 0 0 1", b"begin 0 0 1"), (*ROUTED, b"done 0 ok"), (*ROUTED, b"begin 0 0 1", b"done 0 well"),
    (*ROUTED, *GATHER, b"route 1 = passes / =", b"begin 0 0 1", b"begin 0 1 2"),
    (*ROUTED, b"begin 0 0 1", b"done 0 ok", b"done 0 ok"), (*ROUTED, b"begin 0 0 1", b"done 0 ok", b"begin 0 0 1"),
    (b"x" * 10_000_000,), (b"x " * 5_000_000,), (b" " * 1_000_000,), (b"\0",), (b"take 0\0",), (b"ended 0 ",), (b"start 0",),
    (b"input 1 plain", b"m a|v=i0|0"), (b"ended 0\r",), (b"Ended 0",), (b"input",), (b"aggregator",), (b"output",),
]


def hostile_texts(rng):
    """Texts that are no journal, with their names: the ones above, entries with other words, and random bytes."""
    yield from HOSTILE_TEXTS.items()
    for lines in HOSTILE_LINES:
        yield repr(lines[-1][:40]), set_up(*lines)
    for number, line in enumerate(texts.FORMS.splitlines()):
        # An entry without its last word, or with one more.
        if number >= 8 and line.split()[0] not in (b"m", b"input", b"groups", b"items", b"output", b"end"):
            for other in (line.rpartition(b" ")[0], line + b" 1"):
                yield repr(other), texts.FORMS.replace(line + b"\n", other + b"\n", 1)
    for number in range(RANDOM_TEXTS):
        some = bytes(rng.randrange(256) for _ in range(rng.choice([1, 10, 1_000, 100_000])))
        # A journal without its last line stands before half of them, and a newline behind half of them.
        before, behind = [b"", texts.TWO[:-6]][number % 2], [b"", b"\n"][number // 2 % 2]
        yield f"random bytes {number}", before + b"\xff" + some + behind


def hostile(program, folder):
    """Texts that are no journal are refused with one line, in little room."""
    tried = 0
    for name, text in hostile_texts(random.Random("journal-picture hostile")):
        refused(tell(folder, "-", text=text), name)
        tried += 1
    return f"{tried} texts"


def changed(program, folder):
    """Journals of which some bytes were changed: they are read, or there is one line about them."""
    rng, statuses = random.Random("journal-picture changed"), Counter()
    for number in range(CHANGED_TEXTS):
        text = bytearray(rng.choice([texts.TWO, texts.FIVE, texts.FLIGHT, texts.FORMS]))
        for _ in range(rng.randint(1, 3)):
            at, new = rng.randrange(len(text)), rng.choice([b"", b"0", b"1", b"-", b" ", b"\n", b"\0", b"\xff", b"9" * 12])
            text[at : at + rng.choice([0, 1, 1, 9])] = new
        did = tell(folder, "-", PICTURE, text=bytes(text))
        statuses[did.status] += 1
        is_right = did.status in (0, 1) and len(did.told.splitlines()) == did.status and "Traceback" not in did.told
        require(is_right, f"{number}: {did}")
    return ", ".join(f"{count} with status {status}" for status, count in sorted(statuses.items()))


def large(program, folder):
    """Metrics and views of 30 MB each, in lines of 90 MB, and 60,000 metrics: they are read in little room."""
    long = b"a" * 30_000_000
    begin, rest = texts.TWO.split(b"take 0\nroute 0 = passes / =\n")
    begin = begin.replace(b"cpu;host=a", long)
    text = begin + b"take 0\nroute 0 " + long + b"|v=i1|5 passes / " + long + b"|v=i2|5\n" + rest
    same(tell(folder, "-", text=text), texts.TWO_TABLE)
    count = 60_000
    lines = [b"gather 0 0 %d 0 0 0 %d -\n" % (count, count) + b"m cpu|v=i1|5\n" * count]
    lines += [b"take %d\nroute %d = passes / =\nbegin 0 %d %d\ndone 0 ok\n" % (it, it, it, it + 1) for it in range(count)]
    found = tell(folder, "-", text=set_up() + b"".join(lines))
    require(found.status == 0 and found.out.split("\n")[0] == head_of(1 + 4 * count, False), f"{found}")


def words_and_places(program, folder):
    """Other words have the status 2; places that can't be read or written the status 1, and one line."""
    lay(folder, {JOURNAL: texts.TWO})
    for given in ([], ["a", "b", "c"], ["--help"], ["-x"], ["-", "-"], [JOURNAL, "-"], [JOURNAL, "--svg"]):
        found = tell(folder, *given, text=texts.TWO)
        require(found.status == 2 and not found.out and found.told.startswith("usage: "), f"{given}: {found}")
    for given in (["nowhere"], ["."], ["/proc/self/mem"]):
        refused(tell(folder, *given), given)
    for given in ("./" + JOURNAL, "nowhere/" + PICTURE, "/dev/full"):
        refused(tell(folder, JOURNAL, given), given)
    require(held(folder, JOURNAL) == texts.TWO, "the journal was changed")
    found = do(["bash", "-c", f"'{TOOL}' {JOURNAL} > /dev/full"], folder)
    require(found == Did(1, "", "journal-picture: standard output: No space left on device\n"), f"{found}")


def pixels_of(png):
    """How many pixels of a picture have each colour, of eight bits a channel and not interlaced."""
    at, data = 8, b""
    width, height, depth, kind, _, _, interlaced = [int.from_bytes(png[a:b], "big") for a, b in (
        (16, 20), (20, 24), (24, 25), (25, 26), (26, 27), (27, 28), (28, 29))]
    require(depth == 8 and kind in (2, 6) and not interlaced, f"a picture of the kind {kind}, {depth} bits")
    while at < len(png):
        size = int.from_bytes(png[at : at + 4], "big")
        data += png[at + 8 : at + 8 + size] if png[at + 4 : at + 8] == b"IDAT" else b""
        at += 12 + size
    rows, step = zlib.decompress(data), 3 if kind == 2 else 4
    before, counts, wide = bytearray(width * step), Counter(), width * step
    for row in range(height):
        filtering, *line = rows[row * (wide + 1) : (row + 1) * (wide + 1)]
        for index in range(wide):
            left = line[index - step] if index >= step else 0
            corner = before[index - step] if index >= step else 0
            line[index] = (line[index] + predicted(filtering, left, before[index], corner)) & 255
        counts.update(tuple(line[it : it + 3]) for it in range(0, wide, step))
        before = line
    return counts


def predicted(filtering, left, above, corner):
    """What is added to a byte of a row, by the filter of the row."""
    if filtering < 4:
        return (0, left, above, (left + above) // 2)[filtering]
    whole = left + above - corner
    return min((left, above, corner), key=lambda it: abs(whole - it))


def seen(program, folder):
    """A browser shows the picture: each fate's colour is there, light and dark."""
    browser = shutil.which("chromium")
    if not browser:
        raise LeftOut("there is no chromium")
    picture = drawn(folder, "-", text=texts.FATES).text
    width, height = re.search(r'width="(\d+)" height="(\d+)"', picture).groups()
    ways = dict(zip(("light", "dark"), re.search(r"<style>(.*?)@media \(prefers-color-scheme:dark\){(.*?)}}", picture).groups()))
    for number, (way, rules) in enumerate(ways.items()):
        options = ["--headless", "--no-sandbox", "--disable-gpu", "--hide-scrollbars", f"--user-data-dir={folder}/browser",
                   f"--window-size={width},{height}", f"--blink-settings=preferredColorScheme={1 - number}"]
        did = do([browser, *options, f"--screenshot={folder}/{way}.png", f"file://{folder}/{PICTURE}"], folder)
        require(os.path.exists(f"{folder}/{way}.png"), f"{way}: {did.told[-300:]}")
        pixels = pixels_of(held(folder, way + ".png"))
        colours = {fate: re.search(rf"\.{fate}{{color:#(\w+)", rules + "}")[1] for fate in FATES}
        require(len(set(colours.values())) == len(FATES), f"{way}: two fates have one colour: {colours}")
        for fate, colour in colours.items():
            found = pixels[tuple(bytes.fromhex(colour))]
            require(found >= 80, f"{way}: {found} pixels have the colour of {fate}, #{colour}")
    return " and ".join(ways)


CASES = [
    ("a run of two lines, from its file and from standard input", two_lines),
    ("a run to an output that accepts nothing", full),
    ("README.md's run with filters, and its picture", readme),
    ("by hand: a batch that fails twice", written("FIVE")),
    ("by hand: metrics come while a batch is in flight", written("FLIGHT")),
    ("by hand: all forms of lines", written("FORMS")),
    ("by hand: groups that are rejected, and one that isn't settled", written("GROUPS")),
    ("by hand: all fates", written("FATES")),
    ("one metric of a thousand has a ribbon of one pixel", narrow),
    ("every front of two journals", fronts),
    ("an entry of which metrics are lacking counts for nothing", unfinished),
    ("random runs: the numbers of the pictures are those of the accounts", random_runs),
    ("a run that was killed while it waited", killed_waiting),
    ("a run that was killed while it read", killed_busy),
    ("each number of an account, changed", other_accounts),
    ("hostile texts", hostile),
    ("journals with changed bytes", changed),
    ("long lines, and many", large),
    ("words and places", words_and_places),
    ("each fate's colour is seen by a browser", seen),
]


def main(program):
    """Runs each case in a folder of its own, and prints a line for each and one for all."""
    passed = failed = 0
    for name, run in CASES:
        with tempfile.TemporaryDirectory() as folder:
            try:
                how, told = "ok", run(program, folder)
            except LeftOut as why:
                how, told = "left out", str(why)
            except Exception as fault:  # Whatever a tool with a fault made a case do, the others are run.
                how, told = "FAILED", repr(fault)
        passed += how == "ok"
        failed += how == "FAILED"
        print("journal-picture: %s: %s%s" % (how, name, " (%s)" % told if told else ""), flush=True)
    print("journal-picture: %d passed, %d failed" % (passed, failed), flush=True)
    return 1 if failed else 0


if __name__ == "__main__":
    sys.exit(main(*sys.argv[1:]))
