"""Journals as docs/users/journal.md has them, in plain Python: what `format_probe journal` answers to a text.

Nothing here was taken from the program: where the two differ, one of them or the document is wrong. Each thing has one
spelling: so metrics are the same where their texts are, and what is written of a journal is the text that was read.
"""

import re
from functools import lru_cache

WORDS = ("journal", "count", "reports")
HEADER = b"journal 1\n"
# The least number of a field, and the number behind its greatest.
U32, U64, I64 = (0, 2**32), (0, 2**64), (-(2**63), 2**63)
# The views that the lines `removed` stand for are at most so many a byte of the text.
VIEWS_A_BYTE = 4
# No number of a field has more digits; what has more isn't made a number.
LONGEST_NUMBER = 20

NUMBER = re.compile(rb"0|-?[1-9][0-9]*")
FIXED = re.compile(rb"(?!-0\Z)-?(0|[1-9][0-9]*)(?:\.[0-9]{0,8}[1-9])?")
KIND = re.compile(rb"minmax|merge|basicstats:s?c?m?x?")
PLAIN = re.compile(rb"[A-Za-z0-9_.:-]*")
TO_ESCAPE = re.compile(rb"[^A-Za-z0-9_.:-]")
ESCAPE = re.compile(rb"%([0-9A-Fa-f]{2})")


class Refused(Exception):
    """The kind of a fault, and its place."""

    def __str__(self):
        return "%s %d" % self.args


class Wrong(Exception):
    """No journal has the line at hand where it stands."""


def require(is_right):
    if not is_right:
        raise Wrong


# Words.


def number(word, field):
    """The number of a word, in its one spelling and in the range of its field."""
    require(len(word) <= LONGEST_NUMBER and NUMBER.fullmatch(word))
    value = int(word)
    require(field[0] <= value < field[1])
    return value


def spelled(raw):
    """A name, a key or a text as a journal has it."""
    return TO_ESCAPE.sub(lambda found: b"%%%02X" % found[0][0], raw)


def raw_of(text):
    """The bytes that a spelled name, key or text stands for."""
    if PLAIN.fullmatch(text):
        return text
    raw = ESCAPE.sub(lambda found: bytes([int(found[1], 16)]), text)
    require(spelled(raw) == text)
    try:
        raw.decode("utf-8")
    except UnicodeDecodeError:
        raise Wrong from None
    return raw


def pair(text):
    """The raw key and the spelled value of a tag or a field; the key isn't empty."""
    parts = text.split(b"=")
    require(len(parts) == 2 and parts[0] != b"")
    return raw_of(parts[0]), parts[1]


def check_value(text):
    """Raises where a text is no value of a field."""
    kind, rest = text[:1], text[1:]
    if kind == b"i":
        number(rest, I64)
    elif kind == b"u":
        number(rest, U64)
    elif kind == b"f":
        found = FIXED.fullmatch(rest)
        require(found)
        number(found[1], U64)
    elif kind == b"s":
        raw_of(rest)
    else:
        require(text in (b"bt", b"bf"))


@lru_cache(maxsize=5_000)
def is_metric(text):
    """Whether a text is a metric."""
    try:
        parts = text.split(b"|")
        require(len(parts) == 3)
        name, *tags = parts[0].split(b";")
        require(name != b"")
        raw_of(name)
        before = b""
        for key, value in map(pair, tags):
            require(before < key and value != b"")
            raw_of(value)
            before = key
        keys = set()
        for key, value in map(pair, parts[1].split(b";")):
            require(key not in keys)
            check_value(value)
            keys.add(key)
        number(parts[2], I64)
    except Wrong:
        return False
    return True


def check_kind(word):
    """Raises where a word is no kind of an aggregator."""
    if word.startswith(b"final:"):
        number(word[len(b"final:") :], I64)
    else:
        require(KIND.fullmatch(word))


# Lines.


class Lines:
    """The whole lines of a text behind its first one, taken one by one."""

    def __init__(self, text):
        self.text, self.place = text, len(HEADER)

    def words(self):
        """The words of the line at hand."""
        end = self.text.find(b"\n", self.place)
        if end < 0:
            raise Refused("Torn", len(self.text))
        return self.text[self.place : end].split(b" ")

    def go_on(self):
        """Puts the line at hand behind."""
        self.place = self.text.index(b"\n", self.place) + 1


class Journal:
    """What was read of a journal."""

    def __init__(self):
        # Of each input, whether it is tracked.
        self.inputs = []
        self.aggregators = self.outputs = self.entries = self.views = self.removed_views = 0
        # The metrics of the items, and the inputs of the last gather of each group.
        self.items, self.groups = [], {}
        # The entry, the group, the input and the word of each.
        self.reports = []


# The set-up.


def read_setup(lines, journal):
    """Reads the set-up's lines, up to the first that is none of them."""
    words = lines.words()
    require(len(words) == 2 and words[0] == b"start")
    number(words[1], I64)
    lines.go_on()
    while is_numbered(lines.words(), b"input", len(journal.inputs)):
        journal.inputs.append(read_input(lines.words()))
        lines.go_on()
    while is_numbered(lines.words(), b"aggregator", journal.aggregators):
        check_aggregator(lines.words())
        journal.aggregators += 1
        lines.go_on()
    while is_numbered(lines.words(), b"output", journal.outputs):
        check_output(lines.words())
        journal.outputs += 1
        lines.go_on()


def is_numbered(words, name, count):
    """Whether words begin the next line of this name. (Directly behind the set-up none of the account begins so.)"""
    return words[:2] == [name, b"%d" % count]


def read_input(words):
    """Whether an input is tracked."""
    if words[2:] == [b"plain"]:
        return False
    require(len(words) == 4 and words[2] == b"tracked")
    number(words[3], U32)
    return True


def check_aggregator(words):
    require(len(words) == 7 and words[6] in (b"keep", b"drop"))
    check_kind(words[2])
    for word in words[3:6]:
        number(word, I64)


def check_output(words):
    require(len(words) == 4)
    number(words[2], U32)
    number(words[3], U32)


# The entries: each function reads the line at hand, whose words it gets, and those that belong to it.


def read_metrics(lines, journal, count):
    """Reads so many lines `m`, whose metrics are items."""
    for _ in range(count):
        words = lines.words()
        require(len(words) == 2 and words[0] == b"m" and is_metric(words[1]))
        journal.items.append(words[1])
        lines.go_on()


def read_reports(lines, journal):
    """Reads the reports of an entry."""
    before = -1
    while lines.words()[0] == b"report":
        words = lines.words()
        require(len(words) == 3 and words[2] in (b"delivered", b"rejected"))
        group = number(words[1], U64)
        require(before < group and group in journal.groups)
        journal.reports.append((journal.entries, group, journal.groups[group], words[2]))
        before = group
        lines.go_on()


def read_gather(lines, journal, words):
    require(len(words) == 9)
    source = number(words[1], U32)
    number(words[2], I64)
    for word in words[3:7]:
        number(word, U32)
    count = number(words[7], U64)
    if words[8] != b"-":
        journal.groups[number(words[8], U64)] = source
    lines.go_on()
    read_metrics(lines, journal, count)
    read_reports(lines, journal)


def read_made(lines, journal, words):
    """A tick, or a stop."""
    require(len(words) == 3)
    number(words[1], I64)
    count = number(words[2], U64)
    lines.go_on()
    read_metrics(lines, journal, count)


def read_ended(lines, journal, words):
    require(len(words) == 2)
    number(words[1], U32)
    lines.go_on()


def read_take(lines, journal, words):
    require(len(words) == 2)
    number(words[1], U64)
    lines.go_on()


def read_route(lines, journal, words):
    require(len(words) >= 4)
    item = number(words[1], U64)
    if words[2] == b"-":
        require(words[3:] == [b"removed"])
        journal.removed_views += journal.aggregators + journal.outputs
        journal.views += journal.aggregators + journal.outputs
        if journal.removed_views > VIEWS_A_BYTE * len(lines.text):
            raise Refused("OutOfMemory", 0)
    else:
        whole = whole_of(words[2], journal.items[item] if item < len(journal.items) else None)
        require(words[3] in (b"passes", b"consumed", b"late"))
        views = words[4:]
        require(views.count(b"/") == 1)
        for view in views:
            require(view in (b"-", b"=", b"/") or view != whole and is_metric(view))
        journal.views += len(views) - 1
    lines.go_on()
    read_reports(lines, journal)


def whole_of(word, item):
    """The metric of a whole, given that of its item, where an entry before names it."""
    if word == b"=":
        require(item is not None)
        return item
    require(word != item and is_metric(word))
    return word


def read_begin(lines, journal, words):
    require(len(words) == 4)
    number(words[1], U32)
    number(words[2], U64)
    number(words[3], U64)
    lines.go_on()


def read_done(lines, journal, words):
    require(len(words) == 3 and words[2] in (b"ok", b"failed"))
    number(words[1], U32)
    lines.go_on()
    read_reports(lines, journal)


ENTRIES = {
    b"gather": read_gather, b"ended": read_ended, b"take": read_take, b"route": read_route, b"tick": read_made,
    b"stop": read_made, b"begin": read_begin, b"done": read_done,
}


# The account and the end.


def account_of(inputs, outputs):
    """The lines of the account of inputs that are tracked or not, and of so many outputs, with `N` for a number and `E`
    for `ended` or `unread`."""
    for index in range(len(inputs)):
        yield b"input %d pieces N refused N passed N filtered N gathered N E" % index
    for index, tracked in enumerate(inputs):
        if tracked:
            yield b"groups %d delivered N rejected N undelivered N" % index
    yield b"items made N removed N routed N"
    for index in range(outputs):
        yield b"output %d filtered N late N consumed N written N buffered N dropped N" % index


def read_account(lines, journal):
    """Reads the account, and the line `end N`."""
    for line in account_of(journal.inputs, journal.outputs):
        wanted, words = line.split(b" "), lines.words()
        require(len(words) == len(wanted))
        for word, one in zip(words, wanted):
            if one == b"N":
                number(word, U64)
            else:
                require(word in (b"ended", b"unread") if one == b"E" else word == one)
        lines.go_on()
    require(lines.words() == [b"end", b"%d" % journal.entries])
    lines.go_on()


def read(text):
    """The journal of a text. Raises Refused."""
    if not text.startswith(HEADER):
        raise Refused("BadHeader", 0)
    lines, journal = Lines(text), Journal()
    try:
        read_setup(lines, journal)
        while (words := lines.words())[0] in ENTRIES:
            ENTRIES[words[0]](lines, journal, words)
            journal.entries += 1
        read_account(lines, journal)
        require(lines.place == len(text))
    except Wrong:
        raise Refused("BadEntry", lines.place) from None
    return journal


def said_of(word, text, journal):
    """What is said of a journal that was read from a text, by a word of the probe."""
    if word == "journal":
        return text
    if word == "reports":
        return b"".join(b"%d %d %d %b\n" % one for one in journal.reports)
    numbers = (len(journal.inputs), journal.aggregators, journal.outputs, journal.entries, len(journal.items),
               journal.views, len(journal.reports))
    return b"inputs %d aggregators %d outputs %d entries %d items %d views %d reports %d\n" % numbers


def answer(word, text):
    """The status and the output of the probe with a word over a text."""
    try:
        return 0, said_of(word, text, read(text))
    except Refused as fault:
        return (1, b"") if fault.args[0] == "OutOfMemory" else (0, str(fault).encode() + b"\n")
