"""Texts of 16 MiB that are made to cost a reader of journals, with what `format_probe journal count` says of each."""

from collections import namedtuple

SIZE = 16 << 20
START = b"journal 1\nstart 0\n"
ITEM = b"gather 0 0 1 0 0 0 1 -\nm "
END = b"items made 0 removed 0 routed 0\nend %d\n"
LETTERS = [b"%c" % it for it in b"ABCDEFGHIJKLMNOPQRSTUVWXYZabcdefghijklmnopqrstuvwxyz0123456789_-"]
# An odd number, by which numbers up to a power of 2 come in another order.
SCATTER = 0x9E3779B1

Hostile = namedtuple("Hostile", "name text told")


def read(name, text, entries, items=0, views=0, reports=0):
    """A whole journal without its account and its end."""
    numbers = (entries, items, views, reports)
    told = "inputs 0 aggregators 0 outputs 0 entries %d items %d views %d reports %d\n" % numbers
    return Hostile(name, START + text + END % entries, told.encode())


def refused(name, text, kind, place):
    """A text that is none."""
    return Hostile(name, text, b"%b %d\n" % (kind, place))


def filled(front, part, back):
    """A part as often as there is room for between two texts, and how often that is."""
    count = (SIZE - len(START + front + back + END) - 20) // len(part)
    return front + part * count + back, count


def distinct_fields():
    """A metric of distinct fields, in no order."""
    pairs = [first + second for first in LETTERS for second in LETTERS]
    numbers = (number * SCATTER % 64**4 for number in range(SIZE // len(b"aaaa=bt;") - 20))
    fields = b";".join(pairs[it >> 12] + pairs[it & 4095] + b"=bt" for it in numbers)
    return read("distinct fields in one metric", ITEM + b"m|" + fields + b"|0\n", 1, 1)


def groups():
    """Groups in no order, each of which has a report."""
    numbers = [number * SCATTER % 2**20 for number in range(SIZE // 52)]
    gathers = b"".join(b"gather 0 0 0 0 0 0 0 %d\n" % number for number in numbers)
    reports = b"".join(b"report %d delivered\n" % number for number in sorted(numbers))
    return read("groups in any order", gathers + b"done 0 ok\n" + reports, len(numbers) + 1, reports=len(numbers))


def texts():
    """Each text in turn."""
    yield distinct_fields()
    yield groups()
    for said, name in (("a short metric", b"m"), ("a metric of 8 MiB", b"a" * (SIZE // 2))):
        text, count = filled(ITEM + name + b"|v=i0|0\nroute 0 = passes /", b" =", b"\n")
        yield read("`=` views of " + said, text, 2, 1, count)
    text, count = filled(ITEM + b"a" * (1 << 16) + b"|v=i0|0\n", b"route 0 = passes / =\n", b"")
    yield read("routes whose wholes and views are `=`, of a metric of 64 KiB", text, count + 1, 1, count)
    text, count = filled(b"", b"take 0\n", b"")
    yield read("take 0", text, count)
    text, count = filled(ITEM + b"m|v=s", b"%0A", b"|0\n")
    yield read("%0A in a text", text, 1, 1)
    yield refused("digits of a moment", b"journal 1\nstart " + b"1" * SIZE + b"\n", b"BadEntry", 10)
    place = len(START) + ITEM.index(b"m ")
    yield refused("digits of a decimal", START + ITEM + b"m|v=f0." + b"1" * SIZE + b"|0\n", b"BadEntry", place)
    yield refused("spaces", START + b"take" + b" " * SIZE + b"0\n", b"BadEntry", len(START))
    text = START + b"take " + b"0" * SIZE
    yield refused("one line without end", text, b"Torn", len(text))
