"""Expositions of OpenMetrics as docs/users/formats.md has them, in plain Python: reading, writing, seeded texts.

Nothing here was taken from the program: where the two differ, one of them or the document is wrong. Metrics
are those of format_influx, and decimals are read as in format_statsd.
"""

import re

from format_influx import Refused, written_value
from format_statsd import LIMIT, billionths, number

__all__ = ["EXAMPLES", "Refused", "families_of", "lines", "pieces_of", "read", "texts", "write"]

MOST_LABELS = 64
LONGEST = 4_194_304
BILLION = 10**9

END = re.compile(rb"(?:\A|(?<=\n))# EOF(?:\n|\Z)")
NAME = re.compile(rb"[a-zA-Z_:][a-zA-Z0-9_:]*")
LABEL = re.compile(rb'([a-zA-Z_][a-zA-Z0-9_]*)="((?:\\[\\"n]|[^"\\]|\\(?![\\"n]))*)"')
ESCAPE = re.compile(rb'\\([\\"n])')
NO_DECIMAL = re.compile(rb"nan|[+-]?inf(?:inity)?", re.IGNORECASE)
NOT_IN_NAME = re.compile(rb"[^a-zA-Z0-9_:]")
NOT_IN_LABEL = re.compile(rb"[^a-zA-Z0-9_]")
IN_VALUE = re.compile(rb'[\\"\n]')
TYPES = b"counter gauge histogram gaugehistogram stateset info summary unknown".split()
SUFFIXES = b"_total _created _bucket _count _sum _gcount _gsum _info".split()


def pieces_of(text):
    """The pieces of a text, None for one that is too long: up to each line `# EOF`, and what is left at the end."""
    begin, pieces = 0, []
    for end in [found.end() for found in END.finditer(text)] + [len(text)]:
        if begin < end:
            pieces.append(text[begin:end] if end - begin <= LONGEST else None)
        begin = end
    return pieces


def read(piece, moment, type_tag=False, pass_out_of_range=False):
    """The metrics of a piece, each (name, tags, fields, time), and how many samples are passed over. Raises Refused."""
    try:
        piece.decode("utf-8")
    except UnicodeDecodeError as fault:
        raise Refused("NotUtf8", fault.start) from None
    front, newline, last = piece.removesuffix(b"\n").rpartition(b"\n")
    if last != b"# EOF":
        raise Refused("NoEof", len(piece))
    metrics, passed, types, place = [], 0, {}, 0
    for line in front.split(b"\n") if newline else []:
        if line.startswith(b"#"):
            read_word(line, place, types)
        else:
            name, labels, value, time = read_sample(line, place, pass_out_of_range)
            passed += value is None
            if value is not None:
                tags = labels | ({b"om_type": type_of(name, types)} if type_tag else {})
                tags = sorted((key, text) for key, text in tags.items() if text)
                metrics.append((name, tags, [(b"value", ("decimal", value))], moment if time is None else time))
        place += len(line) + 1
    return metrics, min(passed, 2**32 - 1)


def read_word(line, place, types):
    """A line that begins with `#`; a type is put among the types, behind all that are there."""
    name, space, text = line[7:].partition(b" ")
    if line[:7] not in (b"# TYPE ", b"# HELP ", b"# UNIT "):
        return
    if not NAME.fullmatch(name) or (line[2:6] == b"TYPE" and not (space and text in TYPES)):
        raise Refused("BadLine", place)
    if line[2:6] == b"TYPE":
        types.pop(name, None)
        types[name] = text


def type_of(sample, types):
    """The type of the last name that is a sample's, or that without one suffix."""
    names = {sample} | {sample.removesuffix(suffix) for suffix in SUFFIXES}
    return ([kind for name, kind in types.items() if name in names] or [b"unknown"])[-1]


def read_sample(line, place, passing):
    """The name of a sample, its labels, its number (None for one that is passed over) and its time."""
    found = NAME.match(line)
    if not found:
        raise Refused("BadLine", place)
    labels, written, at = {}, 0, found.end()
    if line[at : at + 1] == b"{":
        labels, written, at = read_labels(line, at + 1, place)
    if line[at : at + 1] != b" ":
        raise Refused("BadLine", place)
    word, space, rest = line[at + 1 :].partition(b" ")
    time = None
    if space and not rest.startswith(b"# "):
        time, space, rest = rest.partition(b" ")
        if space and not rest.startswith(b"# "):
            raise Refused("BadLine", place)
    return found[0], labels, *read_numbers(word, time, written, place, passing)


def read_numbers(word, time, labels, place, passing):
    """The number and the time of a sample with so many labels, where what is out of range is passed over or refused."""
    value = billionths(word)
    if value is None and not NO_DECIMAL.fullmatch(word):
        raise Refused("BadNumber", place)
    at = None if time is None else billionths(time)
    if time is not None and at is None:
        raise Refused("BadTime", place)
    beyond = (value is not None and abs(value) >= LIMIT) or (at is not None and not -(2**63) <= at < 2**63)
    if beyond and not passing:
        raise Refused("NumberRange", place)
    if labels > MOST_LABELS:
        raise Refused("TooMany", place)
    return (None, None) if beyond else (value, at)


def read_labels(line, at, place):
    """The labels that begin at a place of the line, how many there are, and the place behind the brace."""
    labels = {}
    if line[at : at + 1] == b"}":
        return labels, 0, at + 1
    while True:
        found = LABEL.match(line, at)
        if not found or found[1] in labels:
            raise Refused("BadLabel", place)
        labels[found[1]] = ESCAPE.sub(lambda it: b"\n" if it[1] == b"n" else it[1], found[2])
        at = found.end() + 1
        if line[at - 1 : at] == b"}":
            return labels, len(labels), at
        if line[at - 1 : at] != b",":
            raise Refused("BadLabel", place)


def cleaned(text, outside):
    """A text as a name: `_` for each byte outside of the alphabet, and before a digit at the front."""
    return (b"_" if text[:1].isdigit() else b"") + outside.sub(b"_", text)


def families_of(metrics):
    """The families of metrics, each with its samples in the order in which they are written: labels, number, time."""
    families = {}
    for name, tags, fields, time in metrics:
        labels = {}
        for key, value in tags:
            labels[cleaned(key, NOT_IN_LABEL)] = value
        for key, (kind, value) in fields:
            if kind != "text":
                family = cleaned(name if key == b"value" else name + b"_" + key, NOT_IN_NAME)
                series = families.setdefault(family, {}).setdefault(frozenset(labels.items()), {})
                text = written_value(kind, value) if kind == "decimal" else b"%d" % value
                series[time] = (labels, text, time)
    return [
        (family, [samples[time] for samples in series.values() for time in sorted(samples)])
        for family, series in families.items()
    ]


def write(metrics):
    """The exposition of metrics."""
    out = []
    for family, samples in families_of(metrics):
        out.append(b"# TYPE %b unknown\n" % family)
        for labels, text, time in samples:
            inside = b",".join(b'%b="%b"' % (label, escaped(value)) for label, value in labels.items())
            braces = b"{%b}" % inside if labels else b""
            out.append(b"%b%b %b %b\n" % (family, braces, text, written_value("decimal", time)))
    return b"".join(out) + b"# EOF\n"


def escaped(value):
    """The value of a label as it is written."""
    return IN_VALUE.sub(lambda it: b"\\n" if it[0] == b"\n" else b"\\" + it[0], value)


# Texts that touch each rule of the document, to be changed at random places.
EXAMPLES = [
    b'# TYPE http counter\nhttp_total{path="a\\"b"} 5 1.5 # {id="x"} 1\nhttp_total{path="c"} NaN\n# EOF\n',
    b"# TYPE process_cpu_seconds counter\n# UNIT process_cpu_seconds seconds\nprocess_cpu_seconds_total 4.20072246e+06\n# EOF\n",
    b'# TYPE foo histogram\nfoo_bucket{le="10"} 17 # {trace_id="oHg5SJYRHA0"} 9.8 1520879607.789\nfoo_created 1520430000.123\n# EOF\n',
    b"# TYPE a_total gauge\n# TYPE a counter\na_total 1\n# EOF",
    b"# TYPE a counter\n# TYPE a_total gauge\na_total 1\na_total_total 2\n# EOF\n",
    b'a{b="C:\\\\DIR\\\\FILE.TXT",c="x\\ny\\z"} 1\n# HELP a\n# HELP a some help\n# a comment\n#\n# EOF\n',
    b"a 1 -1\na{} 1\na +Inf\na -infinity 2\na nan 3 # x\na 1 # \n# EOF\n",
    b"a 1 9223372036.854775807\na 18446744073709551615.999999999 -9223372036.854775808\n# EOF\n",
    b'a{b="c"} 1\na{b="c",b="d"} 1\n# EOF\n',
    b"# EOF\n",
    b"# EOF",
    b"a 1\n",
    b"",
    b"# EOF\n\n",
    "größe 1\na{b=\"日本 😀\"} 21.5\n# EOF\n".encode(),
    b'a{om_type="x",b=""} 1\n# EOF\n',
    b"# TYPE b gauge\nb 1.8446744073709552e+19\n# TYPE c counter\nc_total 3 9223372037\nc_total -1e300 -1e30\n# EOF\n",
]
PUT_IN = [b" ", b"#", b"# ", b" # ", b"{", b"}", b",", b"=", b'"', b"\\", b"\n", b"\r", b"\t", b"-", b"n", b"_", b":"]
PUT_IN += [b"\0", b"\xc3", b"\xff", b"\xe2\x82", b"# EOF\n", b"_total", "€".encode()]

NAMES = b"a b a_total a_created a_b a_b_total http_requests x:y _ : :z A9 a_total_total a_info a_bucket a_gcount".split()
LABELS = b"le host om_type a b c _ __name__ A1 quantile".split()
VALUES = [b"", b"a", b"0.5", b"+Inf", b"/var/log", b'x\\"y', b"a\\\\b", b"a\\nb", b"a\\b", b"{}", b", ", b"# EOF"]
VALUES += ["é".encode(), "日本".encode(), b"\t", b"\\\\", b"\\n"]
ODD_NAMES = [b"9a", b"a-b", b"a.b", b"", b"a b", "é".encode(), b"a{"]
NUMBERS = b"""0 -0 1 +1 1.5 1e3 .5 5. NaN nan nAN +nan -nan Inf +Inf -inf iNFinity +Infinity -INFINITY infinit 1e400 -1e400
0x1 1_0 1i 18446744073709551615 18446744073709551616 18446744073709551615.9999999995 1e-10 5e-10 -15e-10 x""".split()
TIMES = b"""0 -1 1 1.5 1520879607.789 1e9 -0.5 9223372036.854775807 9223372036.854775808 9223372036.8547758075
-9223372036.854775808 -9223372036.854775809 1e30 -1e30 nan x # #x 1e-9 5e-10 6e-10""".split()
KINDS = [*TYPES, b"untyped", b"Counter", b"", b"counter "]


def texts(rng, count):
    """So many seeded texts, most of them one exposition."""
    for _ in range(count):
        chance = rng.random()
        if chance < 0.2:
            yield altered(rng, rng.choice(EXAMPLES), rng.randint(0, 3))
        elif chance < 0.65:
            yield made(rng)
        elif chance < 0.995:
            yield altered(rng, made(rng), rng.randint(1, 2))
        else:
            yield crowded(rng)


def altered(rng, text, changes):
    """A text with changes at random places: bytes left out, doubled, or put in."""
    for _ in range(changes):
        at = rng.randrange(len(text) + 1)
        text = text[:at] + rng.choice((b"", text[at : at + 1] * 2, rng.choice(PUT_IN), rng.choice(PUT_IN))) + text[at + rng.randrange(2) :]
    return text


def made(rng):
    """An exposition by the grammar, most times one that is read."""
    made_lines = [line(rng) for _ in range(rng.choice((0, 1, 2, 3, 5, 9)))]
    return b"".join(it + b"\n" for it in made_lines) + rng.choice((*[b"# EOF\n"] * 37, b"# EOF", b"# EOF", b""))


def line(rng):
    """A line of an exposition."""
    chance = rng.random()
    if chance < 0.2:
        kind = rng.choice(KINDS) if rng.random() < 0.1 else rng.choice(TYPES)
        return b"# TYPE " + name(rng) + b" " + kind
    if chance < 0.28:
        return rng.choice((b"# HELP ", b"# UNIT ")) + name(rng) + rng.choice((b"", b" seconds", b" some help # EOF"))
    if chance < 0.33:
        return rng.choice((b"#", b"# a comment", b"#TYPE a counter", b"# TYPE", b"# EOF ", b"# HELP"))
    return sample(rng)


def name(rng):
    """A name, mostly a good one."""
    return rng.choice(ODD_NAMES) if rng.random() < 0.01 else rng.choice(NAMES)


def sample(rng):
    """A sample, mostly a good one."""
    text = name(rng) + labels(rng) + b" " + value(rng)
    if rng.random() < 0.5:
        text += b" " + (rng.choice(TIMES) if rng.random() < 0.3 else b"%d" % rng.randrange(2 * 10**9))
    if rng.random() < 0.15:
        text += rng.choice((b" # ", b' # {id="x"} 1', b" # {} 1 2", b" #", b"  # x", b" "))
    return text


def labels(rng):
    """Labels in braces, or none."""
    if rng.random() < 0.4:
        return rng.choice((b"", b"", b"", b"{}"))
    pairs = [b'%b="%b"' % (rng.choice(LABELS), rng.choice(VALUES)) for _ in range(rng.choice((1, 1, 2, 3)))]
    return b"{" + b",".join(pairs) + rng.choice((b"}", b"}", b"}", b"}", b"}", b"}", b"}", b"}", b",}", b""))


def value(rng):
    """A number, or nearly one."""
    chance = rng.random()
    return rng.choice(NUMBERS) if chance < 0.25 else number(rng) if chance < 0.5 else b"%d" % rng.randrange(1000)


def crowded(rng):
    """An exposition with about as many labels as there may be, some of them twice."""
    keys = [b"k%d" % at for at in range(rng.randint(61, 67))]
    keys += [rng.choice(keys) for _ in range(rng.randrange(2))]
    rng.shuffle(keys)
    text = b"a{" + b",".join(b'%b="%b"' % (key, rng.choice((b"", b"1"))) for key in keys) + b"}"
    return text + rng.choice((b" 1", b" nan", b" x", b" 1 1e30", b"1")) + b"\n# EOF\n"


WORDS = [b"cpu", b"mem", b"a", b"b", b"a-b", b"a_b", b"a.b", b"9", b"x:y", b"value", b"host", b"_", "é".encode()]
TAG_VALUES = [b"a", b"b", b'"', b"\\\\x", b"x\\ y", "日".encode(), b"\\,", b"a\\\\"]


def lines(rng, count):
    """So many seeded lines of line protocol, of few series and times, so that many samples meet."""
    for _ in range(count):
        tags = b"".join(b",%b=%b" % (rng.choice(WORDS), rng.choice(TAG_VALUES)) for _ in range(rng.choice((0, 0, 1, 2, 3))))
        pairs = [rng.choice(WORDS) + b"=" + field(rng) for _ in range(rng.choice((1, 1, 2, 3)))]
        time = rng.choice((0, 1, 2, 3, -1, -2, 1_700_000_000, rng.randrange(2 * 10**9))) * BILLION
        if rng.random() < 0.3:
            time += rng.choice((1, -1, 500_000_000, rng.randrange(BILLION)))
        yield rng.choice(WORDS) + tags + b" " + b",".join(pairs) + b" %d" % time


def field(rng):
    """The value of a field."""
    return rng.choice((b"%di", b"%du", b"%d", b"%d.5", b"-%d.000000001", b'"%d"')) % rng.randrange(100) if rng.random() < 0.8 else rng.choice(
        (b"true", b"f", b"-9223372036854775808i", b"18446744073709551615u", b"18446744073709551615.999999999", b"1e-9")
    )
