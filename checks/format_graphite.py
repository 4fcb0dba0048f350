"""Graphite's lines and templates as docs/users/formats.md has them, in plain Python: reading, writing, seeded texts.

Nothing here was taken from the program: where the two differ, one of them or the document is wrong. Metrics
are those of format_influx, and decimals are read as in format_statsd.
"""

import re
from collections import namedtuple

from format_influx import Refused, written_value
from format_statsd import billionths, changed, in_range, number

__all__ = ["EXAMPLES", "TEMPLATES", "BadTemplate", "Refused", "is_template", "lines", "read", "read_template", "setups",
           "template_lists", "write", "written_lines"]

MOST_TAGS = 64
BILLION = 10**9

WORD = re.compile(rb"[^ ]+")
# What is written as `_`, of the values of tags and of the measurement and the key of a field.
IN_TAG = re.compile(rb"[^A-Za-z0-9_-]")
IN_NAME = re.compile(rb"[^A-Za-z0-9_.-]")

# The filter is None where there is none; else it, and the parts, are lists of words. The tags are a dictionary.
Template = namedtuple("Template", "filter parts tags")


class BadTemplate(Exception):
    """A text is no template."""


def read_template(text):
    """The template of a text. Raises BadTemplate."""
    words = text.split(b" ")
    tags = pairs(words.pop().split(b",")) if b"=" in words[-1] else {}
    if len(words) not in (1, 2) or tags is None:
        raise BadTemplate
    *filters, parts = (word.split(b".") for word in words)
    if filters and not all(filters[0]) or not all_parts(parts):
        raise BadTemplate
    return Template(filters[0] if filters else None, parts, tags)


def all_parts(words):
    """Whether these words are the parts of a template: a star is in the last one alone, and what it may be."""
    *first, last = words
    return not any(b"*" in word for word in first) and (b"*" not in last or last in (b"measurement*", b"field*"))


def pairs(parts):
    """The tags of parts `key=value`, of one key the last; None where a part is none."""
    split = [part.partition(b"=") for part in parts]
    return {key: value for key, _, value in split} if all(key and value for key, _, value in split) else None


def read(piece, moment, templates=(), separator=b"."):
    """The metric of a piece (name, tags, fields, time); none for what says nothing. Raises Refused."""
    try:
        piece.decode("utf-8")
    except UnicodeDecodeError as fault:
        raise Refused("NotUtf8", fault.start) from None
    words = [(found[0], found.start()) for found in WORD.finditer(piece)]
    if not words:
        return None
    if len(words) not in (2, 3):
        raise Refused("FieldCount", 0)
    segments, behind = read_path(words[0][0])
    field = read_decimal(*words[1], "BadValue")
    time = read_time(*words[2], moment) if len(words) == 3 else moment
    name, key, tags = applied(used(templates, segments), segments, separator)
    tags |= behind
    if len(tags) > MOST_TAGS:
        raise Refused("TooMany", 0)
    return name, sorted(tags.items()), [(key, ("decimal", field))], time


def read_path(path):
    """The segments of a path, and its tags."""
    bucket, *parts = path.split(b";")
    segments, tags = bucket.split(b"."), pairs(parts)
    if tags is None or not all(segments):
        raise Refused("BadPath", 0)
    return segments, tags


def read_decimal(word, place, fault):
    """The billionths of a word."""
    found = billionths(word)
    if found is None:
        raise Refused(fault, place)
    return in_range(found, place)


def read_time(word, place, moment):
    """The nanoseconds of a word, or the moment where it is -1 s."""
    time = read_decimal(word, place, "BadTime")
    if not -(2**63) <= time < 2**63:
        raise Refused("NumberRange", place)
    return moment if time == -BILLION else time


def used(templates, segments):
    """The first template that has no filter, or one that matches; else that of all segments."""
    for template in templates:
        if template.filter is None or matches(template.filter, segments):
            return template
    return Template(None, [b"measurement*"], {})


def matches(words, segments):
    """Whether the first segments are those of a filter."""
    return len(words) <= len(segments) and all(one in (b"*", two) for one, two in zip(words, segments))


def applied(template, segments, separator):
    """The name, the field's key and the tags that a template gives."""
    collected = {}
    for at, part in enumerate(template.parts):
        taken = segments[at:] if part.endswith(b"*") else segments[at : at + 1]
        collected.setdefault(part.removesuffix(b"*"), []).extend(taken)
    joined = {thing: separator.join(taken) for thing, taken in collected.items() if taken and thing}
    name = joined.pop(b"measurement", separator.join(segments))
    key = joined.pop(b"field", b"value")
    return name, key, template.tags | joined


def write(metric):
    """The lines of a metric, without their newlines."""
    name, tags, fields, time = metric
    tags = dict(tags)
    front = [tags.pop(b"host")] if b"host" in tags else []
    front = [IN_TAG.sub(b"_", value) for value in front + [value for _, value in sorted(tags.items())]]
    written = []
    for key, (kind, value) in fields:
        behind = [IN_NAME.sub(b"_", text) for text in ([name] if key == b"value" else [name, key])]
        if kind != "text":
            path = b".".join(front + behind)
            written.append(b"%b %b %d" % (path, written_number(kind, value), time // BILLION))
    return written


def written_number(kind, value):
    """The value of a field that is no text."""
    return written_value(kind, value) if kind == "decimal" else b"%d" % value


# Lines that touch each rule of the document, to be changed at random places.
EXAMPLES = [
    b"us.west.cpu.load 100",
    b"stats.local.cpu.load 42 1500000000",
    b"servers.a.b;host=z 1",
    b"a.b.c.d 1",
    b"servers.a.b 1 -1",
    b"cpu.usage.eu-east.idle.percentage 100 1.5",
    b"  servers.a.b;host=z;region=x=y;host=w   -2.5   1500000000.123456789  ",
    b"a;k=1;k=2;value=3;measurement=4 .5 -1.0000000004",
    b"a.measurement.field.value 1e3 -0.9999999995",
    b"a 18446744073709551615.999999999 9223372036.854775807",
    b"*.a*.a 1 -9223372036.854775808",
    b"#a\\.b\\;c,d=e\\ 1 0",
    b"   ",
    b"",
    b"a",
    b"a 1 2 3",
    b"a\tb 1\t2",
    b"a..b nan now",
    b"a.b;c; 1",
    "größe.straße;Käse=日本 21.5 😀".encode(),
]
PUT_IN = [b".", b";", b"=", b" ", b"*", b"-", b"\t", b"\r", b"\0", b"\xc3", b"\xff", b"\xe2\x82", b"\xed\xa0\x80"]
PUT_IN += [b"\xc0\x80", b"\xf4\x90\x80\x80", "€".encode()]

SEGMENTS = [b"a", b"b", b"cpu", b"load", b"servers", b"h1", b"x_y", b"0", b"17", b"*", b"a*", b"measurement"]
SEGMENTS += [b"field", b"value", b"host", "é".encode(), "日".encode(), "😀".encode()]
ODD = [b"\t", b",", b"\\", b'"', b"#", b"/", b"|", b":", b"\r", b"\0", b"\x7f", b"\xc2\x80", b"-", b"*", b"\\,"]
KEYS = [b"host", b"region", b"a", b"b", b"k1", b"k2", b"value", b"metric_type", "é".encode(), b"x;y", b"#", b"c\\"]
THINGS = [b"measurement", b"field"]
SEPARATORS = [b".", b".", b".", b"_", b"", b"::", b"--and--", "é".encode(), "日本".encode(), b" ", b",", b"="]
SEPARATORS += [b"\\", b"\n", b"\r\n", b"*", b"..", b";", b'"', b"s" * 100]
TIMES = b"""0 -0 +0 1 1500000000 1500000000.5 1.5e9 -1 -1. -1.0 -01 -1e0 -10e-1 -0.1e1 -1.000000000 1 +1 -1.0000000004
-1.0000000005 -1.0000000006 -1.00000000050000000000000001 -1.000000001 -0.9999999996 -0.9999999995
-0.99999999949 -0.9999999994 -0.999999999 -2 -1.1 -0.1 1e-9 5e-10 6e-10 9223372036 9223372037 -9223372036
-9223372037 9223372036.854775807 9223372036.854775808 9223372036.8547758074 9223372036.8547758075
9223372036.85477580749999999999999 -9223372036.854775808 -9223372036.854775809 -9223372036.8547758085
-9223372036.8547758086 -9223372036.85477580850000000000001 1e10 -1e10 1e19 2e19 -2e19 1e99 -1e99
18446744073709551615 18446744073709551616 -18446744073709551616 now N nan -1s -i 1,5 0x1 1e --1 -""".split()
CROWD = [b"k%d" % at for at in range(68)]


def lines(rng, count, trunk=()):
    """So many seeded lines, without newlines; many paths begin as the trunk does."""
    for _ in range(count):
        chance = rng.random()
        if chance < 0.15:
            yield altered(rng, rng.choice(EXAMPLES), rng.randint(1, 4))
        elif chance < 0.7:
            yield made(rng, trunk)
        elif chance < 0.99:
            yield altered(rng, made(rng, trunk), rng.randint(1, 2))
        elif chance < 0.9995:
            yield crowded(rng)
        else:
            yield long(rng)


def altered(rng, text, changes):
    """A text with changes at random places, some of which put in what counts here."""
    for _ in range(changes):
        at = rng.randrange(len(text) + 1)
        text = text[:at] + rng.choice(PUT_IN) + text[at:] if rng.random() < 0.3 else changed(rng, text, 1)
    return text


def made(rng, trunk):
    """A line by the grammar, most times one that is read."""
    text = spaces(rng, 0.05) + path(rng, trunk) + b" " + spaces(rng, 0.1) + small_or_any(rng)
    if rng.random() < 0.5:
        text += b" " + spaces(rng, 0.1) + time_of(rng)
    return text + spaces(rng, 0.05) + rng.choice((b"\r", b"\r\r", b"\r ", *[b""] * 50))


def spaces(rng, chance):
    """Some spaces, with this chance."""
    return b" " * rng.randint(1, 3) if rng.random() < chance else b""


def small_or_any(rng):
    """A decimal, or nearly one."""
    return number(rng) if rng.random() < 0.4 else rng.choice((b"%d", b"-%d", b"%d.5")) % rng.randrange(100)


def time_of(rng):
    """A time, or nearly one."""
    chance = rng.random()
    if chance < 0.3:
        return rng.choice(TIMES)
    if chance < 0.35:
        return number(rng)
    digits = b"%d" % rng.randrange(10 ** rng.randint(1, 11))
    return rng.choice((b"", b"", b"-", b"+")) + digits + rng.choice((b"", b".%09d" % rng.randrange(BILLION)))


def path(rng, trunk):
    """A path, often one that begins as the trunk does, and its tags."""
    segments = trunk[: rng.randint(0, len(trunk))] if rng.random() < 0.8 else ()
    segments = [*segments, *(segment(rng) for _ in range(rng.choice((0, 1, 1, 2, 3, 6))))]
    parts = [b".".join(segments or [segment(rng)])]
    parts += [word(rng, KEYS) + b"=" + word(rng, SEGMENTS) for _ in range(rng.choice((0, 0, 0, 1, 2, 4)))]
    return b";".join(parts)


def segment(rng):
    """A segment of a path."""
    return word(rng, SEGMENTS)


def word(rng, plain):
    """A word, mostly a plain one."""
    if rng.random() < 0.8:
        return rng.choice(plain)
    inside = [*ODD, *plain, b"=", b"."] if rng.random() < 0.1 else [*ODD, *plain]
    return b"".join(rng.choice(inside) for _ in range(rng.randint(1, 4)))


def crowded(rng):
    """A line with about as many tags as there may be, some of them twice, or with as many segments."""
    most = rng.randint(60, 67)
    segments, tags = rng.choice(((1, most), (1, most), (most, rng.randrange(4))))
    keys = CROWD[:tags]
    keys += [rng.choice(CROWD) for _ in range(rng.randrange(3))]
    rng.shuffle(keys)
    text = b";".join([b".".join([b"a"] * segments), *(key + b"=1" for key in keys)])
    return text + b" " + rng.choice((b"1", b"1", b"1", b"x", b"1 y", b"1 2 3", b"1 1e99"))


def long(rng):
    """A line about as long as a piece may be: of segments, of tags, of digits, or of spaces."""
    room = 65_536 + rng.randint(-2, 2)
    front, filling, back = rng.choice((
        (b"a", b".a", b" 1"),
        (b"a", b".a", b". 1"),
        (b"a", b"b", b" 1"),
        (b"a", b";b=c", b" 1 2"),
        (b"a", b";b=c", b"; 1 2"),
        (b"a;b=", b"=", b" 1"),
        (b"a 1", b"0", b"e-60000"),
        (b"a 0.", b"0", b"1e65530 1"),
        (b"a 1 1", b"0", b"e-65530"),
        (b"a 1 -0.", b"9", b""),
        (b"a 1 -1.", b"0", b"1"),
        (b"a 1e", b"0", b"1"),
        (b"a", b" ", b"1"),
        (b"", b" ", b""),
        (b"a", b" 1", b""),
    ))
    line = front + filling * ((room - len(front) - len(back)) // len(filling)) + back
    return line + rng.choice((b"", b"\r"))


def setups(rng, count, each):
    """Separators and the texts of templates, with so many lines for each; count lines in all."""
    for begin in range(0, count, each):
        trunk = [segment(rng) for _ in range(rng.randint(1, 4))]
        some = [good_template(rng, trunk) for _ in range(rng.choice((0, 1, 1, 2, 3, 5)))]
        if rng.random() < 0.5:
            # The less specific one comes last.
            some.sort(key=lambda text: read_template(text).filter is None)
        yield rng.choice(SEPARATORS), some, list(lines(rng, min(each, count - begin), trunk))


def good_template(rng, trunk):
    """The text of a template."""
    while True:
        text = rng.choice(TEMPLATES) if rng.random() < 0.1 else template(rng, trunk)
        if rng.random() < 0.2:
            text = altered_template(rng, text)
        # No word of a command holds a NUL.
        if b"\0" not in text and is_template(text):
            return text


def is_template(text):
    """Whether a text is that of a template."""
    try:
        return bool(read_template(text))
    except BadTemplate:
        return False


def template(rng, trunk):
    """The text of a template, mostly a good one, with a filter that often matches the trunk."""
    parts = [rng.choice((b"", *THINGS, *KEYS)) for _ in range(rng.choice((1, 2, 3, 4, 6)))]
    if rng.random() < 0.03:
        parts = rng.sample(CROWD, rng.randint(60, 67))
    if rng.random() < 0.4:
        parts.append(rng.choice(THINGS) + b"*")
    words = [b".".join(parts)]
    if rng.random() < 0.6:
        words.insert(0, filter_of(rng, trunk))
    if rng.random() < 0.4:
        words.append(own_tags(rng))
    return b" ".join(words)


def filter_of(rng, trunk):
    """A filter, some of whose segments are stars, or others than those of the trunk."""
    segments = list(trunk[: rng.randint(1, len(trunk))])
    for at, _ in enumerate(segments):
        segments[at] = b"*" if rng.random() < 0.3 else segment(rng) if rng.random() < 0.1 else segments[at]
    return b".".join(segments)


def own_tags(rng):
    """The tags of a template."""
    if rng.random() < 0.05:
        return b",".join(key + b"=1" for key in rng.sample(CROWD, rng.randint(60, 66)))
    keys = [rng.choice((*KEYS, *THINGS, b"a*")) for _ in range(rng.choice((1, 2, 4)))]
    return b",".join(key + b"=" + rng.choice((b"x", b"eu-east", b"y=z", b"=", b"*", b".")) for key in keys)


def altered_template(rng, text):
    """A text with one to three changes at random places."""
    for _ in range(rng.randint(1, 3)):
        at = rng.randrange(len(text) + 1)
        text = text[:at] + rng.choice(IN_TEMPLATES) + text[at + rng.randrange(2) :]
    return text.decode(errors="ignore").encode()


IN_TEMPLATES = [b"", b" ", b".", b"*", b"=", b",", b"a", b"=b", b" c", b"\t", b".field", b".measurement*"]
# Texts that are templates, and texts that are nearly.
TEMPLATES = [
    b"", b" ", b"  ", b"f ", b" f", b"f  ", b".", b"..", b"a", b"a ", b"a b", b"a b c", b"a b ", b"a  b",
    b"a=b", b" a=b", b"  a=b", b"f  a=b", b"a b=c", b"a=b c", b"a=b c=d", b"a=b a=b c=d", b"a=b c d=e",
    b"a b c=d e", b"a b=", b"a =b", b"a =", b"a b==", b"a b=c=d", b"a b=c,", b"a ,b=c", b"a b=c,,d=e",
    b"a b=c,d", b"a b,c=d", b"a b=c ", b"measurement*", b"field*", b"measurement*.", b"measurement*.a",
    b"a.measurement*", b"measurement*.field*", b"measurement.measurement*", b"measurement*.measurement",
    b"field*.measurement", b"*", b"a*", b"*.a", b"a.*", b"measurement**", b"*measurement", b"field*x",
    b"Measurement*", b"f measurement*", b"* measurement*", b"a..b c", b".a c", b"a. c", b". c", b"*.* c",
    b"a*.*b c", b"measurement* c", b"a c measurement*=d", b"host* a=b", b"field.field", b"f field*.a a=b",
    b"f . a=b", "é.日 é.日 é=日".encode(), b"\t", b"a\tb", b"a\nb c\n d=\n", b"a b c=d e=f", b"..field*",
]


def template_lists(rng, count):
    """Lists of texts, mostly of one text, which are templates or nearly."""
    for text in TEMPLATES:
        yield [text]
    for _ in range(count):
        text = rng.choice(TEMPLATES) if rng.random() < 0.2 else template(rng, [segment(rng) for _ in range(3)])
        text = altered_template(rng, text).replace(b"\0", b"")
        some = [good_template(rng, [b"a", b"b"]) for _ in range(rng.choice((0, 0, 0, 1, 3)))]
        some.insert(rng.randint(0, len(some)), text)
        yield some


# The letters at the ends of their ranges, what stands beside them, and other bytes.
WRITTEN = [b"a", b"z", b"A", b"Z", b"0", b"9", b"_", b"-", b".", b"..", b"/", b":", b"@", b"[", b"^", b"`", b"{", b"#"]
WRITTEN += [b"\\ ", b"\\,", b"\\=", b"\\", b"\t", b";", "é".encode(), "日".encode(), b"\x7f", b"cpu", b"usage.idle"]


def written_lines(rng, count):
    """So many lines of line protocol, without newlines, which touch the rules of writing."""
    for _ in range(count):
        keys = [rng.choice((b"host", b"hos", b"host2", b"a", b"z", b"Host")) for _ in range(rng.choice((0, 1, 2, 4)))]
        head = [written_word(rng), *(key + b"=" + written_word(rng) for key in keys)]
        fields = [rng.choice((b"value", b"value", b"valu", b"values", b"value.", written_word(rng)))
                  for _ in range(rng.choice((1, 1, 2, 3)))]
        body = [key + b"=" + written_field(rng) for key in fields]
        yield b",".join(head) + b" " + b",".join(body) + rng.choice((b"", b" ", b" %d" % nanoseconds(rng)))


def written_word(rng):
    """A word with dots and bytes that aren't written."""
    return b"".join(rng.choice(WRITTEN) for _ in range(rng.randint(1, 4)))


def written_field(rng):
    """The value of a field."""
    whole = rng.randrange(2**64) >> rng.randrange(64)
    return rng.choice((b"true", b"f", b'"x"', b'""', b"%di" % (whole >> 1), b"-%di" % (whole >> 1), b"%du" % whole,
                       b"-9223372036854775808i", number(rng), number(rng)))


def nanoseconds(rng):
    """A time near a second, near the ends of the range, or any."""
    near = rng.choice((0, -1, 1, -2, 1500000000, -9223372036)) * BILLION + rng.randint(-1, 1)
    return rng.choice((near, 2**63 - 1, -(2**63), rng.randrange(-(2**63), 2**63) >> rng.randrange(64)))
