"""StatsD lines as docs/users/formats.md has them, in plain Python: reading, and seeded lines.

Nothing here was taken from the program: where the two differ, one of them or the document is wrong. Metrics
are those of format_influx, which writes them; numbers are read in another way than there.
"""

import re
from decimal import ROUND_HALF_EVEN, Context, Decimal
from fractions import Fraction

from format_influx import Refused, write

__all__ = ["EXAMPLES", "Refused", "lines", "read", "write"]

TYPES = {b"c": b"counter", b"g": b"gauge", b"ms": b"timing", b"h": b"timing", b"s": b"set"}
MOST_TAGS = 64
BILLION = 10**9
# The least magnitude, in billionths, that is out of range.
LIMIT = 2**64 * BILLION

DECIMAL = re.compile(rb"([+-]?(?=\.?[0-9])[0-9]*(?:\.[0-9]*)?)(?:[eE]([+-]?[0-9]+))?")
# No exponent beyond this magnitude says anything else, as a piece has fewer digits.
FAR = 200_000
# Enough digits for each number below 10**20, to billionths.
NUMBERS = Context(prec=40, rounding=ROUND_HALF_EVEN)


def read(piece, moment):
    """The metrics of a piece, each (name, tags, fields, time); none where it says nothing. Raises Refused."""
    try:
        piece.decode("utf-8")
    except UnicodeDecodeError as fault:
        raise Refused("NotUtf8", fault.start) from None
    if not piece.strip(b" "):
        return []
    head, colon, rest = piece.partition(b":")
    if not colon:
        raise Refused("NoColon", len(piece))
    parts, mark, behind = rest.partition(b"|#")
    begin = len(head) + 1
    name, tags = read_head(head)
    if mark:
        tags |= read_tags(behind, begin + len(parts) + 2)
    metrics = [read_part(part, place) for place, part in split(parts, b":", begin)]
    metrics = [(name, tags_left(tags, kind), [field], moment) for kind, field in metrics]
    if any(len(left) > MOST_TAGS for _, left, _, _ in metrics):
        raise Refused("TooMany", 0)
    return metrics


def split(text, separator, place):
    """The parts of a text that begins at this place of the piece, each behind its own place."""
    for part in text.split(separator):
        yield place, part
        place += len(part) + 1


def read_head(head):
    """The name and the tags that stand before the first colon."""
    (_, name), *parts = split(head, b",", 0)
    if not name:
        raise Refused("BadName", 0)
    tags = {}
    for place, part in parts:
        key, equals, value = part.partition(b"=")
        if not key or not equals:
            raise Refused("BadTag", place)
        tags[key] = value
    return name, tags


def read_tags(text, begin):
    """The tags that stand behind `|#`."""
    tags = {}
    for place, part in split(text, b",", begin):
        key, colon, value = part.partition(b":")
        if part and (not key or b"|" in part):
            raise Refused("BadTag", place)
        if part:
            tags[key] = value if colon else b"true"
    return tags


def tags_left(tags, kind):
    """The tags of a metric of this kind, in key order, but those with an empty value."""
    tags = tags | {b"metric_type": kind}
    return sorted((key, value) for key, value in tags.items() if value)


def read_part(part, begin):
    """What `metric_type` is for a part, and its field."""
    value, bar, rest = part.partition(b"|")
    if not bar:
        raise Refused("BadType", begin + len(part))
    word, bar, rate = rest.partition(b"|")
    at = begin + len(value) + 1
    if word not in TYPES:
        raise Refused("BadType", at)
    field = read_member(value, begin) if word == b"s" else read_number(value, word, begin)
    divisor = read_rate(rate, at + len(word), begin) if bar else BILLION
    return TYPES[word], divided(field, divisor, begin) if word == b"c" else field


def read_member(value, place):
    """The field of a set."""
    if not value:
        raise Refused("BadValue", place)
    return b"member", ("text", value)


def read_number(value, word, place):
    """The field of a type that has a number."""
    number = billionths(value)
    if number is None:
        raise Refused("BadValue", place)
    key = b"delta" if word == b"g" and value[:1] in (b"+", b"-") else b"value"
    return key, ("decimal", in_range(number, place))


def read_rate(text, bar, place):
    """The rate, given what stands behind the `|` that has the place `bar`; `place` is that of the value."""
    number = billionths(text[1:]) if text[:1] == b"@" else None
    if number is None or number <= 0:
        raise Refused("BadRate", bar)
    return in_range(number, place)


def divided(field, divisor, place):
    """The field of a counter, divided by its rate."""
    key, (kind, number) = field
    return key, (kind, in_range(round(Fraction(number * BILLION, divisor)), place))


def in_range(number, place):
    """The number of billionths, where it isn't out of range."""
    if abs(number) >= LIMIT:
        raise Refused("NumberRange", place)
    return number


def billionths(word):
    """The billionths of a decimal, rounded half to even, and None for what is no decimal. For one that is far
    out of range this is some number out of range, with its sign."""
    found = DECIMAL.fullmatch(word)
    if not found:
        return None
    digits, exponent = (it.decode() for it in found.groups(b"0"))
    number = Decimal("%se%d" % (digits, max(-FAR, min(Decimal(exponent), FAR))))
    if not number:
        return 0
    if number.adjusted() >= 20:
        return -LIMIT if number < 0 else LIMIT
    return int(number.quantize(Decimal("1e-9"), context=NUMBERS).scaleb(9, context=NUMBERS))


# Lines that touch each rule of the document, to be changed at random places.
EXAMPLES = [
    b"users.online:1|c|@0.5",
    b"users.online:1|c",
    b"load:-2.5|g",
    b"load:+2.5|g|@0.1",
    b"load:2.5|g|#host:a",
    b"took:320|ms|@0.1",
    b"took:320|h",
    b"seen:765|s",
    b"seen:a b=c,d#e@f|s|@1",
    b"cpu,host=a,path=/srv=x:1|c:2|ms:-3|g:x|s|#env:dev,bare,url:http://a,empty:,,last:1",
    b"m,a=1,a=2,b=,metric_type=x:1|c|#b:3,a:,metric_type:y",
    b"m,a=1:1|c|#a:",
    b"m:18446744073709551615.999999999|c",
    b"m:1|c|@1e-9:1e19|c|@2:5e-10|c:0.000000003|c|@2:-0.000000001|c|@2",
    b"m:1|c:2|c:3|c|@0.1|#",
    b"   ",
    b"",
    b"a|#b:1|c",
    b"#a\\,b=c\\:1|c|#d\\:e\\",
    "größe,straße=Käse:21.5|g|#text:日本 😀".encode(),
    b"a:1:2|ms",
    b"_e{5,4}:title|text",
    b"page:1|c|@0.3333333333|#a:b|c:d",
    b"page:1|c|T1656581400",
]
PUT_IN = [b":", b"|", b"@", b"#", b",", b"=", b"+", b"-", b".", b" ", b"\r", b"\0", b"\xc3", b"\xff"]

PLAIN = [b"a", b"b", b"cpu", b"host.x", b"metric_type", b"k_1", b"0", b"17", b"-", b"+", b".", b"/", b"\t"]
PLAIN += ["é".encode(), "日".encode(), "😀".encode(), b"\xc2\x80", b"\x7f"]
ODD = [b" ", b"\\", b'"', b"#", b"@", b"\r", b"\0", b"\\ "]
EDGES = b"""0 -0 +0 00 7 +7 -7 7. .7 +.7 -.7 7.e1 .7e1 . + - e e5 .e5 1e 1e+ 1e- 1e--1 1e1.5 1..2 --1 +-1
0x1 1_0 inf -inf nan NaN Infinity 1i 1u 1f 1,5 true 1e5 1E5 1e+5 1E-5 1e18 1e19 -1e19 1e20 -1e20 2e19 -2e19
1e-9 1e-10 5e-10 6e-10 4e-10 15e-10 25e-10 35e-10 -5e-10 -15e-10 0.5000000005 0.5000000015
0.50000000050000000001 0.00000000049999999999999999999999999999999999999999999999 18446744073709551615
18446744073709551616 -18446744073709551616 18446744073709551615.999999999 18446744073709551615.9999999994
18446744073709551615.9999999995 -18446744073709551615.9999999995 18446744073709551615.99999999949999999999
1844674407370955161.6e1 0.18446744073709551616e20 99999999999999999999 100000000000000000000
1e99999999999999999999 -1e99999999999999999999 1e-99999999999999999999
0e99999999999999999999 -0e99999999999999999999 0.000e999
000000000000000000000000000000000000000000000000000000000001
0.00000000000000000000000000000000000000000001e44 10000000000000000000000000000000000000000000e-43""".split()
RATES = b"""1 0.1 0.5 .5 2 3 4 0.3 0.25 0.001 1e-9 2e-9 15e-10 5e-10 6e-10 4e-10 0 -0 0.0 +0.1 -0.1 -1e30 1e30
1e19 18446744073709551615.999999999 18446744073709551616 -18446744073709551616 1e-99 1. 01""".split()


def lines(rng, count):
    """So many seeded lines, without newlines."""
    for _ in range(count):
        chance = rng.random()
        if chance < 0.25:
            yield changed(rng, rng.choice(EXAMPLES), rng.randint(1, 4))
        elif chance < 0.6:
            yield made(rng)
        elif chance < 0.9945:
            yield changed(rng, made(rng), rng.randint(1, 3))
        elif chance < 0.9997:
            yield crowded(rng)
        else:
            yield long(rng)


def changed(rng, line, changes):
    """A line with changes at random places: a byte left out, doubled, swapped with the next, or put in."""
    for _ in range(changes):
        at = rng.randrange(len(line) + 1)
        byte, next_one, behind = line[at : at + 1], line[at + 1 : at + 2], line[at + 2 :]
        instead = rng.choice((next_one, byte + byte + next_one, next_one + byte, None))
        if instead is None:
            instead = rng.choice(PUT_IN) + byte + next_one
        line = line[:at] + instead + behind
    return line


def made(rng):
    """A line by the grammar, most times one that is read."""
    head = [word(rng)]
    head += [word(rng) + b"=" + empty_or_word(rng) for _ in range(rng.choice((0, 0, 0, 1, 2, 5)))]
    parts = [made_part(rng) for _ in range(rng.choice((1, 1, 1, 2, 4)))]
    line = b",".join(head) + b":" + b":".join(parts)
    if rng.random() < 0.5:
        line += b"|#" + b",".join(made_tag(rng) for _ in range(rng.randrange(5)))
    return line + (b"\r" if rng.random() < 0.02 else b"")


def made_tag(rng):
    """A tag that stands behind `|#`, or an empty part."""
    chance = rng.random()
    if chance < 0.1:
        return b""
    return word(rng) if chance < 0.3 else word(rng) + b":" + empty_or_word(rng)


def made_part(rng):
    """A value, a type and perhaps a rate."""
    kind = rng.choice((b"c", b"c", b"c", b"g", b"ms", b"h", b"s"))
    if kind == b"c" and rng.random() < 0.15:
        return near_the_limit(rng)
    part = (empty_or_word(rng) if kind == b"s" else number(rng)) + b"|" + kind
    if rng.random() < 0.5:
        return part
    return part + b"|@" + (rng.choice(RATES) if rng.random() < 0.7 else number(rng).lstrip(b"-"))


def near_the_limit(rng):
    """A counter that is nearly out of range, or just so, once it is divided by its rate."""
    rate = max(rng.randrange(BILLION) >> rng.randrange(30), 1)
    value = 2**64 * rate + rng.randint(-2, 2)
    sign = rng.choice((b"", b"+", b"-"))
    return b"%b%de-9|c|@%de-9" % (sign, value, rate)


def empty_or_word(rng):
    """A value of a tag, or a member, at times empty."""
    return b"" if rng.random() < 0.1 else word(rng)


def word(rng):
    """A name, key or value of a tag, often plain."""
    if rng.random() < 0.5:
        return rng.choice(PLAIN[:6])
    return b"".join(rng.choice(ODD if rng.random() < 0.2 else PLAIN) for _ in range(rng.randint(1, 4)))


def number(rng):
    """A decimal, or nearly one."""
    chance = rng.random()
    if chance < 0.15:
        return rng.choice(EDGES)
    sign = rng.choice((b"", b"", b"-", b"+"))
    if chance < 0.4:
        return b"%b%d" % (sign, rng.randrange(2**64) >> rng.randrange(64))
    digits = b"%d" % (rng.randrange(10**24) // 10 ** rng.randrange(24))
    at = rng.randrange(len(digits) + 1)
    exponent = b"e%d" % rng.randint(-25, 25) if rng.random() < 0.3 else b""
    return sign + digits[:at] + b"." + digits[at:] + exponent


def crowded(rng):
    """A line with about as many tags as there may be, some of them twice, empty or `metric_type`."""
    keys = [b"k%d" % at for at in range(rng.randint(61, 67))]
    keys += [rng.choice(keys) for _ in range(rng.randrange(3))] + [b"metric_type"] * rng.randrange(2)
    rng.shuffle(keys)
    tags = [(key, b"" if rng.random() < 0.03 else b"1") for key in keys]
    front = rng.randrange(len(tags) + 1)
    head = b",".join([b"m", *(b"=".join(tag) for tag in tags[:front])])
    behind = b",".join(b":".join(tag) for tag in tags[front:])
    return head + b":" + rng.choice((b"1|c", b"1|c:2|g", b"x|c", b"a|s:1|ms")) + b"|#" + behind


def long(rng):
    """A line about as long as a piece may be: of one member, of digits, of parts, or of tags."""
    room = 65_536 + rng.randint(-2, 2)
    front, filling, back = rng.choice((
        (b"m:", b"x", b"|s"),
        (b"m:1", b"0", b"e-60000|c"),
        (b"m:0.", b"0", b"1e65530|g"),
        (b"m:1|c|@0.5", b"0", b""),
        (b"m:1e", b"0", b"1|c"),
        (b"m", b":1|c", b"|#a"),
        (b"m:1|c|#", b"a:1,", b""),
        (b"m", b",a=1", b":1|c"),
    ))
    line = front + filling * ((room - len(front) - len(back)) // len(filling)) + back
    return line + rng.choice((b"", b"\r"))
