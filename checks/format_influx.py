"""InfluxDB's line protocol as docs/users/formats.md has it, in plain Python: reading, writing, and seeded lines.

Nothing here was taken from the program: where the two differ, one of them or the document is wrong.
"""

import re

TRUE = {b"t", b"T", b"true", b"True", b"TRUE"}
FALSE = {b"f", b"F", b"false", b"False", b"FALSE"}
MOST_TAGS, MOST_FIELDS = 64, 256
BILLION = 10**9

# A part up to what ends it: pairs that are escapes, and any other byte but what ends it or makes it a fault.
MEASUREMENT = re.compile(rb"(?:\\[, ]|[^, ])*")
KEY = re.compile(rb"(?:\\[,= ]|[^,= ])*")
TAG_VALUE = re.compile(rb"(?:\\[,= ]|[^, ])*")
TEXT = re.compile(rb'(?:\\["\\]|[^"])*')
VALUE = re.compile(rb"[^, ]*")
TIME = re.compile(rb"[^ ]*")
SPACES = re.compile(rb" *")
# The escapes of a part, each of which means its second byte.
IN_MEASUREMENT = re.compile(rb"\\([, ])")
IN_KEY = re.compile(rb"\\([,= ])")
IN_TEXT = re.compile(rb'\\(["\\])')

SIGNED = re.compile(rb"[+-]?[0-9]+")
UNSIGNED = re.compile(rb"\+?[0-9]+")
DECIMAL = re.compile(rb"([+-]?)(?:([0-9]+)\.?([0-9]*)|\.([0-9]+))(?:[eE]([+-]?[0-9]+))?")


class Refused(Exception):
    """The kind of a fault, and its place."""

    def __str__(self):
        return "%s %d" % self.args


def read(piece, moment):
    """The metric of a piece (name, tags, fields, time); none for what says nothing. Raises Refused."""
    try:
        piece.decode("utf-8")
    except UnicodeDecodeError as fault:
        raise Refused("NotUtf8", fault.start) from None
    begin = SPACES.match(piece).end()
    if begin == len(piece) or piece[begin] == ord("#"):
        return None
    at = MEASUREMENT.match(piece, begin).end()
    if at == begin:
        raise Refused("BadKey", begin)
    name = IN_MEASUREMENT.sub(rb"\1", piece[begin:at])
    tags = {}
    while piece[at : at + 1] == b",":
        key, at = read_key(piece, at + 1)
        end = TAG_VALUE.match(piece, at).end()
        if end == at:
            raise Refused("BadValue", at)
        tags[key] = IN_KEY.sub(rb"\1", piece[at:end])
        at = end
    at = SPACES.match(piece, at).end()
    if at == len(piece):
        raise Refused("NoFields", at)
    fields, at = read_fields(piece, at)
    time = read_time(piece, at, moment)
    if len(tags) > MOST_TAGS or len(fields) > MOST_FIELDS:
        raise Refused("TooMany", 0)
    return name, sorted(tags.items()), list(fields.items()), time


def read_key(piece, begin):
    """The key of a tag or a field, and the place behind its `=`."""
    end = KEY.match(piece, begin).end()
    if end == begin or piece[end : end + 1] != b"=":
        raise Refused("BadKey", begin)
    return IN_KEY.sub(rb"\1", piece[begin:end]), end + 1


def read_fields(piece, at):
    """The fields, a repeated key at its first place with its last value, and the place behind them."""
    fields = {}
    while True:
        key, at = read_key(piece, at)
        fields[key], at = read_text(piece, at) if piece[at : at + 1] == b'"' else read_value(piece, at)
        if piece[at : at + 1] != b",":
            return fields, at
        at += 1


def read_text(piece, begin):
    """A text, and the place behind its last quote."""
    end = TEXT.match(piece, begin + 1).end()
    if end == len(piece) or piece[end + 1 : end + 2] not in (b"", b",", b" "):
        raise Refused("BadValue", begin)
    return ("text", IN_TEXT.sub(rb"\1", piece[begin + 1 : end])), end + 1


def read_value(piece, begin):
    """The value of a field that is no text, and the place behind it."""
    end = VALUE.match(piece, begin).end()
    word = piece[begin:end]
    if word in TRUE or word in FALSE:
        return ("bool", word in TRUE), end
    if word[-1:] == b"i" and SIGNED.fullmatch(word[:-1]):
        return ("int", in_range(int(word[:-1]), -(2**63), 2**63, begin)), end
    if word[-1:] == b"u" and UNSIGNED.fullmatch(word[:-1]):
        return ("uint", in_range(int(word[:-1]), 0, 2**64, begin)), end
    found = DECIMAL.fullmatch(word)
    if not found:
        raise Refused("BadValue", begin)
    least = -(2**64) * BILLION
    return ("decimal", in_range(billionths(found), least + 1, -least, begin)), end


def read_time(piece, at, moment):
    """The time that stands from a place to the end of the piece, or the moment."""
    begin = SPACES.match(piece, at).end()
    if begin == len(piece):
        return moment
    end = TIME.match(piece, begin).end()
    if not SIGNED.fullmatch(piece[begin:end]):
        raise Refused("BadTime", begin)
    time = in_range(int(piece[begin:end]), -(2**63), 2**63, begin)
    behind = SPACES.match(piece, end).end()
    if behind != len(piece):
        raise Refused("BadTime", behind)
    return time


def in_range(number, least, behind, place):
    """The number, where it isn't out of its range."""
    if not least <= number < behind:
        raise Refused("NumberRange", place)
    return number


def billionths(found):
    """The billionths of a decimal, rounded half to even; of one beyond all range, some number beyond it."""
    sign, whole, fraction, alone, exponent = found.groups()
    fraction = fraction or alone or b""
    digits = ((whole or b"") + fraction).lstrip(b"0")
    if not digits:
        return 0
    # digits * 10 ** power, in billionths
    power = int(exponent or b"0") - len(fraction) + 9
    if len(digits) + power > 40:
        number = 2**64 * BILLION
    elif len(digits) + power < 0:
        number = 0
    elif power >= 0:
        number = int(digits) * 10**power
    else:
        number, rest = divmod(int(digits), 10**-power)
        half = 10**-power // 2
        number += rest > half or (rest == half and number % 2)
    return -number if sign == b"-" else number


def write(metric):
    """The line of a metric, without its newline."""
    name, tags, fields, time = metric
    name = writable(name)
    if name[:1] == b"#":
        name = b"_" + name[1:]
    head = [re.sub(rb"[, ]", rb"\\\g<0>", name)]
    head += [written_key(key) + b"=" + written_key(value) for key, value in tags]
    body = [written_key(key) + b"=" + written_value(*value) for key, value in fields]
    return b"%b %b %d" % (b",".join(head), b",".join(body), time)


def writable(text):
    """A name, key or value of a tag with what a line can't say changed."""
    text = re.sub(rb"[\r\n]", b" ", text).rstrip(b"\\")
    return text or b"_"


def written_key(text):
    """A key, or the value of a tag, with its escapes."""
    return re.sub(rb"[,= ]", rb"\\\g<0>", writable(text))


def written_value(kind, value):
    """The value of a field."""
    if kind == "text":
        return b'"' + re.sub(rb'["\\]', rb"\\\g<0>", re.sub(rb"[\r\n]", b" ", value)) + b'"'
    if kind == "bool":
        return b"true" if value else b"false"
    if kind == "decimal":
        whole, fraction = divmod(abs(value), BILLION)
        text = b"%b%d.%09d" % (b"-" if value < 0 else b"", whole, fraction)
        return text.rstrip(b"0").rstrip(b".")
    return b"%d%b" % (value, b"i" if kind == "int" else b"u")


# Lines that touch each rule of the document, to be changed at random places.
EXAMPLES = [
    b"cpu v=1",
    b'm f="a',
    b'm f="a"',
    b"cpu,host=a v=1i 5",
    b"cpu v=2.5 6",
    b"# a comment",
    b"   ",
    b"  cpu,host=a,cpu=cpu-total usage_idle=99.5,usage_user=0.25 1790000000000000000  ",
    b"disk,path=/srv/my\\ files,fstype=ext4 total=42i,free=17u,used_percent=59.523809524 1790000000000000000",
    b'log,host=a message="it said \\"no\\", and C:\\\\temp\\\\x",level=3i,ok=true 7',
    b"my\\,name\\ here,a\\=b=c\\=d,e\\ f=g\\,h k\\,1=1,k\\=2=2,k\\ 3=3",
    b"m a=t,b=T,c=true,d=True,e=TRUE,f=f,g=F,h=false,i=False,j=FALSE",
    b"m a=-9223372036854775808i,b=9223372036854775807i,c=18446744073709551615u,d=0i,e=+1i 1",
    b"m a=1 -9223372036854775808",
    b"m a=1e3,b=-2.5E-3,c=.5,d=5.,e=+0,f=-0,g=1e-10,h=0.0000000005,i=0.0000000015 9223372036854775807",
    b"m,a=1,a=2,b=3 x=1,y=2,x=3",
    b'm,t="quoted" k="",l="a,b c=d" 1',
    "größe,straße=Käse temp=21.5,text=\"日本 😀\" 1".encode(),
    b"a\\\\,b=c\\\\ d=1",
    b"a\\b,c\\d=e\\f g\\h=1",
]
PUT_IN = [b"\\", b'"', b",", b"=", b"#", b"i", b"u", b".", b"-", b" ", b"\r", b"\0", b"\xc3", b"\xff"]

PLAIN = [b"a", b"b", b"cpu", b"host", b"v", b"x_y", b"0", b"17", b".", b"-", b"'", b"\t", b"#"]
PLAIN += ["é".encode(), "日".encode(), "😀".encode(), b"\xc2\x80", b"\x7f"]
ESCAPES = [b"\\,", b"\\=", b"\\ ", b"\\", b"\\\\", b'\\"', b'"', b"\r"]
EDGES = b"""9223372036854775807i 9223372036854775808i -9223372036854775808i -9223372036854775809i
00i -0i +7i 18446744073709551615u 18446744073709551616u 0u +7u -0u -7u 7 7. .7 . + - i u +i -u 1e
1e+ 1e5i 1.5i 1.5u e5 .e5 1..2 1e5 1E5 1e+5 1e-5 1e18 1e19 1e20 2e19 -2e19 1e-9 1e-10 5e-10 15e-10
25e-10 6e-10 4e-10 -5e-10 -15e-10 0e99999999999999 1e99999999999999 -1e99999999999999
1e-99999999999999 0.5000000005 0.5000000015 0.50000000050000000001 0.0000000001 18446744073709551615
18446744073709551616 18446744073709551615.999999999 18446744073709551615.9999999994
18446744073709551615.9999999995 18446744073709551615.99999999949999999999
-18446744073709551615.9999999995 1844674407370955161.6e1 0.18446744073709551616e20
0.018446744073709551615e21 00000000000000000000000000000000000001
0.00000000000000000000000000000000000000000001e44 10000000000000000000000000000000000000000000e-43 t
T true True TRUE f F false False FALSE tRUE tr truE 0x1 1_0 inf NaN nan Infinity --1 +-1 1e--1 1i1
ii""".split()
TIMES = b"""0 7 -7 +7 1790000000000000000 9223372036854775807 9223372036854775808
-9223372036854775808 -9223372036854775809 00000000000000000000000000000000000000000000001 1.0 1e3 5i
x - + 99999999999999999999999""".split()


def lines(rng, count):
    """So many seeded lines, without newlines."""
    for _ in range(count):
        chance = rng.random()
        if chance < 0.4:
            yield changed(rng, rng.choice(EXAMPLES), rng.randint(1, 4))
        elif chance < 0.7:
            yield made(rng)
        elif chance < 0.9995:
            yield changed(rng, made(rng), rng.randint(1, 3))
        elif chance < 0.9999:
            yield crowded(rng)
        else:
            yield long(rng)


def changed(rng, line, changes):
    """A line with changes at random places."""
    for _ in range(changes):
        at = rng.randrange(len(line) + 1)
        how = rng.randrange(4)
        if how == 0:
            line = line[:at] + line[at + 1 :]
        elif how == 1:
            line = line[:at] + line[at : at + 1] + line[at:]
        elif how == 2:
            line = line[:at] + line[at + 1 : at + 2] + line[at : at + 1] + line[at + 2 :]
        else:
            line = line[:at] + rng.choice(PUT_IN) + line[at:]
    return line


def made(rng):
    """A line by the grammar, most times one that is read."""
    head = [word(rng)]
    head += [word(rng) + b"=" + word(rng) for _ in range(rng.choice((0, 0, 1, 2, 3, 6)))]
    body = [word(rng) + b"=" + value(rng) for _ in range(rng.choice((1, 1, 1, 2, 4)))]
    line = spaces(rng, 0.05) + b",".join(head) + b" " + spaces(rng, 0.1) + b",".join(body)
    if rng.random() < 0.7:
        time = rng.choice(TIMES) if rng.random() < 0.2 else b"%d" % rng.randrange(10**19)
        line += b" " + spaces(rng, 0.1) + time
    return line + spaces(rng, 0.1) + (b"\r" if rng.random() < 0.1 else b"")


def spaces(rng, chance):
    """Some spaces, with this chance."""
    return b" " * rng.randint(1, 3) if rng.random() < chance else b""


def word(rng):
    """A name, key or value of a tag, often plain."""
    if rng.random() < 0.5:
        return rng.choice(PLAIN[:8])
    return b"".join(rng.choice(ESCAPES if rng.random() < 0.3 else PLAIN) for _ in range(rng.randint(1, 5)))


def value(rng):
    """The value of a field."""
    chance = rng.random()
    if chance < 0.15:
        return rng.choice(EDGES)
    if chance < 0.45:
        inside = [b",", b" ", b"=", b'\\"', b"\\\\", b"\\", b"\r", *PLAIN]
        return b'"' + b"".join(rng.choice(inside) for _ in range(rng.randrange(6))) + b'"'
    if chance < 0.7:
        return b"%d%b" % (rng.randrange(-(2**64), 2**64) >> rng.randrange(64), rng.choice((b"i", b"u", b"")))
    digits = b"%d" % (rng.randrange(10**24) // 10 ** rng.randrange(24))
    at = rng.randrange(len(digits) + 1)
    exponent = b"e%d" % rng.randint(-25, 25) if rng.random() < 0.3 else b""
    return rng.choice((b"", b"-", b"+")) + digits[:at] + b"." + digits[at:] + exponent


def crowded(rng):
    """A line with about as many tags or fields as there may be, some of them twice."""
    tags, fields = (rng.randint(62, 67), 1) if rng.random() < 0.5 else (1, rng.randint(254, 259))
    twice = rng.randrange(3)
    keys = [b"k%d" % max(number - twice, 0) for number in range(max(tags, fields))]
    rng.shuffle(keys)
    head = [b"m", *(key + b"=1" for key in keys[:tags])]
    return b",".join(head) + b" " + b",".join(key + b"=1i" for key in keys[:fields])


def long(rng):
    """A line about as long as a piece may be."""
    line = b'm v="%b" 1' % (b"x" * (65_536 - 9 + rng.randint(-2, 2)))
    return line + rng.choice((b"", b"\r"))
