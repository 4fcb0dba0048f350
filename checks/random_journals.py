"""Seeded journals for checks/fuzz-journals: journals of random entries, and changes of any journal."""

import re

import plain_journal as plain
from format_influx import BILLION, written_value

# Parts of names, keys and texts: plain ones, and such as are escaped.
PARTS = [b"a", b"b", b"cpu", b"host", b"v", b"x_y", b"A.b-c:d", b"0", b"Z", b"_", b"-"]
ODD_PARTS = [b" ", b"%", b"=", b";", b"|", b"/", b"\n", b"\0", b"\x7f", b"{", b"~", b"!", b",", b'"', b"\\", b"@", b"["]
ODD_PARTS += ["é".encode(), "日".encode(), "😀".encode(), b"\xc2\x80", b"\xed\x9f\xbf", b"\xee\x80\x80"]
ODD_PARTS += [b"\xf0\x90\x80\x80", b"\xf4\x8f\xbf\xbf"]
KINDS = [b"minmax", b"merge", b"basicstats:", b"basicstats:s", b"basicstats:cx", b"basicstats:scmx", b"basicstats:sx"]
VERDICTS = [b"passes", b"passes", b"passes", b"consumed", b"late"]
FIXED_LIMIT = 2**64 * BILLION
# What is put in place of a byte, a number, a word, a kind of an aggregator, a metric and a line, and into a metric.
OTHER_BYTES = b"\n\n\n\0\r\t  =/-;|%+0919.:_aFfm{\x80\xc3\xff"
OTHER_NUMBERS = [0, 1, 2, 7, -1, 2**32 - 1, 2**32, 2**63 - 1, 2**63, -(2**63), -(2**63) - 1, 2**64 - 1, 2**64, 10**30]
OTHER_WORDS = b"""- = / m gather ended take route removed passes late consumed report delivered rejected ok failed tick
stop end input plain tracked items output groups aggregator keep drop begin done unread m|v=i1|0 m|v=bt|-1""".split()
OTHER_WORDS.append(b"")
OTHER_KINDS = b"""minmax merge final final: final:-0 final:07 final:9223372036854775808 basicstats basicstats:cs
basicstats:ss basicstats:xm basicstats:scmxs basicstats:S basicstats:, Minmax min""".split()
OTHER_METRICS = b"""m m| m||0 m|v=i1 m|v=i1| |v=i1|0 m|=i1|0 m|v=|0 m|v|0 m;|v=i1|0 m;a|v=i1|0 m;a=|v=i1|0 m;=b|v=i1|0
m;a=b;a=c|v=i1|0 m;b=1;a=1|v=i1|0 m;%7B=1;a=1|v=i1|0 m;a=1;%7B=1|v=i1|0 m;%20=1;-=1|v=i1|0 m;-=1;%20=1|v=i1|0
m;A=1;a=1|v=i1|0 m;a=b=c|v=i1|0 m|v=i1;|0 m|v=i1;v=i1|0 m|v=i1;%76=i1|0 m|v=i1;w=i1|0 m|w=i1;v=i1|0 m|v=s|0 m|v=s%|0
m|v=s%4|0 m|v=s%2G|0 m|v=s%0a|0 m|v=s%0A|0 m|v=s%41|0 m|v=s%ED%A0%80|0 m|v=s%C0%80|0 m|v=s%F4%90%80%80|0 m|v=s%00|0
m|v=b|0 m|v=btt|0 m|v=bT|0 m|v=f|0 m|v=f.5|0 m|v=f5.|0 m|v=f05|0 m|v=f0.0|0 m|v=f-0.0|0 m|v=f-0|0 m|v=f1e3|0 m|v=f+1|0
m|v=f-1.5|0 m|v=f0.000000001|0 m|v=f0.0000000001|0 m|v=f0.000000010|0 m|v=f18446744073709551615.999999999|0
m|v=f18446744073709551616|0 m|v=f-18446744073709551615.999999999|0 m|v=f-18446744073709551616|0
m|v=i9223372036854775807|0 m|v=i9223372036854775808|0 m|v=i-9223372036854775808|0 m|v=i-9223372036854775809|0
m|v=u18446744073709551615|0 m|v=u18446744073709551616|0 m|v=u-1|0 m|v=u-0|0 m|v=i-0|0 m|v=i00|0 m|v=x1|0 m|v=I1|0
m|v=i1|-0 m|v=i1|00 m|v=i1|0|0 m|v=i1|9223372036854775807 m|v=i1|9223372036854775808 m|v=i1|-9223372036854775808
m|v=i1|-9223372036854775809 %6D|v=i1|0 \xc3\xa9|v=i1|0 %C3%A9|v=i1|0""".split()
ESCAPES = b"%ED%A0%80 %C0%80 %F4%90%80%80 %F0%9F%98%80 %C3%A9 %c3%a9 %C3 %80 %FF %00 %0A %0a %7F %41 %2 % %G0".split()
OTHER_LINES = [b"", b" ", b"m m|v=i1|0", b"report 0 delivered", b"take 0", b"route 0 - removed", b"done 0 ok", b"end 0"]
OTHER_FIRST_LINES = [b"", b"journal", b"journal 2", b"journal 1\r", b"journal 1 ", b"\xef\xbb\xbfjournal 1"]

ROUTE = re.compile(rb"^route (\d+) (\S+) (\w+)(.*)$", re.M)
METRIC = re.compile(rb"\S+\|\S*\|\S+")
HELD = re.compile(rb"^m (\S+)$", re.M)
GROUP = re.compile(rb"^gather .* (\d+)$", re.M)
KIND = re.compile(rb"^(aggregator \d+ )\S+", re.M)
BEFORE_REPORTS = (b"gather ", b"m ", b"route ", b"done ", b"report ")
COUNT_AT = {b"gather": 7, b"tick": 2, b"stop": 2}


# Journals of random entries.


def number(rng, field):
    """A number of a field, mostly a small one."""
    chance = rng.random()
    if chance < 0.8:
        return rng.randrange(12)
    if chance < 0.9:
        return rng.choice((field[0], field[1] - 1))
    return rng.randrange(*field) >> rng.randrange(64)


def raw_text(rng, most=4):
    """The bytes of a name, a key or a text, of at most so many parts."""
    if rng.random() < 0.6:
        return rng.choice(PARTS)
    return b"".join(rng.choice(ODD_PARTS if rng.random() < 0.4 else PARTS) for _ in range(rng.randint(1, most)))


def value(rng):
    """The value of a field."""
    kind = rng.choice(b"iufbs")
    if kind == ord("i"):
        return b"i%d" % number(rng, plain.I64)
    if kind == ord("u"):
        return b"u%d" % number(rng, plain.U64)
    if kind == ord("b"):
        return rng.choice((b"bt", b"bf"))
    if kind == ord("s"):
        return b"s" + (plain.spelled(raw_text(rng, 8)) if rng.random() < 0.9 else b"")
    limit = rng.choice((FIXED_LIMIT, BILLION * 1_000, 1_000))
    billionths = rng.choice((rng.randrange(1 - limit, limit), rng.randrange(1_000) * BILLION, limit - 1, 1 - limit))
    return b"f" + written_value("decimal", billionths)


def metric(rng):
    """The text of a metric."""
    tags = {raw_text(rng): raw_text(rng) for _ in range(rng.choice((0, 0, 1, 2, 3, 9)))}
    fields = {raw_text(rng): value(rng) for _ in range(rng.choice((1, 1, 1, 2, 4, 9)))}
    head = [plain.spelled(raw_text(rng))]
    head += [b"%b=%b" % (plain.spelled(key), plain.spelled(text)) for key, text in sorted(tags.items())]
    body = [b"%b=%b" % (plain.spelled(key), text) for key, text in fields.items()]
    return b"%b|%b|%d" % (b";".join(head), b";".join(body), number(rng, plain.I64))


class Maker:
    """A journal that is made entry by entry: its lines, and what its entries have named."""

    def __init__(self, rng):
        self.rng = rng
        self.pool = [metric(rng) for _ in range(5)]
        self.items, self.groups, self.entries = [], set(), 0
        self.counts = [rng.choice((1, 1, 2, 3, 0)), rng.choice((0, 0, 1, 2)), rng.choice((1, 1, 2, 3, 0))]
        if rng.random() < 0.02:
            self.counts[rng.randrange(3)] = rng.choice((11, 17, 40))
        self.tracked = [rng.random() < 0.5 for _ in range(self.counts[0])]
        self.lines = [b"journal 1", b"start %d" % number(rng, plain.I64)]
        self.set_up()

    def some(self, field):
        return number(self.rng, field)

    def a_metric(self):
        return self.rng.choice(self.pool) if self.rng.random() < 0.7 else metric(self.rng)

    def set_up(self):
        for index, tracked in enumerate(self.tracked):
            self.lines.append(b"input %d " % index + (b"tracked %d" % self.some(plain.U32) if tracked else b"plain"))
        for index in range(self.counts[1]):
            kind = self.rng.choice([*KINDS, b"final:%d" % self.some(plain.I64)])
            times = (self.some(plain.I64), self.some(plain.I64), self.some(plain.I64))
            last = self.rng.choice((b"keep", b"drop"))
            self.lines.append(b"aggregator %d %b %d %d %d %b" % (index, kind, *times, last))
        for index in range(self.counts[2]):
            self.lines.append(b"output %d %d %d" % (index, self.some(plain.U32), self.some(plain.U32)))

    def metrics(self, count):
        made = [self.a_metric() for _ in range(count)]
        self.items += made
        self.lines += [b"m " + one for one in made]

    def reports(self):
        if self.groups and self.rng.random() < 0.3:
            some = self.rng.sample(sorted(self.groups), self.rng.randint(1, min(4, len(self.groups))))
            words = (b"delivered", b"rejected")
            self.lines += [b"report %d %b" % (group, self.rng.choice(words)) for group in sorted(some)]

    def gather(self):
        count, group = self.rng.choice((0, 1, 1, 2, 3, 5)), b"-"
        if self.rng.random() < 0.5:
            number_of_group = self.some(plain.U64)
            self.groups.add(number_of_group)
            group = b"%d" % number_of_group
        numbers = [self.some(plain.U32) for _ in range(4)]
        words = (self.some(plain.U32), self.some(plain.I64), *numbers, count, group)
        self.lines.append(b"gather %d %d %d %d %d %d %d %b" % words)
        self.metrics(count)
        self.reports()

    def made(self):
        count = self.rng.choice((0, 0, 1, 2))
        self.lines.append(b"%b %d %d" % (self.rng.choice((b"tick", b"stop")), self.some(plain.I64), count))
        self.metrics(count)

    def route(self):
        rng, item = self.rng, self.some(plain.U64)
        if self.items and rng.random() < 0.8:
            item = rng.randrange(len(self.items))
        named = self.items[item] if item < len(self.items) else None
        if rng.random() < 0.1:
            self.lines.append(b"route %d - removed" % item)
        else:
            whole = named if named and rng.random() < 0.7 else self.a_metric()
            counts = self.counts[1:] if rng.random() < 0.8 else (rng.randrange(4), rng.randrange(4))
            views = [b" ".join([b"", *(self.view(whole) for _ in range(count))]) for count in counts]
            said = (item, b"=" if whole == named else whole, rng.choice(VERDICTS), views[0], views[1])
            self.lines.append(b"route %d %b %b%b /%b" % said)
        self.reports()

    def view(self, whole):
        other = self.rng.choice((b"=", b"=", b"-", self.a_metric()))
        return b"=" if other == whole else other

    def done(self):
        self.lines.append(b"done %d %b" % (self.some(plain.U32), self.rng.choice((b"ok", b"failed"))))
        self.reports()

    def short(self):
        """One of the entries of one line."""
        u64 = (self.some(plain.U64), self.some(plain.U64))
        begin = b"begin %d %d %d" % (self.some(plain.U32), *u64)
        self.lines.append(self.rng.choice((b"ended %d" % self.some(plain.U32), b"take %d" % u64[0], begin)))

    def text(self, entries):
        """The whole text, with so many entries."""
        for _ in range(entries):
            self.rng.choice((self.gather, self.made, self.route, self.route, self.done, self.short))()
        for line in plain.account_of(self.tracked, self.counts[2]):
            words = line.split(b" ")
            last = self.rng.choice((b"ended", b"unread"))
            self.lines.append(b" ".join({b"N": b"%d" % self.some(plain.U64), b"E": last}.get(it, it) for it in words))
        return b"\n".join([*self.lines, b"end %d" % entries, b""])


def whole_journal(rng):
    """A journal of random entries, whose text is read."""
    chance = rng.random()
    if chance < 0.99:
        return Maker(rng).text(rng.choice((0, 1, 3, 8, 15, 30, 60)))
    if chance < 0.994:
        return Maker(rng).text(rng.choice((700, 2_500)))
    return crowded(rng)


def crowded(rng):
    """A journal of many outputs, and of about as many lines `removed` as there may be."""
    outputs, removed = rng.choice((149, 200, 300)), 1
    lines = [b"journal 1", b"start 0", *(b"output %d 1 1" % index for index in range(outputs))]
    account = b"items made 0 removed 0 routed 0\n" + b"".join(
        b"output %d filtered 0 late 0 consumed 0 written 0 buffered 0 dropped 0\n" % index for index in range(outputs))
    size = len(b"\n".join(lines)) + len(account)
    while outputs * removed <= plain.VIEWS_A_BYTE * (size + 18 * removed + 10):
        removed += 1
    removed += rng.choice((-2, -1, 0, 1))
    return b"\n".join([*lines, *[b"route 0 - removed"] * removed, account + b"end %d" % removed, b""])


# Changes of a text at a random place.


def changed_bytes(rng, text):
    """One to three bytes are others, or more, or fewer."""
    for _ in range(rng.randint(1, 3)):
        at = rng.randrange(len(text) + 1)
        new = bytes([rng.choice(OTHER_BYTES) if rng.random() < 0.7 else rng.randrange(256)])
        kind = rng.randrange(4)
        if kind == 0:
            new = b""
        elif kind == 1:
            new = text[at : at + 1] * 2
        text = text[:at] + new + text[at + (kind < 3) :]
    return text


def with_line(rng, text, change):
    """The text with another line, or others, in place of one."""
    lines = text.split(b"\n")
    at = rng.randrange(len(lines))
    lines[at : at + 1] = change(lines[at])
    return b"\n".join(lines)


def changed_words(rng, text):
    """A word of a line is another one, or is more or lacking, or changes places with the next."""

    def change(line):
        words = line.split(b" ")
        at = rng.randrange(len(words))
        kind = rng.randrange(6)
        if kind <= 1:
            words[at] = rng.choice(OTHER_WORDS)
        elif kind == 2:
            words[at] = rng.choice(text.split())
        elif kind == 3:
            words[at : at + 1] = []
        elif kind == 4:
            words.insert(at, words[at])
        else:
            words[at : at + 2] = words[at : at + 2][::-1]
        return [b" ".join(words)]

    return with_line(rng, text, change)


def changed_numbers(rng, text):
    """A number is another one, or is spelled in another way."""
    found = rng.choice(list(re.finditer(rb"-?\d+", text)) or [None])
    if found is None:
        return text
    old, kind = found[0], rng.randrange(8)
    new = b"%d" % rng.choice(OTHER_NUMBERS)
    if kind <= 2:
        new = b"%d" % (int(old[:30]) + rng.choice((-1, 1, 1, 2, 10)))
    elif kind == 3:
        new = rng.choice((b"0" + old, b"+" + old, b"-" + old, b"-0", old + b".0", old + b"0", b"", b" " + old))
    elif kind == 4:
        new = b"%d" % rng.randrange(10 ** rng.randint(1, 21))
    return text[: found.start()] + new + text[found.end() :]


def changed_lines(rng, text):
    """A line is lacking, or twice there, or stands elsewhere, or is another one, or has a byte more at an end."""
    lines = text.split(b"\n")
    at, to, kind = rng.randrange(len(lines)), rng.randrange(len(lines)), rng.randrange(7)
    if kind == 0:
        del lines[at : at + rng.choice((1, 1, 1, 2, 5))]
    elif kind == 1:
        lines.insert(at, lines[at])
    elif kind == 2:
        lines.insert(to, lines.pop(at))
    elif kind == 3:
        lines[at : at + 2] = lines[at : at + 2][::-1]
    elif kind == 4:
        lines.insert(at, lines[to])
    elif kind == 5:
        lines.insert(at, rng.choice(OTHER_LINES))
    else:
        more = rng.choice((b" ", b"\r", b"\t", b"\0"))
        lines[at] = rng.choice((lines[at] + more, more + lines[at], lines[at].replace(b" ", b" " + more, 1)))
    return b"\n".join(lines)


def changed_reports(rng, text):
    """A report more stands behind some line: of a group that is gathered before it, or of the one after that."""
    lines = text.split(b"\n")
    likely = [at for at, line in enumerate(lines) if line.startswith(BEFORE_REPORTS)]
    at = rng.choice(likely) if likely and rng.random() < 0.6 else rng.randrange(len(lines))
    groups = [int(it[:30]) for it in GROUP.findall(b"\n".join(lines[: at + 1]))] or [0]
    group = rng.choice(groups) + rng.choice((0, 0, 0, 1))
    lines.insert(at + 1, b"report %d %b" % (group, rng.choice((b"delivered", b"rejected"))))
    return b"\n".join(lines)


def changed_counts(rng, text):
    """A COUNT is another number, or the kind of an aggregator another word."""
    if rng.random() < 0.5:
        return KIND.sub(lambda it: it[1] + rng.choice(OTHER_KINDS), text, 1)
    lines = text.split(b"\n")
    at = rng.choice([at for at, line in enumerate(lines) if line.split(b" ")[0] in COUNT_AT] or [0])
    words = lines[at].split(b" ")
    words[min(COUNT_AT.get(words[0], 0), len(words) - 1)] = b"%d" % rng.choice(OTHER_NUMBERS)
    lines[at] = b" ".join(words)
    return b"\n".join(lines)


def changed_metrics(rng, text):
    """A metric is another one, perhaps none, or a part of it is spelled in another way."""
    found = rng.choice(list(METRIC.finditer(text)) or [None])
    if found is None:
        return text
    old, kind = found[0], rng.randrange(8)
    new = rng.choice(OTHER_METRICS)
    if kind == 0:
        new = rng.choice(METRIC.findall(text))
    elif kind == 1:
        new = re.sub(rb"%[0-9A-F]{2}", lambda it: it[0].lower(), old)
    elif kind == 2:
        at = rng.randrange(len(old))
        new = old[:at] + b"%%%02X" % old[at] + old[at + 1 :]
    elif kind == 3:
        head, mark, rest = old.partition(b"|")
        name, *tags = head.split(b";")
        tags += rng.choices(tags, k=rng.randrange(2)) if tags else []
        rng.shuffle(tags)
        new = b";".join([name, *tags]) + mark + rest
    elif kind == 4:
        head, body, time = (old.split(b"|") + [b"", b""])[:3]
        fields = body.split(b";")
        new = b"|".join((head, b";".join([*fields, rng.choice(fields)]), time))
    elif kind == 5:
        new = metric(rng)
    elif kind == 6:
        at = rng.randrange(len(old) + 1)
        new = old[:at] + rng.choice(ESCAPES) + old[at:]
    return text[: found.start()] + new + text[found.end() :]


def changed_routes(rng, text):
    """A whole or a view is spelled out, or `=`, or a route removes its item, or is spelled as if it did."""
    found = rng.choice(list(ROUTE.finditer(text)) or [None])
    if found is None:
        return text
    held, item = HELD.findall(text[: found.start()]), int(found[1][:20])
    named = held[item] if item < len(held) else b"m|v=i1|0"
    whole = named if found[2] == b"=" else found[2]
    words = found[0].split(b" ")
    kind = rng.randrange(4)
    if kind == 0:
        words[2] = named if found[2] == b"=" else b"="
    elif kind == 1 and len(words) > 5:
        at = rng.randrange(4, len(words))
        words[at] = rng.choice((b"=", b"-", whole, named))
    elif kind == 2:
        counts = (text.count(b"\naggregator "), len(re.findall(rb"\noutput \d+ \d+ \d+$", text, re.M)))
        words = [*words[:2], whole, b"passes", *[b"-"] * counts[0], b"/", *[b"-"] * counts[1]]
    else:
        words = [*words[:2], b"-", b"removed"]
    return text[: found.start()] + b" ".join(words) + text[found.end() :]


def changed_header(rng, text):
    """The first line is another one."""
    return rng.choice(OTHER_FIRST_LINES) + text[9:]


def mended(text):
    """The text with each COUNT as there are lines `m` behind it, and with the number of its entries at the end."""
    lines = text.split(b"\n")
    following, entries = 0, sum(line.split(b" ")[0] in plain.ENTRIES for line in lines)
    for at in range(len(lines) - 1, -1, -1):
        words = lines[at].split(b" ")
        if words[0] == b"m":
            following += 1
            continue
        count = COUNT_AT.get(words[0], len(words))
        if count < len(words):
            words[count] = b"%d" % following
            lines[at] = b" ".join(words)
        elif words[0] == b"end" and len(words) == 2:
            lines[at] = b"end %d" % entries
        following = 0
    return b"\n".join(lines)


def cut(rng, text):
    """A front of the text, perhaps with some bytes behind it that end no line."""
    front = text[: rng.randrange(len(text) + 1 if rng.random() < 0.9 else 12)]
    if rng.random() < 0.3:
        front += bytes(byte for byte in rng.randbytes(rng.choice((1, 5, 100))) if byte != 10)
    return front


CHANGES = [
    changed_bytes, changed_words, changed_numbers, changed_lines, changed_reports, changed_counts, changed_metrics,
    changed_routes,
]


def changed(rng, text):
    """A whole journal as it is, or cut, or with some changes."""
    chance = rng.random()
    if chance < 0.2:
        return text
    if chance < 0.32:
        return cut(rng, text)
    if chance < 0.35:
        return changed_header(rng, text)
    for _ in range(rng.choice((1, 1, 1, 2, 3))):
        text = rng.choice(CHANGES)(rng, text)
    if rng.random() < 0.6:
        text = mended(text)
    return cut(rng, text) if rng.random() < 0.08 else text
