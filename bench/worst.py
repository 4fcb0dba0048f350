"""Texts of nearly as many bytes as a piece may have that are made to cost a reader: of each format, names and texts."""

LONGEST_LINE = 65_536
TAGS = PARTS = 8_000


def statsd():
    """Lines with thousands of parts, and of tags: of one key, of keys that fall, and of falling ones without a value."""
    parts = b":" + b":".join([b"1|c"] * PARTS)
    falling = [b"%04x" % (TAGS - number) for number in range(TAGS)]
    yield "tags of one key", b"x," + b",".join([b"a=b"] * TAGS) + parts
    empty = b",".join(key + b"=" for key in falling[: TAGS * 4 // 6])
    yield "tags without a value whose keys fall", b"x," + empty + parts
    yield "tags whose keys fall", b"x," + b",".join(key + b"=a" for key in falling[: TAGS * 4 // 7]) + parts


def graphite():
    """Lines of segments, and of tags of one key, of few and of many."""
    many = LONGEST_LINE // 2
    yield "a.a.a..", longest([b".a"] * many)
    yield ";b=c;b=c..", longest([b";b=c"] * many)
    yield "tags of 63 keys that fall", longest([b";%02d=c" % (-at % 63) for at in range(many)])
    yield "tags whose keys all fall", longest([b";%05d=c" % (many - at) for at in range(many)])


def longest(parts):
    """A line whose path has as many of these parts, which are equally long, as there is room for."""
    path = b"a" + b"".join(parts[: (LONGEST_LINE - 3) // len(parts[0])])
    return path.ljust(LONGEST_LINE - 1) + b"1"


def openmetrics():
    """Expositions of many labels, types, samples and families."""
    end = b"# EOF"
    yield "300,000 labels", b"a{" + b",".join(b'k%06d=""' % at for at in range(300_000)) + b"} 1\n" + end
    yield "100,000 types", b"".join(b"# TYPE a%d counter\n" % at for at in range(100_000)) + b"a1_total 1\n" + end
    falling = b"".join(b"a 1 %d\n" % (400_000 - at) for at in range(350_000))
    yield "samples of one series whose times fall", falling + end
    yield "families of one sample", b"".join(b"a%d 1\n" % at for at in range(350_000)) + end
