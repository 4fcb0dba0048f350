"""Texts with what `format_probe journal` answers to them, by hand: every front of one journal, and a journal with every
form of a line (journal_texts.py), whole and with one edit. Run by itself it compares them with the plain reading.
"""

import sys

import plain_journal
from journal_texts import FORMS, TWO

FIRST_GATHER = b"gather 0 -1 3 1 0 0 %b 0\n"
EMPTY = b"journal 1\nstart 0\nitems made 0 removed 0 routed 0\nend 0\n"
# Edits of the journal with every form: what stands there once, what is put in its place, and the place of the BadEntry.
EDITS = [
    (b"start -5", b"start -0", 10), (b"input 1 plain", b"input 2 plain", 37), (b"tracked 2", b"tracked 4294967296", 19),
    (b":scx", b":csx", 51),
    (FIRST_GATHER % b"2", FIRST_GATHER % b"1", 261), (FIRST_GATHER % b"2", FIRST_GATHER % b"3", 274),
    (FIRST_GATHER % b"2", FIRST_GATHER % b"1000000000000000000", 292),
    (FIRST_GATHER % b"2", FIRST_GATHER % b"18446744073709551616", 150),
    (b"%C3", b"%c3", 174), (b"%C3%A9", b"%C3", 174), (b"m c%25", b"m %63%25", 174), (b"f-0.5;", b"f-0.50;", 174),
    (b"f-0.5;", b"f-0;", 174), (b";w=u", b";v=u", 174), (b"v=i-1", b"v=i+1", 174), (b";a%20b=%C3%A9|", b";a=|", 174),
    (b";a%20b=%C3%A9|", b";b=1;a=1|", 174),
    (b"route 0 =", b"route 3 =", 281), (b"route 0 = passes = - / = c|v=f1|3", b"route 0 = removed", 281),
    (b"route 0 = passes", b"route 0 = removed", 281), (b"route 0 = passes", b"route 0 - passes", 281),
    (b"= - / = c|", b"= - = c|", 281),
    (b"route 1 - removed", b"route 1 m|v=s%0A|0 passes - - / - -", 322),
    (b"- - / - =\n", b"- - / - n;t=1|v=bf|10\n", 534),
    (b"report 1", b"report 2", 386), (b"report 1 delivered\n", b"report 1 delivered\nreport 0 rejected\n", 405),
    (b"ended 0\n", b"ended 0\nreport 0 delivered\n", 502),
    (b"done 0 failed", b"done 0 1", 417), (b"done 0 failed", b"done 0 failed\r", 417),
    (b"groups 0", b"groups 1", 716), (b"end 19", b"end 18", 932), (b"end 19\n", b"end 19\nx", 939),
    (b"end 19\n", b"end 19\n\n", 939),
    (b"take 1\n", b"take\x001\n", 315), (b"take 1\n", b"take 1\n\n", 322),
]
# More of them, of which each is a BadEntry at the line with the edit.
LINE_EDITS = [
    *((b"take 1", it) for it in (b"take 1 ", b"take  1", b" take 1", b"take 1\r", b"take\t1", b"take 01", b"take +1")),
    *((b"take 1", it) for it in (b"take -0", b"take", b"take 1 1", b"Take 1", b"take 1.0", b"take 0x1")),
    *((b"z=s|", b"z=s%b|" % it) for it in (b"%ED%A0%80", b"%C0%80", b"%F4%90%80%80", b"%41", b"%4", b"%", b"%0a")),
    (b"z=s|", b"z=|"), (b"z=s|", b"z|"), (b"z=s|", b"=s|"),
    (b";a%20b=%C3%A9|", b";a=1;a=2|"), (b";a%20b=%C3%A9|", b";%7B=1;a=1|"), (b";a%20b=%C3%A9|", b";-=1;%20=1|"),
    (b";a%20b=%C3%A9|", b";|"), (b";a%20b=%C3%A9|", b";a|"), (b";a%20b=%C3%A9|", b";=a|"), (b"m c%25;", b"m ;"),
    *((b"f-0.5;", b"f%b;" % it) for it in (b".5", b"5.", b"00", b"1e3", b"0.0000000001", b"0.0", b"-0.0", b"+1", b"")),
    (b"f-0.5;", b"f18446744073709551616;"), (b"f-0.5;", b"f-18446744073709551616;"), (b"y=bt;", b"y=btrue;"),
    (b"= - / = c|", b"= / - / = c|"), (b"passes = - / =", b"passed = - / ="), (b"late - -", b"removed - -"),
    (b"scx 10", b"scxc 10"), (b"final:-7", b"final:-07"), (b"final:-7", b"final"), (b"0 0 keep", b"0 0 kept"),
    (b"gathered 2 ended", b"gathered 2 left"), (b"gathered 2 ended", b"gathered 2"), (b"end 19", b"end 019"),
]
# The lines behind which no report may stand; in its place it is a BadEntry.
NO_REPORTS = [b"take 1", b"begin 1 0 1", b"ended 1", b"m m|v_sum=i3|10", b"stop 9 0", b"report 1 delivered", b"end 19"]
# Where numbers stand: a line, and the ranges of its words.
U32, U64, I64 = (0, 2**32 - 1), (0, 2**64 - 1), (-(2**63), 2**63 - 1)
RANGES = [
    (b"start -5", {1: I64}), (b"input 0 tracked 2", {3: U32}), (b"output 0 2 3", {2: U32, 3: U32}),
    (b"aggregator 0 basicstats:scx 10 1 2 drop", {3: I64, 4: I64, 5: I64}),
    (b"gather 1 0 2 0 1 1 0 -", {1: U32, 2: I64, 3: U32, 4: U32, 5: U32, 6: U32, 8: U64}), (b"take 0", {1: U64}),
    (b"route 1 - removed", {1: U64}), (b"begin 1 0 1", {1: U32, 2: U64, 3: U64}), (b"done 1 ok", {1: U32}),
    (b"ended 1", {1: U32}), (b"tick 7 1", {1: I64}), (b"stop 9 0", {1: I64}),
    (b"input 1 pieces 2 refused 0 passed 1 filtered 1 gathered 0 ended", dict.fromkeys((3, 5, 7, 9, 11), U64)),
    (b"groups 0 delivered 2 rejected 0 undelivered 0", dict.fromkeys((3, 5, 7), U64)),
    (b"items made 1 removed 1 routed 2", dict.fromkeys((2, 4, 6), U64)),
    (b"output 1 filtered 0 late 1 consumed 0 written 1 buffered 0 dropped 0", dict.fromkeys((3, 5, 7, 9, 11, 13), U64)),
]
# Numbers within a word: what stands before them, the number, what stands behind it, and its range.
INNER_RANGES = [
    (b"v=i", b"-1", b";", I64), (b"w=u", b"18446744073709551615", b";", U64),
    (b"s|", b"9223372036854775807", b"\n", I64), (b"final:", b"-7", b" ", I64),
]
# Edits that are read.
GOOD_EDITS = [
    (b"route 1 - removed", b"route 7 - removed"), (b"begin 1 0 1", b"begin 9 5 1"), (b"passes = - /", b"passes /"),
    (b"basicstats:scx", b"basicstats:"), (b"gathered 2 ended", b"gathered 2 unread"), (b"pieces 4", b"pieces 99"),
    (b"basicstats:scx", b"basicstats:scmx"), (b"basicstats:scx", b"minmax"), (b"basicstats:scx", b"merge"),
    (b"z=s|", b"z=s%F4%8F%BF%BF|"), (b"z=s|", b"z=s%00|"), (b";a%20b=%C3%A9|", b";a=1;%7B=1|"),
    (b";a%20b=%C3%A9|", b";%20=1;-=1|"), (b";a%20b=%C3%A9|", b"|"), (b"f-0.5;", b"f0;"), (b"f-0.5;", b"f-0.000000001;"),
    (b"f-0.5;", b"f18446744073709551615.999999999;"), (b"f-0.5;", b"f-18446744073709551615.999999999;"),
    (b"1 1 0 -\n", b"1 1 0 -\nreport 0 rejected\n"), (b"passes = - /", b"passes = - = = - /"), (b"/ - =\n", b"/\n"),
]
OTHERS = [
    (b"\xef\xbb\xbf" + FORMS, "BadHeader 0"), (FORMS.replace(b"1\n", b"1\r\n", 1), "BadHeader 0"),
    (b"journal 9" + TWO[9:], "BadHeader 0"), (b"journal 9\n", "BadHeader 0"),
    (TWO.replace(b"take 0\n", b"take x\n"), "BadEntry 114"), (b"journal 1\nstart 0\n%%%", "Torn 21"),
]
# What a journal has.
COUNTS = [
    (EMPTY, b"inputs 0 aggregators 0 outputs 0 entries 0 items 0 views 0 reports 0\n", b""),
    (TWO, b"inputs 1 aggregators 0 outputs 1 entries 9 items 2 views 2 reports 0\n", b""),
    (FORMS, b"inputs 2 aggregators 2 outputs 2 entries 19 items 3 views 12 reports 2\n",
     b"6 1 0 delivered\n12 0 0 delivered\n"),
]


def edited(old, new):
    """The journal with every form of a line, with one edit."""
    if FORMS.count(old) != 1:
        sys.exit("fuzz-journals: %r doesn't stand there once" % old)
    return FORMS.replace(old, new)


def of_numbers():
    """The journal with the least and the greatest number in each place, and with the numbers beyond these."""
    places = list(INNER_RANGES)
    for line, fields in RANGES:
        words = line.split(b" ")
        for at, reach in fields.items():
            front = b"".join(word + b" " for word in words[:at])
            back = b"".join(b" " + word for word in words[at + 1 :])
            places.append((b"\n" + front, words[at], back + b"\n", reach))
    for before, number, behind, reach in places:
        old = before + number + behind
        place = FORMS.rindex(b"\n", 0, FORMS.index(old) + len(before)) + 1
        for other in (reach[0] - 1, *reach, reach[1] + 1):
            text = edited(old, before + b"%d" % other + behind)
            yield text, "journal", text if reach[0] <= other <= reach[1] else b"BadEntry %d\n" % place


def of_lines():
    """The journal with edits that are refused at their lines."""
    for old, new in LINE_EDITS:
        place = FORMS.rindex(b"\n", 0, FORMS.index(old)) + 1
        yield edited(old, new), "journal", b"BadEntry %d\n" % place
    for line in NO_REPORTS:
        text = edited(b"\n" + line + b"\n", b"\n" + line + b"\nreport 1 delivered\n")
        yield text, "journal", b"BadEntry %d\n" % (FORMS.index(b"\n" + line + b"\n") + len(line) + 2)


def cases():
    """Each text with a word of the probe, and what it answers."""
    if (len(TWO), len(FORMS), len(EMPTY)) != (372, 939, 56):
        sys.exit("fuzz-journals: a journal by hand has another length")
    for size in range(len(TWO)):
        yield TWO[:size], "journal", b"BadHeader 0\n" if size < 10 else b"Torn %d\n" % size
    yield from of_lines()
    yield from of_numbers()
    for old, new, place in EDITS:
        for word in plain_journal.WORDS:
            yield edited(old, new), word, b"BadEntry %d\n" % place
    for old, new in GOOD_EDITS:
        yield edited(old, new), "journal", edited(old, new)
    for text, said in OTHERS:
        yield text, "journal", said.encode() + b"\n"
    for text, count, reports in COUNTS:
        yield text, "journal", text
        yield text, "count", count
        yield text, "reports", reports


def compare(answer):
    """Compares the answers of a reading, each a status and an output; a text for each difference, and how many there
    were."""
    found, number = [], 0
    for text, word, wanted in cases():
        number += 1
        said = answer(word, text)
        if said != (0, wanted):
            found.append("%s: %r\n    it says: %r\n    by hand: %r" % (word, text, said, wanted))
    return found, number


if __name__ == "__main__":
    differences, texts = compare(plain_journal.answer)
    print("fuzz-journals: %d answers by hand, beside the plain reading: %d differences" % (texts, len(differences)))
    for one in differences[:10]:
        print("  " + one)
    sys.exit(1 if differences else 0)
