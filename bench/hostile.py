"""Inputs that are made to take much memory, each of which anyone may send, and what `run` takes at its peak over them.

Output and journal go to /dev/null, and all else is as where a configuration says nothing: 1,000 pieces are gathered at
once. A run that asks for more than LIMIT bytes is refused them and ends, so that it can't take down the machine.
"""

import os
import re
from collections import namedtuple

import kit

LIMIT, LIMIT_TEXT = 3 << 30, "more than 3 GiB"
OUT_OF_MEMORY = 9
ACCOUNT = re.compile(rb"input 0 pieces (\d+) refused (\d+) passed 0 filtered 0 gathered (\d+) ended\n")
# Where the program tells its account.
TOLD = "told"

# An input: its name, its format, its bytes, its pieces and metrics, and the most MB that its run may take.
Hostile = namedtuple("Hostile", "name format text pieces metrics megabytes")


def statsd():
    """Lines that say their name once, and many counters of it."""
    lines, name, parts = 20, 32_000, 8_191
    text = (b"a" * name + b":1|c" * parts + b"\n") * lines
    said = "%d StatsD lines with a name of %s bytes and %s parts" % (lines, kit.whole(name), kit.whole(parts))
    return Hostile(said, "statsd", text, lines, lines * parts, 200)


def openmetrics():
    """An exposition of as many samples as a piece may have."""
    samples = 1_048_574
    text = b"a 1\n" * samples + b"# EOF\n"
    return Hostile("an exposition of %s samples" % kit.whole(samples), "openmetrics", text, 1, samples, 400)


def influx():
    """Lines of as many tags and fields as a metric may have, each of them 200 bytes with what stands before it."""
    lines, tags, fields = 1_000, 64, 256
    head = b"m" + b"".join(b",t%03d=" % at + b"v" * 194 for at in range(tags))
    body = b",".join(b'f%03d="' % at + b"v" * 192 + b'"' for at in range(fields))
    said = "%s lines of line protocol with %d tags and %d fields of 200 bytes" % (kit.whole(lines), tags, fields)
    return Hostile(said, "influx", (head + b" " + body + b" 1\n") * lines, lines, lines, 200)


def peer_of(program, given, folder):
    """The program over an input, whose file and configuration are written."""
    source = os.path.join(folder, "hostile")
    with open(source, "wb") as file:
        file.write(given.text)
    # An output and the journal may be one device, but not by one name.
    config = kit.write_configuration(
        folder, "hostile", '[agent]\njournal = "/dev/./null"\n',
        kit.plugins("inputs", [source], f'data_format = "{given.format}"\n'),
        kit.plugins("outputs", ["/dev/null"]))
    return kit.Peer("hostile", ["prlimit", "--as=%d" % LIMIT, program, "run", config], {"TOLD": TOLD})


def check(bounds, program, given, folder):
    """Runs the program over an input, of which it must read all, and says its peak."""
    text = "%s, %s bytes: peak memory in MB, at most %d" % (given.name, kit.whole(len(given.text)), given.megabytes)
    status, used = kit.run(peer_of(program, given, folder), "", folder)
    with open(os.path.join(folder, TOLD), "rb") as file:
        told = file.read()
    account = ACCOUNT.match(told)
    counts = [int(it) for it in account.groups()] if account else []
    if status == OUT_OF_MEMORY:
        bounds.say(text, LIMIT_TEXT, False)
    elif status != 0 or counts != [given.pieces, 0, given.metrics]:
        bounds.say(text, f"it failed, with status {status} and the account {told!r}", False)
    else:
        megabytes = used.kilobytes * 1024 / 1e6
        bounds.say(text, "%.1f" % megabytes, megabytes <= given.megabytes)


def check_all(bounds, program, folder):
    """Checks each input in turn."""
    for made in (statsd, openmetrics, influx):
        given = made()
        kit.say("memory of " + given.name)
        check(bounds, program, given, folder)
