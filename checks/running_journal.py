"""Runs the program and reads agent.journal while the run goes on, after it was killed, and after its end.

`Reader` reads a journal as docs/users/journal.md has it, whole or as far as it goes, and raises Fault at the first
line that has no place there. A run that is killed reads a file, whose lines are gathered 1,000 at a time, so
that its journal must be a front of that of a run that wasn't, byte for byte but for the moments.
"""

import contextlib
import os
import re
import signal
import subprocess
import sys
import tempfile
import time

SECONDS = 20
# How soon the journal must hold what was done.
SOON = 1.0
# How often a run is begun that is to be killed.
TRIES = 10
JOURNAL = "agent.journal"
BATCH, LIMIT = 1_000, 10_000

NUMBER = rb"[+-]?\d+(?:\.\d+)?"
TEXT = rb"(?:[A-Za-z0-9_.:-]|%[0-9A-Fa-f]{2})"
VALUE = rb"(?:i-?\d+|u\d+|f" + NUMBER + rb"|bt|bf|s" + TEXT + rb"*)"
METRIC = rb"%b+(?:;%b+=%b+)*\|%b+=%b(?:;%b+=%b)*\|-?\d+" % (TEXT, TEXT, TEXT, TEXT, VALUE, TEXT, VALUE)
VIEW = rb"(?:=|-|%b)" % METRIC

SET_UP = [rb"journal 1", rb"start \d+", rb"input 0 plain", rb"output 0 %d %d" % (BATCH, LIMIT)]
GATHER = re.compile(rb"gather 0 \d+ (\d+) (\d+) (\d+) (\d+) (\d+) -")
HELD = re.compile(rb"m " + METRIC)
ENDED = re.compile(rb"ended 0")
TAKE = re.compile(rb"take (\d+)")
ROUTE = re.compile(rb"route (\d+) (?:= passes / =|%b passes / %b|- removed)" % (VIEW, VIEW))
BEGIN = re.compile(rb"begin 0 (\d+) (\d+)")
DONE = re.compile(rb"done 0 (ok|failed)")
STOP = re.compile(rb"stop \d+ 0")
ACCOUNT = [
    re.compile(rb"input 0 pieces \d+ refused \d+ passed \d+ filtered \d+ gathered \d+ (?:ended|unread)"),
    re.compile(rb"items made \d+ removed \d+ routed \d+"),
    re.compile(rb"output 0 filtered \d+ late \d+ consumed \d+ written \d+ buffered \d+ dropped \d+"),
]
END = re.compile(rb"end (\d+)")


class Fault(Exception):
    """What stands in a journal, or in a folder, and may not."""


def require(holds, text):
    """Raises where something doesn't hold."""
    if not holds:
        raise Fault(text)


class Reader:
    """Reads a journal line by line; what it has read is in its fields."""

    def __init__(self):
        self.lines = 0
        self.entries = 0
        # Metrics that the last gather has still to name, and items made, taken and routed so far.
        self.to_come, self.made, self.taken, self.routed = 0, 0, 0, 0
        # The range in flight, and the place behind those that were accepted.
        self.flight, self.written = None, 0
        self.batches = 0
        self.stopped = False
        # The lines of the account, and whether the last line was read.
        self.account = []
        self.whole = False

    def read(self, line):
        """Reads one line, without its newline."""
        require(not self.whole, "a line behind the end: %r" % line)
        if self.lines < len(SET_UP):
            require(re.fullmatch(SET_UP[self.lines], line), "no set-up: %r" % line)
        elif self.to_come:
            require(HELD.fullmatch(line), "no metric: %r" % line)
            self.to_come -= 1
        elif not self.read_entry(line):
            self.read_end(line)
        self.lines += 1

    def read_entry(self, line):
        """Reads a line that is an entry; False where it is none."""
        shape, step = ENTRIES.get(line.partition(b" ")[0], (None, None))
        found = shape and not self.account and shape.fullmatch(line)
        if not found:
            return False
        step(self, *found.groups())
        self.entries += 1
        return True

    def read_end(self, line):
        """Reads a line of the account, or the last line."""
        require(self.stopped and self.flight is None, "no entry, and the run isn't stopped: %r" % line)
        if len(self.account) < len(ACCOUNT):
            require(ACCOUNT[len(self.account)].fullmatch(line), "no account: %r" % line)
            self.account.append(line)
            return
        found = END.fullmatch(line)
        require(found, "no end: %r" % line)
        require(int(found[1]) == self.entries, "%r, and there are %d entries" % (line, self.entries))
        self.whole = True

    def note(self):
        """An entry that says nothing of items."""

    def gather(self, pieces, refused, passed, filtered, count):
        require(not self.stopped, "a gather behind the stop")
        numbers = [int(it) for it in (refused, passed, filtered, count)]
        require(sum(numbers) <= int(pieces), "a gather of %d pieces has more in it" % int(pieces))
        self.to_come = int(count)
        self.made += int(count)

    def take(self, number):
        require(int(number) == self.taken, "take %d, and not %d" % (int(number), self.taken))
        require(self.taken == self.routed, "take %d, and the item before it is in hand" % self.taken)
        require(self.taken < self.made, "take %d, which was not gathered" % self.taken)
        self.taken += 1

    def route(self, number):
        require(int(number) == self.routed, "route %d, and not %d" % (int(number), self.routed))
        require(self.routed == self.taken - 1, "route %d, which is not in hand" % self.routed)
        self.routed += 1

    def begin(self, first, behind):
        self.flight = (int(first), int(behind))
        is_range = self.written <= self.flight[0] < self.flight[1] <= self.routed
        require(is_range, "no range: %d to %d" % self.flight)
        require(self.flight[1] <= self.flight[0] + BATCH, "more than a batch: %d to %d" % self.flight)

    def done(self, how):
        require(self.flight is not None, "done, and nothing is in flight")
        if how == b"ok":
            self.written = self.flight[1]
            self.batches += 1
        self.flight = None

    def stop(self):
        require(not self.stopped, "a second stop")
        self.stopped = True


# The shape of each entry, by its first word, and what it does to the reader.
ENTRIES = {
    b"gather": (GATHER, Reader.gather),
    b"ended": (ENDED, Reader.note),
    b"take": (TAKE, Reader.take),
    b"route": (ROUTE, Reader.route),
    b"begin": (BEGIN, Reader.begin),
    b"done": (DONE, Reader.done),
    b"stop": (STOP, Reader.stop),
}


def read_front(text):
    """Reads a front of a journal; gives the reader, and what stands behind the last newline."""
    *lines, rest = text.split(b"\n")
    reader = Reader()
    for number, line in enumerate(lines, 1):
        try:
            reader.read(line)
        except Fault as fault:
            raise Fault("line %d: %s" % (number, fault)) from None
    return reader, rest


def without_moments(text):
    """The text with each moment as 0, also where the text breaks off in it."""
    return re.sub(rb"^(start|stop|gather 0) \d+", rb"\1 0", text, flags=re.M)


def lines_of(count):
    """Lines of line protocol as the program writes them."""
    return b"".join(b"cpu,host=h%d v=%di %d\n" % (number % 10, number, number + 1) for number in range(count))


def held(folder, name):
    """The bytes of a file; none where it isn't there."""
    try:
        with open(os.path.join(folder, name), "rb") as file:
            return file.read()
    except FileNotFoundError:
        return b""


def clear(folder):
    """Removes what a run left in a folder."""
    for name in (JOURNAL, "out"):
        if os.path.exists(os.path.join(folder, name)):
            os.unlink(os.path.join(folder, name))


def size_of(path):
    """The bytes that a file has; -1 where it isn't there."""
    try:
        return os.path.getsize(path)
    except FileNotFoundError:
        return -1


@contextlib.contextmanager
def running(program, folder, source, stdin):
    """A run in a folder, with `out` as its output; it goes on no longer than the block."""
    started = subprocess.Popen(
        [program, "pipe", source, "out", str(BATCH), str(LIMIT)],
        cwd=folder, stdin=stdin, stdout=subprocess.PIPE, stderr=subprocess.PIPE,
    )
    try:
        yield started
    finally:
        if started.poll() is None:
            started.kill()
            started.communicate()


def end(started):
    """Ends the input of a run, waits for its end, which must be a good one, and gives its report."""
    report, told = started.communicate(timeout=SECONDS * 3)
    require((started.returncode, told) == (0, b""), "status %d, %r" % (started.returncode, told))
    return report


def kill(started):
    """Kills a run, and waits for its end; False where it had ended before."""
    started.send_signal(signal.SIGKILL)
    started.communicate(timeout=SECONDS)
    return started.returncode == -signal.SIGKILL


def wait_until(what, seconds):
    """Waits until something holds; False where it doesn't in so many seconds."""
    until = time.monotonic() + seconds
    while not what():
        if time.monotonic() > until:
            return False
        time.sleep(0.001)
    return True


def has_sent(folder, count):
    """Whether the journal says that so many items were routed and a batch was accepted."""
    text = held(folder, JOURNAL)
    return len(re.findall(rb"^route ", text, re.M)) == count and b"\ndone 0 ok\n" in text


def feed(started, folder, lines, count):
    """Gives a run lines, and waits until so many items in all are in its journal, routed and accepted."""
    started.stdin.write(lines)
    started.stdin.flush()
    if not wait_until(lambda: has_sent(folder, count), SOON):
        found = held(folder, JOURNAL)
        routed, accepted = len(re.findall(rb"^route ", found, re.M)), found.count(b"\ndone 0 ok\n")
        text = "after %.1f s the journal has %d bytes, %d lines `route `, %d lines `done 0 ok`"
        raise Fault(text % (SOON, len(found), routed, accepted))
    require(started.poll() is None, "the run ended, and its input is open")


def read_whole(folder, report):
    """Reads a journal that must be whole, with the account that was reported."""
    reader, rest = read_front(held(folder, JOURNAL))
    require(reader.whole and not rest, "the journal isn't whole: %r" % held(folder, JOURNAL)[-80:])
    account = b"".join(line + b"\n" for line in reader.account)
    require(account == report, "the report is %r, and the account in the journal %r" % (report, account))
    return reader


def require_sent(folder):
    """The journal has 1,000 items, all routed and accepted, and no more; its last line is whole."""
    reader, rest = read_front(held(folder, JOURNAL))
    found = (reader.made, reader.routed, reader.written, reader.stopped, rest)
    require(found == (1_000, 1_000, 1_000, False, b""), "made, routed, written, stopped, rest: %r" % (found,))


def goes_on(program, folder):
    """1,000 lines come, and the input stays open; then it ends."""
    with running(program, folder, "stdin", subprocess.PIPE) as started:
        feed(started, folder, lines_of(1_000), 1_000)
        require_sent(folder)
        require(held(folder, "out") == lines_of(1_000), "the output hasn't what the journal says")
        report = end(started)
    reader = read_whole(folder, report)
    require(reader.written == reader.made == 1_000, "made %d, written %d" % (reader.made, reader.written))


def grows(program, folder):
    """Three times 1,000 lines, each of which stand in the journal before the next ones come."""
    lines, before = lines_of(3_000).splitlines(keepends=True), b""
    with running(program, folder, "stdin", subprocess.PIPE) as started:
        for count in (1_000, 2_000, 3_000):
            feed(started, folder, b"".join(lines[count - 1_000 : count]), count)
            now = held(folder, JOURNAL)
            require(now.startswith(before), "what stood in the journal was changed")
            before = now
        report = end(started)
    require(held(folder, JOURNAL).startswith(before), "what stood in the journal was changed")
    reader = read_whole(folder, report)
    require(reader.written == 3_000 and reader.batches == 3, "%d batches" % reader.batches)


def killed_waiting(program, folder):
    """The run is killed while it waits for more input: the journal ends with a whole line."""
    with running(program, folder, "stdin", subprocess.PIPE) as started:
        feed(started, folder, lines_of(1_000), 1_000)
        require(kill(started), "the run ended, and its input is open")
    require_sent(folder)


class Killing:
    """Runs over a file, killed once the journal has a part of its bytes, beside one that wasn't killed."""

    LINES = 60_000

    def __init__(self):
        self.whole = None

    def lay(self, program, folder):
        """Makes the input, and the journal of a run that isn't killed, once."""
        with open(os.path.join(folder, "in"), "wb") as file:
            file.write(lines_of(self.LINES))
        if self.whole is None:
            with running(program, folder, "in", subprocess.DEVNULL) as started:
                report = end(started)
            reader = read_whole(folder, report)
            require(reader.written == self.LINES, "written %d" % reader.written)
            self.whole = held(folder, JOURNAL)

    def last_line(self):
        """The last line of the whole journal, behind a newline."""
        return self.whole[self.whole.rindex(b"\nend ") :]

    def at(self, share):
        """A case: killed once the journal has so much of its bytes; the share 0 is as soon as it is there."""

        def run(program, folder):
            self.lay(program, folder)
            least = int(len(self.whole) * share)
            path = os.path.join(folder, JOURNAL)
            # On a busy machine a run may end before it is killed.
            for _ in range(TRIES):
                clear(folder)
                with running(program, folder, "in", subprocess.DEVNULL) as started:
                    wait_until(lambda: started.poll() is not None or size_of(path) >= least, SECONDS)
                    if kill(started) and not held(folder, JOURNAL).endswith(self.last_line()):
                        return self.look(held(folder, JOURNAL), held(folder, "out"))
            raise Fault("the run ended before it was killed, or its journal was whole, %d times" % TRIES)

        return run

    def look(self, front, out):
        """What a killed run left is a front of a journal, and its output holds what was accepted."""
        reader, rest = read_front(front)
        require(
            without_moments(self.whole).startswith(without_moments(front)),
            "no front of the journal of a run that isn't killed; behind the last newline stands %r" % rest,
        )
        require(lines_of(self.LINES).startswith(out), "the output is no front of the input")
        accepted = out.count(b"\n")
        # A round puts its lines before its part of the journal, and the journal is behind by a round at most.
        require(
            reader.written <= accepted <= reader.written + 2 * BATCH,
            "%d lines in the output, and %d were accepted by the journal" % (accepted, reader.written),
        )
        ending = "a cut line" if rest else "whole lines"
        return "%d bytes, %d routed, %s" % (len(front), reader.routed, ending)


def main(program):
    """Runs each case in a folder of its own, and prints a line for each and one for all."""
    killing = Killing()
    shares = [0, 0.00001, 0.05, 0.2, 0.4, 0.6, 0.8, 0.95]
    name = "killed with %g%% of the journal: a front of it"
    killed = [(name % (share * 100), killing.at(share)) for share in shares]
    cases = [
        ("1,000 lines stand in the journal while the input is open; at the end it is whole", goes_on),
        ("the journal grows with each 1,000 lines, and keeps what it has", grows),
        ("killed while it waits for input: whole lines", killed_waiting),
        *killed,
    ]
    failed = 0
    for name, run in cases:
        with tempfile.TemporaryDirectory() as folder:
            try:
                how, told = "ok", run(program, folder)
            except (Fault, OSError, subprocess.TimeoutExpired) as fault:
                how, told = "FAILED", repr(fault)
        failed += how != "ok"
        print("running-journal: %s: %s%s" % (how, name, " (%s)" % told if told else ""), flush=True)
    print("running-journal: %d passed, %d failed" % (len(cases) - failed, failed), flush=True)
    return 1 if failed else 0


if __name__ == "__main__":
    sys.exit(main(*sys.argv[1:]))
