"""What the cases of edge_cases.py and edge_configurations.py are made of.

A case is a shell line, in which `hogzent` is the program, with the files that lie there before. What is
expected is written out: all files that lie there afterwards, the status, what goes to standard output where
that is no file, and the line on standard error. In a journal the moments count as 0.
"""

import array
import fcntl
import os
import re
import resource
import signal
import subprocess
import termios
import time
from dataclasses import dataclass, field

SECONDS = 20

LINES = b"cpu,host=a v=1i 5\ncpu v=2.5 6\n"
OLD = b"what was here before, and is longer than the two lines together\n"
ACCOUNT = b"""input 0 pieces 2 refused 0 passed 0 filtered 0 gathered 2 ended
items made 0 removed 0 routed 2
output 0 filtered 0 late 0 consumed 0 written 2 buffered 0 dropped 0
"""
JOURNAL = b"""journal 1
start 0
input 0 plain
output 0 10 100
gather 0 0 2 0 0 0 2 -
m cpu;host=a|v=i1|5
m cpu|v=f2.5|6
ended 0
take 0
route 0 = passes / =
take 1
route 1 = passes / =
begin 0 0 2
done 0 ok
stop 0 0
""" + ACCOUNT + b"end 9\n"
NOTHING = b"""input 0 pieces 0 refused 0 passed 0 filtered 0 gathered 0 ended
items made 0 removed 0 routed 0
output 0 filtered 0 late 0 consumed 0 written 0 buffered 0 dropped 0
"""
SET_UP = b"journal 1\nstart 0\ninput 0 plain\noutput 0 10 100\n"
NOTHING_JOURNAL = SET_UP + b"ended 0\nstop 0 0\n" + NOTHING + b"end 2\n"
UNREAD = NOTHING.replace(b"ended", b"unread")
UNREAD_JOURNAL = SET_UP + b"stop 0 0\n" + UNREAD + b"end 1\n"

USAGE = (
    b"hogzent: usage: hogzent run CONFIG; or hogzent check CONFIG; or hogzent gen N CONFIG,"
    b" with 1 <= N <= 1000000; or hogzent pipe IN OUT BATCH LIMIT,"
    b" with 1 <= BATCH <= LIMIT <= 10000, and OUT not agent.journal\n"
)
READ_FAULT = (
    b"hogzent: input %d (%b): a read failed;"
    b" what was read before was sent, buffered or dropped, as the account says\n"
)
IS_OPEN = b"this run has that file open already"
ANOTHERS = b"another run has it"
FOLDER = b"it is a folder"
MISSING = b"there is no such file or folder"
WAS_CLOSED = b"it was closed as the run began"
LEFT = b"hogzent: output 0 (%b): %b metrics left after 3 failed tries\n"
REPORT_FAULT = b"hogzent: the journal or the report could not be written whole\n"
REFUSED = b"hogzent: input 0 (%b): %d of %d pieces refused; the first, piece %d%b\n"
DROPPED = b"hogzent: output %d (%b): %b dropped, above its metric_buffer_limit of %d\n"


@dataclass(frozen=True)
class Link:
    """A second name of a file: a symbolic link, or a hard one."""

    to: str
    is_hard: bool = False


class Folder:
    """A folder with nothing in it."""


@dataclass(frozen=True)
class Holding:
    """A text that has this part somewhere: what another library says of a fault, around what is promised."""

    part: bytes

    def __eq__(self, text):
        return self.part in text


@dataclass(frozen=True)
class Unopened:
    """The line on standard error of a start that is refused for a reason that the system says in its own words."""

    place: str

    def __eq__(self, text):
        reason = b"(?!; no line)[^\n]+"
        return re.fullmatch(re.escape(unopened(self.place, b"WHY")).replace(b"WHY", reason), text) is not None


@dataclass
class Case:
    """A shell line, what lies in its folder before, and what is expected of it."""

    name: str
    line: str
    before: dict = field(default_factory=lambda: {"in": LINES})
    # What lies there afterwards, beside what is expected to be as before.
    after: dict = field(default_factory=dict)
    status: int = 0
    report: bytes = ACCOUNT
    told: bytes = b""


def refused(name, line, place, before, why=IS_OPEN, **others):
    """A case in which a place isn't opened: each file is as before, but where the report or the line goes."""
    others = {"report": open_fault(place), "told": unopened(place, why), **others}
    return Case(name, line, before, status=5, **others)


def unopened(place, why=IS_OPEN):
    """The line on standard error of a start that is refused."""
    return b"hogzent: %b could not be opened: %b; no line was read or written\n" % (place.encode(), why)


def open_fault(place):
    """The report of a start that is refused."""
    return b"fault: open %b\n" % place.encode()


def lay(folder, files):
    """Lays files, links and folders into a folder; links last."""
    for name, what in sorted(files.items(), key=lambda it: isinstance(it[1], Link)):
        path = os.path.join(folder, name)
        if isinstance(what, Folder):
            os.mkdir(path)
        elif isinstance(what, Link) and what.is_hard:
            os.link(os.path.join(folder, what.to), path)
        elif isinstance(what, Link):
            os.symlink(what.to, path)
        else:
            with open(path, "wb") as file:
                file.write(what)


def without_moments(text):
    """A text in which the moments of a journal count as 0."""
    return re.sub(rb"^(start|stop|gather \d+) \d+", rb"\1 0", text, flags=re.M)


def without_times(text):
    """A text in which NOW stands for the time of a run at the end of a line, in seconds or nanoseconds since 1970."""
    return re.sub(rb"\b1[1-9][0-9]{8}(\.[0-9]+|[0-9]{9})?$", b"NOW", text, flags=re.M)


def found_in(folder):
    """What lies in a folder: the bytes of files, a journal's moments as 0, and None for what is no file."""
    found = {}
    for name in sorted(os.listdir(folder)):
        path = os.path.join(folder, name)
        found[name] = None
        if os.path.isfile(path):
            with open(path, "rb") as file:
                found[name] = without_moments(file.read())
    return found


def expected_in(case):
    """What is to lie in the folder of a case afterwards."""
    expected = {**case.before, **case.after}
    for name, what in expected.items():
        if isinstance(what, Link):
            expected[name] = expected.get(what.to)
        elif isinstance(what, Folder):
            expected[name] = None
    return expected


def shown(what):
    """A value as it is printed, without its middle where it is long."""
    text = repr(what)
    return text if len(text) < 1_000 else f"{text[:400]} .. {text[-400:]}"


def differences(*compared):
    """A text for each of the compared (name, found, expected) that differ."""
    return [f"{name}: {shown(it)}, and not {shown(wanted)}" for name, it, wanted in compared if it != wanted]


def run_case(case, folder, program):
    """What differs from what a case expects."""
    lay(folder, case.before)
    words = {**os.environ, "PATH": f"{os.path.dirname(program)}:{os.environ['PATH']}"}
    ran = subprocess.run(
        ["bash", "-c", "set -o pipefail; " + case.line],
        cwd=folder,
        env=words,
        stdin=subprocess.DEVNULL,
        capture_output=True,
        timeout=SECONDS,
        check=False,
    )
    return differences(
        ("status", ran.returncode, case.status),
        ("standard output", without_moments(ran.stdout), case.report),
        ("standard error", ran.stderr, case.told),
        ("files", found_in(folder), expected_in(case)),
    )


def numbered_lines(begin, end):
    """Lines of 16 bytes each, with so many numbers."""
    return b"".join(b"m v=%07di %03d\n" % (number, number % 1000) for number in range(begin, end))


def account_of(count, written, buffered):
    """The account of so many lines that were read and kept."""
    return (
        b"input 0 pieces %d refused 0 passed 0 filtered 0 gathered %d ended\n" % (count, count)
        + b"items made 0 removed 0 routed %d\n" % count
        + b"output 0 filtered 0 late 0 consumed 0 written %d buffered %d dropped 0\n" % (written, buffered)
    )


def shortest(lines):
    """The lines as they are written: numbers without zeros before them."""
    return re.sub(rb"(=| )0+(?=\d)", rb"\1", lines)


def limit_files(most):
    """For a child: no file may grow beyond so many bytes, and a write that would is a fault."""

    def limit():
        signal.signal(signal.SIGXFSZ, signal.SIG_IGN)
        resource.setrlimit(resource.RLIMIT_FSIZE, (most, resource.RLIM_INFINITY))

    return limit


def wait_for_input(started, pipe):
    """Waits until a child has read all of a pipe and waits for more."""
    for _ in range(SECONDS * 50):
        left = array.array("i", [0])
        fcntl.ioctl(pipe, termios.FIONREAD, left)
        with open(f"/proc/{started.pid}/stat", encoding="ascii") as file:
            is_asleep = file.read().rpartition(") ")[2].startswith("S")
        if left[0] == 0 and is_asleep:
            return
        time.sleep(0.02)
