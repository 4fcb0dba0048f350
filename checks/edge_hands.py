"""Cases of edge_cases.py under rough hands: two runs in one folder, files that are cut meanwhile or can't be made empty,
places with control characters, pipes that nothing reads, and limits of the system.
"""

import contextlib
import fcntl
import os
import re
import resource
import signal
import subprocess
import time

from edge_kit import (
    ACCOUNT,
    ANOTHERS,
    JOURNAL,
    LEFT,
    LINES,
    MISSING,
    NOTHING,
    OLD,
    REPORT_FAULT,
    SECONDS,
    Case,
    Link,
    account_of,
    differences,
    found_in,
    lay,
    numbered_lines,
    open_fault,
    shortest,
    wait_for_input,
    without_moments,
)

# How long may pass until something is written, and how long a pipe is waited for without a word.
SOON = 5.0
A_SECOND = 1.0
NAMES = "x/\n\x1b[1mok\x7f"
SHOWN = rb"x/\x0a\x1b[1mok\x7f"

HANDS = [
    Case(
        "an output whose place has control characters",
        "hogzent pipe in $'x/\\n\\e[1mok\\x7f' 10 100",
        status=5,
        report=open_fault(NAMES),
        told=b"hogzent: %b could not be opened: %b; no line was read or written\n" % (SHOWN, MISSING),
    ),
    Case(
        "a configuration whose place has control characters",
        "cp c $'c\\nd'; hogzent check $'c\\nd'; status=$?; rm $'c\\nd'; exit $status",
        {"c": b"[agent]\nx = 1\n"},
        status=3,
        report=b"config: UnknownKey agent 0\n",
        told=rb"hogzent: c\x0ad: [agent]: x: there is no such key" + b"\n"
        rb"hogzent: c\x0ad: there is no input: [[inputs.file]] with files" + b"\n"
        rb"hogzent: c\x0ad: there is no output: [[outputs.file]] with files" + b"\n",
    ),
    Case(
        "a link at the journal's place is followed",
        "hogzent pipe in out 10 100",
        {"in": LINES, "there": OLD, "agent.journal": Link("there")},
        {"out": LINES, "there": JOURNAL},
    ),
]


def begin(program, folder, *words, **others):
    """Starts the program with a pipe at each standard stream."""
    pipes = {name: subprocess.PIPE for name in ("stdin", "stdout", "stderr")}
    return subprocess.Popen([program, *words], cwd=folder, **{**pipes, **others})


def wait_until(holds):
    """Waits until something holds, or for some seconds."""
    for _ in range(int(SOON * 50)):
        if holds():
            return
        time.sleep(0.02)


def size_of(folder, name):
    """How long a file is; 0 where there is none."""
    with contextlib.suppress(FileNotFoundError):
        return os.path.getsize(os.path.join(folder, name))
    return 0


def two_runs(folder, program):
    """A second run in the folder is refused, by its output or its journal, while the first goes on, and no longer."""
    lay(folder, {"in": LINES})
    first = begin(program, folder, "pipe", "stdin", "out", "100", "10000")
    os.write(first.stdin.fileno(), numbered_lines(0, 1_000))
    wait_until(lambda: size_of(folder, "agent.journal") > 0)
    wait_for_input(first, first.stdin.fileno())
    found = []
    before = found_in(folder)
    for out in ("out", "out2"):
        second = begin(program, folder, "pipe", "in", out, "10", "100")
        report, told = second.communicate(timeout=SECONDS)
        place = {"out": b"out", "out2": b"agent.journal"}[out]
        found += differences(
            ("status of the second", second.returncode, 5),
            ("report of the second", report, b"fault: open %b\n" % place),
            (
                "told of the second",
                told,
                b"hogzent: %b could not be opened: %b; no line was read or written\n" % (place, ANOTHERS),
            ),
        )
    found += differences(("files", found_in(folder), {**before, "out2": b""}))
    report, told = first.communicate(timeout=SECONDS)
    third = begin(program, folder, "pipe", "in", "out", "10", "100")
    third.communicate(timeout=SECONDS)
    return found + differences(
        ("status of the first", first.returncode, 0),
        ("report of the first", report, account_of(1_000, 1_000, 0)),
        ("told of the first", told, b""),
        ("status of the third", third.returncode, 0),
        ("out", found_in(folder)["out"], LINES),
    )


def locked_input(folder, program):
    """The lock of a file keeps no reader out."""
    lay(folder, {"in": LINES})
    with open(os.path.join(folder, "in"), "rb") as held:
        fcntl.flock(held, fcntl.LOCK_EX)
        ran = begin(program, folder, "pipe", "in", "out", "10", "100")
        report, told = ran.communicate(timeout=SECONDS)
    return differences(
        ("status", ran.returncode, 0),
        ("standard output", report, ACCOUNT),
        ("standard error", told, b""),
        ("files", found_in(folder), {"in": LINES, "out": LINES, "agent.journal": JOURNAL}),
    )


def cut_meanwhile(folder, program):
    """The output and the journal are cut to nothing while the run goes on: the next part begins at their begin."""
    first, second = numbered_lines(0, 1_000), numbered_lines(1_000, 1_200)
    started = begin(program, folder, "pipe", "stdin", "out", "100", "10000")
    os.write(started.stdin.fileno(), first)
    wait_until(lambda: size_of(folder, "agent.journal") > 0)
    wait_for_input(started, started.stdin.fileno())
    between = found_in(folder)
    for name in ("out", "agent.journal"):
        os.truncate(os.path.join(folder, name), 0)
    report, told = started.communicate(second, timeout=SECONDS)
    after = found_in(folder)
    begun = re.match(rb"gather 0 0 200 .*\n", after["agent.journal"])
    return differences(
        ("status", started.returncode, 0),
        ("standard output", report, account_of(1_200, 1_200, 0)),
        ("standard error", told, b""),
        ("out before it was cut", between["out"], shortest(first)),
        ("out", after["out"], shortest(second)),
        ("the journal begins with a gather", begun is not None, True),
        ("NUL bytes in the journal", after["agent.journal"].count(b"\0"), 0),
    )


def renamed_meanwhile(folder, program):
    """The output is renamed while the run goes on: the run writes on under its new name, and makes no other."""
    first, second = numbered_lines(0, 1_000), numbered_lines(1_000, 1_200)
    started = begin(program, folder, "pipe", "stdin", "out", "100", "10000")
    os.write(started.stdin.fileno(), first)
    wait_until(lambda: size_of(folder, "agent.journal") > 0)
    os.rename(os.path.join(folder, "out"), os.path.join(folder, "out.1"))
    report, told = started.communicate(second, timeout=SECONDS)
    left = found_in(folder)
    return differences(
        ("status", started.returncode, 0),
        ("standard output", report, account_of(1_200, 1_200, 0)),
        ("standard error", told, b""),
        ("names", sorted(left), ["agent.journal", "out.1"]),
        ("out.1", left["out.1"], shortest(first + second)),
    )


def cut_standard_output(folder, program):
    """Standard output appends to a file, which is cut to nothing while the run goes on."""
    first, second = numbered_lines(0, 1_000), numbered_lines(1_000, 1_200)
    with open(os.path.join(folder, "log"), "ab") as log:
        started = begin(program, folder, "pipe", "stdin", "stdout", "100", "10000", stdout=log)
    os.write(started.stdin.fileno(), first)
    wait_until(lambda: size_of(folder, "agent.journal") > 0)
    wait_for_input(started, started.stdin.fileno())
    os.truncate(os.path.join(folder, "log"), 0)
    told = started.communicate(second, timeout=SECONDS)[1]
    return differences(
        ("status", started.returncode, 0),
        ("standard error", told, b""),
        ("log", found_in(folder)["log"], shortest(second) + account_of(1_200, 1_200, 0)),
    )


def sealed(words, status, report, told, kept):
    """A run with a file that can't be made shorter, so that it can't be made empty."""

    def run(folder, program):
        lay(folder, {"in": LINES})
        file = os.memfd_create("sealed", os.MFD_ALLOW_SEALING)
        os.write(file, OLD)
        fcntl.fcntl(file, fcntl.F_ADD_SEALS, fcntl.F_SEAL_SHRINK)
        place = f"/proc/self/fd/{file}"
        if "OUT" not in words:
            os.symlink(place, os.path.join(folder, "agent.journal"))
        ran = begin(program, folder, *[it.replace("OUT", place) for it in words], pass_fds=[file])
        found = ran.communicate(timeout=SECONDS)
        shown = place.encode() if "OUT" in words else b"agent.journal"
        text = os.pread(file, 1 << 20, 0)
        os.close(file)
        return differences(
            ("status", ran.returncode, status),
            ("standard output", found[0], report),
            ("standard error", found[1], CANT_EMPTY % shown + told.replace(b"OUT", shown)),
            ("the file", text, OLD),
            ("other files", [it for it in found_in(folder) if it != "agent.journal"], kept),
        )

    return run


CANT_EMPTY = b"hogzent: %b could not be made empty: Operation not permitted (os error 1)\n"
UNSENT = ACCOUNT.replace(b"written 2 buffered 0", b"written 0 buffered 2")


def pipe_without_reader(folder, program):
    """A named pipe as the output is waited for; standard error says so once that took a second, and not before."""
    lay(folder, {"in": LINES})
    path = os.path.join(folder, "a\npipe")
    os.mkfifo(path)
    started = begin(program, folder, "pipe", "in", "a\npipe", "10", "100")
    os.set_blocking(started.stderr.fileno(), False)
    time.sleep(0.6 * A_SECOND)
    early = started.stderr.read()
    said = []
    wait_until(lambda: said.append(started.stderr.read() or b"") or b"\n" in b"".join(said))
    late = b"".join(said)
    with open(path, "rb") as file:
        written = file.read()
    report, told = started.communicate(timeout=SECONDS)
    os.unlink(path)
    return differences(
        ("told early", early or b"", b""),
        ("told", late, rb"hogzent: a\x0apipe is a pipe that nothing reads yet; waiting for a reader" + b"\n"),
        ("told behind it", told, b""),
        ("status", started.returncode, 0),
        ("standard output", report, ACCOUNT),
        ("what was read", written, LINES),
        ("files", found_in(folder), {"in": LINES, "agent.journal": JOURNAL}),
    )


def too_many_files(folder, program):
    """A limit on open files, at which the output isn't opened."""

    def limit():
        resource.setrlimit(resource.RLIMIT_NOFILE, (4, 4))

    lay(folder, {"in": LINES})
    # The script that builds the program needs more files than that.
    behind = os.path.join(os.path.dirname(program), "crates", "agent_main", "out", "agent_main")
    program = behind if os.path.exists(behind) else program
    started = begin(program, folder, "pipe", "in", "out", "10", "100", preexec_fn=limit)
    report, told = started.communicate(timeout=SECONDS)
    return differences(
        ("status", started.returncode, 5),
        ("standard output", report, b"fault: open out\n"),
        (
            "standard error",
            told,
            b"hogzent: out could not be opened: too many files are open; no line was read or written\n",
        ),
        ("files", found_in(folder), {"in": LINES}),
    )


def limit_of_files(folder, program):
    """A limit on the sizes of files, with its signal as it is by default, ends the run; the journal is a front."""

    def limit():
        signal.signal(signal.SIGXFSZ, signal.SIG_DFL)
        resource.setrlimit(resource.RLIMIT_FSIZE, (50_005, resource.RLIM_INFINITY))

    lay(folder, {"in": numbered_lines(0, 2_500)})
    words = ("pipe", "in", "/dev/null", "1000", "10000")
    whole = begin(program, folder, *words)
    whole.communicate(timeout=SECONDS)
    journal = found_in(folder)["agent.journal"]
    ended = begin(program, folder, *words, preexec_fn=limit)
    report, told = ended.communicate(timeout=SECONDS)
    with open(os.path.join(folder, "agent.journal"), "rb") as file:
        left = without_moments(file.read()[:50_005])
    cut = left.rpartition(b"\n")[0]
    return differences(
        ("status", ended.returncode, -signal.SIGXFSZ),
        ("standard output", report, b""),
        ("standard error", told, b""),
        ("the journal has something", len(cut) > 1_000, True),
        ("the journal", cut, journal[: len(cut)]),
    )


def ended_by(number):
    """A signal ends the run at once: what was put stays, without a stop, an account or a report. The signal is as it is by
    default, which it isn't where a shell runs the check in the background: there SIGINT is ignored."""

    def as_by_default():
        signal.signal(number, signal.SIG_DFL)

    def run(folder, program):
        lines = numbered_lines(0, 1_500)
        lay(folder, {})
        started = begin(program, folder, "pipe", "stdin", "out", "100", "10000", preexec_fn=as_by_default)
        os.write(started.stdin.fileno(), lines)
        wait_until(lambda: size_of(folder, "agent.journal") > 0)
        wait_for_input(started, started.stdin.fileno())
        started.send_signal(number)
        report, told = started.communicate(timeout=SECONDS)
        left = found_in(folder)
        return differences(
            ("status", started.returncode, -number),
            ("standard output", report, b""),
            ("standard error", told, b""),
            ("out", left["out"], shortest(numbered_lines(0, 1_000))),
            ("the journal's begin", left["agent.journal"][:10], b"journal 1\n"),
            ("the journal's end", left["agent.journal"][-34:], b"done 0 ok\nbegin 0 900 1000\ndone 0 ok\n"[-34:]),
        )

    return run


HANDS_RUNS = [
    ("too many files are open", too_many_files),
    ("a second run in one folder", two_runs),
    ("an input that another has the lock of", locked_input),
    ("the output and the journal are cut to nothing meanwhile", cut_meanwhile),
    ("the output is renamed meanwhile", renamed_meanwhile),
    ("standard output, which appends to a file, is cut to nothing meanwhile", cut_standard_output),
    (
        "an output that can't be made empty",
        sealed(["pipe", "in", "OUT", "10", "100"], 6, UNSENT, LEFT % (b"OUT", b"2"), ["in"]),
    ),
    (
        "an output that can't be made empty, and nothing to put",
        sealed(["pipe", "/dev/null", "OUT", "10", "100"], 0, NOTHING, b"", ["in"]),
    ),
    (
        "a journal that can't be made empty",
        sealed(["pipe", "in", "out", "10", "100"], 7, ACCOUNT, REPORT_FAULT, ["in", "out"]),
    ),
    ("a named pipe that nothing reads yet", pipe_without_reader),
    ("a limit on the sizes of files", limit_of_files),
    ("SIGTERM while the run goes on", ended_by(signal.SIGTERM)),
    ("SIGINT while the run goes on", ended_by(signal.SIGINT)),
]
