"""Runs the program in a temporary folder of files, links and devices, and compares what it left: pipes here,
configurations by edge_configurations.py, servers by edge_servers.py, what a case is by edge_kit.py.
"""

import os
import resource
import subprocess
import sys
import tempfile
import time
from functools import partial

from edge_build import BUILD_RUNS
from edge_configurations import CHECKS, CONFIGURED, CONFIGURED_RUNS
from edge_faults import FAULTS
from edge_hands import HANDS, HANDS_RUNS
from edge_kit import (
    ACCOUNT,
    DROPPED,
    FOLDER,
    JOURNAL,
    LEFT,
    LINES,
    MISSING,
    NOTHING,
    NOTHING_JOURNAL,
    OLD,
    READ_FAULT,
    REFUSED,
    REPORT_FAULT,
    SECONDS,
    UNREAD,
    UNREAD_JOURNAL,
    USAGE,
    WAS_CLOSED,
    Case,
    Folder,
    Link,
    account_of,
    differences,
    found_in,
    lay,
    limit_files,
    numbered_lines,
    open_fault,
    refused,
    run_case,
    shortest,
    unopened,
    wait_for_input,
)
from edge_servers import SERVERS, SERVERS_RUNS

WHOLE = {"out": LINES, "agent.journal": JOURNAL}
OLD_OUT = {"in": LINES, "out": OLD}
OLD_BOTH = {**OLD_OUT, "agent.journal": OLD}
NEVER_SENT = ACCOUNT.replace(b"written 2 buffered 0", b"written 0 buffered 2")
ONE_DROPPED = ACCOUNT.replace(b"written 2", b"written 1").replace(b"dropped 0", b"dropped 1")
TWO_REFUSED = ONE_DROPPED.replace(b"pieces 2 refused 0", b"pieces 4 refused 2")
FAILED_BATCH = b"begin 0 0 2\ndone 0 failed\n"
NEVER_SENT_JOURNAL = (
    JOURNAL.replace(b"begin 0 0 2\ndone 0 ok\nstop 0 0\n", FAILED_BATCH + b"stop 0 0\n" + FAILED_BATCH * 3)
    .replace(ACCOUNT, NEVER_SENT)
    .replace(b"end 9\n", b"end 15\n")
)

RUNS_WELL = [
    Case("a file is read, and one is made", "hogzent pipe in out 10 100", after=WHOLE),
    Case("files that were there are made new", "hogzent pipe in out 10 100", OLD_BOTH, WHOLE),
    Case(
        "a file that nothing is put to is made empty",
        "hogzent pipe /dev/null out 10 100",
        {"out": OLD, "agent.journal": OLD},
        {"out": b"", "agent.journal": NOTHING_JOURNAL},
        report=NOTHING,
    ),
    Case(
        "standard input and standard output",
        "hogzent pipe stdin stdout 10 100 < in",
        after={"agent.journal": JOURNAL},
        report=LINES + ACCOUNT,
    ),
    Case(
        "the report is appended",
        "hogzent pipe in out 10 100 >> log",
        {"in": LINES, "log": OLD},
        {**WHOLE, "log": OLD + ACCOUNT},
        report=b"",
    ),
    Case(
        "lines and report stand between what other programs write",
        "(echo first; hogzent pipe in stdout 10 100; echo last) > log",
        after={"agent.journal": JOURNAL, "log": b"first\n" + LINES + ACCOUNT + b"last\n"},
        report=b"",
    ),
    Case(
        "words that are no command",
        "hogzent pipe in agent.journal 10 100",
        {"in": LINES, "agent.journal": OLD},
        status=2,
        report=b"usage\n",
        told=USAGE,
    ),
    Case(
        "a metric is dropped",
        "hogzent pipe in out 1 1 && rm agent.journal",
        after={"out": b"cpu v=2.5 6\n"},
        report=ONE_DROPPED,
        told=DROPPED % (0, b"out", b"1 metric", 1),
    ),
    Case(
        "pieces are refused, one since it is too long, and a metric is dropped",
        "hogzent pipe in out 1 1 && rm agent.journal",
        {"in": LINES + b"no line protocol\n" + b"x" * 65_537 + b"\n"},
        {"out": b"cpu v=2.5 6\n"},
        report=TWO_REFUSED,
        told=REFUSED % (b"in", 2, 4, 3, b", at byte 3: BadKey: no line protocol")
        + DROPPED % (0, b"out", b"1 metric", 1),
    ),
    *(
        Case(
            f"the first piece that is refused is told of, in {name}",
            f"{line}; status=$?; rm -f agent.journal p; exit $status",
            {"in": LINES + b"cpu v=1e30\n" + b"cpu,host v=1"},
            {"out": LINES},
            report=ACCOUNT.replace(b"pieces 2 refused 0", b"pieces 4 refused 2"),
            told=REFUSED % (place, 2, 4, 3, b", at byte 6: NumberRange: cpu v=1e30"),
        )
        for name, line, place in (
            ("a file", "hogzent pipe in out 10 100", b"in"),
            ("a pipe", "cat in | hogzent pipe stdin out 10 100", b"stdin"),
            ("a named pipe", "mkfifo p; cat in > p & hogzent pipe p out 10 100", b"p"),
            ("standard input, a file", "hogzent pipe stdin out 10 100 < in", b"stdin"),
        )
    ),
]

# An output that is an input, or another output, under whatever name.
REFUSED_BY_PLACES = [
    refused("the input as the output", "hogzent pipe a a 10 100", "a", {"a": LINES}),
    refused("the input by another spelling", "hogzent pipe a ./a 10 100", "./a", {"a": LINES}),
    refused(
        "the input by a hard link",
        "hogzent pipe a b 10 100",
        "b",
        {"a": LINES, "b": Link("a", is_hard=True)},
    ),
    refused("the input by a symbolic link", "hogzent pipe a b 10 100", "b", {"a": LINES, "b": Link("a")}),
    refused("a symbolic link to the output", "hogzent pipe b a 10 100", "a", {"a": LINES, "b": Link("a")}),
    refused("the input is standard input", "hogzent pipe stdin a 10 100 < a", "a", {"a": LINES}),
    refused(
        "the input as the journal",
        "hogzent pipe agent.journal out 1 1",
        "agent.journal",
        {"agent.journal": LINES, "out": OLD},
    ),
    refused(
        "the input as the journal, and an output that wasn't there",
        "hogzent pipe agent.journal out 1 1",
        "agent.journal",
        {"agent.journal": LINES},
        after={"out": b""},
    ),
    refused(
        "the input as the journal, by a symbolic link",
        "hogzent pipe in out 10 100",
        "agent.journal",
        {**OLD_OUT, "agent.journal": Link("in")},
    ),
    refused(
        "the output as the journal, by a hard link",
        "hogzent pipe in out 10 100",
        "agent.journal",
        {**OLD_OUT, "agent.journal": Link("out", is_hard=True)},
    ),
]

# An output or the journal that stands behind a standard stream; the report goes to standard output.
REFUSED_BY_STREAMS = [
    refused("the output is standard input", "hogzent pipe in out 10 100 < out", "out", OLD_OUT),
    refused(
        "the output is standard output",
        "hogzent pipe in out 10 100 > out",
        "out",
        OLD_OUT,
        after={"out": open_fault("out")},
        report=b"",
    ),
    refused(
        "the output is standard output, which appends",
        "hogzent pipe in out 10 100 >> out",
        "out",
        OLD_OUT,
        after={"out": OLD + open_fault("out")},
        report=b"",
    ),
    refused(
        "the output is standard error",
        "hogzent pipe in out 10 100 2>> out",
        "out",
        OLD_OUT,
        after={"out": OLD + unopened("out")},
        told=b"",
    ),
    refused(
        "/dev/stdout as the output, where it is a file",
        "hogzent pipe in /dev/stdout 10 100 > out",
        "/dev/stdout",
        {"in": LINES},
        after={"out": open_fault("/dev/stdout")},
        report=b"",
    ),
    refused(
        "standard output appends to the input",
        "hogzent pipe a stdout 10 100 >> a",
        "stdout",
        {"a": LINES},
        after={"a": LINES + open_fault("stdout")},
        report=b"",
    ),
    refused(
        "standard output appends to standard input",
        "hogzent pipe stdin stdout 10 100 < a >> a",
        "stdout",
        {"a": LINES},
        after={"a": LINES + open_fault("stdout")},
        report=b"",
    ),
    refused(
        "the journal is standard input",
        "hogzent pipe in out 10 100 < agent.journal",
        "agent.journal",
        OLD_BOTH,
    ),
    refused(
        "the journal is standard output",
        "hogzent pipe in out 10 100 > agent.journal",
        "agent.journal",
        OLD_BOTH,
        after={"agent.journal": open_fault("agent.journal")},
        report=b"",
    ),
    refused(
        "the journal is standard error",
        "hogzent pipe in out 10 100 2>> agent.journal",
        "agent.journal",
        OLD_BOTH,
        after={"agent.journal": OLD + unopened("agent.journal")},
        told=b"",
    ),
]

# Devices, pipes and folders.
NO_FILES = [
    Case(
        "/dev/stdout as the output, where it is a pipe",
        "hogzent pipe in /dev/stdout 10 100 | cat",
        after={"agent.journal": JOURNAL},
        report=LINES + ACCOUNT,
    ),
    Case(
        "a named pipe as the output",
        "mkfifo pipe; cat pipe > got & hogzent pipe in pipe 10 100; status=$?; wait; rm pipe; exit $status",
        after={"agent.journal": JOURNAL, "got": LINES},
    ),
    Case(
        "/dev/null twice",
        "hogzent pipe /dev/null /dev/null 10 100",
        {},
        {"agent.journal": NOTHING_JOURNAL},
        report=NOTHING,
    ),
    Case(
        "/dev/null as the output and behind each standard stream",
        "hogzent pipe in /dev/null 10 100 < /dev/null > /dev/null 2> /dev/null",
        after={"agent.journal": JOURNAL},
        report=b"",
    ),
    Case(
        "/dev/full as the output",
        "hogzent pipe in /dev/full 10 100",
        after={"agent.journal": NEVER_SENT_JOURNAL},
        status=6,
        report=NEVER_SENT,
        told=LEFT % (b"/dev/full", b"2"),
    ),
    Case(
        "/dev/full as the journal",
        "hogzent pipe in out 10 100",
        {"in": LINES, "agent.journal": Link("/dev/full")},
        {"out": LINES},
        status=7,
        told=REPORT_FAULT,
    ),
    Case(
        "/dev/full as standard output",
        "hogzent pipe in out 10 100 > /dev/full",
        after=WHOLE,
        status=7,
        report=b"",
        told=REPORT_FAULT,
    ),
    Case(
        "an input whose reads fail",
        "hogzent pipe /proc/self/mem out 10 100",
        {"out": OLD},
        {"out": b"", "agent.journal": UNREAD_JOURNAL},
        status=4,
        report=UNREAD,
        told=READ_FAULT % (0, b"/proc/self/mem"),
    ),
    refused("a folder as the input", "hogzent pipe . out 10 100", ".", {"out": OLD}, FOLDER),
    refused("a folder as the output", "hogzent pipe in . 10 100", ".", {"in": LINES}, FOLDER),
    refused(
        "a folder as the journal",
        "hogzent pipe in out 10 100",
        "agent.journal",
        {**OLD_OUT, "agent.journal": Folder()},
        FOLDER,
    ),
    refused("an input that isn't there", "hogzent pipe nowhere out 10 100", "nowhere", {"out": OLD}, MISSING),
]

CLOSED = [
    Case("standard input is closed", "hogzent pipe in out 10 100 <&-", after=WHOLE),
    Case("standard error is closed", "hogzent pipe in out 10 100 2>&-", after=WHOLE),
    Case(
        "standard output is closed",
        "hogzent pipe in out 10 100 >&-",
        after=WHOLE,
        status=7,
        report=b"",
        told=REPORT_FAULT,
    ),
    Case(
        "all three are closed",
        "hogzent pipe in out 10 100 <&- >&- 2>&-",
        after=WHOLE,
        status=7,
        report=b"",
    ),
    Case("no command, and standard output is closed", "hogzent >&-", status=2, report=b"", told=USAGE),
    refused(
        "closed standard input as the input",
        "hogzent pipe stdin out 10 100 <&-",
        "stdin",
        {"out": OLD},
        WAS_CLOSED,
    ),
    refused(
        "closed standard output as the output",
        "hogzent pipe in stdout 10 100 >&-",
        "stdout",
        {"in": LINES},
        report=b"",
        told=unopened("a place", WAS_CLOSED),
    ),
]

CASES = [*RUNS_WELL, *REFUSED_BY_PLACES, *REFUSED_BY_STREAMS, *NO_FILES, *CLOSED]


def full_pipe(folder, program):
    """Standard output is a pipe that doesn't block, and is full for a while."""
    lines = numbered_lines(0, 9_000)
    lay(folder, {"in": lines, "agent.journal": Link("/dev/null")})
    reading, writing = os.pipe()
    os.set_blocking(writing, False)
    started = subprocess.Popen(
        [program, "pipe", "in", "stdout", "5000", "10000"],
        cwd=folder,
        stdin=subprocess.DEVNULL,
        stdout=writing,
        stderr=subprocess.PIPE,
    )
    os.close(writing)
    time.sleep(0.5)
    still_runs = started.poll() is None
    with os.fdopen(reading, "rb") as file:
        written = file.read()
    told = started.communicate(timeout=SECONDS)[1]
    return differences(
        ("waited", still_runs, True),
        ("status", started.returncode, 0),
        ("standard output", written, shortest(lines) + account_of(9_000, 9_000, 0)),
        ("standard error", told, b""),
    )


def slow_input(folder, program):
    """Standard input is a pipe that doesn't block, and is empty for a while."""
    lay(folder, {"agent.journal": Link("/dev/null")})
    reading, writing = os.pipe()
    os.set_blocking(reading, False)
    started = subprocess.Popen(
        [program, "pipe", "stdin", "out", "10", "100"],
        cwd=folder,
        stdin=reading,
        stdout=subprocess.PIPE,
        stderr=subprocess.PIPE,
    )
    os.close(reading)
    for part in (LINES[:7], LINES[7:]):
        time.sleep(0.2)
        os.write(writing, part)
    os.close(writing)
    report, told = started.communicate(timeout=SECONDS)
    return differences(
        ("status", started.returncode, 0),
        ("standard output", report, ACCOUNT),
        ("standard error", told, b""),
        ("out", found_in(folder)["out"], LINES),
    )


def torn_then_whole(folder, program):
    """A put to a file fails behind a part, and those that follow succeed: no line is torn or comes twice."""
    first, second = numbered_lines(0, 1_000), numbered_lines(1_000, 1_200)
    written = shortest(first + second)
    # the journal goes to a pipe, which can't be torn
    lay(folder, {"agent.journal": Link("/dev/stderr")})
    started = subprocess.Popen(
        [program, "pipe", "stdin", "out", "100", "10000"],
        cwd=folder,
        stdin=subprocess.PIPE,
        stdout=subprocess.PIPE,
        stderr=subprocess.PIPE,
        preexec_fn=limit_files(3_005),
    )
    os.write(started.stdin.fileno(), first)
    wait_for_input(started, started.stdin.fileno())
    between = found_in(folder)["out"]
    resource.prlimit(started.pid, resource.RLIMIT_FSIZE, (resource.RLIM_INFINITY, resource.RLIM_INFINITY))
    report, journal = started.communicate(second, timeout=SECONDS)
    return differences(
        ("status", started.returncode, 0),
        ("standard output", report, account_of(1_200, 1_200, 0)),
        ("out behind the put that failed", between, shortest(first)[: len(between)]),
        ("the end of out behind the put that failed", between[-1:], b"\n"),
        ("failed puts in the journal", journal.count(b"done 0 failed\n"), 1),
        ("out", found_in(folder)["out"], written),
    )


def torn_journal(folder, program):
    """The journal can't grow beyond so many bytes: whole puts of it stay, and no part of a line."""
    lay(folder, {"in": numbered_lines(0, 2_500)})
    journals = []
    for most, status in ((resource.RLIM_INFINITY, 0), (50_005, 7)):
        ran = subprocess.run(
            [program, "pipe", "in", "/dev/null", "1000", "10000"],
            cwd=folder,
            stdin=subprocess.DEVNULL,
            capture_output=True,
            preexec_fn=limit_files(most),
            timeout=SECONDS,
            check=False,
        )
        journals.append(found_in(folder)["agent.journal"])
        if ran.returncode != status:
            return differences(("status", ran.returncode, status))
    whole, torn = journals
    return differences(
        ("the journal", torn, whole[: len(torn)]),
        ("the end of the journal", torn[-1:], b"\n" if torn else b""),
        ("the journal is whole", torn == whole, False),
    )


def torn_at_standard_output(folder, program, place, mode, most, after, status):
    """Standard output is a file that can't grow beyond so many bytes: of a put that fails nothing stays."""
    lay(folder, {"in": numbered_lines(0, 300), "log": b"first\n", "agent.journal": Link("/dev/null")})
    with open(os.path.join(folder, "log"), mode) as log:
        log.seek(0, os.SEEK_END)
        ran = subprocess.run(
            [program, "pipe", "in", place, "100", "10000"],
            cwd=folder,
            stdin=subprocess.DEVNULL,
            stdout=log,
            stderr=subprocess.PIPE,
            preexec_fn=limit_files(most),
            timeout=SECONDS,
            check=False,
        )
    return differences(
        ("status", ran.returncode, status),
        ("standard error", ran.stderr, {6: LEFT % (b"stdout", b"100"), 7: REPORT_FAULT}[status]),
        ("log", found_in(folder)["log"], b"first\n" + after),
    )


def torn_batch(mode):
    """Two batches fit and the third doesn't; the account does, in its place."""
    sent = shortest(numbered_lines(0, 200)) + account_of(300, 200, 100)

    def run(folder, program):
        return torn_at_standard_output(folder, program, "stdout", mode, 3_005, sent, 6)

    return run


def torn_report(mode):
    """The account doesn't fit."""

    def run(folder, program):
        return torn_at_standard_output(folder, program, "/dev/null", mode, 105, b"", 7)

    return run


RUNS = [
    ("standard output is a full pipe that doesn't block", full_pipe),
    ("standard input is an empty pipe that doesn't block", slow_input),
    ("a torn put to a file is undone, and made again", torn_then_whole),
    ("a torn put to the journal is undone", torn_journal),
    ("a torn put to standard output, a file, is undone", torn_batch("r+b")),
    ("a torn put to standard output, which appends to a file, is undone", torn_batch("ab")),
    ("a torn report is undone", torn_report("r+b")),
    ("a torn report that is appended is undone", torn_report("ab")),
]


def main(program):
    """Runs each case in a folder of its own, and prints a line for each and one for all."""
    runs = [(case.name, partial(run_case, case)) for case in CASES + CHECKS + FAULTS + CONFIGURED + HANDS + SERVERS]
    runs += CONFIGURED_RUNS + RUNS + HANDS_RUNS + SERVERS_RUNS + BUILD_RUNS
    failed = 0
    for name, run in runs:
        with tempfile.TemporaryDirectory() as folder:
            try:
                wrong = run(folder, program)
            except (subprocess.TimeoutExpired, OSError, KeyError) as fault:
                wrong = [repr(fault)]
        failed += bool(wrong)
        print(f"edge: {'FAILED' if wrong else 'ok'}: {name}", *wrong, sep="\n  ", flush=True)
    print(f"edge: {len(runs) - failed} passed, {failed} failed", flush=True)
    return 1 if failed else 0


if __name__ == "__main__":
    sys.exit(main(*sys.argv[1:]))
