"""What the script ./hogzent says while it builds, and what becomes of its build, over a stand-in for `rt`."""

import os
import pty
import re
import shutil
import subprocess

from edge_kit import SECONDS, differences

# It says of two crates that they were proved and of one that it was kept, as `rt ci` does, and leaves a program that prints its words.
RT = """#!/bin/sh
[ "$*" = ci ] || exit 1
echo 'rt: low proved'
%s
echo 'rt: mid is kept: nothing has changed'
echo 'rt: agent_main proved'
mkdir -p crates/agent_main/out
printf '#!/bin/sh\\necho ran "$@"\\n' >crates/agent_main/out/agent_main
chmod +x crates/agent_main/out/agent_main
"""
BEGUN = b"hogzent: proving and building; the first time this takes some minutes\n"
FAULT = "echo 'rt: mid NOT PROVED: no proof'; exit 1"


def laid(folder, program, between=""):
    """A repository of three crates with the script, and what finds the stand-in; its crates are older than what is built."""
    top = os.path.join(folder, "top")
    for name in ("low", "mid", "agent_main"):
        os.makedirs(os.path.join(top, "crates", name, "src"))
    texts = {"crates.txt": "low:\nmid: low\nagent_main: mid low\n", "HANDLES": "", "rt": RT % between}
    for name, text in texts.items():
        with open(os.path.join(top, name), "w", encoding="utf-8") as file:
            file.write(text)
    os.chmod(os.path.join(top, "rt"), 0o755)
    shutil.copy(os.path.join(os.path.dirname(program), "hogzent"), top)
    return [os.path.join(top, "hogzent"), "one", "two"], {**os.environ, "PATH": f"{top}:{os.environ['PATH']}", "TMPDIR": folder}


def timeless(told):
    """What was told, with no time in it."""
    return re.sub(rb"\b\d+ (s|min|seconds)\b", b"TIME", told)


def to_a_pipe(folder, program):
    """Each crate has a line of its own, and the program is run once all are proved; the second time it is only run."""
    words, environment = laid(folder, program)
    found = [subprocess.run(words, env=environment, capture_output=True, timeout=SECONDS) for _time in range(2)]
    lines = b"".join(b"hogzent: %d of 3 crates proved, TIME (%s)\n" % it for it in ((1, b"low"), (2, b"mid was kept"), (3, b"agent_main")))
    return differences(
        ("standard error", timeless(found[0].stderr), BEGUN + lines + b"hogzent: proved and built in TIME\n"),
        ("standard output", found[0].stdout, b"ran one two\n"),
        ("standard error of the second time", found[1].stderr, b""),
        ("standard output of the second time", found[1].stdout, b"ran one two\n"),
    )


def to_a_terminal(folder, program):
    """A terminal has one line, which each crate writes anew."""
    words, environment = laid(folder, program)
    mine, theirs = pty.openpty()
    subprocess.run(words, env=environment, stdout=subprocess.DEVNULL, stderr=theirs, timeout=SECONDS, check=False)
    os.close(theirs)
    told = os.read(mine, 10_000).replace(b"\r\n", b"\n")
    os.close(mine)
    lines = [b"hogzent: %d of 3 crates proved, TIME (%s)" % it for it in ((1, b"low"), (2, b"mid was kept"), (3, b"agent_main"))]
    line = b"".join(b"\r" + it + b"\x1b[K" for it in lines) + b"\n"
    return differences(("the terminal", timeless(told), BEGUN + line + b"hogzent: proved and built in TIME\n"))


def unproved(folder, program):
    """A crate that isn't proved is named, and nothing is run."""
    words, environment = laid(folder, program, FAULT)
    ran = subprocess.run(words, env=environment, capture_output=True, timeout=SECONDS)
    log = re.search(rb"the whole output is in (.*)\n", ran.stderr)
    lines = BEGUN + b"hogzent: 1 of 3 crates proved, TIME (low)\nhogzent: mid NOT PROVED: no proof\n"
    tail = b"rt: mid NOT PROVED: no proof\nhogzent: not built; the whole output is in LOG\n"
    return differences(
        ("status", ran.returncode, 70),
        ("standard error", timeless(ran.stderr).replace(log[1] if log else b"LOG", b"LOG"), lines + tail),
        ("standard output", ran.stdout, b""),
    )


BUILD_RUNS = [
    ("the script builds, and says how far it is", to_a_pipe),
    ("the script builds before a terminal", to_a_terminal),
    ("the script builds, and a crate isn't proved", unproved),
]
