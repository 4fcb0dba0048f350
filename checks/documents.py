"""Runs the commands of the documents, and compares what they print and leave: documents.py PROGRAM [PAGE..].

Without a PAGE it takes README.md and docs/users/*.md. A block of a page (lines with four spaces in front, or a fenced
one) is looked at where a mark stands before it, an HTML comment in a line of its own with nothing but empty lines
behind it:

  <!-- folder -->            what follows has a new folder; a page begins with one. `hogzent` in it is the program, and
                             `tools` the folder of that name
  <!-- file: NAME -->        the block is written to the file NAME
  <!-- run -->               the block is run by bash, and must end with the status 0
  <!-- run 5 -->             the same, but with the status 5
  <!-- run: COMMAND -->      the command is run, and there is no block: what the page tells in words (`run 5: COMMAND`)
  <!-- prints -->            the block is what the last command wrote to standard output
  <!-- says -->              the block is what it wrote to standard error
  <!-- holds: NAME -->       the block is what the file NAME now holds

A mark of another form, or one that needs a block and has none, counts as a difference. In the blocks that are compared
MOMENT, and a number of 19 digits, stand for any whole number; and a line `..` for any number of lines. All else is the
same, byte for byte. Commands have no input but what they name. Blocks without a mark aren't looked at.
"""

import glob
import os
import re
import signal
import subprocess
import sys
import tempfile
from collections import namedtuple

TOP = os.path.dirname(os.path.dirname(os.path.realpath(__file__)))
SECONDS = 60

COMMENT = re.compile(r"<!--.*-->\s*")
MARK = re.compile(r"<!-- (?:(folder|prints|says)|(file|holds): (\S+)|run(?: (\d+))?(?:: (.+))?) -->")
MOMENT = re.compile(r"MOMENT|(?<!\d)\d{19}(?!\d)")
ANY_LINES = ".."

# A mark of a page: its line's number, its kind, the file's name, the status and the command; and its block, or None.
Marked = namedtuple("Marked", "line kind name status command block")
# What a command did: its status, and what it wrote.
Did = namedtuple("Did", "status out err")


class Differs(Exception):
    """Something else came than the page says."""


def block_at(lines, at):
    """The block that begins behind empty lines; None where none does."""
    while at < len(lines) and not lines[at].strip():
        at += 1
    if at < len(lines) and lines[at].startswith("```"):
        end = next((it for it in range(at + 1, len(lines)) if lines[it].startswith("```")), None)
        return None if end is None else "".join(it + "\n" for it in lines[at + 1 : end])
    taken = []
    while at < len(lines) and (lines[at].startswith("    ") or not lines[at].strip()):
        taken.append(lines[at][4:])
        at += 1
    while taken and not taken[-1].strip():
        taken.pop()
    return "".join(it + "\n" for it in taken) or None


def marks_of(page):
    """The marks of a page, in order, with their blocks. One of another form has no kind."""
    with open(page, encoding="utf-8") as file:
        lines = file.read().split("\n")
    for at, line in enumerate(lines):
        if COMMENT.fullmatch(line):
            found = MARK.fullmatch(line.strip())
            if not found:
                yield Marked(at + 1, None, None, 0, line.strip(), None)
                continue
            word, of_file, name, status, command = found.groups()
            kind = word or of_file or "run"
            block = None if kind == "folder" or command else block_at(lines, at + 1)
            yield Marked(at + 1, kind, name, int(status or 0), command, block)


def pattern_of(block):
    """What a text has to match that a block shows."""
    parts = []
    for line in block.split("\n")[:-1]:
        if line == ANY_LINES:
            parts.append(r"(?:.*\n)*")
        else:
            parts.append(r"-?\d+".join(re.escape(it) for it in MOMENT.split(line)) + r"\n")
    return re.compile("".join(parts))


def compare(what, block, text):
    """Raises where a text isn't what a block shows."""
    if not pattern_of(block).fullmatch(text):
        shown = lambda it: "".join(f"      {line}\n" for line in it.split("\n")[:-1]) or "      (nothing)\n"
        raise Differs(f"{what} differs; the page has\n{shown(block)}    and it is\n{shown(text)}".rstrip("\n"))


def do(command, folder):
    """Runs a command in a folder; one that doesn't end in time is ended, with what it started."""
    env = {**os.environ, "LC_ALL": "C"}
    with subprocess.Popen(
        ["bash", "-c", command], cwd=folder, env=env, stdin=subprocess.DEVNULL, stdout=subprocess.PIPE,
        stderr=subprocess.PIPE, start_new_session=True) as started:
        try:
            told = started.communicate(timeout=SECONDS)
        except subprocess.TimeoutExpired:
            os.killpg(started.pid, signal.SIGKILL)
            raise Differs(f"it didn't end in {SECONDS} seconds: {command.strip()}") from None
    return Did(started.returncode, *(it.decode(errors="backslashreplace") for it in told))


class Page:
    """The run of a page: its folders, what the last command did, and what was counted."""

    def __init__(self, path, program):
        self.path, self.program, self.folders, self.last = path, program, [], None
        self.name = os.path.relpath(path, TOP) if path.startswith(TOP + os.sep) else path
        self.ran = self.compared = self.differ = 0

    def begin_folder(self):
        self.folders.append(tempfile.TemporaryDirectory(prefix="hogzent-documents-"))
        os.symlink(self.program, self.place("hogzent"))
        os.symlink(os.path.join(TOP, "tools"), self.place("tools"))
        self.last = None

    def place(self, name):
        return os.path.join(self.folders[-1].name, name)

    def take(self, mark):
        """Does what a mark says; raises where something differs."""
        if mark.kind is None:
            raise Differs(f"no mark has this form: {mark.command}")
        if mark.kind == "folder":
            return self.begin_folder()
        if mark.block is None and not mark.command:
            raise Differs(f"no block stands behind the mark `{mark.kind}`")
        if mark.kind == "file":
            with open(self.place(mark.name), "w", encoding="utf-8") as file:
                file.write(mark.block)
        elif mark.kind == "run":
            self.ran, self.last, command = self.ran + 1, None, mark.command or mark.block
            self.last = do(command, self.folders[-1].name)
            if self.last.status != mark.status:
                raise Differs(f"the status is {self.last.status}, not {mark.status}, of\n      {command.strip()}\n    "
                              + (self.last.err or self.last.out).strip())
        elif mark.kind == "holds":
            self.compared += 1
            if not os.path.isfile(self.place(mark.name)):
                raise Differs(f"there is no file {mark.name}")
            with open(self.place(mark.name), encoding="utf-8", errors="backslashreplace") as file:
                compare(f"the file {mark.name}", mark.block, file.read())
        elif self.last is None:
            raise Differs(f"no command stands before the mark `{mark.kind}`")
        else:
            self.compared += 1
            is_out = mark.kind == "prints"
            what, text = ("standard output", self.last.out) if is_out else ("standard error", self.last.err)
            compare(what, mark.block, text)

    def run(self):
        """Does what all marks say, and prints each difference."""
        self.begin_folder()
        try:
            for mark in marks_of(self.path):
                try:
                    self.take(mark)
                except Differs as fault:
                    self.differ += 1
                    print(f"{self.name}:{mark.line}: {fault}")
        finally:
            for folder in self.folders:
                folder.cleanup()


def main():
    program, pages = os.path.realpath(sys.argv[1]), sys.argv[2:]
    users = os.path.join(TOP, "docs/users/*.md")
    pages = pages or [os.path.join(TOP, "README.md"), *(sorted(glob.glob(users)) or [users])]
    missing = [it for it in pages if not os.path.isfile(it)]
    for path in missing:
        print(f"there is no page {path}")
    ran = compared = 0
    differ = len(missing)
    for path in (it for it in pages if it not in missing):
        page = Page(os.path.abspath(path), program)
        page.run()
        print(f"{page.name}: {page.ran} commands, {page.compared} blocks, {page.differ} differ")
        ran, compared, differ = ran + page.ran, compared + page.compared, differ + page.differ
    if not ran:
        print("nothing was run")
    print(f"documents: {ran} commands ran, {compared} blocks were compared, {differ} differ")
    return 1 if differ or not ran else 0


sys.exit(main())
