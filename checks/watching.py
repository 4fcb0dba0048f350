"""What the processes that rt started use, by crate and by what they are for: shared by checks/cost and checks/first-build.

Twice a second the scripts look at all processes below one. A crate's check or build from nothing counts as proof, one
with its tests as tests, and one in a folder rt-edit-* as edits; what compiles and links what was proved is other. The time
of a process is the one of the last look at it, with its children's; what it used behind that is known for all processes
together, and stands in the row `rest`.
"""

import os
from collections import defaultdict, namedtuple

TICKS = os.sysconf("SC_CLK_TCK")
PAUSE = 0.5
KINDS = ["proof", "tests", "edits", "other"]

# A process as /proc shows it: its seconds, and those of its children that have ended.
Seen = namedtuple("Seen", "parent started own children")
# What a process does for a crate.
Work = namedtuple("Work", "crate kind")


def processes():
    """All processes, by their numbers."""
    found = {}
    for name in os.listdir("/proc"):
        if name.isdigit():
            try:
                with open("/proc/%s/stat" % name, encoding="utf-8", errors="replace") as file:
                    fields = file.read().rpartition(") ")[2].split()
            except OSError:
                continue
            times = [int(it) / TICKS for it in fields[11:15]]
            found[int(name)] = Seen(int(fields[1]), fields[19], times[0] + times[1], times[2] + times[3])
    return found


def words_of(number):
    """The command line of a process; none where it has ended."""
    try:
        with open("/proc/%d/cmdline" % number, "rb") as file:
            return file.read().decode(errors="replace").split("\0")[:-1]
    except OSError:
        return []


def folder_of(number):
    """The folder in which a process runs."""
    try:
        return os.readlink("/proc/%d/cwd" % number)
    except OSError:
        return ""


def memory_of(number):
    """The bytes that a process holds, its share of what it shares with others; 0 where it has ended."""
    try:
        with open("/proc/%d/smaps_rollup" % number, encoding="ascii") as file:
            for line in file:
                if line.startswith("Pss:"):
                    return 1024 * int(line.split()[1])
    except (OSError, ValueError):
        pass
    return 0


def work_of(number, root):
    """What a process that rt started does, by its command line and folder; None where they don't say. Where no root
    is given, a crate is a folder of any folder `crates`."""
    words, folder = words_of(number), folder_of(number)
    if os.path.basename(folder).startswith("rt-edit-") and "--crate-name" in words:
        return Work(words[words.index("--crate-name") + 1], "edits")
    above = os.path.dirname(folder)
    is_crate = above == os.path.join(root, "crates") if root else os.path.basename(above) == "crates"
    if not is_crate or not words:
        return None
    is_proof = os.path.basename(words[0]) == "rattle" and words[1:2] in (["check"], ["build"])
    if not is_proof or "--crate-checked" in words:
        return Work(os.path.basename(folder), "other")
    return Work(os.path.basename(folder), "tests" if "--test" in words else "proof")


class Watch:
    """The processor time of what a process has started, by what it was for."""

    def __init__(self, number, root):
        self.number = number
        self.root = root
        # By process: its work, where it is known, and its seconds at the last look.
        self.work, self.seconds = {}, {}
        # What the process and all that it started used, and what of it had ended before the first look.
        self.all, self.before = 0.0, None
        # The most bytes that were held at a look, by crate and in all.
        self.memory, self.most = defaultdict(int), 0

    def workers(self, below):
        """The processes that do a crate's work, each the highest in its tree of which that is known."""
        found, left = [], list(below[self.number])
        while left:
            number = left.pop()
            if work_of(number, self.root):
                found.append(number)
            else:
                left += below[number]
        return found

    def look(self, with_memory=False):
        """Looks at all processes once; False where the process has ended."""
        seen = processes()
        if self.number not in seen:
            return False
        below = defaultdict(list)
        for number, it in seen.items():
            below[it.parent].append(number)

        def used(number):
            return seen[number].own + seen[number].children + sum(used(it) for it in below[number])

        def held(number):
            return memory_of(number) + sum(held(it) for it in below[number])

        if self.before is None:
            self.before = seen[self.number].children
        self.all = max(self.all, used(self.number))
        memory = defaultdict(int)
        for number in self.workers(below):
            key = (number, seen[number].started)
            # Before it becomes the prover a process is a shell or Python for a moment.
            if self.work.get(key) is None or self.work[key].kind == "other":
                self.work[key] = work_of(number, self.root)
            self.seconds[key] = max(self.seconds.get(key, 0.0), used(number))
            if with_memory and self.work[key]:
                memory[self.work[key].crate] += held(number)
        for crate, bytes_held in memory.items():
            self.memory[crate] = max(self.memory[crate], bytes_held)
        self.most = max(self.most, sum(memory.values()))
        return True

    def spent(self):
        """The seconds of each work."""
        spent = defaultdict(float)
        for key, work in self.work.items():
            if work:
                spent[work] += self.seconds[key]
        return spent

    def rows(self, crates):
        """The rows of a table: each crate's seconds by kind, and the rest."""
        spent = self.spent()
        names = [it for it in crates if any(work.crate == it for work in spent)]
        names += sorted({work.crate for work in spent} - set(names))
        rows = [[name, *(spent[Work(name, kind)] for kind in KINDS)] for name in names]
        before = self.before or 0.0
        rest = self.all - sum(sum(row[1:]) for row in rows) - before
        rows.append(["rest", 0.0, 0.0, 0.0, max(rest, 0.0)])
        if before >= 0.5:
            rows.append(["before the first look", 0.0, 0.0, 0.0, before])
        return rows


def uses_in(root):
    """What each line of crates.txt lists behind its colon, by the crate's name, in the order of the file."""
    uses = {}
    with open(os.path.join(root, "crates.txt"), encoding="utf-8") as file:
        for line in file:
            head, _, behind = line.partition("#")[0].partition(":")
            if head.strip():
                uses[head.split()[0]] = behind.split()
    return uses


def print_table(head, rows):
    """Prints rows of texts in Markdown, the first column to the left and the others to the right."""
    table = [head, *rows]
    widths = [max(len(row[at]) for row in table) for at in range(len(head))]
    table.insert(1, ["-" * widths[0], *("-" * (width - 1) + ":" for width in widths[1:])])
    for row in table:
        cells = [row[0].ljust(widths[0]), *(cell.rjust(width) for cell, width in zip(row[1:], widths[1:]))]
        print("| %s |" % " | ".join(cells), flush=True)
