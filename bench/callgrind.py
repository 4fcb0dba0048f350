"""Says what callgrind counted for a kind of input: callgrind.py KIND FEW SOME MANY, mostly those of SIZES.

It reads KIND-LINES.out of the three sizes. What a line costs is the difference of two sizes by the lines between
them, so that the start and the end of the program aren't in it.
"""

import os
import re
import sys
from collections import Counter

SIZES = [2000, 4000, 20000]
ALLOCATING = ["malloc", "calloc", "realloc"]
HEAVIEST = 20


class Counts:
    """Instructions in each function itself, and the calls of each function."""

    def __init__(self, path):
        self.instructions, self.calls = Counter(), Counter()
        self.names = {}
        function, inclusive = None, False
        with open(path, encoding="utf-8", errors="replace") as lines:
            for line in lines:
                word, is_pair, rest = line.rstrip("\n").partition("=")
                if is_pair and word == "fn":
                    function = self.name(rest)
                elif is_pair and word == "cfn":
                    called = self.name(rest)
                elif is_pair and word == "calls":
                    self.calls[called] += int(rest.split()[0])
                    inclusive = True
                elif line[0] in "0123456789+-*":
                    # The line behind calls= counts what was called, which is counted in its own function.
                    if not inclusive:
                        self.instructions[function] += int(line.split()[1])
                    inclusive = False

    def name(self, text):
        """A function's name: it is spelled out where it comes first, and is a number afterwards."""
        number, spelled = re.fullmatch(r"(\(\d+\)) ?(.*)", text).groups()
        if spelled:
            self.names[number] = spelled
        return self.names[number]

    def total(self):
        return sum(self.instructions.values())


class Cost:
    """What a line costs, from the counts of three sizes in a folder."""

    def __init__(self, folder, kind, sizes):
        self.few, self.some, self.many = (Counts(os.path.join(folder, "%s-%d.out" % (kind, size))) for size in sizes)
        first, second, third = sizes
        self.lines = second - first
        self.instructions = (self.some.total() - self.few.total()) / self.lines
        self.instructions_later = (self.many.total() - self.some.total()) / (third - second)

    def spent(self, name):
        """The instructions of a function a line, without those of what it calls."""
        return (self.some.instructions[name] - self.few.instructions[name]) / self.lines

    def called(self, name):
        """The calls of a function a line."""
        return (self.some.calls[name] - self.few.calls[name]) / self.lines

    def allocations(self):
        return sum(self.called(name) for name in ALLOCATING)


def main(kind, *sizes):
    sizes = [int(size) for size in sizes]
    cost = Cost(".", kind, sizes)
    first, second, third = (format(size, ",") for size in sizes)
    print("%s: %s instructions a line between %s and %s lines, %s between %s and %s" % (
        kind, format(round(cost.instructions), ","), first, second,
        format(round(cost.instructions_later), ","), second, third))
    print("allocations a line: " + ", ".join("%.2f %s" % (cost.called(name), name) for name in ALLOCATING + ["free"]))
    print()
    print("| instructions/line | share | calls/line | function |")
    print("| ----------------: | ----: | ---------: | -------- |")
    for name in sorted(cost.some.instructions, key=cost.spent, reverse=True)[:HEAVIEST]:
        print("| %s | %.1f%% | %.1f | `%s` |" % (
            format(round(cost.spent(name)), ","), 100 * cost.spent(name) / cost.instructions, cost.called(name), name))
    print()


if __name__ == "__main__":
    main(*sys.argv[1:])
