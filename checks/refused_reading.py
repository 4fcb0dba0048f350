"""Refuses each allocation of a reading of a journal once, one a run: the probe then answers as it does else, or prints
nothing and ends with 1. Another answer, another status, a signal or no end in ten seconds is printed, and the status is
then 1.
"""

import os
import subprocess
import sys
import tempfile
from concurrent.futures import ThreadPoolExecutor

import journal_edits

SECONDS = 10
SHORT = {(1, b""): "short of memory"}


def texts():
    """The texts that are read, each with a word of the probe: of the fronts of one journal the longest alone."""
    fronts = {journal_edits.TWO[:size] for size in range(len(journal_edits.TWO) - 1)}
    return [(word, text) for text, word, _ in journal_edits.cases() if text not in fronts]


class Probe:
    """The probe, and the library that refuses allocations."""

    def __init__(self, program, preload):
        self.program, self.preload = os.path.abspath(program), os.path.abspath(preload)

    def answer(self, word, text, **words):
        """How a reading of a text ends, and what it prints."""
        try:
            done = subprocess.run(
                [self.program, "journal", word],
                env={**os.environ, "LD_PRELOAD": self.preload, **words},
                input=text,
                stdout=subprocess.PIPE,
                stderr=subprocess.DEVNULL,
                timeout=SECONDS,
            )
        except subprocess.TimeoutExpired:
            return "no end", b""
        return done.returncode, done.stdout

    def allocations(self, word, text, count_file):
        """What a reading answers where no allocation is refused, and how many it makes."""
        said = self.answer(word, text, REFUSE_COUNT=count_file)
        with open(count_file, encoding="ascii") as file:
            return said, int(file.read())


def main(program, preload):
    """Reads each text with each allocation refused, and prints how many were and how the readings ended."""
    probe = Probe(program, preload)
    counts = {"as else": 0, "short of memory": 0, "otherwise": 0}
    with tempfile.TemporaryDirectory() as folder, ThreadPoolExecutor(os.cpu_count()) as pool:
        for word, text in texts():
            said, count = probe.allocations(word, text, os.path.join(folder, "count"))
            numbers = range(1, count + 1)
            for number, ended in zip(numbers, pool.map(lambda it: probe.answer(word, text, REFUSE=str(it)), numbers)):
                how = "as else" if ended == said else SHORT.get(ended, "otherwise")
                counts[how] += 1
                if how == "otherwise":
                    print("%s, allocation %d of %r: %r" % (word, number, text, ended), flush=True)
    print("refused-reading: %d allocations refused: %s"
          % (sum(counts.values()), ", ".join("%d %s" % (n, how) for how, n in counts.items())), flush=True)
    return 1 if counts["otherwise"] or not counts["short of memory"] else 0


if __name__ == "__main__":
    sys.exit(main(*sys.argv[1:]))
