"""Compares how format_probe reads seeded journals with a plain reading:

    fuzz_journals.py COUNT SEED PROBE PROGRAM

PROBE is format_probe: with `journal`, `count` and `reports` it must answer to each text what plain_journal.py does,
which follows docs/users/journal.md alone; to a text that is refused with one of the three. The texts are journals of
runs of PROGRAM, the agent, and journals of random entries, most of them with changes (random_journals.py). Of the
differences the first ten are printed; their texts are kept in files, also without the lines that don't matter.
"""

import itertools
import os
import random
import re
import subprocess
import sys
import tempfile
import time
from collections import Counter
from concurrent.futures import ThreadPoolExecutor
from functools import partial

import format_influx
import journal_edits
import plain_journal
import random_journals

SHOWN, KEPT = 10, 100
SECONDS = 60
# So many programs run side by side, and so many texts are made at once.
WORKERS, CHUNK = 2, 500
# How many runs there are, how many of the journals are those of runs, and how many texts are made of each journal.
RUNS, OF_RUNS, EACH = 40, 0.4, 3
MOMENT = 1_790_000_000_000_000_000
# So many nanoseconds before and behind a run a number is taken for one of its moments.
AROUND = 10**10
FILTERS = ['namepass = ["c*", "m"]', 'namedrop = ["cpu"]', 'tagexclude = ["h*", "a"]', 'fieldexclude = ["v", "a"]']


# Journals of runs.


def filters_of(rng):
    """Some lines of a configuration: filters, or none."""
    return "".join(line + "\n" for line in rng.sample(FILTERS, rng.choice((0, 0, 1, 2))))


def lay_run(rng, folder):
    """Writes a small configuration with its inputs."""
    parts = ["[agent]\ngather_pieces = %d\n" % rng.choice((1, 3, 8, 1_000))]
    parts.append('[global_tags]\ndc = "x %"\n' if rng.random() < 0.3 else "")
    for number in range(rng.randint(1, 3)):
        with open(os.path.join(folder, "in%d" % number), "wb") as file:
            file.write(b"".join(it + b"\n" for it in format_influx.lines(rng, rng.randrange(40))))
        parts.append('[[inputs.file]]\nfiles = ["in%d"]\n%s' % (number, filters_of(rng)))
    if rng.random() < 0.5:
        parts.append('[[processors.dedup]]\ndedup_interval = "100000h"\n')
    if rng.random() < 0.3:
        parts.append('[[processors.rename]]\nreplace = [{field = "v", dest = "w; |"}]\n')
    for place in rng.sample(("out0", "out1", "out2", "/dev/full"), rng.randint(1, 3)):
        limit = rng.choice((1, 2, 5, 20, 1_000))
        sizes = "metric_batch_size = %d\nmetric_buffer_limit = %d\n" % (rng.randint(1, limit), limit)
        parts.append('[[outputs.file]]\nfiles = ["%s"]\n%s%s' % (place, sizes, filters_of(rng)))
    with open(os.path.join(folder, "agent.toml"), "w", encoding="utf-8") as file:
        file.write("".join(parts))


def journal_of_run(program, rng):
    """The journal of a run; its moments are others, the same for the same seed."""
    with tempfile.TemporaryDirectory() as folder:
        lay_run(rng, folder)
        begun = time.time_ns() - AROUND
        ran = subprocess.run([program, "run", "agent.toml"], cwd=folder, stdin=subprocess.DEVNULL, capture_output=True,
                             timeout=SECONDS, check=False)
        ended = time.time_ns() + AROUND
        if ran.returncode not in (0, 6):
            sys.exit("fuzz-journals: a run ended with status %d: %r, %r" % (ran.returncode, ran.stdout, ran.stderr))
        with open(os.path.join(folder, "agent.journal"), "rb") as file:
            text = file.read()
    plain = b"%d" % (MOMENT + rng.randrange(MOMENT))
    return re.sub(rb"\b\d{19}\b", lambda it: plain if begun <= int(it[0]) <= ended else it[0], text)


def runs_of(program, seed):
    """Journals of runs."""
    return [journal_of_run(program, random.Random("journals of runs %s %d" % (seed, at))) for at in range(RUNS)]


# The comparison.


class Case:
    """A text with what the plain reading answers: the kind of the answer, its place, and what the probe is to answer by
    word; of a refused text by one of the words, in turn."""

    def __init__(self, number, text):
        self.text, self.kind, self.place = text, "Ok", len(text)
        words = plain_journal.WORDS
        try:
            journal = plain_journal.read(text)
            self.wanted = {word: (0, plain_journal.said_of(word, text, journal)) for word in words}
        except plain_journal.Refused as fault:
            self.kind, self.place = fault.args
            word = words[number % len(words)]
            self.wanted = {word: plain_journal.answer(word, text)}


def texts_of(rng, runs, count):
    """So many texts: journals, most of them with changes, each with some in turn."""
    for number in range(count):
        if number % EACH == 0:
            of_run = rng.random() < OF_RUNS
            text = rng.choice(runs) if of_run else random_journals.whole_journal(rng)
        yield random_journals.changed(rng, text)


def probed(probe, word, text):
    """The status and the output of the probe with a word over a text."""
    try:
        ran = subprocess.run([probe, "journal", word], input=text, stdout=subprocess.PIPE, stderr=subprocess.DEVNULL,
                             timeout=SECONDS, check=False)
    except subprocess.TimeoutExpired:
        return None, b"it doesn't end"
    return ran.returncode, ran.stdout


def differing(probe, case):
    """The words by which the probe answers something else, each with what it says."""
    said = {word: probed(probe, word, case.text) for word in case.wanted}
    return [(word, said[word]) for word, wanted in case.wanted.items() if said[word] != wanted]


def smaller(differs, text):
    """The text without lines that don't matter: what is left differs too."""
    lines = text.splitlines(keepends=True)
    step = len(lines) // 2
    while step:
        at = 0
        while at < len(lines):
            fewer = lines[:at] + lines[at + step :]
            if differs(b"".join(fewer)):
                lines = fewer
            else:
                at += step
        step //= 2
    return b"".join(lines)


def shortened(answer):
    """A status and an output as they are printed."""
    status, text = answer
    part = text if len(text) <= 300 else text[:150] + b".." + text[-150:]
    return "status %s, %d bytes, %r" % (status, len(text), part)


class Differences:
    """What differed: how many texts, of which the first are kept in files, and fewer printed."""

    def __init__(self, probe):
        self.probe, self.count, self.folder = probe, 0, None

    def add(self, case, found):
        """Notes a text with the words by which the answers differ."""
        self.count += 1
        if self.count > KEPT:
            return
        self.folder = self.folder or tempfile.mkdtemp(prefix="hogzent-journals-")
        path = self.keep(case.text, "")
        if self.count > SHOWN:
            return
        for word, said in found:
            texts = (path, word, shortened(said), shortened(case.wanted[word]))
            print("%s, by %s\n    probe:    %s\n    document: %s" % texts)

        def differs(text):
            return probed(self.probe, word, text) != plain_journal.answer(word, text)

        text = smaller(differs, case.text)
        print("    %s has %d bytes that matter: %r" % (self.keep(text, "-less"), len(text), text[:300]))

    def keep(self, text, more):
        """Writes a text into a file, and gives its place."""
        path = os.path.join(self.folder, "%d%s" % (self.count, more))
        with open(path, "wb") as file:
            file.write(text)
        return path


def compare(probe, texts):
    """Compares the answers to texts; the differences, and how many texts had which answer."""
    differences, answers, behind = Differences(probe), Counter(), Counter()
    number = 0
    with ThreadPoolExecutor(max_workers=WORKERS) as pool:
        while chunk := [Case(number + at, text) for at, text in enumerate(itertools.islice(texts, CHUNK))]:
            number += len(chunk)
            for case, found in zip(chunk, pool.map(partial(differing, probe), chunk)):
                answers[case.kind] += 1
                behind[case.kind] += 2 * case.place > len(case.text)
                if found:
                    differences.add(case, found)
    for kind, times in answers.most_common():
        more = ", %d of them in the second half of the text" % behind[kind] if kind == "BadEntry" else ""
        print("fuzz-journals: %6d  %s%s" % (times, kind, more))
    return differences


def main(count, seed, probe, program):
    """Makes the texts and compares; the status."""
    by_hand, answers = journal_edits.compare(partial(probed, probe))
    print("fuzz-journals: %d answers by hand, beside the probe: %d differences" % (answers, len(by_hand)))
    for one in by_hand[:SHOWN]:
        print("  " + one)
    runs = runs_of(program, seed)
    print("fuzz-journals: journals of %d runs, %d bytes" % (len(runs), sum(map(len, runs))), flush=True)
    differences = compare(probe, texts_of(random.Random("journals %s" % seed), runs, int(count)))
    print("fuzz-journals: %s texts, %d differences" % (count, differences.count))
    return 1 if by_hand or differences.count else 0


if __name__ == "__main__":
    sys.exit(main(*sys.argv[1:]))
