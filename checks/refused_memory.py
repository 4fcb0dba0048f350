"""Refuses each allocation of the rows of whole runs once, one a run, and says how each row then ended.

Refused is what is allocated once the row's world is laid: by the call, and where what it left is compared. A row may
end well, or well but for lines that people aren't told; it may say that memory is short, beside the call or as the
call's answer (the status 9); it may do nothing else. A row that shows another answer, that is stopped by a signal, or
that doesn't end in ten seconds is printed, and the status is then 1.
"""
import os
import re
import subprocess
import sys
import tempfile
from concurrent.futures import ThreadPoolExecutor

SECONDS = 10
EACH = "in each row"
SHORT_BESIDE = re.compile(r"^error: .*(AllocError|AllocFailed|OutOfMemory)", re.M)
SHORT_AS_ANSWER = re.compile(r'wanted "status: \d; ", and it is "status: 9; "$', re.M)
SHORT_OF_LINES = re.compile(r'wanted "said( begins)?: .*; ", and it is "said( begins)?: .*; "$', re.M)
STATUS_OF_ERROR = 1
ENDED_WELL, BESIDE, AS_ANSWER = "ended well", "short beside the call", "short as the answer"
OF_LINES, OTHER = "short of lines for people", "OTHER"


class Rows:
    """The program, the library that refuses allocations, and the folder of the tables."""

    def __init__(self, program, preload, data):
        self.program, self.preload, self.data = os.path.abspath(program), os.path.abspath(preload), data

    def names(self, table):
        """The names of a table's rows."""
        with open(os.path.join(self.data, table + ".txt"), encoding="utf-8") as file:
            marked = [line[4:].rstrip("\n") for line in file if line.startswith("=== ")]
        return [name for name in marked if name != EACH]

    def tables(self):
        """The names of the tables that have rows."""
        files = sorted(name.removesuffix(".txt") for name in os.listdir(self.data) if name.endswith(".txt"))
        return [table for table in files if self.names(table)]

    def ran(self, how, table, row, **words):
        """Runs or lays one row; its status and what it printed."""
        try:
            done = subprocess.run(
                [self.program, how, table, row],
                cwd=self.data,
                env={**os.environ, "LD_PRELOAD": self.preload, **words},
                stdin=subprocess.DEVNULL,
                stdout=subprocess.PIPE,
                stderr=subprocess.STDOUT,
                timeout=SECONDS,
            )
        except subprocess.TimeoutExpired as late:
            return "no end", (late.stdout or b"").decode(errors="replace")
        return done.returncode, done.stdout.decode(errors="replace")

    def allocations(self, how, table, row, folder):
        """How many allocations a row makes where none is refused; it has to hold."""
        count_file = os.path.join(folder, "count")
        status, text = self.ran(how, table, row, REFUSE_COUNT=count_file)
        if status != 0 or (how == "run" and text != f"{table}: 1 rows held\n"):
            sys.exit(f"{table}: {row}: doesn't hold with no allocation refused:\n{text}")
        with open(count_file, encoding="ascii") as file:
            return int(file.read())


def ending(status, text):
    """How a row ended of which an allocation was refused."""
    if status == 0:
        return ENDED_WELL
    if status == STATUS_OF_ERROR and SHORT_BESIDE.search(text):
        return BESIDE
    if status == STATUS_OF_ERROR and text.count("wanted") == 1 and SHORT_AS_ANSWER.search(text):
        return AS_ANSWER
    if status == STATUS_OF_ERROR and text.count("wanted") == 1 and SHORT_OF_LINES.search(text):
        return OF_LINES
    return OTHER


def tried(rows, table, row, folder, pool):
    """Refuses each allocation of a row's call, and prints a line for the row: how many were refused, and how many of them
    ended otherwise than they may."""
    laid = rows.allocations("lay", table, row, folder)
    numbers = range(laid + 1, rows.allocations("run", table, row, folder) + 1)
    ran = list(pool.map(lambda number: rows.ran("run", table, row, REFUSE=str(number)), numbers))
    found = [ending(*it) for it in ran]
    counts = ", ".join(f"{found.count(it)} {it}" for it in (ENDED_WELL, OF_LINES, BESIDE, AS_ANSWER, OTHER) if it in found)
    print(f"{table}: {row}: {len(found)} allocations: {counts}", flush=True)
    for number, how, (status, text) in zip(numbers, found, ran):
        if how == OTHER:
            print(f"  allocation {number}: status {status}\n{text}", flush=True)
    return len(found), found.count(OTHER)


def main(program, preload, data, *tables):
    """Tries each row of these tables, or of all, and prints a line for each and one for all."""
    rows = Rows(program, preload, data)
    refused, others = 0, 0
    with tempfile.TemporaryDirectory() as folder, ThreadPoolExecutor(os.cpu_count()) as pool:
        for table in tables or rows.tables():
            for row in rows.names(table):
                count, other = tried(rows, table, row, folder, pool)
                refused, others = refused + count, others + other
    print(f"{refused} allocations refused, {others} ended otherwise than they may", flush=True)
    return 1 if others or not refused else 0


if __name__ == "__main__":
    sys.exit(main(*sys.argv[1:]))
