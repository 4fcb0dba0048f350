"""Measures how passes take turns at a machine: turns.py PROBE PEER, where PEER is a program with a mutex.

Prints the calls a second (the most of several runs, in turn) by the number of threads, which share the calls, what the
slowest of many runs took that must end, and the processor seconds of one in which a pass waits for another that reads a
silent pipe; and each bound with what was measured. The status is 1 where one isn't met.
"""

import os
import resource
import subprocess
import sys
import time

import kit

RUNS = 9
# So many calls are made in all, by so many threads; and what our calls a second must be at least by those of the peer.
CALLS = 2_000_000
LEAST = {1: 0.25, 2: 0.15, 4: 0.15}
# What so many dials may cost by what one does.
MANY_DIALS, DIALS_COST = 16, 3.0
# Each of so many runs must end with its sum: so many calls in all, by so many threads, within so many seconds.
ENDING_RUNS, ENDING_CALLS, ENDING_THREADS, ENDING_SECONDS = 10, 1_000_000, (2, 4, 16), 60
# The pipe is silent for so many seconds, and all may use so many processor seconds.
SILENT, WAITING_PROCESSOR = 2.0, 0.02


def run(words, sum_of_all):
    """The seconds of a run, which must print its sum within the time that each may take; None where it doesn't end."""
    begun = time.monotonic()
    try:
        told = subprocess.run(words, stdout=subprocess.PIPE, check=True, timeout=ENDING_SECONDS).stdout
    except subprocess.TimeoutExpired:
        return None
    seconds = time.monotonic() - begun
    if told != b"%d\n" % sum_of_all:
        sys.exit("bench: %s printed %r" % (" ".join(words), told))
    return seconds


def least(programs):
    """The least seconds of each program, of several runs in turn."""
    used = {name: [] for name in programs}
    for _ in range(RUNS):
        for name, words in programs.items():
            seconds = run(words, CALLS)
            if seconds is None:
                sys.exit("bench: %s didn't end" % name)
            used[name].append(seconds)
    return {name: min(seconds) for name, seconds in used.items()}


def check_speed(bounds, probe, peer):
    """The bounds on calls a second, and on what many dials cost."""
    for threads, ratio in LEAST.items():
        each = str(CALLS // threads)
        programs = {
            "turnstile": [probe, str(threads), each, "1"],
            "mutex": [peer, str(threads), each],
        }
        if threads == 1:
            programs["turnstile, %d dials" % MANY_DIALS] = [probe, "1", each, str(MANY_DIALS)]
        used = least(programs)
        for name, seconds in used.items():
            print("%-20s %2d threads, %9.0f calls a second, %4.0f ns a call" % (
                name, threads, CALLS / seconds, seconds / CALLS * 1e9), flush=True)
        text = "%d threads: our calls a second by those of the mutex, at least %.2f" % (threads, ratio)
        measured = used["mutex"] / used["turnstile"]
        bounds.say(text, "%.2f" % measured, measured >= ratio)
        if threads == 1:
            text = "what %d dials cost by what one does" % MANY_DIALS
            cost = used["turnstile, %d dials" % MANY_DIALS] / used["turnstile"]
            bounds.at_most(text, DIALS_COST, cost, "%.2f")


def check_ends(bounds, probe):
    """The bound on the time of each of many runs."""
    for threads in ENDING_THREADS:
        words = [probe, str(threads), str(ENDING_CALLS // threads), "1"]
        slowest = 0.0
        for _ in range(ENDING_RUNS):
            seconds = run(words, ENDING_CALLS)
            slowest = ENDING_SECONDS if seconds is None else max(slowest, seconds)
        text = "%s calls of %d threads, the slowest of %d runs, in seconds, below %d" % (
            kit.whole(ENDING_CALLS), threads, ENDING_RUNS, ENDING_SECONDS)
        bounds.say(text, "%.2f" % slowest, slowest < ENDING_SECONDS)


def check_waiting(bounds, probe):
    """The bound on the processor seconds of a run in which a pass waits."""
    reading, writing = os.pipe()
    before = resource.getrusage(resource.RUSAGE_CHILDREN)
    with subprocess.Popen([probe, "silent"], stdin=reading, stdout=subprocess.PIPE) as process:
        os.close(reading)
        time.sleep(SILENT)
        os.write(writing, b"heard")
        os.close(writing)
        told = process.communicate()[0]
    after = resource.getrusage(resource.RUSAGE_CHILDREN)
    if told != b"5 6\n":
        sys.exit("bench: the silent run printed %r" % told)
    seconds = after.ru_utime + after.ru_stime - before.ru_utime - before.ru_stime
    bounds.at_most("processor seconds while a pass waits for %.0f s" % SILENT, WAITING_PROCESSOR, seconds, "%.3f")


def main(probe, peer):
    print(kit.machine(), flush=True)
    bounds = kit.Bounds()
    check_speed(bounds, probe, peer)
    check_ends(bounds, probe)
    check_waiting(bounds, probe)
    return 0 if bounds.all_met else 1


if __name__ == "__main__":
    sys.exit(main(*sys.argv[1:]))
