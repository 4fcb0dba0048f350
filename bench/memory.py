"""Runs the program once at each size and says what its peak memory is: memory.py WORK PROGRAM KIND.. The kind `hostile`
is the inputs of hostile.py; each other one goes through `pipe`, which has to give it back."""

import sys

import hostile
import kit
from kit import OURS, input_of, megabytes, say, whole

FEW, MANY = 10_000, 1_000_000
# Small lines are few bytes each, so that ten times as many are still a run of seconds.
MOST = {"small": 10_000_000}
# The peak at MANY by that at FEW, and the most that any peak may be.
GROWTH_BOUND = 1.2
MEGABYTES_BOUND = 12.0


def runs_of(work, ours, kind, folder):
    """What one run at each size of a kind used; None where it fails or gives back another text."""
    runs = {}
    for lines in [FEW, MANY, *([MOST[kind]] if kind in MOST else [])]:
        source = input_of(work, kind, lines)
        say("memory of %s, %s lines" % (kind, whole(lines)))
        runs[lines] = kit.run_back(ours, source, folder)
    return runs


def check_kind(bounds, kind, runs):
    """Checks the peaks of a kind, by the lines of their inputs."""
    if None in runs.values():
        bounds.say("%s: gives back its input" % kind, "it doesn't", False)
        return
    for lines, used in runs.items():
        bounds.peak("%s, %s lines" % (kind, whole(lines)), MEGABYTES_BOUND, used)
    text = "%s: peak memory at %s lines by that at %s" % (kind, whole(MANY), whole(FEW))
    bounds.at_most(text, GROWTH_BOUND, runs[MANY].kilobytes / runs[FEW].kilobytes, "%.2f")


def main(work, program, *kinds):
    folder, bounds = kit.runs_folder(work), kit.Bounds()
    ours = kit.pipe_of(program)
    runs = {kind: runs_of(work, ours, kind, folder) for kind in kinds if kind != "hostile"}
    if runs:
        rows = [
            [OURS, kind, whole(lines), megabytes(used.kilobytes)]
            for kind, of_kind in runs.items() for lines, used in of_kind.items() if used
        ]
        print()
        kit.print_table(["program", "input", "lines", "peak MB"], rows)
    for kind, of_kind in runs.items():
        check_kind(bounds, kind, of_kind)
    if "hostile" in kinds:
        hostile.check_all(bounds, program, folder)
    return 0 if bounds.all_met else 1


if __name__ == "__main__":
    sys.exit(main(*sys.argv[1:]))
