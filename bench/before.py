"""Measures the program beside an older one, each format through `run`: before.py WORK OLD NEW [KIND..], without a KIND of
all.

Both run in turn over the same input, files on both sides, with the journal written. Prints their processor seconds (the
least of several runs) and, where valgrind is there, the instructions a line, which the load of the machine doesn't
change; the status is 1 where the new program makes fewer than 0.98 times the lines a processor second of the old one.
"""

import os
import re
import shutil
import subprocess
import sys

import kit
from formats import WAYS
from kit import TEMPLATES, Peer, input_of, whole

LINES = 300_000
FEW, MANY = 4_000, 20_000
RUNS = kit.runs_or(7)
RATIO = 0.98


def peer_of(name, program, way, source, folder):
    """A program over an input."""
    config = kit.write_configuration(
        folder, f"{way.kind}-{os.path.basename(source)}", f"[agent]\n{way.agent}",
        kit.plugins("inputs", [source], f'data_format = "{way.read}"\n{way.input}'),
        kit.plugins("outputs", [os.path.join(folder, "output")], f'data_format = "{way.write}"\n'))
    return Peer(name, [program, "run", config], {})


def instructions(program, way, lines, work, folder):
    """How many instructions a run over so many lines takes."""
    words = peer_of("counted", program, way, input_of(work, way.kind, lines), folder).words
    for name in ("output", "agent.journal"):
        if os.path.exists(os.path.join(folder, name)):
            os.unlink(os.path.join(folder, name))
    told = subprocess.run(
        ["valgrind", "--tool=callgrind", "--callgrind-out-file=/dev/null", *words],
        cwd=folder, stdout=subprocess.DEVNULL, stderr=subprocess.PIPE, text=True, check=True).stderr
    return int(re.search(r"Collected : (\d+)", told)[1])


def instructions_a_line(program, way, work, folder):
    """How many instructions a line more takes."""
    few, many = (instructions(program, way, lines, work, folder) for lines in (FEW, MANY))
    return (many - few) / (MANY - FEW)


def main(work, old, new, *kinds):
    folder = kit.runs_folder(work)
    print(kit.machine(), flush=True)
    bounds, rows, programs = kit.Bounds(), [], {"old": old, "new": new}
    for way in WAYS:
        if kinds and way.kind not in kinds:
            continue
        source = input_of(work, way.kind, LINES)
        kit.say(f"measuring {way.kind}, {whole(LINES)} lines, {RUNS} runs each")
        used = kit.in_turn([peer_of(name, it, way, source, folder) for name, it in programs.items()], source, folder, RUNS)
        ratio = used["old"].processor / used["new"].processor
        bounds.say(
            f"{way.kind}: lines a processor second by those of the old program, at least {RATIO}", f"{ratio:.3f}",
            ratio >= RATIO)
        counts = ["", ""]
        if shutil.which("valgrind"):
            counts = [whole(instructions_a_line(it, way, work, folder)) for it in programs.values()]
        rows += [[name, way.kind, f"{used[name].processor:.4f}", count] for name, count in zip(programs, counts)]
    print()
    kit.print_table(["program", "input", "processor s", "instructions a line"], rows)
    return 0 if bounds.all_met else 1


if __name__ == "__main__":
    sys.exit(main(*sys.argv[1:]))
