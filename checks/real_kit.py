"""What the checks of real programs share: runs of the agent, programs that are ended again, and waiting for them."""

import contextlib
import os
import re
import shutil
import socket
import subprocess
import time
from collections import namedtuple
from decimal import ROUND_HALF_EVEN, Context, Decimal

import format_influx
import loopback

# No wait, and no run of a program that ends by itself, takes longer.
SECONDS = 60
# A server ends after so many quiets, three seconds: until then a client must have begun.
QUIETS = 300
BILLION = 10**9
ACCOUNT = re.compile(r"input 0 pieces (\d+) refused (\d+) passed (\d+) filtered 0 gathered (\d+) ended\n")
GATHER = re.compile(r"gather 0 \d+ (\d+) (\d+) ")
NUMBERS = Context(prec=60, rounding=ROUND_HALF_EVEN)

# What a run told: the numbers of its account, the metrics or bytes that it wrote, and its journal.
Ran = namedtuple("Ran", "pieces refused passed gathered written journal")


class Differs(Exception):
    """Something else came than was expected."""


class LeftOut(Exception):
    """A check can't be made here."""


def expect(text, said, right):
    """Fails where something else was said."""
    if said != right:
        raise Differs(f"{text}: {said!r}, and not {right!r}")


def expect_all(text, said, right):
    """Fails where two lists differ, and says the first place where they do."""
    for at, (one, two) in enumerate(zip(said, right)):
        expect(f"{text}, number {at}", one, two)
    expect(f"{text}, how many", len(said), len(right))


def needs(command, package):
    """The path of a command of Debian's package."""
    path = shutil.which(command, path=os.environ.get("PATH", "") + ":/usr/sbin:/usr/bin")
    if path is None:
        raise LeftOut(f"there is no {command} (Debian's package {package})")
    return path


def version(*words):
    """The first number of a version that a program says."""
    told = subprocess.run(words, stdout=subprocess.PIPE, stderr=subprocess.STDOUT, timeout=SECONDS, check=False)
    found = re.search(r"\d+\.\d+[\w.~+]*", told.stdout.decode())
    return found[0] if found else "unknown"


def free_port():
    """A port of the loopback that is free."""
    with socket.create_server(("127.0.0.1", 0)) as server:
        return server.getsockname()[1]


def wait_until(what, is_so):
    """Waits until something is so, and gives what that was."""
    end = time.monotonic() + SECONDS
    while time.monotonic() < end:
        found = is_so()
        if found:
            return found
        time.sleep(0.1)
    raise Differs(f"waited {SECONDS} seconds in vain until {what}")


def answers(port):
    """Whether a port of the loopback takes connections."""
    with contextlib.suppress(OSError), socket.create_connection(("127.0.0.1", port), timeout=1):
        return True
    return False


@contextlib.contextmanager
def running(words, folder, **others):
    """Runs a program in a folder for as long as its block goes on."""
    with open(os.path.join(folder, "told"), "wb") as told:
        program = subprocess.Popen(
            words, cwd=folder, stdin=subprocess.DEVNULL, stdout=told, stderr=subprocess.STDOUT, **others)
    try:
        yield program
    finally:
        program.terminate()
        try:
            program.wait(5)
        except subprocess.TimeoutExpired:
            program.kill()
            program.wait()


def write_file(folder, name, content):
    """Writes a file of a folder, and gives its path."""
    path = os.path.join(folder, name)
    with open(path, "wb") as file:
        file.write(content if isinstance(content, bytes) else content.encode())
    return path


def read_file(path):
    """The bytes of a file."""
    with open(path, "rb") as file:
        return file.read()


class Agent:
    """The program, and how one input goes to one output."""

    def __init__(self, program):
        self.program = program

    def configuration(self, folder, inputs, write="influx", at_once=1000):
        """Writes a configuration of these inputs, one output and the journal, and gives the words that run it."""
        out, journal = os.path.join(folder, "out"), os.path.join(folder, "journal")
        config = write_file(folder, "run.toml", (
            f'[agent]\ngather_pieces = {at_once}\nmetric_batch_size = 10000\njournal = "{journal}"\n{inputs}'
            f'[[outputs.file]]\nfiles = ["{out}"]\ndata_format = "{write}"\n'))
        return [self.program, "run", config]

    def ran(self, folder, status, report, told, write="influx"):
        """What a run told that must have ended well: metrics where line protocol is written, else bytes."""
        account = ACCOUNT.match(report.decode())
        if status != 0 or not account or b" dropped 0\n" not in report:
            raise Differs(f"the agent ended with status {status}: {report!r}, {told!r}")
        written = read_file(os.path.join(folder, "out"))
        if write == "influx":
            written = [format_influx.read(line, None) for line in written.splitlines()]
        return Ran(*(int(it) for it in account.groups()), written, read_file(os.path.join(folder, "journal")).decode())

    def run(self, folder, text, read, write="influx", more="", at_once=1000):
        """Runs a configuration over a text: formats, further lines of the input, and how many pieces are gathered at
        once."""
        place = write_file(folder, "in", text)
        words = self.configuration(
            folder, f'[[inputs.file]]\nfiles = ["{place}"]\ndata_format = "{read}"\n{more}\n', write, at_once)
        ran = subprocess.run(
            words, cwd=folder, stdin=subprocess.DEVNULL, capture_output=True, timeout=SECONDS, check=False)
        return self.ran(folder, ran.returncode, ran.stdout, ran.stderr, write)

    def serve(self, folder, send):
        """Runs a configuration with a StatsD server while something is sent to its port of the loopback, and gives the
        run and what the sender gave. The run ends some seconds later."""
        port = loopback.free_port()
        words = self.configuration(
            folder, f'[[inputs.statsd]]\nservice_address = "127.0.0.1:{port}"\nquiet_limit = {QUIETS}\n')
        pipes = {"stdin": subprocess.DEVNULL, "stdout": subprocess.PIPE, "stderr": subprocess.PIPE}
        with subprocess.Popen(words, cwd=folder, **pipes) as server:
            try:
                sent = None
                if loopback.wait_for_server(port, lambda: server.poll() is not None, SECONDS):
                    sent = send(port)
                report, told = server.communicate(timeout=SECONDS)
            finally:
                server.kill()
        return self.ran(folder, server.returncode, report, told), sent

    def one_by_one(self, folder, pieces, read, more=""):
        """Runs it over texts that are a piece each, and gives the run and the places of those that were refused."""
        ran = self.run(folder, b"".join(pieces), read, more=more, at_once=1)
        gathers = [(int(of), int(refused)) for of, refused in GATHER.findall(ran.journal)]
        expect_all("pieces of each gather", [of for of, _ in gathers], [1] * len(pieces))
        return ran, [at for at, (_, refused) in enumerate(gathers) if refused]


def billionths(number):
    """The billionths of a decimal (a text, or a float as its shortest text), rounded half to even."""
    text = repr(number) if isinstance(number, float) else number
    return int((Decimal(text) * BILLION).to_integral_value(context=NUMBERS))


def decimal_metric(name, tags, number, moment):
    """A metric of one decimal, as it is read of the line that is written."""
    tags = sorted((key.encode(), value.encode()) for key, value in tags.items() if value)
    return name.encode(), tags, [(b"value", ("decimal", billionths(number)))], moment


def without_time(metric):
    """A metric without its time."""
    return metric[:3]
