"""Measures a StatsD server, by `run` with one input and an output of a file: statsd_server.py WORK PROGRAM SENDER PEER COLLECTD
[--quick], where PEER is a plain program and COLLECTD is empty where there is none. The status is 1 where a bound isn't met.

- The highest rate of lines of 1,000 series at which several runs lose nothing, by packets of one line and of twenty, beside
  PEER and collectd. A sender in C sends at a given rate from a processor of its own; the server has another one. The rate is
  doubled until something is lost, and then bisected. All packets must be told of in what was served, and the sums of the
  counters be those that were sent; of collectd the sums alone are looked at, which it has some seconds for.
- What series cost whose names have one hash, or one of the numbers by which the server orders series, beside others, and members
  of one set whose texts have one hash.
- What silence costs.

With --quick a rate is tried once, for a second, the last step is wider, and collectd is left out.
"""

import contextlib
import glob
import math
import os
import re
import shutil
import signal
import subprocess
import sys
import tempfile
import time
from collections import namedtuple
from concurrent.futures import ThreadPoolExecutor

import kit
from kit import whole

sys.path.insert(1, os.path.join(kit.HERE, "..", "checks"))
import colliding_texts  # noqa: E402
import loopback  # noqa: E402

OURS, RUST, COLLECTD = "hogzent run", "rust, with journal", "collectd"
SERIES, LINES = 1_000, 20_000
PACKETS, QUIETS = 1_000, 50
RECEIVE_BUFFER = 8 << 20
# Of a rate tried: how often, for how many seconds, and how near the rate that lost is to the one that is given at the end.
Care = namedtuple("Care", "runs seconds step silence")
FULL, QUICK = Care(3, 5.0, 1.05, 10.0), Care(1, 1.0, 1.2, 2.0)
# So many lines a packet, and the rate of lines that is tried first.
BEGIN = {1: 200_000, 20: 1_000_000}
# A sender that sends less than so much of what it was told to, so many times, is itself at its limit.
KEPT_UP, TRIES = 0.97, 3
LEAST_RATE, RATIO, MOST_COST, MOST_SILENCE = 500_000, 0.8, 3.0, 0.02
# How long a server may take until it listens, and how long collectd has for its sums, which it reports each second.
START_SECONDS, COLLECTD_SECONDS = 10.0, 6.0

OWN = re.compile(rb"^statsd packets=(\d+)u,refused=(\d+)u ", re.M)
COUNTER = re.compile(rb",metric_type=counter value=(\d+) ")
REPORTED = re.compile(r",(\d+)\n")
# Lines by what is said of them.
COLLIDING = {"series": b"%s:1|c\n", "members of one set": b"users:%s|s\n"}
COLLECTD_TEXT = """Hostname "bench"
FQDNLookup false
Interval 1
TypesDB "/usr/share/collectd/types.db"
BaseDir "{folder}"
PIDFile "{folder}/collectd.pid"
LoadPlugin statsd
LoadPlugin csv
<Plugin statsd>
  Host "127.0.0.1"
  Port "{port}"
</Plugin>
<Plugin csv>
  DataDir "{folder}/csv"
  StoreRates false
</Plugin>
"""

# What was sent, and in how many seconds.
Sent = namedtuple("Sent", "packets lines seconds")
# A run of a server while something was sent: whether nothing of it was lost, and what the server used, where that is known.
Trial = namedtuple("Trial", "sent is_whole used")
# The highest rate of a server, the processor seconds that a line took there, and whether the sender could send no faster.
Found = namedtuple("Found", "rate cost is_senders")


def processors():
    """A processor for the server and one for the sender, on two cores where that can be."""
    mine, siblings = sorted(os.sched_getaffinity(0)), set()
    place = f"/sys/devices/system/cpu/cpu{mine[-1]}/topology/thread_siblings_list"
    with contextlib.suppress(FileNotFoundError), open(place, encoding="ascii") as file:
        siblings = {int(it) for it in re.findall(r"\d+", file.read())}
    others = [it for it in mine[:-1] if it not in siblings] or mine[:-1] or mine
    return mine[-1], others[-1]


def lines_of_services(work):
    """A file of lines as services send them, each series in turn: counters, timings, gauges and sets. And its counters' values,
    line by line, 0 where a line is none."""
    path, counted = os.path.join(work, f"statsd-server-{LINES}"), []
    with open(path, "w", encoding="ascii") as file:
        for at in range(LINES):
            series, count = at % SERIES, at % 7 + 1
            of_ten = series % 10
            value = f"{count}|c" if of_ten < 5 else f"{at % 500}.{at % 1000:03d}|ms" if of_ten < 8 else f"{at}|g"
            file.write(f"app.series{series:03d}:" + (f"user{at}|s\n" if of_ten == 9 else value + "\n"))
            counted.append(count if of_ten < 5 else 0)
    return path, counted


def counted_in(counted, lines):
    """The sum of the counters of so many lines, which were sent in turn."""
    times, rest = divmod(lines, len(counted))
    return times * sum(counted) + sum(counted[:rest])


class Sender:
    """What sends lines to a port, from a processor of its own."""

    def __init__(self, program, processor, port):
        self.words, self.port = ["taskset", "-c", str(processor), program, str(port)], port

    def send(self, path, each, rate, seconds):
        """Sends the lines of a file in turn, so many a packet, at so many a second."""
        words = [*self.words, path, str(each), str(rate), str(seconds)]
        ran = subprocess.run(words, stdout=subprocess.PIPE, check=False)
        if ran.returncode != 0:
            sys.exit("bench: the sender failed, as it does where the server ends before it")
        told = ran.stdout.split()
        return Sent(int(told[0]), int(told[1]), float(told[2]))

    def wait_for(self, has_ended):
        """Waits until a server listens at the port."""
        if not loopback.wait_for_server(self.port, has_ended, START_SECONDS):
            sys.exit("bench: a server didn't listen")


class Served:
    """A server that ends by itself and writes line protocol: ours or the plain one."""

    def __init__(self, peer, folder, sender):
        self.peer, self.folder, self.sender, self.name = peer, folder, sender, peer.name

    def run(self, send):
        """What was sent while a run went on, what that used, and what it wrote."""
        with ThreadPoolExecutor(1) as pool:
            run = pool.submit(kit.run, self.peer, "", self.folder)
            self.sender.wait_for(run.done)
            sent = send()
            status, used = run.result()
        if status != 0:
            sys.exit(f"bench: {self.name} ended with the status {status}")
        with open(os.path.join(self.folder, "output"), "rb") as file:
            return sent, used, file.read()

    def trial(self, send, counted):
        """Whether all that was sent was served."""
        sent, used, text = self.run(send)
        packets, refused = (sum(int(it) for it in column) for column in zip((0, 0), *OWN.findall(text)))
        served, right = sum(int(it) for it in COUNTER.findall(text)), counted_in(counted, sent.lines)
        if refused or packets == sent.packets and served != right:
            sys.exit(f"bench: {self.name} counted {served} of {right}, and refused {refused}")
        return Trial(sent, packets == sent.packets, used)


class Collectd:
    """collectd, which reports each second, and has to be ended."""

    name = COLLECTD

    def __init__(self, command, folder, sender, processor):
        self.folder, self.sender = os.path.join(folder, "collectd"), sender
        os.makedirs(self.folder)
        place = os.path.join(self.folder, "collectd.conf")
        with open(place, "w", encoding="utf-8") as file:
            file.write(COLLECTD_TEXT.format(folder=self.folder, port=sender.port))
        self.words = ["taskset", "-c", str(processor), command, "-f", "-C", place]

    def counted(self):
        """The sum of the last values of all counters."""
        total = 0
        for path in glob.glob(os.path.join(self.folder, "csv", "*", "*", "derive-*")):
            with open(path, encoding="ascii") as file:
                total += sum(int(it) for it in REPORTED.findall(file.read())[-1:])
        return total

    def has_counted(self, right):
        """Whether this sum is reached in time."""
        end = time.monotonic() + COLLECTD_SECONDS
        while self.counted() < right and time.monotonic() < end:
            time.sleep(0.5)
        return self.counted() == right

    def trial(self, send, counted):
        """Whether all counters that were sent were reported."""
        shutil.rmtree(os.path.join(self.folder, "csv"), ignore_errors=True)
        with subprocess.Popen(self.words, cwd=self.folder, stdout=subprocess.DEVNULL, stderr=subprocess.DEVNULL) as server:
            try:
                self.sender.wait_for(lambda: server.poll() is not None)
                sent = send()
                is_whole = self.has_counted(counted_in(counted, sent.lines))
            finally:
                server.send_signal(signal.SIGTERM)
        return Trial(sent, is_whole, None)


def rate_of(trial):
    """The lines a second that were sent."""
    return trial.sent.lines / trial.sent.seconds


def tried(server, send, counted, rate):
    """A run at a rate, once more where the sender was kept from its time by something else."""
    for _ in range(TRIES):
        trial = server.trial(send, counted)
        if not trial.is_whole or rate_of(trial) >= KEPT_UP * rate:
            break
    return trial


def lost_nothing(server, send, counted, rate, runs):
    """The slowest of several runs at a rate; None where one lost something."""
    slowest = None
    for _ in range(runs):
        trial = tried(server, send, counted, rate)
        if not trial.is_whole:
            return None
        if slowest is None or rate_of(trial) < rate_of(slowest):
            slowest = trial
    return slowest


def highest(server, sender, source, each, care):
    """The highest rate at which a server loses nothing."""
    path, counted = source
    found, lost, rate = Found(0.0, None, False), None, float(BEGIN[each])
    while lost is None or lost > care.step * max(found.rate, 1.0):
        kit.say(f"{server.name}, {each} a packet: {whole(rate)} lines a second")
        trial = lost_nothing(server, lambda: sender.send(path, each, rate, care.seconds), counted, rate, care.runs)
        if trial is None:
            lost = rate
        else:
            reached = rate_of(trial)
            cost = trial.used and trial.used.processor / trial.sent.lines
            found = Found(max(reached, found.rate), cost, reached < KEPT_UP * rate)
        if found.is_senders or rate < each:
            break
        rate = 2 * rate if lost is None else math.sqrt(found.rate * lost) if found.rate else lost / 4
    return found


def row_of(name, each, found):
    """A line of the table; the processor time is known of those that end by themselves."""
    cost = "-" if found.cost is None else f"{found.cost * 1e6:.2f}"
    limit = "the sender" if found.is_senders else "a loss"
    return [name, f"{each} a packet", whole(found.rate), whole(found.rate / each), cost, limit]


def check_rates(bounds, servers, sender, source, care):
    """The table of the highest rates, and the bounds on them."""
    found = {(server.name, each): highest(server, sender, source, each, care) for each in BEGIN for server in servers}
    print()
    kit.print_table(
        ["server", "lines", "lines/s", "packets/s", "processor us/line", "ended by"],
        [row_of(name, each, one) for (name, each), one in found.items()])
    for each in BEGIN:
        ours, plain = found[OURS, each].rate, found[RUST, each].rate
        text = f"{each} a packet: our lines a second without a loss"
        if each == max(BEGIN):
            bounds.say(f"{text}, at least {whole(LEAST_RATE)}", whole(ours), ours >= LEAST_RATE)
        bounds.at_least(f"{text} by those of {RUST}", RATIO, ours / max(plain, 1.0))


def whole_group(server, sender, path, kind):
    """What a run used over the lines of a file that came in one group."""
    for _ in range(5):
        _, used, text = server.run(lambda: sender.send(path, LINES // PACKETS, 10 * LINES, 0.1))
        if [int(packets) for packets, _ in OWN.findall(text)] == [PACKETS]:
            return used
    sys.exit(f"bench: {kind}: the packets didn't come in one group")


def check_colliding(bounds, server, sender, folder, runs):
    """The bounds on what names of one hash, or of the server's own number of a series, and members of one hash cost."""
    for what, form in COLLIDING.items():
        kinds = colliding_texts.both(LINES)
        if what == "series":
            kinds = {"one number": colliding_texts.of_one_number(LINES), **kinds}
        kit.say(f"{what} that collide, {runs} runs each")
        least = dict.fromkeys(kinds, math.inf)
        for kind in [*kinds] * runs:
            path = os.path.join(folder, "colliding")
            with open(path, "wb") as file:
                file.write(b"".join(form % name for name in kinds[kind]))
            least[kind] = min(least[kind], whole_group(server, sender, path, kind).processor)
        *collided, others = least.values()
        print(f"{whole(LINES)} {what}: " + ", ".join(f"{kind} {took:.3f} processor s" for kind, took in least.items()), flush=True)
        bounds.at_most(f"{what}: processor time of those by that of others", MOST_COST, max(collided) / max(others, 0.001), "%.2f")


def check_silence(bounds, program, folder, port, seconds):
    """The bound on what a server takes to which nothing is sent."""
    kit.say(f"{seconds:.0f} seconds of silence")
    used = kit.run_once(ours_of(program, folder, "silence", port, round(seconds * 100)), "", folder)
    text = f"{seconds:.0f} s of silence: processor seconds a second"
    if used is None or used.seconds < seconds:
        bounds.say(text, "it failed" if used is None else f"it ended after {used.seconds:.2f} s", False)
    else:
        bounds.at_most(text, MOST_SILENCE, used.processor / used.seconds, "%.4f")


def ours_of(program, folder, name, port, quiets, words=()):
    """A run of ours that listens at the port; it has the journal's own place in the folder."""
    place = kit.write_configuration(
        folder, name, f'[[inputs.statsd]]\nservice_address = "127.0.0.1:{port}"\npackets = {PACKETS}\nquiet_limit = {quiets}\n',
        kit.plugins("outputs", ["output"]))
    return kit.Peer(OURS, [*words, program, "run", place], {})


def has_kind(program, folder, port):
    """Whether the program knows an input of this kind."""
    place = ours_of(program, folder, "kind", port, QUIETS).words[-1]
    return b"UnknownKind" not in subprocess.run([program, "check", place], capture_output=True, check=False).stdout


@contextlib.contextmanager
def made_folder(work):
    """A folder for a while: in memory where there is room, so that no disk is measured."""
    memory = "/dev/shm"
    free = os.statvfs(memory) if os.path.isdir(memory) else None
    is_fit = free is not None and free.f_bavail * free.f_frsize > 4 << 30
    with tempfile.TemporaryDirectory(prefix="hogzent-bench-", dir=memory if is_fit else work) as folder:
        yield folder


def receive_buffer():
    """What the system gives of the receive buffer that is asked for."""
    with open("/proc/sys/net/core/rmem_max", encoding="ascii") as file:
        most = int(file.read())
    return f"Receive buffer: {whole(RECEIVE_BUFFER)} bytes are asked for, and net.core.rmem_max is {whole(most)}."


def main(work, program, sender, peer, collectd, *words):
    care, port, (here, there) = QUICK if words else FULL, loopback.free_port(), processors()
    with made_folder(work) as folder:
        if not has_kind(program, folder, port):
            kit.say("the program has no input of the kind statsd")
            return 70
        print(kit.machine(), receive_buffer(), sep="\n", flush=True)
        sending, pinned = Sender(sender, there, port), ["taskset", "-c", str(here)]
        plain = [*pinned, peer, f"127.0.0.1:{port}", str(PACKETS), str(QUIETS), "OUT", "peer.journal"]
        servers = [Served(it, folder, sending) for it in (
            ours_of(program, folder, "ours", port, QUIETS, pinned), kit.Peer(RUST, plain, {}))]
        if collectd and not words:
            servers.append(Collectd(collectd, folder, sending, here))
        bounds = kit.Bounds()
        check_rates(bounds, servers, sending, lines_of_services(work), care)
        check_colliding(bounds, servers[0], sending, folder, care.runs)
        check_silence(bounds, program, folder, port, care.silence)
    return 0 if bounds.all_met else 1


if __name__ == "__main__":
    sys.exit(main(*sys.argv[1:]))
