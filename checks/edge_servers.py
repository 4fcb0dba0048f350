"""Cases of edge_cases.py in which an input is a StatsD server: places at which none can be opened, and packets that come."""

import contextlib
import os
import signal

import loopback
from edge_configurations import configured
from edge_hands import begin, wait_until
from edge_kit import OLD, SECONDS, Case, Unopened, account_of, differences, found_in, lay, open_fault, run_case, without_times

HOSTS = {"an IPv4 address": "127.0.0.1", "an IPv6 address": "::1"}
LOW_PORT = 80
# No case waits for long where no server of names answers.
RUN = "RES_OPTIONS='timeout:1 attempts:1' hogzent run c"

# Places of servers that can't be, by what is wrong with them.
WRONG_PLACES = {
    "an address of another machine": "udp 192.0.2.1:8125 1000 100",
    "an IPv6 address of another machine": "udp [2001:db8::1]:8125 1000 100",
    "a host that there isn't": "udp nosuch.invalid:8125 1000 100",
    "no address": "udp  1000 100",
    "an address without a colon": "udp 127.0.0.1 1000 100",
    "a port that is no number": "udp 127.0.0.1:x 1000 100",
    "a port above 65,535": "udp 127.0.0.1:65536 1000 100",
    "no packet a group": "udp 127.0.0.1:0 0 100",
    "too many packets a group": "udp 127.0.0.1:0 100001 100",
    "no quiet": "udp 127.0.0.1:0 1000 0",
    "too many quiets": "udp 127.0.0.1:0 1000 1000001",
    "one number alone": "udp 127.0.0.1:0 1000",
    "a number that is none": "udp 127.0.0.1:0 1000 x",
}


def place_at(port, packets=1000, quiets=100, host="127.0.0.1"):
    """The place of a server at a port."""
    return f"udp [{host}]:{port} {packets} {quiets}" if ":" in host else f"udp {host}:{port} {packets} {quiets}"


def unopened_server(name, place, *before):
    """A case in which a server isn't opened, behind other inputs: what was written before stays."""
    return Case(
        name,
        RUN,
        {"c": configured((*before, place)), "out": OLD, "agent.journal": OLD},
        status=5,
        report=open_fault(place),
        told=Unopened(place),
    )


def unopened_pipe(name, place):
    """The same of `pipe`."""
    case = unopened_server(name, place)
    case.line = f'hogzent pipe "{place}" out 10 100'
    del case.before["c"]
    return case


SERVERS = [unopened_server("a server's place: " + what, place) for what, place in WRONG_PLACES.items()]
SERVERS += [unopened_pipe("a server's place as the input of pipe: " + what, WRONG_PLACES[what]) for what in (
    "an address of another machine", "no address", "too many quiets")]


def lowest_free_for_all():
    """The first port that a user may listen at who isn't root."""
    with open("/proc/sys/net/ipv4/ip_unprivileged_port_start", encoding="ascii") as file:
        return int(file.read())


if os.geteuid() != 0 and LOW_PORT < lowest_free_for_all():
    SERVERS.append(unopened_server("a server's place: a port that isn't permitted", place_at(LOW_PORT)))


def address_in_use(folder, program):
    """Another program listens at the address."""
    with loopback.socket_at(loopback.HOST) as other:
        return run_case(unopened_server("", place_at(other.getsockname()[1])), folder, program)


def address_twice(folder, program):
    """Another input of the run has the address, by another place."""
    port = loopback.free_port()
    return run_case(unopened_server("", place_at(port, 500), place_at(port)), folder, program)


@contextlib.contextmanager
def serving(folder, program, place, agent=""):
    """A run with a server at a place, for as long as its block goes on, and no longer: it listens by then."""
    lay(folder, {"c": configured((place,), agent=agent), "out": OLD})
    port = int(place.split()[1].rpartition(":")[2])
    with begin(program, folder, "run", "c") as server:
        try:
            if not loopback.wait_for_server(port, lambda: server.poll() is not None, SECONDS):
                raise OSError(f"no server at {place}")
            yield server
        finally:
            server.kill()


def ended_well(server, folder, count, out):
    """What differs from a run that ends by itself, and has served so many lines."""
    report, told = server.communicate(timeout=SECONDS)
    return differences(
        ("status", server.returncode, 0),
        ("standard output", report, account_of(count, count, 0)),
        ("standard error", told, b""),
        ("out", without_times(found_in(folder)["out"]), out),
    )


PACKETS = [
    b"hits:1|c\nload:+3|g\nhits:2|c",
    b"hits:5|c\r\nload:-1|g\nx\n",
    b"answer:5|ms\nanswer:7.5|ms\nuser:a|s\nuser:b|s\nuser:a|s",
]
SERVED = b"""statsd packets=1u,refused=0u NOW
hits,metric_type=counter value=3 NOW
load,metric_type=gauge value=3 NOW
statsd packets=1u,refused=1u NOW
hits,metric_type=counter value=5 NOW
load,metric_type=gauge value=2 NOW
statsd packets=1u,refused=0u NOW
answer,metric_type=timing count=2u,lower=5,upper=7.5,sum=12.5 NOW
user,metric_type=set count=2u NOW
"""
IN_ONE_GROUP = b"""statsd packets=3u,refused=1u NOW
hits,metric_type=counter value=8 NOW
load,metric_type=gauge value=2 NOW
answer,metric_type=timing count=2u,lower=5,upper=7.5,sum=12.5 NOW
user,metric_type=set count=2u NOW
"""


def three_packets(host):
    """Three packets, each a group, and then silence."""

    def run(folder, program):
        port = loopback.free_port(host)
        with serving(folder, program, place_at(port, packets=1, host=host)) as server:
            loopback.send(port, *PACKETS, host=host)
            return ended_well(server, folder, 9, SERVED)

    return run


def is_stopped(server):
    """Whether a child was stopped."""
    with open(f"/proc/{server.pid}/stat", encoding="ascii") as file:
        return file.read().rpartition(") ")[2].startswith("T")


def stopped_meanwhile(folder, program):
    """The run is stopped while packets come, and goes on: they are a group, and so is one that comes later."""
    port = loopback.free_port()
    with serving(folder, program, place_at(port), agent="gather_pieces = 1") as server:
        server.send_signal(signal.SIGSTOP)
        wait_until(lambda: is_stopped(server))
        loopback.send(port, *PACKETS)
        server.send_signal(signal.SIGCONT)
        wait_until(lambda: found_in(folder)["out"].count(b"\n") == IN_ONE_GROUP.count(b"\n"))
        loopback.send(port, b"load:+1|g")
        later = b"statsd packets=1u,refused=0u NOW\nload,metric_type=gauge value=3 NOW\n"
        return ended_well(server, folder, 7, IN_ONE_GROUP + later)


def can_have(host):
    """Whether this machine has an address."""
    with contextlib.suppress(OSError):
        return loopback.free_port(host) > 0
    return False


SERVERS_RUNS = [
    ("a server's address is in use", address_in_use),
    ("a server's address is in use by another input", address_twice),
    *((f"a server at {what} gets three packets", three_packets(host)) for what, host in HOSTS.items() if can_have(host)),
    ("a server is stopped while packets come", stopped_meanwhile),
]
