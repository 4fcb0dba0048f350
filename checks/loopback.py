"""Packets on the loopback: for `edge`, `real-programs` and `bench/run statsd-server`."""

import contextlib
import socket
import time

HOST = "127.0.0.1"


def socket_at(host, port=0):
    """A socket for packets at a port of an address, or at one that is free."""
    made = socket.socket(socket.AF_INET6 if ":" in host else socket.AF_INET, socket.SOCK_DGRAM)
    try:
        made.bind((host, port))
    except OSError:
        made.close()
        raise
    return made


def free_port(host=HOST):
    """A port of an address that is free for packets."""
    with socket_at(host) as free:
        return free.getsockname()[1]


def listens(port):
    """Whether a program has a socket for packets at a port of this machine."""
    place = f":{port:04X}"
    for name in ("udp", "udp6"):
        with contextlib.suppress(FileNotFoundError), open(f"/proc/net/{name}", encoding="ascii") as file:
            if any(line.split()[1].endswith(place) for line in file):
                return True
    return False


def wait_for_server(port, has_ended, seconds):
    """Waits until a server listens at a port; whether it does, before it has ended and the seconds are over."""
    end = time.monotonic() + seconds
    while time.monotonic() < end and not has_ended():
        if listens(port):
            return True
        time.sleep(0.01)
    return False


def send(port, *packets, host=HOST):
    """Sends packets to a port."""
    with socket_at(host) as sender:
        for packet in packets:
            sender.sendto(packet, (host, port))
