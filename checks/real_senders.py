"""Checks of what real programs send: collectd, the Python client of Prometheus, node_exporter, Prometheus itself, its
push gateway, and a StatsD client.

Each gets the agent and a folder, and gives what it saw as a text; it raises Differs or LeftOut.
"""

import contextlib
import math
import os
import socket
import sys
import threading
import time
import urllib.request

from real_kit import (
    BILLION, LeftOut, answers, billionths, decimal_metric, expect, expect_all, free_port, needs, running, version,
    wait_until, without_time, write_file,
)

HERE = os.path.dirname(os.path.realpath(__file__))
OPENMETRICS = "application/openmetrics-text; version=1.0.0"
# An input that passes over samples out of range.
PASSING = "pass_out_of_range = true"
COLLECTD_SECONDS = 5
# The least magnitude that is out of range.
LIMIT = 2.0**64

COLLECTD = """Hostname "real-host"
FQDNLookup false
Interval 1
TypesDB "/usr/share/collectd/types.db"
BaseDir "{folder}"
PIDFile "{folder}/collectd.pid"
LoadPlugin cpu
LoadPlugin load
LoadPlugin memory
LoadPlugin write_graphite
<Plugin write_graphite>
  <Node "here">
    Host "127.0.0.1"
    Port "{port}"
    Protocol "tcp"
  </Node>
</Plugin>
"""


def take_stream(server, into):
    """Takes the bytes of one connection, to its end."""
    with contextlib.suppress(OSError):
        connection, _ = server.accept()
        with connection:
            while part := connection.recv(65_536):
                into.append(part)


def collectd_text(folder):
    """What collectd writes in some seconds."""
    command, parts = needs("collectd", "collectd-core"), []
    with socket.create_server(("127.0.0.1", 0)) as server:
        config = write_file(folder, "collectd.conf", COLLECTD.format(folder=folder, port=server.getsockname()[1]))
        taker = threading.Thread(target=take_stream, args=(server, parts), daemon=True)
        taker.start()
        with running([command, "-f", "-C", config], folder):
            wait_until("collectd sends something", lambda: parts)
            time.sleep(COLLECTD_SECONDS)
        taker.join(5)
    return b"".join(parts)


def check_collectd(agent, folder):
    """collectd writes Graphite to a socket: each line is read but those with `nan`."""
    text = collectd_text(folder)
    lines = text.splitlines(keepends=True)
    words = [line.decode().split() for line in lines]
    ran, refused = agent.one_by_one(folder, lines, "graphite")
    expect("refused lines", refused, [at for at, (_, value, _) in enumerate(words) if value == "nan"])
    right = [decimal_metric(path, {}, value, int(second) * BILLION) for path, value, second in words if value != "nan"]
    expect_all("metrics", ran.written, right)
    shown = version(needs("collectd", "collectd-core"), "-h")
    return f"collectd {shown}: {len(lines)} lines, {len(refused)} refused, each with nan, {len(right)} metrics"


def scraped(port):
    """What an exporter answers to one who asks for OpenMetrics, and the name of the format of its answer."""
    ask = urllib.request.Request(f"http://127.0.0.1:{port}/metrics", headers={"Accept": OPENMETRICS})
    with urllib.request.urlopen(ask, timeout=10) as answer:
        return answer.read(), answer.headers["Content-Type"].split(";")[0]


def scraped_of(words, folder, port):
    """What a program answers that serves its metrics at a port."""
    with running(words, folder):
        wait_until("the exporter answers", lambda: answers(port))
        return scraped(port)


def right_samples(families, moment=None, type_tag=False):
    """The metrics of the samples that the client's parser reads, as line protocol has them: without newlines; and how many
    samples are passed over, those out of range among them."""
    right, passed = [], 0
    for family in families:
        for sample in family.samples:
            if not math.isfinite(sample.value) or abs(sample.value) >= LIMIT:
                passed += 1
                continue
            tags = {key: value.replace("\n", " ") for key, value in sample.labels.items()}
            tags |= {"om_type": family.type} if type_tag else {}
            right.append(decimal_metric(sample.name, tags, float(sample.value), moment))
    return right, passed


def check_client(agent, folder):
    """The Python client serves OpenMetrics: all of it is read, with the types."""
    try:
        from prometheus_client.openmetrics import parser
    except ImportError:
        raise LeftOut("there is no prometheus_client (Debian's package python3-prometheus-client)") from None
    port = free_port()
    text, form = scraped_of([sys.executable, "-B", os.path.join(HERE, "real_exporter.py"), str(port)], folder, port)
    expect("the format", form, OPENMETRICS.split(";", 1)[0])
    right, passed = right_samples(parser.text_string_to_metric_families(text.decode()), type_tag=True)
    ran = agent.run(folder, text, "openmetrics", more="type_tag = true", at_once=1)
    expect("pieces, refused, passed", (ran.pieces, ran.refused, ran.passed), (1, 0, passed))
    expect_all("metrics", [without_time(it) for it in ran.written], [without_time(it) for it in right])
    again = agent.run(folder, text, "openmetrics", more="type_tag = true\n" + PASSING, at_once=1)
    expect("pieces, refused, passed with the key", (again.pieces, again.refused, again.passed), (1, 0, passed))
    expect_all("metrics with the key", [without_time(it) for it in again.written], [without_time(it) for it in right])
    return (
        f"prometheus_client {module_version('prometheus_client')}: {len(right)} metrics, {passed} samples passed over, and"
        " the same with `pass_out_of_range`")


def is_refused_alone(line):
    """Whether a line of the older text format is none of OpenMetrics, or has a number that is out of range."""
    if line.startswith(b"#"):
        return line.startswith(b"# TYPE ") and line.endswith(b" untyped\n")
    number = float(line.rsplit(b" ", 1)[1])
    return math.isfinite(number) and abs(number) >= LIMIT


def check_node_exporter(agent, folder):
    """node_exporter answers the older text format, which has no end: as a whole it is refused. Of its lines, each with
    an end of its own, those are refused that have a type `untyped`, or a number that is out of range."""
    command = needs("prometheus-node-exporter", "prometheus-node-exporter")
    try:
        from prometheus_client import parser
    except ImportError:
        raise LeftOut("there is no prometheus_client (Debian's package python3-prometheus-client)") from None
    port = free_port()
    text, form = scraped_of([command, f"--web.listen-address=127.0.0.1:{port}"], folder, port)
    expect("the format", form, "text/plain")
    ran = agent.run(folder, text, "openmetrics", at_once=1)
    expect("pieces and refused without an end", (ran.pieces, ran.refused), (1, 1))
    lines = text.splitlines(keepends=True)
    ran, refused = agent.one_by_one(folder, [line + b"# EOF\n" for line in lines], "openmetrics")
    expect("refused lines", refused, [at for at, line in enumerate(lines) if is_refused_alone(line)])
    kept = b"".join(line for line in lines if not is_refused_alone(line)).decode()
    right, passed = right_samples(parser.text_string_to_metric_families(kept))
    expect("passed", ran.passed, passed)
    expect_all("metrics", sorted(without_time(it) for it in ran.written), sorted(without_time(it) for it in right))
    untyped = [lines[at] for at in refused if lines[at].startswith(b"#")]
    others = [lines[at].decode().strip() for at in refused if not lines[at].startswith(b"#")]
    return (
        f"node_exporter {version(command, '--version')} answers {form}, refused as a whole for want of `# EOF`; of its"
        f" {len(lines)} lines alone {len(refused)} are refused ({len(untyped)} with `untyped`, and {others}),"
        f" {len(right)} metrics, {passed} samples passed over")


def numbers_beyond(text):
    """The samples of an exposition whose number is a decimal out of range."""
    samples = [line.decode() for line in text.splitlines() if not line.startswith(b"#")]
    return [it for it in samples if LIMIT <= abs(float(it.rsplit(" ", 1)[1])) < math.inf]


def check_exporter(words, name, agent, folder):
    """A program in Go under no limit of memory answers the older text format, though it is asked for OpenMetrics: as a
    whole that is refused, with the key too. With an end behind it it is refused where it has a number out of range,
    unless the key says that such a sample is passed over; then all else of it is read."""
    try:
        from prometheus_client import parser
    except ImportError:
        raise LeftOut("there is no prometheus_client (Debian's package python3-prometheus-client)") from None
    port = free_port()
    words = [*words, f"--web.listen-address=127.0.0.1:{port}"]
    text, form = scraped_of(["bash", "-c", 'ulimit -v unlimited; exec "$@"', "exporter", *words], folder, port)
    expect("the format", form, "text/plain")
    for more in ("", PASSING):
        ran = agent.run(folder, text, "openmetrics", more=more, at_once=1)
        expect("pieces and refused without an end", (ran.pieces, ran.refused), (1, 1))
    beyond = numbers_beyond(text)
    expect("a sample is out of range", len(beyond) > 0, True)
    text += b"# EOF\n"
    ran = agent.run(folder, text, "openmetrics", at_once=1)
    expect("pieces, refused, gathered without the key", (ran.pieces, ran.refused, ran.gathered), (1, 1, 0))
    ran = agent.run(folder, text, "openmetrics", more=PASSING, at_once=1)
    right, passed = right_samples(parser.text_string_to_metric_families(text.decode()))
    expect("pieces, refused, passed", (ran.pieces, ran.refused, ran.passed), (1, 0, passed))
    expect_all("metrics", sorted(without_time(it) for it in ran.written), sorted(without_time(it) for it in right))
    return (
        f"{name} {version(words[0], '--version')} answers {form}, refused as a whole for want of `# EOF`; with that behind it"
        f" it is refused without `pass_out_of_range`, and with it {len(right)} metrics, {passed} samples passed over,"
        f" of these out of range {beyond}")


PROMETHEUS = """scrape_configs:
  - job_name: none
    static_configs: []
"""


def check_prometheus(agent, folder):
    """Prometheus's own metrics."""
    command, config = needs("prometheus", "prometheus"), write_file(folder, "prometheus.yml", PROMETHEUS)
    words = [command, f"--config.file={config}", f"--storage.tsdb.path={folder}/blocks"]
    return check_exporter(words, "prometheus", agent, folder)


def check_pushgateway(agent, folder):
    """The metrics of Prometheus's push gateway."""
    command = needs("prometheus-pushgateway", "prometheus-pushgateway")
    return check_exporter([command], "pushgateway", agent, folder)


def module_version(name):
    """The version of a module of Python."""
    from importlib import metadata
    return metadata.version(name)


def taken_packets(server, send):
    """The packets that come while something is sent, up to one that says that it is over."""
    packets, host, port = [], *server.getsockname()
    send(host, port)
    with socket.socket(socket.AF_INET, socket.SOCK_DGRAM) as last:
        last.sendto(b"over", (host, port))
    while (packet := server.recv(65_536)) != b"over":
        packets.append(packet)
    return packets


# Members that are sent in one packet, one of them twice.
MEMBERS = ["user 7", "user 8", "user 7"]


def send_statsd(statsd, host, port):
    """Sends what the client has calls for; the metrics of it, as (name, type, key of the field, value)."""
    client = statsd.StatsClient(host, port, prefix="shop")
    client.incr("orders")
    client.incr("orders", 17)
    client.decr("stock", 3)
    client.incr("views", 1, rate=0.9999999)
    client.timing("answer", 320.25)
    client.timing("answer", 7)
    client.gauge("queue", 12)
    client.gauge("queue", -4)
    client.gauge("queue", 3, delta=True)
    client.gauge("queue", -2.5, delta=True)
    client.set("visitors", "user 7")
    with client.pipeline() as pipe:
        for member in MEMBERS:
            pipe.set("buyers", member)
    with client.pipeline() as pipe:
        for at in range(40):
            pipe.incr(f"page.{at}", at)
    client.close()
    right = [
        ("orders", "counter", "value", "1"), ("orders", "counter", "value", "17"), ("stock", "counter", "value", "-3"),
        ("views", "counter", "value", "1.0000001"), ("answer", "timing", "value", "320.25"),
        ("answer", "timing", "value", "7"), ("queue", "gauge", "value", "12"), ("queue", "gauge", "value", "0"),
        ("queue", "gauge", "delta", "-4"), ("queue", "gauge", "delta", "3"), ("queue", "gauge", "delta", "-2.5"),
        ("visitors", "set", "member", "user 7"),
    ]
    right += [("buyers", "set", "member", member) for member in MEMBERS]
    return right + [(f"page.{at}", "counter", "value", str(at)) for at in range(40)]


def statsd_client():
    """The module of the StatsD client."""
    try:
        import statsd
    except ImportError:
        raise LeftOut("there is no statsd (Debian's package python3-statsd)") from None
    return statsd


def check_statsd(agent, folder):
    """A StatsD client sends to a socket, whose packets go to a file line by line: all are read."""
    statsd, right = statsd_client(), []
    with socket.socket(socket.AF_INET, socket.SOCK_DGRAM) as server:
        server.bind(("127.0.0.1", 0))
        server.settimeout(10)
        packets = taken_packets(server, lambda host, port: right.extend(send_statsd(statsd, host, port)))
    text = b"".join(packet.rstrip(b"\n") + b"\n" for packet in packets)
    ran = agent.run(folder, text, "statsd")
    expect("pieces, refused", (ran.pieces, ran.refused), (text.count(b"\n"), 0))

    def metric_of(name, kind, key, value):
        field = ("text", value.encode()) if kind == "set" else ("decimal", billionths(value))
        return f"shop.{name}".encode(), [(b"metric_type", kind.encode())], [(key.encode(), field)]

    expect_all("metrics", [without_time(it) for it in ran.written], [metric_of(*one) for one in right])
    return f"statsd {module_version('statsd')}: {len(packets)} packets, {len(right)} metrics"
