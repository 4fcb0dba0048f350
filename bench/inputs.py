"""Writes an input of line protocol, of lines of StatsD or Graphite, or of expositions: inputs.py KIND LINES FILE.

KIND is telegraf, small, escaped, statsd, graphite or openmetrics; of the last LINES are its samples, 1,000 an
exposition. The same words give the same bytes, and a shorter input begins a longer one. Each line of line protocol is
as Hogzent writes it (tags sorted by key, canonical numbers with at most nine decimals, a time), so that an output must
equal its input. Only escaped has backslashes and double quotes.
"""

import random
import sys

REGIONS = ["eu-west-1", "eu-central-1", "us-east-1", "us-west-2", "ap-south-1"]
SERVICES = ["checkout", "search", "accounts", "mail", "ledger", "images"]
TEAMS = ["platform", "storage", "payments", "network"]
SITES = ["Frankfurt am Main", "hall 3", "Sao Paulo 2", "New York"]
STATES = ['state is "up"', 'unit "db.service" failed: see "journalctl -u db"', '"ok"']
DEVICES = ["sda1", "sdb1", "nvme0n1p1", "nvme1n1p2", "dm-0"]
PATHS = ["/", "/var", "/var/lib/data", "/home", "/srv/backup"]
START = 1_790_000_000


def decimal(rng, below, places):
    """A canonical decimal from 0 to below, with at most so many decimals."""
    text = "%.*f" % (places, rng.random() * below)
    return text.rstrip("0").rstrip(".") if "." in text else text


def percent(rng):
    """A share as Telegraf writes it: often 0, or with up to nine decimals."""
    if rng.random() < 0.1:
        return "0"
    return decimal(rng, 100, 9)


def common_tags(rng):
    """The tags that each plugin has: the host always, and most times what the operator adds."""
    number = rng.randrange(400)
    tags = {"host": "node-%04d.%s.example.net" % (number, REGIONS[number % 5])}
    extra = {
        "datacenter": REGIONS[number % 5] + "abc"[number % 3],
        "environment": "production" if number % 8 else "staging",
        "rack": "r%02d" % (number % 40),
        "service": SERVICES[number % 6],
        "team": TEAMS[number % 4],
    }
    for key in rng.sample(sorted(extra), rng.randint(2 + (rng.random() < 0.5), 5)):
        tags[key] = extra[key]
    return tags


def cpu(rng, tags):
    tags["cpu"] = "cpu-total" if rng.random() < 0.1 else "cpu%d" % rng.randrange(64)
    keys = ["guest", "idle", "iowait", "irq", "softirq", "steal", "system", "user"]
    return [("usage_" + key, percent(rng)) for key in keys[: rng.randint(6, 8)]]


def mem(rng, tags):
    total = rng.choice([16, 32, 64, 128]) << 30
    keys = ["active", "available", "buffered", "cached", "free", "inactive", "total", "used"]
    fields = [(key, "%di" % (total if key == "total" else rng.randrange(total))) for key in keys]
    fields.append(("available_percent", percent(rng)))
    fields.append(("used_percent", percent(rng)))
    return fields[: 10 - rng.randrange(4)]


def disk(rng, tags):
    tags["device"] = rng.choice(DEVICES)
    tags["path"] = rng.choice(PATHS)
    if len(tags) < 8:
        tags["fstype"] = rng.choice(["ext4", "xfs"])
    total = rng.randrange(1 << 38, 1 << 42)
    used = rng.randrange(total)
    return [
        ("total", "%di" % total),
        ("free", "%di" % (total - used)),
        ("used", "%di" % used),
        ("used_percent", percent(rng)),
        ("inodes_total", "%di" % (total >> 14)),
        ("inodes_used", "%di" % (used >> 16)),
    ][: rng.randint(3, 6)]


def net(rng, tags):
    tags["interface"] = rng.choice(["eth0", "eth1", "bond0", "lo"])
    keys = ["bytes_sent", "bytes_recv", "packets_sent", "packets_recv", "err_in", "err_out", "drop_in", "drop_out"]
    fields = []
    for key in keys:
        top = 50 if key[:3] in ("err", "dro") else 1 << 44
        fields.append((key, "%di" % rng.randrange(top)))
    return fields


PLUGINS = [("cpu", cpu), ("mem", mem), ("disk", disk), ("net", net)]


def line_of(name, tags, fields, number):
    head = ",".join([name] + ["%s=%s" % pair for pair in sorted(tags.items())])
    body = ",".join("%s=%s" % pair for pair in fields)
    return "%s %s %d000000000\n" % (head, body, START + number // 100 * 10)


def telegraf_line(rng, number):
    name, plugin = rng.choice(PLUGINS)
    tags = common_tags(rng)
    return line_of(name, tags, plugin(rng, tags), number)


def escaped_line(rng, number):
    """As telegraf, with a tag whose value has escaped spaces, and a text that has escaped quotes."""
    name, plugin = rng.choice(PLUGINS)
    tags = common_tags(rng)
    fields = plugin(rng, tags)
    tags["site"] = rng.choice(SITES).replace(" ", "\\ ")
    fields.append(("message", '"%s"' % rng.choice(STATES).replace('"', '\\"')))
    return line_of(name, tags, fields, number)


def small_line(rng, number):
    return "cpu,host=h%d v=%di %d000000\n" % (rng.randrange(10), rng.randrange(100), number % 10 + 1)


def statsd_line(rng, number):
    """A StatsD line as services send it: mostly timings and counters, some with a rate, few with tags."""
    name = "app%d.%s.%s" % (rng.randrange(10), rng.choice(SERVICES), rng.choice(["latency", "hits", "errors", "queue"]))
    chance = rng.random()
    if chance < 0.6:
        return "%s:%s|ms\n" % (name, decimal(rng, 500, 3))
    if chance < 0.8:
        return "%s:%d|c\n" % (name, rng.randrange(1, 50))
    if chance < 0.9:
        return "%s:1|c|@0.1\n" % name
    if chance < 0.97:
        return "%s:%d|g\n" % (name, rng.randrange(10_000))
    return "%s:%d|c|#env:prod,region:%s\n" % (name, rng.randrange(1, 50), rng.choice(REGIONS))


def graphite_line(rng, number):
    """A line of Graphite as collectors send it: mostly of servers, which a filter takes, some of services."""
    time = START + number // 100 * 10
    if rng.random() < 0.7:
        name, plugin = rng.choice(PLUGINS)
        key, value = rng.choice(plugin(rng, {}))
        return "servers.node-%04d.%s.%s %s %d\n" % (rng.randrange(400), name, key, value.rstrip("i"), time)
    path = "%s.%s.%s" % (rng.choice(["prod", "staging"]), rng.choice(SERVICES), rng.choice(["latency.p99", "hits"]))
    return "%s %s %d\n" % (path, decimal(rng, 500, 3), time)


# The families of an exposition, each with its type and its labels beside the instance; each has a hundred samples.
FAMILIES = [
    ("http_requests_total", "counter", ("code", "handler", "method")), ("go_goroutines", "gauge", ()),
    ("http_request_duration_seconds_sum", "gauge", ("handler",)), ("node_cpu_seconds_total", "counter", ("cpu", "mode")),
    ("node_filesystem_avail_bytes", "gauge", ("device", "fstype", "mountpoint")), ("up", "gauge", ("job",)),
    ("node_memory_MemFree_bytes", "gauge", ()), ("process_cpu_seconds_total", "counter", ()),
    ("node_network_receive_bytes_total", "counter", ("device",)), ("grpc_server_handled_total", "counter", ("method",)),
]
LABEL_VALUES = {
    "code": ["200", "302", "404", "500"], "handler": PATHS, "method": ["get", "post", "put"], "job": SERVICES,
    "cpu": ["0", "1", "2", "3"], "mode": ["idle", "user", "system", "iowait"], "device": DEVICES,
    "fstype": ["ext4", "xfs"], "mountpoint": PATHS,
}


def openmetrics_line(rng, number):
    """A sample as exporters have it, with what stands before and behind it in its exposition."""
    family, kind, keys = FAMILIES[number % 1000 // 100]
    front = "# HELP %s Some help of it.\n# TYPE %s %s\n" % (family, family, kind) if number % 100 == 0 else ""
    labels = [("instance", "node-%04d.example.net:9100" % (number % 100))]
    labels += [(key, rng.choice(LABEL_VALUES[key])) for key in keys]
    inside = ",".join('%s="%s"' % pair for pair in labels)
    value = "%d" % rng.randrange(1 << 30) if rng.random() < 0.5 else decimal(rng, 10_000, 6)
    back = "# EOF\n" if number % 1000 == 999 else ""
    return "%s%s{%s} %s %d\n%s" % (front, family, inside, value, START + number // 1000 * 10, back)


KINDS = {
    "telegraf": telegraf_line, "small": small_line, "escaped": escaped_line, "statsd": statsd_line,
    "graphite": graphite_line, "openmetrics": openmetrics_line,
}


def main(kind, lines, path):
    rng = random.Random("hogzent " + kind)
    line = KINDS[kind]
    with open(path, "w", encoding="ascii", newline="\n") as out:
        for number in range(int(lines)):
            out.write(line(rng, number))


if __name__ == "__main__":
    main(*sys.argv[1:])
