"""Cases of edge_cases.py in which a configuration has faults: fragments as Telegraf's documentation has them, and what is
said of each; the keys that Telegraf has and a configuration here hasn't, as docs/users/from-telegraf.md lists them."""

import os
import re

from edge_kit import Case, Holding

INPUT = '[[inputs.file]]\nfiles = ["a"]\n'
OUTPUT = '[[outputs.file]]\nfiles = ["b"]\n'
BOTH = INPUT + OUTPUT
PAGE = os.path.join(os.path.dirname(os.path.realpath(__file__)), "..", "docs", "users", "from-telegraf.md")
NO_INPUT = "there are no such inputs; there are `file` and `statsd`"
NO_OUTPUT = "there are no such outputs; there is `file`"
SIZE = "takes a whole number, 1 to 10000, without quotes"
READ_FORMATS = 'takes "influx", "statsd", "graphite" or "openmetrics" (Telegraf\'s prometheus)'
TIME = 'takes a time above 0, as "10s", "1m30s" or "24h" (not "1d"), or a whole number of seconds'


def said(name, text, report, *lines):
    """A case in which the faults of a configuration are said, a line each; without a fault where it says `ok`."""
    told = "".join(f"hogzent: c: {line}\n" for line in lines).encode()
    status, report = (3, f"config: {report}\n") if report != "ok" else (0, "ok\n")
    return Case(name, "hogzent check c", {"c": text.encode()}, status=status, report=report.encode(), told=told)


def no_toml(name, text, position):
    """A case of a text that is no TOML: one line, which begins with the place, the line and the column."""
    told = Holding(f"hogzent: c:{position}: ".encode())
    return Case(name, "hogzent check c", {"c": text.encode()}, status=3, report=b"config: NotToml root 0\n", told=told)


# Each as Telegraf's documentation has it, beside a file that is read and one that is written.
FRAGMENTS = [
    said("inputs.cpu", BOTH + "[[inputs.cpu]]\n  percpu = true\n  totalcpu = true\n  collect_cpu_time = false\n"
         "  report_active = false\n", "UnknownKind inputs 0", f"[[inputs.cpu]]: {NO_INPUT}"),
    said("inputs.tail", BOTH + '[[inputs.tail]]\n  files = ["/var/mymetrics.out"]\n  from_beginning = false\n  pipe = false\n'
         '  data_format = "influx"\n', "UnknownKind inputs 1", f"[[inputs.tail]]: {NO_INPUT}"),
    said("inputs.statsd", BOTH + '[[inputs.statsd]]\n  protocol = "udp"\n  service_address = ":8125"\n  delete_gauges = true\n',
         "UnknownKey inputs 1", "[[inputs.statsd]]: delete_gauges: leave it out: gauges are kept until the run ends",
         "[[inputs.statsd]]: protocol: leave it out: packets come over UDP"),
    said("inputs.statsd without an address", BOTH + "[[inputs.statsd]]\n  packets = 100001\n", "OutOfRange inputs 1",
         "[[inputs.statsd]]: packets: takes a whole number, 1 to 100000, without quotes",
         "[[inputs.statsd]]: service_address: is missing, and takes a text that isn't empty"),
    said("two servers at one address", OUTPUT + 2 * '[[inputs.statsd]]\n  service_address = ":8125"\n', "SamePlace inputs 1",
         "[[inputs.statsd]], the 2nd of 2: service_address: [[inputs.statsd]], the 1st of 2, has this place already"),
    said("a file at the place of a server", OUTPUT + '[[inputs.statsd]]\n  service_address = ":8125"\n[[inputs.file]]\n'
         '  files = ["udp :8125 1000 100"]\n', "SamePlace inputs 1",
         "[[inputs.statsd]]: service_address: [[inputs.file]], has this place already"),
    said("inputs.socket_listener", BOTH + '[[inputs.socket_listener]]\n  service_address = "tcp://:8094"\n',
         "UnknownKind inputs 1", f"[[inputs.socket_listener]]: {NO_INPUT}"),
    said("inputs.http_listener_v2", BOTH + '[[inputs.http_listener_v2]]\n  service_address = ":8080"\n  paths = ["/telegraf"]\n'
         '  data_format = "influx"\n', "UnknownKind inputs 1", f"[[inputs.http_listener_v2]]: {NO_INPUT}"),
    said("processors.rename", BOTH + '[[processors.rename]]\n  [[processors.rename.replace]]\n    measurement = "network_interface"\n'
         '    dest = "throughput"\n', "ok"),
    said("processors.starlark", BOTH + "[[processors.starlark]]\n  source = '''\ndef apply(metric):\n\treturn metric\n'''\n",
         "UnknownKind processors 0", "[[processors.starlark]]: there are no such processors; there are `converter`, `dedup`, "
         "`regex` and `rename`"),
    said("aggregators.histogram", BOTH + '[[aggregators.histogram]]\n  period = "30s"\n  drop_original = false\n',
         "UnknownKind aggregators 0", "[[aggregators.histogram]]: there are no such aggregators; there are `basicstats`, "
         "`final`, `merge` and `minmax`"),
    said("outputs.influxdb_v2", BOTH + '[[outputs.influxdb_v2]]\n  urls = ["http://127.0.0.1:8086"]\n  token = ""\n'
         '  organization = ""\n  bucket = ""\n', "UnknownKind outputs 1", f"[[outputs.influxdb_v2]]: {NO_OUTPUT}"),
    said("outputs.prometheus_client", BOTH + '[[outputs.prometheus_client]]\n  listen = ":9273"\n',
         "UnknownKind outputs 1", f"[[outputs.prometheus_client]]: {NO_OUTPUT}"),
    said("outputs.file with rotation_interval", BOTH + 'rotation_interval = "0h"\n', "UnknownKey outputs 0",
         "[[outputs.file]]: rotation_interval: leave it out: a file isn't rotated"),
    said("agent with interval", BOTH + '[agent]\n  interval = "10s"\n', "ok"),
    said("agent with omit_hostname", BOTH + "[agent]\n  omit_hostname = false\n", "ok"),
    said("agent with logtarget", BOTH + '[agent]\n  logtarget = "file"\n', "UnknownKey agent 0",
         "[agent]: logtarget: leave it out: there is no log, and standard error says what matters"),
    said("agent with flush_interval in days", BOTH + '[agent]\n  flush_interval = "1d"\n', "OutOfRange agent 0",
         f"[agent]: flush_interval: {TIME}"),
    said("agent with metric_buffer_limit", BOTH + "[agent]\n  metric_buffer_limit = 100000\n", "OutOfRange agent 0",
         f"[agent]: metric_buffer_limit: {SIZE}"),
    said("files that are no list", '[[inputs.file]]\n  files = "in.lp"\n' + OUTPUT, "WrongType inputs 0",
         '[[inputs.file]]: files: takes a list of one text that isn\'t empty, as ["in.lp"]'),
    said("data_format prometheus", INPUT + 'data_format = "prometheus"\n' + OUTPUT, "OutOfRange inputs 0",
         f"[[inputs.file]]: data_format: {READ_FORMATS}"),
    said("data_format json", INPUT + 'data_format = "json"\n' + OUTPUT, "OutOfRange inputs 0",
         f"[[inputs.file]]: data_format: {READ_FORMATS}"),
    no_toml("a variable", "[agent]\nmetric_batch_size = ${BATCH}\n" + BOTH, "2:21"),
    said("a variable in quotes", '[agent]\nmetric_batch_size = "${BATCH}"\n' + BOTH, "WrongType agent 0",
         f"[agent]: metric_batch_size: {SIZE}"),
    said("a glob with braces", INPUT + 'namepass = ["{cpu,mem}*"]\n' + OUTPUT, "BadGlob inputs 0",
         '[[inputs.file]]: namepass: "{cpu,mem}*" is no glob: braces aren\'t taken, write a glob for each'),
    said("two outputs of one file", BOTH + OUTPUT, "SamePlace outputs 1",
         "[[outputs.file]], the 2nd of 2: files: [[outputs.file]], the 1st of 2, has this place already"),
    no_toml("a key twice", '[agent]\ninterval = "10s"\ninterval = "20s"\n' + BOTH, "3:1"),
    no_toml("a table twice", "[agent]\n[agent]\n" + BOTH, "2:1"),
]


def many(count):
    """A table of so many keys that aren't known."""
    return "[agent]\n" + "".join(f"a{number:06} = 1\n" for number in range(count)) + BOTH


ALL = [
    said(
        "each fault has a line",
        '[agent]\nfinal_tries = 101\nlogtarget = "file"\n[[inputs.file]]\n[[inputs.file]]\nfiles = ["a"]\nnamepass = ["[", "x", "}"]\n'
        '[[inputs.file]]\nfiles = ["a"]\n[[outputs.file]]\nfiles = ["agent.journal"]\n',
        "OutOfRange agent 0",
        "[agent]: final_tries: takes a whole number, 1 to 100, without quotes",
        "[agent]: logtarget: leave it out: there is no log, and standard error says what matters",
        '[[inputs.file]], the 1st of 3: files: is missing, and takes a list of one text that isn\'t empty, as ["in.lp"]',
        '[[inputs.file]], the 2nd of 3: namepass: "[" is no glob: a set `[..]` has a character and an end, and a backslash'
        " one behind it",
        '[[inputs.file]], the 2nd of 3: namepass: "}" is no glob: braces aren\'t taken, write a glob for each',
        "[[inputs.file]], the 3rd of 3: files: [[inputs.file]], the 2nd of 3, has this place already",
        "[[outputs.file]]: files: the journal has this place",
    ),
    said(
        "what only follows from a fault isn't said",
        '[agent]\nmetric_batch_size = "500"\nmetric_buffer_limit = 600\njournal = 1\n' + INPUT
        + '[[outputs.file]]\nfiles = ["agent.journal"]\n',
        "WrongType agent 0",
        "[agent]: journal: takes a text that isn't empty",
        f"[agent]: metric_batch_size: {SIZE}",
    ),
    said(
        "twenty faults are said, and how many more there are",
        many(22),
        "UnknownKey agent 0",
        *(f"[agent]: a{number:06}: there is no such key" for number in range(20)),
        "2 more faults",
    ),
    Case(
        "faults through a pipe",
        "cat c | hogzent check /dev/stdin",
        {"c": (BOTH + "[agent]\nfinal_tries = 101\n").encode()},
        status=3,
        report=b"config: OutOfRange agent 0\n",
        told=b"hogzent: /dev/stdin: [agent]: final_tries: takes a whole number, 1 to 100, without quotes\n",
    ),
    Case(
        "a text above 1 MiB that is cut inside a line",
        "hogzent check c && true",
        {"c": b"# nothing\n" * 119_999 + b'x = "no end of it\n'},
        status=3,
        report=b"config: NotToml root 0\n",
        told=b"hogzent: c: the text is above 1 MiB (1,048,576 bytes)\n",
    ),
]


def listed_keys():
    """The rows of the page's table: a table, a key, and what is said of it."""
    with open(PAGE, encoding="utf-8") as page:
        text = page.read()
    rows = text.split("| table | keys | what is said |\n", 1)[1].split("\n\n", 1)[0].splitlines()[1:]
    for row in rows:
        tables, keys, words = (it.strip() for it in row.strip("|").split("|"))
        for table in re.findall(r"`([^`]*)`", tables):
            for key in re.findall(r"`([^`]*)`", keys):
                yield table, key, words


def listed_case(table, key, words):
    """A case of a key that Telegraf has."""
    line = f'"{key}" = "x"\n'
    texts = {
        "agent": ("[agent]\n" + line + BOTH, "agent", "[agent]"),
        "inputs": (INPUT + line + OUTPUT, "inputs", "[[inputs.file]]"),
        "processors": (BOTH + "[[processors.regex]]\n" + line, "processors", "[[processors.regex]]"),
        "aggregators": (BOTH + "[[aggregators.minmax]]\n" + line, "aggregators", "[[aggregators.minmax]]"),
        "outputs": (BOTH + line, "outputs", "[[outputs.file]]"),
    }
    text, name, shown = texts[table]
    return said(f"Telegraf's {key} of {table}", text, f"UnknownKey {name} 0", f"{shown}: {key}: {words}")


FAULTS = FRAGMENTS + ALL + [listed_case(*row) for row in listed_keys()]
