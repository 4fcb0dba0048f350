"""Checks of what real programs take: carbon-cache, promtool, the Python client of Prometheus, and influxd.

Each gets the agent and a folder, and gives what it saw as a text; it raises Differs or LeftOut. The agent reads seeded
lines of line protocol; what is expected of the programs is told by the maker of these lines, and not by the agent.
"""

import contextlib
import json
import os
import random
import re
import socket
import subprocess
import time
import urllib.parse
import urllib.request

from real_kit import (
    BILLION, SECONDS, Differs, LeftOut, answers, billionths, expect, expect_all, free_port, needs, running, version,
    wait_until, write_file,
)
from real_senders import module_version

# Each value as line protocol writes it, and the number that it is.
NUMBERS = {
    "0.1": 0.1, "-0.000000001": -1e-9, "123456789.987654321": 123456789.987654321, "17i": 17, "-3i": -3,
    "9007199254740992i": 2**53, "7u": 7, "18446744073709551615u": 2**64 - 1, "true": 1, "false": 0, "1e3": 1000,
    "1000000.5": 1000000.5, "4503599627370497.5": 4503599627370497.5,
}
SITES = ["hall 3", 'the "old" hall', "C:\\racks\\7", "Köln, {south}", "a=b"]

CARBON = """[cache]
STORAGE_DIR = {folder}
CONF_DIR = {folder}
LOG_DIR = {folder}
PID_DIR = {folder}
LOCAL_DATA_DIR = {folder}/whisper
USER =
ENABLE_TAGS = False
MAX_CREATES_PER_MINUTE = inf
MAX_UPDATES_PER_SECOND = inf
LINE_RECEIVER_INTERFACE = 127.0.0.1
LINE_RECEIVER_PORT = {port}
PICKLE_RECEIVER_INTERFACE = 127.0.0.1
PICKLE_RECEIVER_PORT = 0
CACHE_QUERY_INTERFACE = 127.0.0.1
CACHE_QUERY_PORT = 0
"""

INFLUXD = """reporting-disabled = true
bind-address = "127.0.0.1:{other}"
[meta]
  dir = "{folder}/meta"
[data]
  dir = "{folder}/data"
  wal-dir = "{folder}/wal"
[monitor]
  store-enabled = false
[http]
  bind-address = "127.0.0.1:{port}"
"""


def escaped(text):
    """A name, a key or the value of a tag as line protocol writes it."""
    return re.sub(r"[,= ]", r"\\\g<0>", text)


def text_of(lines):
    """The bytes of lines."""
    return "".join(line + "\n" for line in lines).encode()


def graphite_lines(now):
    """Lines of a quarter of an hour, and the values that are to be stored: by path and second."""
    lines, right = [], {}
    for at in range(300):
        second, host = now - 3 * at, f"node-{at % 4}"
        texts = [list(NUMBERS)[(at + more) % len(NUMBERS)] for more in range(2)]
        fields = f'usage.user={texts[0]},value={texts[1]},state="up"'
        lines.append(f"cpu.total,host={host}.example.net,zone=eu\\ west {fields} {second * BILLION + at % BILLION}")
        front = f"{host}_example_net.eu_west.cpu.total"
        right[front + ".usage.user", second] = float(NUMBERS[texts[0]])
        right[front, second] = float(NUMBERS[texts[1]])
    return lines, right


def stored(whisper, folder, right):
    """What stands in carbon's files at the paths and seconds; None where nothing does."""
    found = {}
    for path in {path for path, _ in right}:
        file = os.path.join(folder, "whisper", *path.split(".")) + ".wsp"
        seconds = [second for of, second in right if of == path]
        if os.path.exists(file):
            (begin, _, step), values = whisper.fetch(file, min(seconds) - 1, max(seconds))
            found |= {(path, begin + at * step): value for at, value in enumerate(values)}
    return {key: found.get(key) for key in right}


def check_carbon(agent, folder):
    """carbon-cache takes what a Graphite output wrote, and each value stands in its files."""
    try:
        import whisper
    except ImportError:
        raise LeftOut("there is no whisper (Debian's package python3-whisper)") from None
    command, port = needs("carbon-cache", "graphite-carbon"), free_port()
    lines, right = graphite_lines(int(time.time()))
    ran = agent.run(folder, text_of(lines), "influx", "graphite")
    expect("lines refused and written", (ran.refused, ran.written.count(b"\n")), (0, len(right)))
    config = write_file(folder, "carbon.conf", CARBON.format(folder=folder, port=port))
    write_file(folder, "storage-schemas.conf", "[all]\npattern = .*\nretentions = 1s:1h\n")
    with running([command, f"--config={config}", "--nodaemon", "start"], folder):
        wait_until("carbon-cache answers", lambda: answers(port))
        with socket.create_connection(("127.0.0.1", port), timeout=10) as connection:
            connection.sendall(ran.written)
        with contextlib.suppress(Differs):  # What is missing is told below.
            wait_until("all is stored", lambda: None not in stored(whisper, folder, right).values())
        said = stored(whisper, folder, right)
    expect_all("values", sorted(said.items()), sorted(right.items()))
    return f"carbon {module_version('carbon')}, whisper {module_version('whisper')}: {len(right)} values, each as it was"


def openmetrics_lines(rng, begin, step):
    """Lines whose times are so many milliseconds apart, and their samples: names, labels, milliseconds, numbers."""
    lines, right = [], []
    for at in range(500):
        text, site = rng.choice(list(NUMBERS)), rng.choice(SITES)
        family, key = rng.choice([("cpu", "value"), ("cpu_usage.user", "usage.user"), ("9lives:all", "value")])
        name = "cpu" if family.startswith("cpu") else family
        thousandth = begin * 1000 + at * step
        lines.append(f'{name},site={escaped(site)},a.b=c {key}={text},state="up" {thousandth * 1_000_000}')
        shown = {"cpu_usage.user": "cpu_usage_user", "9lives:all": "_9lives:all"}.get(family, family)
        right.append((shown, {"site": site, "a_b": "c"}, thousandth, float(NUMBERS[text])))
    return lines, sorted(right, key=order)


def order(sample):
    """What samples are sorted by."""
    name, labels, thousandth, _ = sample
    return name, sorted(labels.items()), thousandth


def exposition(agent, folder, step):
    """An exposition that the agent wrote of lines whose times are so many milliseconds apart, and its samples."""
    lines, right = openmetrics_lines(random.Random("hogzent expositions"), 1_790_000_000, step)
    ran = agent.run(folder, text_of(lines), "influx", "openmetrics")
    expect("lines refused, and ends", (ran.refused, ran.written.count(b"# EOF\n")), (0, 1))
    return ran.written, right


def dumped(line):
    """A sample of promtool's dump: `{__name__="cpu", site="a"} NUMBER MILLISECONDS`."""
    inside, number, thousandth = re.fullmatch(r"\{(.*)\} (\S+) (\d+)", line).groups()
    labels = {key: json.loads(value) for key, value in re.findall(r'(\w+)=("(?:[^"\\]|\\.)*")', inside)}
    return labels.pop("__name__"), labels, int(thousandth), float(number)


def check_promtool(agent, folder):
    """promtool makes blocks of what an OpenMetrics output wrote, and each sample stands in them."""
    command = needs("promtool", "prometheus")
    written, right = exposition(agent, folder, 250)
    source, blocks = write_file(folder, "exposition", written), os.path.join(folder, "blocks")
    # Where there is no log of what was written since, promtool shows no block.
    os.makedirs(os.path.join(blocks, "wal"))
    for words in (["create-blocks-from", "openmetrics", source, blocks], ["dump", blocks]):
        ran = subprocess.run([command, "tsdb", *words], capture_output=True, timeout=SECONDS, check=False)
        expect(f"promtool tsdb {words[0]}, status and fault", (ran.returncode, ran.stderr), (0, b""))
    said = sorted((dumped(line) for line in ran.stdout.decode().splitlines()), key=order)
    expect_all("samples", said, right)
    return f"promtool {version(command, '--version')}: {len(right)} samples, each as it was"


def check_client(agent, folder):
    """The Python client reads what an OpenMetrics output wrote, sample by sample. Times are whole seconds, since its
    version 0.16 takes 2.0 for earlier than 1.5."""
    try:
        from prometheus_client.openmetrics import parser
    except ImportError:
        raise LeftOut("there is no prometheus_client (Debian's package python3-prometheus-client)") from None
    written, right = exposition(agent, folder, 1000)
    families = list(parser.text_string_to_metric_families(written.decode()))
    expect("types", {family.type for family in families}, {"unknown"})
    said = [
        (it.name, it.labels, (it.timestamp.sec * BILLION + it.timestamp.nsec) // 1_000_000, float(it.value))
        for family in families for it in family.samples
    ]
    expect_all("samples", sorted(said, key=order), right)
    return f"prometheus_client {module_version('prometheus_client')}: {len(right)} samples, each as it was"


def influxd_lines(rng, begin):
    """Lines without unsigned numbers, and their points: by name, tags and time the fields."""
    lines, right = [], {}
    for at in range(500):
        name, site, nanoseconds = rng.choice(["cpu", "disk io,all"]), rng.choice(SITES), begin * BILLION + at
        whole, text = rng.randrange(-(2**63), 2**63), f'is "{rng.choice(SITES)}"'
        quoted = text.replace("\\", "\\\\").replace('"', '\\"')
        decimal = f"{rng.uniform(-1e5, 1e5):.9f}"
        fields = f'whole={whole}i,decimal={decimal},is_up={"true" if at % 2 else "false"},state="{quoted}"'
        lines.append(f"{escaped(name)},site={escaped(site)} {fields} {nanoseconds}")
        right[name, site, nanoseconds] = {
            "whole": whole, "decimal": billionths(decimal), "is_up": bool(at % 2), "state": text}
    return lines, right


def asked(port, path, words, body=None):
    """What influxd answers."""
    url = f"http://127.0.0.1:{port}/{path}?{urllib.parse.urlencode(words)}"
    with urllib.request.urlopen(urllib.request.Request(url, data=body), timeout=10) as answer:
        return answer.read()


def points(answer):
    """The points of an answer of influxd, as the lines' maker tells them."""
    said = {}
    for series in json.loads(answer, parse_float=str)["results"][0].get("series", []):
        for row in series["values"]:
            fields = dict(zip(series["columns"], row))
            fields["decimal"] = billionths(str(fields["decimal"]))
            said[series["name"], series["tags"]["site"], fields.pop("time")] = fields
    return said


def check_influxd(agent, folder):
    """influxd takes what a line-protocol output wrote, and gives back each field."""
    command, port = needs("influxd", "influxdb"), free_port()
    lines, right = influxd_lines(random.Random("hogzent points"), 1_790_000_000)
    ran = agent.run(folder, text_of(lines), "influx")
    expect("refused and gathered", (ran.refused, ran.gathered), (0, len(lines)))
    config = write_file(folder, "influxd.conf", INFLUXD.format(folder=folder, port=port, other=free_port()))
    with open(os.path.join(folder, "out"), "rb") as file:
        written = file.read()
    with running([command, "run", "-config", config], folder):
        wait_until("influxd answers", lambda: answers(port))
        asked(port, "query", {"q": "CREATE DATABASE checks"}, b"")
        asked(port, "write", {"db": "checks", "precision": "ns"}, written)
        query = {"db": "checks", "epoch": "ns", "q": "SELECT * FROM /.*/ GROUP BY *"}
        said = points(asked(port, "query", query))
    expect_all("points", sorted(said.items()), sorted(right.items()))
    return f"influxd {version(command, 'version')}: {len(right)} points of 4 fields, each as it was"
