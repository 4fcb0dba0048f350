"""Cases of edge_cases.py in which a configuration is checked, or run, over real files, links and devices."""

import os
import shutil
import subprocess

from edge_kit import (
    ACCOUNT,
    DROPPED,
    FOLDER,
    JOURNAL,
    LINES,
    MISSING,
    NOTHING,
    OLD,
    READ_FAULT,
    REFUSED,
    SECONDS,
    UNREAD,
    Case,
    Folder,
    Holding,
    Link,
    differences,
    open_fault,
    refused,
    without_times,
)

SOUND = b"[[inputs.file]]\nfiles = [\"a\"]\n[[outputs.file]]\nfiles = [\"b\"]\n"
INPUT = b'[[inputs.file]]\nfiles = ["a"]\n'
MISSPELLED = b"[agent]\nmetric_bufer_limit = 5\n"


def checked(name, line, before=None, **others):
    """A case in which a configuration is checked: no file changes."""
    return Case(name, line, {"c": SOUND} if before is None else before, **{"report": b"ok\n", **others})


def faulty(name, text, report, told):
    """A case in which a configuration has a fault, which is reported, and told in plain words."""
    return checked(name, "hogzent check c", {"c": text}, status=3, report=b"config: %b\n" % report, told=b"hogzent: c: " + told)


CHECKS = [
    checked("a configuration is checked", "hogzent check c"),
    checked("a configuration at standard input", "hogzent check stdin < c"),
    faulty(
        "a key that there isn't",
        MISSPELLED,
        b"UnknownKey agent 0",
        b"[agent]: metric_bufer_limit: there is no such key\n"
        b"hogzent: c: there is no input: [[inputs.file]] with files\n"
        b"hogzent: c: there is no output: [[outputs.file]] with files\n",
    ),
    faulty(
        "a configuration without an output",
        INPUT,
        b"NoOutput root 0",
        b"there is no output: [[outputs.file]] with files\n",
    ),
    checked(
        "the faults of a configuration at standard input are said as those of a file",
        "hogzent check stdin < c",
        {"c": INPUT},
        status=3,
        report=b"config: NoOutput root 0\n",
        told=b"hogzent: stdin: there is no output: [[outputs.file]] with files\n",
    ),
    checked(
        "a configuration without an end",
        "hogzent check /dev/zero",
        status=3,
        report=b"config: NotToml root 0\n",
        told=b"hogzent: /dev/zero: the text is above 1 MiB (1,048,576 bytes)\n",
    ),
    checked(
        "a configuration whose reads fail",
        "hogzent check /proc/self/mem",
        status=4,
        report=b"fault: read /proc/self/mem\n",
        told=b"hogzent: the configuration could not be read\n",
    ),
    checked(
        "a configuration that is a folder",
        "hogzent check c",
        {"c": Folder()},
        status=5,
        report=open_fault("c"),
        told=b"hogzent: the configuration could not be opened: %b\n" % FOLDER,
    ),
    checked(
        "a configuration that isn't there",
        "hogzent check nowhere",
        status=5,
        report=open_fault("nowhere"),
        told=b"hogzent: the configuration could not be opened: %b\n" % MISSING,
    ),
    checked(
        "a check whose report can't be written",
        "hogzent check c > /dev/full",
        status=7,
        report=b"",
        told=b"hogzent: the report could not be written whole\n",
    ),
]


def configured(inputs=("in",), outputs=("out",), agent=""):
    """A configuration of these places, with these lines of `agent`."""
    text = f"[agent]\n{agent}\n"
    text += "".join(f'[[inputs.file]]\nfiles = ["{place}"]\n' for place in inputs)
    text += "".join(f'[[outputs.file]]\nfiles = ["{place}"]\n' for place in outputs)
    return text.encode()


def laid(config, **others):
    """What lies in a folder: the configuration, an input, and other files."""
    return {"c": config, "in": LINES, **others}


OWN_SIZES = (b"output 0 10 100\n", b"output 0 1000 10000\n")
RUN_JOURNAL = JOURNAL.replace(*OWN_SIZES)
TWO_JOURNAL = (
    RUN_JOURNAL.replace(OWN_SIZES[1], OWN_SIZES[1] + b"output 1 1000 10000\n")
    .replace(b"passes / =\n", b"passes / = =\n")
    .replace(b"done 0 ok\n", b"done 0 ok\nbegin 1 0 2\ndone 1 ok\n")
    .replace(b"dropped 0\n", b"dropped 0\noutput 1 filtered 0 late 0 consumed 0 written 2 buffered 0 dropped 0\n")
    .replace(b"end 9\n", b"end 11\n")
)
TWO_ACCOUNT = ACCOUNT + b"output 1 filtered 0 late 0 consumed 0 written 2 buffered 0 dropped 0\n"
OWN_LINES = NOTHING.replace(b"pieces 0 refused 0", b"pieces 6 refused 5")
UNREADABLE = "/proc/self/mem"

LOSING = (
    configured(("in", "in2"))
    + b'[[outputs.file]]\nfiles = ["out2"]\nmetric_batch_size = 4\nmetric_buffer_limit = 4\n'
)
FOUR_LINES = b"mem u=1u 7\nmem u=2u 8\nmem u=3u 9\nmem u=4u 10\n"
LOSING_ACCOUNT = b"""input 0 pieces 3 refused 1 passed 0 filtered 0 gathered 2 ended
input 1 pieces 4 refused 0 passed 0 filtered 0 gathered 4 ended
items made 0 removed 0 routed 6
output 0 filtered 0 late 0 consumed 0 written 6 buffered 0 dropped 0
output 1 filtered 0 late 0 consumed 0 written 4 buffered 0 dropped 2
"""
EXPOSITIONS = configured(("stdin",)).replace(b'["stdin"]', b'["stdin"]\ndata_format = "openmetrics"')

# Two aggregators that keep what they take, by the clock that there is: one reaches back to 1970, one doesn't.
AGGREGATED = b"""[[inputs.file]]
files = ["in"]
[[aggregators.final]]
period = "1h"
drop_original = true
namepass = ["e"]
[[aggregators.merge]]
period = "1h"
grace = "510000h"
drop_original = true
namepass = ["c"]
[[outputs.file]]
files = ["out"]
"""
AGGREGATED_ACCOUNT = b"""input 0 pieces 4 refused 0 passed 0 filtered 0 gathered 4 ended
items made 1 removed 0 routed 5
output 0 filtered 0 late 1 consumed 2 written 2 buffered 0 dropped 0
"""

RUNS_WELL = [
    Case(
        "metrics are aggregated",
        "hogzent run c && rm agent.journal",
        {"c": AGGREGATED, "in": b"c a=1i 5\nd v=3i 6\ne v=1i 5\nc b=2i 5\n"},
        {"out": b"d v=3i 6\nc a=1i,b=2i 5\n"},
        report=AGGREGATED_ACCOUNT,
        told=b"hogzent: 1 metric late, and sent to no output: outside the open window of an aggregator with drop_original\n",
    ),
    Case(
        "what was refused and dropped is told with its place",
        "hogzent run c && rm agent.journal",
        {"c": LOSING, "in": LINES + b"no line protocol\n", "in2": FOUR_LINES},
        {"out": LINES + FOUR_LINES, "out2": FOUR_LINES},
        report=LOSING_ACCOUNT,
        told=REFUSED % (b"in", 1, 3, 3, b", at byte 3: BadKey: no line protocol")
        + DROPPED % (1, b"out2", b"2 metrics", 4),
    ),
    Case(
        "what was passed over is told, and the line of an exposition that is refused",
        "cat in | hogzent run c && rm agent.journal",
        {"c": EXPOSITIONS, "in": b'a 1 1\na{b="c"} NaN\nb 2 1\nc +Inf\n# EOF\n# TYPE a gauge\na 1e30\n# EOF\n'},
        {"out": b"a value=1 1000000000\nb value=2 1000000000\n"},
        report=ACCOUNT.replace(b"refused 0 passed 0", b"refused 1 passed 2"),
        told=REFUSED
        % (
            b"stdin",
            1,
            2,
            2,
            rb", line 2, at byte 15: NumberRange: # TYPE a gauge\x0aa 1e30\x0a# EOF\x0a"
            b"; pass_out_of_range = true passes such samples over",
        )
        + b"hogzent: input 0 (stdin): 2 of 4 samples passed over, as they have no finite value\n",
    ),
    Case(
        "a configuration is run",
        "hogzent run c",
        laid(configured()),
        {"out": LINES, "agent.journal": RUN_JOURNAL},
    ),
    Case(
        "a configuration at standard input is run",
        "hogzent run stdin < c",
        laid(configured()),
        {"out": LINES, "agent.journal": RUN_JOURNAL},
    ),
    Case(
        "two outputs, and files that were there are made new",
        "hogzent run c",
        laid(configured(outputs=("out", "out2")), out=OLD, **{"agent.journal": OLD}),
        {"out": LINES, "out2": LINES, "agent.journal": TWO_JOURNAL},
        report=TWO_ACCOUNT,
    ),
    Case(
        "the journal goes to standard output",
        "hogzent run c",
        laid(configured(agent='journal = "stdout"')),
        {"out": LINES},
        report=RUN_JOURNAL + ACCOUNT,
    ),
    Case(
        "an input that is the configuration has nothing left",
        "hogzent run c && rm agent.journal",
        laid(configured(inputs=("c",))),
        {"out": b""},
        report=NOTHING,
    ),
    Case(
        "an input that is the configuration, by another name, has all its bytes",
        "hogzent run c && rm agent.journal",
        laid(configured(inputs=("./c",))),
        {"out": b""},
        report=OWN_LINES,
        told=REFUSED % (b"./c", 5, 6, 1, b", at byte 7: NoFields: [agent]"),
    ),
]

# An output or the journal that is a file which is open already, the configuration's among them: each file is as it was.
REFUSED_BY_PLACES = [
    refused("the configuration as an output", "hogzent run c", "c", laid(configured(outputs=("c",)))),
    refused(
        "the configuration as an output, by a hard link",
        "hogzent run c",
        "d",
        laid(configured(outputs=("d",)), d=Link("c", is_hard=True)),
    ),
    refused(
        "the configuration as an output, by a symbolic link",
        "hogzent run c",
        "d",
        laid(configured(outputs=("d",)), d=Link("c")),
    ),
    refused("the configuration as the journal", "hogzent run c", "c", laid(configured(agent='journal = "c"'), out=OLD)),
    refused("an input as an output", "hogzent run c", "in", laid(configured(outputs=("in",)))),
    refused(
        "an input as an output, by a hard link",
        "hogzent run c",
        "out",
        laid(configured(), out=Link("in", is_hard=True)),
    ),
    refused("an input as an output, by a symbolic link", "hogzent run c", "out", laid(configured(), out=Link("in"))),
    refused(
        "an input as the journal",
        "hogzent run c",
        "in",
        laid(configured(agent='journal = "in"'), out=OLD),
    ),
    refused(
        "an output as the journal, by a hard link",
        "hogzent run c",
        "agent.journal",
        laid(configured(), out=OLD, **{"agent.journal": Link("out", is_hard=True)}),
    ),
    refused(
        "an output as the journal, by a symbolic link",
        "hogzent run c",
        "agent.journal",
        laid(configured(), out=OLD, **{"agent.journal": Link("out")}),
    ),
    refused(
        "an output as another, by a symbolic link",
        "hogzent run c",
        "out2",
        laid(configured(outputs=("out", "out2")), out=OLD, out2=Link("out")),
    ),
    refused(
        "an output that can't be opened, behind one that can",
        "hogzent run c",
        ".",
        laid(configured(outputs=("out", ".")), out=OLD),
        FOLDER,
    ),
    refused(
        "an input that isn't there, behind one that is",
        "hogzent run c",
        "nowhere",
        laid(configured(inputs=("in", "nowhere")), out=OLD),
        MISSING,
    ),
    Case(
        "an output as the journal, by its name",
        "hogzent run c",
        laid(configured(agent='journal = "out"'), out=OLD),
        status=3,
        report=b"config: SamePlace outputs 0\n",
        told=b"hogzent: c: [[outputs.file]]: files: the journal has this place\n",
    ),
]

# An input of two lines, each a group, of which one may be undelivered.
HELD_BACK = b"""[agent]
gather_pieces = 1
flush_interval = "10ms"
[[inputs.file]]
files = ["in"]
tracked = true
max_undelivered_messages = 1
[[outputs.file]]
files = ["/dev/full"]
"""

FAULTS = [
    Case(
        "a configuration with a fault isn't run",
        "hogzent run c",
        laid(MISSPELLED, out=OLD),
        status=3,
        report=b"config: UnknownKey agent 0\n",
        told=b"hogzent: c: [agent]: metric_bufer_limit: there is no such key\n"
        b"hogzent: c: there is no input: [[inputs.file]] with files\n"
        b"hogzent: c: there is no output: [[outputs.file]] with files\n",
    ),
    refused("a configuration that is a folder isn't run", "hogzent run c", "c", {"c": Folder()}, FOLDER),
    refused("a configuration that isn't there isn't run", "hogzent run nowhere", "nowhere", {}, MISSING),
    Case(
        "a configuration whose reads fail isn't run",
        f"hogzent run {UNREADABLE}",
        status=4,
        report=b"fault: read /proc/self/mem\n",
        told=b"hogzent: the configuration could not be read\n",
    ),
    Case(
        "an input of a run whose reads fail",
        "hogzent run c; status=$?; rm agent.journal; exit $status",
        laid(configured(inputs=(UNREADABLE,)), out=OLD),
        {"out": b""},
        status=4,
        report=UNREAD,
        told=READ_FAULT % (0, UNREADABLE.encode()),
    ),
    refused("a folder as an input of a run", "hogzent run c", ".", laid(configured(inputs=(".",)), out=OLD), FOLDER),
    Case(
        "an output of a run that takes nothing",
        "hogzent run c; status=$?; rm agent.journal; exit $status",
        laid(configured(outputs=("/dev/full",), agent="final_tries = 1")),
        status=6,
        report=ACCOUNT.replace(b"written 2 buffered 0", b"written 0 buffered 2"),
        told=b"hogzent: output 0 (/dev/full): 2 metrics left after 1 failed try\n",
    ),
    Case(
        "a tracked input is held back to the end by an output that takes nothing",
        "timeout 5 hogzent run c; status=$?; rm agent.journal; exit $status",
        laid(HELD_BACK),
        status=6,
        report=b"input 0 pieces 1 refused 0 passed 0 filtered 0 gathered 1 unread\n"
        b"groups 0 delivered 0 rejected 0 undelivered 1\n"
        b"items made 0 removed 0 routed 1\n"
        b"output 0 filtered 0 late 0 consumed 0 written 0 buffered 1 dropped 0\n",
        told=b"hogzent: input 0 (in): max_undelivered_messages of its groups were undelivered to the end, so no more was "
        b"gathered; it was not read to its end\n"
        b"hogzent: output 0 (/dev/full): 1 metric left after 3 failed tries\n",
    ),
]

# Two inputs, a processor, an aggregator and three outputs.
EXAMPLE = b"""[global_tags]
dc = "x"
[agent]
interval = "10s"
metric_batch_size = 1000
metric_buffer_limit = 10000
collection_jitter = "0s"
workers = false
[[inputs.file]]
files = ["cpu.in"]
tracked = true
[[inputs.file]]
files = ["web.in"]
data_format = "statsd"
[[processors.rename]]
[[processors.rename.replace]]
tag = "host"
dest = "node"
[[aggregators.minmax]]
period = "10s"
delay = "0s"
drop_original = true
namepass = ["cpu"]
[[outputs.file]]
files = ["a.out"]
[[outputs.file]]
files = ["b.out"]
data_format = "graphite"
namedrop = ["cpu"]
[[outputs.file]]
files = ["c.out"]
data_format = "openmetrics"
namepass = ["cpu"]
"""

GENERATED = [
    Case(
        "generated lines, where the input isn't there",
        "hogzent gen 3 c && rm agent.journal",
        laid(configured(inputs=("nowhere",))),
        {"out": b"cpu,host=h0 v=0i 0\ncpu,host=h1 v=919i 1000000\ncpu,host=h2 v=838i 2000000\n"},
        report=ACCOUNT.replace(b" 2", b" 3"),
    ),
    Case(
        "a hundred thousand generated lines through an aggregator to three outputs",
        "hogzent gen 100000 c && rm agent.journal a.out b.out c.out",
        {"c": EXAMPLE},
        report=b"input 0 pieces 100000 refused 0 passed 0 filtered 0 gathered 100000 ended\n"
        b"input 1 pieces 0 refused 0 passed 0 filtered 0 gathered 0 ended\n"
        b"groups 0 delivered 100 rejected 0 undelivered 0\n"
        b"items made 100 removed 0 routed 100100\n"
        b"output 0 filtered 0 late 0 consumed 100000 written 100 buffered 0 dropped 0\n"
        b"output 1 filtered 100 late 0 consumed 100000 written 0 buffered 0 dropped 0\n"
        b"output 2 filtered 0 late 0 consumed 100000 written 100 buffered 0 dropped 0\n",
    ),
    refused("generated lines to a folder", "hogzent gen 3 c", ".", laid(configured(outputs=(".",))), FOLDER),
]

CONFIGURED = [*RUNS_WELL, *REFUSED_BY_PLACES, *FAULTS, *GENERATED]

# The example of docs/users/configuration.md with all four formats, and its inputs.
DATA = os.path.join(os.path.dirname(os.path.realpath(__file__)), "..", "crates", "agent_main", "data")
FORMAT_FILES = ["formats.toml", "cpu.lp", "counts.statsd", "paths.graphite", "node.om"]
FORMATS_WRITTEN = {
    "metrics.lp": b"""cpu,host=a v=1i 5
hits,metric_type=counter value=30 NOW
cpu_load,host=h1,region=eu-east value=42 1000000000
mem_free value=7 2000000000
up,job=node,om_type=gauge value=1 3000000000
""",
    "metrics.graphite": b"""a.cpu.v 1 0
counter.hits 30 NOW
h1.eu-east.cpu_load 42 1
mem_free 7 2
node.gauge.up 1 3
""",
    "metrics.om": b"""# TYPE cpu_v unknown
cpu_v{host="a"} 1 0.000000005
# TYPE hits unknown
hits{metric_type="counter"} 30 NOW
# TYPE cpu_load unknown
cpu_load{host="h1",region="eu-east"} 42 1
# TYPE mem_free unknown
mem_free 7 2
# TYPE up unknown
up{job="node",om_type="gauge"} 1 3
# EOF
""",
}
FORMATS_ACCOUNT = b"".join(
    b"input %d pieces %d refused 0 passed 0 filtered 0 gathered %d ended\n" % (number, count, count)
    for number, count in enumerate([1, 1, 2, 1])
) + b"items made 0 removed 0 routed 5\n" + b"".join(
    b"output %d filtered 0 late 0 consumed 0 written 5 buffered 0 dropped 0\n" % number for number in range(3)
)


def formats_of_the_page(folder, program):
    """Each format is read and written; what has no time gets that of the run, as seconds or nanoseconds since 1970."""
    for name in FORMAT_FILES:
        shutil.copy(os.path.join(DATA, name), folder)
    with open(os.path.join(folder, "paths.graphite"), "rb") as paths:
        ran = subprocess.run(
            [program, "run", "formats.toml"],
            cwd=folder,
            stdin=paths,
            capture_output=True,
            timeout=SECONDS,
            check=False,
        )
    written = {}
    for name in FORMATS_WRITTEN:
        with open(os.path.join(folder, name), "rb") as file:
            written[name] = without_times(file.read())
    return differences(
        ("status", ran.returncode, 0),
        ("standard output", ran.stdout, FORMATS_ACCOUNT),
        ("standard error", ran.stderr, b""),
        ("outputs", written, FORMATS_WRITTEN),
    )


CONFIGURED_RUNS = [("the example with all four formats", formats_of_the_page)]
