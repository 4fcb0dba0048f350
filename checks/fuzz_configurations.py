"""Compares what `check` reports of seeded configurations with a plain reading:

    fuzz_configurations.py COUNT SEED PROGRAM

A configuration is made of parts that are right or nearly so, and then changed at a few places. Where Python
takes it for TOML, `check` must report what plain_configuration.py says; where it doesn't, any line of a
report will do, since TOML 1.1 takes more than 1.0, which is what Python reads. The first ten differences are
printed, and how many texts had which answer.
"""

import json
import os
import random
import re
import subprocess
import sys
import tempfile
from collections import Counter

import format_graphite
import plain_configuration as plain

SHOWN = 10
REPORT = re.compile(r"ok|config: [A-Za-z]+ (root|agent|global_tags|inputs|processors|aggregators|outputs) [0-9]+")
GLOBS = ['"cpu*"', '"m?m"', '"[a-c]"', '"[a"', '"{a}"', '"[!x]"', '"[b-a]"', '"a\\\\"', "1", '""', '"é*"', '"[]"']
TIMES = ['"10s"', "10", '"1h30m.5s"', '"0.5ns0.5ns"', '"0.5ns"', "0", "9223372036", "9223372037", '"10"', "1.5",
         '""', '"1 s"', '"5.s"', '"1e3s"', "-1", "true"]
COUNTS = ["1", "10", "1000", "10000", "10001", "0", "-1", "1.0", '"1"', "true", "[]"]
GROUPS = ["1", "7", "99999", "100000", "100001", "0", "-1", "1.0", '"1"', "true", "[]"]
FORMATS = ['"influx"', '"influx"', '"graphite"', '"openmetrics"', '"statsd"', '"json"', '"Influx"', '""', "1"]
TEMPLATES = ["1"] + [json.dumps(it.decode(), ensure_ascii=False) for it in format_graphite.TEMPLATES]
GOOD_TEMPLATES = [json.dumps(it.decode(), ensure_ascii=False) for it in format_graphite.TEMPLATES
                  if format_graphite.is_template(it)]
PLACES = ['"a"', '"b"', '"c"', '"agent.journal"', '""', "1", '"stdin"', '"udp a 1000 100"']
PACKETS = ["1000", "1", "100000", "100001", "0", "-1", "1.0", '"1"', "true"]
QUIETS = ["100", "1", "1000000", "1000001", "0", "-1", "1.0", '"1"', "true"]


def a_list(chance, of):
    return "[" + ", ".join(chance.choice(of) for _ in range(chance.randrange(4))) + "]"


def key_of(chance, output):
    """A key of an input or output, with a value that mostly fits."""
    kind = chance.randrange(8)
    if kind <= 1:
        return chance.choice(sorted(plain.LISTS)), a_list(chance, GLOBS[:3] if chance.random() < 0.7 else GLOBS)
    if kind == 2:
        keys = chance.sample(["a", "host", '""', "b"], chance.randrange(1, 3))
        tables = ", ".join("%s = %s" % (key, a_list(chance, GLOBS[:3])) for key in keys)
        return chance.choice(["tagpass", "tagdrop"]), "{" + tables + "}"
    if kind == 3:
        return "alias", chance.choice(["1", '"x"', "[]"])
    if kind == 4:
        return "data_format", chance.choice(FORMATS[:4] if chance.random() < 0.7 else FORMATS)
    if output and chance.random() < 0.95:
        return chance.choice(["metric_batch_size", "metric_buffer_limit"]), chance.choice(COUNTS)
    return key_of_input(chance)


def key_of_input(chance):
    """A key that inputs alone have, with a value that mostly fits."""
    kind = chance.randrange(6)
    if kind <= 1:
        return "templates", a_list(chance, GOOD_TEMPLATES if chance.random() < 0.7 else TEMPLATES)
    if kind == 2:
        return "separator", chance.choice(['"."', '"_"', '""', '"::"', "1"])
    if kind == 3:
        return "tracked", chance.choice(["true", "false", "true", "false", "1", '"true"'])
    if kind == 4:
        return "max_undelivered_messages", chance.choice(GROUPS[:4] if chance.random() < 0.7 else GROUPS)
    return chance.choice(("type_tag", "pass_out_of_range")), chance.choice(["true", "false", "true", "false", '"true"'])


def server(chance):
    """The lines of an input that is a server."""
    keys = {}
    if chance.random() < 0.97:
        keys["service_address"] = chance.choice(PLACES[:2] if chance.random() < 0.9 else PLACES)
    for key, values in (("packets", PACKETS), ("quiet_limit", QUIETS)):
        if chance.random() < 0.3:
            keys[key] = chance.choice(values[:3] if chance.random() < 0.8 else values)
    if chance.random() < 0.3:
        key, value = key_of(chance, False)
        keys[key] = value
    head = "[[inputs.statsd]]" if chance.random() < 0.9 else "[inputs.statsd]"
    return [head] + ["%s = %s" % it for it in keys.items()]


def plugin(chance, word):
    """The lines of a plugin."""
    if word == "inputs" and chance.random() < 0.2:
        return server(chance)
    kind = chance.choices(["file", "files", "cpu"], [30, 1, 1])[0]
    head = "[[%s.%s]]" % (word, kind) if chance.random() < 0.9 else "[%s.%s]" % (word, kind)
    keys = {}
    if chance.random() < 0.97:
        keys["files"] = "[" + chance.choice(PLACES[:3] if chance.random() < 0.9 else PLACES) + "]"
    for _ in range(chance.randrange(3)):
        key, value = key_of(chance, word == "outputs")
        keys[key] = value
    if chance.random() < 0.03:
        keys["zz"] = "1"
    return [head] + ["%s = %s" % it for it in keys.items()]


def table(chance, keys):
    """An inline table of some of the keys, each with a value of a list."""
    picked = chance.sample(sorted(keys), chance.randrange(len(keys) + 1)) if chance.random() < 0.3 else sorted(keys)
    return "{" + ", ".join("%s = %s" % (key, chance.choice(keys[key])) for key in picked) + "}"


def tables(chance, keys):
    items = [table(chance, keys) for _ in range(chance.randrange(3))]
    if chance.random() < 0.05:
        items.append("1")
    return "[" + ", ".join(items) + "]"


def processor(chance):
    """The lines of a processor."""
    kind = chance.choices([*plain.PROCESSORS, "starlark"], [8, 8, 8, 8, 1])[0]
    keys = {}
    if chance.random() < 0.3:
        keys["order"] = chance.choice(["0", "-5", "3", "3", '"1"', "1.0"])
    if chance.random() < 0.3:
        keys["namepass"] = a_list(chance, GLOBS[:3] if chance.random() < 0.7 else GLOBS)
    if kind == "dedup" and chance.random() < 0.8:
        keys["dedup_interval"] = chance.choice(TIMES)
    if kind == "converter":
        lists = [a_list(chance, GLOBS[:3] if chance.random() < 0.8 else GLOBS) for _ in range(3)]
        for key in chance.sample(["fields", "tags"], chance.randrange(3)):
            types = chance.sample(["string", "integer", "unsigned", "boolean", "float", "tag"], chance.randrange(3))
            keys[key] = table(chance, {name: lists for name in types}) if types else "{}"
    if kind == "regex":
        texts = ['"a"', '"b"', '""', "1"] if chance.random() < 0.2 else ['"a"', '"b"']
        patterns = [json.dumps(it) for it, right in plain.PATTERNS.items() if right or chance.random() < 0.1]
        rule = {"key": texts, "pattern": patterns, "replacement": ['"$1"', '""'], "result_key": ['""', '"c"']}
        for key in chance.sample(["fields", "tags"], chance.randrange(3)):
            keys[key] = tables(chance, rule)
    if kind == "rename":
        texts = ['"a"', '"b"', '""'] if chance.random() < 0.2 else ['"a"', '"b"']
        sources = chance.sample(plain.SOURCES, chance.choices([1, 0, 2], [20, 1, 1])[0])
        keys["replace"] = tables(chance, {key: texts for key in (*sources, "dest")})
    if chance.random() < 0.03:
        keys["files"] = '["a"]'
    return ["[[processors.%s]]" % kind] + ["%s = %s" % it for it in keys.items()]


def aggregator(chance):
    """The lines of an aggregator."""
    kind = chance.choices([*plain.AGGREGATORS, "histogram"], [8, 8, 8, 8, 1])[0]
    keys = {}
    for key in chance.sample(["period", "delay", "grace"], chance.randrange(4)):
        keys[key] = chance.choice(TIMES)
    if chance.random() < 0.3:
        keys["drop_original"] = chance.choice(["true", "false", "true", "false", "1"])
    if chance.random() < 0.3:
        keys["namepass"] = a_list(chance, GLOBS[:3] if chance.random() < 0.7 else GLOBS)
    if kind == "basicstats" and chance.random() < 0.7:
        names = ['"%s"' % it for it in plain.STATISTICS] + (['"mean"', "1"] if chance.random() < 0.2 else [])
        keys["stats"] = "[" + ", ".join(chance.choices(names, k=chance.randrange(4))) + "]"
    if kind == "final" and chance.random() < 0.7:
        keys["series_timeout"] = chance.choice(TIMES)
    if chance.random() < 0.03:
        keys["order"] = "1"
    return ["[[aggregators.%s]]" % kind] + ["%s = %s" % it for it in keys.items()]


def agent(chance):
    """The lines of the table `agent`."""
    keys = {}
    for _ in range(chance.randrange(4)):
        key = chance.choice(["metric_batch_size", "metric_buffer_limit", "gather_pieces", "final_tries"])
        keys[key] = chance.choice(COUNTS[:4] if chance.random() < 0.8 else COUNTS)
    if chance.random() < 0.3:
        keys["flush_interval"] = chance.choice(TIMES)
    if chance.random() < 0.2:
        keys["journal"] = chance.choice(PLACES)
    if chance.random() < 0.2:
        keys[chance.choice(sorted(plain.ANY))] = chance.choice(["1", '"x"', "[]"])
    if chance.random() < 0.1:
        keys["workers"] = chance.choice(["true", "false", "1"])
    if chance.random() < 0.1:
        keys["skip_processors_after_aggregators"] = chance.choice(["true", "false", "1"])
    return ["[agent]"] + ["%s = %s" % it for it in keys.items()]


def made(chance):
    """A configuration that is right, or nearly so."""
    parts = [plugin(chance, "inputs") for _ in range(chance.choice([1, 1, 1, 2, 0, 17]))]
    parts += [plugin(chance, "outputs") for _ in range(chance.choice([1, 1, 1, 2, 0]))]
    if chance.random() < 0.5:
        parts.append(agent(chance))
    if chance.random() < 0.3:
        tags = ["%s = %s" % (key, chance.choice(['"x"', '""', "1"])) for key in chance.sample(["dc", '""', "é"], 1)]
        parts.append(["[global_tags]"] + tags)
    parts += [processor(chance) for _ in range(chance.choice([0, 0, 1, 2]))]
    parts += [aggregator(chance) for _ in range(chance.choice([0, 0, 1, 2]))]
    if chance.random() < 0.03:
        parts.insert(0, ["zz = 1"])
    chance.shuffle(parts)
    return "".join(line + "\n" for part in parts for line in part).encode()


def changed(chance, text):
    """The text with a few changes at random places."""
    text = bytearray(text)
    for _ in range(chance.choice([0, 0, 1, 1, 2, 5])):
        at = chance.randrange(len(text) + 1)
        kind = chance.randrange(4)
        if kind == 0:
            del text[at : at + chance.choice([1, 1, 5])]
        elif kind == 1:
            text[at:at] = text[at : at + chance.choice([1, 8])]
        elif kind == 2:
            text[at:at] = chance.choice([b"[", b"]", b'"', b"=", b"\n", b"#", b".", b"{", b"0", b"\\", b"\xff", b"\0", b"_"])
        elif at < len(text):
            text[at] = chance.randrange(256)
    return bytes(text)


def main():
    number, seed, program = int(sys.argv[1]), sys.argv[2], os.path.abspath(sys.argv[3])
    chance = random.Random(seed)
    answers, differences = Counter(), 0
    with tempfile.TemporaryDirectory() as folder:
        name = os.path.join(folder, "agent.toml")
        for _ in range(number):
            text = changed(chance, made(chance))
            with open(name, "wb") as file:
                file.write(text)
            ran = subprocess.run([program, "check", name], capture_output=True, check=False, cwd=folder)
            said = ran.stdout.decode(errors="replace").removesuffix("\n")
            fits = REPORT.fullmatch(said) and ran.returncode == (0 if said == "ok" else 3)
            try:
                wanted = plain.answer(text)
                answers[wanted] += 1
                fits = fits and said == wanted
            except plain.Unsure:
                wanted = "any report"
                answers["no TOML 1.0, and reported as " + ("NotToml" if "NotToml" in said else "else")] += 1
            if not fits:
                differences += 1
                if differences <= SHOWN:
                    print("%r: status %d, %r, but %s" % (text, ran.returncode, said, wanted))
    for said, times in sorted(answers.items(), key=lambda it: -it[1]):
        print("%6d  %s" % (times, said))
    print("%d configurations, %d differences" % (number, differences))
    sys.exit(1 if differences else 0)


main()
