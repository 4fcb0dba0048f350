"""Random configurations for same_inputs.py: files read as line protocol mostly, filters, processors and several outputs."""

import json

GLOBS = ["*", "cpu*", "?", "a", "v", "k[1-5]", "k?", "usage_*", "host", "region", "t1*", "f2?", "c_1", "time", "[!a-h]*", "[acu]*"]
PATTERNS = ["^(.)(.*)$", "x+", "[0-9]+", "^.*$", "(?P<first>.)x", "é|ß", "_", "$"]
REPLACEMENTS = ["${1}", "y", "", "${first}z", "${2}-${1}", "$"]
TARGETS = ["string", "integer", "unsigned", "boolean", "float"]
READ = ["influx"] * 9 + ["statsd", "graphite", "openmetrics"]
WRITTEN = ["influx", "influx", "graphite", "openmetrics"]


def globs(rng):
    return json.dumps([rng.choice(GLOBS) for _ in range(rng.choice([1, 1, 2, 3]))])


def filter_of(rng, often):
    """The keys of a filter, and behind them its tables."""
    keys = [f"{key} = {globs(rng)}" for key in (
        "namepass", "namedrop", "fieldinclude", "fieldexclude", "taginclude", "tagexclude") if rng.random() < often]
    return keys, [key for key in ("tagpass", "tagdrop") if rng.random() < often / 2]


def tables_of(rng, front, tables):
    lines = []
    for table in tables:
        lines += [f"[{front}.{table}]"]
        lines += [f"{json.dumps(key)} = {globs(rng)}" for key in rng.sample(["host", "region", "a", "cpu"], rng.choice([1, 2]))]
    return lines


def converter(rng):
    return [f"{part} = {{ {', '.join(f'{target} = {globs(rng)}' for target in rng.sample(targets, rng.choice([1, 2])))} }}"
            for part, targets in (("fields", TARGETS + ["tag"]), ("tags", TARGETS)) if rng.random() < 0.7]


def rename(rng):
    rules = []
    for _ in range(rng.choice([1, 2, 3])):
        part = rng.choice(["measurement", "tag", "field"])
        rules.append(f'{{ {part} = {json.dumps(rng.choice(GLOBS[3:]))}, dest = {json.dumps(rng.choice(["a", "host", "new", "v"]))} }}')
    return [f"replace = [{', '.join(rules)}]"]


def regex(rng):
    rules = []
    for _ in range(rng.choice([1, 2])):
        words = {"key": rng.choice(["host", "a", "v", "region", "k1"]), "pattern": rng.choice(PATTERNS),
                 "replacement": rng.choice(REPLACEMENTS)}
        if rng.random() < 0.4:
            words["result_key"] = rng.choice(["new", "host", "v"])
        rules.append("{ %s }" % ", ".join(f"{key} = {json.dumps(word, ensure_ascii=False)}" for key, word in words.items()))
    return [f"{rng.choice(['tags', 'fields'])} = [{', '.join(rules)}]"]


def dedup(rng):
    return [f'dedup_interval = "{rng.choice(["0s", "1ns", "10m", "8760h"])}"']


def plugin(rng, name, keys, often):
    listed, tables = filter_of(rng, often)
    return [f"[[{name}]]", *keys, *listed, *tables_of(rng, name, tables)]


def configuration(rng, sources, refusing):
    """A configuration that reads these places, and the places that it writes."""
    limit = rng.choice([1, 2, 3, 10, 100, 10000])
    lines = ["[agent]", f"metric_buffer_limit = {limit}", f"metric_batch_size = {rng.randint(1, min(limit, 50))}",
             f"gather_pieces = {rng.choice([1, 2, 3, 10, 1000])}", f"final_tries = {rng.choice([1, 2, 3])}"]
    if rng.random() < 0.3:
        lines += ["[global_tags]", 'region = "r"', 'dc = "berlin"']
    for source in sources:
        tracked = ["tracked = true"] if rng.random() < 0.2 else []
        lines += plugin(rng, "inputs.file", [f'files = ["{source}"]', f'data_format = "{rng.choice(READ)}"', *tracked], 0.1)
    for _ in range(rng.choice([0, 0, 1, 1, 2, 3])):
        kind, keys = rng.choice([("converter", converter), ("rename", rename), ("regex", regex), ("dedup", dedup)])
        lines += plugin(rng, f"processors.{kind}", [f"order = {rng.randrange(3)}", *keys(rng)], 0.1)
    written = [f"output{number}" for number in range(rng.choice([1, 1, 2, 3]))]
    for number, target in enumerate(written):
        place = "/dev/full" if refusing and number == 0 else target
        lines += plugin(rng, "outputs.file", [f'files = ["{place}"]', f'data_format = "{rng.choice(WRITTEN)}"'], 0.15)
    return "\n".join(lines) + "\n", written
