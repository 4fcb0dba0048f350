"""A plain reading of configurations, by docs/users/configuration.md and docs/users/formats.md alone: the first fault of a text."""

import re
import tomllib
from fractions import Fraction

from format_graphite import is_template

LONGEST = 1_048_576
LEAST_INT, GREATEST_INT = -(2**63), 2**63 - 1
CLASSES = ("inputs", "processors", "aggregators", "outputs")
ANY = {
    "interval", "collection_jitter", "flush_jitter", "round_interval", "precision", "hostname",
    "omit_hostname", "debug", "quiet", "logfile",
}
LISTS = {
    "namepass", "namedrop", "fieldinclude", "fieldexclude", "fieldpass", "fielddrop", "taginclude",
    "tagexclude",
}
IN_FORMATS = {"influx", "statsd", "graphite", "openmetrics"}
OUT_FORMATS = {"influx", "graphite", "openmetrics"}
UNITS = {"ns": 1, "us": 10**3, "ms": 10**6, "s": 10**9, "m": 60 * 10**9, "h": 3_600 * 10**9}
PAIR = re.compile(r"([0-9]+\.?[0-9]*|\.[0-9]+)(ns|us|ms|s|m|h)")


class Unsure(Exception):
    """Python's TOML doesn't say what TOML 1.1 says of the text."""


def in_order(table):
    """The keys and values of a table, in order of bytes."""
    return sorted(table.items(), key=lambda it: it[0].encode())


def is_int(value):
    return isinstance(value, int) and not isinstance(value, bool)


def is_glob(text):
    """Is a text a glob?"""
    at = 0
    while at < len(text):
        char = text[at]
        if char in "{}":
            return False
        if char == "\\":
            at += 1
            if at == len(text):
                return False
        elif char == "[":
            at = set_end(text, at + 1)
            if at is None:
                return False
            continue
        at += 1
    return True


def set_end(text, at):
    """Where what follows a set begins; None where it is no set."""
    if text[at : at + 1] == "!":
        at += 1
    members = []
    while True:
        if at == len(text):
            return None
        char = text[at]
        at += 1
        if char == "]":
            break
        if char in "{}":
            return None
        if char == "\\":
            if at == len(text):
                return None
            members.append((text[at], False))
            at += 1
        else:
            members.append((char, char == "-"))
    if not members:
        return None
    place = 0
    while place < len(members):
        low = members[place][0]
        if place + 2 < len(members) and members[place + 1][1]:
            if members[place + 2][0] < low:
                return None
            place += 3
        else:
            place += 1
    return at


def count(most):
    return lambda value: ("WrongType" if not is_int(value) else None if 1 <= value <= most else "OutOfRange")


def truth(value):
    return None if isinstance(value, bool) else "WrongType"


def place(value):
    return "WrongType" if not isinstance(value, str) else None if value else "OutOfRange"


def format_name(names):
    return lambda value: ("WrongType" if not isinstance(value, str) else None if value in names else "OutOfRange")


def any_text(value):
    return None if isinstance(value, str) else "WrongType"


def are_texts(value):
    return isinstance(value, list) and all(isinstance(it, str) for it in value)


def files(value):
    if not are_texts(value):
        return "WrongType"
    return None if len(value) == 1 and value[0] else "OutOfRange"


def globs(value):
    if not are_texts(value):
        return "WrongType"
    return next(("BadGlob" for it in value if not is_glob(it)), None)


def templates(value):
    if not are_texts(value):
        return "WrongType"
    return next(("BadTemplate" for it in value if not is_template(it.encode())), None)


def tag_globs(value):
    if not isinstance(value, dict):
        return "WrongType"
    for key, listed in in_order(value):
        if not are_texts(listed):
            return "WrongType"
        if not key:
            return "OutOfRange"
        if globs(listed):
            return "BadGlob"
    return None


def time_from(least):
    return lambda value: time(value, least)


def time(value, least=1):
    if is_int(value):
        sum_of = Fraction(value * 10**9)
    elif isinstance(value, str):
        if not value or PAIR.sub("", value) or not all_pairs(value):
            return "OutOfRange"
        sum_of = sum(Fraction(decimal(number)) * UNITS[unit] for number, unit in PAIR.findall(value))
    else:
        return "WrongType"
    return None if sum_of.denominator == 1 and least <= sum_of <= GREATEST_INT else "OutOfRange"


def all_pairs(text):
    at = 0
    while at < len(text):
        pair = PAIR.match(text, at)
        if not pair:
            return False
        at = pair.end()
    return True


def decimal(text):
    """A decimal with digits on both sides of its point."""
    return ("0" + text).rstrip(".") if "." in text else text


def whole(value):
    return None if is_int(value) else "WrongType"


def pattern(value):
    if not isinstance(value, str):
        return "WrongType"
    if value not in PATTERNS:
        raise Unsure
    return None if PATTERNS[value] else "BadPattern"


def inner(keys, value, needed=(), sources=()):
    """The first fault of a table in the value of a key: of its keys, then that it lacks some."""
    fault = key_fault(keys, value)
    if fault:
        return fault
    if sources and sum(key in value for key in sources) != 1:
        return "Missing"
    return next(("Missing" for key in needed if key not in value), None)


def table_of(keys):
    return lambda value: inner(keys, value) if isinstance(value, dict) else "WrongType"


def tables_of(keys, needed, sources=()):
    def fault_in(value):
        if not isinstance(value, list) or not all(isinstance(it, dict) for it in value):
            return "WrongType"
        return next((it for it in (inner(keys, table, needed, sources) for table in value) if it), None)

    return fault_in


# Texts by whether Rust's regex takes them as patterns.
PATTERNS = {
    "": True, "a": True, "^/v(\\d+)/.*$": True, "[a-c]+": True, "(?i)x|y": True, "a{2,3}": True, "(?P<n>.)": True,
    "(": False, ")": False, "[": False, "*": False, "a{3,2}": False, "(?=a)": False, "\\1": False, "[b-a]": False,
}
AGENT = {
    "metric_batch_size": count(10_000),
    "metric_buffer_limit": count(10_000),
    "flush_interval": time,
    "gather_pieces": count(10_000),
    "final_tries": count(100),
    "workers": truth,
    "skip_processors_after_aggregators": truth,
    "journal": place,
} | {key: lambda value: None for key in ANY}
PLUGIN = {
    "files": files,
    "alias": lambda value: None,
    "tagpass": tag_globs,
    "tagdrop": tag_globs,
} | {key: globs for key in LISTS}
TRACKING = {"tracked": truth, "max_undelivered_messages": count(100_000)}
INPUT = PLUGIN | TRACKING | {
    "data_format": format_name(IN_FORMATS),
    "templates": templates,
    "separator": any_text,
    "type_tag": truth,
    "pass_out_of_range": truth,
}
SERVER = {key: fault for key, fault in PLUGIN.items() if key != "files"} | TRACKING | {
    "service_address": place,
    "packets": count(100_000),
    "quiet_limit": count(1_000_000),
}
OUTPUT = PLUGIN | {
    "data_format": format_name(OUT_FORMATS),
    "metric_batch_size": count(10_000),
    "metric_buffer_limit": count(10_000),
}


PROCESSOR = {key: fault for key, fault in PLUGIN.items() if key != "files"} | {"order": whole}
TYPES = {key: globs for key in ("string", "integer", "unsigned", "boolean", "float")}
REWRITING = tables_of(
    {"key": place, "pattern": pattern, "replacement": any_text, "result_key": any_text},
    ("key", "pattern", "replacement"),
)
SOURCES = ("measurement", "tag", "field")
REPLACEMENTS = tables_of({key: place for key in (*SOURCES, "dest")}, ("dest",), SOURCES)
PROCESSORS = {
    "converter": PROCESSOR | {"fields": table_of(TYPES | {"tag": globs}), "tags": table_of(TYPES)},
    "dedup": PROCESSOR | {"dedup_interval": time_from(0)},
    "regex": PROCESSOR | {"fields": REWRITING, "tags": REWRITING},
    "rename": PROCESSOR | {"replace": REPLACEMENTS},
}
STATISTICS = ("sum", "count", "min", "max")


def statistics(value):
    if not are_texts(value):
        return "WrongType"
    return None if all(it in STATISTICS for it in value) else "OutOfRange"


AGGREGATOR = {key: fault for key, fault in PLUGIN.items() if key != "files"} | {
    "period": time,
    "delay": time_from(0),
    "grace": time_from(0),
    "drop_original": truth,
}
AGGREGATORS = {
    "basicstats": AGGREGATOR | {"stats": statistics},
    "final": AGGREGATOR | {"series_timeout": time_from(0)},
    "merge": AGGREGATOR,
    "minmax": AGGREGATOR,
}
KINDS = {
    "inputs": {"file": INPUT, "statsd": SERVER},
    "processors": PROCESSORS,
    "aggregators": AGGREGATORS,
    "outputs": {"file": OUTPUT},
}
NEEDED = {"file": "files", "statsd": "service_address"}


def key_fault(keys, table):
    """The first fault of the keys of a table."""
    for key, value in in_order(table):
        fault = keys[key](value) if key in keys else "UnknownKey"
        if fault:
            return fault
    return None


def limits_of(table, batch, limit):
    """The batch size and the buffer limit of a table whose keys have no fault."""
    return table.get("metric_batch_size", batch), table.get("metric_buffer_limit", limit)


def global_fault(tags):
    for key, value in in_order(tags):
        if not isinstance(value, str):
            return "WrongType"
        if not key:
            return "OutOfRange"
    return None


def plugins_of(table):
    """The plugins of a class: their kinds and values, by number."""
    plugins = []
    for kind, value in in_order(table):
        plugins += [(kind, it) for it in value] if isinstance(value, list) else [(kind, value)]
    return plugins


def plugin_fault(word, kind, value, limits):
    """The first fault of a plugin whose kind is known."""
    if not isinstance(value, dict):
        return "WrongType"
    fault = key_fault(KINDS[word][kind], value)
    if fault:
        return fault
    if word in ("inputs", "outputs") and NEEDED[kind] not in value:
        return "Missing"
    if word == "outputs":
        batch, limit = limits_of(value, *limits)
        if batch > limit:
            return "BatchAboveLimit"
    return None


def class_fault(word, plugins, limits):
    """The first fault of a class of plugins, with its number."""
    if len(plugins) > 16:
        return "TooManyPlugins", 16
    for number, (kind, _) in enumerate(plugins):
        if kind not in KINDS[word]:
            return "UnknownKind", number
    for number, (kind, value) in enumerate(plugins):
        fault = plugin_fault(word, kind, value, limits)
        if fault:
            return fault, number
    return None


def place_of(kind, value):
    """The place of an input or output without a fault."""
    if kind == "file":
        return value["files"][0]
    return "udp %s %d %d" % (value["service_address"], value.get("packets", 1_000), value.get("quiet_limit", 100))


def fault_of(root):
    """The first fault of a tree: kind, class and number."""
    known = {"agent", "global_tags", *CLASSES}
    if any(key not in known for key in root):
        return "UnknownKey", "root", 0
    if any(not isinstance(value, dict) for value in root.values()):
        return "WrongType", "root", 0
    agent = root.get("agent", {})
    fault = key_fault(AGENT, agent)
    if fault:
        return fault, "agent", 0
    limits = limits_of(agent, 1_000, 10_000)
    if limits[0] > limits[1]:
        return "BatchAboveLimit", "agent", 0
    fault = global_fault(root.get("global_tags", {}))
    if fault:
        return fault, "global_tags", 0
    plugins = {word: plugins_of(root.get(word, {})) for word in CLASSES}
    for word in CLASSES:
        fault = class_fault(word, plugins[word], limits)
        if fault:
            return fault[0], word, fault[1]
    for word, kind in (("inputs", "NoInput"), ("outputs", "NoOutput")):
        if not plugins[word]:
            return kind, "root", 0
    for word, taken in (("inputs", []), ("outputs", [agent.get("journal", "agent.journal")])):
        for number, (kind, value) in enumerate(plugins[word]):
            if place_of(kind, value) in taken:
                return "SamePlace", word, number
            taken.append(place_of(kind, value))
    return None


def beyond(value, depth=0):
    """Has a tree what the program's TOML refuses: numbers beyond 64 bits, or tables within 80 others?"""
    if depth > 70:
        return True
    if is_int(value):
        return not LEAST_INT <= value <= GREATEST_INT
    if isinstance(value, dict):
        return any(beyond(it, depth + 1) for it in value.values())
    if isinstance(value, list):
        return any(beyond(it, depth + 1) for it in value)
    return False


def answer(text):
    """What `check` reports of a text."""
    if len(text) > LONGEST:
        return "config: NotToml root 0"
    try:
        decoded = text.decode()
    except UnicodeDecodeError:
        return "config: NotToml root 0"
    try:
        root = tomllib.loads(decoded)
    except (tomllib.TOMLDecodeError, RecursionError, ValueError) as fault:
        raise Unsure from fault
    if beyond(root):
        raise Unsure
    fault = fault_of(root)
    return "config: %s %s %d" % fault if fault else "ok"
