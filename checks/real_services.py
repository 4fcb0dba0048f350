"""Checks of StatsD clients, as services use them, which send to a server of a run: of Python, of node and of Perl.

What is served depends on how the packets come in groups, so the totals are compared: the sums of counters, the last level of gauges,
count, lower, upper and sum of timings, and the distinct members of sets, each of which is sent once, or in one packet.
Each check gets the agent and a folder, and gives what it saw as a text; it raises Differs or LeftOut.
"""

import os
import subprocess

import loopback
from real_kit import SECONDS, LeftOut, billionths, expect, needs, write_file
from real_senders import MEMBERS, module_version, send_statsd, statsd_client

# Where Debian keeps modules of node, whichever node runs them.
NODE_MODULES = "/usr/share/nodejs"

NODE = """
const Lynx = require('lynx');
const client = new Lynx('127.0.0.1', Number(process.argv[2]), {scope: 'shop'});
client.increment('orders');
client.count('orders', 17);
client.decrement('stock');
client.count(['stock', 'returns'], 2.5);
client.increment('views', 0.9999999);
client.timing('answer', 320.25);
client.timing('answer', 7);
client.gauge('queue', 12);
client.gauge('queue', '+3');
client.gauge('queue', -2.5);
client.set('visitors', 'user 7');
client.send({buyers: 'user 8|s', orders: '5|c', answer: '90.5|ms'});
for (let at = 0; at < 40; at++) client.count('page.' + at, at);
"""
PERL = """
use strict;
use Net::Statsd;
$Net::Statsd::HOST = '127.0.0.1';
$Net::Statsd::PORT = shift;
Net::Statsd::increment('shop.orders');
Net::Statsd::update_stats('shop.orders', 22);
Net::Statsd::decrement('shop.stock');
Net::Statsd::update_stats(['shop.stock', 'shop.returns'], 2.5);
Net::Statsd::increment('shop.views', 0.9999999);
Net::Statsd::timing('shop.answer', 320.25);
Net::Statsd::timing('shop.answer', 7);
Net::Statsd::timing('shop.answer', 90);
Net::Statsd::gauge('shop.queue' => 12, 'shop.queue' => '+3', 'shop.queue' => -2.5);
Net::Statsd::send({'shop.visitors' => 'user 7|s', 'shop.buyers' => ['user 7|s', 'user 8|s', 'user 7|s']});
Net::Statsd::update_stats("shop.page.$_", $_) for 0 .. 39;
"""


def sent_by_scripts(times, buyers):
    """What both scripts send, as (name, type, key of the field, value); timings and buyers are a script's own."""
    sent = [
        ("orders", "counter", "value", "1"), ("orders", "counter", "value", "22"), ("stock", "counter", "value", "-1"),
        ("stock", "counter", "value", "2.5"), ("returns", "counter", "value", "2.5"),
        ("views", "counter", "value", "1.0000001"), ("queue", "gauge", "value", "12"), ("queue", "gauge", "delta", "3"),
        ("queue", "gauge", "delta", "-2.5"), ("visitors", "set", "member", "user 7"),
    ]
    sent += [("answer", "timing", "value", value) for value in times]
    sent += [("buyers", "set", "member", member) for member in buyers]
    return sent + [(f"page.{at}", "counter", "value", str(at)) for at in range(40)]


def totals_of_sent(sent):
    """The totals of what was sent, by name and type; decimals as billionths."""
    by_series = {}
    for name, kind, key, value in sent:
        by_series.setdefault((f"shop.{name}", kind), []).append((key, value))
    totals = {}
    for (name, kind), parts in by_series.items():
        if kind == "set":
            totals[name, kind] = {"count": len({value for _, value in parts})}
            continue
        values = [billionths(value) for _, value in parts]
        if kind == "timing":
            totals[name, kind] = {"count": len(values), "lower": min(values), "upper": max(values), "sum": sum(values)}
        elif kind == "gauge":
            level = 0
            for (key, _), value in zip(parts, values):
                level = level + value if key == "delta" else value
            totals[name, kind] = {"value": level}
        else:
            totals[name, kind] = {"value": sum(values)}
    return totals


# How the fields of two groups become those of both, by the type and the key.
TOGETHER = {
    ("gauge", "value"): lambda _, later: later, ("timing", "lower"): min, ("timing", "upper"): max,
}


def totals_of_served(metrics):
    """The totals of what was served, by name and type, and those of the metric `statsd`."""
    totals, own = {}, {"packets": 0, "refused": 0}
    for name, tags, fields, _ in metrics:
        numbers = {key.decode(): number for key, (_, number) in fields}
        if name == b"statsd" and not tags:
            own = {key: own[key] + numbers[key] for key in own}
            continue
        [(key, kind)] = tags
        expect("the tag's key", key, b"metric_type")
        series = name.decode(), kind.decode()
        before = totals.get(series, numbers)
        totals[series] = numbers if before is numbers else {
            key: TOGETHER.get((series[1], key), int.__add__)(before[key], number) for key, number in numbers.items()}
    return totals, own


def check_client(agent, folder, name, send):
    """Compares what a client sent, which `send` gives, with what was served."""
    ran, sent = agent.serve(folder, send)
    expect("refused, passed", (ran.refused, ran.passed), (0, 0))
    expect("pieces and metrics", (ran.pieces, ran.gathered), (len(ran.written), len(ran.written)))
    served, own = totals_of_served(ran.written)
    right = totals_of_sent(sent)
    for series in sorted(right.keys() | served.keys()):
        expect(f"the totals of {series}", served.get(series), right.get(series))
    expect("refused of the server", own["refused"], 0)
    groups = sum(metric[0] == b"statsd" for metric in ran.written)
    return f"{name}: {own['packets']} packets in {groups} groups, {len(right)} series"


def run_script(words, env=None):
    """Runs a command that ends by itself, and gives what it prints; nothing where it fails."""
    ran = subprocess.run(
        words, env={**os.environ, **(env or {})}, stdin=subprocess.DEVNULL, capture_output=True, timeout=SECONDS, check=False)
    return ran.stdout.decode().strip() if ran.returncode == 0 else None


def check_script(agent, folder, name, words, env, sent):
    """Compares what a client sends in a script, whose words lack the port."""

    def send(port):
        expect(f"{name} ran", run_script([*words, str(port)], env), "")
        return sent

    return check_client(agent, folder, name, send)


def check_python(agent, folder):
    """The StatsD client of Python."""
    statsd = statsd_client()
    return check_client(
        agent, folder, f"statsd {module_version('statsd')}", lambda port: send_statsd(statsd, loopback.HOST, port))


def check_node(agent, folder):
    """lynx, of node: its calls send a packet each, but that for several stats, which sends one of all."""
    node, env = needs("node", "nodejs"), {"NODE_PATH": NODE_MODULES}
    version = run_script([node, "-p", "require('lynx/package.json').version"], env)
    if version is None:
        raise LeftOut("there is no lynx (Debian's package node-lynx)")
    script = write_file(folder, "client.js", NODE)
    return check_script(
        agent, folder, f"lynx {version}", [node, script], env, sent_by_scripts(["320.25", "7", "90.5"], ["user 8"]))


def check_perl(agent, folder):
    """Net::Statsd, of Perl: it has no call for sets, but one that sends any parts; and its timings are whole numbers."""
    perl = needs("perl", "perl")
    version = run_script([perl, "-MNet::Statsd", "-e", "print $Net::Statsd::VERSION"])
    if version is None:
        raise LeftOut("there is no Net::Statsd (Debian's package libnet-statsd-perl)")
    script = write_file(folder, "client.pl", PERL)
    return check_script(
        agent, folder, f"Net::Statsd {version}", [perl, script], {}, sent_by_scripts(["320", "7", "90"], MEMBERS))
