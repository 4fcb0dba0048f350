"""Runs the agent with real senders and receivers of its formats: real_programs.py PROGRAM.

Each check has a folder of its own and ends what it started. One line tells what came of each; the last one is
'real-programs: N passed, M failed, K left out', and the status is 1 where one failed.
"""

import os
import signal
import sys
import tempfile

import real_receivers
import real_senders
import real_services
from real_kit import Agent, Differs, LeftOut

# The checks together take no longer.
MOST_SECONDS = 600

CHECKS = [
    ("collectd to a Graphite input", real_senders.check_collectd),
    ("the Python client of Prometheus to an OpenMetrics input", real_senders.check_client),
    ("node_exporter to an OpenMetrics input", real_senders.check_node_exporter),
    ("Prometheus to an OpenMetrics input", real_senders.check_prometheus),
    ("Prometheus's push gateway to an OpenMetrics input", real_senders.check_pushgateway),
    ("a StatsD client to a StatsD input", real_senders.check_statsd),
    ("the StatsD client of Python to a StatsD server", real_services.check_python),
    ("lynx of node to a StatsD server", real_services.check_node),
    ("Net::Statsd of Perl to a StatsD server", real_services.check_perl),
    ("a Graphite output to carbon-cache", real_receivers.check_carbon),
    ("an OpenMetrics output to promtool", real_receivers.check_promtool),
    ("an OpenMetrics output to the Python client of Prometheus", real_receivers.check_client),
    ("a line-protocol output to influxd", real_receivers.check_influxd),
]


def stop(_signal, _frame):
    """Ends the checks, and what they started."""
    sys.exit("real-programs: stopped")


def outcome(check, agent):
    """What came of a check: passed, failed or left out, and a text."""
    with tempfile.TemporaryDirectory(prefix="hogzent-real-") as folder:
        try:
            return "passed", check(agent, os.path.realpath(folder))
        except LeftOut as why:
            return "left out", str(why)
        except Exception as fault:  # A program that does something unforeseen is a check that failed.
            return "failed", str(fault) if isinstance(fault, Differs) else repr(fault)


def main(program):
    signal.signal(signal.SIGTERM, stop)
    signal.signal(signal.SIGALRM, stop)
    signal.alarm(MOST_SECONDS)
    agent, counts = Agent(program), {"passed": 0, "failed": 0, "left out": 0}
    for name, check in CHECKS:
        came, text = outcome(check, agent)
        counts[came] += 1
        print(f"real-programs: {name}: {came}: {text}", flush=True)
    print("real-programs: " + ", ".join(f"{count} {came}" for came, count in counts.items()))
    return 1 if counts["failed"] else 0


if __name__ == "__main__":
    sys.exit(main(*sys.argv[1:]))
