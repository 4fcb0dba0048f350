"""An exporter over the Python client of Prometheus: real_exporter.py PORT serves its metrics on the loopback until it is
ended. It has each kind of metric, labels with every escape, numbers that are no decimals, and exemplars."""

import sys
import threading

from prometheus_client import Counter, Enum, Gauge, Histogram, Info, Summary, start_http_server

SITES = ["hall 3", 'the "old" hall', "C:\\racks\\7", "first line\nsecond line", "Köln, {south}", ""]
NUMBERS = [0.1, -0.0000000015, 1e-12, 123456789.987654321, 1e19, -1e19, float("nan"), float("inf"), float("-inf")]


def fill():
    """Makes the metrics, and gives them numbers."""
    requests = Counter("requests", "Requests, by their site.", ["site", "code"])
    seconds = Histogram("answer_seconds", "How long answers take.", ["site"])
    sizes = Summary("answer_bytes", "How long answers are.", unit="bytes")
    load = Gauge("load", "Numbers of every kind.", ["number"])
    for at, site in enumerate(SITES):
        requests.labels(site, "200").inc(at + 0.25, {"trace_id": f"t{at}"})
        seconds.labels(site).observe(at * 0.7, {"trace_id": f"t{at}"})
        sizes.observe(1000 * at)
    for at, number in enumerate(NUMBERS):
        load.labels(str(at)).set(number)
    Info("build", "What was built.").info({"version": "1.2.3", "branch": "main"})
    Enum("state", "How it goes.", states=["starting", "running", "stopped"]).state("running")


def main(port):
    fill()
    start_http_server(int(port), addr="127.0.0.1")
    threading.Event().wait()


if __name__ == "__main__":
    main(*sys.argv[1:])
