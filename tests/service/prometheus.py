"""A Prometheus that scrapes all gateways, and what it answers."""
import contextlib
import json
import re
import subprocess
import urllib.parse

from fleet import Fault, asked, until

SAMPLE = re.compile(r"^(\w+)(?:\{(.*)\})? (\S+)$", re.M)
LABEL = re.compile(r'(\w+)="((?:[^"\\]|\\.)*)"')
OF_SCRAPE = {"__name__", "instance", "job"}
OWN = ("scrape_", "up", "kotskhin_gateway_")


def samples_of(page):
    """The samples of a page: each series with its value."""
    return {(name, tuple(sorted(LABEL.findall(labels)))): float(value) for name, labels, value in SAMPLE.findall(page)}


class Prometheus:
    """What runs, and how it is asked."""

    def __init__(self, process, address, port, folder):
        self.process, self.address, self.port, self.folder = process, address, port, folder

    def ask(self, query):
        """What a query answers: labels and values."""
        status, _, body = asked(self.address, "GET", "/api/v1/query?" + urllib.parse.urlencode({"query": query}), port=self.port)
        if status != 200:
            return []
        return [(row["metric"], float(row["value"][1])) for row in json.loads(body)["data"]["result"]]

    def page_of(self, instance):
        """What it keeps of a gateway's last page."""
        found = {}
        for metric, value in self.ask(f'{{instance="{instance}"}}'):
            if not metric["__name__"].startswith(OWN):
                labels = tuple(sorted((name, value) for name, value in metric.items() if name not in OF_SCRAPE))
                found[metric["__name__"], labels] = value
        return found

    def is_ready(self):
        if self.process.poll() is not None:
            raise Fault(f"prometheus ended with status {self.process.returncode}\n{self.tail()}")
        return asked(self.address, "GET", "/-/ready", port=self.port)[0] == 200

    def tail(self):
        return (self.folder / "log").read_text(errors="replace")[-2000:]


@contextlib.contextmanager
def running(folder, targets, address="127.0.0.1", port=9090, every="2s", rules=()):
    """A Prometheus of these targets, with a folder of its own, and with files of rules."""
    folder.mkdir()
    listed = ", ".join(f"'{target}'" for target in targets)
    (folder / "prometheus.yml").write_text(
        f"global:\n  scrape_interval: {every}\n  scrape_timeout: {every}\n  evaluation_interval: {every}\n"
        f"rule_files: [{', '.join(map(repr, map(str, rules)))}]\n"
        f"scrape_configs:\n  - job_name: gateways\n    static_configs:\n      - targets: [{listed}]\n",
        encoding="utf-8",
    )
    command = ["prometheus", "--config.file=prometheus.yml", "--storage.tsdb.path=data", f"--web.listen-address={address}:{port}"]
    with open(folder / "log", "wb") as log:
        process = subprocess.Popen(command, cwd=folder, stdin=subprocess.DEVNULL, stdout=log, stderr=log)
    made = Prometheus(process, address, port, folder)
    try:
        until(made.is_ready, "prometheus does not start")
        yield made
    finally:
        process.terminate()
        try:
            process.wait(10)
        except subprocess.TimeoutExpired:
            process.kill()
            process.wait()
