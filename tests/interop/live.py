#!/usr/bin/env python3
"""Pages of page_kit as a Prometheus and a Pushgateway keep them.

    live.py

This starts a Prometheus that scrapes this process twice a second. It serves the pages `LIFE_*` of crates/page_kit/src/tests.rt one
after the other: a gateway's life through a conflict that comes and goes, a worker's restart, and one with another plan. Then it asks:
nothing was reset, `increase` is the true growth, as far as `increase` tells it, and each value is that of the last page. The page of one
gateway in both formats must come to the same series. A Pushgateway is sent the page in the text format, and must give back its samples.

What does not hold is tried twice more, with slower scrapes, and is a fault where it never holds. Both programs run on 127.0.0.1 alone, with
folders that are removed in the end. One that is not on this machine is a fault, unless GATE_WITHOUT names it, as
GATE_WITHOUT=prometheus,prometheus-pushgateway.

This ends with a status other than 0 where one of these does not hold."""
import contextlib
import http.server
import json
import pathlib
import random
import re
import shutil
import socket
import subprocess
import sys
import tempfile
import threading
import time
import typing
import urllib.error
import urllib.parse
import urllib.request

sys.dont_write_bytecode = True
sys.path.append(str(pathlib.Path(__file__).resolve().parents[1] / "gate"))
import checks
import pages
import wanted

# Seconds from scrape to scrape, at the first try and at the next: where much else runs, scrapes come too late to tell of a growth.
INTERVALS = (0.5, 1.5, 5)
SCRAPES = 4  # of each page of the life
PATIENCE = 120  # seconds that a program has to start, and beside its scrapes that the whole life has
ANSWER = 60  # and an answer
TYPES = {
    "openmetrics": "application/openmetrics-text; version=1.0.0; charset=utf-8",
    "prometheus": "text/plain; version=0.0.4; charset=utf-8",
}
SAMPLE = re.compile(r"^(\w+)(?:\{(.*)\})? (\S+)$", re.M)
LABEL = re.compile(r'(\w+)="((?:[^"\\]|\\.)*)"')
# Labels that Prometheus sets itself.
OF_SCRAPE = {"__name__", "instance", "job"}
# Series whose values rise: those of counters and histograms.
RISES = re.compile(r"\w+_(?:total|bucket|sum|count)")


class Fault(Exception):
    """What does not hold."""


class Life:
    """The pages of a gateway's life, of which each is served so often."""

    def __init__(self, life):
        self.life, self.served = life, 0

    def next(self):
        page = self.life[min(self.served // SCRAPES, len(self.life) - 1)]
        self.served += 1
        return page

    def is_over(self):
        return self.served >= SCRAPES * len(self.life)


class Served(typing.NamedTuple):
    """What is served: a life, and pages that stay."""

    life: Life
    still: dict


def samples_of(text):
    """The samples of a page: each series with its value."""
    return {(name, tuple(sorted(LABEL.findall(labels)))): float(value) for name, labels, value in SAMPLE.findall(text)}


def handler_of(served):
    class Handler(http.server.BaseHTTPRequestHandler):
        """Answers each request with a page."""

        def do_GET(self):
            page = served.life.next() if self.path == "/life" else served.still.get(self.path)
            body = page.text.encode() if page else b""
            self.send_response(200 if page else 404)
            self.send_header("Content-Type", TYPES[page.form] if page else "text/plain")
            self.send_header("Content-Length", str(len(body)))
            self.end_headers()
            self.wfile.write(body)

        def log_message(self, format, *args):
            """Nothing is logged."""

    return Handler


@contextlib.contextmanager
def serving(served):
    """The port that the pages are served on."""
    server = http.server.ThreadingHTTPServer(("127.0.0.1", 0), handler_of(served))
    threading.Thread(target=server.serve_forever, daemon=True).start()
    try:
        yield server.server_address[1]
    finally:
        server.shutdown()
        server.server_close()


def free_port():
    """A port that is free, below those that the system gives to who asks for any: so nobody gets it until it is used."""
    while True:
        with socket.socket() as listening, contextlib.suppress(OSError):
            listening.bind(("127.0.0.1", random.randrange(20_000, 32_000)))
            return listening.getsockname()[1]


@contextlib.contextmanager
def running(command, folder, ready):
    """A program that ends with the block; it has begun once this address answers."""
    with open(folder / "log", "wb") as log:
        program = subprocess.Popen(command, cwd=folder, stdin=subprocess.DEVNULL, stdout=log, stderr=log)
    try:
        until(lambda: answers(ready, program), f"{command[0]} does not start")
        yield
    except Fault as fault:
        raise Fault(f"{fault}\n{(folder / 'log').read_text(errors='replace')[-2000:]}") from fault
    finally:
        program.terminate()
        try:
            program.wait(PATIENCE)
        except subprocess.TimeoutExpired:
            program.kill()
            program.wait()


def answers(address, program):
    if program.poll() is not None:
        raise Fault(f"{program.args[0]} ended with status {program.returncode}")
    try:
        with urllib.request.urlopen(address, timeout=ANSWER) as answer:
            return answer.status == 200
    except (urllib.error.URLError, OSError):
        return False


def until(holds, fault, more=0):
    end = time.monotonic() + PATIENCE + more
    while not holds():
        if time.monotonic() > end:
            raise Fault(fault)
        time.sleep(0.05)


def ask(port, query):
    """What a query answers: each series with its value."""
    address = f"http://127.0.0.1:{port}/api/v1/query?" + urllib.parse.urlencode({"query": query})
    with urllib.request.urlopen(address, timeout=ANSWER) as answer:
        found = json.load(answer)["data"]["result"]
    return {series_of(sample["metric"]): float(sample["value"][1]) for sample in found}


def series_of(metric):
    return metric.get("__name__", ""), tuple(sorted((name, value) for name, value in metric.items() if name not in OF_SCRAPE))


def configuration(port, interval):
    jobs = "".join(
        f"  - job_name: {path}\n    metrics_path: /{path}\n    static_configs:\n      - targets: ['127.0.0.1:{port}']\n"
        for path in ("life", "openmetrics", "prometheus")
    )
    every = f"{int(interval * 1000)}ms"
    return f"global:\n  scrape_interval: {every}\n  scrape_timeout: {every}\nscrape_configs:\n{jobs}"


def hold(fault, told):
    """Tells that this holds, or is a fault."""
    if fault:
        raise Fault(fault)
    print(f"live: {told}")


def differing(found, wanted):
    """The first series of which one says another thing than the other."""
    for key in sorted(found.keys() | wanted.keys()):
        if found.get(key) != wanted.get(key):
            return f"{key} is {found.get(key)}, and not {wanted.get(key)}"
    return ""


def without_names(samples):
    return {labels: value for (_, labels), value in samples.items()}


def series_named(name, page):
    """The samples of this name on a page, by their labels."""
    return without_names({key: value for key, value in samples_of(page.text).items() if key[0] == name})


def hold_growth(port, name, life):
    """No series of this name was reset, and each grew as its pages say."""
    before, after = (series_named(name, page) for page in (life[0], life[-1]))
    resets = without_names(ask(port, f'resets({name}{{job="life"}}[5m])'))
    hold(differing(resets, dict.fromkeys(after, 0.0)), f"{name}: no resets")
    grown = without_names(ask(port, f'increase({name}{{job="life"}}[5m])'))
    # What `increase` may add for the time before the first scrape and behind the last: a step and a tenth at either end.
    # One page lacks rows.
    most = 1 + 2.2 / (SCRAPES * (len(life) - 1) - 1)
    for labels, value in after.items():
        true, told = value - before[labels], grown.get(labels)
        if told is None or not true - 1e-9 <= told <= true * most + 1e-9:
            raise Fault(f"{name}{dict(labels)} grew by {told}, and not by {true}")
        print(f"live: {name}{dict(labels)}: {before[labels]:g} to {value:g}, increase {told:.2f}")


def kept_of(port, job):
    """The values that are kept of a job's last page."""
    return {key: value for key, value in ask(port, f'{{job="{job}"}}').items() if not key[0].startswith(("scrape_", "up"))}


def hold_page(port, job, page):
    """What is kept of a job is this page. A scrape may fail where much else runs: the next one does not."""
    wanted_values = samples_of(page.text)
    with contextlib.suppress(Fault):
        until(lambda: kept_of(port, job) == wanted_values, "")
    hold(differing(kept_of(port, job), wanted_values), f"{job}: {len(wanted_values)} values are those of the page")


def hold_life(port, life):
    """The values in the end, and how they came."""
    hold_page(port, "life", life[-1])
    for name in sorted({key[0] for key in samples_of(life[0].text) if RISES.fullmatch(key[0])}):
        hold_growth(port, name, life)
    conflicts = ask(port, 'max_over_time(kotskhin_conflicts{job="life"}[5m])')
    hold("" if conflicts else "no conflict was seen", "a conflict came and went")


def with_prometheus(folder, interval):
    made = {page.name: page for page in pages.pages()}
    life = [page for name, page in made.items() if name.startswith("LIFE_")]
    served = Served(Life(life), {"/openmetrics": made["FIRST"], "/prometheus": made["FIRST_AS_TEXT"]})
    with serving(served) as port:
        own = free_port()
        (folder / "prometheus.yml").write_text(configuration(port, interval), encoding="utf-8")
        command = ["prometheus", "--config.file=prometheus.yml", "--storage.tsdb.path=data", f"--web.listen-address=127.0.0.1:{own}"]
        with running(command, folder, f"http://127.0.0.1:{own}/-/ready"):
            until(served.life.is_over, "Prometheus does not scrape", 2 * interval * SCRAPES * len(life))
            hold_life(own, life)
            for form in TYPES:
                hold_page(own, form, made["FIRST"])


def with_pushgateway(folder, _):
    page = next(page for page in pages.pages() if page.name == "FIRST_AS_TEXT")
    port = free_port()
    with running(["prometheus-pushgateway", f"--web.listen-address=127.0.0.1:{port}"], folder, f"http://127.0.0.1:{port}/-/ready"):
        address = f"http://127.0.0.1:{port}/metrics"
        put = urllib.request.Request(f"{address}/job/kit", page.text.encode(), {"Content-Type": TYPES[page.form]}, method="PUT")
        with urllib.request.urlopen(put, timeout=ANSWER):
            pass
        with urllib.request.urlopen(address, timeout=ANSWER) as answer:
            kept = samples_of(answer.read().decode())
    found = {}
    for (name, labels), value in kept.items():
        if ("job", "kit") in labels and not name.startswith("push_"):
            found[name, tuple(label for label in labels if label[0] not in OF_SCRAPE)] = value
    hold(differing(found, samples_of(page.text)), "the Pushgateway gives back each sample")


def tried(run):
    """Whether this holds, at one of the intervals."""
    for interval in INTERVALS:
        try:
            with tempfile.TemporaryDirectory() as folder:
                run(pathlib.Path(folder), interval)
            return True
        except (Fault, OSError) as fault:
            print(f"interop: a scrape each {interval} s: {fault}")
    return False


def main():
    faults = 0
    for program, run in (("prometheus", with_prometheus), ("prometheus-pushgateway", with_pushgateway)):
        is_used, missing = wanted.look(program, shutil.which(program))
        faults += missing
        if is_used:
            did = tried(run)
            checks.note(f"live: {program}", did)
            faults += not did
    return min(faults, 1)


if __name__ == "__main__":
    sys.exit(main())
