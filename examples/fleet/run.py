#!/usr/bin/env python3
"""Three gateways that tell each other, a Prometheus that scrapes all three, and workers in Go, Python and Rust: a fleet without Docker.

    run.py FOLDER [LANGUAGE..]      FOLDER is what sdk/build made; go, python and rust where no language is named

While the workers count one gateway is killed and comes back, another is asked to end and comes back, and a worker is started once more.
Each worker pushes to the first gateway that takes what it has. In the end Prometheus is asked, and must answer what the workers counted.
All of it runs on 127.0.0.1, on free ports, and in a folder that is removed. Without cargo no worker is in Rust."""
import contextlib
import os
import pathlib
import shutil
import signal
import socket
import subprocess
import sys
import tempfile
import time

sys.dont_write_bytecode = True
HERE = pathlib.Path(__file__).resolve().parent
TOP = HERE.parents[1]
sys.path[:0] = [str(TOP / "tests" / "service")]
import prometheus
from fleet import Fault, Gateway, until

RECORDINGS = "1500"
ADDRESS = "127.0.0.1"
ONCE = "max without (instance) (requests_total)"
QUERIES = (f"sum by (service_name) ({ONCE})", f"sum by (route) ({ONCE})", f"sum({ONCE})", "count by (service_name) (requests_total)", "up")
GO = "module fleet\n\ngo 1.18\n\nrequire kotskhin.example/sdk/go v0.0.0\n\nreplace kotskhin.example/sdk/go => {}\n"
RUST = """[package]
name = "fleet"
version = "0.1.0"
edition = "2024"

[dependencies]
kotskhin = {{ path = "{}" }}

[[bin]]
name = "worker"
path = "worker.rs"

[workspace]
"""


def free_ports(count):
    with contextlib.ExitStack() as stack:
        sockets = [stack.enter_context(socket.socket()) for _ in range(count)]
        for listening in sockets:
            listening.bind((ADDRESS, 0))
        return [listening.getsockname()[1] for listening in sockets]


def built(kit, room, languages):
    """The gateway, and what starts a worker in each language."""
    go = {**os.environ, "PKG_CONFIG_PATH": f"{kit}/lib/pkgconfig", "GOFLAGS": "-mod=mod -buildvcs=false", "GOPROXY": "off"}
    gateway, folder = room / "kotskhin-gateway", room / "go"
    subprocess.run(["go", "build", "-o", gateway, "./cmd/kotskhin-gateway"], cwd=TOP / "service", env=go, check=True)
    folder.mkdir()
    shutil.copy(HERE / "worker.go", folder)
    (folder / "go.mod").write_text(GO.format(TOP / "sdk" / "go"))
    subprocess.run(["go", "build", "-o", "worker", "."], cwd=folder, env=go, check=True)
    workers = {"go": [folder / "worker"], "python": [sys.executable, "-B", HERE / "worker.py"]}
    if "rust" not in languages or not shutil.which("cargo"):
        print("no worker is in Rust")
        return gateway, workers
    folder = room / "rust"
    folder.mkdir()
    shutil.copy(HERE / "worker.rs", folder)
    (folder / "Cargo.toml").write_text(RUST.format(TOP / "sdk" / "rust" / "kotskhin"))
    rust = {**os.environ, "KOTSKHIN_LIB": f"{kit}/lib", "CARGO_TARGET_DIR": str(folder / "target")}
    subprocess.run(["cargo", "build", "-q", "--offline"], cwd=folder, env=rust, check=True)
    return gateway, {**workers, "rust": [folder / "target" / "debug" / "worker"]}


class Fleet:
    """What runs, of which nothing is left in the end."""

    def __init__(self, kit, program, commands, room):
        ports = free_ports(4)
        self.scraper, ports = ports[3], ports[:3]
        self.urls = [f"http://{ADDRESS}:{port}" for port in ports]
        flags = ("--gossip-interval", "200ms", "--gossip-longest-pause", "2s")
        self.gateways = [
            Gateway(program, number, ADDRESS, [url for url in self.urls if url != self.urls[number]], room / f"state{number}",
                    room / f"gateway{number}.log", flags=flags, port=port)
            for number, port in enumerate(ports)
        ]
        self.targets = [f"{ADDRESS}:{port}" for port in ports]
        self.kit, self.commands, self.workers = kit, commands, []

    def __enter__(self):
        for gateway in self.gateways:
            gateway.start()
        return self

    def __exit__(self, *_):
        for worker in self.workers:
            worker.kill()
            worker.wait()
        for gateway in self.gateways:
            gateway.kill()

    def ready(self):
        for gateway in self.gateways:
            until(gateway.is_ready, lambda: f"a gateway is not ready\n{gateway.tail()}")

    def work(self, language, service):
        """A worker begins. It knows the gateways in an order of its own."""
        shift = len(self.workers) % len(self.urls)
        words = [*map(str, self.commands[language]), service, RECORDINGS, *self.urls[shift:], *self.urls[:shift]]
        given = {**os.environ, "KOTSKHIN_SO": f"{self.kit}/shared/libkotskhin.so.0", "PYTHONPATH": str(TOP / "sdk" / "python")}
        self.workers.append(subprocess.Popen(words, stdin=subprocess.DEVNULL, stdout=subprocess.PIPE, text=True, env=given))

    def counted(self):
        """What the workers counted, once they end."""
        total = 0
        for worker in self.workers:
            printed, _ = worker.communicate(timeout=600)
            if worker.returncode:
                raise Fault(f"a worker ended with status {worker.returncode}")
            print(f"  {printed.strip()}")
            total += int(printed.split()[-1])
        return total


def trouble(fleet):
    """One gateway is killed, another is asked to end; both come back."""
    time.sleep(0.7)
    fleet.gateways[0].kill()
    print("gateway 1 is killed")
    time.sleep(0.7)
    fleet.gateways[0].start()
    print("gateway 1 comes back")
    until(fleet.gateways[0].is_ready, lambda: fleet.gateways[0].tail())
    fleet.gateways[1].signal(signal.SIGTERM)
    print(f"gateway 2 ends with status {fleet.gateways[1].wait()}")
    fleet.gateways[1].start()
    until(fleet.gateways[1].is_ready, lambda: fleet.gateways[1].tail())
    print("gateway 2 comes back")


def totals(scrapes):
    """What Prometheus keeps of each gateway, in all."""
    return {metric["instance"]: value for metric, value in scrapes.ask("sum by (instance) (requests_total)")}


def answered(scrapes):
    """What Prometheus answers."""
    for query in QUERIES:
        print(f"PromQL: {query}")
        for metric, value in scrapes.ask(query):
            labels = ", ".join(f"{name} {value}" for name, value in sorted(metric.items()) if name not in ("__name__", "job"))
            print(f"  {labels + ': ' if labels else ''}{value:g}")


def main():
    if len(sys.argv) < 2 or not shutil.which("go") or not shutil.which("prometheus"):
        raise SystemExit(f"{__doc__}\nIt wants a folder, Go and Prometheus.")
    kit = pathlib.Path(sys.argv[1]).resolve()
    with tempfile.TemporaryDirectory() as made:
        room = pathlib.Path(made)
        program, commands = built(kit, room, sys.argv[2:] or ("go", "python", "rust"))
        with Fleet(kit, program, commands, room) as fleet:
            fleet.ready()
            with prometheus.running(room / "prometheus", fleet.targets, ADDRESS, fleet.scraper) as scrapes:
                print(f"gateways at {', '.join(fleet.urls)}; Prometheus at http://{ADDRESS}:{fleet.scraper}")
                for language in commands:
                    fleet.work(language, "shop")
                fleet.work("python", "till")
                trouble(fleet)
                fleet.work("go", "till")
                print("the workers counted:")
                counted = fleet.counted()
                wanted = dict.fromkeys(fleet.targets, counted)
                until(lambda: totals(scrapes) == wanted, lambda: f"Prometheus answers {totals(scrapes)}")
                answered(scrapes)
    print(f"each of {len(fleet.gateways)} gateways says what {len(fleet.workers)} workers counted: {counted}")


if __name__ == "__main__":
    try:
        main()
    except Fault as fault:
        raise SystemExit(str(fault)) from None
