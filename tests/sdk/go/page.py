#!/usr/bin/env python3
"""The programs of docs/use/GO.md, each in a module of its own as the page has it. The first one prints what the page says; the second
one is posted to by a service, and gives the page for Prometheus."""
import contextlib
import pathlib
import random
import re
import socket
import subprocess
import sys
import tempfile
import time
import urllib.error
import urllib.request

TOP = pathlib.Path(__file__).resolve().parents[3]
PAGE = (TOP / "docs" / "use" / "GO.md").read_text(encoding="utf-8")
# A service that posts to the port of the second program.
SERVICE = """package main

import (
	"context"
	"os"

	"kotskhin.example/sdk/go/attribute"
	"kotskhin.example/sdk/go/metric"
)

func main() {
	reader := metric.NewPeriodicReader(metric.HTTPExporter(os.Args[1], nil, nil), metric.WithOnFailed(func(error) {}))
	provider, err := metric.NewMeterProvider(metric.WithResource(attribute.String("service.name", os.Args[2])), metric.WithReader(reader))
	if err == nil {
		requests, _ := provider.Meter("app").Int64Counter("requests")
		requests.Add(context.Background(), 7)
		err = provider.Shutdown(context.Background())
	}
	if err != nil {
		os.Stdout.WriteString(err.Error())
	}
}
"""


def call(room, *command):
    """What a command prints."""
    made = subprocess.run(command, cwd=room, capture_output=True, text=True, timeout=1800, check=False)
    if made.returncode:
        sys.exit(f"{' '.join(command)}: {made.stdout}{made.stderr}")
    return made.stdout


def build(room, name, program):
    """A program in a module of its own, which is vetted; tells its path."""
    folder = pathlib.Path(room, name)
    folder.mkdir()
    (folder / "main.go").write_text(program, encoding="utf-8")
    call(folder, "go", "mod", "init", name)
    call(folder, *re.search(r"^go mod edit [^#\n]*", PAGE, re.M)[0].replace("$R", str(TOP)).split())
    if unlike := call(folder, "gofmt", "-l", "."):
        sys.exit(f"{unlike} of {name} is not as gofmt has it")
    call(folder, "go", "vet", ".")
    call(folder, "go", "build", "-o", "program", ".")
    return str(folder / "program")


def answered(url, body=None):
    """The status and the body of an answer, once there is one."""
    for _ in range(2000):
        try:
            with urllib.request.urlopen(urllib.request.Request(url, body), timeout=60) as answer:
                return answer.status, answer.read().decode()
        except urllib.error.HTTPError as fault:
            with fault:
                return fault.code, fault.read().decode()
        except OSError:
            time.sleep(0.05)
    sys.exit(f"{url} does not answer")


def free_port():
    """A port that is free, below those that the system gives to who asks for any: so nobody gets it until it is used."""
    while True:
        with socket.socket() as found, contextlib.suppress(OSError):
            found.bind(("127.0.0.1", random.randrange(20_000, 32_000)))
            return found.getsockname()[1]


def posted(room, gateway):
    """Services post to the gateway: one that it knows, and one that it does not."""
    service = build(room, "service", SERVICE)
    port = free_port()
    url = f"http://127.0.0.1:{port}"
    with subprocess.Popen([build(room, "gateway", gateway.replace("9464", str(port)))]) as server:
        try:
            answered(f"{url}/metrics")
            told = [call(room, service, f"{url}/v1/metrics", name) for name in ("shop", "thief")]
            malformed, page = answered(f"{url}/v1/metrics", b"\n\5"), answered(f"{url}/metrics")
        finally:
            server.terminate()
    if told[0] or "403" not in told[1] or malformed[0] != 400 or "MALFORMED" not in malformed[1]:
        sys.exit(f"{told} {malformed}")
    if 'requests_total{otel_scope_name="app",service_name="shop"} 7\n' not in page[1] or "thief" in page[1]:
        sys.exit(f"the page is {page}")


def main():
    first, gateway = re.findall(r"^```go\n(.*?)^```$", PAGE, re.M | re.S)
    printed = re.search(r"^```text\n(.*?)^```$", PAGE, re.M | re.S)[1]
    with tempfile.TemporaryDirectory() as room:
        told = call(room, build(room, "first", first))
        if told != printed:
            sys.exit(f"it prints\n{told}")
        posted(room, gateway)


if __name__ == "__main__":
    main()
