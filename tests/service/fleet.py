"""Gateways as processes, and what is asked of them."""
import contextlib
import http.client
import json
import os
import random
import signal
import socket
import subprocess
import time

PORT = 9464
PATIENCE = 300  # seconds that anything has which must come in the end
ANSWER = 60  # and an answer


class Fault(Exception):
    """What does not hold."""


def until(holds, what, patience=PATIENCE, pause=0.05):
    """Waits until something holds, and tells what it came to."""
    end = time.monotonic() + patience
    while True:
        found = holds()
        if found:
            return found
        if time.monotonic() > end:
            raise Fault(what() if callable(what) else what)
        time.sleep(pause)


def asked(address, method, path, body=None, heads=None, timeout=ANSWER, port=PORT):
    """Status, headers and body of an answer; a status of 0 where there is none."""
    connection = http.client.HTTPConnection(address, port, timeout=timeout)
    try:
        connection.request(method, path, body, heads or {})
        answer = connection.getresponse()
        return answer.status, dict(answer.getheaders()), answer.read()
    except (OSError, http.client.HTTPException) as fault:
        return 0, {}, str(fault).encode()
    finally:
        connection.close()


def free_port(address="127.0.0.1"):
    """A port that is free, below those that the system gives to who asks for any: so nobody gets it until it is used."""
    while True:
        with socket.socket() as listening, contextlib.suppress(OSError):
            listening.bind((address, random.randrange(20_000, 32_000)))
            return listening.getsockname()[1]


class Gateway:
    """A gateway of a number, which may be killed and begun again."""

    def __init__(self, program, number, address, peers, state, log, inside=(), flags=(), port=PORT):
        self.number, self.address, self.state, self.log, self.port = number, address, state, log, port
        self.process, self.starts = None, 0
        peers = [word for peer in peers for word in ("--peer", peer)]
        self.words = [*inside, str(program), "--listen", f"{address}:{port}", "--state", str(state), "--log-level", "info", *peers, *flags]

    def start(self):
        self.starts += 1
        with open(self.log, "ab") as log:
            log.write(f"--- start {self.starts}\n".encode())
            log.flush()
            environment = {name: value for name, value in os.environ.items() if not name.startswith("KOTSKHIN_")}
            # (a test has no time to wait as long as SERVICE asks)
            environment["KOTSKHIN_UNSAFE_ARCHIVE_AFTER"] = "1"
            self.process = subprocess.Popen(self.words, stdin=subprocess.DEVNULL, stdout=log, stderr=log, env=environment)

    def is_running(self):
        return self.process is not None and self.process.poll() is None

    def signal(self, number):
        if self.is_running():
            self.process.send_signal(number)

    def kill(self):
        if self.is_running():
            self.process.kill()
        self.wait()

    def stop(self):
        """Asks it to end, and tells its status."""
        self.signal(signal.SIGCONT)
        self.signal(signal.SIGTERM)
        return self.wait()

    def wait(self):
        if self.process is None:
            return None
        try:
            return self.process.wait(PATIENCE)
        except subprocess.TimeoutExpired as fault:
            self.process.kill()
            self.process.wait()
            raise Fault(f"gateway {self.number} does not end\n{self.tail()}") from fault

    def ask(self, path, method="GET", body=None, heads=None, timeout=ANSWER):
        return asked(self.address, method, path, body, heads, timeout, self.port)

    def is_ready(self):
        return self.ask("/readyz")[0] == 200

    def text(self, path):
        """The body of an answer of 200; nothing else."""
        status, _, body = self.ask(path)
        return body.decode() if status == 200 else None

    def json(self, path):
        told = self.text(path)
        return None if told is None else json.loads(told)

    def tail(self, most=3000):
        with open(self.log, "rb") as log:
            return log.read()[-most:].decode(errors="replace")


def page_of(gateway):
    """The page for Prometheus without what the gateway says of itself."""
    page = gateway.text("/metrics")
    if page is None:
        return None
    return "".join(line for line in page.splitlines(True) if "kotskhin_gateway_" not in line)


def tables_of(gateway):
    """The table of each stream, by the stream."""
    told = gateway.json("/v1/streams")
    if told is None:
        return None
    tables = {}
    for stream in told["streams"]:
        words = {"scope": stream["scope"], "name": stream["name"], "unit": stream["unit"], "shape": stream["shape"]}
        if "bounds" in stream:
            words["bounds"] = ",".join(map(str, stream["bounds"]))
        query = "&".join(f"{name}={http_word(value)}" for name, value in words.items())
        tables[tuple(words.items())] = gateway.text(f"/v1/table?{query}")
    return None if None in tables.values() else tables


def http_word(text):
    return "".join(letter if letter.isalnum() else "".join(f"%{byte:02X}" for byte in letter.encode()) for letter in text)
