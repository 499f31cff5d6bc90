#!/usr/bin/env python3
"""Four workers and three gateways, each a process of its own, over a broker: Redis, whose streams are a log with groups of readers.

    KOTSKHIN_SO=PATH run.py          PATH is the shared library that docs/use/SDK.md makes

Why streams: an entry stays until it is acknowledged, and goes to another reader where the first one died, so it comes at least once;
that it may come twice, and late, is what a gateway does not mind. Lists lose what a reader took along, and channels keep nothing.

The broker runs on a free port of the loopback, keeps nothing on disk, and is stopped at the end. In the middle worker 3 dies and comes
back, as a later incarnation; gateway 3 is killed and comes back as gateway 4, since an id is that of one gateway's state. Exports
and the messages by which gateways tell each other come twice and out of order. At the end each gateway prints its table: they must be the same, and
their total what the workers counted."""
import contextlib
import pathlib
import random
import shutil
import signal
import socket
import subprocess
import sys
import tempfile
import time

from resp import Redis
from shared import ALL, COUNTED, EXPORTS, GROUP, PEERS, SECOND, SECONDS
from worker import DIED

HERE = pathlib.Path(__file__).resolve().parent
WORKERS, LATE_WORKER, KILLED, RISEN = (1, 2, 3, 4), 3, 3, 4


class BrokerEnded(Exception):
    """The broker ended at once, as it does where another process took its port."""


def free_port():
    """A port that is free, below those that the system gives to who asks for any: so nobody gets it until it is used."""
    while True:
        with socket.socket() as found, contextlib.suppress(OSError):
            found.bind(("127.0.0.1", random.randrange(20_000, 32_000)))
            return found.getsockname()[1]


@contextlib.contextmanager
def broker():
    """A broker of our own, and a client of it."""
    with tempfile.TemporaryDirectory() as room:
        port = free_port()
        command = ["redis-server", "--port", port, "--bind", "127.0.0.1", "--save", "", "--appendonly", "no", "--dir", room]
        server = subprocess.Popen([str(word) for word in command], stdin=subprocess.DEVNULL, stdout=subprocess.DEVNULL)
        try:
            yield port, client(port, server)
        finally:
            server.terminate()
            server.wait(SECONDS)


def client(port, server):
    """A client, once the server takes one."""
    end = time.monotonic() + SECONDS
    while server.poll() is None and time.monotonic() < end:
        with contextlib.suppress(ConnectionRefusedError):
            return Redis(port, SECONDS)
        time.sleep(0.01)
    raise BrokerEnded("the broker does not start")


class Processes:
    """The processes that run, of which none is left behind."""

    def __init__(self, port):
        self.port, self.all = port, []

    def start(self, program, number, *more):
        command = [sys.executable, "-B", str(HERE / program), str(self.port), str(number), *more]
        process = subprocess.Popen(command, stdin=subprocess.DEVNULL, stdout=subprocess.PIPE, text=True)
        self.all.append(process)
        return process

    def __enter__(self):
        return self

    def __exit__(self, *_):
        for process in self.all:
            if process.poll() is None:
                process.kill()
            process.communicate()


def ended(process, wanted=0):
    """What a process printed, which must end with this status."""
    printed, _ = process.communicate(timeout=SECONDS)
    if process.returncode != wanted:
        raise SystemExit(f"{process.args[2:]}: status {process.returncode}")
    return printed


def tables(port, redis):
    """What each gateway printed at the end."""
    redis("XGROUP", "CREATE", EXPORTS, GROUP, "0", "MKSTREAM")
    with Processes(port) as processes:
        gateways = {id_: processes.start("gateway.py", id_) for id_ in (1, 2, KILLED)}
        workers = {number: processes.start("worker.py", number, *["dies"] * (number == LATE_WORKER)) for number in WORKERS}
        ended(workers[LATE_WORKER], DIED)
        workers[LATE_WORKER] = processes.start("worker.py", LATE_WORKER)
        gateways[KILLED].kill()
        ended(gateways.pop(KILLED), -signal.SIGKILL)
        redis("SREM", PEERS, KILLED)
        gateways[RISEN] = processes.start("gateway.py", RISEN)
        for worker in WORKERS:
            redis("LPUSH", SECOND(worker), "go")
        for worker in workers.values():
            ended(worker)
        redis("SET", ALL, "1")
        return {number: ended(gateway) for number, gateway in gateways.items()}


def told():
    """What each gateway printed at the end, and what each incarnation counted. A port that was free may be taken once it is used."""
    for _ in range(5):
        with contextlib.suppress(BrokerEnded), broker() as (port, redis):
            return tables(port, redis), [int(text.split()[1]) for text in redis("HGETALL", COUNTED)[1::2]]
    raise SystemExit("the broker does not start")


def main():
    if not shutil.which("redis-server"):
        raise SystemExit("there is no redis-server")
    printed, counted = told()
    table, *others = printed.values()
    print(table, end="")
    if any(other != table for other in others):
        raise SystemExit(f"the tables differ: {printed}")
    total = sum(int(row.split()[-1]) for row in table.splitlines()[1:])
    if total != sum(counted):
        raise SystemExit(f"{total} are told, and {sum(counted)} were counted")
    print(f"gateways {', '.join(map(str, printed))} say the same: {total}, as {len(counted)} incarnations of {len(WORKERS)} workers counted")


if __name__ == "__main__":
    main()
