"""What README and docs/use/SERVICE.md say is so: the commands, the queries, the flags, the paths and what a gateway says of itself."""
import contextlib
import os
import pathlib
import re
import shlex
import shutil
import signal
import subprocess
import sys

from fleet import PATIENCE, Fault, Gateway, free_port, until
from kotskhin import COUNTER, HISTOGRAM, Attributes, Plan, Writer, unique_instance
from prometheus import running

TOP = pathlib.Path(__file__).resolve().parents[2]
FLEET = TOP / "examples" / "fleet"
README = (TOP / "README.md").read_text(encoding="utf-8")
PAGE = (TOP / "docs" / "use" / "SERVICE.md").read_text(encoding="utf-8")
ADDRESS, PORT = "127.0.0.1", 19466
# What a gateway that holds nothing answers to a bare request, where it is not 200.
OF_NOTHING = {"/v1/table": 404, "/v1/rows": 404, "/v1/metrics": 415, "/v1/exports": 400, "/v1/messages": 400, "/v1/gone": 400}


def commands(program, room, kit):
    """README's commands print the total that the worker counted."""
    lines = re.search(r"^```sh\n(service/out/kotskhin-gateway.*?)^```$", README, re.M | re.S)[1]
    script, asks = re.split(r"\s+&&\s+sleep 2\s+&&\s+", lines.rstrip())
    folder = room / "documented"
    folder.mkdir()
    shutil.copy(program, folder / "kotskhin-gateway")
    given = {**os.environ, "KOTSKHIN_SO": f"{kit}/shared/libkotskhin.so.0", "PYTHONPATH": str(TOP / "sdk" / "python")}
    given |= {"PYTHONDONTWRITEBYTECODE": "1", "TMPDIR": str(folder)}
    script = script.replace("service/out/", f"{folder}/") + "\nwait"
    with open(folder / "log", "wb") as log:
        process = subprocess.Popen(
            ["sh", "-c", script], cwd=TOP, env=given, stdin=subprocess.DEVNULL, stdout=log, stderr=log, start_new_session=True
        )

    def answer():
        return subprocess.run(shlex.split(asks), capture_output=True, text=True, check=False).stdout

    try:
        # (a machine that is busy may take longer than the page says)
        said = folder / "log"
        until(lambda: re.search(r"^\{\} => 3000 @", answer(), re.M), lambda: f"it prints {answer()!r}\n{said.read_text()[-2000:]}")
    finally:
        os.killpg(process.pid, signal.SIGKILL)
        process.wait()


def fleet(_, room, kit):
    """The example's workers are counted by each gateway, and Prometheus says so."""
    words = [sys.executable, "-B", str(FLEET / "run.py"), str(kit), "go", "python"]
    done = subprocess.run(words, stdin=subprocess.DEVNULL, capture_output=True, text=True, timeout=3 * PATIENCE, check=False)
    if done.returncode or not done.stdout.endswith("each of 3 gateways says what 4 workers counted: 12000\n"):
        raise Fault(f"status {done.returncode}\n{done.stdout[-3000:]}{done.stderr[-3000:]}")


def said_by(*words):
    """What a command prints that must succeed."""
    done = subprocess.run([str(word) for word in words], stdin=subprocess.DEVNULL, capture_output=True, text=True, timeout=PATIENCE, check=False)
    if done.returncode:
        raise Fault(f"{words} ends with status {done.returncode}\n{done.stdout}{done.stderr}")
    return done.stdout


def taught():
    """The query that README teaches."""
    found = re.search(r"promtool query instant \S+ '([^']+)'", README)
    if not found:
        raise Fault("README teaches no query: it has no command `promtool query instant URL 'QUERY'`")
    return found[1]


def pushed(gateways):
    """A worker pushes to each gateway; what all of them counted."""
    plan, total = Plan([("app", "requests", "1", COUNTER), ("app", "latency", "ms", HISTOGRAM)]), 0
    for number, gateway in enumerate(gateways):
        writer = Writer(plan, "shop", unique_instance(), 100)
        for route, value in (("/", 100 + number), ("/pay", 7)):
            writer.measure(0, Attributes({"route": route}), value)
            writer.measure(1, Attributes({"route": route}), value)
            total += value
        status, _, told = gateway.ask("/v1/exports", "POST", writer.collect(200).encode())
        if status != 200:
            raise Fault(f"an export is answered {status}: {told}")
    return total


def queries(program, room, _):
    """Of three gateways README's query and the recording rule give the total once, and the page's queries are ones."""
    ports = [free_port() for _ in range(3)]
    with contextlib.ExitStack() as stack:
        gateways = []
        for number, port in enumerate(ports):
            peers = [f"http://{ADDRESS}:{other}" for other in ports if other != port]
            words = (program, number, ADDRESS, peers, room / f"query{number}", room / f"query{number}.log")
            gateways.append(Gateway(*words, flags=("--gossip-interval", "100ms"), port=port))
            stack.callback(gateways[-1].kill)
            gateways[-1].start()
        until(lambda: all(gateway.is_ready() for gateway in gateways), lambda: gateways[0].tail())
        total, targets = pushed(gateways), [f"{ADDRESS}:{port}" for port in ports]
        rules = [FLEET / "rules.yml"]
        scrapes = stack.enter_context(running(room / "queries", targets, port=free_port(), every="1s", rules=rules))
        # (once each of the three shows all)
        until(lambda: scrapes.ask("sum(requests_total)") == [({}, 3 * total)], lambda: f"it keeps {scrapes.ask('requests_total')}")
        for query in (taught(), "sum(fleet:requests_total:max)"):
            until(lambda: scrapes.ask(query), lambda: f"{query} has no answer")
            told = said_by("promtool", "query", "instant", f"http://{ADDRESS}:{scrapes.port}", query)
            if not told.startswith(f"{{}} => {total} @"):
                raise Fault(f"{query} of three gateways gives {told!r}, and {total} were counted")
        blocks = re.findall(r"^```promql\n(.*?)^```$", PAGE, re.M | re.S)
        for query in (line.split(" #")[0] for block in blocks for line in block.splitlines()):
            said_by("promtool", "query", "instant", f"http://{ADDRESS}:{scrapes.port}", query)
        if not blocks:
            raise Fault("the page has no query")
    return f"{total} once"


def configurations(_, room, __):
    """Prometheus reads the rules of examples/fleet, which do what they say, and the configurations of the page."""
    said_by("promtool", "check", "config", FLEET / "prometheus.yml")
    said_by("promtool", "check", "rules", FLEET / "rules.yml")
    said_by("promtool", "test", "rules", FLEET / "rules_test.yml")
    blocks = re.findall(r"^```yaml\n(scrape_configs:.*?)^```$", PAGE, re.M | re.S)
    for number, block in enumerate(blocks):
        secret = room / f"token{number}"
        secret.write_text("91b7e3f0a8c24d6f5e0a", encoding="utf-8")
        (room / f"page{number}.yml").write_text(re.sub(r"(credentials_file:) \S+", rf"\1 {secret}", block), encoding="utf-8")
        said_by("promtool", "check", "config", room / f"page{number}.yml")
    if not any("credentials_file" in block for block in blocks):
        raise Fault("the page does not say how Prometheus sends a token")


def flags(program, *_):
    """The page has each flag, with its default."""
    told = subprocess.run([program, "--help"], capture_output=True, text=True, check=True).stdout
    found = dict(re.findall(r"^  -([\w-]+).*\n    \t.*?(?:\(default \"?([^)\"]+)\"?\))?$", told, re.M))
    table = PAGE.split("\n## Flags\n")[1].split("\n## ")[0]
    said = {}
    for names, default in (line.split("|")[1:3] for line in table.splitlines() if line.startswith("| `--")):
        names = re.findall(r"`--([\w-]+)`", names)
        defaults = [word.strip("` ") for word in default.split(",")]
        said.update(zip(names, defaults if len(defaults) == len(names) else [""] * len(names)))
    said.pop("help")
    length = {"1m0s": "1m", "2m0s": "2m", "1h0m0s": "1h"}
    found = {name: length.get(default, default) for name, default in found.items()}
    if found != said:
        raise Fault(f"the page says {sorted(said.items() - found.items())}, and --help {sorted(found.items() - said.items())}")


def ends(program, room, _):
    """The statuses of the program."""
    early = "--archive shop --archive-after 79s --peer http://127.0.0.1:1"
    refused = (("--loud", 2), ("word", 2), ("--log-level loud", 2), (early, 2), ("--listen 256.0.0.1:1", 1))
    for words, status in (("--version", 0), ("--help", 0), *refused):
        done = subprocess.run([program, *words.split()], capture_output=True, text=True, timeout=60, check=False)
        if done.returncode != status or not done.stdout + done.stderr:
            raise Fault(f"{words}: status {done.returncode}\n{done.stdout}{done.stderr}")
    gateway = Gateway(program, 1, ADDRESS, [], room / "ends", room / "ends.log", port=PORT)
    gateway.start()
    until(gateway.is_ready, gateway.tail)
    if gateway.stop() != 0 or '"message":"ended","saved":true' not in gateway.tail():
        raise Fault(f"it does not end in order\n{gateway.tail()}")


def paths(program, room, _):
    """Each path of the page answers, and the figures are those that it names."""
    gateway = Gateway(program, 1, ADDRESS, ["http://127.0.0.1:1"], room / "paths", room / "paths.log", port=PORT)
    gateway.start()
    try:
        until(gateway.is_ready, gateway.tail)
        for method, path in re.findall(r"^\| `(GET|POST) (/\S+)` \|", PAGE, re.M):
            status, _, told = gateway.ask(path, method, b"" if method == "POST" else None)
            if status != OF_NOTHING.get(path, 200):
                raise Fault(f"{method} {path} answers {status}: {told}")
        page = gateway.text("/metrics")
        found = set(re.findall(r"^# TYPE kotskhin_gateway(_\S+)", page, re.M))
        section = PAGE.split("\n## What it says of itself\n")[1].split("\n## ")[0]
        said = {found.removeprefix("kotskhin_gateway") for found in re.findall(r"`((?:kotskhin_gateway)?_\w+)`", section)}
        # (what was never counted has no sample)
        if not found <= said or not {"_requests_total", "_held_points", "_peer_lag_seconds", "_journal_bytes", "_refused_total"} <= found:
            raise Fault(f"the page does not name {sorted(found - said)}; it has {sorted(found)}")
    finally:
        gateway.kill()


def trials(program, room, kit, is_alone):
    calls = [("the flags", flags), ("how it ends", ends), ("the paths", paths), ("the queries of three gateways", queries)]
    calls.append(("Prometheus' configurations", configurations))
    if is_alone:
        calls.append(("README's commands", commands))
    return [(what, lambda call=call: call(program, room, kit)) for what, call in calls]
