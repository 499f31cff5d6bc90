"""Bad input: random and changed bodies to each path, cut bodies, slow senders, wrong tokens. Nothing is taken, and nothing grows."""
import gzip
import random
import signal
import socket
import threading
import time

from fleet import ANSWER, Fault, Gateway, asked, page_of, until
from kotskhin import COUNTER, GAUGE, HISTOGRAM, Attributes, Plan, Writer
from kotskhin import Gateway as Kit

ADDRESS, PORT = "127.0.0.1", 19465
WRITES, NOBODY, PEERS = "writes-0123456789abcdef", "nobody-0123456789abcdef", "peers-0123456789abcdef"
TOKENS = f"{WRITES} write shop\n{NOBODY} write nobody\n{PEERS} peer nobody\n"
MOST_GROWTH = 64 << 20
THREADS = 4
TYPES = {
    "/v1/exports": "application/vnd.kotskhin.export", "/v1/metrics": "application/x-protobuf", "/v1/messages": "application/vnd.kotskhin.message",
}
# What each path may answer to bodies that are bad, or speak for a service that is not the sender's. A request of OTLP that has nothing in
# it, or nothing that has a counterpart, is answered 200: then nothing is taken, too.
MAY = {"/v1/exports": {400, 403}, "/v1/metrics": {200, 400, 403, 413}, "/v1/messages": {400, 403, 421}}


def sample():
    """An export with something of each kind."""
    plan = Plan([("app", "requests", "1", COUNTER), ("app", "latency", "ms", HISTOGRAM), ("app", "heat", "C", GAUGE)])
    writer = Writer(plan, "shop", 7, 100)
    for number in range(40):
        for instrument in range(3):
            pairs = {"route": f"/{number % 7}", "status": 200 + number % 3, "ok": number % 2 == 0}
            writer.measure(instrument, Attributes(pairs), number * 17)
    return writer.collect(time.time_ns())


def seeds_of(identity):
    """A good body for each path, as for a gateway of this id."""
    export = sample()
    node = Kit(identity ^ 1)
    node.take(export)
    return {"/v1/exports": export.encode(), "/v1/metrics": export.otlp(), "/v1/messages": node.send(identity).encode()}


def mutated(chance, good):
    """A body that is not the good one."""
    way = chance.randrange(7)
    if way == 0:
        return chance.randbytes(chance.randrange(200))
    if way == 1:
        return good[: chance.randrange(len(good))]
    if way == 2:
        return good[: 5 + chance.randrange(20)] + chance.randbytes(chance.randrange(100))
    made = bytearray(good)
    for _ in range(1 + chance.randrange(8)):
        at = chance.randrange(len(made))
        if way == 3:
            made[at] ^= 1 << chance.randrange(8)
        elif way == 4:
            made[at] = chance.randrange(256)
        elif way == 5:
            del made[at : at + 1 + chance.randrange(6)]
        else:
            made[at:at] = chance.randbytes(1 + chance.randrange(6))
    return bytes(made) if bytes(made) != good else good + b"\0"


class Trial:
    """A gateway with tokens, and what it shows before."""

    def __init__(self, program, room, read="60s"):
        self.tokens = room / "tokens"
        self.tokens.write_text(TOKENS)
        limits = ("--read-timeout", read, "--max-body", "256KiB", "--max-connections", "64")
        flags = ("--token-file", str(self.tokens), *limits, "--log-level", "error")
        self.gateway = Gateway(program, 1, ADDRESS, [], room / "bad", room / "bad.log", flags=flags, port=PORT)

    def __enter__(self):
        self.gateway.start()
        until(self.gateway.is_ready, lambda: f"it is not ready\n{self.gateway.tail()}")
        self.identity = self.gateway.json("/v1/peers")["id"]
        self.good = seeds_of(self.identity)["/v1/exports"]
        status, told = self.post("/v1/exports", self.good, WRITES)
        if status != 200:
            raise Fault(f"a good export is answered {status}: {told}")
        self.page, self.kept = page_of(self.gateway), self.on_disk()
        return self

    def __exit__(self, *_):
        self.gateway.kill()

    def post(self, path, body, token, **heads):
        heads = {name.replace("_", "-"): value for name, value in heads.items()}
        heads = {"Content-Type": TYPES.get(path, "text/plain"), "Authorization": f"Bearer {token}", **heads}
        status, _, told = asked(ADDRESS, "POST", path, body, heads, port=PORT)
        return status, told

    def on_disk(self):
        return sum(path.stat().st_size for path in self.gateway.state.iterdir())

    def resident(self):
        for line in open(f"/proc/{self.gateway.process.pid}/status"):
            if line.startswith("VmRSS"):
                return int(line.split()[1]) << 10
        return 0

    def unchanged(self):
        # (there is a page once there is room for one more connection)
        if until(lambda: page_of(self.gateway), lambda: f"it shows no page\n{self.gateway.tail()}") != self.page:
            raise Fault("something was taken")
        if self.on_disk() != self.kept:
            raise Fault("something was kept on disk")


def bodies(program, room, count):
    """Random and changed bodies, some as gzip, to each path."""
    with Trial(program, room) as trial:
        good, answers, faults = seeds_of(trial.identity), {path: {} for path in TYPES}, []

        def send(number):
            chance = random.Random(f"bad {number}")
            for _ in range(number, count, THREADS):
                for path in TYPES:
                    body = mutated(chance, good[path])
                    token = PEERS if path == "/v1/messages" else NOBODY
                    zips = chance.random() < 0.2
                    heads = {"Content_Encoding": "gzip"} if zips else {}
                    status, told = trial.post(path, gzip.compress(body) if zips else body, token, **heads)
                    answers[path][status] = answers[path].get(status, 0) + 1
                    if status not in MAY[path]:
                        faults.append(f"{path}: {status} {told[:200]} to {body[:200].hex()}")

        def warm():
            for path in TYPES:
                for _ in range(50):
                    trial.post(path, b"bad", NOBODY)

        warm()
        before = trial.resident()
        hands = [threading.Thread(target=send, args=(number,)) for number in range(THREADS)]
        for hand in hands:
            hand.start()
        for hand in hands:
            hand.join()
        if faults:
            raise Fault(f"{len(faults)} have another status, as\n{faults[0]}")
        trial.unchanged()
        grown = trial.resident() - before
        if grown > MOST_GROWTH:
            raise Fault(f"it grew by {grown} bytes")
        return {**answers, "grown by MB": round(grown / 1e6, 1)}


def queries(program, room, count):
    """Random queries to what is read."""
    with Trial(program, room) as trial:
        answers = {}
        for number in range(count):
            chance = random.Random(f"query {number}")
            words = ["scope", "name", "unit", "shape", "bounds", "service", "where", "keep", "other", ""]
            values = ["app", "requests", "%00", "%ff", "route=/1", "=", ",", "histogram", "%22", "5,10", ""]
            query = "&".join(f"{chance.choice(words)}={chance.choice(values)}" for _ in range(chance.randrange(5)))
            path = chance.choice(["/v1/table", "/v1/rows", "/v1/streams", "/metrics", "/v1/peers", "/", "/v1", "/v1/rows/", "//metrics"])
            method = chance.choice(["GET", "GET", "GET", "POST", "PUT", "DELETE", "HEAD"])
            status, _, told = asked(ADDRESS, method, f"{path}?{query}", port=PORT)
            answers[status] = answers.get(status, 0) + 1
            if status not in (200, 400, 401, 404, 405):
                raise Fault(f"{path}?{query}: {status} {told[:200]}")
        trial.unchanged()
        return dict(sorted(answers.items()))


def tokens(program, room, count):
    with Trial(program, room) as trial:
        good = seeds_of(trial.identity)
        for path, token, status in (
            ("/v1/exports", "", 401), ("/v1/exports", WRITES[:-1], 401), ("/v1/exports", WRITES + "x", 401), ("/v1/exports", NOBODY, 403),
            ("/v1/exports", PEERS, 403), ("/v1/metrics", "x", 401), ("/v1/metrics", NOBODY, 403), ("/v1/metrics", PEERS, 403),
            ("/v1/messages", "", 401), ("/v1/messages", WRITES, 403), ("/v1/messages", PEERS, 403),
            ("/v1/gone?peer=127.0.0.1:1", "", 401), ("/v1/gone?peer=127.0.0.1:1", WRITES, 403), ("/v1/gone?peer=127.0.0.1:1", PEERS, 403),
        ):
            found, told = trial.post(path, good.get(path, b""), token)
            if found != status:
                raise Fault(f"{path} with {token!r}: {found}, and not {status}: {told}")
        chance = random.Random("tokens")
        for _ in range(count):
            token = "".join(chance.choice(" abcdef0123456789-\t~") for _ in range(chance.randrange(40)))
            if (found := trial.post("/v1/exports", good["/v1/exports"], token)[0]) not in (400, 401):
                raise Fault(f"{token!r}: {found}")
        trial.unchanged()


def changed_tokens(program, room, count):
    """Tokens are read again on SIGHUP, and once the file changes; a bad file is told, and changes nothing."""
    with Trial(program, room) as trial:
        later = "later-0123456789abcdef"

        def put(words):
            beside = trial.tokens.with_name("tokens.new")
            beside.write_text(words)
            beside.replace(trial.tokens)

        def are(known, unknown):
            # (what was taken before: it changes nothing)
            return [trial.post("/v1/exports", trial.good, token)[0] for token in (known, unknown)] == [200, 401]

        put(TOKENS.replace(WRITES, later))
        trial.gateway.signal(signal.SIGHUP)
        until(lambda: are(later, WRITES), "a signal has no token read again")
        put("short write shop\n")
        trial.gateway.signal(signal.SIGHUP)
        until(lambda: "the tokens were not read again" in trial.gateway.tail(), "a bad file is not told")
        if not are(later, WRITES):
            raise Fault("a bad file changes tokens")
        put(TOKENS)
        until(lambda: are(WRITES, later), "a change is not seen")
        if page_of(trial.gateway) != trial.page:
            raise Fault("something else was taken")


def opened(head=b""):
    made = socket.create_connection((ADDRESS, PORT), timeout=ANSWER)
    made.sendall(head)
    return made


def head_of(path, length, token):
    lines = [f"POST {path} HTTP/1.1", "Host: gateway", f"Authorization: Bearer {token}", f"Content-Type: {TYPES[path]}"]
    lines.append(f"Content-Length: {length}")
    return "".join(f"{line}\r\n" for line in [*lines, ""]).encode()


def rest_of(made):
    """All that comes until the other side ends."""
    told = b""
    try:
        while piece := made.recv(4096):
            told += piece
    except OSError:
        pass
    made.close()
    return told


def cut(program, room, count):
    """Bodies that end before they are whole, in either way."""
    with Trial(program, room) as trial:
        chance = random.Random("cut")
        for path, good in seeds_of(trial.identity).items():
            token = PEERS if path == "/v1/messages" else WRITES
            for _ in range(max(count // 10, 10)):
                made = opened(head_of(path, len(good), token) + good[: chance.randrange(len(good))])
                if chance.random() < 0.5:
                    made.shutdown(socket.SHUT_WR)
                    status = rest_of(made).split(b" ")[1:2]
                    if status != [b"400"]:
                        raise Fault(f"{path}: a cut body is answered {status}")
                else:
                    made.close()
        until(lambda: trial.gateway.text("/healthz"), "it is not alive")
        trial.unchanged()


def slow(program, room, count):
    """Senders that send a byte now and then are ended in time, and the others are answered meanwhile."""
    with Trial(program, room, read="2s") as trial:
        good = seeds_of(trial.identity)["/v1/exports"]
        senders = [opened(head_of("/v1/exports", len(good), WRITES) + good[:10]) for _ in range(20)]
        senders += [opened(b"GET /metrics HTTP/1.1\r\nHost:") for _ in range(20)]
        began, answered = time.monotonic(), 0
        while time.monotonic() - began < 1.5:
            for made in senders:
                try:
                    made.sendall(good[10:11])
                except OSError:
                    pass
            answered += trial.gateway.text("/healthz") is not None
            time.sleep(0.1)
        statuses = [rest_of(made).split(b" ")[1:2] for made in senders]
        took = time.monotonic() - began
        if not answered or took > ANSWER:
            raise Fault(f"{answered} were answered beside slow senders, which were there for {took:.1f} s")
        if not all(status in ([b"408"], [b"400"], []) for status in statuses) or [b"408"] not in statuses:
            raise Fault(f"slow senders are answered {statuses}")
        trial.unchanged()
        return {"seconds until they were ended": round(took, 1)}


def connections(program, room, count):
    """More connections than may be open are answered 503, and once some end there is room again."""
    with Trial(program, room) as trial:
        held = [opened() for _ in range(64)]

        def is_full():
            """Where one more is answered, a connection of before was open still as these came, and one of these had no room."""
            if trial.gateway.ask("/healthz")[0] == 503:
                return True
            held.append(opened())
            return False

        until(is_full, "it takes as many connections as come", patience=ANSWER, pause=0.02)
        for made in held:
            made.close()
        until(lambda: trial.gateway.ask("/healthz")[0] == 200, "there is no room again")
        trial.unchanged()


def trials(program, room, count):
    return [
        (what, lambda call=call: call(program, room, count))
        for what, call in (
            (f"{count} bodies to each path", bodies), (f"{count} queries", queries), ("wrong tokens", tokens),
            ("tokens that change", changed_tokens), ("bodies that are cut", cut),
            ("slow senders", slow), ("too many connections", connections),
        )
    ]
