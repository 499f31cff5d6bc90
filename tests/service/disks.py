"""What is kept on disk: it comes back after a kill, a damaged file is told and set aside, and a full disk refuses."""
import json
import signal
import time

from fleet import Fault, Gateway, until
from kotskhin import COUNTER, Attributes, Plan, Writer

ADDRESS, PORT = "127.0.0.1", 19464
PLAN = (("service.test", "requests", "1", COUNTER),)


def pushed(gateway, instance, value, status=200):
    """Pushes an export of a writer that counted a value."""
    writer = Writer(Plan(PLAN), "shop", instance, 100)
    writer.measure(0, Attributes({}), value)
    found, _, told = gateway.ask("/v1/exports", "POST", writer.collect(time.time_ns()).encode())
    if found != status:
        raise Fault(f"an export is answered {found}, and not {status}: {told}\n{gateway.tail()}")


def total(gateway):
    told = gateway.json("/v1/rows?name=requests")
    return sum(int(row["total"]) for row in told["rows"]) if told else 0


def holds(gateway, wanted):
    if total(gateway) != wanted:
        raise Fault(f"it holds {total(gateway)}, and not {wanted}\n{gateway.tail()}")


class Trial:
    """A gateway alone, with a folder of its own."""

    def __init__(self, program, room, name, *flags):
        self.folder = room / f"disk {name}"
        flags = ("--save-interval", "1h", *flags)
        self.gateway = Gateway(program, 1, ADDRESS, [], self.folder, room / f"disk {name}.log", flags=flags, port=PORT)

    def __enter__(self):
        self.start()
        return self

    def __exit__(self, *_):
        self.gateway.kill()

    def start(self):
        self.gateway.start()
        until(self.gateway.is_ready, lambda: f"it is not ready\n{self.gateway.tail()}")

    def again(self, change=lambda: None, by=signal.SIGKILL):
        """Ends it, changes something, and begins it anew."""
        self.gateway.signal(by)
        self.gateway.wait()
        change()
        self.start()

    def set_aside(self, count):
        """As many files are set aside, and it says so."""
        found = sorted(path.name for path in self.folder.glob("*.damaged-*"))
        lines = [json.loads(line) for line in self.gateway.log.read_text().splitlines() if line.startswith("{")]
        told = [line for line in lines if line["level"] == "error" and "set aside" in line["message"]]
        if len(found) != count or len(told) != count:
            raise Fault(f"{found} are set aside, and {told} is told, where {count} were damaged")


def changed(file, at):
    content = bytearray(file.read_bytes())
    content[at] ^= 0x55
    file.write_bytes(content)


def comes_back(program, room):
    with Trial(program, room, "kept") as trial:
        pushed(trial.gateway, 1, 5)
        trial.again()
        holds(trial.gateway, 5)
        pushed(trial.gateway, 2, 7)
        trial.again(by=signal.SIGTERM)
        holds(trial.gateway, 12)
        pushed(trial.gateway, 1, 6)
        trial.again()
        holds(trial.gateway, 13)
        trial.set_aside(0)
        if not (trial.folder / "state.ktsm").is_file() or (trial.folder / "state.part").exists():
            raise Fault("there is no state, or half of one")


def is_read_by_otm_form(program, room):
    """The state is a message as docs/use/FILES.md has it: the Python kit reads it."""
    from kotskhin import Gateway as Kit

    with Trial(program, room, "form") as trial:
        pushed(trial.gateway, 1, 5)
        trial.gateway.stop()
        with Kit(2) as kept:
            kept.merge_bytes((trial.folder / "state.ktsm").read_bytes())
            if "5\n" not in kept.sum("service.test", "requests", "1"):
                raise Fault("the state is of something else")


def damaged_state(program, room):
    with Trial(program, room, "state") as trial:
        pushed(trial.gateway, 1, 5)
        trial.again(by=signal.SIGTERM)
        pushed(trial.gateway, 2, 7)
        trial.again(lambda: changed(trial.folder / "state.ktsm", 20))
        holds(trial.gateway, 7)
        trial.set_aside(1)
        trial.again()
        holds(trial.gateway, 7)


def cut_state(program, room):
    with Trial(program, room, "cut") as trial:
        pushed(trial.gateway, 1, 5)
        state = trial.folder / "state.ktsm"
        trial.again(lambda: state.write_bytes(state.read_bytes()[:-9]), by=signal.SIGTERM)
        holds(trial.gateway, 0)
        trial.set_aside(1)


def damaged_journal(program, room):
    with Trial(program, room, "journal") as trial:
        for instance, value in ((1, 5), (2, 7), (3, 11)):
            pushed(trial.gateway, instance, value)

        def damage():
            (file,) = (path for path in trial.folder.glob("journal.*") if path.stat().st_size > 5)
            length = int.from_bytes(file.read_bytes()[5:9], "big")
            changed(file, 5 + 8 + length + 8 + 10)

        trial.again(damage)
        holds(trial.gateway, 5)
        trial.set_aside(1)


def cut_journal(program, room):
    """The last record of a process that was killed may be cut: nobody was told of it."""
    with Trial(program, room, "tail") as trial:
        pushed(trial.gateway, 1, 5)
        pushed(trial.gateway, 2, 7)

        def cut():
            (file,) = (path for path in trial.folder.glob("journal.*") if path.stat().st_size > 5)
            file.write_bytes(file.read_bytes()[:-3])

        trial.again(cut)
        holds(trial.gateway, 5)
        trial.set_aside(0)


def one_process(program, room):
    with Trial(program, room, "one") as trial:
        other = Gateway(program, 2, ADDRESS, [], trial.folder, room / "other.log", port=PORT + 1)
        other.start()
        if other.wait() != 1 or "another process has" not in other.tail():
            raise Fault(f"two processes have one folder\n{other.tail()}")


def full_disk(program, room):
    from network import Disks

    place = room / "small"
    place.mkdir()
    disks = Disks(place, 1, size="1m")
    try:
        if not disks.mounted:
            return "left out: no disk can be mounted here"
        gateway = Gateway(program, 1, ADDRESS, [], disks.folders[1], room / "full.log", flags=("--save-interval", "1s"), port=PORT)
        gateway.start()
        try:
            until(gateway.is_ready, "it is not ready")
            pushed(gateway, 1, 5)
            disks.fill(1)
            # (what is left of the last page takes some)
            until(lambda: refused(gateway), "a full disk refuses nothing", pause=0)
            kept = total(gateway)
            if not refused(gateway):
                raise Fault("what was refused is taken where nothing changed")
            holds(gateway, kept)
            disks.free(1)
            until(lambda: not refused(gateway), "a disk that has room again refuses")
            kept = total(gateway)
            gateway.kill()
            gateway.start()
            until(gateway.is_ready, lambda: f"it is not ready\n{gateway.tail()}")
            holds(gateway, kept)
        finally:
            gateway.kill()
    finally:
        disks.close()
    return None


def refused(gateway):
    """Whether one more export is refused; it is of a writer of its own."""
    refused.instance += 1
    writer = Writer(Plan(PLAN), "shop", refused.instance, 100)
    writer.measure(0, Attributes({}), 1)
    status, _, told = gateway.ask("/v1/exports", "POST", writer.collect(time.time_ns()).encode())
    if status not in (200, 503):
        raise Fault(f"an export is answered {status}: {told}")
    return status == 503


refused.instance = 1000


def trials(program, room):
    return [
        (what, lambda call=call: call(program, room))
        for what, call in (
            ("what was taken comes back after a kill", comes_back), ("the state is a file of the kit", is_read_by_otm_form),
            ("a damaged state is set aside", damaged_state), ("a cut state is set aside", cut_state),
            ("a damaged journal is set aside", damaged_journal), ("a cut journal is read to its cut", cut_journal),
            ("a folder is of one process", one_process), ("a full disk refuses", full_disk),
        )
    ]
