#!/usr/bin/env python3
"""The gateway as a service: service/cmd/kotskhin-gateway, as its processes do what docs/use/SERVICE.md says.

    run.py [FOLDER]                            the short form, as the gate runs it
    run.py --seeds 200 [--first 1] [FOLDER]    the chaos test alone, of so many seeds
    run.py --bad 10000 [FOLDER]                bad input alone, so many bodies to each path
    run.py --soak 30000 [FOLDER]               archives alone, so many incarnations that come and go
    run.py --fleet [FOLDER]                    examples/fleet alone, which builds a worker and takes longer
    run.py --load [FOLDER]                     how much one gateway takes, beside a Pushgateway

FOLDER is what sdk/build made; where none is given it is made of crates/kit_c/out/libkit_c.a, as in tests/sdk. Nothing is proved here.

The chaos test: three gateways, each in a network namespace of its own, and eight workers that count, push and are told what was taken. From
a seed a nemesis kills and restarts gateways, parts them by iptables, loses packets, stops processes, fills the disks of their states, has a
proxy bring exports late, twice and out of order, and has workers die and come back. Half-way all rest, and one gateway adopts each life:
workers that go on are told that they are late, and begin another one. In the end all heals. Then each gateway's tables and its page must be
the same, and what Prometheus keeps of each; and of each life they say one collection, none before the newest of which the worker was told.
Where no namespaces can be made, gateways live on addresses of the loopback with links that are cut, without loss, and
this is told.

Archives: workers come, end and are adopted while a Prometheus scrapes two gateways, of which one adopts. No series is reset, and each grows
as it was counted. Then many incarnations go through one gateway that could hold few of them, and its memory stays as it is.

The module: its files are as gofmt has them, `go vet` and staticcheck find nothing, and the tests of its packages pass.

Bad input: random and changed bodies to each path, cut bodies, slow senders, wrong tokens. Each has its status, and nothing is taken. Disks:
a damaged state and a damaged journal are told and set aside, and a full disk refuses. Docs: the commands of README print their total, its
query of three gateways and the rules of examples/fleet give the total once, Prometheus reads the configurations, and docs/use/SERVICE.md has the
flags, the paths and the figures that there are.

It ends with a status other than 0 where one of these does not hold. What is not on this machine is a fault, unless GATE_WITHOUT names
it."""
import argparse
import contextlib
import os
import pathlib
import shutil
import signal
import subprocess
import sys
import tempfile
import time

sys.dont_write_bytecode = True
HERE = pathlib.Path(__file__).resolve().parent
TOP = HERE.parents[1]
SDK, SERVICE = TOP / "sdk", TOP / "service"
ARCHIVE = TOP / "crates" / "kit_c" / "out" / "libkit_c.a"
sys.path[:0] = [str(HERE), str(SDK / "python")]
sys.path.append(str(HERE.parent / "gate"))
import checks

WANTED = ("go", "go-staticcheck", "pkg-config", "prometheus")
# How long the short form's chaos goes on for a seed, and its seeds.
SECONDS, SEEDS, BAD, SOAK = 5, 2, 300, 1500
INSIDE = "KOTSKHIN_SERVICE_INSIDE"


def asked():
    parser = argparse.ArgumentParser(description="Tries the gateway as a service.")
    parser.add_argument("folder", nargs="?", type=pathlib.Path)
    parser.add_argument("--seeds", type=int, default=0)
    parser.add_argument("--first", type=int, default=1)
    parser.add_argument("--seconds", type=float, default=SECONDS)
    parser.add_argument("--bad", type=int, default=0)
    parser.add_argument("--soak", type=int, default=0)
    parser.add_argument("--fleet", action="store_true")
    parser.add_argument("--load", action="store_true")
    return parser.parse_args()


def is_missing():
    """Whether something is not there that is wanted, and whether all of this is left out on purpose."""
    left_out = set(os.environ.get("GATE_WITHOUT", "").split(","))
    for name in WANTED:
        if name in left_out:
            print(f"service: {name} is left out, as GATE_WITHOUT says: nothing is tried")
            sys.exit(0)
        if not shutil.which(name):
            sys.exit(f"service: there is no {name} on this machine, and GATE_WITHOUT does not name it")


def laid_out(kit):
    if not ARCHIVE.is_file():
        sys.exit(f"there is no {ARCHIVE.relative_to(TOP)}: `rt lib` in crates/kit_c builds it")
    command = [sys.executable, "-B", str(SDK / "build"), "--archive", str(ARCHIVE), str(kit)]
    if subprocess.run(command, stdin=subprocess.DEVNULL, check=False).returncode:
        sys.exit("the archive was not laid out")


def in_module(kit, room, *command):
    """What a command comes to in the service's module, and what it prints."""
    given = {**os.environ, "PKG_CONFIG_PATH": f"{kit}/lib/pkgconfig", "GOFLAGS": "-mod=mod -buildvcs=false", "GOPROXY": "off"}
    if "HOME" not in given:
        given = {"GOCACHE": str(room / "go"), "STATICCHECK_CACHE": str(room / "staticcheck"), **given}
    done = subprocess.run(command, cwd=SERVICE, env=given, stdin=subprocess.DEVNULL, capture_output=True, text=True, check=False)
    return done.returncode, done.stdout + done.stderr


def built(kit, room):
    """The gateway's program."""
    program = room / "kotskhin-gateway"
    status, told = in_module(kit, room, "go", "build", "-o", str(program), "./cmd/kotskhin-gateway")
    if status:
        sys.exit(f"the gateway is not built:\n{told}")
    return program


class Run:
    """What was tried, and what failed."""

    def __init__(self, given, program, room):
        self.given, self.program, self.room, self.passed, self.failed = given, program, room, 0, 0

    def try_it(self, what, call):
        from fleet import Fault

        began = time.monotonic()
        try:
            told = call()
        except (Fault, OSError, subprocess.SubprocessError) as fault:
            self.failed += 1
            checks.note(what, False)
            print(f"{what}: FAILED: {fault}", flush=True)
            return
        self.passed += 1
        checks.note(what, True)
        print(f"{what}: ok, in {time.monotonic() - began:.1f} s{'' if told is None else f': {told}'}", flush=True)

    def module(self, kit):
        """The service's files are as gofmt has them, vetted and checked, and the tests of its packages pass."""
        from fleet import Fault

        def tried(*command):
            status, told = in_module(kit, self.room, *command)
            if status or command[0] == "gofmt" and told:
                raise Fault(f"{' '.join(command)}: status {status}\n{told}")

        self.try_it("the module: as gofmt has it", lambda: tried("gofmt", "-l", "."))
        self.try_it("the module: vetted", lambda: tried("go", "vet", "./..."))
        self.try_it("the module: staticcheck", lambda: tried("go-staticcheck", "./..."))
        self.try_it("the module: its tests", lambda: tried("go", "test", "-count=1", "-timeout=50m", "./..."))

    def chaos(self, seeds):
        import chaos
        import prometheus
        from fleet import PORT, free_port

        with contextlib.ExitStack() as stack:
            network, disks = network_of(stack, self.room)
            targets = [f"{address}:{PORT}" for address in network.addresses.values()]
            scrapes = stack.enter_context(prometheus.running(self.room / "prometheus", targets, port=free_port()))
            for seed in seeds:
                self.try_it(
                    f"chaos, seed {seed}",
                    lambda: chaos.Seed(seed, self.program, network, disks, scrapes, self.room).run(self.given.seconds),
                )

    def bad(self, count):
        import bad

        for what, call in bad.trials(self.program, self.room, count):
            self.try_it(f"bad input: {what}", call)

    def disks(self):
        import disks

        for what, call in disks.trials(self.program, self.room):
            self.try_it(f"disks: {what}", call)


    def archives(self, count):
        import archives

        for what, call in archives.trials(self.program, self.room, count):
            self.try_it(f"archives: {what}", call)

    def documented(self, kit):
        import documented

        # (README's commands have ports that somebody else may have outside)
        for what, call in documented.trials(self.program, self.room, kit, bool(os.environ.get(INSIDE))):
            self.try_it(f"docs: {what}", call)


def network_of(stack, room):
    import chaos
    import network
    from fleet import PORT
    from proxy import Loopback

    disks = network.Disks(room, chaos.GATEWAYS)
    stack.callback(disks.close)
    if not disks.mounted:
        print("service: no disk can be mounted here: none is filled")
    if os.environ.get(INSIDE):
        return stack.enter_context(network.namespaces(chaos.GATEWAYS)), disks
    made = Loopback(chaos.GATEWAYS, PORT)
    stack.callback(made.close)
    return made, disks


def go_inside():
    """Begins anew in a network of this test's own, where one can be made. Its namespaces and disks end with it."""
    import network

    if os.environ.get(INSIDE):
        network.enter()
        return
    why = network.is_there()
    if why:
        print(f"service: no namespaces can be made here, so links are cut, and nothing is lost on them: {why}", flush=True)
        return
    os.environ[INSIDE] = "1"
    os.execvp(network.OWN[0], [*network.OWN, sys.executable, "-B", str(HERE / "run.py"), *sys.argv[1:]])


def main():
    # (whoever ends this has all ended that it began)
    signal.signal(signal.SIGTERM, lambda *_: sys.exit("ended from outside"))
    given, began = asked(), time.time()
    is_missing()
    go_inside()
    with tempfile.TemporaryDirectory() as made:
        room = pathlib.Path(made)
        kit = given.folder.resolve() if given.folder else room / "kit"
        if not given.folder:
            laid_out(kit)
        os.environ["KOTSKHIN_SO"] = f"{kit}/shared/libkotskhin.so.0"
        run = Run(given, built(kit, room), room)
        if given.load:
            import load

            return load.main(run.program, room)
        is_whole = not given.seeds and not given.bad and not given.fleet and not given.soak
        if given.fleet:
            import documented

            run.try_it("docs: examples/fleet", lambda: documented.fleet(run.program, room, kit))
        if is_whole:
            run.module(kit)
        if is_whole or given.bad:
            run.bad(given.bad or BAD)
        if is_whole:
            run.disks()
            run.documented(kit)
        if is_whole or given.soak:
            run.archives(given.soak or SOAK)
        if is_whole or given.seeds:
            run.chaos(range(given.first, given.first + (given.seeds or SEEDS)))
    print(f"{run.passed} passed, {run.failed} failed, in {time.time() - began:.0f} s")
    return 1 if run.failed else 0


if __name__ == "__main__":
    sys.exit(main())
