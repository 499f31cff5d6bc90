"""How much one gateway takes by HTTP, beside a Pushgateway that is sent the same series as text: one run, one after the other, each on the
same two processors. Each shape is posted for at most ten seconds. Points a processor second are what is left to compare where other work
runs beside."""
import contextlib
import json
import os
import pathlib
import shutil
import subprocess

from fleet import PORT, Gateway, asked, until

HERE = pathlib.Path(__file__).resolve().parent
ADDRESS, PUSH = "127.0.0.1", 9091
UNCHECKED = "--push.disable-consistency-check"
MODULE = "module load\n\ngo 1.18\n\nrequire kotskhin.example/sdk/go v0.0.0\n\nreplace kotskhin.example/sdk/go => {}\n"


def built(room):
    """What posts."""
    folder = room / "load"
    folder.mkdir()
    shutil.copy(HERE / "load" / "main.go", folder)
    (folder / "go.mod").write_text(MODULE.format(HERE.parents[1] / "sdk" / "go"))
    given = {**os.environ, "GOFLAGS": "-mod=mod -buildvcs=false", "GOPROXY": "off"}
    subprocess.run(["go", "build", "-o", "load", "."], cwd=folder, env=given, check=True)
    return folder / "load"


def halves():
    """Two processors for what is measured, and the others for what posts; the same where there are two."""
    all_of = sorted(os.sched_getaffinity(0))
    return all_of[:2], all_of[2:] or all_of


def on(processors, words):
    return ["taskset", "-c", ",".join(map(str, processors)), *map(str, words)]


def seconds_of(process):
    """Seconds of processors that a process has had: what else runs takes none of them away."""
    words = open(f"/proc/{process}/stat").read().rpartition(")")[2].split()
    return (int(words[11]) + int(words[12])) / os.sysconf("SC_CLK_TCK")


def memory(process):
    """Now, and at most so far, in MB."""
    told = dict(line.split(":", 1) for line in open(f"/proc/{process}/status") if ":" in line)
    return {name: round(int(told[word].split()[0]) / 1024) for name, word in (("MB", "VmRSS"), ("most MB", "VmHWM"))}


def posted(program, processors, kind, port, *more):
    words = on(processors, [program, "-kind", kind, "-url", f"http://{ADDRESS}:{port}", *more])
    return json.loads(subprocess.run(words, stdout=subprocess.PIPE, check=True).stdout)


@contextlib.contextmanager
def gateway(program, room, name, processors, *flags):
    made = Gateway(program, 1, ADDRESS, [], room / f"load {name}", room / "load.log", on(processors, []), ("--log-level", "error", *flags))
    if "--state" not in flags:
        at = made.words.index("--state")
        del made.words[at : at + 2]
    made.start()
    try:
        until(made.is_ready, lambda: made.tail())
        yield made.process.pid
    finally:
        made.kill()


@contextlib.contextmanager
def pushgateway(room, processors, *flags):
    words = on(processors, ["prometheus-pushgateway", f"--web.listen-address={ADDRESS}:{PUSH}", *flags])
    with open(room / "push.log", "wb") as log:
        process = subprocess.Popen(words, stdin=subprocess.DEVNULL, stdout=log, stderr=log)
    try:
        until(lambda: asked(ADDRESS, "GET", "/-/ready", port=PUSH)[0] == 200, "the Pushgateway does not start")
        yield process.pid
    finally:
        process.terminate()
        process.wait(10)


def main(program, room):
    posts, (measured, others) = built(room), halves()
    print(f"measured on processors {measured}, posted from {others}; load {os.getloadavg()}", flush=True)
    kept = ("--state", str(room / "kept"))
    for shape in (("50", "1000"), ("1000", "20")):
        sizes = ["-writers", shape[0], "-points", shape[1], "-rounds", str(5000000 // int(shape[0]) // int(shape[1]))]
        for name, opened, kind, port in (
            ("gateway, the kit's bytes", lambda: gateway(program, room, "kit", measured), "kit", PORT),
            ("gateway, OTLP", lambda: gateway(program, room, "otlp", measured), "otlp", PORT),
            ("gateway with a state, the kit's bytes", lambda: gateway(program, room, "kept", measured, *kept), "kit", PORT),
            ("Pushgateway", lambda: pushgateway(room, measured), "text", PUSH),
            ("Pushgateway without its check", lambda: pushgateway(room, measured, UNCHECKED), "text", PUSH),
        ):
            few = ["-rounds", "20"] if kind == "text" else []
            with opened() as process:
                before = seconds_of(process)
                told = posted(posts, others, kind, port, *sizes, *few)
                spent = seconds_of(process) - before
                told["points a processor second"] = told["posts"] * int(shape[1]) / max(spent, 0.01)
                print(f"{shape[0]} writers of {shape[1]} points, {name}: {rounded(told)}, {memory(process)}", flush=True)
    return 0


def rounded(told):
    return ", ".join(f"{name} {value:,.1f}" for name, value in told.items())
