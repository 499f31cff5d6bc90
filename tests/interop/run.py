#!/usr/bin/env python3
"""What the kit writes for others, beside their own readers.

    run.py

The requests are the constants of crates/otlp_kit/src/tests.rt, to which the crate's tests hold `encode_otlp`. `protoc --decode` reads each
by otlp_metrics.proto, the part of opentelemetry-proto that the kit writes. What protoc writes of its own reading must be the same bytes: so
no field has another number or type, and none was passed over.

Then come the pages of page_kit: pages.py has them read, and live.py has them scraped. What is not on this machine is a fault, unless
GATE_WITHOUT names it, as GATE_WITHOUT=protoc,promtool,python3-prometheus-client,prometheus,prometheus-pushgateway.

This ends with a status other than 0 where one differs."""
import pathlib
import re
import shutil
import subprocess
import sys

sys.dont_write_bytecode = True
sys.path.append(str(pathlib.Path(__file__).resolve().parents[1] / "gate"))
import checks
import live
import pages
import wanted

HERE = pathlib.Path(__file__).resolve().parent
TESTS = HERE.parents[1] / "crates" / "otlp_kit" / "src" / "tests.rt"
REQUEST = re.compile(r"^(?:pub\(crate\) )?const (\w+): \[u8; (\d+)\] = \[([^]]*)\];", re.M)
# How many requests those tests have: fewer mean that they are found no more.
LEAST = 5
MESSAGE = "otlp.ExportMetricsServiceRequest"


def requests():
    """The name and the bytes of each request."""
    all_found = REQUEST.findall(TESTS.read_text(encoding="utf-8"))
    if len(all_found) < LEAST:
        sys.exit(f"{len(all_found)} requests were found in place of {LEAST}")
    for name, length, numbers in all_found:
        found = bytes(int(number) for number in numbers.split(",") if number.strip())
        if len(found) != int(length):
            sys.exit(f"{name} has {len(found)} bytes, and not {length}")
        yield name, found


def protoc(way, data):
    """What protoc makes of these bytes, read or written."""
    command = ["protoc", f"-I{HERE}", f"--{way}={MESSAGE}", "otlp_metrics.proto"]
    return subprocess.run(command, input=data, stdout=subprocess.PIPE, check=True, timeout=60).stdout


def fault_of(request):
    text = protoc("decode", request)
    if re.search(rb"^\s*\d+(:| \{)", text, re.M):
        return f"a field is not known:\n{text.decode()}"
    return "" if protoc("encode", text) == request else f"protoc writes other bytes of\n{text.decode()}"


def main():
    is_used, faults = wanted.look("protoc", shutil.which("protoc"))
    for name, request in requests() if is_used else ():
        fault = fault_of(request)
        faults += bool(fault)
        checks.note(name, not fault)
        print(f"{name}: {fault or 'ok'}")
    return min(faults + pages.main() + live.main(), 1)


if __name__ == "__main__":
    sys.exit(main())
