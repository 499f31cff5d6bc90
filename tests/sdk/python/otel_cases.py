#!/usr/bin/env python3
"""The cases that all languages share of OpenTelemetry's names (../otel_cases.json), performed over kotskhin.metrics. Ends with a status
other than 0 where one differs."""
import concurrent.futures
import json
import pathlib
import sys
import threading

CASES = pathlib.Path(__file__).resolve().parents[1] / "otel_cases.json"
sys.path.insert(0, str(pathlib.Path(__file__).resolve().parents[3] / "sdk" / "python"))
from kotskhin import Ask, Export, Gateway, Refused
from kotskhin.metrics import (
    CardinalityLimit, Counter, DropAggregation, ExplicitBucketHistogramAggregation, Gauge, Histogram, LastValueAggregation, MeterProvider,
    PeriodicExportingMetricReader, ProviderStarted, UpDownCounter, View,
)

# A day: no test waits for it.
NEVER = 86_400_000
AGGREGATIONS = {"drop": DropAggregation(), "last": LastValueAggregation()}
KINDS = {"counter": Counter, "up_down": UpDownCounter, "gauge": Gauge, "histogram": Histogram}
CALLS = {"counter": "add", "up_down": "add", "gauge": "set", "histogram": "record"}


def view(of):
    aggregation = of.get("aggregation")
    if isinstance(aggregation, dict):
        aggregation = ExplicitBucketHistogramAggregation(aggregation["buckets"])
    return View(KINDS.get(of.get("kind")), of.get("name"), of.get("scope"), of.get("rename"), of.get("keep"),
                AGGREGATIONS.get(aggregation, aggregation) if isinstance(aggregation, str) else aggregation)


def reason(why):
    """Why a recording was refused, by the list's name."""
    return why.name if isinstance(why, (Refused, CardinalityLimit)) else "VALUE_TOO_WIDE" if isinstance(why, OverflowError) else repr(why)


class Run:
    """A case: its provider, the instruments by their names, and what came of it."""

    def __init__(self, case):
        # (the second thread of the case, which is there until its end)
        self.other = concurrent.futures.ThreadPoolExecutor(1)
        self.things, self.told, self.brought, self.failures, self.is_failing, self.export = {}, [], [], [], False, None
        readers = [PeriodicExportingMetricReader(self.bring, NEVER, on_failed=self.failures.append)] if case.get("reader") else []
        resource = {"service.name": case.get("service", "shop"), "service.instance.id": case.get("instance", 1)}
        given = {word: case[word] for word in ("limit", "held") if word in case}
        views = [view(one) for one in case.get("views", ())]
        self.provider = MeterProvider(resource, readers, views, on_refused=lambda refusal: self.told.append(reason(refusal.why)), **given)

    def bring(self, export):
        if self.is_failing:
            raise OSError("nobody is there")
        self.brought.append(export.encode())

    def declare(self, step):
        meter, kind = self.provider.get_meter(step["scope"]), step["kind"]
        advised = {"explicit_bucket_boundaries_advisory": step["bounds"]} if "bounds" in step else {}
        try:
            made = getattr(meter, f"create_{kind}".replace("up_down", "up_down_counter"))(step["name"], step["unit"], **advised)
        except ProviderStarted:
            return "DECLARED_LATE"
        except Refused as fault:
            return fault.name
        self.things[step.get("as")] = getattr(made, CALLS[kind])
        return None

    def start(self, _):
        self.provider.start()

    def record(self, step):
        def often():
            for _ in range(step.get("times", 1)):
                self.things[step["by"]](step["value"], dict(step["at"]))

        threads = [threading.Thread(target=often) for _ in range(step.get("threads", 0))]
        for thread in threads:
            thread.start()
        for thread in threads:
            thread.join()
        if step.get("on") == "other":
            self.other.submit(often).result()
        elif not threads:
            often()

    def collect(self, step):
        self.export = self.provider.collect()
        return None if (self.export is None) == step.get("nothing", False) else f"collected is {self.export}"

    def head(self, _):
        told = self.export.head()
        return {"service": told.service, "instance": told.instance, "points": told.points}

    def gateway(self):
        made = Gateway(0)
        made.take(self.export)
        return made

    def streams(self, _):
        return [[stream.scope, stream.name, stream.unit] for stream in self.gateway().streams()]

    @staticmethod
    def ask(of):
        *words, shape = of
        if isinstance(shape, dict):
            return Ask.histogram(*words, shape["bounds"])
        return Ask.gauge(*words) if shape == "gauge" else Ask.sum(*words, shape == "monotonic sum")

    def table(self, step):
        return self.gateway().table(self.ask(step["of"]))

    def values(self, step):
        return [row.value for row in self.gateway().rows(self.ask(step["of"]))]

    def value(self, step):
        return self.values(step)[0]

    def refused(self, step):
        told, self.told = sorted(set(self.told)), []
        return self.provider.refused if told == step["by"] else told

    def flush(self, step):
        return self.fails(step, self.provider.force_flush)

    def shutdown(self, step):
        return self.fails(step, self.provider.shutdown)

    @staticmethod
    def fails(step, call):
        try:
            call()
        except Exception as fault:
            return None if "fails" in step else repr(fault)
        return "it does not fail" if "fails" in step else None

    def exported(self, _):
        if self.brought:
            self.export = Export.decode(self.brought[-1])
        return len(self.brought)

    def failing(self, step):
        self.is_failing = step["is"]
        return step["is"]

    def failed(self, _):
        return len(self.failures)

    def step(self, step):
        """Performs a step, and tells what is other than it says."""
        told = getattr(self, step["do"])(step)
        return None if told == step.get("refused" if step["do"] == "declare" else "is") else f"it answers {told!r}"


def main():
    cases, failed = json.loads(CASES.read_text(encoding="utf-8"))["cases"], 0
    for case in cases:
        run = Run(case)
        for step in case["steps"]:
            if fault := run.step(step):
                failed += 1
                print(f"{case['name']}: {json.dumps(step, ensure_ascii=False)[:300]}: {fault}")
                break
        run.other.shutdown()
    print(f"{len(cases)} cases, {failed} failed")
    return 1 if failed else 0


if __name__ == "__main__":
    sys.exit(main())
