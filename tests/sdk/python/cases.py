#!/usr/bin/env python3
"""The cases that all languages share (../cases.json), performed over Python's package. Ends with a status other than 0 where one
differs."""
import itertools
import json
import pathlib
import resource
import sys
import threading
import zlib

CASES = pathlib.Path(__file__).resolve().parents[1] / "cases.json"
sys.path.insert(0, str(pathlib.Path(__file__).resolve().parents[3] / "sdk" / "python"))
from kotskhin import Aggregation, Archive, Ask, Attributes, Busy, Code, Export, Gateway, Kind, Message, Plan, Recorder
from kotskhin import RecorderFull, Refused, Shape, View, Writer

SHAPES = {"monotonic sum": Shape.MONOTONIC_SUM, "sum": Shape.SUM, "gauge": Shape.GAUGE}
AGGREGATIONS = {"default": Aggregation.DEFAULT, "sum": Aggregation.SUM, "last": Aggregation.LAST_VALUE, "drop": Aggregation.DROP}


def text(of):
    """A text, as the list writes it. Bytes that are no UTF-8 come with a surrogate for each, which no UTF-8 has."""
    if isinstance(of, str):
        return of
    return bytes.fromhex(of["hex"]).decode("utf-8", "surrogateescape")


def repeated(of):
    """What stands in the list, where a text that is repeated is that text."""
    return of["repeat"][0] * of["repeat"][1] if "repeat" in of else of


def value(of):
    return text(of) if isinstance(of, (str, dict)) else of


def pairs(of):
    return [(text(key), value(given)) for key, given in of]


def kind(of):
    return Kind[of.upper()] if isinstance(of, str) else of


def view(of):
    aggregation = of.get("aggregation")
    if isinstance(aggregation, dict):
        aggregation = aggregation["buckets"]
    given = {word: text(of[word]) for word in ("name", "scope", "rename") if word in of}
    keep = [text(key) for key in of["keep"]] if "keep" in of else None
    of_kind = kind(of["kind"]) if "kind" in of else None
    return View(kind=of_kind, keep=keep, aggregation=AGGREGATIONS.get(str(aggregation), aggregation), **given)


class Run:
    """A case, and the things that it made, by their names."""

    def __init__(self):
        self.things = {}

    def ask(self, of):
        if "stream" in of:
            made = Ask.stream(self.things[of["streams_of"]].streams(), of["stream"])
        else:
            words, shape = [text(of[word]) for word in ("scope", "name", "unit")], of["shape"]
            if isinstance(shape, dict):
                made = Ask.histogram(*words, shape["bounds"])
            else:
                made = Ask.gauge(*words) if shape == "gauge" else Ask.sum(*words, shape == "monotonic sum")
        if "service" in of:
            made.service(text(of["service"]))
        if "only" in of:
            made.only(pairs(of["only"]))
        if "keep" in of:
            made.keep([text(key) for key in of["keep"]])
        return made

    def bytes(self, of):
        return self.things[of] if isinstance(of, str) else bytes.fromhex(of["hex"])

    def make(self, step, made):
        if name := step.get("as"):
            self.things[name] = made

    def plan(self, step):
        instruments = [(text(scope), text(name), text(unit), kind(of)) for scope, name, unit, of in step["instruments"]]
        views = map(view, step.get("views", ()))
        self.make(step, Plan(instruments, views=views, **({"limit": step["limit"]} if "limit" in step else {})))

    def set(self, step):
        self.make(step, Attributes(pairs(step["pairs"])))

    def pairs(self, step):
        return [list(pair) for pair in self.things[step["of"]].pairs()]

    def writer(self, step):
        self.make(step, Writer(self.things[step["plan"]], text(step["service"]), step["instance"], step["start"]))

    def measure(self, step):
        self.things[step["by"]].measure(step["instrument"], self.things[step["set"]], step["value"])

    def hold(self, step):
        return self.things[step["by"]].hold(step["instrument"], self.things[step["set"]])

    def measure_held(self, step):
        self.things[step["by"]].measure_held(step["number"], step["value"])

    def collect(self, step):
        self.make(step, self.things[step["by"]].collect(step["time"]))

    def shutdown(self, step):
        self.make(step, self.things[step["by"]].shutdown(step["time"]))

    def restart(self, step):
        self.things[step["by"]].restart(step["start"])

    def recorder(self, step):
        self.make(step, Recorder(step["capacity"]))

    def length(self, step):
        return len(self.things[step["of"]])

    def clear(self, step):
        self.things[step["of"]].clear()

    def take_in(self, step):
        told = self.things[step["by"]].take_in(self.things[step["recorder"]], step.get("most"))
        made = {"recorded": told.recorded, "refused": told.refused}
        if told.why:
            made |= {"first": told.first, "code": told.why.name}
            made |= {"place": told.why.place} if told.why.place is not None else {}
        return made

    def share(self, step):
        self.make(step, self.things[step["by"]].share())

    def split(self, step):
        for _ in range(step.get("times", 1)):
            self.make(step, self.things[step["by"]].split())

    def export(self, step):
        return self.things[step["of"]].head()._asdict()

    def gateway(self, step):
        self.make(step, Gateway(step["id"]))

    def gateway_read(self, step):
        return dict(zip(("id", "points"), self.things[step["of"]].head()))

    def take(self, step):
        taking = self.things[step["by"]].take(self.things[step["export"]])
        if taking.is_late != step.get("late", taking.is_late):
            raise AssertionError(taking)
        return taking.changed

    def merge_bytes(self, step):
        return self.things[step["by"]].merge_bytes(self.bytes(step["bytes"]))

    def merge(self, step):
        return self.things[step["by"]].merge(self.things[step["from"]])

    def conflicts(self, step):
        return self.things[step["of"]].conflicts()

    def same(self, step):
        return self.things[step["of"]].same(self.things[step["and"]])

    def newest(self, step):
        return self.things[step["of"]].newest(text(step["service"]), step["instance"], step["start"])

    def streams(self, step):
        told = []
        for scope, name, unit, shape, bounds in self.things[step["of"]].streams():
            word = next((word for word, known in SHAPES.items() if known is shape), {"bounds": list(bounds)})
            told.append([scope, name, unit, word])
        return told

    def rows(self, step):
        rows = self.things[step["of"]].rows(self.ask(step["ask"]))
        if "table" in step and rows.table() != step["table"]:
            raise AssertionError(f"the table is {rows.table()!r}")
        told = [{key: value for key, value in vars(row).items() if value is not None} for row in rows]
        return [row | {"attributes": [list(pair) for pair in rows.attributes(number)]} for number, row in enumerate(map(self.listed, told))]

    @staticmethod
    def listed(row):
        return row | {"buckets": list(row["buckets"])} if "buckets" in row else row

    def row(self, step):
        rows = self.things[step["of"]].rows(self.ask(step["ask"]))
        # (numbers and buckets of a row come together here)
        rows.attributes(step["row"]) if step["call"] == "attributes" else rows[step["row"]]

    def incarnations(self, step):
        return [one._asdict() for one in self.things[step["of"]].incarnations()]

    def services(self, step):
        return self.things[step["of"]].services()

    def otlp(self, step):
        self.make(step, self.things[step["of"]].otlp())

    def of_otlp(self, step):
        made = Export.of_otlp(self.bytes(step["bytes"]))
        self.things |= dict(zip(step["as"], made))
        return len(made)

    def page(self, step):
        asked = {"tombstones": step["tombstones"]} if "tombstones" in step else {}
        told = getattr(self.things[step["of"]], step["format"])(text(step["service"]) if "service" in step else None, **asked)
        if set(step["has"]) - set(told.splitlines()) or any(lacked in told for lacked in step["lacks"]):
            raise AssertionError(f"the page is {told!r}")

    def send(self, step):
        self.make(step, self.things[step["by"]].send(step["to"]))

    def hand(self, step):
        answer = self.things[step["by"]].hand(self.things[step["message"]])
        if (answer is None) != (step.get("answer") is None):
            raise AssertionError(f"the answer is {answer}")
        self.things[step.get("answer")] = answer

    def message(self, step):
        return dict(zip(("from", "to", "points"), self.things[step["of"]].envelope()))

    def archive(self, step):
        made = Archive.__new__(Archive)
        made._begin(text(step["service"]), step["limit"], step["instance"], step["start"])
        self.make(step, made)

    def adopt(self, step):
        self.things[step["by"]].adopt(self.things[step["gateway"]], text(step["service"]), step["instance"], step["start"])

    def archive_export(self, step):
        self.make(step, self.things[step["by"]].export(step["time"]))

    def seal(self, step):
        self.things[step["by"]].seal(step["start"])

    def archive_read(self, step):
        archive = self.things[step["of"]]
        return {"start": archive.start, "adopted": archive.adopted}

    def encode(self, step):
        self.make(step, self.things[step["of"]].encode())

    def decode(self, step):
        kinds = {"export": Export, "message": Message}
        self.make(step, kinds[step["what"]].decode(self.bytes(step["bytes"])))

    def bytes_(self, step):
        made = bytearray(self.bytes(step["of"]))
        for place, byte in step.get("set", ()):
            made[place] = byte
        made = made[: step.get("cut", len(made))] + bytes.fromhex(step.get("add", ""))
        if step.get("checksum"):
            made[-4:] = zlib.adler32(made[:-4]).to_bytes(4, "big")
        self.make(step, bytes(made))

    def bytes_are(self, step):
        if (told := self.things[step["of"]].hex()) != step["hex"]:
            raise AssertionError(f"the bytes are {told}")

    def close(self, step):
        self.things[step["of"]].close()

    def threads(self, step):
        by, taken, failed = self.things[step["by"]], [], []
        works = {"recorder": lambda: self.by_recorder(step, by, taken), "seat": lambda: self.by_seat(step, seats.pop())}
        seats = [by.split() for _ in range(step["threads"])] if step["with"] == "seat" else []

        def work():
            try:
                works[step["with"]]()
            except BaseException as fault:
                failed.append(fault)

        threads = [threading.Thread(target=work) for _ in range(step["threads"])]
        for thread in threads:
            thread.start()
        for thread in threads:
            thread.join()
        if failed:
            raise failed[0]
        told = sum(each.recorded for each in taken), sum(each.refused for each in taken)
        if step["with"] == "recorder" and told != (step["threads"] * step["each"], 0):
            raise AssertionError(taken)

    def by_recorder(self, step, writer, taken):
        recorder, none = Recorder(step["capacity"]), self.things[step["set"]]
        for turn in range(step["each"]):
            while True:
                try:
                    recorder.measure_held(step["number"], 1) if turn % 2 else recorder.measure(step["instrument"], none, 1)
                    break
                except RecorderFull:
                    taken.append(writer.take_in(recorder))
        taken.append(writer.take_in(recorder))

    def by_seat(self, step, seat):
        for turn in range(step["each"]):
            while True:
                try:
                    seat.measure_held(step["number"], 1) if turn % 2 else seat.measure(step["instrument"], self.things[step["set"]], 1)
                    break
                except Busy:
                    pass

    def fill(self, step):
        for number in range(step["sets"]):
            self.things[step["by"]].measure(step["instrument"], Attributes({step["key"]: number}), 1)

    def decode_often(self, step):
        before = 0
        for turn in itertools.count():
            self.things[step["by"]].take(Export.decode(self.things[step["bytes"]]))
            if turn == step["times"] // 10:
                before = resource.getrusage(resource.RUSAGE_SELF).ru_maxrss
            if turn == step["times"]:
                break
        grown = (resource.getrusage(resource.RUSAGE_SELF).ru_maxrss - before) / 1024
        if grown > step["most_megabytes"]:
            raise AssertionError(f"the process grew by {grown:.0f} MB")

    def step(self, step):
        """Performs a step, and tells what is other than it says."""
        call = getattr(self, {"bytes": "bytes_"}.get(step["do"], step["do"]))
        wanted = step.get("refused") or ("out of range" if step.get("out_of_range") else None)
        try:
            told = call(step)
        except Refused as fault:
            places = {"place": fault.place, "second": fault.second}
            told = {"code": fault.name} | {word: place for word, place in places.items() if place is not None}
            if type(fault).__name__.upper() != fault.name.replace("_", "") or fault.code is not Code[fault.name]:
                return f"it is a {type(fault).__name__}, not of the name {fault.name}"
            return None if told == wanted else f"it is refused as {told}, not {wanted}"
        except OverflowError as fault:
            return None if wanted == "out of range" else f"out of range: {fault}"
        except Exception as fault:
            return repr(fault)
        if wanted:
            return f"it is not refused as {wanted}"
        if "is" in step and (told != step["is"] or type(told) is not type(step["is"])):
            return f"it answers {told!r}"
        return None


def main():
    cases, failed = json.loads(CASES.read_text(encoding="utf-8"), object_hook=repeated)["cases"], 0
    for case in cases:
        run = Run()
        for step in case["steps"]:
            if fault := run.step(step):
                failed += 1
                print(f"{case['name']}: {json.dumps(step, ensure_ascii=False)[:300]}: {fault}")
                break
    print(f"{len(cases)} cases, {failed} failed")
    return 1 if failed else 0


if __name__ == "__main__":
    sys.exit(main())
