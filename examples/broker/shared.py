"""What all processes of the example share: the names at the broker, and a line that delivers badly."""
import pathlib
import random
import sys
import time

sys.path.insert(0, str(pathlib.Path(__file__).resolve().parents[2] / "sdk" / "python"))

SERVICE, SCOPE, NAME, UNIT = "shop", "app", "requests", "1"
# A stream of all exports, from which each goes to one gateway of a group; and of each gateway a stream of what others tell it.
EXPORTS, GROUP = "exports", "gateways"
INBOX = "inbox:{}".format
# The ids of the gateways that run; what each incarnation counted, and when it collected last; that this is all; who has all of it.
PEERS, COUNTED, ALL, DONE = "peers", "counted", "all", "done"
# A worker waits here for the second half of its work.
SECOND = "second:{}".format
# What no process outlives: alone they take two seconds, beside other work longer.
SECONDS = 300


class Line:
    """Adds entries to streams of the broker, some of them twice, some only behind later ones. None is lost, once it is flushed."""

    def __init__(self, redis, seed):
        self.redis, self.chance, self.late = redis, random.Random(seed), []

    def send(self, stream, bytes_):
        luck = self.chance.random()
        if luck < 0.3:
            self.late.append((stream, bytes_))
            return
        for _ in range(2 if luck < 0.6 else 1):
            self.redis("XADD", stream, "*", "b", bytes_)
        if luck > 0.8:
            self.flush()

    def flush(self):
        self.chance.shuffle(self.late)
        for stream, bytes_ in self.late:
            self.redis("XADD", stream, "*", "b", bytes_)
        self.late = []


def entries(answer):
    """The entries of one stream that were read: (id, bytes)."""
    return [(entry, fields[1]) for entry, fields in answer[0][1] if fields] if answer else []


def nanoseconds(after=0):
    """Now, or right after a time that was used, where the clock was put back."""
    return max(time.time_ns(), after + 1)
