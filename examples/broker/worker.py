"""A worker: worker.py PORT INSTANCE [dies]. It records, and publishes the bytes of each of its collections. After the first half it
waits until it may go on; one that dies there records more, and takes it along: nobody counts what was never collected."""
import os
import sys

from resp import Redis
from shared import COUNTED, EXPORTS, NAME, SCOPE, SECOND, SECONDS, SERVICE, UNIT, Line, nanoseconds
from kotskhin import COUNTER, Attributes, Plan, Writer

COLLECTIONS, EACH = 6, 500
DIED = 77


def main():
    port, instance, dies = int(sys.argv[1]), int(sys.argv[2]), "dies" in sys.argv
    redis = Redis(port, SECONDS)
    line = Line(redis, seed=instance)
    start = time = nanoseconds()
    writer = Writer(Plan([(SCOPE, NAME, UNIT, COUNTER)]), SERVICE, instance, start)
    numbers = [writer.hold(0, Attributes({"route": route})) for route in ("/", "/cart", "/pay")]
    counted = 0
    for half in (1, 2):
        for _ in range(COLLECTIONS):
            for i in range(EACH):
                writer.measure_held(numbers[i % len(numbers)], i % (instance + 2))
                counted += i % (instance + 2)
            time = nanoseconds(after=time)
            line.send(EXPORTS, writer.collect(time).encode())
        line.flush()
        redis("HSET", COUNTED, f"{instance} {start}", f"{time} {counted}")
        if half == 1 and dies:
            writer.measure_held(numbers[0], 1000)
            os._exit(DIED)
        if half == 1 and redis("BLPOP", SECOND(instance), SECONDS) is None:
            sys.exit("the second half never came")


if __name__ == "__main__":
    main()
