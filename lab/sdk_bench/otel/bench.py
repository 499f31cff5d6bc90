"""What a recording costs by OpenTelemetry's names from Python: a counter, four attributes that each recording gives.

    bench.py ROUNDS THREADS

It tells the least of the rounds, in nanoseconds for each recording of all threads together: by the clock, and of processors. A round ends with a collection; at the end the
total must be what was recorded."""
import sys
import threading
import time

from kotskhin import Gateway
from kotskhin.metrics import MeterProvider

TIMES = 50_000


def main():
    rounds, threads = int(sys.argv[1]), int(sys.argv[2])
    provider = MeterProvider({"service.name": "bench"})
    requests = provider.get_meter("bench").create_counter("requests", "1")

    def record():
        for _ in range(TIMES):
            requests.add(1, {"attribute.0": "value 0", "attribute.1": "value 0", "attribute.2": "value 0", "attribute.3": "value 0"})

    least, processor, last = float("inf"), float("inf"), None
    for _ in range(rounds):
        began, ran = time.perf_counter_ns(), time.process_time_ns()
        hands = [threading.Thread(target=record) for _ in range(threads)]
        for hand in hands:
            hand.start()
        for hand in hands:
            hand.join()
        last = provider.collect()
        least = min(least, (time.perf_counter_ns() - began) / (threads * TIMES))
        processor = min(processor, (time.process_time_ns() - ran) / (threads * TIMES))
    with Gateway(0) as gateway:
        gateway.take(last)
        table = gateway.sum("bench", "requests", "1")
    if provider.refused or not table.rstrip().endswith(f" {rounds * threads * TIMES}"):
        sys.exit(f"not {rounds * threads * TIMES}:\n{table}")
    print(f"{f'Python: create_counter, {threads} threads':<55} {least:7.1f} {processor:7.1f}")


main()
