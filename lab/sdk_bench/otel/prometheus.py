"""The same with python3-prometheus-client, whose labels are its attributes: a counter gives its child of labels, which is incremented.

    prometheus.py ROUNDS THREADS"""
import sys
import threading
import time

from prometheus_client import CollectorRegistry, Counter, generate_latest

TIMES = 50_000


def main():
    rounds, threads = int(sys.argv[1]), int(sys.argv[2])
    registry = CollectorRegistry()
    keys = ["attribute_0", "attribute_1", "attribute_2", "attribute_3"]
    requests = Counter("requests", "requests", keys, registry=registry)

    def record():
        for _ in range(TIMES):
            requests.labels(attribute_0="value 0", attribute_1="value 0", attribute_2="value 0", attribute_3="value 0").inc()

    def by_place():
        for _ in range(TIMES):
            requests.labels("value 0", "value 0", "value 0", "value 0").inc()

    for name, work in (("labels by name", record), ("labels by place", by_place)):
        least = processor = float("inf")
        for _ in range(rounds):
            began, ran = time.perf_counter_ns(), time.process_time_ns()
            hands = [threading.Thread(target=work) for _ in range(threads)]
            for hand in hands:
                hand.start()
            for hand in hands:
                hand.join()
            generate_latest(registry)
            least = min(least, (time.perf_counter_ns() - began) / (threads * TIMES))
            processor = min(processor, (time.process_time_ns() - ran) / (threads * TIMES))
        print(f"{f'python3-prometheus-client: {name}, {threads} threads':<55} {least:7.1f} {processor:7.1f}")


main()
