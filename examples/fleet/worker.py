"""A worker in Python: worker.py SERVICE RECORDINGS GATEWAY.. . It pushes to the first gateway that takes what it has, and prints what it
counted."""
import sys
import time

from kotskhin.metrics import FirstOf, HttpExporter, MeterProvider, PeriodicExportingMetricReader

service, recordings, gateways = sys.argv[1], int(sys.argv[2]), sys.argv[3:]
exporter = FirstOf(*(HttpExporter(f"{gateway}/v1/metrics") for gateway in gateways))
reader = PeriodicExportingMetricReader(exporter, export_interval_millis=200, on_failed=lambda fault: None)
provider = MeterProvider({"service.name": service}, [reader])
requests = provider.get_meter("fleet").create_counter("requests", unit="1")
counted = 0
for number in range(recordings):
    requests.add(number % 5, {"route": "/" if number % 2 else "/pay"})
    counted += number % 5
    time.sleep(0.002)
provider.shutdown()
print(f"python {service} {counted}")
