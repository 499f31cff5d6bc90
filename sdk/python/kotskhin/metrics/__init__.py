"""The names of OpenTelemetry's metrics API and SDK, over the kit.

    provider = MeterProvider({"service.name": "shop"}, [PeriodicExportingMetricReader(HttpExporter("http://collector/v1/metrics"))])
    requests = provider.get_meter("shop.orders").create_counter("requests")
    requests.add(1, {"route": "/"})

Three things are other than there. Instruments are declared before the provider starts, which the first recording does, or `start`. Values
are whole numbers of 64 bits. And of a scope its name alone is kept, of a resource `service.name` and `service.instance.id`.

Recording raises nothing and waits for nobody. What is refused is counted (`refused`) and told to a hook (`on_refused`), and without one
logged. So is a view that can't be applied, and a stream that has come beyond its limit of attribute sets."""
from kotskhin.metrics.answers import NotTaken
from kotskhin.metrics.exporters import ConsoleMetricExporter, Exporter, ExportFailed, FileExporter, FirstOf, HttpExporter, HttpRefused
from kotskhin.metrics.exporters import MetricExporter
from kotskhin.metrics.instruments import Counter, Gauge, Histogram, Instrument, Refusal, UpDownCounter
from kotskhin.metrics.limits import CardinalityLimit
from kotskhin.metrics.provider import Meter, MeterProvider, ProviderStarted, Resource
from kotskhin.metrics.reader import PeriodicExportingMetricReader
from kotskhin.metrics.views import (
    AnyAggregation, DefaultAggregation, DropAggregation, ExplicitBucketHistogramAggregation, LastValueAggregation, SumAggregation, View,
)

__all__ = [
    "AnyAggregation", "CardinalityLimit", "ConsoleMetricExporter", "Counter", "DefaultAggregation", "DropAggregation",
    "ExplicitBucketHistogramAggregation", "ExportFailed", "Exporter", "FileExporter", "FirstOf", "Gauge", "Histogram", "HttpExporter",
    "HttpRefused", "Instrument", "LastValueAggregation", "Meter", "MeterProvider", "MetricExporter", "NotTaken",
    "PeriodicExportingMetricReader", "ProviderStarted", "Refusal", "Resource", "SumAggregation", "UpDownCounter", "View",
]
