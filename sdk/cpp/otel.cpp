// OpenTelemetry's names: the first program of docs/use/CPP.md.
#include <kotskhin/metrics.hpp>

using namespace kotskhin::metrics;

int main() {
    MeterProvider provider(Resource{"shop"});
    provider.AddMetricReader(std::make_unique<PeriodicExportingMetricReader>(std::make_unique<OStreamMetricExporter>()));
    auto meter = provider.GetMeter("shop.orders");
    auto requests = meter->CreateUInt64Counter("requests", "requests that were answered", "1");
    for (auto status : {200, 200, 500}) {
        requests->Add(1, {{"status", status}});
    }
    return provider.Shutdown() ? 0 : 1;
}
