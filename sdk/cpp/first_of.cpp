// Pushes to the first of several gateways that takes what it has: first_of GATEWAY.. . docs/use/CPP.md has it.
#include <kotskhin/metrics.hpp>
#include <kotskhin/metrics/http.hpp>

using namespace kotskhin::metrics;

int main(int count, char **words) {
    std::vector<std::unique_ptr<PushMetricExporter>> gateways;
    for (int i = 1; i < count; i++) gateways.push_back(std::make_unique<HttpExporter>(words[i] + std::string("/v1/metrics")));
    MeterProvider provider(Resource{"bank"});
    provider.AddMetricReader(std::make_unique<PeriodicExportingMetricReader>(std::make_unique<FirstOf>(std::move(gateways))));
    provider.GetMeter("bank.tills")->CreateUInt64Counter("transfers", "transfers that were made", "1")->Add(1);
    return provider.Shutdown() ? 0 : 1;
}
