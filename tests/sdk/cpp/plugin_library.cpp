// A library that records: in a provider of its own, and with instruments of the program that opens it.
#include "plugin.hpp"

#define OPEN extern "C" __attribute__((visibility("default")))

using namespace kotskhin::metrics;

static MeterProvider &provider() {
    static MeterProvider made(Resource{"library"});
    return made;
}
static const Counter<uint64_t> &requests() {
    static const auto made = provider().GetMeter("app")->CreateUInt64Counter("requests");
    return *made;
}

OPEN void record(const Counter<uint64_t> *counter, const Gauge<int64_t> *gauge, int64_t often) {
    requests().Add(1);
    for (int64_t value = 1; value <= often; value++) {
        counter->Add(1);
        gauge->Record(value);
    }
}
OPEN int64_t total() { return total_of(provider()); }
OPEN const Counter<uint64_t> *own() { return &requests(); }
