// What must not compile: each line that says so is refused by that error, and no other line is.
#include <kotskhin/metrics.hpp>
#include <map>

using namespace kotskhin::metrics;
using Map = std::map<std::string, std::string>;

void values(Counter<uint64_t> &requests, UpDownCounter<int64_t> &open, Gauge<int64_t> &depth, Histogram<uint64_t> &size, const Map &at) {
    requests.Add(7);
    requests.Add(0.7);   // error: deleted function
    requests.Add(true);  // error: deleted function
    open.Add(-1L, {{"route", "/"}});
    open.Add(-1.9, {{"route", "/"}});  // error: deleted function
    depth.Record(static_cast<signed char>(-7), at);
    depth.Record(0.7f, at);  // error: deleted function
    size.Record(7ull);
    size.Record('7');  // error: deleted function
    size.Record("7");  // error: deleted function
}

void owners(Meter &meter) {
    std::unique_ptr<UpDownCounter<int64_t>> open = meter.CreateInt64UpDownCounter("open");
    std::unique_ptr<Counter<int64_t>> counter = std::move(open);  // error: conversion from|no viable conversion
    std::unique_ptr<Histogram<uint64_t>> size = meter.CreateUInt64Histogram("size");
    std::unique_ptr<Gauge<uint64_t>> gauge = std::move(size);  // error: conversion from|no viable conversion
}
