// What a program and a library that it opens at run time have of each other.
#pragma once
#include <kotskhin/metrics.hpp>

// Records in a provider of the library's own, then so often with a counter and a gauge of the program's.
using Record = void (*)(const kotskhin::metrics::Counter<uint64_t> *, const kotskhin::metrics::Gauge<int64_t> *, int64_t often);
// What the library's own counter has recorded; that counter.
using Total = int64_t (*)();
using Own = const kotskhin::metrics::Counter<uint64_t> *(*)();

inline int64_t total_of(kotskhin::metrics::MeterProvider &provider) {
    kotskhin::Gateway gateway(1);
    gateway.take(provider.Collect());
    return std::get<kotskhin::WideSum>(gateway.rows(kotskhin::Ask::sum("app", "requests", "")).row(0).total).narrow().value();
}
