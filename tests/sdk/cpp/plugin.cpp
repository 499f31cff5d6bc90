// A program's instruments, recorded with by libraries that it opens at run time: each recording comes to the provider of its instrument.
//
//     plugin LIBRARY ..
#include "plugin.hpp"
#include "check.hpp"
#include <dlfcn.h>
#include <string>
#include <thread>

using namespace kotskhin::metrics;

static void records(const std::string &library) {
    void *opened = dlopen(library.c_str(), RTLD_NOW | RTLD_LOCAL | RTLD_NODELETE);
    CHECK(opened);
    if (!opened) return;
    auto record = reinterpret_cast<Record>(dlsym(opened, "record"));
    auto total = reinterpret_cast<Total>(dlsym(opened, "total"));
    auto own = reinterpret_cast<Own>(dlsym(opened, "own"));
    MeterProvider provider(Resource{"program"});
    auto requests = provider.GetMeter("app")->CreateUInt64Counter("requests");
    auto depth = provider.GetMeter("app")->CreateInt64Gauge("depth");
    requests->Add(1000);
    record(requests.get(), depth.get(), 100);
    requests->Add(1000);
    CHECK(total_of(provider) == 2100 && total() == 1);
    // The other way round, and a thread that ends.
    own()->Add(7);
    std::thread([&] {
        own()->Add(10);
        record(requests.get(), depth.get(), 3000);
        requests->Add(1000);
    }).join();
    CHECK(total_of(provider) == 6100 && total() == 19);
    kotskhin::Gateway gateway(1);
    gateway.take(provider.Collect());
    auto newest = std::get<std::optional<kotskhin::Newest>>(gateway.rows(kotskhin::Ask::gauge("app", "depth", "")).row(0).total);
    CHECK(newest && newest->value == 3000);
    CHECK(provider.RefusedCount() == 0 && provider.Shutdown());
}

int main(int count, char **given) {
    std::vector<std::pair<const char *, std::function<void()>>> tests;
    for (int i = 1; i < count; i++) tests.push_back({given[i], [library = given[i]] { records(library); }});
    return checked_all(tests) || count < 2;
}
