// A process that forks: what its children ask of its provider is refused by name, at once, and its own totals are exact.
#include "check.hpp"
#include <chrono>
#include <csignal>
#include <kotskhin.hpp>
#include <kotskhin/metrics.hpp>
#include <sys/wait.h>

using namespace kotskhin;
using namespace kotskhin::metrics;
using Clock = std::chrono::steady_clock;

// What waits for nothing takes less than LONG, which is less than the half a minute of who waits for a reader.
static const std::chrono::milliseconds SHORT(2), LONG(20000), NEVER = std::chrono::hours(10000);

// What a provider's hook was told. (a child may not wait for a lock)
struct Told {
    std::atomic<uint64_t> forks{0}, others{0};
    OnRefused hook() {
        return [this](const Refusal &refusal) { (refusal.code == FORKED ? forks : others)++; };
    }
};

static int64_t total(const Export &given) {
    Gateway gateway(1);
    gateway.take(given);
    return std::get<WideSum>(gateway.rows(Ask::sum("app", "requests", "")).row(0).total).narrow().value();
}

template <typename Call>
static int32_t code_of(Call call) {
    try {
        call();
    } catch (const Refused &why) {
        return why.code;
    }
    return KIT_OK;
}

static std::unique_ptr<PeriodicExportingMetricReader> reader(std::function<void(const Export &)> exporter,
                                                             std::chrono::milliseconds interval) {
    PeriodicExportingMetricReaderOptions options;
    options.export_interval_millis = interval;
    return std::make_unique<PeriodicExportingMetricReader>(std::move(exporter), options);
}

// Whether a child does as it should, and ends: it is killed where it hangs.
template <typename Child>
static bool child_is_good(Child child) {
    std::fflush(stdout);
    pid_t made = fork();
    if (made == 0) {
        alarm(60);
        int before = failures;
        try {
            child();
        } catch (const std::exception &why) {
            failures++;
            std::printf("it threw %s\n", why.what());
        }
        std::fflush(stdout);
        _exit(failures != before);
    }
    int status = -1;
    bool is_good = waitpid(made, &status, 0) == made && WIFEXITED(status) && WEXITSTATUS(status) == 0;
    if (!is_good) std::printf("a child ended with the status %d\n", status);
    return is_good;
}

// A program that records by threads, with a reader.
struct Program {
    Told told;
    std::unique_ptr<MeterProvider> provider;
    std::unique_ptr<Counter<uint64_t>> requests;
    std::unique_ptr<Gauge<int64_t>> depth;
    std::atomic<bool> is_over{false};
    std::atomic<uint64_t> added{0};
    std::vector<std::thread> threads;

    Program() {
        Options options;
        options.limit = 10000;
        options.on_refused = told.hook();
        provider = std::make_unique<MeterProvider>(Resource{"shop"}, options);
        provider->AddMetricReader(reader([](const Export &) {}, SHORT));
        requests = provider->GetMeter("app")->CreateUInt64Counter("requests");
        depth = provider->GetMeter("app")->CreateInt64Gauge("depth");
    }
    void record(int64_t at) {
        requests->Add(1, {{"n", at % 6000}});
        depth->Record(at, {{"n", at % 7}});
        added++;
    }
    void start() {
        for (int64_t of = 0; of < 3; of++) {
            threads.emplace_back([this, of] {
                for (int64_t turn = 0; !is_over; turn++) record(3 * turn + of);
            });
        }
    }
    void stop() {
        is_over = true;
        for (auto &thread : threads) thread.join();
    }
};

// All that a child may ask of its parent's provider.
static void asks_all(Program &of) {
    auto began = Clock::now();
    MeterProvider &provider = *of.provider;
    uint64_t before = provider.RefusedCount();
    // (what this thread has a log for may lie there, until that is full)
    for (int turn = 0; turn < 3000; turn++) of.requests->Add(1);
    CHECK(provider.RefusedCount() > before && of.told.forks == 1);
    before = provider.RefusedCount();
    of.depth->Record(1);
    std::thread([&] { of.requests->Add(1); }).join();
    CHECK(provider.RefusedCount() == before + 2);
    CHECK(code_of([&] { provider.Collect(); }) == FORKED && code_of([&] { provider.Close(); }) == FORKED);
    CHECK(code_of([&] { provider.AddView({}, {}, {}); }) == FORKED);
    CHECK(code_of([&] { provider.AddMetricReader(reader([](const Export &) {}, NEVER)); }) == FORKED);
    CHECK(!provider.ForceFlush() && !provider.Shutdown() && provider.Logs() == 0 && provider.Cached() == 0 && provider.FailedCount() == 0);
    provider.GetMeter("app")->CreateUInt64Counter("more")->Add(1);
    CHECK(provider.RefusedCount() == before + 3);
    of.provider.reset();
    of.requests->Add(1);
    CHECK(of.told.forks == 1 && of.told.others == 0 && Clock::now() - began < LONG);
}

// A provider of the child's own is as good as any.
static void begins_anew() {
    std::atomic<int64_t> brought{0};
    MeterProvider provider(Resource{"child"});
    provider.AddMetricReader(reader([&](const Export &given) { brought = total(given); }, NEVER));
    auto requests = provider.GetMeter("app")->CreateUInt64Counter("requests");
    requests->Add(3);
    std::thread([&] { requests->Add(4); }).join();
    CHECK(provider.Shutdown() && brought == 7 && provider.RefusedCount() == 0);
}

static void children_amid_recordings_are_refused() {
    Program program;
    for (int turn = 0; turn < 10; turn++) program.record(turn);
    program.start();
    // (one that hangs takes long)
    bool is_good = true;
    for (int turn = 0; turn < 60 && is_good; turn++) {
        is_good = child_is_good([&] {
            if (turn % 2) begins_anew();
            asks_all(program);
            begins_anew();
        });
    }
    CHECK(is_good);
    program.stop();
    Gateway gateway(1);
    gateway.take(program.provider->Collect());
    int64_t sum = 0;
    for (auto &row : gateway.rows(Ask::sum("app", "requests", "")).all()) sum += *std::get<WideSum>(row.total).narrow();
    CHECK(sum == static_cast<int64_t>(program.added) && program.provider->RefusedCount() == 0 && program.told.forks == 0);
    CHECK(program.provider->Shutdown());
}

// Nor may one begin under the identity that its parent drew.
static void a_provider_that_nothing_started_is_of_its_process_too() {
    Told told;
    Options options;
    options.on_refused = told.hook();
    MeterProvider provider({}, options);
    auto requests = provider.GetMeter("app")->CreateUInt64Counter("requests");
    CHECK(child_is_good([&] {
        requests->Add(1);
        CHECK(provider.RefusedCount() == 1 && told.forks == 1);
        CHECK(code_of([&] { provider.Start(); }) == FORKED && code_of([&] { provider.Collect(); }) == FORKED);
    }));
    requests->Add(7);
    CHECK(total(provider.Collect()) == 7 && told.forks == 0);
}

// A child that asks nothing, and gives the provider up, is told nothing and waits for nothing.
static void a_child_that_asks_nothing_ends_at_once() {
    Program program;
    program.record(1);
    CHECK(child_is_good([&] {
        auto began = Clock::now();
        program.provider.reset();
        CHECK(program.told.forks == 0 && Clock::now() - began < LONG);
    }));
    program.stop();
}

int main() {
    return checked_all({{"children amid recordings are refused", children_amid_recordings_are_refused},
                        {"a provider that nothing started is of its process, too", a_provider_that_nothing_started_is_of_its_process_too},
                        {"a child that asks nothing ends at once", a_child_that_asks_nothing_ends_at_once}});
}
