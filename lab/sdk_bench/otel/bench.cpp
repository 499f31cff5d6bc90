// What a recording costs by OpenTelemetry's names from C++: a counter, four attributes that each recording gives.
//
//     bench ROUNDS THREADS
//
// It tells the least of the rounds, in nanoseconds for each recording of all threads together: by the clock, and of processors. A round ends with a collection, so all that
// threads noted is taken in; at the end the total must be what was recorded.
#include <kotskhin/metrics.hpp>
#include <cstdio>
#include <cstdlib>
#include <ctime>

using namespace kotskhin::metrics;
using Clock = std::chrono::steady_clock;

static const int TIMES = 400'000;

int main(int count, char **words) {
    const int rounds = count > 1 ? std::atoi(words[1]) : 1, threads = count > 2 ? std::atoi(words[2]) : 1;
    MeterProvider provider(Resource{"bench"});
    auto requests = provider.GetMeter("bench")->CreateUInt64Counter("requests", "", "1");
    double least = 1e18, processor = 1e18;
    std::string table;
    for (int round = 0; round < rounds; round++) {
        auto began = Clock::now();
        std::clock_t from = std::clock();
        std::vector<std::thread> hands;
        for (int i = 0; i < threads; i++) {
            hands.emplace_back([&] {
                for (int n = 0; n < TIMES; n++) {
                    requests->Add(1, {{"attribute.0", "value 0"}, {"attribute.1", "value 0"}, {"attribute.2", "value 0"}, {"attribute.3", "value 0"}});
                }
            });
        }
        for (auto &hand : hands) hand.join();
        kotskhin::Export made = provider.Collect();
        std::chrono::duration<double, std::nano> took = Clock::now() - began;
        double ran = 1e9 * (std::clock() - from) / CLOCKS_PER_SEC, recordings = double(threads) * TIMES;
        least = std::min(least, took.count() / recordings), processor = std::min(processor, ran / recordings);
        kotskhin::Gateway gateway(0);
        gateway.take(made);
        table = gateway.table(kotskhin::Ask::sum("bench", "requests", "1"));
    }
    std::string wanted = std::to_string(static_cast<long long>(rounds) * threads * TIMES);
    if (provider.RefusedCount() || table.find(" " + wanted + "\n") == std::string::npos) {
        std::fprintf(stderr, "not %s:\n%s", wanted.c_str(), table.c_str());
        return 1;
    }
    std::printf("%-55s %7.1f %7.1f\n", ("C++: CreateUInt64Counter, " + std::to_string(threads) + " threads").c_str(), least, processor);
}
