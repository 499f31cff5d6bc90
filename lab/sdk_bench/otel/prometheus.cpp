// The same with prometheus-cpp, whose labels are its attributes: a family gives the counter of labels, which is then incremented.
//
//     prometheus ROUNDS THREADS
#include <prometheus/counter.h>
#include <prometheus/family.h>
#include <prometheus/registry.h>
#include <chrono>
#include <cstdio>
#include <cstdlib>
#include <ctime>
#include <string>
#include <thread>
#include <vector>

using Clock = std::chrono::steady_clock;

static const int TIMES = 400'000;

int main(int count, char **words) {
    const int rounds = count > 1 ? std::atoi(words[1]) : 1, threads = count > 2 ? std::atoi(words[2]) : 1;
    prometheus::Registry registry;
    auto &requests = prometheus::BuildCounter().Name("requests").Register(registry);
    double least = 1e18, processor = 1e18;
    for (int round = 0; round < rounds; round++) {
        auto began = Clock::now();
        std::clock_t from = std::clock();
        std::vector<std::thread> hands;
        for (int i = 0; i < threads; i++) {
            hands.emplace_back([&] {
                for (int n = 0; n < TIMES; n++) {
                    requests.Add({{"attribute_0", "value 0"}, {"attribute_1", "value 0"}, {"attribute_2", "value 0"}, {"attribute_3", "value 0"}}).Increment();
                }
            });
        }
        for (auto &hand : hands) hand.join();
        registry.Collect();
        std::chrono::duration<double, std::nano> took = Clock::now() - began;
        double ran = 1e9 * (std::clock() - from) / CLOCKS_PER_SEC, recordings = double(threads) * TIMES;
        least = std::min(least, took.count() / recordings), processor = std::min(processor, ran / recordings);
    }
    std::printf("%-55s %7.1f %7.1f\n", ("prometheus-cpp: a family's counter, " + std::to_string(threads) + " threads").c_str(), least, processor);
}
