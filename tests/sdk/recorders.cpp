// Threads with a log each, which a writer takes in under a lock: its total is exact, by numbers and by sets. Exits with 1 where one is not,
// or is refused otherwise.
#include <cstdio>
#include <kotskhin.hpp>
#include <mutex>
#include <thread>

using namespace kotskhin;

static int32_t code_of(void (*call)(Recorder &, Attributes &), Recorder &recorder, Attributes &none) {
    try {
        call(recorder, none);
        return KIT_OK;
    } catch (const Refused &why) {
        return why.code;
    }
}

// Threads that read one plan, one set, one export and one gateway, each with a writer and a gateway of its own.
static bool read_together() {
    const Plan plan({{"app", "requests", "1", KIT_COUNTER}});
    const Attributes route({{"route", "/"}});
    Writer first(plan, "shop", 0, 1, 100);
    first.measure(0, route, 7);
    const Export collected = first.collect(200);
    Gateway filled(1);
    filled.take(collected);
    const Gateway gateway = std::move(filled);
    const std::string table = gateway.sum("app", "requests", "1");
    std::vector<std::thread> threads;
    bool same[4] = {false};
    for (uint64_t i = 0; i < 4; i++) {
        threads.emplace_back([&, i] {
            Writer writer(plan, "shop", 0, i + 2, 100);
            for (int times = 0; times < 1000; times++) writer.measure(0, route, 1);
            writer.measure(0, Attributes{{"route", "/"}}, 1);
            Gateway own(2);
            own.take(writer.collect(300));
            own.merge(gateway);
            own.take(Export::decode(collected.encode()));
            std::string told = own.sum("app", "requests", "1");
            same[i] = gateway.sum("app", "requests", "1") == table && told.substr(told.size() - 7) == "  1008\n";
        });
    }
    for (auto &thread : threads) thread.join();
    return same[0] && same[1] && same[2] && same[3];
}

// A refusal says its name and what the library says of it, and has both places.
static bool says_why() {
    try {
        Plan plan({{"app", "requests", "1", KIT_COUNTER}, {"app", "depth", "1", KIT_COUNTER}, {"app", "9 lives", "1", KIT_COUNTER}});
        return false;
    } catch (const Refused &why) {
        std::string said = why.what();
        return why.code == KIT_BAD_NAME && why.place == 2 && said.rfind("kotskhin: KIT_BAD_NAME: ", 0) == 0 && said.size() > 30;
    }
}

int main() {
    if (!read_together()) return std::printf("threads that read\n"), 2;
    if (!says_why()) return std::printf("what a refusal says\n"), 3;
    Plan plan({{"app", "requests", "1", KIT_COUNTER}});
    Writer writer(plan, "shop", 0, 1, 100);
    Attributes none({});
    size_t number = writer.hold(0, none);
    bool once = writer.hold(0, none) == number;
    std::mutex lock;
    std::vector<std::thread> threads;
    bool emptied = true;
    for (int i = 0; i < 4; i++) {
        threads.emplace_back([&] {
            Recorder recorder(100);
            for (int i = 1; i <= 1000; i++) {
                recorder.measure_held(number, 1);
                if (i % 100) continue;
                std::lock_guard<std::mutex> held(lock);
                Taken taken = writer.take_in(recorder);
                emptied = emptied && taken.recorded == 100 && taken.code == KIT_OK && recorder.len() == 0;
            }
        });
    }
    for (auto &thread : threads) thread.join();
    Recorder recorder(2);
    recorder.measure(0, none, -1);
    recorder.measure_held(number + 1, 1);
    int32_t full = code_of([](Recorder &r, Attributes &a) { r.measure(0, a, 1); }, recorder, none);
    Taken taken = writer.take_in(recorder, 1);
    bool told = full == KIT_RECORDER_FULL && taken.refused == 1 && taken.code == KIT_NEGATIVE && recorder.len() == 1;
    Seat seat = std::move(writer).share();
    taken = seat.take_in(recorder);
    told = told && taken.refused == 1 && taken.code == KIT_NO_HELD && taken.first == 0 && seat.hold(0, none) == number;
    recorder.measure(0, none, 7);
    recorder.clear();
    told = told && recorder.len() == 0;
    Export collected = seat.collect(200);
    Gateway gateway(1);
    gateway.take(collected);
    std::string table = gateway.sum("app", "requests", "1");
    if (once && emptied && told && table.size() > 7 && table.substr(table.size() - 7) == "  4000\n") return 0;
    std::printf("%d, %d, %d, %s", once, emptied, told, table.c_str());
    return 1;
}
