// OpenTelemetry's names in C++: what is recorded, what is refused and told, threads with exact totals, bounds of memory.
#include "check.hpp"
#include <cstring>
#include <kotskhin.hpp>
#include <kotskhin/metrics.hpp>
#include <map>
#include <sstream>
#include <sys/resource.h>
#include <thread>

using namespace kotskhin;
using namespace kotskhin::metrics;

// What a hook was told.
struct Told {
    std::mutex lock;
    std::vector<Refusal> list;
    OnRefused hook() {
        return [this](const Refusal &refusal) {
            std::lock_guard<std::mutex> has(lock);
            list.push_back(refusal);
        };
    }
};

// What is written to the standard error while it is there.
class Written {
    std::ostringstream into;
    std::streambuf *before = std::cerr.rdbuf(into.rdbuf());

public:
    ~Written() { std::cerr.rdbuf(before); }
    std::vector<std::string> lines() const {
        std::istringstream from(into.str());
        std::vector<std::string> all;
        for (std::string line; std::getline(from, line);) all.push_back(line);
        return all;
    }
};

static std::unique_ptr<Counter<uint64_t>> requests_of(const MeterProvider &provider) {
    return provider.GetMeter("app")->CreateUInt64Counter("requests", "", "1");
}

static std::vector<Row> rows(MeterProvider &provider, const Ask &ask) {
    Gateway gateway(1);
    gateway.take(provider.Collect());
    return gateway.rows(ask).all();
}

static Ask of_requests() { return Ask::sum("app", "requests", "1"); }

static int64_t total(const std::vector<Row> &rows) {
    int64_t sum = 0;
    for (auto &row : rows) sum += *std::get<WideSum>(row.total).narrow();
    return sum;
}

static void every_instrument_records() {
    MeterProvider provider(Resource{"shop", {0, 7}});
    auto meter = provider.GetMeter("app");
    auto requests = requests_of(provider);
    auto open = meter->CreateInt64UpDownCounter("open", "connections");
    auto depth = meter->CreateInt64Gauge("depth");
    auto size = meter->CreateUInt64Histogram("size", "", "By");
    std::map<std::string, std::string> route{{"route", "/"}};
    std::string host = "a";
    requests->Add(3, {{"route", "/"}, {"status", 200}, {"cached", true}, {"host", host}});
    requests->Add(4, {{"route", "/"}, {"status", 200}, {"cached", true}, {"host", host}});
    requests->Add(5, route);
    requests->Add(6);
    open->Add(5);
    open->Add(-6);
    depth->Record(9, {});
    depth->Record(-4);
    size->Record(10);
    size->Record(20000);
    auto told = rows(provider, of_requests());
    CHECK(told.size() == 3 && total(told) == 18);
    CHECK((told[1].attributes == OwnedPairs{{"cached", true}, {"host", "a"}, {"route", "/"}, {"status", 200}}));
    CHECK(total(rows(provider, Ask::sum("app", "open", "", false))) == -1);
    CHECK(std::get<std::optional<Newest>>(rows(provider, Ask::gauge("app", "depth", ""))[0].total)->value == -4);
    auto all = std::get<Distribution>(rows(provider, Ask::histogram("app", "size", "By", default_bounds()))[0].total);
    CHECK(all.count.narrow() == 2 && all.sum.narrow() == 20010 && all.range->greatest == 20000);
    CHECK(provider.RefusedCount() == 0 && provider.Logs() == 1 && provider.Collect().head().instance == (Instance{0, 7}));
    CHECK(provider.Shutdown());
}

static void a_late_instrument_is_told_by_name_and_place() {
    Told told;
    MeterProvider provider({}, {100, 1024, 4096, told.hook()});
    auto requests = requests_of(provider);
    std::string why;
    try {
        provider.Collect();
    } catch (const Refused &refused) {
        why = refused.what();
    }
    CHECK(why == "kotskhin: NOT_STARTED: the provider has not started");
    requests->Add(1);
    int line = __LINE__ + 1;
    auto late = provider.GetMeter("app")->CreateUInt64Counter("late");
    late->Add(5);
    // (the same again is the same, also when it is late)
    requests_of(provider)->Add(2);
    CHECK(told.list.size() == 2);
    for (auto &refusal : told.list) {
        CHECK(refusal.instrument == "late" && refusal.code == DECLARED_LATE && refusal.declared.line == line);
        CHECK(std::strcmp(refusal.declared.file, __FILE__) == 0 && refusal.what().find("DECLARED_LATE") != std::string::npos);
    }
    CHECK(told.list[0].count == 0 && told.list[1].count == 1 && provider.RefusedCount() == 1);
    CHECK(total(rows(provider, of_requests())) == 3);
}

static void one_that_the_plan_refuses_leaves_the_others() {
    Told told;
    MeterProvider provider({}, {100, 1024, 4096, told.hook()});
    CHECK(provider.AddView({Kind::Gauge, "misfit", {}}, {}, metrics::View{"", Aggregation::Sum, {}, {}}));
    auto meter = provider.GetMeter("app");
    std::unique_ptr<Counter<uint64_t>> refused[] = {meter->CreateUInt64Counter("9 lives"),
                                                    meter->CreateUInt64Counter("fine", "", "\xc2\xb5s"), meter->CreateUInt64Counter("\xff"),
                                                    provider.GetMeter("kotskhin.archive")->CreateUInt64Counter("requests")};
    auto requests = requests_of(provider);
    for (auto &instrument : refused) instrument->Add(1);
    requests->Add(7);
    const int32_t codes[] = {KIT_BAD_NAME, KIT_BAD_UNIT, KIT_NOT_TEXT, KIT_RESERVED_SCOPE};
    CHECK(told.list.size() == 8);
    for (int i = 0; i < 8; i++) {
        CHECK(told.list[i].code == codes[i % 4] && told.list[i].count == (i > 3));
        CHECK(told.list[i].of == (i > 3 ? RefusalOf::Recordings : RefusalOf::Instrument));
    }
    CHECK(told.list[0].place == 0 && !told.list[2].place);
    CHECK(told.list[3].place == 0 && !told.list[3].second && told.list[7].instrument == "requests");
    CHECK(total(rows(provider, of_requests())) == 7 && provider.RefusedCount() == 4);
    CHECK(!provider.AddView({}, {}, metrics::View{}));
}

// A view that is of an instrument and can't be: it is told by its number, and is as if it was not there.
static void a_view_that_can_not_be_applied_is_passed_over() {
    Told told;
    MeterProvider provider({}, {100, 1024, 4096, told.hook()});
    using metrics::View;
    CHECK(provider.AddView({{}, "requests", {}}, {}, View{"by_route", Aggregation::AsKind, {}, {{"route"}}}));
    for (auto &bad : {View{"", Aggregation::LastValue, {}, {}}, View{"9 lives", Aggregation::AsKind, {}, {}},
                      View{"", Aggregation::AsKind, {{2, 1}}, {}}, View{"", Aggregation::AsKind, {}, {{"\xff"}}}}) {
        CHECK(provider.AddView({Kind::Counter, "*", {}}, {}, bad));
    }
    auto requests = requests_of(provider), again = requests_of(provider);
    int line = __LINE__ + 1;
    auto other = provider.GetMeter("app")->CreateUInt64Counter("other");
    const int32_t codes[] = {KIT_BAD_AGGREGATION, KIT_BAD_RENAME, KIT_BAD_BOUNDS, KIT_NOT_TEXT};
    REQUIRE(told.list.size() == 8);
    for (size_t i = 0; i < told.list.size(); i++) {
        const Refusal &refusal = told.list[i];
        CHECK(refusal.of == RefusalOf::View && refusal.code == codes[i % 4] && refusal.place == i % 4 + 1 && refusal.count == 0);
        CHECK(refusal.instrument == (i < 4 ? "requests" : "other"));
    }
    std::string at = ", declared at " + std::string(__FILE__) + ":" + std::to_string(line);
    CHECK(told.list[4].what().rfind("'other'" + at + ": view 1 is passed over: KIT_BAD_AGGREGATION: ", 0) == 0);
    for (int status : {200, 404}) requests->Add(1, {{"route", "/"}, {"status", status}});
    again->Add(1, {{"route", "/"}});
    other->Add(7);
    auto all = rows(provider, Ask::sum("app", "by_route", "1"));
    CHECK(all.size() == 1 && total(all) == 3 && total(rows(provider, Ask::sum("app", "other", ""))) == 7 && provider.RefusedCount() == 0);
}

static void what_is_refused_is_counted_and_told() {
    Told told;
    MeterProvider provider({}, {100, 1024, 4096, told.hook()});
    auto requests = requests_of(provider);
    requests->Add(uint64_t(1) << 63);
    requests->Add(-1);
    requests->Add(1, {{"", 1}});
    requests->Add(1, {{"n", UINT64_MAX}});
    requests->Add(1, {{"\xff", 1}});
    requests->Add(INT64_MAX);
    requests->Add(1);
    requests->Add(2);
    CHECK(provider.RefusedCount() == 5);
    CHECK(total(rows(provider, of_requests())) == INT64_MAX);
    CHECK(provider.Shutdown() && !provider.Shutdown());
    requests->Add(1);
    CHECK(throws<Closed>([&] { provider.Collect(); }) && provider.ForceFlush());
    const int32_t codes[] = {VALUE_TOO_WIDE, KIT_NEGATIVE, KIT_EMPTY_KEY, VALUE_TOO_WIDE, KIT_NOT_TEXT, KIT_OVERFLOW, KIT_CLOSED};
    CHECK(told.list.size() == 7 && provider.RefusedCount() == 8);
    for (size_t i = 0; i < told.list.size(); i++) CHECK(told.list[i].code == codes[i] && told.list[i].instrument == "requests");
    CHECK(told.list[2].place == 0 && told.list[5].count == 2 && told.list[5].place == 0);
}

static void a_value_without_room_is_refused_by_every_instrument() {
    Told told;
    MeterProvider provider({}, {100, 1024, 4096, told.hook()});
    auto meter = provider.GetMeter("app");
    auto open = meter->CreateInt64UpDownCounter("open");
    auto depth = meter->CreateInt64Gauge("depth");
    auto size = meter->CreateUInt64Histogram("size", "", "", std::vector<int64_t>{});
    open->Add(uint64_t(1) << 63, {{"k", 1}});
    open->Add(UINT64_MAX);
    depth->Record(UINT64_MAX);
    size->Record(UINT64_MAX, {});
    size->Record(-1);
    CHECK(told.list.size() == 5 && provider.RefusedCount() == 5);
    const char *names[] = {"open", "open", "depth", "size", "size"};
    for (size_t i = 0; i < told.list.size(); i++) {
        CHECK(told.list[i].code == (i < 4 ? static_cast<int32_t>(VALUE_TOO_WIDE) : static_cast<int32_t>(KIT_NEGATIVE)));
        CHECK(told.list[i].instrument == names[i] && told.list[i].declared.file && told.list[i].count == 1);
    }
    open->Add(INT64_MIN);
    open->Add(static_cast<unsigned char>(7));
    depth->Record(-1L);
    CHECK(total(rows(provider, Ask::sum("app", "open", "", false))) == INT64_MIN + 7);
    CHECK(std::get<std::optional<Newest>>(rows(provider, Ask::gauge("app", "depth", ""))[0].total)->value == -1);
}

// Threads of which each sets the gauge in its turn: the last turn's value is the one that is exported.
static void the_last_recording_of_a_gauge_wins() {
    constexpr int THREADS = 4, TURNS = 200;
    MeterProvider provider({}, {100, 1024, 1, {}});
    auto depth = provider.GetMeter("app")->CreateInt64Gauge("depth");
    std::atomic<int> turn{0};
    std::vector<std::thread> threads;
    std::atomic<int> wrong{0};
    for (int of = 0; of < THREADS; of++) {
        threads.emplace_back([&, of] {
            for (int mine = of; mine < TURNS; mine += THREADS) {
                while (turn != mine) std::this_thread::yield();
                depth->Record(mine, {{"held", true}});
                depth->Record(-mine, {{"held", false}});
                if (mine % 10 == 0) {
                    auto all = rows(provider, Ask::gauge("app", "depth", ""));
                    for (size_t row = 0; row < 2; row++)
                        wrong += std::get<std::optional<Newest>>(all[row].total)->value != (row ? mine : -mine);
                }
                turn++;
            }
        });
    }
    for (auto &thread : threads) thread.join();
    CHECK(wrong == 0 && provider.Cached() == 1);
    CHECK(std::get<std::optional<Newest>>(rows(provider, Ask::gauge("app", "depth", ""))[1].total)->value == TURNS - 1);
}

static void a_provider_without_recordings_ends() {
    Told told;
    MeterProvider provider({}, {100, 1024, 4096, told.hook()});
    auto requests = requests_of(provider);
    CHECK(!provider.Close());
    requests->Add(1);
    provider.GetMeter("app")->CreateUInt64Counter("more")->Add(1);
    CHECK(told.list.size() == 3 && throws<Closed>([&] { provider.Start(); }) && throws<Refused>([&] { provider.Collect(); }));
    for (auto &refusal : told.list) CHECK(refusal.code == KIT_CLOSED);
}

// Threads that record while others collect, at more sets than are held and than the stream has points for.
static void nothing_is_lost_between_threads() {
    constexpr uint64_t THREADS = 6, EACH = 20000;
    Told told;
    MeterProvider provider({}, {300, 64, 50, told.hook()});
    auto requests = requests_of(provider);
    std::vector<std::thread> threads;
    for (uint64_t of = 0; of < THREADS; of++) {
        threads.emplace_back([&, of] {
            for (uint64_t turn = 0; turn < EACH; turn++) requests->Add(1, {{"n", (turn * THREADS + of) % 500}, {"of", "all"}});
        });
    }
    threads.emplace_back([&] {
        int64_t last = 0;
        for (int turn = 0; turn < 50; turn++) {
            try {
                int64_t now = total(rows(provider, of_requests()));
                CHECK(now >= last);
                last = now;
            } catch (const Refused &why) {
                CHECK(why.code == NOT_STARTED);
            }
            std::this_thread::yield();
        }
    });
    for (auto &thread : threads) thread.join();
    auto all = rows(provider, of_requests());
    // (300 sets, and one for the others)
    CHECK(total(all) == THREADS * EACH && all.size() == 301 && provider.RefusedCount() == 0);
    CHECK(told.list.size() == 1 && told.list[0].code == CARDINALITY_LIMIT && told.list[0].of == RefusalOf::Stream);
    CHECK(provider.Cached() == 50 && provider.Logs() == 0);
}

static void threads_that_come_and_go_leave_nothing_behind() {
    MeterProvider provider;
    auto requests = requests_of(provider);
    for (int turn = 0; turn < 500; turn++) {
        std::thread([&] { requests->Add(1, {{"route", "/"}}); }).join();
        CHECK(provider.Logs() == 0);
    }
    CHECK(total(rows(provider, of_requests())) == 500);
}

static void sets_without_end_take_memory_that_has_one() {
    MeterProvider provider({}, {100, 1024, 100, {}});
    auto requests = requests_of(provider);
    auto megabytes = [] {
        struct rusage used;
        getrusage(RUSAGE_SELF, &used);
        return used.ru_maxrss / 1024;
    };
    long before = 0;
    for (int user = 0; user < 60000; user++) {
        requests->Add(1, {{"user", user}, {"path", std::string(500, 'x') + std::to_string(user)}});
        if (user == 10000) before = megabytes();
    }
    // (what was recorded comes to 30 MB and more; a sanitizer keeps some of what was freed)
    CHECK(megabytes() - before < 24);
    auto all = rows(provider, of_requests());
    CHECK(total(all) == 60000 && all.size() == 101 && provider.Cached() == 100);
}

static void the_order_of_attributes_is_none_of_the_sets() {
    MeterProvider provider;
    auto requests = requests_of(provider);
    requests->Add(1, {{"a", 1}, {"b", "x"}});
    requests->Add(2, {{"b", "x"}, {"a", 1}});
    requests->Add(4, {{"a", 5}, {"b", "x"}, {"a", 1}});
    auto all = rows(provider, of_requests());
    CHECK(all.size() == 1 && total(all) == 7 && provider.Cached() == 3);
    // What is written down alike is of other types, or cut elsewhere.
    requests->Add(1, {{"a", "1"}});
    requests->Add(1, {{"a", 1}});
    requests->Add(1, {{"a", true}});
    requests->Add(1, {{"ab", ""}});
    CHECK(rows(provider, of_requests()).size() == 5);
}

static void views_make_streams() {
    MeterProvider provider;
    CHECK(provider.AddView({Kind::Counter, "Requests", "1"}, {"app"}, metrics::View{"by_route", Aggregation::AsKind, {}, {{"route"}}}));
    CHECK(provider.AddView({{}, "noise", {}}, {}, metrics::View{"", Aggregation::Drop, {}, {}}));
    auto meter = provider.GetMeter("app");
    auto requests = requests_of(provider);
    auto noise = meter->CreateUInt64Counter("noise");
    auto size = meter->CreateUInt64Histogram("size", "", "", std::vector<int64_t>{1, 10});
    for (int status : {200, 404}) requests->Add(1, {{"route", "/"}, {"status", status}});
    noise->Add(1);
    size->Record(5);
    auto all = rows(provider, Ask::sum("app", "by_route", "1"));
    CHECK(all.size() == 1 && all[0].attributes.size() == 1 && total(all) == 2);
    auto sizes = rows(provider, Ask::histogram("app", "size", "", {1, 10}));
    CHECK(std::get<Distribution>(sizes[0].total).buckets == std::vector<WideCount>({{0, 0}, {0, 1}, {0, 0}}));
    Gateway gateway(1);
    gateway.take(provider.Collect());
    CHECK(gateway.streams().size() == 2);
}

static std::vector<uint64_t> buckets(MeterProvider &provider, const Ask &ask) {
    auto all = rows(provider, ask);
    std::vector<uint64_t> counts;
    if (all.size() != 1) return counts;
    for (auto &count : std::get<Distribution>(all[0].total).buckets) counts.push_back(count.narrow().value());
    return counts;
}

// Each counts its values once, whichever has bounds or a view, and whatever else has the name that it is planned by.
static void one_name_may_have_two_units() {
    Told told;
    MeterProvider provider({}, {100, 1024, 4096, told.hook()});
    CHECK(provider.AddView({{}, "size", "kBy"}, {"app"}, metrics::View{"kilo", Aggregation::AsKind, {{7}}, {{"route"}}}));
    CHECK(provider.AddView({{}, "size", "kBy"}, {"app"}, metrics::View{"", Aggregation::AsKind, {{8}}, {}}));
    auto meter = provider.GetMeter("app");
    const std::vector<int64_t> one{1}, ten{10};
    auto bare = meter->CreateUInt64Histogram("size", "", "");
    auto bytes = meter->CreateUInt64Histogram("Size", "", "By", one);
    auto blocks = meter->CreateUInt64Histogram("SIZE", "", "{block}", ten);
    auto kilo = meter->CreateUInt64Histogram("size", "", "kBy", one);
    auto taken = meter->CreateUInt64Histogram("instrument-1", "", "", one);
    auto elsewhere = provider.GetMeter("library")->CreateUInt64Histogram("size", "", "By", ten);
    for (auto histogram : {&bare, &bytes, &blocks, &kilo, &taken, &elsewhere}) (*histogram)->Record(5, {{"route", "/"}, {"status", 200}});
    CHECK(told.list.empty() && rows(provider, Ask::histogram("app", "kilo", "kBy", {7}))[0].attributes.size() == 1);
    CHECK(provider.Collect().head().points == 7);
    using Buckets = std::vector<uint64_t>;
    CHECK(buckets(provider, Ask::histogram("app", "size", "", default_bounds())).size() == default_bounds().size() + 1);
    CHECK(buckets(provider, Ask::histogram("app", "size", "By", one)) == (Buckets{0, 1}));
    CHECK(buckets(provider, Ask::histogram("app", "size", "{block}", ten)) == (Buckets{1, 0}));
    CHECK(buckets(provider, Ask::histogram("app", "kilo", "kBy", {7})) == (Buckets{1, 0}));
    CHECK(buckets(provider, Ask::histogram("app", "size", "kBy", {8})) == (Buckets{1, 0}));
    CHECK(buckets(provider, Ask::histogram("app", "instrument-1", "", one)) == (Buckets{0, 1}));
    CHECK(buckets(provider, Ask::histogram("library", "size", "By", ten)) == (Buckets{1, 0}));
    // (a stream that two would feed is refused still)
    MeterProvider other({}, {100, 1024, 4096, told.hook()});
    CHECK(other.AddView({{}, "*", {}}, {}, metrics::View{"z", Aggregation::AsKind, {}, {}}));
    auto first = other.GetMeter("app")->CreateUInt64Counter("a"), second = other.GetMeter("app")->CreateUInt64Counter("b");
    CHECK(told.list.size() == 1 && told.list[0].code == KIT_SAME_STREAM && told.list[0].place == 0 && told.list[0].second == 1);
}

static void a_hook_may_record_and_may_throw() {
    std::unique_ptr<Counter<uint64_t>> refusals;
    MeterProvider provider({}, {100, 1024, 4096, [&](const Refusal &) {
                                    refusals->Add(1);
                                    throw 1;
                                }});
    auto requests = requests_of(provider);
    refusals = provider.GetMeter("app")->CreateUInt64Counter("refusals");
    requests->Add(UINT64_MAX);
    requests->Add(1);
    CHECK(total(rows(provider, Ask::sum("app", "refusals", ""))) == 1 && provider.RefusedCount() == 1);
}

static void a_hook_that_is_refused_itself_ends() {
    Written written;
    std::unique_ptr<Counter<uint64_t>> mine, others;
    int calls = 0;
    MeterProvider provider({}, {100, 1024, 4096, [&](const Refusal &) {
                                    calls++;
                                    mine->Add(UINT64_MAX);
                                    others->Add(-1);
                                }});
    MeterProvider other({}, {100, 1024, 4096, [&](const Refusal &) { mine->Add(UINT64_MAX); }});
    auto requests = requests_of(provider);
    mine = provider.GetMeter("app")->CreateUInt64Counter("mine");
    others = other.GetMeter("app")->CreateUInt64Counter("others");
    requests->Add(UINT64_MAX);
    requests->Add(UINT64_MAX);
    CHECK(calls == 2 && provider.RefusedCount() == 4 && other.RefusedCount() == 2);
    // (what is not told to a hook is written)
    REQUIRE(written.lines().size() == 2);
    CHECK(written.lines()[0].rfind("kotskhin: 'mine', declared at ", 0) == 0);
    CHECK(written.lines()[1].find("'others'") != std::string::npos);
}

static void without_a_hook_the_first_of_each_kind_is_written() {
    Written written;
    MeterProvider provider;
    auto requests = requests_of(provider);
    for (int turn = 0; turn < 3; turn++) {
        requests->Add(UINT64_MAX);
        requests->Add(-1);
        provider.GetMeter("app")->CreateUInt64Counter("9 \n\x1b[2Jlives")->Add(1);
    }
    auto lines = written.lines();
    REQUIRE(lines.size() == 3 && provider.RefusedCount() == 9);
    std::string at = ", declared at " + std::string(__FILE__) + ":";
    CHECK(lines[0].rfind("kotskhin: 'requests'" + at, 0) == 0 && lines[1].rfind("kotskhin: 'requests'" + at, 0) == 0);
    CHECK(lines[0].find(": 1 refused: VALUE_TOO_WIDE: ") != std::string::npos && lines[1].find(": KIT_NEGATIVE: ") != std::string::npos);
    CHECK(lines[2].rfind("kotskhin: '9 [2Jlives'" + at, 0) == 0 && lines[2].find(", is refused: KIT_BAD_NAME: ") != std::string::npos);
    // (of so many kinds)
    for (int number = 0; number < 1100; number++) provider.GetMeter("app")->CreateUInt64Counter("!" + std::to_string(number));
    CHECK(written.lines().size() == 1000);
}

// Which stream came to its limit, and once.
static void a_limit_that_is_reached_is_told_once_for_each_stream() {
    Told told;
    MeterProvider provider({}, {2, 1024, 4096, told.hook()});
    auto meter = provider.GetMeter("app");
    auto requests = requests_of(provider), errors = meter->CreateUInt64Counter("errors");
    auto depth = meter->CreateInt64Gauge("depth");
    auto add = [](auto &to, int until) {
        for (int n = 0; n < until; n++) to->Add(1, {{"n", n}});
    };
    add(requests, 2);
    add(errors, 2);
    for (int n = 0; n < 2; n++) depth->Record(n, {{"n", n}});
    provider.Collect();
    CHECK(told.list.empty());
    add(errors, 3);
    for (int turn = 0; turn < 2; turn++) provider.Collect();
    CHECK(told.list.size() == 1 && told.list[0].instrument == "errors");
    add(requests, 5);
    depth->Record(7, {{"n", 7}});
    REQUIRE(provider.Shutdown() && provider.RefusedCount() == 0 && told.list.size() == 3);
    for (auto &refusal : told.list) CHECK(refusal.code == CARDINALITY_LIMIT && refusal.of == RefusalOf::Stream && refusal.count == 0);
    CHECK(told.list[0].what() == "'errors': CARDINALITY_LIMIT: further sets are counted together, in the point otel.metric.overflow=true");
}

// Records once its thread is over.
struct Late {
    Counter<uint64_t> *counter = nullptr;
    ~Late() {
        if (counter) counter->Add(1);
    }
};
static thread_local Late late;

static void a_thread_that_ends_may_record_still() {
    MeterProvider provider;
    auto requests = requests_of(provider);
    // (which of the thread's things goes first depends on which came first)
    for (bool is_first : {true, false}) {
        std::thread([&] {
            if (is_first) requests->Add(1);
            late.counter = requests.get();
            requests->Add(1);
        }).join();
    }
    CHECK(total(rows(provider, of_requests())) == 5);
}

static void instruments_outlast_their_provider() {
    Told told;
    std::unique_ptr<Counter<uint64_t>> requests;
    std::unique_ptr<Gauge<int64_t>> depth;
    {
        MeterProvider provider({}, {100, 1024, 4096, told.hook()});
        requests = requests_of(provider);
        depth = provider.GetMeter("app")->CreateInt64Gauge("depth");
        requests->Add(1);
        depth->Record(1);
    }
    requests->Add(1);
    depth->Record(1);
    depth->Record(2, {{"route", "/"}});
    CHECK(told.list.size() == 3);
    for (auto &refusal : told.list) CHECK(refusal.code == KIT_CLOSED && refusal.count == 1);
}

static void one_provider_is_for_all() {
    auto none = Provider::GetMeterProvider()->GetMeter("app")->CreateUInt64Counter("requests");
    none->Add(1);
    CHECK(Provider::GetMeterProvider()->RefusedCount() == 1);
    auto provider = std::make_shared<MeterProvider>();
    Provider::SetMeterProvider(provider);
    requests_of(*Provider::GetMeterProvider())->Add(7);
    CHECK(total(rows(*provider, of_requests())) == 7);
    Provider::SetMeterProvider(nullptr);
    CHECK(provider.use_count() == 1);
}

static void recording_is_noexcept() {
    static_assert(noexcept(std::declval<Counter<uint64_t>>().Add(1)) &&noexcept(std::declval<Gauge<int64_t>>().Record(1)));
    static_assert(noexcept(std::declval<Counter<uint64_t>>().Add(1, std::declval<std::map<std::string, int>>())));
    static_assert(std::is_nothrow_constructible_v<AttributeArgument, uint64_t> && !std::is_constructible_v<AttributeArgument, double>);
    static_assert(std::is_convertible_v<int, Whole> && std::is_convertible_v<uint64_t, Whole> && std::is_convertible_v<int8_t, Whole>);
    static_assert(!std::is_convertible_v<double, Whole> && !std::is_convertible_v<float, Whole> && !std::is_convertible_v<bool, Whole>);
    static_assert(!std::is_convertible_v<char, Whole> && !std::is_convertible_v<wchar_t, Whole> && !std::is_convertible_v<Kind, Whole>);
    static_assert(!std::is_convertible_v<UpDownCounter<int64_t> *, Counter<int64_t> *>);
    static_assert(!std::is_convertible_v<Histogram<uint64_t> *, Gauge<uint64_t> *>);
    // A log that no memory is there for.
    Told told;
    MeterProvider provider({}, {100, SIZE_MAX, 4096, told.hook()});
    requests_of(provider)->Add(1);
    CHECK(told.list.size() == 1 && told.list[0].code == KIT_NO_MEMORY);
    MeterProvider none({}, {0, 1024, 4096, told.hook()});
    requests_of(none)->Add(1);
    CHECK(told.list.size() == 3 && told.list[1].code == KIT_BAD_LIMIT && told.list[2].code == KIT_BAD_LIMIT);
}

int main() {
    return checked_all({{"every instrument records", every_instrument_records},
                        {"a late instrument is told by name and place", a_late_instrument_is_told_by_name_and_place},
                        {"one that the plan refuses leaves the others", one_that_the_plan_refuses_leaves_the_others},
                        {"a view that can't be applied is passed over", a_view_that_can_not_be_applied_is_passed_over},
                        {"what is refused is counted and told", what_is_refused_is_counted_and_told},
                        {"a value without room is refused by every instrument", a_value_without_room_is_refused_by_every_instrument},
                        {"the last recording of a gauge wins", the_last_recording_of_a_gauge_wins},
                        {"a provider without recordings ends", a_provider_without_recordings_ends},
                        {"nothing is lost between threads", nothing_is_lost_between_threads},
                        {"threads that come and go leave nothing behind", threads_that_come_and_go_leave_nothing_behind},
                        {"sets without end take memory that has one", sets_without_end_take_memory_that_has_one},
                        {"the order of attributes is none of the sets", the_order_of_attributes_is_none_of_the_sets},
                        {"views make streams", views_make_streams},
                        {"one name may have two units", one_name_may_have_two_units},
                        {"a hook may record and may throw", a_hook_may_record_and_may_throw},
                        {"a hook that is refused itself ends", a_hook_that_is_refused_itself_ends},
                        {"without a hook the first of each kind is written", without_a_hook_the_first_of_each_kind_is_written},
                        {"a limit that is reached is told once for each stream", a_limit_that_is_reached_is_told_once_for_each_stream},
                        {"a thread that ends may record still", a_thread_that_ends_may_record_still},
                        {"instruments outlast their provider", instruments_outlast_their_provider},
                        {"one provider is for all", one_provider_is_for_all},
                        {"recording is noexcept", recording_is_noexcept}});
}
