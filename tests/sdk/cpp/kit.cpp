// The C++ wrapper where C++ has words of its own: moves, temporaries, ranges, ends of numbers, classes of refusals, what is const.
#include "check.hpp"
#include <array>
#include <kotskhin.hpp>
#include <map>
#include <thread>

using namespace kotskhin;

template <typename Kind>
constexpr bool is_moved_alone = std::is_nothrow_move_constructible_v<Kind> &&std::is_nothrow_move_assignable_v<Kind> &&
                                !std::is_copy_constructible_v<Kind> && !std::is_copy_assignable_v<Kind>;
static_assert(is_moved_alone<Plan> && is_moved_alone<Attributes> && is_moved_alone<Writer> && is_moved_alone<Recorder>);
static_assert(is_moved_alone<Seat> && is_moved_alone<Export> && is_moved_alone<Gateway> && is_moved_alone<Archive>);
static_assert(is_moved_alone<Message> && is_moved_alone<View> && is_moved_alone<Ask> && is_moved_alone<Rows> && is_moved_alone<Streams>);
static_assert(!std::is_constructible_v<AttributeValue, double> && !std::is_constructible_v<Value, double>);
static_assert(!std::is_constructible_v<Value, bool> && !std::is_convertible_v<void *, AttributeValue>);
static_assert(std::is_base_of_v<Refused, Closed> && std::is_base_of_v<std::runtime_error, Refused>);

static Plan plan() {
    return Plan({{"app", "requests", "1", Kind::Counter}, {"app", "size", "By", Kind::Histogram}, {"app", "depth", "1", Kind::Gauge}});
}

// The total of a row of a sum.
static int64_t sum_of(const Rows &rows, size_t row) { return std::get<WideSum>(rows.row(row).total).narrow().value(); }

static void moved() {
    Writer one(plan(), "shop", 0, 1, 100), other(plan(), "shop", 0, 2, 100);
    one.measure(0, {}, 7);
    other = std::move(one);
    CHECK(other && !one);
    CHECK(throws<Nothing>([&] { one.measure(0, {}, 1); }));
    Gateway gateway(1);
    gateway.take(other.collect(200));
    // (move assignment gives up the old thing: instance 2 is gone)
    CHECK(gateway.newest("shop", 0, 1, 100) == 200);
    Writer &same = other;
    other = std::move(same);
    CHECK(other);
    other.close();
    other.close();
    CHECK(!other && throws<Nothing>([&] { other.collect(300); }));
    other = Writer(plan(), "shop", 0, 3, 100);
    CHECK(other);
    other.measure(0, {}, 1);
}

static void temporaries_and_ranges() {
    Writer writer(plan(), std::string("shop"), unique_instance(), 100);
    std::map<std::string, std::string> map{{"route", "/"}, {"host", "a"}};
    std::vector<std::pair<std::string_view, AttributeValue>> list{{"route", "/"}, {"host", "a"}};
    std::map<std::string, int> numbers{{"status", 200}};
    writer.measure(0, Attributes{{"route", "/"}, {"host", "a"}}, 1);
    writer.measure(0, Attributes(map), 2);
    writer.measure(0, Attributes(list), 4);
    writer.measure(0, Attributes{{"host", "a"}, {"route", "/"}}, 8);
    const Attributes set(list);
    size_t held = writer.hold(0, set);
    CHECK(writer.hold(0, Attributes(map)) == held);
    writer.measure_held(held, 16);
    writer.measure(0, Attributes(numbers), 32);
    writer.measure(0, {}, 64);
    Gateway gateway(1);
    gateway.take(writer.collect(200));
    Rows rows = gateway.rows(Ask::sum("app", "requests", "1").keep({"route", "host"}));
    CHECK(rows.size() == 2);
    CHECK(sum_of(rows, 0) == 96 && sum_of(rows, 1) == 31);
    CHECK((rows.attributes(1) == OwnedPairs{{"host", "a"}, {"route", "/"}}));
    CHECK((Attributes{{"n", 1}, {"t", true}, {"s", "x"}}.pairs() == OwnedPairs{{"n", 1}, {"s", "x"}, {"t", true}}));
    std::vector<std::string> keys{"route"};
    CHECK(gateway.rows(Ask::sum("app", "requests", "1").only({{"route", "/"}}).service("shop").keep(keys)).size() == 1);
    std::vector<uint8_t> bytes = gateway.encode();
    std::array<char, 4> few{{'K', 'T', 'S', 'K'}};
    Gateway back(2), too(3);
    CHECK(back.merge_bytes(bytes) == gateway.head().points && back.same(gateway) && back.merge_bytes(bytes) == 0);
    CHECK(too.merge_bytes(std::string(bytes.begin(), bytes.end())) > 0 && too.same(gateway));
    CHECK(throws<Truncated>([&] { Export::decode(few); }) && throws<Truncated>([] { Export::decode(std::vector<uint8_t>()); }));
    CHECK(throws<Truncated>([] { Export::decode(Bytes(nullptr, 0)); }));
}

static void ends_of_numbers() {
    Writer writer(plan(), "shop", 0, 1, 100);
    CHECK(throws<std::out_of_range>([&] { writer.measure(2, {}, uint64_t(1) << 63); }));
    CHECK(throws<std::out_of_range>([&] { writer.measure(-1, {}, 1); }));
    CHECK(throws<std::out_of_range>([&] { writer.collect(-1); }));
    CHECK(throws<std::out_of_range>([] { Gateway(-1); }) && throws<std::out_of_range>([] { Gateway(uint64_t(1) << 32); }));
    CHECK(throws<std::out_of_range>([] { Attributes{{"n", UINT64_MAX}}; }));
    writer.measure(2, {}, INT64_MIN);
    writer.measure(2, Attributes{{"n", INT64_MIN}}, uint64_t(INT64_MAX));
    CHECK(throws<NoInstrument>([&] { writer.measure(SIZE_MAX, {}, 1); }));
    CHECK(throws<BadNumber>([] { Plan({{"app", "x", "", 4}}); }) && throws<BadNumber>([] { Plan({{"app", "x", "", -1}}); }));
    CHECK(throws<BadNumber>([] { View::of_every().aggregate(300); }));
    CHECK((WideSum{0, 7}.narrow() == 7 && WideSum{UINT64_MAX, UINT64_MAX}.narrow() == -1 && !WideSum{0, UINT64_MAX}.narrow()));
    CHECK((WideSum{uint64_t(1) << 63, 0}.text() == "-170141183460469231731687303715884105728"));
    CHECK((WideCount{UINT64_MAX, UINT64_MAX}.text() == "340282366920938463463374607431768211455" && WideCount{}.text() == "0"));
}

static void refusals() {
    CHECK(places_of(KIT_SAME_STREAM) == 2 && places_of(KIT_OVERFLOW) == 1 && places_of(KIT_CLOSED) == 0);
    try {
        Plan({{"app", "x", "1", Kind::Gauge}, {"kotskhin.archive", "adopted", "ns", Kind::Gauge}});
        CHECK(false);
    } catch (const ReservedScope &why) {
        CHECK(why.code == KIT_RESERVED_SCOPE && why.place == 1 && !why.second);
    }
    try {
        Plan({{"app", "x", "1", Kind::Gauge}}, Views(View::of_name("y"), View::of_name("x").aggregate(Aggregation::Sum)));
        CHECK(false);
    } catch (const BadAggregation &why) {
        CHECK(why.code == KIT_BAD_AGGREGATION && why.place == 0 && why.second == 1);
        std::string said = why.what();
        CHECK(said.rfind("kotskhin: KIT_BAD_AGGREGATION: ", 0) == 0 && said.find("(0 and 1)") != std::string::npos);
    }
    Writer writer(plan(), "shop", 0, 1, 100);
    writer.shutdown(200);
    try {
        writer.measure(0, {}, 1);
        CHECK(false);
    } catch (const Refused &why) {
        CHECK(dynamic_cast<const Closed *>(&why) && !why.place && !why.second);
    }
    writer.restart(300);
    writer.measure(0, {}, 1);
    CHECK(throws<StartNotAfter>([&] { writer.restart(300); }));
    // Each code of the header has a class, but for KIT_OK: those of no name here are none that are thrown.
    for (int32_t code = 1; code < 128; code++) {
        if (std::string("no code") == kit_code_name(code)) continue;
        try {
            detail::refuse(code, 1, 2);
        } catch (const Refused &why) {
            CHECK(why.code == code && typeid(why) != typeid(Refused));
        }
    }
}

static void rows_and_views() {
    View view = View::of_name("size").rename("bytes").keep({"route"}).buckets({10, 20});
    const std::array<Instrument, 2> instruments{{{"app", "size", "By", Kind::Histogram}, {"db", "depth", "1", Kind::Gauge}}};
    const Plan made = Plan::of(instruments, Views(view), 10);
    const std::array<int64_t, 2> bounds{{10, 20}};
    CHECK(View::of_name("size").buckets(bounds) && Ask::histogram("app", "bytes", "By", bounds));
    CHECK(made.streams().size() == 2 && made.streams()[0].name == "bytes" && made.streams()[0].bounds == std::vector<int64_t>({10, 20}));
    Writer one(made, "shop", 0, 1, 100), other(made, "shop", 0, 1, 100);
    for (int value : {5, 15, 25}) one.measure(0, Attributes{{"route", "/"}, {"status", value}}, value);
    one.measure(1, {}, -3);
    other.measure(1, {}, 4);
    Gateway gateway(1);
    gateway.take(one.collect(200));
    const Gateway &read = gateway;
    Row row = read.rows(Ask::stream(read.streams(), 0)).row(0);
    auto &all = std::get<Distribution>(row.total);
    CHECK(all.count == (WideCount{0, 3}) && all.sum.narrow() == 45 && all.buckets == std::vector<WideCount>(3, {0, 1}));
    CHECK(all.range && all.range->least == 5 && all.range->greatest == 25 && row.attributes.size() == 1);
    Row gauge = read.rows(Ask::gauge("db", "depth", "1")).row(0);
    CHECK(std::get<std::optional<Newest>>(gauge.total)->value == -3);
    gateway.take(other.collect(200));
    CHECK(read.conflicts() == 1);
    gauge = read.rows(Ask::gauge("db", "depth", "1")).row(0);
    CHECK(gauge.conflicts == 1 && !std::get<std::optional<Newest>>(gauge.total));
    CHECK(gateway.merge(gateway) == 0 && read.same(read));
    CHECK(throws<NoRow>([&] { read.rows(Ask::gauge("db", "depth", "1")).row(1); }));
    CHECK(throws<NoItem>([&] { read.streams()[9]; }));
    CHECK(default_bounds().size() == 15);
}

// Each call that only reads takes what is const: were one of them not const, this would not compile.
static void what_reads_is_const() {
    const Plan made = plan();
    Writer writer(made, "shop", 0, 1, 100);
    const Attributes set{{"route", "/"}};
    for (size_t instrument : {0, 1, 2}) writer.measure(instrument, set, 7);
    const Export given = writer.collect(200);
    const auto taken = [&] {
        Gateway gateway(1);
        gateway.take(given);
        return gateway;
    };
    const Gateway gateway = taken(), other = taken();
    CHECK(gateway.head().points == 3 && gateway.conflicts() == 0 && gateway.same(other) && gateway.newest("shop", 0, 1, 100) == 200);
    CHECK(gateway.incarnations().size() == 1 && gateway.services().size() == 1 && gateway.encode() == other.encode());
    CHECK(gateway.prometheus() == other.prometheus("shop") && gateway.openmetrics() == other.openmetrics("shop"));
    const Ask ask = Ask::sum("app", "requests", "1");
    CHECK(gateway.table(ask) == gateway.sum("app", "requests", "1"));
    const Rows sums = gateway.rows(ask), sizes = gateway.rows(Ask::histogram("app", "size", "By", default_bounds()));
    const Rows depths = gateway.rows(Ask::gauge("app", "depth", "1"));
    CHECK(sums.size() == 1 && sum_of(sums, 0) == 7 && !sums.table().empty() && sizes.row(0).points == 1);
    CHECK(sums.attributes(0) == set.pairs() && sums.all().size() == 1 && sums.row(0).points == 1 && depths.all().size() == 1);
    const Streams streams = gateway.streams();
    CHECK(streams.size() == 3 && streams[0].name == "depth" && made.streams()[2].name == "depth");
    CHECK(given.head().points == 3 && !given.otlp().empty() && given.streams().size() == 3);
}

static void receivers_look_first() {
    Writer writer(plan(), "shop", Instance{1, 2}, 100);
    writer.measure(0, {}, 1);
    const Export given = Export::decode(writer.collect(200).encode());
    ExportHead head = given.head();
    CHECK(head.service == "shop" && head.instance == (Instance{1, 2}) && head.start == 100 && head.time == 200 && head.points == 1);
    Gateway gateway(1);
    gateway.take(given);
    Gateway to(2);
    Message message = Message::decode(gateway.send(2).encode());
    CHECK(message.envelope().from == 1 && message.envelope().to == 2 && message.envelope().points == 1);
    CHECK(message.incarnations().size() == 1 && message.incarnations()[0].service == "shop" && gateway.incarnations()[0].newest == 200);
    CHECK(gateway.openmetrics("shop").find("requests_total") != std::string::npos &&
          gateway.prometheus().find("# EOF") == std::string::npos);
    CHECK(Export::of_otlp(given.otlp())[0].head().service == "shop" &&
          throws<request::Malformed>([] { Export::of_otlp(std::string("\x0a\x05")); }));
    Gateway carried(3);
    CHECK(carried.merge_bytes(message.encode()) == 1 && carried.newest("shop", Instance{1, 2}, 100) == 200);
    std::optional<Message> answer = to.hand(message);
    CHECK(answer && answer->envelope().points == 0 && !gateway.hand(*answer));
    CHECK(throws<NotAddressed>([&] { gateway.hand(message); }) && to.same(gateway));
}

static void archives_adopt_what_has_ended() {
    Writer worker(plan(), "shop", Instance{1, 2}, 100);
    worker.measure(0, {}, 7);
    const Export last = worker.shutdown(200);
    Gateway gateway(1);
    CHECK(gateway.take(last).changed == 1 && gateway.take(last).changed == 0 && !gateway.take(last).is_late);
    Archive begun("shop", 10), archive = std::move(begun);
    CHECK(throws<Nothing>([&] { begun.start(); }) && throws<NoPoint>([&] { archive.adopt(gateway, "shop", Instance{2, 1}, 100); }));
    const Gateway &read = gateway;
    archive.adopt(read, "shop", Instance{1, 2}, 100);
    CHECK(throws<Adopted>([&] { archive.adopt(read, "shop", Instance{1, 2}, 100); }) && throws<Unexported>([&] { archive.seal(2000); }));
    CHECK(throws<TimeNotLater>([&] { archive.export_at(1); }));
    const Export adopted = archive.export_at(1500);
    CHECK(throws<StartNotLater>([&] { archive.seal(1500); }));
    archive.seal(2000);
    const Archive &sealed = archive;
    CHECK(sealed.start() == 2000 && sealed.adopted() == 0 && adopted.head().points == 2);
    CHECK(gateway.take(adopted).changed == 2 && gateway.take(last).is_late && gateway.head().points == 2 && read.head().id == 1);
    CHECK(read.sum("app", "requests", "1") == "attributes  points  conflicts  total\n{}               1          0  7\n");
    Gateway other(2);
    Message answer, none;
    CHECK(other.hand(read.send(2), answer) && !gateway.hand(answer, none) && !none);
    CHECK(other.same(read) && other.merge(read) == 0 && other.take(last).is_late);
}

// What an archive adopted of an old plan hides no metric of a worker that lives.
static void archives_hide_no_metric() {
    Gateway gateway(1);
    auto brought = [&](Kind kind, uint64_t instance, uint64_t start) {
        Writer writer(Plan({{"app", "sales", "1", kind}}), "shop", Instance{0, instance}, start);
        writer.measure(0, {}, 7);
        gateway.take(writer.collect(start + 100));
    };
    brought(Kind::Counter, 1, 100);
    brought(Kind::UpDown, 2, 200);
    Archive archive("shop", 10);
    archive.adopt(gateway, "shop", Instance{0, 1}, 100);
    gateway.take(archive.export_at(400));
    CHECK(archive.start() == 1 && gateway.prometheus("shop").find("# TYPE sales gauge\n") != std::string::npos);
}

static void recorders_tell_what_they_have() {
    Writer writer(plan(), "shop", 0, 1, 100);
    Recorder made(2), log = std::move(made);
    const Recorder &read = log;
    CHECK(read.is_empty() && throws<Nothing>([&] { made.is_empty(); }));
    log.measure(0, {}, 7);
    CHECK(!read.is_empty() && read.len() == 1);
    writer.take_in(log);
    CHECK(read.is_empty());
    log.measure(0, {}, 1);
    log.clear();
    CHECK(read.is_empty() && writer.collect(200).head().points == 1);
}

int main() {
    return checked_all({{"moved", moved},
                        {"temporaries and ranges", temporaries_and_ranges},
                        {"ends of numbers", ends_of_numbers},
                        {"refusals", refusals},
                        {"rows and views", rows_and_views},
                        {"what reads is const", what_reads_is_const},
                        {"receivers look first", receivers_look_first},
                        {"archives adopt what has ended", archives_adopt_what_has_ended},
                        {"archives hide no metric", archives_hide_no_metric},
                        {"recorders tell what they have", recorders_tell_what_they_have}});
}
