// The cases that all languages share (../cases.json, whose path is given), performed over the C++ wrapper. Exits with 1 where one differs.
#include "json.hpp"
#include <any>
#include <cstdio>
#include <fstream>
#include <functional>
#include <iostream>
#include <kotskhin.hpp>
#include <map>
#include <memory>
#include <mutex>
#include <sstream>
#include <sys/resource.h>
#include <thread>

using namespace kotskhin;
using Is = Json::Is;

// A number of the list in a type of the wrapper's: from 64 bits with a sign, or without one; else it is none that C++ has.
template <typename Made>
static Made number(const Json &of) {
    const std::string &digits = of.text;
    size_t end = 0;
    try {
        long long made = std::stoll(digits, &end);
        return Made(made);
    } catch (const std::out_of_range &) {
        if (digits[0] == '-') throw;
        return Made(std::stoull(digits, &end));
    }
}

__extension__ typedef unsigned __int128 Wide;

// An instance of 128 bits.
static Instance instance(const Json &of) {
    if (of.text[0] == '-') throw std::out_of_range("an instance below 0");
    Wide made = 0;
    for (char digit : of.text) {
        Wide next = made * 10 + static_cast<unsigned>(digit - '0');
        if (made > ~static_cast<Wide>(0) / 10 || next < made) throw std::out_of_range("an instance of more than 128 bits");
        made = next;
    }
    return {static_cast<uint64_t>(made >> 64), static_cast<uint64_t>(made)};
}

static std::string unhexed(const std::string &hex) {
    std::string made;
    for (size_t i = 0; i < hex.size(); i += 2) made += static_cast<char>(std::stoi(hex.substr(i, 2), nullptr, 16));
    return made;
}

static std::string text(const Json &of) {
    if (of.is == Is::Text) return of.text;
    if (auto hex = of.find("hex")) return unhexed(hex->text);
    std::string made;
    auto &repeat = of["repeat"].list;
    for (int i = std::stoi(repeat[1].text); i > 0; i--) made += repeat[0].text;
    return made;
}

// What an answer is compared with: texts that are repeated are written out.
static Json written_out(const Json &of) {
    if (of.find("repeat")) return Json::of(text(of));
    Json made = of;
    for (auto &item : made.list) item = written_out(item);
    for (auto &[key, value] : made.fields) value = written_out(value);
    return made;
}

static OwnedValue owned(const Json &of) {
    if (of.is == Is::Truth) return of.text == "true";
    if (of.is == Is::Number) return number<Value>(of).value;
    return text(of);
}

static std::vector<std::pair<std::string, OwnedValue>> pairs(const Json &of) {
    std::vector<std::pair<std::string, OwnedValue>> made;
    for (auto &pair : of.list) made.emplace_back(text(pair.list[0]), owned(pair.list[1]));
    return made;
}

static std::vector<std::string> texts(const Json &of) {
    std::vector<std::string> made;
    for (auto &item : of.list) made.push_back(text(item));
    return made;
}

static std::vector<int64_t> bounds(const Json &of) {
    std::vector<int64_t> made;
    for (auto &item : of.list) made.push_back(number<Value>(item).value);
    return made;
}

static KindNumber kind(const Json &of) {
    static const std::map<std::string, Kind> kinds{
        {"counter", Kind::Counter}, {"up_down", Kind::UpDown}, {"gauge", Kind::Gauge}, {"histogram", Kind::Histogram}};
    if (of.is == Is::Number) return std::stoi(of.text);
    return kinds.at(of.text);
}

static View view(const Json &of) {
    static const std::map<std::string, Aggregation> words{
        {"default", Aggregation::AsKind}, {"sum", Aggregation::Sum}, {"last", Aggregation::LastValue}, {"drop", Aggregation::Drop}};
    auto name = of.find("name");
    View made = name ? View::of_name(text(*name)) : View::of_every();
    if (auto word = of.find("kind")) made.kind(kind(*word));
    if (auto word = of.find("scope")) made.scope(text(*word));
    if (auto word = of.find("rename")) made.rename(text(*word));
    if (auto words = of.find("keep")) made.keep(texts(*words));
    if (auto word = of.find("aggregation")) {
        if (auto buckets = word->find("buckets")) made.buckets(bounds(*buckets));
        else if (word->is == Is::Number) made.aggregate(std::stoi(word->text));
        else made.aggregate(words.at(word->text));
    }
    return made;
}

// Answers, as the list writes them.
static Json to_json(const std::string &text) { return Json::of(text); }
static Json to_json(bool truth) { return Json::of(truth); }
template <typename Number, typename = std::enable_if_t<std::is_integral_v<Number> && !std::is_same_v<Number, bool>>>
static Json to_json(Number number) {
    return Json::number(std::to_string(number));
}
static Json to_json(const WideSum &sum) { return Json::number(sum.text()); }
static Json to_json(const WideCount &count) { return Json::number(count.text()); }
static Json to_json(const OwnedPairs &pairs) {
    std::vector<Json> made;
    for (auto &[key, value] : pairs)
        made.push_back(Json::of({to_json(key), std::visit([](auto &owned) { return to_json(owned); }, value)}));
    return Json::of(made);
}
static Json to_json(const Stream &stream);
static Json to_json(const Incarnation &incarnation);
static Json to_json(const Row &row);
template <typename Item>
static Json to_json(const std::vector<Item> &list) {
    std::vector<Json> made;
    for (auto &item : list) made.push_back(to_json(item));
    return Json::of(made);
}
static Json to_json(const Instance &instance) {
    WideCount wide{instance.high, instance.low};
    return Json::number(wide.text());
}
static Json to_json(const Stream &stream) {
    static const char *const words[] = {"monotonic sum", "sum", "gauge"};
    Json shape;
    if (stream.shape == Shape::Histogram) shape.with("bounds", to_json(stream.bounds));
    else shape = to_json(std::string(words[static_cast<int>(stream.shape)]));
    return Json::of({to_json(stream.scope), to_json(stream.name), to_json(stream.unit), shape});
}
static Json to_json(const Incarnation &incarnation) {
    return Json()
        .with("service", to_json(incarnation.service))
        .with("instance", to_json(incarnation.instance))
        .with("start", to_json(incarnation.start))
        .with("newest", to_json(incarnation.newest))
        .with("points", to_json(incarnation.points));
}
static Json to_json(const Row &row) {
    Json made;
    made.with("attributes", to_json(row.attributes)).with("points", to_json(row.points)).with("conflicts", to_json(row.conflicts));
    if (auto sum = std::get_if<WideSum>(&row.total)) {
        made.with("total", to_json(*sum));
    } else if (auto all = std::get_if<Distribution>(&row.total)) {
        made.with("count", to_json(all->count)).with("total", to_json(all->sum)).with("buckets", to_json(all->buckets));
        if (all->range) made.with("least", to_json(all->range->least)).with("greatest", to_json(all->range->greatest));
    } else if (auto &newest = std::get<std::optional<Newest>>(row.total)) {
        made.with("time", to_json(newest->time)).with("value", to_json(newest->value));
    }
    return made;
}

static void differs(const std::string &what) { throw std::logic_error(what); }

// A case, and the things that it made, by their names.
class Run {
    std::map<std::string, std::any> things;

    template <typename Kind>
    Kind *find(const std::string &name) {
        auto found = things.find(name);
        if (found == things.end()) throw std::runtime_error("nothing is called " + name);
        auto made = std::any_cast<std::shared_ptr<Kind>>(&found->second);
        return made ? made->get() : nullptr;
    }
    template <typename Kind>
    Kind &the(const Json &name) {
        if (auto made = find<Kind>(name.text)) return *made;
        throw std::runtime_error(name.text + " is of another kind");
    }
    template <typename Kind>
    void make(const Json &step, Kind made) {
        if (auto name = step.find("as")) things[name->text] = std::make_shared<Kind>(std::move(made));
    }
    // A call of whichever of these kinds the thing is.
    template <typename First, typename... More, typename Call>
    auto by(const Json &name, Call call) {
        if (auto made = find<First>(name.text)) return call(*made);
        if constexpr (sizeof...(More) > 0) return by<More...>(name, call);
        else throw std::runtime_error(name.text + " is of another kind");
    }

    Ask ask(const Json &of) {
        auto made = [&] {
            if (auto number = of.find("stream")) {
                auto streams = by<Plan, Gateway>(of["streams_of"], [](auto &thing) { return thing.streams(); });
                return Ask::stream(streams, ::number<Index>(*number));
            }
            std::string scope = text(of["scope"]), name = text(of["name"]), unit = text(of["unit"]);
            auto &shape = of["shape"];
            if (auto given = shape.find("bounds")) return Ask::histogram(scope, name, unit, bounds(*given));
            if (shape.text == "gauge") return Ask::gauge(scope, name, unit);
            return Ask::sum(scope, name, unit, shape.text == "monotonic sum");
        }();
        if (auto given = of.find("service")) made.service(text(*given));
        if (auto given = of.find("only")) made.only(Pairs(pairs(*given)));
        if (auto given = of.find("keep")) made.keep(texts(*given));
        return made;
    }
    std::string bytes(const Json &of) { return of.is == Is::Text ? the<std::string>(of) : unhexed(of["hex"].text); }

    Json row(const Json &step) {
        Rows rows = the<Gateway>(step["of"]).rows(ask(step["ask"]));
        size_t row = number<Index>(step["row"]);
        // (numbers and buckets of a row come together here)
        return step["call"].text == "attributes" ? to_json(rows.attributes(row)) : to_json(rows.row(row));
    }

    Json taken_in(const Json &step) {
        auto most = step.find("most");
        auto &recorder = the<Recorder>(step["recorder"]);
        Taken taken = by<Writer, Seat>(
            step["by"], [&](auto &thing) { return most ? thing.take_in(recorder, number<Index>(*most)) : thing.take_in(recorder); });
        Json made;
        made.with("recorded", to_json(taken.recorded)).with("refused", to_json(taken.refused));
        if (taken.code != KIT_OK)
            made.with("first", to_json(taken.first)).with("code", to_json(std::string(kit_code_name(taken.code) + 4)));
        if (places_of(taken.code)) made.with("place", to_json(taken.place));
        return made;
    }

    void changed_bytes(const Json &step) {
        std::string made = bytes(step["of"]);
        if (auto set = step.find("set")) {
            for (auto &change : set->list) {
                long place = std::stol(change.list[0].text);
                made.at(place < 0 ? made.size() + place : place) = static_cast<char>(std::stoi(change.list[1].text));
            }
        }
        if (auto cut = step.find("cut")) made.resize(std::min(made.size(), static_cast<size_t>(std::stoul(cut->text))));
        if (auto add = step.find("add")) made += unhexed(add->text);
        if (step.find("checksum")) {
            uint32_t low = 1, high = 0;
            for (size_t i = 0; i + 4 < made.size(); i++) {
                low = (low + static_cast<uint8_t>(made[i])) % 65521;
                high = (high + low) % 65521;
            }
            uint32_t sum = high << 16 | low;
            for (int i = 1; i <= 4; i++, sum >>= 8) made[made.size() - i] = static_cast<char>(sum);
        }
        make(step, std::move(made));
    }

    void record(const Json &step, Recorder &recorder, Writer &writer, std::mutex &lock) {
        auto take_in = [&] {
            std::lock_guard<std::mutex> has(lock);
            Taken taken = writer.take_in(recorder);
            if (taken.refused) differs("a recording was refused");
        };
        auto &none = the<Attributes>(step["set"]);
        for (int turn = 0, each = std::stoi(step["each"].text); turn < each; turn++) {
            for (;;) {
                try {
                    if (turn % 2) recorder.measure_held(number<Index>(step["number"]), 1);
                    else recorder.measure(number<Index>(step["instrument"]), none, 1);
                    break;
                } catch (const RecorderFull &) {
                    take_in();
                }
            }
        }
        take_in();
    }
    void record(const Json &step, Seat &seat) {
        auto &none = the<Attributes>(step["set"]);
        for (int turn = 0, each = std::stoi(step["each"].text); turn < each; turn++) {
            for (;;) {
                try {
                    if (turn % 2) seat.measure_held(number<Index>(step["number"]), 1);
                    else seat.measure(number<Index>(step["instrument"]), none, 1);
                    break;
                } catch (const Busy &) {
                    std::this_thread::yield();
                }
            }
        }
    }
    void threads(const Json &step) {
        int count = std::stoi(step["threads"].text);
        bool with_recorders = step["with"].text == "recorder";
        std::mutex lock, told;
        std::string fault;
        std::vector<std::thread> threads;
        std::vector<std::shared_ptr<Seat>> seats(static_cast<size_t>(count));
        // (all before one records: a seat that is busy splits none)
        for (auto &seat : seats) seat = with_recorders ? nullptr : std::make_shared<Seat>(the<Seat>(step["by"]).split());
        for (auto &seat : seats) {
            threads.emplace_back([&, seat] {
                try {
                    if (seat) return record(step, *seat);
                    Recorder recorder(number<Index>(step["capacity"]));
                    record(step, recorder, the<Writer>(step["by"]), lock);
                } catch (const std::exception &why) {
                    std::lock_guard<std::mutex> has(told);
                    fault = why.what();
                }
            });
        }
        for (auto &thread : threads) thread.join();
        if (!fault.empty()) differs(fault);
    }

    Json of_otlp(const Json &step) {
        std::vector<Export> made = Export::of_otlp(bytes(step["bytes"]));
        auto &names = step["as"].list;
        for (size_t i = 0; i < std::min(names.size(), made.size()); i++)
            things[names[i].text] = std::make_shared<Export>(std::move(made[i]));
        return to_json(made.size());
    }
    void page(const Json &step) {
        std::optional<std::string> service;
        if (auto given = step.find("service")) service = text(*given);
        auto &gateway = the<Gateway>(step["of"]);
        auto said = step.find("tombstones");
        auto shown = said && said->text == "true" ? Tombstones::Shown : Tombstones::LeftOut;
        bool is_openmetrics = step["format"].text == "openmetrics";
        std::string page = is_openmetrics ? gateway.openmetrics(service, shown) : gateway.prometheus(service, shown);
        for (auto &line : step["has"].list) {
            if (("\n" + page).find("\n" + line.text + "\n") == std::string::npos) differs("the page has no " + line.text + ":\n" + page);
        }
        for (auto &line : step["lacks"].list) {
            if (page.find(line.text) != std::string::npos) differs("the page has " + line.text + ":\n" + page);
        }
    }

    static long grown() {
        struct rusage used;
        getrusage(RUSAGE_SELF, &used);
        return used.ru_maxrss / 1024;
    }
    void decode_often(const Json &step) {
        long before = 0;
        std::string bytes = the<std::string>(step["bytes"]);
        for (int turn = 0, times = std::stoi(step["times"].text); turn <= times; turn++) {
            the<Gateway>(step["by"]).take(Export::decode(bytes));
            if (turn == times / 10) before = grown();
        }
        if (grown() - before > std::stol(step["most_megabytes"].text)) differs("it grew by " + std::to_string(grown() - before) + " MB");
    }

    using Step = std::function<Json(const Json &)>;
    std::map<std::string, Step> steps = all_steps();
    std::map<std::string, Step> all_steps();

public:
    // What a step answers.
    Json performed(const Json &step) { return steps.at(step["do"].text)(step); }
};

static std::string bytes_of(const std::vector<uint8_t> &bytes) { return std::string(bytes.begin(), bytes.end()); }

std::map<std::string, Run::Step> Run::all_steps() {
    // A step that answers nothing.
    auto done = [](auto call) { return [call](const Json &step) { return call(step), Json(); }; };
    return {
        {"plan", done([this](const Json &step) {
             std::vector<std::string> words;
             std::vector<Instrument> instruments;
             words.reserve(3 * step["instruments"].list.size());
             for (auto &one : step["instruments"].list) {
                 for (int part = 0; part < 3; part++) words.push_back(text(one.list[part]));
                 auto *last = words.data() + words.size() - 3;
                 instruments.push_back({last[0], last[1], last[2], kind(one.list[3])});
             }
             Views views;
             if (auto given = step.find("views")) {
                 for (auto &one : given->list) views.add(view(one));
             }
             auto limit = step.find("limit");
             make(step, limit ? Plan::of(instruments, views, number<Number<uint64_t>>(*limit)) : Plan::of(instruments, views));
         })},
        {"set", done([this](const Json &step) { make(step, Attributes(pairs(step["pairs"]))); })},
        {"pairs", [this](const Json &step) { return to_json(the<Attributes>(step["of"]).pairs()); }},
        {"writer", done([this](const Json &step) {
             make(step, Writer(the<Plan>(step["plan"]), text(step["service"]), instance(step["instance"]), number<Time>(step["start"])));
         })},
        {"measure", done([this](const Json &step) {
             by<Writer, Recorder, Seat>(step["by"], [&](auto &thing) {
                 thing.measure(number<Index>(step["instrument"]), the<Attributes>(step["set"]), number<Value>(step["value"]));
             });
         })},
        {"measure_held", done([this](const Json &step) {
             by<Writer, Recorder, Seat>(
                 step["by"], [&](auto &thing) { thing.measure_held(number<Index>(step["number"]), number<Value>(step["value"])); });
         })},
        {"hold",
         [this](const Json &step) {
             return by<Writer, Seat>(step["by"], [&](auto &thing) {
                 return to_json(thing.hold(number<Index>(step["instrument"]), the<Attributes>(step["set"])));
             });
         }},
        {"collect", done([this](const Json &step) {
             make(step, by<Writer, Seat>(step["by"], [&](auto &thing) { return thing.collect(number<Time>(step["time"])); }));
         })},
        {"shutdown", done([this](const Json &step) { make(step, the<Writer>(step["by"]).shutdown(number<Time>(step["time"]))); })},
        {"restart", done([this](const Json &step) { the<Writer>(step["by"]).restart(number<Time>(step["start"])); })},
        {"recorder", done([this](const Json &step) { make(step, Recorder(number<Index>(step["capacity"]))); })},
        {"length", [this](const Json &step) { return to_json(the<Recorder>(step["of"]).len()); }},
        {"clear", done([this](const Json &step) { the<Recorder>(step["of"]).clear(); })},
        {"take_in", [this](const Json &step) { return taken_in(step); }},
        {"share", done([this](const Json &step) { make(step, std::move(the<Writer>(step["by"])).share()); })},
        {"split", done([this](const Json &step) {
             auto times = step.find("times");
             for (int i = times ? std::stoi(times->text) : 1; i > 0; i--) make(step, the<Seat>(step["by"]).split());
         })},
        {"export",
         [this](const Json &step) {
             ExportHead head = the<Export>(step["of"]).head();
             return Json()
                 .with("service", to_json(head.service))
                 .with("instance", to_json(head.instance))
                 .with("start", to_json(head.start))
                 .with("time", to_json(head.time))
                 .with("points", to_json(head.points));
         }},
        {"gateway", done([this](const Json &step) { make(step, Gateway(number<Number<uint32_t>>(step["id"]))); })},
        {"gateway_read",
         [this](const Json &step) {
             GatewayHead head = the<Gateway>(step["of"]).head();
             return Json().with("id", to_json(head.id)).with("points", to_json(head.points));
         }},
        {"take",
         [this](const Json &step) {
             Taking taking = the<Gateway>(step["by"]).take(the<Export>(step["export"]));
             auto late = step.find("late");
             if (late && *late != to_json(taking.is_late)) differs("whether it is late");
             return to_json(taking.changed);
         }},
        {"merge", [this](const Json &step) { return to_json(the<Gateway>(step["by"]).merge(the<Gateway>(step["from"]))); }},
        {"merge_bytes", [this](const Json &step) { return to_json(the<Gateway>(step["by"]).merge_bytes(bytes(step["bytes"]))); }},
        {"conflicts", [this](const Json &step) { return to_json(the<Gateway>(step["of"]).conflicts()); }},
        {"same", [this](const Json &step) { return to_json(the<Gateway>(step["of"]).same(the<Gateway>(step["and"]))); }},
        {"newest",
         [this](const Json &step) {
             return to_json(
                 the<Gateway>(step["of"]).newest(text(step["service"]), instance(step["instance"]), number<Time>(step["start"])));
         }},
        {"streams",
         [this](const Json &step) {
             return by<Plan, Gateway, Export>(step["of"], [](auto &thing) { return to_json(thing.streams().all()); });
         }},
        {"rows",
         [this](const Json &step) {
             Rows rows = the<Gateway>(step["of"]).rows(ask(step["ask"]));
             auto table = step.find("table");
             if (table && rows.table() != table->text) differs("the table is " + rows.table());
             return to_json(rows.all());
         }},
        {"row", [this](const Json &step) { return row(step); }},
        {"send", done([this](const Json &step) { make(step, the<Gateway>(step["by"]).send(number<Number<uint32_t>>(step["to"]))); })},
        {"hand", done([this](const Json &step) {
             std::optional<Message> answer = the<Gateway>(step["by"]).hand(the<Message>(step["message"]));
             auto wanted = step.find("answer");
             bool is_wanted = wanted && wanted->is == Is::Text;
             if (is_wanted != answer.has_value()) differs("whether there is an answer");
             if (answer) things[wanted->text] = std::make_shared<Message>(std::move(*answer));
         })},
        {"message",
         [this](const Json &step) {
             auto head = the<Message>(step["of"]).envelope();
             return Json().with("from", to_json(head.from)).with("to", to_json(head.to)).with("points", to_json(head.points));
         }},
        {"archive", done([this](const Json &step) {
             std::string service = text(step["service"]);
             Text of(service);
             Instance as = instance(step["instance"]);
             Handle<kit_archive> made;
             check(kit_archive_begin(made.at(), of.at, of.len, as.high, as.low, number<Time>(step["start"]), number<Index>(step["limit"])));
             make(step, Archive(std::move(made)));
         })},
        {"adopt", done([this](const Json &step) {
             auto &gateway = the<Gateway>(step["gateway"]);
             the<Archive>(step["by"]).adopt(gateway, text(step["service"]), instance(step["instance"]), number<Time>(step["start"]));
         })},
        {"archive_export", done([this](const Json &step) { make(step, the<Archive>(step["by"]).export_at(number<Time>(step["time"]))); })},
        {"seal", done([this](const Json &step) { the<Archive>(step["by"]).seal(number<Time>(step["start"])); })},
        {"archive_read",
         [this](const Json &step) {
             auto &archive = the<Archive>(step["of"]);
             return Json().with("start", to_json(archive.start())).with("adopted", to_json(archive.adopted()));
         }},
        {"encode", done([this](const Json &step) {
             make(step, by<Export, Message, Gateway>(step["of"], [](auto &thing) { return bytes_of(thing.encode()); }));
         })},
        {"decode", done([this](const Json &step) {
             std::string given = bytes(step["bytes"]);
             if (step["what"].text == "export") make(step, Export::decode(given));
             else make(step, Message::decode(given));
         })},
        {"incarnations",
         [this](const Json &step) { return by<Gateway, Message>(step["of"], [](auto &thing) { return to_json(thing.incarnations()); }); }},
        {"services", [this](const Json &step) { return to_json(the<Gateway>(step["of"]).services()); }},
        {"otlp", done([this](const Json &step) { make(step, bytes_of(the<Export>(step["of"]).otlp())); })},
        {"of_otlp", [this](const Json &step) { return of_otlp(step); }},
        {"page", done([this](const Json &step) { page(step); })},
        {"bytes", done([this](const Json &step) { changed_bytes(step); })},
        {"bytes_are", done([this](const Json &step) {
             if (the<std::string>(step["of"]) != unhexed(step["hex"].text)) differs("the bytes are others");
         })},
        {"close", done([this](const Json &step) {
             by<Plan, Attributes, Writer, Export, Gateway, Message, Recorder, Seat, Archive>(step["of"],
                                                                                             [](auto &thing) { thing.close(); });
         })},
        {"threads", done([this](const Json &step) { threads(step); })},
        {"fill", done([this](const Json &step) {
             for (int n = 0, sets = std::stoi(step["sets"].text); n < sets; n++) {
                 the<Writer>(step["by"]).measure(number<Index>(step["instrument"]), Attributes{{step["key"].text, n}}, 1);
             }
         })},
        {"decode_often", done([this](const Json &step) { decode_often(step); })},
    };
}

// What is other than a step says.
static std::string fault_of(Run &run, const Json &step) {
    auto refused = step.find("refused");
    bool out_of_range = step.find("out_of_range");
    try {
        Json told = run.performed(step);
        if (refused || out_of_range) return "it is not refused";
        auto wanted = step.find("is");
        return !wanted || told == written_out(*wanted) ? "" : "it answers " + told.shown();
    } catch (const Refused &why) {
        Json made;
        made.with("code", to_json(std::string(kit_code_name(why.code) + 4)));
        if (why.place) made.with("place", to_json(*why.place));
        if (why.second) made.with("second", to_json(*why.second));
        return refused && made == *refused ? "" : "it is refused as " + made.shown();
    } catch (const std::out_of_range &why) {
        return out_of_range ? "" : why.what();
    } catch (const std::exception &why) {
        return why.what();
    }
}

int main(int, char **given) {
    std::ifstream file(given[1]);
    std::stringstream all;
    all << file.rdbuf();
    std::string text = all.str();
    int count = 0, failed = 0;
    const Json read = Parser(text).value();
    for (auto &one : read["cases"].list) {
        Run run;
        count++;
        for (auto &step : one["steps"].list) {
            std::string fault = fault_of(run, step);
            if (fault.empty()) continue;
            failed++;
            std::cout << one["name"].text << ": " << step.shown().substr(0, 300) << ": " << fault << "\n";
            break;
        }
    }
    std::cout << count << " cases, " << failed << " failed\n";
    return failed || !count;
}
