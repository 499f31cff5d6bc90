// The cases that all languages share of OpenTelemetry's names (../otel_cases.json), performed over kotskhin::metrics.
//
//     otel_cases LIST
#include "json.hpp"
#include <fstream>
#include <iostream>
#include <kotskhin/metrics.hpp>
#include <map>
#include <set>
#include <sstream>

using namespace kotskhin::metrics;
using kotskhin::Aggregation, kotskhin::Ask, kotskhin::Export, kotskhin::Gateway, kotskhin::Kind, kotskhin::OwnedValue;

// What a recording is made at: pairs that the case owns.
using At = std::vector<std::pair<std::string, OwnedValue>>;
using Call = std::function<void(const std::string &value, const At &at)>;

static const std::map<std::string, Kind> KINDS{
    {"counter", Kind::Counter}, {"up_down", Kind::UpDown}, {"gauge", Kind::Gauge}, {"histogram", Kind::Histogram}};

static std::string word(const Json &of, const char *name, const char *otherwise = "") {
    auto found = of.find(name);
    return found ? found->text : otherwise;
}

static std::vector<int64_t> numbers(const Json &of) {
    std::vector<int64_t> made;
    for (auto &number : of.list) made.push_back(std::stoll(number.text));
    return made;
}

static View view(const Json &of) {
    View made{word(of, "rename"), Aggregation::AsKind, {}, {}};
    if (auto keep = of.find("keep")) {
        made.keys.emplace();
        for (auto &key : keep->list) made.keys->push_back(key.text);
    }
    auto aggregation = of.find("aggregation");
    if (aggregation && aggregation->is == Json::Is::Text) made.aggregation = Aggregation::Drop;
    if (aggregation && aggregation->is == Json::Is::Fields) made.boundaries = numbers((*aggregation)["buckets"]);
    return made;
}

static At pairs(const Json &of) {
    At made;
    for (auto &pair : of.list) {
        const Json &value = pair.list[1];
        if (value.is == Json::Is::Truth) made.emplace_back(pair.list[0].text, value.text == "true");
        else if (value.is == Json::Is::Number) made.emplace_back(pair.list[0].text, static_cast<int64_t>(std::stoll(value.text)));
        else made.emplace_back(pair.list[0].text, value.text);
    }
    return made;
}

static Ask ask(const Json &of) {
    const std::string &scope = of.list[0].text, &name = of.list[1].text, &unit = of.list[2].text;
    const Json &shape = of.list[3];
    if (shape.is == Json::Is::Fields) return Ask::histogram(scope, name, unit, numbers(shape["bounds"]));
    return shape.text == "gauge" ? Ask::gauge(scope, name, unit) : Ask::sum(scope, name, unit, shape.text == "monotonic sum");
}

// Why something was refused, by the list's name.
static std::string reason_of(int32_t code) {
    std::string said = reason(code);
    size_t begins = said.rfind("KIT_", 0) == 0 ? 4 : 0;
    return said.substr(begins, said.find(':') - begins);
}

// What hooks and the exporter of a case told: they are called by threads.
struct Told {
    std::mutex lock;
    std::set<std::string> refused;
    std::string declared;
    std::vector<std::vector<uint8_t>> brought;
    bool is_failing = false;
    int failed = 0;
};

// A thread of a case, which stays until the case ends.
class Other {
    std::mutex lock;
    std::condition_variable changed;
    std::function<void()> job;
    bool is_over = false;
    std::thread thread{[this] { run(); }};

    void run() {
        std::unique_lock<std::mutex> has(lock);
        for (;;) {
            changed.wait(has, [&] { return is_over || job; });
            if (is_over) return;
            job();
            job = nullptr;
            changed.notify_all();
        }
    }

public:
    // (what is done is done once this returns)
    void does(std::function<void()> what) {
        std::unique_lock<std::mutex> has(lock);
        job = std::move(what);
        changed.notify_all();
        changed.wait(has, [&] { return !job; });
    }
    ~Other() {
        {
            std::lock_guard<std::mutex> has(lock);
            is_over = true;
            changed.notify_all();
        }
        thread.join();
    }
};

class Run {
    Told told;
    Other other;
    std::unique_ptr<MeterProvider> provider;
    std::map<std::string, Call> calls;
    std::optional<Export> collected;

    void bring(const Export &given) {
        std::lock_guard<std::mutex> has(told.lock);
        if (told.is_failing) throw std::runtime_error("nobody is there");
        told.brought.push_back(given.encode());
    }
    template <typename Made, typename Value>
    static void recorded(const Made &by, Value value, const At &at) {
        constexpr bool is_added = std::is_same_v<Made, Counter<uint64_t>> || std::is_same_v<Made, UpDownCounter<int64_t>>;
        if constexpr (is_added) by.Add(value, at);
        else by.Record(value, at);
    }
    template <typename Made>
    static Call adding(std::unique_ptr<Made> made) {
        return [instrument = std::shared_ptr<Made>(std::move(made))](const std::string &value, const At &at) {
            if (value[0] == '-') recorded(*instrument, std::stoll(value), at);
            else recorded(*instrument, std::stoull(value), at);
        };
    }
    Call make(const Json &step) {
        auto meter = provider->GetMeter(step["scope"].text);
        const std::string &name = step["name"].text, &unit = step["unit"].text;
        switch (KINDS.at(step["kind"].text)) {
        case Kind::Counter: return adding(meter->CreateUInt64Counter(name, "", unit));
        case Kind::UpDown: return adding(meter->CreateInt64UpDownCounter(name, "", unit));
        case Kind::Gauge: return adding(meter->CreateInt64Gauge(name, "", unit));
        default:
            if (auto bounds = step.find("bounds")) return adding(meter->CreateUInt64Histogram(name, "", unit, numbers(*bounds)));
            return adding(meter->CreateUInt64Histogram(name, "", unit));
        }
    }
    Json declare(const Json &step) {
        Call call = make(step);
        std::lock_guard<std::mutex> has(told.lock);
        std::string refused = std::exchange(told.declared, "");
        if (!refused.empty()) return Json::of(refused);
        calls[word(step, "as")] = std::move(call);
        return {};
    }
    Json record(const Json &step) {
        const Call &call = calls.at(step["by"].text);
        const At at = pairs(step["at"]);
        const int times = std::stoi(word(step, "times", "1"));
        auto often = [&] {
            for (int i = 0; i < times; i++) call(step["value"].text, at);
        };
        if (word(step, "on") == "other") return other.does(often), Json();
        std::vector<std::thread> threads;
        for (int i = std::stoi(word(step, "threads", "0")); i > 0; i--) threads.emplace_back(often);
        for (auto &one : threads) one.join();
        if (threads.empty()) often();
        return {};
    }
    Json collect(const Json &step) {
        collected.reset();
        try {
            collected = provider->Collect();
        } catch (const kotskhin::Refused &) {
        }
        return collected.has_value() != (step.find("nothing") != nullptr) ? Json() : Json::of(collected.has_value());
    }
    Json head() {
        auto head = collected.value().head();
        Json made;
        made.with("service", Json::of(head.service)).with("instance", Json::number(std::to_string(head.instance.low)));
        return made.with("points", Json::number(std::to_string(head.points)));
    }
    Gateway gateway() {
        Gateway made(0);
        made.take(collected.value());
        return made;
    }
    Json streams() {
        std::vector<Json> all;
        for (auto &stream : gateway().streams().all())
            all.push_back(Json::of(std::vector{Json::of(stream.scope), Json::of(stream.name), Json::of(stream.unit)}));
        return Json::of(std::move(all));
    }
    Json values(const Ask &ask) {
        std::vector<Json> all;
        for (auto &row : gateway().rows(ask).all())
            all.push_back(Json::number(std::to_string(std::get<std::optional<kotskhin::Newest>>(row.total).value().value)));
        return Json::of(std::move(all));
    }
    Json refused(const Json &step) {
        std::lock_guard<std::mutex> has(told.lock);
        std::vector<Json> all;
        for (auto &reason : std::exchange(told.refused, {})) all.push_back(Json::of(reason));
        Json made = Json::of(std::move(all));
        return made == step["by"] ? Json::number(std::to_string(provider->RefusedCount())) : made;
    }
    Json exported() {
        std::lock_guard<std::mutex> has(told.lock);
        if (!told.brought.empty()) collected = Export::decode(told.brought.back());
        return Json::number(std::to_string(told.brought.size()));
    }
    static Json fails(const Json &step, bool is_good) { return is_good != (step.find("fails") != nullptr) ? Json() : Json::of(is_good); }

public:
    explicit Run(const Json &of) {
        Options options;
        if (auto limit = of.find("limit")) options.limit = std::stoull(limit->text);
        if (auto held = of.find("held")) options.cache = std::stoull(held->text);
        options.on_refused = [this](const Refusal &refusal) {
            std::lock_guard<std::mutex> has(told.lock);
            if (refusal.of == RefusalOf::Instrument) told.declared = reason_of(refusal.code);
            else told.refused.insert(reason_of(refusal.code));
        };
        Resource resource{word(of, "service", "shop"), {0, std::stoull(word(of, "instance", "1"))}};
        provider = std::make_unique<MeterProvider>(std::move(resource), std::move(options));
        if (auto views = of.find("views")) {
            for (auto &given : views->list) {
                InstrumentSelector selects;
                if (auto kind = given.find("kind")) selects.kind = KINDS.at(kind->text);
                selects.name = word(given, "name", "*");
                provider->AddView(selects, MeterSelector{word(given, "scope")}, view(given));
            }
        }
        if (!of.find("reader")) return;
        PeriodicExportingMetricReaderOptions how;
        how.export_interval_millis = std::chrono::hours(24);
        how.on_failed = [this](const ExportFailure &) {
            std::lock_guard<std::mutex> has(told.lock);
            told.failed++;
        };
        auto bringing = [this](const Export &given) { bring(given); };
        provider->AddMetricReader(std::make_unique<PeriodicExportingMetricReader>(bringing, std::move(how)));
    }
    // (the provider's threads call what is of the case)
    ~Run() { provider.reset(); }

    Json step(const Json &given) {
        const std::string &what = given["do"].text;
        if (what == "declare") return declare(given);
        if (what == "record") return record(given);
        if (what == "collect") return collect(given);
        if (what == "head") return head();
        if (what == "streams") return streams();
        if (what == "table") return Json::of(gateway().table(ask(given["of"])));
        if (what == "value") return values(ask(given["of"])).list.at(0);
        if (what == "values") return values(ask(given["of"]));
        if (what == "refused") return refused(given);
        if (what == "exported") return exported();
        if (what == "flush") return fails(given, provider->ForceFlush());
        if (what == "shutdown") return fails(given, provider->Shutdown());
        if (what == "start") return provider->Start(), Json();
        std::lock_guard<std::mutex> has(told.lock);
        if (what == "failed") return Json::number(std::to_string(told.failed));
        if (what != "failing") throw std::runtime_error("there is no step " + what);
        told.is_failing = given["is"].text == "true";
        return given["is"];
    }
};

static std::string fault_of(Run &run, const Json &step) {
    auto wanted = step.find(step["do"].text == "declare" ? "refused" : "is");
    try {
        Json told = run.step(step);
        return told == (wanted ? *wanted : Json()) ? "" : "it answers " + told.shown();
    } catch (const std::exception &why) {
        return why.what();
    }
}

int main(int, char **given) {
    std::ifstream file(given[1]);
    std::stringstream all;
    all << file.rdbuf();
    std::string text = all.str();
    int count = 0, failed = 0;
    const Json read = Parser(text).value();
    for (auto &one : read["cases"].list) {
        count++;
        Run run(one);
        for (auto &step : one["steps"].list) {
            std::string fault = fault_of(run, step);
            if (fault.empty()) continue;
            failed++;
            std::cout << one["name"].text << ": " << step.shown().substr(0, 300) << ": " << fault << "\n";
            break;
        }
    }
    std::cout << count << " cases, " << failed << " failed\n";
    return failed || !count;
}
