// Periodic readers and their exporters in C++: real threads, short intervals, a file, and sockets where libcurl is.
#include "check.hpp"
#include <algorithm>
#include <condition_variable>
#include <cstdlib>
#include <dirent.h>
#include <fstream>
#include <iterator>
#include <kotskhin.hpp>
#include <kotskhin/metrics.hpp>
#include <sstream>
#include <sys/stat.h>
#ifdef WITH_CURL
#include <arpa/inet.h>
#include <kotskhin/metrics/http.hpp>
#include <sys/socket.h>
#endif

using namespace kotskhin;
using namespace kotskhin::metrics;
using Millis = std::chrono::milliseconds;
using Clock = std::chrono::steady_clock;

static const Millis SHORT(10), LONG(30000), NEVER = std::chrono::hours(1000000);

static std::unique_ptr<Counter<uint64_t>> requests_of(const MeterProvider &provider) {
    return provider.GetMeter("app")->CreateUInt64Counter("requests", "", "1");
}

static int64_t total(const Export &given) {
    Gateway gateway(1);
    gateway.take(given);
    // (a provider may be collected from between its start and the first recording)
    Rows rows = gateway.rows(Ask::sum("app", "requests", "1"));
    return rows.size() ? std::get<WideSum>(rows.row(0).total).narrow().value() : 0;
}

// What an exporter and a hook were told, in their order: totals, "flush", "end", and why something failed.
struct Heard {
    std::mutex lock;
    std::condition_variable changed;
    std::vector<std::string> list;

    void tell(std::string what) {
        std::lock_guard<std::mutex> has(lock);
        list.push_back(std::move(what));
        changed.notify_all();
    }
    std::vector<std::string> all() {
        std::lock_guard<std::mutex> has(lock);
        return list;
    }
    bool many(size_t count, Millis wait = LONG) {
        std::unique_lock<std::mutex> has(lock);
        return changed.wait_for(has, wait, [&] { return list.size() >= count; });
    }
    bool many_of(const std::string &what, long count) {
        std::unique_lock<std::mutex> has(lock);
        return changed.wait_for(has, LONG, [&] { return std::count(list.begin(), list.end(), what) >= count; });
    }
};

// Tells what it is asked, and fails so often first.
class Telling : public PushMetricExporter {
    Heard &heard;
    int failures;

public:
    explicit Telling(Heard &heard, int failures = 0) : heard(heard), failures(failures) {}
    void Export(const kotskhin::Export &given) override {
        if (failures-- > 0) throw std::runtime_error("the line is down");
        heard.tell(std::to_string(total(given)));
    }
    void ForceFlush() override { heard.tell("flush"); }
    void Shutdown() override { heard.tell("end"); }
};

static std::unique_ptr<PeriodicExportingMetricReader> reader(std::unique_ptr<PushMetricExporter> exporter, Millis interval,
                                                             Heard *failed = nullptr, Millis timeout = LONG) {
    PeriodicExportingMetricReaderOptions options;
    options.export_interval_millis = interval;
    options.export_timeout_millis = timeout;
    if (failed) {
        options.on_failed = [failed](const ExportFailure &failure) {
            failed->tell(failure.why + (failure.unsent ? ": " + std::to_string(total(*failure.unsent)) : ""));
        };
    }
    return std::make_unique<PeriodicExportingMetricReader>(std::move(exporter), options);
}

using Words = std::vector<std::string>;

static void it_collects_once_in_an_interval() {
    Heard heard;
    MeterProvider provider;
    provider.AddMetricReader(reader(std::make_unique<Telling>(heard), SHORT));
    auto requests = requests_of(provider);
    // (nothing is brought before the first recording)
    CHECK(!heard.many(1, SHORT * 5));
    auto began = Clock::now();
    requests->Add(7);
    CHECK(heard.many_of("7", 3) && Clock::now() - began >= SHORT && provider.Shutdown());
    Words all = heard.all();
    // (as long as this thread waits between the start and the recording, collections have nothing)
    auto first = std::find_if(all.begin(), all.end(), [](const std::string &text) { return text != "0"; });
    CHECK(std::count(first, all.end(), "7") == all.end() - first - 1 && all.back() == "end" && provider.FailedCount() == 0);
}

static void a_flush_collects_now_and_a_shutdown_for_the_last_time() {
    Heard heard;
    MeterProvider provider;
    provider.AddMetricReader(reader(std::make_unique<Telling>(heard), NEVER));
    auto requests = requests_of(provider);
    requests->Add(3);
    CHECK(provider.ForceFlush());
    // (a thread's log that is not yet taken in counts)
    requests->Add(4);
    CHECK(provider.Shutdown());
    requests->Add(5);
    CHECK((heard.all() == Words{"3", "flush", "7", "end"}));
    CHECK(!provider.Shutdown() && !provider.ForceFlush() && provider.RefusedCount() == 1);
}

static void the_next_collection_covers_an_export_that_failed() {
    Heard heard, failed;
    MeterProvider provider;
    requests_of(provider)->Add(7);
    provider.AddMetricReader(reader(std::make_unique<Telling>(heard, 2), SHORT, &failed));
    CHECK(heard.many(1) && heard.all()[0] == "7" && provider.FailedCount() == 2);
    CHECK((failed.all() == Words{"the line is down: 7", "the line is down: 7"}));
}

static void a_last_export_that_failed_is_handed_back() {
    Heard heard, failed;
    MeterProvider provider;
    provider.AddMetricReader(reader(std::make_unique<Telling>(heard, 1), NEVER, &failed));
    requests_of(provider)->Add(7);
    CHECK(!provider.Shutdown());
    CHECK((failed.all() == Words{"the line is down: 7"} && heard.all() == Words{"end"}));
}

static void two_readers_bring_the_same() {
    Heard heard[2];
    MeterProvider provider;
    for (auto &told : heard) provider.AddMetricReader(reader(std::make_unique<Telling>(told), NEVER));
    requests_of(provider)->Add(7);
    CHECK(provider.Shutdown());
    for (auto &told : heard) CHECK((told.all() == Words{"7", "end"}));
}

static void an_export_that_takes_too_long_is_told() {
    Heard failed, gate;
    MeterProvider provider;
    auto hangs = std::make_unique<FunctionExporter>([&](const Export &) { gate.many(1); });
    requests_of(provider)->Add(7);
    provider.AddMetricReader(reader(std::move(hangs), SHORT, &failed, SHORT));
    CHECK(failed.many(3) && failed.all()[0] == "the exporter took longer than is allowed: 7");
    CHECK(failed.all()[1] == "an export that took too long goes on");
    auto began = Clock::now();
    CHECK(!provider.ForceFlush(SHORT * 20) && Clock::now() - began < LONG);
    // (once the call ends, the next one is made, which a machine that is busy may not end in so short a time)
    gate.tell("go");
    bool is_good = false;
    for (began = Clock::now(); !is_good && Clock::now() - began < LONG;) is_good = provider.ForceFlush();
    CHECK(is_good);
}

static void a_function_that_throws_anything_is_told() {
    Heard failed;
    MeterProvider provider;
    auto throws = std::make_unique<FunctionExporter>([](const Export &) { throw 1; });
    provider.AddMetricReader(reader(std::move(throws), NEVER, &failed));
    requests_of(provider)->Add(7);
    CHECK(!provider.ForceFlush() && !provider.Shutdown());
    CHECK((failed.all() == Words{"the exporter failed: 7", "the exporter failed: 7"}));
}

static void a_hook_may_ask_its_provider() {
    MeterProvider provider;
    std::atomic<uint64_t> asked{0};
    PeriodicExportingMetricReaderOptions options;
    options.on_failed = [&](const ExportFailure &) { asked += provider.FailedCount(); };
    auto fails = [](const Export &) { throw std::runtime_error("the line is down"); };
    provider.AddMetricReader(std::make_unique<PeriodicExportingMetricReader>(fails, options));
    requests_of(provider)->Add(7);
    auto began = Clock::now();
    std::thread other([&] { provider.Shutdown(); });
    provider.Shutdown();
    other.join();
    CHECK(asked == 1 && Clock::now() - began < LONG);
}

static void a_provider_that_is_destroyed_shuts_down() {
    Heard heard;
    {
        MeterProvider provider;
        provider.AddMetricReader(reader(std::make_unique<Telling>(heard), NEVER));
        requests_of(provider)->Add(7);
    }
    CHECK((heard.all() == Words{"7", "end"}));
    // One that was closed by hand ends its readers, too.
    {
        MeterProvider provider;
        provider.AddMetricReader(reader(std::make_unique<Telling>(heard), NEVER));
        requests_of(provider)->Add(8);
        CHECK(total(*provider.Close()) == 8);
    }
    CHECK((heard.all() == Words{"7", "end", "end"}));
    // (a reader that no provider was given does nothing)
    reader(std::make_unique<Telling>(heard), NEVER);
}

static void a_file_has_the_newest_export() {
    std::string path = std::string(getenv("TMPDIR") ? getenv("TMPDIR") : "/tmp") + "/kotskhin-readers-" + std::to_string(getpid());
    MeterProvider provider;
    provider.AddMetricReader(reader(std::make_unique<FileExporter>(path), NEVER));
    auto requests = requests_of(provider);
    int64_t sum = 0;
    for (int more : {3, 4}) {
        requests->Add(static_cast<uint64_t>(more));
        CHECK(provider.ForceFlush());
        std::ifstream file(path, std::ios::binary);
        std::string bytes(std::istreambuf_iterator<char>(file), {});
        CHECK(total(Export::decode(bytes)) == (sum += more));
    }
    FileExporter(path, otlp()).Export(provider.Collect());
    std::ifstream file(path, std::ios::binary);
    CHECK(Export::of_otlp(std::string(std::istreambuf_iterator<char>(file), {})).size() == 1);
    std::remove(path.c_str());
    CHECK(throws<std::system_error>([&] { FileExporter("/nowhere/at/all").Export(provider.Collect()); }));
}

// A folder of a test's own.
struct Folder {
    std::string path = std::string(getenv("TMPDIR") ? getenv("TMPDIR") : "/tmp") + "/kotskhin-readers-XXXXXX";
    Folder() { CHECK(mkdtemp(path.data())); }
    ~Folder() {
        for (auto &name : names()) std::remove((path + "/" + name).c_str());
        rmdir(path.c_str());
    }
    Words names() const {
        Words all;
        std::unique_ptr<DIR, int (*)(DIR *)> folder(opendir(path.c_str()), closedir);
        while (auto entry = readdir(folder.get()))
            if (entry->d_name[0] != '.') all.push_back(entry->d_name);
        std::sort(all.begin(), all.end());
        return all;
    }
};

static void a_file_is_written_under_a_name_of_its_own() {
    Folder folder;
    std::string path = folder.path + "/export";
    MeterProvider provider;
    requests_of(provider)->Add(7);
    Export given = provider.Collect();
    auto mode = [&] {
        struct stat told {};
        CHECK(stat(path.c_str(), &told) == 0);
        return told.st_mode & 0777;
    };
    for (mode_t mask : {0022, 0077, 0002}) {
        mode_t before = umask(mask);
        FileExporter(path).Export(given);
        umask(before);
        CHECK(mode() == (0666 & ~mask) && folder.names() == Words{"export"});
    }
    // Several threads that write one file: each time there is a whole one.
    std::vector<std::thread> threads;
    std::atomic<int> torn{0};
    for (int of = 0; of < 4; of++) {
        threads.emplace_back([&] {
            FileExporter exporter(path);
            for (int turn = 0; turn < 25; turn++) {
                try {
                    exporter.Export(given);
                    std::ifstream file(path, std::ios::binary);
                    torn += total(Export::decode(std::string(std::istreambuf_iterator<char>(file), {}))) != 7;
                } catch (const std::exception &) {
                    torn++;
                }
            }
        });
    }
    for (auto &thread : threads) thread.join();
    CHECK(torn == 0 && folder.names() == Words{"export"});
    // What fails leaves nothing behind: a folder is in the way.
    std::string taken = folder.path + "/taken";
    CHECK(mkdir(taken.c_str(), 0700) == 0);
    CHECK(throws<std::system_error>([&] { FileExporter(taken).Export(given); }) && (folder.names() == Words{"export", "taken"}));
    CHECK(throws<std::runtime_error>(
        [&] { FileExporter(path, [](const Export &) -> std::vector<uint8_t> { throw std::runtime_error("no bytes"); }).Export(given); }));
    CHECK((folder.names() == Words{"export", "taken"}));
}

static void a_failure_that_no_hook_hears_is_written() {
    std::ostringstream written;
    auto before = std::cerr.rdbuf(written.rdbuf());
    {
        MeterProvider provider;
        provider.AddMetricReader(
            reader(std::make_unique<FunctionExporter>([](const Export &) { throw std::runtime_error("a\nb"); }), NEVER));
        requests_of(provider)->Add(7);
        CHECK(!provider.Shutdown() && provider.FailedCount() == 1);
    }
    std::cerr.rdbuf(before);
    CHECK(written.str() == "kotskhin: an export failed: ab\n");
}

static void the_next_exporter_where_one_fails() {
    std::vector<int> asked, down;
    auto gateway = [&](int number) {
        return std::make_unique<FunctionExporter>([&asked, &down, number](const Export &) {
            asked.push_back(number);
            if (std::find(down.begin(), down.end(), number) != down.end()) throw std::runtime_error("down");
        });
    };
    std::vector<std::unique_ptr<PushMetricExporter>> three;
    for (int number : {1, 2, 3}) three.push_back(gateway(number));
    FirstOf all(std::move(three));
    MeterProvider provider;
    requests_of(provider)->Add(7);
    Export given = provider.Collect();
    using Turn = std::pair<std::vector<int>, std::vector<int>>;
    for (const Turn &turn : {Turn{{}, {1}}, Turn{{1, 2}, {1, 2, 3}}, Turn{{}, {3}}}) {
        asked.clear();
        down = turn.first;
        all.Export(given);
        CHECK(asked == turn.second);
    }
    down = {1, 2, 3};
    CHECK(throws<std::runtime_error>([&] { all.Export(given); }));
    all.Shutdown();
    CHECK(throws<std::invalid_argument>([] { FirstOf none({}); }));
}

// Bytes, of which some may be 0.
template <size_t size>
static std::string raw(const char (&text)[size]) {
    return std::string(text, size - 1);
}

// An answer of OTLP: so many points were rejected, for a reason.
static std::string partial(int points, const std::string &why) {
    std::string inner = std::string("\x08") + static_cast<char>(points) + '\x12' + static_cast<char>(why.size()) + why;
    return std::string("\x0a") + static_cast<char>(inner.size()) + inner;
}

static const std::string MOST(64 << 10, 'x'), REJECTED = partial(3, "why"), ALL_ONES(9, '\xff');

static void points_that_were_rejected_are_read() {
    std::string wide(119, 'w');
    struct Case {
        std::string body;
        uint64_t points;
        std::string message;
    };
    // (fields that are not known, one that comes twice, an answer that is as long as is looked at, and one whose length is a brace)
    std::string others = std::string("\x12\x01").append("a\x1d").append("1234\x21").append("12345678\x28\x7f");
    std::string inner = std::string("\x0a\x09\x0a\x01").append("a\x10\x07\x18\x07\x08\x03");
    for (const Case &one : std::vector<Case>{{partial(3, "3 points: LATE"), 3, "3 points: LATE"},
                                             {partial(3, ""), 3, ""},
                                             {others + REJECTED, 3, "why"},
                                             {inner, 3, ""},
                                             {REJECTED + "\x0a\x02\x08\x05", 5, "why"},
                                             {REJECTED + "\x12\xf3\xff\x03" + MOST.substr(13), 3, "why"},
                                             {partial(3, wide), 3, wide}}) {
        auto told = metrics::detail::points_not_taken(one.body);
        CHECK(told && told->points == one.points && told->exports == 0 && told->message == one.message);
    }
}

// Whether an answer fails nothing. (A copy of just its length is read, so that a sanitizer sees what is read behind it.)
static bool says_nothing(const std::string &answer) {
    std::vector<char> copy(answer.begin(), answer.end());
    return !metrics::detail::points_not_taken({copy.data(), copy.size()});
}

static void other_answers_say_nothing() {
    for (auto &answer :
         {std::string(), partial(0, "a warning"), raw("\x0a\x00"), raw("\x00"), std::string("OK\n"), std::string("\x08\x05"),
          REJECTED + "\x0a", REJECTED + "\x0b", REJECTED + "\x12\xf4\xff\x03" + MOST.substr(12), "\x0a\x0b\x08" + ALL_ONES + "\x01",
          "\x0a\x0c\x08" + ALL_ONES + "\xff\xff", REJECTED + "\x12" + ALL_ONES + "\x01" + MOST.substr(100)}) {
        CHECK(says_nothing(answer));
    }
    for (size_t cut = 1; cut < REJECTED.size(); cut++) CHECK(says_nothing(REJECTED.substr(0, cut)));
}

static void exports_that_were_late_are_read() {
    using metrics::detail::read_late;
    CHECK(read_late("2") == 2 && read_late(" 2\r\n") == 2 && read_late(std::string(19, '9')) == 9'999'999'999'999'999'999u);
    for (auto text : {"0", "", " \r\n", "two", "-2", "+2", "2.0", "2222222222222222222222222"}) CHECK(read_late(text) == 0);
}

// An export of which something was not taken goes to no other gateway, and the one that said so is asked first the next time.
static void what_was_not_taken_goes_to_nobody_else() {
    std::vector<int> asked;
    std::vector<std::unique_ptr<PushMetricExporter>> three;
    for (int number : {1, 2, 3}) {
        three.push_back(std::make_unique<FunctionExporter>([&asked, number](const Export &) {
            asked.push_back(number);
            if (number == 1) throw std::runtime_error("down");
            if (number == 2) throw NotTaken(7, 0, "LATE");
        }));
    }
    PeriodicExportingMetricReaderOptions options;
    options.export_interval_millis = NEVER;
    std::vector<std::string> told;
    options.on_failed = [&](const ExportFailure &failure) {
        CHECK(failure.not_taken && failure.not_taken->points == 7 && failure.not_taken->message == "LATE" && failure.unsent &&
              total(*failure.unsent) == 7);
        told.push_back(failure.why);
    };
    MeterProvider provider;
    provider.AddMetricReader(std::make_unique<PeriodicExportingMetricReader>(std::make_unique<FirstOf>(std::move(three)), options));
    requests_of(provider)->Add(7);
    CHECK(!provider.ForceFlush());
    CHECK((asked == std::vector<int>{1, 2}));
    CHECK(!provider.Shutdown());
    CHECK((asked == std::vector<int>{1, 2, 2}) && provider.FailedCount() == 2);
    CHECK(told == std::vector<std::string>(2, "7 points were not taken: LATE"));
    CHECK(std::string(NotTaken(3).what()) == "3 points were not taken");
    CHECK(std::string(NotTaken(0, 2).what()) == "2 exports came late, and were not taken");
}

#ifdef WITH_CURL
// A server of so many requests, each answered with a line; it keeps what it heard.
struct Server {
    int listening = socket(AF_INET, SOCK_STREAM, 0);
    std::string url;
    std::vector<std::string> heard;
    std::thread thread;

    explicit Server(std::vector<std::string> answers) {
        sockaddr_in address{};
        socklen_t len = sizeof address;
        address.sin_family = AF_INET;
        address.sin_addr.s_addr = htonl(INADDR_LOOPBACK);
        CHECK(bind(listening, reinterpret_cast<sockaddr *>(&address), len) == 0 && listen(listening, 8) == 0);
        getsockname(listening, reinterpret_cast<sockaddr *>(&address), &len);
        url = "http://127.0.0.1:" + std::to_string(ntohs(address.sin_port)) + "/v1/metrics";
        thread = std::thread([this, answers] {
            for (auto &answer : answers) serve(answer);
        });
    }
    ~Server() {
        thread.join();
        close(listening);
    }
    void serve(const std::string &answer) {
        int one = accept(listening, nullptr, nullptr);
        std::string request;
        size_t head = std::string::npos, length = 0;
        char piece[4096];
        while (head == std::string::npos || request.size() < head + 4 + length) {
            ssize_t many = read(one, piece, sizeof piece);
            if (many <= 0) break;
            request.append(piece, static_cast<size_t>(many));
            head = request.find("\r\n\r\n");
            size_t at = request.find("Content-Length: ");
            if (head != std::string::npos && at != std::string::npos) length = std::stoul(request.substr(at + 16));
        }
        heard.push_back(request);
        for (size_t done = 0; done < answer.size();) {
            ssize_t many = write(one, answer.data() + done, answer.size() - done);
            CHECK(many > 0);
            if (many <= 0) break;
            done += static_cast<size_t>(many);
        }
        close(one);
    }
};

static void http_brings_an_export_and_tells_what_is_answered() {
    MeterProvider provider;
    requests_of(provider)->Add(7);
    Export given = provider.Collect();
    {
        Server server({"HTTP/1.1 200 OK\r\nContent-Length: 0\r\nConnection: close\r\n\r\n",
                       "HTTP/1.1 202 Fine\r\nContent-Length: 0\r\nConnection: close\r\n\r\n",
                       "HTTP/1.1 503 Busy\r\nContent-Length: 0\r\nConnection: close\r\n\r\n", "",
                       "HTTP/1.1 202 Fine\r\nContent-Length: 0\r\nConnection: close\r\n\r\n"});
        HttpExporter::Options options;
        options.headers = {"X-Shop: one"};
        HttpExporter::Options own;
        own.encode = own_bytes();
        HttpExporter exporter(server.url, options);
        exporter.Export(given);
        HttpExporter(server.url, own).Export(given);
        std::string said;
        try {
            exporter.Export(given);
        } catch (const std::runtime_error &why) {
            said = why.what();
        }
        CHECK(said == server.url + " answered 503");
        CHECK(throws<std::runtime_error>([&] { exporter.Export(given); }));
        HttpExporter::Options other;
        other.encode = [](const Export &given) { return given.encode(); };
        other.content_type = "application/mine";
        HttpExporter(server.url, other).Export(given);
        server.thread.join();
        server.thread = std::thread([] {});
        const std::string &first = server.heard[0];
        CHECK(first.rfind("POST /v1/metrics HTTP/1.1\r\n", 0) == 0 && first.find("X-Shop: one\r\n") != std::string::npos);
        CHECK(first.find("Content-Type: application/x-protobuf\r\n") != std::string::npos);
        auto body = [](const std::string &request) { return request.substr(request.find("\r\n\r\n") + 4); };
        std::vector<Export> brought = Export::of_otlp(body(first));
        CHECK(brought.size() == 1 && total(brought[0]) == 7);
        CHECK(server.heard[1].find("Content-Type: application/vnd.kotskhin.export\r\n") != std::string::npos);
        CHECK(server.heard[4].find("Content-Type: application/mine\r\n") != std::string::npos);
        CHECK(total(Export::decode(body(server.heard[1]))) == 7);
    }
    CHECK(throws<std::runtime_error>([&] { HttpExporter("file:///etc/passwd").Export(given); }));
    HttpExporter::Options split;
    split.headers = {"A: b\r\nC: d"};
    CHECK(throws<std::invalid_argument>([&] { HttpExporter("http://127.0.0.1", split); }));
}

static std::string with_length(const std::string &body, const std::string &header = "") {
    return "HTTP/1.1 200 OK\r\nContent-Length: " + std::to_string(body.size()) + "\r\nConnection: close\r\n" + header + "\r\n" + body;
}

static void http_tells_what_was_not_taken() {
    MeterProvider provider;
    requests_of(provider)->Add(7);
    Export given = provider.Collect();
    std::string body = "{\"exports\":3,\"late\":2}", good = partial(3, "3 points: LATE"), late = "kotskhin-LATE: 2\r\n";
    std::string chunked = "HTTP/1.1 200 OK\r\nTransfer-Encoding: chunked\r\nConnection: close\r\n\r\n5\r\n" + good.substr(0, 5) + "\r\n";
    chunked += "f\r\n" + good.substr(5) + "\r\n0\r\n\r\n";
    std::vector<std::string> answers = {with_length(good, late), chunked, with_length(body, late), with_length(good + MOST, late),
                                        with_length(body)};
    std::vector<std::string> takes = {with_length(partial(0, "a warning")),
                                      with_length("OK\n"),
                                      with_length(good.substr(0, 9)),
                                      with_length(body),
                                      with_length(body, "Kotskhin-Late: 0\r\n"),
                                      with_length(body, "X-Kotskhin-Late: 2\r\n"),
                                      with_length(good + MOST),
                                      with_length("")};
    Server failing(answers), taking(takes);
    HttpExporter exporter(failing.url), other(taking.url);
    for (size_t turn = 0; turn + 1 < answers.size(); turn++) {
        bool is_otlp = turn < 2;
        try {
            exporter.Export(given);
            CHECK(!"it fails");
        } catch (const NotTaken &why) {
            CHECK(why.points == (is_otlp ? 3 : 0) && why.exports == (is_otlp ? 0 : 2) && why.message == (is_otlp ? "3 points: LATE" : ""));
        }
    }
    // (what one answer said is not said of the next)
    exporter.Export(given);
    for (size_t turn = 0; turn < takes.size(); turn++) other.Export(given);
}

static void http_tells_why_it_was_refused() {
    MeterProvider provider;
    requests_of(provider)->Add(7);
    Export given = provider.Collect();
    auto refusal = [](const std::string &body) {
        return "HTTP/1.1 403 No\r\nContent-Length: " + std::to_string(body.size()) + "\r\nConnection: close\r\n\r\n" + body;
    };
    std::string line = "the token does not speak for the service nope", wide = std::string(1023, 'x') + "\xc3\xa4";
    const std::pair<std::string, std::string> bodies[] = {
        {line, ": " + line}, {line + "\r\nand more", ": " + line},         {"a\x1b[2J\tb\x7f" + raw("\0"), ": a[2Jb"}, {"", ""},
        {"\n", ""},          {MOST + MOST, ": " + std::string(1024, 'x')}, {wide, ": " + std::string(1023, 'x')}};
    std::vector<std::string> answers;
    for (auto &body : bodies) answers.push_back(refusal(body.first));
    Server server(answers);
    HttpExporter exporter(server.url);
    for (auto &body : bodies) {
        std::string said;
        try {
            exporter.Export(given);
        } catch (const std::runtime_error &why) {
            said = why.what();
        }
        CHECK(said == server.url + " answered 403" + body.second);
    }
}

static void http_waits_no_longer_than_it_says() {
    int listening = socket(AF_INET, SOCK_STREAM, 0);
    sockaddr_in address{};
    socklen_t len = sizeof address;
    address.sin_family = AF_INET;
    address.sin_addr.s_addr = htonl(INADDR_LOOPBACK);
    CHECK(bind(listening, reinterpret_cast<sockaddr *>(&address), len) == 0 && listen(listening, 8) == 0);
    getsockname(listening, reinterpret_cast<sockaddr *>(&address), &len);
    MeterProvider provider;
    requests_of(provider)->Add(7);
    HttpExporter::Options options;
    options.timeout = SHORT * 10;
    HttpExporter exporter("http://127.0.0.1:" + std::to_string(ntohs(address.sin_port)), options);
    auto began = Clock::now();
    CHECK(throws<std::runtime_error>([&] { exporter.Export(provider.Collect()); }) && Clock::now() - began < LONG);
    close(listening);
}
#endif

int main() {
    return checked_all({
        {"it collects once in an interval", it_collects_once_in_an_interval},
        {"a flush collects now, and a shutdown for the last time", a_flush_collects_now_and_a_shutdown_for_the_last_time},
        {"the next collection covers an export that failed", the_next_collection_covers_an_export_that_failed},
        {"a last export that failed is handed back", a_last_export_that_failed_is_handed_back},
        {"two readers bring the same", two_readers_bring_the_same},
        {"an export that takes too long is told", an_export_that_takes_too_long_is_told},
        {"a function that throws anything is told", a_function_that_throws_anything_is_told},
        {"a hook may ask its provider", a_hook_may_ask_its_provider},
        {"a provider that is destroyed shuts down", a_provider_that_is_destroyed_shuts_down},
        {"a file has the newest export", a_file_has_the_newest_export},
        {"a file is written under a name of its own", a_file_is_written_under_a_name_of_its_own},
        {"a failure that no hook hears is written", a_failure_that_no_hook_hears_is_written},
        {"the next exporter where one fails", the_next_exporter_where_one_fails},
        {"points that were rejected are read", points_that_were_rejected_are_read},
        {"other answers say nothing", other_answers_say_nothing},
        {"exports that were late are read", exports_that_were_late_are_read},
        {"what was not taken goes to nobody else", what_was_not_taken_goes_to_nobody_else},
#ifdef WITH_CURL
        {"http brings an export, and tells what is answered", http_brings_an_export_and_tells_what_is_answered},
        {"http tells what was not taken", http_tells_what_was_not_taken},
        {"http tells why it was refused", http_tells_why_it_was_refused},
        {"http waits no longer than it says", http_waits_no_longer_than_it_says},
#endif
    });
}
