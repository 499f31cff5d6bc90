// A reader that collects once in an interval.
#pragma once
#include "kotskhin/metrics/exporters.hpp"
#include "kotskhin/metrics/lines.hpp"
#include "kotskhin/metrics/shared.hpp"
#include <chrono>
#include <condition_variable>
#include <deque>
#include <thread>

namespace kotskhin::metrics {

// An export that was not brought, or not collected: why, and what it was to bring, where there is something. The last export of a provider
// is covered by no other.
struct ExportFailure {
    std::string why;
    std::shared_ptr<const Export> unsent;
    // What was not taken, where it was answered so.
    std::optional<NotTaken> not_taken;
};

struct PeriodicExportingMetricReaderOptions {
    // How often it collects (OpenTelemetry Metrics SDK, "exportIntervalMillis"); one of 0 or less stands for this.
    std::chrono::milliseconds export_interval_millis{60'000};
    // How long an export may take. One that takes longer goes on and is told as failed, and until it ends nothing is collected.
    std::chrono::milliseconds export_timeout_millis{30'000};
    // What is told of each export that failed, on the reader's thread. What it throws is caught. It is not to flush or to shut down: that
    // would wait for itself. Without one each is a line on the standard error.
    std::function<void(const ExportFailure &)> on_failed;
};

namespace detail {

using Clock = std::chrono::steady_clock;
using Wait = std::chrono::milliseconds;

// A time to come; that of a wait that is too long to be counted is a year from now.
inline Clock::time_point after(std::chrono::milliseconds wait) {
    return Clock::now() + std::min<std::chrono::milliseconds>(std::max(wait, Wait(0)), std::chrono::hours(8760));
}

// Why a call of the exporter's failed.
struct Fault {
    std::string why;
    std::optional<NotTaken> not_taken;
};

// The thread that the exporter's calls are on, so that one that takes too long is told. The thread has its own hold of this.
class Calls : public std::enable_shared_from_this<Calls> {
    std::mutex lock;
    std::condition_variable changed;
    std::unique_ptr<PushMetricExporter> exporter;
    std::function<void(PushMetricExporter &)> job;
    std::optional<Fault> fault;
    bool is_going = false, is_over = false;
    OwnThread thread;

    void run() {
        std::unique_lock<std::mutex> has(lock);
        for (;;) {
            changed.wait(has, [&] { return is_over || job; });
            if (is_over) return;
            auto call = std::exchange(job, nullptr);
            has.unlock();
            std::optional<Fault> told;
            try {
                call(*exporter);
            } catch (const NotTaken &why) {
                told = Fault{why.what(), why};
            } catch (const std::exception &why) {
                told = Fault{why.what(), {}};
            } catch (...) {
                told = Fault{"the exporter failed", {}};
            }
            has.lock();
            fault = std::move(told);
            is_going = false;
            changed.notify_all();
        }
    }

public:
    explicit Calls(std::unique_ptr<PushMetricExporter> exporter) : exporter(std::move(exporter)) {}
    void start() {
        thread.thread = std::thread([calls = shared_from_this()] { calls->run(); });
    }
    // Whether no call goes on, once one has this long to end.
    bool is_free(Wait wait) {
        std::unique_lock<std::mutex> has(lock);
        return changed.wait_until(has, after(wait), [&] { return !is_going; });
    }
    // Why a call failed, where it did.
    std::optional<Fault> call(std::function<void(PushMetricExporter &)> what, Wait first, Wait timeout) {
        if (!is_free(first)) return Fault{"an export that took too long goes on", {}};
        std::unique_lock<std::mutex> has(lock);
        job = std::move(what);
        is_going = true;
        changed.notify_all();
        if (!changed.wait_until(has, after(timeout), [&] { return !is_going; }))
            return Fault{"the exporter took longer than is allowed", {}};
        return fault;
    }
    // Ends the thread; one whose call goes on ends with that call.
    void end() {
        bool is_done;
        {
            std::lock_guard<std::mutex> has(lock);
            is_over = true;
            is_done = !is_going;
            changed.notify_all();
        }
        if (!thread.thread.joinable()) return;
        if (is_done) thread.thread.join();
        else thread.thread.detach();
    }
};

}  // namespace detail

// Collects once in an interval, on a thread of its own, and pushes each export (OpenTelemetry Metrics SDK, "Periodic exporting
// MetricReader"). It is given to a provider, by AddMetricReader.
class PeriodicExportingMetricReader {
    friend class MeterProvider;
    using Options = PeriodicExportingMetricReaderOptions;
    using Shared = detail::Shared;
    using Wait = detail::Wait;

    struct Request {
        bool is_last;
        std::shared_ptr<const Export> last;
        bool is_answered = false, is_good = false;
    };

    // What its thread has, which lasts until that ends.
    struct State {
        std::shared_ptr<Shared> shared;
        std::shared_ptr<detail::Calls> calls;
        Options options;
        std::mutex lock;
        std::condition_variable changed;
        std::deque<std::shared_ptr<Request>> requests;
        bool is_over = false;
        std::atomic<uint64_t> failed{0};

        bool fail(detail::Fault fault, std::shared_ptr<const Export> unsent = nullptr) noexcept {
            failed.fetch_add(1, std::memory_order_relaxed);
            try {
                if (!options.on_failed) detail::tell_line("an export failed: " + fault.why);
                else options.on_failed({std::move(fault.why), std::move(unsent), std::move(fault.not_taken)});
            } catch (...) {
            }
            return false;
        }
        bool bring(const std::shared_ptr<const Export> &given) {
            Wait wait = options.export_timeout_millis;
            auto fault = calls->call([given](PushMetricExporter &exporter) { exporter.Export(*given); }, wait, wait);
            return fault ? fail(*fault, given) : true;
        }
        // One collection, and its export: none before the provider starts, and none once it was shut down.
        bool push(Wait first) {
            if (!calls->is_free(first)) return fail({"an export that took too long goes on", {}});
            std::shared_ptr<const Export> made;
            try {
                made = std::make_shared<const Export>(shared->collect());
            } catch (const Refused &refused) {
                if (refused.code == NOT_STARTED || refused.code == KIT_CLOSED) return true;
                return fail({refused.what(), {}});
            } catch (const std::exception &why) {
                return fail({why.what(), {}});
            }
            return bring(made);
        }
        bool answer(const Request &request) {
            Wait wait = options.export_timeout_millis;
            bool is_good = request.is_last ? !request.last || bring(request.last) : push(wait);
            auto what = request.is_last ? &PushMetricExporter::Shutdown : &PushMetricExporter::ForceFlush;
            auto fault = calls->call([what](PushMetricExporter &exporter) { (exporter.*what)(); }, wait, wait);
            if (fault) fail(*fault);
            return is_good && !fault;
        }
        void run() {
            Wait interval = options.export_interval_millis;
            auto due = detail::after(interval);
            std::unique_lock<std::mutex> has(lock);
            while (!is_over) {
                if (!changed.wait_until(has, due, [&] { return !requests.empty(); })) {
                    has.unlock();
                    push(Wait(0));
                    has.lock();
                    // (a tick that passed during an export is left out)
                    due = std::max(due + interval, detail::Clock::now());
                    continue;
                }
                auto request = requests.front();
                requests.pop_front();
                has.unlock();
                bool is_good = answer(*request);
                has.lock();
                is_over = request->is_last;
                request->is_good = is_good;
                request->is_answered = true;
                changed.notify_all();
            }
            calls->end();
        }
    };

    std::unique_ptr<PushMetricExporter> exporter;
    Options options;
    std::shared_ptr<State> state;
    // One thread at a time ends the reader's.
    std::mutex ending;
    detail::OwnThread thread;

    void start(std::shared_ptr<Shared> shared) {
        state = detail::make_left_by_forks<State>();
        state->shared = std::move(shared);
        state->options = std::move(options);
        state->calls = detail::make_left_by_forks<detail::Calls>(std::move(exporter));
        state->calls->start();
        try {
            thread.thread = std::thread([state = state] { state->run(); });
        } catch (...) {
            state->calls->end();
            throw;
        }
    }
    bool ask(std::shared_ptr<Request> request, detail::Clock::time_point until) {
        std::unique_lock<std::mutex> has(state->lock);
        if (state->is_over) return false;
        state->requests.push_back(request);
        state->changed.notify_all();
        return state->changed.wait_until(has, until, [&] { return request->is_answered; }) && request->is_good;
    }
    bool flush(detail::Clock::time_point until) { return ask(std::make_shared<Request>(Request{false, nullptr}), until); }
    // A thread that does not answer in time goes on by itself.
    bool shutdown(const std::shared_ptr<const Export> &last, detail::Clock::time_point until) {
        std::lock_guard<std::mutex> ends(ending);
        if (!thread.thread.joinable()) return false;
        auto request = std::make_shared<Request>(Request{true, last});
        bool is_good = ask(request, until);
        std::unique_lock<std::mutex> has(state->lock);
        bool is_over = state->is_over;
        has.unlock();
        if (is_over) {
            thread.thread.join();
        } else {
            thread.thread.detach();
            state->fail({"the exporter took longer than is allowed", {}}, last);
        }
        return is_good;
    }

public:
    explicit PeriodicExportingMetricReader(std::unique_ptr<PushMetricExporter> exporter, Options options = {})
        : exporter(std::move(exporter)), options(std::move(options)) {
        auto &interval = this->options.export_interval_millis;
        if (interval.count() <= 0) interval = Options().export_interval_millis;
        // (what is longer than a year is a year, so that times can be added)
        interval = std::min<Wait>(interval, std::chrono::hours(8760));
    }
    // Of a function.
    explicit PeriodicExportingMetricReader(std::function<void(const Export &)> exporter, Options options = {})
        : PeriodicExportingMetricReader(std::make_unique<FunctionExporter>(std::move(exporter)), std::move(options)) {}
    PeriodicExportingMetricReader(PeriodicExportingMetricReader &&) = delete;
    // (its provider shut it down, but where the last collection was refused; a fork has no such thread)
    ~PeriodicExportingMetricReader() {
        if (thread.thread.joinable() && !state->shared->process.is_another())
            shutdown(nullptr, detail::after(options.export_timeout_millis));
    }

    // How many exports failed so far, or were not collected.
    uint64_t Failed() const { return state ? state->failed.load(std::memory_order_relaxed) : 0; }
};

}  // namespace kotskhin::metrics
