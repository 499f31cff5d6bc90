// The provider.
#pragma once
#include "kotskhin/metrics/instruments.hpp"
#include "kotskhin/metrics/reader.hpp"

namespace kotskhin::metrics {

// Makes meters, and brings what their instruments record to its readers (OpenTelemetry Metrics SDK, "MeterProvider"). Its destructor shuts
// it down; instruments that outlast it are refused as KIT_CLOSED. It is of the process that makes it: in a fork of that one what is asked
// of it is refused as FORKED.
class MeterProvider {
    std::shared_ptr<detail::Shared> shared;
    mutable std::mutex lock;
    std::vector<std::unique_ptr<PeriodicExportingMetricReader>> readers;

    using Micros = std::chrono::microseconds;
    static constexpr Micros timeout = std::chrono::seconds(30);

    static detail::Clock::time_point end_of(Micros wait) { return detail::after(std::chrono::duration_cast<detail::Wait>(wait)); }

public:
    explicit MeterProvider(Resource resource = {}, Options options = {})
        : shared(detail::make_left_by_forks<detail::Shared>(std::move(resource), std::move(options))) {}
    MeterProvider(MeterProvider &&) = delete;
    ~MeterProvider() {
        if (!shared->process.is_another()) Shutdown();
    }

    // The meter of a scope.
    std::shared_ptr<Meter> GetMeter(std::string scope) const { return std::make_shared<Meter>(shared, std::move(scope)); }
    const Resource &GetResource() const { return shared->resource; }

    // A view more, before the first instrument: each that selects an instrument gives it a stream, and where none does it has that of its
    // kind. Says whether it was in time.
    bool AddView(InstrumentSelector instruments, MeterSelector meters, View view) {
        return shared->add_view({std::move(instruments), std::move(meters), std::move(view)});
    }
    // A reader more, which has its thread from now on. Each collects by itself. Throws std::system_error where the system gives no thread.
    void AddMetricReader(std::unique_ptr<PeriodicExportingMetricReader> reader) {
        shared->process.check();
        std::lock_guard<std::mutex> has(lock);
        readers.reserve(readers.size() + 1);
        reader->start(shared);
        readers.push_back(std::move(reader));
    }

    // Starts: from now on no instrument is declared. The first recording does so by itself. Throws why it is refused.
    void Start() { shared->start(); }
    // All that was recorded so far, by any thread: for a host that brings exports by itself. Throws Refused, by NOT_STARTED too.
    Export Collect() { return shared->collect(); }
    // The last export, for such a host: nothing is recorded from then on. There is none where nothing was started.
    std::optional<Export> Close() { return shared->close(); }

    // Collects now for each reader, brings the export and flushes the exporter. Says whether all was brought in time; hooks are told why
    // not.
    bool ForceFlush(Micros wait = timeout) noexcept {
        return !shared->is_forked() &&
               for_each_reader(wait, [](PeriodicExportingMetricReader &reader, auto until) { return reader.flush(until); });
    }
    // Collects for the last time, brings that export by each reader and ends the exporters. From then on recordings are refused as
    // KIT_CLOSED. Says whether all was brought in time; hooks are told why not. Once more it does nothing, and says false.
    bool Shutdown(Micros wait = timeout) noexcept {
        if (shared->is_forked()) return false;
        bool is_first = true;
        std::shared_ptr<const Export> last;
        try {
            if (auto made = shared->close()) last = std::make_shared<const Export>(std::move(*made));
        } catch (const Refused &refused) {
            is_first = false;
            // (what was not collected may be asked for again)
            if (refused.code != KIT_CLOSED) return false;
        } catch (...) {
            return false;
        }
        bool is_good =
            for_each_reader(wait, [&](PeriodicExportingMetricReader &reader, auto until) { return reader.shutdown(last, until); });
        return is_first && is_good;
    }

    // How many recordings were refused so far. Those in logs are looked at once they are taken in.
    uint64_t RefusedCount() const { return shared->refused(); }
    // How many exports failed so far, of all readers, or were not collected. This, and what is below, is 0 in a fork.
    uint64_t FailedCount() const {
        if (shared->process.is_another()) return 0;
        std::lock_guard<std::mutex> has(lock);
        uint64_t count = 0;
        for (auto &reader : readers) count += reader->Failed();
        return count;
    }
    // How many pairs of an instrument and a set are held: no more than the cache has room for.
    size_t Cached() const { return shared->cached(); }
    // How many threads have a log, or left one that is not taken in yet.
    size_t Logs() const { return shared->logs(); }

private:
    template <typename Call>
    bool for_each_reader(Micros wait, Call call) noexcept {
        bool is_good = true;
        auto end = end_of(wait);
        // (a reader stays once it is here; a hook that asks this provider meanwhile is not to wait for it)
        for (size_t number = 0; PeriodicExportingMetricReader *reader = find_reader(number); number++) {
            try {
                is_good = call(*reader, end) && is_good;
            } catch (...) {
                is_good = false;
            }
        }
        return is_good;
    }
    PeriodicExportingMetricReader *find_reader(size_t number) const {
        std::lock_guard<std::mutex> has(lock);
        return number < readers.size() ? readers[number].get() : nullptr;
    }
};

// One provider for a whole program.
class Provider {
    static std::mutex &lock() {
        static std::mutex made;
        return made;
    }
    static std::shared_ptr<MeterProvider> &current() {
        static std::shared_ptr<MeterProvider> made;
        return made;
    }

public:
    // From now on GetMeterProvider gives this one; instruments stay those of theirs. At the program's end it shuts down late, when other
    // statics are gone: call Shutdown before.
    static void SetMeterProvider(std::shared_ptr<MeterProvider> provider) {
        std::lock_guard<std::mutex> has(lock());
        std::swap(current(), provider);
    }
    // The provider that was set. Where none was, it is one that was shut down: recordings are refused as KIT_CLOSED.
    static std::shared_ptr<MeterProvider> GetMeterProvider() {
        {
            std::lock_guard<std::mutex> has(lock());
            if (current()) return current();
        }
        static const auto none = [] {
            auto made = std::make_shared<MeterProvider>();
            made->Close();
            return made;
        }();
        return none;
    }
};

}  // namespace kotskhin::metrics
