// What a provider, its instruments and its readers share; the logs of threads.
#pragma once
#include "kotskhin/metrics/attributes.hpp"
#include "kotskhin/metrics/limits.hpp"
#include "kotskhin/metrics/lines.hpp"
#include "kotskhin/metrics/planned.hpp"
#include "kotskhin/writer.hpp"
#include <atomic>
#include <memory>
#include <mutex>
#include <new>
#include <shared_mutex>
#include <unordered_map>

namespace kotskhin::metrics {

// Who records: a service, and its instance. Of two writers that share both and their start a gateway keeps one alone, so an instance is
// drawn anew where none is given.
struct Resource {
    std::string service = "unknown_service";
    Instance instance = unique_instance();
};

struct Options {
    // For how many sets of attributes each stream has points of their own. What comes to more is counted in one point.
    uint64_t limit = KIT_DEFAULT_LIMIT;
    // How many recordings a thread's log has room for, at 16 bytes each. One that is full is taken in.
    size_t log = 1024;
    // How many pairs of an instrument and a set of attributes are held, so that recordings are by their numbers. What is held is given up
    // with the provider. Recordings at others are as exact, and take longer.
    size_t cache = 4096;
    // What is told of each refusal, on the thread that records or collects. It is to be short. What it throws is caught, and what is
    // refused while it runs does not come to it. Without one the first refusal of each kind is a line on the standard error, and so are
    // those.
    OnRefused on_refused;
};

namespace detail {

// The numbers of instruments at sets, by these as they were written down: one set may stand here in several orders.
using Numbers = std::unordered_map<std::string, size_t>;

// A thread's log. The thread has its lock while it notes, and who collects while it takes the log in.
struct Log {
    std::mutex lock;
    Recorder recorder;
    // What this thread knows of the cache, and room for what it looks for.
    Numbers numbers;
    std::string wanted;
    // Nothing is taken in any more: the provider was shut down.
    bool is_closed = false;

    explicit Log(size_t capacity) : recorder(capacity) {}
};

using Slot = std::shared_ptr<Log>;

// A pair that is recorded at: an instrument and attributes, to be looked for and to be made a set.
template <typename Given>
struct At {
    size_t instrument;
    bool is_of_gauge;
    const Given &attributes;

    void write(std::string &wanted) const {
        wanted.assign(reinterpret_cast<const char *>(&instrument), sizeof instrument);
        for (auto &[key, value] : attributes) AttributeArgument(value).write(key, wanted);
    }
    bool is_too_wide() const {
        for (auto &[key, value] : attributes) {
            if (AttributeArgument(value).is_too_wide()) return true;
        }
        return false;
    }
    Attributes set() const {
        Pairs pairs;
        for (auto &[key, value] : attributes) pairs.add(std::string_view(key), AttributeArgument(value).value());
        return Attributes(std::move(pairs));
    }
};

// A provider that has started. Of its locks a thread takes first that of the writer, then that of the list of logs, then one log's, then
// the cache's; with a log it only tries for the writer's.
struct Started {
    const Process process;
    std::mutex lock;
    Writer writer;
    // The last collection was made.
    bool is_ended = false;
    // The names of the plan's streams.
    std::vector<std::string> streams;

    std::mutex slots_lock;
    std::vector<Slot> slots;
    bool is_closed = false;

    // What the writer holds for recordings by numbers. It is never given up, so there is a bound.
    std::shared_mutex cache_lock;
    Numbers cache;
    size_t cache_room;

    Started(Process process, const Plan &plan, const Resource &resource, size_t cache_room)
        : process(process), writer(plan, resource.service, resource.instance, now()), cache_room(cache_room) {
        for (auto &stream : plan.streams().all()) streams.push_back(stream.name);
    }

    // The first refusal of what was taken in, and how many there were.
    std::optional<Refusal> take_in(Log &log) {
        kit_taken taken{};
        if (kit_writer_take_in(writer.raw().at(), log.recorder.raw().at(), SIZE_MAX, &taken) != KIT_OK || taken.code == KIT_OK) return {};
        Refusal told{"", {}, taken.code, {}, {}, taken.refused};
        if (places_of(taken.code)) told.place = taken.place;
        if (taken.code == KIT_OVERFLOW && taken.place < streams.size()) told.instrument = streams[taken.place];
        return told;
    }
    std::optional<Refusal> take_in_locked(Log &log) {
        std::lock_guard<std::mutex> has(log.lock);
        return take_in(log);
    }

    std::vector<Slot> copy_slots() {
        std::lock_guard<std::mutex> has(slots_lock);
        return slots;
    }
    static size_t count_noted(Log &log) {
        std::lock_guard<std::mutex> has(log.lock);
        return log.recorder.len();
    }
    // Forgets the logs of threads that ended, once nothing is in them.
    void forget_left() {
        std::lock_guard<std::mutex> has(slots_lock);
        auto is_done = [](const Slot &slot) { return slot.use_count() == 1 && count_noted(*slot) == 0; };
        slots.erase(std::remove_if(slots.begin(), slots.end(), is_done), slots.end());
    }

    // Collects at the time of the clock, or right after the last collection where the clock was put back.
    template <typename Collect>
    static Export call_now(Collect collect) {
        try {
            return collect(now());
        } catch (const TimeNotAfter &refused) {
            if (!refused.place || *refused.place == UINT64_MAX) throw;
            return collect(*refused.place + 1);
        }
    }
    Export collect(std::vector<Refusal> &refused) {
        std::lock_guard<std::mutex> has(lock);
        if (is_ended) kotskhin::detail::refuse(KIT_CLOSED);
        for (auto &slot : copy_slots()) {
            if (auto told = take_in_locked(*slot)) refused.push_back(*told);
        }
        forget_left();
        return call_now([&](uint64_t time) { return writer.collect(time); });
    }
    // What a log has left for want of memory is lost, and told.
    Export close(std::vector<Refusal> &refused) {
        std::lock_guard<std::mutex> has(lock);
        if (is_ended) kotskhin::detail::refuse(KIT_CLOSED);
        {
            std::lock_guard<std::mutex> has_slots(slots_lock);
            is_closed = true;
        }
        std::vector<Slot> all = copy_slots();
        for (auto &slot : all) {
            std::lock_guard<std::mutex> has_log(slot->lock);
            slot->is_closed = true;
            if (auto told = take_in(*slot)) refused.push_back(*told);
        }
        Export last = call_now([&](uint64_t time) { return writer.shutdown(time); });
        is_ended = true;
        for (auto &slot : all) {
            if (size_t lost = count_noted(*slot)) refused.push_back({"", {}, KIT_NO_MEMORY, {}, {}, lost});
        }
        std::lock_guard<std::mutex> has_slots(slots_lock);
        slots.clear();
        return last;
    }

    // The number of a pair: that which the cache has, or a new one where it has room and nobody has the writer, since a recording is not to
    // wait for it.
    template <typename Given>
    std::optional<size_t> hold_number(Log &log, const At<Given> &at, std::optional<Attributes> &set) {
        {
            auto has = process.hold<std::shared_lock>(cache_lock);
            auto found = cache.find(log.wanted);
            if (found != cache.end()) return log.numbers.emplace(*found).first->second;
            set = at.set();
            if (cache.size() >= cache_room) return {};
        }
        std::unique_lock<std::mutex> has(lock, std::try_to_lock);
        if (!has) return {};
        // (others may have been first: who has the writer alone changes the cache)
        auto has_cache = process.hold(cache_lock);
        if (cache.size() >= cache_room) return {};
        size_t number = writer.hold(at.instrument, *set);
        cache.emplace(log.wanted, number);
        log.numbers.emplace(log.wanted, number);
        return number;
    }
    // The number of a pair, whose log's lock is held; where it has none, its set.
    template <typename Given>
    std::optional<size_t> find_number(Log &log, const At<Given> &at, std::optional<Attributes> &set) {
        at.write(log.wanted);
        auto found = log.numbers.find(log.wanted);
        return found != log.numbers.end() ? found->second : hold_number(log, at, set);
    }

    // Notes a value in a log, and answers its code.
    template <typename Given>
    int32_t note(Log &log, const At<Given> &at, int64_t value) {
        auto has = process.hold(log.lock);
        if (log.is_closed) return KIT_CLOSED;
        std::optional<Attributes> set;
        if (auto number = find_number(log, at, set)) return kit_recorder_measure_held(log.recorder.raw().at(), *number, value);
        return kit_recorder_measure(log.recorder.raw().at(), at.instrument, set->raw().at(), value);
    }
    // Records a value at once, which waits for the writer. Of a gauge the last value counts, and values that wait in two logs have no
    // order.
    template <typename Given>
    void record_now(Log &log, const At<Given> &at, int64_t value) {
        process.check();
        std::optional<Attributes> set;
        std::optional<size_t> number;
        {
            std::lock_guard<std::mutex> has(log.lock);
            number = find_number(log, at, set);
        }
        std::lock_guard<std::mutex> has(lock);
        if (number) writer.measure_held(*number, value);
        else writer.measure(at.instrument, *set, value);
    }
};

class Shared;
// The log of this thread at a provider, which it is given where it has none; none where the thread is ending.
inline Log *find_own_log(Shared &shared);

class Shared : public std::enable_shared_from_this<Shared> {
    Options options;
    std::mutex declaring;
    std::vector<ViewOf> views;
    Instruments instruments;
    std::atomic<Started *> started{nullptr};
    std::unique_ptr<Started> owned;
    bool is_closed_early = false;
    std::atomic<uint64_t> refusals{0};
    std::atomic<bool> is_fork_told{false};
    Lines lines;
    Limits limits;

    // The views of an instrument that can be applied to it. Another is passed over, as if it was not there (OpenTelemetry Metrics SDK,
    // "View"): which one, and why.
    std::vector<View> select_views(const Declared &instrument, std::vector<Refused> &passed_over) const {
        // (what is refused without a view is no view's fault)
        Instruments().add(instrument, {}, options.limit);
        std::vector<View> of;
        for (size_t number = 0; number < views.size(); number++) {
            if (!views[number].is_of(instrument)) continue;
            try {
                Instruments().add(instrument, {views[number].view}, options.limit);
                of.push_back(views[number].view);
            } catch (const NoMemory &) {
                throw;
            } catch (const Refused &why) {
                passed_over.emplace_back(why.code, number);
            }
        }
        return of;
    }

public:
    const Process process;
    const Resource resource;

    Shared(Resource resource, Options options) : options(std::move(options)), resource(std::move(resource)) {}

    uint64_t refused() const { return refusals.load(std::memory_order_relaxed); }

    // Counts what is refused, and tells it; in a fork once. No lock is held.
    void refuse(const Refusal &refusal) noexcept {
        refusals.fetch_add(refusal.count, std::memory_order_relaxed);
        if (refusal.code == FORKED && is_fork_told.exchange(true)) return;
        // (a hook that is refused itself would come here for ever)
        static thread_local bool is_telling = false;
        if (is_telling || !options.on_refused) return lines.tell(refusal);
        is_telling = true;
        try {
            options.on_refused(refusal);
        } catch (...) {
        }
        is_telling = false;
    }
    void refuse(const std::vector<Refusal> &list) noexcept {
        for (auto &refusal : list) refuse(refusal);
    }
    // Whether this is a fork of the process that made the provider, which is told.
    bool is_forked() noexcept {
        if (!process.is_another()) return false;
        refuse({{}, {}, FORKED, {}, {}, 0, RefusalOf::Provider});
        return true;
    }

    // From now on a view more. DECLARED_LATE where an instrument is there already.
    bool add_view(ViewOf view) {
        process.check();
        std::lock_guard<std::mutex> has(declaring);
        if (started || is_closed_early || !instruments.is_empty()) return false;
        views.push_back(std::move(view));
        return true;
    }

    // The number of an instrument, or the code of why it has none: that which it has where it was declared before.
    size_t declare(Declared instrument, const std::optional<std::vector<int64_t>> &boundaries, std::vector<Refused> &passed_over) {
        process.check();
        std::lock_guard<std::mutex> has(declaring);
        if (auto there = instruments.find(instrument)) return *there;
        if (is_closed_early) kotskhin::detail::refuse(KIT_CLOSED);
        if (started) throw metrics::make_refused(DECLARED_LATE);
        std::vector<View> of = select_views(instrument, passed_over);
        if (of.empty() && boundaries) of.push_back({"", Aggregation::AsKind, boundaries, {}});
        return instruments.add(std::move(instrument), std::move(of), options.limit);
    }

    // Starts, where that was not done.
    Started &start() {
        if (Started *there = started) return *there;
        process.check();
        std::lock_guard<std::mutex> has(declaring);
        if (Started *there = started) return *there;
        if (is_closed_early) kotskhin::detail::refuse(KIT_CLOSED);
        owned = std::make_unique<Started>(process, instruments.plan(options.limit), resource, options.cache);
        started = owned.get();
        return *owned;
    }
    Started *there() const { return started; }

    // A log for a thread.
    Slot new_slot() {
        process.check();
        Started &at = start();
        auto made = std::make_shared<Log>(std::max<size_t>(options.log, 1));
        std::lock_guard<std::mutex> has(at.slots_lock);
        if (at.is_closed) kotskhin::detail::refuse(KIT_CLOSED);
        at.slots.push_back(made);
        return made;
    }

    // Notes a value in this thread's log, or records that of a gauge, and answers the code of why it is refused.
    template <typename Given>
    int32_t record(const At<Given> &at, int64_t value) {
        Started &to = start();
        if (at.is_too_wide()) return VALUE_TOO_WIDE;
        Log *log = find_own_log(*this);
        if (!log) {
            process.check();
            std::lock_guard<std::mutex> has(to.lock);
            to.writer.measure(at.instrument, at.set(), value);
            return KIT_OK;
        }
        if (at.is_of_gauge) return to.record_now(*log, at, value), KIT_OK;
        int32_t code = to.note(*log, at, value);
        if (code != KIT_RECORDER_FULL) return code;
        process.check();
        std::optional<Refusal> told;
        {
            std::lock_guard<std::mutex> has(to.lock);
            told = to.take_in_locked(*log);
        }
        if (told) refuse(*told);
        code = to.note(*log, at, value);
        // (what was taken in left no room, since memory was wanting)
        return code == KIT_RECORDER_FULL ? KIT_NO_MEMORY : code;
    }

    Export collect() {
        process.check();
        Started *at = started;
        if (!at && is_closed()) kotskhin::detail::refuse(KIT_CLOSED);
        if (!at) throw metrics::make_refused(NOT_STARTED);
        return tell_after(*at, [&](auto &told) { return at->collect(told); });
    }
    // Collects for the last time: nothing is recorded from then on. There is no export where nothing was started.
    std::optional<Export> close() {
        process.check();
        {
            std::lock_guard<std::mutex> has(declaring);
            if (is_closed_early) kotskhin::detail::refuse(KIT_CLOSED);
            is_closed_early = !started;
            if (is_closed_early) return {};
        }
        Started *at = started;
        return tell_after(*at, [&](auto &told) { return at->close(told); });
    }
    // How many pairs are held; how many logs there are. In a fork there are none.
    size_t cached() const {
        Started *at = started;
        if (!at || process.is_another()) return 0;
        std::shared_lock<std::shared_mutex> has(at->cache_lock);
        return at->cache.size();
    }
    size_t logs() const {
        Started *at = started;
        return !at || process.is_another() ? 0 : at->copy_slots().size();
    }

    // Takes in the log of a thread that ends, where nobody has the writer: else the next collection does.
    void take_in_of_ending_thread(const Slot &slot) noexcept {
        Started *at = started;
        if (!at || process.is_another()) return;
        std::optional<Refusal> told;
        try {
            std::unique_lock<std::mutex> has(at->lock, std::try_to_lock);
            if (!has) return;
            told = at->take_in_locked(*slot);
            if (Started::count_noted(*slot) == 0) {
                std::lock_guard<std::mutex> has_slots(at->slots_lock);
                at->slots.erase(std::remove(at->slots.begin(), at->slots.end(), slot), at->slots.end());
            }
        } catch (...) {
        }
        if (told) refuse(*told);
    }

private:
    bool is_closed() {
        std::lock_guard<std::mutex> has(declaring);
        return is_closed_early;
    }
    // A collection, and then what it tells.
    template <typename Call>
    Export tell_after(Started &at, Call call) {
        std::vector<Refusal> told;
        try {
            Export made = call(told);
            refuse(told);
            tell_limits(made, at);
            return made;
        } catch (...) {
            refuse(told);
            throw;
        }
    }
    // (for want of memory the next collection tells it)
    void tell_limits(const Export &made, const Started &at) noexcept {
        try {
            refuse(limits.beyond(made, options.limit, at.streams.size()));
        } catch (...) {
        }
    }
};

// The logs of one thread, and whose they are.
struct Owns {
    struct Own {
        const Shared *of;
        std::weak_ptr<Shared> shared;
        Slot slot;

        // (where it lasts nothing else is in its place; a number would be one of this library alone, which may have been opened at run
        // time)
        bool is_of(const Shared &other) const { return of == &other && !shared.expired(); }
    };
    std::vector<Own> list;
    bool *is_gone;

    explicit Owns(bool *is_gone) : is_gone(is_gone) {}
    // The thread ends, and what it noted is taken in, at once or with the next collection.
    ~Owns() {
        *is_gone = true;
        for (auto &own : list) {
            if (auto shared = own.shared.lock()) shared->take_in_of_ending_thread(own.slot);
        }
    }
};

inline Log *find_own_log(Shared &shared) {
    static thread_local bool is_gone = false;
    if (is_gone) return nullptr;
    static thread_local Owns own(&is_gone);
    for (auto &one : own.list) {
        if (one.is_of(shared)) return one.slot.get();
    }
    auto is_over = [](const Owns::Own &one) { return one.shared.expired(); };
    own.list.erase(std::remove_if(own.list.begin(), own.list.end(), is_over), own.list.end());
    own.list.push_back({&shared, shared.weak_from_this(), shared.new_slot()});
    return own.list.back().slot.get();
}

}  // namespace detail

}  // namespace kotskhin::metrics
