// Writers, recorders, and seats at writers that threads share.
#pragma once
#include "kotskhin/attributes.hpp"
#include "kotskhin/exports.hpp"
#include "kotskhin/plan.hpp"
#include <chrono>
#include <random>

namespace kotskhin {

// An instance that is drawn anew at each call, so that no two processes share it.
inline Instance unique_instance() {
    std::random_device device;
    auto half = [&] { return static_cast<uint64_t>(device()) << 32 | device(); };
    return {half(), half()};
}

// Nanoseconds since the Unix epoch, as the kit counts them: 0 where the clock is before it.
inline uint64_t now() {
    auto since = std::chrono::system_clock::now().time_since_epoch();
    auto nanoseconds = std::chrono::duration_cast<std::chrono::nanoseconds>(since).count();
    return nanoseconds < 0 ? 0 : static_cast<uint64_t>(nanoseconds);
}

// What became of recordings that were taken in from the front of a log: `refused` of them each by itself, the first with this code, at this
// place among them; `place` is what the code tells.
using Taken = kit_taken;

// A thread's own log of recordings, up to a capacity: it meets no other thread, and a writer or a seat takes in what it notes. RecorderFull
// says that it is to be taken in first. Of several the one that is taken in last has the last word on a gauge, whenever its values were
// noted: so a gauge that threads set in turn is recorded at the writer itself.
class Recorder : public Thing<kit_recorder> {
public:
    explicit Recorder(Index capacity) { check(kit_recorder_new(handle.at(), capacity)); }
    void measure(Index instrument, const Attributes &attributes, Value value) {
        check(kit_recorder_measure(handle.at(), instrument, attributes.raw().lent().at(), value));
    }
    // At the pair of a number of the writer that will take the log in.
    void measure_held(Index number, Value value) { check(kit_recorder_measure_held(handle.at(), number, value)); }
    size_t len() const {
        size_t count = 0;
        check(kit_recorder_len(handle.lent().at(), &count));
        return count;
    }
    // Whether it has nothing that is still to be taken in.
    bool is_empty() const { return len() == 0; }
    void clear() { check(kit_recorder_clear(handle.at())); }
};

// A place at a writer that threads share: each thread has its own. Calls wait for nobody; Busy says to try again.
class Seat : public Thing<kit_seat> {
public:
    explicit Seat(Handle<kit_seat> &&of) : Thing(std::move(of)) {}

    Seat split() {
        Handle<kit_seat> made;
        check(kit_seat_split(handle.at(), made.at()));
        return Seat(std::move(made));
    }
    void measure(Index instrument, const Attributes &attributes, Value value) {
        uint64_t place = 0;
        check(kit_seat_measure(handle.at(), instrument, attributes.raw().lent().at(), value, &place), place);
    }
    // The number of a pair of an instrument and a set, which any seat of the writer may use.
    size_t hold(Index instrument, const Attributes &attributes) {
        if (!handle) detail::refuse(KIT_NOTHING);
        Handle<kit_attributes> set = attributes.copy_handle();
        size_t number = 0;
        check(kit_seat_hold(handle.at(), instrument, set.at(), &number));
        return number;
    }
    void measure_held(Index number, Value value) {
        uint64_t place = 0;
        check(kit_seat_measure_held(handle.at(), number, value, &place), place);
    }
    // As of a writer; by pieces others get in between.
    Taken take_in(Recorder &recorder, size_t most = SIZE_MAX) {
        Taken taken{};
        check(kit_seat_take_in(handle.at(), recorder.raw().at(), most, &taken));
        return taken;
    }
    Export collect(Time time) {
        Handle<kit_export> made;
        uint64_t place = 0;
        check(kit_seat_collect(handle.at(), time, made.at(), &place), place);
        return Export(std::move(made));
    }
};

// One thread at a time has a writer: give threads recorders that it takes in, share it by seats, put a lock of yours round it, or give
// each thread one of its own.
class Writer : public Thing<kit_writer> {
public:
    // A writer of a service's instance, which counts from `start` on. Of two writers that share service, instance and start a gateway keeps
    // one alone: without an instance of your own take unique_instance().
    Writer(const Plan &plan, Text service, Instance instance, Time start) {
        check(kit_writer_start(handle.at(), plan.raw().lent().at(), service.at, service.len, instance.high, instance.low, start));
    }
    Writer(const Plan &plan, Text service, uint64_t instance_high, uint64_t instance_low, Time start)
        : Writer(plan, service, Instance{instance_high, instance_low}, start) {}

    void measure(Index instrument, const Attributes &attributes, Value value) {
        uint64_t place = 0;
        check(kit_writer_measure(handle.at(), instrument, attributes.raw().lent().at(), value, &place), place);
    }
    // The number of a pair of an instrument and a set: the same at each call, as long as the writer is.
    size_t hold(Index instrument, const Attributes &attributes) {
        if (!handle) detail::refuse(KIT_NOTHING);
        Handle<kit_attributes> set = attributes.copy_handle();
        size_t number = 0;
        check(kit_writer_hold(handle.at(), instrument, set.at(), &number));
        return number;
    }
    void measure_held(Index number, Value value) {
        uint64_t place = 0;
        check(kit_writer_measure_held(handle.at(), number, value, &place), place);
    }
    // Takes in recordings from the front of a log, at most so many, as if each was measured now. What is refused is told, and not thrown;
    // where memory is wanting the rest stays in the log.
    Taken take_in(Recorder &recorder, size_t most = SIZE_MAX) {
        Taken taken{};
        check(kit_writer_take_in(handle.at(), recorder.raw().at(), most, &taken));
        return taken;
    }
    Export collect(Time time) {
        Handle<kit_export> made;
        uint64_t place = 0;
        check(kit_writer_collect(handle.at(), time, made.at(), &place), place);
        return Export(std::move(made));
    }
    // Collects for the last time, and closes the writer: its recordings are refused as Closed until it restarts.
    Export shutdown(Time time) {
        Handle<kit_export> made;
        uint64_t place = 0;
        check(kit_writer_shutdown(handle.at(), time, made.at(), &place), place);
        return Export(std::move(made));
    }
    // Begins anew under a later start: the writer is open and has recorded nothing.
    void restart(Time start) {
        uint64_t place = 0;
        check(kit_writer_restart(handle.at(), start, &place), place);
    }
    // The first seat at the writer, which then has nothing; where this is refused it is as it was.
    Seat share() && {
        Handle<kit_seat> seat;
        check(kit_writer_share(handle.at(), seat.at()));
        return Seat(std::move(seat));
    }
};

}  // namespace kotskhin
