// What writers export.
#pragma once
#include "kotskhin/handle.hpp"
#include "kotskhin/streams.hpp"

namespace kotskhin {

// What stands on an export: whose it is, from when to when, and how many points it has.
struct ExportHead {
    std::string service;
    Instance instance;
    uint64_t start, time;
    size_t points;
};

// A service's instance from a start on, of which there are points; the greatest time of these, and how many they are.
struct Incarnation {
    std::string service;
    Instance instance;
    uint64_t start, newest;
    size_t points;
};

namespace detail {

// Those of a list: all of a service are side by side.
inline std::vector<Incarnation> read_incarnations(const Handle<kit_incarnations> &list) {
    size_t count = 0;
    check(kit_incarnations_len(list.lent().at(), &count));
    std::vector<Incarnation> all;
    for (size_t number = 0; number < count; number++) {
        Incarnation read{};
        check(kit_incarnations_read(list.lent().at(), number, &read.instance.high, &read.instance.low, &read.start, &read.newest,
                                    &read.points));
        read.service = copy_text([&](auto... room) { return kit_incarnations_service(list.lent().at(), number, room...); });
        all.push_back(std::move(read));
    }
    return all;
}

}  // namespace detail

// The points of one collection: all that the writer recorded since its start. A gateway may take it, and so may others.
class Export : public Thing<kit_export> {
    Export() = default;

public:
    explicit Export(Handle<kit_export> &&has) : Thing(std::move(has)) {}

    // Whose it is, so that who takes it in from another process can compare it with what is known of that one.
    ExportHead head() const {
        ExportHead head{};
        check(kit_export_read(handle.lent().at(), &head.instance.high, &head.instance.low, &head.start, &head.time, &head.points));
        head.service = detail::copy_text([&](auto... room) { return kit_export_service(handle.lent().at(), room...); });
        return head;
    }
    // The streams of its points, each once.
    Streams streams() const {
        Handle<kit_streams> streams;
        check(kit_export_streams(handle.lent().at(), streams.at()));
        return Streams(std::move(streams));
    }
    // Its bytes, for another process: each export has one form.
    std::vector<uint8_t> encode() const {
        Handle<kit_bytes> bytes;
        check(kit_export_encode(handle.lent().at(), bytes.at()));
        return detail::copy_bytes(bytes);
    }
    // The request of OTLP that brings it to a Collector: the body of a POST to /v1/metrics, with Content-Type: application/x-protobuf.
    std::vector<uint8_t> otlp() const {
        Handle<kit_bytes> bytes;
        uint64_t place = 0;
        check(kit_export_otlp(handle.lent().at(), bytes.at(), &place), place);
        return detail::copy_bytes(bytes);
    }
    static Export decode(Bytes bytes) {
        Export made;
        uint64_t place = 0;
        check(kit_export_decode(made.handle.at(), bytes.at, bytes.len, &place), place);
        return made;
    }
    // The exports that the body of such a POST brings. Who made the bytes is not known here: head tells of whom each export is.
    static std::vector<Export> of_otlp(Bytes bytes) {
        Handle<kit_exports> exports;
        uint64_t place = 0;
        size_t count = 0;
        check(kit_exports_of_otlp(exports.at(), bytes.at, bytes.len, &place), place);
        check(kit_exports_len(exports.lent().at(), &count));
        std::vector<Export> all;
        for (size_t number = 0; number < count; number++) {
            Handle<kit_export> made;
            check(kit_exports_read(exports.lent().at(), number, made.at()));
            all.emplace_back(std::move(made));
        }
        return all;
    }
};

}  // namespace kotskhin
