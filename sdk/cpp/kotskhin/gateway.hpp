// Gateways.
#pragma once
#include "kotskhin/exports.hpp"
#include "kotskhin/message.hpp"
#include "kotskhin/rows.hpp"
#include <optional>

namespace kotskhin {

// A gateway's id, and how many points it holds.
struct GatewayHead {
    uint32_t id;
    size_t points;
};

// What became of an export that a gateway took: the number of keys whose points changed, 0 where all that it has was held, or newer. One
// that is late is of an incarnation that a tombstone names: of its points at most tombstones were taken, and `changed` is 0.
struct Taking {
    uint64_t changed;
    bool is_late;
};

// Whether a page shows the tombstones of archives, a row for each incarnation that one adopted.
enum class Tombstones : bool { LeftOut = false, Shown = true };

// The newest points of all writers that were brought to it, in whatever order and however often. What a tombstone of an archive names is
// counted in the archive's totals, so its points are forgotten as the tombstone comes. Gateways tell each other by merge, or by messages.
class Gateway : public Thing<kit_gateway> {
public:
    // A gateway without points. The ids of gateways that exchange messages are distinct.
    explicit Gateway(Number<uint32_t> id) { check(kit_gateway_open(handle.at(), id)); }
    explicit Gateway(Handle<kit_gateway> &&has) : Thing(std::move(has)) {}

    // Takes an export, and forgets what a tombstone then names.
    Taking take(const Export &given) {
        Taking taking{};
        check(kit_gateway_take(handle.at(), given.raw().lent().at(), &taking.changed, &taking.is_late));
        return taking;
    }
    // Joins what another gateway holds, forgets what a tombstone then names, and tells the number of keys that the join changed.
    uint64_t merge(const Gateway &other) {
        uint64_t changed = 0;
        if (&other != this) check(kit_gateway_merge(handle.at(), other.handle.lent().at(), &changed));
        return changed;
    }
    // The same of a gateway whose bytes encode made, or of what a message carries. So a gateway comes back: under an id that was never
    // used. Under the id of old it would never be told again what it had acknowledged after the bytes were made.
    uint64_t merge_bytes(Bytes bytes) {
        uint64_t changed = 0, place = 0;
        check(kit_gateway_merge_bytes(handle.at(), bytes.at, bytes.len, &changed, &place), place);
        return changed;
    }
    // A message to the gateway of an id: what changed since the last one that it answered.
    Message send(Number<uint32_t> to) const {
        Handle<kit_message> made;
        check(kit_gateway_send(handle.lent().at(), to, made.at()));
        return Message(std::move(made));
    }
    // Takes in a message, forgets what a tombstone then names, and gives the answer to its sender, if there is one.
    std::optional<Message> hand(const Message &message) {
        bool answered = false;
        Handle<kit_message> made;
        check(kit_gateway_hand(handle.at(), message.raw().lent().at(), made.at(), &answered));
        if (!answered) return std::nullopt;
        return Message(std::move(made));
    }
    // The same, and says whether there is one.
    bool hand(const Message &message, Message &answer) {
        std::optional<Message> made = hand(message);
        if (made) answer = std::move(*made);
        return made.has_value();
    }
    GatewayHead head() const {
        GatewayHead head{};
        uint64_t conflicts = 0;
        check(kit_gateway_read(handle.lent().at(), &head.id, &head.points, &conflicts));
        return head;
    }
    // The streams of which it holds points, each once.
    Streams streams() const {
        Handle<kit_streams> streams;
        check(kit_gateway_streams(handle.lent().at(), streams.at()));
        return Streams(std::move(streams));
    }
    // The number of keys at whose time different values came: two writers recorded under one identity.
    uint64_t conflicts() const {
        GatewayHead head{};
        uint64_t count = 0;
        check(kit_gateway_read(handle.lent().at(), &head.id, &head.points, &count));
        return count;
    }
    // Whether both hold equal points; ids are not compared.
    bool same(const Gateway &other) const {
        bool is_same = false;
        check(kit_gateway_same(handle.lent().at(), other.handle.lent().at(), &is_same));
        return is_same;
    }
    // The greatest time that is held of one incarnation of a service's instance.
    uint64_t newest(Text service, Instance instance, Time start) const {
        uint64_t time = 0;
        check(kit_gateway_newest(handle.lent().at(), service.at, service.len, instance.high, instance.low, start, &time));
        return time;
    }
    uint64_t newest(Text service, uint64_t instance_high, uint64_t instance_low, Time start) const {
        return newest(service, Instance{instance_high, instance_low}, start);
    }
    // The rows that answer an ask, in the order of their attribute sets.
    Rows rows(const Ask &ask) const {
        Handle<kit_rows> rows;
        check(kit_gateway_rows(handle.lent().at(), ask.raw().lent().at(), rows.at()));
        return Rows(std::move(rows));
    }
    // Their table: a line for each row below a header.
    std::string table(const Ask &ask) const { return rows(ask).table(); }
    // The table of a sum.
    std::string sum(Text scope, Text name, Text unit, bool monotonic = true) const { return table(Ask::sum(scope, name, unit, monotonic)); }
    // Of whom it holds points.
    std::vector<Incarnation> incarnations() const {
        Handle<kit_incarnations> list;
        check(kit_gateway_incarnations(handle.lent().at(), list.at()));
        return detail::read_incarnations(list);
    }
    // The services of which it holds points, each once.
    std::vector<std::string> services() const {
        std::vector<std::string> all;
        try {
            for (;;)
                all.push_back(
                    detail::copy_text([&](auto... room) { return kit_gateway_service(handle.lent().at(), all.size(), room...); }));
        } catch (const NoItem &) {
            return all;
        }
    }
    // The page of what it holds, in OpenMetrics 1.0: of one service, or of all where none is said. It answers a request that accepts
    // application/openmetrics-text, with Content-Type: application/openmetrics-text; version=1.0.0; charset=utf-8.
    std::string openmetrics(std::optional<std::string_view> service = {}, Tombstones tombstones = Tombstones::LeftOut) const {
        return render_page(service, tombstones, kit_gateway_openmetrics);
    }
    // The same page in Prometheus' text format 0.0.4, with Content-Type: text/plain; version=0.0.4; charset=utf-8.
    std::string prometheus(std::optional<std::string_view> service = {}, Tombstones tombstones = Tombstones::LeftOut) const {
        return render_page(service, tombstones, kit_gateway_prometheus);
    }
    // All its points as bytes, to be kept: merge_bytes brings them back.
    std::vector<uint8_t> encode() const {
        Handle<kit_bytes> bytes;
        check(kit_gateway_encode(handle.lent().at(), bytes.at()));
        return detail::copy_bytes(bytes);
    }

private:
    template <typename Call>
    std::string render_page(std::optional<std::string_view> of, Tombstones tombstones, Call call) const {
        Handle<kit_text> page;
        Text service(of.value_or(""));
        check(call(handle.lent().at(), of.has_value(), service.at, service.len, tombstones == Tombstones::Shown, page.at()));
        return detail::copy_text([&](auto... room) { return kit_text_copy(page.lent().at(), room...); });
    }
};

}  // namespace kotskhin
