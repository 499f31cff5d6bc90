// Messages, by which gateways tell each other what changed.
#pragma once
#include "kotskhin/exports.hpp"

namespace kotskhin {

// What one gateway tells another. It may be lost, come late or come twice.
class Message : public Thing<kit_message> {
public:
    // A message that has nothing yet: Gateway::hand fills one.
    Message() = default;
    explicit Message(Handle<kit_message> &&has) : Thing(std::move(has)) {}

    // From which id to which it goes, and how many points it carries: an answer carries none.
    struct Envelope {
        uint32_t from, to;
        size_t points;
    };
    Envelope envelope() const {
        Envelope envelope{};
        check(kit_message_read(handle.lent().at(), &envelope.from, &envelope.to, &envelope.points));
        return envelope;
    }
    // Of whom it carries points: who receives it compares them with those of which its sender may speak.
    std::vector<Incarnation> incarnations() const {
        Handle<kit_incarnations> list;
        check(kit_message_incarnations(handle.lent().at(), list.at()));
        return detail::read_incarnations(list);
    }
    // Its bytes, for a gateway in another process: each message has one form.
    std::vector<uint8_t> encode() const {
        Handle<kit_bytes> bytes;
        check(kit_message_encode(handle.lent().at(), bytes.at()));
        return detail::copy_bytes(bytes);
    }
    static Message decode(Bytes bytes) {
        Handle<kit_message> made;
        uint64_t place = 0;
        check(kit_message_decode(made.at(), bytes.at, bytes.len, &place), place);
        return Message(std::move(made));
    }
};

}  // namespace kotskhin
