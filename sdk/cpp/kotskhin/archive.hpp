// Archives, which adopt what has ended.
#pragma once
#include "kotskhin/gateway.hpp"
#include "kotskhin/writer.hpp"

namespace kotskhin {

// A writer that adopts ended incarnations of its service. Its exports have their sums and histograms, added up, and a tombstone for each:
// gateways that take one forget the points of what it names, so that each counts once. Gauges are not adopted, and are shown no more.
class Archive : public Thing<kit_archive> {
public:
    // An archive that adopted nothing, with at most so many totals, under an instance that is drawn anew. It begins under the start 1,
    // before every worker: a page shows a metric as the youngest of those who have it says, and an archive that began later than the
    // workers would show an old plan's metric in place of the live one.
    Archive(Text service, Index limit) {
        Instance instance = unique_instance();
        check(kit_archive_begin(handle.at(), service.at, service.len, instance.high, instance.low, 1, limit));
    }
    explicit Archive(Handle<kit_archive> &&has) : Thing(std::move(has)) {}

    // Adopts what a gateway holds of an incarnation, and leaves the gateway as it is. It is for one that has ended: what it exports later
    // is never counted. Refused, by the first that fits: OtherService, IsArchive, Adopted, NoPoint, Conflict, Torn, Unsound, OutOfRange,
    // SetLimit.
    void adopt(const Gateway &gateway, Text service, Instance instance, Time start) {
        check(kit_archive_adopt(handle.at(), gateway.raw().lent().at(), service.at, service.len, instance.high, instance.low, start));
    }
    // All totals, and a tombstone for each incarnation that it adopted since it began or was sealed. TimeNotLater where the time is not
    // later than that of the last export.
    Export export_at(Time time) {
        Handle<kit_export> made;
        check(kit_archive_export(handle.at(), time, made.at()));
        return Export(std::move(made));
    }
    // Begins anew under a later start, without totals; what it adopted it never adopts again. It makes no other export with these totals:
    // so keep the last one until it has come where it is to. StartNotLater, or Unexported where it adopted since its last export.
    void seal(Time start) { check(kit_archive_seal(handle.at(), start)); }

    // Since when it counts.
    uint64_t start() const { return read().first; }
    // How many incarnations it adopted since it began or was sealed.
    size_t adopted() const { return read().second; }

private:
    std::pair<uint64_t, size_t> read() const {
        uint64_t start = 0;
        size_t adopted = 0;
        check(kit_archive_read(handle.lent().at(), &start, &adopted));
        return {start, adopted};
    }
};

}  // namespace kotskhin
