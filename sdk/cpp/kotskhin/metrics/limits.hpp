// Streams that have more sets of attributes than points.
#pragma once
#include "kotskhin/gateway.hpp"
#include "kotskhin/metrics/refusal.hpp"
#include <mutex>
#include <set>
#include <tuple>

namespace kotskhin::metrics::detail {

// Which streams came to their limit: the first export that shows it is told once for each.
class Limits {
    using Key = std::tuple<std::string, std::string, std::string, Shape>;
    std::mutex lock;
    std::set<Key> told;

public:
    // Of a plan of so many streams. An export of fewer points has no such stream, since it would have the limit's and one more.
    std::vector<Refusal> beyond(const Export &made, uint64_t limit, size_t streams) {
        std::lock_guard<std::mutex> has(lock);
        std::vector<Refusal> all;
        if (told.size() == streams || made.head().points <= limit) return all;
        Gateway gateway(0);
        gateway.take(made);
        Streams list = gateway.streams();
        for (size_t number = 0; number < list.size(); number++) {
            Stream stream = list[number];
            Key key{stream.scope, stream.name, stream.unit, stream.shape};
            if (told.count(key)) continue;
            if (!gateway.rows(Ask::stream(list, number).only({{"otel.metric.overflow", true}})).size()) continue;
            told.insert(std::move(key));
            all.push_back({stream.name, {}, CARDINALITY_LIMIT, {}, {}, 0, RefusalOf::Stream});
        }
        return all;
    }
};

}  // namespace kotskhin::metrics::detail
