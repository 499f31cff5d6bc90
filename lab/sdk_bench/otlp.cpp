/* What an export as OTLP costs by the classes that protoc makes for C++: a request of 100,000 points of 4 attributes, those of kit_bench.
 * Each line: a name, and the least of the rounds in nanoseconds for each point; the first the bytes of a point. */
#include "otlp_metrics.pb.h"
#include <algorithm>
#include <chrono>
#include <cstdint>
#include <cstdio>
#include <cstdlib>
#include <memory>
#include <string>

namespace {

constexpr int ROUNDS = 9;
constexpr uint32_t POINTS = 100000;

void attribute(otlp::NumberDataPoint *point, const char *key, const char *word, uint32_t number) {
    otlp::KeyValue *pair = point->add_attributes();
    pair->set_key(key);
    pair->mutable_value()->set_string_value(word + std::to_string(number));
}

void resource_attribute(otlp::Resource *resource, const char *key, const char *text) {
    otlp::KeyValue *pair = resource->add_attributes();
    pair->set_key(key);
    pair->mutable_value()->set_string_value(text);
}

/* The request that encode_otlp makes of kit_bench's export. */
void fill(otlp::ExportMetricsServiceRequest *request) {
    otlp::ResourceMetrics *whole = request->add_resource_metrics();
    resource_attribute(whole->mutable_resource(), "service.instance.id", "00000000-0000-0000-0000-000000000001");
    resource_attribute(whole->mutable_resource(), "service.name", "shop");
    otlp::ScopeMetrics *scope = whole->add_scope_metrics();
    scope->mutable_scope()->set_name("app");
    otlp::Metric *metric = scope->add_metrics();
    metric->set_name("requests");
    metric->set_unit("1");
    otlp::Sum *sum = metric->mutable_sum();
    sum->set_is_monotonic(true);
    sum->set_aggregation_temporality(otlp::AGGREGATION_TEMPORALITY_CUMULATIVE);
    for (uint32_t number = 0; number < POINTS; number++) {
        otlp::NumberDataPoint *point = sum->add_data_points();
        point->set_start_time_unix_nano(100);
        point->set_time_unix_nano(200);
        point->set_as_int(number);
        attribute(point, "host", "h", number * 2654435761u);
        attribute(point, "method", "m", number % 4);
        attribute(point, "route", "r", number % 100);
        attribute(point, "zone", "z", number % 3);
    }
}

using Clock = std::chrono::steady_clock;
using Nanoseconds = std::chrono::duration<double, std::nano>;

/* The least time of the rounds. What a round made is given up after its time was taken, as kit_bench does. */
template <typename Made>
void tell(const char *name, bool (*run)(Made *, const otlp::ExportMetricsServiceRequest &, const std::string &),
          const otlp::ExportMetricsServiceRequest &request, const std::string &bytes) {
    double least = 1e18;
    for (int round = 0; round < ROUNDS; round++) {
        auto made = std::make_unique<Made>();
        Clock::time_point began = Clock::now();
        bool done = run(made.get(), request, bytes);
        Nanoseconds took = Clock::now() - began;
        if (!done) std::exit(1);
        least = std::min(least, took.count() / POINTS);
    }
    std::printf("%-55s %7.1f\n", name, least);
}

bool written(std::string *made, const otlp::ExportMetricsServiceRequest &request, const std::string &) {
    return request.SerializeToString(made);
}

bool filled(std::string *made, const otlp::ExportMetricsServiceRequest &, const std::string &) {
    otlp::ExportMetricsServiceRequest request;
    fill(&request);
    return request.SerializeToString(made);
}

bool read(otlp::ExportMetricsServiceRequest *made, const otlp::ExportMetricsServiceRequest &, const std::string &bytes) {
    return made->ParseFromString(bytes) && made->resource_metrics_size() == 1;
}

}  // namespace

int main() {
    otlp::ExportMetricsServiceRequest request;
    fill(&request);
    std::string bytes = request.SerializeAsString();
    std::printf("%-55s %7.1f\n", "C++: bytes of a point", static_cast<double>(bytes.size()) / POINTS);
    tell("C++: written, of a message that is there", written, request, bytes);
    tell("C++: written, the message made first", filled, request, bytes);
    tell("C++: read", read, request, bytes);
    return 0;
}
