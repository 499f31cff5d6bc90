// What brings exports to where they are taken.
#pragma once
#include "kotskhin/gateway.hpp"
#include "kotskhin/metrics/answers.hpp"
#include "kotskhin/writer.hpp"
#include <cerrno>
#include <cstdio>
#include <fcntl.h>
#include <functional>
#include <iostream>
#include <memory>
#include <stdexcept>
#include <system_error>
#include <unistd.h>
#include <utility>
#include <vector>

namespace kotskhin::metrics {

// Brings exports (OpenTelemetry Metrics SDK, "Push Metric Exporter"). Its calls come one after another, from one thread. A call fails by
// throwing. It is to end by itself: bound the time of what it waits for.
class PushMetricExporter {
public:
    PushMetricExporter() = default;
    PushMetricExporter(const PushMetricExporter &) = delete;
    PushMetricExporter &operator=(const PushMetricExporter &) = delete;
    virtual ~PushMetricExporter() = default;
    // Brings an export. One that fails is not tried again: exports are cumulative, so the next one covers it.
    virtual void Export(const kotskhin::Export &given) = 0;
    // Brings what was not brought yet, where the exporter keeps anything.
    virtual void ForceFlush() {}
    // Ends it. No call comes after this.
    virtual void Shutdown() {}
};

// A function.
class FunctionExporter : public PushMetricExporter {
    std::function<void(const kotskhin::Export &)> call;

public:
    explicit FunctionExporter(std::function<void(const kotskhin::Export &)> call) : call(std::move(call)) {}
    void Export(const kotskhin::Export &given) override { call(given); }
};

// Brings each export by one of several exporters, as to gateways of which any may take it: by the one that took the last one, and where
// that fails by the next. It fails where all did, and at once by NotTaken: others would say the same. Each bounds the time of its own
// calls.
class FirstOf : public PushMetricExporter {
    std::vector<std::unique_ptr<PushMetricExporter>> exporters;
    size_t last = 0;

public:
    explicit FirstOf(std::vector<std::unique_ptr<PushMetricExporter>> given) : exporters(std::move(given)) {
        if (exporters.empty()) throw std::invalid_argument("there is no exporter");
    }
    void Export(const kotskhin::Export &given) override {
        for (size_t turn = 0; turn < exporters.size(); turn++) {
            size_t at = (last + turn) % exporters.size();
            try {
                exporters[at]->Export(given);
                last = at;
                return;
            } catch (const NotTaken &) {
                last = at;
                throw;
            } catch (...) {
                if (turn + 1 == exporters.size()) throw;
            }
        }
    }
    void Shutdown() override {
        for (auto &exporter : exporters) exporter->Shutdown();
    }
};

// Writes a table of each stream of an export: to the standard output, or where else is said.
class OStreamMetricExporter : public PushMetricExporter {
    std::ostream &into;

public:
    explicit OStreamMetricExporter(std::ostream &into = std::cout) : into(into) {}
    void Export(const kotskhin::Export &given) override {
        Gateway gateway(0);
        gateway.take(given);
        Streams streams = gateway.streams();
        for (size_t number = 0; number < streams.size(); number++) {
            Stream stream = streams[number];
            into << stream.scope << " " << stream.name << " " << stream.unit << "\n" << gateway.table(Ask::stream(streams, number));
        }
        into.flush();
        if (!into) throw std::runtime_error("what is written to failed");
    }
};

// How an export goes as bytes: by a function, whose bytes have a media type.
struct Encode {
    using Call = std::function<std::vector<uint8_t>(const Export &)>;
    Call call;
    std::string media_type;

    template <typename Given, typename = std::enable_if_t<std::is_convertible_v<Given, Call>>>
    Encode(Given call, std::string media_type = "application/octet-stream") : call(std::move(call)), media_type(std::move(media_type)) {}
    std::vector<uint8_t> operator()(const Export &given) const { return call(given); }
};

// The kit's own bytes (docs/design/BYTES.md).
inline Encode own_bytes() {
    return {[](const Export &given) { return given.encode(); }, "application/vnd.kotskhin.export"};
}

// A request of OTLP.
inline Encode otlp() {
    return {[](const Export &given) { return given.otlp(); }, "application/x-protobuf"};
}

namespace detail {

// A file that is written beside another, under a name that none has, and then takes its place; else it is taken away.
class Beside {
    std::string path;
    int file = -1;

    [[noreturn]] void fail() const { throw std::system_error(errno, std::generic_category(), path); }

public:
    // (of a mode that the umask says; who shares the folder from a container may have the same process id)
    explicit Beside(const std::string &other) {
        for (int turn = 0; file < 0; turn++) {
            Instance drawn = unique_instance();
            path = other + "." + std::to_string(drawn.high) + ".new";
            file = open(path.c_str(), O_WRONLY | O_CREAT | O_EXCL | O_CLOEXEC, 0666);
            if (file < 0 && (errno != EEXIST || turn > 9)) fail();
        }
    }
    Beside(Beside &&) = delete;
    ~Beside() {
        if (file >= 0) close(file);
        if (!path.empty()) unlink(path.c_str());
    }
    void write(const std::vector<uint8_t> &bytes) {
        for (size_t done = 0; done < bytes.size();) {
            ssize_t many = ::write(file, bytes.data() + done, bytes.size() - done);
            if (many < 0 && errno != EINTR) fail();
            if (many > 0) done += static_cast<size_t>(many);
        }
        if (fdatasync(file)) fail();
        if (close(std::exchange(file, -1))) fail();
    }
    void replace(const std::string &other) {
        if (std::rename(path.c_str(), other.c_str())) throw std::system_error(errno, std::generic_category(), other);
        path.clear();
    }
};

}  // namespace detail

// Writes each export into one file, in the place of the one before, which it covers. Who reads the file finds a whole one at any time. The
// file has the mode that the process' umask leaves of 0666.
class FileExporter : public PushMetricExporter {
    std::string path;
    Encode encode;

public:
    explicit FileExporter(std::string path, Encode encode = own_bytes()) : path(std::move(path)), encode(std::move(encode)) {}
    void Export(const kotskhin::Export &given) override {
        std::vector<uint8_t> bytes = encode(given);
        detail::Beside beside(path);
        beside.write(bytes);
        beside.replace(path);
    }
};

}  // namespace kotskhin::metrics
