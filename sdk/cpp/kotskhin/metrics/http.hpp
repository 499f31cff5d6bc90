// Exports by HTTP POST, over libcurl: link with -lcurl.
#pragma once
#include "kotskhin/metrics/exporters.hpp"
#include "kotskhin/metrics/lines.hpp"
#include <chrono>
#include <curl/curl.h>
#include <mutex>

namespace kotskhin::metrics {

// Sends each export as the body of a POST: a request of OTLP, as a Collector takes it at /v1/metrics. An answer other than 2xx is a
// failure, whose text has the first line of its body. One that says that some of the export was not taken fails as NotTaken.
class HttpExporter : public PushMetricExporter {
public:
    struct Options {
        // How long a request may take (OTLP exporters, "Timeout").
        std::chrono::milliseconds timeout{10'000};
        // Headers beside Content-Type, each as "name: value".
        std::vector<std::string> headers;
        Encode encode = otlp();
        // The media type of the body, where it is another than that of `encode`.
        std::string content_type;
    };

private:
    std::string url;
    Options options;
    std::string answer;
    uint64_t late = 0;
    std::unique_ptr<CURL, void (*)(CURL *)> curl{nullptr, curl_easy_cleanup};
    std::unique_ptr<curl_slist, void (*)(curl_slist *)> headers{nullptr, curl_slist_free_all};

    // What is told of an answer other than 2xx.
    std::string describe_refusal(long status) const {
        std::string told = url + " answered " + std::to_string(status), why = detail::first_line(answer);
        return why.empty() ? told : told + ": " + why;
    }
    void set(CURLcode code) {
        if (code != CURLE_OK) throw std::runtime_error(std::string("kotskhin: curl: ") + curl_easy_strerror(code));
    }
    void add(const std::string &line) {
        if (line.find_first_of("\r\n") != std::string::npos) throw std::invalid_argument("kotskhin: a header of several lines");
        curl_slist *longer = curl_slist_append(headers.get(), line.c_str());
        if (!longer) throw std::bad_alloc();
        (void)headers.release();
        headers.reset(longer);
    }
    // (of an answer that is longer than is looked at one byte more is kept, which says so)
    static size_t keep_body(char *from, size_t size, size_t count, void *into) noexcept {
        auto &answer = *static_cast<std::string *>(into);
        try {
            answer.append(from, std::min(size * count, detail::MOST_LOOKED_AT + 1 - answer.size()));
        } catch (const std::bad_alloc &) {
            return 0;
        }
        return size * count;
    }
    // (older libcurls have no curl_easy_header)
    static size_t read_header(char *from, size_t size, size_t count, void *into) noexcept {
        std::string_view line(from, size * count), name = "Kotskhin-Late:";
        if (line.size() > name.size() && curl_strnequal(from, name.data(), name.size())) {
            *static_cast<uint64_t *>(into) = detail::read_late(line.substr(name.size()));
        }
        return line.size();
    }

public:
    explicit HttpExporter(std::string of) : HttpExporter(std::move(of), Options()) {}
    HttpExporter(std::string of, Options given) : url(std::move(of)), options(std::move(given)) {
        static std::once_flag once;
        std::call_once(once, [] { curl_global_init(CURL_GLOBAL_DEFAULT); });
        curl.reset(curl_easy_init());
        if (!curl) throw std::bad_alloc();
        add("Content-Type: " + (options.content_type.empty() ? options.encode.media_type : options.content_type));
        // (else curl waits for leave to send a long body)
        add("Expect:");
        for (auto &header : options.headers) add(header);
        set(curl_easy_setopt(curl.get(), CURLOPT_URL, url.c_str()));
#if LIBCURL_VERSION_NUM >= 0x075500
        set(curl_easy_setopt(curl.get(), CURLOPT_PROTOCOLS_STR, "http,https"));
#else
        set(curl_easy_setopt(curl.get(), CURLOPT_PROTOCOLS, static_cast<long>(CURLPROTO_HTTP | CURLPROTO_HTTPS)));
#endif
        set(curl_easy_setopt(curl.get(), CURLOPT_POST, 1L));
        set(curl_easy_setopt(curl.get(), CURLOPT_NOSIGNAL, 1L));
        set(curl_easy_setopt(curl.get(), CURLOPT_TIMEOUT_MS, static_cast<long>(options.timeout.count())));
        set(curl_easy_setopt(curl.get(), CURLOPT_HTTPHEADER, headers.get()));
        set(curl_easy_setopt(curl.get(), CURLOPT_WRITEFUNCTION, &keep_body));
        set(curl_easy_setopt(curl.get(), CURLOPT_WRITEDATA, &answer));
        set(curl_easy_setopt(curl.get(), CURLOPT_HEADERFUNCTION, &read_header));
        set(curl_easy_setopt(curl.get(), CURLOPT_HEADERDATA, &late));
    }

    void Export(const kotskhin::Export &given) override {
        std::vector<uint8_t> body = options.encode(given);
        answer.clear();
        late = 0;
        set(curl_easy_setopt(curl.get(), CURLOPT_POSTFIELDSIZE_LARGE, static_cast<curl_off_t>(body.size())));
        set(curl_easy_setopt(curl.get(), CURLOPT_POSTFIELDS, body.empty() ? "" : reinterpret_cast<const char *>(body.data())));
        set(curl_easy_perform(curl.get()));
        long status = 0;
        set(curl_easy_getinfo(curl.get(), CURLINFO_RESPONSE_CODE, &status));
        if (status < 200 || status > 299) throw std::runtime_error(describe_refusal(status));
        // (how exports go as bytes is a function's, so an answer is read either way)
        if (auto why = detail::points_not_taken(answer)) throw *why;
        if (late) throw NotTaken(0, late);
    }
};

}  // namespace kotskhin::metrics
