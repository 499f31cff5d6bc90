// JSON, as the list of cases has it: numbers are whole, and as wide as they like, so they stay as their digits.
#pragma once
#include <stdexcept>
#include <string>
#include <utility>
#include <vector>

struct Json {
    enum class Is { Null, Truth, Number, Text, List, Fields } is = Is::Null;
    // A text; a number's digits; "true" or "false".
    std::string text;
    std::vector<Json> list;
    std::vector<std::pair<std::string, Json>> fields;

    static Json number(const std::string &digits) { return {Is::Number, digits, {}, {}}; }
    static Json of(const std::string &text) { return {Is::Text, text, {}, {}}; }
    static Json of(bool truth) { return {Is::Truth, truth ? "true" : "false", {}, {}}; }
    static Json of(std::vector<Json> list) { return {Is::List, "", std::move(list), {}}; }

    // The field of a name, where there is one.
    const Json *find(const std::string &name) const {
        for (auto &[key, value] : fields) {
            if (key == name) return &value;
        }
        return nullptr;
    }
    const Json &operator[](const std::string &name) const {
        if (auto found = find(name)) return *found;
        throw std::runtime_error("there is no field " + name);
    }
    Json &with(const std::string &name, Json value) {
        is = Is::Fields;
        fields.emplace_back(name, std::move(value));
        return *this;
    }
    // Fields are equal in any order.
    bool operator==(const Json &other) const {
        if (is != other.is || text != other.text || list != other.list || fields.size() != other.fields.size()) return false;
        for (auto &[key, value] : fields) {
            auto found = other.find(key);
            if (!found || !(*found == value)) return false;
        }
        return true;
    }
    bool operator!=(const Json &other) const { return !(*this == other); }

    std::string shown() const {
        std::string told;
        switch (is) {
        case Is::Null: return "null";
        case Is::Text: return '"' + text + '"';
        case Is::List:
            for (auto &item : list) told += (told.empty() ? "" : ", ") + item.shown();
            return "[" + told + "]";
        case Is::Fields:
            for (auto &[key, value] : fields) told += (told.empty() ? "" : ", ") + key + ": " + value.shown();
            return "{" + told + "}";
        default: return text;
        }
    }
};

class Parser {
    const std::string &all;
    size_t at = 0;

    void blank() { at = std::min(all.find_first_not_of(" \t\r\n", at), all.size()); }
    bool takes(char wanted) {
        blank();
        if (at >= all.size() || all[at] != wanted) return false;
        at++;
        return true;
    }
    void wants(char wanted) {
        if (!takes(wanted)) throw std::runtime_error("byte " + std::to_string(at) + " is not " + wanted);
    }
    void encode(unsigned code, std::string &into) {
        if (code < 0x80) into += static_cast<char>(code);
        else if (code < 0x800) into += {static_cast<char>(0xc0 | code >> 6), static_cast<char>(0x80 | (code & 63))};
        else
            into +=
                {static_cast<char>(0xe0 | code >> 12), static_cast<char>(0x80 | (code >> 6 & 63)), static_cast<char>(0x80 | (code & 63))};
    }
    std::string text() {
        std::string made;
        for (;;) {
            char one = all.at(at++);
            if (one == '"') return made;
            if (one != '\\') {
                made += one;
                continue;
            }
            switch (char escaped = all.at(at++)) {
            case 'n': made += '\n'; break;
            case 't': made += '\t'; break;
            case 'r': made += '\r'; break;
            case 'u':
                encode(static_cast<unsigned>(std::stoul(all.substr(at, 4), nullptr, 16)), made);
                at += 4;
                break;
            default: made += escaped;
            }
        }
    }

public:
    explicit Parser(const std::string &all) : all(all) {}
    Json value() {
        Json made;
        if (takes('{')) {
            made.is = Json::Is::Fields;
            if (takes('}')) return made;
            do {
                wants('"');
                std::string key = text();
                wants(':');
                made.fields.emplace_back(key, value());
            } while (takes(','));
            wants('}');
        } else if (takes('[')) {
            made.is = Json::Is::List;
            if (takes(']')) return made;
            do made.list.push_back(value());
            while (takes(','));
            wants(']');
        } else if (takes('"')) {
            made = Json::of(text());
        } else {
            size_t end = std::min(all.find_first_of(",]} \t\r\n", at), all.size());
            made.text = all.substr(at, end - at);
            at = end;
            bool is_truth = made.text == "true" || made.text == "false";
            made.is = is_truth ? Json::Is::Truth : made.text == "null" ? Json::Is::Null : Json::Is::Number;
        }
        return made;
    }
};
