/* Nested querystrings for C++17: the calls of serde_qs.h over std::string_view. Each returns what it makes, and throws a serde_qs::error, or
 * std::bad_alloc. Concurrent calls share nothing. */
#ifndef SERDE_QS_HPP
#define SERDE_QS_HPP

#include "serde_qs.h"

#include <new>
#include <optional>
#include <stdexcept>
#include <string>
#include <string_view>
#include <utility>
#include <vector>

namespace serde_qs {

/* How a querystring is read and written: qs_default, qs_web, or a copy of one with other values. */
using settings = qs_settings;

/* An error of a call; what() is a text for a user. */
class error : public std::runtime_error {
public:
    error(uint32_t status, std::size_t position, std::string path, const std::string &text)
        : std::runtime_error(text), status_(status), position_(position), path_(std::move(path)) {}

    /* The status, such as QS_MISMATCH. */
    uint32_t status() const noexcept { return status_; }

    /* The position in the querystring, the shape or the JSON. */
    std::size_t position() const noexcept { return position_; }

    /* The path to the part that a shape doesn't read, such as user[age]. It is empty if there is no such part. */
    const std::string &path() const noexcept { return path_; }

private:
    uint32_t status_;
    std::size_t position_;
    std::string path_;
};

/* Why a shape doesn't read a querystring: the path to the wrong part, and a line that begins with it. */
struct explanation {
    std::string path, line;
};

namespace detail {

inline const uint8_t *bytes(std::string_view text) noexcept { return reinterpret_cast<const uint8_t *>(text.data()); }

/* What a call returns: its status, its text and its position. */
struct answered {
    uint32_t status;
    std::string text;
    std::size_t position;
};

/* Makes the call, whose input has `given` bytes, and makes it again with a larger buffer if its result doesn't fit. */
template <typename Call> answered ask(std::size_t given, Call call) {
    std::string text(256 + 2 * given, '\0');
    qs_answer answer{};
    uint32_t status = call(reinterpret_cast<uint8_t *>(text.data()), text.size(), &answer);
    if (answer.len > text.size()) {
        text.resize(answer.len);
        status = call(reinterpret_cast<uint8_t *>(text.data()), text.size(), &answer);
    }
    if (status == QS_OUT_OF_MEMORY)
        throw std::bad_alloc();
    text.resize(answer.len);
    return {status, std::move(text), answer.position};
}

inline std::string taken(answered found) {
    if (found.status != QS_OK)
        throw error(found.status, found.position, "", found.text);
    return std::move(found.text);
}

} // namespace detail

/* Gets the decoded value at a path, such as user[name]; nothing if the path leads nowhere. */
inline std::optional<std::string> get(std::string_view path, std::string_view query, const settings &with = qs_default) {
    auto found = detail::ask(query.size(), [&](uint8_t *out, std::size_t size, qs_answer *answer) {
        return qs_get(&with, detail::bytes(path), path.size(), detail::bytes(query), query.size(), out, size, answer);
    });
    if (found.status == QS_ABSENT)
        return std::nullopt;
    return detail::taken(std::move(found));
}

/* Reads the querystring into JSON, whatever it holds. */
inline std::string parse(std::string_view query, const settings &with = qs_default) {
    return detail::taken(detail::ask(query.size(), [&](uint8_t *out, std::size_t size, qs_answer *answer) {
        return qs_parse(&with, detail::bytes(query), query.size(), out, size, answer);
    }));
}

/* Explains why a shape doesn't read the querystring; nothing if it does. */
inline std::optional<explanation> explain(std::string_view shape, std::string_view query, const settings &with = qs_default) {
    auto found = detail::ask(query.size(), [&](uint8_t *out, std::size_t size, qs_answer *answer) {
        return qs_explain(&with, detail::bytes(shape), shape.size(), detail::bytes(query), query.size(), out, size, answer);
    });
    std::size_t length = found.position;
    std::string line = detail::taken(std::move(found));
    if (line.empty())
        return std::nullopt;
    return explanation{line.substr(0, length), line};
}

/* Explains each field of a struct that a shape doesn't read: its path and the reason. The path is empty if the querystring can't be parsed or is
 * wrong as a whole. There are none if the shape reads the querystring. */
inline std::vector<std::pair<std::string, std::string>> explain_fields(std::string_view shape, std::string_view query,
                                                                       const settings &with = qs_default) {
    const std::string lines = detail::taken(detail::ask(query.size(), [&](uint8_t *out, std::size_t size, qs_answer *answer) {
        return qs_explain_fields(&with, detail::bytes(shape), shape.size(), detail::bytes(query), query.size(), out, size, answer);
    }));
    std::vector<std::pair<std::string, std::string>> fields;
    for (std::size_t at = 0, end; (end = lines.find('\n', at)) != std::string::npos; at = end + 1) {
        const std::string line = lines.substr(at, end - at);
        const std::size_t word = line.find(' ');
        const bool has_path = word != std::string::npos && word > 0 && line[word - 1] == ':';
        fields.emplace_back(has_path ? line.substr(0, word - 1) : "", has_path ? line.substr(word + 1) : line);
    }
    return fields;
}

/* Reads the querystring into JSON by a shape, such as {user: {name: text}}. */
inline std::string read(std::string_view shape, std::string_view query, const settings &with = qs_default) {
    auto found = detail::ask(query.size(), [&](uint8_t *out, std::size_t size, qs_answer *answer) {
        return qs_read(&with, detail::bytes(shape), shape.size(), detail::bytes(query), query.size(), out, size, answer);
    });
    if (found.status == QS_MISMATCH || found.status == QS_NOT_UTF8)
        if (auto why = explain(shape, query, with))
            throw error(found.status, found.position, why->path, found.text);
    return detail::taken(std::move(found));
}

/* Writes the JSON as a querystring. */
inline std::string write(std::string_view json, const settings &with = qs_default) {
    return detail::taken(detail::ask(json.size(), [&](uint8_t *out, std::size_t size, qs_answer *answer) {
        return qs_write(&with, detail::bytes(json), json.size(), out, size, answer);
    }));
}

/* Encodes the bytes for form mode or query mode. */
inline std::string encode(std::string_view text, bool form = false) {
    return detail::taken(detail::ask(text.size(), [&](uint8_t *out, std::size_t size, qs_answer *answer) {
        return qs_encode(form, detail::bytes(text), text.size(), out, size, answer);
    }));
}

/* Decodes the bytes: `+` is a space, and `%` with two hexadecimal digits is one byte. */
inline std::string decode(std::string_view text) {
    return detail::taken(detail::ask(text.size(), [&](uint8_t *out, std::size_t size, qs_answer *answer) {
        return qs_decode(detail::bytes(text), text.size(), out, size, answer);
    }));
}

} // namespace serde_qs

#endif
