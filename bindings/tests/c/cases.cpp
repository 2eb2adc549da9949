/* Makes the call of each line of the standard input by the header for C++, and prints its status, its position and its text. */
#include "call.h"
#include <serde_qs.hpp>

#include <iostream>

static std::string result_of(const qs_call &call, std::size_t &position) {
    const std::string_view name = call.name;
    if (name == "get") {
        auto value = serde_qs::get(call.shape, call.text, call.settings);
        return value ? *value : throw serde_qs::error(QS_ABSENT, 0, "", "nothing is at the path");
    }
    if (name == "parse")
        return serde_qs::parse(call.text, call.settings);
    if (name == "read")
        return serde_qs::read(call.shape, call.text, call.settings);
    if (name == "explain") {
        auto why = serde_qs::explain(call.shape, call.text, call.settings).value_or(serde_qs::explanation{});
        position = why.path.size();
        return why.line;
    }
    if (name == "fields") {
        std::string lines;
        for (const auto &[path, reason] : serde_qs::explain_fields(call.shape, call.text, call.settings))
            lines += (path.empty() ? "" : path + ": ") + reason + "|";
        return lines;
    }
    if (name == "write")
        return serde_qs::write(call.text, call.settings);
    return name == "encode" ? serde_qs::encode(call.text, call.settings.form) : serde_qs::decode(call.text);
}

/* The path of an error, of a shape alone, and a result that is longer than the first buffer. */
static bool is_right() {
    const std::string value(10000, '+');
    try {
        serde_qs::read("{user: {age: u8}}", "user%5Bage%5D=300", qs_web);
    } catch (const serde_qs::error &error) {
        return error.path() == "user[age]" && serde_qs::encode(std::string(10000, '%')).size() == 30000 && serde_qs::decode(value)[9999] == ' ';
    }
    return false;
}

int main() {
    for (std::string line; std::getline(std::cin, line);) {
        std::size_t position = 0;
        try {
            std::string text = result_of(call_of(line.data()), position);
            std::cout << "0\t" << position << '\t' << text << '\n';
        } catch (const serde_qs::error &error) {
            std::cout << error.status() << '\t' << error.position() << '\t' << error.what() << '\n';
        }
    }
    return is_right() ? 0 : 1;
}
