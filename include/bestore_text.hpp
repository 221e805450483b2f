// Text helpers for C++17. They list the comparisons in a query, escape strings, convert bytes to UTF-8, and show a caret under an error.
// Include bestore.hpp, which includes this file.
#ifndef BESTORE_TEXT_HPP
#define BESTORE_TEXT_HPP

#include "bestore_values.hpp"

#include <algorithm>
#include <memory>

namespace bestore {

// A comparison in a query's text.
struct Comparison {
    std::string name;
    query_op op;
    std::string value;  // as written in the query, with its backslashes
    std::size_t offset; // the offset of its first byte in the query
    std::size_t length; // its length in the query, in bytes
};

namespace detail {

inline Comparison comparison_of(std::string_view text, const bes_comparison_list &list, const bes_compared &found)
{
    const auto *bytes = reinterpret_cast<const char *>(list.bytes);
    return {std::string(bytes + found.plain_name_at, bytes + found.plain_value_at), static_cast<query_op>(found.kind_in_text),
            std::string(text.substr(found.value_at, found.value_end - found.value_at)), found.at, found.end - found.at};
}

// Returns the comparisons in a query as the library lists them.
inline std::unique_ptr<bes_comparison_list> listed_comparisons(std::string_view text)
{
    std::uint64_t place = 0;
    auto list = std::make_unique<bes_comparison_list>();
    const auto error = bes_list_comparisons(reinterpret_cast<const char *>(bytes_of(text)), text.size(), list.get(), &place);
    check(error, place, Place::byte);
    return list;
}

// Returns the string that a library call derives from another string. The result has at most `times` times as many bytes as that string.
template <class Call> std::string made_text(std::string_view text, std::size_t times, Call call)
{
    std::string made(times * text.size(), '\0');
    std::uint8_t none = 0;
    std::uint64_t count = 0;
    check(call(bytes_of(text), text.size(), made.empty() ? &none : reinterpret_cast<std::uint8_t *>(made.data()), made.size(), &count));
    made.resize(count);
    return made;
}

} // namespace detail

// Returns the comparisons in a query, in order. Throws an error if the text isn't a query.
inline std::vector<Comparison> comparisons_of(std::string_view text)
{
    const auto list = detail::listed_comparisons(text);
    std::vector<Comparison> comparisons;
    for (std::size_t at = 0; at < list->counts.operations; at++)
        comparisons.push_back(detail::comparison_of(text, *list, list->comparisons[at]));
    return comparisons;
}

// Returns the names in a query, in order and without duplicates.
inline std::vector<std::string> names_of(std::string_view text)
{
    std::vector<std::string> names;
    for (const auto &comparison : comparisons_of(text))
        if (std::find(names.begin(), names.end(), comparison.name) == names.end())
            names.push_back(comparison.name);
    return names;
}

// Escapes a string so that a query reads it literally, as bes_escape does. Throws BES_NOT_UTF8.
inline std::string escape(std::string_view text) { return detail::made_text(text, 2, bes_escape_bytes); }

// Like escape, but each letter matches in either case, under Unicode simple case folding. The result is a pattern for use with == and !=.
inline std::string any_case(std::string_view text) { return detail::made_text(text, 12, bes_any_case_bytes); }

// Turns arbitrary bytes, such as a file name, into text of at most `most` bytes that the library accepts, as bes_to_utf8 does.
inline std::string to_utf8(std::string_view text, std::size_t most = 255)
{
    std::string valid(std::min(most, text.size()) + 1, '\0'); // no text becomes longer
    valid.resize(bes_to_utf8(text.data(), text.size(), valid.data(), valid.size()));
    return valid;
}

// Returns a query's text and, on the next line, a caret under the character at a byte offset. If the text has several lines, only the line
// with that byte is returned. Control characters become spaces.
inline std::string caret(std::string_view text, std::uint64_t offset)
{
    const auto at = static_cast<std::size_t>(std::min<std::uint64_t>(offset, text.size()));
    const auto before = at == 0 ? std::string_view::npos : text.rfind('\n', at - 1);
    const auto begin = before == std::string_view::npos ? 0 : before + 1;
    std::string line(text.substr(begin, text.find('\n', at) - begin));
    const auto columns = std::count_if(line.data(), line.data() + (at - begin), [](unsigned char c) { return (c & 0xc0) != 0x80; });
    std::replace_if(line.begin(), line.end(), [](unsigned char c) { return c < ' ' || c == 0x7f; }, ' ');
    return line + '\n' + std::string(static_cast<std::size_t>(columns), ' ') + '^';
}

} // namespace bestore
#endif
