// nissy for C++17 and later: reads text as solvers write it, by the library. What is no move but is written beside moves becomes a blank or an
// apostrophe, or is left out; what comes of it is a line for the other calls, or it is at fault there. Only a header, over nissy_text.h.
#ifndef NISSY_WRITTEN_HPP
#define NISSY_WRITTEN_HPP

#if __cplusplus < 201703L
#error "nissy_written.hpp is for C++17 and later"
#endif

#include "nissy_text.h"

#include <algorithm>
#include <array>
#include <cstddef>
#include <cstdint>
#include <new>
#include <optional>
#include <string>
#include <string_view>
#include <type_traits>
#include <vector>

namespace nissy {

// A text as one line.
struct plain {
    std::string line;
    std::vector<std::size_t> places;   // the place in the text of each byte of the line, from 0; place_of has that of a fault
    std::vector<std::string> left_out; // what the line hasn't, by the names of detail::LEFT_OUT
};

// Where a fault or a form stands in a text.
struct text_place {
    std::size_t at;           // in bytes from 0
    std::size_t line, column; // its line, and the character there as nissy.hpp counts it, from 1; a line ends by a line feed, a return, or both

    friend bool operator==(const text_place &one, const text_place &other) {
        return one.at == other.at && one.line == other.line && one.column == other.column;
    }
    friend bool operator!=(const text_place &one, const text_place &other) { return !(one == other); }
};

namespace detail {

inline constexpr std::array<const char *, 6> LEFT_OUT = {"labels",       "numbers of moves", "comments",
                                                         "line numbers", "commas",           "signs that aren't seen"};

inline const std::uint8_t *text_bytes(std::string_view text) { return reinterpret_cast<const std::uint8_t *>(text.data()); }

// Throws if a call was refused memory, of which some take a little in nissy.c.
inline void end_unless_made(std::uint8_t status) {
    if (status == NISSY_STOPPED) throw std::bad_alloc();
}

// What a call writes as a line into a room of this many bytes, and of as many places.
template <typename Call> plain written_by(std::size_t room, Call call) {
    plain made = {std::string(room, '\0'), {}, {}};
    std::vector<std::uint64_t> places(room);
    const nissy_plain_answer told = call(reinterpret_cast<std::uint8_t *>(made.line.data()), places.data());
    end_unless_made(told.status);
    made.line.resize(told.length);
    made.places.assign(places.begin(), places.begin() + static_cast<std::ptrdiff_t>(told.length));
    for (std::size_t bit = 0; bit < LEFT_OUT.size(); bit++)
        if (told.left_out >> bit & 1) made.left_out.emplace_back(LEFT_OUT[bit]);
    return made;
}

inline std::size_t line_ends(std::string_view text) {
    std::size_t ends = 0;
    for (std::size_t at = 0; at < text.size(); at++) ends += text[at] == '\r' || (text[at] == '\n' && (at == 0 || text[at - 1] != '\r'));
    return ends;
}

inline bool begins_sign(char byte) { return (static_cast<unsigned char>(byte) & 0xc0) != 0x80; }

// Counts the lines of a text once for all places that don't fall.
class place_counter {
public:
    explicit place_counter(std::string_view text) : text_(text) {}

    text_place at(std::size_t at) {
        if (at < place_.at) place_ = {0, 1, 1};
        for (; place_.at < at && place_.at < text_.size(); place_.at++) {
            const char byte = text_[place_.at];
            const bool is_inner = byte == '\n' && place_.at > 0 && text_[place_.at - 1] == '\r';
            if (byte == '\r' || byte == '\n')
                place_ = {place_.at, place_.line + !is_inner, 1};
            else
                place_.column += begins_sign(byte);
        }
        return {at, place_.line, place_.column};
    }

private:
    std::string_view text_;
    text_place place_ = {0, 1, 1};
};

// The place of a byte of a line in its text; after the last sign if the line hasn't that many.
inline std::size_t place_in(const plain &line, std::size_t at, std::string_view text) {
    if (at < line.places.size()) return line.places[at];
    std::size_t end = line.places.empty() ? 0 : line.places.back() + 1;
    while (end > 0 && end < text.size() && !begins_sign(text[end])) end++;
    return end;
}

// The column of a fault, or of a form, whose is a member.
template <typename Found> std::size_t column_of(const Found &found) {
    if constexpr (std::is_member_object_pointer_v<decltype(&Found::column)>)
        return found.column;
    else
        return found.column();
}

} // namespace detail

// A text as solvers write it as one line: without labels, comments, and numbers of lines and moves.
inline plain plain_line(std::string_view text) {
    const std::size_t room = 3 * text.size();
    return detail::written_by(room, [text, room](std::uint8_t *out, std::uint64_t *places) {
        return nissy_plain(detail::text_bytes(text), text.size(), out, room, places, room);
    });
}

// Where a fault or a form of a plain line stands in the text that it is of; nothing if a fault has no place.
template <typename Found> std::optional<text_place> place_of(const Found &found, const plain &line, std::string_view text) {
    const std::size_t column = detail::column_of(found);
    if (column == 0) return std::nullopt;
    return detail::place_counter(text).at(detail::place_in(line, column - 1, text));
}

} // namespace nissy

#endif
