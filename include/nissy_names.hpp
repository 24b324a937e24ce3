// nissy for C++17 and later: the names of the places and forms that facts and verdicts have as bits, where a line has
// such forms, and which step has to hold before another. Only a header, over nissy.hpp, which says what is thrown.
#ifndef NISSY_NAMES_HPP
#define NISSY_NAMES_HPP

#include "nissy.hpp"
#include "nissy_forms.h"
#include "nissy_net.hpp"

namespace nissy {

// A move or a bracket of a line that the WCA's notation for solutions hasn't.
struct form_place {
    std::string text;   // as it is written
    unsigned forms;     // its forms of nissy_form, added
    std::size_t column; // in bytes, from 1
};

namespace detail {

// The names whose bits are set.
template <std::size_t Size> std::vector<std::string> chosen(const std::bitset<Size> &bits, const std::array<const char *, Size> &names) {
    std::vector<std::string> those;
    for (std::size_t at = 0; at < Size; at++)
        if (bits[at]) those.emplace_back(names[at]);
    return those;
}

} // namespace detail

// The places of edges, such as "UF", in the order of EDGE_PLACES.
inline std::vector<std::string> place_names(const std::bitset<12> &places) { return detail::chosen(places, EDGE_PLACES); }

// The places of corners, such as "URF", in the order of CORNER_PLACES.
inline std::vector<std::string> place_names(const std::bitset<8> &places) { return detail::chosen(places, CORNER_PLACES); }

// The forms of a verdict, as the library for Python names them.
inline std::vector<std::string> form_names(unsigned forms) {
    return detail::chosen<5>(forms, {"slices", "lower_case", "brackets", "apostrophe", "half_prime"});
}

// Where a line has such forms: those of its places together are those of a verdict.
inline std::vector<form_place> form_places(std::string_view line) {
    // it throws what is wrong with the line
    facts(line);
    std::vector<form_place> places;
    const std::uint8_t *const bytes = detail::bytes(line);
    const auto next = [=](std::size_t passed) { return nissy_next_form_place(bytes, line.size(), passed); };
    for (nissy_form_place it = next(0); it.forms; it = next(it.last))
        places.push_back({std::string(line.substr(it.column - 1, it.last - it.column + 1)), it.forms, it.column});
    return places;
}

// The step that has to hold before this one: the orientation that a reduction keeps, and none before an orientation.
inline std::optional<std::string> start_of(std::string_view step) {
    std::string out(NISSY_LINE_ROOM, '\0');
    const nissy_line_answer answer = nissy_start(detail::bytes(step), step.size(), detail::bytes(out), out.size());
    if (answer.status != NISSY_DONE) throw std::invalid_argument("nissy: no step has this name: " + std::string(step));
    out.resize(answer.length);
    return out.empty() ? std::nullopt : std::optional<std::string>(out);
}

} // namespace nissy

#endif
