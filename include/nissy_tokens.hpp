// nissy for C++17 and later: the moves of a line one by one, for those who draw or count them. Only a header, over nissy.hpp, which says what
// is thrown.
#ifndef NISSY_TOKENS_HPP
#define NISSY_TOKENS_HPP

#include "nissy.hpp"

namespace nissy {

// One move of a line.
struct token {
    std::string text;        // the move in the WCA's notation for moves, such as "Rw2" or "U'"; a lower-case "r" is "Rw"
    char axis;               // about what it turns: 'x' goes through L and R, 'y' through D and U, 'z' through B and F
    std::vector<int> layers; // which layers it turns: -1 is that of L, D or B, 0 the middle one, 1 that of R, U or F
    int quarters;            // by how many quarters: 1, 2, or -1, clockwise as one looks at R, U or F
    bool inverse;            // whether it stands in brackets, and so is a move on the inverse scramble

    friend bool operator==(const token &one, const token &other) {
        return one.text == other.text && one.axis == other.axis && one.layers == other.layers && one.quarters == other.quarters &&
               one.inverse == other.inverse;
    }
    friend bool operator!=(const token &one, const token &other) { return !(one == other); }
};

namespace detail {

// What a letter turns: from which layer of an axis to which, and whether as the axis does (1) or the other way round (-1).
struct turned {
    char letter, axis;
    int first, last, way;
};
inline constexpr std::array<turned, 12> TURNED = {{
    {'R', 'x', 1, 1, 1},
    {'L', 'x', -1, -1, -1},
    {'U', 'y', 1, 1, 1},
    {'D', 'y', -1, -1, -1},
    {'F', 'z', 1, 1, 1},
    {'B', 'z', -1, -1, -1},
    {'M', 'x', 0, 0, -1},
    {'E', 'y', 0, 0, -1},
    {'S', 'z', 0, 0, 1},
    {'x', 'x', -1, 1, 1},
    {'y', 'y', -1, 1, 1},
    {'z', 'z', -1, 1, 1},
}};

// Takes these bytes from the beginning of a text, if it begins so.
inline bool takes(std::string_view &text, std::string_view bytes) {
    const bool begins = text.substr(0, bytes.size()) == bytes;
    if (begins) text.remove_prefix(bytes.size());
    return begins;
}

// Takes the move with which a line begins that was read before.
inline token take_token(std::string_view &line, bool inverse) {
    const bool is_lower = std::string_view("udrlfb").find(line[0]) != std::string_view::npos;
    const char letter = is_lower ? static_cast<char>(line[0] - 'a' + 'A') : line[0];
    line.remove_prefix(1);
    const bool is_wide = takes(line, "w") || is_lower, is_half = takes(line, "2"), is_back = takes(line, "'") || takes(line, "\xe2\x80\x99");
    const turned &it = *std::find_if(TURNED.begin(), TURNED.end(), [letter](const turned &each) { return each.letter == letter; });
    token move = {std::string(1, letter) + (is_wide ? "w" : "") + (is_half ? "2" : is_back ? "'" : ""), it.axis, {}, 2, inverse};
    if (!is_half) move.quarters = is_back ? -it.way : it.way;
    const int first = is_wide ? std::min(it.first, 0) : it.first, last = is_wide ? std::max(it.last, 0) : it.last;
    for (int layer = first; layer <= last; layer++) move.layers.push_back(layer);
    return move;
}

} // namespace detail

// The moves of a line as they are written, one after another.
inline std::vector<token> tokens(std::string_view line) {
    // it throws what is wrong with the line
    facts(line);
    std::vector<token> moves;
    for (bool inverse = false; !line.empty();) {
        const char first = line[0];
        const bool is_move = first != '(' && first != ')' && first != ' ' && first != '\t' && first != '\r';
        if (is_move) {
            moves.push_back(detail::take_token(line, inverse));
        } else {
            inverse = first == '(' || (inverse && first != ')');
            line.remove_prefix(1);
        }
    }
    return moves;
}

} // namespace nissy

#endif
