// nissy for C++17 and later, for those who draw a cube: the names of axes and places, and where the stickers are among the 54 letters of
// `facelets`, and in a net. Only a header; it needs no library.
#ifndef NISSY_NET_HPP
#define NISSY_NET_HPP

#include <algorithm>
#include <array>
#include <cstddef>
#include <stdexcept>
#include <string>
#include <string_view>
#include <vector>

namespace nissy {

// The axes by nissy_axis, each named by its two faces.
inline constexpr std::array<const char *, 3> AXES = {"fb", "rl", "ud"};

// The places of edges and of corners, in the order of nissy.h.
inline constexpr std::array<const char *, 12> EDGE_PLACES = {"UR", "UF", "UL", "UB", "DR", "DF", "DL", "DB", "FR", "FL", "BL", "BR"};
inline constexpr std::array<const char *, 8> CORNER_PLACES = {"URF", "UFL", "ULB", "UBR", "DFR", "DLF", "DBL", "DRB"};

// Where a letter of a cube is in a net, from 0.
struct net_place {
    std::size_t row, column;
    friend constexpr bool operator==(net_place one, net_place other) { return one.row == other.row && one.column == other.column; }
    friend constexpr bool operator!=(net_place one, net_place other) { return !(one == other); }
};

namespace detail {

// The numbers of the letters of edges and of corners, in the order of their places.
inline constexpr std::size_t STICKERS_OF_EDGES[][2] = {{5, 10},  {7, 19},  {3, 37},  {1, 46},  {32, 16}, {28, 25},
                                                       {30, 43}, {34, 52}, {23, 12}, {21, 41}, {50, 39}, {48, 14}};
inline constexpr std::size_t STICKERS_OF_CORNERS[][3] = {{8, 9, 20},   {6, 18, 38},  {0, 36, 47},  {2, 45, 11},
                                                         {29, 26, 15}, {27, 44, 24}, {33, 53, 42}, {35, 17, 51}};

constexpr std::array<net_place, 54> places_in_net() {
    // where each face begins, in the order of the letters: U, R, F, D, L, B
    constexpr net_place FACES[] = {{0, 3}, {3, 6}, {3, 3}, {6, 3}, {3, 0}, {3, 9}};
    std::array<net_place, 54> places = {};
    for (std::size_t at = 0; at < places.size(); at++) places[at] = {FACES[at / 9].row + at % 9 / 3, FACES[at / 9].column + at % 3};
    return places;
}

// The faces in the order of the letters.
inline constexpr std::string_view FACE_LETTERS = "URFDLB";

// The place of a name in a list, or after its end. With `around` the name may begin with any of its faces.
template <std::size_t Size> std::size_t place_in(const std::array<const char *, Size> &names, std::string_view name, bool around) {
    const auto is_named = [=](std::string_view known) {
        return known.size() == name.size() && (around ? (std::string(known) + std::string(known)).find(name) != std::string::npos : known == name);
    };
    return static_cast<std::size_t>(std::find_if(names.begin(), names.end(), is_named) - names.begin());
}

// What a place of a turned cube is called by the faces of an unturned one.
inline std::string unturned(std::string_view place, std::string_view centres) {
    std::string name;
    for (const char face : place) {
        const std::size_t at = centres.find(face);
        name += at < FACE_LETTERS.size() ? FACE_LETTERS[at] : '?';
    }
    return name;
}

// The centres of 54 letters, which are on the faces as those of a cube.
inline std::string centres_of(std::string_view letters) {
    std::string centres;
    for (std::size_t at = 4; at < letters.size(); at += 9) centres += letters[at];
    // corners that are corners again, and none as in a mirror, leave no other way than to turn the whole cube
    const auto is_corner = [&](const char *name) { return place_in(CORNER_PLACES, unturned(name, centres), true) < CORNER_PLACES.size(); };
    const bool has_letters = letters.size() == 54 && letters.find_first_not_of(FACE_LETTERS) == std::string_view::npos;
    if (!has_letters || !std::all_of(CORNER_PLACES.begin(), CORNER_PLACES.end(), is_corner))
        throw std::invalid_argument("nissy: these are not the 54 letters of a cube");
    return centres;
}

// Adds the stickers of a place, which has this name on an unturned cube: from that of its first face on around the piece.
template <std::size_t Size, std::size_t Count>
void add_stickers(std::vector<std::size_t> &stickers, std::string_view name, const std::array<const char *, Size> &names,
                  const std::size_t (&numbers)[Size][Count]) {
    const std::size_t at = place_in(names, name, true);
    const std::size_t begin = std::string_view(names[at]).find(name[0]);
    for (std::size_t next = 0; next < Count; next++) stickers.push_back(numbers[at][(begin + next) % Count]);
}

// The stickers of some places of a cube with these centres.
inline std::vector<std::size_t> stickers_by(const std::vector<std::string> &places, std::string_view centres) {
    std::vector<std::size_t> stickers;
    for (const std::string &place : places) {
        const bool is_edge = place_in(EDGE_PLACES, place, false) < EDGE_PLACES.size();
        if (!is_edge && place_in(CORNER_PLACES, place, false) == CORNER_PLACES.size())
            throw std::invalid_argument("nissy: no place has this name: " + place);
        const std::string name = unturned(place, centres);
        if (is_edge)
            add_stickers(stickers, name, EDGE_PLACES, STICKERS_OF_EDGES);
        else
            add_stickers(stickers, name, CORNER_PLACES, STICKERS_OF_CORNERS);
    }
    return stickers;
}

} // namespace detail

// The place of each letter of `facelets` in the usual net of 9 rows and 12 columns: U above F, L F R B in a row, and D below F.
inline constexpr std::array<net_place, 54> NET = detail::places_in_net();

// The stickers of some places, such as those of place_names: the numbers of their letters in what `facelets` returns of an unturned cube, from 0,
// those of a place in the order of its name. A name that is none is a std::invalid_argument.
inline std::vector<std::size_t> stickers_of(const std::vector<std::string> &places) { return detail::stickers_by(places, detail::FACE_LETTERS); }

// The same by the `letters` that `facelets` returns of a cube that slices or rotations may have turned: places are named by the centres, as `facts`
// names them. Letters that aren't 54 of a cube are a std::invalid_argument too.
inline std::vector<std::size_t> stickers_of(const std::vector<std::string> &places, std::string_view letters) {
    return detail::stickers_by(places, detail::centres_of(letters));
}

} // namespace nissy

#endif
