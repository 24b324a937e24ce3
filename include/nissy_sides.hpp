// nissy for C++17 and later: the solutions of a step on the inverse of a line, or over both sides of it. Only a header, over nissy.hpp, which says
// what is thrown.
#ifndef NISSY_SIDES_HPP
#define NISSY_SIDES_HPP

#include "nissy.hpp"

namespace nissy {

// What the calls on both sides share. Its names are no part of the interface.
namespace continuing {

inline std::string joined(const std::string &first, const std::string &then) { return first + (first.empty() || then.empty() ? "" : " ") + then; }

inline std::string turn(int number) { return std::string(1, "UDRLFB"[number / 3]) + (number % 3 == 1 ? "2" : number % 3 == 2 ? "'" : ""); }

// The turns of a side from one on, of which each quarter turn may go either way if that is wanted: first as they are.
inline std::vector<std::string> written(const nissy_side_turns &side, int from, bool either_way) {
    std::vector<std::string> all = {""};
    for (int at = from; at < side.count; at++) {
        const int number = side.turns[at], other = number - number % 3 + 2 - number % 3;
        std::vector<std::string> longer;
        for (const std::string &each : all) {
            longer.push_back(joined(each, turn(number)));
            if (either_way && other != number) longer.push_back(joined(each, turn(other)));
        }
        all = std::move(longer);
    }
    return all;
}

// The moves of both sides as a solver writes them.
inline std::string written(const std::string &normal, const std::string &inverse) {
    return joined(normal, inverse.empty() ? "" : "(" + inverse + ")");
}

// The face turns of a line, named by the centres.
inline std::string turns_of(std::string_view line) {
    const std::string clean = cleanup(unniss(line));
    return clean.substr(0, clean.find_first_of("xyz"));
}

} // namespace continuing

// The solutions of a line's cube on these sides, whose first turns don't reach the step: by length, then by how many turns are on the normal side,
// then in turn order. Those on the inverse stand in brackets, such as "R U (F)", and `length` counts both. One that is cut has a beginning of them.
inline found find(const tables &by, std::string_view line, nissy_sides sides, const search &which = {}) {
    const std::uint8_t limit = detail::turns(which.limit, "limit"), slack = detail::turns(which.slack, "slack");
    if (sides < NISSY_NORMAL || sides > NISSY_BOTH) throw std::out_of_range("nissy: sides isn't 1 to 3");
    const std::string turns = continuing::turns_of(line);
    std::vector<nissy_way_part> room(static_cast<std::size_t>(std::min<std::uint64_t>(which.most, 1000)));
    found all = {{}, {std::nullopt, 0, 0}};
    nissy_sides_wanted wanted = {static_cast<std::uint8_t>(sides), 0, 0, 0, which.nodes};
    for (std::uint8_t last = limit; wanted.length <= last;) {
        const std::size_t places = static_cast<std::size_t>(std::min<std::uint64_t>(room.size(), which.most - all.solutions.size()));
        const nissy_sides_answer said = nissy_solve_sides(&detail::kept(by.step()).second, detail::bytes(std::string_view(turns)), turns.size(),
                                                          nullptr, 0, &wanted, room.data(), places);
        detail::end_unless_read(said.status, said.fault, said.column, by.step());
        if ((said.rows || said.more) && !all.count.length) {
            all.count.length = wanted.length;
            last = static_cast<std::uint8_t>(std::min<int>(limit, wanted.length + slack));
        }
        for (std::size_t at = 0; at < said.rows; at++)
            all.solutions.push_back(
                {continuing::written(continuing::written(room[at].normal, 0, false)[0], continuing::written(room[at].inverse, 0, false)[0]),
                 wanted.length});
        all.count.nodes += said.nodes;
        wanted.most_nodes -= said.nodes;
        all.count.is_cut = said.status == NISSY_CUT;
        all.count.more = said.more || all.count.is_cut;
        if (all.count.is_cut || (all.count.more && all.solutions.size() == which.most)) break;
        // after those that filled the room, or on with those of the next length
        wanted.passed = said.more ? wanted.passed + said.rows : 0;
        if (!said.more) wanted.length++;
    }
    all.count.solutions = all.solutions.size();
    return all;
}

// The same; one that is cut throws a cut.
inline std::vector<solution> solve(const tables &by, std::string_view line, nissy_sides sides, const search &which = {}) {
    found all = find(by, line, sides, which);
    if (all.count.is_cut) throw cut(all.count.nodes);
    return std::move(all.solutions);
}

} // namespace nissy

#endif
