// nissy for C++17 and later: the best ways on from a scramble and the moves so far to a domino reduction, and the line of the cube at which
// they begin. Only a header, over nissy.hpp, which says what is thrown; a fault's what() names the line that has it.
#ifndef NISSY_BEST_HPP
#define NISSY_BEST_HPP

#include "nissy.hpp"
#include "nissy_sides.hpp"

#include <atomic>
#include <functional>
#include <future>
#include <iterator>

namespace nissy {

// The edge orientation of a continuation.
struct orientation {
    std::string step;
    std::string moves;              // all of them as a solver writes them: those on the inverse side stand in brackets, after the others
    std::string normal, inverse;    // those on each side, without brackets
    int length;                     // how many turns they are, on both sides together
    std::vector<std::string> twins; // the last turns of its twins, written as `moves`: they differ only in the direction of these
};

// The domino reduction of a continuation; its moves are given as those of an orientation.
struct reduction {
    std::string step, moves, normal, inverse;
    int length;
    std::vector<std::string> twins; // none after an orientation
    struct {
        std::optional<int> normal, inverse;
    } lengths; // the least on each side without the other, if it is at most 20 there
};

// How a line goes on to a domino reduction.
struct continuation {
    int total;                     // all moves, those so far too, once they are merged on each side
    std::string line;              // what a solver writes after the moves so far: moves on the inverse side stand in brackets
    std::optional<orientation> eo; // none if one holds already
    reduction dr;
    std::string dr_case; // that of the reduction before its moves, such as "4c4e"
};

// How `best` searches: `slack` and `most` as it says, and at how many positions it looks at most. It goes in pieces, of one length of the first
// step and one axis each; with a slack of 3 one may take some seconds. What is called between them ends the call by what it throws.
struct best_search {
    std::int64_t slack = 0;
    std::uint64_t most = 20, nodes = NISSY_ALL;
    std::function<void(std::size_t, std::size_t)> progress = {}; // with how many ways were tried, and of how many, 0 until that is known
    std::function<bool()> stop = {};                             // whether to end: if it returns true, the call ends as one that is cut
};

// What `find_best` returns. If the search was cut, the rows are the best of what was tried until then: each is true, and others may be missing,
// better ones too.
struct best_found {
    std::vector<continuation> rows;
    bool is_cut = false;
    std::uint64_t nodes = 0; // at how many positions it looked
};

// What the search shares. Its names are no part of the interface.
namespace continuing {

// What an orientation and a reduction have in common.
template <typename Moves> Moves told(const nissy_way_part &part) {
    static const std::vector<std::string> names = steps();
    const std::string normal = written(part.normal, 0, false)[0], inverse = written(part.inverse, 0, false)[0];
    std::vector<std::string> twins;
    for (const std::string &end : written(part.normal, part.normal.count - part.normal.free, true))
        for (const std::string &other : written(part.inverse, part.inverse.count - part.inverse.free, true)) twins.push_back(written(end, other));
    twins.erase(twins.begin());
    Moves moves = {};
    moves.step = names[part.step], moves.moves = written(normal, inverse), moves.normal = normal, moves.inverse = inverse;
    moves.length = part.normal.count + part.inverse.count, moves.twins = std::move(twins);
    return moves;
}

inline continuation row(const nissy_way &way) {
    const auto length = [](int turns) { return turns > 20 ? std::nullopt : std::optional<int>(turns); };
    const auto eo = way.eo.step == NISSY_NO_STEP ? std::nullopt : std::optional<orientation>(told<orientation>(way.eo));
    reduction dr = told<reduction>(way.dr);
    if (eo) dr.twins.clear();
    dr.lengths = {length(way.on_normal), length(way.on_inverse)};
    std::string line = eo ? joined(eo->moves, dr.moves) : dr.moves;
    if (const std::size_t at = line.find(") ("); at != std::string::npos) line.replace(at, 3, " ");
    return {way.total, line, eo, dr, std::to_string(way.corners) + "c" + std::to_string(way.edges) + "e"};
}

// The tables of the steps, one after the other.
inline const nissy_tables *all_tables() {
    static const std::vector<nissy_tables> all = [] {
        std::vector<nissy_tables> made;
        const std::vector<std::string> names = steps();
        std::transform(names.begin(), names.begin() + 9, std::back_inserter(made), [](const std::string &step) { return detail::kept(step).second; });
        return made;
    }();
    return all.data();
}

// A search whose rows come into a room.
class searching {
public:
    searching(std::string_view scramble, std::string_view so_far, const best_search &which)
        : scramble_(scramble), so_far_(so_far), most_(which.most), room_(static_cast<std::size_t>(std::min(which.most, FIRST_ROWS))),
          wanted_({detail::turns(which.slack, "slack"), 0, 0, 0, which.nodes, 0}) {}

    // Reads both lines, and looks for nothing. Returns whether they can be read.
    bool begin() {
        ask();
        return said.status == NISSY_DONE;
    }

    // Looks for ways whose first steps have this axis and this length. Returns whether longer ones are let in.
    bool look(std::uint8_t axis, std::uint8_t length) {
        wanted_.axes = axis, wanted_.from = wanted_.to = length;
        const std::vector<nissy_way> before(room_.begin(), room_.begin() + (room_.size() < most_ ? place() : 0));
        ask();
        // there may be more than have place
        while (said.rows == room_.size() && room_.size() < most_) {
            room_.assign(static_cast<std::size_t>(std::min<std::uint64_t>(most_, 8 * room_.size())), {});
            std::copy(before.begin(), before.end(), room_.begin());
            ask();
        }
        wanted_.there = said.rows;
        wanted_.most_nodes -= said.nodes;
        nodes += said.nodes;
        tried += said.tried;
        return said.next;
    }

    std::vector<continuation> rows() const {
        std::vector<continuation> all;
        std::transform(room_.begin(), room_.begin() + place(), std::back_inserter(all), row);
        return all;
    }

    nissy_ways_answer said = {}; // what the last call said
    std::uint64_t nodes = 0;
    std::size_t tried = 0;

private:
    static constexpr std::uint64_t FIRST_ROWS = 256;

    void ask() {
        said = nissy_best(all_tables(), detail::bytes(scramble_), scramble_.size(), detail::bytes(so_far_), so_far_.size(), &wanted_, room_.data(),
                          room_.size());
    }
    std::ptrdiff_t place() const { return static_cast<std::ptrdiff_t>(wanted_.there); }

    std::string_view scramble_, so_far_;
    std::uint64_t most_;
    std::vector<nissy_way> room_;
    nissy_ways_wanted wanted_;
};

// Looks for one length of the first step after another, on each axis, as far as there are longer ones. Returns whether it is done.
inline bool look_for_all(searching &search, const best_search &which) {
    if (!search.begin()) return false;
    std::vector<std::uint8_t> axes = {1, 2, 4};
    for (std::uint8_t length = 0; !axes.empty(); length++) {
        std::vector<std::uint8_t> longer;
        for (const std::uint8_t axis : axes) {
            if (which.progress) which.progress(search.tried, 0);
            if (which.stop && which.stop()) {
                search.said.status = NISSY_CUT;
                return false;
            }
            if (search.look(axis, length)) longer.push_back(axis);
            if (search.said.status != NISSY_DONE) return false;
        }
        axes = std::move(longer);
    }
    if (which.progress) which.progress(search.tried, search.tried);
    return true;
}

// What a search finds, and what its last call said.
inline std::pair<best_found, nissy_ways_answer> found(std::string_view scramble, std::string_view so_far, const best_search &which) {
    searching search(scramble, so_far, which);
    const bool is_done = look_for_all(search, which);
    return {{search.rows(), !is_done, search.nodes}, search.said};
}

// Throws what is wrong with one of two lines.
template <typename Said> void end_unless_read(const Said &said) {
    detail::end_unless_read(said.status, said.fault, said.column, {}, said.line == 1 ? "scramble, " : "moves so far, ");
}

} // namespace continuing

// The line of the cube at which a solver stands after a scramble and the moves so far, for the calls on one line: clean face turns, named by the
// centres, with the moves in brackets inverted before the scramble. They name the faces as the moves outside brackets leave the cube, as `best`
// reads them. Its inverse is the line of the inverse side.
inline std::string line_after(std::string_view scramble, std::string_view so_far = {}) {
    std::string out(NISSY_LINE_ROOM, '\0');
    const nissy_line_after_answer said =
        nissy_line_after(detail::bytes(scramble), scramble.size(), detail::bytes(so_far), so_far.size(), detail::bytes(out), out.size());
    continuing::end_unless_read(said);
    out.resize(said.length);
    return out;
}

// What may follow a scramble and the moves so far, the best first, up to a domino reduction: each orientation on three axes, over both sides, and
// after it the reduction on each of two axes with the fewest moves in all, over both sides too. An orientation is let in if it is at most `slack`
// moves longer than the shortest of its kind: on the scramble, on its inverse, or over both; those that differ only in the direction of
// their last quarter turns are one. If an orientation holds, the reductions, let in alike; if a reduction is reached, nothing.
//
// Moves of `so_far` in brackets are made on the inverse side. All moves count, those so far too, once they are merged on each side. The order
// is by these, by the moves of the first step, and by the pieces of the case. `most` is how many are returned. Each unit of slack makes this
// many times as long and as large. One that is cut has the best of what was tried.
inline best_found find_best(std::string_view scramble, std::string_view so_far = {}, const best_search &which = {}) {
    auto [all, said] = continuing::found(scramble, so_far, which);
    continuing::end_unless_read(said);
    return std::move(all);
}

// The same; one that is cut throws a cut.
inline std::vector<continuation> best(std::string_view scramble, std::string_view so_far, const best_search &which) {
    best_found all = find_best(scramble, so_far, which);
    if (all.is_cut) throw cut(all.nodes);
    return std::move(all.rows);
}

// The same without a bound.
inline std::vector<continuation> best(std::string_view scramble, std::string_view so_far = {}, std::int64_t slack = 0, std::uint64_t most = 20) {
    best_search which;
    which.slack = slack, which.most = most;
    return best(scramble, so_far, which);
}

// What `find_best` finds of each scramble of a text, or what is wrong with that, by this many threads (with several, compile with -pthread). `nodes`
// is for each scramble anew, and `progress` and `stop` are called by all threads.
inline std::vector<answer<best_found>> best_all(std::string_view text, const best_search &which = {}, unsigned threads = 1) {
    std::vector<std::string_view> lines;
    for (; !text.empty(); text.remove_prefix(std::min(text.size(), lines.back().size() + 1))) lines.push_back(text.substr(0, text.find('\n')));
    std::vector<std::optional<answer<best_found>>> answers(lines.size());
    std::atomic<std::size_t> next = 0;
    const auto work = [&] {
        for (std::size_t at; (at = next++) < lines.size();) {
            const auto [all, said] = continuing::found(lines[at], {}, which);
            answers[at].emplace(said, all);
        }
    };
    std::vector<std::future<void>> others;
    for (unsigned thread = 1; thread < threads; thread++) others.push_back(std::async(std::launch::async, work));
    work();
    for (std::future<void> &each : others) each.get();
    std::vector<answer<best_found>> all;
    for (auto &each : answers) all.push_back(std::move(*each));
    return all;
}

} // namespace nissy

#endif
