// The best ways on only by their definition: each class of orientations over both sides, each reduction after it, all members, all kinds.
// It reads questions, one a line, and writes their rows:
//
//     slack ; turns that lead to the cube ; clean turns made on the normal side ; clean turns made on the inverse ; rows ; moves in all
//
// Turns are face turns, named by the centres. A row is `total length corners edges axis reduction | A | B | D | E`, and a question ends with
// an empty line. The first rows are written, so many at most, of those with at most so many moves in all; a reduction that is too long for these
// isn't looked for.
#include <algorithm>
#include <array>
#include <cstdint>
#include <cstdlib>
#include <iostream>
#include <map>
#include <sstream>
#include <string>
#include <tuple>
#include <vector>

#include "steps.hpp"

namespace {

struct Pair {
    Turns normal, inverse;
    int length() const { return int(normal.size() + inverse.size()); }
};

bool may_follow(int last, int turn) {
    return last < 0 || (face_of(last) != face_of(turn) && !(axis_of(last) == axis_of(turn) && face_of(turn) < face_of(last)));
}

Cube after_normal(const Step &step, Cube cube, const Turns &turns) {
    for (int turn : turns) cube = then(cube, TURN[step.framed[turn]]);
    return cube;
}
// turns on the inverse are taken back before all that made the cube
Cube after_inverse(const Step &step, Cube cube, const Turns &turns) {
    for (int turn : turns) cube = then(TURN[step.framed[inverse_of(turn)]], cube);
    return cube;
}
Cube after(const Step &step, const Cube &cube, const Pair &pair) { return after_normal(step, after_inverse(step, cube, pair.inverse), pair.normal); }

bool first_reaches(const Step &step, const Cube &cube, const Pair &pair) {
    for (size_t j = 0; j <= pair.inverse.size(); j++) {
        Cube here = after_inverse(step, cube, Turns(pair.inverse.begin(), pair.inverse.begin() + long(j)));
        for (size_t i = 0; i <= pair.normal.size(); i++) {
            if (i > 0) here = then(here, TURN[step.framed[pair.normal[i - 1]]]);
            if (is_reached(step, here)) return i == pair.normal.size() && j == pair.inverse.size();
        }
    }
    return false;
}

enum Kind { NORMAL, INVERSE, BOTH };

// all canonical sequences of some turns on one side, and after each all of the other side that reach the step with it
struct Search {
    const Step &step;
    const std::vector<uint8_t> &far;
    std::vector<Pair> &found;
    bool is_head_normal;
    Turns head, tail;

    void tails(const Cube &cube, size_t left) {
        if (far[size_t(seen(step, cube))] > left) return;
        if (left == 0) {
            found.push_back(is_head_normal ? Pair{head, tail} : Pair{tail, head});
            return;
        }
        for (int turn = 0; turn < 18; turn++)
            if (step.has(turn) && may_follow(tail.empty() ? -1 : tail.back(), turn)) {
                tail.push_back(turn);
                tails(then(cube, TURN[step.framed[turn]]), left - 1);
                tail.pop_back();
            }
    }
    // `other` is the cube of the other side
    void heads(const Cube &other, size_t left, size_t length) {
        if (left == 0) return tails(other, length);
        for (int turn = 0; turn < 18; turn++)
            if (step.has(turn) && may_follow(head.empty() ? -1 : head.back(), turn)) {
                head.push_back(turn);
                heads(then(TURN[step.framed[inverse_of(turn)]], other), left - 1, length);
                head.pop_back();
            }
    }
};

// the pairs of a length that reach a step, on these sides
std::vector<Pair> reaching(const Step &step, const Cube &cube, Kind kind, int length) {
    std::vector<Pair> found;
    const Cube back = inverse_of(cube);
    for (int normal = 0; normal <= length; normal++) {
        const int inverse = length - normal;
        if ((kind == NORMAL && inverse > 0) || (kind == INVERSE && normal > 0)) continue;
        const bool is_head_normal = normal <= inverse;
        Search search{step, distances(step), found, is_head_normal, {}, {}};
        search.heads(is_head_normal ? back : cube, size_t(std::min(normal, inverse)), size_t(std::max(normal, inverse)));
    }
    return found;
}

std::vector<Pair> first_pairs(const Step &step, const Cube &cube, Kind kind, int length) {
    std::vector<Pair> found;
    for (const Pair &pair : reaching(step, cube, kind, length))
        if (first_reaches(step, cube, pair)) found.push_back(pair);
    return found;
}

// the shortest pairs of a kind, if they have at most so many turns
std::vector<Pair> shortest(const Step &step, const Cube &cube, Kind kind, int most) {
    for (int length = 0; length <= most; length++) {
        const std::vector<Pair> found = reaching(step, cube, kind, length);
        if (!found.empty()) return found;
    }
    return {};
}

int least_length(const Step &step, const Cube &cube, Kind kind) {
    const std::vector<Pair> found = shortest(step, cube, kind, MOST);
    return found.empty() ? MOST + 1 : found[0].length();
}

// those that are let in by a slack
std::vector<Pair> solutions(const Step &step, const Cube &cube, int slack) {
    std::array<int, 3> most{};
    for (Kind kind : {NORMAL, INVERSE, BOTH}) most[kind] = std::min(MOST, least_length(step, cube, kind) + slack);
    std::vector<Pair> found;
    for (int length = 0; length <= MOST; length++)
        for (Kind kind : {NORMAL, INVERSE, BOTH}) {
            const bool is_all = length <= most[BOTH];
            if (is_all ? kind != BOTH : kind == BOTH || length > most[kind]) continue;
            for (const Pair &pair : first_pairs(step, cube, kind, length)) found.push_back(pair);
        }
    return found;
}

// where the last turns on an axis begin
size_t last_turns(const Turns &turns, int axis) {
    size_t at = turns.size();
    while (at > 0 && axis_of(turns[at - 1]) == axis) at--;
    return at;
}
bool stands(const Turns &turns, int axis) {
    return std::all_of(turns.begin() + long(last_turns(turns, axis)), turns.end(), [](int turn) { return turn % 3 == 0; });
}
bool stands(const Pair &pair, int axis) { return stands(pair.normal, axis) && stands(pair.inverse, axis); }

std::vector<Turns> twins(const Turns &turns, int axis) {
    std::vector<Turns> every = {turns};
    for (size_t at = last_turns(turns, axis); at < turns.size(); at++) {
        std::vector<Turns> next;
        for (const Turns &each : every)
            for (int power : {0, 2}) {
                Turns other = each;
                other[at] = 3 * face_of(other[at]) + power;
                next.push_back(other);
            }
        every = next;
    }
    return every;
}
std::vector<Pair> members(const Pair &pair, int axis) {
    std::vector<Pair> every;
    for (const Turns &normal : twins(pair.normal, axis))
        for (const Turns &inverse : twins(pair.inverse, axis)) every.push_back({normal, inverse});
    return every;
}

// an axis, and the quarter turns of its two faces
using Run = std::array<int, 3>;

// some turns, once those of one face with nothing but their opposite between them are one
std::vector<Run> clean_runs(const Turns &turns) {
    std::vector<Run> runs;
    for (int turn : turns) {
        if (runs.empty() || runs.back()[0] != axis_of(turn)) runs.push_back({axis_of(turn), 0, 0});
        auto &quarters = runs.back()[size_t(1 + face_of(turn) % 2)];
        quarters = (quarters + turn % 3 + 1) % 4;
        if (runs.back()[1] == 0 && runs.back()[2] == 0) runs.pop_back();
    }
    return runs;
}
int clean_count(const Turns &turns) {
    int count = 0;
    for (const Run &run : clean_runs(turns)) count += (run[1] != 0) + (run[2] != 0);
    return count;
}

struct Question {
    int slack;
    Turns cube, normal, inverse;
    size_t rows;
    int total;
};

Turns joined(const Turns &first, const Turns &second, const Turns &third) {
    Turns all = first;
    all.insert(all.end(), second.begin(), second.end());
    all.insert(all.end(), third.begin(), third.end());
    return all;
}

// more moves than a row has
constexpr int NO_TOTAL = 1000;

struct Row {
    int total, length, corners, edges, axis, reduction;
    Pair eo, dr;
    std::tuple<int, int, int, int> rank() const { return {total, length, corners + edges, axis}; }
};

// the axes of orientations in their order, F B before R L before U D, and those of the reductions after each
const std::array<int, 3> ORIENTATIONS = {2, 1, 0};
const std::array<std::array<int, 2>, 3> REDUCTIONS = {{{1, 2}, {0, 2}, {0, 1}}}; // after U D: R L, F B; after R L: U D, F B; after F B: U D, R L

int total_of(const Question &question, const Pair &eo, const Pair &dr) {
    return clean_count(joined(question.normal, eo.normal, dr.normal)) + clean_count(joined(question.inverse, eo.inverse, dr.inverse));
}

// a turn of the second merges with one of the first
bool merges(const Turns &first, const Turns &second) { return clean_count(joined(first, second, {})) != int(first.size() + second.size()); }

// At most so many moves a reduction saves on a side, since it merges with what is made there. It merges with nothing of the orientation; so if
// that merged with nothing either and turns about two axes, all stay. Else the reduction takes back whole runs at the end, if they are of its own
// turns, two moves for each turn; of the run before it takes back half turns, and joins quarter turns.
int saving(const Step &step, const Turns &so_far, const Turns &eo) {
    const bool is_apart = !merges(so_far, eo) && clean_runs(eo).size() > 1;
    if (so_far.empty() || is_apart) return 0;
    std::vector<Run> runs = clean_runs(joined(so_far, eo, {}));
    int most = 0;
    for (bool is_own = true; is_own && !runs.empty(); runs.pop_back())
        for (int quarters : {runs.back()[1], runs.back()[2]}) {
            const bool has = step.edges != runs.back()[0] || quarters == 2;
            most += quarters == 0 ? 0 : has ? 2 : 1;
            is_own = is_own && (has || quarters == 0);
        }
    return most;
}

// at least so many moves there are in all with a reduction of no turns
int least_made(const Question &question, const Step &step, const Pair &eo) {
    return total_of(question, eo, {}) - saving(step, question.normal, eo.normal) - saving(step, question.inverse, eo.inverse);
}

// the reductions of at most so many turns that may come after a member
std::vector<Pair> reductions_after(const Step &step, const Cube &cube, const Pair &eo, int most) {
    std::vector<Pair> found;
    for (Kind kind : {NORMAL, INVERSE, BOTH})
        for (const Pair &dr : shortest(step, cube, kind, most))
            if (!merges(eo.normal, dr.normal) && !merges(eo.inverse, dr.inverse)) found.push_back(dr);
    return found;
}

// A member of a class, the cube after it, and how many moves there are in all at least with a reduction of no turns.
struct Member {
    Pair eo;
    Cube cube;
    int least;
};

// A class of orientations with a reduction, of which the row isn't known yet, or none.
struct Candidate {
    Step step;
    std::vector<Member> members;
    Row row;
    bool is_open = true, has_row = false;

    // looks for the row, if it has at most so many moves in all; there is none if no reduction was found though all were tried
    void look(const Question &question, int most) {
        bool is_done = true;
        row.total = NO_TOTAL;
        for (const auto &[eo, cube, least] : members) {
            is_done = is_done && most - least >= MOST;
            for (const Pair &dr : reductions_after(step, cube, eo, std::min(MOST, most - least))) {
                const int total = total_of(question, eo, dr);
                if (total < row.total) row.total = total, row.eo = eo, row.dr = dr;
            }
        }
        has_row = row.total <= most;
        is_open = !has_row && (!is_done || row.total < NO_TOTAL);
    }
};

Candidate candidate(const Question &question, int edges, int axis, const Pair &pair) {
    const Step step = step_of(edges, axis);
    const Cube start = after_normal(step, solved(), question.cube), shown = after(step, start, pair);
    Candidate it{step, {}, {0, pair.length(), bad_corners(shown), misplaced_edges(shown), edges, axis, {}, {}}};
    for (const Pair &eo : members(pair, edges)) it.members.push_back({eo, after(step, start, eo), least_made(question, step, eo)});
    return it;
}

std::vector<Candidate> candidates(const Question &question) {
    std::vector<Candidate> every;
    for (int edges : ORIENTATIONS) {
        const Step orientation = step_of(edges, -1);
        for (const Pair &pair : solutions(orientation, after_normal(orientation, solved(), question.cube), question.slack)) {
            if (!stands(pair, edges)) continue;
            for (int axis : REDUCTIONS[size_t(edges)]) every.push_back(candidate(question, edges, axis, pair));
        }
    }
    return every;
}

// Those with the fewest moves in all, until so many are known: others have more.
std::vector<Row> oriented(const Question &question) {
    std::vector<Candidate> every = candidates(question);
    const auto is_open = [](const Candidate &it) { return it.is_open; };
    const auto has_row = [](const Candidate &it) { return it.has_row; };
    for (int total = 0; total <= question.total && std::any_of(every.begin(), every.end(), is_open); total++) {
        for (Candidate &candidate : every)
            if (candidate.is_open) candidate.look(question, total);
        if (size_t(std::count_if(every.begin(), every.end(), has_row)) >= question.rows) break;
    }
    std::vector<Row> rows;
    for (const Candidate &candidate : every)
        if (candidate.has_row) rows.push_back(candidate.row);
    return rows;
}

bool keeps(const Turns &turns, int edges) {
    return std::all_of(turns.begin(), turns.end(), [&](int turn) { return axis_of(turn) != edges || is_half(turn); });
}

std::vector<Row> reduced(const Question &question, const std::vector<int> &held) {
    std::vector<Row> rows;
    for (size_t at = 0; at < held.size(); at++)
        for (int axis : REDUCTIONS[size_t(held[at])]) {
            const Step step = step_of(held[at], axis);
            const Cube start = after_normal(step, solved(), question.cube);
            for (const Pair &pair : solutions(step, start, question.slack)) {
                if (!stands(pair, step.last_axis())) continue;
                const bool is_earlier = std::any_of(held.begin(), held.begin() + long(at),
                                                    [&](int edges) { return keeps(pair.normal, edges) && keeps(pair.inverse, edges); });
                if (is_earlier) continue;
                Row best{NO_TOTAL, pair.length(), bad_corners(start), misplaced_edges(start), held[at], axis, {}, {}};
                for (const Pair &dr : members(pair, step.last_axis())) {
                    const int total = total_of(question, {}, dr);
                    if (total < best.total) best.total = total, best.dr = dr;
                }
                rows.push_back(best);
            }
        }
    return rows;
}

std::vector<Row> rows_of(const Question &question) {
    std::vector<int> held;
    for (int edges : ORIENTATIONS) {
        const Step orientation = step_of(edges, -1);
        if (!is_oriented(after_normal(orientation, solved(), question.cube))) continue;
        held.push_back(edges);
        for (int axis : REDUCTIONS[size_t(edges)]) {
            const Step step = step_of(edges, axis);
            if (is_reached(step, after_normal(step, solved(), question.cube))) return {};
        }
    }
    std::vector<Row> rows = held.empty() ? oriented(question) : reduced(question, held);
    // axes are in the order F B, R L, U D: the listed one, which a stable sort keeps
    std::stable_sort(rows.begin(), rows.end(), [](const Row &one, const Row &other) {
        return std::make_tuple(one.total, one.length, one.corners + one.edges, 2 - one.axis) <
               std::make_tuple(other.total, other.length, other.corners + other.edges, 2 - other.axis);
    });
    return rows;
}

Turns read(const std::string &text) {
    Turns turns;
    std::istringstream words(text);
    for (std::string word; words >> word;) turns.push_back(3 * int(FACES.find(word[0])) + (word.size() == 1 ? 0 : word[1] == '2' ? 1 : 2));
    return turns;
}
std::string written(const Turns &turns) {
    std::string text;
    for (int turn : turns)
        text += std::string(text.empty() ? "" : " ") + FACES[size_t(face_of(turn))] + (turn % 3 == 1 ? "2" : turn % 3 == 2 ? "'" : "");
    return text;
}

} // namespace

int main() {
    const std::array<std::string, 3> names = {"ud", "rl", "fb"};
    for (std::string line; std::getline(std::cin, line);) {
        std::array<std::string, 6> parts;
        std::istringstream text(line);
        for (std::string &part : parts) std::getline(text, part, ';');
        const Question question{std::stoi(parts[0]), read(parts[1]), read(parts[2]), read(parts[3]), std::stoul(parts[4]), std::stoi(parts[5])};
        size_t number = 0;
        for (const Row &row : rows_of(question)) {
            if (number++ == question.rows || row.total > question.total) break;
            std::cout << row.total << ' ' << row.length << ' ' << row.corners << ' ' << row.edges << ' ' << names[size_t(row.axis)] << ' '
                      << names[size_t(row.reduction)] << " | " << written(row.eo.normal) << " | " << written(row.eo.inverse) << " | "
                      << written(row.dr.normal) << " | " << written(row.dr.inverse) << '\n';
        }
        std::cout << std::endl;
    }
}
