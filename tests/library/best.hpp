/* `best` in C++: its progress, what stops it, many scrambles, and many rows; and solutions over both sides. Which rows it has tests/hosts tries. */
#ifndef BEST_HPP
#define BEST_HPP

#include "nissy_best.hpp"

#include "trial.h"

#include <functional>
#include <stdexcept>

namespace {

using call = std::function<void()>;

// Each of these calls throws this exception, which says something.
template <typename Thrown> void throw_each(const char *of, std::initializer_list<call> calls) {
    for (const call &each : calls) {
        try {
            each();
            holds(0, "it throws", of);
        } catch (const Thrown &thrown) {
            holds(thrown.what()[0] != 0, "it says what", of);
        } catch (...) {
            holds(0, "it throws another exception", of);
        }
    }
}

// The progress goes from none to all, and what it throws ends the call.
void progress_is_told() {
    std::vector<std::pair<std::size_t, std::size_t>> told;
    nissy::best_search which;
    which.progress = [&](std::size_t done, std::size_t all) { told.push_back({done, all}); };
    nissy::best("U R F L D", "", which);
    holds(told.size() > 7 && told.front() == std::make_pair(std::size_t{0}, std::size_t{0}), "it begins with none", "U R F L D");
    holds(std::is_sorted(told.begin(), told.end()), "it never goes back", "U R F L D");
    holds(told.back().first > 0 && told.back().first == told.back().second, "it ends with all", "U R F L D");
    which.progress = [](std::size_t done, std::size_t) {
        if (done > 0) throw std::domain_error("enough");
    };
    for (const char *line : {"U R F L D", "R U"}) throw_each<std::domain_error>(line, {[&] { nissy::best(line, "", which); }});
}

// Of many scrambles each has its rows, and what is wrong with one stands in its place; by threads too.
void all_have_their_best() {
    nissy::best_search which;
    which.most = 3;
    for (const unsigned threads : {1u, 3u}) {
        const auto all = nissy::best_all("U R F\nR q\n\nU R F L D\nR U F", which, threads);
        holds(all.size() == 5, "each has an answer", "best_all");
        for (const auto &[at, line] : {std::make_pair(0, "U R F"), {2, ""}, {3, "U R F L D"}, {4, "R U F"}}) {
            const std::vector<nissy::continuation> own = nissy::best(line, "", which), &told = all[static_cast<std::size_t>(at)].value().rows;
            const auto is_same = [](const nissy::continuation &one, const nissy::continuation &other) { return one.line == other.line; };
            holds(std::equal(own.begin(), own.end(), told.begin(), told.end(), is_same), "its rows", line);
        }
        holds(!all[1] && all[1].code() == NISSY_NOT_A_MOVE && all[1].column() == 3, "what is wrong", "R q");
    }
    holds(nissy::best_all("").empty() && nissy::best_all("R U F\n").size() == 1, "none, and one with a line feed", "best_all");
    which.slack = 21;
    throw_each<std::out_of_range>("21", {[&] { nissy::best_all("R\nU", which, 3); }});
}

// More rows than a room holds at first come all.
void many_rows_have_room() {
    const std::vector<nissy::continuation> all = nissy::best("R U F", "", 2, NISSY_ALL), same = nissy::best("R U F", "", 2, all.size());
    const auto is_same = [](const nissy::continuation &one, const nissy::continuation &other) { return one.line == other.line; };
    holds(all.size() > 256 && std::equal(all.begin(), all.end(), same.begin(), same.end(), is_same), "more than 256 rows", "R U F");
}

// A search that is stopped ends as one that is cut. What it found until then, tests/hosts tries.
void best_is_stopped() {
    const auto whole = nissy::best("U R F");
    long asked = 0, left = 0;
    nissy::best_search which;
    which.stop = [&] { return ++asked < 0; };
    holds(nissy::best("U R F", "", which).size() == whole.size() && asked > 1, "it is asked, and goes on", "U R F");
    left = asked / 2;
    which.stop = [&] { return left-- == 0; };
    const nissy::best_found some = nissy::find_best("U R F", "", which);
    holds(some.is_cut && !some.rows.empty() && some.rows.size() < whole.size(), "the rows after half of the searches", "U R F");
    which.stop = [] { return true; };
    throw_each<nissy::cut>("U R F", {[&] { nissy::best("U R F", "", which); }});
    holds(nissy::find_best("U R F", "", which).rows.empty(), "none before a search", "U R F");
    which.stop = []() -> bool { throw std::domain_error("enough"); };
    throw_each<std::domain_error>("U R F", {[&] { nissy::find_best("U R F", "", which); }, [&] { nissy::best("U R F", "", which); }});
    // a cut of the caller's own ends the call
    which.stop = [] { return nissy::tables("eofb").solve("F B", {20, 0, NISSY_ALL, 0}).empty(); };
    throw_each<nissy::cut>("U R F", {[&] { nissy::find_best("U R F", "", which); }});
}

// Solutions over both sides reach the step, and come by their lengths; those on the inverse are those of its line.
void sides_are_listed() {
    const nissy::tables tables("eofb");
    const char *line = "F U R F";
    std::vector<nissy::solution> inverse = tables.solve(nissy::invert(line));
    for (nissy::solution &each : inverse) each.moves = "(" + each.moves + ")";
    holds(nissy::solve(tables, line, NISSY_INVERSE) == inverse, "on the inverse", line);
    holds(nissy::solve(tables, line, NISSY_NORMAL) == tables.solve(line), "on the line", line);
    const nissy::found all = nissy::find(tables, line, NISSY_BOTH, {20, 1});
    const auto is_shorter = [](const nissy::solution &one, const nissy::solution &other) { return one.length < other.length; };
    holds(std::is_sorted(all.solutions.begin(), all.solutions.end(), is_shorter), "by length", line);
    holds(all.count.length == all.solutions[0].length && all.count.solutions == all.solutions.size() && !all.count.more, "what is said of them",
          line);
    bool reach = true, over_both = false;
    for (const auto &[moves, length] : all.solutions) {
        reach = reach && nissy::facts(nissy::line_after(line, moves)).held[0] && length == 1 + std::count(moves.begin(), moves.end(), ' ');
        over_both = over_both || (moves[0] != '(' && moves.back() == ')');
    }
    holds(reach && over_both, "they reach the step, some over both", line);
    for (const std::uint64_t most : {0u, 1u, 2u}) {
        const nissy::found some = nissy::find(tables, line, NISSY_BOTH, {20, 1, most});
        const auto end = all.solutions.begin() + static_cast<std::ptrdiff_t>(most);
        holds(some.count.more && std::equal(some.solutions.begin(), some.solutions.end(), all.solutions.begin(), end), "the first ones", line);
    }
    holds(nissy::find(tables, line, NISSY_BOTH, {20, 0, NISSY_ALL, 3}).count.is_cut, "it is cut", line);
    throw_each<nissy::cut>(line, {[&] { nissy::solve(tables, line, NISSY_BOTH, {20, 0, NISSY_ALL, 3}); }});
    throw_each<nissy::fault>("R q",
                             {[&] { nissy::solve(tables, "R q", NISSY_BOTH); }, [] { nissy::solve(nissy::tables("drfb-eorl"), "R", NISSY_BOTH); }});
    const auto none = static_cast<nissy_sides>(0);
    throw_each<std::out_of_range>("no side", {[&] { nissy::solve(tables, line, none); }, [&] { nissy::find(tables, line, none, {20, 0, 0}); }});
    const nissy::tables turned("eoud");
    for (const nissy_sides sides : {NISSY_NORMAL, NISSY_INVERSE, NISSY_BOTH})
        holds(nissy::solve(turned, "x F", sides) == nissy::solve(turned, "D", sides), "by the centres", "x F");
}

} // namespace

#endif
