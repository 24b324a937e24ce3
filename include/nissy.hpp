// nissy for C++17 and later: the calls of nissy.h by strings and values. Only a header, over the same library.
//
// A line with a fault is a nissy::fault, a solve that is cut a nissy::cut; an unknown step is a std::invalid_argument, a number beyond its
// range a std::out_of_range, a line of more than NISSY_MOST_INPUT bytes a std::length_error, refused memory a std::bad_alloc. Any threads may
// call at once, also on one object. Nothing is read after the end of a line, of any bytes; in a text of many a line feed ends each.
#ifndef NISSY_HPP
#define NISSY_HPP

// Microsoft's compiler says its standard elsewhere
#if __cplusplus < 201703L && (!defined(_MSVC_LANG) || _MSVC_LANG < 201703L)
#error "nissy.hpp is for C++17 and later"
#endif

#include "nissy.h"

#include <algorithm>
#include <array>
#include <bitset>
#include <cstddef>
#include <cstdint>
#include <future>
#include <map>
#include <mutex>
#include <new>
#include <optional>
#include <stdexcept>
#include <string>
#include <string_view>
#include <utility>
#include <vector>

namespace nissy {

// What the calls of these headers share. Its names are no part of the interface.
namespace detail {

// A column in bytes of a text in UTF-8, from 1, as one in characters; 0, which is no place, is 0.
inline std::size_t character(std::string_view text, std::size_t column) noexcept {
    const auto begins = [](char byte) { return (static_cast<unsigned char>(byte) & 0xc0) != 0x80; };
    const std::string_view before = text.substr(0, column ? column - 1 : 0);
    return column ? static_cast<std::size_t>(std::count_if(before.begin(), before.end(), begins)) + 1 : 0;
}

} // namespace detail

// A line that can't be read, or on whose cube a step may not start. what() says both place and fault.
class fault : public std::runtime_error {
public:
    // by the program's words for it, such as "not a move"; `line` is said before the column
    fault(nissy_fault code, std::size_t column, const std::string &text, const std::string &line = "")
        : std::runtime_error(place_of(column, line) + text), code_(code), line_(line.empty() ? 0 : 1 + (line != "scramble, ")), column_(column),
          place_(place_of(column, line).size()), part_(line.empty() ? 0 : line.size() - 2) {}

    nissy_fault code() const noexcept { return code_; }
    int line() const noexcept { return line_; } // of a call on two lines which one has it: 1 the scramble, 2 the other; else 0
    std::string_view part() const noexcept { return std::string_view(what()).substr(7, part_); } // what that one is called, as "scramble"
    std::size_t column() const noexcept { return column_; } // the place of the fault in bytes, from 1; 0 of NISSY_START
    std::size_t character(std::string_view line) const noexcept { return detail::character(line, column_); } // the same in characters
    std::string_view text() const noexcept { return std::string_view(what()).substr(place_); } // what is wrong, without the place; a view into what()
    // the step that would have to hold, with which text() begins; empty but of NISSY_START
    std::string_view start() const noexcept { return code_ == NISSY_START ? text().substr(0, text().find(' ')) : std::string_view(); }

private:
    static std::string place_of(std::size_t at, const std::string &of) { return "nissy: " + of + (at ? "column " + std::to_string(at) + ": " : ""); }

    nissy_fault code_;
    int line_;
    std::size_t column_, place_, part_; // the last two of what(): a copy of an exception mustn't throw, as that of a string of its own may
};

// A search that would have looked at more positions than it may.
struct cut : std::runtime_error {
    explicit cut(std::uint64_t looked) : std::runtime_error("nissy: cut after " + std::to_string(looked) + " positions"), nodes(looked) {}
    std::uint64_t nodes; // the positions that it looked at
};

// One solution.
struct solution {
    std::string moves;
    int length;
    friend bool operator==(const solution &one, const solution &other) { return one.moves == other.moves && one.length == other.length; }
    friend bool operator!=(const solution &one, const solution &other) { return !(one == other); }
};

// How many solutions there are.
struct count {
    std::optional<int> length; // that of the shortest, if one is known
    std::uint64_t solutions;
    std::uint64_t nodes; // the positions that the search looked at
    bool more = false;   // there are others beyond `most`; if it was cut, there may be
    bool is_cut = false; // it would have looked at more positions than it may: what it says is a beginning
    friend bool operator==(const count &one, const count &other) {
        return one.length == other.length && one.solutions == other.solutions && one.nodes == other.nodes && one.more == other.more &&
               one.is_cut == other.is_cut;
    }
    friend bool operator!=(const count &one, const count &other) { return !(one == other); }
};

// The solutions of a search, and what is said of them.
struct found {
    std::vector<solution> solutions;
    nissy::count count;
};

// Which solutions a search is for: those of at most `limit` turns that are at most `slack` turns longer than the shortest, no more than
// `most` of them, and looking at no more than `nodes` positions. Numbers are wide, here and below: one out of its range is reported, and not cut.
struct search {
    std::int64_t limit = 20;
    std::int64_t slack = 0;
    std::uint64_t most = NISSY_ALL;
    std::uint64_t nodes = NISSY_ALL;
};

// What solvers choose by, on one axis of the cube; nissy.h says more of each. A place is a bit, by the order of nissy.h.
struct axis_facts {
    int bad_edges, bad_corners, misplaced_edges;
    std::bitset<12> bad_edge_places, misplaced_edge_places;
    std::bitset<8> bad_corner_places;
    std::string dr_case() const { return std::to_string(bad_corners) + "c" + std::to_string(misplaced_edges) + "e"; } // such as "4c4e"
};

// What is seen of the cube of a line without a search.
struct line_facts {
    bool solved;                    // however it is held
    int moves;                      // as written: turns of faces and of outer blocks one each, slice turns two, rotations none
    int clean_moves;                // as one sequence that is cleaned
    std::bitset<16> held;           // by the order of steps()
    std::array<axis_facts, 3> axes; // by nissy_axis

    const axis_facts &fb() const noexcept { return axes[NISSY_FB]; }
    const axis_facts &rl() const noexcept { return axes[NISSY_RL]; }
    const axis_facts &ud() const noexcept { return axes[NISSY_UD]; }
    std::vector<std::string> holds() const; // the names of the steps that the cube has reached
};

// What a solution does to a scramble.
struct verdict {
    bool solved;            // however the cube is held then
    int moves, clean_moves; // as line_facts counts them
    unsigned forms;         // the forms of nissy_form that it has, added: 0 if the WCA's notation for solutions has all of it
};

namespace detail {

inline const std::uint8_t *bytes(std::string_view text) { return reinterpret_cast<const std::uint8_t *>(text.data()); }
inline std::uint8_t *bytes(std::string &text) { return reinterpret_cast<std::uint8_t *>(text.data()); }

// The text of a call that writes one into a room of this size, and that nothing can be wrong with.
template <typename Call> std::string text_of(Call call) {
    std::string out(NISSY_LINE_ROOM, '\0');
    const nissy_line_answer answer = call(bytes(out), out.size());
    out.resize(answer.length);
    return out;
}

// The program's words for a fault, also if this step may not start.
inline std::string text_of(std::uint8_t code, std::string_view step) {
    const auto words = [code](std::uint8_t *out, std::size_t room) { return nissy_fault_text(code, out, room); };
    const auto start = [step](std::uint8_t *out, std::size_t room) { return nissy_start(bytes(step), step.size(), out, room); };
    return code == NISSY_START ? text_of(start) + " " + text_of(words) : text_of(words);
}

inline constexpr char TOO_LONG[] = "line longer than 16777216 bytes";
// Throws what is wrong with a line, of a search by this step, and of a call on several lines after this name.
inline void end_unless_read(int status, std::uint8_t code, std::size_t column, std::string_view step = {}, const std::string &line = "") {
    if (status == NISSY_STOPPED) throw std::length_error(std::string("nissy: ") + TOO_LONG);
    if (status == NISSY_FAULT) throw fault(static_cast<nissy_fault>(code), column, text_of(code, step), line);
}

inline std::string rewritten(decltype(nissy_invert) *call, std::string_view line) {
    std::string out(NISSY_LINE_ROOM, '\0');
    const nissy_line_answer answer = call(bytes(line), line.size(), bytes(out), out.size());
    end_unless_read(answer.status, answer.fault, answer.column);
    out.resize(answer.length);
    return out;
}

// A number of at most this one as the library takes it; one below 0 is above each.
inline std::uint32_t at_most(std::uint32_t most, std::uint64_t number, const char *name) {
    if (number > most) throw std::out_of_range(std::string("nissy: ") + name + " isn't 0 to " + std::to_string(most));
    return static_cast<std::uint32_t>(number);
}

// A number from 0 to 20 as the library takes it.
inline std::uint8_t turns(std::int64_t number, const char *name) {
    return static_cast<std::uint8_t>(at_most(20, static_cast<std::uint64_t>(number), name));
}

using kept_tables = std::map<std::string, nissy_tables, std::less<>>;

// A step with its tables, which are built when they are first asked for, and stay where they are.
inline const kept_tables::value_type &kept(std::string_view step) {
    static std::mutex mutex;
    static auto &built = *new kept_tables; // never destroyed, since threads may ask until the process ends
    const std::lock_guard<std::mutex> alone(mutex);
    if (const auto found = built.find(step); found != built.end()) return *found;
    // its place first: tables that were built are never given back
    const auto place = built.emplace(step, nissy_tables NISSY_NO_TABLES).first;
    const std::uint8_t status = nissy_build(&place->second, bytes(step), step.size());
    if (status == NISSY_DONE) return *place;
    built.erase(place);
    if (status == NISSY_STOPPED) throw std::bad_alloc();
    throw std::invalid_argument("nissy: no step has this name: " + std::string(step));
}

// The lines of a text in which a line feed ends each.
inline std::vector<std::string> lines_of(std::string_view text) {
    std::vector<std::string> lines;
    for (std::size_t end; (end = text.find('\n')) != std::string_view::npos; text.remove_prefix(end + 1)) lines.emplace_back(text.substr(0, end));
    return lines;
}

// The solutions of a text that has one a line, such as "R U' F2 (3)".
inline std::vector<solution> solutions_of(std::string_view text, std::uint64_t count) {
    std::vector<solution> found;
    found.reserve(count);
    while (!text.empty()) {
        const std::string_view line = text.substr(0, text.find('\n'));
        const std::size_t open = line.rfind('(');
        found.push_back({std::string(line.substr(0, open == 0 ? 0 : open - 1)), std::stoi(std::string(line.substr(open + 1)))});
        text.remove_prefix(line.size() + 1);
    }
    return found;
}

inline count counted(const nissy_search_answer &answer) {
    const bool is_cut = answer.status == NISSY_CUT, is_known = answer.solutions || (answer.more && !is_cut);
    return {is_known ? std::optional<int>(answer.least) : std::nullopt, answer.solutions, answer.nodes, answer.more != 0, is_cut};
}

inline axis_facts seen(const nissy_axis_facts &it) {
    return {it.bad_edges, it.bad_corners, it.misplaced_edges, it.bad_edge_places, it.misplaced_edge_places, it.bad_corner_places};
}

inline line_facts seen(const nissy_facts_answer &it) {
    return {it.solved != 0, it.moves, it.clean_moves, it.holds, {seen(it.axes[0]), seen(it.axes[1]), seen(it.axes[2])}};
}

// All lines of a text in pieces: `call` takes as many as it has room for, and `make` makes an answer of what is said of one. A thread has a part.
template <typename Said, typename Call, typename Make, typename Answers = std::vector<decltype(std::declval<Make>()(std::declval<Said>()))>>
Answers all_lines(std::string_view text, unsigned threads, Call call, Make make) {
    Answers answers;
    std::vector<Said> said(std::min<std::size_t>(text.size(), 256));
    const std::size_t end = threads > 1 ? std::min(text.find('\n', text.size() / threads), text.size() - 1) + 1 : text.size();
    std::future<Answers> others;
    if (end < text.size()) others = std::async(std::launch::async, [=] { return all_lines<Said>(text.substr(end), threads - 1, call, make); });
    for (std::string_view own = text.substr(0, end); !own.empty();) {
        const nissy_lines_answer taken = call(bytes(own), own.size(), said.data(), said.size());
        for (std::uint64_t at = 0; at < taken.lines; at++) answers.push_back(make(said[at]));
        own.remove_prefix(taken.bytes);
    }
    if (others.valid())
        for (auto &each : others.get()) answers.push_back(std::move(each));
    return answers;
}

} // namespace detail

// The answer to one of many lines: a value, or what is wrong with that line.
template <typename Value> class answer {
public:
    // what a call of nissy.h said of the line, by this step if it was a search
    template <typename Said>
    answer(const Said &said, const Value &value, std::string_view step = {})
        : status_(said.status), code_(said.fault), column_(said.column), value_(value), step_(step) {}

    explicit operator bool() const noexcept { return status_ == NISSY_DONE || status_ == NISSY_CUT; }
    // NISSY_FAULT, or NISSY_STOPPED of a line that is too long; NISSY_DONE, or NISSY_CUT, if there is a value
    nissy_status status() const noexcept { return static_cast<nissy_status>(status_); }
    nissy_fault code() const noexcept { return static_cast<nissy_fault>(code_); }
    std::size_t column() const noexcept { return column_; } // as that of fault
    std::size_t character(std::string_view line) const noexcept { return detail::character(line, column_); }
    // what is wrong with the line, without the place; empty if there is a value
    std::string text() const { return *this ? "" : status_ == NISSY_FAULT ? detail::text_of(code_, step_) : detail::TOO_LONG; }
    // throws what the call on only this line throws, if there is no value
    const Value &value() const {
        detail::end_unless_read(status_, code_, column_, step_);
        return value_;
    }

private:
    std::uint8_t status_, code_;
    std::uint32_t column_;
    Value value_;
    std::string_view step_; // of tables that stay
};

// The inverse of a line's moves.
inline std::string invert(std::string_view line) { return detail::rewritten(nissy_invert, line); }
// A line's moves as one sequence: those in brackets inverted at the end.
inline std::string unniss(std::string_view line) { return detail::rewritten(nissy_unniss, line); }
// A line's moves without wide turns, slices and neighbours that join.
inline std::string cleanup(std::string_view line) { return detail::rewritten(nissy_cleanup, line); }
// The 54 facelet letters of the cube after a line's moves.
inline std::string facelets(std::string_view line) { return detail::rewritten(nissy_facelets, line); }

// What is seen of the cube of a line without a search.
inline line_facts facts(std::string_view line) {
    const nissy_facts_answer answer = nissy_facts(detail::bytes(line), line.size());
    detail::end_unless_read(answer.status, answer.fault, answer.column);
    return detail::seen(answer);
}

// The same of each line of a text, by this many threads (with several, compile with -pthread).
inline std::vector<answer<line_facts>> facts_all(std::string_view text, unsigned threads = 1) {
    const auto make = [](const nissy_facts_answer &said) { return answer<line_facts>(said, detail::seen(said)); };
    return detail::all_lines<nissy_facts_answer>(text, threads, nissy_facts_lines, make);
}

// Whether a solution solves a scramble. A fault also says which line has it.
inline verdict check(std::string_view scramble, std::string_view solution) {
    const nissy_check_answer answer = nissy_check(detail::bytes(scramble), scramble.size(), detail::bytes(solution), solution.size());
    detail::end_unless_read(answer.status, answer.fault, answer.column, {}, answer.line == 1 ? "scramble, " : "solution, ");
    return {answer.solved != 0, answer.moves, answer.clean_moves, answer.forms};
}

// The first scramble of this length, at most 256 turns, of the generator that begins with this state and stream: what `scrambles` begins with.
inline std::string scramble(std::uint64_t state, std::uint64_t stream, std::uint64_t length) {
    const std::uint32_t turns = detail::at_most(256, length, "length");
    return detail::text_of([=](std::uint8_t *out, std::size_t room) { return nissy_scramble(state, stream, turns, out, room); });
}

// `count` scrambles of this length, at most 10,000, all of the generator that begins with this state and stream, as the program makes them.
inline std::vector<std::string> scrambles(std::uint64_t state, std::uint64_t stream, std::uint64_t length, std::uint64_t count) {
    constexpr std::size_t MOST_OF_TURN = 3; // bytes of a turn, with the blank or the line feed after it
    const std::size_t room = detail::at_most(10000, count, "count") * (detail::at_most(256, length, "length") * MOST_OF_TURN + 1);
    std::string words = "scramble";
    for (const std::uint64_t number : {state, stream, length, count}) words += '\0' + std::to_string(number);
    std::string out(room, '\0');
    const auto answer = nissy_run(detail::bytes(std::string_view(words)), words.size(), nullptr, 0, detail::bytes(out), out.size(), nullptr, 0);
    if (answer.status != NISSY_DONE) throw std::bad_alloc();
    return detail::lines_of(std::string_view(out).substr(0, answer.out_length));
}

// The names of the steps.
inline std::vector<std::string> steps() { return detail::lines_of(detail::text_of(nissy_steps)); }

inline std::vector<std::string> line_facts::holds() const {
    std::vector<std::string> names = steps(), those;
    for (std::size_t at = 0; at < names.size(); at++)
        if (held[at]) those.push_back(std::move(names[at]));
    return those;
}

// The tables of a step. They are built for the first object of the step, and stay: a copy or another object of the step has the same ones,
// and costs nothing. One that was moved is as it was.
class tables {
public:
    explicit tables(std::string_view step) : kept_(&detail::kept(step)) {}

    const std::string &step() const noexcept { return kept_->first; }

    // The solutions of a line's cube, by length and then in turn order. A search that would look at more than `nodes` positions throws a cut.
    std::vector<solution> solve(std::string_view line, const search &which = {}) const {
        found all = find(line, which);
        if (all.count.is_cut) throw cut(all.count.nodes);
        return std::move(all.solutions);
    }

    // The same with what is said of them; one that is cut has a beginning of the solutions.
    found find(std::string_view line, const search &which = {}) const {
        const std::uint8_t limit = detail::turns(which.limit, "limit"), slack = detail::turns(which.slack, "slack");
        // a search that a room stopped is made again with eight times as much
        for (std::uint64_t room = 64;; room *= 8) {
            std::string out(std::min(which.most, room) * MOST_OF_ONE, '\0');
            const nissy_search_answer answer =
                nissy_solve(&kept_->second, detail::bytes(line), line.size(), limit, slack, which.most, which.nodes, detail::bytes(out), out.size());
            if (answer.status == NISSY_ROOM) continue;
            detail::end_unless_read(answer.status, answer.fault, answer.column, step());
            return {detail::solutions_of(std::string_view(out).substr(0, answer.length), answer.solutions), detail::counted(answer)};
        }
    }

    // What find says of the solutions. A number above 2^64 - 1 is given as that. One that is cut says so, and throws nothing.
    nissy::count count(std::string_view line, const search &which = {}) const {
        const nissy_search_answer answer = nissy_count(&kept_->second, detail::bytes(line), line.size(), detail::turns(which.limit, "limit"),
                                                       detail::turns(which.slack, "slack"), which.most, which.nodes);
        detail::end_unless_read(answer.status, answer.fault, answer.column, step());
        return detail::counted(answer);
    }

    // The same of each line of a text, by this many threads (with several, compile with -pthread): `most` and `nodes` are for each anew.
    std::vector<answer<nissy::count>> count_all(std::string_view text, const search &which = {}, unsigned threads = 1) const {
        const std::uint8_t limit = detail::turns(which.limit, "limit"), slack = detail::turns(which.slack, "slack");
        const auto call = [&](const std::uint8_t *lines, std::size_t length, nissy_search_answer *answers, std::size_t room) {
            return nissy_count_lines(&kept_->second, lines, length, limit, slack, which.most, which.nodes, answers, room);
        };
        const auto make = [this](const nissy_search_answer &said) { return answer<nissy::count>(said, detail::counted(said), step()); };
        return detail::all_lines<nissy_search_answer>(text, threads, call, make);
    }

private:
    static constexpr std::uint64_t MOST_OF_ONE = 65; // bytes of a solution
    const detail::kept_tables::value_type *kept_;    // never null
};

} // namespace nissy

#endif
