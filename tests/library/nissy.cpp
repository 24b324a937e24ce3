/* The headers for C++: values out of strings, exceptions with their column, objects that are copied and shared by threads, the moves of a line,
   names, and solutions one after another; `best` by best.hpp, text as solvers write it by written.hpp. It is linked with --wrap for malloc, realloc
   and free, by which the library's memory is refused. */
#include "nissy_best.hpp"
#include "nissy_names.hpp"
#include "nissy_solutions.hpp"
#include "nissy_tokens.hpp"

#include "best.hpp"
#include "refused.h"
#include "searches.h"
#include "written.hpp"

#include <functional>
#include <limits>
#include <stdexcept>
#include <thread>

namespace {

using namespace std::string_view_literals;
// A call throws a fault that says this, also in a copy: its code and column, the line of two that has it, with its name, and the step that would
// have to hold.
void has_fault(const call &asked, int code, std::size_t column, const std::string &what, int line = 0, const char *start = "") {
    try {
        asked();
        holds(0, "it throws", what.c_str());
    } catch (const nissy::fault &thrown) {
        const nissy::fault copy = thrown;
        const std::string text(copy.text()), said = copy.what();
        holds(copy.code() == code && copy.column() == column && copy.line() == line && copy.start() == start, "its fault", what.c_str());
        const std::string part(copy.part());
        holds(part.empty() ? line == 0 : line != 0 && said.find("nissy: " + part + ", ") == 0, "the name of its line", what.c_str());
        holds((part == "scramble") == (line == 1), "that of a scramble", what.c_str());
        holds(said == what && text.size() < said.size() && said.substr(said.size() - text.size()) == text, "what it says", what.c_str());
    }
}

std::string text_of(const std::vector<nissy::solution> &solutions) {
    std::string text;
    for (const nissy::solution &one : solutions) text += one.moves + (one.moves.empty() ? "(" : " (") + std::to_string(one.length) + ")\n";
    return text;
}

void solves(const nissy::tables &tables, const search_row &row) {
    const auto found = tables.solve(row.line, {row.limit, row.slack});
    holds(text_of(found) == row.text, "its solutions", row.line);
    std::vector<nissy::solution> each;
    for (const nissy::solution &one : nissy::solutions(tables, row.line, row.limit, row.slack)) each.push_back(one);
    holds(each == found, "one after another they are the same", row.line);
    for (std::size_t at = 0; at < found.size(); at += 1 + found.size() / 3) {
        std::vector<nissy::solution> left;
        for (const nissy::solution &one : nissy::solutions(tables, row.line, row.limit, row.slack, found[at].moves)) left.push_back(one);
        holds(left == decltype(left)(found.begin() + static_cast<std::ptrdiff_t>(at) + 1, found.end()), "those after one of them", row.line);
    }
}

// What only these headers say of lines; what they read of drawn ones and of tests/calls.tsv is tried by tests/hosts.
void lines_are_read() {
    holds(nissy::invert(std::string_view()).empty() && nissy::facelets({}).size() == 54, "a view of nothing is an empty line", "");
    holds(nissy::invert(std::string_view("R U q", 3)) == "U' R'" && nissy::invert(std::string("R U")) == "U' R'", "views and strings", "R U");
    holds(nissy::tokens("R") != nissy::tokens("L") && nissy::tokens("r") == nissy::tokens("Rw"), "moves are compared", "R");
    static const char *const STARTS[][2] = {
#include "starts.inc"
    };
    for (const auto &[step, start] : STARTS) holds(nissy::start_of(step).value_or("") == start, "what has to hold before it", step);
    holds(!nissy::start_of("eo") && nissy::steps().size() == 13 && nissy::steps().back() == "dr-eoud", "the thirteen", "steps");
}

void faults_are_thrown() {
    const nissy::tables tables("dr-eofb");
    for (const fault_row &row : UNREAD) {
        const std::string text = [&row] {
            std::uint8_t out[NISSY_LINE_ROOM];
            return std::string(out, out + nissy_fault_text(static_cast<std::uint8_t>(row.fault), out, sizeof out).length);
        }();
        const std::string place = "column " + std::to_string(row.column) + ": " + text;
        for (const call &each :
             std::initializer_list<call>{[&] { nissy::invert(row.line); }, [&] { nissy::facelets(row.line); }, [&] { tables.solve(row.line); },
                                         [&] { tables.count(row.line); }, [&] { nissy::facts(row.line); }, [&] { nissy::tokens(row.line); },
                                         [&] { nissy::form_places(row.line); }, [&] { nissy::solutions(tables, row.line); }})
            has_fault(each, row.fault, row.column, "nissy: " + place);
        has_fault([&] { nissy::check(row.line, "("); }, row.fault, row.column, "nissy: scramble, " + place, 1);
        has_fault([&] { nissy::check("R", row.line); }, row.fault, row.column, "nissy: solution, " + place, 2);
        has_fault([&] { nissy::best(row.line, "("); }, row.fault, row.column, "nissy: scramble, " + place, 1);
        has_fault([&] { nissy::best("R", row.line); }, row.fault, row.column, "nissy: moves so far, " + place, 2);
    }
    has_fault([&] { tables.solve("F"); }, NISSY_START, 0, "nissy: eofb does not hold", 0, "eofb");
    has_fault([&] { nissy::solutions(tables, "F"); }, NISSY_START, 0, "nissy: eofb does not hold", 0, "eofb");
    has_fault([] { nissy::tables("drrl-eoud").count("U"); }, NISSY_START, 0, "nissy: eoud does not hold", 0, "eoud");
    has_fault([] { nissy::invert(std::string_view("R\0U", 3)); }, NISSY_NOT_A_MOVE, 2, "nissy: column 2: not a move");
    std::string many;
    for (int at = 0; at < 201; at++) many += at % 2 ? "U" : "R";
    has_fault([&] { nissy::best("", many); }, NISSY_TOO_LONG, 0, "nissy: moves so far, more than 256 moves", 2);
    try {
        nissy::invert("R\xe2\x80\x99 U\xe2\x80\x99 q");
    } catch (const nissy::fault &thrown) {
        holds(thrown.column() == 11 && thrown.character("R\xe2\x80\x99 U\xe2\x80\x99 q") == 7, "bytes and characters", "R’ U’ q");
    }
}

// A column in bytes as one in characters, of any text, and of the answers of many lines.
void columns_are_counted() {
    // signs of one byte, two, three and four, and a byte that is none of UTF-8
    static constexpr std::string_view TEXT = "R\xc3\xa9\xe2\x80\x99\xf0\x9f\x98\x80"
                                             "q\xff";
    static constexpr std::size_t PLACES[][2] = {{0, 0}, {1, 1}, {2, 2}, {4, 3}, {7, 4}, {11, 5}, {12, 6}, {13, 7}};
    for (const auto &[column, place] : PLACES)
        holds(nissy::detail::character(TEXT, column) == place, "its place in characters", std::to_string(column).c_str());
    holds(nissy::detail::character({}, 0) == 0 && nissy::detail::character({}, 1) == 1, "nor after the end of nothing", "");
    static constexpr std::string_view LINES = "R\nU2\xe2\x80\x99 q";
    const auto facts = nissy::facts_all(LINES);
    holds(facts[1].column() == 7 && facts[1].character(LINES.substr(2)) == 5 && facts[0].character(LINES) == 0, "one of many lines", "U2’ q");
}

void says_which_number(const call &asked, const std::string &what) {
    try {
        asked();
        holds(0, "it throws", what.c_str());
    } catch (const std::out_of_range &thrown) {
        holds(thrown.what() == what, "what it says", what.c_str());
    }
}

void misuse_is_thrown() {
    const nissy::tables tables("eofb");
    const std::string blanks(NISSY_MOST_INPUT + 1, ' ');
    for (const char *name : {"htr", "", "EOFB", "eofb "})
        throw_each<std::invalid_argument>(name, {[=] { nissy::tables{name}; }, [=] { nissy::start_of(name); }});
    throw_each<std::invalid_argument>("no name", {[] { nissy::tables{std::string_view()}; }});
    // of some only the last 32 bits are in the range
    for (const std::int64_t number : {std::int64_t{-1}, std::int64_t{21}, std::int64_t{256}, std::int64_t{1} << 32, (std::int64_t{1} << 32) + 1,
                                      std::numeric_limits<std::int64_t>::min(), std::numeric_limits<std::int64_t>::max()}) {
        throw_each<std::out_of_range>("a limit", {[&] { tables.solve("F", {number}); }, [&] { tables.count("F", {number}); },
                                                  [&] { tables.count_all("F", {number}); }, [&] { nissy::solutions(tables, "F", number); }});
        throw_each<std::out_of_range>("a slack", {[&] {
                                                      tables.solve("F", {20, number});
                                                  },
                                                  [&] {
                                                      tables.count("F", {20, number});
                                                  },
                                                  [&] { nissy::solutions(tables, "F", 20, number); }, [&] { nissy::best("R", "", number); }});
    }
    for (const char *moves : {"(F)", "x", "M", "Fw", "q"})
        throw_each<std::invalid_argument>("after", {[&] { nissy::solutions(tables, "F", 20, 0, moves); }});
    for (const std::uint64_t number : {std::uint64_t{10001}, std::uint64_t{0xffffffff}, std::uint64_t{1} << 32, (std::uint64_t{1} << 32) + 1})
        throw_each<std::out_of_range>("a length or a count", {[&] { nissy::scramble(1, 2, number); }, [&] { nissy::scrambles(1, 2, number, 1); },
                                                              [&] { nissy::scrambles(1, 2, 3, number); }});
    throw_each<std::out_of_range>("257 turns", {[] { nissy::scramble(1, 2, 257); }, [] { nissy::scrambles(1, 2, 257, 0); }});
    says_which_number([] { nissy::scrambles(1, 2, 3, 10001); }, "nissy: count isn't 0 to 10000");
    says_which_number([] { nissy::scrambles(1, 2, 257, 3); }, "nissy: length isn't 0 to 256");
    says_which_number([&] { tables.solve("F", {20, -1}); }, "nissy: slack isn't 0 to 20");
    throw_each<std::length_error>("16,777,217 blanks", {[&] { nissy::invert(blanks); }, [&] { tables.solve(blanks); }, [&] { tables.count(blanks); },
                                                        [&] { nissy::check("R", blanks); }, [&] { nissy::facts(blanks); },
                                                        [&] { nissy::best(blanks); }, [&] { nissy::facts_all(blanks)[0].value(); }});
    const auto beside = nissy::facts_all(blanks + "\nR");
    holds(beside.at(1).value().moves == 1 && beside[0].text() == "line longer than 16777216 bytes", "another line after them", "16,777,217 blanks");
}

// Each line of a text has a value, or throws what the call on it alone throws.
void many_lines_are_answered() {
    const nissy::tables tables("eofb"), reduction("dr-eofb");
    const auto counts = tables.count_all("F\nR q\n\nF B");
    holds(counts.size() == 4 && counts[0].value() == nissy::count{1, 2, 20} && counts[2].value().length == 0, "the counts", "four lines");
    const nissy::count none = tables.count("F B", {20, 0, 0});
    holds(none.length == 2 && none.more && none.solutions == 0, "a count of none has the length", "F B");
    holds(counts[3] && counts[3].value() == tables.count("F B") && counts[3].status() == NISSY_DONE, "the last one", "four lines");
    holds(!counts[1] && counts[1].status() == NISSY_FAULT && counts[1].code() == NISSY_NOT_A_MOVE && counts[1].column() == 3, "a fault", "R q");
    has_fault([&] { counts[1].value(); }, NISSY_NOT_A_MOVE, 3, "nissy: column 3: not a move");
    holds(counts[1].text() == "not a move" && counts[0].text().empty(), "its words", "R q");
    holds(reduction.count_all("F\n")[0].text() == "eofb does not hold", "its words", "F");
    has_fault([&] { reduction.count_all("F\n")[0].value(); }, NISSY_START, 0, "nissy: eofb does not hold", 0, "eofb");
    const auto cut = tables.count_all("F B\nF", {20, 0, NISSY_ALL, 74});
    holds(cut[0].text().empty(), "no words", "F B");
    holds(cut.size() == 2 && cut[0] && cut[0].status() == NISSY_CUT && cut[0].value().is_cut && !cut[1].value().is_cut, "75 positions", "F B");
    const auto facts = nissy::facts_all("R\n(\nR U R\n");
    holds(facts.size() == 3 && facts[0].value().ud().dr_case() == "4c4e" && facts[2].value().ud().dr_case() == "3c2e", "facts", "three lines");
    has_fault([&] { facts[1].value(); }, NISSY_UNCLOSED, 1, "nissy: column 1: bracket not closed");
    holds(facts[1].text() == "bracket not closed" && facts[0].text().empty(), "its words", "(");
    holds(tables.count_all("").empty() && nissy::facts_all({}).empty(), "no line", "no text");
    std::string many;
    for (int at = 0; at < 1000; at++) many += at % 3 ? "F\n" : "\n";
    for (const unsigned threads : {1u, 2u, 3u, 9u}) {
        const auto all = tables.count_all(many, {}, threads);
        long wrong = all.size() != 1000;
        for (std::size_t at = 0; at < all.size(); at++) wrong += all[at].value().solutions != (at % 3 ? 2 : 1);
        holds(wrong == 0, "a thousand lines, in their order", "count_all");
        const auto few = tables.count_all("F\nR q\n\nF B", {}, threads);
        holds(few.size() == 4 && few[0].value() == counts[0].value() && few[3].value() == counts[3].value(), "few lines by threads", "four lines");
        holds(!few[1] && few[1].column() == 3 && few[2].value().length == 0, "what is wrong by threads", "R q");
        const auto seen = nissy::facts_all("R\n(\nR U R\n", threads);
        holds(seen.size() == 3 && !seen[1] && seen[2].value().ud().dr_case() == "3c2e", "facts by threads", "three lines");
        holds(tables.count_all("", {}, threads).empty() && nissy::facts_all("\n", threads).size() == 1, "no line, and one", "by threads");
        throw_each<std::out_of_range>("a slack", {[&] { tables.count_all("F\nR", {20, 21}, threads); }});
    }
}

// A search with a bound on positions that it would pass, as the manual has its 75.
void searches_are_cut() {
    const nissy::tables tables("eofb");
    nissy::search bounded;
    bounded.nodes = 74;
    throw_each<nissy::cut>("F B", {[&] { tables.solve("F B", bounded); }});
    const nissy::found found = tables.find("F B", bounded);
    const auto whole = tables.solve("F B");
    holds(found.count.is_cut && found.count.more && found.count.nodes <= 74 && found.count.solutions == found.solutions.size(), "it is cut", "F B");
    holds(std::equal(found.solutions.begin(), found.solutions.end(), whole.begin()), "it has a beginning", "F B");
    holds(tables.count("F B", bounded) == found.count, "so is a count", "F B");
    bounded.nodes = 0;
    const nissy::count none = tables.count("F B", bounded);
    holds(none.is_cut && !none.length && none.solutions == 0 && none.nodes == 0, "no position", "F B");
    try {
        tables.solve("F B", bounded);
    } catch (const nissy::cut &cut) {
        holds(cut.nodes == 0 && std::string_view(cut.what()) == "nissy: cut after 0 positions", "what a cut says", "F B");
    }
    bounded.nodes = 75;
    holds(tables.solve("F B", bounded) == whole && tables.find("F B", bounded).count == tables.count("F B"), "as many as it needs", "F B");
    const nissy::found first = tables.find("F B", {20, 0, 1});
    holds(first.solutions.size() == 1 && first.count.more && first.count.length == 2 && !first.count.is_cut, "the first alone", "F B");
    // one bound is for all searches of a call
    nissy::best_search few;
    few.nodes = 500;
    throw_each<nissy::cut>("U R F L D", {[&] { nissy::best("U R F L D", "", few); }});
    const nissy::best_found some = nissy::find_best("U R F L D", "", few), all = nissy::find_best("U R F L D");
    holds(some.is_cut && some.nodes <= 500 && some.rows.size() < all.rows.size(), "what is found until a cut", "U R F L D");
    holds(!all.is_cut && all.rows.size() == nissy::best("U R F L D").size() && all.rows.front().total == 4, "all that is found", "U R F L D");
    // a cut of the caller's own ends the call
    few.progress = [&](std::size_t, std::size_t) { tables.solve("F B", {20, 0, NISSY_ALL, 0}); };
    throw_each<nissy::cut>("U R F", {[&] { nissy::find_best("U R F", "", few); }});
    throw_each<nissy::fault>("U R q", {[&] { nissy::find_best("U R q", "", few); }});
}

// The letters of an unturned cube with other centres.
std::string with_centres(std::string_view centres) {
    std::string letters = nissy::facelets("");
    for (std::size_t face = 0; face < centres.size(); face++) letters[9 * face + 4] = centres[face];
    return letters;
}

// Places that have no stickers, and what is no cube. Where the stickers of places are, also of cubes that are turned, tests/hosts tries.
void stickers_are_found() {
    const std::string solved = nissy::facelets("");
    // none, one less or more, another letter, a centre twice, a mirror's, and U beside D
    for (const std::string &wrong : {std::string(), solved.substr(1), solved + "B", "u" + solved.substr(1), with_centres("URFULB"),
                                     with_centres("ULFDRB"), with_centres("UDFRLB")})
        throw_each<std::invalid_argument>(wrong.c_str(), {[=] { nissy::stickers_of({}, wrong); }});
    holds(nissy::AXES[NISSY_FB] == "fb"sv && nissy::AXES[NISSY_RL] == "rl"sv && nissy::AXES[NISSY_UD] == "ud"sv, "the axes", "their names");
    holds(nissy::stickers_of({}).empty() && nissy::stickers_of({"UF", "URF"}).size() == 5, "several", "UF URF");
    for (const char *name : {"FU", "uf", "", "U", "RUF", "UF "}) throw_each<std::invalid_argument>(name, {[=] { nissy::stickers_of({name}); }});
    static_assert(nissy::NET[0] == nissy::net_place{0, 3} && nissy::NET[53] != nissy::net_place{0, 3}, "places are compared by a compiler too");
}

// Each allocation of the library refused in turn is an exception, with all memory given back, until none is refused.
void refuses_each(const call &asked, const char *of, long least) {
    long refusals = 0;
    for (bool is_done = false; !is_done; refusals += !is_done) {
        made = 0, refused_at = refusals + 1, onward = 1, held = 0;
        try {
            asked();
            is_done = true;
        } catch (const std::bad_alloc &thrown) {
            refused_at = 0;
            holds(thrown.what()[0] != 0 && held == 0, "it says what, and all memory is given back", of);
        }
    }
    refused_at = 0;
    holds(refusals >= least, "it takes memory so often", of);
}

void refused_memory_is_thrown() {
    // nissy.c lends a run all of its memory in one block
#ifdef NISSY_IN_C
    const long blocks = 1;
#else
    const long blocks = 2;
#endif
    refuses_each([] { nissy::tables("dr-eoud"); }, "the tables of dr-eoud", 2);
    holds(nissy::tables("dr-eoud").count("").length == 0, "the tables are built later", "dr-eoud");
    refuses_each([] { holds(nissy::scrambles(1, 2, 3, 4).size() == 4, "they are drawn later", "scrambles"); }, "the words of scrambles", blocks);
#ifdef NISSY_BYTEWISE
    // of what the caller tells nissy.c again it makes three copies of another order of bytes for a check, and one for moves
    refuses_each([] { holds(nissy::check_attempts("R U\n\nU' R'")[0].check->solved, "it is checked later", "R U"); }, "a check", 4);
    refuses_each([] { holds(nissy::check_attempts("U' R'", {"R U"})[0].check->solved, "it is checked later", "U' R'"); }, "a known one", 4);
    refuses_each([] { holds(nissy::read_attempts("R U")[0].scramble.line == "R U", "it is read later", "R U"); }, "a reading", 1);
#endif
}

// Many solutions come whole, in rooms that grow: all that are counted, each of its length.
void many_are_whole() {
    const nissy::tables tables("eofb");
    const auto found = tables.solve("F R U B", {20, 2});
    holds(found.size() > 4096 && found.size() == tables.count("F R U B", {20, 2}).solutions, "all are given", "eofb, slack 2");
    nissy::solutions endless(tables, "F R U B", 20, 9);
    auto next = endless.begin();
    for (const nissy::solution &one : found) {
        const auto turns = one.length ? std::count(one.moves.begin(), one.moves.end(), ' ') + 1 : 0;
        holds(turns == one.length && *next++ == one, "a solution has its length, and is the next of very many", one.moves.c_str());
    }
    const auto first = tables.solve("F R U B", {20, 2, 1000});
    holds(first.size() == 1000 && first.back().moves == found[999].moves, "the first thousand", "eofb, slack 2");
    const std::uint64_t greatest = std::numeric_limits<std::uint64_t>::max();
    const auto many = nissy::scrambles(greatest, greatest, 256, 10000);
    const auto has_all_turns = [](const std::string &line) { return std::count(line.begin(), line.end(), ' ') == 255; };
    holds(many.size() == 10000 && std::all_of(many.begin(), many.end(), has_all_turns), "as many as there may be", "scrambles");
    holds(many.front() == nissy::scramble(greatest, greatest, 256), "scramble gives the first", "scrambles");
    holds(nissy::scrambles(42, 54, 3, 2) == names{"L' D' F'", "L F' L'"} && nissy::scrambles(1, 2, 3, 0).empty(), "their turns", "scrambles");
}

void objects_are_values() {
    nissy::tables one("eofb"), other("eorl");
    const nissy::tables copy = one, again("eofb");
    holds(one.count("F") == nissy::count{1, 2, 20} && one.count("F") != nissy::count{1, 2, 21}, "counts are compared", "F");
    holds(one.solve("F B") == one.solve("B F") && nissy::solution{"R", 1} != nissy::solution{"R", 2}, "solutions are compared", "F B");
    one = other;
    holds(one.step() == "eorl" && copy.step() == "eofb", "an object takes another's step", "tables");
    holds(one.count("F").length == 0 && copy.count("F").length == 1 && again.count("F").length == 1, "each asks its own step", "tables");
    const nissy::tables moved = std::move(one);
    holds(moved.count("F").length == 0 && one.step() == "eorl" && one.count("F").length == 0, "it can be moved, and is as it was", "tables");
}

// Threads that build and ask the same steps side by side.
void threads_agree() {
    static constexpr int THREADS = 8;
    std::vector<std::thread> threads;
    int wrong[THREADS] = {};
    for (int &own : wrong)
        threads.emplace_back([&own] {
            for (int round = 0; round < 20; round++)
                for (const search_row &row : SEARCHES) own += text_of(nissy::tables(row.step).solve(row.line, {row.limit, row.slack})) != row.text;
        });
    for (std::thread &thread : threads) thread.join();
    for (const int own : wrong) holds(own == 0, "each answer of a thread is that of its call", "threads");
}

} // namespace

int main() {
    // first, so that each step is built while others ask for it
    threads_agree();
    for (const search_row &row : SEARCHES) solves(nissy::tables(row.step), row);
    for (const auto trial :
         {lines_are_read,          faults_are_thrown,    columns_are_counted,      text_is_read,      places_are_found,    forms_are_found,
          attempts_are_read,       attempts_are_checked, known_are_checked,        pairs_are_checked, forms_are_placed,    misuse_is_thrown,
          many_lines_are_answered, searches_are_cut,     progress_is_told,         best_is_stopped,   all_have_their_best, many_rows_have_room,
          sides_are_listed,        stickers_are_found,   refused_memory_is_thrown, many_are_whole,    objects_are_values,  refused_lines_are_thrown})
        trial();
    holds(nissy_version() == NISSY_VERSION_NUMBER, "the library's", "version");
    return ended();
}
