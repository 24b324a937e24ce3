/* Text as solvers write it in C++: as a line, with the places of faults in it, and as attempts, which are checked. */
#ifndef WRITTEN_HPP
#define WRITTEN_HPP

#include "nissy.hpp"
#include "nissy_checks.hpp"

#include "trial.h"

namespace {

using names = std::vector<std::string>;

// A text as a line, whose fault is found in the text. What is left out, the rows of tests/calls.tsv say, which tests/hosts tries.
void text_is_read() {
    static constexpr std::string_view TEXT = "EO: R\xe2\x80\x99, U\xff q // to try";
    const auto [line, places, left_out] = nissy::plain_line(TEXT);
    holds(line == " R\xe2\x80\x99  U\xff q " && left_out == names{"labels", "comments", "commas"}, "its line", "EO: R’, U\\xff q");
    holds(places == std::vector<std::size_t>{3, 4, 5, 6, 7, 8, 9, 10, 11, 12, 13, 14}, "its places", "EO: R’, U\\xff q");
    try {
        nissy::invert(line);
        holds(0, "it has a fault", "EO: R’, U\\xff q");
    } catch (const nissy::fault &thrown) {
        holds(places[thrown.column() - 1] == 11, "where it stands in the text", "EO: R’, U\\xff q");
    }
    // what begins a sign and has too few bytes, or more than it needs, is no blank and no letter
    for (const char *text : {"\xc2", "\xe2\x80", "\xc0\xa0", "\xe0\x82\xa0", "\xf0\x80\x82\xa0", "\xed\xa0\x80", "\xf4\x90\x80\x80", "\x80"})
        holds(nissy::plain_line(std::string("R") + text + " R").line == std::string("R") + text + " R", "bytes that aren't UTF-8", text);
    holds(nissy::plain_line({}).line.empty() && nissy::plain_line(std::string_view("//", 1)).line == "/", "nothing after its end", "/");
}

// Where a fault stands in a text: by signs of one byte, two, three and four, by lines that end in each way, and beside what is left out.
void places_are_found() {
    static constexpr std::string_view TEXT = "EO: \xc3\xa9 R\xe2\x80\x99\r\n\xf0\x9f\x98\x80 U,\rq\nF\xe2\x80\x99";
    const nissy::plain plain = nissy::plain_line(TEXT);
    struct row {
        std::size_t column; // in the line
        nissy::text_place place;
    };
    static constexpr row ROWS[] = {{1, {3, 1, 4}},   {2, {4, 1, 5}},   {5, {7, 1, 7}},   {6, {8, 1, 8}},   {10, {13, 2, 1}}, {15, {18, 2, 3}},
                                   {18, {21, 3, 1}}, {20, {23, 4, 1}}, {21, {24, 4, 2}}, {24, {27, 4, 3}}, {99, {27, 4, 3}}};
    for (const auto &[column, place] : ROWS) {
        const nissy::fault fault(NISSY_NOT_A_MOVE, column, "");
        holds(nissy::place_of(fault, plain, TEXT) == place, "its place in the text", fault.what());
    }
    const nissy::fault first(NISSY_NOT_A_MOVE, 1, "");
    holds(nissy::place_of(first, nissy::plain_line({}), {}) == nissy::text_place{0, 1, 1}, "the beginning", "no text");
    const nissy::tables tables("dr-eofb");
    const auto counts = tables.count_all(plain.line + "\nF");
    holds(nissy::place_of(counts[0], plain, TEXT) == nissy::text_place{4, 1, 5}, "that of one of many lines", "EO: é");
    holds(!nissy::place_of(counts[1], plain, TEXT), "eofb does not hold, which has no place", "F");
}

// Where forms stand in a text. Each byte of an apostrophe that was another one has the place of that: of one byte, two and three.
void forms_are_found() {
    static constexpr std::string_view TEXT = "EO: R\nU` F\xca\xbc D\xe2\x80\x98";
    const nissy::plain plain = nissy::plain_line(TEXT);
    holds(plain.line == " R U\xe2\x80\x99 F\xe2\x80\x99 D\xe2\x80\x99", "one form of all", "R U` Fʼ D‘");
    holds(plain.places == std::vector<std::size_t>{3, 4, 5, 6, 7, 7, 7, 8, 9, 10, 10, 10, 12, 13, 14, 14, 14}, "their places", "R U` Fʼ D‘");
    const std::vector<nissy::form_place> forms = nissy::form_places(plain.line);
    holds(forms.size() == 3 && nissy::place_of(forms[0], plain, TEXT) == nissy::text_place{6, 2, 1}, "the first form", "U`");
    holds(nissy::place_of(forms.at(2), plain, TEXT) == nissy::text_place{13, 2, 7}, "the last form", "D‘");
    holds(nissy::place_of(nissy::fault(NISSY_NOT_A_MOVE, 18, ""), plain, TEXT) == nissy::text_place{17, 2, 9}, "after the last form", "D‘");
}

// The attempts of a text, with places in bytes of the whole text. How they are read, the rows of tests/calls.tsv say.
void attempts_are_read() {
    static constexpr std::string_view TEXT = "Hello\n1. R\xe2\x80\x99 U\nF // EO\n\n// short\nB q\nL\n\n2) D\n";
    const std::vector<nissy::attempt> attempts = nissy::read_attempts(TEXT);
    const auto &[name, scramble, steps, solution, candidates, before, doubt, is_labelled] = attempts.at(0);
    const auto is = [](const nissy::plain &part, const char *line, const std::vector<std::size_t> &places, const names &left_out) {
        holds(part.line == line && part.places == places && part.left_out == left_out, "a part of an attempt", line);
    };
    is(scramble, "R\xe2\x80\x99 U", {9, 10, 11, 12, 13, 14}, {});
    is(steps.at(0), "F ", {16, 17}, {"comments"});
    is(solution.value(), "F ", {16, 17}, {"comments"});
    is(candidates.at(0).steps.at(0), "B q", {34, 35, 36}, {});
    is(candidates[0].solution, "B q L", {34, 35, 36, 37, 38}, {});
    holds(name == "1." && before == 1 && steps.size() == 1 && candidates.size() == 1 && candidates[0].note == "short", "the first one", "1.");
    is(attempts.at(1).scramble, "D", {44}, {});
    holds(attempts.size() == 2 && attempts[1].name == "2)" && attempts[1].steps.empty() && attempts[1].before == 0, "the other one", "2)");
    holds(!attempts[1].solution && !doubt && !attempts[1].doubt, "it has no solution, and nothing is in doubt", "2)");
    holds(!is_labelled && nissy::read_attempts("R U\n\nSolution: U' R'").at(0).is_labelled, "a label calls a solution so, or none does", "Solution:");
    try {
        nissy::check(scramble.line, candidates[0].steps[0].line);
        holds(0, "it has a fault", "B q");
    } catch (const nissy::fault &thrown) {
        holds(thrown.line() == 2 && nissy::place_of(thrown, candidates[0].steps[0], TEXT) == nissy::text_place{36, 6, 3}, "its place", "B q");
    }
    const std::vector<nissy::attempt> broken = nissy::read_attempts("R \xff\n\nU");
    is(broken.at(0).scramble, "R \xff", {0, 1, 2}, {});
    is(broken.at(0).steps.at(0), "U", {5}, {});
    holds(nissy::read_attempts({}).size() == 1 && nissy::read_attempts({})[0].scramble.line.empty(), "one that is empty", "no text");
}

// An attempt has this verdict, and neither a fault nor a form.
void is_checked(const nissy::attempt_check &it, bool solved, int moves, const char *of) {
    holds(it.check && it.check->solved == solved && it.check->moves == moves && it.check->clean_moves == moves, "its verdict", of);
    holds(it.check && it.check->forms == 0 && it.forms.empty(), "it has no forms", of);
    holds(!it.fault && !it.place, "it has no fault", of);
}

// An attempt has this fault: in that part, in this column of it, and here in the text.
void is_at_fault(const nissy::attempt_check &it, std::string_view part, std::size_t column, const nissy::text_place &place, const char *of) {
    holds(it.fault && it.fault->code() == NISSY_NOT_A_MOVE && it.fault->text() == "not a move", "what is wrong", of);
    holds(it.fault && it.fault->part() == part && it.fault->column() == column, "which part has it", of);
    holds(it.place == place, "where it stands in the text", of);
    holds(!it.check && it.forms.empty(), "nothing else is said of it", of);
}

// What is said of attempts, alone and after others with signs of several bytes.
void attempts_are_checked() {
    is_checked(nissy::check_attempts("R U F\n\nF' U' R'").at(0), true, 3, "solved");
    is_checked(nissy::check_attempts("R U F\n\nF' U' R").at(0), false, 3, "not solved");
    const std::vector<nissy::attempt_check> all =
        nissy::check_attempts("\xf0\x9f\x98\x80 caf\xc3\xa9\n1. R\n\nR'\n2) U\nEO\xc3\xa9: U\xe2\x80\x99 q\n3) D q\n4) q\n\nq\n5) L\n");
    is_checked(all.at(0), true, 1, "the first of many");
    is_at_fault(all.at(1), "solution", 6, {36, 6, 9}, "EOé: U’ q");
    is_at_fault(all.at(2), "scramble", 3, {43, 7, 6}, "3) D q");
    is_at_fault(all.at(3), "scramble", 1, {48, 8, 4}, "4) q, which q is to solve");
    holds(all.size() == 5 && all[4].attempt.name == "5)" && all[4].attempt.scramble.line == "L", "the last one", "5) L");
    holds(!all[4].check && !all[4].fault && !all[4].place && all[4].forms.empty(), "nothing is said without a solution", "5) L");
    is_at_fault(nissy::check_attempts("R \xff U\n\nU").at(0), "scramble", 3, {2, 1, 3}, "a byte that isn't UTF-8");
    is_at_fault(nissy::check_attempts("1. R // \xff\n\nR2 \xff U").at(0), "solution", 4, {14, 3, 4}, "one after such a byte");
    const std::vector<nissy::attempt_check> empty = nissy::check_attempts({});
    holds(empty.size() == 1 && !empty[0].check && !empty[0].fault && empty[0].forms.empty(), "one that is empty", "no text");
    // valgrind takes half a minute to read so many bytes out of a text, so what is said of them is made here
    nissy_attempt_check of_blanks = {};
    of_blanks.check.status = NISSY_STOPPED;
    of_blanks.check.line = 1;
    nissy::detail::text_places places({});
    try {
        nissy::detail::check_of({}, {}, of_blanks, places);
        holds(0, "it throws", "16,777,217 blanks");
    } catch (const std::length_error &thrown) {
        holds(thrown.what()[0] != 0, "it says what", "16,777,217 blanks");
    }
}

// Whether a call that was refused memory throws, and doesn't return a line without moves.
void refused_lines_are_thrown() {
    try {
        nissy::detail::written_by(3, [](std::uint8_t *, std::uint64_t *) { return nissy_plain_answer{NISSY_STOPPED, 0, 0}; });
        holds(0, "it throws", "refused memory");
    } catch (const std::bad_alloc &thrown) {
        holds(thrown.what()[0] != 0, "it says what", "refused memory");
    }
}

// What the rows of tests/calls.tsv say of known scrambles, the hosts try; this is what they can't tell.
void known_are_checked() {
    static constexpr char TEXT[] = "Attempt 2 of 3: U\xe2\x80\x99\nAttempt 1 of 3: R\xe2\x80\x99 q";
    const std::vector<nissy::attempt_check> all = nissy::check_attempts(TEXT, {"R", "U", "F"});
    is_at_fault(all.at(0), "solution", 6, {42, 2, 20}, TEXT);
    holds(all.at(1).check && all[1].check->solved && all[1].attempt.name == "Attempt 2 of 3:", "what is solved", TEXT);
    holds(all[1].attempt.scramble.line == "U" && all[1].attempt.scramble.places.empty(), "the scramble that it is of", TEXT);
    holds(all.size() == 3 && !all[2].check && !all[2].fault && !all[2].doubt && !all[2].attempt.solution, "one without a solution", TEXT);
    try {
        nissy::check_attempts("", {std::string(NISSY_MOST_INPUT + 1, ' ')});
        holds(0, "it throws", "16,777,217 blanks");
    } catch (const std::length_error &thrown) {
        holds(thrown.what()[0] != 0, "it says what", "16,777,217 blanks");
    }
}

// Many pairs, each with its verdict or its fault.
void pairs_are_checked() {
    const std::vector<std::pair<std::string_view, const char *>> pairs = {{"R", "R'"}, {"R", "U"}, {"R q", "R"}, {"R", "R q"}};
    const std::vector<nissy::pair_answer> answers = nissy::check_all(pairs);
    holds(answers.at(0) && answers[0].value().solved && answers[0].line() == 0 && answers[0].part().empty(), "a verdict", "R, R'");
    holds(answers.at(1) && !answers[1].value().solved && answers[1].value().moves == 1, "another one", "R, U");
    holds(!answers.at(2) && answers[2].column() == 3 && answers[2].part() == "scramble" && answers[2].line() == 1, "a fault", "R q, R");
    holds(!answers.at(3) && answers[3].text() == "not a move" && answers[3].part() == "solution", "another fault", "R, R q");
    try {
        (void)answers[3].value();
        holds(0, "it throws", "R, R q");
    } catch (const nissy::fault &thrown) {
        holds(thrown.code() == NISSY_NOT_A_MOVE && thrown.column() == 3, "it says what", "R, R q");
    }
    holds(answers.size() == 4 && nissy::check_all(std::map<std::string, std::string>{}).empty(), "none of none", "no pair");
}

// Where the forms of a solution stand in its text: beside a byte that isn't UTF-8, of apostrophes that the line has otherwise, and two in one move.
void forms_are_placed() {
    static constexpr char TEXT[] = "1. R // \xff\n\nR\xe2\x80\xb2 M (f U2\xe2\x80\xb2)";
    const nissy::attempt_check it = nissy::check_attempts(TEXT).at(0);
    // those in brackets are inverted at the end: R' M U2 f' is L' x' U2 f'
    holds(it.check && !it.check->solved && it.check->moves == 5 && it.check->clean_moves == 3 && it.check->forms == 31, "its verdict", TEXT);
    const nissy::form_in_text wanted[] = {{"R\xe2\x80\x99", NISSY_APOSTROPHE, {11, 3, 1}},
                                          {"M", NISSY_SLICES, {16, 3, 4}},
                                          {"(", NISSY_BRACKETS, {18, 3, 6}},
                                          {"f", NISSY_LOWER_CASE, {19, 3, 7}},
                                          {"U2\xe2\x80\x99", NISSY_APOSTROPHE + NISSY_HALF_PRIME, {21, 3, 9}},
                                          {")", NISSY_BRACKETS, {26, 3, 12}}};
    const auto is = [](const nissy::form_in_text &one, const nissy::form_in_text &other) {
        return one.text == other.text && one.forms == other.forms && one.place == other.place;
    };
    holds(std::equal(it.forms.begin(), it.forms.end(), std::begin(wanted), std::end(wanted), is), "its forms", TEXT);
}

} // namespace

#endif
