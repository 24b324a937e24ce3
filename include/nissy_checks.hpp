// nissy for C++17 and later: checks each attempt of a text as solvers write it, and says where in the text faults and forms stand. Only a header,
// over nissy_names.hpp and nissy_attempts.hpp, with the library.
#ifndef NISSY_CHECKS_HPP
#define NISSY_CHECKS_HPP

#include "nissy_attempts.hpp"
#include "nissy_names.hpp"

namespace nissy {

// A move or a bracket of a solution that the WCA's notation hasn't, in the text that the solution was read from.
struct form_in_text {
    std::string text; // as the line of the solution has it, in which other apostrophes are U+2019
    unsigned forms;   // its forms of nissy_form, added
    text_place place;
};

// What is said of an attempt that was checked.
struct attempt_check {
    nissy::attempt attempt;
    std::optional<verdict> check;       // none if it has no solution, or a fault
    std::optional<nissy::fault> fault;  // of its scramble, or else of its solution, as part() says
    std::optional<text_place> place;    // where the fault stands in the text
    std::vector<form_in_text> forms;    // where its solution has forms that the WCA's notation hasn't; none beside a fault
    std::optional<attempt_doubt> doubt; // that it is read as it was meant; none if it has a fault, and mostly if it is solved
};

// The answer to one of many pairs of a scramble and a solution: a verdict, or what is wrong with one of them.
class pair_answer : public answer<verdict> {
public:
    explicit pair_answer(const nissy_check_answer &said)
        : answer<verdict>(said, {said.solved != 0, said.moves, said.clean_moves, said.forms}), line_(said.status == NISSY_DONE ? 0 : said.line) {}

    int line() const noexcept { return line_; } // which one the fault is of: 1 the scramble, 2 the solution; 0 if none is
    std::string_view part() const noexcept { return line_ == 0 ? "" : line_ == 1 ? "scramble" : "solution"; }

private:
    int line_;
};

// Whether each of many solutions solves its scramble, of pairs of a scramble and a solution, such as two columns of a table.
template <typename Pairs> std::vector<pair_answer> check_all(const Pairs &pairs) {
    std::vector<pair_answer> answers;
    for (const auto &[first, second] : pairs) {
        const std::string_view scramble = first, solution = second;
        answers.emplace_back(nissy_check(detail::bytes(scramble), scramble.size(), detail::bytes(solution), solution.size()));
    }
    return answers;
}

namespace detail {

// Counts the places of faults and forms, those of doubts, and those of doubts that are read: none fall from one attempt to the next.
struct text_places {
    explicit text_places(std::string_view text) : found(text), doubted(text), read(text) {}

    place_counter found, doubted, read;
};

// Scrambles that are known, one after another, and where each ends.
struct known_scrambles {
    std::string bytes;
    std::vector<std::uint64_t> ends;
};

// What the library says of the attempts of a text, or of the solutions of known scrambles, of which it has a part each that has no lines.
struct told_checks {
    std::vector<nissy_text_line> lines;
    std::vector<nissy_known_part> parts;
    std::vector<nissy_attempt_check> checks;

    explicit told_checks(std::string_view text) : lines(lines_in(text)) {
        check(text, {});
        if (checks.empty()) checks.emplace_back();
    }

    told_checks(std::string_view text, const std::vector<std::string> &scrambles)
        : lines(line_ends(text) + 1), parts(scrambles.size() + lines.size()) {
        known_scrambles known;
        for (const std::string &scramble : scrambles) {
            parts[known.ends.size()].scramble = known.ends.size();
            known.ends.push_back((known.bytes += scramble).size());
        }
        std::vector<std::uint64_t> counts(scrambles.size());
        const nissy_known_answer told = nissy_known_lines(text_bytes(text), text.size(), lines.data(), lines.size(), parts.data() + scrambles.size(),
                                                          lines.size(), counts.data(), counts.size());
        lines.resize(told.lines);
        parts.resize(scrambles.size() + told.parts);
        check(text, known);
    }

    text_lines lines_of(const nissy_attempt_check &told) const { return {lines.data() + told.first_line, lines.data() + told.end_line}; }

private:
    void check(std::string_view text, const known_scrambles &known) {
        std::size_t most = 0;
        for (const nissy_text_line &line : lines) most += 6 * (line.comment - line.moves + 1);
        std::string out(most, '\0');
        std::vector<std::uint64_t> places(most);
        checks.resize(lines.size() + parts.size());
        const nissy_attempts_answer told = nissy_check_attempts(text_bytes(text), text.size(), lines.data(), lines.size(), parts.data(), parts.size(),
                                                                text_bytes(known.bytes), known.bytes.size(), known.ends.data(), known.ends.size(),
                                                                bytes(out), most, places.data(), most, checks.data(), checks.size());
        end_unless_made(told.status);
        checks.resize(told.attempts);
    }
};

// What is said of an attempt that was read.
inline attempt_check check_of(std::string_view text, attempt read, const nissy_attempt_check &told, text_places &places) {
    attempt_check made = {std::move(read), {}, {}, {}, {}, {}};
    try {
        const pair_answer said(told.check);
        end_unless_read(said.status(), said.code(), said.column(), {}, std::string(said.part()) + ", ");
        if (told.checked) made.check = said.value();
    } catch (const fault &thrown) {
        made.fault = thrown;
        // a scramble that is known has no place in the text
        if (told.fault_at != NISSY_NO_PLACE) made.place = places.found.at(told.fault_at);
    }
    if (told.doubted) made.doubt = attempt_doubt{static_cast<doubt_reason>(told.doubt), places.doubted.at(told.doubt_at)};
    if (!made.check) return made;
    const plain &solution = *made.attempt.solution;
    for (const form_place &it : form_places(solution.line))
        made.forms.push_back({it.text, it.forms, places.found.at(place_in(solution, it.column - 1, text))});
    return made;
}

// The solution of a known scramble, or what may be one.
inline attempt solution_of(std::string_view text, const text_lines &lines, const nissy_attempt_check &told, const std::vector<std::string> &scrambles,
                           place_counter &places) {
    attempt read = attempt_of(text, lines, places);
    read.name = words_of(text, told.name_begin, told.name_end);
    if (!lines.has(is_of_scramble) && told.scramble != NISSY_NO_SCRAMBLE) read.scramble = {scrambles[told.scramble], {}, {}};
    return read;
}

} // namespace detail

// Checks each attempt that read_attempts finds in a text. Of a scramble or solution that is too long, it throws what check does.
inline std::vector<attempt_check> check_attempts(std::string_view text) {
    std::vector<attempt_check> checks;
    detail::text_places places(text);
    const detail::told_checks all(text);
    for (const nissy_attempt_check &told : all.checks)
        checks.push_back(detail::check_of(text, detail::attempt_of(text, all.lines_of(told), places.read), told, places));
    return checks;
}

// Checks the solutions that a text has of known scrambles, each under a head with the number of its scramble in this list, such as "2." or "Attempt
// 2 of 3"; or as many without numbers, in its order. There is a check for each scramble in its order, without a solution if none is found; then one
// for each part of the text that may be of another scramble, in doubt.
inline std::vector<attempt_check> check_attempts(std::string_view text, const std::vector<std::string> &scrambles) {
    std::vector<attempt_check> checks;
    detail::text_places places(text);
    const detail::told_checks all(text, scrambles);
    for (const nissy_attempt_check &told : all.checks) {
        attempt_check made = detail::check_of(text, detail::solution_of(text, all.lines_of(told), told, scrambles, places.read), told, places);
        // a scramble is a part too, before those that the text has
        if (checks.size() < scrambles.size() || told.scramble == NISSY_NO_SCRAMBLE)
            checks.push_back(std::move(made));
        else
            checks[told.scramble] = std::move(made);
    }
    return checks;
}

} // namespace nissy

#endif
