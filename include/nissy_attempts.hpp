// nissy for C++17 and later: reads what solvers write down of their attempts, by the library: scrambles, each with the steps of a solution and
// candidates beside it. Nothing of it is called at fault here: what is no line of moves is at fault where it is used. Only a header, over
// nissy_written.hpp.
#ifndef NISSY_ATTEMPTS_HPP
#define NISSY_ATTEMPTS_HPP

#include "nissy_written.hpp"

namespace nissy {

// A way that was tried.
struct attempt_candidate {
    std::vector<plain> steps; // its lines
    plain solution;           // the steps in one
    std::string note;         // what is said of it on lines of their own, else the label of a solution
};

// What makes one doubt that an attempt is read as it was meant; nissy_text.h says more of those that it has too.
enum class doubt_reason {
    another_scramble = NISSY_ANOTHER_SCRAMBLE,
    several_solutions = NISSY_SEVERAL_SOLUTIONS,
    side = NISSY_SIDE,
    letters = NISSY_LETTERS,
    small_letters = NISSY_SMALL_LETTERS,
    comment = NISSY_COMMENT,
    repetition = NISSY_REPETITION,
    insertion = NISSY_INSERTION,
    a_part = NISSY_A_PART,                 // of a check: only some of its steps solve the scramble, or its solution with other brackets
    which_scramble = NISSY_WHICH_SCRAMBLE, // of a check: it isn't seen which of the known scrambles this is of, or it solves another
    step_or_scramble = NISSY_STEP_OR_SCRAMBLE,
    signs = NISSY_SIGNS,
    another_attempt = NISSY_ANOTHER_ATTEMPT // of a check: it is solved, and another attempt may begin there
};

// A doubt, and where it is seen in the text.
struct attempt_doubt {
    doubt_reason reason;
    text_place place;

    // the reason as the library for Python names it, such as "another scramble"
    std::string name() const {
        static constexpr std::array<const char *, 14> NAMES = {
            "",       "another scramble", "several solutions", "side",  "letters",        "small letters", "comment", "repetition", "insertion",
            "a part", "which scramble",   "step or scramble",  "signs", "another attempt"};
        return NAMES[static_cast<std::size_t>(reason)];
    }
};

// An attempt at a scramble, each part with its places in the whole text.
struct attempt {
    std::string name; // what tells the scramble from others, such as "2.", or empty
    plain scramble;
    std::vector<plain> steps;                  // the lines of the solution, each of which a comment or a label may describe
    std::optional<plain> solution;             // the block whose label says that it is the solution, else the steps in one; none if it can't be seen
    std::vector<attempt_candidate> candidates; // the blocks after a blank line
    std::size_t before = 0;                    // how many lines of prose stand before the scramble
    std::optional<attempt_doubt> doubt;        // of the reading, if nothing solves, or it is step_or_scramble
    bool is_labelled = false;                  // a label such as `Solution:` calls the solution so: else it may be an attempt that was given up
};

namespace detail {

// Lines of a text, one after another.
struct text_lines {
    const nissy_text_line *first, *last;

    const nissy_text_line *begin() const { return first; }
    const nissy_text_line *end() const { return last; }
    // the first line for which it holds, or the end
    template <typename Which> const nissy_text_line *find(Which which) const { return std::find_if(first, last, which); }
    template <typename Which> bool has(Which which) const { return find(which) != last; }

    // takes the lines that have the same number as the first one, of which there is one
    template <typename Number> text_lines take(Number number) {
        const auto is_other = [number, of_first = number(*first)](const nissy_text_line &it) { return number(it) != of_first; };
        const text_lines those = {first, find(is_other)};
        first = those.last;
        return those;
    }
};

inline bool is_step(const nissy_text_line &line) { return line.kind == NISSY_STEP_LINE; }
inline bool is_of_solution(const nissy_text_line &line) { return is_step(line) && line.solution; }
inline bool is_of_scramble(const nissy_text_line &line) { return line.kind == NISSY_SCRAMBLE_LINE; }

// What the library says of each line of a text.
inline std::vector<nissy_text_line> lines_in(std::string_view text) {
    std::vector<nissy_text_line> lines(line_ends(text) + 1);
    lines.resize(nissy_text_lines(text_bytes(text), text.size(), lines.data(), lines.size()).lines);
    return lines;
}

// Signs that are blanks.
inline constexpr std::array<std::string_view, 25> BLANKS = {" ",
                                                            "\t",
                                                            "\v",
                                                            "\f",
                                                            "\r",
                                                            "\n",
                                                            "\xc2\xa0",
                                                            "\xe1\x9a\x80",
                                                            "\xe2\x80\x80",
                                                            "\xe2\x80\x81",
                                                            "\xe2\x80\x82",
                                                            "\xe2\x80\x83",
                                                            "\xe2\x80\x84",
                                                            "\xe2\x80\x85",
                                                            "\xe2\x80\x86",
                                                            "\xe2\x80\x87",
                                                            "\xe2\x80\x88",
                                                            "\xe2\x80\x89",
                                                            "\xe2\x80\x8a",
                                                            "\xe2\x80\xa8",
                                                            "\xe2\x80\xa9",
                                                            "\xe2\x80\xaf",
                                                            "\xe2\x81\x9f",
                                                            "\xe3\x80\x80",
                                                            "\xef\xbb\xbf"};

// A text without the blanks around it.
inline std::string trimmed(std::string_view text) {
    const auto cut = [&text](std::string_view blank) {
        const bool is_first = text.substr(0, blank.size()) == blank;
        if (is_first) text.remove_prefix(blank.size());
        const bool is_last = text.size() >= blank.size() && text.substr(text.size() - blank.size()) == blank;
        if (is_last) text.remove_suffix(blank.size());
        return is_first || is_last;
    };
    while (std::any_of(BLANKS.begin(), BLANKS.end(), cut)) {
    }
    return std::string(text);
}

// Some bytes of a text without the blanks around them, and without signs in front that quote a line.
inline std::string words_of(std::string_view text, std::size_t begin, std::size_t end) {
    std::string words = trimmed(text.substr(begin, end - begin));
    while (!words.empty() && words.front() == '>') words = trimmed(std::string_view(words).substr(1));
    return words;
}

inline std::string label_of(std::string_view text, const nissy_text_line &line) { return words_of(text, line.label_begin, line.label_end); }

// The first head of some lines, or nothing.
inline std::string name_of(std::string_view text, text_lines lines) {
    const nissy_text_line *const headed = lines.find([](const nissy_text_line &it) { return it.headed; });
    return headed == lines.last ? std::string() : words_of(text, headed->begin, headed->head_end);
}

// What a line without moves says: its label, if nothing follows that, else all of it.
inline std::string said(std::string_view text, const nissy_text_line &line) {
    if (line.label_begin < line.label_end && words_of(text, line.moves, line.end).empty()) return label_of(text, line);
    const std::string all = words_of(text, line.head_end, line.end);
    return all.compare(0, 2, "//") == 0 ? trimmed(std::string_view(all).substr(2)) : all;
}

// The moves of those of some lines that are wanted, one after another.
inline plain moves_in(std::string_view text, text_lines lines, nissy_moves_of which) {
    std::size_t most = 0;
    for (const nissy_text_line &line : lines) most += line.comment - line.moves + 1;
    const std::size_t room = 3 * most, count = static_cast<std::size_t>(lines.last - lines.first);
    return written_by(room, [=](std::uint8_t *out, std::uint64_t *places) {
        return nissy_text_moves(text_bytes(text), text.size(), lines.first, count, static_cast<std::uint8_t>(which), out, room, places, room, nullptr,
                                0);
    });
}

// The moves of each of some lines that is such.
template <typename Which> std::vector<plain> each_in(std::string_view text, text_lines lines, Which which) {
    std::vector<plain> all;
    for (const nissy_text_line &line : lines)
        if (which(line)) all.push_back(moves_in(text, {&line, &line + 1}, NISSY_OF_STEPS));
    return all;
}

// What is said of a candidate.
inline std::string note_of(std::string_view text, text_lines group) {
    std::string note;
    bool is_first = true;
    for (const nissy_text_line &line : group) {
        if (line.kind != NISSY_NOTE_LINE) continue;
        note += (is_first ? "" : " ") + said(text, line);
        is_first = false;
    }
    const nissy_text_line *const labelled = group.find([](const nissy_text_line &it) { return it.labelled; });
    return note.empty() && labelled != group.last ? label_of(text, *labelled) : note;
}

inline std::vector<attempt_candidate> candidates_in(std::string_view text, text_lines lines) {
    std::vector<attempt_candidate> candidates;
    while (lines.first != lines.last) {
        const text_lines group = lines.take([](const nissy_text_line &it) { return it.group; });
        if (group.first->group > 0 && group.has(is_step))
            candidates.push_back({each_in(text, group, is_step), moves_in(text, group, NISSY_OF_STEPS), note_of(text, group)});
    }
    return candidates;
}

// The steps are those directly under the scramble, else those of the solution.
inline std::vector<plain> steps_in(std::string_view text, text_lines lines) {
    const auto is_first = [](const nissy_text_line &it) { return is_step(it) && it.group == 0; };
    std::vector<plain> first = each_in(text, lines, is_first);
    return first.empty() ? each_in(text, lines, is_of_solution) : first;
}

inline attempt attempt_of(std::string_view text, text_lines lines, place_counter &places) {
    attempt made = {
        name_of(text, lines), moves_in(text, lines, NISSY_OF_SCRAMBLE), steps_in(text, lines), {}, candidates_in(text, lines), 0, {}, false};
    if (lines.has(is_of_solution)) {
        made.solution = moves_in(text, lines, NISSY_OF_SOLUTION);
        made.is_labelled = lines.has([](const nissy_text_line &it) { return it.solution && it.labelled; });
    }
    for (const nissy_text_line &line : lines) made.before += line.kind == NISSY_LINE_BEFORE;
    const auto doubted = lines.find([](const nissy_text_line &it) { return it.doubt != NISSY_NO_DOUBT; });
    if (doubted != lines.last) made.doubt = attempt_doubt{static_cast<doubt_reason>(doubted->doubt), places.at(doubted->doubt_at)};
    return made;
}

} // namespace detail

// The attempts of a text as solvers write it, at least one: a scramble, then the steps of its solution, each on a line with a comment or a label,
// and blocks of candidates after blank lines; and the same of several numbered scrambles. A text of another form is one scramble.
inline std::vector<attempt> read_attempts(std::string_view text) {
    std::vector<attempt> attempts;
    detail::place_counter places(text);
    const std::vector<nissy_text_line> all = detail::lines_in(text);
    detail::text_lines lines = {all.data(), all.data() + all.size()};
    while (lines.first != lines.last) {
        const detail::text_lines own = lines.take([](const nissy_text_line &it) { return it.attempt; });
        if (own.has(detail::is_of_scramble)) attempts.push_back(detail::attempt_of(text, own, places));
    }
    if (attempts.empty()) attempts.emplace_back();
    return attempts;
}

} // namespace nissy

#endif
