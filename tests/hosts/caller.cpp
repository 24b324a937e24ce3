/* Makes the calls of the headers for C++ that standard input asks for, one on each line, and answers each on a line, as hosts.py says. */
#include "nissy_best.hpp"
#include "nissy_checks.hpp"
#include "nissy_tokens.hpp"

#include <iostream>
#include <memory>
#include <sstream>

namespace {

std::string to_hex(std::string_view text) {
    static constexpr char DIGITS[] = "0123456789abcdef";
    std::string hex = "=";
    for (const char byte : text) {
        const auto number = static_cast<unsigned char>(byte);
        hex += {DIGITS[number / 16], DIGITS[number % 16]};
    }
    return hex;
}

// A text in memory of its own, of which nothing stands after it, and none of it if it is empty.
class exact {
public:
    explicit exact(const std::string &hex) : size_(hex.size() / 2), bytes_(size_ ? new char[size_] : nullptr) {
        const auto digit = [&hex](std::size_t at) { return hex[at] <= '9' ? hex[at] - '0' : hex[at] - 'a' + 10; };
        for (std::size_t at = 0; at < size_; at++) bytes_[at] = static_cast<char>(16 * digit(1 + 2 * at) + digit(2 + 2 * at));
    }
    std::string_view view() const { return {bytes_.get(), size_}; }

private:
    std::size_t size_;
    std::unique_ptr<char[]> bytes_;
};

std::string lines(const std::vector<std::string> &all) {
    std::string text;
    for (const std::string &line : all) text += line + "\n";
    return text;
}

std::string solved(const nissy::tables &tables, std::string_view line, const nissy::search &which) {
    std::string text;
    for (const auto &[moves, length] : tables.solve(line, which)) text += moves + (moves.empty() ? "(" : " (") + std::to_string(length) + ")\n";
    return text;
}

std::string counted(const nissy::tables &tables, std::string_view line, const nissy::search &which) {
    const nissy::count told = tables.count(line, {which.limit, which.slack});
    return (told.length ? std::to_string(*told.length) : "none") + " " + std::to_string(told.solutions) + " " + std::to_string(told.nodes);
}

std::string searched(const std::string &call, std::istream &asked) {
    std::string step, hex;
    nissy::search which;
    asked >> step >> which.limit >> which.slack >> which.most >> hex;
    const exact line(hex), name(step);
    const nissy::tables tables(name.view());
    return call == "solve" ? solved(tables, line.view(), which) : counted(tables, line.view(), which);
}

std::string drawn(std::istream &asked) {
    std::uint64_t state = 0, stream = 0;
    std::uint32_t length = 0, count = 0;
    asked >> state >> stream >> length >> count;
    return nissy::scramble(state, stream, length) + "\n" + lines(nissy::scrambles(state, stream, length, count));
}

std::string joined(const std::vector<std::string> &texts, const char *parted = ",") {
    std::string text;
    for (std::size_t at = 0; at < texts.size(); at++) text += (at == 0 ? "" : parted) + texts[at];
    return text;
}

std::string seen(std::string_view line) {
    const nissy::line_facts facts = nissy::facts(line);
    std::string axes;
    for (const nissy::axis_facts &it : {facts.fb(), facts.rl(), facts.ud()}) {
        const auto count = [](const auto &places) { return static_cast<int>(places.count()); };
        if (count(it.bad_edge_places) != it.bad_edges || count(it.bad_corner_places) != it.bad_corners) return "other numbers";
        if (count(it.misplaced_edge_places) != it.misplaced_edges) return "another number";
        const std::string wanted = std::to_string(it.bad_corners) + "c" + std::to_string(it.misplaced_edges) + "e";
        if (it.dr_case() != wanted) return "another case";
        axes += " " + joined(nissy::place_names(it.bad_edge_places)) + "/";
        axes += joined(nissy::place_names(it.bad_corner_places)) + "/" + joined(nissy::place_names(it.misplaced_edge_places));
    }
    return std::to_string(facts.solved) + " " + std::to_string(facts.moves) + " " + std::to_string(facts.clean_moves) + " " + joined(facts.holds()) +
           axes;
}

std::string said_of(const nissy::verdict &it) {
    return std::to_string(it.solved) + " " + std::to_string(it.moves) + " " + std::to_string(it.clean_moves) + " " +
           joined(nissy::form_names(it.forms));
}

// The moves, those outside brackets first.
std::string moves_of(std::string_view line) {
    std::vector<nissy::token> moves = nissy::tokens(line);
    std::stable_partition(moves.begin(), moves.end(), [](const nissy::token &move) { return !move.inverse; });
    std::string text;
    for (const nissy::token &move : moves) {
        std::string layers;
        for (const int layer : move.layers) layers += (layers.empty() ? "" : ",") + std::to_string(layer);
        text += (text.empty() ? "" : " ") + move.text + "/" + move.axis + "/" + layers + "/" + std::to_string(move.quarters) + "/" +
                std::to_string(move.inverse);
    }
    return text;
}

// Where the line has forms that the WCA's notation hasn't.
std::string forms_of(std::string_view line) {
    std::string text;
    for (const nissy::form_place &it : nissy::form_places(line))
        text += (text.empty() ? "" : " ") + std::to_string(it.column) + "/" + it.text + "/" + joined(nissy::form_names(it.forms));
    return text;
}

// Whether an apostrophe of a line has another form in its text: its bytes have the place of that one's first byte then, and else their own.
bool is_of_another_form(std::string_view text, const nissy::plain &it, std::size_t at) {
    static constexpr std::string_view APOSTROPHE = "\xe2\x80\x99";
    return it.line.compare(at, APOSTROPHE.size(), APOSTROPHE) == 0 && text.substr(it.places[at], APOSTROPHE.size()) != APOSTROPHE;
}

// A text as one line, the places of its signs in characters, and what is left out.
std::string plain_of(std::string_view text) {
    const nissy::plain it = nissy::plain_line(text);
    std::string places;
    for (std::size_t at = 0, begin = 0; at < it.line.size(); at++) {
        const bool goes_on = (static_cast<unsigned char>(it.line[at]) & 0xc0) == 0x80;
        if (!goes_on) begin = at;
        if (it.places[at] != it.places[begin] + (is_of_another_form(text, it, begin) ? 0 : at - begin)) return "another place";
        if (!goes_on) places += (places.empty() ? "" : " ") + std::to_string(nissy::detail::character(text, it.places[at] + 1) - 1);
    }
    return it.places.size() == it.line.size() ? it.line + "\n" + places + "\n" + joined(it.left_out, "|") : "other places";
}

// The place of a byte of a part in its text, in characters from 0, by the line and column of a fault there; a line ends as for read_attempts.
std::string place_in(std::string_view text, const nissy::plain &part, std::size_t at) {
    const nissy::text_place it = nissy::place_of(nissy::fault(NISSY_NOT_A_MOVE, at + 1, ""), part, text).value();
    const std::size_t wanted = nissy::detail::character(text, it.at + 1) - 1;
    std::size_t begin = 0;
    for (std::size_t line = 1; line < it.line; line++) begin = text.find('\n', begin) + 1;
    const bool has_returns = text.find('\r') != std::string_view::npos;
    return has_returns || nissy::detail::character(text, begin + 1) + it.column - 2 == wanted ? std::to_string(wanted) : "another place";
}

// A part of an attempt without blanks around it, and the places of its first and last sign.
std::string part_in(std::string_view text, const std::optional<nissy::plain> &found) {
    if (!found) return "none";
    const nissy::plain &part = *found;
    const std::size_t first = part.line.find_first_not_of(' ');
    if (first == std::string::npos) return "";
    std::size_t last = part.line.find_last_not_of(' ');
    const std::string own = part.line.substr(first, last + 1 - first);
    while ((static_cast<unsigned char>(part.line[last]) & 0xc0) == 0x80) last--;
    return own + "@" + place_in(text, part, first) + "-" + place_in(text, part, last);
}

std::string parts_in(std::string_view text, const std::vector<nissy::plain> &parts) {
    std::vector<std::string> said;
    for (const nissy::plain &each : parts) said.push_back(part_in(text, each));
    return joined(said, "/");
}

// The attempts of a text, each on a line.
std::string attempts_of(std::string_view text) {
    std::vector<std::string> said;
    for (const nissy::attempt &it : nissy::read_attempts(text)) {
        std::vector<std::string> others;
        for (const nissy::attempt_candidate &each : it.candidates)
            others.push_back(parts_in(text, each.steps) + "=" + part_in(text, each.solution) + "#" + each.note);
        said.push_back(joined({it.name, std::to_string(it.before), part_in(text, it.scramble), parts_in(text, it.steps), part_in(text, it.solution),
                               joined(others, ";")},
                              "|") +
                       (it.is_labelled ? "|labelled" : ""));
    }
    return joined(said, "\n");
}

// Where a fault or a form stands in a text.
std::string said_of(const nissy::text_place &it) { return "@" + std::to_string(it.line) + ":" + std::to_string(it.column); }

std::string said_of(const nissy::fault &it, const std::optional<nissy::text_place> &place) {
    return std::string(it.part()) + ":" + std::to_string(it.column()) + ":" + std::string(it.text()) + (place ? said_of(*place) : "@nowhere");
}

// What is said of an attempt of a text: of its solution, of its fault, and of its forms.
std::string said_of(const nissy::attempt_check &it) {
    std::vector<std::string> forms;
    for (const nissy::form_in_text &each : it.forms) forms.push_back(each.text + "/" + joined(nissy::form_names(each.forms)) + said_of(each.place));
    return (it.check ? said_of(*it.check) : "") + "|" + (it.fault ? said_of(*it.fault, it.place) : "") + "|" + joined(forms, " ");
}

// What makes one doubt it, and where.
std::string doubt_of(const nissy::attempt_check &it) { return it.doubt ? it.doubt->name() + said_of(it.doubt->place) : ""; }

// Something of each check, each on a line.
template <typename Said> std::string each_on_a_line(const std::vector<nissy::attempt_check> &checks, Said said) {
    std::vector<std::string> lines;
    for (const nissy::attempt_check &it : checks) lines.push_back(said(it));
    return joined(lines, "\n");
}

std::vector<std::string> split(std::string_view text) {
    std::vector<std::string> parts;
    for (std::size_t end; (end = text.find('\n')) != std::string_view::npos; text.remove_prefix(end + 1)) parts.emplace_back(text.substr(0, end));
    if (!text.empty()) parts.emplace_back(text);
    return parts;
}

// What is said of known scrambles, of which there is one on each line.
std::string known_of(std::string_view text, std::string_view scrambles) {
    const auto said = [](const nissy::attempt_check &it) { return it.attempt.name + "|" + said_of(it) + "|" + doubt_of(it); };
    return each_on_a_line(nissy::check_attempts(text, split(scrambles)), said);
}

// All that is said of a text, as hosts.py has it.
std::string text_of(std::string_view text, std::string_view scrambles) {
    const std::vector<nissy::attempt_check> checks = nissy::check_attempts(text);
    const std::string told = each_on_a_line(checks, [](const auto &it) { return said_of(it); });
    return joined({plain_of(text), told, each_on_a_line(checks, doubt_of), attempts_of(text), known_of(text, scrambles)}, "\x1e");
}

// What is said of pairs, of which there are two lines each.
std::string pairs_of(std::string_view text) {
    const std::vector<std::string> all = split(text);
    std::vector<std::pair<std::string, std::string>> pairs;
    for (std::size_t at = 0; at + 1 < all.size(); at += 2) pairs.emplace_back(all[at], all[at + 1]);
    std::vector<std::string> said;
    for (const nissy::pair_answer &it : nissy::check_all(pairs))
        said.push_back(it ? said_of(it.value()) : std::string(it.part()) + ":" + std::to_string(it.column()) + ":" + it.text());
    return joined(said, "\n");
}

// How many attempts a text has, and their steps and candidates.
std::string counts_of(std::string_view text) {
    const std::vector<nissy::attempt> attempts = nissy::read_attempts(text);
    std::size_t steps = 0, candidates = 0;
    for (const nissy::attempt &it : attempts) {
        steps += it.steps.size();
        candidates += it.candidates.size();
    }
    return std::to_string(attempts.size()) + " " + std::to_string(steps) + " " + std::to_string(candidates);
}

// What an orientation and a reduction have in common.
template <typename Step> std::string part(const Step &it) {
    return it.step + ";" + it.moves + ";" + it.normal + ";" + it.inverse + ";" + std::to_string(it.length) + ";" + joined(it.twins);
}

// The rows of `best`, each in a line.
std::string continued(std::istream &asked) {
    std::string scramble, so_far, text;
    nissy::best_search which;
    bool partial = false;
    std::uint64_t asks = 0;
    asked >> scramble >> so_far >> which.slack >> which.most >> which.nodes >> partial >> asks;
    if (asks != NISSY_ALL) which.stop = [&asks] { return asks-- == 0; };
    const exact first(scramble), other(so_far);
    const nissy::best_found found =
        partial ? nissy::find_best(first.view(), other.view(), which) : nissy::best_found{nissy::best(first.view(), other.view(), which)};
    const auto said = [](const std::optional<int> &number) { return number ? std::to_string(*number) : "none"; };
    for (const nissy::continuation &it : found.rows)
        text += std::to_string(it.total) + ";" + it.line + ";" + (it.eo ? part(*it.eo) : "none") + ";" + part(it.dr) + ";" +
                said(it.dr.lengths.normal) + ";" + said(it.dr.lengths.inverse) + ";" + it.dr_case + "\n";
    return found.is_cut ? text + "cut\n" : text;
}

// The names of axes, edges and corners, and where each letter is in the net.
std::string net() {
    const auto all = [](const auto &texts) { return joined({texts.begin(), texts.end()}); };
    std::string text = all(nissy::AXES) + "\n" + all(nissy::EDGE_PLACES) + "\n" + all(nissy::CORNER_PLACES);
    for (const auto &[row, column] : nissy::NET) text += "\n" + std::to_string(row) + "," + std::to_string(column);
    return text;
}

// The stickers of the places that a text names, on an unturned cube, or on that of some letters.
std::string stickers_of(std::string_view text, std::string_view letters) {
    std::istringstream all{std::string(text)};
    std::vector<std::string> places;
    for (std::string name; std::getline(all, name, ',');) places.push_back(name);
    std::string numbers;
    for (const std::size_t sticker : letters.empty() ? nissy::stickers_of(places) : nissy::stickers_of(places, letters))
        numbers += (numbers.empty() ? "" : " ") + std::to_string(sticker);
    return numbers;
}

std::string called(const std::string &call, std::istream &asked) {
    if (call == "solve" || call == "count") return searched(call, asked);
    if (call == "scrambles") return drawn(asked);
    if (call == "best") return continued(asked);
    if (call == "steps") return lines(nissy::steps());
    if (call == "net") return net();
    std::string hex, other;
    asked >> hex >> other;
    const exact line(hex);
    if (call == "check") return said_of(nissy::check(line.view(), exact(other).view()));
    if (call == "line_after") return nissy::line_after(line.view(), exact(other).view());
    if (call == "facts") return seen(line.view());
    if (call == "stickers") return stickers_of(line.view(), exact(other).view());
    if (call == "tokens") return moves_of(line.view());
    if (call == "plain_line") return plain_of(line.view());
    if (call == "read_attempts") return attempts_of(line.view());
    if (call == "check_attempts") return each_on_a_line(nissy::check_attempts(line.view()), [](const auto &it) { return said_of(it); });
    if (call == "attempt_doubts") return each_on_a_line(nissy::check_attempts(line.view()), doubt_of);
    if (call == "text") return text_of(line.view(), exact(other).view());
    if (call == "known_checks") return known_of(line.view(), exact(other).view());
    if (call == "check_all") return pairs_of(line.view());
    if (call == "attempt_counts") return counts_of(line.view());
    if (call == "form_places") return forms_of(line.view());
    if (call == "invert") return nissy::invert(line.view());
    if (call == "unniss") return nissy::unniss(line.view());
    if (call == "cleanup") return nissy::cleanup(line.view());
    return nissy::facelets(line.view());
}

} // namespace

int main() {
    for (std::string line; std::getline(std::cin, line);) {
        std::istringstream asked(line);
        std::string call;
        asked >> call;
        try {
            std::cout << to_hex(called(call, asked)) << std::endl;
        } catch (const nissy::fault &fault) {
            std::cout << fault.line() << " " << fault.column() << " " << to_hex(fault.text()) << std::endl;
        } catch (const nissy::cut &) {
            std::cout << "0 0 " << to_hex("cut") << std::endl;
        }
    }
    return 0;
}
