/* Reads texts as solvers write them by the calls for C, one on each line of standard input, and answers each on a line, as hosts.py says. It asks as
 * a caller in C does: by lines, their moves, a check, and the next form. */
#include "shown.h"

/* What a text has, each attempt with what is said of it. */
typedef struct attempt {
    written scramble, solution;
    int has_solution;
    nissy_check_answer check;
} attempt;

static attempt attempt_of(text of, lines those) {
    attempt it = {moves_of(of, those, NISSY_OF_SCRAMBLE), moves_of(of, those, NISSY_OF_SOLUTION), has(those, NISSY_STEP_LINE, 1), {0}};
    it.check = nissy_check(it.scramble.bytes, it.scramble.length, it.solution.bytes, it.solution.length);
    return it;
}

static void say_fault(text of, const attempt *it) {
    uint8_t words[NISSY_LINE_ROOM];
    say_text(it->check.line == 1 ? "scramble:" : "solution:"), say_number(it->check.column), say_text(":");
    say((const char *)words, nissy_fault_text(it->check.fault, words, sizeof words).length);
    say_place(of, place_of(of, it->check.line == 1 ? &it->scramble : &it->solution, it->check.column - 1));
}

static void say_forms(text of, const written *line) {
    nissy_form_place it = nissy_next_form_place(line->bytes, line->length, 0);
    for (int is_first = 1; it.forms; it = nissy_next_form_place(line->bytes, line->length, it.last), is_first = 0) {
        if (!is_first) say_text(" ");
        say((const char *)line->bytes + it.column - 1, it.last - it.column + 1), say_text("/");
        say_names(it.forms, FORMS, ","), say_place(of, line->places[it.column - 1]);
    }
}

static void say_check(text of, lines those) {
    const attempt it = attempt_of(of, those);
    const int is_told = it.check.status == NISSY_DONE && it.has_solution;
    if (is_told) {
        say_number(it.check.solved), say_text(" "), say_number(it.check.moves), say_text(" "), say_number(it.check.clean_moves), say_text(" ");
        say_names(it.check.forms, FORMS, ",");
    }
    say_text("|");
    if (it.check.status == NISSY_FAULT) say_fault(of, &it);
    say_text("|");
    if (is_told) say_forms(of, &it.solution);
    let_go(it.scramble), let_go(it.solution);
}

/* All steps of an attempt: the line of each, from 1 on, and where it ends in them; and how many signs stand beside them. */
typedef struct whole {
    const nissy_text_line *step[14];
    uint64_t ends[13], signs;
    size_t count;
} whole;

/* Whether there are at most twelve steps, each on a line of its own, and not too long. */
static int is_whole(text of, lines those, const written *steps, whole *it) {
    size_t ends = 0;
    for (size_t at = 0; at < those.count; at++) {
        if (those.first[at].kind != NISSY_STEP_LINE) continue;
        if (++it->count > 12) return 0;
        it->step[it->count] = those.first + at;
        it->signs += sign_before(of, those.first + at) != NISSY_NO_PLACE;
        it->signs += sign_behind(of, those.first + at) != NISSY_NO_PLACE;
    }
    for (uint64_t at = 0, is_open = 0; at < steps->length; at++) {
        is_open = steps->bytes[at] == '(' || (is_open && steps->bytes[at] != ')');
        if ((steps->bytes[at] == '\n' && !is_open) || at + 1 == steps->length) it->ends[++ends > 12 ? 12 : ends] = at + 1;
    }
    return ends == it->count && steps->length <= NISSY_MOST_STEPS;
}

/* Whether steps, of which each is a line, solve a scramble with moves before one of them. */
static int solves_with(const written *scramble, const written *steps, uint64_t place, const char *moves) {
    uint8_t *const line = memory(steps->length + 9);
    memcpy(line, steps->bytes, place);
    const size_t more = (size_t)sprintf((char *)line + place, " %s ", moves);
    memcpy(line + place + more, steps->bytes + place, steps->length - place);
    for (uint64_t at = 0; at < steps->length + more; at++)
        if (line[at] == '\n') line[at] = ' ';
    const int solves = nissy_check(scramble->bytes, scramble->length, line, steps->length + more).solved;
    free(line);
    return solves;
}

/* Whether those of some lines that are of the solution solve a scramble. */
static int is_solved_by(text of, lines those, const written *scramble) {
    const written solution = moves_of(of, those, NISSY_OF_SOLUTION);
    const int is_solved = nissy_check(scramble->bytes, scramble->length, solution.bytes, solution.length).solved;
    let_go(solution);
    return is_solved;
}

/* Where another attempt stands in one that isn't solved: at a step with moves of 20 bytes or more that lines of the solution after it solve, as a
 * scramble. The first twelve such steps are tried. */
static void say_within(text of, lines those) {
    size_t tried = 0;
    for (size_t at = 0; at < those.count && tried < 12; at++) {
        const nissy_text_line *const line = those.first + at;
        const lines rest = {line + 1, those.count - at - 1};
        if (line->kind != NISSY_STEP_LINE || line->comment - line->moves < 20) continue;
        tried++;
        const written scramble = moves_of(of, (lines){line, 1}, NISSY_OF_EACH_STEP);
        const int is_another = has(rest, NISSY_STEP_LINE, 1) && is_solved_by(of, rest, &scramble);
        let_go(scramble);
        if (!is_another) continue;
        say_text(DOUBTS[NISSY_ANOTHER_ATTEMPT]), say_place(of, line->moves);
        return;
    }
}

/* What makes one doubt an attempt that with a turn before a step, or after the last one, would be solved, if the text shows it there; whether
 * something does. */
static int say_lost(text of, const whole *all, const written *scramble, const written *steps) {
    for (size_t number = 0; number <= all->count; number++)
        for (int which = 0; which < 18; which++) {
            const char turn[3] = {"UDRLFB"[which / 3], "\0002'"[which % 3], 0};
            const nissy_text_line *const behind = all->step[number], *const before = all->step[number + 1];
            const uint64_t said = first_of(said_in(of, behind, turn[0]), said_in(of, before, turn[0]));
            const uint64_t taken_back = first_of(letter_behind(of, behind, turn[0]), letter_before(of, before, turn[0]));
            const uint64_t letter = turn[1] == '\'' ? taken_back : NISSY_NO_PLACE;
            const uint64_t sign = all->signs == 1 ? first_of(sign_behind(of, behind), sign_before(of, before)) : NISSY_NO_PLACE;
            const uint64_t shown = first_of(first_of(said, letter), sign);
            if (shown == NISSY_NO_PLACE || !solves_with(scramble, steps, all->ends[number], turn)) continue;
            say_text(DOUBTS[shown == said ? NISSY_INSERTION : shown == letter ? NISSY_COMMENT : NISSY_SIGNS]), say_place(of, shown);
            return 1;
        }
    return 0;
}

/* Whether they would solve if the cube were held in one of the 23 other ways from a step on. */
static int solves_turned(const written *scramble, const written *steps, uint64_t place) {
    static const char *const tops[] = {"", "x", "x2", "x'", "z", "z'"}, *const sides[] = {"", "y", "y2", "y'"};
    for (int which = 1; which < 24; which++) {
        char rotation[8];
        sprintf(rotation, "%s %s", tops[which / 4], sides[which % 4]);
        if (solves_with(scramble, steps, place, rotation)) return 1;
    }
    return 0;
}

/* Whether they would solve with a step before another one, or after the last one. */
static int solves_moved(const written *scramble, const written *steps, const whole *all, size_t moved, size_t place) {
    uint8_t *const line = memory(2 * steps->length + all->count);
    uint64_t length = 0;
    for (size_t at = 0; at < 2 * all->count + 1; at++) {
        /* between the steps in their order stand the places before them and after the last one */
        const size_t number = at % 2 ? at / 2 : moved;
        if (at % 2 ? number == moved : at / 2 != place) continue;
        for (uint64_t byte = all->ends[number]; byte < all->ends[number + 1]; byte++)
            line[length++] = steps->bytes[byte] == '\n' ? ' ' : steps->bytes[byte];
        line[length++] = ' ';
    }
    const int solves = nissy_check(scramble->bytes, scramble->length, line, length).solved;
    free(line);
    return solves;
}

/* Whether they would with it elsewhere. */
static int solves_elsewhere(const written *scramble, const written *steps, const whole *all, size_t moved) {
    for (size_t place = 0; place <= all->count; place++)
        if (place != moved && place != moved + 1 && solves_moved(scramble, steps, all, moved, place)) return 1;
    return 0;
}

/* What makes one doubt an attempt of which no part solves, by all its steps; whether something does. */
static int say_whole(text of, lines those, const written *scramble, const written *steps) {
    whole all = {{NULL}, {0}, 0, 0};
    if (!is_whole(of, those, steps, &all)) return 0;
    if (say_lost(of, &all, scramble, steps)) return 1;
    for (size_t number = 0; number < all.count; number++) {
        if (!solves_turned(scramble, steps, all.ends[number])) continue;
        say_text(DOUBTS[NISSY_INSERTION]), say_place(of, all.step[number + 1]->moves);
        return 1;
    }
    for (size_t number = 0; number < all.count; number++) {
        if (!solves_elsewhere(scramble, steps, &all, number)) continue;
        say_text(DOUBTS[NISSY_INSERTION]), say_place(of, all.step[number + 1]->moves);
        return 1;
    }
    return 0;
}

/* The place of the part of the steps that solves, if there is one, or of what has all solve, or of another attempt. */
static void say_part(text of, lines those, const written *scramble) {
    const written steps = moves_of(of, those, NISSY_OF_EACH_STEP);
    const nissy_part_answer part = nissy_solving_part(scramble->bytes, scramble->length, steps.bytes, steps.length);
    if (part.how)
        say_text("a part"), say_place(of, steps.places[part.begin]);
    else if (!say_whole(of, those, scramble, &steps))
        say_within(of, those);
    let_go(steps);
}

/* Where another attempt may begin after what solves, if there is such a place: at a line of the solution, not its first one, with moves of 20
 * bytes or more, before which all solves. The first twelve such lines are tried. */
static int say_another(text of, lines those, const written *scramble) {
    size_t steps = 0, tried = 0;
    for (size_t at = 0; at < those.count && tried < 12; at++) {
        const nissy_text_line *const line = those.first + at;
        if (line->kind != NISSY_STEP_LINE || !line->solution) continue;
        if (!steps++ || line->comment - line->moves < 20) continue;
        tried++;
        if (!is_solved_by(of, (lines){those.first, at}, scramble)) continue;
        say_text(DOUBTS[NISSY_ANOTHER_ATTEMPT]), say_place(of, line->moves);
        return 1;
    }
    return 0;
}

/* The turns of a line, cleaned, each by its two bytes, if it can be read. */
typedef struct turns {
    unsigned of[512];
    size_t count;
    int are_read;
} turns;

static turns turns_of(const written *line) {
    uint8_t joined[NISSY_LINE_ROOM], clean[NISSY_LINE_ROOM];
    turns it = {{0}, 0, 0};
    const nissy_line_answer one = nissy_unniss(line->bytes, line->length, joined, sizeof joined);
    it.are_read = one.status == NISSY_DONE;
    if (!it.are_read) return it;
    const uint64_t length = nissy_cleanup(joined, one.length, clean, sizeof clean).length;
    for (uint64_t at = 0; at < length; at++)
        if (clean[at] >= 'A' && clean[at] <= 'Z') it.of[it.count++] = 256u * clean[at] + (at + 1 < length ? clean[at + 1] : ' ');
    return it;
}

/* Whether two sequences are the same but in one place, where each has two turns at most. */
static int are_near(const turns *one, const turns *other) {
    const size_t least = one->count < other->count ? one->count : other->count;
    size_t begin = 0, end = 0;
    while (begin < least && one->of[begin] == other->of[begin]) begin++;
    while (end < least - begin && one->of[one->count - 1 - end] == other->of[other->count - 1 - end]) end++;
    return one->count <= begin + end + 2 && other->count <= begin + end + 2;
}

/* What the steps that aren't of the solution and are as long as a scramble make one doubt, if they don't solve: two of them one after another,
 * after which nothing is said, may be another attempt; else one may be the solution with a slip. */
static void say_beside(text of, lines those, const attempt *it) {
    const turns solution = turns_of(&it->solution);
    const nissy_text_line *above = NULL, *slip = NULL;
    for (size_t at = 0; at < those.count; at++) {
        const nissy_text_line *const line = those.first + at;
        if (line->kind != NISSY_STEP_LINE) continue;
        const int is_long_other = !line->solution && line->comment - line->moves >= 40;
        const written moves = moves_of(of, (lines){line, is_long_other}, NISSY_OF_EACH_STEP);
        const turns own = turns_of(&moves);
        const int is_unsolving = is_long_other && !nissy_check(it->scramble.bytes, it->scramble.length, moves.bytes, moves.length).solved;
        let_go(moves);
        if (is_unsolving && own.are_read && !slip && are_near(&solution, &own)) slip = line;
        const int is_apart = is_unsolving && line->comment == line->end;
        if (is_apart && above) {
            say_text(DOUBTS[NISSY_ANOTHER_ATTEMPT]), say_place(of, above->moves);
            return;
        }
        above = is_apart ? line : NULL;
    }
    if (slip) say_text(DOUBTS[NISSY_SEVERAL_SOLUTIONS]), say_place(of, slip->moves);
}

static int is_solved_by_itself(const written *scramble) {
    return scramble->length > 0 && nissy_check(scramble->bytes, scramble->length, scramble->bytes, 0).solved;
}

static void say_doubt(text of, lines those) {
    const attempt it = attempt_of(of, those);
    const int is_solved = it.has_solution && it.check.solved;
    size_t at = 0, stray = 0;
    while (at < those.count && those.first[at].doubt == NISSY_NO_DOUBT) at++;
    while (stray < those.count && those.first[stray].doubt != NISSY_STEP_OR_SCRAMBLE) stray++;
    if (it.check.status == NISSY_DONE && is_solved) {
        if (stray < those.count)
            say_text(DOUBTS[NISSY_STEP_OR_SCRAMBLE]), say_place(of, those.first[stray].doubt_at);
        else if (is_solved_by_itself(&it.scramble))
            say_text(DOUBTS[NISSY_ANOTHER_ATTEMPT]), say_place(of, it.scramble.places[0]);
        else if (!say_another(of, those, &it.scramble))
            say_beside(of, those, &it);
    }
    if (it.check.status == NISSY_DONE && !is_solved) {
        if (at < those.count)
            say_text(DOUBTS[those.first[at].doubt]), say_place(of, those.first[at].doubt_at);
        else if (is_solved_by_itself(&it.scramble))
            say_text(DOUBTS[NISSY_ANOTHER_SCRAMBLE]), say_place(of, it.scramble.places[0]);
        else
            say_part(of, those, &it.scramble);
    }
    let_go(it.scramble), let_go(it.solution);
}

/* Says something of each attempt of a text, each on a line. */
static void say_each(text of, void (*say_one)(text, lines)) {
    const nissy_text_answer count = nissy_text_lines(of.bytes, of.length, NULL, 0);
    nissy_text_line *const all = memory(count.lines * sizeof *all);
    int said_one = 0;
    nissy_text_lines(of.bytes, of.length, all, count.lines);
    for (size_t at = 0, end; at < count.lines; at = end) {
        for (end = at; end < count.lines && all[end].attempt == all[at].attempt; end++) {
        }
        const lines those = {all + at, end - at};
        if (!has(those, NISSY_SCRAMBLE_LINE, 0)) continue;
        if (said_one++) say_text("\n");
        say_one(of, those);
    }
    if (!said_one) say_one(of, (lines){all, 0});
    free(all);
}

static void say_plain(text of) {
    const written it = plain_of(of);
    uint64_t *const characters = memory((of.length + 1) * sizeof *characters);
    uint64_t count = 0;
    for (size_t at = 0; at < of.length; at++) characters[at] = (count += (uint64_t)begins_sign(of.bytes[at])) - 1;
    say((const char *)it.bytes, it.length), say_text("\n");
    for (uint64_t at = 0; at < it.length; at++) {
        if (!begins_sign(it.bytes[at])) continue;
        if (at > 0) say_text(" ");
        say_number(characters[it.places[at]]);
    }
    say_text("\n"), say_names(it.left_out, LEFT_OUT, "|");
    free(characters), let_go(it);
}

/* The beginning of what hosts.py has of `text`. */
static void say_all(text of) {
    say_plain(of), say("\x1e", 1);
    say_each(of, say_check), say("\x1e", 1);
    say_each(of, say_doubt), say("\x1e", 1);
}

/* Puts the bytes of hexadecimal digits in their place, and returns how many there are. */
static size_t bytes_in(uint8_t *digits, size_t length) {
    for (size_t at = 0; at < length; at++) digits[at] = (uint8_t)(digits[at] <= '9' ? digits[at] - '0' : digits[at] - 'a' + 10);
    for (size_t at = 0; at < length / 2; at++) digits[at] = (uint8_t)(16 * digits[2 * at] + digits[2 * at + 1]);
    return length / 2;
}

int main(void) {
    char *line = NULL;
    size_t room = 0;
    for (ssize_t length; (length = getline(&line, &room, stdin)) > 0;) {
        uint8_t *const digits = (uint8_t *)strchr(line, '=') + 1;
        const text of = {digits, bytes_in(digits, (size_t)length - (size_t)(digits - (uint8_t *)line) - 1)};
        said_length = 0;
        if (line[0] == 'p')
            say_plain(of);
        else if (line[0] == 't')
            say_all(of);
        else
            say_each(of, line[0] == 'c' ? say_check : say_doubt);
        putchar('=');
        for (size_t at = 0; at < said_length; at++) {
            const uint8_t byte = (uint8_t)said[at];
            putchar("0123456789abcdef"[byte / 16]), putchar("0123456789abcdef"[byte % 16]);
        }
        putchar('\n');
        fflush(stdout);
    }
    free(line), free(said);
    return 0;
}
