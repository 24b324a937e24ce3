/* The call that checks the attempts of a text, by hand and on drawn texts, in rooms after which no memory is, beside the calls on one attempt. */
#include "texts.h"

/* What is written of the moves of some lines, and what of these the place of a fault of a check is. */
static guarded moves_of(guarded text, const nissy_text_line *lines, uint64_t count, uint8_t which, uint64_t *places) {
    uint8_t out[96 * MOST_PARTS];
    const nissy_plain_answer told = nissy_text_moves(text.bytes, text.size, lines, count, which, out, sizeof out, places, sizeof out, NULL, 0);
    guarded made = guard(told.length);
    if (told.length > 0) memcpy(made.bytes, out, told.length);
    return made;
}

/* Whether the doubt of an attempt is that of its lines, if it is solved first that one may be of a scramble; else, if it isn't solved, that its
 * scramble by itself is, or a part of its steps, or all of them read otherwise; else that another attempt may begin in a line. */
static int is_doubt_of(const nissy_text_line *lines, uint64_t count, guarded scramble, const uint64_t *places, int is_unsolved,
                       const nissy_attempt_check *it) {
    uint64_t at = 0;
    if (it->check.status == NISSY_DONE && !is_unsolved)
        while (at < count && lines[at].doubt != NISSY_STEP_OR_SCRAMBLE) at++;
    else
        at = count;
    if (at == count) at = 0;
    while (at < count && lines[at].doubt == NISSY_NO_DOUBT) at++;
    if (at < count) return it->doubt == lines[at].doubt && it->doubt_at == lines[at].doubt_at;
    if (is_unsolved && scramble.size > 0 && nissy_check(scramble.bytes, scramble.size, scramble.bytes, 0).solved)
        return it->doubt == NISSY_ANOTHER_SCRAMBLE && it->doubt_at == places[0];
    if (it->doubt == NISSY_NO_DOUBT) return it->doubt_at == NISSY_NO_PLACE;
    if (it->doubt == NISSY_A_PART || it->doubt == NISSY_INSERTION || it->doubt == NISSY_COMMENT || it->doubt == NISSY_SIGNS) return is_unsolved;
    for (at = 0; at < count && lines[at].moves != it->doubt_at; at++) {
    }
    return it->doubt == NISSY_ANOTHER_ATTEMPT && at < count && lines[at].comment - lines[at].moves >= 20;
}

/* Whether a check is what nissy_check says of the moves of its lines, and its fault and its doubt stand where they say. */
static int is_check_of(guarded text, const nissy_text_line *lines, const nissy_attempt_check *it) {
    uint64_t places[2][96 * MOST_PARTS];
    const uint64_t count = it->end_line - it->first_line;
    guarded scramble = moves_of(text, lines, count, NISSY_OF_SCRAMBLE, places[0]),
            solution = moves_of(text, lines, count, NISSY_OF_SOLUTION, places[1]);
    const nissy_check_answer wanted = nissy_check(scramble.bytes, scramble.size, solution.bytes, solution.size);
    uint8_t checked = 0;
    for (uint64_t of = 0; of < count; of++) checked = checked || (lines[of].kind == NISSY_STEP_LINE && lines[of].solution);
    const int is_unsolved = wanted.status == NISSY_DONE && !(checked && wanted.solved);
    const int is_right =
        it->check.status == wanted.status && it->check.fault == wanted.fault && it->check.line == wanted.line && it->check.solved == wanted.solved &&
        it->check.column == wanted.column && it->check.moves == wanted.moves && it->check.clean_moves == wanted.clean_moves &&
        it->check.forms == wanted.forms && it->checked == checked &&
        it->fault_at == (wanted.status == NISSY_DONE ? NISSY_NO_PLACE : places[wanted.line - 1][wanted.column - 1]) &&
        it->doubted == (is_unsolved ? it->doubt != NISSY_NO_DOUBT
                                    : wanted.status == NISSY_DONE && (it->doubt == NISSY_STEP_OR_SCRAMBLE || it->doubt == NISSY_ANOTHER_ATTEMPT)) &&
        is_doubt_of(lines, count, scramble, places[0], is_unsolved, it);
    let_go(scramble), let_go(solution);
    return is_right;
}

/* The checks of a text: of each attempt that has a scramble, in order. */
static void checks_are_of_the_text(guarded text, const char *name) {
    nissy_text_line lines[32 * MOST_PARTS];
    const uint64_t count = nissy_text_lines(text.bytes, text.size, lines, 32 * MOST_PARTS).lines;
    guarded out = guard(6 * (text.size + count)), places = guard(8 * out.size), room = guard(sizeof(nissy_attempt_check) * count);
    uint64_t *const of_places = (uint64_t *)(void *)places.bytes;
    nissy_attempt_check *const checks = (nissy_attempt_check *)(void *)room.bytes;
    const nissy_attempts_answer got =
        nissy_check_attempts(text.bytes, text.size, lines, count, NULL, 0, NULL, 0, NULL, 0, out.bytes, out.size, of_places, out.size, checks, count);
    uint64_t line = 0;
    int is_right = got.status == NISSY_DONE;
    for (uint64_t at = 0; is_right && at < got.attempts; at++) {
        const nissy_attempt_check *const it = checks + at;
        for (; line < it->first_line; line++) is_right = is_right && lines[line].kind != NISSY_SCRAMBLE_LINE;
        is_right = is_right && it->first_line < it->end_line && it->end_line <= count && it->scramble == NISSY_NO_SCRAMBLE &&
                   is_check_of(text, lines + it->first_line, it);
        for (; is_right && line < it->end_line; line++) is_right = lines[line].attempt == lines[it->first_line].attempt;
        is_right = is_right && (line == count || lines[line].attempt != lines[it->first_line].attempt);
    }
    for (; line < count; line++) is_right = is_right && lines[line].kind != NISSY_SCRAMBLE_LINE;
    holds(is_right, "its checks", name);
    if (got.attempts > 0) {
        const nissy_attempts_answer few = nissy_check_attempts(text.bytes, text.size, lines, count, NULL, 0, NULL, 0, NULL, 0, out.bytes, out.size,
                                                               of_places, out.size, checks, got.attempts - 1);
        holds(few.status == NISSY_ROOM && few.attempts == got.attempts, "too small a room for checks", name);
    }
    let_go(out), let_go(places), let_go(room);
}

/* Whether a text of attempts, or of solutions of `known` scrambles, has this check. The numbers are those of its struct up to `checked`, and then the
 * status, the line and whether it is solved. */
static void has_check(const char *text, const char *const *scrambles, size_t known, unsigned nth, const uint64_t wanted[13]) {
    nissy_text_line lines[8];
    nissy_known_part parts[8];
    nissy_attempt_check checks[8];
    uint64_t counts[2], ends[2], places[512];
    uint8_t out[512];
    char all[64] = "";
    for (size_t at = 0; at < known; at++) ends[at] = strlen(strcat(all, scrambles[at]));
    const uint8_t *const bytes = (const uint8_t *)text;
    const size_t size = strlen(text);
    const nissy_known_answer told = nissy_known_lines(bytes, size, lines, 8, parts, 8, counts, known);
    const uint64_t count = known > 0 ? told.lines : nissy_text_lines(bytes, size, lines, 8).lines;
    const nissy_attempts_answer got = nissy_check_attempts(bytes, size, lines, count, parts, known > 0 ? told.parts : 0, (const uint8_t *)all,
                                                           strlen(all), ends, known, out, sizeof out, places, sizeof out, checks, 8);
    holds(got.status == NISSY_DONE && nth < got.attempts, "a check", text);
    const nissy_attempt_check it = checks[nth];
    const uint64_t has[13] = {it.scramble, it.name_begin, it.name_end, it.first_line,   it.end_line,   it.fault_at,    it.doubt_at,
                              it.doubt,    it.doubted,    it.checked,  it.check.status, it.check.line, it.check.solved};
    for (int at = 0; at < 13; at++) holds(has[at] == wanted[at], "what it says", text);
}

/* Attempts that are solved, at fault and in doubt, and those of known scrambles. */
static void checks_of_attempts(void) {
    enum { NONE = 0 };
    static const uint64_t NO = UINT64_MAX;
    static const char SHEET[] = "1. R U F\nF' U' R' // EO\n\n2. R U\nSolution: U' // on inverse", STEPS[] = "1. R U F\nL // EO\nF' U' R' // end";
    has_check(SHEET, NULL, NONE, 0, (uint64_t[]){NO, 0, 0, 0, 3, NO, NO, 0, 0, 1, NISSY_DONE, 0, 1});
    has_check(SHEET, NULL, NONE, 1, (uint64_t[]){NO, 0, 0, 3, 5, NO, 51, NISSY_SIDE, 1, 1, NISSY_DONE, 0, 0});
    has_check(STEPS, NULL, NONE, 0, (uint64_t[]){NO, 0, 0, 0, 3, NO, 9, NISSY_A_PART, 1, 1, NISSY_DONE, 0, 0});
    has_check("1. R U F F' U' R'", NULL, NONE, 0, (uint64_t[]){NO, 0, 0, 0, 1, NO, 3, NISSY_ANOTHER_SCRAMBLE, 1, 0, NISSY_DONE, 0, 1});
    has_check("1. R Q\n2. R U", NULL, NONE, 0, (uint64_t[]){NO, 0, 0, 0, 1, 5, NO, 0, 0, 0, NISSY_FAULT, 1, 0});
    /* a scramble on two lines, or one of which the second may be a step; and a second attempt that isn't told from the first one */
    static const char WRAPPED[] = "U2 B' R2 U2 D2 R F' U' F U2 B2 D2\nU2 F U' L D' U2 R2 F' U' L2 R'\n"
                                  "R L2 U F // EO\nR2 U2 D L' U F' U2 D2 // DR\nB2 U2 F' U F R' D2 U2 R2 B U2",
                      MERGED[] = "R U\nU' R' // end\nU2 F U' L D' U2 R2 F' U' L2 R' D2 F2 R2 U\nU' R2 F2 D2 R L2 U F R2 U2 D L' U F' U2 // end";
    has_check(WRAPPED, NULL, NONE, 0, (uint64_t[]){NO, 0, 0, 0, 5, NO, 34, NISSY_STEP_OR_SCRAMBLE, 1, 1, NISSY_DONE, 0, 1});
    has_check(MERGED, NULL, NONE, 0, (uint64_t[]){NO, 0, 0, 0, 4, NO, 17, NISSY_ANOTHER_ATTEMPT, 1, 1, NISSY_DONE, 0, 1});
    /* the same of eight moves with a word after them, and if the first one isn't solved; but not of seven moves */
    static const char SHORT[] = "R U\nU' R' // end\nU2 F U' L D' U2 R2 F' // next\nF R2 U2 D L' U F' U2 // end",
                      UNSOLVED[] = "R U\nU' R // end\nU2 F U' L D' U2 R2 F' // next\nF R2 U2 D L' U F' U2 // end",
                      SEVEN[] = "R U\nU' R // end\nF U' L D' U2 R2 F' // next\nF R2 U2 D L' U F' // end";
    has_check(SHORT, NULL, NONE, 0, (uint64_t[]){NO, 0, 0, 0, 4, NO, 17, NISSY_ANOTHER_ATTEMPT, 1, 1, NISSY_DONE, 0, 1});
    has_check(UNSOLVED, NULL, NONE, 0, (uint64_t[]){NO, 0, 0, 0, 4, NO, 16, NISSY_ANOTHER_ATTEMPT, 1, 1, NISSY_DONE, 0, 0});
    has_check(SEVEN, NULL, NONE, 0, (uint64_t[]){NO, 0, 0, 0, 4, NO, NO, 0, 0, 1, NISSY_DONE, 0, 0});
    nissy_text_line lines[3];
    const nissy_text_answer sheet = nissy_text_lines((const uint8_t *)STEPS, sizeof STEPS - 1, lines, 3);
    const nissy_attempts_answer none =
        nissy_check_attempts((const uint8_t *)STEPS, sizeof STEPS - 1, lines, sheet.lines, NULL, 0, NULL, 0, NULL, 0, NULL, 0, NULL, 0, NULL, 0);
    holds(none.status == NISSY_ROOM && none.attempts == 0, "no room for moves", STEPS);
    static const char *const KNOWN[] = {"R U", "R U F"}, *const FAULTY[] = {"R U", "R Q"};
    static const char NUMBERED[] = "2. F' U' R'\n1. U' R' // easy\n3. R";
    has_check(NUMBERED, KNOWN, 2, 0, (uint64_t[]){1, 0, 2, 0, 1, NO, NO, 0, 0, 1, NISSY_DONE, 0, 1});
    has_check(NUMBERED, KNOWN, 2, 1, (uint64_t[]){0, 12, 14, 1, 2, NO, NO, 0, 0, 1, NISSY_DONE, 0, 1});
    has_check(NUMBERED, KNOWN, 2, 2, (uint64_t[]){NO, 29, 31, 2, 3, NO, 29, NISSY_WHICH_SCRAMBLE, 1, 0, NISSY_DONE, 0, 0});
    /* what solves another known scramble, unless a part solves its own */
    static const char EXCHANGED[] = "1. F' U' R'\n2. U' R'", OF_BOTH[] = "1. F'\nU' R'\n2. D";
    has_check(EXCHANGED, KNOWN, 2, 0, (uint64_t[]){0, 0, 2, 0, 1, NO, 0, NISSY_WHICH_SCRAMBLE, 1, 1, NISSY_DONE, 0, 0});
    has_check(EXCHANGED, KNOWN, 2, 1, (uint64_t[]){1, 12, 14, 1, 2, NO, 12, NISSY_WHICH_SCRAMBLE, 1, 1, NISSY_DONE, 0, 0});
    has_check(OF_BOTH, KNOWN, 2, 0, (uint64_t[]){0, 0, 2, 0, 2, NO, 3, NISSY_A_PART, 1, 1, NISSY_DONE, 0, 0});
    has_check(OF_BOTH, KNOWN, 2, 1, (uint64_t[]){1, 12, 14, 2, 3, NO, NO, 0, 0, 1, NISSY_DONE, 0, 0});
    has_check(NUMBERED, FAULTY, 2, 0, (uint64_t[]){1, 0, 2, 0, 1, NO, NO, 0, 0, 1, NISSY_FAULT, 1, 0});
}

int main(void) {
    drawn_texts(3, checks_are_of_the_text);
    checks_of_attempts();
    return ended();
}
