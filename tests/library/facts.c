/* The calls that judge lines, and those on many lines: the rows of tests/calls.tsv, faults, and texts of lines. What is
   longest is tried from Python. */
#include "searches.h"

#include "nissy_forms.h"

static nissy_facts_answer facts_of(const char *line) {
    guarded read = copied(line, strlen(line));
    nissy_facts_answer got = nissy_facts(read.bytes, read.size);
    let_go(read);
    return got;
}

static nissy_check_answer check_of(const char *scramble, const char *solution) {
    guarded first = copied(scramble, strlen(scramble)), second = copied(solution, strlen(solution));
    nissy_check_answer got = nissy_check(first.bytes, first.size, second.bytes, second.size);
    let_go(first), let_go(second);
    return got;
}

/* A line, whether it is solved, its moves, and the masks of steps and, on each axis, of bad edges, bad corners and misplaced edges. */
static const struct judged {
    const char *line;
    int solved, moves, clean_moves, holds;
    unsigned masks[3][3];
} JUDGED[] = {
#include "facts.inc"
};

static void lines_are_judged(void) {
    static const int AXES[] = {NISSY_FB, NISSY_RL, NISSY_UD};
    for (const struct judged *row = JUDGED; row < JUDGED + sizeof JUDGED / sizeof *JUDGED; row++) {
        nissy_facts_answer got = facts_of(row->line);
        holds(got.status == NISSY_DONE && got.fault == 0 && got.column == 0, "its status", row->line);
        holds(got.moves == row->moves && got.clean_moves == row->clean_moves, "its moves", row->line);
        holds(got.solved == row->solved && got.holds == row->holds, "whether it is solved, and the steps that hold", row->line);
        for (int at = 0; at < 3; at++) {
            const unsigned *masks = row->masks[at];
            nissy_axis_facts wanted = {(uint16_t)masks[0],
                                       (uint16_t)masks[1],
                                       (uint16_t)masks[2],
                                       (uint8_t)__builtin_popcount(masks[0]),
                                       (uint8_t)__builtin_popcount(masks[1]),
                                       (uint8_t)__builtin_popcount(masks[2])};
            holds(is_same_axis(got.axes[AXES[at]], wanted), "its pieces on an axis", row->line);
        }
    }
}

static const struct checked {
    const char *scramble, *solution;
    int solved, moves, clean_moves, forms;
} CHECKED[] = {
#include "checks.inc"
};

static void is_fault(nissy_check_answer got, int line, int fault, unsigned column, const char *of) {
    holds(got.status == NISSY_FAULT && got.line == line && got.fault == fault && got.column == column, "its fault", of);
    holds(!got.solved && !got.moves && !got.clean_moves && !got.forms, "nothing else", of);
}

/* Where lines have forms that the WCA's notation hasn't, each as `column text forms|`. */
static void forms_have_places(void) {
    static const char *const LINES[][2] = {
#include "forms.inc"
    };
    for (size_t at = 0; at < sizeof LINES / sizeof *LINES; at++) {
        guarded line = copied(LINES[at][0], strlen(LINES[at][0]));
        char told[256] = "";
        size_t passed = 0;
        for (nissy_form_place it; (it = nissy_next_form_place(line.bytes, line.size, passed)).forms; passed = it.last)
            snprintf(told + strlen(told), sizeof told - strlen(told), "%zu %.*s %u|", it.column, (int)(it.last - it.column + 1),
                     LINES[at][0] + it.column - 1, it.forms);
        holds(strcmp(told, LINES[at][1]) == 0, "where its forms are", LINES[at][0]);
        let_go(line);
    }
    holds(nissy_next_form_place(NULL, 0, 0).forms == 0, "a null line has none", "nissy_next_form_place");
}

static void solutions_are_checked(void) {
    for (size_t at = 0; at < sizeof CHECKED / sizeof *CHECKED; at++) {
        const struct checked *row = &CHECKED[at];
        nissy_check_answer got = check_of(row->scramble, row->solution);
        holds(got.status == NISSY_DONE && !got.fault && !got.line && !got.column, "its status", row->solution);
        holds(got.solved == row->solved && got.forms == row->forms, "whether it solves, and its forms", row->solution);
        holds(got.moves == row->moves && got.clean_moves == row->clean_moves, "its moves", row->solution);
    }
    for (size_t at = 0; at < UNREAD_COUNT; at++) {
        const fault_row *row = &UNREAD[at];
        is_fault(check_of(row->line, "R"), 1, row->fault, row->column, row->line);
        is_fault(check_of("R", row->line), 2, row->fault, row->column, row->line);
        is_fault(check_of(row->line, "q"), 1, row->fault, row->column, row->line);
        nissy_facts_answer got = facts_of(row->line), none;
        memset(&none, 0, sizeof none);
        none.status = NISSY_FAULT, none.fault = (uint8_t)row->fault, none.column = row->column;
        holds(got.status == none.status && got.fault == none.fault && got.column == none.column && !got.solved, "its fault", row->line);
        holds(!got.moves && !got.clean_moves && !got.holds && is_same_axis(got.axes[0], none.axes[0]), "nothing else", row->line);
    }
}

/* As many moves as a line may have, and one more. */
static void most_moves_are_judged(void) {
    char line[2 * 257 + 1], inverse[3 * 256 + 1] = "";
    for (int at = 0; at < 257; at++) memcpy(line + 2 * at, "R ", 2);
    for (int at = 0; at < 256; at++) strcat(inverse, "R' ");
    line[2 * 257] = 0;
    is_fault(check_of(line, ""), 1, NISSY_TOO_LONG, 2 * 256 + 1, "257 moves");
    line[2 * 256] = 0;
    nissy_facts_answer got = facts_of(line);
    holds(got.moves == 256 && got.clean_moves == 0 && got.solved, "its moves", "256 moves");
    nissy_check_answer check = check_of(line, inverse);
    holds(check.solved && check.moves == 256 && check.clean_moves == 0, "its inverse solves it", "256 moves");
}

/* A text of lines, of which the fifth is empty and the last one has no line feed. That each is answered as by itself, in rooms of any size, is
   drawn by fuzz.c. */
static const char LINES[] = "F\nR q\nR U F\nF B\n\n(U\nF";
enum { LINE_COUNT = 7 };

static void many_lines_are_answered(void) {
    nissy_tables tables = built("eofb"), reduction = built("drud-eofb"), none = NISSY_NO_TABLES;
    guarded out = untouched(LINE_COUNT * sizeof(nissy_search_answer)), read = copied(LINES, strlen(LINES));
    nissy_search_answer *answers = (nissy_search_answer *)(void *)out.bytes;
    const uint8_t *text = read.bytes;
    nissy_lines_answer got = nissy_count_lines(&tables, text, strlen(LINES), 20, 0, NISSY_ALL, 74, answers, LINE_COUNT);
    holds(got.lines == LINE_COUNT && got.bytes == strlen(LINES), "all lines", "eofb");
    holds(answers[0].solutions == 2 && answers[0].least == 1 && answers[2].nodes == 20, "the counts", "F, and R U F");
    holds(answers[1].status == NISSY_FAULT && answers[1].fault == NISSY_NOT_A_MOVE && answers[1].column == 3, "its fault", "R q");
    holds(answers[3].status == NISSY_CUT && answers[3].nodes <= 74 && answers[3].more == 1, "75 positions are too many", "F B");
    holds(answers[4].solutions == 1 && answers[4].least == 0 && answers[5].fault == NISSY_UNCLOSED, "no move, and a fault", "an empty line");
    got = nissy_count_lines(&reduction, text, strlen(LINES), 3, 0, NISSY_ALL, NISSY_ALL, answers, 1);
    holds(got.lines == 1 && got.bytes == 2 && answers[0].fault == NISSY_START && answers[0].column == 0, "its start", "drud-eofb of F");
    got = nissy_count_lines(&none, text, strlen(LINES), 20, 0, NISSY_ALL, NISSY_ALL, NULL, 0);
    holds(got.status == NISSY_USAGE && got.lines == 0 && got.bytes == 0, "there are no tables", "nissy_count_lines");
    got = nissy_count_lines(&tables, NULL, 0, 20, 0, NISSY_ALL, NISSY_ALL, answers, LINE_COUNT);
    holds(got.status == NISSY_DONE && got.lines == 0 && got.bytes == 0, "a null text has no line", "nissy_count_lines");
    got = nissy_facts_lines(NULL, 0, NULL, 0);
    holds(got.status == NISSY_DONE && got.lines == 0 && got.bytes == 0, "a null text has no line", "nissy_facts_lines");
    holds(nissy_facts(NULL, 0).solved && nissy_check(NULL, 0, NULL, 0).solved, "a null line is empty", "nissy_facts and nissy_check");
    let_go(out), let_go(read);
}

int main(void) {
    lines_are_judged();
    forms_have_places();
    solutions_are_checked();
    most_moves_are_judged();
    many_lines_are_answered();
    return ended();
}
