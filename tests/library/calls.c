/* Each call once with each of its rows: that header and library mean the same numbers, in rooms to the byte and a byte less, that they touch
   nothing but what they may, and what a null pointer and a misuse that can be seen give. Rooms of any size are proved, and drawn by fuzz.c.

       calls [few]      `few` takes one run of six, where a tool makes each byte slow */
#include "rows.h"
#include "searches.h"

enum { MOST = 20 };

typedef nissy_line_answer line_call(const uint8_t *, size_t, uint8_t *, size_t);

typedef struct line_row {
    line_call *call;
    const char *line;
    const char *text;
} line_row;

static const line_row READ[] = {
#include "texts.inc"
};

/* Whether a buffer holds the beginning of a text, as much as it has room for, and is as it was after that. */
static int holds_beginning(guarded buffer, size_t length, const char *text) {
    size_t whole = strlen(text), wanted = whole < buffer.size ? whole : buffer.size;
    return length == wanted && memcmp(buffer.bytes, text, length) == 0 && are_all(buffer.bytes + length, buffer.size - length, UNTOUCHED);
}

/* A text that a call writes if it has room for it. */
static void is_text(nissy_line_answer got, guarded out, const char *text, const char *of) {
    size_t length = strlen(text), written = length <= out.size ? length : 0;
    holds(got.status == (length <= out.size ? NISSY_DONE : NISSY_ROOM) && got.fault == 0 && got.column == 0, "its status", of);
    holds(got.length == length && memcmp(out.bytes, text, written) == 0, "its text", of);
    holds(are_all(out.bytes + written, out.size - written, UNTOUCHED), "the rest of the buffer is as it was", of);
}

static void is_refused(nissy_line_answer got, guarded out, int status, int fault, unsigned column, const char *of) {
    holds(got.status == status && got.fault == fault && got.column == column && got.length == 0, "it is refused", of);
    holds(are_all(out.bytes, out.size, UNTOUCHED), "nothing is written", of);
}

static void reads_lines(void) {
    for (size_t at = 0; at < sizeof READ / sizeof *READ; at++) {
        guarded line = copied(READ[at].line, strlen(READ[at].line));
        size_t length = strlen(READ[at].text);
        for (size_t room = length ? length - 1 : 0; room <= length + 1; room++) {
            guarded out = untouched(room);
            is_text(READ[at].call(line.bytes, line.size, out.bytes, room), out, READ[at].text, READ[at].line);
            let_go(out);
        }
        let_go(line);
    }
    for (size_t at = 0; at < UNREAD_COUNT; at++) {
        const fault_row *row = &UNREAD[at];
        guarded line = copied(row->line, strlen(row->line)), out = untouched(40);
        is_refused(nissy_invert(line.bytes, line.size, out.bytes, 40), out, NISSY_FAULT, row->fault, row->column, row->line);
        is_refused(nissy_facelets(line.bytes, line.size, out.bytes, 40), out, NISSY_FAULT, row->fault, row->column, row->line);
        let_go(line), let_go(out);
    }
}

/* One run with so much room: the row's answer, or `cannot write` where its output is longer than that. */
static void runs_with_room(const run_row *row, size_t words_length, size_t out_room, size_t err_room) {
    guarded words = copied(row->words, words_length), input = copied(row->input, strlen(row->input));
    guarded out = untouched(out_room), err = untouched(err_room);
    nissy_run_answer got = nissy_run(words.bytes, words.size, input.bytes, input.size, out.bytes, out.size, err.bytes, err.size);
    int is_cut = strlen(row->out) > out_room;
    const char *err_text = is_cut ? "nissy: cannot write\n" : row->err;
    holds(got.status == (is_cut ? NISSY_STOPPED : row->status), "its status", name_of(row));
    holds(got.out_too_small == is_cut && holds_beginning(out, got.out_length, row->out), "its output", name_of(row));
    holds(got.err_too_small == (strlen(err_text) > err_room), "whether the error text was too long", name_of(row));
    holds(holds_beginning(err, got.err_length, err_text), "its error text", name_of(row));
    let_go(words), let_go(input), let_go(out), let_go(err);
}

static void runs(int step) {
    for (const run_row *row = RUNS; row < RUNS + RUN_COUNT; row += step) {
        size_t length = strlen(row->out), words = row->words_length;
        runs_with_room(row, words, length, NISSY_ERROR_ROOM);
        if (length) runs_with_room(row, words, length - 1, NISSY_ERROR_ROOM);
        if (*row->err) runs_with_room(row, words, length, strlen(row->err) - 1);
        /* the last word's zero byte may be left out */
        if (words > 1 && row->words[words - 2] != 0) runs_with_room(row, words - 1, length, NISSY_ERROR_ROOM);
    }
}

/* A search of a row by which the first solutions are to be written. */
static nissy_search_answer solve(const nissy_tables *tables, const search_row *row, uint64_t most, uint64_t most_nodes, guarded out) {
    return nissy_solve(tables, (const uint8_t *)row->line, strlen(row->line), row->limit, row->slack, most, most_nodes, out.bytes, out.size);
}

static nissy_search_answer count_of(const nissy_tables *tables, const search_row *row, uint64_t most, uint64_t most_nodes) {
    return nissy_count(tables, (const uint8_t *)row->line, strlen(row->line), row->limit, row->slack, most, most_nodes);
}

/* What is written is a beginning of the row's text, of whole solutions, and nothing stands after it. */
static void is_beginning(nissy_search_answer got, guarded out, const search_row *row) {
    size_t feeds = 0;
    for (size_t at = 0; at < got.length; at++) feeds += out.bytes[at] == '\n';
    holds(memcmp(out.bytes, row->text, got.length) == 0 && feeds == got.solutions, "the first of them", row->line);
    holds(are_all(out.bytes + got.length, out.size - got.length, UNTOUCHED), "nothing is written after them", row->line);
}

/* A byte of room too few, or one solution fewer at most. */
static void solves_fewer(const nissy_tables *tables, const search_row *row, uint64_t solutions) {
    guarded out = untouched(strlen(row->text) - 1);
    nissy_search_answer cut = solve(tables, row, NISSY_ALL, NISSY_ALL, out);
    holds(cut.status == NISSY_ROOM && cut.more == 1 && cut.solutions == solutions - 1, "a byte of room too few", row->line);
    is_beginning(cut, out, row);
    let_go(out);
    out = untouched(strlen(row->text));
    cut = solve(tables, row, solutions - 1, NISSY_ALL, out);
    holds(cut.status == NISSY_DONE && cut.more == 1 && cut.solutions == solutions - 1, "one fewer at most", row->line);
    is_beginning(cut, out, row);
    holds(is_same(cut, count_of(tables, row, solutions - 1, NISSY_ALL)), "a count of one fewer", row->line);
    cut = count_of(tables, row, 0, NISSY_ALL);
    holds(cut.status == NISSY_DONE && cut.more == 1 && cut.solutions == 0 && cut.least == row->least, "a count of none has the length", row->line);
    let_go(out);
    out = untouched(0);
    cut = solve(tables, row, solutions - 1, NISSY_ALL, out);
    holds(cut.more == 1 && cut.status == (solutions > 1 ? NISSY_ROOM : NISSY_DONE) && cut.length == 0, "one fewer, without room", row->line);
    let_go(out);
}

/* A look at a position is followed by one for each turn that may follow, which the bound allows together. */
#define MOST_TURNS 18

/* A bound that the whole search keeps changes nothing; by one that is lower the search is cut, and never looks more often. Any bound is proved. */
static void is_bounded(const nissy_tables *tables, const search_row *row, nissy_search_answer whole) {
    guarded out = untouched(strlen(row->text));
    holds(is_same(whole, solve(tables, row, NISSY_ALL, whole.nodes, out)), "as many positions as it looks at", row->line);
    holds(is_same(whole, count_of(tables, row, NISSY_ALL, whole.nodes)), "a count that looks at as many", row->line);
    let_go(out);
    for (uint64_t bound = whole.nodes; bound-- > 0; bound /= 2) {
        out = untouched(strlen(row->text));
        nissy_search_answer cut = solve(tables, row, NISSY_ALL, bound, out), told = count_of(tables, row, NISSY_ALL, bound);
        holds(cut.status == NISSY_CUT && cut.more == 1 && cut.nodes <= bound && !cut.fault && !cut.column, "a lower bound cuts it", row->line);
        holds(cut.nodes + MOST_TURNS > bound, "and not before the next positions would pass it", row->line);
        holds(cut.least == (cut.solutions ? row->least : 0), "the least length, if it is known", row->line);
        holds(is_same(cut, told) && told.length == 0, "a count that is cut", row->line);
        is_beginning(cut, out, row);
        let_go(out);
    }
}

/* One search that is to write the solutions of the row: of all that there are a count says the same. */
static void solves(const nissy_tables *tables, const search_row *row) {
    guarded line = copied(row->line, strlen(row->line)), out = untouched(strlen(row->text));
    nissy_search_answer got = nissy_solve(tables, line.bytes, line.size, row->limit, row->slack, NISSY_ALL, NISSY_ALL, out.bytes, out.size);
    holds(got.status == NISSY_DONE && got.fault == 0 && got.column == 0 && !got.more, "its status", row->line);
    holds(holds_beginning(out, got.length, row->text) && got.least == row->least, "the solutions", row->line);
    if (row->nodes) holds(got.nodes == row->nodes, "the positions looked at", row->line);
    nissy_search_answer told = nissy_count(tables, line.bytes, line.size, row->limit, row->slack, NISSY_ALL, NISSY_ALL);
    holds(is_same(got, told) && told.length == 0, "a count", row->line);
    let_go(out), let_go(line);
    if (got.solutions) solves_fewer(tables, row, got.solutions);
    is_bounded(tables, row, got);
}

/* Whether a search says this and nothing else. */
static int says_alone(nissy_search_answer got, int status, int fault, unsigned column) {
    return got.status == status && got.fault == fault && got.column == column && !got.length && !got.solutions && !got.least && !got.nodes &&
           !got.more;
}

/* Both searches of a line answer this and write nothing. */
static void refuses(const nissy_tables *tables, const char *line, uint8_t limit, uint8_t slack, int status, int fault, unsigned column) {
    guarded read = copied(line, strlen(line)), out = untouched(100);
    for (uint64_t bound = 0; bound < 3; bound++) {
        uint64_t most_nodes = bound ? NISSY_ALL - bound + 1 : 0;
        nissy_search_answer got = nissy_solve(tables, read.bytes, read.size, limit, slack, NISSY_ALL, most_nodes, out.bytes, out.size);
        holds(says_alone(got, status, fault, column), "its status and fault, and nothing else", line);
        holds(are_all(out.bytes, out.size, UNTOUCHED), "nothing is written", line);
        got = nissy_count(tables, read.bytes, read.size, limit, slack, NISSY_ALL, most_nodes);
        holds(says_alone(got, status, fault, column), "a count's status and fault", line);
    }
    let_go(read), let_go(out);
}

static void refuses_searches(void) {
    static const char *const NO_STEPS[] = {"htr", "", "eofb ", "eof", "EOFB", "\xff"};
    nissy_tables none = NISSY_NO_TABLES, zero, tables = built("eofb"), of_either = built("dr-eofb");
    memset(&zero, 0, sizeof zero);
    refuses(&none, "F", MOST, 0, NISSY_USAGE, NISSY_NO_FAULT, 0);
    refuses(&zero, "F", MOST, 0, NISSY_USAGE, NISSY_NO_FAULT, 0);
    refuses(&tables, "F", MOST + 1, 0, NISSY_USAGE, NISSY_NO_FAULT, 0);
    refuses(&tables, "F", 0, 255, NISSY_USAGE, NISSY_NO_FAULT, 0);
    for (size_t at = 0; at < UNREAD_COUNT; at++) refuses(&tables, UNREAD[at].line, MOST, 0, NISSY_FAULT, UNREAD[at].fault, UNREAD[at].column);
    refuses(&of_either, "R U F", 0, 0, NISSY_FAULT, NISSY_START, 0);
    refuses(&of_either, "F q", MOST, 0, NISSY_FAULT, NISSY_NOT_A_MOVE, 3);
    for (size_t at = 0; at < sizeof NO_STEPS / sizeof *NO_STEPS; at++) {
        nissy_tables lost = tables;
        holds(nissy_build(&lost, (const uint8_t *)NO_STEPS[at], strlen(NO_STEPS[at])) == NISSY_USAGE, "no step has this name", NO_STEPS[at]);
        refuses(&lost, "F", MOST, 0, NISSY_USAGE, NISSY_NO_FAULT, 0);
    }
    solves(&tables, &SEARCHES[0]);
}

/* A copy answers as the struct did, also once another step was built into that. */
static void copies_stay(void) {
    static nissy_tables tables;
    nissy_tables copy = tables = built("eofb");
    solves(&copy, &SEARCHES[0]);
    holds(nissy_build(&tables, (const uint8_t *)"eorl", 4) == NISSY_DONE, "another step is built", "a struct with tables");
    solves(&copy, &SEARCHES[0]);
    holds(nissy_count(&tables, (const uint8_t *)"F", 1, MOST, 0, NISSY_ALL, NISSY_ALL).least == 0, "it asks the step that was built last",
          "F of eorl");
}

/* A null pointer to no byte is as good as another. */
static void null_is_empty(void) {
    nissy_tables tables = built("eofb");
    uint8_t out[NISSY_LINE_ROOM], err[NISSY_ERROR_ROOM];
    nissy_search_answer got = nissy_solve(&tables, NULL, 0, MOST, 0, NISSY_ALL, NISSY_ALL, out, sizeof out);
    holds(got.status == NISSY_DONE && got.length == 4 && memcmp(out, "(0)\n", 4) == 0, "a null line is empty", "nissy_solve");
    got = nissy_solve(&tables, NULL, 0, MOST, 0, NISSY_ALL, NISSY_ALL, NULL, 0);
    holds(got.status == NISSY_ROOM && got.length == 0 && got.more, "a null room is too small", "nissy_solve");
    holds(nissy_count(&tables, NULL, 0, MOST, 0, NISSY_ALL, NISSY_ALL).solutions == 1, "a null line is empty", "nissy_count");
    line_call *const on_a_line[] = {nissy_invert, nissy_unniss, nissy_cleanup};
    for (size_t at = 0; at < sizeof on_a_line / sizeof *on_a_line; at++) {
        nissy_line_answer is = on_a_line[at](NULL, 0, NULL, 0);
        holds(is.status == NISSY_DONE && is.length == 0, "a null line is empty and has an empty answer", "a call on a line");
        is = on_a_line[at]((const uint8_t *)"R", 1, NULL, 0);
        holds(is.status == NISSY_ROOM && is.length > 0, "a null room is too small", "a call on a line");
    }
    holds(nissy_facelets(NULL, 0, out, sizeof out).length == 54, "a null line is the solved cube", "nissy_facelets");
    holds(nissy_start(NULL, 0, NULL, 0).status == NISSY_USAGE, "a null name is none", "nissy_start");
    nissy_run_answer run = nissy_run((const uint8_t *)"invert", 6, NULL, 0, NULL, 0, NULL, 0);
    holds(run.status == NISSY_DONE && run.out_length == 0 && !run.out_too_small, "null input, output and error text", "nissy_run");
    run = nissy_run(NULL, 0, NULL, 0, NULL, 0, NULL, 0);
    holds(run.status == NISSY_USAGE && run.err_too_small && run.err_length == 0, "all of them null", "nissy_run");
    run = nissy_run((const uint8_t *)"invert", 6, (const uint8_t *)"R\n", 2, NULL, 0, err, sizeof err);
    holds(run.status == NISSY_STOPPED && run.out_too_small, "a null room is too small", "nissy_run");
}

/* The number of NISSY_VERSION, or 1. */
static uint32_t version_of_header(void) {
    unsigned major, minor, patch;
    return sscanf(NISSY_VERSION, "%u.%u.%u", &major, &minor, &patch) == 3 ? major * 10000 + minor * 100 + patch : 1;
}

/* The calls that take no line. */
static void texts_are_written(void) {
    static const char *const FAULTS[] = {"not a move",         "bracket inside a bracket", "bracket closed that was not opened",
                                         "bracket not closed", "more than 256 moves",      "does not hold"};
    static const char STEPS[] =
#include "steps.inc"
        ;
    guarded out = untouched(NISSY_LINE_ROOM);
    is_refused(nissy_scramble(1, 2, 257, out.bytes, out.size), out, NISSY_USAGE, 0, 0, "257 turns");
    is_refused(nissy_start((const uint8_t *)"htr", 3, out.bytes, out.size), out, NISSY_USAGE, 0, 0, "the start of no step");
    is_refused(nissy_fault_text(0, out.bytes, out.size), out, NISSY_USAGE, 0, 0, "the text of no fault");
    is_refused(nissy_fault_text(7, out.bytes, out.size), out, NISSY_USAGE, 0, 0, "the text of fault 7");
    let_go(out);
    for (size_t room = 19; room <= NISSY_LINE_ROOM; room += NISSY_LINE_ROOM - 19) {
        out = untouched(room), is_text(nissy_scramble(42, 54, 6, out.bytes, room), out, "L' D' F' R2 F' L'", "nissy_scramble"), let_go(out);
        out = untouched(room), is_text(nissy_steps(out.bytes, room), out, STEPS, "nissy_steps"), let_go(out);
        out = untouched(room), is_text(nissy_start((const uint8_t *)"eo", 2, out.bytes, room), out, "", "nissy_start"), let_go(out);
        out = untouched(room), is_text(nissy_start((const uint8_t *)"dr-eorl", 7, out.bytes, room), out, "eorl", "nissy_start"), let_go(out);
        for (uint8_t at = 0; at < sizeof FAULTS / sizeof *FAULTS; at++) {
            out = untouched(room), is_text(nissy_fault_text(at + 1, out.bytes, room), out, FAULTS[at], "nissy_fault_text"), let_go(out);
        }
    }
    holds(nissy_version() == version_of_header(), "it is that of the header", "nissy_version");
}

int main(int count, char **words) {
    (void)words;
    reads_lines();
    runs(count == 1 ? 1 : 6);
    for (size_t at = 0; at < SEARCH_COUNT; at++) {
        nissy_tables tables = built(SEARCHES[at].step);
        solves(&tables, &SEARCHES[at]);
    }
    refuses_searches();
    copies_stay();
    null_is_empty();
    texts_are_written();
    return ended();
}
