/* The rows of searches.h piece by piece, each after the last solution of the piece before it, in rooms to the byte; sequences that are no
   solutions, and what can't be one. */
#include "searches.h"

enum { MOST = 20, LINE = 65 };
static const char LATE[] = "R R R R R R R R R R R R R R R R R R R R R";

/* A search after a sequence. */
static nissy_search_answer behind(const nissy_tables *tables, const search_row *row, const char *after, size_t size, uint64_t most,
                                  uint64_t most_nodes, guarded out) {
    guarded line = copied(row->line, strlen(row->line)), turns = copied(after, size);
    nissy_search_answer got =
        nissy_solve_after(tables, line.bytes, line.size, turns.bytes, turns.size, row->limit, row->slack, most, most_nodes, out.bytes, out.size);
    let_go(line), let_go(turns);
    return got;
}

/* How many bytes a text has up to its solution of this number, from 0, or all. */
static size_t length_of(const char *text, uint64_t solutions) {
    size_t length = 0;
    for (uint64_t at = 0; at < solutions && text[length]; at++) length += strcspn(text + length, "\n") + 1;
    return length;
}

/* The rest of a row's text is handed out in pieces of so many solutions. `moves` are those of the solution before it, without its count. */
static void goes_on(const nissy_tables *tables, const search_row *row, const char *rest, const char *moves, size_t size, uint64_t most) {
    for (;;) {
        size_t length = length_of(rest, most);
        guarded out = guard(length);
        nissy_search_answer got = behind(tables, row, moves, size, most, NISSY_ALL, out);
        holds(got.status == NISSY_DONE && got.length == length && memcmp(out.bytes, rest, length) == 0, "the next piece", row->line);
        holds(got.least == row->least && !got.fault && !got.column, "the least length of all", row->line);
        holds(got.more == (rest[length] != 0), "whether there are more", row->line);
        let_go(out);
        if (!rest[length]) return;
        const char *last = rest;
        while (length_of(last, 1) < (size_t)(rest + length - last)) last += length_of(last, 1);
        moves = last, size = strcspn(last, "(");
        rest += length;
    }
}

/* All that stands after the first solution, in pieces, by a search that is cut by each lower bound, and without room. */
static void in_pieces(const nissy_tables *tables, const search_row *row) {
    static const uint64_t SIZES[] = {1, 2, 7, NISSY_ALL};
    size_t first = length_of(row->text, 1), size = strcspn(row->text, "(");
    if (!first) return;
    for (size_t at = 0; at < sizeof SIZES / sizeof *SIZES; at++) goes_on(tables, row, row->text + first, row->text, size, SIZES[at]);
    guarded out = guard(strlen(row->text));
    nissy_search_answer whole = behind(tables, row, row->text, size, NISSY_ALL, NISSY_ALL, out);
    holds(behind(tables, row, row->text, size, NISSY_ALL, whole.nodes, out).status == NISSY_DONE, "as many positions as it looks at", row->line);
    // with so many looks it knows the least length
    uint64_t least_at = nissy_count(tables, (const uint8_t *)row->line, strlen(row->line), row->limit, 0, NISSY_ALL, NISSY_ALL).nodes;
    for (uint64_t bound = whole.nodes; bound-- > 0; bound /= 2) {
        nissy_search_answer cut = behind(tables, row, row->text, size, NISSY_ALL, bound, out);
        holds(cut.status == NISSY_CUT && cut.more == 1 && cut.nodes <= bound, "a lower bound cuts it", row->line);
        holds(cut.least == row->least || (cut.least == 0 && bound < least_at), "the least length, unless it is cut before that is known", row->line);
        holds(memcmp(out.bytes, row->text + first, cut.length) == 0, "a beginning of them", row->line);
    }
    /* after the last of all sequences there is nothing, and the looks of both searches are told */
    uint64_t until_first = nissy_count(tables, (const uint8_t *)row->line, strlen(row->line), row->limit, 0, 0, NISSY_ALL).nodes;
    nissy_search_answer none = behind(tables, row, LATE, strlen(LATE), NISSY_ALL, NISSY_ALL, out);
    holds(none.status == NISSY_DONE && !none.length && none.nodes >= until_first && until_first > 0, "the looks for the least length", row->line);
    let_go(out);
    out = guard(0);
    whole = behind(tables, row, row->text, size, NISSY_ALL, NISSY_ALL, out);
    holds(whole.status == (row->text[first] ? NISSY_ROOM : NISSY_DONE) && whole.length == 0, "without room", row->line);
    let_go(out);
}

/* What may stand for a solution, or may not. */
static void is_behind(const nissy_tables *tables, const char *after, const char *text) {
    static const search_row ROW = {"eofb", "F", MOST, 0, "F (1)\nF' (1)\n", 1, 0};
    guarded out = guard(2 * LINE);
    nissy_search_answer got = behind(tables, &ROW, after, strlen(after), NISSY_ALL, NISSY_ALL, out);
    holds(got.status == NISSY_DONE && got.length == strlen(text) && memcmp(out.bytes, text, got.length) == 0, "what comes after", after);
    let_go(out);
}

static void is_none(const nissy_tables *tables, const char *after, uint8_t limit, uint8_t slack, int status, int fault, const char *line) {
    search_row row = {"eofb", line, limit, slack, "", 0, 0};
    guarded out = untouched(2 * LINE);
    nissy_search_answer got = behind(tables, &row, after, strlen(after), NISSY_ALL, NISSY_ALL, out);
    holds(got.status == status && got.fault == fault && !got.length && !got.solutions && !got.nodes && !got.more, "it is refused", after);
    holds(are_all(out.bytes, out.size, UNTOUCHED), "nothing is written", after);
    let_go(out);
}

static void others(void) {
    nissy_tables tables = built("eofb"), none = NISSY_NO_TABLES;
    static const char *const NO_TURNS[] = {"F (1)", "(F)", "F (B)", "M", "x", "Fw", "f", "F B' (2)", "q", "F\n", "\xff"};
    is_behind(&tables, "", "F (1)\nF' (1)\n");
    is_behind(&tables, "L", "F (1)\nF' (1)\n");
    is_behind(&tables, "F2", "F' (1)\n");
    is_behind(&tables, " F2 ", "F' (1)\n");
    is_behind(&tables, "B", "");
    is_behind(&tables, "U D", "");
    is_behind(&tables, LATE, "");
    for (size_t at = 0; at < sizeof NO_TURNS / sizeof *NO_TURNS; at++) is_none(&tables, NO_TURNS[at], MOST, 0, NISSY_USAGE, NISSY_NO_FAULT, "F");
    is_none(&tables, "F", MOST + 1, 0, NISSY_USAGE, NISSY_NO_FAULT, "F");
    is_none(&tables, "F", MOST, MOST + 1, NISSY_USAGE, NISSY_NO_FAULT, "F");
    is_none(&none, "F", MOST, 0, NISSY_USAGE, NISSY_NO_FAULT, "F");
    is_none(&tables, "q", MOST, 0, NISSY_USAGE, NISSY_NO_FAULT, "q");
    is_none(&tables, "F", MOST, 0, NISSY_FAULT, NISSY_NOT_A_MOVE, "q");
}

int main(void) {
    for (size_t at = 0; at < SEARCH_COUNT; at++) {
        nissy_tables tables = built(SEARCHES[at].step);
        in_pieces(&tables, &SEARCHES[at]);
    }
    others();
    return ended();
}
