/* The ways on: rows that the independent model made of scrambles and moves so far, the same in parts, in small rooms and cut, what is refused, and
   the lines of cubes after moves so far. With a word, for what makes it slow, without the
   questions that take long. */
#include "searches.h"

enum { WAY_TABLES = 9, MOST_ROWS = 64 };

static nissy_tables tables[WAY_TABLES];

/* a question that takes long is left out */
static int is_quick;
static int takes_long(const char *scramble) { return strlen(scramble) > 10; }

static const char *const STEPS[WAY_TABLES] = {"eofb", "eorl", "eoud", "drud-eofb", "drrl-eofb", "drud-eorl", "drfb-eorl", "drrl-eoud", "drfb-eoud"};

/* A scramble, the moves so far, a slack, and so many of the first rows, each as `total length corners edges axis reduction | turns of the
   orientation on the normal side | on the inverse | those of the reduction |` and the same. */
static const struct asked {
    const char *scramble, *so_far;
    uint8_t slack;
    size_t rows;
    const char *text;
} ASKED[] = {
#include "ways.h"
};

/* of which this is one of few moves */
enum { ASKED_COUNT = sizeof ASKED / sizeof *ASKED, SHORT = 3 };

static nissy_ways_wanted all_of(uint8_t slack) {
    nissy_ways_wanted wanted = {slack, NISSY_ALL_AXES, 0, 20, NISSY_ALL, 0};
    return wanted;
}

/* A call with each buffer before memory that can't be touched. */
static nissy_ways_answer best_of(const char *scramble, const char *so_far, nissy_ways_wanted wanted, guarded room) {
    guarded first = copied(scramble, strlen(scramble)), second = copied(so_far, strlen(so_far));
    guarded nine = copied(tables, sizeof tables), asked = copied(&wanted, sizeof wanted);
    nissy_ways_answer got =
        nissy_best((const nissy_tables *)(const void *)nine.bytes, first.bytes, first.size, second.bytes, second.size,
                   (const nissy_ways_wanted *)(const void *)asked.bytes, (nissy_way *)(void *)room.bytes, room.size / sizeof(nissy_way));
    let_go(first), let_go(second), let_go(nine), let_go(asked);
    return got;
}

/* --- rows as text --- */

static int first_turns(const nissy_way *way) {
    const nissy_way_part *first = way->eo.step == NISSY_NO_STEP ? &way->dr : &way->eo;
    return first->normal.count + first->inverse.count;
}

static void add_turns(char *text, nissy_side_turns side) {
    static const char FACES[] = "UDRLFB";
    static const char *const POWERS[] = {"", "2", "'"};
    for (int at = 0; at < side.count; at++)
        sprintf(text + strlen(text), "%s%c%s", at ? " " : "", FACES[side.turns[at] / 3], POWERS[side.turns[at] % 3]);
}

/* the axes of the steps as they are named: those of `drud-eofb` are fb and ud */
static void add_row(char *text, const nissy_way *way) {
    const char *reduction = STEPS[way->dr.step];
    sprintf(text + strlen(text), "%d %d %d %d %.2s %.2s | ", way->total, first_turns(way), way->corners, way->edges, reduction + 7, reduction + 2);
    const nissy_side_turns sides[] = {way->eo.normal, way->eo.inverse, way->dr.normal, way->dr.inverse};
    for (int at = 0; at < 4; at++) {
        add_turns(text, sides[at]);
        strcat(text, at < 3 ? " | " : "\n");
    }
}

/* Behind its turns a side has 255. */
static int is_whole(nissy_side_turns side) { return side.count <= 20 && are_all(side.turns + side.count, 20u - side.count, 255); }

static int are_whole(const nissy_way *ways, uint64_t count) {
    for (uint64_t at = 0; at < count; at++) {
        const nissy_way *way = &ways[at];
        if (!is_whole(way->eo.normal) || !is_whole(way->eo.inverse) || !is_whole(way->dr.normal) || !is_whole(way->dr.inverse)) return 0;
        if (way->eo.step != NISSY_NO_STEP && strncmp(STEPS[way->eo.step] + 2, STEPS[way->dr.step] + 7, 2) != 0) return 0;
    }
    return 1;
}

static const char *text_of(const nissy_way *ways, uint64_t count) {
    static char text[MOST_ROWS * 256];
    text[0] = 0;
    for (uint64_t at = 0; at < count; at++) add_row(text, &ways[at]);
    return text;
}

/* --- tests --- */

static void rows_are_the_model_s(void) {
    for (const struct asked *row = ASKED; row < ASKED + ASKED_COUNT; row++) {
        if (is_quick && takes_long(row->scramble)) continue;
        guarded room = untouched(row->rows * sizeof(nissy_way));
        const nissy_way *ways = (const nissy_way *)(void *)room.bytes;
        nissy_ways_answer got = best_of(row->scramble, row->so_far, all_of(row->slack), room);
        holds(got.status == NISSY_DONE && !got.fault && !got.line && !got.column && !got.next, "its status", row->scramble);
        holds(got.rows <= row->rows && got.tried >= got.rows, "its counts", row->scramble);
        holds(strcmp(text_of(ways, got.rows), row->text) == 0, "its rows", row->scramble);
        holds(are_whole(ways, got.rows), "the turns of each", row->scramble);
        holds(are_all(room.bytes + got.rows * sizeof(nissy_way), room.size - got.rows * sizeof(nissy_way), UNTOUCHED), "the room after them",
              row->scramble);
        let_go(room);
    }
}

/* The parts of a search by axes and lengths, in an order of their own, come to the whole. */
static void parts_make_the_whole(void) {
    static const uint8_t AXES[] = {4, 1, 2};
    for (const struct asked *row = ASKED; row < ASKED + ASKED_COUNT; row++) {
        if (is_quick && takes_long(row->scramble)) continue;
        guarded room = untouched(row->rows * sizeof(nissy_way));
        nissy_ways_wanted wanted = all_of(row->slack);
        int is_done = 1, is_more = 1;
        for (uint8_t length = 0; is_more && length <= 20; length++) {
            is_more = 0;
            for (int at = 0; at < 3; at++) {
                wanted.axes = AXES[at], wanted.from = wanted.to = length;
                nissy_ways_answer got = best_of(row->scramble, row->so_far, wanted, room);
                is_done = is_done && got.status == NISSY_DONE;
                is_more = is_more || got.next;
                wanted.there = got.rows;
            }
        }
        holds(is_done, "its parts are done", row->scramble);
        holds(strcmp(text_of((const nissy_way *)(void *)room.bytes, wanted.there), row->text) == 0, "its parts", row->scramble);
        let_go(room);
    }
}

/* Each smaller room has the first rows. */
static void small_rooms_have_the_first(void) {
    const struct asked *row = &ASKED[is_quick ? SHORT : 0];
    for (size_t places = 0; places < row->rows; places++) {
        guarded room = untouched(places * sizeof(nissy_way));
        nissy_ways_answer got = best_of(row->scramble, row->so_far, all_of(row->slack), room);
        const char *text = text_of((const nissy_way *)(void *)room.bytes, got.rows);
        int is_full = got.rows == places || strcmp(text, row->text) == 0;
        holds(got.status == NISSY_DONE && is_full && strncmp(text, row->text, strlen(text)) == 0, "a smaller room", row->scramble);
        let_go(room);
    }
}

static void bounds_are_kept(void) {
    const struct asked *row = &ASKED[is_quick ? SHORT : 0];
    guarded room = untouched(row->rows * sizeof(nissy_way));
    nissy_ways_wanted wanted = all_of(row->slack);
    uint64_t whole = best_of(row->scramble, row->so_far, wanted, room).nodes;
    for (wanted.most_nodes = 0; wanted.most_nodes < whole; wanted.most_nodes = 2 * wanted.most_nodes + 1) {
        nissy_ways_answer got = best_of(row->scramble, row->so_far, wanted, room);
        holds(got.status == NISSY_CUT || (got.status == NISSY_DONE && got.nodes <= wanted.most_nodes), "its end", "a bound");
        holds(got.nodes <= wanted.most_nodes && got.rows <= row->rows, "its counts", "a bound");
        holds(are_whole((const nissy_way *)(void *)room.bytes, got.rows), "its rows", "a bound");
    }
    holds(best_of(row->scramble, row->so_far, wanted, room).status == NISSY_CUT || wanted.most_nodes >= whole, "its end", "the greatest bound");
    let_go(room);
}

static int is_refused(nissy_ways_answer got, int status, int line, int fault, unsigned column) {
    return got.status == status && got.line == line && got.fault == fault && got.column == column && !got.next && !got.rows && !got.tried &&
           !got.nodes;
}

static void what_is_wrong_is_refused(void) {
    guarded room = untouched(2 * sizeof(nissy_way));
    nissy_ways_wanted wanted = all_of(21);
    holds(is_refused(best_of("R", "", wanted, room), NISSY_USAGE, 0, 0, 0), "the slack is too large", "nissy_best");
    wanted = all_of(0), wanted.axes = 8;
    holds(is_refused(best_of("R", "", wanted, room), NISSY_USAGE, 0, 0, 0), "there is no such axis", "nissy_best");
    wanted = all_of(0), wanted.from = 21;
    holds(is_refused(best_of("R", "", wanted, room), NISSY_USAGE, 0, 0, 0), "no first step is as long", "nissy_best");
    wanted = all_of(0), wanted.to = 21;
    holds(is_refused(best_of("R", "", wanted, room), NISSY_USAGE, 0, 0, 0), "no first step is as long", "nissy_best");
    wanted = all_of(0), wanted.there = 3;
    holds(is_refused(best_of("R", "", wanted, room), NISSY_USAGE, 0, 0, 0), "more ways than have place", "nissy_best");
    wanted = all_of(0);
    for (int at = 0; at < WAY_TABLES; at++) {
        nissy_tables right = tables[at], none = NISSY_NO_TABLES;
        tables[at] = tables[(at + 1) % WAY_TABLES];
        holds(is_refused(best_of("R", "", wanted, room), NISSY_USAGE, 0, 0, 0), "tables of another step", STEPS[at]);
        tables[at] = none;
        holds(is_refused(best_of("R", "", wanted, room), NISSY_USAGE, 0, 0, 0), "no tables", STEPS[at]);
        tables[at] = right;
    }
    for (size_t at = 0; at < UNREAD_COUNT; at++) {
        const fault_row *row = &UNREAD[at];
        holds(is_refused(best_of(row->line, "R", wanted, room), NISSY_FAULT, 1, row->fault, row->column), "its fault", row->line);
        holds(is_refused(best_of("R", row->line, wanted, room), NISSY_FAULT, 2, row->fault, row->column), "its fault", row->line);
        holds(is_refused(best_of(row->line, "q", wanted, room), NISSY_FAULT, 1, row->fault, row->column), "the first one is told", row->line);
    }
    holds(are_all(room.bytes, room.size, UNTOUCHED), "the room is as it was", "nissy_best");
    let_go(room);
}

/* The three tables of each axis are asked that is named, and no others. */
static void an_axis_asks_its_own_tables(void) {
    for (int axes = 0; axes <= NISSY_ALL_AXES; axes++) {
        guarded room = untouched(MOST_ROWS * sizeof(nissy_way)), other = untouched(MOST_ROWS * sizeof(nissy_way));
        nissy_ways_wanted wanted = all_of(0);
        wanted.axes = (uint8_t)axes;
        nissy_ways_answer whole = best_of("R U F", "", wanted, room);
        for (int at = 0; at < WAY_TABLES; at++) {
            const char *axis = STEPS[at] + strlen(STEPS[at]) - 2;
            int own = strcmp(axis, "fb") == 0 ? 1 : strcmp(axis, "rl") == 0 ? 2 : 4;
            nissy_tables right = tables[at], none = NISSY_NO_TABLES;
            tables[at] = none;
            nissy_ways_answer got = best_of("R U F", "", wanted, other);
            tables[at] = right;
            if (axes & own)
                holds(is_refused(got, NISSY_USAGE, 0, 0, 0), "tables that it asks", STEPS[at]);
            else {
                holds(got.status == NISSY_DONE && got.rows == whole.rows && got.nodes == whole.nodes, "tables that it doesn't ask", STEPS[at]);
                holds((whole.rows > 0) == (axes > 0) && memcmp(room.bytes, other.bytes, room.size) == 0, "the same rows", STEPS[at]);
            }
        }
        let_go(room), let_go(other);
    }
}

/* A way that stood in the room stays as it was after a fault. */
static void rows_stay_after_faults(void) {
    guarded room = untouched(sizeof(nissy_way));
    nissy_ways_wanted wanted = all_of(0);
    wanted.there = best_of("R U F", "", wanted, room).rows;
    nissy_way was;
    memcpy(&was, room.bytes, sizeof was);
    holds(wanted.there == 1 && best_of("q", "", wanted, room).status == NISSY_FAULT && memcmp(&was, room.bytes, sizeof was) == 0, "it stays",
          "a way");
    holds(best_of("R", "(F U) D", wanted, room).rows == 1, "it may go", "a way");
    let_go(room);
}

/* --- the line after moves so far --- */

static nissy_line_after_answer after(const char *scramble, const char *so_far, guarded out) {
    guarded first = copied(scramble, strlen(scramble)), second = copied(so_far, strlen(so_far));
    nissy_line_after_answer got = nissy_line_after(first.bytes, first.size, second.bytes, second.size, out.bytes, out.size);
    let_go(first), let_go(second);
    return got;
}

/* A scramble, the moves so far, and the line, which is clean: a rotation renames what comes after it, also in brackets before it, and so does a
 * slice. */
static const char *const LINES[][3] = {
    {"R U F", "", "R U F"},
    {"", "", ""},
    {"R U F", "F' (U)", "U' R U"},
    {"R U", "(D F2) L (R')", "R F2 D' R U L"},
    {"R U", "x U", "R U F"},
    {"R U", "(B) x U", "U' R U F"},
    {"R (F)", "U U", "R F' U2"},
    {"x U", "F", "F D"},
    {"", "M", "R L'"},
    {"R U F", "F' U' (R)", ""},
    {"R U F", "D (L2) U (B)", "B' R L2 U F U D"},
};

static void lines_are_written(void) {
    for (size_t at = 0; at < sizeof LINES / sizeof *LINES; at++) {
        const char *text = LINES[at][2];
        guarded out = untouched(strlen(text));
        nissy_line_after_answer got = after(LINES[at][0], LINES[at][1], out);
        holds(got.status == NISSY_DONE && !got.fault && !got.line && !got.column && got.length == out.size, "its status", text);
        holds(memcmp(out.bytes, text, out.size) == 0, "its line", text);
        let_go(out);
        if (!*text) continue;
        out = untouched(strlen(text) - 1);
        got = after(LINES[at][0], LINES[at][1], out);
        holds(got.status == NISSY_ROOM && got.length == strlen(text) && are_all(out.bytes, out.size, UNTOUCHED), "a room too small", text);
        let_go(out);
    }
    for (size_t at = 0; at < UNREAD_COUNT; at++) {
        const fault_row *row = &UNREAD[at];
        guarded out = untouched(8);
        nissy_line_after_answer one = after(row->line, "q", out), other = after("R", row->line, out);
        holds(one.status == NISSY_FAULT && one.line == 1 && one.fault == row->fault && one.column == row->column && !one.length, "its fault",
              row->line);
        holds(other.status == NISSY_FAULT && other.line == 2 && other.fault == row->fault && other.column == row->column, "its fault", row->line);
        holds(are_all(out.bytes, out.size, UNTOUCHED), "nothing is written", row->line);
        let_go(out);
    }
}

/* Both lines may be read, and have too many moves together. */
static void too_many_together(void) {
    char scramble[3 * 256 + 1] = "", so_far[3 * 200 + 1] = "";
    for (int at = 0; at < 128; at++) strcat(scramble, "R U ");
    for (int at = 0; at < 100; at++) strcat(so_far, "F D ");
    guarded out = untouched(NISSY_LINE_ROOM), room = untouched(sizeof(nissy_way));
    nissy_line_after_answer got = after(scramble, so_far, out);
    holds(got.status == NISSY_FAULT && got.fault == NISSY_TOO_LONG && got.line == 2 && !got.column && !got.length, "the line of both", "456 moves");
    strcat(so_far, "F ");
    nissy_ways_answer best = best_of("", so_far, all_of(0), room);
    holds(is_refused(best, NISSY_FAULT, 2, NISSY_TOO_LONG, 0), "more than 200 on a side", "201 moves");
    let_go(out), let_go(room);
}

int main(int count, char **words) {
    (void)words;
    is_quick = count > 1;
    for (int at = 0; at < WAY_TABLES; at++) tables[at] = built(STEPS[at]);
    rows_are_the_model_s();
    parts_make_the_whole();
    small_rooms_have_the_first();
    bounds_are_kept();
    what_is_wrong_is_refused();
    an_axis_asks_its_own_tables();
    rows_stay_after_faults();
    lines_are_written();
    too_many_together();
    return ended();
}
