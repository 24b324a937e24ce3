/* The solutions of a step over sides: all pairs of at most two turns, tried one by one by the calls on a line; those on one side beside the list
   of that side; the same in parts and in small rooms, counted and cut; and what is refused. With a word, for what makes it slow, fewer. */
#include "searches.h"

enum { MOST_PAIRS = 1024 };

static int is_quick;

/* Scrambles with orientations of few turns on each side, and on both. */
static const char *const SCRAMBLES[] = {"R U F", "F R", "R F U' R", "F R' (U)", "R U R' F2 R"};

enum { SCRAMBLE_COUNT = sizeof SCRAMBLES / sizeof *SCRAMBLES };

static const char *const AXES[] = {"eofb", "eorl", "eoud"};

static nissy_tables tables[3];

static nissy_sides_wanted all_of(uint8_t sides, uint8_t length) {
    nissy_sides_wanted wanted = {sides, length, 0, 0, NISSY_ALL};
    return wanted;
}

/* A call with each buffer before memory that can't be touched. */
static nissy_sides_answer listed(const nissy_tables *of_step, const char *scramble, const char *so_far, nissy_sides_wanted wanted, guarded room) {
    guarded first = copied(scramble, strlen(scramble)), second = copied(so_far, strlen(so_far)), asked = copied(&wanted, sizeof wanted);
    nissy_sides_answer got =
        nissy_solve_sides(of_step, first.bytes, first.size, second.bytes, second.size, (const nissy_sides_wanted *)(const void *)asked.bytes,
                          (nissy_way_part *)(void *)room.bytes, room.size / sizeof(nissy_way_part));
    let_go(first), let_go(second), let_go(asked);
    return got;
}

/* --- solutions as text, `on the scramble | on the inverse` --- */

/* two sides of some turns each */
enum { SIDE_TEXT = 64, PAIR_TEXT = 2 * SIDE_TEXT + 4 };
typedef char pair_text[PAIR_TEXT];

static void add_turn(char *text, int turn) {
    sprintf(text + strlen(text), "%s%c%s", *text ? " " : "", "UDRLFB"[turn / 3], &"\0\0002\0'"[turn % 3 * 2]);
}

static void write_pair(pair_text out, const nissy_way_part *part) {
    char normal[SIDE_TEXT] = "", inverse[SIDE_TEXT] = "";
    for (int at = 0; at < part->normal.count; at++) add_turn(normal, part->normal.turns[at]);
    for (int at = 0; at < part->inverse.count; at++) add_turn(inverse, part->inverse.turns[at]);
    sprintf(out, "%s | %s", normal, inverse);
}

/* --- all pairs, one by one --- */

/* Whether the edges are oriented on an axis after turns on both sides. */
static int is_oriented(const char *scramble, int axis, const char *normal, const char *inverse) {
    char so_far[64];
    uint8_t line[NISSY_LINE_ROOM];
    sprintf(so_far, *inverse ? "%s (%s)" : "%s", normal, inverse);
    nissy_line_after_answer after =
        nissy_line_after((const uint8_t *)scramble, strlen(scramble), (const uint8_t *)so_far, strlen(so_far), line, sizeof line);
    nissy_facts_answer facts = nissy_facts(line, after.length);
    return facts.axes[axis].bad_edges == 0;
}

/* The sequences of at most two turns that are canonical, in turn order by length: no face turns twice, and of opposite ones the first in turn order
   comes first. */
static char sequences[262][8];
static int first_of[4] = {0, 1, 19, 262};

static void write_sequences(void) {
    int count = 1;
    for (int one = 0; one < 18; one++) add_turn(sequences[count++], one);
    for (int one = 0; one < 18; one++)
        for (int other = 0; other < 18; other++) {
            int face = one / 3, next = other / 3;
            if (next == face || (next / 2 == face / 2 && next < face)) continue;
            add_turn(sequences[count], one), add_turn(sequences[count++], other);
        }
    holds(count == 262, "so many they are", "1 + 18 + 243");
}

static const char *begun(const char *sequence) {
    static char first[8];
    return strcpy(first, sequence), first[strcspn(first, " ")] = 0, first;
}

/* Whether some of its first turns reach it already, but not all. */
static int is_begun(const char *scramble, int axis, const char *normal, const char *inverse, int on_normal, int on_inverse) {
    if (is_oriented(scramble, axis, "", "")) return on_normal + on_inverse > 0;
    if (on_normal + on_inverse < 2) return 0;
    if (on_normal == 2) return is_oriented(scramble, axis, begun(normal), "");
    if (on_inverse == 2) return is_oriented(scramble, axis, "", begun(inverse));
    return is_oriented(scramble, axis, normal, "") || is_oriented(scramble, axis, "", inverse);
}

/* Those of `on_normal` and `on_inverse` turns that reach it first, after `count` others. */
static int add_pairs(pair_text *out, int count, const char *scramble, int axis, int on_normal, int on_inverse) {
    int shorter = on_normal <= on_inverse ? on_normal : on_inverse, longer = on_normal + on_inverse - shorter;
    for (int head = first_of[shorter]; head < first_of[shorter + 1]; head++)
        for (int tail = first_of[longer]; tail < first_of[longer + 1]; tail++) {
            const char *normal = sequences[on_normal == shorter ? head : tail], *inverse = sequences[on_normal == shorter ? tail : head];
            if (!is_oriented(scramble, axis, normal, inverse) || is_begun(scramble, axis, normal, inverse, on_normal, on_inverse)) continue;
            if (count < MOST_PAIRS) sprintf(out[count], "%s | %s", normal, inverse);
            count++;
        }
    return count;
}

static int pairs_of(pair_text *out, const char *scramble, int axis, int sides, int length) {
    int count = 0, fewest = sides == NISSY_NORMAL ? length : 0, most = sides == NISSY_INVERSE ? 0 : length;
    for (int on_normal = fewest; on_normal <= most; on_normal++) count = add_pairs(out, count, scramble, axis, on_normal, length - on_normal);
    holds(count <= MOST_PAIRS, "they have place", scramble);
    return count;
}

static int are_written(const nissy_way_part *parts, pair_text *texts, uint64_t count, int step) {
    for (uint64_t at = 0; at < count; at++) {
        pair_text text;
        write_pair(text, &parts[at]);
        if (strcmp(text, texts[at]) != 0 || parts[at].step != step) return 0;
    }
    return 1;
}

static void pairs_are_all_that_there_are(void) {
    static pair_text texts[MOST_PAIRS];
    uint64_t all = 0;
    for (int at = 0; at < (is_quick ? 2 : SCRAMBLE_COUNT); at++)
        for (int axis = 0; axis < 3; axis++)
            for (uint8_t sides = NISSY_NORMAL; sides <= NISSY_BOTH; sides++)
                for (uint8_t length = 0; length <= 2; length++) {
                    uint64_t count = (uint64_t)pairs_of(texts, SCRAMBLES[at], axis, sides, length);
                    guarded room = untouched(count * sizeof(nissy_way_part));
                    nissy_sides_answer got = listed(&tables[axis], SCRAMBLES[at], "", all_of(sides, length), room);
                    holds(got.status == NISSY_DONE && !got.fault && !got.line && !got.column && !got.more, "its status", SCRAMBLES[at]);
                    holds(got.rows == count && got.solutions == count, "how many they are", SCRAMBLES[at]);
                    holds(are_written((const nissy_way_part *)(void *)room.bytes, texts, count, axis), "each of them", SCRAMBLES[at]);
                    all += got.solutions;
                    let_go(room);
                }
    holds(all > (is_quick ? 10u : 40u), "there are some", "pairs");
}

/* --- those on one side, beside the list of it --- */

static void sides_are_the_lists(void) {
    static const char *const LINES[] = {"R' U' F D2 L2 F R2 U2 R2 B D2 L B2 D' B2 L' R' B' D2 B2 R' U' F", "F R' (U)"};
    for (int at = 0; at < (is_quick ? 0 : 2); at++)
        for (uint8_t sides = NISSY_NORMAL; sides <= NISSY_INVERSE; sides++) {
            uint8_t line[NISSY_LINE_ROOM], texts[4096];
            nissy_line_answer plain = nissy_unniss((const uint8_t *)LINES[at], strlen(LINES[at]), line, sizeof line);
            if (sides == NISSY_INVERSE) plain = nissy_invert((const uint8_t *)LINES[at], strlen(LINES[at]), line, sizeof line);
            nissy_search_answer all = nissy_solve(&tables[0], line, plain.length, 20, 0, NISSY_ALL, NISSY_ALL, texts, sizeof texts);
            guarded room = untouched((all.solutions + 1) * sizeof(nissy_way_part));
            nissy_sides_answer got = listed(&tables[0], LINES[at], "", all_of(sides, all.least), room);
            const nissy_way_part *parts = (const nissy_way_part *)(void *)room.bytes;
            char written[4096] = "";
            for (uint64_t row = 0; row < got.rows; row++) {
                pair_text text = "";
                const nissy_side_turns *side = sides == NISSY_NORMAL ? &parts[row].normal : &parts[row].inverse;
                for (int turn = 0; turn < side->count; turn++) add_turn(text, side->turns[turn]);
                sprintf(written + strlen(written), "%s (%d)\n", text, side->count);
            }
            holds(got.rows == all.solutions && strlen(written) == all.length && memcmp(written, texts, all.length) == 0, "the list of a side",
                  LINES[at]);
            let_go(room);
        }
}

/* --- how many turns at the end go either way --- */

static void turn_round(nissy_side_turns *side) {
    for (int at = side->count - side->free; at < side->count; at++) side->turns[at] = (uint8_t)(side->turns[at] / 3 * 3 + 2 - side->turns[at] % 3);
}

static void last_turns_go_either_way(void) {
    for (int axis = 0; axis < 3; axis++) {
        guarded room = untouched(MOST_PAIRS * sizeof(nissy_way_part));
        nissy_sides_answer got = listed(&tables[axis], "R U F", "", all_of(NISSY_BOTH, 2), room);
        const nissy_way_part *parts = (const nissy_way_part *)(void *)room.bytes;
        for (uint64_t at = 0; at < got.rows; at++) {
            nissy_way_part part = parts[at];
            turn_round(&part.normal), turn_round(&part.inverse);
            pair_text text, other;
            write_pair(text, &part), write_pair(other, &parts[at]);
            char *inverse = strstr(text, " | ");
            *inverse = 0;
            holds(is_oriented("R U F", axis, text, inverse + 3), "the other way", other);
        }
        let_go(room);
    }
}

/* --- in parts, in small rooms, counted, cut --- */

static void parts_make_the_whole(void) {
    guarded whole = untouched(MOST_PAIRS * sizeof(nissy_way_part));
    nissy_sides_answer all = listed(&tables[2], "R U F", "", all_of(NISSY_BOTH, 2), whole);
    holds(all.rows >= 2 && !all.more, "there are some", "parts");
    for (uint64_t passed = 0; passed <= all.rows + 1; passed++)
        for (uint64_t places = 0; places <= all.rows + 1; places++)
            for (uint8_t counts = 0; counts <= 1; counts++) {
                uint64_t left = passed < all.rows ? all.rows - passed : 0, rows = places < left ? places : left;
                guarded room = untouched(places * sizeof(nissy_way_part));
                nissy_sides_wanted wanted = {NISSY_BOTH, 2, counts, passed, NISSY_ALL};
                nissy_sides_answer got = listed(&tables[2], "R U F", "", wanted, room);
                int is_more = !counts && places < left;
                holds(got.status == NISSY_DONE && got.rows == rows && got.more == is_more, "its rows", "a part");
                holds(got.solutions == (is_more ? passed + places : all.rows), "how many came", "a part");
                holds(memcmp(room.bytes, whole.bytes + (rows ? passed : 0) * sizeof(nissy_way_part), rows * sizeof(nissy_way_part)) == 0, "each",
                      "a part");
                holds(are_all(room.bytes + rows * sizeof(nissy_way_part), room.size - rows * sizeof(nissy_way_part), UNTOUCHED), "the rest",
                      "a part");
                let_go(room);
            }
    let_go(whole);
}

static void bounds_are_kept(void) {
    guarded room = untouched(MOST_PAIRS * sizeof(nissy_way_part));
    nissy_sides_wanted wanted = all_of(NISSY_BOTH, 2);
    const uint64_t whole = listed(&tables[2], "R U F", "", wanted, room).nodes;
    for (wanted.most_nodes = 0; wanted.most_nodes < whole; wanted.most_nodes++) {
        nissy_sides_answer got = listed(&tables[2], "R U F", "", wanted, room);
        holds(got.status == NISSY_CUT && got.nodes <= wanted.most_nodes, "it is cut", "a bound");
    }
    holds(listed(&tables[2], "R U F", "", wanted, room).status == NISSY_DONE, "it is done", "the bound that it needs");
    let_go(room);
}

/* --- what is refused --- */

static int is_refused(nissy_sides_answer got, int status, int line, int fault, unsigned column) {
    return got.status == status && got.line == line && got.fault == fault && got.column == column && !got.more && !got.rows && !got.solutions &&
           !got.nodes;
}

static void what_is_wrong_is_refused(void) {
    guarded room = untouched(2 * sizeof(nissy_way_part));
    const nissy_sides_wanted wrong[] = {{0, 1, 0, 0, 9}, {4, 1, 0, 0, 9}, {255, 1, 0, 0, 9}, {1, 21, 0, 0, 9}, {1, 1, 2, 0, 9}};
    for (size_t at = 0; at < sizeof wrong / sizeof *wrong; at++)
        holds(is_refused(listed(&tables[0], "R", "", wrong[at], room), NISSY_USAGE, 0, 0, 0), "a number out of its range", "nissy_solve_sides");
    const nissy_tables none = NISSY_NO_TABLES;
    holds(is_refused(listed(&none, "R", "", all_of(3, 1), room), NISSY_USAGE, 0, 0, 0), "no tables", "nissy_solve_sides");
    for (size_t at = 0; at < UNREAD_COUNT; at++) {
        const fault_row *row = &UNREAD[at];
        holds(is_refused(listed(&tables[0], row->line, "q", all_of(3, 1), room), NISSY_FAULT, 1, row->fault, row->column), "its fault", row->line);
        holds(is_refused(listed(&tables[0], "R", row->line, all_of(3, 1), room), NISSY_FAULT, 2, row->fault, row->column), "its fault", row->line);
    }
    nissy_tables reduction = built("drud-eofb");
    holds(is_refused(listed(&reduction, "F", "", all_of(3, 1), room), NISSY_FAULT, 0, NISSY_START, 0), "its start", "drud-eofb");
    holds(listed(&reduction, "F", "(F)", all_of(3, 0), room).rows == 1, "it is reached", "drud-eofb");
    let_go(room);
}

int main(int count, char **words) {
    (void)words;
    is_quick = count > 1;
    for (int at = 0; at < 3; at++) tables[at] = built(AXES[at]);
    write_sequences();
    pairs_are_all_that_there_are();
    sides_are_the_lists();
    last_turns_go_either_way();
    parts_make_the_whole();
    bounds_are_kept();
    what_is_wrong_is_refused();
    return ended();
}
