/* Drawn calls that no row lists: any words, lines and numbers, in rooms of any size, with memory that is refused.
 *
 *     fuzz [SEED [SECONDS]]
 *
 * The draws are numbered from SEED on, for two seconds if none are said; `fuzz N 0` makes draw N alone. At the top of the repository:
 *
 *     cc -Iinclude -Itests/library -Wl,--wrap=malloc,--wrap=realloc,--wrap=free -o build/fuzz tests/library/fuzz.c build/libnissy.a */
#include "areas.h"

#include "nissy_forms.h"

enum { SLOW_SHARE = 40, MOST_LINES = 48 };

/* The tables of three steps, and none. */
static nissy_tables searched[4];

static void build_searched(void) {
    static const char *const names[] = {"eofb", "eo", "drud-eofb"};
    snprintf(draw_name, sizeof draw_name, "no draw");
    for (size_t at = 0; at < 3; at++)
        is_so(nissy_build(&searched[at], (const uint8_t *)names[at], strlen(names[at])) == NISSY_DONE, "tables are built");
}

/* What a search is asked: a count of a great slack would take long, but a list has little room. */
typedef struct question {
    const nissy_tables *tables;
    uint8_t limit, slack;
    uint64_t most, most_nodes;
    size_t room;
} question;

static inline question drawn_question(void) {
    question made_here = {&searched[draw(4)], 0, 0, 0, 0, draw(2) ? ROOM : draw(200)};
    made_here.limit = (uint8_t)(draw(9) ? draw(21) : draw(256));
    made_here.slack = (uint8_t)(draw(4) ? draw(2) : draw(9) ? draw(21) : draw(256));
    made_here.most = draw(3) ? draw(12) : NISSY_ALL;
    made_here.most_nodes = draw(2) ? NISSY_ALL : draw(draw(2) ? 60 : 5000);
    return made_here;
}

static inline nissy_search_answer count_of(question of, text line) {
    slice read = read_slice(INPUT_AREA, line, 0);
    made = 0, refused_at = 1, onward = 1;
    nissy_search_answer is = nissy_count(of.tables, read.bytes, read.size, of.limit, of.slack, of.most, of.most_nodes);
    refused_at = 0;
    is_so(made == 0, "a count takes no memory");
    was_read(read, line);
    return is;
}

/* What a run answered, with its texts. */
typedef struct answer {
    nissy_run_answer is;
    uint8_t out[ROOM], err[NISSY_ERROR_ROOM + 16];
    long allocations;
} answer;

/* One run in such rooms, each bit of `sides` the place of a buffer; from this allocation on memory is refused, 0: none is. */
static void run(answer *to, text words, text input, size_t out_room, size_t err_room, uint32_t sides, long refused) {
    slice w = read_slice(WORDS_AREA, words, sides & 1), i = read_slice(INPUT_AREA, input, sides & 2);
    slice out = written_slice(OUT_AREA, out_room, sides & 4), err = written_slice(ERR_AREA, err_room, sides & 8);
    made = 0, held = 0, refused_at = refused, onward = 1;
    to->is = nissy_run(w.bytes, w.size, i.bytes, i.size, out.bytes, out.size, err.bytes, err.size);
    refused_at = 0, to->allocations = made;
    is_so(held == 0, "all memory is given back");
    was_read(w, words), was_read(i, input), was_written(out, to->is.out_length), was_written(err, to->is.err_length);
    memcpy(to->out, out.bytes, to->is.out_length), memcpy(to->err, err.bytes, to->is.err_length);
}

static size_t least(size_t one, size_t other) { return one < other ? one : other; }

static answer whole, got;

/* The last answer is that of the whole run, as much as the rooms have place for. */
static void is_whole_in(size_t out_room, size_t err_room, const char *what) {
    static const char cut[] = "nissy: cannot write\n";
    int is_cut = whole.is.out_too_small || whole.is.out_length > out_room;
    const void *err = is_cut ? (const void *)cut : whole.err;
    size_t err_length = is_cut ? strlen(cut) : whole.is.err_length;
    is_so(got.is.status == (is_cut ? NISSY_STOPPED : whole.is.status) && got.is.out_too_small == is_cut, what);
    is_so(is_text(got.out, got.is.out_length, whole.out, least(whole.is.out_length, out_room)), what);
    is_so(is_text(got.err, got.is.err_length, err, least(err_length, err_room)) && got.is.err_too_small == (err_length > err_room), what);
}

/* Whether these words begin with a command whose tables take a while. */
static int is_slow(text words) { return words.size > 6 && (memcmp(words.bytes + 5, "dr", 2) == 0 || memcmp(words.bytes + 6, "dr", 2) == 0); }

/* A run whole, then in other rooms, with memory refused, and without the last zero byte. */
static void try_run(text words, text input) {
    uint32_t sides = draw(16);
    run(&whole, words, input, ROOM, NISSY_ERROR_ROOM, sides, 0);
    is_so(whole.is.status <= NISSY_STOPPED && !whole.is.err_too_small, "a status of four, and room for the error text");
    size_t length = whole.is.out_length, rooms[] = {0, length ? length - 1 : 0, draw((uint32_t)length + 1), least(length + 1, ROOM)};
    for (int at = 0; at < (is_slow(words) ? 1 : 4); at++) {
        size_t room = rooms[(at + sides) % 4], err_room = draw(NISSY_ERROR_ROOM + 1);
        run(&got, words, input, room, err_room, ~sides, 0);
        is_whole_in(room, err_room, "the answer in other rooms");
    }
    if (whole.allocations) {
        run(&got, words, input, ROOM, NISSY_ERROR_ROOM, sides, 1 + draw((uint32_t)whole.allocations));
        is_so(got.is.status == NISSY_STOPPED && got.is.out_length == 0, "refused memory stops the run");
        is_so(is_text(got.err, got.is.err_length, "nissy: out of memory\n", 21), "refused memory is said");
    }
    if (words.size > 1 && words.bytes[words.size - 1] == 0 && words.bytes[words.size - 2] != 0) {
        text shorter = {words.bytes, words.size - 1, 0};
        run(&got, shorter, input, ROOM, NISSY_ERROR_ROOM, sides, 0);
        is_whole_in(ROOM, NISSY_ERROR_ROOM, "the answer without the last zero byte");
    }
}

typedef nissy_line_answer line_call(const uint8_t *, size_t, uint8_t *, size_t);

/* A call on a line, which takes no memory. */
static nissy_line_answer call(line_call *of, text line, size_t room, uint32_t sides, uint8_t *to) {
    slice read = read_slice(INPUT_AREA, line, sides & 1), out = written_slice(OUT_AREA, room, sides & 2);
    made = 0, refused_at = 1;
    nissy_line_answer is = of(read.bytes, read.size, out.bytes, room);
    refused_at = 0;
    is_so(made == 0, "a call on a line takes no memory");
    was_read(read, line), was_written(out, is.status == NISSY_DONE ? is.length : 0);
    if (is.status == NISSY_DONE && is.length <= NISSY_LINE_ROOM) memcpy(to, out.bytes, is.length);
    return is;
}

/* A line by its call in rooms of three sizes. */
static void try_line(text line) {
    static line_call *const calls[] = {nissy_invert, nissy_unniss, nissy_cleanup, nissy_facelets};
    static uint8_t first[NISSY_LINE_ROOM + 1], other[NISSY_LINE_ROOM + 1];
    uint32_t which = draw(4), sides = draw(16);
    nissy_line_answer is = call(calls[which], line, NISSY_LINE_ROOM, sides, first);
    is_so(is.status == NISSY_DONE || (is.status == NISSY_FAULT && is.fault >= 1 && is.fault <= 5 && is.length == 0), "a line's status");
    size_t rooms[] = {is.length, is.length ? is.length - 1 : 0, draw(300)};
    for (int at = 0; at < 3; at++) {
        nissy_line_answer again = call(calls[which], line, rooms[at], ~sides, other);
        int fits = is.length <= rooms[at];
        is_so(again.status == (fits ? is.status : NISSY_ROOM) && again.length == is.length, "the status of a line in another room");
        is_so(again.fault == is.fault && again.column == is.column, "its fault");
        is_so(again.status != NISSY_DONE || is_text(other, is.length, first, is.length), "its text");
    }
}

/* What a search of a line is to be told before it begins: a status, and with it a fault and its column. */
static nissy_line_answer before_search(const nissy_tables *tables, text line, uint8_t limit, uint8_t slack) {
    static uint8_t unused[NISSY_LINE_ROOM];
    nissy_line_answer usage = {NISSY_USAGE, NISSY_NO_FAULT, 0, 0};
    if (tables == &searched[3] || limit > 20 || slack > 20) return usage;
    return nissy_invert(line.bytes, line.size, unused, sizeof unused);
}

/* A search by these words, which takes no memory, and its solutions. */
static nissy_search_answer solve(question of, text line, uint32_t sides, uint8_t *to) {
    slice read = read_slice(INPUT_AREA, line, sides & 1), out = written_slice(OUT_AREA, of.room, sides & 2);
    made = 0, refused_at = 1, onward = 1;
    nissy_search_answer is = nissy_solve(of.tables, read.bytes, read.size, of.limit, of.slack, of.most, of.most_nodes, out.bytes, out.size);
    refused_at = 0;
    is_so(made == 0, "a search takes no memory");
    was_read(read, line), was_written(out, is.length);
    if (is.length <= ROOM) memcpy(to, out.bytes, is.length);
    return is;
}

/* A search that was cut: what it wrote is a beginning, and only one that looks more often is cut. */
static void was_cut(question of, nissy_search_answer is, const uint8_t *bytes, nissy_search_answer all, const uint8_t *all_bytes) {
    is_so(is.more == 1 && is.nodes <= of.most_nodes && of.most_nodes != NISSY_ALL, "a search that is cut keeps its bound");
    is_so(is.length <= all.length && (is.length == 0 || memcmp(bytes, all_bytes, is.length) == 0), "what it wrote is a beginning");
    is_so(is.least == (is.solutions ? all.least : is.least) && (is.least == 0 || is.least == all.least), "its least length, if it is known");
    is_so(all.status == NISSY_ROOM || all.more || all.nodes > of.most_nodes, "the whole search looks more often");
}

/* A search of a line with a bound, without one, and counts, by tables or by none. */
static void try_search(text line) {
    static uint8_t bytes[ROOM], all_bytes[ROOM];
    question of = drawn_question(), whole_of = of;
    uint32_t sides = draw(16);
    nissy_line_answer first = before_search(of.tables, line, of.limit, of.slack);
    whole_of.most_nodes = NISSY_ALL;
    nissy_search_answer is = solve(of, line, sides, bytes), all = solve(whole_of, line, ~sides, all_bytes);
    int is_start = first.status == NISSY_DONE && all.fault == NISSY_START;
    is_so(is_start || all.status == first.status || (all.status == NISSY_ROOM && all.more), "the status of a search");
    is_so(is_start ? all.status == NISSY_FAULT && all.column == 0 : all.fault == first.fault && all.column == first.column, "its fault");
    is_so(all.solutions <= of.most && (all.solutions > 0) == (all.length > 0), "as many solutions as may be");
    is_so(all.status == NISSY_DONE || all.status == NISSY_ROOM || all.nodes == 0, "nothing is looked at without a search");
    if (is.status == NISSY_CUT)
        was_cut(of, is, bytes, all, all_bytes);
    else
        is_so(is_same(is, all) && is_text(bytes, is.length, all_bytes, all.length), "a bound that is kept changes nothing");
    if (is.status != NISSY_ROOM) is_so(is_same(is, count_of(of, line)), "a count says what a search says");
    whole_of.most = NISSY_ALL, whole_of.slack = of.slack > 20 ? of.slack : of.slack & 1;
    nissy_search_answer told = count_of(whole_of, line);
    is_so(told.status == (all.status == NISSY_ROOM ? NISSY_DONE : all.status) && told.fault == all.fault, "a count ends as a search does");
    is_so(told.column == all.column && told.least == all.least, "its column, and its least length");
}

/* A line by the calls that judge it, which take no memory: a check of a line and another one, or, more often, of what undoes it. */
static void try_judging(text line) {
    static uint8_t bytes[2 * BLOCK];
    text solution = {bytes, 0, sizeof bytes};
    if (draw(3) == 0)
        add_line(&solution, draw(12), draw(3) == 0);
    else
        solution.size = nissy_invert(line.bytes, line.size, bytes, NISSY_LINE_ROOM).length;
    slice first = read_slice(WORDS_AREA, line, draw(2) != 0), second = read_slice(INPUT_AREA, solution, draw(2) != 0);
    made = 0, refused_at = 1, onward = 1;
    nissy_check_answer is = nissy_check(first.bytes, first.size, second.bytes, second.size);
    nissy_facts_answer one = nissy_facts(first.bytes, first.size), other = nissy_facts(second.bytes, second.size);
    nissy_line_answer read = nissy_invert(first.bytes, first.size, NULL, 0);
    refused_at = 0;
    unsigned forms = 0;
    for (nissy_form_place it = {0, 0, 0}; (it = nissy_next_form_place(second.bytes, second.size, it.last)).forms;) {
        is_so(it.last >= it.column && it.last <= second.size, "where a form is");
        forms |= it.forms;
    }
    is_so(made == 0, "facts and a check take no memory");
    was_read(first, line), was_read(second, solution);
    is_so(one.fault == read.fault && one.column == read.column && (one.status == NISSY_FAULT) == (read.status == NISSY_FAULT), "the fault of facts");
    int at_fault = one.status ? 1 : other.status ? 2 : 0;
    nissy_facts_answer *judge = at_fault == 1 ? &one : &other;
    is_so(is.status == judge->status && is.line == at_fault && is.fault == judge->fault && is.column == judge->column, "the fault of a check");
    is_so(is.moves == (at_fault ? 0 : other.moves) && is.clean_moves == (at_fault ? 0 : other.clean_moves), "the moves of a solution");
    is_so(is.forms == (at_fault ? 0 : forms) && (!at_fault || !is.solved), "the forms of a solution, each of which has a place");
}

/* The bytes of the first line of a text, with its line feed. */
static size_t first_line(text of) {
    const uint8_t *feed = of.size ? memchr(of.bytes, '\n', of.size) : NULL;
    return feed ? (size_t)(feed - of.bytes) + 1 : of.size;
}

/* Many lines in one call, in a room of any size: to each what its own call answers. */
static void try_lines(text lines) {
    static nissy_facts_answer facts[MOST_LINES + 1];
    static nissy_search_answer counts[MOST_LINES + 1];
    question of = drawn_question();
    of.slack = of.slack > 20 ? of.slack : of.slack & 1;
    size_t room = draw(2) ? MOST_LINES : draw(8), taken = 0, count = 0;
    memset(facts, UNTOUCHED, sizeof facts), memset(counts, UNTOUCHED, sizeof counts);
    slice read = read_slice(INPUT_AREA, lines, draw(2) != 0);
    made = 0, refused_at = 1, onward = 1;
    nissy_lines_answer is = nissy_facts_lines(read.bytes, read.size, facts, room);
    nissy_lines_answer told = nissy_count_lines(of.tables, read.bytes, read.size, of.limit, of.slack, of.most, of.most_nodes, counts, room);
    refused_at = 0;
    is_so(made == 0, "many lines take no memory");
    was_read(read, lines);
    int has_tables = of.tables != &searched[3];
    for (text rest = lines; rest.size && count < room; count++) {
        size_t whole_size = first_line(rest);
        text line = {rest.bytes, whole_size - (rest.bytes[whole_size - 1] == '\n'), 0};
        is_so(is_same_facts(facts[count], nissy_facts(line.bytes, line.size)), "the facts of a line among many");
        is_so(!has_tables || is_same(counts[count], count_of(of, line)), "the count of a line among many");
        taken += whole_size, rest.bytes += whole_size, rest.size -= whole_size;
    }
    is_so(is.status == NISSY_DONE && is.lines == count && is.bytes == taken, "the lines that are taken");
    is_so(told.status == (has_tables ? NISSY_DONE : NISSY_USAGE), "the status of counts");
    is_so(told.lines == (has_tables ? count : 0) && told.bytes == (has_tables ? taken : 0), "the lines that are counted");
    is_so(are_all((uint8_t *)(facts + is.lines), sizeof facts[0], UNTOUCHED), "after the facts it is as it was");
    is_so(are_all((uint8_t *)(counts + told.lines), sizeof counts[0], UNTOUCHED), "after the counts it is as it was");
}

static void try_draw(unsigned long number) {
    static uint8_t word_bytes[BLOCK], line_bytes[4 * BLOCK];
    text words = {word_bytes, 0, sizeof word_bytes}, lines = {line_bytes, 0, sizeof line_bytes};
    if (number % 3 == 0) {
        add_line(&lines, drawn_moves(), draw(3) == 0);
        try_line(lines);
        try_search(lines);
        try_judging(lines);
        return;
    }
    add_lines(&lines);
    if (number % 3 == 1) {
        try_lines(lines);
        return;
    }
    add_words(&words);
    if (!is_slow(words) || draw(SLOW_SHARE) == 0) try_run(words, lines);
}

int main(int count, char **words) {
    build_searched();
    return tries(count, words, try_draw);
}
