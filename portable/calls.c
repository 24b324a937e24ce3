/* --- the calls of nissy.h --- */

enum { SMALL_ROOM = 256, LARGE_ROOM = 2621440, MOST_NAME = 32 };

/* a stack for a call, and its end */
#define STACK(size) _Alignas(16) unsigned char stack[size]
#define STACK_END (address(stack) + sizeof stack)

uint32_t nissy_version(void) { return NISSY_VERSION_NUMBER; }

/* --- memory that the engine is lent, and tables in it --- */

/* The engine takes a room as two numbers: where its memory is, and how much. */
static void put_room(unsigned char *room, void *block, size_t size) {
    store8(address(room), address(block));
    store8(address(room) + 8, size);
}

/* What stays of a build: what the engine holds of its tables, the name of their step, and their memory. */
struct kept {
    unsigned char held[16];
    uint8_t step[MOST_NAME];
    size_t step_length;
    void *small, *large;
};

static struct kept *kept_of(const nissy_tables *tables) { return tables->built ? tables->tables : NULL; }

static uint64_t held_of(const nissy_tables *tables) {
    static const unsigned char none[16] = {0};
    const struct kept *kept = kept_of(tables);
    return address(kept == NULL ? none : kept->held);
}

/* Tables of a step in so much memory, or none. The engine takes all of it before it fills a table, so a build with too little ends at once. */
static uint8_t build_in(size_t large, struct kept *kept, const uint8_t *step, size_t step_length) {
    STACK(STACK_OF_nissy_build);
    _Alignas(16) unsigned char rooms[2][16];
    uint8_t status = NISSY_STOPPED;
    memset(kept->held, 0, sizeof kept->held);
    kept->small = malloc(SMALL_ROOM);
    kept->large = malloc(large);
    if (kept->small != NULL && kept->large != NULL) {
        put_room(rooms[0], kept->small, SMALL_ROOM);
        put_room(rooms[1], kept->large, large);
        status = (uint8_t)w_nissy_build(STACK_END, address(rooms[0]), address(rooms[1]), address(kept->held), address(step), step_length);
    }
    if (status != NISSY_DONE) {
        free(kept->small);
        free(kept->large);
    }
    return status;
}

/* The same in as little memory as suffices: for an orientation, for all three, for a reduction, or for any step. */
static uint8_t build_in_least(struct kept *kept, const uint8_t *step, size_t step_length) {
    static const size_t rooms[] = {120 << 10, 320 << 10, 1300 << 10, LARGE_ROOM};
    uint8_t status = NISSY_STOPPED;
    for (size_t at = 0; status == NISSY_STOPPED && at < sizeof rooms / sizeof *rooms; at += 1) {
        status = build_in(rooms[at], kept, step, step_length);
    }
    return status;
}

uint8_t nissy_build(nissy_tables *tables, const uint8_t *step, size_t step_length) {
    struct kept *kept = kept_of(tables);
    if (kept != NULL && kept->step_length == step_length && memcmp(kept->step, step, step_length) == 0) return NISSY_DONE;
    tables->tables = NULL;
    tables->built = 0;
    /* no step has so long a name */
    if (step_length > MOST_NAME) return NISSY_USAGE;
    kept = malloc(sizeof *kept);
    uint8_t status = kept == NULL ? NISSY_STOPPED : build_in_least(kept, step, step_length);
    if (status != NISSY_DONE) {
        free(kept);
        return status;
    }
    memcpy(kept->step, step, step_length);
    kept->step_length = step_length;
    tables->tables = kept;
    tables->built = 1;
    return NISSY_DONE;
}

/* --- a run --- */

/* A run in so much memory, on bytes in memory, of which the error text comes into a room of its own. */
struct run {
    uint64_t words, words_length, input, input_length, out, out_room;
    uint8_t err[NISSY_ERROR_ROOM];
};

/* Makes it, and returns whether there was so much memory. */
static bool run_in(size_t lent, struct run *run, nissy_run_answer *said) {
    STACK(STACK_OF_nissy_run);
    _Alignas(16) unsigned char answer[24], room[16];
    void *block = lent == 0 ? NULL : malloc(lent);
    put_room(room, block, block == NULL ? 0 : lent);
    w_nissy_run(STACK_END, address(answer), address(room), run->words, run->words_length, run->input, run->input_length, run->out, run->out_room,
                address(run->err), sizeof run->err);
    free(block);
    said->status = (uint8_t)load1(address(answer));
    said->out_too_small = load1(address(answer) + 1) != 0;
    said->out_length = load8(address(answer) + 8);
    said->err_length = load8(address(answer) + 16);
    return lent == 0 || block != NULL;
}

static bool was_refused_memory(const struct run *run, const nissy_run_answer *said) {
    static const char text[] = "nissy: out of memory\n";
    return said->err_length == sizeof text - 1 && memcmp(run->err, text, (size_t)said->err_length) == 0;
}

nissy_run_answer nissy_run(const uint8_t *words, size_t words_length, const uint8_t *input, size_t input_length, uint8_t *out, size_t out_room,
                           uint8_t *err, size_t err_room) {
    struct run run = {address(words), words_length, address(input), input_length, address(out), out_room, {0}};
    nissy_run_answer said;
    size_t lent = 0;
    /* one that is refused memory has written nothing yet: it is made again with some, and with more */
    while (run_in(lent, &run, &said) && was_refused_memory(&run, &said) && lent < SIZE_MAX / 16) lent = lent == 0 ? 65536 : 8 * lent;
    said.err_too_small = said.err_length > err_room;
    if (said.err_too_small) said.err_length = err_room;
    if (said.err_length > 0) memcpy(err, run.err, (size_t)said.err_length);
    return said;
}

/* --- the best ways --- */

enum { WAY_TABLES = 9 };

/* What is asked, where the engine reads it: four bytes, and two long numbers from the eighth on. */
static void put_asked(unsigned char *asked, const uint8_t bytes[4], uint64_t first, uint64_t second) {
    memcpy(asked, bytes, 4);
    store8(address(asked) + 8, first);
    store8(address(asked) + 16, second);
}

/* The one number of more than a byte that a way has, in the form of the engine, and in that of C again. */
static void put_totals(nissy_way *ways, uint64_t count) {
    for (uint64_t at = 0; at < count; at += 1) store2(address(&ways[at].total), ways[at].total);
}

static void take_totals(nissy_way *ways, uint64_t count) {
    for (uint64_t at = 0; at < count; at += 1) ways[at].total = (uint16_t)load2(address(&ways[at].total));
}

nissy_ways_answer nissy_best(const nissy_tables *tables, const uint8_t *scramble, size_t scramble_length, const uint8_t *so_far, size_t so_far_length,
                             const nissy_ways_wanted *wanted, nissy_way *room, size_t room_length) {
    STACK(STACK_OF_nissy_best);
    _Alignas(16) unsigned char answer[32], asked[24], held[WAY_TABLES][16];
    _Static_assert(sizeof(nissy_way) == 96, "nissy_way has the size that it has in the engine");
    const uint64_t there = wanted->there < room_length ? wanted->there : room_length;
    for (int at = 0; at < WAY_TABLES; at += 1) copy(address(held[at]), held_of(&tables[at]), sizeof held[at]);
    put_asked(asked, (const uint8_t[4]){wanted->slack, wanted->axes, wanted->from, wanted->to}, wanted->most_nodes, wanted->there);
    put_totals(room, there);
    w_nissy_best(STACK_END, address(answer), address(held), address(scramble), scramble_length, address(so_far), so_far_length, address(asked),
                 address(room), room_length);
    nissy_ways_answer said = nissy_ways_answer_at(address(answer));
    /* after a fault those that stood there are as they were */
    take_totals(room, said.rows > there ? said.rows : there);
    return said;
}

nissy_sides_answer nissy_solve_sides(const nissy_tables *tables, const uint8_t *scramble, size_t scramble_length, const uint8_t *so_far,
                                     size_t so_far_length, const nissy_sides_wanted *wanted, nissy_way_part *room, size_t room_length) {
    STACK(STACK_OF_nissy_solve_sides);
    _Alignas(16) unsigned char answer[32], asked[24];
    _Static_assert(sizeof(nissy_way_part) == 45, "nissy_way_part has the size that it has in the engine");
    put_asked(asked, (const uint8_t[4]){wanted->sides, wanted->length, wanted->counts}, wanted->passed, wanted->most_nodes);
    w_nissy_solve_sides(STACK_END, address(answer), held_of(tables), address(scramble), scramble_length, address(so_far), so_far_length,
                        address(asked), address(room), room_length);
    return nissy_sides_answer_at(address(answer));
}

/* --- text as solvers write it --- */

/* places in the form of C, as the engine wrote them */
static void take_places(uint64_t *places, uint64_t count) {
    for (uint64_t at = 0; at < count; at += 1) places[at] = load8(address(places + at));
}

nissy_plain_answer nissy_plain(const uint8_t *text, size_t text_length, uint8_t *out, size_t out_room, uint64_t *places, size_t places_room) {
    STACK(STACK_OF_nissy_plain);
    _Alignas(16) unsigned char answer[16];
    w_nissy_plain(STACK_END, address(answer), address(text), text_length, address(out), out_room, address(places), places_room);
    const nissy_plain_answer said = nissy_plain_answer_at(address(answer));
    take_places(places, said.length);
    return said;
}

nissy_text_answer nissy_text_lines(const uint8_t *text, size_t text_length, nissy_text_line *lines, size_t room) {
    STACK(STACK_OF_nissy_text_lines);
    _Alignas(16) unsigned char answer[24];
    _Static_assert(sizeof(nissy_text_line) == 88, "nissy_text_line has the size that it has in the engine");
    w_nissy_text_lines(STACK_END, address(answer), address(text), text_length, address(lines), room);
    const nissy_text_answer said = nissy_text_answer_at(address(answer));
    /* a text may have more lines than there is room for */
    const uint64_t written = said.lines < room ? said.lines : room;
    for (uint64_t at = 0; at < written; at += 1) lines[at] = nissy_text_line_at(address(lines + at));
    return said;
}

nissy_known_answer nissy_known_lines(const uint8_t *text, size_t text_length, nissy_text_line *lines, size_t lines_room, nissy_known_part *parts,
                                     size_t parts_room, uint64_t *counts, size_t count) {
    STACK(STACK_OF_nissy_known_lines);
    _Alignas(16) unsigned char answer[24];
    _Static_assert(sizeof(nissy_known_part) == 56, "nissy_known_part has the size that it has in the engine");
    w_nissy_known_lines(STACK_END, address(answer), address(text), text_length, address(lines), lines_room, address(parts), parts_room,
                        address(counts), count);
    const nissy_known_answer said = nissy_known_answer_at(address(answer));
    if (said.status != NISSY_DONE) return said;
    for (uint64_t at = 0; at < said.lines; at += 1) lines[at] = nissy_text_line_at(address(lines + at));
    for (uint64_t at = 0; at < said.parts; at += 1) parts[at] = nissy_known_part_at(address(parts + at));
    return said;
}

#if NISSY_BYTEWISE
/* A copy of rows of this size whose numbers, which begin at this byte of each, have the form of the engine, if there is memory for it. */
static unsigned char *copied(const void *rows, size_t count, size_t size, size_t first) {
    unsigned char *const made = malloc(count * size + 1);
    if (made == NULL) return NULL;
    if (count > 0) memcpy(made, rows, count * size);
    for (size_t at = 0; at < count; at += 1) {
        for (size_t field = first; field < size; field += 8) {
            uint64_t value;
            memcpy(&value, made + at * size + field, sizeof value);
            store8(address(made + at * size + field), value);
        }
    }
    return made;
}

static unsigned char *copied_lines(const nissy_text_line *lines, size_t count) { return copied(lines, count, sizeof *lines, 8); }

/* Where moves stand, in the form of the engine, and in that of C again: how many of them are written isn't told. */
static void put_parts(nissy_moves_part *parts, size_t count) {
    for (size_t at = 0; at < count; at += 1) store8(address(&parts[at].begin), parts[at].begin), store8(address(&parts[at].end), parts[at].end);
}

static void take_parts(nissy_moves_part *parts, size_t count) {
    for (size_t at = 0; at < count; at += 1) parts[at].begin = load8(address(&parts[at].begin)), parts[at].end = load8(address(&parts[at].end));
}
#endif

nissy_plain_answer nissy_text_moves(const uint8_t *text, size_t text_length, const nissy_text_line *lines, size_t count, uint8_t which, uint8_t *out,
                                    size_t out_room, uint64_t *places, size_t places_room, nissy_moves_part *parts, size_t parts_room) {
    STACK(STACK_OF_nissy_text_moves);
    _Alignas(16) unsigned char answer[16];
    _Static_assert(sizeof(nissy_moves_part) == 24, "nissy_moves_part has the size that it has in the engine");
#if NISSY_BYTEWISE
    unsigned char *const from = copied_lines(lines, count);
    if (from == NULL) return (nissy_plain_answer){.status = NISSY_STOPPED};
    put_parts(parts, parts_room);
#else
    const nissy_text_line *const from = lines;
#endif
    w_nissy_text_moves(STACK_END, address(answer), address(text), text_length, address(from), count, which, address(out), out_room, address(places),
                       places_room, address(parts), parts_room);
#if NISSY_BYTEWISE
    free(from);
    take_parts(parts, parts_room);
#endif
    const nissy_plain_answer said = nissy_plain_answer_at(address(answer));
    take_places(places, said.length);
    return said;
}

/* --- the calls that the engine has as they are --- */

static nissy_attempts_answer check_attempts(const uint8_t *text, size_t text_length, const void *lines, size_t count, const void *parts,
                                            size_t parts_count, const uint8_t *scrambles, size_t scrambles_length, const void *ends, size_t known,
                                            uint8_t *out, size_t out_room, uint64_t *places, size_t places_room, nissy_attempt_check *checks,
                                            size_t checks_room) {
    STACK(STACK_OF_nissy_check_attempts);
    _Alignas(16) unsigned char answer[16];
    _Static_assert(sizeof(nissy_attempt_check) == 80, "nissy_attempt_check has the size that it has in the engine");
    w_nissy_check_attempts(STACK_END, address(answer), address(text), text_length, address(lines), count, address(parts), parts_count,
                           address(scrambles), scrambles_length, address(ends), known, address(out), out_room, address(places), places_room,
                           address(checks), checks_room);
    const nissy_attempts_answer said = nissy_attempts_answer_at(address(answer));
    if (said.status != NISSY_DONE) return said;
    for (uint64_t at = 0; at < said.attempts; at += 1) checks[at] = nissy_attempt_check_at(address(checks + at));
    return said;
}

nissy_attempts_answer nissy_check_attempts(const uint8_t *text, size_t text_length, const nissy_text_line *lines, size_t count,
                                           const nissy_known_part *parts, size_t parts_count, const uint8_t *scrambles, size_t scrambles_length,
                                           const uint64_t *ends, size_t known, uint8_t *out, size_t out_room, uint64_t *places, size_t places_room,
                                           nissy_attempt_check *checks, size_t checks_room) {
#if NISSY_BYTEWISE
    unsigned char *const of_lines = copied_lines(lines, count), *const of_parts = copied(parts, parts_count, sizeof *parts, 0),
                         *const of_ends = copied(ends, known, sizeof *ends, 0);
    nissy_attempts_answer said = {.status = NISSY_STOPPED};
    if (of_lines != NULL && of_parts != NULL && of_ends != NULL)
        said = check_attempts(text, text_length, of_lines, count, of_parts, parts_count, scrambles, scrambles_length, of_ends, known, out, out_room,
                              places, places_room, checks, checks_room);
    free(of_lines), free(of_parts), free(of_ends);
    return said;
#else
    return check_attempts(text, text_length, lines, count, parts, parts_count, scrambles, scrambles_length, ends, known, out, out_room, places,
                          places_room, checks, checks_room);
#endif
}
