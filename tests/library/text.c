/* The calls that read text as solvers write it, on rows by hand and on drawn texts, in rooms after which no memory is. What each text is read as,
   tests/library/kinds.py and tests/hosts say. */
#include "texts.h"

/* What a text and its line have in common: each byte of the line is that of its place, or stands for it. */
static int is_of_its_place(guarded text, const uint8_t *line, const uint64_t *places, uint64_t at) {
    const uint64_t place = places[at];
    if (place >= text.size || (at > 0 && place < places[at - 1])) return 0;
    const uint8_t byte = text.bytes[place];
    return line[at] == byte || line[at] == ' ' || byte == '`' || byte == 0xc2 || byte == 0xca || byte == 0xe2;
}

static void plain_is_of_the_text(guarded text, const char *name) {
    guarded out = guard(3 * text.size), places = guard(24 * text.size);
    uint64_t *const of = (uint64_t *)(void *)places.bytes;
    const nissy_plain_answer got = nissy_plain(text.bytes, text.size, out.bytes, out.size, of, 3 * text.size);
    holds(got.status == NISSY_DONE && got.length <= out.size && got.left_out < 64, "a line", name);
    int is_right = 1;
    for (uint64_t at = 0; at < got.length; at++) is_right = is_right && is_of_its_place(text, out.bytes, of, at);
    holds(is_right, "the place of each byte", name);
    if (got.length > 0) {
        guarded small = guard(got.length - 1);
        holds(nissy_plain(text.bytes, text.size, small.bytes, small.size, of, 3 * text.size).status == NISSY_ROOM, "too small a room", name);
        let_go(small);
    }
    let_go(out), let_go(places);
}

static int ends_line(uint8_t byte) { return byte == '\n' || byte == '\r'; }

/* Whether a line begins where the one before it ended, and has its parts in order. */
static int is_line_of(guarded text, const nissy_text_line *line, uint64_t begin) {
    uint64_t at = line->begin;
    while (at < line->end && !ends_line(text.bytes[at])) at++;
    return line->begin == begin && at == line->end && line->begin <= line->head_end && line->head_end <= line->label_begin &&
           line->label_begin <= line->label_end && line->label_end <= line->moves && line->moves <= line->comment && line->comment <= line->end &&
           line->doubt_at >= line->begin && line->doubt_at <= line->end && line->kind <= NISSY_NOTE_LINE &&
           (line->doubt <= NISSY_INSERTION || line->doubt == NISSY_STEP_OR_SCRAMBLE || line->doubt == NISSY_SIGNS) &&
           (line->doubt != NISSY_NO_DOUBT || line->doubt_at == line->end);
}

/* Where the line begins that follows one. */
static uint64_t behind(guarded text, uint64_t end) {
    if (end < text.size && text.bytes[end] == '\r' && end + 1 < text.size && text.bytes[end + 1] == '\n') return end + 2;
    return end < text.size ? end + 1 : end;
}

static void lines_are_of_the_text(guarded text, const char *name) {
    guarded room = guard(sizeof(nissy_text_line) * (text.size + 1));
    nissy_text_line *const lines = (nissy_text_line *)(void *)room.bytes;
    const nissy_text_answer got = nissy_text_lines(text.bytes, text.size, lines, text.size + 1);
    holds(got.status == NISSY_DONE && got.lines <= text.size && got.attempts <= got.lines, "lines", name);
    uint64_t begin = 0;
    int is_right = 1;
    for (uint64_t at = 0; at < got.lines; at++) {
        is_right = is_right && is_line_of(text, lines + at, begin) && lines[at].attempt < got.attempts;
        begin = behind(text, lines[at].end);
    }
    holds(is_right && begin == text.size, "each of them, and no other", name);
    if (got.lines > 0) {
        guarded small = guard(sizeof(nissy_text_line) * (got.lines - 1));
        const nissy_text_answer few = nissy_text_lines(text.bytes, text.size, (nissy_text_line *)(void *)small.bytes, got.lines - 1);
        holds(few.status == NISSY_ROOM && few.lines == got.lines && few.attempts == got.attempts, "too small a room for them", name);
        holds(memcmp(small.bytes, room.bytes, small.size) == 0, "the first of them", name);
        let_go(small);
    }
    let_go(room);
}

/* The moves of each line of a text: each byte is that of its place, from `moves` to `comment`. */
static void moves_are_of_the_text(guarded text, const char *name) {
    nissy_text_line lines[32 * MOST_PARTS];
    uint8_t out[96 * MOST_PARTS];
    uint64_t places[96 * MOST_PARTS];
    const nissy_text_answer got = nissy_text_lines(text.bytes, text.size, lines, 32 * MOST_PARTS);
    for (uint64_t at = 0; at < got.lines; at++) {
        const nissy_plain_answer told =
            nissy_text_moves(text.bytes, text.size, lines + at, 1, NISSY_OF_STEPS, out, sizeof out, places, sizeof out, NULL, 0);
        int is_right = told.status == NISSY_DONE && (lines[at].kind == NISSY_STEP_LINE || told.length == 0);
        const uint64_t skipped = lines[at].inverse && told.length > 0;
        for (uint64_t byte = skipped; byte + skipped < told.length; byte++) {
            is_right = is_right && places[byte] >= lines[at].moves && places[byte] < lines[at].comment && is_of_its_place(text, out, places, byte);
        }
        holds(is_right, "the moves of a line", name);
    }
}

/* The parts of a text of solutions, and their lines: each of the text, those of a part after those of the one before. */
static void parts_are_of_the_text(guarded text, const char *name) {
    enum { KNOWN = 2 };
    guarded room = guard(sizeof(nissy_text_line) * text.size), of_parts = guard(sizeof(nissy_known_part) * text.size), counts = guard(8 * KNOWN);
    const nissy_text_line *const lines = (const nissy_text_line *)(void *)room.bytes;
    const nissy_known_part *const parts = (const nissy_known_part *)(void *)of_parts.bytes;
    const nissy_known_answer got = nissy_known_lines(text.bytes, text.size, (nissy_text_line *)(void *)room.bytes, text.size,
                                                     (nissy_known_part *)(void *)of_parts.bytes, text.size, (uint64_t *)(void *)counts.bytes, KNOWN);
    uint64_t line = 0, begin = 0;
    int is_right = got.status == NISSY_DONE;
    for (uint64_t at = 0; is_right && at < got.parts; at++) {
        const nissy_known_part part = parts[at];
        is_right = part.first_line == line && part.first_line <= part.solution_end && part.solution_end <= part.end_line &&
                   part.end_line <= got.lines && part.name_begin <= part.name_end && part.name_end <= text.size &&
                   (part.scramble < KNOWN || part.scramble == NISSY_NO_SCRAMBLE);
        for (; is_right && line < part.end_line; line++) {
            is_right = lines[line].begin >= begin && is_line_of(text, lines + line, lines[line].begin) &&
                       (lines[line].attempt == 0) == (line < part.solution_end);
            begin = behind(text, lines[line].end);
        }
    }
    holds(is_right && line == got.lines, "parts with lines", name);
    if (got.parts > 0) {
        guarded small = guard(sizeof(nissy_known_part) * (got.parts - 1));
        const nissy_known_answer few =
            nissy_known_lines(text.bytes, text.size, (nissy_text_line *)(void *)room.bytes, text.size, (nissy_known_part *)(void *)small.bytes,
                              got.parts - 1, (uint64_t *)(void *)counts.bytes, KNOWN);
        holds(few.status == NISSY_ROOM && few.parts == got.parts, "too small a room for parts", name);
        let_go(small);
    }
    let_go(room), let_go(of_parts), let_go(counts);
}

/* All that is said of a text is of it. */
static void all_is_of_the_text(guarded text, const char *name) {
    plain_is_of_the_text(text, name);
    lines_are_of_the_text(text, name);
    moves_are_of_the_text(text, name);
    parts_are_of_the_text(text, name);
}

/* A sheet of two attempts, the second with the label of a solution that names a side. */
static void a_sheet(void) {
    static const char TEXT[] = "1. R U F\nF' U' R' // EO\n\n2. R U\nSolution: U' // on inverse";
    static const unsigned KINDS[] = {NISSY_SCRAMBLE_LINE, NISSY_STEP_LINE, NISSY_BLANK_LINE, NISSY_SCRAMBLE_LINE, NISSY_STEP_LINE};
    nissy_text_line lines[5];
    const nissy_text_answer got = nissy_text_lines((const uint8_t *)TEXT, sizeof TEXT - 1, lines, 5);
    holds(got.status == NISSY_DONE && got.lines == 5 && got.attempts == 2, "its lines", "a sheet");
    for (int at = 0; at < 5; at++) holds(lines[at].kind == KINDS[at] && lines[at].attempt == (at > 2), "what each is", "a sheet");
    holds(lines[0].headed && lines[0].head_end == 2 && lines[0].moves == 3 && !lines[1].headed, "its heads", "a sheet");
    holds(lines[1].solution && lines[1].comment == 18 && lines[1].end == 23 && !lines[1].inverse, "its first solution", "a sheet");
    holds(lines[4].solution && lines[4].labelled && lines[4].inverse && lines[4].group == 0, "its second solution", "a sheet");
    holds(lines[4].doubt == NISSY_SIDE && lines[4].doubt_at == 51 && lines[1].doubt == NISSY_NO_DOUBT, "its doubt", "a sheet");
}

/* Whether a text has this part of two known scrambles, and how its first line is read. */
static void has_part(const char *text, unsigned nth, nissy_known_part wanted, nissy_text_line first) {
    nissy_text_line lines[8];
    nissy_known_part parts[8];
    uint64_t counts[2];
    const nissy_known_answer got = nissy_known_lines((const uint8_t *)text, strlen(text), lines, 8, parts, 8, counts, 2);
    holds(got.status == NISSY_DONE && nth < got.parts, "a part", text);
    holds(memcmp(parts + nth, &wanted, sizeof wanted) == 0, "which it is", text);
    const nissy_text_line *const line = lines + parts[nth].first_line;
    holds(line->kind == first.kind && line->solution == first.solution && line->attempt == first.attempt, "what its line is", text);
    holds(line->begin == first.begin && line->moves == first.moves && line->comment == first.comment && line->end == first.end, "where it is", text);
}

/* Solutions of two scrambles: under numbers, in blocks, and with the scramble above the solution. */
static void known_scrambles(void) {
    static const char NUMBERED[] = "2. F' U' R'\n1. U' R' // easy\n3. R", BLOCKS[] = "F' U' R'\n\nU' R'", WHOLE[] = "1:\nR' U' F D R' U' F\nR";
    const nissy_text_line step = {.kind = NISSY_STEP_LINE, .solution = 1, .begin = 2, .moves = 3, .comment = 11, .end = 11};
    has_part(NUMBERED, 0, (nissy_known_part){1, 0, 0, 2, 0, 1, 1}, step);
    const nissy_text_line other = {.kind = NISSY_STEP_LINE, .solution = 1, .begin = 14, .moves = 15, .comment = 21, .end = 28};
    has_part(NUMBERED, 1, (nissy_known_part){0, 12, 12, 14, 1, 2, 2}, other);
    const nissy_text_line last = {.kind = NISSY_STEP_LINE, .solution = 1, .begin = 31, .moves = 32, .comment = 33, .end = 33};
    has_part(NUMBERED, 2, (nissy_known_part){NISSY_NO_SCRAMBLE, 29, 29, 31, 2, 3, 3}, last);
    const nissy_text_line block = {.kind = NISSY_STEP_LINE, .solution = 1, .begin = 10, .moves = 10, .comment = 15, .end = 15};
    has_part(BLOCKS, 1, (nissy_known_part){1, 10, 0, 0, 1, 2, 2}, block);
    const nissy_text_line scramble = {.kind = NISSY_SCRAMBLE_LINE, .attempt = 1, .begin = 3, .moves = 3, .comment = 20, .end = 20};
    has_part(WHOLE, 0, (nissy_known_part){0, 0, 0, 2, 0, 0, 2}, scramble);
}

/* Whether the moves of some lines of a text are this line, with these places, and leave this out. */
static void moves_are(const char *text, const nissy_text_line *lines, size_t count, uint8_t which, const char *line, const uint64_t *places,
                      uint8_t left_out) {
    guarded read = copied(text, strlen(text)), out = untouched(strlen(line) + 3), of = guard(8 * (strlen(line) + 3));
    const nissy_plain_answer got =
        nissy_text_moves(read.bytes, read.size, lines, count, which, out.bytes, out.size, (uint64_t *)(void *)of.bytes, strlen(line) + 3, NULL, 0);
    holds(got.status == NISSY_DONE && got.length == strlen(line) && memcmp(out.bytes, line, got.length) == 0, "the moves", line);
    holds(memcmp(of.bytes, places, 8 * strlen(line)) == 0, "their places", line);
    holds(got.left_out == left_out, "what they leave out", line);
    holds(are_all(out.bytes + strlen(line), 3, UNTOUCHED), "what stands after them", line);
    if (got.length > 0) {
        guarded small = guard(got.length - 1);
        const nissy_plain_answer few = nissy_text_moves(read.bytes, read.size, lines, count, which, small.bytes, small.size,
                                                        (uint64_t *)(void *)of.bytes, strlen(line) + 3, NULL, 0);
        holds(few.status == NISSY_ROOM && few.length < got.length, "too small a room for them", line);
        let_go(small);
    }
    let_go(read), let_go(out), let_go(of);
}

/* Whether this is told of where the moves of some lines of a text stand, so many parts at most. */
static void parts_are(const char *text, const nissy_text_line *lines, size_t count, uint8_t which, const nissy_moves_part *wanted, size_t most) {
    uint8_t out[64];
    uint64_t places[64];
    guarded room = untouched(sizeof(nissy_moves_part) * most);
    nissy_moves_part *const parts = (nissy_moves_part *)(void *)room.bytes;
    const nissy_plain_answer got =
        nissy_text_moves((const uint8_t *)text, strlen(text), lines, count, which, out, sizeof out, places, 64, parts, most);
    holds(got.status == NISSY_DONE, "moves with their parts", text);
    for (size_t at = 0; at < most; at++) {
        const int is_same = parts[at].begin == wanted[at].begin && parts[at].end == wanted[at].end && parts[at].left_out == wanted[at].left_out;
        holds(is_same, "where the moves of a line stand", text);
    }
    let_go(room);
}

/* The moves of a sheet: of a scramble on two lines, of steps after a blank line, of which one is on the inverse, and of a solution. */
static void moves_of_a_sheet(void) {
    static const char TEXT[] = "R U\nF,\n\nEO: R' // inverse\n2. L (2)\n\nSolution: D`\nB";
    static const uint64_t SCRAMBLE[] = {0, 1, 2, 3, 4, 5};
    static const uint64_t STEPS[] = {12, 12, 13, 14, 15, 25, 29, 30, 34, 46, 47, 47, 47, 48, 49};
    static const uint64_t SOLUTION[] = {46, 47, 47, 47, 48, 49};
    nissy_text_line lines[8];
    const nissy_text_answer got = nissy_text_lines((const uint8_t *)TEXT, sizeof TEXT - 1, lines, 8);
    holds(got.status == NISSY_DONE && got.lines == 8 && got.attempts == 1, "its lines", "moves of a sheet");
    moves_are(TEXT, lines, 8, NISSY_OF_SCRAMBLE, "R U F ", SCRAMBLE, NISSY_COMMAS);
    moves_are(TEXT, lines, 8, NISSY_OF_STEPS, "(R' ) L  D\xe2\x80\x99 B", STEPS,
              NISSY_LABELS | NISSY_COMMENTS | NISSY_NUMBERS_OF_MOVES | NISSY_LINE_NUMBERS);
    moves_are(TEXT, lines, 8, NISSY_OF_EACH_STEP, "(R' )\nL \nD\xe2\x80\x99\nB", STEPS,
              NISSY_LABELS | NISSY_COMMENTS | NISSY_NUMBERS_OF_MOVES | NISSY_LINE_NUMBERS);
    moves_are(TEXT, lines, 8, NISSY_OF_SOLUTION, "D\xe2\x80\x99 B", SOLUTION, NISSY_LABELS);
    static const nissy_moves_part OF_SCRAMBLE[] = {{0, 3, 0, {0}}, {4, 6, NISSY_COMMAS, {0}}};
    static const nissy_moves_part OF_STEPS[] = {{0, 5, NISSY_LABELS | NISSY_COMMENTS, {0}},
                                                {6, 8, NISSY_LINE_NUMBERS | NISSY_NUMBERS_OF_MOVES, {0}},
                                                {9, 13, NISSY_LABELS, {0}},
                                                {14, 15, 0, {0}}};
    static const nissy_moves_part OF_SOLUTION[] = {{0, 4, NISSY_LABELS, {0}}, {5, 6, 0, {0}}};
    parts_are(TEXT, lines, 8, NISSY_OF_SCRAMBLE, OF_SCRAMBLE, 2);
    for (size_t most = 0; most <= 4; most++) parts_are(TEXT, lines, 8, NISSY_OF_STEPS, OF_STEPS, most);
    parts_are(TEXT, lines, 8, NISSY_OF_EACH_STEP, OF_STEPS, 4);
    parts_are(TEXT, lines, 8, NISSY_OF_SOLUTION, OF_SOLUTION, 2);
    moves_are(TEXT, lines, 0, NISSY_OF_STEPS, "", SOLUTION, 0);
    moves_are(TEXT, lines + 6, 1, NISSY_OF_SCRAMBLE, "", SOLUTION, 0);
    uint8_t byte = UNTOUCHED;
    uint64_t place = 0;
    const nissy_plain_answer none = nissy_text_moves((const uint8_t *)TEXT, sizeof TEXT - 1, lines, 8, 4, &byte, 1, &place, 1, NULL, 0);
    holds(none.status == NISSY_USAGE && none.length == 0 && none.left_out == 0 && byte == UNTOUCHED, "an unknown number", "moves of a sheet");
}

/* Lines that no text has: places beyond it and in no order, and numbers that are none. What is in the text is read. */
static void lines_of_no_text(void) {
    static const char TEXT[] = "R U F";
    static const uint64_t PLACES[] = {2, 3, 4};
    nissy_text_line line = {.kind = NISSY_STEP_LINE, .solution = 7, .moves = 2, .comment = UINT64_MAX, .head_end = 9, .label_begin = 1};
    moves_are(TEXT, &line, 1, NISSY_OF_SOLUTION, "U F", PLACES, 0);
    line.moves = UINT64_MAX, line.label_end = 2, line.end = UINT64_MAX;
    moves_are(TEXT, &line, 1, NISSY_OF_SOLUTION, "", PLACES, NISSY_LABELS);
    line.moves = 4, line.comment = 2;
    moves_are(TEXT, &line, 1, NISSY_OF_STEPS, "", PLACES, NISSY_LABELS | NISSY_COMMENTS);
    line.kind = 200;
    moves_are(TEXT, &line, 1, NISSY_OF_STEPS, "", PLACES, 0);
}

/* Where a step begins, of steps that stand a line each, but that a line feed in brackets ends none. */
static uint64_t begin_of(const char *steps, uint8_t nth) {
    const char *at = steps;
    for (int is_open = 0; nth > 0; at++) {
        if (*at == '(' || *at == ')') is_open = *at == '(';
        if (*at == '\n' && !is_open) nth--;
    }
    return (uint64_t)(at - steps);
}

/* Whether this is said of the parts of some steps. */
static void part_is(const char *scramble, const char *steps, uint8_t how, uint8_t first, uint8_t last) {
    guarded one = copied(scramble, strlen(scramble)), other = copied(steps, strlen(steps));
    const nissy_part_answer got = nissy_solving_part(one.bytes, one.size, other.bytes, other.size);
    holds(got.status == NISSY_DONE && got.how == how, "what solves", steps);
    holds(got.first == first && got.last == last && got.begin == begin_of(steps, first), "which steps", steps);
    let_go(one), let_go(other);
}

/* Steps of which a part solves: the first one in order, if several do; or all, with some of them in brackets. */
static void parts_of_steps(void) {
    part_is("R U F", "F'\nU' R'", NISSY_PART_ALONE, 0, 1);
    part_is("R U F", "L\nF' U' R'\nD", NISSY_PART_ALONE, 1, 1);
    part_is("R U F", "F'\nL\nU' R'", NISSY_PART_LEFT_OUT, 1, 1);
    /* R is undone on the inverse, and (R) stands for R' at the end */
    part_is("R U F", "F' U'\nR", NISSY_PART_IN_BRACKETS, 1, 1);
    /* both steps alone are tried before the first one in brackets, and the second in brackets after them */
    part_is("R", "R'\nR", NISSY_PART_ALONE, 0, 0);
    part_is("R U F", "(F'\nU')\nR'", NISSY_PART_WITHOUT_BRACKETS, 0, 1);
    part_is("R U F", "(F' U' R')", NISSY_PART_WITHOUT_BRACKETS, 0, 0);
    part_is("R U F", "F' U'\nQ\nR'", NISSY_PART_LEFT_OUT, 1, 1);
    /* the second and the fourth step on the inverse, and the others not */
    part_is("R U F D", "D'\nR\nF'\nU", NISSY_PART_EACH_IN_BRACKETS, 1, 3);
    part_is("R U F D", "R\nD'\nU\nF'", NISSY_PART_EACH_IN_BRACKETS, 0, 2);
    /* what has brackets stays as it is, and is one step over two lines */
    part_is("R U F D L", "(R)\nL'\nU\nD'\nF", NISSY_PART_EACH_IN_BRACKETS, 2, 4);
    part_is("R U F D L B", "(R\nU)\nB'\nF\nL'\nD", NISSY_PART_EACH_IN_BRACKETS, 2, 4);
    /* the first, third and fourth step, and not the first, third and fifth, which would solve too */
    part_is("U R U' U' U", "U\nU'\nR\nU'\nU", NISSY_PART_EACH_IN_BRACKETS, 0, 3);
    /* made twice or three times, and no more often, as it stands or without its brackets: the first one, if two steps solve so */
    part_is("R U R U F", "F'\nU' R'", NISSY_PART_REPEATED, 1, 1);
    part_is("F R U R U R U", "(U' R')\nF'", NISSY_PART_REPEATED, 0, 0);
    part_is("F R U R U D", "D' (F)\n(U' R')", NISSY_PART_REPEATED, 1, 1);
    part_is("U'", "U'\nU'", NISSY_PART_REPEATED, 0, 0);
    part_is("R U R U R U R U", "U' R'", NISSY_NO_PART, 0, 0);
    /* small letters for capitals, all of them, in brackets too */
    part_is("R U F D L B", "b' l'\nd'\nf' u' r'", NISSY_PART_IN_CAPITALS, 0, 2);
    part_is("R U F", "f'\n(R u)", NISSY_PART_IN_CAPITALS, 0, 1);
    part_is("R U F", "f'\nu' r'\nQ", NISSY_NO_PART, 0, 0);
    part_is("R U R U", "(U'\nR')", NISSY_PART_REPEATED, 0, 0);
    part_is("R U F", "(U'\nR'\nF')\nF'\nU'\nR'", NISSY_PART_LEFT_OUT, 0, 0);
    part_is("R U F D", "D'\nR\nF'\nU R", NISSY_NO_PART, 0, 0);
    part_is("R U F D", "D'\nQ\nF'\nU", NISSY_NO_PART, 0, 0);
    part_is("R U F", "F' U' R", NISSY_NO_PART, 0, 0);
    part_is("R U F", "", NISSY_NO_PART, 0, 0);
    part_is("R U Q", "F' U' R'", NISSY_NO_PART, 0, 0);
    part_is("", "R\n\nL", NISSY_NO_PART, 0, 0);
    /* twelve steps are looked at, and no more: four turns of L do nothing */
#define FOUR "L\nL\nL\nL\n"
    part_is("R", "D\nF\nU\nB\nL\nD\nF\nR'", NISSY_PART_LEFT_OUT, 0, 6);
    part_is("R", "D\nL\nL\n" FOUR FOUR "R'", NISSY_PART_LEFT_OUT, 0, 2);
    part_is("R", "D\nL\nL\nL\n" FOUR FOUR "R'", NISSY_NO_PART, 0, 0);
    /* the ninth step belongs to the line, but is in no set */
    part_is("R U F D' B2 L2 U2 R2", "R2\nR\nU2\nU\nL2\nF\nB2\nD\nD2", NISSY_PART_EACH_IN_BRACKETS, 1, 7);
    part_is("R F U2 D2 F2 B2 L2 U2 R2", "R2\nU2\nL2\nB2\nF2\nR\nD2\nU2\nF", NISSY_NO_PART, 0, 0);
    guarded steps = guard(NISSY_MOST_STEPS + 1);
    memset(steps.bytes, ' ', steps.size);
    memcpy(steps.bytes, "R'", 2);
    const nissy_part_answer few = nissy_solving_part((const uint8_t *)"R", 1, steps.bytes, NISSY_MOST_STEPS);
    const nissy_part_answer many = nissy_solving_part((const uint8_t *)"R", 1, steps.bytes, NISSY_MOST_STEPS + 1);
    holds(few.status == NISSY_DONE && few.how == NISSY_PART_ALONE, "as many bytes as may be", "long steps");
    holds(many.status == NISSY_STOPPED && many.how == NISSY_NO_PART, "one byte more", "long steps");
    memset(steps.bytes + 8, '\n', 11);
    const nissy_part_answer one_more = nissy_solving_part((const uint8_t *)"R", 1, steps.bytes, steps.size);
    holds(one_more.status == NISSY_STOPPED && one_more.how == NISSY_NO_PART, "many bytes in the last step", "long steps");
    steps.bytes[8 + 11] = '\n';
    const nissy_part_answer all = nissy_solving_part((const uint8_t *)"R", 1, steps.bytes, steps.size);
    holds(all.status == NISSY_DONE && all.how == NISSY_PART_ALONE, "many bytes after the steps", "long steps");
    let_go(steps);
}

/* No byte, and a pointer to none. */
static void nothing(void) {
    holds(nissy_plain(NULL, 0, NULL, 0, NULL, 0).status == NISSY_DONE, "its line", "no text");
    const nissy_text_answer got = nissy_text_lines(NULL, 0, NULL, 0);
    holds(got.status == NISSY_DONE && got.lines == 0 && got.attempts == 0, "its lines", "no text");
    struct aligned {
        uint8_t one;
        uint64_t other;
    };
    const int is_whole =
        sizeof(nissy_text_line) == 88 && sizeof(nissy_text_answer) == 24 && sizeof(nissy_plain_answer) == 16 && sizeof(nissy_moves_part) == 24;
    holds(is_whole || offsetof(struct aligned, other) != sizeof(uint64_t), "its size, if numbers are aligned to theirs", "each struct");
}

int main(void) {
    drawn_texts(1, all_is_of_the_text);
    a_sheet();
    known_scrambles();
    moves_of_a_sheet();
    lines_of_no_text();
    parts_of_steps();
    nothing();
    return ended();
}
