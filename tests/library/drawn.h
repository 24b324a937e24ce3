/* Drawn lines, inputs and words: spelled, damaged, cut. */
#ifndef DRAWN_H
#define DRAWN_H

#include <stdint.h>
#include <string.h>

static uint64_t drawing;

/* A drawing of its own for each number. */
static void begin_drawing(uint64_t number) { drawing = number * 0x9e3779b97f4a7c15u ^ 0x853c49e6748fea9bu; }

/* A number below this one. */
static uint32_t draw(uint32_t below) {
    drawing = drawing * 6364136223846793005u + 1442695040888963407u;
    return (uint32_t)((drawing >> 33) % below);
}

#define ONE_OF(list) list[draw(sizeof list / sizeof *list)]

static const char *const LETTERS[] = {"U", "D", "R", "L", "F", "B", "Uw", "Dw", "Rw", "Lw", "Fw", "Bw",
                                      "u", "d", "r", "l", "f", "b", "M",  "E",  "S",  "x",  "y",  "z"};
static const char *const SUFFIXES[] = {"", "", "", "2", "'", "2'", "\xe2\x80\x99", "2\xe2\x80\x99"};
static const char *const BLANKS[] = {" ", " ", " ", "", "\t", "\r", "  ", " \t\r "};
static const char *const DAMAGES[] = {"w",    "3",    "''",   "22",       "'2",           "((",          "))",   "()",
                                      "(",    ")",    "\n",   "Q",        "[R,U]",        "\x1a",        "\x7f", "\xc3",
                                      "\xff", "\xe2", "\x99", "\xe2\x80", "\xe2\x80\x98", "\xef\xbb\xbf"};
static const char *const COMMANDS[] = {"invert", "unniss",   "cleanup", "print",  "solve", "count",  "near",   "solve",     "count",
                                       "near",   "scramble", "steps",   "Invert", "help",  "--help", "stepsx", "inver\xff", ""};
static const char *const STEPS[] = {"eofb", "eorl", "eoud", "eo", "eofb", "eo", "dr-eofb", "drud-eofb", "drfb-eorl", "EO", "htr", ""};
static const char *const NUMBERS[] = {"0",
                                      "1",
                                      "2",
                                      "3",
                                      "5",
                                      "20",
                                      "0",
                                      "1",
                                      "2",
                                      "20",
                                      "021",
                                      "21",
                                      "-1",
                                      " 1",
                                      "",
                                      "0x1",
                                      "1_0",
                                      "\xd9\xa1",
                                      "18446744073709551616",
                                      "0000000000000000000000000000007"};

/* A text that grows up to its room. */
typedef struct text {
    uint8_t *bytes;
    size_t size, room;
} text;

static void add_bytes(text *to, const char *bytes, size_t size) {
    if (size > to->room - to->size) size = to->room - to->size;
    memcpy(to->bytes + to->size, bytes, size);
    to->size += size;
}

static void add(text *to, const char *word) { add_bytes(to, word, strlen(word)); }

/* A line of so many moves, with brackets, and damaged where it is to be. */
static void add_line(text *to, uint32_t moves, int is_damaged) {
    int is_open = 0;
    for (; moves > 0; moves--) {
        uint32_t kind = draw(30);
        if (kind == 0) add(to, is_open ? ")" : "("), is_open = !is_open;
        if (kind == 1 && is_damaged) add(to, ONE_OF(DAMAGES));
        add(to, ONE_OF(LETTERS)), add(to, ONE_OF(SUFFIXES)), add(to, ONE_OF(BLANKS));
    }
    if (is_open && draw(10)) add(to, ")");
}

static inline uint32_t drawn_moves(void) {
    uint32_t kind = draw(20);
    return kind == 0 ? 250 + draw(12) : kind == 1 ? 30 + draw(100) : draw(12);
}

static inline void add_lines(text *to) {
    for (uint32_t lines = draw(6) ? draw(4) : draw(40); lines > 0; lines--) {
        add_line(to, drawn_moves(), draw(5) == 0);
        if (lines > 1 || draw(2)) add(to, "\n");
    }
}

/* A word with the zero byte after it, which is missing now and then. */
static void add_word(text *to, const char *word) { add_bytes(to, word, strlen(word) + (draw(60) ? 1 : 0)); }

/* A command with what belongs to it, or with too little or too much; now and then cut. */
static inline void add_words(text *to) {
    const char *command = draw(15) ? COMMANDS[draw(11)] : ONE_OF(COMMANDS);
    int is_near = strcmp(command, "near") == 0, is_search = is_near || strcmp(command, "solve") == 0 || strcmp(command, "count") == 0;
    add_word(to, command);
    if (is_search) add_word(to, ONE_OF(STEPS)), add_word(to, ONE_OF(NUMBERS));
    if (is_near) add_word(to, ONE_OF(NUMBERS));
    for (int numbers = strcmp(command, "scramble") == 0 ? 4 : 0; numbers > 0; numbers--) add_word(to, ONE_OF(NUMBERS));
    for (uint32_t words = draw(4) ? 0 : draw(5); words > 0; words--) add_line(to, draw(4), draw(6) == 0), add_bytes(to, "", 1);
    if (draw(20) == 0) to->size -= draw((uint32_t)to->size + 1);
}

#endif
