/* What caller.c says, and the lines of a text with their moves. */
#ifndef LINES_H
#define LINES_H

#include "nissy.h"
#include "nissy_forms.h"
#include "nissy_text.h"

#include <stdio.h>
#include <stdlib.h>
#include <string.h>

/* Some bytes, and where each is in a text. */
typedef struct written {
    uint8_t *bytes;
    uint64_t *places;
    uint64_t length;
    unsigned left_out;
} written;

typedef struct text {
    uint8_t *bytes;
    size_t length;
} text;

static void *memory(size_t size) {
    void *const it = malloc(size + 1);
    if (!it) exit(1);
    return it;
}

/* What is written so far. */
static char *said;
static size_t said_length, said_room;

static void say(const char *bytes, size_t length) {
    if (said_length + length > said_room) {
        said_room = 2 * (said_length + length);
        said = realloc(said, said_room);
        if (!said) exit(1);
    }
    memcpy(said + said_length, bytes, length);
    said_length += length;
}

static void say_text(const char *words) { say(words, strlen(words)); }

static void say_number(uint64_t number) {
    char digits[24];
    say(digits, (size_t)snprintf(digits, sizeof digits, "%llu", (unsigned long long)number));
}

/* The names of the bits that are set. */
static void say_names(unsigned bits, const char *const *names, const char *parted) {
    int has = 0;
    for (unsigned bit = 0; names[bit]; bit++) {
        if (!(bits >> bit & 1)) continue;
        if (has++) say_text(parted);
        say_text(names[bit]);
    }
}

static const char *const FORMS[] = {"slices", "lower_case", "brackets", "apostrophe", "half_prime", NULL};
static const char *const LEFT_OUT[] = {"labels", "numbers of moves", "comments", "line numbers", "commas", "signs that aren't seen", NULL};
static const char *const DOUBTS[] = {"",        "another scramble", "several solutions", "side", "letters", "small letters",
                                     "comment", "repetition",       "insertion",         "",     "",        "step or scramble",
                                     "signs",   "another attempt"};

static int begins_sign(uint8_t byte) { return (byte & 0xc0) != 0x80; }

/* The line and the column of a place, in characters from 1. */
static void say_place(text of, uint64_t place) {
    uint64_t line = 1, column = 1;
    for (uint64_t at = 0; at < place && at < of.length; at++) {
        const uint8_t byte = of.bytes[at];
        const int is_inner = byte == '\n' && at > 0 && of.bytes[at - 1] == '\r', ends = byte == '\n' || byte == '\r';
        line += ends && !is_inner;
        column = ends ? 1 : column + (uint64_t)begins_sign(byte);
    }
    say_text("@"), say_number(line), say_text(":"), say_number(column);
}

/* The place of a byte of a line, or that after its last sign. */
static uint64_t place_of(text of, const written *line, uint64_t at) {
    if (at < line->length) return line->places[at];
    uint64_t end = line->length ? line->places[line->length - 1] + 1 : 0;
    while (end > 0 && end < of.length && !begins_sign(of.bytes[end])) end++;
    return end;
}

static written plain_of(text of) {
    const size_t room = 3 * of.length;
    written it = {memory(room), memory(8 * room), 0, 0};
    const nissy_plain_answer told = nissy_plain(of.bytes, of.length, it.bytes, room, it.places, room);
    it.length = told.length, it.left_out = told.left_out;
    return it;
}

/* The lines of an attempt. */
typedef struct lines {
    const nissy_text_line *first;
    size_t count;
} lines;

static written moves_of(text of, lines those, enum nissy_moves_of which) {
    size_t most = 0;
    for (size_t at = 0; at < those.count; at++) most += those.first[at].comment - those.first[at].moves + 1;
    written it = {memory(3 * most), memory(24 * most), 0, 0};
    const nissy_plain_answer told =
        nissy_text_moves(of.bytes, of.length, those.first, those.count, (uint8_t)which, it.bytes, 3 * most, it.places, 3 * most, NULL, 0);
    it.length = told.length, it.left_out = told.left_out;
    return it;
}

static void let_go(written it) { free(it.bytes), free(it.places); }

static int has(lines those, enum nissy_line_kind kind, int of_solution) {
    for (size_t at = 0; at < those.count; at++)
        if (those.first[at].kind == kind && (!of_solution || those.first[at].solution)) return 1;
    return 0;
}

#endif
