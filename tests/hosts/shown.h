/* Where a text shows a turn beside a step, by a comment, a letter or a sign. */
#ifndef SHOWN_H
#define SHOWN_H

#include "lines.h"

#include <ctype.h>

/* Whether a byte may be of a word, or of a face such as ":D". */
static int is_of_word(uint8_t byte) { return isalnum(byte) || (byte && strchr(":;<=", byte)); }

/* Where the letter of a face, capital or small, first stands in the comment of a line outside words. */
static uint64_t said_in(text of, const nissy_text_line *line, char face) {
    for (uint64_t at = line ? line->comment : 0; line && at < line->end; at++) {
        const uint8_t next = at + 1 < of.length ? of.bytes[at + 1] : 0;
        if (toupper(of.bytes[at]) != face || is_of_word(of.bytes[at - 1])) continue;
        if (!is_of_word(next) || next == '2' || next == '3') return at;
    }
    return NISSY_NO_PLACE;
}

static int is_stray(uint8_t byte) { return byte && strchr("!?|&", byte); }

static int is_blank(uint8_t byte) { return byte == ' ' || byte == '\t'; }

/* The end of a stretch without the blanks at it. */
static uint64_t end_of(text of, uint64_t begin, uint64_t end) {
    while (end > begin && is_blank(of.bytes[end - 1])) end--;
    return end;
}

/* Where a sign stands behind the moves of a step, and before them. */
static uint64_t sign_behind(text of, const nissy_text_line *line) {
    if (!line) return NISSY_NO_PLACE;
    const uint8_t next = line->comment < line->end ? of.bytes[line->comment] : 0;
    if (is_stray(next) || isdigit(next)) return line->comment;
    const uint64_t end = end_of(of, line->moves, line->comment);
    return end > line->moves + 2 && !memcmp(of.bytes + end - 2, "()", 2) ? end - 2 : NISSY_NO_PLACE;
}

static uint64_t sign_before(text of, const nissy_text_line *line) {
    if (!line) return NISSY_NO_PLACE;
    const uint64_t end = end_of(of, line->label_begin, line->moves);
    if (end > line->label_begin && is_stray(of.bytes[end - 1])) return end - 1;
    return line->moves + 2 <= line->comment && !memcmp(of.bytes + line->moves, "()", 2) ? line->moves : NISSY_NO_PLACE;
}

/* Where the capital letter of a face stands by itself at the end of the moves of a step, and at their begin. */
static uint64_t letter_behind(text of, const nissy_text_line *line, char face) {
    const uint64_t end = line ? end_of(of, line->moves, line->comment) : 0;
    if (!line || end == line->moves || of.bytes[end - 1] != face) return NISSY_NO_PLACE;
    return end - 1 == line->moves || is_blank(of.bytes[end - 2]) ? end - 1 : NISSY_NO_PLACE;
}

static uint64_t letter_before(text of, const nissy_text_line *line, char face) {
    if (!line || line->moves == line->comment || of.bytes[line->moves] != face) return NISSY_NO_PLACE;
    return line->moves + 1 == line->comment || is_blank(of.bytes[line->moves + 1]) ? line->moves : NISSY_NO_PLACE;
}

static uint64_t first_of(uint64_t one, uint64_t other) { return one != NISSY_NO_PLACE ? one : other; }

#endif
