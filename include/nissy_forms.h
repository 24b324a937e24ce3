/* nissy for other programs: where a line has what the WCA's notation for solutions hasn't, one place after another. It
 * is only a header, over nissy.h, and isn't proved. */
#ifndef NISSY_FORMS_H
#define NISSY_FORMS_H

#include "nissy.h"

#include <string.h>

/* A move or a bracket of a line. */
typedef struct nissy_form_place {
    size_t column;  /* of its first byte, from 1 */
    size_t last;    /* of its last byte: that many bytes of the line are passed with it */
    unsigned forms; /* its forms of nissy_form, added */
} nissy_form_place;

/* The move, the bracket or the blank that begins after this many bytes of a line, which has more. */
static inline nissy_form_place nissy_form_place_behind(const uint8_t *line, size_t line_length, size_t passed) {
    nissy_form_place it = {passed + 1, passed + 1, 0};
    const uint8_t letter = line[passed];
    int is_half, is_typographic, is_prime;
    if (memchr("MES", letter, 3)) it.forms = NISSY_SLICES;
    if (memchr("udrlfb", letter, 6)) it.forms = NISSY_LOWER_CASE;
    if (memchr("()", letter, 2)) it.forms = NISSY_BRACKETS;
    if (it.last < line_length && line[it.last] == 'w') it.last++;
    is_half = it.last < line_length && line[it.last] == '2';
    if (is_half) it.last++;
    is_typographic = line_length - it.last >= 3 && memcmp(line + it.last, "\xe2\x80\x99", 3) == 0;
    is_prime = is_typographic || (it.last < line_length && line[it.last] == '\'');
    if (is_prime) it.last += is_typographic ? 3 : 1;
    if (is_typographic) it.forms |= NISSY_APOSTROPHE;
    if (is_half && is_prime) it.forms |= NISSY_HALF_PRIME;
    return it;
}

/* The next move or bracket after this many bytes of a line that has such a form; if there is none, `forms` is 0. The line
 * is one that nissy_check or another call has read: of each of its forms this finds all places.
 *
 *     nissy_form_place it = nissy_next_form_place(line, length, 0);
 *     for (; it.forms; it = nissy_next_form_place(line, length, it.last)) .. */
static inline nissy_form_place nissy_next_form_place(const uint8_t *line, size_t line_length, size_t passed) {
    nissy_form_place it = {0, 0, 0};
    while (it.forms == 0 && passed < line_length) {
        it = nissy_form_place_behind(line, line_length, passed);
        passed = it.last;
    }
    return it;
}

#endif
