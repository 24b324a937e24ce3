/* Drawn texts as solvers write them: parts of such texts, one after another. */
#ifndef TEXTS_H
#define TEXTS_H

#include "trial.h"

#include "nissy_text.h"

enum { DRAWN = 20000, MOST_PARTS = 12 };

/* Tries each text that is drawn from this state on, by its bytes and by its name. */
static void drawn_texts(unsigned state, void (*try_on)(guarded text, const char *name)) {
    static const char *const PARTS[] = {
        "R U F", "\n",         "\r\n", "\r",           "// ",  "EO: ",           "Solution: ",       "1. ", "#2 ", "R' U' F D R' U' F",
        "(",     ")",          "(2)",  "\xe2\x80\x99", "\xe2", "\xff",           "\xc2\xa0",         "`",   ",",   "DR",
        "F2L",   "on inverse", " - ",  "[0:12] ",      "r u",  "Attempt 1 of 3", "\xf0\x9f\x8e\xb2", "",    "E1 ", "23\n"};
    enum { COUNT = sizeof PARTS / sizeof *PARTS };
    for (int drawn = 0; drawn < DRAWN; drawn++) {
        char text[32 * MOST_PARTS] = "";
        for (int part = drawn % MOST_PARTS; part > 0; part--) {
            state = state * 1103515245 + 12345;
            strcat(text, PARTS[state / 65536 % COUNT]);
        }
        guarded read = copied(text, strlen(text));
        try_on(read, text);
        let_go(read);
    }
}

#endif
