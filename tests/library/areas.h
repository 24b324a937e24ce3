/* Buffers for drawn calls: slices of areas before and after which no memory is, with bytes beside them that must stay as they are. It is linked
   with --wrap for malloc, realloc and free. */
#ifndef AREAS_H
#define AREAS_H

#include "refused.h"
#include "trial.h"

#include "drawn.h"

#include <signal.h>
#include <time.h>

enum { AREA = 1 << 17, ROOM = 1 << 16, MARGIN = 64, BLOCK = 4096 };

static char draw_name[64];

static void is_so(int holding, const char *what) { holds(holding, what, draw_name); }

/* A page that can't be touched was touched: what was passed and failed until then isn't told. */
static void on_fault(int number) {
    static const char what[] = ": a byte beside a buffer was touched\n";
    (void)number;
    _exit(write(STDOUT_FILENO, draw_name, strlen(draw_name)) < 0 || write(STDOUT_FILENO, what, strlen(what)) < 0 ? 2 : 1);
}

/* A slice of an area: at its front, after a page that can't be touched, or at its end, before one. */
typedef struct slice {
    uint8_t *bytes, *margin;
    size_t size;
} slice;

static guarded areas[4];
enum area { WORDS_AREA, INPUT_AREA, OUT_AREA, ERR_AREA };

static inline slice slice_of(enum area area, size_t size, int is_front) {
    uint8_t *from = areas[area].bytes, *bytes = is_front ? from : from + AREA - size;
    slice made_here = {bytes, is_front ? bytes + size : bytes - MARGIN, size};
    memset(made_here.margin, UNTOUCHED, MARGIN);
    return made_here;
}

static inline slice read_slice(enum area area, text of, int is_front) {
    slice made_here = slice_of(area, of.size, is_front);
    if (of.size) memcpy(made_here.bytes, of.bytes, of.size);
    return made_here;
}

static inline slice written_slice(enum area area, size_t size, int is_front) {
    slice made_here = slice_of(area, size, is_front);
    memset(made_here.bytes, UNTOUCHED, size);
    return made_here;
}

static inline void was_read(slice of, text was) {
    is_so(was.size == 0 || memcmp(of.bytes, was.bytes, was.size) == 0, "what is read stays as it was");
    is_so(are_all(of.margin, MARGIN, UNTOUCHED), "so does what is beside it");
}

static inline void was_written(slice of, size_t size) {
    is_so(size <= of.size && are_all(of.bytes + size, of.size - size, UNTOUCHED), "after what is written a buffer is as it was");
    is_so(are_all(of.margin, MARGIN, UNTOUCHED), "so is what is beside it");
}

static inline int is_text(const uint8_t *bytes, size_t size, const void *wanted, size_t wanted_size) {
    return size == wanted_size && (size == 0 || memcmp(bytes, wanted, size) == 0);
}

/* The draws that the words name, from one on for so many seconds; 0 of them is one draw. */
static inline int tries(int count, char **words, void (*try_draw)(unsigned long)) {
    unsigned long number = count > 1 ? strtoul(words[1], NULL, 10) : 1;
    time_t seconds = count > 2 ? (time_t)strtoul(words[2], NULL, 10) : 2;
    for (int at = 0; at < 4; at++) areas[at] = guard(AREA);
    signal(SIGSEGV, on_fault);
    clock_t end = clock() + (clock_t)seconds * CLOCKS_PER_SEC;
    do {
        snprintf(draw_name, sizeof draw_name, "draw %lu", number);
        begin_drawing(number);
        try_draw(number++);
    } while (clock() < end);
    return ended();
}

#endif
