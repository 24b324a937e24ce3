/* What the tests of the library share: counts, and buffers after whose last byte no memory is. */
#ifndef TRIAL_H
#define TRIAL_H

#ifndef _GNU_SOURCE
#define _GNU_SOURCE
#endif
#include <stdio.h>
#include <stdlib.h>
#include <string.h>
#include <sys/mman.h>
#include <unistd.h>

#include "nissy.h"

static int passed, failed;

/* Counts what holds, and names what doesn't. */
static inline void holds(int is_so, const char *what, const char *of) {
    if (is_so) {
        passed++;
    } else {
        failed++;
        printf("not so: %s: %s\n", of, what);
    }
}

/* The last line of a test, and its status. */
static inline int ended(void) {
    printf("%d passed, %d failed\n", passed, failed);
    return passed == 0 || failed != 0;
}

/* A buffer of so many bytes: a read or a write of the byte before its page or after its end ends the test by a signal. */
typedef struct guarded {
    uint8_t *bytes;
    size_t size;
    void *mapped;
    size_t mapped_size;
} guarded;

static inline guarded guard(size_t size) {
    size_t page = (size_t)sysconf(_SC_PAGESIZE), pages = (size + page - 1) / page;
    guarded made = {NULL, size, NULL, (pages + 2) * page};
    made.mapped = mmap(NULL, made.mapped_size, PROT_NONE, MAP_PRIVATE | MAP_ANONYMOUS, -1, 0);
    if (made.mapped == MAP_FAILED || (pages && mprotect((uint8_t *)made.mapped + page, pages * page, PROT_READ | PROT_WRITE))) {
        perror("mmap");
        exit(2);
    }
    made.bytes = (uint8_t *)made.mapped + page + pages * page - size;
    return made;
}

static inline void let_go(guarded buffer) { munmap(buffer.mapped, buffer.mapped_size); }

/* A guarded copy. */
static inline guarded copied(const void *bytes, size_t size) {
    guarded made = guard(size);
    if (size) memcpy(made.bytes, bytes, size);
    return made;
}

/* Whether all of these bytes are this one. */
static inline int are_all(const uint8_t *bytes, size_t size, uint8_t byte) {
    for (size_t at = 0; at < size; at++)
        if (bytes[at] != byte) return 0;
    return 1;
}

/* What a buffer is filled with, to see what a call wrote. */
enum { UNTOUCHED = '#' };

static inline guarded untouched(size_t size) {
    guarded out = guard(size);
    memset(out.bytes, UNTOUCHED, size);
    return out;
}

/* Whether two searches say the same, whatever they had room for. */
static inline int is_same(nissy_search_answer one, nissy_search_answer other) {
    return one.status == other.status && one.fault == other.fault && one.column == other.column && one.least == other.least &&
           one.more == other.more && one.solutions == other.solutions && one.nodes == other.nodes;
}

static inline int is_same_axis(nissy_axis_facts one, nissy_axis_facts other) {
    return one.bad_edge_places == other.bad_edge_places && one.bad_corner_places == other.bad_corner_places &&
           one.misplaced_edge_places == other.misplaced_edge_places && one.bad_edges == other.bad_edges && one.bad_corners == other.bad_corners &&
           one.misplaced_edges == other.misplaced_edges;
}

static inline int is_same_facts(nissy_facts_answer one, nissy_facts_answer other) {
    int is_equal = one.status == other.status && one.fault == other.fault && one.solved == other.solved && one.column == other.column;
    for (int axis = NISSY_FB; axis <= NISSY_UD; axis++) is_equal = is_equal && is_same_axis(one.axes[axis], other.axes[axis]);
    return is_equal && one.moves == other.moves && one.clean_moves == other.clean_moves && one.holds == other.holds;
}

#endif
