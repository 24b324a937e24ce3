/* Memory that is counted and refused, for a test that is linked with --wrap for malloc, realloc and free. */
#ifndef REFUSED_H
#define REFUSED_H

#include <stddef.h>

#ifdef __cplusplus
extern "C" {
#endif

void *__real_malloc(size_t size);
void *__real_realloc(void *old, size_t size);
void __real_free(void *block);

static long made, refused_at, held, most_held;
static int onward;

/* Whether this allocation is refused, by its number from 1. */
static int is_refused(void) {
    made++;
    return refused_at && (made == refused_at || (onward && made > refused_at));
}

/* Counts a block that was handed out. */
static void take(void) {
    held++;
    if (held > most_held) most_held = held;
}

void *__wrap_malloc(size_t size) {
    void *block = is_refused() ? NULL : __real_malloc(size);
    if (block) take();
    return block;
}

void *__wrap_realloc(void *old, size_t size) {
    void *block = is_refused() ? NULL : __real_realloc(old, size);
    if (block && !old) take();
    return block;
}

void __wrap_free(void *block) {
    held -= block != NULL;
    __real_free(block);
}

#ifdef __cplusplus
}
#endif

#endif
