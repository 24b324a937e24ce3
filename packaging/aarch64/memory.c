/* What a program or library that the kit compiled for aarch64 asks of C for memory, as the kit's declarations say (rattle_alloc and its
 * neighbours in its crate libc): the kit has this part as C only for x86-64. */
#include <stdbool.h>
#include <stddef.h>
#include <stdlib.h>

/* Whether there is memory, and where. */
struct tried {
    bool ok;
    void *at;
};

/* A place for the pointer to lead to if there is no memory, which is never read. */
static char nothing;

static struct tried tried(void *at) {
    struct tried said = {at != NULL, at != NULL ? at : &nothing};
    return said;
}

/* malloc may return a null pointer for a size of 0, so that is one of `align` bytes; all alignments divide malloc's. */
struct tried rattle_alloc(size_t size, size_t align) {
    return tried(malloc(size != 0 ? size : align));
}

struct tried rattle_realloc(void *at, size_t kept, size_t size, size_t align) {
    (void)kept;
    return tried(realloc(at, size != 0 ? size : align));
}

void rattle_dealloc(void *at) { free(at); }
