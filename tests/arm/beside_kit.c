/* The C that stands for the kit's on ARM beside the kit's own, both for this machine: the same answers for each word of this program and each
 * size of room, for sizes of blocks, and for errno. tests/arm.sh compiles ours with `our_` in the place of `rattle_`. */
#include <errno.h>
#include <stdbool.h>
#include <stddef.h>
#include <stdint.h>
#include <stdio.h>
#include <stdlib.h>
#include <string.h>

typedef struct tried {
    bool ok;
    uint8_t *at;
} tried;

#define DECLARED(of)                                                                                                                                 \
    tried of##_alloc(size_t size, size_t align);                                                                                                     \
    tried of##_realloc(void *at, size_t kept, size_t size, size_t align);                                                                            \
    void of##_dealloc(void *at);                                                                                                                     \
    size_t of##_arg_count(void);                                                                                                                     \
    ptrdiff_t of##_arg(size_t i, uint8_t *room, size_t size);                                                                                        \
    int32_t of##_errno(void);                                                                                                                        \
    void of##_set_errno(int32_t error);
DECLARED(rattle)
DECLARED(our)

enum { ROOM = 64, FILLED = 0x23 };

static long passed, failed;

static void holds(int so, const char *what) {
    passed += so;
    failed += !so;
    if (!so) printf("not so: %s\n", what);
}

/* What each puts into a room of a size, and returns. */
static void try_word(size_t at, size_t size) {
    uint8_t kits[ROOM], ours[ROOM];
    memset(kits, FILLED, sizeof kits);
    memset(ours, FILLED, sizeof ours);
    holds(rattle_arg(at, kits, size) == our_arg(at, ours, size), "a word's length");
    holds(memcmp(kits, ours, sizeof kits) == 0, "a word's bytes, and no others");
}

/* A block of a size, made longer and then shorter, keeps its bytes by each. */
static void try_block(size_t size) {
    tried (*const made[])(size_t, size_t) = {rattle_alloc, our_alloc};
    tried (*const resized[])(void *, size_t, size_t, size_t) = {rattle_realloc, our_realloc};
    void (*const given_back[])(void *) = {rattle_dealloc, our_dealloc};
    for (int of = 0; of < 2; of++) {
        tried block = made[of](size, 16);
        holds(block.ok && (uintptr_t)block.at % 16 == 0, "a block, where it may begin");
        memset(block.at, FILLED, size);
        block = resized[of](block.at, size, 2 * size + 1, 16);
        holds(block.ok && (size == 0 || (block.at[0] == FILLED && block.at[size - 1] == FILLED)), "a longer one has the bytes");
        block = resized[of](block.at, size, 0, 16);
        holds(block.ok, "one of no bytes");
        given_back[of](block.at);
    }
}

int main(int count, char **words) {
    const size_t too_many = (size_t)1 << 62;
    holds(rattle_arg_count() == (size_t)count && our_arg_count() == (size_t)count, "how many words there are");
    for (size_t at = 0; at < (size_t)count + 2; at++) {
        size_t length = at < (size_t)count ? strlen(words[at]) : 3;
        for (size_t size = 0; size <= length + 2 && size <= ROOM; size++) try_word(at, size);
    }
    try_word(SIZE_MAX, ROOM);
    for (size_t size = 0; size < 300; size++) try_block(size);
    tried kits = rattle_alloc(too_many, 16), ours = our_alloc(too_many, 16);
    holds(!kits.ok && !ours.ok && kits.at != NULL && ours.at != NULL, "no memory, and a pointer all the same");
    errno = 3;
    holds(rattle_errno() == 3 && our_errno() == 3, "errno");
    our_set_errno(4);
    holds(errno == 4 && rattle_errno() == 4, "errno as it was set");
    printf("%ld passed, %ld failed\n", passed, failed);
    return failed != 0 || passed == 0;
}
