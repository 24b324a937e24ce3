/* What a program that the kit compiled for aarch64 asks of C beside memory, as the kit's declarations say (rattle_arg and its neighbours in its
 * crate os): its words and errno. */
#include <errno.h>
#include <stddef.h>
#include <stdint.h>
#include <string.h>

static size_t count;
static char **words;

/* glibc hands main's arguments to what runs before main. */
__attribute__((constructor)) static void keep(int given, char **at) {
    count = (size_t)given;
    words = at;
}

size_t rattle_arg_count(void) { return count; }

/* Puts word i at the start of the room and returns its length, -1 if there is none, or -2 if it doesn't fit, and then the room is full. */
ptrdiff_t rattle_arg(size_t i, uint8_t *room, size_t size) {
    if (i >= count || words[i] == NULL) return -1;
    size_t length = strlen(words[i]);
    memcpy(room, words[i], length < size ? length : size);
    return length <= size ? (ptrdiff_t)length : -2;
}

int32_t rattle_errno(void) { return errno; }

void rattle_set_errno(int32_t error) { errno = error; }
