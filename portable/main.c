/* The program nissy over its library, for systems for which the proved program isn't compiled: it does with words, streams and status what that
 * one does. It needs nissy.h and a library that keeps it, such as nissy.c:
 *
 *     cc -O2 main.c nissy.c -o nissy
 *
 * What it takes of the system beside ISO C11 is `read` and `write`, since C's streams don't say which bytes have come. */
#if defined(__cplusplus) || !defined(__STDC_VERSION__) || __STDC_VERSION__ < 199901L
#error "main.c is C, from C99 on: compile it by a C compiler"
#else
#include "nissy.h"

#include <inttypes.h>
#include <signal.h>
#include <stdbool.h>
#include <stdio.h>
#include <stdlib.h>
#include <string.h>

#ifdef _WIN32
#include <fcntl.h>
#include <io.h>
#include <windows.h>
#include <shellapi.h>
#define read _read
#define write _write
typedef int transferred;
typedef unsigned int piece;
#else
#include <unistd.h>
typedef ssize_t transferred;
typedef size_t piece;
#endif

enum { BLOCK = 4096, GATHERED = 2048, MOST_TURNS = 20 };

/* the rooms for a piece of a list, for the moves of one solution, and for what takes no lines: 10,000 scrambles of
 * 256 turns are the longest */
enum { FOUND_ROOM = 65536, MOVES_ROOM = 65, RUN_ROOM = 8388608 };

/* what the program says if it stops */
struct stop {
    int status;
    char text[NISSY_ERROR_ROOM];
};

static struct stop stopped;

static bool stop(int status, const char *text) {
    stopped.status = status;
    snprintf(stopped.text, sizeof stopped.text, "%s", text);
    return false;
}

static bool out_of_memory(void) { return stop(NISSY_STOPPED, "nissy: out of memory\n"); }

static bool too_long(void) { return stop(NISSY_STOPPED, "nissy: input longer than 16777216 bytes\n"); }

/* --- the streams --- */

static bool write_all(int stream, const uint8_t *bytes, size_t length) {
    while (length > 0) {
        transferred taken = write(stream, bytes, (piece)(length < 1u << 30 ? length : 1u << 30));
        if (taken <= 0) return false;
        bytes += taken;
        length -= (size_t)taken;
    }
    return true;
}

static uint8_t gathered[GATHERED];
static size_t gathered_length;
static bool is_broken;

static bool flush(void) {
    bool done = !is_broken && write_all(1, gathered, gathered_length);
    gathered_length = 0;
    is_broken = !done;
    return done || stop(NISSY_STOPPED, "nissy: cannot write\n");
}

static bool put(const uint8_t *bytes, size_t length) {
    if (gathered_length + length > sizeof gathered && !flush()) return false;
    if (length > sizeof gathered) {
        is_broken = !write_all(1, bytes, length);
        return !is_broken || stop(NISSY_STOPPED, "nissy: cannot write\n");
    }
    if (length > 0) memcpy(gathered + gathered_length, bytes, length);
    gathered_length += length;
    return true;
}

static bool put_text(const char *text) { return put((const uint8_t *)text, strlen(text)); }

/* --- the command --- */

typedef nissy_line_answer rewriting(const uint8_t *line, size_t line_length, uint8_t *out, size_t out_room);

static struct command {
    rewriting *rewrite; /* or, if it is null, a search */
    bool is_count;
    const char *step;
    uint8_t limit, slack;
    nissy_tables tables;
} command;

static bool stop_at(uint32_t number, uint8_t fault, uint32_t column) {
    char text[NISSY_ERROR_ROOM];
    uint8_t words[2][NISSY_ERROR_ROOM];
    nissy_line_answer said = nissy_fault_text(fault, words[0], sizeof words[0]);
    if (fault == NISSY_START) {
        nissy_line_answer start = nissy_start((const uint8_t *)command.step, strlen(command.step), words[1], sizeof words[1]);
        snprintf(text, sizeof text, "nissy: line %lu: %.*s %.*s\n", (unsigned long)number, (int)start.length, (const char *)words[1],
                 (int)said.length, (const char *)words[0]);
    } else {
        snprintf(text, sizeof text, "nissy: line %lu, column %lu: %.*s\n", (unsigned long)number, (unsigned long)column, (int)said.length,
                 (const char *)words[0]);
    }
    return stop(NISSY_FAULT, text);
}

static bool rewrite(const uint8_t *line, size_t length, uint32_t number) {
    uint8_t out[NISSY_LINE_ROOM];
    nissy_line_answer answer = command.rewrite(line, length, out, sizeof out);
    if (answer.status == NISSY_FAULT) return stop_at(number, answer.fault, answer.column);
    if (answer.status != NISSY_DONE) return too_long();
    return put(out, (size_t)answer.length) && put_text("\n");
}

static bool count(const uint8_t *line, size_t length, uint32_t number) {
    char text[128];
    nissy_search_answer answer = nissy_count(&command.tables, line, length, command.limit, command.slack, NISSY_ALL, NISSY_ALL);
    if (answer.status == NISSY_FAULT) return stop_at(number, answer.fault, answer.column);
    if (answer.status != NISSY_DONE) return too_long();
    char least[8] = "none";
    if (answer.solutions > 0) snprintf(least, sizeof least, "%u", (unsigned)answer.least);
    snprintf(text, sizeof text, "length %s solutions %" PRIu64 " nodes %" PRIu64 "\n", least, answer.solutions, answer.nodes);
    return put_text(text);
}

/* Copies the moves of the last of some solutions, without its count, and returns how many bytes they are. */
static size_t moves_of_last(const uint8_t *found, size_t length, uint8_t *moves) {
    const uint8_t *begin = found + length - 1;
    while (begin > found && begin[-1] != '\n') begin -= 1;
    const uint8_t *count = memchr(begin, '(', (size_t)(found + length - begin));
    size_t with_blank = (size_t)(count - begin);
    if (with_blank == 0) return 0;
    memcpy(moves, begin, with_blank - 1);
    return with_blank - 1;
}

static bool tell_none(void) {
    char text[64];
    snprintf(text, sizeof text, "no solution within %u moves\n\n", (unsigned)command.limit);
    return put_text(text);
}

/* Writes a list in pieces, each of which goes on after the last solution of the one before. */
static bool solve(const uint8_t *line, size_t length, uint32_t number) {
    static uint8_t found[FOUND_ROOM];
    const nissy_tables *tables = &command.tables;
    uint8_t limit = command.limit, slack = command.slack, last[MOVES_ROOM];
    nissy_search_answer answer = nissy_solve(tables, line, length, limit, slack, NISSY_ALL, NISSY_ALL, found, sizeof found);
    if (answer.status == NISSY_FAULT) return stop_at(number, answer.fault, answer.column);
    if (answer.status != NISSY_DONE && answer.status != NISSY_ROOM) return too_long();
    if (answer.solutions == 0) return tell_none();
    while (put(found, (size_t)answer.length)) {
        if (!answer.more) return put_text("\n");
        size_t moves = moves_of_last(found, (size_t)answer.length, last);
        answer = nissy_solve_after(tables, line, length, last, moves, limit, slack, NISSY_ALL, NISSY_ALL, found, sizeof found);
    }
    return false;
}

static bool answer_line(const uint8_t *line, size_t length, uint32_t number) {
    if (command.rewrite != NULL) return rewrite(line, length, number);
    return command.is_count ? count(line, length, number) : solve(line, length, number);
}

/* Answers lines, of which the last one needs no line feed; `number` counts them. */
static bool answer_lines(const uint8_t *lines, size_t length, uint32_t *number) {
    while (length > 0) {
        const uint8_t *end = memchr(lines, '\n', length);
        size_t line = end == NULL ? length : (size_t)(end - lines);
        if (!answer_line(lines, line, (*number)++)) return false;
        size_t taken = end == NULL ? line : line + 1;
        lines += taken;
        length -= taken;
    }
    return true;
}

/* --- the input --- */

/* A line whose end hasn't come. No input is longer; of the room only those pages are taken that are used. */
static struct open_line {
    uint8_t bytes[NISSY_MOST_INPUT];
    size_t length;
} open_line;

static void add(const uint8_t *bytes, size_t length) {
    if (length > 0) memcpy(open_line.bytes + open_line.length, bytes, length);
    open_line.length += length;
}

static size_t up_to_last_feed(const uint8_t *bytes, size_t length) {
    while (length > 0 && bytes[length - 1] != '\n') length -= 1;
    return length;
}

static bool take_block(const uint8_t *block, size_t length, uint32_t *number) {
    size_t whole = up_to_last_feed(block, length);
    if (whole > 0) {
        size_t first = (size_t)((const uint8_t *)memchr(block, '\n', length) - block) + 1;
        add(block, first);
        if (!answer_lines(open_line.bytes, open_line.length, number)) return false;
        open_line.length = 0;
        if (!answer_lines(block + first, whole - first, number) || !flush()) return false;
    }
    add(block + whole, length - whole);
    return true;
}

static bool read_lines(void) {
    static uint8_t block[BLOCK];
    size_t left = NISSY_MOST_INPUT;
    uint32_t number = 1;
    for (;;) {
        transferred count = read(0, block, sizeof block);
        if (count < 0) return stop(NISSY_STOPPED, "nissy: cannot read\n");
        if (count == 0) return answer_lines(open_line.bytes, open_line.length, &number);
        bool is_more = (size_t)count > left;
        if (!take_block(block, is_more ? left : (size_t)count, &number)) return false;
        if (is_more) return too_long();
        left -= (size_t)count;
    }
}

/* --- the words --- */

/* whether a word is text: Unicode in UTF-8 */
static bool is_text(const char *word) {
    const uint8_t *at = (const uint8_t *)word;
    while (*at != 0) {
        uint8_t lead = *at++;
        if (lead < 0x80) continue;
        int more = lead >= 0xC2 && lead < 0xE0 ? 1 : lead >= 0xE0 && lead < 0xF0 ? 2 : lead >= 0xF0 && lead < 0xF5 ? 3 : 0;
        if (more == 0) return false;
        uint8_t low = lead == 0xE0 ? 0xA0 : lead == 0xF0 ? 0x90 : 0x80, high = lead == 0xED ? 0x9F : lead == 0xF4 ? 0x8F : 0xBF;
        for (; more > 0; more -= 1, low = 0x80, high = 0xBF) {
            if (*at < low || *at > high) return false;
            at += 1;
        }
    }
    return true;
}

static bool turns_of(const char *word, uint8_t *turns) {
    unsigned value = 0;
    if (*word == 0) return false;
    for (; *word != 0; word += 1) {
        if (*word < '0' || *word > '9') return false;
        value = 10 * value + (unsigned)(*word - '0');
        if (value > MOST_TURNS) return false;
    }
    *turns = (uint8_t)value;
    return true;
}

/* How many words say a command on lines, or 0 if they say none. */
static int command_of(int count, char **words) {
    static const struct {
        const char *name;
        rewriting *does;
    } rewritings[] = {{"invert", nissy_invert}, {"unniss", nissy_unniss}, {"cleanup", nissy_cleanup}, {"print", nissy_facelets}};
    if (count == 0) return 0;
    for (size_t at = 0; at < sizeof rewritings / sizeof *rewritings; at += 1) {
        if (strcmp(words[0], rewritings[at].name) != 0) continue;
        command.rewrite = rewritings[at].does;
        return 1;
    }
    bool is_near = strcmp(words[0], "near") == 0;
    command.is_count = strcmp(words[0], "count") == 0;
    int said = is_near ? 4 : 3;
    if (count < said || !(is_near || command.is_count || strcmp(words[0], "solve") == 0)) return 0;
    uint8_t start[NISSY_LINE_ROOM];
    command.step = words[1];
    if (nissy_start((const uint8_t *)words[1], strlen(words[1]), start, sizeof start).status != NISSY_DONE) return 0;
    if (!turns_of(words[2], &command.limit) || (is_near && !turns_of(words[3], &command.slack))) return 0;
    return said;
}

static size_t joined_length(int count, char **words) {
    size_t length = 0;
    for (int at = 0; at < count; at += 1) length += strlen(words[at]) + 1;
    return length;
}

/* The words, each with a byte after it. */
static uint8_t *joined(int count, char **words, char after) {
    uint8_t *text = malloc(joined_length(count, words) + 1), *at = text;
    if (text == NULL) return NULL;
    for (int word = 0; word < count; word += 1) {
        size_t length = strlen(words[word]);
        memcpy(at, words[word], length);
        at += length;
        *at++ = (uint8_t)after;
    }
    return text;
}

static bool build(void) { return nissy_build(&command.tables, (const uint8_t *)command.step, strlen(command.step)) == NISSY_DONE || out_of_memory(); }

static bool answer_words(int count, char **words) {
    size_t length = joined_length(count, words);
    if (length > NISSY_MOST_INPUT) return too_long();
    uint8_t *text = joined(count, words, ' ');
    if (text == NULL) return out_of_memory();
    text[length - 1] = '\n';
    uint32_t number = 1;
    bool done = (command.rewrite != NULL || build()) && answer_lines(text, length, &number);
    free(text);
    return done;
}

/* Does what the words say that take no lines. */
static bool run(int count, char **words) {
    static uint8_t out[RUN_ROOM]; /* of which only those pages are taken that are used */
    uint8_t *text = joined(count, words, 0), err[NISSY_ERROR_ROOM];
    if (text == NULL) return out_of_memory();
    size_t length = joined_length(count, words);
    nissy_run_answer answer = nissy_run(text, length, NULL, 0, out, sizeof out, err, sizeof err - 1);
    free(text);
    err[answer.err_length] = 0;
    if (!put(out, (size_t)answer.out_length)) return false;
    return answer.status == NISSY_DONE || stop(answer.status, (const char *)err);
}

static bool obey(int count, char **words) {
    for (int at = 0; at < count; at += 1) {
        if (!is_text(words[at])) return stop(NISSY_USAGE, "usage: nissy COMMAND [ARGUMENTS]\n");
    }
    int said = command_of(count, words);
    if (said == 0) return run(count, words);
    if (count > said) return answer_words(count - said, words + said);
    return (command.rewrite != NULL || build()) && read_lines();
}

static int ended(int count, char **words) {
    bool done = obey(count, words);
    /* answers before a fault are written before it is told, unless that is refused */
    if (!is_broken && !flush()) done = false;
    if (done) return NISSY_DONE;
    (void)write_all(2, (const uint8_t *)stopped.text, strlen(stopped.text));
    return stopped.status;
}

#ifdef _WIN32
/* Windows hands words over in the letters of a country; those of Unicode are asked for. */
int main(void) {
    int count = 0;
    wchar_t **wide = CommandLineToArgvW(GetCommandLineW(), &count);
    char **words = malloc((size_t)(count + 1) * sizeof *words);
    _setmode(0, _O_BINARY);
    _setmode(1, _O_BINARY);
    _setmode(2, _O_BINARY);
    if (wide == NULL || words == NULL) {
        (void)out_of_memory();
        return NISSY_STOPPED;
    }
    for (int at = 0; at < count; at += 1) {
        int room = WideCharToMultiByte(CP_UTF8, 0, wide[at], -1, NULL, 0, NULL, NULL);
        words[at] = malloc((size_t)room);
        if (words[at] == NULL) return NISSY_STOPPED;
        WideCharToMultiByte(CP_UTF8, 0, wide[at], -1, words[at], room, NULL, NULL);
    }
    return ended(count > 0 ? count - 1 : 0, words + 1);
}
#else
int main(int count, char **words) {
    /* a reader that has gone is told as any write that fails */
    signal(SIGPIPE, SIG_IGN);
    return ended(count > 0 ? count - 1 : 0, words + 1);
}
#endif
#endif
