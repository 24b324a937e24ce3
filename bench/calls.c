/* Times calls of the library: bench/calls compiles and runs it with a command, the file of its lines, and the words before a line.
 *
 *     calls line NAME FILE             one of the calls on a line, for each line of the file
 *     calls run FILE WORD..            nissy_run with these words, for each line of the file, and once for all of them
 *     calls tables NAME STEP FILE      nissy_solve or nissy_count by tables that are there, for each line, and nissy_run beside it
 *     calls lines STEP FILE            nissy_count and nissy_facts of each line, and of all lines by one call
 *
 * It prints the nanoseconds of processor time a line, the least of several rounds: by a call each, and for `run` by one call for all. For
 * `tables` these are: of nissy_build, of a call by tables, of a run of one line, of a run of 1,000 lines, and of a run of all lines without
 * the time of a run of no line. For `lines`: of a count, of one among all, of facts, and of those among all. */
#define _GNU_SOURCE
#include <stdio.h>
#include <stdlib.h>
#include <string.h>
#include <time.h>

#include "nissy.h"

enum { ROUNDS = 5, TABLE_ROUNDS = 25, SLOW_LINES = 20, THOUSAND = 1000, LIMIT = 20, ROOM = 1 << 26, MOST_LINES = 1 << 20 };

typedef nissy_line_answer line_call(const uint8_t *, size_t, uint8_t *, size_t);

static uint8_t input[NISSY_MOST_INPUT], out[ROOM], err[NISSY_ERROR_ROOM], words[4096];
static size_t begins[MOST_LINES + 1], lines, words_length;

static double now(void) {
    struct timespec time;
    clock_gettime(CLOCK_PROCESS_CPUTIME_ID, &time);
    return (double)time.tv_sec * 1e9 + (double)time.tv_nsec;
}

static void read_lines(const char *path) {
    FILE *file = fopen(path, "rb");
    size_t size = file ? fread(input, 1, sizeof input, file) : 0;
    for (size_t at = 0; at < size && lines < MOST_LINES; at++)
        if (input[at] == '\n') begins[++lines] = at + 1;
    if (!lines) {
        fprintf(stderr, "calls: no lines in %s\n", path);
        exit(1);
    }
}

static void end_unless(int is_good) {
    if (is_good) return;
    fprintf(stderr, "calls: a call answered something else\n");
    exit(1);
}

static line_call *call_named(const char *name) {
    static const struct {
        const char *name;
        line_call *call;
    } CALLS[] = {{"invert", nissy_invert}, {"unniss", nissy_unniss}, {"cleanup", nissy_cleanup}, {"print", nissy_facelets}};
    for (size_t at = 0; at < sizeof CALLS / sizeof *CALLS; at++)
        if (strcmp(CALLS[at].name, name) == 0) return CALLS[at].call;
    fprintf(stderr, "calls: there is no call %s\n", name);
    exit(1);
}

/* The nanoseconds of the quickest of so many rounds on the first lines. */
static double quickest(void (*round)(size_t), size_t count, int rounds) {
    double best = 0;
    for (int at = 0; at < rounds; at++) {
        double begun = now();
        round(count);
        double took = now() - begun;
        if (at == 0 || took < best) best = took;
    }
    return best;
}

/* The same of each of all lines. */
static double least(void (*round)(size_t)) { return quickest(round, lines, ROUNDS) / (double)lines; }

static line_call *on_a_line;

/* A call on each of the first lines without its line feed. */
static void call_each(size_t count) {
    for (size_t at = 0; at < count; at++) {
        nissy_line_answer got = on_a_line(input + begins[at], begins[at + 1] - begins[at] - 1, out, NISSY_LINE_ROOM);
        end_unless(got.status == NISSY_DONE);
    }
}

static void run_on(const uint8_t *from, size_t size) {
    nissy_run_answer got = nissy_run(words, words_length, from, size, out, sizeof out, err, sizeof err);
    end_unless(got.status == NISSY_DONE);
}

/* The first lines by a run each, and by one run. */
static void run_each(size_t count) {
    for (size_t at = 0; at < count; at++) run_on(input + begins[at], begins[at + 1] - begins[at]);
}

static void run_first(size_t count) { run_on(input, begins[count]); }

static nissy_tables tables;
static const char *step;

static void build(size_t none) {
    nissy_tables made = NISSY_NO_TABLES;
    (void)none;
    end_unless(nissy_build(&made, (const uint8_t *)step, strlen(step)) == NISSY_DONE);
    tables = made;
}

/* The first lines by a call each. */
static void solve_each(size_t count) {
    for (size_t at = 0; at < count; at++) {
        const uint8_t *line = input + begins[at];
        nissy_search_answer got = nissy_solve(&tables, line, begins[at + 1] - begins[at] - 1, LIMIT, 0, NISSY_ALL, NISSY_ALL, out, sizeof out);
        end_unless(got.status == NISSY_DONE);
    }
}

static void count_each(size_t count) {
    for (size_t at = 0; at < count; at++) {
        nissy_search_answer got = nissy_count(&tables, input + begins[at], begins[at + 1] - begins[at] - 1, LIMIT, 0, NISSY_ALL, NISSY_ALL);
        end_unless(got.status == NISSY_DONE);
    }
}

static nissy_search_answer counts[MOST_LINES];
static nissy_facts_answer facts[MOST_LINES];

static void count_lines(size_t count) {
    nissy_lines_answer got = nissy_count_lines(&tables, input, begins[count], LIMIT, 0, NISSY_ALL, NISSY_ALL, counts, count);
    end_unless(got.status == NISSY_DONE && got.lines == count);
}

static void judge_each(size_t count) {
    for (size_t at = 0; at < count; at++) end_unless(nissy_facts(input + begins[at], begins[at + 1] - begins[at] - 1).status == NISSY_DONE);
}

static void judge_lines(size_t count) {
    nissy_lines_answer got = nissy_facts_lines(input, begins[count], facts, count);
    end_unless(got.status == NISSY_DONE && got.lines == count);
}

/* Counts and facts of all lines, by a call each and by one. */
static void time_lines(void) {
    static void (*const ROUNDS_OF[])(size_t) = {count_each, count_lines, judge_each, judge_lines};
    build(0);
    for (size_t at = 0; at < 4; at++) printf("%.0f%c", quickest(ROUNDS_OF[at], lines, TABLE_ROUNDS) / (double)lines, at < 3 ? ' ' : '\n');
}

static size_t at_most(size_t count) { return lines < count ? lines : count; }

/* A search with tables that are there, and the same by runs. */
static void time_tables(const char *name) {
    size_t few = at_most(SLOW_LINES), thousand = at_most(THOUSAND);
    int is_count = strcmp(name, "count") == 0;
    words_length = (size_t)snprintf((char *)words, sizeof words, "%s%c%s%c%d", name, 0, step, 0, LIMIT);
    double built = quickest(build, 0, ROUNDS), each = quickest(is_count ? count_each : solve_each, lines, TABLE_ROUNDS);
    double alone = quickest(run_each, few, ROUNDS), together = quickest(run_first, thousand, ROUNDS);
    double none = quickest(run_first, 0, TABLE_ROUNDS), all = quickest(run_first, lines, TABLE_ROUNDS);
    printf("%.0f %.0f %.0f %.0f %.0f\n", built, each / (double)lines, alone / (double)few, together / (double)thousand, (all - none) / (double)lines);
}

int main(int count, char **arguments) {
    if (count == 4 && strcmp(arguments[1], "line") == 0) {
        read_lines(arguments[3]);
        on_a_line = call_named(arguments[2]);
        printf("%.0f\n", least(call_each));
        return 0;
    }
    if (count == 5 && strcmp(arguments[1], "tables") == 0) {
        step = arguments[3];
        read_lines(arguments[4]);
        time_tables(arguments[2]);
        return 0;
    }
    if (count == 4 && strcmp(arguments[1], "lines") == 0) {
        step = arguments[2];
        read_lines(arguments[3]);
        time_lines();
        return 0;
    }
    if (count < 4 || strcmp(arguments[1], "run") != 0) return 2;
    read_lines(arguments[2]);
    for (int at = 3; at < count; at++) {
        size_t length = strlen(arguments[at]) + 1;
        end_unless(words_length + length <= sizeof words);
        memcpy(words + words_length, arguments[at], length);
        words_length += length;
    }
    printf("%.0f %.0f\n", least(run_each), least(run_first));
    return 0;
}
