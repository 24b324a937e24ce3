/* Threads that call side by side, on the stack that the header asks for, also by the same tables: each gets its own calls' answers.

       threads [RUNS [SEARCHES]]      so many rounds of the rows; a tool that watches for races makes each slow */
#include "rows.h"
#include "searches.h"

#include <pthread.h>

enum { THREADS = 8, STACK = 64 * 1024 };

static int run_rounds = 1, search_rounds = 100;

/* The sanitizers themselves take more stack. */
static int is_sanitized(void) {
#if defined __SANITIZE_ADDRESS__ || defined __SANITIZE_THREAD__
    return 1;
#else
    return 0;
#endif
}

/* The least stack that the system gives a thread, if that is more: on aarch64 it is 128 KiB. */
static size_t given(void) {
    long least = sysconf(_SC_THREAD_STACK_MIN);
    return least > STACK ? (size_t)least : STACK;
}

/* What a thread has: what it does, the row that it begins with, another one than its neighbours, and tables that it builds itself. */
typedef struct part {
    void *(*work)(void *);
    int first;
    nissy_tables own;
} part;

/* Does a thread's work on what is left of its stack when what is beyond STACK was taken. */
static void *on_little(void *of) {
    const part *part = of;
    volatile uint8_t beyond[1 + given() - STACK];
    beyond[0] = 0;
    void *wrong = part->work(of);
    return beyond[0] ? of : wrong;
}

/* How many answers of a thread were other ones. */
static void *call_all(void *of) {
    const part *part = of;
    long wrong = 0;
    for (int round = 0; round < run_rounds * RUN_COUNT; round++) {
        const run_row *row = &RUNS[(round + part->first) % RUN_COUNT];
        uint8_t out[256], err[NISSY_ERROR_ROOM], line[NISSY_LINE_ROOM];
        nissy_run_answer got = nissy_run((const uint8_t *)row->words, row->words_length, (const uint8_t *)row->input, strlen(row->input), out,
                                         sizeof out, err, sizeof err);
        wrong += got.status != row->status || got.out_length != strlen(row->out) || memcmp(out, row->out, got.out_length) != 0 ||
                 got.err_length != strlen(row->err) || memcmp(err, row->err, got.err_length) != 0;
        nissy_line_answer inverted = nissy_invert((const uint8_t *)"R U' F2", 7, line, sizeof line);
        wrong += inverted.length != 7 || memcmp(line, "F2 U R'", 7) != 0;
    }
    return (void *)wrong;
}

/* the tables of each row's step, which all threads ask */
static nissy_tables shared[SEARCH_COUNT];

/* How many answers by the shared tables, by a copy, and by tables of the thread's own, were other ones. */
static void *search_all(void *of) {
    part *part = of;
    long wrong = 0;
    for (int round = 0; round < search_rounds * (int)SEARCH_COUNT; round++) {
        size_t at = (size_t)(round + part->first) % SEARCH_COUNT;
        nissy_tables copy = shared[at];
        wrong += !is_answered(&SEARCHES[at], &shared[at]) + !is_answered(&SEARCHES[at], &copy);
    }
    uint8_t status = nissy_build(&part->own, (const uint8_t *)SEARCHES[0].step, strlen(SEARCHES[0].step));
    wrong += status != NISSY_DONE || !is_answered(&SEARCHES[0], &part->own);
    return (void *)wrong;
}

/* Runs one of these in each thread. */
static int all_threads(void *(*work)(void *), const pthread_attr_t *with) {
    static part parts[THREADS];
    pthread_t threads[THREADS];
    for (int at = 0; at < THREADS; at++) {
        parts[at].work = work;
        parts[at].first = at * 3;
        if (pthread_create(&threads[at], with, on_little, &parts[at])) return 0;
    }
    for (int at = 0; at < THREADS; at++) {
        void *wrong;
        pthread_join(threads[at], &wrong);
        holds(wrong == NULL, "each answer of a thread is that of its call", work == call_all ? "runs" : "searches");
    }
    return 1;
}

int main(int count, char **words) {
    pthread_attr_t small;
    if (count > 1) run_rounds = atoi(words[1]);
    if (count > 2) search_rounds = atoi(words[2]);
    if (pthread_attr_init(&small) || (!is_sanitized() && pthread_attr_setstacksize(&small, given()))) return 2;
    // rows of one step, which stand together, have the same tables
    for (size_t at = 0; at < SEARCH_COUNT; at++)
        shared[at] = at && !strcmp(SEARCHES[at].step, SEARCHES[at - 1].step) ? shared[at - 1] : built(SEARCHES[at].step);
    if (!all_threads(call_all, &small) || !all_threads(search_all, &small)) return 2;
    return ended();
}
