/* Calls from a signal's handler while the thread is within another call, on a stack of its own that is no larger than the header asks for:
   each is answered as by itself. */
#include "rows.h"
#include "searches.h"

#include <signal.h>
#include <sys/auxv.h>
#include <sys/time.h>

/* how much a kernel itself lays on the stack; older ones don't say, and lay less than a page */
#ifndef AT_MINSIGSTKSZ
#define AT_MINSIGSTKSZ 51
#endif

enum { STACK = 16 * 1024, HANDLED = 400, MICROSECONDS = 300 };

static nissy_tables asked[SEARCH_COUNT];
static volatile sig_atomic_t handled, wrong;

/* A stack for the handler. */
static guarded stack_of_handler(void) {
    size_t laid = getauxval(AT_MINSIGSTKSZ);
    return guard(STACK + (laid ? laid : 4096));
}

static int is_text(nissy_line_answer got, const uint8_t *out, const char *text) {
    return got.status == NISSY_DONE && got.length == strlen(text) && memcmp(out, text, got.length) == 0;
}

/* Whether the other calls that take no memory are answered as they are to be. */
static int are_lines(void) {
    static const char cube[] = "UUFUUFUUFRRRRRRRRRFFDFFDFFDDDBDDBDDBLLLLLLLLLUBBUBBUBB";
    static const uint8_t line[] = "R (U F') D";
    uint8_t out[256];
    return is_text(nissy_invert(line, 10, out, sizeof out), out, "U F' D' R'") && is_text(nissy_unniss(line, 10, out, sizeof out), out, "R D F U'") &&
           is_text(nissy_cleanup((const uint8_t *)"Rw U", 4, out, sizeof out), out, "L F x") &&
           is_text(nissy_facelets((const uint8_t *)"R", 1, out, sizeof out), out, cube) &&
           is_text(nissy_scramble(42, 54, 6, out, sizeof out), out, "L' D' F' R2 F' L'") &&
           is_text(nissy_start((const uint8_t *)"dr-eofb", 7, out, sizeof out), out, "eofb") &&
           is_text(nissy_fault_text(NISSY_START, out, sizeof out), out, "does not hold") && nissy_steps(out, sizeof out).status == NISSY_DONE &&
           nissy_version() > 0;
}

/* Whether the calls that judge lines, and those on many, are answered as they are to be: guides for solvers have R as 4c4e, and the manual
   has the positions of F B. */
static int are_judged(void) {
    static const uint8_t text[] = "R\nq\nF B";
    nissy_facts_answer facts[3], alone = nissy_facts(text, 1);
    nissy_search_answer counts[3];
    nissy_lines_answer judged = nissy_facts_lines(text, 7, facts, 3);
    nissy_lines_answer counted = nissy_count_lines(&asked[0], text, 7, 5, 0, NISSY_ALL, NISSY_ALL, counts, 3);
    nissy_check_answer check = nissy_check(text, 1, (const uint8_t *)"R' x", 4);
    return alone.axes[NISSY_UD].bad_corners == 4 && alone.axes[NISSY_UD].misplaced_edges == 4 && check.solved && check.moves == 1 &&
           judged.lines == 3 && judged.bytes == 7 && facts[0].axes[NISSY_UD].bad_corners == 4 && facts[1].status == NISSY_FAULT &&
           facts[2].axes[NISSY_FB].bad_edges == 8 && counted.lines == 3 && counts[1].column == 1 && counts[2].solutions == 4 && counts[2].nodes == 75;
}

/* The next signal. */
static void is_to_come(void) {
    static const struct itimerval once = {{0, 0}, {0, MICROSECONDS}};
    setitimer(ITIMER_REAL, &once, NULL);
}

static void handle(int number) {
    size_t at = (size_t)handled % SEARCH_COUNT;
    (void)number;
    if (!is_answered(&SEARCHES[at], &asked[at]) || !are_lines() || !are_judged()) wrong++;
    if (++handled < HANDLED) is_to_come();
}

int main(void) {
    size_t wrong_beside = 0, round = 0;
    guarded stack = stack_of_handler();
    stack_t own = {.ss_sp = stack.bytes, .ss_size = stack.size};
    struct sigaction action = {.sa_handler = handle, .sa_flags = SA_ONSTACK | SA_RESTART};
    for (size_t at = 0; at < SEARCH_COUNT; at++) asked[at] = built(SEARCHES[at].step);
    if (sigaltstack(&own, NULL) || sigaction(SIGALRM, &action, NULL)) return 2;
    for (is_to_come(); handled < HANDLED; round++) {
        size_t at = round % SEARCH_COUNT;
        if (!is_answered(&SEARCHES[at], &asked[at]) || !are_lines() || !are_judged()) wrong_beside++;
    }
    holds(wrong == 0, "each answer is that of its call", "a handler");
    holds(wrong_beside == 0, "each answer is that of its call", "what it interrupts");
    return ended();
}
