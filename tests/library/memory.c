/* The memory of runs and of builds: how many blocks a run has at once, and that it has given back as many as it took however it ends; what a build
   keeps. Also where allocations are refused, each in turn, once and from then on. It is linked with --wrap for malloc, realloc and free. */
#include "refused.h"
#include "rows.h"
#include "searches.h"

static const char NO_MEMORY[] = "nissy: out of memory\n", NO_ROOM[] = "nissy: cannot write\n";
static const char TOO_LONG[] = "nissy: input longer than 16777216 bytes\n";

/* What is asked of memory in a run: the allocation of this number is refused, and later ones where `onward`; 0: none is. */
typedef struct refusal {
    long number;
    int onward;
} refusal;

static const refusal NONE = {0, 0};

/* A run with room for so many bytes of its output: what it answers, and what it does with memory. */
static void answers(const run_row *row, refusal refused, size_t room, int status, const char *wanted_out, const char *wanted_err) {
    uint8_t out[256], err[NISSY_ERROR_ROOM];
    made = 0, refused_at = refused.number, onward = refused.onward, held = 0, most_held = 0;
    nissy_run_answer got =
        nissy_run((const uint8_t *)row->words, row->words_length, (const uint8_t *)row->input, strlen(row->input), out, room, err, sizeof err);
    refused_at = 0;
    int is_cut = room < strlen(wanted_out);
    holds(got.status == status, "its status", name_of(row));
    holds(got.out_length == (is_cut ? room : strlen(wanted_out)) && memcmp(out, wanted_out, got.out_length) == 0, "its output", name_of(row));
    holds(got.err_length == strlen(wanted_err) && memcmp(err, wanted_err, got.err_length) == 0, "its error text", name_of(row));
    holds(got.out_too_small == is_cut && !got.err_too_small, "whether the room was enough", name_of(row));
    holds(held == 0, "as many blocks are given back as were taken", name_of(row));
    int is_stated = refused.number ? most_held <= row->blocks : most_held == row->blocks;
    holds(is_stated, "it has as many blocks at once as are stated", name_of(row));
}

/* A run where no memory is refused, where each allocation is, and where the output lacks room for its last byte; answers how many allocations
   there are. */
static long answers_however_it_ends(const run_row *row) {
    answers(row, NONE, 256, row->status, row->out, row->err);
    long count = made;
    for (long number = 1; number <= count; number++) {
        answers(row, (refusal){number, 0}, 256, NISSY_STOPPED, "", NO_MEMORY);
        answers(row, (refusal){number, 1}, 256, NISSY_STOPPED, "", NO_MEMORY);
    }
    if (*row->out) answers(row, NONE, strlen(row->out) - 1, NISSY_STOPPED, row->out, NO_ROOM);
    return count;
}

/* Runs of 1 to 40 moves, each a word: a block for each word, one for `invert`, one for their list, and one for the line. */
static void words_take_a_block_each(void) {
    char words[128] = "invert", out[256];
    size_t length = sizeof "invert", out_length = 0;
    for (long count = 1; count <= 40; count++) {
        words[length] = 'R';
        length += 2;
        out_length += (size_t)sprintf(out + out_length, count == 1 ? "R'" : " R'");
        strcpy(out + out_length, "\n");
        run_row row = {words, length, "", NISSY_DONE, out, "", count + 3};
        answers_however_it_ends(&row);
    }
}

/* A line of words that is too long takes no block, nor do the tables of a search on it; the words do, and their list. */
static void long_words_are_given_back(const char *command, size_t command_length, long blocks) {
    size_t length = command_length + NISSY_MOST_INPUT;
    char *words = malloc(length);
    if (!words) exit(2);
    memset(words, ' ', length);
    memcpy(words, command, command_length);
    run_row row = {words, length, "", NISSY_STOPPED, "", TOO_LONG, blocks};
    answers_however_it_ends(&row);
    free(words);
}

/* A build whose allocation of this number is refused: there are no tables, and what was taken is given back. */
static void builds_nothing(const char *step, nissy_tables tables, long number, int all) {
    uint8_t out[8];
    made = 0, refused_at = number, onward = all, held = 0;
    uint8_t status = nissy_build(&tables, (const uint8_t *)step, strlen(step));
    refused_at = 0;
    holds(status == NISSY_STOPPED, "refused memory stops a build", step);
    holds(held == 0, "all memory is given back", step);
    holds(nissy_count(&tables, NULL, 0, 20, 0, NISSY_ALL, NISSY_ALL).status == NISSY_USAGE, "there are no tables to ask", step);
    holds(nissy_solve(&tables, NULL, 0, 20, 0, 1, NISSY_ALL, out, sizeof out).status == NISSY_USAGE, "nor to search by", step);
}

/* A build takes memory once, and what asks its tables takes none. */
static void builds(const search_row *row, nissy_tables before) {
    const uint8_t *step = (const uint8_t *)row->step, *line = (const uint8_t *)row->line;
    uint8_t out[256];
    made = 0, refused_at = 0, held = 0;
    nissy_tables tables = built(row->step), copy = tables;
    holds(held > 0, "tables stay", row->step);
    long count = made;
    for (long number = 1; number <= count; number++) {
        builds_nothing(row->step, (nissy_tables)NISSY_NO_TABLES, number, 0);
        builds_nothing(row->step, before, number, 1);
    }
    made = 0, refused_at = 1, onward = 1;
    holds(nissy_build(&tables, step, strlen(row->step)) == NISSY_DONE && made == 0, "they aren't built again", row->step);
    nissy_search_answer got = nissy_solve(&copy, line, strlen(row->line), row->limit, row->slack, NISSY_ALL, NISSY_ALL, out, sizeof out);
    holds(got.status == NISSY_DONE && got.length == strlen(row->text) && made == 0, "a search takes no memory", row->step);
    nissy_search_answer counted = nissy_count(&tables, line, strlen(row->line), row->limit, row->slack, NISSY_ALL, NISSY_ALL);
    holds(counted.status == NISSY_DONE && made == 0, "nor does a count", row->step);
    refused_at = 0;
}

/* Each step of the rows once, with tables of another step or none before. */
static void all_builds(void) {
    nissy_tables before = built("eoud");
    for (size_t at = 0; at < SEARCH_COUNT; at++)
        if (at == 0 || strcmp(SEARCHES[at].step, SEARCHES[at - 1].step) != 0) builds(&SEARCHES[at], before);
    holds(nissy_count(&before, (const uint8_t *)"U", 1, 20, 0, NISSY_ALL, NISSY_ALL).least == 1, "a copy has what it had", "eoud");
}

/* The calls without a line take no memory; those on lines are drawn by fuzz.c. */
static void others_take_none(void) {
    uint8_t out[NISSY_LINE_ROOM];
    made = 0, refused_at = 1, onward = 1;
    holds(nissy_scramble(1, 2, 256, out, sizeof out).status == NISSY_DONE, "it needs no memory", "nissy_scramble");
    holds(nissy_steps(out, sizeof out).status == NISSY_DONE, "it needs no memory", "nissy_steps");
    holds(nissy_start((const uint8_t *)"eo", 2, out, sizeof out).status == NISSY_DONE, "it needs no memory", "nissy_start");
    holds(nissy_fault_text(1, out, sizeof out).status == NISSY_DONE, "it needs no memory", "nissy_fault_text");
    holds(made == 0, "nor do they ask for any", "all of them");
    refused_at = 0;
}

int main(void) {
    long most = 0;
    for (int at = 0; at < RUN_COUNT; at++) {
        long count = RUNS[at].blocks < 0 ? 0 : answers_however_it_ends(&RUNS[at]);
        if (count > most) most = count;
    }
    holds(most > 4, "a run takes memory for words and tables", "all runs");
    words_take_a_block_each();
    long_words_are_given_back("invert", sizeof "invert", 3);
    long_words_are_given_back("solve\0eofb\0"
                              "20",
                              sizeof "solve\0eofb\0"
                                     "20",
                              5);
    all_builds();
    others_take_none();
    return ended();
}
