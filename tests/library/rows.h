/* The runs of tests/runs.tsv, which `rows_in_c` of tests/shared writes into runs.inc as C. */
#ifndef ROWS_H
#define ROWS_H

#include "trial.h"

typedef struct run_row {
    const char *words; /* a zero byte ends each but the last, whose own zero byte counts too */
    size_t words_length;
    const char *input;
    int status;
    const char *out;
    const char *err;
    long blocks; /* the most blocks of memory at once, or -1 where none are stated */
} run_row;

static const run_row RUNS[] = {
#include "runs.inc"
};

enum { RUN_COUNT = sizeof RUNS / sizeof *RUNS };

static inline const char *name_of(const run_row *row) { return row->words_length ? row->words : "no words"; }

#endif
