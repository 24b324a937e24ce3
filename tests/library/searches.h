/* Searches with what they are to write, and lines that can't be read: those of tests/calls.tsv, which `rows_in_c` of
   tests/shared writes as C. */
#ifndef SEARCHES_H
#define SEARCHES_H

#include "trial.h"

/* a line with its fault and the column of that */
typedef struct fault_row {
    const char *line;
    int fault;
    unsigned column;
} fault_row;

static const fault_row UNREAD[] = {
#include "faults.inc"
};

enum { UNREAD_COUNT = sizeof UNREAD / sizeof *UNREAD };

typedef struct search_row {
    const char *step, *line;
    uint8_t limit, slack;
    const char *text;
    uint8_t least;
    uint64_t nodes; /* 0: none are named */
} search_row;

static const search_row SEARCHES[] = {
#include "searches.inc"
};

enum { SEARCH_COUNT = sizeof SEARCHES / sizeof *SEARCHES };

/* All tables that a test built: they stay, and a checker for leaks finds them here. */
static nissy_tables kept[128];

/* The tables of a step, built anew. */
static inline nissy_tables built(const char *step) {
    static size_t count;
    nissy_tables *tables = &kept[count++];
    guarded name = copied(step, strlen(step));
    holds(count <= sizeof kept / sizeof *kept && nissy_build(tables, name.bytes, name.size) == NISSY_DONE, "its tables are built", step);
    let_go(name);
    return *tables;
}

/* Whether a search and a count of a row are answered as it says. */
static inline int is_answered(const search_row *row, const nissy_tables *tables) {
    uint8_t out[256];
    const uint8_t *line = (const uint8_t *)row->line;
    nissy_search_answer got = nissy_solve(tables, line, strlen(row->line), row->limit, row->slack, NISSY_ALL, NISSY_ALL, out, sizeof out);
    nissy_search_answer told = nissy_count(tables, line, strlen(row->line), row->limit, row->slack, NISSY_ALL, NISSY_ALL);
    return got.status == NISSY_DONE && got.length == strlen(row->text) && memcmp(out, row->text, got.length) == 0 && got.least == row->least &&
           told.status == NISSY_DONE && told.least == row->least && told.solutions == got.solutions && told.nodes == got.nodes;
}

#endif
