/* nissy for other programs: moves and searches of the 3x3x3 cube, by bytes in memory.
 *
 * Memory. The caller owns every buffer: no call keeps a pointer to one after it returned. A pointer comes with the bytes that it may
 * reach: that many bytes (below 2^63) are there, and if these are 0, it may be null. Bytes need no alignment; `tables` and `answers` need
 * that of their types. Buffers that are written (`out`, `err`, `answers`, `room`) overlap no other buffer of the call; those that are
 * read may overlap each other. No text ends with a zero byte. Bytes may be anything: none makes a call crash, or reach beyond a buffer. A pointer to
 * a nissy_tables isn't null.
 *
 * Threads. The one state between calls is that of the tables which a caller has built (nissy_tables below). Any threads may call at the
 * same time, with written buffers of their own.
 *
 * Stack and signals. nissy_run and nissy_build need 64 KiB of stack and take memory: neither is to be called from a signal handler, or in a
 * forked child of a process with threads. nissy_best, nissy_solve_sides and nissy_line_after need 64 KiB too, but take no memory. All other
 * calls need 16 KiB and take none, and may be called there too.
 *
 * Answers. Each is a struct of numbers of 8, 16, 32 or 64 bits, so that it lies the same on every machine that aligns these to their size,
 * as those of 64 bits do, and begins with `status`. If a line may have a fault, `fault` is the second byte and `column` the second four
 * bytes. A field that says yes or no is 1 or 0. What isn't named for a status is 0 after it.
 *
 * Link with -lnissy (pkg-config: nissy). C.md, which comes with it, has examples. nissy.hpp is for C++17 and later. */
#ifndef NISSY_H
#define NISSY_H

/* The version of this header and of the library that it comes with; and as one number, such as 10200 for 1.2.0, for #if. nissy_version
 * returns that of the library that runs. */
#define NISSY_VERSION "3.2.0"
#define NISSY_VERSION_NUMBER 30200

#include <stddef.h>
#include <stdint.h>

#ifdef __cplusplus
extern "C" {
#endif

/* How a call ended. The first four are the exit statuses of the program. */
enum nissy_status {
    NISSY_DONE = 0,    /* all is written */
    NISSY_FAULT = 1,   /* a line has a fault, or a step may not start on its cube */
    NISSY_USAGE = 2,   /* the words are no command; there is no such step or number; no tables were built */
    NISSY_STOPPED = 3, /* a line or an input has more than NISSY_MOST_INPUT bytes, or memory was refused; nissy_run also: the room was too
                          small */
    NISSY_ROOM = 4,    /* all calls but nissy_run: the room is too small */
    NISSY_CUT = 5      /* only a search: it would look at more positions than it may (nissy_solve, `most_nodes`) */
};

/* What is wrong with a line. */
enum nissy_fault {
    NISSY_NO_FAULT = 0,
    NISSY_NOT_A_MOVE = 1, /* a byte that can't go on there; also a line feed */
    NISSY_NESTED = 2,     /* a bracket inside a bracket */
    NISSY_UNOPENED = 3,   /* a bracket closed that was not opened */
    NISSY_UNCLOSED = 4,   /* a bracket not closed; the column is that of the bracket */
    NISSY_TOO_LONG = 5,   /* more than 256 moves; the column is that of the 257th */
    NISSY_START = 6       /* only a search: the step may not start on the cube of the line; there is no column */
};

/* The most bytes of a line or of an input. */
#define NISSY_MOST_INPUT 16777216

/* So much room is enough for each of the calls on one line, and for the error text of nissy_run. */
#define NISSY_LINE_ROOM 2048
#define NISSY_ERROR_ROOM 128

/* What a call returns that writes a short text. */
typedef struct nissy_line_answer {
    uint8_t status;  /* NISSY_DONE, NISSY_FAULT, NISSY_STOPPED or NISSY_ROOM; NISSY_USAGE only of the calls that take no line */
    uint8_t fault;   /* after NISSY_FAULT one of nissy_fault, never NISSY_START */
    uint32_t column; /* after NISSY_FAULT the place of the fault in bytes, from 1 */
    uint64_t length; /* after NISSY_DONE the bytes written, after NISSY_ROOM the bytes that there are to write */
} nissy_line_answer;

/* The calls on one line write to `out` what the program's command of the same name writes of it (`print` for nissy_facelets), without the
 * line feed. They take no memory. After every status but NISSY_DONE `out` is as it was, and so is what follows the written bytes. */

/* the inverse of the moves */
nissy_line_answer nissy_invert(const uint8_t *line, size_t line_length, uint8_t *out, size_t out_room);
/* the moves as one sequence: those in brackets inverted at the end */
nissy_line_answer nissy_unniss(const uint8_t *line, size_t line_length, uint8_t *out, size_t out_room);
/* the moves without wide turns, slices and neighbours that join */
nissy_line_answer nissy_cleanup(const uint8_t *line, size_t line_length, uint8_t *out, size_t out_room);
/* the 54 facelet letters of the cube after the moves */
nissy_line_answer nissy_facelets(const uint8_t *line, size_t line_length, uint8_t *out, size_t out_room);

/* The axes of the cube, in the order of the first three steps: of the faces F and B, of R and L, and of U and D. */
enum nissy_axis { NISSY_FB = 0, NISSY_RL = 1, NISSY_UD = 2 };

/* What solvers choose by, on one axis: how many pieces are bad there, and where they stand. Bit i of a mask (1 << i) is the place i: of
 * the edges UR UF UL UB DR DF DL DB FR FL BL BR, of the corners URF UFL ULB UBR DFR DLF DBL DRB. A mask has as many bits as the number
 * beside it says. */
typedef struct nissy_axis_facts {
    uint16_t bad_edge_places;
    uint16_t bad_corner_places;
    uint16_t misplaced_edge_places;
    uint8_t bad_edges;       /* of 12: edges that aren't oriented on the axis; an even number, 0 exactly if the step eofb, eorl or eoud
                                holds */
    uint8_t bad_corners;     /* of 8: corners whose sticker of the axis's two faces is on another face; never 1 */
    uint8_t misplaced_edges; /* at most 8, even: edges on the wrong side of the axis's slice, those of the slice outside it and the others
                                in it. The case of a domino reduction is bad_corners and misplaced_edges: 4 and 4 are 4c4e */
} nissy_axis_facts;

/* What nissy_facts returns. */
typedef struct nissy_facts_answer {
    uint8_t status;           /* NISSY_DONE, NISSY_FAULT or NISSY_STOPPED */
    uint8_t fault;            /* after NISSY_FAULT one of nissy_fault, never NISSY_START */
    uint8_t solved;           /* the cube is solved, however it is held */
    uint32_t column;          /* after NISSY_FAULT the place of the fault in bytes, from 1 */
    uint16_t moves;           /* as written: turns of faces and of outer blocks count one each, slice turns two, rotations none */
    uint16_t clean_moves;     /* how many face turns the line's one sequence (nissy_unniss) has once it is cleaned */
    uint16_t holds;           /* bit i: the cube has reached the step i of nissy_steps */
    nissy_axis_facts axes[3]; /* by nissy_axis */
} nissy_facts_answer;

/* What is seen of the cube of a line without a search. Its axes are those of its centres. It takes no memory. */
nissy_facts_answer nissy_facts(const uint8_t *line, size_t line_length);

/* Forms of moves that the WCA's notation for solutions hasn't. */
enum nissy_form {
    NISSY_SLICES = 1,     /* M, E or S */
    NISSY_LOWER_CASE = 2, /* u, d, r, l, f or b for a turn of an outer block */
    NISSY_BRACKETS = 4,   /* moves on the inverse scramble, or brackets without moves */
    NISSY_APOSTROPHE = 8, /* U+2019 in place of ' */
    NISSY_HALF_PRIME = 16 /* 2' or 2 and U+2019 for a half turn */
};

/* What nissy_check returns. */
typedef struct nissy_check_answer {
    uint8_t status;       /* NISSY_DONE, NISSY_FAULT or NISSY_STOPPED */
    uint8_t fault;        /* after NISSY_FAULT one of nissy_fault, never NISSY_START */
    uint8_t line;         /* after NISSY_FAULT and NISSY_STOPPED which line has it: 1 the scramble, 2 the solution; the first one if both have */
    uint8_t solved;       /* the solution's moves after the scramble's solve the cube, however it is held then */
    uint32_t column;      /* after NISSY_FAULT the place of the fault in bytes, from 1 */
    uint16_t moves;       /* the solution's moves as nissy_facts counts them */
    uint16_t clean_moves; /* the same once it is cleaned */
    uint8_t forms;        /* the forms of nissy_form that the solution has, added */
} nissy_check_answer;

/* Whether a solution solves a scramble. Both lines may have brackets, and stand for the sequences that nissy_unniss writes of them. It
 * takes no memory. */
nissy_check_answer nissy_check(const uint8_t *scramble, size_t scramble_length, const uint8_t *solution, size_t solution_length);

/* What nissy_run returns. The bytes of `out` and `err` after those that are written are as they were. */
typedef struct nissy_run_answer {
    uint8_t status;        /* the exit status of the program: NISSY_DONE, NISSY_FAULT, NISSY_USAGE or NISSY_STOPPED */
    uint8_t out_too_small; /* the output is longer than `out`, which holds a beginning of it; the status is NISSY_STOPPED */
    uint8_t err_too_small; /* the error text is longer than `err`, which holds a beginning of it */
    uint64_t out_length;   /* how many bytes of `out` are written */
    uint64_t err_length;   /* how many bytes of `err` are written */
} nissy_run_answer;

/* Does what the program does with these words after its name, if its input is `input`: its output goes to `out`, its error text to
 * `err`. Each word is followed by a zero byte; for the last one that may be left out if it has a byte. So "invert" is 6 or 7 bytes,
 * and `solve eofb 20` is "solve\0eofb\0" "20".
 *
 * `print` writes 55 bytes for each line, `count` at most 106, another command without a search at most 2,048, and `solve` and `near` at
 * most 65 for each solution and 29 for each line. If the output is longer than `out`, the run ends as the program does at a full disk.
 *
 * It takes memory for the words, and for the tables of a step, from the program's malloc, realloc and free, and has given all of it
 * back when it returns. Where a program brings its own, they must align a block to each power of two up to 16 that divides its size. */
nissy_run_answer nissy_run(const uint8_t *words, size_t words_length, const uint8_t *input, size_t input_length, uint8_t *out, size_t out_room,
                           uint8_t *err, size_t err_room);

/* The tables of a step, or none. Its fields are the library's: begin with NISSY_NO_TABLES (all bytes 0 is the same), let only nissy_build
 * write to it, and copy it as you like: a copy has the same tables. Any threads may ask it and its copies at the same time. While
 * nissy_build runs on a struct, no other call and no copy may read or write that struct; its copies may be asked. What no call can see is
 * undefined: fields that something else wrote, and a struct into which another thread builds meanwhile.
 *
 * Tables stay for as long as the process runs: there is no release, and so no use after one. So build those of a step once, and keep
 * them: a nissy_build into a struct without them takes their memory anew, 0.1 million bytes for an edge orientation, 1.2 million for a
 * domino reduction, and as much for each axis of a step that has several (all thirteen steps together: some 15 million). */
typedef struct nissy_tables {
    void *tables;
    uint8_t built;
} nissy_tables;

#define NISSY_NO_TABLES                                                                                                                              \
    { NULL, 0 }

/* Builds the tables of the step of this name, such as "dr-eofb" (7 bytes; nissy_steps writes all names). It takes memory from the
 * program's malloc, as nissy_run does.
 *
 * NISSY_DONE: the struct has them; if it had those of this step before, the call returned at once. NISSY_USAGE: no step has this name.
 * NISSY_STOPPED: memory was refused, and all that this call took is given back. After these two the struct has no tables. Those that it
 * had of another step aren't given back; copies of the struct from before still have them. */
uint8_t nissy_build(nissy_tables *tables, const uint8_t *step, size_t step_length);

/* As `most` or `most_nodes`: as many as there are. */
#define NISSY_ALL UINT64_MAX

/* What a search on a line returns. A number of 2^64 or more is given as 2^64 - 1. */
typedef struct nissy_search_answer {
    uint8_t status;     /* NISSY_DONE, NISSY_FAULT, NISSY_USAGE, NISSY_STOPPED, NISSY_CUT; of a call that writes solutions also NISSY_ROOM:
                           the next one doesn't fit into `out` */
    uint8_t fault;      /* after NISSY_FAULT one of nissy_fault */
    uint8_t least;      /* after NISSY_DONE, NISSY_ROOM and NISSY_CUT the turns of the shortest solution, 0 if none is known */
    uint8_t more;       /* after NISSY_DONE and NISSY_ROOM: there are solutions beyond those that are given; 1 after NISSY_CUT, when there
                           may be more or none */
    uint32_t column;    /* after NISSY_FAULT the place of the fault in bytes, from 1; 0 of NISSY_START */
    uint64_t length;    /* after NISSY_DONE, NISSY_ROOM and NISSY_CUT how many bytes of `out` are written: whole solutions; 0 of a count */
    uint64_t solutions; /* after these how many solutions are written, or were counted */
    uint64_t nodes;     /* after these at how many positions the search looked, until it ended or was stopped */
} nissy_search_answer;

/* Writes the solutions of a line's cube by the step of the tables: those of at most `limit` turns that are at most `slack` turns longer
 * than the shortest (0: only the shortest), by length and then in turn order, but no more than `most` of them. Each is a line as the
 * program's `near` writes it, such as "F B' (2)" and a line feed, of at most 65 bytes: a room of 65 bytes for each of `most` is never too
 * small. If there are none, nothing is written: then `solutions` is 0 and `more` 0. What follows those that are written is as it was.
 * It takes no memory.
 *
 * It looks at no more than `most_nodes` positions: before it would look at more, it ends with NISSY_CUT, which happens only if the whole
 * search, that of all solutions, looks at more. It has looked at more than `most_nodes` - 18 then, and what is written is a beginning of
 * the list. So no line can hold a service for long that asks with 1,000,000. NISSY_ALL is more than any search looks at in a lifetime.
 *
 * NISSY_USAGE: the struct has no tables, or `limit` or `slack` is above 20. NISSY_STOPPED: the line has more than NISSY_MOST_INPUT
 * bytes. NISSY_FAULT: the line has a fault, or NISSY_START. The first of these that holds is reported, in this order. */
nissy_search_answer nissy_solve(const nissy_tables *tables, const uint8_t *line, size_t line_length, uint8_t limit, uint8_t slack, uint64_t most,
                                uint64_t most_nodes, uint8_t *out, size_t out_room);

/* Goes on after a solution: writes of the list of nissy_solve only those that come after `after`, by length and then in turn order, and
 * no more than `most` of them. `after` is the moves of a solution as they stand in its line before the count: "F B'" of "F B' (2)", nothing
 * of the solution "(0)". So a caller goes through any list in pieces, and keeps only the last line of each: a first nissy_solve, and then,
 * while `more` is 1 and a solution was written, this with the same line, `limit` and `slack`. The pieces make the whole list, each solution
 * once. It takes no memory.
 *
 * `least` is the turns of the shortest solution of the whole list, 0 if there is none or NISSY_CUT came before it was known; `solutions`,
 * `more` and `length` are of those after `after`. For `least` it searches anew for a first solution; `nodes` and
 * `most_nodes` are of both.
 *
 * `after` may be any sequence of turns of one face each, also one that is no solution, or is longer than `limit`. NISSY_USAGE, as from
 * nissy_solve, also if it isn't one: it can't be read, or has moves in brackets, a wide turn, a slice turn or a rotation. */
nissy_search_answer nissy_solve_after(const nissy_tables *tables, const uint8_t *line, size_t line_length, const uint8_t *after, size_t after_length,
                                      uint8_t limit, uint8_t slack, uint64_t most, uint64_t most_nodes, uint8_t *out, size_t out_room);

/* Does what nissy_solve does with room enough, but writes nothing: it counts the solutions, and no more than `most` of them. With `most` 0 it ends at
 * the first one, and so finds the least length soonest: if there is one, `more` is 1 and `least` its turns. With NISSY_ALL twice and the slack 0
 * these are the numbers of the program's `count`. It takes no memory. */
nissy_search_answer nissy_count(const nissy_tables *tables, const uint8_t *line, size_t line_length, uint8_t limit, uint8_t slack, uint64_t most,
                                uint64_t most_nodes);

/* What a call on many lines returns. It takes the lines of a text, those that a line feed ends and a last one without it if it has a
 * byte, one after another, as long as there is room for an answer to each. A line's fault is in its answer, and ends nothing. Behind the
 * answers written the room is as it was. To go on, call again with what follows the bytes that were taken. */
typedef struct nissy_lines_answer {
    uint8_t status; /* NISSY_DONE; NISSY_USAGE of nissy_count_lines: the struct has no tables */
    uint64_t lines; /* how many lines were taken, and answers written */
    uint64_t bytes; /* how many bytes of the text these lines are, with their line feeds: all if lines is less than the room */
} nissy_lines_answer;

/* What nissy_count returns of each line of a text; `most` and `most_nodes` are for each line anew, and `room` counts answers. It takes no
 * memory. */
nissy_lines_answer nissy_count_lines(const nissy_tables *tables, const uint8_t *text, size_t text_length, uint8_t limit, uint8_t slack, uint64_t most,
                                     uint64_t most_nodes, nissy_search_answer *answers, size_t room);

/* What nissy_facts returns of each line of a text. It takes no memory. */
nissy_lines_answer nissy_facts_lines(const uint8_t *text, size_t text_length, nissy_facts_answer *answers, size_t room);

/* Turns on a side. */
typedef struct nissy_side_turns {
    uint8_t count;     /* how many they are */
    uint8_t free;      /* how many at the end may go either way: if one of them is a quarter turn, its other direction reaches the step too */
    uint8_t turns[20]; /* each by its number in turn order, as it is written: 0 U, 1 U2, 2 U', 3 D, .. 17 B'; 255 after them */
} nissy_side_turns;

/* The moves of a step, on both sides. */
typedef struct nissy_way_part {
    uint8_t step;             /* its number as nissy_steps lists them, from 0; or NISSY_NO_STEP: then there are none */
    nissy_side_turns normal;  /* those on the scramble */
    nissy_side_turns inverse; /* those on the inverse scramble: they stand in brackets */
} nissy_way_part;

/* No step, of a way from a cube whose orientation holds already. */
#define NISSY_NO_STEP 255

/* A way on to a domino reduction. */
typedef struct nissy_way {
    uint16_t total;  /* all moves, those so far too: the turns of both sides, once each is cleaned */
    uint8_t corners; /* the case of the reduction before its moves: 4 and 4 are 4c4e */
    uint8_t edges;
    uint8_t on_normal;  /* the least length of the reduction there on the scramble, and on the inverse, without the other; 21 if above */
    uint8_t on_inverse; /* 20 */
    nissy_way_part eo;  /* the orientation, none if one holds already */
    nissy_way_part dr;  /* the reduction */
} nissy_way;

/* All axes. */
#define NISSY_ALL_AXES 7

/* What is asked of nissy_best. */
typedef struct nissy_ways_wanted {
    uint8_t slack; /* by how many turns, 0 to 20, the first step may be longer than the shortest on its axis: on the scramble, on the
                      inverse, or over both */
    uint8_t axes;  /* on which axes the orientation is: 1 F and B, 2 R and L, 4 U and D, added; NISSY_ALL_AXES are all */
    uint8_t from;  /* how many turns the first step has on both sides together, from and to, each 0 to 20: 0 and 20 are all */
    uint8_t to;
    uint64_t most_nodes; /* at how many positions it may look */
    uint64_t there;      /* how many ways stand in the room already, in order, from an earlier call */
} nissy_ways_wanted;

/* What nissy_best returns. */
typedef struct nissy_ways_answer {
    uint8_t status;  /* NISSY_DONE, NISSY_FAULT, NISSY_USAGE, NISSY_STOPPED or NISSY_CUT */
    uint8_t fault;   /* after NISSY_FAULT one of nissy_fault, never NISSY_START */
    uint8_t line;    /* after NISSY_FAULT and NISSY_STOPPED which line has it: 1 the scramble, 2 the moves so far; the first one if both have */
    uint8_t next;    /* after NISSY_DONE: the slack lets in first steps on these axes that are longer than `to` */
    uint32_t column; /* after NISSY_FAULT the place of the fault in bytes, from 1; 0 if both lines have too many moves together */
    uint64_t rows;   /* after NISSY_DONE and NISSY_CUT how many ways stand in the room */
    uint64_t tried;  /* after these how many ways it tried */
    uint64_t nodes;  /* after these at how many positions it looked */
} nissy_ways_answer;

/* Puts the best ways on from a scramble and the moves so far into the room, the best first: each edge orientation over both sides, and after it the
 * reduction on each of two axes with the fewest moves in all, over both sides too; of a cube that is oriented the reductions; of one that is reduced
 * nothing. MANUAL.md says which ways there are, and in what order. Moves of both lines in brackets are made on the inverse scramble; those so far,
 * and the ways, name the faces as the moves outside brackets leave the cube.
 *
 * `tables` are nine, in the order of nissy_steps: eofb, eorl, eoud, drud-eofb, drrl-eofb, drud-eorl, drfb-eorl, drrl-eoud, drfb-eoud. `wanted` may
 * name some axes and lengths only: so a search goes in parts, between which a caller says how far it is, or ends it. The tables of an axis that it
 * doesn't name may be NISSY_NO_TABLES. The ways of all parts come into one room, if each call is told how many are there: the best of them stay, as
 * many as have place, whatever the parts' order. It looks at no more than `most_nodes` positions: if these may not be enough it ends with NISSY_CUT,
 * maybe before it has looked at all of them, and each way there is a true one. With a bound ask by axis and length: one call may end without a row.
 *
 * It takes no memory, but 64 KiB of stack. NISSY_USAGE: tables that it asks aren't those of their steps, a number is out of its range, or `there` is
 * more than the room. NISSY_STOPPED, NISSY_FAULT: as of nissy_check; NISSY_TOO_LONG of line 2 without a column if both lines have too many moves
 * together: those so far more than 200 face turns on a side, or all more than 512. After these three the room is as it was. */
nissy_ways_answer nissy_best(const nissy_tables *tables, const uint8_t *scramble, size_t scramble_length, const uint8_t *so_far, size_t so_far_length,
                             const nissy_ways_wanted *wanted, nissy_way *room, size_t room_length);

/* On which sides the moves of a solution are: on the scramble, on its inverse, or on both or either. */
enum nissy_sides { NISSY_NORMAL = 1, NISSY_INVERSE = 2, NISSY_BOTH = 3 };

/* What is asked of nissy_solve_sides. */
typedef struct nissy_sides_wanted {
    uint8_t sides;       /* one of nissy_sides */
    uint8_t length;      /* how many turns each solution has on both sides together, 0 to 20 */
    uint8_t counts;      /* 1: those that have no place in the room are counted; 0: the search ends before the first of them */
    uint64_t passed;     /* how many of the first ones are passed over */
    uint64_t most_nodes; /* at how many positions it may look */
} nissy_sides_wanted;

/* What nissy_solve_sides returns. */
typedef struct nissy_sides_answer {
    uint8_t status;     /* NISSY_DONE, NISSY_FAULT, NISSY_USAGE, NISSY_STOPPED or NISSY_CUT */
    uint8_t fault;      /* after NISSY_FAULT one of nissy_fault; NISSY_START without a line or column */
    uint8_t line;       /* after NISSY_FAULT and NISSY_STOPPED which line has it, as of nissy_best */
    uint8_t more;       /* the room is full, and there are more, which weren't counted */
    uint32_t column;    /* after NISSY_FAULT the place of the fault in bytes, from 1; 0 if both lines have too many moves together */
    uint64_t rows;      /* after NISSY_DONE and NISSY_CUT how many solutions stand in the room */
    uint64_t solutions; /* after these how many came, with those that were passed over */
    uint64_t nodes;     /* after these at how many positions it looked */
} nissy_sides_answer;

/* Puts the solutions of the step whose tables these are into the room, from a scramble and the moves so far: pairs of turns on the scramble and on
 * its inverse, together of exactly that many turns, which reach the step, and whose first turns don't. They come by their turns on the scramble,
 * fewer ones first, and then in turn order of the shorter side, and of the other. So a caller goes from length to length, the shortest from 0 on, and
 * through a long list in parts, by those that are passed over. Lines and names are those of nissy_best: give a line with rotations as
 * nissy_line_after writes it, if the moves are to be those of nissy_solve.
 *
 * It takes no memory, but 64 KiB of stack. NISSY_USAGE: there are no tables, or a number is out of its range. NISSY_CUT: it would look at more than
 * `most_nodes` positions. */
nissy_sides_answer nissy_solve_sides(const nissy_tables *tables, const uint8_t *scramble, size_t scramble_length, const uint8_t *so_far,
                                     size_t so_far_length, const nissy_sides_wanted *wanted, nissy_way_part *room, size_t room_length);

/* What nissy_line_after returns. */
typedef struct nissy_line_after_answer {
    uint8_t status;  /* NISSY_DONE, NISSY_FAULT, NISSY_STOPPED or NISSY_ROOM */
    uint8_t fault;   /* after NISSY_FAULT one of nissy_fault, never NISSY_START */
    uint8_t line;    /* after NISSY_FAULT and NISSY_STOPPED which line has it, as of nissy_best */
    uint32_t column; /* after NISSY_FAULT the place of the fault in bytes, from 1; 0 if both lines have too many moves together */
    uint64_t length; /* after NISSY_DONE the bytes written, after NISSY_ROOM the bytes that there are to write */
} nissy_line_after_answer;

/* Writes the line of the cube at which a solver stands after a scramble and the moves so far, for the calls on one line: clean face turns,
 * named by the centres, with the moves in brackets inverted before the scramble. nissy_invert makes it that of the inverse side.
 * NISSY_LINE_ROOM is enough. It takes no memory; 64 KiB of stack. Both lines have too many moves together also if the line, before it is
 * cleaned, would have more than 256. */
nissy_line_after_answer nissy_line_after(const uint8_t *scramble, size_t scramble_length, const uint8_t *so_far, size_t so_far_length, uint8_t *out,
                                         size_t out_room);

/* The calls below write to `out` as those on one line do, and take no memory. They return NISSY_DONE or NISSY_ROOM, or NISSY_USAGE with a
 * length of 0; NISSY_LINE_ROOM is enough for each. */

/* what the program's `scramble STATE STREAM LENGTH 1` writes, without the line feed; NISSY_USAGE for more than 256 turns */
nissy_line_answer nissy_scramble(uint64_t state, uint64_t stream, uint32_t length, uint8_t *out, size_t out_room);
/* the names of the steps, each with a line feed */
nissy_line_answer nissy_steps(uint8_t *out, size_t out_room);
/* the step that must hold before this one may start: "eofb" of "dr-eofb", nothing of one that starts on any cube; NISSY_USAGE for a name
 * that no step has */
nissy_line_answer nissy_start(const uint8_t *step, size_t step_length, uint8_t *out, size_t out_room);
/* the program's words for a fault, such as "not a move"; "does not hold" for NISSY_START, before which the program writes the text of
 * nissy_start; NISSY_USAGE for NISSY_NO_FAULT and numbers above 6 */
nissy_line_answer nissy_fault_text(uint8_t fault, uint8_t *out, size_t out_room);

/* the version of the library that runs: 10200 for 1.2.0 */
uint32_t nissy_version(void);

#ifdef __cplusplus
}
#endif

#endif
