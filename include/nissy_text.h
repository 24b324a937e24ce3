/* nissy for other programs: text as solvers write it, read by the library. Any bytes are a text, and any number of threads may call. */
#ifndef NISSY_TEXT_H
#define NISSY_TEXT_H

#include "nissy.h"

#ifdef __cplusplus
extern "C" {
#endif

/* What nissy_plain has left out of a line, or read as a blank. */
enum nissy_left_out {
    NISSY_LABELS = 1,           /* what stands before the moves of a line and says what they are */
    NISSY_NUMBERS_OF_MOVES = 2, /* such as (2), [1/5] or (12 moves) */
    NISSY_COMMENTS = 4,
    NISSY_LINE_NUMBERS = 8,
    NISSY_COMMAS = 16,
    NISSY_UNSEEN = 32 /* signs that aren't seen */
};

/* What nissy_plain and nissy_text_moves return. */
typedef struct nissy_plain_answer {
    uint8_t status;   /* NISSY_DONE or NISSY_ROOM; of nissy_text_moves also NISSY_USAGE */
    uint8_t left_out; /* the bits of nissy_left_out, added */
    uint64_t length;  /* how many bytes are written, and how many places */
} nissy_plain_answer;

/* Writes text as solvers write it, any bytes, as one line for the other calls, and for each byte of the line its place in the text, from 0.
 * What is no move but is written beside moves becomes a blank or an apostrophe, or is left out; all else stays, and is at fault where the
 * line is read. Three bytes and places for each byte of the text are never too few. It takes no memory. */
nissy_plain_answer nissy_plain(const uint8_t *text, size_t text_length, uint8_t *out, size_t out_room, uint64_t *places, size_t places_room);

/* What a line of such a text is. */
enum nissy_line_kind {
    NISSY_BLANK_LINE = 0,    /* blanks, or only a head */
    NISSY_LINE_BEFORE = 1,   /* prose before a scramble */
    NISSY_SCRAMBLE_LINE = 2, /* of a scramble */
    NISSY_STEP_LINE = 3,     /* moves after it */
    NISSY_NOTE_LINE = 4      /* prose after it */
};

/* What makes one doubt that a line is read as it was meant. */
enum nissy_doubt {
    NISSY_NO_DOUBT = 0,
    NISSY_ANOTHER_SCRAMBLE = 1,  /* a scramble has no steps, and others of the text begin and end with R' U' F, or it stands again below, or it has no
                                  * head and stands above one that has a word for its head, such as "Scramble:"; of a check that isn't solved:
                                  * the scramble is by itself, or another one stands beside a known scramble's solution */
    NISSY_SEVERAL_SOLUTIONS = 2, /* which of several groups is the solution can't be seen, or a list has those of several scrambles; or a step stands
                                  * below one that follows it, by their numbers, or by EO, DR, HTR and finish in their labels or comments: of
                                  * several names the last one says which step it is, and the first one what may stand below it; of a check
                                  * also if it is solved: a step whose moves have 40 bytes or more isn't of the solution and doesn't solve, but
                                  * has its turns, once both are cleaned, but in one place, where each has two at most */
    NISSY_SIDE = 3,              /* another side than the normal one is named, such as the inverse, and the moves have no brackets */
    NISSY_LETTERS = 4,           /* letters stand together as moves don't elsewhere in the line, such as F2L or xD */
    NISSY_SMALL_LETTERS = 5,     /* a scramble has a turn in a small letter, or a step has no others */
    NISSY_COMMENT = 6,           /* three moves stand one after another in a comment, also in a line that has none before it, or turns of the cube
                                  * by themselves, or, after the moves of a step, two turns of faces, as in "// R U", that name no axis, as "F B"
                                  * does; or a letter may be of words, as in "R U layer" or "EO F", or a y between blanks among the moves of a
                                  * step, which joins words in Spanish. Of a check: a single capital letter
                                  * of a face, by itself, ends the moves of a step, or they begin with it, and with a turn there that takes it
                                  * back, such as F' of F, all of at most twelve steps solve */
    NISSY_REPETITION = 7,        /* moves are said to be made several times, as in "(R U)x2", at the end of a step "R U x2", or in a comment */
    NISSY_INSERTION = 8,         /* a step has a mark at which others belong, such as "[1]" between moves or "*" after them, or tells what belongs
                                  * there, as "* = R U", or "(1) R U" below a step that has "(1)" between moves; or it is said that moves are
                                  * inserted, or in a line without moves an algorithm has its name, such as "T perm"; or it is said that others
                                  * are meant. That, and what is inserted, but no skeleton, counts beside the solution too.
                                  * Insertions and repetitions that are denied, as in "no insertion", and in a line without moves sides, as in
                                  * "nothing on the inverse", are none. Of a check: a comment has the letter of a face, capital or small, and with
                                  * a turn of that face beside the step all steps solve; no letter, digit, ":", ";", "<" or "=" is beside it, but
                                  * that 2 or 3 may follow. Or else, where the moves of a step begin, all solve once the whole cube is turned
                                  * before that step, or else once that step stands elsewhere, before another one or after the last one. This is
                                  * told only of at most twelve steps, each on a line of its own, of at most NISSY_MOST_STEPS bytes in all */
    NISSY_A_PART = 9,            /* only of a check: a part of the steps solves the scramble, as nissy_solving_part tells */
    NISSY_WHICH_SCRAMBLE = 10,   /* only of a check: it can't be seen which of the known scrambles it is a solution of, or it solves another one */
    NISSY_STEP_OR_SCRAMBLE = 11, /* a line after the scramble may be of it, or of another one; or a step may be the scramble: it is called so, or
                                  * nothing is said after it, and the scramble is called the solution; or a line of the scramble may have a step:
                                  * moves stand before or after all of a scramble, or it is called a step, such as DR. Of a check this counts
                                  * also if it is solved */
    NISSY_SIGNS = 12,            /* moves may be written by signs that aren't read so: by commas between some of them, by letters that look like
                                  * theirs, such as wide ones, or in a link; or so many have no apostrophe that these may have been lost, or one of
                                  * so many is a slice, whose letter F or B was taken for; or R' U' F stands at one end of a scramble, or a tab
                                  * between some moves; of a check: a digit, "!", "?", "|" or "&" with which begins what follows the moves of a step,
                                  * or one of the last four before them, with blanks between at most, or "()" at an end of them, and no other side
                                  * of a step has such a sign, and with a turn there all of at most twelve steps solve */
    NISSY_ANOTHER_ATTEMPT = 13   /* only of a check: another attempt may begin where it is told, though all is solved: the scramble is by itself; or
                                  * all before a step of the solution is, which isn't its first one, and whose moves have 20 bytes or more; or two
                                  * steps stand one after another that aren't of the solution, whose moves have 40 bytes or more, and after which
                                  * nothing is said, and neither solves. What isn't solved has another attempt in it, if nothing else makes one doubt
                                  * it, at a step whose moves have 20 bytes or more, if the steps of the solution after it solve them as a scramble.
                                  * Of the steps of 20 bytes or more that may be such the first twelve are tried, and the first that is one is told */
};

/* A line of such a text. The places are in bytes of the text, from 0, and don't fall from one to the next, nor from line to line. Its moves
 * stand from `moves` to `comment`; nissy_text_moves writes them. No letter of ASCII stands between its parts but that of a number of moves. */
typedef struct nissy_text_line {
    uint8_t kind;     /* one of nissy_line_kind */
    uint8_t solution; /* it is of the group that is the solution */
    uint8_t headed;   /* a head stands before head_end, such as "2." or "Scramble 2:": the first one of an attempt is its name */
    uint8_t labelled; /* its label, from label_begin to label_end, says up to a colon that the solution follows, but not as "EO sol" */
    uint8_t inverse;  /* it is said of this step, and not denied, that it is on the inverse, and it has no brackets */
    uint8_t doubt;    /* one of nissy_doubt: of a line of the scramble or of the solution; of any step or note if it can't be seen which of them are
                       * the solution. It counts if no solution solves the scramble, NISSY_STEP_OR_SCRAMBLE always */
    uint64_t attempt; /* which attempt, from 0 */
    uint64_t group;   /* of a step or a note: 0 directly under the scramble, and then the blocks after blank lines */
    uint64_t begin;   /* of the line */
    uint64_t head_end;
    uint64_t label_begin;
    uint64_t label_end;
    uint64_t moves;
    uint64_t comment;  /* where its moves end */
    uint64_t end;      /* of the line */
    uint64_t doubt_at; /* where the first sign of the doubt stands; `end` if there is none */
} nissy_text_line;

/* What nissy_text_lines returns. */
typedef struct nissy_text_answer {
    uint8_t status;    /* NISSY_DONE or NISSY_ROOM */
    uint64_t lines;    /* how many lines the text has, also if there is no room for all */
    uint64_t attempts; /* how many attempts; the last one has no scramble if the text ends with a head */
} nissy_text_answer;

/* Tells of each line of text as solvers write it what it is, as long as there is room. Lines end by a line feed, a return, or both. It takes no
 * memory. */
nissy_text_answer nissy_text_lines(const uint8_t *text, size_t text_length, nissy_text_line *lines, size_t room);

/* The scramble of a part of which that can't be told. */
#define NISSY_NO_SCRAMBLE UINT64_MAX

/* A part of a text that has only solutions, of scrambles that are known: what stands under a head, or in a block between blank lines if no line has
 * a head and several scrambles are known. Words may follow a head that has the number of a scramble, as in "Attempt 2: DNF" or, after a blank line,
 * "2. 23 moves", and "Cube 2" and "Solve 2" are heads too, unless another head has it by itself, or there are just as many blocks as scrambles. Right
 * under a head that stands by itself none with words is looked for. */
typedef struct nissy_known_part {
    uint64_t scramble;   /* which of the scrambles it is of, from 0, or NISSY_NO_SCRAMBLE */
    uint64_t begin;      /* where its first line begins that isn't blank, in bytes of the text */
    uint64_t name_begin; /* where its head stands; both are 0 if it has none */
    uint64_t name_end;
    uint64_t first_line;   /* which of the lines that are told is its first one, from 0 */
    uint64_t solution_end; /* which is the first after those of the solution: from there on it has attempts with other scrambles */
    uint64_t end_line;     /* which is the first after all of it */
} nissy_known_part;

/* What nissy_known_lines returns. */
typedef struct nissy_known_answer {
    uint8_t status; /* NISSY_DONE or NISSY_ROOM */
    uint64_t lines; /* how many lines are told; of NISSY_ROOM how many the text has */
    uint64_t parts; /* how many parts; of NISSY_ROOM 0 if there is no room for the lines */
} nissy_known_answer;

/* Tells of a text that has only solutions, of `count` known scrambles, which part of it is of which scramble: of the one whose number its head has,
 * from 1, if no other part has that; of as many parts as scrambles, if none has a number, each of the one in its place. Of each line of a part under
 * its head it tells what it is after a scramble, as nissy_text_lines does: of the solution as attempt 0, and then of those that have a scramble of
 * their own. A part has a head or moves. As much room for lines and parts as the text has lines is enough; `counts` has room for one number a
 * scramble, which the call uses. If the status isn't NISSY_DONE nothing in the rooms says anything. It takes no memory. */
nissy_known_answer nissy_known_lines(const uint8_t *text, size_t text_length, nissy_text_line *lines, size_t lines_room, nissy_known_part *parts,
                                     size_t parts_room, uint64_t *counts, size_t count);

/* Whose moves are wanted. */
enum nissy_moves_of {
    NISSY_OF_SCRAMBLE = 0, /* the lines of the scramble */
    NISSY_OF_STEPS = 1,    /* all steps */
    NISSY_OF_SOLUTION = 2, /* the steps of the solution */
    NISSY_OF_EACH_STEP = 3 /* all steps, each a line of its own, as nissy_solving_part takes them */
};

/* Where the moves of a line stand in what nissy_text_moves writes. */
typedef struct nissy_moves_part {
    uint64_t begin; /* with their brackets, in bytes that are written, from 0 */
    uint64_t end;
    uint8_t left_out;  /* what this line has left out, in its label and its comment too */
    uint8_t unused[7]; /* nothing, so that it has one size on all systems */
} nissy_moves_part;

/* Writes the moves of those of some lines that are wanted, one of nissy_moves_of, as one line for the other calls, and for each byte of it its
 * place in the text: in the order of the lines, parted by a blank, or a line feed, whose place is the end of the line before. Of each it reads
 * the bytes from `moves` to `comment` as nissy_plain reads moves; those of an `inverse` one stand in brackets, whose places are `moves` and
 * `comment`.
 * `left_out` says what one of these lines has left out, in its label and its comment too. If all is written, `parts` tells in turn where the moves
 * of each line stand that is wanted, as long as there is room.
 *
 * Three bytes and places for each from `moves` to `comment`, and three for each line, are never too few. NISSY_USAGE: no moves have this
 * number. Any lines may be given: of a `comment` beyond the text what is in the text is read, of a `moves` not before that nothing; what isn't 0
 * says yes. It takes no memory. Of nissy.c on a processor with the other order of bytes it takes some for a copy of the lines, and returns
 * NISSY_STOPPED if that is refused. */
nissy_plain_answer nissy_text_moves(const uint8_t *text, size_t text_length, const nissy_text_line *lines, size_t count, uint8_t which, uint8_t *out,
                                    size_t out_room, uint64_t *places, size_t places_room, nissy_moves_part *parts, size_t parts_room);

/* The most bytes of the first twelve steps, in which a part is looked for. */
#define NISSY_MOST_STEPS 65536

/* What is to be done with some steps of an attempt, one after another, so that it solves. */
enum nissy_part {
    NISSY_NO_PART = 0,
    NISSY_PART_ALONE = 1,            /* they stand alone */
    NISSY_PART_LEFT_OUT = 2,         /* they are left out */
    NISSY_PART_IN_BRACKETS = 3,      /* they are put in brackets */
    NISSY_PART_WITHOUT_BRACKETS = 4, /* all steps lose their brackets */
    NISSY_PART_EACH_IN_BRACKETS = 5, /* each of these, which may stand apart, is put in brackets of its own */
    NISSY_PART_REPEATED = 6,         /* this one is made twice or three times in its place, without its brackets */
    NISSY_PART_IN_CAPITALS = 7       /* the small letters of all turns become capitals */
};

/* What nissy_solving_part returns. */
typedef struct nissy_part_answer {
    uint8_t status; /* NISSY_DONE; NISSY_STOPPED: the scramble has more than NISSY_MOST_INPUT bytes, or the first twelve steps more than
                     * NISSY_MOST_STEPS */
    uint8_t how;    /* one of nissy_part */
    uint8_t first;  /* the first of these steps, from 0 */
    uint8_t last;   /* the last of them */
    uint64_t begin; /* where the first of them begins, in bytes of the steps */
} nissy_part_answer;

/* Whether a part of an attempt solves its scramble: who wrote more than the solution, or the side of a step not at all, may have meant that. The
 * steps are those of one text, a line each, such as nissy_text_moves writes them, but that one goes on while a bracket is open; the first twelve are
 * looked at. Told is the first part that solves, by its first step, then its last one, then in the order of nissy_part. Then come all steps without
 * their brackets, then all of them with some of the first eight in brackets: of several such sets that with the least sum, in which the first step
 * counts 1, the next one 2, then 4; then all with one of them made several times, the first such; and last all in capitals. What can't be read, or
 * has no moves, doesn't solve. It takes no memory. */
nissy_part_answer nissy_solving_part(const uint8_t *scramble, size_t scramble_length, const uint8_t *steps, size_t steps_length);

/* The place of what has none in the text. */
#define NISSY_NO_PLACE UINT64_MAX

/* What is said of an attempt of a text. */
typedef struct nissy_attempt_check {
    uint64_t scramble;   /* which of the known scrambles it is of, from 0, or NISSY_NO_SCRAMBLE */
    uint64_t name_begin; /* where the head of its part stands; both are 0 without one, and of a text without known scrambles */
    uint64_t name_end;
    uint64_t first_line;      /* which of the lines is its first one, from 0 */
    uint64_t end_line;        /* which is the first after them */
    uint64_t fault_at;        /* after NISSY_FAULT where it stands in the text; NISSY_NO_PLACE of a known scramble, or if nothing is at fault */
    uint64_t doubt_at;        /* where the doubt is seen; NISSY_NO_PLACE if there is none */
    uint8_t doubt;            /* of what is solved NISSY_STEP_OR_SCRAMBLE, or else NISSY_ANOTHER_ATTEMPT, or else NISSY_SEVERAL_SOLUTIONS by its
                               * steps, as told above; if it is none of these, that of its first line that has one, whatever it is; else of what isn't
                               * solved NISSY_ANOTHER_SCRAMBLE if its scramble is, by itself, or else NISSY_A_PART, or else NISSY_INSERTION,
                               * NISSY_COMMENT or NISSY_SIGNS if it would be with a turn that the text shows beside a step, or else NISSY_INSERTION if
                               * it would be with the cube turned before one, or else if it would be with one elsewhere, or else
                               * NISSY_ANOTHER_ATTEMPT if one stands in it, or none. With known scrambles also NISSY_WHICH_SCRAMBLE of what has none;
                               * of what isn't solved, before these, NISSY_ANOTHER_SCRAMBLE, as told below; and after these NISSY_WHICH_SCRAMBLE, if
                               * its solution doesn't solve its own one, but another of the first 64 */
    uint8_t doubted;          /* the doubt counts: nothing is at fault, and there is no solution that solves, or it is NISSY_STEP_OR_SCRAMBLE or one
                               * that the check tells, NISSY_ANOTHER_ATTEMPT or NISSY_SEVERAL_SOLUTIONS. One of its lines that is
                               * NISSY_SEVERAL_SOLUTIONS doesn't count if it is solved */
    uint8_t checked;          /* it has a solution, and it can be seen of which scramble: then `check` says more than a fault */
    nissy_check_answer check; /* what nissy_check says of its scramble and its solution, which is empty if there is none */
    uint8_t unused[4];        /* nothing, so that it has one size on all systems */
} nissy_attempt_check;

/* What nissy_check_attempts returns. */
typedef struct nissy_attempts_answer {
    uint8_t status;    /* NISSY_DONE or NISSY_ROOM */
    uint64_t attempts; /* how many there are; of NISSY_ROOM 0 if the moves have no room */
} nissy_attempts_answer;

/* Checks all attempts of a text that have a scramble, by the lines that nissy_text_lines tells of it: `parts` and `ends` are then empty. Or it checks
 * the parts that nissy_known_lines tells of a text, with its lines, of as many known scrambles as `ends` has: these stand one after another in
 * `scrambles`, and each ends there. A part is then the solution of its scramble by its first lines. If one attempt beside them has a scramble, there
 * is no other solution, and both scrambles make the same cube, held the same way, that attempt is checked; else one with a scramble is
 * NISSY_ANOTHER_SCRAMBLE. A part without lines is a scramble without a solution: begin `parts` with one without lines for each known scramble; a
 * later check with the same `scramble` replaces its own.
 *
 * Six bytes and places for each from `moves` to `comment` of a line, and six for each line, are never too few for `out` and `places`, which the call
 * uses; as many checks as lines and parts aren't either. If the status isn't NISSY_DONE, nothing in the rooms says anything. It takes no memory. Of
 * nissy.c on a processor with the other order of bytes it takes some for copies, and returns NISSY_STOPPED if that is refused. */
nissy_attempts_answer nissy_check_attempts(const uint8_t *text, size_t text_length, const nissy_text_line *lines, size_t count,
                                           const nissy_known_part *parts, size_t parts_count, const uint8_t *scrambles, size_t scrambles_length,
                                           const uint64_t *ends, size_t known, uint8_t *out, size_t out_room, uint64_t *places, size_t places_room,
                                           nissy_attempt_check *checks, size_t checks_room);

#ifdef __cplusplus
}
#endif

#endif
