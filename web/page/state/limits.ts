// How long what the page takes may be, and how many of it.

/** 256 moves, each of as many signs as one may have and in brackets, are half of it. */
export const LONGEST_SCRAMBLE = 4096;
export const GREATEST_SLACK = 3;
export const MOST_CANDIDATES = 24;
export const LONGEST_NOTE = 80;

/** How many moves the engine reads in one line, and up to how many of a step it looks for. */
export const MOST_MOVES = 256;
export const LONGEST_STEP = 20;
