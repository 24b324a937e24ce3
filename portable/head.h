/* nissy.c: the engine of nissy in one file, for any system with a C compiler. It gives what nissy.h and nissy_text.h declare.
 *
 *     cc -O2 -c nissy.c
 *
 * It needs C11 and of the C library malloc, free, memcpy, memmove, memset, memcmp and abort; it has no state, so any threads may call at once.
 * The engine is written in Rattle, and each of its functions is proved to meet its contract. The kit compiled it to WebAssembly, and a tool wrote
 * that module in C: nothing here is meant to be edited. Below are in turn addresses, constants, memory, numbers, the functions, and the calls. */
#if defined(__cplusplus)
#error "nissy.c is C: compile it by a C compiler; nissy.h can be included in C++"
#elif !defined(__STDC_VERSION__) || __STDC_VERSION__ < 201112L
#error "nissy.c needs a compiler for C11 or later: gcc, clang and tcc take -std=c11, cl takes /std:c11"
#else
#include "nissy_text.h"

#include <stdbool.h>
#include <stdlib.h>
#include <string.h>
