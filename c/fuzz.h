/* The parts of the fuzzer: random numbers, inputs, and what has to hold of the answers. */
#ifndef FUZZ_H
#define FUZZ_H

#include "lent.h"

/* ---- random numbers: the same seed gives the same rounds */

void seed_random(uint64_t seed);
uint64_t any(void);
/* 0 to n - 1. */
size_t below(size_t n);
/* Yes once in n times. */
int once_in(unsigned n);

/* ---- inputs */

/* Fills the store of earlier answers with random flags, bytes and removals. */
void open_store(void);

/* Lends a call random inputs, mostly proper ones, many of them earlier answers. */
void make_input(given *g, int which);

/* Keeps an accepted answer, which stands in these tables, as an input of later calls. */
void keep_answer(int which, const given *g, const told *answer);

/* ---- laws */

/* Whether some kind, strategy, count or table is not proper, so that the call has to refuse with 11. */
int improper(const call *c, const given *g);

/* Notes what the left removal of a sum and a table of totals have, since the answer is written over them. */
void note_before(const given *g);

/* What an accepted answer, which stands in these tables, breaks of the laws of its call, or null. */
const char *broken_law(int which, const given *g, const told *answer);

/* What a refusal breaks of the laws of its call, or null. Refusals 10 and 11 are looked at by the caller. */
const char *broken_refusal(int which, const given *g, uint32_t refusal);

#endif
