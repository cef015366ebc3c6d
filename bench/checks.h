/* What every comparison shares: the count, the numbers drawn, and a buffer for each side. Calls that draw stand in
 * statements of their own, since C leaves open in which order it evaluates the arguments of one call. */
#ifndef CHECKS_H
#define CHECKS_H

#include "lumbixet.h"

/* Counts one comparison; a difference ends the program with status 1. */
void check(bool same, const char *call);
void check_answer(const lumbixet_answer *a, const lumbixet_answer *b, const char *call);
bool same_record(const lumbixet_receiver *a, const lumbixet_receiver *b);
uint64_t compared(void);

/* The next number drawn, and one below the limit. */
uint64_t draw(void);
uint64_t below(uint64_t limit);

/* A number near an edge that document 01 names, or of any size; and so many of them. */
uint64_t any_number(void);
void any_numbers(uint64_t *list, size_t length);

/* An ECN field: CE once in so many, else another mark; now and then with a traffic class above it. */
uint64_t any_mark(uint64_t once_ce);

/* A buffer for each side, both filled alike, so that a byte that one side should not write is seen. */
extern uint8_t left[5120], right[5120];
void fill_buffers(void);
bool same_buffers(void);

#endif
