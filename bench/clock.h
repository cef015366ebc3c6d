/* The clock that the rounds are timed by, in nanoseconds. */
#ifndef CLOCK_H
#define CLOCK_H

#include <stdint.h>

/* What two looks at the clock take, taken off each timed block. */
extern uint64_t clock_cost;
void measure_clock(void);

uint64_t now(void);
uint64_t since(uint64_t from);

#endif
