/* The window of 1,024 places by hand: place 1023 is L. */
#ifndef PLAIN_WINDOW_H
#define PLAIN_WINDOW_H

#include <stdbool.h>
#include <stdint.h>
#include <string.h>

#define PLACES 1024
#define WORDS 16

static inline uint64_t less(uint64_t a, uint64_t b)
{
    return a < b ? 0 : a - b;
}

static inline uint64_t larger(uint64_t a, uint64_t b)
{
    return a < b ? b : a;
}

static inline bool is_marked(const uint64_t *words, uint64_t place)
{
    return words[place / 64] >> place % 64 & 1;
}

static inline void mark(uint64_t *words, uint64_t place)
{
    words[place / 64] |= UINT64_C(1) << place % 64;
}

/* Moves every mark `by` places down; those below place 0 are dropped. */
static inline void advance(uint64_t *words, uint64_t by)
{
    if (by >= PLACES) {
        memset(words, 0, WORDS * sizeof *words);
        return;
    }
    size_t whole = by / 64;
    unsigned bits = by % 64;
    if (whole) {
        memmove(words, words + whole, (WORDS - whole) * sizeof *words);
        memset(words + WORDS - whole, 0, whole * sizeof *words);
    }
    if (bits) {
        for (size_t i = 0; i < WORDS - 1; i++)
            words[i] = words[i] >> bits | words[i + 1] << (64 - bits);
        words[WORDS - 1] >>= bits;
    }
}

/* The smallest place from `from` on and below `to` that is not marked, or `to`. */
static inline uint64_t first_missing(const uint64_t *words, uint64_t from, uint64_t to)
{
    while (from < to) {
        uint64_t rest = ~words[from / 64] >> from % 64;
        if (rest) {
            uint64_t place = from + (uint64_t)__builtin_ctzll(rest);
            return place < to ? place : to;
        }
        from += 64 - from % 64;
    }
    return to;
}

/* How many places directly below `place` are marked, or, with `marked` false, are not. */
static inline uint64_t run_below(const uint64_t *words, uint64_t place, bool marked)
{
    uint64_t left = place;
    while (left) {
        uint64_t top = (left - 1) % 64;
        uint64_t word = words[(left - 1) / 64];
        uint64_t other = (marked ? ~word : word) << (63 - top);
        if (other)
            return place - left + (uint64_t)__builtin_clzll(other);
        left -= top + 1;
    }
    return place;
}

static inline bool none_below(const uint64_t *words, uint64_t place)
{
    uint64_t any = 0;
    for (size_t i = 0; i < place / 64; i++)
        any |= words[i];
    if (place % 64)
        any |= words[place / 64] << (64 - place % 64);
    return any == 0;
}

#endif
