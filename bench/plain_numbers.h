/* Numbers on the wire (RFC 9000 section 16), for the files of the plain side. */
#ifndef PLAIN_NUMBERS_H
#define PLAIN_NUMBERS_H

#include <string.h>

#include "plain.h"

#define LARGEST LUMBIXET_LARGEST

/* The two types of ACK frames. */
enum { ACK = 2, ACK_WITH_COUNTS = 3 };

struct reader {
    const uint8_t *bytes;
    size_t length;
    size_t at;
};

static inline uint64_t load4(const uint8_t *p)
{
    return (uint32_t)p[0] << 24 | (uint32_t)p[1] << 16 | (uint32_t)p[2] << 8 | p[3];
}

static inline uint64_t load8(const uint8_t *p)
{
    return (uint64_t)p[0] << 56 | (uint64_t)p[1] << 48 | (uint64_t)p[2] << 40 | (uint64_t)p[3] << 32 |
           (uint64_t)p[4] << 24 | (uint64_t)p[5] << 16 | (uint64_t)p[6] << 8 | p[7];
}

/* Reads the number at p, whose bytes are known to be there, and moves p behind it. */
static inline uint64_t known(const uint8_t **p)
{
    const uint8_t *from = *p;
    switch (from[0] >> 6) {
    case 0:
        *p += 1;
        return from[0];
    case 1:
        *p += 2;
        return (uint64_t)(from[0] & 63) << 8 | from[1];
    case 2:
        *p += 4;
        return load4(from) & 0x3fffffff;
    default:
        *p += 8;
        return load8(from) & LARGEST;
    }
}

/* Reads the next number; false where the bytes end inside it. */
static inline bool take(struct reader *reader, uint64_t *value)
{
    if (reader->at >= reader->length)
        return false;
    const uint8_t *p = reader->bytes + reader->at;
    if (reader->length - reader->at < (size_t)1 << (p[0] >> 6))
        return false;
    *value = known(&p);
    reader->at = (size_t)(p - reader->bytes);
    return true;
}

/* How many bytes the shortest form takes. */
static inline size_t width(uint64_t value)
{
    return value <= 63 ? 1 : value <= 16383 ? 2 : value <= 1073741823 ? 4 : 8;
}

/* Stores the shortest form, for which there is room, and answers the place behind it. */
static inline uint8_t *store(uint8_t *p, uint64_t value)
{
    if (value <= 63) {
        p[0] = (uint8_t)value;
        return p + 1;
    }
    if (value <= 16383) {
        p[0] = (uint8_t)(value >> 8 | 0x40);
        p[1] = (uint8_t)value;
        return p + 2;
    }
    if (value <= 1073741823) {
        uint32_t form = __builtin_bswap32((uint32_t)value | UINT32_C(2) << 30);
        memcpy(p, &form, 4);
        return p + 4;
    }
    uint64_t form = __builtin_bswap64(value | UINT64_C(3) << 62);
    memcpy(p, &form, 8);
    return p + 8;
}

#endif
