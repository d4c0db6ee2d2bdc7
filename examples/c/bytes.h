/* What the programs here share: fields in bytes, written apart from the header's own, equality of figures, and a count of what is
 * not as expected. */
#ifndef BYTES_H
#define BYTES_H

#include <stdint.h>
#include <stdio.h>
#include <string.h>

static int failures = 0;

static inline void expect(int holds, const char *what)
{
    if (!holds) {
        printf("not as expected: %s\n", what);
        failures++;
    }
}

/* The same figure: the same 64 bits, or a NaN each. */
static inline int same(double one, double other)
{
    return memcmp(&one, &other, sizeof one) == 0 || (one != one && other != other);
}

static inline void put_word(uint8_t *at, uint32_t word)
{
    at[0] = (uint8_t)(word & 255u);
    at[1] = (uint8_t)(word >> 8 & 255u);
    at[2] = (uint8_t)(word >> 16 & 255u);
    at[3] = (uint8_t)(word >> 24);
}

static inline uint32_t word_at(const uint8_t *at)
{
    return (uint32_t)at[0] | (uint32_t)at[1] << 8 | (uint32_t)at[2] << 16 | (uint32_t)at[3] << 24;
}

static inline void put_address(uint8_t *at, int32_t scale, uint32_t point)
{
    put_word(at, (uint32_t)scale);
    put_word(at + 4, point);
}

static inline int is_address(const uint8_t *at, int32_t scale, uint32_t point)
{
    return word_at(at) == (uint32_t)scale && word_at(at + 4) == point;
}

static inline void put_record(uint8_t *at, int32_t scale, uint32_t point, uint32_t count, uint32_t link)
{
    put_address(at, scale, point);
    put_word(at + 8, count);
    put_word(at + 12, link);
}

#endif
