/* Numbers drawn from a seed, of the kinds that questions need. */
#ifndef DRAW_H
#define DRAW_H

#include <stddef.h>
#include <stdint.h>

void draw_seed(uint64_t seed);

/* Any 32-bit number. */
uint32_t draw(void);

/* A number below the bound, which is not 0. */
uint32_t draw_below(uint32_t bound);

/* 1 once in so many times, else 0. */
int draw_once_in(uint32_t times);

/* A value as a caller may hold it: small, at an edge of the 32-bit range, or any. */
uint32_t draw_value(void);

/* The number with one bit above its low byte turned, as a comparison of too few bits would miss it. */
uint32_t draw_high_bit(uint32_t number);

/* Fills a list with values, no two of them equal. */
void draw_distinct(uint32_t *list, size_t count);

#endif
