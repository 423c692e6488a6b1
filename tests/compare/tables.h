/* Ring tables to ask about: reachable, well-formed but not reachable, and spoilt ones. */
#ifndef TABLES_H
#define TABLES_H

#include "lend.h"

typedef struct {
    size_t length;
    uint32_t words[LEND_WORDS];
} ring_table;

/* What was done to a table before it is lent. */
enum { SPOIL_NONE, SPOIL_WORD, SPOIL_REPEAT, SPOIL_CUT, SPOIL_RANGE, SPOIL_ALL, SPOILS };

/* A ring of drawn size that was started, and then run for a while at times. */
void table_reachable(ring_table *table);

/* Any well-formed table of drawn size. */
void table_unreachable(ring_table *table);

/* Spoils a well-formed table in the given way; SPOIL_RANGE and SPOIL_ALL make another one instead. */
void table_spoil(ring_table *table, unsigned how);

/* Adds words that are not of the table. */
void table_lengthen(ring_table *table, size_t words);

#endif
