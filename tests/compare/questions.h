/* Questions for both parties: an entry and what it is called with, drawn from the seed. */
#ifndef QUESTIONS_H
#define QUESTIONS_H

#include "tables.h"

enum { ENTRY_START, ENTRY_STEP, ENTRY_RUN, ENTRY_LEADS, ENTRY_READ, ENTRY_WRITE, ENTRIES };

extern const char *const entry_names[ENTRIES];

typedef struct {
    unsigned entry;
    /* Plain numbers, in the order of the entry's parameters. */
    uint32_t numbers[3];
    /* Each slice: its length and the bytes of one unit of it, its place, what it holds. */
    size_t length[LEND_SLICES], unit[LEND_SLICES];
    unsigned place[LEND_SLICES];
    union {
        uint32_t words[LEND_WORDS];
        uint8_t bytes[LEND_BYTES];
    } slice[LEND_SLICES];
    /* How the table was spoilt; SPOIL_NONE for an entry that reads none. */
    unsigned spoilt;
} question;

/* What a party gave back: the fields in the order of the entry's struct, 0 behind them. */
typedef struct {
    uint64_t field[4];
} answer;

/* Where some fields stand; every struct begins with the number. */
enum { GIVEN_NUMBER, RAN_END = 1, RAN_TAKEN, RAN_SKIPPED, LEADING_SOME = 1 };

/* Draws the next question; step, run and who-leads mostly go on with the same ring. */
void question_draw(question *asked);

/* How many slices the entry takes. */
unsigned question_slices(const question *asked);

/* Goes on from the table as a call that was done left it, where it was the ring's. */
void question_follow(const question *asked, const answer *given, const uint32_t *table);

#endif
