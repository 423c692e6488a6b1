/* Slices lent to both parties: equal bytes, each in a page of its own with an unreadable page before and after it. */
#ifndef LEND_H
#define LEND_H

#include <stddef.h>
#include <stdint.h>

/* The most that one slice can take, in bytes and in words. */
#define LEND_BYTES 4096u
#define LEND_WORDS (LEND_BYTES / 4u)

/* A call's slices, in the order of its parameters. */
enum { LEND_FIRST, LEND_SECOND, LEND_SLICES };

enum { LEND_PEER, LEND_PRODUCT, LEND_PARTIES };

/* Where a slice lies in its page; only an empty one can be lent as null. */
enum { LEND_AT_BEGIN, LEND_AT_END, LEND_AS_NULL, LEND_PLACES };

/* Whether the party's pointer allows writing. */
enum { LEND_TO_WRITE, LEND_TO_READ, LEND_VIEWS };

/* Maps the pages; 0 where the system refuses. */
int lend_open(void);

/* Copies the bytes to both parties' pages. */
void lend(unsigned slice, const void *bytes, size_t size, unsigned place);

/* The slice as the party is lent it. */
void *lend_pointer(unsigned slice, unsigned party, unsigned view);

/* Whether a party's slice no longer holds these bytes. */
int lend_changed(unsigned slice, unsigned party, const void *bytes);

/* Whether the two parties' slices hold different bytes. */
int lend_differs(unsigned slice);

/* Whether a byte of the party's page outside of the slice was written. */
int lend_spilt(unsigned slice, unsigned party);

/* Takes the slice back: the whole page holds the pattern again. */
void lend_back(unsigned slice);

#endif
