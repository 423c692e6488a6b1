/* Rings to measure on: identities and elections drawn from a seed and moved by the peer. */
#ifndef RINGS_H
#define RINGS_H

#include "peer.h"

#define MOST_STEPS (6u * THK_MOST_PROCESSES * THK_MOST_PROCESSES)
#define RING_SIZES 4u

enum entry { START, STEP, RUN, LEADS, READ, WRITE, ENTRIES };

struct ring_size { uint32_t n, c; };

/* An election from its started table to the step that announces; every choice in it is done. */
struct election {
    struct ring_size size;
    size_t words, steps;
    uint32_t identities[THK_MOST_PROCESSES];
    uint32_t start[THK_MOST_WORDS];
    uint8_t choices[MOST_STEPS];
};

extern const struct ring_size ring_sizes[RING_SIZES];

/* Makes an election of random choices; 0 where the peer does not bring it to its end. */
int held(struct election *election, struct ring_size size, uint64_t seed);

/* Writes the table as it stands after the first steps of an election. */
void table_after(const struct election *election, size_t steps, uint32_t *table);

#endif
