/* Inputs of each entry that reach all of its paths: done and refused, every state, every end of a run. */
#ifndef INPUTS_H
#define INPUTS_H

#include "rings.h"

#define INPUT_BYTES (4u * MOST_STEPS)

/* The arguments of a call; each entry uses those that it has. */
struct input {
    uint32_t table[THK_MOST_WORDS], identities[THK_MOST_PROCESSES + 1];
    uint32_t capacity, chosen, budget, generation, kind, value;
    size_t words, n, length;
    uint8_t bytes[INPUT_BYTES];
};

/* The state of a process of a well-formed table. */
uint32_t state_of(const uint32_t *table, uint32_t process);

/* Hands every input of an entry to a function that may write the table and the bytes; 0 where none can be made. */
int each_input(enum entry entry, void (*use)(struct input *input));

#endif
