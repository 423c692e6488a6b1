/* Rings to measure on: identities and elections drawn from a seed and moved by the peer. */
#include "rings.h"

#include <string.h>

#include "splitmix.h"

const struct ring_size ring_sizes[RING_SIZES] = { { 2, 1 }, { 4, 2 }, { 16, 1 }, { 16, 16 } };

static int announced(const uint32_t *table, size_t words)
{
    return peer_leads(table, words).some != 0;
}

int held(struct election *election, struct ring_size size, uint64_t seed)
{
    uint32_t table[THK_MOST_WORDS];
    size_t words = THK_TABLE_WORDS(size.n, size.c);
    election->size = size;
    election->words = words;
    election->steps = 0;
    for (uint32_t i = 0; i < size.n; i++)
        election->identities[i] = splitmix(&seed);
    if (peer_start(table, words, election->identities, size.n, size.c).number != THK_DONE)
        return 0;
    memcpy(election->start, table, words * sizeof table[0]);
    for (uint32_t tries = 0; tries < 64 * MOST_STEPS && election->steps < MOST_STEPS; tries++) {
        uint32_t chosen = splitmix(&seed) % size.n;
        if (peer_step(table, words, chosen).number != THK_DONE)
            continue;
        election->choices[election->steps++] = (uint8_t)chosen;
        if (announced(table, words))
            return 1;
    }
    return 0;
}

void table_after(const struct election *election, size_t steps, uint32_t *table)
{
    memcpy(table, election->start, election->words * sizeof table[0]);
    for (size_t i = 0; i < steps; i++)
        peer_step(table, election->words, election->choices[i]);
}
