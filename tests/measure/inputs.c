/* Inputs of each entry that reach all of its paths: done and refused, every state, every end of a run. */
#include "inputs.h"

#include <string.h>

/* Where a record keeps its fields, as document 01 lays them. */
enum field { IDENTITY, STATE, D, E, B, LENGTH, SLOTS };

/* A table kept while inputs are made of it. */
struct kept { uint32_t table[THK_MOST_WORDS]; size_t words; };

typedef void user(struct input *input);
typedef void maker(const struct kept *kept, user *use);

static struct input input;

static size_t record(const uint32_t *table, size_t process)
{
    return 2 + process * (SLOTS + 2 * table[1]);
}

uint32_t state_of(const uint32_t *table, uint32_t process)
{
    return table[record(table, process) + STATE];
}

static void lend(const struct kept *kept)
{
    memcpy(input.table, kept->table, sizeof input.table);
    input.words = kept->words;
}

static void make_steps(const struct kept *kept, user *use)
{
    for (uint32_t chosen = 0; chosen <= THK_MOST_PROCESSES; chosen++) {
        lend(kept);
        input.chosen = chosen;
        use(&input);
    }
}

/* By turns over the processes and one number beyond them: to its end, by few moves, and without a byte. */
static void make_runs(const struct kept *kept, user *use)
{
    static const struct { size_t length; uint32_t budget; } ways[] = {
        { INPUT_BYTES, UINT32_MAX }, { INPUT_BYTES, 3 }, { 0, UINT32_MAX },
    };
    uint32_t turns = kept->table[0] % (THK_MOST_PROCESSES + 1) + 1;
    for (size_t i = 0; i < INPUT_BYTES; i++)
        input.bytes[i] = (uint8_t)(i % turns);
    for (size_t i = 0; i < sizeof ways / sizeof ways[0]; i++) {
        lend(kept);
        input.length = ways[i].length;
        input.budget = ways[i].budget;
        use(&input);
    }
}

static void make_leads(const struct kept *kept, user *use)
{
    lend(kept);
    use(&input);
}

/* Turns the oldest message of every queue to the other kind, which no started ring comes to. */
static void turn_kinds(uint32_t *table)
{
    for (size_t i = 0; i < table[0]; i++)
        if (table[record(table, i) + LENGTH] != 0)
            table[record(table, i) + SLOTS + 1] ^= 1;
}

static void each_table_of(const struct election *election, maker *make, user *use)
{
    struct kept plain = { { 0 }, election->words }, turned;
    for (size_t steps = 0; steps <= election->steps; steps++) {
        table_after(election, steps, plain.table);
        make(&plain, use);
        turned = plain;
        turn_kinds(turned.table);
        make(&turned, use);
    }
}

/* A table with a filled and a free slot, malformed by one word or cut short, in every way that there is. */
static void each_malformed(const struct election *election, maker *make, user *use)
{
    struct kept sound = { { 0 }, election->words }, kept;
    table_after(election, 1, sound.table);
    size_t at = record(sound.table, election->choices[0]);
    size_t next = record(sound.table, (election->choices[0] + 1) % election->size.n);
    const struct { size_t word; uint32_t value; size_t words; } ways[] = {
        { 0, 0, sound.words },           { 0, 17, sound.words },          { 1, 0, sound.words },
        { 1, 17, sound.words },          { at + STATE, 7, sound.words },  { at + B, 2, sound.words },
        { at + LENGTH, 3, sound.words }, { at + SLOTS + 1, 2, sound.words },
        { at + SLOTS + 2, 1, sound.words }, { at + SLOTS + 3, 1, sound.words },
        { at, sound.table[next], sound.words },
        { 0, sound.table[0], sound.words - 1 }, { 0, sound.table[0], 1 }, { 0, sound.table[0], 0 },
    };
    for (size_t i = 0; i < sizeof ways / sizeof ways[0]; i++) {
        kept = sound;
        kept.table[ways[i].word] = ways[i].value;
        kept.words = ways[i].words;
        make(&kept, use);
    }
}

static int each_table(maker *make, user *use)
{
    static struct election election;
    for (size_t i = 0; i < RING_SIZES; i++) {
        if (!held(&election, ring_sizes[i], 2))
            return 0;
        each_table_of(&election, make, use);
        if (election.size.c > 1)
            each_malformed(&election, make, use);
    }
    return 1;
}

/* Distinct identities, then the first one again at each place, then distinct ones with too few words for many. */
static void make_starts(user *use)
{
    for (uint32_t again = 0; again <= THK_MOST_PROCESSES; again++) {
        for (uint32_t i = 0; i <= THK_MOST_PROCESSES; i++)
            input.identities[i] = i;
        input.identities[again] = 0;
        input.words = again < THK_MOST_PROCESSES ? THK_MOST_WORDS : THK_MOST_WORDS / 2;
        use(&input);
    }
}

/* Each size in range and the nearest out of it. */
static int each_start(user *use)
{
    for (input.n = 0; input.n <= THK_MOST_PROCESSES + 1; input.n++)
        for (input.capacity = 0; input.capacity <= THK_MOST_CAPACITY + 1; input.capacity++)
            make_starts(use);
    return 1;
}

static int each_read(user *use)
{
    for (uint32_t first = 0; first <= UINT8_MAX; first++)
        for (input.length = 0; input.length <= THK_FRAME_BYTES + 1; input.length++) {
            input.bytes[0] = (uint8_t)first;
            use(&input);
        }
    return 1;
}

static int each_write(user *use)
{
    for (input.generation = 0; input.generation <= 4; input.generation++)
        for (input.kind = 0; input.kind <= 2; input.kind++)
            for (input.length = 0; input.length <= THK_FRAME_BYTES + 1; input.length++)
                use(&input);
    return 1;
}

int each_input(enum entry entry, user *use)
{
    switch (entry) {
    case START:
        return each_start(use);
    case STEP:
        return each_table(make_steps, use);
    case RUN:
        return each_table(make_runs, use);
    case LEADS:
        return each_table(make_leads, use);
    case READ:
        return each_read(use);
    default:
        return each_write(use);
    }
}
