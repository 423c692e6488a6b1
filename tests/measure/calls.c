/* A pass of a row by direct calls; compiled once for each side, with SIDE the prefix of its entries. */
#include "work.h"

#define JOINED(side, name) side##_##name
#define EXPANDED(side, name) JOINED(side, name)
#define OF_SIDE(name) EXPANDED(SIDE, name)

static void pass_start(struct work *work)
{
    const struct election *of = &work->election;
    for (size_t i = 0; i < work->items; i++)
        work->got.told[i] = OF_SIDE(start)(work->got.tables, of->words, of->identities, of->size.n, of->size.c);
}

static void steps_of_one(struct work *work, uint32_t *table)
{
    const struct election *of = &work->election;
    for (size_t i = 0; i < of->steps; i++)
        work->got.told[i] = OF_SIDE(step)(table, of->words, of->choices[i]);
}

static void pass_step(struct work *work)
{
    for (size_t i = 0; i < work->items; i++)
        steps_of_one(work, work->got.tables + i * work->stride);
}

static void pass_run(struct work *work)
{
    for (size_t i = 0; i < work->items; i++) {
        uint32_t *table = work->got.tables + i * work->stride;
        const uint8_t *schedule = work->schedule + i * work->shift;
        work->got.ran[i] = OF_SIDE(run)(table, work->election.words, schedule, SCHEDULE_BYTES, UINT32_MAX);
    }
}

static void pass_leads(struct work *work)
{
    for (size_t i = 0; i < work->items; i++)
        work->got.leading[i] = OF_SIDE(leads)(work->got.tables, work->election.words);
}

static void pass_read(struct work *work)
{
    for (size_t i = 0; i < work->items; i++)
        work->got.frame[i] = OF_SIDE(read)(work->got.frames + i * THK_FRAME_BYTES, work->length);
}

static void pass_write(struct work *work)
{
    for (size_t i = 0; i < work->items; i++) {
        struct ask ask = work->asks[i];
        uint8_t *bytes = work->got.frames + i * THK_FRAME_BYTES;
        work->got.told[i] = OF_SIDE(write)(bytes, work->length, ask.generation, ask.kind, ask.value);
    }
}

const struct side OF_SIDE(side) = {
    { pass_start, pass_step, pass_run, pass_leads, pass_read, pass_write }
};
