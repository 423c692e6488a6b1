/* Times the product's entries against the peer's, in one process and by turns: benchmark [ROUNDS]. */
#define _XOPEN_SOURCE 700
#include "work.h"

#include <stdio.h>
#include <stdlib.h>
#include <string.h>
#include <time.h>

#include "splitmix.h"

/* A batch lasts this long at least, where the copies suffice: the clock's grain is far below a percent of it. */
#define BATCH_NS 50000u
#define SHARED_ITEMS 64u
/* All rows are gone over so often, ROUNDS rounds each, so that a disturbance meets a row in few of its rounds. */
#define SWEEPS 5u
#define DEFAULT_ROUNDS 30u

/* Rows on a ring: who leads is asked so many halves of the election after the start; a run takes turns or draws. */
struct ring_row { const char *name; enum entry entry; size_t halves; int draws; };

/* Rows on frames: each draws one of the kind bytes (read) or generations (write), and one of the kinds (write). */
struct frame_row { const char *name; enum entry entry; uint32_t number; size_t length; uint8_t first[4], kinds[2]; };

static const struct ring_row ring_rows[] = {
    { "start", START, 0, 0 },         { "step", STEP, 0, 0 },
    { "run-robin", RUN, 0, 0 },       { "run-random", RUN, 0, 1 },
    { "leads-started", LEADS, 0, 0 }, { "leads-halfway", LEADS, 1, 0 }, { "leads-announced", LEADS, 2, 0 },
};

static const struct frame_row frame_rows[] = {
    { "read-high", READ, THK_DONE, 5, { 0x41, 0x41, 0x41, 0x41 }, { 0, 0 } },
    { "read-low", READ, THK_DONE, 5, { 0x61, 0x61, 0x61, 0x61 }, { 0, 0 } },
    { "read-mixed", READ, THK_DONE, 5, { 0x41, 0x42, 0x61, 0x62 }, { 0, 0 } },
    { "read-no-byte", READ, THK_REFUSED_NO_BYTE, 0, { 0x41, 0x41, 0x41, 0x41 }, { 0, 0 } },
    { "read-unknown", READ, THK_REFUSED_UNKNOWN_KIND, 5, { 0x40, 0x43, 0x60, 0x63 }, { 0, 0 } },
    { "read-cut", READ, THK_REFUSED_CUT, 4, { 0x41, 0x41, 0x41, 0x41 }, { 0, 0 } },
    { "write-high", WRITE, THK_DONE, 5, { 1, 1, 1, 1 }, { 1, 1 } },
    { "write-low", WRITE, THK_DONE, 5, { 2, 2, 2, 2 }, { 1, 1 } },
    { "write-mixed", WRITE, THK_DONE, 5, { 1, 2, 3, 2 }, { 0, 1 } },
    { "write-no-room", WRITE, THK_REFUSED_NO_ROOM, 4, { 1, 1, 1, 1 }, { 1, 1 } },
    { "write-no-frame", WRITE, THK_REFUSED_NO_FRAME, 5, { 4, 4, 4, 4 }, { 1, 1 } },
};

#define COUNT(array) (sizeof (array) / sizeof (array)[0])

/* What is kept of a row from sweep to sweep: the size of its batch, 0 before the first, and its least times. */
struct timing { const char *name; struct ring_size size; size_t items, passes, calls; uint64_t least[2]; };

static const struct side *const sides[2] = { &thk_side, &peer_side };

static struct timing timings[RING_SIZES * COUNT(ring_rows) + COUNT(frame_rows)];
static struct work work;
static struct outcome kept;
static volatile uint64_t sink;

static uint64_t now(void)
{
    struct timespec time;
    clock_gettime(CLOCK_MONOTONIC, &time);
    return (uint64_t)time.tv_sec * 1000000000u + (uint64_t)time.tv_nsec;
}

/* Gives every item its input again: the tables of steps and runs change, the others are written for equal terms. */
static void restore(void)
{
    size_t copies = work.stride == 0 ? 1 : work.items;
    for (size_t i = 0; i < copies; i++)
        memcpy(work.got.tables + i * work.stride, work.origin, sizeof work.origin[0] * work.election.words);
    memcpy(work.got.frames, work.frames, sizeof work.frames);
}

/* The nanoseconds of one batch: its inputs are restored before the timed part, its kept results used after it. */
static uint64_t timed(const struct side *side)
{
    restore();
    uint64_t begin = now();
    for (size_t i = 0; i < work.passes; i++)
        side->pass[work.entry](&work);
    uint64_t end = now();
    sink += work.got.told[0].number + work.got.ran[0].taken + work.got.leading[0].value + work.got.frame[0].value;
    return end - begin;
}

/* Lowers the least time of each side over the rounds; the side that goes first changes with every round. */
static void race(size_t rounds, uint64_t least[2])
{
    for (size_t i = 0; i < 2 * rounds; i++) {
        size_t who = (i ^ (i >> 1)) & 1;
        uint64_t time = timed(sides[who]);
        if (time < least[who])
            least[who] = time;
    }
}

/* Makes the batch long enough for both sides, by more copies of a table that changes, otherwise by more passes. */
static void lengthen(void)
{
    if (work.stride != 0)
        work.items = 1;
    for (;;) {
        uint64_t least[2] = { UINT64_MAX, UINT64_MAX };
        race(5, least);
        if (least[0] >= BATCH_NS && least[1] >= BATCH_NS)
            return;
        if (work.stride == 0)
            work.passes *= 2;
        else if (work.items < MOST_COPIES)
            work.items *= 2;
        else
            return;
    }
}

static int same_ran(const thk_ran *one, const thk_ran *other)
{
    return one->number == other->number && one->end == other->end && one->taken == other->taken
        && one->skipped == other->skipped;
}

/* Whether two passes wrote the same; a thk_ran has padding, so it is compared by its fields. */
static int same(const struct outcome *one, const struct outcome *other)
{
    for (size_t i = 0; i < MOST_COPIES; i++)
        if (!same_ran(&one->ran[i], &other->ran[i]))
            return 0;
    return memcmp(one->tables, other->tables, sizeof one->tables) == 0
        && memcmp(one->frames, other->frames, sizeof one->frames) == 0
        && memcmp(one->told, other->told, sizeof one->told) == 0
        && memcmp(one->leading, other->leading, sizeof one->leading) == 0
        && memcmp(one->frame, other->frame, sizeof one->frame) == 0;
}

/* Whether an item was answered as its row says; a run must also have come to the end of its election. */
static int as_meant(size_t item)
{
    switch (work.entry) {
    case RUN:
        return work.got.ran[item].number == work.number && work.got.ran[item].end == THK_END_OVER;
    case LEADS:
        return work.got.leading[item].number == work.number;
    case READ:
        return work.got.frame[item].number == work.number;
    default:
        return work.got.told[item].number == work.number;
    }
}

static size_t calls_of_pass(void)
{
    return work.entry == STEP ? work.items * work.election.steps : work.items;
}

/* What is wrong with a pass over every item that the row may come to have; NULL where nothing is. */
static const char *disagreement(void)
{
    memset(&work.got, 0xEE, sizeof work.got);
    restore();
    thk_side.pass[work.entry](&work);
    memcpy(&kept, &work.got, sizeof kept);
    memset(&work.got, 0xEE, sizeof work.got);
    restore();
    peer_side.pass[work.entry](&work);
    size_t results = work.entry == STEP ? work.election.steps : work.items;
    for (size_t i = 0; i < results; i++)
        if (!as_meant(i))
            return "the peer does not answer as the row means";
    return same(&kept, &work.got) ? NULL : "product and peer differ";
}

/* Compares both sides and settles the batch of a row that was not measured before. */
static int begun(struct timing *timing, const char *name, struct ring_size size)
{
    const char *wrong = disagreement();
    if (wrong != NULL) {
        fprintf(stderr, "benchmark: %s %u %u: %s\n", name, size.n, size.c, wrong);
        return 0;
    }
    lengthen();
    timing->name = name;
    timing->size = size;
    timing->items = work.items;
    timing->passes = work.passes;
    timing->calls = work.passes * calls_of_pass();
    timing->least[0] = timing->least[1] = UINT64_MAX;
    return 1;
}

static int measured(struct timing *timing, const char *name, struct ring_size size, size_t rounds)
{
    if (timing->passes == 0 && !begun(timing, name, size))
        return 0;
    work.items = timing->items;
    work.passes = timing->passes;
    race(rounds, timing->least);
    return 1;
}

static void set_schedule(const struct ring_row *row, uint32_t n)
{
    uint64_t seed = n;
    work.shift = row->draws ? SCHEDULE_SHIFT : 0;
    for (size_t i = 0; i < sizeof work.schedule; i++)
        work.schedule[i] = (uint8_t)((row->draws ? splitmix(&seed) : i) % n);
}

static int measured_ring(struct timing *timing, const struct ring_row *row, struct ring_size size, size_t rounds)
{
    if (!held(&work.election, size, 1)) {
        fprintf(stderr, "benchmark: %s %u %u: no election\n", row->name, size.n, size.c);
        return 0;
    }
    int changes = row->entry == STEP || row->entry == RUN;
    work.entry = row->entry;
    work.number = THK_DONE;
    work.items = changes ? MOST_COPIES : SHARED_ITEMS;
    work.stride = changes ? work.election.words : 0;
    work.passes = 1;
    table_after(&work.election, work.election.steps * row->halves / 2, work.origin);
    set_schedule(row, size.n);
    return measured(timing, row->name, size, rounds);
}

static int measured_frames(struct timing *timing, const struct frame_row *row, size_t rounds)
{
    const struct ring_size none = { 0, 0 };
    uint64_t seed = 1;
    work.entry = row->entry;
    work.number = row->number;
    work.items = FRAMES;
    work.stride = 0;
    work.passes = 1;
    work.length = row->length;
    for (size_t i = 0; i < sizeof work.frames; i++)
        work.frames[i] = i % THK_FRAME_BYTES == 0 ? row->first[splitmix(&seed) % 4] : (uint8_t)splitmix(&seed);
    for (size_t i = 0; i < FRAMES; i++) {
        work.asks[i].generation = row->first[splitmix(&seed) % 4];
        work.asks[i].kind = row->kinds[splitmix(&seed) % 2];
        work.asks[i].value = splitmix(&seed);
    }
    return measured(timing, row->name, none, rounds);
}

static int swept(size_t rounds)
{
    struct timing *timing = timings;
    for (size_t i = 0; i < RING_SIZES * COUNT(ring_rows); i++)
        if (!measured_ring(timing++, &ring_rows[i % COUNT(ring_rows)], ring_sizes[i / COUNT(ring_rows)], rounds))
            return 0;
    for (size_t i = 0; i < COUNT(frame_rows); i++)
        if (!measured_frames(timing++, &frame_rows[i], rounds))
            return 0;
    return 1;
}

static void print(const struct timing *timing)
{
    double product = (double)timing->least[0], peer = (double)timing->least[1], calls = (double)timing->calls;
    printf("%s %u %u %.3f %.3f %.4f\n", timing->name, timing->size.n, timing->size.c, product / calls, peer / calls,
        product / peer);
}

int main(int argc, char **argv)
{
    size_t rounds = argc > 1 ? (size_t)strtoul(argv[1], NULL, 10) : DEFAULT_ROUNDS;
    if (rounds == 0) {
        fprintf(stderr, "usage: benchmark [ROUNDS]\n");
        return 2;
    }
    for (size_t i = 0; i < SWEEPS; i++)
        if (!swept(rounds))
            return 1;
    for (size_t i = 0; i < COUNT(timings); i++)
        print(&timings[i]);
    return 0;
}
