/* What a row of the benchmark works on, the same for both sides, and what a side offers to be timed. */
#ifndef WORK_H
#define WORK_H

#include "rings.h"

#define MOST_COPIES 512u
#define FRAMES 1024u
#define SCHEDULE_BYTES 16384u
/* How far into the random bytes each copy of a table begins further than the one before. */
#define SCHEDULE_SHIFT 16u

struct ask { uint32_t generation, kind, value; };

/* All that the calls of a pass write; MOST_STEPS is also the most results that one pass keeps. */
struct outcome {
    uint32_t tables[MOST_COPIES * THK_MOST_WORDS];
    uint8_t frames[FRAMES * THK_FRAME_BYTES];
    thk_told told[MOST_STEPS];
    thk_ran ran[MOST_COPIES];
    thk_leading leading[MOST_COPIES];
    thk_frame frame[FRAMES];
};

struct work {
    enum entry entry;
    uint32_t number;      /* what every call must answer */
    size_t items, passes; /* items of a pass, passes of a batch */
    size_t stride;        /* words from the table of an item to that of the next; 0 where all share one */
    struct election election;
    uint32_t origin[THK_MOST_WORDS];
    uint8_t schedule[SCHEDULE_BYTES + MOST_COPIES * SCHEDULE_SHIFT];
    size_t shift;
    uint8_t frames[FRAMES * THK_FRAME_BYTES];
    size_t length;        /* lent to each read or write */
    struct ask asks[FRAMES];
    struct outcome got;
};

struct side { void (*pass[ENTRIES])(struct work *work); };

extern const struct side thk_side, peer_side;

#endif
