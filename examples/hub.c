/* A hub: reads identity frames from its link, elects an owner, and makes the frames that tell the gateways of it. */
#include <inttypes.h>
#include <stdio.h>
#include <stdlib.h>

#include "thuyrekho.h"

#define GATEWAYS 5
#define CAPACITY 2
#define PORTION 16 /* moves at a time, so that the hub comes back to its link */

/* What came in from the link, five bytes to a frame, of gateways of all generations. */
static const uint8_t received[] = {
    0x41, 0x00, 0x01, 0x11, 0x70, /* 70000, high byte first */
    0x61, 0x00, 0x01, 0x00, 0x00, /* 256, low byte first; taken as high byte first it would be 65536 */
    0x43, 0x00, 0x00, 0x00, 0x07, /* a kind that no generation has */
    0x41, 0x00, 0x00, 0x00, 0x01, /* 1, high byte first; taken as low byte first it would be 16777216 */
    0x62, 0x09, 0x00, 0x00, 0x00, /* passive: no identity */
    0x61, 0x01, 0x00, 0x00, 0x80, /* 2147483649, low byte first */
    0x41, 0x00, 0x00, 0x01, 0x02, /* 258, high byte first */
};

static void give_up_if_refused(const char *entry, uint32_t number, uint32_t place)
{
    if (number != THK_DONE) {
        fprintf(stderr, "%s: refused %" PRIu32 " place %" PRIu32 "\n", entry, number, place);
        exit(EXIT_FAILURE);
    }
}

/* Gives how many identities came. A frame of an unknown kind and one that is no identity are passed over. */
static size_t read_identities(uint32_t *identities, size_t most)
{
    size_t n = 0;
    for (size_t at = 0; at < sizeof received && n < most; at += THK_FRAME_BYTES) {
        thk_frame frame = thk_read(received + at, sizeof received - at);
        if (frame.number == THK_REFUSED_UNKNOWN_KIND) {
            printf("byte %zu: refused %" PRIu32 " place %" PRIu32 ", skipped\n", at, frame.number, frame.place);
            continue;
        }
        give_up_if_refused("thk_read", frame.number, frame.place);
        if (frame.kind != THK_ACTIVE) {
            printf("byte %zu: no identity, skipped\n", at);
            continue;
        }
        printf("byte %zu: process %zu has identity %" PRIu32 "\n", at, n, frame.value);
        identities[n++] = frame.value;
    }
    return n;
}

static void round_robin(uint8_t *schedule, size_t length, size_t n)
{
    for (size_t i = 0; i < length; i++)
        schedule[i] = (uint8_t)(i % n);
}

/* Gives how many moves were made. Until one announces some process can move, so that each turn of the schedule makes a
 * move, and a turn for every move is enough.
 */
static uint32_t elect(uint32_t *table, size_t words, size_t n)
{
    static uint8_t schedule[GATEWAYS * THK_MOST_MOVES(GATEWAYS)];
    size_t used = 0;
    uint32_t moves = 0;
    thk_ran ran;
    round_robin(schedule, sizeof schedule, n);
    do {
        ran = thk_run(table, words, schedule + used, sizeof schedule - used, PORTION);
        give_up_if_refused("thk_run", ran.number, 0);
        used += (size_t)(ran.taken + ran.skipped);
        moves += ran.taken;
        printf("run: end %" PRIu32 " taken %" PRIu32 " skipped %" PRIu64 "\n", ran.end, ran.taken, ran.skipped);
    } while (ran.end == THK_END_SPENT);
    return moves;
}

static void tell(uint32_t generation, uint32_t identity)
{
    uint8_t b[THK_FRAME_BYTES];
    thk_told told = thk_write(b, sizeof b, generation, THK_ACTIVE, identity);
    give_up_if_refused("thk_write", told.number, told.place);
    printf("generation %" PRIu32 ": %02x %02x %02x %02x %02x\n", generation, b[0], b[1], b[2], b[3], b[4]);
}

int main(void)
{
    uint32_t identities[GATEWAYS];
    uint32_t table[THK_TABLE_WORDS(GATEWAYS, CAPACITY)];
    size_t words = sizeof table / sizeof table[0];
    size_t n = read_identities(identities, GATEWAYS);
    thk_told told = thk_start(table, words, identities, n, CAPACITY);
    give_up_if_refused("thk_start", told.number, told.place);
    uint32_t moves = elect(table, words, n);
    thk_leading leading = thk_leads(table, words);
    give_up_if_refused("thk_leads", leading.number, 0);
    if (!leading.some) {
        fprintf(stderr, "no owner after %" PRIu32 " moves\n", moves);
        return EXIT_FAILURE;
    }
    uint32_t owner = identities[leading.process];
    printf("after %" PRIu32 " moves process %" PRIu32 " leads", moves, leading.process);
    printf(" with %" PRIu32 ", its own identity is %" PRIu32 "\n", leading.value, owner);
    for (uint32_t generation = 1; generation <= 3; generation++)
        tell(generation, owner);
    return EXIT_SUCCESS;
}
