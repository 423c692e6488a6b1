/* The ring of document 01 in plain C: start, step, run, who leads, and the frames. */
#include "peer.h"

#include <string.h>

/* The words of a record; from SLOTS on, two words for each slot: value and kind. */
enum { IDENTITY, STATE, D, E, B, LENGTH, SLOTS };

/* The state of a process that has announced. */
#define ANNOUNCED 6u

/* The kind bytes of a frame: high byte first (generations 1 and 3), low byte first (generation 2). */
enum { HIGH_ACTIVE = 0x41, HIGH_PASSIVE = 0x42, LOW_ACTIVE = 0x61, LOW_PASSIVE = 0x62 };

static thk_told told(uint32_t number, uint32_t place)
{
    return (thk_told){number, place};
}

/* Where record j begins in a table of capacity c. */
static uint32_t record_at(uint32_t j, uint32_t c)
{
    return THK_TABLE_WORDS(j, c);
}

/* Whether identity j equals an earlier one; the identities lie `apart` words from each other. */
static int repeats(const uint32_t *identities, uint32_t apart, uint32_t j)
{
    for (uint32_t i = 0; i < j; i++) {
        if (identities[i * apart] == identities[j * apart])
            return 1;
    }
    return 0;
}

/* The first index whose identity equals an earlier one, or n. */
static uint32_t first_repeat(const uint32_t *identities, uint32_t apart, uint32_t n)
{
    uint32_t j = 0;
    while (j < n && !repeats(identities, apart, j))
        j++;
    return j;
}

/* Whether the slots are as the queue's length says: kinds 0 or 1, then zeros. */
static int slots_fit(const uint32_t *slots, uint32_t length, uint32_t c)
{
    for (uint32_t i = 0; i < length; i++) {
        if (slots[2 * i + 1] > THK_ACTIVE)
            return 0;
    }
    for (uint32_t i = 2 * length; i < 2 * c; i++) {
        if (slots[i] != 0)
            return 0;
    }
    return 1;
}

static int record_fits(const uint32_t *record, uint32_t c)
{
    return record[STATE] <= ANNOUNCED && record[B] <= THK_ACTIVE && record[LENGTH] <= c
        && slots_fit(record + SLOTS, record[LENGTH], c);
}

static int well_formed(const uint32_t *table, size_t words)
{
    if (words < 2)
        return 0;
    uint32_t n = table[0], c = table[1];
    if (n < 1 || n > THK_MOST_PROCESSES || c < 1 || c > THK_MOST_CAPACITY || words < THK_TABLE_WORDS(n, c))
        return 0;
    for (uint32_t j = 0; j < n; j++) {
        if (!record_fits(table + record_at(j, c), c))
            return 0;
    }
    return first_repeat(table + record_at(0, c) + IDENTITY, SLOTS + 2 * c, n) == n;
}

/* The lowest process that has announced, or n. */
static uint32_t lowest_announced(const uint32_t *table)
{
    uint32_t j = 0;
    while (j < table[0] && table[record_at(j, table[1]) + STATE] != ANNOUNCED)
        j++;
    return j;
}

/* Puts a message in the process's own queue and goes to the next state. */
static uint32_t put(uint32_t *own, uint32_t c, uint32_t value, uint32_t kind, uint32_t next)
{
    if (own[LENGTH] == c)
        return THK_REFUSED_FULL;
    uint32_t *slot = own + SLOTS + 2 * own[LENGTH];
    slot[0] = value;
    slot[1] = kind;
    own[LENGTH]++;
    own[STATE] = next;
    return THK_DONE;
}

/* Removes slot 0 of a queue that is not empty. */
static void drop_oldest(uint32_t *record, uint32_t c)
{
    uint32_t *slots = record + SLOTS;
    uint32_t last = 2 * (c - 1);
    memmove(slots, slots + 2, last * sizeof *slots);
    slots[last] = 0;
    slots[last + 1] = 0;
    record[LENGTH]--;
}

/* State 3 with the value taken: starts again with e, or becomes a relay. */
static void settle(uint32_t *own, uint32_t value)
{
    if (own[E] > own[D] && own[E] > value) {
        own[D] = own[E];
        own[STATE] = 0;
    } else {
        own[B] = 0;
        own[STATE] = 4;
    }
}

/* The rows that take: states 1, 3 and 4. With n = 1 both records are the same one. */
static uint32_t take(uint32_t *own, uint32_t *predecessor, uint32_t c)
{
    uint32_t state = own[STATE], value = predecessor[SLOTS], kind = predecessor[SLOTS + 1];
    if (predecessor[LENGTH] == 0)
        return THK_REFUSED_EMPTY;
    if ((state == 1 && kind == THK_PASSIVE) || (state == 3 && kind == THK_ACTIVE))
        return THK_REFUSED_WRONG_KIND;
    drop_oldest(predecessor, c);
    if (state == 1) {
        own[E] = value;
        own[STATE] = 2;
    } else if (state == 3) {
        settle(own, value);
    } else {
        own[D] = value;
        own[B] = kind;
        own[STATE] = 5;
    }
    return THK_DONE;
}

/* The row of the process's state; gives the refusal number. */
static uint32_t move_process(uint32_t *own, uint32_t *predecessor, uint32_t c)
{
    switch (own[STATE]) {
    case 0:
        return put(own, c, own[D], THK_ACTIVE, 1);
    case 2:
        if (own[D] != own[E])
            return put(own, c, own[E], THK_PASSIVE, 3);
        own[STATE] = ANNOUNCED;
        return THK_DONE;
    case 5:
        return put(own, c, own[D], own[B], 4);
    case ANNOUNCED:
        return THK_REFUSED_OVER;
    default:
        return take(own, predecessor, c);
    }
}

/* One choice on a well-formed table, which stays well-formed. */
static thk_told choose(uint32_t *table, uint32_t chosen)
{
    uint32_t n = table[0], c = table[1];
    if (chosen >= n)
        return told(THK_REFUSED_NO_PROCESS, n);
    uint32_t before = (chosen == 0 ? n : chosen) - 1;
    uint32_t number = move_process(table + record_at(chosen, c), table + record_at(before, c), c);
    return told(number, number == THK_DONE ? 0 : chosen);
}

thk_told peer_start(uint32_t *table, size_t words, const uint32_t *identities, size_t n, uint32_t capacity)
{
    if (n < 1 || n > THK_MOST_PROCESSES)
        return told(THK_REFUSED_COUNT, 0);
    if (capacity < 1 || capacity > THK_MOST_CAPACITY)
        return told(THK_REFUSED_CAPACITY, 0);
    uint32_t count = (uint32_t)n, size = THK_TABLE_WORDS(count, capacity);
    if (words < size)
        return told(THK_REFUSED_SHORT, 0);
    uint32_t repeat = first_repeat(identities, 1, count);
    if (repeat < count)
        return told(THK_REFUSED_REPEATED, repeat);

    memset(table, 0, size * sizeof *table);
    table[0] = count;
    table[1] = capacity;
    for (uint32_t j = 0; j < count; j++) {
        uint32_t *record = table + record_at(j, capacity);
        record[IDENTITY] = identities[j];
        record[D] = identities[j];
    }
    return told(THK_DONE, 0);
}

thk_told peer_step(uint32_t *table, size_t words, uint32_t chosen)
{
    if (!well_formed(table, words))
        return told(THK_REFUSED_MALFORMED, 0);
    return choose(table, chosen);
}

thk_ran peer_run(uint32_t *table, size_t words, const uint8_t *schedule, size_t length, uint32_t budget)
{
    if (!well_formed(table, words))
        return (thk_ran){THK_REFUSED_MALFORMED, 0, 0, 0};
    thk_ran ran = {THK_DONE, THK_END_OVER, 0, 0};
    int over = lowest_announced(table) < table[0];
    for (size_t used = 0; !over; used++) {
        if (used == length) {
            ran.end = THK_END_USED_UP;
            break;
        }
        if (ran.taken == budget) {
            ran.end = THK_END_SPENT;
            break;
        }
        if (choose(table, schedule[used]).number == THK_DONE) {
            ran.taken++;
            over = table[record_at(schedule[used], table[1]) + STATE] == ANNOUNCED;
        } else {
            ran.skipped++;
        }
    }
    return ran;
}

thk_leading peer_leads(const uint32_t *table, size_t words)
{
    if (!well_formed(table, words))
        return (thk_leading){THK_REFUSED_MALFORMED, 0, 0, 0};
    uint32_t process = lowest_announced(table);
    if (process == table[0])
        return (thk_leading){THK_DONE, 0, 0, 0};
    return (thk_leading){THK_DONE, 1, process, table[record_at(process, table[1]) + D]};
}

/* The word of four bytes, the highest handed in first. */
static uint32_t word_of(uint32_t b3, uint32_t b2, uint32_t b1, uint32_t b0)
{
    return b3 << 24 | b2 << 16 | b1 << 8 | b0;
}

thk_frame peer_read(const uint8_t *bytes, size_t length)
{
    if (length == 0)
        return (thk_frame){THK_REFUSED_NO_BYTE, 0, 0, 0};
    int high = bytes[0] == HIGH_ACTIVE || bytes[0] == HIGH_PASSIVE;
    int low = bytes[0] == LOW_ACTIVE || bytes[0] == LOW_PASSIVE;
    if (!high && !low)
        return (thk_frame){THK_REFUSED_UNKNOWN_KIND, 0, 0, 0};
    if (length < THK_FRAME_BYTES)
        return (thk_frame){THK_REFUSED_CUT, (uint32_t)length, 0, 0};
    uint32_t kind = bytes[0] == HIGH_ACTIVE || bytes[0] == LOW_ACTIVE ? THK_ACTIVE : THK_PASSIVE;
    uint32_t value = high ? word_of(bytes[1], bytes[2], bytes[3], bytes[4])
                          : word_of(bytes[4], bytes[3], bytes[2], bytes[1]);
    return (thk_frame){THK_DONE, 0, kind, value};
}

static void write_high_first(uint8_t *body, uint32_t value)
{
    body[0] = (uint8_t)(value >> 24);
    body[1] = (uint8_t)(value >> 16);
    body[2] = (uint8_t)(value >> 8);
    body[3] = (uint8_t)value;
}

static void write_low_first(uint8_t *body, uint32_t value)
{
    body[0] = (uint8_t)value;
    body[1] = (uint8_t)(value >> 8);
    body[2] = (uint8_t)(value >> 16);
    body[3] = (uint8_t)(value >> 24);
}

thk_told peer_write(uint8_t *bytes, size_t room, uint32_t generation, uint32_t kind, uint32_t value)
{
    if (generation < 1 || generation > 3 || kind > THK_ACTIVE)
        return told(THK_REFUSED_NO_FRAME, 0);
    if (room < THK_FRAME_BYTES)
        return told(THK_REFUSED_NO_ROOM, 0);
    if (generation == 2) {
        bytes[0] = kind == THK_ACTIVE ? LOW_ACTIVE : LOW_PASSIVE;
        write_low_first(bytes + 1, value);
    } else {
        bytes[0] = kind == THK_ACTIVE ? HIGH_ACTIVE : HIGH_PASSIVE;
        write_high_first(bytes + 1, value);
    }
    return told(THK_DONE, 0);
}
