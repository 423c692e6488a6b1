/* Ring tables to ask about: reachable, well-formed but not reachable, and spoilt ones. */
#include "tables.h"

#include "draw.h"
#include "peer.h"

#define RECORD_WORDS(c) (6u + 2u * (c))

/* Beyond the limits, so that tables of 17 and 18 processes or slots can be made. */
#define MOST_DRAWN 18u

/* A count from 1 to 16, more often a small one or the most. */
static uint32_t drawn_count(void)
{
    return draw_once_in(8) ? 16 : 1 + draw_below(draw_once_in(2) ? 4 : 16);
}

void table_reachable(ring_table *table)
{
    uint32_t n = drawn_count(), c = drawn_count(), identities[THK_MOST_PROCESSES];
    uint8_t schedule[8 * THK_MOST_PROCESSES * THK_MOST_PROCESSES];
    size_t length = draw_once_in(2) ? 0 : draw_below(8 * n * n);
    draw_distinct(identities, n);
    table->length = THK_TABLE_WORDS(n, c);
    peer_start(table->words, table->length, identities, n, c);
    for (size_t i = 0; i < length; i++)
        schedule[i] = (uint8_t)draw_below(n);
    peer_run(table->words, table->length, schedule, length, 0xFFFFFFFFu);
}

/* One of a few values of the same table and their neighbours, so that equal ones and those one apart meet. */
static uint32_t pooled(const uint32_t pool[2])
{
    uint32_t value = pool[draw_below(2)];
    return draw_once_in(8) ? draw_value() : value + draw_below(3) - 1;
}

static void fill_record(uint32_t *record, uint32_t c, uint32_t states, const uint32_t pool[2])
{
    uint32_t length = draw_once_in(3) ? 0 : draw_once_in(3) ? c : draw_below(c + 1);
    record[1] = draw_below(states);
    record[2] = pooled(pool);
    record[3] = draw_once_in(4) ? record[2] : pooled(pool);
    record[4] = draw_below(2);
    record[5] = length;
    for (uint32_t slot = 0; slot < c; slot++) {
        record[6 + 2 * slot] = slot < length ? pooled(pool) : 0;
        record[7 + 2 * slot] = slot < length ? draw_below(2) : 0;
    }
}

static void fill_table(ring_table *table, uint32_t n, uint32_t c)
{
    uint32_t identities[MOST_DRAWN], states = draw_once_in(4) ? 7 : 6;
    draw_distinct(identities, MOST_DRAWN);
    table->length = THK_TABLE_WORDS(n, c);
    table->words[0] = n;
    table->words[1] = c;
    uint32_t pool = draw_below(MOST_DRAWN - 1);
    for (uint32_t j = 0; j < n; j++) {
        uint32_t *record = table->words + 2 + j * RECORD_WORDS(c);
        record[0] = identities[j];
        fill_record(record, c, states, identities + pool);
    }
}

void table_unreachable(ring_table *table)
{
    uint32_t n = drawn_count();
    fill_table(table, n, drawn_count());
}

/* The index of a word: of the header, one of a record's six fields, or of a slot. */
static size_t drawn_index(uint32_t n, uint32_t c)
{
    size_t record = 2 + draw_below(n) * RECORD_WORDS(c);
    switch (draw_below(8)) {
    case 0: return draw_below(2);
    case 1: return record + 6 + draw_below(2 * c);
    case 2: return record + RECORD_WORDS(c) - 1 - draw_below(2);
    default: return record + draw_below(6);
    }
}

static uint32_t replaced(uint32_t word, uint32_t c)
{
    switch (draw_below(10)) {
    case 0: return 0;
    case 1: return 1;
    case 2: return 2 + draw_below(7);
    case 3: return 7;
    case 4: return word + 1;
    case 5: return word - 1;
    case 6: return c + draw_below(2);
    case 7: return word ^ ((uint32_t)1 << draw_below(32));
    case 8: return 0xFFFFFFFFu;
    default: return draw();
    }
}

/* Gives one process the identity of another; a ring of one stays as it is. */
static void repeat_identity(ring_table *table)
{
    uint32_t n = table->words[0], words = RECORD_WORDS(table->words[1]), from = draw_below(n);
    table->words[2 + draw_below(n) * words] = table->words[2 + from * words];
}

/* Makes a table well-formed but for its count of processes, its capacity or both. */
static void leave_range(ring_table *table)
{
    uint32_t n = drawn_count(), c = drawn_count(), wrong = draw_below(3);
    if (wrong != 0)
        n = draw_once_in(3) ? 0 : THK_MOST_PROCESSES + 1 + draw_below(2);
    if (wrong != 1)
        c = draw_once_in(3) ? 0 : THK_MOST_CAPACITY + 1 + draw_below(2);
    fill_table(table, n, c);
}

static void cut(ring_table *table)
{
    switch (draw_below(4)) {
    case 0: table->length = draw_below(3); break;
    case 1: table->length = draw_below((uint32_t)table->length); break;
    default: table->length -= 1; break;
    }
}

/* Makes a slice of drawn words, under the header of the table that was there or not. */
static void scatter(ring_table *table)
{
    size_t words = table->length;
    table->length = draw_below(3);
    table_lengthen(table, words);
}

void table_spoil(ring_table *table, unsigned how)
{
    uint32_t n = table->words[0], c = table->words[1];
    size_t index = drawn_index(n, c);
    switch (how) {
    case SPOIL_WORD: table->words[index] = replaced(table->words[index], c); break;
    case SPOIL_REPEAT: repeat_identity(table); break;
    case SPOIL_CUT: cut(table); break;
    case SPOIL_RANGE: leave_range(table); break;
    case SPOIL_ALL: scatter(table); break;
    default: break;
    }
}

void table_lengthen(ring_table *table, size_t words)
{
    for (size_t i = 0; i < words; i++) {
        table->words[table->length] = draw_value();
        table->length++;
    }
}
