/* Questions for both parties: an entry and what it is called with, drawn from the seed. */
#include "questions.h"

#include <string.h>

#include "draw.h"
#include "peer.h"

#define MOST_IDENTITIES 40u
#define MOST_SCHEDULE 3000u
#define MOST_FRAME_BYTES 9u

/* How many questions a ring still gets after a run has met its leader. */
#define LEFT_WHEN_OVER 8u

const char *const entry_names[ENTRIES] = {"start", "step", "run", "who leads", "read", "write"};

/* The ring that the questions go on with, and how many of them still do. */
static ring_table ring;
static unsigned questions_left;

static void renew_ring(void)
{
    static const unsigned lives[] = {1, 5, 10, 40, 400};
    if (draw_once_in(2)) {
        table_unreachable(&ring);
        questions_left = lives[draw_below(3)];
    } else {
        table_reachable(&ring);
        questions_left = lives[draw_below(5)];
    }
}

static unsigned drawn_spoil(void)
{
    static const unsigned spoils[] = {SPOIL_WORD, SPOIL_WORD, SPOIL_WORD, SPOIL_REPEAT, SPOIL_CUT,
                                      SPOIL_CUT, SPOIL_RANGE, SPOIL_ALL};
    return draw_once_in(4) ? spoils[draw_below(sizeof spoils / sizeof spoils[0])] : SPOIL_NONE;
}

/* Lends the ring, or a spoilt copy of it, with words behind it at times. */
static void ask_of_ring(question *asked)
{
    static ring_table lent;
    if (questions_left == 0)
        renew_ring();
    questions_left--;
    lent = ring;
    asked->spoilt = drawn_spoil();
    table_spoil(&lent, asked->spoilt);
    if (asked->spoilt != SPOIL_CUT && draw_once_in(3))
        table_lengthen(&lent, 1 + draw_below(40));
    asked->length[LEND_FIRST] = lent.length;
    memcpy(asked->slice[LEND_FIRST].words, lent.words, lent.length * sizeof lent.words[0]);
}

/* Repeats up to two identities at drawn indices. */
static void repeat_identities(uint32_t *identities, uint32_t n)
{
    uint32_t times = draw_below(3);
    for (uint32_t i = 0; i < times; i++) {
        uint32_t from = draw_below(n);
        identities[draw_below(n)] = identities[from];
    }
}

static uint32_t drawn_capacity(void)
{
    switch (draw_below(8)) {
    case 0: return draw_below(19);
    case 1: return draw_high_bit(1 + draw_below(16));
    case 2: return draw_value();
    default: return 1 + draw_below(16);
    }
}

/* A slice length for a start that takes so many words: one less, exact, more, or anything. */
static size_t drawn_room(size_t taken)
{
    switch (draw_below(6)) {
    case 0: return taken - 1;
    case 1: return draw_below(LEND_WORDS);
    case 2: return taken + draw_below(40);
    default: return taken;
    }
}

static void draw_start(question *asked)
{
    uint32_t n = draw_once_in(16) ? draw_below(MOST_IDENTITIES + 1) : draw_below(19), c = drawn_capacity();
    uint32_t *identities = asked->slice[LEND_SECOND].words;
    ring_table old = {.length = 0};
    draw_distinct(identities, n);
    if (n != 0 && draw_once_in(3))
        repeat_identities(identities, n);
    table_lengthen(&old, drawn_room(THK_TABLE_WORDS(n > 18 ? 1 : n, c > 18 ? 16 : c)));
    memcpy(asked->slice[LEND_FIRST].words, old.words, old.length * sizeof old.words[0]);
    asked->length[LEND_FIRST] = old.length;
    asked->length[LEND_SECOND] = n;
    asked->numbers[0] = c;
}

/* Whether a process of the ring is likely to move: there is a message for it, or room for its own. */
static int may_move(uint32_t chosen)
{
    uint32_t n = ring.words[0], c = ring.words[1];
    const uint32_t *own = ring.words + 2 + chosen * (6 + 2 * c);
    const uint32_t *before = ring.words + 2 + (chosen + n - 1) % n * (6 + 2 * c);
    int takes = own[1] == 1 || own[1] == 3 || own[1] == 4;
    return own[1] != 6 && (takes ? before[5] > 0 : own[5] < c);
}

/* A process of the ring, more often one that moves. */
static uint32_t drawn_process(void)
{
    uint32_t chosen = draw_below(ring.words[0]);
    for (unsigned tries = 0; tries < 3 && !may_move(chosen); tries++)
        chosen = draw_below(ring.words[0]);
    return chosen;
}

static void draw_step(question *asked)
{
    ask_of_ring(asked);
    uint32_t n = ring.words[0], chosen = drawn_process();
    switch (draw_below(16)) {
    case 0: chosen = draw_below(n + 2); break;
    case 1: chosen = n; break;
    case 2: chosen = draw_high_bit(chosen); break;
    case 3: chosen = draw_value(); break;
    default: break;
    }
    asked->numbers[0] = chosen;
}

static size_t drawn_schedule_length(void)
{
    static const uint32_t bounds[] = {1, 20, 20, 20, 300, 300, 300, MOST_SCHEDULE + 1};
    return draw_below(bounds[draw_below(8)]);
}

static void fill_schedule(uint8_t *schedule, size_t length, uint32_t n)
{
    uint32_t how = draw_below(8);
    for (size_t i = 0; i < length; i++) {
        uint32_t chosen = draw();
        schedule[i] = (uint8_t)(how == 0 ? chosen : how == 1 ? chosen % (n + 2) : how < 4 ? i % n : chosen % n);
    }
}

/* Sets the budget, the schedule's length or both to what the run comes to, or to one less or more. */
static void meet_the_end(question *asked)
{
    static ring_table table;
    memcpy(table.words, asked->slice[LEND_FIRST].words, sizeof table.words);
    thk_ran ran = peer_run(table.words, asked->length[LEND_FIRST], asked->slice[LEND_SECOND].bytes,
                           asked->length[LEND_SECOND], asked->numbers[0]);
    uint32_t which = draw_below(3), beside = draw_once_in(2) ? 0 : draw_below(3) - 1;
    size_t used = (size_t)(ran.taken + ran.skipped);
    if (which != 0)
        asked->numbers[0] = ran.taken + beside;
    if (which != 1 && used > 0)
        asked->length[LEND_SECOND] = used - draw_below(2);
}

static void draw_run(question *asked)
{
    ask_of_ring(asked);
    asked->length[LEND_SECOND] = drawn_schedule_length();
    fill_schedule(asked->slice[LEND_SECOND].bytes, asked->length[LEND_SECOND], ring.words[0]);
    switch (draw_below(8)) {
    case 0: asked->numbers[0] = 0; break;
    case 1: asked->numbers[0] = draw_below(20); break;
    case 2: asked->numbers[0] = draw_value(); break;
    default: asked->numbers[0] = 0xFFFFFFFFu; break;
    }
    if (draw_once_in(3))
        meet_the_end(asked);
}

/* A frame of a known kind or any, with bytes behind it, cut at any length. */
static void draw_read(question *asked)
{
    static const uint8_t known[] = {0x41, 0x42, 0x61, 0x62};
    uint8_t *bytes = asked->slice[LEND_FIRST].bytes;
    uint32_t kind = draw(), value = draw_value(), reversed = draw_below(2);
    asked->length[LEND_FIRST] = draw_below(MOST_FRAME_BYTES + 1);
    bytes[0] = kind % 3 != 0 ? known[draw_below(4)] : (uint8_t)(kind >> 24);
    for (unsigned i = 0; i < 4; i++) {
        bytes[1 + i] = (uint8_t)(value >> (reversed ? 24 - 8 * i : 8 * i));
        bytes[5 + i] = (uint8_t)draw();
    }
}

static uint32_t drawn_number(uint32_t bound)
{
    uint32_t number = draw_below(bound);
    return draw_once_in(12) ? draw_value() : draw_once_in(12) ? draw_high_bit(number) : number;
}

static void draw_write(question *asked)
{
    asked->length[LEND_FIRST] = draw_below(MOST_FRAME_BYTES + 1);
    for (size_t i = 0; i < asked->length[LEND_FIRST]; i++)
        asked->slice[LEND_FIRST].bytes[i] = (uint8_t)draw();
    asked->numbers[0] = draw_once_in(2) ? 1 + draw_below(3) : drawn_number(5);
    asked->numbers[1] = drawn_number(draw_once_in(4) ? 4 : 2);
    asked->numbers[2] = draw_value();
}

/* A slice at either end of its page; an empty one as null at times. */
static unsigned drawn_place(size_t length)
{
    if (length == 0 && draw_once_in(2))
        return LEND_AS_NULL;
    return draw_once_in(2) ? LEND_AT_BEGIN : LEND_AT_END;
}

void question_draw(question *asked)
{
    static const unsigned entries[] = {ENTRY_START, ENTRY_STEP, ENTRY_STEP, ENTRY_STEP, ENTRY_RUN,
                                       ENTRY_LEADS, ENTRY_READ, ENTRY_WRITE};
    asked->entry = entries[draw_below(sizeof entries / sizeof entries[0])];
    asked->length[LEND_SECOND] = 0;
    asked->unit[LEND_FIRST] = asked->entry == ENTRY_READ || asked->entry == ENTRY_WRITE ? 1 : 4;
    asked->unit[LEND_SECOND] = asked->entry == ENTRY_RUN ? 1 : 4;
    asked->spoilt = SPOIL_NONE;
    switch (asked->entry) {
    case ENTRY_START: draw_start(asked); break;
    case ENTRY_STEP: draw_step(asked); break;
    case ENTRY_RUN: draw_run(asked); break;
    case ENTRY_LEADS: ask_of_ring(asked); break;
    case ENTRY_READ: draw_read(asked); break;
    default: draw_write(asked); break;
    }
    asked->place[LEND_FIRST] = drawn_place(asked->length[LEND_FIRST]);
    asked->place[LEND_SECOND] = drawn_place(asked->length[LEND_SECOND]);
}

unsigned question_slices(const question *asked)
{
    return asked->entry == ENTRY_START || asked->entry == ENTRY_RUN ? 2 : 1;
}

void question_follow(const question *asked, const answer *given, const uint32_t *table)
{
    if (asked->spoilt != SPOIL_NONE || (asked->entry != ENTRY_STEP && asked->entry != ENTRY_RUN))
        return;
    memcpy(ring.words, table, ring.length * sizeof ring.words[0]);
    if (asked->entry == ENTRY_RUN && given->field[RAN_END] == THK_END_OVER && questions_left > LEFT_WHEN_OVER)
        questions_left = LEFT_WHEN_OVER;
}
