/* The deepest stack of each entry, product's and peer's, in bytes below the return address of the call. */
#define _XOPEN_SOURCE 700
#include "inputs.h"

#include <stdio.h>
#include <string.h>
#include <ucontext.h>

#define STACK_BYTES 262144u
/* Keeps what leaving the painted stack writes above what the calls write. */
#define GAP_BYTES 4096u
#define NUMBERS 16u
#define STATES 7u

struct side {
    thk_told (*start)(uint32_t *table, size_t words, const uint32_t *identities, size_t n, uint32_t capacity);
    thk_told (*step)(uint32_t *table, size_t words, uint32_t chosen);
    thk_ran (*run)(uint32_t *table, size_t words, const uint8_t *schedule, size_t length, uint32_t budget);
    thk_leading (*leads)(const uint32_t *table, size_t words);
    thk_frame (*read)(const uint8_t *bytes, size_t length);
    thk_told (*write)(uint8_t *bytes, size_t room, uint32_t generation, uint32_t kind, uint32_t value);
    void (*nothing)(void);
};

/* How often each class was met: numbers by entry, ends of runs, without and with a leader, moves between states. */
struct met { uint32_t numbers[ENTRIES][NUMBERS], ends[3], leaders[2], moves[STATES][STATES]; };

/* What must be among the inputs: an entry and a number that it answers, and a move from a state to another. */
struct answer { enum entry entry; uint32_t number; };
struct move { uint32_t from, to; };

static void nothing(void)
{
}

static const struct side sides[2] = {
    { thk_start, thk_step, thk_run, thk_leads, thk_read, thk_write, nothing },
    { peer_start, peer_step, peer_run, peer_leads, peer_read, peer_write, nothing },
};
static const char *const names[ENTRIES] = { "start", "step", "run", "leads", "read", "write" };
static const struct answer answers[] = {
    { START, 0 }, { START, 1 }, { START, 2 }, { START, 3 }, { START, 4 },
    { STEP, 0 }, { STEP, 5 }, { STEP, 6 }, { STEP, 7 }, { STEP, 8 }, { STEP, 9 }, { STEP, 10 },
    { RUN, 0 }, { RUN, 5 }, { LEADS, 0 }, { LEADS, 5 },
    { READ, 0 }, { READ, 11 }, { READ, 12 }, { READ, 13 }, { WRITE, 0 }, { WRITE, 14 }, { WRITE, 15 },
};
static const struct move moves[] = { { 0, 1 }, { 1, 2 }, { 2, 6 }, { 2, 3 }, { 3, 0 }, { 3, 4 }, { 4, 5 }, { 5, 4 } };

static unsigned char stack[STACK_BYTES];
static ucontext_t outside, inside;

/* The call to be made on the painted stack and what it gives; the entry ENTRIES calls nothing. */
static size_t who;
static enum entry entry;
static struct input *input;
static thk_told told;
static thk_ran ran;
static thk_leading leading;
static thk_frame frame;
static uint32_t table_before[THK_MOST_WORDS];
static struct met met[2];

/* The gap is read after the call, so that it still stands during the call. */
static void on_painted_stack(void)
{
    volatile unsigned char gap[GAP_BYTES];
    const struct side *side = &sides[who];
    gap[0] = 0;
    switch (entry) {
    case START:
        told = side->start(input->table, input->words, input->identities, input->n, input->capacity);
        break;
    case STEP:
        told = side->step(input->table, input->words, input->chosen);
        break;
    case RUN:
        ran = side->run(input->table, input->words, input->bytes, input->length, input->budget);
        break;
    case LEADS:
        leading = side->leads(input->table, input->words);
        break;
    case READ:
        frame = side->read(input->bytes, input->length);
        break;
    case WRITE:
        told = side->write(input->bytes, input->length, input->generation, input->kind, input->value);
        break;
    default:
        side->nothing();
    }
    (void)gap[0];
}

static int entered(void)
{
    if (getcontext(&inside) != 0)
        return 0;
    inside.uc_stack.ss_sp = stack;
    inside.uc_stack.ss_size = sizeof stack;
    inside.uc_link = &outside;
    makecontext(&inside, on_painted_stack, 0);
    return swapcontext(&outside, &inside) == 0;
}

static uint32_t number_given(void)
{
    switch (entry) {
    case RUN:
        return ran.number;
    case LEADS:
        return leading.number;
    case READ:
        return frame.number;
    default:
        return told.number;
    }
}

static void count(struct met *counts)
{
    uint32_t number = number_given();
    if (number < NUMBERS)
        counts->numbers[entry][number]++;
    if (number != THK_DONE)
        return;
    if (entry == RUN && ran.end <= THK_END_SPENT)
        counts->ends[ran.end]++;
    if (entry == LEADS && leading.some <= 1)
        counts->leaders[leading.some]++;
    if (entry == STEP)
        counts->moves[state_of(table_before, input->chosen)][state_of(input->table, input->chosen)]++;
}

static void use(struct input *made)
{
    input = made;
    memcpy(table_before, made->table, sizeof table_before);
    if (!entered())
        return;
    count(&met[who]);
}

/* The bytes from the top of the stack down to the lowest that differs from the paint. */
static size_t depth(unsigned char paint)
{
    size_t untouched = 0;
    while (untouched < sizeof stack && stack[untouched] == paint)
        untouched++;
    return sizeof stack - untouched;
}

/* The depth that the calls of an entry leave in one paint; 0 where they could not be made. */
static size_t painted(enum entry of, unsigned char paint)
{
    memset(stack, paint, sizeof stack);
    entry = of;
    return (of == ENTRIES ? entered() : each_input(of, use)) ? depth(paint) : 0;
}

/* By two paints, since the deepest byte written may be like one of them. */
static size_t deepest(enum entry of)
{
    size_t one = painted(of, 0xA5), other = painted(of, 0x5A);
    return one > other ? one : other;
}

static int all_met(const struct met *counts)
{
    size_t missing = 0;
    for (size_t i = 0; i < sizeof answers / sizeof answers[0]; i++)
        missing += counts->numbers[answers[i].entry][answers[i].number] == 0;
    for (size_t i = 0; i < sizeof moves / sizeof moves[0]; i++)
        missing += counts->moves[moves[i].from][moves[i].to] == 0;
    for (size_t i = 0; i <= THK_END_SPENT; i++)
        missing += counts->ends[i] == 0;
    return missing == 0 && counts->leaders[0] != 0 && counts->leaders[1] != 0;
}

static int measured(enum entry of, size_t nothing_takes)
{
    size_t depths[2];
    for (who = 0; who < 2; who++) {
        depths[who] = deepest(of);
        if (depths[who] < nothing_takes)
            return 0;
    }
    printf("stack %s %zu %zu\n", names[of], depths[0] - nothing_takes, depths[1] - nothing_takes);
    return 1;
}

int main(void)
{
    size_t nothing_takes = deepest(ENTRIES);
    for (size_t of = 0; of < ENTRIES; of++)
        if (!measured((enum entry)of, nothing_takes)) {
            fprintf(stderr, "stack: %s: no depth found\n", names[of]);
            return 1;
        }
    if (!all_met(&met[1])) {
        fprintf(stderr, "stack: the inputs do not reach every answer and every move\n");
        return 1;
    }
    if (memcmp(&met[0], &met[1], sizeof met[0]) != 0) {
        fprintf(stderr, "stack: product and peer differ\n");
        return 1;
    }
    return 0;
}
