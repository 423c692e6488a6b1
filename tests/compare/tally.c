/* How often each class of question and answer was met. */
#include "tally.h"

#include <inttypes.h>
#include <stdio.h>

#include "thuyrekho.h"

#define REFUSALS 16u
#define ENDS 3u
#define PAIRS 3u
#define MOVES 8u
#define KINDS 256u
#define SLICES_PLACES (LEND_SLICES * LEND_PLACES)

static const char *const end_names[ENDS] = {"0, used up", "1, over", "2, spent"};
static const char *const pair_names[PAIRS] = {"1, also used up", "1, also spent", "0, also spent"};
static const char *const leader_names[2] = {"none", "some"};
static const char *const move_names[MOVES] = {"0 to 1", "1 to 2", "2 to 6", "2 to 3",
                                              "3 to 0", "3 to 4", "4 to 5", "5 to 4"};
static const char *const spoil_names[SPOILS] = {"as it is", "one word replaced", "an identity repeated",
                                                "cut", "n or c out of range", "drawn words"};
static const char *const place_names[SLICES_PLACES] = {"first, at begin", "first, at end", "first, null",
                                                       "second, at begin", "second, at end", "second, null"};
static const char *const empty_names[LEND_PLACES] = {"at begin", "at end", "null"};

static struct {
    uint64_t done[ENTRIES], refused[ENTRIES], refusals[REFUSALS], kinds[KINDS];
    uint64_t ends[ENDS], pairs[PAIRS], leader[2], moves[MOVES], spoilt[SPOILS];
    uint64_t places[SLICES_PLACES], empty[LEND_PLACES];
} met;

/* Counts a run's end, and where two ends hold at once, of which the first is given. */
static void tally_run(const question *asked, const answer *given)
{
    uint64_t end = given->field[RAN_END];
    int used_up = given->field[RAN_TAKEN] + given->field[RAN_SKIPPED] == asked->length[LEND_SECOND];
    int spent = given->field[RAN_TAKEN] == asked->numbers[0];
    met.ends[end]++;
    met.pairs[0] += end == THK_END_OVER && used_up;
    met.pairs[1] += end == THK_END_OVER && spent;
    met.pairs[2] += end == THK_END_USED_UP && spent;
}

/* Counts a move by the chosen process's states before and after. */
static void tally_move(const question *asked, const uint32_t *left)
{
    static const uint32_t before[MOVES] = {0, 1, 2, 2, 3, 3, 4, 5}, after[MOVES] = {1, 2, 6, 3, 0, 4, 5, 4};
    const uint32_t *words = asked->slice[LEND_FIRST].words;
    size_t state = 3 + asked->numbers[0] * (6 + 2 * (size_t)words[1]);
    for (unsigned i = 0; i < MOVES && state < asked->length[LEND_FIRST]; i++)
        met.moves[i] += words[state] == before[i] && left[state] == after[i];
}

static void tally_answer(const question *asked, const answer *given, const uint32_t *left)
{
    if (given->field[GIVEN_NUMBER] != THK_DONE) {
        met.refused[asked->entry]++;
        met.refusals[given->field[GIVEN_NUMBER]]++;
        return;
    }
    met.done[asked->entry]++;
    switch (asked->entry) {
    case ENTRY_STEP: tally_move(asked, left); break;
    case ENTRY_RUN: tally_run(asked, given); break;
    case ENTRY_LEADS: met.leader[given->field[LEADING_SOME]]++; break;
    default: break;
    }
}

static void tally_question(const question *asked)
{
    if (asked->entry == ENTRY_STEP || asked->entry == ENTRY_RUN || asked->entry == ENTRY_LEADS)
        met.spoilt[asked->spoilt]++;
    if (asked->entry == ENTRY_READ && asked->length[LEND_FIRST] != 0)
        met.kinds[asked->slice[LEND_FIRST].bytes[0]]++;
    for (unsigned slice = 0; slice < question_slices(asked); slice++) {
        met.places[slice * LEND_PLACES + asked->place[slice]]++;
        met.empty[asked->place[slice]] += asked->length[slice] == 0;
    }
}

void tally(const question *asked, const answer *given, const uint32_t *left)
{
    tally_answer(asked, given, left);
    tally_question(asked);
}

/* Prints one count with its name, and gives whether it is 0. */
static unsigned print_count(const char *of, const char *name, uint64_t count)
{
    printf("%-14s %-22s %11" PRIu64 "%s\n", of, name, count, count == 0 ? "  never met" : "");
    return count == 0;
}

static unsigned print_counts(const char *of, const char *const *names, const uint64_t *counts, unsigned many)
{
    unsigned missing = 0;
    for (unsigned i = 0; i < many; i++)
        missing += print_count(of, names[i], counts[i]);
    return missing;
}

static unsigned print_entries(void)
{
    unsigned missing = 0;
    printf("%-10s %11s %11s %11s\n", "entry", "calls", "done", "refused");
    for (unsigned i = 0; i < ENTRIES; i++) {
        printf("%-10s %11" PRIu64 " %11" PRIu64 " %11" PRIu64 "\n", entry_names[i], met.done[i] + met.refused[i],
               met.done[i], met.refused[i]);
        missing += met.done[i] == 0 || met.refused[i] == 0;
    }
    return missing;
}

static unsigned print_refusals(void)
{
    unsigned missing = 0;
    for (unsigned i = 1; i < REFUSALS; i++) {
        char name[12];
        snprintf(name, sizeof name, "%u", i);
        missing += print_count("refusal", name, met.refusals[i]);
    }
    return missing;
}

/* Gives how many kind bytes were never read. */
static unsigned print_kinds(void)
{
    unsigned seen = 0;
    for (unsigned i = 0; i < KINDS; i++)
        seen += met.kinds[i] != 0;
    printf("%-14s %-22s %11u of %u\n", "kind bytes", "different", seen, KINDS);
    return KINDS - seen;
}

unsigned tally_print(void)
{
    unsigned missing = print_entries() + print_refusals();
    missing += print_counts("end", end_names, met.ends, ENDS);
    missing += print_counts("end", pair_names, met.pairs, PAIRS);
    missing += print_counts("leader", leader_names, met.leader, 2);
    missing += print_counts("move", move_names, met.moves, MOVES);
    missing += print_counts("table", spoil_names, met.spoilt, SPOILS);
    missing += print_counts("slice", place_names, met.places, SLICES_PLACES);
    missing += print_counts("empty slice", empty_names, met.empty, LEND_PLACES);
    missing += print_kinds();
    return missing;
}
