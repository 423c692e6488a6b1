/* Calls the product and the peer on equal inputs and compares every result and every lent word and byte. */
#define _DEFAULT_SOURCE 1
#include <inttypes.h>
#include <setjmp.h>
#include <signal.h>
#include <stdio.h>
#include <stdlib.h>
#include <string.h>

#include "compare/draw.h"
#include "compare/lend.h"
#include "compare/questions.h"
#include "compare/tally.h"
#include "peer.h"
#include "thuyrekho.h"

#define DEFAULT_SEED 1u
#define DEFAULT_CALLS 5000000u

typedef struct {
    thk_told (*start)(uint32_t *, size_t, const uint32_t *, size_t, uint32_t);
    thk_told (*step)(uint32_t *, size_t, uint32_t);
    thk_ran (*run)(uint32_t *, size_t, const uint8_t *, size_t, uint32_t);
    thk_leading (*leads)(const uint32_t *, size_t);
    thk_frame (*read)(const uint8_t *, size_t);
    thk_told (*write)(uint8_t *, size_t, uint32_t, uint32_t, uint32_t);
} party;

static const party parties[LEND_PARTIES] = {
    {peer_start, peer_step, peer_run, peer_leads, peer_read, peer_write},
    {thk_start, thk_step, thk_run, thk_leads, thk_read, thk_write},
};
static const char *const slice_names[ENTRIES][LEND_SLICES] = {
    {"table", "identities"}, {"table"}, {"table", "schedule"}, {"table"}, {"frame"}, {"frame"},
};
static const char *const number_names[ENTRIES][3] = {
    {"capacity"}, {"chosen"}, {"budget"}, {NULL}, {NULL}, {"generation", "kind", "value"},
};
static const char *const field_names[ENTRIES][4] = {
    {"number", "place"}, {"number", "place"}, {"number", "end", "taken", "skipped"},
    {"number", "some", "process", "value"}, {"number", "place", "kind", "value"}, {"number", "place"},
};
static const char *const party_names[] = {"the peer", "the product", "the comparison"};

/* The call that is made now, so that a crash can be told; asking is LEND_PARTIES while no party is at work. */
static question asked;
static answer given[LEND_PARTIES];
static uint64_t seed = DEFAULT_SEED, calls = DEFAULT_CALLS, call;
static volatile sig_atomic_t asking = LEND_PARTIES, asked_again, crash_signal;
static sigjmp_buf crashed;

static answer of_told(thk_told told)
{
    return (answer){{told.number, told.place}};
}

static answer of_ran(thk_ran ran)
{
    return (answer){{ran.number, ran.end, ran.taken, ran.skipped}};
}

static answer of_leading(thk_leading leading)
{
    return (answer){{leading.number, leading.some, leading.process, leading.value}};
}

static answer of_frame(thk_frame frame)
{
    return (answer){{frame.number, frame.place, frame.kind, frame.value}};
}

/* Makes the call; what the entry takes for reading is lent in read-only memory. */
static answer ask(unsigned who, unsigned view)
{
    const party *to = &parties[who];
    const uint32_t *numbers = asked.numbers;
    void *first = lend_pointer(LEND_FIRST, who, view);
    const void *to_read = lend_pointer(LEND_FIRST, who, LEND_TO_READ);
    const void *second = lend_pointer(LEND_SECOND, who, LEND_TO_READ);
    size_t length = asked.length[LEND_FIRST], second_length = asked.length[LEND_SECOND];
    answer got;
    asking = (sig_atomic_t)who;
    switch (asked.entry) {
    case ENTRY_START: got = of_told(to->start(first, length, second, second_length, numbers[0])); break;
    case ENTRY_STEP: got = of_told(to->step(first, length, numbers[0])); break;
    case ENTRY_RUN: got = of_ran(to->run(first, length, second, second_length, numbers[0])); break;
    case ENTRY_LEADS: got = of_leading(to->leads(to_read, length)); break;
    case ENTRY_READ: got = of_frame(to->read(to_read, length)); break;
    default: got = of_told(to->write(first, length, numbers[0], numbers[1], numbers[2])); break;
    }
    asking = LEND_PARTIES;
    return got;
}

/* Whether the document has such an answer, so that it can be counted. */
static int is_known(const answer *of)
{
    return of->field[GIVEN_NUMBER] <= THK_REFUSED_NO_FRAME &&
           (asked.entry != ENTRY_RUN || of->field[RAN_END] <= THK_END_SPENT) &&
           (asked.entry != ENTRY_LEADS || of->field[LEADING_SOME] <= 1);
}

/* What is wrong with a slice after the call, or null. */
static const char *slice_trouble(unsigned slice)
{
    if (lend_differs(slice))
        return "a lent slice differs";
    if (lend_spilt(slice, LEND_PRODUCT))
        return "the product wrote outside of a lent slice";
    if (lend_spilt(slice, LEND_PEER))
        return "the peer wrote outside of a lent slice";
    if (given[LEND_PEER].field[GIVEN_NUMBER] != THK_DONE && lend_changed(slice, LEND_PEER, asked.slice[slice].bytes))
        return "both wrote in a refusal";
    return NULL;
}

/* What is wrong with the answers and the slices after both calls, or null. */
static const char *trouble(void)
{
    const char *found = NULL;
    if (memcmp(&given[LEND_PEER], &given[LEND_PRODUCT], sizeof given[LEND_PEER]) != 0)
        return "the answers differ";
    if (!is_known(&given[LEND_PEER]))
        return "both gave an answer that the document has not";
    for (unsigned slice = 0; slice < question_slices(&asked) && found == NULL; slice++)
        found = slice_trouble(slice);
    return found;
}

/* Asks the next question; a refusal once more, in memory that no one can write. */
static const char *compare_call(void)
{
    question_draw(&asked);
    for (unsigned slice = 0; slice < LEND_SLICES; slice++)
        lend(slice, asked.slice[slice].bytes, asked.length[slice] * asked.unit[slice], asked.place[slice]);
    asked_again = 0;
    given[LEND_PEER] = ask(LEND_PEER, LEND_TO_WRITE);
    given[LEND_PRODUCT] = ask(LEND_PRODUCT, LEND_TO_WRITE);
    const char *found = trouble();
    if (found == NULL && given[LEND_PEER].field[GIVEN_NUMBER] != THK_DONE) {
        asked_again = 1;
        given[LEND_PRODUCT] = ask(LEND_PRODUCT, LEND_TO_READ);
        found = trouble();
    }
    if (found == NULL) {
        const uint32_t *left = lend_pointer(LEND_FIRST, LEND_PEER, LEND_TO_READ);
        tally(&asked, &given[LEND_PEER], left);
        question_follow(&asked, &given[LEND_PEER], left);
        lend_back(LEND_FIRST);
        lend_back(LEND_SECOND);
    }
    return found;
}

/* A word or byte of a slice's contents. */
static uint32_t unit_at(unsigned slice, const void *contents, size_t index)
{
    return asked.unit[slice] == 1 ? ((const uint8_t *)contents)[index] : ((const uint32_t *)contents)[index];
}

static void print_slice(unsigned slice)
{
    static const char *const places[LEND_PLACES] = {"after an unreadable page", "before an unreadable page", "null"};
    printf("%s, %zu %s, %s:", slice_names[asked.entry][slice], asked.length[slice],
           asked.unit[slice] == 1 ? "bytes" : "words", places[asked.place[slice]]);
    for (size_t i = 0; i < asked.length[slice]; i++)
        printf(" %" PRIu32, unit_at(slice, asked.slice[slice].bytes, i));
    printf("\n");
}

/* Prints each word or byte that the product or the peer changed otherwise than the other. */
static void print_differences(unsigned slice)
{
    const void *peer = lend_pointer(slice, LEND_PEER, LEND_TO_READ);
    const void *product = lend_pointer(slice, LEND_PRODUCT, LEND_TO_READ);
    for (size_t i = 0; i < asked.length[slice]; i++) {
        uint32_t was = unit_at(slice, asked.slice[slice].bytes, i);
        uint32_t of_peer = unit_at(slice, peer, i), of_product = unit_at(slice, product, i);
        if (of_peer != of_product) {
            printf("%s at %zu: was %" PRIu32 ", the peer left %" PRIu32 ", the product left %" PRIu32 "\n",
                   slice_names[asked.entry][slice], i, was, of_peer, of_product);
        }
    }
}

static void print_answer(unsigned who)
{
    printf("%s gave:", party_names[who]);
    for (unsigned i = 0; i < 4 && field_names[asked.entry][i] != NULL; i++)
        printf(" %s %" PRIu64, field_names[asked.entry][i], given[who].field[i]);
    printf("\n");
}

/* Prints the call and what is known of its outcome, so that it can be made again. */
static void report(const char *found)
{
    printf("%s: %s\n", entry_names[asked.entry], found);
    printf("seed %" PRIu64 ", call %" PRIu64 "; to make it again: compare %" PRIu64 " %" PRIu64 "\n", seed, call, seed,
           call);
    for (unsigned slice = 0; slice < question_slices(&asked); slice++)
        print_slice(slice);
    for (unsigned i = 0; i < 3 && number_names[asked.entry][i] != NULL; i++)
        printf("%s %" PRIu32 "\n", number_names[asked.entry][i], asked.numbers[i]);
    if (asking != LEND_PEER)
        print_answer(LEND_PEER);
    if (asking == LEND_PARTIES)
        print_answer(LEND_PRODUCT);
    for (unsigned slice = 0; slice < question_slices(&asked); slice++)
        print_differences(slice);
}

/* Makes the calls up to the first difference, and prints how often each class was met. */
static int compare_calls(void)
{
    const char *found = NULL;
    while (call < calls && found == NULL) {
        call++;
        found = compare_call();
    }
    if (found != NULL) {
        report(found);
        return 0;
    }
    printf("seed %" PRIu64 ", %" PRIu64 " calls, no difference\n", seed, calls);
    unsigned missing = tally_print();
    if (missing != 0)
        printf("%u classes were never met\n", missing);
    return missing == 0;
}

static void on_crash(int number)
{
    crash_signal = number;
    siglongjmp(crashed, 1);
}

static void catch_crashes(void)
{
    static const int signals[] = {SIGSEGV, SIGBUS, SIGILL, SIGFPE, SIGTRAP, SIGABRT};
    struct sigaction action;
    memset(&action, 0, sizeof action);
    action.sa_handler = on_crash;
    for (size_t i = 0; i < sizeof signals / sizeof signals[0]; i++)
        sigaction(signals[i], &action, NULL);
}

static int report_crash(void)
{
    char found[80];
    snprintf(found, sizeof found, "%s was stopped by signal %d%s", party_names[asking], (int)crash_signal,
             asked_again ? " (a refusal may not write)" : "");
    report(found);
    return EXIT_FAILURE;
}

/* Reads an argument that is a whole number. */
static int read_number(const char *text, uint64_t *number)
{
    char *end;
    *number = strtoull(text, &end, 0);
    return *text != '\0' && *end == '\0';
}

int main(int argc, char **argv)
{
    if (argc > 3 || (argc > 1 && !read_number(argv[1], &seed)) || (argc > 2 && !read_number(argv[2], &calls))) {
        fprintf(stderr, "usage: compare [SEED [CALLS]]\n");
        return 2;
    }
    if (!lend_open()) {
        perror("compare: no memory to lend");
        return EXIT_FAILURE;
    }
    draw_seed(seed);
    if (sigsetjmp(crashed, 1) != 0)
        return report_crash();
    catch_crashes();
    return compare_calls() ? EXIT_SUCCESS : EXIT_FAILURE;
}
