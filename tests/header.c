/* What include/thuyrekho.h declares, held against document 01: numbers, sizes, places of fields, types of entries. */
#include "thuyrekho.h"

#define HOLDS(name, condition) typedef char name[(condition) ? 1 : -1]

#if THK_MOST_PROCESSES != 16 || THK_MOST_CAPACITY != 16
#error "limits"
#endif
#if THK_TABLE_WORDS(1, 1) != 10 || THK_TABLE_WORDS(16, 16) != 610 || THK_MOST_WORDS != 610
#error "table sizes"
#endif
#if THK_TABLE_WORDS(1 + 1, 1 + 2) != 26 || 2 * THK_TABLE_WORDS(1, 1) != 20
#error "table size of sums"
#endif
#if THK_MOST_MOVES(1) != 6 || THK_MOST_MOVES(16) != 1536 || THK_MOST_MOVES(1 + 2) != 54 || 600 / THK_MOST_MOVES(5) != 4
#error "most moves"
#endif
#if THK_FRAME_BYTES != 5
#error "frame bytes"
#endif
#if THK_PASSIVE != 0 || THK_ACTIVE != 1
#error "kinds"
#endif
#if THK_DONE != 0
#error "done"
#endif
#if THK_REFUSED_COUNT != 1 || THK_REFUSED_CAPACITY != 2 || THK_REFUSED_SHORT != 3 || THK_REFUSED_REPEATED != 4
#error "refusals of start"
#endif
#if THK_REFUSED_MALFORMED != 5 || THK_REFUSED_NO_PROCESS != 6 || THK_REFUSED_EMPTY != 7 || THK_REFUSED_FULL != 8
#error "refusals of step"
#endif
#if THK_REFUSED_WRONG_KIND != 9 || THK_REFUSED_OVER != 10
#error "refusals of step"
#endif
#if THK_REFUSED_NO_BYTE != 11 || THK_REFUSED_UNKNOWN_KIND != 12 || THK_REFUSED_CUT != 13
#error "refusals of read"
#endif
#if THK_REFUSED_NO_ROOM != 14 || THK_REFUSED_NO_FRAME != 15
#error "refusals of write"
#endif
#if THK_END_USED_UP != 0 || THK_END_OVER != 1 || THK_END_SPENT != 2
#error "ends"
#endif

HOLDS(told_size, sizeof(thk_told) == 8);
HOLDS(told_number, offsetof(thk_told, number) == 0);
HOLDS(told_place, offsetof(thk_told, place) == 4);

HOLDS(ran_size, sizeof(thk_ran) == 24);
HOLDS(ran_number, offsetof(thk_ran, number) == 0);
HOLDS(ran_end, offsetof(thk_ran, end) == 4);
HOLDS(ran_taken, offsetof(thk_ran, taken) == 8);
HOLDS(ran_skipped, offsetof(thk_ran, skipped) == 16);

HOLDS(leading_size, sizeof(thk_leading) == 16);
HOLDS(leading_number, offsetof(thk_leading, number) == 0);
HOLDS(leading_some, offsetof(thk_leading, some) == 4);
HOLDS(leading_process, offsetof(thk_leading, process) == 8);
HOLDS(leading_value, offsetof(thk_leading, value) == 12);

HOLDS(frame_size, sizeof(thk_frame) == 16);
HOLDS(frame_number, offsetof(thk_frame, number) == 0);
HOLDS(frame_place, offsetof(thk_frame, place) == 4);
HOLDS(frame_kind, offsetof(thk_frame, kind) == 8);
HOLDS(frame_value, offsetof(thk_frame, value) == 12);

/* The macros as sizes of arrays. */
uint32_t least_table[THK_TABLE_WORDS(1, 1)];
uint32_t most_table[THK_MOST_WORDS];
uint8_t frame_bytes[THK_FRAME_BYTES];
HOLDS(least_table_size, sizeof least_table == 40);
HOLDS(most_table_size, sizeof most_table == 2440);
HOLDS(frame_bytes_size, sizeof frame_bytes == 5);

/* A pointer to a field is one to its type: a field of another type fails to compile. */
thk_told told;
thk_ran ran;
thk_leading leading;
thk_frame frame;
const uint32_t *words_of_answers[] = {
    &told.number, &told.place,
    &ran.number, &ran.end, &ran.taken,
    &leading.number, &leading.some, &leading.process, &leading.value,
    &frame.number, &frame.place, &frame.kind, &frame.value,
};
const uint64_t *skipped_of_ran = &ran.skipped;

/* The entries by their types: another type fails to compile. */
thk_told (*start)(uint32_t *, size_t, const uint32_t *, size_t, uint32_t) = thk_start;
thk_told (*step)(uint32_t *, size_t, uint32_t) = thk_step;
thk_ran (*run)(uint32_t *, size_t, const uint8_t *, size_t, uint32_t) = thk_run;
thk_leading (*leads)(const uint32_t *, size_t) = thk_leads;
thk_frame (*read_frame)(const uint8_t *, size_t) = thk_read;
thk_told (*write_frame)(uint8_t *, size_t, uint32_t, uint32_t, uint32_t) = thk_write;

/* Declared a second time: an entry that was not declared as C's fails to compile. */
#ifdef __cplusplus
extern "C" {
thk_told thk_start(uint32_t *, size_t, const uint32_t *, size_t, uint32_t);
thk_told thk_step(uint32_t *, size_t, uint32_t);
thk_ran thk_run(uint32_t *, size_t, const uint8_t *, size_t, uint32_t);
thk_leading thk_leads(const uint32_t *, size_t);
thk_frame thk_read(const uint8_t *, size_t);
thk_told thk_write(uint8_t *, size_t, uint32_t, uint32_t, uint32_t);
}
#endif
