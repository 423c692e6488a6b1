/* thuyrekho.h: gateways on a ring elect an owner; what a hub's firmware must know to call the library.
 *
 * A ring has 1 to 16 processes, one per gateway, numbered from 0. Each has an identity, a 32-bit number that no other
 * has, and sends messages to the next process; the last sends to process 0. The hub keeps the whole ring in one table
 * and moves one process at a time, in any order, until one announces: it leads, and its gateway is the owner. A hub
 *   - reads an identity frame of each gateway with thk_read, in either byte order (an identity frame is active);
 *   - starts a table from the identities with thk_start;
 *   - moves the processes with thk_run by a schedule, or one by one with thk_step;
 *   - asks who leads with thk_leads;
 *   - tells the gateways by frames that thk_write makes.
 * examples/hub.c does all of this.
 *
 * The following holds for every entry.
 *
 * Lent memory. A pointer and the length after it lend a slice to the call: of words (uint32_t) for a table and for
 * identities, of bytes for a schedule and for frames. A pointer to const is lent for reading, any other for reading
 * and writing. During the call
 *   - the whole slice must be memory that may be read, and written where it is lent for writing; an entry reads and
 *     writes nothing outside the slices;
 *   - a pointer to words must be aligned as uint32_t is; a pointer to bytes may have any alignment;
 *   - a pointer may be null exactly where its length is 0: that is an empty slice, and nothing is read or written
 *     through it;
 *   - the slices lent to one call must not overlap;
 *   - nothing else (thread, interrupt, DMA) may write a slice that is lent for reading, nor read or write a slice that
 *     is lent for writing.
 * No pointer is kept after the call. What the words and bytes of a slice hold is up to the caller: no content, damaged
 * or not, makes an entry do more than answer as below.
 *
 * State. The library has no data of its own that it writes, and allocates nothing; all that it knows stands in the lent
 * slices. The entries are reentrant: threads and interrupts may call them at the same time, each with slices as above.
 * Of the C library it calls memmove and memset alone. The archive is for x86-64 and C's usual calls there (System V).
 *
 * Answers. Every entry returns a struct by value. Its field number is THK_DONE or a refusal number. A refusal writes no
 * word and no byte, and every field of the struct other than number and place is then 0. Look at number first.
 */
#ifndef THUYREKHO_H
#define THUYREKHO_H

#include <stddef.h>
#include <stdint.h>

#ifdef __cplusplus
extern "C" {
#endif

/* The table
 *
 * A plain array of words, for the caller to provide: static, on a stack or anywhere. It may be copied and kept, and a
 * copy goes on from where it was made. The words are in the machine's own byte order. A caller must not look into the
 * table nor change its words: thk_leads gives what there is to know. A slice may be longer than its table; words beyond
 * the table are neither read nor written.
 */

/* The most processes of a ring, and the most messages that the queue between two of them can be given room for. The
 * least is 1 for both.
 */
#define THK_MOST_PROCESSES 16u
#define THK_MOST_CAPACITY 16u

/* How many words a table of n processes with capacity c takes: 10 for 1 and 1, 610 for 16 and 16. For n and c from 1 to
 * 16; each is evaluated once. Constant for constant n and c: fit for #if and for the size of an array.
 */
#define THK_TABLE_WORDS(n, c) (2u + (n) * (6u + 2u * (c)))

/* How many words are enough for every table: 610. */
#define THK_MOST_WORDS THK_TABLE_WORDS(THK_MOST_PROCESSES, THK_MOST_CAPACITY)

/* A number of moves that is enough for an election of n processes: a table that was started by thk_start and since then
 * changed only by thk_step and thk_run has a leader after at most so many moves, in whatever order they were chosen.
 * For n from 1 to 16, which is evaluated twice. Constant for constant n.
 */
#define THK_MOST_MOVES(n) (6u * (n) * (n))

/* Frames
 *
 * A frame is one byte of kind and four bytes of value, THK_FRAME_BYTES in all.
 *
 *   generation   active   passive   value
 *   1 and 3      0x41     0x42      high byte first
 *   2            0x61     0x62      low byte first
 *
 * The kind byte alone tells the order: the reader need not know which generation sent a frame.
 */
#define THK_FRAME_BYTES 5u

/* The kinds of a message, in thk_frame.kind and for thk_write. A frame that gives a gateway's identity is active;
 * thk_read takes passive ones too, so a hub that expects an identity must test for THK_ACTIVE.
 */
#define THK_PASSIVE 0u
#define THK_ACTIVE 1u

/* Done: the entry did what it was asked to, and place is 0. */
#define THK_DONE 0u

/* Refusals: what each means, the place that comes with it where that is not 0, and what to do. */

/* thk_start: there are no identities, or more than THK_MOST_PROCESSES. Lend 1 to 16 of them. */
#define THK_REFUSED_COUNT 1u

/* thk_start: the capacity is 0 or above THK_MOST_CAPACITY. Pass 1 to 16. */
#define THK_REFUSED_CAPACITY 2u

/* thk_start: the slice for the table is too short. Lend THK_TABLE_WORDS(n, capacity) words or more. */
#define THK_REFUSED_SHORT 3u

/* thk_start: an identity is there twice; place is the first index whose identity stands at an earlier index too. Give
 * that gateway another identity, or leave it out if the same gateway was read twice.
 */
#define THK_REFUSED_REPEATED 4u

/* thk_step, thk_run, thk_leads: the words are no table: never started, damaged, or fewer than the table has. Lend the
 * whole table; if it was whole, start it again. Not every damage is found: changed words can make another table.
 */
#define THK_REFUSED_MALFORMED 5u

/* thk_step: no such process; place is the number of processes. Choose one below it. */
#define THK_REFUSED_NO_PROCESS 6u

/* thk_step: the chosen process waits for a message and none is there; place is the chosen process. Move others first,
 * the one before it among them, and choose it again later.
 */
#define THK_REFUSED_EMPTY 7u

/* thk_step: the chosen process has a message to send and its queue is full; place is the chosen process. Move others
 * first, the one after it among them, and choose it again later.
 */
#define THK_REFUSED_FULL 8u

/* thk_step: the next message for the chosen process is of the kind that it cannot take; place is the chosen process. A
 * started table never comes to this: its words were changed by something else. Start it again.
 */
#define THK_REFUSED_WRONG_KIND 9u

/* thk_step: the chosen process has announced; place is the chosen process. The election is over: ask thk_leads. */
#define THK_REFUSED_OVER 10u

/* thk_read: there is no byte. Read again when the link has brought one. */
#define THK_REFUSED_NO_BYTE 11u

/* thk_read: the first byte is no known kind. Drop the frame. The kind fixes the length, and that of every known kind is
 * THK_FRAME_BYTES; for an unknown one the link must tell where the next frame begins.
 */
#define THK_REFUSED_UNKNOWN_KIND 12u

/* thk_read: the kind is known and the frame is cut short; place is the number of bytes present, 1 to 4. Keep them, and
 * read again when the link has brought THK_FRAME_BYTES - place more.
 */
#define THK_REFUSED_CUT 13u

/* thk_write: there is no room for a frame. Lend THK_FRAME_BYTES bytes or more. */
#define THK_REFUSED_NO_ROOM 14u

/* thk_write: no frame has this generation or this kind. Pass generation 1, 2 or 3, and THK_ACTIVE or THK_PASSIVE. */
#define THK_REFUSED_NO_FRAME 15u

/* Ends of a run: the first that holds, tested before each byte of the schedule and after the last one, in the order
 * THK_END_OVER, THK_END_USED_UP, THK_END_SPENT.
 */

/* The schedule has no byte left and nobody has announced. Run again with more schedule. */
#define THK_END_USED_UP 0u

/* A process has announced. Ask thk_leads; a further run moves nobody. */
#define THK_END_OVER 1u

/* As many moves were made as the budget allows, nobody has announced and bytes are left. Run again with the rest. */
#define THK_END_SPENT 2u

/* The answer of thk_start, thk_step and thk_write. */
typedef struct {
    uint32_t number; /* THK_DONE, or the refusal */
    uint32_t place;  /* as the refusal says, and else 0 */
} thk_told;

/* The answer of thk_run. taken + skipped is the number of schedule bytes used. */
typedef struct {
    uint32_t number;  /* THK_DONE, or THK_REFUSED_MALFORMED */
    uint32_t end;     /* done: THK_END_OVER, THK_END_USED_UP or THK_END_SPENT; refused: 0, which is no end then */
    uint32_t taken;   /* done: how many moves were made; refused: 0 */
    uint64_t skipped; /* done: how many choices made no move; refused: 0 */
} thk_ran;

/* The answer of thk_leads. */
typedef struct {
    uint32_t number;  /* THK_DONE, or THK_REFUSED_MALFORMED */
    uint32_t some;    /* 1: a process leads; 0: none does yet, or refused */
    uint32_t process; /* the process that leads, from 0; 0 where some is 0 */
    uint32_t value;   /* the identity that it leads with (for whose, see thk_leads); 0 where some is 0 */
} thk_leading;

/* The answer of thk_read. */
typedef struct {
    uint32_t number; /* THK_DONE, or the refusal */
    uint32_t place;  /* as the refusal says, and else 0 */
    uint32_t kind;   /* done: THK_ACTIVE or THK_PASSIVE; refused: 0, which is no kind then */
    uint32_t value;  /* done: the value, in the machine's own order; refused: 0 */
} thk_frame;

/* Starts a ring of n processes, each queue with room for capacity messages.
 *
 * table       lent for writing: words words, aligned; null only where words is 0. What they held does not matter.
 * identities  lent for reading: n words, aligned; null only where n is 0. The identity of process 0 comes first. Any
 *             32-bit numbers, no two alike. Must not overlap table.
 * capacity    1 to 16. 1 is enough for every election; more lets a process send before the next one has taken.
 *
 * Done: each of the first THK_TABLE_WORDS(n, capacity) words is written; the words beyond stay.
 *
 * Refused, tested in this order, and nothing is written:
 *   THK_REFUSED_COUNT      n is 0 or above 16                               place 0
 *   THK_REFUSED_CAPACITY   capacity is 0 or above 16                        place 0
 *   THK_REFUSED_SHORT      words is below THK_TABLE_WORDS(n, capacity)      place 0
 *   THK_REFUSED_REPEATED   an identity repeats                              place is the first index equal to an
 *                                                                           earlier one
 */
thk_told thk_start(uint32_t *table, size_t words, const uint32_t *identities, size_t n, uint32_t capacity);

/* Moves one process: it sends a message, takes one, or announces.
 *
 * table       lent for reading and writing: words words, aligned; null only where words is 0. A started table, whole.
 * chosen      the process to move, from 0.
 *
 * Done: the table is the one after the move. Only words of the table are written; the words beyond stay.
 *
 * Refused, tested in this order, and nothing is written:
 *   THK_REFUSED_MALFORMED    the words are no table                         place 0
 *   THK_REFUSED_NO_PROCESS   chosen is not below n                          place is n
 *   THK_REFUSED_EMPTY        it waits for a message and there is none       place is chosen
 *   THK_REFUSED_WRONG_KIND   it waits for a message of the other kind       place is chosen
 *   THK_REFUSED_FULL         it has a message to send and no room for it    place is chosen
 *   THK_REFUSED_OVER         it has announced                               place is chosen
 * A table that was started and since then changed only by thk_step and thk_run gives neither THK_REFUSED_MALFORMED nor
 * THK_REFUSED_WRONG_KIND.
 */
thk_told thk_step(uint32_t *table, size_t words, uint32_t chosen);

/* Moves processes by a schedule, as thk_step does one by one, until a process announces, the schedule is used up or the
 * budget is spent.
 *
 * table       lent for reading and writing: words words, aligned; null only where words is 0. A started table, whole.
 * schedule    lent for reading: length bytes; null only where length is 0. Each byte chooses a process, from 0. A
 *             choice that thk_step refuses (6 to 10, so also a byte that is no process) is skipped and changes
 *             nothing. Must not overlap table.
 * budget      how many moves to make at most, any number. THK_MOST_MOVES(n) is enough for every election.
 *
 * Done: end says why the run ended, taken how many moves it made (never above budget), skipped how many choices made no
 * move. The rest of the schedule begins at schedule[taken + skipped]. Only words of the table are written; the words
 * beyond stay. If a process had announced before the run, end is THK_END_OVER and no byte is used. If the last byte
 * spends the budget and nobody has announced, end is THK_END_USED_UP.
 *
 * Until one announces there is always a process of a started table that can move. So an election needs a schedule that
 * comes back to every process, as round robin does.
 *
 * Refused, before the first byte, and nothing is written:
 *   THK_REFUSED_MALFORMED    the words are no table                         there is no field for a place
 */
thk_ran thk_run(uint32_t *table, size_t words, const uint8_t *schedule, size_t length, uint32_t budget);

/* Says who leads.
 *
 * table       lent for reading: words words, aligned; null only where words is 0. A started table, whole.
 *
 * Done: some is 1 if a process has announced, with the lowest such process and the identity that it leads with; else
 * some is 0. In a table that was started and since then changed only by thk_step and thk_run, no second process
 * announces and value is the greatest of the identities. Take the owner from process, not from value: the process that
 * leads need not be the one that was started with the greatest identity. In a ring of 5 and 9, process 0 leads with 9.
 *
 * Refused:
 *   THK_REFUSED_MALFORMED    the words are no table                         there is no field for a place
 */
thk_leading thk_leads(const uint32_t *table, size_t words);

/* Reads one frame.
 *
 * bytes       lent for reading: length bytes; null only where length is 0. The first THK_FRAME_BYTES are the frame; the
 *             others are ignored.
 *
 * Done: kind and value are those of the frame, and place is 0. The next frame begins at bytes[THK_FRAME_BYTES].
 *
 * Refused, tested in this order:
 *   THK_REFUSED_NO_BYTE        length is 0                                  place 0
 *   THK_REFUSED_UNKNOWN_KIND   bytes[0] is not 0x41, 0x42, 0x61 or 0x62     place 0
 *   THK_REFUSED_CUT            length is 1 to 4                             place is length
 */
thk_frame thk_read(const uint8_t *bytes, size_t length);

/* Writes one frame for a gateway of the given generation.
 *
 * bytes       lent for writing: room bytes; null only where room is 0. What they held does not matter.
 * generation  1, 2 or 3: that of the gateway that is to read the frame.
 * kind        THK_ACTIVE or THK_PASSIVE.
 * value       any number.
 *
 * Done: the first THK_FRAME_BYTES bytes are written; the bytes beyond stay.
 *
 * Refused, tested in this order, and nothing is written:
 *   THK_REFUSED_NO_FRAME   generation is not 1, 2 or 3, or kind is neither  place 0
 *   THK_REFUSED_NO_ROOM    room is below THK_FRAME_BYTES                    place 0
 */
thk_told thk_write(uint8_t *bytes, size_t room, uint32_t generation, uint32_t kind, uint32_t value);

#ifdef __cplusplus
}
#endif
#endif
