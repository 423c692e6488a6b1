#!/usr/bin/env python3
"""Prints what the program cards must print, worked out by tests/model.py; it shares no code with the crates.

What document 01 says of a card or a mistake is asserted here. The gate compares the output with crates/cards/stdout.
"""

from model import ACTIVE, Ring, read, refusal, table_length, write

DONE = 0, 0
BUDGET = 2**32 - 1
BYTES = 576
TURN = 12
DIGITS = b"3141592653589793238462643383279502884197169399375105820974944592"
# document 01's rings: the moves taken to the end, who leads, and with what
ENDS = {(5, 9): (13, 0, 9), (3, 7, 4): (19, 2, 7), (4, 1, 3, 2): (41, 3, 4)}


def numbers(words):
    return " ".join(map(str, words))


def schedules(n):
    """The name and the choices of each schedule."""
    around = [at % n for at in range(BYTES)]
    yield "round and round", around
    yield "backwards", around[::-1]
    yield "in turns", [at // TURN % n for at in range(BYTES)]
    yield "scattered", [DIGITS[at % len(DIGITS)] % n for at in range(BYTES)]


def run(identities, capacity, name, schedule):
    ring = Ring(identities, capacity, table_length(len(identities), capacity))
    end, taken, skipped = ring.run(schedule, BUDGET)
    leader, value = ring.leads()
    states = ring.states()
    lengths = ring.words()[7::6 + 2 * capacity]
    assert end == 1 and value == max(identities)
    assert (taken, leader, value) == ENDS.get(tuple(identities), (taken, leader, value))
    assert states == [6 if process == leader else 4 for process in range(len(identities))]
    assert lengths == [0] * len(identities)
    print(f"ring {numbers(identities)} capacity {capacity} {name}: start 0 0 end {end} taken {taken} skipped {skipped}",
          f"leader {leader} value {value} own identity {identities[leader]}",
          f"states {numbers(states)} lengths {numbers(lengths)}")


def check_turns(identities, capacity, schedule):
    """A turn lasts until its process is refused or announces."""
    ring = Ring(identities, capacity)
    for at in range(0, BYTES, TURN):
        end, _, skipped = ring.run(schedule[at:at + TURN], BUDGET)
        assert end == 1 or skipped


def rings():
    for identities in [5, 9], [3, 7, 4], [4, 1, 3, 2], [0, 5]:
        for capacity in 1, 2, 16:
            for name, schedule in schedules(len(identities)):
                run(identities, capacity, name, schedule)
                if name == "in turns":
                    check_turns(identities, capacity, schedule)


def start(n, capacity, room, expected):
    answer = refusal(Ring, list(range(n)), capacity, room)
    assert answer == expected
    changed = table_length(n, capacity) if answer == DONE else 0
    print(f"identities {n} capacity {capacity} words {room}: start {numbers(answer)} changed {changed}")


def starts():
    assert table_length(16, 16) == 610
    start(16, 16, 610, DONE)
    start(16, 16, 609, (3, 0))
    start(16, 16, 611, DONE)
    start(17, 16, 700, (1, 0))
    start(0, 16, 700, (1, 0))
    start(16, 17, 700, (2, 0))
    start(16, 0, 700, (2, 0))
    start(17, 17, 700, (1, 0))


def steps(before, *expected):
    """Choices of process 0 on a table where nobody leads: each with its answer and the words that it leaves."""
    ring = Ring.of_words(before)
    assert ring.leads() is None
    print(f"table {numbers(before)}: leader - value -")
    for answer, after in expected:
        assert (refusal(ring.step, 0), ring.words()) == (answer, after)
        print(f"choice 0: step {numbers(answer)} table {numbers(after)}")


def unreached():
    table = [1, 1, 7, 4, 7, 7, 0, 0, 0, 0]
    steps(table, ((7, 0), table))


def greater():
    """e is greater than d and v, equals v, equals d."""
    steps([1, 1, 7, 3, 1, 3, 0, 1, 2, 0], (DONE, [1, 1, 7, 0, 3, 3, 0, 0, 0, 0]))
    steps([1, 1, 7, 3, 1, 2, 0, 1, 2, 0], (DONE, [1, 1, 7, 4, 1, 2, 0, 0, 0, 0]))
    steps([1, 1, 7, 3, 2, 2, 0, 1, 1, 0], (DONE, [1, 1, 7, 4, 2, 2, 0, 0, 0, 0]))


def relayed():
    """3 through process 0, active and then passive, where b was the other kind."""
    sender = [9, 1, 9, 0, 0]
    for kind in 1, 0:
        steps([2, 1, 5, 4, 9, 9, 1 - kind, 0, 0, 0] + sender + [1, 3, kind],
              (DONE, [2, 1, 5, 5, 3, 9, kind, 0, 0, 0] + sender + [0, 0, 0]),
              (DONE, [2, 1, 5, 4, 3, 9, kind, 1, 3, kind] + sender + [0, 0, 0]))


def emptied():
    """A take from a queue of two, then a put."""
    steps([1, 2, 7, 4, 7, 7, 0, 2, 3, 1, 8, 0],
          (DONE, [1, 2, 7, 5, 3, 7, 1, 1, 8, 0, 0, 0]),
          (DONE, [1, 2, 7, 4, 3, 7, 1, 2, 8, 0, 3, 1]))


def frame(data, expected):
    kind, value = read(data)
    assert (kind, value) == (ACTIVE, expected)
    print(f"frame {data.hex(' ')}: read 0 0 kind {kind} value {value}")
    return value


def both_orders():
    frame(bytes.fromhex("61 02 01 00 00"), 258)
    frame(bytes.fromhex("41 02 01 00 00"), 33619968)


def mixes():
    for first, second in (1, 2), (2, 1), (1, 1), (2, 2):
        identities = [frame(write(first, ACTIVE, 1), 1), frame(write(second, ACTIVE, 256), 256)]
        run(identities, 1, *next(schedules(2)))


def check_untranslated():
    """1 on a high-first unit, 256 on a low-first one: what either puts, the other reads with its bytes turned round."""
    ring = Ring([1, 256], 1)
    for chosen in [0, 1] * TURN:
        length = 7 + 8 * chosen
        before = ring.words()[length]
        refusal(ring.step, chosen)
        words = ring.words()
        if words[length] > before:
            words[length + 1] = int.from_bytes(words[length + 1].to_bytes(4, "big"), "little")
            ring = Ring.of_words(words)
    assert ring.states() == [4, 4]


rings()
starts()
unreached()
greater()
both_orders()
mixes()
relayed()
emptied()
check_untranslated()
