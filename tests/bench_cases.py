#!/usr/bin/env python3
"""Makes the folder of cases for the bench program: inputs by subject, with what tests/model.py says is printed.

    bench_cases.py [--check] [--seed N] [FOLDER]

With --check it writes nothing and tells which files differ from the cases made anew.
"""

import argparse
import itertools
import pathlib
import random
import sys

from model import ACTIVE, PASSIVE, SCHEDULE, Ring, bench, write

SEED = 1
FOLDER = pathlib.Path(__file__).parent / "bench"
WIDTH = 110
# sixteen identities of which each round leaves half, so that rounds are most and queues grow long
HALVING = [int(f"{at:04b}"[::-1], 2) for at in range(16)]
# the fewest equal bytes in a row that are written as a count; no frame has as many
ROW = 8


class Chance:
    """Numbers from a seed; random() alone gives the same ones in every Python."""

    def __init__(self, seed):
        self.source = random.Random(seed)

    def below(self, limit):
        return int(self.source.random() * limit)

    def one_of(self, things):
        return things[self.below(len(things))]

    def distinct(self, number, limit):
        found = []
        while len(found) < number:
            value = self.below(limit)
            if value not in found:
                found.append(value)
        return found


def high(value, kind=ACTIVE):
    return write(1, kind, value)


def low(value, kind=ACTIVE):
    return write(2, kind, value)


def mixed(identities, chance):
    return [chance.one_of((high, low))(identity) for identity in identities]


def given(capacity, frames, schedule=b"", n=None):
    """An input; n is the number of frames unless told."""
    return bytes([len(frames) if n is None else n, capacity]) + b"".join(frames) + bytes(schedule)


# Schedules without an end: each is told n and the source of chance.

def around(n, _):
    return itertools.cycle(range(n))


def backwards(n, _):
    return itertools.cycle(reversed(range(n)))


def anyhow(n, chance):
    while True:
        yield chance.below(n)


def bursts(n, chance):
    while True:
        yield from [chance.below(n)] * 5


def starved(n, chance):
    """One process is chosen only after 2n choices of others."""
    hungry = chance.below(n)
    # one process has no others, so a byte that chooses none stands for them
    others = [choice for choice in range(n) if choice != hungry] or [n]
    while True:
        yield hungry
        for _ in range(2 * n):
            yield chance.one_of(others)


def beyond(n, chance):
    """A third of the bytes are not below n."""
    while True:
        yield chance.below(n)
        yield chance.below(n)
        yield chance.one_of((n, 16, 255, n + chance.below(256 - n)))


KINDS = around, backwards, anyhow, bursts, starved, beyond


def to_announcement(identities, capacity, choices):
    """The bytes of an endless schedule up to the one that announces."""
    ring = Ring(identities, capacity)
    used = []
    for choice in choices:
        ring.tries(choice)
        used.append(choice)
        if ring.leads():
            return bytes(used)


def taken_bytes(identities, capacity):
    """The choices, round and round, that are moves made."""
    ring = Ring(identities, capacity)
    return bytes(choice for choice in to_announcement(identities, capacity, around(len(identities), None))
                 if ring.tries(choice))


def election(identities, capacity, kind, chance, more=b""):
    n = len(identities)
    schedule = to_announcement(identities, capacity, kind(n, chance))
    return given(capacity, mixed(identities, chance), schedule + more)


def elections(chance):
    """Whole elections: sizes 1 to 16, capacities 1 to 16, and schedules of several kinds."""
    for n in range(1, 17):
        # big rings by every other kind, so that the folder stays small
        for kind in KINDS if n <= 8 else KINDS[n % 2::2]:
            capacity = chance.one_of((1, 2, 3, 1 + chance.below(16), 16))
            identities = chance.distinct(n, chance.one_of((n, 300, 2**32)))
            more = bytes(chance.below(256) for _ in range(chance.below(4)))
            yield f"{kind.__name__}-n{n}-c{capacity}", election(identities, capacity, kind, chance, more)
    for name, identities in ("two", [5, 9]), ("three", [3, 7, 4]), ("four", [4, 1, 3, 2]):
        for capacity in 1, 2, 3, 16:
            yield f"{name}-c{capacity}", election(identities, capacity, anyhow, chance)
    yield "most-rounds", election(HALVING, 16, around, chance)
    yield "falling", election(list(range(16))[::-1], 1, around, chance)
    # each process leads once, and each capacity has its turn
    for leader in range(16):
        identities = [(at - leader) % 16 for at in range(16)]
        capacity = leader + 1
        moves = taken_bytes(identities, capacity)
        yield f"leads-{leader}-c{capacity}", given(capacity, mixed(identities, chance), moves)


def unfinished(chance):
    """Runs that end for want of bytes."""
    for n in range(1, 17):
        capacity = 1 + chance.below(16)
        identities = chance.distinct(n, 2**32)
        schedule = to_announcement(identities, capacity, chance.one_of(KINDS)(n, chance))
        frames = mixed(identities, chance)
        yield f"somewhere-n{n}-c{capacity}", given(capacity, frames, schedule[:chance.below(len(schedule))])
        if n <= 8:
            yield f"one-short-n{n}-c{capacity}", given(capacity, frames, schedule[:-1])
    for n in 1, 2, 7, 16:
        frames = mixed(chance.distinct(n, 2**32), chance)
        yield f"no-schedule-n{n}", given(n, frames)
        yield f"none-below-n{n}", given(n, frames, [n, 255] * 8)
        yield f"one-alone-n{n}", given(1, frames, [n - 1] * 2)
    for n, capacity in (2, 1), (4, 2), (9, 3):
        frames = mixed(chance.distinct(n, 2**32), chance)
        yield f"never-0-n{n}-c{capacity}", given(capacity, frames, [*range(1, n)] * 12)
    for capacity in range(1, 8):
        yield f"never-0-n16-c{capacity}", given(capacity, mixed(HALVING, chance), [*range(1, 16)] * 16)


def cut(chance):
    """Inputs cut at every byte."""
    inputs = {
        "printed": given(1, [high(7)], [0, 0, 0]),
        "two": given(1, [high(5), low(9)], to_announcement([5, 9], 1, around(2, chance)) + b"\0"),
        "three": given(2, [low(3), low(7), high(4)], to_announcement([3, 7, 4], 2, anyhow(3, chance)) + b"\2"),
        "passive-second": given(1, [low(5), high(9, PASSIVE)], [0, 1]),
        "passive-low-first": given(1, [low(5, PASSIVE), high(9)], [0, 1]),
        "repeated-second": given(3, [high(258), low(258), high(1)], [0, 1, 2]),
        "no-capacity": given(0, [high(5)], [0]),
        "too-many": given(1, [high(5)], [0], n=17),
    }
    yield "empty", b""
    for name, data in inputs.items():
        for length in range(1, len(data) + 1):
            yield f"{name}-{length}", data[:length]


def flipped(data, bit):
    whole = bytearray(data)
    whole[bit // 8] ^= 1 << bit % 8
    return bytes(whole)


def damaged(chance):
    """Frames with each kind byte, cut short, and with one bit changed."""
    for byte in range(256):
        yield f"kind-{byte:02x}", given(1, [bytes([byte]) + bytes([0, 0, 1, 2])], [0, 0, 0])
    for byte in 0x00, 0x40, 0x41, 0x42, 0x43, 0x60, 0x61, 0x62, 0x63, 0xff:
        for length in range(1, 5):
            yield f"kind-{byte:02x}-length-{length}", given(1, [high(5), bytes([byte, 0, 0, 0])[:length]])
    data = given(1, [high(5), low(9)], taken_bytes([5, 9], 1))
    for bit in range(8 * 12):
        yield f"bit-{bit}", flipped(data, bit)
    for bad in 0, 7, 15:
        frames = mixed(chance.distinct(16, 2**32), chance)
        for name, kind in ("unknown", 0x44), ("passive-high", 0x42), ("passive-low", 0x62):
            hurt = [bytes([kind]) + frame[1:] if at == bad else frame for at, frame in enumerate(frames)]
            yield f"{name}-at-{bad}", given(16, hurt, range(16))


def orders(chance):
    """Both byte orders mixed."""
    pairs = (1, 256), (258, 33619968), (0, 4294967295), (1, 16777216), (2147483648, 128), (255, 4278190080)
    ways = ("high", high), ("low", low)
    for (one, other), (before, first), (after, second) in itertools.product(pairs, ways, ways):
        for left, right in (one, other), (other, one):
            frames = [first(left), second(right)]
            yield f"{before}-{left}-{after}-{right}", given(1, frames, taken_bytes([left, right], 1))
    for n in range(3, 9):
        bodies = [chance.one_of((1, 2, 255)) << 8 * chance.below(4) | chance.below(2**32) for _ in range(n)]
        for name, way in ("high", [high]), ("low", [low]), ("turns", [high, low]):
            frames = [way[at % len(way)](body) for at, body in enumerate(bodies)]
            yield f"{name}-n{n}", given(2, frames, list(range(n)) * 20)


def repeats(chance):
    """Identities that repeat as numbers, and those that only look alike."""
    for value in 0, 1, 258, 2**31, 2**32 - 1:
        yield f"same-order-{value}", given(1, [high(value), high(value)], [0])
        yield f"low-order-{value}", given(1, [low(value), low(value)], [0])
        yield f"translated-{value}", given(1, [high(value), low(value)], [0])
        yield f"turned-{value}", given(1, [low(value), high(value)], [0])
        alike = low(value)[:1] + high(value)[1:]
        yield f"bytes-alike-{value}", given(1, [high(value), alike], [0, 1] * 9)
    yield "bytes-alike-and-same", given(1, [bytes([0x41, 1, 2, 2, 1]), bytes([0x61, 1, 2, 2, 1])], [0])
    yield "third-is-first", given(1, [high(5), high(9), high(5)])
    for n in range(3, 17):
        identities = chance.distinct(n, 2**32)
        again = 1 + chance.below(n - 1)
        identities[again] = identities[chance.below(again)]
        yield f"at-{again}-n{n}", given(n, mixed(identities, chance), range(n))
        ends = identities[:1] + chance.distinct(n - 2, 2**32) + identities[:1]
        yield f"ends-n{n}", given(n, mixed(ends, chance), range(n))
        body = chance.below(2**31) * 2 + 1
        near = [high(body), bytes([0x61]) + high(body)[1:]] + [high(2 * at) for at in range(n - 2)]
        yield f"alike-n{n}", given(n, near, range(n))


def sizes(chance):
    """Numbers of processes and capacities at and beyond the limits."""
    frames = mixed(chance.distinct(17, 2**32), chance)
    for n in 0, 1, 15, 16, 17, 18, 32, 128, 255:
        yield f"n{n}", given(1, frames[:n], range(16), n=n)
        yield f"n{n}-no-more", given(16, [], n=n)
    for capacity in 0, 1, 15, 16, 17, 18, 32, 128, 255:
        for n in 1, 2, 16:
            yield f"n{n}-c{capacity}", given(capacity, frames[:n], [*range(n)] * 2)
        yield f"c{capacity}-no-more", given(capacity, [], n=1)
    for n, capacity in itertools.product((0, 17, 255), repeat=2):
        yield f"n{n}-c{capacity}-both", given(capacity, frames[:17], n=n)


def long(chance):
    """Schedules about 4,096 bytes long, and bytes behind the last that counts."""
    rings = ("one", [7], 1), ("two", [9, 5], 1), ("four", [4, 1, 3, 2], 2), ("nine", chance.distinct(9, 2**32), 16)
    for name, identities, capacity in rings:
        moves = taken_bytes(identities, capacity)
        for last in SCHEDULE - 1, SCHEDULE, SCHEDULE + 1, SCHEDULE + len(moves) - 1, SCHEDULE + len(moves):
            idle = bytes([255]) * (last - len(moves))
            frames = mixed(identities, chance)
            yield f"{name}-announces-at-{last}", given(capacity, frames, idle + moves)
            yield f"{name}-announces-at-{last}-more", given(capacity, frames, idle + moves + bytes(9))
        parted = b"".join(bytes([len(identities)]) * (SCHEDULE // len(moves)) + bytes([move]) for move in moves)
        yield f"{name}-parted", given(capacity, mixed(identities, chance), parted)
        for more in 1, 4096, 65536, 1000000:
            yield f"{name}-then-{more}", given(capacity, mixed(identities, chance), moves + bytes([more % 251]) * more)
    # the longest input of which every byte counts: the last one announces
    falling = list(range(16, 0, -1))
    moves = taken_bytes(falling, 1)
    frames = mixed(falling, chance)
    yield "longest", given(1, frames, bytes([255]) * (SCHEDULE - len(moves)) + moves)
    yield "longest-cut", given(1, frames, bytes([255]) * (SCHEDULE - len(moves)) + moves[:-1])
    yield "idle-4096", given(1, [high(7)], [1] * 4096)
    yield "idle-65537", given(1, [high(7)], [1] * 65537)
    yield "refused-n-then-5000", given(1, [], [0x41] * 5000, n=0)
    yield "refused-frame-then-5000", given(1, [bytes(5)], [0] * 5000)
    yield "repeated-then-5000", given(1, [low(1), low(1)], [0] * 5000)


def several(_):
    """Refusals in every combination; the first in the order is told."""
    firsts = {"good": high(5), "unknown": bytes([0x43, 0, 0, 0, 5]), "passive": low(5, PASSIVE)}
    seconds = {
        "good": low(9),
        "repeated": low(5),
        "unknown": bytes([0, 0, 0, 0, 9]),
        "unknown-cut": bytes([0x7f, 0]),
        "passive": high(5, PASSIVE),
        "passive-cut": high(5, PASSIVE)[:4],
        "cut": low(5)[:4],
        "missing": b"",
    }
    for n, capacity, first, second in itertools.product((0, 2, 3, 17), (0, 1, 17), firsts, seconds):
        yield f"n{n}-c{capacity}-{first}-{second}", given(capacity, [firsts[first], seconds[second]], n=n)
    for n in 0, 1, 16, 17, 255:
        yield f"n{n}-alone", bytes([n])


SUBJECTS = elections, unfinished, cut, damaged, orders, repeats, sizes, long, several


def tokens(data):
    """Bytes in hex, many equal ones in a row as XX*N."""
    for byte, row in itertools.groupby(data):
        number = len(list(row))
        if number >= ROW:
            yield f"{byte:02x}*{number}"
        else:
            yield from [f"{byte:02x}"] * number


def input_lines(data):
    line = "input"
    for token in tokens(data):
        if len(line) + 1 + len(token) > WIDTH:
            yield line
            line = "input"
        line += " " + token
    yield line


def case_text(name, data):
    printed = [f"| {line}" for line in bench(data).splitlines()]
    return "\n".join([f"case {name}", *input_lines(data), *printed, ""])


def file_text(subject, seed):
    """A subject's file; no two of its cases have the same name."""
    cases = list(subject(Chance(f"{seed} {subject.__name__}")))
    assert len({name for name, _ in cases}) == len(cases)
    return "\n".join([f"# {subject.__doc__}\n"] + [case_text(name, data) for name, data in cases])


def differing(folder, texts):
    """The names of the files that are missing, are not as made, or should not be there."""
    there = {path.name: path.read_text() for path in folder.iterdir()} if folder.is_dir() else {}
    return sorted(name for name in there.keys() | texts.keys() if there.get(name) != texts.get(name))


def main():
    parser = argparse.ArgumentParser()
    parser.add_argument("--check", action="store_true")
    parser.add_argument("--seed", type=int, default=SEED)
    parser.add_argument("folder", nargs="?", type=pathlib.Path, default=FOLDER)
    asked = parser.parse_args()
    texts = {f"{subject.__name__}.txt": file_text(subject, asked.seed) for subject in SUBJECTS}
    if asked.check:
        differ = differing(asked.folder, texts)
        for name in differ:
            print(f"{asked.folder / name} differs")
        return 1 if differ else 0
    asked.folder.mkdir(parents=True, exist_ok=True)
    for name, text in texts.items():
        (asked.folder / name).write_text(text)
    return 0


if __name__ == "__main__":
    sys.exit(main())
