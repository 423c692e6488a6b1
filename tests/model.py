#!/usr/bin/env python3
"""Document 01 in Python: frames, the ring table, its rows and runs, and what the bench program prints.

It shares no code with the crates; the tests take what they expect from it. Run by itself, it checks document 01's
printed cases.
"""

LIMIT = 16
PASSIVE, ACTIVE = 0, 1
ORDERS = {1: "big", 2: "little", 3: "big"}
BYTES = {("big", ACTIVE): 0x41, ("big", PASSIVE): 0x42, ("little", ACTIVE): 0x61, ("little", PASSIVE): 0x62}
HEADS = {byte: head for head, byte in BYTES.items()}
FRAME = 5
SCHEDULE = 4096


class Refused(Exception):
    """A refusal's number and its place."""

    def __init__(self, number, place=0):
        super().__init__(f"refused {number}, place {place}")
        self.number = number
        self.place = place


def read(data):
    """The kind and the value of the frame that the bytes begin with."""
    if not data:
        raise Refused(11)
    if data[0] not in HEADS:
        raise Refused(12)
    if len(data) < FRAME:
        raise Refused(13, len(data))
    order, kind = HEADS[data[0]]
    return kind, int.from_bytes(data[1:FRAME], order)


def write(generation, kind, value, room=FRAME):
    """The five bytes of a frame."""
    if generation not in ORDERS or kind not in (PASSIVE, ACTIVE):
        raise Refused(15)
    if room < FRAME:
        raise Refused(14)
    order = ORDERS[generation]
    return bytes([BYTES[order, kind]]) + value.to_bytes(4, order)


def table_length(n, c):
    return 2 + n * (6 + 2 * c)


def first_repeat(identities):
    """The first index equal to an earlier one, or None."""
    for index, identity in enumerate(identities):
        if identity in identities[:index]:
            return index
    return None


class Process:
    """One record; sent is its queue, oldest first, of (value, kind)."""

    def __init__(self, identity):
        self.identity = identity
        self.state = 0
        self.d = identity
        self.e = 0
        self.b = 0
        self.sent = []

    def load(self, record):
        self.state, self.d, self.e, self.b, length = record[1:6]
        slots = list(zip(record[6::2], record[7::2]))
        self.sent = slots[:length]
        if self.state > 6 or self.b > 1 or length > len(slots):
            raise Refused(5)
        if any(kind > 1 for _, kind in self.sent) or any(slot != (0, 0) for slot in slots[length:]):
            raise Refused(5)

    def record(self, capacity):
        slots = self.sent + [(0, 0)] * (capacity - len(self.sent))
        head = [self.identity, self.state, self.d, self.e, self.b, len(self.sent)]
        return head + [word for slot in slots for word in slot]

    def puts(self):
        return self.state in (0, 5) or self.state == 2 and self.d != self.e

    def refusal(self, heard, capacity):
        """The number that refuses this process's move, heard being its predecessor's queue; 0 if it may move."""
        if self.state == 6:
            return 10
        if self.puts():
            return 8 if len(self.sent) == capacity else 0
        if self.state == 2:
            return 0
        if not heard:
            return 7
        _, kind = heard[0]
        return 9 if (self.state, kind) in ((1, PASSIVE), (3, ACTIVE)) else 0

    def move(self, heard):
        """The row of the state, where nothing refuses it."""
        if self.state == 0:
            self.sent.append((self.d, ACTIVE))
            self.state = 1
        elif self.state == 1:
            self.e, _ = heard.pop(0)
            self.state = 2
        elif self.state == 2 and self.d == self.e:
            self.state = 6
        elif self.state == 2:
            self.sent.append((self.e, PASSIVE))
            self.state = 3
        elif self.state == 3:
            value, _ = heard.pop(0)
            if self.e > max(self.d, value):
                self.d, self.state = self.e, 0
            else:
                self.b, self.state = 0, 4
        elif self.state == 4:
            self.d, self.b = heard.pop(0)
            self.state = 5
        elif self.state == 5:
            self.sent.append((self.d, self.b))
            self.state = 4


class Ring:
    """A ring table; trace holds the taken steps of its runs as (process, state before, state after)."""

    def __init__(self, identities, capacity, room=None):
        n = len(identities)
        if not 1 <= n <= LIMIT:
            raise Refused(1)
        if not 1 <= capacity <= LIMIT:
            raise Refused(2)
        if room is not None and room < table_length(n, capacity):
            raise Refused(3)
        repeat = first_repeat(identities)
        if repeat is not None:
            raise Refused(4, repeat)
        self.capacity = capacity
        self.processes = [Process(identity) for identity in identities]
        self.trace = []

    @classmethod
    def of_words(cls, words):
        if len(words) < 2 or not all(1 <= size <= LIMIT for size in words[:2]):
            raise Refused(5)
        n, c = words[:2]
        length = table_length(n, c)
        if len(words) < length:
            raise Refused(5)
        records = [words[at:at + 6 + 2 * c] for at in range(2, length, 6 + 2 * c)]
        identities = [record[0] for record in records]
        if first_repeat(identities) is not None:
            raise Refused(5)
        ring = cls(identities, c)
        for process, record in zip(ring.processes, records):
            process.load(record)
        return ring

    def words(self):
        records = [process.record(self.capacity) for process in self.processes]
        return [len(records), self.capacity] + [word for record in records for word in record]

    def step(self, chosen):
        if chosen >= len(self.processes):
            raise Refused(6, len(self.processes))
        mover = self.processes[chosen]
        # index -1 is the last process, whom process 0 hears
        heard = self.processes[chosen - 1].sent
        number = mover.refusal(heard, self.capacity)
        if number:
            raise Refused(number, chosen)
        mover.move(heard)

    def run(self, schedule, budget):
        """The end number, the taken count and the skipped count."""
        taken = skipped = 0
        while True:
            if self.leads():
                return 1, taken, skipped
            if taken + skipped == len(schedule):
                return 0, taken, skipped
            if taken == budget:
                return 2, taken, skipped
            if self.tries(schedule[taken + skipped]):
                taken += 1
            else:
                skipped += 1

    def tries(self, chosen):
        """Whether the choice is a move made; if so, it is in the trace."""
        before = self.states()
        try:
            self.step(chosen)
        except Refused:
            return False
        self.trace.append((chosen, before[chosen], self.states()[chosen]))
        return True

    def leads(self):
        """The lowest process in state 6 with its d, or None."""
        for index, process in enumerate(self.processes):
            if process.state == 6:
                return index, process.d
        return None

    def states(self):
        return [process.state for process in self.processes]


def bench_identity(data):
    """The identity in the frame that the bytes begin with; a passive kind counts as unknown, even when cut short."""
    if data[:1] in (b"\x42", b"\x62"):
        raise Refused(12)
    _, value = read(data)
    return value


def bench_input(data):
    """The ring started and the schedule."""
    if len(data) < 2:
        raise Refused(11)
    n, c = data[:2]
    if not 1 <= n <= LIMIT:
        raise Refused(1)
    if not 1 <= c <= LIMIT:
        raise Refused(2)
    body = 2 + FRAME * n
    identities = [bench_identity(data[at:at + FRAME]) for at in range(2, body, FRAME)]
    return Ring(identities, c), data[body:body + SCHEDULE]


def bench(data):
    """What the bench program prints for these bytes of input."""
    try:
        ring, schedule = bench_input(data)
    except Refused as refused:
        return f"refused {refused.number}\n"
    n = len(ring.processes)
    end, taken, skipped = ring.run(schedule, 6 * n * n)
    process, value = ring.leads() or ("-", "-")
    lines = [f"{number} {mover} {before} {after}" for number, (mover, before, after) in enumerate(ring.trace, 1)]
    lines.append(f"end {end} taken {taken} skipped {skipped} leader {process} value {value}")
    return "".join(line + "\n" for line in lines)


def refusal(call, *arguments):
    """The number and place that a call is refused with; 0 and 0 if done."""
    try:
        call(*arguments)
    except Refused as refused:
        return refused.number, refused.place
    return 0, 0


def check_tables():
    """Cards P1 to P9 and P12, and the starts and the table that follow them."""
    seven = Ring([7], 1)
    after = [seven.words()]
    for _ in range(3):
        seven.step(0)
        after.append(seven.words())
    assert after[0] == [1, 1, 7, 0, 7, 0, 0, 0, 0, 0]
    assert after[1] == [1, 1, 7, 1, 7, 0, 0, 1, 7, 1]
    assert after[2] == [1, 1, 7, 2, 7, 7, 0, 0, 0, 0]
    assert after[3] == [1, 1, 7, 6, 7, 7, 0, 0, 0, 0]
    assert refusal(seven.step, 0) == (10, 0)
    pair = Ring([5, 9], 1)
    assert [refusal(pair.step, chosen) for chosen in (0, 1, 0, 0)] == [(0, 0), (0, 0), (0, 0), (8, 0)]
    pair = Ring([5, 9], 1)
    assert [refusal(pair.step, chosen) for chosen in (0, 0, 2)] == [(0, 0), (7, 0), (6, 2)]
    assert refusal(Ring.of_words([1, 1, 7, 1, 7, 0, 0, 1, 7, 0]).step, 0) == (9, 0)
    assert refusal(Ring.of_words, [1, 1, 7, 0, 7, 0, 0, 0, 3, 0]) == (5, 0)
    assert refusal(Ring.of_words([1, 1, 7, 4, 7, 7, 0, 0, 0, 0]).step, 0) == (7, 0)
    assert refusal(Ring, [5, 9, 5], 1) == (4, 2)
    assert refusal(Ring, [0, 5], 1) == (0, 0)
    assert refusal(Ring, range(16), 16, 610) == (0, 0)
    assert refusal(Ring, range(16), 16, 609) == (3, 0)
    assert refusal(Ring, range(17), 17) == (1, 0)
    assert refusal(Ring, [7], 17) == (2, 0)


def check_frames():
    """Cards P10 and P11, and each of them read."""
    assert write(1, ACTIVE, 258).hex(" ") == "41 00 00 01 02"
    assert write(2, ACTIVE, 258).hex(" ") == "61 02 01 00 00"
    assert read(write(1, ACTIVE, 258)) == read(write(2, ACTIVE, 258)) == (ACTIVE, 258)


def check_runs():
    """The three rings by schedules that differ, and the bench program's printed example."""
    for identities, taken, leader in ([5, 9], 13, (0, 9)), ([3, 7, 4], 19, (2, 7)), ([4, 1, 3, 2], 41, (3, 4)):
        n = len(identities)
        around = list(range(n))
        for turn in around, around[::-1], [255] + around, [at for at in around for _ in range(5)]:
            for capacity in 1, 2, 16:
                ring = Ring(identities, capacity)
                assert ring.run(turn * taken, 6 * n * n)[:2] == (1, taken)
                assert ring.leads() == leader
                assert Ring.of_words(ring.words()).words() == ring.words()
    printed = "1 0 0 1\n2 0 1 2\n3 0 2 6\nend 1 taken 3 skipped 0 leader 0 value 7\n"
    assert bench(bytes.fromhex("01 01 41 00 00 00 07 00 00 00")) == printed


if __name__ == "__main__":
    check_tables()
    check_frames()
    check_runs()
    print("document 01's printed cases hold")
