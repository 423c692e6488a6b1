"""The bench program's text, read and replayed by the rows of document 01: which step took and put which message."""

import re

LIMIT = 16
PASSIVE, ACTIVE = 0, 1
# the states whose row takes a message
TAKING = 1, 3, 4
# a process's moves in a round: two puts and two takes
ROUND = 4

NUMBER = "(0|[1-9][0-9]{0,9})"
OR_NONE = "(-|0|[1-9][0-9]{0,9})"
STEP = re.compile(f"{NUMBER} {NUMBER} {NUMBER} {NUMBER}")
END = re.compile(f"end {NUMBER} taken {NUMBER} skipped {NUMBER} leader {OR_NONE} value {OR_NONE}")
REFUSED = re.compile(f"refused {NUMBER}")
GIVE = "give the identities that ./elect was given and what it printed, unchanged"


class Unfit(Exception):
    """Why a text cannot be drawn, and what to do."""


class Message:
    """What a process put; take is None while it is queued."""

    def __init__(self, sender, round_number, put, value, kind):
        self.sender = sender
        self.round = round_number
        self.put = put
        self.take = None
        self.value = value
        self.kind = kind


class Step:
    """A move made; took and put are messages or None, d is the value after it."""

    def __init__(self, number, process, round_number, before):
        self.number = number
        self.process = process
        self.round = round_number
        self.before = before
        self.after = None
        self.d = None
        self.took = None
        self.put = None

    def goes_on(self):
        return (self.before, self.after) == (3, 0)

    def drops_out(self):
        return (self.before, self.after) == (3, 4)

    def announces(self):
        return self.after == 6


class Process:
    """A record of document 01; queue holds the messages put and not yet taken, oldest first."""

    def __init__(self, identity):
        self.state = 0
        self.d = identity
        self.e = 0
        self.b = 0
        self.queue = []
        self.moves = 0

    def move(self, took):
        """The row of the state; gives the value and the kind that it puts, or None."""
        puts = None
        if self.state == 0:
            puts, self.state = (self.d, ACTIVE), 1
        elif self.state == 1:
            self.e, self.state = took.value, 2
        elif self.state == 2 and self.d == self.e:
            self.state = 6
        elif self.state == 2:
            puts, self.state = (self.e, PASSIVE), 3
        elif self.state == 3 and self.e > max(self.d, took.value):
            self.d, self.state = self.e, 0
        elif self.state == 3:
            self.b, self.state = 0, 4
        elif self.state == 4:
            self.d, self.b, self.state = took.value, took.kind, 5
        elif self.state == 5:
            puts, self.state = (self.d, self.b), 4
        self.moves += 1
        return puts


class Election:
    """What happened on a ring: its steps, its messages in the order of their puts, and who leads, None if nobody."""

    def __init__(self, identities):
        self.identities = identities
        self.processes = [Process(identity) for identity in identities]
        self.steps = []
        self.messages = []
        self.skipped = 0
        self.leader = None

    def value(self):
        """What the leader announced."""
        return self.processes[self.leader].d

    def queued(self):
        return [message for message in self.messages if message.take is None]

    def step(self, chosen, before, after):
        self.check_mover(chosen, before)
        mover = self.processes[chosen]
        step = Step(len(self.steps) + 1, chosen, mover.moves // ROUND, before)
        if before in TAKING:
            step.took = self.take(chosen, step.number)
        puts = mover.move(step.took)
        if mover.state != after:
            raise Unfit(f"process {chosen} goes from state {before} to {after} and not to {mover.state}: {GIVE}")
        if puts:
            step.put = Message(chosen, step.round, step.number, *puts)
            mover.queue.append(step.put)
            self.messages.append(step.put)
        step.after, step.d = mover.state, mover.d
        self.steps.append(step)
        if step.announces():
            self.leader = chosen

    def check_mover(self, chosen, before):
        n = len(self.processes)
        if chosen >= n:
            raise Unfit(f"process {chosen} is not below {n}: {GIVE}")
        state = self.processes[chosen].state
        if state != before:
            raise Unfit(f"process {chosen} is in state {state} and not in {before}: {GIVE}")
        if self.leader is not None:
            raise Unfit(f"a step, where process {self.leader} has announced: {GIVE}")

    def take(self, chosen, number):
        """The oldest message for a process; index -1 is the last process, whom process 0 hears.

        Its kind needs no test: a started ring never meets the wrong one (docs/HOW-IT-WORKS.md, "The right kind").
        """
        sent = self.processes[chosen - 1].queue
        if not sent:
            raise Unfit(f"process {chosen} takes from an empty queue: {GIVE}")
        sent[0].take = number
        return sent.pop(0)

    def outcome(self):
        """What the last line must say, but for the choices skipped, which the steps do not tell."""
        if self.leader is None:
            return {"end": "0", "taken": str(len(self.steps)), "leader": "-", "value": "-"}
        return {"end": "1", "taken": str(len(self.steps)), "leader": str(self.leader), "value": str(self.value())}


def read_step(election, line):
    match = STEP.fullmatch(line)
    if not match:
        raise Unfit(f"expected a step, which is four numbers: {GIVE}")
    number, chosen, before, after = map(int, match.groups())
    expected = len(election.steps) + 1
    if number != expected:
        raise Unfit(f"expected step {expected}, found step {number}: {GIVE}")
    election.step(chosen, before, after)


def read_end(election, line):
    match = END.fullmatch(line)
    if not match:
        raise Unfit(f"expected the last line, 'end E taken T skipped S leader P value V': {GIVE}")
    end, taken, skipped, leader, value = match.groups()
    said = {"end": end, "taken": taken, "leader": leader, "value": value}
    for name, gave in election.outcome().items():
        if said[name] != gave:
            raise Unfit(f"{name} {said[name]}, where the steps give {gave}: {GIVE}")
    election.skipped = int(skipped)


def lines_of(text):
    """The lines of a text that an election may be read from."""
    lines = text.split("\n")
    if not lines[-1]:
        lines.pop()
    if not lines:
        raise Unfit(f"nothing on standard input: {GIVE}")
    refused = REFUSED.fullmatch(lines[0])
    if refused:
        raise Unfit(f"the program refused its input ({refused[1]}): there is no election to draw")
    return lines


def check_ring(identities):
    if len(identities) > LIMIT:
        raise Unfit(f"{len(identities)} identities, where a ring has at most {LIMIT}: {GIVE}")
    for identity in identities:
        if identities.count(identity) > 1:
            raise Unfit(f"identity {identity} is given more than once: {GIVE}")


def replay(identities, text):
    """The election that the text tells of a ring with these identities."""
    lines = lines_of(text)
    check_ring(identities)
    election = Election(identities)
    for number, line in enumerate(lines, 1):
        read = read_step if number < len(lines) else read_end
        try:
            read(election, line)
        except Unfit as unfit:
            raise Unfit(f"line {number}: {unfit}") from None
    return election
