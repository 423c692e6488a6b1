"""What tests/model.py says of a run that is drawn: its text, its messages with their steps, and what is decided."""

from collections import namedtuple

from bench_cases import given
from model import ACTIVE, Ring, bench, write

Case = namedtuple("Case", "name identities generations capacity schedule")
Sent = namedtuple("Sent", "sender value kind put take")


def case(name, identities, capacity, schedule, generations=None):
    return Case(name, identities, generations or [1] * len(identities), capacity, bytes(schedule))


class Expected:
    """A case run by the model; sent holds every message in the order of the puts, read off the queues alone."""

    def __init__(self, case):
        self.case = case
        self.n = len(case.identities)
        frames = [write(generation, ACTIVE, identity)
                  for identity, generation in zip(case.identities, case.generations)]
        self.text = bench(given(case.capacity, frames, case.schedule))
        self.ring = Ring(case.identities, case.capacity)
        self.sent = []
        self.queues = [[] for _ in case.identities]
        for choice in case.schedule:
            self.choose(choice)

    def choose(self, choice):
        lengths = [len(process.sent) for process in self.ring.processes]
        if self.ring.leads() or not self.ring.tries(choice):
            return
        for sender, length in enumerate(lengths):
            self.compare(sender, length, self.ring.processes[sender].sent)

    def compare(self, sender, length, queue):
        """A queue that grew has one message more; of one that shrank the oldest was taken."""
        step = len(self.ring.trace)
        if len(queue) > length:
            self.queues[sender].append(len(self.sent))
            self.sent.append(Sent(sender, *queue[-1], step, None))
        elif len(queue) < length:
            oldest = self.queues[sender].pop(0)
            self.sent[oldest] = self.sent[oldest]._replace(take=step)

    def arguments(self):
        pairs = zip(self.case.identities, self.case.generations)
        return [f"{identity}@{generation}" if generation > 1 else str(identity) for identity, generation in pairs]

    def kind(self, message):
        return "active" if message.kind == ACTIVE else "passive"

    def title(self, message):
        """The title of a message in the picture."""
        then = "it is still queued at the end"
        if message.take:
            then = f"process {(message.sender + 1) % self.n} takes it in step {message.take}"
        return f"step {message.put}: process {message.sender} puts {message.value}, {self.kind(message)}; {then}"

    def decisions(self):
        """Each step out of state 3 or into state 6, its process and what is said of it."""
        found = []
        for step, (process, before, after) in enumerate(self.ring.trace, 1):
            said = {(3, 4): "becomes a relay", (3, 0): f"goes on with {self.next_value(process, step)}",
                    (2, 6): f"hears its own value and announces {self.ring.processes[process].d}"}
            if (before, after) in said:
                found.append((step, process, said[before, after]))
        return found

    def next_value(self, process, step):
        """What a process puts next after a step, or its d at the end."""
        later = [message.value for message in self.sent if message.sender == process and message.put > step]
        return later[0] if later else self.ring.processes[process].d
