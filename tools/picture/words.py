"""What a picture says in words: its title and description, its foot, and a title for each message and each mark."""

KINDS = "passive", "active"
ORDERS = {1: "high byte first", 2: "low byte first", 3: "high byte first"}


def counted(number, thing):
    """How many things: no move, 1 move, 2 moves."""
    return f"{number or 'no'} {thing}{'s' if number > 1 else ''}"


def listed(things):
    *front, last = map(str, things)
    return f"{', '.join(front)} and {last}" if front else last


def leading(election):
    """Who leads with what, and whose identity that is."""
    value = election.value()
    owner = election.identities.index(value)
    whose = "its own identity" if owner == election.leader else f"the identity of process {owner}"
    return f"process {election.leader} leads with {value}, {whose}"


def title(election):
    ring = ", ".join(map(str, election.identities))
    moves = counted(len(election.steps), "move")
    if election.leader is None:
        return f"Election on the ring {ring}, unfinished after {moves}"
    return f"Election on the ring {ring}: after {moves} {leading(election)}"


def foot(election):
    """The program's last line in words, in two lines."""
    moves, skipped = counted(len(election.steps), "move"), f"{counted(election.skipped, 'choice')} skipped"
    if election.leader is not None:
        return f"{moves}; {leading(election)}", skipped
    return f"{moves}; nobody leads yet", f"{skipped}; {counted(len(election.queued()), 'message')} still queued"


def decided(step):
    """What a step decides, or None."""
    if step.drops_out():
        return f"process {step.process} becomes a relay in step {step.number}"
    if step.goes_on():
        return f"process {step.process} goes on with {step.d} in step {step.number}"
    if step.announces():
        return f"process {step.process} hears its own value and announces {step.d} in step {step.number}"
    return None


def of_ring(election):
    n = len(election.identities)
    identities = listed(election.identities)
    if n == 1:
        return f"A ring of one gateway, process 0 with identity {identities}, which sends to itself."
    return (f"A ring of {n} gateways, processes 0 to {n - 1} with identities {identities}; "
            f"each sends to the next, process {n - 1} to process 0.")


def of_orders(orders):
    low = [f"process {process}" for process, order in enumerate(orders) if order == ORDERS[2]]
    if not low:
        return []
    others = ", high byte first by the others" if len(low) < len(orders) else ""
    return [f"Low byte first is sent by {listed(low)}{others}."]


def of_round(election, number):
    decisions = [decided(step) for step in election.steps if step.round == number and decided(step)]
    return f"Round {number}: {', '.join(decisions) or 'nothing is decided'}."


def description(election, orders):
    """What happens: the ring, the rounds, who becomes a relay when, who announces what in which step."""
    rounds = 1 + max((step.round for step in election.steps), default=-1)
    sentences = [of_ring(election), *of_orders(orders), *(of_round(election, number) for number in range(rounds))]
    if election.leader is None:
        sentences.append(f"The run ends with nobody leading and {counted(len(election.queued()), 'message')} queued.")
    return " ".join(sentences)


def of_value(message):
    """What stands on a message's line."""
    return str(message.value) if KINDS[message.kind] == "active" else f"({message.value})"


def of_message(message, n):
    receiver = (message.sender + 1) % n
    taken = f"process {receiver} takes it in step {message.take}" if message.take else "it is still queued at the end"
    return f"step {message.put}: process {message.sender} puts {message.value}, {KINDS[message.kind]}; {taken}"


def of_step(step):
    """What a move does, its states, and what becomes of the process."""
    does, becomes = f"announces {step.d}", ""
    if step.took:
        does = f"takes {step.took.value}, {KINDS[step.took.kind]}"
    if step.put:
        does = f"puts {step.put.value}, {KINDS[step.put.kind]}"
    if step.drops_out():
        becomes = "; it becomes a relay"
    if step.goes_on():
        becomes = f"; it holds {step.d}"
    return f"step {step.number}: process {step.process} {does}; state {step.before} to {step.after}{becomes}"
