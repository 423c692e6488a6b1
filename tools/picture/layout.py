"""Where columns, rows, the lines of messages and the fronts of rounds stand in a picture, in pixels."""

from collections import namedtuple
from math import ceil

from picture.replay import ROUND

Point = namedtuple("Point", "x y")
# a straight part of a message's line, in the gap to the right of a process; gap -1 is to the left of process 0
Piece = namedtuple("Piece", "gap start end")

MARGIN = 20
LEAST_WIDTH = 480
# the width of a letter in parts of the text's size, as in a wide typeface
NARROW, LETTER, BROAD = 0.38, 0.63, 0.96
BOLD = 1.11


def wide(text, size, bold=False):
    letters = sum(NARROW if letter in " ,.:;()fijlt" else BROAD if letter in "mw" else LETTER for letter in text)
    return letters * size * (BOLD if bold else 1)


def between(start, end, part):
    return Point(start.x + part * (end.x - start.x), start.y + part * (end.y - start.y))


def height_at(points, x):
    """The height at x of a line through points, given from left to right."""
    start, end = next((start, end) for start, end in zip(points, points[1:]) if start.x < end.x and x <= end.x)
    return between(start, end, (x - start.x) / (end.x - start.x)).y


class Sheet:
    """The measures of a picture, chosen from the ring's size, its longest value and the number of steps."""

    def __init__(self, election, orders, foot):
        self.n = len(election.identities)
        self.steps = len(election.steps)
        self.row = max(12, min(26, 1000 // max(self.steps, 1)))
        roomy = self.row >= 16
        # half the width of a mark; how many steps from one number in the margin to the next
        self.mark, self.every = (5.5, 1) if roomy else (4.5, 5)
        self.sizes = {"value": 13, "note": 12} if roomy else {"value": 11, "note": 10}
        self.sizes.update(quiet=11, plain=12, strong=12, announces=13, foot=14)
        self.set_columns(max(election.identities), orders)
        self.set_width(foot)
        self.top = 94 if any(orders) else 80
        tail = 0.7 * self.row if election.leader is not None else max(2.5 * self.row, 40)
        self.bottom = self.y(self.steps) + tail

    def set_columns(self, longest, orders):
        """The distances between columns, and from the outer ones to the edges, that give every text room."""
        value = max(self.wide("value", longest, True), self.wide("value", f"({longest})"))
        note = self.wide("note", f"holds {longest}")
        head = max(self.wide("quiet", text) for text in [f"process {self.n - 1}", *filter(None, orders)])
        self.gap = ceil(max(value + 2 * self.mark + 20, note + 2 * self.mark + 12, head + 12, min(168, 680 / self.n)))
        self.side = ceil(max(value + self.mark + 16, note + self.mark + 10, head, self.gap / 2))
        self.sizes["identity"] = min(18, int((self.gap - 12) / wide(str(longest), 1, True)))

    def set_width(self, foot):
        """The width, and the edges between the steps' numbers on the left and the rounds' on the right."""
        steps, rounds = ceil(self.wide("quiet", "step")) + 20, ceil(self.wide("quiet", "round 0")) + 20
        inner = 2 * self.side + (self.n - 1) * self.gap
        self.width = max(steps + inner + rounds, ceil(self.wide("foot", foot, True)) + 2 * MARGIN, LEAST_WIDTH)
        self.left = (self.width - inner + steps - rounds) / 2
        self.right = self.left + inner

    def wide(self, kind, text, bold=False):
        return wide(str(text), self.sizes[kind], bold)

    def x(self, process):
        return self.left + self.side + process * self.gap

    def y(self, step):
        return self.top + step * self.row

    def before(self, process):
        """Where lines to a process end, clear of its marks."""
        return self.x(process) - self.mark - 3

    def after(self, process):
        """Where lines from a process start, clear of its marks."""
        return self.x(process) + self.mark + 2


class Lines:
    """The lines of messages, of which no two cross, and the fronts of rounds, which none of them crosses.

    Messages are taken in the order of their puts, each in the round of its put.
    """

    def __init__(self, sheet, election):
        self.sheet = sheet
        self.election = election
        entered = [self.entered(process) for process in range(sheet.n)]
        # the last front is the bottom, which nobody enters
        self.fronts = [self.front(number, entered) for number in range(max(map(len, entered)) + 1)]

    def queue(self, process):
        return self.election.processes[process].queue

    def of(self, message):
        """One piece, or two where it leaves at the right edge and comes in at the left."""
        sheet = self.sheet
        start = Point(sheet.after(message.sender), sheet.y(message.put))
        if message.take is None:
            queue = self.queue(message.sender)
            return [Piece(message.sender, start, self.at_bottom(message.sender, len(queue) - queue.index(message)))]
        receiver = (message.sender + 1) % sheet.n
        end = Point(sheet.before(receiver), sheet.y(message.take))
        if receiver > message.sender:
            return [Piece(message.sender, start, end)]
        y = (start.y + end.y) / 2
        return [Piece(message.sender, start, Point(sheet.right, y)), Piece(-1, Point(sheet.left, y), end)]

    def at_bottom(self, sender, place):
        """Where the line of a queued message stops: the newest, at place 1, the nearest to its sender."""
        sheet = self.sheet
        room = 0.8 * (sheet.side if sender == sheet.n - 1 else sheet.gap)
        return Point(sheet.after(sender) + room * place / len(self.queue(sender)), sheet.bottom)

    def entered(self, process):
        """The heights at which a process enters its rounds."""
        sheet = self.sheet
        own = [step for step in self.election.steps if step.process == process]
        return [sheet.top - sheet.row / 2] + [sheet.y(step.number) + sheet.row / 2 for step in own[ROUND - 1::ROUND]]

    def front(self, number, entered):
        """The line at which a round begins, across the picture; at the bottom where it has not begun."""
        sheet = self.sheet
        points = []
        for process, heights in enumerate(entered):
            height = heights[number] if number < len(heights) else sheet.bottom
            points += Point(sheet.before(process), height), Point(sheet.after(process), height)
            newer = [message for message in self.queue(process) if message.round >= number]
            if height < sheet.bottom and len(newer) < len(self.queue(process)):
                points.append(self.at_bottom(process, len(newer) + 0.5))
        # what leaves at the right edge comes in at the left at the same height
        y = (points[0].y + points[-1].y) / 2 if points[-1].y < sheet.bottom else sheet.bottom
        return [Point(0, y), Point(sheet.left, y), *points, Point(sheet.right, y), Point(sheet.width, y)]

    def round_at(self, spot):
        """The round in whose band a point lies."""
        return sum(height_at(front, spot.x) <= spot.y for front in self.fronts[1:])
