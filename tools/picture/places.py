"""Places for texts between the columns: clear of each other, and of lines where that can be."""

from collections import namedtuple

from picture.layout import Point, between

Box = namedtuple("Box", "left top right bottom")

# half the height of a line of text, in parts of its size
HALF = 0.55
# where on its line a message's value is tried, the middle first
SPOTS = 0.5, 0.44, 0.56, 0.38, 0.62, 0.32, 0.68, 0.26, 0.74, 0.2, 0.8, 0.14, 0.86
# how far below its mark a note is tried, in parts of its size: to its right, and to its left, clear of lines' heads
RIGHT = 0, 0.5, -0.5, 0.9, 1.4
LEFT = 1.15, 1.4


def middle(box):
    return Point((box.left + box.right) / 2, (box.top + box.bottom) / 2)


def apart(one, other):
    return (one.right + 2 <= other.left or other.right + 2 <= one.left
            or one.bottom <= other.top or other.bottom <= one.top)


def crosses(piece, box):
    """Whether a line, which goes to the right and down, meets a box."""
    start, end = piece.start, piece.end
    left, right = max(start.x, box.left), min(end.x, box.right)
    if left >= right:
        return False
    slope = (end.y - start.y) / (end.x - start.x)
    return start.y + slope * (left - start.x) < box.bottom and start.y + slope * (right - start.x) > box.top


class Places:
    """The texts placed so far, the lines, and where on them values may stand, gap by gap."""

    def __init__(self, sheet, values):
        """values are the pieces of the lines, each with its text and whether that is bold."""
        self.sheet = sheet
        self.texts = {gap: [] for gap in range(-1, sheet.n)}
        self.spots = {gap: {} for gap in self.texts}
        for piece, text, bold in values:
            self.spots[piece.gap][piece] = self.spots_on(piece, text, bold)

    def spots_on(self, piece, text, bold):
        """Boxes for a value on its line, between the marks and the line's head."""
        sheet = self.sheet
        half, high = sheet.wide("value", text, bold) / 2, HALF * sheet.sizes["value"]
        left = sheet.after(piece.gap) + 2 if piece.gap >= 0 else sheet.left + 3
        right = sheet.before(piece.gap + 1) - 11 if piece.gap < sheet.n - 1 else sheet.right - 3
        boxes = []
        for spot in SPOTS:
            x, y = between(piece.start, piece.end, spot)
            x = max(left + half, min(right - half, x))
            boxes.append(Box(x - half, y - high, x + half, y + high))
        return boxes

    def on(self, piece):
        """The middle of a message's value on its line; of the best boxes the first."""
        box = min(self.spots[piece.gap][piece], key=lambda box: self.cost(piece.gap, box, piece))
        self.texts[piece.gap].append(box)
        return middle(box)

    def beside(self, step, text):
        """The end, next to the mark of a step, of a note to its right or to its left; notes come before values."""
        sheet = self.sheet
        size = sheet.sizes["note"]
        long, far = sheet.wide("note", text), sheet.mark + 5
        x, y = sheet.x(step.process), sheet.y(step.number)
        sides = [(step.process, x + far, y + drop * size) for drop in RIGHT]
        sides += [(step.process - 1, x - far - long, y + drop * size) for drop in LEFT]
        half = HALF * size
        candidates = [(gap, Box(left, base - half, left + long, base + half)) for gap, left, base in sides]
        gap, box = min(candidates, key=lambda candidate: self.cost(*candidate))
        self.texts[gap].append(box)
        return Point(box.left if box.left > x else box.right, middle(box).y)

    def cost(self, gap, box, own=None):
        """How many texts a box meets, how many values it leaves no spot, and how many lines it hides."""
        spots = self.spots[gap]
        return (sum(not apart(box, text) for text in self.texts[gap]),
                sum(not any(apart(box, spot) for spot in boxes) for piece, boxes in spots.items() if piece is not own),
                sum(crosses(piece, box) for piece in spots if piece is not own))
