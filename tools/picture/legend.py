"""The legend of a picture: what its marks and its lines mean."""

from picture.svg import mark, path

STATES = (
    "sends its value",
    "listens for a value",
    "compares with its own",
    "listens, then decides",
    "relay, listens",
    "relay, carries a value",
    "leads, has announced",
)
LINE = 20


class Legend:
    """text is the function that writes a text."""

    def __init__(self, sheet, text, finished):
        self.sheet = sheet
        self.text = text
        self.finished = finished

    def blocks(self):
        """Each block's indent and its entries: how a sign is drawn, of what, and what it means."""
        states = [(self.state, state, said) for state, said in enumerate(STATES)]
        queued = [] if self.finished else [(self.queued, "active", "still queued")]
        lines = [(self.message, "active", "active message"), (self.message, "passive", "passive message"), *queued,
                 (self.column, "holds", "holds a value"), (self.column, "relay", "is a relay")]
        return (38, states[:4]), (38, states[4:]), (64, lines)

    def draw(self, left, y):
        """The elements and the legend's lower end; a block is below where to the right there is no room."""
        drawn = []
        x, bottom = left, y
        for indent, entries in self.blocks():
            long = indent + max(self.sheet.wide("plain", said) for _, _, said in entries)
            if x + long > self.sheet.width:
                x, y = left, bottom + 10
            drawn += self.block(x, y, indent, entries)
            x += long + 24
            bottom = max(bottom, y + len(entries) * LINE)
        return drawn, bottom

    def block(self, x, y, indent, entries):
        for sign, what, said in entries:
            yield sign(what, x, y)
            yield self.text("plain", said, x + indent, y)
            y += LINE

    def state(self, state, x, y):
        return mark(state, x + 8, y, 5.5) + self.text("strong", state, x + 23, y)

    def message(self, kind, x, y):
        line = path([(x, y - 4), (x + 52, y + 4)], class_=f"sent {kind}", marker_end=f"url(#{kind})")
        return line + self.text("plain", "7" if kind == "active" else "(7)", x + 23, y, f"{kind} middle halo")

    def queued(self, kind, x, y):
        return path([(x, y - 4), (x + 52, y + 4)], class_=f"sent {kind}")

    def column(self, kind, x, y):
        return path([(x + 26, y - 7), (x + 26, y + 7)], class_=kind)
