"""The figure of an election: what is drawn from back to front, then the foot and the legend."""

from math import ceil

from picture import words
from picture.layout import MARGIN, Lines, Sheet
from picture.legend import Legend
from picture.places import Places
from picture.replay import ACTIVE
from picture.svg import mark, number, path, style, tag, tip, told

# a picture that is taller has its heads once more at its foot
TALL = 1200


class Figure:
    def __init__(self, election, orders):
        self.election = election
        self.orders = orders
        self.sheet = Sheet(election, orders, words.foot(election)[0])
        self.lines = Lines(self.sheet, election)
        self.pieces = {message: self.lines.of(message) for message in election.messages}
        self.places = Places(self.sheet, [(piece, words.of_value(message), message.kind == ACTIVE)
                                          for message, pieces in self.pieces.items() for piece in pieces])

    def text(self, kind, said, x, y, more="", **attributes):
        """A text whose middle is at the height y; more are further classes."""
        base = y + 0.36 * self.sheet.sizes[kind]
        return told("text", said, class_=f"{kind} {more}".strip(), x=x, y=base, **attributes)

    def rounds(self):
        """A band for every other round, and the rounds' numbers."""
        fronts = self.lines.fronts
        for count, (above, below) in enumerate(zip(fronts, fronts[1:])):
            if count % 2:
                yield path(above + below[::-1], "z", class_="band")
            if below[-1].y - above[-1].y > 16:
                yield self.text("quiet", f"round {count}", self.sheet.right + 10, above[-1].y + 11)

    def guides(self):
        sheet = self.sheet
        yield self.text("quiet", "step", sheet.left - 12, sheet.top, "end")
        for step in range(sheet.every, sheet.steps + 1, sheet.every):
            y = sheet.y(step)
            yield path([(sheet.left - 8, y), (sheet.right, y)], class_="guide")
            yield self.text("quiet", step, sheet.left - 12, y, "end")

    def edges(self):
        """Where messages leave to the right and come in from the left; below, where an unfinished run stops."""
        sheet = self.sheet
        for x, where, process in (sheet.left, "from", sheet.n - 1), (sheet.right, "to", 0):
            yield self.text("quiet", where, x, 22, "middle")
            yield self.text("quiet", f"process {process}", x, 36, "middle")
            yield path([(x, 48), (x, sheet.bottom)], class_="edge")
        if self.election.leader is None:
            yield path([(sheet.left, sheet.bottom), (sheet.right, sheet.bottom)], class_="edge")

    def heads(self):
        """Process, identity and, where generations are mixed, byte order; low byte first stands out."""
        for process, (identity, order) in enumerate(zip(self.election.identities, self.orders)):
            x = self.sheet.x(process)
            inside = [self.text("quiet", f"process {process}", x, 22, "middle"),
                      self.text("identity", identity, x, 43, "middle")]
            if order:
                inside.append(self.text("plain" if order == words.ORDERS[2] else "quiet", order, x, 64, "middle"))
            yield tag("g", "".join(inside), class_="head", data_process=process, data_identity=identity)

    def columns(self):
        """A strong line while a process holds a value, a thin one from where it is a relay."""
        sheet = self.sheet
        dropped = {step.process: sheet.y(step.number) for step in self.election.steps if step.drops_out()}
        for process in range(sheet.n):
            x = sheet.x(process)
            end = sheet.y(sheet.steps) if process == self.election.leader else sheet.bottom
            turn = dropped.get(process, end)
            yield path([(x, sheet.top), (x, turn)], class_="holds")
            if turn < end:
                yield path([(x, turn), (x, end)], class_="relay")

    def messages(self):
        for message, pieces in self.pieces.items():
            kind = words.KINDS[message.kind]
            # only the piece that is taken has a head
            heads = [None] * (len(pieces) - 1) + [f"url(#{kind})" if message.take else None]
            inside = told("title", words.of_message(message, self.sheet.n))
            inside += "".join(path([piece.start, piece.end], class_=f"sent {kind}", marker_end=head)
                              for piece, head in zip(pieces, heads))
            yield tag("g", inside, class_=f"message {kind}", data_from=message.sender, data_value=message.value,
                      data_put=message.put, data_take=message.take)

    def marks(self):
        sheet = self.sheet
        for process in range(sheet.n):
            yield mark(0, sheet.x(process), sheet.top, sheet.mark)
        for step in self.election.steps:
            inside = told("title", words.of_step(step))
            inside += mark(step.after, sheet.x(step.process), sheet.y(step.number), sheet.mark)
            yield tag("g", inside, class_="mark", data_step=step.number, data_process=step.process,
                      data_state=step.after)

    def halo(self, kind, said, spot, more="", **attributes):
        """A text that stands out from lines, in the colour of the band behind it."""
        band = "odd" if self.lines.round_at(spot) % 2 else ""
        return self.text(kind, said, *spot, f"{more} halo {band}".strip(), **attributes)

    def notes(self):
        """What a process decided, beside the mark."""
        for step in self.election.steps:
            if step.goes_on() or step.drops_out():
                said = f"holds {step.d}" if step.goes_on() else "relay"
                spot = self.places.beside(step, said)
                yield self.halo("note", said, spot, "end" if spot.x < self.sheet.x(step.process) else "")

    def values(self):
        for message, pieces in self.pieces.items():
            for piece in pieces:
                yield self.halo("value", words.of_value(message), self.places.on(piece),
                                f"{words.KINDS[message.kind]} middle", data_put=message.put)

    def announcement(self):
        """A box below the leader's star."""
        sheet = self.sheet
        if self.election.leader is None:
            return
        said = f"announces {self.election.value()}"
        x, y = sheet.x(self.election.leader), sheet.y(sheet.steps) + 28
        half = sheet.wide("announces", said, True) / 2 + 8
        box = tag("rect", class_="page announces", x=x - half, y=y - 12, width=2 * half, height=24, rx=4)
        yield tag("g", box + self.text("announces", said, x, y, "middle"), class_="announcement",
                  data_process=self.election.leader, data_value=self.election.value())

    def again(self, y):
        """Which column is whose, once more."""
        for process in range(self.sheet.n):
            yield self.text("quiet", f"process {process}", self.sheet.x(process), y, "middle")

    def foot(self, y):
        first, second = words.foot(self.election)
        yield self.text("foot", first, MARGIN, y)
        yield self.text("plain", second, MARGIN, y + 20)

    def below(self):
        """What stands below the columns, and the picture's height."""
        y = self.sheet.bottom + (30 if self.election.leader is None else 54)
        drawn = []
        if self.sheet.bottom - self.sheet.top > TALL:
            drawn += self.again(y)
            y += 36
        drawn += self.foot(y)
        legend, bottom = Legend(self.sheet, self.text, self.election.leader is not None).draw(MARGIN, y + 50)
        return drawn + [tag("g", "".join(legend), class_="legend")], ceil(bottom) + 8

    def parts(self, below, height):
        """All elements, from back to front."""
        # notes choose their places before values, which have a whole line to stand on
        notes = list(self.notes())
        yield told("title", words.title(self.election), id="title")
        yield told("desc", words.description(self.election, self.orders), id="desc")
        yield style(self.sheet.sizes)
        yield tag("defs", tip("active") + tip("passive"))
        yield tag("rect", class_="page", width=self.sheet.width, height=height)
        for layer in (self.rounds(), self.guides(), self.edges(), self.heads(), self.columns(), self.messages(),
                      self.marks(), notes, self.values(), self.announcement(), below):
            yield from layer

    def svg(self):
        below, height = self.below()
        width = self.sheet.width
        inside = "".join(f"\n{part}" for part in self.parts(below, height))
        return tag("svg", inside + "\n", xmlns="http://www.w3.org/2000/svg", width=width, height=height,
                   viewBox=f"0 0 {number(width)} {number(height)}", role="img", aria_labelledby="title desc") + "\n"
