"""What must be in a picture: each check is given the picture and what the model expects, and raises Wrong."""

import re
from itertools import product

from picture.seen import SVG, centre, contrast, inside, points

# how much of a difference is told
LONG = 2000
# how far from its column a message's line may begin and end, clear of the marks
NEAR = 12
ORDERS = {1: "high byte first", 2: "low byte first", 3: "high byte first"}
SHAPES = ("circle filled", "circle open", "path filled", "path open", "rect relay open", "rect relay filled",
          "path star")
# what the legend says of each state, one word of it
MEANINGS = "sends", "listens", "compares", "decides", "relay", "carries", "leads"
ELEMENTS = "svg|title|desc|style|defs|marker|rect|path|circle|g|text"
# texts and lines, and the least contrast of each
TEXTS = "text", ".quiet", "text.active", "text.passive", "text.announces"
LINES = ".holds", ".filled", ".open", ".edge", ".relay", "path.active", "path.passive", ".star", "rect.announces"
CONTRASTS = [(4.5, "fill", selector) for selector in TEXTS] + \
            [(3, "fill" if selector == ".star" else "stroke", selector) for selector in LINES]


class Wrong(Exception):
    """How a picture or a call differs from what it must be."""


def same(what, seen, expected):
    if seen != expected:
        raise Wrong(f"{what}\n  seen     {str(seen)[:LONG]}\n  expected {str(expected)[:LONG]}")


def holds(what, true):
    if not true:
        raise Wrong(what)


def check_frame(picture, _):
    """The root's attributes, and what must not be there: scripts, references, long numbers."""
    root = picture.root
    _, _, width, height = root.get("viewBox").split()
    same("root", (root.tag, root.get("role"), root.get("width"), root.get("height")),
         (f"{SVG}svg", "img", width, height))
    same("labels", root.get("aria-labelledby").split(), [picture.child(name).get("id") for name in ("title", "desc")])
    for element in root.iter():
        holds(f"element {element.tag}", re.fullmatch(ELEMENTS, element.tag.replace(SVG, "")))
    for name, value in (pair for element in root.iter() for pair in element.items()):
        holds(f"attribute {name} {value}", not re.search("href|^on", name) and not re.search(r"\.\d{3}|//", value))
    holds("the style stands alone", not re.search(r"@import|url|var\(", picture.style))


def check_words(picture, expected):
    """The title, the description and the foot."""
    title, desc = (picture.child(name).text for name in ("title", "desc"))
    foot = " ".join(text.text for text in picture.root.iter(f"{SVG}text"))
    ring = ", ".join(map(str, expected.case.identities))
    holds(f"ring {ring} in '{title}'", title.startswith(f"Election on the ring {ring}"))
    taken = len(expected.ring.trace)
    holds(f"{taken} moves in the foot", f" {taken or 'no'} move{'s' if taken > 1 else ''}; " in foot)
    for said in outcome(expected):
        holds(f"'{said}' in title or foot", said in title + foot)
    found = re.findall(r"process (\d+) (becomes a relay|goes on with \d+|hears its own value and announces \d+) "
                       r"in step (\d+)", desc)
    same("decisions", sorted((int(step), int(process), what) for process, what, step in found), expected.decisions())


def outcome(expected):
    """What title and foot say of the end."""
    leads = expected.ring.leads()
    if not leads:
        queued = sum(message.take is None for message in expected.sent)
        messages = f"{queued or 'no'} message{'s' if queued > 1 else ''}"
        return ["unfinished after", "nobody leads yet", f"{messages} still queued"]
    process, value = leads
    owner = expected.case.identities.index(value)
    whose = "its own identity" if owner == process else f"the identity of process {owner}"
    return [f"process {process} leads with {value}, {whose}"]


def check_heads(picture, expected):
    """A head for each process, with its identity and, where one is of generation 2, its byte order."""
    case = expected.case
    mixed = 2 in case.generations
    same("heads", [[text.text for text in head.iter(f"{SVG}text")] for head in picture.of("head")],
         [[f"process {process}", str(identity)] + [ORDERS[generation]] * mixed
          for process, (identity, generation) in enumerate(zip(case.identities, case.generations))])
    columns = picture.columns()
    holds("columns from left to right", columns == sorted(set(columns)))


def check_marks(picture, expected):
    """A mark for each step, in its column and its row, with the shape of its state, grey for relays."""
    marks = picture.of("mark")
    same("marks", [tuple(int(mark.get(f"data-{name}")) for name in ("step", "process", "state")) for mark in marks],
         [(step, process, after) for step, (process, _, after) in enumerate(expected.ring.trace, 1)])
    columns, rows = picture.columns(), [centre(mark)[1] for mark in marks]
    for step, (mark, (process, _, state)) in enumerate(zip(marks, expected.ring.trace), 1):
        x, y = centre(mark)
        row = rows[0] + (step - 1) * (rows[-1] - rows[0]) / max(len(rows) - 1, 1)
        holds(f"place of step {step}", abs(x - columns[process]) < 0.1 and abs(y - row) < 0.1)
        same(f"shape of step {step}", f"{mark[1].tag.replace(SVG, '')} {mark[1].get('class')}", SHAPES[state])
        holds(f"title of step {step}", mark[0].text.startswith(f"step {step}: process {process} "))


def check_messages(picture, expected):
    """An element for each put, with its value, its kind and its steps."""
    names = "from", "value", "put", "take"
    seen = picture.of("message")
    same("messages", [[message.get("class"), *(message.get(f"data-{name}") for name in names)] for message in seen],
         [[f"message {expected.kind(sent)}", str(sent.sender), str(sent.value), str(sent.put),
           str(sent.take) if sent.take else None] for sent in expected.sent])
    same("titles", [message[0].text for message in seen], [expected.title(sent) for sent in expected.sent])
    for message, sent in zip(seen, expected.sent):
        check_line(picture, expected, sent, message[1:])
        check_values(picture, expected, sent, message[1:])


def check_line(picture, expected, sent, paths):
    """A line goes from mark to mark, round the edges in two parts; it has a head where it is taken."""
    kind = expected.kind(sent)
    same(f"kinds of {sent}", {path.get("class") for path in paths}, {f"sent {kind}"})
    same(f"heads of {sent}", [path.get("marker-end") for path in paths],
         [None] * (len(paths) - 1) + [f"url(#{kind})" if sent.take else None])
    (left, _), (right, bottom) = (points(edge)[-1] for edge in picture.of("edge")[:2])
    (start_x, start_y), (end_x, end_y) = points(paths[0])[0], points(paths[-1])[-1]
    mark_x, mark_y = picture.place(sent.put)
    holds(f"begin of {sent}", 0 < start_x - mark_x < NEAR and abs(start_y - mark_y) < 0.1)
    if not sent.take:
        same(f"open end of {sent}", (len(paths), end_y), (1, bottom))
        return
    mark_x, mark_y = picture.place(sent.take)
    holds(f"end of {sent}", 0 < mark_x - end_x < NEAR and abs(end_y - mark_y) < 0.1)
    joints = [(points(one)[-1], points(other)[0]) for one, other in zip(paths, paths[1:])]
    y = points(paths[0])[-1][1]
    same(f"edges of {sent}", joints, [((right, y), (left, y))] if sent.sender == expected.n - 1 else [])


def check_values(picture, expected, sent, paths):
    """The value stands on each part of the line, passive ones in parentheses."""
    kind = expected.kind(sent)
    values = picture.values(sent.put)
    said = str(sent.value) if kind == "active" else f"({sent.value})"
    same(f"values of {sent}", [(value.text, kind in value.get("class").split()) for value in values],
         [(said, True)] * len(paths))
    for shape, ((start_x, start_y), (end_x, end_y)) in zip(map(picture.shape, values), map(points, paths)):
        y = (shape.top + shape.bottom) / 2
        x = start_x + (y - start_y) / (end_y - start_y) * (end_x - start_x)
        holds(f"{shape} on its line", start_y < y < end_y and shape.left - NEAR < x < shape.right + NEAR)


def check_announcement(picture, expected):
    leads = expected.ring.leads()
    same("announcement", [(int(box.get("data-process")), int(box.get("data-value")))
                          for box in picture.of("announcement")], [leads] if leads else [])


def check_rounds(picture, expected):
    """Of each process the moves of every other round, which has four, lie in a band."""
    bands = [points(band) for band in picture.of("band")]
    moves = [0] * expected.n
    for step, (process, _, _) in enumerate(expected.ring.trace, 1):
        in_band = any(inside(band, *picture.place(step)) for band in bands)
        same(f"step {step} in a band", in_band, moves[process] // 4 % 2 == 1)
        moves[process] += 1


def check_notes(picture, expected):
    """What is decided stands beside its mark."""
    said = {"becomes a relay": "relay"}
    notes = [(step, process, said.get(what, what.replace("goes on with", "holds")))
             for step, process, what in expected.decisions() if "announces" not in what]
    seen = picture.of("note")
    same("notes", [note.text for note in seen], [what for _, _, what in notes])
    for note, (step, _, _) in zip(seen, notes):
        x, y = picture.place(step)
        holds(f"note of step {step}", abs(float(note.get("x")) - x) < NEAR and abs(float(note.get("y")) - y) < 2 * NEAR)


def check_columns(picture, expected):
    """A process's line is strong down to where it becomes a relay, and thin from there."""
    turns = {process: picture.place(step) for step, process, what in expected.decisions() if "relay" in what}
    strong = [points(path)[-1] for path in picture.of("holds")]
    thin = [points(path)[0] for path in picture.of("relay") if path.tag == f"{SVG}path"]
    for process, x in enumerate(picture.columns()):
        same(f"strong line of process {process}", [end for end in strong if end[0] == x][0] == turns.get(process),
             process in turns)
        same(f"thin line of process {process}", [start for start in thin if start[0] == x],
             [turns[process]] if process in turns else [])


def check_legend(picture, expected):
    """Each state with its mark, its number and its meaning, and each kind of line."""
    legend, = picture.of("legend")
    at = {text.text: place for place, text in enumerate(legend)}
    for state, (shape, meaning) in enumerate(zip(SHAPES, MEANINGS)):
        mark, _, said = legend[at[str(state)] - 1:at[str(state)] + 2]
        same(f"mark of state {state} in the legend", f"{mark.tag.replace(SVG, '')} {mark.get('class')}", shape)
        holds(f"'{meaning}' in '{said.text}'", meaning in said.text)
    for line, said in (("sent active", "active message"), ("sent passive", "passive message"),
                       ("holds", "holds a value"), ("relay", "is a relay")):
        holds(f"'{said}' in the legend", line in (sign.get("class") for sign in legend[at[said] - 2:at[said]]))
    same("'still queued' in the legend", "still queued" in at, not expected.ring.leads())


def check_texts(picture, _):
    """No text is cut off, and none runs into another."""
    _, _, width, height = map(float, picture.root.get("viewBox").split())
    texts = sorted(picture.texts(), key=lambda text: text.top)
    for at, text in enumerate(texts):
        holds(f"{text} in {width} {height}",
              text.left >= 0 and text.right <= width and text.top >= 0 and text.bottom <= height)
        for other in texts[at + 1:]:
            if other.top >= text.bottom:
                break
            holds(f"{text} clear of {other}", other.left >= text.right or other.right <= text.left)


def check_colours(picture, _):
    """Enough contrast on page and band, light and dark; the dark colours are for screens alone."""
    for shade, (least, what, selector), ground in product(picture.rules, CONTRASTS, (".page", ".band")):
        rules = picture.rules[shade]
        holds(f"{shade} {selector} on {ground}", contrast(rules[selector][what], rules[ground]["fill"]) >= least)
    same("conditions", re.findall("@[^{]*", picture.style), ["@media screen and (prefers-color-scheme: dark) "])


ALL = (check_frame, check_words, check_heads, check_marks, check_messages, check_announcement, check_rounds,
       check_notes, check_columns, check_legend, check_texts, check_colours)
