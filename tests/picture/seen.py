"""What is in a picture that tools/draw made: its elements by class, where they stand, and its colours."""

import re
from collections import namedtuple
from xml.etree import ElementTree

SVG = "{http://www.w3.org/2000/svg}"
# the width of a letter, of a space or a stop, and what is above and below a text's base, in parts of its size
LETTER, SPACE, ABOVE, BELOW = 0.6, 0.35, 0.75, 0.1
# how much wider bold letters are
BOLD = 1.1

Shape = namedtuple("Shape", "left top right bottom said")


def numbers(text):
    return [float(number) for number in re.findall(r"-?[0-9.]+", text)]


def points(path):
    """The points of a path of straight lines."""
    flat = numbers(path.get("d"))
    return list(zip(flat[::2], flat[1::2]))


def rules(style):
    """Each selector with its declarations."""
    found = {}
    for selectors, body in re.findall(r"([^{}]+){([^{}]*)}", style):
        declared = dict(declaration.strip().split(": ") for declaration in body.split(";") if declaration.strip())
        for selector in selectors.split(","):
            found.setdefault(selector.strip(), {}).update(declared)
    return found


def centre(mark):
    """The middle of a mark, whose first child is its title."""
    shape = mark[1]
    if shape.tag == f"{SVG}circle":
        return float(shape.get("cx")), float(shape.get("cy"))
    if shape.tag == f"{SVG}rect":
        x, y, width, height = (float(shape.get(name)) for name in ("x", "y", "width", "height"))
        return round(x + width / 2, 2), round(y + height / 2, 2)
    if shape.get("transform"):
        x, y, _ = numbers(shape.get("transform"))
        return x, y
    (x, _), (_, y), *_ = points(shape)
    return x, y


def inside(polygon, x, y):
    """Whether a point lies in a polygon: a line from it to the right meets the border an odd number of times."""
    met = 0
    for (start_x, start_y), (end_x, end_y) in zip(polygon, polygon[1:] + polygon[:1]):
        if (start_y > y) != (end_y > y):
            met += x < start_x + (y - start_y) / (end_y - start_y) * (end_x - start_x)
    return met % 2 == 1


def light_of(colour):
    """The relative luminance of a colour as #rrggbb."""
    parts = [int(colour[at:at + 2], 16) / 255 for at in (1, 3, 5)]
    linear = [part / 12.92 if part <= 0.03928 else ((part + 0.055) / 1.055) ** 2.4 for part in parts]
    return 0.2126 * linear[0] + 0.7152 * linear[1] + 0.0722 * linear[2]


def contrast(one, other):
    darker, lighter = sorted(light_of(colour) for colour in (one, other))
    return (lighter + 0.05) / (darker + 0.05)


class Picture:
    def __init__(self, data):
        self.root = ElementTree.fromstring(data)
        self.style = self.root.find(f"{SVG}style").text
        light, dark = re.split("@media[^{]*{", self.style)
        self.rules = {"light": rules(light), "dark": rules(dark)}
        self.places = {int(mark.get("data-step")): centre(mark) for mark in self.of("mark")}

    def child(self, name):
        return self.root.find(SVG + name)

    def of(self, kind):
        """The elements of a class."""
        return [element for element in self.root.iter() if kind in element.get("class", "").split()]

    def columns(self):
        """The x of each process."""
        return [float(head[0].get("x")) for head in self.of("head")]

    def place(self, step):
        """Where the mark of a step is."""
        return self.places[step]

    def values(self, put):
        """The texts on the line of the message put in a step."""
        return [value for value in self.root.iter(f"{SVG}text") if value.get("data-put") == str(put)]

    def declared(self, kinds, name):
        """What the style says of texts with these classes, or None."""
        selectors = [selector for kind in kinds for selector in (f".{kind}", f"text.{kind}")]
        found = [self.rules["light"][selector].get(name) for selector in selectors if selector in self.rules["light"]]
        return next(filter(None, found), None)

    def shape(self, text):
        """The space that a text takes, about."""
        kinds = text.get("class").split()
        size, = numbers(self.declared(kinds, "font-size"))
        long = size * sum(SPACE if letter in " ,;()" else LETTER for letter in text.text)
        if self.declared(kinds, "font-weight"):
            long *= BOLD
        x, y = float(text.get("x")), float(text.get("y"))
        left = {"middle": x - long / 2, "end": x - long, None: x}[self.declared(kinds, "text-anchor")]
        return Shape(left, y - ABOVE * size, left + long, y + BELOW * size, text.text)

    def texts(self):
        return [self.shape(text) for text in self.root.iter(f"{SVG}text")]
