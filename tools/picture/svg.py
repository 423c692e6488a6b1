"""SVG elements as text, the marks of the states, and the style of a picture on a light page and on a dark one."""

from html import escape

# colours by their use: on a light page, and on a dark one
PAGE = "#ffffff", "#0d1117"
BAND = "#eef2f7", "#18202b"
FAINT = "#d9dfe6", "#2b333f"
INK = "#1f2328", "#e6edf3"
GREY = "#5c6570", "#9aa4b0"
BLUE = "#0a55ad", "#7db8ff"
BROWN = "#9a4700", "#f2a85e"
GREEN = "#0f6b33", "#6fdd8b"
PAINTS = (
    (".page, .open, .tip.passive", "fill", PAGE),
    (".band", "fill", BAND),
    (".guide", "stroke", FAINT),
    ("text, .filled", "fill", INK),
    (".holds, .filled, .open", "stroke", INK),
    (".edge, .relay", "stroke", GREY),
    (".quiet, .relay.filled", "fill", GREY),
    ("text.active, .tip.active", "fill", BLUE),
    ("path.active", "stroke", BLUE),
    ("text.passive", "fill", BROWN),
    ("path.passive", "stroke", BROWN),
    (".star, text.announces", "fill", GREEN),
    ("rect.announces", "stroke", GREEN),
    (".halo", "stroke", PAGE),
    (".halo.odd", "stroke", BAND),
)
# a dark page is for screens alone: print stays light
DARK = "@media screen and (prefers-color-scheme: dark)"
STYLE = """text { font-family: "Helvetica Neue", Helvetica, Arial, "Liberation Sans", sans-serif; }
.middle { text-anchor: middle; }
.end { text-anchor: end; }
.identity, .strong, .foot, text.active, text.announces { font-weight: bold; }
.halo { paint-order: stroke; stroke-width: 5px; stroke-linejoin: round; }
.edge { stroke-dasharray: 1 4; }
.holds { stroke-width: 3px; }
.filled, .open { stroke-width: 1.8px; }
.relay { stroke-width: 1.2px; }
.sent { fill: none; stroke-width: 1.7px; }
.sent.passive { stroke-dasharray: 4 3; }
.tip { stroke-width: 1.4px; }
"""
STAR = "M0-10l2.47 6.6 7.04.31-5.51 4.39 1.88 6.79-5.88-3.89-5.88 3.89 1.88-6.79-5.51-4.39 7.04-.31z"


def number(value):
    """At most two decimals."""
    return f"{value:.2f}".rstrip("0").rstrip(".")


def tag(name, inside="", **attributes):
    """An element; class_ stands for class, data_put for data-put, and what is None is left out."""
    pairs = [(key.rstrip("_").replace("_", "-"), value) for key, value in attributes.items() if value is not None]
    head = name + "".join(f' {key}="{value if isinstance(value, str) else number(value)}"' for key, value in pairs)
    return f"<{head}>{inside}</{name}>" if inside else f"<{head}/>"


def told(name, text, **attributes):
    """An element with a text."""
    return tag(name, escape(str(text), quote=False), **attributes)


def path(points, end="", **attributes):
    """Straight lines through the points; with the end z, back to the first."""
    return tag("path", d="M" + "L".join(f"{number(x)} {number(y)}" for x, y in points) + end, **attributes)


def tip(kind):
    """The head of a message's line, filled or open by its class."""
    head = tag("path", class_=f"tip {kind}", d="M0 0 9 4 0 8z")
    return tag("marker", head, id=kind, viewBox="-1 -1 11 10", refX=9, refY=4, markerWidth=11, markerHeight=10,
               markerUnits="userSpaceOnUse", orient="auto")


def mark(state, x, y, half):
    """The mark of a state: filled where it has something to put, open where it listens, small and grey for relays."""
    kind = "filled" if state in (0, 2, 5) else "open"
    if state in (0, 1):
        return tag("circle", class_=kind, cx=x, cy=y, r=half)
    if state in (2, 3):
        half *= 1.25
        return path([(x, y - half), (x + half, y), (x, y + half), (x - half, y)], "z", class_=kind)
    if state in (4, 5):
        half *= 0.7
        return tag("rect", class_=f"relay {kind}", x=x - half, y=y - half, width=2 * half, height=2 * half)
    place = f"translate({number(x)} {number(y)}) scale({number(half / 5.5)})"
    return tag("path", class_="star", d=STAR, transform=place)


def paints(shade):
    return "".join(f"{selector} {{ {what}: {colours[shade]}; }}\n" for selector, what, colours in PAINTS)


def style(sizes):
    fonts = "".join(f".{kind} {{ font-size: {size}px; }}\n" for kind, size in sizes.items())
    return tag("style", f"\n{STYLE}{fonts}{paints(0)}{DARK} {{\n{paints(1)}}}\n")
