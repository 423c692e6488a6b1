"""What tools/draw must refuse: a name, the arguments, the text, and a pattern of the one line that says why."""

import re

from picture.expected import Expected, case

RING = "3", "7", "4"
THREE = Expected(case("three", [3, 7, 4], 1, [0, 1, 2] * 9)).text
LINES = THREE.splitlines()
END = LINES[-1]
NO_STEPS = ("", "hello", "4 0 1", "4 0 1 2 3", " 4 0 1 2", "4 0 1 2 ", "4  0 1 2", "4 0 1 x", "4 0 1 -2", "+4 0 1 2",
            "4 0 1 2\r", "4\t0\t1\t2", "04 0 1 2", "4 0 1 2.0", "4 0 1 \u0662", "4 0 1 " + 5000 * "2", END, "refused 4")
NO_ENDS = ("", "end 1", "end 1 taken 19 skipped 8 leader 2", END + " ", END.upper(), "20 0 4 5", "refused 1",
           END.replace("8", "-"), END.replace("7", "+7"), END.replace("2", "02"))
NO_IDENTITIES = "", "-1", "+1", "1.5", "0x10", "08a", " 9", "9\n9", "@2", "4294967296", "9" * 5000, "\u0663"


def changed(number, line):
    """The text of ring 3, 7, 4 with another line in the place of one, counted from 1; None leaves it out."""
    return "".join(f"{kept}\n" for kept in LINES[:number - 1] + [line] * (line is not None) + LINES[number:])


def texts():
    """Texts that are not the program's, or hold no election."""
    yield "nothing", RING, "", "nothing on standard input: give "
    for number, ring in (1, RING), (2, RING), (4, RING), (4, ("5", "5")), (13, RING):
        yield (f"refused {number}", ring, f"refused {number}\n",
               rf"the program refused its input \({number}\): there is no election to draw")
    for line in NO_STEPS:
        yield f"step {line[:20]!r}", RING, changed(4, line), "line 4: expected a step, which is four numbers: give "
    for line in NO_ENDS:
        yield f"end {line!r}", RING, changed(20, line), "line 20: expected the last line, 'end E taken T skipped S "
    yield "no end", RING, changed(20, None), "line 19: expected the last line, "
    yield "a line more", RING, THREE + "\n", "line 20: expected a step, "
    yield "twice", RING, THREE + THREE, "line 20: expected a step, "
    yield "bytes", RING, "\udcff\udcfe\0", "line 1: expected the last line, "


def misfits():
    """Texts of the right form that the identities, or the steps before, do not give."""
    yield "a step left out", RING, changed(4, None), "line 4: expected step 4, found step 5: give "
    yield "a step again", RING, changed(5, LINES[3]), "line 5: expected step 5, found step 4: give "
    yield "step 0", RING, changed(1, "0 0 0 1"), "line 1: expected step 1, found step 0: give "
    yield "process", RING, changed(4, "4 3 1 2"), "line 4: process 3 is not below 3: give "
    yield "fewer identities", RING[:2], THREE, "line 3: process 2 is not below 2: give "
    yield "state before", RING, changed(4, "4 0 0 1"), "line 4: process 0 is in state 1 and not in 0: give "
    yield "state 7", RING, changed(4, "4 0 7 1"), "line 4: process 0 is in state 1 and not in 7: give "
    yield "empty queue", RING, f"1 0 0 1\n2 0 1 2\n{END}\n", "line 2: process 0 takes from an empty queue: give "
    yield "empty again", RING, changed(14, "14 1 4 5"), "line 14: process 1 takes from an empty queue: give "
    yield "more identities", (*RING, "1"), THREE, "line 4: process 0 takes from an empty queue: give "
    yield "state after", RING, changed(1, "1 0 0 2"), "line 1: process 0 goes from state 0 to 2 and not to 1: give "
    yield "goes on", RING, changed(10, "10 0 3 0"), "line 10: process 0 goes from state 3 to 0 and not to 4: give "
    yield "drops out", RING, changed(12, "12 2 3 4"), "line 12: process 2 goes from state 3 to 4 and not to 0: give "
    yield "announces", RING, changed(7, "7 0 2 6"), "line 7: process 0 goes from state 2 to 6 and not to 3: give "
    yield "identities turned", ("7", "3", "4"), THREE, "line 11: process 1 goes from state 3 to 4 and not to 0: give "
    yield "leader moves", RING, changed(20, f"20 2 6 6\n{END}"), "line 20: a step, where process 2 has announced: give "
    yield "relay moves", RING, changed(20, f"20 0 4 5\n{END}"), "line 20: a step, where process 2 has announced: give "


def ends():
    """Last lines that the steps do not give, of an election and of an unfinished one."""
    for name, said, gave in (("end", 0, 1), ("end", 2, 1), ("taken", 18, 19), ("leader", 1, 2), ("leader", "-", 2),
                             ("value", 4, 7), ("value", "-", 7)):
        line = END.replace(f"{name} {gave}", f"{name} {said}")
        yield f"{name} {said}", RING, changed(20, line), f"line 20: {name} {said}, where the steps give {gave}: give "
    for name, said, gave in ("end", 1, 0), ("end", 2, 0), ("taken", 2, 1), ("leader", 0, "-"), ("value", 5, "-"):
        line = "end 0 taken 1 skipped 0 leader - value -".replace(f"{name} {gave}", f"{name} {said}")
        yield (f"unfinished, {name} {said}", RING, f"{LINES[0]}\n{line}\n",
               f"line 2: {name} {said}, where the steps give {gave}: give ")


def calls():
    """Wrong arguments."""
    for argument in NO_IDENTITIES:
        shown = re.escape(argument.replace("\n", "?"))
        yield f"identity {argument[:20]!r}", (argument,), THREE, f"'{shown}' is no identity: give a decimal number of 0"
    for argument in "9@", "9@0", "9@4", "9@2@2", "9@x":
        yield f"generation {argument}", ("3", argument), THREE, f"'{argument}' has no generation after its @: give "
    for argument in "--turns", "-", "-x":
        yield f"option {argument}", ("3", argument), THREE, f"'{argument}' is no option: there is --help"
    yield "repeated", ("3", "7", "03@2"), THREE, "identity 3 is given more than once: give "
    yield "too many", [*map(str, range(17))], THREE, "17 identities, where a ring has at most 16: give "


def everything():
    return [*texts(), *misfits(), *ends(), *calls()]
