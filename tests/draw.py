#!/usr/bin/env python3
"""Draws elections by tools/draw and compares the pictures with tests/model.py; then what it must refuse.

    draw.py [--seed N] [--times N]

The texts are the model's, so nothing need be built. With --times there are so many times as many random rings.
"""

import argparse
import os
import pathlib
import re
import subprocess
import sys
from concurrent.futures import ThreadPoolExecutor
from itertools import product
from xml.etree import ElementTree

from bench_cases import HALVING, KINDS, Chance, anyhow, around, bursts, to_announcement
from model import SCHEDULE
from picture import checks, refused
from picture.checks import Wrong, holds, same
from picture.expected import Expected, case
from picture.seen import Picture

ROOT = pathlib.Path(__file__).parent.parent
DRAW = ROOT / "tools" / "draw"
SAMPLE = ROOT / "docs" / "election.svg"
SECONDS = 20
# the sample's largest size in bytes
SMALL = 30000


def call(arguments, text, **environment):
    """The exit status, standard output and standard error; -S leaves the tool the standard library alone."""
    seen = subprocess.run([sys.executable, "-S", DRAW, *arguments], input=text.encode(errors="surrogateescape"),
                          stdout=subprocess.PIPE, stderr=subprocess.PIPE, timeout=SECONDS,
                          env={**os.environ, **environment})
    return seen.returncode, seen.stdout, seen.stderr.decode()


def whole(name, identities, capacity, kind, chance, generations=None):
    """An election to its end, or as far as the program goes."""
    schedule = to_announcement(identities, capacity, kind(len(identities), chance))
    return case(name, identities, capacity, schedule[:SCHEDULE], generations)


def chosen_cases(chance):
    """Document 01's rings, wide and tall pictures, byte orders, and runs that stop early."""
    large = [4294967280 + identity for identity in HALVING]
    yield whole("one", [7], 1, around, chance)
    yield whole("one of ten digits", [4294967295], 1, around, chance, [2])
    yield whole("two", [5, 9], 1, around, chance)
    yield whole("two of ten digits", [0, 4294967295], 1, anyhow, chance, [3, 3])
    yield whole("three", [3, 7, 4], 1, around, chance)
    yield whole("four", [4, 1, 3, 2], 1, around, chance, [2] * 4)
    yield whole("five", [12, 5, 40, 7, 31], 1, around, chance, [1, 1, 2, 1, 3])
    yield whole("falling", list(range(16, 0, -1)), 1, around, chance)
    yield whole("most rounds", HALVING, 1, around, chance)
    yield whole("most rounds of ten digits", large, 16, anyhow, chance, [1, 2] * 8)
    yield whole("most rounds in bursts", large, 16, bursts, chance)
    # the others go as far as they can, and queues grow long
    yield case("never process 0", large, 16, list(range(1, 16)) * 16)
    for n in 1, 3, 16:
        yield case(f"no move of {n}", HALVING[:n], 1, b"")


def random_cases(chance, times):
    for n, (at, kind), _ in product(range(1, 17), enumerate(KINDS), range(times)):
        # big rings by every other kind, since they take long
        if n > 8 and (n + at) % 2:
            continue
        identities = chance.distinct(n, chance.one_of((n, 300, 2**32)))
        capacity = chance.one_of((1, 2, 1 + chance.below(16), 16))
        generations = [chance.one_of((1, 2, 3)) for _ in identities] if chance.below(3) == 0 else None
        made = whole(f"{kind.__name__} {n}", identities, capacity, kind, chance, generations)
        stop = chance.below(len(made.schedule)) if chance.below(3) == 0 else SCHEDULE
        yield made._replace(schedule=made.schedule[:stop])


def check_picture(case):
    expected = Expected(case)
    status, data, error = call(expected.arguments(), expected.text)
    same("status and errors", (status, error), (0, ""))
    picture = Picture(data)
    for check in checks.ALL:
        check(picture, expected)


def check_refused(refusal):
    _, arguments, text, pattern = refusal
    status, output, error = call(arguments, text)
    same("status and output", (status, output), (2, b""))
    holds(f"one line that says '{pattern}'\n  seen {error}", re.fullmatch(f"draw: {pattern}.*\n", error))


def check_calls(_):
    """The sample, and calls that give it too; use; and an output that takes nothing."""
    text = refused.THREE
    status, drawn, _ = call(refused.RING, text, PYTHONHASHSEED="1")
    same("status", status, 0)
    holds(f"{SAMPLE.name} as it is drawn: make it anew", SAMPLE.read_bytes() == drawn)
    holds(f"{len(drawn)} bytes are at most {SMALL}", len(drawn) <= SMALL)
    same("drawn again", call(refused.RING, text, PYTHONHASHSEED="2"), (0, drawn, ""))
    same("no identities", call([], text), (0, drawn, ""))
    same("zeros in front, and generations of one order", call(["003", "7@1", "4@03"], text), (0, drawn, ""))
    same("no newline at the end", call(refused.RING, text[:-1]), (0, drawn, ""))
    seen = subprocess.run([DRAW], input=text.encode(), stdout=subprocess.PIPE, timeout=SECONDS)
    same("by its own path", (seen.returncode, seen.stdout), (0, drawn))
    for arguments in ["--help"], ["-h"], ["3", "--help"]:
        status, usage, error = call(arguments, "")
        holds(f"use by {arguments}", (status, error) == (0, "") and b"tools/draw [IDENTITY[@GENERATION]]" in usage)
    with open("/dev/full", "wb") as full:
        seen = subprocess.run([DRAW], input=text.encode(), stdout=full, stderr=subprocess.PIPE, timeout=SECONDS)
    same("no room for the output", (seen.returncode, seen.stderr.count(b"\n")), (3, 1))


def fails(job):
    """Whether a check fails; if so, it is told."""
    check, subject = job
    try:
        check(subject)
    except (Wrong, ElementTree.ParseError, subprocess.TimeoutExpired) as wrong:
        print(f"{check.__name__}, {subject[0]}: {wrong}")
        return True
    return False


def main():
    parser = argparse.ArgumentParser()
    parser.add_argument("--seed", type=int, default=1)
    parser.add_argument("--times", type=int, default=1)
    asked = parser.parse_args()
    chance = Chance(f"{asked.seed} draw")
    pictures = [*chosen_cases(chance), *random_cases(chance, asked.times)]
    refusals = refused.everything()
    jobs = [(check_calls, ["sample"])]
    jobs += [(check_picture, case) for case in pictures] + [(check_refused, refusal) for refusal in refusals]
    with ThreadPoolExecutor(os.cpu_count()) as pool:
        failed = sum(pool.map(fails, jobs))
    if failed:
        print(f"draw: {failed} of {len(jobs)} checks failed")
        return 1
    print(f"draw: {len(pictures)} pictures as the model says, {len(refusals)} texts and calls refused")
    return 0


if __name__ == "__main__":
    sys.exit(main())
