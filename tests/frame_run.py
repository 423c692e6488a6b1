#!/usr/bin/env python3
"""Prints what the program frame_run must print, worked out from document 01's frames and refusals 11 to 15.

It shares no code with the crates. The gate compares its output with crates/frame_run/stdout.
"""

from model import Refused, read, write

VALUES = [0, 1, 256, 258, 33619968, 2**31, 2**32 - 1]
ROOM = 7
OLD = b"\xa5"


def written(out, generation, kind, value):
    """The answer's number and place, and the bytes afterwards."""
    try:
        return 0, 0, write(generation, kind, value, len(out)) + out[5:]
    except Refused as refused:
        return refused.number, refused.place, out


def reading(data):
    """Number, place, kind and value."""
    try:
        return 0, 0, *read(data)
    except Refused as refused:
        return refused.number, refused.place, 0, 0


def rooms(generation, kind, value):
    print(f"generation {generation} kind {kind} value {value}")
    for room in range(ROOM + 1):
        number, place, left = written(OLD * room, generation, kind, value)
        print(f"room {room}: {number} {place}, {(left + OLD * (ROOM - room)).hex(' ')}")


def lengths(data):
    for length in range(len(data) + 1):
        print(f"length {length}:", *reading(data[:length]))


for generation in 1, 2, 3:
    for kind in 0, 1:
        for value in VALUES:
            rooms(generation, kind, value)
            lengths(written(OLD * ROOM, generation, kind, value)[2])
for generation in 0, 4, 2**32 - 1:
    for kind in 0, 1:
        rooms(generation, kind, 258)
for generation in 1, 2, 3:
    for kind in 2, 2**32 - 1:
        rooms(generation, kind, 258)
for byte in range(256):
    data = bytes([byte, 0, 0, 1, 2])
    print(f"kind byte {byte:02x}:", *reading(data))
    print("alone:", *reading(data[:1]))
