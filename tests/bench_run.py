#!/usr/bin/env python3
"""Runs the bench program on every case of a folder and compares what it prints, to the byte.

    bench_run.py PROGRAM [FOLDER]

A case is a line 'case NAME', lines 'input' with bytes in hex (XX*N is N times XX), and the lines that must be
printed, each behind '| '. A line that begins with # is a comment.
"""

import argparse
import pathlib
import signal
import subprocess
import sys
import time

FOLDER = pathlib.Path(__file__).parent / "bench"
SECONDS = 10
# every so many cases one is handed over in two parts, with a pause between them
PARTED = 10
PAUSE = 0.02
# what a pipe holds at least, so that a part is written before the program reads
PIPE = 4096


class Case:
    def __init__(self, file, name):
        self.file = file
        self.name = name
        self.tokens = []
        self.expected = ""

    def data(self):
        parts = [token.partition("*") for token in self.tokens]
        return b"".join(bytes.fromhex(byte) * int(times or 1) for byte, _, times in parts)


def cases_in(path):
    cases = []
    for line in path.read_text().splitlines():
        head, _, rest = line.partition(" ")
        if head == "case":
            cases.append(Case(path.name, rest))
        elif head == "input":
            cases[-1].tokens += rest.split()
        elif head == "|":
            cases[-1].expected += rest + "\n"
        elif head not in ("", "#"):
            raise ValueError(f"{path}: {line}")
    return cases


def ended(status):
    return f"signal {signal.Signals(-status).name}" if status < 0 else f"exit status {status}"


def run(program, data, front):
    """What the program printed, and what is wrong with how it ended, if anything; a pause comes after front bytes."""
    process = subprocess.Popen([program], stdin=subprocess.PIPE, stdout=subprocess.PIPE)
    if front:
        process.stdin.write(data[:front])
        process.stdin.flush()
        time.sleep(PAUSE)
    try:
        seen, _ = process.communicate(data[front:], timeout=SECONDS)
    except subprocess.TimeoutExpired:
        process.kill()
        return process.communicate()[0], f"no end in {SECONDS} seconds"
    return seen, ended(process.returncode) if process.returncode else ""


def marked(output):
    """The output's lines behind marks, and a word where the last has no newline."""
    *lines, rest = output.decode(errors="backslashreplace").split("\n")
    return [f"| {line}" for line in lines] + [f"| {rest} (no newline)"] * bool(rest)


def differs(program, number, case):
    """Whether the case fails; if so, it is told. Some inputs come in two parts, as a pipe may hand them over."""
    data = case.data()
    parted = number % PARTED == 0 and len(data) < PIPE
    expected = case.expected.encode()
    seen, wrong = run(program, data, len(data) // 2 if parted else 0)
    if seen == expected and not wrong:
        return False
    print("\n".join([f"case {case.name} of {case.file}", " ".join(["input", *case.tokens])]))
    print("\n".join(["expected", *marked(expected), f"seen {wrong}".strip(), *marked(seen), ""]))
    return True


def main():
    parser = argparse.ArgumentParser()
    parser.add_argument("program")
    parser.add_argument("folder", nargs="?", type=pathlib.Path, default=FOLDER)
    asked = parser.parse_args()
    cases = [case for path in sorted(asked.folder.iterdir()) for case in cases_in(path)]
    failed = sum([differs(asked.program, number, case) for number, case in enumerate(cases)])
    print(f"{len(cases)} cases, {failed} differ")
    return 1 if failed or not cases else 0


if __name__ == "__main__":
    sys.exit(main())
