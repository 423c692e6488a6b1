#!/usr/bin/env python3
"""Does what README.md shows, and compares what it prints with what README.md says.

A block marked console holds commands, each behind '$ ', and what each prints on standard output. A block marked c is
the file that the paragraph before it names in backticks. The bench program and the archive must be built.
"""

import pathlib
import re
import subprocess
import sys

ROOT = pathlib.Path(__file__).resolve().parent.parent
README = ROOT / "README.md"
BLOCK = re.compile(r"^```(\w+)\n(.*?)^```$", re.MULTILINE | re.DOTALL)
NAMED = re.compile(r"`(target/[^`]+)`")
SECONDS = 600


def calls(block):
    """Each command of a console block with the text that it is to print."""
    commands = []
    for line in block.splitlines(keepends=True):
        if line.startswith("$ "):
            commands.append([line[2:].rstrip("\n"), ""])
        else:
            commands[-1][1] += line
    return commands


def differs(command, expected):
    """Whether a command fails or prints something else; if so, it is told."""
    done = subprocess.run(command, shell=True, cwd=ROOT, stdout=subprocess.PIPE, text=True, timeout=SECONDS)
    if done.returncode == 0 and done.stdout == expected:
        return False
    print(f"README.md: {command}\nexpected\n{expected}seen, status {done.returncode}\n{done.stdout}")
    return True


def write_file(text, before):
    path = ROOT / NAMED.findall(before)[-1]
    path.parent.mkdir(exist_ok=True)
    path.write_text(text)


def wrong_counts(text):
    """Lines for each number that README.md gives of the tree and that is another one."""
    crates = [line for line in (ROOT / "crates.txt").read_text().splitlines() if line and line[0] != "#"]
    edits = len(list(ROOT.glob("crates/*/must-fail/*.edit")))
    said = [f"{len(crates) + edits} passed, 0 failed", f"refuses {edits} changed"]
    return [f"README.md: does not say '{words}'" for words in said if words not in text]


def main():
    text = README.read_text()
    failed = wrong_counts(text)
    print("\n".join(failed), end="\n" if failed else "")
    commands = 0
    for found in BLOCK.finditer(text):
        if found[1] == "c":
            write_file(found[2], text[:found.start()])
        if found[1] == "console":
            told = [differs(*call) for call in calls(found[2])]
            failed += [call for call in told if call]
            commands += len(told)
    print(f"readme: {commands} commands, {len(failed)} differ")
    return 1 if failed or not commands else 0


if __name__ == "__main__":
    sys.exit(main())
