#!/usr/bin/env python3
"""The columns in words, held to the columns.

  worded.py check COLUMNS    the program COLUMNS, on the files of programs.py: what tools/wording.py makes of its text says the same,
                             read back by the words of docs/SHOW.md's table of kinds
"""

import pathlib
import re
import subprocess
import sys

import programs
import wording

SHOW = pathlib.Path(__file__).resolve().parent.parent / "docs/SHOW.md"
ROW = re.compile(r"\| (\d+)(?: to (\d+)|, (\d+))? \| ([^|]*) \|")
EFFECT = re.compile(r"(coercion of )?([a-z]+) at (\d+)")


def kinds():
    """The number of each word, by the table of docs/SHOW.md."""
    numbers = {}
    for first, *_, cell in ROW.findall(SHOW.read_text()):
        for step, word in enumerate(re.findall(r"`([a-z]+)`", cell)):
            numbers[word] = int(first) + step
    return numbers


def read_back(text, numbers):
    """The columns that a text in words says."""
    lines = [re.split(r" {2,}", line) for line in text.splitlines()]
    if len(lines[0]) == 1:
        return text
    counts = [cell.removeprefix("records ") for cell in lines[-1]]
    rows = [lines[0], *([cell_back(cell, numbers) for cell in line] for line in lines[1:-1]), ["records", *counts]]
    return "".join(" ".join(row) + "\n" for row in rows)


def cell_back(cell, numbers):
    if cell == "-":
        return cell
    coercion, word, place = EFFECT.fullmatch(cell).groups()
    return f"{place}/{numbers[word]}/{1 if coercion else 0}"


def check(program):
    numbers = kinds()
    if sorted(numbers.values()) != list(range(1, 23)):
        sys.exit(f"worded.py: docs/SHOW.md has the kinds {sorted(numbers.values())}")
    count = 0
    for name, data in programs.files():
        printed = subprocess.run([program], input=data, capture_output=True, check=True).stdout.decode()
        text = wording.in_words(printed)
        if read_back(text, numbers) != printed:
            sys.exit(f"worded.py: {name}: the words say other than the columns:\n{text}")
        count += 1
    print(f"words: {count} files")


def main(arguments):
    sys.setrecursionlimit(10_000)  # as edges.py
    if len(arguments) == 2 and arguments[0] == "check":
        check(arguments[1])
    else:
        sys.exit(__doc__)


if __name__ == "__main__":
    main(sys.argv[1:])
