#!/usr/bin/env python3
"""Holds the constants of include/uxt.h and the texts of library/refusal_text.c to the documents.

Usage: header.py < TEXTS    what library/refusal_text_test.c prints

From docs/FORMAT.md: the refusals, and the limits that the sizes follow from. From docs/SHOW.md: a word for each kind.
"""

import pathlib
import re
import sys

ROOT = pathlib.Path(__file__).resolve().parent.parent
UINT_MAX = 2 ** 32 - 1
PLAIN = str.maketrans("×−", "*-")


def constants(prefix):
    """The numbers that the header defines under names with the prefix, in its order."""
    header = (ROOT / "include/uxt.h").read_text()
    return {name: int(value) for name, value in re.findall(rf"^#define {prefix}(\w+) (\d+)\b", header, re.M)}


def rows(document, heading, until):
    """The cells of the tables between two headings."""
    text = (ROOT / "docs" / document).read_text()
    part = text[text.index(f"\n## {heading}\n"):text.index(f"\n## {until}")]
    return [[cell.strip() for cell in line.strip("|").split("|")] for line in part.splitlines() if line.startswith("|")]


def refusals():
    """The text of each number: its cell without the operation before it, and what is said behind a semicolon of the order."""
    cells = [row for row in rows("FORMAT.md", "Refusals", "The Derived question") if row[0].isdigit()]
    return {int(number): re.sub(r"^[\w ]+: |;.*", "", cell).translate(PLAIN) for number, cell in cells}


def texts():
    """The lines that must be printed."""
    by_number = {0: "accepted", **refusals()}
    numbers = (*range(max(by_number) + 2), UINT_MAX)
    return "".join(f"{number} {by_number.get(number, 'no such refusal')}\n" for number in numbers)


def kinds():
    """The number of each kind, by its word: the table's rows are in their order."""
    cells = [row[1] for row in rows("SHOW.md", "The lines", "Writing") if row[0][0].isdigit()]
    words = re.findall(r"`(\w+)`", " ".join(cells))
    return {word.upper(): number for number, word in enumerate(words, 1)}


def sizes():
    """The most that is taken or needed: N records take 8 + 20 * N bytes in version 2, which are more than in version 1, an answer
    has 2 * N - 1, and there are 2 * N entries."""
    (records,) = [row for row in rows("FORMAT.md", "Limits", "Refusals") if row[0].startswith("records")]
    reduced, listed = [int(cell.split()[-1].replace(",", "")) for cell in records[1:]]
    return {"SRC": 8 + 20 * reduced, "OUT": 8 + 20 * (2 * reduced - 1), "LISTED_SRC": 8 + 20 * listed, "ENTRIES": 2 * listed}


def main():
    compared = [
        ("kinds", constants("UXT_KIND_"), kinds()),
        ("refusals", sorted(constants("UXT_REFUSED_").values()), sorted(refusals())),
        ("sizes", constants("UXT_MOST_"), sizes()),
        ("texts", sys.stdin.read(), texts()),
    ]
    different = [(what, seen, due) for what, seen, due in compared if seen != due]
    for what, seen, due in different:
        print(f"header: {what}: {seen}\nwhere the documents say: {due}")
    print(f"header: {len(kinds())} kinds, {len(refusals())} refusals, {len(sizes())} sizes, {texts().count(chr(10))} texts")
    sys.exit(bool(different))


main()
