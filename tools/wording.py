"""The two columns in words: a layer over what the program `columns` prints.

    before       after
    call at 4    call at 4
    spread at 9  spread at 9
    records 6    records 5

An effect is its node's kind, by the words of docs/SHOW.md, and its place; `coercion of` stands before it if it is one. A `-`
stays, and so does the line of a refusal.
"""

from words import KINDS

BETWEEN = "  "


def in_words(columns):
    """What is printed for the text of the columns."""
    lines = [line.split(" ") for line in columns.splitlines()]
    if lines[0] != ["before", "after"]:
        return columns  # a refusal
    _, *counts = lines[-1]
    rows = [lines[0], *([effect(cell) for cell in line] for line in lines[1:-1]), [f"records {count}" for count in counts]]
    width = max(len(before) for before, _ in rows)
    return "".join(f"{before:{width}}{BETWEEN}{after}\n" for before, after in rows)


def effect(cell):
    """An effect, place/kind/coercion, or the mark of a list that has ended."""
    if cell == "-":
        return cell
    place, kind, coercion = map(int, cell.split("/"))
    return f"{'coercion of ' if coercion else ''}{KINDS[kind - 1]} at {place}"
