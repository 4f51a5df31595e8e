#!/usr/bin/env python3
"""docs/FORMAT.md, held to the library by the Python module: `format_page.py` alone.

Its tables of records give the lists and the answers that stand behind them. The rows of "More lists" give the kinds and the
coercions of their lists, and what they say is left; a row has no places of its own, and its nodes are all at 0. Each shape of the
tables from JavaScript to records is taken, or refused by 6 where an operation does not take it. The line of the allowed facts
gives the values beside it and those of the table of kinds, and by it each kind from 0 to 255 with each facts byte is taken or
refused. The bytes of the examples are those of their files. Each link leads to a heading.
"""

import pathlib
import re
import sys

from edges import (ASSIGNMENT, BINARY, CLASS, ELEMENT, FACTS, IDENTIFIER, LITERAL, LOGICAL, NULLISH, OBJECT, PROPERTY,
                   TEMPLATE, UNARY, Node, around, of, sample, tree_file, with_byte)
from reader import allowed_facts as reader_allows

ROOT = pathlib.Path(__file__).resolve().parent.parent
sys.path[:0] = [str(ROOT / "python"), str(ROOT / "examples")]
import uxt  # noqa: E402
from exporter import allowed_facts as exporter_allows  # noqa: E402

PAGE = (ROOT / "docs/FORMAT.md").read_text(encoding="utf-8")
SETTINGS = {"annotations": 1, "tree-shake-only": 2, "derived": 4}
EFFECT = re.compile(r"`(\d+)/(\d+)/([01])`")
SHAPE = re.compile(r"`(\d+(?:/\d+)?(?:\[[^`]*\])?)`")
UNDER = re.compile(r"\. With the yes place (\d+): ")


def require(same, what):
    if not same:
        sys.exit(f"format_page.py: {what}")


def section(first, behind):
    return PAGE[PAGE.index(f"# {first}\n"):PAGE.index(f"# {behind}\n")]


def rows(text):
    """The cells of each row of the text's tables, but for those above a line of dashes and that line."""
    lines = [line for line in text.splitlines() if line.startswith("|")]
    lines = [[cell.strip() for cell in re.split(r"(?<!\\)\|", line)[1:-1]] for line in lines]
    return [cells for cells, after in zip(lines, lines[1:] + [[]]) if "---" not in cells[:1] + after[:1]]


def listed(data, yes=()):
    """The effects as the page writes them, or the refusal's number."""
    try:
        return [tuple(map(int, effect)) for effect in uxt.list_effects(data, yes)]
    except uxt.Refused as refused:
        return refused.number


def left(data):
    """What is left, or the refusal's number."""
    try:
        return uxt.reduce(data)
    except uxt.Refused as refused:
        return refused.number


def effects(text):
    return [tuple(map(int, effect)) for effect in EFFECT.findall(text)]


# ---- Tables of records


def tables():
    """The file of each table of records, and the line behind it. A table with ends is of version 2."""
    for table in re.finditer(r"^\| record \|(.*)\n(?:^\|.*\n)+\n?(.*)", PAGE, re.MULTILINE):
        records = [list(map(int, cells[1:-1])) for cells in rows(table[0])]
        data = b"UXT" + bytes([2 if "| end |" in table[1] else 1, 0, 0]) + len(records).to_bytes(2, "little")
        for kind, facts, sub, children, size, *numbers in records:
            data += bytes([kind, facts, sub, 0]) + children.to_bytes(2, "little") + size.to_bytes(2, "little")
            data += b"".join(number.to_bytes(4, "little") for number in numbers)
        yield data, table[2]


def lists(behind):
    """The yes places and the list, of each list that a line gives."""
    first, *more = UNDER.split(behind)
    return [((), effects(first)), *[((int(place),), effects(text)) for place, text in zip(more[::2], more[1::2])]]


def check_tables():
    """A table is followed by its lists, and by what is left of it where that is another tree."""
    waiting, count = None, 0
    for data, behind in tables():
        count += 1
        if waiting is not None:
            before, expected = waiting
            require(left(before) == data, f"table {count} is not what is left of the one before")
            for yes, due in expected:
                require(listed(data, yes) == due, f"table {count} has another list than the one before, yes {yes}")
            waiting = None
            continue
        for yes, due in lists(behind):
            require(listed(data, yes) == due, f"table {count}, yes {yes}: the list is {listed(data, yes)}")
        if behind.endswith("What is left:"):
            waiting = data, lists(behind)
        else:
            require(left(data) == data, f"table {count} does not stay as it is")
    return count


# ---- Shapes


class Shape:
    """Reads a shape, such as `16[5, 2]`; a key, a value and `...` are read as an identifier."""

    def __init__(self, text):
        self.words = re.findall(r"\d+|[kv]|\.\.\.|[\[\]/]", text)

    def took(self, word):
        """Whether the word comes next; it is taken then."""
        return self.words[:1] == [word] and self.words.pop(0) == word

    def node(self):
        word = self.words.pop(0)
        if not word.isdigit():
            return Node(IDENTIFIER)
        kind, children = int(word), []
        sub = int(self.words.pop(0)) if self.took("/") else 0
        if self.took("["):
            while not self.took("]"):
                children.append(self.child(kind))
        return Node(kind, *children, sub=sub)

    def child(self, parent):
        """In an object and in a class `...` are no expressions."""
        if parent in (OBJECT, CLASS) and self.took("..."):
            return Node(ELEMENT, sub=1) if parent == CLASS else Node(PROPERTY, Node(IDENTIFIER))
        return self.node()


def node_of(shape):
    """The tree that a shape says; the facts are those that each kind must have."""
    return Shape(shape).node()


def check_shape(shape, node):
    """Which operation takes it goes by the root: under it are kinds that both take, or the same again."""
    data = tree_file(around(node))
    no_one = node.kind == ASSIGNMENT or node.kind == LOGICAL and node.sub == NULLISH
    for answer, refused in ((listed(data), no_one), (left(data), no_one or node.kind == LOGICAL)):
        require(answer == 6 if refused else not isinstance(answer, int), f"{shape}, facts {node.facts}: {answer}")


def check_shapes():
    count = 0
    for cells in rows(section("Expressions", "Other leaves")):
        for shape in SHAPE.findall(cells[1]):
            node = node_of(shape)
            for facts in re.findall(r"\d+", cells[2]) if len(cells) == 4 else [18 if node.kind == LITERAL else 0]:
                node.facts = int(facts)
                check_shape(shape, node)
                count += 1
    return count


# ---- More lists


def with_facts(root, facts):
    """The tree, with these facts in the order of the file."""
    waiting, rest = [root], list(facts)
    while waiting:
        node = waiting.pop(0)
        node.facts = rest.pop(0)
        waiting = list(node.children) + waiting
    require(rest == [], f"facts {facts} are too many")
    return root


def check_lists():
    count = 0
    for cells in rows(section("More lists", "What is left: made nodes")):
        expression, shape, facts, settings, list_, stays = cells
        words = settings.split(", ") if settings else []
        on, yes = sum(SETTINGS[word] for word in words if word != "yes"), (0,) if "yes" in words else ()
        data = tree_file(with_facts(node_of(shape.strip("`")), map(int, facts.split(", "))), settings=on)
        answer = listed(data, yes)
        told = [effect[1:] for effect in effects(list_)]
        require([effect[1:] for effect in answer] == told if isinstance(answer, list) else list_ == f"refused {answer}",
                f"{expression}: the list is {answer}")
        rest = {"all of it": data, "nothing": b"", "refused 6": 6}.get(stays)
        stayed = left(data)
        require(stayed == rest if rest is not None else listed(stayed, yes) == answer, f"{expression}: left is {stayed!r}")
        count += 1
    return count


# ---- Allowed facts


def formula(line):
    """The value of a line such as `k == 8 || k == 11 ? 0 : 31` at each byte."""
    *cases, other = line.split(" : ")
    values = [int(other)] * 256
    for test, value in reversed([case.split(" ? ") for case in cases]):
        for kind in test.split(" || "):
            values[int(kind.removeprefix("k == "))] = int(value)
    return values


def numbers(before, behind):
    """The numbers that the page lists between these words."""
    return set(map(int, re.search(f"{before}([0-9, ]+){behind}", PAGE)[1].split(", ")))


def number_of(data):
    """That of the check's refusal; 0: taken."""
    try:
        uxt.check(data)
        return 0
    except uxt.Refused as refused:
        return refused.number


def allowed_by_line():
    """What the line allows each kind: the values beside it, those of the table of kinds, the second reader's and the exporter's."""
    text = section("Allowed facts", "How to set them")
    allowed = formula(re.search(r"^ {4}(.*)$", text, re.MULTILINE)[1])
    require(["allowed", *map(str, allowed[1:23])] in rows(text), "the values beside the line of the allowed facts are others")
    told = {int(cells[0]): cells[3] for cells in rows(section("Kinds", "Class elements"))}
    due = {kind: str(allowed[kind]) for kind in range(1, 23)} | {LITERAL: "exactly 18"}
    require(told == due, "the allowed facts of the table of kinds are not those of the line")
    for reader in (reader_allows, exporter_allows):
        require(allowed == list(map(reader, range(256))), f"the allowed facts of {reader.__module__}.py are not those of the line")
    return allowed


def good_facts():
    """For each kind the good facts bytes, by the line and the page's lists; unary and binary are taken for such as can never be a
    symbol, as those of `sample` are."""
    pairs, symbols = numbers("with 31 is one of ", ", on what"), numbers("a symbol without ", ";")
    for kind, allowed in enumerate(allowed_by_line()):
        good = {facts for facts in range(256) if facts & ~allowed == 0 and facts & 31 in pairs}
        yield kind, {18} if kind == LITERAL else good - symbols if kind in (TEMPLATE, UNARY, BINARY) else good


def check_facts():
    """Each kind with each facts byte, in a tree that is good otherwise."""
    count = 0
    for kind, good in good_facts():
        node = sample(kind)
        data, at = tree_file(around(node)), of(0 if around(node) is node else 1, FACTS)
        for facts in range(256):
            due = 5 if not 1 <= kind <= 22 or facts not in good else 6 if kind in (LOGICAL, ASSIGNMENT) else 0
            require(number_of(with_byte(data, at, facts)) == due, f"kind {kind}, facts {facts}: {due} is due")
            count += 1
    return count


def check_bytes():
    """What is printed byte by byte, each line behind the offset of its first byte."""
    blocks = re.findall(r"^```\n(.*?)^```$", PAGE, re.MULTILINE | re.DOTALL)
    for name, block in zip(("columns", "spans"), blocks, strict=True):
        lines = [line.split("  ", 1) for line in block.splitlines()]
        data = [bytes.fromhex(line) for _, line in lines]
        require(b"".join(data) == (ROOT / f"examples/{name}.uxt").read_bytes(), f"the bytes of {name}.uxt are others")
        require([int(at, 16) for at, _ in lines] == [sum(map(len, data[:i])) for i in range(len(data))],
                f"an offset in {name}.uxt is another")


def check_links():
    headings = re.findall(r"^#+ (.*)$", PAGE, re.MULTILINE)
    names = {re.sub(r"[^a-z0-9 -]", "", heading.lower()).replace(" ", "-") for heading in headings}
    for link in re.findall(r"\]\(#([^)]*)\)", PAGE):
        require(link in names, f"there is no heading for #{link}")


def main():
    check_links()
    check_bytes()
    counts = check_tables(), check_shapes(), check_lists(), check_facts()
    require(min(counts) > 5, f"the page was not read: {counts}")
    print("format page: {} tables of records, {} shapes with facts, {} lists, {} kinds with facts".format(*counts))


if __name__ == "__main__":
    main()
