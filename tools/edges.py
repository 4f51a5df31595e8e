#!/usr/bin/env python3
"""Edge cases of the tree file, and the answer that each of them gets.

The program `edges` (crates/edges) reads the cases and must print the expected lines.

  edges.py cases               the cases, binary: for each its length in bytes (two bytes, little-endian)
                               and its bytes, at most 65,535: so a file of version 2 has at most 3,276 records
  edges.py expected            a line for each case: the answer under Reduce's limits, a space, the
                               answer under List effects' limits. An answer is the number of the
                               refusal, or SETTINGS/RECORDS where the file is accepted
  edges.py names               a line for each case: what it is
  edges.py example NAME        the bytes of examples/NAME.uxt
  edges.py examples-expected   the lines of examples/expected: whether each file there is accepted

Every answer comes from reader.py, which shares no code with the crates. Beside a case stands the
answer worked out by hand, and the script stops where the two differ; only the cases of
`changed_bytes` have none.
"""

import pathlib
import sys

from reader import (ADDITION, ARRAY, ARROW, ASSIGNMENT, BINARY, CALL, CHILDREN, CLASS, COMPARISON, CONDITIONAL, COUNT, ELEMENT,
                    ELISION, FACTS, FIELDS, FUNCTION, IDENTIFIER, KIND, LIST_EFFECTS, LITERAL, LOGICAL, NEW, OBJECT, OTHER_LEAF,
                    PROPERTY, REDUCE, SEQUENCE, SETTINGS, SIZE, SPREAD, START, SUB, TEMPLATE, THIS, UNARY, VERSION, ZERO, answer,
                    of, u16)

NULLISH, AND, OR = 0, 1, 2  # subs of a logical
SYMBOL, STRING = 4, 18  # facts: symbol yes; string yes, which needs symbol no

# ---- Writing tree files, whole and broken


class Node:
    """Its place is a start, which is the end too, or a pair of both ends; version 1 records the start alone."""

    def __init__(self, kind, *children, facts=None, sub=0, text=0, place=0, zero=0):
        self.kind, self.children = kind, children
        self.facts = facts if facts is not None else 18 if kind == LITERAL else 0
        self.sub, self.text, self.place, self.zero = sub, text, place, zero


def both_ends(place):
    return place if isinstance(place, tuple) else (place, place)


def put(node, out, version):
    """Appends the records of a tree to a list of records, parent before children."""
    at = len(out)
    out.append(b"")
    for child in node.children:
        put(child, out, version)
    numbers = (node.text, *both_ends(node.place)[:version])
    out[at] = (bytes([node.kind, node.facts, node.sub, node.zero])
               + len(node.children).to_bytes(2, "little") + (len(out) - at).to_bytes(2, "little")
               + b"".join(number.to_bytes(4, "little") for number in numbers))


def tree_file(root, settings=0, version=1):
    records = []
    put(root, records, version)
    return b"UXT" + bytes([version, 0, settings]) + len(records).to_bytes(2, "little") + b"".join(records)


def widened(data):
    """A file of version 1 as version 2; another version stays. The end of a record goes by its start, and differs from all starts
    below 0xff000000, so that one that is read for the other, or comes from another record, shows."""
    parts = [data[at:at + 16] for at in range(8, len(data), 16)]
    head = with_u16(data[:8], VERSION, 2) if u16(data, VERSION) == 1 else data[:8]
    return head + b"".join(part + part[START:-1] + b"\xff" if len(part) == 16 else part for part in parts)


def with_byte(data, at, value):
    return data[:at] + bytes([value]) + data[at + 1:]


def with_u16(data, at, value):
    return data[:at] + (value % 65536).to_bytes(2, "little") + data[at + 2:]


def plus(data, at, change):
    return with_u16(data, at, u16(data, at) + change)


def with_ends(data, record, start, end):
    """A file of version 2 with both ends of a record set."""
    at = of(record, START, 2)
    return data[:at] + start.to_bytes(4, "little") + end.to_bytes(4, "little") + data[at + 8:]


def identifier():
    return Node(IDENTIFIER)


def void(argument):
    return Node(UNARY, argument, sub=1)


def conditional(test=None, consequent=None, alternate=None):
    """An identifier where no node is given."""
    return Node(CONDITIONAL, *[part or identifier() for part in (test, consequent, alternate)])


def logical(left=None, right=None, sub=AND):
    """An identifier where no node is given."""
    return Node(LOGICAL, left or identifier(), right or identifier(), sub=sub)


def addition(left=None, right=None, facts=0):
    """An identifier where no node is given."""
    return Node(BINARY, left or identifier(), right or identifier(), facts=facts, sub=ADDITION)


def symbol_and_string():
    """`"" + a`, recorded as a symbol."""
    return addition(left=Node(LITERAL), facts=SYMBOL)


def chain(depth, wrap=void, inner=identifier):
    node = inner()
    for _ in range(depth - 1):
        node = wrap(node)
    return node


def sample(kind, sub=None, facts=None, zero=0):
    """A node of the kind with as many children as it must have, and no more."""
    if sub is None:
        sub = {UNARY: 1, BINARY: 1, ELEMENT: 1, LOGICAL: AND}.get(kind, 0)
    count = {SPREAD: 1, UNARY: 1, BINARY: 2, CALL: 1, NEW: 1, LOGICAL: 2, CONDITIONAL: 3}.get(kind, 0)
    if kind == PROPERTY:
        count = 2 if sub == 1 else 1
    if kind == CLASS:
        count = sub >> 1 & 1
    if kind == ELEMENT:
        count = (sub >> 4 & 1) + (sub >> 6 & 1)
    return Node(kind, *[identifier() for _ in range(count)], facts=facts, sub=sub, zero=zero)


def around(node):
    """The node where it may stand: alone, or in a parent that takes it."""
    parent = {ELISION: ARRAY, SPREAD: ARRAY, PROPERTY: OBJECT, ELEMENT: CLASS}.get(node.kind)
    return node if parent is None else Node(parent, node)


# ---- The cases


class Cases:
    def __init__(self):
        self.cases = []

    def add(self, name, data):
        self.cases.append((name, data, answer(data, REDUCE), answer(data, LIST_EFFECTS)))

    def edge(self, name, data, reduce, list_effects=None):
        """A case with the answer by hand; that under List effects' limits only where it differs."""
        self.add(name, data)
        read = self.cases[-1][2:]
        hand = (reduce, reduce if list_effects is None else list_effects)
        if read != hand:
            sys.exit(f"edges.py: {name}: the reader answers {read}, and by hand it is {hand}")


GOODS = {version: tree_file(identifier(), version=version) for version in (1, 2)}
GOOD = GOODS[1]


def lengths(c):
    for version, good in GOODS.items():
        for length in range(len(good)):
            c.edge(f"version {version}: the first {length} bytes of a good file", good[:length], 1 if length < 8 else 4)
        c.edge(f"version {version}: a good file of one record", good, "0/1")
        c.edge(f"version {version}: a good file and one byte more", good + b"\0", 4)
    for length in range(10):
        c.edge(f"{length} zero bytes", bytes(length), 1)


def header(c):
    for at, wrong in ((0, b"V"), (1, b"W"), (2, b"S")):
        c.edge(f"mark byte {at} is {wrong.decode()}", with_byte(GOOD, at, wrong[0]), 1)
    c.edge("mark in small letters", b"uxt" + GOOD[3:], 1)
    c.edge("mark wrong in a file of 8 bytes", b"UXU" + GOOD[3:8], 1)
    for version, good in GOODS.items():
        for wrong in (0, 3, 255, 256, 257, 258, 512, 513, 514, 65535):
            c.edge(f"version {wrong} in a file of version {version}", with_u16(good, VERSION, wrong), 2)
        c.edge(f"version {3 - version} in a file of version {version}", with_u16(good, VERSION, 3 - version), 4)
        for settings in range(8):
            c.edge(f"version {version}: settings {settings}", with_byte(good, SETTINGS, settings), f"{settings}/1")
        for settings in (8, 9, 15, 16, 32, 64, 128, 135, 255):
            c.edge(f"version {version}: settings {settings}", with_byte(good, SETTINGS, settings), 3)


def counts(c):
    c.edge("count 0 and no record", with_u16(GOOD, COUNT, 0)[:8], 4)
    c.edge("count 0 and one record", with_u16(GOOD, COUNT, 0), 4)
    c.edge("count 1 and no record", GOOD[:8], 4)
    c.edge("count 1 and two records", GOOD + GOOD[8:], 4)
    c.edge("count 2 and one record", with_u16(GOOD, COUNT, 2), 4)
    c.edge("count 257 and one record", with_u16(GOOD, COUNT, 257), 4)
    for count in (2000, 2001, 3999, 4000, 65535):
        c.edge(f"count {count} and one record", with_u16(GOOD, COUNT, count), 4)
        c.edge(f"count {count} and no record", with_u16(GOOD, COUNT, count)[:8], 4)
    pair = tree_file(void(identifier()))
    c.edge("two records", pair, "0/2")
    c.edge("two records, one byte short", pair[:-1], 4)
    c.edge("two records, one byte long", pair + b"\0", 4)


def flat(count, version=1):
    return tree_file(Node(ARRAY, *[Node(ELISION) for _ in range(count - 1)]), version=version)


def record_limits(c):
    c.edge("2,000 records", flat(2000), "0/2000")
    c.edge("2,001 records", flat(2001), 4, "0/2001")
    c.edge("3,999 records", flat(3999), 4, "0/3999")
    c.edge("4,000 records", flat(4000), 4)
    c.edge("2,001 records, the last one's byte 3 is 1", with_byte(flat(2001), of(2000, ZERO), 1), 4, 5)
    c.edge("2,000 records, each under the one before", tree_file(chain(2000)), 8)
    c.edge("3,999 records, each under the one before", tree_file(chain(3999)), 4, 8)
    for count in (1500, 1501, 2000):
        c.edge(f"version 2: {count} records", flat(count, 2), f"0/{count}")
    for count in (2001, 3276):
        c.edge(f"version 2: {count} records", flat(count, 2), 4, f"0/{count}")


def kinds(c):
    """One record of each kind, facts and sub 0 and no children."""
    by_hand = {kind: "0/1" for kind in (2, 3, 4, 5, 6, 7, 10, 12, 13, 18)}
    by_hand.update({kind: 7 for kind in (8, 9, 11, 16, 17, 21)})
    by_hand.update({kind: 6 for kind in (20, 22)})  # the rest is 5
    for kind in range(256):
        c.edge(f"kind {kind} alone", tree_file(Node(kind, facts=0)), by_hand.get(kind, 5))


def accepted(c):
    """Each kind with each sub and number of children that it takes."""
    one, spread, elision = identifier(), Node(SPREAD, identifier()), Node(ELISION)
    key_value = Node(PROPERTY, one, one, sub=1)
    value = Node(PROPERTY, one)
    method = Node(ELEMENT, sub=1)
    for name, root, count in (
            ("string literal", Node(LITERAL), 1),
            ("string literal, its text not 0", Node(LITERAL, text=7), 1),
            ("text and place as large as they get", Node(LITERAL, text=2 ** 32 - 1, place=2 ** 32 - 1), 1),
            ("identifier", one, 1),
            ("function", Node(FUNCTION), 1),
            ("arrow", Node(ARROW), 1),
            ("other leaf", Node(OTHER_LEAF), 1),
            ("this", Node(THIS), 1),
            ("array, empty", Node(ARRAY), 1),
            ("array of an elision", Node(ARRAY, elision), 2),
            ("array of a spread", Node(ARRAY, spread), 3),
            ("array of an expression, an elision and a spread", Node(ARRAY, one, elision, spread), 5),
            ("object, empty", Node(OBJECT), 1),
            ("object of a spread", Node(OBJECT, spread), 3),
            ("object of a value", Node(OBJECT, value), 3),
            ("object of a key with its value", Node(OBJECT, key_value), 4),
            ("object of a value, a spread, a key with its value", Node(OBJECT, value, spread, key_value), 8),
            ("template, empty", Node(TEMPLATE), 1),
            ("template of one", Node(TEMPLATE, one), 2),
            ("template of three, its text not 0", Node(TEMPLATE, one, one, one, text=1), 4),
            ("sequence, empty", Node(SEQUENCE), 1),
            ("sequence of one", Node(SEQUENCE, one), 2),
            ("sequence of a sequence and another", Node(SEQUENCE, Node(SEQUENCE, one), one), 4),
            ("unary: void", Node(UNARY, one, sub=1), 2),
            ("unary: not", Node(UNARY, one, sub=2), 2),
            ("unary: typeof", Node(UNARY, one, sub=3), 2),
            ("unary: other", Node(UNARY, one, sub=4), 2),
            ("binary: comparison", Node(BINARY, one, one, sub=1), 3),
            ("binary: addition", Node(BINARY, one, one, sub=2), 3),
            ("binary: other", Node(BINARY, one, one, sub=3), 3),
            ("call with no argument", Node(CALL, one), 2),
            ("call with an argument", Node(CALL, one, one), 3),
            ("call with a spread and an argument", Node(CALL, one, spread, one), 5),
            ("new with no argument", Node(NEW, one), 2),
            ("new with an argument", Node(NEW, one, one), 3),
            ("new with an argument and a spread", Node(NEW, one, one, spread), 5),
            ("class, empty", Node(CLASS), 1),
            ("class, decorated, empty", Node(CLASS, sub=1), 1),
            ("class with heritage alone", Node(CLASS, one, sub=2), 2),
            ("class, decorated, with heritage alone", Node(CLASS, one, sub=3), 2),
            ("class of three elements", Node(CLASS, method, method, method), 4),
            ("class with heritage and two elements", Node(CLASS, one, method, method, sub=2), 4),
            ("class with a class as heritage", Node(CLASS, Node(CLASS), sub=2), 2),
            ("conditional", conditional(), 4)):
        c.edge(f"accepted: {name}", tree_file(root), f"0/{count}")


FACTS_OF_MOST = {0, 1, 2, 3, 4, 5, 8, 9, 10, 11, 12, 13, 18, 19}
FACTS_OF_NO_SYMBOL = {0, 1, 2, 3, 8, 9, 10, 11, 18, 19}
FACTS_BY_HAND = {  # of a sample, so that a unary is void, and a binary a comparison
    LITERAL: {18},
    TEMPLATE: FACTS_OF_NO_SYMBOL, UNARY: FACTS_OF_NO_SYMBOL, BINARY: FACTS_OF_NO_SYMBOL,
    ELISION: {0}, PROPERTY: {0}, ELEMENT: {0},
    SPREAD: {0, 1},
    NEW: {more + facts for more in (0, 32, 64, 96) for facts in FACTS_OF_MOST},
    CALL: {more + facts for more in range(0, 256, 32) for facts in FACTS_OF_MOST},
}
# Each bit alone; each value of each pair of bits; string yes with each symbol; the whole mask.
FACTS_TRIED = (0, 1, 2, 4, 6, 7, 8, 10, 12, 16, 18, 19, 20, 22, 24, 26, 27, 30, 31, 32, 34, 50, 51, 63, 64, 96,
               115, 127, 128, 146, 160, 192, 224, 243, 255)


def nodes(root):
    yield root
    for child in root.children:
        yield from nodes(child)


def by_hand(root, listed=None):
    """What a file gets whose records pass 5: 6 where one is left out; else the number, or where none is given, that it is taken."""
    logicals = [node.sub for node in nodes(root) if node.kind == LOGICAL]
    if NULLISH in logicals or any(node.kind == ASSIGNMENT for node in nodes(root)):
        return 6, 6
    listed = listed or f"0/{len(list(nodes(root)))}"
    return (6 if logicals else listed), listed


def facts(c):
    for kind in range(1, 23):
        allowed = FACTS_BY_HAND.get(kind, FACTS_OF_MOST)
        for value in range(256) if kind in (LITERAL, IDENTIFIER, CALL) else FACTS_TRIED:
            root = around(sample(kind, facts=value))
            c.edge(f"kind {kind}, facts {value}", tree_file(root), *by_hand(root) if value in allowed else (5,))


SUBS_BY_HAND = {PROPERTY: {0, 1}, UNARY: {1, 2, 3, 4}, BINARY: {1, 2, 3}, CLASS: {0, 1, 2, 3}, LOGICAL: {0, 1, 2}}
ELEMENT_SUBS_BY_HAND = {
    1, 9, 17, 25, 33, 41, 49, 57,  # method: static, computed key, decorated
    2, 10, 18, 26, 34, 42, 50, 58, 66, 74, 82, 90, 98, 106, 114, 122,  # property: the same and value
    3, 11, 19, 27, 35, 43, 51, 59, 67, 75, 83, 91, 99, 107, 115, 123,  # accessor: the same and value
    4, 132,  # static block: nonempty
    5,  # index signature
}


def subs(c):
    for kind in range(1, 23):
        if kind == ELEMENT:
            continue
        for sub in (0, 1, 2, 3, 4, 5, 6, 7, 8, 16, 32, 64, 128, 129, 255):
            root = around(sample(kind, sub=sub))
            c.edge(f"kind {kind}, sub {sub}", tree_file(root),
                   *by_hand(root) if sub in SUBS_BY_HAND.get(kind, {0}) else (5,))
    for sub in range(256):
        root = around(sample(ELEMENT, sub=sub))
        c.edge(f"class element, sub {sub}", tree_file(root), *by_hand(root) if sub in ELEMENT_SUBS_BY_HAND else (5,))


def zero_byte(c):
    for kind in range(1, 23):
        c.edge(f"kind {kind}, byte 3 is 1", tree_file(around(sample(kind, zero=1))), 5)
    for zero in (2, 128, 255):
        c.edge(f"byte 3 is {zero}", tree_file(Node(IDENTIFIER, zero=zero)), 5)
    three = tree_file(Node(BINARY, identifier(), identifier(), sub=1))
    for at in range(3):
        for field, name, value in ((KIND, "kind", 0), (KIND, "kind", 23), (FACTS, "facts", 32),
                                   (SUB, "sub", 5), (ZERO, "byte 3", 1)):
            c.edge(f"record {at} of 3, {name} {value}", with_byte(three, of(at, field), value), 5)


def child_counts(c):
    """Wrong numbers of children, each counted and sized as it stands."""
    one, spread = identifier(), Node(SPREAD, identifier())
    for kind in (LITERAL, IDENTIFIER, FUNCTION, ARROW, OTHER_LEAF, THIS):
        c.edge(f"kind {kind} with a child", tree_file(Node(kind, one)), 7)
    c.edge("elision with a child", tree_file(Node(ARRAY, Node(ELISION, one))), 7)
    c.edge("spread of none", tree_file(Node(ARRAY, Node(SPREAD))), 7)
    c.edge("spread of two", tree_file(Node(ARRAY, Node(SPREAD, one, one))), 7)
    for sub in (1, 2, 3, 4):
        c.edge(f"unary, sub {sub}, of none", tree_file(Node(UNARY, sub=sub)), 7)
        c.edge(f"unary, sub {sub}, of two", tree_file(Node(UNARY, one, one, sub=sub)), 7)
    for sub in (1, 2, 3):
        for count in (0, 1, 3):
            c.edge(f"binary, sub {sub}, of {count}", tree_file(Node(BINARY, *[one] * count, sub=sub)), 7)
    for kind in (CALL, NEW):
        c.edge(f"kind {kind} without a callee", tree_file(Node(kind)), 7)
        c.edge(f"kind {kind} of a spread alone", tree_file(Node(kind, spread)), 7)
    for sub, count in ((0, 0), (0, 2), (1, 0), (1, 1), (1, 3)):
        c.edge(f"property, sub {sub}, of {count}",
               tree_file(Node(OBJECT, Node(PROPERTY, *[one] * count, sub=sub))), 7)
    c.edge("class, its heritage missing", tree_file(Node(CLASS, sub=2)), 7)
    c.edge("class, decorated, its heritage missing", tree_file(Node(CLASS, sub=3)), 7)
    c.edge("class, an element in the heritage's stead", tree_file(Node(CLASS, Node(ELEMENT, sub=1), sub=2)), 7)
    for sub in sorted(ELEMENT_SUBS_BY_HAND):
        right = len(sample(ELEMENT, sub=sub).children)
        for count in (right - 1, right + 1) if right > 0 else (1,):
            c.edge(f"class element, sub {sub}, of {count}",
                   tree_file(Node(CLASS, Node(ELEMENT, *[one] * count, sub=sub))), 7)


def nine_records():
    """0 array, 1 call, 2 callee, 3 argument, 4 object, 5 property, 6 key, 7 value, 8 elision"""
    return Node(ARRAY, Node(CALL, identifier(), identifier()),
                Node(OBJECT, Node(PROPERTY, identifier(), identifier(), sub=1)), Node(ELISION))


def shapes(c):
    """Child counts and sizes that do not fit the records."""
    nine = tree_file(nine_records())
    c.edge("nine records", nine, "0/9")
    for at, where in ((0, "first"), (4, "middle"), (8, "last")):
        for field, name in ((CHILDREN, "child count"), (SIZE, "subtree size")):
            for change in (1, -1):
                c.edge(f"{name} of the {where} record {change:+d}", plus(nine, of(at, field), change), 7)
    for at in range(9):
        c.edge(f"size of record {at} is 0", with_u16(nine, of(at, SIZE), 0), 7)
        c.edge(f"size of record {at} is 65535", with_u16(nine, of(at, SIZE), 65535), 7)
        c.edge(f"child count of record {at} is 65535", with_u16(nine, of(at, CHILDREN), 65535), 7)
        c.edge(f"child count of record {at} is 256 more", plus(nine, of(at, CHILDREN), 256), 7)
        c.edge(f"size of record {at} is 256 more", plus(nine, of(at, SIZE), 256), 7)
    c.edge("the root alone has size 0", with_u16(GOOD, of(0, SIZE), 0), 7)
    c.edge("the root alone has size 2", with_u16(GOOD, of(0, SIZE), 2), 7)
    c.edge("a child runs past its parent's end", with_u16(nine, of(7, SIZE), 2), 7)
    c.edge("a child reaches the end of the file", with_u16(nine, of(5, SIZE), 4), 7)
    c.edge("sizes moved from a child to the next", plus(plus(nine, of(1, SIZE), -1), of(4, SIZE), 1), 7)
    c.edge("sizes moved from a child to the one before", plus(plus(nine, of(1, SIZE), 1), of(4, SIZE), -1), 7)
    c.edge("child counts moved from a parent to its child",
           plus(plus(nine, of(0, CHILDREN), -1), of(1, CHILDREN), 1), 7)
    taken = plus(plus(plus(nine, of(0, CHILDREN), -1), of(1, CHILDREN), 1), of(1, SIZE), 4)
    c.edge("a child with its sizes moved too: another good tree", taken, "0/9")
    c.edge("the last record counts a child past the end",
           plus(plus(tree_file(Node(SEQUENCE, identifier(), Node(ARRAY))), of(2, CHILDREN), 1), of(2, SIZE), 1), 7)
    nested = plus(tree_file(Node(SEQUENCE, void(void(identifier())))), of(1, SIZE), -1)
    c.edge("a record counted by its parent and again by the root", plus(nested, of(0, CHILDREN), 1), 7)
    swallow = plus(plus(tree_file(Node(SEQUENCE, identifier(), identifier())), of(0, CHILDREN), -1), of(1, SIZE), 1)
    c.edge("a leaf's size takes in the record after it", swallow, 7)
    two_roots = with_u16(GOOD + GOOD[8:], COUNT, 2)
    c.edge("two roots", two_roots, 7)
    c.edge("two roots, the first of size 2", with_u16(two_roots, of(0, SIZE), 2), 7)
    c.edge("a root of size N - 1, a record left over",
           with_u16(tree_file(void(identifier())) + GOOD[8:], COUNT, 3), 7)


EXPRESSIONS_BY_HAND = {1, 2, 3, 4, 5, 6, 7, 10, 12, 13, 14, 15, 16, 17, 18, 20, 21}


# Each place where an expression can stand, and the kinds that may stand there too.
POSITIONS = (
    ("the root", lambda x: x, ()),
    ("in an array", lambda x: Node(ARRAY, identifier(), x), (8, 9)),
    ("in a spread", lambda x: Node(ARRAY, Node(SPREAD, x)), ()),
    ("in a template", lambda x: Node(TEMPLATE, identifier(), x), ()),
    ("in a sequence", lambda x: Node(SEQUENCE, x, identifier()), ()),
    ("under void", void, ()),
    ("under typeof", lambda x: Node(UNARY, x, sub=3), ()),
    ("left in a comparison", lambda x: Node(BINARY, x, identifier(), sub=1), ()),
    ("right in an addition", lambda x: Node(BINARY, identifier(), x, sub=2), ()),
    ("as callee of a call", lambda x: Node(CALL, x, identifier()), ()),
    ("as callee of a new", lambda x: Node(NEW, x), ()),
    ("as first argument of a call", lambda x: Node(CALL, identifier(), x, identifier()), (9,)),
    ("as last argument of a new", lambda x: Node(NEW, identifier(), identifier(), x), (9,)),
    ("as a property's only child", lambda x: Node(OBJECT, Node(PROPERTY, x)), ()),
    ("as a property's key", lambda x: Node(OBJECT, Node(PROPERTY, x, identifier(), sub=1)), ()),
    ("as a property's value", lambda x: Node(OBJECT, Node(PROPERTY, identifier(), x, sub=1)), ()),
    ("as a class's heritage", lambda x: Node(CLASS, x, Node(ELEMENT, sub=1), sub=2), ()),
    ("as an element's key", lambda x: Node(CLASS, Node(ELEMENT, x, sub=17)), ()),
    ("as an element's value", lambda x: Node(CLASS, Node(ELEMENT, identifier(), x, sub=82)), ()),
    ("as a static value", lambda x: Node(CLASS, Node(ELEMENT, x, sub=74)), ()),
    ("as a test", lambda x: conditional(test=x), ()),
    ("as a consequent", lambda x: conditional(consequent=x), ()),
    ("as an alternate", lambda x: conditional(alternate=x), ()),
    ("left in an and", lambda x: logical(left=x), ()),
    ("right in an or", lambda x: logical(right=x, sub=OR), ()),
)


def standing(c):
    """Each kind in each place where a record can stand."""
    for place, build, also in POSITIONS:
        for kind in range(1, 23):
            root = build(sample(kind))
            stands = kind in EXPRESSIONS_BY_HAND or kind in also
            c.edge(f"kind {kind} {place}", tree_file(root), *by_hand(root, None if stands else 7))
    one, method = identifier(), Node(ELEMENT, sub=1)
    for place, build, only in (
            ("in an object", lambda x: Node(OBJECT, x), {9, 11}),
            ("in an object after a spread", lambda x: Node(OBJECT, Node(SPREAD, one), x), {9, 11}),
            ("first in a class", lambda x: Node(CLASS, x, method), {19}),
            ("in a class after an element", lambda x: Node(CLASS, method, x), {19}),
            ("in a class after its heritage", lambda x: Node(CLASS, one, x, sub=2), {19})):
        for kind in range(1, 23):
            root = build(sample(kind))
            c.edge(f"kind {kind} {place}", tree_file(root), *by_hand(root, None if kind in only else 7))


def conditionals(c):
    """Conditionals and logicals under each other, in every place; and what has other children than they take."""
    one = identifier()
    for place, build, _ in POSITIONS:
        root = build(conditional(*[conditional()] * 3))
        c.edge(f"a conditional of three conditionals, {place}", tree_file(root), *by_hand(root))
    for name, node in (("ands", logical()), ("ors", logical(sub=OR)), ("??", logical(sub=NULLISH))):
        root = conditional(node, node, node)
        c.edge(f"a conditional of three {name}", tree_file(root), *by_hand(root))
        root = logical(node, conditional(test=node))
        c.edge(f"an and of two {name}, one of them a test", tree_file(root), *by_hand(root))
    for count in (0, 1, 2, 4, 5):
        c.edge(f"conditional of {count}", tree_file(Node(CONDITIONAL, *[one] * count)), 7)
    c.edge("conditional, 256 children more counted", plus(tree_file(conditional()), of(0, CHILDREN), 256), 7)
    for sub, listed in ((NULLISH, 6), (AND, 7), (OR, 7)):
        for count in (0, 1, 3):
            c.edge(f"logical, sub {sub}, of {count}", tree_file(Node(LOGICAL, *[one] * count, sub=sub)), 6, listed)
    c.edge("an and beside a ??", tree_file(Node(SEQUENCE, logical(), logical(sub=NULLISH))), 6)
    c.edge("an and beside an assignment", tree_file(Node(SEQUENCE, logical(), Node(ASSIGNMENT, one))), 6)
    c.edge("an and beside a conditional of two", tree_file(Node(SEQUENCE, logical(), Node(CONDITIONAL, one, one))), 6, 7)
    c.edge("an and beside a logical of sub 3", tree_file(Node(SEQUENCE, logical(), logical(sub=3))), 5)
    c.edge("an and at depth 66", tree_file(chain(65, inner=logical)), 6, 8)
    for field, name, value in ((FACTS, "facts", 32), (FACTS, "facts", 24), (SUB, "sub", 3), (ZERO, "byte 3", 1)):
        for root in (conditional(), logical()):
            c.edge(f"kind {root.kind}, {name} {value}", with_byte(tree_file(root), of(0, field), value), 5)


# ---- What can never be a symbol: document 02, N9

FIVE = (  # those that a record tells alone
    ("void", lambda facts: Node(UNARY, identifier(), facts=facts, sub=1)),
    ("not", lambda facts: Node(UNARY, identifier(), facts=facts, sub=2)),
    ("typeof", lambda facts: Node(UNARY, identifier(), facts=facts, sub=3)),
    ("a comparison", lambda facts: Node(BINARY, identifier(), identifier(), facts=facts, sub=COMPARISON)),
    ("a template", lambda facts: Node(TEMPLATE, identifier(), facts=facts)),
)
WITH_PART = (
    ("an addition of a string, on the left", lambda facts: addition(left=Node(LITERAL), facts=facts)),
    ("an addition of a string, on the right", lambda facts: addition(right=Node(LITERAL), facts=facts)),
)
OTHERS = (
    ("another unary", lambda facts: Node(UNARY, identifier(), facts=facts, sub=4)),
    ("another binary", lambda facts: Node(BINARY, identifier(), identifier(), facts=facts, sub=3)),
    ("an addition of no string", lambda facts: addition(facts=facts)),
)


def symbols(c):
    """Each of the six, and what is most like them, with each of the facts; symbol yes in each place."""
    for forms, allowed in ((FIVE, FACTS_OF_NO_SYMBOL), (WITH_PART, FACTS_OF_NO_SYMBOL), (OTHERS, FACTS_OF_MOST)):
        for name, make in forms:
            taken = by_hand(make(0))
            for value in range(32):
                c.edge(f"{name}, facts {value}", tree_file(make(value)), *taken if value in allowed else (5,))
    for place, build, _ in POSITIONS:
        for name, make in FIVE:
            c.edge(f"{name}, a symbol, {place}", tree_file(build(make(SYMBOL))), 5)
        for name, make in WITH_PART:  # where 6 is due, that comes first
            root = build(make(SYMBOL))
            c.edge(f"{name}, a symbol, {place}", tree_file(root), *by_hand(root, 5))
        for name, make in FIVE + WITH_PART:
            root = build(make(0))
            c.edge(f"{name}, unknown, {place}", tree_file(root), *by_hand(root))
        for name, make in OTHERS:
            root = build(make(SYMBOL))
            c.edge(f"{name}, a symbol, {place}", tree_file(root), *by_hand(root))


def sum_of(leaves, symbol=None):
    """((a + b) + c) + ..; the additions are counted from the inmost on, from 1, and one of them is a symbol."""
    left = leaves[0]
    for index, leaf in enumerate(leaves[1:], 1):
        left = addition(left, leaf, SYMBOL if index == symbol else 0)
    return left


def with_string(count, place, kind=LITERAL):
    """So many leaves, a string at the place, which is counted from 1."""
    return [Node(kind, facts=STRING) if index == place else identifier() for index in range(1, count + 1)]


def string_parts(c):
    """One string in a chain of additions, at each of its places, and a symbol at each addition: parts are the leaves up to it."""
    for depth in range(1, 5):
        taken = f"0/{2 * depth + 1}"
        for symbol in range(1, depth + 1):
            c.edge(f"{depth} additions, no string, {symbol} a symbol", tree_file(sum_of(with_string(depth + 1, 0), symbol)), taken)
            for p in range(1, depth + 2):
                for kind in (LITERAL, IDENTIFIER):
                    c.edge(f"{depth} additions, a string of kind {kind} at {p}, {symbol} a symbol",
                           tree_file(sum_of(with_string(depth + 1, p, kind), symbol)), 5 if p <= symbol + 1 else taken)
    right_sides(c)
    sides_by_facts(c)


def right_sides(c):
    """An addition on the right is a string by its fact alone."""
    one, text = identifier(), Node(LITERAL)
    for name, right in (("b + ''", addition(one, text)), ("'' + b", addition(text, one)), ("'' + ''", addition(text, text)),
                        ("('' + b) + c", addition(addition(text, one), one)), ("b + ('' + c)", addition(one, addition(text, one)))):
        count = len(list(nodes(right)))
        c.edge(f"a + ({name}), a symbol", tree_file(addition(one, right, SYMBOL)), f"0/{count + 2}")
        c.edge(f"(a + ({name})) + d, both symbols",
               tree_file(addition(addition(one, right, SYMBOL), one, SYMBOL)), f"0/{count + 4}")
        c.edge(f"'' + ({name}), a symbol", tree_file(addition(text, right, SYMBOL)), 5)
        recorded = addition(*right.children, facts=STRING)
        c.edge(f"a + ({name}), a symbol, the right one recorded as a string", tree_file(addition(one, recorded, SYMBOL)), 5)
    c.edge("a + (b + c), a symbol, the right one recorded as a string",
           tree_file(addition(one, addition(one, one, STRING), SYMBOL)), 5)
    c.edge("a + (b + ''), the right one a symbol", tree_file(addition(one, addition(one, text, SYMBOL))), 5)
    c.edge("a + (b + ''), both symbols", tree_file(addition(one, addition(one, text, SYMBOL), SYMBOL)), 5)


def sides_by_facts(c):
    """An addition's own string fact is no part of it, on the left neither; any other side goes by its fact."""
    one, text = identifier(), Node(LITERAL)
    for facts in (0, 1, 2, 8, 10, STRING):
        c.edge(f"(a + b) + c, a symbol, the left one's facts {facts}",
               tree_file(addition(addition(one, one, facts), one, SYMBOL)), "0/5")
        c.edge(f"('' + b) + c, a symbol, the left one's facts {facts}",
               tree_file(addition(addition(text, one, facts), one, SYMBOL)), 5)
    for name, kind, children, sub in (("a template", TEMPLATE, (), 0), ("typeof", UNARY, (one,), 3), ("a call", CALL, (one,), 0),
                                      ("a sequence that ends in a string", SEQUENCE, (one, text), 0),
                                      ("a conditional of strings", CONDITIONAL, (one, text, text), 0)):
        for facts, part in ((0, False), (2, False), (10, False), (STRING, True), (STRING + 1, True)):
            side = Node(kind, *children, facts=facts, sub=sub)
            due = 5 if part else f"0/{3 + len(children)}"
            c.edge(f"{name}, facts {facts}, left of an addition, a symbol", tree_file(addition(side, one, SYMBOL)), due)
            c.edge(f"{name}, facts {facts}, right of an addition, a symbol", tree_file(addition(one, side, SYMBOL)), due)


def symbol_order(c):
    """The test of additions comes behind 7 and before 8."""
    wrong, one = symbol_and_string(), identifier()
    for name, other, reduced, listed in (
            ("an elision", Node(ELISION), 7, 7), ("a conditional of two", Node(CONDITIONAL, one, one), 7, 7),
            ("an assignment", Node(ASSIGNMENT, one), 6, 6), ("a ??", logical(sub=NULLISH), 6, 6), ("an and", logical(), 6, 5),
            ("an or that is too deep", chain(70, inner=lambda: logical(sub=OR)), 6, 5),
            ("a byte 3", Node(IDENTIFIER, zero=1), 5, 5), ("a template that is a symbol", Node(TEMPLATE, facts=SYMBOL), 5, 5),
            ("what is too deep", chain(70), 5, 5), ("another", symbol_and_string(), 5, 5)):
        c.edge(f"an addition that is a symbol with a string part, then {name}", tree_file(Node(SEQUENCE, wrong, other)),
               reduced, listed)
        c.edge(f"{name}, then such an addition", tree_file(Node(SEQUENCE, other, wrong)), reduced, listed)
    for count in (0, 1, 3):
        c.edge(f"an addition of {count} strings, a symbol",
               tree_file(Node(BINARY, *[Node(LITERAL)] * count, facts=SYMBOL, sub=ADDITION)), 7)
    c.edge("'' + an elision, a symbol", tree_file(addition(Node(LITERAL), Node(ELISION), SYMBOL)), 7)
    data = tree_file(wrong)
    for record in range(3):
        c.edge(f"such an addition, the size of record {record} one more", plus(data, of(record, SIZE), 1), 7)
    for name, broken, number in (("mark", with_byte(data, 0, 0), 1), ("version", with_u16(data, VERSION, 3), 2),
                                 ("settings", with_byte(data, SETTINGS, 8), 3), ("a byte more", data + b"\0", 4)):
        c.edge(f"such an addition, and {name}", broken, number)
    c.edge("such an addition, settings 7", tree_file(wrong, settings=7), 5)


def symbol_depths(c):
    """The test of additions meets trees of any depth."""
    for depth in (62, 63, 64, 65, 66, 130):
        c.edge(f"an addition that is a symbol with a string part, at depth {depth}",
               tree_file(chain(depth, inner=symbol_and_string)), 5)
    for depth, listed in ((64, "0/66"), (65, 8), (66, 8)):
        c.edge(f"an addition that is a symbol without a string part, at depth {depth}",
               tree_file(chain(depth, inner=lambda: addition(facts=SYMBOL))), 8, listed)
    for depth in (63, 64, 65, 66):
        for p in (1, 2, depth + 1):
            c.edge(f"{depth} additions, a string at {p}, the outmost a symbol",
                   tree_file(sum_of(with_string(depth + 1, p), depth)), 5)
    c.edge("63 additions, no string, the outmost a symbol", tree_file(sum_of(with_string(64, 0), 63)), "0/127")
    c.edge("65 additions, no string, the outmost a symbol", tree_file(sum_of(with_string(66, 0), 65)), 8)
    most = 999  # additions in 2,000 records; 1,999 are in 3,999
    c.edge(f"{most} additions, a string at 1, the outmost a symbol", tree_file(sum_of(with_string(most + 1, 1), most)), 5)
    c.edge(f"{most} additions, a string last, the one under the outmost a symbol",
           tree_file(sum_of(with_string(most + 1, most + 1), most - 1)), 8)
    c.edge("1,999 additions, a string at 1, the outmost a symbol", tree_file(sum_of(with_string(2000, 1), 1999)), 4, 5)
    c.edge("2,000 records, the last three such an addition", tree_file(chain(1998, inner=symbol_and_string)), 5)


def depths(c):
    for depth in (63, 64):
        c.edge(f"depth {depth}", tree_file(chain(depth)), f"0/{depth}")
    c.edge("depth 65", tree_file(chain(65)), 8, "0/65")
    for depth in (66, 67, 130):
        c.edge(f"depth {depth}", tree_file(chain(depth)), 8)

    def spread(x):
        return Node(ARRAY, Node(SPREAD, x))

    def value(x):
        return Node(OBJECT, Node(PROPERTY, x))

    def key(x):
        return Node(CLASS, Node(ELEMENT, x, sub=17))

    for name, wrap in (("spreads", spread), ("properties", value), ("elements", key)):
        c.edge(f"depth 63 over {name}", tree_file(chain(32, wrap)), "0/63")
        c.edge(f"depth 64 over {name}", tree_file(chain(32, wrap, lambda: Node(ARRAY, Node(ELISION)))), "0/64")
        c.edge(f"depth 65 over {name}", tree_file(chain(33, wrap)), 8, "0/65")
        c.edge(f"depth 66 over {name}", tree_file(chain(33, wrap, lambda: Node(ARRAY, Node(ELISION)))), 8)
    one = identifier()
    for name, wrap in (("callees", lambda x: Node(CALL, x, one)), ("arguments", lambda x: Node(CALL, one, x)),
                       ("left sides", lambda x: Node(BINARY, x, one, sub=2)),
                       ("heritages", lambda x: Node(CLASS, x, Node(ELEMENT, sub=1), sub=2))):
        c.edge(f"depth 64 over {name}", tree_file(chain(64, wrap)), "0/127")
        c.edge(f"depth 65 over {name}", tree_file(chain(65, wrap)), 8, "0/129")
        c.edge(f"depth 66 over {name}", tree_file(chain(66, wrap)), 8)
    for name, root in (("first", lambda d: Node(SEQUENCE, chain(d), one, one)),
                       ("second", lambda d: Node(SEQUENCE, one, chain(d), one)),
                       ("last", lambda d: Node(SEQUENCE, one, one, chain(d)))):
        c.edge(f"depth 64, the deep child {name}", tree_file(root(63)), "0/66")
        c.edge(f"depth 65, the deep child {name}", tree_file(root(64)), 8, "0/67")
        c.edge(f"depth 66, the deep child {name}", tree_file(root(65)), 8)
    c.edge("depth 41 twice",
           tree_file(Node(SEQUENCE, chain(40), chain(40))), "0/81")


def conditional_depths(c):
    for name, wrap in (("tests", lambda x: conditional(test=x)), ("consequents", lambda x: conditional(consequent=x)),
                       ("alternates", lambda x: conditional(alternate=x))):
        c.edge(f"depth 64 over {name}", tree_file(chain(64, wrap)), "0/190")
        c.edge(f"depth 65 over {name}", tree_file(chain(65, wrap)), 8, "0/193")
        c.edge(f"depth 66 over {name}", tree_file(chain(66, wrap)), 8)
    for name, wrap in (("ands", lambda x: logical(left=x)), ("ors", lambda x: logical(right=x, sub=OR))):
        c.edge(f"depth 65 over {name}", tree_file(chain(65, wrap)), 6, "0/129")
        c.edge(f"depth 66 over {name}", tree_file(chain(66, wrap)), 6, 8)


def faulty(faults):
    """A file with each of the faults, named by their numbers."""
    data = tree_file(chain(66 if 8 in faults else 3))
    last = u16(data, COUNT) - 1
    if 7 in faults:
        data = plus(data, of(0, SIZE), 1)
    if 6 in faults:
        data = with_byte(with_byte(data, of(1, KIND), LOGICAL), of(1, SUB), 0)
    if 5 in faults:
        data = with_byte(data, of(last, ZERO), 1)
    if 4 in faults:
        data = data + b"\0"
    if 3 in faults:
        data = with_byte(data, SETTINGS, 8)
    if 2 in faults:
        data = with_u16(data, VERSION, 3)
    if 1 in faults:
        data = with_byte(data, 0, 0)
    return data


def several_faults(c):
    for bits in range(1, 128):
        faults = [number for number in range(1, 8) if bits >> number - 1 & 1]
        c.edge(f"faults {faults}", faulty(faults), min(faults))
    for number in range(1, 8):
        c.edge(f"faults [{number}, 8]", faulty([number, 8]), number)
    c.edge("faults [8]", faulty([8]), 8)
    c.edge("version wrong and no record", with_u16(GOOD[:8], VERSION, 3), 2)
    c.edge("settings wrong and no record", with_byte(GOOD[:8], SETTINGS, 8), 3)
    c.edge("version wrong, cut after 7 bytes", with_u16(GOOD, VERSION, 3)[:7], 1)
    five = tree_file(Node(ARRAY, *[identifier() for _ in range(4)]))
    for i in (0, 2, 4):
        for j in (0, 2, 4):
            field = with_byte(five, of(i, ZERO), 1)
            nullish = with_byte(five, of(i, KIND), LOGICAL)
            c.edge(f"5 at record {i}, 6 at record {j}", with_byte(field, of(j, KIND), LOGICAL), 5)
            c.edge(f"5 at record {i}, 7 at record {j}", plus(field, of(j, SIZE), 1), 5)
            c.edge(f"6 at record {i}, 7 at record {j}", plus(nullish, of(j, SIZE), 1), 6)
            c.edge(f"an and without children at record {i}, 7 at record {j}",
                   plus(with_byte(nullish, of(i, SUB), AND), of(j, SIZE), 1), 6, 7)
    for kind in (LOGICAL, ASSIGNMENT):
        c.edge(f"kind {kind} with three children", tree_file(Node(kind, *[identifier()] * 3)), 6)
        c.edge(f"kind {kind} at depth 70", tree_file(chain(70, inner=lambda k=kind: Node(k))), 6)
    c.edge("a conditional without children at depth 70", tree_file(chain(70, inner=lambda: Node(CONDITIONAL))), 7)
    for depth in (65, 66):
        c.edge(f"an elision under void at depth {depth}",
               tree_file(chain(depth, inner=lambda: Node(ELISION))), 7)
    c.edge("a deep child, then an elision", tree_file(Node(SEQUENCE, chain(70), Node(ELISION))), 7)
    c.edge("an elision, then a deep child", tree_file(Node(SEQUENCE, Node(ELISION), chain(70))), 7)
    c.edge("depth 65, settings 7", tree_file(chain(65), settings=7), 8, "7/65")


# ---- Version 2: document 02, N6


def widened_cases(c):
    """What has a fault in several places, or in a record that is not the first: the answers are those of version 1."""
    first = Cases()
    for group in (counts, accepted, zero_byte, child_counts, shapes, conditionals, string_parts, symbol_order, depths,
                  several_faults):
        group(first)
    for name, data, *answers in first.cases:
        c.edge(f"version 2: {name}", widened(data), *answers)


ENDS_BEFORE = ((1, 0), (2, 1), (0x100, 0xff), (0x10000, 0xffff), (0x1000000, 0xffffff), (0x80000000, 0x7fffffff),
               (0x01000001, 0x01000000), (0x02000001, 0x01000002), (2 ** 32 - 1, 2 ** 32 - 2), (2 ** 32 - 1, 0))
ENDS_TAKEN = ((0, 0), (0, 1), (1, 1), (0xff, 0x100), (0xffff, 0x10000), (0xffffff, 0x1000000), (0x7fffffff, 0x80000000),
              (0x01000002, 0x02000001), (0, 2 ** 32 - 1), (2 ** 32 - 1, 2 ** 32 - 1))


def ends(c):
    """An end before its start in each record, of each kind, and by each byte; any other end is taken."""
    for pairs, due in ((ENDS_BEFORE, 17), (ENDS_TAKEN, "0/1")):
        for place in pairs:
            c.edge("from {} to {}".format(*place), tree_file(Node(IDENTIFIER, place=place), version=2), due)
    nine = tree_file(nine_records(), version=2)
    for record in range(9):
        c.edge(f"record {record} of nine ends one before its start", with_ends(nine, record, 5, 4), 17)
        c.edge(f"record {record} of nine ends at its start", with_ends(nine, record, 5, 5), "0/9")
    for kind in range(1, 23):
        root = around(sample(kind))
        at = 0 if root.kind == kind else 1
        c.edge(f"kind {kind} ends before its start", with_ends(tree_file(root, version=2), at, 1, 0), *by_hand(root, 17))
    c.edge("each of two records ends before its start", with_ends(with_ends(flat(2, 2), 0, 9, 8), 1, 3, 2), 17)
    c.edge("a child outside its parent's ends", with_ends(with_ends(flat(2, 2), 0, 10, 20), 1, 30, 40), "0/2")
    c.edge("the last of 2,001 records ends before its start", with_ends(flat(2001, 2), 2000, 1, 0), 4, 17)


def end_order(c):
    """17 comes behind 7 and the test of additions, and before 8."""
    for bits in range(128):
        faults = [number for number in range(1, 8) if bits >> number - 1 & 1]
        c.edge(f"faults {faults + [17]}", with_ends(widened(faulty(faults)), 1, 1, 0), min(faults, default=17))
    for faults in ([], *([number] for number in range(1, 8))):
        c.edge(f"faults {faults + [17, 8]}", with_ends(widened(faulty(faults + [8])), 1, 1, 0), min(faults, default=17))
    five = tree_file(Node(ARRAY, *[identifier() for _ in range(4)]), version=2)
    for i in (0, 2, 4):
        for j in (0, 2, 4):
            ended = with_ends(five, j, 1, 0)
            c.edge(f"5 at record {i}, 17 at record {j}", with_byte(ended, of(i, ZERO, 2), 1), 5)
            c.edge(f"6 at record {i}, 17 at record {j}", with_byte(ended, of(i, KIND, 2), LOGICAL), 6)
            c.edge(f"7 at record {i}, 17 at record {j}", plus(ended, of(i, SIZE, 2), 1), 7)
    for record in range(3):
        for depth in (1, 70):
            data = tree_file(chain(depth, inner=symbol_and_string), version=2)
            c.edge(f"an addition that is a symbol with a string part at depth {depth}, 17 at its record {record}",
                   with_ends(data, depth - 1 + record, 1, 0), 5)
    for depth in (64, 65, 66):
        for record in (0, depth - 1):
            c.edge(f"depth {depth}, 17 at record {record}", with_ends(tree_file(chain(depth), version=2), record, 1, 0), 17)
    c.edge("an elision under void, 17 at the elision", with_ends(tree_file(void(Node(ELISION)), version=2), 1, 1, 0), 7)


def changed_bytes(c):
    """Four files with each byte of the header, each before the text, and in version 2 each of both ends, one more and one less."""
    for name in ("columns", "class", "logical", "spans"):
        data = EXAMPLES[name]
        version = u16(data, VERSION)
        for at, byte in enumerate(data):
            field = (at - 8) % FIELDS[version].size
            tried = at < 8 or field < 8 or version == 2 and field >= START
            for change in (1, -1) if tried else ():
                c.add(f"{name}.uxt, byte {at} {change:+d}", with_byte(data, at, (byte + change) % 256))


def all_cases():
    c = Cases()
    for group in (lengths, header, counts, record_limits, kinds, accepted, facts, subs, zero_byte,
                  child_counts, shapes, standing, conditionals, symbols, string_parts, symbol_order, symbol_depths, depths,
                  conditional_depths, several_faults, widened_cases, ends, end_order, changed_bytes):
        group(c)
    return c.cases


# ---- The example files


def columns():
    """[1, a(), ...b]; the array, the call and the spread are flagged."""
    return Node(ARRAY,
                Node(OTHER_LEAF, facts=10, text=1, place=(1, 2)),
                Node(CALL, Node(IDENTIFIER, text=2, place=(4, 5)), facts=1, place=(4, 7)),
                Node(SPREAD, Node(IDENTIFIER, text=3, place=(12, 13)), facts=1, place=(9, 13)),
                facts=1, place=(0, 14))


def class_with_elements():
    """class extends b { [k()]() {} static p = 1; static {} }; k() and the class are flagged."""
    key = Node(CALL, Node(IDENTIFIER, text=2, place=19), facts=1, place=19)
    value = Node(OTHER_LEAF, facts=10, text=3, place=40)
    return Node(CLASS,
                Node(IDENTIFIER, text=1, place=14),
                Node(ELEMENT, key, sub=1 + 16, place=18),
                Node(ELEMENT, value, sub=2 + 8 + 64, place=29),
                Node(ELEMENT, sub=4, place=43),
                facts=1, sub=2, place=0)


def logical_and():
    """a && b"""
    return Node(LOGICAL, Node(IDENTIFIER, text=1, place=0), Node(IDENTIFIER, text=2, place=5), sub=AND)


EXAMPLES = {
    "broken": plus(tree_file(columns()), of(2, SIZE), 1),
    "class": tree_file(class_with_elements(), settings=1),
    "columns": tree_file(columns()),
    "logical": tree_file(logical_and()),
    "spans": tree_file(columns(), version=2),
}


def example_files():
    """All of them; the others have a text each, for assemble.py."""
    return sorted((pathlib.Path(__file__).resolve().parent.parent / "examples").glob("*.uxt"))


def validation(data):
    read = answer(data, REDUCE)
    if isinstance(read, int):
        return f"refused {read}"
    return "accepted settings {} records {}".format(*read.split("/"))


# ---- The modes


def write_cases(out):
    for _, data, _, _ in all_cases():
        out.write(len(data).to_bytes(2, "little") + data)


def main(words):
    sys.setrecursionlimit(10_000)  # the deepest case has 3,999 levels
    out = sys.stdout.buffer
    if words == ["cases"]:
        write_cases(out)
    elif words == ["expected"]:
        for _, _, reduce, list_effects in all_cases():
            print(reduce, list_effects)
    elif words == ["names"]:
        for name, _, _, _ in all_cases():
            print(name)
    elif len(words) == 2 and words[0] == "example" and words[1] in EXAMPLES:
        out.write(EXAMPLES[words[1]])
    elif words == ["examples-expected"]:
        for path in example_files():
            print(path.name, validation(path.read_bytes()))
    else:
        sys.exit(f"usage: edges.py cases | expected | names | example {'|'.join(EXAMPLES)} | examples-expected")


if __name__ == "__main__":
    main(sys.argv[1:])
