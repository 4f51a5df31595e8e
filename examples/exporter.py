#!/usr/bin/env python3
"""Writes twenty-four JavaScript expressions as tree files, the last in version 2.

Usage: python3 exporter.py FOLDER    writes FOLDER/01.uxt to FOLDER/24.uxt

A real exporter walks the tree of a parser. Here the trees are built by hand,
so that the script shows the format and nothing else: first the writer, then
short forms for common nodes, then the tables of the expressions. All but the
last four of these were written from docs/FORMAT.md alone. It shares no code
with this repository.

Of all of them it is known that names are parameters of the function around,
so that to read one has no effect, and nothing of what is called or spread.
"""

import struct
import sys
from pathlib import Path

# Kinds, in the order of their numbers: 1 to 21.
(STRING, NAME, FUNCTION, ARROW, LEAF, THIS, ARRAY, ELISION, SPREAD, OBJECT,
 PROPERTY, TEMPLATE, SEQUENCE, UNARY, BINARY, CALL, NEW, CLASS, ELEMENT,
 LOGICAL, CONDITIONAL) = range(1, 22)

# Subs. That of a class element is a form, with bits added. FIELD is the form
# "property", named so to tell it from the kind.
VALUE, KEY_AND_VALUE = 0, 1                       # property
VOID, NOT, TYPEOF, OTHER_UNARY = 1, 2, 3, 4       # unary
COMPARISON, ADDITION, OTHER_BINARY = 1, 2, 3      # binary
HERITAGE = 2                                      # class
NULLISH, AND, OR = 0, 1, 2                        # logical: ??, &&, ||
METHOD, FIELD, ACCESSOR, STATIC_BLOCK = 1, 2, 3, 4  # class element: forms
STATIC, COMPUTED, WITH_VALUE = 8, 16, 64          # class element: bits

# Facts. A value that is a string is no symbol, so IS_STRING says both.
EFFECT = 1
NO_STRING = 2 + 8       # neither a symbol nor a string
IS_STRING = 2 + 16
ANNOTATED = 32

# Settings of a file.
ANNOTATIONS, DERIVED = 1, 4

HEADER = struct.Struct("<3sHBH")      # mark, version, settings, record count
# By version: kind, facts, sub, 0, children, size, text, place, and in 2 the end.
RECORD = {1: struct.Struct("<BBBBHHII"), 2: struct.Struct("<BBBBHHIII")}


class Node:
    """A node of the tree. Its child count, size and text are found on writing.

    The place is where it starts; for version 2 that and where it ends, as a
    tuple. The spelling is a name, the value of a string literal, or the pieces
    of a template as a tuple. It is empty for all nodes without a text.
    """

    def __init__(self, kind, facts, sub, place, *children, spelling=""):
        self.kind = kind
        self.facts = facts
        self.sub = sub
        self.place = place
        self.children = children
        self.spelling = spelling


def text_of(spelling, numbers):
    """The number of a spelling, from 1 up in the order of first appearance.

    The empty string and a template whose pieces are all empty get 0.
    """
    if not any(spelling):
        return 0
    return numbers.setdefault(spelling, len(numbers) + 1)


def allowed_facts(kind):
    """The bits that a facts byte may have, by the formula of docs/FORMAT.md."""
    return (0 if kind in (ELISION, PROPERTY, ELEMENT) else 1 if kind == SPREAD
            else 255 if kind == CALL else 127 if kind == NEW else 31)


def records_of(node, numbers, version):
    """The records of a subtree: the node's own, then those of each child."""
    if node.facts & ~allowed_facts(node.kind):
        raise ValueError(f"kind {node.kind} may not have facts {node.facts}")
    text = text_of(node.spelling, numbers)
    below = b"".join(records_of(child, numbers, version) for child in node.children)
    size = 1 + len(below) // RECORD[version].size
    place = node.place if version == 2 else (node.place,)
    return RECORD[version].pack(node.kind, node.facts, node.sub, 0,
                                len(node.children), size, text, *place) + below


def write_file(path, version, settings, root):
    """Writes a tree file: the header, then the records of the whole tree."""
    records = records_of(root, {}, version)
    count = len(records) // RECORD[version].size
    path.write_bytes(HEADER.pack(b"UXT", version, settings, count) + records)


def places_in(source):
    """Returns a function that gives the place where a snippet first stands."""
    def at(snippet):
        return len(source[:source.index(snippet)].encode())   # in UTF-8 bytes
    return at


def spans_in(source):
    """The same for version 2: where the snippet starts and where it ends."""
    at = places_in(source)
    return lambda snippet: (at(snippet), at(snippet) + len(snippet.encode()))


# Short forms for common nodes.

def name(spelling, place):
    """A parameter: to read it has no effect, and its value is unknown."""
    return Node(NAME, 0, 0, place, spelling=spelling)


def string(value, place):
    return Node(STRING, IS_STRING, 0, place, spelling=value)


def leaf(facts, place):
    return Node(LEAF, facts, 0, place)


def call(callee, place):
    """`callee()`, where nothing is known of what is called."""
    return Node(CALL, EFFECT, 0, place, name(callee, place))


def spread(argument, place):
    """`...argument`, where nothing is known of what is spread."""
    return Node(SPREAD, EFFECT, 0, place, name(argument, place + 3))


def method_function(place):
    """The function of a method or getter; its place is that of the `(`."""
    return Node(FUNCTION, 0, 0, place)


# The expressions: the source, the settings, and the tree, built by a function
# that is handed the places. A node is: kind, facts, sub, place, children.
# Parentheses have no record, and a node starts behind those around it.
EXPRESSIONS = [
    # 01
    ("[1, a(), ...b]", 0, lambda at:
        Node(ARRAY, EFFECT, 0, 0,
             leaf(NO_STRING, at("1")),
             call("a", at("a()")),
             spread("b", at("...b")))),

    # 02: a member access is one leaf, with the call in it.
    ("a().b", 0, lambda at: leaf(EFFECT, 0)),

    # 03
    ("await x", 0, lambda at: leaf(EFFECT, 0)),

    # 04: a tagged template is a leaf and no template, so it has no text.
    ("tag`x${a}`", 0, lambda at: leaf(EFFECT, 0)),

    # 05: refused by 6, since Reduce takes no logical expression.
    ("[a && b]", 0, lambda at:
        Node(ARRAY, 0, 0, 0,
             Node(LOGICAL, 0, AND, at("a"),
                  name("a", at("a")),
                  name("b", at("b"))))),

    # 06: only a key in brackets is a child.
    ('({a, "b": c(), [k()]: 1, get d() { return 1 }, ...e})', 0, lambda at:
        Node(OBJECT, EFFECT, 0, at("{"),
             Node(PROPERTY, 0, VALUE, at("a"), name("a", at("a"))),
             Node(PROPERTY, 0, VALUE, at('"b"'), call("c", at("c()"))),
             Node(PROPERTY, 0, KEY_AND_VALUE, at("[k"),
                  call("k", at("k()")),
                  leaf(NO_STRING, at("1"))),
             Node(PROPERTY, 0, VALUE, at("get"),
                  method_function(at("() { return"))),
             spread("e", at("...e")))),

    # 07: that the key k is made a string or a symbol counts as no effect.
    ("({__proto__: p, m() {}, async *[k]() {}})", 0, lambda at:
        Node(OBJECT, 0, 0, at("{"),
             Node(PROPERTY, 0, VALUE, at("__proto__"), name("p", at("p,"))),
             Node(PROPERTY, 0, VALUE, at("m()"),
                  method_function(at("m()") + 1)),
             Node(PROPERTY, 0, KEY_AND_VALUE, at("async"),
                  name("k", at("k]")),
                  method_function(at("]()") + 1)))),

    # 08
    ("`x${a}y${b()}`", 0, lambda at:
        Node(TEMPLATE, EFFECT | IS_STRING, 0, 0,
             name("a", at("a")),
             call("b", at("b()")),
             spelling=("x", "y", ""))),

    # 09: flagged, since a may be a symbol or an object.
    ("`${a}`", 0, lambda at:
        Node(TEMPLATE, EFFECT | IS_STRING, 0, 0,
             name("a", at("a")),
             spelling=("", ""))),

    # 10
    ("typeof (a, b)", 0, lambda at:
        Node(UNARY, IS_STRING, TYPEOF, 0,
             Node(SEQUENCE, 0, 0, at("a, b"),
                  name("a", at("a, b")),
                  name("b", at("b"))))),

    # 11: flagged, since a may be a symbol or an object.
    ('"" + (a + "s")', 0, lambda at:
        Node(BINARY, EFFECT | IS_STRING, ADDITION, 0,
             string("", 0),
             Node(BINARY, EFFECT | IS_STRING, ADDITION, at("a"),
                  name("a", at("a")),
                  string("s", at('"s"'))))),

    # 12: pure, but flagged for its argument `...c`.
    ("/* @__PURE__ */ new A(b, ...c)", ANNOTATIONS, lambda at:
        Node(NEW, EFFECT | ANNOTATED, 0, at("new"),
             name("A", at("A(")),
             name("b", at("b,")),
             spread("c", at("...c")))),

    # 13: the value of an element that is not static is left out.
    ("class extends (0, b) { static p = f(); [k()] = 1; static {} "
     "accessor x = 1; static async *[g()]() {} #q; "
     "constructor() { super() } }", 0, lambda at:
        Node(CLASS, EFFECT, HERITAGE, 0,
             Node(SEQUENCE, 0, 0, at("0"),
                  leaf(NO_STRING, at("0")),
                  name("b", at("b)"))),
             Node(ELEMENT, 0, FIELD | STATIC | WITH_VALUE, at("static p"),
                  call("f", at("f()"))),
             Node(ELEMENT, 0, FIELD | COMPUTED, at("[k"),
                  call("k", at("k()"))),
             Node(ELEMENT, 0, STATIC_BLOCK, at("static {}")),
             Node(ELEMENT, 0, ACCESSOR, at("accessor")),
             Node(ELEMENT, 0, METHOD | STATIC | COMPUTED, at("static async"),
                  call("g", at("g()"))),
             Node(ELEMENT, 0, FIELD, at("#q")),
             Node(ELEMENT, 0, METHOD, at("constructor")))),

    # 14: an optional chain is one leaf.
    ("a?.b.c(d)", 0, lambda at: leaf(EFFECT, 0)),

    # 15: a hole has the place of the comma that ends it.
    ("[, a, , ]", 0, lambda at:
        Node(ARRAY, 0, 0, 0,
             Node(ELISION, 0, 0, at(", a")),
             name("a", at("a")),
             Node(ELISION, 0, 0, at(", ]")))),

    # 16
    ("(a, (b, c))", 0, lambda at:
        Node(SEQUENCE, 0, 0, at("a"),
             name("a", at("a")),
             Node(SEQUENCE, 0, 0, at("b"),
                  name("b", at("b")),
                  name("c", at("c"))))),

    # 17: the argument is flagged like any other, though it is not read.
    ("delete a.b", 0, lambda at:
        Node(UNARY, EFFECT | NO_STRING, OTHER_UNARY, 0,
             leaf(EFFECT, at("a.b")))),

    # 18: `x ** -y` and the comparison start together with x.
    ("x ** -y !== void 0", 0, lambda at:
        Node(BINARY, EFFECT | NO_STRING, COMPARISON, 0,
             Node(BINARY, EFFECT | NO_STRING, OTHER_BINARY, 0,
                  name("x", 0),
                  Node(UNARY, EFFECT | NO_STRING, OTHER_UNARY, at("-y"),
                       name("y", at("y")))),
             Node(UNARY, NO_STRING, VOID, at("void"),
                  leaf(NO_STRING, at("0"))))),

    # 19: with the setting, `this` is flagged. The callee `super` is a leaf.
    ("super(this, ...args)", DERIVED, lambda at:
        Node(CALL, EFFECT, 0, 0,
             leaf(0, 0),
             Node(THIS, EFFECT, 0, at("this")),
             spread("args", at("...args")))),

    # 20: not flagged, since what is called is known, and its body is empty.
    # The parenthesis before the callee is part of the call.
    ('(async () => {})(1n, /r/g, null, "é", ü)', 0, lambda at:
        Node(CALL, 0, 0, 0,
             Node(ARROW, 0, 0, at("async")),
             leaf(NO_STRING, at("1n")),
             leaf(0, at("/r/g")),
             leaf(NO_STRING, at("null")),
             string("é", at('"é"')),
             name("ü", at("ü")))),

    # 21: flagged for its arms. It starts together with its test, and the
    # conditional in the alternate with its own.
    ("!a ? f() : b ? 1 : g()", 0, lambda at:
        Node(CONDITIONAL, EFFECT, 0, 0,
             Node(UNARY, NO_STRING, NOT, 0, name("a", at("a"))),
             call("f", at("f()")),
             Node(CONDITIONAL, EFFECT, 0, at("b"),
                  name("b", at("b")),
                  leaf(NO_STRING, at("1")),
                  call("g", at("g()"))))),

    # 22: refused by 6, by both operations for the `??`. The parenthesis
    # before it is part of the or, and of the conditional.
    ("(a ?? b) || c ? d : e", 0, lambda at:
        Node(CONDITIONAL, 0, 0, 0,
             Node(LOGICAL, 0, OR, 0,
                  Node(LOGICAL, 0, NULLISH, at("a"),
                       name("a", at("a")),
                       name("b", at("b"))),
                  name("c", at("c"))),
             name("d", at("d")),
             name("e", at("e")))),

    # 23: nothing is said of symbols, and nothing need be: neither `typeof` nor
    # an addition with a string part can be one.
    ('`${typeof a}${b + "s" + c}`', 0, lambda at:
        Node(TEMPLATE, EFFECT, 0, 0,
             Node(UNARY, 0, TYPEOF, at("typeof"), name("a", at("a"))),
             Node(BINARY, EFFECT, ADDITION, at("b"),
                  Node(BINARY, EFFECT, ADDITION, at("b"),
                       name("b", at("b")),
                       string("s", at('"s"'))),
                  name("c", at("c"))),
             spelling=("", "", ""))),
]

# The same for version 2, where the function is handed both ends.
EXPRESSIONS_WITH_ENDS = [
    # 24: the parentheses are part of the unary and not of the sequence, and a
    # hole is empty.
    ("[, void (a, f())]", 0, lambda span:
        Node(ARRAY, EFFECT, 0, span("[, void (a, f())]"),
             Node(ELISION, 0, 0, (1, 1)),
             Node(UNARY, EFFECT | NO_STRING, VOID, span("void (a, f())"),
                  Node(SEQUENCE, EFFECT, 0, span("a, f()"),
                       name("a", span("a")),
                       Node(CALL, EFFECT, 0, span("f()"), name("f", span("f"))))))),
]


def main(folder):
    folder.mkdir(parents=True, exist_ok=True)
    files = [(1, settings, tree(places_in(source)))
             for source, settings, tree in EXPRESSIONS]
    files += [(2, settings, tree(spans_in(source)))
              for source, settings, tree in EXPRESSIONS_WITH_ENDS]
    for number, file in enumerate(files, 1):
        write_file(folder / f"{number:02}.uxt", *file)


if __name__ == "__main__":
    if len(sys.argv) != 2:
        sys.exit(__doc__)
    main(Path(sys.argv[1]))
