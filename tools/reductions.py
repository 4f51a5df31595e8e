#!/usr/bin/env python3
"""Tree files for Reduce, each with its answer by hand.

  reductions.py cases      the standard input of the program `reductions` (crates/reductions): for each
                           case the file's length and how many bytes are lent for the answer (two bytes
                           each, little-endian), the byte that these hold before, and the file
  reductions.py check      reads what was printed of the cases, and holds it to the answers by hand
  reductions.py names      a line for each case: what it is

What is printed for a case: `refused` and the number, `removable`, or `kept` and the length, then the
rewritten file in hexadecimal, a line for the header and a line for each record; and behind any of
them `tail`, how many lent bytes stand behind the answer, and how many of these have changed, which
is 0 always. The stored output of the program is made by the plain port (`driver reductions` of
differential/), which shares no code with the proved crates; `check` holds it to the answers here.

An answer by hand is a tree that stands beside the case, or in a family of cases is built beside it:
this script has no Reduce. Only the flag of a made node follows from its children (`made`). What can be
lent, 65,535 bytes, is enough for 1,638 records of version 2; python/test_uxt.py has longer ones.
"""

import sys

from edges import (AND, ARRAY, ARROW, ASSIGNMENT, BINARY, CALL, CONDITIONAL, COUNT, ELISION, FIELDS, FUNCTION, IDENTIFIER, KIND,
                   LOGICAL, NEW, NULLISH, OBJECT, OR, OTHER_LEAF, PROPERTY, SEQUENCE, SETTINGS, SIZE, SPREAD, TEMPLATE, THIS,
                   UNARY, VERSION, ZERO, Node, chain, columns, of, plus, tree_file, u16, widened, with_byte, with_ends, with_u16)
from listings import (ACCESSOR, ANNOTATED, ANNOTATIONS, BLOCK, COMPARISON, DECORATED, DECORATED_CLASS, DERIVED,
                      FIELD, FLAG, HERITAGE, INDEX_SIGNATURE, KEY, LAST_PLACE, LISTED, METHOD, NO_SYMBOL, NONEMPTY, NOT,
                      OTHER_BINARY, OTHER_UNARY, STATIC, STRING, SUMMARY_FREE, SYMBOL, TREE_SHAKE_ONLY, TYPEOF, VALUE,
                      VOID, add, call, class_of, conditional, element, kept_by_tree_shake_only, literal, logical, node, of_functions, pure,
                      sequence, sequence_of_one, x)

MOST_RECORDS, MOST_DEPTH = 2000, 64

# ---- Nodes beside those of listings.py: the place comes first


def clear(place):
    """An unflagged identifier; a possible symbol."""
    return x(place, 0)


def plain(place, facts=0):
    """Of it, unflagged, a template is left nothing: no symbol."""
    return x(place, NO_SYMBOL + facts)


def string(place, text=1):
    """A literal that is not the empty one; `literal` is."""
    return spelled(text, literal(place))


def spelled(text, root):
    return Node(root.kind, *root.children, facts=root.facts, sub=root.sub, text=text, place=root.place)


def unary(sub, place, argument, facts=FLAG):
    return node(UNARY, place, argument, facts=facts, sub=sub)


def void(place, argument, facts=FLAG):
    return unary(VOID, place, argument, facts)


def array(place, *children, facts=FLAG):
    return node(ARRAY, place, *children, facts=facts)


def spread(place, argument, facts=FLAG):
    return node(SPREAD, place, argument, facts=facts)


def elision(place):
    return node(ELISION, place)


def obj(place, *children, facts=FLAG):
    return node(OBJECT, place, *children, facts=facts)


def prop(place, *children):
    """A value, or a key and a value."""
    return node(PROPERTY, place, *children, sub=len(children) - 1)


def template(place, *children, facts=FLAG):
    return node(TEMPLATE, place, *children, facts=facts)


def compare(place, left, right, facts=FLAG):
    return node(BINARY, place, left, right, facts=facts, sub=COMPARISON)


def new(place, *children, facts=0):
    return node(NEW, place, *children, facts=facts)


def number(place):
    """1, 2, ..: an unflagged leaf that is no symbol."""
    return spelled(1, node(OTHER_LEAF, place, facts=NO_SYMBOL))


def made(kind, place, *children, sub=0):
    """Text 0, symbol and string unknown; "flag set if a child's is, and on every made template"."""
    flagged = kind == TEMPLATE or any(child.facts & FLAG for child in children)
    return node(kind, place, *children, facts=FLAG if flagged else 0, sub=sub)


def several(place, *children):
    return made(SEQUENCE, place, *children)


def made_and(place, test, arm):
    """What is left where the alternate goes."""
    return made(LOGICAL, place, test, arm, sub=AND)


def made_or(place, test, arm):
    """What is left where the consequent goes."""
    return made(LOGICAL, place, test, arm, sub=OR)


# ---- The cases

REMOVABLE = b""
SPARE = (0, 1, 16, 37)  # lent beyond what a file needs, in turn
FILLS = (0xA5, 0x00, 0xFF, 0x55, 0x01)  # 55 is the first byte of a file


def room(data):
    """The fewest bytes that are enough for an answer."""
    return of(2 * u16(data, COUNT) - 1, 0, u16(data, VERSION))


def printed(lent, answer):
    """The lines of a case: the answer is a refusal's number, or the bytes of the rewritten file."""
    if isinstance(answer, int):
        return [f"refused {answer}", f"tail {lent} 0"]
    if answer == REMOVABLE:
        return ["removable", f"tail {lent} 0"]
    width = FIELDS[u16(answer, VERSION)].size
    records = [answer[at:at + width].hex() for at in range(8, len(answer), width)]
    return [f"kept {len(answer)}", answer[:8].hex(), *records, f"tail {lent - len(answer)} 0"]


class Cases:
    def __init__(self):
        self.cases = []

    def add(self, name, data, answer, lent=None, fill=None):
        index = len(self.cases)
        lent = room(data) + SPARE[index % len(SPARE)] if lent is None else lent
        fill = FILLS[index % len(FILLS)] if fill is None else fill
        self.cases.append((name, data, lent, fill, answer))

    def refused(self, name, data, number, lent=64, fill=None):
        self.add(f"refused with {number}: {name}", data, number, lent, fill)

    def removable(self, name, root, settings=0, lent=None, fill=None, version=1):
        self.add(name, tree_file(root, settings, version), REMOVABLE, lent, fill)

    def kept(self, name, root, answer, settings=0, lent=None, fill=None, version=1):
        self.add(name, tree_file(root, settings, version), tree_file(answer, settings, version), lent, fill)

    def unchanged(self, name, root, settings=0, lent=None, fill=None, version=1):
        self.kept(name, root, root, settings, lent, fill, version)

    def either(self, name, root, answer, settings=0):
        """No answer: removable."""
        if answer is None:
            self.removable(name, root, settings)
        else:
            self.kept(name, root, answer, settings)


def rows(c):
    """Document 01: "f(), g() flagged impure calls, x unflagged"."""

    def f(place, facts=FLAG):
        return call(place, spelled(6, clear(place)), facts=facts)

    def g(place):
        return call(place, spelled(7, clear(place)))

    s, no_symbol = spelled(19, clear(13)), FLAG + NO_SYMBOL
    c.removable("A: []", array(10, facts=0))
    c.kept("B: [f(), ...x]", array(10, f(11), spread(16, clear(19), 0)), f(11))
    c.kept("C: (f(), 1)", sequence(10, f(11), number(16)), sequence(10, f(11)))
    c.removable("D: typeof y", unary(TYPEOF, 10, x(17)))
    c.unchanged("E: {...x}", obj(10, spread(12, clear(15))))
    c.kept("F: {...x, a: f()}", obj(10, spread(12, clear(15), 0), prop(20, f(23))),
           several(10, made(OBJECT, 20, spread(12, clear(15), 0)), f(23)))
    c.unchanged("G: template of s", template(10, s))
    c.kept("H: template of s and f()", spelled(9, template(10, s, f(17, no_symbol))),
           several(10, made(TEMPLATE, 17, s), f(17, no_symbol)))
    c.kept("I: class {static p = 1}", class_of(10, element(17, FIELD + STATIC + VALUE, number(28)), facts=0),
           sequence(10, number(28), facts=0))
    c.kept("J: f() < g()", compare(10, f(10), g(16)), sequence(10, f(10), g(16)))
    c.kept('K: "a" + f()', add(10, string(10), f(16)), add(10, literal(10), f(16)))
    c.unchanged("L: new x()", new(10, clear(14)))
    _, a, b = columns().children
    c.kept("the example, [1, a(), ...b]", columns(), array(0, a, b))


def leaves(c):
    c.removable("a literal", string(7))
    c.removable("an empty literal", literal(7))
    for kind in (IDENTIFIER, FUNCTION, ARROW, OTHER_LEAF):
        c.unchanged(f"kind {kind}, flagged", node(kind, 7, facts=FLAG))
        c.removable(f"kind {kind}, clear", node(kind, 7))
    c.unchanged("the greatest text and place, each fact but the flag's", spelled(LAST_PLACE, x(LAST_PLACE, FLAG + STRING)))
    for settings in range(8):
        for facts in (0, FLAG):
            this = node(THIS, 7, facts=facts)
            c.either(f"this, facts {facts}, settings {settings}", this, this if settings & DERIVED else None, settings)


def unaries(c):
    for sub in (VOID, NOT):
        c.kept(f"unary, sub {sub}, of a flagged leaf", unary(sub, 1, x(2)), x(2))
        c.removable(f"unary, sub {sub}, flagged, of a clear leaf", unary(sub, 1, clear(2)))
    for facts in (0, FLAG):
        c.removable(f"typeof an identifier, facts {facts}", unary(TYPEOF, 1, x(2, facts), facts))
    for kind in (FUNCTION, ARROW, OTHER_LEAF):
        leaf = node(kind, 2, facts=FLAG)
        c.kept(f"typeof a leaf of kind {kind}", unary(TYPEOF, 1, leaf), leaf)
    c.kept("typeof this, derived", unary(TYPEOF, 1, node(THIS, 2)), node(THIS, 2), DERIVED)
    c.removable("typeof this, not derived", unary(TYPEOF, 1, node(THIS, 2, facts=FLAG)), 3)
    c.kept("typeof void of an identifier", unary(TYPEOF, 1, void(2, x(3))), x(3))
    c.removable("void typeof an identifier", void(1, unary(TYPEOF, 2, x(3))))
    c.kept("typeof a sequence of an identifier", unary(TYPEOF, 1, sequence(2, x(3))), sequence(2, x(3)))
    c.unchanged("other unary, flagged: the argument is not reduced", unary(OTHER_UNARY, 1, void(2, x(3))))
    c.removable("other unary, clear: a flagged argument goes with it", unary(OTHER_UNARY, 1, x(2), 0))
    c.kept("not not void void", unary(NOT, 1, unary(NOT, 2, void(3, void(4, x(5))))), x(5))


def sequences(c):
    c.removable("sequence, flagged, empty", sequence(1))
    c.removable("sequence, none left", sequence(1, clear(2), number(3), string(4)))
    own = FLAG + NO_SYMBOL
    c.kept("sequence, one left: its own facts, text and place", spelled(5, sequence(1, clear(2), x(3), clear(4), facts=own)),
           spelled(5, sequence(1, x(3), facts=own)))
    c.kept("sequence, several left", sequence(1, x(2), clear(3), x(4), clear(5), x(6)), sequence(1, x(2), x(4), x(6)))
    c.unchanged("sequence, all left, its own flag clear", sequence(1, x(2), x(3), facts=0))
    c.kept("sequence, a reduced child", sequence(1, void(2, x(3)), void(4, clear(5))), sequence(1, x(3)))
    c.kept("sequences within a sequence", sequence(1, sequence(2, clear(3)), sequence(4, x(5), clear(6)), x(7)),
           sequence(1, sequence(4, x(5)), x(7)))
    c.removable("sequences within a sequence, none left", sequence(1, sequence(2, sequence(3), clear(4)), sequence(5)))


def arrays(c):
    c.removable("array, flagged, empty", array(1))
    c.removable("array of elisions", array(1, elision(2), elision(3)))
    c.removable("array of clear leaves", array(1, clear(2), number(3)))
    c.removable("array of a clear spread: what is spread goes with it", array(1, spread(2, x(3), 0)))
    c.kept("array, one left", array(1, elision(2), x(3), clear(4), spread(5, x(6), 0)), x(3))
    c.kept("array, a sequence left", array(1, clear(2), sequence(3, x(4))), sequence(3, x(4)))
    c.kept("array, several left", spelled(5, array(1, x(2), clear(3), x(4), elision(5), x(6), facts=FLAG + NO_SYMBOL)),
           several(1, x(2), x(4), x(6)))
    c.kept("array, several left and none flagged", array(1, new(2, clear(3)), new(4, clear(5))),
           sequence(1, new(2, clear(3)), new(4, clear(5)), facts=0))
    c.kept("array, a spread left: its own facts, text and place",
           spelled(5, array(1, elision(2), clear(3), x(4), spread(5, x(6), 0), spread(7, clear(8)), facts=NO_SYMBOL)),
           spelled(5, array(1, x(4), spread(7, clear(8)), facts=NO_SYMBOL)))
    c.unchanged("array of a flagged spread, which is not reduced", array(1, spread(2, void(3, x(4)))))
    c.kept("array, two spreads left", array(1, spread(2, clear(3)), clear(4), spread(5, clear(6))),
           array(1, spread(2, clear(3)), spread(5, clear(6))))
    c.kept("arrays within an array", array(1, array(2, x(3), x(4)), array(5, elision(6)), array(7, x(8))),
           several(1, several(2, x(3), x(4)), x(8)))
    c.kept("an array with a spread within an array", array(1, array(2, clear(3), spread(4, clear(5)))),
           array(2, spread(4, clear(5))))


def templates(c):
    """`clear` waits, `plain` goes, and a flagged `plain` is kept."""
    c.removable("template, flagged, empty", template(1))
    c.removable("template, flagged, empty, its text not 0", spelled(9, template(1)))
    c.unchanged("template, all wait, text 0", template(1, clear(2), x(3, SYMBOL), x(4)))
    c.unchanged("template, what waits is not reduced, text 0", template(1, array(2, x(3)), array(4), facts=STRING))
    for text in (1, LAST_PLACE):
        c.kept(f"template, one waits, text {text}", spelled(text, template(1, clear(2))), made(TEMPLATE, 1, clear(2)))
    c.kept("template, all wait unreduced, text not 0", spelled(9, template(1, array(2, x(3)), clear(4), facts=STRING)),
           made(TEMPLATE, 1, array(2, x(3)), clear(4)))
    for text in (0, 9):
        c.removable(f"template, all go, text {text}", spelled(text, template(1, plain(2), string(3))))
        c.kept(f"template, one kept, text {text}", spelled(text, template(1, plain(2), plain(3, FLAG))), plain(3, FLAG))
        c.kept(f"template, several kept, text {text}", spelled(text, template(1, plain(2, FLAG), plain(3), plain(4, FLAG))),
               several(1, plain(2, FLAG), plain(4, FLAG)))
        c.kept(f"template, one waits and one goes, text {text}", spelled(text, template(1, clear(2), plain(3))),
               made(TEMPLATE, 1, clear(2)))
        c.kept(f"template, one goes and one waits, text {text}", spelled(text, template(1, plain(2), clear(3))),
               made(TEMPLATE, 1, clear(3)))
    flushes(c)


def flushes(c):
    a, b, d = plain(20, FLAG), plain(30, FLAG), plain(40)
    c.kept("template: what waits, then a kept one", template(1, clear(2), a), several(1, made(TEMPLATE, 20, clear(2)), a))
    c.kept("template: a kept one, then what waits", template(1, a, clear(2)), several(1, a, made(TEMPLATE, 1, clear(2))))
    c.kept("template: two wait, two are kept, two wait", template(1, clear(2), x(3), a, b, clear(4), clear(5)),
           several(1, made(TEMPLATE, 20, clear(2), x(3)), a, b, made(TEMPLATE, 1, clear(4), clear(5))))
    c.kept("template: what waits before each of two kept ones", template(1, clear(2), a, clear(3), b),
           several(1, made(TEMPLATE, 20, clear(2)), a, made(TEMPLATE, 30, clear(3)), b))
    c.kept("template: a dropped one does not flush", template(1, clear(2), d, clear(3), a),
           several(1, made(TEMPLATE, 20, clear(2), clear(3)), a))
    c.kept("template: a dropped one before the end", template(1, a, clear(2), d, clear(3)),
           several(1, a, made(TEMPLATE, 1, clear(2), clear(3))))
    c.kept("template: the kept one's place after reduction", template(1, clear(2), void(3, a, FLAG + NO_SYMBOL)),
           several(1, made(TEMPLATE, 20, clear(2)), a))
    c.kept("template: the place of a sequence that is made", template(1, clear(2), array(3, a, b, facts=FLAG + NO_SYMBOL)),
           several(1, made(TEMPLATE, 3, clear(2)), several(3, a, b)))
    c.kept("template: the place of a comparison's side", template(1, clear(2), compare(3, d, b, FLAG + NO_SYMBOL)),
           several(1, made(TEMPLATE, 30, clear(2)), b))
    inner = template(3, clear(4), facts=FLAG + STRING)
    c.kept("a template in a template, as it was", template(1, clear(2), inner), several(1, made(TEMPLATE, 3, clear(2)), inner))
    c.kept("a template in a template, rewritten", template(1, clear(2), spelled(9, inner)),
           several(1, made(TEMPLATE, 3, clear(2)), made(TEMPLATE, 3, clear(4))))


def objects(c):
    c.removable("object, flagged, empty", obj(1))
    c.removable("object of clear spreads: what is spread goes with them", obj(1, spread(2, x(3), 0), spread(4, x(5), 0)))
    c.unchanged("object of spreads, the last one flagged, none reduced",
                spelled(5, obj(1, spread(2, x(3), 0), spread(4, void(5, x(6))), facts=NO_SYMBOL)))
    c.removable("object, none left", obj(1, prop(2, clear(3)), prop(4, number(5), clear(6))))
    c.kept("object, a value left", obj(1, prop(2, clear(3)), prop(4, string(5), x(6))), x(6))
    c.kept("object, a key left", obj(1, prop(2, x(3), clear(4))), x(3))
    c.kept("object, key and value reduced", obj(1, prop(2, void(3, x(4)), array(5, x(6), x(7)))),
           several(1, x(4), several(5, x(6), x(7))))
    c.kept("object, several properties", spelled(5, obj(1, prop(2, x(3)), prop(4, x(5), x(6)), prop(7, x(8)))),
           several(1, x(3), x(5), x(6), x(8)))
    one, two = spread(20, clear(21), 0), spread(30, void(31, x(32)))
    c.kept("object, a clear spread before a property", obj(1, one, prop(4, x(5))), several(1, made(OBJECT, 4, one), x(5)))
    c.kept("object, a flagged spread after a property", obj(1, prop(4, x(5)), two), several(1, x(5), made(OBJECT, 1, two)))
    c.kept("object, spreads around a property", obj(1, one, prop(4, x(5)), two),
           several(1, made(OBJECT, 4, one), x(5), made(OBJECT, 1, two)))
    c.kept("object, adjacent spreads wait together", obj(1, one, two, prop(4, x(5), x(6))),
           several(1, made(OBJECT, 4, one, two), x(5), x(6)))
    c.kept("object, a property of which nothing is left", obj(1, one, prop(4, clear(5))), made(OBJECT, 4, one))
    c.kept("object, spreads behind a property of which nothing is left", obj(1, prop(4, clear(5)), one, one),
           made(OBJECT, 1, one, one))
    c.kept("object, such a property between spreads, none flagged", obj(1, one, prop(4, clear(5)), one),
           sequence(1, made(OBJECT, 4, one), made(OBJECT, 1, one), facts=0))
    c.kept("objects within an object", obj(1, prop(2, obj(3, two)), one, prop(4, obj(5, one, prop(6, x(7))))),
           several(1, obj(3, two), made(OBJECT, 4, one), several(5, made(OBJECT, 6, one), x(7))))


def comparisons(c):
    c.removable("comparison, flagged, none left", compare(1, clear(2), number(3)))
    c.kept("comparison, the left one left", compare(1, x(2), clear(3)), x(2))
    c.kept("comparison, the right one left", compare(1, clear(2), x(3)), x(3))
    c.kept("comparison, a sequence left alone is itself", compare(1, sequence(2, x(3), clear(4)), clear(5)), sequence(2, x(3)))
    c.kept("join_sequence: none is a sequence", spelled(5, compare(1, x(2), x(3), FLAG + NO_SYMBOL)), several(1, x(2), x(3)))
    left, right = spelled(5, sequence(20, x(21), x(22), facts=FLAG + NO_SYMBOL)), sequence(30, x(31), x(32))
    c.kept("join_sequence: the left one is a sequence", compare(1, left, x(2)), several(1, x(21), x(22), x(2)))
    c.kept("join_sequence: the right one is a sequence", compare(1, x(2), right), several(1, x(2), x(31), x(32)))
    c.kept("join_sequence: both are, the right one is appended whole", compare(1, left, right), several(1, x(21), x(22), right))
    c.kept("join_sequence: a sequence of one on either side", compare(1, sequence(2, x(3)), sequence(4, x(5))),
           several(1, x(3), sequence(4, x(5))))
    c.kept("join_sequence: sequences that are made", compare(1, array(2, x(3), x(4)), obj(5, prop(6, x(7), x(8)))),
           several(1, x(3), x(4), several(5, x(7), x(8))))
    c.kept("a comparison on the left", compare(1, compare(2, x(3), x(4)), x(5)), several(1, x(3), x(4), x(5)))
    c.kept("a comparison on the right", compare(1, x(2), compare(3, x(4), x(5))), several(1, x(2), x(4), x(5)))
    c.kept("a comparison on either side", compare(1, compare(2, x(3), x(4)), compare(5, x(6), x(7))),
           several(1, x(3), x(4), several(5, x(6), x(7))))
    a, b = new(40, clear(41)), new(50, clear(51))
    c.kept("join_sequence: the flag is the children's, not the left sequence's", compare(1, sequence(2, a), b),
           sequence(1, a, b, facts=0))
    c.kept("join_sequence: nor the right one's", compare(1, a, sequence(2, b)), sequence(1, a, b, facts=0))
    c.kept("join_sequence: a flagged sequence that is appended is a child", compare(1, sequence(2, a), sequence(3, b)),
           several(1, a, sequence(3, b)))
    # An empty sequence is kept only where it is a string with an effect on the left of an addition that gives way.
    empty, other = sequence(2, facts=FLAG + STRING), sequence(6, facts=FLAG + STRING)
    gives_way, other_way = add(1, empty, string(3)), add(5, other, string(7))
    c.kept("an empty sequence that is kept", gives_way, empty)
    c.kept("join_sequence: the left one is empty", compare(10, gives_way, x(11)), several(10, x(11)))
    c.kept("join_sequence: the right one is empty", compare(10, x(11), gives_way), several(10, x(11)))
    c.kept("join_sequence: both are empty", compare(10, gives_way, other_way), several(10, other))


def sum_of(leaves, facts=FLAG, inner=FLAG):
    """((a + b) + c) + ..: the additions are at 101, 102, .. from the inmost on; all but the outmost have the facts `inner`."""
    left = leaves[0]
    for index, leaf in enumerate(leaves[1:], 1):
        left = add(100 + index, left, leaf, facts if index == len(leaves) - 1 else inner)
    return left


def with_leaf(others, place, leaf):
    return [leaf if other.place == place else other for other in others]


def chains(c):
    """One string in a chain of additions of each depth, at each of its places."""
    for depth in range(1, 6):
        places = range(1, depth + 2)
        symbols, plains, flagged = [clear(p) for p in places], [plain(p) for p in places], [x(p) for p in places]
        c.unchanged(f"{depth} additions, no string", sum_of(plains))
        c.removable(f"{depth} additions, the outmost clear", sum_of(with_leaf(flagged, 1, string(1)), facts=0))
        for p in places:
            name = f"{depth} additions, a string at {p}"
            for others, of_what in ((symbols, "symbols"), (flagged, "flagged")):
                c.kept(f"{name}, the others {of_what}", sum_of(with_leaf(others, p, string(p))),
                       sum_of(with_leaf(others, p, literal(p))))
            up_to = plains[:p]
            c.either(f"{name}, the others no symbols: what follows goes", sum_of(with_leaf(plains, p, string(p))),
                     None if p == 1 else sum_of(with_leaf(up_to, p, literal(p))))
            with_effect = x(p, FLAG + STRING)
            c.kept(f"{name}, flagged, the others no symbols: what follows goes", sum_of(with_leaf(plains, p, with_effect)),
                   sum_of(with_leaf(up_to, p, with_effect)))
            clear_chains(c, name, depth, p, symbols, plains)


def clear_chains(c, name, depth, p, symbols, plains):
    """All additions but the outmost are clear: the left one is emptied where it is a string."""
    last = depth + 1
    if depth == 1:
        return
    tree = sum_of(with_leaf(symbols, p, string(p)), inner=0)
    if p == last:
        answer = sum_of(with_leaf(symbols, p, literal(p)), inner=0)
    else:
        answer = add(100 + depth, literal(100 + depth - 1), clear(last))
    c.kept(f"{name}, the others symbols, the inner additions clear", tree, answer)
    emptied = sum_of(with_leaf(plains, p, literal(p)), inner=0) if p == last else None
    c.either(f"{name}, the others no symbols, the inner additions clear", sum_of(with_leaf(plains, p, string(p)), inner=0),
             emptied)


def additions(c):
    c.removable("two strings", add(1, string(2), string(3)))
    c.removable("clear, of flagged sides", add(1, x(2), x(3), 0))
    c.kept("a string that is no literal, on the left", add(1, x(2, STRING), x(3, SYMBOL)), add(1, literal(2), x(3, SYMBOL)))
    c.kept("a string that is no literal, on the right", add(1, clear(2), template(3, x(4), facts=STRING)),
           add(1, clear(2), literal(3)))
    c.kept("a string on either side, the right one flagged", add(1, string(2), x(3, FLAG + STRING)),
           add(1, literal(2), x(3, FLAG + STRING)))
    c.kept("a string on either side, the left one flagged", add(1, x(2, FLAG + STRING), string(3)), x(2, FLAG + STRING))
    c.unchanged("a string on the right, flagged", add(1, clear(2), x(3, FLAG + STRING)))
    c.kept("its own facts, text and place", spelled(5, add(1, string(2), clear(3), FLAG + STRING)),
           spelled(5, add(1, literal(2), clear(3), FLAG + STRING)))
    c.kept("sides are not reduced", add(1, string(2), void(3, x(4))), add(1, literal(2), void(3, x(4))))
    c.kept("the left one takes the addition's place unreduced", add(1, void(2, x(3), FLAG + STRING), string(4)),
           void(2, x(3), FLAG + STRING))
    c.unchanged("the right one is an addition of a string, not recorded as one", add(1, clear(2), add(3, string(4), clear(5))))
    c.kept("the right one is an addition, recorded as a string", add(1, clear(2), add(3, string(4), clear(5), STRING)),
           add(1, clear(2), literal(3)))
    c.unchanged("the left one is an addition, recorded as a string, and is none",
                add(1, add(2, clear(3), clear(4), FLAG + STRING), clear(5)))
    c.kept("the place of what the left one is folded to", add(1, add(2, x(3, STRING), plain(4), 0), clear(5)),
           add(1, literal(3), clear(5)))
    c.kept("a string at both ends of a chain", sum_of([string(1), clear(2), clear(3), string(4)]),
           sum_of([literal(1), clear(2), clear(3)]))
    c.kept("strings at all places but the second", sum_of([string(1), clear(2), string(3), string(4)]),
           sum_of([literal(1), clear(2)]))
    c.kept("within an addition that gives way", add(1, add(2, add(3, clear(4), string(5)), plain(6)), plain(7)),
           add(3, clear(4), literal(5)))
    c.unchanged("other binary, flagged: its sides are not reduced",
                node(BINARY, 1, void(2, x(3)), clear(4), facts=FLAG, sub=OTHER_BINARY))
    c.removable("other binary, clear: flagged sides go with it", node(BINARY, 1, x(2), x(3), sub=OTHER_BINARY))


# ---- What can never be a symbol: document 02, N9


def five(facts):
    """Those that are told by kind and sub, at 20, and what is left of each."""
    leaf = node(OTHER_LEAF, 21, facts=FLAG)
    for name, sub in (("void", VOID), ("not", NOT), ("typeof", TYPEOF)):
        yield name, unary(sub, 20, leaf, facts), leaf
    yield "a comparison", compare(20, x(21), x(22), facts), several(20, x(21), x(22))
    yield "a template", template(20, plain(21, FLAG), facts=facts), plain(21, FLAG)


def with_part(facts):
    """Additions with a string part, at 20, and what is left of each if it is flagged."""
    yield "an addition, a string on the left", add(20, string(21), x(22), facts), add(20, literal(21), x(22), facts)
    yield "an addition, a string on the right", add(20, x(21), string(22), facts), add(20, x(21), literal(22), facts)
    for name, leaves, folded in (("at its end", (string(22), x(23)), (literal(22), x(23))),
                                 ("in its middle", (x(22), string(23)), (x(22), literal(23)))):
        yield f"a chain, a string {name}", add(20, add(21, *leaves), x(24), facts), add(20, add(21, *folded), x(24), facts)
    recorded = add(20, x(21), add(22, x(23), x(24), FLAG + STRING), facts)
    yield "an addition, its right one recorded as a string", recorded, recorded


def perhaps_symbols(facts):
    """What is most like them, at 20; it is left as it is if it is flagged."""
    for name, root in (("another unary", unary(OTHER_UNARY, 20, x(21), facts)),
                       ("another binary", node(BINARY, 20, x(21), x(22), facts=facts, sub=OTHER_BINARY)),
                       ("an addition of no string", add(20, x(21), x(22), facts)),
                       ("a + (b + 's')", add(20, x(21), add(22, x(23), string(24)), facts)),
                       ("an addition, its left one recorded as a string, which is none",
                        add(20, add(21, x(22), x(23), STRING), x(24), facts))):
        yield name, root, root


def symbols(c):
    for symbol, groups in ((0, (five, with_part)), (NO_SYMBOL, (five, with_part, perhaps_symbols))):
        for group in groups:
            for name, inner, left in group(FLAG + symbol):
                no_symbol(c, f"{name}, symbol {symbol}", inner, left)
                # A string part takes the right side's stead.
                folded = left if group == with_part else add(1, inner, literal(2))
                c.kept(f"{name}, symbol {symbol}, left of a string", add(1, inner, string(2)), folded)
            for name, inner, left in group(symbol):
                clear_no_symbol(c, f"{name}, symbol {symbol}, clear", inner, left if group == five else None)
    for facts in (0, SYMBOL, FLAG, FLAG + SYMBOL):
        for name, inner, _ in perhaps_symbols(facts):
            symbol_waits(c, f"{name}, facts {facts}", inner)


def no_symbol(c, name, inner, left):
    """Flagged: a template reduces it, and an addition keeps it as it is."""
    for text in (0, 9):
        c.kept(f"{name}, in a template, text {text}", spelled(text, template(1, inner)), left)
    c.kept(f"{name}, in a template, among what waits", template(1, clear(2), inner, clear(3)),
           several(1, made(TEMPLATE, left.place, clear(2)), left, made(TEMPLATE, 1, clear(3))))
    c.kept(f"{name}, right of a string", add(1, string(2), inner), add(1, literal(2), inner))


def clear_no_symbol(c, name, inner, left):
    """Clear: an addition drops it on the right of a string."""
    c.either(f"{name}, in a template", template(1, inner), left)
    c.removable(f"{name}, right of a string", add(1, string(2), inner))
    c.kept(f"{name}, right of a string that stays", add(1, x(2, FLAG + STRING), inner), x(2, FLAG + STRING))
    c.kept(f"{name}, in a left one that is folded", add(1, add(2, string(3), inner), x(4)), add(1, literal(3), x(4)))


def symbol_waits(c, name, inner):
    c.unchanged(f"{name}, in a template", template(1, inner))
    c.kept(f"{name}, in a template, before a kept one", template(1, inner, plain(2, FLAG)),
           several(1, made(TEMPLATE, 2, inner), plain(2, FLAG)))
    c.kept(f"{name}, right of a string", add(1, string(2), inner), add(1, literal(2), inner))
    c.kept(f"{name}, in a left one that is folded", add(1, add(2, string(3), inner), plain(4)), add(2, literal(3), inner))


def calls(c):
    c.unchanged("impure call, flagged: nothing of it is reduced", call(1, void(2, x(3)), clear(4), spread(5, clear(6), 0)))
    c.removable("impure call, clear: flagged arguments go with it", call(1, x(2), x(3), facts=0))
    c.unchanged("impure new, flagged", new(1, void(2, x(3)), clear(4), facts=FLAG))
    c.unchanged("impure new, clear", new(1, void(2, x(3)), clear(4)))
    for settings in range(8):
        for facts in (0, ANNOTATED, LISTED, ANNOTATED + LISTED):
            for kind in (CALL, NEW):
                root = node(kind, 1, x(2), x(3), facts=FLAG + facts)
                c.kept(f"kind {kind}, facts {facts} and flagged, settings {settings}", root,
                       x(3) if pure(settings, facts) else root, settings)
    for settings in (0, TREE_SHAKE_ONLY, 5, 7):
        for callee in (IDENTIFIER, FUNCTION, ARROW, OTHER_LEAF):
            callees(c, settings, callee)


def callees(c, settings, kind):
    callee, said = node(kind, 2, facts=FLAG), f"the callee of kind {kind}, settings {settings}"
    free = call(1, callee, x(3), facts=FLAG + SUMMARY_FREE)
    c.kept(f"summary free, {said}", free, x(3) if kind == IDENTIFIER else free, settings)
    impure, listed = call(1, callee, x(3), facts=0), call(1, callee, x(3), facts=LISTED)
    kept = kept_by_tree_shake_only(settings, kind)
    c.either(f"impure, clear, {said}", impure, impure if kept else None, settings)
    c.kept(f"listed, clear, {said}", listed, listed if kept else x(3), settings)


def arguments(c):
    for kind in (CALL, NEW):
        for facts in (LISTED, FLAG + LISTED):
            say = f"pure, kind {kind}, facts {facts}: "
            c.removable(say + "no arguments", node(kind, 1, x(2), facts=facts))
            c.removable(say + "none left", node(kind, 1, x(2), clear(3), spread(4, x(5), 0), facts=facts))
            c.kept(say + "one left", node(kind, 1, x(2), clear(3), void(4, x(5)), facts=facts), x(5))
            c.kept(say + "several left", node(kind, 1, x(2), x(3), clear(4), void(5, x(6)), facts=facts),
                   several(1, x(3), x(6)))
            c.kept(say + "a flagged spread, not reduced", node(kind, 1, x(2), spread(3, void(4, x(5))), facts=facts),
                   made(ARRAY, 3, spread(3, void(4, x(5)))))
            c.kept(say + "spreads and others", node(kind, 1, x(2), spread(3, clear(4)), x(5), spread(6, x(7), 0),
                                                  spread(8, clear(9)), facts=facts),
                   several(1, made(ARRAY, 3, spread(3, clear(4))), x(5), made(ARRAY, 8, spread(8, clear(9)))))
    c.kept("pure, none flagged", call(1, x(2), new(3, clear(4)), new(5, clear(6)), facts=LISTED),
           sequence(1, new(3, clear(4)), new(5, clear(6)), facts=0))
    c.kept("a pure call whose callee is a call", call(1, call(2, x(3), x(4)), x(5), facts=LISTED), x(5))
    c.kept("pure calls within a pure call",
           call(1, x(2), call(3, x(4), x(5), x(6), facts=LISTED), call(7, x(8), facts=LISTED), x(9), facts=LISTED),
           several(1, several(3, x(5), x(6)), x(9)))


def called_functions(c):
    """02, N5: such a call stays whole, its argument `void x` unreduced; where it is pure, x is left."""
    for said, settings, root in of_functions():
        callee = root.children[0].kind
        if pure(settings, root.facts, callee, root.kind):
            c.kept(said, root, x(4), settings)
        else:
            kept = root.kind == NEW or root.facts & FLAG or kept_by_tree_shake_only(settings, callee)
            c.either(said, root, root if kept else None, settings)
    both = ANNOTATIONS + TREE_SHAKE_ONLY
    c.unchanged("annotated, a call of a function, both settings", call(1, node(FUNCTION, 2), facts=ANNOTATED), both)
    c.unchanged("annotated, a call of a function, annotations off", call(1, node(FUNCTION, 2), facts=ANNOTATED), TREE_SHAKE_ONLY)
    c.removable("annotated, a call of a function, tree-shake-only off", call(1, node(FUNCTION, 2), facts=ANNOTATED), ANNOTATIONS)
    c.removable("annotated, a new of a function, both settings", new(1, node(FUNCTION, 2), facts=ANNOTATED), both)
    called = call(20, node(ARROW, 21), void(22, x(23)), clear(24), spread(25, clear(26), 0), facts=ANNOTATED)
    c.unchanged("a called arrow with arguments that would go", called, both)
    c.kept("a called arrow as argument of a pure call", call(1, x(2), called, facts=LISTED), called, both)
    c.kept("a called arrow as argument of a pure new", new(1, x(2), clear(3), called, facts=LISTED), called, both)
    c.kept("a called arrow and another argument of a pure call", call(1, x(2), called, x(3), facts=LISTED),
           several(1, called, x(3)), both)
    c.unchanged("a called arrow as argument of a called function", call(1, node(FUNCTION, 2), called, facts=LISTED), both)
    c.removable("a called arrow as callee of a pure call", call(1, called, facts=LISTED), both)
    c.removable("a called arrow as callee of a clear impure call", call(1, called, facts=0), both)
    c.kept("a called arrow in an array", array(1, clear(2), called), called, both)
    c.kept("a called arrow in a sequence", sequence(1, called, clear(2)), sequence(1, called), both)
    c.kept("a called arrow under void", void(1, called), called, both)
    c.kept("a called arrow in a comparison", node(BINARY, 1, called, x(2), facts=FLAG, sub=COMPARISON), several(1, called, x(2)), both)
    c.removable("a called arrow in an unflagged conditional", conditional(1, x(2), called, called, facts=0), both)
    c.kept("a called arrow as the arm that stays", conditional(1, x(2), called, clear(3)), made_and(1, x(2), called), both)


def classes(c):
    c.removable("class, flagged, empty", class_of(1))
    c.removable("class of methods, clear fields and an empty block",
                class_of(1, element(2, METHOD), element(3, FIELD), element(4, BLOCK), element(5, ACCESSOR + STATIC)))
    stays(c)
    heritages(c)
    part = FIELD + STATIC + VALUE
    for form in (METHOD, FIELD, ACCESSOR):
        c.kept(f"class, a flagged key, form {form}", class_of(1, element(2, form + KEY, x(3))), several(1, x(3)))
        c.removable(f"class, a clear key, form {form}", class_of(1, element(2, form + KEY, array(3, x(4), facts=0))))
    for form in (FIELD, ACCESSOR):
        c.kept(f"class, a static value, form {form}", class_of(1, element(2, form + STATIC + VALUE, clear(3))),
               sequence(1, clear(3), facts=0))
        c.removable(f"class, a flagged value that is not static, form {form}", class_of(1, element(2, form + VALUE, x(3))))
    c.kept("class, key and value: the key first", class_of(1, element(2, part + KEY, x(3), clear(4))), several(1, x(3), clear(4)))
    c.kept("class, a clear key, its value", class_of(1, element(2, part + KEY, clear(3), clear(4))),
           sequence(1, clear(4), facts=0))
    c.kept("class, a static method's key", class_of(1, element(2, METHOD + STATIC + KEY, x(3))), several(1, x(3)))
    c.kept("class, nothing extracted is reduced",
           class_of(1, void(2, x(3)), element(4, part + KEY, void(5, x(6)), array(7, x(8), facts=0)), sub=HERITAGE),
           several(1, void(2, x(3)), void(5, x(6)), array(7, x(8), facts=0)))
    c.kept("class, heritage, then element by element",
           class_of(1, x(2), element(3, part + KEY, x(4), clear(5)), element(6, BLOCK), element(7, METHOD + KEY, x(8)),
                    element(9, ACCESSOR + VALUE + KEY, x(10), x(11)), element(12, part, clear(13)), sub=HERITAGE),
           several(1, x(2), x(4), clear(5), x(8), x(10), clear(13)))
    c.kept("a class as heritage, key and static value",
           class_of(1, class_of(2, element(3, part, x(4))), element(5, part + KEY, class_of(6), class_of(7, facts=0)),
                    sub=HERITAGE),
           several(1, class_of(2, element(3, part, x(4))), class_of(6), class_of(7, facts=0)))
    c.kept("a class within others", sequence(1, void(2, class_of(3, x(4), sub=HERITAGE)), class_of(5)),
           sequence(1, several(3, x(4))))


def stays(c):
    """Each reason for a class to stay; nothing of it is then reduced."""
    key = void(8, x(9))
    method = element(2, METHOD + KEY, key)
    c.unchanged("class stays: decorated", class_of(1, key, sub=DECORATED_CLASS + HERITAGE, facts=0))
    for form in (METHOD, FIELD, ACCESSOR):
        c.unchanged(f"class stays: the last element decorated, form {form}",
                    class_of(1, method, element(3, form + DECORATED), facts=0))
    c.unchanged("class stays: an index signature", class_of(1, method, element(3, INDEX_SIGNATURE), facts=0))
    c.unchanged("class stays: a block, not empty", class_of(1, method, element(3, BLOCK + NONEMPTY), facts=0))
    for form in (FIELD, ACCESSOR):
        c.unchanged(f"class stays: a flagged static value, form {form}",
                    class_of(1, element(2, form + STATIC + VALUE, key), facts=0))
        c.unchanged(f"class stays: a flagged static value behind a clear key, form {form}",
                    class_of(1, element(2, form + STATIC + VALUE + KEY, clear(3), key), facts=0))
    c.unchanged("class stays: for one reason within others",
                class_of(1, clear(2), element(3, BLOCK), element(4, FIELD + STATIC + VALUE, clear(5)),
                         element(6, BLOCK + NONEMPTY), element(7, METHOD), sub=HERITAGE))


def heritages(c):
    arrow = node(ARROW, 9)
    for name, heritage, kept in (
            ("an arrow", arrow, True),
            ("a function", node(FUNCTION, 9), False),
            ("a sequence that ends in an arrow", sequence(2, clear(3), arrow, facts=0), True),
            ("a sequence of an arrow, then an identifier", sequence(2, arrow, clear(3), facts=0), False),
            ("an empty sequence", sequence(2, facts=0), False),
            ("nested sequences that end in an arrow", sequence(2, clear(3), sequence(4, sequence(6, arrow)), facts=0), True),
            ("nested sequences that end in an empty one", sequence(2, arrow, sequence(4, arrow, sequence(6)), facts=0), False),
            ("nested sequences, an arrow last in the first", sequence(2, sequence(4, arrow), sequence(6), facts=0), False),
            ("an array that ends in an arrow", array(2, arrow, facts=0), False)):
        root = class_of(1, heritage, sub=HERITAGE)
        c.either(f"class, heritage: {name}", root, root if kept else None)
    c.kept("class, heritage: flagged", class_of(1, x(2), sub=HERITAGE), several(1, x(2)))
    c.removable("class, heritage: clear, of a flagged one", class_of(1, array(2, x(3), facts=0), sub=HERITAGE))
    flagged = sequence(2, arrow, sequence(3))
    c.kept("class, heritage: a flagged sequence, not reduced", class_of(1, flagged, sub=HERITAGE), several(1, flagged))


# ---- Conditionals


def negated(place):
    """!a, which is reduced to a only where both arms go."""
    return unary(NOT, place, x(place + 1))


def conditionals(c):
    """Each case of document 02, N1."""
    for facts in (0, NO_SYMBOL, STRING):
        c.removable(f"conditional, facts {facts}: flagged parts go with it", conditional(1, x(2), x(3), x(4), facts))
    c.removable("conditional, nothing left", conditional(1, clear(2), number(3), clear(4)))
    c.kept("conditional, both arms go", conditional(1, x(2), number(3), clear(4)), x(2))
    c.kept("conditional, both arms go, the test is reduced", conditional(1, negated(2), clear(4), clear(5)), x(3))
    c.removable("conditional, both arms go, and the test", conditional(1, void(2, clear(3)), clear(4), clear(5)))
    c.kept("conditional, both arms go, a sequence of one", conditional(1, sequence(2, x(3), clear(4)), clear(5), clear(6)),
           sequence(2, x(3)))
    c.kept("conditional, the alternate goes", conditional(1, x(2), x(3), clear(4)), made_and(1, x(2), x(3)))
    c.kept("conditional, the consequent goes", conditional(1, x(2), clear(3), x(4)), made_or(1, x(2), x(4)))
    c.unchanged("conditional, neither goes", conditional(1, x(2), x(3), x(4)))
    c.kept("!a ? f() : 1", conditional(1, negated(2), call(5, clear(5)), number(8)), made_and(1, negated(2), call(5, clear(5))))
    c.kept("!a ? 1 : f()", conditional(1, negated(2), number(5), call(7, clear(7))), made_or(1, negated(2), call(7, clear(7))))
    c.unchanged("!a ? f() : g()", conditional(1, negated(2), call(5, clear(5)), call(8, clear(8))))
    c.kept("conditional, both arms reduced", conditional(1, x(2), array(3, x(4), x(5)), void(6, x(7))),
           conditional(1, x(2), several(3, x(4), x(5)), x(7)))
    c.kept("conditional, the arm that stays reduced", conditional(1, void(2, clear(3)), void(4, clear(5)), array(6, x(7), x(8))),
           made_or(1, void(2, clear(3)), several(6, x(7), x(8))))
    conditional_facts(c)
    nested_conditionals(c)


def conditional_facts(c):
    """What is kept is the conditional's own; a made logical has the flag of its test or its arm, and nothing else."""
    own = FLAG + STRING
    c.kept("conditional, its own facts, text and place", spelled(5, conditional(1, clear(2), void(3, x(4)), x(5), own)),
           spelled(5, conditional(1, clear(2), x(4), x(5), own)))
    c.kept("a made logical has text 0 and no facts but the flag", spelled(5, conditional(1, clear(2), x(3), clear(4), own)),
           logical(AND, 1, clear(2), x(3)))
    c.kept("a made logical, flagged by its test", conditional(1, x(2), new(3, clear(4)), clear(5)),
           logical(AND, 1, x(2), new(3, clear(4))))
    c.kept("a made logical, flagged by its arm", conditional(1, clear(2), clear(3), x(4)), logical(OR, 1, clear(2), x(4)))
    for sub, arms in ((AND, (new(3, clear(4)), clear(5))), (OR, (clear(5), new(3, clear(4))))):
        c.kept(f"a made logical, sub {sub}, not flagged", conditional(1, clear(2), *arms),
               logical(sub, 1, clear(2), new(3, clear(4)), facts=0))
    c.kept("a made logical, the dropped arm's flag does not count",
           conditional(1, clear(2), new(3, clear(4)), unary(TYPEOF, 5, x(6))),
           logical(AND, 1, clear(2), new(3, clear(4)), facts=0))
    this = node(THIS, 3)
    c.kept("this stays, derived", conditional(1, clear(2), this, clear(4)), logical(AND, 1, clear(2), this, facts=0), DERIVED)
    c.removable("this goes, not derived", conditional(1, clear(2), this, clear(4)), 3)
    c.kept("the greatest text and place", spelled(LAST_PLACE, conditional(LAST_PLACE, x(LAST_PLACE), x(1), clear(2))),
           made_and(LAST_PLACE, x(LAST_PLACE), x(1)))


def nested_conditionals(c):
    """Nothing is regrouped, and a test is reduced only where both arms go."""
    inner = conditional(20, x(21), x(22), clear(23))
    left = made_and(20, x(21), x(22))
    c.kept("a conditional as test, the alternate goes", conditional(1, inner, x(3), clear(4)), made_and(1, inner, x(3)))
    c.kept("a conditional as test, the consequent goes", conditional(1, inner, clear(3), x(4)), made_or(1, inner, x(4)))
    c.unchanged("a conditional as test, neither goes", conditional(1, inner, x(3), x(4)))
    c.kept("a conditional as test, both arms go", conditional(1, inner, clear(3), clear(4)), left)
    c.kept("a conditional as consequent, the alternate goes", conditional(1, x(2), inner, clear(4)), made_and(1, x(2), left))
    c.kept("a conditional as consequent, neither goes", conditional(1, x(2), inner, x(4)), conditional(1, x(2), left, x(4)))
    c.kept("a conditional as alternate, the consequent goes", conditional(1, x(2), clear(3), inner), made_or(1, x(2), left))
    c.kept("a conditional as alternate, neither goes", conditional(1, x(2), x(3), inner), conditional(1, x(2), x(3), left))
    c.kept("a clear conditional as consequent", conditional(1, x(2), conditional(3, x(4), x(5), x(6), 0), x(7)),
           made_or(1, x(2), x(7)))
    unflagged = conditional(2, x(3), x(4), x(5), 0)
    c.kept("a clear conditional as test", conditional(1, unflagged, x(6), clear(7)), made_and(1, unflagged, x(6)))
    c.removable("a clear conditional as test, both arms go", conditional(1, unflagged, clear(6), clear(7)))
    c.kept("or in or: no regrouping", conditional(1, x(2), clear(3), conditional(4, x(5), clear(6), x(7))),
           made_or(1, x(2), made_or(4, x(5), x(7))))
    c.kept("and in and in and: no regrouping",
           conditional(1, x(2), conditional(3, x(4), conditional(5, x(6), x(7), clear(8)), clear(9)), clear(10)),
           made_and(1, x(2), made_and(3, x(4), made_and(5, x(6), x(7)))))
    c.kept("an arm of which its test is left", conditional(1, x(2), conditional(3, x(4), clear(5), clear(6)), clear(7)),
           made_and(1, x(2), x(4)))
    c.kept("three conditionals in one",
           conditional(1, inner, conditional(3, x(4), clear(5), x(6)), conditional(7, x(8), clear(9), clear(10))),
           conditional(1, inner, made_or(3, x(4), x(6)), x(8)))
    tests = conditional(2, conditional(3, negated(4), clear(6), clear(7)), clear(8), clear(9))
    c.kept("tests of tests, no arm left", conditional(1, tests, clear(10), clear(11)), x(5))


def conditional_places(c):
    """A conditional of which an and is left, where it is not reduced, or where what is left of it counts."""
    inner, left = conditional(20, x(21), x(22), clear(23)), made_and(20, x(21), x(22))
    clear_one = conditional(20, x(21), x(22), clear(23), 0)
    c.kept("conditional as heritage, extracted unreduced", class_of(1, inner, sub=HERITAGE), several(1, inner))
    c.removable("conditional as heritage, clear", class_of(1, clear_one, sub=HERITAGE))
    c.unchanged("conditional as heritage of a class that stays", class_of(1, inner, sub=HERITAGE + DECORATED_CLASS))
    arrow = node(ARROW, 9)
    c.removable("conditional of arrows as heritage", class_of(1, conditional(2, clear(3), arrow, arrow, 0), sub=HERITAGE))
    c.kept("conditional as a class's key, unreduced", class_of(1, element(2, METHOD + KEY, inner)), several(1, inner))
    c.removable("conditional as a class's key, clear", class_of(1, element(2, METHOD + KEY, clear_one)))
    static = FIELD + STATIC + VALUE
    c.unchanged("conditional as static value: the class stays", class_of(1, element(2, static, inner)))
    c.kept("conditional as static value, clear, unreduced", class_of(1, element(2, static, clear_one)),
           sequence(1, clear_one, facts=0))
    c.removable("conditional as value, not static", class_of(1, element(2, FIELD + VALUE, inner)))
    c.unchanged("conditional as callee, impure", call(1, inner, x(2)))
    c.removable("conditional as callee, impure, clear", call(1, inner, x(2), facts=0), TREE_SHAKE_ONLY)
    c.kept("conditional as callee, pure", call(1, inner, x(2), facts=FLAG + LISTED), x(2))
    c.unchanged("conditional as callee, summary free: no identifier", call(1, inner, x(2), facts=FLAG + SUMMARY_FREE))
    c.unchanged("conditional as callee and argument of an impure new", new(1, inner, inner))
    c.kept("conditional in a flagged spread of a pure call", call(1, x(2), spread(3, inner), facts=LISTED),
           made(ARRAY, 3, spread(3, inner)))
    c.kept("conditional as key and value", obj(1, spread(2, inner), prop(3, inner, inner)),
           several(1, made(OBJECT, 3, spread(2, inner)), left, left))
    c.unchanged("conditional under another unary", unary(OTHER_UNARY, 1, inner))
    c.unchanged("conditional as the side of another binary", node(BINARY, 1, inner, inner, facts=FLAG, sub=OTHER_BINARY))
    conditional_sides(c)
    conditional_templates(c)


def conditional_sides(c):
    """Of additions, which reduce no side, and of comparisons."""
    parts = x(21), x(22), clear(23)
    inner, left = conditional(20, *parts), made_and(20, *parts[:2])
    text, clear_text = conditional(20, *parts, FLAG + STRING), conditional(20, *parts, STRING)
    c.unchanged("conditional on both sides of an addition", add(1, inner, inner))
    c.kept("conditional left in an addition, a clear string", add(1, clear_text, x(2)), add(1, literal(20), x(2)))
    c.unchanged("conditional left in an addition, a flagged string", add(1, text, x(2)))
    c.kept("conditional left in an addition that gives way", add(1, text, string(2)), text)
    c.kept("conditional right in an addition, a clear string", add(1, x(2), clear_text), add(1, x(2), literal(20)))
    c.kept("conditional right of a string, clear and no symbol", add(1, x(2, FLAG + STRING), conditional(20, *parts, NO_SYMBOL)),
           x(2, FLAG + STRING))
    c.kept("conditional right of a string, flagged", add(1, string(2), inner), add(1, literal(2), inner))
    c.kept("conditional on both sides of a comparison", compare(1, inner, inner), several(1, left, left))
    joined = conditional(20, sequence(24, x(25), x(26)), clear(27), clear(28))
    c.kept("join_sequence: the test that is left is a sequence", compare(1, joined, x(2)), several(1, x(25), x(26), x(2)))


def conditional_templates(c):
    """A possible symbol waits unreduced; before another's place stands what waited, at the place of what is left of it."""
    inner = conditional(20, x(21), x(22), clear(23))
    plain_one = conditional(20, x(21), x(22), clear(23), INNER)
    c.unchanged("conditional in a template, a possible symbol, text 0", template(1, inner))
    c.kept("conditional in a template, a possible symbol, text not 0", spelled(9, template(1, inner)), made(TEMPLATE, 1, inner))
    c.kept("conditional in a template: at the logical's place", template(1, clear(2), plain_one),
           several(1, made(TEMPLATE, 20, clear(2)), made_and(20, x(21), x(22))))
    c.kept("conditional in a template: at the test's place",
           template(1, clear(2), conditional(20, x(21), clear(22), clear(23), INNER)),
           several(1, made(TEMPLATE, 21, clear(2)), x(21)))
    c.kept("conditional in a template, which goes: what waits goes on waiting",
           template(1, clear(2), conditional(20, clear(21), clear(22), clear(23), INNER), plain(3, FLAG)),
           several(1, made(TEMPLATE, 3, clear(2)), plain(3, FLAG)))
    c.kept("a template in an arm", conditional(1, x(2), template(3, clear(4), plain(5, FLAG)), clear(6)),
           made_and(1, x(2), several(3, made(TEMPLATE, 5, clear(4)), plain(5, FLAG))))


# ---- Each handler within each other one. Within, all nodes are no symbols, so that a template reduces them.

INNER = FLAG + NO_SYMBOL


def inners():
    """The node at 20 and what is left of it."""
    a, b = x(21), x(22)
    leaf, some = node(OTHER_LEAF, 20, facts=INNER), spread(23, clear(24))
    yield "a leaf", leaf, leaf
    yield "a new", new(20, clear(21), facts=NO_SYMBOL), new(20, clear(21), facts=NO_SYMBOL)
    yield "void", void(20, a, INNER), a
    yield "a sequence", sequence(20, a, clear(22), facts=INNER), sequence(20, a, facts=INNER)
    yield "an array", array(20, a, b, facts=INNER), several(20, a, b)
    yield "an array with a spread", array(20, clear(21), some, facts=INNER), array(20, some, facts=INNER)
    yield ("a template", spelled(9, template(20, clear(21), plain(22, FLAG), facts=INNER)),
           several(20, made(TEMPLATE, 22, clear(21)), plain(22, FLAG)))
    yield "an object", obj(20, some, prop(25, x(26)), facts=INNER), several(20, made(OBJECT, 25, some), x(26))
    yield "a comparison", compare(20, a, b, INNER), several(20, a, b)
    yield "an addition", add(20, string(21), b, INNER), add(20, literal(21), b, INNER)
    yield "a pure call", call(20, a, b, some, facts=INNER + LISTED), several(20, b, made(ARRAY, 23, some))
    yield ("a class", class_of(20, a, element(22, FIELD + STATIC + VALUE, clear(23)), sub=HERITAGE, facts=INNER),
           several(20, a, clear(23)))
    yield ("a conditional", conditional(20, a, void(23, b), x(25), INNER), conditional(20, a, b, x(25), INNER))
    yield "a conditional, an arm goes", conditional(20, negated(23), clear(21), b, INNER), made_or(20, negated(23), b)
    yield "a conditional, both arms go", conditional(20, negated(23), clear(21), clear(22), INNER), x(24)


def in_line(left):
    """What `join_sequence` takes of a side beside one that is no sequence."""
    return left.children if left.kind == SEQUENCE else (left,)


def outers(inner, left):
    """Around the node: the tree, and what is left of it; none: removable."""
    one, two = x(1), x(50)
    yield "void", void(2, inner), left
    yield "typeof", unary(TYPEOF, 2, inner), left
    yield "a sequence", sequence(2, clear(1), inner, clear(50)), sequence(2, left)
    yield "an array", array(2, elision(1), inner, two), several(2, left, two)
    yield "an array with a spread", array(2, inner, spread(50, clear(51))), array(2, left, spread(50, clear(51)))
    yield ("a template", template(2, clear(1), inner, clear(50)),
           several(2, made(TEMPLATE, left.place, clear(1)), left, made(TEMPLATE, 2, clear(50))))
    yield ("an object", obj(2, spread(3, clear(4), 0), prop(5, one, inner)),
           several(2, made(OBJECT, 5, spread(3, clear(4), 0)), one, left))
    yield "a comparison, beside nothing", compare(2, inner, clear(50)), left
    yield "a comparison, on the left", compare(2, inner, two), several(2, *in_line(left), two)
    yield "a comparison, on the right", compare(2, one, inner), several(2, one, *in_line(left))
    yield "a pure call", call(2, one, inner, facts=FLAG + LISTED), left
    yield "an impure call", call(2, one, inner), call(2, one, inner)
    yield ("a class, as a key", class_of(2, element(3, METHOD + KEY, inner)),
           several(2, inner) if inner.facts & FLAG else None)
    yield "a test, an arm goes", conditional(2, inner, one, clear(50)), made_and(2, inner, one)
    yield "a test, both arms go", conditional(2, inner, clear(1), clear(50)), left
    yield "a consequent", conditional(2, one, inner, clear(50)), made_and(2, one, left)
    yield "an alternate beside a consequent", conditional(2, one, two, inner), conditional(2, one, two, left)


def nested(c):
    for inner_name, inner, left in inners():
        for outer_name, root, answer in outers(inner, left):
            c.either(f"{inner_name} in {outer_name}", root, answer)


# ---- Sizes, refusals and what is lent


def wide(records):
    return sequence(1, *[x(place) for place in range(2, records + 1)])


def limits(c):
    kept_ones = [x(place) for place in (2, 3, 4)]
    elisions = [elision(5) for _ in range(MOST_RECORDS - 1 - len(kept_ones))]
    c.kept(f"{MOST_RECORDS} records", array(1, *kept_ones, *elisions), several(1, *kept_ones))
    for records in (32, 33, 256, 257):
        c.unchanged(f"{records} records, all left", wide(records))
    spreads = [spread(place, clear(3)) for place in range(4, 4 + 15)]
    c.kept("more records than before: 46 of 32", call(1, x(2), *spreads, facts=LISTED),
           several(1, *[made(ARRAY, one.place, one) for one in spreads]))
    c.unchanged(f"depth {MOST_DEPTH}", chain(MOST_DEPTH, sequence_of_one, lambda: x(2)))
    c.kept(f"depth {MOST_DEPTH}, nothing of it left but a leaf",
           chain(MOST_DEPTH, lambda inner: void(1, inner), lambda: x(2)), x(2))
    c.kept("one level more than before",
           chain(MOST_DEPTH - 1, sequence_of_one, lambda: template(5, clear(6), plain(7, FLAG))),
           chain(MOST_DEPTH - 1, sequence_of_one, lambda: several(5, made(TEMPLATE, 7, clear(6)), plain(7, FLAG))))
    conditional_limits(c)


def conditional_limits(c):
    for name, wrap, close in (
            ("consequents", lambda inner: conditional(1, x(2), inner, clear(3)), lambda left: made_and(1, x(2), left)),
            ("alternates", lambda inner: conditional(1, x(2), clear(3), inner), lambda left: made_or(1, x(2), left))):
        c.kept(f"depth {MOST_DEPTH} over {name}", chain(MOST_DEPTH, wrap, lambda: x(4)), chain(MOST_DEPTH, close, lambda: x(4)))
    c.kept(f"depth {MOST_DEPTH} over tests, no arm left",
           chain(MOST_DEPTH, lambda inner: conditional(1, inner, clear(2), clear(3)), lambda: x(4)), x(4))
    c.unchanged(f"depth {MOST_DEPTH} over tests, both arms of each left",
                chain(MOST_DEPTH, lambda inner: conditional(1, inner, x(2), x(3)), lambda: x(4)))
    deep, deeper = template(5, clear(6), plain(7, FLAG)), several(5, made(TEMPLATE, 7, clear(6)), plain(7, FLAG))
    c.kept("one level more than before, in an arm",
           conditional(1, x(2), chain(MOST_DEPTH - 2, sequence_of_one, lambda: deep), clear(8)),
           made_and(1, x(2), chain(MOST_DEPTH - 2, sequence_of_one, lambda: deeper)))


def refusals(c):
    good = tree_file(call(1, x(2)))
    too_deep = chain(MOST_DEPTH + 1, sequence_of_one, lambda: x(2))
    for name, data, answer in (
            ("no byte", b"", 1),
            ("the first 7 bytes", good[:7], 1),
            ("a wrong mark", with_byte(good, 0, 0), 1),
            ("version 0", with_u16(good, VERSION, 0), 2),
            ("version 3", with_u16(good, VERSION, 3), 2),
            ("version 257", with_u16(good, VERSION, 257), 2),
            ("settings 8", with_byte(good, SETTINGS, 8), 3),
            ("settings 128", with_byte(good, SETTINGS, 128), 3),
            ("no record", with_u16(good, COUNT, 0)[:8], 4),
            ("one byte short", good[:-1], 4),
            ("one byte long", good + b"\0", 4),
            ("2,001 records counted", with_u16(good, COUNT, MOST_RECORDS + 1), 4),
            ("byte 3 of the last record is 1", with_byte(good, of(1, ZERO), 1), 5),
            ("a new that is summary free", tree_file(new(1, x(2), facts=SUMMARY_FREE)), 5),
            ("a logical node", with_byte(good, of(1, KIND), LOGICAL), 6),
            ("a wrong size", plus(good, of(0, SIZE), 1), 7),
            ("a spread as callee", tree_file(call(1, spread(2, x(3)))), 7),
            ("an elision as root", tree_file(elision(1)), 7),
            (f"depth {MOST_DEPTH + 1}", tree_file(too_deep), 8),
            ("7 after 8", tree_file(sequence(1, too_deep, spread(2, x(3)))), 7),
            ("5 after 6 and 7", with_byte(with_byte(plus(good, of(0, SIZE), 1), of(0, KIND), LOGICAL), of(1, ZERO), 1), 5)):
        c.refused(name, data, answer)
        c.refused(f"{name}, and nothing lent", data, answer, lent=0)
    c.unchanged("the same file, whole", call(1, x(2)))


def conditional_refusals(c):
    for name, root, answer in (
            ("a logical, sub 0", logical(NULLISH, 1, x(2), x(3)), 6),
            ("an and", logical(AND, 1, x(2), x(3)), 6),
            ("an or", logical(OR, 1, x(2), x(3)), 6),
            ("an and of three", node(LOGICAL, 1, x(2), x(3), x(4), sub=AND), 6),
            ("a logical, sub 3", logical(3, 1, x(2), x(3)), 5),
            ("an or as an arm", conditional(1, x(2), logical(OR, 3, x(4), x(5)), x(6)), 6),
            ("an assignment as a test", conditional(1, node(ASSIGNMENT, 2, x(3)), x(4), x(5)), 6),
            ("a conditional of two", node(CONDITIONAL, 1, x(2), x(3)), 7),
            ("a conditional of four", node(CONDITIONAL, 1, x(2), x(3), x(4), x(5)), 7),
            ("a conditional, sub 1", node(CONDITIONAL, 1, x(2), x(3), x(4), sub=1), 5),
            ("a spread as an arm", conditional(1, x(2), spread(3, x(4)), x(5)), 7),
            ("an elision as a test", conditional(1, elision(2), x(3), x(4)), 7),
            ("a property as an arm", conditional(1, x(2), x(3), prop(4, x(5))), 7),
            ("an element as an arm", conditional(1, x(2), element(3, METHOD), x(4)), 7)):
        c.refused(name, tree_file(root), answer)


def symbol_refusals(c):
    """What can never be a symbol and is recorded as one; the test of additions comes behind 7 and before 8 and 9."""
    wrong = add(1, literal(2), x(3), SYMBOL)
    for name, inner, _ in five(SYMBOL):
        c.refused(f"{name}, a symbol", tree_file(inner), 5)
    for name, inner, _ in with_part(FLAG + SYMBOL):
        c.refused(f"{name}, a symbol", tree_file(inner), 5)
        c.refused(f"{name}, a symbol, and nothing lent", tree_file(inner), 5, lent=0)
    for name, root, answer in (
            ("'' + a, a symbol, too deep", chain(MOST_DEPTH, sequence_of_one, lambda: wrong), 5),
            ("'' + a, a symbol, before a spread", sequence(1, wrong, spread(2, x(3))), 7),
            ("'' + a, a symbol, before an and", sequence(1, wrong, logical(AND, 2, x(3), x(4))), 6),
            ("'' + a, a symbol, before an assignment", sequence(1, wrong, node(ASSIGNMENT, 2, x(3))), 6)):
        c.refused(name, tree_file(root), answer)


def lent_bytes(c):
    """N = 1 needs 24 bytes, and N = 2 needs 56."""
    one, two = x(1), void(1, x(2))
    for lent in (0, 1, 8, 23):
        for fill in (0, 255):
            c.refused(f"a flagged leaf, {lent} bytes of {fill} lent", tree_file(one), 9, lent, fill)
        c.refused(f"a clear leaf, {lent} bytes lent", tree_file(clear(1)), 9, lent)
    for lent in (24, 25, 40, 4096, 65535):
        for fill in (0, 85, 255):
            c.unchanged(f"a flagged leaf, {lent} bytes of {fill} lent", one, lent=lent, fill=fill)
        c.removable(f"a clear leaf, {lent} bytes lent", clear(1), lent=lent)
    for lent in (24, 40, 55):
        c.refused(f"two records of which one is left, {lent} bytes lent", tree_file(two), 9, lent)
        c.refused(f"two records of which none is left, {lent} bytes lent", tree_file(void(1, clear(2))), 9, lent)
    for lent in (56, 57, 72):
        c.kept(f"two records of which one is left, {lent} bytes lent", two, x(2), lent=lent)
        c.removable(f"two records of which none is left, {lent} bytes lent", void(1, clear(2)), lent=lent)
    for settings in range(8):
        c.kept(f"settings {settings} are copied", two, x(2), settings)


# ---- Version 2: document 02, N6: "every made node copies both ends from the node that gave it its place"


def widened_cases(c):
    """What is left is what is left in version 1."""
    first = Cases()
    for group in (rows, leaves, unaries, sequences, arrays, templates, objects, comparisons, chains, additions, arguments, classes,
                  conditionals, conditional_places, nested):
        group(first)
    for name, data, _, _, answer in first.cases:
        c.add(f"version 2: {name}", widened(data), answer if answer == REMOVABLE else widened(answer))


def f_at(start, facts=FLAG):
    """f(), and f, which starts with it and ends before it."""
    return call((start, start + 3), clear((start, start + 1)), facts=facts)


def spans(c):
    """Where two nodes start together only the end tells which of them gave its place."""
    for group in (made_sequences, made_templates, made_others, emptied, recorded):
        for name, root, answer, *settings in group():
            c.kept(f"version 2: {name}", root, answer, *settings, version=2)
    c.removable("version 2: typeof y", unary(TYPEOF, (0, 8), x((7, 8))), version=2)


def made_sequences():
    f, g, one = f_at(0), f_at(6), number((6, 7))
    yield "[f(), g()]", array((0, 10), f_at(1), f_at(6)), several((0, 10), f_at(1), f_at(6))
    yield ("`${f()}${g()}`", template((0, 14), f_at(3, INNER), f_at(9, INNER)),
           several((0, 14), f_at(3, INNER), f_at(9, INNER)))
    yield "({[f()]: g()})", obj((1, 13), prop((2, 12), f_at(3), f_at(9))), several((1, 13), f_at(3), f_at(9))
    yield "a(f(), g()), pure", call((0, 11), x((0, 1)), f_at(2), f_at(7), facts=LISTED), several((0, 11), f_at(2), f_at(7))
    yield "new a(f(), g()), pure", new((0, 15), x((4, 5)), f_at(6), f_at(11), facts=LISTED), several((0, 15), f_at(6), f_at(11))
    yield "f() < g()", compare((0, 9), f, g), several((0, 9), f, g)
    yield ("(f(), 1) < g()", compare((0, 14), sequence((1, 7), f_at(1), one), f_at(11)), several((0, 14), f_at(1), f_at(11)))
    yield ("f() < (g(), h())", compare((0, 16), f, sequence((7, 15), f_at(7), f_at(12))),
           several((0, 16), f, f_at(7), f_at(12)))
    right = sequence((14, 22), f_at(14), f_at(19))
    yield ("(f(), g()) < (h(), i())", compare((0, 23), sequence((1, 9), f_at(1), f_at(6)), right),
           several((0, 23), f_at(1), f_at(6), right))
    yield ("class extends h() { static a = 1; [k()]() {} }",
           class_of((0, 46), f_at(14), element((20, 33), FIELD + STATIC + VALUE, number((31, 32))),
                    element((34, 44), METHOD + KEY, f_at(35)), sub=HERITAGE),
           several((0, 46), f_at(14), number((31, 32)), f_at(35)))
    yield ("class { static p = 1 }", class_of((0, 22), element((8, 20), FIELD + STATIC + VALUE, number((19, 20))), facts=0),
           several((0, 22), number((19, 20))))


def made_templates():
    """At what is left of the next kept child, not at the child; at the end, at the template."""
    s = clear((3, 4))
    for name, end, inner, left in (
            ("void f()", 15, void((7, 15), f_at(12), INNER), f_at(12)),
            ("f() ? 1 : 2", 18, conditional((7, 18), f_at(7), number((13, 14)), number((17, 18)), INNER), f_at(7)),
            ("f() < x", 14, compare((7, 14), f_at(7), clear((13, 14)), INNER), f_at(7)),
            ("x < f()", 14, compare((7, 14), clear((7, 8)), f_at(11), INNER), f_at(11)),
            ("f() < g()", 16, compare((7, 16), f_at(7), f_at(13), INNER), several((7, 16), f_at(7), f_at(13))),
            ("[f()]", 12, array((7, 12), f_at(8), facts=INNER), f_at(8)),
            ("[f(), g()]", 17, array((7, 17), f_at(8), f_at(13), facts=INNER), several((7, 17), f_at(8), f_at(13))),
            ("f() ? 1 : g()", 20, conditional((7, 20), f_at(7), number((13, 14)), f_at(17), INNER),
             made_or((7, 20), f_at(7), f_at(17)))):
        whole, t = (0, end + 6), clear((end + 3, end + 4))
        yield (f"`${{s}}${{{name}}}${{t}}`", template(whole, s, inner, t),
               several(whole, made(TEMPLATE, left.place, s), left, made(TEMPLATE, whole, t)))
    yield "`x${s}`", spelled(9, template((0, 7), clear((4, 5)))), made(TEMPLATE, (0, 7), clear((4, 5)))


def made_others():
    """Objects, arrays and logicals."""
    first, last = spread((2, 6), clear((5, 6)), 0), spread((16, 20), clear((19, 20)))
    yield ("({...x, a: f(), ...y})", obj((1, 21), first, prop((8, 14), f_at(11)), last),
           several((1, 21), made(OBJECT, (8, 14), first), f_at(11), made(OBJECT, (1, 21), last)))
    yield "({...x, a: 1})", obj((1, 13), first, prop((8, 12), number((11, 12)))), made(OBJECT, (8, 12), first)
    yield ("({...x, [f()]: g()})", obj((1, 19), first, prop((8, 18), f_at(9), f_at(15))),
           several((1, 19), made(OBJECT, (8, 18), first), f_at(9), f_at(15)))
    yield ("({a: 1, ...y})", obj((1, 13), prop((2, 6), number((5, 6))), spread((8, 12), clear((11, 12)))),
           made(OBJECT, (1, 13), spread((8, 12), clear((11, 12)))))
    spreads = spread((23, 27), clear((26, 27)))
    yield ("/* @__PURE__ */ f(g(), ...h)", call((16, 28), clear((16, 17)), f_at(18), spreads, facts=FLAG + ANNOTATED),
           several((16, 28), f_at(18), made(ARRAY, (23, 27), spreads)), ANNOTATIONS)
    yield ("f(...g()), pure", call((0, 9), x((0, 1)), spread((2, 8), f_at(5)), facts=LISTED),
           made(ARRAY, (2, 8), spread((2, 8), f_at(5))))
    f, one = f_at(0), number((6, 7))
    yield "f() ? 1 : g()", conditional((0, 13), f, one, f_at(10)), made_or((0, 13), f, f_at(10))
    yield "f() ? g() : 1", conditional((0, 13), f, f_at(6), number((12, 13))), made_and((0, 13), f, f_at(6))
    inner = conditional((1, 14), f_at(1), f_at(7), number((13, 14)))
    yield ("(f() ? g() : 1) ? h() : 2", conditional((0, 25), inner, f_at(18), number((24, 25))), made_and((0, 25), inner, f_at(18)))
    yield ("f() ? g() ? h() : 1 : 2",
           conditional((0, 23), f, conditional((6, 19), f_at(6), f_at(12), number((18, 19))), number((22, 23))),
           made_and((0, 23), f, made_and((6, 19), f_at(6), f_at(12))))


def emptied():
    """The empty literal has the ends of the side that it stands for, and not of the addition or of what is in the side."""
    s, t = clear((0, 1)), clear((10, 11))
    yield "'a' + f()", add((0, 9), string((0, 3)), f_at(6)), add((0, 9), literal((0, 3)), f_at(6))
    yield "s + 'x'", add((0, 7), s, string((4, 7))), add((0, 7), s, literal((4, 7)))
    yield ("'a' + s + t, the left one clear", add((0, 11), add((0, 7), string((0, 3)), clear((6, 7)), 0), t),
           add((0, 11), literal((0, 7)), t))
    yield ("'a' + b + t, the left one folded", add((0, 11), add((0, 7), string((0, 3)), plain((6, 7))), t),
           add((0, 11), literal((0, 3)), t))
    yield ("s + ('a' + t), the right one clear", add((0, 13), s, add((5, 12), string((5, 8)), clear((11, 12)), STRING)),
           add((0, 13), s, literal((5, 12))))


def recorded():
    """What is not made keeps both its ends, and so does what takes another's place."""
    f = f_at(0)
    _, a, b = columns().children
    yield "[1, a(), ...b]", columns(), array((0, 14), a, b)
    yield "f(), 1", sequence((0, 6), f, number((5, 6))), sequence((0, 6), f)
    yield "void f()", void((0, 8), f_at(5)), f_at(5)
    yield "[f()]", array((0, 5), f_at(1)), f_at(1)
    yield "f() ? 1 : 2", conditional((0, 11), f, number((6, 7)), number((10, 11))), f
    yield ("f() ? [g()] : h()", conditional((0, 17), f, array((6, 11), f_at(7)), f_at(14)),
           conditional((0, 17), f, f_at(7), f_at(14)))
    text = call((0, 3), clear((0, 1)), facts=FLAG + STRING)
    yield "f() + 'x', f() a string", add((0, 9), text, string((6, 9))), text
    yield "both ends the last place", x((LAST_PLACE, LAST_PLACE)), x((LAST_PLACE, LAST_PLACE))
    yield ("from the first place to the last", array((0, LAST_PLACE), x((0, LAST_PLACE)), x((0, 1))),
           several((0, LAST_PLACE), x((0, LAST_PLACE)), x((0, 1))))


def span_refusals(c):
    """17 comes behind 7 and the test of additions, and before 8 and 9."""
    good, ended = (with_ends(tree_file(call(1, x(1)), version=2), 1, 5, end) for end in (5, 4))
    for name, data, answer in (
            ("version 1 called 2", with_u16(tree_file(call(1, x(1))), VERSION, 2), 4),
            ("version 2 called 1", with_u16(good, VERSION, 1), 4),
            ("version 513", with_u16(good, VERSION, 513), 2),
            ("version 514", with_u16(good, VERSION, 514), 2),
            ("one byte short", good[:-1], 4),
            ("one byte long", good + b"\0", 4),
            ("2,001 records counted", with_u16(good, COUNT, MOST_RECORDS + 1), 4),
            ("an end before its start", ended, 17),
            ("an end before its start, and version 3", with_u16(ended, VERSION, 3), 2),
            ("an end before its start, and byte 3", with_byte(ended, of(0, ZERO, 2), 1), 5),
            ("an end before its start, and a logical", with_byte(ended, of(0, KIND, 2), LOGICAL), 6),
            ("an end before its start, and a wrong size", plus(ended, of(0, SIZE, 2), 1), 7),
            ("an end before its start, and '' + a, a symbol",
             tree_file(add(1, literal(2), x((3, 2)), SYMBOL), version=2), 5),
            ("an end before its start, and depth 65", tree_file(chain(MOST_DEPTH + 1, inner=lambda: x((3, 2))), version=2), 17),
            ("depth 65", tree_file(chain(MOST_DEPTH + 1), version=2), 8)):
        c.refused(f"version 2: {name}", data, answer)
        c.refused(f"version 2: {name}, and nothing lent", data, answer, lent=0)
    c.add("version 2: an end at its start", good, good)


def span_lent_bytes(c):
    """N = 1 needs 28 bytes, and N = 2 needs 68."""
    one, two = x((1, 2)), void((1, 9), x((6, 8)))
    for lent in (0, 8, 24, 27):
        c.refused(f"version 2: a flagged leaf, {lent} bytes lent", tree_file(one, version=2), 9, lent)
        c.refused(f"version 2: a clear leaf, {lent} bytes lent", tree_file(clear(1), version=2), 9, lent)
    for lent in (28, 29, 48, 65535):
        c.unchanged(f"version 2: a flagged leaf, {lent} bytes lent", one, lent=lent, version=2)
        c.removable(f"version 2: a clear leaf, {lent} bytes lent", clear(1), lent=lent, version=2)
    for lent in (56, 67):
        c.refused(f"version 2: two records of which one is left, {lent} bytes lent", tree_file(two, version=2), 9, lent)
    for settings in range(8):
        c.kept(f"version 2: settings {settings} are copied", two, x((6, 8)), settings, lent=68, version=2)
    kept_ones = [x((place, place + 9)) for place in (2, 3, 4)]
    wide = array((1, 99), *kept_ones, *[elision((5, 6)) for _ in range(1638 - 1 - len(kept_ones))])
    c.refused("version 2: 1,638 records, 65,507 bytes lent", tree_file(wide, version=2), 9, 65507)
    c.kept("version 2: 1,638 records, 65,508 bytes lent", wide, several((1, 99), *kept_ones), lent=65508, version=2)


def all_cases():
    c = Cases()
    for group in (rows, leaves, unaries, sequences, arrays, templates, objects, comparisons, chains, additions, symbols, calls,
                  arguments, called_functions, classes, conditionals, conditional_places, nested, limits, refusals,
                  conditional_refusals, symbol_refusals, lent_bytes, widened_cases, spans, span_refusals, span_lent_bytes):
        group(c)
    return c.cases


# ---- The modes


def write_cases(out):
    for _, data, lent, fill, _ in all_cases():
        out.write(len(data).to_bytes(2, "little") + lent.to_bytes(2, "little") + bytes([fill]) + data)


def check(text):
    """Stops at the first case whose answer is not the one by hand."""
    lines = text.splitlines()
    for name, _, lent, _, answer in all_cases():
        hand = printed(lent, answer)
        read, lines = lines[:len(hand)], lines[len(hand):]
        if read != hand:
            sys.exit(f"reductions.py: {name}: printed is {read}, and by hand it is {hand}")
    if lines:
        sys.exit(f"reductions.py: {len(lines)} lines after the last case")


def main(words):
    if words == ["cases"]:
        write_cases(sys.stdout.buffer)
    elif words == ["check"]:
        check(sys.stdin.read())
    elif words == ["names"]:
        for name, *_ in all_cases():
            print(name)
    else:
        sys.exit("usage: reductions.py cases | check | names")


if __name__ == "__main__":
    main(sys.argv[1:])
