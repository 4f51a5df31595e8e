#!/usr/bin/env python3
"""Tree files for List effects, most of them with their effects by hand.

  listings.py cases        the standard input of the program `listings` (crates/listings): for each
                           case its length in bytes (two bytes, little-endian) and its bytes
  listings.py check        reads what was listed of the cases, and holds it to the answers by hand
  listings.py worst        the files that need most stack, behind their lengths in the same way
  listings.py names        a line for each case: what it is

What is printed for a case: `count` and how many effects it has, then a line for each, place/kind/coercion;
or `refused` and the number. The stored output of the program is made by the plain port (`driver
listings` of differential/), which shares no code with the proved crates; `check` holds it to the answers here.

No case is refused with 10: the program lends entries enough for any file. It lends no yes places, so each test counts as no
in these cases; those of `given` have yes places, and are for python/test_uxt.py.
"""

import sys

from edges import (AND, ARRAY, ARROW, ASSIGNMENT, BINARY, CALL, CLASS, CONDITIONAL, ELEMENT, ELISION, FUNCTION, IDENTIFIER,
                   LITERAL, LOGICAL, NEW, NULLISH, OBJECT, OR, OTHER_LEAF, PROPERTY, SEQUENCE, SPREAD, TEMPLATE, THIS, UNARY,
                   COUNT, KIND, SETTINGS, SIZE, VERSION, ZERO, Node, chain, columns, of, plus, tree_file, widened, with_byte,
                   with_ends, with_u16)

# Facts
FLAG, NO_SYMBOL, SYMBOL, NO_STRING, ANNOTATED, LISTED, SUMMARY_FREE = 1, 2, 4, 8, 32, 64, 128
STRING = 16 + NO_SYMBOL  # string yes needs symbol no
# Settings
ANNOTATIONS, TREE_SHAKE_ONLY, DERIVED = 1, 2, 4
# Subs
VOID, NOT, TYPEOF, OTHER_UNARY = 1, 2, 3, 4
COMPARISON, ADDITION, OTHER_BINARY = 1, 2, 3
DECORATED_CLASS, HERITAGE = 1, 2
METHOD, FIELD, ACCESSOR, BLOCK, INDEX_SIGNATURE = 1, 2, 3, 4, 5
STATIC, KEY, DECORATED, VALUE, NONEMPTY = 8, 16, 32, 64, 128

MOST_RECORDS, MOST_DEPTH = 3999, 65
LAST_PLACE = 2 ** 32 - 1

# ---- Nodes: the place comes first, so that a case reads like its effects


def x(place, facts=FLAG):
    """A flagged identifier, or one with the facts."""
    return Node(IDENTIFIER, place=place, facts=facts)


def literal(place):
    return Node(LITERAL, place=place)


def node(kind, place, *children, facts=0, sub=0):
    return Node(kind, *children, place=place, facts=facts, sub=sub)


def add(place, left, right, facts=FLAG):
    return node(BINARY, place, left, right, facts=facts, sub=ADDITION)


def call(place, *children, facts=FLAG):
    return node(CALL, place, *children, facts=facts)


def class_of(place, *children, sub=0, facts=FLAG):
    return node(CLASS, place, *children, facts=facts, sub=sub)


def element(place, sub, *children):
    return node(ELEMENT, place, *children, sub=sub)


def sequence(place, *children, facts=FLAG):
    return node(SEQUENCE, place, *children, facts=facts)


def conditional(place, test, consequent, alternate, facts=FLAG):
    return node(CONDITIONAL, place, test, consequent, alternate, facts=facts)


def logical(sub, place, left, right, facts=FLAG):
    return node(LOGICAL, place, left, right, facts=facts, sub=sub)


# ---- The cases


class Cases:
    def __init__(self):
        self.cases = []

    def refused(self, name, data, number):
        self.cases.append((name, data, [f"refused {number}"]))

    def list(self, name, root, effects, settings=0, version=1):
        """The effects by hand: a text with a space between two."""
        effects = effects.split()
        self.cases.append((name, tree_file(root, settings, version), [f"count {len(effects)}"] + effects))


def leaves(c):
    c.list("a literal", literal(7), "")
    for kind in (IDENTIFIER, FUNCTION, ARROW, OTHER_LEAF):
        c.list(f"kind {kind}, flagged", node(kind, 7, facts=FLAG), f"7/{kind}/0")
        c.list(f"kind {kind}, clear", node(kind, 7), "")
    for settings in range(8):
        for facts in (0, FLAG):
            c.list(f"this, facts {facts}, settings {settings}", node(THIS, 7, facts=facts),
                   "7/6/0" if settings & DERIVED else "", settings)


def lists(c):
    c.list("array, flagged, empty", node(ARRAY, 1, facts=FLAG), "")
    c.list("array of an expression, an elision and two spreads, the first one flagged",
           node(ARRAY, 1, x(2), node(ELISION, 3), node(SPREAD, 4, x(5), facts=FLAG), node(SPREAD, 6, x(7)), facts=FLAG),
           "2/2/0 5/2/0 4/9/0 7/2/0")
    c.list("object, flagged, empty", node(OBJECT, 1, facts=FLAG), "")
    c.list("object of a value, a spread, a key with its value",
           node(OBJECT, 1, node(PROPERTY, 2, x(3)), node(SPREAD, 4, x(5), facts=FLAG),
                node(PROPERTY, 6, x(7), x(8), sub=1), facts=FLAG),
           "3/2/0 5/2/0 4/9/0 7/2/0 8/2/0")
    c.list("sequence, flagged, empty", sequence(1), "")
    c.list("sequence of two and a sequence", sequence(1, x(2), x(3), sequence(4, x(5))), "2/2/0 3/2/0 5/2/0")
    c.list("the same place twice", sequence(1, x(2), x(2)), "2/2/0 2/2/0")


def templates(c):
    c.list("template, flagged, empty", node(TEMPLATE, 1, facts=FLAG), "")
    c.list("template of a possible symbol, unknown", node(TEMPLATE, 1, x(2, 0), facts=FLAG), "2/2/1")
    c.list("template of a symbol", node(TEMPLATE, 1, x(2, SYMBOL)), "2/2/1")
    c.list("template of none that is a symbol", node(TEMPLATE, 1, x(2, NO_SYMBOL), literal(3)), "")
    c.list("template: each coercion follows its child",
           node(TEMPLATE, 1, x(2), x(3, FLAG + NO_SYMBOL), x(4, FLAG + SYMBOL), call(5, x(6, 0))),
           "2/2/0 2/2/1 3/2/0 4/2/0 4/2/1 5/16/0 5/16/1")
    c.list("a template in a template, which can be no symbol", node(TEMPLATE, 1, node(TEMPLATE, 2, x(3))), "3/2/0 3/2/1")


def unaries(c):
    for sub in (VOID, NOT, TYPEOF):
        c.list(f"unary, sub {sub}, flagged, of a leaf", node(UNARY, 1, node(OTHER_LEAF, 2, facts=FLAG), facts=FLAG, sub=sub),
               "2/5/0")
    for sub in (VOID, NOT):
        c.list(f"unary, sub {sub}, of an identifier", node(UNARY, 1, x(2), sub=sub), "2/2/0")
    c.list("typeof an identifier, both flagged", node(UNARY, 1, x(2), facts=FLAG, sub=TYPEOF), "")
    c.list("typeof this, derived", node(UNARY, 1, node(THIS, 2), sub=TYPEOF), "2/6/0", DERIVED)
    c.list("other unary, flagged", node(UNARY, 1, x(2), facts=FLAG, sub=OTHER_UNARY), "2/2/0 1/14/0")
    c.list("other unary, clear", node(UNARY, 1, x(2), sub=OTHER_UNARY), "2/2/0")


def binaries(c):
    c.list("comparison, flagged", node(BINARY, 1, x(2), x(3), facts=FLAG, sub=COMPARISON), "2/2/0 3/2/0")
    c.list("other binary, flagged", node(BINARY, 1, x(2), x(3), facts=FLAG, sub=OTHER_BINARY), "2/2/0 3/2/0 1/15/0")
    c.list("other binary, clear", node(BINARY, 1, x(2), x(3), sub=OTHER_BINARY), "2/2/0 3/2/0")


def additions(c):
    c.list("addition, no string, flagged", add(1, x(2), x(3)), "2/2/0 3/2/0 1/15/0")
    c.list("addition, no string, clear", add(1, x(2), x(3), facts=0), "2/2/0 3/2/0")
    c.list("left string, right a possible symbol", add(1, literal(2), x(3, 0)), "3/2/1")
    c.list("left string, right a symbol, the addition clear", add(1, x(2, STRING), x(3, FLAG + SYMBOL), facts=0), "3/2/0 3/2/1")
    c.list("left string, right no symbol", add(1, literal(2), x(3, FLAG + NO_SYMBOL)), "3/2/0")
    c.list("both strings", add(1, literal(2), literal(3)), "")
    c.list("right string, left a possible symbol", add(1, x(2, 0), literal(3)), "2/2/1")
    c.list("right string, left flagged: the coercion follows both sides", add(1, x(2), x(3, FLAG + STRING)), "2/2/0 3/2/0 2/2/1")
    c.list("right string, left no symbol", add(1, x(2, NO_SYMBOL), literal(3)), "")
    c.list("a chain: the left addition is a string by its left",
           add(1, add(2, literal(3), x(4, 0)), x(5, 0)), "4/2/1 5/2/1")
    c.list("a chain: the left addition is a string by its right",
           add(1, add(2, x(3, 0), literal(4)), x(5, 0)), "3/2/1 5/2/1")
    c.list("a chain of three, a string only at its left end",
           add(1, add(2, add(3, literal(4), x(5, 0)), x(6, 0)), x(7, 0)), "5/2/1 6/2/1 7/2/1")
    c.list("a chain without a string", add(1, add(2, x(3, 0), x(4, 0)), x(5, 0)), "2/15/0 1/15/0")
    c.list("a left addition that is recorded as a string and is none",
           add(1, add(2, x(3, 0), x(4, 0), facts=FLAG + STRING), x(5, 0)), "2/15/0 1/15/0")
    c.list("the right one a string, the left addition a possible symbol",
           add(1, add(2, x(3, 0), x(4, 0)), literal(5)), "2/15/0 2/15/1")
    c.list("an addition on the right goes by its fact: not recorded as a string",
           add(1, x(2, 0), add(3, literal(4), x(5, 0))), "5/2/1 1/15/0")
    c.list("an addition on the right goes by its fact: recorded as a string",
           add(1, x(2, 0), add(3, x(4, 0), x(5, 0), facts=STRING)), "2/2/1")


# ---- What can never be a symbol: document 02, N9


def never_symbols(facts):
    """Each of the six at 20, with its list."""
    plain = FLAG + NO_SYMBOL
    for name, sub in (("void", VOID), ("not", NOT), ("typeof", TYPEOF)):
        yield name, node(UNARY, 20, node(OTHER_LEAF, 21, facts=FLAG), facts=facts, sub=sub), "21/5/0"
    yield "a comparison", node(BINARY, 20, x(21), x(22), facts=facts, sub=COMPARISON), "21/2/0 22/2/0"
    yield "a template", node(TEMPLATE, 20, x(21, plain), facts=facts), "21/2/0"
    yield "an addition, a string on the left", add(20, literal(21), x(22, plain), facts), "22/2/0"
    yield "an addition, a string on the right", add(20, x(21, plain), literal(22), facts), "21/2/0"
    yield "a chain, a string at its end", add(20, add(21, literal(22), x(23, plain)), x(24, plain), facts), "23/2/0 24/2/0"
    yield "a chain, a string in its middle", add(20, add(21, x(22, plain), x(23, STRING)), x(24, plain), facts), "22/2/0 24/2/0"
    right = add(22, x(23), x(24), STRING)
    yield "an addition, its right one recorded as a string", add(20, x(21, plain), right, facts), "21/2/0 23/2/0 24/2/0"


def perhaps_symbols(facts):
    """What is most like them, at 20 and flagged, with its list."""
    yield "another unary", node(UNARY, 20, x(21), facts=facts, sub=OTHER_UNARY), "21/2/0 20/14/0"
    yield "another binary", node(BINARY, 20, x(21), x(22), facts=facts, sub=OTHER_BINARY), "21/2/0 22/2/0 20/15/0"
    yield "an addition of no string", add(20, x(21), x(22), facts), "21/2/0 22/2/0 20/15/0"
    right = add(22, x(23, FLAG + NO_SYMBOL), literal(24))
    yield "a + (b + 's')", add(20, x(21), right, facts), "21/2/0 23/2/0 20/15/0"
    left = add(21, x(22, 0), x(23, 0), STRING)
    yield "an addition, its left one recorded as a string, which is none", add(20, left, x(24), facts), "24/2/0 20/15/0"


def coercing(inner, listed, coerced):
    """The node where it is coerced if it is a possible symbol."""
    plain = x(2, NO_SYMBOL)
    yield "in a template", node(TEMPLATE, 1, plain, inner), listed + coerced
    yield "right of a string", add(1, literal(2), inner), listed + coerced
    yield "left of a string", add(1, inner, literal(2)), listed + coerced
    yield "right of a chain with a string", add(1, add(3, plain, literal(4)), inner), listed + coerced
    yield "left of a string, within a chain", add(1, add(3, inner, literal(4)), plain), listed + coerced


def symbols(c):
    for symbol in (0, NO_SYMBOL):
        for name, inner, listed in never_symbols(FLAG + symbol):
            for place, root, effects in coercing(inner, listed, ""):
                c.list(f"{name}, symbol {symbol}, {place}", root, effects)
    for symbol in (0, NO_SYMBOL, SYMBOL):
        for name, inner, listed in perhaps_symbols(FLAG + symbol):
            for place, root, effects in coercing(inner, listed, "" if symbol == NO_SYMBOL else f" 20/{inner.kind}/1"):
                c.list(f"{name}, symbol {symbol}, {place}", root, effects)
    c.list("a template by its string fact alone is a string", add(1, node(TEMPLATE, 2), x(3, 0)), "1/15/0")


def kept_by_tree_shake_only(settings, callee, kind=CALL):
    """A call of a function or arrow: the rule that stands before purity (02, N5)."""
    return bool(settings & TREE_SHAKE_ONLY) and kind == CALL and callee in (FUNCTION, ARROW)


def pure(settings, facts, callee=IDENTIFIER, kind=CALL):
    return not kept_by_tree_shake_only(settings, callee, kind) and bool(
        facts & ANNOTATED and settings & ANNOTATIONS or facts & LISTED
        or facts & SUMMARY_FREE and kind == CALL and callee == IDENTIFIER)


def of_functions():
    """Calls and news of functions and arrows, with `void x` as argument: settings, and kind, callee and facts of the root."""
    for settings in (0, ANNOTATIONS, TREE_SHAKE_ONLY, ANNOTATIONS + TREE_SHAKE_ONLY, 7):
        for kind in (CALL, NEW):
            for callee in (FUNCTION, ARROW):
                for facts in (0, ANNOTATED, LISTED, ANNOTATED + LISTED):
                    for flag in (0, FLAG):
                        said = f"kind {kind} of kind {callee}, facts {flag + facts}, settings {settings}"
                        yield said, settings, node(kind, 1, node(callee, 2, facts=flag), node(UNARY, 3, x(4), facts=FLAG, sub=VOID),
                                                   facts=flag + facts)


def called_functions(c):
    for said, settings, root in of_functions():
        callee = root.children[0].kind
        flagged = root.facts & FLAG
        whole = f"2/{callee}/0 4/2/0 1/{root.kind}/0" if flagged else "4/2/0"
        c.list(said, root, "4/2/0" if pure(settings, root.facts, callee, root.kind) else whole, settings)
    both, called = ANNOTATIONS + TREE_SHAKE_ONLY, call(5, node(ARROW, 6, facts=FLAG), x(7), facts=FLAG + ANNOTATED)
    c.list("a called arrow as argument of a pure call", call(1, x(2), called, facts=FLAG + LISTED), "6/4/0 7/2/0 5/16/0", both)
    c.list("a called arrow as argument of a called function", call(1, node(FUNCTION, 2), called, facts=FLAG + LISTED),
           "6/4/0 7/2/0 5/16/0 1/16/0", both)
    c.list("a called arrow as callee of a pure call", call(1, called, x(2), facts=FLAG + LISTED), "2/2/0", both)
    c.list("a called arrow as callee of an annotated call, annotations off", call(1, called, x(2), facts=FLAG + ANNOTATED),
           "6/4/0 7/2/0 5/16/0 2/2/0 1/16/0", TREE_SHAKE_ONLY)
    c.list("spreads as arguments of a called function",
           call(1, node(FUNCTION, 2), node(SPREAD, 3, x(4)), node(SPREAD, 5, x(6), facts=FLAG), facts=LISTED),
           "4/2/0 6/2/0 5/9/0", both)


def calls(c):
    c.list("impure call, flagged", call(1, x(2), x(3), node(SPREAD, 4, x(5), facts=FLAG)), "2/2/0 3/2/0 5/2/0 4/9/0 1/16/0")
    c.list("impure call, clear", call(1, x(2), x(3), facts=0), "2/2/0 3/2/0")
    c.list("impure new, flagged", node(NEW, 1, x(2), x(3), facts=FLAG), "2/2/0 3/2/0 1/17/0")
    c.list("impure new, clear", node(NEW, 1, x(2), x(3)), "2/2/0 3/2/0")
    for settings in range(8):
        for facts in (0, ANNOTATED, LISTED, ANNOTATED + LISTED):
            for kind in (CALL, NEW):
                c.list(f"kind {kind}, facts {facts} and flagged, settings {settings}",
                       node(kind, 1, x(2), x(3), facts=FLAG + facts),
                       "3/2/0" if pure(settings, facts) else f"2/2/0 3/2/0 1/{kind}/0", settings)
        for callee in (IDENTIFIER, FUNCTION, ARROW, OTHER_LEAF):
            c.list(f"summary free, the callee of kind {callee}, settings {settings}",
                   call(1, node(callee, 2, facts=FLAG), x(3), facts=FLAG + SUMMARY_FREE),
                   "3/2/0" if callee == IDENTIFIER else f"2/{callee}/0 3/2/0 1/16/0", settings)
            c.list(f"impure, clear, the callee of kind {callee}, settings {settings}",
                   call(1, node(callee, 2, facts=FLAG), facts=0), f"2/{callee}/0", settings)
    c.list("a pure call of none", call(1, x(2), facts=FLAG + LISTED), "")
    c.list("a pure call of a spread", call(1, x(2), node(SPREAD, 3, x(4), facts=FLAG), facts=FLAG + LISTED), "4/2/0 3/9/0")
    c.list("a pure call whose callee has arguments", call(1, call(2, x(3), x(4)), x(5), facts=FLAG + LISTED), "5/2/0")


def classes(c):
    c.list("class, flagged, empty", class_of(1), "")
    c.list("class with heritage", class_of(1, x(2), sub=HERITAGE), "2/2/0")
    c.list("decorated class, clear: itself after the heritage", class_of(1, x(2), sub=HERITAGE + DECORATED_CLASS, facts=0), "2/2/0 1/18/0")
    c.list("decorated class, empty", class_of(1, sub=DECORATED_CLASS), "1/18/0")
    c.list("the last element decorated", class_of(1, element(2, METHOD), element(3, METHOD + DECORATED)), "1/18/0")
    c.list("two elements and the class decorated: itself once",
           class_of(1, element(2, FIELD + DECORATED), element(3, ACCESSOR + DECORATED), sub=DECORATED_CLASS), "1/18/0")
    c.list("an index signature", class_of(1, element(2, INDEX_SIGNATURE)), "")
    c.list("keys of a method, a field, an accessor",
           class_of(1, *[element(2 * form, form + KEY, x(2 * form + 1)) for form in (METHOD, FIELD, ACCESSOR)]),
           "3/2/0 5/2/0 7/2/0")
    c.list("all keys before any static value",
           class_of(1, element(2, FIELD + STATIC + KEY + VALUE, x(3), x(4)), element(5, BLOCK + NONEMPTY),
                    element(6, ACCESSOR + STATIC + VALUE, x(7)), element(8, METHOD + STATIC + KEY, x(9))),
           "3/2/0 9/2/0 4/2/0 5/19/0 7/2/0")
    c.list("a value that is not static", class_of(1, element(2, FIELD + KEY + VALUE, x(3), x(4)), element(5, ACCESSOR + VALUE, x(6))), "3/2/0")
    c.list("a block, empty", class_of(1, element(2, BLOCK)), "")
    c.list("two blocks", class_of(1, element(2, BLOCK + NONEMPTY), element(3, BLOCK + NONEMPTY)), "2/19/0 3/19/0")
    c.list("every part of a class in order",
           class_of(1, x(2), element(3, METHOD + DECORATED + KEY, x(4)), element(5, BLOCK + NONEMPTY),
                    element(6, FIELD + STATIC + VALUE, x(7)), sub=HERITAGE),
           "2/2/0 1/18/0 4/2/0 5/19/0 7/2/0")
    c.list("a class as key and as static value",
           class_of(1, element(2, FIELD + STATIC + KEY + VALUE,
                               class_of(3, element(4, BLOCK + NONEMPTY)), class_of(5, element(6, METHOD + KEY, x(7))))),
           "4/19/0 7/2/0")


def heritages(c):
    arrow = node(ARROW, 9)
    for name, heritage, itself in (
            ("an arrow", arrow, True),
            ("a function", node(FUNCTION, 9), False),
            ("a sequence that ends in an arrow", sequence(2, x(3, 0), arrow), True),
            ("a sequence of an arrow, then an identifier", sequence(2, arrow, x(3, 0)), False),
            ("an empty sequence", sequence(2), False),
            ("nested sequences that end in an arrow", sequence(2, x(3, 0), sequence(4, x(5, 0), sequence(6, arrow))), True),
            ("nested sequences that end in an empty one", sequence(2, arrow, sequence(4, arrow, sequence(6))), False),
            ("nested sequences, an arrow last in the first", sequence(2, sequence(4, arrow), sequence(6)), False),
            ("an array that ends in an arrow", node(ARRAY, 2, arrow), False)):
        c.list(f"heritage: {name}", class_of(1, heritage, sub=HERITAGE, facts=0), "1/18/0" if itself else "")
    c.list("heritage: a flagged arrow in a sequence, listed before the class",
           class_of(1, sequence(2, x(3), node(ARROW, 9, facts=FLAG)), sub=HERITAGE), "3/2/0 9/4/0 1/18/0")
    c.list("an arrow as first element's key is no heritage", class_of(1, element(2, METHOD + KEY, arrow)), "")


def conditionals(c):
    """Document 02: "The effect list has the test, then the arm run". Each test counts as no."""
    for facts in (0, FLAG):
        c.list(f"conditional, facts {facts}", conditional(1, x(2), x(3), x(4), facts), "2/2/0 4/2/0")
    c.list("conditional, the test clear", conditional(1, x(2, 0), x(3), x(4)), "4/2/0")
    c.list("conditional, the alternate clear", conditional(1, x(2), x(3), x(4, 0)), "2/2/0")
    c.list("a conditional as test", conditional(1, conditional(2, x(3), x(4), x(5)), x(6), x(7)), "3/2/0 5/2/0 7/2/0")
    c.list("a conditional as consequent", conditional(1, x(2), conditional(3, x(4), x(5), x(6)), x(7)), "2/2/0 7/2/0")
    c.list("a conditional as alternate", conditional(1, x(2), x(3), conditional(4, x(5), x(6), x(7))), "2/2/0 5/2/0 7/2/0")
    c.list("(a ? b : c) ? d : e ? f : g",
           conditional(0, conditional(1, x(1), x(5), x(9)), x(14), conditional(18, x(18), x(22), x(26))),
           "1/2/0 9/2/0 18/2/0 26/2/0")
    c.list("!a ? f() : 1", conditional(1, node(UNARY, 2, x(3), facts=FLAG, sub=NOT), call(5, x(6, 0)), x(8, 0)), "3/2/0")
    c.list("!a ? 1 : f()", conditional(1, node(UNARY, 2, x(3), facts=FLAG, sub=NOT), x(5, 0), call(6, x(7, 0))), "3/2/0 6/16/0")
    c.list("this as alternate, derived", conditional(1, x(2, 0), x(3), node(THIS, 4)), "4/6/0", DERIVED)


def logicals(c):
    """Document 02: "its right side running on yes for and, on no for or"."""
    for facts in (0, FLAG):
        c.list(f"and, facts {facts}", logical(AND, 1, x(2), x(3), facts), "2/2/0")
        c.list(f"or, facts {facts}", logical(OR, 1, x(2), x(3), facts), "2/2/0 3/2/0")
    c.list("and of ors", logical(AND, 1, logical(OR, 2, x(3), x(4)), logical(OR, 5, x(6), x(7))), "3/2/0 4/2/0")
    c.list("or of ands", logical(OR, 1, logical(AND, 2, x(3), x(4)), logical(AND, 5, x(6), x(7))), "3/2/0 6/2/0")
    c.list("or of ors", logical(OR, 1, logical(OR, 2, x(3), x(4)), logical(OR, 5, x(6), x(7))), "3/2/0 4/2/0 6/2/0 7/2/0")
    c.list("or of conditionals", logical(OR, 1, conditional(2, x(3), x(4), x(5)), conditional(6, x(7), x(8), x(9))),
           "3/2/0 5/2/0 7/2/0 9/2/0")
    c.list("conditional of an and, two ors", conditional(1, logical(AND, 2, x(3), x(4)), logical(OR, 5, x(6), x(7)),
                                                         logical(OR, 8, x(9), x(10))), "3/2/0 9/2/0 10/2/0")


def tested(c):
    """A conditional and an or in every place: both list 30 and 32. Neither is an effect itself, but either may be coerced."""
    for kind, facts in ((CONDITIONAL, FLAG), (LOGICAL, FLAG), (CONDITIONAL, FLAG + NO_SYMBOL), (LOGICAL, FLAG + STRING)):
        parts = (x(30), x(31), x(32)) if kind == CONDITIONAL else (x(30), x(32))
        inner, coerced = node(kind, 20, *parts, facts=facts, sub=0 if kind == CONDITIONAL else OR), f" 20/{kind}/1"
        for name, root, effects in around(inner, "30/2/0 32/2/0", "" if facts & NO_SYMBOL else coerced):
            c.list(f"kind {kind}, facts {facts}, {name}", root, effects)


def around(inner, listed, coerced):
    """The node in each place: what it is, the tree, and its effects, of which the node's are given."""
    yield "in an array", node(ARRAY, 1, x(2), inner, x(3)), f"2/2/0 {listed} 3/2/0"
    yield "in a flagged spread", node(ARRAY, 1, node(SPREAD, 2, inner, facts=FLAG)), f"{listed} 2/9/0"
    yield "as a key", node(OBJECT, 1, node(PROPERTY, 2, inner, x(3), sub=1)), f"{listed} 3/2/0"
    yield "as a value", node(OBJECT, 1, node(PROPERTY, 2, x(3), inner, sub=1)), f"3/2/0 {listed}"
    yield "in a template", node(TEMPLATE, 1, x(2, NO_SYMBOL), inner), listed + coerced
    yield "in a sequence", sequence(1, inner, x(2)), f"{listed} 2/2/0"
    yield "under typeof", node(UNARY, 1, inner, sub=TYPEOF), listed
    yield "under another unary", node(UNARY, 1, inner, facts=FLAG, sub=OTHER_UNARY), f"{listed} 1/14/0"
    yield "right in a comparison", node(BINARY, 1, x(2), inner, sub=COMPARISON), f"2/2/0 {listed}"
    yield "right in an addition, a string left", add(1, literal(2), inner), listed + coerced
    yield "left in an addition, a string right", add(1, inner, literal(2)), listed + coerced
    yield "as callee of an impure call", call(1, inner, x(2)), f"{listed} 2/2/0 1/16/0"
    yield "as callee of a pure call", call(1, inner, x(2), facts=FLAG + LISTED), "2/2/0"
    yield "as callee, summary free, which asks for an identifier", call(1, inner, facts=SUMMARY_FREE), listed
    yield "as argument of a pure new", node(NEW, 1, x(2), inner, facts=FLAG + LISTED), listed
    yield "as heritage", class_of(1, inner, element(2, METHOD + KEY, x(3)), sub=HERITAGE), f"{listed} 3/2/0"
    yield "as a computed key", class_of(1, element(2, FIELD + STATIC + KEY + VALUE, inner, x(3))), f"{listed} 3/2/0"
    static = element(2, FIELD + STATIC + VALUE, inner)
    yield "as a static value", class_of(1, static, element(3, METHOD + KEY, x(4))), f"4/2/0 {listed}"
    yield "as a value that is not static", class_of(1, element(2, FIELD + VALUE, inner)), ""


def arrows(c):
    """A heritage that ends in a conditional or a logical is no arrow."""
    arrow = node(ARROW, 9)
    for name, heritage in (("a conditional of arrows", conditional(2, arrow, arrow, arrow, 0)),
                           ("an or of arrows", logical(OR, 2, arrow, arrow, 0)),
                           ("a sequence that ends in such a conditional", sequence(2, conditional(3, arrow, arrow, arrow, 0)))):
        c.list(f"heritage: {name}", class_of(1, heritage, sub=HERITAGE, facts=0), "")


def widest(c):
    c.list("the last place, the largest kind", class_of(0, element(LAST_PLACE, BLOCK + NONEMPTY)), f"{LAST_PLACE}/19/0")
    c.list("the last place, itself and coerced",
           node(TEMPLATE, 0, class_of(LAST_PLACE, sub=DECORATED_CLASS)), f"{LAST_PLACE}/18/0 {LAST_PLACE}/18/1")
    c.list("the last place, the largest kind that is coerced",
           node(TEMPLATE, 0, conditional(LAST_PLACE, x(1, 0), x(2), x(3, 0))), f"{LAST_PLACE}/21/1")
    c.list("place 0, kind 2, coerced", node(TEMPLATE, 0, x(0)), "0/2/0 0/2/1")


def wide_template(records):
    """The most effects that so many records can have but for one record: two for each child."""
    return node(TEMPLATE, 0, *[x(place) for place in range(1, records)])


def limits(c):
    c.list(f"{MOST_RECORDS} records", wide_template(MOST_RECORDS),
           " ".join(f"{place}/2/0 {place}/2/1" for place in range(1, MOST_RECORDS)))
    c.list(f"depth {MOST_DEPTH}", chain(MOST_DEPTH, lambda inner: node(UNARY, 1, inner, facts=FLAG, sub=OTHER_UNARY),
                                        lambda: x(2)), "2/2/0" + " 1/14/0" * (MOST_DEPTH - 1))
    tests_first = "2/2/0 " * (MOST_DEPTH - 1) + "4/2/0"
    for name, wrap, effects in (("tests", lambda inner: conditional(1, inner, x(2), x(3)), "4/2/0" + " 3/2/0" * (MOST_DEPTH - 1)),
                                ("alternates", lambda inner: conditional(1, x(2), x(3), inner), tests_first),
                                ("ors", lambda inner: logical(OR, 1, x(2), inner), tests_first)):
        c.list(f"depth {MOST_DEPTH} over {name}", chain(MOST_DEPTH, wrap, lambda: x(4)), effects)
    c.list(f"{MOST_RECORDS} records, a conditional of them",
           conditional(0, wide_template(1332), wide_template(1333), wide_template(1333)),
           " ".join(f"{place}/2/0 {place}/2/1" for count in (1332, 1333) for place in range(1, count)))
    c.refused("4,000 records", tree_file(wide_template(MOST_RECORDS + 1)), 4)
    c.refused("depth 66", tree_file(chain(MOST_DEPTH + 1)), 8)


def refusals(c):
    good = tree_file(call(1, x(2)))
    for name, data, number in (
            ("no byte", b"", 1),
            ("the first 7 bytes", good[:7], 1),
            ("a wrong mark", with_byte(good, 0, 0), 1),
            ("version 3", with_u16(good, VERSION, 3), 2),
            ("settings 8", with_byte(good, SETTINGS, 8), 3),
            ("one byte short", good[:-1], 4),
            ("byte 3 of the last record is 1", with_byte(good, of(1, ZERO), 1), 5),
            ("a logical, sub 0", tree_file(logical(NULLISH, 1, x(2), x(3))), 6),
            ("a logical, sub 3", tree_file(logical(3, 1, x(2), x(3))), 5),
            ("an and of one", tree_file(node(LOGICAL, 1, x(2), sub=AND)), 7),
            ("an or of three", tree_file(node(LOGICAL, 1, x(2), x(3), x(4), sub=OR)), 7),
            ("an and of a spread", tree_file(logical(AND, 1, x(2), node(SPREAD, 3, x(4)))), 7),
            ("a conditional of two", tree_file(node(CONDITIONAL, 1, x(2), x(3))), 7),
            ("a conditional of four", tree_file(node(CONDITIONAL, 1, x(2), x(3), x(4), x(5))), 7),
            ("a spread as alternate", tree_file(conditional(1, x(2), x(3), node(SPREAD, 4, x(5)))), 7),
            ("an assignment", tree_file(node(ASSIGNMENT, 1, x(2))), 6),
            ("a template that is a symbol", tree_file(node(TEMPLATE, 1, x(2), facts=SYMBOL)), 5),
            ("'' + a, a symbol, beside an and", tree_file(logical(AND, 1, x(2), add(3, literal(4), x(5), SYMBOL))), 5),
            ("'' + a, a symbol, too deep", tree_file(chain(MOST_DEPTH, inner=lambda: add(1, literal(2), x(3), SYMBOL))), 5),
            ("'' + a spread, a symbol", tree_file(add(1, literal(2), node(SPREAD, 3, x(4)), SYMBOL)), 7),
            ("a wrong size", plus(good, of(0, SIZE), 1), 7),
            ("5 after 6 and 7", with_byte(with_byte(plus(good, of(0, SIZE), 1), of(0, KIND), LOGICAL), of(1, ZERO), 1), 5)):
        c.refused(f"refused with {number}: {name}", data, number)
    c.list("the same file, whole", call(1, x(2)), "2/2/0 1/16/0")


# ---- Version 2: document 02, N6: "Effects still carry the start"


def widened_cases(c):
    """The lists are those of version 1."""
    first = Cases()
    for group in (leaves, lists, templates, unaries, binaries, additions, classes, heritages, conditionals, logicals, tested,
                  arrows, widest):
        group(first)
    for name, data, lines in first.cases:
        c.cases.append((f"version 2: {name}", widened(data), lines))


def spans(c):
    """Nodes that start together end apart."""
    f, g = call((0, 3), x((0, 1))), call((6, 9), x((6, 7)))
    for name, root, effects in (
            ("[1, a(), ...b]", columns(), "4/16/0 9/9/0"),
            ("f() + g()", add((0, 9), f, g), "0/2/0 0/16/0 6/2/0 6/16/0 0/15/0"),
            ("f() - g()", node(BINARY, (0, 9), f, g, facts=FLAG, sub=OTHER_BINARY), "0/2/0 0/16/0 6/2/0 6/16/0 0/15/0"),
            ("'s' + g()", add((0, 9), literal((0, 3)), g), "6/2/0 6/16/0 6/16/1"),
            ("f() + 'x'", add((0, 9), f, literal((6, 9))), "0/2/0 0/16/0 0/16/1"),
            ("-g()", node(UNARY, (5, 9), g, facts=FLAG, sub=OTHER_UNARY), "6/2/0 6/16/0 5/14/0"),
            ("f()(...a)", call((0, 9), f, node(SPREAD, (4, 8), x((7, 8)), facts=FLAG)), "0/2/0 0/16/0 7/2/0 4/9/0 0/16/0"),
            ("new f(a)", node(NEW, (0, 8), x((4, 5)), x((6, 7)), facts=FLAG), "4/2/0 6/2/0 0/17/0"),
            ("`${a}${g()}`", node(TEMPLATE, (0, 12), x((3, 4)), call((7, 10), x((7, 8), 0))), "3/2/0 3/2/1 7/16/0 7/16/1"),
            ("@d class { static { s } }", class_of((0, 25), element((11, 23), BLOCK + NONEMPTY), sub=DECORATED_CLASS),
             "0/18/0 11/19/0"),
            ("f() ? a : g()", conditional((0, 13), f, x((6, 7)), call((10, 13), x((10, 11)))), "0/2/0 0/16/0 10/2/0 10/16/0"),
            ("f() || g()", logical(OR, (0, 10), f, call((7, 10), x((7, 8)))), "0/2/0 0/16/0 7/2/0 7/16/0"),
            ("f() && g()", logical(AND, (0, 10), f, call((7, 10), x((7, 8)))), "0/2/0 0/16/0"),
            ("both ends the last place", x((LAST_PLACE, LAST_PLACE)), f"{LAST_PLACE}/2/0"),
            ("from the first place to the last", x((0, LAST_PLACE)), "0/2/0")):
        c.list(f"version 2: {name}", root, effects, version=2)
    c.list("version 2: this, derived", node(THIS, (7, 11)), "7/6/0", DERIVED, version=2)
    elisions = [node(ELISION, (0, 1)) for _ in range(3273)]
    c.list("version 2: the longest that goes behind its length", node(ARRAY, (0, 9), *elisions, call((2, 4), x((2, 3)))),
           "2/2/0 2/16/0", version=2)


def span_refusals(c):
    """17 comes behind 7 and the test of additions, and before 8."""
    good = tree_file(call((1, 5), x((1, 3))), version=2)
    wrong = add(1, literal(2), x(3), SYMBOL)
    for name, data, number in (
            ("version 1 called 2", with_u16(tree_file(call(1, x(2))), VERSION, 2), 4),
            ("version 2 called 1", with_u16(good, VERSION, 1), 4),
            ("version 513", with_u16(good, VERSION, 513), 2),
            ("version 514", with_u16(good, VERSION, 514), 2),
            ("one byte short", good[:-1], 4),
            ("one byte long", good + b"\0", 4),
            ("4,000 records counted", with_u16(good, COUNT, MOST_RECORDS + 1), 4),
            ("the root ends before its start", with_ends(good, 0, 1, 0), 17),
            ("the last record ends before its start", with_ends(good, 1, 1, 0), 17),
            ("and byte 3", with_byte(with_ends(good, 0, 1, 0), of(1, ZERO, 2), 1), 5),
            ("and an assignment", with_ends(tree_file(node(ASSIGNMENT, 1, x(2)), version=2), 1, 1, 0), 6),
            ("and a wrong size", plus(with_ends(good, 0, 1, 0), of(1, SIZE, 2), 1), 7),
            ("and '' + a, a symbol", with_ends(tree_file(wrong, version=2), 2, 1, 0), 5),
            ("and an and", with_ends(tree_file(logical(AND, 1, x(2), x(3)), version=2), 2, 1, 0), 17),
            ("and depth 66", with_ends(tree_file(chain(MOST_DEPTH + 1), version=2), 65, 1, 0), 17),
            ("depth 66", tree_file(chain(MOST_DEPTH + 1), version=2), 8)):
        c.refused(f"refused with {number}: version 2: {name}", data, number)


def all_cases():
    c = Cases()
    for group in (leaves, lists, templates, unaries, binaries, additions, symbols, calls, called_functions, classes, heritages,
                  conditionals, logicals, tested, arrows, widest, limits, refusals, widened_cases, spans, span_refusals):
        group(c)
    return c.cases


# ---- Lists under yes places: name, tree, the places, and the effects by hand


def given():
    one = conditional(1, x(2), x(3), x(4))
    for yes, effects in (((), "2/2/0 4/2/0"), ((2,), "2/2/0 3/2/0"), ((1,), "2/2/0 4/2/0"), ((3,), "2/2/0 4/2/0"),
                         ((4, 1, 3), "2/2/0 4/2/0"), ((2, 2, 2), "2/2/0 3/2/0"), ((9, 2, 0), "2/2/0 3/2/0")):
        yield f"conditional, yes {yes}", one, yes, effects
    yield "conditional, the last of 10,000 places", one, (*range(3, 10_002), 2), "2/2/0 3/2/0"
    yield "conditional, none of 10,000 places", one, range(3, 10_003), "2/2/0 4/2/0"
    for sub, yes, effects in ((AND, (), "2/2/0"), (AND, (2,), "2/2/0 3/2/0"), (AND, (1, 3), "2/2/0"), (OR, (), "2/2/0 3/2/0"),
                              (OR, (2,), "2/2/0"), (OR, (1, 3), "2/2/0 3/2/0")):
        yield f"logical, sub {sub}, yes {yes}", logical(sub, 1, x(2), x(3)), yes, effects
    negated = conditional(1, node(UNARY, 2, x(3), facts=FLAG, sub=NOT), call(5, x(6, 0)), x(8, 0))
    yield "!a ? f() : 1, yes at !a", negated, (2,), "3/2/0 5/16/0"
    yield "!a ? f() : 1, yes at a", negated, (3,), "3/2/0"
    joined = conditional(0, conditional(1, x(1), x(5), x(9)), x(14), x(18))
    yield "(a ? b : c) ? d : e, both tests are at 1", joined, (1,), "1/2/0 5/2/0 14/2/0"
    yield "(a ? b : c) ? d : e, no test is at 0", joined, (0,), "1/2/0 9/2/0 18/2/0"
    yield "the last place", conditional(1, x(LAST_PLACE), x(3), x(4)), (0, LAST_PLACE), f"{LAST_PLACE}/2/0 3/2/0"
    yield "a place that is 2 in its lower 16 bits", one, (65538,), "2/2/0 4/2/0"
    yield "no test", call(1, x(2), x(3)), (1, 2, 3), "2/2/0 3/2/0 1/16/0"
    yield "a test's end", conditional(1, x((2, 9)), x(3), x(4)), (9,), "2/2/0 4/2/0"
    yield "a test's start", conditional(1, x((2, 9)), x(3), x(4)), (2,), "2/2/0 3/2/0"
    yield ("two tests that start together and end apart",
           conditional(0, conditional((1, 10), x((1, 2)), x(5), x(9)), x(14), x(18)), (1,), "1/2/0 5/2/0 14/2/0")
    yield from given_nested()
    for name, root, effects in around(conditional(20, x(30), x(32), x(31)), "30/2/0 32/2/0", " 20/21/1"):
        yield f"conditional {name}, yes", root, (30,), effects
    for name, root, effects in around(logical(AND, 20, x(30), x(32)), "30/2/0 32/2/0", " 20/20/1"):
        yield f"and {name}, yes", root, (30,), effects


def given_nested():
    """Each list over the three tests: 11 at the root, 21 in the consequent, 31 in the alternate."""
    root = conditional(10, x(11), conditional(20, x(21), x(22), x(23)), logical(OR, 30, x(31), x(32)))
    for bits in range(8):
        yes = [place for bit, place in enumerate((11, 21, 31)) if bits >> bit & 1]
        if 11 in yes:
            effects = "11/2/0 21/2/0 22/2/0" if 21 in yes else "11/2/0 21/2/0 23/2/0"
        else:
            effects = "11/2/0 31/2/0" if 31 in yes else "11/2/0 31/2/0 32/2/0"
        yield f"nested, yes {yes}", root, yes, effects


# ---- The files that need most stack

# Each kind of list, of so many siblings at most; what is left of the records.
LISTS = {
    "array": lambda room: node(ARRAY, 1, *[x(2) for _ in range(room - 1)]),
    "elisions": lambda room: node(ARRAY, 1, *[node(ELISION, 2) for _ in range(room - 1)]),
    "spreads": lambda room: node(ARRAY, 1, *[node(SPREAD, 2, x(3), facts=FLAG) for _ in range((room - 1) // 2)]),
    "object": lambda room: node(OBJECT, 1, *[node(PROPERTY, 2, x(3)) for _ in range((room - 1) // 2)]),
    "template": wide_template,
    "sequence": lambda room: sequence(1, *[x(2) for _ in range(room - 1)]),
    "arguments": lambda room: call(1, *[x(2) for _ in range(room - 1)]),
    "arguments of a pure new": lambda room: node(NEW, 1, *[x(2) for _ in range(room - 1)], facts=LISTED),
    "blocks": lambda room: class_of(1, *[element(2, BLOCK + NONEMPTY) for _ in range(room - 1)]),
    "keys": lambda room: class_of(1, *[element(2, METHOD + KEY, x(3)) for _ in range((room - 1) // 2)]),
    "static values": lambda room: class_of(1, *[element(2, FIELD + STATIC + VALUE, x(3)) for _ in range((room - 1) // 2)]),
    "conditionals": lambda room: sequence(1, *[conditional(2, x(3), x(4), x(5)) for _ in range((room - 1) // 4)]),
    "ors": lambda room: sequence(1, *[logical(OR, 2, x(3), x(4)) for _ in range((room - 1) // 3)]),
    "alternate": lambda room: conditional(1, x(2), x(3), sequence(4, *[x(5) for _ in range(room - 4)])),
}

# Each way down, with the levels that one step takes.
STEPS = {
    "void": (1, lambda inner: node(UNARY, 1, inner, sub=VOID)),
    "other unary": (1, lambda inner: node(UNARY, 1, inner, facts=FLAG, sub=OTHER_UNARY)),
    "comparison": (1, lambda inner: node(BINARY, 1, literal(2), inner, sub=COMPARISON)),
    "left of an addition": (1, lambda inner: add(1, inner, literal(2))),
    "right of an addition": (1, lambda inner: add(1, literal(2), inner)),
    "array": (1, lambda inner: node(ARRAY, 1, inner)),
    "sequence": (1, lambda inner: sequence(1, inner)),
    "template": (1, lambda inner: node(TEMPLATE, 1, inner)),
    "callee": (1, lambda inner: call(1, inner)),
    "argument": (1, lambda inner: call(1, literal(2), inner)),
    "argument of a pure call": (1, lambda inner: call(1, x(2), inner, facts=LISTED)),
    "heritage": (1, lambda inner: class_of(1, inner, sub=HERITAGE)),
    "test": (1, lambda inner: conditional(1, inner, x(2), x(3))),
    "consequent": (1, lambda inner: conditional(1, x(2), inner, x(3))),
    "alternate": (1, lambda inner: conditional(1, x(2), x(3), inner)),
    "left of an and": (1, lambda inner: logical(AND, 1, inner, x(2))),
    "right of an or": (1, lambda inner: logical(OR, 1, x(2), inner)),
    "spread": (2, lambda inner: node(ARRAY, 1, node(SPREAD, 2, inner, facts=FLAG))),
    "property": (2, lambda inner: node(OBJECT, 1, node(PROPERTY, 2, inner))),
    "key": (2, lambda inner: class_of(1, element(2, METHOD + KEY, inner))),
    "static value": (2, lambda inner: class_of(1, element(2, FIELD + STATIC + VALUE, inner))),
}


def under(step, levels, inner):
    """The node under so many levels, or one less where a step takes two."""
    for _ in range(levels // step[0]):
        inner = step[1](inner)
    return inner


def with_siblings(step, levels, each):
    """So many levels, each with siblings before what is under it."""
    inner = x(9)
    for _ in range(levels // (step[0] + 1)):
        inner = sequence(1, *[x(2) for _ in range(each)], step[1](inner))
    return inner


def worst():
    for siblings in LISTS.values():
        yield siblings(MOST_RECORDS)
    for step in STEPS.values():
        yield under(step, MOST_DEPTH - 1, x(9))
        # A list of three levels at the bottom; a step takes at most three records a level.
        for siblings in LISTS.values():
            yield under(step, MOST_DEPTH - 3, siblings(MOST_RECORDS - 3 * MOST_DEPTH))
        # The deepest heritage: sequences within sequences, under each way down.
        for half in (1, MOST_DEPTH // 2, MOST_DEPTH - 3):
            heritage = chain(half, sequence_of_one, lambda: node(ARROW, 9))
            yield under(step, MOST_DEPTH - 1 - half, class_of(1, heritage, sub=HERITAGE))
            # A chain of additions, of which it is asked whether it has a string part.
            additions = chain(half + 1, lambda inner: add(1, inner, x(2)), lambda: literal(9))
            yield under(step, MOST_DEPTH - 2 - half, node(TEMPLATE, 1, additions))
        yield with_siblings(step, MOST_DEPTH - 1, 50)


def sequence_of_one(inner):
    return sequence(1, inner)


# ---- The modes


def framed(files, out):
    for data in files:
        out.write(len(data).to_bytes(2, "little") + data)


def check(text):
    """Stops at the first case whose answer is not the one by hand."""
    lines = text.splitlines()
    for name, _, hand in all_cases():
        listed, lines = lines[:len(hand)], lines[len(hand):]
        if listed != hand:
            sys.exit(f"listings.py: {name}: listed is {listed[:20]}, and by hand it is {hand[:20]}")
    if lines:
        sys.exit(f"listings.py: {len(lines)} lines after the last case")


def main(words):
    sys.setrecursionlimit(10_000)
    if words == ["cases"]:
        framed([data for _, data, _ in all_cases()], sys.stdout.buffer)
    elif words == ["check"]:
        check(sys.stdin.read())
    elif words == ["worst"]:
        framed(map(tree_file, worst()), sys.stdout.buffer)
    elif words == ["names"]:
        for name, _, _ in all_cases():
            print(name)
    else:
        sys.exit("usage: listings.py cases | check | worst | names")


if __name__ == "__main__":
    main(sys.argv[1:])
