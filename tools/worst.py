#!/usr/bin/env python3
"""Tree files that need most of Reduce: the most stack, and the most room for the answer.

  worst.py files       the files, each behind its length in bytes (two bytes, little-endian)
  worst.py check       reads what `driver reduced` or `stack reduce` printed of the files, and holds the
                       lines of those whose answer is written here by hand to it
  worst.py names       a line for each file: what it is

Each kind of list with as many siblings as 2,000 records allow; each way down, 64 levels deep; each list at
the end of each way, and each heritage and chain of additions of which the end is asked for; siblings at
every level of each way; and trees whose answers are longer or deeper than they are. No two records of a
file have a start or an end in common, so that a place that is wrong shows. The files are of version 1:
`stack` runs each as version 2, too, and python/test_uxt.py holds version 2 to the answers by hand.

The answer that comes nearest to 2 * N - 1 records is, as far as a search went, that of `grown`: templates
within templates, each with a symbol that waits before and after what is in it. N records become at most
(5 * N - 2) / 3, and of 2,000 with 64 levels 3,329.
"""

import itertools
import sys

from edges import (AND, ARRAY, ARROW, BINARY, CALL, CLASS, CONDITIONAL, COUNT, ELEMENT, ELISION, IDENTIFIER, LITERAL, LOGICAL,
                   NEW, OBJECT, OR, PROPERTY, REDUCE, SEQUENCE, SPREAD, TEMPLATE, UNARY, Node, tree_file, u16)
from listings import (ACCESSOR, ADDITION, BLOCK, COMPARISON, FIELD, FLAG, HERITAGE, INDEX_SIGNATURE, KEY, LISTED,
                      METHOD, NONEMPTY, NOT, NO_SYMBOL, OTHER_UNARY, STATIC, STRING, TYPEOF, VALUE, VOID, framed)

MOST_RECORDS, MOST_DEPTH = REDUCE.records, REDUCE.depth

# ---- Nodes: flagged and no symbol, unless said


def of(kind, *children, facts=FLAG + NO_SYMBOL, sub=0, text=0):
    return Node(kind, *children, facts=facts, sub=sub, text=text)


def kept():
    return of(IDENTIFIER)


def dropped():
    return of(IDENTIFIER, facts=NO_SYMBOL)


def symbol():
    """What waits in a template."""
    return of(IDENTIFIER, facts=0)


def string():
    """A flagged string, which the fold does not empty."""
    return of(IDENTIFIER, facts=FLAG + STRING)


def literal():
    return Node(LITERAL)


def spread(child, facts=FLAG):
    return of(SPREAD, child, facts=facts)


def prop(*children):
    return of(PROPERTY, *children, facts=0, sub=len(children) - 1)


def element(sub, *children):
    return of(ELEMENT, *children, facts=0, sub=sub)


def template(*children, text=1):
    return of(TEMPLATE, *children, text=text)


def addition(left, right, facts=FLAG + NO_SYMBOL):
    return of(BINARY, left, right, facts=facts, sub=ADDITION)


def comparison(left, right):
    return of(BINARY, left, right, sub=COMPARISON)


def conditional(test, consequent, alternate):
    return of(CONDITIONAL, test, consequent, alternate)


def pure(kind, *arguments):
    return of(kind, kept(), *arguments, facts=FLAG + NO_SYMBOL + LISTED)


def records(node):
    return 1 + sum(map(records, node.children))


def depth(node):
    return 1 + max(map(depth, node.children), default=0)


def some(room, *makers):
    """As many as there is room for, of each maker in turn."""
    nodes = []
    for make in itertools.cycle(makers):
        node = make()
        room -= records(node)
        if room < 0:
            return nodes
        nodes.append(node)


# ---- Each kind of list, of so many records at most

LISTS = {
    "array, kept": lambda room: of(ARRAY, *some(room - 1, kept)),
    "array, dropped": lambda room: of(ARRAY, *some(room - 1, dropped)),
    "array, elisions, one kept": lambda room: of(ARRAY, *some(room - 2, lambda: Node(ELISION)), kept()),
    "array, spreads": lambda room: of(ARRAY, *some(room - 1, lambda: spread(kept()))),
    "array, clear spreads, one kept": lambda room: of(ARRAY, *some(room - 2, lambda: spread(kept(), 0)), kept()),
    "array, spreads and kept in turn": lambda room: of(ARRAY, *some(room - 1, lambda: spread(kept()), kept)),
    "object, values": lambda room: of(OBJECT, *some(room - 1, lambda: prop(kept()))),
    "object, keys and values": lambda room: of(OBJECT, *some(room - 1, lambda: prop(kept(), kept()))),
    "object, dropped values": lambda room: of(OBJECT, *some(room - 1, lambda: prop(dropped()))),
    "object, spreads": lambda room: of(OBJECT, *some(room - 1, lambda: spread(kept()))),
    "object, clear spreads": lambda room: of(OBJECT, *some(room - 1, lambda: spread(kept(), 0))),
    "object, spreads and values in turn": lambda room: of(OBJECT, *some(room - 1, lambda: spread(kept()), lambda: prop(kept()))),
    "object, spreads, one value": lambda room: of(OBJECT, *some(room - 3, lambda: spread(kept(), 0)), prop(kept())),
    "object, one value, spreads": lambda room: of(OBJECT, prop(kept()), *some(room - 3, lambda: spread(kept(), 0))),
    "template, unchanged": lambda room: template(*some(room - 1, symbol), text=0),
    "template, symbols": lambda room: template(*some(room - 1, symbol)),
    "template, kept": lambda room: template(*some(room - 1, kept)),
    "template, dropped": lambda room: template(*some(room - 1, dropped)),
    "template, symbols and kept in turn": lambda room: template(*some(room - 1, symbol, kept)),
    "template, symbols and dropped in turn": lambda room: template(*some(room - 1, symbol, dropped)),
    "template, symbols, one kept": lambda room: template(*some(room - 2, symbol), kept()),
    "sequence, kept": lambda room: of(SEQUENCE, *some(room - 1, kept)),
    "sequence, dropped": lambda room: of(SEQUENCE, *some(room - 1, dropped)),
    "sequence of empty sequences": lambda room: of(SEQUENCE, *some(room - 1, lambda: of(SEQUENCE))),
    "call, impure": lambda room: of(CALL, *some(room - 1, kept)),
    "call, pure, kept": lambda room: pure(CALL, *some(room - 2, kept)),
    "call, pure, dropped": lambda room: pure(CALL, *some(room - 2, dropped)),
    "call, pure, spreads": lambda room: pure(CALL, *some(room - 2, lambda: spread(kept()))),
    "call, pure, clear spreads": lambda room: pure(CALL, *some(room - 2, lambda: spread(kept(), 0))),
    "new, impure": lambda room: of(NEW, *some(room - 1, kept)),
    "new, pure, kept": lambda room: pure(NEW, *some(room - 2, kept)),
    "new, pure, spreads and kept in turn": lambda room: pure(NEW, *some(room - 2, lambda: spread(kept()), kept)),
    "class, methods": lambda room: of(CLASS, *some(room - 1, lambda: element(METHOD))),
    "class, keys": lambda room: of(CLASS, *some(room - 1, lambda: element(METHOD + KEY, kept()))),
    "class, static values": lambda room: of(CLASS, *some(room - 1, lambda: element(FIELD + STATIC + VALUE, dropped()))),
    "class, keys and static values": lambda room: of(
        CLASS, *some(room - 1, lambda: element(ACCESSOR + STATIC + KEY + VALUE, kept(), dropped()))),
    "class, one that keeps it at the end": lambda room: of(
        CLASS, *some(room - 2, lambda: element(METHOD)), element(INDEX_SIGNATURE)),
    "class, blocks": lambda room: of(CLASS, *some(room - 1, lambda: element(BLOCK + NONEMPTY))),
    "comparison of two sequences": lambda room: comparison(
        of(SEQUENCE, *some((room - 3) // 2, kept)), of(SEQUENCE, *some((room - 3) // 2, kept))),
    "comparison, a sequence on the right": lambda room: comparison(kept(), of(SEQUENCE, *some(room - 3, kept))),
    "addition, an array on the right": lambda room: addition(string(), of(ARRAY, *some(room - 3, kept))),
    "conditional of arrays": lambda room: conditional(*[of(ARRAY, *some((room - 4) // 3, kept)) for _ in range(3)]),
    "conditionals, the consequents dropped": lambda room: of(
        SEQUENCE, *some(room - 1, lambda: conditional(kept(), dropped(), kept()))),
}

# ---- Each way down

STEPS = {
    "void": lambda inner: of(UNARY, inner, sub=VOID),
    "not": lambda inner: of(UNARY, inner, sub=NOT),
    "typeof": lambda inner: of(UNARY, inner, sub=TYPEOF),
    "other unary": lambda inner: of(UNARY, inner, sub=OTHER_UNARY),
    "left of a comparison": lambda inner: comparison(inner, kept()),
    "right of a comparison": lambda inner: comparison(kept(), inner),
    "right of a comparison, the left dropped": lambda inner: comparison(dropped(), inner),
    "left of an addition": lambda inner: addition(inner, kept()),
    "left of an addition, its symbol fact unknown": lambda inner: addition(inner, kept(), FLAG),
    "left of an addition, the right a string": lambda inner: addition(inner, literal()),
    "left of an addition, the right dropped": lambda inner: addition(inner, dropped()),
    "right of an addition": lambda inner: addition(string(), inner),
    "right of a clear addition": lambda inner: addition(kept(), inner, NO_SYMBOL),
    "array": lambda inner: of(ARRAY, inner),
    "array, a sibling before": lambda inner: of(ARRAY, kept(), inner),
    "array that stays": lambda inner: of(ARRAY, spread(kept()), inner),
    "spread": lambda inner: of(ARRAY, spread(inner)),
    "sequence": lambda inner: of(SEQUENCE, inner),
    "sequence, siblings on both sides": lambda inner: of(SEQUENCE, kept(), inner, kept()),
    "template": lambda inner: template(inner),
    "template, symbols on both sides": lambda inner: template(symbol(), inner, symbol()),
    "symbol in a template": lambda inner: template(of(ARRAY, inner, facts=0), kept()),
    "value of a property": lambda inner: of(OBJECT, prop(inner)),
    "key of a property": lambda inner: of(OBJECT, prop(inner, kept())),
    "value, spreads on both sides": lambda inner: of(OBJECT, spread(kept()), prop(inner), spread(kept())),
    "callee": lambda inner: of(CALL, inner),
    "argument": lambda inner: of(CALL, kept(), inner),
    "argument of a pure call": lambda inner: pure(CALL, inner),
    "argument of a pure new, siblings on both sides": lambda inner: pure(NEW, kept(), inner, kept()),
    "spread in a pure call": lambda inner: pure(CALL, spread(inner)),
    "heritage": lambda inner: of(CLASS, inner, sub=HERITAGE),
    "key of an element": lambda inner: of(CLASS, element(METHOD + KEY, inner)),
    "static value": lambda inner: of(CLASS, element(FIELD + STATIC + VALUE, inner)),
    "test": lambda inner: conditional(inner, kept(), dropped()),
    "test, both arms dropped": lambda inner: conditional(inner, dropped(), dropped()),
    "consequent": lambda inner: conditional(kept(), inner, kept()),
    "consequent, the alternate dropped": lambda inner: conditional(kept(), inner, dropped()),
    "alternate, the consequent dropped": lambda inner: conditional(kept(), dropped(), inner),
}


def under(step, levels, inner):
    """The node at the end of the way, with at most so many levels above it. What stands beside the way may
    reach deeper than its end."""
    deep = of(ARRAY, of(ARRAY, of(ARRAY, kept())))
    each = depth(step(deep)) - depth(deep)
    beside = depth(step(kept())) - 1 - each
    for _ in range((levels - beside) // each):
        inner = step(inner)
    return inner


def with_siblings(step):
    """At each level of the way a sequence with as many siblings as the records allow."""
    def way(each):
        return under(lambda inner: of(SEQUENCE, *some(each, kept), step(inner)), MOST_DEPTH - 1, kept())

    without = records(way(0))
    levels = (without - 1) // records(step(kept()))
    return way((MOST_RECORDS - without) // levels)


def ways():
    for name, step in STEPS.items():
        yield f"{name}, to the end", under(step, MOST_DEPTH - 1, kept())
        yield f"{name}, a string at the end", under(step, MOST_DEPTH - 1, string())
        yield f"{name}, a literal at the end", under(step, MOST_DEPTH - 1, literal())
        for list_name, siblings in LISTS.items():
            levels = MOST_DEPTH - depth(siblings(20))
            above = records(under(step, levels, kept())) - 1
            yield f"{name}, then {list_name}", under(step, levels, siblings(MOST_RECORDS - above))
        yield f"{name}, siblings at each level", with_siblings(step)
        for half in (1, MOST_DEPTH // 2, MOST_DEPTH - 3):
            heritage = under(STEPS["sequence"], half - 1, of(ARROW))
            yield (f"{name}, then a heritage of {half} levels",
                   under(step, MOST_DEPTH - 1 - half, of(CLASS, heritage, sub=HERITAGE)))
            additions = under(STEPS["left of an addition, its symbol fact unknown"], half, string())
            yield f"{name}, then a template of {half} additions", under(step, MOST_DEPTH - 2 - half, template(additions))


# ---- Answers that are longer or deeper than the tree, by hand: a function each from the tree


def made(kind, place, *children, sub=0):
    """A made node: all that is known of it is whether a child is flagged."""
    flagged = any(child.facts & FLAG for child in children)
    return Node(kind, *children, facts=FLAG if flagged else 0, sub=sub, place=place)


def made_template(place, waiting):
    return Node(TEMPLATE, waiting, facts=FLAG, place=place)


def of_templates(tree):
    """Of a template of symbols, with kept ones or such templates between them: each symbol makes a template."""
    if tree.kind != TEMPLATE:
        return tree
    children = []
    for waiting, between in zip(tree.children[0::2], tree.children[1::2]):
        answer = of_templates(between)
        children += [made_template(answer.place, waiting), answer]
    return made(SEQUENCE, tree.place, *children, made_template(tree.place, tree.children[-1]))


def of_spreads(call):
    """Of a pure call of flagged spreads: each is made an array."""
    return made(SEQUENCE, call.place, *[made(ARRAY, child.place, child) for child in call.children[1:]])


def of_symbol_first(tree):
    """Of a template of a symbol, which is the deepest, and kept ones: what waits comes to stand a level deeper."""
    waiting, first, *others = tree.children
    answer = made(SEQUENCE, tree.place, made_template(first.place, waiting), first, *others)
    assert depth(answer) == depth(tree) + 1
    return answer


def of_arms(tree):
    """Of conditionals in an arm of which the other is dropped: each is made an and, or an or, of its test as it stands."""
    if tree.kind != CONDITIONAL:
        return tree
    test, consequent, alternate = tree.children
    if consequent.facts & FLAG:
        return made(LOGICAL, tree.place, test, of_arms(consequent), sub=AND)
    return made(LOGICAL, tree.place, test, of_arms(alternate), sub=OR)


def arms():
    """About as many records and levels as are taken: ands and ors in turn, with tests as large as there is room for."""
    levels = MOST_DEPTH - 2  # an array as test has a level more
    each = (MOST_RECORDS - 1) // levels - 2
    inner = kept()
    for level in range(levels):
        test = of(ARRAY, *some(each - 1, kept))
        inner = conditional(test, inner, dropped()) if level % 2 else conditional(test, dropped(), inner)
    return inner


def grown(count):
    """So many records, of which as many are made as a search has found: chains of templates in a template, a
    symbol before the first, between two and after the last."""
    longest = MOST_DEPTH - 2
    for chains in itertools.count(1):
        templates, rest = divmod(count - 2 - 2 * chains, 3)
        if rest == 0 and templates <= longest * chains:
            break
    children = [symbol()]
    for _ in range(chains):
        levels = min(templates, longest)
        templates -= levels
        children += [under(STEPS["template, symbols on both sides"], levels, kept()), symbol()]
    return template(*children)


def deepest():
    """As many records and levels as are taken, and an answer that is one deeper."""
    waiting = of(ARRAY, under(STEPS["void"], MOST_DEPTH - 3, kept()), facts=0)
    return template(waiting, *some(MOST_RECORDS - 1 - records(waiting), kept))


def by_hand():
    for count in (4, 7, 32, 33, 256, 257, MOST_RECORDS):
        yield f"templates in templates, {count} records", grown(count), of_templates
    yield "symbols and kept in turn", template(*some(MOST_RECORDS - 2, symbol, kept), symbol()), of_templates
    yield "spreads in a pure call", LISTS["call, pure, spreads"](MOST_RECORDS), of_spreads
    yield "an answer of 65 levels", deepest(), of_symbol_first
    yield "ands and ors within each other", arms(), of_arms


# ---- The files


def numbered(root):
    """Gives each record a place of its own, whose end is no other's start."""
    places = itertools.count(1)

    def number(node):
        start = next(places)
        node.place = start, MOST_RECORDS + start
        for child in node.children:
            number(child)

    number(root)
    return root


def trees():
    """Name, tree and, where it is written by hand, how the answer is got from the tree."""
    yield from by_hand()
    for name, siblings in LISTS.items():
        yield name, siblings(MOST_RECORDS), None
    for name, root in ways():
        yield name, root, None


def file_of(name, root, version=1):
    data = tree_file(numbered(root), version=version)
    if u16(data, COUNT) > MOST_RECORDS or depth(root) > MOST_DEPTH:
        sys.exit(f"worst.py: {name}: {u16(data, COUNT)} records, {depth(root)} levels")
    return data


def line_of(answer):
    """What is printed of an answer."""
    data = tree_file(answer)
    fnv = 0xcbf29ce484222325
    for byte in data:
        fnv = (fnv ^ byte) * 0x100000001b3 % 2 ** 64
    return f"0 {len(data)} {fnv:016x}"


def check(lines):
    """Stops at the first line that is refused, or is not the one by hand."""
    names = 0
    for name, root, answer in trees():
        line = next(lines, "nothing").rstrip("\n")
        by_hand = line_of(answer(numbered(root))) if answer else line
        if line != by_hand or not line.startswith("0 "):
            sys.exit(f"worst.py: {name}: printed is {line}, and by hand it is {by_hand}")
        names += 1
    if next(lines, None) is not None:
        sys.exit(f"worst.py: lines after the last of {names} files")


def main(words):
    if words == ["files"]:
        framed((file_of(name, root) for name, root, _ in trees()), sys.stdout.buffer)
    elif words == ["check"]:
        check(sys.stdin)
    elif words == ["names"]:
        for name, root, _ in trees():
            print(f"{name}: {records(root)} records, {depth(root)} levels")
    else:
        sys.exit("usage: worst.py files | check | names")


if __name__ == "__main__":
    main(sys.argv[1:])
