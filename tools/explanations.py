#!/usr/bin/env python3
"""Prints what explain.py says of small files, of each number and each sort of fault; explanations.txt has it by hand."""

import sys

from edges import (ARRAY, ASSIGNMENT, CALL, CHILDREN, CLASS, CONDITIONAL, COUNT, ELEMENT, ELISION, EXAMPLES, FACTS, IDENTIFIER,
                   KIND, LITERAL, NULLISH, SEQUENCE, SETTINGS, SIZE, SPREAD, SUB, SYMBOL, TEMPLATE, UNARY, VERSION, ZERO, Node,
                   chain, conditional, flat, identifier, logical, of, plus, sum_of, symbol_and_string, tree_file, with_byte,
                   with_ends, with_string, with_u16)
from explain import explanation

COLUMNS, ELEMENTS, SPANS = EXAMPLES["columns"], EXAMPLES["class"], EXAMPLES["spans"]
FOUR_FAULTS = COLUMNS[:of(3, FACTS)] + b"\xff\xff\xff" + with_byte(COLUMNS, of(4, ZERO), 1)[of(3, CHILDREN):]
NO_TREE = plus(COLUMNS, of(0, CHILDREN), 1)  # by its child counts

FILES = (
    ("a file that is accepted", COLUMNS),
    ("a file of version 2", SPANS),
    ("an identifier, all settings on", tree_file(identifier(), settings=7)),
    ("version 2, 1,500 records", flat(1500, 2)),
    ("version 2, 1,501 records", flat(1501, 2)),
    ("1: five bytes", COLUMNS[:5]),
    ("1: the mark is UXS", with_byte(COLUMNS, 2, ord("S"))),
    ("2: version 256", with_u16(COLUMNS, VERSION, 256)),
    ("2: version 3", with_u16(SPANS, VERSION, 3)),
    ("3: settings 41", with_byte(COLUMNS, SETTINGS, 41)),
    ("4: count 0", with_u16(COLUMNS, COUNT, 0)),
    ("4: 2,001 records", flat(2001)),
    ("4: a byte too many", COLUMNS + b"\0"),
    ("4: version 2, 2,001 records", flat(2001, 2)),
    ("4: version 2, a byte too few", SPANS[:-1]),
    ("4: version 1, called version 2", with_u16(COLUMNS, VERSION, 2)),
    ("5: kind 23", with_byte(COLUMNS, of(5, KIND), 23)),
    ("5: a spread with a symbol fact", with_byte(COLUMNS, of(4, FACTS), 3)),
    ("5: symbol no and yes", with_byte(COLUMNS, of(1, FACTS), 14)),
    ("5: a string, perhaps a symbol", with_byte(COLUMNS, of(0, FACTS), 17)),
    ("5: a string literal, flagged", tree_file(Node(LITERAL, facts=19))),
    ("5: typeof, a symbol", tree_file(Node(UNARY, identifier(), facts=SYMBOL, sub=3))),
    ("5: '' + a, a symbol", tree_file(symbol_and_string())),
    ("5: a symbol in each of two chains of additions, and a string part in the second alone; it is too deep",
     tree_file(chain(70, inner=lambda: Node(SEQUENCE, sum_of(with_string(4, 3), 1), sum_of(with_string(4, 2), 3))))),
    ("5: a call with a sub", with_byte(COLUMNS, of(2, SUB), 1)),
    ("5: a unary without a sub", tree_file(Node(UNARY, identifier(), sub=0))),
    ("5: a logical of sub 3", tree_file(logical(sub=3))),
    ("5: an element of form 6", with_byte(ELEMENTS, of(2, SUB), 22)),
    ("5: a static block with bit 3", with_byte(ELEMENTS, of(7, SUB), 12)),
    ("5: a method with a value", with_byte(ELEMENTS, of(2, SUB), 81)),
    ("5: byte 3", with_byte(COLUMNS, of(3, ZERO), 255)),
    ("5: version 2, byte 3", with_byte(SPANS, of(3, ZERO, 2), 255)),
    ("5: version 2, byte 3 of the last of 1,501 records", with_byte(flat(1501, 2), of(1500, ZERO, 2), 1)),
    ("5: byte 3 of two records, and in the first one facts and sub", FOUR_FAULTS),
    ("6: a && b", EXAMPLES["logical"]),
    ("6: a ?? b", tree_file(logical(sub=NULLISH))),
    ("6: an and, beside '' + a, a symbol", tree_file(Node(SEQUENCE, logical(), symbol_and_string()))),
    ("6: two records", tree_file(Node(SEQUENCE, conditional(test=Node(ASSIGNMENT)), logical()))),
    ("7: a size, one more", EXAMPLES["broken"]),
    ("7: two sizes, one more each", plus(EXAMPLES["broken"], of(4, SIZE), 1)),
    ("7: the root's size, one less", plus(COLUMNS, of(0, SIZE), -1)),
    ("7: a child count, one more", plus(COLUMNS, of(2, CHILDREN), 1)),
    ("7: two child counts, one more each", plus(NO_TREE, of(2, CHILDREN), 1)),
    ("7: a child count and the root's size, one more each", plus(NO_TREE, of(0, SIZE), 1)),
    ("7: a child count and a size, one more each", plus(NO_TREE, of(3, SIZE), 1)),
    ("7: a child count one more, and a size 0", with_u16(NO_TREE, of(4, SIZE), 0)),
    ("7: an identifier with a child", tree_file(Node(IDENTIFIER, identifier()))),
    ("7: an elision in a sequence, and an identifier with a child",
     tree_file(Node(SEQUENCE, Node(ELISION), Node(IDENTIFIER, identifier())))),
    ("7: '' + a, a symbol, beside an elision", tree_file(Node(SEQUENCE, symbol_and_string(), Node(ELISION)))),
    ("7: a call without a callee", tree_file(Node(CALL))),
    ("7: an element without its key", tree_file(Node(CLASS, Node(ELEMENT, sub=17)))),
    ("7: a conditional of two", tree_file(Node(CONDITIONAL, identifier(), identifier()))),
    ("7: a spread as consequent", tree_file(conditional(consequent=Node(SPREAD, identifier())))),
    ("7: a spread as root", tree_file(Node(SPREAD, identifier()))),
    ("7: an elision in a call", tree_file(Node(ARRAY, Node(CALL, identifier(), Node(ELISION))))),
    ("7: an array made a template", with_byte(COLUMNS, of(0, KIND), TEMPLATE)),
    ("7: version 2, a size, one more", plus(SPANS, of(4, SIZE, 2), 1)),
    ("17: the end of a call, one before its start", with_ends(SPANS, 2, 4, 3)),
    ("17: two ends, 0", with_ends(with_ends(SPANS, 5, 12, 0), 4, 9, 0)),
    ("17: a file that is too deep", with_ends(tree_file(chain(66), version=2), 65, 2 ** 32 - 1, 0)),
    ("8: depth 65", tree_file(chain(65))),
    ("8: depth 66", tree_file(chain(66))),
    ("8: version 2, depth 65", tree_file(chain(65), version=2)),
)


def main():
    for name, data in FILES:
        sys.stdout.buffer.write(f"# {name}\n{explanation(data)[1]}\n".encode())


if __name__ == "__main__":
    main()
