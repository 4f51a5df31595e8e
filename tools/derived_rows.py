#!/usr/bin/env python3
"""The rows of the Derived question: `cases` writes the standard input of the program derived_rows, `expected` what it must print.

A case is its scopes and then its ancestors, each list a byte for its length and then its bytes.
The answers are those of the scope document's words, said here a second time and apart from the proved code.
"""
import itertools
import sys

BLOCK, ARROW, CONSTRUCTOR = 1, 2, 4
OTHER, VALUE, METHOD, CLASS, DERIVED_CLASS = range(5)

# Each line: what it tries, scopes, ancestors.
PICKED = [
    ("no lists", [], []),
    ("no scope decides", [BLOCK, ARROW], [METHOD, DERIVED_CLASS]),
    ("a function scope decides", [0, CONSTRUCTOR], [METHOD, DERIVED_CLASS]),
    ("a block is skipped", [BLOCK, CONSTRUCTOR], [METHOD, DERIVED_CLASS]),
    ("an arrow is skipped", [ARROW, CONSTRUCTOR], [METHOD, DERIVED_CLASS]),
    ("block wins over constructor", [BLOCK | CONSTRUCTOR, 0], [METHOD, DERIVED_CLASS]),
    ("arrow wins over constructor", [ARROW | CONSTRUCTOR, 0], [METHOD, DERIVED_CLASS]),
    ("a constructor of a derived class", [CONSTRUCTOR], [OTHER, METHOD, OTHER, DERIVED_CLASS]),
    ("a constructor of another class", [CONSTRUCTOR], [OTHER, METHOD, OTHER, CLASS]),
    ("no ancestors", [CONSTRUCTOR], []),
    ("no constructor method", [CONSTRUCTOR], [OTHER, DERIVED_CLASS, CLASS]),
    ("no class body after the method", [CONSTRUCTOR], [DERIVED_CLASS, METHOD, OTHER]),
    ("a nested class is passed over", [CONSTRUCTOR], [CLASS, METHOD, DERIVED_CLASS]),
    ("a nested derived class is passed over", [CONSTRUCTOR], [DERIVED_CLASS, METHOD, CLASS]),
    ("the next class body answers", [CONSTRUCTOR], [METHOD, CLASS, DERIVED_CLASS]),
    ("the next derived class body answers", [CONSTRUCTOR], [METHOD, DERIVED_CLASS, CLASS]),
    ("a field value before the method", [CONSTRUCTOR], [VALUE, METHOD, DERIVED_CLASS]),
    ("a field value after the method", [CONSTRUCTOR], [METHOD, VALUE, DERIVED_CLASS]),
    ("a field value after the class body", [CONSTRUCTOR], [METHOD, DERIVED_CLASS, VALUE]),
    ("a second constructor method", [CONSTRUCTOR], [METHOD, METHOD, DERIVED_CLASS]),
    ("every scope bit", [7], [METHOD, DERIVED_CLASS]),
    ("a scope byte of 8", [8], [METHOD, DERIVED_CLASS]),
    ("a scope byte of 255", [255], []),
    ("a scope byte after the scope that decides", [0, 8], []),
    ("the last of many scope bytes", [BLOCK] * 254 + [8], [METHOD, DERIVED_CLASS]),
    ("an ancestor byte of 5", [CONSTRUCTOR], [5]),
    ("an ancestor byte of 255", [CONSTRUCTOR], [255]),
    ("an ancestor byte after the class body that answers", [CONSTRUCTOR], [METHOD, DERIVED_CLASS, 5]),
    ("an ancestor byte where the scopes decide", [0], [5]),
    ("an ancestor byte where no scope decides", [], [5]),
    ("the last of many ancestor bytes", [CONSTRUCTOR], [OTHER] * 254 + [5]),
    ("both", [8], [5]),
    ("both, each last", [0, 255], [METHOD, CLASS, 255]),
    ("a long walk", [ARROW] * 254 + [CONSTRUCTOR], [CLASS] * 253 + [METHOD, DERIVED_CLASS]),
]


def lists(values, longest):
    for length in range(longest + 1):
        yield from itertools.product(values, repeat=length)


def cases():
    for _, scopes, ancestors in PICKED:
        yield scopes, ancestors
    yield from itertools.product(lists(range(8), 2), list(lists(range(5), 3)))


def answer(scopes, ancestors):
    if max(scopes, default=0) > 7:
        return "refused 11"
    if max(ancestors, default=0) > 4:
        return "refused 12"
    others = [scope for scope in scopes if not scope & (BLOCK | ARROW)]
    if not others or not others[0] & CONSTRUCTOR:
        return "no"
    # What counts is what stands before the first field or accessor value, and there after the first constructor method.
    before = list(itertools.takewhile(lambda ancestor: ancestor != VALUE, ancestors))
    after = itertools.dropwhile(lambda ancestor: ancestor != METHOD, before)
    bodies = [ancestor for ancestor in after if ancestor in (CLASS, DERIVED_CLASS)]
    return "yes" if bodies and bodies[0] == DERIVED_CLASS else "no"


def main():
    mode = sys.argv[1:]
    if mode == ["cases"]:
        for scopes, ancestors in cases():
            sys.stdout.buffer.write(bytes([len(scopes), *scopes, len(ancestors), *ancestors]))
    elif mode == ["expected"]:
        for scopes, ancestors in cases():
            print(answer(scopes, ancestors))
    else:
        sys.exit("usage: derived_rows.py cases | expected")


main()
