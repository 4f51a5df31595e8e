#!/usr/bin/env python3
"""The test of the program `show` and of assemble.py.

  shown.py cases            the standard input of the program (crates/show): a file that has every word
  shown.py expected         what the program must print of it
  shown.py check PROGRAM    runs the program, and assemble.py, on all that is below

The program has to print what assemble.py shows, which shares no code with it, and what is printed has
to assemble to the file. A file that is refused has to get the number of reader.py from the program, and
nothing but an explanation from assemble.py.
"""

import glob
import pathlib
import subprocess
import sys

import assemble
from edges import (AND, ARRAY, ARROW, ASSIGNMENT, BINARY, CALL, CLASS, CONDITIONAL, ELEMENT, ELISION, FUNCTION, IDENTIFIER,
                   LIST_EFFECTS, LITERAL, LOGICAL, NEW, OBJECT, OR, OTHER_LEAF, PROPERTY, SEQUENCE, SPREAD, TEMPLATE, THIS, UNARY,
                   Node, answer, chain, flat, identifier, sample, tree_file)
from explain import explanation
from listings import MOST_DEPTH, MOST_RECORDS
from reader import element_sub_fault, facts_fault

HERE = pathlib.Path(__file__).resolve().parent

# ---- The file that has every word


def every_word():
    """Each kind, with each of its subs; each byte of facts; numbers that tell their bytes apart; ten levels."""
    facts = [x for x in range(256) if not facts_fault(CALL, x)]
    numbers = [0, 1, 0x100, 0x10000, 0x1000000, 0x01020304, 2 ** 32 - 1]
    places = list(zip(numbers, numbers[1:] + numbers[-1:]))
    return Node(SEQUENCE, *[Node(kind) for kind in (LITERAL, FUNCTION, ARROW, OTHER_LEAF, THIS)],
                *[Node(IDENTIFIER, text=text, place=place) for text, place in zip(numbers, reversed(places))],
                Node(ARRAY, Node(ELISION), Node(SPREAD, identifier()), Node(SPREAD, Node(ARRAY), facts=1)),
                Node(OBJECT, *[sample(PROPERTY, sub) for sub in (0, 1)], sample(SPREAD)),
                Node(TEMPLATE, Node(LITERAL, text=1), Node(TEMPLATE), text=2),
                *[sample(UNARY, sub) for sub in (1, 2, 3, 4)], *[sample(BINARY, sub) for sub in (1, 2, 3)],
                *[sample(CALL, facts=x) for x in facts], *[sample(NEW, facts=x) for x in facts if x < 128],
                *[sample(CLASS, sub) for sub in (0, 1, 2, 3)], sample(CONDITIONAL), *[sample(LOGICAL, sub) for sub in (AND, OR)],
                Node(CLASS, *[sample(ELEMENT, sub) for sub in range(256) if not element_sub_fault(sub)]),
                chain(9), identifier())


def stored(version=1):
    return tree_file(every_word(), settings=7, version=version)


def expected(data):
    """What the program must print."""
    read = answer(data, LIST_EFFECTS)
    return assemble.show(data) if isinstance(read, str) else f"refused {read}\n"


# ---- The files


def files():
    yield from few_files()
    cases = (HERE.parent / "crates/listings/stdin").read_bytes()
    at = 0
    while at < len(cases):
        end = at + 2 + int.from_bytes(cases[at:at + 2], "little")
        yield f"the file at byte {at} of crates/listings/stdin", cases[at + 2:end]
        at = end


def few_files():
    """Those that assemble.py is run on by itself, which takes longer."""
    for name in sorted(glob.glob(f"{HERE.parent}/examples/*.uxt")):
        yield name, pathlib.Path(name).read_bytes()
    for version in (1, 2):
        yield f"every word, version {version}", stored(version)
        wide = Node(ARRAY, *[Node(IDENTIFIER, place=(0, 2 ** 32 - 1)) for _ in range(MOST_RECORDS - MOST_DEPTH + 1)])
        whole = tree_file(chain(MOST_DEPTH - 1, inner=lambda: wide), version=version)
        yield f"as many records and levels as are taken, version {version}", whole
        yield f"the longest file, and a byte more, version {version}", whole + b"\0"
        yield f"settings 8, version {version}", tree_file(identifier(), settings=8, version=version)
    yield "five bytes", whole[:5]
    yield "kind 0", tree_file(Node(0))
    yield "4,000 records of version 2", flat(MOST_RECORDS + 1, 2)


# ---- The texts

SAME = (  # texts of one file
    "uxt 1 annotations derived\ncall effect string-no annotated text 7 place 5\n  this text 0 place 0\n",
    "\n# a comment\nuxt  1 derived annotations # the settings\n\n"
    "call place 5 annotated text 007 string-no effect#\n   \n  this\n  # the end",
    "uxt 1 annotations derived\r\ncall place 5 text 7 annotated string-no effect\r\n  this\r\n",
)

SAME_2 = (
    "uxt 2\narray text 0 place 0..8\n  this text 3 place 4294967295..4294967295\n  this text 0 place 0..0\n",
    "uxt 2\narray place 00..08\n  this place 4294967295..4294967295 text 3\n  this\n",
)

REFUSED = (  # the number, and a text that it is the answer to
    (2, "uxt 0\nthis"),
    (2, "uxt 3\nthis place 7"),
    (4, "uxt 1"),
    (4, "uxt 2"),
    (5, "uxt 1\nstring"),
    (5, "uxt 1\nstring symbol-no string-yes effect"),
    (5, "uxt 1\nidentifier symbol-no symbol-yes"),
    (5, "uxt 1\nidentifier string-yes"),
    (5, "uxt 1\nnew summary-free\n  this"),
    (5, "uxt 1\nunary\n  this"),
    (5, "uxt 1\nunary not symbol-yes\n  this"),
    (5, "uxt 1\nbinary addition symbol-yes\n  this\n  string symbol-no string-yes"),
    (5, "uxt 1\nclass\n  element"),
    (5, "uxt 1\nclass\n  element block static"),
    (6, "uxt 1\nlogical\n  this\n  this"),
    (6, "uxt 1\narray\n  assignment"),
    (7, "uxt 1\nlogical and\n  this"),
    (7, "uxt 1\nbinary addition symbol-yes\n  string symbol-no string-yes"),
    (7, "uxt 1\nlogical or\n  this\n  array\n    elision\n  this"),
    (7, "uxt 1\nconditional\n  this\n  this"),
    (7, "uxt 1\nconditional\n  this\n  spread\n    this\n  this"),
    (7, "uxt 1\nthis\nthis"),
    (7, "uxt 1\nthis\n  this"),
    (7, "uxt 1\nelision"),
    (7, "uxt 1\ncall"),
    (7, "uxt 1\nclass heritage"),
    (7, "uxt 1\nobject\n  property key\n    this"),
    (7, "uxt 1\ntemplate\n  spread\n    this"),
    (8, "uxt 1\n" + "".join("  " * level + "sequence\n" for level in range(66))),
    (17, "uxt 2\nthis place 7..6"),
    (17, "uxt 2\n" + "".join("  " * level + "sequence place 1..0\n" for level in range(66))),
    (7, "uxt 2\narray\n  property place 1..0\n    this"),
)

FAULTS = (  # what is wrong, and the text
    ("line 1: the text has no first line, 'uxt' and the version", ""),
    ("line 3: the text has no first line, 'uxt' and the version", "\n# uxt 1\n"),
    ("line 1: the first line is 'uxt', the version, and the settings that are on", "this"),
    ("line 2: the first line is indented", "\n  uxt 1\nthis"),
    ("line 1: the number behind 'uxt' is missing", "uxt\nthis"),
    ("line 1: '65536' is no number from 0 to 65535", "uxt 65536\nthis"),
    ("line 1: 'effect' is no setting", "uxt 1 effect\nthis"),
    ("line 1: 'derived' comes twice", "uxt 1 derived derived\nthis"),
    ("line 2: the root is indented", "uxt 1\n  this"),
    ("line 4: more than one level deeper than the record before", "uxt 1\narray\n\n    this"),
    ("line 3: indented by an odd number of spaces", "uxt 1\narray\n   this"),
    ("line 3: indented by other than spaces", "uxt 1\narray\n\tthis"),
    ("line 2: 'literal' is no kind", "uxt 1\nliteral"),
    ("line 2: 'effect' is no kind", "uxt 1\neffect this"),
    ("line 2: 'heritage' is no word of array", "uxt 1\narray heritage"),
    ("line 2: 'plus' is no word of binary", "uxt 1\nbinary plus"),
    ("line 2: 'not' is the second word of which unary takes one", "uxt 1\nunary void not\n  this"),
    ("line 2: 'or' is the second word of which logical takes one", "uxt 1\nlogical and or\n  this\n  this"),
    ("line 2: 'and' is no word of conditional", "uxt 1\nconditional and"),
    ("line 2: 'effect' comes twice", "uxt 1\nthis effect effect"),
    ("line 2: 'place' comes twice", "uxt 1\nthis place 1 place 2"),
    ("line 2: the number behind 'text' is missing", "uxt 1\nthis text"),
    ("line 2: 'place' is no number from 0 to 4294967295", "uxt 1\nthis text place 1"),
    ("line 2: '-1' is no number from 0 to 4294967295", "uxt 1\nthis place -1"),
    ("line 2: '4294967296' is no number from 0 to 4294967295", "uxt 1\nthis place 4294967296"),
    ("line 2: '4..7' has an end, which a place of version 1 has not", "uxt 1\nthis place 4..7"),
    ("line 3: '4..7' has an end, which a place of version 3 has not", "uxt 3\narray\n  this place 4..7"),
    ("line 2: '4' has no end: a place of version 2 is START..END", "uxt 2\nthis place 4"),
    ("line 2: '' is no number from 0 to 4294967295", "uxt 2\nthis place 4.."),
    ("line 2: '' is no number from 0 to 4294967295", "uxt 2\nthis place ..7"),
    ("line 2: '.7' is no number from 0 to 4294967295", "uxt 2\nthis place 4...7"),
    ("line 2: '4294967296' is no number from 0 to 4294967295", "uxt 2\nthis place 4..4294967296"),
    ("line 2: the number behind 'place' is missing", "uxt 2\nthis place"),
    ("line 65537: a file has 65535 records at most", "uxt 1\narray\n" + 65535 * "  elision\n"),
)


# ---- The modes


def require(same, what):
    if not same:
        sys.exit(f"shown.py: {what}")


def output(*command, data):
    return subprocess.run(command, input=data, capture_output=True, check=False)


def check_file(program, name, data):
    text = expected(data)
    run = output(program, data=data)
    printed = run.stdout.decode("ascii")
    require(run.returncode == 0, f"{name}: the program ended with {run.returncode}")
    require(printed == text, f"{name}: printed is {first_difference(printed, text)}")
    if not text.startswith("refused"):
        require(assemble.assemble(text) == data, f"{name}: its text does not assemble to it")


def check_show(name, data):
    """assemble.py shows the file, or writes nothing and explains on standard error why it is refused."""
    run = output(sys.executable, f"{HERE}/assemble.py", "show", data=data)
    printed, said = run.stdout.decode(), run.stderr.decode()
    text = expected(data)
    if text.startswith("refused"):
        _, explained = explanation(data, LIST_EFFECTS)
        require(said.startswith(text), f"{name}: assemble.py says {said!r}, and the program {text!r}")
        require((run.returncode, printed, said) == (1, "", explained), f"{name}: assemble.py prints {printed!r} and {said!r}")
    else:
        require((run.returncode, printed, said) == (0, text, ""), f"{name}: assemble.py prints {printed!r} and {said!r}")


def first_difference(printed, text):
    for a, b in zip(printed.split("\n"), text.split("\n")):
        if a != b:
            return f"'{a}', and it must be '{b}'"
    return f"{len(printed)} bytes, and it must be {len(text)}"


def check_every_word():
    words = set(assemble.show(stored()).split())
    missing = [word for group in (assemble.SETTINGS, assemble.KINDS[:CONDITIONAL], assemble.FACTS, *assemble.FORMS.values(),
                                  *assemble.FLAGS.values()) for word in group if word not in words]
    require(missing == [], f"the stored file lacks {missing}")


def check_kinds():
    """What the program never prints: an assignment, and a logical of sub 0."""
    for word, kind in (("assignment", ASSIGNMENT), ("logical", LOGICAL)):
        require(assemble.assemble(f"uxt 1\n{word}") == tree_file(Node(kind)), f"'{word}' is not kind {kind}, sub 0")


def check(program):
    check_every_word()
    check_kinds()
    for name, data in files():
        check_file(program, name, data)
    for name, data in few_files():
        check_show(name, data)
    for texts in (SAME, SAME_2):
        for text in texts:
            require(assemble.show(assemble.assemble(text)) == texts[0], f"{text!r} assembles to another file")
    for number, text in REFUSED:
        require(expected(assemble.assemble(text)) == f"refused {number}\n", f"{text!r} is not refused with {number}")
        check_file(program, text, assemble.assemble(text))
        check_show(text, assemble.assemble(text))
    for fault, text in FAULTS:
        run = output(sys.executable, f"{HERE}/assemble.py", data=text.encode())
        require((run.returncode, run.stdout, run.stderr.decode()) == (1, b"", fault + "\n"), f"{fault!r} is {run.stderr!r}")


def main(words):
    if words == ["cases"]:
        sys.stdout.buffer.write(stored())
    elif words == ["expected"]:
        sys.stdout.write(expected(stored()))
    elif len(words) == 2 and words[0] == "check":
        check(words[1])
    else:
        sys.exit("usage: shown.py cases | expected | check PROGRAM")


if __name__ == "__main__":
    main(sys.argv[1:])
