#!/usr/bin/env python3
"""The test of explain.py; explanations.py is the other one.

  explained.py check               that docs/FORMAT.md says what is quoted of it; the files of the program `edges`, by the
                                   answers that it prints too; those of programs.py; files with one byte changed; and the
                                   deepest file
  explained.py damaged < FRAMES    what `driver damaged` writes, of at least 100,000 files

The number has to be that of the proved check, which is asked through the Python module, so the shared library must be built.
Where a record was damaged it has to be named: first, or as the one that the first stands in.
"""

import collections
import pathlib
import re
import sys

import explanations
import programs
from edges import STRING, SYMBOL
from explain import explanation
from reader import (ADDITION, BINARY, FIELDS, IDENTIFIER, LIST_EFFECTS, LITERAL, REDUCE, UNARY, VERSION, Limits, answer, fault,
                    u16)
from sentences import MEANS, ROWS, RULES

ROOT = pathlib.Path(__file__).resolve().parent.parent
sys.path.insert(0, str(ROOT / "python"))
import uxt  # noqa: E402

LEAST_DAMAGED = 100_000
NO_RECORD = 65535
RECORDS = (5, 6, 7, 17)  # the numbers for which a record is damaged
NUMBER = re.compile(r"refused ([1-8]|17)\n|accepted: ")
NAMED = re.compile(r"^(?:in )?record (\d+): ", re.M)


def require(held, what):
    if not held:
        sys.exit(f"explained.py: {what}")


def explained(data, limits=REDUCE):
    """What the text says: the number, 0 for none, and the records that it names."""
    number, text = explanation(data, limits)
    said = int(NUMBER.match(text)[1] or 0)
    require(number == said, f"the number is {number}, and in the text {said}")
    if limits == REDUCE:
        require(number == checked(data), f"the number is {number}, and the check's {checked(data)}: {data[:200].hex()}")
    return number, [int(record) for record in NAMED.findall(text)]


def checked(data):
    """The number of the proved check, 0 for none."""
    try:
        uxt.check(data)
    except uxt.Refused as refused:
        return refused.number
    return 0


# ---- What is quoted


def check_sentences():
    page = (ROOT / "docs/FORMAT.md").read_text(encoding="utf-8").split("\n")
    for row in (*[f"{number} | {means}" for number, means in MEANS.items()], *ROWS.values()):
        require(f"| {row} |" in page, f"docs/FORMAT.md has no row: {row}")
    for rule in RULES.values():
        require(any(rule in line for line in page), f"docs/FORMAT.md does not say: {rule}")


def check_all_quoted():
    """A sentence that no file breaks would be one too many."""
    files = [data for data, *_ in stored()] + [data for _, data in explanations.FILES]
    found = [fault(data, limits) for data in files for limits in (REDUCE, LIST_EFFECTS)]
    quoted = {each.rule for each in found if each}
    missing = {*RULES.values(), *ROWS.values()} - quoted
    require(not missing, f"no file breaks {missing}")


# ---- The files of the program `edges`, whose stored answers are the check's


def stored():
    """The files, each with its answers under Reduce's limits and under List effects'."""
    frames = (ROOT / "crates/edges/stdin").read_bytes()
    at = 0
    for line in (ROOT / "crates/edges/stdout").read_text().splitlines():
        end = at + 2 + int.from_bytes(frames[at:at + 2], "little")
        yield frames[at + 2:end], *line.split()
        at = end
    require(at == len(frames), "crates/edges has not as many lines as files")


def check_stored():
    for i, (data, *answers) in enumerate(stored()):
        due = [0 if "/" in answer else int(answer) for answer in answers]
        numbers = [explained(data, limits)[0] for limits in (REDUCE, LIST_EFFECTS)]
        require(numbers == due, f"file {i} of crates/edges/stdin gets {numbers}, and {due} is due")


# ---- Files with one byte changed: the record of the byte is named


def changed(data):
    """Each byte of the file behind the header, with each value: the file, and the record that was changed."""
    width = FIELDS[u16(data, VERSION)].size
    for at in range(8, len(data)):
        for value in range(256):
            yield data[:at] + bytes([value]) + data[at + 1:], (at - 8) // width


def check_changed(data):
    for file, record in changed(data):
        number, records = explained(file)
        require(number == 0 or record in records, f"record {record} was changed, and {records} are named: {file.hex()}")


# ---- As many records as a file can count, each under the one before, or each addition

COUNTED = 65535
HEADER = b"UXT\1\0\0" + COUNTED.to_bytes(2, "little")


def packed(kind, facts, sub, children, size):
    return FIELDS[1].pack(kind, facts, sub, 0, children, size, 0)


def check_deep():
    unaries = b"".join(packed(UNARY, 0, 1, 1, size) for size in range(COUNTED, 1, -1))
    data = HEADER + unaries + packed(IDENTIFIER, 0, 0, 0, 1)
    require(answer(data, Limits(COUNTED, COUNTED, False)) == f"0/{COUNTED}", f"depth {COUNTED} is refused")
    require(fault(data, Limits(COUNTED, COUNTED - 1, False)).record == COUNTED - 1, "the last record is not named for its depth")


def check_deep_additions():
    """The outmost is recorded as a symbol, and the left side of the inmost is a string."""
    sizes = range(COUNTED, 1, -2)
    additions = b"".join(packed(BINARY, SYMBOL if size == COUNTED else 0, ADDITION, 2, size) for size in sizes)
    leaves = packed(LITERAL, STRING, 0, 0, 1) + packed(IDENTIFIER, 0, 0, 0, 1) * len(sizes)
    found = fault(HEADER + additions + leaves, Limits(COUNTED, REDUCE.depth, False))
    require((found.number, found.record) == (5, 0), f"the symbol among {len(sizes)} additions is not named")


# ---- The files of programs.py


def check_programs():
    sys.setrecursionlimit(10_000)  # as edges.py
    for _, data in programs.files():
        explained(data)


# ---- Damaged files


def frames(data):
    """Of each file: its bytes, the number that is due, how many faults it has, and the damaged record."""
    at = 0
    while at < len(data):
        start = at + 6
        end = start + int.from_bytes(data[at:at + 2], "little")
        yield data[start:end], data[at + 2], data[at + 3], int.from_bytes(data[at + 4:start], "little")
        at = end


def check_damaged(data):
    numbers, single, damaged, first = dict.fromkeys([0, *MEANS], 0), 0, collections.Counter(), collections.Counter()
    for i, (file, due, faults, record) in enumerate(frames(data)):
        number, records = explained(file)
        require(number == due, f"file {i} gets {number}, and {due} is due")
        numbers[number] += 1
        single += faults == 1
        require((faults > 0, record != NO_RECORD) == (due > 0, due in RECORDS),
                f"file {i} is refused by {due}, with {faults} faults and record {record}")
        if record != NO_RECORD:
            require(record in records, f"file {i}: record {record} was damaged, and {records} are named")
            damaged[faults] += 1
            first[faults] += records[0] == record
    files, accepted = sum(numbers.values()), numbers.pop(0)
    require(files >= LEAST_DAMAGED, f"{files} files are too few")
    require(accepted and all(numbers.values()), f"a number is missing: {accepted} accepted, {numbers}")
    print(f"{files} files: {accepted} accepted, refused by number {numbers}")
    print(f"{single} have a single fault, {damaged[1]} of them in a record: it is named in all, first in {first[1]}")
    print(f"{damaged[2]} have two faults and are refused for one in a record: it is named in all, first in {first[2]}")


# ---- The modes


def main(words):
    if words == ["check"]:
        check_sentences()
        check_all_quoted()
        check_stored()
        check_programs()
        check_deep()
        check_deep_additions()
        for name in ("columns", "class", "conditional", "addition", "spans"):
            check_changed((ROOT / f"examples/{name}.uxt").read_bytes())
    elif words == ["damaged"]:
        check_damaged(sys.stdin.buffer.read())
    else:
        sys.exit(__doc__)


if __name__ == "__main__":
    main(sys.argv[1:])
