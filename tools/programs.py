#!/usr/bin/env python3
"""Tree files for the programs `columns` and `reduce`, which read the first 32,009 bytes and the first 40,009.

  programs.py files    the files, each behind its length in bytes (two bytes, little-endian)
  programs.py names    a line for each file: what it is

The examples; the cases of listings.py and reductions.py, which are the stored input of the programs
`listings` and `reductions`; four files with single bytes changed; files of as many records as a program
takes, and one more; and files about as long as a program reads, and longer. `driver programs` of
differential/ has the answers, and names a file by its number here.
"""

import sys

import listings
import reductions
import worst
from edges import (KIND, LOGICAL, REDUCE, SETTINGS, SIZE, TEMPLATE, VERSION, ZERO, Cases, changed_bytes, example_files, flat,
                   of, plus, tree_file, with_byte, with_ends, with_u16)
from listings import LAST_PLACE, framed, node, sequence, x
from reader import COLUMNS_RECORDS

MOST_RECORDS = REDUCE.records
READ_BY_COLUMNS, READ_BY_REDUCE = (of(MOST_RECORDS, 1, version) for version in (1, 2))  # how many bytes
MOST_FRAMED = 65535


def stored():
    for path in example_files():
        yield path.name, path.read_bytes()
    for script in (listings, reductions):
        for name, data, *_ in script.all_cases():
            yield f"{script.__name__}: {name}", data
    for name, root, _ in worst.by_hand():
        for version in (1, 2):
            yield f"worst: {name}, version {version}", worst.file_of(name, root, version)


def changed():
    cases = Cases()
    changed_bytes(cases)
    for name, data, *_ in cases.cases:
        yield name, data


def all_kept(version, count):
    return tree_file(sequence(0, *[x((place, MOST_RECORDS + place)) for place in range(1, count)]), version=version)


def broken_headers(name, data):
    yield f"{name}, mark wrong", b"uxt" + data[3:]
    yield f"{name}, version 3", with_u16(data, VERSION, 3)
    yield f"{name}, settings 8", with_byte(data, SETTINGS, 8)


def most_records():
    """As many as both programs take, or `reduce` alone, and with faults."""
    for version, count in ((1, MOST_RECORDS), (2, COLUMNS_RECORDS), (2, COLUMNS_RECORDS + 1), (2, MOST_RECORDS)):
        name, last, kept = f"version {version}, {count} records", count - 1, all_kept(version, count)
        yield f"{name}, all kept", kept
        yield f"{name}, none kept", flat(count, version)
        yield f"{name}, the longest text", tree_file(node(TEMPLATE, 0, *[x(LAST_PLACE)] * last), version=version)
        yield f"{name}, 5 at the last", with_byte(kept, of(last, ZERO, version), 1)
        yield f"{name}, 6 at the last", with_byte(kept, of(last, KIND, version), LOGICAL)
        yield f"{name}, 7 at the last", plus(kept, of(last, SIZE, version), 1)
        if version == 2:
            yield f"{name}, 17 at the last", with_ends(kept, last, 1, 0)
        yield f"{name}, one byte short", kept[:-1]
        yield from broken_headers(name, kept)
    for version, count in ((1, MOST_RECORDS + 1), (1, 3999), (2, MOST_RECORDS + 1)):
        yield f"version {version}, {count} records", flat(count, version)


def long():
    """Files with more behind them than is read."""
    for version, count in ((1, MOST_RECORDS), (2, COLUMNS_RECORDS), (2, MOST_RECORDS)):
        kept = all_kept(version, count)
        for length in (READ_BY_COLUMNS, READ_BY_COLUMNS + 1, READ_BY_REDUCE, READ_BY_REDUCE + 1, MOST_FRAMED):
            if length > len(kept):
                name, more = f"version {version}, {count} records, {length} bytes", kept.ljust(length, b"\0")
                yield name, more
                yield from broken_headers(name, more)
    yield "nothing", b""
    yield "zeros", bytes(READ_BY_REDUCE)


def files():
    for group in (stored, changed, most_records, long):
        yield from group()


def main(words):
    sys.setrecursionlimit(10_000)  # as edges.py
    if words == ["files"]:
        framed((data for _, data in files()), sys.stdout.buffer)
    elif words == ["names"]:
        for name, _ in files():
            print(name)
    else:
        sys.exit("usage: programs.py files | names")


if __name__ == "__main__":
    main(sys.argv[1:])
