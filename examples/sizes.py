#!/usr/bin/env python3
"""What sizes.c does, from Python: prints how many bytes, records and effects the tree file of standard input has, and how many
are left.

Usage: sizes.py < FILE
       sizes.py FILE..    many files, by eight threads; before the sizes of each stands its name
"""

import pathlib
import sys
from concurrent.futures import ThreadPoolExecutor

sys.path.insert(0, str(pathlib.Path(__file__).resolve().parent.parent / "python"))
import uxt


def size(tree):
    records = int.from_bytes(tree[6:8], "little")
    return f"{len(tree)} bytes, {records} records, {len(uxt.list_effects(tree))} effects"


def sizes(file):
    try:
        left = uxt.reduce(file)
    except uxt.Refused as refused:
        return f"refused {refused.number}"
    return f"before: {size(file)}\nafter: {size(left) if left else 'removable'}"


def main(names):
    if not names:
        print(sizes(sys.stdin.buffer.read()))
        return
    with ThreadPoolExecutor(8) as threads:
        texts = threads.map(lambda name: sizes(pathlib.Path(name).read_bytes()), names)
        for name, text in zip(names, texts):
            print(f"{name}\n{text}")


main(sys.argv[1:])
