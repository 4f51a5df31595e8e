#!/usr/bin/env python3
"""Holds the files of examples/exporter.py to the texts of examples/exporter.txt.

  exported.py check FOLDER    FOLDER is where exporter.py wrote them

The script was written from docs/FORMAT.md alone and the texts by hand, so that they agree shows that the page says enough.
"""

import pathlib
import re
import sys

from assemble import assemble

ROOT = pathlib.Path(__file__).resolve().parent.parent
TITLE = re.compile(r"^# (\d\d) .*\n", re.MULTILINE)
FILES = 24


def texts():
    """Each text with its number."""
    _, *parts = TITLE.split((ROOT / "examples/exporter.txt").read_text(encoding="utf-8"))
    return dict(zip(parts[::2], parts[1::2]))


def check(folder):
    expected = {f"{number}.uxt": assemble(text) for number, text in texts().items()}
    found = {path.name: path.read_bytes() for path in folder.iterdir()}
    if len(expected) != FILES or sorted(found) != sorted(expected):
        sys.exit(f"exported.py: there are {sorted(found)}, and texts for {sorted(expected)}")
    for name, data in expected.items():
        if found[name] != data:
            sys.exit(f"exported.py: {name} is not what its text says")


def main(words):
    if len(words) == 2 and words[0] == "check":
        check(pathlib.Path(words[1]))
    else:
        sys.exit(__doc__)


if __name__ == "__main__":
    main(sys.argv[1:])
