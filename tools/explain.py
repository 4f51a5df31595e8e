#!/usr/bin/env python3
"""What a tree file is refused for, and where; or that it is accepted.

  explain.py < FILE    under Reduce's limits; the exit status is 1 if the file is refused, and else 0

It names the number, what that means, the record and where it stands, the field with its value, and the rule of
docs/FORMAT.md that is broken. It comes from reader.py, which is not proved.
"""

import sys

from reader import COLUMNS_RECORDS, COUNT, LIST_EFFECTS, REDUCE, SETTINGS, VERSION, depth, fault, records_of, u16
from sentences import MEANS
from words import KINDS, SETTINGS as SETTING_WORDS, set_in

READ_BY = "By a second reader of the format, which is not proved; ./uxt validate is."


def explanation(data, limits=REDUCE):
    """The number of the refusal, 0 for none, and the text."""
    found = fault(data, limits)
    number = found.number if found else 0
    lines = refused(data, found) if found else accepted(data)
    if number in (4, 6, 8) and fault(data, LIST_EFFECTS) is None:
        takes = "List effects takes it: at most {} records, depth {}, and logical nodes of sub 1 and 2."
        lines.append(takes.format(*LIST_EFFECTS))
    if number not in (1, 2, 3, 4) and u16(data, VERSION) == 2 and u16(data, COUNT) > COLUMNS_RECORDS:
        lines.append(f"The program columns refuses it with 4: it takes at most {COLUMNS_RECORDS} records of version 2.")
    return number, "".join(line + "\n" for line in lines + [READ_BY])


def accepted(data):
    version, count = u16(data, VERSION), u16(data, COUNT)
    settings = " ".join(set_in(data[SETTINGS], SETTING_WORDS)) or "none"
    return [f"accepted: version {version}, records {count}, depth {depth(data)}, settings {settings}"]


def refused(data, found):
    lines = [f"refused {found.number}", f"means: {MEANS[found.number]}"]
    if found.record is not None:
        lines.append(record_line(data, found.record))
    lines += ["in " + record_line(data, other) for other in found.others]
    lines.append(f"field: {found.field} is {found.value}, at byte {found.offset}; {found.note}")
    lines.append(f'rule: "{found.rule}" (docs/FORMAT.md)')
    return lines


def record_line(data, i):
    record = records_of(data)[i]
    word = KINDS[record.kind - 1] if 1 <= record.kind <= len(KINDS) else "no kind"
    return f"record {i}: {word}, at byte {record.at}"


def main(words):
    if words:
        sys.exit(__doc__)
    number, text = explanation(sys.stdin.buffer.read())
    sys.stdout.buffer.write(text.encode())  # whatever the terminal's encoding: it quotes the page
    sys.exit(1 if number else 0)


if __name__ == "__main__":
    main(sys.argv[1:])
