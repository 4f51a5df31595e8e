#!/usr/bin/env python3
"""A tree file from a text, and the text of a tree file. docs/SHOW.md has the words.

  assemble.py < TEXT > FILE         the tree file that the text says
  assemble.py show < FILE > TEXT    the text of a tree file, as the program `show` prints it

A text has a line for the file, then a line for each record, indented by two spaces for each level.
The kind comes first; the other words of a line may stand in any order, each once. `text` and
`place` are 0 where they are left out. In version 2 a place has both ends, `place 4..7`; in any other
it is a start alone. A `#` starts a comment, and blank lines are allowed.

Only the text is checked, not the tree: a file that is refused can be written too, where there are
words for it. A fault in the text is named on standard error, `line N: what is wrong`, and the exit
status is 1.

`show` refuses what the program refuses: it then writes nothing, explains the refusal on standard error (explain.py),
and the exit status is 1. It is a second reader, which shares no code with the crates.
"""

import struct
import sys

from explain import explanation
from reader import LIST_EFFECTS
from words import FACTS, FLAGS, FORMS, KINDS, SETTINGS, set_in

HEADER = struct.Struct("<3sHBH")  # mark, version, settings, records
# kind, facts, sub, zero, children, size, text, place: its start, or in version 2 both ends
RECORD, RECORD_2 = struct.Struct("<BBBBHHII"), struct.Struct("<BBBBHHIII")
MOST_RECORDS = 65535  # what the record count can say
MOST_NUMBER = 2 ** 32 - 1  # what a text or an end can be

# ---- From a text to a file


class Fault(Exception):
    """What is wrong with a text."""


class Record:
    def __init__(self, level, kind, version):
        self.level, self.kind = level, kind
        self.facts = self.sub = self.text = 0
        self.layout, self.place = (RECORD_2, (0, 0)) if version == 2 else (RECORD, (0,))
        self.parent, self.children, self.size = None, 0, 1

    def packed(self):
        return self.layout.pack(KINDS.index(self.kind) + 1, self.facts, self.sub, 0, self.children, self.size, self.text,
                                *self.place)


def assemble(text):
    header, records = read(text)
    join(records)
    version, settings = header
    return HEADER.pack(b"UXT", version, settings, len(records)) + b"".join(r.packed() for r in records)


def read(text):
    """The version and settings, and the records, that a text says."""
    header, records = None, []
    lines = text.split("\n")
    for number, line in enumerate(lines, 1):
        line = line.partition("#")[0].rstrip()
        try:
            if not line:
                continue
            if header is None:
                header = header_of(line)
            elif len(records) == MOST_RECORDS:
                raise Fault(f"a file has {MOST_RECORDS} records at most")
            else:
                records.append(record_of(line, records[-1].level + 1 if records else 0, header[0]))
        except Fault as fault:
            raise Fault(f"line {number}: {fault}") from None
    if header is None:
        raise Fault(f"line {len(lines)}: the text has no first line, 'uxt' and the version")
    return header, records


def header_of(line):
    if level_of(line) > 0:
        raise Fault("the first line is indented")
    words = iter(line.split())
    if next(words) != "uxt":
        raise Fault("the first line is 'uxt', the version, and the settings that are on")
    version = number_behind("uxt", words, 65535)
    settings = 0
    for word in once(words):
        if word not in SETTINGS:
            raise Fault(f"'{word}' is no setting")
        settings += SETTINGS[word]
    return version, settings


def record_of(line, most, version):
    """The record that a line says, which stands at most so deep."""
    level = level_of(line)
    if level > most:
        raise Fault("more than one level deeper than the record before" if most > 0 else "the root is indented")
    words = iter(line.split())
    kind = next(words)
    if kind not in KINDS:
        raise Fault(f"'{kind}' is no kind")
    record = Record(level, kind, version)
    for word in once(words):
        if word == "text":
            record.text = number_behind(word, words, MOST_NUMBER)
        elif word == "place":
            record.place = place_behind(word, words, version)
        elif word in FACTS:
            record.facts += FACTS[word]
        else:
            record.sub += sub_of(word, record)
    return record


def sub_of(word, record):
    """What a word adds to the sub of its record."""
    forms = FORMS.get(record.kind, ())
    if word in forms:
        if record.sub % 8 > 0:
            raise Fault(f"'{word}' is the second word of which {record.kind} takes one")
        return forms.index(word) + 1
    if word in FLAGS.get(record.kind, ()):
        return FLAGS[record.kind][word]
    raise Fault(f"'{word}' is no word of {record.kind}")


def level_of(line):
    indent = line[:len(line) - len(line.lstrip())]
    if indent.strip(" "):
        raise Fault("indented by other than spaces")
    if len(indent) % 2 > 0:
        raise Fault("indented by an odd number of spaces")
    return len(indent) // 2


def once(words):
    """The words, none of which may come twice."""
    seen = set()
    for word in words:
        if word in seen:
            raise Fault(f"'{word}' comes twice")
        seen.add(word)
        yield word


def number_behind(name, words, most):
    return number_of(word_behind(name, words), most)


def place_behind(name, words, version):
    """The start, or in version 2 both ends."""
    word = word_behind(name, words)
    start, dots, end = word.partition("..")
    if version == 2 and not dots:
        raise Fault(f"'{word}' has no end: a place of version 2 is START..END")
    if version != 2 and dots:
        raise Fault(f"'{word}' has an end, which a place of version {version} has not")
    return tuple(number_of(number, MOST_NUMBER) for number in ((start, end) if dots else (start,)))


def word_behind(name, words):
    word = next(words, None)
    if word is None:
        raise Fault(f"the number behind '{name}' is missing")
    return word


def number_of(word, most):
    if not (word.isascii() and word.isdigit() and len(word) <= 10 and int(word) <= most):
        raise Fault(f"'{word}' is no number from 0 to {most}")
    return int(word)


def join(records):
    """Fills in child counts and subtree sizes, by the levels."""
    around = []  # the record before and those that it stands in, the root first
    for record in records:
        del around[record.level:]
        record.parent = around[-1] if around else None
        around.append(record)
    for record in reversed(records):
        if record.parent:
            record.parent.children += 1
            record.parent.size += record.size


# ---- From a file to its text


def show(data):
    """The text of a file that List effects accepts."""
    _, version, settings, _ = HEADER.unpack_from(data)
    lines = [" ".join(["uxt", str(version)] + set_in(settings, SETTINGS))]
    layout = RECORD_2 if version == 2 else RECORD
    last = []  # where the subtrees around the record end
    for i, (kind, facts, sub, _, _, size, text, *place) in enumerate(layout.iter_unpack(data[HEADER.size:])):
        while last and last[-1] <= i:
            last.pop()
        kind = KINDS[kind - 1]
        words = [kind, *sub_words(kind, sub), *set_in(facts, FACTS), "text", str(text), "place", "..".join(map(str, place))]
        lines.append("  " * len(last) + " ".join(words))
        last.append(i + size)
    return "".join(line + "\n" for line in lines)


def sub_words(kind, sub):
    form = sub % 8 if kind in FORMS else 0
    return ([FORMS[kind][form - 1]] if form > 0 else []) + set_in(sub, FLAGS.get(kind, {}))


# ---- The modes


def show_or_explain(data):
    number, text = explanation(data, LIST_EFFECTS)
    if number:
        sys.stderr.buffer.write(text.encode())
        sys.exit(1)
    sys.stdout.write(show(data))


def main(words):
    if words == []:
        text = sys.stdin.buffer.read().decode("utf-8", "replace")
        try:
            sys.stdout.buffer.write(assemble(text))
        except Fault as fault:
            sys.exit(str(fault))
    elif words == ["show"]:
        show_or_explain(sys.stdin.buffer.read())
    else:
        sys.exit(__doc__)


if __name__ == "__main__":
    main(sys.argv[1:])
