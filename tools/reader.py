"""A second reader of the tree file: whether a file is refused, for what, and where.

An independent reading of document 01, "The tree file" and refusals 1 to 8, and of document 02, N1, N9, N3 and N6: it shares no
code with the crates. It is not proved. It calls nothing by the depth of a tree, so a file may be as deep as it has records.
"""

import collections
import dataclasses
import functools
import math
import struct
import typing

from sentences import ROWS, RULES


class Limits(typing.NamedTuple):
    """What an operation takes."""
    records: int  # at most
    depth: int  # at most
    logicals: bool  # whether logical nodes, of sub 1 and 2


REDUCE = Limits(2000, 64, False)
LIST_EFFECTS = Limits(3999, 65, True)
COLUMNS_RECORDS = 1500  # of version 2, at most, that the program `columns` takes

(LITERAL, IDENTIFIER, FUNCTION, ARROW, OTHER_LEAF, THIS, ARRAY, ELISION, SPREAD, OBJECT, PROPERTY,
 TEMPLATE, SEQUENCE, UNARY, BINARY, CALL, NEW, CLASS, ELEMENT, LOGICAL, CONDITIONAL,
 ASSIGNMENT) = range(1, 23)

COMPARISON, ADDITION = 1, 2  # subs of a binary

VERSION, SETTINGS, COUNT = 3, 5, 6  # offsets in the header
KIND, FACTS, SUB, ZERO, CHILDREN, SIZE, START, END = 0, 1, 2, 3, 4, 6, 12, 16  # offsets in a record
NAMES = {KIND: "kind", FACTS: "facts", SUB: "sub", ZERO: "byte 3", CHILDREN: "children", SIZE: "size", START: "start", END: "end"}

Record = collections.namedtuple("Record", "kind facts sub zero children size start end at")  # at: its offset in the file
FIELDS = {1: struct.Struct("<BBBBHH4xI"), 2: struct.Struct("<BBBBHH4xII")}  # by version
NOTHING = Record(*[0] * 9)  # above the root


@dataclasses.dataclass(frozen=True)
class Fault:
    """What a file is refused for."""
    number: int
    field: str  # its name
    value: object
    offset: int  # of the field, in bytes from the start of the file
    note: str  # what is due, or what of the value is wrong
    rule: str  # what docs/FORMAT.md says
    record: int | None = None  # none: it is in the header, or in the length
    others: tuple = ()  # records that the record stands in, where the fault is between the two


def fault(data, limits):
    """What the file is refused for, or None. The tests are in the order of their numbers, each over the whole file; but that of
    additions is number 5, too, and needs the shape, and behind it comes 17."""
    found = header_fault(data, limits.records)
    if found:
        return found
    records = records_of(data)
    found = fields_fault(records) or left_out_fault(records, limits.logicals) or shape_fault(records)
    if found:
        return found
    parents, _ = nesting(records)
    return (count_fault(records) or place_fault(records, parents) or addition_fault(records) or end_fault(records)
            or depth_fault(records, parents, limits.depth))


def answer(data, limits):
    """The number of the refusal, or 'SETTINGS/RECORDS'."""
    found = fault(data, limits)
    return found.number if found else f"{data[SETTINGS]}/{u16(data, COUNT)}"


def depth(data):
    """How deep the tree of an accepted file is."""
    parents, _ = nesting(records_of(data))
    return max(levels(parents))


def u16(data, at):
    return data[at] + 256 * data[at + 1]


def of(record, field, version=1):
    """The offset of a field of a record in the file."""
    return 8 + FIELDS[version].size * record + field


def records_of(data):
    """In version 1, which has no ends, the start stands for the end."""
    version = u16(data, VERSION)
    rows = enumerate(FIELDS[version].iter_unpack(data[8:]))
    return [Record(*row[:7], end=row[-1], at=of(i, 0, version)) for i, row in rows]


def bits(byte):
    """The bits that are set, in words."""
    numbers = [str(bit) for bit in range(8) if byte >> bit & 1]
    return f"bit {numbers[0]} is set" if len(numbers) == 1 else f"bits {', '.join(numbers)} are set"


# ---- The header: 1 to 4


def header_fault(data, most_records):
    if len(data) < 8:
        return Fault(1, "length", len(data), len(data), "at least 8 is due", RULES["header"])
    if data[:3] != b"UXT":
        return Fault(1, "mark", "{} {} {}".format(*data[:3]), 0, "85 88 84 is due", RULES["mark"])
    version = u16(data, VERSION)
    if version not in FIELDS:
        return Fault(2, "version", version, VERSION, "1 or 2 is due", RULES["version"])
    if data[SETTINGS] >= 8:
        return Fault(3, "settings", data[SETTINGS], SETTINGS, bits(data[SETTINGS] & ~7), RULES["settings"])
    count = u16(data, COUNT)
    if not 1 <= count <= most_records:
        return Fault(4, "record count", count, COUNT, f"1 to {most_records} is due", RULES["count"])
    due = of(count, 0, version)
    if len(data) != due:
        note = f"the file has {len(data)} bytes, {due} are due"
        return Fault(4, "record count", count, COUNT, note, RULES["length"])
    return None


# ---- The fields of a record: 5 and 6


def in_record(number, records, i, field, note, rule, others=()):
    value = records[i][list(NAMES).index(field)]
    return Fault(number, NAMES[field], value, records[i].at + field, note, rule, i, others)


def fields_fault(records):
    for i, r in enumerate(records):
        found = field_fault(r.kind, r.facts, r.sub, r.zero)
        if found:
            return in_record(5, records, i, *found)
    return None


@functools.cache
def field_fault(kind, facts, sub, zero):
    """The field that is wrong, what is due and the rule; or None."""
    if not 1 <= kind <= 22:
        return KIND, "1 to 22 is due", RULES["kind"]
    found = facts_fault(kind, facts) or symbol_fault(kind, facts, sub)
    if found:
        return FACTS, *found
    found = element_sub_fault(sub) if kind == ELEMENT else sub_fault(kind, sub)
    if found:
        return SUB, *found
    if zero != 0:
        return ZERO, "0 is due", RULES["byte 3"]
    return None


def facts_fault(kind, facts):
    """What is due and the rule, or None."""
    if kind == LITERAL:
        return ("18 is due", RULES["string facts"]) if facts != 18 else None
    symbol, string, allowed = facts >> 1 & 3, facts >> 3 & 3, allowed_facts(kind)
    if facts & ~allowed:
        return f"{bits(facts & ~allowed)}, the kind allows {allowed}", RULES["allowed facts"]
    if symbol == 3 or string == 3:
        return "symbol is 3" if symbol == 3 else "string is 3", RULES["pairs"]
    if string == 2 and symbol != 1:
        return f"string is yes, symbol is {'yes' if symbol == 2 else 'unknown'}", RULES["string yes"]
    return None


def symbol_fault(kind, facts, sub):
    """The same of a symbol fact on one of the five forms that are told by kind and sub."""
    never = kind == TEMPLATE or kind == UNARY and sub in (1, 2, 3) or kind == BINARY and sub == COMPARISON
    return ("symbol is yes", RULES["never a symbol"]) if never and is_symbol(facts) else None


def is_symbol(facts):
    return facts >> 1 & 3 == 2


def is_string(facts):
    return facts >> 3 & 3 == 2


def allowed_facts(kind):
    return 0 if kind in (ELISION, PROPERTY, ELEMENT) else 1 if kind == SPREAD else 255 if kind == CALL else 127 if kind == NEW else 31


def sub_fault(kind, sub):
    """What is due and the rule, or None."""
    least, most = {PROPERTY: (0, 1), UNARY: (1, 4), BINARY: (1, 3), CLASS: (0, 3), LOGICAL: (0, 2)}.get(kind, (0, 0))
    if least <= sub <= most:
        return None
    return ("0 is due", RULES["sub"]) if most == 0 else (f"{least} to {most} is due", ROWS[kind])


def element_sub_fault(sub):
    form = sub & 7
    if not 1 <= form <= 5:
        return f"its form is {form}", RULES["forms"]
    if form in (4, 5) and sub & 0b0111_1000:
        return f"its form is {form}, {bits(sub & 0b0111_1000)}", RULES["forms 4 and 5"]
    allowed = {2: 0b0100_0000, 3: 0b0100_0000, 4: 0b1000_0000}.get(form, 0)
    wrong = sub & 0b1100_0000 & ~allowed
    return (f"its form is {form}, {bits(wrong)}", RULES["bits 6 and 7"]) if wrong else None


def left_out_fault(records, logicals):
    """A kind that the operation does not take, or a logical by its sub."""
    if logicals:
        note, rule = "1 to 21 are taken", RULES["listed kinds"]
    else:
        note, rule = "1 to 19 and 21 are taken", RULES["reduced kinds"]
    for i, r in enumerate(records):
        if r.kind == ASSIGNMENT or r.kind == LOGICAL and not logicals:
            return in_record(6, records, i, KIND, note, rule)
        if r.kind == LOGICAL and r.sub == 0:
            return in_record(6, records, i, SUB, "1 and 2 are taken", rule)
    return None


# ---- The shape: 7. Child counts alone determine a tree, and so do sizes alone: what makes a tree is believed


def shape_fault(records):
    """A size or a child count that does not fit the records."""
    sizes = sizes_by([r.children for r in records])
    if sizes is None:
        return shape_fault_by_sizes(records)
    for i, (r, size) in enumerate(zip(records, sizes)):
        if r.size != size:
            return in_record(7, records, i, SIZE, f"{size} is due", RULES["root's size" if i == 0 else "size"])
    return None


def sizes_by(counts):
    """The sizes that go with the child counts; None if these do not make one tree of all records."""
    sizes, behind = [], []  # of all subtrees from a record on; of those that have no parent yet, the next one last
    for count in reversed(counts):
        if count > len(behind):
            return None
        taken = len(behind) - count
        size = 1 + sum(behind[taken:])
        behind[taken:] = [size]
        sizes.append(size)
    return sizes[::-1] if len(behind) == 1 else None


def shape_fault_by_sizes(records):
    """The same where the child counts make no tree: one of them is wrong if the sizes make one, else a size is named."""
    if records[0].size != len(records):
        return in_record(7, records, 0, SIZE, f"{len(records)} is due", RULES["root's size"])
    parents, outside = nesting(records)
    if outside is not None:
        return outside_fault(records, outside, parents[outside])
    counts = collections.Counter(parents)
    i = next(i for i, r in enumerate(records) if r.children != counts[i])
    return in_record(7, records, i, CHILDREN, f"{counts[i]} is due", RULES["children"])


def outside_fault(records, i, parent):
    """A size with which a record does not lie within its parent."""
    if records[i].size == 0:
        return in_record(7, records, i, SIZE, "at least 1 is due", RULES["no size"])
    room = parent + records[parent].size - i
    return in_record(7, records, i, SIZE, f"at most {room} is due", RULES["whole"], (parent,))


def nesting(records):
    """By the sizes, where the root's is right: the parent of each record, up to the first that does not lie within its
    parent; and which that is, or None."""
    parents, around, ends = [], [None], [len(records)]  # the records around the next one, and where they end
    for i, r in enumerate(records):
        while ends[-1] == i:
            around.pop()
            ends.pop()
        parents.append(around[-1])
        if not 1 <= r.size <= ends[-1] - i:
            return parents, i
        around.append(i)
        ends.append(i + r.size)
    return parents, None


def count_fault(records):
    """A child count that does not fit its kind and sub."""
    for i, r in enumerate(records):
        least, most = counts_of(r.kind, r.sub)
        if not least <= r.children <= most:
            note = f"{least} is due" if least == most else f"at least {least} is due"
            return in_record(7, records, i, CHILDREN, note, ROWS.get(r.kind, RULES["element's children"]))
    return None


@functools.cache
def counts_of(kind, sub):
    """The fewest children that a record takes, and the most."""
    if kind <= THIS or kind == ELISION:
        return 0, 0
    if kind in (CALL, NEW):
        return 1, math.inf
    if kind == CLASS:
        return sub >> 1 & 1, math.inf
    exactly = {SPREAD: 1, UNARY: 1, BINARY: 2, LOGICAL: 2, CONDITIONAL: 3, PROPERTY: 1 + sub,
               ELEMENT: (sub >> 4 & 1) + (sub >> 6 & 1)}
    return (exactly[kind], exactly[kind]) if kind in exactly else (0, math.inf)


def place_fault(records, parents):
    """A kind where it may not stand."""
    for i, (r, parent) in enumerate(zip(records, parents)):
        above = NOTHING if parent is None else records[parent]
        rule = place_rule(r.kind, above.kind, above.sub, i - 1 == parent)
        if rule:
            others = () if parent is None else (parent,)
            return in_record(7, records, i, KIND, "it may not stand there", RULES[rule], others)
    return None


@functools.cache
def place_rule(kind, above, sub, first):
    """The rule that a kind breaks where it stands, or None; by its parent's kind and sub, and whether it comes first there."""
    expression = kind not in (ELISION, SPREAD, PROPERTY, ELEMENT)
    if above == NOTHING.kind:
        rule, stands = "root", expression
    elif above == ARRAY:
        rule, stands = "in an array", expression or kind in (SPREAD, ELISION)
    elif above in (CALL, NEW):
        rule, stands = ("callee", expression) if first else ("argument", expression or kind == SPREAD)
    elif above == OBJECT:
        rule, stands = "in an object", kind in (SPREAD, PROPERTY)
    elif above == CLASS:
        rule, stands = "in a class", expression if first and sub & 2 else kind == ELEMENT
    else:
        rule, stands = "other child", expression
    return None if stands else rule


# ---- Additions: 5 again, where the records make a tree


def addition_fault(records):
    """The first addition that is recorded as a symbol and has a string part."""
    strings = string_parts(records)
    for i, r in enumerate(records):
        if strings[i] is not None and is_symbol(r.facts):
            return in_record(5, records, i, FACTS, f"symbol is yes, and record {strings[i]} is a string", RULES["string part"])
    return None


def string_parts(records):
    """Of each record, if it is an addition with a string part, the record that is this part; else None. From the last record
    back, so that the left side of an addition is known before it."""
    parts = [None] * len(records)
    for i in reversed(range(len(records))):
        if is_addition(records[i]):
            left, right = i + 1, i + 1 + records[i + 1].size
            by_left = parts[left] if is_addition(records[left]) else string_at(records, left)
            parts[i] = string_at(records, right) if by_left is None else by_left
    return parts


def string_at(records, i):
    """The record, if its fact says that it is a string; else None."""
    return i if is_string(records[i].facts) else None


def is_addition(record):
    return record.kind == BINARY and record.sub == ADDITION


# ---- The ends: 17


def end_fault(records):
    for i, r in enumerate(records):
        if r.end < r.start:
            return in_record(17, records, i, END, f"at least {r.start} is due, its start", RULES["end"])
    return None


# ---- The depth: 8


def depth_fault(records, parents, most_depth):
    for i, level in enumerate(levels(parents)):
        if level > most_depth:
            return Fault(8, "depth", level, records[i].at, f"at most {most_depth} is due", RULES["depth"], i)
    return None


def levels(parents):
    found = []
    for parent in parents:
        found.append(1 if parent is None else found[parent] + 1)
    return found
