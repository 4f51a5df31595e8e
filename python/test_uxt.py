#!/usr/bin/env python3
"""The test of uxt.py: every stored case of the repository with its stored answer, then all of them from eight threads at once.

Usage: test_uxt.py    the last line says how many cases and calls there were; the exit status is 0 if all answers are as stored
"""

import pathlib
import pickle
import re
import subprocess
import sys
import threading
import typing
from concurrent.futures import ThreadPoolExecutor

import uxt

ROOT = pathlib.Path(__file__).resolve().parent.parent
sys.path.insert(0, str(ROOT / "tools"))
import listings as by_hand  # noqa: E402
import worst  # noqa: E402

THREADS = 8


class Case(typing.NamedTuple):
    name: str
    function: typing.Callable
    arguments: tuple
    due: object  # what the function returns, or refused(number)


def refused(number):
    return "refused", int(number)


def outcome(function, arguments):
    try:
        return function(*arguments)
    except uxt.Refused as error:
        return refused(error.number)


# ---- The stored cases


def stored(crate):
    folder = ROOT / "crates" / crate
    return (folder / "stdin").read_bytes(), (folder / "stdout").read_text()


def parts(data, head, width):
    """The files of an input: each stands behind a head of which the first bytes, so many, are its length."""
    while data:
        length = int.from_bytes(data[:width], "little")
        yield data[head:head + length]
        data = data[head + length:]


def paired(files, answers):
    """Each file with its answer and its number."""
    files, answers = list(files), list(answers)
    assert len(files) == len(answers) > 0
    return zip(range(len(files)), files, answers)


def edges():
    """Whether Reduce takes a file, and the numbers of Reduce and List effects where they do not."""
    files, lines = stored("edges")
    for i, file, line in paired(parts(files, 2, 2), lines.splitlines()):
        reduced, listed = [None if "/" in answer else refused(answer) for answer in line.split()]
        yield Case(f"edges {i}", uxt.check, (file,), reduced)
        if reduced:
            yield Case(f"edges {i}", uxt.reduce, (file,), reduced)
        if listed:
            yield Case(f"edges {i}", uxt.list_effects, (file,), listed)


def effect(line):
    place, kind, coercion = map(int, line.split("/"))
    return uxt.Effect(place, kind, coercion == 1)


def listings():
    files, text = stored("listings")
    answers = re.findall(r"^(count|refused) (\d+)\n((?:\d+/.*\n)*)", text, re.M)
    for i, file, (word, number, lines) in paired(parts(files, 2, 2), answers):
        due = refused(number) if word == "refused" else [effect(line) for line in lines.split()]
        assert word == "refused" or len(due) == int(number)
        yield Case(f"listings {i}", uxt.list_effects, (file,), due)


def given():
    """Lists under yes places, which no program is lent: worked out by hand, beside the cases of the program `listings`."""
    for name, root, yes, effects in by_hand.given():
        due = [effect(text) for text in effects.split()]
        for version in (1, 2):
            file = by_hand.tree_file(root, version=version)
            yield Case(f"given: {name}, version {version}", uxt.list_effects, (file, yes), due)


def reductions():
    """Room is what the module lends, so that where too little was lent only the check can be held to what is stored."""
    files, text = stored("reductions")
    answers = re.findall(r"^(kept|removable|refused) ?(\d*)\n([0-9a-f\n]*)tail", text, re.M)
    for i, file, (word, number, lines) in paired(parts(files, 5, 2), answers):
        name = f"reductions {i}"
        if (word, number) == ("refused", "9"):
            yield Case(name, uxt.check, (file,), None)
        else:
            due = refused(number) if word == "refused" else bytes.fromhex(lines)
            yield Case(name, uxt.reduce, (file,), due)


def largest():
    """Files of version 2 that no stored case has room for, worked out by hand."""
    for name, root, answer in worst.by_hand():
        file, left = worst.file_of(name, root, version=2), worst.tree_file(answer(root), version=2)
        yield Case(f"largest: {name}", uxt.reduce, (file,), left)
    for records in (by_hand.MOST_RECORDS, by_hand.MOST_RECORDS + 1):
        file = by_hand.tree_file(by_hand.wide_template(records), version=2)
        due = [uxt.Effect(place, 2, coercion) for place in range(1, records) for coercion in (False, True)]
        taken = records == by_hand.MOST_RECORDS
        yield Case(f"largest: {records} records", uxt.list_effects, (file,), due if taken else refused(4))
        yield Case(f"largest: {records} records", uxt.reduce, (file,), refused(4))


def derived_rows():
    lists, text = stored("derived_rows")
    lists = list(parts(lists, 1, 1))
    for i, both, line in paired(zip(lists[::2], lists[1::2]), text.splitlines()):
        due = refused(line.split()[1]) if line.startswith("refused") else line == "yes"
        yield Case(f"derived_rows {i}", uxt.derived, both, due)


def fixed_list():
    """The published Rust's answers; removable is no bytes there, too."""
    both = list(parts((ROOT / "differential/fixed/answers.bin").read_bytes()[8:], 4, 4))
    for i, file, answer in paired(both[::2], both[1::2]):
        yield Case(f"fixed list {i}", uxt.reduce, (file,), answer)


def columns(file):
    """The effects before and after, as examples/expected.columns has them."""
    left = uxt.reduce(file)
    before, after = [[f"{e.place}/{e.kind}/{e.coercion:d}" for e in effects(tree)] for tree in (file, left)]
    length = max(len(before), len(after))
    before, after = [texts + ["-"] * (length - len(texts)) for texts in (before, after)]
    records = [int.from_bytes(tree[6:8], "little") for tree in (file, left)]
    return ["before after", *map(" ".join, zip(before, after)), f"records {records[0]} {records[1]}"]


def effects(tree):
    return uxt.list_effects(tree) if tree else []


def examples():
    folder = ROOT / "examples"
    text = (folder / "expected.columns").read_text()
    for name, lines in re.findall(r"^(\S+\.uxt)\n((?:(?!\S+\.uxt\n).*\n)*)", text, re.M):
        due = refused(lines.split()[1]) if lines.startswith("refused") else lines.splitlines()
        file = (folder / name).read_bytes()
        yield Case(name, columns, (file,), due)
        yield Case(name, uxt.check, (file,), due if isinstance(due, tuple) else None)


GROUPS = (edges, listings, given, reductions, largest, derived_rows, fixed_list, examples)


# ---- Running them


def different(cases):
    """The cases that are not answered as stored."""
    return [case for case in cases if outcome(case.function, case.arguments) != case.due]


def from_threads(cases):
    """Every thread goes through all cases, from another start, and none before the others are there."""
    start = threading.Barrier(THREADS, timeout=60)

    def go(i):
        first = i * len(cases) // THREADS
        start.wait()
        return different(cases[first:] + cases[:first])

    with ThreadPoolExecutor(THREADS) as threads:
        return [case for found in threads.map(go, range(THREADS)) for case in found]


# ---- What no stored case shows


def raises(error, function, *arguments):
    try:
        function(*arguments)
    except error as raised:
        return raised
    raise AssertionError(f"{function.__name__}{arguments} does not raise {error.__name__}")


def other_arguments():
    """Any bytes-like object is taken, and nothing else."""
    file = (ROOT / "examples/columns.uxt").read_bytes()
    for like in (bytearray(file), memoryview(file), memoryview(file + b"x")[:-1]):
        assert uxt.check(like) is None
        assert uxt.reduce(like) == uxt.reduce(file) != b""
        assert uxt.list_effects(like) == uxt.list_effects(file) != []
    assert uxt.derived(bytearray([4]), memoryview(b"\2\4")) is True
    for wrong in (5, "UXT", None, [1]):
        for function in (uxt.check, uxt.reduce, uxt.list_effects):
            raises(TypeError, function, wrong)
        raises(TypeError, uxt.derived, b"", wrong)


def yes_places():
    """Any numbers that can be places, in anything that gives them one by one; no other number is cut to one."""
    file = (ROOT / "examples/conditional.uxt").read_bytes()
    no, yes = [uxt.Effect(1, 16, False), uxt.Effect(12, 16, False)], [uxt.Effect(1, 16, False)]
    for places in ((), [], [1, 7, 11], iter([2 ** 32 - 1]), b"", range(1, 5)):
        assert uxt.list_effects(file, places) == uxt.list_effects(file) == no
    for places in ((0,), [5, 0], {0, 1}, iter([0, 0]), b"\0", range(10_000)):
        assert uxt.list_effects(file, yes=places) == yes
    for wrong in ([2 ** 32], [-1], [0, 2 ** 64]):
        raises(OverflowError, uxt.list_effects, file, wrong)
    for wrong in (5, None, [0.0], ["0"]):
        raises(TypeError, uxt.list_effects, file, wrong)


def refusal():
    """It has the number and the words, and goes from process to process."""
    error = raises(uxt.Refused, uxt.check, b"")
    assert error.number == 1
    assert str(error) == "refused 1: it has under 8 bytes, or its mark is wrong"
    assert pickle.loads(pickle.dumps(error)).number == 1


def said_once():
    """The version is the header's."""
    header = (ROOT / "include/uxt.h").read_text()
    assert f'#define UXT_VERSION "{uxt.VERSION}"\n' in header, "another version than the header's"


def no_library():
    """Where there is none, it says what to do."""
    command = [sys.executable, "-c", "import uxt"]
    done = subprocess.run(command, cwd=ROOT / "python", env={"UXT_SHARED_LIBRARY": "/none"}, stderr=subprocess.PIPE, text=True)
    assert done.returncode == 1 and "ImportError" in done.stderr and "UXT_SHARED_LIBRARY" in done.stderr, done.stderr


def main():
    groups = {group.__name__: list(group()) for group in GROUPS}
    cases = [case for group in groups.values() for case in group]
    for test in (other_arguments, yes_places, refusal, said_once, no_library):
        test()
    found = different(cases) + from_threads(cases)
    for case in found[:10]:
        print(f"{case.name}: {case.function.__name__} answers {outcome(case.function, case.arguments)}, not {case.due}")
    counts = ", ".join(f"{name} {len(group)}" for name, group in groups.items())
    print(f"python: {len(cases)} cases ({counts})")
    print(f"python: {len(cases) * (1 + THREADS)} answers, alone and from {THREADS} threads at once, {len(found)} different")
    sys.exit(bool(found))


main()
