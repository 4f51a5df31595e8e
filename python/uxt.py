"""The proved reducer of expression trees, from Python: the C functions of include/uxt.h, by ctypes.

Nothing is to be installed. The shared library is the file that the environment variable UXT_SHARED_LIBRARY names; else the one that
`./uxt lib` makes in target/library/ of the repository; else the `libuxt.so.3` that the system's loader finds.

Each function takes any bytes-like object and keeps nothing. Calls from several threads run at once: ctypes lets go of the
interpreter's lock, and every call has buffers of its own. docs/FORMAT.md describes the tree file.
"""

import array
import ctypes
import os
import pathlib
import typing

VERSION = "3.1.0"

_BUILT = pathlib.Path(__file__).resolve().parent.parent / "target/library/libuxt.so.3"
_MOST_REDUCED, _MOST_LISTED = 2000, 3999  # records that Reduce and List effects take


class Refused(Exception):
    """A file, or a list of the Derived question, is refused; `number` says why, and str() has it in words."""

    def __init__(self, number):
        super().__init__(number)
        self.number = number

    def __str__(self):
        return f"refused {self.number}: {_refusal_text(self.number).decode()}"


class Effect(typing.NamedTuple):
    """An effect: the place of its node, which is the start, the node's kind, and whether it is a coercion."""

    place: int
    kind: int
    coercion: bool


def check(data):
    """Raises Refused if `reduce` would."""
    data = _bytes(data)
    _accept(_check(data, len(data)))


def reduce(data):
    """The tree file that is left of one, of the same version; b"" if the tree is removable."""
    data = _bytes(data)
    records = min(_records(data), _MOST_REDUCED)
    out = ctypes.create_string_buffer(8 + _width(data) * max(2 * records - 1, 0))
    length = _value(_reduce(data, len(data), out, len(out)))
    return out[:length]


def list_effects(data, yes=()):
    """The effects of a tree file's expression, as a list in ECMA-262's order.

    `yes` has the places of the tests that count as yes, numbers from 0 to 2^32 - 1 in any order; all other tests count as no.
    """
    data, places = _bytes(data), _places(yes)
    entries = (ctypes.c_uint64 * (2 * min(_records(data), _MOST_LISTED)))()
    count = _value(_list_effects_given(data, len(data), places, len(places), entries, len(entries)))
    return [Effect(entry >> 9, entry >> 1 & 255, bool(entry & 1)) for entry in entries[:count]]


def derived(scopes, ancestors):
    """Whether a `this` is that of a derived class's constructor; both lists are bytes, innermost first."""
    scopes, ancestors = _bytes(scopes), _bytes(ancestors)
    answer = _derived(scopes, len(scopes), ancestors, len(ancestors))
    _accept(answer if answer > 1 else 0)
    return answer == 1


def _bytes(data):
    """What no one changes during the call. Of a number, bytes() would make zeros; this refuses it."""
    return data if isinstance(data, bytes) else memoryview(data).tobytes()


def _places(yes):
    """An array of C. ctypes would cut a number that is too large; the array raises OverflowError."""
    places = array.array("I", [*yes])
    return (ctypes.c_uint32 * len(places))(*places)


def _records(data):
    """The record count that the header gives. A file that has none is refused, whatever the room."""
    return int.from_bytes(data[6:8], "little")


def _width(data):
    """The bytes of a record, by the version. A file of another version is refused, whatever the room."""
    return 20 if data[3:5] == b"\2\0" else 16


def _value(answer):
    """The lower 32 bits of an answer; the upper have the number of the refusal."""
    _accept(answer >> 32)
    return answer & 0xFFFFFFFF


def _accept(number):
    if number != 0:
        raise Refused(number)


def _load():
    built = str(_BUILT) if _BUILT.exists() else _BUILT.name
    try:
        return ctypes.CDLL(os.environ.get("UXT_SHARED_LIBRARY") or built)
    except OSError as error:
        advice = "run `./uxt lib`, or name the shared library in UXT_SHARED_LIBRARY"
        raise ImportError(f"uxt: {error}: {advice}") from error


def _function(name, result, *arguments):
    function = getattr(_library, name)
    function.restype, function.argtypes = result, arguments
    return function


_library = _load()
_u64, _size = ctypes.c_uint64, ctypes.c_size_t
_in, _out, _entries = ctypes.c_char_p, ctypes.POINTER(ctypes.c_char), ctypes.POINTER(ctypes.c_uint64)
_yes = ctypes.POINTER(ctypes.c_uint32)
_check = _function("uxt_check", _u64, _in, _size)
_reduce = _function("uxt_reduce", _u64, _in, _size, _out, _size)
_list_effects_given = _function("uxt_list_effects_given", _u64, _in, _size, _yes, _size, _entries, _size)
_derived = _function("uxt_derived", _u64, _in, _size, _in, _size)
_refusal_text = _function("uxt_refusal_text", ctypes.c_char_p, ctypes.c_uint)
