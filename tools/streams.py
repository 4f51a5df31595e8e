"""What the command `uxt` reads and writes. A read or a write that fails raises `Failed`, which says what it was."""

import contextlib
import os
import re
import subprocess
import sys
import threading

INPUT, OUTPUT, ERROR = 3, 1, 2  # descriptors; the script `uxt` hands standard input on as 3
NAMES = {INPUT: "standard input", OUTPUT: "standard output", ERROR: "standard error"}
CHUNK = 65536
REFUSED = re.compile(rb"refused [0-9]+\n")

closed = set()  # those of the three descriptors that were closed when the command began


class Failed(Exception):
    """What kept the command from answering, in a line for standard error."""


def hold():
    """Comes first: a descriptor that is closed is opened on nothing, lest another file gets its number."""
    closed.update(number for number in NAMES if not is_open(number))
    for _ in closed:
        os.open(os.devnull, os.O_RDWR)  # gets the lowest number that is free


def is_open(number):
    try:
        os.fstat(number)
    except OSError:
        return False
    return True


def need(action, number):
    if number in closed:
        raise Failed(f"cannot {action} {NAMES[number]}: it is closed")


def say(text):
    """A line on standard error, which may be closed or full."""
    with contextlib.suppress(OSError, AttributeError):
        sys.stderr.write(f"uxt: {text}\n")
        sys.stderr.flush()


# ---- Reading


class Source:
    """The file of this path, or standard input where there is none."""

    def __init__(self, path):
        if path is None:
            need("read", INPUT)
        self.name = NAMES[INPUT] if path is None else repr(path)
        self.descriptor = INPUT if path is None else self.tried(os.open, path, os.O_RDONLY)

    def announce(self):
        """Before the first read: who sits at a terminal is told what is waited for."""
        if self.descriptor == INPUT and os.isatty(INPUT):
            say("reading a tree file from standard input, which is a terminal; `uxt --help` has the usage")

    def chunk(self):
        """The next bytes; none at the end."""
        return self.tried(os.read, self.descriptor, CHUNK)

    def first(self, most):
        """So many bytes, or all where there are fewer."""
        self.announce()
        data = b""
        while len(data) < most and (chunk := self.chunk()):
            data += chunk
        return data[:most]

    def tried(self, action, *words):
        try:
            return action(*words)
        except OSError as error:
            raise Failed(f"cannot read {self.name}: {error.strerror}") from None


# ---- Writing


def write(descriptor, data):
    rest = memoryview(data)
    while rest:
        rest = rest[os.write(descriptor, rest):]


def put(printed):
    """Writes what goes to standard output and to standard error."""
    for descriptor, data in zip((OUTPUT, ERROR), printed):
        if data:
            need("write", descriptor)
        try:
            write(descriptor, data)
        except OSError as error:
            raise Failed(f"cannot write {NAMES[descriptor]}: {error.strerror}") from None


# ---- Running a program


class Feeder(threading.Thread):
    """Hands the source on to a program, as far as the program reads."""

    def __init__(self, source, descriptor):
        super().__init__(daemon=True)  # the program may end while more input is waited for
        self.source, self.descriptor, self.failure = source, descriptor, None

    def run(self):
        try:
            while chunk := self.source.chunk():
                write(self.descriptor, chunk)
        except BrokenPipeError:
            pass  # the program has read what it takes
        except Failed as failure:
            self.failure = failure
        finally:
            os.close(self.descriptor)


def answer(program, source):
    """What the program prints of the source on standard output and on standard error."""
    source.announce()
    taken, given = os.pipe()
    with subprocess.Popen([program], stdin=taken, stdout=subprocess.PIPE, stderr=subprocess.PIPE) as running:
        os.close(taken)
        feeder = Feeder(source, given)
        feeder.start()
        try:
            printed = running.communicate()
        except BaseException:  # the command is stopped, and must not wait for a program that waits for input
            running.kill()
            raise
    if feeder.failure is not None:
        raise feeder.failure
    if running.returncode != 0:
        raise Failed(f"{program} did not end by itself: {running.returncode}")
    return printed


def is_refusal(printed):
    return REFUSED.fullmatch(b"".join(printed)) is not None
