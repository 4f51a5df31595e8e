"""usage: uxt NAME [FILE]             what the program NAME answers to the tree file FILE
       uxt columns --words [FILE]  the two columns in words
       uxt explain [FILE]          why a tree file is refused: the record, the field and the rule
       uxt lib                     proves and builds the library for C, Rust and Python
       uxt install PREFIX          puts it, its header and its pkg-config file under PREFIX
       uxt --help, uxt --version

Standard input is read where there is no FILE, or where FILE is -. Behind -- stands no option.
A program is proved and built on first use.
"""

import os
import pathlib
import signal
import sys

import building
import library
import streams
import wording
from streams import Failed, Source, say

ROOT = pathlib.Path(__file__).resolve().parent.parent
ANSWERED, REFUSED, FAILED = range(3)
STATUSES = """status: 0  answered
        1  refused: `refused` and the number are printed; docs/FORMAT.md has the numbers
        2  not answered: the words are wrong, or a read, a write or a build failed; standard error says which
"""
MOST_READ = 2 ** 21  # bytes that `explain` reads: more than any record count can speak of
FOR_TESTS = "For the tests: "


class Usage(Exception):
    """What is wrong with the words of the command line."""


# ---- The help


def programs():
    """The programs by their names, with what each does: the first line, a comment, of its source."""
    return {main.parts[-3]: main.read_text(encoding="utf-8").partition("\n")[0].removeprefix("// ")
            for main in sorted(ROOT.glob("crates/*/src/main.rt"))}


def usage():
    users, tests = [], []
    for name, purpose in programs().items():
        group = tests if purpose.startswith(FOR_TESTS) else users
        group.append(f"  {name:14}{purpose.removeprefix(FOR_TESTS)}\n")
    return "".join([__doc__, "\nprograms:\n", *users, "\nprograms of the tests:\n", *tests, "\n", STATUSES])


# ---- What is asked for


class Asked:
    """The words behind the name."""

    def __init__(self, words):
        ended = words.index("--") if "--" in words else len(words)
        self.options = [word for word in words[:ended] if word.startswith("-") and word != "-"]
        self.operands = [word for word in words[:ended] if word not in self.options] + words[ended + 1:]

    def only(self, *options):
        """No other option stands there."""
        for option in self.options:
            if option not in options:
                raise Usage(f"there is no option {option!r}")

    def operand(self, what):
        """The one operand, or none."""
        if len(self.operands) > 1:
            raise Usage(f"one {what} at most, and {self.operands[1]!r} is a second")
        return self.operands[0] if self.operands else None

    def source(self):
        path = self.operand("FILE")
        return Source(None if path == "-" else path)


def run(name, asked):
    """A program's answer."""
    if name not in programs():
        raise Usage(f"there is no program {name!r}")
    asked.only(*["--words"] if name == "columns" else [])
    source = asked.source()  # before a build, which can take minutes
    printed = streams.answer(building.program(ROOT, name), source)
    status = REFUSED if streams.is_refusal(printed) else ANSWERED
    if "--words" in asked.options:
        printed = wording.in_words(printed[0].decode()).encode(), printed[1]
    return status, printed


def explain(asked):
    import explain as explaining  # only here: to load it takes longer than a program runs
    asked.only()
    number, text = explaining.explanation(asked.source().first(MOST_READ))
    return REFUSED if number else ANSWERED, (text.encode(), b"")


def lib(asked):
    asked.only()
    if asked.operands:
        raise Usage(f"lib is asked of nothing, and {asked.operands[0]!r} stands there")
    return ANSWERED, (library.build(ROOT, building.library(ROOT)).encode(), b"")


def install(asked):
    asked.only()
    prefix = asked.operand("PREFIX")
    if prefix is None:
        raise Usage("install needs a PREFIX, the folder to put the library under")
    library.build(ROOT, building.library(ROOT))
    return ANSWERED, (library.install(ROOT, prefix).encode(), b"")


COMMANDS = {"explain": explain, "lib": lib, "install": install}


def answer(words):
    """The status, and what is printed on standard output and on standard error."""
    name, asked = words[0] if words else "--help", Asked(words[1:])
    if {"-h", "--help"} & {name, *asked.options}:
        return ANSWERED, (usage().encode(), b"")
    if name == "--version":
        return ANSWERED, (f"uxt {library.version(ROOT)}\n".encode(), b"")
    if name.startswith("-"):
        raise Usage(f"there is no option {name!r}")
    return COMMANDS[name](asked) if name in COMMANDS else run(name, asked)


def main(words):
    streams.hold()
    try:
        streams.need("write", streams.OUTPUT)
        status, printed = answer(words)
        streams.put(printed)
        return status
    except Usage as wrong:
        say(f"{wrong}; `uxt --help` has the usage")
    except Failed as failure:
        say(failure)
    except OSError as error:
        say(f"{error.filename}: {error.strerror}")
    return FAILED


class Stopped(BaseException):
    """A signal that ends the command; `args` has its number."""


def stop(number, _):
    raise Stopped(number)


def stoppable(words):
    """The status of the command; one that is stopped ends by the signal, once what it had begun is ended."""
    for number in (signal.SIGINT, signal.SIGTERM, signal.SIGHUP):
        if signal.getsignal(number) is not signal.SIG_IGN:
            signal.signal(number, stop)
    try:
        return main(words)
    except Stopped as stopped:
        say("stopped; what is proved by now is kept")
        signal.signal(*stopped.args, signal.SIG_DFL)
        os.kill(os.getpid(), *stopped.args)


if __name__ == "__main__":
    sys.exit(stoppable(sys.argv[1:]))
