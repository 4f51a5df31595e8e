"""Proves and builds what the command `uxt` runs, where that is due, with a line on standard error for each crate that is proved.

`rt run` and `rt lib` make a crate's program or archive in its out/; from there it is put under target/, where it is used.

One build at a time: another waits. The lock is handed on to `rt`, so that it holds as long as `rt` runs, even where the command
itself was ended.

As a script, for ./test, which proves all by `rt ci`:

    building.py sources       prints the state of all that the crates are made of
    building.py passed STATE  takes the programs that `rt ci` has built and passed, if that state is still the same
"""

import contextlib
import fcntl
import hashlib
import os
import pathlib
import re
import shutil
import signal
import subprocess
import sys
import tempfile
import time

from streams import Failed, say

BEGUN = re.compile(r"rt: chose --jobs \d+ for (\w+)$")
NOT_READ = ("out", "must-fail")  # folders of a crate that a program is not made of
ROOT = pathlib.Path(__file__).resolve().parent.parent


def program(root, name):
    """The path of the program, proved and built. It was run on the crate's stored input, and wrote what is stored."""
    return built(root, name, root / "target/bin" / name, prove_program)


def library(root):
    """The path of the archive, proved and built."""
    return built(root, "uxt", root / "target/staticlib/libuxt.a", prove_library)


def built(root, name, path, proved):
    """The path of what is made of a crate. That `rt` passed it is said by a mark, and not by the file itself: of a crate's out/ nothing
    is known where `rt` was stopped, or where the program does not write what it must."""
    crates = needed(root, name)
    if not is_built(root, crates, path):
        with locked(root) as lock:
            if not is_built(root, crates, path):  # another may have built it
                before = state(root, crates)
                take(proved(root, crates, lock), path)
                if state(root, crates) == before:  # else the sources were changed meanwhile, and the next use looks again
                    mark(root, crates, path)
    return path


# ---- Crates


def listed(root):
    """What each crate of crates.txt uses, by its name."""
    uses = {}
    for line in (root / "crates.txt").read_text(encoding="utf-8").splitlines():
        crate, _, others = line.partition("#")[0].partition(":")
        if crate.strip():
            uses[crate.split()[0]] = others.split()
    return uses


def needed(root, name):
    """All that the crate rests on, of those in crates.txt, in the order in which `rt` proves them; last the crate itself."""
    uses, found = listed(root), []

    def add(crate):
        for other in uses[crate]:
            if other in uses and other not in found:
                add(other)
        found.append(crate)

    add(name)
    return found


def state(root, crates):
    """A sum that changes with each file of these crates that is changed, added or removed, and with the list of all crates."""
    files = [root / "crates.txt"]
    for crate in crates:
        for folder, folders, names in os.walk(root / "crates" / crate):
            folders[:] = [name for name in folders if name not in NOT_READ]
            files += [os.path.join(folder, name) for name in names]
    stats = sorted((os.path.relpath(file, root), os.stat(file)) for file in files)
    told = [(file, stat.st_size, stat.st_mtime_ns, stat.st_ino) for file, stat in stats]
    return hashlib.sha256(repr(told).encode()).hexdigest()


# ---- What is made


def is_built(root, crates, path):
    """The file was passed, and neither it nor what it is made of has changed since."""
    file = marked(root, path)
    return path.exists() and file.exists() and file.read_text(encoding="ascii") == made_of(root, crates, path)


def mark(root, crates, path):
    file = marked(root, path)
    file.parent.mkdir(exist_ok=True)
    file.write_text(made_of(root, crates, path), encoding="ascii")


def marked(root, path):
    return root / "target/passed" / path.name


def made_of(root, crates, path):
    stat = path.stat()
    return f"{state(root, crates)} {stat.st_size} {stat.st_mtime_ns}\n"


def take(made, path):
    """A file is written beside its place and then moved there, so that who has the old one open keeps it."""
    path.parent.mkdir(parents=True, exist_ok=True)
    new = path.with_name(f".{path.name}.{os.getpid()}")
    shutil.copy(made, new)
    os.replace(new, path)


@contextlib.contextmanager
def locked(root):
    """The lock, held."""
    (root / "target").mkdir(exist_ok=True)
    with open(root / "target/uxt.lock", "w", encoding="ascii") as lock:
        try:
            fcntl.flock(lock, fcntl.LOCK_EX | fcntl.LOCK_NB)
        except BlockingIOError:
            say("another build is running here; waiting for it")
            fcntl.flock(lock, fcntl.LOCK_EX)
        yield lock


# ---- Runs of `rt`


def prove_program(root, crates, lock):
    """The program of the last crate, once it has written what it must: `rt run` hands it standard input and output."""
    folder = root / "crates" / crates[-1]
    stored = {name: folder / name if (folder / name).is_file() else os.devnull for name in ("stdin", "stdout")}
    with open(stored["stdin"], "rb") as given, tempfile.TemporaryFile() as written, open(stored["stdout"], "rb") as wanted:
        prove("run", folder, crates, lock, stdin=given, stdout=written, stderr=subprocess.PIPE)
        written.seek(0)
        if written.read() != wanted.read():
            raise Failed(f"{crates[-1]} does not write what crates/{crates[-1]}/stdout has")
    return folder / "out" / crates[-1]


def prove_library(root, crates, lock):
    """The archive of the last crate."""
    folder = root / "crates" / crates[-1]
    prove("lib", folder, crates, lock, stdin=subprocess.DEVNULL, stdout=subprocess.PIPE, stderr=subprocess.STDOUT)
    return folder / "out" / f"lib{crates[-1]}.a"


def prove(word, folder, crates, lock, **streams):
    """Runs `rt` in the crate's folder. All that it says is printed where it fails."""
    if shutil.which("rt") is None:
        raise Failed("rt, the Rattle toolchain, is missing: it is not on the PATH")
    say(f"proving and building {crates[-1]}, {len(crates)} crates; from nothing this takes minutes")
    with subprocess.Popen(["rt", word], cwd=folder, pass_fds=[lock.fileno()], start_new_session=True, encoding="utf-8",
                          errors="replace", **streams) as running:
        with stopped_with_us(running):
            log = followed(running.stdout or running.stderr, crates)
    if running.returncode != 0:
        say("this is what rt says:\n" + "".join(log).rstrip())
        raise Failed(f"rt {word} failed in crates/{crates[-1]}; where nothing above says why, remove crates/*/out/ and try again")


@contextlib.contextmanager
def stopped_with_us(running):
    """Where the command is stopped, all that runs for it is: it has a session of its own, which no key of a terminal reaches."""
    try:
        yield
    except BaseException:
        os.killpg(running.pid, signal.SIGTERM)
        raise


def followed(lines, crates):
    """All lines. Of each crate that `rt` begins and then proves it is told on the way."""
    log, crate, began = [], None, 0
    for line in lines:
        log.append(line)
        if begun := BEGUN.match(line):
            crate, began = begun[1], time.monotonic()
        elif line.startswith("logic=proved ") and crate in crates:
            say(f"proved {crates.index(crate) + 1} of {len(crates)} crates: {crate} ({time.monotonic() - began:.0f} s)")
            crate = None
    return log


# ---- Behind `rt ci`


def passed(root, before):
    """Takes the programs that `rt ci` left in each crate's out/, if the crates are still as they were before it."""
    uses = listed(root)
    with locked(root):
        if state(root, uses) == before:
            for name in uses:
                made, path = root / "crates" / name / "out" / name, root / "target/bin" / name
                if made.is_file():
                    take(made, path)
                    mark(root, needed(root, name), path)


def main(words):
    if words == ["sources"]:
        print(state(ROOT, listed(ROOT)))
    elif len(words) == 2 and words[0] == "passed":
        passed(ROOT, words[1])
    else:
        sys.exit(__doc__)


if __name__ == "__main__":
    main(sys.argv[1:])
