#!/usr/bin/env python3
"""Tests of the command `uxt`: what is printed where, and with which status, whatever happens to what is read and written.

  command_line.py           on the programs of this repository, which must be built
  command_line.py first     first uses: interrupted, killed, two at once, tools missing, not passed; in a copy that has nothing
                            built
"""

import fcntl
import os
import pathlib
import pty
import re
import shlex
import shutil
import signal
import subprocess
import sys
import tempfile
import time


ROOT = pathlib.Path(__file__).resolve().parent.parent
UXT = ROOT / "uxt"
EXAMPLES = ROOT / "examples"
COLUMNS = (EXAMPLES / "columns.uxt").read_bytes()
PRINTED = (ROOT / "crates/columns/stdout").read_bytes()
PROGRAMS = ("columns", "reduce", "show", "validate", "explain")
PATIENCE = 60  # seconds

count = 0


def require(same, what):
    global count
    count += 1
    if not same:
        sys.exit(f"command_line.py: {what}")


def uxt(*words, data=None, closed=(), **more):
    """The status, standard output and standard error of the command; some of its descriptors are closed."""
    if data is None:
        more.setdefault("stdin", subprocess.DEVNULL)
    more.setdefault("stdout", subprocess.PIPE)
    more.setdefault("stderr", subprocess.PIPE)
    ran = subprocess.run([more.pop("command", UXT), *words], input=data, timeout=PATIENCE, check=False,
                         preexec_fn=lambda: [os.close(number) for number in closed], **more)
    return ran.returncode, ran.stdout, ran.stderr


def fails(what, said, *words, **more):
    """The command answers nothing: status 2, and what failed on standard error."""
    status, out, err = uxt(*words, **more)
    require((status, out or b"", err) == (2, b"", f"uxt: {said}\n".encode()), f"{what}: {status}, {out!r}, {err!r}")


def is_answer(what, expected, *words, **more):
    given = uxt(*words, **more)
    require(given == expected, f"{what}: {given!r}, and it must be {expected!r}")


# ---- Statuses


def statuses():
    is_answer("answered", (0, PRINTED, b""), "columns", EXAMPLES / "columns.uxt")
    is_answer("removable", (0, b"", b""), "reduce", EXAMPLES / "typeof.uxt")
    is_answer("refused", (1, b"refused 7\n", b""), "columns", EXAMPLES / "broken.uxt")
    is_answer("refused, in words", (1, b"refused 7\n", b""), "columns", "--words", EXAMPLES / "broken.uxt")
    is_answer("refused by reduce", (1, b"", b"refused 6\n"), "reduce", EXAMPLES / "logical.uxt")
    is_answer("refused by show", (1, b"refused 7\n", b""), "show", EXAMPLES / "broken.uxt")
    shown = b"uxt 1\nlogical and text 0 place 0\n  identifier text 1 place 0\n  identifier text 2 place 5\n"
    is_answer("shown, though reduce refuses it", (0, shown, b""), "show", EXAMPLES / "logical.uxt")
    is_answer("refused by validate", (1, b"refused 1\n", b""), "validate", data=b"")
    for file, status in (("columns.uxt", 0), ("broken.uxt", 1)):
        given, out, err = uxt("explain", EXAMPLES / file)
        require((given, err) == (status, b"") and out != b"", f"explain {file}: {given}, {err!r}")


def usages():
    for words in ((), ("-h",), ("--help",), ("columns", "--help"), ("explain", "-h")):
        status, out, err = uxt(*words)
        require((status, err) == (0, b"") and out.startswith(b"usage: "), f"{words}: {status}, {err!r}")
    text = uxt("--help")[1].decode()
    users, tests = text.split("programs of the tests:")
    for name in PROGRAMS:
        require(re.search(rf"^( +|.*uxt ){name}\b", users, re.MULTILINE) is not None, f"the usage lacks {name}")
    require(re.search(r"^ +edges ", tests, re.MULTILINE) is not None, "the usage has edges among the programs for users")
    version = re.search(r'#define UXT_VERSION "(.*)"', (ROOT / "include/uxt.h").read_text()).group(1)
    is_answer("--version", (0, f"uxt {version}\n".encode(), b""), "--version")
    usage = "; `uxt --help` has the usage"
    fails("an unknown program", f"there is no program 'column'{usage}", "column")
    fails("a path for a name", f"there is no program '../columns'{usage}", "../columns")
    fails("an unknown option", f"there is no option '--word'{usage}", "columns", "--word")
    fails("another program's option", f"there is no option '--words'{usage}", "show", "--words")
    fails("an option for a name", f"there is no option '--columns'{usage}", "--columns")
    fails("two files", f"one FILE at most, and 'b' is a second{usage}", "columns", "a", "b")
    fails("install without a prefix", f"install needs a PREFIX, the folder to put the library under{usage}", "install")


# ---- Reads and writes that fail


def reads():
    for name in PROGRAMS:
        fails(f"{name} of a folder", "cannot read '/': Is a directory", name, "/")
        fails(f"{name} of a missing file", "cannot read 'no/file': No such file or directory", name, "no/file")
        fails(f"{name}, input closed", "cannot read standard input: it is closed", name, closed=[0])
        with open("/proc/self/mem", "rb") as memory:
            fails(f"{name}, a read that fails", "cannot read standard input: Input/output error", name, stdin=memory)
    folder = os.open("/", os.O_RDONLY)
    fails("input is a folder", "cannot read standard input: Is a directory", "columns", stdin=folder)
    os.close(folder)
    is_answer("input closed, and a file", (0, PRINTED, b""), "columns", EXAMPLES / "columns.uxt", closed=[0])


def writes():
    for name in PROGRAMS:
        with open("/dev/full", "wb") as full:
            fails(f"{name} onto a full disk", "cannot write standard output: No space left on device", name,
                  EXAMPLES / "columns.uxt", stdout=full)
        fails(f"{name}, output closed", "cannot write standard output: it is closed", name, EXAMPLES / "columns.uxt", closed=[1])
    for help_ in ((), ("--help",), ("--version",)):
        with open("/dev/full", "wb") as full:
            fails(f"{help_} onto a full disk", "cannot write standard output: No space left on device", *help_, stdout=full)
    taken, given = os.pipe()
    os.close(taken)
    fails("nobody reads", "cannot write standard output: Broken pipe", "columns", EXAMPLES / "columns.uxt", stdout=given)
    os.close(given)
    with open("/dev/full", "wb") as full:
        is_answer("a refusal onto a full disk", (2, b"", None), "reduce", EXAMPLES / "broken.uxt", stderr=full)
    is_answer("a refusal, standard error closed", (2, b"", b""), "reduce", EXAMPLES / "broken.uxt", closed=[2])
    is_answer("an answer, standard error closed", (0, PRINTED, b""), "columns", EXAMPLES / "columns.uxt", closed=[2])


# ---- Where the input comes from


def inputs():
    is_answer("standard input", (0, PRINTED, b""), "columns", data=COLUMNS)
    is_answer("standard input by -", (0, PRINTED, b""), "columns", "-", data=COLUMNS)
    is_answer("an input without an end", (1, b"refused 1\n", b""), "columns", "/dev/zero")
    taken, given = os.pipe()
    os.write(given, bytes(40_000))  # more than is read, and the end stays open
    is_answer("an input whose end is not reached", (1, b"refused 1\n", b""), "columns", stdin=taken)
    os.close(given)
    os.close(taken)


def heed_signals():
    """The tests may run where an interrupt is ignored, and what they start would ignore it too."""
    signal.signal(signal.SIGINT, signal.SIG_DFL)


def stopped():
    """A command that waits for input ends by the signal that is sent to it alone."""
    for name in ("columns", "explain"):
        for number in (signal.SIGTERM, signal.SIGINT):
            with subprocess.Popen([UXT, name], stdin=subprocess.PIPE, stdout=subprocess.PIPE, stderr=subprocess.PIPE,
                                  preexec_fn=heed_signals) as running:
                time.sleep(0.5)  # until it reads
                running.send_signal(number)
                running.wait(timeout=PATIENCE)
            require(running.returncode == -number, f"{name} stopped by {number}: {running.returncode}")


def terminal():
    """At a terminal the command says what it waits for; the end of the input is typed."""
    outer, inner = pty.openpty()
    for name in ("columns", "explain"):
        os.write(outer, b"\x04")
        status, out, err = uxt(name, stdin=inner)
        require(b"standard input, which is a terminal" in err, f"{name} at a terminal says {err!r}")
        require(status == 1 and out.startswith(b"refused 1\n"), f"{name} at a terminal: {status}, {out!r}")
    os.close(outer)
    os.close(inner)


NAMES = (b"a b.uxt", b"it's.uxt", b'a "b".uxt', b"a\nb.uxt", b"-a.uxt", b"--words.uxt", b"$HOME.uxt", b"a;b.uxt", b"*.uxt",
         b"\xff.uxt", "ä.uxt".encode())


def names():
    with tempfile.TemporaryDirectory() as folder:
        for name in NAMES:
            pathlib.Path(folder, os.fsdecode(name)).write_bytes(COLUMNS)
            is_answer(f"the file {name!r}", (0, PRINTED, b""), "columns", "--", name, cwd=folder)
        require(b"'a\\nc.uxt'" in uxt("columns", "a\nc.uxt", cwd=folder)[2], "a name of two lines is not told in one")
        recipe(folder, (0, PRINTED))
        pathlib.Path(folder, "broken.uxt").write_bytes((EXAMPLES / "broken.uxt").read_bytes())
        recipe(folder, (123, PRINTED))


def recipe(folder, expected):
    """README's line for many files, in a folder with these names, makes a row of each."""
    line, = (line.strip() for line in (ROOT / "README.md").read_text().splitlines() if "xargs -0" in line)
    command = line.replace("FOLDER", shlex.quote(folder))
    ran = subprocess.run(["sh", "-c", command], cwd=ROOT, timeout=PATIENCE, check=False, capture_output=True)
    rows = [pathlib.Path(folder, os.fsdecode(name) + ".row").read_bytes() for name in NAMES]
    require((ran.returncode, set(rows)) == (expected[0], {expected[1]}),
            f"the recipe for many files: {ran.returncode}, {ran.stderr!r}")


def places():
    """The command by a link, from another folder; a file that is a link."""
    with tempfile.TemporaryDirectory() as folder:
        link, file = pathlib.Path(folder, "my uxt"), pathlib.Path(folder, "link.uxt")
        link.symlink_to(UXT)
        file.symlink_to(EXAMPLES / "columns.uxt")
        is_answer("by a link, from another folder", (0, PRINTED, b""), "columns", "link.uxt", command=link, cwd=folder)
        is_answer("by a relative path", (0, PRINTED, b""), "columns", "columns.uxt", command="../uxt", cwd=EXAMPLES)


def at_once():
    running = [subprocess.Popen([UXT, "columns", EXAMPLES / "columns.uxt"], stdout=subprocess.PIPE) for _ in range(8)]
    require([run.communicate(timeout=PATIENCE)[0] for run in running] == [PRINTED] * 8, "eight at once differ")


# ---- First uses

NAME = "derived_rows"  # the program that rests on the fewest crates
CRATES = 5  # it and those that it rests on
LOWEST = "stated"
BUILT = 600  # seconds that a build may take


def first_uses():
    with tempfile.TemporaryDirectory() as folder:
        copy = pathlib.Path(folder, "a copy")
        copy.mkdir()
        for name in ("crates", "tools"):
            shutil.copytree(ROOT / name, copy / name, ignore=shutil.ignore_patterns("__pycache__", "out"))
        for name in ("crates.txt", "uxt"):
            shutil.copy2(ROOT / name, copy)
        make_new(copy)
        without_tools(copy)
        told(copy)
        require(not goes_on(copy, 4), "interrupted, and the proofs go on")
        interrupted(copy, signal.SIGTERM)
        require(not goes_on(copy, 4), "ended, and the proofs go on")
        interrupted(copy, signal.SIGKILL)
        require(is_proving(copy), "killed, and what still runs holds no lock")
        two_at_once(copy)
        not_passed(copy)


def make_new(copy):
    """Changes the lowest crate by a comment: what another copy of the repository has proved, `rt` would take from there."""
    with open(copy / f"crates/{LOWEST}/src/lib.rt", "a", encoding="utf-8") as source:
        source.write(f"// {time.time_ns()}\n")


def started(copy):
    with open(copy / f"crates/{NAME}/stdin", "rb") as cases:
        return subprocess.Popen([copy / "uxt", NAME], stdin=cases, stdout=subprocess.PIPE, stderr=subprocess.PIPE,
                                start_new_session=True, preexec_fn=heed_signals)


def without_tools(copy):
    """`rt` is not on the PATH, then Python neither."""
    folder = copy / "bin"
    folder.mkdir()
    for tool, path in (("readlink", None), ("dirname", None), ("python3", sys.executable)):
        (folder / tool).symlink_to(path or shutil.which(tool))
    more = {"command": copy / "uxt", "env": {"PATH": str(folder)}}
    fails("without rt", "rt, the Rattle toolchain, is missing: it is not on the PATH", NAME, **more)
    (folder / "python3").unlink()
    fails("without Python", "python3 is missing: it is not on the PATH", NAME, **more)


def told(copy):
    """A first use tells each crate that is proved, and how many there are; it is interrupted as by a key."""
    running = started(copy)
    lines = [running.stderr.readline() for _ in range(2)]
    told, proved = (line.decode() for line in lines)
    require(told == f"uxt: proving and building {NAME}, {CRATES} crates; from nothing this takes minutes\n"
            and re.fullmatch(rf"uxt: proved 1 of {CRATES} crates: {LOWEST} \(\d+ s\)\n", proved),
            f"a first use says {lines!r}")
    ended_by(running, signal.SIGINT)


def interrupted(copy, number):
    """A later use is stopped too, once `rt` runs."""
    running = started(copy)
    end = time.monotonic() + PATIENCE
    while not is_proving(copy) and time.monotonic() < end:
        time.sleep(0.1)
    time.sleep(1)
    ended_by(running, number)


def ended_by(running, number):
    os.killpg(running.pid, number)
    out, _ = running.communicate(timeout=PATIENCE)
    require((running.returncode, out) == (-number, b""), f"stopped by {number}: {running.returncode}, {out!r}")


def is_proving(copy):
    """Whether the lock is held."""
    with open(copy / "target/uxt.lock", encoding="ascii") as lock:
        try:
            fcntl.flock(lock, fcntl.LOCK_EX | fcntl.LOCK_NB)
        except BlockingIOError:
            return True
    return False


def goes_on(copy, seconds):
    """Whether proofs still run after so many seconds."""
    end = time.monotonic() + seconds
    while is_proving(copy) and time.monotonic() < end:
        time.sleep(0.1)
    return is_proving(copy)


def two_at_once(copy):
    """Two uses at once, behind one that was killed: both wait and answer."""
    both = [started(copy), started(copy)]
    expected = (copy / f"crates/{NAME}/stdout").read_bytes()
    for running in both:
        out, err = running.communicate(timeout=BUILT)
        require((running.returncode, out) == (0, expected), f"two at once: {running.returncode}, {err!r}")
        require(b"waiting for it" in err, f"one of two at once does not wait: {err!r}")


def not_passed(copy):
    """A program that does not write what it must is not run, nor the next time; nor is one that is not proved."""
    stored = copy / f"crates/{NAME}/stdout"
    expected = stored.read_bytes()
    stored.write_bytes(expected + b"more\n")
    other = f"{NAME} does not write what crates/{NAME}/stdout has"
    is_not_run(copy, other)
    is_not_run(copy, other)
    stored.write_bytes(expected)
    out, err = started(copy).communicate(timeout=BUILT)
    require(out == expected, f"passed again, and it answers {out!r}, {err!r}")
    with open(copy / f"crates/{NAME}/src/main.rt", "a", encoding="utf-8") as source:
        source.write("\nfn wrong() -> u8 {\n    256\n}\n")
    is_not_run(copy, f"rt run failed in crates/{NAME}")


def is_not_run(copy, why):
    running = started(copy)
    out, err = running.communicate(timeout=BUILT)
    require((running.returncode, out) == (2, b"") and f"uxt: {why}".encode() in err, f"not passed: {out!r}, {err!r}")


def main(words):
    if words == []:
        for group in (statuses, usages, reads, writes, inputs, stopped, terminal, names, places, at_once):
            group()
    elif words == ["first"]:
        first_uses()
    else:
        sys.exit(__doc__)
    print(f"command line: {count} checks passed")


if __name__ == "__main__":
    main(sys.argv[1:])
