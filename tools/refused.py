"""Whether the prover refuses each fault of the must-fail edits at the fact that the edit names.

Usage: refused.py [CRATE..]    the edits of these crates, or of all

An edit, crates/CRATE/must-fail/LABEL.edit, puts one fault or several into a copy of its crate. Each is named on a line of its own,
before its `file:`, `old:` and `new:` lines:

    fault: NAME at FUNCTION     refused in the proof of that function
    fault: NAME at FILE.LAW     refused at that law, of FILE.antt in specs/ or right in proofs/

`rt ci` sees that the prover refuses something of each edit. Here each is put into a copy of the crates once more, and `rt check` tells
all that is refused. A function is proved by itself, from what its callees promise, so that the faults of an edit are refused each for
itself if they stand in different functions, and one run of the prover serves them all. Where it leaves a function's goals untried, since
they wait for a callee that has a fault too, the fault is put into the copy alone, for a run of its own.

What counts is an error of the fact's own, or a goal of the function's own that stays open: not that something else was refused, nor
that the code asks for a proof which is not there, or a proof for what the code has no more.

The copies stand among the temporary files, and are removed in the end.
"""
import concurrent.futures
import contextlib
import hashlib
import os
import pathlib
import queue
import re
import shutil
import subprocess
import sys
import tempfile

ROOT = pathlib.Path(__file__).resolve().parent.parent
COPIES = pathlib.Path(tempfile.gettempdir(), "uxt-refused-" + hashlib.sha256(bytes(ROOT)).hexdigest()[:16])
MOST = 4  # checks at once
MEMORY = 3 << 30  # bytes that a check may take

FAULT = re.compile(r"(?:# )?fault: (\w+) at ([\w.-]+)")
CYCLE = re.compile(r"#\[cycle\((\w+)\)\].*?\bfn (\w+)", re.S)
ERROR = re.compile(r"(?:\./)?(\S+\.antt):\d+:\d+: error: `([^`]+)`: (.*)")
NOT_ITS_OWN = re.compile(r"was not admitted|was rejected|has no `|has no field|is not in scope")
OPEN = re.compile(r"note: \S+:\d+:\d+: it is not proved that .*\(`([^`]+)`\)")
REFUSED = re.compile(r"fn \S*?(\w+): (?:not proved|no proof)")
ENDED = re.compile(r"^logic=(not-)?proved", re.M)
OF_FUNCTIONS = ("Answers.antt", "Invariants.antt", "Proof.antt")


class Bad(Exception):
    """Why an edit cannot be put in."""


# ---- Edits


class Edit:
    """`faults` has each fault's name and fact, `pairs` each change with the number of its fault."""

    def __init__(self, path):
        self.path, self.crate, self.name = path, path.parent.parent.name, f"{path.parent.parent.name}/{path.stem}"
        self.faults, self.pairs = [], []
        file = old = None
        for line in path.read_text(encoding="utf-8").split("\n"):
            if found := FAULT.fullmatch(line):
                self.faults.append(found.groups())
            elif line.startswith("file: "):
                file = line.removeprefix("file: ").strip()
            elif line.startswith("old: "):
                old = line.removeprefix("old: ")
            elif line.startswith("new:"):
                self.pairs.append((len(self.faults) - 1, file, old, line.removeprefix("new:").removeprefix(" ")))
        facts = [fact for _, fact in self.faults]
        if not facts or len(set(facts)) < len(facts) or {number for number, *_ in self.pairs} != set(range(len(facts))):
            sys.exit(f"{path}: it names no fault, two at one fact, or one that changes nothing")

    def texts(self, folder, numbers):
        """The files of the crate in that folder as these faults change them."""
        texts = {}
        for number, file, old, new in self.pairs:
            if number in numbers:
                text = texts[file] if file in texts else (folder / file).read_text(encoding="utf-8")
                if text.count(old) != 1:
                    raise Bad(f"{file} has {text.count(old)} times, and not once: {old}")
                texts[file] = text.replace(old, new)
        return texts


# ---- What the prover says


def cycles_of(folder):
    """The functions that call each other, by the name of their cycle."""
    members = {}
    for file in folder.glob("src/**/*.rt"):
        for cycle, name in CYCLE.findall(file.read_text(encoding="utf-8")):
            members.setdefault(cycle, set()).add(name)
    return members


def member(members, goal):
    """The function of a cycle whose goal it is, by the goal's name."""
    return next((word for word in goal.split("-") if word in members), None)


def refused_at(log, cycles):
    """The functions and laws at which something of their own is refused."""
    facts, left = set(), []
    of_function = {name: members for members in cycles.values() for name in members}
    for line in log.split("\n"):
        if found := OPEN.match(line):
            left.append(found[1])
        elif found := REFUSED.match(line):
            name = found[1]
            goals = left + re.findall(r"`search` did not prove (.*?)(?:;|$)", line)
            facts |= {member(of_function[name], goal.strip("`")) for goal in goals} if name in of_function else {name} if goals else set()
            left = []
        elif (found := ERROR.match(line)) and not NOT_ITS_OWN.search(found[3]):
            path = pathlib.PurePath(found[1])
            if path.name in OF_FUNCTIONS:
                folder = path.parent.name.removeprefix("+")
                facts.add(member(cycles[folder], found[2]) if folder in cycles else folder)
            else:
                facts.add(f"{path.stem}.{found[2]}")
    return facts - {None}


# ---- Runs of it


def rt(folder, *words):
    return subprocess.run(["rt", *words], cwd=folder, stdin=subprocess.DEVNULL, stdout=subprocess.PIPE, stderr=subprocess.STDOUT,
                          encoding="utf-8", errors="replace", check=False)


def proved(crates):
    """Proves the crates as they stand, in the order of crates.txt, so that the checks of the edits begin with that."""
    for crate in crates:
        ran = rt(ROOT / "crates" / crate, "lib")
        if ran.returncode:
            sys.exit(f"{ran.stdout}refused.py: {crate} is not proved as it stands")


def copied(to):
    """The crates, without what is made of them."""
    for crate in (ROOT / "crates").iterdir():
        for part in ("src", "specs", "proofs"):
            if (crate / part).is_dir():
                shutil.copytree(crate / part, to / "crates" / crate.name / part)
    shutil.copyfile(ROOT / "crates.txt", to / "crates.txt")
    return to


def refusals(edit, folder, numbers):
    """The facts at which the prover refuses the crate with these faults, in the copy, and how its run ended."""
    crate = folder / "crates" / edit.crate
    texts = edit.texts(crate, numbers)
    were = {file: (crate / file).read_text(encoding="utf-8") for file in texts}
    try:
        for file, text in texts.items():
            (crate / file).write_text(text, encoding="utf-8")
        ran = rt(crate, "check", "--jobs", "1")
        if not ENDED.search(ran.stdout):
            raise Bad("the check ended without a verdict:\n" + "\n".join(ran.stdout.split("\n")[-12:]))
        return refused_at(ran.stdout, cycles_of(crate))
    finally:
        for file, text in were.items():
            (crate / file).write_text(text, encoding="utf-8")


def tried(edit, folder):
    """What is to be said of an edit's faults: a line for each that is not refused at its fact."""
    try:
        together = refusals(edit, folder, range(len(edit.faults)))
        said = []
        for number, (name, fact) in enumerate(edit.faults):
            facts = together
            if fact not in facts and len(edit.faults) > 1:
                facts = refusals(edit, folder, [number])
            if fact not in facts:
                said.append(f"{edit.name}: {name} is not refused at {fact}, but at {sorted(facts)}")
        return said
    except Bad as bad:
        return [f"{edit.name}: {bad}"] + [f"{edit.name}: {name} is not tried" for name, _ in edit.faults[1:]]


def at_once():
    with open("/proc/meminfo", encoding="ascii") as file:
        free = 1024 * int(re.search(r"MemAvailable:\s+(\d+)", file.read())[1])
    return max(1, min(MOST, len(os.sched_getaffinity(0)), free // MEMORY))


@contextlib.contextmanager
def copies(count):
    """So many copies of the crates. Their place is the same in each run."""
    shutil.rmtree(COPIES, ignore_errors=True)
    try:
        yield [copied(COPIES / str(number)) for number in range(count)]
    finally:
        shutil.rmtree(COPIES, ignore_errors=True)


def main(names):
    listed = [line.partition(":")[0].split()[0] for line in (ROOT / "crates.txt").read_text().splitlines()]
    crates = [crate for crate in listed if (not names or crate in names) and any((ROOT / "crates" / crate).glob("must-fail/*.edit"))]
    edits = [Edit(path) for crate in crates for path in sorted((ROOT / "crates" / crate).glob("must-fail/*.edit"))]
    proved(crates)
    missed, count = 0, sum(len(edit.faults) for edit in edits)
    with copies(at_once()) as folders, concurrent.futures.ThreadPoolExecutor(len(folders)) as pool:
        free = queue.SimpleQueue()
        for folder in folders:
            free.put(folder)

        def in_one(edit):
            folder = free.get()
            try:
                return tried(edit, folder)
            finally:
                free.put(folder)

        for said in pool.map(in_one, edits):
            missed += len(said)
            print("".join(f"{line}\n" for line in said), end="", flush=True)
    print(f"{count} faults, {count - missed} refused at the fact that is named")
    sys.exit(missed != 0)


if __name__ == "__main__":
    main(sys.argv[1:])
