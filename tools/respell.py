"""Brings the repository's own names in specifications and proofs to snake case: run once, behind the upgrade of the language.

Usage: respell.py [names]    at the top of the repository; `names` prints each old name and its new one, and changes nothing

The names are those that specs/ defines: definitions, lemmas, constructors, fields and what is bound in them. A lemma that would fall
together with a definition gets `_lem`. Names of the library stay, and so do those of the functions in src/ and of their goals.
"""
import pathlib
import re
import sys

CRATES = pathlib.Path("crates")
NAME = r"(?<![\w'-])[A-Za-z_][\w'-]*(?![\w'])"
USE = re.compile(r"^\s*(?:pub |ghost )*use ([^;{}\n]+?)\.\{([^}]*)\}", re.M)
SIGNED = re.compile(r"^\s*(?:(?:abbrev|unfoldable|pub|data|record|module) )*((?:[\w'-]+ )*[\w'-]+)\s*:\s", re.M)
BOUND = re.compile(r"[({]((?:[\w'-]+ )*[\w'-]+) : ")
COMMENT = re.compile(r"(--|//).*")
# What the upgrade has brought to snake case already in specifications and proofs, and a definition falls together with now.
TURNED = ["right_of", "in_order", "end_fits", "of_two", "join_kept", "after_first", "whole_by"]


def files(*parts):
    """The files of the crates, by where they stand and how they end."""
    for part, ending in parts:
        for file in sorted(CRATES.glob(f"*/{part}/**/*{ending}")):
            if "out" not in file.parts:
                yield file


def from_library(text):
    """What a file imports from elsewhere than these crates."""
    own = {crate.name for crate in CRATES.iterdir()}
    names = set()
    for path, items in USE.findall(text):
        words = path.split(".")
        if words[0] != "Rattle" or words[1] not in own:
            names |= {item.strip().split(" as ")[-1] for item in items.split(",")}
    return names


def is_kebab(name):
    return "-" in name


def is_to_be_turned(name):
    return not name[0].isupper() and (is_kebab(name) or re.search("[a-z0-9][A-Z]", name))


def snake(name):
    return re.sub("([a-z0-9])([A-Z])", lambda m: m[1] + "_" + m[2].lower(), name).replace("-", "_")


def old_names():
    names, library = set(), set()
    for file in files(("specs", ".antt")):
        text = COMMENT.sub("", file.read_text())
        here = from_library(text)
        library |= here
        for found in SIGNED.findall(text) + BOUND.findall(text):
            names |= {name for name in found.split() if name not in here}
    return names


def new_names():
    """Each name that changes, with its new one."""
    names = old_names()
    turned = {name: snake(name) for name in names if is_to_be_turned(name)}
    camel = {new for name, new in turned.items() if not is_kebab(name)}
    for name, new in list(turned.items()):
        if is_kebab(name) and (new in camel or new in names):
            turned[name] = new + "_lem"
    for name in TURNED:
        turned[name] = name + "_lem"
    return turned


def in_code(text, turn):
    """The text with each name turned; in comments only one that is no plain word with a dash."""
    lines = []
    for line in text.splitlines(keepends=True):
        comment = COMMENT.search(line)
        at = comment.start() if comment else len(line)
        said = re.sub(NAME, lambda m: m[0] if is_kebab(m[0]) or "_" in m[0] else turn(m[0]), line[at:])
        lines.append(re.sub(NAME, lambda m: turn(m[0]), line[:at]) + said)
    return "".join(lines)


def main():
    turned = new_names()
    if sys.argv[1:] == ["names"]:
        for name, new in sorted(turned.items()):
            print(name, new)
        return
    for file in files(("specs", ".antt"), ("proofs", ".antt"), ("src", ".rt")):
        text = file.read_text()
        kept = from_library(text)
        if file.parts[2] == "proofs":  # its own names are those of goals
            kept |= set(re.findall(r"^(?:pub )?([\w'-]+) :", text, re.M))
        if file.parts[2] == "src":  # a function may have such a name
            kept |= set(TURNED)
        file.write_text(in_code(text, lambda name: name if name in kept else turned.get(name, name)))


main()
