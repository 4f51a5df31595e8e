"""The C library: the proved archive and the texts of the refusals, as an archive and as a shared library in target/library/, and
where they are installed.

A file is made beside its place and then moved there, so that a program that has the old one open keeps it.
"""

import os
import pathlib
import re
import shlex
import shutil
import subprocess
import tempfile

from streams import Failed

PKG_CONFIG = """\
prefix={prefix}
includedir=${{prefix}}/include
libdir=${{prefix}}/lib

Name: uxt
Description: A proved reducer of unused JavaScript expressions
Version: {version}
Cflags: -I"${{includedir}}"
Libs: -L"${{libdir}}" -luxt
"""


def build(root, proved):
    """Makes the archive and the shared library, under its three names, of the proved archive. Answers with how to use them."""
    try:
        made = build_in(root, proved)
    except OSError as error:
        raise Failed(f"the library cannot be built: {error}") from None
    paths = root / "include", made / "libuxt.a", made, root / "python"
    include, archive, folder, python = (shlex.quote(str(path)) for path in paths)
    return (f"{archive}, {soname(root)} beside it\n"
            f"C:      cc -I{include} FILE.c {archive}\n"
            f"Rust:   rustc -L {folder} FILE.rs\n"
            f"Python: PYTHONPATH={python} python3 FILE.py\n")


def install(root, prefix):
    """Puts the header, the library and the pkg-config file under the prefix. Answers with their paths, a line each."""
    if not prefix:
        raise Failed("the prefix is empty")
    try:
        paths = install_under(root, pathlib.Path(os.path.abspath(prefix)))
    except OSError as error:
        raise Failed(f"the library cannot be installed: {error}") from None
    return "".join(f"{path}\n" for path in paths)


def build_in(root, proved):
    made = root / "target/library"
    made.mkdir(exist_ok=True)
    with tempfile.TemporaryDirectory(dir=made) as work:
        work = pathlib.Path(work)
        archive, shared = work / "libuxt.a", work / shared_name(root)
        compile_archive(root, proved, archive)
        compile_shared(root, archive, shared)
        for file in (archive, shared):
            os.replace(file, made / file.name)
    for name in names(root, made):  # no links: rt ci takes none in the repository
        put(name, (made / shared_name(root)).read_bytes())
    return made


def install_under(root, prefix):
    lib, described = prefix / "lib", pkg_config(root, prefix)
    sources = {prefix / "include/uxt.h": root / "include/uxt.h"}
    for name in ("libuxt.a", shared_name(root)):
        sources[lib / name] = root / "target/library" / name
    for source in sources.values():
        if not source.is_file():
            raise Failed(f"{source} is not there: the library is not built")
    for place, source in sources.items():
        put(place, source.read_bytes())
    put(lib / "pkgconfig/uxt.pc", described.encode())
    return [*sources, lib / "pkgconfig/uxt.pc", *link_names(root, lib)]


# ---- Names


def version(root):
    """What the header says."""
    return re.search(r'^#define UXT_VERSION "([0-9.]+)"$', (root / "include/uxt.h").read_text(), re.M)[1]


def shared_name(root):
    return f"libuxt.so.{version(root)}"


def soname(root):
    """What a program that is linked to the library looks for: the major version alone."""
    return f"libuxt.so.{version(root).split('.')[0]}"


def names(root, folder):
    """What the loader and the linker look for, in the folder of the shared library."""
    return [folder / soname(root), folder / "libuxt.so"]


def link_names(root, folder):
    """Links these names to the shared library. Answers with them."""
    for name in names(root, folder):
        new = beside(name)
        new.unlink(missing_ok=True)
        new.symlink_to(shared_name(root))
        os.replace(new, name)
    return names(root, folder)


# ---- What is made


def compile_archive(root, proved, archive):
    """The proved functions and the texts. The object fits a shared library, too."""
    texts = archive.with_name("refusal_text.o")
    run("cc", "-O2", "-fPIC", "-I", root / "include", "-c", root / "library/refusal_text.c", "-o", texts)
    shutil.copyfile(proved, archive)
    run("ar", "rcs", archive, texts)


def compile_shared(root, archive, shared):
    """All of the archive. The linker stops where code would be changed on loading, or a function is missing."""
    exports = ["-Xlinker", f"--version-script={root / 'library/exports.map'}"]
    run("cc", "-shared", f"-Wl,-soname,{soname(root)}", *exports, "-Wl,-z,text,-z,defs", "-Wl,--whole-archive", archive,
        "-Wl,--no-whole-archive", "-o", shared)


def pkg_config(root, prefix):
    """A path may have spaces, but none of what such a file or a shell takes for something else."""
    if re.search(r"[\"'`$\\#\n]", str(prefix)):
        raise Failed(f"a pkg-config file cannot say this prefix: {prefix}")
    return PKG_CONFIG.format(prefix=prefix, version=version(root))


def run(*words):
    try:
        done = subprocess.run([str(word) for word in words], stdout=subprocess.PIPE, stderr=subprocess.STDOUT, text=True)
    except FileNotFoundError:
        raise Failed(f"{words[0]} is missing: it is not on the PATH") from None
    if done.returncode != 0:
        raise Failed(f"{words[0]} fails:\n{done.stdout}")


def put(place, content):
    place.parent.mkdir(parents=True, exist_ok=True)
    new = beside(place)
    new.write_bytes(content)
    os.replace(new, place)


def beside(place):
    return place.with_name(f".{place.name}.{os.getpid()}")
