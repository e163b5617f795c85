"""Copies of the crates with a program of `tools` among them, or its tests, which the toolchain's unproved runner runs there.

Sources of such a program end in `.rattle`, since the gate asks of each `.rt` that it be of a crate which it proves.
"""
import pathlib
import re
import shutil

TOP = pathlib.Path(__file__).resolve().parent.parent

# The head of a test, whatever other attributes it has.
TEST = re.compile(r"^\s*#\[test\][^;{]*?\bfn (\w+)", re.M)


def sources(name):
    """The folder with the sources of the program of this name."""
    return TOP / "tools" / name / "src"


def tests(name):
    """The tests in the sources of this name, each behind the modules that it stands in."""
    for source in sorted(sources(name).rglob("*.rattle")):
        modules = source.relative_to(sources(name)).with_suffix("").parts
        yield from ("::".join([*modules, test]) for test in TEST.findall(source.read_text(encoding="utf-8")))


def copied(room, name, below):
    """A copy of the crates in this room, with the program of this name among them, which stands on those below; its folder there."""
    shutil.copytree(TOP / "crates", room / "crates", ignore=shutil.ignore_patterns("out", "data", "edits", "must-fail"))
    shutil.copy(TOP / "HANDLES", room)
    line = f"{name}: {' '.join(below)}\n"
    (room / "crates.txt").write_text((TOP / "crates.txt").read_text(encoding="utf-8") + line, encoding="utf-8")
    folder = room / "crates" / name
    for source in sorted(sources(name).rglob("*.rattle")):
        copy = folder / "src" / source.relative_to(sources(name)).with_suffix(".rt")
        copy.parent.mkdir(parents=True, exist_ok=True)
        shutil.copy(source, copy)
    return folder
