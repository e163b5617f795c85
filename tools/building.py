"""What the tools know of the program's crates: which there are, what they are made of, and what each costs."""
import hashlib
import os
import pathlib
import re
import sys

TOP = pathlib.Path(__file__).resolve().parent.parent
# The crate of the program.
PROGRAM = "cosem_flow"
# The folders of a crate that its proof reads.
SOURCES = ("src", "specs", "proofs")
# A row of docs/GATE.md: a crate and the processor seconds of its proof.
ROW = re.compile(r"^\| `(\w+)` \| (\d+) \|")


def tell(text):
    """Tells one line on standard error."""
    print(f"cosem-flow: {text}", file=sys.stderr, flush=True)


def crates():
    """The crates with those below each, lowest first, as crates.txt has them."""
    below = {}
    for line in (TOP / "crates.txt").read_text(encoding="utf-8").splitlines():
        name, found, words = line.partition(":")
        if found and not line.startswith("#"):
            below[name] = words.split()
    return {name: [it for it in words if it in below] for name, words in below.items()}


def crates_of_program():
    """The crates that the program is made of, with those below each, lowest first."""
    below, needed, left = crates(), set(), [PROGRAM]
    while left:
        name = left.pop()
        if name not in needed:
            needed.add(name)
            left += below[name]
    return {name: words for name, words in below.items() if name in needed}


def sum_of_sources(names):
    """A sum of what these crates are made of, by the names and the contents of the files."""
    found = hashlib.sha256()
    files = [TOP / "crates.txt", TOP / "HANDLES"]
    for name in names:
        for part in SOURCES:
            files += sorted(it for it in (TOP / "crates" / name / part).rglob("*") if it.is_file())
    for file in files:
        found.update(f"{file.relative_to(TOP)}\0".encode())
        found.update(hashlib.sha256(file.read_bytes()).digest())
    return found.hexdigest()


def costs_of(names):
    """The processor seconds of each crate's proof, as docs/GATE.md has them, or a minute for one that it lacks."""
    costs = dict.fromkeys(names, 60)
    for line in (TOP / "docs" / "GATE.md").read_text(encoding="utf-8").splitlines():
        row = ROW.match(line)
        if row and row[1] in costs:
            costs[row[1]] = int(row[2])
    return costs


def processors():
    return len(os.sched_getaffinity(0))


def seconds_wanted(below, costs, done=frozenset()):
    """The seconds that the proofs of these crates want that aren't done: the work by the processors, or the longest chain."""
    chain = {}
    for name, words in below.items():
        chain[name] = max((chain[it] for it in words), default=0) + (0 if name in done else costs[name])
    work = sum(cost for name, cost in costs.items() if name not in done)
    return max(work / processors(), max(chain.values()))


def time_to_build():
    """How long a build takes from nothing, in words."""
    below = crates_of_program()
    minutes = round(seconds_wanted(below, costs_of(below)) / 60) + 1
    return f"about {minutes} minutes on {processors()} processors"
