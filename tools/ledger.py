"""The ledger of edits: under which files each edit was refused that the gate doesn't try itself, and how.

A line of `tools/edits.ledger` is an edit, a sum and a word. The sum is of all that the refusal depends on: the edit, the files of its crate, and of
the crates below the definitions and what a body above can see of the code, which is all but bodies; comments and the layout don't count. The word is
`goal` where a goal of a contract is false, `limit` where the prover stopped at one of its limits, and `name` where no more is known than
that a proof names what the edit took away.
"""
import hashlib
import re

import building
from building import TOP
from house_reading import RUST_BLANKS, Source, blank

LEDGER = TOP / "tools/edits.ledger"
# What the runner says of an edit that it tried.
OUTCOME = re.compile(r"must-fail (\w+)/(\w+)\.edit: (?:refused, as it must be(?: \(only (because|by))?|(NOT REFUSED|NOT TRIED|BAD EDIT))")
WORDS = {None: "goal", "because": "name", "by": "limit"}


def bare(text, is_rust):
    """A text without comments, in one line."""
    if is_rust:
        text = RUST_BLANKS.sub(lambda it: blank(it) if it.group().startswith("/") else it.group(), text)
    else:
        text = re.sub(r"(?<!\S)--[^\n]*", "", text)
    return " ".join(text.split())


def seen_from_above(source):
    """A file without the bodies of its functions."""
    if not source.is_rust:
        return bare(source.text, False)
    kept, at = [], 0
    for function in sorted(source.functions, key=lambda it: it.end):
        start = function.end - len(function.body or "") - 1
        if start >= at:
            kept.append(source.text[at:start])
            at = function.end - 1
    return bare("".join((*kept, source.text[at:])), True)


class Sums:
    """The sums of edits, over the files as they are."""

    def __init__(self):
        self.below, self.faces, self.wholes = building.crates(), {}, {}

    def sources(self, crate, rooms):
        files = (path for room in rooms for path in sorted((TOP / "crates" / crate / room).rglob("*")) if path.suffix in (".rt", ".antt"))
        return [Source(TOP, path) for path in files]

    def face(self, crate):
        if crate not in self.faces:
            found = hashlib.sha256()
            for source in self.sources(crate, ("src", "specs")):
                found.update(f"{source.path}\0{seen_from_above(source)}\0".encode())
            self.faces[crate] = found.digest()
        return self.faces[crate]

    def whole(self, crate):
        """The sum of a crate's own files, and of what is seen of those below it."""
        if crate not in self.wholes:
            found, left, done = hashlib.sha256(), list(self.below[crate]), set()
            for source in self.sources(crate, ("src", "specs", "proofs")):
                found.update(f"{source.path}\0{bare(source.text, source.is_rust)}\0".encode())
            while left:
                name = left.pop()
                if name not in done:
                    done.add(name)
                    left += self.below[name]
            for name in sorted(done):
                found.update(self.face(name))
            self.wholes[crate] = found.digest()
        return self.wholes[crate]

    def of(self, edit):
        crate = edit.parent.parent.name
        return hashlib.sha256(self.whole(crate) + edit.read_bytes()).hexdigest()[:20]


def read():
    """The sum and the word of each edit of the ledger, by `crate/edit`."""
    lines = LEDGER.read_text(encoding="utf-8").splitlines() if LEDGER.is_file() else []
    return {name: (total, word) for name, total, word in (line.split() for line in lines if not line.startswith("#"))}


def write(known):
    head = "# Edits that were refused, each with a sum of what that depends on, and how. `tools/try-edits` writes it as it tries.\n"
    LEDGER.write_text(head + "".join(f"{name} {total} {word}\n" for name, (total, word) in sorted(known.items())), encoding="utf-8")


def outcome(line):
    """What a line of the runner says of an edit: its name and a word of the ledger, or None for the word where it wasn't refused."""
    found = OUTCOME.search(line)
    return found and (f"{found[1]}/{found[2]}", None if found[4] else WORDS[found[3]])
