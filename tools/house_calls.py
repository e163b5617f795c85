"""Which functions the product calls, told by names, imports and what is known of the values on which methods are called.

A path (`module::name`, `Type::name`) and an imported name are told apart by the imports of their file. A method is called where one
of its name is called with as many arguments, on a value that may be of its type: `self` and parameters are of one type, any other
value may be of each type that its file names, that a function which it calls gives, or that a field at which it looks has.
"""
import bisect
import re
from collections import defaultdict
from typing import NamedTuple

from house_reading import after, bare_type, parts

METHOD = re.compile(r"(?:(?<![\w.)\]?])(?P<value>\w+)\s*)?\.\s*(?P<name>[a-z_]\w*)(?:::<[^()]*?>)?\(")
PATH = re.compile(r"(?<![\w:])(?P<path>(?:\w+(?:::<[^()]*?>)?::)+)(?P<name>[a-z_]\w*)\b")
FIELD = re.compile(r"^[ \t]*(?:pub(?:\([^)]*\))? )?(?P<name>[a-z_]\w*): (?P<type>[^\n]+)", re.M)


class Call(NamedTuple):
    """Where a function is named behind `::`, or a method is called."""
    source: object
    place: int
    # What stands before the name, step by step; None of a method.
    path: list
    # Of a method, the type of its value, if that can be told, and how many arguments there are.
    receiver: str
    arguments: int


class Calls:
    """All calls in the files of the product."""

    def __init__(self, sources):
        self.sources, self.crates = sources, {source.crate for source in sources}
        self.types = {name for source in sources for name, _ in source.types}
        self.exports, self.importers, self.by_name = {}, defaultdict(list), defaultdict(list)
        for source in sources:
            self.add_calls(source)
            for entry in source.imports:
                if entry.is_public:
                    self.exports[source.crate, entry.name] = self.first_crate(source, entry.path[0])
                elif not entry.is_ghost:
                    self.importers[entry.path[-1]].append((source, entry))
        self.known = self.types_known()

    def add_calls(self, source):
        for found in PATH.finditer(source.bare):
            path = re.sub(r"<[^()]*?>::", "", found["path"]).split("::")[:-1]
            self.by_name[found["name"]].append(Call(source, found.start("name"), path, "", 0))
        for found in METHOD.finditer(source.bare):
            arguments = len(parts(source.bare[found.end():after(source.bare, found.end() - 1) - 1]))
            receiver = self.type_of(source, found["value"], found.start()) if found["value"] else ""
            self.by_name[found["name"]].append(Call(source, found.start("name"), None, receiver, arguments))

    def type_of(self, source, value, place):
        """The type of `self` or of a parameter at this place, if it is the product's; empty for any other value."""
        if value == "self":
            block = source.block_at(place)
            return block.owner or block.trait if block else ""
        number = bisect.bisect([function.start for function in source.functions], place) - 1
        for parameter in source.functions[number].parameters if number >= 0 else ():
            name, _, kind = parameter.partition(":")
            if name.replace("mut ", "").strip() == value:
                return bare_type(kind) if bare_type(kind) in self.types else ""
        return ""

    def types_known(self):
        """Which types each file knows: those that it names, those of what it calls, and those of the fields at which it looks."""
        results, fields = defaultdict(set), defaultdict(set)
        for source in self.sources:
            for function in source.functions:
                own = {function.block.owner} if function.block and "Self" in function.result else set()
                results[function.name] |= self.types.intersection(re.findall(r"\w+", function.result)) | own
            for found in FIELD.finditer(source.bare):
                fields[found["name"]] |= self.types.intersection(re.findall(r"\w+", found["type"]))
        known = {}
        for source in self.sources:
            code, words = source.bare, source.words
            known[source] = (self.types & words.keys()) | {entry.path[-1] for entry in source.imports if not entry.is_ghost}
            for name in words.keys() & (results.keys() | fields.keys()):
                is_called = [code[place + len(name):place + len(name) + 3].startswith(("(", "::<")) for place in words[name]]
                known[source] |= results[name] if any(is_called) else set()
                known[source] |= fields[name] if any(code[place - 1] == "." for place in words[name]) else set()
        return known

    def first_crate(self, source, step):
        return step if step in self.crates else source.crate

    def crate_of(self, source, path):
        """The crate whose item a path of a file leads to, behind imports and re-exports."""
        entry = next((entry for entry in source.imports if entry.name == path[0] and not entry.is_ghost), None)
        steps = [*entry.path, *path[1:]] if entry else path
        crate = self.first_crate(source, steps[0])
        return self.exports.get((crate, steps[-1]), crate)

    def callers(self, home, function):
        """Where the product may call a function of a file, other than in its own body: files with lines."""
        found = [(call.source, call.place) for call in self.by_name[function.name] if self.may_call(call, home, function)]
        found += self.plain_calls(home, function) if function.block is None else ()
        return [(source, source.line_at(place)) for source, place in found
                if source is not home or not function.start <= place < function.end]

    def plain_calls(self, home, function):
        """Where a function is named without a path: in its own file, and where it is imported."""
        names = {home: function.name}
        for source, entry in self.importers[function.name]:
            rooms = {home.module.rpartition("::")[2], "crate", *self.crates}
            if self.crate_of(source, [entry.name]) == home.crate and rooms.issuperset(entry.path[-2:-1]):
                names[source] = entry.name
        for source, name in names.items():
            for place in source.words.get(name, ()):
                behind = source.bare[place + len(name):place + len(name) + 9]
                # (neither a method or a path, nor a field or a parameter of that name)
                if source.bare[place - 1] not in ".:" and not re.match(r"\s*:[^:]", behind):
                    yield source, place

    def may_call(self, call, home, function):
        if call.path is None:
            return function.takes_self and function.block is not None and self.may_be_on(call, function)
        stem = call.path[-1]
        if function.block is None:
            return stem == home.module.rpartition("::")[2] and self.crate_of(call.source, call.path) == home.crate
        if stem == "Self":
            around = call.source.block_at(call.place)
            return around is not None and around.owner == function.block.owner and call.source.crate == home.crate
        real = next((entry.path[-1] for entry in call.source.imports if entry.name == stem), stem)
        return real == function.block.owner and self.crate_of(call.source, call.path) == home.crate

    def may_be_on(self, call, function):
        """Whether the value on which a method is called may be of the function's type."""
        block = function.block
        if call.arguments != len(function.parameters) - 1:
            return False
        if call.receiver:
            return call.receiver in (block.owner, block.trait)
        return not self.known[call.source].isdisjoint({block.owner, block.trait})
