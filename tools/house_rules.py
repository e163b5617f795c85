"""The rules of the house: each is a function of the repository that yields findings, in the order in which they are told."""
import re
from collections import Counter, defaultdict
from typing import NamedTuple

from house_calls import Calls
from house_reading import NOT_PRODUCT, ROOMS, after, parts

WIDEST, WIDEST_PROOF, WIDEST_README = 132, 160, 100
PARAMETERS, FUNCTION_LINES, FILE_LINES, DEPENDENCIES, SENTENCE_WORDS = 6, 40, 500, 15, 45


class Place(NamedTuple):
    """Where something was found; line 0 stands for a whole file or folder."""
    path: str
    line: int
    what: str
    # How bad it is: the worst places are told first.
    size: int = 0


class Finding(NamedTuple):
    """What a rule counts, and where."""
    rule: str
    places: list
    note: str = ""
    # Where the count isn't that of the places.
    amount: int = None
    # A fact is told, and kept below a limit only where somebody writes one.
    is_fact: bool = False

    @property
    def count(self):
        return len(self.places) if self.amount is None else self.amount


def wide(files, limit, kinds=None):
    """The lines of files that have more columns than this; where kinds of lines are asked, those alone."""
    return [Place(file.path, number, f"{len(line)} columns", len(line))
            for file in files for number, line in enumerate(file.lines, 1)
            if len(line) > limit and (kinds is None or file.kinds[number - 1] in kinds)]


def widths(repository):
    """Lines that don't fit beside a diff."""
    kinds = {"code": ("code", "attribute"), "clauses": ("clause",), "comments": ("comment",), "imports": ("import",)}
    for name, lines in kinds.items():
        yield Finding(f"wide/{name}", wide(repository.rooms["src"], WIDEST, lines))
    yield Finding("wide/specs", wide(repository.rooms["specs"], WIDEST))
    yield Finding("wide/proofs", wide(repository.rooms["proofs"], WIDEST_PROOF))
    readme, others = ([page for page in repository.pages if (page.path == "README.md") == is_readme] for is_readme in (True, False))
    rows = sum(len(line) > WIDEST and line.startswith("|") for page in others for line in page.lines)
    yield Finding("wide/pages", wide(others, WIDEST), f"{rows} of them rows of tables")
    yield Finding("wide/readme", wide(readme, WIDEST_README), f"{len(wide(readme, WIDEST))} over {WIDEST}")


def functions(repository):
    """Functions that ask for too much, or take too long to read; files that do."""
    many, long, bare = [], [], []
    for source in repository.product():
        for function in source.functions:
            place = Place(source.path, function.line, function.full_name)
            lines = sum(1 for line in (function.body or "").split("\n") if line.strip())
            asked = len(function.parameters)
            if asked > PARAMETERS:
                many.append(place._replace(what=f"{place.what}: {asked} parameters", size=asked))
            if lines > FUNCTION_LINES:
                long.append(place._replace(what=f"{place.what}: {lines} lines", size=lines))
            if function.is_public and not has_docstring(source, function):
                bare.append(place)
    yield Finding("parameters", many, f"more than {PARAMETERS}, self included")
    yield Finding("long-functions", long, f"more than {FUNCTION_LINES} lines between the braces")
    yield Finding("no-docstring", bare, "public functions")
    sizes = [(len(source.lines) - 1, source.path) for source in repository.sources]
    over_400 = sum(size > 400 for size, path in sizes if path.endswith(".rt"))
    yield Finding("long-files", [Place(path, 0, f"{size} lines", size) for size, path in sizes if size > FILE_LINES],
                  f"more than {FILE_LINES} lines; .rt over 400: {over_400}")


def has_docstring(source, function):
    """Whether a comment that documents stands above the function, attributes between."""
    above = function.line - 2
    while above >= 0 and source.kinds[above] == "attribute":
        above -= 1
    return above >= 0 and source.lines[above].lstrip().startswith("///")


def reached(edges, start):
    """All that edges lead to from here."""
    found, left = set(), [start]
    while left:
        new = edges.get(left.pop(), set()) - found
        found |= new
        left += new
    return found


def module_cycles(repository):
    """Modules of a crate that use each other round about: none of them can be read first."""
    modules, edges = defaultdict(set), defaultdict(lambda: defaultdict(set))
    for source in repository.product():
        modules[source.crate].add(source.module)
    for source in repository.product():
        paths = [entry.path[1:] for entry in source.imports if entry.path[0] == "crate"]
        paths += [(name,) for name in re.findall(r"\bcrate::(\w+)", source.bare)]
        for path in paths:
            stems = ["::".join(path[:length]) for length in range(len(path), 0, -1)]
            edges[source.crate][source.module].add(next((stem for stem in stems if stem in modules[source.crate]), "lib"))
    rings = set()
    for crate, uses in edges.items():
        behind = {module: reached(uses, module) for module in uses}
        rings |= {(crate, tuple(sorted(other for other in behind[module] if module in behind.get(other, ())))) for module in uses}
    yield Finding("module-cycles", [Place(f"crates/{crate}/src/{ring[0].replace('::', '/')}.rt", 1, " <-> ".join(ring), len(ring))
                                    for crate, ring in sorted(rings) if len(ring) > 1])


def dependencies(repository):
    """crates.txt: dependencies that nothing in the crate names, or that others imply, and how the crates stand on each other."""
    own = {crate: {used for used in uses if used in repository.uses} for crate, uses in repository.uses.items()}
    texts, unnamed, implied = defaultdict(list), [], []
    for source in repository.sources:
        texts[source.crate].append(source.code if source.is_rust else source.text)
    for crate, uses in repository.uses.items():
        text, line = "\n".join(texts[crate]), repository.use_lines[crate]
        unnamed += [Place("crates.txt", line, f"{crate} -> {used}") for used in uses
                    if not any(form in text for form in (f"Rattle.{used}.", f"{used}::", f"use {used};"))]
        for used in sorted(own[crate]):
            above = [other for other in sorted(own[crate]) if used in reached(own, other)]
            implied += [Place("crates.txt", line, f"{crate} -> {used}, by {above[0]}", len(own[crate]))] if above else []
    yield Finding("dependencies/unnamed", unnamed, "of own crates and of ports")
    yield Finding("dependencies/implied", implied, f"of {sum(map(len, own.values()))} between own crates")
    fans = [Place("crates.txt", repository.use_lines[crate], f"{crate}: {len(uses)}", len(uses)) for crate, uses in own.items()]
    yield Finding("dependencies/fan-out", [fan for fan in fans if fan.size > DEPENDENCIES], f"more than {DEPENDENCIES} own crates")
    chain = longest_chain(own)
    yield Finding("dependencies/chain", [Place("crates.txt", repository.use_lines[crate], crate) for crate in chain],
                  f"up to {chain[-1]}" if chain else "")


def longest_chain(edges):
    """Crates each of which stands on the one before, as many as there are in a row; of several such chains one to the product."""
    chains = {}
    for crate in sorted(edges, key=lambda crate: len(reached(edges, crate))):
        chains[crate] = max((chains.get(used, ()) for used in sorted(edges[crate])), key=len, default=()) + (crate,)
    return max(chains.values(), key=lambda chain: (len(chain), chain[-1] not in NOT_PRODUCT), default=())


def type_names(repository):
    """Types of one name in several crates: a reader has to ask each time which it is."""
    homes = defaultdict(dict)
    for source in repository.product():
        for name, line in source.types:
            homes[name].setdefault(source.crate, (source.path, line))
    found = [Place(*next(iter(crates.values())), f"{name}: {', '.join(crates)}", len(crates)) for name, crates in homes.items()]
    yield Finding("type-names", [place for place in found if place.size > 1], f"of {len(homes)}")


class Classes:
    """The interface classes of the repository's table, and where their variants are declared."""

    def __init__(self, repository):
        rows = {source: re.findall(r"\bclass: \w+::(\w+),\s*class_id: (\d+)", source.bare) for source in repository.product()}
        self.table = max(rows, key=lambda source: len(rows[source]), default=None)
        self.numbers = {variant: int(number) for variant, number in rows.get(self.table, ())}
        # The crate in which a class itself stands, by its number.
        self.rooms = {int(number): source.crate for source in repository.product()
                      for number in re.findall(r"\bInterface \{[^{}]*\bclass_id: (\d+)", source.bare)}
        # Enums with a variant a class, as crate, module and name, and their variants with their places.
        self.enums, self.declared = set(), defaultdict(list)
        # From where definitions import variants; which variants each file of code names.
        self.homes, self.arms = set(), {}
        for source in repository.product():
            self.find_enums(source)
        for source in repository.product("specs"):
            for body in re.findall(r"^(?:pub )?data \w+[^\n]*where\n((?:[ ]+[^\n]*\n)+)", source.text, re.M):
                if self.are_classes(re.findall(r"^[ ]+(\w+) :", body, re.M)):
                    self.homes.add(dotted(source))
        for source in repository.product():
            self.arms[source.crate, source.module] = self.named(source)

    def find_enums(self, source):
        for head in re.finditer(r"\benum (\w+)[^{;]*(?=\{)", source.bare):
            start = head.end() + 1
            variants = found_at(outer(source.bare[start:after(source.bare, head.end()) - 1]), r"(?:\A|,)\s*(\w+)\s*(?=,|\Z)")
            if self.are_classes(name for _, name in variants):
                self.enums.add((source.crate, source.module, head[1]))
                self.homes.add(("Rattle", source.crate, "specs", "declared", *source.module.split("::"), head[1], "TheVariants"))
                self.declared[source] += [(start + place, name) for place, name in variants]

    def variant(self, name):
        """The class for which a name stands; a definition may have a digit behind it, where the name alone is taken."""
        return next((known for known in (name, name.rstrip("0123456789")) if known in self.numbers), None)

    def are_classes(self, names):
        return len({self.variant(name) for name in names} - {None}) > 2

    def named(self, source):
        """The variants that a file names, each with the first line."""
        found = [*self.declared[source]]
        if dotted(source) in self.homes:
            found += found_at(source.code, r"\b(\w+)")
        for entry in source.imports:
            if entry.path in self.homes:
                found += found_at(source.code, rf"\b{entry.name}\.(\w+)")
            elif entry.path[:-1] in self.homes:
                found += found_at(source.code, rf"\b({entry.path[-1]})\b")
        enums = {entry.name for entry in source.imports for _, module, name in self.enums
                 if entry.path[-2:] == (module.rpartition("::")[2], name)}
        enums |= {name for crate, module, name in self.enums if (crate, module) == (source.crate, source.module)}
        if source.is_rust and enums:
            found += found_at(source.bare, rf"\b(?:{'|'.join(enums)})::(\w+)")
        if source.room == "proofs":
            # (what is proved of an arm of the code is named for its variant)
            arms = self.arms.get((source.crate, source.module.partition("::")[0]), ())
            found += [(place, name) for place, name in found_at(source.code, r"\bin-(\w+)") if self.variant(name) in arms]
        lines = {}
        for place, name in sorted(found):
            lines.setdefault(self.variant(name), source.line_at(place))
        return {variant: line for variant, line in lines.items() if variant}


def dotted(source):
    return ("Rattle", source.crate, source.room, *source.module.split("::"))


def found_at(code, pattern):
    return [(match.start(1), match[1]) for match in re.finditer(pattern, code)]


def outer(text):
    """The text with blanks for attributes and for what stands in brackets."""
    bracketed, old = re.compile(r"#?\[[^\[\]]*\]|\([^(){}]*\)|\{[^(){}]*\}"), None
    while text != old:
        text, old = bracketed.sub(lambda inner: " " * len(inner.group()), text), text
    return text


def class_files(repository):
    """Files that name the variant of a class outside its room and the table: what a further class costs."""
    classes, places = Classes(repository), defaultdict(list)
    names = re.compile("|".join(classes.numbers) or r"\Z.")
    for source in repository.sources:
        if source is not classes.table and source.crate not in NOT_PRODUCT and names.search(source.text):
            for variant, line in classes.named(source).items():
                if source.crate != classes.rooms.get(classes.numbers[variant]):
                    places[variant].append(Place(source.path, line, variant, -ROOMS.index(source.room)))
    for variant in classes.numbers:
        rooms = Counter(place.path.split("/")[2] for place in places[variant])
        yield Finding(f"class/{variant}", places[variant], ", ".join(f"{room} {rooms[room]}" for room in ROOMS[:3]))
    yield from class_numbers(repository, classes)


def class_numbers(repository, classes):
    """Functions that know classes by their numbers, outside the table and the rooms of the classes."""
    found = []
    for source in repository.product():
        if source is not classes.table and source.crate not in classes.rooms.values():
            for function in source.functions:
                numbers = sorted({*numbers_beside_class(function.body or "")} & {*classes.numbers.values()})
                if numbers:
                    told = f"{function.full_name}: {', '.join(map(str, numbers))}"
                    found.append(Place(source.path, function.line, told, len(numbers)))
    yield Finding("class-numbers", found, "functions")


def numbers_beside_class(body):
    """The numbers with which something named `class` is compared, passed or matched."""
    for pattern in (r"\bclass\w*(?:\(\))?\s*[=!<>]=?\s*(\d+)\b", r"\b(\d+)\s*[=!<>]=?\s*[\w.]*\bclass", r"\bclass_id: (\d+)",
                    r"\(\s*(\d+),\s*[&\w.]*\bclass\w*\s*\)", r"\bclass\w*,\s*(\d+)\s*[,)]"):
        yield from map(int, re.findall(pattern, body))
    for head in re.finditer(r"\bmatch\s+([^{]*\bclass[^{]*)(?=\{)", body):
        for pattern in class_patterns(head[1].strip(), body[head.end():after(body, head.end())]):
            yield from map(int, re.findall(r"\b\d+\b", pattern))


def class_patterns(subject, arms):
    """The patterns of a match; of one over several things those for the thing named `class`."""
    for arm in re.findall(r"(?:\A|[,{}])\s*([^,{}()=>]*(?:\([^{}=>]*\))?[^,{}()=>]*?)\s*(?:if\b[^{}]*?)?=>", arms):
        if not subject.startswith("("):
            yield arm
            continue
        place = next((number for number, part in enumerate(parts(subject[1:-1])) if "class" in part), 0)
        for inner in re.findall(r"\(((?:[^()]|\([^()]*\))*)\)", arm):
            yield from parts(inner)[place:place + 1]


def uncalled(repository):
    """Public functions that no other file of the product calls, and what docs/RULES.md names as done by what nothing calls."""
    calls, found, own = Calls(repository.product()), [], 0
    for source in repository.product():
        for function in source.functions:
            if function.is_public and function.body is not None and not function.is_theorem and source.module != "laws":
                homes = {caller for caller, _ in calls.callers(source, function)}
                if homes <= {source}:
                    told = " (its own file calls it)" if homes else ""
                    found.append(Place(source.path, function.line, function.full_name + told, not homes))
                    own += len(homes)
    yield Finding("uncalled", found, f"{own} called in their own files")
    idle = [Place("docs/RULES.md", line, name) for line, name in done_by(repository)
            if any(not calls.callers(source, function) for source, function in named_function(repository, name))]
    yield Finding("rules-uncalled", idle, "'Done by' names what no product code calls")


def done_by(repository):
    """What docs/RULES.md names in its columns 'Done by', with the lines."""
    column = None
    for page in repository.pages:
        for number, line in enumerate(page.lines if page.path == "docs/RULES.md" else (), 1):
            cells = [cell.strip() for cell in line.strip().removeprefix("|").split("|")]
            if "Done by" in cells:
                column = cells.index("Done by")
            elif line.startswith("| ") and column is not None and column < len(cells):
                yield from ((number, name) for name in re.findall(r"`([^`]+)`", cells[column]))


def named_function(repository, name):
    """The function that `crate::module::Type::name` names, behind a dot a clause of it; theorems are none."""
    crate, *modules, last = name.partition(".")[0].split("::")
    owner = modules.pop() if modules and modules[-1][:1].isupper() else None
    for source in repository.product():
        if (source.crate, source.module) == (crate, "::".join(modules) or "lib"):
            for function in source.functions:
                is_owned = owner == (function.block.owner if function.block else None)
                if function.name == last and is_owned and function.body is not None and not function.is_theorem:
                    yield source, function


def wrappers(repository):
    """Functions that only hand their parameters on: a name, a contract and a proof for nothing. What a trait asks for is none."""
    found, fields = [], 0
    for source in repository.product():
        for function in source.functions:
            called = handed_on_to(function) if function.body and not (function.block and function.block.trait) else None
            if called and "." in called.rpartition(".")[0]:
                fields += 1
            elif called:
                found.append(Place(source.path, function.line, f"{function.full_name} is {called}"))
    yield Finding("wrappers", found, f"{fields} more hand on to a field")


def handed_on_to(function):
    """What a function calls with its parameters, one and all, if it does nothing else."""
    call = re.fullmatch(r"\s*((?:\w+(?:::<[^()]*>)?(?:::|\.))*\w+)(?:::<[^()]*>)?\((.*)\)\??\s*", function.body, re.S)
    if not call or after(function.body, call.start(2) - 1) <= call.end(2):
        return None
    value, is_method, _ = call[1].rpartition(".")
    given = [re.sub(r"^[&*]+\s*(?:mut )?", "", argument) for argument in parts(call[2])]
    given += [value.partition(".")[0]] if is_method else []
    names = [re.sub(r"^mut |^&.*(?=\bself$)", "", parameter.partition(":")[0].strip()) for parameter in function.parameters]
    return call[1] if names and sorted(given) == sorted(names) else None


def displays(repository):
    """Types that are printed by a `Display` of their own, each with a definition of its text."""
    shown = [(source, block) for source in repository.product() for block in source.blocks if block.trait == "Display"]
    crates = Counter(source.crate for source, _ in shown)
    found = [Place(source.path, source.line_at(block.start), block.owner, crates[source.crate]) for source, block in shown]
    yield Finding("displays", found, f"{sum('/flow_' in place.path for place in found)} in flow_*")


def sizes(repository):
    """How much there is of the product. Code has no blank line, comment, attribute, import or clause; definitions have imports."""
    crates, lines = defaultdict(Counter), Counter()
    for room in ROOMS[:3]:
        for source in repository.product(room):
            crates[source.crate].update((room, kind) for kind in source.kinds)
    for counts in crates.values():
        lines += counts
    filled = {room: sum(count for (place, kind), count in lines.items() if place == room and kind != "blank") for room in ROOMS[:3]}
    for name, room in (("code", "src"), ("specs", "specs"), ("proofs", "proofs")):
        found = {f"crates/{crate}/{room}": counts[room, "code"] for crate, counts in crates.items()}
        rows = [Place(path, 0, f"{count} lines", count) for path, count in found.items() if count]
        yield Finding(f"size/{name}", rows, f"{filled[room]} lines that aren't blank", lines[room, "code"], True)
    for room in ("specs", "proofs"):
        ratio, filled_ratio = (round(100 * count / max(1, lines["src", "code"])) for count in (lines[room, "code"], filled[room]))
        yield Finding(f"size/{room}-per-100-code", [], f"{filled_ratio} with comments", ratio, True)
    share = round(1000 * lines["src", "import"] / max(1, filled["src"]))
    yield Finding("size/imports-per-1000", [], "lines of src that aren't blank", share, True)


def pages(repository):
    """Documents: their sentences, and how long they are."""
    long = [Place(page.path, line, f"{words} words: {start}...", words)
            for page in repository.pages for line, words, start in long_sentences(page)]
    yield Finding("docs/sentences", long, f"more than {SENTENCE_WORDS} words")
    readme = [page for page in repository.pages if page.path == "README.md"]
    yield Finding("docs/readme-lines", [], "", sum(len(page.lines) for page in readme))
    sizes_of = {page.path: len(page.text.encode()) for page in repository.pages if page not in readme}
    rows = [Place(path, 0, f"{size} bytes", size) for path, size in sizes_of.items()]
    yield Finding("docs/bytes", rows, "README apart", sum(sizes_of.values()), True)


def long_sentences(page):
    """The sentences of a page that are too long, outside listings: line, words, and how each begins. A cell of a table ends one."""
    text = re.sub(r"^( *```).*?^\1", lambda listing: re.sub(r"[^\n]", " ", listing.group()), page.text, flags=re.M | re.S)
    ends = re.compile(r"""(?<=[.!?])[)*_"']*\s+(?=[A-Z`*_"'(\[])            # a stop, and how the next sentence may begin
        |\n\s*\n|\n(?=\s*(?:[-*+]|\d+\.|\#+|\|)\s)|\s\|\s|\n(?=[ ]{4})    # a paragraph, an item, a heading, a cell, a listing
        """, re.X)
    start = 0
    for end in [*ends.finditer(text), None]:
        sentence = text[start:end.start() if end else len(text)]
        words = sentence.split()
        if len(words) > SENTENCE_WORDS:
            yield text.count("\n", 0, start + len(sentence) - len(sentence.lstrip())) + 1, len(words), " ".join(words[:6])
        start = end.end() if end else len(text)


RULES = (widths, functions, module_cycles, dependencies, type_names, class_files, uncalled, wrappers, displays, sizes, pages)
