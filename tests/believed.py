#!/usr/bin/env python3
"""Lists what a reader of the public contracts has to believe: the definitions that these contracts lead to.

A contract is proved, so what can be wrong is what it says. What it says is in the files of `specs/` that its clauses
name, and in those that these import. This script reads the sources (it runs no prover) and follows the names:

    roots       the `requires` and `ensures` of the public functions of a crate and of the methods of its public types,
                what an `impl` of a public type says of it (`ghost eq = ..`, a model's `Value` and `view`), and the
                ghost fields of public types. Of a program, those of the functions that its `main.rt` imports.
    edges       from a definition to each definition of the repository that its text names
    not roots   laws: public functions without parameters and without a result, and those of a module `laws`. Such a
                contract says something of definitions that are believed already, and nobody has to believe it. Nor
                what is proved in an `impl` (`ghost laws = ..`).

Names are followed as the sources import them. A variable with the name of an imported definition counts as that
definition, so the list may be too long by a definition, and is never too short by one.

    tests/believed.py                    the files of each crate and of the program, with their lines and definitions.
                                         They are in the order of reading: each file after those that it uses, and
                                         otherwise in the order of crates.txt and of its crate's specs/Lib.antt, or for
                                         one in a folder of specs/ in that of the file with the folder's name
    tests/believed.py CRATE..            only these crates
    tests/believed.py --unreached        the definitions of these files that no public contract reaches
    tests/believed.py --check            fails with a line for each fault:
                                           - the numbers of docs/BELIEVE.md are not those of the sources
                                           - a file is not in its part there: in the first part are those that the
                                             program's contract leads to, in the second all others
                                           - the files of a table there are not in the order of reading, or a file
                                             comes before one of its part that it uses
                                           - a file of specs/, and not of its folders laws, private and examples,
                                             defines something, and no public contract of any crate leads to it
                                           - a public contract leads into specs/laws, specs/private or specs/examples
                                           - a believed file imports from a `proofs` folder of the repository
                                           - a file of a crate names a lemma of another crate of the repository that
                                             is not in the folder `proofs/shared` there
                                           - nothing cites a lemma of a `proofs` folder
    tests/believed.py --write            writes the numbers of docs/BELIEVE.md anew, puts each file into its part, and
                                         the rows of each table in the order of reading; the words of a row stay
"""
import argparse
import collections
import dataclasses
import functools
import itertools
import pathlib
import re
import sys

ROOT = pathlib.Path(__file__).resolve().parent.parent
CRATES = ROOT / "crates"
PAGE = ROOT / "docs" / "BELIEVE.md"
PROGRAM = "jql"

# Modules whose public functions are laws, whatever their parameters.
LAW_MODULES = {"laws"}
# What an `impl` proves, and does not say.
PROVED_FIELDS = {"laws", "total", "coded", "invariant", "matches_eq", "matches_partial_cmp"}
# Folders of specs/ that a public contract does not lead to.
APART = ("laws", "private", "examples")


# ---- the definitions: .antt

TOP_WORDS = {"pub", "abbrev", "unfoldable", "data", "record", "mutual", "ruleset"}
BREAKS = re.compile(r"[\s(){}\[\],;]+")


@dataclasses.dataclass
class Definition:
    """A definition: the names that it gives (its constructors too), its text and how many lines it has."""

    names: list
    text: str
    lines: int


@dataclasses.dataclass
class Spec:
    """A file of definitions: what it imports, as pairs of a local name and its origin, and what it defines."""

    crate: str
    module: str
    path: pathlib.Path
    imports: dict
    definitions: list
    lines: int

    @functools.cached_property
    def by_name(self):
        return {name: definition for definition in self.definitions for name in definition.names}


def words_of(text):
    """The names in a text of definitions or of a clause, each as the parts that stand between its points."""
    for chunk in BREAKS.split(text):
        parts = tuple(part for part in chunk.split(".") if part)
        if parts:
            yield parts


def uses_of(text, known):
    """The names in a text, and of the known operators (as `◌≤◌`) those whose signs it has."""
    words = set(words_of(text))
    signs = {part for parts in words for part in parts}
    operators = {(name,) for name in known if "◌" in name and signs.issuperset(filter(None, name.split("◌")))}
    return words | operators


def without_strings(text):
    return re.sub(r'"(?:[^"\\]|\\.)*"', '""', text)


def imports_of(line):
    """The local names that a `use` line brings, each with the path that it stands for (and `*` for all of a module)."""
    path, _, leaves = line.partition(".{")
    path, _, alias = path.partition(" as ")
    path = path.strip().rstrip(";").removesuffix(".*")
    if not leaves:
        yield (alias.strip().rstrip(";") or path.rpartition(".")[2]), path
        return
    for leaf in leaves.rstrip(" ;").removesuffix("}").split(","):
        name, _, alias = leaf.strip().partition(" as ")
        if name:
            yield (alias.strip() or name), f"{path}.{name}"


def given_names(block):
    """The names that a block of lines defines: of each declaration its own, and a type's constructors."""
    names, record_at = [], None
    for line in block:
        indent = len(line) - len(line.lstrip())
        words = without_strings(line).split()
        head = list(itertools.takewhile(lambda word: word in TOP_WORDS, words))
        rest = words[len(head) :]
        if rest and ("data" in head or "record" in head):
            record_at = indent if "record" in head else None
            names.append(rest[0])
        elif ":" in rest[1:2] and (record_at is None or indent <= record_at):
            names.append(rest[0])
    return names


def definitions_in(lines):
    """The definitions of a file, each with the comments right before it."""
    blocks, comments = [], []
    for line in lines:
        top = line and not line[0].isspace()
        if top and (line.startswith("use ") or re.match(r"(pub )?(mod|use) ", line)):
            comments = []
        elif line.startswith("--"):
            comments.append(line)
        elif not line.strip():
            comments = []
        elif top and begins_definition(line, blocks):
            blocks.append(comments + [line])
            comments = []
        elif blocks:
            blocks[-1] += comments + [line]
            comments = []
    for block in blocks:
        code = [line for line in block if not line.lstrip().startswith("--")]
        yield Definition(given_names(code), without_strings("\n".join(code)), len(block))


def begins_definition(line, blocks):
    """Whether a line at the margin begins a definition, and is no clause of the one before."""
    words = line.split()
    if words[0] in TOP_WORDS:
        return True
    if words[0] == "unfolding":
        return False
    return ":" in words[1:2]


USE = re.compile(r"(?:unfoldable )?(?:pub )?use (.*)")


def imports_in(lines):
    """What the `use` lines of a file bring: for each local name its origins."""
    imports = {}
    for used in filter(None, map(USE.match, lines)):
        for name, origin in imports_of(used[1]):
            imports.setdefault(name, []).append(origin)
    return imports


def read_spec(crate, path, module):
    lines = path.read_text().splitlines()
    return Spec(crate, module, path, imports_in(lines), list(definitions_in(lines)), len(lines))


def module_of(path):
    """The name of a file's module, as `Rattle.jv_data.specs.Value`."""
    parts = path.relative_to(CRATES).with_suffix("").parts
    return ".".join(["Rattle", *(parts[:-1] if parts[-1] == "Lib" else parts)])


@functools.cache
def specs():
    """Each file of definitions of the repository, by the name of its module."""
    paths = sorted(CRATES.glob("*/specs/**/*.antt"))
    return {module_of(path): read_spec(path.relative_to(CRATES).parts[0], path, module_of(path)) for path in paths}


def origins(imports, parts):
    """The definitions of the repository that a name stands for, each as its module and its name there."""
    for path in imports.get(parts[0], []):
        path = path.replace("Prim.", "")
        if path in specs():
            if len(parts) > 1:
                yield path, parts[1]
            continue
        module, _, name = path.rpartition(".")
        if module in specs():
            yield module, name


def passed_on(module, name):
    """Where a name of a module is defined: there, or where the module has it from."""
    spec = specs()[module]
    if name in spec.by_name:
        return module, name
    for origin, further in origins(spec.imports, [name]):
        if (origin, further) != (module, name):
            return passed_on(origin, further)
    return None


def edges(module, name):
    """The definitions that a definition's text names."""
    return edges_of(module, specs()[module].by_name[name].names[0])


@functools.cache
def edges_of(module, first_name):
    spec = specs()[module]
    found = set()
    for parts in uses_of(spec.by_name[first_name].text, [*spec.imports, *spec.by_name]):
        if parts[0] in spec.by_name:
            found.add((module, parts[0]))
        for origin in origins(spec.imports, parts):
            at = passed_on(*origin)
            if at:
                found.add(at)
    return frozenset(found)


def closure(roots):
    """All definitions that these lead to."""
    reached, waiting = set(), list(roots)
    while waiting:
        at = waiting.pop()
        if at not in reached:
            reached.add(at)
            waiting.extend(edges(*at))
    return reached


# ---- the contracts: .rt

CLAUSE = re.compile(r"\b(?:requires|ensures)\b")
NOTHING = re.compile(r"\s*\(\s*\)\s*(?!\s*->)")
ITEM = re.compile(
    r"\b(?:(?P<use>(?P<ghost>ghost\s+)?(?:(?P<usepub>pub)(?P<useonly>\([^)]*\))?\s+)?use\s+(?P<path>[^;]*);)"
    r"|(?:(?P<modpub>pub)(?:\([^)]*\))?\s+)?mod\s+(?P<mod>\w+)\s*;"
    r"|(?P<pub>pub(?P<only>\([^)]*\))?\s+)?(?:const\s+|unsafe\s+)*(?P<kind>fn|struct|enum|trait)\s+(?P<name>\w+)"
    r"|(?P<impl>impl)\b"
    r"|ghost\s+(?P<field>\w+)\s*(?P<eq>[=:])\s*(?=\{))"
)


@dataclasses.dataclass
class Item:
    """A function, a type or a ghost field: whether it is `pub`, the type and the trait of its `impl`, what its clauses
    say, and whether it is a function without parameters and without a result."""

    kind: str
    name: str
    public: bool
    type: str = ""
    trait: str = ""
    clauses: list = dataclasses.field(default_factory=list)
    law: bool = False


@dataclasses.dataclass
class Source:
    """A file of code: its modules, what it passes on, what it imports of definitions, and its items."""

    modules: dict
    uses: list
    imports: dict
    items: list


def bare_code(text):
    """The code without its comments, strings and characters."""
    token = re.compile(
        r"//[^\n]*|/\*.*?\*/|b?r(#*)\".*?\"\1|b?\"(?:[^\"\\]|\\.)*\"|b?'(?:[^'\\\n]|\\(?:u\{[^}]*\}|x[0-9a-fA-F]{2}|.))'",
        re.S,
    )
    return token.sub(lambda found: " " if found[0].startswith("/") else '""', text)


def end_of(text, start):
    """Where the bracket that stands at a place is closed: the place after it."""
    depth = 0
    for at in range(start, len(text)):
        if text[at] in "([{":
            depth += 1
        elif text[at] in ")]}":
            depth -= 1
            if depth == 0:
                return at + 1
    return len(text)


def signature(text, start):
    """The clauses of a function whose name ends at a place, and the place after its body."""
    clauses, at = [], start
    while at < len(text):
        word = CLAUSE.match(text, at)
        if word:
            at = text.index("{", word.end())
            end = end_of(text, at)
            clauses.append(text[at + 1 : end - 1])
            at = end
        elif text[at] == ";":
            return clauses, at + 1
        elif text[at] == "{":
            return clauses, end_of(text, at)
        elif text[at] in "([":
            at = end_of(text, at)
        else:
            at += 1
    return clauses, at


def implemented(head):
    """The trait and the type of the head of an `impl`."""
    head = re.sub(r"\s+", " ", head.strip())
    if head.startswith("<"):
        depth = 0
        for at, c in enumerate(head):
            depth += (c == "<") - (c == ">")
            if depth == 0:
                head = head[at + 1 :].strip()
                break
    head = head.split(" where ")[0]
    trait, joined, of = head.partition(" for ")
    if not joined:
        trait, of = "", head
    last = re.match(r"[&\s]*(?:'\w+\s+)?(?:mut\s+)?([\w:]+)", of)
    return re.split(r"[<\s]", trait)[0], (last[1].rpartition(":")[2] if last else "")


def read_source(path):
    text = bare_code(path.read_text())
    source = Source({}, [], {}, [])
    read_items(text, 0, len(text), "", "", source)
    return source


def read_items(text, at, end, trait, of, source):
    """Reads the items between two places, which stand in an `impl` where `of` is its type."""
    while True:
        found = ITEM.search(text, at, end)
        if not found:
            return
        at = found.end()
        hidden = re.search(r"#\[cfg\(test\)\]\s*(?:pub\s+)?$", text[: found.start()])
        if found["use"]:
            read_use(found, source)
        elif found["mod"]:
            if not hidden:
                source.modules[found["mod"]] = bool(found["modpub"])
        elif found["kind"] == "fn":
            law = bool(NOTHING.match(text, at)) and not of
            clauses, at = signature(text, at)
            public = bool(found["pub"]) and not found["only"]
            source.items.append(Item("fn", found["name"], public or bool(trait), of, trait, clauses, law))
        elif found["kind"]:
            at = read_type(text, at, found, source)
        elif found["impl"]:
            opened = text.index("{", at)
            closed = end_of(text, opened)
            read_items(text, opened + 1, closed - 1, *implemented(text[at:opened]), source)
            at = closed
        elif found["field"]:
            closed = end_of(text, text.index("{", at))
            if found["field"] not in PROVED_FIELDS:
                source.items.append(Item("ghost", found["field"], True, of, trait, [text[at:closed]]))
            at = closed


def read_type(text, at, found, source):
    """Reads a type or a trait, whose clauses are those of its ghost fields and methods, and answers the place after it."""
    clauses = []
    stop = re.compile(r"[;{(]").search(text, at)
    at = stop.start() if stop else len(text)
    if stop and stop[0] != ";":
        closed = end_of(text, at)
        body = text[at:closed]
        for field in re.finditer(r"\bghost\s+\w+\s*[=:]\s*(?=\{)|\b(?:requires|ensures)\b[^{;]*(?=\{)", body):
            clauses.append(body[field.end() : end_of(body, field.end())])
        at = closed
    public = bool(found["pub"]) and not found["only"]
    source.items.append(Item("type", found["name"], public, "", "", clauses))
    return at


def read_use(found, source):
    path = re.sub(r"\s+", " ", found["path"])
    if found["ghost"]:
        for name, origin in imports_of(path):
            source.imports.setdefault(name, []).append(origin)
    elif found["usepub"] and not found["useonly"]:
        for name, origin in imports_of(path.replace("::", ".").replace(" {", "{")):
            source.uses.append((name, origin.split(".")))
    else:
        for name, origin in imports_of(path.replace("::", ".").replace(" {", "{")):
            source.uses.append((name, ["", *origin.split(".")]))


@functools.cache
def sources(crate):
    """The files of a crate's code, by the names of their modules from the crate's root."""
    root = CRATES / crate / "src"
    found = {}

    def read(path, name):
        found[name] = read_source(path)
        for module in found[name].modules:
            below = root.joinpath(*name, module)
            for file in (below.with_suffix(".rt"), below / "mod.rt"):
                if file.is_file():
                    read(file, (*name, module))

    for top in ("lib.rt", "main.rt"):
        if (root / top).is_file():
            read(root / top, ())
    return found


@dataclasses.dataclass
class Surface:
    """What a crate shows: its public functions and types as pairs of a module and a name, those of its laws apart."""

    names: set = dataclasses.field(default_factory=set)
    laws: set = dataclasses.field(default_factory=set)


def resolve(crate, module, path, seen=()):
    """What a path of a module's `use` stands for: a pair of a module and the name of an item or of a module in it."""
    files = sources(crate)
    path = [part for part in path if part]
    while path and path[0] in ("crate", "self", "super"):
        module = {"crate": (), "self": module, "super": module[:-1]}[path[0]]
        path = path[1:]
    if not path or module not in files or (module, tuple(path)) in seen:
        return None
    first, *rest = path
    if rest and (*module, first) in files:
        return resolve(crate, (*module, first), rest, (*seen, (module, tuple(path))))
    if any(item.name == first and not item.type for item in files[module].items) or (*module, first) in files:
        return module, first
    for name, origin in files[module].uses:
        if name == first:
            return resolve(crate, module, origin + rest, (*seen, (module, tuple(path))))
    return None


@functools.cache
def surface(crate):
    files, shown = sources(crate), Surface()

    def show(at, law):
        if at:
            module, name = at
            if (*module, name) in files:
                show_module((*module, name), law)
            else:
                law = law or any(item.law for item in files[module].items if item.name == name and not item.type)
                (shown.laws if law else shown.names).add(at)

    def show_module(module, law):
        for item in files[module].items:
            if item.public and not item.type:
                show((module, item.name), law)
        for name, path in files[module].uses:
            if path[0]:
                show(resolve(crate, module, path), law)
        for name, public in files[module].modules.items():
            if public and (*module, name) in files:
                show_module((*module, name), law or name in LAW_MODULES)

    if () in files:
        show_module((), False)
    return shown


def named_in(source, clauses):
    """The definitions that some clauses of a file of code name."""
    for clause in clauses:
        for parts in uses_of(clause, source.imports):
            for origin in origins(source.imports, parts):
                at = passed_on(*origin)
                if at:
                    yield at


def roots(crate, names):
    """The definitions that the contracts of these public items of a crate name, the methods of types too."""
    types = {name for module, name in names}
    for module, source in sources(crate).items():
        for item in source.items:
            shown = item.type in types if item.type else (module, item.name) in names
            if shown and item.public:
                yield from named_in(source, item.clauses)


def crate_roots(crate):
    return set(roots(crate, surface(crate).names))


def program_roots():
    """The definitions that the contracts of those functions name which the program's `main.rt` imports."""
    found = set()
    for source in sources(PROGRAM).values():
        for name, path in source.uses:
            path = [part for part in path if part]
            if path[0] in crates():
                at = resolve(path[0], (), path[1:])
                if at:
                    found |= set(roots(path[0], {at}))
    return found


# ---- the list


@functools.cache
def crates():
    listed = [line.split("#")[0].partition(":")[0].split() for line in (ROOT / "crates.txt").read_text().splitlines()]
    return [words[0] for words in listed if words]


def libraries():
    return [crate for crate in crates() if (CRATES / crate / "src" / "lib.rt").is_file()]


@dataclasses.dataclass
class Belief:
    """What the public contracts of a crate, or of the program, lead to: for each file its definitions that are reached."""

    title: str
    files: dict

    @property
    def lines(self):
        return sum(specs()[module].lines for module in self.files)


def belief(title, start):
    """What some definitions lead to."""
    files = {}
    for module, name in closure(start):
        files.setdefault(module, set()).add(id(specs()[module].by_name[name]))
    return Belief(title, {module: len(files[module]) for module in reading_order(files)})


@functools.cache
def used_files(module):
    """The other files whose definitions a file names."""
    return {used for name in specs()[module].by_name for used, _ in edges(module, name)} - {module}


@functools.cache
def place(module):
    """Where a file comes if it uses no other: its crate's place in crates.txt, and its own in the crate's Lib.antt (for a file
    in a folder of specs/ that of the folder, and then its own in the file with the folder's name)."""
    spec = specs()[module]
    folder = CRATES / spec.crate / "specs"
    places, listing = [], folder / "Lib.antt"
    for name in spec.path.relative_to(folder).with_suffix("").parts:
        listed = re.findall(r"^(?:pub )?mod (\w+)", listing.read_text(), re.M)
        places.append((listed.index(name) if name in listed else len(listed), name))
        folder, listing = folder / name, folder / f"{name}.antt"
    return crates().index(spec.crate), places


def reading_order(modules):
    """Some files, each after those of them that it uses, and otherwise by their places."""
    seen, order = set(), []

    def read(module):
        if module not in seen:
            seen.add(module)
            for used in sorted(used_files(module) & set(modules), key=place):
                read(used)
            order.append(module)

    for module in sorted(modules, key=place):
        read(module)
    return order


@functools.cache
def program_belief():
    return belief("the program", program_roots())


@functools.cache
def beliefs():
    """What the program's contract leads to, and then each library crate's public contracts, in the order of crates.txt."""
    found = [belief(crate, crate_roots(crate)) for crate in libraries()]
    return [program_belief()] + [one for one in found if one.files]


def shown_path(module):
    return str(specs()[module].path.relative_to(CRATES))


def show_list(chosen):
    for one in beliefs():
        if chosen and one.title not in chosen:
            continue
        print(f"{one.title}: {len(one.files)} files, {one.lines} lines")
        for module, reached in one.files.items():
            spec = specs()[module]
            print(f"    {shown_path(module):42} {spec.lines:4} lines, {reached} of {len(spec.definitions)} definitions")


@functools.cache
def all_reached():
    return closure(at for crate in libraries() for at in crate_roots(crate))


def show_unreached(chosen):
    reached = all_reached()
    for module, spec in specs().items():
        if chosen and spec.crate not in chosen:
            continue
        if not any((module, name) in reached for name in spec.by_name):
            if spec.definitions and not set_apart(spec):
                print(f"{shown_path(module)}: the whole file")
            continue
        for definition in spec.definitions:
            if not any((module, name) in reached for name in definition.names):
                print(f"{shown_path(module)}: {', '.join(definition.names)}")


def set_apart(spec):
    """Whether a file stands in a folder of specs/ that public contracts do not lead to."""
    below = spec.path.relative_to(CRATES / spec.crate / "specs").parts
    return len(below) > 1 and below[0].lower() in APART


# ---- docs/BELIEVE.md

ROW = re.compile(r"^\| `(?P<path>[\w/.+-]+\.antt)` \| *(?P<lines>\d+) *\|(?P<rest>.*)$")
TOTAL = re.compile(r"^\| (?P<title>`\w+`|the program) \| *(?P<files>\d+) *\| *(?P<lines>\d+) *\|(?P<rest>.*)$")
# The headings of the two parts.
PROGRAM_PART, INNER_PART = "## What the program's contract leads to", "## What only inner contracts lead to"


def totals():
    """The files and the lines of the program and of each crate, by the name that the page gives it."""
    return {
        one.title if one is program_belief() else f"`{one.title}`": (len(one.files), one.lines) for one in beliefs()
    }


@functools.cache
def parts():
    """The files of each part of the page in the order of reading: by its heading, the module of each path."""
    program = set(program_belief().files)
    inner = {module for one in beliefs() for module in one.files} - program
    return {
        part: {shown_path(module): module for module in reading_order(modules)}
        for part, modules in ((PROGRAM_PART, program), (INNER_PART, inner))
    }


def file_lines():
    """The lines of each file that the page lists, by its part and its path."""
    return {(part, path): specs()[module].lines for part, files in parts().items() for path, module in files.items()}


def with_parts(lines):
    """The lines of the page, each with the heading of its part."""
    part = None
    for line in lines:
        part = line if line.startswith("## ") else part
        yield part, line


def in_reading_order(lines):
    """The lines of the page, the rows of each table of files in the order of reading."""
    order = [path for files in parts().values() for path in files]
    for are_rows, block in itertools.groupby(lines, lambda line: bool(ROW.match(line))):
        yield from sorted(block, key=lambda line: order.index(ROW.match(line)["path"])) if are_rows else block


def order_faults(lines, rows):
    """Where the order of the page, which lists all files, is not that of reading."""
    for line, wanted in zip(lines, in_reading_order(lines)):
        if line != wanted:
            yield f"{ROW.match(wanted)['path']} has to come before {ROW.match(line)['path']} (--write sorts each table)"
            break
    for at, (part, path) in enumerate(rows):
        for later_part, later in rows[at + 1 :]:
            if later_part == part and parts()[part][later] in used_files(parts()[part][path]):
                yield f"{path} comes before {later}, which it uses"


def page_faults():
    """Where the numbers of the page are not those of the sources, or a file is not in its part, or not in its order."""
    if not PAGE.is_file():
        return [f"no {PAGE.relative_to(ROOT)}"]
    lines = PAGE.read_text().splitlines()
    rows = {(part, found["path"]): int(found["lines"]) for part, line in with_parts(lines) if (found := ROW.match(line))}
    sums = {found["title"]: (int(found["files"]), int(found["lines"])) for found in map(TOTAL.match, lines) if found}
    faults = differences(rows, file_lines(), "lines") + differences(sums, totals(), "files and lines")
    faults = [f"{fault} (tests/believed.py --write writes the page anew)" for fault in faults]
    if rows.keys() == file_lines().keys():
        faults += order_faults(lines, list(rows))
    return [f"docs/BELIEVE.md: {fault}" for fault in faults]


def differences(given, wanted, what):
    faults = [f"{shown_name(name)} is missing" for name in wanted if name not in given]
    faults += [f"{shown_name(name)} has to go" for name in given if name not in wanted]
    return faults + [
        f"{shown_name(name)}: {what} {given[name]}, and the sources have {wanted[name]}"
        for name in wanted
        if name in given and given[name] != wanted[name]
    ]


def shown_name(name):
    """A name of a row: of a file also its part."""
    return f"{name[1]} under '{(name[0] or '').strip('# ')}'" if isinstance(name, tuple) else name


def write_page():
    """Writes the numbers of the page anew, puts each file into its part and sorts the tables. A row whose file is gone is
    removed. A row that is new in a part comes into the table there that has the last row of its crate (of a crate without
    a row into the part's last table), with its words where it had some."""
    wanted, sums = file_lines(), totals()
    lines, words, given, titles = [], {}, set(), set()
    for part, line in with_parts(PAGE.read_text().splitlines()):
        row, total = ROW.match(line), TOTAL.match(line)
        if row:
            at = part, row["path"]
            words[row["path"]] = row["rest"]
            if at in wanted:
                given.add(at)
                lines.append(row_line(at, wanted, words))
        elif total:
            if total["title"] in sums:
                titles.add(total["title"])
                files, count = sums[total["title"]]
                lines.append(f"| {total['title']} | {files} | {count} |{total['rest']}")
        else:
            lines.append(line)
    for at in wanted:
        if at not in given:
            lines.insert(place_of_row(lines, at), row_line(at, wanted, words))
    for title in sums:
        if title not in titles:
            last = [number for number, line in enumerate(lines) if TOTAL.match(line)][-1]
            lines.insert(last + 1, f"| {title} | {sums[title][0]} | {sums[title][1]} | |")
    PAGE.write_text("\n".join(in_reading_order(lines)) + "\n")


def row_line(at, wanted, words):
    return f"| `{at[1]}` | {wanted[at]} |{words.get(at[1], ' |')}"


def place_of_row(lines, at):
    """Where a new row comes: after the last row of its part that is of its crate, or else after the last row of its part."""
    part, path = at
    rows = [
        (number, row["path"])
        for number, (its_part, line) in enumerate(with_parts(lines))
        if its_part == part and (row := ROW.match(line))
    ]
    of_crate = [number for number, other in rows if other.split("/")[0] == path.split("/")[0]]
    return (of_crate or [number for number, _ in rows])[-1] + 1


# ---- the checks


def imported_proof(origin):
    """Whether an import is of a `proofs` folder of the repository (the toolchain's lend notation to definitions)."""
    _, crate, folder, *_ = [*origin.split("."), "", ""]
    return crate in crates() and folder == "proofs"


def layout_faults():
    reached = {module for module, _ in all_reached()}
    for module, spec in specs().items():
        if spec.crate not in crates():
            continue
        if module in reached:
            if set_apart(spec):
                yield f"{shown_path(module)}: a public contract leads here"
            if any(imported_proof(origin) for paths in spec.imports.values() for origin in paths):
                yield f"{shown_path(module)}: a believed file imports from proofs"
        elif spec.definitions and not set_apart(spec):
            yield f"{shown_path(module)}: no public contract leads here"


# A lemma that its crate keeps to itself.
OWN_PROOFS = re.compile(r"\bRattle\.(\w+)\.proofs\b(?!\.shared\b)")


@functools.cache
def citations():
    """For each file of a crate the other crates of the repository whose own lemmas it names, without repetition."""
    found = {}
    for crate in crates():
        for folder in ("src", "specs", "proofs", "must-fail"):
            for path in sorted((CRATES / crate / folder).rglob("*")):
                if path.suffix in (".rt", ".antt", ".edit"):
                    found[path] = sorted({*OWN_PROOFS.findall(path.read_text())} & {*crates()} - {crate})
    return found


def citation_faults():
    """Where a file names lemmas that another crate keeps to itself."""
    for path, cited in citations().items():
        for crate in cited:
            yield f"{path.relative_to(CRATES)}: cites a lemma of {crate} that is not in its proofs/shared"


BOX = re.compile(r"(?:\w+ )*(?:module _ .*|mutual)$")
OWN = re.compile(r"unfolding |[)\]}]")
# The operators that `do` uses without naming them.
DO = {"◌>>=◌", "◌>>◌"}
CITATION = re.compile(r"\b(\w+)::proofs::((?:\w+::)+)(\w+)")


def code_in(lines):
    """The lines without comments and strings, and the `use` lines empty."""
    for line in lines:
        line = without_strings(line) if '"' in line else line
        yield "" if USE.match(line) else re.sub(r"(?:^|\s)--(?:[-\s].*)?$", "", line) if "--" in line else line


def named_in_text(text):
    """The names in a text, each with what follows its point. What follows a closing bracket's point is a field."""
    for chunk in BREAKS.split(text):
        head, _, rest = chunk.partition(".")
        if head:
            yield head, rest.partition(".")[0]


def signs_of(name):
    """The words that a use of a name has: of an operator (as `◌≤◌`) its signs."""
    return {sign for sign in name.split("◌") if sign}


def lemmas_in(lines):
    """What a file of `proofs` defines at the margin, or in a `module` or a `mutual` there: the names of each (of a type
    also its constructors) and its text. An answer to a goal, which the prover looks for, is none."""
    level = 0
    for at, line in enumerate(lines):
        words = line.split()
        if not words:
            continue
        indent = len(line) - len(line.lstrip())
        level = min(level, indent)
        if indent > level:
            continue
        if BOX.match(line.strip()):
            level += 2
            continue
        head = list(itertools.takewhile(lambda word: word in TOP_WORDS, words))
        name, *rest = [*words[len(head) :], ""]
        is_type = not {"data", "record"}.isdisjoint(head)
        if is_type or (rest[0] == ":" and not rest[1].startswith("goal.")):
            text = [line, *itertools.takewhile(lambda below: is_below(below, indent, name), lines[at + 1 :])]
            yield given_names(text) if is_type else [name], "\n".join(text)


def is_below(line, indent, name):
    """Whether a line goes on with the definition of a name that begins at an indentation."""
    text = line.lstrip()
    return not text or len(line) - len(text) > indent or text.split()[0] == name or bool(OWN.match(text))


def cited_in(imports, words):
    """The definitions that a file of definitions or proofs imports and names, each as its module and its name there."""
    after = {}
    for head, rest in words:
        after.setdefault(head, set()).add(rest)
    for name, paths in imports.items():
        for path in paths:
            if after.keys() >= signs_of(name):
                module, _, last = path.rpartition(".")
                yield module, last
            yield from ((path, rest) for rest in after.get(name, ()))


def cited_by_code():
    """The definitions of `proofs` that the code names, in attributes."""
    for path in CRATES.glob("*/src/**/*.rt"):
        for crate, modules, name in CITATION.findall(path.read_text()):
            crate = path.relative_to(CRATES).parts[0] if crate == "crate" else crate
            yield ".".join(["Rattle", crate, "proofs", *modules.split("::")[:-1]]), name


def uncited_faults():
    """The lemmas that nothing cites. What only such a lemma cites is found once that is gone."""
    files, cited = {}, collections.defaultdict(set)
    for path in sorted([*CRATES.glob("*/specs/**/*.antt"), *CRATES.glob("*/proofs/**/*.antt")]):
        lines = path.read_text().splitlines()
        code = list(code_in(lines))
        words = collections.Counter(named_in_text("\n".join(code)))
        files[path] = code, words
        for module, name in cited_in(imports_in(lines), words):
            cited[module].add(name)
    for module, name in cited_by_code():
        cited[module].add(name)
    for path, (code, words) in files.items():
        if path.relative_to(CRATES).parts[1] == "proofs":
            for name in uncited_in(code, words, cited[module_of(path)] | DO):
                yield f"{path.relative_to(CRATES)}: nothing cites {name}"


def uncited_in(code, words, cited):
    """The lemmas of a file that neither other files cite nor the rest of this one."""
    counts = collections.Counter()
    for (head, _), count in words.items():
        counts[head] += count
    for names, text in lemmas_in(code):
        if cited.isdisjoint(names):
            own = collections.Counter(head for head, _ in named_in_text(text))
            if not any(all(counts[sign] > own[sign] for sign in signs_of(name)) for name in names):
                yield names[0]


def check():
    faults = [*layout_faults(), *citation_faults(), *uncited_faults(), *page_faults()]
    for fault in faults:
        print(fault)
    print(f"what must be believed: {len(faults)} faults")
    return 1 if faults else 0


def main():
    options = argparse.ArgumentParser(description=__doc__.splitlines()[0])
    options.add_argument("--check", action="store_true", help="fail where the page or the layout is wrong")
    options.add_argument("--write", action="store_true", help="write the numbers of docs/BELIEVE.md anew and sort it")
    options.add_argument("--unreached", action="store_true", help="list the definitions that no public contract reaches")
    options.add_argument("crates", nargs="*", help="only these crates (with the lists)")
    given = options.parse_args()
    if given.write:
        write_page()
    if given.check:
        sys.exit(check())
    if given.unreached:
        show_unreached(given.crates)
    elif not given.write:
        show_list(given.crates)


if __name__ == "__main__":
    main()
