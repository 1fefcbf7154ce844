#!/usr/bin/env python3
"""Computes docs/BELIEVED.md: the definitions that the contracts of what users call rest on.

    tools/believed.py            writes the page
    tools/believed.py --check    exits with 1 where the page is out of date, where a text cites a section that
                                 docs/RULES.md doesn't have, where docs/PROVED.md names a function that isn't there,
                                 where either names a file, or a word in a file, that isn't there, or where the first
                                 line of a file in specs/ says that it isn't to be believed though it is, or the other
                                 way round

It starts at the clauses of the public functions of the crates in CALLED, and follows each name to its definition in
specs/, or to a type or constant in src/, until nothing new turns up. A law (a declaration that says something and gives
nothing to compute with) needs no belief, since the check proves it: it is listed only where a definition holds it.
"""
import collections
import functools
import glob
import os
import re
import sys
import textwrap

sys.path.insert(0, os.path.dirname(os.path.abspath(__file__)))
import antt
import rattle

ROOT = os.path.dirname(os.path.dirname(os.path.abspath(__file__)))
PAGE = "docs/BELIEVED.md"
CALLED = ("baktuven", "judge", "refusal", "hanging", "exports")
WIDTH = 120
# Words that make a type a statement, and types of values.
SAYS = set("≡ ≢ ≤ < ≥ > ⊥ ↔ ¬ ≤ℤ <ℤ IsTrue IsFalse IsSome IsNone All".split())
# What a clause names without an import, beside what its file has.
BARE = set("Ok Err Some None Self usize u8 u16 u32 u64 i8 i16 i32 i64".split())
VALUES = set("ℕ ℤ List Bool Option Result Got Type".split())


class Tree:
    """All files of the repository's crates: specs and proofs by module, sources by crate."""

    def __init__(self, root=ROOT):
        self.root = root
        self.crates = [line.split(":")[0].split()[0] for line in open(os.path.join(root, "crates.txt"))
                       if line.strip() and not line.startswith("#")]
        self.files, self.sources = {}, collections.defaultdict(list)
        for crate in self.crates:
            self._read_crate(crate)
        for file in self.files.values():
            antt.declare(file)
        for file in self.files.values():
            antt.resolve(file, self.is_constructor)

    def _read_crate(self, crate):
        base = os.path.join(self.root, "crates", crate)
        for part in ("specs", "proofs"):
            for path in sorted(glob.glob(f"{base}/{part}/*.antt")):
                name = os.path.basename(path)[:-5]
                if name != "Lib":
                    module = f"Rattle.{crate}.{part}.{name}"
                    self.files[module] = antt.File(module, os.path.relpath(path, self.root), open(path).read())
        for path in sorted(glob.glob(f"{base}/src/**/*.rt", recursive=True)):
            modules = os.path.relpath(path, f"{base}/src")[:-3].split("/")
            modules = [m for m in modules if m not in ("lib", "main", "mod")]
            source = rattle.Source(crate, modules, os.path.relpath(path, self.root), open(path).read())
            self.sources[crate].append(source)

    # ---- names

    def is_constructor(self, module, name):
        file, inner = self._file_of(module)
        if file:
            return inner is None and name in file.constructors or inner is not None
        return module.endswith(".TheVariants") or name in antt.STD_CONSTRUCTORS

    def _file_of(self, module):
        """The file of a module, and the data type's name where the module is one of its constructors."""
        if module in self.files:
            return self.files[module], None
        parent, _, last = module.rpartition(".")
        if parent in self.files and last in self.files[parent].by_name:
            return self.files[parent], last
        return None, None

    def find(self, use):
        """What a use, (module, name), means: an item, a type, a constant's word, or a word of a library (a tuple)."""
        module, name = use
        file, inner = self._file_of(module)
        if file:
            name = inner or name
            if name in file.constructors:
                return file.constructors[name]
            return file.by_name.get(name)
        m = re.match(r"Rattle\.(\w+)\.specs\.declared\.(.*)$", module)
        if m and m.group(1) in self.sources:
            return self._declared(m.group(1), m.group(2).split("."), name)
        crate = module.split(".")[1] if module.startswith("Rattle.") else None
        return None if crate in self.sources else ("word", module, name)

    def _declared(self, crate, path, name):
        """The type or constant that a module of `specs/declared` is made of."""
        if path[-1] == "TheConstants":
            return ("constant", crate, name)
        path = path[:-1] if path[-1] == "TheVariants" else path
        for type_ in self.types_named(crate, path[-1]):
            if type_.source.modules == path[:-1]:
                return type_
        return next(iter(self.types_named(crate, path[-1])), None)

    def types_named(self, crate, name):
        return [t for s in self.sources.get(crate, []) for t in s.types if t.name == name]

    def type_of(self, source, path):
        """The type that a path in a source means, if it is one of the repository's."""
        parts = path.split("::")
        imported = source.uses.get(parts[0]) or source.public_uses.get(parts[0])
        if imported and imported != path:
            parts = imported.split("::") + parts[1:]
        elif len(parts) == 1:
            own = [t for t in source.types if t.name == parts[0]]
            return own[0] if own else None
        crate = source.crate if parts[0] in ("crate", "self", "super") else parts[0]
        if crate not in self.sources and parts[0] in {m for s in self.sources[source.crate] for m in s.modules}:
            crate = source.crate
        found = self.types_named(crate, parts[-1])
        return found[0] if found else None

    def types_in(self, source, text):
        """The repository's types that a piece of Rattle names."""
        found = {self.type_of(source, p) for p in re.findall(r"\b(?:\w+::)*[A-Z]\w*", text)}
        return {t for t in found if t}

    # ---- clauses

    def uses_of_term(self, source, text, line, bound):
        """What a clause or a ghost field uses, and the names in it that mean nothing."""
        holder = antt.Item(source.path, "clause", "clause", False, line, None)
        scope = antt.Scope(Imports(source), holder, self.is_constructor)
        antt.Reader(antt.tokens_of(antt.without_comments(text).split("\n"), line), scope).term(set(bound))
        unknown = {p for p in scope.unresolved if not self._in_scope(source, p)}
        return scope.uses, unknown

    def _in_scope(self, source, path):
        """Whether a name of a clause needs no import: a constant, a variant, a type of the source."""
        head = path.split(".")[0]
        types = set(source.types) | {self.type_of(source, n) for n in {**source.uses, **source.public_uses}}
        variants = {v for t in types if t for v in t.variants}
        return head in variants | source.constants | BARE

    def uses_of_function(self, function):
        """(uses, types, unknown) of a function's contract."""
        bound = set(function.parameters) | function.generics | {"result", "self"}
        bound |= {c.name for c in function.clauses if c.word == "ghost"}
        uses, unknown = set(), set()
        for clause in function.clauses:
            found, missing = self.uses_of_term(function.source, clause.text, clause.line, bound)
            uses |= found
            unknown |= missing
        return uses, self.types_in(function.source, function.types), unknown

    def uses_of_type(self, type_):
        """(uses, types, unknown) of a type: of its ghost fields, and the types that it names."""
        uses, unknown = set(), set()
        for ghost in type_.ghosts:
            found, missing = self.uses_of_term(type_.source, ghost, type_.first, type_.fields)
            uses |= found
            unknown |= missing
        return uses, self.types_in(type_.source, type_.parts) - {type_}, unknown

    # ---- laws

    @functools.lru_cache(maxsize=None)
    def is_statement(self, item):
        """Whether an item is a statement with arguments, and no type of values."""
        text = item.text
        if item.kind == "record":
            fields = text.partition(" where")[2]
            return bool(SAYS & set(fields.split())) or any(self._names_statement(item, w) for w in fields.split())
        if item.kind == "data":
            head = text.partition(" where")[0]
            return "ℕ" in head or "List" in head
        return item.type_text.split()[-2:-1] == ["Type"] and (" → " in f" {item.type_text} " or item.header is not None)

    def _names_statement(self, item, word):
        for use in item.uses:
            found = self.find(use)
            if use[1] == word and isinstance(found, antt.Item) and found is not item:
                return self.is_statement(found)
        return False

    @functools.lru_cache(maxsize=None)
    def is_law(self, item):
        """Whether an item is a proof: neither `abbrev` nor `unfoldable`, and what it gives is a statement."""
        if item.kind != "plain":
            return False
        words = re.sub(r"\( [^():]* : [^()]* \) ×", "", codomain(item.type_text)).split()
        if SAYS & set(words):
            return True
        head = next((w for w in words if w not in ("(", ")")), "")
        if head.split(".")[0] in VALUES:
            return False
        return self._names_statement(item, head) or (bool(SAYS & set(item.type_text.split())) and head not in VALUES)


class Imports:
    """What a clause sees in place of an antt file: the `ghost use` lines of its source."""

    def __init__(self, source):
        self.module, self.imports, self.by_name, self.constructors = source.path, source.ghost_imports, {}, {}


def codomain(text):
    """The part of a type behind its last arrow that stands in no bracket."""
    depth, last = 0, 0
    words = text.split()
    for k, word in enumerate(words):
        depth += word in "({" and 1 or word in ")}" and -1 or 0
        if depth == 0 and word == "→":
            last = k + 1
    return " ".join(words[last:])


# ---- what is believed

class Believed:
    """What some contracts rest on: definitions and the laws that they hold, types, constants, words of libraries."""

    def __init__(self, tree):
        self.tree = tree
        self.definitions, self.laws, self.types, self.words, self.constants = set(), set(), set(), set(), set()
        self.unknown = []

    def add_function(self, function):
        uses, types, unknown = self.tree.uses_of_function(function)
        self._add(function.path, uses, types, unknown)

    def _add(self, where, uses, types, unknown):
        self.unknown += [(where, name) for name in sorted(unknown)]
        for type_ in types:
            self._add_type(type_)
        for use in uses:
            found = self.tree.find(use)
            if found is None and use[1] is not None:
                self.unknown.append((where, ".".join(use)))
            elif isinstance(found, antt.Item):
                self._add_item(found)
            elif isinstance(found, rattle.Type):
                self._add_type(found)
            elif found:
                (self.words if found[0] == "word" else self.constants).add(found[1:])

    def _add_item(self, item):
        if self.tree.is_law(item):
            self.laws.add(item)
        elif item not in self.definitions:
            self.definitions.add(item)
            self._add(repr(item), item.uses, set(), item.unresolved)

    def _add_type(self, type_):
        if type_ not in self.types:
            self.types.add(type_)
            self._add(type_.path, *self.tree.uses_of_type(type_))

    def headers(self):
        """The `module _` lines that believed definitions stand below."""
        out = set()
        for item in self.definitions:
            while item.header:
                out.add(item.header)
                item = item.header
        return out


def called_functions(tree):
    """The public functions of the crates that users call, in the order of crates.txt."""
    return [f for crate in tree.crates if crate in CALLED for s in tree.sources[crate] for f in s.functions
            if f.public and "laws" not in f.modules]


def theorem_functions(tree):
    """The public functions with no parameters in modules named `laws`."""
    return [f for crate in tree.crates for s in tree.sources[crate] for f in s.functions
            if f.public and "laws" in f.modules and not f.parameters]


OUTPUT = re.compile(r"\bghost output\s*=\s*\{")


def printed_of(tree):
    """What the texts that `Display` is proved to write rest on."""
    printed = Believed(tree)
    for sources in tree.sources.values():
        for source in sources:
            for m in OUTPUT.finditer(source.code):
                text = source.code[m.end():rattle.closing(source.code, m.end() - 1)]
                uses, unknown = tree.uses_of_term(source, text, source.line(m.end()), set())
                # (a type parameter's own `output` is whatever the type at hand prints)
                printed._add(source.path, uses, set(), {name for name in unknown if not name.endswith(".output")})
    return printed


def lines_of(tree, thing):
    """The numbers of an item's or type's lines that aren't blank."""
    if isinstance(thing, antt.Item):
        lines = tree.files[thing.module].lines
    else:
        lines = thing.source.lines
    return [n for n in range(thing.first, thing.last + 1) if lines[n - 1].strip()]


def in_order(tree, items):
    """(crate, [(file, items by line)]): lowest crate first, and a file behind those of its crate that it uses."""
    by_module = collections.defaultdict(list)
    for item in items:
        by_module[item.module].append(item)
    for crate in tree.crates:
        modules = sorted(m for m in by_module if m.split(".")[1] == crate)
        if modules:
            ordered = _sorted(by_module, modules)
            yield crate, [(tree.files[m], sorted(by_module[m], key=lambda i: i.start)) for m in ordered]


def _sorted(by_module, modules):
    """Modules, each behind those that it uses."""
    out = []

    def visit(module):
        if module in out:
            return
        for used in sorted({use[0] for item in by_module[module] for use in item.uses}):
            if used in modules and used != module:
                visit(used)
        out.append(module)

    for module in modules:
        visit(module)
    return out


# ---- the page

def wrapped(text, indent="  "):
    return textwrap.fill(text, WIDTH, subsequent_indent=indent, break_long_words=False, break_on_hyphens=False)


def span(thing):
    return str(thing.first) if thing.first == thing.last else f"{thing.first}-{thing.last}"


def listed(things):
    return ", ".join(f"`{t.name}` {span(t)}" for t in things)


def totals(tree, items, headers):
    """(definitions, lines, files) of some items."""
    lines = {(i.module, n) for i in list(items) + list(headers) for n in lines_of(tree, i)}
    return len(items), len(lines), len({i.module for i in items})


def count(number, word):
    return f"{number:,} {word}" + ("" if number == 1 else "s")


MARK = "-- Not to be believed"


def is_marked(file):
    return file.lines[0].startswith(MARK)


def rest_of_specs(spec_files):
    """What the page says of what else stands in specs/."""
    marked = sum(map(is_marked, spec_files))
    if not marked:
        return "What else stands in `specs/` is vocabulary of inner contracts, laws, and statements of theorems."
    return (f"Of the rest of `specs/`, {count(marked, 'file')} hold vocabulary of inner contracts alone, and begin with the "
            "words “Not to be believed”; what else there is are laws that definitions hold, what is printed, and the theorems' "
            "statements.")


HEAD = """
A proof shows that the code does what its contract says. That the contract says what is meant, no proof can show: it has to
be read. This page lists what there is to read: the definitions that the contracts of the functions which users call rest
on, in an order in which each stands behind those that it uses. Its numbers are lines, first and last, the comment above a
definition among them.

In all these are {believed}, of {all} of `specs/`. {rest}

`tools/believed.py` computes the page, and `.ci/run` fails where it is out of date. It starts at the clauses of the public
functions of {crates} and follows each name to its definition in `specs/`, or to the type in `src/` that it stands for,
until nothing new turns up. A law is a declaration that proves something; it needs no belief, and is not counted. A
definition that holds laws, as a codec does, counts without their proofs.
"""


def page_head(tree, believed):
    spec_files = [f for f in tree.files.values() if ".specs." in f.module]
    all_lines = sum(1 for f in spec_files for line in f.lines if line.strip())
    numbers = totals(tree, believed.definitions, believed.headers())
    text = HEAD.strip().format(
        believed="{} on {} in {}".format(*map(count, numbers, ("definition", "line", "file"))),
        all="{} on {} in {}".format(count(sum(len(f.items) for f in spec_files), "declaration"),
                                    count(all_lines, "line"), count(len(spec_files), "file")),
        rest=rest_of_specs(spec_files),
        crates=", ".join(f"`{c}`" for c in CALLED[:-1]) + f" and `{CALLED[-1]}`")
    yield "# What has to be believed\n"
    for paragraph in text.split("\n\n"):
        yield wrapped(paragraph, "") + "\n"
    yield "| crate | definitions | lines | files |\n|---|---|---|---|"
    for crate, parts in in_order(tree, believed.definitions):
        own = [i for _, items in parts for i in items]
        heads = [h for h in believed.headers() if h.module.split(".")[1] == crate]
        yield "| `%s` | %s | %s | %s |" % (crate, *(f"{n:,}" for n in totals(tree, own, heads)))
    yield "| all | %s | %s | %s |\n" % tuple(f"{n:,}" for n in numbers)


def page_functions(tree):
    yield "## The functions\n"
    for f in called_functions(tree):
        uses, _, _ = tree.uses_of_function(f)
        names = ", ".join(f"`{n}`" for n in sorted({u[1] for u in uses if isinstance(tree.find(u), antt.Item)}))
        yield wrapped(f"- `{f.path}` ({f.source.path}, {span(f)}): {names or 'no definition'}")
    yield ""


def page_types(tree, types):
    yield "## The types\n\nStructs, enums and their other names in `src/` that the contracts name.\n"
    for crate in tree.crates:
        own = sorted((t for t in types if t.source.crate == crate), key=lambda t: (t.source.path, t.first))
        for path in dict.fromkeys(t.source.path for t in own):
            yield wrapped(f"- {path}: {listed(t for t in own if t.source.path == path)}")
    yield ""


def page_definitions(tree, believed):
    yield "## The definitions\n"
    headers = believed.headers()
    for crate, parts in in_order(tree, believed.definitions):
        yield f"### {crate}\n"
        for file, items in parts:
            things = sorted(items + [h for h in headers if h.module == file.module], key=lambda i: i.first)
            texts = [f"`module _` {span(t)}" if t.kind == "module" else f"`{t.name}` {span(t)}" for t in things]
            yield wrapped(f"- {file.path}: {', '.join(texts)}")
        yield ""


def page_printed(tree, believed):
    own = printed_of(tree).definitions - believed.definitions
    if not own:
        return
    yield "## What is printed\n"
    yield wrapped("No contract above rests on these. They say what each line of a listing holds (docs/RULES.md, "
                  "\"The listing\"), and are read with it.", "") + "\n"
    for _, parts in in_order(tree, own):
        for file, items in parts:
            yield wrapped(f"- {file.path}: {listed(items)}")
    yield ""


def page_laws(tree, believed):
    yield "## Laws that definitions hold\n"
    yield wrapped("These are proved, and need no belief: a definition takes each as a value, as a codec takes the laws of "
                  "its reader.", "") + "\n"
    for _, parts in in_order(tree, believed.laws):
        for file, items in parts:
            yield wrapped(f"- {file.path}: {listed(items)}")
    yield ""


def page_theorems(tree, believed):
    functions = theorem_functions(tree)
    if not functions:
        return
    yield "## The theorems\n"
    yield wrapped("Each is the contract of a public function that takes nothing and does nothing, so that it can't be dropped "
                  "or weakened unseen. Below each stands what it rests on beside the definitions above.", "") + "\n"
    for f in functions:
        own = rests_on(tree, f)
        statement = "; ".join(re.sub(r"\s+", " ", c.text.strip()) for c in f.clauses)
        yield wrapped(f"- `{f.path}` ({f.source.path}, {span(f)}): `{statement}`")
        for _, parts in in_order(tree, own.definitions - believed.definitions):
            for file, items in parts:
                yield wrapped(f"  - {file.path}: {listed(items)}", "    ")
    yield ""


def page_words(words):
    yield "## Words of the standard library\n"
    by_module = collections.defaultdict(set)
    for module, name in words:
        by_module[module].add(name or "(the module)")
    for module in sorted(by_module):
        yield wrapped(f"- {module}: {' '.join(f'`{n}`' for n in sorted(by_module[module]))}")


def rests_on(tree, function):
    """What one function's contract rests on."""
    own = Believed(tree)
    own.add_function(function)
    return own


def believed_of(tree):
    believed = Believed(tree)
    for function in called_functions(tree):
        believed.add_function(function)
    return believed


def page(tree, believed):
    parts = [page_head(tree, believed), page_functions(tree), page_types(tree, believed.types), page_definitions(tree, believed),
             page_printed(tree, believed), page_laws(tree, believed), page_theorems(tree, believed),
             page_words(believed.words)]
    return "\n".join(line for part in parts for line in part) + "\n"


# ---- checks of other pages

def tracked_texts(root):
    """(path, text) of the repository's files that may cite a section."""
    for folder, folders, names in os.walk(root):
        folders[:] = sorted(f for f in folders if f not in (".git", "out", "target"))
        for name in sorted(names):
            path = os.path.join(folder, name)
            if name.endswith((".antt", ".rt", ".md", ".py", ".rs", ".edit", ".txt", ".toml")) or folder.endswith(".ci"):
                try:
                    yield os.path.relpath(path, root), open(path).read()
                except UnicodeDecodeError:
                    pass


def wrong_citations(root):
    """Citations of sections that docs/RULES.md doesn't have; none where there is no such page."""
    rules = os.path.join(root, "docs/RULES.md")
    if not os.path.exists(rules):
        return
    headings = {h.strip() for h in re.findall(r"^#+\s+(.*?)\s*$", open(rules).read(), re.M)}
    gap = r"(?:\s|--|//[/!]?)*"
    cited = re.compile(r'docs/RULES\.md`?,((?:' + gap + r'(?:,|and|or)?' + gap + r'"[^"\n]{1,40}")+)')
    for path, text in tracked_texts(root):
        if path in (PAGE, "tools/believed.py"):
            continue
        for m in cited.finditer(text):
            for title in re.findall(r'"([^"\n]{1,40})"', m.group(1)):
                if title not in headings:
                    yield f'{path}:{text.count(chr(10), 0, m.start()) + 1}: docs/RULES.md has no section "{title}"'


def missing_functions(tree):
    """Functions that docs/PROVED.md names and that aren't public functions; none where there is no such page."""
    proved = os.path.join(tree.root, "docs/PROVED.md")
    if not os.path.exists(proved):
        return
    there = {f.path for sources in tree.sources.values() for s in sources for f in s.functions if f.public}
    for name in sorted(set(re.findall(r"`((?:%s)(?:::\w+)+)`" % "|".join(tree.crates), open(proved).read()))):
        if name not in there:
            yield f"docs/PROVED.md names {name}, which is no public function"


PLACE = re.compile(r"(?<![\w/])((?:crates/\w+/(?:specs|proofs|src)/)?)([\w/]+\.(?:antt|rt))(?:\s+\(([^)]*)\))?")
NAMED = re.compile(r"`([^`\s]+)`(?! in )")


def wrong_places(tree):
    """Files that docs/RULES.md and docs/PROVED.md name and that aren't there, or don't hold the names in the brackets behind."""
    by_path = {f.path: set(re.findall(r"[^\s(){}.;,]+", f.text)) for f in tree.files.values()}
    for page in ("docs/RULES.md", "docs/PROVED.md"):
        path = os.path.join(tree.root, page)
        text, folder = open(path).read() if os.path.exists(path) else "", ""
        for m in PLACE.finditer(text):
            folder = m.group(1) or folder
            place = folder + m.group(2)
            line = text.count("\n", 0, m.start()) + 1
            if not os.path.exists(os.path.join(tree.root, place)):
                yield f"{page}:{line}: there is no file {place}"
            for name in NAMED.findall(m.group(3) or "") if place in by_path else []:
                if name not in by_path[place]:
                    yield f"{page}:{line}: {place} has no {name}"


def wrong_marks(tree, believed):
    """Files of specs/ whose first line is wrong about whether they are to be believed."""
    spec_files = [f for f in tree.files.values() if ".specs." in f.module and f.items]
    if not any(map(is_marked, spec_files)):
        return
    resting = [believed, printed_of(tree), *(rests_on(tree, f) for f in theorem_functions(tree))]
    needed = {i.module for b in resting for i in b.definitions}
    for file in spec_files:
        if is_marked(file) and file.module in needed:
            yield f"{file.path} begins with “Not to be believed”, but a theorem or a contract of what users call rests on it"
        if not is_marked(file) and file.module not in needed:
            yield f"{file.path} has nothing that is to be believed: its first line should begin with “{MARK}”"


def check(tree, believed, text):
    """Messages of what is out of date."""
    path = os.path.join(tree.root, PAGE)
    if not os.path.exists(path) or open(path).read() != text:
        yield f"{PAGE} is out of date: run tools/believed.py"
    yield from wrong_citations(tree.root)
    yield from missing_functions(tree)
    yield from wrong_places(tree)
    yield from wrong_marks(tree, believed)


def main():
    tree = Tree()
    believed = believed_of(tree)
    theorems = [rests_on(tree, f) for f in theorem_functions(tree)]
    unknown = [u for b in [believed, printed_of(tree), *theorems] for u in b.unknown]
    failures = [f"{where} names {name}, which means nothing here" for where, name in unknown]
    text = page(tree, believed)
    if "--check" in sys.argv[1:]:
        failures += list(check(tree, believed, text))
    else:
        open(os.path.join(tree.root, PAGE), "w").write(text)
    for failure in failures:
        print(f"believed.py: {failure}", file=sys.stderr)
    sys.exit(1 if failures else 0)


if __name__ == "__main__":
    main()
