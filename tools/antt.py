"""Reads antt files: their imports, their items, and the names that each item uses.

A name is resolved by scope, as antt does: bound variables first (patterns, lambdas, lets, binders, a module's
parameters, the functions of a `where`), then the file's own items, then its imports. Nothing is typed: what stands
behind a dot is a field of the value before it, and no name.
"""
import re

MARKS = ("pattern", "unfoldable", "abbrev", "axiom", "pub")
# What antt has built in, and its tactics.
BUILT_IN = set(
    "→ × ↦ = | : [ ] Type 𝕀 _ tt Unit absurd ⊥ ↔ ¬ yes no as in let elim unfold unfolding do where record data pub "
    "rw rw⁻¹ at simp search grw cc omega grind hlevel assumption first_of cap subst Id J ← ⊔ λ ∀ deriving ruleset "
    "Dec coe fcoe tcoe hcom com V vin vproj in_s out_s".split()
)
# Constructors of the standard library: in a pattern these are no variables.
STD_CONSTRUCTORS = set("[] ◌∷◌ zero suc true false None Some inl inr Ok Err pos negsuc tt yes no".split())

WORD = r'(?:[^\s(){}.;,@"«»]|«[^»]*»)+'
TOKEN = re.compile(rf'"(?:\\.|[^"\\])*"|[(){{}};,@]|\.(?=\s|$)|{WORD}(?:\.{WORD})*|(?:\.{WORD})+|\.')
NUMERAL = re.compile(r"^(0x[0-9a-fA-F_]+|0[ob][0-7_]+|[0-9][0-9_]*)$")


class Token:
    """A word of a text: its line (counted from 1) and column (from 0)."""

    def __init__(self, text, line, column):
        self.text, self.line, self.column = text, line, column

    def __repr__(self):
        return f"{self.text}@{self.line}"


def without_comments(text):
    """The text with its comments blanked and its lines and columns kept."""
    blank = lambda m: re.sub(r"[^\n]", " ", m.group())
    text = re.sub(r"\{-.*?-\}", blank, text, flags=re.S)
    return re.sub(r"(?<![^\s(){};,])--[^\n]*", blank, text)


def tokens_of(lines, first=1):
    """The tokens of lines without comments, the first of which has the number `first`."""
    out = []
    for number, line in enumerate(lines, first):
        out += [Token(m.group(), number, m.start()) for m in TOKEN.finditer(line)]
    return out


class Item:
    """A declaration of a file: `kind` is record, data, abbrev, unfoldable, or plain (neither of these).

    `first` and `last` are its lines, its comment among them. `uses` are the names that it uses, resolved, and
    `type_uses` those of its type alone; `unresolved` are names that mean nothing. `header` is the item of the
    `module _` that it stands in, if any.
    """

    def __init__(self, module, name, kind, public, start, header):
        self.module, self.name, self.kind, self.public = module, name, kind, public
        self.start = self.first = self.last = start
        self.header = header
        self.comment = ""
        self.uses, self.type_uses, self.unresolved, self.unfolds = set(), set(), set(), set()
        self.constructors = []
        self.type_text = ""
        self.text = ""
        self.fields_text = ""

    @property
    def key(self):
        return (self.module, self.name)

    def __repr__(self):
        return f"{self.module}.{self.name}"


class Import:
    """A name that a `use` line brings in: from which module, which name there (none: the module itself)."""

    def __init__(self, module, name, line):
        self.module, self.name, self.line = module, name, line


def read_imports(text, statement_end=""):
    """The imports of a text by the name that they have there. `statement_end` is `;` in Rattle's files."""
    out = {}
    head = r"^(?:ghost )?(?:pub )?use ([^\s{};]+?)" if statement_end else r"^(?:pub )?use ([^\s{}]+?)"
    pattern = head + r"(?:\.\{([^}]*)\}|\s+as\s+([^\s;]+))?" + statement_end + r"[ \t]*$"
    for m in re.finditer(pattern, text, re.M):
        module, names, alias = m.groups()
        line = text.count("\n", 0, m.start()) + 1
        if names is None:
            out[alias or module.split(".")[-1]] = Import(module, None, line)
            continue
        for part in filter(None, (p.strip() for p in names.split(","))):
            name, _, as_name = part.partition(" as ")
            out[(as_name or name).strip()] = Import(module, name.strip(), line)
    return out


class File:
    """An antt file: its module's path, imports, items by name, and constructors by name (the item they are of)."""

    def __init__(self, module, path, text):
        self.module, self.path, self.text = module, path, text
        self.lines = text.split("\n")
        self.code = without_comments(text).split("\n")
        self.imports = read_imports("\n".join(self.code))
        self.items, self.headers, self.constructors = [], [], {}
        _read_block(self, 0, len(self.code), 0, None)
        self.by_name = {i.name: i for i in self.items}
        for item in self.items:
            for name in item.constructors:
                self.constructors[name] = item


# ---- the items of a file

SIGNATURE = re.compile(
    r"^((?:(?:pattern|unfoldable|abbrev|axiom|pub) )*)(record |data )?([^\s(){}:;,]+)(\s*\{[^}:=]*\})?(?=\s|$)")


def _indent(line):
    return len(line) - len(line.lstrip())


def _is_signature(line):
    """Whether a stripped line begins a declaration, and its match."""
    m = SIGNATURE.match(line)
    if not m or m.group(3) in ("=", "use", "module", "unfolding", "mod", "infixl", "infixr", "infix"):
        return None
    if m.group(2):
        return m
    rest = line[m.end():].lstrip()
    return m if rest.startswith(":") and (len(rest) == 1 or rest[1].isspace()) else None


def _comment_start(file, at):
    """The first line of the comment (and fixity lines) right above line index `at`."""
    while at > 0:
        above = file.lines[at - 1].strip()
        if not (above.startswith("--") and not above.startswith("-- ----")) and not above.startswith("infix"):
            break
        at -= 1
    return at


def _read_block(file, begin, end, indent, header):
    """Reads the declarations of lines begin up to end that stand at an indentation."""
    starts = [i for i in range(begin, end) if file.code[i].strip() and _indent(file.code[i]) == indent]
    current, i = None, 0
    while i < len(starts):
        at = starts[i]
        line = file.code[at].strip()
        if line.startswith("module "):
            current = None
            stop = next((s for s in starts[i + 1:] if not file.code[s].lstrip().startswith((")", "}"))), end)
            inside = [k for k in range(at + 1, stop) if file.code[k].strip()]
            head = Item(file.module, f"module _ ({at + 1})", "module", False, at + 1, header)
            head.first = _comment_start(file, at) + 1
            head.last = at + 1
            while "where" not in file.code[head.last - 1].split():
                head.last += 1
            file.headers.append(head)
            inside = [k for k in inside if k >= head.last]
            if inside:
                _read_block(file, head.last, stop, _indent(file.code[inside[0]]), head)
            i = starts.index(stop) if stop in starts else len(starts)
            continue
        m = None if line.startswith(("use ", "pub use ", "mod ", "pub mod ", "infix")) else _is_signature(line)
        if m:
            marks, keyword, name = m.group(1).split(), (m.group(2) or "").strip(), m.group(3)
            kind = keyword or next((k for k in ("abbrev", "unfoldable") if k in marks), "plain")
            current = Item(file.module, name, kind, "pub" in marks, at + 1, header)
            current.first = _comment_start(file, at) + 1
            file.items.append(current)
        elif line.startswith(("use ", "pub use ", "mod ", "pub mod ", "infix", "open ")):
            current = None
        if current:
            stop = starts[i + 1] if i + 1 < len(starts) else end
            last = max(k for k in range(at, stop) if file.code[k].strip())
            current.last = last + 1
        i += 1


# ---- the names that an item uses

class Scope:
    """Where names are looked up, and what was found."""

    def __init__(self, file, item, is_constructor):
        self.file, self.item, self.is_constructor = file, item, is_constructor
        self.uses, self.unresolved = set(), set()
        self.parts = {}
        for name in list(file.imports) + list(file.by_name) + list(file.constructors):
            if "◌" in name:
                for part in filter(None, name.split("◌")):
                    self.parts.setdefault(part, []).append(name)

    def own(self, name):
        """Whether a name is an item or a constructor of the file that stands above, or at, the item at hand."""
        item = self.file.by_name.get(name) or self.file.constructors.get(name)
        return item is not None and item.start <= self.item.start

    def full(self, word):
        """An operator's whole names for one of its parts, or the word itself."""
        if self.own(word) or word in self.file.imports:
            return [word]
        return [name for name in self.parts.get(word.strip("◌"), []) if self.own(name) or name in self.file.imports]

    def find(self, path):
        """Notes the use of a name that is not bound."""
        head, _, rest = path.partition(".")
        for name in self.full(head):
            if self.own(name):
                self.uses.add((self.file.module, name))
                return
            imported = self.file.imports[name]
            if imported.name is None:
                self.uses.add((imported.module, rest.split(".")[0]) if rest else (imported.module, None))
            else:
                self.uses.add((imported.module, imported.name))
            return
        if head not in BUILT_IN and not NUMERAL.match(head) and not head.startswith('"'):
            self.unresolved.add(path)

    def constructor(self, name):
        """Whether a name of a pattern is a constructor."""
        head = name.partition(".")[0]
        if "." in name:
            return True
        for full in self.full(head):
            if self.own(full):
                return full in self.file.constructors
            if full in self.file.imports:
                imported = self.file.imports[full]
                return self.is_constructor(imported.module, imported.name)
            return False
        return head in ("tt", "yes", "no")


class Reader:
    """Reads terms and patterns from tokens."""

    def __init__(self, tokens, scope):
        self.tokens, self.at, self.scope = tokens, 0, scope

    def peek(self, ahead=0):
        k = self.at + ahead
        return self.tokens[k].text if k < len(self.tokens) else None

    def next(self):
        self.at += 1
        return self.tokens[self.at - 1].text

    def is_binder(self):
        """Whether the bracket at hand holds names and a colon."""
        k = 1
        while self.peek(k) is not None and self.peek(k) not in list("(){}.;,") + ["=", ":", "→", "↦", "let", "λ"]:
            k += 1
        return k > 1 and self.peek(k) == ":"

    def binder(self, bound):
        """A binder `(x y : A)`: reads its type and gives the names with those bound before."""
        close = ")" if self.next() == "(" else "}"
        names = []
        while self.peek() != ":":
            names.append(self.next())
        self.next()
        self.term(bound, (close,))
        self.next()
        return bound | set(names)

    def term(self, bound, stops=()):
        """Reads a term up to one of the stops or a closing bracket."""
        while self.at < len(self.tokens):
            word = self.peek()
            if word in stops or word in (")", "}"):
                return
            if word == "λ":
                self.next()
                bound = self.patterns(bound, (".",))
                self.next()
            elif word == "let":
                bound = self.let(bound)
            elif word == "unfold":
                self.next()
                while self.next() != "in":
                    pass
            elif word in ("(", "{"):
                bound = self.group(bound)
            elif word == "record" and self.peek(1) is not None:
                self.next()
                self.record(bound)
            elif word == "[":
                self.cases(bound)
            else:
                self.name(self.next(), bound)

    def name(self, word, bound):
        head = word.partition(".")[0]
        if word[0] in ".,;@" or head in bound or (head.startswith("«") and head[1:-1] in bound):
            return
        self.scope.find(word)

    def let(self, bound):
        self.next()
        names = self.patterns(set(), (":", "="))
        if self.next() == ":":
            self.term(bound, ("=",))
            self.next()
        self.term(bound, ("in",))
        self.next()
        return bound | names

    def group(self, bound):
        """A bracket: a binder, a term, a tuple, a named argument."""
        if self.is_binder():
            return self.binder(bound)
        open_ = self.next()
        close = ")" if open_ == "(" else "}"
        if open_ == "{" and self.peek(1) == "=":
            self.next()
            self.next()
        while self.peek() != close:
            self.term(bound, (",", ";"))
            if self.peek() in (",", ";"):
                self.next()
        self.next()
        return bound

    def record(self, bound):
        """What follows the word `record`: a value, a changed value or a type."""
        if self.peek() == "(":
            bound = self.group(bound)
        elif self.peek() != "{":
            self.name(self.next(), bound)
        self.next()
        while self.peek() != "}":
            field = self.next()
            if self.next() == ":":
                self.term(bound, (";",))
                bound = bound | {field}
            else:
                self.term(bound, (";",))
            if self.peek() == ";":
                self.next()
        self.next()

    def cases(self, bound):
        """The cases of an `elim`."""
        self.next()
        while self.peek() != "]":
            inner = self.patterns(bound, ("↦", "]"))
            if self.peek() == "]":
                break
            self.next()
            self.term(inner, ("|", "]"))
            if self.peek() == "|":
                self.next()
        self.next()

    def patterns(self, bound, stops):
        """Reads patterns up to a stop, and gives the names that they bind with those bound before."""
        while self.peek() not in stops and self.at < len(self.tokens):
            word = self.peek()
            if word in ("(", "{") and self.is_binder():
                bound = self.binder(bound)
            elif word in ("(", "{"):
                self.next()
                if word == "{" and self.peek(1) == "=":
                    self.next()
                    self.next()
                bound = self.patterns(bound, (")", "}"))
                self.next()
            elif word == "record":
                self.next()
                self.next()
                while self.peek() != "}":
                    self.next()
                    self.next()
                    bound = self.patterns(bound, (";", "}"))
                    if self.peek() == ";":
                        self.next()
                self.next()
            else:
                bound = self.pattern_word(self.next(), bound)
        return bound

    def pattern_word(self, word, bound):
        if word in (",", ";", ".", "@", "→", "_") or NUMERAL.match(word):
            return bound
        if self.scope.constructor(word):
            self.scope.find(word)
            return bound
        return bound | {word, word.strip("«»")}


def _split(tokens, word):
    """Tokens before and behind the first `word` that stands in no bracket."""
    depth = 0
    for k, token in enumerate(tokens):
        depth += token.text in ("(", "{", "[") and 1 or token.text in (")", "}", "]") and -1 or 0
        if depth == 0 and token.text == word:
            return tokens[:k], tokens[k + 1:]
    return tokens, []


def _sections(tokens):
    """Groups of tokens, each beginning at the first one's column, but for lines that begin with a closing bracket."""
    groups, line = [], None
    for token in tokens:
        new_line = token.line != line
        line = token.line
        if not groups or (new_line and token.column <= tokens[0].column and token.text not in (")", "}", "]")):
            groups.append([])
        groups[-1].append(token)
    return groups


def _strip_marks(tokens):
    k = 0
    while k < len(tokens) and tokens[k].text in MARKS:
        k += 1
    return tokens[k:]


def _signature_parts(section):
    """(name, tokens of the type) where a section is a signature."""
    rest = _strip_marks(section)
    if not rest or rest[0].text in ("unfolding", "record", "data"):
        return None
    k = 1
    if k < len(rest) and rest[k].text == "{":
        while rest[k].text != "}":
            if rest[k].text in (":", "="):
                return None
            k += 1
        k += 1
    if k < len(rest) and rest[k].text == ":":
        return rest[0].text, rest[k + 1:]
    return None


def _levels(section):
    """The level variables of a signature, `f {ℓ} : ..`."""
    rest = _strip_marks(section)
    out = set()
    if len(rest) > 1 and rest[1].text == "{":
        for token in rest[2:]:
            if token.text in ("}", ":"):
                break
            out.add(token.text)
    return out


def _read_declarations(tokens, scope, bound):
    """Reads a block of signatures and clauses, as below `where`."""
    sections = _sections(tokens)
    names = {p[0] for p in map(_signature_parts, sections) if p}
    bound = bound | names
    levels = set()
    for section in sections:
        signature = _signature_parts(section)
        if signature:
            levels = _levels(section)
            Reader(signature[1], scope).term(bound | levels)
        elif section[0].text == "unfolding":
            scope.item.unfolds |= {t.text for t in section[1:]}
        elif section[0].text == "open":
            opened, used = _split(section[1:], "use")
            Reader(opened, scope).term(bound)
            bound = Reader(used, scope).patterns(bound, ())
        else:
            _read_clause(section, scope, bound | levels, names)


def _read_clause(section, scope, bound, names):
    """Reads a clause: patterns, a term, and what stands below `where`."""
    left, right = _split(section, "=")
    body, inner = _split(right, "where")
    reader = Reader(left, scope)
    local = set()
    for name in [left[0].text] if left[0].text in names | {scope.item.name} else []:
        reader.next()
    local = reader.patterns(local, ())
    here = bound | (local - {scope.item.name})
    if inner:
        inner_names = {p[0] for p in map(_signature_parts, _sections(inner)) if p}
        _read_declarations(inner, scope, here)
        here = here | inner_names
    Reader(body, scope).term(here)


def _read_record(tokens, scope, bound, item):
    """Reads a record or a data type: parameters, the type, and the fields or constructors below `where`."""
    head, inner = _split(tokens, "where")
    rest = _strip_marks(head)[2:]
    if rest and rest[0].text == "{" and not (len(rest) > 2 and ":" in [t.text for t in rest[:3]]):
        while rest[0].text != "}":
            bound = bound | {rest[0].text}
            rest = rest[1:]
        rest = rest[1:]
    reader = Reader(rest, scope)
    while reader.peek() in ("(", "{"):
        bound = reader.binder(bound)
    reader.term(bound)
    for section in _sections(inner):
        left, right = _split(_strip_marks(section), ":")
        names = [t.text for t in left]
        Reader(right, scope).term(bound)
        if item.kind == "record":
            bound = bound | set(names)


def _text(tokens):
    return " ".join(t.text for t in tokens)


def _item_tokens(file, item):
    return tokens_of(file.code[item.start - 1:item.last], item.start)


def _header_bound(header, scope, file):
    """The names that a `module _` and those around it bind; what their types use is noted."""
    if header is None:
        return set()
    bound = _header_bound(header.header, scope, file)
    tokens = tokens_of(file.code[header.start - 1:header.last], header.start)[2:]
    if tokens and tokens[0].text == "{" and ":" not in [t.text for t in tokens[:4]]:
        while tokens[0].text != "}":
            bound = bound | {tokens[0].text}
            tokens = tokens[1:]
        tokens = tokens[1:]
    reader = Reader(tokens, scope)
    while reader.peek() in ("(", "{"):
        bound = reader.binder(bound)
    return bound


def declare(file):
    """Finds the constructors of a file's data types, before names are resolved."""
    for item in file.items:
        if item.kind == "data":
            _, inner = _split(_item_tokens(file, item), "where")
            for section in _sections(inner) if inner else []:
                left, _ = _split(_strip_marks(section), ":")
                item.constructors += [t.text for t in left]
        for name in item.constructors:
            file.constructors[name] = item


def resolve(file, is_constructor):
    """Notes at each item of a file what it uses."""
    for item in file.items:
        scope = Scope(file, item, is_constructor)
        tokens = _item_tokens(file, item)
        bound = _header_bound(item.header, scope, file)
        item.text = "\n".join(file.code[item.start - 1:item.last])
        if item.kind in ("record", "data"):
            _read_record(tokens, scope, bound, item)
            item.type_uses = set(scope.uses)
        else:
            sections = _sections(tokens)
            signature = _signature_parts(sections[0])
            item.type_text = _text(signature[1])
            typed = Scope(file, item, is_constructor)
            Reader(signature[1], typed).term(bound | _levels(sections[0]))
            item.type_uses = set(typed.uses)
            levels = _levels(sections[0])
            _read_declarations(tokens, scope, (bound | levels))
        scope.uses.discard((file.module, item.name))
        item.uses, item.unresolved = scope.uses, scope.unresolved
