"""Reads Rattle files (.rt): their functions with contracts, their types, and what they import."""
import re

import antt


def code_of(text):
    """The text with comments, strings and bracket characters blanked, its lines and columns kept."""
    blank = lambda m: re.sub(r"[^\n]", " ", m.group())
    text = re.sub(r"//[^\n]*|/\*.*?\*/", blank, text, flags=re.S)
    return re.sub(r"\"(?:\\.|[^\"\\])*\"|'[\[\](){}\"]'", blank, text)


def closing(text, at):
    """The place of the bracket that closes the one at a place."""
    pairs = {"(": ")", "{": "}", "[": "]"}
    depth, open_, close = 0, text[at], pairs[text[at]]
    for k in range(at, len(text)):
        depth += (text[k] == open_) - (text[k] == close)
        if depth == 0:
            return k
    raise ValueError("a bracket that is never closed")


def expand_uses(tree, prefix=""):
    """(name here, path) of each name that a `use` tree brings in."""
    tree = tree.strip()
    if tree.endswith("}"):
        head, _, inner = tree.partition("{")
        depth, part, parts = 0, "", []
        for c in inner[:-1]:
            depth += (c == "{") - (c == "}")
            if c == "," and depth == 0:
                parts.append(part)
                part = ""
            else:
                part += c
        for part in filter(str.strip, parts + [part]):
            yield from expand_uses(part, prefix + head.strip())
        return
    path, _, alias = tree.partition(" as ")
    path = prefix + path.strip()
    yield (alias.strip() or path.split("::")[-1]), path


class Clause:
    """A clause of a contract: `ghost`, `requires` or `ensures`, its name if it has one, its text and first line."""

    def __init__(self, word, name, text, line):
        self.word, self.name, self.text, self.line = word, name, text, line


class Function:
    """A function: `path` as `crate::module::name`, its lines (with its comment and contract), and its contract."""

    def __init__(self, source, name, public, modules, owner):
        self.source, self.name, self.public, self.modules, self.owner = source, name, public, modules, owner
        self.parameters, self.generics, self.types, self.clauses = [], set(), "", []
        self.first = self.last = 0

    @property
    def path(self):
        return "::".join([self.source.crate, *self.modules, *([self.owner] if self.owner else []), self.name])


class Type:
    """A struct, an enum or a type alias with its lines, and the terms of its ghost fields."""

    def __init__(self, source, name, kind, text, first, last):
        self.source, self.name, self.kind, self.text, self.first, self.last = source, name, kind, text, first, last
        self.ghosts = re.findall(r"\bghost \w+\s*:\s*\{(.*?)\}\s*,", text, re.S)
        self.fields = set(re.findall(r"(?:ghost )?(\w+)\s*:(?!:)", text))
        self.variants = set(re.findall(VARIANT, text.partition("{")[2], re.M)) if kind == "enum" else set()
        # what it names besides itself and its variants
        head, brace, inner = text.partition("{")
        inner = re.sub(VARIANT, r"(", inner, flags=re.M) if kind == "enum" else inner
        self.parts = re.sub(r"\b%s\b" % name, "", head) + inner

    @property
    def path(self):
        return "::".join([self.source.crate, *self.source.modules, self.name])


class Source:
    """A .rt file: what it imports, its functions, types and constants."""

    def __init__(self, crate, modules, path, text):
        self.crate, self.modules, self.path = crate, modules, path
        self.lines = text.split("\n")
        self.code = code_of(text)
        self.ghost_imports = antt.read_imports("\n".join(l.strip() for l in self.code.split("\n")), ";")
        self.uses, self.public_uses = {}, {}
        for m in re.finditer(r"^\s*(pub )?use ([^;]+);", self.code, re.M):
            for name, full in expand_uses(re.sub(r"\s+", " ", m.group(2))):
                (self.public_uses if m.group(1) else self.uses)[name] = full
        self.constants = set(re.findall(r"\b(?:const|static) ([A-Z]\w*)\s*:", self.code))
        self.blocks = self._blocks()
        self.functions = [self._function(m) for m in FUNCTION.finditer(self.code)]
        self.types = [self._type(m) for m in TYPE.finditer(self.code)]

    def line(self, at):
        return self.code.count("\n", 0, at) + 1

    def _blocks(self):
        """(first, last, word, name) of each `mod` and `impl` block."""
        out = []
        for m in re.finditer(r"^[ \t]*(?:pub )?(mod|impl|trait)\b([^{;]*)\{", self.code, re.M):
            name = m.group(2).split(" for ")[-1]
            name = re.sub(r"<.*?>", "", name).strip().split(" ")[0].split("::")[-1].rstrip(":")
            word = "trait" if " for " in m.group(2) else m.group(1)
            out.append((m.start(), closing(self.code, m.end() - 1), word, name))
        return out

    def _head(self, block):
        """The text of a block's head, up to its bracket."""
        return self.code[block[0]:self.code.index("{", block[0])] if block[2] != "mod" else ""

    def _above(self, line):
        """The first line of the comments and attributes right above a line."""
        while line > 1 and re.match(r"\s*(//|#\[)", self.lines[line - 2]) and not self.lines[line - 2].startswith("#!"):
            line -= 1
        return line

    def _function(self, m):
        around = [b for b in self.blocks if b[0] < m.start() < b[1]]
        modules = self.modules + [b[3] for b in around if b[2] == "mod"]
        owner = next((b[3] for b in reversed(around) if b[2] != "mod"), None)
        public = bool(m.group(1)) and not any(b[2] == "trait" for b in around)
        f = Function(self, m.group(2), public, modules, owner)
        behind = _behind_generics(self.code, m.end())
        f.generics = set(re.findall(r"[<,]\s*(?:const )?([A-Z]\w*)", self.code[m.end():behind]))
        f.generics |= {g for b in around for g in re.findall(r"[<,]\s*(?:const )?([A-Z]\w*)", self._head(b))}
        at = self.code.index("(", behind)
        end = closing(self.code, at)
        inside = self.code[at + 1:end]
        f.parameters = re.findall(r"(?:^|,)\s*(?:mut )?(&?(?:'\w+ )?(?:mut )?self\b|\w+(?=\s*:(?!:)))", inside)
        f.parameters = [p.split()[-1].lstrip("&") for p in f.parameters]
        f.types, f.clauses, body = self.code[m.end():end + 1], [], end + 1
        while True:
            k = _next_stop(self.code, body)
            before = self.code[body:k]
            word = re.search(r"\b(ghost|requires|ensures)\*?\s*(\w+)?\s*:?\s*$", before)
            f.types += before[:word.start()] if word else before
            if self.code[k] == ";" or not word:
                break
            close = closing(self.code, k)
            f.clauses.append(Clause(word.group(1), word.group(2), self.code[k + 1:close], self.line(k)))
            body = close + 1
        f.first = self._above(self.line(m.start(2)))
        f.last = self.line(len(self.code[:body].rstrip()))
        return f

    def _type(self, m):
        at = m.end()
        while self.code[at] not in "{;(":
            at += 1
        end = closing(self.code, at) if self.code[at] != ";" else at
        line = self.line(m.start(2))
        return Type(self, m.group(2), m.group(1), self.code[m.start(1):end + 1], self._above(line), self.line(end))


VARIANT = r"(?:^|(?<=[,{]))\s*([A-Z]\w*)\s*(?=[({,=}]|$)"
FUNCTION = re.compile(r'^[ \t]*(?:(pub )|pub\([^)]*\) )?(?:(?:unsafe|const|extern\s+)\s*)*\s*fn (\w+)', re.M)
TYPE = re.compile(r"^[ \t]*(?:pub(?:\([^)]*\))? )?(struct|enum|type) ([A-Z]\w*)", re.M)


def _next_stop(text, at):
    """The place of the next `{` or `;` that stands in no bracket."""
    while text[at] not in "{;":
        at = closing(text, at) + 1 if text[at] in "([" else at + 1
    return at


def _behind_generics(text, at):
    """The place behind `<..>`, if that stands at a place."""
    if text[at:at + 1] != "<":
        return at
    depth = 0
    for k in range(at, len(text)):
        depth += (text[k] == "<") - (text[k] == ">" and text[k - 1] != "-")
        if depth == 0:
            return k + 1
    return at
