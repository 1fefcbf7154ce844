#!/usr/bin/env python3
"""Enums of Option's shape become Option, and specs speak of Rust's Option.

  column::OptInt -> Option<u64>         spec::ids::Number   -> Option<u32>
  column::Bit    -> Option<bool>        spec::ids::Text     -> Option<Stretch>
  spec::ids::Place -> Option<usize>     spec::ids::Controls -> Option<ControlRule>
                                        spec::ids::Version  -> Option<VersionRule>

In specs and proofs none, some and Option of mathlib become None, Some and Option of std's Prelude; number_of, int_is and bit_is, which were the
way between the two, go. Names of steps in proof files follow the variants. Works by text alone: python3 tools/port/options.py CHECKOUT
"""
import os
import re
import sys

WORD = r"(?<![\w\-.'])%s(?![\w\-'])"

# own enum: the Rust type, the type in specs, what has to be imported beside it, the variants
ENUMS = {
    "spec": {
        "Number": ("Option<u32>", "Option ℕ", None, {"None": "None", "Is": "Some"}),
        "Text": ("Option<Stretch>", "Option Stretch", "Stretch", {"None": "None", "Is": "Some"}),
        "Controls": ("Option<ControlRule>", "Option ControlRule", "ControlRule", {"None": "None", "Is": "Some"}),
        "Place": ("Option<usize>", "Option ℕ", None, {"Nowhere": "None", "At": "Some"}),
        "Version": ("Option<VersionRule>", "Option VersionRule", "VersionRule", {"None": "None", "Is": "Some"}),
    },
    "column": {
        "OptInt": ("Option<u64>", "Option ℕ", None, {"Number": "Some", "NoNumber": "None"}),
        "Bit": ("Option<bool>", "Option Bool", None, {"Missing": "None", "Unset": "Some false", "Set": "Some true"}),
    },
}
MODULE = {"spec": "Rattle.spec.specs.declared.ids", "column": "Rattle.column.specs.declared"}
RUST = {"spec": ("spec::ids", "crate::ids"), "column": ("column", "crate")}
# words that go
IDENTITY = {"Rattle.spec.specs.Answers": ["number_of"], "Rattle.column.specs.Answers": ["int_is", "bit_is"]}
OPTION_MODULES = ("mathlib.Core.Option", "Rattle.std.proofs.Math.Option")
PRELUDE = "Rattle.std.specs.Prelude"
FROM = {
    "Option": (PRELUDE, "Option"),
    "none": (PRELUDE, "None"),
    "some": (PRELUDE, "Some"),
    "map": ("Rattle.std.specs.Option", "option_map"),
    "some-injective": ("Rattle.std.proofs.lemmas.Option", "same_Some"),
    "none-ne-some": ("Rattle.std.proofs.lemmas.Option", "none-some"),
}
# what a variant named None or Some of another type is called where Option's own is needed beside it
OTHERS = {
    "Rattle.column.specs.declared.Cell": "NoAnswer",
    "Rattle.nest.specs.declared.keys.Keys": "NoKeys",
}


def split_names(text):
    return [n.strip() for n in text.split(",") if n.strip()]


def told(name):
    """The name that a `use` item brings, and what it names."""
    m = re.match(r"^(\S+) as (\S+)$", name)
    return (m.group(2), m.group(1)) if m else (name, name)


def strip_identity(code, words):
    for w in words:
        code = re.sub(r"\(ap %s ([\w.\-']+)\)" % w, r"\1", code)
        code = re.sub(r"\(ap %s (\([^()]*\))\)" % w, r"\1", code)
        code = re.sub((WORD % ("ap " + w)) + r" (?=[\w(])", "", code)
        code = re.sub(r"\((?:%s) ([\w.\-']+)\)" % w, r"\1", code)
        code = re.sub(r"\((?:%s) (\([^()]*\))\)" % w, r"\1", code)
        code = re.sub((WORD % w) + r" (?=[\w(])", "", code)
    return code


def put_type(code, name, new):
    """A type's name becomes two words, in parentheses where it is an argument."""
    pattern = WORD % re.escape(name)

    def one(m):
        before = code[: m.start()]
        tight = re.search(r"[\w}')]\s$", before) and not re.search(r"\b(as|in|let)\s$", before)
        return "(%s)" % new if tight else new

    return re.sub(pattern, one, code)


class Words:
    """What a file's imports make of the words in its text."""

    def __init__(self):
        self.tokens = {}   # word -> word
        self.types = {}    # word -> two words
        self.need = {}     # module -> names
        self.identity = []
        self.rename = {}   # of another type's None

    def wants(self, module, name):
        self.need.setdefault(module, [])
        if name not in self.need[module]:
            self.need[module].append(name)

    def line(self, code):
        for a, b in self.rename.items():
            code = re.sub(WORD % re.escape(a), b, code)
        for a, b in self.types.items():
            code = put_type(code, a, b)
        code = strip_identity(code, self.identity)
        for a, b in self.tokens.items():
            code = put_type(code, a, b) if " " in b else re.sub(WORD % re.escape(a), b, code)
        return code


def own_type(words, crate, name):
    rust, spec, beside, variants = ENUMS[crate][name]
    words.wants(PRELUDE, "Option")
    if "ℕ" in spec:
        words.natural = True
    if beside:
        words.wants("%s.%s" % (MODULE["spec"], beside), beside)
    return spec


def read_use(words, module, rest):
    """Takes one `use` apart. Gives the line's new text, or None where it goes."""
    if module in OPTION_MODULES:
        if rest is None:
            words.tokens["Option.map"] = "option_map"
            words.option_module = True
            return None
        for item in rest:
            name, what = told(item)
            to, word = FROM[what]
            words.wants(to, word)
            if name != word:
                words.tokens[name] = word
        return None
    for crate, enums in ENUMS.items():
        for e, (rust, spec, beside, variants) in enums.items():
            base = "%s.%s" % (MODULE[crate], e)
            if module == base + ".TheVariants":
                for item in rest:
                    name, what = told(item)
                    words.tokens[name] = variants[what]
                    words.wants(PRELUDE, variants[what].split(" ")[0])
                return None
            if module == base:
                for item in rest:
                    name, what = told(item)
                    words.types[name] = own_type(words, crate, e)
                return None
            if module == MODULE[crate] and rest and e in [told(i)[1] for i in rest]:
                raise SystemExit("not foreseen: " + module)
    if module in IDENTITY:
        gone = [n for n in rest if n in IDENTITY[module]]
        if gone:
            words.identity += gone
            kept = [n for n in rest if n not in gone]
            return "{%s}" % ", ".join(kept) if kept else None
    return "same"


def read_alias(words, module, alias):
    for crate, enums in ENUMS.items():
        for e, (rust, spec, beside, variants) in enums.items():
            base = "%s.%s" % (MODULE[crate], e)
            if module == base + ".TheVariants":
                for v, to in variants.items():
                    words.tokens["%s.%s" % (alias, v)] = to
                words.aliases.append((alias, variants))
                return None
            if module == base:
                words.types["%s.%s" % (alias, e)] = own_type(words, crate, e)
                return None
    return "same"


def split_comment(line, mark):
    if mark == "--":
        m = re.search(r"(^|\s)-- ", line)
    else:
        m = re.search(r"(^|\s)// ", line)
    if not m:
        return line, ""
    return line[: m.start()], line[m.start():]


def merge_uses(lines, need, ghost=False):
    """Adds names to imports, to a line that is there or to one of its own."""
    head = "ghost use " if ghost else "use "
    tail = ";" if ghost else ""
    for module, names in need.items():
        names = list(names)
        at = None
        first = None
        for i, line in enumerate(lines):
            if line.startswith(head) and first is None:
                first = i
            m = re.match(r"^%s([\w.\-]+)\.\{(.*)\}%s$" % (head, tail), line)
            if m and m.group(1) == module:
                at = i if at is None else at
                here = [told(n)[0] for n in split_names(m.group(2))]
                names = [n for n in names if n not in here]
        if not names:
            continue
        if at is not None:
            lines[at] = re.sub(r"\}(;?)$", lambda m: ", %s}%s" % (", ".join(names), m.group(1)), lines[at])
            continue
        at = first if first is not None else 0
        # behind the leading imports of the logic and of std
        while at < len(lines) and re.match(r"^%s(Prim|native|mathlib|Rattle\.std)\b" % head, lines[at]):
            at += 1
        lines.insert(at, "%s%s.{%s}%s" % (head, module, ", ".join(names), tail))
    return lines


def used(word, lines, ghost=False):
    return any(re.search(WORD % re.escape(word), split_comment(l, "//" if ghost else "--")[0]) for l in lines)


def drop_unused(words, lines, ghost=False):
    body = [l for l in lines if not re.match(r"^\s*(ghost |pub )?use ", l)]
    for module, names in words.need.items():
        words.need[module] = [n for n in names if used(n, body, ghost)]


def respelled(words, m, form):
    """An import, matched with its module and names, as it reads now: a line, or none where no name is left."""
    names = read_use(words, m.group(1), split_names(m.group(2)))
    if names is None:
        return []
    return [m.group(0) if names == "same" else form % (m.group(1), names)]


# ---- specs and proofs

def convert_antt(text, path, renamed):
    lines = text.split("\n")
    words = Words()
    words.aliases = []
    words.option_module = False
    out = []
    for line in lines:
        m = re.match(r"^use ([\w.\-]+)\.\{(.*)\}$", line)
        a = re.match(r"^use ([\w.\-]+) as (\S+)$", line)
        b = re.match(r"^use ([\w.\-]+)$", line)
        if m:
            out += respelled(words, m, "use %s.%s")
        elif a:
            if read_alias(words, a.group(1), a.group(2)) is not None:
                out.append(line)
        elif b and b.group(1) in OPTION_MODULES:
            read_use(words, b.group(1), None)
        else:
            out.append(line)
    if path.endswith("crates/spec/specs/Answers.antt"):
        words.identity.append("number_of")
        out = gone_definition(out, "number_of")
    if path.endswith("crates/column/specs/Answers.antt"):
        words.identity += ["int_is", "bit_is"]
        out = gone_definition(gone_definition(out, "int_is"), "bit_is")
    if words.option_module:
        words.wants("Rattle.std.specs.Option", "option_map")
    for alias, variants in words.aliases:
        for v in sorted(set(variants.values())):
            words.wants(PRELUDE, v.split(" ")[0])
    if not (words.tokens or words.types or words.identity or words.need or renamed):
        return text
    # None of another type beside Option's
    brings_none = "None" in words.need.get(PRELUDE, [])
    if brings_none:
        for i, line in enumerate(out):
            m = re.match(r"^use ([\w.\-]+)\.TheVariants\.\{(.*)\}$", line)
            if m and m.group(1) in OTHERS and "None" in split_names(m.group(2)):
                to = OTHERS[m.group(1)]
                words.rename["None"] = to
                out[i] = line.replace("{None", "{None as " + to) if "{None" in line else line.replace(", None", ", None as " + to)
    for a, b in renamed.items():
        words.rename[a] = b
    for i, line in enumerate(out):
        if line.startswith("use "):
            for a, b in renamed.items():
                if re.search(r"[{ ]%s[,}]" % a, line) and any(line.startswith("use %s." % mod) for mod in RENAMED_IN):
                    out[i] = re.sub(WORD % a, b, line)
            continue
        code, comment = split_comment(line, "--")
        out[i] = words.line(code) + comment
    drop_unused(words, out)
    out = merge_uses(out, words.need)
    return "\n".join(out)


def gone_definition(lines, name):
    return [l for l in lines if not re.match(r"^(abbrev pub |unfoldable pub )?%s( :| |$)" % name, l)]


# ---- step names

def function_body(root, crate, parts):
    """The source of the function that a folder of proofs is about."""
    src = os.path.join(root, "crates", crate, "src")
    *mods, fn = parts
    names = ["/".join(mods) + ".rt", "/".join(mods) + "/mod.rt"] if mods else ["lib.rt", "main.rt"]
    for n in names + ["lib.rt"]:
        p = os.path.join(src, n)
        if os.path.exists(p):
            text = ORIGINAL.get(p) or open(p).read()
            m = re.search(r"^( *)(?:pub(?:\([a-z]+\))? )?fn %s\b.*?^\1\}$" % re.escape(fn), text, re.S | re.M)
            if m:
                return m.group(0), uses_of(text)
    return None, None


def uses_of(text):
    """Which own enums the file's imports bring."""
    found = {}
    for m in re.finditer(r"^use ([\w:]+)::(?:\{([^}]*)\}|(\w+));$", text, re.M):
        for item in split_names(m.group(2) or m.group(3)):
            name, what = told(item)
            for crate, homes in RUST.items():
                if m.group(1) in homes and what in ENUMS[crate]:
                    found[name] = (crate, what)
    return found


def convert_steps(text, body, found, path):
    """A step is named by its variant, and where an earlier match of the function has that name, by what is matched on too."""
    if body is None:
        return text
    names = {}
    before = set()
    after = set()
    for m in re.finditer(r"\bmatch (\S+) \{\s*(\w+)::(\w+)|\blet (\w+)::(\w+)[^=\n]*= (\S+?)(?: else)?(?: \{|;)", body):
        scrutinee = re.sub(r"\W.*", "", m.group(1) or m.group(6))
        enum = m.group(2) or m.group(4)
        if enum in found:
            crate, what = found[enum]
            variants = ENUMS[crate][what][3]
        else:
            arms = body[m.end(2) if m.group(2) else m.end(4):]
            variants = {v: v for v in re.findall(r"\b%s::(\w+)" % enum, arms)}
        for v, to in variants.items():
            to = to.replace(" ", "-")
            old = "%s-%s" % (v, scrutinee) if v in before else v
            new = "%s-%s" % (to, scrutinee) if to in after else to
            if old not in names:
                names[old] = new
        before |= set(variants)
        after |= {to.replace(" ", "-") for to in variants.values()}
    if all(a == b for a, b in names.items()):
        return text
    pattern = "|".join(re.escape(n) for n in sorted(names, key=len, reverse=True))
    text = re.sub(r"(?<=[iI]n-)(%s)(?!\w)" % pattern, lambda m: names[m.group(1)], text)
    text = re.sub(r"(?<=not-)(%s)(?!\w)" % pattern, lambda m: names[m.group(1)], text)
    # an arm with a test inside says in two facts what the value is
    text = re.sub(r"\bc\.(in-Some-(?:true|false))\.is\b", r"(rw c.\1.field-0-test at c.\1.is)", text)
    return text


# ---- code

def convert_rt(text, path):
    found = uses_of(text)
    lines = text.split("\n")
    words = Words()
    words.aliases = []
    out = []
    beside = set()
    for line in lines:
        m = re.match(r"^ghost use ([\w.\-]+)\.\{(.*)\};$", line)
        out += respelled(words, m, "ghost use %s.%s;") if m else [line]
    # imports of code
    text = "\n".join(out)

    def one(m):
        module, items, single = m.group(1), m.group(2), m.group(3)
        names = split_names(items or single)
        for crate, homes in RUST.items():
            if module in homes:
                left = []
                for n in names:
                    what = told(n)[1]
                    if what in ENUMS[crate]:
                        if ENUMS[crate][what][2]:
                            beside.add((module, ENUMS[crate][what][2]))
                    else:
                        left.append(n)
                extra = [b for (mod, b) in beside if mod == module and b not in left]
                names = left + extra
        if not names:
            return ""
        names = sorted(set(names), key=lambda n: (n[0].islower(), n))
        if names == sorted(split_names(items or single), key=lambda n: (n[0].islower(), n)):
            return m.group(0)
        if len(names) == 1:
            return "use %s::%s;\n" % (module, names[0])
        return "use %s::{%s};\n" % (module, ", ".join(names))

    if found:
        text = re.sub(r"^use ([\w:]+)::(?:\{([^}]*)\}|(\w+));\n", one, text, flags=re.M)
    # definitions of the enums
    if path.endswith("crates/spec/src/ids.rt") or path.endswith("crates/column/src/lib.rt"):
        crate = "spec" if "/spec/" in path else "column"
        for e in ENUMS[crate]:
            text, n = re.subn(r"(?:^//[^\n]*\n)*^#\[derive[^\n]*\n^pub enum %s \{\n(?:[^}]*\n)\}\n\n?" % e, "", text, flags=re.M)
            if n:
                found[e] = (crate, e)
        text = text.rstrip("\n") + "\n"
    lines = text.split("\n")
    depth = 0
    for i, line in enumerate(lines):
        if re.match(r"^(ghost |pub )?use ", line):
            continue
        code, comment = split_comment(line, "//")
        clause = depth > 0 or re.match(r"^\s*(requires|ensures|ghost)\b", code)
        if clause:
            depth += code.count("{") - code.count("}")
            lines[i] = words.line(code) + comment
            continue
        code = convert_code(code, found)
        lines[i] = code + comment
    drop_unused(words, lines, True)
    lines = merge_uses(lines, words.need, ghost=True)
    return "\n".join(lines)


def convert_code(code, found):
    for name, (crate, what) in found.items():
        rust, spec, beside, variants = ENUMS[crate][what]
        for v, to in variants.items():
            code = re.sub(r"(?<![\w:])%s::%s\b" % (name, v), re.sub(" (.*)", r"(\1)", to), code)
        code = re.sub(r"(?<![\w:])%s(?![\w:(<])(?!\s*\{)" % name, rust, code)
    return code


# ---- edits

def convert_edit(text, root, crate):
    out = []
    where = None
    for line in text.split("\n"):
        m = re.match(r"^file: (\S+)$", line)
        if m:
            where = os.path.join(root, "crates", crate, m.group(1))
        m = re.match(r"^(old|new): (.*)$", line)
        if m and where:
            body = m.group(2)
            original = ORIGINAL.get(where, "")
            if where.endswith(".rt"):
                if re.match(r"^\s*(requires|ensures)\b", body):
                    body = line_by(original, body, True)
                else:
                    body = convert_code(body, uses_of(original))
            else:
                body = line_by(original, body, False)
            line = "%s: %s" % (m.group(1), body)
        out.append(line)
    return "\n".join(out)


def line_by(original, body, ghost):
    words = Words()
    words.aliases = []
    words.option_module = False
    for line in original.split("\n"):
        line = re.sub(r"^ghost |;$", "", line) if ghost else line
        m = re.match(r"^use ([\w.\-]+)\.\{(.*)\}$", line)
        a = re.match(r"^use ([\w.\-]+) as (\S+)$", line)
        if m:
            read_use(words, m.group(1), split_names(m.group(2)))
        elif a:
            read_alias(words, a.group(1), a.group(2))
    return words.line(body)


ORIGINAL = {}
RENAMED_IN = []


def main():
    root = os.path.abspath(sys.argv[1] if len(sys.argv) > 1 else ".")
    crates = os.path.join(root, "crates")
    files = []
    for crate in sorted(os.listdir(crates)):
        for part in ("specs", "proofs", "src", "must-fail", "must-fail-more"):
            for d, _, names in os.walk(os.path.join(crates, crate, part)):
                for n in sorted(names):
                    if n.endswith((".antt", ".rt", ".edit")):
                        files.append((crate, part, os.path.join(d, n)))
    for crate, part, p in files:
        ORIGINAL[p] = open(p).read()
    # words of the repository's own that are named as Option's constructors
    own = {}
    for crate, part, p in files:
        if p.endswith(".antt"):
            for m in re.finditer(r"^(?:abbrev |unfoldable )?(?:pub )?(Some|None) :", ORIGINAL[p], re.M):
                module = "Rattle." + os.path.relpath(p, crates)[: -len(".antt")].replace("/", ".")
                own[module] = m.group(1)
                RENAMED_IN.append(module)
    changed = 0
    for crate, part, p in files:
        text = ORIGINAL[p]
        if p.endswith(".antt"):
            module = "Rattle." + os.path.relpath(p, crates)[: -len(".antt")].replace("/", ".")
            renamed = {}
            for m, w in own.items():
                if m == module or re.search(r"^use %s\.\{[^}]*\b%s\b" % (re.escape(m), w), text, re.M):
                    renamed[w] = "Meets" if w == "Some" else "MeetsNone"
            new = convert_antt(text, p, renamed)
            if part == "proofs":
                rel = os.path.relpath(os.path.dirname(p), os.path.join(crates, crate, "proofs"))
                if rel != ".":
                    body, found = function_body(root, crate, rel.split("/"))
                    new = convert_steps(new, body, found, p)
        elif p.endswith(".rt"):
            new = convert_rt(text, p)
        else:
            new = convert_edit(text, root, crate)
        if new != text:
            open(p, "w").write(new)
            changed += 1
    print("%d files changed" % changed)


main()
