#!/usr/bin/env python3
"""Spells the repository's own definitions and lemmas in snake case, in specs/, proofs/, clauses and must-fail edits.

usage: respell.py [--check] ROOT

A name that a file of specs/ or proofs/ declares (a definition, a lemma, a field, a constructor) loses its capitals and dashes: `countAt`
and `plan-indexed-kept` become `count_at` and `plan_indexed_kept`. Types, modules, names of Rust items and the names that the
toolchain makes stay. Where two names would fall together, the lemma gets `_lem` behind it. --check writes nothing and tells
what falls together.
"""

import os
import re
import sys

NAME = r'[^\s(){}.;,@"«»]+'
TOKEN = re.compile(NAME)
OWN_USE = re.compile(r"\buse (?:pub )?(Rattle|package)((?:\.%s)*)" % NAME)
USE = re.compile(r"\buse ([^\s;{]+?)(?:\.\{([^}]*)\})?(?=[;\s]|$)", re.M)
LIBRARY = re.compile(r"^(Rattle\.(core|std(_\w+)?|libc|io|os)|mathlib|lib|native|borrow|denote|base|Prim|prog|mir|types|contract|algebra)(\.|$)")
DECLARED = re.compile(r"^(\s*)((?:(?:pub|abbrev|unfoldable|open)\s+)*)(%s)((?: %s)*) :(?=\s|$)" % (NAME, NAME))
KIND = re.compile(r"^\s*(?:(?:pub|abbrev|unfoldable)\s+)*(?:data|record|ruleset|mod|use|module)\b")


def snake(name):
    word = re.sub(r"(?<=[a-z0-9])[A-Z]+", lambda m: "_" + m[0].lower(), name)
    return word.replace("-", "_")


def files(root):
    for crate in sorted(os.listdir(os.path.join(root, "crates"))):
        base = os.path.join(root, "crates", crate)
        for folder, dirs, names in os.walk(base):
            dirs[:] = sorted(d for d in dirs if d != "out")
            for name in sorted(names):
                if name.endswith((".antt", ".rt", ".edit")):
                    yield crate, os.path.join(folder, name)


def is_function(path):
    """A file of one function's proof, whose names the toolchain makes."""
    return "/proofs/" in path and os.path.basename(path) in ("Proof.antt", "Invariants.antt") or (
        "/proofs/" in path and os.path.basename(path) == "Answers.antt" and "/proofs/Answers.antt" not in path
    )


OWN_ITEMS = re.compile(r"\buse (Rattle(?:\.%s)+)\.\{([^}]*)\}" % NAME)


def module(root, path):
    """The file that a path of this repository names, as a set."""
    steps = path.split(".")
    return {os.path.join(root, "crates", *steps[1:]) + ".antt"}


def quiet(text):
    """The text without comments and strings."""
    text = re.sub(r"(?m)(?:--|//).*$", "", text)
    return re.sub(r'"(?:\\.|[^"\\\n])*"', '""', text)


def declared(text):
    found = set()
    for line in quiet(text).split("\n"):
        if KIND.match(line):
            continue
        m = DECLARED.match(line)
        if m and not re.match(r"^\s*let\b", line):
            found.add(m[3])
    return found


def fields_of(text):
    """The names that a file declares as fields of its records, and not also otherwise."""
    inside, fields, others = None, set(), set()
    for line in quiet(text).split("\n"):
        if not line.strip():
            continue
        depth = len(line) - len(line.lstrip())
        if inside is not None and depth <= inside:
            inside = None
        if re.match(r"^\s*(?:pub )?record\b.*\bwhere$", line):
            inside = depth
            continue
        m = DECLARED.match(line)
        if m and not KIND.match(line) and not re.match(r"^\s*let\b", line):
            (fields if inside is not None else others).add(m[3])
    return fields, others


def own_names(root):
    found = {}
    for crate, path in files(root):
        if not path.endswith(".antt") or is_function(path):
            continue
        with open(path, encoding="utf-8") as f:
            text = f.read()
        for name in declared(text):
            found.setdefault(name, set()).add(path)
    return found


def theirs(code):
    """What a file imports from the libraries under names that it does not choose."""
    found = set()
    for path, items in USE.findall(code):
        if LIBRARY.match(path):
            found.update(it.split(" as ")[0].strip() for it in items.split(",") if it.strip())
            found.update(TOKEN.findall(path))
    return found


SKIP = re.compile(r'(--[^\n]*|//[^\n]*|"(?:\\.|[^"\\\n])*")')


def turned(text, table, comments=True):
    def name(m):
        return table.get(m[0], m[0])

    out = []
    for k, part in enumerate(SKIP.split(text)):
        if k % 2 == 0:
            out.append(TOKEN.sub(name, part))
        elif part.startswith('"') or not comments:
            out.append(part)
        else:
            # in a comment only what stands in backticks is a name
            out.append(re.sub(r"`[^`\n]*`", lambda m: TOKEN.sub(lambda w: table.get(w[0].strip("`"), w[0]) if "`" not in w[0] else "`" * w[0].startswith("`") + table.get(w[0].strip("`"), w[0].strip("`")) + "`" * w[0].endswith("`"), m[0]), part))
    return "".join(out)


def main(argv):
    check = "--check" in argv
    root = [a for a in argv if not a.startswith("--")][0]
    own = own_names(root)
    names = {n for n in own if not n[0].isupper() and n[0].isalpha() and snake(n) != n and re.fullmatch(r"[\w'′₀-₉-]+", n)}
    fields, others = set(), set()
    for _, path in files(root):
        if path.endswith(".antt") and not is_function(path):
            with open(path, encoding="utf-8") as f:
                some, rest = fields_of(f.read())
            fields |= some
            others |= rest
    fields -= others
    table = {}
    kept = set(own) - names - fields
    # A word of the library's prelude or a tactic must not be met.
    taken = set(kept)
    for n in sorted(names, key=lambda n: (n in fields, "-" in n, n)):
        new = snake(n)
        if n in fields:
            # a field stands behind a dot, and meets nothing
            table[n] = new
            continue
        if "-" in n and (new in taken or new in RESERVED):
            new += "_lem"
        while new in RESERVED or new in table.values() or ("-" in n and new in taken):
            new += "_lem" if not new.endswith("_lem") else "2"
        table[n] = new
    said = []
    shared = set(table.values()) & kept
    for n, new in sorted(table.items()):
        if new != snake(n):
            said.append(f"falls together: {n} -> {new}")
        elif new in kept:
            said.append(f"shares: {n} -> {new}, which is declared elsewhere")
    for crate, path in files(root):
        with open(path, encoding="utf-8") as f:
            text = f.read()
        code = quiet(text)
        mine = dict(table)
        for n in theirs(code) & set(mine):
            if n not in declared(text):
                del mine[n]
                said.append(f"library: {path}: {n} stays")
        # a lemma that has a definition's new name already gives way where this file declares or imports it
        for n in shared & declared(text):
            mine[n] = n + "_lem"
        for where, items in OWN_ITEMS.findall(code):
            for it in items.split(","):
                it = it.split(" as ")[0].strip()
                if it in shared and module(root, where) & own[it]:
                    mine[it] = it + "_lem"
        tokens = set(TOKEN.findall(code))
        for n in sorted(tokens & set(mine)):
            if mine[n] in tokens and mine[n] not in mine:
                said.append(f"meets: {path}: {n} -> {mine[n]}")
        if path.endswith(".edit"):
            # the lines that tell what is wrong about an edit are prose
            lines = text.splitlines(keepends=True)
            new = "".join(turned(it, mine, False) if re.match("(old|new):", it) else it for it in lines)
        else:
            new = turned(text, mine)
        if new != text and not check:
            with open(path, "w", encoding="utf-8") as f:
                f.write(new)
    print("\n".join(said))
    print(f"{len(table)} names")


RESERVED = set()

if __name__ == "__main__":
    main(sys.argv[1:])
