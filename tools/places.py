#!/usr/bin/env python3
"""Counts the places of each point of docs/history/DESIGN-PASS.md in crates/*/src.

    python3 tools/places.py [--list POINT] [CRATE ..]

With --list 1 (2, 3 ..) it prints each place of that point, else only the counts.
"""
import collections
import glob
import os
import re
import subprocess
import sys

ROOT = os.path.dirname(os.path.dirname(os.path.abspath(__file__)))


def sources(names):
    for path in sorted(glob.glob(os.path.join(ROOT, "crates/*/src/**/*.rt"), recursive=True)):
        crate = os.path.relpath(path, ROOT).split("/")[1]
        if not names or crate in names:
            yield os.path.relpath(path, ROOT), open(path).read()


def code(text):
    """The text with comments and strings blanked, lines kept."""
    text = re.sub(r"//[^\n]*", "", text)
    return re.sub(r'b?"(\\.|[^"\\\n])*"', '""', text)


def items(text, word):
    """(line, name, body) of each `word NAME { .. }`."""
    for m in re.finditer(r"^[ \t]*(?:pub )?%s (\w+)[^{;(]*\{" % word, text, re.M):
        depth, i = 1, m.end()
        while depth:
            depth += {"{": 1, "}": -1}.get(text[i], 0)
            i += 1
        yield text.count("\n", 0, m.start(1)) + 1, m.group(1), text[m.end():i - 1]


def functions(text):
    """(line, name, parameters, result, clauses, body) of each function."""
    for m in re.finditer(r"^[ \t]*(?:pub )?(?:unsafe )?(?:extern \"\" )?fn (\w+)(?:<[^(]*>)?\(", text, re.M):
        depth, i = 1, m.end()
        while depth:
            depth += {"(": 1, ")": -1}.get(text[i], 0)
            i += 1
        params = text[m.end():i - 1]
        j = text.index("\n{", i) if "\n{" in text[i:] else len(text)
        k = text.find("{", i)
        head = text[i:j]
        if "requires" not in head and "ensures" not in head:
            j, head = k, text[i:k]
        end = text.find("\n}", j)
        yield text.count("\n", 0, m.start(1)) + 1, m.group(1), params, head, text[j:end]


def one(path, text):
    for line, name, body in items(text, "enum"):
        variants = re.findall(r"^\s*(\w+)\s*(\([^)]*\)|\{[^}]*\})?(?:\s*=\s*\d+)?,", body, re.M)
        bare = [v for v, p in variants if not p]
        if len(variants) == 2 and len(bare) == 1:
            yield line, "enum %s: %s" % (name, ", ".join(v + p for v, p in variants))
        elif re.search(r"^\s*(Nothing|None|Fine|Good|Job|Done|Ok|Passed|Missing|NoNumber|Absent|Nowhere|No)\b", body, re.M):
            yield line, "enum %s: %s" % (name, ", ".join(v + p for v, p in variants))
    for line, name, body in items(text, "struct"):
        fields = re.findall(r"^\s*(?:pub )?(\w+): ([^,\n]+),", body, re.M)
        if any(t == "bool" for _, t in fields) and len(fields) > 1:
            yield line, "struct %s: %s" % (name, ", ".join("%s: %s" % f for f in fields))


def one_sentinels(path, raw):
    for i, l in enumerate(raw.split("\n"), 1):
        if re.match(r"\s*//", l) and re.search(r"where (there|it|the \w+) (is|has|have) (none|no )|one past|if there is none|where none|0 (if|where|past)|else 0|256 where|past every", l):
            yield i, l.strip()


def two(path, text):
    return ()


def three(path, text):
    for i, l in enumerate(text.split("\n"), 1):
        if re.match(r"\s*(while|loop)\b", l):
            yield i, l.strip()


def four(path, text):
    for line, name, params, head, body in functions(text):
        if re.search(r"(^|_)(same|equal|equals|eq|is_same|differs|less|greater|larger|smaller|max|min|higher|copy|copied|clone|into|to|from|as|number|print|show)(_|$)", name) or re.search(r"-> bool", head) and re.search(r"match \w+ \{[^}]*=> (true|false),[^}]*=> (true|false),", body):
            yield line, "fn %s" % name


def main():
    args = sys.argv[1:]
    want = None
    if args[:1] == ["--list"]:
        want, args = args[1], args[2:]
    found = collections.defaultdict(list)
    clauses = collections.defaultdict(list)
    for path, raw in sources(args):
        text = code(raw)
        for point, scan in (("1", one), ("3", three), ("4", four)):
            for line, what in scan(path, text):
                found[point].append("%s:%d: %s" % (path, line, what))
        for line, what in one_sentinels(path, raw):
            found["1s"].append("%s:%d: %s" % (path, line, what))
        for line, name, params, head, body in functions(text):
            crate = path.split("/")[1]
            for clause in re.findall(r"requires(?: \w+)? \{ (.*?) \}\n", head + "\n"):
                for fact in clause.split(" × "):
                    clauses[fact.strip("() ")].append("%s:%d: fn %s" % (path, line, name))
            names = re.findall(r"(\w+): &(?:mut )?\[?\w+", params)
            if "job" in names and "index" in names:
                found["5p"].append("%s:%d: fn %s(job, index, ..)" % (path, line, name))
            if re.search(r"&mut \[u8\]", params) and re.search(r"(at|len|used|n|p): (usize|u32)", params):
                found["6"].append("%s:%d: fn %s: a buffer and a place in it" % (path, line, name))
            if re.search(r"match \w+ \{", body) and re.search(r"\b(what|which|part|kind|step|mode|case|way): ", params):
                found["7"].append("%s:%d: fn %s" % (path, line, name))
        for line, name, body in items(text, "struct"):
            if re.search(r": \[[^;]+; [^\]]+\]", body) and re.search(r": (usize|u\d+),", body):
                found["6"].append("%s:%d: struct %s: an array and a number beside it" % (path, line, name))
    for fact, places in sorted(clauses.items(), key=lambda x: -len(x[1])):
        if len(places) >= 3:
            found["5f"].append("%4d times: %s" % (len(places), fact))
    names = {
        "1": "own enums of the shape of Option or Result, structs with a flag",
        "1s": "comments that tell a number standing for nothing",
        "3": "loops that count by hand (while, loop)",
        "4": "equality, order, conversion, printing by hand",
        "5f": "facts that stand in the requires of three functions and more",
        "5p": "functions that take a job and its index",
        "6": "buffers with a place or a number beside them",
        "7": "a switch on which step to run",
    }
    for point in names:
        if want is None:
            print("%-3s %5d  %s" % (point, len(found[point]), names[point]))
        elif want == point:
            print("\n".join(found[point]))


main()
