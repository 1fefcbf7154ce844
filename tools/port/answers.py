#!/usr/bin/env python3
"""Turns proofs that walk the code by hand, proofs/F/Proof.antt over F's Tie, into Invariants.antt and Answers.antt.

usage: answers.py CRATE_FOLDER NAMES.json [FUNCTION..]

NAMES.json is what `rt check --generated DIR --old-names` writes: each goal, step and loop of each function under its old and
its new name. An answer that is `search rules` alone is left out, since the check tries it by itself. Says what it could not turn.
"""

import json
import os
import re
import sys

NAME = r'[^\s(){}.;,@"«»]+'
PATH = re.compile(r"(?<![^\s(){};,@])(%s)((?:\.%s)+)" % (NAME, NAME))
WORD = re.compile(NAME)


def norm(name):
    return name.replace("-", "_").lower()


def blocks(text):
    """The top-level declarations of a file, each a list of lines."""
    out = []
    for line in text.split("\n"):
        if line.strip() and not line[0].isspace() and line[0] != ")":
            out.append([line])
        elif out:
            out[-1].append(line)
    return ["\n".join(it).rstrip() for it in out]


def split_args(text):
    """The arguments of an application, as texts."""
    out, depth, word = [], 0, ""
    for ch in text:
        if ch in "([{":
            depth += 1
        if ch in ")]}":
            depth -= 1
        if ch.isspace() and depth == 0:
            if word:
                out.append(word)
            word = ""
        else:
            word += ch
    if word:
        out.append(word)
    return out


class Function:
    def __init__(self, text, info, said):
        self.info, self.said = info, said
        self.uses, self.heads, self.defs, self.order, self.places = [], [], {}, [], set()
        pending = []
        for block in blocks(text):
            if block.startswith("use "):
                self.uses.append(block)
            elif block.startswith("--"):
                self.heads.append(block)
            elif block.startswith("unfolding"):
                if pending:
                    self.defs[pending[-1]]["unfolding"] += block + "\n"
            else:
                m = re.match(r"((?:(?:pub|abbrev|unfoldable)\s+)*)(%s) :\s" % NAME, block)
                if m:
                    pending.append(m[2])
                    self.order.append(m[2])
                    self.defs[m[2]] = {"marks": m[1], "type": block[m.end():].strip(), "unfolding": "", "clauses": []}
                    continue
                n = re.match(NAME, block)
                if n and n[0] in self.defs:
                    self.defs[n[0]]["clauses"].append(block)
                else:
                    self.order.append(block)
        self.parents = {p[0]: p for p in info["places"]}

    def chain(self, place):
        while place:
            p = self.parents[place]
            yield p
            place = p[1]

    def step(self, place, befores, name):
        """The place whose step has this old name, seen from a place, so many steps back."""
        chain = list(self.chain(place))
        for part in (chain[befores:], chain):
            for want in (norm(name), re.sub("_lem$", "", norm(name)), norm(name).replace("type_size", "size_of")):
                for p in part:
                    if norm(p[2][0]) == want or norm(p[2][1]) == want:
                        return p
        return None

    def arm(self, place, found, rest):
        """The path through a match's arm that stands for what an old step says."""
        index = {p[0]: k for k, p in enumerate(self.info["places"])}
        best = None
        for p in self.chain(place):
            entry = self.info["arms"][index[p[0]]]
            if entry:
                for new, old, path in entry[2]:
                    if norm(old) == norm(found[2][0]) and rest[: len(path)] == path and path and (best is None or len(path) > best[0]):
                        best = (len(path), [entry[0], new] + rest[len(path) :])
            if p[0] == found[0]:
                break
        return best and best[1]

    def place_of(self, name):
        """The place that an old record's name is for."""
        for p in self.info["places"]:
            if norm(p[0]) == norm(name):
                return p[0]
        return None

    def by_name(self, place):
        return self.info["places_by_name"][[p[0] for p in self.info["places"]].index(place)]

    def paths(self, body, place, var, goal=None):
        bound = {var: place}
        while True:
            m = re.search(r"\blet (%s) = (%s)((?:\.before)+) in\s+" % (NAME, NAME), body)
            chain = list(self.chain(bound[m[2]])) if m and m[2] in bound else []
            back = m[3].count(".before") if m else 0
            if not m or back >= len(chain):
                break
            bound[m[1]] = chain[back][0]
            body = body[: m.start()] + body[m.end() :]
        index = [p[0] for p in self.info["places"]].index(place) if place in self.parents else None
        typed = dict((s, v) for v, s in (self.info["typed"][index] if index is not None and index < len(self.info["typed"]) else []))

        def turn(m):
            if m[1] not in bound:
                return m[0]
            place = bound[m[1]]
            steps = m[2][1:].split(".")
            befores = 0
            while steps and steps[0] == "before":
                befores += 1
                steps.pop(0)
            if not steps:
                chain = list(self.chain(place))
                if befores < len(chain):
                    if goal:
                        self.places.add(self.by_name(chain[befores][0]))
                        return f"(goal.at.{goal} {var}).{self.by_name(chain[befores][0])}"
                    return f"{var}.{self.by_name(chain[befores][0])}"
                self.said.append(f"a bare {m[0]}")
                return var
            head = steps[0]
            flat = norm(head)
            if flat in ("args", "requires", "ranges", "lifetimes", "type_inv", "well_formed", "ghost"):
                return ".".join([var, flat] + steps[1:])
            kind = re.sub(r"_?\d+$", "", flat)
            if kind in ("shared_slice_known", "slice_known", "array_known", "ref_known") or kind.endswith("_known"):
                for s, v in typed.items():
                    if norm(s) == flat:
                        rest = steps[1:]
                        if rest[:1] == ["given"]:
                            rest = rest[1:]
                        return ".".join([var, "type_inv", v] + rest)
            rest = [{"type-inv": "type_inv"}.get(it, it) for it in steps[1:]]
            found = self.step(place, befores, head)
            if found is None:
                self.said.append(f"no step {head} at {place}")
                return ".".join([var, head] + rest)
            if norm(found[2][0]) == "match" and rest[:1] == ["keys2"]:
                return ".".join([var, found[2][1], found[2][1] + "-own"] + rest)
            if rest[:1] == ["auto"] and found[3] in self.info["params"] and re.fullmatch(r"(1\.)*0", ".".join(rest[1:])):
                # what stays of an argument went by its place
                rest = ["auto", self.info["params"][found[3]][rest[1:].count("1")]]
            through = self.arm(place, found, rest)
            if through:
                return ".".join([var] + through)
            return ".".join([var, found[2][1]] + rest)

        body = PATH.sub(turn, body)
        for name in list(bound)[1:]:
            at = self.by_name(bound[name])
            word = re.compile(r"(?<![^\s(){};,@])%s(?![^\s(){};,])" % re.escape(name))
            if word.search(body):
                self.places.add(at)
                body = word.sub(f"(goal.at.{goal} {var}).{at}" if goal else f"{var}.{at}", body)
        return body

    def helper(self, name):
        """A declaration that speaks of a place of the walk, as it reads now."""
        d = self.defs[name]
        m = re.match(r"(.*?)\((%s) : tie\.(%s)((?: %s)*)\)(.*)$" % (NAME, NAME, NAME), d["type"], re.S)
        if not m:
            return None
        place = self.place_of(m[3])
        if place is None:
            return None
        now = self.by_name(place)
        self.places.add(now)
        front = len(re.findall(r"\([^()]* : ", m[1]))
        kind = m[1] + f"({m[2]} : {now})" + self.paths(m[5], place, m[2])
        out = []
        for c in d["clauses"]:
            lhs, rhs = c.split("=", 1)
            words = lhs.split()
            var = words[1 + front] if len(words) > 1 + front else m[2]
            out.append(lhs + "=" + self.paths(rhs, place, var))
        return f"{d['marks']}{name} : {kind}\n{d['unfolding']}" + "\n".join(out) + "\n"

    def close(self):
        for name, d in self.defs.items():
            for c in d["clauses"]:
                if "tie.close" in c:
                    return name, c
        return None, None


def lambda_of(arg):
    m = re.match(r"\(\s*λ ([^.]*?)\.\s*(.*)\)$", arg, re.S)
    return (m[1].split(), m[2].strip()) if m else (None, arg)


def is_search(body):
    return re.sub(r"\s+", " ", body).strip() in ("search rules", "search needs")


def scoped(body, table):
    """The body with each free word of the table replaced."""
    out, i, depth, shadows = [], 0, 0, []
    while i < len(body):
        ch = body[i]
        if ch in "([{":
            depth += 1
            out.append(ch)
            i += 1
            m = re.match(r"((?:%s )+): " % NAME, body[i:])
            if ch == "(" and m:
                names = set(m[1].split()) & set(table)
                if names:
                    shadows.append((depth - 1, names))
            continue
        if ch in ")]}":
            depth -= 1
            shadows = [s for s in shadows if s[0] <= depth]
            out.append(ch)
            i += 1
            continue
        m = re.match(r"λ ([^.()]*)\.", body[i:])
        if m and (i == 0 or not body[i - 1].isalnum()):
            names = set(m[1].split()) & set(table)
            if names:
                shadows.append((depth, names))
            out.append(m[0])
            i += len(m[0])
            continue
        m = WORD.match(body, i)
        if m:
            word = m[0]
            label = re.match(r" = ", body[m.end() : m.end() + 3]) and re.search(r"[{;]\s*$", body[:i])
            free = word in table and not label and not any(word in s[1] for s in shadows) and not (i and body[i - 1] == ".")
            out.append(table[word] if free else word)
            i = m.end()
            continue
        out.append(ch)
        i += 1
    return "".join(out)


def parameters(folder, where):
    """The parameters of a function of the crate, by its source."""
    steps = [it.lstrip("+") for it in where.split(".")]
    found = []
    for here, _, fs in os.walk(os.path.join(folder, "src")):
        for name in fs:
            if name.endswith(".rt") and (len(steps) == 1 or name == steps[-2] + ".rt" or steps[-2] in here):
                with open(os.path.join(here, name), encoding="utf-8") as f:
                    m = re.search(r"\bfn %s\((.*?)\)\s*(?:->|requires|ensures|\{)" % steps[-1], f.read(), re.S)
                if m:
                    found = re.findall(r"(?:^|,)\s*(?:mut )?(\w+):", m[1])
    return found


def turn(path, crate, where, info):
    said = []
    params_here = parameters(os.path.dirname(path.split("/proofs/")[0] + "/x"), where)
    with open(os.path.join(path, "Proof.antt"), encoding="utf-8") as f:
        text = f.read()
    if "tie.close" not in text:
        return None, None, ["by hand"]
    fn = Function(text, info, said)
    name, clause = fn.close()
    body = clause.split("=", 1)[1].strip()
    m = re.match(r"tie\.close\s*\(\s*tie\.spec\b(.*)\)\s*$", body, re.S)
    if not m:
        body2 = re.match(r"tie\.close\s+tie\.spec\s*$", body, re.S)
        if not body2:
            return None, None, ["another form: " + body[:80]]
        args = []
    else:
        args = split_args(m[1])
    loops, rest = [], []
    for a in args:
        t = fn.defs.get(a, {}).get("type", "")
        if re.match(r"tie\.(invariant|decreases|InvT|MeasureT)-", t):
            loops.append(a)
        else:
            rest.append(a)
    needs = info["needs"]
    if len(rest) != len(needs):
        said.append(f"{len(rest)} answers for {len(needs)} goals")
    used = set(loops) | {name}
    answers = []
    for k, a in enumerate(rest):
        if len(rest) == len(needs):
            old, new = needs[k]
            place = info["asked_at"][k][0]
        else:
            t = fn.defs.get(a, {}).get("type", "")
            t = t.split()[0] if t else ""
            t = norm(re.sub(r"^tie\.Need-", "", t))
            found = [(o, n, info["asked_at"][i][0]) for i, (o, n) in enumerate(needs) if norm(o) == t or norm(o) == re.sub(r"^overflow_", "", t)]
            if not found:
                if a in fn.defs:
                    said.append(f"no goal for {a}")
                    used.add(a)
                continue
            old, new, place = found[0]
        if a in fn.defs:
            used.add(a)
            d = fn.defs[a]
            cl = d["clauses"]
            if len(cl) != 1:
                said.append(f"{len(cl)} clauses of {a}")
                continue
            lhs, rhs = cl[0].split("=", 1)
            if rhs.startswith(">"):
                said.append(f"odd clause of {a}")
            params = lhs.split()[1:]
            unfolding = d["unfolding"]
        else:
            params, rhs = lambda_of(a)
            unfolding = ""
            if params is None:
                said.append(f"an answer that is no lambda: {a[:60]}")
                params = ["c"]
                rhs = f"{a} c"
        rhs = rhs.rstrip()
        if not params:
            said.append(f"no parameter in {a}")
            params = ["c"]
            rhs = f" ({rhs.strip()}) c"
        # the check tries its search by itself, but unfolds nothing for it
        if is_search(rhs) and not unfolding:
            continue
        var = params[0]
        turned = fn.paths(rhs, place, var, new)
        # a goal at a call took the lifetimes too
        more = [p for p in params[1:] if not re.match("κ", p)]
        if len(more) < len(params) - 1 and re.search(r"(?<![^\s(){};,.])%s(?![^\s(){};,.])" % re.escape(params[1]), turned):
            said.append(f"{new} uses {params[1]}")
        var = " ".join([var] + more)
        answers.append(f"pub {new} : goal.{new}\n{unfolding}{new} {var} ={turned if turned[0] in ' ' + chr(10) else ' ' + turned}\n")
    helpers = []
    for it in fn.order:
        if it in used:
            continue
        if it in fn.defs:
            d = fn.defs[it]
            if re.match(r"tie\.", d["type"]):
                said.append(f"{it} : {d['type'][:40]} is not used")
                continue
            helper = fn.helper(it) if "tie." in d["type"] else None
            if helper:
                helpers.append(helper)
                continue
            helper = f"{d['marks']}{it} : {d['type']}\n{d['unfolding']}" + "\n".join(d["clauses"]) + "\n"
            if "tie." in helper or "before" in helper:
                said.append(f"helper {it} speaks of the walk")
            helpers.append(helper)
        else:
            helpers.append(it + "\n")
    uses = []
    for u in fn.uses:
        if re.search(r"\.(Statement|Tie|Reads|Lts)\b", u):
            continue
        uses.append(u)
    comment = "\n".join(h for h in fn.heads if not re.search(r"Assumes nothing|meets its contract", h))
    inv = []
    by_old = {}
    for i, ((old, new), names) in enumerate(info["loops"]):
        by_old[norm(old)] = (new, names, info["changed"][i])
    for a in loops:
        d = fn.defs[a]
        kind, loop = re.match(r"tie\.(invariant|decreases|InvT|MeasureT)-(%s)" % NAME, d["type"]).groups()
        kind = {"InvT": "invariant", "MeasureT": "decreases"}.get(kind, kind)
        if norm(loop) not in by_old:
            said.append(f"no loop {loop}")
            continue
        new, names, changed = by_old[norm(loop)]
        lhs, rhs = d["clauses"][0].split("=", 1)
        params = lhs.split()[1:]
        want = len(names) + sum(changed)
        if len(params) != want:
            said.append(f"{kind}-{loop} takes {len(params)} and not {want}")
        table = {}
        binders = set(" ".join(re.findall(r"λ ([^.()]*)\.", rhs) + re.findall(r"\(((?:%s )+): " % NAME, rhs)).split())
        at = next(w for w in ("l", "s", "w", "turn") if w not in binders)
        values = [(f"{at}.initial.{n}" if ch else f"{at}.{n}") for n, ch in zip(names, changed)] + [f"{at}.{n}" for n, ch in zip(names, changed) if ch]
        for p, v in zip(params, values):
            table[p] = v
        body = scoped(rhs.strip(), table)
        if kind == "invariant" and body.startswith("Unit"):
            continue
        inv.append(f"abbrev pub {kind}-{new} : goal.{kind}-{new}\n{d['unfolding']}{kind}-{new} {at} = {body}\n")
    head = (comment + "\n") if comment else ""
    base = "\n".join(uses)
    places = f"\nuse Rattle.{crate}.proofs.{where}.Goals.{{{', '.join(sorted(fn.places))}}}" if fn.places else ""
    def numbered(text):
        # an array that is passed by value went by its number
        return re.sub(r"(?<=\.)t(\d+)(?![\w-])", lambda m: params_here[int(m[1]) - 1] if int(m[1]) <= len(params_here) else m[0], text).replace(".type-inv", ".type_inv")

    answers = [numbered(it) for it in answers]
    helpers = [numbered(it) for it in helpers]
    answers_text = head + base + f"\nuse Rattle.{crate}.proofs.{where}.Goals as goal{places}\n\n" + "\n".join(helpers + answers) if answers else None
    inv_text = (head if not answers else "") + base + f"\nuse Rattle.{crate}.proofs.{where}.Given as goal\n\n" + "\n".join(inv) if inv else None
    return answers_text, inv_text, said


def turn_cycle(path, crate, where, table):
    """The proof of a function that calls itself."""
    said, name = [], where.split("+")[-1]
    info = table.get(f"Rattle-{crate}-proofs.{where}.Lts-{name}") or table.get(f"Rattle-{crate}-proofs.{where}.Lts")
    if info is None:
        return None, None, ["the toolchain names no goals of it"]
    with open(os.path.join(path, "Proof.antt"), encoding="utf-8") as f:
        fn = Function(f.read(), info, said)
    params_here = parameters(os.path.dirname(path.split("/proofs/")[0] + "/x"), where)
    goals, invs, helpers = [], [], []
    for it in fn.order:
        d = fn.defs.get(it)
        if d is None:
            helpers.append(it + "\n")
            continue
        need = re.search(r"\.Need-(%s)" % NAME, d["type"])
        loop = re.search(r"lts\.(invariant|decreases)-(%s)" % NAME, d["type"])
        lhs, rhs = d["clauses"][0].split("=", 1)
        params = lhs.split()[1:]
        if "Measures" in d["type"]:
            body = re.sub(r"(?<![\w.])%s((?:\.1)*)\.0(?![\d])" % re.escape(params[-1]), lambda m: "l." + params_here[m[1].count(".1")], rhs.strip())
            invs.insert(0, f"abbrev pub decreases-{name} : goal.decreases-{name}\ndecreases-{name} l = {body}\n")
        elif loop:
            for (old, new), names, changed in [(a, b, c) for (a, b), c in zip(info["loops"], info["changed"])]:
                if norm(old) == norm(loop[2]):
                    values = [(f"l.initial.{n}" if ch else f"l.{n}") for n, ch in zip(names, changed)] + [f"l.{n}" for n, ch in zip(names, changed) if ch]
                    body = scoped(rhs.strip(), dict(zip(params, values)))
                    if len(params) != len(values):
                        said.append(f"{it} takes {len(params)} and not {len(values)}")
                    invs.append(f"abbrev pub {loop[1]}-{new} : goal.{loop[1]}-{new}\n{d['unfolding']}{loop[1]}-{new} l = {body}\n")
        elif need:
            want = norm(re.sub("^overflow-", "", need[1]))
            found = [(n, info["asked_at"][i][0]) for i, (o, n) in enumerate(info["needs"]) if norm(o) in (want, norm(need[1]))]
            if not found:
                said.append(f"no goal for {it}")
                continue
            if is_search(rhs) and not d["unfolding"]:
                continue
            new, place = found[0]
            t, c = params[0], params[1]
            more = [p for p in params[2:] if not re.match("κ", p)]
            # what is required stood behind the measure
            body = fn.paths(rhs.rstrip(), place, c, new).replace(f"{c}.requires.1", f"{c}.requires")
            goals.append(f"pub {new} : goal.{new}\n{d['unfolding']}{new} {' '.join([t, c] + more)} ={body}\n")
        elif re.search(r"\bIn \d|\{M : Type 1\}|statement M", d["type"]):
            continue
        else:
            helpers.append(f"{d['marks']}{it} : {d['type']}\n{d['unfolding']}" + "\n".join(d["clauses"]) + "\n")
    uses = "\n".join(u for u in fn.uses if not re.search(r"\.(Statement|Tie|Reads|Kinds|Lts\S*)\b|borrow\.Fn|\{statement\}|\{close\}", u))
    places = f"\nuse Rattle.{crate}.proofs.{where}.Goals.{{{', '.join(sorted(fn.places))}}}" if fn.places else ""
    answers = uses + f"\nuse Rattle.{crate}.proofs.{where}.Goals as goal{places}\n\n" + "\n".join(helpers + goals) if goals else None
    inv = uses + f"\nuse Rattle.{crate}.proofs.{where}.Given as goal\n\n" + "\n".join(invs) if invs else None
    return answers and answers.replace(".type-inv", ".type_inv"), inv, said


def main(argv):
    folder, names, only = argv[0].rstrip("/"), argv[1], argv[2:]
    crate = os.path.basename(folder)
    with open(names, encoding="utf-8") as f:
        table = json.load(f)
    done = 0
    for here, _, fs in sorted(os.walk(os.path.join(folder, "proofs"))):
        if "Proof.antt" not in fs:
            continue
        where = os.path.relpath(here, os.path.join(folder, "proofs")).replace(os.sep, ".")
        if only and where not in only:
            continue
        info = table.get(f"Rattle-{crate}-proofs.{where}.Lts")
        if where.split(".")[-1].startswith("+"):
            answers, inv, said = turn_cycle(here, crate, where, table)
        elif info is None:
            print(f"{crate}.{where}: the toolchain names no goals of it")
            continue
        else:
            answers, inv, said = turn(here, crate, where, info)
        for s in said:
            print(f"{crate}.{where}: {s}")
        if said in (["by hand"], ["the toolchain names no goals of it"]) or (answers is None and inv is None and said and said[0].startswith("another form")):
            continue
        os.remove(os.path.join(here, "Proof.antt"))
        for name, text in (("Answers.antt", answers), ("Invariants.antt", inv)):
            if text:
                text = re.sub(r"\n{3,}", "\n\n", text)
                with open(os.path.join(here, name), "w", encoding="utf-8") as f:
                    f.write(text.rstrip() + "\n")
        if not os.listdir(here):
            os.rmdir(here)
        done += 1
    print(f"{crate}: {done} turned")


if __name__ == "__main__":
    main(sys.argv[1:])
