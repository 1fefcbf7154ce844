#!/usr/bin/env python3
"""Turns the proof of a cycle of functions, proofs/+C/Proof.antt over the cycle's Tie, into its Invariants.antt and Answers.antt.

usage: answers_cycle.py CRATE_FOLDER NAMES.json CYCLE

It does for each function of the cycle what answers.py does for a single one. An answer in a cycle takes the measure's value first,
and its name begins with the function's. Says what it could not turn.
"""

import json
import os
import re
import sys

import answers
from answers import NAME, Function, is_search, norm, scoped, split_args

OF_THE_OLD_KIT = r"\.(Reads|Kinds) as |\.Lts-|\.Tie\.|\.\{statement\}|borrow\.Fn\.(Kinds|PlainCycle)\."


def blocks(text):
    """As in answers.py, and a line that begins with a closing bracket belongs to what is above it."""
    return answers_blocks(re.sub(r"\n(?=[)\]}])", "\n ", text))


answers_blocks, answers.blocks = answers.blocks, blocks  # Function splits a file by it


def lists_of(clause, functions):
    """The needs' answers of each function, in order, from the proof's last line."""
    out = {}
    for f in functions:
        at = clause.index(f"{f}-lts.spec")
        ends = [clause.index(f"{g}-lts.spec") for g in functions if clause.index(f"{g}-lts.spec") > at]
        out[f] = re.findall(r"\((%s) t\)" % NAME, clause[at : min(ends, default=len(clause))])[1:]
    return out


class Member(Function):
    def __init__(self, text, name, info, said):
        super().__init__(text, info, said)
        self.name, self.stem = name, info["stem"]

    def kind_of(self, name):
        """What an old declaration of this function is for: a part of its walk, or the record it takes."""
        m = re.match(r"(?:\(t : ℕ\) → )?%s-lts\.(%s)" % (re.escape(self.name), NAME), self.defs[name]["type"])
        return m and m[1]

    def answer(self, old, new, place):
        goal = self.stem + new
        d = self.defs[old]
        lhs, rhs = d["clauses"][0].split("=", 1)
        t, c = lhs.split()[1:3]
        if is_search(rhs):
            return None
        body = self.paths(rhs.strip(), place, c, goal).replace(f"(goal.at.{goal} {c}).", f"(goal.at.{goal} {t} {c}).")
        # what a function of a cycle requires stood beside its measure
        body = re.sub(r"(?<!%s)%s\.requires\.1(?![^\s.(){};,])" % (r"[^\s(){}.;,@]", re.escape(c)), f"{c}.requires", body)
        return f"pub {goal} : goal.{goal}\n{d['unfolding']}{goal} {t} {c} = {body}\n"

    def helper(self, name):
        """A lemma on what is known at a place."""
        d = self.defs[name]
        m = re.match(r"(.*?)\((%s) : %s-lts\.(%s) \(.*?\) \([^()]*\)[^()]*\)(.*)$" % (NAME, re.escape(self.name), NAME), d["type"], re.S)
        if not m or self.place_of(m[3]) is None:
            return None
        place = self.place_of(m[3])
        self.places.add(self.by_name(place))
        kind = m[1] + f"({m[2]} : {self.stem}{self.by_name(place)} t)" + self.paths(m[4], place, m[2])
        out = [c.split("=", 1)[0] + "=" + self.paths(c.split("=", 1)[1], place, m[2]) for c in d["clauses"]]
        return f"{name} : {kind}\n{d['unfolding']}" + "\n".join(out) + "\n"

    def loop(self, name, kind):
        """An invariant or a measure of a loop."""
        what, loop = re.match(r"(invariant|decreases)-(.*)", kind).groups()
        for i, ((old, new), names) in enumerate(self.info["loops"]):
            if norm(old) == norm(loop):
                changed = self.info["changed"][i]
                break
        else:
            self.said.append(f"no loop {loop}")
            return None
        lhs, rhs = self.defs[name]["clauses"][0].split("=", 1)
        values = [f"l.initial.{n}" if ch else f"l.{n}" for n, ch in zip(names, changed)] + [f"l.{n}" for n, ch in zip(names, changed) if ch]
        params = lhs.split()[1:]
        if len(params) != len(values):
            self.said.append(f"{name} takes {len(params)} and not {len(values)}")
        body = scoped(rhs.strip(), dict(zip(params, values)))
        now = f"{what}-{self.stem}{new}"
        return f"abbrev pub {now} : goal.{now}\n{now} l = {body}\n"

    def measure(self, params):
        """The measure of the recursion, by the arguments' names."""
        rhs = self.defs["μ-" + self.name]["clauses"][0].split("=", 1)[1].strip()
        body = re.sub(r"\ba((?:\.1)*)\.0", lambda m: "l." + params[m[1].count(".1")], rhs)
        now = f"decreases-{self.name}"
        return f"abbrev pub {now} : goal.{now}\n{now} l = {body}\n"


def main(argv):
    folder, names, cycle = argv[0].rstrip("/"), argv[1], argv[2]
    crate = os.path.basename(folder)
    here = os.path.join(folder, "proofs", cycle)
    with open(names, encoding="utf-8") as f:
        table = json.load(f)
    with open(os.path.join(here, "Proof.antt"), encoding="utf-8") as f:
        text = f.read()
    prefix = f"Rattle-{crate}-proofs.{cycle}.Lts-"
    functions = sorted(key[len(prefix) :] for key in table if key.startswith(prefix))
    said, measures, invariants, helpers, found, places, uses = [], [], [], [], [], [], []
    params = {}
    for f in functions:
        params.update(table[prefix + f]["params"])
    for f in functions:
        member = Member(text, f, table[prefix + f], said)
        uses = [u for u in member.uses if not re.search(OF_THE_OLD_KIT, u)]
        spec = next(n for n in member.defs if norm(n) == norm(cycle + "_spec"))
        order = lists_of(member.defs[spec]["clauses"][0], functions)[f]
        needs, asked = member.info["needs"], member.info["asked_at"]
        if len(order) != len(needs):
            said.append(f"{len(order)} answers of {f} for {len(needs)} goals")
        measures.append(member.measure(next(p for g, p in params.items() if g.split("::")[-1] == f)))
        for name in member.defs:
            kind = member.kind_of(name)
            if kind and not kind.startswith("Need-"):
                invariants.append(member.loop(name, kind) or "")
            elif not kind and f"{f}-lts." in member.defs[name]["type"]:
                helpers.append(member.helper(name) or "")
        for old, (_, new), (place, _) in zip(order, needs, asked):
            found.append(member.answer(old, new, place) or "")
        places += [member.stem + p for p in sorted(member.places)]
    for s in said:
        print(f"{crate}.{cycle}: {s}")
    base = "\n".join(uses)
    shared = f"use Rattle.{crate}.proofs.{cycle}.Goals.{{{', '.join(sorted(set(places)))}}}\n" if places else ""
    files = {
        "Invariants.antt": f"{base}\nuse Rattle.{crate}.proofs.{cycle}.Given as goal\n\n" + "\n".join(measures + invariants),
        "Answers.antt": f"{base}\nuse Rattle.{crate}.proofs.{cycle}.Goals as goal\n{shared}\n" + "\n".join(h for h in helpers + found if h),
    }
    os.remove(os.path.join(here, "Proof.antt"))
    for name, body in files.items():
        with open(os.path.join(here, name), "w", encoding="utf-8") as f:
            f.write(body.rstrip() + "\n")


if __name__ == "__main__":
    main(sys.argv[1:])
