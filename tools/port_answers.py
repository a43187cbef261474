#!/usr/bin/env python3
"""Turns a Proof.antt that goes through the code step by step into Invariants.antt and Answers.antt, by the names that the kit lists.

usage: python3 tools/port_answers.py NAMES CRATE..      at the top of the repository

NAMES is a folder with crates/CRATE/names.json, as `rattle check --generated DIR --old-names` writes it. A goal that was answered by `search rules`
alone gets no answer, since the check tries that itself. What it could not turn is marked by '-- PORT:' in the file.
"""

import json
import os
import re
import sys

NAME = r"[^\s(){}\[\],:.]+"
GENERATED = re.compile(r"\.(Statement|Tie|Reads|Kinds|Lts[\w'-]*)(\.| |$)")


def plain(name):
    return name.replace("_", "-")


class Names:
    """The old and the new names of one function's goals and steps."""

    def __init__(self, listed):
        self.stem = listed["stem"]
        self.needs = [tuple(it) for it in listed["needs"]]
        self.at = [it[0] for it in listed["asked_at"]]
        self.places = {it[0]: it for it in listed["places"]}
        self.arms = {it[0]: arm for it, arm in zip(listed["places"], listed["arms"])}
        self.asked = listed["asked"]
        self.loops = listed["loops"]
        self.changed = listed["changed"]
        self.fields = (listed["pre"] or {}).get("fields") or []

    def goal(self, old):
        for i, (was, new) in enumerate(self.needs):
            if plain(was) == plain(old) or "overflow-" + plain(was) == plain(old):
                return i, new
        return None, None

    def step(self, place, old, rest):
        """The new path of the step `old`, the first that has that name from a place upwards."""
        while place in self.places:
            _, parent, (was, new), _, _ = self.places[place]
            for arm in [self.arms.get(place)]:
                if arm:
                    for field, step, path in arm[2]:
                        if plain(step) == plain(old) and path and rest[: len(path)] == path:
                            return [arm[0], field, *rest[len(path):]]
            if plain(was) == plain(old):
                return [new, *rest]
            place = parent
        return None


def clause_fields(fields, rest):
    """`requires.1.0` as the name of the clause: the clauses were pairs, nested to the right."""
    if len(fields) < 2:
        return None
    i = 0
    rest = list(rest)
    while i < len(fields) - 1:
        if not rest or rest[0] not in ("0", "1"):
            return None
        it = rest.pop(0)
        if it == "0":
            return [fields[i], *rest]
        i += 1
    return [fields[i], *rest]


def turn_paths(body, names, place):
    def one(m):
        path = m[0].split(".")[1:]
        while path and path[0] == "before":
            path.pop(0)
        if not path:
            return m[0] + " {- PORT: path -}"
        if path[0] in ("args", "lifetimes", "ranges"):
            return ".".join(["c", *path])
        if path[0] == "requires":
            named = clause_fields(names.fields, path[1:])
            return ".".join(["c", "requires", *(named if named else path[1:])])
        # Steps have names of their own, so how far up one lies does not matter.
        new = names.step(place, path[0], path[1:])
        return ".".join(["c", *new]) if new else m[0]

    return re.sub(r"(?<![\w'.-])c(?:\.[A-Za-z0-9_'-]+)+", one, body)


def parts_of(body):
    """The parts of `(a, (b, c))`, nested to the right."""
    body = body.strip()
    if not (body.startswith("(") and body.endswith(")")):
        return [body]
    depth, cut = 0, None
    for i, ch in enumerate(body):
        depth += ch in "(["
        depth -= ch in ")]"
        if depth == 0 and i < len(body) - 1:
            return [body]
        if depth == 1 and ch == "," and cut is None:
            cut = i
    if cut is None:
        return [body]
    return [body[1:cut].strip(), *parts_of(body[cut + 1: -1])]


def declarations(text):
    """Comment, uses, and declarations as (name, type, unfolding lines, equations)."""
    comment, uses, rest = [], [], []
    for line in text.split("\n"):
        if not rest and line.startswith("--"):
            comment.append(line)
        elif line.startswith("use "):
            uses.append(line)
        else:
            rest.append(line)
    blocks = [b.strip("\n") for b in re.split(r"\n\s*\n", "\n".join(rest)) if b.strip()]
    return comment, uses, blocks


def turn(folder, module, listed, crate):
    with open(os.path.join(folder, "Proof.antt"), encoding="utf-8") as f:
        text = f.read()
    comment, uses, blocks = declarations(text)
    lts = {}
    for u in uses:
        m = re.match(r"use (\S+)\.(Lts[\w'-]*|Tie) as (\S+)$", u)
        if m:
            lts[m[3]] = (m[1] + "." + ("Lts" if m[2] == "Tie" else m[2]))
    keep = [u for u in uses if not GENERATED.search(u) and not re.search(r"\.\{statement\}|borrow\.Fn\.", u)]
    keep = [u for u in keep if not re.search(r"proofs\.(\S+\.)?\+", u)]

    def names_of(alias):
        path = lts.get(alias)
        if not path:
            return None
        key = path.replace(f"Rattle.{crate}.proofs", f"Rattle-{crate}-proofs", 1)
        return Names(listed[key]) if key in listed else None

    answers, invariants, left = [], [], []
    for b in blocks:
        lines = b.split("\n")
        m = re.match(r"(?:pub )?(" + NAME + r") : (?:\((" + NAME + r") : ℕ\) → )?(" + NAME + r")\.Need-(" + NAME + r")", b)
        if m:
            names = names_of(m[3])
            i, new = names.goal(m[4]) if names else (None, None)
            unfolding = [l for l in lines if l.startswith("unfolding ")]
            eq = next((k for k, l in enumerate(lines) if re.match(re.escape(m[1]) + r"[ \n]", l) and k > 0), None)
            if eq is None:
                left.append(b)
                continue
            first = lines[eq].partition("=")[2]
            body = "\n".join([first.strip(), *lines[eq + 1:]]).strip("\n")
            if new is None:
                left.append("-- PORT: no such goal now: " + m[4] + "\n" + b)
                continue
            if body.strip() in ("search rules", "omega arith") and not unfolding:
                continue
            body = turn_paths(body, names, names.at[i])
            t = "t " if m[2] else ""
            parts = parts_of(body)
            asked = names.asked.get(names.needs[i][0])
            stem = names.stem
            if len(parts) > 1 and asked and not unfolding:
                if t and len(parts) == len(asked) + 1:
                    # The first part is the measure's.
                    answers.append(f"pub {stem}{new} : goal.{stem}{new}\n{stem}{new} {t}c = {body}")
                    continue
                if len(parts) == len(asked):
                    for part, clause in zip(parts, asked):
                        if part != "search rules":
                            n = f"{stem}{new}-clause-{clause}"
                            answers.append(f"pub {n} : goal.{n}\n{n} {t}c = {part}")
                    continue
            sep = "\n" if "\n" in body or len(body) > 120 else " "
            body = "    " + body.lstrip() if sep == "\n" else body.strip()
            answers.append(f"pub {stem}{new} : goal.{stem}{new}\n" + "".join(u + "\n" for u in unfolding) + f"{stem}{new} {t}c ={sep}{body}")
            continue
        m = re.match(r"abbrev (?:pub )?(" + NAME + r") : (" + NAME + r")\.(invariant|decreases)-(" + NAME + r")\n", b)
        if m:
            names = names_of(m[2])
            found = None
            for k, ((was, new), variables) in enumerate(names.loops):
                if plain(was) == plain(m[4]):
                    found = (k, new, variables)
            if not found:
                left.append("-- PORT: no such loop: " + m[4] + "\n" + b)
                continue
            k, new, variables = found
            changed = names.changed[k]
            eq = "\n".join(lines[1:])
            head, _, body = eq.partition("=")
            params = head.split()[1:]
            to = [("l.initial." if c else "l.") + v for v, c in zip(variables, changed)] + ["l." + v for v, c in zip(variables, changed) if c]
            mark = ""
            if len(params) != len(to):
                mark = f"-- PORT: {len(params)} parameters for {len(to)}: {' '.join(to)}\n"
            table = dict(zip(params, to))
            body = re.sub(r"(?<![\w'.₀-])([^\W\d][\w'₀-]*)", lambda m: table.get(m[1], m[1]), body)
            n = f"{m[3]}-{names.stem}{new}"
            invariants.append(f"{mark}abbrev pub {n} : goal.{n}\n{n} l ={body if body.startswith(chr(10)) else ' ' + body.strip()}")
            continue
        m = re.match(r"abbrev (?:pub )?μ-(" + NAME + r") : Measures", b)
        if m:
            invariants.append("-- PORT: measure\n" + b)
            continue
        if re.match(r"(?:pub )?\+?" + NAME + r"[-_]spec : ", b) or re.search(r"-(at|below) : ℕ → In |-calls : ℕ → |: ℕ → In ", b.split("\n")[0]):
            continue
        left.append("-- PORT: kept\n" + b)
    goal = module
    if invariants:
        body = "\n".join([*keep, f"use {goal}.Given as goal", ""]) + "\n" + "\n\n".join(invariants) + "\n"
        with open(os.path.join(folder, "Invariants.antt"), "w", encoding="utf-8") as f:
            f.write("\n".join(comment) + "\n" + body)
    if answers or left:
        body = "\n".join([*keep, f"use {goal}.Goals as goal", ""]) + "\n" + "\n\n".join(left + answers) + "\n"
        with open(os.path.join(folder, "Answers.antt"), "w", encoding="utf-8") as f:
            f.write("\n".join(comment) + "\n" + body)
    os.remove(os.path.join(folder, "Proof.antt"))
    if not os.listdir(folder):
        os.rmdir(folder)


def main():
    for crate in sys.argv[2:]:
        with open(os.path.join(sys.argv[1], "crates", crate, "names.json")) as f:
            listed = json.load(f)
        top = os.path.join("crates", crate, "proofs")
        for folder, _, files in os.walk(top):
            if "Proof.antt" in files:
                path = os.path.relpath(folder, top).split(os.sep)
                turn(folder, ".".join(["Rattle", crate, "proofs", *path]), listed, crate)


main()
