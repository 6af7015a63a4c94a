#!/usr/bin/env python3
"""Turns the walks of an older Rattle, proofs/F/Proof.antt, into Invariants.antt and Answers.antt.

usage: tools/answers.py NAMES CRATE..     NAMES is the folder that `rt names` wrote

Each goal, step and place has its new name in NAMES. An answer that only says `search rules` or `omega arith` is left out:
the check finds it.
"""
import json
import os
import re
import sys

NAME = r"[A-Za-zα-ωΑ-Ω_][\w'₀-₉-]*"
LENT = {}
TRIVIAL = re.compile(r"^\(?(search rules|omega arith|refl)\)?$")


def norm(word):
    return word.replace("-", "_")


def blocks(text):
    """The declarations of a file: each is the list of its lines, with the comment lines before it."""
    out, current = [], []
    for line in text.split("\n"):
        starts = line and not line[0].isspace()
        if starts:
            out.append([line])
        elif out:
            out[-1].append(line)
    return out


def contracts(crates):
    """The names of each function's clauses, by crate and path: (requires, ensures)."""
    found = {}
    for crate in crates:
        src = f"crates/{crate}/src"
        if not os.path.isdir(src):
            continue
        for file in sorted(os.listdir(src)):
            if not file.endswith(".rt"):
                continue
            module = "" if file in ("lib.rt", "main.rt") else file[:-3] + "::"
            with open(f"{src}/{file}") as f:
                text = f.read()
            for m in re.finditer(r"(?m)^(?:#\[[^\n]*\n)*(?:pub )?(?:unsafe )?(?:extern \"C\" )?fn (\w+)(.*?)^\{", text, re.S):
                head = m.group(2)
                req = re.findall(r"\brequires\*? ?(\w*) ?\{", head)
                ens = re.findall(r"\bensures\*? ?(\w*) ?\{", head)
                LENT[crate, m.group(1)] = re.findall(r"(?:mut )?(\w+): ", head.split("requires")[0].split("ensures")[0])
                found.setdefault((crate, m.group(1)), []).append((module, req, ens))
    return found


class Function:
    def __init__(self, crate, path, names, clauses):
        self.crate, self.path, self.names, self.clauses = crate, path, names, clauses
        self.steps, self.callee = {}, {}
        for place, parent, (old, new), called, _ in names["places"]:
            if old:
                self.steps[norm(old)] = new
                if called:
                    self.callee[norm(old)] = called
        self.goals = {norm(o): n for o, n in names["needs"]}
        # where each goal is asked, each place's parent, step and arm
        self.asked = {n: at[0] for (o, n), at in zip(names["needs"], names["asked_at"])}
        self.place, self.arms = {}, {}
        for (place, parent, (old, new), called, _), arm in zip(names["places"], names["arms"]):
            self.place[place] = (parent, norm(old), new, called)
            self.arms[place] = [(arm[0], field, norm(step), path) for field, step, path in arm[2]] if arm else []
        self.changed = [c for c in names["changed"]]
        self.at = None
        self.order = [n for o, n in names["needs"]]
        self.loops = {norm(o): (n, vs) for (o, n), vs in names["loops"]}
        self.typed = {}
        for at in names["typed"]:
            for var, step in at:
                self.typed[norm(step)] = var
        mine = clauses.get((crate, path.split(".")[-1]), [])
        self.own = mine[0] if len(mine) >= 1 else ("", [], [])
        if len(mine) > 1:
            mod = "::".join(path.split(".")[:-1])
            for it in mine:
                if it[0].rstrip(":") == mod:
                    self.own = it
        self.alias = {}
        self.lent = LENT

    def term(self, token):
        """One path into what is known, `c.before.before.loop.i`, with today's names; what it stands for is left in self.last."""
        parts = token.split(".")
        root, rest = parts[0], parts[1:]
        kind = self.alias.get(root)
        at = self.at if root == "c" else kind[1] if kind and kind[0] == "place" else None
        moved = root == "c" or bool(kind and kind[0] == "place")
        while moved and rest and rest[0] == "before":
            at = self.place[at][0] if at in self.place else None
            rest = rest[1:]
        out = [root]
        self.last = ("place", at) if moved else ("other", None)
        if not rest:
            return root
        called = None
        if kind and kind[0] == "arm":
            to, left = self.in_arm(kind[1], rest)
            if to:
                self.last = ("other", None)
                return ".".join(["c"] + to + left)
        if moved:
            here = self.place.get(at)
            if not (here and here[1] == norm(rest[0])):
                # the older tree had other places: the nearest one on the way to the goal that has this step
                way = self.at
                while way in self.place and self.place[way][1] != norm(rest[0]):
                    way = self.place[way][0]
                if way in self.place:
                    at, here = way, self.place[way]
            arms = [(arm, field, [step] + [norm(p) for p in path]) for arm, field, step, path in self.arms.get(at, [])]
            to, left = self.in_arm(arms, [norm(rest[0])] + rest[1:])
            longer = [(arm, field, path[len(rest):]) for arm, field, path in arms if path[: len(rest)] == [norm(rest[0])] + rest[1:] and len(path) > len(rest)]
            if longer:
                self.last = ("arm", longer)
                return "c"
            if to:
                self.last = ("other", None)
                return ".".join([root] + to + left)
            if len(rest) > 1 and rest[1] == "given" and norm(rest[0]) in self.typed:
                var = self.typed[norm(rest[0])]
                if var in self.live:
                    out += ["type_inv", var]
                else:
                    out += [self.steps.get(norm(rest[0]), rest[0]), "given"]
                rest = rest[2:]
                self.last = ("other", None)
                return ".".join(out + rest)
            first = norm(rest[0])
            if here and here[1] and first == here[1]:
                out.append(here[2])
                called = here[3]
                rest = rest[1:]
                self.last = ("step", called)
            elif first not in ("args", "requires", "ranges", "lifetimes", "type_inv", "well_formed") and first in self.steps:
                out.append(self.steps[first])
                called = self.callee.get(first)
                rest = rest[1:]
                self.last = ("step", called)
        elif kind and kind[0] == "step":
            called = kind[1]
        clauses = None
        if kind and kind[0] in ("requires", "ensures"):
            clauses = kind[1]
        elif rest and rest[0] == "requires" and moved:
            clauses = self.own[1]
            out.append("requires")
            rest = rest[1:]
            self.last = ("requires", clauses)
        elif rest and rest[0] == "ensures":
            clauses = self.of(called)
            out.append("ensures")
            rest = rest[1:]
            self.last = ("ensures", clauses)
        elif rest and rest[0] == "new" and called and len(rest) > 1 and rest[1] in ("0", "1"):
            lent = self.lent.get(tuple(called.split("::")[i] for i in (0, -1)), [])
            rest, n = rest[1:], 0
            while rest and rest[0] == "1" and n < len(lent) - 1:
                n, rest = n + 1, rest[1:]
            if rest and rest[0] == "0":
                rest = rest[1:]
            out += ["new", lent[n] if lent else "0"]
            self.last = ("other", None)
        elif rest and not (moved and self.last[0] == "step"):
            self.last = ("other", None)
        elif rest:
            self.last = ("other", None)
        if clauses and len(clauses) > 1 and rest and rest[0] in ("0", "1"):
            n = 0
            while rest and rest[0] == "1" and n < len(clauses) - 1:
                n, rest = n + 1, rest[1:]
            if rest and rest[0] == "0" and n < len(clauses) - 1:
                rest = rest[1:]
            out.append(clauses[n])
            self.last = ("other", None)
        return ".".join(out + rest)

    def in_arm(self, arms, rest):
        """The field of an arm that a path begins with, and what is left of the path."""
        for arm, field, path in sorted(arms, key=lambda it: -len(it[2])):
            if rest[: len(path)] == path:
                return [arm, field], rest[len(path):]
        return None, rest

    def of(self, called):
        """The names of the callee's ensures."""
        if called is None:
            return None
        parts = called.split("::")
        found = self.clauses.get((parts[0], parts[-1])) or self.clauses.get((self.crate, parts[-1])) or []
        for module, req, ens in found:
            if module == "::".join(parts[1:-1] + [""]):
                return ens
        return found[0][2] if found else None

    def body(self, text, goal=None):
        self.alias = {}
        self.at = self.asked.get(goal)
        places = [p[0] for p in self.names["places"]]
        self.live = [v for v, _ in self.names["typed"][places.index(self.at)]] if self.at in places else []
        text = text.replace(" κs", "")

        def bind(m):
            converted = self.term(m.group(2))
            self.alias[m.group(1)] = self.last
            if self.last[0] == "arm":
                return "\0"
            return f"let {m.group(1)} = {converted} in"

        pattern = re.compile(r"let (%s) = (%s(?:\.[\w'-]+)*) in|(?<![\w'.·-])(%s(?:\.[\w'-]+)+)" % (NAME, NAME, NAME))

        def one(m):
            if m.group(1):
                return bind(m)
            return self.term(m.group(3))

        text = pattern.sub(one, text)
        text = re.sub(r"\n *\0(?=\n)| ?\0", "", text)
        for old, new in self.names["args"]:
            old, new = old.replace(" ", ""), new.replace(" ", "")
            text = re.sub(re.escape(old) + r"(?![\w'-])", new, text)
        return text


def convert(crate, path, fn, clauses):
    folder = f"crates/{crate}/proofs/" + path.replace(".", "/")
    with open(folder + "/Proof.antt") as f:
        text = f.read()
    f = Function(crate, path, fn, clauses)
    uses, helpers, invariants, answers, comments, said = [], [], [], [], [], []
    named, pending = {}, []
    for block in blocks(text):
        first = block[0]
        if first.startswith("--"):
            pending.append("\n".join(block).rstrip())
            continue
        if first.startswith("use "):
            if re.search(r"\.(Tie|Statement)( as|\.)", first) or "borrow.Author.Rules.{rules}" in first:
                continue
            uses.append(first)
            if pending:
                comments += pending
                pending = []
            continue
        if first.startswith("unfolding") and named.get("last"):
            named[named["last"]]["unfolding"] = first
            continue
        m = re.match(r"(?:abbrev )?(?:pub )?(%s)( \{ℓ\})? : (.*)" % NAME, first)
        if m:
            name, kind = m.group(1), "\n".join([m.group(3)] + block[1:]).rstrip()
            g = re.match(r"tie\.Need-(%s)(?![\w-])" % NAME, kind)
            l = re.match(r"tie\.(invariant|decreases)-(%s)\s*$" % NAME, kind)
            named[name] = {"goal": g.group(1) if g else None, "loop": l.groups() if l else None, "signature": "\n".join(block).rstrip(), "comment": pending, "defs": [], "unfolding": None}
            named["last"] = name
            pending = []
            continue
        m = re.match(r"(%s)(.*)" % NAME, first)
        if m and m.group(1) in named:
            named[m.group(1)]["defs"].append("\n".join(block).rstrip())
            continue
        helpers.append("\n".join(block).rstrip())
        said.append("kept as it was: " + first[:80])
    final = None
    for name, it in list(named.items()):
        if name == "last":
            continue
        if "tie.spec" in "\n".join(it["defs"]):
            final = it["defs"][0]
            continue
        if it["loop"]:
            kind, loop = it["loop"]
            new, variables = f.loops.get(norm(loop), (None, []))
            if not new:
                said.append(f"no loop {loop}")
                continue
            d = it["defs"][0]
            head, rhs = d.split("=", 1)
            args = head.split()[1:]
            taken = {}
            changed = f.changed[[norm(o) for (o, n), _ in fn["loops"]].index(norm(loop))]
            places = [f"l.initial.{v}" if c else f"l.{v}" for v, c in zip(variables, changed)] + [f"l.{v}" for v, c in zip(variables, changed) if c]
            if len(places) != len(args):
                said.append(f"loop {loop}: {args} and {variables} {changed}")
            for a, to in zip(args, places):
                if a != "_":
                    taken[a] = to
            rhs = re.sub(r"(?<![\w'.₀₁₂-])%s[₀-₉]*(?![\w'₀-])(?! = )" % NAME, lambda m: taken.get(m.group(0), m.group(0)), rhs)
            unf = it["unfolding"]
            invariants.append((it["comment"], f"abbrev pub {kind}-{new} : goal.{kind}-{new}", unf, f"{kind}-{new} l ={rhs}"))
        elif it["goal"]:
            old = norm(it["goal"])
            other = re.sub(r"^overflow_(add|sub|mul|cast|shl|shr)_", r"\1_", old)
            other = re.sub(r"^slice_bounds_(.*)_(start|end)(_\d+)?$", r"part_\1_\2\3", other)
            new = f.goals.get(old) or f.goals.get(other)
            if not new:
                said.append(f"no goal {it['goal']}")
                continue
            d = it["defs"][0]
            m = re.match(r"%s((?: %s)*) =(.*)" % (re.escape(name), NAME), d, re.S)
            if not m:
                said.append("by clauses: " + d[:60])
                continue
            body = f.body(m.group(2), new)
            if TRIVIAL.match(body.strip()) and not it["unfolding"]:
                continue
            args = m.group(1).replace(" κs", "")
            answers.append((it["comment"], f"pub {new} : goal.{new}", it["unfolding"], f"{new}{args} ={body}"))
        else:
            helpers.append("\n".join(it["comment"] + [it["signature"]] + ([it["unfolding"]] if it["unfolding"] else []) + it["defs"]))
    # the answers that stand in the list, by their place
    if final and "tie.spec" in final:
        rest = final[final.index("tie.spec") + 8 :]
        items, depth, word = [], 0, ""
        for ch in rest:
            if ch == "(":
                depth += 1
            if ch == ")":
                depth -= 1
                if depth < 0:
                    break
            if ch.isspace() and depth == 0:
                if word:
                    items.append(word)
                word = ""
            else:
                word += ch
        if word:
            items.append(word)
        items = [i for i in items if not (i in named and named[i]["loop"])]
        if len(items) != len(f.order):
            said.append(f"{len(items)} answers in the list and {len(f.order)} goals")
            lambdas = [i for i in items if i.startswith("(λ") and not re.match(r"\(λ c(?: κs)?\. (search rules|omega arith|refl)\)$", i)]
            said += ["in the list: " + i[:120] for i in lambdas]
        else:
            for i, new in zip(items, f.order):
                m = re.match(r"\(λ (c(?: κs)?)\. (.*)\)$", i, re.S)
                if m and not TRIVIAL.match(m.group(2).strip()):
                    answers.append(([], f"pub {new} : goal.{new}", None, f"{new} c = {f.body(m.group(2), new)}"))
                elif not m and i not in named:
                    said.append("in the list: " + i[:120])
    top = comments or pending
    def write(file, given, items, more):
        path_to = f"{folder}/{file}"
        if not items:
            return
        bodies = "\n".join([i[3] for i in items] + more)
        extra = ["use borrow.Author.Rules.{rules}"] if re.search(r"(?<![\w.'-])rules(?![\w'-])", bodies) else []
        lines = list(top) + uses + extra + [f"use Rattle.{crate}.proofs.{path}.{given} as goal", ""]
        for h in more:
            lines += [h, ""]
        for comment, sig, unf, definition in items:
            lines += comment + [sig] + ([unf] if unf else []) + [definition, ""]
        with open(path_to, "w") as out:
            out.write("\n".join(lines).rstrip() + "\n")
    write("Invariants.antt", "Given", invariants, [])
    write("Answers.antt", "Goals", answers, helpers)
    os.remove(folder + "/Proof.antt")
    if helpers and not answers:
        said.append("helpers without answers")
    for s in said:
        print(f"{crate} {path}: {s}")


def main(names, crates):
    clauses = contracts(sorted(os.listdir("crates")))
    for crate in crates:
        with open(f"{names}/crates/{crate}/names.json") as f:
            known = json.load(f)
        for key, fn in known.items():
            m = re.match(r"Rattle-%s-proofs\.(.*)\.Lts$" % crate, key)
            if m and os.path.exists(f"crates/{crate}/proofs/" + m.group(1).replace(".", "/") + "/Proof.antt"):
                convert(crate, m.group(1), fn, clauses)


if __name__ == "__main__":
    main(sys.argv[1], sys.argv[2:])
