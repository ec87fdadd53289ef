#!/usr/bin/env python3
"""Gives the names that today's Rattle makes to the proofs by hand, once, after port.py and names.py.

usage: proofs.py OLD NAMES [CRATE..]

OLD is the last commit in the older form, NAMES the folder that `rt names NAMES` wrote at the top. In each crates/CRATE/proofs/**/*.antt it turns
the goals, the places and the steps of a function's walk: tie.Need-div-q, tie.Then1, c.if1.true  ->  tie.Need-nonzero_div-q,
tie.Then-r-lt0, c.if-r-lt0.true. A line `look:` names what it could not turn.
"""
import glob
import json
import os
import re
import subprocess
import sys

NAME = r"[^\s(){}.;,@\"«»\[\]|]+"
MODULES = "Tie|Lts|Given|Goals"
OWN = {"type-inv": "type_inv", "well-formed": "well_formed", "pre": "requires"}
LOOP_ENDS = {"holds": "init", "less": "smaller", "again": "preserved"}


def norm(name):
    return name.replace("_", "-")


def read(path):
    with open(path, encoding="utf-8") as f:
        return f.read()


class Walk:
    """the names of one function's walk"""

    def __init__(self, of):
        self.needs = [(norm(old), new) for old, new in of["needs"]]
        self.asked_at = [norm(old) for old, _ in of["asked_at"]]
        self.places, self.parent, self.step, self.variables = {}, {}, {}, {}
        for (old, before, step, _, variables), new in zip(of["places"], of["places_by_name"]):
            old = norm(old)
            self.places[old] = new
            self.parent[old] = norm(before) if before else None
            self.step[old] = (norm(step[0]), step[1])
            self.variables[old] = {norm(it[0]): it[1] for it in variables}
        # parameters that had no name: .args .t1 -> .args .low
        self.args = {tuple(norm(old).replace(".", "").split()): new.replace(".", "").split() for old, new in of["args"]}
        self.loops = [(norm(old), new) for (old, new), *_ in of["loops"]]

    def need(self, label):
        for loop, _ in self.loops:
            for old, new in LOOP_ENDS.items():
                if label == f"{loop}-{old}":
                    label = f"{loop}-{new}"
        for at, (old, new) in enumerate(self.needs):
            if old == label:
                return at, new
        return None

    def label(self, old):
        """the new spelling of a name of the walk's module, and the place that it speaks of"""
        old = norm(old)
        if old.startswith("Need-"):
            found = self.need(old[5:])
            return found and ("Need-" + found[1], self.asked_at[found[0]])
        for loop, new in self.loops:
            if old in (f"InvT-{loop}", f"invariant-{loop}"):
                return "invariant-" + new, None
            if old in (f"MeasureT-{loop}", f"decreases-{loop}"):
                return "decreases-" + new, None
        return (self.places[old], old) if old in self.places else None


def walks(folder):
    out = {}
    for path in glob.glob(f"{folder}/crates/*/names.json"):
        crate = path.split("/")[-2]
        for key, of in json.loads(read(path)).items():
            if ".Lts" in key:
                out[crate, key.split(".", 1)[1]] = of
    return out


def aliases(text, found):
    out = {}
    for crate, path, module, alias in re.findall(rf"(?m)^use Rattle\.(\w+)\.proofs\.(\S+)\.((?:{MODULES})\S*) as (\S+)", text):
        names = [key for key in found if key[0] == crate and key[1].rsplit(".Lts", 1)[0] == path]
        if len(names) == 1:
            out[alias] = Walk(found[names[0]])
    return out


class Turner:
    def __init__(self, path, old, new, found):
        self.path, self.text = path, new
        self.ties = aliases(new, found)
        heads = "|".join(map(re.escape, self.ties)) or "(?!)"
        self.label = re.compile(rf"(?<![\w.'-])({heads})\.({NAME})")
        olds, news = self.label.findall(self.code(old)), self.label.findall(self.code(new))
        self.olds = [it[1] for it in olds] if len(olds) == len(news) else None
        if self.olds is None and news:
            print(f"look: {path}: {len(olds)} names of the walk were {len(news)}")
        self.at, self.functions, self.outer = 0, {}, {}

    @staticmethod
    def code(text):
        return "\n".join("" if re.match(r"\s*(--|use )", line) else line for line in text.split("\n"))

    def turned(self):
        if not self.ties:
            return self.text
        return "\n\n".join(self.declaration(it) for it in self.text.split("\n\n"))

    def declaration(self, text):
        spans = []
        for m in self.label.finditer(self.code(text)):
            old = self.olds[self.at] if self.olds else m[2]
            self.at += 1
            tie = self.ties[m[1]]
            named = tie.label(old) or tie.label(m[2])
            if named is not None:
                spans.append((m[1], m[2], named[0]))
            elif old not in ("spec", "close"):
                print(f"look: {self.path}: {m[1]}.{old}")
        for alias, label, new in spans:
            text = re.sub(rf"(?<![\w.'-]){re.escape(alias)}\.{re.escape(label)}(?![^\s(){{}}.;,])", f"\x00{alias}\x01{new}", text, count=1)
        text = text.replace("\x00", "").replace("\x01", ".")
        return self.in_walk(text)

    def bound_outside(self, lines):
        """the parameters of the section, `module _ (c : tie.Place) where`, in which the lines stand"""
        if not all(it.startswith((" ", "--")) for it in lines if it):
            self.outer = {}
        for line in lines:
            if re.match(r"module _ ", line):
                for names, label in re.findall(rf"\((\w+(?: \w+)*) : ({NAME}\.{NAME})", line):
                    for name in names.split():
                        if self.place_of(label):
                            self.outer[name] = self.place_of(label)
        return dict(self.outer)

    def place_of(self, label_text):
        m = re.match(rf"({NAME})\.({NAME})", label_text)
        tie = self.ties.get(m[1]) if m else None
        if tie is None:
            return None
        for old, new in tie.places.items():
            if new == m[2]:
                return tie, old
        if m[2].startswith("Need-"):
            for at, (_, new) in enumerate(tie.needs):
                if "Need-" + new == m[2]:
                    return tie, tie.asked_at[at]
        return None

    def in_walk(self, text):
        lines = text.split("\n")
        env = self.bound_outside(lines)
        # signatures: NAME : (c : tie.Place ..) → .., NAME : tie.Need-X .., NAME : tie.Place .. → tie.Place
        for at, line in enumerate(lines):
            m = re.match(rf"\s*(?:abbrev )?(?:pub )?({NAME}) : (.*)", line)
            if not m:
                continue
            binders = re.findall(rf"\((\w+(?: \w+)*) : ({NAME}\.{NAME})", m[2])
            for names, label in binders:
                where = self.place_of(label)
                for name in names.split():
                    if where:
                        env[name] = where
            plain = re.match(rf"({NAME}\.{NAME})([^→]*)(?:→ ({NAME}\.{NAME}))?", m[2])
            if plain and not binders:
                where = self.place_of(plain[1])
                if where:
                    for later in lines[at + 1 :]:
                        c = re.match(rf"\s*{re.escape(m[1])} ([\w']+)", later)
                        if c:
                            env[c[1]] = where
                            break
                if plain[3] and self.place_of(plain[3]):
                    self.functions[m[1]] = self.place_of(plain[3])
                elif where and "→" not in m[2] and "Need-" not in plain[1]:
                    env[m[1]] = self.outer[m[1]] = self.functions[m[1]] = where
            elif binders:
                result = re.search(rf"→ ({NAME}\.{NAME})[^→]*$", m[2])
                if result and self.place_of(result[1]):
                    self.functions[m[1]] = self.place_of(result[1])
                # the clause may call its first parameter otherwise
                for later in lines[at + 1 :]:
                    c = re.match(rf"\s*{re.escape(m[1])} ([\w']+)", later)
                    if c and c[1] not in env and self.place_of(binders[0][1]):
                        env[c[1]] = self.place_of(binders[0][1])
                        break
        return self.chains("\n".join(lines), env)

    def chains(self, text, env):
        env = dict(env)
        token = re.compile(rf"\blet (?P<var>[\w'-]+)(?= [:=])|(?P<head>\)|(?<![\w.'-])[A-Za-z_][^\s(){{}}.;,]*)(?P<fields>(?:\.{NAME})*)")
        out, last, variable = [], 0, None
        for m in token.finditer(text):
            if m["var"]:
                variable = m["var"]
                env.pop(variable, None)
                continue
            is_bound = variable and re.search(rf"\blet {re.escape(variable)}( :[^=\n]*)? = \Z", text[: m.start()])
            where = None
            if m["head"] == ")":
                inner = self.inside(text, m.start())
                f = re.match(rf"\s*({NAME}) ", inner or "")
                where = self.functions.get(f[1]) if f else None
            elif m["head"] in self.ties:
                continue
            else:
                where = env.get(m["head"])
            fields = re.findall(rf"\.({NAME})", m["fields"])
            if where is None:
                # a call of a helper that gives a place: let s = start c in
                if is_bound and m["head"] in self.functions and not fields:
                    env[variable] = self.functions[m["head"]]
                new = [OWN.get(it, it) for it in fields]
                # port.py took the field of a number that fits for the ranges of a place
                if new[-1:] == ["ranges"]:
                    new[-1] = "fits"
            else:
                new, end = self.chain(where, fields)
                if is_bound and end is not None:
                    env[variable] = (where[0], end)
            if fields:
                out += [text[last : m.start("fields")], "".join("." + it for it in new)]
                last = m.end("fields")
        out.append(text[last:])
        return "".join(out)

    @staticmethod
    def inside(text, at):
        depth, i = 0, at
        while i >= 0:
            depth += (text[i] == ")") - (text[i] == "(")
            if depth == 0:
                return text[i + 1 : at]
            i -= 1
        return None

    def chain(self, where, fields):
        """the fields in today's names, and the place where the chain ends, if it is one"""
        tie, place = where
        new, i = [], 0
        while i < len(fields) and fields[i] == "before" and place:
            new.append("before")
            place = tie.parent.get(place)
            i += 1
        if place is None:
            return new + fields[i:], None
        if i == len(fields):
            return new, place
        step = tie.step[place]
        # port.py took some steps for types, and some for lemmas
        if step[0] and re.sub("-lem$", "", norm(fields[i]).lower()) == step[0].lower():
            new.append(step[1])
            i += 1
            variables = tie.variables[place]
            if i < len(fields) and norm(fields[i]) in variables:
                new.append(variables[norm(fields[i])])
                i += 1
        rest = [OWN.get(it, it) for it in fields[i:]]
        rest = tie.args.get(tuple(rest[:2]), rest[:2]) + rest[2:]
        return new + rest, None


def main():
    commit, names, *crates = sys.argv[1:]
    found = walks(names)
    for path in sorted(glob.glob("crates/*/proofs/**/*.antt", recursive=True)):
        if crates and path.split("/")[1] not in crates:
            continue
        new = read(path)
        if not re.search(rf"(?m)^use Rattle\.\S+\.(?:{MODULES})\S* as ", new):
            continue
        old = subprocess.run(["git", "show", f"{commit}:{path}"], capture_output=True, text=True).stdout
        turned = Turner(path, old, new, found).turned()
        if turned != new:
            with open(path, "w", encoding="utf-8") as f:
                f.write(turned)


if __name__ == "__main__":
    main()
