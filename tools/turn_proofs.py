#!/usr/bin/env python3
"""Turns the names that Rattle makes in each proofs/F/Proof.antt of a crate to today's.

usage, in a crate's folder:  rt check --generated FOLDER --old-names; python3 ../../tools/turn_proofs.py FOLDER/names.json [F ..]
"""
import json
import os
import re
import sys

WORD = r"[^\s(){}\[\],;.→λ|]+"
PATH = re.compile(r"(?<![\w.'-])" + WORD + r"(?:\." + WORD + r")+")


def norm(name):
    name = re.sub(r"^slice-bounds-", "part-", name.replace("_", "-"))
    return re.sub(r"^(overflow|nonzero|bounds|shape-of)-", "", name)


class Place:
    def __init__(self, old, new, base, step, callee, fields, arm):
        self.old, self.new, self.base, self.step, self.callee = old, new, base, step, callee
        self.fields, self.arm = dict(fields), arm


class Names:
    def __init__(self, j):
        self.params = j["params"]
        self.needs = {norm(o): n for o, n in j["needs"]}
        self.at = {n: old for (_, n), (old, _) in zip(j["needs"], j["asked_at"])}
        self.places = {}
        for (old, base, step, callee, fields), new, arm in zip(j["places"], j["places_by_name"], j["arms"]):
            self.places[norm(old)] = Place(old, new, norm(base) if base else None, step, callee, fields, arm)
        self.loops = {norm(l[0][0]): l[0][1] for l in j["loops"]}
        self.helpers, self.shifted, self.gone = {}, set(), set()

    def shift(self, text):
        """Calls that were counted from 2, since the first one's name was taken."""
        steps = {norm(p.step[0]) for p in self.places.values()}
        used = {norm(x) for x in re.findall(r"\.([\w-]+)", text)}
        for m in (re.fullmatch(r"(.*\D)(\d+)", u) for u in used):
            if m and m.group(1) not in used and m.group(0) not in steps and (m.group(1) if m.group(2) == "2" else m.group(1) + str(int(m.group(2)) - 1)) in steps:
                self.shifted.add(m.group(1))

    def up(self, place):
        while place:
            p = self.places.get(norm(place))
            if not p:
                return
            yield p
            place = p.base

    def whole(self, place):
        """The last place of an arm's, of which alone there is a record now."""
        p = self.places[norm(place)]
        if p.arm:
            for q in self.places.values():
                if q.arm and q.arm[0] == p.arm[0] and q.arm[1] > p.arm[1]:
                    p = q
        return p.old

    def depth(self, place, to):
        """How many times 'before' leads from a place to another: an arm is one step."""
        i, skipped = 0, 0
        for p in self.up(place):
            if norm(p.old) == norm(to):
                return i
            if skipped:
                skipped -= 1
            elif p.arm:
                skipped, i = p.arm[1] - 1, i + 1
            else:
                i += 1
        return None

    def fields_of(self, parts, place):
        """The path of a field of a record of facts: parts has no variable and no 'before'."""
        step = norm(parts[0])
        m = re.fullmatch(r"(.*\D)(\d+)", step)
        if m and m.group(1) in self.shifted:
            step = m.group(1) if m.group(2) == "2" else m.group(1) + str(int(m.group(2)) - 1)
        step = step[0].lower() + step[1:]
        known = {norm(p.step[0]) for p in self.places.values()}
        if step not in known and re.sub(r"(-lem)+$", "", step) in known:
            step = re.sub(r"(-lem)+$", "", step)
        chain = list(self.up(place)) if place else list(self.places.values())
        for p in chain:
            if p.arm:
                best = None
                for field, old, way in p.arm[2]:
                    if norm(old) == step and parts[1:1 + len(way)] == way and (best is None or len(way) > len(best[1])):
                        best = (field, way)
                if best:
                    return [p.arm[0], best[0]] + parts[1 + len(best[1]):]
            if p.step[0] and norm(p.step[0]) == step:
                out = [p.step[1]] + parts[1:]
                if len(out) > 1:
                    out[1] = p.fields.get(out[1], out[1])
                if len(out) > 2 and out[1] in ("new", "auto") and p.callee in self.params:
                    k = 2
                    while k < len(out) and out[k] == "1":
                        k += 1
                    if k < len(out) and out[k] == "0" and k - 2 < len(self.params[p.callee]):
                        out[2:k + 1] = [self.params[p.callee][k - 2]]
                return out
        return parts

    def label(self, name):
        """A name that tie has."""
        if name.startswith("Need-"):
            to = self.needs.get(norm(name[5:]))
            return "Need-" + to if to else None
        for word in ("invariant-", "decreases-"):
            if name.startswith(word) and norm(name[len(word):]) in self.loops:
                return word + self.loops[norm(name[len(word):])]
        p = self.places.get(norm(name))
        return self.places[norm(self.whole(name))].new if p else None

    def block(self, text):
        """A declaration with its paths turned."""
        m = re.match(r"(?:--.*\n)*(?:abbrev |pub |unfoldable )*(\S+) :(?: \(.*?\) →)? tie\.Need-(\S+)", text)
        if not m:
            m = None
        where = {}
        if m:
            to = self.needs.get(norm(m.group(2)))
            if to:
                head = re.search(r"(?m)^" + re.escape(m.group(1)) + r"((?: \S+)+?) =", text)
                if head:
                    where[head.group(1).split()[0]] = self.at[to]
        for h in re.finditer(r"\((\w+) : (?:tie|lts)\.([^\s()]+)(?:[^()]|\([^()]*\))*\)", text):
            if norm(h.group(2)) in self.places:
                where[h.group(1)] = self.whole(h.group(2))
        only = set(where)
        # What a let binds to a record of facts is that record.
        while True:
            m = re.search(r"let (\w+) = (\w+)((?:\.before)*) in ?\n?\s*", text)
            if not m or m.group(2) not in where:
                break
            text = text[:m.start()] + re.sub(r"(?<![\w.'-])" + re.escape(m.group(1)) + r"(?=[.\s),\]])", m.group(2) + m.group(3), text[m.end():])
        def path(m):
            parts = m.group(0).split(".")
            if parts[0] not in only:
                return m.group(0)
            i = 1
            while i < len(parts) and parts[i] == "before":
                i += 1
            if i == len(parts):
                return m.group(0)
            return ".".join([parts[0]] + self.fields_of(parts[i:], where[parts[0]]))
        text = PATH.sub(path, text)
        def call(m):
            d = self.depth(where[m.group(2)], self.helpers[m.group(1)]) if m.group(2) in where else None
            return m.group(0) if d is None else m.group(1) + " " + m.group(2) + ".before" * d
        for name in self.helpers:
            text = re.sub(r"(?<![\w.'-])(" + re.escape(name) + r") (\w+)((?:\.before)*)(?=[\s),\]])(?! :)", call, text)
        return text

    def turn(self, text, said):
        self.shift(text)
        own = {}
        for m in re.finditer(r"(?m)^(?:abbrev |pub |unfoldable )*(\S+) :(?: \(.*?\) →)? tie\.(\S+)", text):
            to = self.label(m.group(2))
            if to and (m.group(2).startswith("Need-") or m.group(2).startswith(("invariant", "decreases"))):
                own[m.group(1)] = to[5:] if to.startswith("Need-") else to
        for m in re.finditer(r"(?m)^(\S+) : (?:\{.*?\} → )?\((\w+) : (?:tie|lts)\.([^\s()]+)(?:[^()]|\([^()]*\))*\)", text):
            self.helpers[m.group(1)] = self.whole(m.group(3)) if norm(m.group(3)) in self.places else m.group(3)
        for m in re.finditer(r"(?m)^module _ \((\w+) : (?:tie|lts)\.([^\s()]+)(?:[^()]|\([^()]*\))*\) where\n((?:  .*\n|\n)*)", text):
            for n in re.finditer(r"(?m)^  (?:abbrev |unfoldable )*([\w-]+) :", m.group(3)):
                self.helpers[n.group(1)] = m.group(2)
        blocks = []
        for b in text.split("\n\n"):
            m = re.match(r"(?:--.*\n)*(\S+) : tie\.Need-(\S+)", b)
            if m and norm(m.group(2)) not in self.needs and "search rules" in b:
                # A goal that Rattle settles itself now.
                self.gone.add(m.group(1))
            else:
                blocks.append(b)
        text = "\n\n".join(self.block(b) for b in blocks)
        for g in self.gone:
            text = re.sub(r"\n?[ \t]*(?<=[\s(])" + re.escape(g) + r"(?=[\s)])", "", text)
        def tie(m):
            to = self.label(m.group(2))
            if not to and m.group(2) not in ("spec", "close"):
                said.append(m.group(2))
            return m.group(1) + "." + (to or m.group(2))
        text = re.sub(r"\b(tie|lts)\.([^\s(){},;.]+)", tie, text)
        def name(m):
            return own.get(m.group(0), m.group(0))
        lines = []
        for line in text.split("\n"):
            if line.startswith(("use ", "--")):
                lines.append(line)
            else:
                lines.append(re.sub(r"(?<![^\s(){}\[\],;])[^\s(){}\[\],;.]+(?![^\s(){}\[\],;])", name, line))
        return "\n".join(lines)


def main(file, only):
    j = json.load(open(file, encoding="utf-8"))
    for base, dirs, files in os.walk("proofs"):
        for f in files:
            if f != "Proof.antt" and not base.endswith("/Proof"):
                continue
            folder = base[:-6] if base.endswith("/Proof") else base
            path = os.path.relpath(folder, "proofs").replace("/", ".")
            if only and path not in only:
                continue
            keys = [k for k in j if k.endswith("-proofs." + path + ".Lts")]
            if not keys:
                print(f"{folder}: no names")
                continue
            p = os.path.join(base, f)
            text = open(p, encoding="utf-8").read()
            said = []
            made = Names(j[keys[0]]).turn(text, said)
            for s in said:
                print(f"{p}: tie.{s} is unknown")
            if made != text:
                open(p, "w", encoding="utf-8").write(made)


if __name__ == "__main__":
    main(sys.argv[1], sys.argv[2:])
