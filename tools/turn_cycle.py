#!/usr/bin/env python3
"""Turns the hand-written proof of a cycle of functions into answers, printed to standard output.

usage: turn_cycle.py NAMES.json PREFIXED FILE..   PREFIXED is 1 where the cycle has several functions, so that a goal's name begins with its function's
"""
import json
import re
import sys

from turn_proofs import Names, norm


def main(file, prefixed, paths):
    j = json.load(open(file, encoding="utf-8"))
    for p in paths:
        text = open(p, encoding="utf-8").read()
        alias = {m.group(2): m.group(1) for m in re.finditer(r"(?m)^use \S+\.Lts-(\w+) as (\S+)$", text)}
        said = []
        names = {}
        for block in text.split("\n\n"):
            m = re.match(r"(?s)(?:--[^\n]*\n)*(?:pub )?(\S+) : \(t : ℕ\) → (\S+)\.Need-(\S+) (.*)", block)
            if not m or m.group(2) not in alias:
                said.append(block)
                continue
            f = alias[m.group(2)]
            if f not in names:
                key = [k for k in j if k.endswith(".Lts-" + f)][0]
                names[f] = Names(j[key])
                names[f].shift(text)
            n = names[f]
            to = n.needs.get(norm(m.group(3)))
            unfolding = re.search(r"(?m)^unfolding .*$", block)
            body = re.search(r"(?ms)^" + re.escape(m.group(1)) + r" t (\S+)(?: κs)? =(.*)", block)
            if body.group(2).strip() == "search rules":
                continue
            if to is None:
                print(f"-- GONE {f} {m.group(3)}")
                to = "GONE-" + m.group(3)
            goal = (f + "-" if prefixed else "") + to
            made = n.block(f"x : tie.Need-{m.group(3)}\nx {body.group(1)} ={body.group(2)}")
            made = made[made.index("\nx ") + 1:]
            # The measure of the call was the first part of what it required, and is found by itself now.
            made = re.sub(r", \w+\.requires\.0(?![\w.])", "", made)
            made = re.sub(r"omega \(arith\)", "omega arith", re.sub(r"\.requires\.1(?![\w])", ".requires", made))
            print(f"pub {goal} : goal.{goal}")
            if unfolding:
                print(unfolding.group(0))
            print(re.sub(r"^x (\S+) =", goal + r" t \1 =", made).rstrip())
            print()
        print("{-")
        print("\n\n".join(said))
        print("-}")


if __name__ == "__main__":
    main(sys.argv[1], sys.argv[2] == "1", sys.argv[3:])
