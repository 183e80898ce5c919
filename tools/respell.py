#!/usr/bin/env python3
"""Brings the repository's own definitions and lemmas to the spelling of today's Rattle: words in snake case, a dash only where a
lemma on lists joins the names of two functions, the proof of a function `f` as `f_spec`. Run once at the top, after the toolchain's port.py.

Functions of src/, exported names, strings and comments' sentences keep their words. Types and facts were in camel case already.
"""
import os
import re
import sys

KEYWORDS = r"(?:(?:abbrev|unfoldable|pub|data|record|ruleset|mutual|deriving)\s+)*"
NAME = r"[^\s(){};,.:λ→]+"
DECLARED = re.compile(r"^" + KEYWORDS + r"(" + NAME + r"(?:\s+" + NAME + r")*)\s*(?:[({][^=]*?[)}]\s*)*:\s")
TOKEN = re.compile(r"[^\s(){}\[\];,.:«»|`\"]+")
CLAUSE = re.compile(r"^\s*(ghost|requires|ensures)\b")
LISTS = ("length", "take", "drop", "set", "get_or")
# Lemmas that port.py gave the name of a definition.
LEMMAS = ("first_part", "has_room", "same_text", "sorted_entries")
# A cycle is named for what its members do.
CYCLES = {
    "ir_arm_ir_binary_ir_body_ir_branches_ir_build_ir_call_ir_called_ir_condition_ir_default_ir_expr_ir_item_ir_items_ir_last_ir_loop_ir_operand_ir_pass_ir_scope_ir_taken_ir_turn_ir_work": "evaluators",
    "write_any_write_entries_write_entry_write_items": "writers",
}


def files(top, *ends):
    for base, dirs, names in os.walk(os.path.join(top, "crates")):
        dirs[:] = sorted(d for d in dirs if d != "out")
        for name in sorted(names):
            if name.endswith(ends):
                yield os.path.join(base, name)


def snake(word):
    return re.sub(r"(?<=[a-z0-9])([A-Z])", lambda m: "_" + m.group(1).lower(), word)


def declared(text):
    """Names that a file declares."""
    lines = text.split("\n")
    for i, line in enumerate(lines):
        s = line.strip()
        if not s or s.startswith(("--", "use ", "pub use ", "unfolding")):
            continue
        m = DECLARED.match(s + " ")
        if not m:
            continue
        rest = s + " " + (lines[i + 1].strip() if i + 1 < len(lines) else "")
        # A goal's name is Rattle's, and is turned with the goal.
        if re.search(r":\s*(tie|goal)\.", rest):
            continue
        for name in m.group(1).split():
            yield name


def turned(old, functions):
    """The new spelling of a name."""
    parts = [snake(p) for p in old.split("-")]
    if len(parts) > 1 and parts[0] in LISTS and "_".join(parts[1:]) in functions:
        return parts[0] + "-" + "_".join(parts[1:])
    return "_".join(parts)


def bare(text):
    """Words that a file uses by themselves: not a module's path, and not a field."""
    text = re.sub(r"--.*", "", text)
    text = re.sub(r"(?m)^((?:pub |ghost )?use )[^{\n;]*", r"\1", text)
    return {t for t, dot in ((m.group(0), m.start() and text[m.start() - 1] == ".") for m in TOKEN.finditer(text)) if not dot}


def main(top):
    texts = {p: open(p, encoding="utf-8").read() for p in files(top, ".antt", ".rt")}
    names, functions, taken = set(), set(LISTS), set()
    for p, t in texts.items():
        if p.endswith(".antt"):
            found = set(declared(t))
            names |= found
            taken |= bare(t)
            if "/specs/" in p:
                functions |= {snake(n) for n in found if n[0].islower() and "-" not in n}
        else:
            taken |= set(re.findall(r"\b([a-z_0-9]+):(?!:)", t))
    for n in LEMMAS:
        taken.discard(n)
    # A binder in camel case is turned as well.
    names |= {t for t in taken if re.fullmatch(r"[a-z][a-z0-9]+([A-Z][a-z]+)+", t)}
    # A field of a record may be called as a parameter of a function.
    taken.discard("as_body")
    old = [n for n in names if n[0].isalpha() and n[0].islower() and turned(n, functions) != n]
    # A definition has the name before a lemma that says something of it.
    old.sort(key=lambda n: ("-" in n, n))
    new, back = {}, {}
    for n in old:
        to = turned(n, functions)
        while to in taken or to in back:
            to += "_lem"
        new[n], back[to] = to, n
    swap = lambda text: TOKEN.sub(lambda m: new.get(m.group(0), m.group(0)), text)
    for p, t in texts.items():
        if p.endswith(".antt"):
            for n in LEMMAS:
                t = re.sub(r"(?<![\w.-])" + n + r"(?![\w.-])", n + "_lem", t)
            made = swap(t)
        else:
            made, inside = [], False
            for line in t.split("\n"):
                inside = bool(CLAUSE.match(line)) or (inside and line.startswith("        "))
                made.append(swap(line) if inside else line)
            made = "\n".join(made)
        for was, to in CYCLES.items():
            made = made.replace(was, to)
        if made != texts[p]:
            with open(p, "w", encoding="utf-8") as f:
                f.write(made)
    for was, to in CYCLES.items():
        for base, dirs, _ in list(os.walk(os.path.join(top, "crates"))):
            for d in dirs:
                if d == "+" + was:
                    os.rename(os.path.join(base, d), os.path.join(base, "+" + to))
    for n in old:
        print(n, new[n])


if __name__ == "__main__":
    main(sys.argv[1] if len(sys.argv) > 1 else ".")
