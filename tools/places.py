#!/usr/bin/env python3
"""Counts the places of each point of docs/DESIGN-PASS.md in a checkout.

usage: python3 tools/places.py [-v] [FOLDER]     -v names each place
"""
import collections
import glob
import os
import re
import sys

NONE = {"Outside", "Nowhere", "Nothing", "NoRoom", "Bad", "Unclear", "Not", "Refused", "Unlisted", "Nested", "Full", "Out", "Fails", "No"}
BY_NUMBER = [r"usize::MAX;", r"return 1025;", r"Lead\(0, 0, 0\)", r"_ => 16,", r"letter != 0", r"if len == 0"]
FACTS = [r"size_of h ≤ length image\.now", r"Fits run\.\w+ words\.\w+", r"Ready image\.now", r"8192 ≤ length words", r"IsNode image\.now", r"IsPlace ", r"length bytes\.old ≡ 16384", r"Sound image\.now",
         r"length \w+\.old ≡ 4096", r"Stops bytes\.now", r"Stops \(image_text"]
GROUPS = [r"image: &\[u8\],\s*h: Header", r"words: &(mut )?\[u64\],\s*(bytes: &(mut )?\[u8\],\s*)?run: &(mut )?\[u64; 16\]", r"bytes: &(mut )?\[u8\],\s*run: &(mut )?\[u64; 16\]", r"out: &mut \[u8\],\s*writing: bool",
          r"(at|bytes): usize,\s*bits: u32", r"(page|out): &mut \[u8\],\s*at: usize", r"names: &(mut )?\[u8; 4096\]"]
LENGTHS = [r"from: usize,\s*count: usize", r"\[u64; 16\]", r"\[u8; 4096\]", r"numbers: &(mut )?\[u64; 7\]", r"digits = \[0u8; \d+\];"]
SWITCHES = [r"(writing|as_hex|breaks|is_text): bool", r"match kind \{"]
BY_HAND = r"\bfn (wide\w*|byte|made|written|bound|signed|\w+_told|decimal|hex|hex_bytes|hex_byte|hex_digit|escaped|print_\w+|with_digit|budget_of|number_of|\w+_to_word|word_to_\w+)\b"


def strip(text):
    return re.sub(r"//[^\n]*", "", text)


def functions(text):
    for m in re.finditer(r"(?m)^( *)(?:pub )?(?:extern \"C\" )?fn (\w+)", text):
        end = re.compile(r"(?m)^" + m.group(1) + r"\}").search(text, m.end())
        if end:
            yield m.group(2), text[m.start():end.end()]


def shape(body):
    """A function's text without the names, numbers and types that are its own."""
    body = re.sub(r"(requires|ensures)[^\n]*", "", body)
    names, out = {}, []
    for token in re.findall(r"[A-Za-z_]\w*|\d\w*|b?'[^']*'|b?\"[^\"]*\"|\S", body):
        if re.match(r"[A-Za-z_\d'\"]|b['\"]", token) and token not in {"fn", "if", "else", "while", "let", "mut", "return", "for", "in", "match"}:
            token = names.setdefault(token, f"${len(names)}")
        out.append(token)
    return " ".join(out)


def main():
    loud = "-v" in sys.argv
    folder = next((a for a in sys.argv[1:] if a != "-v"), ".")
    counts, places, shapes = collections.Counter(), collections.defaultdict(list), collections.defaultdict(list)

    def found(point, where):
        counts[point] += 1
        places[point].append(where)

    for path in sorted(glob.glob(os.path.join(folder, "crates/*/src/**/*.rt"), recursive=True)):
        text = strip(open(path).read())
        short = os.path.relpath(path, os.path.join(folder, "crates")).replace("/src", "")

        def each(point, pattern, group=0, flags=0):
            for m in re.finditer(pattern, text, flags):
                found(point, f"{short}:{text.count(chr(10), 0, m.start()) + 1} {' '.join(m.group(group).split())}")

        for m in re.finditer(r"(?m)^(?:pub )?enum (\w+) \{(.*?)^\}", text, re.S):
            if NONE & set(re.findall(r"(?m)^\s+(\w+)", m.group(2))):
                found("1 own enums with a case for 'none' or 'refused'", f"{short}:{text.count(chr(10), 0, m.start()) + 1} {m.group(1)}")
        for p in BY_NUMBER:
            each("1 a number that stands for 'none'", p)
        each("1 kinds told by their numbers", r"\bkind (==|!=) \d+|\bmatch (kind|number)\b")
        for name, body in functions(text):
            if body.count("\n") > 4:
                shapes[shape(body)].append(f"{short} {name}")
        each("3 loops that are no `for`", r"(?m)^\s*(while|loop)\b[^\n]*")
        for m in re.finditer(r"#\[derive\(([^)]*)\)\]\s*(?:pub )?(?:enum|struct) (\w+)", text):
            if "PartialEq" not in m.group(1):
                found("4 types that derive no equality", f"{short} {m.group(2)}")
        each("4 conversions and printing by hand", BY_HAND, 1)
        for p in FACTS:
            each("5 a fact of one value in the clauses of many functions", p)
        for p in GROUPS:
            each("5 parameters that travel together", p)
        for p in LENGTHS:
            each("6 places with a length beside, arrays by number", p)
        for p in SWITCHES:
            each("7 a switch on which step to run", p)
    for same in shapes.values():
        if len(same) > 1:
            found("2 functions of one shape", " = ".join(same))
    for path in sorted(glob.glob(os.path.join(folder, "crates/*/proofs/**/*.antt"), recursive=True)):
        counts["8 lines of proofs"] += open(path).read().count("\n")
        if path.endswith("/Proof.antt"):
            found("8 proofs that walk the code by hand", os.path.relpath(path, folder))
        if path.endswith("/Answers.antt"):
            found("8 files of answers", os.path.relpath(path, folder))
    for point in sorted(counts):
        print(f"{counts[point]:6} {point}")
        if loud:
            for place in places[point]:
                print(f"         {place}")


main()
