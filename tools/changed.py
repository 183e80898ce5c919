#!/usr/bin/env python3
"""Lists what changed in public signatures, clauses, types and definitions since a commit, old above new.

usage, at the top: python3 tools/changed.py COMMIT
"""
import re
import subprocess
import sys


def git(*args):
    return subprocess.run(["git", *args], capture_output=True, text=True, check=True).stdout


def files(commit):
    names = (git("ls-tree", "-r", "--name-only", commit) if commit else git("ls-files")).split("\n")
    for name in names:
        m = re.fullmatch(r"crates/(\w+)/(src|specs)/(.*)\.(rt|antt)", name)
        if m:
            try:
                yield m.group(1), m.group(2), m.group(3), git("show", f"{commit}:{name}") if commit else open(name).read()
            except FileNotFoundError:
                pass


def squeeze(text):
    text = re.sub(r"(?m)^\s*(//|--|#\[)[^\n]*\n", "", text + "\n")
    return re.sub(r"\s+", " ", text).strip().replace("( ", "(").replace(", )", ")").replace(",)", ")")


def signatures(text, indent):
    """Name and signature with clauses of each public function at this indent: what stands before its body."""
    lines = text.split("\n")
    for number, line in enumerate(lines):
        m = re.match(indent + r"pub (?:extern \"C\" )?fn (\w+)", line)
        if not m:
            continue
        said = []
        for own in lines[number:]:
            is_clause = re.match(r"\s*(requires|ensures)\b", own)
            if own == indent + "{":
                break
            one_line = not is_clause and re.match(r"(.*\S)\s*\{(?:[^{}]*\})?$", own)
            said.append(one_line.group(1) if one_line else own)
            if one_line or own.rstrip().endswith(";"):
                break
        yield m.group(1), squeeze("\n".join(said))


def items(commit):
    out = {}
    for crate, kind, stem, text in files(commit):
        if kind == "src":
            for m in re.finditer(r"(?ms)^impl(?:<[^>]*>)?\s+(\w+)(?:<[^>]*>)?\s*\{(.*?)^\}", text):
                for name, said in signatures(m.group(2), "    "):
                    out[crate, "fn", f"{m.group(1)}::{name}"] = said
            for name, said in signatures(text, ""):
                out[crate, "fn", f"{stem.replace('/', '::')}::{name}".replace("lib::", "").replace("main::", "")] = said
            for f in re.finditer(r"(?m)^pub const (\w+)[^\n]*;", text):
                out[crate, "type", f.group(1)] = squeeze(f.group(0))
            for f in re.finditer(r"(?ms)^pub (enum|struct|trait) (\w+)(.*?)(?:^\}|;\n)", text):
                out[crate, "type", f.group(2)] = squeeze(f"pub {f.group(1)} {f.group(2)}{f.group(3)}") + " }"
        else:
            text = re.sub(r"(?m)^\s*(--[^\n]*|use [^\n]*|pub mod [^\n]*|module [^\n]* where)$", "\n", text)
            for block in re.split(r"\n\s*\n", text):
                m = re.match(r"\s*(?:abbrev |unfoldable )?pub (?:record |data )?([^\s:]+)", block)
                if m:
                    out[crate, "definition", f"{stem}.{m.group(1)}"] = squeeze(block)
    return out


def main():
    old, new = items(sys.argv[1]), items(None)
    crates = [line.split(":")[0].split()[0] for line in open("crates.txt") if line.strip() and not line.startswith("#")]
    for crate in crates:
        lines = []
        for key in sorted({k for k in [*old, *new] if k[0] == crate}, key=lambda k: (["type", "fn", "definition"].index(k[1]), k[2])):
            a, b = old.get(key), new.get(key)
            if a == b:
                continue
            lines += [f"- {a}"] * bool(a) + [f"+ {b}"] * bool(b) + [""]
        if lines:
            print(f"### `{crate}`\n\n```text\n" + "\n".join(lines).rstrip() + "\n```\n")


main()
