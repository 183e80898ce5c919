#!/usr/bin/env python3
"""Names the parked must-fail edits (wip/edits.patch) whose text no longer stands once in today's code.

usage, at the top: python3 tools/parked.py
"""
import os
import re

patch = open("wip/edits.patch").read()
bad = 0
edits = re.split(r"(?m)^diff --git ", patch)[1:]
for edit in edits:
    path = re.search(r"(?m)^\+\+\+ b/(\S+)", edit).group(1)
    crate, texts, why, last = path.split("/")[1], {}, "", None
    for line in (x[1:] for x in edit.split("\n") if x.startswith("+") and not x.startswith("+++")):
        if line.startswith("file: "):
            name = f"crates/{crate}/{line[6:].strip()}"
        elif line.startswith("old: "):
            if not os.path.exists(name):
                why = f"there is no {name}"
                break
            text = texts.get(name) or open(name).read()
            if text.count(line[5:].strip()) != 1:
                why = line[5:]
                break
            last = (name, line[5:], text)
        elif line.startswith("new: ") and last:
            texts[last[0]] = last[2].replace(last[1], line[5:], 1)
    if why:
        bad += 1
        print(f"{path}: {why}")
print(f"{len(edits)} parked, {bad} whose text is that of before")
