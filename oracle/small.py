#!/usr/bin/env python3
"""Compares `evaluate.py` with the answers that came with document 01 for small images (`small.txt`, its form in its first lines).

Run:
  small.py [FILE]           compares every line; the last line is 'N compared, M differ', the exit status 1 where M is not 0.
"""

import os
import sys
from typing import NamedTuple

import load
from evaluate import Answer, evaluate

FILE = os.path.join(os.path.dirname(os.path.abspath(__file__)), "small.txt")


class Case(NamedTuple):
    image: bytes
    budget: int
    out_len: int
    words: int
    bytes: int
    answer: Answer
    name: str


def answer_of(words):
    if words[0] == "V":
        output = load.from_hex(words[3])
        assert len(output) == int(words[1])
        return Answer(0, 0, int(words[2]), output)
    return Answer(*(int(word) for word in words[1:4]), b"")


def cases(path=FILE):
    with open(path) as lines:
        for line in lines:
            if line.startswith("#") or not line.strip():
                continue
            case, _, name = line.partition(" # ")
            given, _, answer = case.partition(" -> ")
            image, *numbers = given.split()
            yield Case(load.from_hex(image), *map(int, numbers), answer_of(answer.split()), name.strip())


def main():
    compared = differ = 0
    for case in cases(*sys.argv[1:2]):
        found = evaluate(case.image, case.budget, case.out_len, case.words, case.bytes)
        compared += 1
        if found != case.answer:
            differ += 1
            print(f"{case.name}: {case.answer} in the file, {found} here")
    print(f"{compared} compared, {differ} differ")
    sys.exit(1 if differ else 0)


if __name__ == "__main__":
    main()
