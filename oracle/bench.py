#!/usr/bin/env python3
"""Writes bench/images: programs without end, each for one part of evaluation, which `bench/evaluate.rs` runs until a budget is used up.

Run:
  bench.py                  writes the images, and for each its size
"""

import os

from evaluate import evaluate
from images import Function, assign, binary, branches, call, decl, field, image, index, local, loop, name, object_, read, scope, set_to, vec

IMAGES = os.path.join(os.path.dirname(os.path.dirname(os.path.abspath(__file__))), "bench", "images")
I, S, X, O, V, FIRST, SECOND = range(7)
BUDGET = 20_000

ONE_MORE = assign("+", local(I), 1)


def without_end(*instructions, functions=(), start=()):
    """A loop that counts its passes in I and does the rest."""
    return image(scope(decl(I, 0), *start, loop(*instructions, ONE_MORE)), functions)


def programs():
    third = binary("-", binary("*", name(I), 3), binary(">>", name(I), 1))
    half = set_to(local(X), binary("+", binary("*", name(X), 0.5), 1.5))
    small, odd = binary("<", name(I), 0), binary("==", name(I), 0)
    plus = Function(scope(last=binary("+", name(FIRST), name(SECOND))), FIRST, 2)
    fields = decl(O, object_(("offset", 0), ("step", 1), ("grid", vec(0, 0))))
    deep = index(field(local(O), "grid"), 1)
    yield "count", without_end()
    yield "while", image(scope(decl(I, 0), loop(ONE_MORE, condition=binary("<", name(I), (1 << 63) - 1))))
    yield "sums", without_end(set_to(local(S), binary("+", name(S), third)), start=[decl(S, 0)])
    yield "floats", without_end(half, start=[decl(X, 1.5)])
    yield "branches", without_end(branches((small, scope(last=1)), (odd, scope(last=2)), default=scope(last=3)))
    yield "calls", without_end(set_to(local(S), call(0, name(I), 1)), start=[decl(S, 0)], functions=[plus])
    yield "objects", without_end(assign("+", field(local(O), "offset"), read(field(local(O), "step"))), set_to(deep, name(I)), start=[fields])
    yield "vecs", without_end(set_to(index(local(V), 0), read(index(local(V), 2))), assign("+", index(local(V), 1), 1), start=[decl(V, vec(1, 2, 3))])


def main():
    os.makedirs(IMAGES, exist_ok=True)
    for shown, packed in programs():
        answer = evaluate(packed, BUDGET, 0)
        assert (answer.number, answer.steps) == (6, BUDGET), (shown, answer)
        with open(os.path.join(IMAGES, f"{shown}.image"), "wb") as file:
            file.write(packed)
        print(f"{shown}: {len(packed)} bytes")


if __name__ == "__main__":
    main()
