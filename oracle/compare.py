#!/usr/bin/env python3
"""Compares the library with `evaluate.py` on random programs (`randoms.py`) and on files of answers.

Each program is run until its end or a budget; where it comes to an end after n steps, at 0, 1, n - 1, n, n + 1 and a large budget. Compared are number, place, steps and length,
the output with the bytes past its length, and the stores: zero as far as document 01 says, as found beyond; after 5 all as found.
What stands in the stores and the output before each call is random.

The library is a shared object, made from the root of the repository by

    bindings/staticlib gablestrand
    cc -shared -o target/libgablestrand.so -Wl,--whole-archive target/staticlib/libgablestrand.a -Wl,--no-whole-archive

Run:
  compare.py [--library FILE] [--seed N] [--count N]     so many random programs, 2,000 by default; the default library is target/libgablestrand.so
  compare.py [--library FILE] --answers FILE..           the lines of crates/worked/data/*.txt instead

A case that differs is written in the form that `evaluate.py` reads, with both answers. The last line is 'N compared, M differ', the
exit status 1 where M is not 0; before it stands how often each number was the answer.
"""

import argparse
import collections
import ctypes
import os
import random
import sys

import load
import randoms
from evaluate import BYTES, WORDS, Answer, evaluate, hex_of

LIBRARY = os.path.join(os.path.dirname(os.path.dirname(os.path.abspath(__file__))), "target", "libgablestrand.so")
LARGE = 1_000_000  # finite, so that a library that does not end where it should is told and not waited for
BEYOND = 3  # items past the lengths that 01 asks for
NOISE = random.Random(1).randbytes(8 * (WORDS + BEYOND) + BYTES + BEYOND + 65_536)


class Library:
    def __init__(self, path):
        self.function = ctypes.CDLL(path).gablestrand_evaluate
        pointer, size, number = ctypes.c_void_p, ctypes.c_size_t, ctypes.c_uint64
        self.function.restype = ctypes.c_uint8
        self.function.argtypes = [pointer, size, number, pointer, size, pointer, size, pointer, size] + [ctypes.POINTER(number)] * 3

    def call(self, image, budget, words, bytes_, out):
        """Number, place, steps and length; the buffers change."""
        place, steps, length = ctypes.c_uint64(77), ctypes.c_uint64(77), ctypes.c_uint64(77)
        given = ctypes.create_string_buffer(image, len(image))
        lent = [part for buffer in (words, bytes_, out) for part in (buffer, len(buffer) // (8 if buffer is words else 1))]
        number = self.function(given, len(image), budget, *lent, place, steps, length)
        assert given.raw == image, "the image was changed"
        return number, place.value, steps.value, length.value


def noise(length, at):
    return ctypes.create_string_buffer(NOISE[at:at + length], length)


def left(before, count):
    """A store as it has to be found after a call that touches it: its first bytes zero, the others as before."""
    return bytes(count) + before[count:]


class Comparison:
    def __init__(self, library):
        self.library = library
        self.compared = self.differ = 0
        self.numbers = collections.Counter()

    def case(self, image, budget, out_len, words, bytes_, expected):
        lent = noise(8 * words, budget % 8), noise(bytes_, budget % 11), noise(out_len, budget % 13)
        before = [buffer.raw for buffer in lent]
        number, place, steps, length = self.library.call(image, budget, *lent)
        found = Answer(number, place, steps, lent[2].raw[:length])
        self.compared += 1
        self.numbers[expected.number] += 1
        faults = [] if found == expected and length == len(expected.output) else [f"{found} and length {length}, expected {expected}"]
        if lent[2].raw[len(expected.output):] != before[2][len(expected.output):]:
            faults.append("output past the length")
        touched = (8 * WORDS, BYTES) if expected.number != 5 else (0, 0)
        faults += [f"{what} not as they have to be left" for what, buffer, was, count in zip(("words", "bytes"), lent, before, touched) if buffer.raw != left(was, count)]
        if faults:
            self.differ += 1
            print(hex_of(image), budget, out_len, f"# {words} words, {bytes_} bytes:", "; ".join(faults))

    def evaluated(self, image, budget, out_len, words=WORDS, bytes_=BYTES):
        self.case(image, budget, out_len, words, bytes_, evaluate(image, budget, out_len, words, bytes_))

    def program(self, image, large, chosen):
        answer = evaluate(image, large, 4_096)
        out_len = chosen.choice([4_096, 4_096, len(answer.output), max(len(answer.output) - 1, 0), chosen.randrange(40), chosen.randrange(120, 140), 0])
        budgets = {large} if answer.number == 6 else {0, 1, max(answer.steps, 1) - 1, answer.steps, answer.steps + 1, LARGE}
        for budget in sorted(budgets):
            self.evaluated(image, budget, out_len, WORDS + chosen.choice([0, 0, BEYOND]), BYTES + chosen.choice([0, 0, BEYOND]))
        if chosen.random() < 0.02:
            short = chosen.choice([(WORDS - 1, BYTES), (WORDS, BYTES - 1), (WORDS - 1, BYTES - 1), (0, 0)])
            self.evaluated(image, large, out_len, *short)

    def answers(self, path):
        with open(path) as lines:
            for line in lines:
                if not line.startswith("#"):
                    image, *numbers, output = line.split()
                    budget, out_len, words, bytes_, *answer = map(int, numbers)
                    self.case(load.from_hex(image), budget, out_len, words, bytes_, Answer(*answer, load.from_hex(output)))

    def told(self):
        print(", ".join(f"{number}: {count}" for number, count in sorted(self.numbers.items())))
        print(f"{self.compared} compared, {self.differ} differ")
        return 1 if self.differ else 0


def main():
    options = argparse.ArgumentParser()
    options.add_argument("--library", default=LIBRARY)
    options.add_argument("--seed", type=int, default=1)
    options.add_argument("--count", type=int, default=2_000)
    options.add_argument("--answers", nargs="+", default=[])
    given = options.parse_args()
    comparison = Comparison(Library(given.library))
    for path in given.answers:
        comparison.answers(path)
    if not given.answers:
        chosen = random.Random(given.seed)
        for _ in range(given.count):
            comparison.program(*randoms.random_program(chosen), chosen)
    sys.exit(comparison.told())


if __name__ == "__main__":
    main()
