#!/usr/bin/env python3
"""Writes samples/site.image, the constants of a site as docs/SAMPLE.md has them in source form.

Run:
  site.py                   writes the image; then its size, the steps that it takes, its value in readable form, and the output in hex
"""

import os

from evaluate import evaluate
from images import Function, assign, binary, branches, call, decl, field, image, index, local, loop, name, object_, read, scope, set_to, template, vec

SAMPLES = os.path.join(os.path.dirname(os.path.dirname(os.path.abspath(__file__))), "samples")
BUDGET, OUT_LEN = 1_000_000, 4_096

# Functions, their arguments, and names.
MICROMETRES, STEPS_OVER = 0, 1
WHOLE, REST, RANGE, STEP = range(4)
SITE, SPAN, SHIFT, OFFSETS, TRAVEL, GRID_STEP, LOGGER, STEPS, COVERED = range(4, 13)


def micrometres():
    return Function(scope(last=binary("+", binary("*", name(WHOLE), 1_000), name(REST))), WHOLE, 2)


def steps_over():
    turns = loop(assign("+", local(COVERED), name(STEP)), assign("+", local(STEPS), 1), condition=binary("<", name(COVERED), name(RANGE)))
    return Function(scope(decl(STEPS, 0), decl(COVERED, 0), turns, last=name(STEPS)), RANGE, 2)


def logger():
    grid = object_(("step", name(GRID_STEP)), ("count", call(STEPS_OVER, name(TRAVEL), name(GRID_STEP))))
    channel = template("S", name(SITE), "/span-", name(SPAN), "/deck")
    return object_(("channel", channel), ("offsets", name(OFFSETS)), ("grid", grid), ("scale", binary("<<", 1, name(SHIFT))))


def site():
    offsets = vec(call(MICROMETRES, 12, 345), call(MICROMETRES, -3, -250), call(MICROMETRES, 0, 875))
    travel = binary("-", read(index(local(OFFSETS), 0)), read(index(local(OFFSETS), 1)))
    fine = field(local(LOGGER), "fine")
    count = read(field(field(local(LOGGER), "grid"), "count"))
    return scope(
        decl(SITE, 17),
        decl(SPAN, 2),
        decl(SHIFT, 4),
        decl(OFFSETS, offsets),
        decl(TRAVEL, travel),
        decl(GRID_STEP, binary(">>", 4_000, name(SHIFT))),
        decl(LOGGER, logger()),
        assign("+", index(field(local(LOGGER), "offsets"), 2), call(MICROMETRES, 1, 500)),
        branches((binary("<", 50, count), scope(set_to(fine, True))), default=scope(set_to(fine, False))),
        last=name(LOGGER),
    )


class Readable:
    """A value of an output in readable form. Floats are their 16 hex digits."""

    def __init__(self, output):
        self.bits = "".join(f"{byte:08b}" for byte in output)
        self.at = 0

    def number(self, width):
        self.at += width
        return int(self.bits[self.at - width:self.at], 2)

    def bytes(self):
        return bytes(self.number(8) for _ in range(self.number(16)))

    def items(self):
        return ", ".join(self.value() for _ in range(self.number(12)))

    def entry(self):
        key = self.bytes().decode()
        return f'"{key}": {self.value()}'

    def value(self):
        ways = [
            lambda: "unit",
            lambda: "true" if self.number(1) else "false",
            lambda: f"{self.number(64)}u",
            lambda: str((self.number(64) + (1 << 63)) % (1 << 64) - (1 << 63)),
            lambda: f"{self.number(64):016x}",
            lambda: f"'{chr(self.number(21))}'",
            lambda: f'"{self.bytes().decode()}"',
            lambda: repr(self.bytes()),
            lambda: f"[{self.items()}]",
            lambda: f"({self.items()})",
            lambda: "{" + ", ".join(self.entry() for _ in range(self.number(12))) + "}",
        ]
        return ways[self.number(4)]()


def main():
    packed = image(site(), [micrometres(), steps_over()])
    os.makedirs(SAMPLES, exist_ok=True)
    with open(os.path.join(SAMPLES, "site.image"), "wb") as sample:
        sample.write(packed)
    answer = evaluate(packed, BUDGET, OUT_LEN)
    assert answer.number == 0, answer
    print(f"{len(packed)} bytes, {answer.steps} steps, {len(answer.output)} bytes of output")
    print(Readable(answer.output).value())
    print(answer.output.hex())


if __name__ == "__main__":
    main()
