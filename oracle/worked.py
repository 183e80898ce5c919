#!/usr/bin/env python3
"""Writes the data of the program `worked`: images with the answers that they have to get.

  crates/worked/data/worked.txt   the worked programs of document 01, each at the greatest budget, at n, at n - 1 and at 0, where n is its
                                  steps. What 01 says of each stands in this file, and the answers of `evaluate.py` are compared with it.
                                  Then the list of crates/rules/specs/Marked.antt, which is proved there, entry by entry
  crates/worked/data/small.txt    the answers that came with document 01 (`small.txt` here)
  crates/worked/data/limits.txt   programs at each limit of document 01 and one past it (`limits.py`), some at several budgets
  crates/worked/stdout            what the program has to print: a line for each answer, and how many there are

Run:
  worked.py                       writes the four files, and the number of answers in each of the first three
"""

import os
import re
from typing import NamedTuple

import limits
import small
from evaluate import BYTES, WORDS, Answer, evaluate, hex_of
from images import binary, break_, decl, image, index, local, loop, name, object_, read, scope, set_to, vec

CRATES = os.path.join(os.path.dirname(os.path.dirname(os.path.abspath(__file__))), "crates")
CRATE = os.path.join(CRATES, "worked")
MARKED = os.path.join(CRATES, "rules", "specs", "Marked.antt")
DATA = os.path.join(CRATE, "data")
GREATEST_BUDGET = (1 << 64) - 1
OUT_LEN = 4_096
# Stores with a tail that has to stay as it was.
LONGER_WORDS, LONGER_BYTES = WORDS + 16, BYTES + 16
GREATEST, LEAST = (1 << 63) - 1, -(1 << 63)

FORM = """\
# {what}
# A line that begins with # is text. Every other line has nine words: the image, the budget, the lengths of the output, of the word store and of the
# byte store; the answer's number (0 for a value), its place, its steps, its output. Numbers are decimal; image and output are hex, - where there
# are no bytes.
"""


def signed(number):
    """The output for a signed number."""
    return bytes.fromhex(f"3{number & GREATEST_BUDGET:016x}0")


class Worked(NamedTuple):
    """A program of 01 with what 01 says of it: the refusal's number, or 0 and the output; and the steps."""

    name: str
    image: bytes
    number: int
    output: bytes
    steps: int


UNIT = b"\0"
# The image that 01 gives byte by byte.
TRUE = bytes.fromhex("10 00 01 00 10 00 00 01 48 00 00 00 00 00 00 00 10 00 00 00 00 00 00 00 00 01")
A, B = 1, 2


def of(shown, root, number, output, steps):
    return Worked(shown, image(root), number, output, steps)


def programs():
    first = index(local(A), 0)
    shared = scope(decl(A, vec(1)), decl(B, name(A)), set_to(index(local(B), 0), 2), last=read(first))
    cyclic = scope(decl(A, vec(1)), set_to(first, name(A)), last=name(A))
    entry = bytes.fromhex("a001000161") + signed(2)
    yield Worked("true", TRUE, 0, bytes.fromhex("18"), 1)
    yield of("7", 7, 0, bytes.fromhex("30 00 00 00 00 00 00 00 70"), 1)
    yield of("2 + 3", binary("+", 2, 3), 0, signed(5), 4)
    yield of("the greatest i64 + 1", binary("+", GREATEST, 1), 16, b"", 4)
    yield of("the least i64 / -1", binary("/", LEAST, -1), 17, b"", 4)
    yield of("1 << 63", binary("<<", 1, 63), 0, signed(LEAST), 4)
    yield of("1 << 64", binary("<<", 1, 64), 16, b"", 4)
    yield of("1 << -1", binary("<<", 1, -1), 18, b"", 4)
    yield of("while false {}", loop(condition=False), 0, UNIT, 3)
    yield of("loop {break 5}", loop(break_(5)), 0, signed(5), 6)
    yield of("while true {break 5}", loop(break_(5), condition=True), 14, b"", 7)
    yield of("'a: loop {break}", loop(break_(), label=1), 13, b"", 5)
    yield of("loop {'a: loop {break}}", loop(loop(break_(), label=1)), 0, UNIT, 8)
    yield of("{let a = [1]; let b = a; b.0 = 2; a.0}", shared, 0, signed(2), 13)
    yield of("{let v = [1]; v.0 = v; v}", cyclic, 26, b"", 10)
    yield of("loop {while (break) {}}", loop(loop(condition=break_())), 0, UNIT, 7)
    yield of("#{a: 1, a: 2}", object_(("a", 1), ("a", 2)), 0, entry, 3)


def line(given, budget, out_len, answer, words=LONGER_WORDS, bytes_=LONGER_BYTES):
    number, place, steps, output = answer
    return f"{hex_of(given)} {budget} {out_len} {words} {bytes_} {number} {place} {steps} {hex_of(output)}"


def lines_at(given, out_len, budgets):
    """A line for each budget, given as a function of the steps to the end; none twice."""
    steps = evaluate(given, GREATEST_BUDGET, out_len).steps
    for budget in dict.fromkeys(budgets(steps)):
        yield line(given, budget, out_len, evaluate(given, budget, out_len))


def worked_lines():
    assert image(True) == TRUE
    assert evaluate(image(binary("+", 2, 3)), 3, OUT_LEN) == Answer(6, 3, 3, b"")
    for program in programs():
        answer = evaluate(program.image, GREATEST_BUDGET, OUT_LEN)
        assert (answer.number, answer.output, answer.steps) == (program.number, program.output, program.steps), program.name
        yield f"# {program.name}"
        yield from lines_at(program.image, OUT_LEN, lambda steps: (GREATEST_BUDGET, steps, steps - 1, 0))


def marked_lines():
    """The entries of the list that `rules` proves: an image, a budget, number, place, steps and output."""
    listed = r"\(((?:0x\w\w ∷ )*)\[\]\)"
    with open(MARKED) as marked:
        text = marked.read()
    entries = re.findall(rf"-- (.*)\n +(?:∷ )?entry {listed} (\w+) (\d+) (\d+) (\d+) (?:{listed}|\[\])", text)
    assert len(entries) == len(re.findall(r"entry \(", text))
    for shown, given, budget, number, place, steps, output in entries:
        given, output = (bytes.fromhex("".join(re.findall(r"0x(\w\w)", each))) for each in (given, output))
        budget = GREATEST_BUDGET if budget == "enough" else int(budget)
        answer = Answer(int(number), int(place), int(steps), output)
        assert evaluate(given, budget, OUT_LEN) == answer, shown
        yield f"# {shown}"
        yield line(given, budget, OUT_LEN, answer)


def small_lines():
    for case in small.cases():
        assert evaluate(case.image, case.budget, case.out_len, case.words, case.bytes) == case.answer, case.name
        yield f"# {case.name}"
        yield line(case.image, case.budget, case.out_len, case.answer, case.words, case.bytes)


def limit_lines():
    for group, programs_of_group in limits.groups():
        yield f"# ---- {group}"
        for program in programs_of_group:
            yield f"# {program.name}"
            yield from lines_at(program.image, program.out_len, lambda steps: budgets_for(program, steps))


def budgets_for(program, steps):
    return (GREATEST_BUDGET, steps, steps - 1) if program.at_budgets or len(program.image) < 40 else (GREATEST_BUDGET,)


def write(file, what, lines):
    text = FORM.format(what=what) + "".join(each + "\n" for each in lines)
    os.makedirs(DATA, exist_ok=True)
    with open(os.path.join(DATA, file), "w") as data:
        data.write(text)
    shown = list(shown_lines(file, text))
    print(f"{file}: {len(shown)} answers")
    return shown


def shown_lines(file, text):
    """What the program prints of a file: the line, the answer's number, place and steps, the output's length."""
    for at, each in enumerate(text.splitlines(), 1):
        if not each.startswith("#"):
            *_, number, place, steps, output = each.split()
            yield f"{file}:{at} {number} {place} {steps} {len(output.strip('-')) // 2} ok"


def main():
    shown = [
        *write("worked.txt", "The worked programs of document 01, at the greatest budget, at n, n - 1 and 0; then the list of `rules`.", [*worked_lines(), "# ---- the list of rules", *marked_lines()]),
        *write("small.txt", "The answers that came with document 01 for small images.", small_lines()),
        *write("limits.txt", "Programs at each limit of document 01 and one past it.", limit_lines()),
    ]
    with open(os.path.join(CRATE, "stdout"), "w") as stdout:
        stdout.writelines(each + "\n" for each in (*shown, f"{len(shown)} right, 0 wrong"))


if __name__ == "__main__":
    main()
