#!/usr/bin/env python3
"""Evaluation of an image, edition 1: an oracle for `gablestrand_evaluate`, which shares nothing with it.

It is written from document 01, 'Evaluation', 'Our additions' and 'Output', with docs/DECISIONS.md where that leaves a point
open, by someone who had read none of the crates' definitions of evaluation. It keeps to the words of the document rather than to speed: Python's own lists and dictionaries
are the shared values and the scopes, a break and a refusal are exceptions. Loading is `load.py`.

`evaluate(image, budget, out_len)` gives an Answer: number, place, steps, output. The number is 0 for a value, and the
output is then its encoding; it is empty for a refusal.

Run:
  evaluate.py < CASES       for each line 'IMAGE BUDGET OUT_LEN' (the image in hex, '-' for no bytes; what stands after the
                            third word is ignored), a line 'NUMBER PLACE STEPS OUTPUT'
`small.py` compares it with the answers that came with document 01.
"""

import math
import struct
import sys
from typing import NamedTuple

import load

WORDS, BYTES = 8_192, 16_384
DEPTH, CELLS, TEXT, BINDINGS, PENDING, NESTING = 128, 1_024, 16_384, 256, 512, 64
LEAST, GREATEST = -(1 << 63), (1 << 63) - 1

# Kinds of values, as in the output.
UNIT, BOOL, UNSIGNED, SIGNED, FLOAT, CHAR, TEXTUAL, OCTETS, VEC, TUPLE, OBJECT = range(11)

# Kinds of expressions that take once more after being entered.
TAKE_TWICE = {1, 2, 3, 4, 5, 6, 11, 12}

ADD, SUB, MUL, DIV, SHL, SHR = range(6)


class Answer(NamedTuple):
    number: int
    place: int
    steps: int
    output: bytes


class Value(NamedTuple):
    """A kind, and None, a bool, an int, a float, bytes, or, shared by all copies, a list (vec, tuple) or a dictionary (object)."""

    kind: int
    content: object


NOTHING = Value(UNIT, None)


class Refused(Exception):
    def __init__(self, number, place):
        super().__init__(number, place)
        self.number, self.place = number, place


class Broken(Exception):
    """A break on its way outward: its node, and its value or None."""

    def __init__(self, node, value):
        super().__init__(node, value)
        self.node, self.value = node, value


def in_range(number, place):
    if not LEAST <= number <= GREATEST:
        raise Refused(16, place)
    return number


def quotient(x, y, place):
    """Truncated toward zero."""
    if y == 0 or x == LEAST and y == -1:
        raise Refused(17, place)
    whole = abs(x) // abs(y)
    return whole if (x < 0) == (y < 0) else -whole


def shifted(op, x, y, place, operand):
    if not 0 <= y <= 4_294_967_295:
        raise Refused(18, operand)
    if y >= 64:
        raise Refused(16, place)
    if op == SHR:
        return x >> y
    low = x << y & (1 << 64) - 1
    return low - (1 << 64) if low > GREATEST else low


def signed_result(op, x, y, place, operand):
    """x op y for the ops 0 to 5, which binary and assign share; `operand` is the place of a bad shift operand."""
    if op == ADD:
        return in_range(x + y, place)
    if op == SUB:
        return in_range(x - y, place)
    if op == MUL:
        return in_range(x * y, place)
    if op == DIV:
        return quotient(x, y, place)
    return shifted(op, x, y, place, operand)


def float_result(op, x, y):
    if op == ADD:
        return x + y
    if op == SUB:
        return x - y
    if op == MUL:
        return x * y
    if y != 0 or math.isnan(y):
        return x / y
    if x == 0 or math.isnan(x):
        return math.nan
    return math.copysign(math.inf, x) * math.copysign(1.0, y)


# The ops 6 to 10: Python compares floats as IEEE 754 does.
COMPARISONS = {6: lambda x, y: x < y, 7: lambda x, y: x <= y, 8: lambda x, y: x == y, 9: lambda x, y: x > y, 10: lambda x, y: x >= y}


class Run:
    """One evaluation of a loaded image."""

    def __init__(self, image, budget):
        self.image = load.Image(image)
        self.nodes = [None] + [self.image.node(n) for n in range(1, self.image.N + 1)]
        self.budget = budget
        self.steps = 0
        self.scopes = [{}]
        self.floor = 0
        self.pending = self.cells = self.text = 0

    # ---- takes and limits

    def take(self, n):
        if self.steps == self.budget:
            raise Refused(6, n)
        self.steps += 1

    def enter(self, n, depth):
        if depth > DEPTH:
            raise Refused(7, n)
        self.take(n)

    def take_cells(self, count, place):
        if self.cells + count > CELLS:
            raise Refused(8, place)
        self.cells += count

    def built(self, text, place):
        if self.text + len(text) > TEXT:
            raise Refused(9, place)
        self.text += len(text)
        return Value(TEXTUAL, text)

    def pend(self, n):
        if self.pending == PENDING:
            raise Refused(11, n)
        self.pending += 1

    def live(self):
        return sum(len(scope) for scope in self.scopes)

    # ---- parts of the image

    def chain(self, n):
        while n != 0:
            yield n
            n = self.nodes[n].next

    def text_of(self, k):
        payload = self.image.literal(k)[2]
        start = self.image.text_at + (payload >> 16)
        return self.image.bytes[start:start + (payload & 0xFFFF)]

    def literal(self, k):
        kind, _, payload = self.image.literal(k)
        if kind == UNIT:
            return NOTHING
        if kind == BOOL:
            return Value(BOOL, payload == 1)
        if kind == SIGNED:
            return Value(SIGNED, payload - (1 << 64) if payload > GREATEST else payload)
        if kind == FLOAT:
            return Value(FLOAT, struct.unpack(">d", struct.pack(">Q", payload))[0])
        if kind in (TEXTUAL, OCTETS):
            return Value(kind, self.text_of(k))
        return Value(kind, payload)

    # ---- names

    def declare(self, name, value, place):
        scope = self.scopes[-1]
        if name not in scope and self.live() == BINDINGS:
            raise Refused(10, place)
        scope[name] = value

    def scope_with(self, name, place):
        for scope in reversed(self.scopes[self.floor:]):
            if name in scope:
                return scope
        raise Refused(20, place)

    # ---- targets

    def read_target(self, t):
        node = self.nodes[t]
        if node.kind == 21:
            return self.scope_with(node.tag, t)[node.tag]
        value = self.read_target(node.a)
        if node.kind == 23:
            return self.items_at(value, node.b, t)[node.b]
        if value.kind != OBJECT:
            raise Refused(23, node.a)
        key = self.text_of(node.b)
        if key not in value.content:
            raise Refused(21, node.a)
        return value.content[key]

    def items_at(self, value, index, place):
        if value.kind not in (VEC, TUPLE):
            raise Refused(23, place)
        if index >= len(value.content):
            raise Refused(22, place)
        return value.content

    def written(self, t):
        """What a target that is set or assigned to names: a scope, list or dictionary, and the key in it. The key of a field may be absent."""
        node = self.nodes[t]
        if node.kind == 21:
            return self.scope_with(node.tag, t), node.tag
        value = self.read_target(node.a)
        if node.kind == 23:
            return self.items_at(value, node.b, t), node.b
        if value.kind != OBJECT:
            raise Refused(23, t)
        return value.content, self.text_of(node.b)

    # ---- expressions

    def expression(self, n, depth):
        self.enter(n, depth)
        node = self.nodes[n]
        if node.kind in TAKE_TWICE:
            self.take(n)
        return EXPRESSIONS[node.kind](self, n, node, depth)

    def body(self, n, depth):
        """The scope of an arm, a default or a loop, which takes once in all."""
        self.enter(n, depth)
        return self.scope(n, self.nodes[n], depth)

    def scope(self, n, node, depth):
        self.scopes.append({})
        for m in self.chain(node.a):
            self.expression(m, depth + 1)
        value = NOTHING if node.b == 0 else self.expression(node.b, depth + 1)
        self.scopes.pop()
        return value

    def binary(self, n, node, depth):
        left = self.expression(node.a, depth + 1)
        right = self.expression(node.b, depth + 1)
        kind, x, y = left.kind, left.content, right.content
        if kind == right.kind and kind in (SIGNED, FLOAT) and node.op in COMPARISONS:
            return Value(BOOL, COMPARISONS[node.op](x, y))
        if kind == right.kind == SIGNED:
            return Value(SIGNED, signed_result(node.op, x, y, n, node.b))
        if kind == right.kind == FLOAT and node.op not in (SHL, SHR):
            return Value(FLOAT, float_result(node.op, x, y))
        if kind == right.kind == TEXTUAL and node.op == ADD:
            return self.built(x + y, n)
        raise Refused(12, n)

    def decl(self, n, node, depth):
        self.declare(node.tag, self.expression(node.a, depth + 1), n)
        return NOTHING

    def set(self, n, node, depth):
        value = self.expression(node.b, depth + 1)
        within, key = self.written(node.a)
        if self.nodes[node.a].kind == 22 and key not in within:
            self.take_cells(1, node.a)
        within[key] = value
        return NOTHING

    def assign(self, n, node, depth):
        value = self.expression(node.b, depth + 1)
        within, key = self.written(node.a)
        if self.nodes[node.a].kind == 22 and key not in within:
            raise Refused(21, node.a)
        if within[key].kind != SIGNED or value.kind != SIGNED:
            raise Refused(19, n)
        within[key] = Value(SIGNED, signed_result(node.op, within[key].content, value.content, n, n))
        return NOTHING

    def template(self, n, node, depth):
        before = self.pending
        parts = []
        for m in self.chain(node.a):
            if self.nodes[m].kind == 17:
                parts.append(self.text_of(self.nodes[m].a))
            else:
                parts.append(self.shown(self.expression(m, depth + 1), m))
                self.pend(n)
        self.pending = before
        return self.built(b"".join(parts), n)

    def shown(self, value, place):
        if value.kind == SIGNED:
            return b"%d" % value.content
        if value.kind == BOOL:
            return b"true" if value.content else b"false"
        if value.kind == TEXTUAL:
            return value.content
        raise Refused(25 if value.kind == FLOAT else 12, place)

    def name(self, n, node, depth):
        return self.scope_with(node.tag, n)[node.tag]

    def read(self, n, node, depth):
        return self.read_target(node.a)

    def value(self, n, node, depth):
        return self.literal(node.a)

    def condition(self, c, depth):
        """Whether a condition of an expression at this depth holds."""
        node = self.nodes[c]
        if node.kind == 20:
            value = self.expression(node.a, depth + 1)
            if node.op == 1:
                self.declare(node.tag, value, c)
            return True
        value = self.expression(c, depth + 1)
        if value.kind != BOOL:
            raise Refused(15, c)
        return value.content

    def branches(self, n, node, depth):
        for arm in self.chain(node.a):
            self.scopes.append({})
            holds = self.condition(self.nodes[arm].a, depth)
            if holds:
                value = self.body(self.nodes[arm].b, depth + 1)
            self.scopes.pop()
            if holds:
                return value
        return NOTHING if node.b == 0 else self.body(node.b, depth + 1)

    def loop(self, n, node, depth):
        opened, pending = len(self.scopes), self.pending
        self.scopes.append({})
        value = None
        while True:
            self.scopes[-1].clear()
            if node.a != 0 and not self.condition(node.a, depth):
                break
            try:
                self.body(node.b, depth + 1)
            except Broken as broken:
                if self.nodes[broken.node].tag != node.tag:
                    raise
                value = broken.value
                break
        del self.scopes[opened:]
        self.pending = pending
        if value is not None and node.a != 0:
            raise Refused(14, n)
        return NOTHING if value is None else value

    def break_(self, n, node, depth):
        raise Broken(n, None if node.a == 0 else self.expression(node.a, depth + 1))

    def items(self, n, node, depth):
        """The values of a chain, each pending from now on."""
        values = []
        for m in self.chain(node.a):
            values.append(self.expression(m, depth + 1))
            self.pend(n)
        return values

    def sequence(self, n, node, depth):
        before = self.pending
        values = self.items(n, node, depth)
        self.pending = before
        self.take_cells(1 + len(values), n)
        return Value(VEC if node.kind == 13 else TUPLE, values)

    def object(self, n, node, depth):
        before = self.pending
        entries = {}
        for m in self.chain(node.a):
            value = self.expression(self.nodes[m].b, depth + 1)
            self.pend(n)
            entries[self.text_of(self.nodes[m].a)] = value
        self.pending = before
        self.take_cells(1 + len(entries), n)
        return Value(OBJECT, entries)

    def call(self, n, node, depth):
        before = self.pending
        values = self.items(n, node, depth)
        body, count, first, _ = self.image.function(node.tag)
        if len(values) != count:
            raise Refused(24, n)
        if self.live() + count > BINDINGS:
            raise Refused(10, n)
        floor, self.floor = self.floor, len(self.scopes)
        self.scopes.append(dict(zip(range(first, first + count), values)))
        value = self.unbroken(body, depth + 1)
        self.scopes.pop()
        self.floor = floor
        self.pending = before
        return value

    def unbroken(self, n, depth):
        """A root or a body, which no break leaves."""
        try:
            return self.expression(n, depth)
        except Broken as broken:
            raise Refused(13, broken.node)


EXPRESSIONS = {
    1: Run.scope,
    2: Run.binary,
    3: Run.decl,
    4: Run.set,
    5: Run.assign,
    6: Run.template,
    7: Run.name,
    8: Run.read,
    9: Run.value,
    10: Run.branches,
    11: Run.loop,
    12: Run.break_,
    13: Run.sequence,
    14: Run.sequence,
    15: Run.object,
    16: Run.call,
}


class Output:
    """The encoding of a value in the order of writing, as far as there is room."""

    def __init__(self, out_len, root):
        self.room = 8 * out_len
        self.root = root
        self.bits = []

    def put(self, width, number):
        if width > self.room:
            raise Refused(27, self.root)
        self.room -= width
        if width:
            self.bits.append(format(number, f"0{width}b"))

    def put_bytes(self, content):
        self.put(16, len(content))
        self.put(8 * len(content), int.from_bytes(content, "big"))

    def value(self, value, nesting):
        if nesting > NESTING:
            raise Refused(26, self.root)
        kind, content = value
        self.put(4, kind)
        if kind == BOOL:
            self.put(1, int(content))
        elif kind in (UNSIGNED, SIGNED):
            self.put(64, content & (1 << 64) - 1)
        elif kind == FLOAT:
            self.put(64, 0x7FF8 << 48 if content != content else int.from_bytes(struct.pack(">d", content), "big"))
        elif kind == CHAR:
            self.put(21, content)
        elif kind in (TEXTUAL, OCTETS):
            self.put_bytes(content)
        elif kind in (VEC, TUPLE):
            self.put(12, len(content))
            for item in content:
                self.value(item, nesting + 1)
        elif kind == OBJECT:
            self.put(12, len(content))
            for key in sorted(content):
                self.put_bytes(key)
                self.value(content[key], nesting + 1)

    def bytes(self):
        bits = "".join(self.bits)
        bits += "0" * (-len(bits) % 8)
        return int(bits, 2).to_bytes(len(bits) // 8, "big")


def evaluate(image, budget, out_len, words=WORDS, bytes=BYTES):
    """The answer for an image and a budget, with an output and stores of these lengths."""
    if words < WORDS or bytes < BYTES:
        return Answer(5, 0, 0, b"")
    number, place = load.load(image)
    if number != 0:
        return Answer(number, place, 0, b"")
    run = Run(image, budget)
    root = run.image.root
    output = Output(out_len, root)
    try:
        output.value(run.unbroken(root, 1), 1)
    except Refused as refused:
        return Answer(refused.number, refused.place, run.steps, b"")
    return Answer(0, 0, run.steps, output.bytes())


def hex_of(content):
    return content.hex() or "-"


def main():
    for line in sys.stdin:
        image, budget, out_len = line.split()[:3]
        answer = evaluate(load.from_hex(image), int(budget), int(out_len))
        print(answer.number, answer.place, answer.steps, hex_of(answer.output))


# A level of depth is a few frames of Python's.
sys.setrecursionlimit(max(sys.getrecursionlimit(), 5_000))

if __name__ == "__main__":
    main()
