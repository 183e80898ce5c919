#!/usr/bin/env python3
"""An assembler for images of edition 1: nested Python calls are the tree, `image(root, functions)` packs it.

    image(scope(decl(1, vec(1)), set_to(index(local(1), 0), 2), last=read(index(local(1), 0))))

is `{let a = [1]; a.0 = 2; a.0}` with a as the name 1. Where an expression stands, a Python value may stand for its literal: None
(unit), a bool, an int (signed), a float, a str (text), bytes; `unsigned`, `char` and `float_bits` make the others. In a template
a str is a part of its own (kind 17), and `value("..")` is an expression. Names, labels and functions are numbers.

Nodes are numbered as a walk meets them, the root first, then the bodies; equal literals are made one. Nothing is tested beyond
the width of each field, so that images that do not load can be made too.
"""

import struct
from typing import NamedTuple

BINARY = {op: number for number, op in enumerate("+ - * / << >> < <= == > >=".split())}
ASSIGN = {op: number for number, op in enumerate("+ - * / << >>".split())}


class Literal(NamedTuple):
    """A kind, and a payload or, for text and bytes, the bytes."""

    kind: int
    content: object


class Node(NamedTuple):
    """The fields a and b are None, a number, a Literal, a Node or, for a chain, a list of Nodes."""

    kind: int
    op: int = 0
    tag: int = 0
    a: object = None
    b: object = None


class Function(NamedTuple):
    body: Node
    first: int = 0
    count: int = 0


# ---- literals


def unsigned(number):
    return Node(9, a=Literal(2, number))


def float_bits(bits):
    return Node(9, a=Literal(4, bits))


def char(character):
    return Node(9, a=Literal(5, ord(character)))


def text_literal(text):
    return Literal(6, text.encode())


def literal_of(content):
    if content is None:
        return Literal(0, 0)
    if isinstance(content, bool):
        return Literal(1, int(content))
    if isinstance(content, int):
        return Literal(3, content & (1 << 64) - 1)
    if isinstance(content, float):
        return Literal(4, int.from_bytes(struct.pack(">d", content), "big"))
    if isinstance(content, str):
        return text_literal(content)
    return Literal(7, bytes(content))


def value(content):
    return Node(9, a=literal_of(content))


def expression(given):
    return given if isinstance(given, Node) else value(given)


def expressions(given):
    return [expression(each) for each in given]


def optional(given):
    """An expression, or nothing where none is given. Unit has to be asked for by `value(None)`."""
    return None if given is None else expression(given)


# ---- expressions


def scope(*instructions, last=None):
    return Node(1, a=expressions(instructions), b=optional(last))


def binary(op, left, right):
    return Node(2, op=BINARY[op], a=expression(left), b=expression(right))


def decl(tag, given):
    return Node(3, tag=tag, a=expression(given))


def set_to(target, given):
    return Node(4, a=target, b=expression(given))


def assign(op, target, given):
    return Node(5, op=ASSIGN[op], a=target, b=expression(given))


def template(*components):
    return Node(6, a=[Node(17, a=text_literal(each)) if isinstance(each, str) else expression(each) for each in components])


def name(tag):
    return Node(7, tag=tag)


def read(target):
    return Node(8, a=target)


def branches(*arms, default=None):
    """Arms are pairs of a condition and a scope."""
    return Node(10, a=[Node(18, a=expression(condition), b=body) for condition, body in arms], b=default)


def loop(*instructions, condition=None, label=0):
    return Node(11, tag=label, a=optional(condition), b=scope(*instructions))


def break_(given=None, label=0):
    return Node(12, tag=label, a=optional(given))


def vec(*items):
    return Node(13, a=expressions(items))


def tuple_(*items):
    return Node(14, a=expressions(items))


def object_(*entries):
    """Entries are pairs of a key and an expression."""
    return Node(15, a=[Node(19, a=text_literal(key), b=expression(given)) for key, given in entries])


def call(function, *arguments):
    return Node(16, tag=function, a=expressions(arguments))


# ---- conditions and targets


def let(given, tag=None):
    """The condition `let tag = given`, or `let _ = given` without a name."""
    return Node(20, op=0 if tag is None else 1, tag=tag or 0, a=expression(given))


def local(tag):
    return Node(21, tag=tag)


def field(target, key):
    return Node(22, a=target, b=text_literal(key))


def index(target, number):
    return Node(23, a=target, b=number)


# ---- packing


def packed(*fields):
    """Pairs of a number and its width, one after another, as bytes."""
    bits = size = 0
    for number, width in fields:
        assert 0 <= number < 1 << width, f"{number} does not fit {width} bits"
        bits = bits << width | number
        size += width
    return bits.to_bytes(size // 8, "big")


class Assembler:
    def __init__(self):
        self.nodes = []
        self.literals = {}
        self.text = b""

    def literal(self, literal):
        return self.literals.setdefault(literal, len(self.literals))

    def field(self, given):
        if given is None:
            return 0
        if isinstance(given, Literal):
            return self.literal(given)
        if isinstance(given, Node):
            return self.node(given)
        return self.chain(given) if isinstance(given, list) else given

    def node(self, node):
        record = [node.kind, node.op, node.tag, 0, 0, 0]
        self.nodes.append(record)
        number = len(self.nodes)
        record[3] = self.field(node.a)
        record[4] = self.field(node.b)
        return number

    def chain(self, nodes):
        numbers = [0]
        for node in nodes:
            numbers.append(self.node(node))
            if len(numbers) > 2:
                self.nodes[numbers[-2] - 1][5] = numbers[-1]
        return numbers[1] if nodes else 0

    def literal_record(self, literal):
        if literal.kind not in (6, 7):
            return packed((literal.kind, 4), (0, 12), (literal.content, 64))
        start = len(self.text)
        self.text += literal.content
        return packed((literal.kind, 4), (0, 12), (0, 32), (start, 16), (len(literal.content), 16))

    def image(self, root, functions):
        root_number = self.node(root)
        functions = [packed((self.node(each.body), 12), (each.count, 4), (each.first, 10), (0, 6)) for each in functions]
        nodes = [packed(*zip(record, (5, 4, 10, 12, 12, 12)), (0, 9)) for record in self.nodes]
        literals = [self.literal_record(literal) for literal in self.literals]
        counts = (len(functions), 8), (len(nodes), 12), (len(literals), 12), (len(self.text), 16)
        header = packed((1, 4), *counts, (root_number, 12))
        return b"".join([header, *functions, *nodes, *literals, self.text])


def image(root, functions=()):
    return Assembler().image(expression(root), functions)
