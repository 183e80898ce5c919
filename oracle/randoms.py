"""Random programs: mostly well typed, sometimes not, with loops, labels and breaks in odd places, shared mutation, calls and templates.

`random_program(random)` gives an image and a budget that suffices for most. Some are programs of `limits.py` with numbers near the limits, some have damaged bits.
"""

import limits
from images import (
    Function, assign, binary, branches, break_, call, char, decl, field, float_bits, image, index, let, local, loop, name, object_, read, scope,
    set_to, template, tuple_, unsigned, value, vec,
)

INTEGERS = [0, 1, 2, 3, -1, -2, 5, 7, 10, 100]
GREAT = [62, 63, 64, 1 << 31, (1 << 32) - 1, 1 << 32, 1 << 62, limits.GREATEST, limits.LEAST, limits.LEAST + 1]
FLOATS = [0.0, -0.0, 1.0, 1.5, -2.25, 0.1, 1e308, 5e-324, float("inf"), float("-inf"), float("nan")]
TEXTS = ["", "a", "b", "aa", "é", "€", "😀", "channel-", "span "]
KEYS = ["", "a", "b", "aa", "é"]
OPS = ["+", "+", "-", "-", "*", "/", "<<", ">>"]
COMPARING = ["<", "<=", "==", ">", ">="]
KINDS = ["integer", "bool", "float", "text", "vec", "tuple", "object", "other"]

# What most programs declare first under each name: V is a vec of integers, O an object with an integer, a vec and V itself; W and P are the same two once more.
NAMES = {0: "integer", 1: "bool", 2: "vec", 3: "object", 4: "text", 5: "float", 6: "vec", 7: "object", 1_023: "integer"}
V, O, W, P = local(2), local(3), local(6), local(7)
INTEGER_TARGETS = [local(0), local(1_023), index(V, 0), index(V, 1), index(W, 0), index(W, 2), field(O, "a"), index(field(O, "b"), 0), index(field(P, ""), 1), field(P, "a")]
TARGETS = [*INTEGER_TARGETS, local(1), V, local(4), field(O, "aa"), field(O, "é"), field(O, "b"), index(V, 3), field(V, "a"), index(O, 0), field(field(O, "é"), "a")]

# Functions have the arguments from this name on.
FIRST_ARGUMENT = 1_010


class Maker:
    """Makes expressions of so many nodes, roughly."""

    def __init__(self, random, nodes, functions):
        self.random = random
        self.nodes = nodes
        self.functions = functions
        self.labels = []

    def pick(self, choices):
        return self.random.choice(choices)

    def chance(self, part):
        return self.random.random() < part

    def several(self, most):
        """A random number of turns, none once the nodes are used up."""
        return range(self.random.randint(0, most) if self.nodes > 0 else 0)

    # ---- names

    def declarations(self, part):
        """Each name with what it stands for, the part of them."""
        whole = object_(("a", self.pick(INTEGERS)), ("b", vec(1, 2)), ("", name(2)))
        given = {0: 0, 1: True, 2: vec(1, 2, 3), 3: whole, 4: "t", 5: 0.5, 6: name(2), 7: name(3), 1_023: self.pick(GREAT)}
        return [decl(tag, given[tag]) for tag in NAMES if self.chance(part)]

    def name(self, kind=None):
        """A name of this kind in most cases, where there is one."""
        fitting = [tag for tag, its in NAMES.items() if its == kind and self.chance(0.98)]
        return self.pick(fitting or list(NAMES))

    # ---- expressions by the kind of their value

    def expression(self, kind=None):
        self.nodes -= 1
        if kind is None or self.chance(0.01):
            kind = self.pick(KINDS)
        if self.nodes <= 0:
            return self.leaf(kind)
        return self.any_kind(kind) if self.chance(0.4) else getattr(self, kind)()

    def leaf(self, kind):
        if kind in NAMES.values() and self.chance(0.4):
            return name(self.name(kind))
        leaves = {"integer": self.pick(INTEGERS), "bool": self.chance(0.5), "float": self.pick(FLOATS), "text": self.pick(TEXTS), "other": None}
        boxes = {"vec": vec(), "tuple": tuple_(1), "object": object_()}
        return boxes[kind] if kind in boxes else value(leaves[kind])

    def any_kind(self, kind):
        ways = [
            lambda: name(self.name(kind)),
            lambda: read(self.pick(INTEGER_TARGETS) if kind == "integer" else local(self.name(kind))),
            lambda: read(self.pick(TARGETS)) if self.chance(0.2) else self.leaf(kind),
            lambda: self.scope(kind),
            lambda: branches(*self.arms(kind), default=self.scope(kind)),
            lambda: self.loop(kind, None),
            lambda: self.call(),
        ]
        return self.pick(ways)()

    def integer(self):
        if self.chance(0.4):
            return value(self.pick(INTEGERS if self.chance(0.97) else GREAT))
        return binary(self.pick(OPS), self.expression("integer"), self.expression("integer"))

    def bool(self):
        if self.chance(0.3):
            return value(self.chance(0.6))
        kind = self.pick(["integer", "integer", "float"])
        return binary(self.pick(COMPARING), self.expression(kind), self.expression(kind))

    def float(self):
        if self.chance(0.5):
            return value(self.pick(FLOATS))
        return binary(self.pick(OPS[:6]), self.expression("float"), self.expression("float"))

    def text(self):
        way = self.random.randrange(3)
        if way == 0:
            return value(self.pick(TEXTS))
        if way == 1:
            return binary("+", self.expression("text"), self.expression("text"))
        kinds = ["integer", "integer", "bool", "text", "text"] if self.chance(0.95) else KINDS
        return template(*[self.pick(TEXTS) if self.chance(0.4) else self.expression(self.pick(kinds)) for _ in self.several(4)])

    def vec(self):
        return vec(*[self.expression() for _ in self.several(4)])

    def tuple(self):
        return tuple_(self.expression(), *[self.expression() for _ in self.several(3)])

    def object(self):
        return object_(*[(self.pick(KEYS), self.expression()) for _ in self.several(4)])

    def other(self):
        numbers = unsigned(self.pick([0, 5, (1 << 64) - 1])), char(self.pick("aé€😀")), float_bits(0xFFF0_0000_0000_0001)
        return self.pick([value(None), value(self.pick([b"", b"\0\xff"])), *numbers])

    # ---- control

    def scope(self, kind=None):
        return scope(*self.instructions(), last=self.expression(kind) if kind or self.chance(0.5) else None)

    def instructions(self):
        return [self.instruction() for _ in self.several(4)]

    def instruction(self):
        self.nodes -= 1
        tag = self.name()
        if self.nodes <= 0:
            return decl(tag, self.leaf(NAMES[tag]))
        ways = [
            lambda: decl(tag, self.expression(NAMES[tag])),
            lambda: set_to(local(tag), self.expression(NAMES[tag])),
            lambda: set_to(self.pick(INTEGER_TARGETS), self.expression("integer")),
            lambda: set_to(self.pick([field(O, self.pick(KEYS)), index(V, self.random.randrange(3))]), self.expression()),
            lambda: assign(self.pick(OPS), self.pick(INTEGER_TARGETS if self.chance(0.95) else TARGETS), self.expression("integer")),
            lambda: self.counted(),
            lambda: branches(*self.arms(None), default=self.scope() if self.chance(0.5) else None),
            lambda: self.loop(None, self.condition()),
            lambda: self.loop(None, None),
            lambda: self.expression(),
        ]
        return self.pick(ways)()

    def loop(self, kind, condition):
        label = self.pick([0, 0, 1, 2, 1_023])
        self.labels.append(label)
        instructions = self.instructions()
        if self.chance(0.3):
            instructions.append(set_to(local(1_023), name(0)))
        if self.chance(0.3):
            instructions.append(branches((binary("<", self.random.randint(1, 4), name(0)), scope(self.break_(kind if condition is None else None)))))
        elif self.chance(0.8):
            instructions.append(self.break_(kind if condition is None else None))
        self.labels.pop()
        return loop(*instructions, condition=condition, label=label)

    def counted(self):
        """A loop that ends by itself unless its body changes the counter."""
        self.labels.append(0)
        turns = loop(*self.instructions(), assign("+", local(0), 1), condition=binary("<", name(0), self.random.randint(1, 9)))
        self.labels.pop()
        return scope(decl(0, 0), turns, last=name(0))

    def condition(self):
        if self.chance(0.2):
            given = binary("+", name(0), 1) if self.chance(0.5) else self.expression("integer")
            return let(given, 0 if self.chance(0.7) else None)
        if self.chance(0.05):
            return self.break_(None)
        return self.expression("bool")

    def arms(self, kind):
        return [(self.condition(), self.scope(kind) if self.chance(0.9) else scope(self.break_(kind))) for _ in self.several(3)]

    def break_(self, kind):
        """A break to one of the loops around, in most cases the nearest."""
        label = self.pick([0, 1, 1_023])
        if self.labels and self.chance(0.95):
            label = self.labels[-1] if self.chance(0.8) else self.pick(self.labels)
        given = None
        if kind or self.chance(0.1):
            given = self.break_(kind) if self.chance(0.05) else self.expression(kind)
        return break_(given, label=label)

    def call(self):
        if not self.functions:
            return self.leaf("integer")
        number = self.random.randrange(len(self.functions))
        count = self.functions[number] if self.chance(0.97) else self.random.randint(0, 3)
        return call(number, *[self.expression("integer") for _ in range(count)])


def program(random):
    counts = [random.randint(0, 3) for _ in range(random.randint(0, 3))]
    maker = Maker(random, random.choice([5, 15, 40, 120]), counts)
    root = maker.expression()
    if random.random() < 0.9:
        shown = [name(tag) for tag in NAMES if maker.chance(0.7)]
        root = scope(*maker.declarations(0.995), *maker.instructions(), last=vec(root, *shown) if maker.chance(0.5) else root)
    bodies = []
    for count in counts:
        maker.nodes = random.choice([3, 10, 30])
        whole = scope(*maker.declarations(0.95), *maker.instructions(), last=binary("+", name(FIRST_ARGUMENT), maker.expression("integer")))
        bodies.append(Function(whole if random.random() < 0.8 else maker.scope(), FIRST_ARGUMENT, count))
    return image(root, bodies)


def near(random, limit):
    return limit + random.randint(-3, 2)


def at_limit(random):
    """A random expression where a limit is near."""
    maker = Maker(random, random.choice([3, 10, 30]), [])
    inner = scope(*maker.declarations(0.9), *maker.instructions(), last=maker.expression()) if random.random() < 0.5 else maker.expression("vec")
    around = random.choice([vec, tuple_, lambda each: object_(("k", each)), lambda each: vec(None, each)])
    some = random.randint
    item = maker.leaf(maker.pick(KINDS))
    broken = loop(vec(*[None] * some(1, 14), break_()))
    ways = [
        lambda: limits.after_vecs(near(random, 1_020), last=inner),
        lambda: limits.after_object(near(random, 1_020), set_to(field(local(limits.BUILT), "a"), inner)),
        lambda: limits.after_text(last=template("x" * some(0, 3), inner)),
        lambda: limits.after_text(template("x" * some(0, 3)), last=binary("+", "x" * some(0, 1), "x" * some(0, 1))),
        lambda: limits.after_text(last=inner),
        lambda: limits.deep(near(random, 126), inner),
        lambda: limits.bound(some(0, 2), inner),
        lambda: limits.bound(some(0, 1), call(1, *[1] * some(0, 2)), Function(scope(), FIRST_ARGUMENT, 1)),
        lambda: limits.held(vec(*[None] * some(8, 15), inner)),
        lambda: limits.held(object_(*[("k", None)] * some(8, 15), ("a", inner))),
        lambda: limits.held(template(*[1] * some(13, 16), item)),
        lambda: limits.held(scope(broken, last=vec(*[None] * some(12, 16)))),
        lambda: limits.nested(near(random, 62), inner, around),
        lambda: limits.nested(near(random, 63), item, around),
        lambda: limits.long_target(near(random, 64), read),
    ]
    return random.choice(ways)()


def damaged(random, given):
    """The image with some bits turned, the header spared more often than not; sometimes cut or made longer."""
    given = bytearray(given)
    for _ in range(random.choice([1, 1, 1, 2, 4])):
        bit = random.randrange(64 if random.random() < 0.8 and len(given) > 8 else 0, 8 * len(given))
        given[bit // 8] ^= 128 >> bit % 8
    if random.random() < 0.05:
        given = given[:random.randrange(len(given))] if random.random() < 0.5 else given + b"\0"
    return bytes(given)


def random_program(random):
    given, budget = (at_limit(random), 10_000) if random.random() < 0.15 else (program(random), 2_000)
    return damaged(random, given) if random.random() < 0.15 else given, budget
