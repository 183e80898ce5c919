#!/usr/bin/env python3
"""Loading of an image, edition 1: an oracle for the crate `image`, which shares nothing with it.

It is written from document 01, 'Image' and 'Numbers', with docs/DECISIONS.md where that leaves a point open; its
author knew the crate's definitions (docs/DIFFERENCES.md says what that means). It keeps to the words of the document rather than to speed: the nodes at fault are collected
as a set, and the place is the least of them. `load(image)` gives the pair (number, place): (0, 0) for an image
that loads, else the refusal 1 to 4 and its place.

Run:
  load.py < IMAGES          for each line of hex ('-' for no bytes; what stands after the first word is ignored),
                            a line 'NUMBER PLACE'
  load.py --vectors FILE    compares with the answers of a file of vectors, whose lines are
                            'IMAGE BUDGET OUT WORDS BYTES -> V ..|R NUMBER PLACE STEPS # comment': refusals 1 to 4
                            must be the same, and every other answer but 5 must be of an image that loads.
                            The last line is 'N compared, M differ'; the exit status is 1 where M is not 0.
"""

import sys

LOADS = (0, 0)


def fields(image, at, *widths):
    """The fields of these widths that stand one after another from byte `at` on, most significant bit first."""
    size = sum(widths)
    assert size % 8 == 0
    bits = int.from_bytes(image[at:at + size // 8], "big")
    found = []
    for width in widths:
        size -= width
        found.append(bits >> size & (1 << width) - 1)
    return found


class Node:
    def __init__(self, image, at):
        self.at = at
        self.kind, self.op, self.tag, self.a, self.b, self.next, self.zero = fields(image, at, 5, 4, 10, 12, 12, 12, 9)


# What may be named: the kinds of 01's table.
EXPRESSIONS = set(range(1, 17))
COMPONENTS = EXPRESSIONS | {17}
CONDITIONS = EXPRESSIONS | {20}
TARGETS = {21, 22, 23}
SCOPES = {1}
ARMS = {18}
ENTRIES = {19}

# Number of ops, where it is not 1.
OPS = {2: 11, 5: 6, 20: 2}

# Kinds whose tag is a name, a label or, for 16, a function.
TAGGED = {3, 7, 11, 12, 16, 20, 21}

# The node references of each kind: field, kinds that fit, whether it is needed.
REFERENCES = {
    1: [("a", EXPRESSIONS, False), ("b", EXPRESSIONS, False)],
    2: [("a", EXPRESSIONS, True), ("b", EXPRESSIONS, True)],
    3: [("a", EXPRESSIONS, True)],
    4: [("a", TARGETS, True), ("b", EXPRESSIONS, True)],
    5: [("a", TARGETS, True), ("b", EXPRESSIONS, True)],
    6: [("a", COMPONENTS, False)],
    7: [],
    8: [("a", TARGETS, True)],
    9: [],
    10: [("a", ARMS, False), ("b", SCOPES, False)],
    11: [("a", CONDITIONS, False), ("b", SCOPES, True)],
    12: [("a", EXPRESSIONS, False)],
    13: [("a", EXPRESSIONS, False)],
    14: [("a", EXPRESSIONS, True)],
    15: [("a", ENTRIES, False)],
    16: [("a", EXPRESSIONS, False)],
    17: [],
    18: [("a", CONDITIONS, True), ("b", SCOPES, True)],
    19: [("b", EXPRESSIONS, True)],
    20: [("a", EXPRESSIONS, True)],
    21: [],
    22: [("a", TARGETS, True)],
    23: [("a", TARGETS, True)],
}

# Kinds whose a heads a chain, and what the chain holds.
CHAINS = {1: EXPRESSIONS, 6: COMPONENTS, 10: ARMS, 13: EXPRESSIONS, 14: EXPRESSIONS, 15: ENTRIES, 16: EXPRESSIONS}

# The field that names a literal, and whether it has to be text.
LITERALS = {9: ("a", False), 17: ("a", True), 19: ("a", True), 22: ("b", True)}

# The field that is any number.
NUMBERS = {23: "b"}


class Image:
    def __init__(self, image):
        self.bytes = image
        self.edition, self.F, self.N, self.L, self.T, self.root = fields(image, 0, 4, 8, 12, 12, 16, 12)
        self.nodes_at = 8 + 4 * self.F
        self.literals_at = self.nodes_at + 8 * self.N
        self.text_at = self.literals_at + 10 * self.L
        self.size = self.text_at + self.T

    def function(self, f):
        """body, count, first, zero"""
        return fields(self.bytes, 8 + 4 * f, 12, 4, 10, 6)

    def node(self, n):
        return Node(self.bytes, self.nodes_at + 8 * (n - 1))

    def literal(self, k):
        """kind, zero, payload"""
        return fields(self.bytes, self.literals_at + 10 * k, 4, 12, 64)

    # ---- refusal 3

    def function_is_bad(self, f):
        body, count, first, zero = self.function(f)
        return body == 0 or body > self.N or first + count > 1024 or zero != 0

    def node_is_bad(self, node):
        if node.kind not in REFERENCES or node.op >= OPS.get(node.kind, 1) or node.zero != 0 or node.next > self.N:
            return True
        listed = {"tag"} if node.kind in TAGGED else set()
        if node.kind == 20 and node.op == 0:
            listed = set()
        for field, _, needed in REFERENCES[node.kind]:
            listed.add(field)
            to = getattr(node, field)
            if to > self.N or needed and to == 0:
                return True
        if node.kind in LITERALS:
            field, text = LITERALS[node.kind]
            listed.add(field)
            number = getattr(node, field)
            if number >= self.L or text and self.literal(number)[0] != 6:
                return True
        if node.kind in NUMBERS:
            listed.add(NUMBERS[node.kind])
        if node.kind == 16 and node.tag >= self.F:
            return True
        return any(getattr(node, field) != 0 for field in ("tag", "a", "b") if field not in listed)

    def literal_is_bad(self, k):
        kind, zero, payload = self.literal(k)
        if zero != 0 or kind > 7:
            return True
        if kind == 0:
            return payload != 0
        if kind == 1:
            return payload > 1
        if kind == 5:
            return payload > 0x10FFFF or 0xD800 <= payload <= 0xDFFF
        if kind in (6, 7):
            start, length = payload >> 16 & 0xFFFF, payload & 0xFFFF
            if payload >> 32 != 0 or start + length > self.T:
                return True
            if kind == 6:
                return not is_utf8(self.bytes[self.text_at + start:self.text_at + start + length])
        return False

    def bad_record(self):
        """The byte offset of the first bad record."""
        for f in range(self.F):
            if self.function_is_bad(f):
                return 8 + 4 * f
        for n in range(1, self.N + 1):
            node = self.node(n)
            if self.node_is_bad(node):
                return node.at
        for k in range(self.L):
            if self.literal_is_bad(k):
                return self.literals_at + 10 * k
        return None

    # ---- refusal 4

    def faults(self):
        """The set of the nodes at fault. Every record is good."""
        nodes = {n: self.node(n) for n in range(1, self.N + 1)}
        bodies = [self.function(f)[0] for f in range(self.F)]
        named = {n: 0 for n in nodes}
        # what the chains that a node stands in may hold; a node in two of them is named twice, and so at fault
        chains = {n: [] for n in nodes}
        faults = set()
        for to in [self.root] + bodies:
            named[to] += 1
        for n, node in nodes.items():
            for field, kinds, _ in REFERENCES[node.kind]:
                to = getattr(node, field)
                if to == 0:
                    continue
                named[to] += 1
                if to <= n or nodes[to].kind not in kinds:
                    faults.add(n)
                if field == "a" and node.kind in CHAINS and n < to:
                    chains[to].append(CHAINS[node.kind])
            if node.next == 0:
                continue
            named[node.next] += 1
            if not chains[n]:
                faults.add(n)
            for kinds in chains[n]:
                if node.next <= n or nodes[node.next].kind not in kinds:
                    faults.add(n)
                if n < node.next:
                    chains[node.next].append(kinds)
        faults.update(n for n in nodes if named[n] != 1)
        if nodes[self.root].kind not in EXPRESSIONS:
            faults.add(self.root)
        faults.update(body for body in bodies if nodes[body].kind not in SCOPES)
        # from the last node down, so that the length of what a goes to is known
        length = {}
        for n in sorted(nodes, reverse=True):
            node = nodes[n]
            length[n] = 0
            if node.kind in (22, 23):
                length[n] = 1 + (length[node.a] if node.a > n else 0)
            if length[n] > 64:
                faults.add(n)
        return faults


def is_utf8(part):
    """RFC 3629: Python's strict decoder takes no surrogates, no overlong forms and nothing above 10FFFF."""
    try:
        part.decode("utf-8", "strict")
    except UnicodeDecodeError:
        return False
    return True


def load(image):
    if len(image) < 8:
        return 1, 0
    loaded = Image(image)
    if loaded.edition != 1:
        return 2, 0
    if len(image) != loaded.size:
        return 1, 0
    if loaded.root == 0 or loaded.root > loaded.N:
        return 2, 0
    place = loaded.bad_record()
    if place is not None:
        return 3, place
    faults = loaded.faults()
    if faults:
        return 4, min(faults)
    return LOADS


def from_hex(word):
    return b"" if word == "-" else bytes.fromhex(word)


def vectors(path):
    """Each image of a file of vectors with its answer, as words, and its comment."""
    with open(path) as lines:
        for line in lines:
            if line.strip() and not line.startswith("#"):
                case, _, comment = line.partition(" # ")
                given, _, answer = case.partition(" -> ")
                yield from_hex(given.split()[0]), answer.split(), comment.strip()


def compare(path):
    compared = differ = 0
    for image, answer, comment in vectors(path):
        if answer[:2] == ["R", "5"]:
            continue
        refused = answer[0] == "R" and int(answer[1]) <= 4
        expected = (int(answer[1]), int(answer[2])) if refused else LOADS
        compared += 1
        if load(image) != expected:
            differ += 1
            print(f"{comment}: {expected} in the file, {load(image)} here")
    print(f"{compared} compared, {differ} differ")
    return differ


def main():
    if sys.argv[1:2] == ["--vectors"]:
        sys.exit(1 if compare(sys.argv[2]) else 0)
    for line in sys.stdin:
        print(*load(from_hex(line.split()[0])))


if __name__ == "__main__":
    main()
