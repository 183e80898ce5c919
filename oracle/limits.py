"""Programs at each limit of document 01 and one past it, kept short by loops, functions and shared values.

`groups()` gives the names of the groups, each with its programs. `compare.py` draws on the functions of this file with numbers of its own.
"""

from typing import NamedTuple

from images import (
    Function, assign, binary, branches, break_, call, char, decl, field, float_bits, image, index, let, local, loop, name, object_, read, scope,
    set_to, template, tuple_, unsigned, value, vec,
)

ROOM = 4_096
GREATEST, LEAST = (1 << 63) - 1, -(1 << 63)

# Names: a counter, a value that is built up, and one to spare. Arguments begin at ARGUMENT.
COUNTER, BUILT, SPARE, ARGUMENT = 0, 1, 2, 1_008


class Program(NamedTuple):
    """With `at_budgets` the program is also run at the budget n of its steps and at n - 1."""

    name: str
    image: bytes
    out_len: int = ROOM
    at_budgets: bool = False


def times(count, *instructions):
    """Instructions that run the given ones so many times."""
    turns = loop(*instructions, assign("+", local(COUNTER), 1), condition=binary("<", name(COUNTER), count))
    return decl(COUNTER, 0), turns


# ---- cells and text bytes


def after_vecs(count, *instructions, last=None):
    """Instructions that run after so many empty vecs, of a cell each."""
    return image(scope(*times(count, vec()), *instructions, last=last))


def after_object(count, *instructions):
    """The same where an empty object stands in BUILT, which has a cell too."""
    return image(scope(decl(BUILT, object_()), *times(count, vec()), *instructions, last=name(BUILT)))


def cells():
    entry = set_to(field(local(BUILT), "k"), 1)
    yield Program("1,024 vecs", after_vecs(1_024))
    yield Program("1,025 vecs", after_vecs(1_025), at_budgets=True)
    yield Program("512 tuples of one item", image(scope(*times(512, tuple_(1)))))
    yield Program("513 tuples of one item", image(scope(*times(513, tuple_(1)))))
    yield Program("a vec that takes cells 1,022 to 1,024", after_vecs(1_021, last=vec(1, 2)))
    yield Program("a vec that lacks one cell", after_vecs(1_022, last=vec(1, 2)))
    yield Program("a tuple that lacks one cell", after_vecs(1_022, last=tuple_(1, 2)))
    yield Program("an object that takes cells 1,022 to 1,024", after_vecs(1_021, last=object_(("b", 1), ("a", 2))))
    yield Program("an object that lacks one cell", after_vecs(1_022, last=object_(("b", 1), ("a", 2))))
    yield Program("a key met again takes none", after_vecs(1_022, last=object_(("a", 1), ("a", 2))))
    yield Program("an empty object that lacks its cell", after_vecs(1_024, last=object_()))
    yield Program("a field entered in cell 1,024", after_object(1_022, entry))
    yield Program("a field that lacks its cell", after_object(1_023, entry))
    yield Program("a field set again with no cell left", after_object(1_022, entry, set_to(field(local(BUILT), "k"), 2)))


def after_text(*instructions, last=None):
    """Instructions that run after 16,382 text bytes: 2 and 4 and so on to 8,192."""
    doubled = set_to(local(BUILT), binary("+", name(BUILT), name(BUILT)))
    return image(scope(decl(BUILT, "a"), *times(13, doubled), *instructions, last=last))


def text_bytes():
    full = template("bb")
    yield Program("a join that ends at 16,384", after_text(last=binary("+", "b", "b")))
    yield Program("a join that ends at 16,385", after_text(last=binary("+", "b", "bb")))
    yield Program("a template that ends at 16,384", after_text(last=template("x", 7)))
    yield Program("a template that ends at 16,385", after_text(last=template("x", -7)), at_budgets=True)
    yield Program("a join of nothing with no bytes left", after_text(full, last=binary("+", "", "")))
    yield Program("a template of nothing with no bytes left", after_text(full, last=template()))
    yield Program("a template of a text of no bytes", after_text(full, last=template(value(""))))
    yield Program("a literal's text costs nothing", after_text(full, last=value("bb")))
    yield Program("one byte more", after_text(full, last=template(value("b"))))
    yield Program("the whole text has no room", after_text(last=name(BUILT)))


# ---- depth


def deep(level, inner, *functions):
    """An expression that is entered at this level, 5 or more: each turn of the recursion is four."""
    turns, scopes = divmod(level - 5, 4)
    for _ in range(scopes):
        inner = scope(last=inner)
    again = scope(last=call(0, binary("-", name(ARGUMENT), 1)))
    descend = scope(last=branches((binary("<", 0, name(ARGUMENT)), again), default=scope(last=inner)))
    return image(call(0, turns), [Function(descend, ARGUMENT, 1), *functions])


def depths():
    nothing = Function(scope())
    yield Program("a value at 128", deep(128, value(7)))
    yield Program("a value at 129", deep(129, value(7)), at_budgets=True)
    yield Program("a default's scope at 128", deep(127, branches(default=scope())))
    yield Program("a default's scope at 129", deep(128, branches(default=scope())))
    yield Program("an arm and its condition at 128", deep(127, branches((True, scope()))))
    yield Program("a condition at 129", deep(128, branches((True, scope()))))
    yield Program("a let condition's value at 129", deep(128, branches((let(1, SPARE), scope()))))
    yield Program("a value in an arm at 129", deep(127, branches((True, scope(last=1)))))
    yield Program("a break in a loop's body at 128", deep(126, loop(break_())))
    yield Program("a break in a loop's body at 129", deep(127, loop(break_())))
    yield Program("a loop's body at 129", deep(128, loop(break_())))
    yield Program("a loop's condition at 129", deep(128, loop(condition=False)))
    yield Program("a function's body at 128", deep(127, call(1), nothing))
    yield Program("a function's body at 129", deep(128, call(1), nothing))
    yield Program("an argument at 129", deep(128, call(1, 5), nothing))
    yield Program("a vec's item at 129", deep(128, vec(1)))
    yield Program("an entry's value at 128", deep(127, object_(("a", 1))))
    yield Program("an entry's value at 129", deep(128, object_(("a", 1))))
    yield Program("a template's text needs no level", deep(128, template("a")))
    yield Program("a component at 129", deep(128, template("a", 1)))
    yield Program("a target needs no level", deep(128, read(local(ARGUMENT))))
    yield Program("a right operand at 129", deep(128, binary("+", 1, 2)))
    yield Program("a value that is set at 129", deep(128, set_to(index(local(SPARE), 0), 1)))
    yield Program("a break's value at 129", deep(128, break_(1)))
    yield Program("a function without end", image(call(0), [Function(scope(last=call(0)))]), at_budgets=True)


# ---- bindings


def bound(more, inner, *functions):
    """An expression with 255 and so many more live bindings: 17 calls of a function with 15 arguments, and declarations."""
    spare = [None] * 14
    again = scope(last=call(0, binary("-", name(ARGUMENT), 1), *spare))
    descend = scope(last=branches((binary("<", 0, name(ARGUMENT)), again), default=scope(last=inner)))
    declared = [decl(100 + tag, None) for tag in range(more)]
    return image(scope(*declared, last=call(0, 16, *spare)), [Function(descend, ARGUMENT, 15), *functions])


def bindings():
    one, two = Function(scope(last=name(SPARE)), SPARE, 1), Function(scope(), SPARE, 2)
    nothing = Function(scope())
    twice = scope(decl(SPARE, 1), decl(SPARE, 2), last=name(SPARE))
    arm = branches((let(5, SPARE), scope(last=name(SPARE))))
    turns = loop(branches((let(1), scope(break_()))), condition=let(5, SPARE))
    yield Program("256 bindings", bound(1, value(7)))
    yield Program("257 bindings", bound(2, value(7)), at_budgets=True)
    yield Program("a decl of the 256th", bound(0, scope(decl(SPARE, 1), last=name(SPARE))))
    yield Program("a decl of the 257th", bound(1, scope(decl(SPARE, 1), last=name(SPARE))))
    yield Program("a decl that replaces the 256th", bound(0, twice))
    yield Program("a let condition of the 256th", bound(0, arm))
    yield Program("a let condition of the 257th", bound(1, arm))
    yield Program("an arm gives its binding back", bound(0, scope(arm, last=arm)))
    yield Program("a let condition that ignores", bound(1, branches((let(5), scope(last=6)))))
    yield Program("a loop's let condition of the 256th", bound(0, turns))
    yield Program("a loop's let condition of the 257th", bound(1, turns))
    yield Program("a call that binds the 256th", bound(0, call(1, 5), one))
    yield Program("a call that would bind the 257th", bound(1, call(1, 5), one))
    yield Program("a call that would bind two", bound(0, call(1, 5, 6), two))
    yield Program("a call that binds none", bound(1, call(1), nothing))
    yield Program("the count is tested before the bindings", bound(1, call(1), one))


# ---- pending items


def held(inner, *functions):
    """An expression with 497 pending items: 16 vecs that wait for their 31st item, a call that a function with one argument makes."""
    again = scope(last=vec(*[None] * 30, call(0, binary("-", name(ARGUMENT), 1))))
    descend = scope(last=branches((binary("<", 0, name(ARGUMENT)), again), default=scope(last=inner)))
    return image(call(0, 16), [Function(descend, ARGUMENT, 1), *functions])


def pending():
    fifteen = Function(scope(), 1, 15)
    nearly = vec(*[None] * 14, break_())
    yield Program("a vec's item is the 512th", held(vec(*[None] * 15)))
    yield Program("a vec's item is the 513th", held(vec(*[None] * 16)))
    yield Program("a tuple's item is the 512th", held(tuple_(*[None] * 15)))
    yield Program("a tuple's item is the 513th", held(tuple_(*[None] * 16)))
    yield Program("an object's repeated entry is the 512th", held(object_(*[("k", None)] * 15)))
    yield Program("an object's repeated entry is the 513th", held(object_(*[("k", None)] * 16)))
    yield Program("an argument is the 512th", held(call(1, *[None] * 15), fifteen))
    yield Program("an argument is the 513th, before the count", held(call(1, *[None] * 16), fifteen))
    yield Program("a component is the 512th, texts apart", held(template("a", *[7] * 15, "b")))
    yield Program("a component is the 513th", held(template("a", *[7] * 16, "b")))
    yield Program("a component is judged first", held(template(*[7] * 15, None)))
    yield Program("a float in a template comes first too", held(template(*[7] * 15, 1.5)))
    yield Program("a break gives them back", held(scope(loop(nearly), last=vec(*[None] * 15))))
    yield Program("an argument stays pending in the body", held(call(1, None), Function(scope(last=vec(*[None] * 15)), 1, 1)))


# ---- nesting, targets, room


def nested(count, inner, around):
    """A value inside so many others."""
    return image(scope(decl(BUILT, inner), *times(count, set_to(local(BUILT), around(name(BUILT)))), last=name(BUILT)))


def nesting():
    for around, what in (vec, "vecs"), (tuple_, "tuples"), (lambda inner: object_(("k", inner)), "objects"):
        yield Program(f"a number inside 63 {what}", nested(63, 7, around))
        yield Program(f"a number inside 64 {what}", nested(64, 7, around))
    yield Program("an empty vec is the 64th", nested(63, vec(), vec))
    yield Program("an empty vec is the 65th", nested(64, vec(), vec))
    yield Program("room for all before the 65th", nested(64, 7, vec), 128)
    yield Program("one byte less", nested(64, 7, vec), 127, at_budgets=True)


def long_target(parts, use):
    """What is made of a target of so many parts, `v.0.0 .. .1`, where v.0 is v and v.1 is 7; then v.1."""
    target = local(BUILT)
    for _ in range(parts - 1):
        target = index(target, 0)
    cycle = decl(BUILT, vec(1, 7)), set_to(index(local(BUILT), 0), name(BUILT))
    return image(scope(*cycle, use(index(target, 1)), last=read(index(local(BUILT), 1))))


def targets():
    uses = ("read", read), ("set", lambda target: set_to(target, 8)), ("assigned to", lambda target: assign("*", target, 2))
    for what, use in uses:
        yield Program(f"a target of 64 parts is {what}", long_target(64, use))
        yield Program(f"a target of 65 parts is {what}", long_target(65, use))
    fields = local(BUILT)
    for _ in range(65):
        fields = field(fields, "k")
    yield Program("a target of 65 fields", image(read(fields)))


def rooms():
    programs = [
        ("unit", value(None), 1),
        ("true", value(True), 1),
        ("unsigned", unsigned((1 << 64) - 1), 9),
        ("signed", value(-1), 9),
        ("float", value(-0.0), 9),
        ("NaN", float_bits(0xFFF0_0000_0000_0001), 9),
        ("char", char("\U0010FFFF"), 4),
        ("text", value("é€"), 8),
        ("empty text", value(""), 3),
        ("bytes", value(b"\0\xff"), 5),
        ("vec", vec(True, None, False, vec()), 6),
        ("tuple", tuple_(1.5, "a"), 14),
        ("object", object_(("b", True), ("", None), ("a", False), ("aa", vec())), 18),
    ]
    for what, root, length in programs:
        yield Program(f"{what}: its room", image(root), length)
        yield Program(f"{what}: one byte less", image(root), length - 1)


# ---- numbers


def assigned(op, left, right):
    return image(scope(decl(BUILT, left), assign(op, local(BUILT), right), last=name(BUILT)))


def numbers():
    ends = [
        ("+", GREATEST - 1, 1), ("+", GREATEST, 1), ("+", LEAST, -1), ("-", LEAST + 1, 1), ("-", LEAST, 1), ("-", 0, LEAST),
        ("*", 1 << 31, 1 << 31), ("*", 1 << 32, 1 << 31), ("*", 1 << 32, -(1 << 31)), ("*", LEAST, -1), ("/", LEAST, -1), ("/", LEAST, 1), ("/", -7, 2), ("/", 7, 0),
        ("<<", 3, 63), ("<<", 3, 64), ("<<", 3, (1 << 32) - 1), ("<<", 3, 1 << 32), ("<<", 3, -1), (">>", LEAST, 63), (">>", LEAST, 64), (">>", -1, 1 << 32),
    ]
    for op, left, right in ends:
        yield Program(f"{left} {op} {right}", image(binary(op, left, right)))
        yield Program(f"{left} {op}= {right}", assigned(op, left, right))
    last = scope(decl(1_023, 1), last=loop(break_(name(1_023), label=1_023), label=1_023))
    yield Program("the last name and the last label", image(last))
    arguments = Function(scope(last=name(1_023)), 1_009, 15)
    yield Program("the last argument names", image(call(0, *range(15)), [arguments]))


# ---- what belongs to no limit


def scopes():
    once_more = let(binary("+", name(BUILT), 1), BUILT)
    enough = branches((binary("<", 2, name(COUNTER)), scope(break_())))
    turns = loop(assign("+", local(COUNTER), 1), set_to(local(SPARE), name(BUILT)), enough, condition=once_more)
    yield Program("a loop's scope is emptied before each condition", image(scope(decl(COUNTER, 0), decl(SPARE, 0), decl(BUILT, 0), turns, last=name(SPARE))))
    inner = loop(decl(BUILT, 2), scope(decl(BUILT, 3), break_()))
    yield Program("a break drops every scope since the loop's", image(scope(decl(BUILT, 1), inner, last=name(BUILT))))
    yield Program("what a broken loop declared is gone", image(scope(loop(decl(BUILT, 2), break_()), last=name(BUILT))))


def refusals():
    one, empty = decl(BUILT, vec(1)), decl(BUILT, object_())
    absent, missing = index(local(BUILT), 1), field(local(BUILT), "k")
    yield Program("if 1 {}", image(branches((1, scope()))))
    yield Program("while 1 {}", image(loop(condition=1)))
    yield Program("{let v = [1]; v.1}", image(scope(one, last=read(absent))))
    yield Program("{let v = [1]; v.1 = 2}", image(scope(one, set_to(absent, 2))))
    yield Program("{let v = [1]; v.1 += 2}", image(scope(one, assign("+", absent, 2))))
    yield Program("{let v = #{}; v.k}", image(scope(empty, last=read(missing))))
    yield Program("{let v = #{}; v.k += 2}", image(scope(empty, assign("+", missing, 2))))
    yield Program("{let v = #{}; v.0 = 2}", image(scope(empty, set_to(index(local(BUILT), 0), 2))))
    yield Program("{let v = [1]; v.k}", image(scope(one, last=read(missing))))
    yield Program("{let v = [1]; v.0 += 1.5}", image(scope(one, assign("+", index(local(BUILT), 0), 1.5))))


def groups():
    return [
        ("cells", cells()),
        ("text bytes", text_bytes()),
        ("depth", depths()),
        ("bindings", bindings()),
        ("pending items", pending()),
        ("nesting", nesting()),
        ("targets", targets()),
        ("room", rooms()),
        ("numbers", numbers()),
        ("scopes", scopes()),
        ("refusals that no limit has", refusals()),
    ]
