//! Random programs that load: typed and ill-typed, with labels and breaks in odd places, shared mutation, calls and recursion, templates, arithmetic at the limits, and programs
//! near each limit of document 01.
use crate::assemble::*;

/// Numbers by xorshift64*, the same for the same seed.
pub struct Random(u64);

impl Random {
    pub fn new(seed: u64) -> Self {
        Random(seed.wrapping_mul(0x9E37_79B9_7F4A_7C15) | 1)
    }

    fn next(&mut self) -> u64 {
        self.0 ^= self.0 >> 12;
        self.0 ^= self.0 << 25;
        self.0 ^= self.0 >> 27;
        self.0.wrapping_mul(0x2545_F491_4F6C_DD1D) >> 11
    }

    pub fn below(&mut self, count: usize) -> usize {
        (self.next() % count as u64) as usize
    }

    fn between(&mut self, least: usize, most: usize) -> usize {
        least + self.below(most - least + 1)
    }

    pub fn pick<T: Clone>(&mut self, choices: &[T]) -> T {
        choices[self.below(choices.len())].clone()
    }

    pub fn percent(&mut self, part: usize) -> bool {
        self.below(100) < part
    }
}

const ADD: u8 = 0;
const SUB: u8 = 1;
const LESS: u8 = 6;
const INTEGERS: [i64; 10] = [0, 1, 2, 3, -1, -2, 5, 7, 10, 100];
const GREAT: [i64; 12] = [62, 63, 64, 1 << 31, (1 << 32) - 1, 1 << 32, 1 << 62, i64::MAX, i64::MAX - 1, i64::MIN, i64::MIN + 1, -(1 << 31)];
const FLOATS: [f64; 11] = [0.0, -0.0, 1.0, 1.5, -2.25, 0.1, 1e308, 5e-324, f64::INFINITY, f64::NEG_INFINITY, f64::NAN];
const TEXTS: [&str; 9] = ["", "a", "b", "aa", "é", "€", "😀", "channel-", "span "];
const KEYS: [&str; 5] = ["", "a", "b", "aa", "é"];
const ARITHMETIC: [u8; 8] = [0, 0, 1, 1, 2, 3, 4, 5];
const FLOAT_ARITHMETIC: [u8; 4] = [0, 1, 2, 3];
const COMPARING: [u8; 5] = [6, 7, 8, 9, 10];
const LABELS: [u16; 5] = [0, 0, 1, 2, 1_023];

#[derive(Clone, Copy, PartialEq, Eq)]
enum Type {
    Integer,
    Bool,
    Float,
    Text,
    Vec,
    Tuple,
    Object,
    Other,
}

use Type::*;

const TYPES: [Type; 8] = [Integer, Bool, Float, Text, Vec, Tuple, Object, Other];

/// What most programs declare first under each name. 6 is the vec 2 once more, 7 the object 3.
const NAMES: [(u16, Type); 9] = [(0, Integer), (1, Bool), (2, Vec), (3, Object), (4, Text), (5, Float), (6, Vec), (7, Object), (1_023, Integer)];

/// Functions have their arguments from this name on.
const ARGUMENT: u16 = 1_008;

type Nodes = std::vec::Vec<Node>;

fn integer_targets() -> Nodes {
    let (v, o, w, p) = (local(2), local(3), local(6), local(7));
    vec![
        local(0),
        local(1_023),
        index(v.clone(), 0),
        index(v, 1),
        index(w.clone(), 0),
        index(w, 2),
        field(o.clone(), "a"),
        index(field(o, "b"), 0),
        index(field(p.clone(), ""), 1),
        field(p, "a"),
    ]
}

fn other_targets() -> Nodes {
    let (v, o) = (local(2), local(3));
    vec![
        local(1),
        v.clone(),
        local(4),
        local(9),
        field(o.clone(), "aa"),
        field(o.clone(), "é"),
        field(o.clone(), "b"),
        index(v.clone(), 3),
        field(v.clone(), "a"),
        index(o.clone(), 0),
        index(local(0), 0),
        index(local(4), 0),
        field(local(5), "a"),
        field(field(o.clone(), "é"), "a"),
        index(field(o.clone(), "b"), 2),
        index(index(v.clone(), 0), 0),
        field(index(v, 1), "a"),
        index(field(o, "a"), 1),
    ]
}

/// Makes expressions of so many nodes, roughly.
struct Maker<'a> {
    random: &'a mut Random,
    nodes: isize,
    functions: std::vec::Vec<usize>,
    labels: std::vec::Vec<u16>,
    /// How many of a hundred expressions are of a type that does not fit.
    ill: usize,
}

impl Maker<'_> {
    fn several(&mut self, most: usize) -> usize {
        if self.nodes > 0 {
            self.random.between(0, most)
        } else {
            0
        }
    }

    // ---- names and targets

    fn declarations(&mut self, part: usize) -> Nodes {
        let entries = vec![entry("a", signed(self.random.pick(&INTEGERS))), entry("b", vec(vec![signed(1), signed(2)])), entry("", name(2))];
        let given = [
            (0, signed(0)),
            (1, value(Literal::Bool(true))),
            (2, vec(vec![signed(1), signed(2), signed(3)])),
            (3, object(entries)),
            (4, textual("t")),
            (5, float(0.5)),
            (6, name(2)),
            (7, name(3)),
            (1_023, signed(self.random.pick(&GREAT))),
        ];
        given.into_iter().filter(|_| self.random.below(1_000) < part).map(|(tag, given)| decl(tag, given)).collect()
    }

    fn name_of(&mut self, wanted: Option<Type>) -> u16 {
        let fitting: std::vec::Vec<u16> = NAMES.iter().filter(|(_, its)| Some(*its) == wanted).map(|(tag, _)| *tag).collect();
        if fitting.is_empty() || self.random.percent(2) {
            return self.random.pick(&NAMES).0;
        }
        self.random.pick(&fitting)
    }

    fn integer_target(&mut self) -> Node {
        let choices = if self.random.percent(90) { integer_targets() } else { other_targets() };
        self.random.pick(&choices)
    }

    // ---- expressions by the type of their value

    fn expression(&mut self, wanted: Option<Type>) -> Node {
        self.nodes -= 1;
        let ill = self.random.percent(self.ill);
        let its = wanted.filter(|_| !ill).unwrap_or_else(|| self.random.pick(&TYPES));
        if self.nodes <= 0 {
            return self.leaf(its);
        }
        if self.random.percent(40) {
            return self.any_type(its);
        }
        match its {
            Integer => self.integer(),
            Bool => self.bool(),
            Float => self.float(),
            Text => self.text(),
            Vec => {
                let items = self.expressions(0, 4);
                vec(items)
            }
            Tuple => {
                let items = self.expressions(1, 3);
                tuple(items)
            }
            Object => {
                let count = self.several(4);
                object((0..count).map(|_| entry(self.random.pick(&KEYS), self.expression(None))).collect())
            }
            Other => self.other(),
        }
    }

    fn expressions(&mut self, least: usize, most: usize) -> Nodes {
        let count = least + self.several(most);
        (0..count).map(|_| self.expression(None)).collect()
    }

    fn leaf(&mut self, its: Type) -> Node {
        if its != Tuple && its != Other && self.random.percent(40) {
            return name(self.name_of(Some(its)));
        }
        match its {
            Integer => signed(self.random.pick(&INTEGERS)),
            Bool => value(Literal::Bool(self.random.percent(50))),
            Float => float(self.random.pick(&FLOATS)),
            Text => textual(self.random.pick(&TEXTS)),
            Vec => vec(vec![]),
            Tuple => tuple(vec![signed(1)]),
            Object => object(vec![]),
            Other => unit(),
        }
    }

    fn any_type(&mut self, its: Type) -> Node {
        match self.random.below(8) {
            0 => name(self.name_of(Some(its))),
            1 if its == Integer => read(self.integer_target()),
            1 => read(local(self.name_of(Some(its)))),
            2 if self.random.percent(20) => read(self.random.pick(&other_targets())),
            2 => self.leaf(its),
            3 => self.scope(Some(its)),
            4 => {
                let arms = self.arms(Some(its));
                branches(arms, Some(self.scope(Some(its))))
            }
            5 => self.looped(Some(its), None),
            6 => self.call(),
            _ if self.random.percent(10) => self.broken(Some(its)),
            _ => self.leaf(its),
        }
    }

    fn integer(&mut self) -> Node {
        if self.random.percent(40) {
            let great = self.random.percent(5);
            return signed(if great { self.random.pick(&GREAT) } else { self.random.pick(&INTEGERS) });
        }
        let op = self.random.pick(&ARITHMETIC);
        binary(op, self.expression(Some(Integer)), self.expression(Some(Integer)))
    }

    fn bool(&mut self) -> Node {
        if self.random.percent(30) {
            return value(Literal::Bool(self.random.percent(60)));
        }
        let its = self.random.pick(&[Integer, Integer, Float]);
        binary(self.random.pick(&COMPARING), self.expression(Some(its)), self.expression(Some(its)))
    }

    fn float(&mut self) -> Node {
        if self.random.percent(50) {
            return float(self.random.pick(&FLOATS));
        }
        let op = if self.random.percent(97) { self.random.pick(&FLOAT_ARITHMETIC) } else { self.random.pick(&ARITHMETIC) };
        binary(op, self.expression(Some(Float)), self.expression(Some(Float)))
    }

    fn text(&mut self) -> Node {
        match self.random.below(3) {
            0 => textual(self.random.pick(&TEXTS)),
            1 => binary(ADD, self.expression(Some(Text)), self.expression(Some(Text))),
            _ => {
                let any = self.random.percent(5);
                let count = self.several(4);
                template((0..count).map(|_| self.component(any)).collect())
            }
        }
    }

    fn component(&mut self, any: bool) -> Node {
        if self.random.percent(40) {
            return plain(self.random.pick(&TEXTS));
        }
        let its = if any { self.random.pick(&TYPES) } else { self.random.pick(&[Integer, Integer, Bool, Text, Text]) };
        self.expression(Some(its))
    }

    fn other(&mut self) -> Node {
        value(match self.random.below(5) {
            0 => Literal::Unit,
            1 => Literal::Bytes(self.random.pick(&[&b""[..], b"\0\xff"]).to_vec()),
            2 => Literal::Unsigned(self.random.pick(&[0, 5, u64::MAX])),
            3 => Literal::Char(self.random.pick(&['a', 'é', '€', '😀'])),
            _ => Literal::Float(0xFFF0_0000_0000_0001),
        })
    }

    // ---- control

    fn scope(&mut self, its: Option<Type>) -> Node {
        let instructions = self.instructions();
        let last = its.is_some() || self.random.percent(50);
        scope(instructions, last.then(|| self.expression(its)))
    }

    fn instructions(&mut self) -> Nodes {
        let count = self.several(4);
        (0..count).map(|_| self.instruction()).collect()
    }

    fn instruction(&mut self) -> Node {
        self.nodes -= 1;
        let (tag, its) = self.random.pick(&NAMES);
        if self.nodes <= 0 {
            return decl(tag, self.leaf(its));
        }
        match self.random.below(10) {
            0 => decl(tag, self.expression(Some(its))),
            1 => set(local(tag), self.expression(Some(its))),
            2 => set(self.integer_target(), self.expression(Some(Integer))),
            3 => {
                let (key, number) = (self.random.pick(&KEYS), self.random.below(3) as u16);
                let target = if self.random.percent(50) { field(local(3), key) } else { index(local(2), number) };
                set(target, self.expression(None))
            }
            4 => assign(self.random.pick(&[0, 0, 1, 1, 2, 3, 4, 5]), self.integer_target(), self.expression(Some(Integer))),
            5 => self.counted(),
            6 => {
                let arms = self.arms(None);
                let default = self.random.percent(50).then(|| self.scope(None));
                branches(arms, default)
            }
            7 => {
                let condition = self.condition();
                self.looped(None, Some(condition))
            }
            8 => self.looped(None, None),
            _ => self.expression(None),
        }
    }

    fn looped(&mut self, its: Option<Type>, condition: Option<Node>) -> Node {
        let label = self.random.pick(&LABELS);
        self.labels.push(label);
        let given = its.filter(|_| condition.is_none());
        let mut instructions = self.instructions();
        if self.random.percent(30) {
            instructions.push(set(local(1_023), name(0)));
        }
        if self.random.percent(30) {
            let bound = signed(self.random.between(1, 4) as i64);
            instructions.push(assign(ADD, local(0), signed(1)));
            instructions.push(branches(vec![arm(binary(LESS, bound, name(0)), scope(vec![self.broken(given)], None))], None));
        } else if self.random.percent(80) {
            instructions.push(self.broken(given));
        }
        self.labels.pop();
        looped(label, condition, scope(instructions, None))
    }

    /// A loop that ends by itself unless its body changes the counter.
    fn counted(&mut self) -> Node {
        self.labels.push(0);
        let mut instructions = self.instructions();
        self.labels.pop();
        instructions.push(assign(ADD, local(0), signed(1)));
        let bound = signed(self.random.between(1, 9) as i64);
        let turns = looped(0, Some(binary(LESS, name(0), bound)), scope(instructions, None));
        scope(vec![decl(0, signed(0)), turns], Some(name(0)))
    }

    fn condition(&mut self) -> Node {
        if self.random.percent(20) {
            let given = if self.random.percent(50) { binary(ADD, name(0), signed(1)) } else { self.expression(Some(Integer)) };
            return let_condition(self.random.percent(70).then_some(0), given);
        }
        if self.random.percent(5) {
            return self.broken(None);
        }
        self.expression(Some(Bool))
    }

    fn arms(&mut self, its: Option<Type>) -> Nodes {
        let count = self.several(3);
        (0..count)
            .map(|_| {
                let condition = self.condition();
                let body = if self.random.percent(90) { self.scope(its) } else { scope(vec![self.broken(its)], None) };
                arm(condition, body)
            })
            .collect()
    }

    /// A break to one of the loops around, in most cases the nearest.
    fn broken(&mut self, its: Option<Type>) -> Node {
        let mut label = self.random.pick(&[0, 1, 1_023]);
        if !self.labels.is_empty() && self.random.percent(95) {
            let labels = self.labels.clone();
            label = if self.random.percent(80) { labels[labels.len() - 1] } else { self.random.pick(&labels) };
        }
        let mut given = None;
        if its.is_some() || self.random.percent(10) {
            given = Some(if self.random.percent(5) { self.broken(its) } else { self.expression(its) });
        }
        broken(label, given)
    }

    fn call(&mut self) -> Node {
        if self.functions.is_empty() {
            return self.leaf(Integer);
        }
        let number = self.random.below(self.functions.len());
        let count = if self.random.percent(97) { self.functions[number] } else { self.random.between(0, 3) };
        call(number as u16, (0..count).map(|_| self.expression(Some(Integer))).collect())
    }

    // ---- nodes without regard to types

    /// Any expression with any parts, up to this many levels.
    fn wild(&mut self, levels: usize) -> Node {
        let kind = if levels == 0 { self.random.pick(&[7, 9, 9]) } else { self.random.between(1, 16) };
        let inner = levels.saturating_sub(1);
        let label = self.random.pick(&[0, 1]);
        match kind {
            1 => self.wild_scope(inner),
            2 => binary(self.random.below(11) as u8, self.wild(inner), self.wild(inner)),
            3 => decl(self.random.below(3) as u16, self.wild(inner)),
            4 => set(self.wild_target(), self.wild(inner)),
            5 => assign(self.random.below(6) as u8, self.wild_target(), self.wild(inner)),
            6 => {
                let mut components = self.wilds(inner);
                components.push(plain(self.random.pick(&TEXTS)));
                template(components)
            }
            7 => name(self.random.below(3) as u16),
            8 => read(self.wild_target()),
            9 => {
                let its = self.random.pick(&TYPES);
                if its == Integer && self.random.percent(30) {
                    signed(self.random.pick(&GREAT))
                } else {
                    self.wild_literal(its)
                }
            }
            10 => {
                let arms = (0..self.random.between(0, 2)).map(|_| arm(self.wild_condition(inner), self.wild_scope(inner))).collect();
                branches(arms, self.random.percent(50).then(|| self.wild_scope(inner)))
            }
            11 => {
                let condition = self.random.percent(50).then(|| self.wild_condition(inner));
                looped(label, condition, self.wild_scope(inner))
            }
            12 => broken(label, self.random.percent(50).then(|| self.wild(inner))),
            13 => vec(self.wilds(inner)),
            14 => {
                let mut items = self.wilds(inner);
                items.push(self.wild(inner));
                tuple(items)
            }
            15 => object((0..self.random.between(0, 3)).map(|_| entry(self.random.pick(&KEYS), self.wild(inner))).collect()),
            _ if self.functions.is_empty() => unit(),
            _ => call(self.random.below(self.functions.len()) as u16, self.wilds(inner)),
        }
    }

    fn wilds(&mut self, levels: usize) -> Nodes {
        (0..self.random.between(0, 3)).map(|_| self.wild(levels)).collect()
    }

    fn wild_scope(&mut self, levels: usize) -> Node {
        let instructions = self.wilds(levels);
        scope(instructions, self.random.percent(50).then(|| self.wild(levels)))
    }

    fn wild_condition(&mut self, levels: usize) -> Node {
        match self.random.below(4) {
            0 => let_condition(None, self.wild(levels)),
            1 => let_condition(Some(self.random.below(3) as u16), self.wild(levels)),
            2 => value(Literal::Bool(self.random.percent(70))),
            _ => self.wild(levels),
        }
    }

    fn wild_target(&mut self) -> Node {
        let mut target = local(self.random.below(3) as u16);
        for _ in 0..self.random.pick(&[0, 0, 1, 1, 2, 3]) {
            target = if self.random.percent(50) { field(target, self.random.pick(&KEYS)) } else { index(target, self.random.below(3) as u16) };
        }
        target
    }

    fn wild_literal(&mut self, its: Type) -> Node {
        match its {
            Integer => signed(self.random.pick(&INTEGERS)),
            Bool => value(Literal::Bool(self.random.percent(50))),
            Float => float(self.random.pick(&FLOATS)),
            Text => textual(self.random.pick(&TEXTS)),
            _ => self.other(),
        }
    }
}

fn maker(random: &mut Random, functions: std::vec::Vec<usize>) -> Maker<'_> {
    let nodes = random.pick(&[5, 15, 40, 120]);
    let ill = random.pick(&[0, 1, 1, 5]);
    Maker { random, nodes, functions, labels: vec![], ill }
}

fn typed(random: &mut Random) -> std::vec::Vec<u8> {
    let counts: std::vec::Vec<usize> = (0..random.between(0, 3)).map(|_| random.between(0, 3)).collect();
    let mut maker = maker(random, counts.clone());
    let mut root = maker.expression(None);
    if maker.random.percent(90) {
        let mut instructions = maker.declarations(995);
        instructions.extend(maker.instructions());
        let shown = NAMES.iter().filter(|_| maker.random.percent(70)).map(|(tag, _)| name(*tag));
        let all: Nodes = [root.clone()].into_iter().chain(shown).collect();
        root = scope(instructions, Some(if maker.random.percent(50) { vec(all) } else { root }));
    }
    let functions: std::vec::Vec<Function> = counts.iter().map(|count| function(&mut maker, *count)).collect();
    image(&root, &functions)
}

fn function(maker: &mut Maker<'_>, count: usize) -> Function {
    maker.nodes = maker.random.pick(&[3, 10, 30]);
    let body = if maker.random.percent(80) {
        let mut instructions = maker.declarations(950);
        instructions.extend(maker.instructions());
        scope(instructions, Some(binary(ADD, name(ARGUMENT), maker.expression(Some(Integer)))))
    } else {
        maker.scope(None)
    };
    Function { body, first: ARGUMENT, count: count as u8 }
}

fn wild(random: &mut Random) -> std::vec::Vec<u8> {
    let functions: std::vec::Vec<usize> = (0..random.between(0, 2)).map(|_| random.between(0, 2)).collect();
    let levels = random.between(1, 5);
    let mut maker = maker(random, functions.clone());
    let mut root = maker.wild(levels);
    if maker.random.percent(70) {
        let given = [vec(vec![signed(1), tuple(vec![signed(2), textual("a")])]), object(vec![entry("a", signed(3))]), signed(4)];
        let instructions = given.into_iter().enumerate().map(|(tag, given)| decl(tag as u16, given)).collect();
        root = scope(instructions, Some(root));
    }
    let bodies = functions.iter().map(|count| Function { body: maker.wild_scope(levels.min(3)), first: 0, count: *count as u8 });
    let bodies: std::vec::Vec<Function> = bodies.collect();
    image(&root, &bodies)
}

// ---- near the limits of document 01

/// Names of the programs near limits: a counter, a value that is built up.
const COUNTER: u16 = 0;
const BUILT: u16 = 1;

/// Instructions that run the given ones so many times.
fn times(count: usize, mut instructions: Nodes) -> Nodes {
    instructions.push(assign(ADD, local(COUNTER), signed(1)));
    let turns = looped(0, Some(binary(LESS, name(COUNTER), signed(count as i64))), scope(instructions, None));
    vec![decl(COUNTER, signed(0)), turns]
}

fn after_vecs(count: usize, last: Node) -> Node {
    scope(times(count, vec![vec(vec![])]), Some(last))
}

fn after_object(count: usize, instruction: Node) -> Node {
    let mut instructions = vec![decl(BUILT, object(vec![]))];
    instructions.extend(times(count, vec![vec(vec![])]));
    instructions.push(instruction);
    scope(instructions, Some(name(BUILT)))
}

/// After 16,382 text bytes: 2 and 4 and so on to 8,192.
fn after_text(last: Node) -> Node {
    let mut instructions = vec![decl(BUILT, textual("a"))];
    instructions.extend(times(13, vec![set(local(BUILT), binary(ADD, name(BUILT), name(BUILT)))]));
    scope(instructions, Some(last))
}

/// A function that calls itself so often before it comes to an expression, with units as further arguments.
fn descending(turns: usize, more: usize, around: impl Fn(Node) -> Node, inner: Node) -> (Node, Function) {
    let arguments = |first: Node| [first].into_iter().chain((0..more).map(|_| unit())).collect();
    let again = scope(vec![], Some(around(call(0, arguments(binary(SUB, name(ARGUMENT), signed(1)))))));
    let condition = binary(LESS, signed(0), name(ARGUMENT));
    let body = scope(vec![], Some(branches(vec![arm(condition, again)], Some(scope(vec![], Some(inner))))));
    (call(0, arguments(signed(turns as i64))), Function { body, first: ARGUMENT, count: 1 + more as u8 })
}

/// An expression that is entered at this level, 5 or more.
fn deep(level: usize, mut inner: Node) -> (Node, Function) {
    for _ in 0..(level - 5) % 4 {
        inner = scope(vec![], Some(inner));
    }
    descending((level - 5) / 4, 0, |inner| inner, inner)
}

fn nested(count: usize, inner: Node, around: impl Fn(Node) -> Node) -> Node {
    let mut instructions = vec![decl(BUILT, inner)];
    instructions.extend(times(count, vec![set(local(BUILT), around(name(BUILT)))]));
    scope(instructions, Some(name(BUILT)))
}

fn long_target(random: &mut Random, parts: usize) -> Node {
    let mut target = local(BUILT);
    for _ in 1..parts {
        target = index(target, 0);
    }
    target = index(target, random.between(0, 2) as u16);
    let used = match random.below(3) {
        0 => read(target),
        1 => set(target, signed(8)),
        _ => assign(2, target, signed(2)),
    };
    let instructions = vec![decl(BUILT, vec(vec![signed(1), signed(7)])), set(index(local(BUILT), 0), name(BUILT)), used];
    scope(instructions, Some(read(index(local(BUILT), 1))))
}

fn near(random: &mut Random, limit: usize) -> usize {
    limit - 3 + random.below(6)
}

fn units(count: usize) -> Nodes {
    (0..count).map(|_| unit()).collect()
}

fn at_limit(random: &mut Random) -> std::vec::Vec<u8> {
    let mut maker = maker(random, vec![]);
    maker.nodes = maker.random.pick(&[3, 10, 30]);
    let inner = if maker.random.percent(50) {
        let mut instructions = maker.declarations(900);
        instructions.extend(maker.instructions());
        scope(instructions, Some(maker.expression(None)))
    } else {
        maker.expression(Some(Vec))
    };
    let its = maker.random.pick(&TYPES);
    let item = maker.leaf(its);
    let held = |inner: Node| descending(16, 0, |inner| vec(units(30).into_iter().chain([inner]).collect()), inner);
    let bound = |more: usize, inner: Node| {
        let (root, function) = descending(16, 14, |inner| inner, inner);
        (scope((0..more).map(|tag| decl(100 + tag as u16, unit())).collect(), Some(root)), function)
    };
    let mut functions = vec![];
    let mut with = |(root, function): (Node, Function)| {
        functions = vec![function];
        root
    };
    let root = match random.below(15) {
        0 => after_vecs(near(random, 1_021), inner),
        1 => after_object(near(random, 1_021), set(field(local(BUILT), "a"), inner)),
        2 => after_text(template(vec![plain(random.pick(&["", "x", "xx", "xxx"])), inner])),
        3 => after_text(binary(ADD, textual(random.pick(&["", "x"])), textual(random.pick(&["x", "xx"])))),
        4 => after_text(inner),
        5 | 6 => with(deep(near(random, 127), inner)),
        7 => with(bound(random.between(0, 2), inner)),
        8 => with(bound(random.between(0, 2), scope(vec![decl(2, item)], Some(name(2))))),
        9 => with(held(vec(units(random.between(8, 15)).into_iter().chain([inner]).collect()))),
        10 => with(held(object((0..random.between(12, 17)).map(|_| entry("k", unit())).collect()))),
        11 => with(held(template((0..random.between(13, 16)).map(|_| signed(1)).chain([item]).collect()))),
        12 => nested(near(random, 63), inner, |each| vec(vec![each])),
        13 => match random.below(3) {
            0 => nested(near(random, 64), item, |each| tuple(vec![each])),
            1 => nested(near(random, 64), item, |each| object(vec![entry("k", each)])),
            _ => nested(near(random, 64), item, |each| vec(vec![unit(), each])),
        },
        _ => {
            let parts = random.between(2, 64);
            long_target(random, parts)
        }
    };
    image(&root, &functions)
}

/// A random program, and a budget that suffices for most of its kind.
pub fn random_program(random: &mut Random) -> (std::vec::Vec<u8>, u64) {
    match random.below(100) {
        0..3 => (at_limit(random), 12_000),
        3..40 => (wild(random), 1_000),
        _ => (typed(random), 2_000),
    }
}
