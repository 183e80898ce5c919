//! Packs trees of nodes into images of edition 1. Nodes are numbered as a walk meets them, the root first, then the bodies; equal literals are made one.

#[derive(Clone, Debug, PartialEq)]
pub enum Literal {
    Unit,
    Bool(bool),
    Unsigned(u64),
    Signed(i64),
    Float(u64),
    Char(char),
    Text(String),
    Bytes(Vec<u8>),
}

#[derive(Clone, Debug)]
pub enum Part {
    None,
    Number(u16),
    Literal(Literal),
    Node(Box<Node>),
    Chain(Vec<Node>),
}

#[derive(Clone, Debug)]
pub struct Node {
    pub kind: u8,
    pub op: u8,
    pub tag: u16,
    pub a: Part,
    pub b: Part,
}

#[derive(Clone, Debug)]
pub struct Function {
    pub body: Node,
    pub first: u16,
    pub count: u8,
}

fn node(kind: u8, a: Part, b: Part) -> Node {
    Node { kind, op: 0, tag: 0, a, b }
}

fn one(given: Node) -> Part {
    Part::Node(Box::new(given))
}

fn optional(given: Option<Node>) -> Part {
    given.map_or(Part::None, one)
}

fn text(given: &str) -> Part {
    Part::Literal(Literal::Text(given.into()))
}

pub fn scope(instructions: Vec<Node>, last: Option<Node>) -> Node {
    node(1, Part::Chain(instructions), optional(last))
}

pub fn binary(op: u8, left: Node, right: Node) -> Node {
    Node { op, ..node(2, one(left), one(right)) }
}

pub fn decl(tag: u16, given: Node) -> Node {
    Node { tag, ..node(3, one(given), Part::None) }
}

pub fn set(target: Node, given: Node) -> Node {
    node(4, one(target), one(given))
}

pub fn assign(op: u8, target: Node, given: Node) -> Node {
    Node { op, ..node(5, one(target), one(given)) }
}

pub fn template(components: Vec<Node>) -> Node {
    node(6, Part::Chain(components), Part::None)
}

pub fn name(tag: u16) -> Node {
    Node { tag, ..node(7, Part::None, Part::None) }
}

pub fn read(target: Node) -> Node {
    node(8, one(target), Part::None)
}

pub fn value(literal: Literal) -> Node {
    node(9, Part::Literal(literal), Part::None)
}

pub fn signed(number: i64) -> Node {
    value(Literal::Signed(number))
}

pub fn float(float: f64) -> Node {
    value(Literal::Float(float.to_bits()))
}

pub fn textual(given: &str) -> Node {
    value(Literal::Text(given.into()))
}

pub fn unit() -> Node {
    value(Literal::Unit)
}

pub fn branches(arms: Vec<Node>, default: Option<Node>) -> Node {
    node(10, Part::Chain(arms), optional(default))
}

pub fn arm(condition: Node, body: Node) -> Node {
    node(18, one(condition), one(body))
}

pub fn looped(label: u16, condition: Option<Node>, body: Node) -> Node {
    Node { tag: label, ..node(11, optional(condition), one(body)) }
}

pub fn broken(label: u16, given: Option<Node>) -> Node {
    Node { tag: label, ..node(12, optional(given), Part::None) }
}

pub fn vec(items: Vec<Node>) -> Node {
    node(13, Part::Chain(items), Part::None)
}

pub fn tuple(items: Vec<Node>) -> Node {
    node(14, Part::Chain(items), Part::None)
}

pub fn object(entries: Vec<Node>) -> Node {
    node(15, Part::Chain(entries), Part::None)
}

pub fn entry(key: &str, given: Node) -> Node {
    node(19, text(key), one(given))
}

pub fn call(function: u16, arguments: Vec<Node>) -> Node {
    Node { tag: function, ..node(16, Part::Chain(arguments), Part::None) }
}

/// Text of a template.
pub fn plain(given: &str) -> Node {
    node(17, text(given), Part::None)
}

/// The condition `let tag = given`, or `let _ = given` without a name.
pub fn let_condition(tag: Option<u16>, given: Node) -> Node {
    Node { op: u8::from(tag.is_some()), tag: tag.unwrap_or(0), ..node(20, one(given), Part::None) }
}

pub fn local(tag: u16) -> Node {
    Node { tag, ..node(21, Part::None, Part::None) }
}

pub fn field(target: Node, key: &str) -> Node {
    node(22, one(target), text(key))
}

pub fn index(target: Node, number: u16) -> Node {
    node(23, one(target), Part::Number(number))
}

#[derive(Default)]
struct Assembler {
    records: Vec<[u64; 7]>,
    literals: Vec<Literal>,
}

impl Assembler {
    fn part(&mut self, part: &Part) -> u64 {
        match part {
            Part::None => 0,
            Part::Number(number) => u64::from(*number),
            Part::Literal(literal) => self.literal(literal),
            Part::Node(node) => self.node(node),
            Part::Chain(nodes) => self.chain(nodes),
        }
    }

    fn literal(&mut self, literal: &Literal) -> u64 {
        let known = self.literals.iter().position(|each| each == literal);
        known.unwrap_or_else(|| {
            self.literals.push(literal.clone());
            self.literals.len() - 1
        }) as u64
    }

    fn node(&mut self, node: &Node) -> u64 {
        self.records.push([u64::from(node.kind), u64::from(node.op), u64::from(node.tag), 0, 0, 0, 0]);
        let at = self.records.len() - 1;
        self.records[at][3] = self.part(&node.a);
        self.records[at][4] = self.part(&node.b);
        at as u64 + 1
    }

    fn chain(&mut self, nodes: &[Node]) -> u64 {
        let numbers: Vec<u64> = nodes
            .iter()
            .scan(0, |before, node| {
                let number = self.node(node);
                if *before != 0 {
                    self.records[*before as usize - 1][5] = number;
                }
                *before = number;
                Some(number)
            })
            .collect();
        numbers.first().copied().unwrap_or(0)
    }
}

/// Fields of the given widths, one after another; their bits fill whole bytes.
fn pack(image: &mut Vec<u8>, widths: &[u32], numbers: &[u64]) {
    let packed = widths.iter().zip(numbers).fold(0u128, |packed, (width, number)| {
        assert!(*number < 1 << width.min(&63) || *width == 64, "{number} does not fit {width} bits");
        packed << width | u128::from(*number)
    });
    let bytes = widths.iter().sum::<u32>() as usize / 8;
    image.extend_from_slice(&packed.to_be_bytes()[16 - bytes..]);
}

fn literal_record(literal: &Literal, text: &mut Vec<u8>) -> (u64, u64) {
    let mut part = |bytes: &[u8]| {
        let start = text.len() as u64;
        text.extend_from_slice(bytes);
        start << 16 | bytes.len() as u64
    };
    match literal {
        Literal::Unit => (0, 0),
        Literal::Bool(held) => (1, u64::from(*held)),
        Literal::Unsigned(number) => (2, *number),
        Literal::Signed(number) => (3, *number as u64),
        Literal::Float(bits) => (4, *bits),
        Literal::Char(char) => (5, u64::from(u32::from(*char))),
        Literal::Text(given) => (6, part(given.as_bytes())),
        Literal::Bytes(given) => (7, part(given)),
    }
}

pub fn image(root: &Node, functions: &[Function]) -> Vec<u8> {
    let mut assembler = Assembler::default();
    let root = assembler.node(root);
    let bodies: Vec<u64> = functions.iter().map(|function| assembler.node(&function.body)).collect();
    let mut text = Vec::new();
    let literals: Vec<(u64, u64)> = assembler.literals.iter().map(|literal| literal_record(literal, &mut text)).collect();
    let counts = [functions.len(), assembler.records.len(), literals.len(), text.len()].map(|count| count as u64);
    let mut image = Vec::new();
    pack(&mut image, &[4, 8, 12, 12, 16, 12], &[1, counts[0], counts[1], counts[2], counts[3], root]);
    for (function, body) in functions.iter().zip(bodies) {
        pack(&mut image, &[12, 4, 10, 6], &[body, u64::from(function.count), u64::from(function.first), 0]);
    }
    for record in &assembler.records {
        pack(&mut image, &[5, 4, 10, 12, 12, 12, 9], record);
    }
    for (kind, payload) in literals {
        pack(&mut image, &[4, 12, 64], &[kind, 0, payload]);
    }
    image.extend(text);
    image
}
