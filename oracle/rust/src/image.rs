//! Reads an image of edition 1 into the published nodes. The image is one that loads: nothing is tested here, and one that does not load may end in a panic.
use std::rc::Rc;

use crate::ast::Span;
use crate::compile::ir::{self, Ir, IrCondition, IrScope, IrTarget, IrTargetKind, IrTemplateComponent};
use crate::compile::ItemId;
use crate::hir::Variable;
use crate::query::ConstFn;
use crate::runtime::{Inline, Value};

/// The number of the `width` bits from bit `at` on.
fn bits(image: &[u8], at: usize, width: usize) -> u64 {
    (at..at + width).fold(0, |number, bit| number << 1 | u64::from(image[bit / 8] >> (7 - bit % 8) & 1))
}

/// The fields of a record from byte `at` on, by their widths.
fn fields<const N: usize>(image: &[u8], at: usize, widths: [usize; N]) -> [u64; N] {
    let mut next = 8 * at;
    widths.map(|width| {
        next += width;
        bits(image, next - width, width)
    })
}

/// What `Scopes` and the evaluator are given.
pub struct Program {
    pub(crate) root: Ir,
    pub(crate) functions: Rc<[Rc<ConstFn>]>,
}

impl Program {
    pub fn read(image: &[u8]) -> Program {
        let [_, functions, nodes, literals, _, root] = fields(image, 0, [4, 8, 12, 12, 16, 12]).map(|field| field as usize);
        let nodes_at = 8 + 4 * functions;
        let literals_at = nodes_at + 8 * nodes;
        let reader = Reader { image, nodes_at, literals_at, text_at: literals_at + 10 * literals };
        Program { root: reader.ir(root), functions: (0..functions).map(|number| Rc::new(reader.function(number))).collect() }
    }
}

struct Reader<'a> {
    image: &'a [u8],
    nodes_at: usize,
    literals_at: usize,
    text_at: usize,
}

struct Record {
    kind: u64,
    op: u64,
    tag: u16,
    a: usize,
    b: usize,
    next: usize,
}

fn span(number: usize) -> Span {
    Span { node: number as u16 }
}

fn label(tag: u16) -> Option<Box<str>> {
    (tag != 0).then(|| tag.to_string().into())
}

impl Reader<'_> {
    fn record(&self, number: usize) -> Record {
        let [kind, op, tag, a, b, next] = fields(self.image, self.nodes_at + 8 * (number - 1), [5, 4, 10, 12, 12, 12]);
        Record { kind, op, tag: tag as u16, a: a as usize, b: b as usize, next: next as usize }
    }

    fn function(&self, number: usize) -> ConstFn {
        let [body, count, first] = fields(self.image, 8 + 4 * number, [12, 4, 10]);
        let args = (first..first + count).map(|name| Variable(name as u16)).collect();
        let body = body as usize;
        ConstFn { ir_fn: ir::IrFn { span: span(body), args, ir: Ir::new(span(body), self.scope(body)) } }
    }

    // ---- literals

    fn part(&self, payload: u64) -> Vec<u8> {
        let start = self.text_at + (payload >> 16) as usize;
        self.image[start..start + (payload & 0xFFFF) as usize].to_vec()
    }

    fn text(&self, literal: usize) -> String {
        let [_, _, payload] = fields(self.image, self.literals_at + 10 * literal, [4, 12, 64]);
        String::from_utf8(self.part(payload)).expect("UTF-8")
    }

    fn value(&self, literal: usize) -> Value {
        let [kind, _, payload] = fields(self.image, self.literals_at + 10 * literal, [4, 12, 64]);
        Value::from(match kind {
            0 => Inline::Unit,
            1 => Inline::Bool(payload == 1),
            2 => Inline::Unsigned(payload),
            3 => Inline::Signed(payload as i64),
            4 => Inline::Float(f64::from_bits(payload)),
            5 => Inline::Char(char::from_u32(payload as u32).expect("a scalar value")),
            6 => return Value::new(self.text(literal)).expect("allocation does not fail"),
            _ => return Value::bytes(self.part(payload)),
        })
    }

    // ---- parts of expressions

    fn chain<T>(&self, mut number: usize, each: impl Fn(usize) -> T) -> Vec<T> {
        let mut items = Vec::new();
        while number != 0 {
            items.push(each(number));
            number = self.record(number).next;
        }
        items
    }

    fn irs(&self, number: usize) -> Vec<Ir> {
        self.chain(number, |each| self.ir(each))
    }

    fn boxed(&self, number: usize) -> Box<Ir> {
        Box::new(self.ir(number))
    }

    fn optional(&self, number: usize) -> Option<Box<Ir>> {
        (number != 0).then(|| self.boxed(number))
    }

    fn scope(&self, number: usize) -> IrScope {
        let node = self.record(number);
        IrScope { span: span(number), instructions: self.irs(node.a), last: self.optional(node.b) }
    }

    fn target(&self, number: usize) -> IrTarget {
        let node = self.record(number);
        let kind = match node.kind {
            21 => IrTargetKind::Name(Variable(node.tag)),
            22 => IrTargetKind::Field(Box::new(self.target(node.a)), self.text(node.b).into()),
            _ => IrTargetKind::Index(Box::new(self.target(node.a)), node.b),
        };
        IrTarget { span: span(number), kind }
    }

    fn condition(&self, number: usize) -> IrCondition {
        let node = self.record(number);
        if node.kind != 20 {
            return IrCondition::Ir(self.ir(number));
        }
        let pat = if node.op == 0 { ir::IrPat::Ignore } else { ir::IrPat::Binding(Variable(node.tag)) };
        IrCondition::Let(ir::IrLet { span: span(number), pat, ir: self.ir(node.a) })
    }

    fn component(&self, number: usize) -> IrTemplateComponent {
        let node = self.record(number);
        match node.kind {
            17 => IrTemplateComponent::String(self.text(node.a).into()),
            _ => IrTemplateComponent::Ir(self.ir(number)),
        }
    }

    fn arm(&self, number: usize) -> (IrCondition, IrScope) {
        let node = self.record(number);
        (self.condition(node.a), self.scope(node.b))
    }

    fn entry(&self, number: usize) -> (Box<str>, Ir) {
        let node = self.record(number);
        (self.text(node.a).into(), self.ir(node.b))
    }

    // ---- expressions

    fn ir(&self, number: usize) -> Ir {
        let node = self.record(number);
        let span = span(number);
        match node.kind {
            1 => Ir::new(span, self.scope(number)),
            2 => Ir::new(span, ir::IrBinary { span, op: binary_op(node.op), lhs: self.boxed(node.a), rhs: self.boxed(node.b) }),
            3 => Ir::new(span, ir::IrDecl { span, name: Variable(node.tag), value: self.boxed(node.a) }),
            4 => Ir::new(span, ir::IrSet { span, target: self.target(node.a), value: self.boxed(node.b) }),
            5 => Ir::new(span, ir::IrAssign { span, target: self.target(node.a), value: self.boxed(node.b), op: assign_op(node.op) }),
            6 => Ir::new(span, ir::IrTemplate { span, components: self.chain(node.a, |each| self.component(each)) }),
            7 => Ir::new(span, Variable(node.tag)),
            8 => Ir::new(span, self.target(node.a)),
            9 => Ir::new(span, self.value(node.a)),
            10 => Ir::new(span, self.branches(span, &node)),
            11 => Ir::new(span, self.looped(span, &node)),
            12 => Ir::new(span, ir::IrBreak { span, label: label(node.tag), expr: self.optional(node.a) }),
            13 => Ir::new(span, ir::IrVec { span, items: self.irs(node.a).into() }),
            14 => Ir::new(span, ir::Tuple { span, items: self.irs(node.a).into() }),
            15 => Ir::new(span, ir::IrObject { span, assignments: self.chain(node.a, |each| self.entry(each)).into() }),
            16 => Ir::new(span, ir::IrCall { span, args: self.irs(node.a), id: ItemId(node.tag) }),
            kind => panic!("kind {kind} is no expression"),
        }
    }

    fn branches(&self, span: Span, node: &Record) -> ir::IrBranches {
        let default_branch = (node.b != 0).then(|| self.scope(node.b));
        ir::IrBranches { span, branches: self.chain(node.a, |each| self.arm(each)), default_branch }
    }

    fn looped(&self, span: Span, node: &Record) -> ir::IrLoop {
        let condition = (node.a != 0).then(|| Box::new(self.condition(node.a)));
        ir::IrLoop { span, label: label(node.tag), condition, body: self.scope(node.b) }
    }
}

fn binary_op(op: u64) -> ir::IrBinaryOp {
    use ir::IrBinaryOp::*;
    [Add, Sub, Mul, Div, Shl, Shr, Lt, Lte, Eq, Gt, Gte][op as usize]
}

fn assign_op(op: u64) -> ir::IrAssignOp {
    use ir::IrAssignOp::*;
    [Add, Sub, Mul, Div, Shl, Shr][op as usize]
}
