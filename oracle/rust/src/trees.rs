//! Every tree of a few nodes over a small alphabet: every kind and op; the name 0, the labels none and 1, the key "a", the indices 0 and 1; the literals true, 2, the greatest
//! i64, 0.5 and "a"; no function, or one with no argument or with the argument 0.
use crate::assemble::*;

const LABELS: [u16; 2] = [0, 1];
const BINARY_OPS: u8 = 11;
const ASSIGN_OPS: u8 = 6;

struct Trees {
    /// Whether the image has a function to call.
    calls: bool,
    /// The expressions of each number of nodes, from 0 on.
    expressions: Vec<Vec<Node>>,
}

/// Each image of at most so many nodes.
pub fn each_image(nodes: usize, mut seen: impl FnMut(Vec<u8>)) {
    let alone = Trees::up_to(nodes, false);
    for root in alone.expressions.iter().flatten() {
        seen(image(root, &[]));
    }
    let calling = Trees::up_to(nodes - 1, true);
    for of_root in 1..nodes {
        for root in &calling.expressions[of_root] {
            for body in (1..=nodes - of_root).flat_map(|of_body| calling.scopes(of_body)) {
                for count in 0..=1 {
                    seen(image(root, &[Function { body: body.clone(), first: 0, count }]));
                }
            }
        }
    }
}

impl Trees {
    fn up_to(nodes: usize, calls: bool) -> Self {
        let mut trees = Trees { calls, expressions: vec![Vec::new()] };
        for count in 1..=nodes {
            let made = trees.made(count);
            trees.expressions.push(made);
        }
        trees
    }

    fn scopes(&self, nodes: usize) -> Vec<Node> {
        self.expressions[nodes].iter().filter(|each| each.kind == 1).cloned().collect()
    }

    /// Nothing, for no nodes, or an expression.
    fn optional(&self, nodes: usize) -> Vec<Option<Node>> {
        match nodes {
            0 => vec![None],
            _ => self.expressions[nodes].iter().cloned().map(Some).collect(),
        }
    }

    fn targets(&self, nodes: usize) -> Vec<Node> {
        if nodes == 1 {
            return vec![local(0)];
        }
        let inner = if nodes == 0 { Vec::new() } else { self.targets(nodes - 1) };
        inner.into_iter().flat_map(|each| [field(each.clone(), "a"), index(each.clone(), 0), index(each, 1)]).collect()
    }

    fn conditions(&self, nodes: usize) -> Vec<Node> {
        let plain = self.expressions[nodes].iter().cloned();
        let held = if nodes == 0 { [].iter() } else { self.expressions[nodes - 1].iter() };
        plain.chain(held.flat_map(|given| [let_condition(None, given.clone()), let_condition(Some(0), given.clone())])).collect()
    }

    fn arms(&self, nodes: usize) -> Vec<Node> {
        pairs(nodes - 1, |of_left| self.conditions(of_left), |of_right| self.scopes(of_right), arm)
    }

    fn entries(&self, nodes: usize) -> Vec<Node> {
        self.expressions[nodes - 1].iter().map(|given| entry("a", given.clone())).collect()
    }

    fn components(&self, nodes: usize) -> Vec<Node> {
        let text = (nodes == 1).then(|| plain("a"));
        self.expressions[nodes].iter().cloned().chain(text).collect()
    }

    fn made(&self, nodes: usize) -> Vec<Node> {
        let inside = nodes - 1;
        let of = |count: usize| self.expressions[count].clone();
        let mut made = Vec::new();
        if nodes == 1 {
            let literals =
                [Literal::Bool(true), Literal::Signed(2), Literal::Signed(i64::MAX), Literal::Float(0.5f64.to_bits()), Literal::Text("a".into())];
            made.extend(literals.map(value));
            made.push(name(0));
        }
        let chain = |count: usize| chains(count, &|each| of(each));
        for of_chain in 0..=inside {
            made.extend(product(chain(of_chain), self.optional(inside - of_chain), scope));
        }
        for op in 0..BINARY_OPS {
            made.extend(pairs(inside, of, of, |left, right| binary(op, left, right)));
        }
        made.extend(of(inside).into_iter().map(|given| decl(0, given)));
        made.extend(pairs(inside, |count| self.targets(count), of, set));
        for op in 0..ASSIGN_OPS {
            made.extend(pairs(inside, |count| self.targets(count), of, |target, given| assign(op, target, given)));
        }
        made.extend(chains(inside, &|count| self.components(count)).into_iter().map(template));
        made.extend(self.targets(inside).into_iter().map(read));
        for of_chain in 0..=inside {
            let default = inside - of_chain;
            let defaults = if default == 0 { vec![None] } else { self.scopes(default).into_iter().map(Some).collect() };
            made.extend(product(chains(of_chain, &|count| self.arms(count)), defaults, branches));
        }
        for label in LABELS {
            let body_only = self.scopes(inside).into_iter().map(|body| looped(label, None, body));
            made.extend(body_only);
            made.extend(pairs(
                inside,
                |count| self.conditions(count),
                |count| self.scopes(count),
                |condition, body| looped(label, Some(condition), body),
            ));
            made.extend(self.optional(inside).into_iter().map(|given| broken(label, given)));
        }
        made.extend(chain(inside).into_iter().map(vec));
        made.extend(chain(inside).into_iter().filter(|items| !items.is_empty()).map(tuple));
        made.extend(chains(inside, &|count| self.entries(count)).into_iter().map(object));
        if self.calls {
            made.extend(chain(inside).into_iter().map(|arguments| call(0, arguments)));
        }
        made
    }
}

fn product<A: Clone, B: Clone>(lefts: Vec<A>, rights: Vec<B>, join: impl Fn(A, B) -> Node) -> Vec<Node> {
    lefts.iter().flat_map(|left| rights.iter().map(|right| join(left.clone(), right.clone()))).collect()
}

/// Pairs of so many nodes together, each of one node or more.
fn pairs(nodes: usize, left: impl Fn(usize) -> Vec<Node>, right: impl Fn(usize) -> Vec<Node>, join: impl Fn(Node, Node) -> Node) -> Vec<Node> {
    (1..nodes).flat_map(|of_left| product(left(of_left), right(nodes - of_left), &join)).collect()
}

/// Sequences of so many nodes together.
fn chains(nodes: usize, items: &dyn Fn(usize) -> Vec<Node>) -> Vec<Vec<Node>> {
    if nodes == 0 {
        return vec![Vec::new()];
    }
    let mut found = Vec::new();
    for of_first in 1..=nodes {
        let rests = chains(nodes - of_first, items);
        for first in items(of_first) {
            found.extend(rests.iter().map(|rest| [std::slice::from_ref(&first), rest].concat()));
        }
    }
    found
}
