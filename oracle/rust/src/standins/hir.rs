//! Stands in for `rune::hir`: variables are numbers, and the rest is there for the published files to compile.
use std::fmt;
use std::marker::PhantomData;

use crate::ast::{Span, Spanned};
use crate::compile;
use crate::query::Query;
use crate::SourceId;

#[derive(Debug, Clone, Copy, PartialEq, Eq, Hash)]
pub struct Variable(pub u16);

impl fmt::Display for Variable {
    fn fmt(&self, f: &mut fmt::Formatter<'_>) -> fmt::Result {
        self.0.fmt(f)
    }
}

pub struct Arena;

impl Arena {
    pub fn new() -> Self {
        Arena
    }
}

pub struct Ctxt<'hir>(PhantomData<&'hir ()>);

impl<'hir> Ctxt<'hir> {
    pub fn with_const(_: &'hir Arena, _: Query<'_, '_>, _: SourceId) -> compile::Result<Self> {
        unreachable!("there is no syntax tree")
    }
}

pub mod lowering {
    use crate::{ast, compile};

    pub fn expr<'hir>(_: &mut super::Ctxt<'hir>, _: &ast::Expr) -> compile::Result<super::Expr<'hir>> {
        unreachable!("there is no syntax tree")
    }
}

pub struct Expr<'hir>(PhantomData<&'hir ()>);

pub struct Block<'hir>(PhantomData<&'hir ()>);

pub struct ItemFn<'hir> {
    pub args: &'hir [FnArg<'hir>],
    pub body: Block<'hir>,
}

impl Spanned for ItemFn<'_> {
    fn span(&self) -> Span {
        unreachable!("there is no syntax tree")
    }
}

pub enum FnArg<'hir> {
    SelfValue,
    Pat(PatBinding<'hir>),
}

impl Spanned for FnArg<'_> {
    fn span(&self) -> Span {
        unreachable!("there is no syntax tree")
    }
}

pub struct PatBinding<'hir> {
    pub pat: Pat<'hir>,
    pub names: (),
}

pub struct Pat<'hir> {
    pub kind: PatKind<'hir>,
    pub names: (),
}

impl Spanned for Pat<'_> {
    fn span(&self) -> Span {
        unreachable!("there is no syntax tree")
    }
}

pub enum PatKind<'hir> {
    Ignore,
    Rest,
    Path(&'hir PatPathKind),
}

pub enum PatPathKind {
    Kind,
    Ident(Variable),
}

pub struct ExprBreak<'hir> {
    pub label: Option<&'hir str>,
    pub expr: Option<&'hir Expr<'hir>>,
}
