//! Stands in for the compiler from syntax trees to nodes: nodes are made from images here.
use crate::compile::{self, ir};
use crate::hir;
use crate::query::Query;
use crate::SourceId;

pub(crate) struct Ctxt<'a, 'arena> {
    pub(crate) source_id: SourceId,
    pub(crate) q: Query<'a, 'arena>,
}

pub(crate) fn expr(_: &hir::Expr<'_>, _: &mut Ctxt<'_, '_>) -> compile::Result<ir::Ir> {
    unreachable!("there is no syntax tree")
}

pub(crate) fn block(_: &hir::Block<'_>, _: &mut Ctxt<'_, '_>) -> compile::Result<ir::IrScope> {
    unreachable!("there is no syntax tree")
}
