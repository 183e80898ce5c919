//! Stands in for `rune::ast`. A span is the number of a node, so that places can be compared.
pub use derives::Spanned;

#[derive(Debug, Clone, Copy, PartialEq, Eq)]
pub struct Span {
    pub node: u16,
}

pub trait Spanned {
    fn span(&self) -> Span;
}

impl Spanned for Span {
    fn span(&self) -> Span {
        *self
    }
}

impl<T: Spanned + ?Sized> Spanned for &T {
    fn span(&self) -> Span {
        (**self).span()
    }
}

impl<T: Spanned + ?Sized> Spanned for Box<T> {
    fn span(&self) -> Span {
        (**self).span()
    }
}

/// The syntax tree, which nothing here has.
#[derive(Clone)]
pub enum Expr {}
