//! Stands in for `rune::compile`: errors with a span, and `ir`, which is the published code itself.
use std::convert::Infallible;

use crate::ast::{Span, Spanned};
use crate::compile::ir::scopes::MissingLocal;
use crate::runtime::{RuntimeError, TypeInfo};
use crate::{alloc, levels};

include!(concat!(env!("OUT_DIR"), "/published.rs"));

pub type Result<T, E = Error> = core::result::Result<T, E>;

#[derive(Debug)]
pub struct Error {
    pub span: Span,
    pub kind: ErrorKind,
}

#[derive(Debug)]
pub enum ErrorKind {
    Message(String),
    Ir(IrErrorKind),
    MissingLocal,
    Runtime(RuntimeError),
}

#[derive(Debug)]
pub enum IrErrorKind {
    ConstCycle,
    NotConst,
    BreakOutsideOfLoop,
    UnsupportedMeta { meta: meta::Info },
    ArgumentCountMismatch { actual: usize, expected: usize },
    MissingField { field: Box<str> },
    MissingIndex { index: usize },
    BudgetExceeded,
}

impl Error {
    pub fn new<K>(spanned: impl Spanned, kind: K) -> Self
    where
        ErrorKind: From<K>,
    {
        let kind = ErrorKind::from(kind);
        if matches!(kind, ErrorKind::Ir(IrErrorKind::BudgetExceeded)) {
            levels::refused();
        }
        Error { span: spanned.span(), kind }
    }

    pub fn msg(spanned: impl Spanned, message: impl ToString) -> Self {
        Error { span: spanned.span(), kind: ErrorKind::msg(message) }
    }

    pub fn expected_type<T>(spanned: impl Spanned, _: TypeInfo) -> Self {
        Error::new(spanned, RuntimeError::ExpectedType)
    }
}

impl ErrorKind {
    pub fn msg(message: impl ToString) -> Self {
        ErrorKind::Message(message.to_string())
    }
}

impl From<&'static str> for ErrorKind {
    fn from(message: &'static str) -> Self {
        ErrorKind::msg(message)
    }
}

impl From<IrErrorKind> for ErrorKind {
    fn from(kind: IrErrorKind) -> Self {
        ErrorKind::Ir(kind)
    }
}

impl From<MissingLocal> for ErrorKind {
    fn from(_: MissingLocal) -> Self {
        ErrorKind::MissingLocal
    }
}

impl From<RuntimeError> for ErrorKind {
    fn from(error: RuntimeError) -> Self {
        ErrorKind::Runtime(error)
    }
}

impl From<alloc::Error> for ErrorKind {
    fn from(error: alloc::Error) -> Self {
        match error {}
    }
}

impl From<alloc::Error> for Error {
    fn from(error: alloc::Error) -> Self {
        match error {}
    }
}

impl From<Infallible> for Error {
    fn from(error: Infallible) -> Self {
        match error {}
    }
}

pub trait WithSpan<T> {
    fn with_span(self, spanned: impl Spanned) -> Result<T>;
}

impl<T, E> WithSpan<T> for core::result::Result<T, E>
where
    ErrorKind: From<E>,
{
    fn with_span(self, spanned: impl Spanned) -> Result<T> {
        self.map_err(|error| Error::new(spanned, error))
    }
}

/// The number of a function.
#[derive(Debug, Clone, Copy)]
pub struct ItemId(pub u16);

#[derive(Debug, Clone, Copy)]
pub struct ModId;

/// Constants of other modules, of which there are none here.
pub mod meta {
    use super::Result;
    use crate::query::{Hash, Pool};

    pub enum Kind {
        Const,
        Other,
    }

    pub struct Meta {
        pub kind: Kind,
        pub hash: Hash,
    }

    #[derive(Debug)]
    pub enum Info {}

    impl Meta {
        pub fn info(&self, _: Pool) -> Result<Info> {
            unreachable!("there are no items")
        }
    }
}
