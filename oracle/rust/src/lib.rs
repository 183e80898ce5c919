//! The evaluator of rune 0.14.2 as published, run over images of edition 1.
//!
//! `compile::ir` is the published code, compiled as it is (`build.rs`). The modules under `standins` answer the names that it uses; they are ours and have no evaluation in
//! them. The others are ours on purpose: reading an image into the published nodes, encoding a value, and the programs that are compared.
#![allow(unused, unstable_name_collisions)]

// The crates that the published files call are answered by this one.
extern crate self as ryu;
extern crate self as tracing;

#[path = "standins/alloc.rs"]
mod alloc;
#[path = "standins/ast.rs"]
mod ast;
#[path = "standins/compile.rs"]
mod compile;
#[path = "standins/hir.rs"]
mod hir;
#[path = "standins/indexing.rs"]
mod indexing;
#[path = "standins/levels.rs"]
mod levels;
#[path = "standins/limits.rs"]
mod limits;
#[path = "standins/macros.rs"]
mod macros;
#[path = "standins/query.rs"]
mod query;
#[path = "standins/runtime.rs"]
mod runtime;

use runtime::{from_value, TypeHash};

#[derive(Debug, Clone, Copy)]
struct SourceId;

/// Stands in for `ryu::Buffer`: a float in a template, which document 01 refuses. Its digits are std's and not ryu's.
struct Buffer(String);

impl Buffer {
    fn new() -> Self {
        Buffer(String::new())
    }

    fn format(&mut self, float: f64) -> &str {
        limits::float_shown();
        self.0 = format!("{float:?}");
        &self.0
    }
}

macro_rules! trace {
    ($($part:tt)*) => {};
}
use trace;

pub mod assemble;
pub mod image;
pub mod judge;
pub mod library;
mod output;
pub mod programs;
pub mod trees;
pub mod verdict;
