//! One run of the published evaluator, and what it came to.
use std::any::Any;
use std::cell::Cell;
use std::fmt;
use std::mem::size_of;
use std::panic::{catch_unwind, set_hook, take_hook, AssertUnwindSafe};

use crate::compile::ir::{Budget, Interpreter, Scopes};
use crate::compile::{Error, ErrorKind, IrErrorKind, ItemId, ModId};
use crate::image::Program;
use crate::levels;
use crate::limits::{self, Beyond};
use crate::output::encoded;
use crate::query::{Query, Used};
use crate::runtime::{forget_all, RuntimeError, Value};

/// What a run came to.
#[derive(Clone, Debug, PartialEq, Eq)]
pub enum What {
    /// A value, encoded.
    Value(Vec<u8>),
    /// A value that document 01 refuses to write: 26 or 27.
    Unwritten(u8),
    /// An error, by the number that document 01 has for its class.
    Refused(u8),
    /// An error that document 01 has no number for.
    Error(String),
    /// Overflow in the debug build, which panics.
    Overflowed,
    /// The end of a run with limits: 8, 9, 10 or 25.
    Beyond(u8),
}

/// The place is the node of an error's span, the root for 26 and 27, and 0 for a value, overflow and limits.
#[derive(Clone, Debug, PartialEq, Eq)]
pub struct Answer {
    pub what: What,
    pub place: u64,
    pub steps: u64,
}

impl fmt::Display for Answer {
    fn fmt(&self, f: &mut fmt::Formatter<'_>) -> fmt::Result {
        let Answer { what, place, steps } = self;
        match what {
            What::Value(output) => write!(f, "value {} after {steps} steps", hex(output)),
            What::Unwritten(number) => write!(f, "value that is not written, {number} at {place}, after {steps} steps"),
            What::Refused(6) => write!(f, "budget spent, 6 at {place} after {steps} steps"),
            What::Refused(number) => write!(f, "error {number} at {place} after {steps} steps"),
            What::Error(message) => write!(f, "error '{message}' at {place} after {steps} steps"),
            What::Overflowed => write!(f, "overflow panics after {steps} steps"),
            What::Beyond(number) => write!(f, "limit {number} after {steps} steps"),
        }
    }
}

pub fn hex(bytes: &[u8]) -> String {
    match bytes {
        [] => "-".to_string(),
        _ => bytes.iter().map(|byte| format!("{byte:02x}")).collect(),
    }
}

pub fn from_hex(word: &str) -> Vec<u8> {
    let digits = if word == "-" { "" } else { word };
    (0..digits.len()).step_by(2).map(|at| u8::from_str_radix(&digits[at..at + 2], 16).expect("hex")).collect()
}

thread_local! {
    static JUDGING: Cell<bool> = const { Cell::new(false) };
}

/// Lets the panics of a run pass in silence: they are answers.
pub fn keep_quiet() {
    let usual = take_hook();
    set_hook(Box::new(move |info| {
        if !JUDGING.get() {
            usual(info);
        }
    }));
}

// The takes that are left stand in the only field of `Budget`, which is private; a struct of its size has it at its start.
const _: () = assert!(size_of::<Budget>() == size_of::<usize>());

fn left(budget: &Budget) -> u64 {
    // SAFETY: the struct has one field, a usize, and the size of a usize.
    unsafe { *std::ptr::from_ref(budget).cast::<usize>() as u64 }
}

impl Program {
    /// The level of the node that is being entered when this budget is spent. A release build does not keep what tells it.
    pub fn level(&self, budget: u64) -> Option<usize> {
        levels::counted(|| drop(self.run(budget, 0, false)))
    }

    /// Runs the program as `ast::Expr::eval` does. With limits it ends at the first excess of those that the stand-ins count.
    pub fn run(&self, budget: u64, room: usize, limited: bool) -> Answer {
        limits::start(limited);
        let mut interpreter = Interpreter {
            budget: Budget::new(budget as usize),
            module: ModId,
            item: ItemId(0),
            scopes: Scopes::new().expect("allocation does not fail"),
            q: Query::new(self.functions.clone()),
        };
        JUDGING.set(true);
        let ended = catch_unwind(AssertUnwindSafe(|| interpreter.eval_value(&self.root, Used::Used)));
        JUDGING.set(false);
        limits::start(false);
        let steps = budget - left(&interpreter.budget);
        let root = u64::from(self.root.span.node);
        let (what, place) = match ended {
            Ok(Ok(value)) => written(&value, room, root),
            Ok(Err(error)) => (class(&error), u64::from(error.span.node)),
            Err(panicked) => (panic_class(panicked.as_ref()), 0),
        };
        drop(interpreter);
        forget_all();
        Answer { what, place, steps }
    }
}

fn written(value: &Value, room: usize, root: u64) -> (What, u64) {
    match encoded(value, room) {
        Ok(output) => (What::Value(output), 0),
        Err(number) => (What::Unwritten(number), root),
    }
}

fn class(error: &Error) -> What {
    What::Refused(match &error.kind {
        ErrorKind::Ir(IrErrorKind::BudgetExceeded) => 6,
        ErrorKind::Ir(IrErrorKind::NotConst) => 12,
        ErrorKind::Ir(IrErrorKind::BreakOutsideOfLoop) => 13,
        ErrorKind::Runtime(RuntimeError::ExpectedBool) => 15,
        ErrorKind::MissingLocal => 20,
        ErrorKind::Ir(IrErrorKind::MissingField { .. }) => 21,
        ErrorKind::Ir(IrErrorKind::MissingIndex { .. }) => 22,
        ErrorKind::Runtime(RuntimeError::ExpectedType) => 23,
        ErrorKind::Ir(IrErrorKind::ArgumentCountMismatch { .. }) => 24,
        ErrorKind::Ir(kind) => return What::Error(format!("{kind:?}")),
        ErrorKind::Message(message) => match message.as_str() {
            "break with value is not supported for unconditional loops" => 14,
            "division by zero" => 17,
            "cannot be converted to shift operand" | "bad operand" => 18,
            "unsupported operands" => 19,
            "missing index" => 22,
            _ => return What::Error(message.clone()),
        },
    })
}

fn panic_class(panicked: &(dyn Any + Send)) -> What {
    if let Some(Beyond(number)) = panicked.downcast_ref() {
        return What::Beyond(*number);
    }
    let message = panicked.downcast_ref::<String>().map(String::as_str).or(panicked.downcast_ref::<&str>().copied()).unwrap_or("?");
    match message.ends_with("with overflow") {
        true => What::Overflowed,
        false => What::Error(format!("panic: {message}")),
    }
}
