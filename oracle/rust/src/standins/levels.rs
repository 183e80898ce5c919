//! How deep the evaluator stands when a take is refused, read off its own stack: each expression or body that is entered has a frame of `eval_ir`, or one of `eval_ir_scope` where
//! branches or a loop call that themselves.
use std::backtrace::Backtrace;
use std::cell::Cell;

thread_local! {
    static LEVEL: Cell<Option<usize>> = const { Cell::new(None) };
    static WANTED: Cell<bool> = const { Cell::new(false) };
}

/// The level at which a take was refused while this ran.
pub fn counted(run: impl FnOnce()) -> Option<usize> {
    WANTED.set(true);
    LEVEL.set(None);
    run();
    WANTED.set(false);
    LEVEL.get()
}

/// A take is refused.
pub fn refused() {
    if WANTED.get() {
        LEVEL.set(Some(level(&Backtrace::force_capture().to_string())));
    }
}

/// Frames stand innermost first, one a line as 'N: NAME', with lines about their files between them.
fn level(stack: &str) -> usize {
    let frames: Vec<&str> =
        stack.lines().filter_map(|line| line.trim().split_once(": ")).map(|(_, name)| name.rsplit("::").next().unwrap_or(name)).collect();
    let entered = frames.iter().filter(|name| **name == "eval_ir").count();
    let bodies = frames.windows(2).filter(|pair| pair[0] == "eval_ir_scope" && matches!(pair[1], "eval_ir_branches" | "eval_ir_loop")).count();
    entered + bodies
}
