//! Whether the Rust's answer is that of document 01, and if not, which of the differences of docs/DIFFERENCES.md it is.
use crate::image::Program;
use crate::judge::{Answer, What};
use crate::library;

/// Steps beyond the refusal that the Rust may go on for, where document 01 ends a run and the Rust does not. Few, since text that is doubled soon has no room.
const ONWARD: u64 = 20;

/// The differences that docs/DIFFERENCES.md lists.
#[derive(Clone, Copy, Debug, PartialEq, Eq, PartialOrd, Ord)]
pub enum Kind {
    CaughtBreak,
    Overflow,
    FloatShown,
    Depth,
    Cells,
    TextBytes,
    Bindings,
    Pending,
    Nesting,
    Room,
}

#[derive(Clone, Copy, Debug, PartialEq, Eq)]
pub enum Verdict {
    Same,
    Known(Kind),
    Unlisted,
}

/// The Rust's answer at this budget, and how it stands to the one that is expected.
pub fn judged(program: &Program, budget: u64, room: usize, expected: &library::Answer) -> (Answer, Verdict) {
    let given = if matches!(expected.number, 7..=11 | 16 | 25) { budget.min(expected.steps + ONWARD) } else { budget };
    let found = program.run(given, room, false);
    let verdict =
        if same(&found, expected) { Verdict::Same } else { difference(program, room, &found, expected).map_or(Verdict::Unlisted, Verdict::Known) };
    (found, verdict)
}

fn same(found: &Answer, expected: &library::Answer) -> bool {
    let answer = match &found.what {
        What::Value(output) => (0, output.as_slice()),
        What::Refused(number) => (*number, [].as_slice()),
        _ => return false,
    };
    answer == (expected.number, &expected.output) && (found.place, found.steps) == (expected.place, expected.steps)
}

/// The listed difference that this is. What can be seen of it has to agree: the steps always, the place where the Rust names one.
fn difference(program: &Program, room: usize, found: &Answer, expected: &library::Answer) -> Option<Kind> {
    let number = expected.number;
    let mismatch = !cfg!(feature = "popping") && found.what == What::Error("scope length mismatch".into());
    if mismatch && found.steps <= expected.steps {
        return Some(Kind::CaughtBreak);
    }
    let (kind, holds) = match number {
        7 => (Kind::Depth, is_entered(program, room, expected)),
        8 => (Kind::Cells, ends_at_limit(program, room, expected)),
        9 => (Kind::TextBytes, ends_at_limit(program, room, expected)),
        10 => (Kind::Bindings, ends_at_limit(program, room, expected)),
        11 => (Kind::Pending, program.run(expected.steps, room, false).steps == expected.steps),
        16 => (Kind::Overflow, overflows(found, expected)),
        25 => (Kind::FloatShown, ends_at_limit(program, room, expected)),
        26 => (Kind::Nesting, is_unwritten(found, expected)),
        27 => (Kind::Room, is_unwritten(found, expected)),
        _ => return None,
    };
    (holds && found.steps >= expected.steps).then_some(kind)
}

/// The next take would be that of the node which is too deep, and stands at the first level that document 01 refuses.
fn is_entered(program: &Program, room: usize, expected: &library::Answer) -> bool {
    let entered = Answer { what: What::Refused(6), place: expected.place, steps: expected.steps };
    program.run(expected.steps, room, false) == entered && (!cfg!(debug_assertions) || program.level(expected.steps) == Some(129))
}

fn ends_at_limit(program: &Program, room: usize, expected: &library::Answer) -> bool {
    let limited = program.run(expected.steps, room, true);
    (limited.what, limited.steps) == (What::Beyond(expected.number), expected.steps)
}

/// A debug build panics there; a release build goes on with another number.
fn overflows(found: &Answer, expected: &library::Answer) -> bool {
    !cfg!(debug_assertions) || found.what == What::Overflowed && found.steps == expected.steps
}

fn is_unwritten(found: &Answer, expected: &library::Answer) -> bool {
    found.what == What::Unwritten(expected.number) && (found.place, found.steps) == (expected.place, expected.steps)
}
