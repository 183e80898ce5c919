//! Counts what document 01 limits and the Rust does not, where the stand-ins see it. A run with limits ends at the first excess, so that the steps up to there can
//! be compared; a run without goes on, as the Rust does.
use std::cell::Cell;
use std::panic::resume_unwind;

const CELLS: usize = 1_024;
const TEXT: usize = 16_384;
const BINDINGS: usize = 256;

/// The number of document 01 for what a run with limits ended at.
pub struct Beyond(pub u8);

#[derive(Clone, Copy, Default)]
struct Counts {
    limited: bool,
    cells: usize,
    text: usize,
    bindings: usize,
}

thread_local! {
    static COUNTS: Cell<Counts> = const { Cell::new(Counts { limited: false, cells: 0, text: 0, bindings: 0 }) };
}

pub fn start(limited: bool) {
    COUNTS.set(Counts { limited, ..Counts::default() });
}

fn count(more: impl Fn(&mut Counts) -> bool, number: u8) {
    let mut counts = COUNTS.get();
    let beyond = more(&mut counts);
    COUNTS.set(counts);
    if beyond && counts.limited {
        resume_unwind(Box::new(Beyond(number)));
    }
}

pub fn cells(more: usize) {
    count(
        |counts| {
            counts.cells += more;
            counts.cells > CELLS
        },
        8,
    );
}

pub fn text(more: usize) {
    count(
        |counts| {
            counts.text += more;
            counts.text > TEXT
        },
        9,
    );
}

pub fn bound() {
    count(
        |counts| {
            counts.bindings += 1;
            counts.bindings > BINDINGS
        },
        10,
    );
}

pub fn unbound(fewer: usize) {
    count(
        |counts| {
            counts.bindings = counts.bindings.saturating_sub(fewer);
            false
        },
        10,
    );
}

pub fn float_shown() {
    count(|_| true, 25);
}
