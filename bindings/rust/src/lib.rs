//! Evaluation of constant images, edition 1: a safe way to call the proved library.
//!
//! ```no_run
//! use gablestrand::{evaluate, Answer, Stores};
//!
//! let image = std::fs::read("samples/site.image").unwrap();
//! let mut stores = Stores::new();
//! let mut out = [0; 4096];
//! match evaluate(&image, 1_000_000, &mut stores, &mut out) {
//!     Answer::Value { length, steps } => println!("{steps} steps: {:02x?}", &out[..length]),
//!     Answer::Refused { number, place, steps } => println!("refusal {number} at {place} after {steps} steps"),
//! }
//! ```
//!
//! The library keeps nothing between calls and allocates nothing; docs/COSTS.md says how much stack it needs.
#![no_std]

/// The words that a run needs.
pub const WORDS: usize = 8_192;

/// The bytes that a run needs.
pub const BYTES: usize = 16_384;

/// The stores that a run works in. What stands in them between runs does not matter; a run leaves them zero.
pub struct Stores {
    words: [u64; WORDS],
    bytes: [u8; BYTES],
}

impl Stores {
    pub const fn new() -> Self {
        Stores { words: [0; WORDS], bytes: [0; BYTES] }
    }
}

impl Default for Stores {
    fn default() -> Self {
        Self::new()
    }
}

/// What became of a run.
#[derive(Clone, Copy, Debug, PartialEq, Eq)]
pub enum Answer {
    /// The value stands in the first `length` bytes of the output.
    Value { length: usize, steps: u64 },
    /// The output is as it was. The place is a node, for 3 a byte offset, and 0 for 1, 2 and 5.
    Refused { number: u8, place: u64, steps: u64 },
}

impl Answer {
    pub fn steps(&self) -> u64 {
        match *self {
            Answer::Value { steps, .. } | Answer::Refused { steps, .. } => steps,
        }
    }
}

/// Evaluates an image with a budget of so many steps.
pub fn evaluate(image: &[u8], budget: u64, stores: &mut Stores, out: &mut [u8]) -> Answer {
    evaluate_in(image, budget, &mut stores.words, &mut stores.bytes, out)
}

/// The same in stores of any length: refusal 5 where one of them is too short, and then nothing is touched. Of longer ones only the
/// first [`WORDS`] words and [`BYTES`] bytes are used.
pub fn evaluate_in(image: &[u8], budget: u64, words: &mut [u64], bytes: &mut [u8], out: &mut [u8]) -> Answer {
    let (mut place, mut steps, mut length) = (0, 0, 0);
    // SAFETY: each pointer is that of a slice or number that lives through the call, with the slice's own length, and none overlaps
    // one that is written. The library's promise, proved for every input, is that it stays within them.
    let number = unsafe {
        gablestrand_evaluate(
            image.as_ptr(),
            image.len(),
            budget,
            words.as_mut_ptr(),
            words.len(),
            bytes.as_mut_ptr(),
            bytes.len(),
            out.as_mut_ptr(),
            out.len(),
            &mut place,
            &mut steps,
            &mut length,
        )
    };
    match number {
        0 => Answer::Value { length: length as usize, steps },
        _ => Answer::Refused { number, place, steps },
    }
}

/// What the number of a refusal means, in a few words.
pub fn meaning(number: u8) -> &'static str {
    match number {
        1 => "length of the image",
        2 => "header of the image",
        3 => "bad record",
        4 => "nodes are no tree",
        5 => "store too short",
        6 => "budget used up",
        7 => "too deep",
        8 => "no cells left",
        9 => "no text bytes left",
        10 => "too many bindings",
        11 => "too many pending items",
        12 => "not constant",
        13 => "break outside of a loop",
        14 => "break with a value from a loop with a condition",
        15 => "condition is not a bool",
        16 => "overflow",
        17 => "division",
        18 => "shift operand",
        19 => "operands of an assignment",
        20 => "no such name",
        21 => "no such field",
        22 => "no such index",
        23 => "value has no fields or items",
        24 => "argument count",
        25 => "float in a template",
        26 => "value nested too deep",
        27 => "no room in the output",
        _ => "no refusal of edition 1",
    }
}

extern "C" {
    fn gablestrand_evaluate(
        image: *const u8,
        image_length: usize,
        budget: u64,
        words: *mut u64,
        words_length: usize,
        bytes: *mut u8,
        bytes_length: usize,
        out: *mut u8,
        out_length: usize,
        place: *mut u64,
        steps: *mut u64,
        length: *mut u64,
    ) -> u8;
}
