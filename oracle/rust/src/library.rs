//! The proved library's answer, in the words of `judge`.
use gablestrand::{evaluate, Stores};

#[derive(Clone, Debug, PartialEq, Eq)]
pub struct Answer {
    /// 0 for a value.
    pub number: u8,
    pub place: u64,
    pub steps: u64,
    pub output: Vec<u8>,
}

pub struct Library {
    stores: Box<Stores>,
    out: Vec<u8>,
}

impl Library {
    #[allow(clippy::new_without_default)]
    pub fn new() -> Self {
        Library { stores: Box::new(Stores::new()), out: vec![0; 65_536] }
    }

    pub fn run(&mut self, image: &[u8], budget: u64, room: usize) -> Answer {
        match evaluate(image, budget, &mut self.stores, &mut self.out[..room]) {
            gablestrand::Answer::Value { length, steps } => Answer { number: 0, place: 0, steps, output: self.out[..length].to_vec() },
            gablestrand::Answer::Refused { number, place, steps } => Answer { number, place, steps, output: Vec::new() },
        }
    }
}
