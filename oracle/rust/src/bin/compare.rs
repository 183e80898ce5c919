//! Compares the library with the published evaluator. Each program is run until its end or a budget; where it comes to an end after n steps, at the budgets 0, 1, n-1, n, n+1
//! and a large one. Compared are values, numbers, places and steps. A difference that docs/DIFFERENCES.md lists is counted by its kind; any other fails.
//!
//!   compare [--seed N] [--count N]    so many random programs, 10,000 by default
//!   compare --trees N                 every tree of at most N nodes over a small alphabet
use std::collections::{BTreeMap, BTreeSet};
use std::process::exit;
use std::thread;

use judge::image::Program;
use judge::judge::{hex, keep_quiet};
use judge::library::{Answer, Library};
use judge::programs::{random_program, Random};
use judge::trees::each_image;
use judge::verdict::{judged, Kind, Verdict};

const STACK: usize = 1 << 28;
const LARGE: u64 = 1_000_000;
const ROOM: usize = 4_096;
/// Unlisted differences after which the comparison ends.
const ENOUGH: u64 = 10;

fn main() {
    keep_quiet();
    let arguments: Vec<String> = std::env::args().skip(1).collect();
    let run = thread::Builder::new().stack_size(STACK).spawn(move || compared(&arguments));
    exit(run.expect("a thread").join().expect("a run"));
}

fn compared(arguments: &[String]) -> i32 {
    let option = |name: &str| arguments.iter().position(|each| each == name).map(|at| arguments[at + 1].parse::<u64>().expect("a number"));
    let mut random = Random::new(option("--seed").unwrap_or(1));
    let mut comparison = Comparison::new();
    if let Some(nodes) = option("--trees") {
        each_image(nodes as usize, |image| comparison.program(&image, 1_000, ROOM));
    } else {
        for _ in 0..option("--count").unwrap_or(10_000) {
            let (image, budget) = random_program(&mut random);
            let room = random.pick(&[ROOM, ROOM, ROOM, 40, 130, 9, 0]);
            comparison.program(&image, budget, room);
        }
    }
    comparison.told()
}

struct Comparison {
    library: Library,
    programs: u64,
    compared: u64,
    unlisted: u64,
    numbers: BTreeMap<u8, u64>,
    kinds: BTreeMap<Kind, u64>,
}

impl Comparison {
    fn new() -> Self {
        Comparison { library: Library::new(), programs: 0, compared: 0, unlisted: 0, numbers: BTreeMap::new(), kinds: BTreeMap::new() }
    }

    fn program(&mut self, image: &[u8], budget: u64, room: usize) {
        if self.unlisted >= ENOUGH {
            return;
        }
        let first = self.library.run(image, budget, room);
        assert!(!(1..=5).contains(&first.number), "{} does not load: {first:?}", hex(image));
        self.programs += 1;
        let program = Program::read(image);
        let budgets = match first.number {
            6 => BTreeSet::from([budget]),
            _ => BTreeSet::from([0, 1, first.steps.saturating_sub(1), first.steps, first.steps + 1, LARGE]),
        };
        for budget in budgets {
            let expected = self.library.run(image, budget, room);
            self.case(image, &program, budget, room, &expected);
        }
    }

    fn case(&mut self, image: &[u8], program: &Program, budget: u64, room: usize, expected: &Answer) {
        let (found, verdict) = judged(program, budget, room, expected);
        self.compared += 1;
        *self.numbers.entry(expected.number).or_default() += 1;
        match verdict {
            Verdict::Same => {}
            Verdict::Known(kind) => *self.kinds.entry(kind).or_default() += 1,
            Verdict::Unlisted => {
                self.unlisted += 1;
                println!("{} {budget} {room}\n  expected: {expected:?}\n  the Rust: {found}", hex(image));
            }
        }
    }

    fn told(&self) -> i32 {
        let build = if cfg!(debug_assertions) { "debug" } else { "release" };
        let scopes = if cfg!(feature = "popping") { "Scopes::pop edited" } else { "as published" };
        println!("{build} build, {scopes}: {} programs, {} compared", self.programs, self.compared);
        println!("  answers by number: {:?}", self.numbers);
        println!("  differ as listed: {:?}", self.kinds);
        println!("  differ otherwise: {}", self.unlisted);
        i32::from(self.unlisted != 0)
    }
}
