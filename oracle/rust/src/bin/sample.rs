//! Writes a sample of the Rust's answers in the form of crates/worked/data, to standard output.
//!
//!   sample IMAGES        random programs and small trees, so many of them, none twice, none longer than 560 bytes
//!
//! A difference that docs/DIFFERENCES.md lists is left out, nesting and room apart, where the Rust has a value and its encoding is judged here.
use std::collections::{BTreeMap, BTreeSet};
use std::thread;

use judge::image::Program;
use judge::judge::{hex, keep_quiet, Answer, What};
use judge::library::Library;
use judge::programs::{random_program, Random};
use judge::trees::each_image;
use judge::verdict::{judged, Kind, Verdict};

const STACK: usize = 1 << 28;
/// More than programs of this size need that come to an end.
const LARGE: u64 = 5_000;
const LONGEST: usize = 560;
/// Stores with a tail that has to stay as it was.
const STORES: (usize, usize) = (8_192 + 16, 16_384 + 16);

const HEAD: &str = "\
# Answers of the published evaluator (rune 0.14.2, its Scopes::pop edited as docs/DIFFERENCES.md says), made by oracle/rust with
#   cargo run --release --manifest-path oracle/rust/Cargo.toml --features popping --bin sample 2100 > oracle/replay.txt
# Left out is what docs/DIFFERENCES.md lists as differing, but for nesting and room: there the Rust has a value, and 26 and 27 are its encoding's.
# A line that begins with # is text. Every other line has nine words: the image, the budget, the lengths of the output, of the word store and of the
# byte store; the answer's number (0 for a value), its place, its steps, its output. Numbers are decimal; image and output are hex, - where there
# are no bytes.";

fn main() {
    keep_quiet();
    let images: usize = std::env::args().nth(1).expect("how many images").parse().expect("a number");
    thread::Builder::new().stack_size(STACK).spawn(move || Sample::new(images).write()).expect("a thread").join().expect("a sample");
}

struct Sample {
    images: usize,
    library: Library,
    /// How many images have an answer of each number at the large budget.
    numbers: BTreeMap<u8, usize>,
    random: Random,
    lines: Vec<String>,
    taken: BTreeSet<Vec<u8>>,
}

impl Sample {
    fn new(images: usize) -> Self {
        Sample { images, library: Library::new(), numbers: BTreeMap::new(), random: Random::new(8), lines: Vec::new(), taken: BTreeSet::new() }
    }

    fn write(mut self) {
        let mut trees = Vec::new();
        each_image(3, |image| trees.push(image));
        while self.taken.len() < self.images {
            let image = if self.random.percent(5) { self.random.pick(&trees) } else { random_program(&mut self.random).0 };
            if image.len() <= LONGEST && !self.taken.contains(&image) {
                self.image(&image);
            }
        }
        println!("{HEAD}");
        println!("# {} images, {} answers.", self.taken.len(), self.lines.len());
        self.lines.iter().for_each(|line| println!("{line}"));
    }

    /// Takes an image unless its answer has a number that many have already: the sample is for every number, and most programs end in a few.
    fn image(&mut self, image: &[u8]) {
        let room = self.random.pick(&[4_096, 4_096, 4_096, 40, 9]);
        let program = Program::read(image);
        let Some(answer) = self.answer(image, &program, LARGE, room) else { return };
        let number = number(&answer);
        let count = self.numbers.entry(number).or_default();
        if *count >= self.images / if number == 0 { 4 } else { 17 } {
            return;
        }
        *count += 1;
        self.taken.insert(image.to_vec());
        self.line(image, LARGE, room, &answer);
        if answer.steps > 0 && self.random.percent(25) {
            let budget = self.random.below(answer.steps as usize) as u64;
            if let Some(answer) = self.answer(image, &program, budget, room) {
                self.line(image, budget, room, &answer);
            }
        }
    }

    /// The Rust's answer, unless it is one that is left out.
    fn answer(&mut self, image: &[u8], program: &Program, budget: u64, room: usize) -> Option<Answer> {
        let expected = self.library.run(image, budget, room);
        let (answer, verdict) = judged(program, budget, room, &expected);
        match verdict {
            Verdict::Same | Verdict::Known(Kind::Nesting | Kind::Room) => Some(answer),
            Verdict::Known(_) => None,
            Verdict::Unlisted => panic!("{} {budget} {room}: {answer}", hex(image)),
        }
    }

    fn line(&mut self, image: &[u8], budget: u64, room: usize, answer: &Answer) {
        let output = match &answer.what {
            What::Value(output) => hex(output),
            _ => "-".into(),
        };
        let (words, bytes) = STORES;
        self.lines.push(format!("{} {budget} {room} {words} {bytes} {} {} {} {output}", hex(image), number(answer), answer.place, answer.steps));
    }
}

fn number(answer: &Answer) -> u8 {
    match answer.what {
        What::Refused(number) | What::Unwritten(number) => number,
        _ => 0,
    }
}
