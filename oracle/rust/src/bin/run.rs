//! Runs images through the published evaluator.
//!
//!   run [--limits] < CASES      for each line 'IMAGE BUDGET [ROOM]', the image in hex, what it came to; with limits it ends at the first excess that the stand-ins count
//!   run --answers FILE..        compares with stored answers of the form of crates/worked/data, refusals 1 to 5 left out
use std::collections::BTreeMap;
use std::io::{read_to_string, stdin};
use std::process::exit;
use std::thread;

use judge::image::Program;
use judge::judge::{from_hex, keep_quiet};
use judge::library::Answer;
use judge::verdict::{judged, Verdict};

// Recursion in the Rust ends with the stack.
const STACK: usize = 1 << 30;

fn main() {
    keep_quiet();
    let arguments: Vec<String> = std::env::args().skip(1).collect();
    let run = thread::Builder::new().stack_size(STACK).spawn(move || match arguments.first().map(String::as_str) {
        Some("--answers") => answers(&arguments[1..]),
        given => cases(given == Some("--limits")),
    });
    exit(run.expect("a thread").join().expect("a run"));
}

fn number(word: &str) -> u64 {
    word.parse().expect("a number")
}

fn cases(limited: bool) -> i32 {
    for line in read_to_string(stdin()).expect("text").lines().filter(|line| !line.starts_with('#')) {
        let words: Vec<&str> = line.split_whitespace().collect();
        if let [image, budget, rest @ ..] = words.as_slice() {
            let room = rest.first().map_or(4_096, |room| number(room) as usize);
            println!("{}", Program::read(&from_hex(image)).run(number(budget), room, limited));
        }
    }
    0
}

fn answers(files: &[String]) -> i32 {
    let mut counts = BTreeMap::new();
    for line in files.iter().flat_map(|file| std::fs::read_to_string(file).expect("a file of answers").lines().map(String::from).collect::<Vec<_>>())
    {
        if line.starts_with('#') {
            continue;
        }
        let words: Vec<&str> = line.split(' ').collect();
        let [image, budget, room, _, _, refusal, place, steps, output] = words[..] else { panic!("not nine words: {line}") };
        let expected = Answer { number: number(refusal) as u8, place: number(place), steps: number(steps), output: from_hex(output) };
        if (1..=5).contains(&expected.number) {
            continue;
        }
        let (found, verdict) = judged(&Program::read(&from_hex(image)), number(budget), number(room) as usize, &expected);
        *counts.entry(format!("{verdict:?}")).or_insert(0) += 1;
        if verdict == Verdict::Unlisted {
            println!("{line}\n  the Rust: {found}");
        }
    }
    println!("{counts:?}");
    i32::from(counts.contains_key("Unlisted"))
}
