//! The library through the bindings: values, refusals, stores and output as document 01 has them.
use gablestrand::{evaluate, evaluate_in, meaning, Answer, Stores, BYTES, WORDS};

const GREATEST: u64 = u64::MAX;

fn bytes_of(hex: &str) -> Vec<u8> {
    let hex = if hex == "-" { "" } else { hex };
    (0..hex.len()).step_by(2).map(|at| u8::from_str_radix(&hex[at..at + 2], 16).unwrap()).collect()
}

// `7` and `2 + 3`.
fn seven() -> Vec<u8> {
    bytes_of("1000010010000001480000000000000030000000000000000007")
}

fn sum() -> Vec<u8> {
    bytes_of("10000300200000011000000400600000480000000000000048000002000000003000000000000000000230000000000000000003")
}

fn answer(image: &[u8], budget: u64, out: &mut [u8]) -> Answer {
    evaluate(image, budget, &mut Stores::new(), out)
}

#[test]
fn a_value_stands_in_the_output_and_the_rest_stays() {
    let mut out = [0xAA; 12];
    assert_eq!(answer(&seven(), GREATEST, &mut out), Answer::Value { length: 9, steps: 1 });
    assert_eq!(out, [0x30, 0, 0, 0, 0, 0, 0, 0, 0x70, 0xAA, 0xAA, 0xAA]);
}

#[test]
fn a_budget_of_n_suffices_and_less_is_refused_at_the_node_being_entered() {
    let mut out = [0xAA; 16];
    assert_eq!(answer(&sum(), 4, &mut out), Answer::Value { length: 9, steps: 4 });
    let mut out = [0xAA; 16];
    assert_eq!(answer(&sum(), 3, &mut out), Answer::Refused { number: 6, place: 3, steps: 3 });
    assert_eq!(answer(&sum(), 0, &mut out), Answer::Refused { number: 6, place: 1, steps: 0 });
    assert_eq!(out, [0xAA; 16]);
}

#[test]
fn lack_of_room_leaves_the_output() {
    let mut out = [0xAA; 8];
    assert_eq!(answer(&seven(), GREATEST, &mut out), Answer::Refused { number: 27, place: 1, steps: 1 });
    assert_eq!(out, [0xAA; 8]);
    assert_eq!(answer(&seven(), GREATEST, &mut []), Answer::Refused { number: 27, place: 1, steps: 1 });
}

#[test]
fn an_image_that_does_not_load_is_refused() {
    let mut out = [0xAA; 16];
    let mut short = seven();
    short.pop();
    assert_eq!(answer(&[], GREATEST, &mut out), Answer::Refused { number: 1, place: 0, steps: 0 });
    assert_eq!(answer(&short, GREATEST, &mut out), Answer::Refused { number: 1, place: 0, steps: 0 });
    let mut edition = seven();
    edition[0] = 0x20;
    assert_eq!(answer(&edition, GREATEST, &mut out), Answer::Refused { number: 2, place: 0, steps: 0 });
    let mut kind = seven();
    kind[8] = 0xF8;
    assert_eq!(answer(&kind, GREATEST, &mut out), Answer::Refused { number: 3, place: 8, steps: 0 });
    // both operands are node 2
    let mut twice = sum();
    twice[12] = 0x00;
    twice[13] = 0x40;
    assert_eq!(answer(&twice, GREATEST, &mut out), Answer::Refused { number: 4, place: 2, steps: 0 });
    assert_eq!(out, [0xAA; 16]);
}

#[test]
fn stores_that_are_too_short_are_not_touched() {
    for (words, bytes) in [(WORDS - 1, BYTES), (WORDS, BYTES - 1), (0, 0)] {
        let (mut words, mut bytes, mut out) = (vec![7u64; words], vec![7u8; bytes], [7u8; 16]);
        let answer = evaluate_in(&seven(), GREATEST, &mut words, &mut bytes, &mut out);
        assert_eq!(answer, Answer::Refused { number: 5, place: 0, steps: 0 });
        assert!(words.iter().all(|&word| word == 7) && bytes.iter().all(|&byte| byte == 7) && out == [7; 16]);
    }
}

#[test]
fn stores_are_left_zero_as_far_as_they_are_used() {
    for image in [seven(), sum(), vec![]] {
        let (mut words, mut bytes, mut out) = (vec![u64::MAX; WORDS + 2], vec![0xFF; BYTES + 2], [0; 16]);
        evaluate_in(&image, GREATEST, &mut words, &mut bytes, &mut out);
        assert!(words[..WORDS].iter().all(|&word| word == 0) && bytes[..BYTES].iter().all(|&byte| byte == 0));
        assert!(words[WORDS..] == [u64::MAX; 2] && bytes[BYTES..] == [0xFF; 2]);
    }
}

// A line of the data of the program `worked`: an image with the lengths of what is lent, and the answer that it has to get.
fn line_holds(line: &str) {
    let words: Vec<&str> = line.split(' ').collect();
    let number = |at: usize| words[at].parse::<u64>().unwrap();
    let (image, expected) = (bytes_of(words[0]), bytes_of(words[8]));
    let mut out = vec![0xAA; number(2) as usize];
    let found = evaluate_in(&image, number(1), &mut vec![7; number(3) as usize], &mut vec![7; number(4) as usize], &mut out);
    let told = match number(5) {
        0 => Answer::Value { length: expected.len(), steps: number(7) },
        refusal => Answer::Refused { number: refusal as u8, place: number(6), steps: number(7) },
    };
    assert_eq!(found, told, "{line}");
    assert!(out[..expected.len()] == expected && out[expected.len()..].iter().all(|&byte| byte == 0xAA), "{line}");
}

#[test]
fn every_stored_answer_is_given() {
    let files = [
        include_str!("../../../crates/worked/data/worked.txt"),
        include_str!("../../../crates/worked/data/small.txt"),
        include_str!("../../../crates/worked/data/limits.txt"),
    ];
    let lines: Vec<&str> = files.iter().flat_map(|file| file.lines()).filter(|line| !line.starts_with('#')).collect();
    assert!(lines.len() > 300);
    lines.into_iter().for_each(line_holds);
}

#[test]
fn every_class_of_refusal_is_met_by_a_stored_answer() {
    let data = concat!(
        include_str!("../../../crates/worked/data/worked.txt"),
        include_str!("../../../crates/worked/data/small.txt"),
        include_str!("../../../crates/worked/data/limits.txt")
    );
    let met = |wanted: u8| data.lines().any(|line| !line.starts_with('#') && line.split(' ').nth(5) == Some(&wanted.to_string()));
    let missing: Vec<u8> = (0..=27).filter(|&number| !met(number)).collect();
    assert!(missing.is_empty(), "{missing:?}");
}

#[test]
fn the_sample_site_has_its_value() {
    let mut out = [0; 4_096];
    let image = include_bytes!("../../../samples/site.image");
    assert_eq!(answer(image, 1_000_000, &mut out), Answer::Value { length: 126, steps: 811 });
    assert_eq!(answer(image, 810, &mut out), Answer::Refused { number: 6, place: 79, steps: 810 });
}

#[test]
fn every_number_has_a_meaning() {
    assert!((1..=27).all(|number| meaning(number) != meaning(28)));
}
