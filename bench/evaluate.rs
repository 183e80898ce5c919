// How long evaluation takes, in nanoseconds a step: the best of several rounds, for programs without end that are run until a budget is used up, and what a
// call costs that does nothing. The images are written by oracle/bench.py.
//
//     bindings/staticlib gablestrand
//     cargo bench --manifest-path bindings/rust/Cargo.toml
use gablestrand::{evaluate, Answer, Stores};
use std::hint::black_box;
use std::time::Instant;

const STEPS: u64 = 20_000_000;
const ROUNDS: u32 = 7;

const PROGRAMS: [(&str, &[u8]); 8] = [
    ("count", include_bytes!("images/count.image")),
    ("while", include_bytes!("images/while.image")),
    ("sums", include_bytes!("images/sums.image")),
    ("floats", include_bytes!("images/floats.image")),
    ("branches", include_bytes!("images/branches.image")),
    ("calls", include_bytes!("images/calls.image")),
    ("objects", include_bytes!("images/objects.image")),
    ("vecs", include_bytes!("images/vecs.image")),
];

// The best time of so many evaluations in nanoseconds. Each has to take exactly its budget.
fn time(image: &[u8], budget: u64, evaluations: u32) -> f64 {
    let mut stores = Stores::new();
    let mut best = f64::INFINITY;
    for _ in 0..ROUNDS {
        let start = Instant::now();
        for _ in 0..evaluations {
            let answer = evaluate(black_box(image), budget, &mut stores, &mut []);
            assert!(matches!(answer, Answer::Refused { number: 6, .. }) && answer.steps() == budget, "{answer:?}");
        }
        best = best.min(start.elapsed().as_secs_f64() * 1e9);
    }
    best
}

fn main() {
    println!("nanoseconds a step, best of {ROUNDS} rounds of {STEPS} steps");
    for (name, image) in PROGRAMS {
        println!("{:>10} {:>8.2}", name, time(image, STEPS, 1) / STEPS as f64);
    }
    let (_, smallest) = PROGRAMS[0];
    println!("microseconds for a call with a budget of 0: {:.2}", time(smallest, 0, 1_000) / 1e6);
}
