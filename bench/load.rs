// How long loading takes, in microseconds for each image: the best of several rounds.
//
//     bindings/staticlib image_c
//     rustc -O bench/load.rs -L target/staticlib -o target/bench_load && target/bench_load
use std::hint::black_box;
use std::time::Instant;

#[link(name = "image_c", kind = "static")]
extern "C" {
    fn gablestrand_load(image: *const u8, length: usize) -> u64;
}

fn load(image: &[u8]) -> u64 {
    // the function takes a Rattle slice: a pointer to that many bytes, of which it reads no others
    unsafe { gablestrand_load(image.as_ptr(), image.len()) }
}

fn node(kind: u64, a: usize, b: usize, next: usize) -> [u8; 8] {
    (kind << 59 | (a as u64) << 33 | (b as u64) << 21 | (next as u64) << 9).to_be_bytes()
}

fn literal(kind: u16, payload: u64) -> Vec<u8> {
    [&(kind << 12).to_be_bytes()[..], &payload.to_be_bytes()[..]].concat()
}

fn image(nodes: Vec<[u8; 8]>, literals: Vec<Vec<u8>>, text: Vec<u8>) -> Vec<u8> {
    let header = 1u64 << 60 | (nodes.len() as u64) << 40 | (literals.len() as u64) << 28 | (text.len() as u64) << 12 | 1;
    [&header.to_be_bytes()[..], &nodes.concat(), &literals.concat(), &text].concat()
}

const UNIT: u64 = 0;

fn unit() -> Vec<Vec<u8>> {
    vec![literal(0, UNIT)]
}

// A node that heads a chain of n - 1 values: a scope (kind 1) or a vec (13).
fn chain(kind: u64, n: usize) -> Vec<u8> {
    let mut nodes = vec![node(kind, 2, 0, 0)];
    nodes.extend((2..=n).map(|m| node(9, 0, 0, if m < n { m + 1 } else { 0 })));
    image(nodes, unit(), vec![])
}

// `v + (v + (v + ..))` in n nodes, n odd.
fn binaries(n: usize) -> Vec<u8> {
    let mut nodes = vec![];
    while nodes.len() + 1 < n {
        let at = nodes.len() + 1;
        nodes.push(node(2, at + 1, at + 2, 0));
        nodes.push(node(9, 0, 0, 0));
    }
    nodes.push(node(9, 0, 0, 0));
    image(nodes, unit(), vec![])
}

// A vec of reads of targets of 64 parts each, in at most n nodes: the count of parts goes over each target once for each part.
fn targets(n: usize) -> Vec<u8> {
    let mut nodes = vec![node(13, 2, 0, 0)];
    let reads = (n - 1) / 66;
    for read in 0..reads {
        let at = nodes.len() + 1;
        nodes.push(node(8, at + 1, 0, if read + 1 < reads { at + 66 } else { 0 }));
        nodes.extend((1..=64).map(|m| node(23, at + m + 1, 0, 0)));
        nodes.push(node(21, 0, 0, 0));
    }
    image(nodes, unit(), vec![])
}

// 4,095 text literals that all name a text of so many bytes from its second character on, which takes the longest: the place where the
// first one starts is kept with its stop.
fn texts(character: &str, bytes: usize) -> Vec<u8> {
    let mut text = character.repeat(bytes / character.len()).into_bytes();
    text.resize(bytes, b'a');
    let part = character.len() << 16 | (bytes - character.len());
    image(vec![node(9, 0, 0, 0)], vec![literal(6, part as u64); 4_095], text)
}

// The best time of one load in microseconds.
fn time(image: &[u8], loads: u32) -> f64 {
    assert_eq!(load(image), 0, "the image does not load");
    let mut best = f64::INFINITY;
    for _ in 0..15 {
        let start = Instant::now();
        for _ in 0..loads {
            black_box(load(black_box(image)));
        }
        best = best.min(start.elapsed().as_secs_f64() * 1e6 / loads as f64);
    }
    best
}

fn main() {
    println!("microseconds for a load, best of 15 rounds");
    println!("{:>6} {:>10} {:>10} {:>10} {:>10}", "nodes", "scope", "vec", "binaries", "targets");
    for n in [100, 500, 1000, 2000, 4095] {
        let loads = 400_000 / n as u32;
        println!(
            "{:>6} {:>10.2} {:>10.2} {:>10.2} {:>10.2}",
            n,
            time(&chain(1, n), loads),
            time(&chain(13, n), loads),
            time(&binaries(n - (n + 1) % 2), loads),
            time(&targets(n), loads / 10)
        );
    }
    println!("4,095 literals that name one text, by its bytes and those of a character");
    println!("{:>6} {:>10} {:>10} {:>10} {:>10}", "bytes", 1, 2, 3, 4);
    for bytes in [1_000, 10_000, 65_535] {
        let times = ["a", "é", "€", "😀"].map(|character| time(&texts(character, bytes), 20));
        println!("{:>6} {:>10.0} {:>10.0} {:>10.0} {:>10.0}", bytes, times[0], times[1], times[2], times[3]);
    }
}
