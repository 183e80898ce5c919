// What crates/numbers_limits has to write, by Rust's own operations on i64 and f64 and Rust's own printing.

const INTS: [i64; 15] = [
    i64::MIN, i64::MIN + 1, -1, 0, 1, i64::MAX - 1, i64::MAX,
    1 << 31, 1 << 32, -(1 << 32), 3037000499, 3037000500,
    63, 64, 4294967295,
];

const FLOATS: [f64; 9] = [0.0, -0.0, 1.0, -1.0, 1e308, 5e-324, f64::INFINITY, f64::NEG_INFINITY, f64::NAN];

const WORDS: [u64; 12] = [
    0, 1 << 63, 1, 0x3ff0_0000_0000_0000, 0x7fef_ffff_ffff_ffff, 0x7ff0_0000_0000_0000, 0xfff0_0000_0000_0000,
    0x7ff0_0000_0000_0001, 0x7ff8_0000_0000_0000, 0x7fff_ffff_ffff_ffff, 0xfff0_0000_0000_0001, u64::MAX,
];

const OPS: [&str; 11] = ["+", "-", "*", "/", "<<", ">>", "<", "<=", "==", ">", ">="];

// The result, or the number of the refusal.
fn int(op: &str, x: i64, y: i64) -> Result<i64, u8> {
    match op {
        "+" => x.checked_add(y).ok_or(16),
        "-" => x.checked_sub(y).ok_or(16),
        "*" => x.checked_mul(y).ok_or(16),
        "/" => x.checked_div(y).ok_or(17),
        "<<" => x.checked_shl(u32::try_from(y).map_err(|_| 18)?).ok_or(16),
        ">>" => x.checked_shr(u32::try_from(y).map_err(|_| 18)?).ok_or(16),
        _ => unreachable!(),
    }
}

fn int_text(op: &str, x: i64, y: i64) -> String {
    match op {
        "<" => format!("{}", x < y),
        "<=" => format!("{}", x <= y),
        "==" => format!("{}", x == y),
        ">" => format!("{}", x > y),
        ">=" => format!("{}", x >= y),
        _ => match int(op, x, y) {
            Ok(z) => format!("{}", z),
            Err(number) => format!("!{}", number),
        },
    }
}

fn word(x: f64) -> u64 {
    if x.is_nan() { 0x7ff8_0000_0000_0000 } else { x.to_bits() }
}

fn float_text(op: &str, x: f64, y: f64) -> String {
    match op {
        "+" => format!("{:016x}", word(x + y)),
        "-" => format!("{:016x}", word(x - y)),
        "*" => format!("{:016x}", word(x * y)),
        "/" => format!("{:016x}", word(x / y)),
        "<<" | ">>" => "!12".to_string(),
        "<" => format!("{}", x < y),
        "<=" => format!("{}", x <= y),
        "==" => format!("{}", x == y),
        ">" => format!("{}", x > y),
        ">=" => format!("{}", x >= y),
        _ => unreachable!(),
    }
}

fn main() {
    for x in INTS {
        for y in INTS {
            let binary: Vec<String> = OPS.iter().map(|op| int_text(op, x, y)).collect();
            let assign: Vec<String> = OPS[..6].iter().map(|op| int_text(op, x, y)).collect();
            println!("{} {}: {} assign {}", x, y, binary.join(" "), assign.join(" "));
        }
    }
    for x in FLOATS {
        for y in FLOATS {
            let binary: Vec<String> = OPS.iter().map(|op| float_text(op, x, y)).collect();
            println!("{:016x} {:016x}: {}", word(x), word(y), binary.join(" "));
        }
    }
    for w in INTS.iter().map(|x| *x as u64).chain(WORDS) {
        println!("{:016x}: {} {:016x} {:016x}", w, w as i64, w as i64 as u64, word(f64::from_bits(w)));
    }
}
