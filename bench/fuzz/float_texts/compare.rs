//! Compares the lines of `main.rt.txt` with what Rust's own formatting gives: the literal byte for byte, the bits
//! that the numeral denotes, and the bits that Rust reads in the text. With a word `times` it tells how long the
//! formatting alone takes.

use std::fmt::Write;
use std::io::BufRead;
use std::time::Instant;

const SINGLE_STEP: u32 = 0x9e37_79b1;
const DOUBLE_STEP: u64 = 0x9e37_79b9_7f4a_7c15;

fn value_of_half(bits: u16) -> f32 {
    let (exponent, digits) = ((bits >> 10 & 31) as i32, (bits & 1023) as f32);
    let size = match exponent {
        0 => digits * 2f32.powi(-24),
        31 if digits == 0.0 => f32::INFINITY,
        31 => f32::NAN,
        _ => (1024.0 + digits) * 2f32.powi(exponent - 25),
    };
    if bits >> 15 == 1 { -size } else { size }
}

/// The literal that naga writes, but of the greatest `f32` one that is not above it, and the bits that Rust reads in it.
fn wanted(kind: &str, bits: u64) -> Option<(String, u64)> {
    match kind {
        "s" => {
            let value = f32::from_bits(bits as u32);
            let read = format!("{value}").parse::<f32>().unwrap().to_bits();
            let sign = if value < 0.0 { "-" } else { "" };
            let greatest = format!("{sign}340282346638528850000000000000000000000f");
            let text = if value.abs() == f32::MAX { greatest } else { format!("{value}f") };
            value.is_finite().then_some((text, read as u64))
        }
        "d" => {
            let value = f64::from_bits(bits);
            let read = format!("{value:?}").parse::<f64>().unwrap().to_bits();
            value.is_finite().then(|| (format!("{value:?}lf"), read))
        }
        _ => {
            let value = value_of_half(bits as u16);
            value.is_finite().then(|| (format!("{value}h"), bits))
        }
    }
}

fn compare() {
    let (mut same, mut none, mut other) = ([0u64; 3], [0u64; 3], 0u64);
    for line in std::io::stdin().lock().lines() {
        let line = line.unwrap();
        let words: Vec<&str> = line.split(' ').collect();
        let at = "shd".find(words[0]).unwrap();
        let bits: u64 = words[1].parse().unwrap();
        match wanted(words[0], bits) {
            Some((text, read)) if words[2..] == [&text, words[1]] && read == bits => same[at] += 1,
            None if words[2..] == ["none"] => none[at] += 1,
            wanted => {
                other += 1;
                if other < 10 {
                    println!("other: {line}, wanted {wanted:?}");
                }
            }
        }
    }
    for (at, name) in ["f32", "f16", "f64"].iter().enumerate() {
        println!("{name}: {} the same, {} without a numeral", same[at], none[at]);
    }
    println!("{other} differ");
}

fn times() {
    let mut text = String::new();
    for usual in [true, false] {
        let name = if usual { "usual" } else { "spread" };
        let (start, mut bytes) = (Instant::now(), 0);
        for i in 0..2_000_000u32 {
            let spread = f32::from_bits(i.wrapping_mul(SINGLE_STEP));
            let value = if usual { (i % 65536) as f32 * 0.01 } else { spread };
            if value.is_finite() {
                text.clear();
                write!(text, "{value}f").unwrap();
                bytes += text.len();
            }
        }
        println!("{name} f32: {} ns a literal, {bytes} bytes", start.elapsed().as_nanos() / 2_000_000);
        let (start, mut bytes) = (Instant::now(), 0);
        for i in 0..1_000_000u64 {
            let spread = f64::from_bits(i.wrapping_mul(DOUBLE_STEP));
            let value = if usual { (i % 65536) as f64 * 0.01 } else { spread };
            if value.is_finite() {
                text.clear();
                write!(text, "{value:?}lf").unwrap();
                bytes += text.len();
            }
        }
        println!("{name} f64: {} ns a literal, {bytes} bytes", start.elapsed().as_nanos() / 1_000_000);
    }
    let (start, mut bytes) = (Instant::now(), 0);
    for bits in 0..=65535u16 {
        let value = value_of_half(bits);
        if value.is_finite() {
            text.clear();
            write!(text, "{value}h").unwrap();
            bytes += text.len();
        }
    }
    println!("all f16: {} ns a literal, {bytes} bytes", start.elapsed().as_nanos() / 65536);
}

fn main() {
    if std::env::args().len() > 1 {
        times();
    } else {
        compare();
    }
}
