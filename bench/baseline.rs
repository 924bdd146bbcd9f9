// The ramp in plain Rust: what a run of it writes, without a contract, written for speed: one buffer, digits put into
// it from the right, and no allocation a row. It reads the numbers that matter by their lines.
use std::io::{self, Read, Write};

const GATHERED: usize = 8192;

fn picoseconds(text: &str) -> u64 {
    let at = text.find(|c: char| c.is_ascii_alphabetic()).unwrap();
    let scale = match &text[at..] { "s" => 12, "ms" => 9, "us" => 6, "ns" => 3, _ => 0 };
    text[..at].parse::<u64>().unwrap() * 10u64.pow(scale)
}

/// Puts the digits of a number into the buffer.
fn push_number(out: &mut Vec<u8>, mut number: u64) {
    let mut digits = [0u8; 20];
    let mut at = digits.len();
    loop {
        at -= 1;
        digits[at] = b'0' + (number % 10) as u8;
        number /= 10;
        if number == 0 { break; }
    }
    out.extend_from_slice(&digits[at..]);
}

/// Puts a time in seconds into the buffer: twelve digits after the point, without zeros at the end.
fn push_seconds(out: &mut Vec<u8>, time: u64) {
    push_number(out, time / 1_000_000_000_000);
    let mut rest = time % 1_000_000_000_000;
    if rest == 0 { return; }
    let mut digits = [0u8; 12];
    for digit in digits.iter_mut().rev() {
        *digit = b'0' + (rest % 10) as u8;
        rest /= 10;
    }
    let end = digits.iter().rposition(|digit| *digit != b'0').unwrap() + 1;
    out.push(b'.');
    out.extend_from_slice(&digits[..end]);
}

fn main() -> io::Result<()> {
    let stop = picoseconds(&std::env::args().nth(3).unwrap());
    let mut text = String::new();
    io::stdin().read_to_string(&mut text)?;
    let lines: Vec<&str> = text.lines().collect();
    let word = |line: usize, place: usize| lines[line].split_whitespace().nth(place).unwrap();
    let (bits, step, add) = (word(1, 3).parse::<u32>().unwrap(), picoseconds(word(6, 1)), word(10, 4).parse::<u64>().unwrap());
    let mut to = io::stdout().lock();
    let mut out = Vec::with_capacity(GATHERED + 128);
    writeln!(out, "%time {}", word(18, 2))?;
    let (mut time, mut value) = (0u64, 0i64);
    while time < stop {
        push_seconds(&mut out, time);
        out.push(b' ');
        if value < 0 { out.push(b'-'); }
        push_number(&mut out, value.unsigned_abs());
        out.push(b'\n');
        if out.len() >= GATHERED {
            to.write_all(&out)?;
            out.clear();
        }
        value = (value.wrapping_add(add as i64) << (64 - bits)) >> (64 - bits);
        time += step;
    }
    to.write_all(&out)?;
    to.flush()
}
