//! The trace: columns whose values come ahead of the rows, and the digits of a row.

use crate::numbers::{at, at_mut};
use std::collections::VecDeque;
use std::io::Write;

/// A time that doesn't come.
pub const NEVER: u64 = u64::MAX;

/// The most bits after the point of a number that is written, which has as many digits there.
pub const MOST_DECIMALS: u32 = 19;

/// A column of the trace.
pub struct Column {
    /// Whether it is of an event signal: then all its values are known.
    pub is_event: bool,
    /// Its bits after the point.
    pub after: u32,
    /// Values that no row has yet, with their times.
    pub ahead: VecDeque<(u64, i64)>,
    /// The time of the first sample that isn't known yet.
    pub next: u64,
    pub last: i64,
}

impl Column {
    /// An event signal has a value; the last one of a time counts.
    pub fn change(&mut self, time: u64, value: i64) {
        match self.ahead.back_mut() {
            Some(back) if back.0 == time => back.1 = value,
            _ => self.ahead.push_back((time, value)),
        }
    }
}

/// The trace: its columns, and the text that is not yet written.
pub struct Sheet {
    pub columns: Vec<Column>,
    pub out: Vec<u8>,
}

impl Sheet {
    /// Rows of times at which a column has a value, below a time. But for the closing ones they end where a sample isn't known.
    pub fn rows(&mut self, end: u64, closing: bool) {
        loop {
            let (mut time, mut known) = (NEVER, NEVER);
            for column in &self.columns {
                time = time.min(column.ahead.front().map_or(NEVER, |it| it.0));
                known = known.min(if column.is_event { NEVER } else { column.next });
            }
            if end <= time || !closing && known <= time {
                return;
            }
            self.row(time);
        }
    }

    fn row(&mut self, time: u64) {
        push_time(&mut self.out, time);
        for column in &mut self.columns {
            while let Some(it) = column.ahead.front().filter(|it| it.0 <= time) {
                column.last = it.1;
                column.ahead.pop_front();
            }
            self.out.push(b' ');
            if !column.is_event && column.next <= time {
                self.out.push(b'*');
            } else {
                push_number(&mut self.out, column.last, column.after);
            }
        }
        self.out.push(b'\n');
    }

    /// Writes what is gathered, where it is this much.
    pub fn flush(&mut self, least: usize) {
        if least <= self.out.len() {
            std::io::stdout().write_all(&self.out).unwrap();
            self.out.clear();
        }
    }
}

/// Powers of 5.
const FIVES: [u64; MOST_DECIMALS as usize + 1] = {
    let (mut powers, mut k) = ([1; MOST_DECIMALS as usize + 1], 1);
    while k < powers.len() {
        powers[k] = 5 * powers[k - 1];
        k += 1;
    }
    powers
};

/// Pairs of digits.
const PAIRS: &[u8; 200] = b"00010203040506070809101112131415161718192021222324252627282930313233343536373839\
4041424344454647484950515253545556575859606162636465666768697071727374757677787980818283848586878889\
90919293949596979899";

type Digits = [u8; 20];

/// The digits of a number, from the right: the place of the first one.
#[inline(always)]
fn digits_of(mut number: u64, digits: &mut Digits) -> usize {
    let mut place = digits.len();
    while 100 <= number {
        place -= 2;
        put_pair(digits, place, number % 100);
        number /= 100;
    }
    if number < 10 {
        *at_mut(digits, place - 1) = b'0' + number as u8;
        return place - 1;
    }
    put_pair(digits, place - 2, number);
    place - 2
}

#[inline(always)]
fn put_pair(digits: &mut Digits, place: usize, pair: u64) {
    *at_mut(digits, place) = *at(PAIRS, 2 * pair as usize);
    *at_mut(digits, place + 1) = *at(PAIRS, 2 * pair as usize + 1);
}

pub fn push_digits(out: &mut Vec<u8>, number: u64) {
    if number < 10 {
        return out.push(b'0' + number as u8);
    }
    let mut digits = [b'0'; 20];
    let first = digits_of(number, &mut digits);
    out.extend_from_slice(&digits[first..]);
}

/// A time in seconds: twelve digits after the point, without zeros at the end.
pub fn push_time(out: &mut Vec<u8>, time: u64) {
    let (whole, mut rest) = (time / 1_000_000_000_000, time % 1_000_000_000_000);
    push_digits(out, whole);
    if rest == 0 {
        return;
    }
    let mut count = 12;
    while rest % 1_000 == 0 {
        rest /= 1_000;
        count -= 3;
    }
    while rest % 10 == 0 {
        rest /= 10;
        count -= 1;
    }
    push_decimals(out, rest, count);
}

/// The point, and a number below 10^count in so many digits, which are 19 at most.
fn push_decimals(out: &mut Vec<u8>, number: u64, count: usize) {
    let mut digits = [b'0'; 20];
    digits_of(number, &mut digits);
    let first = digits.len() - count;
    digits[first - 1] = b'.';
    out.extend_from_slice(&digits[first - 1..]);
}

fn push_number(out: &mut Vec<u8>, number: i64, after: u32) {
    if number < 0 {
        out.push(b'-');
    }
    let (size, mask) = (number.unsigned_abs(), (1u64 << after) - 1);
    push_digits(out, size >> after);
    let rest = size & mask;
    if rest != 0 {
        // (as many digits as bits, where the last ones are not 0)
        let zeros = rest.trailing_zeros();
        let count = (after - zeros) as usize;
        push_decimals(out, (rest >> zeros) * at(&FIVES, count), count);
    }
}
