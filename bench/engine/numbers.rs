//! Numbers of fixed point in 64 bits, times, and how a list is asked for an element.

/// An element. It is asked whether the list has it, but in a program that was built with `--cfg unchecked`.
#[inline(always)]
pub fn at<T>(list: &[T], place: usize) -> &T {
    #[cfg(unchecked)]
    return unsafe { list.get_unchecked(place) };
    #[cfg(not(unchecked))]
    &list[place]
}

/// The same, to be changed.
#[inline(always)]
pub fn at_mut<T>(list: &mut [T], place: usize) -> &mut T {
    #[cfg(unchecked)]
    return unsafe { list.get_unchecked_mut(place) };
    #[cfg(not(unchecked))]
    &mut list[place]
}

/// A format of fixed point.
#[derive(Clone, Copy, PartialEq)]
pub struct Format {
    pub signed: bool,
    /// All its bits, and those after the point.
    pub bits: u32,
    pub after: u32,
}

/// Whole numbers as they are.
pub const PLAIN: Format = Format { signed: true, bits: 64, after: 0 };

/// How a number is cut and wrapped into a format: it is moved down or up, its bits are kept, and the sign's bit counts less.
#[derive(Clone, Copy)]
pub struct Cast {
    pub down: u32,
    up: u32,
    kept: i64,
    sign: i64,
}

impl Format {
    /// The cast of numbers with so many bits after the point.
    pub fn cast(self, after: u32) -> Cast {
        let (down, up) = (after.saturating_sub(self.after), self.after.saturating_sub(after));
        assert!(down < 64 && up < 64, "a cast that moves by 64 bits or more");
        let sign = if self.signed { 1 << (self.bits - 1) } else { 0 };
        Cast { down, up, kept: (u64::MAX >> (64 - self.bits)) as i64, sign }
    }

    /// A literal, cut and wrapped.
    pub fn literal(self, word: &str) -> i64 {
        let size = word.trim_start_matches('-');
        let (whole, rest) = size.split_once('.').unwrap_or((size, ""));
        let count = format!("{whole}{rest}").parse::<i128>().unwrap() << self.after;
        let signed = if size.len() < word.len() { -count } else { count };
        self.cast(self.after).of(signed.div_euclid(10i128.pow(rest.len() as u32)) as i64)
    }
}

impl Cast {
    #[inline(always)]
    pub fn of(self, number: i64) -> i64 {
        self.wrapped(number >> self.down << self.up)
    }

    /// Of a number that has as many bits after the point as the format.
    #[inline(always)]
    pub fn wrapped(self, number: i64) -> i64 {
        (number & self.kept ^ self.sign).wrapping_sub(self.sign)
    }

    /// Whether it leaves the bits after the point as they are, or cuts some.
    pub fn only_cuts(self) -> bool {
        self.up == 0
    }
}

/// A literal of an expression, which is exact, and its bits after the point.
pub fn literal(word: &str) -> (i64, u32) {
    let Some((whole, rest)) = word.split_once('.') else { return (word.parse().unwrap(), 0) };
    let (number, fives) = (format!("{whole}{rest}").parse::<i64>().unwrap(), 5i64.pow(rest.len() as u32));
    assert!(number % fives == 0, "{word} is not exact");
    (number / fives, rest.len() as u32)
}

/// A time in picoseconds.
pub fn time_of(word: &str) -> u64 {
    let digits = word.find(|c: char| c.is_ascii_alphabetic()).expect("a time with its unit");
    let unit = match &word[digits..] {
        "ps" => 1,
        "ns" => 1_000,
        "us" => 1_000_000,
        "ms" => 1_000_000_000,
        "s" => 1_000_000_000_000,
        other => panic!("the unit {other}"),
    };
    let number = |digits: &str| digits.parse::<u64>().unwrap();
    match word[..digits].split_once('.') {
        None => number(&word[..digits]) * unit,
        Some((whole, rest)) => number(whole) * unit + number(rest) * unit / 10u64.pow(rest.len() as u32),
    }
}
