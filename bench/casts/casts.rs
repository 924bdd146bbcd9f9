// The same casts in plain Rust, as a measure.
use std::time::Instant;
#[derive(Clone, Copy)]
enum Quant {
    Trn,
    TrnZero,
    Rnd,
    RndZero,
    RndMinInf,
    RndInf,
    RndConv,
}
#[derive(Clone, Copy)]
enum Over {
    Wrap,
    Sat,
    SatZero,
    SatSym,
}
#[derive(Clone, Copy)]
struct Format {
    signed: bool,
    wl: u32,
    iwl: u32,
    quant: Quant,
    over: Over,
}
#[derive(Clone, Copy)]
struct Raw {
    num: i128,
    frac: u32,
}
fn round(quant: Quant, num: i128, s: u32) -> i128 {
    let whole = num >> s;
    let rest = num & ((1i128 << s) - 1);
    if rest == 0 {
        return whole;
    }
    let half = 1i128 << s;
    let twice = rest << 1;
    let up = match quant {
        Quant::Trn => false,
        Quant::TrnZero => num < 0,
        Quant::Rnd => twice >= half,
        Quant::RndZero => twice > half || (twice == half && num < 0),
        Quant::RndMinInf => twice > half,
        Quant::RndInf => twice > half || (twice == half && num >= 0),
        Quant::RndConv => twice > half || (twice == half && whole & 1 == 1),
    };
    if up {
        whole + 1
    } else {
        whole
    }
}
fn overflow(f: Format, n: i128) -> i128 {
    let most = if f.signed {
        (1i128 << (f.wl - 1)) - 1
    } else {
        (1i128 << f.wl) - 1
    };
    let least = if f.signed { -(1i128 << (f.wl - 1)) } else { 0 };
    match f.over {
        Over::Wrap => {
            let r = n & ((1i128 << f.wl) - 1);
            if f.signed && r > most {
                r - (1i128 << f.wl)
            } else {
                r
            }
        }
        Over::Sat => n.clamp(least, most),
        Over::SatZero => {
            if n < least || n > most {
                0
            } else {
                n
            }
        }
        Over::SatSym => n.clamp(if f.signed { -most } else { 0 }, most),
    }
}
fn cast(v: Raw, f: Format) -> Raw {
    let frac = f.wl - f.iwl;
    let n = if v.frac <= frac {
        v.num << (frac - v.frac)
    } else {
        round(f.quant, v.num, v.frac - frac)
    };
    Raw {
        num: overflow(f, n),
        frac,
    }
}
const COUNT: u32 = 20_000_000;
// The sum of many casts of numbers with FRAC fraction bits; FACTOR and FRAC are known when this is compiled, as they are to the program beside.
fn total<const FACTOR: i128, const FRAC: u32>(f: Format) -> i128 {
    let mut state = 88_172_645_463_325_252u64;
    let mut sum = 0i128;
    for _ in 0..COUNT {
        state = state
            .wrapping_mul(6_364_136_223_846_793_005)
            .wrapping_add(1_442_695_040_888_963_407);
        let num = (i128::from(state) - 9_223_372_036_854_775_808) * FACTOR;
        sum = sum.wrapping_add(cast(Raw { num, frac: FRAC }, f).num);
    }
    sum
}
// The same of 64 bits, to the formats in turn.
fn in_turn(formats: &[Format]) -> i128 {
    let mut state = 88_172_645_463_325_252u64;
    let mut sum = 0i128;
    for _ in 0..COUNT / 2 {
        for format in formats {
            state = state
                .wrapping_mul(6_364_136_223_846_793_005)
                .wrapping_add(1_442_695_040_888_963_407);
            let num = i128::from(state) - 9_223_372_036_854_775_808;
            if format.wl - format.iwl <= 16 {
                sum = sum.wrapping_add(cast(Raw { num, frac: 16 }, *format).num);
            }
        }
    }
    sum
}
fn main() {
    let qs = [
        ("trn", Quant::Trn),
        ("trn_zero", Quant::TrnZero),
        ("rnd", Quant::Rnd),
        ("rnd_zero", Quant::RndZero),
        ("rnd_min_inf", Quant::RndMinInf),
        ("rnd_inf", Quant::RndInf),
        ("rnd_conv", Quant::RndConv),
    ];
    let os = [
        ("wrap", Over::Wrap),
        ("sat", Over::Sat),
        ("sat_zero", Over::SatZero),
        ("sat_sym", Over::SatSym),
    ];
    for (qn, q) in qs {
        for (on, o) in os {
            let f = Format {
                signed: true,
                wl: 16,
                iwl: 8,
                quant: q,
                over: o,
            };
            let t = Instant::now();
            let a = total::<1, 16>(f);
            let x = t.elapsed().as_millis();
            let t = Instant::now();
            let b = total::<72_057_594_037_927_936, 72>(f);
            let y = t.elapsed().as_millis();
            let g = Format {
                wl: 24,
                iwl: 12,
                ..f
            };
            let t = Instant::now();
            let c = in_turn(&[f, g]);
            let z = t.elapsed().as_millis();
            println!("{qn} {on} {x} {y} {z} {a} {b} {c}");
        }
    }
}
