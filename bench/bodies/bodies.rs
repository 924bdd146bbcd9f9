// The same three bodies in plain Rust, written by hand: with numbers of 128 and of 64 bits, and formats known at run time.
use std::hint::black_box;
use std::time::Instant;

#[derive(Clone, Copy)]
struct Format {
    wl: u32,
    frac: u32,
}

macro_rules! bodies {
    ($name:ident, $num:ty) => {
        mod $name {
            use super::Format;
            // `trn` and `wrap`
            #[inline]
            pub fn cast(num: $num, frac: u32, f: Format) -> $num {
                let scaled = if frac >= f.frac { num >> (frac - f.frac) } else { num << (f.frac - frac) };
                let shift = <$num>::BITS - f.wl;
                (scaled << shift) >> shift
            }
            pub struct Filter {
                pub h: [$num; 64],
                pub z: [$num; 64],
                pub s: Format,
                pub w: Format,
            }
            impl Filter {
                pub fn turn(&mut self, x: $num) -> $num {
                    for i in 0..63 {
                        self.z[63 - i] = cast(self.z[62 - i], 15, self.s);
                    }
                    self.z[0] = cast(x, 15, self.s);
                    let mut a = cast(0, 0, self.w);
                    for i in 0..64 {
                        a = cast(a + ((self.h[i] * self.z[i]) << 2), 32, self.w);
                    }
                    cast(a, 32, self.w)
                }
            }
            pub struct Modulator {
                pub u: $num,
                pub v: $num,
                pub q: $num,
                pub w: Format,
                pub b: Format,
            }
            impl Modulator {
                pub fn turn(&mut self, x: $num) -> $num {
                    self.q = cast(if self.v >= 0 { 1 } else { -1 }, 0, self.b);
                    self.u = cast(self.u + (x << 3) - (self.q << 18), 18, self.w);
                    self.v = cast(self.v + self.u - (self.q << 19), 18, self.w);
                    cast(self.q, 0, self.b)
                }
            }
            pub struct Counter {
                pub n: $num,
                pub d: $num,
                pub w: Format,
            }
            impl Counter {
                pub fn turn(&mut self, _x: $num) -> $num {
                    self.d = if self.n >= 1000 {
                        cast(-1, 0, self.w)
                    } else {
                        cast(if self.n <= -1000 { 1 } else { self.d }, 0, self.w)
                    };
                    self.n = cast(self.n + self.d, 0, self.w);
                    cast(self.n, 0, self.w)
                }
            }
        }
    };
}
bodies!(wide, i128);
bodies!(narrow, i64);

fn time(name: &str, operations: u64, turns: u64, mut turn: impl FnMut(i16) -> i128) {
    let mut best = u128::MAX;
    let mut sum = 0i128;
    for _ in 0..5 {
        let mut state = 88_172_645_463_325_252u64;
        sum = 0;
        let start = Instant::now();
        for _ in 0..turns {
            state = state.wrapping_mul(6_364_136_223_846_793_005).wrapping_add(1_442_695_040_888_963_407);
            sum = sum.wrapping_add(turn(black_box((state >> 48) as i16)));
        }
        best = best.min(start.elapsed().as_nanos());
    }
    println!("{name}: {} hundredths of a ns an operation, sum {sum}", best * 100 / (turns * operations) as u128);
}

fn main() {
    let s = black_box(Format { wl: 16, frac: 15 });
    let w40 = black_box(Format { wl: 40, frac: 32 });
    let w24 = black_box(Format { wl: 24, frac: 18 });
    let b = black_box(Format { wl: 2, frac: 0 });
    let w16 = black_box(Format { wl: 16, frac: 0 });
    let taps = [16384i64, 8192, 4096, 2048, 1024, -16384, -8192, -4096];
    let (mut h64, mut h128) = ([0i64; 64], [0i128; 64]);
    for (i, t) in taps.iter().enumerate() {
        h64[i] = *t;
        h128[i] = i128::from(*t);
    }
    let mut f = wide::Filter { h: h128, z: [0; 64], s, w: w40 };
    time("filter, 128 bits", 516, 20_000, |x| f.turn(i128::from(x)));
    let mut f = narrow::Filter { h: h64, z: [0; 64], s, w: w40 };
    time("filter, 64 bits", 516, 20_000, |x| i128::from(f.turn(i64::from(x))));
    let mut m = wide::Modulator { u: 0, v: 0, q: 0, w: w24, b };
    time("modulator, 128 bits", 20, 500_000, |x| m.turn(i128::from(x)));
    let mut m = narrow::Modulator { u: 0, v: 0, q: 0, w: w24, b };
    time("modulator, 64 bits", 20, 500_000, |x| i128::from(m.turn(i64::from(x))));
    let mut c = wide::Counter { n: 0, d: 1, w: w16 };
    time("counter, 128 bits", 11, 500_000, |x| c.turn(i128::from(x)));
    let mut c = narrow::Counter { n: 0, d: 1, w: w16 };
    time("counter, 64 bits", 11, 500_000, |x| i128::from(c.turn(i64::from(x))));
}
