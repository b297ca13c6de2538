//! The specification's stand-ins, written from it: logarithm and power by
//! whole numbers; root, narrowing and `round` are Rust's own operations (nearest
//! with ties to even, and half away from zero, by IEEE 754 and Rust's manual).
//!
//! The logarithm, powers, root and narrowing note an argument that isn't finite
//! (refusal 4); max, min, clamp and `round` may meet one.

use std::cell::Cell;

/// The f64 nearest to log10 2, log2 e, log2 10 and log2 60.
pub const LOG10_2: f64 = 0.301_029_995_663_981_195_213_738_894_724_493;
pub const LOG2_E: f64 = 1.442_695_040_888_963_407_359_924_681_001_892;
pub const LOG2_10: f64 = 3.321_928_094_887_362_347_870_319_429_489_390;
pub const LOG2_60: f64 = 5.906_890_595_608_518_529_324_058_373_437_160;

/// The number of binary places of logarithms and of powers' exponents.
const PLACES: u32 = 24;

thread_local! {
    static MET: Cell<bool> = const { Cell::new(false) };
}

fn note(x: f64) {
    if !x.is_finite() {
        MET.with(|m| m.set(true));
    }
}

/// Whether a stand-in met an argument that isn't finite since the last call.
pub fn take_met() -> bool {
    MET.with(|m| m.replace(false))
}

/// A finite positive x as (m, e): its significand cut to 2^30 <= m < 2^31.
fn cut(x: f64) -> (u64, i64) {
    let bits = x.to_bits();
    let field = (bits >> 52) as i64;
    let fraction = bits & ((1 << 52) - 1);
    if field > 0 {
        return ((fraction | 1 << 52) >> 22, field - 1023);
    }
    let up = fraction.leading_zeros() - 11;
    ((fraction << up) >> 22, -1022 - i64::from(up))
}

/// N of the logarithm of a finite positive x: log2 x is about N / 2^24.
fn log2_scaled(x: f64) -> i64 {
    let (mut m, e) = cut(x);
    let mut bits = 0;
    for _ in 0..PLACES {
        m = m * m >> 30;
        bits *= 2;
        if m >= 1 << 31 {
            m /= 2;
            bits += 1;
        }
    }
    (e << PLACES) + bits
}

pub fn log2(x: f64) -> f64 {
    note(x);
    if x.is_nan() || x < 0.0 {
        f64::NAN
    } else if x == 0.0 {
        f64::NEG_INFINITY
    } else if x == f64::INFINITY {
        x
    } else {
        log2_scaled(x) as f64 / (1u64 << PLACES) as f64
    }
}

pub fn log10(x: f64) -> f64 {
    log2(x) * LOG10_2
}

/// r0 to r24: r0 = 2^31, each next one the whole root of the one before × 2^30.
const ROOTS: [u64; PLACES as usize + 1] = {
    let mut r = [1u64 << 31; PLACES as usize + 1];
    let mut j = 1;
    while j < r.len() {
        r[j] = (r[j - 1] << 30).isqrt();
        j += 1;
    }
    r
};

/// 2^y.
pub fn exp2(y: f64) -> f64 {
    note(y);
    if y.is_nan() {
        return y;
    }
    if y < -1000.0 {
        return 0.0;
    }
    let y = if y > 1000.0 { 1000.0 } else { y };
    let k = (y * (1u64 << PLACES) as f64).floor() as i64;
    let mut m = 1u64 << 30;
    for j in 1..=PLACES {
        if k >> (PLACES - j) & 1 == 1 {
            m = m * ROOTS[j as usize] >> 30;
        }
    }
    let n = k >> PLACES;
    m as f64 / (1u64 << 30) as f64 * f64::from_bits(((n + 1023) as u64) << 52)
}

pub fn exp(u: f64) -> f64 {
    exp2(u * LOG2_E)
}

pub fn pow10(u: f64) -> f64 {
    exp2(u * LOG2_10)
}

pub fn pow60(u: f64) -> f64 {
    exp2(u * LOG2_60)
}

pub fn sqrt(x: f64) -> f64 {
    note(x);
    x.sqrt()
}

pub fn narrow(x: f64) -> f32 {
    note(x);
    x as f32
}

pub fn round(x: f64) -> f64 {
    x.round()
}

/// The left unless the right is strictly greater.
pub fn max(a: f64, b: f64) -> f64 {
    if b > a {
        b
    } else {
        a
    }
}

/// The left unless the right is strictly smaller.
pub fn min(a: f64, b: f64) -> f64 {
    if b < a {
        b
    } else {
        a
    }
}

pub fn clamp(x: f64, low: f64, high: f64) -> f64 {
    if x < low {
        low
    } else if x > high {
        high
    } else {
        x
    }
}

/// The stand-ins as methods, by which the assembled Rust calls them.
pub trait Standins: Sized {
    fn doc_log10(self) -> f64;
    fn doc_exp(self) -> f64;
    /// 10 or 60 to the power of u; no other base is in the Rust.
    fn doc_powf(self, u: f64) -> f64;
    fn doc_square(self) -> f64;
    fn doc_sqrt(self) -> f64;
    fn doc_round(self) -> f64;
    fn doc_max(self, b: f64) -> f64;
    fn doc_min(self, b: f64) -> f64;
    fn doc_clamp(self, low: f64, high: f64) -> f64;
}

impl Standins for f64 {
    fn doc_log10(self) -> f64 {
        log10(self)
    }
    fn doc_exp(self) -> f64 {
        exp(self)
    }
    fn doc_powf(self, u: f64) -> f64 {
        match self {
            10.0 => pow10(u),
            60.0 => pow60(u),
            _ => panic!("the specification has no stand-in for powers of {self}"),
        }
    }
    fn doc_square(self) -> f64 {
        self * self
    }
    fn doc_sqrt(self) -> f64 {
        sqrt(self)
    }
    fn doc_round(self) -> f64 {
        round(self)
    }
    fn doc_max(self, b: f64) -> f64 {
        max(self, b)
    }
    fn doc_min(self, b: f64) -> f64 {
        min(self, b)
    }
    fn doc_clamp(self, low: f64, high: f64) -> f64 {
        clamp(self, low, high)
    }
}
