//! Cases of the stand-ins: functions 1 log2, 2 log10, 3 2^y, 4 exp, 5 10^u,
//! 6 60^u, 7 root, 8 narrowing (an f32's bits), 9 round.

use crate::random::Random;
use crate::standins;
use crate::words::Words;

pub const FUNCTIONS: std::ops::RangeInclusive<u64> = 1..=9;
const NAN: u64 = 0x7ff8_0000_0000_0000;
const NAN32: u64 = 0x7fc0_0000;

fn bits(x: f64) -> u64 {
    if x.is_nan() {
        NAN
    } else {
        x.to_bits()
    }
}

fn bits32(x: f32) -> u64 {
    if x.is_nan() {
        NAN32
    } else {
        u64::from(x.to_bits())
    }
}

/// The result's bits. Root, narrowing and round are Rust's own.
pub fn result(function: u64, x: f64) -> u64 {
    match function {
        1 => bits(standins::log2(x)),
        2 => bits(standins::log10(x)),
        3 => bits(standins::exp2(x)),
        4 => bits(standins::exp(x)),
        5 => bits(standins::pow10(x)),
        6 => bits(standins::pow60(x)),
        7 => bits(x.sqrt()),
        8 => bits32(x as f32),
        9 => bits(x.round()),
        _ => panic!("no function {function}"),
    }
}

/// The arguments of one function.
pub fn arguments(function: u64) -> Vec<f64> {
    let mut out = special();
    let random = &mut Random::new(function);
    match function {
        1 | 2 => logarithm(random, &mut out),
        3 => power(random, 1.0, &mut out),
        4 => power(random, standins::LOG2_E, &mut out),
        5 => power(random, standins::LOG2_10, &mut out),
        6 => power(random, standins::LOG2_60, &mut out),
        7 => root(random, &mut out),
        8 => narrowing(random, &mut out),
        _ => rounding(random, &mut out),
    }
    for _ in 0..250 {
        out.push(f64::from_bits(random.bits()));
    }
    out
}

pub fn record() -> Vec<u8> {
    let mut words = Words::default();
    for function in FUNCTIONS {
        for x in arguments(function) {
            words.put_all(&[function, x.to_bits(), result(function, x)]);
        }
    }
    words.file(
        "numbers, made by compare/record numbers. Cases of 3 words up to the end: \
         function, argument bits, result bits. 1 log2, 2 log10, 3 2^y, 4 exp, 5 10^u, 6 60^u, \
         7 root, 8 narrowing (f32 bits), 9 round. A NaN result is 7ff8000000000000 (8: 7fc00000).",
    )
}

/// Pushes x and its two neighbours, with both signs where `signs` says so.
fn around(x: f64, signs: bool, out: &mut Vec<f64>) {
    for y in [x, x.next_up(), x.next_down()] {
        out.push(y);
        if signs {
            out.push(-y);
        }
    }
}

/// Zeros, infinities, NaNs, and the ends of the subnormal and normal numbers.
fn special() -> Vec<f64> {
    let mut out = vec![0.0, -0.0, f64::INFINITY, f64::NEG_INFINITY];
    for b in [
        NAN,
        0xfff8_0000_0000_0000,
        0x7ff0_0000_0000_0001,
        0x7fff_ffff_ffff_ffff,
    ] {
        out.push(f64::from_bits(b));
    }
    for x in [
        f64::MIN_POSITIVE,
        f64::from_bits(2),
        1.0,
        2.0,
        0.5,
        3.0,
        10.0,
        60.0,
        747.0,
    ] {
        around(x, true, &mut out);
    }
    out.extend([f64::MAX, f64::MAX.next_down(), f64::MIN, f64::from_bits(1)]);
    out
}

/// 2^e for e from -1074 to 1023.
fn two(e: i64) -> f64 {
    f64::from_bits(if e < -1022 {
        1 << (e + 1074)
    } else {
        ((e + 1023) as u64) << 52
    })
}

/// A positive number with a binary exponent from low to high, all places random.
fn scaled(random: &mut Random, low: i64, high: i64) -> f64 {
    let exponent = low + random.below((high - low + 1) as u64) as i64;
    f64::from_bits(((exponent + 1023) as u64) << 52 | random.bits() >> 12)
}

fn subnormal(random: &mut Random) -> f64 {
    f64::from_bits(random.bits() >> (12 + random.below(52)))
}

/// The whole number that one step of the logarithm takes to 2^31 exactly.
const UPON_TWO: u64 = 1_518_500_250;

/// Pushes `next` and whole numbers that up to `steps` steps of the logarithm take to it.
fn upon_two(next: u64, steps: u32, out: &mut Vec<f64>) {
    out.push(next as f64);
    if steps == 0 {
        return;
    }
    for square in [next, 2 * next, 2 * next + 1] {
        let root = (square << 30).isqrt();
        for m in [root, root + 1] {
            let kept = (1 << 30..1 << 31).contains(&m);
            if kept && m * m >> 30 == square && (square == next) == (square < 1 << 31) {
                upon_two(m, steps - 1, out);
            }
        }
    }
}

fn logarithm(random: &mut Random, out: &mut Vec<f64>) {
    upon_two(UPON_TWO, 6, out);
    for e in (-1074..=1023).step_by(9) {
        around(two(e), false, out);
    }
    for _ in 0..300 {
        out.push(scaled(random, -70, 10));
    }
    for _ in 0..100 {
        out.push(subnormal(random));
        out.push(1.0 + random.between(-1e-6, 1e-6));
    }
    out.extend((1..=60).map(f64::from));
    for _ in 0..40 {
        out.push(-scaled(random, -1022, 1023));
    }
}

/// Exponents u with y = u × `factor` around whole numbers, -1,000 and 1,000.
fn power(random: &mut Random, factor: f64, out: &mut Vec<f64>) {
    for y in (-1002..=1002)
        .step_by(12)
        .chain(-12..=12)
        .chain([-1000, 1000])
    {
        around(f64::from(y) / factor, false, out);
    }
    for y in [-1074.0, -1022.0, -1000.5, 999.5, 1000.5, 1024.0] {
        around(y / factor, false, out);
    }
    for j in 1..=60 {
        out.push(two(-j) / factor);
        out.push(-(two(-j)) / factor);
        out.push((1.0 + two(-j)) / factor);
    }
    for _ in 0..150 {
        out.push(random.below(1 << 24) as f64 / (1u64 << 24) as f64);
        out.push(random.between(-1000.0, 1000.0) / factor);
        out.push(random.between(-30.0, 5.0));
    }
}

fn root(random: &mut Random, out: &mut Vec<f64>) {
    for k in (1..200).chain((1 << 26) - 20..1 << 26) {
        let x = f64::from(k);
        around(x * x, false, out);
    }
    for e in (-1074..=1023).step_by(25) {
        around(two(e), false, out);
    }
    for _ in 0..150 {
        out.push(scaled(random, -80, 80));
        out.push(subnormal(random));
    }
    for _ in 0..30 {
        out.push(-scaled(random, -1022, 1023));
    }
}

/// Points halfway between two f32 neighbours, what lies beside them, and the ends.
fn narrowing(random: &mut Random, out: &mut Vec<f64>) {
    let halfway = |b: u32, out: &mut Vec<f64>| {
        let (low, high) = (f32::from_bits(b), f32::from_bits(b + 1));
        around((f64::from(low) + f64::from(high)) / 2.0, true, out);
    };
    for b in [
        0,
        1,
        2,
        3,
        0x7f_fffe,
        0x7f_ffff,
        0x80_0000,
        0x3f7f_ffff,
        0x3f80_0000,
        0x7f7f_fffe,
    ] {
        halfway(b, out);
    }
    for _ in 0..60 {
        halfway(random.below(0x7f7f_ffff) as u32, out);
        halfway(random.below(0x80_0000) as u32, out);
    }
    let past = two(128) - two(103);
    for x in [past, f64::from(f32::MAX), two(128), two(-150), two(-149)] {
        around(x, true, out);
    }
    for _ in 0..150 {
        out.push(scaled(random, -160, -120));
        out.push(-scaled(random, -30, 30));
    }
}

fn rounding(random: &mut Random, out: &mut Vec<f64>) {
    for k in (0..40).chain([100, 1000, 12345, 1 << 20, (1 << 30) - 1]) {
        around(f64::from(k) + 0.5, true, out);
    }
    for e in [50, 51, 52, 53, 62, 63, 64] {
        around(two(e), true, out);
        around(two(e) - 0.5, true, out);
        around(two(e) + 0.5, true, out);
    }
    for _ in 0..200 {
        out.push(random.between(-120.0, 20.0) * 10.0);
        out.push(random.between(-60.0, 60.0) * 100.0);
        out.push((random.below(100_000) as f64 - 50_000.0) / 2.0);
    }
}
