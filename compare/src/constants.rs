//! The constants' table (compare/constants.txt): the detector's coefficients from
//! one run of the Rust's formulas, BS.1770's, fast_coeff and four logarithms.

use crate::auto::level::Level;
use crate::auto::vad::FeatureDetector;
use crate::dsp::biquad::Coefficients;
use crate::dsp::loudness::{K_HIGH_PASS, K_SHELF};
use crate::standins;

const COMMITTED: &str = include_str!("../constants.txt");
const DETECTOR: [&str; 4] = [
    "BAND_HIGH_PASS",
    "BAND_LOW_PASS",
    "PITCH_FIRST",
    "PITCH_SECOND",
];
const HEAD: &str =
    "# Constants by their bits. Made by: compare/constants > compare/constants.txt, from the
# Rust's own formulas (LeeO86/mxl-audio-mixer f575066b19: FeatureDetector's filters of
# src/dsp/biquad.rs, K_SHELF and K_HIGH_PASS) and the specification's stand-ins.
";

/// The committed bits of a constant.
fn committed(name: &str) -> Option<f64> {
    let line = COMMITTED
        .lines()
        .find(|l| l.split(' ').next() == Some(name))?;
    let bits = line.split(' ').nth(1)?.strip_prefix("0x")?;
    u64::from_str_radix(bits, 16).ok().map(f64::from_bits)
}

/// The committed coefficients of the band pair and the pitch pair.
pub fn table() -> Option<[Coefficients; 4]> {
    let set = |name: &str| {
        let get = |field: &str| committed(&format!("{name}.{field}"));
        Some(Coefficients {
            b0: get("b0")?,
            b1: get("b1")?,
            b2: get("b2")?,
            a1: get("a1")?,
            a2: get("a2")?,
        })
    };
    Some([
        set(DETECTOR[0])?,
        set(DETECTOR[1])?,
        set(DETECTOR[2])?,
        set(DETECTOR[3])?,
    ])
}

fn set(name: &str, c: &Coefficients) -> Vec<(String, f64)> {
    [
        ("b0", c.b0),
        ("b1", c.b1),
        ("b2", c.b2),
        ("a1", c.a1),
        ("a2", c.a2),
    ]
    .map(|(field, x)| (format!("{name}.{field}"), x))
    .to_vec()
}

/// Every constant by its name, worked out afresh.
fn afresh() -> Vec<(String, f64)> {
    let mut out = Vec::new();
    for (name, c) in DETECTOR
        .iter()
        .zip(FeatureDetector::by_formula().coefficients())
    {
        out.extend(set(name, &c));
    }
    out.extend(set("K_SHELF", &K_SHELF));
    out.extend(set("K_HIGH_PASS", &K_HIGH_PASS));
    let fast = Level::new(vec![1.0]).fast_coeff();
    let single = [
        ("FAST_COEFF", fast),
        ("ONE_MINUS_FAST_COEFF", 1.0 - fast),
        ("LOG10_2", standins::LOG10_2),
        ("LOG2_E", standins::LOG2_E),
        ("LOG2_10", standins::LOG2_10),
        ("LOG2_60", standins::LOG2_60),
    ];
    out.extend(single.map(|(name, x)| (name.to_string(), x)));
    out
}

/// The text of compare/constants.txt.
pub fn text() -> String {
    let line = |(name, x): (String, f64)| format!("{name} 0x{:016x} {x:?}\n", x.to_bits());
    HEAD.to_string() + &afresh().into_iter().map(line).collect::<String>()
}
