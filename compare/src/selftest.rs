//! Tests of this comparison: examples of the stand-ins, Rust's own root,
//! narrowing and round against the same worked out by whole numbers, that a chain
//! comes back from its image, and beds of several channels.

use crate::calls::{strands, Bed};
use crate::driver::{Answer, Chain, Refusal};
use crate::dsp::biquad::Coefficients;
use crate::dsp::loudness::{K_HIGH_PASS, K_SHELF};
use crate::foreign::{Foreign, COUNT, OTHERS, PLACES, POWERS, STRANDS};
use crate::layout::{self, PlaceWords};
use crate::lists::{noise, random_settings, random_signal, silence, talker};
use crate::numbers;
use crate::random::Random;
use crate::signals::{Signal, FULL, LOW, NOISE};
use crate::standins;
use crate::surround::{at, random_bed, random_layout, FIVE, LFE, SEVEN, STEREO};
use crate::words::Words;

const RANDOM: usize = 1_000_000;

/// A finite |x| as (s, e): x = s × 2^e with 2^52 <= s < 2^53 (s = 0 for 0).
fn parts(x: f64) -> (u64, i64) {
    let bits = x.to_bits() & (u64::MAX >> 1);
    let (field, fraction) = ((bits >> 52) as i64, bits & ((1 << 52) - 1));
    if field > 0 {
        return (fraction | 1 << 52, field - 1075);
    }
    let up = if fraction == 0 {
        0
    } else {
        fraction.leading_zeros() - 11
    };
    (fraction << up, -1074 - i64::from(up))
}

/// s / 2^drop, to the nearest whole number; a half goes up where `half_up` says so.
fn nearest(s: u64, drop: i64, half_up: impl Fn(u64) -> bool) -> u64 {
    if drop > 60 {
        return 0;
    }
    let (whole, rest, half) = (s >> drop, s & ((1 << drop) - 1), 1 << (drop - 1));
    whole + u64::from(rest > half || rest == half && half_up(whole))
}

/// Root of a positive finite number: 54 places, of which the last decides.
fn root(x: f64) -> f64 {
    let (s, e) = parts(x);
    let odd = e.rem_euclid(2);
    let r = (u128::from(s) << (54 + odd)).isqrt() as u64;
    let half = (e - odd - 54) / 2 + 1;
    ((r >> 1) + (r & 1)) as f64 * f64::from_bits(((half + 1023) as u64) << 52)
}

/// The f32's bits, without the sign.
fn narrowing(x: f64) -> u64 {
    let (s, e) = parts(x);
    let unit = (e + 29).max(-149);
    let n = nearest(s, unit - e, |whole| whole % 2 == 1);
    (((unit + 149) as u64) << 23)
        .saturating_add(n)
        .min(0x7f80_0000)
}

fn round(x: f64) -> f64 {
    let (s, e) = parts(x);
    let n = if e >= 0 {
        x.abs()
    } else {
        nearest(s, -e, |_| true) as f64
    };
    n.copysign(x)
}

/// Whether function 7, 8 or 9 gives x what whole numbers give.
fn agrees(function: u64, x: f64) -> bool {
    match function {
        7 if x > 0.0 && x.is_finite() => x.sqrt().to_bits() == root(x).to_bits(),
        8 if x.is_finite() => {
            u64::from((x as f32).to_bits()) == narrowing(x) | u64::from(x.is_sign_negative()) << 31
        }
        9 if x.is_finite() => x.round().to_bits() == round(x).to_bits(),
        _ => true,
    }
}

fn examples() -> Vec<(&'static str, bool)> {
    vec![
        (
            "log2 of 1, 2, 0.5",
            [1.0, 2.0, 0.5].map(standins::log2) == [0.0, 1.0, -1.0],
        ),
        (
            "log2 of 3",
            standins::log2(3.0) * 16_777_216.0 == 26_591_258.0,
        ),
        ("2^0, 2^-1", [0.0, -1.0].map(standins::exp2) == [1.0, 0.5]),
        (
            "2^0.5",
            standins::exp2(0.5) == 1_518_500_249.0 / 1_073_741_824.0,
        ),
        (
            "1,386 payload words",
            Chain::default().payload().len() == 1_386,
        ),
        (
            "a fresh payload, place by place",
            Chain::default().payload() == Foreign::default().payload(),
        ),
        (
            // The last block's words are zero, so its check is 21 rotated 63 times.
            "the last check of a fresh image is 2^63 + 10",
            Chain::default().image()[11_256..] == ((1u64 << 63) + 10).to_le_bytes(),
        ),
        (
            "a save into 11,263 bytes, and into those of edition 1",
            [11_263, 10_752].map(|n| Chain::default().save(n)) == [Err(6), Err(6)],
        ),
        (
            "a restore of 10,753 and of 11,265 bytes",
            [10_753, 11_265].map(|n| Chain::default().restore(&vec![0; n])) == [Err(6), Err(6)],
        ),
        (
            "a restore of zeros",
            [10_752, 11_264].map(|n| Chain::default().restore(&vec![0; n])) == [Err(7), Err(7)],
        ),
        (
            "a 479th sample is missing",
            Chain::default().frame(&[0.0; 479], &[0.0; 480]).err() == Some(1),
        ),
        (
            "480 samples pass",
            Chain::default().frame(&[0.0; 480], &[0.0; 480]).is_ok(),
        ),
    ]
}

/// Logarithms lie within 2 / 2^24 below f64's, powers a little below f64's.
fn near() -> (u64, u64) {
    let random = &mut Random::new(5);
    let mut differ = 0;
    for _ in 0..RANDOM / 10 {
        let x = f64::from_bits(random.bits() >> 1);
        let under = x.log2() - standins::log2(x);
        differ += u64::from(x.is_finite() && !(-1e-12..2.0 / 16_777_216.0).contains(&under));
        let y = random.between(-1000.0, 1000.0);
        let ratio = standins::exp2(y) / y.exp2();
        differ += u64::from(!(1.0 - 3.0 * 4.2e-8..1.0 + 1e-12).contains(&ratio));
    }
    (RANDOM as u64 / 5, differ)
}

/// The words of a frame's answer, or the refusal.
fn words(answer: Result<Answer, Refusal>) -> Result<Vec<u64>, Refusal> {
    answer.map(|a| {
        let mut words = Words::default();
        a.store(&mut words);
        words.words
    })
}

/// Whether a chain restored from this one's image has the same image, and answers the
/// next frames as this one does.
fn comes_back(chain: &mut Chain, key: Signal, bed: Bed, first: u64) -> bool {
    let mut other = Chain::default();
    if other.restore(&chain.image()).is_err() || other.image() != chain.image() {
        return false;
    }
    (0..8).all(|i| {
        let [key, bed] = strands(&key, &bed, chain.channels(), first + 480 * i);
        words(chain.frame(&key, &bed)) == words(other.frame(&key, &bed))
            && other.image() == chain.image()
    })
}

/// Images of 40 chains, five of each between runs of frames, settings, resets and layouts.
fn images() -> (u64, u64) {
    let random = &mut Random::new(8);
    let mut differ = 0;
    for _ in 0..40 {
        let mut chain = Chain::default();
        for round in 0..5 {
            let (key, bed) = (random_signal(random), random_bed(random));
            let count = random.below(80);
            let first = 100_000 * round;
            for i in 0..count {
                let [key, bed] = strands(&key, &bed, chain.channels(), first + 480 * i);
                // A refused frame changes nothing.
                let _ = chain.frame(&key, &bed);
            }
            if !comes_back(&mut chain, key, bed, first + 480 * count) {
                println!("a chain comes back as another from its image");
                differ += 1;
            }
            // Refused settings, resets and layouts change nothing.
            let _ = chain.set(random_settings(random));
            let _ = chain.reset(random.below(6));
            let _ = chain.set_layout(&random_layout(random));
        }
    }
    (200, differ)
}

/// Places and their weights, as BS.1770-4 has them.
const WEIGHTS: [(PlaceWords, f64); 22] = [
    (at(0, 0), 1.0),
    (at(30, 0), 1.0),
    (at(59, 0), 1.0),
    (at(60, 0), 1.41),
    (at(90, 0), 1.41),
    (at(110, 0), 1.41),
    (at(120, 0), 1.41),
    (at(121, 0), 1.0),
    (at(-59, 0), 1.0),
    (at(-60, 0), 1.41),
    (at(-120, 0), 1.41),
    (at(-121, 0), 1.0),
    (at(180, 0), 1.0),
    (at(-180, 0), 1.0),
    (at(60, 29), 1.41),
    (at(60, 30), 1.0),
    (at(-120, -29), 1.41),
    (at(-120, -30), 1.0),
    (at(90, 90), 1.0),
    (at(90, -90), 1.0),
    (LFE, 0.0),
    ([90, 0, 1], 0.0),
];

/// A K-weighting section from rest, by the specification's formulas.
fn section(c: &Coefficients, xs: &[f64]) -> (Vec<f64>, [f64; 2]) {
    let [mut z1, mut z2] = [0.0; 2];
    let mut out = Vec::new();
    for x in xs {
        let y = c.b0 * x + z1;
        z1 = (c.b1 * x - c.a1 * y) + z2;
        z2 = c.b2 * x - c.a2 * y;
        out.push(y);
    }
    (out, [z1, z2])
}

/// A channel's energy over its first frame, and its nine words of the image after it.
fn weighed(samples: &[f32]) -> (f64, Vec<u64>) {
    let xs: Vec<f64> = samples.iter().map(|x| f64::from(*x)).collect();
    let (shelved, shelf) = section(&K_SHELF, &xs);
    let (ys, high_pass) = section(&K_HIGH_PASS, &shelved);
    let c = f64::from_bits(0x3fef_fc96_4040_0000);
    let (mut energy, mut fast) = (0.0, 0.0);
    for y in ys {
        energy += y * y;
        fast = fast * c + y * y * (1.0 - c);
    }
    let mut words = Words::default();
    for z in [shelf, high_pass] {
        words.put_numbers(&z);
        words.put_zeros(2);
    }
    words.put_f64(fast);
    (energy, words.words)
}

/// A first frame of a bed at left, 90 degrees and an LFE: the image's words, worked out
/// channel by channel.
fn first_frame(seed: u64) -> bool {
    let places = [at(30, 0), at(90, 0), LFE];
    let channels = [1, 2, 3].map(|i| Signal::new(NOISE, seed + i, LOW).samples(0, 480));
    let [first, second, third] = [0, 1, 2].map(|i| weighed(&channels[i]));
    let power = ((0.0 + 1.0 * first.0 / 480.0) + 1.41 * second.0 / 480.0) + 0.0 * third.0 / 480.0;
    let mut chain = Chain::default();
    let _ = chain.set_layout(&places);
    let passed = chain.frame(&[0.0; 480], &channels.concat()).is_ok();
    let payload = chain.payload();
    let bed = &payload[STRANDS[1]..];
    passed
        && bed[..8] == first.1[..8]
        && bed[24] == first.1[8]
        && bed[POWERS..POWERS + 2] == [1, power.to_bits()]
        && payload[COUNT..PLACES] == [3]
        && payload[PLACES..OTHERS] == [&places.concat()[..], &[0; 15]].concat()
        && payload[OTHERS..] == [&second.1[..], &third.1, &[0; 45 + 25]].concat()
}

/// The words of an image of 5.1, by hand: 30, -30, 0, LFE, 110, -110.
fn five_words() -> bool {
    let minus = |x: u64| x.wrapping_neg();
    let mut chain = Chain::default();
    let done = chain.set_layout(&FIVE);
    let [left, right] = [[30, 0, 0], [minus(30), 0, 0]];
    let [beside, opposite] = [[110, 0, 0], [minus(110), 0, 0]];
    let words = [left, right, [0, 0, 0], [0, 0, 1], beside, opposite].concat();
    let payload = chain.payload();
    done == Ok(())
        && payload[0] == 2
        && payload[1_273] == 6
        && payload[1_274..1_292] == words
        && payload[1_292..] == [0; 94]
}

/// An LFE's angles are stored as zero; -180 and 180 are two places.
fn stored_places() -> bool {
    let stored = |places: &[PlaceWords]| {
        let mut chain = Chain::default();
        let done = chain.set_layout(places);
        done.map(|()| chain.payload()[COUNT..COUNT + 7].to_vec())
    };
    let west = 180u64.wrapping_neg();
    stored(&[[90, 10, 1], [west, 91, 1]]) == Err(10)
        && stored(&[[90, 10, 1], [west, 80, 1]]) == Ok(vec![2, 0, 0, 1, 0, 0, 1])
        && stored(&[[180, 90, 0], [west, 0, 0]]) == Ok(vec![2, 180, 90, 0, west, 0, 0])
}

/// A chain that heard speech in a bed of these places, some frames.
fn heard(places: &[PlaceWords]) -> Chain {
    let mut chain = Chain::default();
    let _ = chain.set_layout(places);
    for i in 0..12 {
        let bed = Bed::from(talker());
        let [key, bed] = strands(&talker(), &bed, places.len(), 48_000 + 480 * i);
        let _ = chain.frame(&key, &bed);
    }
    chain
}

/// An accepted layout call changes the bed's level and the layout alone, also where it
/// brings the layout in force; a refused one changes nothing.
fn layout_call(places: &[PlaceWords], passes: bool) -> bool {
    let mut chain = heard(&SEVEN);
    let before = chain.payload();
    let got = chain.set_layout(places);
    let after = chain.payload();
    if !passes {
        return got == Err(10) && after == before;
    }
    let mut fresh = Chain::default();
    let _ = fresh.set_layout(places);
    let mut wanted = before;
    let fresh = fresh.payload();
    let bed = STRANDS[1];
    // Shelf and high-pass; fast and the powers; layout and further channels.
    for part in [bed..bed + 8, bed + 24..bed + 326, COUNT..fresh.len()] {
        wanted[part.clone()].copy_from_slice(&fresh[part]);
    }
    got == Ok(()) && after == wanted
}

/// A reset of the bed keeps the layout, and what is left is a fresh strand and its counts.
fn reset_keeps_layout() -> bool {
    let mut chain = heard(&SEVEN);
    let before = chain.payload();
    let done = chain.reset(1);
    let mut fresh = Chain::default();
    let _ = fresh.set_layout(&SEVEN);
    let mut wanted = fresh.payload();
    let bed = STRANDS[1];
    wanted[..bed].copy_from_slice(&before[..bed]);
    wanted[1_269..COUNT].copy_from_slice(&before[1_269..COUNT]);
    let onsets = before[bed + 623];
    wanted[bed + 623..bed + 625].fill(onsets);
    done == Ok(()) && chain.payload() == wanted && before[OTHERS] != 0
}

/// An image of edition 1 takes the chain's layout away.
fn first_edition() -> bool {
    let mut chain = heard(&FIVE);
    let old = Foreign::default().payload_one();
    let done = chain.restore(&crate::image::around(&old));
    old.len() == 1_323 && done == Ok(()) && chain.payload() == Chain::default().payload()
}

/// Silent channels beside a first one of weight 1, and LFEs with any sound, change no
/// answer: as one channel.
fn as_one_channel() -> bool {
    let mut one = Chain::default();
    let mut several = Chain::default();
    let mut low = Chain::default();
    let _ = several.set_layout(&STEREO);
    let _ = low.set_layout(&[at(0, 0), LFE, LFE]);
    let quiet = Bed([silence(); 8]);
    (0..400).all(|i| {
        let first = 480 * i;
        let alone = |bed: Bed| {
            let mut channels = bed.0;
            channels[0] = noise(LOW);
            Bed(channels)
        };
        let frame = |chain: &mut Chain, bed: &Bed| {
            let [key, bed] = strands(&talker(), bed, chain.channels(), first);
            words(chain.frame(&key, &bed))
        };
        let answer = frame(&mut one, &alone(quiet));
        answer.is_ok()
            && answer == frame(&mut several, &alone(quiet))
            && answer == frame(&mut low, &alone(Bed::from(noise(FULL))))
    })
}

/// Tech 3341's case 6, a tone of 1 kHz in five channels, reads -23.0; an LFE beside it
/// changes nothing.
fn case_6() -> bool {
    let tone = |db: f64, first: u64| -> Vec<f32> {
        let turn = |n| std::f64::consts::TAU * n as f64 / 48.0;
        let level = 10f64.powf(db / 20.0);
        let sample = |n| (level * f64::sin(turn(n))) as f32;
        (first..first + 480).map(sample).collect()
    };
    let mut chain = Chain::default();
    let _ = chain.set_layout(&FIVE);
    let shown = (0..300).map(|i| {
        let channels = [-28.0, -28.0, -24.0, 0.0, -30.0, -30.0].map(|db| tone(db, 480 * i));
        let answer = chain.frame(&[0.0; 480], &channels.concat()).ok()?;
        let bed = answer.strands[1];
        Some([bed.momentary_lufs, bed.short_term_lufs])
    });
    shown.last() == Some(Some([-23.0, -23.0]))
}

/// Beds of several channels, by hand.
fn surround() -> Vec<(&'static str, bool)> {
    let weights = WEIGHTS.iter().all(|(p, w)| layout::weight(*p) == Some(*w));
    let bad = crate::surround::bad_layouts();
    vec![
        ("weights", weights),
        ("an image of 5.1", five_words()),
        ("an LFE's angles, -180 and 180", stored_places()),
        ("a first frame of three channels", (0..30).all(first_frame)),
        ("a layout call", layout_call(&STEREO, true)),
        ("the same layout again", layout_call(&SEVEN, true)),
        ("refused layouts", bad.iter().all(|p| layout_call(p, false))),
        ("a reset keeps the layout", reset_keeps_layout()),
        ("Tech 3341's case 6", case_6()),
        ("edition 1 has no layout", first_edition()),
        (
            "silent channels and LFEs change no answer",
            as_one_channel(),
        ),
    ]
}

/// How many cases were tried, and how many differ.
pub fn run() -> (u64, u64) {
    let (near_compared, near_differ) = near();
    let (images_compared, images_differ) = images();
    let mut compared = near_compared + images_compared;
    let mut differ = near_differ + images_differ;
    for (name, holds) in examples().into_iter().chain(surround()) {
        compared += 1;
        if !holds {
            println!("example: {name} differs");
            differ += 1;
        }
    }
    for function in 7..=9 {
        let random = &mut Random::new(100 + function);
        let more = (0..RANDOM).map(|i| match i % 4 {
            0 => f64::from_bits(random.bits()),
            1 => random.between(-40.0, 40.0),
            2 => (random.below(1 << 40) as f64 - 5e11) / 2.0,
            _ => {
                f64::from(f32::from_bits(random.bits() as u32))
                    * (1.0 + random.pick(&[0.0, 5.9604644775390625e-8]))
            }
        });
        for x in numbers::arguments(function).into_iter().chain(more) {
            compared += 1;
            if !agrees(function, x) {
                println!(
                    "function {function} of {x:e} (0x{:016x}) differs",
                    x.to_bits()
                );
                differ += 1;
            }
        }
    }
    (compared, differ)
}
