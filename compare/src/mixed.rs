//! The lists of calls that the program replay runs: the one that is kept, and random ones.

use crate::calls::{frames, Call, Replaced, FRAME};
use crate::driver::Settings;
use crate::image;
use crate::lists::{noise, random_settings, random_signal, silence, talker, thresholds};
use crate::random::Random;
use crate::signals::*;
use crate::surround::{self, random_bed, random_layout};
use crate::{random_images, restores, surround_images};

/// Values that a setting meets at its ends and outside its range.
const EXTREMES: [f64; 22] = [
    -0.0,
    0.0,
    1.0,
    60_000.0,
    -100.0,
    40.0,
    60.0,
    0.01,
    100.0,
    5e-324,
    -5e-324,
    1.0000000000000002,
    60_000.00000000001,
    -100.00000000000001,
    40.00000000000001,
    0.009999999999999998,
    100.00000000000001,
    f64::MAX,
    f64::NAN,
    -f64::NAN,
    f64::INFINITY,
    f64::NEG_INFINITY,
];

/// Settings of which some are at the ends of their ranges, outside them, or any bits.
fn extreme_settings(random: &mut Random) -> Settings {
    let mut s = random_settings(random);
    let outside = |random: &mut Random, x: &mut f64| match random.below(20) {
        0 => *x = random.pick(&EXTREMES),
        1 => *x = f64::from_bits(random.bits()),
        _ => (),
    };
    for x in s.strands.as_flattened_mut() {
        outside(random, x);
    }
    for x in [
        &mut s.target_lu,
        &mut s.overvoice_lu,
        &mut s.max_reduction_db,
        &mut s.speed,
    ] {
        outside(random, x);
    }
    s
}

/// A frame of a wrong length, with a sample of any bits, or both.
fn odd_frame(random: &mut Random, first: u64) -> Call {
    let length = |random: &mut Random, channels: u64| match random.below(10) {
        0 => Some(random.pick(&[0, 1, 479, 481, 482, 960, 961, 962, 5_000])),
        1 => Some(random.below(600) as usize),
        2 => Some((FRAME as u64 * random.below(channels + 2)) as usize),
        3 => Some((FRAME as u64 * channels + random.below(3) - 1) as usize),
        _ => None,
    };
    let channels = 1 + random.below(8);
    let lengths = [length(random, 1), length(random, channels)];
    let strand = random.below(2) as usize;
    let any = random.bits() as u32;
    let bits = random.pick(&[
        0x7f80_0000,
        0xff80_0000,
        0x7f80_0001,
        0x7fc0_0000,
        0xffff_ffff,
        0x7f7f_ffff,
        0x8000_0000,
        0x0000_0001,
        any,
    ]);
    let replaced = random.chance(70).then(|| Replaced {
        strand,
        index: random.below(1 << 16) as usize,
        value: f32::from_bits(bits),
    });
    Call::Odd {
        key: random_signal(random),
        bed: random_bed(random),
        first,
        lengths,
        replaced,
    }
}

/// A run of frames; now and then a square wave that runs away.
fn random_frames(random: &mut Random, first: u64, most: u64) -> Call {
    let loud = Signal::new(SQUARE, 96, LOUD);
    let mut key = random_signal(random);
    let mut bed = random_bed(random);
    if random.chance(5) {
        key = loud;
    }
    if random.chance(5) {
        bed.0[random.pick(&[0, 0, 1, 2, 5])] = loud;
    }
    let longest = random.pick(&[6, 30, 120]);
    frames(key, bed, first, 1 + random.below(most.min(longest)))
}

/// A save, one in ten into a buffer of a wrong length.
fn random_save(random: &mut Random) -> Call {
    let wrong = random.below(20_000) as usize;
    Call::Save(match random.below(20) {
        0 => random.pick(&[0, 1, image::BYTES - 1, image::BYTES + 1, image::OLD_BYTES]),
        1 => wrong,
        _ => image::BYTES,
    })
}

/// One list of at least `calls` calls on one chain, a frame a call: every signal,
/// settings at and outside the ends of their ranges, layouts, resets, saves, restores of
/// saves and of other bytes, and frames that are refused.
pub fn random_list(random: &mut Random, calls: u64) -> Vec<Call> {
    let strands = [0, 1, 0, 1, 0, 1, 2, 1 << 32, u64::MAX];
    let mut out = vec![Call::Fresh];
    let mut left = calls;
    let mut saves = 0;
    let mut own = Vec::new();
    let mut at = random.below(1 << 20);
    while left > 0 {
        let some = match random.below(24) {
            0..=1 => vec![Call::Set(extreme_settings(random))],
            2 => vec![Call::Reset(random.pick(&strands))],
            3..=4 => vec![odd_frame(random, at)],
            5..=6 => vec![random_save(random)],
            7..=12 => random_images::random(random, &own, at),
            13..=16 => vec![Call::Layout(random_layout(random))],
            _ => vec![random_frames(random, at, left)],
        };
        // A save that comes alone isn't of a foreign image's chain.
        let alone = some.len() == 1;
        for call in some {
            let count = match call {
                Call::Frames { count, .. } => count,
                _ => 1,
            };
            if let Call::Save(image::BYTES) = call {
                own.extend(alone.then_some(saves));
                saves += 1;
            }
            at += count * FRAME as u64;
            left = left.saturating_sub(count);
            out.push(call);
        }
    }
    out
}

/// The list that the program replay is held to: each state, each refusal, settings,
/// layouts, resets, saves and restores.
pub fn kept() -> Vec<Call> {
    let mut out = vec![Call::Fresh];
    out.extend([restores::first(), without_images(), restores::kept()].concat());
    out.extend(surround::kept());
    let whole = |call: &&Call| matches!(call, Call::Save(image::BYTES));
    let saves = out.iter().filter(whole).count();
    out.extend(surround_images::kept(saves));
    out
}

/// The calls of that list in which no image is saved or restored.
fn without_images() -> Vec<Call> {
    let fresh = Settings::default();
    let [silence, talker] = [silence(), talker()];
    let other = Signal::new(NOISY_SPEECH, 333, FULL);
    let square = Signal::new(SQUARE, 96, LOUD);
    let odd = |key, bed, replaced| Call::Odd {
        key: talker,
        bed: noise(LOW).into(),
        first: 48_000,
        lengths: [Some(key), Some(bed)],
        replaced,
    };
    let bad = |strand, index, value| {
        Some(Replaced {
            strand,
            index,
            value,
        })
    };
    vec![
        frames(silence, silence, 0, 2),
        odd(479, 480, None),
        odd(480, 481, None),
        odd(0, 1000, None),
        odd(480, 480, bad(0, 479, f32::NAN)),
        odd(480, 480, bad(1, 0, f32::NEG_INFINITY)),
        odd(480, 480, bad(1, 0, -0.0)),
        Call::Set(thresholds(0.0, 1.0)),
        frames(talker, noise(LOW), 4_800, 8),
        Call::Set(thresholds(-0.0, 0.0)),
        frames(talker, other, 9_600, 6),
        Call::Set(thresholds(f64::NAN, 0.0)),
        Call::Set(thresholds(1.0, 0.0)),
        frames(talker, other, 14_400, 6),
        frames(square, silence, 0, 2),
        frames(silence, square, 0, 2),
        Call::Reset(0),
        Call::Reset(2),
        Call::Reset(1),
        Call::Set(Settings {
            enabled: false,
            ..fresh
        }),
        frames(talker, other, 19_200, 2),
        Call::Set(Settings {
            speed: 100.1,
            ..fresh
        }),
        Call::Set(fresh),
        frames(silence, noise(FULL), 0, 3),
    ]
}
