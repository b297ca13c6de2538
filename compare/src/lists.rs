//! The lists of calls that are recorded for whole frames.

use crate::calls::{Call, Replaced};
use crate::driver::{Settings, DUCK_RANGES, STRAND_RANGES};
use crate::random::Random;
use crate::signals::*;

fn frames(key: Signal, bed: Signal, first: u64, count: u64, every: u64) -> Call {
    Call::Frames {
        key,
        bed: bed.into(),
        first,
        count,
        every,
    }
}

pub fn silence() -> Signal {
    Signal::new(SILENCE, 0, FULL)
}

pub fn talker() -> Signal {
    Signal::new(SPEECH, 400, FULL)
}

pub fn noise(scale: f32) -> Signal {
    Signal::new(NOISE, 9, scale)
}

/// Fresh settings but for both thresholds, holds of 20 ms and open gates.
pub fn thresholds(key: f64, bed: f64) -> Settings {
    Settings {
        strands: [[key, 20.0, -100.0], [bed, 20.0, -100.0]],
        ..Settings::default()
    }
}

/// Speech over a crowd, both talking, the bed talking alone, and back.
fn talking() -> Vec<Call> {
    let other = Signal::new(NOISY_SPEECH, 333, FULL);
    vec![
        Call::Fresh,
        frames(talker(), noise(LOW), 0, 320, 6),
        frames(talker(), other, 153_600, 200, 6),
        frames(silence(), other, 249_600, 250, 6),
        frames(talker(), noise(FULL), 369_600, 100, 6),
        Call::Reset(0),
        frames(silence(), silence(), 0, 120, 10),
        frames(other, talker(), 0, 150, 6),
        Call::Reset(1),
        frames(other, talker(), 72_000, 60, 6),
    ]
}

/// 37 s: speech over silence and over a loud bed, an interview, both talking; each
/// strand is reset while it speaks.
fn programme() -> Vec<Call> {
    let guest = Signal::new(NOISY_SPEECH, 420, FULL);
    vec![
        Call::Fresh,
        frames(talker(), silence(), 0, 350, 7),
        frames(talker(), noise(FULL), 168_000, 600, 7),
        Call::Reset(0),
        frames(talker(), noise(FULL), 456_000, 300, 7),
        frames(silence(), guest, 600_000, 600, 7),
        frames(talker(), guest, 888_000, 650, 7),
        Call::Reset(1),
        frames(talker(), guest, 1_200_000, 400, 7),
        frames(talker(), silence(), 1_392_000, 450, 7),
        frames(silence(), silence(), 1_608_000, 400, 20),
    ]
}

/// Fresh settings with another number at one place.
fn with(place: usize, x: f64) -> Settings {
    let mut s = Settings::default();
    match place {
        0..=5 => s.strands[place / 3][place % 3] = x,
        6 => s.target_lu = x,
        7 => s.overvoice_lu = x,
        8 => s.max_reduction_db = x,
        _ => s.speed = x,
    }
    s
}

/// Each setting by itself: its ends, the numbers just past them, and what isn't
/// finite, with a frame of speech after each.
fn ends() -> Vec<Call> {
    let bed = Signal::new(NOISY_SPEECH, 350, LOW);
    let mut out = vec![Call::Fresh, frames(talker(), bed, 0, 100, 40)];
    let ranges = [&STRAND_RANGES[..], &STRAND_RANGES, &DUCK_RANGES].concat();
    let mut at = 48_000;
    for (place, (low, high)) in ranges.into_iter().enumerate() {
        let [down, up] = [low.next_down(), high.next_up()];
        for x in [low, down, high, up, -0.0, f64::NAN, f64::INFINITY, -high] {
            out.extend([Call::Set(with(place, x)), frames(talker(), bed, at, 1, 1)]);
            at += 480;
        }
    }
    out
}

/// Every setting's ends, in the middle of speech; refused settings change nothing.
fn settings() -> Vec<Call> {
    let fresh = Settings::default();
    let strands = |threshold, hold, gate| Settings {
        strands: [[threshold, hold, gate]; 2],
        ..fresh
    };
    let duck = |target_lu, overvoice_lu, max_reduction_db, speed| Settings {
        target_lu,
        overvoice_lu,
        max_reduction_db,
        speed,
        ..fresh
    };
    let choices = [
        strands(0.0, 0.0, -100.0),
        strands(1.0, 60_000.0, 0.0),
        strands(-0.0, -0.0, -0.0),
        strands(0.04, 14.9, -70.0),
        strands(0.2, 15.0, -23.0),
        strands(-1e-300, 0.0, 0.0),
        strands(0.5, 60_000.1, -50.0),
        strands(0.5, 300.0, f64::NAN),
        strands(f64::INFINITY, 300.0, -50.0),
        duck(0.0, 0.0, 0.0, 0.01),
        duck(40.0, 40.0, 60.0, 100.0),
        duck(-0.0, 40.0, 24.0, 0.3),
        duck(5.0, 40.1, 24.0, 1.0),
        duck(5.0, 13.0, 24.0, 0.0099),
        duck(5.0, 13.0, f64::NEG_INFINITY, 1.0),
        Settings {
            enabled: false,
            ..duck(7.0, 13.0, 24.0, 1.0)
        },
        Settings {
            bed_voice: false,
            ..fresh
        },
        fresh,
    ];
    let mut out = vec![Call::Fresh];
    for (i, choice) in choices.into_iter().enumerate() {
        out.push(Call::Set(choice));
        let bed = Signal::new(if i % 2 == 0 { NOISY_SPEECH } else { BURSTS }, 350, LOW);
        out.push(frames(talker(), bed, i as u64 * 9_600, 20, 5));
    }
    out
}

fn odd(key: usize, bed: usize, replaced: Option<Replaced>) -> Call {
    Call::Odd {
        key: talker(),
        bed: noise(LOW).into(),
        first: 48_000,
        lengths: [Some(key), Some(bed)],
        replaced,
    }
}

fn bad(strand: usize, index: usize, value: f32) -> Option<Replaced> {
    Some(Replaced {
        strand,
        index,
        value,
    })
}

/// A 500 Hz square wave at the largest f32.
fn square() -> Signal {
    Signal::new(SQUARE, 96, LOUD)
}

/// Refusals 1, 2, 3, 4 and 9 in turn between stretches of speech: they change
/// nothing. (Refusal 5 takes 2^32 onsets or an image with many; replay's lists meet it.)
fn interrupted() -> Vec<Call> {
    let guest = Signal::new(NOISY_SPEECH, 333, LOW);
    let mut out = vec![Call::Fresh];
    for i in 0..60 {
        let at = i * 4_800;
        out.push(frames(talker(), guest, at, 10, 5));
        out.push(match i % 10 {
            0 => odd(479, 480, None),
            1 => odd(480, 480, bad(1, 3, f32::NAN)),
            2 => Call::Set(with(9, 0.0)),
            3 => frames(square(), guest, at, 1, 1),
            4 => Call::Reset(2),
            5 => odd(480, 0, bad(0, 0, f32::INFINITY)),
            6 => odd(480, 480, bad(0, 479, f32::NEG_INFINITY)),
            7 => Call::Set(with(5, f64::NAN)),
            8 => frames(talker(), square(), at, 2, 1),
            _ => Call::Reset(1 << 32),
        });
    }
    out
}

/// Short and long frames, bad samples, a missing strand; then runaways.
fn refused() -> Vec<Call> {
    let mut out = vec![Call::Fresh, odd(480, 480, None)];
    out.extend(
        [(479, 480), (480, 479), (0, 0), (481, 480), (480, 481)].map(|(k, b)| odd(k, b, None)),
    );
    out.extend([
        odd(480, 479, bad(0, 5, f32::NAN)),
        odd(480, 480, bad(0, 0, f32::NAN)),
        odd(480, 480, bad(0, 479, f32::INFINITY)),
        odd(480, 480, bad(1, 479, f32::NEG_INFINITY)),
        odd(480, 480, bad(1, 240, f32::MAX)),
        odd(480, 480, bad(0, 17, -0.0)),
        odd(480, 480, bad(1, 0, f32::from_bits(1))),
        Call::Reset(2),
        Call::Reset(u64::MAX),
        Call::Reset(0),
        odd(480, 480, None),
    ]);
    for (key, bed) in [
        (square(), square()),
        (square(), silence()),
        (silence(), square()),
    ] {
        out.extend([
            Call::Fresh,
            frames(key, bed, 0, 3, 1),
            frames(talker(), noise(LOW), 0, 6, 3),
        ]);
    }
    // A runaway in the middle changes nothing.
    let half = Signal::new(SQUARE, 96, LOUD / 2.0);
    out.extend([
        Call::Fresh,
        frames(talker(), half, 0, 30, 10),
        frames(talker(), square(), 14_400, 2, 1),
        frames(talker(), half, 14_400, 10, 3),
    ]);
    out
}

/// Every signal against a neighbour of its list, some seconds each.
fn every_signal() -> Vec<Call> {
    let all = all();
    let mut out = Vec::new();
    for (i, key) in all.iter().enumerate() {
        let bed = all[(i * 7 + 3) % all.len()];
        out.extend([Call::Fresh, frames(*key, bed, i as u64 * 5_003, 60, 12)]);
    }
    out
}

pub fn random_settings(random: &mut Random) -> Settings {
    let mut s = Settings::default();
    for strand in &mut s.strands {
        *strand = [
            random.between(0.0, 0.8),
            random.pick(&[0.0, 20.0, 300.0, 1_000.0]),
            random.pick(&[-100.0, -60.0, -40.0, -20.0]),
        ];
    }
    s.enabled = random.chance(85);
    s.target_lu = random.between(0.0, 40.0);
    s.overvoice_lu = random.between(0.0, 41.0);
    s.max_reduction_db = random.between(0.0, 60.0);
    s.speed = random.pick(&[0.01, 0.25, 1.0, 3.7, 8.0, 100.0]);
    s.bed_voice = random.chance(70);
    s
}

pub fn random_signal(random: &mut Random) -> Signal {
    if random.chance(50) {
        return random.pick(&all());
    }
    let signal = random.pick(&[SPEECH, NOISY_SPEECH, NOISY_SPEECH, BURSTS, NOISE]);
    Signal::new(
        signal,
        250 + random.below(300),
        random.pick(&[FULL, LOW, SOFT]),
    )
}

/// One list of about `calls` calls on a fresh chain.
pub fn random_list(random: &mut Random, calls: u64, every: u64) -> Vec<Call> {
    let mut out = vec![Call::Fresh];
    let mut at = random.below(1 << 20);
    for _ in 0..calls {
        out.push(match random.below(10) {
            0..=1 => Call::Set(random_settings(random)),
            2 => Call::Reset(random.below(3)),
            _ => {
                let count = 1 + random.below(60);
                let call = frames(
                    random_signal(random),
                    random_signal(random),
                    at,
                    count,
                    every,
                );
                at += count * 480;
                call
            }
        });
    }
    out
}

/// The recorded whole frames.
pub fn recorded() -> Vec<Call> {
    let mut out = vec![Call::Fresh, frames(silence(), silence(), 0, 2, 1)];
    out.extend([talking(), programme(), settings(), ends()].concat());
    out.extend([refused(), interrupted(), every_signal()].concat());
    let random = &mut Random::new(2);
    for _ in 0..16 {
        out.extend(random_list(random, 12, 7));
    }
    out
}
