//! Saves and restores of the list that is kept.

use crate::calls::{frames, Call, Lent};
use crate::driver::{Settings, DUCK_RANGES, STRAND_RANGES};
use crate::foreign::{self, *};
use crate::image::{Edit, BYTES, PAYLOAD, WORDS};
use crate::lists::{noise, silence, talker, thresholds};
use crate::signals::*;

/// Numbers of the list's saves: a fresh chain, both strands speaking, some frames later.
const FRESH: usize = 0;
const TALKING: usize = 1;
const LATER: usize = 2;

pub const NEGATIVE_ZERO: u64 = 1 << 63;
pub const INFINITE: u64 = f64::INFINITY.to_bits();
pub const NOT_A_NUMBER: u64 = f64::NAN.to_bits();

pub const SAVE: Call = Call::Save(BYTES);

/// A restore of what a save of the list wrote.
pub fn saved(number: usize) -> Call {
    edited(number, &[])
}

pub fn edited(number: usize, edits: &[Edit]) -> Call {
    Call::Restore(Lent::Saved(number, edits.to_vec()))
}

/// The first calls of the kept list: save FRESH, and buffers of a wrong length.
pub fn first() -> Vec<Call> {
    [BYTES, 0, 10_752, 11_263, 11_265].map(Call::Save).to_vec()
}

/// Back to a save, and the same frames again; back over a settings call; back to fresh.
fn rewinds() -> Vec<Call> {
    let guest = Signal::new(NOISY_SPEECH, 333, FULL);
    let again = frames(talker(), noise(LOW), 26_400, 3);
    vec![
        Call::Set(thresholds(0.0, 0.0)),
        frames(talker(), guest, 24_000, 4),
        SAVE,
        again.clone(),
        SAVE,
        saved(TALKING),
        again,
        SAVE,
        Call::Set(Settings {
            enabled: false,
            ..thresholds(1.0, 0.3)
        }),
        frames(silence(), guest, 48_000, 1),
        saved(TALKING),
        SAVE,
        frames(talker(), noise(LOW), 26_400, 1),
        saved(FRESH),
        frames(silence(), silence(), 0, 1),
        saved(LATER),
        SAVE,
    ]
}

/// Refusals 6 and 7: wrong lengths; each block with a word changed, its check among
/// them; a bad check after a bad word.
fn damaged() -> Vec<Call> {
    let lengths = [0, 1, 10_751, 10_753, 11_263, 11_265, 20_000];
    let mut out = lengths.map(|n| edited(LATER, &[Edit::Length(n)])).to_vec();
    for block in 0..22 {
        let word = [0, 63, 21 + block, 62][block % 4];
        let bits = [1 << (3 * block), u64::MAX, NEGATIVE_ZERO][block % 3];
        out.push(edited(LATER, &[Edit::Flip(64 * block + word, bits)]));
    }
    out.push(edited(LATER, &[Edit::Word(0, 3), Edit::Flip(WORDS - 1, 1)]));
    out
}

/// Edition and settings that an image may not hold: a place and its word.
fn bad_settings() -> Vec<(usize, u64)> {
    let key = (SETTINGS..).zip(STRAND_RANGES);
    let bed = (SETTINGS + 3..).zip(STRAND_RANGES);
    let duck = (SETTINGS + 7..).zip(DUCK_RANGES);
    let mut out = vec![(0, 0), (0, 1), (0, 3)];
    for (place, (low, high)) in key.chain(bed).chain(duck) {
        if place % 2 == 1 || place > 9 {
            out.push((place, low.next_down().to_bits()));
        }
        if place % 2 == 0 || place > 9 {
            out.push((place, high.next_up().to_bits()));
        }
    }
    out.extend([(2, NOT_A_NUMBER), (11, INFINITE)]);
    out.push((6, f64::NEG_INFINITY.to_bits()));
    out.extend([1, 3, 5, 9].map(|place| (place, NEGATIVE_ZERO)));
    out.extend([(7, 2), (12, u64::MAX)]);
    out
}

/// Words of a strand that an image may not hold: the save that they are edited in,
/// places in the strand and their words.
fn bad_strands() -> Vec<(usize, Vec<(usize, u64)>)> {
    let one = |save, place, word| (save, vec![(place, word)]);
    let level = (-60.0f64).to_bits();
    let limit = 1 << 32;
    let mut out = Vec::new();
    for filter in 0..6 {
        out.push(one(LATER, 4 * filter, INFINITE));
        out.push(one(FRESH, 4 * filter + 1, NOT_A_NUMBER));
    }
    out.extend([
        one(FRESH, 2, 1),
        one(LATER, 23, NEGATIVE_ZERO),
        one(LATER, FAST, NOT_A_NUMBER),
        one(FRESH, POWERS, 301),
        one(LATER, POWERS + 2, INFINITE),
        one(LATER, POWERS, 3),
        one(FRESH, DECIMATED, 241),
        one(LATER, DECIMATED + 240, 0x7fc0_0000),
        one(LATER, DECIMATED + 2, limit),
        one(FRESH, DECIMATED + 240, 1),
        one(LATER, SMOOTHED, 2),
        one(LATER, SMOOTHED + 1, NOT_A_NUMBER),
        one(FRESH, SMOOTHED + 1, level),
        one(LATER, WINDOW_MIN, f64::NEG_INFINITY.to_bits()),
        one(LATER, WINDOW_FRAMES, 25),
        one(FRESH, WINDOW_MIN, NEGATIVE_ZERO),
        one(FRESH, MINIMA, 9),
        (FRESH, vec![(MINIMA, 1), (MINIMA + 1, INFINITE)]),
        one(FRESH, MINIMA + 8, level),
        one(FRESH, HISTORY, 41),
        one(LATER, HISTORY + 1, NOT_A_NUMBER),
        one(FRESH, HISTORY + 40, level),
        (FRESH, vec![(ACTIVE, 2), (ONSETS, 2)]),
        one(LATER, PROBABILITY, f64::NEG_INFINITY.to_bits()),
        one(FRESH, ONSETS, 1),
        (FRESH, vec![(ACTIVE, 1), (OFFSETS, u64::MAX)]),
        (FRESH, vec![(ONSETS, limit), (OFFSETS, limit)]),
        one(FRESH, HOLD, 6_001),
        one(LATER, POWER, 2),
        (FRESH, vec![(POWER, 1), (POWER + 1, INFINITE)]),
        one(FRESH, POWER + 1, NEGATIVE_ZERO),
    ]);
    out
}

/// Refusal 8: one image for each rule, in the key and the bed by turns; after every
/// sixteen a save and a frame.
fn broken() -> Vec<Call> {
    let mut images: Vec<Call> = bad_settings()
        .into_iter()
        .map(|(place, word)| edited(LATER, &[Edit::Word(place, word)]))
        .collect();
    for (i, (save, words)) in bad_strands().into_iter().enumerate() {
        let edit = |(place, word)| Edit::Word(STRANDS[i % 2] + place, word);
        images.push(edited(
            save,
            &words.into_iter().map(edit).collect::<Vec<_>>(),
        ));
    }
    let last = [
        (LOOPS, INFINITE),
        (LOOPS + 1, NOT_A_NUMBER),
        (LOOPS + 2, f64::NEG_INFINITY.to_bits()),
        (LOOPS + 3, INFINITE),
        (LAST, 1),
        (PAYLOAD - 1, NEGATIVE_ZERO),
    ];
    images.extend(last.map(|(place, word)| edited(FRESH, &[Edit::Word(place, word)])));
    let mut out = Vec::new();
    for (i, group) in images.chunks(16).enumerate() {
        out.extend(group.iter().cloned());
        out.extend([
            SAVE,
            frames(talker(), noise(LOW), 27_840 + 480 * i as u64, 1),
        ]);
    }
    out
}

/// The calls of the kept list after those without images.
pub fn kept() -> Vec<Call> {
    let mut out = rewinds();
    out.extend([damaged(), broken(), foreign::kept()].concat());
    out.extend([
        saved(LATER),
        SAVE,
        saved(FRESH),
        frames(silence(), silence(), 0, 1),
    ]);
    out
}
