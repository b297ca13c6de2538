//! Saves and restores of random lists.

use crate::calls::{frames, Call, Lent};
use crate::foreign::*;
use crate::image::{Edit, BYTES, OLD_BYTES, PAYLOAD, WORDS};
use crate::lists::{random_settings, random_signal};
use crate::random::Random;
use crate::restores::{edited, saved, INFINITE, NEGATIVE_ZERO, NOT_A_NUMBER, SAVE};
use crate::surround::{random_bed, random_layout, random_stored_place};

/// Random numbers for an image; `odd` in 1,000 of them are extreme.
struct Numbers<'a> {
    random: &'a mut Random,
    odd: u64,
}

impl Numbers<'_> {
    fn is_odd(&mut self) -> bool {
        self.random.below(1_000) < self.odd
    }

    fn number(&mut self, low: f64, high: f64) -> f64 {
        if !self.is_odd() {
            return self.random.between(low, high);
        }
        let any = f64::from_bits(self.random.bits());
        let x = self.random.pick(&[
            0.0,
            -0.0,
            5e-324,
            -5e-324,
            1e-300,
            1e20,
            -1e20,
            1e100,
            -1e100,
            1e153,
            1e155,
            1e300,
            -1e300,
            1e306,
            1e307,
            f64::MAX,
            f64::MIN,
            any,
        ]);
        if x.is_finite() {
            x
        } else {
            0.0
        }
    }

    fn sample(&mut self) -> f32 {
        if !self.is_odd() {
            return self.random.between(-0.5, 0.5) as f32;
        }
        let any = f32::from_bits(self.random.bits() as u32);
        let x = self
            .random
            .pick(&[-0.0, f32::from_bits(1), f32::MAX, f32::MIN, 1e20, any]);
        if x.is_finite() {
            x
        } else {
            0.0
        }
    }

    fn count(&mut self, places: usize) -> usize {
        let any = self.random.below(places as u64 + 1) as usize;
        self.random.pick(&[0, places, places - 1, any, any])
    }

    fn list(&mut self, places: usize, low: f64, high: f64) -> Vec<f64> {
        (0..self.count(places))
            .map(|_| self.number(low, high))
            .collect()
    }

    fn option(&mut self, low: f64, high: f64) -> Option<f64> {
        self.random.chance(70).then(|| self.number(low, high))
    }

    fn channel(&mut self) -> Channel {
        let loud = self.random.pick(&[1.0, 1e-3, 1e-6]);
        Channel {
            place: random_stored_place(self.random),
            filters: [0; 2].map(|_| [0; 2].map(|_| self.number(-loud, loud))),
            fast: self.number(0.0, loud),
        }
    }

    fn strand(&mut self) -> Strand {
        let loud = self.random.pick(&[1.0, 1.0, 1e-3, 1e-6]);
        let frames = self.random.pick(&[0, 1, 12, 23, 24, 24]);
        let minimum = self.number(-100.0, 0.0);
        let active = self.random.chance(50);
        let most = u64::from(u32::MAX);
        let onsets = self.random.pick(&[1, 2, 77, most - 1, most]);
        let hold = self.random.below(6_001);
        Strand {
            filters: [0; 6].map(|_| [0; 2].map(|_| self.number(-loud, loud))),
            fast: self.number(0.0, loud),
            powers: self.list(300, 0.0, loud),
            decimated: (0..self.count(240)).map(|_| self.sample()).collect(),
            smoothed: self.option(-120.0, 0.0),
            window: (if frames == 0 { 0.0 } else { minimum }, frames),
            minima: self.list(8, -120.0, 0.0),
            history: self.list(40, -120.0, 0.0),
            active,
            probability: self.number(0.0, 1.0),
            onsets,
            hold: self.random.pick(&[0, 1, 6_000, hold]),
            power: self.option(0.0, loud),
        }
    }
}

/// The payload of an image of random numbers, a few of them extreme; one in five is of
/// edition 1.
pub fn random_payload(random: &mut Random) -> Vec<u64> {
    let settings = random_settings(random).checked().unwrap_or_default();
    let odd = random.pick(&[0, 0, 1, 1, 20]);
    let place = random_stored_place(random);
    let others = random.pick(&[0, 1, 3, 5, 6, 7]);
    let old = random.chance(20);
    let mut numbers = Numbers { random, odd };
    let foreign = Foreign {
        settings,
        place,
        others: (0..others).map(|_| numbers.channel()).collect(),
        strands: [numbers.strand(), numbers.strand()],
        loops: [
            numbers.number(0.0, 24.0),
            numbers.number(-6.0, 6.0),
            numbers.number(0.0, 4.0),
            numbers.number(-0.1, 0.9),
        ],
    };
    if old {
        foreign.payload_one()
    } else {
        foreign.payload()
    }
}

/// A word at the end of a rule, past it, or any.
fn random_word(random: &mut Random) -> u64 {
    let any = random.bits();
    let number = random.between(-100.0, 100.0).to_bits();
    let sample = u64::from((random.between(-1.0, 1.0) as f32).to_bits());
    random.pick(&[
        0,
        1,
        2,
        8,
        9,
        24,
        25,
        40,
        41,
        240,
        241,
        300,
        301,
        6_000,
        6_001,
        0xffff_ffff,
        1 << 32,
        u64::MAX,
        NEGATIVE_ZERO,
        INFINITE,
        NOT_A_NUMBER,
        1.0f64.to_bits(),
        number,
        number,
        number,
        sample,
        sample,
        any,
        any,
    ])
}

/// An edit of the layout: words of a place, at the ends of their rules or past them, or
/// the count.
fn random_layout_edit(random: &mut Random) -> Edit {
    if random.chance(20) {
        return Edit::Word(COUNT, random.below(11));
    }
    let place = random.below(8) as usize;
    let words = random_layout(random).first().copied().unwrap_or_default();
    let word = random.below(3) as usize;
    Edit::Word(PLACES + 3 * place + word, words[word])
}

/// A place in the payload, of those that have a rule of their own rather than in a list.
fn random_place(random: &mut Random) -> usize {
    let strand = random.pick(&STRANDS);
    match random.below(10) {
        0 => random.below(14) as usize,
        1 => strand + random.below(FAST as u64 + 2) as usize,
        2 => strand + random.pick(&[POWERS, DECIMATED, MINIMA, HISTORY]),
        3 => strand + SMOOTHED + random.below(14) as usize,
        4..=5 => strand + ACTIVE + random.below(7) as usize,
        6 => LOOPS + random.below(4 + 25) as usize,
        7 => OTHERS + random.below(63) as usize,
        8 => LAST + random.below(25) as usize,
        _ => random.below(PAYLOAD as u64) as usize,
    }
}

/// A few frames after a foreign image, then back to a save of the list.
fn random_after(random: &mut Random, number: usize, first: u64) -> Vec<Call> {
    let key = random_signal(random);
    let bed = random_bed(random);
    let mut out = vec![frames(key, bed, first, 1 + random.below(8))];
    if random.chance(20) {
        out.push(Call::Reset(random.below(2)));
    }
    if random.chance(10) {
        out.push(Call::Layout(random_layout(random)));
    }
    if random.chance(30) {
        out.push(SAVE);
    }
    out.push(saved(number));
    out
}

fn random_bytes(random: &mut Random) -> Vec<u8> {
    let any = random.below(12_000) as usize;
    let length = random.pick(&[0, 1, BYTES - 1, BYTES, BYTES + 1, OLD_BYTES, any]);
    (0..length).map(|_| random.bits() as u8).collect()
}

/// Edits that make an image of edition 1, or one whose edition doesn't fit its length.
fn random_editions(random: &mut Random) -> Vec<Edit> {
    match random.below(8) {
        0 => vec![Edit::First, Edit::Word(0, 2)],
        1 => vec![Edit::Word(0, 1)],
        2 => vec![Edit::Length(OLD_BYTES)],
        3 => vec![Edit::First, Edit::Length(BYTES)],
        4 => vec![
            Edit::First,
            Edit::Word(1_273 + random.below(50) as usize, 1),
        ],
        _ => vec![Edit::First],
    }
}

/// A restore in a random list, with what follows it: of one of `saves`, of one damaged or
/// edited, of its edition 1, of random numbers, of any bytes. A save where there is none
/// yet.
pub fn random(random: &mut Random, saves: &[usize], first: u64) -> Vec<Call> {
    if saves.is_empty() {
        return vec![SAVE];
    }
    let number = random.pick(saves);
    let mut out = match random.below(12) {
        0..=2 => return vec![saved(number)],
        3 => {
            let place = random.below(WORDS as u64) as usize;
            let bits = random.bits().max(1);
            let bits = random.pick(&[bits, 1 << (bits % 64)]);
            return vec![edited(number, &[Edit::Flip(place, bits)])];
        }
        4 => {
            let length = random.below(12_000) as usize;
            return vec![edited(number, &[Edit::Length(length)])];
        }
        5 => return vec![Call::Restore(Lent::Bytes(random_bytes(random)))],
        6..=7 => {
            let count = 1 + random.below(3);
            let edit = |_| Edit::Word(random_place(random), random_word(random));
            let edits: Vec<Edit> = (0..count).map(edit).collect();
            vec![edited(number, &edits)]
        }
        8 => vec![edited(number, &random_editions(random))],
        9 => vec![edited(number, &[random_layout_edit(random)])],
        _ => vec![Call::Restore(Lent::Payload(random_payload(random)))],
    };
    out.extend(random_after(random, number, first));
    out
}
