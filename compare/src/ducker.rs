//! Recorded ducker: `ratio::State::frame` from readings, voices and settings.
//!
//! Lists up to the end, each on a fresh ducker: count; per frame the 6 duck settings,
//! 6 inputs (key_voice, target_voice, dialogue_short_term, bed short_term, momentary,
//! fast), the 13 words of driver::store_status, stored slow, mid, fast, hold remaining.

use crate::auto::ratio::{Inputs, State};
use crate::driver::{store_status, Settings};
use crate::random::Random;
use crate::standins;
use crate::words::Words;

fn random_inputs(random: &mut Random, before: &Inputs) -> Inputs {
    let mut loudness = |now: f64| match random.below(30) {
        0 => -100.0,
        1 => (-100.0f64).next_up(),
        2 => random.between(-100.0, 20.0),
        _ => standins::max(now + random.between(-3.0, 3.0), -100.0),
    };
    let mut next = Inputs {
        dialogue_short_term: loudness(before.dialogue_short_term),
        bed_short_term: loudness(before.bed_short_term),
        bed_momentary: loudness(before.bed_momentary),
        bed_fast: loudness(before.bed_fast),
        ..*before
    };
    next.key_voice ^= random.chance(8);
    next.target_voice ^= random.chance(5);
    next
}

fn random_duck(random: &mut Random) -> Settings {
    Settings {
        enabled: random.chance(85),
        target_lu: random.pick(&[0.0, 5.0, 40.0, 7.3]),
        overvoice_lu: random.pick(&[0.0, 13.0, 40.0]),
        max_reduction_db: random.pick(&[0.0, 24.0, 24.0, 60.0, 3.5]),
        speed: random.pick(&[0.01, 0.25, 1.0, 1.0, 2.7, 100.0]),
        bed_voice: random.chance(75),
        ..Settings::default()
    }
}

/// One frame: settings, inputs, answer, stored numbers.
fn frame(state: &mut State, settings: &Settings, i: &Inputs, to: &mut Words) {
    settings.store_duck(to);
    to.put_flag(i.key_voice);
    to.put_flag(i.target_voice);
    to.put_numbers(&[
        i.dialogue_short_term,
        i.bed_short_term,
        i.bed_momentary,
        i.bed_fast,
    ]);
    let reduction = state.frame(&settings.duck(), i);
    store_status(&state.status, reduction, to);
    to.put_numbers(&state.numbers());
}

pub fn record() -> Vec<u8> {
    const COUNT: u64 = 60;
    let mut words = Words::default();
    let random = &mut Random::new(12);
    for list in 0..36 {
        let mut settings = if list < 6 {
            Settings::default()
        } else {
            random_duck(random)
        };
        let mut state = State::new(&settings.duck());
        let start = random.between(-60.0, -10.0);
        let mut inputs = Inputs {
            key_voice: list % 2 == 0,
            target_voice: list % 3 == 0,
            dialogue_short_term: start,
            bed_short_term: start - 5.0,
            bed_momentary: start - 5.0,
            bed_fast: start - 5.0,
        };
        words.put(COUNT);
        for _ in 0..COUNT {
            frame(&mut state, &settings, &inputs, &mut words);
            inputs = random_inputs(random, &inputs);
            if list >= 6 && random.chance(3) {
                settings = random_duck(random);
            }
        }
    }
    words.file(
        "ducker, made by compare/record ducker. Lists, each fresh: count; per frame 6 duck \
         settings, 6 inputs (key_voice, target_voice, dialogue_short_term, bed short_term, \
         momentary, fast), 13 words of RatioStatus (as in frames), stored slow, mid, fast, hold.",
    )
}
