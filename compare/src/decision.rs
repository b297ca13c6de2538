//! Recorded decisions: `Vad::frame` behind a detector that answers what it is given.
//!
//! Lists up to the end, each on a fresh strand: threshold, hold_ms, gate_lufs, count;
//! per frame 8 inputs (probability, level_dbfs, 4 features, momentary, short_term), the
//! 14 words of driver::store_vad, frames left in the hold, speech power (flag, value).

use std::sync::{Arc, Mutex};

use crate::auto::vad::{Detector, Frame, Inside, Vad};
use crate::driver::{store_vad, Settings};
use crate::random::Random;
use crate::standins;
use crate::words::Words;

/// A detector that answers what it is given.
#[derive(Clone, Default)]
struct Given(Arc<Mutex<Frame>>);

impl Detector for Given {
    fn frame(&mut self, _: &[f32]) -> Frame {
        *self.0.lock().expect("one thread")
    }
    fn reset(&mut self) {}
}

impl Inside for Given {
    fn copy(&self) -> Box<dyn Detector> {
        Box::new(self.clone())
    }
    fn store_filters(&self, _: &mut Words) {}
    fn store_rest(&self, _: &mut Words) {}
}

/// One list of decisions with its settings.
struct Decisions {
    settings: Settings,
    given: Given,
    vad: Vad,
    words: Words,
    count: u64,
}

impl Decisions {
    fn new(threshold: f64, hold_ms: f64, gate_lufs: f64) -> Self {
        let given = Given::default();
        Self {
            settings: Settings {
                strands: [[threshold, hold_ms, gate_lufs]; 2],
                ..Settings::default()
            },
            vad: Vad::new(Box::new(given.clone())),
            given,
            words: Words::default(),
            count: 0,
        }
    }

    /// A frame: its 8 inputs, the 14 words of VadState, hold, speech power.
    fn frame(&mut self, f: Frame, momentary: f64, short_term: f64) {
        let words = &mut self.words;
        words.put_numbers(&[f.probability, f.level_dbfs]);
        words.put_numbers(&f.features);
        words.put_numbers(&[momentary, short_term]);
        *self.given.0.lock().expect("one thread") = f;
        self.vad.frame(&[], momentary, &self.settings.vad(0));
        // As `Vad::push` does after a frame.
        self.vad.state.short_term_lufs = standins::round(short_term * 10.0) / 10.0;
        store_vad(&self.vad.state, words);
        let (hold, power) = self.vad.hold_and_power();
        words.put(u64::from(hold));
        words.put_option(power);
        self.count += 1;
    }

    /// A frame of which only the probability matters.
    fn plain(&mut self, probability: f64) {
        let f = Frame {
            probability,
            level_dbfs: -20.0,
            features: [0.0; 4],
        };
        self.frame(f, -20.0, -20.0);
    }

    /// A frame after which the smoothed probability is `target`, where one can be found.
    fn reach(&mut self, target: f64) {
        let p = self.vad.state.speech_probability;
        let a = if target > p { 0.5 } else { 0.2 };
        let mut x = p + (target - p) / a;
        for _ in 0..100 {
            let got = p + a * (x - p);
            if got == target {
                break;
            }
            x = if got < target {
                x.next_up()
            } else {
                x.next_down()
            };
        }
        self.plain(x);
    }

    fn end(self, to: &mut Words) {
        to.put_numbers(&self.settings.strands[0]);
        to.put(self.count);
        to.put_all(&self.words.words);
    }
}

/// A frame of any kind around the gate.
fn random_decision(random: &mut Random, d: &mut Decisions) {
    let probability = match random.below(4) {
        0 => 0.0,
        1 => 1.0,
        2 => random.between(0.0, 1.0),
        _ => random.between(0.3, 0.7),
    };
    let level_dbfs = if random.chance(10) {
        -120.0
    } else {
        random.between(-120.0, 10.0)
    };
    let features = [60.0, 30.0, 1.0, -1.0].map(|most: f64| {
        let x = random.between(0.0, most.abs()) * most.signum();
        if random.chance(30) {
            (x * 100.0).round() / 100.0 + 0.005
        } else {
            x
        }
    });
    let gate = d.settings.strands[0][2];
    let momentary = match random.below(8) {
        0 => gate,
        1 => gate.next_down(),
        2 => -100.0,
        _ => gate + random.between(-2.0, 30.0),
    };
    let short_term = if random.chance(10) {
        -100.0
    } else {
        random.between(-99.0, 10.0)
    };
    d.frame(
        Frame {
            probability,
            level_dbfs,
            features,
        },
        momentary,
        short_term,
    );
}

pub fn record() -> Vec<u8> {
    let mut words = Words::default();
    for hold_ms in [0.0, 20.0, 14.9, 15.0, 25.0] {
        let mut d = Decisions::new(0.5, hold_ms, -50.0);
        for p in [1.0, 0.0, 0.0, 0.0, 0.0, 0.0, 0.0, 1.0, 1.0, 0.0] {
            d.plain(p);
        }
        d.end(&mut words);
    }
    for threshold in [0.0, 0.01, 0.05, 0.1, 0.2, 0.3, 0.5, 0.9, 1.0] {
        let off = standins::max(threshold - 0.15, 0.05);
        let mut d = Decisions::new(threshold, 30.0, -100.0);
        for p in [
            threshold.next_down(),
            threshold,
            off,
            off.next_down(),
            off,
            off.next_down(),
        ] {
            d.reach(standins::max(p, 0.0));
        }
        (0..8).for_each(|_| d.plain(0.0));
        d.end(&mut words);
    }
    let random = &mut Random::new(11);
    for _ in 0..50 {
        let threshold = random.pick(&[0.0, 0.03, 0.19, 0.2, 0.5, 0.5, 0.7, 1.0]);
        let hold_ms = random.pick(&[0.0, 4.9, 5.0, 14.9, 15.0, 20.0, 300.0, 60_000.0]);
        let mut d = Decisions::new(
            threshold,
            hold_ms,
            random.pick(&[-100.0, -50.0, -32.0, 0.0]),
        );
        (0..40).for_each(|_| random_decision(random, &mut d));
        d.end(&mut words);
    }
    words.file(
        "decision, made by compare/record decision. Lists: threshold, hold_ms, gate_lufs, count; \
         per frame 8 inputs (probability, level_dbfs, 4 features, momentary, short_term), 14 \
         words of VadState (as in frames), hold, speech power (flag, value). Each is fresh.",
    )
}
