//! The recorded answers, module by module.

use crate::auto::level::Level;
use crate::auto::vad::{Detector, FeatureDetector, Inside};
use crate::dsp::biquad;
use crate::dsp::loudness::{K_HIGH_PASS, K_SHELF};
use crate::signals;
use crate::words::Words;
use crate::{calls, decision, ducker, lists, numbers, standins, surround};

/// Module and its recorder.
pub const MODULES: [(&str, fn() -> Vec<u8>); 8] = [
    ("numbers", numbers::record),
    ("filter", filter),
    ("level", level),
    ("detector", detector),
    ("decision", decision::record),
    ("ducker", ducker::record),
    ("frames", frames),
    ("surround", surrounds),
];

/// Where the repository keeps a module's file.
pub fn path(module: &str) -> String {
    format!("crates/recorded/data/{module}")
}

/// Per set and signal: set, signal, seed, scale's bits, count, then `count` outputs
/// and the state's z1 and z2 at the end.
fn filter() -> Vec<u8> {
    const COUNT: usize = 250;
    let [b1, b2, p1, p2] = FeatureDetector::default().coefficients();
    let mut words = Words::default();
    for (set, c) in [K_SHELF, K_HIGH_PASS, b1, b2, p1, p2].iter().enumerate() {
        for signal in signals::all() {
            words.put(set as u64);
            words.put_all(&signal.words());
            words.put(COUNT as u64);
            let mut state = biquad::State::default();
            for x in signal.samples(0, COUNT) {
                words.put_f64(state.tick(c, f64::from(x)));
            }
            words.put_numbers(&state.numbers());
        }
    }
    words.file(
        "filter, made by compare/record filter. Up to the end: set (0 K shelf, 1 K high-pass, \
         2 3 band, 4 5 pitch), signal, seed, f32 bits of the scale, count, then the outputs of \
         samples 0 to count - 1 by their bits, z1, z2 after them.",
    )
}

/// Whether frame i is among those recorded: the first 50, then one in ten.
fn shown(i: u64) -> bool {
    i < 50 || i % 10 == 0
}

/// Per signal: signal, seed, scale's bits, count of frames, then the words that
/// `frame` puts, for each frame that is shown.
fn signals_by_frames(
    count: u64,
    mut fresh: impl FnMut() -> Box<dyn FnMut(&[f32], bool, &mut Words)>,
) -> Words {
    let mut words = Words::default();
    for signal in signals::all() {
        words.put_all(&signal.words());
        words.put(count);
        let mut frame = fresh();
        for i in 0..count {
            frame(&signal.samples(i * 480, 480), shown(i), &mut words);
        }
    }
    words
}

fn level() -> Vec<u8> {
    let words = signals_by_frames(1_500, || {
        let mut level = Level::new(vec![1.0]);
        Box::new(move |x, shown, words| {
            let r = level.frame(&[x]);
            if shown {
                words.put_numbers(&[r.power, r.momentary, r.short_term, r.fast]);
            }
        })
    });
    words.file(
        "level, made by compare/record level. Up to the end: signal, seed, f32 bits of the scale, \
         count of frames; for the frames 0 to 49 and each tenth after (50, 60, ..) power, \
         momentary, short_term, fast. Each signal starts a fresh Level.",
    )
}

fn detector() -> Vec<u8> {
    let words = signals_by_frames(700, || {
        let mut detector = FeatureDetector::default();
        Box::new(move |x, shown, words| {
            let f = detector.frame(x);
            let mut stored = Words::default();
            detector.store_filters(&mut stored);
            detector.store_rest(&mut stored);
            assert!(
                !standins::take_met() && stored.finite,
                "a recorded frame runs away"
            );
            if shown {
                words.put_numbers(&[f.probability, f.level_dbfs]);
                words.put_numbers(&f.features);
            }
        })
    });
    words.file(
        "detector, made by compare/record detector. Up to the end: signal, seed, f32 bits of the \
         scale, count of frames; for the frames 0 to 49 and each tenth after (50, 60, ..) \
         probability, level_dbfs, over floor, modulation, voiced, anti. Each starts fresh.",
    )
}

fn frames() -> Vec<u8> {
    let mut words = Words::default();
    calls::run(&lists::recorded(), &mut words);
    words.file(
        "frames, made by compare/record frames. Calls with their answers up to the end: 0 fresh, \
         1 frames, 2 an odd frame, 3 settings, 4 reset; compare/src/calls.rs has their words, \
         compare/src/driver.rs the 41 words of an answer.",
    )
}

fn surrounds() -> Vec<u8> {
    let mut words = Words::default();
    calls::run(&surround::recorded(), &mut words);
    words.file(
        "surround, made by compare/record surround. Calls as in frames, and 5 a layout call, 6 \
         frames and 7 an odd frame of a bed of several channels; compare/src/calls.rs has their \
         words.",
    )
}

/// The recorded file of a module.
pub fn module(name: &str) -> Option<Vec<u8>> {
    MODULES
        .iter()
        .find(|(n, _)| *n == name)
        .map(|(_, record)| record())
}
