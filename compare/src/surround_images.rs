//! Saves and restores of the kept list with beds of several channels, and across the
//! image's editions.

use crate::calls::{frames, Bed, Call, Lent};
use crate::driver::Settings;
use crate::foreign::*;
use crate::image::Edit;
use crate::layout::PlaceWords;
use crate::lists::{noise, silence, talker, thresholds};
use crate::restores::{edited, saved, INFINITE, NEGATIVE_ZERO, NOT_A_NUMBER, SAVE};
use crate::signals::*;
use crate::surround::{at, FIVE, LFE, MONO, SEVEN};

fn layout(places: &[PlaceWords]) -> Call {
    Call::Layout(places.to_vec())
}

fn stadium() -> Bed {
    let signal = |channel: u64| Signal::new(NOISE, 30 + channel, LOW);
    Bed([0, 1, 2, 3, 4, 5, 6, 7].map(signal))
}

/// Back to a save over a layout call, and forth again. The list's next save has number
/// `next`; it is the one of 5.1.
fn rewinds(next: usize) -> Vec<Call> {
    let some = |first, count| frames(talker(), stadium(), first, count);
    vec![
        Call::Set(thresholds(0.3, 0.3)),
        layout(&FIVE),
        some(0, 3),
        SAVE,
        some(1_440, 1),
        layout(&SEVEN),
        some(1_920, 1),
        SAVE,
        saved(next),
        some(1_440, 1),
        SAVE,
        layout(&MONO),
        some(2_400, 1),
        saved(next + 1),
        SAVE,
        some(2_400, 1),
        Call::Reset(1),
        SAVE,
        some(2_880, 1),
        saved(next),
        SAVE,
    ]
}

/// Edition 1: what a save has of it, in a chain with another layout. Its image is then
/// that of one channel.
fn first_edition(next: usize) -> Vec<Call> {
    let mono = Foreign {
        loops: [3.0, -1.0, 0.5, 0.25],
        ..Foreign::default()
    };
    vec![
        edited(next, &[Edit::First]),
        frames(talker(), stadium(), 1_440, 1),
        SAVE,
        layout(&SEVEN),
        Call::Restore(Lent::Payload(mono.payload_one())),
        SAVE,
        frames(talker(), stadium(), 1_440, 1),
        // Neither edition's length, its checks, its words.
        edited(next, &[Edit::First, Edit::Length(10_751)]),
        edited(next, &[Edit::First, Edit::Length(11_264)]),
        edited(next, &[Edit::First, Edit::Flip(21 * 64 - 1, 1)]),
        edited(next, &[Edit::First, Edit::Word(0, 2)]),
        edited(next, &[Edit::First, Edit::Word(0, 2), Edit::Flip(70, 1)]),
        edited(next, &[Edit::First, Edit::Word(0, 0)]),
        edited(next, &[Edit::First, Edit::Word(1_273, 1)]),
        edited(next, &[Edit::First, Edit::Word(1_322, NEGATIVE_ZERO)]),
        edited(next, &[Edit::First, Edit::Word(13, INFINITE)]),
        // Edition 2 with the word of edition 1, and its first 21 blocks.
        edited(next, &[Edit::Word(0, 1)]),
        edited(next, &[Edit::Length(10_752)]),
        edited(next, &[Edit::Word(0, 1), Edit::Length(10_752)]),
        SAVE,
    ]
}

/// Refusal 8: words of the layout and of the channels in the save of 5.1 (number `next`).
fn broken(next: usize) -> Vec<Call> {
    let minus = |x: i64| -x as u64;
    let lfe = PLACES + 9;
    let words = [
        (COUNT, 0),
        (COUNT, 5),
        (COUNT, 9),
        (COUNT, (1 << 32) + 6),
        (PLACES, 181),
        (PLACES, minus(181)),
        (PLACES, (1 << 32) + 30),
        (PLACES, NEGATIVE_ZERO),
        (PLACES + 1, 91),
        (PLACES + 1, minus(91)),
        (PLACES + 2, 2),
        (PLACES + 17, u64::MAX),
        (lfe, 1),
        (lfe + 1, minus(1)),
        (lfe + 2, 3),
        (PLACES + 18, 1),
        (PLACES + 19, minus(1)),
        (PLACES + 23, 1),
        (OTHERS, INFINITE),
        (OTHERS + 1, NOT_A_NUMBER),
        (OTHERS + 2, 1),
        (OTHERS + 3, NEGATIVE_ZERO),
        (OTHERS + 4, INFINITE),
        (OTHERS + 5, f64::NEG_INFINITY.to_bits()),
        (OTHERS + 7, 1),
        (OTHERS + 8, NOT_A_NUMBER),
        (OTHERS + 44, INFINITE),
        (OTHERS + 45, 1),
        (OTHERS + 53, NEGATIVE_ZERO),
        (OTHERS + 62, 1.0f64.to_bits()),
        (LAST, 1),
        (LAST + 24, NEGATIVE_ZERO),
    ];
    let mut out: Vec<Call> = words
        .into_iter()
        .map(|(place, word)| edited(next, &[Edit::Word(place, word)]))
        .collect();
    out.push(SAVE);
    out
}

/// Words that pass: a seventh channel at rest, an azimuth of -180, of 180, one LFE more,
/// negative numbers and negative zeros.
fn changed(next: usize) -> Vec<Call> {
    let minus = |x: i64| -x as u64;
    let edits = [
        vec![Edit::Word(COUNT, 7)],
        vec![Edit::Word(PLACES, minus(180))],
        vec![Edit::Word(PLACES, 180), Edit::Word(PLACES + 1, minus(90))],
        vec![Edit::Word(PLACES + 6, 0), Edit::Word(PLACES + 8, 1)],
        vec![
            Edit::Word(OTHERS, NEGATIVE_ZERO),
            Edit::Word(OTHERS + 8, (-1.0f64).to_bits()),
            Edit::Word(OTHERS + 17, NEGATIVE_ZERO),
        ],
    ];
    let mut out = Vec::new();
    for some in &edits {
        out.extend([edited(next, some), frames(talker(), stadium(), 1_440, 1)]);
        out.push(SAVE);
    }
    out
}

fn channel(place: PlaceWords, z1: f64, fast: f64) -> Channel {
    Channel {
        place,
        filters: [[z1, 0.0], [0.0, 0.0]],
        fast,
    }
}

/// The bed's channel 1 with this fast number, and further channels.
fn with_others(place: PlaceWords, fast: f64, others: &[Channel]) -> Foreign {
    let mut foreign = Foreign {
        settings: thresholds(1.0, 1.0),
        place,
        others: others.to_vec(),
        ..Foreign::default()
    };
    foreign.strands[1].fast = fast;
    foreign
}

/// Channels with numbers that are finite and from which a frame runs away, or doesn't: an
/// overflow in a channel, an LFE's too; the joint fast reading infinite, minus infinite,
/// not a number, or finite though a channel's is huge.
fn runaways() -> Vec<Call> {
    let ahead = at(0, 0);
    let side = at(90, 0);
    let huge = f64::MAX;
    let images = [
        with_others(ahead, 0.0, &[channel(side, 1e200, 0.0)]),
        with_others(ahead, 0.0, &[channel(LFE, 1e200, 0.0)]),
        with_others(
            ahead,
            0.0,
            &[channel(ahead, 0.0, 0.0), channel(ahead, 1e155, 0.0)],
        ),
        with_others(side, huge, &[]),
        with_others(ahead, huge, &[channel(ahead, 0.0, huge)]),
        with_others(ahead, huge, &[channel(LFE, 0.0, huge)]),
        with_others(ahead, huge, &[channel(ahead, 0.0, -huge)]),
        with_others(side, -huge, &[channel(ahead, 0.0, 1.0)]),
        with_others(side, huge, &[channel(side, 0.0, -huge)]),
        with_others(LFE, -huge, &[channel(LFE, -0.0, -0.0)]),
        with_others(ahead, 0.0, &[channel(side, 1e100, 5e-324)]),
    ];
    let mut out = Vec::new();
    for foreign in images {
        out.extend([
            Call::Restore(Lent::Payload(foreign.payload())),
            frames(silence(), silence(), 0, 1),
            SAVE,
        ]);
    }
    out.extend([
        Call::Set(Settings {
            enabled: false,
            ..Settings::default()
        }),
        layout(&FIVE),
        frames(talker(), noise(LOW), 0, 1),
        SAVE,
    ]);
    out
}

/// The calls of the kept list with layouts and images; `next` saves came before them.
pub fn kept(next: usize) -> Vec<Call> {
    let mut out = rewinds(next);
    out.extend([first_edition(next), broken(next), changed(next)].concat());
    out.extend(runaways());
    out
}
