//! Layouts of the bed, good, bad and random ones; lists of calls with beds of several
//! channels and without images.

use crate::calls::{frames, Bed, Call, Replaced};
use crate::driver::Settings;
use crate::layout::{PlaceWords, MOST};
use crate::lists::{noise, random_settings, random_signal, silence, talker, thresholds};
use crate::random::Random;
use crate::signals::*;

/// Degrees to the left and upward.
pub const fn at(azimuth: i64, elevation: i64) -> PlaceWords {
    [azimuth as u64, elevation as u64, 0]
}

pub const LFE: PlaceWords = [0, 0, 1];

pub const MONO: [PlaceWords; 1] = [at(0, 0)];
/// Left, right.
pub const STEREO: [PlaceWords; 2] = [at(30, 0), at(-30, 0)];
/// Left, right, centre, LFE, surrounds.
pub const FIVE: [PlaceWords; 6] = [
    at(30, 0),
    at(-30, 0),
    at(0, 0),
    LFE,
    at(110, 0),
    at(-110, 0),
];
/// Left, right, centre, LFE, back, sides.
pub const SEVEN: [PlaceWords; 8] = [
    at(30, 0),
    at(-30, 0),
    at(0, 0),
    LFE,
    at(135, 0),
    at(-135, 0),
    at(90, 0),
    at(-90, 0),
];

/// A usual layout by its name.
pub fn named(name: &str) -> Option<&'static [PlaceWords]> {
    match name {
        "mono" => Some(&MONO),
        "stereo" => Some(&STEREO),
        "5.1" => Some(&FIVE),
        "7.1" => Some(&SEVEN),
        _ => None,
    }
}

/// Angles that no layout has: one past the end, and far past it.
const WRONG_ANGLES: [i64; 12] = [
    181,
    -181,
    360,
    -360,
    1 << 32,
    (1 << 32) + 30,
    -(1 << 32),
    (1 << 56) - 30,
    i64::MAX,
    i64::MIN,
    i64::MIN + 30,
    i64::MAX - 90,
];
const WRONG_FLAGS: [u64; 6] = [2, 256, 1 << 32, (1 << 32) + 1, 1 << 63, u64::MAX];

fn layout(places: &[PlaceWords]) -> Call {
    Call::Layout(places.to_vec())
}

/// Single places at the ends of the rule for 1.41, and of the ranges.
fn ends() -> Vec<PlaceWords> {
    let mut out = Vec::new();
    for azimuth in [59, 60, 61, 90, 119, 120, 121] {
        out.extend([at(azimuth, 0), at(-azimuth, 0)]);
    }
    for elevation in [29, 30, 31, -29, -30, -31] {
        out.extend([at(60, elevation), at(-120, elevation), at(59, elevation)]);
    }
    out.extend([at(180, 0), at(-180, 0), at(90, 90), at(-90, -90), LFE]);
    out
}

/// Layouts that are refused: no channel, nine and more, an angle or a flag out of range,
/// in the first, the last or an LFE's place.
pub fn bad_layouts() -> Vec<Vec<PlaceWords>> {
    let mut out = vec![vec![], vec![at(0, 0); 9], vec![LFE; 64]];
    let mut bad = |place: usize, words: PlaceWords| {
        let mut places = FIVE.to_vec();
        places[place] = words;
        out.push(places);
    };
    for (i, angle) in WRONG_ANGLES.into_iter().enumerate() {
        bad(i % 6, at(angle, 0));
        bad(5 - i % 6, at(0, angle));
    }
    for (i, elevation) in [91, -91].into_iter().enumerate() {
        bad(i, at(0, elevation));
        bad(3, [0, elevation as u64, 1]);
    }
    bad(3, [181, 0, 1]);
    bad(3, [1 << 63, 0, 1]);
    for flag in WRONG_FLAGS {
        bad(2, [0, 0, flag]);
    }
    out
}

/// A crowd in each channel, with a signal of its own in the first.
fn crowd(first: Signal) -> Bed {
    let mut bed = Bed::from(first);
    for (channel, signal) in bed.0.iter_mut().enumerate().skip(1) {
        *signal = Signal::new(NOISE, 20 + channel as u64, [LOW, SOFT][channel % 2]);
    }
    bed
}

/// Silence but for one channel.
fn only(channel: usize, signal: Signal) -> Bed {
    let mut bed = Bed::from(silence());
    bed.0[channel] = signal;
    bed
}

fn guest() -> Signal {
    Signal::new(NOISY_SPEECH, 333, LOW)
}

fn some(key: Signal, bed: Bed, first: u64, count: u64, every: u64) -> Call {
    Call::Frames {
        key,
        bed,
        first,
        count,
        every,
    }
}

/// 16 s: one channel, 5.1 with a guest in its first channel, the same layout again,
/// 7.1 while both speak, a reset of the bed, stereo, one channel again.
fn programme() -> Vec<Call> {
    let stadium = crowd(noise(LOW));
    vec![
        Call::Fresh,
        some(talker(), stadium, 0, 60, 10),
        layout(&FIVE),
        some(talker(), stadium, 28_800, 320, 16),
        some(talker(), crowd(guest()), 182_400, 120, 8),
        layout(&FIVE),
        some(talker(), crowd(guest()), 240_000, 60, 6),
        layout(&SEVEN),
        some(talker(), crowd(guest()), 268_800, 330, 15),
        Call::Reset(1),
        some(talker(), crowd(guest()), 427_200, 60, 6),
        Call::Reset(0),
        some(silence(), crowd(guest()), 456_000, 150, 15),
        layout(&STEREO),
        some(talker(), crowd(guest()), 528_000, 320, 16),
        layout(&MONO),
        some(talker(), crowd(guest()), 681_600, 60, 6),
        some(silence(), Bed::from(silence()), 0, 120, 20),
    ]
}

/// One channel at each of the ends.
fn at_the_ends() -> Vec<Call> {
    let mut out = vec![Call::Fresh];
    for place in ends() {
        let bed = Bed::from(noise(LOW));
        out.extend([layout(&[place]), some(talker(), bed, 48_000, 2, 2)]);
    }
    out
}

/// Every count of channels; then in 7.1 one channel alone that sounds, each in turn.
fn each_channel() -> Vec<Call> {
    let mut out = vec![Call::Fresh];
    for count in 1..=MOST {
        let bed = crowd(guest());
        let places = &SEVEN[MOST - count..];
        out.extend([layout(places), some(talker(), bed, 48_000, 6, 3)]);
    }
    for channel in 0..MOST {
        let bed = only(channel, noise(FULL));
        out.extend([layout(&SEVEN), some(talker(), bed, 9_600, 4, 3)]);
    }
    out
}

fn odd(bed_length: Option<usize>, replaced: Option<Replaced>) -> Call {
    Call::Odd {
        key: talker(),
        bed: crowd(guest()),
        first: 96_000,
        lengths: [None, bed_length],
        replaced,
    }
}

fn bad(index: usize, value: f32) -> Option<Replaced> {
    Some(Replaced {
        strand: 1,
        index,
        value,
    })
}

/// Refusals 1, 2 and 10 in beds of 1, 2, 6 and 8 channels: they change nothing.
fn interrupted() -> Vec<Call> {
    let mut out = vec![Call::Fresh];
    let mut bad_layouts = bad_layouts().into_iter().cycle();
    for (i, places) in [&MONO[..], &STEREO, &FIVE, &SEVEN].into_iter().enumerate() {
        let whole = 480 * places.len();
        out.push(layout(places));
        let lengths = [0, 480, 960, 2_880, 3_840, whole - 1, whole + 1, whole - 480];
        for length in lengths.into_iter().filter(|n| *n != whole) {
            out.push(odd(Some(length), bad(0, f32::NAN).filter(|_| length > 0)));
            out.push(some(talker(), crowd(guest()), 48_000, 2, 2));
        }
        for channel in 0..places.len() {
            out.push(odd(None, bad(480 * channel, f32::NAN)));
            out.push(odd(None, bad(480 * channel + 479, f32::NEG_INFINITY)));
            out.push(odd(None, bad(480 * channel + 240, f32::MIN_POSITIVE)));
        }
        for _ in 0..12 {
            let at = 100_000 + 480 * i as u64;
            out.push(Call::Layout(bad_layouts.next().expect("a cycle")));
            out.push(some(talker(), crowd(guest()), at, 1, 1));
        }
    }
    out
}

/// Beds of LFEs, which read -100: the detector hears the first. LFEs whose angles are
/// stored as zero. A square wave at the largest f32 in each channel in turn: in the
/// first it runs away.
fn low_and_loud() -> Vec<Call> {
    let square = Signal::new(SQUARE, 96, LOUD);
    let mut out = vec![
        Call::Fresh,
        Call::Set(thresholds(0.3, 0.3)),
        layout(&[LFE; 3]),
        some(talker(), crowd(guest()), 0, 60, 6),
        layout(&[[180, 90, 1], at(0, 0), [-180i64 as u64, -90i64 as u64, 1]]),
        some(talker(), crowd(guest()), 28_800, 30, 6),
        layout(&[[90, 0, 1]; 8]),
        some(talker(), crowd(noise(FULL)), 0, 6, 2),
    ];
    for channel in 0..6 {
        let bed = only(channel, square);
        out.extend([layout(&FIVE), some(silence(), bed, 0, 2, 1)]);
        out.push(some(silence(), crowd(guest()), 0, 2, 2));
    }
    out
}

/// An angle within `most` degrees, often at an end.
fn random_angle(random: &mut Random, most: i64) -> u64 {
    let any = random.below(181) as i64;
    let ends = [0, 29, 30, 31, 59, 60, 61, 90, 110, 119, 120, 121, 135, 180];
    let end = random.pick(&ends);
    let size = random.pick(&[end, end, any]).min(most);
    random.pick(&[size, -size]) as u64
}

/// A place that is in range; an LFE may have angles.
fn random_place(random: &mut Random) -> PlaceWords {
    let angles = [random_angle(random, 180), random_angle(random, 90)];
    match random.below(12) {
        0 => LFE,
        1 => [angles[0], angles[1], 1],
        2..=5 => [angles[0], 0, 0],
        _ => [angles[0], angles[1], 0],
    }
}

/// As an image has them: an LFE's angles are zero.
pub fn random_stored_place(random: &mut Random) -> PlaceWords {
    match random_place(random) {
        [_, _, 1] => LFE,
        place => place,
    }
}

fn random_places(random: &mut Random, count: u64) -> Vec<PlaceWords> {
    (0..count).map(|_| random_place(random)).collect()
}

/// A layout call's places, one in three out of range.
pub fn random_layout(random: &mut Random) -> Vec<PlaceWords> {
    let count = 1 + random.below(8);
    match random.below(12) {
        0..=4 => random_places(random, count),
        5 => random.pick(&[&MONO[..], &STEREO, &FIVE, &SEVEN]).to_vec(),
        6 => vec![LFE; count as usize],
        7 => random.pick(&[&FIVE[..], &SEVEN]).to_vec(),
        8 => {
            let count = random.pick(&[0, 9, 9, 10, 16, 17, 100, 2_000]);
            random_places(random, count)
        }
        _ => {
            let mut places = random_places(random, count);
            let place = &mut places[random.below(count) as usize];
            match random.below(3) {
                0 => place[0] = random.pick(&WRONG_ANGLES) as u64,
                1 => place[1] = random.pick(&[91, -91, 120, 1 << 32, i64::MIN, -180]) as u64,
                _ => place[2] = random.pick(&WRONG_FLAGS),
            }
            places
        }
    }
}

/// Eight signals, some silent; one in ten may be huge or tiny.
pub fn random_bed(random: &mut Random) -> Bed {
    Bed([0; MOST].map(|_| match random.below(10) {
        0..=2 => silence(),
        3 => random_signal(random),
        _ => {
            let signal = random.pick(&[SPEECH, NOISY_SPEECH, BURSTS, NOISE, TONE]);
            let scale = random.pick(&[FULL, LOW, SOFT]);
            Signal::new(signal, 250 + random.below(300), scale)
        }
    }))
}

/// About `calls` calls on a fresh chain.
fn random_list(random: &mut Random, calls: u64, every: u64) -> Vec<Call> {
    let mut out = vec![Call::Fresh];
    let mut first = random.below(1 << 20);
    for _ in 0..calls {
        out.push(match random.below(10) {
            0 => Call::Set(random_settings(random)),
            1 => Call::Reset(random.below(3)),
            2..=4 => {
                let mut places = random_layout(random);
                places.truncate(20);
                Call::Layout(places)
            }
            _ => {
                let count = 1 + random.below(30);
                let key = random_signal(random);
                let call = some(key, random_bed(random), first, count, every);
                first += 480 * count;
                call
            }
        });
    }
    out
}

/// The recorded calls with layouts.
pub fn recorded() -> Vec<Call> {
    let mut out = [programme(), at_the_ends(), each_channel()].concat();
    out.extend([interrupted(), low_and_loud()].concat());
    let random = &mut Random::new(3);
    for _ in 0..12 {
        out.extend(random_list(random, 14, 7));
    }
    out
}

/// What replay's kept list has of it: every count of channels, 5.1 over some frames, each
/// kind of refusal.
pub fn kept() -> Vec<Call> {
    let mut out = Vec::new();
    for count in 1..=MOST {
        out.push(layout(&SEVEN[MOST - count..]));
        out.push(frames(talker(), crowd(guest()), 48_000, 1));
    }
    out.extend([
        Call::Set(Settings {
            bed_voice: false,
            ..thresholds(0.3, 0.3)
        }),
        layout(&FIVE),
        frames(talker(), crowd(guest()), 48_480, 6),
        odd(Some(480), None),
        odd(Some(2_879), None),
        odd(Some(2_881), bad(2_880, f32::NAN)),
        odd(Some(3_840), None),
        odd(Some(3_841), None),
        odd(Some(5_000), None),
        odd(None, bad(479, f32::NAN)),
        odd(None, bad(4 * 480 - 1, f32::INFINITY)),
        odd(None, bad(6 * 480 - 1, f32::NEG_INFINITY)),
    ]);
    out.extend(bad_layouts().into_iter().map(Call::Layout));
    out.extend([
        frames(talker(), crowd(guest()), 51_360, 1),
        Call::Reset(1),
        frames(talker(), crowd(guest()), 51_840, 2),
        layout(&FIVE),
        frames(talker(), crowd(guest()), 52_800, 1),
        layout(&[LFE; 2]),
        frames(talker(), crowd(guest()), 53_280, 2),
        layout(&[at(-180, 90), at(180, -90), [-120i64 as u64, 29, 1]]),
        frames(talker(), crowd(guest()), 54_240, 1),
        layout(&MONO),
        odd(Some(3_840), None),
        frames(talker(), crowd(guest()), 54_720, 1),
    ]);
    out
}
