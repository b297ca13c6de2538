//! Lists of calls to a chain; and those without images as words, with the answers that
//! the Rust gives (replay.rs has lists with images).
//!
//! A call is its number, its arguments, then what it answers:
//! - 0: a fresh chain. No answer.
//! - 1, key signal, bed signal (signal, seed, f32 bits of the scale each), first
//!   sample's number, count, every: `count` frames one after the other. For each a
//!   code (0 passed, else the refusal); after a 0 of frame i = 0, every, 2 every, ..
//!   the answer's 41 words (driver::Answer::store).
//! - 2, key signal, bed signal, first, key length, bed length, strand, index, f32
//!   bits: one frame of those lengths in which a sample is replaced (strand 2: none).
//!   Code, and after a 0 the 41 words.
//! - 3, 12 settings: code.
//! - 4, strand: a reset. Code.
//! - 5, count, eight places (azimuth, elevation, LFE flag each; zeros past the count): a
//!   layout call. Code.
//! - 6, channels, key signal, eight bed signals, first, count, every: as 1, for a bed of
//!   several channels: 480 samples of each of the first `channels` signals.
//! - 7, channels, key signal, eight bed signals, first, key length, bed length, strand,
//!   index, f32 bits: as 2, for such a bed, or one of more than 512 samples: 480 samples
//!   of each channel, and of the last as many as are left.

use crate::driver::{Chain, Refusal, Settings};
use crate::image::{self, Edit};
use crate::layout::{PlaceWords, MOST};
use crate::signals::Signal;
use crate::words::Words;

#[derive(Debug, Clone)]
pub enum Call {
    Fresh,
    Frames {
        key: Signal,
        bed: Bed,
        first: u64,
        count: u64,
        every: u64,
    },
    Odd {
        key: Signal,
        bed: Bed,
        first: u64,
        /// None: as many samples as there must be.
        lengths: [Option<usize>; 2],
        replaced: Option<Replaced>,
    },
    Set(Settings),
    Reset(u64),
    Layout(Vec<PlaceWords>),
    /// Into a buffer of this many bytes.
    Save(usize),
    Restore(Lent),
}

/// The bytes that a restore gets.
#[derive(Debug, Clone)]
pub enum Lent {
    /// What a save of the list wrote (its accepted saves count from 0), edited.
    Saved(usize, Vec<Edit>),
    /// The image around these payload words.
    Payload(Vec<u64>),
    Bytes(Vec<u8>),
}

impl Lent {
    /// `saves`: what the list's accepted saves wrote.
    pub fn bytes(&self, saves: &[Vec<u8>]) -> Vec<u8> {
        match self {
            Lent::Saved(number, edits) => {
                let mut image = saves[*number].clone();
                edits.iter().for_each(|edit| edit.apply(&mut image));
                image
            }
            Lent::Payload(words) => image::around(words),
            Lent::Bytes(bytes) => bytes.clone(),
        }
    }
}

/// The signals of a bed's channels. A frame brings as many as the layout in force has.
#[derive(Debug, Clone, Copy)]
pub struct Bed(pub [Signal; MOST]);

impl From<Signal> for Bed {
    /// The same in each channel.
    fn from(signal: Signal) -> Self {
        Self([signal; MOST])
    }
}

impl Bed {
    /// `length` samples: 480 of each channel, and of the last as many as are left.
    pub fn samples(&self, channels: usize, first: u64, length: usize) -> Vec<f32> {
        let mut out = Vec::with_capacity(length);
        for (channel, signal) in self.0.iter().enumerate().take(channels) {
            let left = length - out.len();
            let last = channel + 1 == channels;
            out.extend(signal.samples(first, if last { left } else { left.min(FRAME) }));
        }
        out
    }

    fn words(&self) -> Vec<u64> {
        self.0.iter().flat_map(Signal::words).collect()
    }
}

/// The sample `index` of `strand` is `value`; an index past the end counts on from the
/// beginning.
#[derive(Debug, Clone, Copy)]
pub struct Replaced {
    pub strand: usize,
    pub index: usize,
    pub value: f32,
}

/// Frames of two signals, all answered whole.
pub fn frames(key: Signal, bed: impl Into<Bed>, first: u64, count: u64) -> Call {
    Call::Frames {
        key,
        bed: bed.into(),
        first,
        count,
        every: 1,
    }
}

pub const FRAME: usize = 480;
/// Samples of a bed that call 2 may bring.
const ROOM: usize = 512;

/// The strands of a frame that begins with sample `first`, for a bed of so many channels.
pub fn strands(key: &Signal, bed: &Bed, channels: usize, first: u64) -> [Vec<f32>; 2] {
    [
        key.samples(first, FRAME),
        bed.samples(channels, first, channels * FRAME),
    ]
}

impl Call {
    /// The strands of an odd frame, for a bed of so many channels, and the sample that was
    /// replaced.
    pub fn odd_strands(&self, channels: usize) -> ([Vec<f32>; 2], Option<Replaced>) {
        let Call::Odd {
            key,
            bed,
            first,
            lengths,
            replaced,
        } = *self
        else {
            panic!("{self:?} is no odd frame");
        };
        let [key_length, bed_length] = lengths;
        let mut lent = [
            key.samples(first, key_length.unwrap_or(FRAME)),
            bed.samples(channels, first, bed_length.unwrap_or(channels * FRAME)),
        ];
        let replaced = replaced.filter(|r| !lent[r.strand].is_empty()).map(|r| {
            let index = r.index % lent[r.strand].len();
            lent[r.strand][index] = r.value;
            Replaced { index, ..r }
        });
        (lent, replaced)
    }
}

/// The words of a list and of its answers.
pub fn run(calls: &[Call], to: &mut Words) {
    let mut chain = Chain::default();
    for call in calls {
        match call {
            Call::Fresh => {
                chain = Chain::default();
                to.put(0);
            }
            Call::Frames {
                key,
                bed,
                first,
                count,
                every,
            } => {
                let channels = chain.channels();
                put_frame_call([1, 6][usize::from(channels > 1)], key, bed, channels, to);
                to.put(*first);
                to.put_all(&[*count, *every]);
                for i in 0..*count {
                    let at = first + i * FRAME as u64;
                    let lent = strands(key, bed, channels, at);
                    frame(&mut chain, &lent, i % every == 0, to);
                }
            }
            Call::Odd {
                key, bed, first, ..
            } => {
                let channels = chain.channels();
                let (lent, replaced) = call.odd_strands(channels);
                let long = channels > 1 || lent[1].len() > ROOM;
                put_frame_call([2, 7][usize::from(long)], key, bed, channels, to);
                to.put(*first);
                to.put_all(&[lent[0].len() as u64, lent[1].len() as u64]);
                match replaced {
                    Some(r) => {
                        to.put_all(&[r.strand as u64, r.index as u64]);
                        to.put(u64::from(r.value.to_bits()));
                    }
                    None => to.put_all(&[2, 0, 0]),
                }
                frame(&mut chain, &lent, true, to);
            }
            Call::Set(settings) => {
                to.put(3);
                settings.store(to);
                put_code(chain.set(*settings), to);
            }
            Call::Reset(strand) => {
                to.put_all(&[4, *strand]);
                put_code(chain.reset(*strand), to);
            }
            Call::Layout(places) => {
                let mut words = places.concat();
                words.resize(3 * MOST, 0);
                to.put_all(&[5, places.len() as u64]);
                to.put_all(&words);
                put_code(chain.set_layout(places), to);
            }
            Call::Save(_) | Call::Restore(_) => panic!("no image is recorded"),
        }
    }
}

/// The number of the call, and the signals: of 1 and 2 one of the bed, of 6 and 7 the
/// count of channels and eight.
fn put_frame_call(number: u64, key: &Signal, bed: &Bed, channels: usize, to: &mut Words) {
    to.put(number);
    if number > 2 {
        to.put(channels as u64);
    }
    to.put_all(&key.words());
    match number {
        1 | 2 => to.put_all(&bed.0[0].words()),
        _ => to.put_all(&bed.words()),
    }
}

fn put_code(answer: Result<(), Refusal>, to: &mut Words) {
    to.put(answer.err().unwrap_or(0));
}

fn frame(chain: &mut Chain, lent: &[Vec<f32>; 2], whole: bool, to: &mut Words) {
    match chain.frame(&lent[0], &lent[1]) {
        Err(refusal) => to.put(refusal),
        Ok(answer) => {
            to.put(0);
            if whole {
                answer.store(to);
            }
        }
    }
}
