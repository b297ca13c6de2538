//! The specification's images: blocks of 64 words around a payload, 22 of them in edition 2
//! and 21 in edition 1; saves and restores of a chain.

use crate::driver::{Chain, Refusal};
use crate::words::{Reader, Words};

const WRONG_LENGTH: Refusal = 6;
const BAD_CHECK: Refusal = 7;
const FOREIGN_IMAGE: Refusal = 8;

const BLOCK_WORDS: usize = 64;
/// Words of a block before its check.
const CHECKED: usize = BLOCK_WORDS - 1;
/// Words before what edition 2 has more: the edition, settings, strands, loops.
const COMMON: usize = 1_273;

/// What differs between the editions.
#[derive(Debug, Clone, Copy, PartialEq, Eq)]
pub struct Edition {
    number: u64,
    blocks: usize,
    /// Zeros at the payload's end.
    pub last_zeros: usize,
}

pub const FIRST: Edition = Edition {
    number: 1,
    blocks: 21,
    last_zeros: 50,
};
pub const SECOND: Edition = Edition {
    number: 2,
    blocks: 22,
    last_zeros: 25,
};

impl Edition {
    /// Words of its payload.
    pub const fn payload(self) -> usize {
        self.blocks * CHECKED
    }

    /// Bytes of an image.
    pub const fn bytes(self) -> usize {
        8 * BLOCK_WORDS * self.blocks
    }
}

/// Words of an image that is saved, checks and all.
pub const WORDS: usize = SECOND.blocks * BLOCK_WORDS;
/// Words of its payload.
pub const PAYLOAD: usize = SECOND.payload();
/// Its bytes.
pub const BYTES: usize = SECOND.bytes();
/// Bytes of an image of edition 1.
pub const OLD_BYTES: usize = FIRST.bytes();

/// The check of a block's 63 words.
fn check(block: usize, words: &[u64]) -> u64 {
    words.iter().fold(block as u64, |sum, word| {
        sum.rotate_left(1).wrapping_add(*word)
    })
}

/// The image around a payload.
pub fn around(payload: &[u64]) -> Vec<u8> {
    assert_eq!(payload.len() % CHECKED, 0, "whole blocks");
    let mut out = Words::default();
    for (block, words) in payload.chunks(CHECKED).enumerate() {
        out.put_all(words);
        out.put(check(block, words));
    }
    out.bytes()
}

/// The words of an image, checks and all.
pub fn words(image: &[u8]) -> Vec<u64> {
    let word = |bytes: &[u8]| u64::from_le_bytes(bytes.try_into().expect("8 bytes"));
    image.chunks_exact(8).map(word).collect()
}

/// The payload of an image's words, without a look at the checks.
fn inside(words: &[u64]) -> Vec<u64> {
    let blocks = words.chunks(BLOCK_WORDS);
    blocks.flat_map(|b| &b[..CHECKED]).copied().collect()
}

/// The edition that has this many bytes, and the payload; refusals 6 and 7.
fn payload(bytes: &[u8]) -> Result<(Edition, Vec<u64>), Refusal> {
    let fits = |e: &Edition| e.bytes() == bytes.len();
    let edition = [FIRST, SECOND].into_iter().find(fits).ok_or(WRONG_LENGTH)?;
    let words = words(bytes);
    for (number, block) in words.chunks(BLOCK_WORDS).enumerate() {
        if block[CHECKED] != check(number, &block[..CHECKED]) {
            return Err(BAD_CHECK);
        }
    }
    Ok((edition, inside(&words)))
}

/// The payload of edition 1 that has these settings, strands and loops.
fn as_first(payload: &[u64]) -> Vec<u64> {
    let mut out = vec![FIRST.number];
    out.extend(&payload[1..COMMON]);
    out.resize(FIRST.payload(), 0);
    out
}

/// The payload of edition 2 that one of edition 1 restores as: one channel at 0, 0.
fn as_second(payload: &[u64]) -> Vec<u64> {
    let mut out = vec![SECOND.number];
    out.extend(&payload[1..COMMON]);
    out.push(1);
    out.resize(SECOND.payload(), 0);
    out
}

/// What a chain that restored these bytes saves: the bytes themselves, or their edition 2.
pub fn saved_again(image: &[u8]) -> Vec<u8> {
    match image.len() {
        OLD_BYTES => around(&as_second(&inside(&words(image)))),
        _ => image.to_vec(),
    }
}

/// A change of the bytes of an image.
#[derive(Debug, Clone, Copy)]
pub enum Edit {
    /// The payload's word at a place, counted from 0; the checks are made anew.
    Word(usize, u64),
    /// These bits of the image's word at a place are flipped, and no check is made anew.
    Flip(usize, u64),
    /// Cut to this many bytes, or zeros added.
    Length(usize),
    /// The image of edition 1 with the same settings, strands and loops.
    First,
}

impl Edit {
    pub fn apply(self, image: &mut Vec<u8>) {
        match self {
            Edit::Word(place, word) => {
                let mut payload = inside(&words(image));
                payload[place] = word;
                *image = around(&payload);
            }
            Edit::Flip(place, bits) => {
                let bytes = &mut image[8 * place..8 * place + 8];
                let flipped = bits.to_le_bytes();
                bytes.iter_mut().zip(flipped).for_each(|(b, f)| *b ^= f);
            }
            Edit::Length(length) => image.resize(length, 0),
            Edit::First => *image = around(&as_first(&inside(&words(image)))),
        }
    }
}

impl Chain {
    /// The 1,386 payload words of the chain's image.
    pub fn payload(&self) -> Vec<u64> {
        let mut words = Words::default();
        words.put(SECOND.number);
        self.store(&mut words);
        self.store_surround(&mut words);
        words.put_zeros(SECOND.last_zeros);
        words.words
    }

    /// The chain of a payload; none where a word breaks an image rule.
    fn of_payload(edition: Edition, payload: &[u64]) -> Option<Self> {
        let mut from = Reader::new(payload);
        from.word().filter(|number| *number == edition.number)?;
        let mut chain = Self::load(&mut from)?;
        if edition == SECOND {
            chain.load_surround(&mut from)?;
        }
        from.zeros(edition.last_zeros)?;
        assert!(from.is_empty(), "words are left over");
        Some(chain)
    }

    pub fn image(&self) -> Vec<u8> {
        around(&self.payload())
    }

    /// A save into a buffer of `length` bytes.
    pub fn save(&self, length: usize) -> Result<Vec<u8>, Refusal> {
        if length != BYTES {
            return Err(WRONG_LENGTH);
        }
        Ok(self.image())
    }

    pub fn restore(&mut self, bytes: &[u8]) -> Result<(), Refusal> {
        let (edition, payload) = payload(bytes)?;
        *self = Self::of_payload(edition, &payload).ok_or(FOREIGN_IMAGE)?;
        Ok(())
    }
}
