//! Tests of the static library on good, short, damaged and foreign buffers, and on the list
//! of calls that the program replay is held to. library/run builds and runs them.

#[path = "freightpetal.rs"]
#[allow(dead_code)]
mod freightpetal;

use freightpetal::{Place, Refusal, Settings, CHANNELS, FRAME, IMAGE_BYTES, OLD_IMAGE_BYTES};

const WORDS: usize = IMAGE_BYTES / 8;
const BLOCK: usize = 64;
/// Payload words of a block.
const PAYLOAD: usize = BLOCK - 1;

fn fresh() -> Vec<u8> {
    let mut image = vec![0xa5; IMAGE_BYTES];
    assert_eq!(freightpetal::fresh(&mut image), Ok(()));
    image
}

fn silence() -> Vec<f32> {
    vec![0.0; FRAME]
}

fn words(image: &[u8]) -> Vec<u64> {
    image
        .chunks(8)
        .map(|b| u64::from_le_bytes(b.try_into().unwrap()))
        .collect()
}

/// The image around payload words.
fn around(payload: &[u64]) -> Vec<u8> {
    let block = |(number, words): (usize, &[u64])| {
        let check = words
            .iter()
            .fold(number as u64, |sum, w| sum.rotate_left(1).wrapping_add(*w));
        [words, &[check]].concat()
    };
    let blocks = payload.chunks(PAYLOAD).enumerate().flat_map(block);
    blocks.flat_map(u64::to_le_bytes).collect()
}

fn payload(image: &[u8]) -> Vec<u64> {
    words(image)
        .chunks(BLOCK)
        .flat_map(|b| b[..PAYLOAD].to_vec())
        .collect()
}

/// An image in which a payload word was changed and the checks made anew.
fn with_word(image: &[u8], place: usize, word: u64) -> Vec<u8> {
    let mut words = payload(image);
    words[place] = word;
    around(&words)
}

/// The image of edition 1 with the same settings, strands and loops.
fn first_edition(image: &[u8]) -> Vec<u8> {
    let mut words = payload(image);
    words[0] = 1;
    words.truncate(1_273);
    words.resize(21 * PAYLOAD, 0);
    around(&words)
}

/// Every call on these bytes is refused with this number and changes nothing lent, nor
/// what lies before and behind it.
fn refused(bytes: &[u8], refusal: Refusal) {
    const GUARD: usize = 33; // odd, so that the image has no alignment
    let mut memory = vec![0x5a; bytes.len() + 2 * GUARD];
    let lent = GUARD..GUARD + bytes.len();
    memory[lent.clone()].copy_from_slice(bytes);
    let before = memory.clone();
    let image = &mut memory[lent];
    let mut answer = [7; 41];
    let (key, bed) = (silence(), silence());
    assert_eq!(freightpetal::check(image), Err(refusal));
    let frame = freightpetal::frame_words(image, &key, &bed, &mut answer);
    assert_eq!(frame, Err(refusal));
    let settings = freightpetal::settings(image, &Settings::default());
    assert_eq!(settings, Err(refusal));
    for strand in [0, 1, 2] {
        assert_eq!(freightpetal::reset(image, strand), Err(refusal));
    }
    for places in [&freightpetal::FIVE_ONE[..], &[]] {
        assert_eq!(freightpetal::layout(image, places), Err(refusal));
    }
    if image.len() != IMAGE_BYTES {
        assert_eq!(freightpetal::fresh(image), Err(Refusal::WrongLength));
        let good = fresh();
        for old in [&good, &first_edition(&good)] {
            let restored = freightpetal::restore(image, old);
            assert_eq!(restored, Err(Refusal::WrongLength));
        }
    }
    assert_eq!(answer, [7; 41]);
    assert_eq!(memory, before);
}

/// A restore of these bytes is refused with this number, and the image stays.
fn not_restored(bytes: &[u8], refusal: Refusal) {
    let mut image = vec![0x5a; IMAGE_BYTES];
    assert_eq!(freightpetal::restore(&mut image, bytes), Err(refusal));
    assert_eq!(image, vec![0x5a; IMAGE_BYTES]);
}

fn lengths() {
    let image = fresh();
    let long = [image.clone(), vec![0; 20_000]].concat();
    let ends = [OLD_IMAGE_BYTES, IMAGE_BYTES].map(|n| [n - 1, n + 1]);
    for n in (0..300).chain([5_000, 20_000]).chain(ends.concat()) {
        refused(&long[..n], Refusal::WrongLength);
        not_restored(&long[..n], Refusal::WrongLength);
    }
    // A lent image is of edition 2, whatever the bytes of an older one are.
    refused(&first_edition(&image), Refusal::WrongLength);
    refused(&image[..OLD_IMAGE_BYTES], Refusal::WrongLength);
}

fn damaged() {
    let image = fresh();
    for place in (0..WORDS).step_by(7).chain([63, WORDS - 1]) {
        let mut bytes = image.clone();
        bytes[8 * place + place % 8] ^= 1 << (place % 8);
        refused(&bytes, Refusal::BadCheck);
        not_restored(&bytes, Refusal::BadCheck);
    }
    not_restored(&[0; OLD_IMAGE_BYTES], Refusal::BadCheck);
    refused(&vec![0; IMAGE_BYTES], Refusal::BadCheck);
    refused(&vec![0xff; IMAGE_BYTES], Refusal::BadCheck);
}

fn foreign() {
    let mut image = fresh();
    assert_eq!(
        freightpetal::layout(&mut image, &freightpetal::FIVE_ONE),
        Ok(())
    );
    let infinite = f64::INFINITY.to_bits();
    let bad = [
        (0, 1),                   // edition
        (0, 3),                   // the same
        (1, 2.0f64.to_bits()),    // threshold
        (2, (-1.0f64).to_bits()), // hold_ms
        (3, (-0.0f64).to_bits()), // gate_lufs
        (7, 2),                   // enabled
        (13, infinite),           // the key's shelf
        (15, 1),                  // the rest of it
        (38, 301),                // how many powers
        (1_273, 0),               // how many channels
        (1_273, 5),               // the sixth has a place
        (1_273, 9),               // more than eight
        (1_274, 181),             // an azimuth
        (1_275, 91),              // an elevation
        (1_276, 2),               // an LFE flag
        (1_283, 1),               // an LFE's azimuth
        (1_292, 1),               // a seventh place
        (1_298, infinite),        // the second channel's shelf
        (1_343, 1),               // a seventh channel's
        (1_385, 1),               // the last zero
    ];
    for (place, word) in bad {
        let bytes = with_word(&image, place, word);
        refused(&bytes, Refusal::ForeignImage);
        not_restored(&bytes, Refusal::ForeignImage);
    }
    let old = first_edition(&image);
    for (place, word) in [(0, 2), (13, infinite), (1_273, 1), (1_322, 1)] {
        not_restored(&with_word(&old, place, word), Refusal::ForeignImage);
    }
    not_restored(&image[..OLD_IMAGE_BYTES], Refusal::ForeignImage);
}

fn restores() {
    let mut image = vec![0xa5; IMAGE_BYTES];
    assert_eq!(
        freightpetal::restore(&mut image, &first_edition(&fresh())),
        Ok(())
    );
    assert_eq!(image, fresh());
    assert_eq!(
        freightpetal::layout(&mut image, &freightpetal::SEVEN_ONE),
        Ok(())
    );
    let wide = image.clone();
    let mut other = vec![0; IMAGE_BYTES];
    assert_eq!(freightpetal::restore(&mut other, &wide), Ok(()));
    assert_eq!(other, wide);
    // Edition 1 has no layout.
    assert_eq!(
        freightpetal::restore(&mut image, &first_edition(&wide)),
        Ok(())
    );
    assert_eq!(image, fresh());
}

fn layouts() {
    let beds = [
        &freightpetal::MONO[..],
        &freightpetal::STEREO,
        &freightpetal::FIVE_ONE,
        &freightpetal::SEVEN_ONE,
    ];
    for places in beds {
        let mut image = fresh();
        assert_eq!(freightpetal::layout(&mut image, places), Ok(()));
        let bare = image.clone();
        let bed = vec![0.1; FRAME * places.len()];
        for n in [0, 1, FRAME, 6 * FRAME, bed.len() - 1, 9 * FRAME] {
            if n != bed.len() {
                let got = freightpetal::frame(&mut image, &silence(), &vec![0.1; n]);
                assert_eq!(got, Err(Refusal::ShortFrame));
            }
        }
        assert_eq!(image, bare);
        let got = freightpetal::frame(&mut image, &silence(), &bed).unwrap();
        assert!(got.bed.momentary_lufs > -100.0);
        let mut bad = bed.clone();
        *bad.last_mut().unwrap() = f32::NAN;
        let got = freightpetal::frame(&mut image, &silence(), &bad);
        assert_eq!(got, Err(Refusal::BadSample));
        assert_eq!(freightpetal::reset(&mut image, 1), Ok(()));
        assert_eq!(freightpetal::reset(&mut image, 0), Ok(()));
        assert_eq!(image, bare);
    }
    // What is past the count isn't looked at.
    let mut image = fresh();
    let mut words = [u64::MAX; 3 * CHANNELS];
    words[..3].fill(0);
    assert_eq!(freightpetal::layout_words(&mut image, 1, &words), Ok(()));
    assert_eq!(image, fresh());
    let bad = |count, words: &[u64; 3 * CHANNELS]| {
        let mut image = fresh();
        let got = freightpetal::layout_words(&mut image, count, words);
        assert_eq!(got, Err(Refusal::BadLayout));
        assert_eq!(image, fresh());
    };
    for count in [0, 9, 1 << 32, u64::MAX] {
        bad(count, &[0; 3 * CHANNELS]);
    }
    for (place, word) in [
        (0, 181),
        (0, 1 << 32),
        (1, 91),
        (1, 1 << 63),
        (2, 2),
        (23, 2),
    ] {
        let mut words = [0; 3 * CHANNELS];
        words[place] = word;
        bad(8, &words);
    }
    let places = [Place::at(-181), Place::LFE];
    assert_eq!(
        freightpetal::layout(&mut image, &places),
        Err(Refusal::BadLayout)
    );
    let places = [Place::LFE; CHANNELS + 1];
    assert_eq!(
        freightpetal::layout(&mut image, &places),
        Err(Refusal::BadLayout)
    );
    assert_eq!(image, fresh());
}

fn good() {
    let mut image = fresh();
    assert_eq!(freightpetal::check(&image), Ok(()));
    let answer = freightpetal::frame(&mut image, &silence(), &silence()).unwrap();
    assert_eq!(answer.reduction, 0.0);
    assert_eq!(answer.key.onsets, 0);
    let after = image.clone();
    let bad = |image: &mut [u8], key: &[f32], refusal| {
        let got = freightpetal::frame(image, key, &silence());
        assert_eq!(got, Err(refusal));
    };
    bad(&mut image, &silence()[1..], Refusal::ShortFrame);
    bad(&mut image, &[], Refusal::ShortFrame);
    bad(&mut image, &[f32::NAN; FRAME], Refusal::BadSample);
    let loud = Settings {
        speed: 101.0,
        ..Settings::default()
    };
    let settings = freightpetal::settings(&mut image, &loud);
    assert_eq!(settings, Err(Refusal::BadSetting));
    assert_eq!(freightpetal::reset(&mut image, 2), Err(Refusal::NoStrand));
    assert_eq!(image, after);
    let square = |i: usize| if i % 96 < 48 { f32::MAX } else { -f32::MAX };
    let key: Vec<f32> = (0..FRAME).map(square).collect();
    bad(&mut image, &key, Refusal::Runaway);
    assert_eq!(image, after);
    assert_eq!(freightpetal::reset(&mut image, 0), Ok(()));
    assert_eq!(freightpetal::reset(&mut image, 1), Ok(()));
    assert_eq!(image, fresh());
}

/// A file that is read from its beginning.
struct Input {
    bytes: Vec<u8>,
    at: usize,
}

impl Input {
    fn take(&mut self, count: usize) -> &[u8] {
        self.at += count;
        &self.bytes[self.at - count..self.at]
    }

    fn u32(&mut self) -> usize {
        u32::from_le_bytes(self.take(4).try_into().unwrap()) as usize
    }

    fn u64(&mut self) -> u64 {
        u64::from_le_bytes(self.take(8).try_into().unwrap())
    }

    fn samples(&mut self, count: usize) -> Vec<f32> {
        let bytes = self.take(4 * count).chunks(4);
        bytes
            .map(|b| f32::from_le_bytes(b.try_into().unwrap()))
            .collect()
    }
}

fn number(got: Result<(), Refusal>) -> u64 {
    got.err().map_or(0, |refusal| refusal as u64)
}

/// The list of the program replay, on a lent image. A save is the image itself, a restore
/// one into it.
fn replayed(folder: &str) -> usize {
    let read = |name: &str| std::fs::read(format!("{folder}/{name}")).expect(name);
    let mut input = Input {
        bytes: read("stdin"),
        at: 0,
    };
    let mut image = fresh();
    let mut out: Vec<u8> = Vec::new();
    let mut calls = 0;
    while input.at < input.bytes.len() {
        let mut answer = [0; 41];
        let mut more: Vec<u8> = Vec::new();
        let letter = input.take(1)[0];
        let code = match letter {
            b'F' => {
                let (k, b) = (input.u32(), input.u32());
                let (key, bed) = (input.samples(k), input.samples(b));
                let code = number(freightpetal::frame_words(
                    &mut image,
                    &key,
                    &bed,
                    &mut answer,
                ));
                if code == 0 {
                    more = answer.iter().flat_map(|w| w.to_le_bytes()).collect();
                }
                code
            }
            b'S' => {
                let words: [u64; 12] = std::array::from_fn(|_| input.u64());
                number(freightpetal::settings_words(&mut image, &words))
            }
            b'R' => number(freightpetal::reset(&mut image, input.u64())),
            b'B' => {
                let count = input.u32();
                let places: Vec<u64> = (0..3 * count).map(|_| input.u64()).collect();
                let word = |i| places.get(i).copied().unwrap_or(u64::MAX);
                let words = std::array::from_fn(word);
                let done = freightpetal::layout_words(&mut image, count as u64, &words);
                number(done)
            }
            b'V' if input.u32() == IMAGE_BYTES => {
                more = image.clone();
                0
            }
            b'V' => Refusal::WrongLength as u64,
            b'L' => {
                let count = input.u32();
                number(freightpetal::restore(&mut image, input.take(count)))
            }
            _ => panic!("call {letter}"),
        };
        out.extend(code.to_le_bytes());
        out.extend(more);
        calls += 1;
    }
    assert!(out == read("stdout"), "the recorded answers are others");
    calls
}

fn main() {
    good();
    lengths();
    damaged();
    foreign();
    restores();
    layouts();
    let folder = std::env::args().nth(1).expect("the folder crates/replay");
    println!("library: ok, {} calls as recorded", replayed(&folder));
}
