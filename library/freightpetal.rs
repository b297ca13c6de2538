//! The static library for Rust. The caller owns the image, 11,264 bytes that hold the whole
//! chain: it may be kept, copied and put back at any time. Each call gets an answer or one
//! refusal, for any length and content; a refusal changes nothing that is lent.

/// Bytes of an image.
pub const IMAGE_BYTES: usize = 11_264;
/// Bytes of an image of edition 1, which `restore` takes too.
pub const OLD_IMAGE_BYTES: usize = 10_752;
/// Samples of a channel in a frame, 10 ms at 48 kHz.
pub const FRAME: usize = 480;
/// Channels of a bed, at most.
pub const CHANNELS: usize = 8;

const ANSWER_WORDS: usize = 41;
const SETTINGS_WORDS: usize = 12;
const PLACES_WORDS: usize = 3 * CHANNELS;

// A slice is passed as its pointer and its length.
extern "C" {
    fn freightpetal_fresh(image: *mut u8, bytes: usize) -> u64;
    fn freightpetal_check(image: *const u8, bytes: usize) -> u64;
    fn freightpetal_frame(
        image: *mut u8,
        bytes: usize,
        key: *const f32,
        key_samples: usize,
        bed: *const f32,
        bed_samples: usize,
        answer: *mut [u64; ANSWER_WORDS],
    ) -> u64;
    fn freightpetal_settings(
        image: *mut u8,
        bytes: usize,
        settings: *const [u64; SETTINGS_WORDS],
    ) -> u64;
    fn freightpetal_reset(image: *mut u8, bytes: usize, strand: u64) -> u64;
    fn freightpetal_layout(
        image: *mut u8,
        bytes: usize,
        count: u64,
        places: *const [u64; PLACES_WORDS],
    ) -> u64;
    fn freightpetal_restore(
        image: *mut u8,
        bytes: usize,
        from: *const u8,
        from_bytes: usize,
    ) -> u64;
}

/// The specification's refusals, 1 to 10.
#[derive(Debug, Clone, Copy, PartialEq, Eq)]
#[repr(u64)]
pub enum Refusal {
    ShortFrame = 1,
    BadSample,
    BadSetting,
    Runaway,
    CounterFull,
    WrongLength,
    BadCheck,
    ForeignImage,
    NoStrand,
    BadLayout,
}

fn verdict(number: u64) -> Result<(), Refusal> {
    use Refusal::*;
    let all = [
        ShortFrame,
        BadSample,
        BadSetting,
        Runaway,
        CounterFull,
        WrongLength,
        BadCheck,
        ForeignImage,
        NoStrand,
        BadLayout,
    ];
    match all.iter().find(|r| **r as u64 == number) {
        Some(refusal) => Err(*refusal),
        None => Ok(()),
    }
}

#[derive(Debug, Clone, Copy, PartialEq, Eq)]
pub enum State {
    Release,
    Duck,
    Interview,
    Overvoice,
}

/// A strand after a frame.
#[derive(Debug, Clone, Copy, PartialEq)]
pub struct Strand {
    pub active: bool,
    pub probability: f64,
    pub speech_level_dbfs: Option<f64>,
    pub level_dbfs: f64,
    pub momentary_lufs: f64,
    pub gated: bool,
    pub short_term_lufs: f64,
    pub onsets: u64,
    pub offsets: u64,
    pub over_floor_db: f64,
    pub modulation_db: f64,
    pub voicing: f64,
    pub anti: f64,
}

/// The answer to a frame. The bed goes down by `reduction` dB.
#[derive(Debug, Clone, Copy, PartialEq)]
pub struct Answer {
    pub state: State,
    pub reduction: f64,
    /// Rounded, as are the next three.
    pub reduction_db: f64,
    pub slow_db: f64,
    pub mid_db: f64,
    pub fast_db: f64,
    pub target_lu: f64,
    pub ratio_lu: Option<f64>,
    pub dialogue_lufs: Option<f64>,
    pub bed_lufs: Option<f64>,
    pub key: Strand,
    pub bed: Strand,
}

#[derive(Debug, Clone, Copy, PartialEq)]
pub struct StrandSettings {
    /// 0 to 1.
    pub threshold: f64,
    /// 0 to 60,000.
    pub hold_ms: f64,
    /// -100 to 0.
    pub gate_lufs: f64,
}

#[derive(Debug, Clone, Copy, PartialEq)]
pub struct Settings {
    pub key: StrandSettings,
    pub bed: StrandSettings,
    pub enabled: bool,
    /// 0 to 40, as is the next.
    pub target_lu: f64,
    pub overvoice_lu: f64,
    /// 0 to 60.
    pub max_reduction_db: f64,
    /// 0.01 to 100.
    pub speed: f64,
    pub bed_voice: bool,
}

impl Default for Settings {
    /// A fresh chain's.
    fn default() -> Self {
        let strand = StrandSettings {
            threshold: 0.5,
            hold_ms: 300.0,
            gate_lufs: -50.0,
        };
        Self {
            key: strand,
            bed: strand,
            enabled: true,
            target_lu: 5.0,
            overvoice_lu: 13.0,
            max_reduction_db: 24.0,
            speed: 1.0,
            bed_voice: true,
        }
    }
}

impl Settings {
    /// In the image's order.
    pub fn words(&self) -> [u64; SETTINGS_WORDS] {
        [
            self.key.threshold.to_bits(),
            self.key.hold_ms.to_bits(),
            self.key.gate_lufs.to_bits(),
            self.bed.threshold.to_bits(),
            self.bed.hold_ms.to_bits(),
            self.bed.gate_lufs.to_bits(),
            u64::from(self.enabled),
            self.target_lu.to_bits(),
            self.overvoice_lu.to_bits(),
            self.max_reduction_db.to_bits(),
            self.speed.to_bits(),
            u64::from(self.bed_voice),
        ]
    }
}

/// Where a channel of the bed stands, seen from the listener.
#[derive(Debug, Clone, Copy, PartialEq, Eq)]
pub struct Place {
    /// Degrees, -180 to 180: 0 ahead, 90 left, -90 right.
    pub azimuth: i64,
    /// Degrees, -90 to 90: 0 at ear height, 90 above.
    pub elevation: i64,
    /// A low-frequency channel; its angles must be in range and are stored as 0.
    pub lfe: bool,
}

impl Place {
    pub const LFE: Self = Self {
        azimuth: 0,
        elevation: 0,
        lfe: true,
    };

    /// At ear height.
    pub const fn at(azimuth: i64) -> Self {
        Self {
            azimuth,
            elevation: 0,
            lfe: false,
        }
    }

    fn words(&self) -> [u64; 3] {
        let [azimuth, elevation] = [self.azimuth, self.elevation];
        [azimuth as u64, elevation as u64, u64::from(self.lfe)]
    }
}

/// Usual beds, in ffmpeg's order of the channels. One channel, ahead: a fresh chain's.
pub const MONO: [Place; 1] = [Place::at(0)];
/// FL FR.
pub const STEREO: [Place; 2] = [Place::at(30), Place::at(-30)];
/// FL FR FC LFE BL BR, or SL SR at the end.
pub const FIVE_ONE: [Place; 6] = [
    Place::at(30),
    Place::at(-30),
    Place::at(0),
    Place::LFE,
    Place::at(110),
    Place::at(-110),
];
/// FL FR FC LFE BL BR SL SR.
pub const SEVEN_ONE: [Place; 8] = [
    Place::at(30),
    Place::at(-30),
    Place::at(0),
    Place::LFE,
    Place::at(135),
    Place::at(-135),
    Place::at(90),
    Place::at(-90),
];

fn option(flag: u64, value: u64) -> Option<f64> {
    (flag != 0).then(|| f64::from_bits(value))
}

fn strand(w: &[u64]) -> Strand {
    let number = |k: usize| f64::from_bits(w[k]);
    Strand {
        active: w[0] != 0,
        probability: number(1),
        speech_level_dbfs: option(w[2], w[3]),
        level_dbfs: number(4),
        momentary_lufs: number(5),
        gated: w[6] != 0,
        short_term_lufs: number(7),
        onsets: w[8],
        offsets: w[9],
        over_floor_db: number(10),
        modulation_db: number(11),
        voicing: number(12),
        anti: number(13),
    }
}

impl Answer {
    fn new(w: &[u64; ANSWER_WORDS]) -> Self {
        let states = [
            State::Release,
            State::Duck,
            State::Interview,
            State::Overvoice,
        ];
        let number = |k: usize| f64::from_bits(w[k]);
        Self {
            state: states[w[0] as usize],
            reduction: number(1),
            reduction_db: number(2),
            slow_db: number(3),
            mid_db: number(4),
            fast_db: number(5),
            target_lu: number(6),
            ratio_lu: option(w[7], w[8]),
            dialogue_lufs: option(w[9], w[10]),
            bed_lufs: option(w[11], w[12]),
            key: strand(&w[13..27]),
            bed: strand(&w[27..]),
        }
    }
}

/// A fresh chain into the image.
pub fn fresh(image: &mut [u8]) -> Result<(), Refusal> {
    verdict(unsafe { freightpetal_fresh(image.as_mut_ptr(), image.len()) })
}

/// Whether the bytes are an image of edition 2, as the other calls take it.
pub fn check(image: &[u8]) -> Result<(), Refusal> {
    verdict(unsafe { freightpetal_check(image.as_ptr(), image.len()) })
}

/// The chain of these bytes, an image of edition 1 (its bed has one channel, ahead) or 2, into
/// the image, whatever that holds.
pub fn restore(image: &mut [u8], from: &[u8]) -> Result<(), Refusal> {
    verdict(unsafe {
        freightpetal_restore(image.as_mut_ptr(), image.len(), from.as_ptr(), from.len())
    })
}

/// One frame; the 41 words of its answer go to `answer`.
pub fn frame_words(
    image: &mut [u8],
    key: &[f32],
    bed: &[f32],
    answer: &mut [u64; ANSWER_WORDS],
) -> Result<(), Refusal> {
    verdict(unsafe {
        freightpetal_frame(
            image.as_mut_ptr(),
            image.len(),
            key.as_ptr(),
            key.len(),
            bed.as_ptr(),
            bed.len(),
            answer,
        )
    })
}

/// One frame: 480 samples of the key, and 480 of each channel of the bed, one channel after
/// the other.
pub fn frame(image: &mut [u8], key: &[f32], bed: &[f32]) -> Result<Answer, Refusal> {
    let mut words = [0; ANSWER_WORDS];
    frame_words(image, key, bed, &mut words)?;
    Ok(Answer::new(&words))
}

/// All settings are replaced, by their words in the image's order.
pub fn settings_words(image: &mut [u8], words: &[u64; SETTINGS_WORDS]) -> Result<(), Refusal> {
    verdict(unsafe { freightpetal_settings(image.as_mut_ptr(), image.len(), words) })
}

/// All settings are replaced.
pub fn settings(image: &mut [u8], settings: &Settings) -> Result<(), Refusal> {
    settings_words(image, &settings.words())
}

/// The key strand (0) or the bed strand (1) begins anew; the bed keeps its layout.
pub fn reset(image: &mut [u8], strand: u64) -> Result<(), Refusal> {
    verdict(unsafe { freightpetal_reset(image.as_mut_ptr(), image.len(), strand) })
}

/// The bed has `count` channels, of which three words each are azimuth, elevation (in two's
/// complement) and LFE flag; words past the count aren't looked at.
pub fn layout_words(
    image: &mut [u8],
    count: u64,
    words: &[u64; PLACES_WORDS],
) -> Result<(), Refusal> {
    verdict(unsafe { freightpetal_layout(image.as_mut_ptr(), image.len(), count, words) })
}

/// The bed has a channel at each of these places. Its loudness begins anew.
pub fn layout(image: &mut [u8], places: &[Place]) -> Result<(), Refusal> {
    let mut words = [0; PLACES_WORDS];
    for (word, value) in words.iter_mut().zip(places.iter().flat_map(Place::words)) {
        *word = value;
    }
    layout_words(image, places.len() as u64, &words)
}
