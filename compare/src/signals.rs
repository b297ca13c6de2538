//! Deterministic signals by whole-number arithmetic. Sample n of a signal is
//! (v - 32768) × scale as f32, v = `value(signal, seed, n)` in 0..=65536; the
//! difference is exact, the product rounded once. A seed counts modulo 2^16, 0 as 1;
//! no step exceeds 2^63 for any seed and n.

/// All samples 0 (with a negative scale: -0).
pub const SILENCE: u64 = 0;
/// All samples 1.
pub const CONSTANT: u64 = 1;
/// A sine of `seed` kHz at 48 kHz, from a table of 48 values.
pub const TONE: u64 = 2;
/// A square wave with a period of `seed` samples: its first half high.
pub const SQUARE: u64 = 3;
/// A rising sawtooth with a period of `seed` samples.
pub const SAWTOOTH: u64 = 4;
/// White noise.
pub const NOISE: u64 = 5;
/// A sawtooth of `seed` samples (400: 120 Hz) in syllables at 4 Hz (a triangle),
/// 2 s long, then 1 s of digital silence.
pub const SPEECH: u64 = 6;
/// The same over noise 48 dB below full scale.
pub const NOISY_SPEECH: u64 = 7;
/// One full sample in `seed`, else silence.
pub const IMPULSES: u64 = 8;
/// Noise for 0.1 s, digital silence for 0.15 s: modulated, not voiced.
pub const BURSTS: u64 = 9;

const MIDDLE: u64 = 32768;
const TWO_31: u64 = 2_147_483_648;

/// 1 kHz at 48 kHz: 32768 + 32767 sin(2 pi k / 48), rounded.
const SINE: [u64; 48] = [
    32768, 37045, 41249, 45307, 49151, 52715, 55938, 58764, 61145, 63041, 64418, 65255, //
    65535, 65255, 64418, 63041, 61145, 58764, 55938, 52715, 49151, 45307, 41249, 37045, //
    32768, 28491, 24287, 20229, 16385, 12821, 9598, 6772, 4391, 2495, 1118, 281, //
    1, 281, 1118, 2495, 4391, 6772, 9598, 12821, 16385, 20229, 24287, 28491,
];

/// One linear step modulo 2^31, squared; the middle 31 bits of the square.
fn scramble(x: u64) -> u64 {
    let y = (x % TWO_31 * 1_103_515_245 + 12_345) % TWO_31;
    y * y / 32_768 % TWO_31
}

/// 0 to 65,535.
fn noise(seed: u64, n: u64) -> u64 {
    scramble(scramble(n) + seed * 7_919) / 32_768
}

/// The syllables' loudness, 0 to 6,000: a triangle at 4 Hz for 2 s, 0 for 1 s.
fn syllable(n: u64) -> u64 {
    let at = n % 12_000;
    if n % 144_000 >= 96_000 {
        0
    } else if at < 6_000 {
        at
    } else {
        12_000 - at
    }
}

/// The sawtooth in syllables, 17,768 to 47,768 (silence is 32,768).
fn voice(seed: u64, n: u64) -> u64 {
    let loud = syllable(n);
    MIDDLE + n % seed * loud * 5 / seed - loud * 5 / 2
}

/// v of sample n, 0 to 65,536.
pub fn value(signal: u64, seed: u64, n: u64) -> u64 {
    let seed = if seed % 65_536 == 0 { 1 } else { seed % 65_536 };
    match signal {
        CONSTANT => MIDDLE + 1,
        TONE => SINE[(n % 48 * seed % 48) as usize],
        SQUARE => {
            if n % seed < seed / 2 {
                65_536
            } else {
                0
            }
        }
        SAWTOOTH => n % seed * 65_535 / seed,
        NOISE => noise(seed, n),
        SPEECH => voice(seed, n),
        NOISY_SPEECH => voice(seed, n) + noise(seed, n) / 256 - 128,
        IMPULSES => {
            if n % seed == 0 {
                65_536
            } else {
                MIDDLE
            }
        }
        BURSTS => {
            if n % 12_000 < 4_800 {
                noise(seed, n)
            } else {
                MIDDLE
            }
        }
        _ => MIDDLE,
    }
}

/// A signal with its seed and scale.
#[derive(Debug, Clone, Copy)]
pub struct Signal {
    pub signal: u64,
    pub seed: u64,
    pub scale: f32,
}

impl Signal {
    pub fn new(signal: u64, seed: u64, scale: f32) -> Self {
        Self {
            signal,
            seed,
            scale,
        }
    }

    pub fn sample(&self, n: u64) -> f32 {
        (value(self.signal, self.seed, n) as f32 - 32768.0) * self.scale
    }

    pub fn samples(&self, first: u64, count: usize) -> Vec<f32> {
        (first..first + count as u64)
            .map(|n| self.sample(n))
            .collect()
    }

    /// The three words of a recorded file: signal, seed, the scale's f32 bits.
    pub fn words(&self) -> [u64; 3] {
        [self.signal, self.seed, u64::from(self.scale.to_bits())]
    }
}

/// Full scale is 1.
pub const FULL: f32 = 1.0 / 32768.0;
/// 20 dB and 40 dB below full scale, about.
pub const LOW: f32 = 0.1 / 32768.0;
pub const SOFT: f32 = 0.01 / 32768.0;
pub const QUIET: f32 = 1e-30;
/// A full sample is 32,768 times the smallest f32.
pub const FAINT: f32 = f32::from_bits(1);
/// A full sample is the largest f32.
pub const LOUD: f32 = f32::MAX / 32768.0;

/// One of each kind, and of each size.
pub fn all() -> Vec<Signal> {
    [
        (SILENCE, 0, FULL),
        (SILENCE, 0, -1.0),
        (CONSTANT, 0, 0.5),
        (TONE, 1, FULL),
        (TONE, 3, LOW),
        (TONE, 11, SOFT),
        (SQUARE, 96, FULL),
        (SQUARE, 96, 1e15),
        (SAWTOOTH, 400, FULL),
        (NOISE, 1, FULL),
        (NOISE, 2, SOFT),
        (NOISE, 3, QUIET),
        (NOISE, 4, FAINT),
        (NOISE, 5, LOUD),
        (SPEECH, 400, FULL),
        (SPEECH, 333, -LOW),
        (SPEECH, 300, 1e20),
        (SPEECH, 410, 1e-9),
        (SPEECH, 380, 1e-11),
        (NOISY_SPEECH, 420, FULL),
        (NOISY_SPEECH, 250, LOW),
        (IMPULSES, 1000, FULL),
        (IMPULSES, 65535, LOUD),
        (BURSTS, 7, FULL),
        (BURSTS, 8, SOFT),
    ]
    .map(|(signal, seed, scale)| Signal::new(signal, seed, scale))
    .to_vec()
}
