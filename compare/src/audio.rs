//! Frames as duckline reads them: 480 samples of the key, then 480 of each channel of the
//! bed, f32 little-endian.

use crate::signals::{Signal, FULL, LOUD, LOW, NOISE, NOISY_SPEECH, SPEECH, SQUARE, TONE};

fn put(bytes: &mut Vec<u8>, samples: &[f32]) {
    bytes.extend(samples.iter().flat_map(|x| x.to_le_bytes()));
}

/// `count` frames: speech; noisy speech, and noise in the bed's further channels.
pub fn stream(count: u64, channels: u64) -> Vec<u8> {
    let mut strands = vec![
        Signal::new(SPEECH, 400, FULL),
        Signal::new(NOISY_SPEECH, 333, LOW),
    ];
    strands.extend((1..channels).map(|channel| Signal::new(NOISE, channel, LOW)));
    let mut bytes = Vec::new();
    for i in 0..count {
        for strand in &strands {
            put(&mut bytes, &strand.samples(i * 480, 480));
        }
    }
    bytes
}

/// Syllables at 4 Hz, loud in sixteenths at each frame, of a sawtooth of 300 Hz in 16
/// steps: 1,300 frames of it are small when they are packed.
fn voice(frame: u64, scale: f32) -> Vec<f32> {
    let at = frame % 25;
    let loud = at.min(25 - at) as f32 / 16.0 * scale;
    let step = |n: u64| (n % 160 / 10) as f32 / 8.0 - 15.0 / 16.0;
    (0..480).map(|n| step(n) * loud).collect()
}

/// The run that is kept: two silent frames; a commentator over a tone,
/// then over another voice, that voice alone, the tone alone; samples that aren't
/// finite; a square wave at the largest f32, silence, and 7 bytes.
pub fn kept() -> Vec<u8> {
    let silence = vec![0.0; 480];
    let tone = Signal::new(TONE, 1, LOW);
    let loud = Signal::new(SQUARE, 96, LOUD);
    let mut bytes = Vec::new();
    for i in 0..1_300 {
        let key = match i {
            100..=499 | 900..=1_099 => voice(i, 1.0),
            1_230..=1_234 => loud.samples(0, 480),
            _ => silence.clone(),
        };
        let bed = match i {
            300..=699 | 1_000..=1_049 => voice(i + 7, 0.5),
            2..=1_199 => tone.samples(0, 480),
            1_220..=1_224 => loud.samples(0, 480),
            _ => silence.clone(),
        };
        let mut frame = [key, bed].concat();
        match i {
            50 => frame[479] = f32::NAN,
            51 => frame[480] = f32::INFINITY,
            52 => frame[0] = f32::NEG_INFINITY,
            _ => {}
        }
        put(&mut bytes, &frame);
    }
    bytes.extend([0; 7]);
    bytes
}
