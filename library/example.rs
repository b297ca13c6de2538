//! A commentator over a crowd, through the static library: the bed's reduction every half
//! second, then a rewind; at last the crowd in 5.1. library/run builds and runs it.

#[path = "freightpetal.rs"]
#[allow(dead_code)]
mod freightpetal;

use freightpetal::{FIVE_ONE, FRAME, IMAGE_BYTES};

/// White noise of a fixed seed, -1 to 1.
struct Noise(u64);

impl Noise {
    fn next(&mut self) -> f32 {
        self.0 = self
            .0
            .wrapping_mul(6_364_136_223_846_793_005)
            .wrapping_add(1_442_695_040_888_963_407);
        (self.0 >> 40) as f32 / (1 << 23) as f32 - 1.0
    }
}

/// A buzz of 120 Hz in syllables, four a second: what the detector takes for a voice.
fn voice(at: usize) -> f32 {
    let t = at as f32 / 48_000.0;
    let syllable = (std::f32::consts::TAU * 4.0 * t).sin().max(0.0);
    let buzz: f32 = (1..=12)
        .map(|k| (std::f32::consts::TAU * 120.0 * k as f32 * t).sin() / k as f32)
        .sum();
    0.2 * syllable * buzz
}

fn main() {
    let mut image = vec![0; IMAGE_BYTES];
    freightpetal::fresh(&mut image).expect("11,264 bytes are lent");
    let mut noise = Noise(1);
    let mut crowd = || -> Vec<f32> { (0..FRAME).map(|_| 0.05 * noise.next()).collect() };
    let spoken = |frame: usize| -> Vec<f32> {
        let talks = (100..400).contains(&frame);
        (0..FRAME)
            .map(|i| if talks { voice(frame * FRAME + i) } else { 0.0 })
            .collect()
    };
    for n in 0..600 {
        let a = freightpetal::frame(&mut image, &spoken(n), &crowd()).expect("an ordinary frame");
        if n % 50 == 49 {
            println!(
                "{:.1} s: {:?}, bed down by {:.1} dB",
                (n + 1) as f64 / 100.0,
                a.state,
                a.reduction_db
            );
        }
    }
    let kept = image.clone();
    let bed = crowd();
    let once = freightpetal::frame(&mut image, &spoken(150), &bed);
    image.copy_from_slice(&kept);
    let again = freightpetal::frame(&mut image, &spoken(150), &bed);
    println!(
        "a frame after a rewind is answered alike: {}",
        once == again
    );
    freightpetal::layout(&mut image, &FIVE_ONE).expect("six channels in range");
    let all_around: Vec<f32> = (0..FIVE_ONE.len()).flat_map(|_| crowd()).collect();
    for n in 150..190 {
        let a = freightpetal::frame(&mut image, &spoken(n), &all_around).expect("six channels");
        if n == 189 {
            println!(
                "the crowd in six channels: {:.1} LUFS over 400 ms",
                a.bed.momentary_lufs
            );
        }
    }
    image[0] ^= 1;
    println!(
        "a damaged image: {:?}",
        freightpetal::frame(&mut image, &spoken(0), &bed)
    );
}
