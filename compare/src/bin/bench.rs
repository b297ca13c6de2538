//! ns a call of Rust's own functions and of the stand-ins on typical arguments, of
//! Level::frame, of detector and decision, and of the whole chain a frame (speech and a
//! noisy bed; with an argument noisy speech in both, which has no digital silence).

use std::hint::black_box;
use std::time::Instant;

use compare::auto::level::Level;
use compare::auto::vad::Vad;
use compare::driver::{Chain, Settings};
use compare::random::Random;
use compare::signals::{Signal, FULL, LOW, NOISY_SPEECH, SPEECH};
use compare::standins;

/// The best of five runs, ns for one of `count` calls.
fn best(count: usize, mut run: impl FnMut()) -> f64 {
    let mut least = f64::INFINITY;
    for _ in 0..5 {
        let start = Instant::now();
        run();
        least = least.min(start.elapsed().as_nanos() as f64 / count as f64);
    }
    least
}

fn each(name: &str, arguments: &[f64], function: impl Fn(f64) -> f64) {
    const ROUNDS: usize = 200;
    let ns = best(ROUNDS * arguments.len(), || {
        for _ in 0..ROUNDS {
            for &x in black_box(arguments) {
                black_box(function(x));
            }
        }
    });
    println!("{name:<28} {ns:10.2} ns");
}

fn functions() {
    let random = &mut Random::new(1);
    let powers: Vec<f64> = (0..1000)
        .map(|_| 10f64.powf(random.between(-10.0, 1.0)))
        .collect();
    let exponents: Vec<f64> = (0..1000).map(|_| random.between(-40.0, 4.0)).collect();
    each("f64::log2", &powers, f64::log2);
    each("stand-in log2", &powers, standins::log2);
    each("f64::exp2", &exponents, f64::exp2);
    each("stand-in 2^y", &exponents, standins::exp2);
    each("f64::sqrt", &powers, f64::sqrt);
    each("f64 as f32", &powers, |x| f64::from(x as f32));
    each("f64::round", &exponents, f64::round);
}

fn main() {
    functions();
    let count = 3000;
    let frames = |signal: Signal| -> Vec<Vec<f32>> {
        (0..count as u64)
            .map(|i| signal.samples(i * 480, 480))
            .collect()
    };
    let kind = if std::env::args().len() > 1 {
        NOISY_SPEECH
    } else {
        SPEECH
    };
    let key = frames(Signal::new(kind, 400, FULL));
    let bed = frames(Signal::new(NOISY_SPEECH, 333, LOW));
    let level = best(count, || {
        let mut level = Level::new(vec![1.0]);
        for x in &key {
            black_box(level.frame(&[x]));
        }
    });
    println!("{:<28} {level:10.0} ns", "Level::frame");
    let settings = [0, 1].map(|strand| Settings::default().vad(strand));
    let decided = best(count, || {
        let mut strands = [Vad::default(), Vad::default()];
        for (k, b) in key.iter().zip(&bed) {
            strands[0].frame(black_box(k), -20.0, &settings[0]);
            strands[1].frame(black_box(b), -20.0, &settings[1]);
        }
        black_box(&strands);
    });
    println!("{:<28} {decided:10.0} ns", "detector, decision, both");
    let plain = best(count, || {
        let mut chain = Chain::default();
        for (k, b) in key.iter().zip(&bed) {
            black_box(chain.frame_untested(k, b));
        }
    });
    println!("{:<28} {plain:10.0} ns", "chain, a frame, untested");
    let tested = best(count, || {
        let mut chain = Chain::default();
        for (k, b) in key.iter().zip(&bed) {
            let _ = black_box(chain.frame(k, b));
        }
    });
    println!("{:<28} {tested:10.0} ns", "chain, a frame, refusals too");
}
