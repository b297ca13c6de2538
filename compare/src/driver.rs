//! The specification's chain around the Rust: settings, layouts of the bed, resets, the
//! wiring of a frame (module 5), refusals, and answers by their bits. image.rs has saves
//! and restores.

use crate::auto::level::Reading;
use crate::auto::ratio::{Inputs, RatioStatus, State};
use crate::auto::vad::{Vad, VadState, FRAME};
use crate::layout::{Layout, PlaceWords, MOST};
use crate::mix::auto::{ChannelDepth, Duck, DuckMode, Ratio, VadDetector, VadSettings};
use crate::mix::model::Db;
use crate::standins;
use crate::words::{Reader, Words};

/// A refusal's number.
pub type Refusal = u64;
const SHORT_FRAME: Refusal = 1;
const BAD_SAMPLE: Refusal = 2;
const BAD_SETTING: Refusal = 3;
const RUNAWAY: Refusal = 4;
const COUNTER_FULL: Refusal = 5;
const NO_STRAND: Refusal = 9;
const BAD_LAYOUT: Refusal = 10;

/// The number of the bed's strand.
const BED: usize = 1;
/// Words of a channel from the second on: shelf, high-pass, fast.
const CHANNEL_WORDS: usize = 9;

/// The 12 settings in the image's order; flags are 0 or 1.
#[derive(Debug, Clone, Copy, PartialEq)]
pub struct Settings {
    /// Threshold, hold_ms and gate_lufs of the key and the bed.
    pub strands: [[f64; 3]; 2],
    pub enabled: bool,
    pub target_lu: f64,
    pub overvoice_lu: f64,
    pub max_reduction_db: f64,
    pub speed: f64,
    pub bed_voice: bool,
}

impl Default for Settings {
    fn default() -> Self {
        Self {
            strands: [[0.5, 300.0, -50.0]; 2],
            enabled: true,
            target_lu: 5.0,
            overvoice_lu: 13.0,
            max_reduction_db: 24.0,
            speed: 1.0,
            bed_voice: true,
        }
    }
}

/// The ranges of a strand's settings and of the duck's, in their order.
pub const STRAND_RANGES: [(f64, f64); 3] = [(0.0, 1.0), (0.0, 60_000.0), (-100.0, 0.0)];
pub const DUCK_RANGES: [(f64, f64); 4] = [(0.0, 40.0), (0.0, 40.0), (0.0, 60.0), (0.01, 100.0)];

/// The value that is stored: in range, negative zero as zero.
fn stored(x: f64, (low, high): (f64, f64)) -> Result<f64, Refusal> {
    if low <= x && x <= high {
        Ok(if x == 0.0 { 0.0 } else { x })
    } else {
        Err(BAD_SETTING)
    }
}

/// A setting of an image: in range, and no negative zero.
fn setting(from: &mut Reader, (low, high): (f64, f64)) -> Option<f64> {
    let x = from.f64()?;
    let negative_zero = x == 0.0 && x.is_sign_negative();
    (low <= x && x <= high && !negative_zero).then_some(x)
}

impl Settings {
    fn duck_numbers(&self) -> [f64; 4] {
        [
            self.target_lu,
            self.overvoice_lu,
            self.max_reduction_db,
            self.speed,
        ]
    }

    /// As a settings call stores them.
    pub fn checked(mut self) -> Result<Self, Refusal> {
        for strand in &mut self.strands {
            for (x, range) in strand.iter_mut().zip(STRAND_RANGES) {
                *x = stored(*x, range)?;
            }
        }
        let mut duck = self.duck_numbers();
        for (x, range) in duck.iter_mut().zip(DUCK_RANGES) {
            *x = stored(*x, range)?;
        }
        [
            self.target_lu,
            self.overvoice_lu,
            self.max_reduction_db,
            self.speed,
        ] = duck;
        Ok(self)
    }

    /// Their 12 words.
    pub fn store(&self, to: &mut Words) {
        to.put_numbers(self.strands.as_flattened());
        self.store_duck(to);
    }

    /// The duck's 6 words.
    pub fn store_duck(&self, to: &mut Words) {
        to.put_flag(self.enabled);
        to.put_numbers(&self.duck_numbers());
        to.put_flag(self.bed_voice);
    }

    /// Of an image's 12 words.
    pub fn load(from: &mut Reader) -> Option<Self> {
        let mut strands = [[0.0; 3]; 2];
        for strand in &mut strands {
            for (x, range) in strand.iter_mut().zip(STRAND_RANGES) {
                *x = setting(from, range)?;
            }
        }
        Some(Self {
            strands,
            enabled: from.flag()?,
            target_lu: setting(from, DUCK_RANGES[0])?,
            overvoice_lu: setting(from, DUCK_RANGES[1])?,
            max_reduction_db: setting(from, DUCK_RANGES[2])?,
            speed: setting(from, DUCK_RANGES[3])?,
            bed_voice: from.flag()?,
        })
    }

    pub fn vad(&self, strand: usize) -> VadSettings {
        let [threshold, hold_ms, gate_lufs] = self.strands[strand];
        VadSettings {
            signal: String::new(),
            threshold,
            hold_ms,
            gate_lufs,
            detector: VadDetector::Features,
        }
    }

    pub fn duck(&self) -> Duck {
        Duck {
            id: String::new(),
            name: String::new(),
            enabled: self.enabled,
            keys: Vec::new(),
            targets: Vec::new(),
            mode: DuckMode::Ratio,
            depth_db: Db(0.0),
            attack_ms: 0.0,
            hold_ms: 0.0,
            release_ms: 0.0,
            ratio: Ratio {
                target_lu: self.target_lu,
                overvoice_lu: self.overvoice_lu,
                max_reduction_db: self.max_reduction_db,
                speed: self.speed,
                bed_voice: self.bed_voice,
            },
            channel_depth: ChannelDepth {
                front: 1.0,
                center: 1.0,
                lfe: 1.0,
                surround: 1.0,
            },
            recall_safe: false,
        }
    }
}

/// What an accepted frame answers.
#[derive(Debug, Clone, Copy)]
pub struct Answer {
    pub status: RatioStatus,
    pub reduction: f64,
    pub strands: [VadState; 2],
}

/// 0 release, 1 duck, 2 interview, 3 overvoice.
fn state_number(name: &str) -> u64 {
    let names = ["release", "duck", "interview", "overvoice"];
    names
        .iter()
        .position(|n| *n == name)
        .expect("a state of MixState") as u64
}

/// 13 words: state, unrounded reduction, reduction, slow, mid, fast, target; ratio,
/// dialogue and bed each as flag and value.
pub fn store_status(status: &RatioStatus, reduction: f64, to: &mut Words) {
    to.put(state_number(status.state));
    to.put_numbers(&[
        reduction,
        status.reduction_db,
        status.slow_db,
        status.mid_db,
        status.fast_db,
    ]);
    to.put_f64(status.target_lu);
    to.put_option(status.ratio_lu);
    to.put_option(status.dialogue_lufs);
    to.put_option(status.bed_lufs);
}

/// 14 words: active, probability, speech level as flag and value, level, momentary,
/// gated, short-term, onsets, offsets, over floor, modulation, voicing, anti.
pub fn store_vad(state: &VadState, to: &mut Words) {
    to.put_flag(state.speech_active);
    to.put_f64(state.speech_probability);
    to.put_option(state.speech_level_dbfs);
    to.put_numbers(&[state.level_dbfs, state.momentary_lufs]);
    to.put_flag(state.gated);
    to.put_f64(state.short_term_lufs);
    to.put_all(&[state.speech_onsets, state.speech_offsets]);
    let f = &state.features;
    to.put_numbers(&[f.over_floor_db, f.modulation_db, f.voicing, f.anti]);
}

impl Answer {
    /// 41 words: the status, the key, the bed.
    pub fn store(&self, to: &mut Words) {
        store_status(&self.status, self.reduction, to);
        self.strands.iter().for_each(|s| store_vad(s, to));
    }
}

/// The parts that a frame changes.
#[derive(Clone)]
struct Running {
    strands: [Vad; 2],
    ducker: State,
}

#[derive(Clone)]
pub struct Chain {
    settings: Settings,
    vad_settings: [VadSettings; 2],
    duck: Duck,
    layout: Layout,
    running: Running,
}

impl Default for Chain {
    fn default() -> Self {
        Self::new(Settings::default(), [Vad::default(), Vad::default()])
    }
}

impl Running {
    /// Key strand, bed strand, ducker. Of each strand 480 samples a channel, one channel
    /// after the other.
    fn frame(&mut self, samples: [&[f32]; 2], vads: &[VadSettings; 2], duck: &Duck) -> Answer {
        let mut readings = [Reading::default(); 2];
        for (i, strand) in self.strands.iter_mut().enumerate() {
            let (first, others) = samples[i].split_at(FRAME);
            let others: Vec<&[f32]> = others.chunks(FRAME).collect();
            strand.push(first, &others, &vads[i], |_, r| readings[i] = *r);
        }
        let [key, bed] = readings;
        let strands = [self.strands[0].state, self.strands[1].state];
        let inputs = Inputs {
            key_voice: strands[0].speech_active,
            target_voice: strands[1].speech_active,
            dialogue_short_term: key.short_term,
            bed_short_term: bed.short_term,
            bed_momentary: bed.momentary,
            bed_fast: bed.fast,
        };
        let reduction = self.ducker.frame(duck, &inputs);
        Answer {
            status: self.ducker.status,
            reduction,
            strands,
        }
    }
}

impl Chain {
    /// The bed has one channel, and the ducker is fresh.
    fn new(settings: Settings, strands: [Vad; 2]) -> Self {
        let duck = settings.duck();
        Self {
            settings,
            vad_settings: [settings.vad(0), settings.vad(1)],
            layout: Layout::default(),
            running: Running {
                strands,
                ducker: State::new(&duck),
            },
            duck,
        }
    }

    /// A frame as the Rust runs it, without tests and copies (for timing).
    pub fn frame_untested(&mut self, key: &[f32], bed: &[f32]) -> Answer {
        self.running
            .frame([key, bed], &self.vad_settings, &self.duck)
    }

    pub fn frame(&mut self, key: &[f32], bed: &[f32]) -> Result<Answer, Refusal> {
        if key.len() != FRAME || bed.len() != self.channels() * FRAME {
            return Err(SHORT_FRAME);
        }
        if !key.iter().chain(bed).all(|x| x.is_finite()) {
            return Err(BAD_SAMPLE);
        }
        let mut next = self.running.clone();
        standins::take_met();
        let answer = next.frame([key, bed], &self.vad_settings, &self.duck);
        let mut numbers = Words::default();
        next.store(&mut numbers);
        next.strands[BED].store_others(&mut numbers);
        answer.store(&mut numbers);
        if standins::take_met() || !numbers.finite {
            return Err(RUNAWAY);
        }
        if next
            .strands
            .iter()
            .any(|s| s.state.speech_onsets > u64::from(u32::MAX))
        {
            return Err(COUNTER_FULL);
        }
        self.running = next;
        Ok(answer)
    }

    pub fn set(&mut self, settings: Settings) -> Result<(), Refusal> {
        self.settings = settings.checked()?;
        self.vad_settings = [self.settings.vad(0), self.settings.vad(1)];
        self.duck = self.settings.duck();
        Ok(())
    }

    pub fn reset(&mut self, strand: u64) -> Result<(), Refusal> {
        if strand > 1 {
            return Err(NO_STRAND);
        }
        self.running.strands[strand as usize].reset();
        if strand as usize == BED {
            // The Rust's reset makes a level of one channel.
            self.fresh_bed_level();
        }
        Ok(())
    }

    pub fn set_layout(&mut self, places: &[PlaceWords]) -> Result<(), Refusal> {
        self.layout = Layout::new(places).ok_or(BAD_LAYOUT)?;
        self.fresh_bed_level();
        Ok(())
    }

    fn fresh_bed_level(&mut self) {
        self.running.strands[BED].fresh_level(self.layout.weights());
    }

    /// Channels of the bed.
    pub fn channels(&self) -> usize {
        self.layout.channels()
    }

    /// The payload words that both editions of the image have: settings, strands, loops.
    pub fn store(&self, to: &mut Words) {
        self.settings.store(to);
        self.running.store(to);
    }

    /// The chain of these words, with one channel straight ahead; none where one of them
    /// breaks an image rule. What no image holds is fresh: the next frame sets it before
    /// anything reads it.
    pub fn load(from: &mut Reader) -> Option<Self> {
        let settings = Settings::load(from)?;
        let mut chain = Self::new(settings, [Vad::load(from)?, Vad::load(from)?]);
        chain.running.ducker.set_numbers(from.numbers()?);
        Some(chain)
    }

    /// The 88 words that edition 2 adds: the layout, and seven channels from the second on.
    pub fn store_surround(&self, to: &mut Words) {
        self.layout.store(to);
        self.running.strands[BED].store_others(to);
        to.put_zeros(CHANNEL_WORDS * (MOST - self.channels()));
    }

    pub fn load_surround(&mut self, from: &mut Reader) -> Option<()> {
        self.layout = Layout::load(from)?;
        self.running.strands[BED].load_others(self.layout.weights(), from)?;
        from.zeros(CHANNEL_WORDS * (MOST - self.channels()))
    }
}

impl Running {
    fn store(&self, to: &mut Words) {
        self.strands.iter().for_each(|s| s.store(to));
        to.put_numbers(&self.ducker.numbers());
    }
}
