//! Images that no run saved, written place by place; and those of the kept list that the
//! rules allow.

use crate::calls::{frames, Bed, Call, Lent};
use crate::driver::Settings;
use crate::layout::{PlaceWords, MOST};
use crate::lists::{noise, silence, talker, thresholds};
use crate::restores::SAVE;
use crate::signals::*;
use crate::words::Words;

/// Places in a payload, from 0: the settings, the strands, the loops, the count of the
/// bed's channels, their places (three words each), the channels from the second on (nine
/// words each), the last zeros.
pub const SETTINGS: usize = 1;
pub const STRANDS: [usize; 2] = [13, 641];
pub const LOOPS: usize = 1_269;
pub const COUNT: usize = 1_273;
pub const PLACES: usize = 1_274;
pub const OTHERS: usize = 1_298;
pub const LAST: usize = 1_361;

/// Places in a strand's 628 words. A list's place is its count's, an option's its
/// flag's; a filter has four words.
pub const FAST: usize = 24;
pub const POWERS: usize = 25;
pub const DECIMATED: usize = 326;
pub const SMOOTHED: usize = 567;
pub const WINDOW_MIN: usize = 569;
pub const WINDOW_FRAMES: usize = 570;
pub const MINIMA: usize = 571;
pub const HISTORY: usize = 580;
pub const ACTIVE: usize = 621;
pub const PROBABILITY: usize = 622;
pub const ONSETS: usize = 623;
pub const OFFSETS: usize = 624;
pub const HOLD: usize = 625;
pub const POWER: usize = 626;

/// A strand as an image has it; the default is a fresh one's.
#[derive(Clone, Default)]
pub struct Strand {
    /// z1 and z2 of the shelf, the high-pass, the band pair, the pitch pair.
    pub filters: [[f64; 2]; 6],
    pub fast: f64,
    pub powers: Vec<f64>,
    pub decimated: Vec<f32>,
    pub smoothed: Option<f64>,
    /// Minimum and frames.
    pub window: (f64, u64),
    pub minima: Vec<f64>,
    pub history: Vec<f64>,
    pub active: bool,
    pub probability: f64,
    pub onsets: u64,
    pub hold: u64,
    pub power: Option<f64>,
}

fn put_list(list: &[f64], places: usize, to: &mut Words) {
    to.put(list.len() as u64);
    to.put_numbers(list);
    to.put_zeros(places - list.len());
}

impl Strand {
    fn store(&self, to: &mut Words) {
        for filter in &self.filters {
            to.put_numbers(filter);
            to.put_zeros(2);
        }
        to.put_f64(self.fast);
        put_list(&self.powers, 300, to);
        to.put(self.decimated.len() as u64);
        self.decimated.iter().for_each(|x| to.put_f32(*x));
        to.put_zeros(240 - self.decimated.len());
        to.put_option(self.smoothed);
        to.put_f64(self.window.0);
        to.put(self.window.1);
        put_list(&self.minima, 8, to);
        put_list(&self.history, 40, to);
        to.put_flag(self.active);
        to.put_f64(self.probability);
        let offsets = self.onsets - u64::from(self.active);
        to.put_all(&[self.onsets, offsets, self.hold]);
        to.put_option(self.power);
    }
}

/// A channel of the bed from the second on; the default is at rest, straight ahead.
#[derive(Clone, Copy, Default)]
pub struct Channel {
    pub place: PlaceWords,
    /// z1 and z2 of the shelf and the high-pass.
    pub filters: [[f64; 2]; 2],
    pub fast: f64,
}

/// A chain as an image has it; the default is a fresh one's.
#[derive(Clone, Default)]
pub struct Foreign {
    pub settings: Settings,
    pub strands: [Strand; 2],
    /// Slow, mid, fast and the hold remaining.
    pub loops: [f64; 4],
    /// Of the bed's channel 1.
    pub place: PlaceWords,
    pub others: Vec<Channel>,
}

impl Foreign {
    fn store_common(&self, edition: u64, to: &mut Words) {
        to.put(edition);
        self.settings.store(to);
        self.strands.iter().for_each(|s| s.store(to));
        to.put_numbers(&self.loops);
    }

    /// The 1,386 payload words of edition 2.
    pub fn payload(&self) -> Vec<u64> {
        let mut words = Words::default();
        self.store_common(2, &mut words);
        let unused = MOST - 1 - self.others.len();
        words.put(1 + self.others.len() as u64);
        words.put_all(&self.place);
        self.others.iter().for_each(|c| words.put_all(&c.place));
        words.put_zeros(3 * unused);
        for channel in &self.others {
            for filter in &channel.filters {
                words.put_numbers(filter);
                words.put_zeros(2);
            }
            words.put_f64(channel.fast);
        }
        words.put_zeros(9 * unused);
        words.put_zeros(25);
        words.words
    }

    /// The 1,323 payload words of edition 1, which has no layout.
    pub fn payload_one(&self) -> Vec<u64> {
        let mut words = Words::default();
        self.store_common(1, &mut words);
        words.put_zeros(50);
        words.words
    }
}

/// A restore of a foreign image, `count` frames, a save.
pub fn heard(foreign: Foreign, key: Signal, bed: impl Into<Bed>, count: u64) -> [Call; 3] {
    [
        Call::Restore(Lent::Payload(foreign.payload())),
        frames(key, bed, 4_800, count),
        SAVE,
    ]
}

/// Every list full or one short of it, the window one frame short, the longest hold.
fn full() -> Foreign {
    let slope = |count: usize, x: f64| (0..count).map(|i| i as f64 * x).collect::<Vec<_>>();
    let key = Strand {
        filters: [[1e-3, -1e-3]; 6],
        fast: 1e-2,
        powers: slope(300, 1e-4),
        decimated: (0..240).map(|i| (i % 50) as f32 / 500.0 - 0.05).collect(),
        smoothed: Some(-40.0),
        window: (-70.0, 24),
        minima: slope(8, -9.0),
        history: slope(40, -1.5),
        active: true,
        probability: 0.7,
        onsets: 7,
        hold: 6_000,
        power: Some(0.01),
    };
    let bed = Strand {
        powers: slope(299, 1e-5),
        decimated: vec![0.25; 239],
        smoothed: None,
        window: (-30.0, 23),
        minima: slope(7, -10.0),
        history: slope(39, -2.0),
        active: false,
        hold: 1,
        ..key.clone()
    };
    Foreign {
        settings: thresholds(1.0, 1.0),
        strands: [key, bed],
        loops: [6.0, -2.0, 1.0, 0.8],
        ..Foreign::default()
    }
}

/// The key fresh but for some places, the bed fresh; speech is off at any probability
/// below 1.
fn with_key(key: Strand) -> Foreign {
    Foreign {
        settings: thresholds(1.0, 1.0),
        strands: [key, Strand::default()],
        ..Foreign::default()
    }
}

fn with_loops(settings: Settings, loops: [f64; 4]) -> Foreign {
    Foreign {
        settings,
        loops,
        ..Foreign::default()
    }
}

/// Each number of a strand that is no count and no flag.
fn all_numbers(x: f64, sample: f32) -> Strand {
    Strand {
        filters: [[x; 2]; 6],
        fast: x,
        powers: vec![x; 3],
        decimated: vec![sample; 180],
        smoothed: Some(x),
        window: (x, 1),
        minima: vec![x; 2],
        history: vec![x; 5],
        probability: x,
        power: Some(x),
        ..Strand::default()
    }
}

/// Powers below 0, which read -100; the speech level is shown with speech off; the
/// smoothed level is above 0 dB, and the empty window's minimum doesn't count.
fn below_zero(powers: Vec<f64>, power: f64) -> Strand {
    Strand {
        fast: -1.0,
        powers,
        smoothed: Some(300.0),
        power: Some(power),
        ..Strand::default()
    }
}

/// Numbers that are huge and from which the next frame still passes.
fn huge() -> Strand {
    let mut filters = [[0.0; 2]; 6];
    filters[0] = [1e100, -1e100];
    let square = |i| if i % 40 < 20 { f32::MAX } else { f32::MIN };
    Strand {
        filters,
        fast: f64::MAX,
        decimated: (0..240).map(square).collect(),
        smoothed: Some(1e300),
        window: (1e300, 3),
        minima: vec![-1e300],
        history: vec![1e100],
        probability: f64::MIN,
        power: Some(f64::MAX),
        ..Strand::default()
    }
}

/// These powers, the rest fresh.
fn holding(powers: Vec<f64>) -> Strand {
    Strand {
        powers,
        ..Strand::default()
    }
}

/// `count` powers in each strand, no two alike.
fn short(count: usize) -> Foreign {
    let falling = |x: f64| holding((1..=count).map(|i| x / i as f64).collect());
    Foreign {
        strands: [falling(0.3), falling(0.01)],
        ..Foreign::default()
    }
}

/// How many powers are held before a frame: around those at which a mean has all its frames.
const SHORT: [usize; 8] = [1, 2, 38, 39, 40, 41, 298, 299];

/// Images with strange words that the rules allow, and frames after them: lists nearly
/// full, loops whose total rises in a release, an interview, huge loops, powers below 0,
/// the smallest numbers, zeros with a minus, huge numbers, means over fewer frames.
fn strange() -> Vec<Call> {
    let silent = |foreign, count| heard(foreign, silence(), silence(), count);
    let interview = |loops| {
        let foreign = with_loops(thresholds(1.0, 0.0), loops);
        heard(foreign, silence(), noise(LOW), 1)
    };
    let trap = with_loops(thresholds(1.0, 1.0), [0.0, -3.0, 2.0, -0.5]);
    let minus = Signal::new(SILENCE, 0, -1.0);
    let zeros = Foreign {
        loops: [-0.0; 4],
        ..with_key(all_numbers(-0.0, -0.0))
    };
    let least = all_numbers(f64::from_bits(1), f32::from_bits(1));
    [
        heard(full(), talker(), noise(LOW), 2),
        silent(trap, 2),
        interview([1.0, -3.0, 2.0, 0.3]),
        interview([1e306, -1e306, -1e300, f64::MAX]),
        silent(with_key(below_zero(vec![-1.0; 5], -0.5)), 1),
        silent(with_key(below_zero(vec![f64::MIN; 2], 0.01)), 1),
        silent(with_key(least), 1),
        heard(zeros, minus, minus, 2),
        silent(with_key(huge()), 1),
        silent(with_key(holding(vec![1.7e308])), 1),
    ]
    .into_iter()
    .chain(SHORT.map(|count| heard(short(count), talker(), noise(LOW), 1)))
    .flatten()
    .collect()
}

/// Images with numbers that are finite and from which the next frame runs away, each in
/// its own way; then what lets the chain go on.
fn runaways() -> Vec<Call> {
    let key = |strand| Call::Restore(Lent::Payload(with_key(strand).payload()));
    let one = || frames(silence(), silence(), 0, 1);
    let fresh = Strand::default;
    let filters = |filter: usize, z| {
        let mut out = fresh();
        out.filters[filter][0] = z;
        out
    };
    let runs_away = [
        filters(1, 1e200),
        filters(5, 1e60),
        holding(vec![f64::MAX; 2]),
        Strand {
            minima: vec![-1e307],
            ..fresh()
        },
        Strand {
            history: vec![1e200],
            ..fresh()
        },
    ];
    let mut out: Vec<Call> = runs_away
        .into_iter()
        .flat_map(|s| [key(s), one()])
        .collect();
    let loops = with_loops(Settings::default(), [0.0, 1e307, 0.0, 0.0]);
    out.extend([
        SAVE,
        Call::Reset(0),
        one(),
        Call::Restore(Lent::Payload(loops.payload())),
        one(),
        Call::Set(Settings {
            enabled: false,
            ..Settings::default()
        }),
        one(),
        SAVE,
    ]);
    out
}

/// Refusal 5: at the last onset a further one is refused, after a runaway of the other
/// strand is.
fn counters() -> Vec<Call> {
    let most = u64::from(u32::MAX);
    let image = |active, z1| {
        let mut foreign = Foreign::default();
        foreign.settings = thresholds(1.0, 0.0);
        foreign.strands[0].filters[0][0] = z1;
        foreign.strands[1].active = active;
        foreign.strands[1].onsets = most;
        Call::Restore(Lent::Payload(foreign.payload()))
    };
    let one = || frames(silence(), noise(LOW), 0, 1);
    vec![
        image(false, 1e200),
        one(),
        image(false, 0.0),
        one(),
        Call::Set(thresholds(1.0, 1.0)),
        one(),
        image(true, 0.0),
        one(),
        Call::Reset(1),
        one(),
        SAVE,
    ]
}

/// The restores of allowed foreign images, with what follows them.
pub fn kept() -> Vec<Call> {
    [strange(), runaways(), counters()].concat()
}
