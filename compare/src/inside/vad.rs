/// What the specification's image holds of a detector, and copies of it.
pub trait Inside {
    fn copy(&self) -> Box<dyn Detector>;
    fn store_filters(&self, to: &mut crate::words::Words);
    fn store_rest(&self, to: &mut crate::words::Words);
}

impl Clone for Box<dyn Detector> {
    fn clone(&self) -> Self {
        self.copy()
    }
}

impl FeatureDetector {
    /// The band pair, then the pitch pair.
    pub fn coefficients(&self) -> [Coefficients; 4] {
        [self.band[0], self.band[1], self.pitch[0], self.pitch[1]]
    }
}

/// As the specification asks, both have the coefficients of one table.
impl Default for FeatureDetector {
    fn default() -> Self {
        let formula = Self::by_formula();
        let c = crate::constants::table().unwrap_or(formula.coefficients());
        Self { band: [c[0], c[1]], pitch: [c[2], c[3]], ..formula }
    }
}

fn store_list(list: &VecDeque<f64>, places: usize, to: &mut crate::words::Words) {
    to.put(list.len() as u64);
    list.iter().for_each(|x| to.put_f64(*x));
    to.put_zeros(places - list.len());
}

impl Inside for FeatureDetector {
    fn copy(&self) -> Box<dyn Detector> {
        Box::new(self.clone())
    }

    fn store_filters(&self, to: &mut crate::words::Words) {
        self.band_state.iter().chain(&self.pitch_state).for_each(|f| f.store(to));
    }

    /// The latest 240 decimated samples; an empty window has no minimum.
    fn store_rest(&self, to: &mut crate::words::Words) {
        let count = self.decimated.len().min(PITCH_WINDOW);
        to.put(count as u64);
        self.decimated.iter().skip(self.decimated.len() - count).for_each(|x| to.put_f32(*x));
        to.put_zeros(PITCH_WINDOW - count);
        to.put_option(self.smoothed_db);
        to.put_f64(if self.window_frames == 0 { 0.0 } else { self.window_min });
        to.put(self.window_frames as u64);
        store_list(&self.minima, FLOOR_WINDOWS, to);
        store_list(&self.history, MODULATION_FRAMES, to);
    }
}

impl FeatureDetector {
    pub fn load_filters(&mut self, from: &mut crate::words::Reader) -> Option<()> {
        for filter in self.band_state.iter_mut().chain(&mut self.pitch_state) {
            *filter = State::load(from)?;
        }
        Some(())
    }

    /// An image has at most 240 of the Rust's 300 decimated samples; the older ones
    /// aren't read. An empty window's minimum is zero there, infinite here.
    pub fn load_rest(&mut self, from: &mut crate::words::Reader) -> Option<()> {
        self.decimated = from.list(PITCH_WINDOW, crate::words::Reader::f32)?;
        self.smoothed_db = from.option()?;
        self.window_min = from.f64()?;
        self.window_frames = from.whole(FLOOR_WINDOW as u64 - 1)? as usize;
        if self.window_frames == 0 {
            if self.window_min.to_bits() != 0 {
                return None;
            }
            self.window_min = f64::INFINITY;
        }
        self.minima = from.list(FLOOR_WINDOWS, crate::words::Reader::f64)?;
        self.history = from.list(MODULATION_FRAMES, crate::words::Reader::f64)?;
        Some(())
    }
}

/// Frames: the hold of the longest hold_ms, 60,000.
const HOLD_MOST: u64 = 6_000;

impl Vad {
    /// Frames left in the hold, and the speech power.
    pub fn hold_and_power(&self) -> (u32, Option<f64>) {
        (self.hold, self.speech_power)
    }

    /// The 628 words of the image.
    pub fn store(&self, to: &mut crate::words::Words) {
        self.level.store_filters(to);
        self.detector.store_filters(to);
        self.level.store_powers(to);
        self.detector.store_rest(to);
        to.put_flag(self.state.speech_active);
        to.put_f64(self.state.speech_probability);
        to.put_all(&[self.state.speech_onsets, self.state.speech_offsets, u64::from(self.hold)]);
        to.put_option(self.speech_power);
    }

    /// The strand of 628 words. What no image holds is as in a fresh strand, but for the
    /// speech level, which is worked out from the speech power as `Vad::frame` does.
    pub fn load(from: &mut crate::words::Reader) -> Option<Self> {
        let mut level = super::level::Level::new(vec![1.0]);
        let mut detector = FeatureDetector::default();
        level.load_filters(from)?;
        detector.load_filters(from)?;
        level.load_powers(from)?;
        detector.load_rest(from)?;
        let mut vad = Self::new(Box::new(detector));
        vad.level = level;
        let state = &mut vad.state;
        state.speech_active = from.flag()?;
        state.speech_probability = from.f64()?;
        state.speech_onsets = from.whole(u64::from(u32::MAX))?;
        state.speech_offsets = from.word()?;
        let active = u64::from(state.speech_active);
        if state.speech_onsets.checked_sub(active) != Some(state.speech_offsets) {
            return None;
        }
        vad.hold = from.whole(HOLD_MOST)? as u32;
        vad.speech_power = from.option()?;
        vad.state.speech_level_dbfs = vad
            .speech_power
            .map(|mean| (db(mean) * 10.0).doc_round() / 10.0);
        Some(vad)
    }

    /// A fresh level of channels with these weights; all else stays.
    pub fn fresh_level(&mut self, weights: Vec<f64>) {
        self.level = super::level::Level::new(weights);
    }

    /// The words of the channels from the second on.
    pub fn store_others(&self, to: &mut crate::words::Words) {
        self.level.store_others(to);
    }

    pub fn load_others(&mut self, weights: Vec<f64>, from: &mut crate::words::Reader) -> Option<()> {
        self.level.load_others(weights, from)
    }
}
