impl Level {
    pub fn fast_coeff(&self) -> f64 {
        self.fast_coeff
    }

    /// Shelf and high-pass of channel 1.
    pub fn store_filters(&self, to: &mut crate::words::Words) {
        self.filters[0].iter().for_each(|f| f.store(to));
    }

    /// The fast mean square of channel 1, the count of powers and 300 places.
    pub fn store_powers(&self, to: &mut crate::words::Words) {
        to.put_f64(self.fast[0]);
        to.put(self.frames.len() as u64);
        self.frames.iter().for_each(|p| to.put_f64(*p));
        to.put_zeros(SHORT_TERM - self.frames.len());
    }

    /// Nine words for each channel from the second on: shelf, high-pass, fast.
    pub fn store_others(&self, to: &mut crate::words::Words) {
        for (filters, fast) in self.filters.iter().zip(&self.fast).skip(1) {
            filters.iter().for_each(|f| f.store(to));
            to.put_f64(*fast);
        }
    }

    pub fn load_filters(&mut self, from: &mut crate::words::Reader) -> Option<()> {
        for filter in &mut self.filters[0] {
            *filter = State::load(from)?;
        }
        Some(())
    }

    pub fn load_powers(&mut self, from: &mut crate::words::Reader) -> Option<()> {
        self.fast[0] = from.f64()?;
        self.frames = from.list(SHORT_TERM, crate::words::Reader::f64)?;
        Some(())
    }

    /// Makes a level of channels with these weights of one that has channel 1 alone.
    pub fn load_others(&mut self, weights: Vec<f64>, from: &mut crate::words::Reader) -> Option<()> {
        for _ in 1..weights.len() {
            self.filters.push([State::load(from)?, State::load(from)?]);
            self.fast.push(from.f64()?);
        }
        self.weights = weights;
        Some(())
    }
}
