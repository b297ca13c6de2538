impl LoopBank {
    /// Slow, mid, fast and the hold remaining.
    pub fn numbers(&self) -> [f64; 4] {
        [self.slow.value(), self.mid.value(), self.fast.value(), self.hold_remaining_seconds]
    }

    pub fn set_numbers(&mut self, [slow, mid, fast, hold]: [f64; 4]) {
        self.slow.reset(slow);
        self.mid.reset(mid);
        self.fast.reset(fast);
        self.hold_remaining_seconds = hold;
    }
}
