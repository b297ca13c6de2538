impl State {
    /// Slow, mid, fast and the hold remaining.
    pub fn numbers(&self) -> [f64; 4] {
        self.engine.numbers()
    }

    pub fn set_numbers(&mut self, numbers: [f64; 4]) {
        self.engine.set_numbers(numbers);
    }
}
