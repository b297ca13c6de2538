impl AutomixEngine {
    pub fn numbers(&self) -> [f64; 4] {
        self.loops.numbers()
    }

    pub fn set_numbers(&mut self, numbers: [f64; 4]) {
        self.loops.set_numbers(numbers);
    }
}
