impl State {
    pub fn numbers(&self) -> [f64; 2] {
        [self.z1, self.z2]
    }

    /// The four words of an image: z1, z2 and two zeros.
    pub fn store(&self, to: &mut crate::words::Words) {
        to.put_numbers(&self.numbers());
        to.put_zeros(2);
    }

    pub fn load(from: &mut crate::words::Reader) -> Option<Self> {
        let [z1, z2] = from.numbers()?;
        from.zeros(2)?;
        Some(Self { z1, z2 })
    }
}
