//! Lists of 64-bit words: written, and read back by the image's rules; and
//! recorded files: a head of 256 bytes of text, then little-endian words.

use std::collections::VecDeque;

pub const HEAD: usize = 256;

/// Words, and whether every number put among them is finite.
pub struct Words {
    pub words: Vec<u64>,
    pub finite: bool,
}

impl Default for Words {
    fn default() -> Self {
        Self {
            words: Vec::new(),
            finite: true,
        }
    }
}

impl Words {
    pub fn put(&mut self, word: u64) {
        self.words.push(word);
    }

    pub fn put_all(&mut self, words: &[u64]) {
        self.words.extend_from_slice(words);
    }

    pub fn put_f64(&mut self, x: f64) {
        self.finite &= x.is_finite();
        self.put(x.to_bits());
    }

    pub fn put_numbers(&mut self, numbers: &[f64]) {
        numbers.iter().for_each(|x| self.put_f64(*x));
    }

    pub fn put_f32(&mut self, x: f32) {
        self.finite &= x.is_finite();
        self.put(u64::from(x.to_bits()));
    }

    pub fn put_flag(&mut self, flag: bool) {
        self.put(u64::from(flag));
    }

    /// A flag and the value's bits; 0 and 0 where there is none.
    pub fn put_option(&mut self, x: Option<f64>) {
        self.put_flag(x.is_some());
        self.put_f64(x.unwrap_or(0.0));
    }

    pub fn put_zeros(&mut self, count: usize) {
        self.words.resize(self.words.len() + count, 0);
    }

    pub fn bytes(&self) -> Vec<u8> {
        self.words.iter().flat_map(|w| w.to_le_bytes()).collect()
    }

    /// The file: `text` padded with spaces to 255 bytes, a newline, the words.
    pub fn file(&self, text: &str) -> Vec<u8> {
        assert!(
            text.is_ascii() && text.len() < HEAD,
            "head of {} bytes: {text}",
            text.len()
        );
        let mut bytes = format!("{text:<255}\n").into_bytes();
        bytes.extend(self.bytes());
        bytes
    }
}

/// Words that are read one after the other. None: a word breaks an image rule.
pub struct Reader<'a> {
    left: &'a [u64],
}

impl<'a> Reader<'a> {
    pub fn new(words: &'a [u64]) -> Self {
        Self { left: words }
    }

    pub fn is_empty(&self) -> bool {
        self.left.is_empty()
    }

    /// Any word.
    pub fn word(&mut self) -> Option<u64> {
        let (first, left) = self.left.split_first()?;
        self.left = left;
        Some(*first)
    }

    /// A whole number of 0 to `most`.
    pub fn whole(&mut self, most: u64) -> Option<u64> {
        self.word().filter(|w| *w <= most)
    }

    /// 0 or 1.
    pub fn flag(&mut self) -> Option<bool> {
        Some(self.whole(1)? == 1)
    }

    pub fn zeros(&mut self, count: usize) -> Option<()> {
        (0..count).try_for_each(|_| self.whole(0).map(|_| ()))
    }

    /// An f64 by its bits; it is finite.
    pub fn f64(&mut self) -> Option<f64> {
        self.word().map(f64::from_bits).filter(|x| x.is_finite())
    }

    pub fn numbers<const N: usize>(&mut self) -> Option<[f64; N]> {
        let mut out = [0.0; N];
        for x in &mut out {
            *x = self.f64()?;
        }
        Some(out)
    }

    /// An f32 by its bits in the low half, the high half zero; it is finite.
    pub fn f32(&mut self) -> Option<f32> {
        let bits = self.whole(u64::from(u32::MAX))? as u32;
        Some(f32::from_bits(bits)).filter(|x| x.is_finite())
    }

    /// A flag and a value; the value behind a 0 flag is zero.
    pub fn option(&mut self) -> Option<Option<f64>> {
        if self.flag()? {
            return self.f64().map(Some);
        }
        self.zeros(1)?;
        Some(None)
    }

    /// A count of 0 to `places` and that many places: values, then zeros.
    pub fn list<T>(
        &mut self,
        places: usize,
        value: impl Fn(&mut Self) -> Option<T>,
    ) -> Option<VecDeque<T>> {
        let count = self.whole(places as u64)? as usize;
        let list = (0..count)
            .map(|_| value(self))
            .collect::<Option<VecDeque<T>>>()?;
        self.zeros(places - count)?;
        Some(list)
    }
}
