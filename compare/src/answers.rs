//! The Rust's answers to calls as the program `replay` reads them. A restore sets the
//! Rust's fields from the image, also where the list itself saved it.

use std::io::{self, Read, Write};

use crate::driver::{Answer, Chain, Refusal, Settings};
use crate::words::Words;

/// Calls that are read one after the other.
struct Input<R>(R);

impl<R: Read> Input<R> {
    fn bytes(&mut self, count: usize) -> io::Result<Vec<u8>> {
        let mut out = vec![0; count];
        self.0.read_exact(&mut out)?;
        Ok(out)
    }

    fn count(&mut self) -> io::Result<usize> {
        let bytes = self.bytes(4)?.try_into().expect("4 bytes");
        Ok(u32::from_le_bytes(bytes) as usize)
    }

    fn words<const N: usize>(&mut self) -> io::Result<[u64; N]> {
        let bytes = self.bytes(8 * N)?;
        let word = |i: usize| bytes[8 * i..8 * i + 8].try_into().expect("8 bytes");
        Ok(std::array::from_fn(|i| u64::from_le_bytes(word(i))))
    }

    fn samples(&mut self, count: usize) -> io::Result<Vec<f32>> {
        let number = |b: &[u8]| f32::from_le_bytes(b.try_into().expect("4 bytes"));
        Ok(self.bytes(4 * count)?.chunks(4).map(number).collect())
    }
}

/// Settings of 12 words in the image's order, in range or not; a flag is 0 or not.
fn settings(w: [u64; 12]) -> Settings {
    let x = w.map(f64::from_bits);
    Settings {
        strands: [[x[0], x[1], x[2]], [x[3], x[4], x[5]]],
        enabled: w[6] != 0,
        target_lu: x[7],
        overvoice_lu: x[8],
        max_reduction_db: x[9],
        speed: x[10],
        bed_voice: w[11] != 0,
    }
}

fn nothing(done: Result<(), Refusal>) -> Result<Vec<u8>, Refusal> {
    done.map(|()| Vec::new())
}

fn framed(done: Result<Answer, Refusal>) -> Result<Vec<u8>, Refusal> {
    done.map(|answer| {
        let mut words = Words::default();
        answer.store(&mut words);
        words.bytes()
    })
}

/// Answers each call before the next is read.
pub fn answer(input: impl Read, mut output: impl Write) -> io::Result<()> {
    let mut input = Input(input);
    let mut chain = Chain::default();
    let mut letter = [0];
    while input.0.read(&mut letter)? > 0 {
        let done = match letter[0] {
            b'F' => {
                let [key, bed] = [input.count()?, input.count()?];
                let [key, bed] = [input.samples(key)?, input.samples(bed)?];
                framed(chain.frame(&key, &bed))
            }
            b'S' => nothing(chain.set(settings(input.words()?))),
            b'R' => nothing(chain.reset(input.words::<1>()?[0])),
            b'B' => {
                let count = input.count()?;
                let places: io::Result<Vec<_>> = (0..count).map(|_| input.words()).collect();
                nothing(chain.set_layout(&places?))
            }
            b'V' => chain.save(input.count()?),
            b'L' => {
                let length = input.count()?;
                nothing(chain.restore(&input.bytes(length)?))
            }
            other => {
                let words = format!("there is no call {:?}", char::from(other));
                return Err(io::Error::other(words));
            }
        };
        let (code, more) = match done {
            Ok(more) => (0, more),
            Err(refusal) => (refusal, Vec::new()),
        };
        output.write_all(&code.to_le_bytes())?;
        output.write_all(&more)?;
        output.flush()?;
    }
    Ok(())
}
