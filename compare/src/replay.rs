//! Lists of calls as the program `replay` reads them, and the Rust's answers as it
//! writes them. crates/replay/src/main.rt has the form of both.

use crate::calls::{strands, Call, FRAME};
use crate::driver::{Answer, Chain, Refusal};
use crate::image;
use crate::mixed;
use crate::random::Random;
use crate::words::Words;

/// What goes in and what has to come out.
#[derive(Default)]
pub struct Replayed {
    pub calls: Vec<u8>,
    pub answers: Vec<u8>,
}

impl Replayed {
    fn call(&mut self, letter: u8, words: &Words) {
        self.calls.push(letter);
        self.calls.extend(words.bytes());
    }

    fn frame(&mut self, chain: &mut Chain, key: &[f32], bed: &[f32]) {
        self.calls.push(b'F');
        for strand in [key, bed] {
            let count = u32::try_from(strand.len()).expect("a count of 32 bits");
            self.calls.extend(count.to_le_bytes());
        }
        for x in key.iter().chain(bed) {
            self.calls.extend(x.to_le_bytes());
        }
        self.answer(chain.frame(key, bed), Answer::store);
    }

    /// The letter and a count, which is 32 bits wide.
    fn counted_call(&mut self, letter: u8, count: usize) {
        let count = u32::try_from(count).expect("a count of 32 bits");
        self.calls.push(letter);
        self.calls.extend(count.to_le_bytes());
    }

    /// 0 and what `store` puts, or the refusal's number.
    fn answer<T>(&mut self, got: Result<T, Refusal>, store: impl Fn(&T, &mut Words)) {
        let mut words = Words::default();
        match got {
            Ok(answer) => {
                words.put(0);
                store(&answer, &mut words);
            }
            Err(refusal) => words.put(refusal),
        }
        self.answers.extend(words.bytes());
    }
}

/// What the accepted saves of a list wrote, and what the Rust was at each.
#[derive(Default)]
struct Saves {
    images: Vec<Vec<u8>>,
    chains: Vec<Chain>,
}

impl Saves {
    /// A save; what was saved comes back by a restore.
    fn save(&mut self, chain: &Chain, length: usize) -> Result<Vec<u8>, Refusal> {
        let image = chain.save(length)?;
        let mut read = Chain::default();
        assert_eq!(read.restore(&image), Ok(()), "a saved image is refused");
        assert_eq!(read.image(), image, "a saved image comes back as another");
        self.images.push(image.clone());
        self.chains.push(chain.clone());
        Ok(image)
    }

    /// A restore of what the list saved goes back to what the Rust was then; any other
    /// image is read.
    fn restore(&self, chain: &mut Chain, bytes: &[u8]) -> Result<(), Refusal> {
        if let Some(number) = self.images.iter().position(|image| image == bytes) {
            *chain = self.chains[number].clone();
            return Ok(());
        }
        chain.restore(bytes)?;
        let again = image::saved_again(bytes);
        assert_eq!(chain.image(), again, "an accepted image is another's");
        Ok(())
    }
}

/// A list on one chain: `Fresh` comes first, if at all. Every frame is answered whole.
pub fn run(calls: &[Call]) -> Replayed {
    let mut out = Replayed::default();
    let mut chain = Chain::default();
    let mut saves = Saves::default();
    for call in calls {
        match call {
            Call::Fresh => assert!(out.calls.is_empty(), "replay has one chain"),
            Call::Frames {
                key,
                bed,
                first,
                count,
                ..
            } => {
                for i in 0..*count {
                    let at = first + i * FRAME as u64;
                    let [key, bed] = strands(key, bed, chain.channels(), at);
                    out.frame(&mut chain, &key, &bed);
                }
            }
            Call::Odd { .. } => {
                let ([key, bed], _) = call.odd_strands(chain.channels());
                out.frame(&mut chain, &key, &bed);
            }
            Call::Set(settings) => {
                let mut words = Words::default();
                settings.store(&mut words);
                out.call(b'S', &words);
                out.answer(chain.set(*settings), |_, _| ());
            }
            Call::Reset(strand) => {
                let mut words = Words::default();
                words.put(*strand);
                out.call(b'R', &words);
                out.answer(chain.reset(*strand), |_, _| ());
            }
            Call::Layout(places) => {
                out.counted_call(b'B', places.len());
                let words = places.iter().flatten();
                out.calls.extend(words.flat_map(|w| w.to_le_bytes()));
                out.answer(chain.set_layout(places), |_, _| ());
            }
            Call::Save(length) => {
                out.counted_call(b'V', *length);
                out.answer(saves.save(&chain, *length), |image, to| {
                    to.put_all(&image::words(image));
                });
            }
            Call::Restore(lent) => {
                let bytes = lent.bytes(&saves.images);
                out.counted_call(b'L', bytes.len());
                out.calls.extend(&bytes);
                out.answer(saves.restore(&mut chain, &bytes), |_, _| ());
            }
        }
    }
    out
}

/// The list that is kept as crates/replay/stdin, with its answers.
pub fn kept() -> Replayed {
    run(&mixed::kept())
}

/// A random list of at least `count` calls.
pub fn random(seed: u64, count: u64) -> Replayed {
    run(&mixed::random_list(&mut Random::new(seed), count))
}
