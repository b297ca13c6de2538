//! The bed's layout: the place of each channel, and its weight in the bed's loudness
//! (BS.1770-4).

use crate::words::{Reader, Words};

/// Channels of a bed, at most.
pub const MOST: usize = 8;

/// Azimuth and elevation in degrees, in two's complement, and the LFE flag, as a call or
/// an image brings them.
pub type PlaceWords = [u64; 3];

#[derive(Debug, Clone, Copy, PartialEq, Eq)]
struct Place {
    azimuth: i64,
    elevation: i64,
    lfe: bool,
}

impl Place {
    /// None: an angle or the flag is out of its range, an LFE's angle too.
    fn new([azimuth, elevation, lfe]: PlaceWords) -> Option<Self> {
        let [azimuth, elevation] = [azimuth as i64, elevation as i64];
        let within = (-180..=180).contains(&azimuth) && (-90..=90).contains(&elevation);
        (within && lfe <= 1).then_some(Self {
            azimuth,
            elevation,
            lfe: lfe == 1,
        })
    }

    /// As it is stored: an LFE has no angles.
    fn stored(self) -> Self {
        match self.lfe {
            true => Self {
                azimuth: 0,
                elevation: 0,
                lfe: true,
            },
            false => self,
        }
    }

    fn weight(self) -> f64 {
        let beside = (60..=120).contains(&self.azimuth.abs()) && self.elevation.abs() < 30;
        match (self.lfe, beside) {
            (true, _) => 0.0,
            (false, true) => 1.41,
            (false, false) => 1.0,
        }
    }

    fn words(self) -> PlaceWords {
        [
            self.azimuth as u64,
            self.elevation as u64,
            u64::from(self.lfe),
        ]
    }
}

/// The weight of a channel at this place; none where it is out of range.
pub fn weight(place: PlaceWords) -> Option<f64> {
    Place::new(place).map(Place::weight)
}

/// 1 to 8 channels.
#[derive(Debug, Clone, PartialEq, Eq)]
pub struct Layout {
    places: Vec<Place>,
}

impl Default for Layout {
    /// A fresh chain's: one channel, straight ahead.
    fn default() -> Self {
        Self::new(&[[0; 3]]).expect("0, 0 is in range")
    }
}

impl Layout {
    /// As a layout call stores it.
    pub fn new(places: &[PlaceWords]) -> Option<Self> {
        if places.is_empty() || places.len() > MOST {
            return None;
        }
        let stored = |place: &PlaceWords| Place::new(*place).map(Place::stored);
        let places = places.iter().map(stored).collect::<Option<_>>()?;
        Some(Self { places })
    }

    pub fn channels(&self) -> usize {
        self.places.len()
    }

    pub fn weights(&self) -> Vec<f64> {
        self.places.iter().map(|p| p.weight()).collect()
    }

    /// 25 words of an image: the count and eight places.
    pub fn store(&self, to: &mut Words) {
        to.put(self.places.len() as u64);
        self.places.iter().for_each(|p| to.put_all(&p.words()));
        to.put_zeros(3 * (MOST - self.places.len()));
    }

    pub fn load(from: &mut Reader) -> Option<Self> {
        let mut places = Vec::new();
        let count = from.whole(MOST as u64).filter(|n| *n > 0)? as usize;
        for _ in 0..count {
            let place = Place::new([from.word()?, from.word()?, from.word()?])?;
            places.push(Some(place).filter(|p| *p == p.stored())?);
        }
        from.zeros(3 * (MOST - count))?;
        Some(Self { places })
    }
}
