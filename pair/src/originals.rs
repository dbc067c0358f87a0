//! The originals in an index, and what it says of a placeholder.

use crate::reduce::{Grey, Grid};
use finder::{Error, Finder, Hit, Scratch, MAX_CAPACITY};
use std::collections::HashMap;

/// How the index is built and searched; the README has what was measured.
#[derive(Clone, Copy, Debug)]
pub struct Settings {
    pub degree: u32,
    pub alpha: f32,
    pub insert_beam: u32,
    pub search_beam: u32,
}

pub const SETTINGS: Settings = Settings { degree: 64, alpha: 1.2, insert_beam: 128, search_beam: 64 };

/// The most originals that one index holds.
pub const MOST: usize = MAX_CAPACITY as usize;

/// The originals. Those whose grey values are all equal share one slot, with the figure number of the first, so that no two slots are at distance 0.
pub struct Originals {
    index: Finder,
    scratch: Scratch,
    settings: Settings,
    grid: Grid,
    slots: HashMap<Grey, u32>,
    alike: Vec<Vec<usize>>,
    /// The slots that a search for their own grey values does not find, once that was tried (`missed`): they are compared with every placeholder.
    missed: Vec<u32>,
}

/// What a search found.
#[derive(Clone, Copy, Debug, PartialEq, Eq)]
pub struct Found {
    /// The nearest original; of several that look the same, the first.
    pub original: usize,
    /// Its figure number.
    pub number: u32,
    pub distance: u32,
    /// How many originals look the same as the nearest, itself counted.
    pub alike: usize,
    /// The next original and its distance: one that looks the same, or else the second nearest.
    pub second: Option<(usize, u32)>,
}

/// Whether a pairing can be relied upon.
#[derive(Clone, Copy, Debug, PartialEq, Eq)]
pub enum Verdict {
    Sure,
    /// Several originals have the same grey values.
    Alike(usize),
    /// A sheet of one grey is less than twice as far from the placeholder as the original is.
    Unlike,
    /// The second is less than twice as far as the first.
    SecondNear,
    /// The walk found one original of several, so that there is nothing to compare it with.
    SecondMissing,
}

impl Verdict {
    /// Sure where the original is the only one that explains the placeholder: its distance is less than half that of the second original, and less than half
    /// that of a blank sheet (as lengths; the distances here are squares, so a quarter).
    pub fn of(grid: Grid, placeholder: &[u8], found: &Found, originals: usize) -> Verdict {
        let four_times = 4 * u64::from(found.distance);
        match found.second {
            _ if found.alike > 1 => Verdict::Alike(found.alike),
            _ if grid.sum_of_weights() * four_times >= grid.contrast(placeholder) => Verdict::Unlike,
            Some((_, second)) if four_times >= u64::from(second) => Verdict::SecondNear,
            None if originals > 1 => Verdict::SecondMissing,
            _ => Verdict::Sure,
        }
    }

    pub fn is_sure(self) -> bool {
        self == Verdict::Sure
    }

    /// In words.
    pub fn text(self) -> String {
        match self {
            Verdict::Sure => "sure".into(),
            Verdict::Alike(count) => format!("not sure: {count} originals look the same"),
            Verdict::Unlike => "not sure: too unlike".into(),
            Verdict::SecondNear => "not sure: the second is near".into(),
            Verdict::SecondMissing => "not sure: no second was found".into(),
        }
    }
}

/// An original that a search for its own grey values does not find.
#[derive(Clone, Copy, Debug, PartialEq, Eq)]
pub struct Missed {
    pub original: usize,
    /// Whether some chain of references leads to it from the entry, so that a wider beam would find it.
    pub reached: bool,
}

impl Originals {
    /// Room for so many.
    pub fn new(room: usize, settings: Settings, grid: Grid) -> Result<Originals, Error> {
        let capacity = u32::try_from(room.max(1)).map_err(|_| Error::BadSizes)?;
        let index = Finder::with_weights(grid.dim() as u32, capacity, settings.degree, settings.alpha, &grid.weights())?;
        let scratch = index.scratch()?;
        Ok(Originals { index, scratch, settings, grid, slots: HashMap::new(), alike: vec![], missed: vec![] })
    }

    /// Adds an original with its figure number. One vector to a call: vectors of one call would not find each other.
    pub fn add(&mut self, original: usize, number: u32, grey: &[u8]) -> Result<(), Error> {
        if let Some(&slot) = self.slots.get(grey) {
            self.alike[slot as usize].push(original);
            return Ok(());
        }
        // Nothing is ever deleted, so the slots are 0, 1, 2 and so on.
        let slot = self.index.insert_one(grey, number, self.settings.insert_beam, &mut self.scratch)?;
        self.slots.insert(grey.to_vec(), slot);
        self.alike.push(vec![original]);
        Ok(())
    }

    /// How many originals with different grey values there are.
    pub fn different(&self) -> usize {
        self.alike.len()
    }

    /// The nearest original to a placeholder; none where there are none.
    pub fn find(&mut self, grey: &[u8]) -> Result<Option<Found>, Error> {
        let mut hits = self.index.search(grey, 2, self.settings.search_beam, &mut self.scratch)?;
        for &slot in &self.missed {
            if hits.iter().any(|hit| hit.slot == slot) {
                continue;
            }
            if let (Some(vector), Some(number)) = (self.index.vector(slot), self.index.number(slot)?) {
                hits.push(Hit { slot, number, distance: self.grid.distance(grey, vector) as f32 });
            }
        }
        // Of equals the lower slot first, as a search gives them.
        hits.sort_by_key(|hit| (hit.distance as u32, hit.slot));
        let Some(first) = hits.first() else {
            return Ok(None);
        };
        let same = &self.alike[first.slot as usize];
        let distance = first.distance as u32;
        let second = match same.get(1) {
            Some(&other) => Some((other, distance)),
            None => hits.get(1).map(|hit| (self.alike[hit.slot as usize][0], hit.distance as u32)),
        };
        Ok(Some(Found { original: same[0], number: first.number, distance, alike: same.len(), second }))
    }

    /// Searches every original; gives those that do not find themselves, and has them compared directly from now on.
    pub fn missed(&mut self) -> Result<Vec<Missed>, Error> {
        let mut missed = vec![];
        for slot in self.index.live_slots()? {
            let Some(grey) = self.index.vector(slot) else {
                continue;
            };
            let hits = self.index.search(grey, 1, self.settings.search_beam, &mut self.scratch)?;
            if hits.first().is_none_or(|hit| hit.slot != slot) {
                missed.push(slot);
            }
        }
        if missed.is_empty() {
            return Ok(vec![]);
        }
        self.missed = missed;
        let reached = self.reached()?;
        let originals = self.missed.iter().flat_map(|&slot| self.alike[slot as usize].iter().map(move |&original| (slot, original)));
        Ok(originals.map(|(slot, original)| Missed { original, reached: reached[slot as usize] }).collect())
    }

    /// For each slot, whether a chain of references leads to it from the entry.
    fn reached(&self) -> Result<Vec<bool>, Error> {
        let mut reached = vec![false; self.index.capacity()? as usize];
        let mut open = vec![self.index.entry()?];
        reached[open[0] as usize] = true;
        while let Some(slot) = open.pop() {
            for target in self.index.neighbours(slot)? {
                if !std::mem::replace(&mut reached[target as usize], true) {
                    open.push(target);
                }
            }
        }
        Ok(reached)
    }
}

#[cfg(test)]
mod tests {
    use super::*;
    use crate::reduce::{LINE_ENDS, PLAIN};

    fn grey(seed: u32) -> Grey {
        (0..256).map(|i: u32| (seed.wrapping_mul(7919).wrapping_add(i).wrapping_mul(2_654_435_761) >> 24) as u8).collect()
    }

    #[test]
    fn finds_and_judges() {
        let mut originals = Originals::new(4, SETTINGS, PLAIN).unwrap();
        assert_eq!(originals.find(&grey(1)), Ok(None));
        originals.add(10, 110, &grey(1)).unwrap();
        let mut near = grey(1);
        near[0] ^= 1;
        let found = originals.find(&near).unwrap().unwrap();
        assert_eq!(found, Found { original: 10, number: 110, distance: 1, alike: 1, second: None });
        assert_eq!(Verdict::of(PLAIN, &near, &found, 1), Verdict::Sure);
        assert_eq!(Verdict::of(PLAIN, &near, &found, 2), Verdict::SecondMissing);
        assert_eq!(Verdict::of(PLAIN, &[128; 256], &originals.find(&[128; 256]).unwrap().unwrap(), 1), Verdict::Unlike);

        originals.add(11, 111, &grey(2)).unwrap();
        let found = originals.find(&near).unwrap().unwrap();
        assert_eq!((found.original, found.second.unwrap().0), (10, 11));
        assert_eq!(Verdict::of(PLAIN, &near, &found, 2), Verdict::Sure);

        let mut twin = grey(1);
        twin[0] ^= 3;
        originals.add(12, 112, &twin).unwrap();
        let found = originals.find(&near).unwrap().unwrap();
        assert_eq!((found.original, found.second), (10, Some((12, 4))));
        assert_eq!(Verdict::of(PLAIN, &near, &found, 3), Verdict::SecondNear);

        originals.add(13, 113, &grey(1)).unwrap();
        let found = originals.find(&grey(1)).unwrap().unwrap();
        assert_eq!(found, Found { original: 10, number: 110, distance: 0, alike: 2, second: Some((13, 0)) });
        assert_eq!(Verdict::of(PLAIN, &grey(1), &found, 3), Verdict::Alike(2));
        assert_eq!((originals.different(), originals.missed()), (3, Ok(vec![])));
        assert_eq!(originals.add(14, 110, &grey(5)), Err(Error::BadNumber));
        originals.add(14, 114, &grey(5)).unwrap();
        assert_eq!(originals.add(15, 115, &grey(6)), Err(Error::Full));
    }

    /// A blank placeholder is never sure, not even of a blank original.
    #[test]
    fn blank_sheets() {
        let mut originals = Originals::new(2, SETTINGS, PLAIN).unwrap();
        originals.add(0, 100, &[255; 256]).unwrap();
        originals.add(1, 101, &grey(1)).unwrap();
        let found = originals.find(&[255; 256]).unwrap().unwrap();
        assert_eq!((found.original, found.distance), (0, 0));
        assert_eq!(Verdict::of(PLAIN, &[255; 256], &found, 2), Verdict::Unlike);
    }

    /// A graph in which a slot is reached by no reference: it is named, with all that look the same.
    #[test]
    fn names_what_is_missed() {
        let mut originals = Originals::new(3, SETTINGS, PLAIN).unwrap();
        for (original, seed) in [(0, 1), (1, 2), (2, 3), (7, 3)] {
            originals.add(original, 100 + original as u32, &grey(seed)).unwrap();
        }
        let mut memory = originals.index.clone().into_memory();
        for target in &mut memory.targets {
            if *target == 2 {
                *target = finder::BLANK;
            }
        }
        originals.index = Finder::from_memory(memory).unwrap();
        assert_ne!(originals.find(&grey(3)).unwrap().unwrap().original, 2);
        assert_eq!(originals.missed(), Ok(vec![Missed { original: 2, reached: false }, Missed { original: 7, reached: false }]));
        // From now on they are compared directly.
        assert_eq!(originals.find(&grey(3)), Ok(Some(Found { original: 2, number: 102, distance: 0, alike: 2, second: Some((7, 0)) })));
        let second = originals.find(&grey(2)).unwrap().unwrap().second.unwrap();
        assert_eq!(second.1, PLAIN.distance(&grey(2), &grey(1)).min(PLAIN.distance(&grey(2), &grey(3))));
    }

    /// The line ends say which of two originals it is, and whether there is anything to be seen.
    #[test]
    fn line_ends_count_more() {
        let mut originals = Originals::new(2, SETTINGS, LINE_ENDS).unwrap();
        let mut placeholder = vec![100; 196];
        // Nine values of 10 on the left, or four at the ends of two lines: 900 and 4 * 3 * 100.
        let (mut left, mut ends) = (placeholder.clone(), placeholder.clone());
        left[28..37].fill(110);
        for cell in [12, 13, 26, 27] {
            ends[cell] = 110;
        }
        originals.add(0, 100, &ends).unwrap();
        originals.add(1, 101, &left).unwrap();
        let found = originals.find(&placeholder).unwrap().unwrap();
        assert_eq!((found.number, found.distance, found.second), (101, 900, Some((0, 1200))));
        assert_eq!(Verdict::of(LINE_ENDS, &placeholder, &found, 2), Verdict::Unlike);
        placeholder[13] = 110;
        placeholder[12] = 110;
        let found = originals.find(&placeholder).unwrap().unwrap();
        assert_eq!((found.number, found.distance, found.second), (100, 600, Some((1, 1500))));
    }

    #[test]
    fn too_many() {
        assert!(Originals::new(MOST + 1, SETTINGS, PLAIN).is_err());
    }
}
