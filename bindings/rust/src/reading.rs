//! Calls that leave an index as it is.

use crate::{raw, Error, GuardStatus, Hit, Report, Scratch, Words, BLANK, MAX_BEAM, MAX_LANDMARKS};
use std::fmt;

/// The nine slices of an index, to be read. include/finder.h says what each holds.
#[derive(Clone, Copy)]
pub struct Slices<'a> {
    /// The bytes of each slot's vector: capacity * dim.
    pub vectors: &'a [u8],
    /// The references of each slot's row: capacity * degree.
    pub targets: &'a [u32],
    /// A version for each reference: capacity * degree.
    pub edges: &'a [u16],
    /// A version for each slot: capacity.
    pub versions: &'a [u16],
    /// Not 0 where the slot is live: capacity.
    pub marks: &'a [u8],
    /// The landmark pool: [`POOL`](crate::POOL).
    pub pool: &'a [u32],
    /// The figure number of each slot, 0 where it is dead: capacity.
    pub numbers: &'a [u32],
    /// The live slots by rising number, then [`BLANK`]: capacity.
    pub summary: &'a [u32],
    /// What each place of a vector counts in a distance: dim.
    pub weights: &'a [u8],
}

impl fmt::Debug for Slices<'_> {
    fn fmt(&self, f: &mut fmt::Formatter<'_>) -> fmt::Result {
        f.debug_struct("Slices").field("slots", &self.marks.len()).finish_non_exhaustive()
    }
}

/// An index in memory that is borrowed, to be read and searched: copied like a reference, and read by several threads at a time.
///
/// The memory may hold anything: each call tests it, and refuses what is no index.
///
/// ```
/// use finder::{Error, Finder, Slices, View, POOL};
///
/// # fn main() -> Result<(), Error> {
/// let index = Finder::new(2, 3, 1, 1.0)?;
/// assert_eq!(index.view().capacity(), Ok(3));
///
/// // Any memory: here the words say dim 2, but there are no vectors.
/// let none = Slices { vectors: &[], ..index.view().slices() };
/// assert_eq!(View::new(index.view().words(), none).capacity(), Err(Error::BadLength));
/// # Ok(())
/// # }
/// ```
#[derive(Clone, Copy, Debug)]
pub struct View<'a> {
    words: &'a Words,
    slices: Slices<'a>,
}

impl<'a> View<'a> {
    /// An index of these words and slices.
    pub fn new(words: &'a Words, slices: Slices<'a>) -> View<'a> {
        View { words, slices }
    }

    /// Its words.
    pub fn words(&self) -> &'a Words {
        self.words
    }

    /// Its slices.
    pub fn slices(&self) -> Slices<'a> {
        self.slices
    }

    /// Whether words and slices are an index, which every other call tests too.
    pub fn check(&self) -> Result<(), Error> {
        self.live().map(|_| ())
    }

    /// The dim.
    pub fn dim(&self) -> Result<u32, Error> {
        let mut value = 0;
        Error::check(raw::dim(self.words, &self.slices, &mut value))?;
        Ok(value)
    }

    /// The capacity.
    pub fn capacity(&self) -> Result<u32, Error> {
        let mut value = 0;
        Error::check(raw::capacity(self.words, &self.slices, &mut value))?;
        Ok(value)
    }

    /// The degree.
    pub fn degree(&self) -> Result<u32, Error> {
        let mut value = 0;
        Error::check(raw::degree(self.words, &self.slices, &mut value))?;
        Ok(value)
    }

    /// Alpha.
    pub fn alpha(&self) -> Result<f32, Error> {
        let mut value = 0.0;
        Error::check(raw::alpha(self.words, &self.slices, &mut value))?;
        Ok(value)
    }

    /// The slot at which a search starts; it may be dead.
    pub fn entry(&self) -> Result<u32, Error> {
        let mut value = 0;
        Error::check(raw::entry(self.words, &self.slices, &mut value))?;
        Ok(value)
    }

    /// How many slots are live.
    pub fn live(&self) -> Result<u32, Error> {
        let mut value = 0;
        Error::check(raw::live(self.words, &self.slices, &mut value))?;
        Ok(value)
    }

    /// Whether a slot is live; one outside is not.
    pub fn mark(&self, slot: u32) -> Result<bool, Error> {
        let mut value = 0;
        Error::check(raw::mark(self.words, &self.slices, slot, &mut value))?;
        Ok(value != 0)
    }

    /// The version of a slot; 0 for one outside.
    pub fn slot_version(&self, slot: u32) -> Result<u16, Error> {
        let mut value = 0;
        Error::check(raw::slot_version(self.words, &self.slices, slot, &mut value))?;
        Ok(value as u16)
    }

    /// The figure number of a live slot; none where it is dead or outside.
    pub fn number(&self, slot: u32) -> Result<Option<u32>, Error> {
        let mut value = 0;
        Error::check(raw::number(self.words, &self.slices, slot, &mut value))?;
        Ok((value != 0).then_some(value))
    }

    /// The target at a place, from 0, among the live ones of a slot's row; none past the last and for a slot outside.
    pub fn target(&self, slot: u32, place: u32) -> Result<Option<u32>, Error> {
        let mut value = 0;
        Error::check(raw::target(self.words, &self.slices, slot, place, &mut value))?;
        Ok((value != BLANK).then_some(value))
    }

    /// The vector of a live slot, as that part of the memory; none where the slot is dead or outside, and where the call is refused, which is not told.
    pub fn vector(&self, slot: u32) -> Option<&'a [u8]> {
        let dim = raw::vector(self.words, &self.slices, slot);
        let start = (slot as usize).checked_mul(dim)?;
        self.slices.vectors.get(start..start.checked_add(dim)?).filter(|vector| !vector.is_empty())
    }

    /// The live slots, lowest first.
    ///
    /// ```
    /// # fn main() -> Result<(), finder::Error> {
    /// # let mut index = finder::Finder::new(1, 9, 2, 1.0)?;
    /// # let mut scratch = index.scratch()?;
    /// for (value, number) in [(5, 30), (6, 10), (7, 20)] {
    ///     index.insert_one(&[value], number, 8, &mut scratch)?;
    /// }
    /// index.delete(&[1], 8, 2, &mut scratch)?;
    /// assert_eq!(index.view().live_slots()?.collect::<Vec<_>>(), [0, 2]);
    /// # Ok(())
    /// # }
    /// ```
    pub fn live_slots(&self) -> Result<LiveSlots<'a>, Error> {
        Ok(LiveSlots { view: *self, next: 0, left: self.live()? as usize })
    }

    /// The live slots by rising figure number, as that part of the memory.
    ///
    /// ```
    /// # fn main() -> Result<(), finder::Error> {
    /// # let mut index = finder::Finder::new(1, 9, 2, 1.0)?;
    /// # let mut scratch = index.scratch()?;
    /// for (value, number) in [(5, 30), (6, 10), (7, 20)] {
    ///     index.insert_one(&[value], number, 8, &mut scratch)?;
    /// }
    /// let slots = index.view().slots_by_number()?;
    /// assert_eq!(slots, [1, 2, 0]);
    ///
    /// // The slot of figure 20.
    /// let numbers = index.view().slices().numbers;
    /// let place = slots.binary_search_by_key(&20, |&slot| numbers[slot as usize]);
    /// assert_eq!(place.map(|place| slots[place]), Ok(2));
    /// # Ok(())
    /// # }
    /// ```
    pub fn slots_by_number(&self) -> Result<&'a [u32], Error> {
        let live = self.live()? as usize;
        Ok(self.slices.summary.get(..live).unwrap_or_default())
    }

    /// The live targets of a slot's row, in the order of the row; none for a slot outside.
    ///
    /// ```
    /// # fn main() -> Result<(), finder::Error> {
    /// # let mut index = finder::Finder::new(1, 9, 2, 1.0)?;
    /// # let mut scratch = index.scratch()?;
    /// for (value, number) in [(5, 30), (6, 10), (9, 20)] {
    ///     index.insert_one(&[value], number, 8, &mut scratch)?;
    /// }
    /// assert_eq!(index.view().neighbours(1)?.collect::<Vec<_>>(), [0, 2]);
    /// # Ok(())
    /// # }
    /// ```
    pub fn neighbours(&self, slot: u32) -> Result<Neighbours<'a>, Error> {
        self.check()?;
        Ok(Neighbours { view: *self, slot, place: 0 })
    }

    /// As much scratch as the calls on this index ask for.
    pub fn scratch(&self) -> Result<Scratch, Error> {
        self.check()?;
        Scratch::new(self.words[0], self.words[1], self.words[2])
    }

    /// The `k` nearest to a query that a walk from the entry finds, with a list of at most `beam` slots: nearest first, of equals the lower slot first. No more
    /// than `beam` are found, nor more than 1,024, and none where the entry is dead.
    ///
    /// Several threads search at a time, each with its own scratch:
    ///
    /// ```
    /// # fn main() -> Result<(), finder::Error> {
    /// # let mut index = finder::Finder::new(1, 9, 4, 1.2)?;
    /// # let mut scratch = index.scratch()?;
    /// # for value in [10, 20, 30] { index.insert_one(&[value], 100 + u32::from(value), 8, &mut scratch)?; }
    /// let nearest: Vec<u32> = std::thread::scope(|threads| {
    ///     let searches: Vec<_> = [11, 28].map(|value| threads.spawn({
    ///         let view = index.view();
    ///         move || Ok(view.search(&[value], 1, 8, &mut view.scratch()?)?[0].number)
    ///     })).into();
    ///     searches.into_iter().map(|search| search.join().unwrap()).collect::<Result<_, finder::Error>>()
    /// })?;
    /// assert_eq!(nearest, [110, 130]);
    /// # Ok(())
    /// # }
    /// ```
    pub fn search(&self, query: &[u8], k: u32, beam: u32, scratch: &mut Scratch) -> Result<Vec<Hit>, Error> {
        let places = k.min(MAX_BEAM) as usize;
        let mut slots = vec![0; places];
        let mut distances = vec![0.0; places];
        let mut numbers = vec![0; places];
        let found = self.search_into(query, beam, &mut slots, &mut distances, &mut numbers, scratch)?;
        let hits = slots.into_iter().zip(distances).zip(numbers).take(found);
        Ok(hits.map(|((slot, distance), number)| Hit { slot, number, distance }).collect())
    }

    /// The same without allocating: as many as all three lists have places for are looked for; how many were found is returned, and the places after them
    /// stay.
    pub fn search_into(
        &self,
        query: &[u8],
        beam: u32,
        slots: &mut [u32],
        distances: &mut [f32],
        numbers: &mut [u32],
        scratch: &mut Scratch,
    ) -> Result<usize, Error> {
        let k = u32::try_from(slots.len().min(distances.len()).min(numbers.len())).unwrap_or(u32::MAX);
        let mut found = 0;
        Error::check(raw::search(self.words, &self.slices, query, k, beam, slots, distances, numbers, &mut scratch.0, &mut found))?;
        Ok(found as usize)
    }

    /// The guard's status.
    pub fn guard_status(&self) -> Result<GuardStatus, Error> {
        let mut words = raw::StatusWords::default();
        Error::check(raw::guard_status(self.words, &self.slices, &mut words))?;
        Ok(GuardStatus::of(words))
    }

    /// Assesses a delete of the slots that the ids name, and deletes nothing; an id that is dead or outside, or that stood there before, does not count.
    pub fn assess(&self, ids: &[u32], scratch: &mut Scratch) -> Result<Report, Error> {
        let mut checked = vec![0; MAX_LANDMARKS as usize];
        let mut lost = vec![0; MAX_LANDMARKS as usize];
        let mut words = raw::ReportWords::default();
        Error::check(raw::assess(self.words, &self.slices, ids, &mut checked, &mut lost, &mut scratch.0, &mut words))?;
        Ok(Report::of(words, checked, lost))
    }
}

/// The live slots of an index, lowest first: [`View::live_slots`].
#[derive(Clone, Debug)]
pub struct LiveSlots<'a> {
    view: View<'a>,
    next: usize,
    left: usize,
}

// The memory was tested when the iterator was made, and is borrowed: the live slots are those whose mark is not 0.
impl Iterator for LiveSlots<'_> {
    type Item = u32;

    fn next(&mut self) -> Option<u32> {
        let dead = self.view.slices.marks.get(self.next..)?.iter().position(|&mark| mark != 0)?;
        let slot = self.next + dead;
        self.next = slot + 1;
        self.left -= 1;
        Some(slot as u32)
    }

    fn size_hint(&self) -> (usize, Option<usize>) {
        (self.left, Some(self.left))
    }
}

impl ExactSizeIterator for LiveSlots<'_> {}
impl std::iter::FusedIterator for LiveSlots<'_> {}

/// The live targets of a row, in its order: [`View::neighbours`].
#[derive(Clone, Debug)]
pub struct Neighbours<'a> {
    view: View<'a>,
    slot: u32,
    place: u32,
}

impl Iterator for Neighbours<'_> {
    type Item = u32;

    fn next(&mut self) -> Option<u32> {
        let target = self.view.target(self.slot, self.place).ok()??;
        self.place += 1;
        Some(target)
    }
}

impl std::iter::FusedIterator for Neighbours<'_> {}
