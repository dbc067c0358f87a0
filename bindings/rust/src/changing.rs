//! Calls that change an index.

use crate::{raw, DeleteStats, Error, GuardSettings, GuardStatus, Guarded, Making, Report, Scratch, Slices, View, Words, MAX_LANDMARKS};
use std::fmt;

/// The nine slices of an index, to be changed; after making no call writes the weights. include/finder.h says what each holds.
pub struct SlicesMut<'a> {
    /// The bytes of each slot's vector: capacity * dim.
    pub vectors: &'a mut [u8],
    /// The references of each slot's row: capacity * degree.
    pub targets: &'a mut [u32],
    /// A version for each reference: capacity * degree.
    pub edges: &'a mut [u16],
    /// A version for each slot: capacity.
    pub versions: &'a mut [u16],
    /// Not 0 where the slot is live: capacity.
    pub marks: &'a mut [u8],
    /// The landmark pool: [`POOL`](crate::POOL).
    pub pool: &'a mut [u32],
    /// The figure number of each slot, 0 where it is dead: capacity.
    pub numbers: &'a mut [u32],
    /// The live slots by rising number, then [`BLANK`](crate::BLANK): capacity.
    pub summary: &'a mut [u32],
    /// What each place of a vector counts in a distance: dim.
    pub weights: &'a mut [u8],
}

impl SlicesMut<'_> {
    /// The same, to be read.
    pub fn as_slices(&self) -> Slices<'_> {
        Slices {
            vectors: self.vectors,
            targets: self.targets,
            edges: self.edges,
            versions: self.versions,
            marks: self.marks,
            pool: self.pool,
            numbers: self.numbers,
            summary: self.summary,
            weights: self.weights,
        }
    }
}

impl fmt::Debug for SlicesMut<'_> {
    fn fmt(&self, f: &mut fmt::Formatter<'_>) -> fmt::Result {
        f.debug_struct("SlicesMut").field("slots", &self.marks.len()).finish_non_exhaustive()
    }
}

/// An index in memory that is borrowed, to be changed; [`ViewMut::as_view`] reads it.
///
/// The memory may hold anything: each call tests it, and refuses what is no index. The deletes take up to 114 KiB of stack, making and insert up to 24.
///
/// ```
/// use finder::{Error, Making, Scratch, SlicesMut, ViewMut, BLANK, INDEX_WORDS, POOL};
///
/// # fn main() -> Result<(), Error> {
/// // Dim 1, four slots, rows of two, in memory of our own.
/// let mut words = [0; INDEX_WORDS];
/// let (mut vectors, mut targets, mut edges, mut versions, mut marks, mut pool) = ([0; 4], [0; 8], [0; 8], [0; 4], [0; 4], [0; POOL]);
/// let (mut numbers, mut summary, mut weights) = ([0; 4], [0; 4], [0; 1]);
/// let slices = SlicesMut {
///     vectors: &mut vectors,
///     targets: &mut targets,
///     edges: &mut edges,
///     versions: &mut versions,
///     marks: &mut marks,
///     pool: &mut pool,
///     numbers: &mut numbers,
///     summary: &mut summary,
///     weights: &mut weights,
/// };
/// let rows = [1, BLANK, 0, 2, 1, BLANK];
/// let given = Making {
///     dim: 1, capacity: 4, degree: 2, alpha: 1.0, entry: 1, count: 3, bytes: &[0, 3, 10], rows: &rows, numbers: &[30, 10, 20], weights: &[2],
/// };
/// let mut index = ViewMut::create(&mut words, slices, &given)?;
/// let mut scratch = Scratch::new(1, 4, 2)?;
/// assert_eq!(index.insert(&[6], &[40], 2, &mut scratch)?, [3]);
/// assert_eq!(index.as_view().neighbours(3)?.collect::<Vec<_>>(), [1, 2]);
/// assert_eq!((marks, numbers, summary, weights), ([1, 1, 1, 1], [30, 10, 20, 40], [1, 2, 0, 3], [2]));
/// # Ok(())
/// # }
/// ```
#[derive(Debug)]
pub struct ViewMut<'a> {
    words: &'a mut Words,
    slices: SlicesMut<'a>,
}

impl<'a> ViewMut<'a> {
    /// An index of these words and slices.
    pub fn new(words: &'a mut Words, slices: SlicesMut<'a>) -> ViewMut<'a> {
        ViewMut { words, slices }
    }

    /// Makes an index in this memory, all of which is written, whatever it held.
    pub fn create(words: &'a mut Words, mut slices: SlicesMut<'a>, making: &Making<'_>) -> Result<ViewMut<'a>, Error> {
        Error::check(raw::create(words, &mut slices, &making.arguments()))?;
        Ok(ViewMut { words, slices })
    }

    /// The same index, to be read.
    pub fn as_view(&self) -> View<'_> {
        View::new(self.words, self.slices.as_slices())
    }

    /// Inserts the vectors of `bytes`, which follow each other there, into the lowest free slots, and gives the slots, lowest first. `numbers` has the figure
    /// number of each vector: 1 to 4,294,967,295, no two equal, and carried by no live slot. Where no slot is live, the first slot filled becomes the entry.
    ///
    /// Vectors of one call do not find each other (256 at a time), but the entry where it is one of them, so new ones are better inserted with
    /// [`ViewMut::insert_one`].
    pub fn insert(&mut self, bytes: &[u8], numbers: &[u32], beam: u32, scratch: &mut Scratch) -> Result<Vec<u32>, Error> {
        // Where dim is 0 the call is refused, whatever the length of the list.
        let mut slots = vec![0; bytes.len() / self.words[0].max(1) as usize];
        let mut found = 0;
        Error::check(raw::insert(self.words, &mut self.slices, bytes, numbers, beam, &mut slots, &mut scratch.0, &mut found))?;
        slots.truncate(found as usize);
        Ok(slots)
    }

    /// Inserts one vector with its figure number into the lowest free slot, and gives the slot. A vector of another length than dim is refused as
    /// [`Error::BadBatch`].
    pub fn insert_one(&mut self, vector: &[u8], number: u32, beam: u32, scratch: &mut Scratch) -> Result<u32, Error> {
        if vector.len() != self.words[0] as usize {
            self.as_view().check()?;
            return Err(Error::BadBatch);
        }
        let mut slot = [0];
        let mut found = 0;
        Error::check(raw::insert(self.words, &mut self.slices, vector, &[number], beam, &mut slot, &mut scratch.0, &mut found))?;
        Ok(slot[0])
    }

    /// Deletes the live slots that the ids name, whatever the guard says, and repairs the rows around them; gives the counts of each, in the order of the
    /// slots. An id that is dead or outside, or that stood there before, is skipped.
    pub fn delete(&mut self, ids: &[u32], repair_beam: u32, repair_degree: u32, scratch: &mut Scratch) -> Result<Vec<DeleteStats>, Error> {
        self.delete_by(raw::delete, ids, repair_beam, repair_degree, scratch)
    }

    /// Deletes as [`ViewMut::delete`] does the live slots that carry these figure numbers. A number that no live slot carries, or that stood there before, is
    /// skipped.
    pub fn delete_numbers(&mut self, numbers: &[u32], repair_beam: u32, repair_degree: u32, scratch: &mut Scratch) -> Result<Vec<DeleteStats>, Error> {
        self.delete_by(raw::delete_numbers, numbers, repair_beam, repair_degree, scratch)
    }

    fn delete_by(
        &mut self,
        call: raw::Delete,
        named: &[u32],
        repair_beam: u32,
        repair_degree: u32,
        scratch: &mut Scratch,
    ) -> Result<Vec<DeleteStats>, Error> {
        let mut stats = vec![DeleteStats::default(); named.len()];
        let mut found = 0;
        Error::check(call(self.words, &mut self.slices, named, repair_beam, repair_degree, &mut stats, &mut scratch.0, &mut found))?;
        stats.truncate(found as usize);
        Ok(stats)
    }

    /// Enables the guard, which may be on already, and chooses its landmarks.
    pub fn enable_guard(&mut self, settings: GuardSettings, scratch: &mut Scratch) -> Result<GuardStatus, Error> {
        let settings = [settings.landmark_count, settings.multiplier, settings.sample, settings.beam];
        let mut status = raw::StatusWords::default();
        Error::check(raw::guard_enable(self.words, &mut self.slices, settings, &mut scratch.0, &mut status))?;
        Ok(GuardStatus::of(status))
    }

    /// Deletes as [`ViewMut::delete`] does, if the guard admits it.
    pub fn guarded_delete(&mut self, ids: &[u32], repair_beam: u32, repair_degree: u32, scratch: &mut Scratch) -> Result<Guarded, Error> {
        self.guarded_delete_by(raw::guarded_delete, ids, repair_beam, repair_degree, scratch)
    }

    /// Deletes as [`ViewMut::delete_numbers`] does, if the guard admits it. The landmarks of the report are slots.
    pub fn guarded_delete_numbers(&mut self, numbers: &[u32], repair_beam: u32, repair_degree: u32, scratch: &mut Scratch) -> Result<Guarded, Error> {
        self.guarded_delete_by(raw::guarded_delete_numbers, numbers, repair_beam, repair_degree, scratch)
    }

    fn guarded_delete_by(
        &mut self,
        call: raw::GuardedDelete,
        named: &[u32],
        repair_beam: u32,
        repair_degree: u32,
        scratch: &mut Scratch,
    ) -> Result<Guarded, Error> {
        let mut stats = vec![DeleteStats::default(); named.len()];
        let mut checked = vec![0; MAX_LANDMARKS as usize];
        let mut lost = vec![0; MAX_LANDMARKS as usize];
        let mut found = 0;
        let mut words = raw::ReportWords::default();
        Error::check(call(
            self.words,
            &mut self.slices,
            named,
            repair_beam,
            repair_degree,
            &mut stats,
            &mut checked,
            &mut lost,
            &mut scratch.0,
            &mut found,
            &mut words,
        ))?;
        let report = Report::of(words, checked, lost);
        if !report.admitted {
            return Ok(Guarded::Deferred(report));
        }
        stats.truncate(found as usize);
        Ok(Guarded::Applied { stats, report })
    }
}
