//! An index that owns its memory.

use crate::{
    DeleteStats, Error, GuardSettings, GuardStatus, Guarded, Hit, LiveSlots, Making, Neighbours, Report, Scratch, Slices, SlicesMut, View, ViewMut, Words,
    INDEX_WORDS, MAX_DIM, POOL,
};
use std::fmt;

/// The raw memory of an index: its words and nine slices, as include/finder.h describes them.
#[derive(Clone, PartialEq, Eq)]
pub struct Memory {
    /// The words.
    pub words: Words,
    /// The bytes of each slot's vector: capacity * dim.
    pub vectors: Vec<u8>,
    /// The references of each slot's row: capacity * degree.
    pub targets: Vec<u32>,
    /// A version for each reference: capacity * degree.
    pub edges: Vec<u16>,
    /// A version for each slot: capacity.
    pub versions: Vec<u16>,
    /// Not 0 where the slot is live: capacity.
    pub marks: Vec<u8>,
    /// The landmark pool: [`POOL`].
    pub pool: Vec<u32>,
    /// The figure number of each slot, 0 where it is dead: capacity.
    pub numbers: Vec<u32>,
    /// The live slots by rising number, then [`BLANK`](crate::BLANK): capacity.
    pub summary: Vec<u32>,
    /// What each place of a vector counts in a distance: dim.
    pub weights: Vec<u8>,
}

impl Memory {
    // All 0, for sizes that are within their ranges.
    pub(crate) fn blank(dim: u32, capacity: u32, degree: u32) -> Memory {
        let (dim, capacity, degree) = (dim as usize, capacity as usize, degree as usize);
        Memory {
            words: [0; INDEX_WORDS],
            vectors: vec![0; capacity * dim],
            targets: vec![0; capacity * degree],
            edges: vec![0; capacity * degree],
            versions: vec![0; capacity],
            marks: vec![0; capacity],
            pool: vec![0; POOL],
            numbers: vec![0; capacity],
            summary: vec![0; capacity],
            weights: vec![0; dim],
        }
    }

    fn lent(&mut self) -> (&mut Words, SlicesMut<'_>) {
        let slices = SlicesMut {
            vectors: &mut self.vectors,
            targets: &mut self.targets,
            edges: &mut self.edges,
            versions: &mut self.versions,
            marks: &mut self.marks,
            pool: &mut self.pool,
            numbers: &mut self.numbers,
            summary: &mut self.summary,
            weights: &mut self.weights,
        };
        (&mut self.words, slices)
    }

    /// The index in it, to be read.
    pub fn view(&self) -> View<'_> {
        let slices = Slices {
            vectors: &self.vectors,
            targets: &self.targets,
            edges: &self.edges,
            versions: &self.versions,
            marks: &self.marks,
            pool: &self.pool,
            numbers: &self.numbers,
            summary: &self.summary,
            weights: &self.weights,
        };
        View::new(&self.words, slices)
    }

    /// The index in it, to be changed.
    pub fn view_mut(&mut self) -> ViewMut<'_> {
        let (words, slices) = self.lent();
        ViewMut::new(words, slices)
    }
}

impl fmt::Debug for Memory {
    fn fmt(&self, f: &mut fmt::Formatter<'_>) -> fmt::Result {
        f.debug_struct("Memory").field("words", &self.words).finish_non_exhaustive()
    }
}

/// An index and its memory.
///
/// Its calls are those of [`View`] and [`ViewMut`], where each is described.
#[derive(Clone, Debug, PartialEq, Eq)]
pub struct Finder {
    memory: Memory,
}

impl Finder {
    /// An index without vectors, of `capacity` slots for vectors of `dim` bytes with rows of `degree` references, in which all places of a vector count alike.
    /// Its entry is slot 0, the first to be filled.
    ///
    /// ```
    /// # fn main() -> Result<(), finder::Error> {
    /// let index = finder::Finder::new(256, 2000, 32, 1.2)?;
    /// assert_eq!((index.dim()?, index.capacity()?, index.degree()?, index.live()?), (256, 2000, 32, 0));
    /// # Ok(())
    /// # }
    /// ```
    pub fn new(dim: u32, capacity: u32, degree: u32, alpha: f32) -> Result<Finder, Error> {
        Finder::with_weights(dim, capacity, degree, alpha, &vec![1; dim.min(MAX_DIM) as usize])
    }

    /// The same with a weight for each of the `dim` places of a vector, by which its squared difference counts: 1 to 4, and 256 at most together. Weights stay
    /// as they are made.
    ///
    /// ```
    /// use finder::{Error, Finder};
    ///
    /// # fn main() -> Result<(), Error> {
    /// let mut index = Finder::with_weights(3, 100, 8, 1.2, &[1, 1, 4])?;
    /// let mut scratch = index.scratch()?;
    /// index.insert_one(&[10, 20, 30], 1007, 64, &mut scratch)?;
    /// // 1 * 3² + 1 * 0² + 4 * 2²
    /// assert_eq!(index.search(&[13, 20, 28], 1, 64, &mut scratch)?[0].distance, 25.0);
    ///
    /// assert_eq!(Finder::with_weights(3, 100, 8, 1.2, &[1, 1, 5]).err(), Some(Error::BadWeights));
    /// assert_eq!(Finder::with_weights(3, 100, 8, 1.2, &[1, 1]).err(), Some(Error::BadLength));
    /// # Ok(())
    /// # }
    /// ```
    pub fn with_weights(dim: u32, capacity: u32, degree: u32, alpha: f32, weights: &[u8]) -> Result<Finder, Error> {
        Finder::create(&Making { dim, capacity, degree, alpha, entry: 0, count: 0, bytes: &[], rows: &[], numbers: &[], weights })
    }

    /// An index of the vectors and rows that another program built, with a figure number for each vector and a weight for each place.
    ///
    /// ```
    /// use finder::{Finder, Hit, Making, BLANK};
    ///
    /// # fn main() -> Result<(), finder::Error> {
    /// let rows = [1, BLANK, 0, 2, 1, BLANK];
    /// let numbers = [30, 10, 20];
    /// let given = Making {
    ///     dim: 1, capacity: 4, degree: 2, alpha: 1.0, entry: 1, count: 3, bytes: &[0, 3, 10], rows: &rows, numbers: &numbers, weights: &[1],
    /// };
    /// let index = Finder::create(&given)?;
    /// let hits = index.search(&[2], 2, 2, &mut index.scratch()?)?;
    /// assert_eq!(hits, [Hit { slot: 1, number: 10, distance: 1.0 }, Hit { slot: 0, number: 30, distance: 4.0 }]);
    /// # Ok(())
    /// # }
    /// ```
    pub fn create(making: &Making<'_>) -> Result<Finder, Error> {
        // Refuses sizes out of range before anything is allocated for them.
        Scratch::words_for(making.dim, making.capacity, making.degree)?;
        let mut memory = Memory::blank(making.dim, making.capacity, making.degree);
        let (words, slices) = memory.lent();
        ViewMut::create(words, slices, making)?;
        Ok(Finder { memory })
    }

    /// An index of raw memory, which is refused where it is none.
    ///
    /// ```
    /// use finder::{Error, Finder};
    ///
    /// # fn main() -> Result<(), Error> {
    /// let index = Finder::new(2, 3, 1, 1.0)?;
    /// let memory = index.clone().into_memory();
    /// assert_eq!(Finder::from_memory(memory.clone())?, index);
    ///
    /// let mut damaged = memory;
    /// damaged.marks[1] = 1;
    /// assert_eq!(Finder::from_memory(damaged).err(), Some(Error::BadIndex));
    /// # Ok(())
    /// # }
    /// ```
    pub fn from_memory(memory: Memory) -> Result<Finder, Error> {
        memory.view().check()?;
        Ok(Finder { memory })
    }

    /// Its raw memory, to be read.
    pub fn memory(&self) -> &Memory {
        &self.memory
    }

    /// Its raw memory.
    pub fn into_memory(self) -> Memory {
        self.memory
    }

    /// The index, to be read: by several threads at a time, too.
    pub fn view(&self) -> View<'_> {
        self.memory.view()
    }

    /// The index, to be changed.
    pub fn view_mut(&mut self) -> ViewMut<'_> {
        self.memory.view_mut()
    }

    /// As much scratch as the calls on this index ask for.
    pub fn scratch(&self) -> Result<Scratch, Error> {
        self.view().scratch()
    }

    /// The dim.
    pub fn dim(&self) -> Result<u32, Error> {
        self.view().dim()
    }

    /// The capacity.
    pub fn capacity(&self) -> Result<u32, Error> {
        self.view().capacity()
    }

    /// The degree.
    pub fn degree(&self) -> Result<u32, Error> {
        self.view().degree()
    }

    /// Alpha.
    pub fn alpha(&self) -> Result<f32, Error> {
        self.view().alpha()
    }

    /// The slot at which a search starts; it may be dead.
    pub fn entry(&self) -> Result<u32, Error> {
        self.view().entry()
    }

    /// How many slots are live.
    pub fn live(&self) -> Result<u32, Error> {
        self.view().live()
    }

    /// Whether a slot is live; one outside is not.
    pub fn mark(&self, slot: u32) -> Result<bool, Error> {
        self.view().mark(slot)
    }

    /// The version of a slot; 0 for one outside.
    pub fn slot_version(&self, slot: u32) -> Result<u16, Error> {
        self.view().slot_version(slot)
    }

    /// The figure number of a live slot; none where it is dead or outside.
    pub fn number(&self, slot: u32) -> Result<Option<u32>, Error> {
        self.view().number(slot)
    }

    /// The target at a place among the live ones of a slot's row, if there is one.
    pub fn target(&self, slot: u32, place: u32) -> Result<Option<u32>, Error> {
        self.view().target(slot, place)
    }

    /// The vector of a live slot; none where it is dead or outside.
    pub fn vector(&self, slot: u32) -> Option<&[u8]> {
        self.view().vector(slot)
    }

    /// The live slots, lowest first.
    pub fn live_slots(&self) -> Result<LiveSlots<'_>, Error> {
        self.view().live_slots()
    }

    /// The live slots by rising figure number: [`View::slots_by_number`].
    pub fn slots_by_number(&self) -> Result<&[u32], Error> {
        self.view().slots_by_number()
    }

    /// The live targets of a slot's row, in the order of the row.
    pub fn neighbours(&self, slot: u32) -> Result<Neighbours<'_>, Error> {
        self.view().neighbours(slot)
    }

    /// The `k` nearest to a query that a walk with this beam finds, nearest first: [`View::search`].
    pub fn search(&self, query: &[u8], k: u32, beam: u32, scratch: &mut Scratch) -> Result<Vec<Hit>, Error> {
        self.view().search(query, k, beam, scratch)
    }

    /// Inserts the vectors of `bytes`, each with its figure number, into the lowest free slots, and gives the slots: [`ViewMut::insert`].
    ///
    /// ```
    /// # fn main() -> Result<(), finder::Error> {
    /// let mut index = finder::Finder::new(2, 4, 2, 1.0)?;
    /// let mut scratch = index.scratch()?;
    /// assert_eq!(index.insert(&[1, 2, 3, 4], &[30, 10], 8, &mut scratch)?, [0, 1]);
    /// assert_eq!(index.number(1)?, Some(10));
    /// assert_eq!(index.insert(&[1, 2, 3], &[20], 8, &mut scratch), Err(finder::Error::BadBatch));
    /// assert_eq!(index.insert(&[1, 2], &[30], 8, &mut scratch), Err(finder::Error::BadNumber));
    /// # Ok(())
    /// # }
    /// ```
    pub fn insert(&mut self, bytes: &[u8], numbers: &[u32], beam: u32, scratch: &mut Scratch) -> Result<Vec<u32>, Error> {
        self.view_mut().insert(bytes, numbers, beam, scratch)
    }

    /// Inserts one vector with its figure number into the lowest free slot, and gives the slot: [`ViewMut::insert_one`].
    pub fn insert_one(&mut self, vector: &[u8], number: u32, beam: u32, scratch: &mut Scratch) -> Result<u32, Error> {
        self.view_mut().insert_one(vector, number, beam, scratch)
    }

    /// Deletes the live slots that the ids name and repairs the rows around them: [`ViewMut::delete`].
    ///
    /// ```
    /// # fn main() -> Result<(), finder::Error> {
    /// # let mut index = finder::Finder::new(1, 4, 2, 1.0)?;
    /// # let mut scratch = index.scratch()?;
    /// # for (value, number) in [(0, 30), (3, 10), (10, 20)] { index.insert_one(&[value], number, 8, &mut scratch)?; }
    /// // Slot 9 is outside, and a slot is deleted once.
    /// let stats = index.delete(&[1, 9, 1], 64, 4, &mut scratch)?;
    /// assert_eq!((stats.len(), stats[0].outgoing_seeds), (1, 2));
    /// assert_eq!((index.mark(1)?, index.slot_version(1)?), (false, 1));
    /// # Ok(())
    /// # }
    /// ```
    pub fn delete(&mut self, ids: &[u32], repair_beam: u32, repair_degree: u32, scratch: &mut Scratch) -> Result<Vec<DeleteStats>, Error> {
        self.view_mut().delete(ids, repair_beam, repair_degree, scratch)
    }

    /// Deletes the live slots that carry these figure numbers and repairs the rows around them: [`ViewMut::delete_numbers`].
    ///
    /// ```
    /// # fn main() -> Result<(), finder::Error> {
    /// # let mut index = finder::Finder::new(1, 4, 2, 1.0)?;
    /// # let mut scratch = index.scratch()?;
    /// # for (value, number) in [(0, 30), (3, 10), (10, 20)] { index.insert_one(&[value], number, 8, &mut scratch)?; }
    /// // No figure has the number 7.
    /// assert_eq!(index.delete_numbers(&[10, 7], 64, 4, &mut scratch)?.len(), 1);
    /// assert_eq!((index.number(1)?, index.slots_by_number()?), (None, &[2, 0][..]));
    /// # Ok(())
    /// # }
    /// ```
    pub fn delete_numbers(&mut self, numbers: &[u32], repair_beam: u32, repair_degree: u32, scratch: &mut Scratch) -> Result<Vec<DeleteStats>, Error> {
        self.view_mut().delete_numbers(numbers, repair_beam, repair_degree, scratch)
    }

    /// Enables the guard and chooses its landmarks: [`ViewMut::enable_guard`].
    pub fn enable_guard(&mut self, settings: GuardSettings, scratch: &mut Scratch) -> Result<GuardStatus, Error> {
        self.view_mut().enable_guard(settings, scratch)
    }

    /// The guard's status.
    pub fn guard_status(&self) -> Result<GuardStatus, Error> {
        self.view().guard_status()
    }

    /// Assesses a delete of the slots that the ids name, and deletes nothing: [`View::assess`].
    pub fn assess(&self, ids: &[u32], scratch: &mut Scratch) -> Result<Report, Error> {
        self.view().assess(ids, scratch)
    }

    /// Deletes if the guard admits it: [`ViewMut::guarded_delete`].
    ///
    /// ```
    /// use finder::{Finder, GuardSettings, Guarded, Making, BLANK};
    ///
    /// # fn main() -> Result<(), finder::Error> {
    /// // A chain 0 - 1 - 2 in which only slot 1 leads to slot 2.
    /// let rows = [1, BLANK, 0, 2, 1, BLANK];
    /// let numbers = [30, 10, 20];
    /// let given = Making {
    ///     dim: 1, capacity: 4, degree: 2, alpha: 1.0, entry: 1, count: 3, bytes: &[0, 3, 10], rows: &rows, numbers: &numbers, weights: &[1],
    /// };
    /// let mut index = Finder::create(&given)?;
    /// let mut scratch = index.scratch()?;
    /// index.enable_guard(GuardSettings { landmark_count: 2, multiplier: 1, sample: 4, beam: 4 }, &mut scratch)?;
    /// match index.guarded_delete(&[1], 2, 1, &mut scratch)? {
    ///     Guarded::Deferred(report) => assert_eq!(report.lost, [2]),
    ///     Guarded::Applied { .. } => unreachable!("slot 2 would be lost"),
    /// }
    /// assert!(matches!(index.guarded_delete(&[2], 2, 1, &mut scratch)?, Guarded::Applied { .. }));
    /// # Ok(())
    /// # }
    /// ```
    pub fn guarded_delete(&mut self, ids: &[u32], repair_beam: u32, repair_degree: u32, scratch: &mut Scratch) -> Result<Guarded, Error> {
        self.view_mut().guarded_delete(ids, repair_beam, repair_degree, scratch)
    }

    /// Deletes by figure numbers if the guard admits it: [`ViewMut::guarded_delete_numbers`].
    pub fn guarded_delete_numbers(&mut self, numbers: &[u32], repair_beam: u32, repair_degree: u32, scratch: &mut Scratch) -> Result<Guarded, Error> {
        self.view_mut().guarded_delete_numbers(numbers, repair_beam, repair_degree, scratch)
    }
}
