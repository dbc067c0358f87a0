//! What calls take and give besides numbers.

use crate::{raw, Error, BLANK};

/// What an index is made of: its sizes and weights, and the vectors, rows and figure numbers of its first `count` slots.
///
/// `bytes` has the vectors, one after the other, `rows` the references, `degree` for each given slot, each [`BLANK`] or a given slot, and `numbers` the figure
/// numbers, one for each given slot. `weights` has the weight of each place of a vector; where all are 1, a distance is a plain sum of squared differences.
#[derive(Clone, Copy, Debug)]
pub struct Making<'a> {
    /// How many bytes a vector has: 1 to 256.
    pub dim: u32,
    /// How many slots there are: 1 to 65,536.
    pub capacity: u32,
    /// How many references a row has: 1 to 64.
    pub degree: u32,
    /// How far pruning reaches: 1.0 to 2.0.
    pub alpha: f32,
    /// The slot at which a search starts; 0 where none is given.
    pub entry: u32,
    /// How many slots are given.
    pub count: u32,
    /// Their vectors.
    pub bytes: &'a [u8],
    /// Their rows.
    pub rows: &'a [u32],
    /// Their figure numbers: 1 to 4,294,967,295, no two equal.
    pub numbers: &'a [u32],
    /// What each of the `dim` places counts in a distance: 1 to 4, and 256 at most together, so that at dim 256 all are 1.
    pub weights: &'a [u8],
}

impl Making<'_> {
    pub(crate) fn arguments(&self) -> raw::CreateArguments<'_> {
        raw::CreateArguments {
            dim: self.dim,
            capacity: self.capacity,
            degree: self.degree,
            alpha: self.alpha,
            entry: self.entry,
            count: self.count,
            bytes: self.bytes,
            rows: self.rows,
            numbers: self.numbers,
            weights: self.weights,
        }
    }
}

/// The memory that calls work in. One serves any number of calls, one at a time, on every index whose sizes ask for no more.
///
/// ```
/// use finder::{Error, Finder, Scratch};
///
/// # fn main() -> Result<(), Error> {
/// let index = Finder::new(16, 1000, 8, 1.2)?;
/// let mut scratch = Scratch::new(16, 1000, 8)?;
/// assert_eq!(scratch.words(), index.scratch()?.words());
/// assert_eq!(index.search(&[0; 16], 1, 8, &mut scratch)?, []);
///
/// let mut short = Scratch::of_words(3);
/// assert_eq!(index.search(&[0; 16], 1, 8, &mut short), Err(Error::ShortScratch));
/// # Ok(())
/// # }
/// ```
#[derive(Clone, Debug)]
pub struct Scratch(pub(crate) Vec<u32>);

impl Scratch {
    /// As much as an index of these sizes asks for.
    pub fn new(dim: u32, capacity: u32, degree: u32) -> Result<Scratch, Error> {
        Scratch::words_for(dim, capacity, degree).map(Scratch::of_words)
    }

    /// How many words an index of these sizes asks for, at most 8,388,608.
    pub fn words_for(dim: u32, capacity: u32, degree: u32) -> Result<usize, Error> {
        let mut size = 0;
        Error::check(raw::scratch_words(dim, capacity, degree, &mut size))?;
        Ok(size as usize)
    }

    /// So many words. Panics where memory cannot have as many.
    pub fn of_words(words: usize) -> Scratch {
        Scratch(vec![0; words])
    }

    /// How many words it has.
    pub fn words(&self) -> usize {
        self.0.len()
    }
}

/// One slot that a search found.
#[derive(Clone, Copy, Debug, PartialEq)]
pub struct Hit {
    /// The slot.
    pub slot: u32,
    /// Its figure number.
    pub number: u32,
    /// The sum of squared differences, each times its place's weight: a whole number below 2^24.
    pub distance: f32,
}

/// The counts of one slot that a delete emptied.
#[repr(C)]
#[derive(Clone, Copy, Debug, Default, PartialEq, Eq)]
pub struct DeleteStats {
    /// The live targets of its row, as they stood before.
    pub outgoing_seeds: u32,
    /// The slots of a walk to its vector whose row held it.
    pub recovered_in_neighbors: u32,
    /// How many of both, each counted once, stay live.
    pub repair_candidates: u32,
    /// The links put between them, one each way.
    pub repair_edges_attempted: u32,
}

/// The guard's settings, in each of which 0 acts, and is stored, as 1.
#[derive(Clone, Copy, Debug, PartialEq, Eq)]
pub struct GuardSettings {
    /// How many landmarks an assessment looks at: at most 64.
    pub landmark_count: u32,
    /// How many times as many the pool holds: at most 16.
    pub multiplier: u32,
    /// Of how many slots, evenly spread, landmarks are chosen: at most 65,536.
    pub sample: u32,
    /// The beam of the trial walks: at most 1,024.
    pub beam: u32,
}

/// The guard's status; all 0 where it is off.
#[derive(Clone, Copy, Debug, Default, PartialEq, Eq)]
pub struct GuardStatus {
    /// Whether it is on.
    pub enabled: bool,
    /// How many landmarks the pool holds.
    pub pool_size: u32,
    /// How many of them are live.
    pub live_landmarks: u32,
    /// How many an assessment looks at.
    pub landmark_count: u32,
    /// The beam of the trial walks.
    pub beam: u32,
}

impl GuardStatus {
    pub(crate) fn of(words: raw::StatusWords) -> GuardStatus {
        GuardStatus {
            enabled: words.enabled != 0,
            pool_size: words.pool_size,
            live_landmarks: words.live_landmarks,
            landmark_count: words.landmark_count,
            beam: words.beam,
        }
    }
}

/// A report on a delete: the landmarks that trial walks looked for, those lost, and the counts.
#[derive(Clone, Debug, PartialEq, Eq)]
pub struct Report {
    /// Whether the delete is admitted.
    pub admitted: bool,
    /// How many live slots are named.
    pub requested: u32,
    /// Where the trial walks start; none where no live slot was named, or none stays.
    pub entry: Option<u32>,
    /// The landmarks looked at.
    pub checked: Vec<u32>,
    /// How many of them a walk finds now.
    pub baseline: u32,
    /// How many it finds with the named slots left out.
    pub residual: u32,
    /// Those that it finds now and not then.
    pub lost: Vec<u32>,
    /// How many of those looked at were chosen beside the pool.
    pub supplemental: u32,
}

impl Report {
    pub(crate) fn of(words: raw::ReportWords, mut checked: Vec<u32>, mut lost: Vec<u32>) -> Report {
        checked.truncate(words.checked as usize);
        lost.truncate(words.lost as usize);
        Report {
            admitted: words.admitted != 0,
            requested: words.requested,
            entry: (words.entry != BLANK).then_some(words.entry),
            checked,
            baseline: words.baseline,
            residual: words.residual,
            lost,
            supplemental: words.supplemental,
        }
    }
}

/// What became of a guarded delete.
#[derive(Clone, Debug, PartialEq, Eq)]
pub enum Guarded {
    /// It was admitted and carried out.
    Applied {
        /// The counts of each slot that it emptied, in the order of the slots.
        stats: Vec<DeleteStats>,
        /// Why it was admitted.
        report: Report,
    },
    /// It was not admitted, and nothing was deleted.
    Deferred(Report),
}
