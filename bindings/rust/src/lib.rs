//! The picture finder for Rust: a dynamic graph index over byte vectors with weighted squared distance, proved in Rattle, over its C archive.
//!
//! A [`Finder`] owns an index and its memory. A [`View`] reads an index that lies in memory of somebody else, and a [`ViewMut`] changes one; a `Finder`
//! lends itself as either. Calls that walk the graph take a [`Scratch`], so that several threads search one index at a time, each with its own. What a call
//! refuses is an [`Error`]; it has then changed nothing, and no input makes the crate panic, but a [`Scratch::of_words`] of
//! more words than memory can have.
//!
//! ```
//! use finder::Finder;
//!
//! # fn main() -> Result<(), finder::Error> {
//! // Vectors of 4 bytes, at most 100 of them, rows of 8 references, alpha 1.2.
//! let mut index = Finder::new(4, 100, 8, 1.2)?;
//! let mut scratch = index.scratch()?;
//! // Two vectors with their figure numbers.
//! index.insert_one(&[200, 210, 220, 230], 1007, 64, &mut scratch)?;
//! index.insert_one(&[20, 40, 60, 80], 1008, 64, &mut scratch)?;
//!
//! let hits = index.search(&[22, 40, 60, 80], 2, 64, &mut scratch)?;
//! assert_eq!((hits[0].number, hits[0].distance), (1008, 4.0));
//! assert_eq!(hits[1].number, 1007);
//!
//! index.delete_numbers(&[1008], 64, 4, &mut scratch)?;
//! assert_eq!(index.live()?, 1);
//! # Ok(())
//! # }
//! ```
//!
//! Each live slot carries a figure number, 1 to 4,294,967,295, that no other has. After a delete, a slot may be given to another vector; a number stays with its
//! vector as long as that is in the index.
//!
//! Each place of a vector has a weight, 1 to 4, by which its squared difference counts in a distance: 1 for all with [`Finder::new`], any that make 256 at most
//! with [`Finder::with_weights`]. At dim 256 only weights of 1 fit.
//!
//! New vectors are better inserted one to a call ([`Finder::insert_one`]): those of one call do not find each other.
//!
//! # The archive
//!
//! The crate links `libfinder.a`, which `rt lib --cpu=x86-64` in `crates/finder` writes to `crates/finder/out`; where it lies elsewhere, the environment variable
//! `FINDER_LIB_DIR` names its folder. What is proved is the archive's code, not this crate.

#![deny(missing_docs)]
#![deny(unsafe_code)]

mod answers;
mod changing;
mod error;
mod owned;
#[allow(unsafe_code)]
mod raw;
mod reading;
mod stored;

pub use answers::{DeleteStats, GuardSettings, GuardStatus, Guarded, Hit, Making, Report, Scratch};
pub use changing::{SlicesMut, ViewMut};
pub use error::Error;
pub use owned::{Finder, Memory};
pub use reading::{LiveSlots, Neighbours, Slices, View};
pub use stored::LoadError;

/// The words of an index, as include/finder.h has them.
pub type Words = [u32; INDEX_WORDS];

/// The version of the archive that is linked: 10,000 for each major version, 100 for each minor one and 1 for each patch.
///
/// ```
/// assert_eq!(finder::version() / 10_000, 3);
/// ```
pub fn version() -> u32 {
    raw::version()
}

/// How many words an index has.
pub const INDEX_WORDS: usize = 12;
/// The length of the landmark pool.
pub const POOL: usize = 1024;
/// No slot: an empty place of a row or of the summary.
pub const BLANK: u32 = u32::MAX;
/// The largest dim.
pub const MAX_DIM: u32 = 256;
/// The largest capacity.
pub const MAX_CAPACITY: u32 = 65_536;
/// The largest degree.
pub const MAX_DEGREE: u32 = 64;
/// The largest weight of a place; the least is 1.
pub const MAX_WEIGHT: u8 = 4;
/// The largest sum of an index's weights.
pub const MAX_WEIGHT_SUM: u32 = 256;
/// The largest beam, and the most that a search finds.
pub const MAX_BEAM: u32 = 1024;
/// The largest landmark count of the guard.
pub const MAX_LANDMARKS: u32 = 64;
/// The largest multiplier of the guard.
pub const MAX_MULTIPLIER: u32 = 16;
/// The largest sample of the guard.
pub const MAX_SAMPLE: u32 = 65_536;
/// The most slots or numbers that a delete names.
pub const MAX_IDS: usize = 256;
/// The largest repair beam of a delete.
pub const MAX_REPAIR_BEAM: u32 = 256;
/// The largest repair degree of a delete.
pub const MAX_REPAIR_DEGREE: u32 = 16;
