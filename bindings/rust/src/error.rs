use std::fmt;

/// Why a call was refused. Each number of the library has its variant; a refused call has changed nothing.
///
/// Those that apply are tested in the order of their numbers, but 16 right after 3, and the first that holds is given.
///
/// ```
/// use finder::{Error, Finder};
///
/// assert_eq!(Finder::new(257, 4, 2, 1.0).err(), Some(Error::BadSizes));
/// assert_eq!(Error::BadSizes.number(), 1);
/// assert_eq!(Error::of_number(1), Some(Error::BadSizes));
/// assert_eq!(Error::of_number(0), None);
/// assert_eq!(Error::of_number(99), Some(Error::Unknown(99)));
/// ```
#[derive(Clone, Copy, Debug, PartialEq, Eq, Hash)]
pub enum Error {
    /// 1: dim, capacity or degree is outside its range.
    BadSizes,
    /// 2: alpha is outside 1.0 to 2.0, or NaN.
    BadAlpha,
    /// 3: a slice has another length than it must.
    BadLength,
    /// 4: more vectors are given than there are slots.
    TooMany,
    /// 5: a given row names neither blank nor a given slot, or the entry is not given (0 where none is given).
    BadGiven,
    /// 6: the live count differs from the marks, numbers or summary are not as they must be, the entry is not below capacity, or the guard is on with a setting
    /// or a pool outside its range.
    BadIndex,
    /// 7: a beam, a repair degree or a setting of the guard over its limit, or too many slots or numbers named.
    OverLimit,
    /// 8: the scratch is shorter than the index asks for.
    ShortScratch,
    /// 9: the bytes to be inserted are no whole number of vectors.
    BadBatch,
    /// 10: fewer slots are free than vectors are to be inserted.
    Full,
    /// 11: the guard is off.
    GuardOff,
    /// 12: no slot is live, so there is nothing to guard.
    NoLive,
    /// 13: one slot alone is live, so there is no landmark beside the entry.
    NoLandmark,
    /// 15: a number to be given is 0, carried by a live slot already, or twice in the list.
    BadNumber,
    /// 16: a weight is outside 1 to 4, or their sum is over 256.
    BadWeights,
    /// Any other number, which this crate does not know: the archive is newer than the crate.
    Unknown(u32),
}

impl Error {
    /// The error of a number, and none for 0, which is no refusal.
    pub fn of_number(number: u32) -> Option<Error> {
        Some(match number {
            0 => return None,
            1 => Error::BadSizes,
            2 => Error::BadAlpha,
            3 => Error::BadLength,
            4 => Error::TooMany,
            5 => Error::BadGiven,
            6 => Error::BadIndex,
            7 => Error::OverLimit,
            8 => Error::ShortScratch,
            9 => Error::BadBatch,
            10 => Error::Full,
            11 => Error::GuardOff,
            12 => Error::NoLive,
            13 => Error::NoLandmark,
            15 => Error::BadNumber,
            16 => Error::BadWeights,
            other => Error::Unknown(other),
        })
    }

    /// The library's number.
    pub fn number(self) -> u32 {
        match self {
            Error::BadSizes => 1,
            Error::BadAlpha => 2,
            Error::BadLength => 3,
            Error::TooMany => 4,
            Error::BadGiven => 5,
            Error::BadIndex => 6,
            Error::OverLimit => 7,
            Error::ShortScratch => 8,
            Error::BadBatch => 9,
            Error::Full => 10,
            Error::GuardOff => 11,
            Error::NoLive => 12,
            Error::NoLandmark => 13,
            Error::BadNumber => 15,
            Error::BadWeights => 16,
            Error::Unknown(other) => other,
        }
    }

    fn reason(self) -> &'static str {
        match self {
            Error::BadSizes => "dim, capacity or degree is outside its range",
            Error::BadAlpha => "alpha is outside 1.0 to 2.0",
            Error::BadLength => "a slice has another length than it must",
            Error::TooMany => "more vectors are given than there are slots",
            Error::BadGiven => "a given row or the entry names a slot that is not given",
            Error::BadIndex => "live count, numbers, summary, entry or guard do not fit the memory",
            Error::OverLimit => "a beam, a repair degree, a setting of the guard or the length of a list of names is over its limit",
            Error::ShortScratch => "the scratch is too short",
            Error::BadBatch => "the bytes to be inserted are no whole number of vectors",
            Error::Full => "fewer slots are free than vectors are to be inserted",
            Error::GuardOff => "the guard is off",
            Error::NoLive => "no slot is live",
            Error::NoLandmark => "one slot alone is live",
            Error::BadNumber => "a number to be given is 0, carried by a live slot already, or twice in the list",
            Error::BadWeights => "a weight is outside 1 to 4, or their sum is over 256",
            Error::Unknown(_) => "for a reason that this crate does not know",
        }
    }

    // What a function of the library returned.
    pub(crate) fn check(number: u32) -> Result<(), Error> {
        match Error::of_number(number) {
            None => Ok(()),
            Some(error) => Err(error),
        }
    }
}

impl fmt::Display for Error {
    fn fmt(&self, f: &mut fmt::Formatter<'_>) -> fmt::Result {
        write!(f, "refused with {}: {}", self.number(), self.reason())
    }
}

impl std::error::Error for Error {}
