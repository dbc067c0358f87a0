//! An index as a stream of bytes, and back.

use crate::{Error, Finder, Memory, Scratch, INDEX_WORDS};
use std::fmt;
use std::io::{self, Read, Write};

/// Why an index was not loaded.
#[derive(Debug)]
pub enum LoadError {
    /// The bytes could not be read, or ended too early.
    Io(io::Error),
    /// They are no index.
    Refused(Error),
}

impl fmt::Display for LoadError {
    fn fmt(&self, f: &mut fmt::Formatter<'_>) -> fmt::Result {
        match self {
            LoadError::Io(error) => write!(f, "not read: {error}"),
            LoadError::Refused(error) => error.fmt(f),
        }
    }
}

impl std::error::Error for LoadError {
    fn source(&self) -> Option<&(dyn std::error::Error + 'static)> {
        match self {
            LoadError::Io(error) => Some(error),
            LoadError::Refused(error) => Some(error),
        }
    }
}

impl From<io::Error> for LoadError {
    fn from(error: io::Error) -> LoadError {
        LoadError::Io(error)
    }
}

impl From<Error> for LoadError {
    fn from(error: Error) -> LoadError {
        LoadError::Refused(error)
    }
}

// How many bytes are turned at a time.
const CHUNK: usize = 1 << 16;

// Numbers of 2 or 4 bytes, the lowest byte first.
macro_rules! numbers {
    ($write:ident, $read:ident, $type:ty) => {
        fn $write(out: &mut impl Write, numbers: &[$type]) -> io::Result<()> {
            const SIZE: usize = std::mem::size_of::<$type>();
            let mut bytes = Vec::with_capacity(CHUNK.min(numbers.len() * SIZE));
            for part in numbers.chunks(CHUNK / SIZE) {
                bytes.clear();
                bytes.extend(part.iter().flat_map(|number| number.to_le_bytes()));
                out.write_all(&bytes)?;
            }
            Ok(())
        }

        fn $read(from: &mut impl Read, numbers: &mut [$type]) -> io::Result<()> {
            const SIZE: usize = std::mem::size_of::<$type>();
            let mut bytes = vec![0; CHUNK.min(numbers.len() * SIZE)];
            for part in numbers.chunks_mut(CHUNK / SIZE) {
                let bytes = &mut bytes[..part.len() * SIZE];
                from.read_exact(bytes)?;
                for (number, source) in part.iter_mut().zip(bytes.chunks_exact(SIZE)) {
                    let mut own = [0; SIZE];
                    own.copy_from_slice(source);
                    *number = <$type>::from_le_bytes(own);
                }
            }
            Ok(())
        }
    };
}

numbers!(write_u16, read_u16, u16);
numbers!(write_u32, read_u32, u32);

impl Finder {
    /// Writes the raw memory: the twelve words, then the nine slices in the order of `struct finder` of include/finder.h (which is not that of the
    /// block that a program in C stores), each number with its lowest byte first, and nothing between them. There is no checksum; who needs one puts it around.
    /// What version 2 of this crate stored lacks the weights at its end: dim bytes, all 1.
    ///
    /// ```
    /// use finder::Finder;
    ///
    /// # fn main() -> Result<(), Box<dyn std::error::Error>> {
    /// let mut index = Finder::new(2, 3, 1, 1.0)?;
    /// let mut scratch = index.scratch()?;
    /// index.insert_one(&[7, 8], 30, 4, &mut scratch)?;
    ///
    /// let mut bytes = Vec::new();
    /// index.store(&mut bytes)?;
    /// assert_eq!(Finder::load(&mut bytes.as_slice())?, index);
    ///
    /// // Cut off, or with another live count: no index.
    /// assert!(Finder::load(&mut &bytes[..50]).is_err());
    /// bytes[4 * 5] = 2;
    /// assert!(Finder::load(&mut bytes.as_slice()).is_err());
    /// # Ok(())
    /// # }
    /// ```
    pub fn store(&self, out: &mut impl Write) -> io::Result<()> {
        let memory = self.memory();
        write_u32(out, &memory.words)?;
        out.write_all(&memory.vectors)?;
        write_u32(out, &memory.targets)?;
        write_u16(out, &memory.edges)?;
        write_u16(out, &memory.versions)?;
        out.write_all(&memory.marks)?;
        write_u32(out, &memory.pool)?;
        write_u32(out, &memory.numbers)?;
        write_u32(out, &memory.summary)?;
        out.write_all(&memory.weights)
    }

    /// Reads what [`Finder::store`] wrote, and no byte more. Any other bytes are refused or make an index that can be called without harm; that the vectors
    /// and rows are those that were stored is not tested.
    pub fn load(from: &mut impl Read) -> Result<Finder, LoadError> {
        let mut words = [0; INDEX_WORDS];
        read_u32(from, &mut words)?;
        let [dim, capacity, degree, ..] = words;
        // Refuses sizes out of range before anything is allocated for them.
        Scratch::words_for(dim, capacity, degree)?;
        let mut memory = Memory::blank(dim, capacity, degree);
        memory.words = words;
        from.read_exact(&mut memory.vectors)?;
        read_u32(from, &mut memory.targets)?;
        read_u16(from, &mut memory.edges)?;
        read_u16(from, &mut memory.versions)?;
        from.read_exact(&mut memory.marks)?;
        read_u32(from, &mut memory.pool)?;
        read_u32(from, &mut memory.numbers)?;
        read_u32(from, &mut memory.summary)?;
        from.read_exact(&mut memory.weights)?;
        Ok(Finder::from_memory(memory)?)
    }
}
