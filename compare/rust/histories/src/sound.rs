//! Sound calls on one index on both sides. Each goes to the Rust and to the library, which go on from what they left themselves, and their answers are
//! compared: an error says what differs.
use crate::both::Both;
use crate::finder::call;
use crate::lent::{Lent, Piece, Rng};
use crate::table::{self, BLANK};
use diskann_sorted::histories::Report;

pub type Same<T> = Result<T, String>;

/// The most ids that one delete names.
pub const IDS: usize = 256;

pub struct Sound {
    pub both: Both,
    pub rng: Rng,
    scratch: Lent<u32>,
    /// Figure numbers run on: the last that was given.
    last: u32,
}

/// An error where a call gave another number than it should, or left a piece otherwise.
fn alike(call: &str, expected: u32, refused: u32, pieces: Vec<(&str, &mut dyn Piece)>) -> Same<()> {
    if expected != refused {
        return Err(format!("{call}: expected {expected} got {refused}"));
    }
    match pieces.into_iter().find_map(|(name, piece)| piece.difference().map(|what| format!("{call}: {name}: {what}"))) {
        Some(said) => Err(said),
        None => Ok(()),
    }
}

impl Sound {
    /// An index of which slot 0 is given, with an empty row.
    pub fn new(dim: usize, capacity: u32, degree: usize, alpha: f32, vector: &[u8], mut rng: Rng) -> Sound {
        let both = Both::made([dim as u32, capacity, degree as u32], alpha, 0, vector, &vec![BLANK; degree], &mut rng);
        let scratch = Lent::junk(table::scratch_words(capacity) as usize, &mut rng);
        Sound { both, rng, scratch, last: 1 }
    }
    fn expect_words(&mut self) {
        let b = &mut self.both;
        let mut words = table::rewritten(&b.words(), b.rust.entry(), b.rust.live());
        if let Some((s, pool)) = b.rust.guard() {
            words[6..].copy_from_slice(&[1, s[0], s[1], s[2], s[3], pool.len() as u32]);
        }
        b.words.expect(&words);
    }
    /// The slots that the vectors get; none where there are too few.
    pub fn insert(&mut self, batch: &[Vec<u8>], beam: u32) -> Same<Option<Vec<u32>>> {
        let bytes = batch.concat();
        let (mut slots, mut found) = (Lent::junk(batch.len(), &mut self.rng), Lent::junk(1, &mut self.rng));
        let filled = match self.both.rust.insert(batch.to_vec(), beam as usize) {
            Ok(filled) => Some(filled),
            Err(said) if said.starts_with("err 10 ") => None,
            Err(said) => return Err(format!("insert by the Rust: {said}")),
        };
        let numbers: Vec<u32> = (self.last + 1..).take(batch.len()).collect();
        if let Some(filled) = &filled {
            slots.expect(filled);
            found.expect(&[filled.len() as u32]);
            filled.iter().zip(&numbers).for_each(|(&slot, &number)| self.both.slices.numbers.expect_at(slot as usize, number));
            self.last += filled.len() as u32;
        }
        self.expect_words();
        let lent = self.both.slices.lengths();
        let refused = call!(
            finder_insert, self.both, lent, bytes.as_ptr(), bytes.len(), numbers.as_ptr(), numbers.len(), beam, slots.mut_ptr(), batch.len(), self.scratch.mut_ptr(),
            self.scratch.len(), found.mut_ptr()
        );
        let pieces: Vec<(&str, &mut dyn Piece)> = vec![("slots", &mut slots), ("found", &mut found), ("words", &mut self.both.words)];
        alike("insert", if filled.is_some() { 0 } else { 10 }, refused, pieces)?;
        Ok(filled)
    }
    pub fn delete(&mut self, ids: &[u32], beam: u32, degree: u32) -> Same<()> {
        let done = self.both.rust.delete(ids, beam as usize, degree as usize);
        let (mut stats, mut found) = (Lent::junk(4 * ids.len(), &mut self.rng), Lent::junk(1, &mut self.rng));
        stats.expect(&done.concat());
        found.expect(&[done.len() as u32]);
        self.expect_words();
        let lent = self.both.slices.lengths();
        let refused = call!(
            finder_delete, self.both, lent, ids.as_ptr(), ids.len(), beam, degree, stats.mut_ptr(), ids.len(), self.scratch.mut_ptr(),
            self.scratch.len(), found.mut_ptr()
        );
        let pieces: Vec<(&str, &mut dyn Piece)> = vec![("stats", &mut stats), ("found", &mut found), ("words", &mut self.both.words)];
        alike("delete", 0, refused, pieces)
    }
    /// Whether it was admitted.
    pub fn guarded_delete(&mut self, ids: &[u32], beam: u32, degree: u32) -> Same<bool> {
        let (applied, Report { numbers, checked: looked_at, lost: gone }) = self.both.rust.guarded_delete(ids, beam as usize, degree as usize)?;
        let done = applied.as_deref().unwrap_or(&[]);
        let (mut stats, mut found) = (Lent::junk(4 * ids.len(), &mut self.rng), Lent::junk(1, &mut self.rng));
        let (mut checked, mut lost, mut report) = (Lent::junk(64, &mut self.rng), Lent::junk(64, &mut self.rng), Lent::junk(8, &mut self.rng));
        stats.expect(&done.concat());
        found.expect(&[done.len() as u32]);
        checked.expect(&looked_at);
        lost.expect(&gone);
        report.expect(&numbers);
        self.expect_words();
        let lent = self.both.slices.lengths();
        let refused = call!(
            finder_guarded_delete, self.both, lent, ids.as_ptr(), ids.len(), beam, degree, stats.mut_ptr(), ids.len(), checked.mut_ptr(), 64,
            lost.mut_ptr(), 64, self.scratch.mut_ptr(), self.scratch.len(), found.mut_ptr(), report.mut_ptr()
        );
        let mut pieces: Vec<(&str, &mut dyn Piece)> = vec![("stats", &mut stats), ("found", &mut found), ("words", &mut self.both.words)];
        pieces.push(("checked", &mut checked));
        pieces.push(("lost", &mut lost));
        pieces.push(("report", &mut report));
        alike("guarded delete", 0, refused, pieces)?;
        Ok(applied.is_some())
    }
    pub fn enable(&mut self, settings: [u32; 4]) -> Same<()> {
        let said = self.both.rust.enable(settings)?;
        let mut status = Lent::junk(5, &mut self.rng);
        status.expect(&said);
        self.expect_words();
        let (lent, [count, multiplier, sample, beam]) = (self.both.slices.lengths(), settings);
        let refused = call!(
            finder_guard_enable, self.both, lent, count, multiplier, sample, beam, self.scratch.mut_ptr(), self.scratch.len(), status.mut_ptr()
        );
        alike("guard enable", 0, refused, vec![("status", &mut status), ("words", &mut self.both.words)])
    }
    /// The slots found and the bits of their distances.
    pub fn search(&mut self, query: &[u8], k: usize, beam: u32) -> Same<Vec<(u32, u32)>> {
        let pairs: Vec<(u32, u32)> = self.both.rust.search(query, k, beam as usize).into_iter().map(|p| (p.0, p.1.to_bits())).collect();
        let [mut slots, mut dists, mut numbers, mut found] = [k, k, k, 1].map(|n| Lent::junk(n, &mut self.rng));
        slots.expect(&pairs.iter().map(|p| p.0).collect::<Vec<_>>());
        dists.expect(&pairs.iter().map(|p| p.1).collect::<Vec<_>>());
        numbers.expect(&pairs.iter().map(|p| self.both.slices.numbers.items()[p.0 as usize]).collect::<Vec<_>>());
        found.expect(&[pairs.len() as u32]);
        let lent = self.both.slices.lengths();
        let refused = call!(
            finder_search, self.both, lent, query.as_ptr(), query.len(), k as u32, beam, slots.mut_ptr(), k, dists.mut_ptr(), k, numbers.mut_ptr(), k,
            self.scratch.mut_ptr(), self.scratch.len(), found.mut_ptr()
        );
        let outputs: [(&str, &mut dyn Piece); 3] = [("slots", &mut slots), ("distances (bits)", &mut dists), ("numbers", &mut numbers)];
        alike("search", 0, refused, outputs.into_iter().chain([("found", &mut found as &mut dyn Piece)]).collect())?;
        Ok(pairs)
    }
    /// Compares every byte of the two indexes: words, vectors, rows with their versions, versions, marks, pool; and the numbers and the summary with what they must be.
    pub fn whole(&mut self) -> Same<()> {
        self.expect_words();
        let b = &mut self.both;
        b.slices.expect(&b.rust.stored(), &[], &[]);
        if let Some((_, pool)) = b.rust.guard() {
            b.slices.pool.expect(&pool);
        }
        let mut pieces = b.slices.pieces();
        pieces.push(("words", &mut b.words));
        alike("the index", 0, 0, pieces)
    }
}
