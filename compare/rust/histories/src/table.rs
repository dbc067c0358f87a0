//! Document 01's table of turned-back calls with what document 02's E1 and E3 add to it, and what they say of making and of figure numbers. Written from the documents
//! alone, not from the library, but for the size answer, which is the library's own.
//! Each function gives the number of the first row that holds, in the order of the table, else 0.
use diskann_sorted::histories::Stored;
use std::collections::{BTreeMap, BTreeSet};

/// dim, capacity, degree, bits of alpha, entry, live count, whether the guard is on, its four settings, length of its pool
pub type Words = [u32; 12];
/// Lengths lent: vectors, targets, edge versions, versions, marks, pool, numbers, summary, weights.
pub type Lengths = [usize; 9];

/// Of an index its marks, its figure numbers and its summary, which row 6 looks at, and its weights, which row 16 does.
pub struct Labels<'a> {
    pub marks: &'a [u8],
    pub numbers: &'a [u32],
    pub summary: &'a [u32],
    pub weights: &'a [u8],
}

pub const BLANK: u32 = u32::MAX;
/// The library's own size answer, as it documents it.
pub fn scratch_words(capacity: u32) -> u64 {
    169_984 + capacity as u64
}

fn first(rows: &[(u32, bool)]) -> u32 {
    rows.iter().find(|row| row.1).map_or(0, |row| row.0)
}

fn sizes(dim: u32, capacity: u32, degree: u32) -> bool {
    !(1..=256).contains(&dim) || !(1..=65_536).contains(&capacity) || !(1..=64).contains(&degree)
}

fn alpha(bits: u32) -> bool {
    !(1.0..=2.0).contains(&f32::from_bits(bits))
}

pub fn exact(dim: u32, capacity: u32, degree: u32) -> [u64; 9] {
    let (dim, capacity, degree) = (dim as u64, capacity as u64, degree as u64);
    [capacity * dim, capacity * degree, capacity * degree, capacity, capacity, 1_024, capacity, capacity, dim]
}

fn lengths(dim: u32, capacity: u32, degree: u32, lent: &Lengths) -> bool {
    exact(dim, capacity, degree) != lent.map(|n| n as u64)
}

// ---- weights

/// Row 16: a weight is outside 1 to 4, or their sum exceeds 256.
pub fn overweight(weights: &[u8]) -> bool {
    weights.iter().any(|w| !(1..=4).contains(w)) || weights.iter().map(|&w| w as u32).sum::<u32>() > 256
}

// ---- figure numbers

/// The live slots by their numbers; none where a live slot has 0, a dead one has a number, or two have the same.
pub fn by_number(marks: &[u8], numbers: &[u32]) -> Option<BTreeMap<u32, u32>> {
    let mut slots = BTreeMap::new();
    for (slot, (&mark, &number)) in marks.iter().zip(numbers).enumerate() {
        if (mark != 0) != (number != 0) || (number != 0 && slots.insert(number, slot as u32).is_some()) {
            return None;
        }
    }
    Some(slots)
}

/// The live slots by rising number, then blanks; none where the numbers break their rules.
pub fn summary(marks: &[u8], numbers: &[u32]) -> Option<Vec<u32>> {
    let mut words: Vec<u32> = by_number(marks, numbers)?.into_values().collect();
    words.resize(marks.len(), BLANK);
    Some(words)
}

/// Row 6's part: the numbers or the summary break their rules.
pub fn mislabelled(l: &Labels) -> bool {
    summary(l.marks, l.numbers).is_none_or(|words| words != l.summary)
}

/// Row 15: a given number is 0, live already, or twice in the list.
fn unfit(given: &[u32], live: &BTreeSet<u32>) -> bool {
    let mut seen = live.clone();
    given.iter().any(|&number| number == 0 || !seen.insert(number))
}

/// The numbers that live slots carry.
pub fn live_numbers(marks: &[u8], numbers: &[u32]) -> BTreeSet<u32> {
    marks.iter().zip(numbers).filter(|slot| *slot.0 != 0).map(|slot| *slot.1).collect()
}

/// The slots of the live ones among the numbers that a delete names.
pub fn named(names: &[u32], marks: &[u8], numbers: &[u32]) -> Vec<u32> {
    let slots = by_number(marks, numbers).unwrap();
    names.iter().filter_map(|number| slots.get(number).copied()).collect()
}

/// The numbers after a call: these slots were filled with vectors of the given numbers, and slots that are dead now have none.
pub fn renumbered(numbers: &[u32], filled: &[u32], given: &[u32], marks: &[u8]) -> Vec<u32> {
    let mut after = numbers.to_vec();
    filled.iter().zip(given).for_each(|(&slot, &number)| after[slot as usize] = number);
    after.iter_mut().zip(marks).filter(|slot| *slot.1 == 0).for_each(|slot| *slot.0 = 0);
    after
}

// ---- the rows

pub fn size_answer(dim: u32, capacity: u32, degree: u32) -> u32 {
    first(&[(1, sizes(dim, capacity, degree))])
}

/// What a making is given: its sizes, alpha's bits, entry and count, how many bytes, its rows, its numbers and its weights.
pub struct Given<'a> {
    pub sizes: [u32; 3],
    pub alpha: u32,
    pub entry: u32,
    pub count: u32,
    pub bytes: usize,
    pub rows: &'a [u32],
    pub numbers: &'a [u32],
    pub weights: &'a [u8],
}

pub fn making(g: &Given, lent: &Lengths) -> u32 {
    let ([dim, capacity, degree], count) = (g.sizes, g.count as u64);
    let given = g.bytes as u64 == count * dim as u64 && g.rows.len() as u64 == count * degree as u64 && g.numbers.len() as u64 == count;
    let given = given && g.weights.len() == dim as usize;
    first(&[
        (1, sizes(dim, capacity, degree)),
        (2, alpha(g.alpha)),
        (3, lengths(dim, capacity, degree, lent) || !given),
        (16, overweight(g.weights)),
        (4, g.count > capacity),
        (5, g.rows.iter().any(|&t| t != BLANK && t >= g.count) || if g.count == 0 { g.entry != 0 } else { g.entry >= g.count }),
        (15, unfit(g.numbers, &BTreeSet::new())),
    ])
}

/// The rows that every call on an index has; `wrong` is its own part of 3, `mislabelled` says whether numbers or summary break row 6.
pub fn shared(i: &Words, lent: &Lengths, l: &Labels, wrong: bool, mislabelled: impl FnOnce() -> bool) -> u32 {
    let live = l.marks.iter().filter(|&&m| m != 0).count();
    let settings = [(i[7], 64), (i[8], 16), (i[9], 65_536), (i[10], 1_024)];
    let guard = i[6] != 0 && (settings.iter().any(|&(x, limit)| x == 0 || x > limit) || i[11] > 1_024);
    first(&[
        (1, sizes(i[0], i[1], i[2])),
        (2, alpha(i[3])),
        (3, lengths(i[0], i[1], i[2], lent) || wrong),
        (16, overweight(l.weights)),
        (6, i[5] as usize != live || i[4] >= i[1] || guard || mislabelled()),
    ])
}

/// The same with a call's own rows after 6.
fn on_index(i: &Words, lent: &Lengths, l: &Labels, wrong: bool, more: &[(u32, bool)]) -> u32 {
    match shared(i, lent, l, wrong, || mislabelled(l)) {
        0 => first(more),
        n => n,
    }
}

pub fn reading(i: &Words, lent: &Lengths, l: &Labels) -> u32 {
    on_index(i, lent, l, false, &[])
}

#[allow(clippy::too_many_arguments)]
pub fn search(i: &Words, lent: &Lengths, l: &Labels, query: usize, k: u32, beam: u32, out: [usize; 3], scratch: usize) -> u32 {
    let over = beam > 1_024 || out.iter().any(|&n| k as usize > n);
    let short = (scratch as u64) < scratch_words(i[1]);
    on_index(i, lent, l, query != i[0] as usize, &[(7, over), (8, short)])
}

#[allow(clippy::too_many_arguments)]
pub fn insert(i: &Words, lent: &Lengths, l: &Labels, bytes: usize, given: &[u32], beam: u32, slots: usize, scratch: usize) -> u32 {
    let dim = i[0].max(1) as usize; // 0 is row 1's
    let free = i[1].saturating_sub(i[5]) as usize;
    let short = (scratch as u64) < scratch_words(i[1]);
    let unfit = unfit(given, &live_numbers(l.marks, l.numbers));
    let more = [(7, beam > 1_024), (8, short), (9, bytes % dim != 0), (10, bytes / dim > free), (15, unfit)];
    on_index(i, lent, l, slots < bytes / dim || given.len() != bytes / dim, &more)
}

/// The names of a delete are slots or numbers: all count, as they are given.
#[allow(clippy::too_many_arguments)]
pub fn delete(i: &Words, lent: &Lengths, l: &Labels, names: usize, beam: u32, degree: u32, stats: usize, scratch: usize) -> u32 {
    let over = beam > 256 || degree > 16 || names > 256;
    on_index(i, lent, l, stats < names, &[(7, over), (8, (scratch as u64) < scratch_words(i[1]))])
}

pub fn enable(i: &Words, lent: &Lengths, l: &Labels, settings: [u32; 4], scratch: usize) -> u32 {
    let over = settings.iter().zip([64, 16, 65_536, 1_024]).any(|(&x, limit)| x > limit);
    on_index(i, lent, l, false, &[(7, over), (8, (scratch as u64) < scratch_words(i[1])), (12, i[5] == 0), (13, i[5] == 1)])
}

pub fn assess(i: &Words, lent: &Lengths, l: &Labels, ids: usize, lists: [usize; 2], scratch: usize) -> u32 {
    let more = [(7, ids > 256), (8, (scratch as u64) < scratch_words(i[1])), (11, i[6] == 0)];
    on_index(i, lent, l, lists.iter().any(|&n| n < 64), &more)
}

#[allow(clippy::too_many_arguments)]
pub fn guarded_delete(
    i: &Words, lent: &Lengths, l: &Labels, names: usize, beam: u32, degree: u32, stats: usize, lists: [usize; 2], scratch: usize,
) -> u32 {
    let over = beam > 256 || degree > 16 || names > 256;
    let more = [(7, over), (8, (scratch as u64) < scratch_words(i[1])), (11, i[6] == 0)];
    on_index(i, lent, l, stats < names || lists.iter().any(|&n| n < 64), &more)
}

/// The words that a call which changes the index leaves, as include/finder.h says: those given, with entry and live count as they are now; of the
/// guard's, 1 where it is on, and 0 in all where it is off.
pub fn rewritten(i: &Words, entry: u32, live: u32) -> Words {
    let mut words = *i;
    (words[4], words[5]) = (entry, live);
    if i[6] == 0 {
        words[6..].fill(0);
    } else {
        words[6] = 1;
    }
    words
}

/// What making leaves, figure numbers aside: the given vectors and rows, the given slots live, everything else 0 or blank, and the guard off.
pub fn made([dim, capacity, degree]: [u32; 3], entry: u32, count: u32, bytes: &[u8], rows: &[u32]) -> Stored {
    let n = exact(dim, capacity, degree).map(|n| n as usize);
    let mut made = Stored {
        entry,
        live: count,
        vectors: bytes.to_vec(),
        targets: rows.to_vec(),
        edges: vec![0; n[2]],
        versions: vec![0; n[3]],
        marks: vec![1; count as usize],
        guard: None,
    };
    made.vectors.resize(n[0], 0);
    made.targets.resize(n[1], BLANK);
    made.marks.resize(n[4], 0);
    made
}
