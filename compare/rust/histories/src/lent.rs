//! Memory that is lent to the library, each piece beside a copy of what it should hold after the call, and random numbers. Each piece is there twice, so
//! that a call can be made on a second copy of all memory (second.rs).
use std::sync::atomic::{AtomicBool, Ordering};

/// Items before and behind every piece that no call may change. So a length that is too long by as much can be given. An odd number, so that pieces
/// lie at addresses that are aligned for their items and no more.
pub const BORDER: usize = 257;

pub struct Rng(pub u64);

impl Rng {
    pub fn next(&mut self) -> u64 {
        self.0 = self.0.wrapping_add(0x9e3779b97f4a7c15);
        let mut z = self.0;
        z = (z ^ (z >> 30)).wrapping_mul(0xbf58476d1ce4e5b9);
        z = (z ^ (z >> 27)).wrapping_mul(0x94d049bb133111eb);
        z ^ (z >> 31)
    }
    pub fn below(&mut self, n: u32) -> u32 {
        (self.next() % n as u64) as u32
    }
    pub fn one_in(&mut self, n: u32) -> bool {
        self.below(n) == 0
    }
    pub fn pick<T: Copy>(&mut self, from: &[T]) -> T {
        from[self.below(from.len() as u32) as usize]
    }
    /// Where a vector may have any values, they are below a bound of its own, so that distances spread.
    pub fn vector(&mut self, values: &[u8], dim: usize) -> Vec<u8> {
        let values = if values.len() == 256 { &values[..8 + self.below(249) as usize] } else { values };
        (0..dim).map(|_| self.pick(values)).collect()
    }
}

pub trait Item: Copy + PartialEq + std::fmt::Display {
    fn cut(word: u64) -> Self;
}
macro_rules! item {
    ($($t:ty)*) => {
        $(impl Item for $t {
            fn cut(word: u64) -> $t {
                word as $t
            }
        })*
    };
}
item!(u8 u16 u32);

pub struct Lent<T> {
    have: Vec<T>,
    want: Vec<T>,
    second: Vec<T>,
}

/// Whether it is the second copy that is lent to be written.
static SECOND: AtomicBool = AtomicBool::new(false);

/// Makes a call on the second copy.
pub fn on_second<R>(call: impl FnOnce() -> R) -> R {
    SECOND.store(true, Ordering::Relaxed);
    let answer = call();
    SECOND.store(false, Ordering::Relaxed);
    answer
}

impl<T: Item> Lent<T> {
    /// Random items, every second of them one that an index could hold, so that what is read past an end is not found out by chance alone.
    pub fn junk(len: usize, rng: &mut Rng) -> Self {
        let word = |rng: &mut Rng| if rng.one_in(2) { rng.pick(&[0, 1, 2, u64::MAX]) } else { rng.next() };
        let have: Vec<T> = (0..len + 2 * BORDER).map(|_| T::cut(word(rng))).collect();
        Lent { want: have.clone(), second: have.clone(), have }
    }
    pub fn of(items: &[T], rng: &mut Rng) -> Self {
        let mut piece = Self::junk(0, rng);
        piece.have.splice(BORDER..BORDER, items.iter().copied());
        piece.want.clone_from(&piece.have);
        piece.second.clone_from(&piece.have);
        piece
    }
    pub fn len(&self) -> usize {
        self.want.len() - 2 * BORDER
    }
    pub fn ptr(&self) -> *const T {
        unsafe { self.have.as_ptr().add(BORDER) }
    }
    pub fn mut_ptr(&mut self) -> *mut T {
        let lent = if SECOND.load(Ordering::Relaxed) { &mut self.second } else { &mut self.have };
        unsafe { lent.as_mut_ptr().add(BORDER) }
    }
    /// What the piece should hold.
    pub fn items(&self) -> &[T] {
        &self.want[BORDER..self.want.len() - BORDER]
    }
    /// Sets what the first items should be after the call.
    pub fn expect(&mut self, items: &[T]) {
        self.want[BORDER..BORDER + items.len()].copy_from_slice(items);
    }
    /// Sets what one item should be after the call.
    pub fn expect_at(&mut self, place: usize, item: T) {
        self.want[BORDER + place] = item;
    }
    /// Writes the first items before the call.
    pub fn put(&mut self, items: &[T]) {
        self.expect(items);
        self.have[BORDER..BORDER + items.len()].copy_from_slice(items);
        self.put_second(0, items);
    }
    /// Writes one item before the call.
    pub fn put_at(&mut self, place: usize, item: T) {
        self.want[BORDER + place] = item;
        self.have[BORDER + place] = item;
        self.second[BORDER + place] = item;
    }
    /// Writes items of the second copy alone, from a place on.
    pub fn put_second(&mut self, place: usize, items: &[T]) {
        self.second[BORDER + place..BORDER + place + items.len()].copy_from_slice(items);
    }
    /// Puts items of the second copy back to what they should be, from a place on.
    pub fn put_back_second(&mut self, place: usize, count: usize) {
        let these = BORDER + place..BORDER + place + count;
        self.second[these.clone()].copy_from_slice(&self.want[these]);
    }
    /// The first items may be anything after the call.
    pub fn accept(&mut self, count: usize) {
        self.want[BORDER..BORDER + count].copy_from_slice(&self.have[BORDER..BORDER + count]);
        self.put_back_second(0, count);
    }
    pub fn text(&self) -> String {
        self.items().iter().map(|x| x.to_string()).collect::<Vec<_>>().join(",")
    }
}

/// A piece of any items.
pub trait Piece {
    /// Where it first differs from what it should hold, if it does; it is then set right, so that later calls that differ do so by themselves.
    fn difference(&mut self) -> Option<String>;
    /// The same of the second copy.
    fn second_difference(&mut self) -> Option<String>;
}

impl<T: Item> Piece for Lent<T> {
    fn difference(&mut self) -> Option<String> {
        set_right(&mut self.have, &self.want)
    }
    fn second_difference(&mut self) -> Option<String> {
        set_right(&mut self.second, &self.want)
    }
}

fn set_right<T: Item>(have: &mut [T], want: &[T]) -> Option<String> {
    if have == want {
        return None;
    }
    let places: Vec<usize> = (0..have.len()).filter(|&i| have[i] != want[i]).collect();
    let i = places[0];
    let said = format!("place {} expected {} got {} ({} places differ)", i as i64 - BORDER as i64, want[i], have[i], places.len());
    have.copy_from_slice(want);
    Some(said)
}
