//! One index on both sides: the Rust's, and the library's words and slices; and what is done to it between calls. Each side goes on from what it left
//! itself: nothing is copied from one to the other.
use crate::draw;
use crate::finder;
use crate::lent::{Lent, Piece, Rng};
use crate::second::Second;
use crate::table::{self, BLANK, Given, Labels, Lengths, Words};
use diskann_sorted::histories::{Rust, Stored};

pub struct Slices {
    pub vectors: Lent<u8>,
    pub targets: Lent<u32>,
    pub edges: Lent<u16>,
    pub versions: Lent<u16>,
    pub marks: Lent<u8>,
    pub pool: Lent<u32>,
    pub numbers: Lent<u32>,
    pub summary: Lent<u32>,
    pub weights: Lent<u8>,
}

impl Slices {
    pub fn junk(lengths: [u64; 9], rng: &mut Rng) -> Slices {
        let n = lengths.map(|n| n as usize);
        Slices {
            vectors: Lent::junk(n[0], rng),
            targets: Lent::junk(n[1], rng),
            edges: Lent::junk(n[2], rng),
            versions: Lent::junk(n[3], rng),
            marks: Lent::junk(n[4], rng),
            pool: Lent::junk(n[5], rng),
            numbers: Lent::junk(n[6], rng),
            summary: Lent::junk(n[7], rng),
            weights: Lent::junk(n[8], rng),
        }
    }
    pub fn lengths(&self) -> Lengths {
        let graph = [self.vectors.len(), self.targets.len(), self.edges.len(), self.versions.len(), self.marks.len()];
        [graph[0], graph[1], graph[2], graph[3], graph[4], self.pool.len(), self.numbers.len(), self.summary.len(), self.weights.len()]
    }
    pub fn pieces(&mut self) -> Vec<(&str, &mut dyn Piece)> {
        vec![
            ("vectors", &mut self.vectors),
            ("targets", &mut self.targets),
            ("edges", &mut self.edges),
            ("versions", &mut self.versions),
            ("marks", &mut self.marks),
            ("pool", &mut self.pool),
            ("numbers", &mut self.numbers),
            ("summary", &mut self.summary),
            ("weights", &mut self.weights),
        ]
    }
    pub fn labels(&self) -> Labels<'_> {
        Labels { marks: self.marks.items(), numbers: self.numbers.items(), summary: self.summary.items(), weights: self.weights.items() }
    }
    pub fn copied_labels(&self) -> (Vec<u8>, Vec<u32>, Vec<u32>) {
        let l = self.labels();
        (l.marks.to_vec(), l.numbers.to_vec(), l.summary.to_vec())
    }
    pub fn put_labels(&mut self, (marks, numbers, summary): &(Vec<u8>, Vec<u32>, Vec<u32>)) {
        self.marks.put(marks);
        self.numbers.put(numbers);
        self.summary.put(summary);
    }
    /// The slices should hold what the Rust stores; and these slots were filled with vectors of the given numbers.
    pub fn expect(&mut self, stored: &Stored, filled: &[u32], given: &[u32]) {
        self.vectors.expect(&stored.vectors);
        self.targets.expect(&stored.targets);
        self.edges.expect(&stored.edges);
        self.versions.expect(&stored.versions);
        self.marks.expect(&stored.marks);
        let numbers = table::renumbered(self.numbers.items(), filled, given, &stored.marks);
        self.summary.expect(&table::summary(&stored.marks, &numbers).expect("numbers that break their rules"));
        self.numbers.expect(&numbers);
    }
    /// The same after a making, which also clears the pool and writes the weights.
    pub fn expect_made(&mut self, stored: &Stored, given: &[u32], weights: &[u8]) {
        let filled: Vec<u32> = (0..given.len() as u32).collect();
        self.expect(stored, &filled, given);
        self.weights.expect(weights);
        self.pool.expect(&[0; 1_024]);
    }
    /// The library's making.
    #[allow(clippy::too_many_arguments)]
    pub fn create(
        &mut self, words: &mut Lent<u32>, n: Lengths, g: &Given, bytes: &Lent<u8>, rows: &Lent<u32>, numbers: &Lent<u32>, weights: &Lent<u8>,
    ) -> u32 {
        unsafe {
            finder::finder_create(
                g.sizes[0], g.sizes[1], g.sizes[2], f32::from_bits(g.alpha), g.entry, g.count, bytes.ptr(), bytes.len(), rows.ptr(), rows.len(),
                numbers.ptr(), numbers.len(), weights.ptr(), weights.len(), self.vectors.mut_ptr(), n[0], self.targets.mut_ptr(), n[1],
                self.edges.mut_ptr(), n[2], self.versions.mut_ptr(), n[3], self.marks.mut_ptr(), n[4], self.pool.mut_ptr(), n[5],
                self.numbers.mut_ptr(), n[6], self.summary.mut_ptr(), n[7], self.weights.mut_ptr(), n[8], words.mut_ptr(),
            )
        }
    }
}

pub struct Both {
    pub rust: Rust,
    pub words: Lent<u32>,
    pub slices: Slices,
    /// The grey values that vectors are drawn from: few, so that distances are often equal.
    pub values: Vec<u8>,
    /// Distances must not be equal: the Rust is the one as published.
    pub apart: bool,
    /// The second copy of the library's words and slices.
    pub second: Second,
}

impl Both {
    /// An index made on both sides, of values 0 and 1. The number of each given slot is the slot plus 1, and all weights are 1.
    pub fn made(s: [u32; 3], alpha: f32, entry: u32, bytes: &[u8], rows: &[u32], rng: &mut Rng) -> Both {
        let (n, count) = (table::exact(s[0], s[1], s[2]), bytes.len() as u32 / s[0]);
        let (mut slices, mut words) = (Slices::junk(n, rng), Lent::junk(12, rng));
        let (numbers, weights): (Vec<u32>, _) = ((1..=count).collect(), vec![1; s[0] as usize]);
        let (given, given_rows) = (Lent::of(bytes, rng), Lent::of(rows, rng));
        let (given_numbers, given_weights) = (Lent::of(&numbers, rng), Lent::of(&weights, rng));
        let g = Given { sizes: s, alpha: alpha.to_bits(), entry, count, bytes: bytes.len(), rows, numbers: &numbers, weights: &weights };
        assert_eq!(slices.create(&mut words, n.map(|n| n as usize), &g, &given, &given_rows, &given_numbers, &given_weights), 0);
        slices.expect_made(&table::made(s, entry, count, bytes, rows), &numbers, &weights);
        words.expect(&[s[0], s[1], s[2], alpha.to_bits(), entry, count, 0, 0, 0, 0, 0, 0]);
        assert!(slices.pieces().into_iter().all(|(_, piece)| piece.difference().is_none()) && words.difference().is_none());
        let rust = Rust::make(s[0] as usize, s[1] as usize, s[2] as usize, alpha, entry, bytes, rows, &weights).unwrap();
        Both { rust, words, slices, values: vec![0, 1], apart: false, second: Second::none(rng.0) }
    }
    pub fn words(&self) -> Words {
        self.words.items().try_into().unwrap()
    }
    pub fn capacity(&self) -> u32 {
        self.words()[1]
    }
    /// Whether a place counts other than once.
    pub fn weighted(&self) -> bool {
        self.slices.weights.items().iter().any(|&w| w != 1)
    }
    /// Gives the Rust the alpha and the guard of the words, which a caller may alter as they like.
    pub fn adopt(&mut self) {
        let w = self.words();
        self.rust.put_alpha(f32::from_bits(w[3]));
        self.rust.put_guard((w[6] != 0).then(|| ([w[7], w[8], w[9], w[10]], self.slices.pool.items()[..w[11] as usize].to_vec())));
    }

    /// Stored state that no call leaves, but that passes row 6, written on both sides. From then on there is no second copy.
    pub fn by_hand(&mut self, rng: &mut Rng) {
        self.second.keep(false);
        let [dim, capacity, degree, ..] = self.words();
        for _ in 0..1 + rng.below(2 * capacity.min(30)) {
            let slot = rng.below(capacity);
            match rng.below(18) {
                0..=8 => {
                    let inside = rng.below(capacity);
                    let target = rng.pick(&[inside, inside, inside, inside, slot, BLANK, BLANK, capacity, BLANK - 1, rng.0 as u32]);
                    let odd = rng.pick(&[0, 1, 2, u16::MAX]);
                    let version = if target < capacity && !rng.one_in(4) { self.slices.versions.items()[target as usize] } else { odd };
                    self.put_edge(slot, rng.below(degree), target, version);
                }
                9..=10 => {
                    self.put_mark(slot, rng.pick(&[0, 1, 1, 1, 2, 255]), rng);
                    if self.apart {
                        self.put_vector(slot, &rng.vector(&self.values, dim as usize)); // slots never filled have equal vectors
                    }
                }
                11 => self.put_version(slot, rng.pick(&[0, 1, 2, u16::MAX])),
                12 => self.put_entry(slot),
                13..=14 => self.put_vector(slot, &rng.vector(&self.values, dim as usize)),
                15 => self.renumber(slot, rng.below(capacity), rng),
                16 if rng.one_in(4) => self.put_weights(&draw::weights(dim as usize, rng)),
                _ => {
                    let settings = [rng.pick(&[1, 2, 64]), rng.pick(&[1, 3, 16]), rng.pick(&[1, 5, 65_536]), rng.pick(&[1, 8, 1_024])];
                    let pool: Vec<u32> = (0..rng.pick(&[0, 1, 5, 1_024])).map(|_| rng.below(capacity + 2)).collect();
                    self.put_guard(if rng.one_in(2) { Some(settings) } else { None }, &pool);
                }
            }
        }
        let summary = table::summary(self.slices.marks.items(), self.slices.numbers.items()).unwrap();
        self.slices.summary.put(&summary);
    }
    fn put_edge(&mut self, slot: u32, place: u32, target: u32, version: u16) {
        self.rust.put_edge(slot, place as usize, target, version);
        let at = (slot * self.words()[2] + place) as usize;
        self.slices.targets.put_at(at, target);
        self.slices.edges.put_at(at, version);
    }
    /// Keeps the live count right, and the numbers: a slot that comes to life gets a new one, and one that dies loses its own.
    fn put_mark(&mut self, slot: u32, byte: u8, rng: &mut Rng) {
        self.rust.put_mark(slot, byte);
        let was = self.slices.marks.items()[slot as usize];
        self.words.put_at(5, self.words()[5] + (byte != 0) as u32 - (was != 0) as u32);
        if (was != 0) != (byte != 0) {
            let number = if byte == 0 { 0 } else { draw::numbers(1, self.slices.labels(), false, rng)[0] };
            self.slices.numbers.put_at(slot as usize, number);
        }
        self.slices.marks.put_at(slot as usize, byte);
    }
    /// Exchanges the numbers of two slots if both are live; else gives the first, if it is live, a new one.
    fn renumber(&mut self, slot: u32, other: u32, rng: &mut Rng) {
        let [one, two] = [slot, other].map(|s| self.slices.numbers.items()[s as usize]);
        if one != 0 && two != 0 && slot != other {
            self.slices.numbers.put_at(slot as usize, two);
            self.slices.numbers.put_at(other as usize, one);
        } else if one != 0 {
            self.slices.numbers.put_at(slot as usize, draw::numbers(1, self.slices.labels(), false, rng)[0]);
        }
    }
    fn put_version(&mut self, slot: u32, version: u16) {
        self.rust.put_version(slot, version);
        self.slices.versions.put_at(slot as usize, version);
    }
    fn put_entry(&mut self, slot: u32) {
        self.rust.put_entry(slot);
        self.words.put_at(4, slot);
    }
    fn put_vector(&mut self, slot: u32, vector: &[u8]) {
        self.rust.put_vector(slot, vector);
        for (i, &byte) in vector.iter().enumerate() {
            self.slices.vectors.put_at(slot as usize * vector.len() + i, byte);
        }
    }
    fn put_weights(&mut self, weights: &[u8]) {
        self.rust.put_weights(weights);
        self.slices.weights.put(weights);
    }
    fn put_guard(&mut self, settings: Option<[u32; 4]>, pool: &[u32]) {
        self.rust.put_guard(settings.map(|settings| (settings, pool.to_vec())));
        self.slices.pool.put(pool);
        let mut words = self.words();
        words[6..].copy_from_slice(&settings.map_or([0; 6], |s| [1, s[0], s[1], s[2], s[3], pool.len() as u32]));
        self.words.put(&words);
    }

    /// Makes numbers, summary or marks break row 6, mostly; the words' live count stays that of the marks. The Rust is not told.
    pub fn spoil_labels(&mut self, words: &mut Words, rng: &mut Rng) {
        let (s, capacity) = (&mut self.slices, words[1]);
        let (live, dead): (Vec<u32>, Vec<u32>) = (0..s.marks.len() as u32).partition(|&slot| s.marks.items()[slot as usize] != 0);
        let n = live.len();
        // of a live slot and of a dead one, if there are: the slot, or 0
        let [one, other] = [0; 2].map(|_| if n > 0 { rng.pick(&live) as usize } else { 0 });
        let none = if dead.is_empty() { 0 } else { rng.pick(&dead) as usize };
        let mut numbers = s.numbers.items().to_vec();
        let mut summary = s.summary.items().to_vec();
        let place = if n > 0 { rng.below(n as u32) as usize } else { 0 };
        match rng.below(15) {
            0 if n > 0 => numbers[one] = 0,
            1 if !dead.is_empty() => numbers[none] = rng.pick(&[1, u32::MAX, rng.0 as u32]),
            2 if n > 0 => numbers[one] = numbers[other],
            3 if n > 0 => numbers.swap(one, other),
            4 if n > 0 => numbers[one] = rng.next() as u32,
            5 if n > 1 => summary.swap(place, (place + 1) % n),
            6..=7 if n > 0 => summary[place] = rng.pick(&[BLANK, capacity, capacity + 1, none as u32, other as u32, BLANK - 1]),
            8 if !dead.is_empty() => {
                let after = n + rng.below(dead.len() as u32) as usize;
                summary[after] = rng.pick(&[one as u32, none as u32, capacity, BLANK - 1]);
            }
            9 if !dead.is_empty() => summary.rotate_right(1),
            10 => summary[..n].reverse(),
            11 if n > 0 => {
                // a live slot dies but keeps its number
                s.marks.put_at(one, 0);
                words[5] = n as u32 - 1;
                summary.retain(|&slot| slot != one as u32);
                summary.push(BLANK);
            }
            12 if n > 0 => {
                // a live slot dies, and the summary still names it
                s.marks.put_at(one, 0);
                words[5] = n as u32 - 1;
                numbers[one] = 0;
            }
            13 if !dead.is_empty() => {
                // a dead slot comes to life without a number
                s.marks.put_at(none, 1);
                words[5] = n as u32 + 1;
                summary.rotate_right(1);
                summary[0] = none as u32;
            }
            14 if !dead.is_empty() => {
                // a dead slot comes to life, and the summary does not name it
                s.marks.put_at(none, 1);
                words[5] = n as u32 + 1;
                numbers[none] = draw::numbers(1, s.labels(), false, rng)[0];
            }
            _ => {}
        }
        s.numbers.put(&numbers);
        s.summary.put(&summary);
    }

    /// The index in full where it is small.
    pub fn text(&self) -> String {
        let mut said = format!("index {}", self.words.text());
        if self.slices.lengths()[..5].iter().all(|&n| n <= 512) {
            let (a, b) = (&self.slices, &self.slices.pool.items()[..16]);
            said += &format!("\n  vectors {}\n  targets {}\n  edges {}", a.vectors.text(), a.targets.text(), a.edges.text());
            said += &format!("\n  versions {}\n  marks {}\n  pool {b:?} ..", a.versions.text(), a.marks.text());
            said += &format!("\n  numbers {}\n  summary {}\n  weights {}", a.numbers.text(), a.summary.text(), a.weights.text());
        }
        said
    }
}
