//! The calls: a function for each kind. It draws a call, sound or damaged, asks document 01's table for its number and the Rust for its answer, runs
//! the library, and compares the answer and every byte of every slice.
use crate::both::{Both, Slices};
use crate::draw;
use crate::finder::{self, call};
use crate::guard;
use crate::lent::{BORDER, Lent, Piece, Rng, on_second};
use crate::second::put_back;
use crate::table::{self, BLANK, Given, Lengths, Words};
use crate::ties;
use crate::updates;
use diskann_sorted::histories::Rust;
use std::collections::BTreeMap;

pub struct History {
    pub rng: Rng,
    pub both: Both,
    pub scratch: Lent<u32>,
    /// The index is often emptied, and filled again.
    pub emptied: bool,
    /// How often what a run must meet was met, in calls that were carried out.
    pub met: BTreeMap<String, u64>,
}

impl History {
    pub fn meet(&mut self, what: impl Into<String>) {
        *self.met.entry(what.into()).or_default() += 1;
    }
}

/// Stands for the number of a call that is left out because of a tie.
pub const TIED: u32 = 17;

/// The number that document 01 gives, 0 where the call is carried out; and, where anything differs, the call and what differs.
pub struct Outcome {
    pub number: u32,
    pub differs: Option<String>,
}

impl Outcome {
    /// The same with what else was odd.
    pub fn and(mut self, odd: Option<String>) -> Outcome {
        if let Some(odd) = odd {
            self.differs = Some(self.differs.map_or(odd.clone(), |said| format!("{odd}\n{said}")));
        }
        self
    }
}

pub struct Kind {
    pub name: &'static str,
    pub weight: u32,
    pub run: fn(&mut History) -> Outcome,
}

pub const KINDS: &[Kind] = &[
    Kind { name: "size answer", weight: 4, run: size_answer },
    Kind { name: "making", weight: 8, run: making },
    Kind { name: "dim", weight: 5, run: reading!(finder_dim, |b, _| b.words()[0]) },
    Kind { name: "capacity", weight: 5, run: reading!(finder_capacity, |b, _| b.words()[1]) },
    Kind { name: "degree", weight: 5, run: reading!(finder_degree, |b, _| b.words()[2]) },
    Kind { name: "alpha", weight: 5, run: reading!(finder_alpha, |b, _| b.words()[3]) },
    Kind { name: "entry", weight: 5, run: reading!(finder_entry, |b, _| b.rust.entry()) },
    Kind { name: "live count", weight: 5, run: reading!(finder_live, |b, _| b.rust.live()) },
    Kind { name: "mark", weight: 5, run: reading!(finder_mark, |b, a| b.rust.is_live(a.slot) as u32, slot) },
    Kind { name: "version", weight: 5, run: reading!(finder_slot_version, version, slot) },
    Kind { name: "number", weight: 7, run: reading!(finder_number, figure, slot) },
    Kind { name: "target", weight: 7, run: reading!(finder_target, target, slot, place) },
    Kind { name: "vector", weight: 5, run: vector },
    Kind { name: "search", weight: 38, run: search },
    Kind { name: "insert", weight: 24, run: updates::insert },
    Kind { name: "delete", weight: 12, run: updates::delete },
    Kind { name: "delete numbers", weight: 12, run: updates::delete_numbers },
    Kind { name: "enable guard", weight: 8, run: guard::enable },
    Kind { name: "guard status", weight: 5, run: guard::status },
    Kind { name: "assess", weight: 16, run: guard::assess },
    Kind { name: "guarded", weight: 10, run: guard::guarded_delete },
    Kind { name: "guarded numbers", weight: 10, run: guard::guarded_delete_numbers },
];

/// Compares the answer and every piece: what differs.
fn compare(expected: u64, got: u64, pieces: Vec<(&str, &mut dyn Piece)>) -> Vec<String> {
    let answer = (expected != got).then(|| format!("answer: expected {expected} got {got}"));
    let differs = |(name, piece): (&str, &mut dyn Piece)| piece.difference().map(|what| format!("{name}: {what}"));
    answer.into_iter().chain(pieces.into_iter().filter_map(differs)).collect()
}

/// The same of the second copy, where the call was made on that too.
fn compare_second(expected: u64, got: Option<u64>, pieces: &mut [(&str, &mut dyn Piece)]) -> Vec<String> {
    let Some(got) = got else { return vec![] };
    let answer = (expected != got).then(|| format!("answer on the second copy: expected {expected} got {got}"));
    let differs = |(name, piece): &mut (&str, &mut dyn Piece)| piece.second_difference().map(|what| format!("{name}, second copy: {what}"));
    answer.into_iter().chain(pieces.iter_mut().filter_map(differs)).collect()
}

/// `call` tells the call and its arguments.
fn outcome(number: u32, differences: Vec<String>, call: impl FnOnce() -> String) -> Outcome {
    Outcome { number, differs: (!differences.is_empty()).then(|| format!("{}\n  {}", call(), differences.join("\n  "))) }
}

/// Which kind of call comes next, by the weights. Where indexes are emptied often, half of all are a delete where something is live, else an insert.
pub fn next_kind(h: &mut History) -> usize {
    if h.emptied && h.rng.one_in(2) {
        let deletes = ["delete", "delete", "delete numbers", "delete numbers", "guarded", "guarded numbers"];
        let name = if h.both.words()[5] == 0 { "insert" } else { h.rng.pick(&deletes) };
        return KINDS.iter().position(|kind| kind.name == name).unwrap();
    }
    let mut at = h.rng.below(KINDS.iter().map(|kind| kind.weight).sum());
    KINDS.iter().position(|kind| at < kind.weight || { at -= kind.weight; false }).unwrap()
}

/// A history begins with an index of one slot.
pub fn begin(seed: u64, apart: bool, emptied: bool) -> History {
    assert_eq!(unsafe { finder::finder_version() }, 30_100);
    let mut rng = Rng(seed);
    let mut both = Both::made([1, 1, 1], 1.0, 0, &[], &[], &mut rng);
    both.apart = apart;
    let scratch = Lent::junk(table::scratch_words(1) as usize + 64, &mut rng);
    History { rng, both, scratch, emptied, met: BTreeMap::new() }
}

// ---- the size answer and making

fn size_answer(h: &mut History) -> Outcome {
    let mut s = draw::sizes(&mut h.rng);
    for _ in 0..draw::faults(&mut h.rng) {
        draw::spoil_size(&mut s, &mut h.rng);
    }
    let mut words = Lent::junk(1, &mut h.rng);
    let number = table::size_answer(s[0], s[1], s[2]);
    if number == 0 {
        words.expect(&[table::scratch_words(s[1]) as u32]);
    }
    let got = unsafe { finder::finder_scratch_words(s[0], s[1], s[2], words.mut_ptr()) };
    outcome(number, compare(number as u64, got as u64, vec![("words", &mut words)]), || format!("finder_scratch_words {s:?}"))
}

/// A making: its arguments, and memory of its own where it does not take the index's.
struct Making {
    sizes: [u32; 3],
    alpha: u32,
    entry: u32,
    count: u32,
    values: Vec<u8>,
    bytes: Vec<u8>,
    rows: Vec<u32>,
    numbers: Vec<u32>,
    weights: Vec<u8>,
    fresh: Option<(Slices, Lent<u32>)>,
    lent: Lengths,
}

impl Making {
    fn draw(rng: &mut Rng, b: &Both) -> Making {
        let [dim, capacity, degree, ..] = b.words();
        let same = !rng.one_in(3);
        let crowd = !same && rng.one_in(12) && !b.apart;
        let sizes = if same { [dim, capacity, degree] } else { draw::sizes(rng) };
        let values = if same { b.values.clone() } else { draw::values(rng) };
        let (sizes, values) = if b.apart && !same { ([sizes[0].max(8), sizes[1], sizes[2]], (0..=255).collect()) } else { (sizes, values) };
        let (mut sizes, values) = if crowd { ([sizes[0].clamp(4, 16), 1_100, sizes[2].clamp(24, 64)], vec![128]) } else { (sizes, values) };
        let faults: Vec<u32> = (0..draw::faults(rng)).map(|_| rng.below(18)).collect();
        let (room, some) = (sizes[1], rng.below(sizes[1] + 1));
        let mut count = rng.pick(&[room, some, some, some, room.div_ceil(2), room / 2, 0, 1]);
        if faults.contains(&0) && room <= 4_096 {
            count = room + 1 + rng.below(3);
        }
        if crowd {
            count = 800 + rng.below(60);
        }
        let mut bytes: Vec<u8> = (0..count).flat_map(|_| rng.vector(&values, sizes[0] as usize)).collect();
        if crowd {
            // about as many equal vectors as pruning keeps candidates, and then others
            bytes[((690 + rng.below(60)) * sizes[0]) as usize..].iter_mut().for_each(|byte| *byte = rng.next() as u8);
        }
        let mut rows: Vec<u32> = (0..count * sizes[2]).map(|_| if rng.one_in(5) { BLANK } else { rng.below(count) }).collect();
        let mut numbers = draw::numbers(count as usize, b.slices.labels(), true, rng);
        let mut weights = draw::weights(sizes[0] as usize, rng);
        let mut entry = if count == 0 { 0 } else { rng.below(count) };
        let mut alpha = draw::alpha_bits(rng);
        if faults.contains(&1) {
            draw::spoil_size(&mut sizes, rng);
        }
        // the index's own memory, or other memory of the very sizes asked for, be these in range or not
        let exact = table::exact(sizes[0], sizes[1], sizes[2]);
        let other = (!same || rng.one_in(2)) && exact.iter().all(|&n| n < 1 << 25) && exact != b.slices.lengths().map(|n| n as u64);
        let fresh = other.then(|| (Slices::junk(exact, rng), Lent::junk(12, rng)));
        let own = fresh.as_ref().map_or(&b.slices, |fresh| &fresh.0).lengths();
        let mut lent = own;
        for fault in faults {
            match fault {
                2 => alpha = rng.pick(&draw::BAD_ALPHAS),
                3 => {
                    let which = rng.below(9) as usize;
                    lent[which] = draw::wrong_length(own[which], rng);
                }
                4 => bytes.resize(draw::wrong_length(bytes.len(), rng), 0),
                5 => rows.resize(draw::wrong_length(rows.len(), rng), 0),
                // among them counts whose products with dim and degree are right in 32 bits
                6 => count = rng.pick(&[count.saturating_add(1), count.saturating_sub(1), count | 1 << 30, count | 1 << 26, u32::MAX]),
                7..=8 if !rows.is_empty() => {
                    let place = rng.below(rows.len() as u32) as usize;
                    rows[place] = rng.pick(&[count, count, count.saturating_add(1), room.max(count), BLANK - 1]);
                }
                9 => entry = rng.pick(&[count, count.saturating_add(1), room, u32::MAX]),
                10..=14 => draw::spoil_numbers(&mut numbers, b.slices.labels(), rng),
                15 => weights.resize(draw::wrong_length(weights.len(), rng), 1),
                16..=17 if !weights.is_empty() => draw::spoil_weights(&mut weights, rng),
                _ => {}
            }
        }
        Making { sizes, alpha, entry, count, values, bytes, rows, numbers, weights, fresh, lent }
    }
}

fn making(h: &mut History) -> Outcome {
    let Making { sizes: s, alpha, entry, count, values, bytes, rows, numbers, weights, mut fresh, lent } = Making::draw(&mut h.rng, &h.both);
    let own = fresh.is_none();
    let (slices, words) = match &mut fresh {
        Some((slices, words)) => (slices, words),
        None => (&mut h.both.slices, &mut h.both.words),
    };
    let given = Given { sizes: s, alpha, entry, count, bytes: bytes.len(), rows: &rows, numbers: &numbers, weights: &weights };
    let number = table::making(&given, &lent);
    let (mut rust, mut odd) = (None, None);
    if number == 0 || number == 4 {
        let [dim, capacity, degree] = s.map(|x| x as usize);
        match (Rust::make(dim, capacity, degree, f32::from_bits(alpha), entry, &bytes, &rows, &weights), number) {
            (Ok(made), 0) => {
                let stored = made.stored();
                odd = (stored != table::made(s, entry, count, &bytes, &rows)).then(|| "the Rust's index is not document 01's".to_string());
                slices.expect_made(&stored, &numbers, &weights);
                words.expect(&[s[0], s[1], s[2], alpha, entry, count, 0, 0, 0, 0, 0, 0]);
                rust = Some(made);
            }
            (Err(said), 4) if said.starts_with("err 4") => {}
            (made, _) => odd = Some(format!("document 01 gives {number}, the Rust {}", made.map_or_else(|said| said, |_| "makes it".into()))),
        }
    }
    let (mut bytes, mut lent_rows) = (Lent::of(&bytes, &mut h.rng), Lent::of(&rows, &mut h.rng));
    let (mut lent_numbers, mut lent_weights) = (Lent::of(&numbers, &mut h.rng), Lent::of(&weights, &mut h.rng));
    let got = slices.create(words, lent, &given, &bytes, &lent_rows, &lent_numbers, &lent_weights);
    // on the second copy too, but where that is not kept and not made either
    let twice = number == 0 || !own || h.both.second.is_kept();
    h.both.second.answered(twice.then(|| on_second(|| slices.create(words, lent, &given, &bytes, &lent_rows, &lent_numbers, &lent_weights) as u64)));
    if own && number != 0 {
        let marks = slices.marks.items().to_vec();
        put_back(slices, &marks);
    }
    let mut pieces = slices.pieces();
    pieces.extend([("index", words as &mut dyn Piece), ("bytes", &mut bytes), ("rows", &mut lent_rows)]);
    pieces.extend([("numbers given", &mut lent_numbers as &mut dyn Piece), ("weights given", &mut lent_weights)]);
    let mut differences = compare_second(number as u64, h.both.second.take_answer(number), &mut pieces);
    differences.extend(compare(number as u64, got as u64, pieces));
    differences.extend(odd);
    let outcome = outcome(number, differences, || {
        let small = bytes.len() + rows.len() + numbers.len() <= 1_024;
        let [b, r, n] = if small { [bytes.text(), lent_rows.text(), lent_numbers.text()] } else { Default::default() };
        let lengths = format!("lengths of the slices {lent:?}, of bytes {}, of rows {}, of numbers {}", bytes.len(), rows.len(), numbers.len());
        let w = lent_weights.text();
        format!("finder_create sizes {s:?} alpha bits {alpha:#x} entry {entry} count {count}, {lengths}\n  bytes {b}\n  rows {r}\n  numbers {n}\n  weights {w}")
    });
    if let Some(made) = rust {
        meet_weights(h, &weights);
        (h.both.rust, h.both.values) = (made, values);
        if let Some((slices, words)) = fresh {
            (h.both.slices, h.both.words) = (slices, words);
            h.scratch = Lent::junk(table::scratch_words(s[1]) as usize + 64, &mut h.rng);
        }
        h.both.second.keep(true);
    }
    h.both.second.spread(&mut h.both.slices);
    outcome
}

/// Notes the weights of a making that is carried out.
fn meet_weights(h: &mut History, weights: &[u8]) {
    let plain = weights.iter().all(|&w| w == 1);
    let met = [
        plain.then_some("making, weights all 1"),
        (!plain && weights.iter().map(|&w| w as u32).sum::<u32>() == 256).then_some("making, weights not all 1 whose sum is 256"),
        weights.iter().all(|&w| w == 4).then_some("making, weights all 4"),
    ];
    met.into_iter().flatten().for_each(|what| h.meet(what));
}

// ---- calls on an index

/// Whether words and lengths are those of an index, its alpha and its guard aside.
fn same_index(w: &Words, own: &Words, lent: &Lengths, lengths: &Lengths) -> bool {
    [0, 1, 2, 4, 5].iter().all(|&i| w[i] == own[i]) && lent == lengths
}

/// A call on the index: the lengths lent and the index's own words, which are put back after it unless it changed them; its own marks, numbers and summary where
/// they were made to break row 6, its own weights where they were made to break row 16; and what a reading asks for.
pub struct Asked {
    pub lent: Lengths,
    pub own: Words,
    labels: Option<(Vec<u8>, Vec<u32>, Vec<u32>)>,
    weights: Option<Vec<u8>>,
    pub changes: bool,
    slot: u32,
    place: u32,
}

impl Asked {
    /// Draws lengths and words, with so many faults.
    pub fn draw(h: &mut History, faults: u32) -> Asked {
        let (rng, b) = (&mut h.rng, &mut h.both);
        let own = b.words();
        let (capacity, degree) = (own[1], own[2]);
        let slot = if rng.one_in(5) { rng.pick(&[capacity, capacity + 1, u32::MAX, rng.0 as u32, (1 << 31) + 1]) } else { rng.below(capacity) };
        let place = if rng.one_in(8) { rng.pick(&[degree, u32::MAX, rng.0 as u32]) } else { rng.below(degree.min(6)) };
        let (mut w, mut lent, mut labels, mut weights) = (own, b.slices.lengths(), None, None);
        for _ in 0..faults {
            match rng.below(22) {
                0..=1 => {
                    draw::spoil_size(&mut w[..3], rng);
                    let exact = table::exact(w[0], w[1], w[2]).map(|n| n as usize);
                    if rng.one_in(2) && exact.iter().zip(b.slices.lengths()).all(|(&n, own)| n <= own + BORDER) {
                        lent = exact;
                    }
                }
                2..=3 => w[3] = rng.pick(&draw::BAD_ALPHAS),
                4..=5 => {
                    let which = rng.below(9) as usize;
                    lent[which] = draw::wrong_length(b.slices.lengths()[which], rng);
                }
                6 => w[rng.pick(&[0, 1, 2])] ^= 1, // the lengths are now other ones
                7..=8 => w[5] = rng.pick(&[own[5].wrapping_sub(1), own[5] + 1, own[5] | 1 << 16, u32::MAX]),
                9..=10 => w[4] = rng.pick(&[capacity, capacity, capacity + 1, u32::MAX]),
                11..=14 => {
                    w[6..].copy_from_slice(&[rng.pick(&[1, 2, u32::MAX]), 64, 16, 65_536, 1_024, 1_024]);
                    let which = rng.pick(&[7, 8, 9, 10, 11]);
                    w[which] = if which < 11 && rng.one_in(3) { 0 } else { rng.pick(&[w[which] + 1, w[which] + 1, u32::MAX]) };
                }
                15..=17 => {
                    let kept = labels.unwrap_or_else(|| b.slices.copied_labels());
                    b.spoil_labels(&mut w, rng);
                    labels = Some(kept);
                }
                18..=20 => {
                    let mut list = b.slices.weights.items().to_vec();
                    weights.get_or_insert_with(|| list.clone());
                    draw::spoil_weights(&mut list, rng);
                    b.slices.weights.put(&list);
                }
                // no faults: a guard at its limits or at its least, words of a guard that is off, another alpha
                _ if rng.one_in(3) => w[6..].copy_from_slice(&[rng.pick(&[1, 2, 1 << 31]), 64, 16, 65_536, 1_024, 1_024]),
                _ if rng.one_in(3) => w[6..].copy_from_slice(&[1, 1, 1, 1, 1, 0]),
                _ if rng.one_in(2) => w[6..].copy_from_slice(&[0, 65, 0, 65_537, 1_025, u32::MAX]),
                _ => w[3] = draw::alpha_bits(rng),
            }
        }
        // faults that together make another index that passes are left out: the Rust has the one index
        if let Some(kept) = labels.take_if(|_| !table::mislabelled(&b.slices.labels())) {
            b.slices.put_labels(&kept);
            w[5] = own[5];
        }
        if let Some(kept) = weights.take_if(|_| !table::overweight(b.slices.weights.items())) {
            b.slices.weights.put(&kept);
        }
        if table::reading(&w, &lent, &b.slices.labels()) == 0 && !same_index(&w, &own, &lent, &b.slices.lengths()) {
            (w, lent) = (own, b.slices.lengths());
        }
        b.words.put(&w);
        Asked { lent, own, labels, weights, changes: false, slot, place }
    }
    /// Whether the index has no live slot.
    pub fn is_empty(&self) -> bool {
        self.own[5] == 0
    }
    /// Puts the index's own words back, and what of its slices was made to break rows 6 and 16.
    fn put_back(&self, b: &mut Both) {
        b.words.put(&self.own);
        if let Some(labels) = &self.labels {
            b.slices.put_labels(labels);
        }
        if let Some(weights) = &self.weights {
            b.slices.weights.put(weights);
        }
    }
    /// Rows 1, 2, 3, 16 and 6. What they let pass is the index that the Rust has.
    pub fn number(&self, h: &History) -> u32 {
        let (w, b) = (h.both.words(), &h.both);
        let number = table::reading(&w, &self.lent, &b.slices.labels());
        let own = same_index(&w, &self.own, &self.lent, &b.slices.lengths());
        assert!(number != 0 || own, "a damaged index passes: {w:?}, lengths {:?}", self.lent);
        number
    }
    /// Does not run the call: it can meet a tie.
    pub fn leave_out(self, b: &mut Both) -> Outcome {
        self.put_back(b);
        Outcome { number: TIED, differs: None }
    }
    /// Compares the index, its slices and the other pieces, and puts the index's own words back unless the call changed them. `call` tells the call.
    pub fn settle(self, b: &mut Both, number: u32, answers: (u64, u64), more: Vec<(&str, &mut dyn Piece)>, call: String) -> Outcome {
        let marks = self.labels.as_ref().map_or_else(|| b.slices.marks.items().to_vec(), |own| own.0.clone());
        put_back(&mut b.slices, &marks);
        let mut pieces = b.slices.pieces();
        pieces.push(("index", &mut b.words));
        pieces.extend(more.into_iter().map(|(name, piece)| (name, piece as &mut dyn Piece)));
        let mut differences = compare_second(answers.0, b.second.take_answer(number), &mut pieces);
        differences.extend(compare(answers.0, answers.1, pieces));
        let outcome = outcome(number, differences, || format!("{call}, lengths of the slices {:?}\n  {}", self.lent, b.text()));
        if !self.changes {
            self.put_back(b);
            b.adopt();
        }
        b.second.spread(&mut b.slices);
        outcome
    }
}

/// A reading of one number: the library's function, what is expected of it, and what it takes of `Asked`.
macro_rules! reading {
    ($name:ident, $expected:expr $(, $more:ident)*) => {
        |h| {
            let faults = draw::faults(&mut h.rng);
            let a = Asked::draw(h, faults);
            let mut value = Lent::junk(1, &mut h.rng);
            let number = a.number(h);
            if number == 0 {
                let expected: fn(&Both, &Asked) -> u32 = $expected;
                value.expect(&[expected(&h.both, &a)]);
            }
            let got = call!($name, h.both, a.lent $(, a.$more)*, value.mut_ptr());
            let said = format!(concat!(stringify!($name) $(, " ", stringify!($more), " {}")*) $(, a.$more)*);
            a.settle(&mut h.both, number, (number as u64, got as u64), vec![("value", &mut value)], said)
        }
    };
}
use reading;

/// A slot outside reads as one never filled.
fn version(b: &Both, a: &Asked) -> u32 {
    if a.slot < b.capacity() { b.rust.version(a.slot) as u32 } else { 0 }
}

/// The figure number, 0 for a slot that is dead or outside.
fn figure(b: &Both, a: &Asked) -> u32 {
    b.slices.numbers.items().get(a.slot as usize).copied().unwrap_or(0)
}

fn target(b: &Both, a: &Asked) -> u32 {
    let row = if a.slot < b.capacity() { b.rust.targets(a.slot) } else { vec![] };
    row.get(a.place as usize).copied().unwrap_or(BLANK)
}

/// The answer is how many bytes the vector has; they are those at slot * dim, which are compared with the slices.
fn vector(h: &mut History) -> Outcome {
    let faults = draw::faults(&mut h.rng);
    let a = Asked::draw(h, faults);
    let number = a.number(h);
    let expected = if number == 0 && h.both.rust.is_live(a.slot) { h.both.rust.vector(a.slot).len() } else { 0 };
    let got = call!(finder_vector, h.both, a.lent, a.slot);
    let said = format!("finder_vector slot {}", a.slot);
    a.settle(&mut h.both, number, (expected as u64, got as u64), vec![], said)
}

fn search(h: &mut History) -> Outcome {
    let faults = if h.rng.one_in(2) { draw::faults(&mut h.rng) } else { 0 };
    let a = Asked::draw(h, faults);
    let (rng, dim) = (&mut h.rng, a.own[0] as usize);
    let mut query = if h.both.apart { ties::query(&h.both, rng) } else { rng.vector(&h.both.values, dim) };
    if rng.one_in(6) {
        query[rng.below(dim as u32) as usize] = rng.0 as u8;
    }
    let mut beam = rng.pick(&[0, 1, 2, 3, 4, 6, 8, 12, 20, 64, 300, 1_024]);
    let mut k = rng.pick(&[0, 1, 2, 3, 5, 10, 30, beam, beam, beam + 1]);
    let mut out = [0; 3].map(|_: usize| k as usize + rng.pick(&[0, 0, 1, 9]));
    let need = table::scratch_words(a.own[1]) as usize;
    let mut words = need + rng.pick(&[0, 0, 1, 64]);
    for _ in 0..rng.pick(&[0, 0, 0, 0, 0, 0, 1, 1, 2]) {
        match rng.below(6) {
            0 => query.resize(draw::wrong_length(dim, rng), 0),
            1 => beam = rng.pick(&[1_025, 1_025, 2_048, 1 << 31, u32::MAX]),
            2 if k > 0 => out[rng.below(3) as usize] = rng.pick(&[k as usize - 1, k as usize - 1, 0, k as usize / 2]),
            3 => out = [0; 3].map(|_: usize| rng.below(k + 1) as usize),
            _ => words = rng.pick(&[need - 1, need - 1, need / 2, 0]),
        }
    }
    if rng.one_in(40) {
        k = rng.pick(&[k + 10, u32::MAX]);
    }
    let [mut slots, mut dists, mut numbers] = out.map(|n| Lent::<u32>::junk(n, rng));
    let (mut found, mut query) = (Lent::<u32>::junk(1, rng), Lent::of(&query, rng));
    let sound = a.number(h) == 0;
    let number = table::search(&h.both.words(), &a.lent, &h.both.slices.labels(), query.len(), k, beam, out, words);
    assert!(number != 0 || sound);
    if number == 0 && h.both.apart && ties::in_search(&h.both, query.items()) {
        return a.leave_out(&mut h.both);
    }
    if number == 0 {
        let pairs = h.both.rust.search(query.items(), k as usize, beam as usize);
        slots.expect(&pairs.iter().map(|p| p.0).collect::<Vec<_>>());
        dists.expect(&pairs.iter().map(|p| p.1.to_bits()).collect::<Vec<_>>());
        numbers.expect(&pairs.iter().map(|p| h.both.slices.numbers.items()[p.0 as usize]).collect::<Vec<_>>());
        found.expect(&[pairs.len() as u32]);
    }
    let got = call!(
        finder_search, h.both, a.lent, query.ptr(), query.len(), k, beam, slots.mut_ptr(), out[0], dists.mut_ptr(), out[1], numbers.mut_ptr(),
        out[2], h.scratch.mut_ptr(), words, found.mut_ptr()
    );
    if number == 0 {
        h.scratch.accept(words);
    }
    let said = format!("finder_search k {k} beam {beam}, outputs {out:?}, scratch {words}, query {}", query.text());
    let outputs: [(&str, &mut dyn Piece); 3] = [("slots", &mut slots), ("distances (bits)", &mut dists), ("numbers found", &mut numbers)];
    let mut more: Vec<(&str, &mut dyn Piece)> = vec![("query", &mut query), ("scratch", &mut h.scratch), ("found", &mut found)];
    more.extend(outputs);
    a.settle(&mut h.both, number, (number as u64, got as u64), more, said)
}
