//! Times of the calls, the library beside the Rust: one process, one thread, the same input, CPU time. Both go on from what they
//! left themselves, and both must have the same index when a part is done.
use crate::both::Both;
use crate::draw;
use crate::finder::call;
use crate::lent::{Lent, Piece, Rng};
use crate::table::{self, Given, Labels};
use diskann_sorted::histories::{Cloud, Report, Rng as Numbers, Rust, cpu};
use std::env;
use std::fs::{File, OpenOptions};
use std::hint::black_box;
use std::io::{Read, Write};
use std::sync::{LazyLock, Mutex};

const PARTS: &[(&str, fn())] = &[
    ("create", create),
    ("search", search),
    ("insert", insert),
    ("delete", delete),
    ("guard", guard),
    ("read", read),
    ("numbers", numbers),
];

const DIM: usize = 256;
const DEGREE: usize = 32;
const ALPHA: f32 = 1.2;
const WEIGHTS: [u8; DIM] = [1; DIM];
const BEAM: u32 = 64;
/// So many slots are filled one at a time.
const FIRST: usize = 232;

/// Times the named parts, or all.
pub fn main(names: &[String]) {
    assert!(names.iter().all(|n| PARTS.iter().any(|(part, _)| n == part)), "parts: create, search, insert, delete, guard, read, numbers");
    println!("dim {DIM}, degree {DEGREE}, alpha {ALPHA}, clustered vectors; CPU time in microseconds");
    for (name, part) in PARTS {
        if names.is_empty() || names.iter().any(|n| n == name) {
            part();
        }
    }
    println!("after each line both had the same index");
}

/// Has a profiler count only what happens in the calls of one function, which COUNTED names: it listens and answers by the pipes `control` and `answer` in the folder
/// PIPES (compare/profile.sh). Without COUNTED nothing is done.
fn order_profiler(function: &str, order: &[u8]) {
    static COUNTED: LazyLock<Option<(String, Mutex<(File, File)>)>> = LazyLock::new(|| {
        let (function, pipes) = (env::var("COUNTED").ok()?, env::var("PIPES").unwrap());
        let open = |name| OpenOptions::new().read(true).write(true).open(format!("{pipes}/{name}")).unwrap();
        Some((function, Mutex::new((open("control"), open("answer")))))
    });
    if let Some((counted, pipes)) = &*COUNTED
        && counted == function
    {
        let (control, answer) = &mut *pipes.lock().unwrap();
        control.write_all(order).unwrap();
        answer.read_exact(&mut [0; 5]).unwrap(); // "ack\n" and a zero byte
    }
}

/// A call of the library that a profiler may count.
macro_rules! counted {
    ($name:ident, $($more:tt)*) => {{
        order_profiler(stringify!($name), b"enable\n");
        let answer = call!($name, $($more)*);
        order_profiler(stringify!($name), b"disable\n");
        answer
    }};
}

/// An index on both sides, and how long each has taken: the Rust, the library.
struct Timed {
    both: Both,
    scratch: Lent<u32>,
    rng: Rng,
    /// Figure numbers run on: the last that was given.
    last: u32,
    spent: [f64; 2],
}

impl Timed {
    /// An index of which slot 0 is given.
    fn new(capacity: usize, vector: &[u8]) -> Timed {
        let mut rng = Rng(1);
        let both = Both::made([DIM as u32, capacity as u32, DEGREE as u32], ALPHA, 0, vector, &[table::BLANK; DEGREE], &mut rng);
        let scratch = Lent::junk(table::scratch_words(capacity as u32) as usize, &mut rng);
        Timed { both, scratch, rng, last: 1, spent: [0.0; 2] }
    }
    /// Makes an index of the given vectors, rows and numbers on both sides, all weights 1, in the memory that is there.
    fn create(&mut self, capacity: usize, bytes: &[u8], rows: &[u32], numbers: &[u32]) {
        let started = cpu();
        self.both.rust = Rust::make(DIM, capacity, DEGREE, ALPHA, 0, bytes, rows, &WEIGHTS).unwrap();
        self.spent[0] += cpu() - started;
        let (sizes, count) = ([DIM as u32, capacity as u32, DEGREE as u32], (bytes.len() / DIM) as u32);
        let given = Given { sizes, alpha: ALPHA.to_bits(), entry: 0, count, bytes: bytes.len(), rows, numbers, weights: &WEIGHTS };
        let (bytes, rows, lent_numbers) = (Lent::of(bytes, &mut self.rng), Lent::of(rows, &mut self.rng), Lent::of(numbers, &mut self.rng));
        let weights = Lent::of(&WEIGHTS, &mut self.rng);
        let lent = self.both.slices.lengths();
        let started = cpu();
        let refused = self.both.slices.create(&mut self.both.words, lent, &given, &bytes, &rows, &lent_numbers, &weights);
        self.spent[1] += cpu() - started;
        assert!(refused == 0);
        self.both.slices.numbers.expect(numbers);
        self.last = count;
    }
    /// Searches on both sides; k is the beam.
    fn search(&mut self, query: &[u8], beam: usize) {
        let started = cpu();
        let said = self.both.rust.search(query, beam, beam);
        self.spent[0] += cpu() - started;
        let [mut slots, mut dists, mut numbers, mut found] = [beam, beam, beam, 1].map(|n| Lent::<u32>::junk(n, &mut self.rng));
        let lent = self.both.slices.lengths();
        let started = cpu();
        let refused = counted!(
            finder_search, self.both, lent, query.as_ptr(), DIM, beam as u32, beam as u32, slots.mut_ptr(), beam, dists.mut_ptr(), beam,
            numbers.mut_ptr(), beam, self.scratch.mut_ptr(), self.scratch.len(), found.mut_ptr()
        );
        self.spent[1] += cpu() - started;
        slots.expect(&said.iter().map(|c| c.0).collect::<Vec<u32>>());
        dists.expect(&said.iter().map(|c| c.1.to_bits()).collect::<Vec<u32>>());
        numbers.expect(&said.iter().map(|c| self.both.slices.numbers.items()[c.0 as usize]).collect::<Vec<u32>>());
        found.expect(&[said.len() as u32]);
        assert!(refused == 0 && [slots, dists, numbers, found].iter_mut().all(|piece| piece.difference().is_none()));
    }
    /// Inserts by the library alone; its time and the slots. The lowest free slots are filled.
    fn insert_by_library(&mut self, batch: &[Vec<u8>]) -> (f64, Lent<u32>) {
        let bytes = batch.concat();
        let numbers: Vec<u32> = (self.last + 1..).take(batch.len()).collect();
        self.last += batch.len() as u32;
        let (mut slots, mut found) = (Lent::junk(batch.len(), &mut self.rng), Lent::junk(1, &mut self.rng));
        let lent = self.both.slices.lengths();
        let started = cpu();
        let refused = counted!(
            finder_insert, self.both, lent, bytes.as_ptr(), bytes.len(), numbers.as_ptr(), numbers.len(), BEAM, slots.mut_ptr(), batch.len(),
            self.scratch.mut_ptr(), self.scratch.len(), found.mut_ptr()
        );
        let spent = cpu() - started;
        found.expect(&[batch.len() as u32]);
        assert!(refused == 0 && found.difference().is_none());
        slots.accept(batch.len());
        slots.items().iter().zip(numbers).for_each(|(&slot, number)| self.both.slices.numbers.expect_at(slot as usize, number));
        (spent, slots)
    }
    /// Inserts on both sides.
    fn insert(&mut self, batch: &[Vec<u8>]) {
        let given = batch.to_vec();
        let started = cpu();
        let filled = self.both.rust.insert(given, BEAM as usize).unwrap();
        self.spent[0] += cpu() - started;
        let (spent, slots) = self.insert_by_library(batch);
        self.spent[1] += spent;
        assert!(slots.items() == filled);
    }
    /// Deletes on both sides.
    fn delete(&mut self, ids: &[u32]) {
        let started = cpu();
        let done = self.both.rust.delete(ids, 64, 4);
        self.spent[0] += cpu() - started;
        let (mut stats, mut found) = (Lent::junk(4 * ids.len(), &mut self.rng), Lent::junk(1, &mut self.rng));
        let lent = self.both.slices.lengths();
        let started = cpu();
        let refused = counted!(
            finder_delete, self.both, lent, ids.as_ptr(), ids.len(), 64, 4, stats.mut_ptr(), ids.len(), self.scratch.mut_ptr(), self.scratch.len(),
            found.mut_ptr()
        );
        self.spent[1] += cpu() - started;
        stats.expect(&done.concat());
        found.expect(&[done.len() as u32]);
        assert!(refused == 0 && stats.difference().is_none() && found.difference().is_none());
    }
    /// Enables the guard on both sides.
    fn enable(&mut self, settings: [u32; 4]) {
        let started = cpu();
        let said = self.both.rust.enable(settings).unwrap();
        self.spent[0] += cpu() - started;
        let mut status = Lent::junk(5, &mut self.rng);
        let (lent, [count, multiplier, sample, beam]) = (self.both.slices.lengths(), settings);
        let started = cpu();
        let refused = counted!(
            finder_guard_enable, self.both, lent, count, multiplier, sample, beam, self.scratch.mut_ptr(), self.scratch.len(), status.mut_ptr()
        );
        self.spent[1] += cpu() - started;
        status.expect(&said);
        assert!(refused == 0 && status.difference().is_none());
    }
    /// Assesses a delete on both sides.
    fn assess(&mut self, ids: &[u32]) {
        let started = cpu();
        let said = self.both.rust.assess(ids).unwrap();
        self.spent[0] += cpu() - started;
        let mut r = Reported::junk(&mut self.rng);
        let lent = self.both.slices.lengths();
        let started = cpu();
        let refused = counted!(
            finder_assess, self.both, lent, ids.as_ptr(), ids.len(), r.checked.mut_ptr(), 64, r.lost.mut_ptr(), 64, self.scratch.mut_ptr(),
            self.scratch.len(), r.numbers.mut_ptr()
        );
        self.spent[1] += cpu() - started;
        assert!(refused == 0 && r.is(&said));
    }
    /// Deletes on both sides if the guard admits it; whether it does.
    fn guarded_delete(&mut self, ids: &[u32]) -> bool {
        let started = cpu();
        let (applied, said) = self.both.rust.guarded_delete(ids, 64, 4).unwrap();
        self.spent[0] += cpu() - started;
        let (mut stats, mut found) = (Lent::junk(4 * ids.len(), &mut self.rng), Lent::junk(1, &mut self.rng));
        let mut r = Reported::junk(&mut self.rng);
        let lent = self.both.slices.lengths();
        let started = cpu();
        let refused = counted!(
            finder_guarded_delete, self.both, lent, ids.as_ptr(), ids.len(), 64, 4, stats.mut_ptr(), ids.len(), r.checked.mut_ptr(), 64,
            r.lost.mut_ptr(), 64, self.scratch.mut_ptr(), self.scratch.len(), found.mut_ptr(), r.numbers.mut_ptr()
        );
        self.spent[1] += cpu() - started;
        let done = applied.as_deref().unwrap_or(&[]);
        stats.expect(&done.concat());
        found.expect(&[done.len() as u32]);
        assert!(refused == 0 && r.is(&said) && said.numbers[0] == applied.is_some() as u32);
        assert!(stats.difference().is_none() && found.difference().is_none());
        applied.is_some()
    }
    /// Makes the Rust's index of what the library's slices hold. None of its slots was emptied, so that all versions are 0.
    fn hand_to_the_rust(&mut self) {
        let b = &mut self.both;
        let [vectors, targets, ..] = b.slices.lengths();
        b.slices.vectors.accept(vectors);
        b.slices.targets.accept(targets);
        b.words.accept(12);
        b.slices.summary.accept(b.slices.summary.len());
        let [dim, capacity, degree, _, entry, live, ..] = b.words().map(|w| w as usize);
        let (bytes, rows) = (&b.slices.vectors.items()[..live * dim], &b.slices.targets.items()[..live * degree]);
        b.rust = Rust::make(dim, capacity, degree, ALPHA, entry as u32, bytes, rows, &WEIGHTS).unwrap();
        assert!(self.same());
    }
    /// Whether both sides have the same index.
    fn same(&mut self) -> bool {
        let b = &mut self.both;
        b.slices.expect(&b.rust.stored(), &[], &[]);
        let mut words = table::rewritten(&b.words(), b.rust.entry(), b.rust.live());
        if let Some((s, pool)) = b.rust.guard() {
            words[6..].copy_from_slice(&[1, s[0], s[1], s[2], s[3], pool.len() as u32]);
            b.slices.pool.expect(&pool);
        }
        b.words.expect(&words);
        b.slices.pieces().into_iter().all(|(_, piece)| piece.difference().is_none()) && b.words.difference().is_none()
    }
    /// The time of one, by the Rust and by the library, since it was last asked for; both must have the same index.
    fn each(&mut self, count: usize) -> [f64; 2] {
        assert!(self.same(), "the library's index is another one than the Rust's");
        std::mem::take(&mut self.spent).map(|s| s * 1e6 / count as f64)
    }
}

/// A report as the library gives it.
struct Reported {
    numbers: Lent<u32>,
    checked: Lent<u32>,
    lost: Lent<u32>,
}

impl Reported {
    fn junk(rng: &mut Rng) -> Reported {
        Reported { numbers: Lent::junk(8, rng), checked: Lent::junk(64, rng), lost: Lent::junk(64, rng) }
    }
    /// Whether it is the Rust's.
    fn is(&mut self, said: &Report) -> bool {
        self.numbers.expect(&said.numbers);
        self.checked.expect(&said.checked);
        self.lost.expect(&said.lost);
        [&mut self.numbers, &mut self.checked, &mut self.lost].into_iter().all(|piece| piece.difference().is_none())
    }
}

/// The vectors of an index.
fn clustered(capacity: usize) -> Vec<Vec<u8>> {
    let mut rng = Numbers(1);
    let cloud = Cloud::new(&mut rng, 200, DIM, 40, 32);
    (0..capacity).map(|_| cloud.draw(&mut rng)).collect()
}

/// An index that the library alone filled up to a slot, untimed, and that was then handed to the Rust: the first slots one vector at a time, so that there
/// is a graph, and then in batches of 256.
fn filled(capacity: usize, vectors: &[Vec<u8>]) -> Timed {
    let mut t = Timed::new(capacity, &vectors[0]);
    let (first, rest) = vectors.split_at(FIRST.min(vectors.len()));
    for batch in first[1..].chunks(1).chain(rest.chunks(256)) {
        t.insert_by_library(batch);
    }
    t.hand_to_the_rust();
    t
}

/// The best of two times on each side.
fn best(a: [f64; 2], b: [f64; 2]) -> [f64; 2] {
    [a[0].min(b[0]), a[1].min(b[1])]
}

/// A table, line by line.
fn head(what: &str, of: &str, counted: &str) {
    println!("{what}\n{:>8} {of:>10} {counted:>8} {:>10} {:>10} {:>6}", "capacity", "the Rust", "library", "ratio");
}

fn line(capacity: usize, of: usize, count: usize, [rust, library]: [f64; 2]) {
    println!("{capacity:>8} {of:>10} {count:>8} {rust:>10.1} {library:>10.1} {:>6.3}", library / rust);
}

/// Makes a full index anew of what it stores.
fn create() {
    head("create; time of one making of a full index", "vectors", "makings");
    for capacity in [1_000usize, 20_000, 65_536] {
        let mut t = filled(capacity, &clustered(capacity));
        let stored = t.both.rust.stored();
        let mut times = [f64::MAX; 2];
        for _ in 0..5 {
            t.create(capacity, &stored.vectors, &stored.targets, &(1..=capacity as u32).collect::<Vec<u32>>());
            times = best(times, t.each(1));
        }
        line(capacity, capacity, 5, times);
    }
}

/// Searches in a full index, best of five rounds.
fn search() {
    head("search, k equal to the beam; time of one", "beam", "searches");
    for capacity in [1_000usize, 20_000, 65_536] {
        let vectors = clustered(capacity + 200);
        let (stored, queries) = vectors.split_at(capacity);
        let mut t = filled(capacity, stored);
        for beam in [16, 64, 256, 1_024] {
            let mut times = [f64::MAX; 2];
            for _ in 0..5 {
                queries.iter().for_each(|query| t.search(query, beam));
                times = best(times, t.each(queries.len()));
            }
            line(capacity, beam, queries.len(), times);
        }
    }
}

/// Inserts in batches of 256, but for the last slots, and then one at a time; of the largest index the last quarter is timed.
fn insert() {
    head(&format!("insert, beam {BEAM}; time of one vector"), "batches of", "vectors");
    for (capacity, untimed, ones, rounds) in [(1_000usize, FIRST, 256usize, 5), (20_000, FIRST, 1_000, 1), (65_536, 49_152, 500, 1)] {
        let vectors = clustered(capacity);
        let (batches, last) = vectors.split_at(capacity - ones);
        let mut times = [[f64::MAX; 2]; 2];
        for _ in 0..rounds {
            let mut t = filled(capacity, &vectors[..untimed]);
            for batch in batches[untimed..].chunks(256) {
                t.insert(batch);
            }
            times[0] = best(times[0], t.each(batches.len() - untimed));
            for one in last.chunks(1) {
                t.insert(one);
            }
            times[1] = best(times[1], t.each(ones));
        }
        line(capacity, 256, batches.len() - untimed, times[0]);
        line(capacity, 1, ones, times[1]);
    }
}

/// Deletes slots drawn at random from a full index.
fn delete() {
    head("delete, repair beam 64, repair degree 4; time of one slot", "batches of", "slots");
    for (capacity, parts) in [(20_000usize, [(1, 256), (64, 512), (256, 1_024)]), (65_536, [(1, 256), (64, 512), (256, 1_024)])] {
        let mut t = filled(capacity, &clustered(capacity));
        let mut slots: Vec<u32> = (0..capacity as u32).collect();
        for i in (1..capacity).rev() {
            slots.swap(i, t.rng.below(i as u32 + 1) as usize);
        }
        for (batch, count) in parts {
            for ids in slots.split_off(slots.len() - count).chunks(batch) {
                t.delete(ids);
            }
            line(capacity, batch, count, t.each(count));
        }
    }
}

/// Enables the guard on a full index, assesses deletes of slots drawn at random, and then deletes such slots as far as the guard admits it.
fn guard() {
    head("guard, settings 32, 4, 4096, 64; time of enabling it (0 ids) and of assessing a delete", "ids", "calls");
    let mut guarded = Vec::new();
    for capacity in [20_000usize, 65_536] {
        let mut t = filled(capacity, &clustered(capacity));
        for _ in 0..5 {
            t.enable([32, 4, 4_096, 64]);
        }
        line(capacity, 0, 5, t.each(5));
        for (count, calls) in [(1, 50), (64, 50)] {
            for _ in 0..calls {
                let ids = drawn(&mut t.rng, capacity, count);
                t.assess(&ids);
            }
            line(capacity, count, calls, t.each(calls));
        }
        guarded.push((capacity, guarded_deletes(&mut t, capacity)));
    }
    head("guarded delete of 64 ids, repair beam 64, repair degree 4; time of one call that is applied (1) and of one that is deferred (0)", "applied", "calls");
    for (capacity, outcomes) in guarded {
        for (applied, (calls, times)) in outcomes.into_iter().enumerate().rev().filter(|(_, (calls, _))| *calls > 0) {
            line(capacity, applied, calls, times);
        }
    }
}

/// Reads a full index whose guard is on: 10,000 calls of each function, on slots drawn at random. The Rust reads twice: as it is, and after the tests of
/// document 01's table, which a call of the library makes too. What is read (of the status its first word) is added up, and the sums compared.
fn read() {
    println!("readings; time of one\n{:>8} {:>22} {:>10} {:>10} {:>10} {:>6} {:>6}", "capacity", "", "the Rust", "tested", "library", "ratio", "tested");
    for capacity in [1_000usize, 20_000, 65_536] {
        let mut t = filled(capacity, &clustered(capacity));
        t.enable([32, 4, 4_096, 64]);
        let (slots, lent) = (drawn(&mut t.rng, capacity, 10_000), t.both.slices.lengths());
        let mut five = [0u32; 5];
        macro_rules! reading {
            ($function:ident, $rust:expr, |$slot:ident| $($more:expr),*) => {
                let rust: fn(&Rust, u32) -> u32 = $rust;
                let started = cpu();
                let said = slots.iter().map(|&slot| black_box(rust)(&t.both.rust, slot) as u64).sum::<u64>();
                let alone = cpu();
                let tested = slots.iter().map(|&slot| match tested(&t.both.words(), black_box(&lent), &t.both.slices.labels()) {
                    0 => black_box(rust)(&t.both.rust, slot) as u64,
                    number => panic!("refused: {number}"),
                });
                let tested = tested.sum::<u64>();
                let between = cpu();
                let mut sum = 0u64;
                for &$slot in &slots {
                    assert!(call!($function, t.both, lent $(, $more)*, five.as_mut_ptr()) == 0);
                    sum += five[0] as u64;
                }
                let times = [alone - started, between - alone, cpu() - between].map(|spent| spent / slots.len() as f64 * 1e6);
                assert!(sum == said && tested == said);
                let [rust, with, library] = times;
                println!(
                    "{capacity:>8} {:>22} {rust:>10.3} {with:>10.3} {library:>10.3} {:>6.1} {:>6.2}",
                    stringify!($function), library / rust, library / with
                );
            };
        }
        reading!(finder_live, |rust, _| rust.live(), |_slot|);
        reading!(finder_mark, |rust, slot| rust.is_live(slot) as u32, |slot| slot);
        reading!(finder_slot_version, |rust, slot| rust.version(slot) as u32, |slot| slot);
        reading!(finder_number, |_, slot| slot + 1, |slot| slot);
        reading!(finder_target, |rust, slot| rust.targets(slot)[0], |slot| slot, 0);
        reading!(finder_guard_status, |rust, _| rust.status()[0], |_slot|);
        assert!(t.same(), "the library's index is another one than the Rust's");
    }
}

/// The rows that every call tests, with numbers and summary tested in two passes. For slots whose numbers are in the order of the slots.
fn tested(words: &table::Words, lent: &table::Lengths, l: &Labels) -> u32 {
    table::shared(words, lent, l, false, || {
        let odd = l.marks.iter().zip(l.numbers).any(|(&mark, &number)| (mark == 0) != (number == 0));
        let (named, rest) = l.summary.split_at(words[5] as usize);
        let mut last = 0;
        let falls = |&slot: &u32| {
            let number = l.numbers.get(slot as usize).copied().unwrap_or(0);
            number <= std::mem::replace(&mut last, number)
        };
        odd || named.iter().any(falls) || rest.iter().any(|&slot| slot != table::BLANK)
    })
}

/// What the tests of one call cost, numbers and summary among them, in a full index; and what making it costs, with numbers that rise and with random ones.
fn numbers() {
    println!("numbers; one finder_live, and one making with rising and with random numbers, best of five rounds");
    println!("{:>8} {:>10} {:>10} {:>10} {:>10}", "capacity", "live, us", "ns a slot", "rising, ms", "random, ms");
    for capacity in [1_000usize, 20_000, 65_536] {
        let mut t = filled(capacity, &clustered(capacity));
        let stored = t.both.rust.stored();
        let (mut live, mut making) = (f64::MAX, [f64::MAX; 2]);
        for _ in 0..5 {
            let (rising, random) = ((1..=capacity as u32).collect::<Vec<u32>>(), draw::any_numbers(capacity, &mut t.rng));
            for (best, numbers) in making.iter_mut().zip([rising, random]) {
                t.create(capacity, &stored.vectors, &stored.targets, &numbers);
                *best = best.min(t.each(1)[1] / 1e3);
            }
            let (lent, mut value) = (t.both.slices.lengths(), 0);
            let started = cpu();
            for _ in 0..1_000 {
                assert!(call!(finder_live, t.both, lent, &mut value) == 0 && value == capacity as u32);
            }
            live = live.min((cpu() - started) * 1e3);
        }
        println!("{capacity:>8} {live:>10.2} {:>10.2} {:>10.2} {:>10.2}", live * 1e3 / capacity as f64, making[0], making[1]);
    }
}

fn drawn(rng: &mut Rng, capacity: usize, count: usize) -> Vec<u32> {
    (0..count).map(|_| rng.below(capacity as u32)).collect()
}

/// Guarded deletes: how many are deferred and how many applied, each with the time of one.
fn guarded_deletes(t: &mut Timed, capacity: usize) -> [(usize, [f64; 2]); 2] {
    let mut outcomes = [(0, [0.0; 2]); 2];
    for _ in 0..20 {
        let ids = drawn(&mut t.rng, capacity, 64);
        let (calls, sum) = &mut outcomes[t.guarded_delete(&ids) as usize];
        let [rust, library] = t.each(1);
        *calls += 1;
        *sum = [sum[0] + rust, sum[1] + library];
    }
    outcomes.map(|(calls, sum)| (calls, sum.map(|s| s / calls as f64)))
}
