//! A year of deliveries and withdrawals on both sides: what it does to the graph. `histories year SEED BATCH [PIECE]`: an insert brings at most BATCH
//! vectors; the exit code is 1 where the two sides differ. With a piece, one item of that piece of the library's memory is changed on day 40.
use crate::finder::call;
use crate::lent::Rng;
use crate::sound::{IDS, Same, Sound};
use crate::table::BLANK;
use crate::ties::distance;

const DIM: usize = 256;
const CAPACITY: u32 = 20_000;
const DEGREE: usize = 32;
const ALPHA: f32 = 1.2;
const BEAM: u32 = 64;
/// Of a delete: repair beam and repair degree.
const REPAIR: (u32, u32) = (64, 4);
/// Landmark count, multiplier, sample and beam.
const GUARD: [u32; 4] = [64, 1, 1_024, 16];
const MONTHS: [u32; 12] = [31, 28, 31, 30, 31, 30, 31, 31, 30, 31, 30, 31];
/// Titles that are there when the year begins, inserted one vector at a time.
const BACKLIST: u32 = 20;
const QUERIES: usize = 300;
const BEAMS: [u32; 3] = [16, 64, 256];
const K: usize = 10;
const SPOILED: u32 = 40;

/// The slots of the vectors delivered together.
struct Title {
    slots: Vec<u32>,
    /// When it is to be withdrawn, if ever, whether the guard is asked, and how often it was tried.
    due: Option<u32>,
    guarded: bool,
    tries: u32,
}

/// What a day brings. It is drawn from the seed and the day, so that years with other batches have the same deliveries.
struct Delivery {
    vectors: Vec<Vec<u8>>,
    stays: Option<u32>,
    guarded: bool,
}

#[derive(Default)]
struct Counts {
    inserted: u32,
    turned_back: u32,
    deleted: u32,
    guarded: u32,
    put_off: u32,
    left: u32,
}

struct Year {
    index: Sound,
    seed: u64,
    batch: usize,
    /// Of each title delivered.
    centres: Vec<Vec<u8>>,
    titles: Vec<Title>,
    counts: Counts,
}

/// Bytes around others.
fn around(centre: &[u8], by: i32, rng: &mut Rng) -> Vec<u8> {
    centre.iter().map(|&x| (x as i32 - by + rng.below(2 * by as u32 + 1) as i32).clamp(0, 255) as u8).collect()
}

/// A reading of one number by the library.
macro_rules! read {
    ($index:expr, $name:ident $(, $more:expr)*) => {{
        let (mut value, lent) = (u32::MAX, $index.both.slices.lengths());
        match call!($name, $index.both, lent $(, $more)*, &mut value) {
            0 => Ok(value),
            refused => Err(format!("{}: refused with {refused}", stringify!($name))),
        }
    }};
}

impl Year {
    fn new(seed: u64, batch: usize) -> Year {
        let first = around(&[128; DIM], 40, &mut Rng(seed));
        let index = Sound::new(DIM, CAPACITY, DEGREE, ALPHA, &first, Rng(seed));
        Year { index, seed, batch, centres: vec![first], titles: vec![], counts: Counts::default() }
    }
    /// Random numbers of their own for the deliveries, for the queries and for what is spoiled.
    fn numbers(&self, kind: u64, at: u64) -> Rng {
        Rng(Rng(self.seed + (kind << 32)).next() ^ at)
    }
    /// A title of 20 to 300 vectors around a centre of its own, but for one in ten, which is around that of any title so far. One title in five stays for
    /// good, the others for 10 to 120 days; one in four is withdrawn without asking the guard.
    fn draw(&mut self) -> Delivery {
        let mut rng = self.numbers(1, self.centres.len() as u64);
        let centre = around(&[128; DIM], 40, &mut rng);
        self.centres.push(centre.clone());
        let count = 20 + rng.below(281).min(rng.below(281));
        let vectors = (0..count).map(|_| {
            let other = rng.below(self.centres.len() as u32) as usize;
            let near = if rng.one_in(10) { &self.centres[other] } else { &centre };
            around(near, 32, &mut rng)
        });
        let vectors = vectors.collect();
        Delivery { vectors, stays: (!rng.one_in(5)).then(|| 10 + rng.below(111)), guarded: !rng.one_in(4) }
    }
    /// Inserts a delivery, with at most so many vectors to a call.
    fn deliver(&mut self, day: u32, batch: usize) -> Same<()> {
        let Delivery { vectors, stays, guarded } = self.draw();
        let mut slots = vec![];
        for vectors in vectors.chunks(batch) {
            match self.index.insert(vectors, BEAM)? {
                Some(filled) => slots.extend(filled),
                None => self.counts.turned_back += vectors.len() as u32,
            }
        }
        self.counts.inserted += slots.len() as u32;
        self.titles.push(Title { slots, due: stays.map(|days| day + days), guarded, tries: 0 });
        Ok(())
    }
    /// Withdraws the titles that are due. What the guard puts off is tried again a week later, three times in all, and is then left.
    fn withdraw(&mut self, day: u32) -> Same<()> {
        for title in self.titles.iter_mut().filter(|t| t.due.is_some_and(|due| due <= day)) {
            let mut kept = vec![];
            for ids in title.slots.chunks(IDS) {
                if !title.guarded {
                    self.index.delete(ids, REPAIR.0, REPAIR.1)?;
                } else if self.index.guarded_delete(ids, REPAIR.0, REPAIR.1)? {
                    self.counts.guarded += 1;
                } else {
                    self.counts.put_off += 1;
                    kept.extend_from_slice(ids);
                    continue;
                }
                self.counts.deleted += ids.len() as u32;
            }
            title.tries += 1;
            title.due = (!kept.is_empty() && title.tries < 3).then_some(day + 7);
            self.counts.left += (!kept.is_empty() && title.due.is_none()) as u32;
            title.slots = kept;
        }
        self.titles.retain(|t| !t.slots.is_empty());
        Ok(())
    }
    fn day(&mut self, day: u32, spoil: Option<&str>) -> Same<()> {
        self.withdraw(day)?;
        self.deliver(day, self.batch)?;
        if let (SPOILED, Some(piece)) = (day, spoil) {
            self.spoil(piece);
        }
        self.index.whole()
    }
    /// Changes one item of the library's memory.
    fn spoil(&mut self, piece: &str) {
        let (mut rng, b) = (self.numbers(3, 0), &mut self.index.both);
        macro_rules! flip {
            ($lent:expr) => {{
                let place = rng.below($lent.len() as u32) as usize;
                unsafe { *$lent.mut_ptr().add(place) ^= 1 }
            }};
        }
        match piece {
            "words" => flip!(b.words),
            "vectors" => flip!(b.slices.vectors),
            "targets" => flip!(b.slices.targets),
            "edges" => flip!(b.slices.edges),
            "versions" => flip!(b.slices.versions),
            "marks" => flip!(b.slices.marks),
            "pool" => flip!(b.slices.pool),
            "numbers" => flip!(b.slices.numbers),
            "summary" => flip!(b.slices.summary),
            "weights" => flip!(b.slices.weights),
            _ => panic!("{piece}: words, vectors, targets, edges, versions, marks, pool, numbers, summary or weights"),
        }
    }
    fn is_live(&mut self, slot: u32) -> Same<bool> {
        Ok(read!(self.index, finder_mark, slot)? == 1)
    }
    /// The vector of a live slot.
    fn vector(&mut self, slot: u32) -> &[u8] {
        let lent = self.index.both.slices.lengths();
        let n = call!(finder_vector, self.index.both, lent, slot);
        unsafe { std::slice::from_raw_parts(self.index.both.slices.vectors.ptr().add(slot as usize * DIM), n) }
    }
    fn row(&mut self, slot: u32) -> Same<Vec<u32>> {
        let mut row = vec![];
        loop {
            match read!(self.index, finder_target, slot, row.len() as u32)? {
                BLANK => return Ok(row),
                target => row.push(target),
            }
        }
    }
    /// The rows of all slots, empty where they are dead.
    fn rows(&mut self, live: &[u32]) -> Same<Vec<Vec<u32>>> {
        let mut rows = vec![vec![]; CAPACITY as usize];
        for &slot in live {
            rows[slot as usize] = self.row(slot)?;
        }
        Ok(rows)
    }
    /// Of the K nearest live slots to a query, how many a search finds, by beam.
    fn recall(&mut self, month: usize, live: &[u32]) -> Same<[f64; 3]> {
        let (mut hits, mut rng) = ([0; 3], self.numbers(2, month as u64));
        let vectors: Vec<Vec<u8>> = live.iter().map(|&slot| self.vector(slot).to_vec()).collect();
        for _ in 0..QUERIES {
            let query = around(&vectors[rng.below(live.len() as u32) as usize], 8, &mut rng);
            let mut all: Vec<u32> = vectors.iter().map(|v| distance(&query, v, &[1; DIM])).collect();
            let limit = *all.select_nth_unstable(K - 1).1 as f32;
            for (hits, beam) in hits.iter_mut().zip(BEAMS) {
                *hits += self.index.search(&query, K, beam)?.iter().filter(|pair| f32::from_bits(pair.1) <= limit).count();
            }
        }
        Ok(hits.map(|hits| hits as f64 / (QUERIES * K) as f64))
    }
    /// An index of the same live vectors, inserted one at a time in the order of their slots.
    fn afresh(&mut self) -> Same<Year> {
        let mut live = vec![];
        for slot in 0..CAPACITY {
            if self.is_live(slot)? {
                live.push(self.vector(slot).to_vec());
            }
        }
        let mut fresh = Year { index: Sound::new(DIM, CAPACITY, DEGREE, ALPHA, &live[0], Rng(self.seed)), ..Year::new(self.seed, 1) };
        for vector in &live[1..] {
            fresh.index.insert(std::slice::from_ref(vector), BEAM)?;
        }
        fresh.index.whole()?;
        Ok(fresh)
    }
    /// A line of the table, with the queries of a month.
    fn report(&mut self, name: &str, month: usize) -> Same<String> {
        let (mut live, mut emptied, mut highest) = (vec![], 0, 0);
        for slot in 0..CAPACITY {
            if self.is_live(slot)? {
                live.push(slot);
            }
            let version = read!(self.index, finder_slot_version, slot)?;
            emptied += (version > 0) as u32;
            highest = highest.max(version);
        }
        assert_eq!(live.len() as u32, read!(self.index, finder_live)?);
        let rows = self.rows(&live)?;
        let references: usize = rows.iter().map(Vec::len).sum();
        let unreached = live.len() - reached(&rows, read!(self.index, finder_entry)?);
        let [a, b, c] = self.recall(month, &live)?;
        self.index.whole()?;
        let n = std::mem::take(&mut self.counts);
        let row = references as f64 / live.len() as f64;
        let cells = [live.len() as u32, n.inserted, n.turned_back, n.deleted, n.guarded, n.put_off, n.left, emptied, highest].map(|n| n.to_string());
        Ok(format!("| {name} | {} | {row:.2} | {unreached} | {a:.3} | {b:.3} | {c:.3} | yes |", cells.join(" | ")))
    }
}

/// How many slots a chain of references leads to.
fn reached(rows: &[Vec<u32>], entry: u32) -> usize {
    let mut seen = vec![false; rows.len()];
    let mut open = vec![entry];
    seen[entry as usize] = true;
    while let Some(slot) = open.pop() {
        for &target in &rows[slot as usize] {
            if !std::mem::replace(&mut seen[target as usize], true) {
                open.push(target);
            }
        }
    }
    seen.iter().filter(|&&seen| seen).count()
}

fn run(seed: u64, batch: usize, spoil: Option<&str>) -> Same<()> {
    println!("seed {seed}; dim {DIM}, capacity {CAPACITY}, degree {DEGREE}, alpha {ALPHA}, beam {BEAM}, repair {REPAIR:?}, guard {GUARD:?}");
    println!("vectors to an insert: {batch} at most; recall at {K} of {QUERIES} queries by beam");
    let heads = "live | inserted | turned back | deleted | guarded | put off | left | versions > 0 | highest | mean row | unreached | beam 16 | beam 64 | beam 256";
    println!("| month | {heads} | same bytes |\n|{}", "-:|".repeat(16));
    let mut year = Year::new(seed, batch);
    for _ in 0..BACKLIST {
        year.deliver(0, 1)?;
    }
    year.index.whole()?;
    println!("{}", year.report("0", 0)?);
    let mut day = 0;
    for (month, days) in MONTHS.into_iter().enumerate() {
        year.index.enable(GUARD)?;
        for _ in 0..days {
            day += 1;
            year.day(day, spoil).map_err(|said| format!("day {day}: {said}"))?;
        }
        println!("{}", year.report(&(month + 1).to_string(), month + 1)?);
    }
    println!("{}", year.afresh()?.report("afresh", 12)?);
    println!("on each of the {day} days both sides had the same index, byte by byte");
    Ok(())
}

pub fn main(args: &[String]) {
    let number = |place: usize| args[place].parse::<u64>().expect("histories year SEED BATCH [PIECE]");
    if let Err(said) = run(number(0), number(1) as usize, args.get(2).map(String::as_str)) {
        println!("the library and the Rust differ: {said}");
        std::process::exit(1);
    }
}
