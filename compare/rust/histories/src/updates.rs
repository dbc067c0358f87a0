//! The calls that change an index, on both sides. Each side goes on from what it left itself.
use crate::both::Both;
use crate::calls::{Asked, History, Outcome};
use crate::draw;
use crate::finder::call;
use crate::lent::{Lent, Piece, Rng};
use crate::table::{self, BLANK};
use crate::ties;

/// An insert: its arguments and the lengths of what it is lent.
struct Insert {
    bytes: Vec<u8>,
    numbers: Vec<u32>,
    beam: u32,
    slots: usize,
    scratch: usize,
}

impl Insert {
    fn draw(h: &mut History, a: &Asked) -> Insert {
        let (rng, b) = (&mut h.rng, &h.both);
        let [dim, capacity, _, _, _, live, ..] = a.own;
        let (dim, need) = (dim as usize, table::scratch_words(capacity) as usize);
        let mut beam = rng.pick(&[0, 1, 2, 4, 8, 16, 64, 300, 1_024]);
        if (700..=1_024).contains(&live) && rng.one_in(2) {
            beam = 1_024; // more candidates than pruning keeps
        }
        let mut count = draw::batch(&a.own, beam, rng) as usize;
        let faults: Vec<u32> = (0..rng.pick(&[0, 0, 0, 0, 0, 1, 1, 2])).map(|_| rng.below(8)).collect();
        if faults.contains(&0) && capacity <= 4_096 {
            count = (capacity - live + 1 + rng.below(3)) as usize;
        }
        let full = faults.contains(&0); // refused, so that ties do not matter
        let mut bytes = if b.apart && !full { ties::batch(b, count, rng) } else { vectors(count, dim, &b.values, b.slices.vectors.items(), rng) };
        let count = bytes.len() / dim;
        let mut slots = count + rng.pick(&[0, 0, 1, 9]);
        let mut scratch = need + rng.pick(&[0, 0, 1, 64]);
        for &fault in &faults {
            match fault {
                1 => beam = rng.pick(&[1_025, 1_025, 2_048, 1 << 31, u32::MAX]),
                2 => scratch = rng.pick(&[need - 1, need - 1, need / 2, 0]),
                // no vector more or less: fewer than dim bytes
                3 if dim > 1 => bytes.resize(bytes.len() + 1 + rng.below(dim as u32 - 1) as usize, 0),
                4 if dim > 1 && count > 0 => bytes.truncate(bytes.len() - 1 - rng.below(dim as u32 - 1) as usize),
                5 if count > 0 => slots = rng.pick(&[count - 1, count - 1, 0, count / 2]),
                _ => {}
            }
        }
        let mut numbers = draw::numbers(bytes.len() / dim, b.slices.labels(), false, rng);
        if faults.iter().any(|&fault| fault >= 6) || full && rng.one_in(3) {
            draw::spoil_numbers(&mut numbers, b.slices.labels(), rng);
        }
        Insert { bytes, numbers, beam, slots, scratch }
    }
}

/// So many vectors one after the other; one in four is one that a slot has or had.
fn vectors(count: usize, dim: usize, values: &[u8], held: &[u8], rng: &mut Rng) -> Vec<u8> {
    let mut bytes = Vec::with_capacity(count * dim);
    for _ in 0..count {
        if rng.one_in(4) {
            let slot = rng.below((held.len() / dim) as u32) as usize;
            bytes.extend_from_slice(&held[slot * dim..(slot + 1) * dim]);
        } else {
            bytes.extend(rng.vector(values, dim));
        }
    }
    bytes
}

pub fn insert(h: &mut History) -> Outcome {
    let faults = if h.rng.one_in(2) { draw::faults(&mut h.rng) } else { 0 };
    let mut a = Asked::draw(h, faults);
    let Insert { bytes, numbers, beam, slots: room, scratch: words } = Insert::draw(h, &a);
    let dim = a.own[0] as usize;
    let (mut slots, mut found) = (Lent::<u32>::junk(room, &mut h.rng), Lent::<u32>::junk(1, &mut h.rng));
    let (mut bytes, mut numbers) = (Lent::of(&bytes, &mut h.rng), Lent::of(&numbers, &mut h.rng));
    let sound = a.number(h) == 0;
    let given = h.both.words();
    let number = table::insert(&given, &a.lent, &h.both.slices.labels(), bytes.len(), numbers.items(), beam, room, words);
    assert!(number != 0 || sound);
    let mut odd = None;
    if number == 0 && h.both.apart && ties::in_insert(&h.both, bytes.items()) {
        return a.leave_out(&mut h.both);
    }
    if a.is_empty() {
        meet_empty(h, number, bytes.len() / dim);
    }
    if number == 0 {
        a.changes = true;
        h.both.adopt();
        meet(h, beam, bytes.len() / dim);
        meet_numbers(h, numbers.items());
    }
    if matches!(number, 0 | 9 | 10) {
        let b = &mut h.both;
        let vectors = bytes.items().chunks(dim).map(|v| v.to_vec()).collect();
        match (b.rust.insert(vectors, beam as usize), number) {
            (Ok(filled), 0) => {
                slots.expect(&filled);
                found.expect(&[filled.len() as u32]);
                b.words.expect(&table::rewritten(&given, b.rust.entry(), b.rust.live()));
                b.slices.expect(&b.rust.stored(), &filled, numbers.items());
            }
            (Err(said), n) if said.starts_with(&format!("err {n} ")) => b.slices.expect(&b.rust.stored(), &[], &[]),
            (answer, n) => odd = Some(format!("document 01 gives {n}, the Rust {answer:?}")),
        }
    }
    let got = call!(
        finder_insert, h.both, a.lent, bytes.ptr(), bytes.len(), numbers.ptr(), numbers.len(), beam, slots.mut_ptr(), room, h.scratch.mut_ptr(),
        words, found.mut_ptr()
    );
    if number == 0 {
        h.scratch.accept(words);
    }
    let [text, these] = if bytes.len() <= 1_024 { [bytes.text(), numbers.text()] } else { Default::default() };
    let lengths = format!("{} bytes, {} numbers", bytes.len(), numbers.len());
    let said = format!("finder_insert {lengths}, beam {beam}, slots {room}, scratch {words}\n  bytes {text}\n  numbers {these}");
    let mut more: Vec<(&str, &mut dyn Piece)> = vec![("slots", &mut slots), ("found", &mut found), ("bytes", &mut bytes), ("scratch", &mut h.scratch)];
    more.push(("numbers given", &mut numbers));
    a.settle(&mut h.both, number, (number as u64, got as u64), more, said).and(odd)
}

/// What the names of a delete are.
#[derive(Clone, Copy, PartialEq)]
pub enum Naming {
    Slots,
    Numbers,
}

/// A delete: its arguments and the lengths of what it is lent.
pub struct Delete {
    pub names: Vec<u32>,
    pub beam: u32,
    pub degree: u32,
    pub stats: usize,
    pub scratch: usize,
}

impl Delete {
    pub fn draw(h: &mut History, a: &Asked, naming: Naming) -> Delete {
        let (emptied, rng, labels) = (h.emptied, &mut h.rng, h.both.slices.labels());
        let faults: Vec<u32> = (0..rng.pick(&[0, 0, 0, 0, 0, 1, 1, 2])).map(|_| rng.below(5)).collect();
        let mut names = match naming {
            _ if emptied && !rng.one_in(3) => draw::all_live(&labels, naming == Naming::Numbers, rng),
            Naming::Slots => draw::ids(labels.marks, rng),
            Naming::Numbers => draw::names(&labels, rng),
        };
        if faults.contains(&0) {
            // at times of nothing that is live
            let (many, zeros) = (257 + rng.below(3) as usize, rng.one_in(3));
            names.resize_with(many, || if zeros { 0 } else { rng.below(a.own[1]) });
        }
        let (mut beam, mut degree) = (rng.pick(&[0, 1, 2, 4, 8, 16, 64, 256]), rng.pick(&[0, 1, 2, 3, 4, 16]));
        let mut stats = names.len() + rng.pick(&[0, 0, 1, 9]);
        let scratch = draw::scratch(&a.own, faults.contains(&1), rng);
        for fault in faults {
            match fault {
                2 => beam = rng.pick(&[257, 257, 1_024, u32::MAX]),
                3 => degree = rng.pick(&[17, 17, 64, u32::MAX]),
                4 if !names.is_empty() => stats = rng.pick(&[names.len() - 1, names.len() - 1, 0, names.len() / 2]),
                _ => {}
            }
        }
        Delete { names, beam, degree, stats, scratch }
    }
}

/// What the Rust is given for the names of a delete: the slots.
pub fn slots_of(b: &Both, naming: Naming, names: &[u32]) -> Vec<u32> {
    let labels = b.slices.labels();
    if naming == Naming::Slots { names.to_vec() } else { table::named(names, labels.marks, labels.numbers) }
}

pub fn delete(h: &mut History) -> Outcome {
    deleting(h, Naming::Slots)
}

pub fn delete_numbers(h: &mut History) -> Outcome {
    deleting(h, Naming::Numbers)
}

fn deleting(h: &mut History, naming: Naming) -> Outcome {
    let faults = if h.rng.one_in(2) { draw::faults(&mut h.rng) } else { 0 };
    let mut a = Asked::draw(h, faults);
    let Delete { names, beam, degree, stats: room, scratch: words } = Delete::draw(h, &a, naming);
    let (mut stats, mut found) = (Lent::<u32>::junk(4 * room, &mut h.rng), Lent::<u32>::junk(1, &mut h.rng));
    let mut names = Lent::of(&names, &mut h.rng);
    let sound = a.number(h) == 0;
    let given = h.both.words();
    let number = table::delete(&given, &a.lent, &h.both.slices.labels(), names.len(), beam, degree, room, words);
    assert!(number != 0 || sound);
    let call = if naming == Naming::Slots { "delete" } else { "delete numbers" };
    if number == 0 {
        a.changes = true;
        let b = &mut h.both;
        b.adopt();
        let ids = slots_of(b, naming, names.items());
        let done = b.rust.delete(&ids, beam as usize, degree as usize);
        stats.expect(&done.concat());
        found.expect(&[done.len() as u32]);
        b.words.expect(&table::rewritten(&given, b.rust.entry(), b.rust.live()));
        b.slices.expect(&b.rust.stored(), &[], &[]);
        meet_delete(h, call, &given, names.items(), &ids, &done);
    }
    macro_rules! run {
        ($function:ident) => {
            call!(
                $function, h.both, a.lent, names.ptr(), names.len(), beam, degree, stats.mut_ptr(), room, h.scratch.mut_ptr(), words, found.mut_ptr()
            )
        };
    }
    let got = if naming == Naming::Slots { run!(finder_delete) } else { run!(finder_delete_numbers) };
    if number == 0 {
        h.scratch.accept(words);
    }
    let said = format!("{call}: beam {beam}, degree {degree}, stats {room}, scratch {words}, names {}", names.text());
    let more: Vec<(&str, &mut dyn Piece)> = vec![("stats", &mut stats), ("found", &mut found), ("names", &mut names), ("scratch", &mut h.scratch)];
    a.settle(&mut h.both, number, (number as u64, got as u64), more, said)
}

/// Notes what a delete that is carried out meets. `ids` are the slots of what it names.
pub fn meet_delete(h: &mut History, call: &str, given: &table::Words, names: &[u32], ids: &[u32], done: &[[u32; 4]]) {
    let (entry, live) = (h.both.rust.entry(), h.both.rust.live());
    let met = [
        [0, 1, 256].contains(&names.len()).then(|| format!("{call}, names {}", names.len())),
        (names.contains(&0) && ids.len() < names.len()).then(|| format!("{call}, 0 among the names")),
        (ids.len() < names.len() && !done.is_empty()).then(|| format!("{call}, numbers that are not live, and live ones")),
        (done.len() < ids.len() && ids.len() == names.len()).then(|| format!("{call}, repeats, dead slots or slots outside")),
        (entry != given[4]).then(|| format!("{call}, another entry")),
        (given[5] > 0 && live == 0).then(|| format!("{call}, nothing stays live")),
        done.iter().any(|s| s[1] > 0).then(|| format!("{call}, a slot is recovered")),
        done.iter().any(|s| s[3] > 0).then(|| format!("{call}, links are made")),
    ];
    met.into_iter().flatten().for_each(|what| h.meet(what));
    *h.met.entry(format!("{call}, slots in all")).or_default() += done.len() as u64;
}

/// Notes the numbers of an insert that is carried out.
fn meet_numbers(h: &mut History, given: &[u32]) {
    let live: Vec<u32> = h.both.slices.numbers.items().iter().copied().filter(|&number| number != 0).collect();
    let (least, most) = (given.iter().min(), given.iter().max());
    let met = [
        given.contains(&1).then_some("number 1"),
        given.contains(&u32::MAX).then_some("the largest number"),
        (!given.is_empty() && most < live.iter().min()).then_some("all numbers below those that are live"),
        (!live.is_empty() && least > live.iter().max()).then_some("all numbers above those that are live"),
        (given.len() > 1 && given.windows(2).all(|two| two[0] > two[1])).then_some("falling numbers"),
        given.iter().any(|&number| number <= h.both.capacity()).then_some("numbers that are slots too"),
    ];
    met.into_iter().flatten().for_each(|what| h.meet(format!("insert, {what}")));
}

/// Notes an insert into an index without live slots, carried out or not.
fn meet_empty(h: &mut History, number: u32, count: usize) {
    let entry = h.both.rust.entry();
    let met = [
        Some("in all".to_string()),
        (number != 0).then(|| format!("refused {number}")),
        (number == 0 && count == 0).then(|| "no vectors".to_string()),
        (number == 0 && count > 0).then(|| "carried out".to_string()),
        (number == 0 && count > 1).then(|| "carried out, several vectors".to_string()),
        (number == 0 && count > 256).then(|| "carried out, more than a chunk".to_string()),
        (number == 0 && count > 0 && entry != 0).then(|| "carried out, slot 0 was not the entry".to_string()),
        (number == 0 && count == 0 && entry != 0).then(|| "no vectors, slot 0 was not the entry".to_string()),
        (number != 0 && entry != 0).then(|| "refused, slot 0 was not the entry".to_string()),
    ];
    met.into_iter().flatten().for_each(|what| h.meet(format!("insert into an index without live slots, {what}")));
}

/// Notes what an insert that is carried out meets.
fn meet(h: &mut History, beam: u32, count: usize) {
    let [dim, capacity, degree, alpha, entry, live, guard, ..] = h.both.words();
    let slices = &h.both.slices;
    let marks = slices.marks.items();
    let (dead, odd_marks) = (marks[entry as usize] == 0, marks.iter().any(|&m| m > 1));
    let references = || slices.targets.items().iter().copied().zip(slices.edges.items().iter().copied()).filter(|r| r.0 != BLANK);
    let outside = references().any(|(target, _)| target >= capacity);
    let outdated = references().any(|(t, edge)| t < capacity && marks[t as usize] != 0 && slices.versions.items()[t as usize] != edge);
    let among = |name: &str, n: u32, these: &[u32]| these.contains(&n).then(|| format!("insert, {name} {n}"));
    let met = [
        among("batch of", count as u32, &[0, 1, 255, 256, 257, 600]),
        (count == (capacity - live) as usize && count > 0).then(|| "insert, the last free slot is filled".to_string()),
        among("beam", beam, &[0, 1, 1_024]),
        among("dim", dim, &[1, 256]),
        among("capacity", capacity, &[1, 65_536]),
        among("degree", degree, &[1, 64]),
        [1.0f32, 1.2, 2.0].iter().find(|a| a.to_bits() == alpha).map(|a| format!("insert, alpha {a:.1}")),
        (live == 0).then(|| "insert, nothing live".to_string()),
        (dead && live > 0).then(|| "insert, the entry dead and others live".to_string()),
        odd_marks.then(|| "insert, marks other than 0 and 1".to_string()),
        outside.then(|| "insert, targets outside".to_string()),
        outdated.then(|| "insert, outdated references".to_string()),
        (guard != 0).then(|| "insert, guard on".to_string()),
    ];
    for what in met.into_iter().flatten() {
        h.meet(what);
    }
    *h.met.entry("insert, vectors in all".to_string()).or_default() += count as u64;
}
