//! The guard's calls: enabling it, its status, assessing a delete, the guarded delete.
use crate::calls::{Asked, History, Outcome};
use crate::draw;
use crate::finder::call;
use crate::lent::{Lent, Piece};
use crate::table;
use crate::updates::{Delete, Naming, meet_delete, slots_of};
use diskann_sorted::histories::Report;

pub fn enable(h: &mut History) -> Outcome {
    let faults = if h.rng.one_in(2) { draw::faults(&mut h.rng) } else { 0 };
    let mut a = Asked::draw(h, faults);
    let rng = &mut h.rng;
    let capacity = a.own[1];
    let most = draw::landmarks(&a.own);
    let sample = rng.pick(&[0, 1, 5, 1 + capacity / 3, capacity, 1_024, 65_536]);
    let mut s = [rng.pick(&[0, 1, 2, 6, 64]), rng.pick(&[0, 1, 2, 4, 16]), sample, rng.pick(&[0, 1, 2, 8, 128, 1_024])];
    while s[0].max(1) * s[1].max(1) > most && s[0].max(s[1]) > 1 {
        (s[0], s[1]) = (s[0] / 2, s[1] / 2);
    }
    let faults: Vec<u32> = (0..rng.pick(&[0, 0, 0, 0, 0, 1, 1, 2])).map(|_| rng.below(5)).collect();
    let words = draw::scratch(&a.own, faults.contains(&4), rng);
    for fault in faults.into_iter().filter(|&f| f < 4).map(|f| f as usize) {
        s[fault] = rng.pick(&[[65, 17, 65_537, 1_025][fault], u32::MAX]);
    }
    let mut status = Lent::<u32>::junk(5, rng);
    let sound = a.number(h) == 0;
    let given = h.both.words();
    let number = table::enable(&given, &a.lent, &h.both.slices.labels(), s, words);
    assert!(number != 0 || sound);
    let mut odd = None;
    if matches!(number, 0 | 12 | 13) {
        let b = &mut h.both;
        if number == 0 {
            a.changes = true;
            b.adopt();
        }
        match (b.rust.enable(s), number) {
            (Ok(said), 0) => {
                status.expect(&said);
                let (settings, pool) = b.rust.guard().unwrap();
                let mut after = given;
                after[6..].copy_from_slice(&[1, settings[0], settings[1], settings[2], settings[3], pool.len() as u32]);
                b.words.expect(&after);
                b.slices.pool.expect(&pool);
                h.meet(if given[6] == 0 { "enable guard, it was off" } else { "enable guard, it was on" });
            }
            (Err(said), n) if said.starts_with(&format!("err {n} ")) => {}
            (answer, n) => odd = Some(format!("document 01 gives {n}, the Rust {answer:?}")),
        }
    }
    let got = call!(finder_guard_enable, h.both, a.lent, s[0], s[1], s[2], s[3], h.scratch.mut_ptr(), words, status.mut_ptr());
    if number == 0 {
        h.scratch.accept(words);
    }
    let said = format!("finder_guard_enable {s:?}, scratch {words}");
    let more: Vec<(&str, &mut dyn Piece)> = vec![("status", &mut status), ("scratch", &mut h.scratch)];
    a.settle(&mut h.both, number, (number as u64, got as u64), more, said).and(odd)
}

pub fn status(h: &mut History) -> Outcome {
    let faults = draw::faults(&mut h.rng);
    let a = Asked::draw(h, faults);
    let mut status = Lent::<u32>::junk(5, &mut h.rng);
    let number = a.number(h);
    if number == 0 {
        h.both.adopt();
        status.expect(&h.both.rust.status());
    }
    let got = call!(finder_guard_status, h.both, a.lent, status.mut_ptr());
    a.settle(&mut h.both, number, (number as u64, got as u64), vec![("status", &mut status)], "finder_guard_status".to_string())
}

pub fn assess(h: &mut History) -> Outcome {
    let faults = if h.rng.one_in(2) { draw::faults(&mut h.rng) } else { 0 };
    let a = Asked::draw(h, faults);
    let (given, rng) = (fewer_landmarks(h, &a), &mut h.rng);
    let faults: Vec<u32> = (0..rng.pick(&[0, 0, 0, 0, 0, 1, 1, 2])).map(|_| rng.below(3)).collect();
    let mut ids = draw::ids(h.both.slices.marks.items(), rng);
    if faults.contains(&0) {
        ids.resize_with(257 + rng.below(3) as usize, || rng.below(a.own[1]));
    }
    let words = draw::scratch(&a.own, faults.contains(&1), rng);
    let room = draw::lists(faults.contains(&2), rng);
    let (mut checked, mut lost) = (Lent::<u32>::junk(room[0], rng), Lent::<u32>::junk(room[1], rng));
    let (mut report, mut ids) = (Lent::<u32>::junk(8, rng), Lent::of(&ids, rng));
    let sound = a.number(h) == 0;
    let number = table::assess(&given, &a.lent, &h.both.slices.labels(), ids.len(), room, words);
    assert!(number != 0 || sound);
    let mut odd = None;
    if matches!(number, 0 | 11) {
        h.both.adopt();
        match (h.both.rust.assess(ids.items()), number) {
            (Ok(said), 0) => {
                report.expect(&said.numbers);
                checked.expect(&said.checked);
                lost.expect(&said.lost);
                meet(h, "assess", &said);
            }
            (Err(said), n) if said.starts_with(&format!("err {n} ")) => {}
            (answer, n) => odd = Some(format!("document 01 gives {n}, the Rust {:?}", answer.map(|r| r.numbers))),
        }
    }
    let got = call!(
        finder_assess, h.both, a.lent, ids.ptr(), ids.len(), checked.mut_ptr(), room[0], lost.mut_ptr(), room[1], h.scratch.mut_ptr(), words,
        report.mut_ptr()
    );
    if number == 0 {
        h.scratch.accept(words);
    }
    let said = format!("finder_assess lists {room:?}, scratch {words}, ids {}", ids.text());
    let lists: [(&str, &mut dyn Piece); 2] = [("checked", &mut checked), ("lost", &mut lost)];
    let mut more: Vec<(&str, &mut dyn Piece)> = vec![("report", &mut report), ("ids", &mut ids), ("scratch", &mut h.scratch)];
    more.extend(lists);
    a.settle(&mut h.both, number, (number as u64, got as u64), more, said).and(odd)
}

/// The words with no more landmarks to be checked than can be chosen soon: a guard may be hand-made, or enabled when fewer slots were live.
fn fewer_landmarks(h: &mut History, a: &Asked) -> table::Words {
    let mut words = h.both.words();
    if words[6] != 0 && words[7] <= 64 {
        words[7] = words[7].min(draw::landmarks(&a.own));
        h.both.words.put(&words);
    }
    words
}

/// Notes what a report says.
fn meet(h: &mut History, call: &str, said: &Report) {
    let [admitted, requested, entry, .., supplemental] = said.numbers;
    let met = [
        (admitted == 1 && requested > 0).then_some("admitted"),
        (admitted == 0).then_some("not admitted"),
        (requested == 0).then_some("nothing live"),
        (requested > 0 && entry == table::BLANK).then_some("no residual entry"),
        (!said.lost.is_empty()).then_some("landmarks lost"),
        (supplemental > 0).then_some("supplemental landmarks"),
    ];
    met.into_iter().flatten().for_each(|what| h.meet(format!("{call}, {what}")));
}

pub fn guarded_delete(h: &mut History) -> Outcome {
    guarded(h, Naming::Slots)
}

pub fn guarded_delete_numbers(h: &mut History) -> Outcome {
    guarded(h, Naming::Numbers)
}

fn guarded(h: &mut History, naming: Naming) -> Outcome {
    let faults = if h.rng.one_in(2) { draw::faults(&mut h.rng) } else { 0 };
    let mut a = Asked::draw(h, faults);
    let given = fewer_landmarks(h, &a);
    let Delete { names, beam, degree, stats: records, scratch: words } = Delete::draw(h, &a, naming);
    let rng = &mut h.rng;
    let room = draw::lists(rng.one_in(12), rng);
    let (mut stats, mut found) = (Lent::<u32>::junk(4 * records, rng), Lent::<u32>::junk(1, rng));
    let (mut checked, mut lost) = (Lent::<u32>::junk(room[0], rng), Lent::<u32>::junk(room[1], rng));
    let (mut report, mut names) = (Lent::<u32>::junk(8, rng), Lent::of(&names, rng));
    let sound = a.number(h) == 0;
    let number = table::guarded_delete(&given, &a.lent, &h.both.slices.labels(), names.len(), beam, degree, records, room, words);
    assert!(number != 0 || sound);
    let mut odd = None;
    let call = if naming == Naming::Slots { "guarded" } else { "guarded numbers" };
    if matches!(number, 0 | 11) {
        h.both.adopt();
        let ids = slots_of(&h.both, naming, names.items());
        match (h.both.rust.guarded_delete(&ids, beam as usize, degree as usize), number) {
            (Ok((applied, said)), 0) => {
                report.expect(&said.numbers);
                checked.expect(&said.checked);
                lost.expect(&said.lost);
                meet(h, call, &said);
                let done = applied.as_deref().unwrap_or(&[]);
                stats.expect(&done.concat());
                found.expect(&[done.len() as u32]);
                let b = &mut h.both;
                b.slices.expect(&b.rust.stored(), &[], &[]);
                if applied.is_some() {
                    a.changes = true;
                    b.words.expect(&table::rewritten(&given, b.rust.entry(), b.rust.live()));
                    meet_delete(h, call, &given, names.items(), &ids, done);
                }
            }
            (Err(said), n) if said.starts_with(&format!("err {n} ")) => {}
            (answer, n) => odd = Some(format!("document 01 gives {n}, the Rust {:?}", answer.map(|r| r.1.numbers))),
        }
    }
    macro_rules! run {
        ($function:ident) => {
            call!(
                $function, h.both, a.lent, names.ptr(), names.len(), beam, degree, stats.mut_ptr(), records, checked.mut_ptr(), room[0],
                lost.mut_ptr(), room[1], h.scratch.mut_ptr(), words, found.mut_ptr(), report.mut_ptr()
            )
        };
    }
    let got = if naming == Naming::Slots { run!(finder_guarded_delete) } else { run!(finder_guarded_delete_numbers) };
    if number == 0 {
        h.scratch.accept(words);
    }
    let said = format!("{call}: beam {beam}, degree {degree}, stats {records}, lists {room:?}, scratch {words}, names {}", names.text());
    let lists: [(&str, &mut dyn Piece); 4] = [("stats", &mut stats), ("found", &mut found), ("checked", &mut checked), ("lost", &mut lost)];
    let mut more: Vec<(&str, &mut dyn Piece)> = vec![("report", &mut report), ("names", &mut names), ("scratch", &mut h.scratch)];
    more.extend(lists);
    a.settle(&mut h.both, number, (number as u64, got as u64), more, said).and(odd)
}
