//! The small shelf of the requirements (dim 1, capacity 4, degree 2, the values 0, 3, 10) with the figure numbers 30, 10, 20, and the refusals.

use finder::*;

const ROWS: [u32; 6] = [1, BLANK, 0, 2, 1, BLANK];
const SHELF: Making =
    Making { dim: 1, capacity: 4, degree: 2, alpha: 1.0, entry: 1, count: 3, bytes: &[0, 3, 10], rows: &ROWS, numbers: &[30, 10, 20], weights: &[1] };

fn shelf() -> (Finder, Scratch) {
    let index = Finder::create(&SHELF).unwrap();
    let scratch = index.scratch().unwrap();
    (index, scratch)
}

fn row(index: &Finder, slot: u32) -> Vec<u32> {
    index.neighbours(slot).unwrap().collect()
}

fn pairs(hits: Result<Vec<Hit>, Error>) -> Result<Vec<(u32, f32)>, Error> {
    hits.map(|hits| hits.into_iter().map(|hit| (hit.slot, hit.distance)).collect())
}

fn settings(landmark_count: u32, multiplier: u32, sample: u32, beam: u32) -> GuardSettings {
    GuardSettings { landmark_count, multiplier, sample, beam }
}

/// What the program `shelf` prints.
fn print_out(index: &Finder) -> String {
    let mut text = format!("entry {} live {}\n", index.entry().unwrap(), index.live().unwrap());
    for slot in 0..index.capacity().unwrap() {
        text += &format!("{slot} {} {}", u32::from(index.mark(slot).unwrap()), index.slot_version(slot).unwrap());
        for target in row(index, slot) {
            text += &format!(" {target}");
        }
        text += "\n";
    }
    text
}

#[test]
fn readings() {
    let (f, _) = shelf();
    assert_eq!((f.dim(), f.capacity(), f.degree(), f.alpha()), (Ok(1), Ok(4), Ok(2), Ok(1.0)));
    assert_eq!((f.entry(), f.live()), (Ok(1), Ok(3)));
    assert_eq!((f.mark(2), f.mark(3), f.mark(9)), (Ok(true), Ok(false), Ok(false)));
    assert_eq!((f.slot_version(0), f.slot_version(9)), (Ok(0), Ok(0)));
    assert_eq!((f.number(0), f.number(2), f.number(3), f.number(9)), (Ok(Some(30)), Ok(Some(20)), Ok(None), Ok(None)));
    assert_eq!((f.slots_by_number(), &f.memory().summary[..]), (Ok(&[1, 2, 0][..]), &[1, 2, 0, BLANK][..]));
    assert_eq!((f.target(1, 0), f.target(1, 1), f.target(1, 2), f.target(9, 0)), (Ok(Some(0)), Ok(Some(2)), Ok(None), Ok(None)));
    assert_eq!((f.vector(2), f.vector(3), f.vector(9), f.vector(u32::MAX)), (Some(&[10][..]), None, None, None));
    assert_eq!((f.live_slots().unwrap().len(), f.live_slots().unwrap().collect::<Vec<_>>()), (3, vec![0, 1, 2]));
    assert_eq!((row(&f, 1), row(&f, 3), row(&f, 9)), (vec![0, 2], vec![], vec![]));
}

#[test]
fn searches() {
    let (f, mut scratch) = shelf();
    assert_eq!(pairs(f.search(&[2], 2, 2, &mut scratch)), Ok(vec![(1, 1.0), (0, 4.0)]));
    assert_eq!(pairs(f.search(&[0], 1, 1, &mut scratch)), Ok(vec![(1, 9.0)]));
    assert_eq!(pairs(f.search(&[0], 0, 4, &mut scratch)), Ok(vec![]));
    assert_eq!(f.search(&[2], u32::MAX, 4, &mut scratch).map(|hits| hits.len()), Ok(3));
    assert_eq!(f.search(&[2], 1, 4, &mut scratch), Ok(vec![Hit { slot: 1, number: 10, distance: 1.0 }]));
    let (mut slots, mut distances, mut numbers) = ([7; 5], [7.0; 4], [7; 6]);
    assert_eq!(f.view().search_into(&[2], 4, &mut slots, &mut distances, &mut numbers, &mut scratch), Ok(3));
    assert_eq!((slots, distances, numbers), ([1, 0, 2, 7, 7], [1.0, 4.0, 64.0, 7.0], [10, 30, 20, 7, 7, 7]));
    assert_eq!(f.view().search_into(&[2], 4, &mut slots, &mut distances, &mut numbers[..2], &mut scratch), Ok(2));
}

#[test]
fn print_out_of_the_requirements() {
    let (mut f, mut scratch) = shelf();
    assert_eq!(f.insert(&[6], &[40], 2, &mut scratch), Ok(vec![3]));
    assert_eq!((row(&f, 3), row(&f, 1), row(&f, 2)), (vec![1, 2], vec![0, 3], vec![3]));
    let counts = DeleteStats { outgoing_seeds: 2, recovered_in_neighbors: 1, repair_candidates: 2, repair_edges_attempted: 2 };
    assert_eq!(f.delete(&[1], 2, 1, &mut scratch), Ok(vec![counts]));
    assert_eq!(print_out(&f), "entry 0 live 3\n0 1 0 3\n1 0 1\n2 1 0 3\n3 1 0 2 0\n");
    assert_eq!(pairs(f.search(&[3], 3, 3, &mut scratch)), Ok(vec![(0, 9.0), (3, 9.0), (2, 49.0)]));
}

#[test]
fn inserts() {
    let (mut f, mut scratch) = shelf();
    let before = f.clone();
    assert_eq!(f.insert(&[6, 7], &[40, 40], 2, &mut scratch), Err(Error::Full));
    assert_eq!(f.insert(&[6, 7], &[40], 2, &mut scratch), Err(Error::BadLength));
    assert_eq!(f.insert(&[6], &[40, 50], 2, &mut scratch), Err(Error::BadLength));
    assert_eq!(f.insert_one(&[6, 7], 40, 2, &mut scratch), Err(Error::BadBatch));
    assert_eq!(f.insert_one(&[], 40, 2, &mut scratch), Err(Error::BadBatch));
    assert_eq!(f.insert_one(&[6], 40, 1025, &mut scratch), Err(Error::OverLimit));
    assert_eq!(f.insert_one(&[6], 0, 2, &mut scratch), Err(Error::BadNumber));
    assert_eq!(f.insert_one(&[6], 20, 2, &mut scratch), Err(Error::BadNumber));
    assert_eq!(f.insert(&[], &[], 2, &mut scratch), Ok(vec![]));
    assert_eq!(f, before);
    assert_eq!(f.insert_one(&[6], u32::MAX, 2, &mut scratch), Ok(3));
    assert_eq!((f.live(), f.mark(3), f.vector(3)), (Ok(4), Ok(true), Some(&[6][..])));
    assert_eq!((f.number(3), f.slots_by_number()), (Ok(Some(u32::MAX)), Ok(&[1, 2, 0, 3][..])));
    assert_eq!(f.insert_one(&[6], 40, 2, &mut scratch), Err(Error::Full));
    assert_eq!(pairs(f.search(&[6], 1, 4, &mut scratch)), Ok(vec![(3, 0.0)]));
}

#[test]
fn deletes() {
    let (mut f, mut scratch) = shelf();
    let before = f.clone();
    assert_eq!(f.delete(&[1], 257, 1, &mut scratch), Err(Error::OverLimit));
    assert_eq!(f.delete(&[1], 2, 17, &mut scratch), Err(Error::OverLimit));
    assert_eq!(f.delete(&[0; 257], 2, 1, &mut scratch), Err(Error::OverLimit));
    assert_eq!(f.delete(&[], 2, 1, &mut scratch), Ok(vec![]));
    assert_eq!(f, before);
    assert_eq!(f.delete(&[2, 0, 1, 9, 0], 2, 1, &mut scratch).map(|stats| stats.len()), Ok(3));
    assert_eq!((f.live(), f.entry(), f.live_slots().unwrap().next()), (Ok(0), Ok(1), None));
    assert_eq!((f.slots_by_number(), &f.memory().numbers, &f.memory().summary), (Ok(&[][..]), &vec![0; 4], &vec![BLANK; 4]));
    assert_eq!((f.insert(&[], &[], 2, &mut scratch), f.entry()), (Ok(vec![]), Ok(1)));
    assert_eq!((f.insert(&[7], &[30], 2, &mut scratch), f.entry()), (Ok(vec![0]), Ok(0)));
    assert_eq!(pairs(f.search(&[7], 1, 1, &mut scratch)), Ok(vec![(0, 0.0)]));
}

/// Deletes by figure numbers leave what deletes of their slots leave. What no live slot carries, 0 and repeats count as names and are skipped.
#[test]
fn deletes_by_numbers() {
    let (mut f, mut scratch) = shelf();
    let before = f.clone();
    assert_eq!(f.delete_numbers(&[10; 257], 2, 1, &mut scratch), Err(Error::OverLimit));
    assert_eq!(f.delete_numbers(&[0, 1, 2, 7], 2, 1, &mut scratch), Ok(vec![]));
    assert_eq!(f, before);
    let mut other = f.clone();
    assert_eq!(f.delete_numbers(&[10, 0, 10, 7], 2, 1, &mut scratch), other.delete(&[1], 2, 1, &mut scratch));
    assert_eq!((&f, f.number(1), f.slots_by_number()), (&other, Ok(None), Ok(&[2, 0][..])));

    let (mut f, mut scratch) = shelf();
    assert_eq!(f.guarded_delete_numbers(&[20], 2, 1, &mut scratch), Err(Error::GuardOff));
    f.enable_guard(settings(2, 0, 4, 4), &mut scratch).unwrap();
    let mut other = f.clone();
    assert!(matches!(f.guarded_delete_numbers(&[10], 2, 1, &mut scratch), Ok(Guarded::Deferred(report)) if report.lost == [2]));
    assert_eq!(f, other);
    assert_eq!(f.guarded_delete_numbers(&[7, 20], 2, 1, &mut scratch), other.guarded_delete(&[2], 2, 1, &mut scratch));
    assert_eq!((&f, f.slots_by_number()), (&other, Ok(&[1, 0][..])));

    // A number that is free again, and one that is given twice.
    assert_eq!(f.insert(&[6, 7], &[20, 20], 2, &mut scratch), Err(Error::BadNumber));
    assert_eq!(f.insert(&[6, 7], &[20, 5], 2, &mut scratch), Ok(vec![2, 3]));
    assert_eq!((&f.memory().numbers[..], f.slots_by_number()), (&[30, 10, 20, 5][..], Ok(&[3, 1, 2, 0][..])));
}

#[test]
fn guard() {
    let (mut f, mut scratch) = shelf();
    assert_eq!(f.guard_status(), Ok(GuardStatus::default()));
    assert_eq!(f.assess(&[1], &mut scratch), Err(Error::GuardOff));
    assert_eq!(f.guarded_delete(&[1], 2, 1, &mut scratch), Err(Error::GuardOff));
    assert_eq!(f.enable_guard(settings(65, 1, 4, 4), &mut scratch), Err(Error::OverLimit));
    assert_eq!(f.guard_status(), Ok(GuardStatus::default()));

    let on = GuardStatus { enabled: true, pool_size: 1, live_landmarks: 1, landmark_count: 1, beam: 2 };
    assert_eq!(f.enable_guard(settings(0, 1, 4, 2), &mut scratch), Ok(on));
    assert_eq!((f.guard_status(), f.memory().pool[0]), (Ok(on), 2));
    assert!(f.assess(&[0], &mut scratch).unwrap().admitted);
    let lost = Report { admitted: false, requested: 1, entry: Some(0), checked: vec![2], baseline: 1, residual: 0, lost: vec![2], supplemental: 0 };
    assert_eq!(f.assess(&[1], &mut scratch), Ok(lost));
    assert_eq!(f.assess(&[9], &mut scratch).map(|report| (report.admitted, report.requested)), Ok((true, 0)));
    assert_eq!(f.assess(&[0; 257], &mut scratch), Err(Error::OverLimit));

    let one = |count, given: usize| {
        Finder::create(&Making { entry: 0, count, bytes: &[0][..given], rows: &[BLANK; 2][..2 * given], numbers: &[30][..given], ..SHELF }).unwrap()
    };
    assert_eq!(one(0, 0).enable_guard(settings(2, 1, 4, 4), &mut scratch), Err(Error::NoLive));
    assert_eq!(one(1, 1).enable_guard(settings(2, 1, 4, 4), &mut scratch), Err(Error::NoLandmark));
}

#[test]
fn guarded_deletes() {
    let (mut f, mut scratch) = shelf();
    f.enable_guard(settings(2, 0, 4, 4), &mut scratch).unwrap();
    let before = f.clone();
    let lost = Report { admitted: false, requested: 1, entry: Some(0), checked: vec![2, 0], baseline: 2, residual: 1, lost: vec![2], supplemental: 0 };
    assert_eq!(f.guarded_delete(&[1, 1, 9], 2, 1, &mut scratch), Ok(Guarded::Deferred(lost)));
    assert_eq!(f.guarded_delete(&[1], 2, 17, &mut scratch), Err(Error::OverLimit));
    assert_eq!(f, before);
    let report = Report { admitted: true, requested: 1, entry: Some(1), checked: vec![0], baseline: 1, residual: 1, lost: vec![], supplemental: 0 };
    let counts = DeleteStats { outgoing_seeds: 1, recovered_in_neighbors: 1, repair_candidates: 1, repair_edges_attempted: 0 };
    assert_eq!(f.guarded_delete(&[2, 9, 2], 2, 1, &mut scratch), Ok(Guarded::Applied { stats: vec![counts], report }));
    assert_eq!((f.live(), f.entry(), f.mark(2), f.slot_version(2)), (Ok(2), Ok(1), Ok(false), Ok(1)));
    assert_eq!(f.guard_status().map(|status| (status.pool_size, status.live_landmarks)), Ok((2, 1)));
    let none = |admitted, requested| Report { admitted, requested, entry: None, checked: vec![], baseline: 0, residual: 0, lost: vec![], supplemental: 0 };
    assert_eq!(f.guarded_delete(&[2], 2, 1, &mut scratch), Ok(Guarded::Applied { stats: vec![], report: none(true, 0) }));
    assert_eq!(f.guarded_delete(&[0, 1], 2, 1, &mut scratch), Ok(Guarded::Deferred(none(false, 2))));
}

/// Every number that the library gives: each is met once, and an unknown one is an error too.
#[test]
fn refusals() {
    let (mut f, mut scratch) = shelf();
    assert_eq!(Finder::create(&Making { dim: 257, ..SHELF }).err(), Some(Error::BadSizes));
    assert_eq!(Finder::new(1, 65_537, 1, 1.0).err(), Some(Error::BadSizes));
    assert_eq!(Scratch::new(1, 4, 65).err(), Some(Error::BadSizes));
    assert_eq!(Finder::create(&Making { alpha: f32::NAN, ..SHELF }).err(), Some(Error::BadAlpha));
    assert_eq!(Finder::create(&Making { count: 2, ..SHELF }).err(), Some(Error::BadLength));
    assert_eq!(Finder::create(&Making { numbers: &[30, 10], ..SHELF }).err(), Some(Error::BadLength));
    assert_eq!(Finder::create(&Making { count: 5, bytes: &[0; 5], rows: &[BLANK; 10], numbers: &[0; 5], ..SHELF }).err(), Some(Error::TooMany));
    assert_eq!(Finder::create(&Making { entry: 3, numbers: &[0; 3], ..SHELF }).err(), Some(Error::BadGiven));
    assert_eq!(Finder::create(&Making { numbers: &[30, 0, 20], ..SHELF }).err(), Some(Error::BadNumber));
    assert_eq!(Finder::create(&Making { numbers: &[30, 10, 30], ..SHELF }).err(), Some(Error::BadNumber));
    assert_eq!(Finder::create(&Making { weights: &[5], ..SHELF }).err(), Some(Error::BadWeights));
    assert_eq!(f.search(&[2, 2], 2, 2, &mut scratch), Err(Error::BadLength));
    assert_eq!(f.search(&[2], 2, 1025, &mut scratch), Err(Error::OverLimit));
    assert_eq!(f.search(&[2], 2, 2, &mut Scratch::of_words(0)), Err(Error::ShortScratch));
    assert_eq!(f.insert(&[6], &[0], 2, &mut Scratch::of_words(0)), Err(Error::ShortScratch));
    let mut two = Finder::new(2, 4, 2, 1.0).unwrap();
    assert_eq!(two.insert(&[1, 2, 3], &[0], 4, &mut scratch), Err(Error::BadBatch));
    assert_eq!(two.insert(&[1, 2, 3], &[1, 2], 4, &mut scratch), Err(Error::BadLength));
    for number in (1..=13).chain([15, 16]) {
        let error = Error::of_number(number).unwrap();
        assert_eq!(error.number(), number);
        assert!(!matches!(error, Error::Unknown(_)));
    }
    assert_eq!(Error::of_number(14), Some(Error::Unknown(14)));
    assert_eq!(Error::Unknown(u32::MAX).to_string(), "refused with 4294967295: for a reason that this crate does not know");
}

/// Memory that is no index: every call is refused, and none panics.
#[test]
fn damaged_memory() {
    let (f, mut scratch) = shelf();
    let whole = f.into_memory();
    let mut count = whole.clone();
    count.words[5] = 2;
    let mut entry = whole.clone();
    entry.words[4] = 4;
    let mut guard = whole.clone();
    guard.words[6] = 1;
    let mut sizes = whole.clone();
    sizes.words[0] = 0;
    let mut alpha = whole.clone();
    alpha.words[3] = 0x7fc0_0000;
    let mut short = whole.clone();
    short.vectors.clear();
    let mut huge = whole.clone();
    huge.words = [u32::MAX; INDEX_WORDS];
    let mut no_number = whole.clone();
    no_number.numbers[1] = 0;
    let mut dead_number = whole.clone();
    dead_number.numbers[3] = 40;
    let mut same_number = whole.clone();
    same_number.numbers[2] = 10;
    let mut falling = whole.clone();
    falling.summary.swap(0, 1);
    let mut longer = whole.clone();
    longer.summary[3] = 3;
    let mut outside = whole.clone();
    outside.summary[2] = 4;
    let mut few_numbers = whole.clone();
    few_numbers.numbers.pop();
    let mut long_summary = whole.clone();
    long_summary.summary.push(BLANK);
    let mut no_weights = whole.clone();
    no_weights.weights.clear();
    let mut more_weights = whole.clone();
    more_weights.weights.push(1);
    let mut weight_0 = whole.clone();
    weight_0.weights[0] = 0;
    // 16 comes before 6.
    let mut weight_255 = whole.clone();
    weight_255.weights[0] = 255;
    weight_255.words[5] = 2;
    for (mut memory, error) in [
        (count, Error::BadIndex),
        (entry, Error::BadIndex),
        (guard, Error::BadIndex),
        (sizes, Error::BadSizes),
        (alpha, Error::BadAlpha),
        (short, Error::BadLength),
        (huge, Error::BadSizes),
        (no_number, Error::BadIndex),
        (dead_number, Error::BadIndex),
        (same_number, Error::BadIndex),
        (falling, Error::BadIndex),
        (longer, Error::BadIndex),
        (outside, Error::BadIndex),
        (few_numbers, Error::BadLength),
        (long_summary, Error::BadLength),
        (no_weights, Error::BadLength),
        (more_weights, Error::BadLength),
        (weight_0, Error::BadWeights),
        (weight_255, Error::BadWeights),
    ] {
        let before = memory.clone();
        let view = memory.view();
        assert_eq!((view.check(), view.dim(), view.mark(0), view.target(0, 0)), (Err(error), Err(error), Err(error), Err(error)));
        assert_eq!((view.vector(0), view.live_slots().err(), view.neighbours(0).err()), (None, Some(error), Some(error)));
        assert_eq!((view.number(0), view.slots_by_number()), (Err(error), Err(error)));
        assert_eq!((view.search(&[2], 1, 1, &mut scratch), view.scratch().err()), (Err(error), Some(error)));
        assert_eq!((view.guard_status(), view.assess(&[0], &mut scratch)), (Err(error), Err(error)));
        let mut view = memory.view_mut();
        assert_eq!((view.insert(&[1], &[40], 1, &mut scratch), view.insert_one(&[1], 40, 1, &mut scratch)), (Err(error), Err(error)));
        assert_eq!((view.insert_one(&[], 40, 1, &mut scratch), view.delete_numbers(&[10], 1, 1, &mut scratch)), (Err(error), Err(error)));
        assert_eq!(view.guarded_delete_numbers(&[10], 1, 1, &mut scratch), Err(error));
        assert_eq!((view.delete(&[1], 1, 1, &mut scratch), view.guarded_delete(&[1], 1, 1, &mut scratch)), (Err(error), Err(error)));
        assert_eq!(view.enable_guard(settings(1, 1, 1, 1), &mut scratch), Err(error));
        assert!(memory == before);
        assert_eq!(Finder::from_memory(memory).err(), Some(error));
    }
}

/// Two vectors that change places as the nearest by the weights, and the largest distance there is.
#[test]
fn weights() {
    // 1 * 6² + 1 * 0² and 1 * 0² + 1 * 5²; with weights 1 and 4 the second is 4 * 5².
    for (weights, nearest) in [([1, 1], vec![(1, 25.0), (0, 36.0)]), ([1, 4], vec![(0, 36.0), (1, 100.0)]), ([4, 4], vec![(1, 100.0), (0, 144.0)])] {
        let mut f = Finder::with_weights(2, 4, 2, 1.0, &weights).unwrap();
        let mut scratch = f.scratch().unwrap();
        f.insert_one(&[16, 20], 30, 4, &mut scratch).unwrap();
        f.insert_one(&[10, 25], 10, 4, &mut scratch).unwrap();
        assert_eq!(pairs(f.search(&[10, 20], 2, 4, &mut scratch)), Ok(nearest));
        f.delete(&[0], 4, 2, &mut scratch).unwrap();
        assert_eq!(f.memory().weights, weights);
        let mut bytes = Vec::new();
        f.store(&mut bytes).unwrap();
        assert_eq!((&bytes[bytes.len() - 2..], Finder::load(&mut bytes.as_slice()).unwrap()), (&weights[..], f));
    }
    // The largest sum is 256: at dim 256 only ones fit, at 255 one may be 2, at 64 all are 4.
    let made = |weights: &[u8]| Finder::with_weights(weights.len() as u32, 2, 1, 1.0, weights);
    let with = |many: usize, weight: u8, last: u8| [vec![weight; many], vec![last]].concat();
    for weights in [vec![1; 256], with(254, 1, 2), with(85, 3, 1), vec![4; 64]] {
        let dim = weights.len();
        let mut f = made(&weights).unwrap();
        let mut scratch = f.scratch().unwrap();
        f.insert_one(&vec![0; dim], 1, 1, &mut scratch).unwrap();
        // 255² * 256
        assert_eq!(pairs(f.search(&vec![255; dim], 1, 1, &mut scratch)), Ok(vec![(0, 16_646_400.0)]));
    }
    for weights in [with(255, 1, 2), with(254, 1, 3), with(85, 3, 2), with(64, 4, 1), with(10, 1, 0), with(10, 1, 5), vec![255; 256]] {
        assert_eq!(made(&weights).err(), Some(Error::BadWeights));
    }
    // 3 comes before 16, and 16 before 4.
    let many = Making { count: 5, bytes: &[0; 5], rows: &[BLANK; 10], numbers: &[0; 5], ..SHELF };
    assert_eq!(Finder::create(&Making { weights: &[5, 1], ..SHELF }).err(), Some(Error::BadLength));
    assert_eq!(Finder::create(&Making { weights: &[], ..SHELF }).err(), Some(Error::BadLength));
    assert_eq!(Finder::create(&Making { weights: &[5], ..many }).err(), Some(Error::BadWeights));
    assert_eq!(Finder::create(&Making { weights: &[4], ..many }).err(), Some(Error::TooMany));
    assert_eq!(Finder::with_weights(257, 4, 2, 1.0, &[1; 257]).err(), Some(Error::BadSizes));
    assert_eq!(Finder::with_weights(2, 4, 2, 0.5, &[5; 2]).err(), Some(Error::BadAlpha));
}

#[test]
fn stored_and_loaded() {
    let (mut f, mut scratch) = shelf();
    f.enable_guard(settings(2, 1, 4, 4), &mut scratch).unwrap();
    f.delete(&[2], 2, 1, &mut scratch).unwrap();
    let mut bytes = Vec::new();
    f.store(&mut bytes).unwrap();
    assert_eq!(bytes.len(), 12 * 4 + 4 + 8 * 4 + 8 * 2 + 4 * 2 + 4 + POOL * 4 + 4 * 4 + 4 * 4 + 1);
    bytes.push(77);
    let mut rest = bytes.as_slice();
    let loaded = Finder::load(&mut rest).unwrap();
    assert_eq!((&loaded, rest), (&f, &[77][..]));
    assert_eq!(loaded.search(&[3], 4, 4, &mut scratch), f.search(&[3], 4, 4, &mut scratch));
    // Cut off at every byte, and with each byte changed: refused, or an index; never a panic.
    for end in 0..bytes.len() - 1 {
        assert!(matches!(Finder::load(&mut &bytes[..end]), Err(LoadError::Io(_)) | Err(LoadError::Refused(_))));
    }
    for place in (0..200).chain(bytes.len() - 40..bytes.len()) {
        let mut changed = bytes.clone();
        changed[place] ^= 0x55;
        if let Ok(other) = Finder::load(&mut changed.as_slice()) {
            assert!(other.search(&[3], 4, 4, &mut scratch).is_ok());
        }
    }
}

/// Readers may be sent to and shared with other threads.
#[test]
fn threads() {
    fn shared<T: Send + Sync>() {}
    shared::<Finder>();
    shared::<View>();
    shared::<ViewMut>();
    shared::<Scratch>();
    let mut index = Finder::new(4, 200, 8, 1.2).unwrap();
    let mut scratch = index.scratch().unwrap();
    for n in 0..200u32 {
        index.insert_one(&(n.wrapping_mul(2_654_435_761)).to_le_bytes(), 1000 - n, 32, &mut scratch).unwrap();
    }
    let queries: Vec<[u8; 4]> = (0..100u32).map(|n| n.wrapping_mul(40_503_001).to_le_bytes()).collect();
    let alone: Vec<_> = queries.iter().map(|query| index.search(query, 5, 32, &mut scratch).unwrap()).collect();
    std::thread::scope(|scope| {
        for _ in 0..4 {
            scope.spawn(|| {
                let mut own = index.scratch().unwrap();
                for (query, expected) in queries.iter().zip(&alone) {
                    assert_eq!(index.search(query, 5, 32, &mut own).as_ref(), Ok(expected));
                }
            });
        }
    });
}
