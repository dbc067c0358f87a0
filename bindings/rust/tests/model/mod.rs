//! A plain model of an index: what every call must answer, written simply.
//!
//! It works out by itself, and `compare` holds against the index: sizes, alpha, entry, live count, weights, and of each slot mark, version, figure number and
//! vector; the summary; the slots that an insert gets; which slots a delete empties, how many stats it gives, and of these the first and last count; every answer of a
//! search, by a walk over a sorted list; the landmark pool, the guard's status and every report; the number of each refusal.
//!
//! Rows it takes over from the index (`take_rows`), since pruning and repair are most of the library: it only tests that they are sound, and that an insert or
//! a refused call changes no others than it may.

use finder::{Error, Finder, GuardSettings, GuardStatus, Report, BLANK};

/// A fault of the model, put in on purpose: with each of them a history must be reported as different.
#[derive(Clone, Copy, Debug, PartialEq, Eq)]
pub enum Slip {
    None,
    HighestFree,
    VersionKept,
    EntryKept,
    EntryOfEmptiedKept,
    TiesByHigherSlot,
    ExpandsLast,
    PlainDifference,
    WeightsLeftOut,
    NextWeight,
    WeightSquared,
    RepeatsCount,
    FirstOfEquals,
    AdmitsAll,
    LinksOnce,
    ScratchFirst,
    NumberKept,
    NumbersAreSlots,
    SummaryBySlot,
    LiveNumbersAllowed,
    RepeatedNumbersAllowed,
    NumberBeforeFull,
}

pub const SLIPS: [Slip; 21] = [
    Slip::HighestFree,
    Slip::VersionKept,
    Slip::EntryKept,
    Slip::EntryOfEmptiedKept,
    Slip::TiesByHigherSlot,
    Slip::ExpandsLast,
    Slip::PlainDifference,
    Slip::WeightsLeftOut,
    Slip::NextWeight,
    Slip::WeightSquared,
    Slip::RepeatsCount,
    Slip::FirstOfEquals,
    Slip::AdmitsAll,
    Slip::LinksOnce,
    Slip::ScratchFirst,
    Slip::NumberKept,
    Slip::NumbersAreSlots,
    Slip::SummaryBySlot,
    Slip::LiveNumbersAllowed,
    Slip::RepeatedNumbersAllowed,
    Slip::NumberBeforeFull,
];

#[derive(Clone)]
pub struct Slot {
    pub live: bool,
    pub version: u16,
    pub number: u32,
    pub vector: Vec<u8>,
    pub row: Vec<u32>,
}

#[derive(Clone)]
pub struct Model {
    pub dim: usize,
    pub degree: usize,
    pub alpha: f32,
    pub entry: u32,
    pub weights: Vec<u8>,
    pub slots: Vec<Slot>,
    pub guard: Option<(GuardSettings, Vec<u32>)>,
    pub slip: Slip,
}

/// Says what differs, if anything does.
pub fn same<T: PartialEq + std::fmt::Debug>(what: &str, index: T, model: T) -> Result<(), String> {
    if index == model {
        return Ok(());
    }
    Err(format!("{what}: the index says {index:?}, the model {model:?}"))
}

impl Model {
    pub fn new(weights: Vec<u8>, capacity: usize, degree: usize, alpha: f32, slip: Slip) -> Model {
        let dim = weights.len();
        let blank = Slot { live: false, version: 0, number: 0, vector: vec![0; dim], row: vec![] };
        Model { dim, degree, alpha, entry: 0, weights, slots: vec![blank; capacity], guard: None, slip }
    }

    pub fn is_live(&self, slot: u32) -> bool {
        self.slots.get(slot as usize).is_some_and(|slot| slot.live)
    }

    pub fn live_slots(&self) -> Vec<u32> {
        (0..self.slots.len() as u32).filter(|&slot| self.is_live(slot)).collect()
    }

    pub fn free(&self) -> usize {
        self.slots.iter().filter(|slot| !slot.live).count()
    }

    /// The summary: the live slots by rising number, then blanks.
    pub fn summary(&self) -> Vec<u32> {
        let mut summary = self.live_slots();
        if self.slip != Slip::SummaryBySlot {
            summary.sort_unstable_by_key(|&slot| self.slots[slot as usize].number);
        }
        summary.resize(self.slots.len(), BLANK);
        summary
    }

    /// Whether some number of the list may not be given.
    pub fn bad_number(&self, numbers: &[u32]) -> bool {
        let live = |number: u32| self.slots.iter().any(|slot| slot.live && slot.number == number) && self.slip != Slip::LiveNumbersAllowed;
        let repeated = |place: usize| numbers[..place].contains(&numbers[place]) && self.slip != Slip::RepeatedNumbersAllowed;
        numbers.iter().enumerate().any(|(place, &number)| number == 0 || live(number) || repeated(place))
    }

    /// The slots of those numbers that live slots carry.
    pub fn slots_of(&self, numbers: &[u32]) -> Vec<u32> {
        if self.slip == Slip::NumbersAreSlots {
            return numbers.to_vec();
        }
        numbers.iter().filter_map(|&number| self.live_slots().into_iter().find(|&slot| self.slots[slot as usize].number == number)).collect()
    }

    fn distance(&self, a: &[u8], b: &[u8]) -> u32 {
        let power = if self.slip == Slip::PlainDifference { 1 } else { 2 };
        let weight = |place: usize| match self.slip {
            Slip::WeightsLeftOut => 1,
            Slip::NextWeight => u32::from(self.weights[(place + 1) % self.dim]),
            Slip::WeightSquared => u32::from(self.weights[place]).pow(2),
            _ => u32::from(self.weights[place]),
        };
        a.iter().zip(b).enumerate().map(|(place, (&a, &b))| weight(place) * u32::from(a.abs_diff(b)).pow(power)).sum()
    }

    // ---- changes

    /// The lowest free slots get the vectors and their numbers. Where no slot was live the first of them becomes the entry.
    pub fn insert(&mut self, bytes: &[u8], numbers: &[u32]) -> Vec<u32> {
        let mut free: Vec<u32> = (0..self.slots.len() as u32).filter(|&slot| !self.is_live(slot)).collect();
        if self.slip == Slip::HighestFree {
            free.reverse();
        }
        let got: Vec<u32> = free.into_iter().take(bytes.len() / self.dim).collect();
        if self.live_slots().is_empty() && self.slip != Slip::EntryOfEmptiedKept {
            self.entry = got.first().copied().unwrap_or(self.entry);
        }
        for ((&slot, vector), &number) in got.iter().zip(bytes.chunks(self.dim)).zip(numbers) {
            let slot = &mut self.slots[slot as usize];
            slot.live = true;
            slot.number = number;
            slot.vector = vector.to_vec();
        }
        got
    }

    /// The live slots that ids name, rising, each once.
    pub fn named(&self, ids: &[u32]) -> Vec<u32> {
        let mut named: Vec<u32> = ids.iter().copied().filter(|&id| self.is_live(id)).collect();
        named.sort_unstable();
        if self.slip != Slip::RepeatsCount {
            named.dedup();
        }
        named
    }

    /// They are emptied, their versions step on, and the lowest live slot becomes the entry where it was deleted.
    pub fn delete(&mut self, ids: &[u32]) {
        let named = self.named(ids);
        for &id in &named {
            let slot = &mut self.slots[id as usize];
            slot.live = false;
            if self.slip != Slip::NumberKept {
                slot.number = 0;
            }
            if self.slip != Slip::VersionKept {
                slot.version = slot.version.wrapping_add(1);
            }
        }
        if named.contains(&self.entry) && self.slip != Slip::EntryKept {
            self.entry = self.live_slots().first().copied().unwrap_or(self.entry);
        }
    }

    /// How many links are put between so many candidates: each, but the first, is linked both ways with the nearest `repair_degree` of those before it.
    pub fn links(&self, candidates: u32, repair_degree: u32) -> u32 {
        let ways = if self.slip == Slip::LinksOnce { 1 } else { 2 };
        (0..candidates).map(|before| ways * before.min(repair_degree.max(1))).sum()
    }

    // ---- the walk

    fn before(&self, a: (u32, u32), b: (u32, u32)) -> bool {
        if self.slip == Slip::TiesByHigherSlot && a.0 == b.0 {
            return a.1 > b.1;
        }
        a < b
    }

    /// The list that a walk from `start` leaves, as (distance, slot), without the slots that `without` names.
    pub fn walk(&self, query: &[u8], beam: u32, start: u32, without: &[u32]) -> Vec<(u32, u32)> {
        let beam = beam.max(1) as usize;
        if !self.is_live(start) || without.contains(&start) {
            return vec![];
        }
        let scored = |slot: u32| (self.distance(query, &self.slots[slot as usize].vector), slot);
        let mut list = vec![scored(start)];
        let mut met = vec![start];
        let mut expanded: Vec<u32> = vec![];
        while let Some(&next) = list.iter().find(|candidate| !expanded.contains(&candidate.1)) {
            if list.len() >= beam && next.0 >= list[list.len() - 1].0 && self.slip != Slip::ExpandsLast {
                break;
            }
            expanded.push(next.1);
            for &target in &self.slots[next.1 as usize].row {
                if met.contains(&target) || without.contains(&target) {
                    continue;
                }
                met.push(target);
                let candidate = scored(target);
                if list.len() >= beam {
                    if candidate.0 >= list[list.len() - 1].0 {
                        continue;
                    }
                    list.pop();
                }
                let place = list.iter().position(|&other| self.before(candidate, other)).unwrap_or(list.len());
                list.insert(place, candidate);
            }
        }
        list
    }

    /// What a search finds, as (distance, slot, figure number).
    pub fn search(&self, query: &[u8], k: u32, beam: u32) -> Vec<(u32, u32, u32)> {
        let list = self.walk(query, beam, self.entry, &[]);
        list.into_iter().take(k as usize).map(|(distance, slot)| (distance, slot, self.slots[slot as usize].number)).collect()
    }

    // ---- the guard

    /// The entry, or the lowest live slot, of those that stay.
    fn residual_entry(&self, deleted: &[u32]) -> Option<u32> {
        let stays: Vec<u32> = self.live_slots().into_iter().filter(|slot| !deleted.contains(slot)).collect();
        if stays.contains(&self.entry) {
            return Some(self.entry);
        }
        stays.first().copied()
    }

    /// Landmarks beside those of `kept`: the farthest of a sample from the entry and all landmarks so far, again and again.
    fn landmarks(&self, deleted: &[u32], entry: u32, wanted: usize, sample: u32, kept: &[u32]) -> Vec<u32> {
        let mut references = kept.to_vec();
        if !references.contains(&entry) {
            references.push(entry);
        }
        let stride = (self.slots.len() as u32 / sample).max(1);
        let eligible: Vec<u32> = self.live_slots().into_iter().filter(|slot| !deleted.contains(slot) && !references.contains(slot)).collect();
        let (mut candidates, others): (Vec<u32>, Vec<u32>) = eligible.into_iter().partition(|slot| slot % stride == 0);
        if candidates.len() < wanted {
            candidates.extend(others);
        }
        let vector = |slot: u32| &self.slots[slot as usize].vector;
        let mut chosen = vec![];
        while chosen.len() < wanted && !candidates.is_empty() {
            let least = |&slot: &u32| references.iter().map(|&other| self.distance(vector(slot), vector(other))).min().unwrap();
            // Of equals the last.
            let best = if self.slip == Slip::FirstOfEquals {
                candidates.iter().rev().copied().max_by_key(least).unwrap()
            } else {
                candidates.iter().copied().max_by_key(least).unwrap()
            };
            chosen.push(best);
            references.push(best);
            candidates.retain(|&slot| slot != best);
        }
        chosen
    }

    /// Enables the guard, or says why not.
    pub fn enable(&mut self, settings: GuardSettings) -> Result<(), Error> {
        let one = |setting: u32| setting.max(1);
        let stored = GuardSettings {
            landmark_count: one(settings.landmark_count),
            multiplier: one(settings.multiplier),
            sample: one(settings.sample),
            beam: one(settings.beam),
        };
        let entry = self.residual_entry(&[]).ok_or(Error::NoLive)?;
        let wanted = (stored.landmark_count * stored.multiplier) as usize;
        let pool = self.landmarks(&[], entry, wanted, stored.sample, &[]);
        if pool.is_empty() {
            return Err(Error::NoLandmark);
        }
        self.guard = Some((stored, pool));
        Ok(())
    }

    pub fn status(&self) -> GuardStatus {
        let Some((settings, pool)) = &self.guard else {
            return GuardStatus::default();
        };
        GuardStatus {
            enabled: true,
            pool_size: pool.len() as u32,
            live_landmarks: pool.iter().filter(|&&slot| self.is_live(slot)).count() as u32,
            landmark_count: settings.landmark_count,
            beam: settings.beam,
        }
    }

    /// The report on a delete; none where the guard is off.
    pub fn assess(&self, ids: &[u32]) -> Option<Report> {
        let (settings, pool) = self.guard.as_ref()?;
        let deleted = self.named(ids);
        let requested = deleted.len() as u32;
        let entry = self.residual_entry(&deleted).filter(|_| requested > 0);
        let Some(start) = entry else {
            let admitted = requested == 0;
            return Some(Report { admitted, requested, entry, checked: vec![], baseline: 0, residual: 0, lost: vec![], supplemental: 0 });
        };
        let count = settings.landmark_count as usize;
        let mut checked: Vec<u32> = pool.iter().copied().filter(|&slot| self.is_live(slot) && !deleted.contains(&slot)).take(count).collect();
        let extra = self.landmarks(&deleted, start, count - checked.len(), settings.sample, &checked);
        checked.extend(&extra);
        let found = |without: &[u32], slot: u32| {
            let list = self.walk(&self.slots[slot as usize].vector, settings.beam, start, without);
            list.iter().any(|candidate| candidate.1 == slot)
        };
        let baseline: Vec<u32> = checked.iter().copied().filter(|&slot| found(&[], slot)).collect();
        let residual = checked.iter().filter(|&&slot| found(&deleted, slot)).count() as u32;
        let lost: Vec<u32> = baseline.iter().copied().filter(|&slot| !found(&deleted, slot)).collect();
        let admitted = (!baseline.is_empty() && lost.is_empty()) || self.slip == Slip::AdmitsAll;
        Some(Report { admitted, requested, entry, checked, baseline: baseline.len() as u32, residual, lost, supplemental: extra.len() as u32 })
    }

    // ---- comparing

    /// Every reading of the index, but the rows.
    pub fn compare(&self, index: &Finder) -> Result<(), String> {
        same("dim", index.dim(), Ok(self.dim as u32))?;
        same("capacity", index.capacity(), Ok(self.slots.len() as u32))?;
        same("degree", index.degree(), Ok(self.degree as u32))?;
        same("alpha", index.alpha(), Ok(self.alpha))?;
        same("entry", index.entry(), Ok(self.entry))?;
        same("live count", index.live(), Ok(self.live_slots().len() as u32))?;
        same("live slots", index.live_slots().map(Iterator::collect::<Vec<_>>), Ok(self.live_slots()))?;
        let by_number: Vec<u32> = self.summary().into_iter().filter(|&slot| slot != BLANK).collect();
        same("summary", &index.memory().summary, &self.summary())?;
        same("slots by number", index.slots_by_number(), Ok(&by_number[..]))?;
        same("weights", &index.memory().weights, &self.weights)?;
        same("guard", index.guard_status(), Ok(self.status()))?;
        if let Some((_, pool)) = &self.guard {
            same("pool", &index.memory().pool[..pool.len()], &pool[..])?;
        }
        for id in 0..self.slots.len() as u32 + 2 {
            let slot = self.slots.get(id as usize);
            same(&format!("mark of {id}"), index.mark(id), Ok(self.is_live(id)))?;
            same(&format!("version of {id}"), index.slot_version(id), Ok(slot.map_or(0, |slot| slot.version)))?;
            same(&format!("number of {id}"), index.number(id), Ok(slot.map(|slot| slot.number).filter(|&number| number != 0)))?;
            same(&format!("vector of {id}"), index.vector(id), slot.filter(|slot| slot.live).map(|slot| &slot.vector[..]))?;
        }
        Ok(())
    }

    /// Takes the rows over from the index, if they are sound: live targets only, no more than degree; a row that a call wrote names no slot twice, nor its own.
    /// Gives the slots whose rows changed.
    pub fn take_rows(&mut self, index: &Finder) -> Result<Vec<u32>, String> {
        let mut changed = vec![];
        for id in 0..self.slots.len() as u32 {
            let row: Vec<u32> = index.neighbours(id).map_err(|error| error.to_string())?.collect();
            if let Some(&target) = row.iter().find(|&&target| !self.is_live(target)) {
                return Err(format!("row of {id}: {row:?} names {target}, which is not live"));
            }
            if row.len() > self.degree {
                return Err(format!("row of {id}: {row:?} is longer than {}", self.degree));
            }
            if !self.is_live(id) && !row.is_empty() {
                return Err(format!("row of {id}: {row:?}, and the slot is dead"));
            }
            // What a delete leaves of a row that it did not write is the row without the deleted.
            let mut left = self.slots[id as usize].row.clone();
            left.retain(|&target| self.is_live(target));
            if row != left {
                let mut once = row.clone();
                once.sort_unstable();
                once.dedup();
                if once.len() != row.len() || row.contains(&id) {
                    return Err(format!("row of {id}: {row:?} names a slot twice, or its own"));
                }
                changed.push(id);
            }
            self.slots[id as usize].row = row;
        }
        Ok(changed)
    }
}
