//! Random histories, sound and damaged calls, on the index and on a plain model of it (tests/model says what is compared).

mod model;

use finder::*;
use model::{same, Model, Slip, SLIPS};

/// Numbers that look random (splitmix64).
struct Random(u64);

impl Random {
    fn next(&mut self) -> u64 {
        self.0 = self.0.wrapping_add(0x9e37_79b9_7f4a_7c15);
        let mut z = self.0;
        z = (z ^ (z >> 30)).wrapping_mul(0xbf58_476d_1ce4_e5b9);
        z = (z ^ (z >> 27)).wrapping_mul(0x94d0_49bb_1331_11eb);
        z ^ (z >> 31)
    }

    fn below(&mut self, n: u32) -> u32 {
        (self.next() % u64::from(n)) as u32
    }

    fn one_in(&mut self, n: u32) -> bool {
        self.below(n) == 0
    }

    fn pick<T: Copy>(&mut self, list: &[T]) -> T {
        list[self.below(list.len() as u32) as usize]
    }
}

/// So many figure numbers that no live slot of the model carries, in any order.
fn fresh_numbers(random: &mut Random, model: &Model, count: u32) -> Vec<u32> {
    let mut numbers: Vec<u32> = vec![];
    while numbers.len() < count as usize {
        let number = if random.one_in(20) { u32::MAX } else { 1 + random.below(3 * model.slots.len() as u32 + 5) };
        if !numbers.contains(&number) && model.slots.iter().all(|slot| !slot.live || slot.number != number) {
            numbers.push(number);
        }
    }
    numbers
}

/// An index and its model, and what draws the calls.
struct History {
    random: Random,
    values: u32,
    index: Finder,
    model: Model,
    scratch: Scratch,
    refused: u32,
    carried_out: u32,
}

impl History {
    fn new(seed: u64, slip: Slip) -> Result<History, String> {
        let mut random = Random(seed);
        let dim = 1 + random.below(6);
        let capacity = 1 + random.below(30);
        let degree = 1 + random.below(5);
        let alpha = random.pick(&[1.0, 1.2, 2.0]);
        let values = random.pick(&[3, 8, 256]);
        let most = random.pick(&[1, 2, u32::from(MAX_WEIGHT)]);
        let weights: Vec<u8> = (0..dim).map(|_| 1 + random.below(most) as u8).collect();
        let mut model = Model::new(weights.clone(), capacity as usize, degree as usize, alpha, slip);

        // Given slots with any rows: blanks, repeats and references to themselves.
        let count = random.below(capacity + 1);
        let bytes: Vec<u8> = (0..count * dim).map(|_| random.below(values) as u8).collect();
        let rows: Vec<u32> = (0..count * degree).map(|_| if random.one_in(3) { BLANK } else { random.below(count) }).collect();
        let numbers = fresh_numbers(&mut random, &model, count);
        let entry = if count == 0 { 0 } else { random.below(count) };
        for slot in 0..count as usize {
            let row = &rows[slot * degree as usize..][..degree as usize];
            model.slots[slot].live = true;
            model.slots[slot].number = numbers[slot];
            model.slots[slot].vector = bytes[slot * dim as usize..][..dim as usize].to_vec();
            model.slots[slot].row = row.iter().copied().filter(|&target| target != BLANK).collect();
        }
        model.entry = entry;
        let making = Making { dim, capacity, degree, alpha, entry, count, bytes: &bytes, rows: &rows, numbers: &numbers, weights: &weights };
        let index = Finder::create(&making).map_err(|error| error.to_string())?;
        let scratch = index.scratch().map_err(|error| error.to_string())?;
        let mut history = History { random, values, index, model, scratch, refused: 0, carried_out: 0 };
        history.model.compare(&history.index)?;
        same("rows that making changed", history.model.take_rows(&history.index)?, vec![])?;
        Ok(history)
    }

    fn vectors(&mut self, count: u32) -> Vec<u8> {
        (0..count * self.model.dim as u32).map(|_| self.random.below(self.values) as u8).collect()
    }

    /// Some slots, some of them dead, outside or named twice.
    fn ids(&mut self) -> Vec<u32> {
        let most = if self.random.one_in(8) { 300 } else { 5 };
        let count = self.random.below(most);
        (0..count).map(|_| self.random.below(self.model.slots.len() as u32 + 2)).collect()
    }

    /// Some figure numbers, some of them carried by no live slot, 0 or named twice.
    fn named_numbers(&mut self) -> Vec<u32> {
        let ids = self.ids();
        ids.into_iter().map(|id| self.model.slots.get(id as usize).map_or(id, |slot| if self.random.one_in(6) { id } else { slot.number })).collect()
    }

    /// Numbers for so many new vectors, at times some that may not be given.
    fn new_numbers(&mut self, count: u32) -> Vec<u32> {
        let mut numbers = fresh_numbers(&mut self.random, &self.model, count);
        if count > 0 && self.random.one_in(6) {
            let place = self.random.below(count) as usize;
            let slot = self.random.below(self.model.slots.len() as u32) as usize;
            numbers[place] = if self.random.one_in(2) { self.model.slots[slot].number } else { numbers[0] };
        }
        numbers
    }

    /// The first that holds of 7 and 8, which several calls share.
    fn over_or_short(&self, over: bool, short: bool) -> Option<Error> {
        if self.model.slip == Slip::ScratchFirst && short {
            return Some(Error::ShortScratch);
        }
        if over {
            Some(Error::OverLimit)
        } else {
            short.then_some(Error::ShortScratch)
        }
    }

    /// A scratch that is at times too short.
    fn scratch(&mut self) -> (Scratch, bool) {
        let short = self.random.one_in(12);
        let words = self.scratch.words() - usize::from(short);
        (Scratch::of_words(words), short)
    }

    fn search(&mut self) -> Result<(), String> {
        let (mut scratch, short) = self.scratch();
        let mut query = self.vectors(1);
        let wrong = self.random.one_in(12);
        if wrong {
            query.push(0);
        }
        let k = self.random.below(8);
        let beam = self.random.pick(&[0, 1, 2, 3, 5, 8, 40, 1024, 1025]);
        let expected = match self.over_or_short(beam > MAX_BEAM, short) {
            _ if wrong => Err(Error::BadLength),
            Some(error) => Err(error),
            None => Ok(self.model.search(&query, k, beam)),
        };
        let answer = self.index.search(&query, k, beam, &mut scratch);
        self.count(answer.is_ok());
        let answer = answer.map(|hits| hits.iter().map(|hit| (hit.distance as u32, hit.slot, hit.number)).collect::<Vec<_>>());
        same(&format!("search for {query:?}, k {k}, beam {beam}"), answer, expected)
    }

    fn insert(&mut self) -> Result<(), String> {
        let (mut scratch, short) = self.scratch();
        let count = self.random.pick(&[0, 1, 1, 1, 2, 5]);
        let mut bytes = self.vectors(count);
        let part = self.model.dim > 1 && self.random.one_in(12);
        if part {
            bytes.push(0);
        }
        let mut numbers = self.new_numbers(count);
        let wrong = self.random.one_in(12);
        if wrong {
            numbers.push(u32::MAX);
        }
        let beam = self.random.pick(&[0, 1, 2, 4, 8, 64, 1025]);
        let bad_number = self.model.bad_number(&numbers);
        let expected = match self.over_or_short(beam > MAX_BEAM, short) {
            _ if wrong => Err(Error::BadLength),
            Some(error) => Err(error),
            None if part => Err(Error::BadBatch),
            None if bad_number && self.model.slip == Slip::NumberBeforeFull => Err(Error::BadNumber),
            None if self.model.free() < count as usize => Err(Error::Full),
            None if bad_number => Err(Error::BadNumber),
            None => Ok(self.model.insert(&bytes, &numbers)),
        };
        let one = count == 1 && !part && !wrong && self.random.one_in(2);
        let answer = if one {
            self.index.insert_one(&bytes, numbers[0], beam, &mut scratch).map(|slot| vec![slot])
        } else {
            self.index.insert(&bytes, &numbers, beam, &mut scratch)
        };
        self.count(answer.is_ok());
        same(&format!("insert {bytes:?}, numbers {numbers:?}, beam {beam}"), &answer, &expected)?;
        let changed = self.model.take_rows(&self.index)?;
        let new = answer.unwrap_or_default();
        let may = |slot: &u32| new.contains(slot) || new.iter().any(|&new| self.model.slots[new as usize].row.contains(slot));
        same("rows that an insert may not change", changed.iter().copied().filter(|slot| !may(slot)).collect::<Vec<_>>(), vec![])
    }

    /// What the model says of the stats of a delete, given what the index says.
    fn stats(&self, before: &Model, ids: &[u32], repair_degree: u32, stats: &[DeleteStats]) -> Result<(), String> {
        let named = before.named(ids);
        same("slots that are emptied", stats.len(), named.len())?;
        for (&slot, stats) in named.iter().zip(stats) {
            let row = &before.slots[slot as usize].row;
            same(&format!("row length of {slot}"), stats.outgoing_seeds, row.len() as u32)?;
            let mut stay: Vec<u32> = row.iter().copied().filter(|&target| self.model.is_live(target)).collect();
            stay.sort_unstable();
            stay.dedup();
            let least = stay.len() as u32;
            let candidates = stats.repair_candidates;
            if candidates < least || candidates > least + stats.recovered_in_neighbors {
                return Err(format!("candidates of {slot}: {candidates}, of {least} and {}", stats.recovered_in_neighbors));
            }
            same(&format!("links of {slot}"), stats.repair_edges_attempted, self.model.links(candidates, repair_degree))?;
        }
        Ok(())
    }

    fn delete(&mut self, guarded: bool) -> Result<(), String> {
        let (mut scratch, short) = self.scratch();
        let by_number = self.random.one_in(2);
        let named = if by_number { self.named_numbers() } else { self.ids() };
        let ids = if by_number { self.model.slots_of(&named) } else { named.clone() };
        let repair_beam = self.random.pick(&[0, 1, 4, 64, 256, 257]);
        let repair_degree = self.random.pick(&[0, 1, 2, 16, 17]);
        let over = repair_beam > MAX_REPAIR_BEAM || repair_degree > MAX_REPAIR_DEGREE || named.len() > MAX_IDS;
        let list = if by_number { "numbers" } else { "slots" };
        let what = format!("delete {list} {named:?}, repair beam {repair_beam}, repair degree {repair_degree}");
        let before = self.model.clone();
        let report = self.model.assess(&ids).ok_or(Error::GuardOff);
        let expected = match self.over_or_short(over, short) {
            Some(error) => Err(error),
            None if guarded => report.clone().map(Some),
            None => Ok(None),
        };
        let unguarded = self.index.clone();
        let answer = if guarded {
            let done = if by_number {
                self.index.guarded_delete_numbers(&named, repair_beam, repair_degree, &mut scratch)
            } else {
                self.index.guarded_delete(&named, repair_beam, repair_degree, &mut scratch)
            };
            done.map(|done| match done {
                Guarded::Applied { stats, report } => (Some(stats), Some(report)),
                Guarded::Deferred(report) => (None, Some(report)),
            })
        } else {
            let done = if by_number {
                self.index.delete_numbers(&named, repair_beam, repair_degree, &mut scratch)
            } else {
                self.index.delete(&named, repair_beam, repair_degree, &mut scratch)
            };
            done.map(|stats| (Some(stats), None))
        };
        self.count(answer.is_ok());
        same(&what, answer.clone().map(|answer| answer.1), expected.clone())?;
        let Ok((stats, report)) = answer else {
            return Ok(());
        };
        let carried_out = report.is_none_or(|report| report.admitted);
        same(&format!("{what}, carried out"), stats.is_some(), carried_out)?;
        let Some(stats) = stats else {
            return Ok(());
        };
        self.model.delete(&ids);
        self.stats(&before, &ids, repair_degree, &stats)?;
        self.model.take_rows(&self.index)?;
        // A guarded delete that is admitted, or one by numbers, leaves what a delete of the slots leaves.
        let mut other = unguarded;
        let again = other.delete(&ids, repair_beam, repair_degree, &mut scratch);
        same(&format!("{what}, again"), again, Ok(stats))?;
        same(&format!("{what}, memory"), self.index == other, true)
    }

    fn enable(&mut self) -> Result<(), String> {
        let (mut scratch, short) = self.scratch();
        let settings = GuardSettings {
            landmark_count: self.random.pick(&[0, 1, 2, 5, 64, 65]),
            multiplier: self.random.pick(&[0, 1, 2, 16, 17]),
            sample: self.random.pick(&[0, 1, 4, 9, 65_536, 65_537]),
            beam: self.random.pick(&[0, 1, 2, 4, 64, 1025]),
        };
        let over = settings.landmark_count > MAX_LANDMARKS
            || settings.multiplier > MAX_MULTIPLIER
            || settings.sample > MAX_SAMPLE
            || settings.beam > MAX_BEAM;
        let expected = match self.over_or_short(over, short) {
            Some(error) => Err(error),
            None => self.model.enable(settings).map(|()| self.model.status()),
        };
        let answer = self.index.enable_guard(settings, &mut scratch);
        self.count(answer.is_ok());
        same(&format!("enable {settings:?}"), answer, expected)
    }

    fn assess(&mut self) -> Result<(), String> {
        let (mut scratch, short) = self.scratch();
        let ids = self.ids();
        let expected = match self.over_or_short(ids.len() > MAX_IDS, short) {
            Some(error) => Err(error),
            None => self.model.assess(&ids).ok_or(Error::GuardOff),
        };
        let answer = self.index.assess(&ids, &mut scratch);
        self.count(answer.is_ok());
        same(&format!("assess {ids:?}"), answer, expected)
    }

    /// The index is stored, and goes on as what is loaded.
    fn reload(&mut self) -> Result<(), String> {
        let mut bytes = Vec::new();
        self.index.store(&mut bytes).map_err(|error| error.to_string())?;
        let loaded = Finder::load(&mut bytes.as_slice()).map_err(|error| error.to_string())?;
        same("memory that is loaded", loaded == self.index, true)?;
        self.index = loaded;
        Ok(())
    }

    fn count(&mut self, carried_out: bool) {
        self.carried_out += u32::from(carried_out);
        self.refused += u32::from(!carried_out);
    }

    fn call(&mut self) -> Result<(), String> {
        let before = self.index.clone();
        let refused = self.refused;
        match self.random.below(16) {
            0..=4 => self.search(),
            5..=8 => self.insert(),
            9..=10 => self.delete(false),
            11..=12 => self.delete(true),
            13 => self.enable(),
            14 => self.assess(),
            _ => self.reload(),
        }?;
        if self.refused > refused {
            same("memory after a refused call", self.index == before, true)?;
        }
        self.model.compare(&self.index)
    }
}

/// So many calls from one seed: how many were carried out and refused, or the first difference.
fn play(seed: u64, calls: u32, slip: Slip) -> Result<(u32, u32), String> {
    let mut history = History::new(seed, slip).map_err(|what| format!("seed {seed}, making: {what}"))?;
    for call in 0..calls {
        history.call().map_err(|what| format!("seed {seed}, call {call}: {what}"))?;
    }
    Ok((history.carried_out, history.refused))
}

#[test]
fn random_histories() {
    let seeds: u64 = std::env::var("HISTORIES").ok().and_then(|seeds| seeds.parse().ok()).unwrap_or(200);
    let (mut carried_out, mut refused) = (0, 0);
    for seed in 0..seeds {
        match play(seed, 60, Slip::None) {
            Ok(counts) => {
                carried_out += counts.0;
                refused += counts.1;
            }
            Err(what) => panic!("{what}"),
        }
    }
    println!("{carried_out} calls carried out, {refused} refused, no difference");
    assert!(carried_out > 10 * seeds as u32 && refused > seeds as u32);
}

/// The comparison finds faults: with each of these in the model, some history is reported.
#[test]
fn a_wrong_model_is_reported() {
    for slip in SLIPS {
        let report = (0..200).find_map(|seed| play(seed, 60, slip).err());
        println!("{slip:?}: {}", report.as_deref().unwrap_or("not reported"));
        assert!(report.is_some(), "{slip:?} was not reported");
    }
}

/// One byte of the index changed behind its back: the comparison names it.
#[test]
fn a_changed_byte_is_reported() {
    for what in ["vector", "version", "entry", "number", "weight", "row"] {
        let history = (0..50).map(|seed| History::new(seed, Slip::None).unwrap()).find(|history| history.model.live_slots().len() > 2).unwrap();
        let mut model = history.model.clone();
        let mut memory = history.index.into_memory();
        match what {
            "vector" => memory.vectors[0] ^= 1,
            "version" => memory.versions[0] ^= 1,
            "entry" => memory.words[4] = (memory.words[4] + 1) % memory.words[1],
            "number" => {
                // The last in the summary stays the last.
                let last = &mut memory.numbers[memory.summary[memory.words[5] as usize - 1] as usize];
                *last = if *last == u32::MAX { u32::MAX - 1 } else { u32::MAX };
            }
            "weight" => memory.weights[0] = if memory.weights[0] == 1 { 2 } else { 1 },
            _ => memory.targets[0] = if memory.targets[0] == BLANK { 0 } else { BLANK },
        }
        let index = Finder::from_memory(memory).unwrap();
        let report = model.compare(&index).and_then(|()| same("changed rows", model.take_rows(&index)?, vec![]));
        assert!(report.is_err(), "{what} was not reported");
    }
}
