//! The second copy of the library's index, for bytes that must not matter: those of the vectors of dead slots. After each call they are overwritten in
//! it with junk, and each call is made on both copies. Both must answer the same and leave the same in all but these bytes. The copy is kept from a making
//! that is carried out on, which makes the two alike, until state is written by hand: in some indexes that no calls lead to the bytes do matter (a dead
//! entry beside live slots, where a repair starts).
use crate::both::Slices;
use crate::lent::Rng;

pub struct Second {
    kept: bool,
    /// What the call that was made last answered on it.
    answer: Option<u64>,
    /// Numbers of its own, so that the calls of a seed are the same with it and without.
    dust: Rng,
    /// How many calls were made on it, how many of them were carried out, and how many bytes were overwritten.
    pub calls: u64,
    pub carried_out: u64,
    pub bytes: u64,
}

impl Second {
    pub fn none(seed: u64) -> Second {
        Second { kept: false, answer: None, dust: Rng(seed), calls: 0, carried_out: 0, bytes: 0 }
    }
    pub fn is_kept(&self) -> bool {
        self.kept
    }
    pub fn keep(&mut self, kept: bool) {
        self.kept = kept;
    }
    pub fn answered(&mut self, answer: Option<u64>) {
        self.answer = answer;
    }
    /// The answer of a call of this number that was made on it too.
    pub fn take_answer(&mut self, number: u32) -> Option<u64> {
        self.calls += self.answer.is_some() as u64;
        self.carried_out += (self.answer.is_some() && number == 0) as u64;
        self.answer.take()
    }
    /// Overwrites the bytes of the dead slots' vectors: with any, or with small ones, near those of many indexes.
    pub fn spread(&mut self, slices: &mut Slices) {
        if !self.kept {
            return;
        }
        let (dim, some) = (slices.vectors.len() / slices.marks.len(), self.dust.pick(&[0xff, 0x07, 0x01]));
        for slot in dead_slots(slices.marks.items()) {
            let junk: Vec<u8> = (0..dim.div_ceil(8)).flat_map(|_| self.dust.next().to_le_bytes()).map(|byte| byte & some).collect();
            slices.vectors.put_second(slot * dim, &junk[..dim]);
            self.bytes += dim as u64;
        }
    }
}

/// Puts back the bytes that must not matter, those of the slots that are dead by these marks, so that all bytes can be compared.
pub fn put_back(slices: &mut Slices, marks: &[u8]) {
    let dim = slices.vectors.len() / marks.len();
    dead_slots(marks).into_iter().for_each(|slot| slices.vectors.put_back_second(slot * dim, dim));
}

fn dead_slots(marks: &[u8]) -> Vec<usize> {
    (0..marks.len()).filter(|&slot| marks[slot] == 0).collect()
}
