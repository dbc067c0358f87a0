//! What calls are drawn from: sizes, alphas, grey values, weights, lengths, sound and damaged.
use crate::lent::{BORDER, Rng};
use crate::table::{self, Labels, Words, scratch_words};
use std::collections::BTreeSet;

/// How many faults a call gets: none in more than half.
pub fn faults(rng: &mut Rng) -> u32 {
    rng.pick(&[0, 0, 0, 0, 0, 0, 0, 1, 1, 1, 1, 2, 3])
}

/// dim, capacity and degree, mostly small.
pub fn sizes(rng: &mut Rng) -> [u32; 3] {
    let bound = rng.pick(&[64, 65, 86, 128, 129, 255]); // where weights of 4, of 3, of 2 begin to be too many
    let dim = rng.pick(&[1, 2, 3, 4, 2 + rng.0 as u32 % 3, 5 + rng.0 as u32 % 28, 5 + rng.0 as u32 % 28, 33 + rng.0 as u32 % 223, bound, 256]);
    let degree = rng.pick(&[1, 2, 3, 4, 2 + rng.0 as u32 % 3, 5 + rng.0 as u32 % 12, 17 + rng.0 as u32 % 47, 64]);
    match rng.below(250) {
        0 => [dim, 65_536, degree.min(4)],
        1 => [dim.min(16), 65_536, degree],
        2 => [dim.min(16), 4_001 + rng.below(61_535), degree],
        3..=31 => [dim, 301 + rng.below(3_700), degree],
        32..=91 => [dim, 25 + rng.below(276), degree],
        _ => [dim, 1 + rng.below(24), degree],
    }
}

/// Puts one of the sizes outside its range.
pub fn spoil_size(sizes: &mut [u32], rng: &mut Rng) {
    let which = rng.below(3) as usize;
    let limit = [256, 65_536, 64][which];
    sizes[which] = rng.pick(&[0, 0, limit + 1, limit + 1, u32::MAX, limit + 1 + (rng.0 as u32 >> 8)]);
}

pub fn alpha_bits(rng: &mut Rng) -> u32 {
    let between = 0x3f80_0000 + (rng.next() as u32 >> 9);
    rng.pick(&[1.0f32.to_bits(), 1.1f32.to_bits(), 1.2f32.to_bits(), 2.0f32.to_bits(), between])
}

/// The bits of alphas that row 2 refuses: next to the limits, zeros, negative ones, infinities, NaNs.
pub const BAD_ALPHAS: [u32; 12] = [
    0x3f7f_ffff, 0x4000_0001, 0, 0x8000_0000, 0xbf80_0000, 0xc000_0000, 0x7f80_0000, 0xff80_0000, 0x7fc0_0000, 0xffc0_0000, 0x7f80_0001, 0xffff_ffff,
];

/// The grey values that vectors are drawn from: mostly few, so that distances are often equal.
pub fn values(rng: &mut Rng) -> Vec<u8> {
    let all: Vec<u8> = (0..=255).collect();
    rng.pick(&[&[0u8, 1][..], &[0, 1, 3], &[0, 255], &[7], &[0, 1, 2, 3, 4, 5], &[100, 101, 103, 120], &all, &all]).to_vec()
}

/// Weights of 1 to 4 whose sum is at most 256: all 1, any, the last places heavier than the others, one heavier, as many of 4 as fit, or any with the largest sum.
pub fn weights(dim: usize, rng: &mut Rng) -> Vec<u8> {
    let mut list = vec![1u8; dim];
    let mut room = (256 - dim).min(3 * dim);
    let style = rng.below(6);
    let from = if style == 2 { dim - dim.div_ceil(8) } else { 0 };
    let mut raise = |place: usize, by: usize| {
        let by = by.min(room).min(4 - list[place] as usize);
        list[place] += by as u8;
        room -= by;
        room == 0
    };
    match style {
        0 => {}
        1..=2 => (from..dim).rev().for_each(|place| {
            raise(place, rng.below(4) as usize);
        }),
        3 => {
            raise(rng.below(dim as u32) as usize, 1 + rng.below(3) as usize);
        }
        4 => (0..dim).for_each(|place| {
            raise(place, 3);
        }),
        _ => while !raise(rng.below(dim as u32) as usize, 1) {},
    }
    list
}

/// Makes weights that row 16 refuses of such that it does not: one outside 1 to 4, a sum of 257 or more, or one of 0 whose weight another place has too.
pub fn spoil_weights(list: &mut [u8], rng: &mut Rng) {
    let dim = list.len();
    let [one, other] = [0; 2].map(|_| rng.below(dim as u32) as usize);
    match rng.below(10) {
        0 => list[one] = 0,
        1 => list[one] = 5,
        2 => list[one] = rng.pick(&[5, 6, 8, 128, 254, 255, rng.0 as u8 | 8]),
        3 if list[other] < 4 => (list[one], list[other]) = (0, list[other] + 1),
        4..=6 if dim > 64 => {
            // just over
            while list.iter().map(|&w| w as u32).sum::<u32>() <= 256 {
                let place = rng.below(dim as u32) as usize;
                list[place] += (list[place] < 4) as u8;
            }
        }
        7 if dim > 64 => list.fill(rng.pick(&[4, 4, 3, 2])),
        8 => list.fill(rng.pick(&[0, 5, 255])),
        _ => list[rng.pick(&[0, dim - 1])] = rng.pick(&[0, 5, 255]),
    }
}

/// How many vectors an insert brings, of an index of these words: none, one, some, all that fit, or about as many as one or two chunks have. Fewer where
/// the distances to be worked out would take long.
pub fn batch(index: &Words, beam: u32, rng: &mut Rng) -> u32 {
    let [dim, capacity, degree, _, _, live, ..] = *index;
    let free = capacity - live;
    let some = rng.below(free.min(40) + 1);
    let chunks = rng.pick(&[255, 256, 257, 600]);
    let count = rng.pick(&[0, 1, 1, 2, some, some, some, free, chunks, chunks, chunks, chunks]);
    let count = if count <= free { count } else { some };
    let (width, degree) = (beam.max(degree) as u64, degree as u64);
    let all = (live + count) as u64;
    let each = 1 + (width * degree).min(all) + width.min(all) * degree + degree * degree.min(all) * degree.min(all) / 2;
    let most = if rng.one_in(50) { 8_000_000_000 } else { 800_000_000 };
    count.min((most / (each * (dim as u64 + 16))).max(1) as u32)
}

/// Ids to be deleted: live, dead and outside ones, repeats among them, at times all slots.
pub fn ids(marks: &[u8], rng: &mut Rng) -> Vec<u32> {
    let capacity = marks.len() as u32;
    if capacity <= 256 && rng.one_in(30) {
        return (0..capacity).collect();
    }
    let some = rng.below(1 + capacity.min(60) / 2);
    let count = rng.pick(&[0, 1, 1, 1, 2, 2, some, some, some, some, some, 256]);
    let any = |rng: &mut Rng| if rng.one_in(20) { rng.next() as u32 } else { rng.below(capacity + 1) };
    // one that is live, if it is found soon
    let live = |rng: &mut Rng| (0..8).map(|_| rng.below(capacity)).find(|&slot| marks[slot as usize] != 0).unwrap_or(capacity);
    (0..count).map(|_| if rng.one_in(2) { any(rng) } else { live(rng) }).collect()
}

/// So many figure numbers that an index of these labels may be given: none 0, none twice, and none that is live, unless a making gets them. Any ones, small ones,
/// ones near each other or next to those that slots carry; at times 1 or the largest.
pub fn numbers(count: usize, l: Labels, making: bool, rng: &mut Rng) -> Vec<u32> {
    let mut taken = if making { BTreeSet::new() } else { table::live_numbers(l.marks, l.numbers) };
    let span = 2 * (taken.len() + count) as u32 + 3;
    let (style, from) = (rng.below(6), rng.next() as u32);
    let mut list = Vec::with_capacity(count);
    for i in 0..count as u32 {
        let mut number = 0;
        for draws in 0.. {
            number = match if draws < 8 { style } else { 0 } {
                0..=1 => rng.next() as u32,
                2 => 1 + rng.below(span),
                3 => from.wrapping_add(i + rng.below(2)),
                4 => u32::MAX - i - rng.below(3),
                _ => rng.pick(l.numbers).wrapping_add(rng.pick(&[0, 1, 1, 2, u32::MAX])),
            };
            if number != 0 && !taken.contains(&number) {
                break;
            }
        }
        taken.insert(number);
        list.push(number);
    }
    let end = rng.pick(&[1, u32::MAX]);
    if count > 0 && rng.one_in(6) && taken.insert(end) {
        list[rng.below(count as u32) as usize] = end;
    }
    list
}

/// So many numbers, any, none twice.
pub fn any_numbers(count: usize, rng: &mut Rng) -> Vec<u32> {
    let mut taken = BTreeSet::new();
    std::iter::repeat_with(|| rng.next() as u32).filter(|&number| number != 0 && taken.insert(number)).take(count).collect()
}

/// Makes a list of numbers to be given wrong: one is 0, twice in it or live already, or it is too long or too short.
pub fn spoil_numbers(list: &mut Vec<u32>, l: Labels, rng: &mut Rng) {
    let n = list.len() as u32;
    match rng.below(8) {
        0..=1 if n > 0 => list[rng.below(n) as usize] = 0,
        2..=3 if n > 1 => {
            let place = rng.below(n);
            list[((place + 1 + rng.below(n - 1)) % n) as usize] = list[place as usize];
        }
        4..=5 if n > 0 => list[rng.below(n) as usize] = rng.pick(l.numbers),
        _ => list.resize_with(wrong_length(list.len(), rng), || rng.next() as u32),
    }
}

/// Numbers of figures to be deleted: live ones, ones next to these, any, small ones, slots, 0, repeats among them; at times all that are live.
pub fn names(l: &Labels, rng: &mut Rng) -> Vec<u32> {
    let capacity = l.marks.len() as u32;
    if capacity <= 256 && rng.one_in(30) {
        return l.numbers.to_vec();
    }
    let some = rng.below(1 + capacity.min(60) / 2);
    let count = rng.pick(&[0, 1, 1, 1, 2, 2, some, some, some, some, some, 256]);
    // one that is live, if it is found soon
    let live = |rng: &mut Rng| (0..8).map(|_| rng.pick(l.numbers)).find(|&number| number != 0).unwrap_or(0);
    let name = |rng: &mut Rng| match rng.below(12) {
        0 => rng.pick(&[0, 1, u32::MAX, rng.0 as u32]),
        1 => rng.below(2 * capacity + 1),
        2 => live(rng).wrapping_add(rng.pick(&[1, u32::MAX])),
        _ => live(rng),
    };
    (0..count).map(|_| name(rng)).collect()
}

/// The slots of all that are live, or all but one, at most as many as a delete may name; by their slots or their numbers.
pub fn all_live(l: &Labels, by_number: bool, rng: &mut Rng) -> Vec<u32> {
    let mut slots: Vec<u32> = (0..l.marks.len() as u32).filter(|&slot| l.marks[slot as usize] != 0).collect();
    match rng.below(3) {
        0 => slots.reverse(),
        1 => (1..slots.len()).rev().for_each(|i| slots.swap(i, rng.below(i as u32 + 1) as usize)),
        _ => {}
    }
    if rng.one_in(6) {
        slots.pop();
    }
    slots.truncate(256);
    if by_number { slots.into_iter().map(|slot| l.numbers[slot as usize]).collect() } else { slots }
}

/// How many landmarks can be chosen before the Rust's choosing takes long.
pub fn landmarks(index: &Words) -> u32 {
    let each = index[5].max(1) as f64 * (index[0] + 16) as f64 * 2.0;
    (4e8 / each).sqrt().max(1.0) as u32
}

/// Scratch for a call on an index of these words: enough, or too little.
pub fn scratch(index: &Words, short: bool, rng: &mut Rng) -> usize {
    let need = scratch_words(index[1]) as usize;
    if short { rng.pick(&[need - 1, need - 1, need / 2, 0]) } else { need + rng.pick(&[0, 0, 1, 64]) }
}

/// Lengths of a report's two lists: enough, or one too short.
pub fn lists(short: bool, rng: &mut Rng) -> [usize; 2] {
    let mut room = [64 + rng.pick(&[0, 0, 1, 9]), 64 + rng.pick(&[0, 0, 1, 9])];
    if short {
        room[rng.below(2) as usize] = rng.pick(&[63, 63, 0, 32]);
    }
    room
}

/// A length of a lent slice that is not its own.
pub fn wrong_length(n: usize, rng: &mut Rng) -> usize {
    let other = rng.pick(&[n.saturating_sub(1), n + 1, 0, n / 2, n + BORDER, rng.0 as usize % (n + BORDER)]);
    if other == n { n + 1 } else { other }
}
