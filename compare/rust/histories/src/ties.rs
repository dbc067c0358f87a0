//! Inputs without ties, for the Rust as published, which gives slots that are equally far in no documented order: no two slots of a walk are as far from
//! the vector that it goes to. That order shows in a search and in an insert; a delete and the guard only ask which slots a walk's list holds.
use crate::both::Both;
use crate::lent::Rng;
use std::collections::HashSet;

/// Vectors and queries are drawn anew so often until there is no tie.
const DRAWS: usize = 20;

pub fn distance(a: &[u8], b: &[u8], weights: &[u8]) -> u32 {
    a.iter().zip(b).zip(weights).map(|((&x, &y), &w)| (x as i32 - y as i32).pow(2) as u32 * w as u32).sum()
}

/// The index's own, whatever its words say.
fn dim(b: &Both) -> usize {
    b.slices.vectors.len() / b.slices.marks.len()
}

fn live(b: &Both) -> impl Iterator<Item = &[u8]> {
    b.slices.vectors.items().chunks_exact(dim(b)).zip(b.slices.marks.items()).filter(|slot| *slot.1 != 0).map(|slot| slot.0)
}

/// Whether two of the vectors are as far from the query.
fn tied<'a>(query: &[u8], weights: &[u8], mut among: impl Iterator<Item = &'a [u8]>) -> bool {
    let mut seen = HashSet::new();
    among.any(|vector| !seen.insert(distance(query, vector, weights)))
}

/// Whether a search can meet a tie.
pub fn in_search(b: &Both, query: &[u8]) -> bool {
    tied(query, b.slices.weights.items(), live(b))
}

/// Whether an insert can: the slots that it fills are live while it walks.
pub fn in_insert(b: &Both, batch: &[u8]) -> bool {
    let each = || batch.chunks_exact(dim(b));
    each().any(|query| tied(query, b.slices.weights.items(), live(b).chain(each())))
}

pub fn query(b: &Both, rng: &mut Rng) -> Vec<u8> {
    let mut draw = || rng.vector(&b.values, dim(b));
    (1..DRAWS).map(|_| draw()).find(|query| !in_search(b, query)).unwrap_or_else(draw)
}

/// A batch of at most so many vectors.
pub fn batch(b: &Both, count: usize, rng: &mut Rng) -> Vec<u8> {
    let weights = b.slices.weights.items();
    let mut among: Vec<Vec<u8>> = live(b).map(<[u8]>::to_vec).collect();
    let held = among.len();
    let mut seen: Vec<HashSet<u32>> = vec![]; // for each vector of the batch, how far all are from it
    while seen.len() < count {
        let fits = |vector: &Vec<u8>| {
            let later = among[held..].iter().zip(&seen).all(|(query, seen)| !seen.contains(&distance(query, vector, weights)));
            later && !tied(vector, weights, among.iter().map(Vec::as_slice).chain([vector.as_slice()]))
        };
        let Some(vector) = (0..DRAWS).map(|_| rng.vector(&b.values, dim(b))).find(fits) else { break };
        among[held..].iter().zip(&mut seen).for_each(|(query, seen)| assert!(seen.insert(distance(query, &vector, weights))));
        seen.push(among.iter().map(|other| distance(&vector, other, weights)).chain([0]).collect());
        among.push(vector);
    }
    among[held..].concat()
}
