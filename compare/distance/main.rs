// The time of one distance, of a query and 64 vectors that lie one behind another. First with weights of 1: the library's, the loop that a Rust programmer would
// write, and such a loop with four running sums. Then with other weights: the library's, and a loop with weights. All are called through a pointer, once for
// the 64, and none is inlined. Where run.sh was given a commit, its library stands beside this one in one more table. Ends with exit code 1 where a distance
// differs.
#![allow(unexpected_cfgs)]

use std::hint::black_box;
use std::slice::{from_raw_parts, from_raw_parts_mut};
use std::sync::atomic::{AtomicUsize, Ordering};
use std::time::Instant;

/// Weights, a query, vectors, and where their distances go.
type Distances = unsafe extern "C" fn(*const u8, usize, *const u8, usize, *const u8, usize, *mut u32, usize);

extern "C" {
    fn finder_distances(weights: *const u8, dim: usize, query: *const u8, query_len: usize, vectors: *const u8, vectors_len: usize, to: *mut u32, to_len: usize);
}

/// How many vectors are measured in a call.
const CALL: usize = 64;

#[inline(never)]
unsafe extern "C" fn rust(_: *const u8, dim: usize, query: *const u8, _: usize, vectors: *const u8, vectors_len: usize, to: *mut u32, to_len: usize) {
    let (query, vectors, to) = (from_raw_parts(query, dim), from_raw_parts(vectors, vectors_len), from_raw_parts_mut(to, to_len));
    for (to, vector) in to.iter_mut().zip(vectors.chunks_exact(dim)) {
        *to = query.iter().zip(vector).map(|(&x, &y)| { let d = x as i32 - y as i32; (d * d) as u32 }).sum();
    }
}

#[inline(never)]
unsafe extern "C" fn weighted(weights: *const u8, dim: usize, query: *const u8, _: usize, vectors: *const u8, vectors_len: usize, to: *mut u32, to_len: usize) {
    let (weights, query) = (from_raw_parts(weights, dim), from_raw_parts(query, dim));
    let (vectors, to) = (from_raw_parts(vectors, vectors_len), from_raw_parts_mut(to, to_len));
    for (to, vector) in to.iter_mut().zip(vectors.chunks_exact(dim)) {
        *to = query.iter().zip(vector).zip(weights).map(|((&x, &y), &w)| { let d = x as i32 - y as i32; (d * d) as u32 * w as u32 }).sum();
    }
}

#[inline(never)]
unsafe extern "C" fn four_sums(_: *const u8, dim: usize, query: *const u8, _: usize, vectors: *const u8, vectors_len: usize, to: *mut u32, to_len: usize) {
    let (query, vectors, to) = (from_raw_parts(query, dim), from_raw_parts(vectors, vectors_len), from_raw_parts_mut(to, to_len));
    for (to, vector) in to.iter_mut().zip(vectors.chunks_exact(dim)) {
        let mut sums = [0; 4];
        for (x, y) in query.chunks(4).zip(vector.chunks(4)) {
            for ((sum, &x), &y) in sums.iter_mut().zip(x).zip(y) {
                let d = x as i32 - y as i32;
                *sum += (d * d) as u32;
            }
        }
        *to = sums.iter().sum();
    }
}

/// Rows so far, and distances that differ.
static ROWS: AtomicUsize = AtomicUsize::new(0);
static DIFFERENCES: AtomicUsize = AtomicUsize::new(0);

/// The best times of one distance of vectors of random bytes by each function, and how many distances differ from those of the last.
fn measured<const N: usize>(weights: &[u8], functions: [Distances; N]) -> ([f64; N], usize) {
    const CALLS: usize = 64;
    let dim = weights.len();
    let mut seed = 1u64;
    let mut bytes = vec![0u8; (CALLS * CALL + 1) * dim];
    for byte in bytes.iter_mut() {
        seed = seed.wrapping_mul(6364136223846793005).wrapping_add(1442695040888963407);
        *byte = (seed >> 33) as u8;
    }
    let run = |distances: Distances, call: usize, to: &mut [u32; CALL]| {
        let (query, vectors) = (bytes.as_ptr(), bytes[(call * CALL + 1) * dim..].as_ptr());
        unsafe { distances(black_box(weights.as_ptr()), dim, black_box(query), dim, black_box(vectors), CALL * dim, black_box(to.as_mut_ptr()), CALL) }
    };
    let mut best = [f64::MAX; N];
    let mut to = [0; CALL];
    for _ in 0..1000 {
        for (best, distances) in best.iter_mut().zip(functions) {
            let distances = black_box(distances);
            let start = Instant::now();
            for call in 0..CALLS {
                run(distances, call, &mut to);
                black_box(&to);
            }
            *best = best.min(start.elapsed().as_nanos() as f64 / (CALLS * CALL) as f64);
        }
    }
    let mut differences = 0;
    for call in 0..CALLS {
        let all = functions.map(|distances| { let mut to = [0; CALL]; run(distances, call, &mut to); to });
        differences += (0..CALL).filter(|&i| all.iter().any(|to| to[i] != all[N - 1][i])).count();
    }
    ROWS.fetch_add(1, Ordering::Relaxed);
    DIFFERENCES.fetch_add(differences, Ordering::Relaxed);
    (best, differences)
}

/// Weights of 1 to 4 in turn as long as their sum fits, then 1.
fn mixed(dim: usize) -> Vec<u8> {
    let mut room = 256 - dim;
    (0..dim)
        .map(|place| {
            let more = ((place + 1) % 4).min(room);
            room -= more;
            1 + more as u8
        })
        .collect()
}

fn main() {
    println!("| bytes | library, ns | the loop as one writes it in Rust | ratio | four sums in Rust | ratio | differences |\n|-:|-:|-:|-:|-:|-:|-:|");
    for dim in (1..=16).chain([64, 128, 255, 256]) {
        let ([library, four, rust], differences) = measured(&vec![1; dim], [finder_distances, four_sums, rust]);
        println!("| {dim} | {library:.1} | {rust:.1} | {:.2} | {four:.1} | {:.2} | {differences} |", library / rust, library / four);
    }
    println!("\n| bytes | weights other than 1 | library, ns | with weights of 1 | ratio | the loop in Rust, with weights | ratio | differences |\n|-:|-:|-:|-:|-:|-:|-:|-:|");
    for dim in [3, 7, 15, 16, 64, 128, 255, 256] {
        // of 256 weights only ones pass a call; the functions below the calls also take a 0, and so a 2
        let weights = if dim < 256 { mixed(dim) } else { [vec![2, 0], vec![1; 254]].concat() };
        let ([library, weighted], differences) = measured(&weights, [finder_distances as Distances, weighted]);
        let ([plain], _) = measured(&vec![1; dim], [finder_distances as Distances]);
        let others = weights.iter().filter(|&&w| w != 1).count();
        println!("| {dim} | {others} | {library:.1} | {plain:.1} | {:.2} | {weighted:.1} | {:.2} | {differences} |", library / plain, library / weighted);
    }
    #[cfg(before)]
    beside_before();
    let (rows, differences) = (ROWS.load(Ordering::Relaxed), DIFFERENCES.load(Ordering::Relaxed));
    if differences > 0 {
        eprintln!("{differences} distances differ in {rows} comparisons");
        std::process::exit(1);
    }
}

#[cfg(before)]
extern "C" {
    fn finder_distances_before(
        weights: *const u8, dim: usize, query: *const u8, query_len: usize, vectors: *const u8, vectors_len: usize, to: *mut u32, to_len: usize,
    );
}

/// The library beside that of a commit, with weights of 1 and with others.
#[cfg(before)]
fn beside_before() {
    println!("\n| bytes | library, ns | before | ratio | with other weights | before | ratio | differences |\n|-:|-:|-:|-:|-:|-:|-:|-:|");
    for dim in [1, 2, 3, 4, 7, 8, 15, 16, 31, 32, 64, 100, 128, 196, 255, 256] {
        let weights = if dim < 256 { mixed(dim) } else { [vec![2, 0], vec![1; 254]].concat() };
        let ([ones, ones_before], differences) = measured(&vec![1; dim], [finder_distances as Distances, finder_distances_before]);
        let ([others, others_before], more) = measured(&weights, [finder_distances as Distances, finder_distances_before]);
        let (ratio, weighted) = (ones / ones_before, others / others_before);
        println!("| {dim} | {ones:.1} | {ones_before:.1} | {ratio:.2} | {others:.1} | {others_before:.1} | {weighted:.2} | {} |", differences + more);
    }
}
