//! Times of the library beside the Rust: one thread, one process, the same index and the same input, one run.
//! A child module of `driver`, so that it sees the Rust's private functions.

use super::*;
use std::hint::black_box;

/// `search_pool` and `prune_scored` of the library, and two of its calls: the reading of the live count, and search.
pub type Search = unsafe extern "C" fn(
    usize, usize, *const u8, usize, *const u8, usize, *const u32, usize, *const u16, usize, *const u16, usize, *const u8, usize, *const u8, usize, u32, usize,
    *mut u32, usize,
) -> usize;
pub type Prune = unsafe extern "C" fn(f32, usize, *const u8, usize, *const u8, usize, *const u8, usize, u32, *mut u32, usize, *mut u32, usize) -> usize;
pub type Live = unsafe extern "C" fn(
    *const u32, *const u8, usize, *const u32, usize, *const u16, usize, *const u16, usize, *const u8, usize, *const u32, usize, *const u32, usize,
    *const u32, usize, *const u8, usize, *mut u32,
) -> u32;
pub type Call = unsafe extern "C" fn(
    *const u32, *const u8, usize, *const u32, usize, *const u16, usize, *const u16, usize, *const u8, usize, *const u32, usize, *const u32, usize,
    *const u32, usize, *const u8, usize, *const u8, usize, u32, u32, *mut u32, usize, *mut f32, usize, *mut u32, usize, *mut u32, usize, *mut u32,
) -> u32;

/// The words and the slices of an index of the Rust, all of whose slots are live. The figure number of each slot is the slot plus 1, and all weights are 1.
struct Slices {
    index: [u32; 12],
    pool: Vec<u32>,
    numbers: Vec<u32>,
    summary: Vec<u32>,
    weights: Vec<u8>,
    dim: usize,
    degree: usize,
    vectors: Vec<u8>,
    targets: Vec<u32>,
    edges: Vec<u16>,
    versions: Vec<u16>,
    marks: Vec<u8>,
}

fn slices(b: &Book<Sq>) -> Slices {
    let (capacity, degree) = (b.meta.capacity, b.meta.max_degree);
    let index = [
        b.meta.dim as u32, capacity as u32, degree as u32, b.meta.alpha.to_bits(), b.meta.medoid_id, b.len() as u32, 0, 0, 0, 0, 0, 0,
    ];
    let (numbers, summary, weights) = ((1..=capacity as u32).collect(), (0..capacity as u32).collect(), vec![1; b.meta.dim]);
    let (vectors, targets, edges, versions, marks) = (vec![], vec![], vec![], vec![], vec![]);
    let mut s = Slices { index, pool: vec![0; 1024], numbers, summary, weights, dim: b.meta.dim, degree, vectors, targets, edges, versions, marks };
    for id in 0..capacity as u32 {
        s.vectors.extend_from_slice(b.vector(id));
        s.versions.push(b.node_version(id));
        s.marks.push(mark(b, id));
        for place in 0..degree {
            let p = b.adj_pos(id, place);
            s.targets.push(u32::from_le_bytes(b.mmap[p..p + 4].try_into().unwrap()));
            let q = b.edge_ver_pos(id, place);
            s.edges.push(u16::from_le_bytes(b.mmap[q..q + 2].try_into().unwrap()));
        }
    }
    s
}

impl Slices {
    fn search(&self, f: Search, query: &[u8], entry: u32, beam: usize, scratch: &mut [u32]) -> usize {
        unsafe {
            f(
                self.dim, self.degree, self.vectors.as_ptr(), self.vectors.len(), self.weights.as_ptr(), self.weights.len(), self.targets.as_ptr(),
                self.targets.len(), self.edges.as_ptr(), self.edges.len(), self.versions.as_ptr(), self.versions.len(), self.marks.as_ptr(),
                self.marks.len(), query.as_ptr(), query.len(), entry, beam, scratch.as_mut_ptr(), scratch.len(),
            )
        }
    }
}

/// What a search answered.
struct Outputs {
    slots: Vec<u32>,
    dists: Vec<f32>,
    numbers: Vec<u32>,
    found: u32,
}

impl Slices {
    fn call(&self, f: Call, query: &[u8], beam: usize, out: &mut Outputs, scratch: &mut [u32]) {
        let refused = unsafe {
            f(
                self.index.as_ptr(), self.vectors.as_ptr(), self.vectors.len(), self.targets.as_ptr(), self.targets.len(), self.edges.as_ptr(),
                self.edges.len(), self.versions.as_ptr(), self.versions.len(), self.marks.as_ptr(), self.marks.len(), self.pool.as_ptr(), self.pool.len(),
                self.numbers.as_ptr(), self.numbers.len(), self.summary.as_ptr(), self.summary.len(), self.weights.as_ptr(), self.weights.len(), query.as_ptr(),
                query.len(), beam as u32, beam as u32, out.slots.as_mut_ptr(), out.slots.len(), out.dists.as_mut_ptr(), out.dists.len(),
                out.numbers.as_mut_ptr(), out.numbers.len(), scratch.as_mut_ptr(), scratch.len(), &mut out.found,
            )
        };
        assert_eq!(refused, 0);
    }

    fn live(&self, f: Live) -> u32 {
        let mut value = 0;
        let refused = unsafe {
            f(
                self.index.as_ptr(), self.vectors.as_ptr(), self.vectors.len(), self.targets.as_ptr(), self.targets.len(), self.edges.as_ptr(),
                self.edges.len(), self.versions.as_ptr(), self.versions.len(), self.marks.as_ptr(), self.marks.len(), self.pool.as_ptr(), self.pool.len(),
                self.numbers.as_ptr(), self.numbers.len(), self.summary.as_ptr(), self.summary.len(), self.weights.as_ptr(), self.weights.len(), &mut value,
            )
        };
        assert_eq!(refused, 0);
        value
    }
}

fn built(dim: usize, capacity: usize, degree: usize, alpha: f32, cloud: &Cloud, rng: &mut Rng) -> Book<Sq> {
    let vectors: Vec<Vec<u8>> = (0..capacity).map(|_| cloud.draw(rng)).collect();
    let mut book = make(dim, capacity, degree, alpha, 0, &vectors[..1], &[vec![]], Sq::default()).unwrap();
    for chunk in vectors[1..].chunks(256) {
        insert_batch(&mut book, chunk.to_vec(), 64).unwrap();
    }
    book
}

fn searches(search: Search, live: Live, call: Call) {
    let (dim, degree) = (256, 32);
    println!("search, dim {dim}, degree {degree}, alpha 1.2, clustered vectors; time of one search by the Rust's search_with_dists, by the library's search_pool and by finder_search");
    for capacity in [1_000usize, 5_000, 20_000, 65_536] {
        let mut rng = Rng(1);
        let cloud = Cloud::new(&mut rng, 200, dim, 40, 32);
        let book = built(dim, capacity, degree, 1.2, &cloud, &mut rng);
        let s = slices(&book);
        let queries: Vec<Vec<u8>> = (0..400).map(|_| cloud.draw(&mut rng)).collect();
        let mut scratch = vec![0xdead_beefu32; 169_984 + capacity];
        let mut out = Outputs { slots: vec![0; 1024], dists: vec![0.0; 1024], numbers: vec![0; 1024], found: 0 };
        let mut best = [f64::MAX; 2];
        for _ in 0..20 {
            let started = cpu();
            for _ in 0..100 {
                black_box(black_box(&s.marks).iter().filter(|&&m| m != 0).count());
            }
            best[0] = best[0].min((cpu() - started) * 1e4);
            let started = cpu();
            for _ in 0..100 {
                assert_eq!(black_box(&s).live(live) as usize, capacity);
            }
            best[1] = best[1].min((cpu() - started) * 1e4);
        }
        println!("capacity {capacity}: one pass over the marks in Rust {:.2} us, the live count by finder_live {:.2} us", best[0], best[1]);
        for beam in [16usize, 64, 256, 1024] {
            let mut best = [f64::MAX; 3];
            let mut differences = 0;
            let part = if beam == 1024 { 100 } else { 400 };
            for round in 0..5 {
                let started = cpu();
                for q in &queries[..part] {
                    black_box(book.search_with_dists(q, beam, beam));
                }
                best[0] = best[0].min((cpu() - started) * 1e6 / part as f64);
                let started = cpu();
                for q in &queries[..part] {
                    black_box(s.search(search, q, book.meta.medoid_id, beam, &mut scratch));
                }
                best[1] = best[1].min((cpu() - started) * 1e6 / part as f64);
                let started = cpu();
                for q in &queries[..part] {
                    s.call(call, q, beam, black_box(&mut out), &mut scratch);
                }
                best[2] = best[2].min((cpu() - started) * 1e6 / part as f64);
                if round == 0 {
                    for q in &queries[..part] {
                        s.call(call, q, beam, &mut out, &mut scratch);
                        let ours: Vec<(u32, f32)> = (0..out.found as usize).map(|i| (out.slots[i], out.dists[i])).collect();
                        assert!((0..out.found as usize).all(|i| out.numbers[i] == out.slots[i] + 1));
                        differences += (ours != book.search_with_dists(q, beam, beam)) as usize;
                    }
                }
            }
            println!(
                "capacity {capacity} beam {beam}: rust {:.1} us, walk {:.1} us, call {:.1} us, ratio of the call {:.2}, {differences} of {part} differ",
                best[0], best[1], best[2], best[2] / best[0]
            );
        }
    }
}

fn prunes(prune: Prune) {
    println!("prune_scored, degree 32, alpha 1.2, clustered vectors; time of one selection by the Rust's prune_scored and by the library's");
    for dim in [256usize, 16] {
        let capacity = 20_000;
        let mut rng = Rng(2);
        let cloud = Cloud::new(&mut rng, 200, dim, 40, 32);
        let vectors: Vec<Vec<u8>> = (0..capacity).map(|_| cloud.draw(&mut rng)).collect();
        let book = make(dim, capacity, 32, 1.2, 0, &vectors, &vec![vec![]; capacity], Sq::default()).unwrap();
        let s = slices(&book);
        for n in [64usize, 320, 750] {
            for sorted in [true, false] {
                // the lists of 60 sources: near slots and far ones
                let lists: Vec<(u32, Vec<(u32, f32)>)> = (0..60)
                    .map(|_| {
                        let source = rng.below(capacity as u64) as u32;
                        let mut ids: Vec<u32> = (0..4 * n).map(|_| rng.below(capacity as u64) as u32).filter(|&i| i != source).collect();
                        ids.sort_unstable();
                        ids.dedup();
                        for i in (1..ids.len()).rev() {
                            ids.swap(i, rng.below(i as u64 + 1) as usize);
                        }
                        let mut list: Vec<(u32, f32)> = ids.iter().map(|&i| (i, sq_plain(book.vector(source), book.vector(i)) as f32)).collect();
                        list.sort_by(|a, b| a.1.total_cmp(&b.1));
                        list.truncate(n);
                        if !sorted {
                            for i in (1..list.len()).rev() {
                                list.swap(i, rng.below(i as u64 + 1) as usize);
                            }
                        }
                        (source, list)
                    })
                    .collect();
                let mut best = [f64::MAX; 2];
                let mut differences = 0;
                for round in 0..7 {
                    let copies: Vec<_> = lists.clone();
                    let started = cpu();
                    for (source, list) in copies {
                        black_box(book.prune_scored(source, list));
                    }
                    best[0] = best[0].min((cpu() - started) * 1e6 / lists.len() as f64);
                    let mut scratches: Vec<Vec<u32>> = lists
                        .iter()
                        .map(|(_, list)| {
                            let mut w: Vec<u32> = list.iter().flat_map(|&(id, dist)| [dist as u32, id]).collect();
                            w.resize(2 * list.len() + 64, 0);
                            w
                        })
                        .collect();
                    let started = cpu();
                    let mut counts = Vec::with_capacity(lists.len());
                    for ((source, list), w) in lists.iter().zip(scratches.iter_mut()) {
                        let (given, out) = w.split_at_mut(2 * list.len());
                        counts.push(unsafe {
                            prune(
                                1.2, dim, s.vectors.as_ptr(), s.vectors.len(), s.weights.as_ptr(), s.weights.len(), s.marks.as_ptr(), s.marks.len(),
                                *source, given.as_mut_ptr(), given.len(), out.as_mut_ptr(), out.len(),
                            )
                        });
                    }
                    best[1] = best[1].min((cpu() - started) * 1e6 / lists.len() as f64);
                    if round == 0 {
                        for (((source, list), w), count) in lists.iter().zip(&scratches).zip(&counts) {
                            let ours: Vec<u32> = (0..*count).map(|i| w[2 * list.len() + 2 * i + 1]).collect();
                            differences += (ours != book.prune_scored(*source, list.clone())) as usize;
                        }
                    }
                }
                println!(
                    "dim {dim} candidates {n} {}: rust {:.1} us, library {:.1} us, ratio {:.2}, {differences} of {} differ",
                    if sorted { "sorted" } else { "unsorted" }, best[0], best[1], best[1] / best[0], lists.len()
                );
            }
        }
    }
}

pub fn main(search: Search, prune: Prune, live: Live, call: Call) {
    searches(search, live, call);
    prunes(prune);
}
