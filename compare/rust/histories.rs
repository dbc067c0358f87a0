//! The Rust's index as the comparison of histories sees it (histories/): its calls, what it stores, and hooks that write what it stores.
//! A child module of `driver`, so that it sees the Rust's private fields and functions.

use super::*;
pub use super::{Cloud, Rng, cpu};

/// An index of the Rust.
pub struct Rust(Book<Sq>);

/// What the Rust stores of an index. The guard: its four settings and its landmark pool.
#[derive(PartialEq)]
pub struct Stored {
    pub entry: u32,
    pub live: u32,
    pub vectors: Vec<u8>,
    pub targets: Vec<u32>,
    pub edges: Vec<u16>,
    pub versions: Vec<u16>,
    pub marks: Vec<u8>,
    pub guard: Option<([u32; 4], Vec<u32>)>,
}

fn config(settings: [u32; 4]) -> RoutabilityGuardConfig {
    let [landmark_count, landmark_pool_multiplier, candidate_sample_size, beam_width] = settings.map(|x| x as usize);
    RoutabilityGuardConfig { landmark_count, landmark_pool_multiplier, candidate_sample_size, beam_width }
}

fn counts(s: &DeleteStats) -> [u32; 4] {
    [s.outgoing_seeds, s.recovered_in_neighbors, s.repair_candidates, s.repair_edges_attempted].map(|x| x as u32)
}

fn status(s: &RoutabilityGuardStatus) -> [u32; 5] {
    [s.enabled as usize, s.landmark_pool_size, s.live_landmarks, s.landmark_count, s.beam_width].map(|x| x as u32)
}

/// The report on a delete. The numbers: whether it is admitted, how many were requested, the entry (blank if none), how many were checked, reached at
/// baseline and in the residual walk, lost, and supplemental.
pub struct Report {
    pub numbers: [u32; 8],
    pub checked: Vec<u32>,
    pub lost: Vec<u32>,
}

fn report(r: RoutabilityAdmissionReport) -> Report {
    let (checked, lost) = (r.checked_landmarks.len(), r.lost_landmarks.len());
    let [baseline, residual, supplemental] = [r.baseline_reachable_landmarks, r.residual_reachable_landmarks, r.supplemental_landmarks].map(|x| x as u32);
    let numbers = [r.admitted as u32, r.requested as u32, r.entry.unwrap_or(PAD_U32), checked as u32, baseline, residual, lost as u32, supplemental];
    Report { numbers, checked: r.checked_landmarks, lost: r.lost_landmarks }
}

impl Rust {
    // ---- its calls; an error is document 01's number and the Rust's text

    /// `bytes` and `rows` hold a vector and a row of `degree` words for each given slot.
    #[allow(clippy::too_many_arguments)]
    pub fn make(
        dim: usize, capacity: usize, degree: usize, alpha: f32, entry: u32, bytes: &[u8], rows: &[u32], weights: &[u8],
    ) -> Result<Rust, String> {
        let vectors: Vec<Vec<u8>> = bytes.chunks_exact(dim).map(|v| v.to_vec()).collect();
        let rows: Vec<Vec<u32>> = rows.chunks_exact(degree).map(|r| r.to_vec()).collect();
        make(dim, capacity, degree, alpha, entry, &vectors, &rows, Sq::weighted(weights)).map(Rust).map_err(|e| error(&e))
    }
    pub fn search(&self, query: &[u8], k: usize, beam: usize) -> Vec<(u32, f32)> {
        self.0.search_with_dists(query, k, beam)
    }
    pub fn insert(&mut self, vectors: Vec<Vec<u8>>, beam: usize) -> Result<Vec<u32>, String> {
        insert_batch(&mut self.0, vectors, beam).map_err(|e| error(&e))
    }
    pub fn delete(&mut self, ids: &[u32], beam: usize, degree: usize) -> Vec<[u32; 4]> {
        self.0.delete_batch(ids, beam, degree).iter().map(counts).collect()
    }
    pub fn enable(&mut self, settings: [u32; 4]) -> Result<[u32; 5], String> {
        self.0.enable_routability_guard(config(settings)).map(|s| status(&s)).map_err(|e| error(&e))
    }
    /// Whether the guard is on, the length of its pool, how many of these are live, how many landmarks it wants, and its beam.
    pub fn status(&self) -> [u32; 5] {
        status(&self.0.routability_guard_status())
    }
    pub fn assess(&self, ids: &[u32]) -> Result<Report, String> {
        self.0.assess_delete_admission(ids).map(report).map_err(|e| error(&e))
    }
    /// The stats where it is applied, and the report.
    pub fn guarded_delete(&mut self, ids: &[u32], beam: usize, degree: usize) -> Result<(Option<Vec<[u32; 4]>>, Report), String> {
        match self.0.delete_batch_with_admission_control(ids, beam, degree) {
            Ok(GuardedDeleteResult::Applied { stats, report: r }) => Ok((Some(stats.iter().map(counts).collect()), report(r))),
            Ok(GuardedDeleteResult::Deferred(r)) => Ok((None, report(r))),
            Err(e) => Err(error(&e)),
        }
    }

    // ---- what it stores

    pub fn entry(&self) -> u32 {
        self.0.meta.medoid_id
    }
    pub fn live(&self) -> u32 {
        self.0.live_count as u32
    }
    pub fn is_live(&self, slot: u32) -> bool {
        self.0.is_valid(slot)
    }
    pub fn version(&self, slot: u32) -> u16 {
        self.0.node_version(slot)
    }
    pub fn targets(&self, slot: u32) -> Vec<u32> {
        self.0.live_neighbors(slot)
    }
    pub fn vector(&self, slot: u32) -> &[u8] {
        self.0.vector(slot)
    }
    pub fn stored(&self) -> Stored {
        let (m, map) = (&self.0.meta, &self.0.mmap);
        let part = |from: u64, to: u64| &map[from as usize..to as usize];
        let twos = |bytes: &[u8]| bytes.chunks_exact(2).map(|b| u16::from_le_bytes([b[0], b[1]])).collect();
        Stored {
            entry: self.entry(),
            live: self.live(),
            vectors: part(m.vectors_offset, m.adjacency_offset).to_vec(),
            targets: part(m.adjacency_offset, m.edge_versions_offset).chunks_exact(4).map(|b| u32::from_le_bytes([b[0], b[1], b[2], b[3]])).collect(),
            edges: twos(part(m.edge_versions_offset, m.node_versions_offset)),
            versions: twos(part(m.node_versions_offset, m.valid_offset)),
            marks: part(m.valid_offset, m.valid_offset + m.capacity as u64).to_vec(),
            guard: self.guard(),
        }
    }
    pub fn guard(&self) -> Option<([u32; 4], Vec<u32>)> {
        self.0.routability_guard.as_ref().map(|g| {
            let c = &g.config;
            let settings = [c.landmark_count, c.landmark_pool_multiplier, c.candidate_sample_size, c.beam_width];
            (settings.map(|x| x as u32), g.landmark_pool.clone())
        })
    }

    // ---- hooks: no calls of the Rust; they write what it stores, as it is

    pub fn put_alpha(&mut self, alpha: f32) {
        self.0.meta.alpha = alpha;
    }
    pub fn put_weights(&mut self, weights: &[u8]) {
        self.0.dist = Sq::weighted(weights);
    }
    pub fn put_entry(&mut self, slot: u32) {
        self.0.meta.medoid_id = slot;
    }
    pub fn put_version(&mut self, slot: u32, version: u16) {
        self.0.set_node_version(slot, version);
    }
    pub fn put_edge(&mut self, slot: u32, place: usize, target: u32, version: u16) {
        let (p, q) = (self.0.adj_pos(slot, place), self.0.edge_ver_pos(slot, place));
        self.0.mmap[p..p + 4].copy_from_slice(&target.to_le_bytes());
        self.0.mmap[q..q + 2].copy_from_slice(&version.to_le_bytes());
    }
    /// Keeps the live count right.
    pub fn put_mark(&mut self, slot: u32, byte: u8) {
        let p = self.0.meta.valid_offset as usize + slot as usize;
        self.0.live_count = self.0.live_count + (byte != 0) as usize - self.0.is_valid(slot) as usize;
        self.0.mmap[p] = byte;
    }
    pub fn put_vector(&mut self, slot: u32, vector: &[u8]) {
        self.0.write_vector(slot, vector);
    }
    pub fn put_guard(&mut self, guard: Option<([u32; 4], Vec<u32>)>) {
        self.0.routability_guard = guard.map(|(settings, landmark_pool)| RoutabilityGuard { config: config(settings), landmark_pool });
    }
}
