//! The library beside the Rust; see ../beside.rs.
unsafe extern "C" {
    fn exported_search(
        dim: usize, degree: usize, vectors: *const u8, vl: usize, weights: *const u8, cl: usize, targets: *const u32, tl: usize, edges: *const u16, el: usize,
        versions: *const u16, nl: usize, marks: *const u8, ml: usize, query: *const u8, ql: usize, entry: u32, beam: usize, scratch: *mut u32, sl: usize,
    ) -> usize;
    fn exported_prune(
        alpha: f32, dim: usize, vectors: *const u8, vl: usize, weights: *const u8, cl: usize, marks: *const u8, ml: usize, source: u32,
        list: *mut u32, ll: usize, out: *mut u32, ol: usize,
    ) -> usize;
    fn finder_live(
        index: *const u32, vectors: *const u8, vl: usize, targets: *const u32, tl: usize, edges: *const u16, el: usize, versions: *const u16, nl: usize,
        marks: *const u8, ml: usize, pool: *const u32, pl: usize, numbers: *const u32, al: usize, summary: *const u32, bl: usize,
        weights: *const u8, cl: usize, value: *mut u32,
    ) -> u32;
    fn finder_search(
        index: *const u32, vectors: *const u8, vl: usize, targets: *const u32, tl: usize, edges: *const u16, el: usize, versions: *const u16, nl: usize,
        marks: *const u8, ml: usize, pool: *const u32, pl: usize, numbers: *const u32, al: usize, summary: *const u32, bl: usize,
        weights: *const u8, cl: usize, query: *const u8, ql: usize, k: u32, beam: u32, slots: *mut u32, sl: usize, dists: *mut f32, dl: usize, found_numbers: *mut u32, fl: usize, scratch: *mut u32, wl: usize,
        found: *mut u32,
    ) -> u32;
}

fn main() {
    diskann_sorted::beside_main(exported_search, exported_prune, finder_live, finder_search);
}
