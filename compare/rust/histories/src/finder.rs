//! The functions of libfinder.a. The pointer to alpha is one to its bits; stats are four words each.

/// Declares functions that take the words and the slices of an index first, and then what is named. All are given as memory that could be written:
/// what a function leaves of it is compared.
macro_rules! on_index {
    ($($name:ident($($more:ty),*) -> $answer:ty;)*) => {
        unsafe extern "C" {
            $(pub fn $name(
                words: *mut u32, vectors: *mut u8, vectors_len: usize, targets: *mut u32, targets_len: usize, edges: *mut u16, edges_len: usize,
                versions: *mut u16, versions_len: usize, marks: *mut u8, marks_len: usize, pool: *mut u32, pool_len: usize,
                numbers: *mut u32, numbers_len: usize, summary: *mut u32, summary_len: usize, weights: *mut u8, weights_len: usize, $(_: $more),*
            ) -> $answer;)*
        }
    };
}

on_index! {
    finder_dim(*mut u32) -> u32;
    finder_capacity(*mut u32) -> u32;
    finder_degree(*mut u32) -> u32;
    finder_alpha(*mut u32) -> u32;
    finder_entry(*mut u32) -> u32;
    finder_live(*mut u32) -> u32;
    finder_mark(u32, *mut u32) -> u32;
    finder_slot_version(u32, *mut u32) -> u32;
    finder_number(u32, *mut u32) -> u32;
    finder_target(u32, u32, *mut u32) -> u32;
    finder_vector(u32) -> usize;
    finder_search(*const u8, usize, u32, u32, *mut u32, usize, *mut u32, usize, *mut u32, usize, *mut u32, usize, *mut u32) -> u32;
    finder_insert(*const u8, usize, *const u32, usize, u32, *mut u32, usize, *mut u32, usize, *mut u32) -> u32;
    finder_delete(*const u32, usize, u32, u32, *mut u32, usize, *mut u32, usize, *mut u32) -> u32;
    finder_delete_numbers(*const u32, usize, u32, u32, *mut u32, usize, *mut u32, usize, *mut u32) -> u32;
    finder_guard_enable(u32, u32, u32, u32, *mut u32, usize, *mut u32) -> u32;
    finder_guard_status(*mut u32) -> u32;
    finder_assess(*const u32, usize, *mut u32, usize, *mut u32, usize, *mut u32, usize, *mut u32) -> u32;
    finder_guarded_delete(
        *const u32, usize, u32, u32, *mut u32, usize, *mut u32, usize, *mut u32, usize, *mut u32, usize, *mut u32, *mut u32
    ) -> u32;
    finder_guarded_delete_numbers(
        *const u32, usize, u32, u32, *mut u32, usize, *mut u32, usize, *mut u32, usize, *mut u32, usize, *mut u32, *mut u32
    ) -> u32;
}

unsafe extern "C" {
    pub fn finder_version() -> u32;
    pub fn finder_scratch_words(dim: u32, capacity: u32, degree: u32, words: *mut u32) -> u32;
    pub fn finder_create(
        dim: u32, capacity: u32, degree: u32, alpha: f32, entry: u32, count: u32, bytes: *const u8, bytes_len: usize, rows: *const u32,
        rows_len: usize, given_numbers: *const u32, given_numbers_len: usize, given_weights: *const u8, given_weights_len: usize,
        vectors: *mut u8, vectors_len: usize, targets: *mut u32, targets_len: usize, edges: *mut u16, edges_len: usize, versions: *mut u16,
        versions_len: usize, marks: *mut u8, marks_len: usize, pool: *mut u32, pool_len: usize, numbers: *mut u32, numbers_len: usize,
        summary: *mut u32, summary_len: usize, weights: *mut u8, weights_len: usize, index: *mut u32,
    ) -> u32;
}

/// Calls a function on the index of a history: its words and slices, of the lengths lent, and what more the function takes. Where a second copy of the
/// index is kept, the call is made on that too.
macro_rules! call {
    ($name:ident, $both:expr, $lent:expr $(, $more:expr)*) => {{
        let twice = $both.second.is_kept();
        let mut once = || unsafe {
            let (b, n) = (&mut $both, &$lent);
            $crate::finder::$name(
                b.words.mut_ptr(), b.slices.vectors.mut_ptr(), n[0], b.slices.targets.mut_ptr(), n[1], b.slices.edges.mut_ptr(), n[2],
                b.slices.versions.mut_ptr(), n[3], b.slices.marks.mut_ptr(), n[4], b.slices.pool.mut_ptr(), n[5], b.slices.numbers.mut_ptr(), n[6],
                b.slices.summary.mut_ptr(), n[7], b.slices.weights.mut_ptr(), n[8], $($more),*
            )
        };
        let (got, again) = (once(), twice.then(|| $crate::lent::on_second(&mut once)));
        $both.second.answered(again.map(|answer| answer as u64));
        got
    }};
}
pub(crate) use call;
