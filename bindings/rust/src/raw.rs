//! The functions of include/finder.h, and a safe function over each: all `unsafe` of the crate is here.
//!
//! What the header asks for holds for every slice and reference of Rust: a pointer is aligned and not null, also where the length is 0, with that many
//! elements behind it, and what is written (`&mut`) overlaps nothing else that the call is lent. No function keeps a pointer. What the slices hold and how
//! long they are is the library's to test, so no call needs more than that.

use crate::{DeleteStats, Slices, SlicesMut, Words};

#[cfg(not(target_pointer_width = "64"))]
compile_error!("the archive takes size_t with 64 bits");

/// `finder_guard_status`, word for word.
#[repr(C)]
#[derive(Default)]
pub struct StatusWords {
    pub enabled: u32,
    pub pool_size: u32,
    pub live_landmarks: u32,
    pub landmark_count: u32,
    pub beam: u32,
}

/// `finder_report`, word for word.
#[repr(C)]
#[derive(Default)]
pub struct ReportWords {
    pub admitted: u32,
    pub requested: u32,
    pub entry: u32,
    pub checked: u32,
    pub baseline: u32,
    pub residual: u32,
    pub lost: u32,
    pub supplemental: u32,
}

/// What making takes besides the memory.
pub struct CreateArguments<'a> {
    pub dim: u32,
    pub capacity: u32,
    pub degree: u32,
    pub alpha: f32,
    pub entry: u32,
    pub count: u32,
    pub bytes: &'a [u8],
    pub rows: &'a [u32],
    pub numbers: &'a [u32],
    pub weights: &'a [u8],
}

extern "C" {
    fn finder_version() -> u32;

    fn finder_scratch_words(dim: u32, capacity: u32, degree: u32, size: *mut u32) -> u32;

    fn finder_create(
        dim: u32,
        capacity: u32,
        degree: u32,
        alpha: f32,
        entry: u32,
        count: u32,
        bytes: *const u8,
        bytes_len: usize,
        rows: *const u32,
        rows_len: usize,
        given_numbers: *const u32,
        given_numbers_len: usize,
        given_weights: *const u8,
        given_weights_len: usize,
        vectors: *mut u8,
        vectors_len: usize,
        targets: *mut u32,
        targets_len: usize,
        edges: *mut u16,
        edges_len: usize,
        versions: *mut u16,
        versions_len: usize,
        marks: *mut u8,
        marks_len: usize,
        pool: *mut u32,
        pool_len: usize,
        numbers: *mut u32,
        numbers_len: usize,
        summary: *mut u32,
        summary_len: usize,
        weights: *mut u8,
        weights_len: usize,
        words: *mut Words,
    ) -> u32;

    fn finder_insert(
        words: *mut Words,
        vectors: *mut u8,
        vectors_len: usize,
        targets: *mut u32,
        targets_len: usize,
        edges: *mut u16,
        edges_len: usize,
        versions: *const u16,
        versions_len: usize,
        marks: *mut u8,
        marks_len: usize,
        pool: *const u32,
        pool_len: usize,
        numbers: *mut u32,
        numbers_len: usize,
        summary: *mut u32,
        summary_len: usize,
        weights: *const u8,
        weights_len: usize,
        bytes: *const u8,
        bytes_len: usize,
        new_numbers: *const u32,
        new_numbers_len: usize,
        beam: u32,
        slots: *mut u32,
        slots_len: usize,
        scratch: *mut u32,
        scratch_len: usize,
        found: *mut u32,
    ) -> u32;

    fn finder_guard_enable(
        words: *mut Words,
        vectors: *const u8,
        vectors_len: usize,
        targets: *const u32,
        targets_len: usize,
        edges: *const u16,
        edges_len: usize,
        versions: *const u16,
        versions_len: usize,
        marks: *const u8,
        marks_len: usize,
        pool: *mut u32,
        pool_len: usize,
        numbers: *const u32,
        numbers_len: usize,
        summary: *const u32,
        summary_len: usize,
        weights: *const u8,
        weights_len: usize,
        landmark_count: u32,
        multiplier: u32,
        sample: u32,
        beam: u32,
        scratch: *mut u32,
        scratch_len: usize,
        status: *mut StatusWords,
    ) -> u32;
}

// Declares functions that only read the words and the nine slices, which they take first, and then what is named.
macro_rules! reading {
    ($(fn $function:ident($($name:ident: $type:ty),*) -> $answer:ty;)*) => {
        extern "C" {
            $(fn $function(
                words: *const Words,
                vectors: *const u8,
                vectors_len: usize,
                targets: *const u32,
                targets_len: usize,
                edges: *const u16,
                edges_len: usize,
                versions: *const u16,
                versions_len: usize,
                marks: *const u8,
                marks_len: usize,
                pool: *const u32,
                pool_len: usize,
                numbers: *const u32,
                numbers_len: usize,
                summary: *const u32,
                summary_len: usize,
                weights: *const u8,
                weights_len: usize,
                $($name: $type),*
            ) -> $answer;)*
        }
    };
}

reading! {
    fn finder_dim(value: *mut u32) -> u32;
    fn finder_capacity(value: *mut u32) -> u32;
    fn finder_degree(value: *mut u32) -> u32;
    fn finder_alpha(value: *mut f32) -> u32;
    fn finder_entry(value: *mut u32) -> u32;
    fn finder_live(value: *mut u32) -> u32;
    fn finder_mark(slot: u32, value: *mut u32) -> u32;
    fn finder_slot_version(slot: u32, value: *mut u32) -> u32;
    fn finder_number(slot: u32, value: *mut u32) -> u32;
    fn finder_target(slot: u32, place: u32, value: *mut u32) -> u32;
    fn finder_vector(slot: u32) -> usize;
    fn finder_search(
        query: *const u8,
        query_len: usize,
        k: u32,
        beam: u32,
        slots: *mut u32,
        slots_len: usize,
        dists: *mut f32,
        dists_len: usize,
        found_numbers: *mut u32,
        found_numbers_len: usize,
        scratch: *mut u32,
        scratch_len: usize,
        found: *mut u32
    ) -> u32;
    fn finder_guard_status(status: *mut StatusWords) -> u32;
    fn finder_assess(
        ids: *const u32,
        ids_len: usize,
        checked: *mut u32,
        checked_len: usize,
        lost: *mut u32,
        lost_len: usize,
        scratch: *mut u32,
        scratch_len: usize,
        report: *mut ReportWords
    ) -> u32;
}

// Calls a function that only reads the words and the nine slices.
macro_rules! read {
    ($function:ident, $words:ident, $slices:ident, $($rest:expr),+) => {
        $function(
            $words,
            $slices.vectors.as_ptr(),
            $slices.vectors.len(),
            $slices.targets.as_ptr(),
            $slices.targets.len(),
            $slices.edges.as_ptr(),
            $slices.edges.len(),
            $slices.versions.as_ptr(),
            $slices.versions.len(),
            $slices.marks.as_ptr(),
            $slices.marks.len(),
            $slices.pool.as_ptr(),
            $slices.pool.len(),
            $slices.numbers.as_ptr(),
            $slices.numbers.len(),
            $slices.summary.as_ptr(),
            $slices.summary.len(),
            $slices.weights.as_ptr(),
            $slices.weights.len(),
            $($rest),+
        )
    };
}

pub fn version() -> u32 {
    // SAFETY: the function takes nothing and touches no memory.
    unsafe { finder_version() }
}

pub fn scratch_words(dim: u32, capacity: u32, degree: u32, size: &mut u32) -> u32 {
    // SAFETY: `size` is one word, borrowed by this call alone.
    unsafe { finder_scratch_words(dim, capacity, degree, size) }
}

pub fn create(words: &mut Words, slices: &mut SlicesMut<'_>, given: &CreateArguments<'_>) -> u32 {
    // SAFETY: every pointer is that of a whole slice with its length; the nine slices and the words are borrowed by this call alone, `given` is only read.
    unsafe {
        finder_create(
            given.dim,
            given.capacity,
            given.degree,
            given.alpha,
            given.entry,
            given.count,
            given.bytes.as_ptr(),
            given.bytes.len(),
            given.rows.as_ptr(),
            given.rows.len(),
            given.numbers.as_ptr(),
            given.numbers.len(),
            given.weights.as_ptr(),
            given.weights.len(),
            slices.vectors.as_mut_ptr(),
            slices.vectors.len(),
            slices.targets.as_mut_ptr(),
            slices.targets.len(),
            slices.edges.as_mut_ptr(),
            slices.edges.len(),
            slices.versions.as_mut_ptr(),
            slices.versions.len(),
            slices.marks.as_mut_ptr(),
            slices.marks.len(),
            slices.pool.as_mut_ptr(),
            slices.pool.len(),
            slices.numbers.as_mut_ptr(),
            slices.numbers.len(),
            slices.summary.as_mut_ptr(),
            slices.summary.len(),
            slices.weights.as_mut_ptr(),
            slices.weights.len(),
            words,
        )
    }
}

// The readings that write one value.
macro_rules! values {
    ($($name:ident: $function:ident($($argument:ident),*) -> $type:ty;)*) => {
        $(pub fn $name(words: &Words, slices: &Slices<'_>, $($argument: u32,)* value: &mut $type) -> u32 {
            // SAFETY: every pointer is that of a whole slice with its length, and only read; `value` is borrowed by this call alone.
            unsafe { read!($function, words, slices, $($argument,)* value) }
        })*
    };
}

values! {
    dim: finder_dim() -> u32;
    capacity: finder_capacity() -> u32;
    degree: finder_degree() -> u32;
    alpha: finder_alpha() -> f32;
    entry: finder_entry() -> u32;
    live: finder_live() -> u32;
    mark: finder_mark(slot) -> u32;
    slot_version: finder_slot_version(slot) -> u32;
    number: finder_number(slot) -> u32;
    target: finder_target(slot, place) -> u32;
}

pub fn vector(words: &Words, slices: &Slices<'_>, slot: u32) -> usize {
    // SAFETY: every pointer is that of a whole slice with its length, and only read.
    unsafe { read!(finder_vector, words, slices, slot) }
}

#[allow(clippy::too_many_arguments)]
pub fn search(
    words: &Words,
    slices: &Slices<'_>,
    query: &[u8],
    k: u32,
    beam: u32,
    slots: &mut [u32],
    distances: &mut [f32],
    numbers: &mut [u32],
    scratch: &mut [u32],
    found: &mut u32,
) -> u32 {
    // SAFETY: every pointer is that of a whole slice with its length; outputs, scratch and `found` are borrowed by this call alone, the rest is only read.
    unsafe {
        read!(
            finder_search,
            words,
            slices,
            query.as_ptr(),
            query.len(),
            k,
            beam,
            slots.as_mut_ptr(),
            slots.len(),
            distances.as_mut_ptr(),
            distances.len(),
            numbers.as_mut_ptr(),
            numbers.len(),
            scratch.as_mut_ptr(),
            scratch.len(),
            found
        )
    }
}

#[allow(clippy::too_many_arguments)]
pub fn insert(
    words: &mut Words,
    slices: &mut SlicesMut<'_>,
    bytes: &[u8],
    numbers: &[u32],
    beam: u32,
    slots: &mut [u32],
    scratch: &mut [u32],
    found: &mut u32,
) -> u32 {
    // SAFETY: every pointer is that of a whole slice with its length; all that is written is borrowed by this call alone, the rest is only read.
    unsafe {
        finder_insert(
            words,
            slices.vectors.as_mut_ptr(),
            slices.vectors.len(),
            slices.targets.as_mut_ptr(),
            slices.targets.len(),
            slices.edges.as_mut_ptr(),
            slices.edges.len(),
            slices.versions.as_ptr(),
            slices.versions.len(),
            slices.marks.as_mut_ptr(),
            slices.marks.len(),
            slices.pool.as_ptr(),
            slices.pool.len(),
            slices.numbers.as_mut_ptr(),
            slices.numbers.len(),
            slices.summary.as_mut_ptr(),
            slices.summary.len(),
            slices.weights.as_ptr(),
            slices.weights.len(),
            bytes.as_ptr(),
            bytes.len(),
            numbers.as_ptr(),
            numbers.len(),
            beam,
            slots.as_mut_ptr(),
            slots.len(),
            scratch.as_mut_ptr(),
            scratch.len(),
            found,
        )
    }
}

/// The settings are landmark count, multiplier, sample and beam.
pub fn guard_enable(words: &mut Words, slices: &mut SlicesMut<'_>, settings: [u32; 4], scratch: &mut [u32], status: &mut StatusWords) -> u32 {
    let [landmark_count, multiplier, sample, beam] = settings;
    // SAFETY: every pointer is that of a whole slice with its length; all that is written is borrowed by this call alone, the rest is only read.
    unsafe {
        finder_guard_enable(
            words,
            slices.vectors.as_ptr(),
            slices.vectors.len(),
            slices.targets.as_ptr(),
            slices.targets.len(),
            slices.edges.as_ptr(),
            slices.edges.len(),
            slices.versions.as_ptr(),
            slices.versions.len(),
            slices.marks.as_ptr(),
            slices.marks.len(),
            slices.pool.as_mut_ptr(),
            slices.pool.len(),
            slices.numbers.as_ptr(),
            slices.numbers.len(),
            slices.summary.as_ptr(),
            slices.summary.len(),
            slices.weights.as_ptr(),
            slices.weights.len(),
            landmark_count,
            multiplier,
            sample,
            beam,
            scratch.as_mut_ptr(),
            scratch.len(),
            status,
        )
    }
}

pub fn guard_status(words: &Words, slices: &Slices<'_>, status: &mut StatusWords) -> u32 {
    // SAFETY: every pointer is that of a whole slice with its length, and only read; `status` is borrowed by this call alone.
    unsafe { read!(finder_guard_status, words, slices, status) }
}

pub fn assess(
    words: &Words,
    slices: &Slices<'_>,
    ids: &[u32],
    checked: &mut [u32],
    lost: &mut [u32],
    scratch: &mut [u32],
    report: &mut ReportWords,
) -> u32 {
    // SAFETY: every pointer is that of a whole slice with its length; lists, scratch and report are borrowed by this call alone, the rest is only read.
    unsafe {
        read!(
            finder_assess,
            words,
            slices,
            ids.as_ptr(),
            ids.len(),
            checked.as_mut_ptr(),
            checked.len(),
            lost.as_mut_ptr(),
            lost.len(),
            scratch.as_mut_ptr(),
            scratch.len(),
            report
        )
    }
}

// A delete of what `named` has: slots or figure numbers.
macro_rules! delete {
    ($name:ident, $function:ident) => {
        extern "C" {
            fn $function(
                words: *mut Words,
                vectors: *const u8,
                vectors_len: usize,
                targets: *mut u32,
                targets_len: usize,
                edges: *mut u16,
                edges_len: usize,
                versions: *mut u16,
                versions_len: usize,
                marks: *mut u8,
                marks_len: usize,
                pool: *const u32,
                pool_len: usize,
                numbers: *mut u32,
                numbers_len: usize,
                summary: *mut u32,
                summary_len: usize,
                weights: *const u8,
                weights_len: usize,
                named: *const u32,
                named_len: usize,
                repair_beam: u32,
                repair_degree: u32,
                stats: *mut DeleteStats,
                stats_len: usize,
                scratch: *mut u32,
                scratch_len: usize,
                found: *mut u32,
            ) -> u32;
        }

        #[allow(clippy::too_many_arguments)]
        pub fn $name(
            words: &mut Words,
            slices: &mut SlicesMut<'_>,
            named: &[u32],
            repair_beam: u32,
            repair_degree: u32,
            stats: &mut [DeleteStats],
            scratch: &mut [u32],
            found: &mut u32,
        ) -> u32 {
            // SAFETY: every pointer is that of a whole slice with its length; all that is written is borrowed by this call alone, the rest is only read.
            unsafe {
                $function(
                    words,
                    slices.vectors.as_ptr(),
                    slices.vectors.len(),
                    slices.targets.as_mut_ptr(),
                    slices.targets.len(),
                    slices.edges.as_mut_ptr(),
                    slices.edges.len(),
                    slices.versions.as_mut_ptr(),
                    slices.versions.len(),
                    slices.marks.as_mut_ptr(),
                    slices.marks.len(),
                    slices.pool.as_ptr(),
                    slices.pool.len(),
                    slices.numbers.as_mut_ptr(),
                    slices.numbers.len(),
                    slices.summary.as_mut_ptr(),
                    slices.summary.len(),
                    slices.weights.as_ptr(),
                    slices.weights.len(),
                    named.as_ptr(),
                    named.len(),
                    repair_beam,
                    repair_degree,
                    stats.as_mut_ptr(),
                    stats.len(),
                    scratch.as_mut_ptr(),
                    scratch.len(),
                    found,
                )
            }
        }
    };
}

pub type Delete = fn(&mut Words, &mut SlicesMut<'_>, &[u32], u32, u32, &mut [DeleteStats], &mut [u32], &mut u32) -> u32;

delete!(delete, finder_delete);
delete!(delete_numbers, finder_delete_numbers);

// The same, if the guard admits it.
macro_rules! guarded_delete {
    ($name:ident, $function:ident) => {
        extern "C" {
            fn $function(
                words: *mut Words,
                vectors: *const u8,
                vectors_len: usize,
                targets: *mut u32,
                targets_len: usize,
                edges: *mut u16,
                edges_len: usize,
                versions: *mut u16,
                versions_len: usize,
                marks: *mut u8,
                marks_len: usize,
                pool: *const u32,
                pool_len: usize,
                numbers: *mut u32,
                numbers_len: usize,
                summary: *mut u32,
                summary_len: usize,
                weights: *const u8,
                weights_len: usize,
                named: *const u32,
                named_len: usize,
                repair_beam: u32,
                repair_degree: u32,
                stats: *mut DeleteStats,
                stats_len: usize,
                checked: *mut u32,
                checked_len: usize,
                lost: *mut u32,
                lost_len: usize,
                scratch: *mut u32,
                scratch_len: usize,
                found: *mut u32,
                report: *mut ReportWords,
            ) -> u32;
        }

        #[allow(clippy::too_many_arguments)]
        pub fn $name(
            words: &mut Words,
            slices: &mut SlicesMut<'_>,
            named: &[u32],
            repair_beam: u32,
            repair_degree: u32,
            stats: &mut [DeleteStats],
            checked: &mut [u32],
            lost: &mut [u32],
            scratch: &mut [u32],
            found: &mut u32,
            report: &mut ReportWords,
        ) -> u32 {
            // SAFETY: every pointer is that of a whole slice with its length; all that is written is borrowed by this call alone, the rest is only read.
            unsafe {
                $function(
                    words,
                    slices.vectors.as_ptr(),
                    slices.vectors.len(),
                    slices.targets.as_mut_ptr(),
                    slices.targets.len(),
                    slices.edges.as_mut_ptr(),
                    slices.edges.len(),
                    slices.versions.as_mut_ptr(),
                    slices.versions.len(),
                    slices.marks.as_mut_ptr(),
                    slices.marks.len(),
                    slices.pool.as_ptr(),
                    slices.pool.len(),
                    slices.numbers.as_mut_ptr(),
                    slices.numbers.len(),
                    slices.summary.as_mut_ptr(),
                    slices.summary.len(),
                    slices.weights.as_ptr(),
                    slices.weights.len(),
                    named.as_ptr(),
                    named.len(),
                    repair_beam,
                    repair_degree,
                    stats.as_mut_ptr(),
                    stats.len(),
                    checked.as_mut_ptr(),
                    checked.len(),
                    lost.as_mut_ptr(),
                    lost.len(),
                    scratch.as_mut_ptr(),
                    scratch.len(),
                    found,
                    report,
                )
            }
        }
    };
}

pub type GuardedDelete =
    fn(&mut Words, &mut SlicesMut<'_>, &[u32], u32, u32, &mut [DeleteStats], &mut [u32], &mut [u32], &mut [u32], &mut u32, &mut ReportWords) -> u32;

guarded_delete!(guarded_delete, finder_guarded_delete);
guarded_delete!(guarded_delete_numbers, finder_guarded_delete_numbers);
