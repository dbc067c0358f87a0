//! Pairs low-resolution placeholders with their originals: what the program `pair` and those beside it share.

pub mod folder;
pub mod names;
pub mod originals;
pub mod picture;
pub mod reduce;
pub mod report;
pub mod work;
