//! What tests and comparisons share: random numbers that a seed decides, folders that are removed,
//! the paper's example and the outside vectors.
#![forbid(unsafe_code)]

mod codes;
pub mod example;
mod folder;
mod random;
mod vectors;

pub use codes::{Codes, Fault};
pub use folder::Folder;
pub use random::{mix, Random};
pub use vectors::{lines, vectors, Numbers};
