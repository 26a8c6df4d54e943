//! Plain Rust after the paper's rules, to compare the library with.

pub mod book;
pub mod minsk;
pub mod section;
