//! What the wrong programs for cards, books, days and lists share: each must be found.

/// Each of the programs differs from the paper somewhere; `first` gives where.
pub fn all_are_found<P: Copy>(first: impl Fn(P) -> Option<u64>, programs: &[(&str, P)]) {
    for (name, program) in programs {
        assert!(first(*program).is_some(), "{name}");
    }
}
