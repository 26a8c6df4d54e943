//! The radii whose least length is compared, in metres; always all of them.

use paper::card::GREATEST_RADIUS;

/// Greater ones; of most of them 8, 11 or 16 bits, all but the sign, or 32 bits of as many mm lie within the list.
const GREATER: [u32; 15] = [
    2047,
    2048,
    2048 + 30,
    65_535,
    65_536,
    65_536 + 30,
    65_536 + 225,
    65_536 + 2000,
    // In mm this is 2^32 + 225,704.
    4_295_193,
    (1 << 31) - 1,
    1 << 31,
    (1 << 31) + 30,
    (1 << 31) + 225,
    u32::MAX - 1,
    u32::MAX,
];

/// Every radius from 0 to one beyond the list, and the greater ones, in rising order.
pub fn radii() -> impl Iterator<Item = u32> {
    (0..=GREATEST_RADIUS + 1).chain(GREATER)
}

#[cfg(test)]
mod tests {
    use super::radii;

    #[test]
    fn none_is_left_out() {
        assert!(radii().take(2002).eq(0..=2001));
        assert!(radii().is_sorted());
        assert_eq!((radii().count(), radii().last()), (2017, Some(u32::MAX)));
    }
}
