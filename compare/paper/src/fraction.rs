//! Exact fractions: a whole number over a whole number above nought.

use std::cmp::Ordering;
use std::ops::{Add, Div, Mul, Neg, Sub};

#[derive(Clone, Copy, Debug)]
pub struct Fraction {
    top: i128,
    bottom: i128,
}

/// Where a value goes that lies halfway between two whole numbers, above nought and below it.
#[derive(Clone, Copy, Debug, PartialEq, Eq)]
pub enum Tie {
    Lower,
    Higher,
}

/// `top` over `bottom`; the bottom is above nought.
pub fn fraction(top: i128, bottom: i128) -> Fraction {
    assert!(bottom > 0, "the bottom of a fraction is above nought");
    Fraction { top, bottom }
}

/// A whole number as a fraction.
pub fn whole(number: impl Into<i128>) -> Fraction {
    fraction(number.into(), 1)
}

/// The product, which stops the run where it outgrows 128 bits; two of 64 bits never do, and that is quicker to reckon.
fn product(one: i128, other: i128) -> i128 {
    match (i64::try_from(one), i64::try_from(other)) {
        (Ok(one), Ok(other)) => i128::from(one).wrapping_mul(i128::from(other)),
        _ => one * other,
    }
}

impl Add for Fraction {
    type Output = Fraction;
    fn add(self, other: Fraction) -> Fraction {
        if self.bottom == other.bottom {
            return fraction(self.top + other.top, self.bottom);
        }
        fraction(
            product(self.top, other.bottom) + product(other.top, self.bottom),
            product(self.bottom, other.bottom),
        )
    }
}

impl Neg for Fraction {
    type Output = Fraction;
    fn neg(self) -> Fraction {
        fraction(-self.top, self.bottom)
    }
}

impl Sub for Fraction {
    type Output = Fraction;
    fn sub(self, other: Fraction) -> Fraction {
        self + -other
    }
}

impl Mul for Fraction {
    type Output = Fraction;
    fn mul(self, other: Fraction) -> Fraction {
        fraction(
            product(self.top, other.top),
            product(self.bottom, other.bottom),
        )
    }
}

impl Div for Fraction {
    type Output = Fraction;
    /// Only ever by a fraction above nought.
    fn div(self, other: Fraction) -> Fraction {
        fraction(
            product(self.top, other.bottom),
            product(self.bottom, other.top),
        )
    }
}

impl PartialEq for Fraction {
    fn eq(&self, other: &Fraction) -> bool {
        self.cmp(other) == Ordering::Equal
    }
}

impl Eq for Fraction {}

impl PartialOrd for Fraction {
    fn partial_cmp(&self, other: &Fraction) -> Option<Ordering> {
        Some(self.cmp(other))
    }
}

impl Ord for Fraction {
    /// Two fractions are compared by cross-multiplying.
    fn cmp(&self, other: &Fraction) -> Ordering {
        product(self.top, other.bottom).cmp(&product(other.top, self.bottom))
    }
}

impl Fraction {
    /// The nearest whole number; of two that are equally near, the one that the tie says.
    pub fn nearest(self, tie: Tie) -> i32 {
        let lower = self.top.div_euclid(self.bottom);
        let rest = self.top.rem_euclid(self.bottom);
        let goes_up = match (2 * rest).cmp(&self.bottom) {
            Ordering::Less => false,
            Ordering::Equal => tie == Tie::Higher,
            Ordering::Greater => true,
        };
        i32::try_from(lower + i128::from(goes_up)).expect("a row's number fits 32 bits")
    }

    /// The same fraction with the least bottom, for comparing such as have great ones.
    pub fn in_lowest_terms(self) -> Fraction {
        let (mut divisor, mut rest) = (self.bottom, self.top.abs());
        while rest > 0 {
            (divisor, rest) = (rest, divisor % rest);
        }
        fraction(self.top / divisor, self.bottom / divisor)
    }
}

#[cfg(test)]
mod tests {
    use super::{fraction, Tie};

    /// The top and the bottom of fractions, and the number that is due for each.
    fn nearest_are(tie: Tie, dues: &[(i128, i128, i32)]) {
        for &(top, bottom, due) in dues {
            assert_eq!(fraction(top, bottom).nearest(tie), due, "{top} / {bottom}");
        }
    }

    #[test]
    fn halfway_goes_to_the_lower_number() {
        nearest_are(Tie::Lower, &[(45, 2, 22), (1, 2, 0), (345, 2, 172)]);
        nearest_are(Tie::Lower, &[(-45, 2, -23), (-1, 2, -1), (-135, 2, -68)]);
        nearest_are(Tie::Lower, &[(750, 500, 1), (-750, 500, -2)]);
    }

    #[test]
    fn halfway_goes_to_the_higher_number() {
        nearest_are(Tie::Higher, &[(45, 2, 23), (1, 2, 1), (345, 2, 173)]);
        nearest_are(Tie::Higher, &[(-45, 2, -22), (-1, 2, 0), (-135, 2, -67)]);
        nearest_are(Tie::Higher, &[(750, 500, 2), (-750, 500, -1)]);
    }

    /// By a hundredth, and by the least that an odd bottom allows.
    #[test]
    fn beside_halfway_goes_to_the_nearest() {
        for tie in [Tie::Lower, Tie::Higher] {
            nearest_are(tie, &[(2251, 100, 23), (2249, 100, 22)]);
            nearest_are(tie, &[(-2251, 100, -23), (-2249, 100, -22)]);
            nearest_are(tie, &[(1, 3, 0), (2, 3, 1), (-1, 3, 0), (-2, 3, -1)]);
            nearest_are(tie, &[(500, 1001, 0), (501, 1001, 1)]);
            nearest_are(tie, &[(-500, 1001, 0), (-501, 1001, -1)]);
        }
    }

    #[test]
    fn whole_numbers_stay() {
        for tie in [Tie::Lower, Tie::Higher] {
            nearest_are(tie, &[(46, 2, 23), (0, 2, 0), (-46, 2, -23)]);
        }
    }

    #[test]
    fn lowest_terms() {
        for (top, bottom) in [(6, 4), (-6, 4), (0, 4), (5, 1), (7, 21)] {
            let lowest = fraction(top, bottom).in_lowest_terms();
            assert_eq!(lowest, fraction(top, bottom));
            assert!(lowest.bottom < bottom || bottom == 1);
        }
    }

    #[test]
    fn sums_and_comparing() {
        assert_eq!(fraction(1, 2) + fraction(1, 3), fraction(5, 6));
        assert_eq!(fraction(1, 2) - fraction(1, 3), fraction(1, 6));
        assert_eq!(fraction(2, 7) + fraction(3, 7), fraction(5, 7));
        assert_eq!(fraction(2, 7) - fraction(3, 7), fraction(-1, 7));
        assert_eq!(fraction(2, 4) * fraction(2, 3), fraction(1, 3));
        assert_eq!(fraction(1, 2) / fraction(3, 4), fraction(2, 3));
        assert!(fraction(-1, 2) < fraction(-1, 3));
        assert_eq!(fraction(1, 3).max(fraction(1, 2)), fraction(1, 2));
    }
}
