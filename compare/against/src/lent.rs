//! Numbers lent to the library, lying between guard numbers.

use crate::seeded::Seeded;
use std::fmt::Display;
use std::ops::Range;

/// Guard numbers on each side, least and most: more than a row of a table.
const LEAST_GUARDS: u32 = 8;
const MOST_GUARDS: u32 = 16;

/// The least length that 16 bits do not hold.
pub const ABOVE_16_BITS: usize = 65_536;

/// A number of a table, a list or a text.
pub trait Number: Copy + PartialEq + Display {
    fn seeded(seeded: &mut Seeded) -> Self;
    /// Another number, beside this one.
    fn altered(self) -> Self;
}

macro_rules! number {
    ($($kind:ty)*) => {$(
        impl Number for $kind {
            fn seeded(seeded: &mut Seeded) -> $kind {
                seeded.number() as $kind
            }
            fn altered(self) -> $kind {
                self.wrapping_add(1)
            }
        }
    )*};
}
number!(u8 u32 i32);

/// One place where two lent buffers are not the same.
pub struct Unlike {
    pub what: String,
    pub due: String,
    pub came: String,
}

#[derive(Clone, PartialEq)]
pub struct Lent<T> {
    whole: Vec<T>,
    start: usize,
    length: usize,
}

impl<T: Number> Lent<T> {
    /// Seeded numbers throughout; `length` of them are lent.
    pub fn filled(length: usize, seeded: &mut Seeded) -> Lent<T> {
        let start = seeded.between(LEAST_GUARDS, MOST_GUARDS) as usize;
        let after = seeded.between(LEAST_GUARDS, MOST_GUARDS) as usize;
        let whole = (0..start + length + after).map(|_| T::seeded(seeded));
        Lent {
            whole: whole.collect(),
            start,
            length,
        }
    }

    /// The same, with so many guards more behind them: what is written far past the end shows too.
    pub fn filled_before(length: usize, more: usize, seeded: &mut Seeded) -> Lent<T> {
        let lent = Lent::filled(length + more, seeded);
        Lent { length, ..lent }
    }

    /// The given numbers, between seeded guards; `beyond` follows right behind them.
    pub fn holding(numbers: &[T], beyond: &[T], seeded: &mut Seeded) -> Lent<T> {
        let mut lent = Lent::filled(numbers.len(), seeded);
        lent.numbers_mut().copy_from_slice(numbers);
        let end = lent.start + lent.length;
        lent.whole.splice(end..end, beyond.iter().copied());
        lent
    }

    pub fn numbers(&self) -> &[T] {
        &self.whole[self.start..self.start + self.length]
    }

    pub fn numbers_mut(&mut self) -> &mut [T] {
        &mut self.whole[self.start..self.start + self.length]
    }

    /// Count of all numbers, guards too.
    pub fn size(&self) -> u64 {
        self.whole.len() as u64
    }

    /// Where the lent numbers from the n-th to before the m-th lie in the buffer.
    pub fn places(&self, numbers: Range<usize>) -> Range<usize> {
        self.start + numbers.start..self.start + numbers.end
    }

    pub fn guards_before(&self) -> Range<usize> {
        0..self.start
    }

    pub fn guards_after(&self) -> Range<usize> {
        self.start + self.length..self.whole.len()
    }

    /// Alters one number within these places; false when there is none.
    pub fn alter(&mut self, places: Range<usize>, seeded: &mut Seeded) -> bool {
        if places.is_empty() {
            return false;
        }
        let place = places.start + seeded.below(places.len());
        self.whole[place] = self.whole[place].altered();
        true
    }

    /// Every place, guards too, where what came is not what is due.
    pub fn unlike(&self, came: &Lent<T>, name: &str) -> Vec<Unlike> {
        let pairs = self.whole.iter().zip(&came.whole).enumerate();
        let unlike = pairs.filter(|(_, (due, came))| due != came);
        unlike
            .map(|(place, (due, came))| Unlike {
                what: format!("{name}, {}", self.place_name(place)),
                due: due.to_string(),
                came: came.to_string(),
            })
            .collect()
    }

    fn place_name(&self, place: usize) -> String {
        if place < self.start {
            format!("guard {} before", self.start - place)
        } else if place < self.start + self.length {
            format!("number {}", place - self.start)
        } else {
            format!("guard {} after", place - self.start - self.length + 1)
        }
    }
}
