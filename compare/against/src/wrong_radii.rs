//! Wrong programs for the least length: the comparison must find each of them.

use crate::lent::Lent;
use crate::radii::radii;
use crate::radius_case::Call;
use crate::seeded::Seeded;
use crate::work::answers_for;
use crate::DEFAULT;
use paper::card::LEAST_LENGTHS;
use std::mem::swap;

/// What a program does wrong, the first of the radii for which that shows, and the program.
type Wrong = (&'static str, u32, Call);

/// Leaves its loop at the first listed radius that is not below.
fn right(radius: u32, looked: &mut Lent<u32>) -> u32 {
    let mut before = 0;
    for (count, (listed, length)) in (1..).zip(LEAST_LENGTHS) {
        looked.numbers_mut()[0] = count;
        if listed == radius {
            return length;
        }
        if listed > radius {
            return length.max(before);
        }
        before = length;
    }
    before
}

/// How many listed radii a search looks at that leaves its loop where this holds; all, if it nowhere does.
fn looked_until(leaves: impl Fn(u32) -> bool) -> u32 {
    let place = LEAST_LENGTHS.iter().position(|&(listed, _)| leaves(listed));
    place.map_or(20, |place| place as u32 + 1)
}

/// The right length, and a count made of the radius and the right count.
fn counted(radius: u32, looked: &mut Lent<u32>, count: fn(u32, u32) -> u32) -> u32 {
    let length = right(radius, looked);
    let place = &mut looked.numbers_mut()[0];
    *place = count(radius, *place);
    length
}

/// Wrong as to how many listed radii are looked at.
const WRONG_COUNTS: [Wrong; 10] = [
    ("looks on to the end of the list", 0, |radius, looked| {
        counted(radius, looked, |_, _| 20)
    }),
    ("one too few", 0, |radius, looked| {
        counted(radius, looked, |_, count| count - 1)
    }),
    ("one too many", 0, |radius, looked| {
        counted(radius, looked, |_, count| count + 1)
    }),
    ("leaves above the radius only", 30, |radius, looked| {
        counted(radius, looked, |radius, _| {
            looked_until(|listed| listed > radius)
        })
    }),
    ("from the end of the list", 0, |radius, looked| {
        counted(radius, looked, |_, count| 21 - count)
    }),
    ("the last radius not counted", 1001, |radius, looked| {
        counted(radius, looked, |_, count| count.min(19))
    }),
    ("none below the list", 0, |radius, looked| {
        counted(radius, looked, |radius, count| match radius {
            0..=29 => 0,
            _ => count,
        })
    }),
    ("none above the list", 2001, |radius, looked| {
        counted(radius, looked, |radius, count| match radius {
            0..=2000 => count,
            _ => 0,
        })
    }),
    ("21 above the list", 2001, |radius, looked| {
        counted(radius, looked, |radius, count| match radius {
            0..=2000 => count,
            _ => 21,
        })
    }),
    ("added to what was there", 0, |radius, looked| {
        let before = looked.numbers()[0];
        let length = right(radius, looked);
        let place = &mut looked.numbers_mut()[0];
        *place = place.wrapping_add(before);
        length
    }),
];

/// The right count, and between two listed radii a length made of theirs.
fn between(radius: u32, looked: &mut Lent<u32>, made: fn(u32, u32) -> u32) -> u32 {
    let length = right(radius, looked);
    let mut pairs = LEAST_LENGTHS.windows(2);
    let pair = pairs.find(|pair| pair[0].0 < radius && radius < pair[1].0);
    pair.map_or(length, |pair| made(pair[0].1, pair[1].1))
}

/// The right count, and at a listed radius the longest of the lengths from so many before it to so many after it.
fn longest_about(radius: u32, looked: &mut Lent<u32>, before: usize, after: usize) -> u32 {
    let length = right(radius, looked);
    let place = LEAST_LENGTHS.iter().position(|pair| pair.0 == radius);
    let Some(place) = place else {
        return length;
    };
    let about = LEAST_LENGTHS.iter().take(place + 1 + after);
    let about = about.skip(place.saturating_sub(before));
    about.map(|pair| pair.1).max().unwrap_or(length)
}

/// Wrong as to the length.
const WRONG_LENGTHS: [Wrong; 11] = [
    ("the shorter of the two lengths", 41, |radius, looked| {
        between(radius, looked, u32::min)
    }),
    ("of the first radius not below", 1001, |radius, looked| {
        between(radius, looked, |_, after| after)
    }),
    ("of the last radius not above", 41, |radius, looked| {
        between(radius, looked, |before, _| before)
    }),
    ("midway between the two lengths", 41, |radius, looked| {
        between(radius, looked, |before, after| (before + after) / 2)
    }),
    ("the longer of listed and before", 2000, |radius, looked| {
        longest_about(radius, looked, 1, 0)
    }),
    ("the longer of listed and after", 40, |radius, looked| {
        longest_about(radius, looked, 0, 1)
    }),
    ("in mm", 0, |radius, looked| 1000 * right(radius, looked)),
    ("none below the list", 0, |radius, looked| {
        let length = right(radius, looked);
        length * u32::from(radius >= 30)
    }),
    ("none above the list", 2001, |radius, looked| {
        let length = right(radius, looked);
        length * u32::from(radius <= 2000)
    }),
    ("the longest above the list", 2001, |radius, looked| {
        let length = right(radius, looked);
        if radius > 2000 {
            120
        } else {
            length
        }
    }),
    ("exchanged with the count", 0, |radius, looked| {
        let mut length = right(radius, looked);
        swap(&mut length, &mut looked.numbers_mut()[0]);
        length
    }),
];

/// The right answer, and the guard at that place written over.
fn written_over(guard: usize, radius: u32, looked: &mut Lent<u32>) -> u32 {
    let length = right(radius, looked);
    looked.alter(guard..guard + 1, &mut Seeded::new(0, 0, 0));
    length
}

/// The right length, and the count left as it was where the radius is so.
fn unwritten(radius: u32, looked: &mut Lent<u32>, is_so: fn(u32) -> bool) -> u32 {
    let before = looked.numbers()[0];
    let length = right(radius, looked);
    if is_so(radius) {
        looked.numbers_mut()[0] = before;
    }
    length
}

/// Wrong as to what is written.
const WRONG_WRITING: [Wrong; 5] = [
    ("no count", 0, |radius, looked| {
        unwritten(radius, looked, |_| true)
    }),
    ("no count at the greatest radius", 2000, |radius, looked| {
        unwritten(radius, looked, |radius| radius == 2000)
    }),
    ("no count above the list", 2001, |radius, looked| {
        unwritten(radius, looked, |radius| radius > 2000)
    }),
    ("past the count", 0, |radius, looked| {
        written_over(looked.guards_after().start, radius, looked)
    }),
    ("before the count", 0, |radius, looked| {
        written_over(looked.guards_before().end - 1, radius, looked)
    }),
];

/// Wrong as to the radius that is read.
const WRONG_READING: [Wrong; 6] = [
    ("8 bits", 256, |radius, looked| right(radius % 256, looked)),
    ("11 bits", 2048, |radius, looked| {
        right(radius % 2048, looked)
    }),
    ("16 bits", 65_536, |radius, looked| {
        right(radius % 65_536, looked)
    }),
    ("in mm, 32 bits of them", 4_295_193, |radius, looked| {
        right(radius.wrapping_mul(1000).div_ceil(1000), looked)
    }),
    ("31 bits", 1 << 31, |radius, looked| {
        right(radius % (1 << 31), looked)
    }),
    ("a sign, and nought for less", 1 << 31, |radius, looked| {
        right(radius.cast_signed().max(0).cast_unsigned(), looked)
    }),
];

/// The first radius for which the program differs from the paper.
fn first_difference(program: Call) -> Option<u32> {
    let differs = |&radius: &u32| {
        let case = answers_for(DEFAULT.seed, radius, program);
        !case.due.unlike(&case.came).is_empty()
    };
    radii().find(differs)
}

fn all_are_found(programs: &[Wrong]) {
    for (name, first, program) in programs {
        assert_eq!(first_difference(*program), Some(*first), "{name}");
    }
}

/// Without this, a comparison that always differs would find every wrong program.
#[test]
fn right_programs_do_not_differ() {
    assert_eq!(first_difference(right), None);
    let leaves_in_time: Call = |radius, looked| {
        counted(radius, looked, |radius, _| {
            looked_until(|listed| listed >= radius)
        })
    };
    assert_eq!(first_difference(leaves_in_time), None);
    let longer_between: Call = |radius, looked| between(radius, looked, u32::max);
    assert_eq!(first_difference(longer_between), None);
}

#[test]
fn wrong_counts_are_found() {
    all_are_found(&WRONG_COUNTS);
}

#[test]
fn wrong_lengths_are_found() {
    all_are_found(&WRONG_LENGTHS);
}

#[test]
fn wrong_writing_is_found() {
    all_are_found(&WRONG_WRITING);
}

#[test]
fn wrong_reading_is_found() {
    all_are_found(&WRONG_READING);
}
