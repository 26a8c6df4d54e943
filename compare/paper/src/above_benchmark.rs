//! Document 02, Slip 5: "Heights above the benchmark." Cards, rows and days, worked out by hand from the papers.
//!
//! In the working d is the station and s the outer slope; heights are in mm, so 40‰ is 0.04.

use crate::card::{absolute, marked, relative};
use crate::fraction::{fraction, Fraction};
use crate::readings::{check, row_of, FLAT, RAMP, RAMP_ROWS};
use crate::section::Runoff;
use crate::{check_card, fill_day, fill_table, rows, Card, Numbers};

/// The longest clothoid there is, two-stage: profile 1, 3‰ up to 50000, then p to v, which are the same.
const LONGEST: [i32; 8] = [1, 1, 2000, 300_000, 20, 0, 20_000, 1];

fn in_centimetres(mut eight: [i32; 8]) -> [i32; 8] {
    eight[7] = 10;
    eight
}

/// Height 250000 and grade −35: the axis falls by 35 mm a metre, so it stands at 250000, 249300 and 248950.
/// s = 3 × d / 1000 − 30, so −30, 30 and 60; the widening is 0, 400 and 600. In mm halfway goes to the higher number.
#[test]
fn absolute_ramp() {
    let due = [
        // Outer edge 250000 − 2250 × 0.03 = 249932.5, outer brow 249932.5 − 1750 × 0.03 = 249880; inner edge
        // 250000 − 2250 × 0.03 = 249932.5, inner brow 249932.5 − 1750 × 0.06 = 249827.5.
        [0, 0, 249_828, 249_933, 250_000, 249_933, 249_880],
        // Outer edge 249300 + 67.5 = 249367.5, outer brow 249367.5 + 52.5 = 249420; inner edge
        // 249300 − 2650 × 0.03 = 249220.5, inner brow 249220.5 − 1350 × 0.06 = 249139.5.
        [20_000, 400, 249_140, 249_221, 249_300, 249_368, 249_420],
        // Outer edge 248950 + 2250 × 0.06 = 249085, outer brow 249085 + 1750 × 0.06 = 249190; inner edge
        // 248950 − 2850 × 0.06 = 248779, inner brow 248779 − 1150 × 0.06 = 248710.
        [30_000, 600, 248_710, 248_779, 248_950, 249_085, 249_190],
    ];
    let card = absolute(RAMP, 250_000, -35);
    assert_eq!(rows(&card), due);
    let mut table = [77; 22];
    assert_eq!(fill_table(&card, &mut table).count, 3);
    assert_eq!(table[..21], *due.as_flattened());
    assert_eq!(table[21], 77);
}

/// At 60000 s is 25 and the widening 200: outer edge 75 above the axis, outer brow 125; inner edge 3200 × 0.025 = 80 below
/// it, inner brow 80 + 1800 × 0.05 = 170 below. In centimetres, halfway to the lower number, also below nought.
#[test]
fn halfway_in_centimetres() {
    // The axis stands at 123450 + 7 × 60 = 123870: outer edge 123945, outer brow 123995.
    let above = [60_000, 20, 12_370, 12_379, 12_387, 12_394, 12_399];
    assert_eq!(row_of(absolute(FLAT, 123_450, 7), 60_000), above);
    // The axis stands at −100000 − 7 × 60 = −100420: outer edge −100345, outer brow −100295.
    let below = [60_000, 20, -10_059, -10_050, -10_042, -10_035, -10_030];
    assert_eq!(row_of(absolute(FLAT, -100_000, -7), 60_000), below);
}

/// "The sum is rounded once." At 1105 the axis is 80 × 1.105 = 88.4, and s is 3 × 1105 / 3750 − 20 = −19.116.
#[test]
fn the_sum_is_rounded_once() {
    let mut card = absolute(LONGEST, 0, 80);
    card[6] = 1105;
    // Outer edge 88.4 − 71.685 = 16.715, of which 88 and −72 would make 16; outer brow 88.4 − 143.37 = −54.97;
    // inner edge 88.4 − 75 = 13.4; inner brow 13.4 − 150 = −136.6.
    assert_eq!(row_of(card, 1105), [1105, 0, -137, 13, 88, 17, -55]);
    card[9] = -100_000;
    let below = [1105, 0, -100_137, -99_987, -99_912, -99_983, -100_055];
    assert_eq!(row_of(card, 1105), below);
}

/// At L s is 20: outer edge 75 above the axis, outer brow 150, inner edge 75 below it, inner brow 225 below. The axis has
/// risen or fallen by 80 × 300 = 24000.
#[test]
fn limits_on_the_longest_clothoid() {
    for (height, grade, axis) in [
        (9_000_000, 80, 9_024_000),
        (9_000_000, -80, 8_976_000),
        (-100_000, 80, -76_000),
        (-100_000, -80, -124_000),
    ] {
        let card = absolute(LONGEST, height, grade);
        let last = [-225, -75, 0, 75, 150].map(|distance| axis + distance);
        assert_eq!(row_of(card, 300_000)[2..], last, "{height} {grade}");
        let first = [-225, -75, 0, -75, -150].map(|distance| height + distance);
        assert_eq!(row_of(card, 0)[2..], first, "{height} {grade}");
    }
}

/// The same in centimetres: 22.5 and 7.5 below, 7.5 and 15 above, halfway to the lower number.
#[test]
fn limits_in_centimetres() {
    for (height, grade, axis) in [
        (9_000_000, 80, 902_400),
        (9_000_000, -80, 897_600),
        (-100_000, 80, -7600),
        (-100_000, -80, -12_400),
    ] {
        let card = absolute(in_centimetres(LONGEST), height, grade);
        let last = [-23, -8, 0, 7, 15].map(|distance| axis + distance);
        assert_eq!(row_of(card, 300_000)[2..], last, "{height} {grade}");
    }
}

/// Profile 2 has its axis at 2500 × 0.04 + 3500 × 0.02 = 170, a whole number of units: the tables differ by it.
#[test]
fn tables_that_differ_by_the_axis_alone() {
    for unit in [1, 10] {
        let bend = [2, 1, 200, 80_000, 60, 1200, 1000, unit];
        let (relative, absolute) = (rows(&relative(bend)), rows(&absolute(bend, 0, 0)));
        assert_eq!((relative.len(), absolute.len()), (81, 81));
        for (relative, absolute) in relative.iter().zip(absolute) {
            assert_eq!(relative[..2], absolute[..2]);
            let by_the_axis: Vec<_> = relative[2..].iter().map(|n| n - 170 / unit).collect();
            assert_eq!(by_the_axis, absolute[2..]);
        }
    }
}

/// RAMP's axis, 172.5, is no whole number of units, so its rows are rounded from other sums: each line less 172.5.
#[test]
fn ramp_with_height_0_and_grade_0() {
    let due = [
        // 0 − 172.5 = −172.5; 105 − 172.5 = −67.5; 105 − 172.5 = −67.5; 52.5 − 172.5 = −120.
        [0, 0, -172, -67, 0, -67, -120],
        // 12 − 172.5 = −160.5; 93 − 172.5 = −79.5; 240 − 172.5 = 67.5; 292.5 − 172.5 = 120.
        [20_000, 400, -160, -79, 0, 68, 120],
        // −67.5 − 172.5 = −240; 1.5 − 172.5 = −171; 307.5 − 172.5 = 135; 412.5 − 172.5 = 240.
        [30_000, 600, -240, -171, 0, 135, 240],
    ];
    assert_eq!(rows(&absolute(RAMP, 0, 0)), due);
}

/// The heights of the five lines above the axis at a station.
fn above_the_axis(card: &Numbers, station: Fraction) -> [Fraction; 5] {
    let runoff = Runoff::new(&Card::new(card));
    let above = |line: Fraction| (line - runoff.axis(station)).in_lowest_terms();
    runoff.lines(station).map(above)
}

/// "the other lines keep their distance from the axis": exactly, at thirds of a millimetre too.
#[test]
fn every_line_keeps_its_distance() {
    let wide = [5, 1, 30, 30_000, 60, 3500, 5000, 1];
    for eight in [RAMP, FLAT, LONGEST, wide] {
        for share in 0..=60 {
            let station = fraction(i128::from(eight[3] / 20 * share), 3);
            let due = above_the_axis(&relative(eight), station);
            for (height, grade) in [(0, 0), (250_000, -35), (9_000_000, 80), (-100_000, -80)] {
                let card = absolute(eight, height, grade);
                assert_eq!(above_the_axis(&card, station), due);
            }
        }
    }
}

/// The reply to a card of so many millimetres a unit.
fn reason(unit: i32, height: i32, grade: i32) -> u32 {
    let mut card = absolute(FLAT, height, grade);
    card[7] = unit;
    check_card(&card)
}

/// "34 for a height outside −100,000 to 9,000,000".
#[test]
fn heights_outside() {
    for height in [-100_000, -99_999, -1, 0, 1, 8_999_999, 9_000_000] {
        assert_eq!(reason(1, height, 0), 0, "{height}");
    }
    for height in [-100_001, 9_000_001, i32::MIN, i32::MAX] {
        assert_eq!(reason(1, height, 0), 34, "{height}");
    }
    for height in [-100_010, 9_000_010, -2_147_483_640, 2_147_483_640] {
        assert_eq!(reason(10, height, 0), 34, "{height}");
    }
}

/// "or not a whole number of units".
#[test]
fn heights_that_are_no_whole_number_of_units() {
    for height in [-100_000, -99_990, -10, 0, 10, 8_999_990, 9_000_000] {
        assert_eq!(reason(10, height, 0), 0, "{height}");
    }
    for height in [-99_999, -99_995, -11, -9, -5, -1, 1, 5, 9, 11, 8_999_995] {
        assert_eq!(reason(10, height, 0), 34, "{height}");
        assert_eq!(reason(1, height, 0), 0, "{height}");
    }
}

/// "with 35 for a grade outside −80 to 80".
#[test]
fn grades_outside() {
    for unit in [1, 10] {
        for grade in [-80, -79, -1, 0, 1, 79, 80] {
            assert_eq!(reason(unit, 0, grade), 0, "{grade}");
        }
        for grade in [-81, 81, -256, 256, 65_536, i32::MIN, i32::MAX] {
            assert_eq!(reason(unit, 0, grade), 35, "{grade}");
        }
    }
}

/// "both after 10 and before 11", 34 first.
#[test]
fn order_of_34_and_35() {
    assert_eq!(reason(10, 5, 0), 34);
    assert_eq!(reason(10, 0, 81), 35);
    assert_eq!(reason(10, 5, 81), 34);
    assert_eq!(reason(1, 9_000_001, -81), 34);
    assert_eq!(reason(2, 5, 81), 10);
    let reply = |card: Numbers, length| fill_table(&card, &mut vec![0; length]).number;
    assert_eq!(reply(absolute(RAMP, 9_000_001, 0), 0), 34);
    assert_eq!(reply(absolute(RAMP, 0, 81), 20), 35);
    assert_eq!(reply(absolute(RAMP, 0, 80), 20), 11);
    assert_eq!(reply(absolute(RAMP, 0, 80), 21), 0);
    let short = [2, 1, 225, 79_999, 30, 0, 20_000, 1];
    assert_eq!(reply(absolute(short, 9_000_001, 81), 0), 4);
    let quick = [2, 1, 200, 100_000, 30, 0, 999, 10];
    assert_eq!(reply(absolute(quick, 5, 81), 0), 9);
}

/// "mark 0 is relative and its two numbers are not looked at".
#[test]
fn mark_0() {
    for (height, grade) in [
        (5, 81),
        (9_000_001, -81),
        (250_000, -35),
        (i32::MIN, i32::MAX),
    ] {
        let card = marked(RAMP, 0, height, grade);
        assert_eq!(check_card(&card), 0);
        assert_eq!(*rows(&card).as_flattened(), RAMP_ROWS);
    }
}

/// "any other mark is absolute".
#[test]
fn other_marks() {
    let due = rows(&absolute(RAMP, 250_000, -35));
    for mark in [1, 2, -1, 256, 65_536, i32::MAX, i32::MIN] {
        assert_eq!(rows(&marked(RAMP, mark, 250_000, -35)), due, "mark {mark}");
        assert_eq!(check_card(&marked(RAMP, mark, 9_000_001, 0)), 34);
        assert_eq!(check_card(&marked(RAMP, mark, 0, -81)), 35);
    }
}

/// "one of the eight below 0 counts as 4294967295, which every reason refuses".
#[test]
fn one_of_the_eight_below_0() {
    for (place, reason) in [1, 2, 3, 4, 5, 6, 9, 10].into_iter().enumerate() {
        for below in [-1, -2, -1000, i32::MIN, i32::MIN + 1] {
            let mut eight = FLAT;
            eight[place] = below;
            assert_eq!(check(eight), reason, "{below} at {place}");
            assert_eq!(check_card(&absolute(eight, 5, 81)), reason);
        }
    }
}

/// Each card of a day has its own height, or none.
#[test]
fn relative_and_absolute_cards_in_a_day() {
    let high = absolute(RAMP, 250_000, -35);
    let cards = [
        relative(RAMP),
        high,
        absolute(RAMP, 250_000, -81),
        relative(RAMP),
    ];
    let (mut table, mut replies) = ([77; 64], [77; 8]);
    let reply = fill_day(&cards, &mut table, &mut replies);
    assert_eq!((reply.number, reply.count), (0, 4));
    assert_eq!(replies, [0, 3, 0, 3, 35, 0, 0, 3]);
    assert_eq!(table[..21], RAMP_ROWS);
    assert_eq!(table[21..42], *rows(&high).as_flattened());
    assert_eq!(table[42..63], RAMP_ROWS);
    assert_eq!(table[63], 77);
}
