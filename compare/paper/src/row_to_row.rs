//! Document 02, Slip 8: "Walk from row to row." Rows that are worked afresh, found by hand from the papers; and counted in another
//! way, from the lines at the rows and beside them alone.
//!
//! In the working d is the station and s the outer slope; the inner shoulder is kept at m from (c − m) × L / W on.

use crate::card::{absolute, relative};
use crate::fraction::{fraction, whole, Fraction};
use crate::readings::{FLAT, RAMP};
use crate::section::{Greater, Runoff};
use crate::walked::{fresh_rows, turns, Turn};
use crate::{check_card, fill_table, stations, walk_table, Card, Numbers};
use std::cmp::Ordering;

/// A category III bend with 1.2 m of widening, even: s = d / 1000 − 20.
const BEND: [i32; 8] = [2, 1, 200, 80_000, 60, 1200, 20_000, 1];
/// Profile 1, two-stage with the joint at 50000; from there s = 20 + (d − 50000) / 2500.
const LONG: [i32; 8] = [1, 1, 200, 150_000, 60, 0, 10_000, 1];
/// Profile 4 at its crown slope, even: s = d / 1000 − 30, which is 30 at L alone. W is c less m.
const CROWN: [i32; 8] = [4, 1, 30, 60_000, 30, 1000, 20_000, 1];

const WIDENING: usize = 5;
const STEP: usize = 6;

fn with(mut eight: [i32; 8], changed: &[(usize, i32)]) -> [i32; 8] {
    for &(place, number) in changed {
        eight[place] = number;
    }
    eight
}

/// The stations of the rows of an accepted card that are worked afresh. The call's answer must be theirs.
fn afresh_of(card: Numbers) -> Vec<u32> {
    assert_eq!(check_card(&card), 0);
    let stations = stations(&Card::new(&card));
    let rows = fresh_rows(&Card::new(&card));
    let (mut table, mut due) = ([77; 2108], [77; 2108]);
    let reply = walk_table(&card, &mut table);
    let filled = fill_table(&card, &mut due);
    assert_eq!((reply.number, reply.count), (0, filled.count));
    assert_eq!((reply.fresh as usize, table), (rows.len(), due));
    rows.into_iter().map(|row| stations[row]).collect()
}

/// The same of a relative card.
fn afresh(eight: [i32; 8]) -> Vec<u32> {
    afresh_of(relative(eight))
}

/// The same with another step.
fn afresh_by(eight: [i32; 8], step: i32) -> Vec<u32> {
    afresh(with(eight, &[(STEP, step)]))
}

fn turns_of(eight: [i32; 8]) -> Vec<(Turn, Fraction)> {
    turns(&Card::new(&relative(eight)))
}

const INNER: Turn = Turn::Change(Greater::InnerSlope);
const SHOULDER: Turn = Turn::Change(Greater::ShoulderSlope);
const KEPT: Turn = Turn::Change(Greater::InnerShoulder);

/// s = 3 × d / 1000 − 30 is p, 30, at 20000, where RAMP has a row: it is made from the first one. At L s is q, 60, and no
/// more. W is below c less m, 750.
#[test]
fn ramp() {
    assert_eq!(turns_of(RAMP), [(INNER, whole(20_000))]);
    assert_eq!(afresh(RAMP), [0, 30_000]);
    assert_eq!(afresh_by(RAMP, 10_000), [0, 30_000]);
    assert_eq!(afresh_by(RAMP, 19_999), [0, 30_000]);
    assert_eq!(afresh_by(RAMP, 6667), [0, 20_001, 30_000]);
    assert_eq!(afresh_by(RAMP, 5000), [0, 25_000, 30_000]);
    assert_eq!(afresh_by(RAMP, 1000), [0, 21_000, 30_000]);
}

/// W 750 only touches c less m, at L. With 3500 the shoulder is kept from 750 × 30000 / 3500 on, 6428 4/7.
#[test]
fn ramp_with_other_widenings() {
    let touching = with(RAMP, &[(WIDENING, 750)]);
    assert_eq!(afresh_by(touching, 5000), [0, 25_000, 30_000]);
    let wide = with(RAMP, &[(WIDENING, 3500)]);
    let due = [(INNER, whole(20_000)), (KEPT, fraction(45_000, 7))];
    assert_eq!(turns_of(wide), due);
    assert_eq!(afresh_by(wide, 5000), [0, 10_000, 25_000, 30_000]);
    assert_eq!(afresh_by(wide, 1000), [0, 7000, 21_000, 30_000]);
    // All three rows.
    assert_eq!(afresh_by(wide, 20_000), [0, 20_000, 30_000]);
}

/// s is p at 40000 and q, 40, at 60000; the shoulder is kept from 1000 × 80000 / 1200 on, 66666 2/3.
#[test]
fn v_above_q_even() {
    let due = [
        (INNER, whole(40_000)),
        (SHOULDER, whole(60_000)),
        (KEPT, fraction(200_000, 3)),
    ];
    assert_eq!(turns_of(BEND), due);
    assert_eq!(afresh(BEND), [0, 60_000, 80_000]);
    assert_eq!(afresh_by(BEND, 10_000), [0, 50_000, 70_000, 80_000]);
    assert_eq!(afresh_by(BEND, 1000), [0, 41_000, 61_000, 67_000, 80_000]);
    assert_eq!(afresh_by(BEND, 19_999), [0, 59_997, 79_996, 80_000]);
    // 40002, and 66670, which is past both the others.
    assert_eq!(afresh_by(BEND, 13_334), [0, 40_002, 66_670, 80_000]);
    // 39999 and 66665 are not past their changes; the last four rows are worked afresh, one after another.
    let five = [0, 53_332, 66_665, 79_998, 80_000];
    assert_eq!(afresh_by(BEND, 13_333), five);
}

/// The joint at 40000, where the inner slope changes; v, 40, is below q, 50, and W below c less m.
#[test]
fn v_between_p_and_q_two_stage() {
    assert_eq!(
        turns_of(FLAT),
        [(Turn::Joint, whole(40_000)), (INNER, whole(40_000))]
    );
    assert_eq!(afresh(FLAT), [0, 60_000, 120_000]);
    assert_eq!(afresh_by(FLAT, 1000), [0, 41_000, 120_000]);
    assert_eq!(afresh_by(FLAT, 13_333), [0, 53_332, 120_000]);
    assert_eq!(afresh_by(FLAT, 13_334), [0, 40_002, 120_000]);
}

/// s = 3 × d / 2000 − 20 is p at 26666 2/3.
#[test]
fn v_between_p_and_q_even() {
    let even = [3, 1, 60, 40_000, 40, 0, 8000, 10];
    assert_eq!(turns_of(even), [(INNER, fraction(80_000, 3))]);
    assert_eq!(afresh(even), [0, 32_000, 40_000]);
}

/// s is p from the joint on, at 50000: a rule that only touches. The joint counts all the same.
#[test]
fn v_is_p_two_stage() {
    let level = [1, 1, 2000, 100_000, 20, 0, 20_000, 1];
    assert_eq!(turns_of(level), [(Turn::Joint, whole(50_000))]);
    assert_eq!(afresh(level), [0, 60_000, 100_000]);
    assert_eq!(afresh_by(level, 12_500), [0, 62_500, 100_000]);
    assert_eq!(afresh_by(level, 16_667), [0, 50_001, 100_000]);
}

/// Both rules only touch, at L. One mm more and the road is two-stage, with the joint at 60000; 1 mm more of W, and the shoulder is
/// kept from 1000 × 60000 / 1001 on, 59940.06.
#[test]
fn v_is_p_even() {
    assert_eq!(turns_of(CROWN), []);
    assert_eq!(afresh(CROWN), [0, 60_000]);
    assert_eq!(afresh_by(CROWN, 1000), [0, 60_000]);
    let longer = with(CROWN, &[(3, 60_001)]);
    assert_eq!(turns_of(longer), [(Turn::Joint, whole(60_000))]);
    assert_eq!(afresh(longer), [0, 60_001]);
    assert_eq!(afresh_by(longer, 1000), [0, 60_001]);
    let wider = with(CROWN, &[(WIDENING, 1001)]);
    assert_eq!(turns_of(wider), [(KEPT, fraction(60_000_000, 1001))]);
    assert_eq!(afresh_by(wider, 19_980), [0, 60_000]);
    assert_eq!(afresh_by(wider, 19_981), [0, 59_943, 60_000]);
}

/// s = 3 × d / 2500 − 20 is p at 33333 1/3, and q at L alone. Profile 3 with v 50 is so too in two stages: joint at 40000,
/// kept from 28571 3/7 on.
#[test]
fn v_is_q() {
    let even = [2, 1, 100, 50_000, 40, 0, 1000, 1];
    assert_eq!(turns_of(even), [(INNER, fraction(100_000, 3))]);
    assert_eq!(afresh(even), [0, 34_000, 50_000]);
    let two_stage = [3, 1, 300, 100_000, 50, 3500, 20_000, 1];
    let due = [
        (Turn::Joint, whole(40_000)),
        (INNER, whole(40_000)),
        (KEPT, fraction(200_000, 7)),
    ];
    assert_eq!(turns_of(two_stage), due);
    assert_eq!(afresh(two_stage), [0, 40_000, 60_000, 100_000]);
}

/// s is q, 40, at 100000. W at c less m, 2250, touches; 2251 keeps the shoulder from 149933.4 on, 3500 from 96428 4/7 on.
#[test]
fn v_above_q_two_stage() {
    let joint = [(Turn::Joint, whole(50_000)), (INNER, whole(50_000))];
    assert_eq!(turns_of(LONG)[..2], joint);
    assert_eq!(turns_of(LONG)[2..], [(SHOULDER, whole(100_000))]);
    assert_eq!(afresh(LONG), [0, 60_000, 110_000, 150_000]);
    let touching = with(LONG, &[(WIDENING, 2250)]);
    assert_eq!(afresh(touching), [0, 60_000, 110_000, 150_000]);
    let above = with(LONG, &[(WIDENING, 2251)]);
    assert_eq!(turns_of(above)[3], (KEPT, fraction(337_500_000, 2251)));
    assert_eq!(afresh(above), [0, 60_000, 110_000, 150_000]);
    assert_eq!(afresh_by(above, 14_993), [0, 59_972, 104_951, 150_000]);
    let five = [0, 59_976, 104_958, 149_940, 150_000];
    assert_eq!(afresh_by(above, 14_994), five);
    let wide = with(LONG, &[(WIDENING, 3500)]);
    assert_eq!(turns_of(wide)[3], (KEPT, fraction(675_000, 7)));
    assert_eq!(afresh(wide), [0, 60_000, 100_000, 110_000, 150_000]);
}

/// The joint of profile 2 is at 46666 2/3. 23 steps of 2029 mm are 46667.
#[test]
fn a_joint_between_two_millimetres() {
    let long = [2, 1, 200, 120_000, 30, 0, 2029, 1];
    assert_eq!(turns_of(long)[0], (Turn::Joint, fraction(140_000, 3)));
    assert_eq!(fresh_rows(&Card::new(&relative(long))), [0, 23, 60]);
    assert_eq!(afresh(long), [0, 46_667, 120_000]);
    assert_eq!(afresh_by(long, 15_555), [0, 62_220, 120_000]);
    assert_eq!(afresh_by(long, 15_556), [0, 46_668, 120_000]);
}

/// At 93333 the road is even and s is q at 69999.75. One mm more, it is two-stage, and s is q at 70000 1/3.
#[test]
fn the_last_even_and_the_first_two_stage_length() {
    let even = [2, 1, 200, 93_333, 60, 0, 10_000, 1];
    let due = [
        (INNER, fraction(93_333, 2)),
        (SHOULDER, fraction(279_999, 4)),
    ];
    assert_eq!(turns_of(even), due);
    assert_eq!(afresh(even), [0, 50_000, 70_000, 93_333]);
    let two_stage = with(even, &[(3, 93_334)]);
    assert_eq!(turns_of(two_stage)[2], (SHOULDER, fraction(210_001, 3)));
    assert_eq!(afresh(two_stage), [0, 50_000, 80_000, 93_334]);
}

/// The shoulder is kept from 40000 on, where the inner slope changes; from the joint on, at 40000; from 100000 on, where its slope
/// changes.
#[test]
fn coinciding_stations_count_once() {
    let at_inner = with(BEND, &[(WIDENING, 2000), (STEP, 1000)]);
    assert_eq!(turns_of(at_inner)[2], (KEPT, whole(40_000)));
    assert_eq!(afresh(at_inner), [0, 41_000, 61_000, 80_000]);
    let at_joint = [3, 1, 300, 100_000, 50, 2500, 1000, 1];
    assert_eq!(turns_of(at_joint)[2], (KEPT, whole(40_000)));
    assert_eq!(afresh(at_joint), [0, 41_000, 100_000]);
    let at_shoulder = with(LONG, &[(WIDENING, 3375), (STEP, 1000)]);
    assert_eq!(turns_of(at_shoulder)[3], (KEPT, whole(100_000)));
    assert_eq!(afresh(at_shoulder), [0, 51_000, 101_000, 150_000]);
}

/// The joint at 45000, on the last row but one: the last is the first past it.
#[test]
fn a_row_on_the_joint_before_the_last() {
    let short = [5, 1, 80, 45_751, 31, 0, 15_000, 1];
    let joint = whole(45_000);
    assert_eq!(turns_of(short), [(Turn::Joint, joint), (INNER, joint)]);
    assert_eq!(afresh(short), [0, 45_751]);
    assert_eq!(afresh_by(short, 14_999), [0, 45_751]);
    assert_eq!(afresh_by(short, 15_001), [0, 45_003, 45_751]);
}

/// The longest road: the joint at 50000, and s is q at 50000 + 250000 / 2.
#[test]
fn steps_of_1_and_of_20_metres() {
    let longest = [1, 1, 2000, 300_000, 60, 0, 1000, 1];
    assert_eq!(afresh(longest), [0, 51_000, 176_000, 300_000]);
    assert_eq!(
        fresh_rows(&Card::new(&relative(longest))),
        [0, 51, 176, 300]
    );
    assert_eq!(afresh_by(longest, 20_000), [0, 60_000, 180_000, 300_000]);
}

#[test]
fn unit_height_and_grade_do_not_matter() {
    for eight in [RAMP, BEND, LONG, FLAT, CROWN] {
        let due = afresh(eight);
        for unit in [1, 10] {
            let eight = with(eight, &[(7, unit)]);
            assert_eq!(afresh(eight), due);
            assert_eq!(afresh_of(absolute(eight, -100_000, 80)), due);
            assert_eq!(afresh_of(absolute(eight, 9_000_000, -80)), due);
        }
    }
}

/// "nought on a refusal", whatever refuses.
#[test]
fn refusals() {
    let refused = |card: Numbers, length: usize| {
        let (mut table, before) = (vec![77; length], vec![77; length]);
        let reply = walk_table(&card, &mut table);
        assert_eq!((reply.count, reply.fresh, table), (0, 0, before));
        reply.number
    };
    assert_eq!(refused(relative(RAMP), 0), 11);
    assert_eq!(refused(relative(RAMP), 20), 11);
    for (place, number, due) in [(0, 6, 1), (1, 0, 2), (2, 29, 3), (3, 29_999, 4), (4, 61, 5)] {
        assert_eq!(refused(relative(with(RAMP, &[(place, number)])), 2107), due);
    }
    assert_eq!(refused(relative(with(RAMP, &[(WIDENING, 3501)])), 2107), 6);
    assert_eq!(
        refused(relative([1, 1, 125, 55_000, 60, 0, 20_000, 1]), 2107),
        8
    );
    assert_eq!(refused(relative(with(RAMP, &[(STEP, 999)])), 2107), 9);
    assert_eq!(refused(relative(with(RAMP, &[(7, 2)])), 2107), 10);
    assert_eq!(refused(absolute(RAMP, 9_000_001, 0), 20), 34);
    assert_eq!(refused(absolute(RAMP, 0, 81), 20), 35);
    assert_eq!(refused(absolute(RAMP, 0, 80), 20), 11);
}

/// Nearer to a row than any change that is not on it: their bottoms are at most 3500.
const BESIDE: (i128, i128) = (1, 10_000);

/// How an accepted card's lines lie just before a station: which side is the greater by each rule, and how fast the slope climbs.
fn just_before(runoff: &Runoff, station: Fraction) -> ([Ordering; 3], Fraction) {
    let beside = fraction(BESIDE.0, BESIDE.1);
    let rules = [
        Greater::InnerSlope,
        Greater::ShoulderSlope,
        Greater::InnerShoulder,
    ];
    let at = station - beside;
    let sides = rules.map(|rule| {
        let [one, other] = runoff.sides(rule, at);
        one.cmp(&other)
    });
    let climb = runoff.outer_slope(at) - runoff.outer_slope(at - beside);
    (sides, climb.in_lowest_terms())
}

/// The rows, by place, before which something has changed since the row before them: as it lies just before the one and just before
/// the other. A row on a change has it still before it.
fn changed_rows(card: &Card) -> Vec<usize> {
    let runoff = Runoff::new(card);
    let stations = stations(card);
    let beside = fraction(2 * BESIDE.0, BESIDE.1);
    let mut before = just_before(&runoff, beside);
    let mut rows = Vec::new();
    for (row, &station) in stations.iter().enumerate().skip(1) {
        let lies = just_before(&runoff, whole(station));
        let mut pairs = before.0.iter().zip(&lies.0);
        let changes = pairs.any(|(old, new)| old.is_ne() && *new == old.reverse());
        if changes || before.1 != lies.1 || row == stations.len() - 1 {
            rows.push(row);
        }
        before = lies;
    }
    rows.insert(0, 0);
    rows
}

/// Cards of every profile, even and two-stage, at each bound of v and W, with steps that put rows on changes and beside them.
fn many_cards() -> Vec<Card> {
    let mut cards = Vec::new();
    for (profile, p, q, spare) in [
        (1, 20, 40, 2250),
        (2, 20, 40, 1000),
        (3, 20, 50, 1000),
        (4, 30, 60, 1000),
        (5, 30, 60, 750),
    ] {
        for length in [60_000, 80_000, 93_333, 93_334, 120_001, 300_000] {
            for v in [p, p + 1, q, 47, 60] {
                for w in [0, spare, spare + 1, 3500.min(2 * spare)] {
                    for step in [2029, 10_000, 13_333, 20_000] {
                        let eight = [profile, 2, 150, length, v, w, step, 1];
                        let card = relative(eight);
                        cards.extend((check_card(&card) == 0).then(|| Card::new(&card)));
                    }
                }
            }
        }
    }
    cards
}

#[test]
fn as_counted_from_the_lines_beside_the_rows() {
    let cards = many_cards();
    assert!(cards.len() > 500);
    let mut counts = [0; 6];
    for card in cards {
        let rows = fresh_rows(&card);
        assert_eq!(rows, changed_rows(&card), "{card:?}");
        counts[rows.len()] += 1;
    }
    assert!(counts[2..].iter().all(|&count| count > 10), "{counts:?}");
    assert_eq!(counts[..2], [0, 0]);
}
