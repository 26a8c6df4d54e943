//! Document 02, Slip 7: "The method of the Minsk handbook." Cards and rows worked out by hand from the papers.
//!
//! In the working d is the station, w the widening and s the outer slope; heights are in mm, so 40‰ is 0.04. The road's
//! lines lie, from the axis, at 3500, 4250 and 6500 (II), 3500, 4000 and 6000 (III), 3000, 3500 and 5000 (IV).

use crate::card::{absolute, marked, relative};
use crate::fraction::{fraction, whole, Fraction};
use crate::minsk::{first_stage_end, first_stage_length, road_of, widening_end, Banking};
use crate::rows::tie;
use crate::{check_minsk_card, fill_minsk_table, minsk_rows, Card, Numbers, TableReply};

/// The road of the handbook's example 2.1: L × R / 2000 is 42000, and the first stage, 28 m long, begins at 14000.
/// From 42000 to 140000 s = 20 + (d − 42000) / 3500.
const SECOND: [i32; 8] = [1, 1, 600, 140_000, 48, 0, 14_000, 1];
/// The road of example 2.2: the first stage, 24 m long, lies from 4000 to 28000, the widening grows from 92000 to 112000.
/// From 28000 on s = 20 + (d − 28000) / 4000; w = (d − 92000) / 40.
const FOURTH: [i32; 8] = [3, 1, 400, 140_000, 48, 500, 4000, 1];
/// R 500: the widening grows to the end, from 120000 on, and s = 20 + (d − 35000) / 3500 from 35000 on; c − m is 1000.
const THIRD: [i32; 8] = [2, 1, 500, 140_000, 50, 2000, 7000, 1];
/// L × R / 2000 is the first stage's 24000, so it begins at 0 and the widening at 76000, as early as can be. From 24000
/// on s = 20 + (d − 24000) / 6000; w = 0.175 × (d − 76000), above the shoulder's 2000 at last.
const EARLY: [i32; 8] = [3, 1, 200, 240_000, 56, 3500, 2000, 1];

fn check(eight: [i32; 8]) -> u32 {
    check_minsk_card(&relative(eight))
}

fn reply(card: &Numbers, table_length: usize) -> (u32, u32) {
    let TableReply { number, count } = fill_minsk_table(card, &mut vec![0; table_length]);
    (number, count)
}

fn banking(eight: [i32; 8]) -> Banking {
    Banking::new(&Card::new(&relative(eight)))
}

/// The row at a station without that station.
fn eight_of(card: Numbers, station: i32) -> [i32; 8] {
    let mut rows = minsk_rows(&card).into_iter();
    let row = rows.find(|row| row[0] == station);
    let [_, eight @ ..] = row.expect("a row at that station");
    eight
}

fn eight_at(eight: [i32; 8], station: i32) -> [i32; 8] {
    eight_of(relative(eight), station)
}

fn with_step(mut eight: [i32; 8], step: i32) -> [i32; 8] {
    eight[6] = step;
    eight
}

fn in_centimetres(mut eight: [i32; 8]) -> [i32; 8] {
    eight[7] = 10;
    eight
}

/// "For II the first stage is 28 m long": 2 × 3500 × 20 / 5; for III as well, and 24 m for IV.
#[test]
fn first_stages() {
    let length = |profile| first_stage_length(&road_of(profile).expect("a road"));
    let lengths = [1, 2, 3].map(length);
    assert_eq!(lengths, [28_000, 28_000, 24_000].map(|mm: i32| whole(mm)));
    assert!([0, 4, 5, u32::MAX].map(road_of).iter().all(Option::is_none));
    let ends = |eight| {
        let card = Card::new(&relative(eight));
        [first_stage_end(&card), widening_end(&card)]
    };
    assert_eq!(ends(SECOND), [42_000, 168_000].map(|mm: i32| whole(mm)));
    assert_eq!(ends(FOURTH), [28_000, 112_000].map(|mm: i32| whole(mm)));
}

/// "3.5 m into it the outer edge is −0.0525 m": s is −15, so the strip edge is at −63.75 and the brow at −97.5.
/// On the inner side nothing has turned: 3500 × 0.02 = 70, 4250 × 0.02 = 85, and 85 + 2250 × 0.04 = 175 below the axis.
#[test]
fn three_metres_and_a_half_into_the_first_stage() {
    let at = whole(17_500);
    assert_eq!(banking(SECOND).outer_edge(at), whole(-52_500));
    assert_eq!(banking(SECOND).outer_strip(at), whole(-63_750));
    assert_eq!(banking(SECOND).outer_brow(at), whole(-97_500));
    // In mm −52.5 and −97.5 go to the higher number.
    let due = [0, 0, -52, -64, -97, -70, -85, -175];
    assert_eq!(eight_at(with_step(SECOND, 3500), 17_500), due);
    // In cm −8.5 and −17.5 go to the lower.
    let in_cm = in_centimetres(with_step(SECOND, 3500));
    assert_eq!(eight_at(in_cm, 17_500), [0, 0, -5, -6, -10, -7, -9, -18]);
}

/// Example 2.1 itself, in metres, 5.5, 15.5 and 25.5 m into the first stage: −0.0425, −0.05 and −0.08; 0.0075, 0.01 and 0.01;
/// 0.0575, 0.07 and 0.11; on the inner side −0.07, −0.085 and −0.18 (−0.175, which it rounds away from nought).
#[test]
fn example_2_1() {
    let banking = banking(SECOND);
    let in_cm = |line: Fraction| (line / whole(10_000)).nearest(tie(10));
    for (into, edge, strip, brow) in [
        (5500, -42_500, -5, -8),
        (15_500, 7500, 1, 1),
        (25_500, 57_500, 7, 11),
    ] {
        let at = whole(14_000 + into);
        assert_eq!(banking.outer_edge(at), whole(edge));
        assert_eq!(in_cm(banking.outer_strip(at)), strip);
        assert_eq!(in_cm(banking.outer_brow(at)), brow);
        assert_eq!(banking.inner_edge(at), whole(-70_000));
        assert_eq!(banking.inner_strip(at), whole(-85_000));
        assert_eq!(banking.inner_brow(at), whole(-175_000));
    }
}

/// The whole of II without widening: outer lines at 3.5 × s, 4.25 × s and 6.5 × s.
#[test]
fn rows_of_category_2() {
    let due = [
        // s −20 up to 14000; −85 − 2250 × 0.04 = −175.
        [0, 0, 0, -70, -85, -130, -70, -85, -175],
        [14_000, 0, 0, -70, -85, -130, -70, -85, -175],
        // Half of the first stage: s 0.
        [28_000, 0, 0, 0, 0, 0, -70, -85, -175],
        // s 20, then 24, 28 and so on: the inner side turns as well, and −4.25 × s − 90 is its brow.
        [42_000, 0, 0, 70, 85, 130, -70, -85, -175],
        [56_000, 0, 0, 84, 102, 156, -84, -102, -192],
        [70_000, 0, 0, 98, 119, 182, -98, -119, -209],
        [84_000, 0, 0, 112, 136, 208, -112, -136, -226],
        [98_000, 0, 0, 126, 153, 234, -126, -153, -243],
        // s 40: the shoulder beyond the strip turns from here on.
        [112_000, 0, 0, 140, 170, 260, -140, -170, -260],
        // s 44: −187 − 2.25 × 44 = −286.
        [126_000, 0, 0, 154, 187, 286, -154, -187, -286],
        [140_000, 0, 0, 168, 204, 312, -168, -204, -312],
    ];
    let card = relative(SECOND);
    assert_eq!(minsk_rows(&card), due);
    let mut table = [77; 100];
    let filled = TableReply {
        number: 0,
        count: 11,
    };
    assert_eq!(fill_minsk_table(&card, &mut table), filled);
    assert_eq!(table[..99], *due.as_flattened());
    assert_eq!(table[99], 77);
}

/// One metre before and past each change: 14000, 28000, 42000 and 112000.
#[test]
fn beside_each_change() {
    let at = |station| eight_at(with_step(SECOND, 1000), station);
    assert_eq!(at(13_000), [0, 0, -70, -85, -130, -70, -85, -175]);
    // −70 + 5 = −65; s −65 / 3.5: −65 × 4.25 / 3.5 = −78.93, −65 × 6.5 / 3.5 = −120.71.
    assert_eq!(at(15_000), [0, 0, -65, -79, -121, -70, -85, -175]);
    // −5 and 5: 6.07 and 9.29.
    assert_eq!(at(27_000), [0, 0, -5, -6, -9, -70, -85, -175]);
    assert_eq!(at(29_000), [0, 0, 5, 6, 9, -70, -85, -175]);
    // 65 before the joint; past it s 20 + 1 / 3.5: 71, 86.21 and 131.86.
    assert_eq!(at(41_000), [0, 0, 65, 79, 121, -70, -85, -175]);
    assert_eq!(at(43_000), [0, 0, 71, 86, 132, -71, -86, -176]);
    // s 40 − 1 / 3.5: 139, 168.79, 258.14 and −168.79 − 90 = −258.79.
    assert_eq!(at(111_000), [0, 0, 139, 169, 258, -139, -169, -259]);
    // s 40 + 1 / 3.5: 141, 171.21, 261.86 on both sides.
    assert_eq!(at(113_000), [0, 0, 141, 171, 262, -141, -171, -262]);
}

/// IV: outer lines at 3 × s, 3.5 × s and 5 × s.
#[test]
fn rows_of_category_4_with_a_widening_of_500() {
    let at = |station| eight_at(FOURTH, station);
    assert_eq!(at(4000), [0, 0, -60, -70, -100, -60, -70, -130]);
    assert_eq!(at(28_000), [0, 0, 60, 70, 100, -60, -70, -130]);
    // s 36: −3.5 × 36 − 1500 × 0.04 = −186.
    assert_eq!(at(92_000), [0, 0, 108, 126, 180, -108, -126, -186]);
    // s 37, w 100: 3100 × 0.037 = 114.7, 3600 × 0.037 = 133.2, and 133.2 + 1400 × 0.04 = 189.2; outer strip edge 129.5.
    assert_eq!(at(96_000), [100, 0, 111, 130, 185, -115, -133, -189]);
    // s 40, w 400: 3400 × 0.04 = 136, 3900 × 0.04 = 156, 156 + 1100 × 0.04 = 200.
    assert_eq!(at(108_000), [400, 0, 120, 140, 200, -136, -156, -200]);
    // s 41, w 500, all of it: 143.5, 4000 × 0.041 = 164, 164 + 1000 × 0.041 = 205; outer strip edge 143.5.
    assert_eq!(at(112_000), [500, 0, 123, 144, 205, -143, -164, -205]);
    // Past L × R / 500 it stays: s 42: 147, 168 and 210 on both sides but for the inner edge's 3500 × 0.042.
    assert_eq!(at(116_000), [500, 0, 126, 147, 210, -147, -168, -210]);
    assert_eq!(at(140_000), [500, 0, 144, 168, 240, -168, -192, -240]);
}

/// Example 2.2 itself has v 40: 57 m past 28000 s is 20 + 20 × 57 / 112 = 30.18, 77 m past it 33.75 and w 325 of 500.
#[test]
fn example_2_2() {
    let at = |station| eight_at([3, 1, 400, 140_000, 40, 500, 1000, 10], station);
    // 90.54, 105.63, 150.89; −90.54, −105.63, −105.63 − 60 = −165.63.
    assert_eq!(at(85_000), [0, 0, 9, 11, 15, -9, -11, -17]);
    // 3 m and 13 m into the growth: w 75 and 325, in cm to the lower number.
    assert_eq!(at(95_000)[0], 7);
    // 101.25, 118.125, 168.75; 3325 × 0.03375 = 112.22; 3825 × 0.03375 = 129.09; and 1175 × 0.04 = 47 more, 176.09.
    assert_eq!(at(105_000), [32, 0, 10, 12, 17, -11, -13, -18]);
    assert_eq!(at(140_000), [50, 0, 12, 14, 20, -14, -16, -20]);
}

/// III: outer lines at 3.5 × s, 4 × s and 6 × s. "no less than 1500": c less w comes to it at 130000.
#[test]
fn kept_shoulder_of_category_3() {
    let at = |station| eight_at(THIRD, station);
    // s 44: 154, 176 and 264 on both sides: 2500 − 500 beyond the strip lie at 44‰ too.
    assert_eq!(at(119_000), [0, 0, 154, 176, 264, -154, -176, -264]);
    // s 46, w 600: 161, 184, 276; 4100 × 0.046 = 188.6, 4600 × 0.046 = 211.6; 1900 − 500: 211.6 + 64.4 = 276.
    assert_eq!(at(126_000), [600, 0, 161, 184, 276, -189, -212, -276]);
    // s 48, w 1300: 168, 192, 288; 230.4, 254.4; 2500 − w is below 1500: 254.4 + 1000 × 0.048 = 302.4.
    assert_eq!(at(133_000), [1300, 0, 168, 192, 288, -230, -254, -302]);
    // s 50, w 2000: 175, 200, 300; 275, 300, 350.
    assert_eq!(at(140_000), [2000, 0, 175, 200, 300, -275, -300, -350]);
    let banking = banking(THIRD);
    let (change, beside) = (whole(130_000), fraction(1, 1000));
    assert!(banking.inner_shoulder(change - beside) > whole(1500));
    assert_eq!(banking.inner_shoulder(change), whole(1500));
    assert_eq!(banking.inner_shoulder(change + beside), whole(1500));
}

/// IV: "no less than … 1000", with its strip, though the widening is above the whole shoulder.
#[test]
fn widening_above_the_shoulder() {
    let at = |station| eight_at(EARLY, station);
    assert_eq!(at(0), [0, 0, -60, -70, -100, -60, -70, -130]);
    // 10 of −60 are climbed.
    assert_eq!(at(2000), [0, 0, -50, -58, -83, -60, -70, -130]);
    assert_eq!(at(12_000), [0, 0, 0, 0, 0, -60, -70, -130]);
    assert_eq!(at(24_000), [0, 0, 60, 70, 100, -60, -70, -130]);
    // s 28 2/3: 86, 100.33, 143.33; −100.33 − 60 = −160.33.
    assert_eq!(at(76_000), [0, 0, 86, 100, 143, -86, -100, -160]);
    // s 29, w 350: 87, 101.5, 145; 3350 × 0.029 = 97.15, 3850 × 0.029 = 111.65; 1650 − 500: 111.65 + 46 = 157.65.
    assert_eq!(at(78_000), [350, 0, 87, 102, 145, -97, -112, -158]);
    // s 30, w 1400: 4400 × 0.03 = 132, 4900 × 0.03 = 147; 2000 − w is below 1000: 147 + 500 × 0.04 = 167.
    assert_eq!(at(84_000), [1400, 0, 90, 105, 150, -132, -147, -167]);
    // s 32, w 3500: 6500 × 0.032 = 208, 7000 × 0.032 = 224; 2000 − w is below nought: 224 + 20 = 244.
    assert_eq!(at(96_000), [3500, 0, 96, 112, 160, -208, -224, -244]);
    // s 56: 168, 196, 280; 364, 392, 392 + 500 × 0.056 = 420.
    assert_eq!(at(240_000), [3500, 0, 168, 196, 280, -364, -392, -420]);
}

/// The handbook's 90.00 m and 10‰: the axis stands at 90175 at 17500, and the lines as far from it as they do from 0.
#[test]
fn absolute_cards() {
    let of = |height, grade| absolute(with_step(SECOND, 3500), height, grade);
    // 90175 − 52.5, − 63.75, − 97.5 and − 70, − 85, − 175.
    let due = [0, 90_175, 90_123, 90_111, 90_078, 90_105, 90_090, 90_000];
    assert_eq!(eight_of(of(90_000, 10), 17_500), due);
    // −100000 − 80 × 140 = −111200 at L: 168, 204 and 312 above it and below it.
    let last = [
        0, -111_200, -111_032, -110_996, -110_888, -111_368, -111_404, -111_512,
    ];
    assert_eq!(eight_of(of(-100_000, -80), 140_000), last);
    let mut card = of(90_000, 10);
    card[7] = 10;
    // In cm 9017.5, 9012.25, 9011.125, 9007.75, 9010.5, 9009 and 9000.
    let due = [0, 9017, 9012, 9011, 9008, 9010, 9009, 9000];
    assert_eq!(eight_of(card, 17_500), due);
}

/// "The sum is rounded once", "moved as in Slip 5": at 16250 the axis is 16.25, and the outer edge −70 + 11.25 = −58.75
/// from it, at −42.5; 16 and −59 would make −43. The strip edge is −71.34 from it, the brow −109.11.
#[test]
fn the_sum_is_rounded_once() {
    let card = absolute(with_step(SECOND, 1625), 0, 1);
    // −42.5, −55.09, −92.86; 16.25 − 70 = −53.75, −68.75, −158.75.
    let due = [0, 16, -42, -55, -93, -54, -69, -159];
    assert_eq!(eight_of(card, 16_250), due);
}

/// "Halfway goes up in millimetres": 2.5 m into the growth w is 62.5. In cm w 25 and w 75 go down.
#[test]
fn widening_halfway() {
    assert_eq!(eight_at(with_step(FOURTH, 1500), 94_500)[0], 63);
    let in_cm = in_centimetres(with_step(FOURTH, 1000));
    assert_eq!(eight_at(in_cm, 93_000)[0], 2);
    assert_eq!(eight_at(in_cm, 95_000)[0], 7);
    assert_eq!(eight_at(in_cm, 97_000)[0], 12);
}

/// 36: "a full slope of 20, a radius of 2000 or profile 4 or 5", each before 37.
#[test]
fn the_method() {
    assert_eq!(check([1, 1, 600, 140_000, 20, 0, 5000, 1]), 36);
    assert_eq!(check([1, 1, 600, 140_000, 21, 0, 5000, 1]), 0);
    assert_eq!(check([1, 1, 2000, 300_000, 21, 0, 5000, 1]), 36);
    // 3000 × 1 is not above 20 × 150; a millimetre or a per mille more, and it is.
    assert_eq!(check([3, 2, 1999, 300_000, 21, 0, 5000, 1]), 0);
    assert_eq!(check([3, 2, 1999, 299_999, 21, 0, 5000, 1]), 8);
    assert_eq!(check([3, 2, 1999, 300_000, 22, 0, 5000, 1]), 8);
    for profile in [4, 5] {
        assert_eq!(check([profile, 1, 600, 140_000, 35, 0, 5000, 1]), 36);
        assert_eq!(check([profile, 1, 600, 140_000, 25, 0, 5000, 1]), 5);
    }
    assert_eq!(check([1, 1, 125, 55_000, 20, 1, 5000, 1]), 36);
    assert_eq!(check([4, 1, 30, 30_000, 60, 1, 5000, 1]), 36);
}

/// 37: the first stage is as long as L × R / 2000 at the least, 28000 (II, III) or 24000 (IV); before 38.
#[test]
fn the_first_stage() {
    for profile in [1, 2] {
        assert_eq!(check([profile, 1, 400, 140_000, 40, 0, 5000, 1]), 0);
        assert_eq!(check([profile, 1, 400, 139_999, 40, 0, 5000, 1]), 37);
        assert_eq!(check([profile, 1, 399, 140_000, 40, 0, 5000, 1]), 37);
    }
    assert_eq!(check([3, 1, 300, 160_000, 40, 0, 5000, 1]), 0);
    assert_eq!(check([3, 1, 300, 159_999, 40, 0, 5000, 1]), 37);
    assert_eq!(check([1, 1, 399, 140_001, 40, 1, 5000, 1]), 37);
    assert_eq!(check([1, 1, 125, 300_000, 60, 0, 5000, 1]), 37);
}

/// 38: a widening where R is above 500, or L × R / 500 is no whole mm; 400 × L / 500 is one where 5 divides L.
#[test]
fn the_place_of_the_widening() {
    let of = |radius, length, widening| check([1, 1, radius, length, 40, widening, 5000, 1]);
    assert_eq!((of(500, 140_001, 1), of(501, 140_000, 1)), (0, 38));
    assert_eq!((of(501, 140_000, 0), of(1000, 140_000, 1)), (0, 38));
    assert_eq!(of(1001, 140_000, 1), 6);
    assert_eq!((of(400, 140_000, 1), of(400, 140_005, 1)), (0, 0));
    assert_eq!((of(400, 140_001, 1), of(400, 140_001, 0)), (38, 0));
    assert_eq!((of(400, 140_004, 3500), of(400, 140_005, 3500)), (38, 0));
    assert_eq!((of(401, 140_005, 1), of(401, 140_500, 1)), (38, 0));
}

/// 8: 3500 × 30 is 5 × 21000, and 21000 is 120000 × 350 / 2000. "then means": not h × (p + v) above added slope × L.
#[test]
fn the_added_slope() {
    let of = |length, slope| check([1, 1, 1650, length, slope, 0, 5000, 1]);
    assert_eq!((of(120_000, 50), of(120_000, 51)), (0, 8));
    assert_eq!((of(123_999, 51), of(124_000, 51)), (8, 0));
    let old = relative([1, 1, 1650, 120_000, 51, 0, 5000, 1]);
    assert_eq!(crate::check_card(&old), 0);
    // 3500 × 38 = 133000 is 10 × 13300, or 20 × 6650: 133000 × 200 / 2000 and × 100 / 2000.
    assert_eq!(check([2, 1, 1800, 133_000, 58, 0, 5000, 1]), 0);
    assert_eq!(check([2, 1, 1800, 132_999, 58, 0, 5000, 1]), 8);
    assert_eq!(check([2, 2, 1900, 133_000, 58, 0, 5000, 1]), 0);
    assert_eq!(check([2, 2, 1900, 132_999, 58, 0, 5000, 1]), 8);
    // L × R / 2000 is no whole mm: 3000 × 40 against 10 × 12000.098 and 10 × 11999.9985.
    assert_eq!(check([3, 1, 1800, 120_000, 60, 0, 5000, 1]), 0);
    assert_eq!(check([3, 1, 1801, 120_604, 60, 0, 5000, 1]), 0);
    assert_eq!(check([3, 1, 1801, 120_603, 60, 0, 5000, 1]), 8);
}

/// "in that order after 7": 1 to 6, 36, 37, 38, 8, 9, 10, 34, 35; each card has all the later faults that it can have.
#[test]
fn first_reason_met() {
    let of = |eight: [i32; 8]| check_minsk_card(&marked(eight, 1, 50_000_000, 81));
    assert_eq!(of([0, 0, 29, 0, 0, 3501, 0, 0]), 1);
    assert_eq!(of([1, 0, 29, 0, 0, 3501, 0, 0]), 2);
    assert_eq!(of([1, 1, 124, 0, 0, 3501, 0, 0]), 3);
    assert_eq!(of([1, 1, 2000, 99_999, 0, 3501, 0, 0]), 4);
    assert_eq!(of([1, 1, 2000, 100_000, 19, 3501, 0, 0]), 5);
    assert_eq!(of([1, 1, 2000, 100_000, 20, 1, 0, 0]), 6);
    assert_eq!(of([1, 1, 125, 60_000, 20, 1, 0, 0]), 36);
    assert_eq!(of([1, 1, 399, 139_999, 60, 1, 0, 0]), 37);
    assert_eq!(of([1, 1, 1000, 139_999, 60, 1, 0, 0]), 38);
    assert_eq!(of([1, 1, 1999, 139_999, 60, 0, 0, 0]), 8);
    assert_eq!(of([1, 1, 600, 140_000, 60, 0, 999, 0]), 9);
    assert_eq!(of([1, 1, 600, 140_000, 60, 0, 20_000, 0]), 10);
    assert_eq!(of([1, 1, 600, 140_000, 60, 0, 20_000, 1]), 34);
    let eight = [1, 1, 600, 140_000, 60, 0, 20_000, 10];
    assert_eq!(check_minsk_card(&marked(eight, -1, 5, 81)), 34);
    assert_eq!(check_minsk_card(&marked(eight, -1, 50, 81)), 35);
    assert_eq!(check_minsk_card(&marked(eight, 0, 5, 81)), 0);
    assert_eq!(check_minsk_card(&marked(eight, 1, 9_000_000, -80)), 0);
}

/// One of the eight below 0 counts as more than any may be.
#[test]
fn numbers_below_0() {
    for (place, due) in [1, 2, 3, 4, 5, 6, 9, 10].into_iter().enumerate() {
        let mut eight = SECOND;
        eight[place] = -1;
        assert_eq!(check(eight), due);
    }
}

/// "11 counts nine a row", after 34 and 35; a refusal leaves the table and gives count 0.
#[test]
fn short_tables() {
    let card = relative(SECOND);
    assert_eq!((reply(&card, 98), reply(&card, 99)), ((11, 0), (0, 11)));
    assert_eq!((reply(&card, 77), reply(&card, 0)), ((11, 0), (11, 0)));
    let longest = relative([1, 1, 600, 300_000, 60, 0, 1000, 1]);
    assert_eq!(reply(&longest, 2708), (11, 0));
    assert_eq!(reply(&longest, 2709), (0, 301));
    assert_eq!(reply(&absolute(SECOND, 9_000_001, 81), 0), (34, 0));
    assert_eq!(reply(&absolute(SECOND, 0, 81), 0), (35, 0));
    assert_eq!(reply(&absolute(SECOND, 0, 80), 98), (11, 0));
    let mut table = [77; 98];
    assert_eq!(fill_minsk_table(&card, &mut table).number, 11);
    let refused = relative([1, 1, 600, 140_000, 20, 0, 14_000, 1]);
    assert_eq!(fill_minsk_table(&refused, &mut table).number, 36);
    assert_eq!(table, [77; 98]);
}

/// Where W is 0, L × R / 500 and L × R / 2000 may be any fractions: 100601.8 and 25150.45, less the first stage's 24000.
/// "Rounding the stage joint to a whole millimetre" is a blunder here too.
#[test]
fn joints_are_exact() {
    let banking = banking([3, 1, 359, 140_114, 60, 0, 1000, 1]);
    let (joint, start) = (fraction(50_300_926, 2000), fraction(2_300_926, 2000));
    let beside = fraction(1, 1000);
    let slope = |station: Fraction| banking.outer_slope(station).in_lowest_terms();
    assert_eq!(slope(start - beside), whole(-20));
    assert_eq!(slope(start), whole(-20));
    assert!(slope(start + beside) > whole(-20));
    assert_eq!(slope((start + joint) / whole(2)), whole(0));
    assert_eq!(slope(joint), whole(20));
    let climb = whole(20) - slope(joint - beside);
    assert_eq!(climb, fraction(5, 1000) / whole(3000));
    let past = slope(joint + beside) - whole(20);
    assert!(past > whole(0) && past < climb);
    assert_eq!(slope(whole(140_114)), whole(60));
}

/// The climbing rule "from its first stage on": the outer edge, above the axis, lies level before it, and then climbs, by 5‰
/// in the first stage and by no more than the added slope past it.
#[test]
fn the_outer_edge_climbs_from_the_first_stage_on() {
    for (eight, start) in [(SECOND, 14_000), (FOURTH, 4000), (THIRD, 7000), (EARLY, 0)] {
        let banking = banking(eight);
        let edge = |station| banking.outer_edge(station).in_lowest_terms();
        let thirds = (0..3 * eight[3]).step_by(500);
        for third in thirds.map(i128::from) {
            let here = fraction(third, 3);
            let climb = edge(fraction(third + 1, 3)) - edge(here);
            let first_end = whole(start) + first_stage_length(&road_of(eight[0] as u32).unwrap());
            match () {
                () if here < whole(start) => assert_eq!(climb, whole(0)),
                () if here < first_end => assert_eq!(climb, fraction(5, 3)),
                () => assert!(whole(0) < climb && climb <= fraction(10, 3)),
            }
        }
    }
}

/// An axis at a height and with a grade moves every line alike, at thirds of a millimetre too.
#[test]
fn every_line_keeps_its_distance() {
    let above = |card: &Numbers, station| {
        let banking = Banking::new(&Card::new(card));
        let above = |line: Fraction| line.in_lowest_terms() - banking.axis(station);
        banking
            .lines(station)
            .map(|line| above(line).in_lowest_terms())
    };
    for eight in [SECOND, FOURTH, THIRD, EARLY] {
        for share in 0..=60 {
            let station = fraction(i128::from(eight[3] / 20 * share), 3);
            let due = above(&relative(eight), station);
            for (height, grade) in [(0, 0), (250_000, -35), (9_000_000, 80), (-100_000, -80)] {
                assert_eq!(above(&absolute(eight, height, grade), station), due);
            }
        }
    }
}
