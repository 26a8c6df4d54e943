//! Document 02, Slip 6: "Halfway goes up in millimetres." Rows with halves in every rounded number, worked out by hand
//! from the papers.
//!
//! In the working d is the station, w the widening and s the outer slope; heights are in mm, so 32‰ is 0.032.

use crate::card::{absolute, relative};
use crate::fraction::Tie;
use crate::readings::row_of;
use crate::rows::{rows, tie};
use crate::Numbers;

/// Profile 5 in mm, two-stage with the joint at 45000. At 67500 all six rounded numbers stand halfway.
const MILLIMETRES: [i32; 8] = [5, 1, 60, 90_000, 34, 3250, 13_500, 1];
/// Profile 1 in cm, two-stage. At L all six rounded numbers stand halfway.
const CENTIMETRES: [i32; 8] = [1, 1, 150, 75_000, 32, 3125, 20_000, 10];

/// The row at a station without that station: widening; inner brow; inner edge; axis; outer edge; outer brow.
fn six_at(card: Numbers, station: i32) -> [i32; 6] {
    let [_, six @ ..] = row_of(card, station);
    six
}

/// "in whole millimetres a halfway value goes to the higher number. In centimetres it still goes to the lower."
#[test]
fn the_tie_of_each_unit() {
    assert_eq!((tie(1), tie(10)), (Tie::Higher, Tie::Lower));
}

/// At 67500 w = 3250 × 3 / 4 = 2437.5 and s = 30 + 4 × 22500 / 45000 = 32. The axis is 105 + 67.5 = 172.5.
/// Outer edge 172.5 + 2250 × 0.032 = 244.5, outer brow 244.5 + 1750 × 0.032 = 300.5.
/// Inner edge 172.5 − 4687.5 × 0.032 = 22.5; 1750 − w is below 1000: inner brow 22.5 − 1000 × 0.06 = −37.5.
#[test]
fn relative_in_millimetres() {
    let six = six_at(relative(MILLIMETRES), 67_500);
    assert_eq!(six, [2438, -37, 23, 173, 245, 301]);
}

/// From the axis the lines lie at −210, −150, 72 and 128. A grade of 1 lifts it by 67.5, one of −1 lowers it by as much.
#[test]
fn absolute_in_millimetres() {
    let six = |height, grade| six_at(absolute(MILLIMETRES, height, grade), 67_500);
    // Axis 1067.5; 857.5 and 917.5 below it, 1139.5 and 1195.5 above.
    assert_eq!(six(1000, 1), [2438, 858, 918, 1068, 1140, 1196]);
    // Axis −1067.5; −1277.5 and −1217.5 below it, −995.5 and −939.5 above.
    assert_eq!(six(-1000, -1), [2438, -1277, -1217, -1067, -995, -939]);
    // Axis −0.5; −210.5 and −150.5 below it, 71.5 and 127.5 above.
    assert_eq!(six(-68, 1), [2438, -210, -150, 0, 72, 128]);
    // Axis 0.5; −209.5 and −149.5 below it, 72.5 and 128.5 above.
    assert_eq!(six(-67, 1), [2438, -209, -149, 1, 73, 129]);
}

/// At L w = 3125 and s = 32. The axis is 150 + 75 = 225, outer edge 225 + 3750 × 0.032 = 345, outer brow 345 + 120 = 465.
/// Inner edge 225 − 6875 × 0.032 = 5; 3750 − w is below 1500: inner brow 5 − 1500 × 0.04 = −55.
/// So in cm 312.5, −5.5, 0.5, 22.5, 34.5 and 46.5.
#[test]
fn relative_in_centimetres() {
    let six = six_at(relative(CENTIMETRES), 75_000);
    assert_eq!(six, [312, -6, 0, 22, 34, 46]);
}

/// From the axis the lines lie at −280, −220, 120 and 240. A grade of 1 lifts it by 75, one of −1 lowers it by as much.
/// The sums are said in cm.
#[test]
fn absolute_in_centimetres() {
    let six = |height, grade| six_at(absolute(CENTIMETRES, height, grade), 75_000);
    // Axis 107.5; 79.5 and 85.5 below it, 119.5 and 131.5 above.
    assert_eq!(six(1000, 1), [312, 79, 85, 107, 119, 131]);
    // Axis −107.5; −135.5 and −129.5 below it, −95.5 and −83.5 above.
    assert_eq!(six(-1000, -1), [312, -136, -130, -108, -96, -84]);
    // Axis −0.5; −28.5 and −22.5 below it, 11.5 and 23.5 above.
    assert_eq!(six(-80, 1), [312, -29, -23, -1, 11, 23]);
    // Axis 0.5; −27.5 and −21.5 below it, 12.5 and 24.5 above.
    assert_eq!(six(-70, 1), [312, -28, -22, 0, 12, 24]);
}

/// RAMP's bend with other widenings: the inner brow halfway above nought, the inner edge halfway below it.
#[test]
fn inner_side_of_relative_cards_in_millimetres() {
    let of = |w, step| relative([5, 1, 30, 30_000, 60, w, step, 1]);
    // At 10000 s is 0, so axis, outer edge and outer brow are 172.5. w 50: inner edge 172.5 − 2300 × 0.03 = 103.5,
    // inner brow 103.5 − 1700 × 0.06 = 1.5.
    assert_eq!(six_at(of(150, 10_000), 10_000), [50, 2, 104, 173, 173, 173]);
    // At 30000 s is 60: outer edge 172.5 + 135 = 307.5, outer brow 307.5 + 105 = 412.5. w 3500: inner edge
    // 172.5 − 5750 × 0.06 = −172.5, inner brow −172.5 − 60 = −232.5.
    let last = [3500, -232, -172, 173, 308, 413];
    assert_eq!(six_at(of(3500, 20_000), 30_000), last);
}

/// Profile 1, even: axis 225, w = d / 48, s = d / 750 − 20; outer edge 225 + 3.75 × s, outer brow 225 + 7.5 × s.
/// The axis is halfway throughout.
#[test]
fn inner_side_of_relative_cards_in_centimetres() {
    let due = [
        // Inner edge 225 − 75 = 150, inner brow 150 − 150 = 0; outer brow 75.
        [0, 0, 0, 15, 22, 15, 7],
        // w 250, s −4: inner edge 225 − 4000 × 0.02 = 145, inner brow 145 − 3500 × 0.04 = 5; outer 210 and 195.
        [12_000, 25, 0, 14, 22, 21, 19],
        // w 500, s 12: inner edge 225 − 4250 × 0.02 = 140, inner brow 140 − 3250 × 0.04 = 10; outer 270 and 315.
        [24_000, 50, 1, 14, 22, 27, 31],
        // w 750, s 28: inner edge 225 − 4500 × 0.028 = 99, inner brow 99 − 3000 × 0.04 = −21; outer 330 and 435.
        [36_000, 75, -2, 10, 22, 33, 43],
        // w 1000, s 44: inner edge 225 − 4750 × 0.044 = 16, inner brow 16 − 2750 × 0.044 = −105; outer 390 and 555.
        [48_000, 100, -11, 2, 22, 39, 55],
        // w 1250, s 60: inner edge 225 − 5000 × 0.06 = −75, inner brow −75 − 2500 × 0.06 = −225; outer 450 and 675.
        [60_000, 125, -23, -8, 22, 45, 67],
    ];
    let card = [1, 1, 150, 60_000, 60, 1250, 12_000, 10];
    assert_eq!(rows(&relative(card)), due);
}

/// The first card in cm: 243.75, −3.75, 2.25, 17.25, 24.45 and 30.05. What is halfway in mm is not so here.
#[test]
fn halves_of_millimetres_are_none_of_centimetres() {
    let mut card = relative(MILLIMETRES);
    card[7] = 10;
    assert_eq!(six_at(card, 67_500), [244, -4, 2, 17, 24, 30]);
}

/// The second card in mm: whole numbers. What is halfway in cm is not so here.
#[test]
fn halves_of_centimetres_are_none_of_millimetres() {
    let mut card = relative(CENTIMETRES);
    card[7] = 1;
    assert_eq!(six_at(card, 75_000), [3125, -55, 5, 225, 345, 465]);
}
