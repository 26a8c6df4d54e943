//! Document 02, Slip 1: "The bank is widened, the shoulder is kept." Rows worked out by hand from the papers.
//!
//! In the working d is the station, w the widening and s the outer slope; heights are in mm, so 40‰ is 0.04.

use crate::card::relative;
use crate::fraction::{fraction, whole};
use crate::readings::{check, reply, row_at, runoff};
use crate::rows;

/// A category III bend with 1.2 m of widening, even: c − m is 1000, reached at station 66666 2/3.
const BEND: [i32; 8] = [2, 1, 200, 80_000, 60, 1200, 20_000, 1];
/// Profile 3, two-stage with the joint at 40000: c − m is 1000, c is 2000, W is above both.
const WIDE: [i32; 8] = [3, 1, 300, 100_000, 50, 3500, 20_000, 1];
/// The bend of RAMP with all the widening there is: c − m is 750, c is 1750.
const WIDE_RAMP: [i32; 8] = [5, 1, 30, 30_000, 60, 3500, 5000, 1];

/// Axis 2500 × 0.04 + 3500 × 0.02 = 170; w = 15 × d / 1000; s = d / 1000 − 20, so −20, 0, 20, 40, 60.
/// Outer edge 170 + 3.5 × s, outer brow 170 + 6 × s.
#[test]
fn category_3_with_a_widening_of_1200() {
    let due = [
        // Inner edge 170 − 3500 × 0.02 = 100; shoulder 2500: 100 − 2500 × 0.04 = 0.
        [0, 0, 0, 100, 170, 100, 50],
        // Inner edge 170 − 3800 × 0.02 = 94; shoulder 2500 − 300: 94 − 2200 × 0.04 = 6.
        [20_000, 300, 6, 94, 170, 170, 170],
        // Inner edge 170 − 4100 × 0.02 = 88; shoulder 2500 − 600: 88 − 1900 × 0.04 = 12.
        [40_000, 600, 12, 88, 170, 240, 290],
        // Inner edge 170 − 4400 × 0.04 = −6; shoulder 2500 − 900: −6 − 1600 × 0.04 = −70.
        [60_000, 900, -70, -6, 170, 310, 410],
        // Inner edge 170 − 4700 × 0.06 = −112; 2500 − 1200 is below 1500: −112 − 1500 × 0.06 = −202.
        [80_000, 1200, -202, -112, 170, 380, 530],
    ];
    assert_eq!(rows(&relative(BEND)), due);
}

/// At 70000: w 1050, s 50. Inner edge 170 − 4550 × 0.05 = −57.5; brow −57.5 − 1500 × 0.05 = −132.5:
/// both halfway, and in mm both to the higher number.
#[test]
fn halfway_beside_the_kept_shoulder() {
    let card = [2, 1, 200, 80_000, 60, 1200, 10_000, 1];
    assert_eq!(
        row_at(card, 70_000),
        [70_000, 1050, -132, -57, 170, 345, 470]
    );
}

/// Axis 2000 × 0.05 + 3000 × 0.02 = 160; w = 35 × d / 1000; s = −20, 0, 20 at 3‰, then d / 2000: 30, 40, 50.
/// Outer edge 160 + 3 × s, outer brow 160 + 5 × s. The shoulder's slope is 50 throughout.
#[test]
fn profile_3_with_a_widening_above_its_shoulder() {
    let due = [
        // Inner edge 160 − 3000 × 0.02 = 100; shoulder 2000: 100 − 100 = 0.
        [0, 0, 0, 100, 160, 100, 60],
        // Inner edge 160 − 3700 × 0.02 = 86; shoulder 2000 − 700: 86 − 1300 × 0.05 = 21.
        [20_000, 700, 21, 86, 160, 160, 160],
        // Inner edge 160 − 4400 × 0.02 = 72; 2000 − 1400 is below 1000: 72 − 1000 × 0.05 = 22.
        [40_000, 1400, 22, 72, 160, 220, 260],
        // Inner edge 160 − 5100 × 0.03 = 7; 2000 − 2100 is below nought: 7 − 50 = −43.
        [60_000, 2100, -43, 7, 160, 250, 310],
        // Inner edge 160 − 5800 × 0.04 = −72; brow −72 − 50 = −122.
        [80_000, 2800, -122, -72, 160, 280, 360],
        // Inner edge 160 − 6500 × 0.05 = −165; brow −165 − 50 = −215.
        [100_000, 3500, -215, -165, 160, 310, 410],
    ];
    assert_eq!(rows(&relative(WIDE)), due);
}

/// Axis 1750 × 0.06 + 2250 × 0.03 = 172.5; w = 7 × d / 60; s = 3 × d / 1000 − 30.
/// Outer edge 172.5 + 2.25 × s, outer brow 172.5 + 4 × s. A shoulder of 1000 falls by 60: its slope is 60 throughout.
/// In mm halfway goes to the higher number: the axis to 173.
#[test]
fn profile_5_with_a_widening_above_its_shoulder() {
    let due = [
        // Inner edge 172.5 − 2250 × 0.03 = 105; shoulder 1750: 105 − 105 = 0. s −30: 105 and 52.5.
        [0, 0, 0, 105, 173, 105, 53],
        // w 583 1/3: inner edge 105 − 17.5 = 87.5; shoulder 1166 2/3: 87.5 − 70 = 17.5. s −15: 138.75 and 112.5.
        [5000, 583, 18, 88, 173, 139, 113],
        // w 1166 2/3: inner edge 105 − 35 = 70; c − w 583 1/3 is below 1000: 70 − 60 = 10. s 0: both 172.5.
        [10_000, 1167, 10, 70, 173, 173, 173],
        // w 1750: inner edge 105 − 52.5 = 52.5; c − w is nought: 52.5 − 60 = −7.5. s 15: 206.25 and 232.5.
        [15_000, 1750, -7, 53, 173, 206, 233],
        // w 2333 1/3: inner edge 105 − 70 = 35; c − w is below nought: 35 − 60 = −25. s 30: 240 and 292.5.
        [20_000, 2333, -25, 35, 173, 240, 293],
        // w 2916 2/3: inner edge 172.5 − 5166 2/3 × 0.045 = −60; brow −60 − 60 = −120. s 45: 273.75 and 352.5.
        [25_000, 2917, -120, -60, 173, 274, 353],
        // w 3500: inner edge 172.5 − 5750 × 0.06 = −172.5; brow −172.5 − 60 = −232.5. s 60: 307.5 and 412.5.
        [30_000, 3500, -232, -172, 173, 308, 413],
    ];
    assert_eq!(rows(&relative(WIDE_RAMP)), due);
}

/// The greater of m and c less the widening, at fractions of a millimetre too.
#[test]
fn the_rule_changes_sides_at_an_exact_station() {
    let runoff = runoff(BEND);
    let change = fraction(200_000, 3);
    let beside = fraction(1, 1000);
    assert!(runoff.inner_shoulder(change - beside) > whole(1500));
    assert_eq!(runoff.inner_shoulder(change), whole(1500));
    assert_eq!(runoff.inner_shoulder(change + beside), whole(1500));
    assert_eq!(runoff.inner_shoulder(whole(0)), whole(2500));
    assert_eq!(runoff.inner_shoulder(whole(80_000)), whole(1500));
}

/// "Cards that gave 7 go on to the later reasons": 8, 9, 10 and 11, and still after 6.
#[test]
fn cards_that_gave_7_go_on_to_the_later_reasons() {
    let of = |length, step, unit| [1, 1, 125, length, 60, 2251, step, unit];
    assert_eq!(check(of(55_000, 0, 0)), 8);
    assert_eq!(check(of(60_000, 0, 0)), 9);
    assert_eq!(check(of(60_000, 20_000, 0)), 10);
    assert_eq!(reply(of(60_000, 20_000, 1), 27), (11, 0));
    assert_eq!(reply(of(60_000, 20_000, 1), 28), (0, 4));
    assert_eq!(check([1, 1, 1001, 120_000, 20, 2251, 20_000, 1]), 6);
}

/// Every W up to 3500 passes, in each profile, and 3501 gives 6.
#[test]
fn every_widening_of_every_profile() {
    for profile in 1..=5 {
        let of = |w| check([profile, 1, 200, 80_000, 60, w, 20_000, 1]);
        assert!((0..=3500).all(|w| of(w) == 0), "profile {profile}");
        assert_eq!(of(3501), 6, "profile {profile}");
    }
}
