//! Document 02, Slip 3: "Stop looking once found." Lengths and counts read off the papers' list by hand.

use crate::card::{least_length, radii_looked_at, LEAST_LENGTHS};

/// R in metres, least L in metres, and how many listed radii are looked at.
const BY_HAND: [(u32, u32, u32); 34] = [
    (30, 30, 1),
    (31, 30, 2),
    (40, 30, 2),
    (41, 35, 3),
    (50, 35, 3),
    (51, 40, 4),
    (60, 40, 4),
    (65, 40, 5),
    (71, 45, 6),
    (85, 45, 7),
    (91, 50, 8),
    (100, 50, 8),
    (101, 55, 9),
    (125, 55, 9),
    (126, 60, 10),
    (151, 70, 11),
    (200, 70, 11),
    (225, 80, 12),
    (250, 80, 12),
    (300, 90, 13),
    (301, 100, 14),
    (400, 100, 14),
    (401, 110, 15),
    (500, 110, 15),
    (501, 120, 16),
    (650, 120, 17),
    (800, 120, 18),
    (801, 120, 19),
    (999, 120, 19),
    (1000, 120, 19),
    (1001, 120, 20),
    (1500, 120, 20),
    (1999, 120, 20),
    (2000, 100, 20),
];

#[test]
fn lengths_and_counts_by_hand() {
    for (radius, metres, looked) in BY_HAND {
        assert_eq!(least_length(radius), Some(1000 * metres), "R {radius}");
        assert_eq!(radii_looked_at(radius), Some(looked), "R {radius}");
    }
}

/// No listed radius lies below 30: the search leaves at the first one. The list has no length there.
#[test]
fn below_the_list() {
    for radius in [0, 1, 29] {
        assert_eq!(least_length(radius), None, "R {radius}");
        assert_eq!(radii_looked_at(radius), Some(1), "R {radius}");
    }
}

/// "for R up to 2000": above, nothing is promised.
#[test]
fn above_the_list() {
    for radius in [2001, 65_536 + 30, u32::MAX] {
        assert_eq!(least_length(radius), None, "R {radius}");
        assert_eq!(radii_looked_at(radius), None, "R {radius}");
    }
}

/// "leave its loop at the first listed radius that is not below the card's".
fn looked_at_in_a_loop(radius: u32) -> u32 {
    let mut looked = 0;
    for (listed, _) in LEAST_LENGTHS {
        looked += 1;
        if listed >= radius {
            break;
        }
    }
    looked
}

#[test]
fn one_more_than_lie_below_is_what_the_loop_looks_at() {
    for radius in 0..=2000 {
        let looked = looked_at_in_a_loop(radius);
        assert_eq!(radii_looked_at(radius), Some(looked), "R {radius}");
    }
}
