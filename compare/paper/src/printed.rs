//! Printed rows of 002 whose cards gave 7 before document 02, Slip 1: in centimetres, as the album has them.
//!
//! A figure that the rule gives otherwise is said at its row.

use crate::readings::row_at;

fn rows_are(card: [i32; 8], printed: &[[i32; 7]]) {
    for row in printed {
        assert_eq!(row_at(card, row[0]), *row, "card {card:?}");
    }
}

/// Sheet 27, table 19, worked in the album: category IV, c 2000, m 1000. At 40 m its bank is 0.07 m wider,
/// at 45 m 0.20 m. The rows at 5 m and 10 m, from parts rounded before, are left out.
#[test]
fn worked_example_of_category_4() {
    let rows = [
        [0, 0, 0, 10, 16, 10, 6],
        [15_000, 40, 1, 9, 16, 18, 19],
        [20_000, 53, 2, 9, 16, 21, 24],
        [22_500, 60, 2, 9, 16, 22, 26],
        [25_000, 67, 0, 7, 16, 23, 28],
        [30_000, 80, -3, 3, 16, 26, 33],
        [35_000, 93, -6, -1, 16, 29, 37],
        // The album's outer brow is 41, from rounded parts; it is 41.56.
        [40_000, 107, -10, -5, 16, 31, 42],
        [45_000, 120, -15, -9, 16, 34, 46],
    ];
    rows_are([3, 1, 80, 45_000, 60, 1200, 2500, 10], &rows);
}

/// Sheet 49, category III: c 2500, m 1500.
#[test]
fn category_3() {
    let rows = [
        [0, 0, 0, 10, 17, 10, 5],
        [10_000, 22, 0, 10, 17, 16, 15],
        [20_000, 44, 1, 9, 17, 21, 24],
        [30_000, 66, -2, 5, 17, 27, 34],
        [40_000, 88, -9, -2, 17, 32, 43],
        // The album's inner brow is −19, with 1.0 m for m; with document 01's 1.5 m it is −19.6.
        [50_000, 110, -20, -11, 17, 38, 53],
    ];
    rows_are([2, 1, 100, 50_000, 60, 1100, 10_000, 10], &rows);
}

/// Sheet 75, crown of 30‰, two lanes: c 2000, m 1000.
#[test]
fn crown_of_30() {
    let rows = [
        [0, 0, 0, 12, 21, 12, 6],
        [5000, 17, 1, 11, 21, 15, 12],
        [10_000, 35, 1, 11, 21, 19, 17],
        [15_000, 52, 2, 10, 21, 22, 23],
        [20_000, 70, 2, 10, 21, 25, 28],
        [25_000, 87, 3, 9, 21, 29, 34],
        [30_000, 105, 0, 6, 21, 32, 40],
        [35_000, 122, -6, 0, 21, 36, 45],
        [40_000, 140, -11, -5, 21, 39, 51],
    ];
    rows_are([4, 1, 60, 40_000, 60, 1400, 5000, 10], &rows);
}

/// Sheet 84, category V with one lane: c 1750, m 1000.
#[test]
fn one_lane_of_category_5() {
    let rows = [
        [0, 0, 0, 10, 17, 10, 5],
        [5000, 18, 1, 10, 17, 14, 11],
        [10_000, 37, 1, 9, 17, 17, 17],
        [15_000, 55, 2, 9, 17, 21, 23],
        [20_000, 73, 2, 8, 17, 24, 29],
        [25_000, 92, -3, 3, 17, 27, 35],
        [30_000, 110, -9, -3, 17, 31, 41],
    ];
    rows_are([5, 1, 30, 30_000, 60, 1100, 5000, 10], &rows);
}
