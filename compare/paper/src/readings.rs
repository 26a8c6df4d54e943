//! The papers' own figures: the RAMP rows and every one of the "Readings at the edges".

use crate::card::{least_length, relative};
use crate::fraction::{fraction, whole, Fraction};
use crate::section::{Course, Runoff};
use crate::{check_card, fill_table, read_book, rows, BookReply, Card, Numbers, TableReply};

pub const RAMP_BOOK: &[u8] = b"1\nRAMP 3\n5 1 30 30000 60 600 20000 1\n";
pub const RAMP: [i32; 8] = [5, 1, 30, 30000, 60, 600, 20000, 1];
/// The three rows that document 02 prints for RAMP (Slip 6).
#[rustfmt::skip]
pub const RAMP_ROWS: [i32; 21] = [
    0, 0, 0, 105, 173, 105, 53,
    20000, 400, 12, 93, 173, 240, 293,
    30000, 600, -67, 2, 173, 308, 413,
];
/// Profile 3, R 700, L 120000, v 40, W 400, unit 10.
pub const FLAT: [i32; 8] = [3, 1, 700, 120_000, 40, 400, 20000, 10];

/// The runoff of a relative card.
pub fn runoff(eight: [i32; 8]) -> Runoff {
    Runoff::new(&Card::new(&relative(eight)))
}

/// The card's own reason, or 0, of a relative card.
pub fn check(eight: [i32; 8]) -> u32 {
    check_card(&relative(eight))
}

/// The row of a card at one of its stations.
pub fn row_of(card: Numbers, station: i32) -> [i32; 7] {
    let mut rows = rows(&card).into_iter();
    rows.find(|row| row[0] == station)
        .expect("a row at that station")
}

/// The same of a relative card.
pub fn row_at(eight: [i32; 8], station: i32) -> [i32; 7] {
    row_of(relative(eight), station)
}

pub fn reply(eight: [i32; 8], table_length: usize) -> (u32, u32) {
    let TableReply { number, count } = fill_table(&relative(eight), &mut vec![0; table_length]);
    (number, count)
}

fn book(text: &[u8]) -> (u32, u32, u32) {
    let BookReply {
        number,
        count,
        line,
    } = read_book(text, &mut [0; 832]);
    (number, count, line)
}

#[test]
fn ramp_rows() {
    let mut table = [77; 22];
    let reply = fill_table(&relative(RAMP), &mut table);
    let due = TableReply {
        number: 0,
        count: 3,
    };
    assert_eq!(reply, due);
    assert_eq!(table[..21], RAMP_ROWS);
    assert_eq!(table[21], 77);
}

#[test]
fn ramp_book() {
    let mut list = [77; 833];
    let reply = read_book(RAMP_BOOK, &mut list);
    let due = BookReply {
        number: 0,
        count: 1,
        line: 0,
    };
    assert_eq!(reply, due);
    assert_eq!(list[..10], [2, 4, 5, 1, 30, 30000, 60, 600, 20000, 1]);
    assert_eq!(list[10..13], [0, 0, 0]);
    assert_eq!(list[13..], [77; 820]);
}

#[test]
fn added_slope_of_profile_1() {
    assert_eq!(check([1, 1, 125, 55000, 60, 0, 5000, 1]), 8);
    assert_eq!(check([1, 1, 125, 60000, 60, 0, 5000, 1]), 0);
}

#[test]
fn even_against_two_stage() {
    assert_eq!(
        runoff([2, 1, 400, 93333, 60, 0, 5000, 1]).course,
        Course::Even
    );
    let joint = fraction(2 * 3500 * 20, 3);
    let two_stage = Course::TwoStage { joint };
    assert_eq!(runoff([2, 1, 400, 93334, 60, 0, 5000, 1]).course, two_stage);
}

#[test]
fn outer_edge_of_profile_3() {
    for (station, due) in [(0, 10), (40000, 22), (60000, 23), (100_000, 26)] {
        assert_eq!(row_at(FLAT, station)[5], due, "station {station}");
    }
    assert_eq!(row_at(FLAT, 120_000)[5], 28);
}

#[test]
fn inner_side_of_profile_3() {
    let last = row_at(FLAT, 120_000);
    assert_eq!(last[3], 2);
    assert_eq!(last[2], -6);
}

#[test]
fn full_slope_equal_to_crown_slope() {
    let card = [1, 1, 2000, 100_000, 20, 0, 10000, 1];
    assert_eq!(row_at(card, 0)[5], 150);
    assert_eq!(row_at(card, 50000)[5], 300);
    assert_eq!(row_at(card, 100_000)[5], 300);
}

#[test]
fn least_clothoid_between_listed_radii() {
    assert_eq!(least_length(225), Some(80000));
    assert_eq!(least_length(1500), Some(120_000));
    assert_eq!(least_length(2000), Some(100_000));
    for (radius, least) in [(225, 80000), (1500, 120_000), (2000, 100_000)] {
        assert_eq!(check([2, 1, radius, least - 1, 30, 0, 5000, 1]), 4);
        assert_eq!(check([2, 1, radius, least, 30, 0, 5000, 1]), 0);
    }
}

#[test]
fn full_slope_of_profile_4() {
    let of = |v| check([4, 1, 100, 60000, v, 0, 5000, 1]);
    assert_eq!((of(29), of(30), of(60), of(61)), (5, 0, 0, 5));
}

/// Document 02, Slip 1: "Number 7 never occurs again, and the reading with W 1001 now passes."
#[test]
fn widening_of_profile_2() {
    let of = |w| check([2, 1, 200, 80000, 30, w, 5000, 1]);
    assert_eq!((of(1000), of(1001), of(3500), of(3501)), (0, 0, 0, 6));
}

#[test]
fn widening_by_radius() {
    let of = |r| check([2, 1, r, 120_000, 30, 1, 5000, 1]);
    assert_eq!((of(1000), of(1001)), (0, 6));
}

#[test]
fn count_of_rows_and_short_table() {
    assert_eq!(reply([2, 1, 200, 100_000, 30, 0, 20000, 1], 42), (0, 6));
    assert_eq!(reply([2, 1, 200, 110_000, 30, 0, 20000, 1], 49), (0, 7));
    assert_eq!(reply([2, 1, 200, 110_000, 30, 0, 20000, 1], 48), (11, 0));
    assert_eq!(reply([2, 1, 200, 300_000, 30, 0, 1000, 1], 2107), (0, 301));
}

#[test]
fn first_reason_met() {
    assert_eq!(check([0, 1, 200, 100_000, 30, 0, 0, 1]), 1);
    assert_eq!(reply([0, 1, 200, 100_000, 30, 0, 0, 1], 0), (1, 0));
}

/// The joint is not rounded: both stages meet there, at p, and the edge has climbed at 3‰.
#[test]
fn joint_is_exact() {
    let runoff = runoff([2, 1, 400, 100_000, 60, 0, 5000, 1]);
    let joint = fraction(2 * 3500 * 20, 3);
    assert_eq!(runoff.outer_slope(joint), whole(20));
    let climb = runoff.outer_edge(joint) - runoff.outer_edge(whole(0));
    assert_eq!(climb, whole(3) * joint);
    let past: Fraction = joint + fraction(1, 1000);
    assert!(runoff.outer_slope(past) > whole(20));
    assert_eq!(runoff.outer_slope(whole(100_000)), whole(60));
}

#[test]
fn books_turned_away() {
    assert_eq!(book(b""), (21, 0, 0));
    assert_eq!(book(&[b'1'; 8193]), (21, 0, 0));
    assert_eq!(book(&[b'1'; 8192]), (22, 0, 1));
    assert_eq!(book(b"0\n"), (22, 0, 1));
    assert_eq!(book(b"65\n"), (22, 0, 1));
    assert_eq!(book(b"007\n"), (22, 0, 1));
    assert_eq!(book(b"1\n"), (23, 0, 2));
    assert_eq!(book(b"1\nRAMP 03\n"), (23, 0, 2));
    assert_eq!(book(b"1\nRAMP 3"), (23, 0, 2));
    assert_eq!(book(b"1\nRAMP 2\n"), (24, 0, 2));
    assert_eq!(book(b"2\nA 4\nA 5\n"), (25, 0, 3));
    assert_eq!(book(b"2\nA 4\nA 6\n"), (24, 0, 3));
    assert_eq!(book(b"2\nA 4\nAA 5\n"), (26, 0, 4));
    assert_eq!(book(b"1\nA 3\n1 2 3 4 5 6 7 8 9\n"), (26, 0, 3));
    assert_eq!(book(b"1\nA 3\n1 2 3 4 5 6 7 10000000\n"), (26, 0, 3));
    assert_eq!(book(b"1\nA 3\n1 2 3 4 5 6 7 8\n\n"), (27, 0, 4));
    assert_eq!(book(b"1\nA 3\n1 2 3 4 5 6 7 9999999\n"), (0, 1, 0));
}

#[test]
fn short_list_comes_first() {
    let due = BookReply {
        number: 28,
        count: 0,
        line: 0,
    };
    assert_eq!(read_book(b"", &mut [0; 831]), due);
    assert_eq!(read_book(RAMP_BOOK, &mut []), due);
}
