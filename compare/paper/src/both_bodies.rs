//! Document 02, Slip 5: "In the book an absolute body has ten numbers", and an eight-number body is relative.

use crate::card::{absolute, marked};
use crate::readings::RAMP;
use crate::written_back::{
    curves, eight_signs, four, greatest, read, with_number, write, RAMP_LIST,
};
use crate::{read_book, Numbers};

/// RAMP's book with the height and the grade behind its eight numbers.
const HIGH_BOOK: &[u8] = b"1\nRAMP 3\n5 1 30 30000 60 600 20000 1 250000 -35\n";
const HIGH_LIST: [i32; 13] = [2, 4, 5, 1, 30, 30_000, 60, 600, 20_000, 1, 1, 250_000, -35];
/// Bodies of both kinds, one of them with height 0 and grade 0.
const BOTH: &[u8] = b"4\nA 6\nB 7\nC 8\nD 9\n\
    5 1 30 30000 60 600 20000 1 -100000 80\n\
    5 1 30 30000 60 600 20000 1\n\
    5 1 30 30000 60 600 20000 1 0 0\n\
    0 0 0 0 0 0 0 0 9999999 -9999999\n";

/// Places of the last three numbers in a list of one curve.
const MARK: usize = 10;
const HEIGHT: usize = 11;
const GRADE: usize = 12;

/// The number and the line for a book of one curve with that body.
fn body(words: &str) -> (u32, u32) {
    let book = format!("1\nA 3\n{words}\n");
    let reply = read_book(book.as_bytes(), &mut [0; 832]);
    (reply.number, reply.line)
}

/// The same for a body of these numbers behind the first eight.
fn behind_eight(words: &str) -> (u32, u32) {
    body(&format!("1 2 3 4 5 6 7 8 {words}"))
}

/// "the ten as before, then 0 or 1 for absolute, the height and the grade, both 0 where relative".
#[test]
fn thirteen_numbers_a_curve() {
    assert_eq!(read(HIGH_BOOK), HIGH_LIST);
    let list = read(BOTH);
    let (rows, rest) = list.as_chunks::<13>();
    assert!(rest.is_empty());
    let last_three: Vec<_> = rows.iter().map(|row| &row[10..]).collect();
    let due = [
        [1, -100_000, 80],
        [0, 0, 0],
        [1, 0, 0],
        [1, 9_999_999, -9_999_999],
    ];
    assert_eq!(last_three, due);
    assert_eq!(rows[1][..10], [6, 1, 5, 1, 30, 30_000, 60, 600, 20_000, 1]);
}

/// "Number 28 now means below 832 numbers."
#[test]
fn short_lists() {
    let number = |length| read_book(HIGH_BOOK, &mut vec![0; length]).number;
    assert_eq!((number(0), number(640), number(831)), (28, 28, 28));
    assert_eq!((number(832), number(833)), (0, 0));
}

#[test]
fn eight_or_ten_numbers() {
    assert_eq!(body("1 2 3 4 5 6 7"), (26, 3));
    assert_eq!(body("1 2 3 4 5 6 7 8"), (0, 0));
    assert_eq!(behind_eight("9"), (26, 3));
    assert_eq!(behind_eight("-9"), (26, 3));
    assert_eq!(behind_eight("9 10"), (0, 0));
    assert_eq!(behind_eight("9 10 11"), (26, 3));
    assert_eq!(behind_eight("9 10 11 12"), (26, 3));
    for words in ["", " ", "9 ", " 9", "9  10", "9 10 ", " 9 10", "9\t10"] {
        assert_eq!(behind_eight(words), (26, 3), "{words:?}");
    }
}

/// "the last two with an optional minus before a number other than 0".
#[test]
fn an_optional_minus() {
    for right in [
        "0", "7", "-7", "-1", "9999999", "-9999999", "-1000000", "10",
    ] {
        assert_eq!(behind_eight(&format!("{right} 1")), (0, 0), "{right}");
        assert_eq!(behind_eight(&format!("1 {right}")), (0, 0), "{right}");
        assert_eq!(behind_eight(&format!("{right} {right}")), (0, 0));
    }
    for wrong in [
        "-0",
        "-",
        "+7",
        "-07",
        "07",
        "00",
        "-00",
        "--7",
        "7-",
        "-7-",
        "- 7",
        "+0",
        "\u{2212}7",
        "-10000000",
        "10000000",
        "-00000001",
        "-7a",
        "-A",
        "-.",
        "0-",
        "-1.5",
    ] {
        assert_eq!(behind_eight(&format!("{wrong} 1")), (26, 3), "{wrong}");
        assert_eq!(behind_eight(&format!("1 {wrong}")), (26, 3), "{wrong}");
    }
}

/// A minus among the first eight, in bodies of both kinds, in the count and in the contents.
#[test]
fn a_minus_elsewhere() {
    for place in 0..8 {
        for word in ["-1", "-0", "-9999999"] {
            let mut words = ["7"; 10];
            words[place] = word;
            assert_eq!(body(&words[..8].join(" ")), (26, 3));
            assert_eq!(body(&words.join(" ")), (26, 3));
        }
    }
    let reply = |book: &[u8]| {
        let reply = read_book(book, &mut [0; 832]);
        (reply.number, reply.line)
    };
    assert_eq!(reply(b"-1\nA 3\n1 2 3 4 5 6 7 8\n"), (22, 1));
    assert_eq!(reply(b"1\nA -3\n1 2 3 4 5 6 7 8\n"), (23, 2));
    assert_eq!(reply(b"1\n-A 3\n1 2 3 4 5 6 7 8\n"), (23, 2));
}

/// "34 and 35 are the card's affair: books with such cards read and write."
#[test]
fn cards_that_would_be_refused() {
    let book = b"2\nA 4\nB 5\n3 1 700 120000 40 400 20000 10 5 81\n1 1 1 1 1 1 1 1 9000001 -81\n";
    let list = read(book);
    assert_eq!(list[10..13], [1, 5, 81]);
    assert_eq!(list[23..], [1, 9_000_001, -81]);
    assert!(write(&list, book, 200).is(book));
}

/// Both ways: "Reading a written book gives those names and numbers, and writing back what was read ... gives its bytes."
#[test]
fn both_round_trips() {
    let full = write(&greatest(64), &eight_signs(), 6049).buffer;
    assert_eq!(full.len(), 6049);
    for book in [HIGH_BOOK, BOTH, &full] {
        assert!(write(&read(book), book, book.len()).is(book));
        assert!(write(&read(book), book, book.len() - 1).gives_only(33));
    }
    let again = read(&full);
    assert_eq!(curves(&again, &full), curves(&greatest(64), &eight_signs()));
}

/// RAMP's list with another mark, height and grade.
fn with_datum(mark: i32, height: i32, grade: i32) -> Vec<i32> {
    let card: Numbers = marked(RAMP, mark, height, grade);
    [&RAMP_LIST[..2], &card].concat()
}

fn written(mark: i32, height: i32, grade: i32) -> u32 {
    let list = with_datum(mark, height, grade);
    let written = write(&list, HIGH_BOOK, 70);
    assert!(written.number == 0 || written.gives_only(33));
    written.number
}

/// Eight numbers where relative, ten where absolute, 0 and 0 too.
#[test]
fn bodies_of_both_kinds() {
    let book =
        |words: &str| format!("1\nRAMP 3\n5 1 30 30000 60 600 20000 1{words}\n").into_bytes();
    for (list, words) in [
        (with_datum(0, 0, 0), ""),
        (with_datum(1, 0, 0), " 0 0"),
        (with_datum(1, 250_000, -35), " 250000 -35"),
        (with_datum(1, -9_999_999, 9_999_999), " -9999999 9999999"),
        (with_datum(1, -1, 10), " -1 10"),
    ] {
        assert!(write(&list, HIGH_BOOK, 70).is(&book(words)), "{words}");
    }
    assert_eq!(
        with_datum(1, 250_000, -35)[2..],
        absolute(RAMP, 250_000, -35)
    );
}

/// "33 also meets a mark not 0 or 1".
#[test]
fn marks() {
    assert_eq!((written(0, 0, 0), written(1, 0, 0)), (0, 0));
    for mark in [2, 3, -1, 10, 256, 257, 65_536, 65_537, i32::MAX, i32::MIN] {
        assert_eq!(written(mark, 0, 0), 33, "mark {mark}");
        assert_eq!(written(mark, 250_000, -35), 33, "mark {mark}");
    }
}

/// "one of the eight below 0".
#[test]
fn one_of_the_eight_below_0() {
    for place in 2..10 {
        for number in [-1, -7, -9_999_999, -10_000_000, i32::MIN] {
            assert!(with_number(place, number).gives_only(33), "{number}");
        }
    }
}

/// "and a height or grade beside mark 0".
#[test]
fn a_height_or_grade_beside_mark_0() {
    for number in [1, -1, 35, 9_000_000, 10_000_000, i32::MIN, i32::MAX] {
        assert_eq!(written(0, number, 0), 33, "{number}");
        assert_eq!(written(0, 0, number), 33, "{number}");
        assert_eq!(written(0, number, number), 33, "{number}");
    }
}

/// "−9999999 can be written, −10000000 is 33": the minus is no digit.
#[test]
fn heights_and_grades_of_seven_digits_and_of_more() {
    for number in [-9_999_999, -1_000_000, -999_999, -1, 0, 9_999_999] {
        assert_eq!(written(1, number, 0), 0, "{number}");
        assert_eq!(written(1, 0, number), 0, "{number}");
    }
    for number in [-10_000_000, -10_000_001, 10_000_000, i32::MIN, i32::MAX] {
        assert_eq!(written(1, number, 0), 33, "{number}");
        assert_eq!(written(1, 0, number), 33, "{number}");
    }
}

/// Four curves with these changes to their last three numbers, the buffer long enough or not there.
fn changed(names: [&str; 4], changes: &[(usize, usize, i32)]) -> [u32; 2] {
    [300, 0].map(|length| {
        let written = four(names, changes, length);
        assert!(written.number == 0 || written.gives_only(written.number));
        written.number
    })
}

/// The whole list for 31, then for 32, then for 33, whatever brings the 33.
#[test]
fn order_of_31_32_and_33() {
    let names = ["A", "B", "C", "D"];
    for fault in [
        (0, MARK, 2),
        (0, HEIGHT, 7),
        (0, GRADE, -7),
        (0, 2, -1),
        (0, 9, -1),
    ] {
        assert_eq!(changed(names, &[fault]), [33, 33], "{fault:?}");
        assert_eq!(changed(["A", "B", "C", "C"], &[fault]), [32, 32]);
        assert_eq!(changed(["A", "B", "C", "d"], &[fault]), [31, 31]);
        assert_eq!(changed(names, &[fault, (3, 0, -1)]), [31, 31]);
        assert_eq!(changed(names, &[fault, (3, 1, -1)]), [31, 31]);
        assert_eq!(changed(names, &[fault, (3, 0, 0)]), [32, 32]);
    }
    assert_eq!(changed(names, &[(2, MARK, 1), (2, HEIGHT, -7)]), [0, 33]);
}
