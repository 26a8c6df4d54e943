//! Wrong programs for writing a book, as to marks, heights and grades: the comparison must find each of them.

use crate::found::all_are_found;
use crate::list_case::{Call, Loan};
use crate::lists::{Curve, CARD, GRADE, HEIGHT, MARK};
use crate::wrong_lists::{
    accept, beside_mark_fits, curves, datum_fits, eight_fit, first_difference, fits, last_two_fit,
    mark_fits, numbered, refuse, right, right_for, styled, tested, with_curves, Style, Test,
    LENGTH, NAMES, NUMBERS, RIGHT, ROOM, TWINS,
};
use paper::check_card;

/// 33 for a mark that is neither 0 nor 1, and for nothing else.
const MARKS: Test = |loan| {
    let all = curves(loan).iter().all(mark_fits);
    (!all).then_some(33)
};

/// The eight numbers fit, and the others by this rule.
fn with_eight(curve: &Curve, holds: bool) -> bool {
    eight_fit(curve, 9_999_999) && holds
}

/// Wrong as to the mark.
const WRONG_MARKS: [(&str, Call); 10] = [
    ("mark 2 passes", |loan| {
        numbered(loan, |curve| {
            let mark = matches!(curve[MARK], 0..=2);
            with_eight(
                curve,
                mark && beside_mark_fits(curve) && last_two_fit(curve),
            )
        })
    }),
    ("every mark passes", |loan| {
        numbered(loan, |curve| {
            with_eight(curve, beside_mark_fits(curve) && last_two_fit(curve))
        })
    }),
    ("a mark below 0 passes", |loan| {
        numbered(loan, |curve| {
            let mark = curve[MARK] <= 1;
            with_eight(
                curve,
                mark && beside_mark_fits(curve) && last_two_fit(curve),
            )
        })
    }),
    ("any mark but 1 is relative", |loan| {
        with_curves(loan, |curve| curve[MARK] = i32::from(curve[MARK] == 1))
    }),
    ("8 bits of the mark", |loan| {
        with_curves(loan, |curve| curve[MARK] &= 255)
    }),
    ("16 bits of the mark", |loan| {
        with_curves(loan, |curve| curve[MARK] &= 65_535)
    }),
    ("one bit of the mark", |loan| {
        with_curves(loan, |curve| curve[MARK] &= 1)
    }),
    ("31 for a mark", |loan| match right(loan) {
        33 if MARKS(loan).is_some() => 31,
        number => number,
    }),
    ("a mark before 32", |loan| {
        tested(loan, &[LENGTH, NAMES, MARKS, TWINS, NUMBERS, ROOM])
    }),
    ("a mark before 31", |loan| {
        tested(loan, &[LENGTH, MARKS, NAMES, TWINS, NUMBERS, ROOM])
    }),
];

/// Does this to each of the eight numbers of every curve.
fn with_eight_numbers(loan: &mut Loan, change: fn(i32) -> i32) -> u32 {
    let mut list = loan.list.to_vec();
    let curves: &mut [Curve] = list.as_chunks_mut().0;
    for curve in curves {
        curve[CARD..MARK].iter_mut().for_each(|n| *n = change(*n));
    }
    right_for(&list, loan)
}

/// Wrong as to one of the eight below 0.
const WRONG_BELOW_0: [(&str, Call); 6] = [
    ("one of the eight below 0 passes", |loan| {
        numbered(loan, |curve| {
            let eight = curve[CARD..MARK].iter().all(|n| *n <= 9_999_999);
            eight && datum_fits(curve)
        })
    }),
    ("seven digits and a minus pass", |loan| {
        numbered(loan, |curve| {
            let mut eight = curve[CARD..MARK].iter();
            eight.all(|n| n.unsigned_abs() <= 9_999_999) && datum_fits(curve)
        })
    }),
    ("-1 passes", |loan| {
        numbered(loan, |curve| {
            let mut eight = curve[CARD..MARK].iter();
            eight.all(|n| (-1..=9_999_999).contains(n)) && datum_fits(curve)
        })
    }),
    ("one below 0 taken for 0", |loan| {
        with_eight_numbers(loan, |number| number.max(0))
    }),
    ("one below 0 without its minus", |loan| {
        with_eight_numbers(loan, i32::saturating_abs)
    }),
    ("31 bits of the eight", |loan| {
        with_eight_numbers(loan, |number| number & i32::MAX)
    }),
];

/// Wrong as to a height or a grade that no book can have.
const WRONG_HEIGHTS: [(&str, Call); 13] = [
    ("a height beside mark 0 passes", |loan| {
        numbered(loan, |curve| {
            let grade = curve[MARK] != 0 || curve[GRADE] == 0;
            with_eight(curve, mark_fits(curve) && grade && last_two_fit(curve))
        })
    }),
    ("a grade beside mark 0 passes", |loan| {
        numbered(loan, |curve| {
            let height = curve[MARK] != 0 || curve[HEIGHT] == 0;
            with_eight(curve, mark_fits(curve) && height && last_two_fit(curve))
        })
    }),
    ("both beside mark 0 left out", |loan| {
        with_curves(loan, |curve| {
            if curve[MARK] == 0 {
                curve[HEIGHT..].fill(0);
            }
        })
    }),
    ("both beside mark 0 written", |loan| {
        with_curves(loan, |curve| {
            if curve[HEIGHT..] != [0, 0] {
                curve[MARK] |= 1;
            }
        })
    }),
    ("long heights pass", |loan| {
        numbered(loan, |curve| {
            let grade = curve[GRADE].unsigned_abs() <= 9_999_999;
            with_eight(curve, mark_fits(curve) && beside_mark_fits(curve) && grade)
        })
    }),
    ("long grades pass", |loan| {
        numbered(loan, |curve| {
            let height = curve[HEIGHT].unsigned_abs() <= 9_999_999;
            with_eight(curve, mark_fits(curve) && beside_mark_fits(curve) && height)
        })
    }),
    ("a minus counted as a digit", |loan| {
        numbered(loan, |curve| {
            let mut last_two = curve[HEIGHT..].iter();
            fits(curve) && last_two.all(|n| *n >= -999_999)
        })
    }),
    ("-9999999 refused", |loan| {
        numbered(loan, |curve| {
            fits(curve) && !curve[HEIGHT..].contains(&-9_999_999)
        })
    }),
    ("-10000000 passes", |loan| {
        numbered(loan, |curve| {
            let mut last_two = curve[HEIGHT..].iter();
            let last_two = last_two.all(|n| (-10_000_000..=9_999_999).contains(n));
            with_eight(
                curve,
                mark_fits(curve) && beside_mark_fits(curve) && last_two,
            )
        })
    }),
    ("no bound below 0", |loan| {
        numbered(loan, |curve| {
            let last_two = curve[HEIGHT..].iter().all(|n| *n <= 9_999_999);
            with_eight(
                curve,
                mark_fits(curve) && beside_mark_fits(curve) && last_two,
            )
        })
    }),
    ("the size of -2147483648 in 32 bits", |loan| {
        numbered(loan, |curve| {
            let mut last_two = curve[HEIGHT..].iter();
            let last_two = last_two.all(|n| n.wrapping_abs() <= 9_999_999);
            with_eight(
                curve,
                mark_fits(curve) && beside_mark_fits(curve) && last_two,
            )
        })
    }),
    ("no height below 0", |loan| {
        numbered(loan, |curve| fits(curve) && curve[HEIGHT] >= 0)
    }),
    ("a card with 34 or 35 refused", |loan| {
        numbered(loan, |curve| {
            let card = curve[CARD..].try_into().expect("eleven numbers");
            fits(curve) && !matches!(check_card(&card), 34 | 35)
        })
    }),
];

/// Wrong as to what a body holds.
const WRONG_BODIES: [(&str, Call); 11] = [
    ("a relative curve with ten numbers", |loan| {
        let body = |curve: &Curve| [&curve[CARD..MARK], &curve[HEIGHT..]].concat();
        styled(loan, &Style { body, ..RIGHT })
    }),
    ("an absolute curve with eight numbers", |loan| {
        let body = |curve: &Curve| curve[CARD..MARK].to_vec();
        styled(loan, &Style { body, ..RIGHT })
    }),
    ("an absolute curve with its mark", |loan| {
        let body = |curve: &Curve| match curve[MARK] {
            0 => curve[CARD..MARK].to_vec(),
            _ => curve[CARD..].to_vec(),
        };
        styled(loan, &Style { body, ..RIGHT })
    }),
    ("every curve with eleven numbers", |loan| {
        let body = |curve: &Curve| curve[CARD..].to_vec();
        styled(loan, &Style { body, ..RIGHT })
    }),
    ("absolute with 0 and 0 as relative", |loan| {
        let body = |curve: &Curve| match curve[HEIGHT..] {
            [0, 0] => curve[CARD..MARK].to_vec(),
            _ => [&curve[CARD..MARK], &curve[HEIGHT..]].concat(),
        };
        styled(loan, &Style { body, ..RIGHT })
    }),
    ("a grade of 0 left out", |loan| {
        let body = |curve: &Curve| {
            let mut body = (RIGHT.body)(curve);
            if body.len() == 10 && body[9] == 0 {
                body.pop();
            }
            body
        };
        styled(loan, &Style { body, ..RIGHT })
    }),
    ("the grade before the height", |loan| {
        let body = |curve: &Curve| {
            let mut body = (RIGHT.body)(curve);
            body[8..].reverse();
            body
        };
        styled(loan, &Style { body, ..RIGHT })
    }),
    ("no minus", |loan| {
        let number = |number: i32| number.unsigned_abs().to_string();
        styled(loan, &Style { number, ..RIGHT })
    }),
    ("a minus behind the digits", |loan| {
        let number = |number: i32| match number {
            ..0 => format!("{}-", number.unsigned_abs()),
            _ => number.to_string(),
        };
        styled(loan, &Style { number, ..RIGHT })
    }),
    ("one below 0 as 32 bits have it", |loan| {
        let number = |number: i32| number.cast_unsigned().to_string();
        styled(loan, &Style { number, ..RIGHT })
    }),
    ("the first curve's height for all", |loan| {
        let number = right(loan);
        if number > 0 {
            return number;
        }
        let mut list = curves(loan).to_vec();
        let first: [i32; 3] = list[0][MARK..].try_into().expect("three numbers");
        list.iter_mut()
            .for_each(|curve| curve[MARK..].copy_from_slice(&first));
        let loan_of_first = Loan {
            list: list.as_flattened(),
            names: loan.names,
            buffer: &mut [],
            count: &mut 0,
        };
        let book = RIGHT.book(&loan_of_first);
        match loan.buffer.len() < book.len() {
            true => refuse(33, loan),
            false => accept(&book, loan),
        }
    }),
];

#[test]
fn wrong_marks_are_found() {
    all_are_found(first_difference, &WRONG_MARKS);
}

#[test]
fn numbers_below_0_are_found() {
    all_are_found(first_difference, &WRONG_BELOW_0);
}

#[test]
fn wrong_heights_are_found() {
    all_are_found(first_difference, &WRONG_HEIGHTS);
}

#[test]
fn wrong_bodies_are_found() {
    all_are_found(first_difference, &WRONG_BODIES);
}
