//! Wrong programs for a card's table, as to numbers that stand halfway: the comparison must find each of them.

use crate::card_case::{Call, Loan};
use crate::found::all_are_found;
use crate::wrong_cards::{first_difference, right, ROW};
use paper::card::Datum;
use paper::fraction::Tie::{self, Higher, Lower};
use paper::fraction::{fraction, whole, Fraction};
use paper::rows::tie;
use paper::section::{Course, Runoff};
use paper::{stations, Card};
use std::iter::once;

/// Units, in mm.
const MM: u32 = 1;
const CM: u32 = 10;

/// Places of the rounded numbers in a row.
const WIDENING: usize = 1;
const INNER_BROW: usize = 2;
const INNER_EDGE: usize = 3;
const AXIS: usize = 4;
const OUTER_EDGE: usize = 5;
const OUTER_BROW: usize = 6;

/// One number of a row before it is rounded: all that a program may round it by.
struct Exact {
    card: Card,
    /// In mm.
    station: u32,
    column: usize,
    units: Fraction,
}

impl Exact {
    fn is_in(&self, unit: u32) -> bool {
        self.card.unit == unit
    }

    fn is_absolute(&self) -> bool {
        self.card.datum != Datum::Relative
    }

    fn is_even(&self) -> bool {
        Runoff::new(&self.card).course == Course::Even
    }

    /// Where halfway goes in this unit by document 02.
    fn due(&self) -> Tie {
        tie(self.card.unit)
    }

    /// Where it does not go.
    fn not_due(&self) -> Tie {
        match self.due() {
            Lower => Higher,
            Higher => Lower,
        }
    }

    fn toward_nought(&self) -> Tie {
        match self.units < whole(0) {
            true => Higher,
            false => Lower,
        }
    }

    fn away_from_nought(&self) -> Tie {
        match self.units < whole(0) {
            true => Lower,
            false => Higher,
        }
    }

    fn to_the_even_number(&self) -> Tie {
        match self.units.nearest(Lower) % 2 {
            0 => Lower,
            _ => Higher,
        }
    }

    fn to_the_odd_number(&self) -> Tie {
        match self.units.nearest(Lower) % 2 {
            0 => Higher,
            _ => Lower,
        }
    }

    fn rounded(&self) -> i32 {
        self.units.nearest(self.due())
    }

    /// The next whole number that is not above.
    fn down(&self) -> i32 {
        (self.units - fraction(1, 2)).nearest(Higher)
    }

    /// The next whole number that is not below.
    fn up(&self) -> i32 {
        (self.units + fraction(1, 2)).nearest(Lower)
    }
}

/// The right program, but for how the six numbers of a row are rounded.
fn rounded_by(loan: &mut Loan, round: impl Fn(&Exact) -> i32) -> [u32; 2] {
    let numbers = right(loan);
    if numbers[1] != 0 {
        return numbers;
    }
    let card = Card::new(loan.card);
    let runoff = Runoff::new(&card);
    let rows = loan.table.chunks_exact_mut(ROW);
    for (station, row) in stations(&card).into_iter().zip(rows) {
        let at = whole(station);
        let lines = runoff.lines(at).map(|line| line / whole(1000));
        let six = once(runoff.widening(at)).chain(lines);
        for (column, millimetres) in (WIDENING..).zip(six) {
            row[column] = round(&Exact {
                card,
                station,
                column,
                units: millimetres / whole(card.unit),
            });
        }
    }
    numbers
}

/// The right program, but for where halfway goes.
fn tied(loan: &mut Loan, tie: impl Fn(&Exact) -> Tie) -> [u32; 2] {
    rounded_by(loan, |exact| exact.units.nearest(tie(exact)))
}

/// The same in one of the units only.
fn tied_in(unit: u32, loan: &mut Loan, tie: impl Fn(&Exact) -> Tie) -> [u32; 2] {
    tied(loan, |exact| match exact.is_in(unit) {
        true => tie(exact),
        false => exact.due(),
    })
}

/// Of such numbers halfway goes where it does not go in that unit.
fn not_due(unit: u32, loan: &mut Loan, is_so: impl Fn(&Exact) -> bool) -> [u32; 2] {
    tied_in(unit, loan, |exact| match is_so(exact) {
        true => exact.not_due(),
        false => exact.due(),
    })
}

/// Wrong as to the rule, in every number.
const WRONG_RULES: [(&str, Call); 16] = [
    ("always to the lower number", |loan| tied(loan, |_| Lower)),
    ("always to the higher number", |loan| tied(loan, |_| Higher)),
    ("the units exchanged", |loan| tied(loan, Exact::not_due)),
    ("toward nought", |loan| tied(loan, Exact::toward_nought)),
    ("toward nought in mm", |loan| {
        tied_in(MM, loan, Exact::toward_nought)
    }),
    ("toward nought in cm", |loan| {
        tied_in(CM, loan, Exact::toward_nought)
    }),
    ("away from nought", |loan| {
        tied(loan, Exact::away_from_nought)
    }),
    ("away from nought in mm", |loan| {
        tied_in(MM, loan, Exact::away_from_nought)
    }),
    ("away from nought in cm", |loan| {
        tied_in(CM, loan, Exact::away_from_nought)
    }),
    ("to the even number", |loan| {
        tied(loan, Exact::to_the_even_number)
    }),
    ("to the even number in mm", |loan| {
        tied_in(MM, loan, Exact::to_the_even_number)
    }),
    ("to the even number in cm", |loan| {
        tied_in(CM, loan, Exact::to_the_even_number)
    }),
    ("to the odd number", |loan| {
        tied(loan, Exact::to_the_odd_number)
    }),
    ("to the odd number in mm", |loan| {
        tied_in(MM, loan, Exact::to_the_odd_number)
    }),
    ("to the odd number in cm", |loan| {
        tied_in(CM, loan, Exact::to_the_odd_number)
    }),
    ("by the mark instead of the unit", |loan| {
        tied(loan, |exact| match exact.is_absolute() {
            true => Higher,
            false => Lower,
        })
    }),
];

/// In one column halfway goes where it does not go in that unit.
fn in_column(column: usize, unit: u32, loan: &mut Loan) -> [u32; 2] {
    not_due(unit, loan, |exact| exact.column == column)
}

/// Wrong in one column: in mm by the old rule, in cm by the rule of mm.
const WRONG_COLUMNS: [(&str, Call); 12] = [
    ("the widening to the lower number in mm", |loan| {
        in_column(WIDENING, MM, loan)
    }),
    ("the inner brow to the lower number in mm", |loan| {
        in_column(INNER_BROW, MM, loan)
    }),
    ("the inner edge to the lower number in mm", |loan| {
        in_column(INNER_EDGE, MM, loan)
    }),
    ("the axis to the lower number in mm", |loan| {
        in_column(AXIS, MM, loan)
    }),
    ("the outer edge to the lower number in mm", |loan| {
        in_column(OUTER_EDGE, MM, loan)
    }),
    ("the outer brow to the lower number in mm", |loan| {
        in_column(OUTER_BROW, MM, loan)
    }),
    ("the widening to the higher number in cm", |loan| {
        in_column(WIDENING, CM, loan)
    }),
    ("the inner brow to the higher number in cm", |loan| {
        in_column(INNER_BROW, CM, loan)
    }),
    ("the inner edge to the higher number in cm", |loan| {
        in_column(INNER_EDGE, CM, loan)
    }),
    ("the axis to the higher number in cm", |loan| {
        in_column(AXIS, CM, loan)
    }),
    ("the outer edge to the higher number in cm", |loan| {
        in_column(OUTER_EDGE, CM, loan)
    }),
    ("the outer brow to the higher number in cm", |loan| {
        in_column(OUTER_BROW, CM, loan)
    }),
];

/// Wrong on some cards, or in some rows: in mm by the old rule, in cm by the rule of mm.
const WRONG_CARDS: [(&str, Call); 13] = [
    ("absolute cards to the lower number in mm", |loan| {
        not_due(MM, loan, Exact::is_absolute)
    }),
    ("relative cards to the lower number in mm", |loan| {
        not_due(MM, loan, |exact| !exact.is_absolute())
    }),
    ("absolute cards to the higher number in cm", |loan| {
        not_due(CM, loan, Exact::is_absolute)
    }),
    ("relative cards to the higher number in cm", |loan| {
        not_due(CM, loan, |exact| !exact.is_absolute())
    }),
    ("absolute axes to the lower number in mm", |loan| {
        not_due(MM, loan, |exact| {
            exact.is_absolute() && exact.column == AXIS
        })
    }),
    ("relative axes to the lower number in mm", |loan| {
        not_due(MM, loan, |exact| {
            !exact.is_absolute() && exact.column == AXIS
        })
    }),
    ("all heights to the lower number in mm", |loan| {
        not_due(MM, loan, |exact| exact.column != WIDENING)
    }),
    ("even runoffs to the lower number in mm", |loan| {
        not_due(MM, loan, Exact::is_even)
    }),
    ("two-stage runoffs to the lower number in mm", |loan| {
        not_due(MM, loan, |exact| !exact.is_even())
    }),
    ("the first row to the lower number in mm", |loan| {
        not_due(MM, loan, |exact| exact.station == 0)
    }),
    ("the last row to the lower number in mm", |loan| {
        not_due(MM, loan, |exact| exact.station == exact.card.length)
    }),
    ("the first row to the higher number in cm", |loan| {
        not_due(CM, loan, |exact| exact.station == 0)
    }),
    ("the last row to the higher number in cm", |loan| {
        not_due(CM, loan, |exact| exact.station == exact.card.length)
    }),
];

/// The right program, but for how numbers in that unit are rounded.
fn rounded_in(unit: u32, loan: &mut Loan, round: impl Fn(&Exact) -> i32) -> [u32; 2] {
    rounded_by(loan, |exact| match exact.is_in(unit) {
        true => round(exact),
        false => exact.rounded(),
    })
}

/// Whether the part of a unit that is left above the next whole number lies between the two.
fn has_rest_between(exact: &Exact, low: Fraction, high: Fraction) -> bool {
    let rest = exact.units - whole(exact.down());
    low < rest && rest < high
}

/// Wrong beside halfway too.
const WRONG_NEAREST: [(&str, Call); 8] = [
    ("up to the next number in mm", |loan| {
        rounded_in(MM, loan, Exact::up)
    }),
    ("down to the next number in mm", |loan| {
        rounded_in(MM, loan, Exact::down)
    }),
    ("up to the next number in cm", |loan| {
        rounded_in(CM, loan, Exact::up)
    }),
    ("down to the next number in cm", |loan| {
        rounded_in(CM, loan, Exact::down)
    }),
    ("half a unit added, and cut toward nought", |loan| {
        rounded_in(MM, loan, |exact| {
            let units = exact.units + fraction(1, 2);
            let added = Exact { units, ..*exact };
            match units < whole(0) {
                true => added.up(),
                false => added.down(),
            }
        })
    }),
    ("to mm first, then to cm", |loan| {
        rounded_in(CM, loan, |exact| {
            let mm = (exact.units * whole(CM)).nearest(tie(MM));
            fraction(i128::from(mm), i128::from(CM)).nearest(tie(CM))
        })
    }),
    ("a little below halfway up in mm", |loan| {
        rounded_in(MM, loan, |exact| {
            let is_near = has_rest_between(exact, fraction(4999, 10_000), fraction(1, 2));
            exact.rounded() + i32::from(is_near)
        })
    }),
    ("a little above halfway down in cm", |loan| {
        rounded_in(CM, loan, |exact| {
            let is_near = has_rest_between(exact, fraction(1, 2), fraction(5001, 10_000));
            exact.rounded() - i32::from(is_near)
        })
    }),
];

/// Without this, a comparison that always differs would find every wrong program.
#[test]
fn right_programs_do_not_differ() {
    let by_the_unit: Call = |loan| tied(loan, Exact::due);
    assert_eq!(first_difference(by_the_unit), None);
    let mirrored: Call = |loan| rounded_by(loan, |exact| -(-exact.units).nearest(exact.not_due()));
    assert_eq!(first_difference(mirrored), None);
}

#[test]
fn wrong_rules_are_found() {
    all_are_found(first_difference, &WRONG_RULES);
}

#[test]
fn wrong_columns_are_found() {
    all_are_found(first_difference, &WRONG_COLUMNS);
}

#[test]
fn wrong_cards_are_found() {
    all_are_found(first_difference, &WRONG_CARDS);
}

#[test]
fn wrong_nearest_are_found() {
    all_are_found(first_difference, &WRONG_NEAREST);
}
