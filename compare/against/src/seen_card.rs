//! A card as its sorts see it, by either method: what is lent, what is due, and what its rounded numbers show.

use crate::card_case::CardCase;
use crate::cards::{Numbers, GRADE, HEIGHT, UNIT};
use crate::tally::is_halfway;
use paper::card::{Datum, GREATEST_GRADE, GREATEST_HEIGHT, GREATEST_LENGTH};
use paper::card::{LEAST_GRADE, LEAST_HEIGHT};
use paper::fraction::{whole, Fraction};
use paper::rows::tie;
use paper::{stations, Card};
use std::slice::ChunksExact;

/// Only tables of so few rows are looked into, number by number.
const FEW_ROWS: usize = 40;
/// The station and the widening, before the heights of a row.
const BEFORE_HEIGHTS: usize = 2;
/// Units, in mm.
pub const MM: u32 = 1;
pub const CM: u32 = 10;

/// What a row is rounded from: the widening in mm; the axis, and all heights in the order of a row, in micrometres.
pub struct Exact<const LINES: usize> {
    pub widening: Fraction,
    pub axis: Fraction,
    pub lines: [Fraction; LINES],
}

/// What the rounded numbers in the rows of a card show.
#[derive(Default)]
pub struct Rounded {
    /// Of some heights of an absolute card, the axis and the distance from it, each rounded by itself, would make
    /// another number.
    pub otherwise_apart: bool,
    /// Some heights stand halfway between two numbers, above nought and below it.
    halfway: [bool; 2],
    /// Some widening does.
    widening_halfway: bool,
}

impl Rounded {
    /// Of rows with those exact numbers at a station.
    fn new<const LINES: usize>(
        card: &Card,
        rows: ChunksExact<i32>,
        exact: impl Fn(Fraction) -> Exact<LINES>,
    ) -> Rounded {
        let unit = whole(1000 * card.unit);
        let in_units = |height: Fraction| (height / unit).nearest(tie(card.unit));
        let is_absolute = card.datum != Datum::Relative;
        let mut rounded = Rounded::default();
        for (station, row) in stations(card).into_iter().zip(rows) {
            let Exact {
                widening,
                axis,
                lines,
            } = exact(whole(station));
            rounded.widening_halfway |= is_halfway(widening / whole(card.unit), row[1]);
            for (line, &number) in lines.into_iter().zip(&row[BEFORE_HEIGHTS..]) {
                let is_below = usize::from(line < whole(0));
                rounded.halfway[is_below] |= is_halfway(line / unit, number);
                let is_otherwise = || number != in_units(axis) + in_units(line - axis);
                rounded.otherwise_apart |= is_absolute && is_otherwise();
            }
        }
        rounded
    }
}

/// A card as its sorts see it, with what is shown besides by the method.
pub struct Seen<'a, Shown = ()> {
    pub numbers: &'a Numbers,
    pub card: Card,
    pub reply: u32,
    table: usize,
    pub rows: ChunksExact<'a, i32>,
    pub rounded: Rounded,
    pub shown: Shown,
}

impl<'a, Shown> Seen<'a, Shown> {
    /// Of an accepted card the method has such exact numbers at a station.
    pub fn new<const LINES: usize, AtStation: Fn(Fraction) -> Exact<LINES>>(
        case: &'a CardCase,
        exact: impl Fn(&Card) -> AtStation,
        shown: impl Fn(&Card) -> Shown,
    ) -> Seen<'a, Shown> {
        let card = Card::new(&case.card);
        let row = BEFORE_HEIGHTS + LINES;
        let (table, count) = (case.due.table.numbers(), case.due.count.numbers()[0]);
        let rows = table[..row * count as usize].chunks_exact(row);
        let rounded = if (1..=FEW_ROWS).contains(&rows.len()) {
            Rounded::new(&card, rows.clone(), exact(&card))
        } else {
            Rounded::default()
        };
        Seen {
            numbers: &case.card,
            card,
            reply: case.due.reply,
            table: table.len(),
            rows,
            rounded,
            shown: shown(&card),
        }
    }

    pub fn height(&self) -> i32 {
        self.numbers[HEIGHT]
    }

    pub fn grade(&self) -> i32 {
        self.numbers[GRADE]
    }

    pub fn is_absolute(&self) -> bool {
        self.card.datum != Datum::Relative
    }

    /// Rows came for an absolute card.
    pub fn has_heights(&self) -> bool {
        self.reply == 0 && self.is_absolute()
    }

    /// Rows came for a relative card.
    pub fn is_relative(&self) -> bool {
        self.reply == 0 && !self.is_absolute()
    }

    pub fn is_outside(&self) -> bool {
        !(LEAST_HEIGHT..=GREATEST_HEIGHT).contains(&self.height())
    }

    pub fn is_too_steep(&self) -> bool {
        !(LEAST_GRADE..=GREATEST_GRADE).contains(&self.grade())
    }

    /// Rows came for the longest clothoid with limits of heights and grades.
    pub fn is_longest_at_limits(&self) -> bool {
        let height = [LEAST_HEIGHT, GREATEST_HEIGHT].contains(&self.height());
        let grade = [LEAST_GRADE, GREATEST_GRADE].contains(&self.grade());
        self.has_heights() && self.card.length == GREATEST_LENGTH && height && grade
    }

    /// Rows came for an absolute card with a grade, and the last step is shorter.
    pub fn has_grade_and_cut_step(&self) -> bool {
        let is_cut = !self.card.length.is_multiple_of(self.card.step);
        self.has_heights() && self.grade() != 0 && is_cut
    }

    /// The height lies within, but is no whole number of units.
    pub fn has_parts_of_a_unit(&self) -> bool {
        !self.is_outside() && self.height() % self.numbers[UNIT] != 0
    }

    /// The table is too short for the rows of a card whose eight numbers are right, at so many numbers a row.
    pub fn is_short(&self, row: usize) -> bool {
        self.table < row * stations(&self.card).len()
    }

    /// Some height stands halfway above nought, in that unit.
    pub fn is_halfway_above(&self, unit: u32) -> bool {
        self.card.unit == unit && self.rounded.halfway[0]
    }

    /// Some height stands halfway below nought, in that unit.
    pub fn is_halfway_below(&self, unit: u32) -> bool {
        self.card.unit == unit && self.rounded.halfway[1]
    }

    /// Some widening stands halfway, in that unit.
    pub fn is_widened_halfway(&self, unit: u32) -> bool {
        self.card.unit == unit && self.rounded.widening_halfway
    }

    /// One of the eight, below 0, is what refuses the card.
    pub fn is_below_0(&self, place: usize, reason: u32) -> bool {
        self.reply == reason && self.numbers[place] < 0
    }
}
