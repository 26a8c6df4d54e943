//! The rows of an accepted card, and the lent table they go into.

use crate::card::{check_card, Card, Numbers};
use crate::fraction::{whole, Fraction, Tie};
use crate::section::Runoff;

/// Numbers in a row.
pub const ROW: usize = 7;
/// The reply when the lent table is below 7 numbers a row.
pub const SHORT_TABLE: u32 = 11;

/// What the call that fills a table answers.
#[derive(Clone, Copy, Debug, PartialEq, Eq)]
pub struct TableReply {
    pub number: u32,
    pub count: u32,
}

/// 0, step, 2 × step and so on below L, then L.
pub fn stations(card: &Card) -> Vec<u32> {
    let step = usize::try_from(card.step).expect("a step fits");
    let mut stations: Vec<u32> = (0..card.length).step_by(step).collect();
    stations.push(card.length);
    stations
}

/// Document 02, Slip 6: "in whole millimetres a halfway value goes to the higher number. In centimetres it still goes
/// to the lower."
pub fn tie(unit: u32) -> Tie {
    match unit {
        1 => Tie::Higher,
        _ => Tie::Lower,
    }
}

/// Station; widening; inner brow; inner edge; axis; outer edge; outer brow. The last six are counts of the unit, each
/// rounded once.
fn row(runoff: &Runoff, station: u32, unit: u32) -> [i32; ROW] {
    let (at, tie) = (whole(station), tie(unit));
    let height = |micrometres: Fraction| (micrometres / whole(1000 * unit)).nearest(tie);
    let mut row = [0; ROW];
    row[0] = i32::try_from(station).expect("a station fits 32 bits");
    row[1] = (runoff.widening(at) / whole(unit)).nearest(tie);
    row[2..].copy_from_slice(&runoff.lines(at).map(height));
    row
}

/// All rows of a card that `check_card` accepts.
pub fn rows(numbers: &Numbers) -> Vec<[i32; ROW]> {
    let card = Card::new(numbers);
    let runoff = Runoff::new(&card);
    let stations = stations(&card);
    stations
        .into_iter()
        .map(|station| row(&runoff, station, card.unit))
        .collect()
}

/// Fills the lent table from its start; a refusal leaves it as it was.
pub fn fill_table(numbers: &Numbers, table: &mut [i32]) -> TableReply {
    let refused = |number| TableReply { number, count: 0 };
    let reason = check_card(numbers);
    if reason != 0 {
        return refused(reason);
    }
    let count = stations(&Card::new(numbers)).len();
    if table.len() < ROW * count {
        return refused(SHORT_TABLE);
    }
    for (place, row) in table.chunks_exact_mut(ROW).zip(rows(numbers)) {
        place.copy_from_slice(&row);
    }
    TableReply {
        number: 0,
        count: u32::try_from(count).expect("a count of rows fits"),
    }
}
