//! One card handed to the library's calls for the method of the Minsk handbook.

use crate::card_case::{run_by, Call, CardCase, Loan, Method};
use crate::cards::Numbers;
use crate::seeded::Seeded;
use paper::minsk::MINSK_ROW;

/// Numbers in a row.
pub const ROW: usize = MINSK_ROW;

pub const BY_THE_HANDBOOK: Method = Method {
    row: ROW,
    guards: ROW,
    check: paper::check_minsk_card,
    fill: paper::fill_minsk_table,
};

/// The library's calls.
pub fn library(loan: &mut Loan) -> [u32; 2] {
    let check = calls::check_minsk_card(loan.card);
    let reply = calls::fill_minsk_table(loan.card, loan.table, loan.count);
    [check, reply]
}

/// Lends one table of a seeded length to the paper's rules and to the calls.
pub fn run(card: Numbers, call: Call, seeded: &mut Seeded) -> CardCase {
    run_by(&BY_THE_HANDBOOK, card, call, seeded)
}
