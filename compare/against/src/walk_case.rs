//! One card handed to the library's call that walks from row to row, and all that it may touch compared with what is due.

use crate::card_case::{unlike_number, wrong_number, CardCase, BY_503};
use crate::cards::{Numbers, CARD_NUMBERS};
use crate::lent::{Lent, Unlike};
use crate::seeded::Seeded;
use paper::walked::fresh_rows;
use paper::Card;
use std::hint::black_box;

/// What the call is lent.
pub struct Loan<'a> {
    pub card: &'a Numbers,
    pub table: &'a mut [i32],
    pub count: &'a mut u32,
    pub fresh: &'a mut u32,
}

/// Fills the table, and gives the number of the reply.
pub type Call = fn(&mut Loan) -> u32;

/// The library's call.
pub fn library(loan: &mut Loan) -> u32 {
    calls::walk_table(loan.card, loan.table, loan.count, loan.fresh)
}

/// All that the call answers and all that it could touch.
#[derive(Clone, PartialEq)]
pub struct WalkAnswer {
    pub reply: u32,
    pub count: Lent<u32>,
    pub fresh: Lent<u32>,
    pub card: Lent<i32>,
    pub table: Lent<i32>,
}

pub struct WalkCase {
    pub card: Numbers,
    pub due: WalkAnswer,
    pub came: WalkAnswer,
}

/// Lends a table as long as the one that was filled for the card. "Its reply and rows equal the table's": the paper's reply, count
/// and rows are due, which the call that fills tables has answered too where nothing differs; and besides them how many rows
/// the paper works afresh.
pub fn run(filled: &CardCase, call: Call, seeded: &mut Seeded) -> WalkCase {
    let card = filled.card;
    let length = filled.due.table.numbers().len();
    let before = WalkAnswer {
        reply: 0,
        count: Lent::filled(1, seeded),
        fresh: Lent::filled(1, seeded),
        card: Lent::holding(&card, &[], seeded),
        table: Lent::filled(length, seeded),
    };
    let mut came = before.clone();
    let mut due = before;
    by_the_paper(filled, &mut due);
    came.count.numbers_mut()[0] = wrong_number(due.count.numbers()[0], seeded);
    came.fresh.numbers_mut()[0] = wrong_number(due.fresh.numbers()[0], seeded);
    by_the_call(call, &mut came);
    WalkCase { card, due, came }
}

fn by_the_paper(filled: &CardCase, due: &mut WalkAnswer) {
    due.reply = filled.due.reply;
    due.count.numbers_mut()[0] = filled.due.count.numbers()[0];
    let fresh = match due.reply {
        0 => fresh_rows(&Card::new(&filled.card)).len(),
        _ => 0,
    };
    due.fresh.numbers_mut()[0] = fresh as u32;
    let in_rows = ..due.in_rows();
    let rows = &filled.due.table.numbers()[in_rows];
    due.table.numbers_mut()[in_rows].copy_from_slice(rows);
}

fn by_the_call(call: Call, came: &mut WalkAnswer) {
    came.reply = call(&mut Loan {
        card: came.card.numbers().try_into().expect("eleven numbers"),
        table: came.table.numbers_mut(),
        count: &mut came.count.numbers_mut()[0],
        fresh: &mut came.fresh.numbers_mut()[0],
    });
    // The buffers are looked at anew: nothing is held to be as it was before the call.
    black_box(came);
}

impl WalkAnswer {
    /// Every place where what came is not what is due.
    pub fn unlike(&self, came: &WalkAnswer) -> Vec<Unlike> {
        if self == came {
            return Vec::new();
        }
        let mut unlike = Vec::new();
        unlike.extend(unlike_number("reply", self.reply, came.reply));
        unlike.extend(self.count.unlike(&came.count, "count"));
        unlike.extend(self.fresh.unlike(&came.fresh, "fresh"));
        unlike.extend(self.card.unlike(&came.card, "card"));
        unlike.extend(self.table.unlike(&came.table, "table"));
        unlike
    }

    /// Numbers of the table that hold rows.
    fn in_rows(&self) -> usize {
        BY_503.row * self.count.numbers()[0] as usize
    }

    pub fn numbers_compared(&self) -> u64 {
        1 + self.count.size() + self.fresh.size() + self.card.size() + self.table.size()
    }
}

type Alter = fn(&mut WalkAnswer, &mut Seeded) -> bool;

/// Alterations by one number, in turn; false when the answer has no such number.
pub const ALTERATIONS: [(&str, Alter); 13] = [
    ("reply", |answer, _| {
        answer.reply += 1;
        true
    }),
    ("count", |answer, seeded| {
        answer.count.alter(answer.count.places(0..1), seeded)
    }),
    ("guard before the count", |answer, seeded| {
        answer.count.alter(answer.count.guards_before(), seeded)
    }),
    ("guard after the count", |answer, seeded| {
        answer.count.alter(answer.count.guards_after(), seeded)
    }),
    ("fresh", |answer, seeded| {
        answer.fresh.alter(answer.fresh.places(0..1), seeded)
    }),
    ("guard before fresh", |answer, seeded| {
        answer.fresh.alter(answer.fresh.guards_before(), seeded)
    }),
    ("guard after fresh", |answer, seeded| {
        answer.fresh.alter(answer.fresh.guards_after(), seeded)
    }),
    ("card", |answer, seeded| {
        let card = answer.card.places(0..CARD_NUMBERS);
        answer.card.alter(card, seeded)
    }),
    ("guard of the card", |answer, seeded| {
        answer.card.alter(answer.card.guards_after(), seeded)
    }),
    ("row", |answer, seeded| {
        let rows = answer.table.places(0..answer.in_rows());
        answer.table.alter(rows, seeded)
    }),
    ("tail of the table", |answer, seeded| {
        let tail = answer.in_rows()..answer.table.numbers().len();
        answer.table.alter(answer.table.places(tail), seeded)
    }),
    ("guard before the table", |answer, seeded| {
        answer.table.alter(answer.table.guards_before(), seeded)
    }),
    ("guard after the table", |answer, seeded| {
        answer.table.alter(answer.table.guards_after(), seeded)
    }),
];
