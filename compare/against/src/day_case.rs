//! One day's cards handed to the library, and all that it may touch compared with what is due.

use crate::card_case::{unlike_number, wrong_number};
use crate::cards::{self, Numbers};
use crate::days::{Day, LONGEST_CARD, MOST_CARDS, REPLY, ROW};
use crate::lent::{Lent, Unlike};
use crate::seeded::Seeded;
use std::hint::black_box;

/// What one call is lent.
pub struct Loan<'a> {
    pub cards: &'a [Numbers],
    pub table: &'a mut [i32],
    pub replies: &'a mut [u32],
    pub count: &'a mut u32,
}

/// Fills what it is lent, and gives the reply number.
pub type Call = fn(&mut Loan) -> u32;

/// The library's call.
pub fn library(loan: &mut Loan) -> u32 {
    calls::fill_day(loan.cards, loan.table, loan.replies, loan.count)
}

/// All that the call answers and all that it could touch.
#[derive(Clone, PartialEq)]
pub struct DayAnswer {
    pub reply: u32,
    pub count: Lent<u32>,
    pub cards: Lent<i32>,
    pub table: Lent<i32>,
    pub replies: Lent<u32>,
}

pub struct DayCase {
    pub due: DayAnswer,
    pub came: DayAnswer,
}

/// Lends one day's cards, table and reply list to the paper's rules and to the call.
pub fn run(day: &Day, call: Call, seeded: &mut Seeded) -> DayCase {
    // One more card, which would be accepted, lies right behind the list.
    let beyond = cards::valid(seeded);
    let before = DayAnswer {
        reply: 0,
        count: Lent::filled(1, seeded),
        cards: Lent::holding(day.cards.as_flattened(), &beyond, seeded),
        table: Lent::filled_before(day.table_length, LONGEST_CARD, seeded),
        replies: Lent::filled_before(day.replies_length, REPLY * MOST_CARDS, seeded),
    };
    let mut came = before.clone();
    let mut due = before;
    by_the_paper(&day.cards, &mut due);
    came.count.numbers_mut()[0] = wrong_number(due.count.numbers()[0], seeded);
    by_the_call(call, &mut came);
    DayCase { due, came }
}

fn by_the_paper(cards: &[Numbers], due: &mut DayAnswer) {
    let reply = paper::fill_day(cards, due.table.numbers_mut(), due.replies.numbers_mut());
    due.reply = reply.number;
    due.count.numbers_mut()[0] = reply.count;
}

fn by_the_call(call: Call, came: &mut DayAnswer) {
    came.reply = call(&mut Loan {
        cards: came.cards.numbers().as_chunks().0,
        table: came.table.numbers_mut(),
        replies: came.replies.numbers_mut(),
        count: &mut came.count.numbers_mut()[0],
    });
    // The buffers are looked at anew: nothing is held to be as it was before the call.
    black_box(came);
}

impl DayAnswer {
    /// Every place where what came is not what is due.
    pub fn unlike(&self, came: &DayAnswer) -> Vec<Unlike> {
        if self == came {
            return Vec::new();
        }
        let mut unlike = Vec::new();
        unlike.extend(unlike_number("reply", self.reply, came.reply));
        unlike.extend(self.count.unlike(&came.count, "count"));
        unlike.extend(self.cards.unlike(&came.cards, "cards"));
        unlike.extend(self.table.unlike(&came.table, "table"));
        unlike.extend(self.replies.unlike(&came.replies, "reply list"));
        unlike
    }

    pub fn cards(&self) -> &[Numbers] {
        self.cards.numbers().as_chunks().0
    }

    /// Numbers of the reply list that hold replies to cards; none after a refusal.
    fn in_replies(&self) -> usize {
        let cards = self.count.numbers()[0] as usize;
        (REPLY * cards).min(self.replies.numbers().len())
    }

    /// The number and the count of each card; none after a refusal.
    pub fn card_replies(&self) -> &[[u32; REPLY]] {
        self.replies.numbers()[..self.in_replies()].as_chunks().0
    }

    /// Numbers of the table that hold rows.
    pub fn in_rows(&self) -> usize {
        let counts = self.card_replies().iter().map(|[_, count]| *count as usize);
        ROW * counts.sum::<usize>()
    }

    pub fn numbers_compared(&self) -> u64 {
        let small = 1 + self.count.size() + self.cards.size();
        small + self.table.size() + self.replies.size()
    }
}

/// Alters the number (0) or the count (1) of one card in the reply list.
fn alter_card_reply(answer: &mut DayAnswer, place: usize, seeded: &mut Seeded) -> bool {
    let cards = answer.in_replies() / REPLY;
    if cards == 0 {
        return false;
    }
    let number = REPLY * seeded.below(cards) + place;
    let places = answer.replies.places(number..number + 1);
    answer.replies.alter(places, seeded)
}

type Alter = fn(&mut DayAnswer, &mut Seeded) -> bool;

/// Alterations by one number, in turn; false when the answer has no such number.
pub const ALTERATIONS: [(&str, Alter); 16] = [
    ("reply", |answer, _| {
        answer.reply += 1;
        true
    }),
    ("count", |answer, seeded| {
        answer.count.alter(answer.count.places(0..1), seeded)
    }),
    ("guard before the count", |answer, seeded| {
        answer.count.alter(answer.count.guards_before(), seeded)
    }),
    ("guard after the count", |answer, seeded| {
        answer.count.alter(answer.count.guards_after(), seeded)
    }),
    ("card", |answer, seeded| {
        let cards = answer.cards.places(0..answer.cards.numbers().len());
        answer.cards.alter(cards, seeded)
    }),
    ("guard before the cards", |answer, seeded| {
        answer.cards.alter(answer.cards.guards_before(), seeded)
    }),
    ("guard after the cards", |answer, seeded| {
        answer.cards.alter(answer.cards.guards_after(), seeded)
    }),
    ("row", |answer, seeded| {
        let rows = answer.table.places(0..answer.in_rows());
        answer.table.alter(rows, seeded)
    }),
    ("tail of the table", |answer, seeded| {
        let tail = answer.in_rows()..answer.table.numbers().len();
        answer.table.alter(answer.table.places(tail), seeded)
    }),
    ("guard before the table", |answer, seeded| {
        answer.table.alter(answer.table.guards_before(), seeded)
    }),
    ("guard after the table", |answer, seeded| {
        answer.table.alter(answer.table.guards_after(), seeded)
    }),
    ("number of a card", |answer, seeded| {
        alter_card_reply(answer, 0, seeded)
    }),
    ("count of a card", |answer, seeded| {
        alter_card_reply(answer, 1, seeded)
    }),
    ("tail of the reply list", |answer, seeded| {
        let tail = answer.in_replies()..answer.replies.numbers().len();
        answer.replies.alter(answer.replies.places(tail), seeded)
    }),
    ("guard before the reply list", |answer, seeded| {
        answer.replies.alter(answer.replies.guards_before(), seeded)
    }),
    ("guard after the reply list", |answer, seeded| {
        answer.replies.alter(answer.replies.guards_after(), seeded)
    }),
];
