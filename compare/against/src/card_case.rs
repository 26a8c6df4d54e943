//! One card handed to the library, and all that it may touch compared with what is due.

use crate::cards::{Numbers, CARD_NUMBERS, LENGTH, STEP};
use crate::lent::{Lent, Unlike, ABOVE_16_BITS};
use crate::seeded::Seeded;
use paper::TableReply;
use std::hint::black_box;

/// A method by which a card gets its rows, as the paper has it.
pub struct Method {
    /// Numbers in a row.
    pub row: usize,
    /// Guards more behind the table, so that a row past its end shows whole.
    pub guards: usize,
    pub check: fn(&Numbers) -> u32,
    pub fill: fn(&Numbers, &mut [i32]) -> TableReply,
}

/// The method of 503-0-45.
pub const BY_503: Method = Method {
    row: 7,
    guards: 0,
    check: paper::check_card,
    fill: paper::fill_table,
};

/// No card has more rows.
const MOST_ROWS: usize = 301;

/// How long the lent table is, measured against the rows due.
pub const CLASSES: [&str; 8] = [
    "0",
    "below a row",
    "one short",
    "exactly due",
    "one more",
    "many more",
    "301 rows",
    "above 65536",
];

/// Shares of the classes; the longer ones more often, so that rows come.
const SHARES: [usize; 16] = [0, 1, 2, 2, 3, 3, 3, 3, 4, 4, 4, 5, 5, 5, 6, 6];

/// The class of tables that 16 bits of their length would make short; one table in so many is of it.
const LONG: usize = 7;
const LONG_ONE_IN: usize = 5000;

/// What the two calls are lent.
pub struct Loan<'a> {
    pub card: &'a Numbers,
    pub table: &'a mut [i32],
    pub count: &'a mut u32,
}

/// Checks the card and fills the table, and gives the number of the check and of the reply.
pub type Call = fn(&mut Loan) -> [u32; 2];

/// The library's calls.
pub fn library(loan: &mut Loan) -> [u32; 2] {
    let check = calls::check_card(loan.card);
    [check, calls::fill_table(loan.card, loan.table, loan.count)]
}

/// All that the calls answer and all that they could touch.
#[derive(Clone, PartialEq)]
pub struct CardAnswer {
    /// Numbers in a row.
    row: usize,
    pub check: u32,
    pub reply: u32,
    pub count: Lent<u32>,
    pub card: Lent<i32>,
    pub table: Lent<i32>,
}

pub struct CardCase {
    pub card: Numbers,
    pub class: usize,
    pub due: CardAnswer,
    pub came: CardAnswer,
}

/// Lends one table of a seeded length to the paper's rules for 503-0-45 and to the calls.
pub fn run(card: Numbers, call: Call, seeded: &mut Seeded) -> CardCase {
    run_by(&BY_503, card, call, seeded)
}

/// The same by any method.
pub fn run_by(method: &Method, card: Numbers, call: Call, seeded: &mut Seeded) -> CardCase {
    let class = if seeded.one_in(LONG_ONE_IN) {
        LONG
    } else {
        seeded.pick(&SHARES)
    };
    let due = method.row * rows_due(&card, seeded);
    let length = table_length(method, class, due, seeded);
    let case = with_table(method, card, length, call, seeded);
    CardCase { class, ..case }
}

/// The same with a table of that length.
pub fn with_table(
    method: &Method,
    card: Numbers,
    length: usize,
    call: Call,
    seeded: &mut Seeded,
) -> CardCase {
    let before = CardAnswer {
        row: method.row,
        check: 0,
        reply: 0,
        count: Lent::filled(1, seeded),
        card: Lent::holding(&card, &[], seeded),
        table: Lent::filled_before(length, method.guards, seeded),
    };
    let mut came = before.clone();
    let mut due = before;
    by_the_paper(method, &card, &mut due);
    came.count.numbers_mut()[0] = wrong_number(due.count.numbers()[0], seeded);
    by_the_call(call, &mut came);
    CardCase {
        card,
        class: 0,
        due,
        came,
    }
}

/// Any number but this one.
pub fn wrong_number(right: u32, seeded: &mut Seeded) -> u32 {
    right.wrapping_add(seeded.between(1, u32::MAX))
}

/// Rows of the card by its L and step; for a card without sense any count of rows.
fn rows_due(card: &Numbers, seeded: &mut Seeded) -> usize {
    let (length, step) = (card[LENGTH].cast_unsigned(), card[STEP].cast_unsigned());
    if step > 0 && length / step <= 300 {
        length.div_ceil(step) as usize + 1
    } else {
        seeded.between(1, 301) as usize
    }
}

fn table_length(method: &Method, class: usize, due: usize, seeded: &mut Seeded) -> usize {
    match class {
        0 => 0,
        1 => 1 + seeded.below(method.row - 1),
        2 => due - 1,
        3 => due,
        4 => due + 1,
        5 => due + seeded.between(2, 400) as usize,
        6 => method.row * MOST_ROWS,
        _ => ABOVE_16_BITS + seeded.below(due),
    }
}

fn by_the_paper(method: &Method, card: &Numbers, due: &mut CardAnswer) {
    due.check = (method.check)(card);
    let reply = (method.fill)(card, due.table.numbers_mut());
    due.reply = reply.number;
    due.count.numbers_mut()[0] = reply.count;
}

fn by_the_call(call: Call, came: &mut CardAnswer) {
    [came.check, came.reply] = call(&mut Loan {
        card: came.card.numbers().try_into().expect("eleven numbers"),
        table: came.table.numbers_mut(),
        count: &mut came.count.numbers_mut()[0],
    });
    // The buffers are looked at anew: nothing is held to be as it was before the calls.
    black_box(came);
}

impl CardAnswer {
    /// Every place where what came is not what is due.
    pub fn unlike(&self, came: &CardAnswer) -> Vec<Unlike> {
        if self == came {
            return Vec::new();
        }
        let mut unlike = Vec::new();
        unlike.extend(unlike_number("check", self.check, came.check));
        unlike.extend(unlike_number("reply", self.reply, came.reply));
        unlike.extend(self.count.unlike(&came.count, "count"));
        unlike.extend(self.card.unlike(&came.card, "card"));
        unlike.extend(self.table.unlike(&came.table, "table"));
        unlike
    }

    /// Numbers of the table that hold rows.
    fn in_rows(&self) -> usize {
        self.row * self.count.numbers()[0] as usize
    }

    pub fn numbers_compared(&self) -> u64 {
        2 + self.count.size() + self.card.size() + self.table.size()
    }
}

pub fn unlike_number(name: &str, due: u32, came: u32) -> Option<Unlike> {
    let unlike = || Unlike {
        what: name.to_string(),
        due: due.to_string(),
        came: came.to_string(),
    };
    (due != came).then(unlike)
}

type Alter = fn(&mut CardAnswer, &mut Seeded) -> bool;

/// Alterations by one number, in turn; false when the answer has no such number.
pub const ALTERATIONS: [(&str, Alter); 11] = [
    ("check", |answer, _| {
        answer.check += 1;
        true
    }),
    ("reply", |answer, _| {
        answer.reply += 1;
        true
    }),
    ("count", |answer, seeded| {
        answer.count.alter(answer.count.places(0..1), seeded)
    }),
    ("guard before the count", |answer, seeded| {
        answer.count.alter(answer.count.guards_before(), seeded)
    }),
    ("guard after the count", |answer, seeded| {
        answer.count.alter(answer.count.guards_after(), seeded)
    }),
    ("card", |answer, seeded| {
        let card = answer.card.places(0..CARD_NUMBERS);
        answer.card.alter(card, seeded)
    }),
    ("guard of the card", |answer, seeded| {
        answer.card.alter(answer.card.guards_after(), seeded)
    }),
    ("row", |answer, seeded| {
        let rows = answer.table.places(0..answer.in_rows());
        answer.table.alter(rows, seeded)
    }),
    ("tail of the table", |answer, seeded| {
        let tail = answer.in_rows()..answer.table.numbers().len();
        answer.table.alter(answer.table.places(tail), seeded)
    }),
    ("guard before the table", |answer, seeded| {
        answer.table.alter(answer.table.guards_before(), seeded)
    }),
    ("guard after the table", |answer, seeded| {
        answer.table.alter(answer.table.guards_after(), seeded)
    }),
];
