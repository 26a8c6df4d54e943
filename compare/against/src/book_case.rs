//! One book handed to the library, and all that it may touch compared with what is due.

use crate::books::Book;
use crate::card_case::{unlike_number, wrong_number};
use crate::cards::Numbers;
use crate::lent::{Lent, Unlike, ABOVE_16_BITS};
use crate::lists::LISTED;
use crate::seeded::Seeded;
use std::hint::black_box;

/// Lengths of the lent list; 832 and more mostly. 640 numbers were enough for bodies of eight numbers.
const LIST_LENGTHS: [usize; 20] = [
    0, 640, 831, 832, 832, 832, 832, 832, 832, 832, 832, 832, 833, 833, 833, 833, 833, 1000, 1000,
    1000,
];

/// One list in so many has more than 65,536 numbers.
const LONG_ONE_IN: usize = 1000;

fn list_length(seeded: &mut Seeded) -> usize {
    if seeded.one_in(LONG_ONE_IN) {
        ABOVE_16_BITS + seeded.below(832)
    } else {
        seeded.pick(&LIST_LENGTHS)
    }
}

/// What one call is lent.
pub struct Loan<'a> {
    pub text: &'a [u8],
    pub list: &'a mut [i32],
    pub count: &'a mut u32,
    pub line: &'a mut u32,
}

/// Reads the text into the list that it is lent, and gives the reply number.
pub type Call = fn(&mut Loan) -> u32;

/// The library's call.
pub fn library(loan: &mut Loan) -> u32 {
    calls::read_book(loan.text, loan.list, loan.count, loan.line)
}

/// All that the call answers and all that it could touch.
#[derive(Clone, PartialEq)]
pub struct BookAnswer {
    pub reply: u32,
    pub count: Lent<u32>,
    pub line: Lent<u32>,
    pub text: Lent<u8>,
    pub list: Lent<i32>,
}

pub struct BookCase {
    pub due: BookAnswer,
    pub came: BookAnswer,
}

/// Lends one text and one list of a seeded length to the paper's rules and to the call.
pub fn run(book: &Book, call: Call, seeded: &mut Seeded) -> BookCase {
    with_list(book, list_length(seeded), call, seeded)
}

/// The same with a list of that length.
pub fn with_list(book: &Book, length: usize, call: Call, seeded: &mut Seeded) -> BookCase {
    let before = BookAnswer {
        reply: 0,
        count: Lent::filled(1, seeded),
        line: Lent::filled(1, seeded),
        text: Lent::holding(&book.text, &book.beyond, seeded),
        list: Lent::filled(length, seeded),
    };
    let mut came = before.clone();
    let mut due = before;
    by_the_paper(&book.text, &mut due);
    came.count.numbers_mut()[0] = wrong_number(due.count.numbers()[0], seeded);
    came.line.numbers_mut()[0] = wrong_number(due.line.numbers()[0], seeded);
    by_the_call(call, &mut came);
    BookCase { due, came }
}

fn by_the_paper(text: &[u8], due: &mut BookAnswer) {
    let reply = paper::read_book(text, due.list.numbers_mut());
    due.reply = reply.number;
    due.count.numbers_mut()[0] = reply.count;
    due.line.numbers_mut()[0] = reply.line;
}

fn by_the_call(call: Call, came: &mut BookAnswer) {
    came.reply = call(&mut Loan {
        text: came.text.numbers(),
        list: came.list.numbers_mut(),
        count: &mut came.count.numbers_mut()[0],
        line: &mut came.line.numbers_mut()[0],
    });
    // The buffers are looked at anew: nothing is held to be as it was before the call.
    black_box(came);
}

impl BookAnswer {
    /// Every place where what came is not what is due.
    pub fn unlike(&self, came: &BookAnswer) -> Vec<Unlike> {
        if self == came {
            return Vec::new();
        }
        let mut unlike = Vec::new();
        unlike.extend(unlike_number("reply", self.reply, came.reply));
        unlike.extend(self.count.unlike(&came.count, "count"));
        unlike.extend(self.line.unlike(&came.line, "line"));
        unlike.extend(self.text.unlike(&came.text, "text"));
        unlike.extend(self.list.unlike(&came.list, "list"));
        unlike
    }

    /// Numbers of the list that hold curves.
    fn in_curves(&self) -> usize {
        LISTED * self.count.numbers()[0] as usize
    }

    /// The cards of the curves, as they stand in the list.
    pub fn cards(&self) -> Vec<Numbers> {
        let curves = self.list.numbers()[..self.in_curves()].chunks_exact(LISTED);
        let card = |curve: &[i32]| curve[2..].try_into().expect("eleven numbers");
        curves.map(card).collect()
    }

    pub fn numbers_compared(&self) -> u64 {
        1 + self.count.size() + self.line.size() + self.text.size() + self.list.size()
    }
}

type Alter = fn(&mut BookAnswer, &mut Seeded) -> bool;

/// Alterations by one number, in turn; false when the answer has no such number.
pub const ALTERATIONS: [(&str, Alter); 11] = [
    ("reply", |answer, _| {
        answer.reply += 1;
        true
    }),
    ("count", |answer, seeded| {
        answer.count.alter(answer.count.places(0..1), seeded)
    }),
    ("guard of the count", |answer, seeded| {
        answer.count.alter(answer.count.guards_after(), seeded)
    }),
    ("line", |answer, seeded| {
        answer.line.alter(answer.line.places(0..1), seeded)
    }),
    ("guard of the line", |answer, seeded| {
        answer.line.alter(answer.line.guards_after(), seeded)
    }),
    ("text", |answer, seeded| {
        let text = answer.text.places(0..answer.text.numbers().len());
        answer.text.alter(text, seeded)
    }),
    ("guard of the text", |answer, seeded| {
        answer.text.alter(answer.text.guards_after(), seeded)
    }),
    ("curve in the list", |answer, seeded| {
        let curves = answer.list.places(0..answer.in_curves());
        answer.list.alter(curves, seeded)
    }),
    ("tail of the list", |answer, seeded| {
        let tail = answer.in_curves()..answer.list.numbers().len();
        answer.list.alter(answer.list.places(tail), seeded)
    }),
    ("guard before the list", |answer, seeded| {
        answer.list.alter(answer.list.guards_before(), seeded)
    }),
    ("guard after the list", |answer, seeded| {
        answer.list.alter(answer.list.guards_after(), seeded)
    }),
];
