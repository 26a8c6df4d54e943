//! One list handed to the library to be written, and all that it may touch compared with what is due.

use crate::card_case::{unlike_number, wrong_number};
use crate::lent::{Lent, Unlike};
use crate::lists::{book_size, buffer_length, List};
use crate::read_back;
use crate::seeded::Seeded;
use std::hint::black_box;

/// What one call is lent.
pub struct Loan<'a> {
    pub list: &'a [i32],
    pub names: &'a [u8],
    pub buffer: &'a mut [u8],
    pub count: &'a mut u32,
}

/// Writes into the buffer that it is lent, and gives the reply number.
pub type Call = fn(&mut Loan) -> u32;

/// The library's call.
pub fn library(loan: &mut Loan) -> u32 {
    calls::write_book(loan.list, loan.names, loan.buffer, loan.count)
}

/// All that the call answers and all that it could touch.
#[derive(Clone, PartialEq)]
pub struct ListAnswer {
    pub reply: u32,
    pub count: Lent<u32>,
    pub list: Lent<i32>,
    pub names: Lent<u8>,
    pub buffer: Lent<u8>,
}

pub struct ListCase {
    pub due: ListAnswer,
    pub came: ListAnswer,
}

/// Lends one list and a buffer of a seeded length to the paper's rules and to the call.
pub fn run(list: &List, call: Call, seeded: &mut Seeded) -> ListCase {
    let length = buffer_length(book_size(&list.numbers), seeded);
    with_buffer(list, length, call, seeded)
}

/// The same with a buffer of that length; behind it there are guards for the whole book once more.
pub fn with_buffer(list: &List, length: usize, call: Call, seeded: &mut Seeded) -> ListCase {
    let before = ListAnswer {
        reply: 0,
        count: Lent::filled(1, seeded),
        list: Lent::holding(&list.numbers, &list.beyond_numbers, seeded),
        names: Lent::holding(&list.names, &list.beyond_names, seeded),
        buffer: Lent::filled_before(length, book_size(&list.numbers), seeded),
    };
    let mut came = before.clone();
    let mut due = before;
    by_the_paper(list, &mut due);
    came.count.numbers_mut()[0] = wrong_number(due.count.numbers()[0], seeded);
    by_the_call(call, &mut came);
    ListCase { due, came }
}

fn by_the_paper(list: &List, due: &mut ListAnswer) {
    let reply = paper::write_book(&list.numbers, &list.names, due.buffer.numbers_mut());
    due.reply = reply.number;
    due.count.numbers_mut()[0] = reply.count;
}

fn by_the_call(call: Call, came: &mut ListAnswer) {
    came.reply = call(&mut Loan {
        list: came.list.numbers(),
        names: came.names.numbers(),
        buffer: came.buffer.numbers_mut(),
        count: &mut came.count.numbers_mut()[0],
    });
    // The buffers are looked at anew: nothing is held to be as it was before the call.
    black_box(came);
}

impl ListCase {
    /// Every place where what came is not what is due; if there is none, what differs when the book is read again.
    pub fn unlike(&self) -> Vec<Unlike> {
        let unlike = self.due.unlike(&self.came);
        if !unlike.is_empty() || self.came.reply != 0 {
            return unlike;
        }
        let (list, names) = (self.came.list.numbers(), self.came.names.numbers());
        read_back::unlike(list, names, self.came.book())
    }
}

impl ListAnswer {
    /// Every place where what came is not what is due.
    pub fn unlike(&self, came: &ListAnswer) -> Vec<Unlike> {
        if self == came {
            return Vec::new();
        }
        let mut unlike = Vec::new();
        unlike.extend(unlike_number("reply", self.reply, came.reply));
        unlike.extend(self.count.unlike(&came.count, "count"));
        unlike.extend(self.list.unlike(&came.list, "list"));
        unlike.extend(self.names.unlike(&came.names, "names"));
        unlike.extend(self.buffer.unlike(&came.buffer, "buffer"));
        unlike
    }

    /// Bytes of the buffer that hold the book.
    fn in_book(&self) -> usize {
        self.count.numbers()[0] as usize
    }

    /// The bytes that were written; none after a refusal.
    pub fn book(&self) -> &[u8] {
        &self.buffer.numbers()[..self.in_book()]
    }

    pub fn numbers_compared(&self) -> u64 {
        let lent = self.list.size() + self.names.size();
        1 + self.count.size() + lent + self.buffer.size()
    }
}

type Alter = fn(&mut ListAnswer, &mut Seeded) -> bool;

/// Alterations by one number, in turn; false when the answer has no such number.
pub const ALTERATIONS: [(&str, Alter); 14] = [
    ("reply", |answer, _| {
        answer.reply += 1;
        true
    }),
    ("count", |answer, seeded| {
        answer.count.alter(answer.count.places(0..1), seeded)
    }),
    ("guard before the count", |answer, seeded| {
        answer.count.alter(answer.count.guards_before(), seeded)
    }),
    ("guard after the count", |answer, seeded| {
        answer.count.alter(answer.count.guards_after(), seeded)
    }),
    ("list", |answer, seeded| {
        let list = answer.list.places(0..answer.list.numbers().len());
        answer.list.alter(list, seeded)
    }),
    ("guard before the list", |answer, seeded| {
        answer.list.alter(answer.list.guards_before(), seeded)
    }),
    ("guard after the list", |answer, seeded| {
        answer.list.alter(answer.list.guards_after(), seeded)
    }),
    ("names", |answer, seeded| {
        let names = answer.names.places(0..answer.names.numbers().len());
        answer.names.alter(names, seeded)
    }),
    ("guard before the names", |answer, seeded| {
        answer.names.alter(answer.names.guards_before(), seeded)
    }),
    ("guard after the names", |answer, seeded| {
        answer.names.alter(answer.names.guards_after(), seeded)
    }),
    ("byte of the book", |answer, seeded| {
        let book = answer.buffer.places(0..answer.in_book());
        answer.buffer.alter(book, seeded)
    }),
    ("tail of the buffer", |answer, seeded| {
        let tail = answer.in_book()..answer.buffer.numbers().len();
        answer.buffer.alter(answer.buffer.places(tail), seeded)
    }),
    ("guard before the buffer", |answer, seeded| {
        answer.buffer.alter(answer.buffer.guards_before(), seeded)
    }),
    ("guard after the buffer", |answer, seeded| {
        answer.buffer.alter(answer.buffer.guards_after(), seeded)
    }),
];
