//! Document 02, Slip 2: "A whole day's cards in one call."

use crate::card::Numbers;
use crate::rows::{fill_table, ROW};

/// The crew loads up to 64 cards.
pub const MOST_CARDS: usize = 64;
/// Numbers that a card takes in the reply list: its number and its count.
pub const REPLY: usize = 2;

const MANY_CARDS: u32 = 29;
const SHORT_REPLIES: u32 = 30;

/// What the call for a day's cards answers.
#[derive(Clone, Copy, Debug, PartialEq, Eq)]
pub struct DayReply {
    pub number: u32,
    pub count: u32,
}

/// "It refuses with 29 more than 64 cards and with 30 a reply list below two numbers a card, in that order".
fn refusal(cards: usize, replies: usize) -> Option<u32> {
    if cards > MOST_CARDS {
        return Some(MANY_CARDS);
    }
    (replies < REPLY * cards).then_some(SHORT_REPLIES)
}

/// Each card gets the part of the table that the cards before it haven't used; a refused one uses nothing.
/// A refused day leaves table and reply list untouched.
pub fn fill_day(cards: &[Numbers], table: &mut [i32], replies: &mut [u32]) -> DayReply {
    if let Some(number) = refusal(cards.len(), replies.len()) {
        return DayReply { number, count: 0 };
    }
    let mut unused = table;
    for (card, place) in cards.iter().zip(replies.chunks_exact_mut(REPLY)) {
        let reply = fill_table(card, unused);
        place.copy_from_slice(&[reply.number, reply.count]);
        let used = ROW * usize::try_from(reply.count).expect("a count of rows fits");
        unused = &mut unused[used..];
    }
    DayReply {
        number: 0,
        count: u32::try_from(cards.len()).expect("a count of cards fits"),
    }
}
