//! Wrong programs for a day's cards: the comparison must find each of them.

use crate::cards::{Numbers, CARD_NUMBERS, HEIGHT, LENGTH, MARK, STEP};
use crate::day_case::{Call, Loan};
use crate::days::{MOST_CARDS, REPLY, ROW};
use crate::found::all_are_found;
use crate::lent::ABOVE_16_BITS;
use crate::work::day;
use crate::DEFAULT;
use paper::{fill_day, fill_table, stations, Card, TableReply};
use std::mem::take;

/// A wrong program must be found among so many of the first days of the default run.
const FIRST_DAYS: u64 = DEFAULT.days / 10;

fn right(loan: &mut Loan) -> u32 {
    let reply = fill_day(loan.cards, loan.table, loan.replies);
    *loan.count = reply.count;
    reply.number
}

fn refuse(number: u32, loan: &mut Loan) -> u32 {
    *loan.count = 0;
    number
}

/// How much of the table a card uses, by its reply and what is left.
type Used = fn(&Numbers, TableReply, usize) -> usize;

fn in_rows(_: &Numbers, reply: TableReply, _: usize) -> usize {
    ROW * reply.count as usize
}

/// What the rows of a card would take, were it not refused.
fn in_all_rows(card: &Numbers) -> usize {
    match (card[LENGTH], card[STEP]) {
        (0..=300_000, 1000..=20_000) => ROW * stations(&Card::new(card)).len(),
        _ => ROW,
    }
}

/// Fills card after card, whatever is lent; what a card uses is given.
fn fill_each(loan: &mut Loan, used: Used) {
    let mut start = 0;
    for (card, place) in loan.cards.iter().zip(loan.replies.chunks_exact_mut(REPLY)) {
        let reply = fill_table(card, &mut loan.table[start..]);
        place.copy_from_slice(&[reply.number, reply.count]);
        let rest = loan.table.len() - start;
        start += used(card, reply, rest).min(rest);
    }
}

/// The number of the day by the right program, with its count, and nothing filled in.
fn number_of(loan: &mut Loan) -> u32 {
    let reply = fill_day(loan.cards, &mut [], &mut loan.replies.to_vec());
    *loan.count = reply.count;
    reply.number
}

/// Refuses what is to be refused, and else fills card after card.
fn fill_using(loan: &mut Loan, used: Used) -> u32 {
    let number = number_of(loan);
    if number == 0 {
        fill_each(loan, used);
    }
    number
}

/// The replies to the cards, as the right program leaves them.
fn card_replies<'a>(loan: &'a mut Loan) -> &'a mut [[u32; REPLY]] {
    let end = REPLY * *loan.count as usize;
    loan.replies[..end].as_chunks_mut().0
}

/// Wrong as to the part of the table that a card gets.
const WRONG_PARTS: [(&str, Call); 9] = [
    ("a refused card uses its rows", |loan| {
        fill_using(loan, |card, _, _| in_all_rows(card))
    }),
    ("a card with 11 uses the rest", |loan| {
        fill_using(loan, |card, reply, rest| match reply.number {
            11 => rest,
            _ => in_rows(card, reply, rest),
        })
    }),
    ("nothing left after a refused card", |loan| {
        fill_using(loan, |card, reply, rest| match reply.number {
            0 => in_rows(card, reply, rest),
            _ => rest,
        })
    }),
    ("every card from the table's start", |loan| {
        fill_using(loan, |_, _, _| 0)
    }),
    ("from the last row of the card before", |loan| {
        fill_using(loan, |_, reply, _| {
            ROW * (reply.count as usize).max(1) - ROW
        })
    }),
    ("one number between two cards", |loan| {
        fill_using(loan, |_, reply, _| ROW * reply.count as usize + 1)
    }),
    ("301 rows kept for every card", |loan| {
        fill_using(loan, |_, reply, _| 301 * ROW * reply.count.min(1) as usize)
    }),
    ("the rest of the table cleared", |loan| {
        let number = right(loan);
        let rows = card_replies(loan).iter().map(|reply| reply[1]).sum::<u32>();
        loan.table[ROW * rows as usize..].fill(0);
        number
    }),
    ("16 bits of the table's length", |loan| {
        let table = take(&mut loan.table);
        let length = table.len() % ABOVE_16_BITS;
        loan.table = &mut table[..length];
        right(loan)
    }),
];

/// Wrong as to the count of the day or its reply list.
const WRONG_REPLIES: [(&str, Call); 8] = [
    ("the accepted cards counted", |loan| {
        let number = right(loan);
        let accepted = card_replies(loan).iter().filter(|reply| reply[0] == 0);
        *loan.count = accepted.count() as u32;
        number
    }),
    ("replies one place off", |loan| {
        let number = right(loan);
        let replies = card_replies(loan).as_flattened_mut();
        replies.rotate_right(replies.len().min(1));
        number
    }),
    ("the count before the number", |loan| {
        let number = right(loan);
        card_replies(loan)
            .iter_mut()
            .for_each(|reply| reply.reverse());
        number
    }),
    ("rows counted for a card with 11", |loan| {
        let number = right(loan);
        let cards = loan.cards;
        let replied = card_replies(loan).iter_mut().zip(cards);
        for (reply, card) in replied.filter(|(reply, _)| reply[0] == 11) {
            reply[1] = (in_all_rows(card) / ROW) as u32;
        }
        number
    }),
    ("no reply to a refused card", |loan| {
        let before = loan.replies.to_vec();
        let number = right(loan);
        let replied = card_replies(loan).iter_mut().zip(before.chunks(REPLY));
        let refused = replied.filter(|(reply, _)| reply[0] > 0);
        refused.for_each(|(reply, before)| reply.copy_from_slice(before));
        number
    }),
    ("an end at the first refused card", |loan| {
        let number = number_of(loan);
        let mut tried = loan.cards.iter();
        let refused = tried.position(|card| paper::check_card(card) > 0);
        loan.cards = &loan.cards[..refused.map_or(loan.cards.len(), |place| place + 1)];
        if number == 0 {
            fill_each(loan, in_rows);
        }
        number
    }),
    ("the rest of the reply list cleared", |loan| {
        let number = right(loan);
        loan.replies[REPLY * *loan.count as usize..].fill(0);
        number
    }),
    ("16 bits of the reply list's length", |loan| {
        let replies = take(&mut loan.replies);
        let length = replies.len() % ABOVE_16_BITS;
        loan.replies = &mut replies[..length];
        right(loan)
    }),
];

/// Wrong as to 29 and 30.
const WRONG_REFUSALS: [(&str, Call); 13] = [
    ("30 before 29", |loan| {
        if loan.replies.len() < REPLY * loan.cards.len() {
            return refuse(30, loan);
        }
        right(loan)
    }),
    ("64 cards refused", |loan| {
        if loan.cards.len() == MOST_CARDS {
            return refuse(29, loan);
        }
        right(loan)
    }),
    ("65 cards accepted", |loan| {
        let cards = loan.cards.len();
        if cards != MOST_CARDS + 1 || loan.replies.len() < REPLY * cards {
            return right(loan);
        }
        fill_each(loan, in_rows);
        *loan.count = 65;
        0
    }),
    ("the first 64 of more cards", |loan| {
        loan.cards = &loan.cards[..loan.cards.len().min(MOST_CARDS)];
        right(loan)
    }),
    ("8 bits of the count of cards", |loan| {
        loan.cards = &loan.cards[..loan.cards.len() % 256];
        right(loan)
    }),
    ("16 bits of the count of cards", |loan| {
        loan.cards = &loan.cards[..loan.cards.len() % ABOVE_16_BITS];
        right(loan)
    }),
    ("no cards refused", |loan| {
        if loan.cards.is_empty() {
            return refuse(29, loan);
        }
        right(loan)
    }),
    ("one number a card enough", |loan| {
        let cards = loan.cards.len();
        if cards > MOST_CARDS || loan.replies.len() < cards {
            return right(loan);
        }
        fill_each(loan, in_rows);
        *loan.count = cards as u32;
        0
    }),
    ("exactly two numbers a card refused", |loan| {
        if number_of(loan) == 0 && loan.replies.len() == REPLY * loan.cards.len() {
            return refuse(30, loan);
        }
        right(loan)
    }),
    ("the table begun despite 29", |loan| {
        let number = right(loan);
        if number == 29 {
            fill_table(&loan.cards[0], loan.table);
        }
        number
    }),
    ("the table begun despite 30", |loan| {
        let number = right(loan);
        if number == 30 {
            fill_table(&loan.cards[0], loan.table);
        }
        number
    }),
    ("the reply list filled as far as it goes", |loan| {
        let number = right(loan);
        if number == 30 {
            fill_each(loan, in_rows);
        }
        number
    }),
    ("the count kept on a refusal", |loan| {
        let before = *loan.count;
        let number = right(loan);
        if number > 0 {
            *loan.count = before;
        }
        number
    }),
];

/// Fills the table from the cards with this done to all of them.
fn with_cards(loan: &mut Loan, change: fn(&mut [Numbers])) -> u32 {
    let mut cards = loan.cards.to_vec();
    change(&mut cards);
    let reply = fill_day(&cards, loan.table, loan.replies);
    *loan.count = reply.count;
    reply.number
}

/// The cards that begin at every so many numbers of the list.
fn by_stride(cards: &mut [Numbers], stride: usize) {
    let numbers = cards.as_flattened().to_vec();
    for (place, card) in cards.iter_mut().enumerate() {
        card.copy_from_slice(&numbers[stride * place..][..CARD_NUMBERS]);
    }
}

/// Wrong as to the heights of the cards.
const WRONG_HEIGHTS: [(&str, Call); 9] = [
    ("every card at the first one's height", |loan| {
        with_cards(loan, |cards| {
            let first = cards.first().copied();
            for card in cards {
                card[MARK..].copy_from_slice(&first.expect("a card")[MARK..]);
            }
        })
    }),
    ("a relative card at the height before it", |loan| {
        with_cards(loan, |cards| {
            for place in 1..cards.len() {
                let before = cards[place - 1];
                if cards[place][MARK] == 0 {
                    cards[place][MARK..].copy_from_slice(&before[MARK..]);
                }
            }
        })
    }),
    ("every card relative", |loan| {
        with_cards(loan, |cards| {
            cards.iter_mut().for_each(|card| card[MARK..].fill(0));
        })
    }),
    ("mark 1 alone absolute", |loan| {
        with_cards(loan, |cards| {
            let mark = |card: &mut Numbers| card[MARK] = i32::from(card[MARK] == 1);
            cards.iter_mut().for_each(mark);
        })
    }),
    ("the heights summed up", |loan| {
        with_cards(loan, |cards| {
            let mut sum = 0_i32;
            for card in cards.iter_mut().filter(|card| card[MARK] == 1) {
                sum = sum.wrapping_add(card[HEIGHT]);
                card[HEIGHT] = sum;
            }
        })
    }),
    ("cards of ten numbers", |loan| {
        with_cards(loan, |cards| by_stride(cards, 10))
    }),
    ("cards of eight numbers", |loan| {
        with_cards(loan, |cards| {
            by_stride(cards, 8);
            cards.iter_mut().for_each(|card| card[MARK..].fill(0));
        })
    }),
    ("a card with 34 or 35 uses its rows", |loan| {
        fill_using(loan, |card, reply, rest| match reply.number {
            34 | 35 => in_all_rows(card),
            _ => in_rows(card, reply, rest),
        })
    }),
    ("34 and 35 for every card behind", |loan| {
        let number = right(loan);
        let mut before = 0;
        for reply in card_replies(loan) {
            if matches!(before, 34 | 35) {
                *reply = [before, 0];
            }
            before = reply[0];
        }
        number
    }),
];

/// The first day for which the program differs from the paper.
fn first_difference(program: Call) -> Option<u64> {
    (0..FIRST_DAYS).find(|&index| {
        let (_, case) = day(DEFAULT.seed, index, program);
        !case.due.unlike(&case.came).is_empty()
    })
}

/// Without this, a comparison that always differs would find every wrong program.
#[test]
fn right_programs_do_not_differ() {
    assert_eq!(first_difference(right), None);
    let card_after_card: Call = |loan| fill_using(loan, in_rows);
    assert_eq!(first_difference(card_after_card), None);
}

#[test]
fn wrong_parts_of_the_table_are_found() {
    all_are_found(first_difference, &WRONG_PARTS);
}

#[test]
fn wrong_replies_are_found() {
    all_are_found(first_difference, &WRONG_REPLIES);
}

#[test]
fn wrong_refusals_are_found() {
    all_are_found(first_difference, &WRONG_REFUSALS);
}

#[test]
fn wrong_heights_are_found() {
    all_are_found(first_difference, &WRONG_HEIGHTS);
}
