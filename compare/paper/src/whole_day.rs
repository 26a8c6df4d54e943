//! Document 02, Slip 2: "A whole day's cards in one call." Replies and rows by the papers' own figures.

use crate::card::{absolute, relative};
use crate::readings::{self, RAMP_ROWS};
use crate::{fill_day, fill_table, DayReply, Numbers};

/// What the lent numbers hold before the call; no row and no reply has them.
const TABLE_MARK: i32 = -77_777;
const REPLY_MARK: u32 = 77_777;

const RAMP: Numbers = relative(readings::RAMP);
const FLAT: Numbers = relative(readings::FLAT);
/// L 110000 and step 20000: 7 rows, so 49 numbers.
const LONG: Numbers = relative([2, 1, 200, 110_000, 30, 0, 20_000, 1]);

/// One card for each of its own reasons, and the number that it gets.
const REFUSED: [(u32, Numbers); 11] = [
    (1, relative([0, 1, 200, 100_000, 30, 0, 0, 1])),
    (2, relative([2, 3, 200, 100_000, 30, 0, 20_000, 1])),
    (3, relative([1, 1, 124, 100_000, 30, 0, 20_000, 1])),
    (4, relative([2, 1, 225, 79_999, 30, 0, 20_000, 1])),
    (5, relative([4, 1, 100, 60_000, 61, 0, 20_000, 1])),
    (6, relative([2, 1, 1001, 120_000, 30, 1, 20_000, 1])),
    (8, relative([1, 1, 125, 55_000, 60, 0, 20_000, 1])),
    (9, relative([2, 1, 200, 100_000, 30, 0, 999, 1])),
    (10, relative([2, 1, 200, 100_000, 30, 0, 20_000, 2])),
    (34, absolute(readings::FLAT, 5, 0)),
    (35, absolute(readings::RAMP, 0, 81)),
];

/// A day's reply, and what is lent, afterwards.
struct Day {
    number: u32,
    count: u32,
    table: Vec<i32>,
    replies: Vec<u32>,
}

fn day(cards: &[Numbers], table_length: usize, replies_length: usize) -> Day {
    let mut table = vec![TABLE_MARK; table_length];
    let mut replies = vec![REPLY_MARK; replies_length];
    let DayReply { number, count } = fill_day(cards, &mut table, &mut replies);
    Day {
        number,
        count,
        table,
        replies,
    }
}

impl Day {
    /// The number, the count and the whole reply list.
    fn answers(&self) -> (u32, u32, &[u32]) {
        (self.number, self.count, &self.replies)
    }

    /// RAMP's rows so many times from the table's start, and its other numbers kept.
    fn holds_ramp(&self, times: usize) -> bool {
        let (rows, rest) = self.table.split_at(21 * times);
        rows == RAMP_ROWS.repeat(times) && rest.iter().all(|&number| number == TABLE_MARK)
    }

    /// That number, count 0, and all that is lent as it was.
    fn gives_only(&self, number: u32) -> bool {
        let kept = self.replies.iter().all(|&reply| reply == REPLY_MARK);
        (self.number, self.count) == (number, 0) && kept && self.holds_ramp(0)
    }
}

/// "The number and count of each card go to a lent reply list, in order; its other numbers are kept."
#[test]
fn ramp_in_a_day() {
    let once = day(&[RAMP], 22, 3);
    assert_eq!(once.answers(), (0, 1, &[0, 3, REPLY_MARK][..]));
    assert!(once.holds_ramp(1));
    let twice = day(&[RAMP, RAMP], 50, 6);
    let due = [0, 3, 0, 3, REPLY_MARK, REPLY_MARK];
    assert_eq!(twice.answers(), (0, 2, &due[..]));
    assert!(twice.holds_ramp(2));
}

/// "Each card gets the part of the table that the cards before it haven't used."
#[test]
fn one_card_after_another() {
    let three = day(&[RAMP, FLAT, RAMP], 92, 6);
    assert_eq!(three.answers(), (0, 3, &[0, 3, 0, 7, 0, 3][..]));
    assert_eq!(three.table[..21], RAMP_ROWS);
    assert_eq!(three.table[70..91], RAMP_ROWS);
    assert_eq!(three.table[91], TABLE_MARK);
    let of_flat = three.table[21..70].chunks_exact(7);
    let outer_edges: Vec<_> = of_flat.map(|row| (row[0], row[5])).collect();
    for due in [(0, 10), (40_000, 22), (60_000, 23), (100_000, 26)] {
        assert!(outer_edges.contains(&due), "{due:?}");
    }
    assert_eq!(outer_edges[6], (120_000, 28));
}

/// "A refused card uses nothing and the next is tried."
#[test]
fn refused_at_the_start_in_the_middle_and_at_the_end() {
    for (number, card) in REFUSED {
        let start = day(&[card, RAMP], 42, 4);
        assert_eq!(start.answers(), (0, 2, &[number, 0, 0, 3][..]));
        assert!(start.holds_ramp(1), "{number}");
        let middle = day(&[RAMP, card, RAMP], 42, 6);
        assert_eq!(middle.answers(), (0, 3, &[0, 3, number, 0, 0, 3][..]));
        assert!(middle.holds_ramp(2), "{number}");
        let end = day(&[RAMP, card], 42, 4);
        assert_eq!(end.answers(), (0, 2, &[0, 3, number, 0][..]));
        assert!(end.holds_ramp(1), "{number}");
    }
}

/// "it gives number 0 and the count of cards": of all cards, though none is accepted.
#[test]
fn every_card_refused() {
    let all = day(&REFUSED.map(|(_, card)| card), 42, 22);
    let due = REFUSED.map(|(number, _)| [number, 0]);
    assert_eq!(all.answers(), (0, 11, due.as_flattened()));
    assert!(all.holds_ramp(0));
}

/// "a table of 48 numbers gives 11, of 49 passes"; RAMP still fits where the longer card does not.
#[test]
fn a_shorter_card_after_one_that_is_too_long() {
    let short = day(&[RAMP, LONG, RAMP], 21 + 48, 6);
    assert_eq!(short.answers(), (0, 3, &[0, 3, 11, 0, 0, 3][..]));
    assert!(short.holds_ramp(2));
    let long = day(&[RAMP, LONG, RAMP], 21 + 49, 6);
    assert_eq!(long.answers(), (0, 3, &[0, 3, 0, 7, 11, 0][..]));
    assert_eq!((long.table[21], long.table[63]), (0, 110_000));
}

#[test]
fn a_table_exactly_long_enough_and_one_number_short() {
    for (length, replies, ramps) in [
        (42, [0, 3, 0, 3], 2),
        (41, [0, 3, 11, 0], 1),
        (21, [0, 3, 11, 0], 1),
        (20, [11, 0, 11, 0], 0),
        (0, [11, 0, 11, 0], 0),
    ] {
        let two = day(&[RAMP, RAMP], length, 4);
        assert_eq!(two.answers(), (0, 2, &replies[..]), "{length} numbers");
        assert!(two.holds_ramp(ramps), "{length} numbers");
    }
}

/// "It refuses with 29 more than 64 cards".
#[test]
fn sixty_four_cards_and_more() {
    let full = day(&[RAMP; 64], 64 * 21, 128);
    assert_eq!(full.answers(), (0, 64, &[0, 3].repeat(64)[..]));
    assert!(full.holds_ramp(64));
    for cards in [65, 66, 128, 320, 65_600] {
        let more = day(&vec![RAMP; cards], 66 * 21, 2 * cards);
        assert!(more.gives_only(29), "{cards} cards");
    }
}

/// "and with 30 a reply list below two numbers a card, in that order".
#[test]
fn reply_lists_that_are_too_short() {
    for (cards, replies) in [(1, 0), (1, 1), (2, 2), (2, 3), (64, 64), (64, 127)] {
        let short = day(&vec![RAMP; cards], 64 * 21, replies);
        assert!(short.gives_only(30), "{cards} cards, {replies} numbers");
    }
    for replies in [0, 128, 129] {
        let both = day(&[RAMP; 65], 66 * 21, replies);
        assert!(both.gives_only(29), "{replies} numbers");
    }
}

/// "An empty list of cards is right: 0 and 0."
#[test]
fn no_cards() {
    for (table, replies) in [(0, 0), (42, 0), (0, 4), (42, 4)] {
        assert!(day(&[], table, replies).gives_only(0));
    }
}

/// "For every card the reply and the rows equal those of a single call on that part."
#[test]
fn every_card_as_in_a_single_call() {
    let cards = [RAMP, FLAT, REFUSED[3].1, LONG, RAMP, RAMP];
    (0..=190).for_each(|table_length| as_in_single_calls(&cards, table_length));
}

fn as_in_single_calls(cards: &[Numbers], table_length: usize) {
    let whole = day(cards, table_length, 2 * cards.len());
    let mut used = 0;
    for (card, reply) in cards.iter().zip(whole.replies.chunks_exact(2)) {
        let mut part = vec![TABLE_MARK; table_length - used];
        let single = fill_table(card, &mut part);
        assert_eq!(reply, [single.number, single.count]);
        let (rows, rest) = whole.table[used..].split_at(7 * single.count as usize);
        assert_eq!(rows, &part[..rows.len()]);
        used = table_length - rest.len();
    }
    assert!(whole.table[used..]
        .iter()
        .all(|&number| number == TABLE_MARK));
}
