//! Seeded days: a list of cards, and how long a table and a reply list are lent with it.

use crate::cards::{self, Numbers};
use crate::lent::ABOVE_16_BITS;
use crate::seeded::Seeded;
use paper::card::{GREATEST_LENGTH, GREATEST_STEP, LEAST_STEP};
use paper::{check_card, stations, Card};

/// Numbers in a row, and in the reply to a card.
pub const ROW: usize = 7;
pub const REPLY: usize = 2;
/// No day has more cards.
pub const MOST_CARDS: usize = 64;
/// Numbers of the longest card's rows, and of a table that is long enough for every day.
pub const LONGEST_CARD: usize = ROW * 301;
pub const LONGEST_DAY: usize = MOST_CARDS * LONGEST_CARD;
/// The numbers with which a card is refused for its own sake.
const OWN_REASONS: [u32; 11] = [1, 2, 3, 4, 5, 6, 8, 9, 10, 34, 35];
/// One full list in so many takes the longest table.
const LONGEST_ONE_IN: usize = 20;
/// One list of too many cards in so many has more than 65,536.
const LONG_ONE_IN: usize = 50;

pub struct Day {
    pub cards: Vec<Numbers>,
    pub table_length: usize,
    pub replies_length: usize,
}

/// Makes a seeded list of cards.
type Make = fn(&mut Seeded) -> Vec<Numbers>;

pub const KINDS: [(&str, Make); 10] = [
    ("accepted", |s| accepted(some(s), s)),
    ("mixed", |s| mixed(some(s), s)),
    ("refused at the start", |s| with_refused(s, |_, _| 0)),
    ("refused in the middle", |s| with_refused(s, middle)),
    ("refused at the end", |s| with_refused(s, |cards, _| cards)),
    ("the same card twice", twice),
    ("long before short", long_before_short),
    ("none, or one", none_or_one),
    ("full list", full_list),
    ("too many", too_many),
];

/// A day with that list of cards, and lengths that are measured against what is due for them.
pub fn day(cards: Vec<Numbers>, seeded: &mut Seeded) -> Day {
    Day {
        table_length: table_length(&ends(&cards), seeded),
        replies_length: replies_length(REPLY * cards.len(), seeded),
        cards,
    }
}

/// How many cards there are in most lists.
fn some(seeded: &mut Seeded) -> usize {
    let most = seeded.pick(&[3, 6, 6, 12, 12, 12, 20, 63]);
    seeded.between(2, most) as usize
}

fn accepted(count: usize, seeded: &mut Seeded) -> Vec<Numbers> {
    (0..count).map(|_| cards::valid(seeded)).collect()
}

/// Half of the cards valid, the others of any kind.
fn mixed(count: usize, seeded: &mut Seeded) -> Vec<Numbers> {
    let card = |seeded: &mut Seeded| match seeded.below(2) {
        0 => cards::valid(seeded),
        _ => seeded.pick(&cards::KINDS).1(seeded),
    };
    (0..count).map(|_| card(seeded)).collect()
}

/// A card that is refused with a number picked beforehand, so that each comes about as often.
fn refused(seeded: &mut Seeded) -> Numbers {
    let reason = seeded.pick(&OWN_REASONS);
    loop {
        let card = seeded.pick(&cards::KINDS).1(seeded);
        if check_card(&card) == reason {
            return card;
        }
    }
}

/// Accepted cards, and one to three refused ones among them, one after another.
fn with_refused(seeded: &mut Seeded, place: fn(usize, &mut Seeded) -> usize) -> Vec<Numbers> {
    let mut cards = accepted(some(seeded), seeded);
    let place = place(cards.len(), seeded);
    for _ in 0..seeded.between(1, 3) {
        cards.insert(place, refused(seeded));
    }
    cards.truncate(MOST_CARDS);
    cards
}

/// A place with cards before it and after it.
fn middle(cards: usize, seeded: &mut Seeded) -> usize {
    1 + seeded.below(cards - 1)
}

/// One card stands in the list once more, right behind itself or elsewhere.
fn twice(seeded: &mut Seeded) -> Vec<Numbers> {
    let mut cards = mixed(some(seeded), seeded);
    let from = seeded.below(cards.len());
    let elsewhere = seeded.below(cards.len() + 1);
    let to = seeded.pick(&[from + 1, elsewhere]);
    cards.insert(to, cards[from]);
    cards
}

/// Cards with steps of 1 m, then such with the greatest step: some of them fit where the longer ones did not.
fn long_before_short(seeded: &mut Seeded) -> Vec<Numbers> {
    let step = |mut card: Numbers, step| {
        card[cards::STEP] = u32::cast_signed(step);
        card
    };
    let long = accepted(seeded.between(1, 2) as usize, seeded);
    let short = accepted(seeded.between(1, 5) as usize, seeded);
    let long = long.into_iter().map(|card| step(card, LEAST_STEP));
    long.chain(short.into_iter().map(|card| step(card, GREATEST_STEP)))
        .collect()
}

/// No card; one that may be accepted; one that is refused.
fn none_or_one(seeded: &mut Seeded) -> Vec<Numbers> {
    match seeded.below(4) {
        0 => Vec::new(),
        1 | 2 => mixed(1, seeded),
        _ => vec![refused(seeded)],
    }
}

/// 64 cards; rarely each of them as long as a card can be, 301 rows.
fn full_list(seeded: &mut Seeded) -> Vec<Numbers> {
    if !seeded.one_in(LONGEST_ONE_IN) {
        return mixed(MOST_CARDS, seeded);
    }
    let mut cards = accepted(MOST_CARDS, seeded);
    for card in &mut cards {
        card[cards::LENGTH] = GREATEST_LENGTH.cast_signed();
        card[cards::STEP] = LEAST_STEP.cast_signed();
    }
    cards
}

/// More than 64 cards: one more, some more, far more, and such that 8 or 16 bits of their count would be right.
fn too_many(seeded: &mut Seeded) -> Vec<Numbers> {
    if seeded.one_in(LONG_ONE_IN) {
        return mixed(ABOVE_16_BITS + seeded.below(MOST_CARDS + 1), seeded);
    }
    let count = match seeded.below(8) {
        0..=2 => 65,
        3 | 4 => seeded.between(66, 130),
        5 | 6 => 256 + seeded.between(0, 64),
        _ => seeded.between(1000, 1100),
    };
    mixed(count as usize, seeded)
}

/// Where the rows of each accepted card end in a table long enough; of too many cards, the first 64.
fn ends(cards: &[Numbers]) -> Vec<usize> {
    let accepted = cards
        .iter()
        .take(MOST_CARDS)
        .filter(|card| check_card(card) == 0);
    let ends = accepted.scan(0, |end, card| {
        *end += ROW * stations(&Card::new(card)).len();
        Some(*end)
    });
    ends.collect()
}

/// None, hardly any, one number short, exactly due, one more, many more, rarely above 65,536, or the end of a card
/// or a place within it.
fn table_length(ends: &[usize], seeded: &mut Seeded) -> usize {
    let due = ends.last().copied().unwrap_or(0);
    match seeded.below(20) {
        0 => 0,
        1 => seeded.between(1, 20) as usize,
        2 | 3 => due.saturating_sub(1),
        4..=8 => due,
        9 | 10 => due + 1,
        11 | 12 => due + seeded.between(2, 400) as usize,
        13 if seeded.one_in(4) => {
            let short_in_16_bits = ABOVE_16_BITS + seeded.below(due + 1);
            seeded.pick(&[LONGEST_DAY, short_in_16_bits])
        }
        _ => within_a_card(ends, seeded),
    }
}

/// A length that ends with the rows of one of the cards, one number before, or anywhere within them.
fn within_a_card(ends: &[usize], seeded: &mut Seeded) -> usize {
    if ends.is_empty() {
        return seeded.below(100);
    }
    let place = seeded.below(ends.len());
    let start = place.checked_sub(1).map_or(0, |before| ends[before]);
    match seeded.below(6) {
        0 => ends[place],
        1 => ends[place] - 1,
        _ => start + seeded.below(ends[place] - start),
    }
}

/// None, one number a card, one short, any below, exactly due, one more, many more, rarely above 65,536.
fn replies_length(due: usize, seeded: &mut Seeded) -> usize {
    match seeded.below(32) {
        0 => 0,
        1 => due / 2,
        2 | 3 => due.saturating_sub(1),
        4 => seeded.below(due + 1),
        5..=16 => due,
        17..=23 => due + 1,
        24 if seeded.one_in(5) => ABOVE_16_BITS + seeded.below(due + 1),
        _ => due + seeded.between(2, 200) as usize,
    }
}
