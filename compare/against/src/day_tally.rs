//! What was met among the days: their replies, those of their cards by place, and sorts of days.

use crate::cards::{Numbers, MARK};
use crate::day_case::{self, DayAnswer, DayCase};
use crate::days::{self, LONGEST_DAY, MOST_CARDS, REPLY, ROW};
use crate::lent::ABOVE_16_BITS;
use crate::tally::{add_altered, add_numbers, Altered, CARD_REPLIES};
use paper::{stations, Card};

pub const DAY_KINDS: usize = days::KINDS.len();
pub const DAY_REPLIES: [u32; 3] = [0, 29, 30];

/// Where a card stands in the list of a day that is not refused.
pub const PLACES: [&str; 4] = ["first", "within", "last", "alone"];

/// A day as its sorts see it: what is lent, and what is due.
pub struct Seen<'a> {
    cards: &'a [Numbers],
    table: usize,
    replies: usize,
    /// The number of each card; none after a refusal.
    numbers: Vec<u32>,
    /// Numbers of the table that hold rows, and more that the cards with 11 would have taken.
    used: usize,
    lacking: usize,
}

impl Seen<'_> {
    fn new(due: &DayAnswer) -> Seen<'_> {
        let numbers: Vec<u32> = due.card_replies().iter().map(|reply| reply[0]).collect();
        let pairs = due.cards().iter().zip(&numbers);
        let too_long = pairs.filter(|(_, number)| **number == 11);
        let rows = too_long.map(|(card, _)| stations(&Card::new(card)).len());
        Seen {
            cards: due.cards(),
            table: due.table.numbers().len(),
            replies: due.replies.numbers().len(),
            used: due.in_rows(),
            lacking: ROW * rows.sum::<usize>(),
            numbers,
        }
    }

    /// Neither without cards nor with too many.
    fn has_cards(&self) -> bool {
        (1..=MOST_CARDS).contains(&self.cards.len())
    }

    /// With cards, and not refused.
    fn is_filled(&self) -> bool {
        !self.numbers.is_empty()
    }

    fn replies_due(&self) -> usize {
        REPLY * self.cards.len()
    }

    /// The places of the first and the last accepted card.
    fn accepted(&self) -> Option<(usize, usize)> {
        let first = self.numbers.iter().position(|&number| number == 0)?;
        let last = self.numbers.iter().rposition(|&number| number == 0)?;
        Some((first, last))
    }

    /// Of each accepted card whether it is absolute.
    fn absolute(&self) -> Vec<bool> {
        let replied = self.cards.iter().zip(&self.numbers);
        let accepted = replied.filter(|(_, number)| **number == 0);
        accepted.map(|(card, _)| card[MARK] != 0).collect()
    }

    /// Whether a card has the first number, and the same card once more, later, the other.
    fn twice(&self, first: u32, other: u32) -> bool {
        let replied: Vec<_> = self.cards.iter().zip(&self.numbers).collect();
        let again = |place: usize, (card, number): (&Numbers, &u32)| {
            *number == first && replied[place + 1..].contains(&(card, &other))
        };
        let mut places = replied.iter().enumerate();
        places.any(|(place, &pair)| again(place, pair))
    }
}

/// Whether a day is of a sort.
type IsOfSort = fn(&Seen) -> bool;

/// Sorts of days, by what is lent and what is due; a day can be of more than one.
pub const SORTS: [(&str, IsOfSort); 32] = [
    ("no cards", |day| day.cards.is_empty()),
    ("nothing lent", |day| {
        day.cards.is_empty() && day.table + day.replies == 0
    }),
    ("1 card", |day| day.cards.len() == 1),
    ("2 to 63 cards", |day| {
        (2..MOST_CARDS).contains(&day.cards.len())
    }),
    ("64 cards", |day| day.cards.len() == MOST_CARDS),
    ("65 cards", |day| day.cards.len() == MOST_CARDS + 1),
    ("66 to 999 cards", |day| {
        (66..1000).contains(&day.cards.len())
    }),
    ("1000 to 65535 cards", |day| {
        (1000..ABOVE_16_BITS).contains(&day.cards.len())
    }),
    ("65536 cards and more", |day| {
        day.cards.len() >= ABOVE_16_BITS
    }),
    ("29 alone", |day| {
        day.cards.len() > MOST_CARDS && day.replies >= day.replies_due()
    }),
    ("29 before 30", |day| {
        day.cards.len() > MOST_CARDS && day.replies < day.replies_due()
    }),
    ("30 without a reply list", |day| {
        day.has_cards() && day.replies == 0
    }),
    ("30 by one number", |day| {
        day.has_cards() && day.replies + 1 == day.replies_due()
    }),
    ("reply list exactly due", |day| {
        day.has_cards() && day.replies == day.replies_due()
    }),
    ("reply list longer", |day| {
        day.has_cards() && day.replies > day.replies_due()
    }),
    ("no table", |day| day.is_filled() && day.table == 0),
    ("table exactly due", |day| {
        day.used > 0 && day.lacking == 0 && day.table == day.used
    }),
    ("table one number short", |day| {
        day.lacking > 0 && day.table + 1 == day.used + day.lacking
    }),
    ("table longer", |day| {
        day.used > 0 && day.lacking == 0 && day.table > day.used
    }),
    ("longest table there is", |day| day.used == LONGEST_DAY),
    ("accepted after 11", |day| {
        let too_long = day.numbers.iter().position(|&number| number == 11);
        too_long.is_some_and(|place| day.numbers[place..].contains(&0))
    }),
    ("refused at the start", |day| {
        day.accepted().is_some_and(|(first, _)| first > 0)
    }),
    ("refused in the middle", |day| {
        let between = |(first, last)| day.numbers[first..=last].iter().any(|&n| n > 0);
        day.accepted().is_some_and(between)
    }),
    ("refused at the end", |day| {
        day.accepted()
            .is_some_and(|(_, last)| last + 1 < day.numbers.len())
    }),
    ("all accepted", |day| {
        day.is_filled() && day.numbers.iter().all(|&number| number == 0)
    }),
    ("all refused", |day| {
        day.is_filled() && day.numbers.iter().all(|&number| number > 0)
    }),
    ("a card twice", |day| day.twice(0, 0)),
    ("a card again, now 11", |day| day.twice(0, 11)),
    ("relative cards only", |day| {
        let absolute = day.absolute();
        absolute.len() > 1 && !absolute.contains(&true)
    }),
    ("absolute cards only", |day| {
        let absolute = day.absolute();
        absolute.len() > 1 && !absolute.contains(&false)
    }),
    ("relative after absolute", |day| {
        day.absolute().windows(2).any(|two| two == [true, false])
    }),
    ("absolute after relative", |day| {
        day.absolute().windows(2).any(|two| two == [false, true])
    }),
];

#[derive(Default)]
pub struct DayTally {
    pub days: [[u64; DAY_REPLIES.len()]; DAY_KINDS],
    pub cards: [[u64; CARD_REPLIES.len()]; PLACES.len()],
    pub sorts: [u64; SORTS.len()],
    /// Days for which the library or the paper gave a number that is not among the replies.
    pub unlisted: u64,
    pub rows: u64,
    pub numbers: u64,
    pub altered: [Altered; day_case::ALTERATIONS.len()],
}

/// The place of a card among so many, as `PLACES` has it.
fn place_of(card: usize, cards: usize) -> usize {
    match card {
        _ if cards == 1 => 3,
        0 => 0,
        _ if card + 1 == cards => 2,
        _ => 1,
    }
}

/// Whether the library or the paper gave a number, to the day or to a card, that is not among the replies.
fn has_unlisted_reply(case: &DayCase) -> bool {
    let is_unlisted = |answer: &DayAnswer| {
        let mut cards = answer.card_replies().iter();
        !DAY_REPLIES.contains(&answer.reply) || cards.any(|reply| !CARD_REPLIES.contains(&reply[0]))
    };
    is_unlisted(&case.due) || is_unlisted(&case.came)
}

impl DayTally {
    pub fn count(&mut self, kind: usize, case: &DayCase) {
        self.unlisted += u64::from(has_unlisted_reply(case));
        let met = DAY_REPLIES.iter().position(|&n| n == case.due.reply);
        self.days[kind][met.expect("a reply of the paper")] += 1;
        self.numbers += case.due.numbers_compared();
        let seen = Seen::new(&case.due);
        self.rows += (seen.used / ROW) as u64;
        self.count_cards(&seen.numbers);
        let sorts = SORTS.map(|(_, is_of_sort)| u64::from(is_of_sort(&seen)));
        add_numbers(&mut self.sorts, &sorts);
    }

    fn count_cards(&mut self, numbers: &[u32]) {
        for (card, number) in numbers.iter().enumerate() {
            if let Some(met) = CARD_REPLIES.iter().position(|n| n == number) {
                self.cards[place_of(card, numbers.len())][met] += 1;
            }
        }
    }

    pub fn add(&mut self, other: &DayTally) {
        for kind in 0..DAY_KINDS {
            add_numbers(&mut self.days[kind], &other.days[kind]);
        }
        for place in 0..PLACES.len() {
            add_numbers(&mut self.cards[place], &other.cards[place]);
        }
        add_numbers(&mut self.sorts, &other.sorts);
        add_altered(&mut self.altered, &other.altered);
        self.unlisted += other.unlisted;
        self.rows += other.rows;
        self.numbers += other.numbers;
    }

    pub fn day_reply(&self, reply: usize) -> u64 {
        self.days.iter().map(|kind| kind[reply]).sum()
    }
}

#[cfg(test)]
mod tests {
    use super::{DayTally, SORTS};
    use crate::cards::Numbers;
    use crate::day_case::{library, run, DayCase};
    use crate::days::Day;
    use crate::seeded::Seeded;
    use paper::card::{absolute, relative};

    const RAMP: Numbers = relative([5, 1, 30, 30_000, 60, 600, 20_000, 1]);
    const HIGH_RAMP: Numbers = absolute([5, 1, 30, 30_000, 60, 600, 20_000, 1], 250_000, -35);
    /// 7 rows.
    const LONG: Numbers = relative([2, 1, 200, 110_000, 30, 0, 20_000, 1]);
    const REFUSED: Numbers = [0; 11];

    fn case(cards: &[Numbers], table_length: usize, replies_length: usize) -> DayCase {
        let day = Day {
            cards: cards.to_vec(),
            table_length,
            replies_length,
        };
        run(&day, library, &mut Seeded::new(1, 1, 1))
    }

    /// The sorts of the day, one after another.
    fn sorts(cards: &[Numbers], table_length: usize, replies_length: usize) -> String {
        let mut tally = DayTally::default();
        tally.count(0, &case(cards, table_length, replies_length));
        let met = SORTS.iter().zip(tally.sorts).filter(|(_, met)| *met > 0);
        let names: Vec<_> = met.map(|((name, _), _)| *name).collect();
        names.join("; ")
    }

    #[test]
    fn sorts_by_the_lists() {
        assert_eq!(sorts(&[], 0, 0), "no cards; nothing lent");
        assert_eq!(sorts(&[], 21, 2), "no cards");
        assert_eq!(sorts(&[RAMP], 21, 0), "1 card; 30 without a reply list");
        assert_eq!(sorts(&[RAMP; 64], 21, 127), "64 cards; 30 by one number");
        assert_eq!(sorts(&[RAMP; 65], 21, 130), "65 cards; 29 alone");
        assert_eq!(sorts(&[RAMP; 65], 21, 129), "65 cards; 29 before 30");
        assert_eq!(sorts(&[RAMP; 66], 21, 132), "66 to 999 cards; 29 alone");
        let many = sorts(&[RAMP; 1000], 21, 0);
        assert_eq!(many, "1000 to 65535 cards; 29 before 30");
        let above = sorts(&vec![RAMP; 65_536], 21, 0);
        assert_eq!(above, "65536 cards and more; 29 before 30");
    }

    #[test]
    fn sorts_by_the_table() {
        let exact = "1 card; reply list exactly due; table exactly due; all accepted";
        assert_eq!(sorts(&[RAMP], 21, 2), exact);
        let longer = "1 card; reply list longer; table longer; all accepted";
        assert_eq!(sorts(&[RAMP], 22, 3), longer);
        let none = "2 to 63 cards; reply list exactly due; no table; all refused";
        assert_eq!(sorts(&[REFUSED, RAMP], 0, 4), none);
        let short = "2 to 63 cards; reply list longer; table one number short; \
                     refused at the end; a card again, now 11";
        assert_eq!(sorts(&[RAMP, RAMP], 41, 5), short);
        let longest = relative([2, 1, 200, 300_000, 30, 0, 1000, 1]);
        let longest = sorts(&[longest; 64], 64 * 2107, 128);
        assert!(longest.contains("longest table there is"), "{longest}");
    }

    #[test]
    fn sorts_by_the_replies() {
        let start = "2 to 63 cards; reply list exactly due; table longer; refused at the start";
        assert_eq!(sorts(&[REFUSED, RAMP], 30, 4), start);
        let middle = "2 to 63 cards; reply list exactly due; accepted after 11; \
                      refused in the middle; a card twice; relative cards only";
        assert_eq!(sorts(&[RAMP, LONG, RAMP], 21 + 48, 6), middle);
        let end = "2 to 63 cards; reply list exactly due; table exactly due; refused at the end";
        assert_eq!(sorts(&[RAMP, REFUSED], 21, 4), end);
    }

    #[test]
    fn sorts_by_the_heights() {
        let kinds = |cards: &[Numbers]| {
            let sorts = sorts(cards, 100, 2 * cards.len());
            let (_, kinds) = sorts.split_once("all accepted").expect("accepted");
            kinds.trim_start_matches("; ").to_string()
        };
        assert_eq!(kinds(&[RAMP, LONG]), "relative cards only");
        assert_eq!(kinds(&[HIGH_RAMP]), "");
        let high = absolute([2, 1, 200, 110_000, 30, 0, 20_000, 1], 0, 0);
        assert_eq!(kinds(&[HIGH_RAMP, high]), "absolute cards only");
        assert_eq!(kinds(&[HIGH_RAMP, RAMP]), "relative after absolute");
        assert_eq!(kinds(&[RAMP, HIGH_RAMP]), "absolute after relative");
    }

    /// In how many days a number is counted as unlisted, when this is done to the answers for a day with RAMP.
    fn unlisted(alter: fn(&mut DayCase)) -> u64 {
        let mut case = case(&[REFUSED, RAMP], 21, 4);
        alter(&mut case);
        let mut tally = DayTally::default();
        tally.count(0, &case);
        tally.unlisted
    }

    #[test]
    fn number_7_is_counted_wherever_it_comes_from() {
        assert_eq!(unlisted(|_| ()), 0);
        assert_eq!(unlisted(|case| case.due.replies.numbers_mut()[0] = 7), 1);
        assert_eq!(unlisted(|case| case.came.replies.numbers_mut()[2] = 7), 1);
        assert_eq!(unlisted(|case| case.came.replies.numbers_mut()[2] = 8), 0);
        assert_eq!(unlisted(|case| case.came.reply = 7), 1);
        assert_eq!(unlisted(|case| case.came.reply = 29), 0);
    }
}
