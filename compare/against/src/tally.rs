//! What was met, and what differed.

use crate::book_case::{self, BookCase};
use crate::book_tally::{self, SORTS as BOOK_SORTS};
use crate::books;
use crate::card_case::{self, CardAnswer, CardCase, CLASSES};
use crate::card_tally::{self, SORTS as CARD_SORTS};
use crate::cards;
use crate::day_tally::DayTally;
use crate::list_tally::ListTally;
use crate::minsk_tally::MinskTally;
use crate::radius_case::{self, RadiusCase};
use crate::walk_tally::WalkTally;
use paper::card::{profile, Datum};
use paper::fraction::{fraction, whole, Fraction};
use paper::section::{Course, Runoff};
use paper::Card;

/// Differences that are shown in full.
pub const SHOWN: usize = 10;
/// The kinds of cards, and the cards of curves in accepted books.
pub const CARD_KINDS: usize = cards::KINDS.len() + 1;
pub const FROM_A_BOOK: usize = CARD_KINDS - 1;
pub const BOOK_KINDS: usize = books::KINDS.len();
/// "Number 7 never occurs again" (document 02, Slip 1); 34 and 35 come "after 10 and before 11" (Slip 5).
pub const CARD_REPLIES: [u32; 13] = [0, 1, 2, 3, 4, 5, 6, 8, 9, 10, 34, 35, 11];
pub const BOOK_REPLIES: [u32; 9] = [0, 21, 22, 23, 24, 25, 26, 27, 28];

/// Sorts of runoffs for which rows come; a runoff can be of more than one.
pub const SORTS: [&str; 6] = [
    "even",
    "two-stage",
    "kept at m",
    "W above c",
    "relative",
    "absolute",
];

/// Where a radius lies, and the listed lengths in metres.
pub const RANGES: [&str; 3] = ["below 30", "30 to 2000", "above 2000"];
pub const LENGTHS: [u32; 13] = [30, 35, 40, 45, 50, 55, 60, 70, 80, 90, 100, 110, 120];

/// The place of a radius among `RANGES`.
fn range(radius: u32) -> usize {
    match radius {
        0..=29 => 0,
        30..=2000 => 1,
        _ => 2,
    }
}

/// Of which of the sorts an accepted card's runoff is.
fn sorts(card: &Card) -> [bool; SORTS.len()] {
    let profile = profile(card.profile).expect("an accepted card has a profile");
    let even = Runoff::new(card).course == Course::Even;
    let kept = card.full_widening + profile.least_shoulder > profile.shoulder;
    let above = card.full_widening > profile.shoulder;
    let relative = card.datum == Datum::Relative;
    [even, !even, kept, above, relative, !relative]
}

/// How many answers were altered, and how many of them were found.
#[derive(Clone, Copy, Default)]
pub struct Altered {
    pub made: u64,
    pub found: u64,
}

/// A difference in words, with the piece of work it was met in.
pub struct Difference {
    pub piece: u64,
    pub words: String,
}

pub struct Tally {
    pub cards: [[u64; CARD_REPLIES.len()]; CARD_KINDS],
    pub classes: [[u64; CLASSES.len()]; CARD_KINDS],
    /// Cards to which the library or the paper gave a number that is not among the replies.
    pub unlisted: u64,
    pub sorts: [[u64; SORTS.len()]; 5],
    pub card_sorts: [u64; CARD_SORTS.len()],
    pub books: [[u64; BOOK_REPLIES.len()]; BOOK_KINDS],
    pub book_sorts: [u64; BOOK_SORTS.len()],
    pub rows: u64,
    pub table_numbers: u64,
    pub curves: u64,
    pub list_numbers: u64,
    pub radii: [[u64; LENGTHS.len()]; RANGES.len()],
    pub radius_numbers: u64,
    pub altered_cards: [Altered; card_case::ALTERATIONS.len()],
    pub altered_books: [Altered; book_case::ALTERATIONS.len()],
    pub altered_radii: [Altered; radius_case::ALTERATIONS.len()],
    pub days: DayTally,
    pub lists: ListTally,
    pub minsk: MinskTally,
    pub walks: WalkTally,
    pub differing: u64,
    pub differences: Vec<Difference>,
}

impl Default for Tally {
    fn default() -> Tally {
        Tally {
            cards: [[0; CARD_REPLIES.len()]; CARD_KINDS],
            classes: [[0; CLASSES.len()]; CARD_KINDS],
            unlisted: 0,
            sorts: [[0; SORTS.len()]; 5],
            card_sorts: [0; CARD_SORTS.len()],
            books: [[0; BOOK_REPLIES.len()]; BOOK_KINDS],
            book_sorts: [0; BOOK_SORTS.len()],
            rows: 0,
            table_numbers: 0,
            curves: 0,
            list_numbers: 0,
            radii: [[0; LENGTHS.len()]; RANGES.len()],
            radius_numbers: 0,
            altered_cards: [Altered::default(); card_case::ALTERATIONS.len()],
            altered_books: [Altered::default(); book_case::ALTERATIONS.len()],
            altered_radii: [Altered::default(); radius_case::ALTERATIONS.len()],
            days: DayTally::default(),
            lists: ListTally::default(),
            minsk: MinskTally::default(),
            walks: WalkTally::default(),
            differing: 0,
            differences: Vec::new(),
        }
    }
}

pub fn add_numbers<const N: usize>(to: &mut [u64; N], from: &[u64; N]) {
    to.iter_mut().zip(from).for_each(|(to, from)| *to += from);
}

/// Half a unit lies between an exact number of units and the rounded number.
pub fn is_halfway(exact: Fraction, number: i32) -> bool {
    let between = exact - whole(number);
    between == fraction(1, 2) || between == fraction(-1, 2)
}

pub fn add_altered(to: &mut [Altered], from: &[Altered]) {
    for (to, from) in to.iter_mut().zip(from) {
        to.made += from.made;
        to.found += from.found;
    }
}

/// Whether the library or the paper gave a number, by either call, that is not among the replies.
fn has_unlisted_reply(case: &CardCase) -> bool {
    let of = |answer: &CardAnswer| [answer.check, answer.reply];
    let mut given = of(&case.due).into_iter().chain(of(&case.came));
    given.any(|number| !CARD_REPLIES.contains(&number))
}

impl Tally {
    pub fn count_card(&mut self, kind: usize, case: &CardCase) {
        self.unlisted += u64::from(has_unlisted_reply(case));
        let met = CARD_REPLIES.iter().position(|&n| n == case.due.reply);
        if let Some(met) = met {
            self.cards[kind][met] += 1;
        }
        self.classes[kind][case.class] += 1;
        self.rows += u64::from(case.due.count.numbers()[0]);
        self.table_numbers += case.due.numbers_compared();
        if case.due.reply == 0 {
            let sorts = sorts(&Card::new(&case.card)).map(u64::from);
            add_numbers(&mut self.sorts[case.card[0] as usize - 1], &sorts);
        }
        if kind != FROM_A_BOOK {
            let seen = card_tally::seen(case);
            let sorts = CARD_SORTS.map(|(_, is_of_sort)| u64::from(is_of_sort(&seen)));
            add_numbers(&mut self.card_sorts, &sorts);
        }
    }

    pub fn count_book(&mut self, kind: usize, case: &BookCase) {
        let met = BOOK_REPLIES.iter().position(|&n| n == case.due.reply);
        self.books[kind][met.expect("a reply of the paper")] += 1;
        self.curves += u64::from(case.due.count.numbers()[0]);
        self.list_numbers += case.due.numbers_compared();
        let seen = book_tally::Seen::new(case);
        let sorts = BOOK_SORTS.map(|(_, is_of_sort)| u64::from(is_of_sort(&seen)));
        add_numbers(&mut self.book_sorts, &sorts);
    }

    pub fn count_radius(&mut self, case: &RadiusCase) {
        let met = LENGTHS.iter().position(|&n| n == case.due.length);
        self.radii[range(case.radius)][met.expect("a listed length")] += 1;
        self.radius_numbers += case.due.numbers_compared();
    }

    /// Keeps the words of the first differences only, and the count of all.
    pub fn differs(&mut self, piece: u64, words: impl FnOnce() -> String) {
        self.differing += 1;
        if self.differences.len() < SHOWN {
            let words = words();
            self.differences.push(Difference { piece, words });
        }
    }

    pub fn add(&mut self, other: Tally) {
        for kind in 0..CARD_KINDS {
            add_numbers(&mut self.cards[kind], &other.cards[kind]);
            add_numbers(&mut self.classes[kind], &other.classes[kind]);
        }
        for kind in 0..BOOK_KINDS {
            add_numbers(&mut self.books[kind], &other.books[kind]);
        }
        for profile in 0..5 {
            add_numbers(&mut self.sorts[profile], &other.sorts[profile]);
        }
        for range in 0..RANGES.len() {
            add_numbers(&mut self.radii[range], &other.radii[range]);
        }
        add_numbers(&mut self.card_sorts, &other.card_sorts);
        add_numbers(&mut self.book_sorts, &other.book_sorts);
        add_altered(&mut self.altered_cards, &other.altered_cards);
        add_altered(&mut self.altered_books, &other.altered_books);
        add_altered(&mut self.altered_radii, &other.altered_radii);
        self.days.add(&other.days);
        self.lists.add(&other.lists);
        self.minsk.add(&other.minsk);
        self.walks.add(&other.walks);
        self.unlisted += other.unlisted;
        self.rows += other.rows;
        self.table_numbers += other.table_numbers;
        self.curves += other.curves;
        self.list_numbers += other.list_numbers;
        self.radius_numbers += other.radius_numbers;
        self.differing += other.differing;
        self.differences.extend(other.differences);
        self.differences.sort_by_key(|difference| difference.piece);
        self.differences.truncate(SHOWN);
    }

    /// How often a reply to a card was met, the cards from books left out.
    pub fn card_reply(&self, reply: usize) -> u64 {
        self.cards[..FROM_A_BOOK]
            .iter()
            .map(|kind| kind[reply])
            .sum()
    }

    pub fn book_reply(&self, reply: usize) -> u64 {
        self.books.iter().map(|kind| kind[reply]).sum()
    }

    pub fn radii_compared(&self) -> u64 {
        self.radii.as_flattened().iter().sum()
    }

    /// How many runoffs of a sort were met, of all profiles.
    pub fn sort(&self, sort: usize) -> u64 {
        self.sorts.iter().map(|profile| profile[sort]).sum()
    }
}

#[cfg(test)]
mod tests {
    use super::Tally;
    use crate::card_case::{library, run, CardCase};
    use crate::cards::Numbers;
    use crate::seeded::Seeded;
    use paper::card::relative;

    const RAMP: Numbers = relative([5, 1, 30, 30_000, 60, 600, 20_000, 1]);

    /// How many cards are counted as unlisted when this is done to the answers for RAMP.
    fn unlisted(alter: fn(&mut CardCase)) -> u64 {
        let mut case = run(RAMP, library, &mut Seeded::new(1, 1, 1));
        alter(&mut case);
        let mut tally = Tally::default();
        tally.count_card(0, &case);
        tally.unlisted
    }

    #[test]
    fn number_7_is_counted_wherever_it_comes_from() {
        assert_eq!(unlisted(|_| ()), 0);
        assert_eq!(unlisted(|case| case.due.check = 7), 1);
        assert_eq!(unlisted(|case| case.due.reply = 7), 1);
        assert_eq!(unlisted(|case| case.came.check = 7), 1);
        assert_eq!(unlisted(|case| case.came.reply = 7), 1);
        assert_eq!(unlisted(|case| case.came.reply = 12), 1);
        assert_eq!(unlisted(|case| case.came.reply = 8), 0);
        assert_eq!(unlisted(|case| case.came.reply = 34), 0);
        assert_eq!(unlisted(|case| case.came.reply = 36), 1);
    }
}
