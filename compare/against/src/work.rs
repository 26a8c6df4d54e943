//! The work, in pieces; each case has its own seeded numbers, whoever does it.

use crate::book_case::{self, BookAnswer, BookCase};
use crate::books;
use crate::card_case::{self, CardAnswer, CardCase};
use crate::cards;
use crate::day_case::{self, Call, DayAnswer, DayCase};
use crate::days;
use crate::lent::Unlike;
use crate::list_case::{self, ListAnswer, ListCase};
use crate::lists;
use crate::minsk_cards;
use crate::minsk_case;
use crate::radii::radii;
use crate::radius_case::{self, RadiusAnswer, RadiusCase};
use crate::seeded::Seeded;
use crate::tally::{Altered, Tally, FROM_A_BOOK};
use crate::walk_case::{self, WalkAnswer, WalkCase};
use crate::words;
use std::fmt::Arguments;
use std::ops::Range;
use std::sync::atomic::{AtomicU64, Ordering};
use std::thread;

/// Cards of either method, books or lists in a piece, and days, which are longer; one of them is altered as well.
const PIECE: u64 = 1000;
const DAYS_PIECE: u64 = 100;
/// Sorts of seeded numbers.
const CARD: u64 = 1;
const BOOK: u64 = 2;
const ALTERED_CARD: u64 = 3;
const ALTERED_BOOK: u64 = 4;
const DAY: u64 = 5;
const ALTERED_DAY: u64 = 6;
const RADIUS: u64 = 7;
const ALTERED_RADIUS: u64 = 8;
const LIST: u64 = 9;
const ALTERED_LIST: u64 = 10;
const FILLED_BOOK: u64 = 11;
const MINSK: u64 = 12;
const ALTERED_MINSK: u64 = 13;
const WALK: u64 = 14;
const ALTERED_WALK: u64 = 15;
/// One accepted book in so many has its cards filled into tables too.
const BOOKS_FILLED: usize = 4;

#[derive(Clone, Copy)]
pub struct Asked {
    pub cards: u64,
    pub books: u64,
    pub days: u64,
    pub lists: u64,
    pub minsk: u64,
    pub seed: u64,
}

/// Does all that is asked, and all radii, on all cores.
pub fn all(asked: Asked) -> Tally {
    let next = AtomicU64::new(0);
    let hands = thread::available_parallelism().map_or(2, usize::from);
    let mut tally = Tally::default();
    thread::scope(|scope| {
        let work = || pieces(asked, &next);
        let working: Vec<_> = (0..hands).map(|_| scope.spawn(work)).collect();
        for hand in working {
            tally.add(hand.join().expect("the work is done to its end"));
        }
    });
    tally
}

/// Takes the next piece until there is none left; the radii are the last one.
fn pieces(asked: Asked, next: &AtomicU64) -> Tally {
    let card_pieces = asked.cards.div_ceil(PIECE);
    let books_end = card_pieces + asked.books.div_ceil(PIECE);
    let days_end = books_end + asked.days.div_ceil(DAYS_PIECE);
    let lists_end = days_end + asked.lists.div_ceil(PIECE);
    let minsk_end = lists_end + asked.minsk.div_ceil(PIECE);
    let mut tally = Tally::default();
    loop {
        let piece = next.fetch_add(1, Ordering::Relaxed);
        if piece < card_pieces {
            cards_of(piece, piece, asked, &mut tally);
        } else if piece < books_end {
            books_of(piece, piece - card_pieces, asked, &mut tally);
        } else if piece < days_end {
            days_of(piece, piece - books_end, asked, &mut tally);
        } else if piece < lists_end {
            lists_of(piece, piece - days_end, asked, &mut tally);
        } else if piece < minsk_end {
            minsk_of(piece, piece - lists_end, asked, &mut tally);
        } else if piece == minsk_end {
            all_radii(piece, asked.seed, &mut tally);
        } else {
            return tally;
        }
    }
}

/// The indices of the n-th piece, and the one among them that is altered.
fn indices(nth: u64, piece: u64, total: u64, altered: &mut Seeded) -> (Range<u64>, u64) {
    let range = nth * piece..total.min((nth + 1) * piece);
    let chosen = range.start + altered.next() % (range.end - range.start);
    (range, chosen)
}

/// The kind of the card of that index, and its answers by the paper and by the calls.
pub fn card(seed: u64, index: u64, call: card_case::Call) -> (usize, CardCase) {
    let mut seeded = Seeded::new(seed, CARD, index);
    let kind = index as usize % cards::KINDS.len();
    let (_, make) = cards::KINDS[kind];
    let card = make(&mut seeded);
    (kind, card_case::run(card, call, &mut seeded))
}

/// The answers to the walk of the card of that index, by the paper and by the call.
pub fn walk(seed: u64, index: u64, filled: &CardCase, call: walk_case::Call) -> WalkCase {
    let mut seeded = Seeded::new(seed, WALK, index);
    walk_case::run(filled, call, &mut seeded)
}

fn cards_of(piece: u64, nth: u64, asked: Asked, tally: &mut Tally) {
    let mut altered = Seeded::new(asked.seed, ALTERED_CARD, nth);
    let (range, chosen) = indices(nth, PIECE, asked.cards, &mut altered);
    for index in range {
        let (kind, case) = card(asked.seed, index, card_case::library);
        let walk = walk(asked.seed, index, &case, walk_case::library);
        let (name, _) = cards::KINDS[kind];
        let origin = format_args!("{name}, index {index}");
        let like = compare_card(piece, &origin, &case, tally);
        let walks_alike = compare_walk(piece, &origin, &walk, tally);
        tally.count_card(kind, &case);
        tally.walks.count(kind, &walk);
        if index != chosen {
            continue;
        }
        if like {
            alter_card(&case, &mut altered, tally);
        }
        if walks_alike {
            let mut altered = Seeded::new(asked.seed, ALTERED_WALK, nth);
            alter_walk(&walk, &mut altered, tally);
        }
    }
}

/// True when nothing differs.
fn compare_card(piece: u64, origin: &Arguments, case: &CardCase, tally: &mut Tally) -> bool {
    let unlike = case.due.unlike(&case.came);
    if !unlike.is_empty() {
        tally.differs(piece, || words::card_difference(origin, case, &unlike));
    }
    unlike.is_empty()
}

/// True when nothing differs.
fn compare_walk(piece: u64, origin: &Arguments, case: &WalkCase, tally: &mut Tally) -> bool {
    let unlike = case.due.unlike(&case.came);
    if !unlike.is_empty() {
        tally.differs(piece, || words::walk_difference(origin, case, &unlike));
    }
    unlike.is_empty()
}

/// The kind of the book of that index, and its answers by the paper and by the call.
pub fn book(seed: u64, index: u64, call: book_case::Call) -> (usize, BookCase) {
    let mut seeded = Seeded::new(seed, BOOK, index);
    let kind = index as usize % books::KINDS.len();
    let (_, make) = books::KINDS[kind];
    let book = make(&mut seeded);
    (kind, book_case::run(&book, call, &mut seeded))
}

fn books_of(piece: u64, nth: u64, asked: Asked, tally: &mut Tally) {
    let mut altered = Seeded::new(asked.seed, ALTERED_BOOK, nth);
    let (range, chosen) = indices(nth, PIECE, asked.books, &mut altered);
    for index in range {
        let (kind, case) = book(asked.seed, index, book_case::library);
        let (name, _) = books::KINDS[kind];
        let unlike = case.due.unlike(&case.came);
        let origin = format_args!("{name}, index {index}");
        tally.count_book(kind, &case);
        if !unlike.is_empty() {
            tally.differs(piece, || words::book_difference(&origin, &case, &unlike));
            continue;
        }
        let mut seeded = Seeded::new(asked.seed, FILLED_BOOK, index);
        if seeded.one_in(BOOKS_FILLED) {
            fill_tables(piece, index, &case, &mut seeded, tally);
        }
        if index == chosen {
            alter_book(&case, &mut altered, tally);
        }
    }
}

/// The cards go from the library's list into its tables, filled and walked.
fn fill_tables(piece: u64, index: u64, case: &BookCase, seeded: &mut Seeded, tally: &mut Tally) {
    for (curve, card) in case.came.cards().into_iter().enumerate() {
        let case = card_case::run(card, card_case::library, seeded);
        let walk = walk_case::run(&case, walk_case::library, seeded);
        let origin = format_args!("curve {curve} of book index {index}");
        compare_card(piece, &origin, &case, tally);
        compare_walk(piece, &origin, &walk, tally);
        tally.count_card(FROM_A_BOOK, &case);
        tally.walks.count(FROM_A_BOOK, &walk);
    }
}

/// The kind of the day of that index, and its answers by the paper and by the call.
pub fn day(seed: u64, index: u64, call: Call) -> (usize, DayCase) {
    let mut seeded = Seeded::new(seed, DAY, index);
    let kind = index as usize % days::KINDS.len();
    let (_, make) = days::KINDS[kind];
    let cards = make(&mut seeded);
    let day = days::day(cards, &mut seeded);
    (kind, day_case::run(&day, call, &mut seeded))
}

fn days_of(piece: u64, nth: u64, asked: Asked, tally: &mut Tally) {
    let mut altered = Seeded::new(asked.seed, ALTERED_DAY, nth);
    let (range, chosen) = indices(nth, DAYS_PIECE, asked.days, &mut altered);
    for index in range {
        let (kind, case) = day(asked.seed, index, day_case::library);
        let unlike = case.due.unlike(&case.came);
        let (name, _) = days::KINDS[kind];
        let origin = format_args!("{name}, index {index}");
        tally.days.count(kind, &case);
        if !unlike.is_empty() {
            tally.differs(piece, || words::day_difference(&origin, &case, &unlike));
        } else if index == chosen {
            alter_day(&case, &mut altered, tally);
        }
    }
}

/// The kind of the list of that index, and its answers by the paper and by the call.
pub fn list(seed: u64, index: u64, call: list_case::Call) -> (usize, ListCase) {
    let mut seeded = Seeded::new(seed, LIST, index);
    let kind = index as usize % lists::KINDS.len();
    let (_, make) = lists::KINDS[kind];
    let list = make(&mut seeded);
    (kind, list_case::run(&list, call, &mut seeded))
}

fn lists_of(piece: u64, nth: u64, asked: Asked, tally: &mut Tally) {
    let mut altered = Seeded::new(asked.seed, ALTERED_LIST, nth);
    let (range, chosen) = indices(nth, PIECE, asked.lists, &mut altered);
    for index in range {
        let (kind, case) = list(asked.seed, index, list_case::library);
        let unlike = case.unlike();
        let (name, _) = lists::KINDS[kind];
        let origin = format_args!("{name}, index {index}");
        tally.lists.count(kind, &case);
        if !unlike.is_empty() {
            tally.differs(piece, || words::list_difference(&origin, &case, &unlike));
        } else if index == chosen {
            alter_list(&case, &mut altered, tally);
        }
    }
}

/// The kind of the handbook's card of that index, and its answers by the paper and by the calls.
pub fn minsk(seed: u64, index: u64, call: card_case::Call) -> (usize, CardCase) {
    let mut seeded = Seeded::new(seed, MINSK, index);
    let kind = index as usize % minsk_cards::KINDS.len();
    let (_, make) = minsk_cards::KINDS[kind];
    let card = make(&mut seeded);
    (kind, minsk_case::run(card, call, &mut seeded))
}

fn minsk_of(piece: u64, nth: u64, asked: Asked, tally: &mut Tally) {
    let mut altered = Seeded::new(asked.seed, ALTERED_MINSK, nth);
    let (range, chosen) = indices(nth, PIECE, asked.minsk, &mut altered);
    for index in range {
        let (kind, case) = minsk(asked.seed, index, minsk_case::library);
        let (name, _) = minsk_cards::KINDS[kind];
        let origin = format_args!("the handbook's method, {name}, index {index}");
        let like = compare_card(piece, &origin, &case, tally);
        tally.minsk.count(kind, &case);
        if like && index == chosen {
            alter_minsk(&case, &mut altered, tally);
        }
    }
}

/// The answers for a radius by the paper and by the call; the seed chooses the guards and what is there before.
pub fn answers_for(seed: u64, radius: u32, call: radius_case::Call) -> RadiusCase {
    let mut seeded = Seeded::new(seed, RADIUS, u64::from(radius));
    radius_case::run(radius, call, &mut seeded)
}

/// Each is altered as well.
fn all_radii(piece: u64, seed: u64, tally: &mut Tally) {
    for radius in radii() {
        let case = answers_for(seed, radius, radius_case::library);
        let unlike = case.due.unlike(&case.came);
        tally.count_radius(&case);
        if unlike.is_empty() {
            let mut altered = Seeded::new(seed, ALTERED_RADIUS, u64::from(radius));
            alter_radius(&case, &mut altered, tally);
        } else {
            tally.differs(piece, || words::radius_difference(&case, &unlike));
        }
    }
}

/// The one altered number, and nothing else, must be found.
fn is_found(unlike: &[Unlike]) -> bool {
    unlike.len() == 1
}

type Alterations<A> = [(&'static str, fn(&mut A, &mut Seeded) -> bool)];

/// Alters the answer that came at each sort of place in turn.
fn alter_each<A: Clone>(
    (due, came): (&A, &A),
    unlike: fn(&A, &A) -> Vec<Unlike>,
    alterations: &Alterations<A>,
    seeded: &mut Seeded,
    tally: &mut [Altered],
) {
    for ((_, alter), altered) in alterations.iter().zip(tally) {
        let mut answer = came.clone();
        if alter(&mut answer, seeded) {
            altered.made += 1;
            altered.found += u64::from(is_found(&unlike(due, &answer)));
        }
    }
}

fn alter_card(case: &CardCase, seeded: &mut Seeded, tally: &mut Tally) {
    let answers = (&case.due, &case.came);
    let (alterations, tally) = (&card_case::ALTERATIONS, &mut tally.altered_cards);
    alter_each(answers, CardAnswer::unlike, alterations, seeded, tally);
}

fn alter_walk(case: &WalkCase, seeded: &mut Seeded, tally: &mut Tally) {
    let answers = (&case.due, &case.came);
    let (alterations, tally) = (&walk_case::ALTERATIONS, &mut tally.walks.altered);
    alter_each(answers, WalkAnswer::unlike, alterations, seeded, tally);
}

fn alter_minsk(case: &CardCase, seeded: &mut Seeded, tally: &mut Tally) {
    let answers = (&case.due, &case.came);
    let (alterations, tally) = (&card_case::ALTERATIONS, &mut tally.minsk.altered);
    alter_each(answers, CardAnswer::unlike, alterations, seeded, tally);
}

fn alter_book(case: &BookCase, seeded: &mut Seeded, tally: &mut Tally) {
    let answers = (&case.due, &case.came);
    let (alterations, tally) = (&book_case::ALTERATIONS, &mut tally.altered_books);
    alter_each(answers, BookAnswer::unlike, alterations, seeded, tally);
}

fn alter_day(case: &DayCase, seeded: &mut Seeded, tally: &mut Tally) {
    let answers = (&case.due, &case.came);
    let (alterations, tally) = (&day_case::ALTERATIONS, &mut tally.days.altered);
    alter_each(answers, DayAnswer::unlike, alterations, seeded, tally);
}

fn alter_list(case: &ListCase, seeded: &mut Seeded, tally: &mut Tally) {
    let answers = (&case.due, &case.came);
    let (alterations, tally) = (&list_case::ALTERATIONS, &mut tally.lists.altered);
    alter_each(answers, ListAnswer::unlike, alterations, seeded, tally);
}

fn alter_radius(case: &RadiusCase, seeded: &mut Seeded, tally: &mut Tally) {
    let answers = (&case.due, &case.came);
    let (alterations, tally) = (&radius_case::ALTERATIONS, &mut tally.altered_radii);
    alter_each(answers, RadiusAnswer::unlike, alterations, seeded, tally);
}
