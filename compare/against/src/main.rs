//! Compares the compiled library with the paper's rules, card by card, filled into a table and walked from row to row, book by book,
//! day by day, radius by radius, list by list, and card by card for the method of the Minsk handbook.
//!
//! `against [--cards N] [--books N] [--days N] [--lists N] [--minsk N] [--seed S]`: the same words give the same output;
//! the radii are always the same.
//! Ends well only without differences, with every reply met, no other one given, and every altered answer found.
#![forbid(unsafe_code)]

mod book_case;
mod book_tally;
mod books;
mod card_case;
mod card_tally;
mod cards;
mod day_case;
mod day_tally;
mod days;
#[cfg(test)]
mod found;
mod lent;
mod list_case;
mod list_tally;
mod lists;
mod minsk_cards;
mod minsk_case;
mod minsk_tally;
mod radii;
mod radius_case;
mod read_back;
mod seeded;
mod seen_card;
mod tally;
mod turned_cards;
mod walk_case;
mod walk_tally;
#[cfg(test)]
mod walker;
mod words;
mod work;
#[cfg(test)]
mod wrong_books;
#[cfg(test)]
mod wrong_cards;
#[cfg(test)]
mod wrong_days;
#[cfg(test)]
mod wrong_halves;
#[cfg(test)]
mod wrong_listed_heights;
#[cfg(test)]
mod wrong_lists;
#[cfg(test)]
mod wrong_minsk;
#[cfg(test)]
mod wrong_radii;
#[cfg(test)]
mod wrong_walks;

use book_tally::SORTS as BOOK_SORTS;
use card_tally::SORTS as CARD_SORTS;
use day_tally::{DayTally, DAY_REPLIES, PLACES, SORTS as DAY_SORTS};
use list_tally::{ListTally, LIST_REPLIES, SORTS as LIST_SORTS};
use minsk_tally::{MinskTally, MINSK_REPLIES, SORTS as MINSK_SORTS};
use std::env;
use std::process::ExitCode;
use tally::{Altered, Tally, BOOK_REPLIES, CARD_REPLIES, SORTS};
use walk_tally::{WalkTally, FRESH, PLACES as ROWS, SORTS as WALK_SORTS, TURNS};
use work::Asked;

/// What is compared when nothing else is asked.
const DEFAULT: Asked = Asked {
    cards: 1_000_000,
    books: 200_000,
    days: 20_000,
    lists: 100_000,
    minsk: 300_000,
    seed: 20_260_101,
};
/// How often each reply must be met in a run of the default size.
const OFTEN: u64 = 100;
/// The same for each reply and each sort of days, which are fewer.
const OFTEN_IN_DAYS: u64 = 10;

/// How many walks of a run of the default size have a turn on a row or beside one.
const BESIDE: u64 = 200_000;

/// What may be asked.
const WORDS: &str = "against [--cards N] [--books N] [--days N] [--lists N] [--minsk N] [--seed S]";

fn asked() -> Result<Asked, String> {
    let mut asked = DEFAULT;
    let mut words = env::args().skip(1);
    while let Some(word) = words.next() {
        let place = match word.as_str() {
            "--cards" => &mut asked.cards,
            "--books" => &mut asked.books,
            "--days" => &mut asked.days,
            "--lists" => &mut asked.lists,
            "--minsk" => &mut asked.minsk,
            "--seed" => &mut asked.seed,
            _ => return Err(format!("unknown word {word}")),
        };
        let number = words.next().and_then(|number| number.parse().ok());
        *place = number.ok_or(format!("a number is due after {word}"))?;
    }
    Ok(asked)
}

/// Everything, besides differences, for which the run does not count as evidence.
fn lacks(asked: Asked, tally: &Tally) -> Vec<String> {
    let often = |size, default, often| if size >= default { often } else { 1 };
    let cards_often = often(asked.cards, DEFAULT.cards, OFTEN);
    let mut lacks = card_lacks(tally, cards_often);
    let beside = often(asked.cards, DEFAULT.cards, BESIDE);
    lacks.extend(walk_lacks(&tally.walks, cards_often, beside));
    let books_often = often(asked.books, DEFAULT.books, OFTEN);
    lacks.extend(book_lacks(tally, books_often));
    let days_often = often(asked.days, DEFAULT.days, OFTEN_IN_DAYS);
    lacks.extend(day_lacks(&tally.days, days_often));
    let lists_often = often(asked.lists, DEFAULT.lists, OFTEN);
    lacks.extend(list_lacks(&tally.lists, lists_often));
    let minsk_often = often(asked.minsk, DEFAULT.minsk, OFTEN);
    lacks.extend(minsk_lacks(&tally.minsk, minsk_often));
    let whole = asked.cards >= DEFAULT.cards && asked.books >= DEFAULT.books;
    let whole = whole && asked.days >= DEFAULT.days && asked.lists >= DEFAULT.lists;
    let whole = whole && asked.minsk >= DEFAULT.minsk;
    lacks.extend(unseen("card", &tally.altered_cards, whole));
    lacks.extend(unseen("walk", &tally.walks.altered, whole));
    lacks.extend(unseen("book", &tally.altered_books, whole));
    lacks.extend(unseen("day", &tally.days.altered, whole));
    lacks.extend(unseen("radius", &tally.altered_radii, true));
    lacks.extend(unseen("list", &tally.lists.altered, whole));
    lacks.extend(unseen("handbook's card", &tally.minsk.altered, whole));
    lacks
}

/// Replies to cards, sorts of runoffs and sorts of cards that are met too rarely.
fn card_lacks(tally: &Tally, due: u64) -> Vec<String> {
    let mut lacks = Vec::new();
    for (place, reply) in CARD_REPLIES.iter().enumerate() {
        let met = tally.card_reply(place);
        lacks.extend(rarely(&format!("card reply {reply}"), met, due));
    }
    for (place, sort) in SORTS.iter().enumerate() {
        let met = tally.sort(place);
        lacks.extend(rarely(&format!("runoffs {sort}"), met, due));
    }
    for ((sort, _), &met) in CARD_SORTS.iter().zip(&tally.card_sorts) {
        lacks.extend(rarely(&format!("card with {sort}"), met, due));
    }
    let unlisted = tally.unlisted;
    lacks.extend((unlisted > 0).then(|| format!("a listed reply to {unlisted} cards")));
    lacks
}

/// Counts of rows worked afresh, places of turns beside the rows and sorts of walks that are met too rarely.
fn walk_lacks(tally: &WalkTally, due: u64, beside: u64) -> Vec<String> {
    let mut lacks = Vec::new();
    for (place, fresh) in FRESH.iter().enumerate() {
        let met = tally.fresh(place);
        lacks.extend(rarely(&format!("walk with {fresh} afresh"), met, due));
    }
    for (turn, counts) in TURNS.iter().zip(&tally.turns) {
        let rows = ROWS.iter().zip(counts);
        let rarely = |(row, &met)| rarely(&format!("{turn} {row}"), met, due);
        lacks.extend(rows.filter_map(rarely));
    }
    for ((sort, _), &met) in WALK_SORTS.iter().zip(&tally.sorts) {
        lacks.extend(rarely(&format!("walk with {sort}"), met, due));
    }
    let what = "walk with a turn on a row or beside one";
    lacks.extend(rarely(what, tally.beside, beside));
    let unlisted = tally.unlisted;
    lacks.extend((unlisted > 0).then(|| format!("a listed reply to {unlisted} walks")));
    lacks
}

/// Replies to books and sorts of books that are met too rarely.
fn book_lacks(tally: &Tally, due: u64) -> Vec<String> {
    let mut lacks = Vec::new();
    for (place, reply) in BOOK_REPLIES.iter().enumerate() {
        let met = tally.book_reply(place);
        lacks.extend(rarely(&format!("book reply {reply}"), met, due));
    }
    for ((sort, _), &met) in BOOK_SORTS.iter().zip(&tally.book_sorts) {
        lacks.extend(rarely(&format!("book with {sort}"), met, due));
    }
    lacks
}

/// Replies to days, to their cards at each place, and sorts of days that are met too rarely.
fn day_lacks(tally: &DayTally, due: u64) -> Vec<String> {
    let mut lacks = Vec::new();
    for (place, reply) in DAY_REPLIES.iter().enumerate() {
        let met = tally.day_reply(place);
        lacks.extend(rarely(&format!("day reply {reply}"), met, due));
    }
    for (place, counts) in PLACES.iter().zip(&tally.cards) {
        let replies = CARD_REPLIES.iter().zip(counts);
        let rarely = |(reply, &met)| rarely(&format!("reply {reply} to a card {place}"), met, due);
        lacks.extend(replies.filter_map(rarely));
    }
    for ((sort, _), &met) in DAY_SORTS.iter().zip(&tally.sorts) {
        lacks.extend(rarely(&format!("day with {sort}"), met, due));
    }
    let unlisted = tally.unlisted;
    lacks.extend((unlisted > 0).then(|| format!("a listed reply in {unlisted} days")));
    lacks
}

/// Replies to lists and sorts of lists that are met too rarely.
fn list_lacks(tally: &ListTally, due: u64) -> Vec<String> {
    let mut lacks = Vec::new();
    for (place, reply) in LIST_REPLIES.iter().enumerate() {
        let met = tally.list_reply(place);
        lacks.extend(rarely(&format!("list reply {reply}"), met, due));
    }
    for ((sort, _), &met) in LIST_SORTS.iter().zip(&tally.sorts) {
        lacks.extend(rarely(&format!("list with {sort}"), met, due));
    }
    lacks
}

/// Replies to cards for the handbook's method and sorts of them that are met too rarely.
fn minsk_lacks(tally: &MinskTally, due: u64) -> Vec<String> {
    let mut lacks = Vec::new();
    for (place, reply) in MINSK_REPLIES.iter().enumerate() {
        let met = tally.reply(place);
        lacks.extend(rarely(&format!("handbook's reply {reply}"), met, due));
    }
    for ((sort, _), &met) in MINSK_SORTS.iter().zip(&tally.sorts) {
        lacks.extend(rarely(&format!("handbook's card with {sort}"), met, due));
    }
    let unlisted = tally.unlisted;
    let unlisted = || format!("a listed reply to {unlisted} of the handbook's cards");
    lacks.extend((tally.unlisted > 0).then(unlisted));
    lacks
}

fn rarely(what: &str, met: u64, due: u64) -> Option<String> {
    (met < due).then(|| format!("{what} met {met} times, at least {due} due"))
}

/// Altered answers must all be found; in a whole run each place is altered at least once.
fn unseen(what: &str, altered: &[Altered], whole: bool) -> Option<String> {
    let all = words::total(altered);
    let never = altered.iter().any(|altered| altered.made == 0);
    if all.made == 0 || all.made != all.found || (whole && never) {
        return Some(format!("altered {what} answers not all made and found"));
    }
    None
}

fn main() -> ExitCode {
    let asked = match asked() {
        Ok(asked) => asked,
        Err(fault) => {
            eprintln!("{fault}\n{WORDS}");
            return ExitCode::from(2);
        }
    };
    let tally = work::all(asked);
    let lacks = lacks(asked, &tally);
    words::print_tally(&tally);
    println!();
    words::print_differences(&tally);
    lacks.iter().for_each(|lack| println!("Lacking: {lack}"));
    let Asked {
        cards,
        books,
        days,
        lists,
        minsk,
        ..
    } = asked;
    let (radii, differing) = (tally.radii_compared(), tally.differing);
    print!("{cards} cards, {books} books, {days} days, {radii} radii, {lists} lists, ");
    println!("{minsk} cards for the handbook's method, {differing} differences");
    if differing == 0 && lacks.is_empty() {
        ExitCode::SUCCESS
    } else {
        ExitCode::FAILURE
    }
}
