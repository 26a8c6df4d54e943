//! The tally and the differences, in words.

use crate::book_case::{self, BookAnswer, BookCase};
use crate::book_tally::SORTS as BOOK_SORTS;
use crate::books;
use crate::card_case::{self, CardAnswer, CardCase, CLASSES};
use crate::card_tally::SORTS as CARD_SORTS;
use crate::cards;
use crate::day_case::{self, DayAnswer, DayCase};
use crate::day_tally::{DAY_REPLIES, PLACES, SORTS as DAY_SORTS};
use crate::days::{self, MOST_CARDS};
use crate::lent::Unlike;
use crate::list_case::{self, ListAnswer, ListCase};
use crate::list_tally::{LIST_REPLIES, SORTS as LIST_SORTS};
use crate::lists::{self, LISTED, MOST_CURVES};
use crate::minsk_cards;
use crate::minsk_tally::{MINSK_REPLIES, SORTS as MINSK_SORTS};
use crate::radius_case::{self, RadiusAnswer, RadiusCase};
use crate::tally::{Altered, Tally, BOOK_REPLIES, CARD_REPLIES, LENGTHS, RANGES, SORTS};
use crate::walk_case::{self, WalkAnswer, WalkCase};
use crate::walk_tally::{FRESH, PLACES as ROWS, SORTS as WALK_SORTS, TURNS};
use std::fmt::Arguments;

/// Unlike places named in one difference.
const NAMED: usize = 20;

/// One line of a table of counts.
fn line(name: &str, counts: &[u64]) {
    print!("{name:>32}");
    counts.iter().for_each(|count| print!(" {count:>11}"));
    println!();
}

fn heading(name: &str, columns: &[String]) {
    print!("{name:>32}");
    columns.iter().for_each(|column| print!(" {column:>11}"));
    println!();
}

fn sum<const N: usize>(lines: &[[u64; N]]) -> [u64; N] {
    std::array::from_fn(|column| lines.iter().map(|line| line[column]).sum())
}

pub fn print_tally(tally: &Tally) {
    print_cards(tally);
    println!();
    print_walks(tally);
    println!();
    print_books(tally);
    println!();
    print_days(tally);
    println!();
    print_radii(tally);
    println!();
    print_lists(tally);
    println!();
    print_minsk(tally);
    println!();
    print_altered(tally);
}

fn card_kind_names() -> Vec<&'static str> {
    let made = cards::KINDS.iter().map(|(name, _)| *name);
    made.chain(["from a book"]).collect()
}

fn print_cards(tally: &Tally) {
    heading(
        "Cards by reply",
        &CARD_REPLIES.map(|reply| reply.to_string()),
    );
    for (name, counts) in card_kind_names().iter().zip(&tally.cards) {
        line(name, counts);
    }
    line("all", &sum(&tally.cards));
    println!();
    heading("Cards by table length", &CLASSES.map(str::to_string));
    for (name, counts) in card_kind_names().iter().zip(&tally.classes) {
        line(name, counts);
    }
    line("all", &sum(&tally.classes));
    println!();
    heading("Rows came for", &SORTS.map(str::to_string));
    for (profile, counts) in tally.sorts.iter().enumerate() {
        line(&format!("profile {}", profile + 1), counts);
    }
    println!();
    heading("Cards by sort", &["met".to_string()]);
    for ((name, _), met) in CARD_SORTS.iter().zip(&tally.card_sorts) {
        line(name, &[*met]);
    }
    let (rows, numbers) = (tally.rows, tally.table_numbers);
    println!("{rows} rows compared; {numbers} numbers, tails and guards too");
}

fn print_walks(tally: &Tally) {
    let tally = &tally.walks;
    let fresh = FRESH.map(|fresh| fresh.to_string());
    heading("Walks by rows worked afresh", &fresh);
    for (name, counts) in card_kind_names().iter().zip(&tally.fresh) {
        line(name, counts);
    }
    line("all", &sum(&tally.fresh));
    println!();
    heading("Turns", &ROWS.map(str::to_string));
    for (name, counts) in TURNS.iter().zip(&tally.turns) {
        line(name, counts);
    }
    let beside = tally.beside;
    println!("{beside} walks with a turn on a row, or 1 mm or less beside one");
    println!();
    heading("Walks by sort", &["met".to_string()]);
    for ((name, _), met) in WALK_SORTS.iter().zip(&tally.sorts) {
        line(name, &[*met]);
    }
    let (rows, numbers) = (tally.rows, tally.numbers);
    println!("{rows} rows compared; {numbers} numbers, tails and guards too");
}

fn print_books(tally: &Tally) {
    heading(
        "Books by reply",
        &BOOK_REPLIES.map(|reply| reply.to_string()),
    );
    for ((name, _), counts) in books::KINDS.iter().zip(&tally.books) {
        line(name, counts);
    }
    line("all", &sum(&tally.books));
    println!();
    heading("Books by sort", &["met".to_string()]);
    for ((name, _), met) in BOOK_SORTS.iter().zip(&tally.book_sorts) {
        line(name, &[*met]);
    }
    let (curves, numbers) = (tally.curves, tally.list_numbers);
    println!("{curves} curves compared; {numbers} numbers and bytes, tails and guards too");
}

fn print_days(tally: &Tally) {
    let tally = &tally.days;
    heading("Days by reply", &DAY_REPLIES.map(|reply| reply.to_string()));
    for ((name, _), counts) in days::KINDS.iter().zip(&tally.days) {
        line(name, counts);
    }
    line("all", &sum(&tally.days));
    println!();
    let replies = CARD_REPLIES.map(|reply| reply.to_string());
    heading("Cards of days by reply", &replies);
    for (name, counts) in PLACES.iter().zip(&tally.cards) {
        line(name, counts);
    }
    line("all", &sum(&tally.cards));
    println!();
    heading("Days by sort", &["met".to_string()]);
    for ((name, _), met) in DAY_SORTS.iter().zip(&tally.sorts) {
        line(name, &[*met]);
    }
    let (rows, numbers) = (tally.rows, tally.numbers);
    println!("{rows} rows compared; {numbers} numbers, tails and guards too");
}

fn print_radii(tally: &Tally) {
    heading(
        "Radii by least length",
        &LENGTHS.map(|length| length.to_string()),
    );
    for (name, counts) in RANGES.iter().zip(&tally.radii) {
        line(name, counts);
    }
    line("all", &sum(&tally.radii));
    let (radii, numbers) = (tally.radii_compared(), tally.radius_numbers);
    println!("{radii} radii compared; {numbers} numbers, guards too");
}

fn print_lists(tally: &Tally) {
    let tally = &tally.lists;
    heading(
        "Lists by reply",
        &LIST_REPLIES.map(|reply| reply.to_string()),
    );
    for ((name, _), counts) in lists::KINDS.iter().zip(&tally.lists) {
        line(name, counts);
    }
    line("all", &sum(&tally.lists));
    println!();
    heading("Lists by sort", &["met".to_string()]);
    for ((name, _), met) in LIST_SORTS.iter().zip(&tally.sorts) {
        line(name, &[*met]);
    }
    let (curves, bytes, numbers) = (tally.curves, tally.bytes, tally.numbers);
    println!(
        "{curves} curves written in {bytes} bytes and read again, by the paper and by the library"
    );
    println!("{numbers} numbers and bytes compared, tails and guards too");
}

fn print_minsk(tally: &Tally) {
    let tally = &tally.minsk;
    let kinds = minsk_cards::KINDS.iter().map(|(name, _)| name);
    let replies = MINSK_REPLIES.map(|reply| reply.to_string());
    heading("Handbook's cards by reply", &replies);
    for (name, counts) in kinds.clone().zip(&tally.cards) {
        line(name, counts);
    }
    line("all", &sum(&tally.cards));
    println!();
    let classes = CLASSES.map(str::to_string);
    heading("Handbook's cards by table length", &classes);
    for (name, counts) in kinds.zip(&tally.classes) {
        line(name, counts);
    }
    line("all", &sum(&tally.classes));
    println!();
    heading("Handbook's cards by sort", &["met".to_string()]);
    for ((name, _), met) in MINSK_SORTS.iter().zip(&tally.sorts) {
        line(name, &[*met]);
    }
    let (rows, numbers) = (tally.rows, tally.numbers);
    println!("{rows} rows compared; {numbers} numbers, tails and guards too");
}

fn print_altered(tally: &Tally) {
    heading(
        "Altered on purpose",
        &["altered", "found"].map(str::to_string),
    );
    for ((name, _), altered) in card_case::ALTERATIONS.iter().zip(&tally.altered_cards) {
        line(&format!("card: {name}"), &[altered.made, altered.found]);
    }
    for ((name, _), altered) in walk_case::ALTERATIONS.iter().zip(&tally.walks.altered) {
        line(&format!("walk: {name}"), &[altered.made, altered.found]);
    }
    for ((name, _), altered) in book_case::ALTERATIONS.iter().zip(&tally.altered_books) {
        line(&format!("book: {name}"), &[altered.made, altered.found]);
    }
    for ((name, _), altered) in day_case::ALTERATIONS.iter().zip(&tally.days.altered) {
        line(&format!("day: {name}"), &[altered.made, altered.found]);
    }
    for ((name, _), altered) in radius_case::ALTERATIONS.iter().zip(&tally.altered_radii) {
        line(&format!("radius: {name}"), &[altered.made, altered.found]);
    }
    for ((name, _), altered) in list_case::ALTERATIONS.iter().zip(&tally.lists.altered) {
        line(&format!("list: {name}"), &[altered.made, altered.found]);
    }
    for ((name, _), altered) in card_case::ALTERATIONS.iter().zip(&tally.minsk.altered) {
        line(&format!("minsk: {name}"), &[altered.made, altered.found]);
    }
    let (cards, books) = (&tally.altered_cards[..], &tally.altered_books[..]);
    let (days, radii) = (&tally.days.altered[..], &tally.altered_radii[..]);
    let (lists, minsk) = (&tally.lists.altered[..], &tally.minsk.altered[..]);
    let walks = &tally.walks.altered[..];
    let all = total(&[cards, walks, books, days, radii, lists, minsk].concat());
    println!("{} altered answers, {} found", all.made, all.found);
}

pub fn total(places: &[Altered]) -> Altered {
    Altered {
        made: places.iter().map(|altered| altered.made).sum(),
        found: places.iter().map(|altered| altered.found).sum(),
    }
}

pub fn print_differences(tally: &Tally) {
    if tally.differing == 0 {
        println!("No differences");
    }
    for (place, difference) in tally.differences.iter().enumerate() {
        println!("Difference {}: {}", place + 1, difference.words);
    }
}

/// The eleven numbers of a card.
fn numbers(card: &cards::Numbers) -> String {
    card.map(|number| number.to_string()).join(" ")
}

pub fn card_difference(origin: &Arguments, case: &CardCase, unlike: &[Unlike]) -> String {
    let card = numbers(&case.card);
    let length = case.due.table.numbers().len();
    let mut words = format!("card ({origin})\n  card {card}\n  table of {length} numbers\n");
    words += &format!("  due: {}\n", card_words(&case.due));
    words += &format!("  came: {}\n", card_words(&case.came));
    words + &places(unlike)
}

fn card_words(answer: &CardAnswer) -> String {
    let (check, reply) = (answer.check, answer.reply);
    let count = answer.count.numbers()[0];
    format!("check {check}, reply {reply}, count {count}")
}

pub fn walk_difference(origin: &Arguments, case: &WalkCase, unlike: &[Unlike]) -> String {
    let card = numbers(&case.card);
    let length = case.due.table.numbers().len();
    let mut words = format!("walk ({origin})\n  card {card}\n  table of {length} numbers\n");
    words += &format!("  due: {}\n", walk_words(&case.due));
    words += &format!("  came: {}\n", walk_words(&case.came));
    words + &places(unlike)
}

fn walk_words(answer: &WalkAnswer) -> String {
    let reply = answer.reply;
    let (count, fresh) = (answer.count.numbers()[0], answer.fresh.numbers()[0]);
    format!("reply {reply}, count {count}, fresh {fresh}")
}

pub fn book_difference(origin: &Arguments, case: &BookCase, unlike: &[Unlike]) -> String {
    let text = case.due.text.numbers().escape_ascii();
    let size = case.due.text.numbers().len();
    let length = case.due.list.numbers().len();
    let mut words = format!("book ({origin})\n  text of {size} bytes \"{text}\"\n");
    words += &format!("  list of {length} numbers\n");
    words += &format!("  due: {}\n", book_words(&case.due));
    words += &format!("  came: {}\n", book_words(&case.came));
    words + &places(unlike)
}

fn book_words(answer: &BookAnswer) -> String {
    let reply = answer.reply;
    let (count, line) = (answer.count.numbers()[0], answer.line.numbers()[0]);
    format!("reply {reply}, count {count}, line {line}")
}

pub fn day_difference(origin: &Arguments, case: &DayCase, unlike: &[Unlike]) -> String {
    let cards = case.due.cards();
    let mut words = format!("day ({origin})\n  {} cards\n", cards.len());
    for card in cards.iter().take(MOST_CARDS) {
        words += &format!("  card {}\n", numbers(card));
    }
    let table = case.due.table.numbers().len();
    let replies = case.due.replies.numbers().len();
    words += &format!("  table of {table} numbers, reply list of {replies}\n");
    words += &format!("  due: {}\n", day_words(&case.due));
    words += &format!("  came: {}\n", day_words(&case.came));
    words + &places(unlike)
}

fn day_words(answer: &DayAnswer) -> String {
    let (reply, count) = (answer.reply, answer.count.numbers()[0]);
    format!("reply {reply}, count {count}")
}

pub fn radius_difference(case: &RadiusCase, unlike: &[Unlike]) -> String {
    let mut words = format!("radius {}\n", case.radius);
    words += &format!("  due: {}\n", radius_words(&case.due));
    words += &format!("  came: {}\n", radius_words(&case.came));
    words + &places(unlike)
}

fn radius_words(answer: &RadiusAnswer) -> String {
    let (length, looked) = (answer.length, answer.looked.numbers()[0]);
    format!("length {length}, looked {looked}")
}

pub fn list_difference(origin: &Arguments, case: &ListCase, unlike: &[Unlike]) -> String {
    let list = case.due.list.numbers();
    let mut words = format!("list ({origin})\n  {} numbers\n", list.len());
    for curve in list.chunks(LISTED).take(MOST_CURVES) {
        words += &format!("  {curve:?}\n");
    }
    let names = case.due.names.numbers();
    let (size, names) = (names.len(), names.escape_ascii());
    let length = case.due.buffer.numbers().len();
    words += &format!("  names in {size} bytes \"{names}\"\n");
    words += &format!("  buffer of {length} bytes\n");
    words += &format!("  due: {}\n", list_words(&case.due));
    words += &format!("  came: {}\n", list_words(&case.came));
    words + &places(unlike)
}

fn list_words(answer: &ListAnswer) -> String {
    let (reply, count) = (answer.reply, answer.count.numbers()[0]);
    format!("reply {reply}, count {count}")
}

fn places(unlike: &[Unlike]) -> String {
    let mut words = String::new();
    for Unlike { what, due, came } in unlike.iter().take(NAMED) {
        words += &format!("  {what}: due {due}, came {came}\n");
    }
    let more = unlike.len().saturating_sub(NAMED);
    if more > 0 {
        words += &format!("  and {more} more places\n");
    }
    words
}
