//! Compares the library's speed with that of plain Rust.
//!
//! `speed` compares the answers and then the times;
//! `speed count WORK ours|plain REPETITIONS` only does the work so many times.

mod cards;
mod plain;
mod texts;
mod timing;

use paper::Numbers;
use std::hint::black_box;
use std::process::ExitCode;

type Fill = fn(&Numbers, &mut [i32]) -> (u32, u32);
type Read = fn(&[u8], &mut [i32]) -> (u32, u32, u32);

/// Nine numbers for each row of the longest card, and some to spare.
const TABLE: usize = 9 * 301 + 9;
const LIST: usize = 832;

/// The tables of relative cards, and of absolute ones; the same by the method of the Minsk handbook; the first two walked from row
/// to row, and the relative cards with steps of 5 m and of 20 m; and these walks beside the library's own tables.
const TABLES: [&str; 12] = [
    "tables",
    "heights",
    "minsk",
    "minskhigh",
    "walk",
    "walkhigh",
    "walk5",
    "walk20",
    "walk/table",
    "walkhigh/table",
    "walk5/table",
    "walk20/table",
];
const BOOKS: [&str; 4] = ["tail", "longest", "ordinary", "greatest"];

/// The library's table, its number and count.
fn our_table(card: &Numbers, table: &mut [i32]) -> (u32, u32) {
    let mut count = 0;
    let number = calls::fill_table(card, table, &mut count);
    (number, count)
}

/// The library's table, walked from row to row, its number and count.
fn our_walk(card: &Numbers, table: &mut [i32]) -> (u32, u32) {
    let (mut count, mut fresh) = (0, 0);
    let number = calls::walk_table(card, table, &mut count, &mut fresh);
    black_box(fresh);
    (number, count)
}

/// The library's table by the handbook, its number and count.
fn our_minsk_table(card: &Numbers, table: &mut [i32]) -> (u32, u32) {
    let mut count = 0;
    let number = calls::fill_minsk_table(card, table, &mut count);
    (number, count)
}

/// How tables are filled.
struct Method {
    /// Numbers in a row.
    row: usize,
    ours: Fill,
    plain: Fill,
}

const BY_503: Method = Method {
    row: 7,
    ours: our_table,
    plain: plain::section::fill_table,
};
const WALKED: Method = Method {
    ours: our_walk,
    ..BY_503
};
/// Here the library's own table stands in the place of plain Rust's.
const WALKED_BESIDE_TABLES: Method = Method {
    plain: our_table,
    ..WALKED
};
const BY_THE_HANDBOOK: Method = Method {
    row: 9,
    ours: our_minsk_table,
    plain: plain::minsk::fill_table,
};

/// The library's list, its number, count and line.
fn our_list(text: &[u8], list: &mut [i32]) -> (u32, u32, u32) {
    let (mut count, mut line) = (0, 0);
    let number = calls::read_book(text, list, &mut count, &mut line);
    (number, count, line)
}

/// The cards of that work, and the method that fills their tables.
fn cards(name: &str) -> Option<([Numbers; 64], Method)> {
    match name {
        "tables" => Some((cards::relative_cards(), BY_503)),
        "heights" => Some((cards::absolute_cards(), BY_503)),
        "minsk" => Some((cards::handbook_cards(), BY_THE_HANDBOOK)),
        "minskhigh" => Some((cards::absolute_handbook_cards(), BY_THE_HANDBOOK)),
        _ => match name.split_once('/') {
            None => Some((walked_cards(name)?, WALKED)),
            Some((walk, "table")) => Some((walked_cards(walk)?, WALKED_BESIDE_TABLES)),
            _ => None,
        },
    }
}

/// The cards of that walk.
fn walked_cards(name: &str) -> Option<[Numbers; 64]> {
    match name {
        "walk" => Some(cards::relative_cards()),
        "walkhigh" => Some(cards::absolute_cards()),
        "walk5" => Some(cards::relative_cards_by(5000)),
        "walk20" => Some(cards::relative_cards_by(20_000)),
        _ => None,
    }
}

/// The book of that name.
fn text(name: &str) -> Option<Vec<u8>> {
    match name {
        "tail" => Some(texts::tail()),
        "longest" => Some(texts::longest()),
        "ordinary" => Some(texts::ordinary()),
        "greatest" => Some(texts::greatest()),
        _ => None,
    }
}

/// Fills the tables of all cards, one after another.
fn fill_all(fill: Fill, cards: &[Numbers; 64], table: &mut [i32]) {
    for card in black_box(cards) {
        black_box(fill(card, table));
        black_box(&mut *table);
    }
}

/// Reads one book.
fn read_one(read: Read, text: &[u8], list: &mut [i32]) {
    black_box(read(black_box(text), list));
    black_box(list);
}

/// Whether both give the same answers and tables, with room and without.
fn same_tables(cards: &[Numbers], method: &Method) -> bool {
    cards.iter().all(|card| {
        let rows = (card[3] as usize).div_ceil(card[6] as usize) + 1;
        let numbers = method.row * rows;
        [TABLE, numbers, numbers - 1].iter().all(|&length| {
            let (mut ours, mut plain) = (vec![-77; length], vec![-77; length]);
            let due = if length < numbers {
                (11, 0)
            } else {
                (0, rows as u32)
            };
            (method.ours)(card, &mut ours) == due
                && (method.plain)(card, &mut plain) == due
                && ours == plain
        })
    })
}

/// Whether a walk along each of the cards works as many rows afresh as the paper says.
fn same_fresh(cards: &[Numbers]) -> bool {
    cards.iter().all(|card| {
        let (mut count, mut fresh) = (0, 0);
        let number = calls::walk_table(card, &mut [0; TABLE], &mut count, &mut fresh);
        let reply = paper::WalkReply {
            number,
            count,
            fresh,
        };
        reply == paper::walk_table(card, &mut [0; TABLE])
    })
}

/// Whether both give the same answer and list, and the answer that is due.
fn same_lists(name: &str, text: &[u8]) -> bool {
    let due = if name == "tail" {
        (27, 0, 130)
    } else {
        (0, 64, 0)
    };
    let (mut ours, mut plain) = ([77; LIST + 3], [77; LIST + 3]);
    our_list(text, &mut ours) == due
        && plain::book::read_book(text, &mut plain) == due
        && ours == plain
}

/// Compares the answers, then the times.
fn compare() -> Result<(), String> {
    println!("work            times  ours (us) plain (us)    ratio    lower    upper");
    let (mut one, mut other) = (vec![0; TABLE], vec![0; TABLE]);
    for name in TABLES {
        let (cards, method) = cards(name).ok_or("no such cards")?;
        if !same_tables(&cards, &method) {
            return Err(format!("the tables differ: {name}"));
        }
        if name.starts_with("walk") && !same_fresh(&cards) {
            return Err(format!("the rows worked afresh differ: {name}"));
        }
        timing::compare(
            name,
            &mut || fill_all(method.ours, &cards, &mut one),
            &mut || fill_all(method.plain, &cards, &mut other),
        );
    }
    let (mut one, mut other) = (vec![0; LIST], vec![0; LIST]);
    for name in BOOKS {
        let text = text(name).unwrap_or_default();
        if !same_lists(name, &text) {
            return Err(format!("the lists differ: {name}"));
        }
        timing::compare(
            name,
            &mut || read_one(our_list, &text, &mut one),
            &mut || read_one(plain::book::read_book, &text, &mut other),
        );
    }
    Ok(())
}

/// Does the named work so many times; `book` stands for all books in turn.
fn count(work: &str, side: &str, repetitions: &str) -> Option<()> {
    let is_ours = match side {
        "ours" => true,
        "plain" => false,
        _ => return None,
    };
    let repetitions: usize = repetitions.parse().ok()?;
    if let Some((cards, method)) = cards(work) {
        let fill = if is_ours { method.ours } else { method.plain };
        let mut table = vec![0; TABLE];
        (0..repetitions).for_each(|_| fill_all(fill, &cards, &mut table));
        return Some(());
    }
    let read: Read = if is_ours {
        our_list
    } else {
        plain::book::read_book
    };
    let names = if work == "book" {
        BOOKS.to_vec()
    } else {
        vec![work]
    };
    let books: Vec<Vec<u8>> = names.into_iter().map(text).collect::<Option<_>>()?;
    let mut list = vec![0; LIST];
    for _ in 0..repetitions {
        books
            .iter()
            .for_each(|text| read_one(read, text, &mut list));
    }
    Some(())
}

fn main() -> ExitCode {
    let arguments: Vec<String> = std::env::args().skip(1).collect();
    let words: Vec<&str> = arguments.iter().map(String::as_str).collect();
    let done = match words[..] {
        [] => compare(),
        ["count", work, side, repetitions] => {
            count(work, side, repetitions).ok_or("no such work".to_string())
        }
        _ => Err("speed [count WORK ours|plain REPETITIONS]".to_string()),
    };
    match done {
        Ok(()) => ExitCode::SUCCESS,
        Err(message) => {
            eprintln!("{message}");
            ExitCode::FAILURE
        }
    }
}
