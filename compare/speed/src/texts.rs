//! The books that are read.

use crate::cards::EIGHTS;

/// A book of these bodies with the given names, by the paper's rules.
fn book(bodies: &[String], name: impl Fn(usize) -> String) -> Vec<u8> {
    let count = bodies.len();
    let mut text = format!("{count}\n");
    for i in 0..count {
        text += &format!("{} {}\n", name(i), count + 2 + i);
    }
    for body in bodies {
        text += body;
        text.push('\n');
    }
    text.into_bytes()
}

/// A body of eight numbers.
fn body(eight: [i32; 8]) -> String {
    eight.map(|number| number.to_string()).join(" ")
}

/// Names of eight bytes that differ only in the last two, half of them in one.
fn long_name(i: usize) -> String {
    let last = b"ABCDEFGHIJKLMNOPQRSTUVWXYZ0123456789"[i % 36] as char;
    format!("CURVES{}{last}", i / 36)
}

/// 64 bodies, every number of seven digits.
fn long_bodies() -> [String; 64] {
    let mut cards = EIGHTS;
    for (i, number) in cards.as_flattened_mut().iter_mut().enumerate() {
        *number = 1_000_000 + 17_489 * i as i32;
    }
    cards.map(body)
}

/// The longest book of relative cards that is accepted.
pub fn longest() -> Vec<u8> {
    book(&long_bodies(), long_name)
}

/// The longest book that is accepted: 64 absolute cards, the last two numbers with a minus.
pub fn greatest() -> Vec<u8> {
    let absolute = |body: String| format!("{body} -{} -{}", 1_234_567, 7_654_321);
    book(&long_bodies().map(absolute), long_name)
}

/// The longest book of relative cards with bytes after its last body, 8192 bytes in all.
pub fn tail() -> Vec<u8> {
    let mut text = longest();
    text.resize(8191, b'7');
    text.push(10);
    text
}

/// A book of the accepted cards, relative, with names of three to six bytes.
pub fn ordinary() -> Vec<u8> {
    let stems = ["R", "KM", "BEND", "PK"];
    book(&EIGHTS.map(body), |i| format!("{}{}", stems[i % 4], 10 + i))
}

#[cfg(test)]
mod tests {
    use super::{greatest, longest, ordinary, tail};
    use crate::plain::book::read_book;

    /// The plain reader, beside the paper's.
    #[test]
    fn read_as_the_paper_reads() {
        for (text, size) in [
            (tail(), 8192),
            (longest(), 4897),
            (ordinary(), 2340),
            (greatest(), 6049),
        ] {
            let (mut list, mut due_list) = ([77; 835], [77; 835]);
            let reply = read_book(&text, &mut list);
            let due = paper::read_book(&text, &mut due_list);
            assert_eq!(reply, (due.number, due.count, due.line));
            assert_eq!((text.len(), list), (size, due_list));
        }
    }
}
