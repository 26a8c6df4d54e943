//! A written book is read again, by the paper's reader and by the library's.

use crate::card_case::unlike_number;
use crate::lent::Unlike;
use crate::lists::{Curve, CARD, LISTED, MOST_CURVES};

/// Reads a book into a list; gives the number, the count and the line.
type Reader = fn(&[u8], &mut [i32]) -> [u32; 3];

const READERS: [(&str, Reader); 2] = [
    ("paper", |book, list| {
        let reply = paper::read_book(book, list);
        [reply.number, reply.count, reply.line]
    }),
    ("library", |book, list| {
        let (mut count, mut line) = (1, 1);
        let number = calls::read_book(book, list, &mut count, &mut line);
        [number, count, line]
    }),
];

/// What differs between a list that was accepted and its book as both readers read it.
pub fn unlike(list: &[i32], names: &[u8], book: &[u8]) -> Vec<Unlike> {
    let mut unlike = Vec::new();
    for (who, read) in READERS {
        let mut again = [0; LISTED * MOST_CURVES];
        let reply = read(book, &mut again);
        unlike.extend(unlike_replies(who, (list.len() / LISTED) as u32, reply));
        unlike.extend(unlike_curves(who, (list, names), (&again, book)));
    }
    if was_read(list, names) && names != book {
        let what = "the book that was read".to_string();
        let (due, came) = (words(names), words(book));
        unlike.push(Unlike { what, due, came });
    }
    unlike
}

/// Accepted, with as many curves as the list has.
fn unlike_replies(who: &str, curves: u32, came: [u32; 3]) -> Vec<Unlike> {
    let due = [("reply", 0), ("count", curves), ("line", 0)];
    let unlike = due.into_iter().zip(came).filter_map(|((what, due), came)| {
        let what = format!("{what} of the {who}'s reader");
        unlike_number(&what, due, came)
    });
    unlike.collect()
}

/// A list, and the bytes in which its name places count.
type Named<'a> = (&'a [i32], &'a [u8]);

/// "Reading a written book gives those names and numbers".
fn unlike_curves(who: &str, due: Named, came: Named) -> Vec<Unlike> {
    let pairs = curves(due.0).iter().zip(curves(came.0)).enumerate();
    let unlike = pairs.filter(|(_, (one, other))| parts(one, due.1) != parts(other, came.1));
    unlike
        .map(|(place, (one, other))| Unlike {
            what: format!("curve {place}, read by the {who}"),
            due: curve_words(one, due.1),
            came: curve_words(other, came.1),
        })
        .collect()
}

/// Whether the bytes are an accepted book and the list is read from it: these bytes are due again.
pub fn was_read(list: &[i32], names: &[u8]) -> bool {
    let mut read = [0; LISTED * MOST_CURVES];
    let reply = paper::read_book(names, &mut read);
    reply.number == 0 && read[..LISTED * reply.count as usize] == *list
}

fn curves(list: &[i32]) -> &[Curve] {
    list.as_chunks().0
}

/// The name, if it lies within, and the eleven numbers of a curve's card.
fn parts<'a>(curve: &'a Curve, names: &'a [u8]) -> (Option<&'a [u8]>, &'a [i32]) {
    (name_of(curve, names), &curve[CARD..])
}

/// The bytes of a name that lies within.
pub fn name_of<'a>(curve: &Curve, names: &'a [u8]) -> Option<&'a [u8]> {
    let place = usize::try_from(curve[0]).ok()?;
    let size = usize::try_from(curve[1]).ok()?;
    names.get(place..place + size)
}

fn curve_words(curve: &Curve, names: &[u8]) -> String {
    let (name, card) = parts(curve, names);
    let name = name.map_or("outside".to_string(), words);
    format!("{name} {card:?}")
}

fn words(bytes: &[u8]) -> String {
    format!("\"{}\"", bytes.escape_ascii())
}

#[cfg(test)]
mod tests {
    use super::unlike;

    const BOOK: &[u8] = b"2\nRAMP 4\nB7 5\n5 1 30 30000 60 600 20000 1\n1 2 3 4 5 6 7 8 -9 10\n";
    const LIST: [i32; 26] = [
        2, 4, 5, 1, 30, 30_000, 60, 600, 20_000, 1, 0, 0, 0, 9, 2, 1, 2, 3, 4, 5, 6, 7, 8, 1, -9,
        10,
    ];
    /// The same curves, with their names elsewhere.
    const NAMES: &[u8] = b"B7RAMP";

    fn elsewhere() -> [i32; 26] {
        let mut list = LIST;
        (list[0], list[13]) = (2, 0);
        list
    }

    /// How many places differ when the book has another byte at this place.
    fn with_byte(list: &[i32], names: &[u8], place: usize, byte: u8) -> usize {
        let mut book = BOOK.to_vec();
        book[place] = byte;
        unlike(list, names, &book).len()
    }

    #[test]
    fn right_books_do_not_differ() {
        assert!(unlike(&LIST, BOOK, BOOK).is_empty());
        assert!(unlike(&elsewhere(), NAMES, BOOK).is_empty());
    }

    /// Found by both readers, and as other bytes than those that were read.
    #[test]
    fn other_names_numbers_and_lines_are_found() {
        for (place, byte) in [(2, b'S'), (14, b'6'), (56, b'9'), (58, b'7'), (61, b'2')] {
            assert_eq!(
                with_byte(&elsewhere(), NAMES, place, byte),
                2,
                "byte {place}"
            );
            assert_eq!(with_byte(&LIST, BOOK, place, byte), 3, "byte {place}");
        }
        assert!(with_byte(&elsewhere(), NAMES, 7, b'5') > 2);
    }

    /// The counts of both readers.
    #[test]
    fn fewer_curves_are_found() {
        assert_eq!(unlike(&LIST[..13], BOOK, BOOK).len(), 2);
    }
}
