//! Document 02, Slip 4: "Write the book as well as read it." Books and replies by the papers' own figures.

use crate::card::{absolute, relative};
use crate::readings::{RAMP, RAMP_BOOK};
use crate::{read_book, write_book, WriterReply};

/// What the lent buffer holds before the call; no book has such a byte.
const MARK: u8 = b'~';
/// RAMP's list as the reader gives it.
pub const RAMP_LIST: [i32; 13] = [2, 4, 5, 1, 30, 30_000, 60, 600, 20_000, 1, 0, 0, 0];

/// Three names at places of their own, in another order than the list's.
const NAMES: &[u8] = b"--B7/ramp RAMP2..RAMP";
const THREE: [[i32; 13]; 3] = [
    [17, 4, 5, 1, 30, 30_000, 60, 600, 20_000, 1, 0, 0, 0],
    [2, 2, 0, 9, 10, 99, 100, 9_999_999, 1_000_000, 0, 0, 0, 0],
    [10, 5, 3, 1, 700, 120_000, 40, 400, 20_000, 10, 0, 0, 0],
];
const BOOK_OF_THREE: &[u8] = b"3\nRAMP 5\nB7 6\nRAMP2 7\n\
    5 1 30 30000 60 600 20000 1\n\
    0 9 10 99 100 9999999 1000000 0\n\
    3 1 700 120000 40 400 20000 10\n";

/// The writer's reply, and the whole buffer, afterwards.
pub struct Written {
    pub number: u32,
    pub count: u32,
    pub buffer: Vec<u8>,
}

pub fn write(list: &[i32], names: &[u8], buffer_length: usize) -> Written {
    let mut buffer = vec![MARK; buffer_length];
    let WriterReply { number, count } = write_book(list, names, &mut buffer);
    Written {
        number,
        count,
        buffer,
    }
}

impl Written {
    /// Number 0, the count of the book's bytes, the book, and later bytes untouched.
    pub fn is(&self, book: &[u8]) -> bool {
        let Some(later) = self.buffer.strip_prefix(book) else {
            return false;
        };
        let kept = later.iter().all(|&byte| byte == MARK);
        (self.number, self.count as usize) == (0, book.len()) && kept
    }

    /// That number, count 0, and the whole buffer untouched.
    pub fn gives_only(&self, number: u32) -> bool {
        let kept = self.buffer.iter().all(|&byte| byte == MARK);
        (self.number, self.count) == (number, 0) && kept
    }
}

/// The front part of what the reader fills: thirteen numbers a curve and nothing else.
pub fn read(book: &[u8]) -> Vec<i32> {
    let mut list = vec![77; 832];
    let reply = read_book(book, &mut list);
    assert_eq!((reply.number, reply.line), (0, 0));
    list.truncate(13 * reply.count as usize);
    list
}

/// The name and the numbers of the card of each curve.
pub fn curves<'a>(list: &'a [i32], names: &'a [u8]) -> Vec<(&'a [u8], &'a [i32])> {
    let curve = |curve: &'a [i32]| {
        let (place, length) = (curve[0] as usize, curve[1] as usize);
        (&names[place..place + length], &curve[2..])
    };
    list.chunks(13).map(curve).collect()
}

/// 64 names of eight signs.
pub fn eight_signs() -> Vec<u8> {
    (0..64)
        .flat_map(|i| format!("CURVE{}", 100 + i).into_bytes())
        .collect()
}

/// So many curves with those names, each number the greatest there is, or the least where it may be below 0.
pub fn greatest(curves: i32) -> Vec<i32> {
    let card = absolute([9_999_999; 8], -9_999_999, -9_999_999);
    let curve = |i| [8 * (i % 64), 8].into_iter().chain(card);
    (0..curves).flat_map(curve).collect()
}

#[test]
fn ramp_book() {
    assert!(write(&RAMP_LIST, RAMP_BOOK, 37).is(RAMP_BOOK));
    assert!(write(&RAMP_LIST, RAMP_BOOK, 38).is(RAMP_BOOK));
    assert!(write(&RAMP_LIST, RAMP_BOOK, 9000).is(RAMP_BOOK));
    let alone = [&[0, 4], &relative(RAMP)[..]].concat();
    assert!(write(&alone, b"RAMP", 37).is(RAMP_BOOK));
}

/// In the order of the list, wherever the names stand.
#[test]
fn three_curves() {
    assert!(write(THREE.as_flattened(), NAMES, 200).is(BOOK_OF_THREE));
}

/// "Reading a written book gives those names and numbers".
#[test]
fn what_is_written_is_read() {
    let lists = [
        (THREE.as_flattened().to_vec(), NAMES.to_vec()),
        (RAMP_LIST.to_vec(), RAMP_BOOK.to_vec()),
        (greatest(64), eight_signs()),
    ];
    for (list, names) in lists {
        let written = write(&list, &names, 8192);
        let book = &written.buffer[..written.count as usize];
        assert_eq!(written.number, 0);
        assert_eq!(curves(&read(book), book), curves(&list, &names));
    }
}

/// "writing back what was read from an accepted book gives its bytes".
#[test]
fn what_was_read_is_written_back() {
    let full = write(&greatest(64), &eight_signs(), 6049).buffer;
    let small = b"2\n0 4\nA 5\n0 0 0 0 0 0 0 0\n1 2 3 4 5 6 7 8\n";
    for book in [RAMP_BOOK, BOOK_OF_THREE, small, &full] {
        assert!(write(&read(book), book, book.len() + 5).is(book));
    }
}

/// "Contractors edit a card on the box": the names stay where they are, in the book that was read.
#[test]
fn an_edited_card() {
    let mut list = read(BOOK_OF_THREE);
    list[20] = 100_000;
    let edited = String::from_utf8(BOOK_OF_THREE.to_vec()).expect("ASCII");
    let edited = edited.replace(" 9999999 ", " 100000 ");
    assert!(write(&list, BOOK_OF_THREE, 200).is(edited.as_bytes()));
}

/// "the i-th contents line names line n + 1 + i": with 5 curves one of them gets a second digit, with 50 a third.
#[test]
fn the_lines_of_the_bodies() {
    for n in [1, 3, 4, 5, 9, 10, 48, 49, 50, 64] {
        let written = write(&greatest(n), &eight_signs(), 8192);
        let text = String::from_utf8(written.buffer).expect("ASCII");
        let lines: Vec<_> = text.lines().collect();
        assert_eq!(lines[0], n.to_string());
        for i in 1..=n {
            let due = format!("CURVE{} {}", 99 + i, n + 1 + i);
            assert_eq!(lines[i as usize], due);
        }
    }
}

/// 2 + 1 bytes, then 64 names of 8 with their lines (34 of two digits, 30 of three), then 64 × 82: eight numbers of seven
/// digits and two with a minus, each with a blank or the end of the line behind it.
#[test]
fn the_greatest_book() {
    let (list, names) = (greatest(64), eight_signs());
    let size = 3 + 64 * 10 + 34 * 2 + 30 * 3 + 64 * (8 * 8 + 2 * 9);
    assert_eq!(size, 6049);
    assert_eq!(write(&list, &names, size).count, 6049);
    assert!(write(&list, &names, size - 1).gives_only(33));
    assert!(write(&list, &names, 0).gives_only(33));
}

/// Slip 5: thirteen numbers a curve, so "a list length not ten times 1 to 64" is now one not thirteen times 1 to 64.
#[test]
fn list_lengths() {
    let (long, names) = (greatest(6600), eight_signs());
    for length in [13, 26, 819, 832] {
        let written = write(&long[..length], &names, 8192);
        assert_eq!(written.number, 0, "{length} numbers");
    }
    for length in [
        0, 1, 10, 12, 14, 20, 25, 27, 640, 831, 833, 844, 845, 858, 1664, 3341, 65_549,
    ] {
        let written = write(&long[..length], &names, 8192);
        assert!(written.gives_only(31), "{length} numbers");
    }
    assert!(write(&[], &[], 0).gives_only(31));
}

/// RAMP's numbers with its name at another place or of another length; the reply number.
fn named(place: i32, length: i32, names: &[u8]) -> u32 {
    let list = [&[place, length], &relative(RAMP)[..]].concat();
    let written = write(&list, names, 50);
    assert!(written.number == 0 || written.gives_only(31));
    written.number
}

/// "Names are 1 to 8 capitals or digits."
#[test]
fn malformed_names() {
    let names = b"AZ09AZ09AZ09";
    for length in 1..=8 {
        assert_eq!(named(2, length, names), 0, "{length} bytes");
    }
    for length in [0, 9, 10, 256 + 4, 65_536 + 4, i32::MAX] {
        assert_eq!(named(2, length, names), 31, "{length} bytes");
    }
    for byte in 0..=u8::MAX {
        let fits = matches!(byte, b'A'..=b'Z' | b'0'..=b'9');
        let due = if fits { 0 } else { 31 };
        for place in 0..3 {
            let mut name = *b"RAM";
            name[place] = byte;
            assert_eq!(named(0, 3, &name), due, "byte {byte}");
        }
    }
}

/// "or one outside those bytes": it may end with the last of them, and no later.
#[test]
fn names_at_the_end_of_the_bytes() {
    let names = b"RAMP1234";
    for (place, length, due) in [
        (4, 4, 0),
        (4, 5, 31),
        (5, 3, 0),
        (5, 4, 31),
        (7, 1, 0),
        (7, 2, 31),
        (8, 1, 31),
        (9, 1, 31),
        (0, 8, 0),
        (1, 8, 31),
        (8, 0, 31),
    ] {
        assert_eq!(named(place, length, names), due, "{length} from {place}");
    }
    assert_eq!(named(0, 1, b""), 31);
    assert_eq!(named(0, 0, b""), 31);
}

/// These sums are above 2^31 by 0 to 6, and below 0 in 32 bits.
#[test]
fn places_and_lengths_above_31_bits() {
    for (place, length) in [
        (i32::MAX, 1),
        (i32::MAX, 2),
        (i32::MAX - 3, 4),
        (i32::MAX - 3, 8),
        (i32::MAX - 7, 8),
        (1, i32::MAX),
        (4, i32::MAX),
        (i32::MAX, i32::MAX),
    ] {
        assert_eq!(
            named(place, length, b"RAMP1234"),
            31,
            "{length} from {place}"
        );
    }
}

/// "Place or length of a name below 0: 31", though the name would end within the bytes.
#[test]
fn places_and_lengths_below_0() {
    for (place, length) in [
        (-1, 1),
        (-1, 2),
        (-4, 4),
        (-4, 8),
        (i32::MIN, 4),
        (4, -1),
        (4, -4),
        (8, -8),
        (4, i32::MIN),
        (4, i32::MIN + 4),
        (-1, -1),
        (i32::MIN, i32::MIN),
    ] {
        assert_eq!(
            named(place, length, b"RAMP1234"),
            31,
            "{length} from {place}"
        );
    }
}

/// RAMP's list with one number replaced.
pub fn with_number(place: usize, number: i32) -> Written {
    let mut list = RAMP_LIST;
    list[place] = number;
    write(&list, RAMP_BOOK, 50)
}

/// "a number above seven digits".
#[test]
fn numbers_of_seven_digits_and_of_more() {
    for place in 2..10 {
        for number in [0, 9, 10, 1_000_000, 9_999_999] {
            assert_eq!(with_number(place, number).number, 0, "{number}");
        }
        for number in [10_000_000, 10_000_001, 99_999_999, 1 << 30, i32::MAX] {
            assert!(with_number(place, number).gives_only(33), "{number}");
        }
    }
}

/// "a buffer that is shorter than the book".
#[test]
fn buffers_of_every_length() {
    let size = BOOK_OF_THREE.len();
    for length in 0..size {
        let short = write(THREE.as_flattened(), NAMES, length);
        assert!(short.gives_only(33), "{length} bytes");
    }
    for length in size..size + 100 {
        let written = write(THREE.as_flattened(), NAMES, length);
        assert!(written.is(BOOK_OF_THREE), "{length} bytes");
    }
}

/// Four curves with RAMP's numbers and these names, one behind another; then changes to single numbers of the list.
pub fn four(names: [&str; 4], changes: &[(usize, usize, i32)], buffer_length: usize) -> Written {
    let bytes = names.concat();
    let mut place = 0;
    let mut list = names.map(|name| {
        let mut curve = RAMP_LIST;
        (curve[0], curve[1]) = (place, name.len() as i32);
        place += curve[1];
        curve
    });
    for &(curve, number, changed) in changes {
        list[curve][number] = changed;
    }
    write(list.as_flattened(), bytes.as_bytes(), buffer_length)
}

/// "with 32 a twin name": as bytes, at one place or at two.
#[test]
fn twin_names() {
    assert_eq!(four(["A", "B", "C", "D"], &[], 200).number, 0);
    assert!(four(["A", "B", "C", "A"], &[], 200).gives_only(32));
    assert!(four(["A", "B", "B", "D"], &[], 200).gives_only(32));
    assert!(four(["AB12CD34", "B", "AB12CD34", "D"], &[], 200).gives_only(32));
    assert!(four(["A", "B", "C", "D"], &[(3, 0, 0)], 200).gives_only(32));
}

/// One the front or the end of another, or another last byte: no twins.
#[test]
fn names_alike() {
    assert_eq!(four(["RAMP", "RAM", "RAMPA", "AMP"], &[], 200).number, 0);
    assert_eq!(four(["RAMP1", "RAMP2", "0", "00"], &[], 200).number, 0);
    let one_place = [(1, 0, 0), (2, 0, 0), (3, 0, 0)];
    let fronts = four(["RAMP1234", "RAMP12", "RAM", "R"], &one_place, 200);
    assert_eq!(fronts.number, 0);
}

const LONG_FIRST: (usize, usize, i32) = (0, 9, 10_000_000);
const LONG_LAST: (usize, usize, i32) = (3, 2, 10_000_000);

/// "31, then for 32": the whole list for one number, then for the next.
#[test]
fn order_of_31_and_32() {
    assert!(four(["A", "A", "C", "d"], &[], 200).gives_only(31));
    assert!(four(["a", "B", "C", "C"], &[], 200).gives_only(31));
    assert!(four(["A", "A", "C", "D"], &[(3, 1, 2)], 200).gives_only(31));
    assert!(four(["A", "A", "C", "D"], &[(3, 1, 0)], 200).gives_only(31));
    assert!(four(["a", "B", "C", "a"], &[], 200).gives_only(31));
    let twins = [RAMP_LIST; 65];
    assert!(write(&twins.as_flattened()[..30], RAMP_BOOK, 200).gives_only(31));
    assert!(write(twins.as_flattened(), RAMP_BOOK, 8192).gives_only(31));
    assert!(write(&twins.as_flattened()[..832], RAMP_BOOK, 8192).gives_only(32));
}

#[test]
fn order_of_32_and_33() {
    assert!(four(["A", "B", "C", "A"], &[LONG_FIRST], 200).gives_only(32));
    assert!(four(["A", "A", "C", "D"], &[LONG_LAST], 200).gives_only(32));
    assert!(four(["A", "B", "C", "C"], &[], 0).gives_only(32));
    assert!(four(["A", "B", "C", "C"], &[LONG_FIRST], 0).gives_only(32));
    assert!(four(["A", "B", "C", "D"], &[LONG_FIRST], 200).gives_only(33));
}

#[test]
fn order_of_31_and_33() {
    assert!(four(["A", "B", "C", "d"], &[LONG_FIRST], 200).gives_only(31));
    assert!(four(["a", "B", "C", "D"], &[LONG_LAST], 200).gives_only(31));
    assert!(four(["A", "B", "C", "d"], &[], 0).gives_only(31));
    assert!(four(["A", "A", "C", "d"], &[LONG_FIRST], 0).gives_only(31));
    assert!(write(&RAMP_LIST[..12], RAMP_BOOK, 0).gives_only(31));
}
