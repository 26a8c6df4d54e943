//! How much stack the calls take: less than the header says.

use crate::header::HEADER;
use crate::{check_card, check_minsk_card, fill_day, fill_minsk_table, fill_table};
use crate::{least_length, read_book, walk_table, write_book, Card};
use std::arch::asm;

/// What the header says, and the same in bytes.
const WORDS: &str = "less than 5 KB of stack";
const SAID: usize = 5 * 1024;
/// What the draft of a book's list takes by itself; a measure below it would measure nothing.
const DRAFT: usize = 832 * 4;
/// The same of the keys of the names of a list that is written.
const KEYS: usize = 64 * 8;

/// Cards of 3 and of 7 rows, relative and absolute, and one that is refused.
const EVEN: Card = [5, 1, 30, 30_000, 60, 600, 20_000, 1, 0, 0, 0];
const TWO_STAGE: Card = [3, 1, 700, 120_000, 40, 400, 20_000, 10, 0, 0, 0];
const HIGH_EVEN: Card = [5, 1, 30, 30_000, 60, 600, 20_000, 1, 1, 250_000, -35];
const HIGH_TWO_STAGE: Card = [3, 1, 700, 120_000, 40, 400, 20_000, 10, 1, -99_990, 80];
const WRONG_UNIT: Card = [3, 1, 700, 120_000, 40, 400, 20_000, 2, 0, 0, 0];

/// A card of 8 rows, five of them worked afresh, and the same in cm, high and falling.
const TURNED: Card = [2, 1, 200, 80_000, 60, 1200, 13_333, 1, 0, 0, 0];
const HIGH_TURNED: Card = [2, 1, 200, 80_000, 60, 1200, 13_333, 10, 1, 9_000_000, -79];

/// Cards of 8 and of 9 rows by the handbook: crowned at first, in both stages, with a widening in its growth and past it.
const BANKED: Card = [1, 1, 600, 140_000, 48, 0, 20_000, 1, 0, 0, 0];
const WIDENED: Card = [3, 2, 400, 140_000, 60, 3500, 20_000, 10, 0, 0, 0];
const HIGH_BANKED: Card = [2, 1, 401, 140_001, 47, 0, 20_000, 10, 1, 9_000_000, 80];
const HIGH_WIDENED: Card = [2, 1, 500, 140_000, 50, 2000, 20_000, 1, 1, -100_000, -80];

const PAINT: u8 = 0xa5;
const SIZE: usize = 64 * 1024;

/// A place to stand on while the calls run, aligned as the stack is.
#[repr(C, align(16))]
struct Stack([u8; SIZE]);

/// Does the work on a painted stack; gives how many bytes of it were touched.
fn taken<W: FnMut()>(mut work: W) -> usize {
    extern "C" fn do_work<W: FnMut()>(work: &mut W) {
        work();
    }
    let mut stack = Box::new(Stack([PAINT; SIZE]));
    let top = stack.0.as_mut_ptr_range().end;
    // SAFETY: the painted stack is larger than the work needs, and is left where it was entered; r12 is kept by what is called.
    unsafe {
        asm!(
            "xchg rsp, r12",
            "call {do_work}",
            "mov rsp, r12",
            do_work = in(reg) do_work::<W> as extern "C" fn(&mut W),
            inout("r12") top => _,
            inout("rdi") &mut work => _,
            clobber_abi("C"),
        );
    }
    SIZE - stack.0.iter().take_while(|&&byte| byte == PAINT).count()
}

/// A book of 64 curves with names that are no twins, as long as there is one: all of the reader is gone through.
fn longest_book() -> Vec<u8> {
    let contents = (0..64).map(|i| format!("CURVE{} {}\n", 100 + i, 66 + i));
    let bodies = (0..64).map(|i| {
        let eight = [1_234_567 + i; 8].map(|n| n.to_string()).join(" ");
        format!("{eight} -{} -{}\n", 2_345_678 + i, 3_456_789 + i)
    });
    let text: String = ["64\n".to_string()]
        .into_iter()
        .chain(contents)
        .chain(bodies)
        .collect();
    text.into_bytes()
}

#[test]
fn said_in_the_header() {
    assert!(HEADER.contains(WORDS));
}

#[test]
fn reading_a_book() {
    let (text, mut list) = (longest_book(), [0; 832]);
    let (mut number, mut count, mut line) = (1, 0, 0);
    let taken = taken(|| number = read_book(&text, &mut list, &mut count, &mut line));
    assert_eq!((text.len(), number, count, line), (6049, 0, 64, 0));
    assert!((DRAFT..SAID).contains(&taken), "{taken} bytes");
}

/// The longest book is written back; then a buffer that is one byte short.
#[test]
fn writing_a_book() {
    let (text, mut list) = (longest_book(), [0; 832]);
    let mut buffer = vec![0; text.len()];
    assert_eq!(read_book(&text, &mut list, &mut 0, &mut 0), 0);
    for (length, due) in [(text.len(), 0), (text.len() - 1, 33)] {
        let (mut number, mut count) = (1, 1);
        let taken = taken(|| {
            number = write_book(&list, &text, &mut buffer[..length], &mut count);
        });
        let bytes = if due == 0 { text.len() } else { 0 };
        assert_eq!((number, count as usize), (due, bytes));
        assert_eq!(buffer, text);
        assert!((KEYS..SAID).contains(&taken), "{taken} bytes");
    }
}

#[test]
fn a_cards_table() {
    for card in [EVEN, TWO_STAGE, HIGH_EVEN, HIGH_TWO_STAGE] {
        let (mut table, mut number, mut count) = ([0; 49], 1, 0);
        let taken = taken(|| {
            number = check_card(&card) + fill_table(&card, &mut table, &mut count);
        });
        assert_eq!((number, table[7 * count as usize - 7]), (0, card[3]));
        assert!((1..SAID).contains(&taken), "{taken} bytes");
    }
}

/// The last row's station is L; then a card that is refused, and a table that is one number short.
#[test]
fn a_walked_card() {
    for (card, due) in [
        (EVEN, 2),
        (TWO_STAGE, 3),
        (TURNED, 5),
        (HIGH_EVEN, 2),
        (HIGH_TWO_STAGE, 3),
        (HIGH_TURNED, 5),
    ] {
        let (mut table, mut number, mut count, mut fresh) = ([0; 56], 1, 0, 0);
        let taken = taken(|| number = walk_table(&card, &mut table, &mut count, &mut fresh));
        assert_eq!(
            (number, fresh, table[7 * count as usize - 7]),
            (0, due, card[3])
        );
        assert!((1..SAID).contains(&taken), "{taken} bytes");
    }
    for (card, due) in [(WRONG_UNIT, 10), (TURNED, 11)] {
        let (mut table, mut number, mut count, mut fresh) = ([0; 55], 0, 1, 1);
        let taken = taken(|| number = walk_table(&card, &mut table, &mut count, &mut fresh));
        assert_eq!((number, count, fresh), (due, 0, 0));
        assert!((1..SAID).contains(&taken), "{taken} bytes");
    }
}

/// The last row's station is L; then each of the handbook's own reasons, and a table that is one number short.
#[test]
fn a_handbook_cards_table() {
    for card in [BANKED, WIDENED, HIGH_BANKED, HIGH_WIDENED] {
        let (mut table, mut number, mut count) = ([0; 81], 1, 0);
        let taken = taken(|| {
            let check = check_minsk_card(&card);
            number = check + fill_minsk_table(&card, &mut table, &mut count);
        });
        let rows = (card[3] as usize).div_ceil(20_000) + 1;
        assert_eq!((number, count as usize), (0, rows));
        assert_eq!(table[9 * rows - 9], card[3]);
        assert!((1..SAID).contains(&taken), "{taken} bytes");
    }
    for (place, wrong, due) in [
        (4, 20, 36),
        (2, 399, 37),
        (5, 1, 38),
        (7, 2, 10),
        (6, 5000, 11),
    ] {
        let (mut card, mut table, mut count) = (BANKED, [0; 72], 1);
        card[place] = wrong;
        let mut number = 0;
        let taken = taken(|| number = fill_minsk_table(&card, &mut table, &mut count));
        assert_eq!((number, count), (due, 0));
        assert!((1..SAID).contains(&taken), "{taken} bytes");
    }
}

/// A full day; the table is one number short for its last card.
#[test]
fn a_days_cards() {
    let cards = [EVEN, HIGH_TWO_STAGE, WRONG_UNIT, HIGH_EVEN].repeat(16);
    let mut table = vec![0; 16 * (21 + 49 + 21) - 1];
    let (mut replies, mut number, mut count) = ([1; 128], 1, 0);
    let taken = taken(|| number = fill_day(&cards, &mut table, &mut replies, &mut count));
    assert_eq!((number, count), (0, 64));
    assert_eq!(replies[..8], [0, 3, 0, 7, 10, 0, 0, 3]);
    assert_eq!(replies[120..], [0, 3, 0, 7, 10, 0, 11, 0]);
    assert!((1..SAID).contains(&taken), "{taken} bytes");
}

/// At a listed radius, between two of them, at the last one and beyond it.
#[test]
fn a_least_length() {
    let due = [
        [30, 30, 1],
        [225, 80, 12],
        [2000, 100, 20],
        [u32::MAX, 100, 20],
    ];
    for [radius, due_length, due_looked] in due {
        let (mut length, mut looked) = (0, 0);
        let taken = taken(|| length = least_length(radius, &mut looked));
        assert_eq!((length, looked), (due_length, due_looked));
        assert!((1..SAID).contains(&taken), "{taken} bytes");
    }
}
