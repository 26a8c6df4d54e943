//! Wrong programs for writing a book: the comparison must find each of them.

use crate::found::all_are_found;
use crate::lent::ABOVE_16_BITS;
use crate::list_case::{Call, Loan};
use crate::lists::{body_numbers, Curve, CARD, GREATEST_BOOK, HEIGHT, LISTED, MARK, MOST_CURVES};
use crate::work::list;
use crate::DEFAULT;
use paper::write_book;

/// A wrong program must be found among so many of the first lists of the default run.
const FIRST_LISTS: u64 = DEFAULT.lists / 50;

pub fn right(loan: &mut Loan) -> u32 {
    right_for(loan.list, loan)
}

/// The right program, for another list.
pub fn right_for(list: &[i32], loan: &mut Loan) -> u32 {
    let reply = write_book(list, loan.names, loan.buffer);
    *loan.count = reply.count;
    reply.number
}

/// Looks at the whole list; gives the number of its refusal if it is met.
pub type Test = fn(&Loan) -> Option<u32>;

/// The tests in their order.
const TESTS: [Test; 5] = [LENGTH, NAMES, TWINS, NUMBERS, ROOM];

pub const LENGTH: Test = |loan| {
    let (curves, rest) = loan.list.as_chunks::<LISTED>();
    let is_right = rest.is_empty() && (1..=MOST_CURVES).contains(&curves.len());
    (!is_right).then_some(31)
};
pub const NAMES: Test = |loan| wrong_names(loan, is_name);
pub const TWINS: Test = |loan| twins(loan, |one, other| one == other);
pub const NUMBERS: Test = |loan| unfit_numbers(loan, fits);
pub const ROOM: Test = |loan| (loan.buffer.len() < RIGHT.book(loan).len()).then_some(33);

pub fn curves<'a>(loan: &Loan<'a>) -> &'a [Curve] {
    loan.list.as_chunks().0
}

/// The bytes of a name, as far as they lie within.
fn name<'a>(loan: &Loan<'a>, curve: &Curve) -> &'a [u8] {
    let end = loan.names.len();
    let start = end.min(curve[0] as usize);
    &loan.names[start..end.min(start.saturating_add(curve[1] as usize))]
}

/// Whether the name lies within, or goes past the end by no more than so many bytes.
fn is_within(loan: &Loan, curve: &Curve, past: i64) -> bool {
    let [place, size] = [i64::from(curve[0]), i64::from(curve[1])];
    place >= 0 && place + size <= loan.names.len() as i64 + past
}

fn is_sign(byte: &u8) -> bool {
    byte.is_ascii_uppercase() || byte.is_ascii_digit()
}

fn is_name(loan: &Loan, curve: &Curve) -> bool {
    let is_sized = (1..=8).contains(&curve[1]);
    is_sized && is_within(loan, curve, 0) && name(loan, curve).iter().all(is_sign)
}

fn wrong_names(loan: &Loan, is_right: fn(&Loan, &Curve) -> bool) -> Option<u32> {
    let all = curves(loan).iter().all(|curve| is_right(loan, curve));
    (!all).then_some(31)
}

/// 32 when this holds of two right names.
fn twins(loan: &Loan, are_twins: fn(&[u8], &[u8]) -> bool) -> Option<u32> {
    let right = curves(loan).iter().filter(|curve| is_name(loan, curve));
    let names: Vec<_> = right.map(|curve| name(loan, curve)).collect();
    let mut places = (1..).zip(&names);
    let met = places.any(|(next, one)| {
        let mut later = names[next..].iter();
        later.any(|other| are_twins(one, other))
    });
    met.then_some(32)
}

/// 33 when a curve does not fit by this rule.
fn unfit_numbers(loan: &Loan, fits: fn(&Curve) -> bool) -> Option<u32> {
    let all = curves(loan).iter().all(fits);
    (!all).then_some(33)
}

/// The rule for the numbers of a curve, and its parts.
pub fn fits(curve: &Curve) -> bool {
    eight_fit(curve, 9_999_999) && datum_fits(curve)
}

pub fn datum_fits(curve: &Curve) -> bool {
    mark_fits(curve) && beside_mark_fits(curve) && last_two_fit(curve)
}

/// The eight numbers from 0 to the greatest.
pub fn eight_fit(curve: &Curve, greatest: i32) -> bool {
    curve[CARD..MARK].iter().all(|n| (0..=greatest).contains(n))
}

pub fn mark_fits(curve: &Curve) -> bool {
    matches!(curve[MARK], 0 | 1)
}

/// No height and no grade beside mark 0.
pub fn beside_mark_fits(curve: &Curve) -> bool {
    curve[MARK] != 0 || curve[HEIGHT..] == [0, 0]
}

/// At most seven digits in the height and the grade, without their minus.
pub fn last_two_fit(curve: &Curve) -> bool {
    curve[HEIGHT..]
        .iter()
        .all(|n| n.unsigned_abs() <= 9_999_999)
}

/// How the lines are written.
pub struct Style {
    pub count: fn(usize) -> String,
    /// The line that a name leads to, by the count of curves and the curve's number from 1.
    pub line: fn(usize, usize) -> usize,
    pub line_word: fn(usize) -> String,
    /// The numbers that the body of a curve has.
    pub body: fn(&Curve) -> Vec<i32>,
    pub number: fn(i32) -> String,
    pub blank: &'static str,
    pub ended: &'static str,
}

pub const RIGHT: Style = Style {
    count: |count| count.to_string(),
    line: |n, i| n + 1 + i,
    line_word: |line| line.to_string(),
    body: |curve| body_numbers(curve).collect(),
    number: |number| number.to_string(),
    blank: " ",
    ended: "\n",
};

impl Style {
    /// The book of a list, whatever the tests say of it.
    pub fn book(&self, loan: &Loan) -> Vec<u8> {
        let curves = curves(loan);
        let mut book = (self.count)(curves.len()).into_bytes();
        book.extend(self.ended.bytes());
        for (i, curve) in (1..).zip(curves) {
            let line = (self.line_word)((self.line)(curves.len(), i));
            book.extend(name(loan, curve));
            book.extend(format!("{}{line}{}", self.blank, self.ended).bytes());
        }
        for curve in curves {
            let numbers = (self.body)(curve).into_iter();
            let words: Vec<_> = numbers.map(self.number).collect();
            book.extend(words.join(self.blank).bytes());
            book.extend(self.ended.bytes());
        }
        book
    }
}

pub fn refuse(number: u32, loan: &mut Loan) -> u32 {
    *loan.count = 0;
    number
}

/// Puts as much of the book into the buffer as there is room for.
fn put(book: &[u8], loan: &mut Loan) {
    let length = book.len().min(loan.buffer.len());
    loan.buffer[..length].copy_from_slice(&book[..length]);
}

pub fn accept(book: &[u8], loan: &mut Loan) -> u32 {
    put(book, loan);
    *loan.count = book.len() as u32;
    0
}

/// Refuses by these tests in this order, and else writes the book.
pub fn tested(loan: &mut Loan, tests: &[Test]) -> u32 {
    let refused = tests.iter().find_map(|test| test(loan));
    match refused {
        Some(number) => refuse(number, loan),
        None => accept(&RIGHT.book(loan), loan),
    }
}

/// The right tests, but that for numbers by this rule.
pub fn numbered(loan: &mut Loan, fits: fn(&Curve) -> bool) -> u32 {
    let earlier = [LENGTH, NAMES, TWINS].iter().find_map(|test| test(loan));
    let unfit = unfit_numbers(loan, fits);
    match earlier.or(unfit).or_else(|| ROOM(loan)) {
        Some(number) => refuse(number, loan),
        None => accept(&RIGHT.book(loan), loan),
    }
}

/// Refuses as the right program does, but writes so.
pub fn styled(loan: &mut Loan, style: &Style) -> u32 {
    let book = style.book(loan);
    changed(loan, |_| book.clone())
}

/// Refuses as the right program does, but writes a book made of the right one.
fn changed(loan: &mut Loan, change: impl Fn(Vec<u8>) -> Vec<u8>) -> u32 {
    let refused = TESTS.iter().find_map(|test| test(loan));
    if let Some(number) = refused {
        return refuse(number, loan);
    }
    let book = change(RIGHT.book(loan));
    if loan.buffer.len() < book.len() {
        return refuse(33, loan);
    }
    accept(&book, loan)
}

/// The right answer, and then this to the buffer or the count, by the number.
fn afterwards(loan: &mut Loan, spoil: fn(&mut Loan, u32)) -> u32 {
    let number = right(loan);
    spoil(loan, number);
    number
}

/// Wrong as to which refusal comes first.
const WRONG_ORDER: [(&str, Call); 8] = [
    ("33 before 32", |loan| {
        tested(loan, &[LENGTH, NAMES, NUMBERS, ROOM, TWINS])
    }),
    ("a long number before 32", |loan| {
        tested(loan, &[LENGTH, NAMES, NUMBERS, TWINS, ROOM])
    }),
    ("the room before 32", |loan| {
        tested(loan, &[LENGTH, NAMES, ROOM, TWINS, NUMBERS])
    }),
    ("32 before 31", |loan| {
        tested(loan, &[TWINS, LENGTH, NAMES, NUMBERS, ROOM])
    }),
    ("33 before 31", |loan| {
        tested(loan, &[NUMBERS, ROOM, LENGTH, NAMES, TWINS])
    }),
    ("the room before all", |loan| {
        tested(loan, &[ROOM, LENGTH, NAMES, TWINS, NUMBERS])
    }),
    ("31 and 32 curve by curve", |loan| {
        tested(loan, &[LENGTH, curve_by_curve, NUMBERS, ROOM])
    }),
    ("all three curve by curve", |loan| {
        tested(loan, &[LENGTH, all_curve_by_curve, ROOM])
    }),
];

/// The first refusal of the shortest front of the list that these tests refuse.
fn first_in_fronts(loan: &Loan, tests: &[Test]) -> Option<u32> {
    let mut ends = (LISTED..=loan.list.len()).step_by(LISTED);
    ends.find_map(|end| {
        let front = Loan {
            list: &loan.list[..end],
            names: loan.names,
            buffer: &mut [],
            count: &mut 0,
        };
        tests.iter().find_map(|test| test(&front))
    })
}

fn curve_by_curve(loan: &Loan) -> Option<u32> {
    first_in_fronts(loan, &[NAMES, TWINS])
}

fn all_curve_by_curve(loan: &Loan) -> Option<u32> {
    first_in_fronts(loan, &[NAMES, TWINS, NUMBERS])
}

/// Wrong as to the length of the list.
const WRONG_LENGTHS: [(&str, Call); 10] = [
    ("ten numbers a curve, relative", |loan| {
        let (tens, rest) = loan.list.as_chunks::<10>();
        if LENGTH(loan).is_none() || !rest.is_empty() {
            return right(loan);
        }
        let list: Vec<_> = tens
            .iter()
            .flat_map(|ten| [&ten[..], &[0; 3]].concat())
            .collect();
        right_for(&list, loan)
    }),
    ("64 curves refused", |loan| {
        if loan.list.len() == LISTED * MOST_CURVES {
            return refuse(31, loan);
        }
        right(loan)
    }),
    ("65 curves accepted", |loan| {
        if loan.list.len() != LISTED * (MOST_CURVES + 1) {
            return right(loan);
        }
        tested(loan, &[NAMES, TWINS, NUMBERS, ROOM])
    }),
    ("the first 64 of more curves", |loan| {
        loan.list = &loan.list[..loan.list.len().min(LISTED * MOST_CURVES)];
        right(loan)
    }),
    ("an empty list accepted", |loan| {
        if !loan.list.is_empty() {
            return right(loan);
        }
        tested(loan, &[ROOM])
    }),
    ("numbers over left out", |loan| {
        let whole = loan.list.len() - loan.list.len() % LISTED;
        loan.list = &loan.list[..whole];
        right(loan)
    }),
    ("numbers lacking taken for 0", |loan| {
        let mut list = loan.list.to_vec();
        list.resize(list.len().next_multiple_of(LISTED), 0);
        right_for(&list, loan)
    }),
    ("8 bits of the count of curves", |loan| {
        let whole = loan.list.len() % (256 * LISTED);
        loan.list = &loan.list[..whole];
        right(loan)
    }),
    ("16 bits of the list's length", |loan| {
        loan.list = &loan.list[..loan.list.len() % ABOVE_16_BITS];
        right(loan)
    }),
    ("832 numbers due, as for the reader", |loan| {
        if loan.list.len() < LISTED * MOST_CURVES {
            return refuse(31, loan);
        }
        right(loan)
    }),
];

/// The right tests, but that for names by this rule.
fn named(loan: &mut Loan, is_right: fn(&Loan, &Curve) -> bool) -> u32 {
    let wrong = wrong_names(loan, is_right);
    match LENGTH(loan).or(wrong) {
        Some(number) => refuse(number, loan),
        None => tested(loan, &[TWINS, NUMBERS, ROOM]),
    }
}

/// By this rule for the signs of a name.
fn signed(loan: &Loan, curve: &Curve, is_sign: fn(&u8) -> bool) -> bool {
    let is_sized = (1..=8).contains(&curve[1]);
    is_sized && is_within(loan, curve, 0) && name(loan, curve).iter().all(is_sign)
}

/// Wrong as to the signs and the size of a name.
const WRONG_NAMES: [(&str, Call); 10] = [
    ("any signs", |loan| {
        named(loan, |loan, curve| signed(loan, curve, |_| true))
    }),
    ("small letters", |loan| {
        named(loan, |loan, curve| {
            signed(loan, curve, u8::is_ascii_alphanumeric)
        })
    }),
    ("one sign before the digits", |loan| {
        named(loan, |loan, curve| {
            signed(loan, curve, |b| is_sign(b) || *b == b'/')
        })
    }),
    ("one sign after the digits", |loan| {
        named(loan, |loan, curve| {
            signed(loan, curve, |b| is_sign(b) || *b == b':')
        })
    }),
    ("one sign before the capitals", |loan| {
        named(loan, |loan, curve| {
            signed(loan, curve, |b| is_sign(b) || *b == b'@')
        })
    }),
    ("one sign after the capitals", |loan| {
        named(loan, |loan, curve| {
            signed(loan, curve, |b| is_sign(b) || *b == b'[')
        })
    }),
    ("all but the last sign", |loan| {
        named(loan, |loan, curve| {
            let mut but_last = *curve;
            but_last[1] = curve[1].max(2) - 1;
            let is_sized = (2..=8).contains(&curve[1]) && is_within(loan, curve, 0);
            is_name(loan, curve) || (is_sized && is_name(loan, &but_last))
        })
    }),
    ("a name without bytes", |loan| {
        named(loan, |loan, curve| {
            is_name(loan, curve) || (curve[1] == 0 && is_within(loan, curve, 0))
        })
    }),
    ("a name of 9 bytes", |loan| {
        named(loan, |loan, curve| {
            let nine = curve[1] == 9 && is_within(loan, curve, 0);
            is_name(loan, curve) || (nine && name(loan, curve).iter().all(is_sign))
        })
    }),
    ("a name of 8 bytes refused", |loan| {
        named(loan, |loan, curve| is_name(loan, curve) && curve[1] < 8)
    }),
];

/// Reads the list with this done to each curve.
pub fn with_curves(loan: &mut Loan, change: fn(&mut Curve)) -> u32 {
    let mut list = loan.list.to_vec();
    list.as_chunks_mut().0.iter_mut().for_each(change);
    right_for(&list, loan)
}

/// Wrong as to where a name stands.
const WRONG_PLACES: [(&str, Call); 14] = [
    ("a name one past the end", |loan| {
        named(loan, |loan, curve| {
            let is_sized = (1..=8).contains(&curve[1]);
            is_sized && is_within(loan, curve, 1) && name(loan, curve).iter().all(is_sign)
        })
    }),
    ("a name up to the end refused", |loan| {
        named(loan, |loan, curve| {
            is_name(loan, curve) && is_within(loan, curve, -1)
        })
    }),
    ("a place within enough", |loan| {
        named(loan, |loan, curve| {
            let is_sized = (1..=8).contains(&curve[1]) && (curve[0] as usize) < loan.names.len();
            is_sized && name(loan, curve).iter().all(is_sign)
        })
    }),
    ("32 bits of place and size", |loan| {
        named(loan, |loan, curve| {
            let end = i64::from(curve[0].wrapping_add(curve[1]));
            let is_sized = (1..=8).contains(&curve[1]) && curve[0] >= 0;
            let is_within = end <= loan.names.len() as i64;
            is_sized && is_within && name(loan, curve).iter().all(is_sign)
        })
    }),
    ("8 bits of the size", |loan| {
        with_curves(loan, |curve| curve[1] &= 255)
    }),
    ("8 bits of the place", |loan| {
        with_curves(loan, |curve| curve[0] &= 255)
    }),
    ("16 bits of the place", |loan| {
        with_curves(loan, |curve| curve[0] &= 65_535)
    }),
    ("31 bits of the place", |loan| {
        with_curves(loan, |curve| curve[0] &= i32::MAX)
    }),
    ("a place below 0 taken for 0", |loan| {
        with_curves(loan, |curve| curve[0] = curve[0].max(0))
    }),
    ("a place without its minus", |loan| {
        with_curves(loan, |curve| curve[0] = curve[0].saturating_abs())
    }),
    ("a size without its minus", |loan| {
        with_curves(loan, |curve| curve[1] = curve[1].saturating_abs())
    }),
    ("31 bits of the size", |loan| {
        with_curves(loan, |curve| curve[1] &= i32::MAX)
    }),
    ("33 for a place below 0", |loan| {
        let below = |curve: &Curve| curve[0] < 0 && (1..=8).contains(&curve[1]);
        match right(loan) {
            31 if curves(loan).iter().any(below) => 33,
            number => number,
        }
    }),
    ("16 bits of the names' length", |loan| {
        loan.names = &loan.names[..loan.names.len() % ABOVE_16_BITS];
        right(loan)
    }),
];

/// The right tests, but that for twins by this rule.
fn twinned(loan: &mut Loan, test: Test) -> u32 {
    tested(loan, &[LENGTH, NAMES, test, NUMBERS, ROOM])
}

/// 32 when this holds of the curves at two places, the first below the second.
fn curves_alike(loan: &Loan, are_alike: fn(&Loan, usize, usize) -> bool) -> Option<u32> {
    let count = curves(loan).len();
    let mut pairs = (0..count).flat_map(|one| (one + 1..count).map(move |other| (one, other)));
    pairs
        .any(|(one, other)| are_alike(loan, one, other))
        .then_some(32)
}

fn are_twins(loan: &Loan, one: usize, other: usize) -> bool {
    let curves = curves(loan);
    name(loan, &curves[one]) == name(loan, &curves[other])
}

/// Wrong as to twins.
const WRONG_TWINS: [(&str, Call); 10] = [
    ("a twin passes", |loan| {
        tested(loan, &[LENGTH, NAMES, NUMBERS, ROOM])
    }),
    ("only neighbours looked at", |loan| {
        twinned(loan, |loan| {
            curves_alike(loan, |loan, one, other| {
                other == one + 1 && are_twins(loan, one, other)
            })
        })
    }),
    ("only the first name looked at", |loan| {
        twinned(loan, |loan| {
            curves_alike(loan, |loan, one, other| {
                one == 0 && are_twins(loan, one, other)
            })
        })
    }),
    ("the last curve not looked at", |loan| {
        twinned(loan, |loan| {
            curves_alike(loan, |loan, one, other| {
                other + 1 < curves(loan).len() && are_twins(loan, one, other)
            })
        })
    }),
    ("the same place only", |loan| {
        twinned(loan, |loan| {
            curves_alike(loan, |loan, one, other| {
                curves(loan)[one][..2] == curves(loan)[other][..2]
            })
        })
    }),
    ("the same place, whatever the size", |loan| {
        twinned(loan, |loan| {
            curves_alike(loan, |loan, one, other| {
                curves(loan)[one][0] == curves(loan)[other][0] || are_twins(loan, one, other)
            })
        })
    }),
    ("the front of another", |loan| {
        twinned(loan, |loan| {
            twins(loan, |one, other| one.starts_with(other))
        })
    }),
    ("all but the first byte", |loan| {
        twinned(loan, |loan| {
            twins(loan, |one, other| {
                one.len() == other.len() && one[1..] == other[1..]
            })
        })
    }),
    ("all but the last byte", |loan| {
        twinned(loan, |loan| {
            twins(loan, |one, other| {
                let end = one.len().saturating_sub(1);
                one.len() == other.len() && one[..end] == other[..end]
            })
        })
    }),
    ("25, as for the reader", |loan| match right(loan) {
        32 => 25,
        number => number,
    }),
];

/// Wrong as to numbers and room.
const WRONG_ROOM: [(&str, Call); 11] = [
    ("eight digits pass", |loan| {
        numbered(loan, |curve| {
            eight_fit(curve, 99_999_999) && datum_fits(curve)
        })
    }),
    ("10000000 passes", |loan| {
        numbered(loan, |curve| {
            eight_fit(curve, 10_000_000) && datum_fits(curve)
        })
    }),
    ("numbers of any length pass", |loan| {
        numbered(loan, |curve| {
            eight_fit(curve, i32::MAX) && datum_fits(curve)
        })
    }),
    ("9999999 refused", |loan| {
        numbered(loan, |curve| fits(curve) && eight_fit(curve, 9_999_998))
    }),
    ("the last seven digits", |loan| {
        with_curves(loan, |curve| {
            curve[CARD..MARK].iter_mut().for_each(|n| *n %= 10_000_000)
        })
    }),
    ("24 bits of a number", |loan| {
        with_curves(loan, |curve| {
            curve[CARD..MARK].iter_mut().for_each(|n| *n &= 0xff_ffff)
        })
    }),
    ("a buffer one byte short", |loan| {
        let book = RIGHT.book(loan);
        if loan.buffer.len() + 1 != book.len() {
            return right(loan);
        }
        tested(loan, &[LENGTH, NAMES, TWINS, NUMBERS])
    }),
    ("a buffer exactly due refused", |loan| {
        tested(
            loan,
            &[LENGTH, NAMES, TWINS, NUMBERS, |loan| {
                (loan.buffer.len() <= RIGHT.book(loan).len()).then_some(33)
            }],
        )
    }),
    ("room for the greatest book due", |loan| {
        tested(
            loan,
            &[LENGTH, NAMES, TWINS, NUMBERS, |loan| {
                (loan.buffer.len() < GREATEST_BOOK).then_some(33)
            }],
        )
    }),
    ("room for eight numbers a body", |loan| {
        let body = |curve: &Curve| curve[CARD..MARK].to_vec();
        let short = Style { body, ..RIGHT }.book(loan).len();
        let refused = [LENGTH, NAMES, TWINS, NUMBERS]
            .iter()
            .find_map(|test| test(loan));
        match refused.or((loan.buffer.len() < short).then_some(33)) {
            Some(number) => refuse(number, loan),
            None => accept(&RIGHT.book(loan), loan),
        }
    }),
    ("16 bits of the buffer's length", |loan| {
        let length = loan.buffer.len() % ABOVE_16_BITS;
        let reply = write_book(loan.list, loan.names, &mut loan.buffer[..length]);
        *loan.count = reply.count;
        reply.number
    }),
];

/// Wrong as to what the lines hold.
const WRONG_LINES: [(&str, Call); 15] = [
    ("lines one too low", |loan| {
        let line = |n, i| n + i;
        styled(loan, &Style { line, ..RIGHT })
    }),
    ("lines one too high", |loan| {
        let line = |n, i| n + 2 + i;
        styled(loan, &Style { line, ..RIGHT })
    }),
    ("lines counted from the first body", |loan| {
        let line = |_, i| i;
        styled(loan, &Style { line, ..RIGHT })
    }),
    ("every name leads to the first body", |loan| {
        let line = |n, _| n + 2;
        styled(loan, &Style { line, ..RIGHT })
    }),
    ("a leading zero in the count", |loan| {
        let count = |count| format!("{count:02}");
        styled(loan, &Style { count, ..RIGHT })
    }),
    ("a leading zero in a line", |loan| {
        let line_word = |line| format!("{line:02}");
        styled(loan, &Style { line_word, ..RIGHT })
    }),
    ("a leading zero in a number", |loan| {
        let number = |number| format!("{number:07}");
        styled(loan, &Style { number, ..RIGHT })
    }),
    ("nothing for 0", |loan| {
        let number = |number: i32| match number {
            0 => String::new(),
            _ => number.to_string(),
        };
        styled(loan, &Style { number, ..RIGHT })
    }),
    ("the last digit of seven lost", |loan| {
        let number = |number: i32| match number {
            1_000_000.. => (number / 10).to_string(),
            _ => number.to_string(),
        };
        styled(loan, &Style { number, ..RIGHT })
    }),
    ("two blanks", |loan| {
        let blank = "  ";
        styled(loan, &Style { blank, ..RIGHT })
    }),
    ("lines ended by 13 and 10", |loan| {
        let ended = "\r\n";
        styled(loan, &Style { ended, ..RIGHT })
    }),
    ("the last line without byte 10", |loan| {
        changed(loan, |mut book| {
            book.pop();
            book
        })
    }),
    ("one byte 10 more", |loan| {
        changed(loan, |mut book| {
            book.push(10);
            book
        })
    }),
    ("bodies from the last to the first", |loan| {
        let bodies = curves(loan).len();
        changed(loan, |book| {
            let mut lines: Vec<_> = book.split_inclusive(|&byte| byte == 10).collect();
            lines[1 + bodies..].reverse();
            lines.concat()
        })
    }),
    ("curves in the order of their places", |loan| {
        if LENGTH(loan).is_some() {
            return right(loan);
        }
        let mut list = curves(loan).to_vec();
        list.sort_by_key(|curve| curve[0]);
        right_for(list.as_flattened(), loan)
    }),
];

/// Wrong as to the buffer and the count.
const WRONG_WRITING: [(&str, Call); 13] = [
    ("as far as there is room", |loan| {
        afterwards(loan, |loan, number| {
            if number == 33 {
                put(&RIGHT.book(loan), loan);
            }
        })
    }),
    ("all but the last byte for want of room", |loan| {
        afterwards(loan, |loan, number| {
            let book = RIGHT.book(loan);
            if number == 33 && loan.buffer.len() + 1 == book.len() {
                put(&book, loan);
            }
        })
    }),
    ("begun despite a long number", |loan| {
        afterwards(loan, |loan, number| {
            if number == 33 && NUMBERS(loan).is_some() {
                put(&RIGHT.book(loan)[..2], loan);
            }
        })
    }),
    ("begun despite 32", |loan| {
        afterwards(loan, |loan, number| {
            if number == 32 {
                put(&RIGHT.book(loan)[..2], loan);
            }
        })
    }),
    ("begun despite 31", |loan| {
        afterwards(loan, |loan, number| {
            if number == 31 {
                put(&RIGHT.book(loan)[..2], loan);
            }
        })
    }),
    ("the buffer cleared on a refusal", |loan| {
        afterwards(loan, |loan, number| {
            if number > 0 {
                loan.buffer.fill(0);
            }
        })
    }),
    ("later bytes cleared", |loan| {
        afterwards(loan, |loan, number| {
            if number == 0 {
                loan.buffer[*loan.count as usize..].fill(0);
            }
        })
    }),
    ("byte 0 behind the book", |loan| {
        afterwards(loan, |loan, number| {
            let end = *loan.count as usize;
            if number == 0 && end < loan.buffer.len() {
                loan.buffer[end] = 0;
            }
        })
    }),
    ("the count kept on a refusal", |loan| {
        let before = *loan.count;
        let number = right(loan);
        if number > 0 {
            *loan.count = before;
        }
        number
    }),
    ("the bytes due counted with 33", |loan| {
        afterwards(loan, |loan, number| {
            if number == 33 {
                *loan.count = RIGHT.book(loan).len() as u32;
            }
        })
    }),
    ("no count", |loan| {
        let before = *loan.count;
        let number = right(loan);
        *loan.count = before;
        number
    }),
    ("the curves counted", |loan| {
        afterwards(loan, |loan, number| {
            if number == 0 {
                *loan.count = curves(loan).len() as u32;
            }
        })
    }),
    ("the last byte 10 not counted", |loan| {
        afterwards(loan, |loan, _| *loan.count = loan.count.saturating_sub(1))
    }),
];

/// The first list for which the program differs from the paper.
pub fn first_difference(program: Call) -> Option<u64> {
    (0..FIRST_LISTS).find(|&index| {
        let (_, case) = list(DEFAULT.seed, index, program);
        !case.due.unlike(&case.came).is_empty()
    })
}

/// Without this, a comparison that always differs would find every wrong program.
#[test]
fn right_programs_do_not_differ() {
    assert_eq!(first_difference(right), None);
    assert_eq!(first_difference(|loan| tested(loan, &TESTS)), None);
    assert_eq!(first_difference(|loan| styled(loan, &RIGHT)), None);
}

#[test]
fn wrong_order_is_found() {
    all_are_found(first_difference, &WRONG_ORDER);
}

#[test]
fn wrong_lengths_are_found() {
    all_are_found(first_difference, &WRONG_LENGTHS);
}

#[test]
fn wrong_names_are_found() {
    all_are_found(first_difference, &WRONG_NAMES);
}

#[test]
fn wrong_places_are_found() {
    all_are_found(first_difference, &WRONG_PLACES);
}

#[test]
fn wrong_twins_are_found() {
    all_are_found(first_difference, &WRONG_TWINS);
}

#[test]
fn wrong_room_is_found() {
    all_are_found(first_difference, &WRONG_ROOM);
}

#[test]
fn wrong_lines_are_found() {
    all_are_found(first_difference, &WRONG_LINES);
}

#[test]
fn wrong_writing_is_found() {
    all_are_found(first_difference, &WRONG_WRITING);
}
