//! Document 02, Slip 4: "Write the book as well as read it." With Slip 5 "The writer follows".

use crate::book::{is_name, GREATEST_COUNT, LINE_END, LISTED};
use crate::card::Numbers;

/// The greatest number of seven digits; a minus is no digit.
pub const GREATEST_NUMBER: i32 = 9_999_999;

const WRONG_LIST: u32 = 31;
const TWIN_NAME: u32 = 32;
const NO_ROOM: u32 = 33;

/// What the call that writes a book answers: the number, and the count of bytes.
#[derive(Clone, Copy, Debug, PartialEq, Eq)]
pub struct WriterReply {
    pub number: u32,
    pub count: u32,
}

/// A curve of the list: the bytes of its name, and the eleven numbers of its card.
struct Curve<'a> {
    name: &'a [u8],
    card: Numbers,
}

/// Writes the book of a list into the lent buffer; a refusal leaves the whole buffer untouched.
pub fn write_book(list: &[i32], names: &[u8], buffer: &mut [u8]) -> WriterReply {
    match book(list, names, buffer.len()) {
        Err(number) => WriterReply { number, count: 0 },
        Ok(book) => {
            buffer[..book.len()].copy_from_slice(&book);
            WriterReply {
                number: 0,
                count: u32::try_from(book.len()).expect("a count of bytes fits"),
            }
        }
    }
}

/// The book's bytes, or its refusal: the whole list for 31, then for 32, then for 33.
fn book(list: &[i32], names: &[u8], room: usize) -> Result<Vec<u8>, u32> {
    let curves = curves(list, names).ok_or(WRONG_LIST)?;
    if has_twins(&curves) {
        return Err(TWIN_NAME);
    }
    if curves.iter().any(|curve| !is_writable(&curve.card)) {
        return Err(NO_ROOM);
    }
    let book = bytes(&curves);
    if room < book.len() {
        return Err(NO_ROOM);
    }
    Ok(book)
}

/// None for a list length not thirteen times 1 to 64, "a malformed name or one outside those bytes".
fn curves<'a>(list: &'a [i32], names: &'a [u8]) -> Option<Vec<Curve<'a>>> {
    let (curves, rest) = list.as_chunks::<LISTED>();
    let is_count = (1..=GREATEST_COUNT as usize).contains(&curves.len());
    if !rest.is_empty() || !is_count {
        return None;
    }
    curves.iter().map(|numbers| curve(numbers, names)).collect()
}

/// Byte place of the name from 0, its length, the numbers of the card.
fn curve<'a>(numbers: &[i32; LISTED], names: &'a [u8]) -> Option<Curve<'a>> {
    let [place, length, ref card @ ..] = *numbers;
    let (name, card) = (name(place, length, names)?, *card);
    is_name(name).then_some(Curve { name, card })
}

/// The bytes of a name; none where they do not all lie within, or where place or length is below 0.
fn name(place: i32, length: i32, names: &[u8]) -> Option<&[u8]> {
    let start = usize::try_from(place).ok()?;
    let length = usize::try_from(length).ok()?;
    names.get(start..start.checked_add(length)?)
}

/// Names are compared as bytes, wherever they stand.
fn has_twins(curves: &[Curve]) -> bool {
    let mut later = (1..).zip(curves);
    later.any(|(next, curve)| curves[next..].iter().any(|twin| twin.name == curve.name))
}

/// 33 meets "a number above seven digits", "a mark not 0 or 1, one of the eight below 0, and a height or grade beside
/// mark 0".
fn is_writable(card: &Numbers) -> bool {
    let [.., mark, height, grade] = *card;
    let in_eight = card[..8].iter().all(|n| (0..=GREATEST_NUMBER).contains(n));
    let in_seven_digits = |n: i32| (-GREATEST_NUMBER..=GREATEST_NUMBER).contains(&n);
    in_eight
        && match mark {
            0 => height == 0 && grade == 0,
            1 => in_seven_digits(height) && in_seven_digits(grade),
            _ => false,
        }
}

/// The count, the contents, the bodies; each line ended by byte 10, the last too.
fn bytes(curves: &[Curve]) -> Vec<u8> {
    let n = curves.len();
    let mut lines = vec![n.to_string().into_bytes()];
    for (i, curve) in (1..).zip(curves) {
        lines.push(contents_line(curve.name, n + 1 + i));
    }
    lines.extend(curves.iter().map(|curve| body(&curve.card)));
    let ended = lines.into_iter().flat_map(|mut line| {
        line.push(LINE_END);
        line
    });
    ended.collect()
}

/// Name, one blank, the line of its body.
fn contents_line(name: &[u8], line: usize) -> Vec<u8> {
    [name, format!(" {line}").as_bytes()].concat()
}

/// The eight numbers with one blank between, of an absolute card the height and the grade behind them.
fn body(card: &Numbers) -> Vec<u8> {
    let [.., mark, height, grade] = *card;
    let mut numbers = card[..8].to_vec();
    if mark == 1 {
        numbers.extend([height, grade]);
    }
    let words: Vec<String> = numbers.iter().map(i32::to_string).collect();
    words.join(" ").into_bytes()
}
