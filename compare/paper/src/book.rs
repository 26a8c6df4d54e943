//! The book of cards: a count, the contents, the bodies; document 02, Slip 5, has bodies of ten numbers too.

use crate::card::{absolute, relative, Numbers, CARD_NUMBERS};

/// Greatest book, in bytes.
pub const GREATEST_BOOK: usize = 8192;
/// Greatest count of curves.
pub const GREATEST_COUNT: u32 = 64;
/// Numbers that a curve takes in the list: place and length of the name, the card.
pub const LISTED: usize = 2 + CARD_NUMBERS;
/// The least list that may be lent.
pub const LEAST_LIST: usize = 832;

const BOOK_SIZE: u32 = 21;
const COUNT_LINE: u32 = 22;
const CONTENTS_LINE: u32 = 23;
const WRONG_LINE: u32 = 24;
const TWIN_NAME: u32 = 25;
const BODY: u32 = 26;
const TAIL: u32 = 27;
const SHORT_LIST: u32 = 28;

pub(crate) const LINE_END: u8 = 10;
const BLANK: u8 = b' ';

/// What the call that reads a book answers.
#[derive(Clone, Copy, Debug, PartialEq, Eq)]
pub struct BookReply {
    pub number: u32,
    pub count: u32,
    pub line: u32,
}

/// Why a book is refused, and at which line.
struct Fault {
    number: u32,
    line: u32,
}

/// A name: where it stands in the text, and its bytes.
struct Name<'a> {
    place: usize,
    bytes: &'a [u8],
}

/// The lines of a text, taken in order.
struct Lines<'a> {
    text: &'a [u8],
    place: usize,
    /// The number of the line that is due next, from 1.
    due: u32,
}

impl<'a> Lines<'a> {
    /// The next line without its byte 10; none when it is missing or not ended.
    fn next(&mut self) -> Option<(usize, &'a [u8])> {
        let rest = &self.text[self.place..];
        let length = rest.iter().position(|&byte| byte == LINE_END)?;
        let start = self.place;
        self.place = start + length + 1;
        self.due += 1;
        Some((start, &rest[..length]))
    }

    /// A fault at the line that is due next.
    fn missing(&self, number: u32) -> Fault {
        let line = self.due;
        Fault { number, line }
    }

    /// A fault at the line that was taken last.
    fn fault(&self, number: u32) -> Fault {
        let line = self.due - 1;
        Fault { number, line }
    }
}

/// Reads a book into the lent list; a refusal leaves the list as it was.
pub fn read_book(text: &[u8], list: &mut [i32]) -> BookReply {
    let refused = |number, line| BookReply {
        number,
        count: 0,
        line,
    };
    if list.len() < LEAST_LIST {
        return refused(SHORT_LIST, 0);
    }
    if text.is_empty() || text.len() > GREATEST_BOOK {
        return refused(BOOK_SIZE, 0);
    }
    match curves(text) {
        Err(fault) => refused(fault.number, fault.line),
        Ok(curves) => {
            list[..LISTED * curves.len()].copy_from_slice(curves.as_flattened());
            BookReply {
                number: 0,
                count: curves.len() as u32,
                line: 0,
            }
        }
    }
}

/// The thirteen numbers of each curve, or the first fault, line by line.
fn curves(text: &[u8]) -> Result<Vec<[i32; LISTED]>, Fault> {
    let mut lines = Lines {
        text,
        place: 0,
        due: 1,
    };
    let count = count_line(&mut lines)?;
    let mut names = Vec::new();
    for i in 1..=count {
        let name = contents_line(&mut lines, count + 1 + i, &names)?;
        names.push(name);
    }
    let mut curves = Vec::new();
    for name in &names {
        let card = body(&mut lines)?;
        curves.push(listed(name, &card));
    }
    if lines.place < text.len() {
        return Err(lines.missing(TAIL));
    }
    Ok(curves)
}

/// Line 1: the count, 1 to 64.
fn count_line(lines: &mut Lines) -> Result<u32, Fault> {
    let Some((_, line)) = lines.next() else {
        return Err(lines.missing(COUNT_LINE));
    };
    match number(line) {
        Some(count) if (1..=GREATEST_COUNT).contains(&count) => Ok(count),
        _ => Err(lines.fault(COUNT_LINE)),
    }
}

/// A contents line: name, one blank, the line of its body. The order is 23, 24, 25.
fn contents_line<'a>(lines: &mut Lines<'a>, due: u32, earlier: &[Name]) -> Result<Name<'a>, Fault> {
    let Some((place, line)) = lines.next() else {
        return Err(lines.missing(CONTENTS_LINE));
    };
    let Some((bytes, named)) = name_and_number(line) else {
        return Err(lines.fault(CONTENTS_LINE));
    };
    if named != due {
        return Err(lines.fault(WRONG_LINE));
    }
    if earlier.iter().any(|name| name.bytes == bytes) {
        return Err(lines.fault(TWIN_NAME));
    }
    Ok(Name { place, bytes })
}

fn name_and_number(line: &[u8]) -> Option<(&[u8], u32)> {
    let words: Vec<&[u8]> = line.split(|&byte| byte == BLANK).collect();
    match words[..] {
        [name, number_word] if is_name(name) => Some((name, number(number_word)?)),
        _ => None,
    }
}

/// 1 to 8 capitals or digits.
pub(crate) fn is_name(word: &[u8]) -> bool {
    let fits = |byte: &u8| byte.is_ascii_uppercase() || byte.is_ascii_digit();
    (1..=8).contains(&word.len()) && word.iter().all(fits)
}

/// Decimal, 1 to 7 digits, no leading zero but in 0 itself.
fn number(word: &[u8]) -> Option<u32> {
    let fits = (1..=7).contains(&word.len()) && word.iter().all(u8::is_ascii_digit);
    if !fits || (word.len() > 1 && word[0] == b'0') {
        return None;
    }
    let join = |number, digit: &u8| 10 * number + u32::from(digit - b'0');
    Some(word.iter().fold(0, join))
}

/// "an optional minus before a number other than 0".
fn signed(word: &[u8]) -> Option<i32> {
    match word.strip_prefix(b"-") {
        None => Some(number(word)? as i32),
        Some(digits) => Some(-(number(digits)? as i32)).filter(|&number| number != 0),
    }
}

/// The first eight numbers of a body.
fn eight(words: &[&[u8]]) -> Option<[i32; 8]> {
    let numbers: Option<Vec<i32>> = words
        .iter()
        .map(|&word| Some(number(word)? as i32))
        .collect();
    numbers?.try_into().ok()
}

/// "an absolute body has ten numbers, the last two with an optional minus ...; an eight-number body is relative."
fn card(line: &[u8]) -> Option<Numbers> {
    let words: Vec<&[u8]> = line.split(|&byte| byte == BLANK).collect();
    match words[..] {
        [.., height, grade] if words.len() == 10 => {
            let eight = eight(&words[..8])?;
            Some(absolute(eight, signed(height)?, signed(grade)?))
        }
        _ => Some(relative(eight(&words)?)),
    }
}

/// A body: the numbers of a card with one blank between.
fn body(lines: &mut Lines) -> Result<Numbers, Fault> {
    let Some((_, line)) = lines.next() else {
        return Err(lines.missing(BODY));
    };
    card(line).ok_or_else(|| lines.fault(BODY))
}

/// Byte place of the name from 0, its length, the eight numbers, then 0 or 1, the height and the grade.
fn listed(name: &Name, card: &Numbers) -> [i32; LISTED] {
    let mut listed = [0; LISTED];
    listed[0] = name.place as i32;
    listed[1] = name.bytes.len() as i32;
    listed[2..].copy_from_slice(card);
    listed
}
