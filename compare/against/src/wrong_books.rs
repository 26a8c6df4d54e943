//! Wrong programs for reading a book, as to bodies of eight and of ten numbers: the comparison must find each of them.

use crate::book_case::{Call, Loan};
use crate::cards::Numbers;
use crate::found::all_are_found;
use crate::lists::{Curve, CARD, GRADE, HEIGHT, LISTED, MARK, MOST_CURVES};
use crate::work::book;
use crate::DEFAULT;
use paper::card::{absolute, relative};
use paper::{check_card, read_book};

/// A wrong program must be found among so many of the first books of the default run.
const FIRST_BOOKS: u64 = DEFAULT.books / 50;

fn right(loan: &mut Loan) -> u32 {
    let reply = read_book(loan.text, loan.list);
    (*loan.count, *loan.line) = (reply.count, reply.line);
    reply.number
}

/// The words of a line, split at its blanks.
type Words<'a> = [&'a [u8]];
/// A number from its word; none where it is malformed.
type Word = fn(&[u8]) -> Option<i32>;
/// A card from the words of its body; none where it is malformed.
type Body = fn(&Words) -> Option<Numbers>;

fn number(word: &[u8]) -> Option<i32> {
    let leads = word.len() > 1 && word[0] == b'0';
    let digits = (1..=7).contains(&word.len()) && word.iter().all(u8::is_ascii_digit);
    (digits && !leads).then(|| value(word))
}

/// What the digits say, however many there are and whichever leads.
fn value(digits: &[u8]) -> i32 {
    let join =
        |value: i32, digit: &u8| value.wrapping_mul(10).wrapping_add(i32::from(digit - b'0'));
    digits.iter().fold(0, join)
}

fn signed(word: &[u8]) -> Option<i32> {
    match word {
        b"-0" => None,
        [b'-', digits @ ..] => Some(-number(digits)?),
        _ => number(word),
    }
}

fn eight(words: &Words, word: Word) -> Option<[i32; 8]> {
    let numbers: Option<Vec<i32>> = words.iter().map(|w| word(w)).collect();
    numbers?.try_into().ok()
}

/// The first eight by the one rule, the last two by the other.
fn body_by(words: &Words, first: Word, last: Word) -> Option<Numbers> {
    match words {
        [first_eight @ .., height, grade] if words.len() == 10 => {
            let eight = eight(first_eight, first)?;
            Some(absolute(eight, last(height)?, last(grade)?))
        }
        _ => Some(relative(eight(words, first)?)),
    }
}

fn right_body(words: &Words) -> Option<Numbers> {
    body_by(words, number, signed)
}

/// A line: its byte place, and its words.
type Line<'a> = (usize, Vec<&'a [u8]>);

/// The ended lines of a text, and whether other bytes follow.
fn lines(text: &[u8]) -> (Vec<Line<'_>>, bool) {
    let mut lines = Vec::new();
    let mut place = 0;
    for line in text.split_inclusive(|&byte| byte == 10) {
        let Some(line) = line.strip_suffix(b"\n") else {
            return (lines, true);
        };
        lines.push((place, line.split(|&byte| byte == b' ').collect()));
        place += line.len() + 1;
    }
    (lines, false)
}

/// A number and a line.
type Fault = [u32; 2];

fn is_name(word: &[u8]) -> bool {
    let is_sign = |byte: &u8| byte.is_ascii_uppercase() || byte.is_ascii_digit();
    (1..=8).contains(&word.len()) && word.iter().all(is_sign)
}

/// The place and the size of each name.
fn names(lines: &[Line], count: usize) -> Result<Vec<[i32; 2]>, Fault> {
    let mut names: Vec<&[u8]> = Vec::new();
    let mut listed = Vec::new();
    for line in 2..count + 2 {
        let fault = |number| [number, line as u32];
        let (place, words) = lines.get(line - 1).ok_or(fault(23))?;
        let (name, named) = match words[..] {
            [name, word] if is_name(name) => (name, number(word).ok_or(fault(23))?),
            _ => return Err(fault(23)),
        };
        if named as usize != count + line {
            return Err(fault(24));
        }
        if names.contains(&name) {
            return Err(fault(25));
        }
        names.push(name);
        listed.push([*place as i32, name.len() as i32]);
    }
    Ok(listed)
}

/// The curves of a text whose bodies are read by this rule, or its first fault.
fn curves(text: &[u8], body: Body) -> Result<Vec<Curve>, Fault> {
    let (lines, followed) = lines(text);
    let count = match lines.first().map(|(_, words)| &words[..]) {
        Some([word]) => number(word).ok_or([22, 1])? as usize,
        _ => return Err([22, 1]),
    };
    if !(1..=MOST_CURVES).contains(&count) {
        return Err([22, 1]);
    }
    let mut curves = Vec::new();
    for (line, name) in (count + 2..).zip(names(&lines, count)?) {
        let words = lines.get(line - 1).map(|(_, words)| &words[..]);
        let card = words.and_then(body).ok_or([26, line as u32])?;
        let mut curve = [0; LISTED];
        curve[..CARD].copy_from_slice(&name);
        curve[CARD..].copy_from_slice(&card);
        curves.push(curve);
    }
    match followed || lines.len() > 2 * count + 1 {
        true => Err([27, 2 * count as u32 + 2]),
        false => Ok(curves),
    }
}

fn refuse([number, line]: Fault, loan: &mut Loan) -> u32 {
    (*loan.count, *loan.line) = (0, line);
    number
}

/// Reads bodies by this rule into a list of at least so many numbers.
fn read_into(least_list: usize, loan: &mut Loan, body: Body) -> u32 {
    if loan.list.len() < least_list {
        return refuse([28, 0], loan);
    }
    if loan.text.is_empty() || loan.text.len() > 8192 {
        return refuse([21, 0], loan);
    }
    match curves(loan.text, body) {
        Err(fault) => refuse(fault, loan),
        Ok(curves) => {
            let numbers = curves.as_flattened().iter();
            loan.list
                .iter_mut()
                .zip(numbers)
                .for_each(|(to, n)| *to = *n);
            (*loan.count, *loan.line) = (curves.len() as u32, 0);
            0
        }
    }
}

fn read(loan: &mut Loan, body: Body) -> u32 {
    read_into(LISTED * MOST_CURVES, loan, body)
}

/// Wrong as to the word of a height or a grade.
const WRONG_WORDS: [(&str, Call); 17] = [
    ("-0 read", |loan| {
        read(loan, |words| {
            body_by(words, number, |word| match word {
                b"-0" => Some(0),
                _ => signed(word),
            })
        })
    }),
    ("a minus alone read as 0", |loan| {
        read(loan, |words| {
            body_by(words, number, |word| match word {
                b"-" => Some(0),
                _ => signed(word),
            })
        })
    }),
    ("+7 read", |loan| {
        read(loan, |words| {
            body_by(words, number, |word| match word {
                [b'+', digits @ ..] => number(digits),
                _ => signed(word),
            })
        })
    }),
    ("-07 read", |loan| {
        read(loan, |words| {
            body_by(words, number, |word| match word {
                [b'-', b'0', digits @ ..] => Some(-number(digits)?),
                _ => signed(word),
            })
        })
    }),
    ("07 read", |loan| {
        read(loan, |words| {
            body_by(words, number, |word| match word {
                [b'0', digits @ ..] if !digits.is_empty() => number(digits),
                _ => signed(word),
            })
        })
    }),
    ("--7 read", |loan| {
        read(loan, |words| {
            body_by(words, number, |word| match word {
                [b'-', b'-', digits @ ..] => number(digits),
                _ => signed(word),
            })
        })
    }),
    ("7- read", |loan| {
        read(loan, |words| {
            body_by(words, number, |word| match word {
                [digits @ .., b'-'] => Some(-number(digits)?),
                _ => signed(word),
            })
        })
    }),
    ("eight digits behind a minus read", |loan| {
        read(loan, |words| {
            body_by(words, number, |word| match word {
                [b'-', b'1'..=b'9', digits @ ..]
                    if digits.len() == 7 && digits.iter().all(u8::is_ascii_digit) =>
                {
                    Some(-value(&word[1..]))
                }
                _ => signed(word),
            })
        })
    }),
    ("any digits behind a minus read", |loan| {
        read(loan, |words| {
            body_by(words, number, |word| match word {
                [b'-', b'1'..=b'9', digits @ ..] if digits.iter().all(u8::is_ascii_digit) => {
                    Some(value(&word[1..]).wrapping_neg())
                }
                _ => signed(word),
            })
        })
    }),
    ("eight digits read", |loan| {
        read(loan, |words| {
            body_by(words, number, |word| match word {
                [b'1'..=b'9', ..] if word.len() == 8 && word.iter().all(u8::is_ascii_digit) => {
                    Some(value(word))
                }
                _ => signed(word),
            })
        })
    }),
    ("a minus counted as a digit", |loan| {
        read(loan, |words| {
            body_by(words, number, |word| {
                signed(word).filter(|_| word.len() <= 7)
            })
        })
    }),
    ("-9999999 refused", |loan| {
        read(loan, |words| {
            body_by(words, number, |word| {
                signed(word).filter(|n| *n > -9_999_999)
            })
        })
    }),
    ("no minus at all", |loan| {
        read(loan, |words| body_by(words, number, number))
    }),
    ("the minus lost", |loan| {
        read(loan, |words| {
            body_by(words, number, |word| signed(word).map(i32::abs))
        })
    }),
    ("any sign behind a minus", |loan| {
        read(loan, |words| {
            body_by(words, number, |word| match word {
                [b'-', sign, digits @ ..] if !sign.is_ascii_digit() => Some(-number(digits)?),
                _ => signed(word),
            })
        })
    }),
    ("no number read as 0", |loan| {
        read(loan, |words| {
            body_by(words, number, |word| match word {
                b"" => Some(0),
                _ => signed(word),
            })
        })
    }),
    ("a minus for the height alone", |loan| {
        read(loan, |words| {
            let grade = words.get(9).is_none_or(|word| number(word).is_some());
            right_body(words).filter(|_| grade)
        })
    }),
];

/// Wrong as to the first eight, and to the count of numbers.
const WRONG_COUNTS: [(&str, Call); 16] = [
    ("a minus among the first eight read", |loan| {
        read(loan, |words| body_by(words, signed, signed))
    }),
    ("a minus among the first eight left out", |loan| {
        read(loan, |words| {
            body_by(words, |word| signed(word).map(i32::abs), signed)
        })
    }),
    ("a minus in the last of the eight read", |loan| {
        read(loan, |words| {
            let mut first = words.to_vec();
            let unit = first.get_mut(7)?;
            *unit = unit.strip_prefix(b"-").unwrap_or(unit);
            right_body(&first)
        })
    }),
    ("nine numbers read, the grade 0", |loan| {
        read(loan, |words| match words.len() {
            9 => right_body(&[words, &[b"0"]].concat()),
            _ => right_body(words),
        })
    }),
    ("nine numbers read as eight", |loan| {
        read(loan, |words| match words.len() {
            9 => right_body(&words[..8]).filter(|_| signed(words[8]).is_some()),
            _ => right_body(words),
        })
    }),
    ("nine numbers read, the last a grade", |loan| {
        read(loan, |words| match words.len() {
            9 => right_body(&[&words[..8], &[b"0", words[8]]].concat()),
            _ => right_body(words),
        })
    }),
    ("eleven numbers read, the last left out", |loan| {
        read(loan, |words| match words.len() {
            11 => right_body(&words[..10]).filter(|_| signed(words[10]).is_some()),
            _ => right_body(words),
        })
    }),
    ("eleven numbers read, a mark among them", |loan| {
        read(loan, |words| match words.len() {
            11 => {
                let ten = [&words[..8], &words[9..]].concat();
                right_body(&ten).filter(|_| number(words[8]).is_some())
            }
            _ => right_body(words),
        })
    }),
    ("more than ten numbers, the first ten read", |loan| {
        read(loan, |words| right_body(&words[..words.len().min(10)]))
    }),
    ("seven numbers read, the unit 1", |loan| {
        read(loan, |words| match words.len() {
            7 => right_body(&[words, &[b"1"]].concat()),
            _ => right_body(words),
        })
    }),
    ("a blank behind eight numbers", |loan| {
        read(loan, |words| match words {
            [eight @ .., b""] if eight.len() == 8 => right_body(eight),
            _ => right_body(words),
        })
    }),
    ("ten numbers refused", |loan| {
        read(loan, |words| right_body(words).filter(|_| words.len() == 8))
    }),
    ("eight numbers refused", |loan| {
        read(loan, |words| {
            right_body(words).filter(|_| words.len() == 10)
        })
    }),
    ("two blanks before the height", |loan| {
        read(loan, |words| match words.len() {
            11 if words[8].is_empty() => right_body(&[&words[..8], &words[9..]].concat()),
            _ => right_body(words),
        })
    }),
    ("two blanks before the grade", |loan| {
        read(loan, |words| match words.len() {
            11 if words[9].is_empty() => right_body(&[&words[..9], &words[10..]].concat()),
            _ => right_body(words),
        })
    }),
    ("a blank behind a minus", |loan| {
        read(loan, |words| match words {
            [eight @ .., b"-", height, grade] if eight.len() == 8 => {
                let height = [b"-", *height].concat();
                right_body(&[eight, &[&height, *grade]].concat())
            }
            [nine @ .., b"-", grade] if nine.len() == 9 => {
                let grade = [b"-", *grade].concat();
                right_body(&[nine, &[&grade]].concat())
            }
            _ => right_body(words),
        })
    }),
];

/// The right answer, and then this to the list of an accepted book, which is given as it was before as well.
fn listed(loan: &mut Loan, change: fn(&mut Curve, &[i32])) -> u32 {
    let before = loan.list.to_vec();
    let number = right(loan);
    let end = LISTED * *loan.count as usize;
    let curves: &mut [Curve] = loan.list[..end].as_chunks_mut().0;
    for (curve, before) in curves.iter_mut().zip(before.chunks(LISTED)) {
        change(curve, before);
    }
    number
}

/// Wrong as to what the list holds.
const WRONG_LISTS: [(&str, Call); 15] = [
    ("height and grade kept where relative", |loan| {
        listed(loan, |curve, before| {
            if curve[MARK] == 0 {
                curve[HEIGHT..].copy_from_slice(&before[HEIGHT..]);
            }
        })
    }),
    ("the mark kept where relative", |loan| {
        listed(loan, |curve, before| {
            if curve[MARK] == 0 {
                curve[MARK] = before[MARK];
            }
        })
    }),
    ("every curve absolute", |loan| {
        listed(loan, |curve, _| curve[MARK] = 1)
    }),
    ("every curve relative", |loan| {
        listed(loan, |curve, _| curve[MARK..].fill(0))
    }),
    ("the mark 0, the height and grade there", |loan| {
        listed(loan, |curve, _| curve[MARK] = 0)
    }),
    ("0 and 0 taken for relative", |loan| {
        listed(loan, |curve, _| {
            curve[MARK] = i32::from(curve[HEIGHT..] != [0, 0])
        })
    }),
    ("no grade taken for relative", |loan| {
        listed(loan, |curve, _| curve[MARK] = i32::from(curve[GRADE] != 0))
    }),
    ("the count of numbers for the mark", |loan| {
        listed(loan, |curve, _| curve[MARK] = 8 + 2 * curve[MARK])
    }),
    ("-1 for absolute", |loan| {
        listed(loan, |curve, _| curve[MARK] = -curve[MARK])
    }),
    ("the grade before the height", |loan| {
        listed(loan, |curve, _| curve.swap(HEIGHT, GRADE))
    }),
    ("the mark behind the height and the grade", |loan| {
        listed(loan, |curve, _| curve[MARK..].rotate_left(1))
    }),
    ("the mark before the eight", |loan| {
        listed(loan, |curve, _| curve[CARD..=MARK].rotate_right(1))
    }),
    ("16 bits of the height", |loan| {
        listed(loan, |curve, _| {
            curve[HEIGHT] = i32::from(curve[HEIGHT] as i16)
        })
    }),
    ("ten numbers a curve", |loan| {
        let number = right(loan);
        let end = LISTED * *loan.count as usize;
        let curves: Vec<Curve> = loan.list[..end].as_chunks().0.to_vec();
        for (to, curve) in loan.list.chunks_mut(10).zip(curves) {
            to.copy_from_slice(&curve[..10]);
        }
        number
    }),
    ("the rest of the list cleared", |loan| {
        let number = right(loan);
        if number == 0 {
            loan.list[LISTED * *loan.count as usize..].fill(0);
        }
        number
    }),
];

/// Wrong as to refusals.
const WRONG_REFUSALS: [(&str, Call); 13] = [
    ("640 numbers enough", |loan| {
        read_into(640, loan, right_body)
    }),
    ("831 numbers enough", |loan| {
        read_into(831, loan, right_body)
    }),
    ("832 numbers refused", |loan| {
        read_into(833, loan, right_body)
    }),
    ("thirteen a curve of the book enough", |loan| {
        let curves = curves(loan.text, right_body).map_or(1, |curves| curves.len());
        read_into(LISTED * curves, loan, right_body)
    }),
    ("26 for a height that 34 refuses", |loan| {
        read(loan, |words| {
            right_body(words).filter(|card| check_card(card) != 34)
        })
    }),
    ("26 for a grade that 35 refuses", |loan| {
        read(loan, |words| {
            right_body(words).filter(|card| check_card(card) != 35)
        })
    }),
    ("26 for a height outside its limits", |loan| {
        read(loan, |words| {
            right_body(words).filter(|card| (-100_000..=9_000_000).contains(&card[9]))
        })
    }),
    ("26 for a grade outside its limits", |loan| {
        read(loan, |words| {
            right_body(words).filter(|card| (-80..=80).contains(&card[10]))
        })
    }),
    ("a book above 4897 bytes refused", |loan| {
        match loan.list.len() >= 832 && loan.text.len() > 4897 {
            true => refuse([21, 0], loan),
            false => right(loan),
        }
    }),
    ("34 for a height that 34 refuses", |loan| {
        let number = right(loan);
        let end = LISTED * *loan.count as usize;
        let curves: &[Curve] = loan.list[..end].as_chunks().0;
        let card = |curve: &Curve| curve[CARD..].try_into().expect("eleven numbers");
        match curves.iter().any(|curve| check_card(&card(curve)) == 34) {
            true => 34,
            false => number,
        }
    }),
    ("the list begun despite 26", |loan| {
        let number = right(loan);
        if number == 26 {
            loan.list[0] = 2;
        }
        number
    }),
    ("the count kept with 26", |loan| {
        let before = *loan.count;
        let number = right(loan);
        if number == 26 {
            *loan.count = before;
        }
        number
    }),
    ("one line too far with 26", |loan| {
        let number = right(loan);
        *loan.line += u32::from(number == 26);
        number
    }),
];

/// The first book for which the program differs from the paper.
fn first_difference(program: Call) -> Option<u64> {
    (0..FIRST_BOOKS).find(|&index| {
        let (_, case) = book(DEFAULT.seed, index, program);
        !case.due.unlike(&case.came).is_empty()
    })
}

/// Without this, a comparison that always differs would find every wrong program.
#[test]
fn right_programs_do_not_differ() {
    assert_eq!(first_difference(right), None);
    assert_eq!(first_difference(|loan| read(loan, right_body)), None);
    assert_eq!(first_difference(|loan| listed(loan, |_, _| ())), None);
}

#[test]
fn wrong_words_are_found() {
    all_are_found(first_difference, &WRONG_WORDS);
}

#[test]
fn wrong_counts_are_found() {
    all_are_found(first_difference, &WRONG_COUNTS);
}

#[test]
fn wrong_lists_are_found() {
    all_are_found(first_difference, &WRONG_LISTS);
}

#[test]
fn wrong_refusals_are_found() {
    all_are_found(first_difference, &WRONG_REFUSALS);
}
