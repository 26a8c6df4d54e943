//! Seeded books with bodies of eight and of ten numbers: valid ones, such with a fault or two, and random bytes.

use crate::cards::{self, Numbers, CARD_NUMBERS, GRADE, HEIGHT, MARK};
use crate::lent::ABOVE_16_BITS;
use crate::seeded::Seeded;

pub const CAPITALS_AND_DIGITS: &[u8] = b"ABCDEFGHIJKLMNOPQRSTUVWXYZ0123456789";
const ALPHABET: &[u8] = b"0123456789  \n\nABZ-";
/// Bytes just outside what a name or a number may hold.
pub const STRANGE: &[u8] = b"/:@[`az+-.,_\t\r\x00\x7f\x80\xff\n 0";
const SIZES: [usize; 5] = [0, 8191, 8192, 8193, 20_000];
/// Of the texts of set sizes, one in so many has more than 65,536 bytes.
const LONG_ONE_IN: usize = 100;

/// The text to be lent, and what lies right behind it.
pub struct Book {
    pub text: Vec<u8>,
    pub beyond: Vec<u8>,
}

/// The lines of a book, without their byte 10.
pub type Lines = Vec<Vec<u8>>;

/// Makes a seeded book.
type Make = fn(&mut Seeded) -> Book;

pub const KINDS: [(&str, Make); 23] = [
    ("valid", |s| book(lines(s))),
    ("byte changed", |s| bytes_faulted(s, change_byte)),
    ("byte added", |s| bytes_faulted(s, add_byte)),
    ("byte dropped", |s| bytes_faulted(s, drop_byte)),
    ("cut at a place", cut),
    ("lines exchanged", |s| lines_faulted(s, exchange_lines)),
    ("line doubled", |s| lines_faulted(s, double_line)),
    ("line dropped", |s| lines_faulted(s, drop_line)),
    ("twin name", |s| lines_faulted(s, twin_name)),
    ("names alike", names_alike),
    ("name malformed", |s| lines_faulted(s, malform_name)),
    ("wrong line", |s| lines_faulted(s, wrong_line)),
    ("number malformed", |s| lines_faulted(s, malform_number)),
    ("last two malformed", |s| lines_faulted(s, malform_last_two)),
    ("minus elsewhere", |s| lines_faulted(s, minus_elsewhere)),
    ("other count of numbers", |s| {
        lines_faulted(s, other_count_of_numbers)
    }),
    ("count changed", |s| lines_faulted(s, change_count)),
    ("bytes after", bytes_after),
    ("two faults", two_faults),
    ("set size", set_size),
    ("longest", longest),
    ("random bytes", random_bytes),
    ("random signs", random_signs),
];

fn text_of(lines: &Lines) -> Vec<u8> {
    let ended = lines.iter().flat_map(|line| line.iter().chain(b"\n"));
    ended.copied().collect()
}

fn book(lines: Lines) -> Book {
    Book {
        text: text_of(&lines),
        beyond: Vec::new(),
    }
}

fn lines_faulted(seeded: &mut Seeded, fault: fn(&mut Lines, &mut Seeded)) -> Book {
    let mut lines = lines(seeded);
    fault(&mut lines, seeded);
    book(lines)
}

fn bytes_faulted(seeded: &mut Seeded, fault: fn(&mut Vec<u8>, &mut Seeded)) -> Book {
    let mut book = book(lines(seeded));
    fault(&mut book.text, seeded);
    book
}

/// A valid book: the count, the contents, the bodies.
fn lines(seeded: &mut Seeded) -> Lines {
    let count = curve_count(seeded);
    let names = names(count, seeded);
    lines_with(&names, seeded)
}

/// So many names, none of them twins.
pub fn names(count: usize, seeded: &mut Seeded) -> Lines {
    let mut names: Lines = Vec::new();
    while names.len() < count {
        let name = name(&names, seeded);
        if !names.contains(&name) {
            names.push(name);
        }
    }
    names
}

fn lines_with(names: &Lines, seeded: &mut Seeded) -> Lines {
    let count = names.len();
    let mut lines = vec![count.to_string().into_bytes()];
    for (place, name) in names.iter().enumerate() {
        lines.push(contents_line(name, count + 2 + place));
    }
    for _ in 0..count {
        lines.push(body(seeded));
    }
    lines
}

pub fn curve_count(seeded: &mut Seeded) -> usize {
    match seeded.below(10) {
        0 => 1,
        1 => 64,
        2 => seeded.between(1, 64) as usize,
        3 => seeded.between(8, 12) as usize,
        _ => seeded.between(1, 12) as usize,
    }
}

/// A name of 1 to 8 signs, often one that begins like an earlier one.
fn name(earlier: &Lines, seeded: &mut Seeded) -> Vec<u8> {
    let mut name = Vec::new();
    if !earlier.is_empty() && seeded.one_in(3) {
        name.clone_from(&earlier[seeded.below(earlier.len())]);
        if seeded.one_in(2) {
            name.truncate(seeded.between(1, 8) as usize);
            return name;
        }
    }
    let length = seeded.between(1, 8) as usize;
    while name.len() < length {
        name.push(seeded.pick(CAPITALS_AND_DIGITS));
    }
    name
}

fn contents_line(name: &[u8], line: usize) -> Vec<u8> {
    let number = format!(" {line}").into_bytes();
    [name, &number].concat()
}

fn body(seeded: &mut Seeded) -> Vec<u8> {
    body_line(&card(seeded))
}

/// A card that a book can hold, of either kind: an accepted one, a damaged one, or numbers of 1 to 7 digits.
pub fn card(seeded: &mut Seeded) -> Numbers {
    let card = match seeded.below(4) {
        0 | 1 => cards::valid(seeded),
        2 => cards::damaged(seeded),
        _ => all_digits(seeded),
    };
    in_seven_digits(card)
}

/// Numbers of 1 to 7 digits, the last two with a minus or without.
fn all_digits(seeded: &mut Seeded) -> Numbers {
    let mut card: Numbers = std::array::from_fn(|_| digits(seeded).cast_signed());
    card[MARK] = seeded.signed(0, 1);
    card[HEIGHT] *= seeded.pick(&[1, -1]);
    card[GRADE] *= seeded.pick(&[1, -1]);
    card
}

/// What of the numbers a body has room for; 0 and 0 beside mark 0, and 1 for every other mark.
fn in_seven_digits(card: Numbers) -> Numbers {
    let mut fit = card.map(|number| number % 10_000_000);
    fit[..MARK].iter_mut().for_each(|n| *n = n.abs());
    if card[MARK] == 0 {
        fit[MARK..].fill(0);
    } else {
        fit[MARK] = 1;
    }
    fit
}

/// The words of a body: eight numbers where relative, ten where absolute.
fn body_words(card: &Numbers) -> Lines {
    let words = card.map(|number| number.to_string().into_bytes());
    match card[MARK] {
        0 => words[..MARK].to_vec(),
        _ => [&words[..MARK], &words[HEIGHT..]].concat(),
    }
}

fn body_line(card: &Numbers) -> Vec<u8> {
    body_words(card).join(&b' ')
}

/// A number of 1 to 7 digits.
pub fn digits(seeded: &mut Seeded) -> u32 {
    let bound = 10_u32.pow(seeded.between(1, 7));
    match seeded.below(4) {
        0 => bound - 1,
        1 => bound / 10,
        _ => seeded.between(0, bound - 1),
    }
}

/// A byte of the book's own, one beside them, or any.
fn byte(seeded: &mut Seeded) -> u8 {
    match seeded.below(3) {
        0 => seeded.pick(ALPHABET),
        1 => seeded.pick(STRANGE),
        _ => seeded.number() as u8,
    }
}

fn change_byte(text: &mut Vec<u8>, seeded: &mut Seeded) {
    let place = seeded.below(text.len());
    text.splice(place..=place, [byte(seeded)]);
}

fn add_byte(text: &mut Vec<u8>, seeded: &mut Seeded) {
    let place = seeded.below(text.len() + 1);
    text.insert(place, byte(seeded));
}

fn drop_byte(text: &mut Vec<u8>, seeded: &mut Seeded) {
    text.remove(seeded.below(text.len()));
}

/// Cut at a place; the rest of the book lies right behind the text, where nobody may look.
fn cut(seeded: &mut Seeded) -> Book {
    let mut text = text_of(&lines(seeded));
    let place = match seeded.below(4) {
        0 => text.len() - 1,
        1 => seeded.below(text.len().min(12)),
        _ => seeded.below(text.len()),
    };
    let beyond = text.split_off(place);
    Book { text, beyond }
}

fn exchange_lines(lines: &mut Lines, seeded: &mut Seeded) {
    let (one, other) = (seeded.below(lines.len()), seeded.below(lines.len()));
    lines.swap(one, other);
}

fn double_line(lines: &mut Lines, seeded: &mut Seeded) {
    let place = seeded.below(lines.len());
    lines.insert(place, lines[place].clone());
}

fn drop_line(lines: &mut Lines, seeded: &mut Seeded) {
    lines.remove(seeded.below(lines.len()));
}

/// Count of the contents lines in lines that may be faulted already.
fn contents(lines: &Lines) -> usize {
    (lines.len().saturating_sub(1) / 2).max(1)
}

/// The place of some contents line.
fn contents_place(lines: &Lines, seeded: &mut Seeded) -> usize {
    let place = 1 + seeded.below(contents(lines));
    place.min(lines.len() - 1)
}

fn name_of(line: &[u8]) -> Vec<u8> {
    line.iter().copied().take_while(|&b| b != b' ').collect()
}

fn put_name(line: &mut Vec<u8>, name: &[u8]) {
    let rest = line.split_off(name_of(line).len());
    *line = [name, &rest].concat();
}

fn put_line_number(line: &mut Vec<u8>, number: u32) {
    let name = name_of(line);
    *line = contents_line(&name, number as usize);
}

fn twin_name(lines: &mut Lines, seeded: &mut Seeded) {
    let place = contents_place(lines, seeded);
    twin_name_at(lines, place, seeded);
}

/// Gives a contents line the name of an earlier one: the first, the last before it, or any.
fn twin_name_at(lines: &mut Lines, place: usize, seeded: &mut Seeded) {
    let last = place.saturating_sub(1).max(1);
    let from = match seeded.below(3) {
        0 => 1,
        1 => last,
        _ => 1 + seeded.below(last),
    };
    let name = name_of(&lines[from.min(place)]);
    put_name(&mut lines[place], &name);
}

/// Names that begin like another: accepted.
fn names_alike(seeded: &mut Seeded) -> Book {
    let names = alike(seeded);
    book(lines_with(&names, seeded))
}

/// Fronts of one name and such that differ from it in one byte, none of them twins.
pub fn alike(seeded: &mut Seeded) -> Lines {
    let full: Vec<u8> = (0..8).map(|_| seeded.pick(CAPITALS_AND_DIGITS)).collect();
    let mut names: Lines = (1..=8).map(|length| full[..length].to_vec()).collect();
    for place in 0..8 {
        let mut other = full.clone();
        other[place] = seeded.pick(CAPITALS_AND_DIGITS);
        if !names.contains(&other) {
            names.push(other);
        }
    }
    for _ in 0..seeded.below(12) {
        let (one, other) = (seeded.below(names.len()), seeded.below(names.len()));
        names.swap(one, other);
    }
    names.truncate(seeded.between(2, 16) as usize);
    names
}

/// A name without signs, of more than eight, or with a sign that no name holds.
fn malform_name(lines: &mut Lines, seeded: &mut Seeded) {
    let place = contents_place(lines, seeded);
    let mut name = name_of(&lines[place]);
    let sign = seeded.below(name.len());
    match seeded.below(6) {
        0 => name.clear(),
        1 => name.resize(9, b'Z'),
        2 => name.resize(seeded.between(9, 40) as usize, b'0'),
        3 => name[sign] = seeded.pick(STRANGE),
        4 => name[sign] = name[sign].to_ascii_lowercase(),
        _ => name.insert(0, b' '),
    }
    put_name(&mut lines[place], &name);
}

fn wrong_line(lines: &mut Lines, seeded: &mut Seeded) {
    let place = contents_place(lines, seeded);
    wrong_line_at(lines, place, seeded);
}

fn wrong_line_at(lines: &mut Lines, place: usize, seeded: &mut Seeded) {
    let due = (contents(lines) + 1 + place) as u32;
    let number = match seeded.below(8) {
        0 => 0,
        1 => due - 1,
        2 => due + 1,
        3 => place as u32,
        4 => due + 256,
        5 => due + 65536,
        6 => digits(seeded),
        _ => seeded.between(1, 129),
    };
    put_line_number(&mut lines[place], number);
}

fn malform_number(lines: &mut Lines, seeded: &mut Seeded) {
    let place = match seeded.below(4) {
        0 => 0,
        1 => contents_place(lines, seeded),
        _ => seeded.below(lines.len()),
    };
    malform_number_at(lines, place, seeded);
}

/// The words of a line, split at its blanks.
fn words_of(line: &[u8]) -> Lines {
    line.split(|&b| b == b' ').map(<[u8]>::to_vec).collect()
}

/// The faulted word is one of the line's numbers.
fn malform_number_at(lines: &mut Lines, place: usize, seeded: &mut Seeded) {
    let mut words = words_of(&lines[place]);
    let is_contents = words.len() == 2;
    let which = if is_contents && !seeded.one_in(4) {
        1
    } else {
        seeded.below(words.len())
    };
    match seeded.below(12) {
        0 => words.insert(which, Vec::new()),
        1 => words.push(Vec::new()),
        2 => words.push(b"1".to_vec()),
        3 => drop(words.remove(which)),
        4 => words.iter_mut().last().expect("a word").push(b'\r'),
        _ => malform_word(&mut words[which], seeded),
    }
    lines[place] = words.join(&b' ');
}

fn malform_word(word: &mut Vec<u8>, seeded: &mut Seeded) {
    let zeros = seeded.between(1, 6) as usize;
    match seeded.below(9) {
        0 => word.insert(0, b'0'),
        1 => drop(word.splice(0..0, vec![b'0'; zeros])),
        2 => *word = b"10000000".to_vec(),
        3 => *word = format!("{}", seeded.between(9_999_999, u32::MAX)).into_bytes(),
        4 => *word = format!("{}", (1_u64 << 32) + digits(seeded) as u64).into_bytes(),
        5 => word.resize(seeded.between(8, 30) as usize, b'1'),
        6 => word.clear(),
        7 => word.push(byte(seeded)),
        _ => word.insert(0, byte(seeded)),
    }
}

/// The place of some body.
fn body_place(lines: &Lines, seeded: &mut Seeded) -> usize {
    lines.len() - 1 - seeded.below(contents(lines))
}

/// Makes a body absolute, and its height or grade malformed; rarely right after all.
fn malform_last_two(lines: &mut Lines, seeded: &mut Seeded) {
    let mut card = card(seeded);
    card[MARK] = 1;
    let mut words = body_words(&card);
    words[seeded.pick(&[8, 9])] = about_a_minus(seeded);
    let place = body_place(lines, seeded);
    lines[place] = words.join(&b' ');
}

/// A word for a height or a grade: a strange sign before it, a zero that leads, a digit too many.
fn about_a_minus(seeded: &mut Seeded) -> Vec<u8> {
    let digits = digits(seeded).max(1);
    let word = match seeded.below(17) {
        0 | 1 => "-0".to_string(),
        2 => "-".to_string(),
        3 => format!("+{digits}"),
        4 => format!("-0{digits}"),
        5 => format!("0{digits}"),
        6 => format!("--{digits}"),
        7 => format!("{digits}-"),
        8 => format!("- {digits}"),
        9 => "-10000000".to_string(),
        10 => format!("-{}", 10_000_000 + u64::from(seeded.number())),
        11 => (10_000_000 + digits).to_string(),
        12 => return [b"-", &[seeded.pick(STRANGE)], digits.to_string().as_bytes()].concat(),
        13 => "-9999999".to_string(),
        14 => "0".to_string(),
        15 => String::new(),
        _ => format!("-{digits}"),
    };
    word.into_bytes()
}

/// A minus before one of the first eight numbers of a body, rarely before another word of the book.
fn minus_elsewhere(lines: &mut Lines, seeded: &mut Seeded) {
    let place = match seeded.below(8) {
        0 => 0,
        1 => contents_place(lines, seeded),
        _ => body_place(lines, seeded),
    };
    let mut words = words_of(&lines[place]);
    let which = seeded.below(words.len().min(8));
    words[which].insert(0, b'-');
    lines[place] = words.join(&b' ');
}

/// A body of nine numbers, of eleven as a card has them, of seven, of any other count, or with a blank too many.
fn other_count_of_numbers(lines: &mut Lines, seeded: &mut Seeded) {
    let mut card = card(seeded);
    card[MARK] = seeded.pick(&[1, 1, 1, card[MARK]]);
    let eleven: Lines = card.map(|n| n.to_string().into_bytes()).to_vec();
    let ten = [&eleven[..MARK], &eleven[HEIGHT..]].concat();
    let words = match seeded.below(15) {
        0..=4 => ten[..9].to_vec(),
        5 | 6 => eleven,
        7 => ten[..7].to_vec(),
        8 => [&ten[..], &ten[9..]].concat(),
        9 => [&ten[..8], &ten[..]].concat(),
        10 => ten[..seeded.below(7)].to_vec(),
        11 => [&ten[..8], &[Vec::new()]].concat(),
        12 => [&ten[..8], &[Vec::new()], &ten[8..]].concat(),
        13 => [&ten[..9], &[Vec::new()], &ten[9..]].concat(),
        _ => eleven[..9].to_vec(),
    };
    let place = body_place(lines, seeded);
    lines[place] = words.join(&b' ');
}

fn change_count(lines: &mut Lines, seeded: &mut Seeded) {
    let count = contents(lines);
    lines[0] = match seeded.below(12) {
        0 => b"0".to_vec(),
        1 => b"65".to_vec(),
        2 => b"007".to_vec(),
        3 => b"64".to_vec(),
        4 => b"".to_vec(),
        5 => format!("0{count}").into_bytes(),
        6 => (count + 1).to_string().into_bytes(),
        7 => (count - 1).to_string().into_bytes(),
        8 => (count + seeded.pick(&[256, 65_536]))
            .to_string()
            .into_bytes(),
        9 => ((1_u64 << 32) + count as u64).to_string().into_bytes(),
        10 => digits(seeded).to_string().into_bytes(),
        _ => seeded.between(60, 70).to_string().into_bytes(),
    };
}

fn bytes_after(seeded: &mut Seeded) -> Book {
    let mut book = book(lines(seeded));
    match seeded.below(6) {
        0 => book.text.push(b'\n'),
        1 => book.text.push(byte(seeded)),
        2 => book.text.extend(body(seeded)),
        3 => book.text.extend(text_of(&lines(seeded))),
        _ => {
            let length = seeded.between(1, 300) as usize;
            book.text.extend((0..length).map(|_| byte(seeded)));
        }
    }
    book
}

/// Two faults: half the time in one and the same contents line, for the order 23, 24, 25.
fn two_faults(seeded: &mut Seeded) -> Book {
    let mut lines = lines(seeded);
    if seeded.one_in(2) {
        let place = contents_place(&lines, seeded);
        let faults = [twin_name_at, wrong_line_at, malform_number_at];
        seeded.pick(&faults)(&mut lines, place, seeded);
        seeded.pick(&faults)(&mut lines, place, seeded);
        return book(lines);
    }
    let faults = [exchange_lines, double_line, twin_name, wrong_line];
    seeded.pick(&faults)(&mut lines, seeded);
    if seeded.one_in(2) {
        seeded.pick(&[malform_number, change_count, drop_line])(&mut lines, seeded);
        return book(lines);
    }
    let mut book = book(lines);
    seeded.pick(&[change_byte, add_byte, drop_byte])(&mut book.text, seeded);
    book
}

/// A text of one of the set sizes, half of them with a valid book at the start; rarely one above 65,536 bytes.
fn set_size(seeded: &mut Seeded) -> Book {
    if seeded.one_in(LONG_ONE_IN) {
        return above_16_bits(seeded);
    }
    let size = seeded.pick(&SIZES);
    let mut text = Vec::new();
    if seeded.one_in(2) {
        text = text_of(&lines(seeded));
        text.truncate(size);
    }
    while text.len() < size {
        text.push(byte(seeded));
    }
    let beyond = text_of(&lines(seeded));
    Book { text, beyond }
}

/// A valid book and 65,536 bytes more: with 16 bits of its length it would be accepted.
fn above_16_bits(seeded: &mut Seeded) -> Book {
    let mut book = book(lines(seeded));
    book.text.resize(book.text.len() + ABOVE_16_BITS, b' ');
    book
}

/// A book of 6049 bytes, as long as one can be: 64 names of eight signs, and numbers of seven digits, the last two with a
/// minus; or of 4897 bytes, with relative bodies only. Half of them with one byte at fault.
fn longest(seeded: &mut Seeded) -> Book {
    let names = long_names(seeded);
    let mut lines = lines_with(&names, seeded);
    let mark = seeded.pick(&[1, 1, 0]);
    for line in &mut lines[65..] {
        *line = body_line(&long_card(mark, seeded));
    }
    let mut book = book(lines);
    if seeded.one_in(2) {
        seeded.pick(&[change_byte, add_byte, drop_byte])(&mut book.text, seeded);
    }
    book
}

/// Numbers of seven digits, the height and the grade below 0.
pub fn long_card(mark: i32, seeded: &mut Seeded) -> Numbers {
    let mut card = [0; CARD_NUMBERS].map(|_| seeded.signed(1_000_000, 9_999_999));
    card[MARK] = mark;
    card[HEIGHT] = -card[HEIGHT];
    card[GRADE] = -card[GRADE];
    card
}

/// 64 names of eight signs, none of them twins.
pub fn long_names(seeded: &mut Seeded) -> Lines {
    (10..74).map(|i| long_name(i, seeded)).collect()
}

/// A name of eight signs that ends in the two digits of its number.
fn long_name(number: u32, seeded: &mut Seeded) -> Vec<u8> {
    let mut name: Vec<u8> = (0..6).map(|_| seeded.pick(CAPITALS_AND_DIGITS)).collect();
    name.extend(number.to_string().bytes());
    name
}

fn random_bytes(seeded: &mut Seeded) -> Book {
    let length = random_length(seeded);
    let text = (0..length).map(|_| seeded.number() as u8).collect();
    let beyond = Vec::new();
    Book { text, beyond }
}

/// Random signs of the book's alphabet, half of them after the first lines of a valid book.
fn random_signs(seeded: &mut Seeded) -> Book {
    let mut text = Vec::new();
    if seeded.one_in(2) {
        let mut lines = lines(seeded);
        lines.truncate(seeded.below(lines.len()));
        text = text_of(&lines);
    }
    for _ in 0..random_length(seeded) {
        text.push(seeded.pick(ALPHABET));
    }
    let beyond = Vec::new();
    Book { text, beyond }
}

fn random_length(seeded: &mut Seeded) -> usize {
    match seeded.below(8) {
        0 => seeded.below(5),
        1 => seeded.below(9000),
        _ => seeded.below(120),
    }
}
