//! Seeded lists for the writer of books: right ones, such with a fault or more, and random numbers.

use crate::books::{self, CAPITALS_AND_DIGITS, STRANGE};
use crate::cards;
use crate::lent::ABOVE_16_BITS;
use crate::seeded::Seeded;
use paper::read_book;

/// Numbers that a curve takes in the list, and where its card and what its heights count from stand among them.
pub const LISTED: usize = 13;
pub const CARD: usize = 2;
pub const MARK: usize = CARD + cards::MARK;
pub const HEIGHT: usize = CARD + cards::HEIGHT;
pub const GRADE: usize = CARD + cards::GRADE;
/// No book has more curves.
pub const MOST_CURVES: usize = 64;
/// Bytes of the greatest book there is.
pub const GREATEST_BOOK: usize = 6049;
/// One buffer in so many has more than 65,536 bytes.
const LONG_ONE_IN: usize = 200;
/// One list of a wrong length in so many has more than 65,536 curves.
const LONGEST_ONE_IN: usize = 100;

pub type Curve = [i32; LISTED];

/// A list, and the bytes in which its name places count.
pub struct List {
    pub numbers: Vec<i32>,
    pub names: Vec<u8>,
    /// What lies right behind either, where nobody may look.
    pub beyond_numbers: Vec<i32>,
    pub beyond_names: Vec<u8>,
}

/// Makes a seeded list.
type Make = fn(&mut Seeded) -> List;

pub const KINDS: [(&str, Make); 23] = [
    ("names scattered", scattered),
    ("read from a book", from_a_book),
    ("card edited", card_edited),
    ("curves moved", curves_moved),
    ("names alike", names_alike),
    ("name at the end", |s| faulted(s, name_at_the_end)),
    ("far names", far_names),
    ("numbers on a bound", numbers_on_a_bound),
    ("full list", full_list),
    ("greatest book", greatest_book),
    ("wrong length", wrong_length),
    ("name of a wrong size", |s| faulted(s, wrong_size)),
    ("name outside", |s| faulted(s, name_outside)),
    ("strange sign", |s| faulted(s, strange_sign)),
    ("twin name", twin_name),
    ("long number", |s| faulted(s, long_number)),
    ("wrong mark", |s| faulted(s, wrong_mark)),
    ("number below 0", |s| faulted(s, number_below_0)),
    ("height beside mark 0", |s| faulted(s, beside_mark_0)),
    ("two faults", two_faults),
    ("three faults", |s| some_faults(&[31, 32, 33], s)),
    ("random, near", random_near),
    ("random numbers", random_numbers),
];

impl List {
    pub fn curves(&self) -> &[Curve] {
        self.numbers.as_chunks().0
    }

    fn curves_mut(&mut self) -> &mut [Curve] {
        self.numbers.as_chunks_mut().0
    }

    /// Puts the name of a curve behind all other bytes.
    fn put_at_the_end(&mut self, curve: usize, name: &[u8]) {
        let place = self.names.len() as i32;
        self.names.extend(name);
        let curve = &mut self.curves_mut()[curve];
        (curve[0], curve[1]) = (place, name.len() as i32);
    }

    /// The name of a curve that is right.
    fn name(&self, curve: usize) -> Vec<u8> {
        let [place, size, ..] = self.curves()[curve];
        self.names[place as usize..(place + size) as usize].to_vec()
    }

    /// Leaves so many numbers; the others lie right behind them.
    fn cut(&mut self, numbers: usize) {
        self.beyond_numbers = self.numbers.split_off(numbers);
    }
}

/// Right curves with these names, which stand one behind another among other bytes, in any order.
fn with_names(names: &[Vec<u8>], seeded: &mut Seeded) -> List {
    let mut list = List {
        numbers: vec![0; LISTED * names.len()],
        names: gap(seeded),
        beyond_numbers: one_more_curve(seeded),
        beyond_names: capitals(9, seeded),
    };
    for curve in shuffled(names.len(), seeded) {
        list.put_at_the_end(curve, &names[curve]);
        list.names.extend(gap(seeded));
    }
    for curve in list.curves_mut() {
        curve[CARD..].copy_from_slice(&books::card(seeded));
    }
    list
}

/// Some bytes before, between or behind names; most of them would be right in a name.
fn gap(seeded: &mut Seeded) -> Vec<u8> {
    let length = seeded.pick(&[0, 0, 0, 1, 2, 12]);
    match seeded.below(3) {
        0 => (0..length).map(|_| seeded.number() as u8).collect(),
        _ => capitals(length, seeded),
    }
}

fn capitals(length: usize, seeded: &mut Seeded) -> Vec<u8> {
    let sign = |_| seeded.pick(CAPITALS_AND_DIGITS);
    (0..length).map(sign).collect()
}

/// A curve that would be right if its name were no twin.
fn one_more_curve(seeded: &mut Seeded) -> Vec<i32> {
    [&[0, 1], &books::card(seeded)[..]].concat()
}

/// The numbers below `count` in any order.
fn shuffled(count: usize, seeded: &mut Seeded) -> Vec<usize> {
    let mut order: Vec<usize> = (0..count).collect();
    for place in 1..count {
        order.swap(place, seeded.below(place + 1));
    }
    order
}

fn of_count(count: usize, seeded: &mut Seeded) -> List {
    let names = books::names(count, seeded);
    with_names(&names, seeded)
}

fn scattered(seeded: &mut Seeded) -> List {
    of_count(books::curve_count(seeded), seeded)
}

/// The list that the paper's reader gives for an accepted book of any kind, and the book.
fn from_a_book(seeded: &mut Seeded) -> List {
    loop {
        let book = seeded.pick(&books::KINDS).1(seeded);
        let mut numbers = vec![0; LISTED * MOST_CURVES];
        let reply = read_book(&book.text, &mut numbers);
        if reply.number == 0 {
            numbers.truncate(LISTED * reply.count as usize);
            return List {
                numbers,
                names: book.text,
                beyond_numbers: one_more_curve(seeded),
                beyond_names: capitals(9, seeded),
            };
        }
    }
}

/// As read from a book, with some other numbers on one card or more.
fn card_edited(seeded: &mut Seeded) -> List {
    let mut list = from_a_book(seeded);
    let curves = list.curves_mut();
    for _ in 0..seeded.between(1, 3) {
        let curve = seeded.below(curves.len());
        let other = books::card(seeded);
        match seeded.below(4) {
            0 => curves[curve][CARD..].copy_from_slice(&other),
            1 => curves[curve][MARK..].copy_from_slice(&other[cards::MARK..]),
            _ => curves[curve][CARD + seeded.below(8)] = books::digits(seeded).cast_signed(),
        }
    }
    list
}

/// As read from a book, in another order, and some curves left out.
fn curves_moved(seeded: &mut Seeded) -> List {
    let mut list = from_a_book(seeded);
    let curves = list.curves().to_vec();
    let left = 1 + seeded.below(curves.len());
    let order = shuffled(curves.len(), seeded).into_iter().take(left);
    list.numbers = order.flat_map(|curve| curves[curve]).collect();
    list
}

/// Names of which one is the front of another or differs in one byte; half of them are fronts at one place.
fn names_alike(seeded: &mut Seeded) -> List {
    if seeded.one_in(2) {
        return fronts_at_one_place(seeded);
    }
    let names = books::alike(seeded);
    with_names(&names, seeded)
}

fn fronts_at_one_place(seeded: &mut Seeded) -> List {
    let full = capitals(8, seeded);
    let sizes = shuffled(8, seeded);
    let fronts: Vec<_> = sizes.iter().map(|&size| full[..=size].to_vec()).collect();
    let mut list = with_names(&fronts[..seeded.between(2, 8) as usize], seeded);
    let place = list.names.len() as i32;
    list.names.extend(full);
    for curve in list.curves_mut() {
        curve[0] = place;
    }
    list
}

/// Names behind many other bytes: so many that 8 or 16 bits of their places lead to other bytes.
fn far_names(seeded: &mut Seeded) -> List {
    let mut list = scattered(seeded);
    let before = seeded.pick(&[248, 256, 8192, 8192, 65_528, 65_536]);
    let before = before + seeded.below(32);
    list.names.splice(0..0, capitals(before, seeded));
    for curve in list.curves_mut() {
        curve[0] += before as i32;
    }
    list
}

/// Numbers with the least and the greatest number of each count of digits; rarely one digit too many.
fn numbers_on_a_bound(seeded: &mut Seeded) -> List {
    let mut list = scattered(seeded);
    for curve in list.curves_mut() {
        curve[CARD..MARK].fill_with(|| number_on_a_bound(seeded));
        if curve[MARK] == 1 {
            curve[HEIGHT..].fill_with(|| number_on_a_bound(seeded) * seeded.pick(&[1, -1]));
        }
    }
    list
}

fn number_on_a_bound(seeded: &mut Seeded) -> i32 {
    let bound = 10_i32.pow(seeded.between(0, 7));
    if bound < 10_000_000 || seeded.one_in(400) {
        return seeded.pick(&[bound - 1, bound]);
    }
    bound - 1
}

fn full_list(seeded: &mut Seeded) -> List {
    of_count(MOST_CURVES, seeded)
}

/// 64 names of eight signs, and numbers of seven digits, the heights and grades with a minus.
fn greatest_book(seeded: &mut Seeded) -> List {
    let names = books::long_names(seeded);
    let mut list = with_names(&names, seeded);
    for curve in list.curves_mut() {
        curve[CARD..].copy_from_slice(&books::long_card(1, seeded));
    }
    list
}

/// No numbers, 1 to 12, some too many or too few for whole curves, ten a curve, too many curves; also exactly 13 and 832.
fn wrong_length(seeded: &mut Seeded) -> List {
    match seeded.below(13) {
        0 => no_numbers(seeded),
        1 => cut_to(seeded.pick(&[1, 10, 12, 12, 12, 13]), seeded),
        2 | 3 => {
            let whole = LISTED * books::curve_count(seeded);
            cut_to(whole + seeded.between(1, 12) as usize, seeded)
        }
        4 => cut_to(seeded.pick(&[831, 832, 833, 844]), seeded),
        12 => cut_to(10 * books::curve_count(seeded), seeded),
        5..=7 => of_count(65, seeded),
        8 => of_count(seeded.between(66, 130) as usize, seeded),
        9 => with_more(LISTED * 256, seeded),
        _ if seeded.one_in(LONGEST_ONE_IN) => with_more(LISTED * ABOVE_16_BITS, seeded),
        _ => with_more(ABOVE_16_BITS, seeded),
    }
}

/// An empty list, with names or without.
fn no_numbers(seeded: &mut Seeded) -> List {
    let mut list = scattered(seeded);
    list.cut(0);
    if seeded.one_in(2) {
        list.beyond_names = list.names.split_off(0);
    }
    list
}

/// The first numbers of right curves; the others lie right behind them.
fn cut_to(numbers: usize, seeded: &mut Seeded) -> List {
    let mut list = of_count(numbers.div_ceil(LISTED), seeded);
    list.cut(numbers);
    list
}

/// Right curves and so many numbers more: 8 or 16 bits of their count would leave the right ones.
fn with_more(more: usize, seeded: &mut Seeded) -> List {
    let mut list = scattered(seeded);
    let more = (0..more).map(|_| seeded.number().cast_signed());
    list.numbers.extend(more);
    list
}

/// Alters one curve; the others stay right.
type Fault = fn(&mut List, usize, &mut Seeded);

/// Right curves, one of which gets a fault: the first, the last or any.
fn faulted(seeded: &mut Seeded, fault: Fault) -> List {
    let mut list = scattered(seeded);
    let last = list.curves().len() - 1;
    let any = seeded.below(last + 1);
    let curve = seeded.pick(&[0, last, any, any]);
    fault(&mut list, curve, seeded);
    list
}

/// No fault: the name ends with the last byte there is.
fn name_at_the_end(list: &mut List, curve: usize, seeded: &mut Seeded) {
    let name = list.name(curve);
    list.names.extend(gap(seeded));
    list.put_at_the_end(curve, &name);
}

/// Nine bytes, more, none, or so many that 8, 16 or 31 bits of them would be right.
fn wrong_size(list: &mut List, curve: usize, seeded: &mut Seeded) {
    match seeded.below(12) {
        0..=3 => put_long_name(list, curve, 9, seeded),
        4 | 5 => put_long_name(list, curve, seeded.between(10, 40) as usize, seeded),
        6 | 7 => put_huge_size(list, curve, seeded),
        _ => put_no_name(list, curve, seeded),
    }
}

fn put_long_name(list: &mut List, curve: usize, size: usize, seeded: &mut Seeded) {
    let name = capitals(size, seeded);
    list.put_at_the_end(curve, &name);
    list.names.extend(gap(seeded));
}

/// Far too long, or below 0; of some of these, 8, 16 or 31 bits would be right, or the number without its minus.
fn put_huge_size(list: &mut List, curve: usize, seeded: &mut Seeded) {
    let size = &mut list.curves_mut()[curve][1];
    let (right, least) = (*size, i32::MIN);
    let above = [256 + right, 65_536 + right, i32::MAX];
    let below = [-right, -1, least, least + right, right - 256];
    *size = match seeded.below(2) {
        0 => seeded.pick(&above),
        _ => seeded.pick(&below),
    };
}

/// A name without bytes; its place is within, at the end or past it.
fn put_no_name(list: &mut List, curve: usize, seeded: &mut Seeded) {
    let end = list.names.len() as i32;
    let curve = &mut list.curves_mut()[curve];
    curve[0] = seeded.pick(&[curve[0], curve[0], end, end + 1]);
    curve[1] = 0;
}

/// One byte past the end, wholly past it, far past it, above 31 bits with its size, or from a place below 0.
fn name_outside(list: &mut List, curve: usize, seeded: &mut Seeded) {
    let [place, size, ..] = list.curves()[curve];
    let end = list.names.len() as i32;
    let outside = match seeded.below(10) {
        0..=2 => return one_byte_past(list, curve, seeded),
        3 => end,
        4 => end + seeded.signed(1, 9),
        5 => place + seeded.pick(&[65_536, 1 << 24, 1 << 30]),
        6 => i32::MAX - seeded.signed(0, size - 1),
        7 => seeded.pick(&[i32::MIN, i32::MIN + place, -1 - place]),
        _ => -seeded.signed(1, size),
    };
    list.curves_mut()[curve][0] = outside;
}

/// The name's last byte, or more of them, lies right behind the bytes that are lent.
fn one_byte_past(list: &mut List, curve: usize, seeded: &mut Seeded) {
    let name = list.name(curve);
    list.put_at_the_end(curve, &name);
    let past = seeded.pick(&[1, 1, 1, name.len()]);
    let beyond = list.names.split_off(list.names.len() - past);
    list.beyond_names.splice(0..0, beyond);
}

/// One sign of the name is a byte that no name holds.
fn strange_sign(list: &mut List, curve: usize, seeded: &mut Seeded) {
    let mut name = list.name(curve);
    let sign = seeded.below(name.len());
    name[sign] = match seeded.below(4) {
        0 => seeded.number() as u8,
        1 => seeded.pick(b"/:@["),
        2 => name[sign].to_ascii_lowercase(),
        _ => seeded.pick(STRANGE),
    };
    list.put_at_the_end(curve, &name);
    list.names.extend(gap(seeded));
}

/// One of the eight, or the height or grade of an absolute curve, has more than seven digits.
fn long_number(list: &mut List, curve: usize, seeded: &mut Seeded) {
    let number = match seeded.below(8) {
        0..=2 => 10_000_000,
        3 => i32::MAX,
        4 => 10_i32.pow(seeded.between(8, 9)) - 1,
        5 => 10_000_000 + books::digits(seeded).cast_signed(),
        // Of these, 24 bits are a number of one digit or more.
        6 => (1 << 24) * seeded.signed(1, 127) + seeded.signed(0, 1000),
        _ => seeded.signed(10_000_000, i32::MAX),
    };
    let curve = &mut list.curves_mut()[curve];
    if seeded.one_in(2) {
        curve[CARD + seeded.below(8)] = number;
        return;
    }
    let number = seeded.pick(&[number, -number, -number, i32::MIN]);
    curve[MARK] = 1;
    curve[seeded.pick(&[HEIGHT, GRADE])] = number;
}

/// A mark that is neither 0 nor 1; of some of them 8 or 16 bits are. The height and grade stay, or are both 0.
fn wrong_mark(list: &mut List, curve: usize, seeded: &mut Seeded) {
    let marks = [
        2,
        2,
        -1,
        -1,
        3,
        10,
        256,
        257,
        65_536,
        65_537,
        i32::MIN,
        i32::MAX,
    ];
    let curve = &mut list.curves_mut()[curve];
    curve[MARK] = seeded.pick(&marks);
    if seeded.one_in(3) {
        curve[HEIGHT..].fill(0);
    }
}

/// One of the eight is below 0: often no more than one, or a number that is right without its minus.
fn number_below_0(list: &mut List, curve: usize, seeded: &mut Seeded) {
    let number = &mut list.curves_mut()[curve][CARD + seeded.below(8)];
    *number = match seeded.below(6) {
        0 | 1 => -1,
        2 => -(*number).max(1),
        3 => -books::digits(seeded).max(1).cast_signed(),
        4 => -10_000_000,
        _ => i32::MIN + seeded.signed(0, 9_999_999),
    };
}

/// A relative curve with a height, a grade or both; any number but 0.
fn beside_mark_0(list: &mut List, curve: usize, seeded: &mut Seeded) {
    let curve = &mut list.curves_mut()[curve];
    curve[MARK..].fill(0);
    let mut number = || seeded.signed(1, 9_999_999) * seeded.pick(&[1, -1]);
    let [height, grade] = [number(), number()];
    match seeded.below(3) {
        0 => curve[HEIGHT] = height,
        1 => curve[GRADE] = grade,
        _ => (curve[HEIGHT], curve[GRADE]) = (height, grade),
    }
}

/// Gives one curve the name of another: its place, or the same bytes elsewhere.
fn make_twins(list: &mut List, (from, to): (usize, usize), seeded: &mut Seeded) {
    let [place, size, ..] = list.curves()[from];
    let name = list.name(from);
    if seeded.one_in(2) {
        let curve = &mut list.curves_mut()[to];
        (curve[0], curve[1]) = (place, size);
    } else {
        list.put_at_the_end(to, &name);
        list.names.extend(gap(seeded));
    }
}

/// Twins: any two, neighbours, or the first and the last.
fn twin_name(seeded: &mut Seeded) -> List {
    let mut list = of_count(books::curve_count(seeded).max(2), seeded);
    let count = list.curves().len();
    let order = shuffled(count, seeded);
    let first = seeded.below(count - 1);
    let pairs = [(order[0], order[1]), (first, first + 1), (0, count - 1)];
    let pair = seeded.pick(&pairs);
    make_twins(&mut list, pair, seeded);
    list
}

fn two_faults(seeded: &mut Seeded) -> List {
    let faults = seeded.pick(&[[31, 32], [31, 33], [32, 33]]);
    some_faults(&faults, seeded)
}

/// Faults for each of these numbers, in different curves.
fn some_faults(numbers: &[u32], seeded: &mut Seeded) -> List {
    let count = seeded.pick(&[4, 4, 5, 8, 12, 64]);
    let mut list = of_count(count, seeded);
    let curves = shuffled(count, seeded);
    if numbers.contains(&32) {
        make_twins(&mut list, (curves[0], curves[1]), seeded);
    }
    if numbers.contains(&33) {
        let faults = [long_number, wrong_mark, number_below_0, beside_mark_0];
        seeded.pick(&faults)(&mut list, curves[2], seeded);
    }
    if numbers.contains(&31) {
        seeded.pick(&[wrong_size, name_outside, strange_sign])(&mut list, curves[3], seeded);
    }
    list
}

/// Names anywhere in bytes that are mostly right, overlapping too; sizes and numbers rarely wrong.
fn random_near(seeded: &mut Seeded) -> List {
    let length = seeded.between(9, 60) as usize;
    let mut names = capitals(length, seeded);
    if seeded.one_in(4) {
        names[seeded.below(length)] = seeded.pick(STRANGE);
    }
    let curve = |_| {
        let mut curve = [0; LISTED];
        curve[0] = seeded.below(length - 6) as i32;
        curve[1] = if seeded.one_in(30) {
            9
        } else {
            seeded.signed(3, 8)
        };
        curve[CARD..].copy_from_slice(&books::card(seeded));
        if seeded.one_in(30) {
            curve[CARD + seeded.below(cards::CARD_NUMBERS)] = seeded.number().cast_signed();
        }
        curve
    };
    let numbers = (0..4).flat_map(curve).collect();
    List {
        numbers,
        names,
        beyond_numbers: one_more_curve(seeded),
        beyond_names: capitals(9, seeded),
    }
}

/// Numbers of any size, as many as whole curves take, or any count of them; random bytes.
fn random_numbers(seeded: &mut Seeded) -> List {
    let whole = LISTED * seeded.between(0, 66) as usize;
    let any = seeded.below(900);
    let count = seeded.pick(&[LISTED, whole, any]);
    let length = seeded.below(100);
    let number = |_| (seeded.number() >> seeded.below(32)).cast_signed();
    List {
        numbers: (0..count).map(number).collect(),
        names: (0..length).map(|_| seeded.number() as u8).collect(),
        beyond_numbers: one_more_curve(seeded),
        beyond_names: capitals(9, seeded),
    }
}

/// Bytes of the book of a list, whatever is wrong with it: at most 65 curves, names of 1 to 8 bytes, numbers of any length.
pub fn book_size(list: &[i32]) -> usize {
    let digits = |number: i32| number.to_string().len();
    let (curves, _) = list.as_chunks();
    let count = curves.len();
    let mut size = digits(count as i32) + 1;
    for (place, curve) in curves.iter().take(MOST_CURVES + 1).enumerate() {
        let line = digits((count + 2 + place) as i32);
        let body: usize = body_numbers(curve).map(|number| digits(number) + 1).sum();
        size += curve[1].clamp(1, 8) as usize + 1 + line + 1 + body;
    }
    size
}

/// The numbers that the body of a curve has, eight where the mark is 0, else ten.
pub fn body_numbers(curve: &Curve) -> impl Iterator<Item = i32> + '_ {
    let of_datum = if curve[MARK] == 0 {
        &[]
    } else {
        &curve[HEIGHT..]
    };
    curve[CARD..MARK].iter().chain(of_datum).copied()
}

/// None, any below, one byte short, exactly due, one more, many more, enough for every book, rarely above 65,536.
pub fn buffer_length(due: usize, seeded: &mut Seeded) -> usize {
    if seeded.one_in(LONG_ONE_IN) {
        return ABOVE_16_BITS + seeded.below(due);
    }
    match seeded.below(20) {
        0 => 0,
        1 => seeded.below(due),
        2 | 3 => due - 1,
        4..=9 => due,
        10..=12 => due + 1,
        13..=16 => due + seeded.between(2, 400) as usize,
        17 | 18 => GREATEST_BOOK,
        _ => 8192,
    }
}

#[cfg(test)]
mod tests {
    use super::{book_size, GREATEST_BOOK, KINDS};
    use crate::seeded::Seeded;
    use paper::write_book;

    /// The sizes of accepted books, as the lengths of the buffers are measured against them, are the paper's.
    #[test]
    fn sizes_are_the_papers() {
        for (kind, (name, make)) in KINDS.iter().enumerate() {
            for index in 0..50 {
                let list = make(&mut Seeded::new(1, kind as u64, index));
                let reply = write_book(&list.numbers, &list.names, &mut [0; GREATEST_BOOK]);
                if reply.number == 0 {
                    assert_eq!(book_size(&list.numbers), reply.count as usize, "{name}");
                }
            }
        }
    }
}
