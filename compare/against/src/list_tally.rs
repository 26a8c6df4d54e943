//! What was met among the lists for the writer: their replies, and sorts of lists.

use crate::lent::ABOVE_16_BITS;
use crate::list_case::{self, ListAnswer, ListCase};
use crate::lists::{self, body_numbers, book_size, Curve, CARD, GRADE, HEIGHT, LISTED, MARK};
use crate::lists::{GREATEST_BOOK, MOST_CURVES};
use crate::read_back::{name_of, was_read};
use crate::tally::{add_altered, add_numbers, Altered};
use paper::check_card;
use paper::writer::GREATEST_NUMBER;

pub const LIST_KINDS: usize = lists::KINDS.len();
pub const LIST_REPLIES: [u32; 4] = [0, 31, 32, 33];
const MOST_NUMBERS: usize = LISTED * MOST_CURVES;

/// Why a number of a curve cannot be written.
#[derive(Clone, Copy, PartialEq)]
enum Unfit {
    Long,
    Below0,
    Mark,
    HeightBeside0,
    GradeBeside0,
    LongHeight,
    LongGrade,
}

/// Every number of a curve that cannot be written.
fn unfit(curve: &Curve) -> Vec<Unfit> {
    let [height, grade] = [curve[HEIGHT], curve[GRADE]];
    let is_long = |number: i32| number.unsigned_abs() > GREATEST_NUMBER.unsigned_abs();
    let of_eight = curve[CARD..MARK].iter().filter_map(|&number| match number {
        ..0 => Some(Unfit::Below0),
        _ => is_long(number).then_some(Unfit::Long),
    });
    let of_datum = match curve[MARK] {
        0 => [
            (height != 0).then_some(Unfit::HeightBeside0),
            (grade != 0).then_some(Unfit::GradeBeside0),
        ],
        1 => [
            is_long(height).then_some(Unfit::LongHeight),
            is_long(grade).then_some(Unfit::LongGrade),
        ],
        _ => [Some(Unfit::Mark), None],
    };
    of_eight.chain(of_datum.into_iter().flatten()).collect()
}

/// A list as its sorts see it: what is lent, and what is due.
pub struct Seen<'a> {
    list: &'a [i32],
    names: &'a [u8],
    buffer: usize,
    reply: u32,
    /// Bytes of its book, were the buffer long enough; 0 for a list that is refused all the same.
    size: usize,
    unfit: Vec<Unfit>,
    /// Whether the names and the numbers call for 31, 32 and 33, each looked at by itself.
    faults: [bool; 3],
    was_read: bool,
}

impl<'a> Seen<'a> {
    fn new(due: &'a ListAnswer) -> Seen<'a> {
        let (list, names) = (due.list.numbers(), due.names.numbers());
        let mut seen = Seen {
            list,
            names,
            buffer: due.buffer.numbers().len(),
            reply: due.reply,
            size: paper::write_book(list, names, &mut [0; GREATEST_BOOK]).count as usize,
            unfit: Vec::new(),
            faults: [false; 3],
            was_read: was_read(list, names),
        };
        let curves = seen.curves();
        seen.unfit = curves.iter().flat_map(unfit).collect();
        let wrong_name = curves.iter().any(|curve| !seen.is_right_name(curve));
        let has_twins = seen.has_twins(|_, _| true);
        seen.faults = [wrong_name, has_twins, !seen.unfit.is_empty()];
        seen
    }

    /// The curves of a list of a right length, else none.
    fn curves(&self) -> &'a [Curve] {
        let right = self.list.len().is_multiple_of(LISTED) && self.list.len() <= MOST_NUMBERS;
        if right {
            self.list.as_chunks().0
        } else {
            &[]
        }
    }

    fn any_curve(&self, is_so: impl Fn(&Curve) -> bool) -> bool {
        self.curves().iter().any(is_so)
    }

    /// Whether this holds of a number that a body would have.
    fn any_number(&self, is_so: impl Fn(i32) -> bool) -> bool {
        self.any_curve(|curve| body_numbers(curve).any(&is_so))
    }

    /// The bytes of a name that lies within.
    fn name(&self, curve: &Curve) -> Option<&'a [u8]> {
        name_of(curve, self.names)
    }

    /// Accepted, with a card that gets this number.
    fn any_card_with(&self, number: u32) -> bool {
        let card = |curve: &Curve| curve[CARD..].try_into().expect("eleven numbers");
        self.reply == 0 && self.any_curve(|curve| check_card(&card(curve)) == number)
    }

    /// How many curves of an accepted list are absolute; none of a list that is refused.
    fn absolute(&self) -> Option<usize> {
        let absolute = self.curves().iter().filter(|curve| curve[MARK] == 1);
        (self.reply == 0).then(|| absolute.count())
    }

    /// Refused for these numbers of the list and nothing else: there would be room for the book.
    fn only(&self, unfit: &[Unfit]) -> bool {
        self.reply == 33 && self.unfit == unfit && self.buffer >= book_size(self.list)
    }

    /// A mark that is neither 0 nor 1, of which this is so.
    fn any_wrong_mark(&self, is_so: fn(i32) -> bool) -> bool {
        self.only(&[Unfit::Mark]) && self.any_curve(|curve| curve[MARK] != 1 && is_so(curve[MARK]))
    }

    fn is_right_name(&self, curve: &Curve) -> bool {
        let is_sign = |byte: &u8| byte.is_ascii_uppercase() || byte.is_ascii_digit();
        let name = self.name(curve);
        name.is_some_and(|name| (1..=8).contains(&name.len()) && name.iter().all(is_sign))
    }

    /// Whether two right names have the same bytes and this holds of their curves.
    fn has_twins(&self, holds: fn(&Curve, &Curve) -> bool) -> bool {
        self.any_pair(|one, other| {
            let alike = self.name(one) == self.name(other);
            alike && self.is_right_name(one) && holds(one, other)
        })
    }

    /// Whether this holds of two curves of the list.
    fn any_pair(&self, holds: impl Fn(&Curve, &Curve) -> bool) -> bool {
        let mut curves = (1..).zip(self.curves());
        curves.any(|(next, one)| self.curves()[next..].iter().any(|other| holds(one, other)))
    }

    /// Whether this holds of two names of an accepted list, one way or the other.
    fn any_names(&self, holds: fn(&[u8], &[u8]) -> bool) -> bool {
        let names = |one: &Curve, other: &Curve| Some((self.name(one)?, self.name(other)?));
        let either = |(one, other)| holds(one, other) || holds(other, one);
        self.reply == 0 && self.any_pair(|one, other| names(one, other).is_some_and(either))
    }

    /// Where the name ends, measured from the last byte there is; place and size may exceed 31 bits.
    fn past_the_end(&self, curve: &Curve) -> i64 {
        i64::from(curve[0]) + i64::from(curve[1]) - self.names.len() as i64
    }

    fn short_of_room(&self) -> bool {
        self.reply == 33 && self.size > 0
    }
}

/// Whether a list is of a sort.
type IsOfSort = fn(&Seen) -> bool;

/// Sorts of lists, by what is lent and what is due; a list can be of more than one.
pub const SORTS: [(&str, IsOfSort); 73] = [
    ("no numbers", |list| list.list.is_empty()),
    ("1 to 12 numbers", |list| {
        (1..LISTED).contains(&list.list.len())
    }),
    ("some numbers over", |list| {
        list.list.len() > LISTED && list.list.len() % LISTED > 0
    }),
    ("ten numbers a curve", |list| {
        let length = list.list.len();
        length > 0 && length.is_multiple_of(10) && !length.is_multiple_of(LISTED)
    }),
    ("1 curve", |list| list.list.len() == LISTED),
    ("64 curves", |list| list.list.len() == MOST_NUMBERS),
    ("65 curves", |list| list.list.len() == MOST_NUMBERS + LISTED),
    ("more curves", |list| {
        list.list.len() > MOST_NUMBERS + LISTED && list.list.len() % LISTED == 0
    }),
    ("65536 numbers and more", |list| {
        list.list.len() >= ABOVE_16_BITS
    }),
    ("name of 8 bytes", |list| {
        list.reply == 0 && list.any_curve(|curve| curve[1] == 8)
    }),
    ("name without bytes", |list| {
        list.any_curve(|curve| curve[1] == 0)
    }),
    ("name of 9 bytes", |list| {
        list.any_curve(|curve| curve[1] == 9 && list.name(curve).is_some())
    }),
    ("name of more bytes", |list| {
        list.any_curve(|curve| curve[1] > 9 && list.name(curve).is_some())
    }),
    ("name of 256 bytes and more", |list| {
        list.any_curve(|curve| curve[1] > 255)
    }),
    ("strange sign", |list| {
        let sized = |curve: &Curve| (1..=8).contains(&curve[1]) && list.name(curve).is_some();
        list.any_curve(|curve| sized(curve) && !list.is_right_name(curve))
    }),
    ("no bytes for names", |list| list.names.is_empty()),
    ("65536 bytes for names and more", |list| {
        list.names.len() >= ABOVE_16_BITS
    }),
    ("name beyond 65536 bytes", |list| {
        list.reply == 0 && list.any_curve(|curve| curve[0] as usize >= ABOVE_16_BITS)
    }),
    ("name up to the last byte", |list| {
        list.reply == 0 && list.any_curve(|curve| list.past_the_end(curve) == 0)
    }),
    ("name one byte past the end", |list| {
        list.any_curve(|curve| curve[1] <= 8 && list.past_the_end(curve) == 1)
    }),
    ("name from the end on", |list| {
        let end = list.names.len() as i32;
        list.any_curve(|curve| curve[0] == end && curve[1] > 0)
    }),
    ("name above 31 bits", |list| {
        list.any_curve(|curve| curve[0] > 0 && curve[0].checked_add(curve[1]).is_none())
    }),
    ("place below 0", |list| {
        list.any_curve(|curve| curve[0] < 0 && (1..=8).contains(&curve[1]))
    }),
    ("place below 0, end within", |list| {
        let ends_within = |curve: &Curve| (1..=8).contains(&(curve[0] + curve[1]));
        list.any_curve(|curve| (-8..0).contains(&curve[0]) && curve[1] <= 8 && ends_within(curve))
    }),
    ("size below 0", |list| list.any_curve(|curve| curve[1] < 0)),
    ("size right without its minus", |list| {
        list.any_curve(|curve| (-8..0).contains(&curve[1]))
    }),
    ("twins at one place", |list| {
        list.reply == 32 && list.has_twins(|one, other| one[0] == other[0])
    }),
    ("twins at two places", |list| {
        list.reply == 32 && list.has_twins(|one, other| one[0] != other[0])
    }),
    ("one the front of another", |list| {
        list.any_names(|one, other| one.starts_with(other))
    }),
    ("fronts at one place", |list| {
        list.reply == 0 && list.any_pair(|one, other| one[0] == other[0])
    }),
    ("another last byte only", |list| {
        list.any_names(|one, other| one[..one.len() - 1] == other[..other.len() - 1])
    }),
    ("number 0", |list| {
        list.reply == 0 && list.any_number(|n| n == 0)
    }),
    ("number 9999999", |list| {
        list.reply == 0 && list.any_number(|n| n == GREATEST_NUMBER)
    }),
    ("number 10000000", |list| {
        list.any_number(|n| n == GREATEST_NUMBER + 1)
    }),
    ("number 2147483647", |list| {
        list.any_number(|n| n == i32::MAX)
    }),
    ("number -1", |list| {
        list.reply == 0 && list.any_number(|n| n == -1)
    }),
    ("number -9999999", |list| {
        list.reply == 0 && list.any_number(|n| n == -GREATEST_NUMBER)
    }),
    ("number -10000000", |list| {
        list.any_number(|n| n == -GREATEST_NUMBER - 1)
    }),
    ("number -2147483648", |list| {
        list.any_number(|n| n == i32::MIN)
    }),
    ("relative curves only", |list| list.absolute() == Some(0)),
    ("absolute curves only", |list| {
        list.absolute() == Some(list.curves().len())
    }),
    ("curves of both kinds", |list| {
        let both = 1..list.curves().len();
        list.absolute().is_some_and(|count| both.contains(&count))
    }),
    ("absolute with 0 and 0", |list| {
        list.reply == 0 && list.any_curve(|curve| curve[MARK..] == [1, 0, 0])
    }),
    ("card that 34 refuses", |list| list.any_card_with(34)),
    ("card that 35 refuses", |list| list.any_card_with(35)),
    ("33 by a long number alone", |list| {
        list.only(&[Unfit::Long])
    }),
    ("33 by one below 0 alone", |list| {
        list.only(&[Unfit::Below0])
    }),
    ("33 by a mark alone", |list| list.only(&[Unfit::Mark])),
    ("33 by a height beside 0 alone", |list| {
        list.only(&[Unfit::HeightBeside0])
    }),
    ("33 by a grade beside 0 alone", |list| {
        list.only(&[Unfit::GradeBeside0])
    }),
    ("33 by both beside mark 0", |list| {
        list.only(&[Unfit::HeightBeside0, Unfit::GradeBeside0])
    }),
    ("33 by a long height alone", |list| {
        list.only(&[Unfit::LongHeight])
    }),
    ("33 by a long grade alone", |list| {
        list.only(&[Unfit::LongGrade])
    }),
    ("mark 2", |list| list.any_wrong_mark(|mark| mark == 2)),
    ("mark below 0", |list| list.any_wrong_mark(|mark| mark < 0)),
    ("mark of which 8 bits are right", |list| {
        list.any_wrong_mark(|mark| mark != 0 && matches!(mark & 255, 0 | 1))
    }),
    ("mark of which 16 bits are right", |list| {
        list.any_wrong_mark(|mark| mark != 0 && matches!(mark & 65_535, 0 | 1))
    }),
    ("31 before 32", |list| list.faults == [true, true, false]),
    ("31 before 33", |list| list.faults == [true, false, true]),
    ("32 before 33", |list| list.faults == [false, true, true]),
    ("31 before 32 and 33", |list| list.faults == [true; 3]),
    ("33 by a number", |list| {
        list.reply == 33 && list.buffer >= GREATEST_BOOK
    }),
    ("33 without a buffer", |list| {
        list.short_of_room() && list.buffer == 0
    }),
    ("33 by one byte", |list| {
        list.short_of_room() && list.buffer + 1 == list.size
    }),
    ("31 without a buffer", |list| {
        list.reply == 31 && list.buffer == 0
    }),
    ("32 without a buffer", |list| {
        list.reply == 32 && list.buffer == 0
    }),
    ("buffer exactly due", |list| {
        list.reply == 0 && list.buffer == list.size
    }),
    ("buffer one byte longer", |list| {
        list.reply == 0 && list.buffer == list.size + 1
    }),
    ("buffer longer", |list| {
        list.reply == 0 && list.buffer > list.size + 1
    }),
    ("65536 bytes of buffer and more", |list| {
        list.reply == 0 && list.buffer >= ABOVE_16_BITS
    }),
    ("greatest book, exactly due", |list| {
        list.size == GREATEST_BOOK && list.buffer == GREATEST_BOOK
    }),
    ("greatest book, one byte short", |list| {
        list.size == GREATEST_BOOK && list.buffer + 1 == GREATEST_BOOK
    }),
    ("written back as it was read", |list| {
        list.reply == 0 && list.was_read
    }),
];

pub struct ListTally {
    pub lists: [[u64; LIST_REPLIES.len()]; LIST_KINDS],
    pub sorts: [u64; SORTS.len()],
    pub curves: u64,
    pub bytes: u64,
    pub numbers: u64,
    pub altered: [Altered; list_case::ALTERATIONS.len()],
}

impl Default for ListTally {
    fn default() -> ListTally {
        ListTally {
            lists: [[0; LIST_REPLIES.len()]; LIST_KINDS],
            sorts: [0; SORTS.len()],
            curves: 0,
            bytes: 0,
            numbers: 0,
            altered: [Altered::default(); list_case::ALTERATIONS.len()],
        }
    }
}

impl ListTally {
    pub fn count(&mut self, kind: usize, case: &ListCase) {
        let met = LIST_REPLIES.iter().position(|&n| n == case.due.reply);
        self.lists[kind][met.expect("a reply of the paper")] += 1;
        self.numbers += case.due.numbers_compared();
        if case.due.reply == 0 {
            self.curves += (case.due.list.numbers().len() / LISTED) as u64;
            self.bytes += case.due.book().len() as u64;
        }
        let seen = Seen::new(&case.due);
        let sorts = SORTS.map(|(_, is_of_sort)| u64::from(is_of_sort(&seen)));
        add_numbers(&mut self.sorts, &sorts);
    }

    pub fn add(&mut self, other: &ListTally) {
        for kind in 0..LIST_KINDS {
            add_numbers(&mut self.lists[kind], &other.lists[kind]);
        }
        add_numbers(&mut self.sorts, &other.sorts);
        add_altered(&mut self.altered, &other.altered);
        self.curves += other.curves;
        self.bytes += other.bytes;
        self.numbers += other.numbers;
    }

    pub fn list_reply(&self, reply: usize) -> u64 {
        self.lists.iter().map(|kind| kind[reply]).sum()
    }
}

#[cfg(test)]
mod tests {
    use super::{ListTally, SORTS};
    use crate::list_case::{library, with_buffer};
    use crate::lists::{Curve, List};
    use crate::seeded::Seeded;
    use paper::card::relative;

    const NAMES: &[u8] = b"RAMP1234567a";
    const RAMP: [i32; 8] = [5, 1, 30, 30_000, 60, 600, 20_000, 1];

    fn curve(place: i32, size: i32) -> Curve {
        let mut curve = [place; 13];
        curve[1] = size;
        curve[2..].copy_from_slice(&relative(RAMP));
        curve
    }

    /// A curve with that number in place of its unit.
    fn numbered(place: i32, size: i32, number: i32) -> Curve {
        let mut curve = curve(place, size);
        curve[9] = number;
        curve
    }

    /// A curve with that mark, height and grade.
    fn with_datum(mark: i32, height: i32, grade: i32) -> Curve {
        let mut curve = curve(0, 4);
        curve[10..].copy_from_slice(&[mark, height, grade]);
        curve
    }

    /// The sorts of the list, one after another.
    fn sorts(numbers: &[i32], names: &[u8], buffer_length: usize) -> String {
        let list = List {
            numbers: numbers.to_vec(),
            names: names.to_vec(),
            beyond_numbers: Vec::new(),
            beyond_names: Vec::new(),
        };
        let case = with_buffer(&list, buffer_length, library, &mut Seeded::new(1, 1, 1));
        let mut tally = ListTally::default();
        tally.count(0, &case);
        let met = SORTS.iter().zip(tally.sorts).filter(|(_, met)| *met > 0);
        let names: Vec<_> = met.map(|((name, _), _)| *name).collect();
        names.join("; ")
    }

    fn of_curves(curves: &[Curve], buffer_length: usize) -> String {
        sorts(curves.as_flattened(), NAMES, buffer_length)
    }

    #[test]
    fn sorts_by_the_length() {
        let many = vec![curve(0, 4); 6600];
        let many = many.as_flattened();
        assert_eq!(sorts(&[], NAMES, 50), "no numbers");
        let nothing = "no numbers; no bytes for names; 31 without a buffer";
        assert_eq!(sorts(&[], &[], 0), nothing);
        assert_eq!(sorts(&many[..12], NAMES, 50), "1 to 12 numbers");
        assert_eq!(sorts(&many[..14], NAMES, 50), "some numbers over");
        let ten = "some numbers over; ten numbers a curve";
        assert_eq!(sorts(&many[..20], NAMES, 50), ten);
        assert_eq!(
            sorts(&many[..832], NAMES, 50),
            "64 curves; twins at one place"
        );
        assert_eq!(sorts(&many[..845], NAMES, 50), "65 curves");
        assert_eq!(sorts(&many[..858], NAMES, 50), "more curves");
        let above = "some numbers over; 65536 numbers and more";
        assert_eq!(sorts(&many[..65_549], NAMES, 50), above);
    }

    #[test]
    fn sorts_by_the_buffer() {
        let ramp = [curve(0, 4)];
        let of_ramp = |buffer_length, due: &str| {
            let due = format!("1 curve; relative curves only; {due}");
            assert_eq!(of_curves(&ramp, buffer_length), due);
        };
        of_ramp(37, "buffer exactly due");
        of_ramp(38, "buffer one byte longer");
        of_ramp(39, "buffer longer");
        of_ramp(65_536, "buffer longer; 65536 bytes of buffer and more");
        assert_eq!(of_curves(&ramp, 36), "1 curve; 33 by one byte");
        assert_eq!(of_curves(&ramp, 0), "1 curve; 33 without a buffer");
        let book = b"1\nRAMP 3\n5 1 30 30000 60 600 20000 1\n";
        let read = "1 curve; relative curves only; buffer exactly due; written back as it was read";
        assert_eq!(sorts(&curve(2, 4), book, 37), read);
    }

    #[test]
    fn sorts_by_one_name() {
        let one = |place, size| of_curves(&[curve(place, size)], 50);
        let eight = "1 curve; name of 8 bytes; relative curves only; buffer longer";
        assert_eq!(one(3, 8), eight);
        assert_eq!(one(3, 0), "1 curve; name without bytes");
        assert_eq!(one(2, 9), "1 curve; name of 9 bytes");
        assert_eq!(one(1, 10), "1 curve; name of more bytes");
        assert_eq!(one(0, 260), "1 curve; name of 256 bytes and more");
        assert_eq!(one(11, 1), "1 curve; strange sign");
        assert_eq!(one(11, 2), "1 curve; name one byte past the end");
        let from_the_end = "1 curve; name one byte past the end; name from the end on";
        assert_eq!(one(12, 1), from_the_end);
        assert_eq!(one(i32::MAX, 1), "1 curve; name above 31 bits");
        assert_eq!(one(-20, 4), "1 curve; place below 0");
        assert_eq!(
            one(-1, 4),
            "1 curve; place below 0; place below 0, end within"
        );
        assert_eq!(one(4, -9), "1 curve; size below 0");
        assert_eq!(
            one(4, -4),
            "1 curve; size below 0; size right without its minus"
        );
        let last = "1 curve; name up to the last byte; relative curves only; buffer longer";
        assert_eq!(sorts(&curve(0, 4), b"RAMP", 50), last);
    }

    #[test]
    fn sorts_by_two_names() {
        let two = |one, other| of_curves(&[one, other], 100);
        assert_eq!(two(curve(0, 4), curve(0, 4)), "twins at one place");
        let elsewhere = sorts([curve(0, 1), curve(2, 1)].as_flattened(), b"A-A", 100);
        assert_eq!(elsewhere, "twins at two places");
        let fronts = "one the front of another; fronts at one place; relative curves only; \
                      buffer longer";
        assert_eq!(two(curve(0, 4), curve(0, 3)), fronts);
        let alike = sorts([curve(0, 2), curve(2, 2)].as_flattened(), b"A1A2", 71);
        let due = "name up to the last byte; another last byte only; relative curves only; \
                   buffer longer";
        assert_eq!(alike, due);
    }

    #[test]
    fn sorts_by_the_eight_numbers() {
        let one = |number, due: &str| {
            let due = format!("1 curve; {due}");
            assert_eq!(of_curves(&[numbered(0, 4, number)], 6049), due);
        };
        one(0, "number 0; relative curves only; buffer longer");
        one(
            9_999_999,
            "number 9999999; relative curves only; buffer longer",
        );
        let long = "33 by a long number alone; 33 by a number";
        one(10_000_000, &format!("number 10000000; {long}"));
        one(i32::MAX, &format!("number 2147483647; {long}"));
        one(-7, "33 by one below 0 alone; 33 by a number");
        one(
            i32::MIN,
            "number -2147483648; 33 by one below 0 alone; 33 by a number",
        );
    }

    #[test]
    fn sorts_by_the_heights() {
        let one = |[mark, height, grade]: [i32; 3], due: &str| {
            let curves = [with_datum(mark, height, grade)];
            assert_eq!(of_curves(&curves, 100), format!("1 curve; {due}"));
        };
        one([1, 7, 7], "absolute curves only; buffer longer");
        one(
            [1, 0, 0],
            "number 0; absolute curves only; absolute with 0 and 0; buffer longer",
        );
        one(
            [1, -1, 81],
            "number -1; absolute curves only; card that 35 refuses; buffer longer",
        );
        let least = "number -9999999; absolute curves only; card that 34 refuses; buffer longer";
        one([1, -9_999_999, 7], least);
        one(
            [1, -10_000_000, 7],
            "number -10000000; 33 by a long height alone",
        );
        one(
            [1, 7, i32::MIN],
            "number -2147483648; 33 by a long grade alone",
        );
        one([0, 7, 0], "33 by a height beside 0 alone");
        one([0, 0, -7], "33 by a grade beside 0 alone");
        one([0, 7, 7], "33 by both beside mark 0");
        one([2, 7, 7], "33 by a mark alone; mark 2");
        let low_bits = "mark of which 8 bits are right; mark of which 16 bits are right";
        one(
            [i32::MIN, 7, 7],
            &format!("33 by a mark alone; mark below 0; {low_bits}"),
        );
        one(
            [257, 7, 7],
            "33 by a mark alone; mark of which 8 bits are right",
        );
        let mut other = curve(4, 4);
        other[12] = 0;
        let both = of_curves(&[with_datum(1, 7, 7), other], 100);
        assert_eq!(both, "curves of both kinds; buffer longer");
    }

    #[test]
    fn sorts_by_the_order() {
        let (right, long, strange) = (curve(0, 4), numbered(0, 4, 1 << 30), curve(11, 1));
        let of = |curves: &[Curve]| of_curves(curves, 0);
        let twins = "twins at one place";
        assert_eq!(of(&[right, right]), format!("{twins}; 32 without a buffer"));
        let order = format!("{twins}; 32 before 33; 32 without a buffer");
        assert_eq!(of(&[right, long]), order);
        assert_eq!(of(&[right, with_datum(2, 0, 0)]), order);
        let order = "strange sign; 31 before 33; 31 without a buffer";
        assert_eq!(of(&[long, strange]), order);
        let order = "strange sign; 31 before 32; 31 without a buffer";
        assert_eq!(of(&[right, right, strange]), order);
        let order = "strange sign; 31 before 32 and 33; 31 without a buffer";
        assert_eq!(of(&[right, long, strange]), order);
    }
}
