//! Sorts of books, by what is lent and what is due: bodies of both kinds, and what makes a body malformed.

use crate::book_case::BookCase;
use crate::lists::{Curve, CARD, GRADE, HEIGHT, LISTED, MARK, MOST_CURVES};
use paper::check_card;
use paper::writer::GREATEST_NUMBER;

/// Bytes of the greatest book there is, and of the greatest whose bodies are all relative.
const GREATEST: usize = 6049;
const GREATEST_RELATIVE: usize = 4897;
/// The least list that may be lent.
const LEAST_LIST: usize = 832;

/// A book as its sorts see it.
pub struct Seen<'a> {
    size: usize,
    list: usize,
    reply: u32,
    /// The curves of an accepted book.
    curves: &'a [Curve],
    /// The words of the line at fault.
    words: Vec<&'a [u8]>,
}

/// 1 to 7 digits, no leading zero but in 0 itself.
fn is_number(word: &[u8]) -> bool {
    let leads = word.len() > 1 && word[0] == b'0';
    (1..=7).contains(&word.len()) && word.iter().all(u8::is_ascii_digit) && !leads
}

/// The same with an optional minus before a number other than 0.
fn is_signed(word: &[u8]) -> bool {
    let behind = word.strip_prefix(b"-");
    behind.map_or(is_number(word), |digits| {
        is_number(digits) && digits != b"0"
    })
}

/// The digits behind a sign.
fn is_behind(sign: u8, word: &[u8], holds: fn(&[u8]) -> bool) -> bool {
    word.split_first()
        .is_some_and(|(first, rest)| *first == sign && holds(rest))
}

impl<'a> Seen<'a> {
    pub fn new(case: &'a BookCase) -> Seen<'a> {
        let due = &case.due;
        let text = due.text.numbers();
        let end = LISTED * due.count.numbers()[0] as usize;
        let mut lines = text.split(|&byte| byte == 10);
        let at_fault = match due.line.numbers()[0] {
            0 => None,
            line => lines.nth(line as usize - 1),
        };
        let words = at_fault.map_or(Vec::new(), |line| line.split(|&b| b == b' ').collect());
        Seen {
            size: text.len(),
            list: due.list.numbers().len(),
            reply: due.reply,
            curves: due.list.numbers()[..end].as_chunks().0,
            words,
        }
    }

    /// Accepted, with a curve of which this is so.
    fn any_curve(&self, is_so: impl Fn(&Curve) -> bool) -> bool {
        self.curves.iter().any(is_so)
    }

    /// How many curves are absolute.
    fn absolute(&self) -> usize {
        let absolute = self.curves.iter().filter(|curve| curve[MARK] == 1);
        absolute.count()
    }

    /// Accepted, with a card that gets this number.
    fn any_card_with(&self, number: u32) -> bool {
        let card = |curve: &Curve| curve[CARD..].try_into().expect("eleven numbers");
        self.any_curve(|curve| check_card(&card(curve)) == number)
    }

    /// A malformed body of ten words, of which only the height or only the grade is not right, and it is so.
    fn last_two(&self, is_so: impl Fn(&[u8]) -> bool) -> bool {
        if self.reply != 26 || self.words.len() != 10 {
            return false;
        }
        let (eight, last_two) = self.words.split_at(8);
        let wrong: Vec<_> = last_two.iter().filter(|word| !is_signed(word)).collect();
        eight.iter().all(|word| is_number(word)) && wrong.len() == 1 && is_so(wrong[0])
    }

    /// A malformed body of so many words, of which only one of the first eight is not right: it has a minus.
    fn minus_among_eight(&self, words: usize) -> bool {
        if self.reply != 26 || self.words.len() != words {
            return false;
        }
        let (eight, behind) = self.words.split_at(8);
        let wrong: Vec<_> = eight.iter().filter(|word| !is_number(word)).collect();
        let is_minus = wrong.len() == 1 && is_behind(b'-', wrong[0], is_number);
        is_minus && behind.iter().all(|word| is_signed(word))
    }

    /// A malformed body of so many numbers, each of them right at its place.
    fn numbers(&self, count: usize) -> bool {
        let (eight, behind) = self.words.split_at(self.words.len().min(8));
        let right = eight.iter().all(|word| is_number(word));
        let right = right && behind.iter().all(|word| is_signed(word));
        self.reply == 26 && self.words.len() == count && right
    }

    /// A body of ten numbers that would be right but for one more blank before that one, from 0.
    fn two_blanks_before(&self, place: usize) -> bool {
        let mut words = self.words.clone();
        if self.reply != 26 || words.len() != 11 || !words.remove(place).is_empty() {
            return false;
        }
        let (eight, last_two) = words.split_at(8);
        eight.iter().all(|word| is_number(word)) && last_two.iter().all(|word| is_signed(word))
    }

    /// A line with this number at fault, one of whose words has a minus before it.
    fn minus_with(&self, reply: u32) -> bool {
        let mut words = self.words.iter();
        self.reply == reply && words.any(|word| is_behind(b'-', word, |rest| !rest.is_empty()))
    }
}

/// Whether a book is of a sort.
type IsOfSort = fn(&Seen) -> bool;

/// Sorts of books; a book can be of more than one.
pub const SORTS: [(&str, IsOfSort); 42] = [
    ("relative bodies only", |book| {
        book.reply == 0 && book.absolute() == 0
    }),
    ("absolute bodies only", |book| {
        book.reply == 0 && book.absolute() == book.curves.len()
    }),
    ("bodies of both kinds", |book| {
        (1..book.curves.len()).contains(&book.absolute())
    }),
    ("64 bodies, both kinds", |book| {
        book.curves.len() == MOST_CURVES && (1..MOST_CURVES).contains(&book.absolute())
    }),
    ("greatest book, 6049 bytes", |book| {
        book.reply == 0 && book.size == GREATEST
    }),
    ("greatest relative, 4897 bytes", |book| {
        book.reply == 0 && book.size == GREATEST_RELATIVE && book.absolute() == 0
    }),
    ("absolute with 0 and 0", |book| {
        book.any_curve(|curve| curve[MARK..] == [1, 0, 0])
    }),
    ("height below 0", |book| {
        book.any_curve(|curve| curve[HEIGHT] < 0)
    }),
    ("grade below 0", |book| {
        book.any_curve(|curve| curve[GRADE] < 0)
    }),
    ("height -9999999", |book| {
        book.any_curve(|curve| curve[HEIGHT] == -GREATEST_NUMBER)
    }),
    ("height 9999999", |book| {
        book.any_curve(|curve| curve[HEIGHT] == GREATEST_NUMBER)
    }),
    ("grade -9999999", |book| {
        book.any_curve(|curve| curve[GRADE] == -GREATEST_NUMBER)
    }),
    ("card that 34 refuses", |book| book.any_card_with(34)),
    ("card that 35 refuses", |book| book.any_card_with(35)),
    ("list of 831 numbers", |book| {
        book.reply == 28 && book.list + 1 == LEAST_LIST
    }),
    ("list of 640 numbers", |book| {
        book.reply == 28 && book.list == 640
    }),
    ("list of 832 numbers", |book| {
        book.reply == 0 && book.list == LEAST_LIST
    }),
    ("longer list", |book| {
        book.reply == 0 && book.list > LEAST_LIST
    }),
    ("-0", |book| book.last_two(|word| word == b"-0")),
    ("a minus alone", |book| book.last_two(|word| word == b"-")),
    ("a plus before a number", |book| {
        book.last_two(|word| is_behind(b'+', word, is_number))
    }),
    ("a minus and a leading zero", |book| {
        book.last_two(|word| is_behind(b'-', word, |rest| is_behind(b'0', rest, is_number)))
    }),
    ("a leading zero", |book| {
        book.last_two(|word| is_behind(b'0', word, is_number))
    }),
    ("two minuses", |book| {
        book.last_two(|word| is_behind(b'-', word, |rest| is_behind(b'-', rest, is_number)))
    }),
    ("a minus behind a number", |book| {
        book.last_two(|word| word.strip_suffix(b"-").is_some_and(is_number))
    }),
    ("-10000000", |book| {
        book.last_two(|word| word == b"-10000000")
    }),
    ("a minus and 8 digits or more", |book| {
        let is_long = |rest: &[u8]| rest.len() > 7 && rest.iter().all(u8::is_ascii_digit);
        book.last_two(|word| is_behind(b'-', word, is_long))
    }),
    ("8 digits without a minus", |book| {
        book.last_two(|word| word.len() == 8 && word.iter().all(u8::is_ascii_digit))
    }),
    ("a minus and a strange sign", |book| {
        book.last_two(|word| is_behind(b'-', word, |rest| rest.iter().any(|b| !b.is_ascii_digit())))
    }),
    ("no number at all", |book| book.last_two(<[u8]>::is_empty)),
    ("a minus among eight", |book| book.minus_among_eight(8)),
    ("a minus among eight of ten", |book| {
        book.minus_among_eight(10)
    }),
    ("7 numbers", |book| book.numbers(7)),
    ("9 numbers", |book| book.numbers(9)),
    ("9 numbers, the last below 0", |book| {
        book.numbers(9) && book.words[8].starts_with(b"-")
    }),
    ("11 numbers", |book| book.numbers(11)),
    ("18 numbers", |book| book.numbers(18)),
    ("a blank behind 8 numbers", |book| {
        let numbers = book.words.iter().take(8).all(|word| is_number(word));
        book.reply == 26 && book.words.len() == 9 && numbers && book.words[8].is_empty()
    }),
    ("two blanks before a height", |book| {
        book.two_blanks_before(8)
    }),
    ("two blanks before a grade", |book| {
        book.two_blanks_before(9)
    }),
    ("a minus in the count line", |book| book.minus_with(22)),
    ("a minus in a contents line", |book| book.minus_with(23)),
];

#[cfg(test)]
mod tests {
    use super::{Seen, SORTS};
    use crate::book_case::{library, with_list};
    use crate::books::Book;
    use crate::seeded::Seeded;

    /// The sorts of the book, one after another.
    fn sorts(text: &str, list_length: usize) -> String {
        let book = Book {
            text: text.as_bytes().to_vec(),
            beyond: Vec::new(),
        };
        let case = with_list(&book, list_length, library, &mut Seeded::new(1, 1, 1));
        let seen = Seen::new(&case);
        let met = SORTS.iter().filter(|(_, is_of_sort)| is_of_sort(&seen));
        let names: Vec<_> = met.map(|(name, _)| *name).collect();
        names.join("; ")
    }

    /// The sorts of a book of one curve whose body has these words behind its eight numbers.
    fn behind_eight(words: &str) -> String {
        sorts(&format!("1\nA 3\n1 2 3 4 5 6 7 8{words}\n"), 832)
    }

    #[test]
    fn sorts_of_accepted_books() {
        let exact = "list of 832 numbers";
        assert_eq!(behind_eight(""), format!("relative bodies only; {exact}"));
        let nought = format!("absolute bodies only; absolute with 0 and 0; {exact}");
        assert_eq!(behind_eight(" 0 0"), nought);
        let below = "absolute bodies only; height below 0; grade below 0; height -9999999; \
                     grade -9999999; list of 832 numbers";
        assert_eq!(behind_eight(" -9999999 -9999999"), below);
        let both = "2\nA 4\nB 5\n5 1 30 30000 60 600 20000 1\n5 1 30 30000 60 600 20000 1 0 81\n";
        let due = "bodies of both kinds; card that 35 refuses; longer list";
        assert_eq!(sorts(both, 833), due);
        let high = "1\nA 3\n5 1 30 30000 60 600 20000 1 9999999 81\n";
        let due = "absolute bodies only; height 9999999; card that 34 refuses; longer list";
        assert_eq!(sorts(high, 900), due);
        assert_eq!(sorts(high, 831), "list of 831 numbers");
        assert_eq!(sorts(high, 640), "list of 640 numbers");
    }

    #[test]
    fn sorts_by_the_last_two() {
        for (words, due) in [
            (" -0 1", "-0"),
            (" 1 -", "a minus alone"),
            (" +7 1", "a plus before a number"),
            (" -07 1", "a minus and a leading zero"),
            (" 07 1", "a leading zero"),
            (" 7- 1", "a minus behind a number"),
            (" 1 10000000", "8 digits without a minus"),
            (" 1 -12345678", "a minus and 8 digits or more"),
            (" -10000000 1", "-10000000; a minus and 8 digits or more"),
            (" --7 1", "two minuses; a minus and a strange sign"),
            (" -7a 1", "a minus and a strange sign"),
            ("  1", "no number at all"),
            (" -0 -0", ""),
        ] {
            assert_eq!(behind_eight(words), due, "{words}");
        }
    }

    #[test]
    fn sorts_by_the_count_of_numbers() {
        for (words, due) in [
            (" 9", "9 numbers"),
            (" -9", "9 numbers; 9 numbers, the last below 0"),
            (" 1 2 -3", "11 numbers"),
            (" 1 2 3 4 5 6 7 8 9 10", "18 numbers"),
            (" ", "a blank behind 8 numbers"),
            ("  9 10", "two blanks before a height"),
            (" 9  -10", "two blanks before a grade"),
            (" -0", ""),
        ] {
            assert_eq!(behind_eight(words), due, "{words}");
        }
        let body = |words: &str| sorts(&format!("1\nA 3\n{words}\n"), 832);
        assert_eq!(body("1 2 3 4 5 6 7"), "7 numbers");
        assert_eq!(body("1 -2 3 4 5 6 7 8"), "a minus among eight");
        let of_ten = "a minus among eight of ten";
        assert_eq!(body("1 -2 3 4 5 6 7 8 9 -10"), of_ten);
        assert_eq!(sorts("-1\n", 832), "a minus in the count line");
        assert_eq!(sorts("1\nA -3\n", 832), "a minus in a contents line");
    }
}
