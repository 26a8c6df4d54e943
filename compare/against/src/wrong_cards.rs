//! Wrong programs for a card's check and its table, as to heights above the benchmark: the comparison must find each of
//! them.

use crate::card_case::{Call, Loan};
use crate::cards::{Numbers, GRADE, HEIGHT, LENGTH, MARK, STEP, UNIT};
use crate::found::all_are_found;
use crate::work::card;
use crate::DEFAULT;
use paper::fraction::{fraction, whole, Fraction, Tie};
use paper::rows::tie;
use paper::section::Runoff;
use paper::{check_card, fill_table, stations, Card};

/// A wrong program must be found among so many of the first cards of the default run.
const FIRST_CARDS: u64 = DEFAULT.cards / 100;
pub const ROW: usize = 7;

pub fn right(loan: &mut Loan) -> [u32; 2] {
    right_for(loan.card, loan)
}

/// The right program, for another card.
fn right_for(card: &Numbers, loan: &mut Loan) -> [u32; 2] {
    let reply = fill_table(card, loan.table);
    *loan.count = reply.count;
    [check_card(card), reply.number]
}

/// Reads the card with this done to its numbers.
fn with_card(loan: &mut Loan, change: fn(&mut Numbers)) -> [u32; 2] {
    let mut card = *loan.card;
    change(&mut card);
    right_for(&card, loan)
}

fn is_absolute(card: &Numbers) -> bool {
    card[MARK] != 0
}

/// One height of one row: all that a program may put together.
struct Height {
    card: Numbers,
    /// The places of the row and of the line in it, from 0; the axis is line 2.
    row: i32,
    line: usize,
    /// In mm.
    station: Fraction,
    /// The line above the axis, and the line and the axis above the inner brow at station 0, in micrometres.
    distance: Fraction,
    relative: Fraction,
    relative_axis: Fraction,
}

impl Height {
    /// 1000 × height, in micrometres.
    fn benchmark(&self) -> Fraction {
        whole(1000) * whole(self.card[HEIGHT])
    }

    fn grade(&self) -> Fraction {
        whole(self.card[GRADE])
    }

    fn climb(&self) -> Fraction {
        self.grade() * self.station
    }

    fn axis(&self) -> Fraction {
        self.benchmark() + self.climb()
    }

    fn unit(&self) -> Fraction {
        whole(1000 * self.card[UNIT])
    }

    /// Rounded to units, halfway as it is due in this unit.
    fn rounded(&self, micrometres: Fraction) -> i32 {
        self.tied(micrometres, tie(self.card[UNIT].cast_unsigned()))
    }

    /// Rounded to units, halfway as the tie says.
    fn tied(&self, micrometres: Fraction, tie: Tie) -> i32 {
        (micrometres / self.unit()).nearest(tie)
    }

    /// The next whole number of units that is not above.
    fn down(&self, micrometres: Fraction) -> i32 {
        (micrometres / self.unit() - fraction(1, 2)).nearest(Tie::Higher)
    }

    /// The number that stands in the table.
    fn right(&self) -> i32 {
        self.rounded(self.axis() + self.distance)
    }
}

/// Reckons one height of an absolute card.
type Reckon = fn(&Height) -> i32;

/// The right program, but for the heights of absolute cards.
fn reckoned(loan: &mut Loan, reckon: Reckon) -> [u32; 2] {
    let numbers = right(loan);
    if numbers[1] != 0 || !is_absolute(loan.card) {
        return numbers;
    }
    let mut relative = *loan.card;
    relative[MARK] = 0;
    let runoff = Runoff::new(&Card::new(&relative));
    let rows = loan.table.chunks_exact_mut(ROW);
    for ((row, station), cells) in (0..).zip(stations(&Card::new(loan.card))).zip(rows) {
        let station = whole(station);
        for (line, height) in runoff.lines(station).into_iter().enumerate() {
            cells[2 + line] = reckon(&Height {
                card: *loan.card,
                row,
                line,
                station,
                distance: height - runoff.axis(station),
                relative: height,
                relative_axis: runoff.axis(station),
            });
        }
    }
    numbers
}

/// Wrong as to what is rounded.
const WRONG_ROUNDING: [(&str, Call); 9] = [
    ("the axis rounded apart from the distance", |loan| {
        reckoned(loan, |h| h.rounded(h.axis()) + h.rounded(h.distance))
    }),
    ("the climb rounded apart", |loan| {
        reckoned(loan, |h| {
            h.rounded(h.benchmark() + h.distance) + h.rounded(h.climb())
        })
    }),
    ("the climb down to whole units", |loan| {
        reckoned(loan, |h| {
            h.rounded(h.benchmark() + h.distance) + h.down(h.climb())
        })
    }),
    ("the axis moved from the relative rows", |loan| {
        reckoned(loan, |h| {
            h.rounded(h.relative) + h.rounded(h.axis() - h.relative_axis)
        })
    }),
    ("to millimetres first", |loan| {
        reckoned(loan, |h| {
            let mm = ((h.axis() + h.distance) / whole(1000)).nearest(tie(1));
            h.rounded(whole(1000) * whole(mm))
        })
    }),
    ("the climb to millimetres first", |loan| {
        reckoned(loan, |h| {
            let mm = (h.climb() / whole(1000)).nearest(tie(1));
            h.rounded(h.benchmark() + whole(1000) * whole(mm) + h.distance)
        })
    }),
    ("halfway toward the axis", |loan| {
        reckoned(loan, |h| {
            let sum = h.axis() + h.distance;
            match h.distance < whole(0) {
                true => h.tied(sum, Tie::Higher),
                false => h.tied(sum, Tie::Lower),
            }
        })
    }),
    ("down to the unit, and not to the nearest", |loan| {
        reckoned(loan, |h| h.down(h.axis() + h.distance))
    }),
    ("a rest of the climb below nought left out", |loan| {
        reckoned(loan, |h| {
            let whole_units = h.rounded(h.climb());
            let rest = h.climb() - whole(whole_units) * h.unit();
            let rest = rest.max(whole(0));
            h.rounded(h.benchmark() + h.distance + rest) + whole_units
        })
    }),
];

/// Wrong as to where the axis stands.
const WRONG_AXES: [(&str, Call); 17] = [
    ("grade times step instead of station", |loan| {
        reckoned(loan, |h| {
            let climb = h.grade() * whole(h.card[STEP]);
            h.rounded(h.benchmark() + climb + h.distance)
        })
    }),
    ("a whole step to the last row too", |loan| {
        reckoned(loan, |h| {
            let climb = h.grade() * whole(h.row) * whole(h.card[STEP]);
            h.rounded(h.benchmark() + climb + h.distance)
        })
    }),
    ("grade times the row", |loan| {
        reckoned(loan, |h| {
            let climb = h.grade() * whole(1000) * whole(h.row);
            h.rounded(h.benchmark() + climb + h.distance)
        })
    }),
    ("one step too far", |loan| {
        reckoned(loan, |h| {
            let climb = h.grade() * (h.station + whole(h.card[STEP]));
            h.rounded(h.benchmark() + climb + h.distance)
        })
    }),
    ("the height at the end of the clothoid", |loan| {
        reckoned(loan, |h| {
            let climb = h.grade() * (h.station - whole(h.card[LENGTH]));
            h.rounded(h.benchmark() + climb + h.distance)
        })
    }),
    ("the grade's sign lost", |loan| {
        with_card(loan, |card| {
            if check_card(card) == 0 {
                card[GRADE] = card[GRADE].saturating_abs();
            }
        })
    }),
    ("the grade turned round", |loan| {
        reckoned(loan, |h| h.rounded(h.benchmark() - h.climb() + h.distance))
    }),
    ("the height's sign lost", |loan| {
        reckoned(loan, |h| {
            let benchmark = h.benchmark().max(-h.benchmark());
            h.rounded(benchmark + h.climb() + h.distance)
        })
    }),
    ("no grade", |loan| {
        reckoned(loan, |h| h.rounded(h.benchmark() + h.distance))
    }),
    ("no height", |loan| {
        reckoned(loan, |h| h.rounded(h.climb() + h.distance))
    }),
    ("every card relative", |loan| {
        reckoned(loan, |h| h.rounded(h.relative))
    }),
    ("the height under the inner brow", |loan| {
        reckoned(loan, |h| h.rounded(h.axis() + h.relative))
    }),
    ("the height counted in units", |loan| {
        reckoned(loan, |h| {
            h.rounded(h.benchmark() * whole(h.card[UNIT]) + h.climb() + h.distance)
        })
    }),
    ("the grade in percent", |loan| {
        reckoned(loan, |h| {
            h.rounded(h.benchmark() + whole(10) * h.climb() + h.distance)
        })
    }),
    ("32 bits of the height in micrometres", |loan| {
        reckoned(loan, |h| {
            let benchmark = whole(h.card[HEIGHT].wrapping_mul(1000));
            h.rounded(benchmark + h.climb() + h.distance)
        })
    }),
    ("16 bits of the height", |loan| {
        reckoned(loan, |h| {
            let benchmark = whole(1000) * whole(h.card[HEIGHT] as i16);
            h.rounded(benchmark + h.climb() + h.distance)
        })
    }),
    ("no more climb than 24 bits hold", |loan| {
        reckoned(loan, |h| {
            let climb = h.climb().max(whole(-(1 << 23))).min(whole((1 << 23) - 1));
            h.rounded(h.benchmark() + climb + h.distance)
        })
    }),
];

/// Only the axis, or every line but one, is moved.
fn moved_but(h: &Height, kept: &[usize]) -> i32 {
    match kept.contains(&h.line) {
        true => h.rounded(h.relative),
        false => h.right(),
    }
}

/// Wrong as to which lines the height moves.
const WRONG_LINES: [(&str, Call); 6] = [
    ("the axis alone moved", |loan| {
        reckoned(loan, |h| moved_but(h, &[0, 1, 3, 4]))
    }),
    ("the axis not moved", |loan| {
        reckoned(loan, |h| moved_but(h, &[2]))
    }),
    ("the inner brow not moved", |loan| {
        reckoned(loan, |h| moved_but(h, &[0]))
    }),
    ("the outer brow not moved", |loan| {
        reckoned(loan, |h| moved_but(h, &[4]))
    }),
    ("the axis alone climbs", |loan| {
        reckoned(loan, |h| match h.line {
            2 => h.right(),
            _ => h.rounded(h.benchmark() + h.distance),
        })
    }),
    ("the widening moved too", |loan| {
        let numbers = right(loan);
        if numbers[1] == 0 && is_absolute(loan.card) {
            let height = loan.card[HEIGHT] / loan.card[UNIT];
            let rows = loan.table.chunks_exact_mut(ROW).take(*loan.count as usize);
            rows.for_each(|row| row[1] += height);
        }
        numbers
    }),
];

/// The reasons 34 and 35 of a program, looked at after 10 and before 11 in every other respect.
type Reasons = fn(&Numbers) -> Option<u32>;

/// The right program, but for 34 and 35.
fn reasoned(loan: &mut Loan, reasons: Reasons) -> [u32; 2] {
    let mut eight = *loan.card;
    eight[MARK..].fill(0);
    let reason = match check_card(&eight) {
        0 => reasons(loan.card),
        reason => Some(reason),
    };
    if let Some(reason) = reason {
        *loan.count = 0;
        return [reason, reason];
    }
    let mut card = *loan.card;
    if is_absolute(&card) && check_card(&card) != 0 {
        // What no right card has is filled in as if it had none of it.
        card[HEIGHT..].fill(0);
    }
    right_for(&card, loan)
}

fn is_outside(card: &Numbers, low: i32, high: i32) -> bool {
    !(low..=high).contains(&card[HEIGHT])
}

fn has_parts(card: &Numbers) -> bool {
    card[HEIGHT] % card[UNIT] != 0
}

fn is_too_steep(card: &Numbers, low: i32, high: i32) -> bool {
    !(low..=high).contains(&card[GRADE])
}

fn no_height(card: &Numbers) -> bool {
    is_outside(card, -100_000, 9_000_000) || has_parts(card)
}

fn no_grade(card: &Numbers) -> bool {
    is_too_steep(card, -80, 80)
}

/// 34 by the one, then 35 by the other, of an absolute card.
fn by(card: &Numbers, no_height: bool, no_grade: bool) -> Option<u32> {
    let reason = match (no_height, no_grade) {
        (true, _) => 34,
        (false, true) => 35,
        _ => return None,
    };
    is_absolute(card).then_some(reason)
}

/// Wrong as to the limits of 34 and 35.
const WRONG_LIMITS: [(&str, Call); 17] = [
    ("-100000 refused", |loan| {
        reasoned(loan, |card| {
            let outside = is_outside(card, -99_999, 9_000_000);
            by(card, outside || has_parts(card), no_grade(card))
        })
    }),
    ("-100001 passes", |loan| {
        reasoned(loan, |card| {
            let outside = is_outside(card, -100_001, 9_000_000);
            by(card, outside || has_parts(card), no_grade(card))
        })
    }),
    ("9000000 refused", |loan| {
        reasoned(loan, |card| {
            let outside = is_outside(card, -100_000, 8_999_999);
            by(card, outside || has_parts(card), no_grade(card))
        })
    }),
    ("9000001 passes", |loan| {
        reasoned(loan, |card| {
            let outside = is_outside(card, -100_000, 9_000_001);
            by(card, outside || has_parts(card), no_grade(card))
        })
    }),
    ("limits counted in units", |loan| {
        reasoned(loan, |card| {
            let unit = card[UNIT];
            let outside = is_outside(card, -100_000 * unit, 9_000_000 * unit);
            by(card, outside || has_parts(card), no_grade(card))
        })
    }),
    ("the same limit on both sides", |loan| {
        reasoned(loan, |card| {
            let outside = is_outside(card, -9_000_000, 9_000_000);
            by(card, outside || has_parts(card), no_grade(card))
        })
    }),
    ("heights below 0 refused", |loan| {
        reasoned(loan, |card| {
            by(card, no_height(card) || card[HEIGHT] < 0, no_grade(card))
        })
    }),
    ("parts of a unit pass", |loan| {
        reasoned(loan, |card| {
            by(card, is_outside(card, -100_000, 9_000_000), no_grade(card))
        })
    }),
    ("parts of a unit below 0 pass", |loan| {
        reasoned(loan, |card| {
            let parts = card[HEIGHT] > 0 && has_parts(card);
            let outside = is_outside(card, -100_000, 9_000_000);
            by(card, outside || parts, no_grade(card))
        })
    }),
    ("tens of millimetres whatever the unit", |loan| {
        reasoned(loan, |card| {
            let parts = card[HEIGHT] % 10 != 0;
            by(card, no_height(card) || parts, no_grade(card))
        })
    }),
    ("-80 refused", |loan| {
        reasoned(loan, |card| {
            by(card, no_height(card), is_too_steep(card, -79, 80))
        })
    }),
    ("-81 passes", |loan| {
        reasoned(loan, |card| {
            by(card, no_height(card), is_too_steep(card, -81, 80))
        })
    }),
    ("80 refused", |loan| {
        reasoned(loan, |card| {
            by(card, no_height(card), is_too_steep(card, -80, 79))
        })
    }),
    ("81 passes", |loan| {
        reasoned(loan, |card| {
            by(card, no_height(card), is_too_steep(card, -80, 81))
        })
    }),
    ("grades below 0 refused", |loan| {
        reasoned(loan, |card| {
            by(card, no_height(card), is_too_steep(card, 0, 80))
        })
    }),
    ("no bound of grades below 0", |loan| {
        reasoned(loan, |card| by(card, no_height(card), card[GRADE] > 80))
    }),
    ("8 bits of the grade", |loan| {
        reasoned(loan, |card| {
            let grade = i32::from(card[GRADE] as i8);
            by(card, no_height(card), !(-80..=80).contains(&grade))
        })
    }),
];

/// Gives both calls' numbers, count 0, and leaves the table.
fn refuse(reason: u32, loan: &mut Loan) -> [u32; 2] {
    *loan.count = 0;
    [reason, reason]
}

/// Wrong as to the order of the reasons, and to which cards they are due.
const WRONG_ORDER: [(&str, Call); 14] = [
    ("35 before 34", |loan| {
        reasoned(loan, |card| match no_grade(card) {
            true => is_absolute(card).then_some(35),
            false => by(card, no_height(card), false),
        })
    }),
    ("34 on a relative card", |loan| {
        reasoned(loan, |card| match no_height(card) {
            true => Some(34),
            false => by(card, false, no_grade(card)),
        })
    }),
    ("35 on a relative card", |loan| {
        reasoned(loan, |card| match no_grade(card) {
            true if !is_absolute(card) => Some(35),
            _ => by(card, no_height(card), no_grade(card)),
        })
    }),
    ("34 for a height beside mark 0", |loan| {
        reasoned(loan, |card| match card[HEIGHT] {
            1.. if !is_absolute(card) => Some(34),
            _ => by(card, no_height(card), no_grade(card)),
        })
    }),
    ("neither 34 nor 35", |loan| reasoned(loan, |_| None)),
    ("34 before all", |loan| {
        let outside = is_outside(loan.card, -100_000, 9_000_000);
        match outside && is_absolute(loan.card) {
            true => refuse(34, loan),
            false => right(loan),
        }
    }),
    ("35 before 10", |loan| match right(loan) {
        [10, 10] if is_absolute(loan.card) && no_grade(loan.card) => [35, 35],
        numbers => numbers,
    }),
    ("34 before 10", |loan| match right(loan) {
        [10, 10] if is_absolute(loan.card) && is_outside(loan.card, -100_000, 9_000_000) => {
            [34, 34]
        }
        numbers => numbers,
    }),
    ("11 before 34 and 35", |loan| {
        let numbers = right(loan);
        let mut relative = *loan.card;
        relative[MARK] = 0;
        match numbers {
            [34 | 35, _] if fill_table(&relative, &mut loan.table.to_vec()).number == 11 => {
                [numbers[0], 11]
            }
            _ => numbers,
        }
    }),
    ("34 and 35 not checked beforehand", |loan| {
        match right(loan) {
            [34 | 35, reply] => [0, reply],
            numbers => numbers,
        }
    }),
    ("34 and 35 checked, and filled all the same", |loan| {
        let [check, _] = right(loan);
        let [_, reply] = reasoned(loan, |_| None);
        [check, reply]
    }),
    ("the table begun despite 34", |loan| {
        let numbers = right(loan);
        if numbers[1] == 34 && !loan.table.is_empty() {
            loan.table[0] = 0;
        }
        numbers
    }),
    ("rows counted with 35", |loan| {
        let numbers = right(loan);
        if numbers[1] == 35 {
            *loan.count = stations(&Card::new(loan.card)).len() as u32;
        }
        numbers
    }),
    ("the count kept with 34", |loan| {
        let before = *loan.count;
        let numbers = right(loan);
        if numbers[1] == 34 {
            *loan.count = before;
        }
        numbers
    }),
];

/// Reads a card with this done to its eight numbers.
fn with_eight(loan: &mut Loan, change: fn(i32) -> i32) -> [u32; 2] {
    let mut card = *loan.card;
    card[..MARK].iter_mut().for_each(|n| *n = change(*n));
    right_for(&card, loan)
}

/// Wrong as to how the eleven numbers are read.
const WRONG_READING: [(&str, Call); 13] = [
    ("mark 1 alone is absolute", |loan| {
        with_card(loan, |card| card[MARK] = i32::from(card[MARK] == 1))
    }),
    ("a mark below 0 is relative", |loan| {
        with_card(loan, |card| card[MARK] = card[MARK].max(0))
    }),
    ("8 bits of the mark", |loan| {
        with_card(loan, |card| card[MARK] &= 255)
    }),
    ("16 bits of the mark", |loan| {
        with_card(loan, |card| card[MARK] &= 65_535)
    }),
    ("one bit of the mark", |loan| {
        with_card(loan, |card| card[MARK] &= 1)
    }),
    ("other marks refused", |loan| {
        match matches!(loan.card[MARK], 0 | 1) {
            true => right(loan),
            false => refuse(34, loan),
        }
    }),
    ("absolute where there is a height", |loan| {
        with_card(loan, |card| card[MARK] = i32::from(card[HEIGHT] != 0))
    }),
    ("height and grade exchanged", |loan| {
        with_card(loan, |card| card.swap(HEIGHT, GRADE))
    }),
    ("the mark behind the height and the grade", |loan| {
        with_card(loan, |card| card[MARK..].rotate_right(1))
    }),
    ("one below 0 taken for 0", |loan| {
        with_eight(loan, |number| number.max(0))
    }),
    ("one below 0 without its minus", |loan| {
        with_eight(loan, i32::saturating_abs)
    }),
    ("31 bits of the eight", |loan| {
        with_eight(loan, |number| number & i32::MAX)
    }),
    ("16 bits of the eight", |loan| {
        with_eight(loan, |number| number & 0xffff)
    }),
];

/// The first card for which the program differs from the paper.
pub fn first_difference(program: Call) -> Option<u64> {
    (0..FIRST_CARDS).find(|&index| {
        let (_, case) = card(DEFAULT.seed, index, program);
        !case.due.unlike(&case.came).is_empty()
    })
}

/// Without this, a comparison that always differs would find every wrong program.
#[test]
fn right_programs_do_not_differ() {
    assert_eq!(first_difference(right), None);
    assert_eq!(first_difference(|loan| reckoned(loan, Height::right)), None);
    let split: Call = |loan| {
        reckoned(loan, |h| {
            let units = h.down(h.climb());
            let rest = h.climb() - whole(units) * h.unit();
            h.rounded(h.benchmark() + rest + h.distance) + units
        })
    };
    assert_eq!(first_difference(split), None);
    let after_rounding: Call = |loan| {
        reckoned(loan, |h| {
            h.rounded(h.climb() + h.distance) + h.card[HEIGHT] / h.card[UNIT]
        })
    };
    assert_eq!(first_difference(after_rounding), None);
    let by_both: Call = |loan| reasoned(loan, |card| by(card, no_height(card), no_grade(card)));
    assert_eq!(first_difference(by_both), None);
}

#[test]
fn wrong_rounding_is_found() {
    all_are_found(first_difference, &WRONG_ROUNDING);
}

#[test]
fn wrong_axes_are_found() {
    all_are_found(first_difference, &WRONG_AXES);
}

#[test]
fn wrong_lines_are_found() {
    all_are_found(first_difference, &WRONG_LINES);
}

#[test]
fn wrong_limits_are_found() {
    all_are_found(first_difference, &WRONG_LIMITS);
}

#[test]
fn wrong_order_is_found() {
    all_are_found(first_difference, &WRONG_ORDER);
}

#[test]
fn wrong_reading_is_found() {
    all_are_found(first_difference, &WRONG_READING);
}
