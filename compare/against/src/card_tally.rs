//! Sorts of cards, by what is lent and what is due.

use crate::card_case::CardCase;
use crate::cards::{HEIGHT, MARK};
use crate::seen_card::{Exact, Seen, CM, MM};
use paper::card::{GREATEST_GRADE, GREATEST_HEIGHT, LEAST_GRADE, LEAST_HEIGHT};
use paper::fraction::Fraction;
use paper::section::{Course, Runoff};
use paper::Card;

/// Numbers in a row.
const ROW: usize = 7;

/// The exact numbers by 503-0-45, station by station.
fn exact(card: &Card) -> impl Fn(Fraction) -> Exact<5> {
    let runoff = Runoff::new(card);
    move |at| Exact {
        widening: runoff.widening(at),
        axis: runoff.axis(at),
        lines: runoff.lines(at),
    }
}

/// The card as its sorts see it.
pub fn seen(case: &CardCase) -> Seen<'_> {
    Seen::new(case, exact, |_| ())
}

impl Seen<'_> {
    /// Some row has such a height.
    fn any_height(&self, is_so: fn(i32) -> bool) -> bool {
        let mut rows = self.rows.clone();
        rows.any(|row| row[2..].iter().any(|&height| is_so(height)))
    }
}

/// Whether a card is of a sort.
type IsOfSort = fn(&Seen) -> bool;

/// Sorts of cards; a card can be of more than one.
pub const SORTS: [(&str, IsOfSort); 56] = [
    ("relative", |card| {
        card.is_relative() && card.numbers[HEIGHT..] == [0, 0]
    }),
    ("relative, a height beside it", |card| {
        card.is_relative() && card.height() != 0
    }),
    ("relative, 34's height beside it", |card| {
        card.is_relative() && card.is_outside()
    }),
    ("relative, 35's grade beside it", |card| {
        card.is_relative() && card.is_too_steep()
    }),
    ("absolute, unit 1", |card| {
        card.has_heights() && card.card.unit == 1
    }),
    ("absolute, unit 10", |card| {
        card.has_heights() && card.card.unit == 10
    }),
    ("absolute, even", |card| {
        card.has_heights() && Runoff::new(&card.card).course == Course::Even
    }),
    ("absolute, two-stage", |card| {
        card.has_heights() && Runoff::new(&card.card).course != Course::Even
    }),
    ("mark 1", |card| {
        card.has_heights() && card.numbers[MARK] == 1
    }),
    ("mark above 1", |card| {
        card.has_heights() && card.numbers[MARK] > 1
    }),
    ("mark below 0", |card| {
        card.has_heights() && card.numbers[MARK] < 0
    }),
    ("mark of which 8 bits are 0", |card| {
        card.has_heights() && card.numbers[MARK] % 256 == 0
    }),
    ("mark of which 16 bits are 0", |card| {
        card.has_heights() && card.numbers[MARK] % 65_536 == 0
    }),
    ("height -100000", |card| {
        card.has_heights() && card.height() == LEAST_HEIGHT
    }),
    ("height 9000000", |card| {
        card.has_heights() && card.height() == GREATEST_HEIGHT
    }),
    ("height below 0", |card| {
        card.has_heights() && card.height() < 0
    }),
    ("height 0 and grade 0", |card| {
        card.has_heights() && card.numbers[HEIGHT..] == [0, 0]
    }),
    ("height without a grade", |card| {
        card.has_heights() && card.height() != 0 && card.grade() == 0
    }),
    ("grade -80", |card| {
        card.has_heights() && card.grade() == LEAST_GRADE
    }),
    ("grade 80", |card| {
        card.has_heights() && card.grade() == GREATEST_GRADE
    }),
    ("grade below 0", |card| {
        card.has_heights() && card.grade() < 0
    }),
    ("grade above 0", |card| {
        card.has_heights() && card.grade() > 0
    }),
    ("limits on the longest clothoid", |card| {
        card.is_longest_at_limits()
    }),
    ("a grade, and a last step cut", |card| {
        card.has_grade_and_cut_step()
    }),
    ("heights above and below nought", |card| {
        card.has_heights() && card.any_height(|n| n < 0) && card.any_height(|n| n > 0)
    }),
    ("otherwise, were parts rounded", |card| {
        card.rounded.otherwise_apart
    }),
    ("relative, halfway in mm above 0", |card| {
        card.is_relative() && card.is_halfway_above(MM)
    }),
    ("relative, halfway in mm below 0", |card| {
        card.is_relative() && card.is_halfway_below(MM)
    }),
    ("relative, halfway in cm above 0", |card| {
        card.is_relative() && card.is_halfway_above(CM)
    }),
    ("relative, halfway in cm below 0", |card| {
        card.is_relative() && card.is_halfway_below(CM)
    }),
    ("absolute, halfway in mm above 0", |card| {
        card.has_heights() && card.is_halfway_above(MM)
    }),
    ("absolute, halfway in mm below 0", |card| {
        card.has_heights() && card.is_halfway_below(MM)
    }),
    ("absolute, halfway in cm above 0", |card| {
        card.has_heights() && card.is_halfway_above(CM)
    }),
    ("absolute, halfway in cm below 0", |card| {
        card.has_heights() && card.is_halfway_below(CM)
    }),
    ("widening halfway in mm", |card| card.is_widened_halfway(MM)),
    ("widening halfway in cm", |card| card.is_widened_halfway(CM)),
    ("34 by one below", |card| {
        card.reply == 34 && card.height() == LEAST_HEIGHT - 1
    }),
    ("34 by one above", |card| {
        card.reply == 34 && card.height() == GREATEST_HEIGHT + 1
    }),
    ("34 by one unit of 10", |card| {
        let by_one_unit = [LEAST_HEIGHT - 10, GREATEST_HEIGHT + 10];
        card.reply == 34 && card.card.unit == 10 && by_one_unit.contains(&card.height())
    }),
    ("34 by parts of a unit", |card| {
        card.reply == 34 && card.has_parts_of_a_unit() && card.height() > 0
    }),
    ("34 by parts of a unit below 0", |card| {
        card.reply == 34 && card.has_parts_of_a_unit() && card.height() < 0
    }),
    ("34 before 35", |card| {
        card.reply == 34 && card.is_too_steep()
    }),
    ("35 by one below", |card| {
        card.reply == 35 && card.grade() == LEAST_GRADE - 1
    }),
    ("35 by one above", |card| {
        card.reply == 35 && card.grade() == GREATEST_GRADE + 1
    }),
    ("10 before 34 and 35", |card| {
        let both = card.is_outside() && card.is_too_steep();
        card.reply == 10 && card.is_absolute() && both
    }),
    ("34 before 11", |card| {
        card.reply == 34 && card.is_short(ROW)
    }),
    ("35 before 11", |card| {
        card.reply == 35 && card.is_short(ROW)
    }),
    ("11 of an absolute card", |card| {
        card.reply == 11 && card.is_absolute()
    }),
    ("profile below 0", |card| card.is_below_0(0, 1)),
    ("terrain below 0", |card| card.is_below_0(1, 2)),
    ("radius below 0", |card| card.is_below_0(2, 3)),
    ("clothoid below 0", |card| card.is_below_0(3, 4)),
    ("full slope below 0", |card| card.is_below_0(4, 5)),
    ("widening below 0", |card| card.is_below_0(5, 6)),
    ("step below 0", |card| card.is_below_0(6, 9)),
    ("unit below 0", |card| card.is_below_0(7, 10)),
];

#[cfg(test)]
mod tests {
    use super::{seen, SORTS};
    use crate::card_case::{library, with_table, BY_503};
    use crate::cards::Numbers;
    use crate::seeded::Seeded;
    use paper::card::{absolute, marked, relative};

    const RAMP: [i32; 8] = [5, 1, 30, 30_000, 60, 600, 20_000, 1];
    const FLAT: [i32; 8] = [3, 1, 700, 120_000, 40, 400, 20_000, 10];
    /// Every number is a whole number of mm.
    const BEND: [i32; 8] = [2, 1, 200, 80_000, 60, 1200, 20_000, 1];

    /// The sorts of the card, one after another.
    fn sorts(card: Numbers, table_length: usize) -> String {
        let mut seeded = Seeded::new(1, 1, 1);
        let case = with_table(&BY_503, card, table_length, library, &mut seeded);
        let seen = seen(&case);
        let met = SORTS.iter().filter(|(_, is_of_sort)| is_of_sort(&seen));
        let names: Vec<_> = met.map(|(name, _)| *name).collect();
        names.join("; ")
    }

    #[test]
    fn sorts_of_relative_cards() {
        assert_eq!(sorts(relative(BEND), 35), "relative");
        let beside = "relative, a height beside it; relative, 34's height beside it; \
                      relative, 35's grade beside it";
        assert_eq!(sorts(marked(BEND, 0, 9_000_001, -81), 35), beside);
        assert_eq!(sorts(relative(RAMP), 20), "");
    }

    #[test]
    fn sorts_of_relative_cards_by_halfway() {
        // The axis at 172.5 mm, and at last the inner brow at -67.5.
        let in_mm = "relative; relative, halfway in mm above 0; relative, halfway in mm below 0";
        assert_eq!(sorts(relative(RAMP), 21), in_mm);
        // The same axis, and at 67500 the inner brow at -37.5 mm and the widening at 2437.5.
        let widened = [5, 1, 60, 90_000, 34, 3250, 13_500, 1];
        let and_widening = format!("{in_mm}; widening halfway in mm");
        assert_eq!(sorts(relative(widened), 56), and_widening);
        // The outer edge at 23.5 cm, and nothing halfway below nought.
        let above = "relative; relative, halfway in cm above 0";
        assert_eq!(sorts(relative(FLAT), 49), above);
        // The axis at 22.5 cm, and at last the inner brow at -22.5.
        let in_cm = format!("{above}; relative, halfway in cm below 0");
        let steep = [1, 1, 150, 60_000, 60, 1250, 12_000, 10];
        assert_eq!(sorts(relative(steep), 42), in_cm);
        // The same axis, and at last the inner brow at -5.5 cm and the widening at 312.5.
        let widened = [1, 1, 150, 75_000, 32, 3125, 20_000, 10];
        let and_widening = format!("{in_cm}; widening halfway in cm");
        assert_eq!(sorts(relative(widened), 35), and_widening);
    }

    #[test]
    fn sorts_of_absolute_cards() {
        let ramp = "absolute, unit 1; absolute, even; mark 1; grade below 0; \
                    a grade, and a last step cut; absolute, halfway in mm above 0";
        assert_eq!(sorts(absolute(RAMP, 250_000, -35), 21), ramp);
        let low = "absolute, unit 1; absolute, even; mark 1; height -100000; height below 0; \
                   height without a grade; absolute, halfway in mm below 0";
        assert_eq!(sorts(absolute(RAMP, -100_000, 0), 21), low);
        let mut steps = absolute(RAMP, 250_000, 35);
        steps[6] = 1105;
        assert!(sorts(steps, 203).contains("otherwise, were parts rounded"));
        let flat = "absolute, unit 10; absolute, two-stage; mark below 0; height -100000; \
                    height below 0; height without a grade; absolute, halfway in cm below 0";
        assert_eq!(sorts(marked(FLAT, -1, -100_000, 0), 49), flat);
        let nought = "absolute, unit 10; absolute, two-stage; mark above 1; \
                      mark of which 8 bits are 0; height 0 and grade 0; \
                      heights above and below nought; absolute, halfway in cm above 0";
        assert_eq!(sorts(marked(FLAT, 256, 0, 0), 49), nought);
        let mut long = absolute([1, 1, 2000, 300_000, 20, 0, 20_000, 1], 9_000_000, 80);
        let limits = "absolute, unit 1; absolute, two-stage; mark 1; height 9000000; grade 80; \
                      grade above 0; limits on the longest clothoid";
        assert_eq!(sorts(long, 112), limits);
        long[3] = 299_999;
        assert!(!sorts(long, 112).contains("limits"));
    }

    #[test]
    fn sorts_of_refused_cards() {
        assert_eq!(sorts(absolute(RAMP, -100_001, 0), 21), "34 by one below");
        let both = "34 by one above; 34 before 35; 34 before 11";
        assert_eq!(sorts(absolute(RAMP, 9_000_001, 81), 20), both);
        assert_eq!(
            sorts(absolute(FLAT, 9_000_010, 0), 49),
            "34 by one unit of 10"
        );
        assert_eq!(sorts(absolute(FLAT, 5, 0), 49), "34 by parts of a unit");
        let below = "34 by parts of a unit below 0";
        assert_eq!(sorts(absolute(FLAT, -5, 0), 49), below);
        assert_eq!(sorts(absolute(RAMP, 0, -81), 21), "35 by one below");
        let short = "35 by one above; 35 before 11";
        assert_eq!(sorts(absolute(RAMP, 0, 81), 0), short);
        assert_eq!(sorts(absolute(RAMP, 0, 80), 0), "11 of an absolute card");
        let wrong_unit = [5, 1, 30, 30_000, 60, 600, 20_000, 2];
        let before = "10 before 34 and 35";
        assert_eq!(sorts(absolute(wrong_unit, 9_000_001, 81), 21), before);
        let below_0 = [5, 1, 30, 30_000, 60, -1, 20_000, -1];
        assert_eq!(sorts(relative(below_0), 21), "widening below 0");
    }
}
