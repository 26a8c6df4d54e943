//! A card's table by the method of the Minsk handbook, every row worked afresh from the card and its station.

use super::section::{datum_reason, least_length, round, Fraction};
use paper::card::Numbers;

/// One line of the handbook's widths in mm, with what the card's table has for the profile.
struct Road {
    half: i64,
    /// With its strip.
    shoulder: i64,
    strip: i64,
    least_shoulder: i64,
    least_radius: i64,
    added_slope: [i64; 2],
}

/// A road from its numbers in the order above.
const fn road(n: [i64; 5], added_slope: [i64; 2]) -> Road {
    let [half, shoulder, strip, least_shoulder, least_radius] = n;
    Road {
        half,
        shoulder,
        strip,
        least_shoulder,
        least_radius,
        added_slope,
    }
}

static ROADS: [Road; 3] = [
    road([3500, 3000, 750, 1500, 125], [5, 5]),
    road([3500, 2500, 500, 1500, 100], [10, 20]),
    road([3000, 2000, 500, 1000, 60], [10, 20]),
];

/// The crown slope and the least slope of the inner shoulder in ‰, and the length of the growth in mm.
const CROWN: i64 = 20;
const SHOULDER_SLOPE: i64 = 40;
const GROWTH: i64 = 20_000;

/// The first of the card's own reasons that applies, or 0.
fn reason(card: &Numbers) -> u32 {
    let [kind, terrain, radius, length, slope, widening, step, unit, ..] = card.map(i64::from);
    if !(1..=5).contains(&kind) {
        return 1;
    }
    if terrain != 1 && terrain != 2 {
        return 2;
    }
    // Profiles 4 and 5 have a least radius and a crown slope of their own before 36 refuses them.
    let road = ROADS.get(kind as usize - 1);
    let least_radius = road.map_or(30, |road| road.least_radius);
    let least_slope = if kind > 3 { 30 } else { CROWN };
    if radius < least_radius || radius > 2000 {
        3
    } else if length < least_length(radius) || length > 300_000 {
        4
    } else if slope < least_slope || slope > 60 {
        5
    } else if !(0..=3500).contains(&widening) || (widening > 0 && radius > 1000) {
        6
    } else if let (Some(road), true) = (road, slope > CROWN && radius < 2000) {
        match banking_reason(road, card) {
            0 if !(1000..=20_000).contains(&step) => 9,
            0 if unit != 1 && unit != 10 => 10,
            0 => datum_reason(card),
            number => number,
        }
    } else {
        36
    }
}

/// 37, 38 or 8 of a card that 36 let pass, or 0.
fn banking_reason(road: &Road, card: &Numbers) -> u32 {
    let [_, terrain, radius, length, slope, widening, ..] = card.map(i64::from);
    let added_slope = road.added_slope[terrain as usize - 1];
    if 16_000 * road.half > length * radius {
        37
    } else if widening > 0 && (radius > 500 || length * radius % 500 != 0) {
        38
    } else if 2000 * road.half * (slope - CROWN) > added_slope * length * (2000 - radius) {
        8
    } else {
        0
    }
}

/// Of a relative card 0; of an absolute one the height in units, and the grade.
type Axis = Option<(i64, i64)>;

/// An accepted card's runoff.
struct Banking {
    road: &'static Road,
    length: i64,
    full_slope: i64,
    full_widening: i64,
    /// L × R / 2000 is so many parts of a mm: fourths where there is a widening, as L × R / 500 is whole then, else 2000ths.
    first_stage_end: i64,
    parts: i64,
    /// Where the widening is full, in mm.
    widening_end: i64,
    step: i64,
    unit: i64,
    tie: i64,
    axis: Axis,
}

impl Banking {
    /// The runoff of a card, or the first reason met.
    fn from_card(card: &Numbers) -> Result<Banking, u32> {
        let number = reason(card);
        if number != 0 {
            return Err(number);
        }
        let [kind, _, radius, length, full_slope, full_widening, step, unit, mark, height, grade] =
            card.map(i64::from);
        let parts = if full_widening > 0 { 4 } else { 2000 };
        Ok(Banking {
            road: &ROADS[kind as usize - 1],
            length,
            full_slope,
            full_widening,
            first_stage_end: length * radius * parts / 2000,
            parts,
            widening_end: length * radius / 500,
            step,
            unit,
            tie: i64::from(unit != 1),
            axis: (mark != 0).then_some((height / unit, grade)),
        })
    }

    /// Rows below the end, and the one at it.
    fn rows(&self) -> usize {
        ((self.length + self.step - 1) / self.step + 1) as usize
    }

    /// The outer slope at a station.
    fn outer_slope(&self, station: i64) -> Fraction {
        let (h, v) = (self.road.half, self.full_slope);
        // How far past the end of the first stage, in parts of a mm.
        let past = self.parts * station - self.first_stage_end;
        if past <= 0 {
            let bottom = self.parts * h;
            let top = (CROWN * bottom + 5 * past).max(-CROWN * bottom);
            return Fraction { top, bottom };
        }
        let bottom = self.parts * self.length - self.first_stage_end;
        let top = CROWN * bottom + (v - CROWN) * past;
        Fraction { top, bottom }
    }

    /// The nine numbers of the row at a station, where the axis stands at so many units and micrometres besides.
    #[inline(always)]
    fn row(&self, station: i64, (units, axis): (i32, i64)) -> [i32; 9] {
        let Road {
            half,
            shoulder,
            strip,
            least_shoulder,
            ..
        } = *self.road;
        let outer = self.outer_slope(station);
        let inner = outer.at_least(CROWN);
        let side = inner.at_least(SHOULDER_SLOPE);
        let outer_axis = axis * outer.bottom;
        // On the inner side all stands over the growth too, where there is a widening.
        let (growth, widening) = if self.full_widening == 0 {
            (1, 0)
        } else {
            let grown = (station - self.widening_end + GROWTH).clamp(0, GROWTH);
            (GROWTH, self.full_widening * grown)
        };
        let bottom = inner.bottom * growth;
        let inner_axis = axis * bottom;
        let inner_edge = inner_axis - (half * growth + widening) * inner.top;
        let inner_strip = inner_edge - strip * growth * inner.top;
        let left = (shoulder * growth - widening).max(least_shoulder * growth);
        let inner_brow = inner_strip - (left - strip * growth) * side.top;
        let (unit, tie) = (1000 * self.unit, self.tie);
        let outer_line =
            |width| units + round(outer_axis + width * outer.top, outer.bottom * unit, tie);
        let inner_line = |top| units + round(top, bottom * unit, tie);
        [
            station as i32,
            round(widening, growth * self.unit, tie),
            units + round(axis, unit, tie),
            outer_line(half),
            outer_line(half + strip),
            outer_line(half + shoulder),
            inner_line(inner_edge),
            inner_line(inner_strip),
            inner_line(inner_brow),
        ]
    }

    /// Fills the table row by row, where the axis stands so.
    fn fill(&self, table: &mut [i32], axis: impl Fn(i64) -> (i32, i64)) {
        let mut station = 0;
        for row in table.chunks_exact_mut(9) {
            let at = station.min(self.length);
            row.copy_from_slice(&self.row(at, axis(at)));
            station += self.step;
        }
    }
}

/// The card's number and the count of rows left in the table.
#[inline(never)]
pub fn fill_table(card: &Numbers, table: &mut [i32]) -> (u32, u32) {
    let banking = match Banking::from_card(card) {
        Ok(banking) => banking,
        Err(number) => return (number, 0),
    };
    let rows = banking.rows();
    if table.len() < 9 * rows {
        return (11, 0);
    }
    let table = &mut table[..9 * rows];
    match banking.axis {
        None => banking.fill(table, |_| (0, 0)),
        Some((height, grade)) => {
            let unit = 1000 * banking.unit;
            // Whole units are set apart, so that no sum outgrows its numbers.
            banking.fill(table, |station| {
                let climb = grade * station;
                let units = height + climb.div_euclid(unit);
                (units as i32, climb.rem_euclid(unit))
            });
        }
    }
    (0, rows as u32)
}

#[cfg(test)]
mod tests {
    use super::fill_table;
    use crate::cards::{absolute_handbook_cards, handbook_cards};
    use paper::card::{absolute, marked, relative, Numbers};

    /// The rows of the handbook's example 2.1 at a first stage of 28 m: 3.5 m into it the outer edge is at -52.5 mm.
    #[test]
    fn first_stage() {
        let mut table = [0; 369];
        let card = relative([1, 1, 600, 140_000, 48, 0, 3500, 1]);
        assert_eq!(fill_table(&card, &mut table), (0, 41));
        assert_eq!(table[..9], [0, 0, 0, -70, -85, -130, -70, -85, -175]);
        let into = [17_500, 0, 0, -52, -64, -97, -70, -85, -175];
        assert_eq!(table[9 * 5..9 * 6], into);
        let last = [140_000, 0, 0, 168, 204, 312, -168, -204, -312];
        assert_eq!(table[9 * 40..], last);
        assert_eq!(fill_table(&card, &mut table[..368]), (11, 0));
    }

    #[test]
    fn kept_shoulder() {
        let mut table = [0; 189];
        let card = relative([2, 1, 500, 140_000, 50, 2000, 7000, 1]);
        assert_eq!(fill_table(&card, &mut table), (0, 21));
        let kept = [133_000, 1300, 0, 168, 192, 288, -230, -254, -302];
        assert_eq!(table[9 * 19..9 * 20], kept);
    }

    #[test]
    fn refused() {
        let number = |eight| fill_table(&relative(eight), &mut []).0;
        assert_eq!(number([4, 1, 600, 140_000, 25, 0, 5000, 1]), 5);
        assert_eq!(number([4, 1, 600, 140_000, 35, 0, 5000, 1]), 36);
        assert_eq!(number([1, 1, 600, 140_000, 20, 0, 5000, 1]), 36);
        assert_eq!(number([1, 1, 2000, 140_000, 40, 0, 5000, 1]), 36);
        assert_eq!(number([1, 1, 400, 139_999, 40, 1, 5000, 1]), 37);
        assert_eq!(number([1, 1, 400, 140_001, 40, 1, 5000, 1]), 38);
        assert_eq!(number([1, 1, 501, 140_000, 40, 1, 5000, 1]), 38);
        assert_eq!(number([1, 1, 1650, 123_999, 51, 0, 5000, 1]), 8);
        assert_eq!(number([1, 1, 1650, 124_000, 51, 0, 5000, 1]), 11);
        assert_eq!(number([1, 1, 600, 140_000, 40, 0, 999, 0]), 9);
        assert_eq!(number([1, 1, 600, 140_000, 40, 0, 5000, 0]), 10);
        let high = |height, grade| {
            let eight = [1, 1, 600, 140_000, 40, 0, 5000, 10];
            fill_table(&marked(eight, 1, height, grade), &mut []).0
        };
        assert_eq!((high(5, 81), high(10, 81), high(10, 80)), (34, 35, 11));
    }

    /// No number outgrows 64 bits: the longest clothoids with the widest and steepest roads, and limits of heights.
    #[test]
    fn greatest_numbers() {
        for eight in [
            [1, 1, 500, 300_000, 60, 3500, 1000, 10],
            [1, 1, 187, 300_000, 60, 0, 1000, 10],
            [2, 2, 188, 300_000, 60, 3500, 1000, 1],
            [3, 2, 1999, 300_000, 21, 0, 1000, 10],
        ] {
            for (height, grade) in [(9_000_000, 80), (-100_000, -80)] {
                same_table(&absolute(eight, height, grade));
            }
        }
    }

    fn same_table(card: &Numbers) {
        let (mut table, mut due_table) = ([5; 2709], [5; 2709]);
        let due = paper::fill_minsk_table(card, &mut due_table);
        assert_eq!(due.number, 0);
        assert_eq!(fill_table(card, &mut table), (due.number, due.count));
        assert_eq!(table, due_table, "{card:?}");
    }

    /// The cards that are timed, beside the paper's rows.
    #[test]
    fn tables_of_the_paper() {
        for card in [handbook_cards(), absolute_handbook_cards()].as_flattened() {
            same_table(card);
        }
    }
}
