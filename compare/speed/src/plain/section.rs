//! A card's table, every row worked afresh from the card and its station.

use paper::card::{Numbers, LEAST_LENGTHS};

/// One line of the paper's table of profiles; lengths in mm, slopes in ‰.
struct Profile {
    half: i64,
    shoulder: i64,
    crown_slope: i64,
    shoulder_slope: i64,
    least_shoulder: i64,
    least_radius: i64,
    added_slope: [i64; 2],
}

impl Profile {
    /// Where the axis of a relative card stays, in micrometres.
    fn axis(&self) -> i64 {
        self.shoulder * self.shoulder_slope + self.half * self.crown_slope
    }
}

/// A profile from its numbers in the order of the paper.
const fn profile(n: [i64; 6], added_slope: [i64; 2]) -> Profile {
    let [half, shoulder, crown_slope, shoulder_slope, least_shoulder, least_radius] = n;
    Profile {
        half,
        shoulder,
        crown_slope,
        shoulder_slope,
        least_shoulder,
        least_radius,
        added_slope,
    }
}

static PROFILES: [Profile; 5] = [
    profile([3750, 3750, 20, 40, 1500, 125], [5, 5]),
    profile([3500, 2500, 20, 40, 1500, 100], [10, 20]),
    profile([3000, 2000, 20, 50, 1000, 60], [10, 20]),
    profile([3000, 2000, 30, 60, 1000, 30], [10, 20]),
    profile([2250, 1750, 30, 60, 1000, 30], [10, 20]),
];

/// Least clothoid length in mm; between two listed radii the longer holds.
pub fn least_length(radius: i64) -> i64 {
    let mut before = 0;
    for &(listed, length) in &LEAST_LENGTHS {
        let (listed, length) = (i64::from(listed), i64::from(length));
        if radius == listed {
            return 1000 * length;
        }
        if radius < listed {
            return 1000 * length.max(before);
        }
        before = length;
    }
    1000 * before
}

/// A whole number over a whole number above nought.
#[derive(Clone, Copy)]
pub struct Fraction {
    pub top: i64,
    pub bottom: i64,
}

impl Fraction {
    /// The greater of the fraction and a whole number, over the same bottom.
    pub fn at_least(self, whole: i64) -> Fraction {
        let top = self.top.max(whole * self.bottom);
        Fraction { top, ..self }
    }
}

/// Nearest whole number; with a tie of 1 halfway goes to the lower, with 0 to the higher, also below nought.
pub fn round(top: i64, bottom: i64, tie: i64) -> i32 {
    (2 * top + bottom - tie).div_euclid(2 * bottom) as i32
}

/// The first of the card's own reasons that applies, or 0.
fn reason(card: &Numbers) -> u32 {
    let [kind, terrain, radius, length, slope, widening, step, unit, ..] = card.map(i64::from);
    if !(1..=5).contains(&kind) {
        return 1;
    }
    if terrain != 1 && terrain != 2 {
        return 2;
    }
    let profile = &PROFILES[kind as usize - 1];
    let climb = profile.half * (profile.crown_slope + slope);
    let added_slope = profile.added_slope[terrain as usize - 1];
    if radius < profile.least_radius || radius > 2000 {
        3
    } else if length < least_length(radius) || length > 300_000 {
        4
    } else if slope < profile.crown_slope || slope > 60 {
        5
    } else if !(0..=3500).contains(&widening) || (widening > 0 && radius > 1000) {
        6
    } else if climb > added_slope * length {
        8
    } else if !(1000..=20_000).contains(&step) {
        9
    } else if unit != 1 && unit != 10 {
        10
    } else {
        datum_reason(card)
    }
}

/// 34 or 35 of an absolute card whose unit is 1 or 10, or 0.
pub fn datum_reason(card: &Numbers) -> u32 {
    let [.., unit, mark, height, grade] = *card;
    if mark == 0 {
        0
    } else if !(-100_000..=9_000_000).contains(&height) || height % unit != 0 {
        34
    } else if !(-80..=80).contains(&grade) {
        35
    } else {
        0
    }
}

/// Where the axis stands: in micrometres, or at a height in units that climbs by a grade.
enum Axis {
    Relative(i64),
    Absolute { height: i64, grade: i64 },
}

enum Stages {
    Even,
    TwoStage,
}

/// An accepted card.
struct Runoff {
    profile: &'static Profile,
    length: i64,
    full_slope: i64,
    full_widening: i64,
    step: i64,
    unit: i64,
    /// 0 in millimetres, where halfway goes to the higher number, and 1 in centimetres.
    tie: i64,
    axis: Axis,
    stages: Stages,
}

impl Runoff {
    /// The card's runoff, or the number of the first reason met.
    fn from_card(card: &Numbers) -> Result<Runoff, u32> {
        let number = reason(card);
        if number != 0 {
            return Err(number);
        }
        let [kind, _, _, length, full_slope, full_widening, step, unit, mark, height, grade] =
            card.map(i64::from);
        let profile = &PROFILES[kind as usize - 1];
        let axis = match mark {
            0 => Axis::Relative(profile.axis()),
            _ => Axis::Absolute {
                height: height / unit,
                grade,
            },
        };
        let climb = profile.half * (profile.crown_slope + full_slope);
        let stages = match climb >= 3 * length {
            true => Stages::Even,
            false => Stages::TwoStage,
        };
        Ok(Runoff {
            profile,
            length,
            full_slope,
            full_widening,
            step,
            unit,
            tie: i64::from(unit != 1),
            axis,
            stages,
        })
    }

    /// Rows below the end, and the one at it.
    fn rows(&self) -> usize {
        ((self.length + self.step - 1) / self.step + 1) as usize
    }

    /// The outer slope at a station.
    fn outer_slope(&self, station: i64) -> Fraction {
        let (h, p, v) = (self.profile.half, self.profile.crown_slope, self.full_slope);
        match self.stages {
            Stages::Even => Fraction {
                top: (p + v) * station - p * self.length,
                bottom: self.length,
            },
            Stages::TwoStage if 3 * station <= 2 * h * p => Fraction {
                top: 3 * station - p * h,
                bottom: h,
            },
            Stages::TwoStage => {
                let bottom = 3 * self.length - 2 * h * p;
                let top = p * bottom + (v - p) * (3 * station - 2 * h * p);
                Fraction { top, bottom }
            }
        }
    }

    /// The seven numbers of the row at a station, where the axis stands at so many units and micrometres besides.
    #[inline(always)]
    fn row(&self, station: i64, (units, axis): (i32, i64)) -> [i32; 7] {
        let (h, c, m) = (
            self.profile.half,
            self.profile.shoulder,
            self.profile.least_shoulder,
        );
        let (p, q) = (self.profile.crown_slope, self.profile.shoulder_slope);
        let outer = self.outer_slope(station);
        let inner = outer.at_least(p);
        let side = inner.at_least(q);
        let outer_edge = axis * outer.bottom + h * outer.top;
        let outer_brow = outer_edge + c * outer.top;
        // On the inner side all stands over the length too, for the widening.
        let widening = self.full_widening * station;
        let bottom = inner.bottom * self.length;
        let inner_edge = axis * bottom - (h * self.length + widening) * inner.top;
        let shoulder = (c * self.length - widening).max(m * self.length);
        let inner_brow = inner_edge - shoulder * side.top;
        let (unit, tie) = (1000 * self.unit, self.tie);
        [
            station as i32,
            round(widening, self.length * self.unit, tie),
            units + round(inner_brow, bottom * unit, tie),
            units + round(inner_edge, bottom * unit, tie),
            units + round(axis, unit, tie),
            units + round(outer_edge, outer.bottom * unit, tie),
            units + round(outer_brow, outer.bottom * unit, tie),
        ]
    }

    /// Fills the table row by row, where the axis stands so.
    fn fill(&self, table: &mut [i32], axis: impl Fn(i64) -> (i32, i64)) {
        let mut station = 0;
        for row in table.chunks_exact_mut(7) {
            let at = station.min(self.length);
            row.copy_from_slice(&self.row(at, axis(at)));
            station += self.step;
        }
    }
}

/// The card's number and the count of rows left in the table.
#[inline(never)]
pub fn fill_table(card: &Numbers, table: &mut [i32]) -> (u32, u32) {
    let runoff = match Runoff::from_card(card) {
        Ok(runoff) => runoff,
        Err(number) => return (number, 0),
    };
    let rows = runoff.rows();
    if table.len() < 7 * rows {
        return (11, 0);
    }
    let table = &mut table[..7 * rows];
    match runoff.axis {
        Axis::Relative(axis) => runoff.fill(table, |_| (0, axis)),
        Axis::Absolute { height, grade } => {
            let unit = 1000 * runoff.unit;
            // Whole units are set apart, so that no sum outgrows its numbers.
            runoff.fill(table, |station| {
                let climb = grade * station;
                let units = height + climb.div_euclid(unit);
                (units as i32, climb.rem_euclid(unit))
            });
        }
    }
    (0, rows as u32)
}

#[cfg(test)]
mod tests {
    use super::fill_table;
    use crate::cards::{absolute_cards, relative_cards};
    use paper::card::{absolute, marked, relative, Numbers};

    #[test]
    fn ramp() {
        let mut table = [5; 22];
        let card = relative([5, 1, 30, 30000, 60, 600, 20000, 1]);
        assert_eq!(fill_table(&card, &mut table), (0, 3));
        assert_eq!(table[..7], [0, 0, 0, 105, 173, 105, 53]);
        assert_eq!(table[7..14], [20000, 400, 12, 93, 173, 240, 293]);
        assert_eq!(table[14..], [30000, 600, -67, 2, 173, 308, 413, 5]);
    }

    #[test]
    fn two_stage() {
        let mut table = [0; 49];
        let card = relative([3, 1, 700, 120_000, 40, 400, 20000, 10]);
        assert_eq!(fill_table(&card, &mut table), (0, 7));
        let edges = [0, 2, 3, 5, 6].map(|row: usize| table[7 * row + 5]);
        assert_eq!(edges, [10, 22, 23, 26, 28]);
        assert_eq!(table[44..46], [-6, 2]);
        assert_eq!(fill_table(&card, &mut table[..48]), (11, 0));
    }

    /// The shoulder is 2500 − 900 at 60000, and kept at 1500 at 80000.
    #[test]
    fn kept_shoulder() {
        let mut table = [0; 35];
        let card = relative([2, 1, 200, 80_000, 60, 1200, 20000, 1]);
        assert_eq!(fill_table(&card, &mut table), (0, 5));
        assert_eq!(table[21..28], [60_000, 900, -70, -6, 170, 310, 410]);
        assert_eq!(table[28..], [80_000, 1200, -202, -112, 170, 380, 530]);
    }

    /// The widening is above the shoulder, so the shoulder without the rule would be below nought.
    #[test]
    fn widening_above_the_shoulder() {
        let mut table = [0; 49];
        let card = relative([5, 1, 30, 30000, 60, 3500, 5000, 1]);
        assert_eq!(fill_table(&card, &mut table), (0, 7));
        assert_eq!(table[7..14], [5000, 583, 18, 88, 173, 139, 113]);
        assert_eq!(table[42..], [30000, 3500, -232, -172, 173, 308, 413]);
    }

    /// The row of an accepted card at that place, from 0.
    fn row(card: &Numbers, place: usize) -> [i32; 7] {
        let mut table = [0; 2107];
        assert_eq!(fill_table(card, &mut table).0, 0);
        table[7 * place..][..7].try_into().expect("seven numbers")
    }

    /// 2437.5, −37.5, 22.5, 172.5, 244.5 and 300.5; then the axis at −67.5 and the lines −210, −150, 72 and 128 from it.
    #[test]
    fn halfway_in_millimetres() {
        let eight = [5, 1, 60, 90_000, 34, 3250, 13_500, 1];
        let due = [67_500, 2438, -37, 23, 173, 245, 301];
        assert_eq!(row(&relative(eight), 5), due);
        let due = [67_500, 2438, -277, -217, -67, 5, 61];
        assert_eq!(row(&absolute(eight, 0, -1), 5), due);
    }

    /// 312.5, −5.5, 0.5, 22.5, 34.5 and 46.5; then the axis at −7.5 and the lines −28, −22, 12 and 24 from it.
    #[test]
    fn halfway_in_centimetres() {
        let eight = [1, 1, 150, 75_000, 32, 3125, 20_000, 10];
        let due = [75_000, 312, -6, 0, 22, 34, 46];
        assert_eq!(row(&relative(eight), 4), due);
        let due = [75_000, 312, -36, -30, -8, 4, 16];
        assert_eq!(row(&absolute(eight, 0, -1), 4), due);
    }

    #[test]
    fn refused() {
        let number = |eight| fill_table(&relative(eight), &mut []).0;
        assert_eq!(number([1, 1, 125, 55000, 60, 0, 20000, 1]), 8);
        assert_eq!(number([1, 1, 125, 60000, 60, 0, 20000, 1]), 11);
        assert_eq!(number([2, 1, 225, 79999, 40, 0, 20000, 1]), 4);
        assert_eq!(number([2, 1, 225, 80000, 40, 0, 20000, 1]), 11);
        assert_eq!(number([2, 1, 1500, 119_999, 40, 0, 20000, 1]), 4);
        assert_eq!(number([2, 1, 2000, 100_000, 40, 0, 20000, 1]), 11);
        assert_eq!(number([4, 1, 100, 100_000, 29, 0, 20000, 1]), 5);
        assert_eq!(number([2, 1, 1000, 120_000, 40, 1001, 20000, 1]), 11);
        assert_eq!(number([2, 1, 1000, 120_000, 40, 3500, 20000, 1]), 11);
        assert_eq!(number([2, 1, 1000, 120_000, 40, 3501, 20000, 1]), 6);
        assert_eq!(number([2, 1, 1001, 120_000, 40, 1, 20000, 1]), 6);
        assert_eq!(number([0, 1, 1001, 120_000, 40, 1, 0, 1]), 1);
        assert_eq!(number([2, 1, 1000, 120_000, 40, -1, 20000, 1]), 6);
    }

    #[test]
    fn absolute_ramp() {
        let mut table = [5; 22];
        let card = absolute([5, 1, 30, 30000, 60, 600, 20000, 1], 250_000, -35);
        assert_eq!(fill_table(&card, &mut table), (0, 3));
        let first = [0, 0, 249_828, 249_933, 250_000, 249_933, 249_880];
        let second = [20000, 400, 249_140, 249_221, 249_300, 249_368, 249_420];
        let last = [30000, 600, 248_710, 248_779, 248_950, 249_085, 249_190];
        assert_eq!(table[..21], *[first, second, last].as_flattened());
        assert_eq!(table[21], 5);
    }

    #[test]
    fn heights_and_grades_refused() {
        let flat = [3, 1, 700, 120_000, 40, 400, 20000, 10];
        let number =
            |mark, height, grade| fill_table(&marked(flat, mark, height, grade), &mut []).0;
        assert_eq!((number(1, 5, 0), number(1, 0, 81)), (34, 35));
        assert_eq!((number(1, 5, 81), number(0, 5, 81)), (34, 11));
        assert_eq!(
            (number(1, -100_000, -80), number(-1, 9_000_000, 80)),
            (11, 11)
        );
        assert_eq!((number(1, -100_010, 0), number(2, 9_000_010, 0)), (34, 34));
    }

    /// The cards that are timed, beside the paper's rows.
    #[test]
    fn tables_of_the_paper() {
        for card in [relative_cards(), absolute_cards()].as_flattened() {
            let (mut table, mut due_table) = ([5; 2107], [5; 2107]);
            let due = paper::fill_table(card, &mut due_table);
            assert_eq!(fill_table(card, &mut table), (due.number, due.count));
            assert_eq!(table, due_table, "{card:?}");
        }
    }
}
