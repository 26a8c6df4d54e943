//! Document 02, Slip 7: "The method of the Minsk handbook." The runoff of the handbook (document 001) for a full slope
//! above 20‰, beside that of 503-0-45: its reasons, its lines at any station, and its rows.
//!
//! A length in mm times a slope in ‰ is a height in micrometres.

use crate::card::{added_slope, check_curve, check_datum, check_rows, first_met, profile};
use crate::card::{Card, Datum, Numbers};
use crate::fraction::{fraction, whole, Fraction};
use crate::rows::{stations, tie, TableReply, SHORT_TABLE};

/// Numbers in a row.
pub const MINSK_ROW: usize = 9;

/// Widths of a road by the handbook, in mm.
#[derive(Clone, Copy, Debug)]
pub struct Road {
    /// Half the carriageway, h.
    pub half: u32,
    /// The shoulder with its strip.
    pub shoulder: u32,
    /// The strip alone.
    pub strip: u32,
    /// What a widening leaves of the inner shoulder with its strip, at the least.
    pub least_shoulder: u32,
}

const fn road(half: u32, shoulder: u32, strip: u32, least_shoulder: u32) -> Road {
    Road {
        half,
        shoulder,
        strip,
        least_shoulder,
    }
}

/// "Half carriageway, shoulder with its strip, and the strip alone in mm are 3500, 3000, 750 (II), 3500, 2500, 500 (III)
/// and 3000, 2000, 500 (IV)"; widening "narrows the inner shoulder to no less than 1500 (II, III) or 1000 (IV)".
const ROADS: [Road; 3] = [
    road(3500, 3000, 750, 1500),
    road(3500, 2500, 500, 1500),
    road(3000, 2000, 500, 1000),
];

/// "with crown 20‰".
pub const CROWN: u32 = 20;
/// The outer edge's climb in the first stage, in ‰.
const CLIMB: u32 = 5;
/// "the inner shoulder beyond the strip at 40‰ or the inner slope, whichever is greater".
const LEAST_SHOULDER_SLOPE: u32 = 40;
/// The widening grows "over 20 m".
const GROWTH: u32 = 20_000;
/// Where the clothoid has come to these radii, in metres, the first stage and the growth of the widening end.
const BANKED_RADIUS: i128 = 2000;
const WIDENED_RADIUS: u32 = 500;

/// The road of that profile; 4 and 5 have none.
pub fn road_of(profile: u32) -> Option<Road> {
    let place = usize::try_from(profile).ok()?.checked_sub(1)?;
    ROADS.get(place).copied()
}

/// L × R, in mm times metres.
fn length_by_radius(card: &Card) -> i128 {
    i128::from(card.length) * i128::from(card.radius)
}

/// L × R / 2000, where the first stage ends, in mm.
pub fn first_stage_end(card: &Card) -> Fraction {
    fraction(length_by_radius(card), BANKED_RADIUS)
}

/// "2 × h × 20 / 5 mm long".
pub fn first_stage_length(road: &Road) -> Fraction {
    fraction(i128::from(2 * road.half * CROWN), i128::from(CLIMB))
}

/// L × R / 500, where the widening is full, in mm.
pub fn widening_end(card: &Card) -> Fraction {
    fraction(length_by_radius(card), i128::from(WIDENED_RADIUS))
}

/// The handbook's letters for one accepted card.
#[derive(Clone, Copy, Debug)]
pub struct Banking {
    h: Fraction,
    shoulder: Fraction,
    strip: Fraction,
    least_shoulder: Fraction,
    crown: Fraction,
    v: Fraction,
    length: Fraction,
    full_widening: Fraction,
    length_by_radius: Fraction,
    first_stage_start: Fraction,
    first_stage_end: Fraction,
    widening_start: Fraction,
    widening_end: Fraction,
    datum: Datum,
}

impl Banking {
    /// The runoff of a card of profile 1 to 3; the other numbers are taken as accepted.
    pub fn new(card: &Card) -> Banking {
        let road = road_of(card.profile).expect("an accepted card has a road");
        let (first_stage_end, widening_end) = (first_stage_end(card), widening_end(card));
        Banking {
            h: whole(road.half),
            shoulder: whole(road.shoulder),
            strip: whole(road.strip),
            least_shoulder: whole(road.least_shoulder),
            crown: whole(CROWN),
            v: whole(card.full_slope),
            length: whole(card.length),
            full_widening: whole(card.full_widening),
            length_by_radius: whole(length_by_radius(card)),
            first_stage_start: first_stage_end - first_stage_length(&road),
            first_stage_end,
            widening_start: widening_end - whole(GROWTH),
            widening_end,
            datum: card.datum,
        }
    }

    /// "the axis, which is 0, moved as in Slip 5": of an absolute card, 1000 × height + grade × station.
    pub fn axis(&self, station: Fraction) -> Fraction {
        match self.datum {
            Datum::Relative => whole(0),
            Datum::Absolute { height, grade } => {
                whole(1000) * whole(height) + whole(grade) * station
            }
        }
    }

    /// Before the first stage "the road is crowned"; past it "the slope goes in a straight line from 20‰ to full slope at L".
    pub fn outer_slope(&self, station: Fraction) -> Fraction {
        if station <= self.first_stage_start {
            -self.crown
        } else if station <= self.first_stage_end {
            self.first_stage(station)
        } else {
            self.second_stage(station)
        }
    }

    /// "the outer edge climbing at 5‰", so the slope is its height over the axis by h.
    fn first_stage(&self, station: Fraction) -> Fraction {
        -self.crown + whole(CLIMB) * (station - self.first_stage_start) / self.h
    }

    /// The share of the second stage is (d − L × R / 2000) over (L − L × R / 2000): both 2000 times as great.
    fn second_stage(&self, station: Fraction) -> Fraction {
        let part = whole(BANKED_RADIUS) * station - self.length_by_radius;
        let second = whole(BANKED_RADIUS) * self.length - self.length_by_radius;
        self.crown + (self.v - self.crown) * (part / second)
    }

    /// "The inner slope is as before": the greater of the crown slope and the outer slope.
    pub fn inner_slope(&self, station: Fraction) -> Fraction {
        self.crown.max(self.outer_slope(station))
    }

    /// In mm, all on the inner side: it "starts 20 m before L × R / 500, grows in a straight line over 20 m", and stays.
    pub fn widening(&self, station: Fraction) -> Fraction {
        if station <= self.widening_start {
            whole(0)
        } else if station <= self.widening_end {
            self.full_widening * (station - self.widening_start) / whole(GROWTH)
        } else {
            self.full_widening
        }
    }

    /// With its strip, as Slip 1 has it: no less than is left at the least.
    pub fn inner_shoulder(&self, station: Fraction) -> Fraction {
        self.least_shoulder
            .max(self.shoulder - self.widening(station))
    }

    pub fn outer_edge(&self, station: Fraction) -> Fraction {
        self.axis(station) + self.h * self.outer_slope(station)
    }

    /// "the strip lies at carriageway slope".
    pub fn outer_strip(&self, station: Fraction) -> Fraction {
        self.axis(station) + (self.h + self.strip) * self.outer_slope(station)
    }

    /// "the outer shoulder too".
    pub fn outer_brow(&self, station: Fraction) -> Fraction {
        self.axis(station) + (self.h + self.shoulder) * self.outer_slope(station)
    }

    pub fn inner_edge(&self, station: Fraction) -> Fraction {
        self.axis(station) - (self.h + self.widening(station)) * self.inner_slope(station)
    }

    /// How far the inner strip's edge lies below the axis; the strip follows the widened edge.
    fn below_the_axis(&self, station: Fraction) -> Fraction {
        let width = self.h + self.widening(station) + self.strip;
        width * self.inner_slope(station)
    }

    pub fn inner_strip(&self, station: Fraction) -> Fraction {
        self.axis(station) - self.below_the_axis(station)
    }

    pub fn inner_brow(&self, station: Fraction) -> Fraction {
        let slope = whole(LEAST_SHOULDER_SLOPE).max(self.inner_slope(station));
        let beyond = self.inner_shoulder(station) - self.strip;
        self.axis(station) - (self.below_the_axis(station) + beyond * slope)
    }

    /// The heights in the order of a row: axis; outer edge, strip edge and brow; inner edge, strip edge and brow.
    pub fn lines(&self, station: Fraction) -> [Fraction; 7] {
        [
            self.axis(station),
            self.outer_edge(station),
            self.outer_strip(station),
            self.outer_brow(station),
            self.inner_edge(station),
            self.inner_strip(station),
            self.inner_brow(station),
        ]
    }
}

/// 0 for a card that none of its own reasons refuses, else the first one met.
///
/// "It refuses with 36 … with 37 … and with 38 …, in that order after 7", which never occurs, and before 8.
pub fn check_minsk_card(numbers: &Numbers) -> u32 {
    let card = Card::new(numbers);
    let reasons = [
        check_curve,
        check_method,
        check_first_stage,
        check_widening_place,
        check_second_stage,
        check_rows,
        check_datum,
    ];
    first_met(&card, &reasons)
}

/// Reason 36: "a full slope of 20, a radius of 2000 or profile 4 or 5".
fn check_method(card: &Card) -> u32 {
    let is_flat = card.full_slope == CROWN;
    let is_wide = card.radius == 2000;
    if is_flat || is_wide || card.profile == 4 || card.profile == 5 {
        return 36;
    }
    0
}

/// The road of a card that reason 36 let pass.
fn road_beyond_36(card: &Card) -> Road {
    road_of(card.profile).expect("a card beyond 36 has a road")
}

/// Reason 37: "a first stage longer than L × R / 2000".
fn check_first_stage(card: &Card) -> u32 {
    if first_stage_length(&road_beyond_36(card)) > first_stage_end(card) {
        return 37;
    }
    0
}

/// Reason 38: "a widening above 0 where R is above 500 or L × R / 500 is no whole mm".
fn check_widening_place(card: &Card) -> u32 {
    let is_whole = length_by_radius(card) % i128::from(WIDENED_RADIUS) == 0;
    if card.full_widening > 0 && (card.radius > WIDENED_RADIUS || !is_whole) {
        return 38;
    }
    0
}

/// Reason 8: "h × (v − 20) above added slope × (L − L × R / 2000)"; h is the handbook's.
fn check_second_stage(card: &Card) -> u32 {
    let profile = profile(card.profile).expect("a profile");
    let added = added_slope(&profile, card.terrain).expect("a terrain");
    let climb = whole(road_beyond_36(card).half) * (whole(card.full_slope) - whole(CROWN));
    let second_stage = whole(card.length) - first_stage_end(card);
    if climb > whole(added) * second_stage {
        return 8;
    }
    0
}

/// "station, widening, axis, outer edge, outer strip edge, outer brow, inner edge, inner strip edge, inner brow": the last
/// eight are counts of the unit, each rounded once, halfway as in Slip 6.
fn row(banking: &Banking, station: u32, unit: u32) -> [i32; MINSK_ROW] {
    let (at, tie) = (whole(station), tie(unit));
    let height = |micrometres: Fraction| (micrometres / whole(1000 * unit)).nearest(tie);
    let mut row = [0; MINSK_ROW];
    row[0] = i32::try_from(station).expect("a station fits 32 bits");
    row[1] = (banking.widening(at) / whole(unit)).nearest(tie);
    row[2..].copy_from_slice(&banking.lines(at).map(height));
    row
}

/// All rows of a card that `check_minsk_card` accepts.
pub fn minsk_rows(numbers: &Numbers) -> Vec<[i32; MINSK_ROW]> {
    let card = Card::new(numbers);
    let banking = Banking::new(&card);
    let stations = stations(&card).into_iter();
    stations
        .map(|station| row(&banking, station, card.unit))
        .collect()
}

/// Fills the lent table from its start; a refusal leaves it as it was. "11 counts nine a row".
pub fn fill_minsk_table(numbers: &Numbers, table: &mut [i32]) -> TableReply {
    let refused = |number| TableReply { number, count: 0 };
    let reason = check_minsk_card(numbers);
    if reason != 0 {
        return refused(reason);
    }
    let count = stations(&Card::new(numbers)).len();
    if table.len() < MINSK_ROW * count {
        return refused(SHORT_TABLE);
    }
    let places = table.chunks_exact_mut(MINSK_ROW);
    for (place, row) in places.zip(minsk_rows(numbers)) {
        place.copy_from_slice(&row);
    }
    TableReply {
        number: 0,
        count: u32::try_from(count).expect("a count of rows fits"),
    }
}
