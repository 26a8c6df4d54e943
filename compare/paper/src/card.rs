//! The card, the profiles, and the reasons 1 to 6, 8 to 10, 34 and 35 for which a card is refused.
//!
//! The handbook's method (`minsk`) shares all of them but 8.

/// One line of the table of profiles: lengths in mm, slopes in ‰, radius in metres.
#[derive(Clone, Copy, Debug)]
pub struct Profile {
    /// Half the carriageway, h.
    pub half: u32,
    /// The shoulder, c.
    pub shoulder: u32,
    /// The crown slope on a straight, p.
    pub crown_slope: u32,
    /// The shoulder slope on a straight, q.
    pub shoulder_slope: u32,
    /// The least shoulder, m.
    pub least_shoulder: u32,
    pub least_radius: u32,
    pub added_level: u32,
    pub added_mountain: u32,
}

const fn profile_line(n: [u32; 8]) -> Profile {
    Profile {
        half: n[0],
        shoulder: n[1],
        crown_slope: n[2],
        shoulder_slope: n[3],
        least_shoulder: n[4],
        least_radius: n[5],
        added_level: n[6],
        added_mountain: n[7],
    }
}

/// h, c, p, q, m, least R, added slope on level ground and in mountains.
const PROFILES: [Profile; 5] = [
    profile_line([3750, 3750, 20, 40, 1500, 125, 5, 5]),
    profile_line([3500, 2500, 20, 40, 1500, 100, 10, 20]),
    profile_line([3000, 2000, 20, 50, 1000, 60, 10, 20]),
    profile_line([3000, 2000, 30, 60, 1000, 30, 10, 20]),
    profile_line([2250, 1750, 30, 60, 1000, 30, 10, 20]),
];

/// Radius in metres, and the least clothoid length for it in metres.
pub const LEAST_LENGTHS: [(u32, u32); 20] = [
    (30, 30),
    (40, 30),
    (50, 35),
    (60, 40),
    (70, 40),
    (80, 45),
    (90, 45),
    (100, 50),
    (125, 55),
    (150, 60),
    (200, 70),
    (250, 80),
    (300, 90),
    (400, 100),
    (500, 110),
    (600, 120),
    (700, 120),
    (800, 120),
    (1000, 120),
    (2000, 100),
];

pub const GREATEST_RADIUS: u32 = 2000;
pub const GREATEST_LENGTH: u32 = 300_000;
pub const GREATEST_SLOPE: u32 = 60;
pub const GREATEST_WIDENING: u32 = 3500;
pub const GREATEST_WIDENED_RADIUS: u32 = 1000;
pub const LEAST_STEP: u32 = 1000;
pub const GREATEST_STEP: u32 = 20_000;
/// Document 02, Slip 5: the axis at station 0 in mm, and the grade along the road in ‰.
pub const LEAST_HEIGHT: i32 = -100_000;
pub const GREATEST_HEIGHT: i32 = 9_000_000;
pub const LEAST_GRADE: i32 = -80;
pub const GREATEST_GRADE: i32 = 80;

/// A card as the calls for C take it: the eight numbers, the mark (0, or 1 for absolute), the height and the grade.
pub const CARD_NUMBERS: usize = 11;
pub type Numbers = [i32; CARD_NUMBERS];

/// The card of eight numbers.
pub const fn relative(eight: [i32; 8]) -> Numbers {
    marked(eight, 0, 0, 0)
}

/// The card of eight numbers that carries a height and a grade as well.
pub const fn absolute(eight: [i32; 8], height: i32, grade: i32) -> Numbers {
    marked(eight, 1, height, grade)
}

/// The eight numbers, and any three behind them.
pub const fn marked(eight: [i32; 8], mark: i32, height: i32, grade: i32) -> Numbers {
    let [a, b, c, d, e, f, g, h] = eight;
    [a, b, c, d, e, f, g, h, mark, height, grade]
}

/// Slip 5: "A card is now relative, or absolute and carries both numbers."
#[derive(Clone, Copy, Debug, PartialEq, Eq)]
pub enum Datum {
    Relative,
    Absolute {
        /// Of the axis at station 0, in mm.
        height: i32,
        /// Along the road, in ‰.
        grade: i32,
    },
}

/// The numbers of a card by their names.
#[derive(Clone, Copy, Debug)]
pub struct Card {
    pub profile: u32,
    pub terrain: u32,
    /// R, in metres.
    pub radius: u32,
    /// L, in mm.
    pub length: u32,
    /// v, in ‰.
    pub full_slope: u32,
    /// W, in mm.
    pub full_widening: u32,
    /// In mm.
    pub step: u32,
    /// In mm.
    pub unit: u32,
    pub datum: Datum,
}

/// One of the eight below 0 counts as 4294967295, which every reason refuses.
fn counted(number: i32) -> u32 {
    u32::try_from(number).unwrap_or(u32::MAX)
}

/// Mark 0 is relative, and its height and grade are not looked at; any other mark is absolute.
fn datum(mark: i32, height: i32, grade: i32) -> Datum {
    match mark {
        0 => Datum::Relative,
        _ => Datum::Absolute { height, grade },
    }
}

impl Card {
    pub fn new(numbers: &Numbers) -> Card {
        let [.., mark, height, grade] = *numbers;
        let [profile, terrain, radius, length, full_slope, full_widening, step, unit, ..] =
            numbers.map(counted);
        Card {
            profile,
            terrain,
            radius,
            length,
            full_slope,
            full_widening,
            step,
            unit,
            datum: datum(mark, height, grade),
        }
    }
}

/// The profile of that number, if there is one.
pub fn profile(number: u32) -> Option<Profile> {
    let place = usize::try_from(number).ok()?.checked_sub(1)?;
    PROFILES.get(place).copied()
}

/// The added slope in ‰ for terrain 1 or 2.
pub fn added_slope(profile: &Profile, terrain: u32) -> Option<u32> {
    match terrain {
        1 => Some(profile.added_level),
        2 => Some(profile.added_mountain),
        _ => None,
    }
}

/// Least L in mm for a radius from 30 to 2000 metres.
/// Between two listed radii the longer of the two lengths holds.
pub fn least_length(radius: u32) -> Option<u32> {
    for (listed, metres) in LEAST_LENGTHS {
        if radius == listed {
            return Some(1000 * metres);
        }
    }
    for pair in LEAST_LENGTHS.windows(2) {
        if pair[0].0 < radius && radius < pair[1].0 {
            return Some(1000 * pair[0].1.max(pair[1].1));
        }
    }
    None
}

/// Document 02, Slip 3: how many listed radii the search for least L looks at,
/// "for R up to 2000, one more than lie below R".
pub fn radii_looked_at(radius: u32) -> Option<u32> {
    let lie_below = LEAST_LENGTHS.iter().filter(|(listed, _)| *listed < radius);
    let one_more = u32::try_from(lie_below.count() + 1).expect("a count of radii fits");
    (radius <= GREATEST_RADIUS).then_some(one_more)
}

/// 0 for a card that none of its own reasons refuses, else the first one met: 34 and 35 come after 10.
///
/// Document 02, Slip 1: "Cards that gave 7 go on to the later reasons. Number 7 never occurs again".
pub fn check_card(numbers: &Numbers) -> u32 {
    let card = Card::new(numbers);
    let reasons = [check_curve, check_added_slope, check_rows, check_datum];
    first_met(&card, &reasons)
}

/// The first reason that any of these gives, in this order, or 0; what comes after it is not looked at.
pub fn first_met(card: &Card, reasons: &[fn(&Card) -> u32]) -> u32 {
    let mut met = reasons.iter().map(|reason| reason(card));
    met.find(|&reason| reason != 0).unwrap_or(0)
}

/// Reasons 1 to 6.
pub fn check_curve(card: &Card) -> u32 {
    let Some(profile) = profile(card.profile) else {
        return 1;
    };
    if added_slope(&profile, card.terrain).is_none() {
        return 2;
    }
    if card.radius < profile.least_radius || card.radius > GREATEST_RADIUS {
        return 3;
    }
    if too_short_or_long(card) {
        return 4;
    }
    if card.full_slope < profile.crown_slope || card.full_slope > GREATEST_SLOPE {
        return 5;
    }
    if widened_too_much(card) {
        return 6;
    }
    0
}

/// Reason 8, of a card with a known profile and terrain: h × (p + v) above added slope × L.
fn check_added_slope(card: &Card) -> u32 {
    let profile = profile(card.profile).expect("a profile");
    let added = added_slope(&profile, card.terrain).expect("a terrain");
    let climb = profile.half * (profile.crown_slope + card.full_slope);
    if climb > added * card.length {
        return 8;
    }
    0
}

/// Reasons 9 and 10.
pub fn check_rows(card: &Card) -> u32 {
    if card.step < LEAST_STEP || card.step > GREATEST_STEP {
        return 9;
    }
    if card.unit != 1 && card.unit != 10 {
        return 10;
    }
    0
}

/// Reasons 34 and 35, of an absolute card whose unit is 1 or 10.
pub fn check_datum(card: &Card) -> u32 {
    let Datum::Absolute { height, grade } = card.datum else {
        return 0;
    };
    if is_no_height(height, card.unit) {
        return 34;
    }
    if !(LEAST_GRADE..=GREATEST_GRADE).contains(&grade) {
        return 35;
    }
    0
}

/// Reason 34: "a height outside −100,000 to 9,000,000 or not a whole number of units".
fn is_no_height(height: i32, unit: u32) -> bool {
    let is_outside = !(LEAST_HEIGHT..=GREATEST_HEIGHT).contains(&height);
    is_outside || i64::from(height) % i64::from(unit) != 0
}

/// Reason 4: the clothoid is shorter than least L, or above 300 m.
fn too_short_or_long(card: &Card) -> bool {
    let least = least_length(card.radius).expect("the radius is within the list");
    card.length < least || card.length > GREATEST_LENGTH
}

/// Reason 6: W above 3500, or above 0 with R above 1000.
fn widened_too_much(card: &Card) -> bool {
    card.full_widening > GREATEST_WIDENING
        || (card.full_widening > 0 && card.radius > GREATEST_WIDENED_RADIUS)
}
