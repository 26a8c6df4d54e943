//! Seeded cards of six kinds, relative and absolute: valid, with a row at a turn, on a bound, height or grade on a bound, damaged,
//! random.

use crate::seeded::Seeded;
use crate::turned_cards::{put_a_row_at_a_turn, with_a_row_at_a_turn};
use paper::card::{
    added_slope, least_length, marked, profile, Profile, GREATEST_GRADE, GREATEST_HEIGHT,
    GREATEST_WIDENING, LEAST_GRADE, LEAST_HEIGHT, LEAST_LENGTHS,
};

pub use paper::card::{Numbers, CARD_NUMBERS};

/// Places of the numbers on the card.
pub const PROFILE: usize = 0;
pub const TERRAIN: usize = 1;
pub const RADIUS: usize = 2;
pub const LENGTH: usize = 3;
pub const SLOPE: usize = 4;
pub const WIDENING: usize = 5;
pub const STEP: usize = 6;
pub const UNIT: usize = 7;
pub const MARK: usize = 8;
pub const HEIGHT: usize = 9;
pub const GRADE: usize = 10;

/// Marks of absolute cards besides 1: of some of them 8, 16 or 31 bits are 0.
const OTHER_MARKS: [i32; 8] = [2, -1, 10, 256, 65_536, -65_536, i32::MAX, i32::MIN];

/// Makes a seeded card.
pub type Make = fn(&mut Seeded) -> Numbers;

pub const KINDS: [(&str, Make); 6] = [
    ("valid", valid),
    ("with a row at a turn", with_a_row_at_a_turn),
    ("on a bound", on_a_bound),
    ("height or grade on a bound", datum_on_a_bound),
    ("damaged", damaged),
    ("random", random),
];

/// A card that no reason refuses, relative about as often as absolute; often with a row at a turn.
pub fn valid(seeded: &mut Seeded) -> Numbers {
    let number = seeded.between(1, 5);
    let profile = profile(number).expect("a profile");
    let radius = radius(&profile, seeded);
    let mut card = valid_with(number, radius, seeded);
    if seeded.one_in(3) {
        put_a_row_at_a_turn(&mut card, seeded);
    }
    card
}

/// An accepted card of that profile and radius.
pub fn valid_with(number: u32, radius: u32, seeded: &mut Seeded) -> Numbers {
    let profile = profile(number).expect("a profile");
    let terrain = seeded.between(1, 2);
    let added = added_slope(&profile, terrain).expect("a terrain");
    let slope = full_slope(&profile, seeded);
    let climb = profile.half * (profile.crown_slope + slope);
    let least = least_length(radius)
        .expect("a radius")
        .max(up(climb, added));
    let length = length(least, climb, seeded);
    let widening = widening(&profile, radius, seeded);
    let step = step(length, seeded);
    let unit = seeded.pick(&[1, 10]);
    let eight = [number, terrain, radius, length, slope, widening, step, unit];
    let [mark, height, grade] = datum(unit, seeded);
    marked(eight.map(u32::cast_signed), mark, height, grade)
}

/// The mark, the height and the grade of a card that is not refused for them.
pub fn datum(unit: u32, seeded: &mut Seeded) -> [i32; 3] {
    match seeded.below(16) {
        0..=4 => [0; 3],
        5 => [0, any_height(seeded), any_grade(seeded)],
        6 => [0, height(unit, seeded), grade(seeded)],
        7 => [other_mark(seeded), height(unit, seeded), grade(seeded)],
        _ => [1, height(unit, seeded), grade(seeded)],
    }
}

/// Any mark but 0 and 1, and seldom 1.
pub fn other_mark(seeded: &mut Seeded) -> i32 {
    match seeded.below(3) {
        0 => (seeded.number() | 1).cast_signed(),
        _ => seeded.pick(&OTHER_MARKS),
    }
}

/// Any whole number of units within the limits; often a limit, or nought, or near it.
pub fn height(unit: u32, seeded: &mut Seeded) -> i32 {
    let unit = unit.cast_signed();
    let height = match seeded.below(10) {
        0 => LEAST_HEIGHT,
        1 => GREATEST_HEIGHT,
        2 => seeded.pick(&[-unit, 0, 0, unit]),
        3 => seeded.signed(-1000, 1000),
        4 | 5 => seeded.signed(LEAST_HEIGHT, 0),
        6 => seeded.signed(0, 9000) * 1000,
        _ => seeded.signed(0, GREATEST_HEIGHT),
    };
    height - height % unit
}

/// Any grade within the limits; often a limit, or nought, or beside it.
pub fn grade(seeded: &mut Seeded) -> i32 {
    match seeded.below(8) {
        0 => LEAST_GRADE,
        1 => GREATEST_GRADE,
        2 => seeded.signed(-1, 1),
        _ => seeded.signed(LEAST_GRADE, GREATEST_GRADE),
    }
}

/// A height on a limit or beside it, by one or by one unit; about a whole number of units; or any number.
pub fn any_height(seeded: &mut Seeded) -> i32 {
    let limit = seeded.pick(&[LEAST_HEIGHT, GREATEST_HEIGHT]);
    match seeded.below(10) {
        0..=2 => limit + seeded.signed(-1, 1),
        3 => limit + seeded.pick(&[-10, 10]),
        4 | 5 => 10 * seeded.signed(-9999, 9999) + seeded.signed(-9, 9),
        6 => seeded.signed(-30, 30),
        7 => seeded.pick(&[i32::MIN, i32::MAX]),
        8 => seeded.signed(-9_999_999, 9_999_999),
        _ => seeded.number().cast_signed(),
    }
}

/// A grade on a limit or beside it, small, or any number; of some of them 8 or 16 bits are within the limits.
pub fn any_grade(seeded: &mut Seeded) -> i32 {
    let limit = seeded.pick(&[LEAST_GRADE, GREATEST_GRADE]);
    match seeded.below(10) {
        0..=3 => limit + seeded.signed(-1, 1),
        4 | 5 => seeded.signed(-90, 90),
        6 => seeded.signed(-80, 80) + seeded.pick(&[256, -256, 65_536, -65_536]),
        7 => seeded.pick(&[i32::MIN, i32::MAX]),
        8 => seeded.signed(-9_999_999, 9_999_999),
        _ => seeded.number().cast_signed(),
    }
}

/// An absolute card, rarely a relative one, with a height or a grade on a bound, or both; the other numbers are mostly
/// right.
fn datum_on_a_bound(seeded: &mut Seeded) -> Numbers {
    datum_on_a_bound_from(valid, bounds, seeded)
}

/// The same by any method.
pub fn datum_on_a_bound_from(valid: Make, bounds: Bounds, seeded: &mut Seeded) -> Numbers {
    let mut card = valid(seeded);
    let unit = card[UNIT].cast_unsigned();
    (card[HEIGHT], card[GRADE]) = match seeded.below(3) {
        0 => (any_height(seeded), grade(seeded)),
        1 => (height(unit, seeded), any_grade(seeded)),
        _ => (any_height(seeded), any_grade(seeded)),
    };
    card[MARK] = match seeded.below(10) {
        0 => 0,
        1 => other_mark(seeded),
        _ => 1,
    };
    if seeded.one_in(5) {
        card[UNIT] = seeded.pick(&around(&[1, 10])).cast_signed();
    } else if seeded.one_in(10) {
        put_on_a_bound(&mut card, bounds, seeded);
    }
    card
}

/// The least whole number that is not below `top` over `bottom`.
pub fn up(top: u32, bottom: u32) -> u32 {
    top.div_ceil(bottom)
}

fn radius(profile: &Profile, seeded: &mut Seeded) -> u32 {
    let least = profile.least_radius;
    match seeded.below(8) {
        0 => least,
        1 => seeded.pick(&LEAST_LENGTHS).0.max(least),
        2..=4 => seeded.between(least, 250),
        5 => seeded.between(1001, 2000),
        _ => seeded.between(least, 1000),
    }
}

fn full_slope(profile: &Profile, seeded: &mut Seeded) -> u32 {
    match seeded.below(6) {
        0 => profile.crown_slope,
        1 => 60,
        _ => seeded.between(profile.crown_slope, 60),
    }
}

/// Even about as often as two-stage, where both can be; round lengths often.
fn length(least: u32, climb: u32, seeded: &mut Seeded) -> u32 {
    let longest_even = climb / 3;
    let length = match seeded.below(8) {
        0 => least,
        1 => 300_000,
        2 => seeded.between(longest_even, longest_even + 1),
        3..=5 if longest_even > least => seeded.between(least, longest_even),
        3 | 4 => up(seeded.between(least, 300_000), 5000) * 5000,
        _ => seeded.between(least, 300_000),
    };
    length.clamp(least, 300_000)
}

/// Any W up to 3500; often about `spare`, above which the shoulder is kept at m before L, and from c on.
fn widening(profile: &Profile, radius: u32, seeded: &mut Seeded) -> u32 {
    if radius > 1000 {
        return 0;
    }
    let shoulder = profile.shoulder.min(GREATEST_WIDENING);
    let spare = spare_shoulder(profile);
    match seeded.below(10) {
        0 => 0,
        1 => GREATEST_WIDENING,
        2 | 3 => seeded.pick(&around(&[spare])),
        4 => seeded.between(0, GREATEST_WIDENING / 50) * 50,
        5 => seeded.between(0, spare),
        6 | 7 => seeded.between(spare, GREATEST_WIDENING),
        8 => seeded.between(shoulder, GREATEST_WIDENING),
        _ => seeded.between(0, GREATEST_WIDENING),
    }
}

/// c less m: what the shoulder can give to the widening.
fn spare_shoulder(profile: &Profile) -> u32 {
    profile.shoulder - profile.least_shoulder
}

/// Any step; the least and the greatest; such that divide L, or miss it by one.
pub fn step(length: u32, seeded: &mut Seeded) -> u32 {
    match seeded.below(12) {
        0 => 1000,
        1 => 20_000,
        2 => seeded.between(1, 20) * 1000,
        3 | 4 => {
            let share = length / seeded.between(length.div_ceil(20_000), length / 1000);
            let beside = (share + seeded.between(0, 2)).saturating_sub(1);
            beside.clamp(1000, 20_000)
        }
        _ => seeded.between(1000, 20_000),
    }
}

/// A number, one below it and one above; those below 0 as 32 bits have them.
pub fn around(numbers: &[u32]) -> Vec<u32> {
    let three = |n: &u32| [n.wrapping_sub(1), *n, n.wrapping_add(1)];
    numbers.iter().flat_map(three).collect()
}

/// The numbers at and beside the bounds of one place, the card's other numbers given.
pub type Bounds = fn(&Numbers, usize) -> Vec<u32>;

/// Those of 503-0-45.
pub fn bounds(card: &Numbers, place: usize) -> Vec<u32> {
    match place {
        PROFILE => around(&[1, 5]),
        TERRAIN => around(&[1, 2]),
        RADIUS => radius_bounds(card),
        LENGTH => length_bounds(card),
        SLOPE => slope_bounds(card),
        WIDENING => widening_bounds(card),
        STEP => step_bounds(card),
        UNIT => around(&[1, 10]),
        MARK => around(&[0, 1]),
        HEIGHT => around(&[LEAST_HEIGHT, 0, GREATEST_HEIGHT].map(i32::cast_unsigned)),
        _ => around(&[LEAST_GRADE, 0, GREATEST_GRADE].map(i32::cast_unsigned)),
    }
}

/// One of the numbers, without a sign.
pub fn of(card: &Numbers, place: usize) -> u32 {
    card[place].cast_unsigned()
}

fn step_bounds(card: &Numbers) -> Vec<u32> {
    let length = of(card, LENGTH);
    around(&[1000, 20_000, length, length / 2, length / 7])
}

fn radius_bounds(card: &Numbers) -> Vec<u32> {
    let mut bounds = vec![1000, 2000];
    bounds.extend(profile(of(card, PROFILE)).map(|profile| profile.least_radius));
    bounds.extend(LEAST_LENGTHS.map(|(radius, _)| radius));
    around(&bounds)
}

/// Least L, greatest L, even against two-stage, the added slope.
fn length_bounds(card: &Numbers) -> Vec<u32> {
    let mut bounds = vec![300_000];
    bounds.extend(least_length(of(card, RADIUS)));
    if let Some(profile) = profile(of(card, PROFILE)) {
        let climb = profile
            .half
            .wrapping_mul(profile.crown_slope.wrapping_add(of(card, SLOPE)));
        bounds.push(climb / 3);
        let added = added_slope(&profile, of(card, TERRAIN));
        bounds.extend(added.map(|added| up(climb, added)));
    }
    around(&bounds)
}

/// The crown slope, 60, even against two-stage, the added slope.
fn slope_bounds(card: &Numbers) -> Vec<u32> {
    let mut bounds = vec![60];
    if let Some(profile) = profile(of(card, PROFILE)) {
        let slope_of = |climb: u32| (climb / profile.half).wrapping_sub(profile.crown_slope);
        bounds.push(profile.crown_slope);
        bounds.push(slope_of(of(card, LENGTH).wrapping_mul(3)));
        let added = added_slope(&profile, of(card, TERRAIN));
        bounds.extend(added.map(|added| slope_of(of(card, LENGTH).wrapping_mul(added))));
    }
    around(&bounds)
}

/// None, the greatest, the shoulder kept at m before L, the shoulder used up.
fn widening_bounds(card: &Numbers) -> Vec<u32> {
    let mut bounds = vec![0, GREATEST_WIDENING];
    if let Some(profile) = profile(of(card, PROFILE)) {
        bounds.extend([spare_shoulder(&profile), profile.shoulder]);
    }
    around(&bounds)
}

/// Puts one number of the card on one of its bounds, or beside it.
pub fn put_on_a_bound(card: &mut Numbers, bounds: Bounds, seeded: &mut Seeded) {
    let place = seeded.below(CARD_NUMBERS);
    card[place] = seeded.pick(&bounds(card, place)).cast_signed();
}

fn on_a_bound(seeded: &mut Seeded) -> Numbers {
    match seeded.below(10) {
        0 | 1 => radius_and_length(seeded),
        2 => steep_and_short(seeded),
        3 => radius_and_widening(seeded),
        share => {
            let mut card = valid(seeded);
            put_on_a_bound(&mut card, bounds, seeded);
            if share >= 7 {
                put_on_a_bound(&mut card, bounds, seeded);
            }
            card
        }
    }
}

/// A listed radius, one beside it or any, with least L or one beside it.
fn radius_and_length(seeded: &mut Seeded) -> Numbers {
    let mut card = valid(seeded);
    let radius = match seeded.below(2) {
        0 => seeded.pick(&radius_bounds(&card)),
        _ => seeded.between(29, 2001),
    };
    let least = least_length(radius).unwrap_or(30_000);
    card[RADIUS] = radius.cast_signed();
    card[LENGTH] = seeded.pick(&around(&[least])).cast_signed();
    card
}

/// Profile 1 at its least radius, where the added slope can refuse what least L passes.
fn steep_and_short(seeded: &mut Seeded) -> Numbers {
    let mut card = valid_with(1, 125, seeded);
    let slope = seeded.between(50, 61);
    card[SLOPE] = slope.cast_signed();
    let length = match seeded.below(3) {
        0 => seeded.pick(&length_bounds(&card)),
        1 => seeded.pick(&around(&[750 * (20 + slope)])),
        _ => seeded.between(54_999, 60_001),
    };
    card[LENGTH] = length.cast_signed();
    if seeded.one_in(4) {
        put_on_a_bound(&mut card, bounds, seeded);
    }
    card
}

/// The radius 1000 or one beside it, with W at one of its bounds.
fn radius_and_widening(seeded: &mut Seeded) -> Numbers {
    let mut card = valid(seeded);
    card[RADIUS] = seeded.signed(999, 1001);
    card[LENGTH] = card[LENGTH].max(120_000);
    card[WIDENING] = seeded.pick(&widening_bounds(&card)).cast_signed();
    card
}

/// A valid card with one or two numbers replaced.
pub fn damaged(seeded: &mut Seeded) -> Numbers {
    damaged_from(valid, bounds, seeded)
}

/// The same by any method.
pub fn damaged_from(valid: Make, bounds: Bounds, seeded: &mut Seeded) -> Numbers {
    let mut card = valid(seeded);
    damage(&mut card, bounds, seeded);
    if seeded.one_in(2) {
        damage(&mut card, bounds, seeded);
    }
    card
}

fn damage(card: &mut Numbers, bounds: Bounds, seeded: &mut Seeded) {
    let place = seeded.below(CARD_NUMBERS);
    let number = of(card, place);
    let damaged = match seeded.below(10) {
        0 => 0,
        1 => 1,
        2 => u32::MAX,
        3 | 4 => seeded.pick(&bounds(card, place)),
        5 => seeded.number(),
        6 => number ^ (1 << seeded.below(32)),
        7 => number ^ (1 << seeded.below(32)) ^ (1 << seeded.below(32)),
        8 => number.wrapping_mul(seeded.between(2, 1000)),
        _ => of_any_size(seeded),
    };
    card[place] = damaged.cast_signed();
}

/// A number of 1 to 32 bits.
fn of_any_size(seeded: &mut Seeded) -> u32 {
    seeded.number() >> seeded.below(32)
}

/// Random numbers in all places; in half of the cards of any size, and the first two small.
pub fn random(seeded: &mut Seeded) -> Numbers {
    if seeded.one_in(2) {
        return std::array::from_fn(|_| seeded.number().cast_signed());
    }
    let mut card: Numbers = std::array::from_fn(|_| of_any_size(seeded).cast_signed());
    card[PROFILE] = seeded.signed(0, 6);
    card[TERRAIN] = seeded.signed(0, 3);
    card[UNIT] = seeded.signed(-1, 11);
    card[MARK] = seeded.signed(-1, 2);
    card
}
