//! Seeded cards for the method of the Minsk handbook, relative and absolute: valid, with rows at the changes, on a bound,
//! height or grade on a bound, damaged, random.

use crate::cards::{
    around, bounds as bounds_503, damaged_from, datum, datum_on_a_bound_from, of, put_on_a_bound,
    random, step, Make, Numbers, LENGTH, PROFILE, RADIUS, SLOPE, STEP, TERRAIN, WIDENING,
};
use crate::seeded::Seeded;
use paper::card::{added_slope, least_length, marked, profile, GREATEST_WIDENING, LEAST_LENGTHS};
use paper::minsk::{road_of, Road};

/// The crown slope and the greatest full slope, in ‰.
const CROWN: u32 = 20;
const GREATEST_SLOPE: u32 = 60;
/// In mm.
const GREATEST_LENGTH: u32 = 300_000;
/// Radii in metres: full widening, the least without one by 6, and where the first stage ends.
const WIDENED: u32 = 500;
const UNWIDENED: u32 = 1000;
const BANKED: u32 = 2000;

pub const KINDS: [(&str, Make); 7] = [
    ("valid", valid),
    ("widened", widened),
    ("with a row at a change", with_a_row_at_a_change),
    ("on a bound", on_a_bound),
    ("height or grade on a bound", datum_on_a_bound),
    ("damaged", damaged),
    ("random", random),
];

/// The least whole number that is not below `top` over `bottom`.
fn up(top: u64, bottom: u64) -> u32 {
    u32::try_from(top.div_ceil(bottom)).unwrap_or(u32::MAX)
}

/// 2000 × 2 × h × 20 / 5: what L × R is at least by 37.
fn least_length_by_radius(road: &Road) -> u64 {
    16_000 * u64::from(road.half)
}

/// The least L by 37.
fn least_by_first_stage(road: &Road, radius: u32) -> u32 {
    up(least_length_by_radius(road), u64::from(radius))
}

/// The least L by 8, for a radius below 2000.
fn least_by_added_slope(road: &Road, added: u32, radius: u32, slope: u32) -> u32 {
    let climb = u64::from(road.half) * u64::from(slope - CROWN);
    up(2000 * climb, u64::from(added) * u64::from(BANKED - radius))
}

/// The greatest full slope by 8 and by 5.
fn greatest_slope(road: &Road, added: u32, radius: u32, length: u32) -> u32 {
    let second_stage = u64::from(length) * u64::from(BANKED - radius);
    let above = u64::from(added) * second_stage / (2000 * u64::from(road.half));
    GREATEST_SLOPE.min(CROWN + u32::try_from(above).unwrap_or(GREATEST_SLOPE))
}

/// L × R / 500 is a whole number of mm where this divides L.
fn whole_by(radius: u32) -> u32 {
    let (mut divisor, mut rest) = (WIDENED, radius);
    while rest > 0 {
        (divisor, rest) = (rest, divisor % rest);
    }
    WIDENED / divisor
}

/// The least L that 4, 37 and 8 let pass with any full slope above 20, if there is one.
fn least_of_all(number: u32, terrain: u32, radius: u32) -> Option<u32> {
    let (profile, road) = (profile(number)?, road_of(number)?);
    let added = added_slope(&profile, terrain)?;
    let by_slope = least_by_added_slope(&road, added, radius, CROWN + 1);
    let by_stage = least_by_first_stage(&road, radius);
    let least = least_length(radius)?.max(by_slope).max(by_stage);
    (least <= GREATEST_LENGTH).then_some(least)
}

/// A radius for which a card can be accepted.
fn radius(number: u32, terrain: u32, seeded: &mut Seeded) -> u32 {
    loop {
        let radius = match seeded.below(10) {
            0 => WIDENED,
            1 => WIDENED + 1,
            2 => seeded.between(WIDENED, UNWIDENED),
            3 => seeded.between(UNWIDENED, BANKED - 1),
            4 => seeded.between(1, 20) * 100 - 100 + seeded.pick(&[1, 50, 100]),
            _ => seeded.between(160, WIDENED),
        };
        if radius < BANKED && least_of_all(number, terrain, radius).is_some() {
            return radius;
        }
    }
}

/// A length from the least on; often the least, the greatest or a round one.
fn length(least: u32, seeded: &mut Seeded) -> u32 {
    match seeded.below(8) {
        0 => least,
        1 => GREATEST_LENGTH,
        2..=4 => least.max(seeded.between(least, GREATEST_LENGTH) / 10_000 * 10_000),
        5 => seeded.between(least, GREATEST_LENGTH.min(least + 20_000)),
        _ => seeded.between(least, GREATEST_LENGTH),
    }
}

fn full_slope(greatest: u32, seeded: &mut Seeded) -> u32 {
    match seeded.below(8) {
        0 => CROWN + 1,
        1 | 2 => greatest,
        3 => greatest.min(seeded.pick(&[40, 41])),
        _ => seeded.between(CROWN + 1, greatest),
    }
}

/// What the shoulder can give to the widening, c less m.
fn spare_shoulder(road: &Road) -> u32 {
    road.shoulder - road.least_shoulder
}

/// Any W above 0 up to 3500; often about `spare`, above which the shoulder is kept at m before L, and from c on.
fn widening(road: &Road, seeded: &mut Seeded) -> u32 {
    let spare = spare_shoulder(road);
    match seeded.below(9) {
        0 => GREATEST_WIDENING,
        1 | 2 => seeded.pick(&around(&[spare])),
        3 => seeded.between(1, GREATEST_WIDENING / 50) * 50,
        4 => seeded.between(1, spare),
        5 => seeded.between(spare, GREATEST_WIDENING),
        6 => seeded.pick(&around(&[road.shoulder])),
        7 => seeded.between(road.shoulder, GREATEST_WIDENING),
        _ => seeded.between(1, GREATEST_WIDENING),
    }
}

/// Any step; mostly such that there are few rows, which are looked into.
fn few_or_any_step(length: u32, seeded: &mut Seeded) -> u32 {
    match seeded.below(3) {
        0 => step(length, seeded),
        _ => seeded.between(length / 30, 20_000).max(1000),
    }
}

/// A card that no reason refuses, relative about as often as absolute.
pub fn valid(seeded: &mut Seeded) -> Numbers {
    let (number, terrain) = (seeded.between(1, 3), seeded.between(1, 2));
    let radius = radius(number, terrain, seeded);
    let share = if radius > WIDENED { 0 } else { seeded.below(4) };
    valid_with([number, terrain, radius], share > 1, seeded)
}

/// An accepted card with a widening above 0.
fn widened(seeded: &mut Seeded) -> Numbers {
    let (number, terrain) = (seeded.between(1, 3), seeded.between(1, 2));
    let radius = match seeded.below(4) {
        0 => WIDENED,
        1 => seeded.between(19, 49) * 10 + 10,
        _ => seeded.between(187, WIDENED),
    };
    valid_with([number, terrain, radius], true, seeded)
}

/// An accepted card of that profile, terrain and radius, widened or not.
fn valid_with(
    [number, terrain, radius]: [u32; 3],
    is_widened: bool,
    seeded: &mut Seeded,
) -> Numbers {
    let (profile, road) = (profile(number), road_of(number).expect("a road"));
    let added = added_slope(&profile.expect("a profile"), terrain).expect("a terrain");
    let least = least_of_all(number, terrain, radius).expect("a radius");
    let mut length = length(least, seeded);
    let mut widening = 0;
    if is_widened {
        // The greatest length is a multiple of 500, so that the next one is no longer.
        length = length.next_multiple_of(whole_by(radius));
        widening = self::widening(&road, seeded);
    }
    let slope = full_slope(greatest_slope(&road, added, radius, length), seeded);
    let (step, unit) = (few_or_any_step(length, seeded), seeded.pick(&[1, 10]));
    let eight = [number, terrain, radius, length, slope, widening, step, unit];
    let [mark, height, grade] = datum(unit, seeded);
    marked(eight.map(u32::cast_signed), mark, height, grade)
}

/// Where the first stage and the growth of the widening begin and end, where these are whole mm; nought at least.
fn changes(card: &Numbers) -> Vec<u32> {
    let length_by_radius = u64::from(of(card, LENGTH)) * u64::from(of(card, RADIUS));
    let first_stage = road_of(of(card, PROFILE)).map_or(0, |road| 8 * road.half);
    let mut changes = Vec::new();
    for (radius, length) in [(2000, first_stage), (500, 20_000)] {
        if length_by_radius.is_multiple_of(radius) {
            let end = up(length_by_radius, radius);
            changes.extend([end, end.saturating_sub(length)]);
        }
    }
    changes
}

/// An accepted card whose L × R / 2000 is a whole mm, with a step that divides one of the changes; or one of a step beside it.
fn with_a_row_at_a_change(seeded: &mut Seeded) -> Numbers {
    let mut card = match seeded.below(3) {
        0 => valid(seeded),
        _ => widened(seeded),
    };
    let length = of(&card, LENGTH).next_multiple_of(2000);
    card[LENGTH] = length.min(GREATEST_LENGTH).cast_signed();
    let at = seeded.pick(&changes(&card));
    if at >= 1000 {
        let share = at / (at.div_ceil(20_000) + seeded.between(0, 4));
        let beside = match seeded.below(4) {
            0 => seeded.pick(&around(&[share])),
            _ => share,
        };
        card[STEP] = beside.clamp(1000, 20_000).cast_signed();
    }
    card
}

/// The numbers at and beside the bounds of one place, the card's other numbers given.
pub fn bounds(card: &Numbers, place: usize) -> Vec<u32> {
    match place {
        PROFILE => around(&[1, 3, 4, 5]),
        RADIUS => radius_bounds(card),
        LENGTH => length_bounds(card),
        SLOPE => slope_bounds(card),
        WIDENING => widening_bounds(card),
        _ => bounds_503(card, place),
    }
}

/// The road, and the added slope of a card whose profile and terrain have them.
fn road_and_added(card: &Numbers) -> Option<(Road, u32)> {
    let (profile, road) = (profile(of(card, PROFILE))?, road_of(of(card, PROFILE))?);
    Some((road, added_slope(&profile, of(card, TERRAIN))?))
}

/// The profile's least, the listed ones, 500, 1000 and 2000, and the least by 37.
fn radius_bounds(card: &Numbers) -> Vec<u32> {
    let mut bounds = vec![WIDENED, WIDENED, UNWIDENED, BANKED, BANKED];
    bounds.extend(profile(of(card, PROFILE)).map(|profile| profile.least_radius));
    bounds.push(LEAST_LENGTHS[of(card, LENGTH) as usize % LEAST_LENGTHS.len()].0);
    if let Some(road) = road_of(of(card, PROFILE)) {
        let by_stage = up(
            least_length_by_radius(&road),
            u64::from(of(card, LENGTH).max(1)),
        );
        bounds.extend([by_stage, by_stage]);
    }
    around(&bounds)
}

/// Least L, greatest L, the least by 37 and by 8, and such with which L × R / 500 is a whole mm.
fn length_bounds(card: &Numbers) -> Vec<u32> {
    let (radius, slope) = (of(card, RADIUS), of(card, SLOPE));
    let mut bounds = vec![GREATEST_LENGTH];
    bounds.extend(least_length(radius));
    if let (Some((road, added)), 1..BANKED) = (road_and_added(card), radius) {
        bounds.push(least_by_first_stage(&road, radius));
        if (CROWN..=GREATEST_SLOPE).contains(&slope) {
            bounds.push(least_by_added_slope(&road, added, radius, slope));
        }
        let length = of(card, LENGTH).min(GREATEST_LENGTH);
        bounds.push(length.next_multiple_of(whole_by(radius)));
    }
    around(&bounds)
}

/// 20, 60, and the greatest by 8.
fn slope_bounds(card: &Numbers) -> Vec<u32> {
    let (radius, length) = (of(card, RADIUS), of(card, LENGTH));
    let mut bounds = vec![CROWN, GREATEST_SLOPE];
    if let (Some((road, added)), 1..BANKED) = (road_and_added(card), radius) {
        bounds.push(greatest_slope(
            &road,
            added,
            radius,
            length.min(GREATEST_LENGTH),
        ));
    }
    around(&bounds)
}

/// None, the greatest, the shoulder kept at m before L, the shoulder used up.
fn widening_bounds(card: &Numbers) -> Vec<u32> {
    let mut bounds = vec![0, GREATEST_WIDENING];
    if let Some(road) = road_of(of(card, PROFILE)) {
        bounds.extend([spare_shoulder(&road), road.shoulder]);
    }
    around(&bounds)
}

/// A card on the bounds of one reason of the method, of two of them, or with one or two numbers on any bound.
fn on_a_bound(seeded: &mut Seeded) -> Numbers {
    let mut card = match seeded.below(12) {
        0 | 1 => first_stage_on_its_bound(seeded),
        2 | 3 => widening_on_its_bound(seeded),
        4 | 5 => added_slope_on_its_bound(seeded),
        6 => great_radius(seeded),
        7 => beyond_the_method(seeded),
        _ => {
            let mut card = valid(seeded);
            put_on_a_bound(&mut card, bounds, seeded);
            card
        }
    };
    if seeded.one_in(4) {
        put_on_a_bound(&mut card, bounds, seeded);
    }
    card
}

/// L × R is 16000 × h or a little beside it; now and then with a widening that 38 would refuse.
fn first_stage_on_its_bound(seeded: &mut Seeded) -> Numbers {
    let mut card = valid(seeded);
    let road = road_of(of(&card, PROFILE)).expect("a road");
    let radius = match seeded.below(3) {
        0 => seeded.pick(&[200, 240, 250, 280, 300, 320, 350, 375, 400, 448, 480]),
        _ => seeded.between(160, 520),
    };
    let least = least_by_first_stage(&road, radius);
    card[RADIUS] = radius.cast_signed();
    card[LENGTH] = (least + seeded.between(0, 4) - 2).cast_signed();
    card[WIDENING] = seeded.pick(&[0, 0, 1]) * card[WIDENING].max(1);
    card
}

/// A radius of 500 or beside it, or a length with which L × R / 500 is a whole mm or beside it; W 0 and above.
fn widening_on_its_bound(seeded: &mut Seeded) -> Numbers {
    let mut card = widened(seeded);
    if seeded.one_in(3) {
        card[RADIUS] = seeded.pick(&around(&[WIDENED])).cast_signed();
        let least = least_length(of(&card, RADIUS)).expect("a radius");
        card[LENGTH] = card[LENGTH].max(least.cast_signed());
    } else {
        let beside = seeded.pick(&around(&[of(&card, LENGTH)]));
        card[LENGTH] = beside.min(GREATEST_LENGTH).cast_signed();
    }
    if seeded.one_in(2) {
        card[WIDENING] = seeded.pick(&widening_bounds(&card)).cast_signed();
    }
    card
}

/// A great radius, for which 8 asks for more than 4 does, with the length or the full slope on its bound.
fn added_slope_on_its_bound(seeded: &mut Seeded) -> Numbers {
    let mut card = valid(seeded);
    card[WIDENING] = 0;
    let (road, added) = road_and_added(&card).expect("a road");
    let slope = seeded.between(CROWN + 1, GREATEST_SLOPE);
    let radius = seeded.between(1500, BANKED - 1);
    let least = least_length(radius).expect("a radius");
    let by_slope = least_by_added_slope(&road, added, radius, slope);
    card[RADIUS] = radius.cast_signed();
    let length = match seeded.below(2) {
        0 => seeded.pick(&around(&[by_slope])),
        _ => seeded.between(least, GREATEST_LENGTH),
    };
    card[LENGTH] = length.clamp(least, GREATEST_LENGTH).cast_signed();
    let greatest = greatest_slope(&road, added, radius, of(&card, LENGTH));
    let slope = match length == of(&card, LENGTH) && seeded.one_in(2) {
        true => slope,
        false => seeded.pick(&around(&[greatest])),
    };
    card[SLOPE] = slope.cast_signed();
    card
}

/// The radius 1999, which only the longest clothoid of IV in mountains has, or 2000, or one beside it.
fn great_radius(seeded: &mut Seeded) -> Numbers {
    let mut card = valid(seeded);
    card[PROFILE] = seeded.pick(&[1, 2, 3, 3, 3]);
    card[TERRAIN] = seeded.pick(&[1, 2, 2, 2]);
    card[RADIUS] = seeded.pick(&[1999, 1999, 2000, 2001]);
    card[LENGTH] = seeded.pick(&[300_000, 300_000, 299_999]);
    card[SLOPE] = seeded.pick(&[20, 21, 21, 21, 22]);
    card[WIDENING] = 0;
    card
}

/// What 36 refuses, alone or with what later reasons refuse; or what 5 refuses before it.
fn beyond_the_method(seeded: &mut Seeded) -> Numbers {
    let mut card = valid(seeded);
    match seeded.below(3) {
        0 => {
            card[PROFILE] = seeded.signed(4, 5);
            card[SLOPE] = seeded.signed(20, 60);
        }
        1 => card[SLOPE] = 20,
        _ => card[RADIUS] = 2000,
    }
    match seeded.below(4) {
        0 => {
            card[RADIUS] = seeded.signed(60, 187);
            card[LENGTH] = card[LENGTH].max(110_000);
        }
        1 if card[RADIUS] < 2000 => {
            card[RADIUS] = seeded.signed(501, 1000);
            card[LENGTH] = card[LENGTH].max(120_000);
            card[WIDENING] = 1;
        }
        _ => {}
    }
    card
}

fn datum_on_a_bound(seeded: &mut Seeded) -> Numbers {
    datum_on_a_bound_from(valid, bounds, seeded)
}

/// A valid card with one or two numbers replaced.
fn damaged(seeded: &mut Seeded) -> Numbers {
    damaged_from(valid, bounds, seeded)
}
