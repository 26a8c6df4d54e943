//! Seeded cards with a row on a turn of the runoff, or 1 mm or less beside one: the stage joint, or a station where a rule of the
//! greater changes sides.

use crate::cards::{
    of, up, valid, valid_with, Numbers, LENGTH, PROFILE, RADIUS, SLOPE, STEP, TERRAIN, WIDENING,
};
use crate::seeded::Seeded;
use paper::card::{
    added_slope, least_length, profile, Profile, GREATEST_LENGTH, GREATEST_SLOPE, GREATEST_STEP,
    GREATEST_WIDENED_RADIUS, GREATEST_WIDENING, LEAST_STEP,
};

/// Lengths that are tried, from the card's on, until a turn stands on a whole mm.
const LENGTHS: u32 = 128;

/// A station in mm, as a whole number over another.
#[derive(Clone, Copy)]
struct Station {
    top: u64,
    bottom: u64,
}

impl Station {
    fn is_whole(self) -> bool {
        self.top.is_multiple_of(self.bottom)
    }

    /// The whole mm that it stands on or past.
    fn whole(self) -> u32 {
        u32::try_from(self.top / self.bottom).expect("a station fits 32 bits")
    }
}

fn station(top: u64, bottom: u64) -> Station {
    Station { top, bottom }
}

/// An accepted card with a row on a turn or beside it, if it has a turn and a step can put a row there.
pub fn with_a_row_at_a_turn(seeded: &mut Seeded) -> Numbers {
    if seeded.one_in(20) {
        return with_turns_close_together(seeded);
    }
    let mut card = valid(seeded);
    match seeded.below(8) {
        0..=2 => keep_the_shoulder(&mut card, seeded),
        3 => keep_the_shoulder_at_a_turn(&mut card, seeded),
        _ => (),
    }
    if seeded.one_in(2) {
        put_a_turn_on_a_whole_mm(&mut card, seeded);
    }
    put_a_row_at_a_turn(&mut card, seeded);
    card
}

/// An even road, steep and short, so that its slope is q soon after p; W is such that the shoulder is kept from between the two on,
/// and the step is long.
fn with_turns_close_together(seeded: &mut Seeded) -> Numbers {
    let number = seeded.between(1, 3);
    let letters = profile(number).expect("a profile");
    let mut card = valid_with(number, letters.least_radius, seeded);
    let [p, q, v] = [
        letters.crown_slope,
        letters.shoulder_slope,
        seeded.between(GREATEST_SLOPE - 5, GREATEST_SLOPE),
    ];
    let added = added_slope(&letters, of(&card, TERRAIN)).expect("a terrain");
    let least = least_length(letters.least_radius).expect("a radius");
    let least = least.max(up(letters.half * (p + v), added));
    let spare = spare_shoulder(&card);
    let widest = GREATEST_WIDENING.min(spare * (p + v) / (2 * p));
    let widening = seeded.between(up(spare * (p + v), p + q), widest);
    card[SLOPE] = v.cast_signed();
    card[LENGTH] = seeded.between(least, least + 1000).cast_signed();
    card[WIDENING] = widening.cast_signed();
    card[STEP] = seeded.between(15_000, GREATEST_STEP).cast_signed();
    card
}

fn letters(card: &Numbers) -> Profile {
    profile(of(card, PROFILE)).expect("an accepted card has a profile")
}

/// Where the slope is so many ‰, from p on.
fn station_of_slope(card: &Numbers, slope: u64) -> Station {
    let profile = letters(card);
    let [h, p] = [profile.half, profile.crown_slope].map(u64::from);
    let [length, v] = [LENGTH, SLOPE].map(|place| u64::from(of(card, place)));
    if h * (p + v) >= 3 * length {
        return station((p + slope) * length, p + v);
    }
    let joint = 2 * h * p;
    match slope == p {
        true => station(joint, 3),
        false => station(joint * (v - slope) + 3 * (slope - p) * length, 3 * (v - p)),
    }
}

/// The turns of the slopes: the joint, or where the inner slope changes, and where the shoulder's slope does.
fn turns_of_slopes(card: &Numbers) -> Vec<Station> {
    let profile = letters(card);
    let [p, q] = [profile.crown_slope, profile.shoulder_slope];
    let v = of(card, SLOPE);
    let is_two_stage = profile.half * (p + v) < 3 * of(card, LENGTH);
    let mut slopes = Vec::new();
    slopes.extend((v > p || is_two_stage).then_some(p));
    slopes.extend((v > q).then_some(q));
    let slopes = slopes.into_iter();
    slopes
        .map(|slope| station_of_slope(card, u64::from(slope)))
        .collect()
}

/// c less m: the widening that leaves the least shoulder.
fn spare_shoulder(card: &Numbers) -> u32 {
    let profile = letters(card);
    profile.shoulder - profile.least_shoulder
}

fn turns(card: &Numbers) -> Vec<Station> {
    let mut turns = turns_of_slopes(card);
    let (spare, widening) = (spare_shoulder(card), of(card, WIDENING));
    if widening > spare {
        let top = u64::from(spare) * u64::from(of(card, LENGTH));
        turns.push(station(top, u64::from(widening)));
    }
    turns
}

/// Any W with which the shoulder is kept at m before L, where the card may have one.
fn keep_the_shoulder(card: &mut Numbers, seeded: &mut Seeded) {
    if of(card, RADIUS) <= GREATEST_WIDENED_RADIUS {
        let widening = seeded.between(spare_shoulder(card) + 1, GREATEST_WIDENING);
        card[WIDENING] = widening.cast_signed();
    }
}

/// The card's length and those past it, rising, as long as they are accepted.
fn lengths(card: &Numbers) -> impl Iterator<Item = u32> {
    let length = of(card, LENGTH);
    length..=GREATEST_LENGTH.min(length + LENGTHS)
}

/// A W with which the shoulder is kept from another turn on, where some length has one.
fn keep_the_shoulder_at_a_turn(card: &mut Numbers, seeded: &mut Seeded) {
    let spare = spare_shoulder(card);
    let chosen = seeded.below(2);
    if of(card, RADIUS) > GREATEST_WIDENED_RADIUS {
        return;
    }
    for length in lengths(card) {
        let mut longer = *card;
        longer[LENGTH] = length.cast_signed();
        let turns = turns_of_slopes(&longer);
        let Some(at) = turns.get(chosen).or(turns.first()) else {
            continue;
        };
        let widening = station(u64::from(spare) * u64::from(length) * at.bottom, at.top);
        if widening.is_whole() && (spare + 1..=GREATEST_WIDENING).contains(&widening.whole()) {
            longer[WIDENING] = widening.whole().cast_signed();
            *card = longer;
            return;
        }
    }
}

/// The next length with which one of the turns stands on a whole mm, if there is one near.
fn put_a_turn_on_a_whole_mm(card: &mut Numbers, seeded: &mut Seeded) {
    let chosen = seeded.below(3);
    for length in lengths(card) {
        let mut longer = *card;
        longer[LENGTH] = length.cast_signed();
        let turns = turns(&longer);
        let at = turns.get(chosen).or(turns.first());
        if at.is_some_and(|at| at.is_whole()) {
            *card = longer;
            return;
        }
    }
}

/// A step that puts a row on one of the turns, or 1 mm or less beside it, if there is one.
pub fn put_a_row_at_a_turn(card: &mut Numbers, seeded: &mut Seeded) {
    let turns = turns(card);
    if turns.is_empty() {
        return;
    }
    let at = seeded.pick(&turns);
    let whole = at.whole();
    let beside = match at.is_whole() {
        true => seeded.pick(&[
            [whole, whole - 1],
            [whole, whole + 1],
            [whole - 1, whole + 1],
        ]),
        false => seeded.pick(&[[whole, whole + 1], [whole + 1, whole]]),
    };
    for station in beside {
        let rows = station.div_ceil(GREATEST_STEP)..=station / LEAST_STEP;
        let rows: Vec<u32> = rows.filter(|&rows| station.is_multiple_of(rows)).collect();
        if !rows.is_empty() {
            // Of two the longer step, so that long tables are not made too often.
            let rows = seeded.pick(&rows).min(seeded.pick(&rows));
            card[STEP] = (station / rows).cast_signed();
            return;
        }
    }
}

#[cfg(test)]
mod tests {
    use super::{turns, with_a_row_at_a_turn};
    use crate::seeded::Seeded;
    use paper::fraction::{fraction, Fraction};
    use paper::section::Greater;
    use paper::walked::{self, Turn};
    use paper::{check_card, Card};

    /// In two stages the inner slope changes at the joint, if at all.
    fn of_the_paper(card: &Card) -> Vec<Fraction> {
        let mut turns = walked::turns(card);
        if turns.iter().any(|(turn, _)| *turn == Turn::Joint) {
            turns.retain(|(turn, _)| *turn != Turn::Change(Greater::InnerSlope));
        }
        turns.into_iter().map(|(_, at)| at).collect()
    }

    /// Rows are put on turns of the paper, or beside them, and the cards are accepted.
    #[test]
    fn turns_are_the_papers() {
        for index in 0..2000 {
            let card = with_a_row_at_a_turn(&mut Seeded::new(1, 1, index));
            assert_eq!(check_card(&card), 0, "{card:?}");
            let there = turns(&card).into_iter();
            let there = there.map(|at| fraction(at.top.into(), at.bottom.into()));
            let due = of_the_paper(&Card::new(&card));
            assert_eq!(there.collect::<Vec<_>>(), due, "{card:?}");
        }
    }
}
