//! Document 02, Slip 8: "Walk from row to row." Which rows of a card's table are worked afresh, and how many these are.
//!
//! "working afresh only at the first row, at the last, at the first row past the stage joint and at the first row past each
//! station where a greater-of rule changes sides." Past is strictly past.

use crate::card::{Card, Numbers};
use crate::fraction::{whole, Fraction};
use crate::rows::{fill_table, stations};
use crate::section::{Course, Greater, Runoff};
use std::cmp::Ordering;

/// The slope of the inner shoulder has the inner slope on one side, so that it comes after it.
const RULES: [Greater; 3] = [
    Greater::InnerSlope,
    Greater::ShoulderSlope,
    Greater::InnerShoulder,
];

/// What makes the first row past a station one that is worked afresh.
#[derive(Clone, Copy, Debug, PartialEq, Eq)]
pub enum Turn {
    Joint,
    Change(Greater),
}

/// What the call that walks answers, besides the table.
#[derive(Clone, Copy, Debug, PartialEq, Eq)]
pub struct WalkReply {
    pub number: u32,
    pub count: u32,
    /// How many rows were worked afresh.
    pub fresh: u32,
}

/// A station, and by how much one side of a rule is above the other there.
type Ahead = (Fraction, Fraction);
/// A station, and whether the one side is the greater there, the other, or neither.
type Mark = (Fraction, Ordering);

fn mark((station, ahead): Ahead) -> Mark {
    (station, ahead.cmp(&whole(0)))
}

/// Where both sides are equal between two stations, at each of which another is the greater; both go in a straight line.
fn equal_between(from: Ahead, to: Ahead) -> Option<Mark> {
    let [one, other] = [mark(from).1, mark(to).1];
    let size = |ahead: Fraction| ahead.max(-ahead);
    let share = || size(from.1) / (size(from.1) + size(to.1));
    let at = || (from.0 + (to.0 - from.0) * share()).in_lowest_terms();
    (one.is_ne() && other == one.reverse()).then(|| (at(), Ordering::Equal))
}

/// The stations where a rule changes sides: just before such a station the one is the greater, just after it the other. A
/// rule that only touches does not change sides. Between two neighbours among the bends both go in a straight line.
fn changes(runoff: &Runoff, rule: Greater, bends: &[Fraction]) -> Vec<Fraction> {
    let ahead = |&at: &Fraction| {
        let [one, other] = runoff.sides(rule, at);
        (at, one - other)
    };
    let ahead: Vec<Ahead> = bends.iter().map(ahead).collect();
    let mut marks = vec![mark(ahead[0])];
    for pair in ahead.windows(2) {
        marks.extend(equal_between(pair[0], pair[1]));
        marks.push(mark(pair[1]));
    }
    // Were both equal along a stretch that ends before L, the rule might change sides at no one station.
    let is_equal_along = |pair: &[Mark]| pair[0].1.is_eq() && pair[1].1.is_eq();
    let mut earlier = marks[..marks.len() - 1].windows(2);
    assert!(!earlier.any(is_equal_along), "equal along a stretch");
    let is_change = |three: &&[Mark]| {
        let [before, at, after] = [three[0].1, three[1].1, three[2].1];
        at.is_eq() && before.is_ne() && after == before.reverse()
    };
    let changes = marks.windows(3).filter(is_change);
    changes.map(|three| three[1].0).collect()
}

/// The stage joint and the changes of sides of an accepted card, each with its station.
pub fn turns(card: &Card) -> Vec<(Turn, Fraction)> {
    let runoff = Runoff::new(card);
    let mut turns = match runoff.course {
        Course::Even => Vec::new(),
        Course::TwoStage { joint } => vec![(Turn::Joint, joint)],
    };
    let mut bends = runoff.stage_ends();
    for rule in RULES {
        let changes = changes(&runoff, rule, &bends);
        turns.extend(changes.iter().map(|&at| (Turn::Change(rule), at)));
        bends.extend(changes);
        bends.sort();
        bends.dedup();
    }
    turns
}

/// The place, from 0, of the first row past a station; there is one past any below L.
pub fn first_past(stations: &[u32], at: Fraction) -> usize {
    stations.partition_point(|&station| whole(station) <= at)
}

/// The places, from 0, of the rows that are worked afresh where rows stand so and the road turns so, "each of these once and no
/// other".
pub fn fresh_among(stations: &[u32], turns: &[(Turn, Fraction)]) -> Vec<usize> {
    let mut rows = vec![0, stations.len() - 1];
    rows.extend(turns.iter().map(|(_, at)| first_past(stations, *at)));
    rows.sort();
    rows.dedup();
    rows
}

/// The same of an accepted card.
pub fn fresh_rows(card: &Card) -> Vec<usize> {
    fresh_among(&stations(card), &turns(card))
}

/// Number, count and table as the call that fills tables has them, and how many rows are worked afresh, "nought on a refusal".
pub fn walk_table(numbers: &Numbers, table: &mut [i32]) -> WalkReply {
    let reply = fill_table(numbers, table);
    let fresh = match reply.number {
        0 => fresh_rows(&Card::new(numbers)).len(),
        _ => 0,
    };
    WalkReply {
        number: reply.number,
        count: reply.count,
        fresh: u32::try_from(fresh).expect("a count of rows fits"),
    }
}
