//! One radius handed to the library, and all that it may touch compared with what is due.

use crate::card_case::{unlike_number, wrong_number};
use crate::lent::{Lent, Unlike};
use crate::seeded::Seeded;
use paper::card::{least_length, radii_looked_at, GREATEST_RADIUS};
use std::hint::black_box;

/// The papers leave the length free below 30 and above 2000: the header names the first and the last listed one.
const FIRST_LENGTH: u32 = 30;
const LAST_LENGTH: u32 = 100;
/// They leave free, too, how many listed radii are looked at above 2000: the header names all of them.
const ALL_LISTED: u32 = 20;

/// Writes how many listed radii it looked at, and gives the least length in metres.
/// The guards are within its reach, so that a wrong program can write beside the number.
pub type Call = fn(u32, &mut Lent<u32>) -> u32;

/// The library's call.
pub fn library(radius: u32, looked: &mut Lent<u32>) -> u32 {
    calls::least_length(radius, &mut looked.numbers_mut()[0])
}

/// All that the call answers and all that it could touch.
#[derive(Clone, PartialEq)]
pub struct RadiusAnswer {
    pub length: u32,
    pub looked: Lent<u32>,
}

pub struct RadiusCase {
    pub radius: u32,
    pub due: RadiusAnswer,
    pub came: RadiusAnswer,
}

/// Hands one radius to the paper's rules and to the call.
pub fn run(radius: u32, call: Call, seeded: &mut Seeded) -> RadiusCase {
    let before = RadiusAnswer {
        length: 0,
        looked: Lent::filled(1, seeded),
    };
    let mut came = before.clone();
    let mut due = before;
    due.length = length_due(radius);
    due.looked.numbers_mut()[0] = radii_looked_at(radius).unwrap_or(ALL_LISTED);
    came.looked.numbers_mut()[0] = wrong_number(due.looked.numbers()[0], seeded);
    came.length = call(radius, &mut came.looked);
    // The buffer is looked at anew: nothing is held to be as it was before the call.
    black_box(&mut came);
    RadiusCase { radius, due, came }
}

/// In metres: the paper's where it promises one, else the one that the header names.
fn length_due(radius: u32) -> u32 {
    match least_length(radius) {
        Some(mm) => mm / 1000,
        None if radius > GREATEST_RADIUS => LAST_LENGTH,
        None => FIRST_LENGTH,
    }
}

impl RadiusAnswer {
    /// Every place where what came is not what is due.
    pub fn unlike(&self, came: &RadiusAnswer) -> Vec<Unlike> {
        let mut unlike = Vec::new();
        unlike.extend(unlike_number("length", self.length, came.length));
        unlike.extend(self.looked.unlike(&came.looked, "looked"));
        unlike
    }

    pub fn numbers_compared(&self) -> u64 {
        1 + self.looked.size()
    }
}

type Alter = fn(&mut RadiusAnswer, &mut Seeded) -> bool;

/// Alterations by one number, in turn.
pub const ALTERATIONS: [(&str, Alter); 4] = [
    ("length", |answer, _| {
        answer.length += 1;
        true
    }),
    ("looked", |answer, seeded| {
        answer.looked.alter(answer.looked.places(0..1), seeded)
    }),
    ("guard before looked", |answer, seeded| {
        answer.looked.alter(answer.looked.guards_before(), seeded)
    }),
    ("guard after looked", |answer, seeded| {
        answer.looked.alter(answer.looked.guards_after(), seeded)
    }),
];
