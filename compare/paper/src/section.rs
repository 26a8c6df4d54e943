//! Lines of the cross-section of an accepted runoff, at any station.
//!
//! A length in mm times a slope in ‰ is a height in micrometres.

use crate::card::{self, Card, Datum, Profile};
use crate::fraction::{fraction, whole, Fraction};

/// A runoff is either even or two-stage; the joint is where the first stage ends.
#[derive(Clone, Copy, Debug, PartialEq, Eq)]
pub enum Course {
    Even,
    TwoStage { joint: Fraction },
}

/// The rules that take the greater of two.
#[derive(Clone, Copy, Debug, PartialEq, Eq)]
pub enum Greater {
    /// "The inner slope is the greater of p and the outer slope."
    InnerSlope,
    /// Of the inner shoulder: "Its slope is the greater of q and the inner slope."
    ShoulderSlope,
    /// Document 02, Slip 1: "From now on the inner shoulder is the greater of m and c less the widening."
    InnerShoulder,
}

/// The paper's letters for one accepted card.
#[derive(Clone, Copy, Debug)]
pub struct Runoff {
    h: Fraction,
    c: Fraction,
    p: Fraction,
    q: Fraction,
    m: Fraction,
    v: Fraction,
    length: Fraction,
    full_widening: Fraction,
    datum: Datum,
    pub course: Course,
}

impl Runoff {
    /// The runoff of a card with a known profile; the other numbers are taken as accepted.
    pub fn new(card: &Card) -> Runoff {
        let profile = card::profile(card.profile).expect("an accepted card has a profile");
        Runoff {
            h: whole(profile.half),
            c: whole(profile.shoulder),
            p: whole(profile.crown_slope),
            q: whole(profile.shoulder_slope),
            m: whole(profile.least_shoulder),
            v: whole(card.full_slope),
            length: whole(card.length),
            full_widening: whole(card.full_widening),
            datum: card.datum,
            course: course(&profile, card),
        }
    }

    /// The axis stays at c × q + h × p. Of an absolute card it "stands at that height plus grade times station",
    /// and every other line is told from it, so that they "keep their distance from the axis" (document 02, Slip 5).
    pub fn axis(&self, station: Fraction) -> Fraction {
        match self.datum {
            Datum::Relative => self.c * self.q + self.h * self.p,
            Datum::Absolute { height, grade } => {
                whole(1000) * whole(height) + whole(grade) * station
            }
        }
    }

    /// The stations, rising, between which the outer slope goes in a straight line: 0, the joint where there is one, L.
    pub fn stage_ends(&self) -> Vec<Fraction> {
        match self.course {
            Course::Even => vec![whole(0), self.length],
            Course::TwoStage { joint } => vec![whole(0), joint, self.length],
        }
    }

    /// The two of which a rule takes the greater, as the paper names them.
    pub fn sides(&self, rule: Greater, station: Fraction) -> [Fraction; 2] {
        match rule {
            Greater::InnerSlope => [self.p, self.outer_slope(station)],
            Greater::ShoulderSlope => [self.q, self.inner_slope(station)],
            Greater::InnerShoulder => [self.m, self.c - self.widening(station)],
        }
    }

    fn greater(&self, rule: Greater, station: Fraction) -> Fraction {
        let [one, other] = self.sides(rule, station);
        one.max(other)
    }

    pub fn outer_slope(&self, station: Fraction) -> Fraction {
        match self.course {
            Course::Even => -self.p + (self.p + self.v) * station / self.length,
            Course::TwoStage { joint } if station <= joint => self.first_stage(station),
            Course::TwoStage { joint } => self.second_stage(station, joint),
        }
    }

    /// The outer edge climbs at 3‰, so the slope is its height over the axis by h.
    fn first_stage(&self, station: Fraction) -> Fraction {
        -self.p + whole(3) * station / self.h
    }

    /// From p at the joint in a straight line to v at L.
    fn second_stage(&self, station: Fraction, joint: Fraction) -> Fraction {
        self.p + (self.v - self.p) * ((station - joint) / (self.length - joint))
    }

    pub fn outer_edge(&self, station: Fraction) -> Fraction {
        self.axis(station) + self.h * self.outer_slope(station)
    }

    pub fn outer_brow(&self, station: Fraction) -> Fraction {
        self.outer_edge(station) + self.c * self.outer_slope(station)
    }

    pub fn inner_slope(&self, station: Fraction) -> Fraction {
        self.greater(Greater::InnerSlope, station)
    }

    /// In mm, all on the inner side.
    pub fn widening(&self, station: Fraction) -> Fraction {
        self.full_widening * station / self.length
    }

    pub fn inner_edge(&self, station: Fraction) -> Fraction {
        self.axis(station) - (self.h + self.widening(station)) * self.inner_slope(station)
    }

    pub fn inner_shoulder(&self, station: Fraction) -> Fraction {
        self.greater(Greater::InnerShoulder, station)
    }

    pub fn inner_brow(&self, station: Fraction) -> Fraction {
        let slope = self.greater(Greater::ShoulderSlope, station);
        self.inner_edge(station) - self.inner_shoulder(station) * slope
    }

    /// The heights in the order of a row: inner brow; inner edge; axis; outer edge; outer brow.
    pub fn lines(&self, station: Fraction) -> [Fraction; 5] {
        [
            self.inner_brow(station),
            self.inner_edge(station),
            self.axis(station),
            self.outer_edge(station),
            self.outer_brow(station),
        ]
    }
}

/// Even when h × (p + v) is at least 3 × L, else two-stage with the joint at 2 × h × p / 3.
fn course(profile: &Profile, card: &Card) -> Course {
    let climb = profile.half * (profile.crown_slope + card.full_slope);
    if climb >= 3 * card.length {
        return Course::Even;
    }
    let joint = fraction(i128::from(2 * profile.half * profile.crown_slope), 3);
    Course::TwoStage { joint }
}
