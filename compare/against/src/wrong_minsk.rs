//! Wrong programs for the handbook's check and its table: the comparison must find each of them.

use crate::card_case::{Call, Loan};
use crate::cards::{Numbers, MARK, PROFILE, RADIUS, SLOPE, UNIT};
use crate::found::all_are_found;
use crate::minsk_case::ROW;
use crate::work::minsk;
use crate::DEFAULT;
use paper::card::{added_slope, check_curve, check_datum, check_rows, first_met, profile, Datum};
use paper::fraction::Tie::{self, Higher, Lower};
use paper::fraction::{fraction, whole, Fraction};
use paper::minsk::{road_of, Road};
use paper::rows::tie;
use paper::{check_card, check_minsk_card, fill_minsk_table, minsk_rows, stations, Card};

/// A wrong program must be found among so many of the first cards of the default run.
const FIRST_CARDS: u64 = 10_000;
/// The place of the widening in a row; the seven lines follow.
const WIDENING: usize = 1;

fn right(loan: &mut Loan) -> [u32; 2] {
    right_for(loan.card, loan)
}

/// The right program, for another card.
fn right_for(card: &Numbers, loan: &mut Loan) -> [u32; 2] {
    let reply = fill_minsk_table(card, loan.table);
    *loan.count = reply.count;
    [check_minsk_card(card), reply.number]
}

/// Reads an accepted card with this done to its numbers.
fn with_card(loan: &mut Loan, change: fn(&mut Numbers)) -> [u32; 2] {
    let mut card = *loan.card;
    change(&mut card);
    match check_minsk_card(loan.card) {
        0 => right_for(&card, loan),
        _ => right(loan),
    }
}

/// A station of an accepted card: all that a line may be put together from.
#[derive(Clone, Copy)]
struct At {
    card: Card,
    road: Road,
    /// In mm.
    station: Fraction,
}

impl At {
    fn h(&self) -> Fraction {
        whole(self.road.half)
    }

    fn length(&self) -> Fraction {
        whole(self.card.length)
    }

    fn v(&self) -> Fraction {
        whole(self.card.full_slope)
    }

    fn full_widening(&self) -> Fraction {
        whole(self.card.full_widening)
    }

    fn strip(&self) -> Fraction {
        whole(self.road.strip)
    }

    fn shoulder(&self) -> Fraction {
        whole(self.road.shoulder)
    }

    fn least_shoulder(&self) -> Fraction {
        whole(self.road.least_shoulder)
    }

    /// L × R over so many metres, in mm.
    fn place_of(&self, radius: i128) -> Fraction {
        let length_by_radius = i128::from(self.card.length) * i128::from(self.card.radius);
        fraction(length_by_radius, radius)
    }

    /// Of the first stage, if the edge climbs so.
    fn stage_length(&self, climb: i128) -> Fraction {
        fraction(i128::from(40 * self.road.half), climb)
    }

    /// Crowned, then at that climb to the place where the stage ends, then straight to full slope at the end.
    fn slope_by(&self, h: Fraction, climb: i128, end: Fraction) -> Fraction {
        if self.station <= end {
            let in_stage = whole(20) + whole(climb) * (self.station - end) / h;
            return in_stage.max(whole(-20));
        }
        let share = (self.station - end) / (self.length() - end);
        whole(20) + (self.v() - whole(20)) * share
    }

    /// The share of the growth that begins and ends there.
    fn share_of(&self, start: Fraction, end: Fraction) -> Fraction {
        let share = (self.station - start) / (end - start);
        share.max(whole(0)).min(whole(1))
    }
}

/// What the lines of a row are put together from: slopes in ‰, lengths in mm, heights in micrometres.
struct Rules {
    axis: fn(&At) -> Fraction,
    outer_slope: fn(&At) -> Fraction,
    /// From the outer slope.
    outer_strip_slope: fn(&At, Fraction) -> Fraction,
    outer_shoulder_slope: fn(&At, Fraction) -> Fraction,
    inner_slope: fn(&At, Fraction) -> Fraction,
    widening: fn(&At) -> Fraction,
    /// From the inner slope.
    inner_strip_slope: fn(&At, Fraction) -> Fraction,
    inner_shoulder_slope: fn(&At, Fraction) -> Fraction,
    /// With its strip, from the widening.
    inner_shoulder: fn(&At, Fraction) -> Fraction,
    /// Where the inner carriageway's edge is, from the widening.
    inner_half: fn(&At, Fraction) -> Fraction,
    /// Of the number at that place in a row.
    tie: fn(&At, usize) -> Tie,
}

/// The handbook's, in other forms than the paper's crate has them.
const RIGHT: Rules = Rules {
    axis: |at| match at.card.datum {
        Datum::Relative => whole(0),
        Datum::Absolute { height, grade } => {
            whole(1000) * whole(height) + whole(grade) * at.station
        }
    },
    outer_slope: |at| at.slope_by(at.h(), 5, at.place_of(2000)),
    outer_strip_slope: |_, outer| outer,
    outer_shoulder_slope: |_, outer| outer,
    inner_slope: |_, outer| outer.max(whole(20)),
    widening: |at| {
        let full = at.place_of(500);
        at.full_widening() * at.share_of(full - whole(20_000), full)
    },
    inner_strip_slope: |_, inner| inner,
    inner_shoulder_slope: |_, inner| inner.max(whole(40)),
    inner_shoulder: |at, widening| (at.shoulder() - widening).max(at.least_shoulder()),
    inner_half: |at, widening| at.h() + widening,
    tie: |at, _| tie(at.card.unit),
};

/// In lowest terms, so that no sum outgrows its numbers.
fn low(fraction: Fraction) -> Fraction {
    fraction.in_lowest_terms()
}

impl Rules {
    /// Widening, in micrometres too, then the seven lines.
    fn eight(&self, at: &At) -> [Fraction; 8] {
        let outer = low((self.outer_slope)(at));
        let inner = low((self.inner_slope)(at, outer));
        let widening = low((self.widening)(at));
        let shoulder = (self.inner_shoulder)(at, widening);
        let axis = (self.axis)(at);
        let outer_edge = at.h() * outer;
        let outer_strip = outer_edge + at.strip() * (self.outer_strip_slope)(at, outer);
        let beyond = at.shoulder() - at.strip();
        let outer_brow = outer_strip + beyond * (self.outer_shoulder_slope)(at, outer);
        let inner_edge = low((self.inner_half)(at, widening) * inner);
        let inner_strip = low(inner_edge + at.strip() * (self.inner_strip_slope)(at, inner));
        let beyond = low(shoulder - at.strip());
        let inner_brow = inner_strip + beyond * (self.inner_shoulder_slope)(at, inner);
        let above = [outer_edge, outer_strip, outer_brow].map(|line| axis + low(line));
        let below = [inner_edge, inner_strip, inner_brow].map(|line| axis - low(line));
        let [edge, strip, brow] = above;
        let [inner_edge, inner_strip, inner_brow] = below;
        let widening = whole(1000) * widening;
        [
            widening,
            axis,
            edge,
            strip,
            brow,
            inner_edge,
            inner_strip,
            inner_brow,
        ]
    }
}

/// The right program, but for the eight rounded numbers of each row.
fn ruled(loan: &mut Loan, rules: &Rules) -> [u32; 2] {
    let numbers = right(loan);
    if numbers[1] != 0 {
        return numbers;
    }
    let card = Card::new(loan.card);
    let road = road_of(card.profile).expect("an accepted card has a road");
    let unit = whole(1000 * card.unit);
    let rows = loan.table.chunks_exact_mut(ROW);
    for (station, row) in stations(&card).into_iter().zip(rows) {
        let station = whole(station);
        let at = At {
            card,
            road,
            station,
        };
        let eight = rules.eight(&at).map(|line| line / unit);
        for (place, exact) in (WIDENING..).zip(eight) {
            row[place] = exact.nearest((rules.tie)(&at, place));
        }
    }
    numbers
}

/// The right program, but for what is changed in its rules.
fn ruled_by(loan: &mut Loan, change: fn(&mut Rules)) -> [u32; 2] {
    let mut rules = RIGHT;
    change(&mut rules);
    ruled(loan, &rules)
}

/// The right program, and then this done to each row.
fn with_rows(loan: &mut Loan, change: fn(&Card, &mut [i32])) -> [u32; 2] {
    let numbers = right(loan);
    if numbers[1] == 0 {
        let card = Card::new(loan.card);
        let rows = loan.table.chunks_exact_mut(ROW).take(*loan.count as usize);
        rows.for_each(|row| change(&card, row));
    }
    numbers
}

/// Wrong as to the first and the second stage.
const WRONG_STAGES: [(&str, Call); 16] = [
    ("the first stage at 3‰", |loan| {
        ruled_by(loan, |rules| {
            rules.outer_slope = |at| at.slope_by(at.h(), 3, at.place_of(2000));
        })
    }),
    ("the first stage at 10‰", |loan| {
        ruled_by(loan, |rules| {
            rules.outer_slope = |at| at.slope_by(at.h(), 10, at.place_of(2000));
        })
    }),
    ("the slope itself climbs by 5‰ a metre", |loan| {
        ruled_by(loan, |rules| {
            rules.outer_slope = |at| at.slope_by(whole(1000), 5, at.place_of(2000));
        })
    }),
    ("the first stage by 503-0-45's half carriageway", |loan| {
        ruled_by(loan, |rules| {
            rules.outer_slope = |at| {
                let half = profile(at.card.profile).map_or(0, |profile| profile.half);
                at.slope_by(whole(half), 5, at.place_of(2000))
            };
        })
    }),
    ("the first stage ends at L × R / 1000", |loan| {
        ruled_by(loan, |rules| {
            rules.outer_slope = |at| {
                let end = at.place_of(1000).min(at.length() - whole(1));
                at.slope_by(at.h(), 5, end)
            };
        })
    }),
    ("the first stage starts at L × R / 2000", |loan| {
        ruled_by(loan, |rules| {
            rules.outer_slope = |at| {
                let end = at.place_of(2000) + at.stage_length(5);
                at.slope_by(at.h(), 5, end.min(at.length() - whole(1)))
            };
        })
    }),
    ("the first stage from station 0", |loan| {
        ruled_by(loan, |rules| {
            rules.outer_slope = |at| at.slope_by(at.h(), 5, at.stage_length(5));
        })
    }),
    ("the road crowned up to L × R / 2000", |loan| {
        ruled_by(loan, |rules| {
            rules.outer_slope = |at| match at.station < at.place_of(2000) {
                true => whole(-20),
                false => at.slope_by(at.h(), 5, at.place_of(2000)),
            };
        })
    }),
    ("level before the first stage", |loan| {
        ruled_by(loan, |rules| {
            rules.outer_slope = |at| {
                let start = at.place_of(2000) - at.stage_length(5);
                match at.station < start {
                    true => whole(0),
                    false => at.slope_by(at.h(), 5, at.place_of(2000)),
                }
            };
        })
    }),
    ("the joint to a whole mm", |loan| {
        ruled_by(loan, |rules| {
            rules.outer_slope = |at| {
                let end = at.place_of(2000).nearest(Lower);
                at.slope_by(at.h(), 5, whole(end))
            };
        })
    }),
    ("the joint to a whole metre", |loan| {
        ruled_by(loan, |rules| {
            rules.outer_slope = |at| {
                let end = (at.place_of(2000) / whole(1000)).nearest(Lower);
                at.slope_by(at.h(), 5, whole(1000 * end))
            };
        })
    }),
    ("rows in the first stage by the second", |loan| {
        ruled_by(loan, |rules| {
            rules.outer_slope = |at| {
                let end = at.place_of(2000);
                let share = (at.station - end) / (at.length() - end);
                let second = whole(20) + (at.v() - whole(20)) * share;
                match at.station <= end - at.stage_length(5) {
                    true => whole(-20),
                    false => second,
                }
            };
        })
    }),
    ("one stage from -20 to v", |loan| {
        ruled_by(loan, |rules| {
            rules.outer_slope = |at| {
                let start = at.place_of(2000) - at.stage_length(5);
                let share = (at.station - start) / (at.length() - start);
                whole(-20) + (at.v() + whole(20)) * share.max(whole(0))
            };
        })
    }),
    ("the second stage goes on at 5‰", |loan| {
        ruled_by(loan, |rules| {
            rules.outer_slope = |at| {
                let past = whole(5) * (at.station - at.place_of(2000)) / at.h();
                (whole(20) + past).max(whole(-20)).min(at.v())
            };
        })
    }),
    ("the second stage's share of the whole clothoid", |loan| {
        ruled_by(loan, |rules| {
            rules.outer_slope = |at| match at.station <= at.place_of(2000) {
                true => at.slope_by(at.h(), 5, at.place_of(2000)),
                false => {
                    let share = (at.station - at.place_of(2000)) / at.length();
                    whole(20) + (at.v() - whole(20)) * share
                }
            };
        })
    }),
    ("II as wide as III", |loan| {
        with_card(loan, |card| card[PROFILE] = card[PROFILE].max(2))
    }),
];

/// Wrong as to the widening.
const WRONG_WIDENINGS: [(&str, Call); 12] = [
    ("the widening starts at L × R / 500", |loan| {
        ruled_by(loan, |rules| {
            rules.widening = |at| {
                let start = at.place_of(500);
                at.full_widening() * at.share_of(start, start + whole(20_000))
            };
        })
    }),
    ("the widening over 10 m", |loan| {
        ruled_by(loan, |rules| {
            rules.widening = |at| {
                let full = at.place_of(500);
                at.full_widening() * at.share_of(full - whole(10_000), full)
            };
        })
    }),
    ("from 20 m before over 10 m", |loan| {
        ruled_by(loan, |rules| {
            rules.widening = |at| {
                let start = at.place_of(500) - whole(20_000);
                at.full_widening() * at.share_of(start, start + whole(10_000))
            };
        })
    }),
    ("the widening about L × R / 500", |loan| {
        ruled_by(loan, |rules| {
            rules.widening = |at| {
                let middle = at.place_of(500);
                at.full_widening() * at.share_of(middle - whole(10_000), middle + whole(10_000))
            };
        })
    }),
    ("W × d / L", |loan| {
        ruled_by(loan, |rules| {
            rules.widening = |at| at.full_widening() * at.station / at.length();
        })
    }),
    ("the widening grows on to L", |loan| {
        ruled_by(loan, |rules| {
            rules.widening = |at| {
                let start = at.place_of(500) - whole(20_000);
                at.full_widening() * at.share_of(start, at.length())
            };
        })
    }),
    ("the last 20 m of the clothoid widen", |loan| {
        ruled_by(loan, |rules| {
            rules.widening = |at| {
                let start = at.length() - whole(20_000);
                at.full_widening() * at.share_of(start, at.length())
            };
        })
    }),
    ("W at once", |loan| {
        ruled_by(loan, |rules| {
            rules.widening = |at| match at.station < at.place_of(500) - whole(20_000) {
                true => whole(0),
                false => at.full_widening(),
            };
        })
    }),
    ("no W past L × R / 500", |loan| {
        ruled_by(loan, |rules| {
            rules.widening = |at| match at.station > at.place_of(500) {
                true => whole(0),
                false => (RIGHT.widening)(at),
            };
        })
    }),
    ("below nought before it starts", |loan| {
        ruled_by(loan, |rules| {
            rules.widening = |at| {
                let start = at.place_of(500) - whole(20_000);
                let share = (at.station - start) / whole(20_000);
                at.full_widening() * share.min(whole(1))
            };
        })
    }),
    ("the widening outward, and not inward", |loan| {
        ruled_by(loan, |rules| {
            rules.inner_half = |at, _| at.h();
        })
    }),
    ("half of it inward", |loan| {
        ruled_by(loan, |rules| {
            rules.inner_half = |at, widening| at.h() + widening / whole(2);
        })
    }),
];

/// Wrong as to strips and shoulders.
const WRONG_SHOULDERS: [(&str, Call); 18] = [
    ("the inner strip at 40‰", |loan| {
        ruled_by(loan, |rules| {
            rules.inner_strip_slope = |_, inner| inner.max(whole(40));
        })
    }),
    ("the inner strip at 20‰", |loan| {
        ruled_by(loan, |rules| {
            rules.inner_strip_slope = |_, _| whole(20);
        })
    }),
    ("the outer strip at 40‰", |loan| {
        ruled_by(loan, |rules| {
            rules.outer_strip_slope = |_, outer| outer.max(whole(40));
        })
    }),
    ("the outer shoulder at 40‰", |loan| {
        ruled_by(loan, |rules| {
            rules.outer_shoulder_slope = |_, _| whole(-40);
        })
    }),
    ("the outer shoulder at 40‰ while crowned", |loan| {
        ruled_by(loan, |rules| {
            rules.outer_shoulder_slope = |_, outer| match outer < whole(0) {
                true => outer.min(whole(-40)),
                false => outer,
            };
        })
    }),
    ("the outer strip crowned until the joint", |loan| {
        ruled_by(loan, |rules| {
            rules.outer_strip_slope = |at, outer| match at.station < at.place_of(2000) {
                true => whole(-20),
                false => outer,
            };
        })
    }),
    ("the inner shoulder at 40‰ always", |loan| {
        ruled_by(loan, |rules| {
            rules.inner_shoulder_slope = |_, _| whole(40);
        })
    }),
    ("the inner shoulder at the inner slope always", |loan| {
        ruled_by(loan, |rules| {
            rules.inner_shoulder_slope = |_, inner| inner;
        })
    }),
    ("the inner shoulder of IV at 50‰", |loan| {
        ruled_by(loan, |rules| {
            rules.inner_shoulder_slope = |at, inner| {
                let slope = profile(at.card.profile).map_or(0, |profile| profile.shoulder_slope);
                inner.max(whole(slope))
            };
        })
    }),
    ("the inner slope turns from the start", |loan| {
        ruled_by(loan, |rules| {
            rules.inner_slope = |_, outer| outer;
        })
    }),
    ("the inner slope 20‰ always", |loan| {
        ruled_by(loan, |rules| {
            rules.inner_slope = |_, _| whole(20);
        })
    }),
    ("the least without the strip", |loan| {
        ruled_by(loan, |rules| {
            rules.inner_shoulder = |at, widening| {
                let beyond = at.shoulder() - at.strip() - widening;
                at.strip() + beyond.max(at.least_shoulder())
            };
        })
    }),
    ("the shoulder not kept", |loan| {
        ruled_by(loan, |rules| {
            rules.inner_shoulder = |at, widening| at.shoulder() - widening;
        })
    }),
    ("the shoulder kept at its strip", |loan| {
        ruled_by(loan, |rules| {
            rules.inner_shoulder = |at, widening| (at.shoulder() - widening).max(at.strip());
        })
    }),
    ("1000 kept for III", |loan| {
        ruled_by(loan, |rules| {
            rules.inner_shoulder = |at, widening| {
                let least = if at.card.profile == 1 { 1500 } else { 1000 };
                (at.shoulder() - widening).max(whole(least))
            };
        })
    }),
    ("1500 kept for IV", |loan| {
        ruled_by(loan, |rules| {
            rules.inner_shoulder = |at, widening| (at.shoulder() - widening).max(whole(1500));
        })
    }),
    ("the shoulder not narrowed", |loan| {
        ruled_by(loan, |rules| {
            rules.inner_shoulder = |at, _| at.shoulder();
        })
    }),
    ("the strip added to the shoulder", |loan| {
        ruled_by(loan, |rules| {
            rules.inner_shoulder = |at, widening| (RIGHT.inner_shoulder)(at, widening) + at.strip();
        })
    }),
];

/// Where halfway does not go.
fn other(tie: Tie) -> Tie {
    match tie {
        Lower => Higher,
        Higher => Lower,
    }
}

/// The axis of an absolute card, with this height and this climb in micrometres; of a relative one 0.
fn axis_of(at: &At, axis: impl Fn(Fraction, Fraction) -> Fraction) -> Fraction {
    match at.card.datum {
        Datum::Relative => whole(0),
        Datum::Absolute { height, grade } => {
            axis(whole(1000) * whole(height), whole(grade) * at.station)
        }
    }
}

/// Wrong as to the axis, to rounding and to the places in a row.
const WRONG_ROWS: [(&str, Call); 18] = [
    ("the axis of 503-0-45 added", |loan| {
        ruled_by(loan, |rules| {
            rules.axis = |at| {
                let profile = profile(at.card.profile).expect("a profile");
                let crown = profile.half * profile.crown_slope;
                (RIGHT.axis)(at) + whole(profile.shoulder * profile.shoulder_slope + crown)
            };
        })
    }),
    ("the grade lost", |loan| {
        ruled_by(loan, |rules| {
            rules.axis = |at| axis_of(at, |height, _| height);
        })
    }),
    ("the height lost", |loan| {
        ruled_by(loan, |rules| {
            rules.axis = |at| axis_of(at, |_, climb| climb);
        })
    }),
    ("the grade's sign lost", |loan| {
        ruled_by(loan, |rules| {
            rules.axis = |at| axis_of(at, |height, climb| height + climb.max(-climb));
        })
    }),
    ("every card relative", |loan| {
        ruled_by(loan, |rules| {
            rules.axis = |_| whole(0);
        })
    }),
    ("the grade from the first stage on", |loan| {
        ruled_by(loan, |rules| {
            rules.axis = |at| {
                let start = at.place_of(2000) - at.stage_length(5);
                axis_of(at, |height, climb| match at.station < start {
                    true => height,
                    false => height + climb,
                })
            };
        })
    }),
    ("the axis rounded apart", |loan| {
        let numbers = right(loan);
        if numbers[1] == 0 {
            let mut relative = *loan.card;
            relative[MARK] = 0;
            let places = loan.table.chunks_exact_mut(ROW);
            for (row, place) in minsk_rows(&relative).into_iter().zip(places) {
                let [_, _, axis, lines @ ..] = place else {
                    continue;
                };
                let moved = row[3..].iter().map(|line| *axis + line);
                lines
                    .iter_mut()
                    .zip(moved)
                    .for_each(|(line, sum)| *line = sum);
            }
        }
        numbers
    }),
    ("halfway to the lower number", |loan| {
        ruled_by(loan, |rules| {
            rules.tie = |_, _| Lower;
        })
    }),
    ("halfway to the higher number", |loan| {
        ruled_by(loan, |rules| {
            rules.tie = |_, _| Higher;
        })
    }),
    ("the units exchanged", |loan| {
        ruled_by(loan, |rules| {
            rules.tie = |at, _| other(tie(at.card.unit));
        })
    }),
    ("columns in the order of 503-0-45", |loan| {
        with_rows(loan, |_, row| {
            let [station, widening, axis, edge, strip, brow, inner_edge, inner_strip, inner_brow] =
                <[i32; ROW]>::try_from(&*row).expect("nine numbers");
            let old = [inner_brow, inner_strip, inner_edge, axis, edge, strip, brow];
            row.copy_from_slice(&[&[station, widening], &old[..]].concat());
        })
    }),
    ("the inner side before the outer", |loan| {
        with_rows(loan, |_, row| row[3..].rotate_left(3))
    }),
    ("the brow before the strip edge", |loan| {
        with_rows(loan, |_, row| {
            row.swap(4, 5);
            row.swap(7, 8);
        })
    }),
    ("the axis last", |loan| {
        with_rows(loan, |_, row| row[2..].rotate_left(1))
    }),
    ("the station in units", |loan| {
        with_rows(loan, |card, row| row[0] /= card.unit.cast_signed())
    }),
    ("the widening in mm", |loan| {
        with_rows(loan, |card, row| row[1] *= card.unit.cast_signed())
    }),
    ("heights in mm", |loan| {
        with_rows(loan, |card, row| {
            row[2..]
                .iter_mut()
                .for_each(|n| *n *= card.unit.cast_signed());
        })
    }),
    ("the sides exchanged", |loan| {
        with_rows(loan, |_, row| {
            let (outer, inner) = row[3..].split_at_mut(3);
            outer.swap_with_slice(inner);
        })
    }),
];

/// Halfway goes where it does not go, at that place in every row.
fn halfway_wrong_at<const PLACE: usize>(loan: &mut Loan) -> [u32; 2] {
    ruled_by(loan, |rules| {
        rules.tie = |at, place| match place == PLACE {
            true => other(tie(at.card.unit)),
            false => tie(at.card.unit),
        };
    })
}

/// Halfway is wrong in one number of a row alone, in either unit.
const WRONG_HALVES: [(&str, Call); 8] = [
    ("the widening", halfway_wrong_at::<WIDENING>),
    ("the axis", halfway_wrong_at::<2>),
    ("the outer edge", halfway_wrong_at::<3>),
    ("the outer strip edge", halfway_wrong_at::<4>),
    ("the outer brow", halfway_wrong_at::<5>),
    ("the inner edge", halfway_wrong_at::<6>),
    ("the inner strip edge", halfway_wrong_at::<7>),
    ("the inner brow", halfway_wrong_at::<8>),
];

/// One of the reasons, or 0.
type Reason = fn(&Card) -> u32;

/// That reason where it applies, else 0.
fn reason_if(applies: bool, reason: u32) -> u32 {
    if applies {
        reason
    } else {
        0
    }
}

/// 36, 37, 38 and 8, in the words of whole numbers.
fn method(card: &Card) -> u32 {
    let is_other = card.full_slope == 20 || card.radius == 2000 || card.profile > 3;
    reason_if(is_other, 36)
}

fn half(card: &Card) -> u64 {
    road_of(card.profile).map_or(3000, |road| u64::from(road.half))
}

fn length_by_radius(card: &Card) -> u64 {
    u64::from(card.length) * u64::from(card.radius)
}

fn first_stage(card: &Card) -> u32 {
    reason_if(16_000 * half(card) > length_by_radius(card), 37)
}

fn widening_place(card: &Card) -> u32 {
    let no_place = card.radius > 500 || !length_by_radius(card).is_multiple_of(500);
    reason_if(card.full_widening > 0 && no_place, 38)
}

fn added(card: &Card) -> u64 {
    let profile = profile(card.profile).expect("a profile");
    u64::from(added_slope(&profile, card.terrain).expect("a terrain"))
}

/// 8 where that climb, in micrometres, is above what that length, in two-thousandths of a mm, allows.
fn too_steep(card: &Card, climb: u64, length: u64) -> u32 {
    reason_if(2000 * climb > added(card) * length, 8)
}

fn second_stage(card: &Card) -> u64 {
    u64::from(card.length) * u64::from(2000 - card.radius.min(2000))
}

fn climb(card: &Card) -> u64 {
    half(card) * u64::from(card.full_slope - 20)
}

fn steepness(card: &Card) -> u32 {
    too_steep(card, climb(card), second_stage(card))
}

/// The order that is due.
const REASONS: [Reason; 7] = [
    check_curve,
    method,
    first_stage,
    widening_place,
    steepness,
    check_rows,
    check_datum,
];

/// The right program, but for the reasons; a card that it alone accepts gets no more than a count.
fn reasoned(loan: &mut Loan, reasons: &[Reason]) -> [u32; 2] {
    let card = Card::new(loan.card);
    let reason = first_met(&card, reasons);
    *loan.count = 0;
    if reason > 0 {
        return [reason, reason];
    }
    let rows = stations(&card).len();
    if loan.table.len() < ROW * rows {
        return [0, 11];
    }
    match check_minsk_card(loan.card) {
        0 => right(loan),
        _ => {
            *loan.count = rows as u32;
            [0, 0]
        }
    }
}

/// The right program, but for one of the reasons.
fn reasoned_by(loan: &mut Loan, place: usize, reason: Reason) -> [u32; 2] {
    let mut reasons = REASONS;
    reasons[place] = reason;
    reasoned(loan, &reasons)
}

/// The places of the reasons.
const METHOD: usize = 1;
const FIRST_STAGE: usize = 2;
const WIDENING_PLACE: usize = 3;
const STEEPNESS: usize = 4;

/// Wrong as to 36, 37, 38 and 8.
const WRONG_REASONS: [(&str, Call); 27] = [
    ("R 2000 passes", |loan| {
        reasoned_by(loan, METHOD, |card| {
            let is_other = card.full_slope == 20 || card.profile > 3;
            reason_if(is_other, 36)
        })
    }),
    ("R 1999 refused", |loan| {
        reasoned_by(loan, METHOD, |card| match card.radius {
            1999 => 36,
            _ => method(card),
        })
    }),
    ("full slope 20 passes", |loan| {
        reasoned_by(loan, METHOD, |card| {
            let is_other = card.radius == 2000 || card.profile > 3;
            reason_if(is_other, 36)
        })
    }),
    ("full slope 21 refused", |loan| {
        reasoned_by(loan, METHOD, |card| match card.full_slope {
            21 => 36,
            _ => method(card),
        })
    }),
    ("profile 4 passes", |loan| {
        reasoned_by(loan, METHOD, |card| match card.profile {
            4 => method(&Card {
                profile: 3,
                ..*card
            }),
            _ => method(card),
        })
    }),
    ("profile 5 passes", |loan| {
        reasoned_by(loan, METHOD, |card| match card.profile {
            5 => method(&Card {
                profile: 3,
                ..*card
            }),
            _ => method(card),
        })
    }),
    ("profile 3 refused", |loan| {
        reasoned_by(loan, METHOD, |card| match card.profile {
            3 => 36,
            _ => method(card),
        })
    }),
    ("5 from 20‰ on for profiles 4 and 5", |loan| {
        reasoned(loan, &{
            let mut reasons = REASONS;
            reasons[0] = |card| match (card.profile, check_curve(card)) {
                (4 | 5, 5) if (20..30).contains(&card.full_slope) => 0,
                (_, reason) => reason,
            };
            reasons
        })
    }),
    ("37 by 503-0-45's half carriageway", |loan| {
        reasoned_by(loan, FIRST_STAGE, |card| {
            let half = profile(card.profile).map_or(0, |profile| u64::from(profile.half));
            reason_if(16_000 * half > length_by_radius(card), 37)
        })
    }),
    ("37 for a first stage just as long", |loan| {
        reasoned_by(loan, FIRST_STAGE, |card| {
            reason_if(16_000 * half(card) >= length_by_radius(card), 37)
        })
    }),
    ("37 by whole mm", |loan| {
        reasoned_by(loan, FIRST_STAGE, |card| {
            let end = length_by_radius(card).div_ceil(2000);
            reason_if(8 * half(card) > end, 37)
        })
    }),
    ("37 against the clothoid", |loan| {
        reasoned_by(loan, FIRST_STAGE, |card| {
            reason_if(8 * half(card) > u64::from(card.length), 37)
        })
    }),
    ("37 against L × R / 1000", |loan| {
        reasoned_by(loan, FIRST_STAGE, |card| {
            reason_if(8000 * half(card) > length_by_radius(card), 37)
        })
    }),
    ("37 by a first stage at 3‰", |loan| {
        reasoned_by(loan, FIRST_STAGE, |card| {
            reason_if(80_000 * half(card) > 3 * length_by_radius(card), 37)
        })
    }),
    ("a first stage that is too long begins at 0", |loan| {
        reasoned_by(loan, FIRST_STAGE, |_| 0)
    }),
    ("R 500 refused", |loan| {
        reasoned_by(loan, WIDENING_PLACE, |card| {
            let no_place = card.radius >= 500 || !length_by_radius(card).is_multiple_of(500);
            reason_if(card.full_widening > 0 && no_place, 38)
        })
    }),
    ("R 501 passes", |loan| {
        reasoned_by(loan, WIDENING_PLACE, |card| match card.radius {
            501 => 0,
            _ => widening_place(card),
        })
    }),
    ("a widening with R up to 1000", |loan| {
        reasoned_by(loan, WIDENING_PLACE, |card| {
            let no_place = !length_by_radius(card).is_multiple_of(500);
            reason_if(card.full_widening > 0 && no_place, 38)
        })
    }),
    ("38 without widening too", |loan| {
        reasoned_by(loan, WIDENING_PLACE, |card| {
            widening_place(&Card {
                full_widening: 1,
                ..*card
            })
        })
    }),
    ("a place at parts of a mm passes", |loan| {
        reasoned_by(loan, WIDENING_PLACE, |card| {
            reason_if(card.full_widening > 0 && card.radius > 500, 38)
        })
    }),
    ("a whole number of metres wanted", |loan| {
        reasoned_by(loan, WIDENING_PLACE, |card| {
            let no_place = card.radius > 500 || !length_by_radius(card).is_multiple_of(500_000);
            reason_if(card.full_widening > 0 && no_place, 38)
        })
    }),
    ("L × R / 2000 wanted whole", |loan| {
        reasoned_by(loan, WIDENING_PLACE, |card| {
            let no_place = card.radius > 500 || !length_by_radius(card).is_multiple_of(2000);
            reason_if(card.full_widening > 0 && no_place, 38)
        })
    }),
    ("W 1 passes anywhere", |loan| {
        reasoned_by(loan, WIDENING_PLACE, |card| match card.full_widening {
            1 => 0,
            _ => widening_place(card),
        })
    }),
    ("8 by the old words", |loan| {
        reasoned_by(loan, STEEPNESS, |card| {
            let climb = half(card) * u64::from(20 + card.full_slope);
            too_steep(card, climb, 2000 * u64::from(card.length))
        })
    }),
    ("8 by 503-0-45's half carriageway", |loan| {
        reasoned_by(loan, STEEPNESS, |card| {
            let half = profile(card.profile).map_or(0, |profile| u64::from(profile.half));
            let climb = half * u64::from(card.full_slope - 20);
            too_steep(card, climb, second_stage(card))
        })
    }),
    ("8 for a slope just as steep", |loan| {
        reasoned_by(loan, STEEPNESS, |card| {
            reason_if(2000 * climb(card) >= added(card) * second_stage(card), 8)
        })
    }),
    ("8 by 5‰ on every road", |loan| {
        reasoned_by(loan, STEEPNESS, |card| {
            reason_if(2000 * climb(card) > 5 * second_stage(card), 8)
        })
    }),
];

/// The reasons that are due, with two that stand at these places exchanged.
fn exchanged(loan: &mut Loan, one: usize, other: usize) -> [u32; 2] {
    let mut reasons = REASONS;
    reasons.swap(one, other);
    reasoned(loan, &reasons)
}

/// Wrong as to the order of the reasons, to 11 and to what a refusal leaves.
const WRONG_ORDER: [(&str, Call); 17] = [
    ("37 before 36", |loan| exchanged(loan, METHOD, FIRST_STAGE)),
    ("38 before 37", |loan| {
        exchanged(loan, FIRST_STAGE, WIDENING_PLACE)
    }),
    ("38 before 36", |loan| {
        let [curve, method, first, place, steep, rows, datum] = REASONS;
        reasoned(loan, &[curve, place, method, first, steep, rows, datum])
    }),
    ("8 before 36", |loan| {
        let [curve, method, first, place, steep, rows, datum] = REASONS;
        reasoned(loan, &[curve, steep, method, first, place, rows, datum])
    }),
    ("9 and 10 before 8", |loan| exchanged(loan, STEEPNESS, 5)),
    ("34 and 35 before 9 and 10", |loan| {
        let [curve, method, first, place, steep, rows, datum] = REASONS;
        let datum_first: Reason = match loan.card[UNIT] {
            1 | 10 => datum,
            _ => |_| 0,
        };
        reasoned(
            loan,
            &[curve, method, first, place, steep, datum_first, rows, datum],
        )
    }),
    ("36 before 6", |loan| {
        let is_so = loan.card[RADIUS] == 2000 || loan.card[SLOPE] == 20;
        match right(loan) {
            [6, 6] if is_so => [36, 36],
            numbers => numbers,
        }
    }),
    ("36 before 5", |loan| match right(loan) {
        [5, 5] if loan.card[PROFILE] > 3 => [36, 36],
        numbers => numbers,
    }),
    ("503-0-45's own reasons", |loan| {
        let numbers = right(loan);
        match check_card(loan.card) {
            0 => numbers,
            reason => [reason, reason],
        }
    }),
    ("neither 34 nor 35", |loan| reasoned(loan, &REASONS[..6])),
    ("seven numbers a row for 11", |loan| {
        let (card, length) = (Card::new(loan.card), loan.table.len());
        match right(loan) {
            [0, 11] if length >= 7 * stations(&card).len() => {
                *loan.count = stations(&card).len() as u32;
                [0, 0]
            }
            numbers => numbers,
        }
    }),
    ("one row more wanted for 11", |loan| {
        let length = loan.table.len().saturating_sub(ROW);
        let table = std::mem::take(&mut loan.table);
        loan.table = &mut table[..length];
        right(loan)
    }),
    ("11 by the check", |loan| match right(loan) {
        [0, 11] => [11, 11],
        numbers => numbers,
    }),
    ("2107 numbers enough for every card", |loan| {
        let (card, length) = (Card::new(loan.card), loan.table.len());
        match right(loan) {
            [0, 11] if length >= 2107 => {
                *loan.count = stations(&card).len() as u32;
                [0, 0]
            }
            numbers => numbers,
        }
    }),
    ("the table begun despite 38", |loan| {
        let numbers = right(loan);
        if numbers[1] == 38 && !loan.table.is_empty() {
            loan.table[0] = 0;
        }
        numbers
    }),
    ("the count kept with 37", |loan| {
        let before = *loan.count;
        let numbers = right(loan);
        if numbers[1] == 37 {
            *loan.count = before;
        }
        numbers
    }),
    ("numbers counted, and not rows", |loan| {
        let numbers = right(loan);
        *loan.count *= ROW as u32;
        numbers
    }),
];

/// The same rules in other forms.
const OTHER_FORMS: [(&str, Call); 3] = [
    ("each stage by its own line", |loan| {
        ruled_by(loan, |rules| {
            rules.outer_slope = |at| {
                let past = at.station - at.place_of(2000);
                let first = whole(20) + whole(5) * past / at.h();
                let share = past / (at.length() - at.place_of(2000));
                let second = whole(20) + (at.v() - whole(20)) * share;
                match past > whole(0) {
                    true => second,
                    false => first.max(whole(-20)),
                }
            };
        })
    }),
    ("the widening less what is to come of it", |loan| {
        ruled_by(loan, |rules| {
            rules.widening = |at| {
                let to_go = (at.place_of(500) - at.station).max(whole(0));
                let share = to_go.min(whole(20_000)) / whole(20_000);
                at.full_widening() - at.full_widening() * share
            };
        })
    }),
    ("the shoulder less what it can give", |loan| {
        ruled_by(loan, |rules| {
            rules.inner_shoulder = |at, widening| {
                let spare = at.shoulder() - at.least_shoulder();
                at.shoulder() - widening.min(spare)
            };
        })
    }),
];

/// The first card for which the program differs from the paper.
fn first_difference(program: Call) -> Option<u64> {
    (0..FIRST_CARDS).find(|&index| {
        let (_, case) = minsk(DEFAULT.seed, index, program);
        !case.due.unlike(&case.came).is_empty()
    })
}

/// Without this, a comparison that always differs would find every wrong program.
#[test]
fn right_programs_do_not_differ() {
    assert_eq!(first_difference(right), None);
    assert_eq!(first_difference(|loan| ruled(loan, &RIGHT)), None);
    assert_eq!(first_difference(|loan| reasoned(loan, &REASONS)), None);
    assert_eq!(first_difference(|loan| with_rows(loan, |_, _| ())), None);
}

#[test]
fn other_right_programs_do_not_differ() {
    for (name, program) in OTHER_FORMS {
        assert_eq!(first_difference(program), None, "{name}");
    }
}

#[test]
fn wrong_stages_are_found() {
    all_are_found(first_difference, &WRONG_STAGES);
}

#[test]
fn wrong_widenings_are_found() {
    all_are_found(first_difference, &WRONG_WIDENINGS);
}

#[test]
fn wrong_shoulders_are_found() {
    all_are_found(first_difference, &WRONG_SHOULDERS);
}

#[test]
fn wrong_rows_are_found() {
    all_are_found(first_difference, &WRONG_ROWS);
}

#[test]
fn wrong_halves_are_found() {
    all_are_found(first_difference, &WRONG_HALVES);
}

#[test]
fn wrong_reasons_are_found() {
    all_are_found(first_difference, &WRONG_REASONS);
}

#[test]
fn wrong_order_is_found() {
    all_are_found(first_difference, &WRONG_ORDER);
}
