//! What was met among the walks from row to row: how many rows are worked afresh, where the rows stand beside the turns of the runoff,
//! and sorts of walks. A turn is the stage joint, or a station where a rule of the greater changes sides.

use crate::cards::Numbers;
use crate::tally::{add_altered, add_numbers, Altered, CARD_KINDS, CARD_REPLIES, FROM_A_BOOK};
use crate::walk_case::{self, WalkAnswer, WalkCase};
use paper::card::{profile, Datum, Profile};
use paper::fraction::{whole, Fraction};
use paper::section::Greater;
use paper::walked::{first_past, fresh_among, turns, Turn};
use paper::{stations, Card};

/// How many rows are worked afresh: none of a refused card, else 2 to 5.
pub const FRESH: [u32; 5] = [0, 2, 3, 4, 5];

/// Turns by the runoff; in two stages the inner slope changes at the joint, if at all.
pub const TURNS: [&str; 6] = [
    "the joint",
    "the inner slope, even",
    "the shoulder slope, even",
    "the shoulder slope, two-stage",
    "the inner shoulder, even",
    "the inner shoulder, two-stage",
];
/// Where a turn lies beside the rows: on one, 1 mm or less before one, 1 mm or less past one, or elsewhere.
pub const PLACES: [&str; 4] = ["on a row", "just before", "just past", "elsewhere"];
const ELSEWHERE: usize = 3;

/// Steps and counts of rows at their limits.
const LEAST_STEP: u32 = 1000;
const GREATEST_STEP: u32 = 20_000;
const MOST_ROWS: usize = 301;

const P: Turn = Turn::Change(Greater::InnerSlope);
const Q: Turn = Turn::Change(Greater::ShoulderSlope);
const M: Turn = Turn::Change(Greater::InnerShoulder);

/// A turn of the runoff, with the place of the first row past it.
#[derive(Clone, Copy)]
struct Met {
    turn: Turn,
    at: Fraction,
    row: usize,
}

/// An accepted card as its sorts see it.
pub struct Seen {
    card: Card,
    profile: Profile,
    stations: Vec<u32>,
    turns: Vec<Met>,
    fresh: Vec<usize>,
}

impl Seen {
    fn new(numbers: &Numbers) -> Seen {
        let card = Card::new(numbers);
        let (stations, turns) = (stations(&card), turns(&card));
        let fresh = fresh_among(&stations, &turns);
        let met = |(turn, at)| Met {
            turn,
            at,
            row: first_past(&stations, at),
        };
        Seen {
            card,
            profile: profile(card.profile).expect("an accepted card has a profile"),
            turns: turns.into_iter().map(met).collect(),
            fresh,
            stations,
        }
    }

    fn is_two_stage(&self) -> bool {
        self.met(Turn::Joint).is_some()
    }

    fn last(&self) -> usize {
        self.stations.len() - 1
    }

    fn met(&self, turn: Turn) -> Option<Met> {
        self.turns.iter().find(|met| met.turn == turn).copied()
    }

    /// Where a turn lies, of `PLACES`.
    fn place(&self, met: &Met) -> usize {
        let [row, next] = [met.row - 1, met.row].map(|row| whole(self.stations[row]));
        if met.at == row {
            0
        } else if next - met.at <= whole(1) {
            1
        } else if met.at - row <= whole(1) {
            2
        } else {
            ELSEWHERE
        }
    }

    /// Which of `TURNS` it is; the inner slope's own only where the runoff is even.
    fn name(&self, turn: Turn) -> Option<usize> {
        let two_stage = usize::from(self.is_two_stage());
        match turn {
            Turn::Joint => Some(0),
            Turn::Change(Greater::InnerSlope) if two_stage == 1 => None,
            Turn::Change(Greater::InnerSlope) => Some(1),
            Turn::Change(Greater::ShoulderSlope) => Some(2 + two_stage),
            Turn::Change(Greater::InnerShoulder) => Some(4 + two_stage),
        }
    }

    /// Both are met, and this holds of them.
    fn both(&self, one: Turn, other: Turn, is_so: impl Fn(Met, Met) -> bool) -> bool {
        let (one, other) = (self.met(one), self.met(other));
        one.zip(other).is_some_and(|(one, other)| is_so(one, other))
    }

    /// One row is the first past both.
    fn has_one_row(&self, one: Turn, other: Turn) -> bool {
        self.both(one, other, |one, other| one.row == other.row)
    }

    fn has_one_station(&self, one: Turn, other: Turn) -> bool {
        self.both(one, other, |one, other| one.at == other.at)
    }

    fn comes_before(&self, one: Turn, other: Turn) -> bool {
        self.both(one, other, |one, other| one.at < other.at)
    }

    /// The last row is the first past it.
    fn is_last(&self, turn: Turn) -> bool {
        self.met(turn).is_some_and(|met| met.row == self.last())
    }

    /// Turns at two stations, with one row that is the first past both.
    fn has_two_before_one_row(&self) -> bool {
        let apart = |one: &Met, other: &Met| one.row == other.row && one.at != other.at;
        let mut turns = self.turns.iter();
        turns.any(|one| self.turns.iter().any(|other| apart(one, other)))
    }

    /// Two rows one after the other are worked afresh, neither of them the first or the last.
    fn has_a_row_alone(&self) -> bool {
        let within = &self.fresh[1..self.fresh.len() - 1];
        within.windows(2).any(|rows| rows[0] + 1 == rows[1])
    }

    fn is_between_p_and_q(&self) -> bool {
        let between = self.profile.crown_slope + 1..self.profile.shoulder_slope;
        between.contains(&self.card.full_slope)
    }

    fn spare_shoulder(&self) -> u32 {
        self.profile.shoulder - self.profile.least_shoulder
    }

    /// Of an absolute card.
    fn grade(&self) -> Option<i32> {
        match self.card.datum {
            Datum::Relative => None,
            Datum::Absolute { grade, .. } => Some(grade),
        }
    }

    /// Some row is made from the one before it, past a turn.
    fn walks_past_a_turn(&self) -> bool {
        let mut rows = self.turns.iter().map(|met| met.row + 1);
        rows.any(|row| row < self.last() && !self.fresh.contains(&row))
    }
}

/// Whether a walk is of a sort.
type IsOfSort = fn(&Seen) -> bool;

/// Sorts of walks; a walk can be of more than one. By their letters p stands for the station where the inner slope changes sides, q for
/// that where the shoulder slope does, m for that where the inner shoulder does.
pub const SORTS: [(&str, IsOfSort); 47] = [
    ("nothing that turns", |walk| walk.turns.is_empty()),
    ("v = p, even", |walk| {
        walk.card.full_slope == walk.profile.crown_slope && !walk.is_two_stage()
    }),
    ("v = p, two-stage", |walk| {
        walk.card.full_slope == walk.profile.crown_slope && walk.is_two_stage()
    }),
    ("v between p and q, even", |walk| {
        walk.is_between_p_and_q() && !walk.is_two_stage()
    }),
    ("v between p and q, two-stage", |walk| {
        walk.is_between_p_and_q() && walk.is_two_stage()
    }),
    ("v = q, even", |walk| {
        walk.card.full_slope == walk.profile.shoulder_slope && !walk.is_two_stage()
    }),
    ("v = q, two-stage", |walk| {
        walk.card.full_slope == walk.profile.shoulder_slope && walk.is_two_stage()
    }),
    ("W c - m", |walk| {
        walk.card.full_widening == walk.spare_shoulder()
    }),
    ("W one above c - m", |walk| {
        walk.card.full_widening == walk.spare_shoulder() + 1
    }),
    ("one row past p and q, even", |walk| walk.has_one_row(P, Q)),
    ("one row past p and m, even", |walk| {
        walk.has_one_row(P, M) && !walk.is_two_stage()
    }),
    ("one row past p, q and m, even", |walk| {
        walk.has_one_row(P, Q) && walk.has_one_row(Q, M)
    }),
    ("one row past the joint and m", |walk| {
        walk.has_one_row(Turn::Joint, M)
    }),
    ("one row past q and m, even", |walk| {
        walk.has_one_row(Q, M) && !walk.is_two_stage()
    }),
    ("one row past q and m, two-stage", |walk| {
        walk.has_one_row(Q, M) && walk.is_two_stage()
    }),
    ("one row past two stations", Seen::has_two_before_one_row),
    ("last the first past p, even", |walk| {
        walk.is_last(P) && !walk.is_two_stage()
    }),
    ("last the first past the joint", |walk| {
        walk.is_last(Turn::Joint)
    }),
    ("last the first past q, even", |walk| {
        walk.is_last(Q) && !walk.is_two_stage()
    }),
    ("last the first past q, two-stage", |walk| {
        walk.is_last(Q) && walk.is_two_stage()
    }),
    ("last the first past m, even", |walk| {
        walk.is_last(M) && !walk.is_two_stage()
    }),
    ("last the first past m, two-stage", |walk| {
        walk.is_last(M) && walk.is_two_stage()
    }),
    ("last the first past two", |walk| {
        let last = walk.turns.iter().filter(|met| met.row == walk.last());
        let counted = last.filter(|met| walk.name(met.turn).is_some());
        counted.count() > 1
    }),
    ("m at p, even", |walk| {
        walk.has_one_station(P, M) && !walk.is_two_stage()
    }),
    ("m at the joint", |walk| {
        walk.has_one_station(Turn::Joint, M)
    }),
    ("m at q", |walk| walk.has_one_station(Q, M)),
    ("m before p, even", |walk| {
        walk.comes_before(M, P) && !walk.is_two_stage()
    }),
    ("m between p and q, even", |walk| {
        walk.comes_before(P, M) && walk.comes_before(M, Q) && !walk.is_two_stage()
    }),
    ("m past q, even", |walk| {
        walk.comes_before(Q, M) && !walk.is_two_stage()
    }),
    ("m before the joint", |walk| {
        walk.comes_before(M, Turn::Joint)
    }),
    ("m between the joint and q", |walk| {
        walk.comes_before(Turn::Joint, M) && walk.comes_before(M, Q)
    }),
    ("m past q, two-stage", |walk| {
        walk.comes_before(Q, M) && walk.is_two_stage()
    }),
    ("a row alone between two turns", Seen::has_a_row_alone),
    ("the second row worked afresh", |walk| {
        walk.fresh.contains(&1)
    }),
    ("the last two worked afresh", |walk| {
        walk.fresh.contains(&(walk.last() - 1))
    }),
    ("every row worked afresh", |walk| {
        walk.fresh.len() == walk.stations.len()
    }),
    ("a last step whole", |walk| {
        walk.card.length.is_multiple_of(walk.card.step)
    }),
    ("a last step cut", |walk| {
        !walk.card.length.is_multiple_of(walk.card.step)
    }),
    ("a last step of 1 mm", |walk| {
        walk.card.length % walk.card.step == 1
    }),
    ("a last step 1 mm short", |walk| {
        walk.card.length % walk.card.step == walk.card.step - 1
    }),
    ("step 1000", |walk| walk.card.step == LEAST_STEP),
    ("step 20000", |walk| walk.card.step == GREATEST_STEP),
    ("301 rows", |walk| walk.stations.len() == MOST_ROWS),
    ("relative, walked past a turn", |walk| {
        walk.grade().is_none() && walk.walks_past_a_turn()
    }),
    ("absolute, level past a turn", |walk| {
        walk.grade() == Some(0) && walk.walks_past_a_turn()
    }),
    ("absolute, climbing past a turn", |walk| {
        walk.grade().is_some_and(|grade| grade > 0) && walk.walks_past_a_turn()
    }),
    ("absolute, falling past a turn", |walk| {
        walk.grade().is_some_and(|grade| grade < 0) && walk.walks_past_a_turn()
    }),
];

pub struct WalkTally {
    /// By the kind of the card, and by how many rows are worked afresh.
    pub fresh: [[u64; FRESH.len()]; CARD_KINDS],
    /// Of each of the turns where it lies, the cards from books left out.
    pub turns: [[u64; PLACES.len()]; TURNS.len()],
    /// Accepted cards with a turn on a row, or 1 mm or less beside one, the cards from books left out.
    pub beside: u64,
    pub sorts: [u64; SORTS.len()],
    /// Walks in which the library or the paper gave a number that is not among the replies.
    pub unlisted: u64,
    pub rows: u64,
    pub numbers: u64,
    pub altered: [Altered; walk_case::ALTERATIONS.len()],
}

impl Default for WalkTally {
    fn default() -> WalkTally {
        WalkTally {
            fresh: [[0; FRESH.len()]; CARD_KINDS],
            turns: [[0; PLACES.len()]; TURNS.len()],
            beside: 0,
            sorts: [0; SORTS.len()],
            unlisted: 0,
            rows: 0,
            numbers: 0,
            altered: [Altered::default(); walk_case::ALTERATIONS.len()],
        }
    }
}

/// Whether the library or the paper gave a number, or a count of rows worked afresh, that is not among those that a card may get.
fn has_unlisted_reply(case: &WalkCase) -> bool {
    let is_listed = |answer: &WalkAnswer| {
        CARD_REPLIES.contains(&answer.reply) && FRESH.contains(&answer.fresh.numbers()[0])
    };
    !is_listed(&case.due) || !is_listed(&case.came)
}

impl WalkTally {
    pub fn count(&mut self, kind: usize, case: &WalkCase) {
        self.unlisted += u64::from(has_unlisted_reply(case));
        let fresh = case.due.fresh.numbers()[0];
        if let Some(met) = FRESH.iter().position(|&n| n == fresh) {
            self.fresh[kind][met] += 1;
        }
        self.rows += u64::from(case.due.count.numbers()[0]);
        self.numbers += case.due.numbers_compared();
        if case.due.reply == 0 && kind != FROM_A_BOOK {
            self.count_accepted(&Seen::new(&case.card));
        }
    }

    fn count_accepted(&mut self, seen: &Seen) {
        let mut is_beside = false;
        for met in &seen.turns {
            let place = seen.place(met);
            is_beside |= place != ELSEWHERE;
            if let Some(name) = seen.name(met.turn) {
                self.turns[name][place] += 1;
            }
        }
        self.beside += u64::from(is_beside);
        let sorts = SORTS.map(|(_, is_of_sort)| u64::from(is_of_sort(seen)));
        add_numbers(&mut self.sorts, &sorts);
    }

    pub fn add(&mut self, other: &WalkTally) {
        for kind in 0..CARD_KINDS {
            add_numbers(&mut self.fresh[kind], &other.fresh[kind]);
        }
        for turn in 0..TURNS.len() {
            add_numbers(&mut self.turns[turn], &other.turns[turn]);
        }
        add_numbers(&mut self.sorts, &other.sorts);
        add_altered(&mut self.altered, &other.altered);
        self.beside += other.beside;
        self.unlisted += other.unlisted;
        self.rows += other.rows;
        self.numbers += other.numbers;
    }

    /// How often so many rows worked afresh were met, the cards from books left out.
    pub fn fresh(&self, fresh: usize) -> u64 {
        self.fresh[..FROM_A_BOOK]
            .iter()
            .map(|kind| kind[fresh])
            .sum()
    }
}

#[cfg(test)]
mod tests {
    use super::{Met, Seen, WalkTally, PLACES, SORTS, TURNS};
    use crate::card_case;
    use crate::cards::Numbers;
    use crate::seeded::Seeded;
    use crate::walk_case::{library, run, WalkCase};
    use paper::card::{absolute, relative};
    use paper::check_card;

    /// Even: p at 40000 and q at 60000; the shoulder is kept from 66666 2/3 on.
    const BEND: [i32; 8] = [2, 1, 200, 80_000, 60, 1200, 20_000, 1];
    /// Two-stage: the joint at 40000, and v is q.
    const FLAT: [i32; 8] = [3, 1, 700, 120_000, 50, 400, 20_000, 10];
    /// Two-stage: the joint at 50000, and q at 100000.
    const LONG: [i32; 8] = [1, 1, 200, 150_000, 60, 0, 10_000, 1];
    /// Even, and nothing changes sides: v is p, and W is c less m.
    const CROWN: [i32; 8] = [4, 1, 30, 60_000, 30, 1000, 20_000, 1];

    const LENGTH: usize = 3;
    const SLOPE: usize = 4;
    const WIDENING: usize = 5;
    const STEP: usize = 6;

    fn with(mut eight: [i32; 8], changed: &[(usize, i32)]) -> [i32; 8] {
        for &(place, number) in changed {
            eight[place] = number;
        }
        eight
    }

    fn seen(card: Numbers) -> Seen {
        assert_eq!(check_card(&card), 0);
        Seen::new(&card)
    }

    /// The sorts of the walk, one after another.
    fn sorts_of(card: Numbers) -> String {
        let seen = seen(card);
        let met = SORTS.iter().filter(|(_, is_of_sort)| is_of_sort(&seen));
        let names: Vec<_> = met.map(|(name, _)| *name).collect();
        names.join("; ")
    }

    fn sorts(eight: [i32; 8], changed: &[(usize, i32)]) -> String {
        sorts_of(relative(with(eight, changed)))
    }

    /// The turns with their places, one after another.
    fn places(eight: [i32; 8], changed: &[(usize, i32)]) -> String {
        let seen = seen(relative(with(eight, changed)));
        let named = |met: &Met| {
            let turn = TURNS[seen.name(met.turn)?];
            Some(format!("{turn}: {}", PLACES[seen.place(met)]))
        };
        let names: Vec<_> = seen.turns.iter().filter_map(named).collect();
        names.join("; ")
    }

    #[test]
    fn places_of_turns() {
        let bend = |inner, slope, shoulder| {
            format!(
                "the inner slope, even: {inner}; the shoulder slope, even: {slope}; \
                 the inner shoulder, even: {shoulder}"
            )
        };
        let far = "elsewhere";
        assert_eq!(places(BEND, &[]), bend("on a row", "on a row", far));
        // 40002 and 66670.
        assert_eq!(places(BEND, &[(STEP, 13_334)]), bend(far, far, far));
        // 39999, then 60001, then 66666.
        assert_eq!(places(BEND, &[(STEP, 13_333)]), bend("just past", far, far));
        assert_eq!(places(BEND, &[(STEP, 2069)]), bend(far, "just before", far));
        assert_eq!(places(BEND, &[(STEP, 11_111)]), bend(far, far, "just past"));
        assert_eq!(places(CROWN, &[]), "");
        assert_eq!(places(FLAT, &[]), "the joint: on a row");
        assert_eq!(places(FLAT, &[(STEP, 13_333)]), "the joint: just past");
        let between = [2, 1, 200, 120_000, 30, 0, 2029, 1];
        assert_eq!(places(between, &[]), "the joint: just before");
        let long = "the joint: on a row; the shoulder slope, two-stage: on a row; \
                    the inner shoulder, two-stage: elsewhere";
        assert_eq!(places(LONG, &[(WIDENING, 3500)]), long);
    }

    #[test]
    fn sorts_of_even_roads() {
        let bend = "one row past q and m, even; one row past two stations; \
                    last the first past q, even; last the first past m, even; \
                    last the first past two; m past q, even; the last two worked afresh; \
                    a last step whole; step 20000";
        assert_eq!(sorts(BEND, &[]), bend);
        // The shoulder is kept from 40000 on.
        let at_p = "one row past p and m, even; last the first past q, even; m at p, even; \
                    the last two worked afresh; a last step whole; step 20000";
        assert_eq!(sorts(BEND, &[(WIDENING, 2000)]), at_p);
        // From 50000 on; past 40000 there are rows at 54000, 72000 and 80000.
        let between = "one row past p and m, even; one row past two stations; \
                       m between p and q, even; a row alone between two turns; \
                       the last two worked afresh; a last step cut";
        assert_eq!(sorts(BEND, &[(WIDENING, 1600), (STEP, 18_000)]), between);
        // From 28571.4 on; past it there are rows at 32000, 48000, 64000 and 80000.
        let before = "m before p, even; a row alone between two turns; \
                      the last two worked afresh; a last step whole";
        assert_eq!(sorts(BEND, &[(WIDENING, 2800), (STEP, 16_000)]), before);
        let touching = "W c - m; a last step whole; step 1000; relative, walked past a turn";
        assert_eq!(sorts(BEND, &[(WIDENING, 1000), (STEP, 1000)]), touching);
        // p at 25000, the shoulder kept from 31250 on, q at 37500; rows at 19000 and 38000.
        let all = "one row past p and q, even; one row past p and m, even; \
                   one row past p, q and m, even; one row past q and m, even; \
                   one row past two stations; m between p and q, even; \
                   the last two worked afresh; a last step cut";
        assert_eq!(sorts([2, 1, 100, 50_000, 60, 1600, 19_000, 1], &[]), all);
        // RAMP with all the widening there is: rows at 0, 20000 and 30000.
        let ramp = "v = q, even; last the first past p, even; m before p, even; \
                    the second row worked afresh; the last two worked afresh; \
                    every row worked afresh; a last step cut; step 20000";
        assert_eq!(sorts([5, 1, 30, 30_000, 60, 3500, 20_000, 1], &[]), ramp);
        let below_q = "v between p and q, even; the last two worked afresh; a last step whole";
        assert_eq!(sorts([3, 1, 60, 40_000, 40, 0, 8000, 10], &[]), below_q);
    }

    #[test]
    fn sorts_of_roads_where_nothing_turns() {
        let crown = "nothing that turns; v = p, even; W c - m; a last step whole; step 20000";
        assert_eq!(sorts(CROWN, &[]), crown);
        let shorter = "nothing that turns; v = p, even; W c - m; a last step cut; \
                       a last step 1 mm short; step 20000";
        assert_eq!(sorts(CROWN, &[(LENGTH, 59_999)]), shorter);
        // The joint at 60000.
        let longer = "v = p, two-stage; W c - m; last the first past the joint; \
                      a last step cut; a last step of 1 mm; step 20000";
        assert_eq!(sorts(CROWN, &[(LENGTH, 60_001)]), longer);
    }

    #[test]
    fn sorts_of_two_stage_roads() {
        let walked = "a last step whole; step 20000; relative, walked past a turn";
        let flat = |first: &str| format!("{first}; {walked}");
        assert_eq!(sorts(FLAT, &[]), flat("v = q, two-stage"));
        let below_q = sorts(FLAT, &[(SLOPE, 40)]);
        assert_eq!(below_q, flat("v between p and q, two-stage"));
        assert_eq!(sorts(FLAT, &[(SLOPE, 20)]), flat("v = p, two-stage"));
        // The shoulder is kept from 119880.1 on, and from the joint on.
        let late = "v = q, two-stage; W one above c - m; last the first past m, two-stage";
        assert_eq!(sorts(FLAT, &[(WIDENING, 1001)]), flat(late));
        let at_joint = "v = q, two-stage; one row past the joint and m; m at the joint";
        assert_eq!(sorts(FLAT, &[(WIDENING, 3000)]), flat(at_joint));
        // From 34285.7 on.
        let before = "v = q, two-stage; m before the joint; a row alone between two turns";
        assert_eq!(sorts(FLAT, &[(WIDENING, 3500)]), flat(before));
        // The joint at 45000, rows at 45000 and 45751.
        let short = "v between p and q, two-stage; last the first past the joint; a last step cut";
        assert_eq!(sorts([5, 1, 80, 45_751, 31, 0, 15_000, 1], &[]), short);
    }

    #[test]
    fn sorts_of_two_stage_roads_past_q() {
        let walked = "a last step whole; relative, walked past a turn";
        let long = |first: &str| format!("{first}; {walked}");
        assert_eq!(sorts(LONG, &[]), walked);
        // The shoulder is kept from 100000 on, from 96428.6 on, from 146739.1 on.
        let at_q = "one row past q and m, two-stage; m at q";
        assert_eq!(sorts(LONG, &[(WIDENING, 3375)]), long(at_q));
        let between = "m between the joint and q; a row alone between two turns";
        assert_eq!(sorts(LONG, &[(WIDENING, 3500)]), long(between));
        let late = "last the first past m, two-stage; m past q, two-stage";
        assert_eq!(sorts(LONG, &[(WIDENING, 2300)]), long(late));
        // q at 145238.1, rows at 140000 and 150000.
        let low = "last the first past q, two-stage; a last step cut; step 20000; \
                   relative, walked past a turn";
        assert_eq!(sorts(LONG, &[(SLOPE, 41), (STEP, 20_000)]), low);
        let longest = "a last step whole; step 1000; 301 rows; relative, walked past a turn";
        assert_eq!(sorts(LONG, &[(LENGTH, 300_000), (STEP, 1000)]), longest);
    }

    #[test]
    fn sorts_of_absolute_cards() {
        let of = |grade| sorts_of(absolute(FLAT, -100_000, grade));
        let flat = |past: &str| format!("v = q, two-stage; a last step whole; step 20000; {past}");
        assert_eq!(of(0), flat("absolute, level past a turn"));
        assert_eq!(of(80), flat("absolute, climbing past a turn"));
        assert_eq!(of(-1), flat("absolute, falling past a turn"));
    }

    /// How many walks are counted as unlisted when this is done to the answers for a card.
    fn unlisted(alter: fn(&mut WalkCase)) -> u64 {
        let mut seeded = Seeded::new(1, 1, 1);
        let filled = card_case::run(relative(BEND), card_case::library, &mut seeded);
        let mut case = run(&filled, library, &mut seeded);
        alter(&mut case);
        let mut tally = WalkTally::default();
        tally.count(0, &case);
        tally.unlisted
    }

    #[test]
    fn what_no_card_may_get_is_counted_wherever_it_comes_from() {
        assert_eq!(unlisted(|_| ()), 0);
        assert_eq!(unlisted(|case| case.due.reply = 7), 1);
        assert_eq!(unlisted(|case| case.came.reply = 7), 1);
        assert_eq!(unlisted(|case| case.came.reply = 8), 0);
        assert_eq!(unlisted(|case| case.due.fresh.numbers_mut()[0] = 6), 1);
        assert_eq!(unlisted(|case| case.came.fresh.numbers_mut()[0] = 1), 1);
        assert_eq!(unlisted(|case| case.came.fresh.numbers_mut()[0] = 5), 0);
    }
}
