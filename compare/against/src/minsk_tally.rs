//! What was met among the cards for the handbook's method: their replies, and sorts of them by what is lent and what is due.

use crate::card_case::{self, CardAnswer, CardCase, CLASSES};
use crate::cards::{Numbers, HEIGHT, MARK};
use crate::minsk_cards;
use crate::minsk_case::ROW;
use crate::seen_card::{self, Exact, CM, MM};
use crate::tally::{add_altered, add_numbers, Altered};
use paper::card::{GREATEST_GRADE, GREATEST_HEIGHT, GREATEST_LENGTH, LEAST_GRADE, LEAST_HEIGHT};
use paper::fraction::{fraction, whole, Fraction};
use paper::minsk::{first_stage_end, first_stage_length, road_of, widening_end, Banking, Road};
use paper::{check_card, check_minsk_card, stations, Card};

pub const MINSK_KINDS: usize = minsk_cards::KINDS.len();
/// 36, 37 and 38 come "in that order after 7", which never occurs (document 02, Slips 1 and 7).
pub const MINSK_REPLIES: [u32; 16] = [0, 1, 2, 3, 4, 5, 6, 36, 37, 38, 8, 9, 10, 34, 35, 11];

/// No card has more.
const MOST_ROWS: usize = 301;

/// What an accepted card shows besides its numbers.
pub struct Shown {
    road: Road,
    /// In mm: where the first stage and the growth of the widening begin and end.
    first_stage: [Fraction; 2],
    growth: [Fraction; 2],
    /// Where its rows stand.
    stations: Vec<u32>,
}

impl Shown {
    fn new(card: &Card) -> Option<Shown> {
        let road = road_of(card.profile)?;
        let (end, full) = (first_stage_end(card), widening_end(card));
        Some(Shown {
            road,
            first_stage: [end - first_stage_length(&road), end],
            growth: [full - whole(20_000), full],
            stations: stations(card),
        })
    }

    /// What a widening can take of the inner shoulder.
    fn spare(&self) -> u32 {
        self.road.shoulder - self.road.least_shoulder
    }

    /// Some row stands there.
    fn any_row(&self, is_there: impl Fn(Fraction) -> bool) -> bool {
        self.stations
            .iter()
            .any(|&station| is_there(whole(station)))
    }

    fn any_row_within(&self, [start, end]: [Fraction; 2]) -> bool {
        self.any_row(|at| start < at && at < end)
    }
}

/// The exact numbers by the handbook, station by station.
fn exact(card: &Card) -> impl Fn(Fraction) -> Exact<7> {
    let banking = Banking::new(card);
    move |at| Exact {
        widening: banking.widening(at),
        axis: banking.axis(at),
        lines: banking.lines(at),
    }
}

/// A card as its sorts see it; of an accepted one more is shown.
pub type Seen<'a> = seen_card::Seen<'a, Option<Shown>>;

/// The card as its sorts see it.
fn seen(case: &CardCase) -> Seen<'_> {
    let is_accepted = case.due.count.numbers()[0] > 0;
    Seen::new(case, exact, |card| {
        is_accepted.then(|| Shown::new(card)).flatten()
    })
}

impl Seen<'_> {
    /// Rows came, and this holds.
    fn shows(&self, is_so: impl Fn(&Shown) -> bool) -> bool {
        self.shown.as_ref().is_some_and(is_so)
    }

    /// Rows came for a card with a widening, and this holds.
    fn grows(&self, is_so: impl Fn(&Shown) -> bool) -> bool {
        self.card.full_widening > 0 && self.shows(is_so)
    }

    /// The card's own reason when this is done to its numbers.
    fn reason_with(&self, change: impl Fn(&mut Numbers)) -> u32 {
        let mut card = *self.numbers;
        change(&mut card);
        check_minsk_card(&card)
    }

    /// L × R / 500 is a whole mm.
    fn has_whole_place(&self) -> bool {
        let length_by_radius = u64::from(self.card.length) * u64::from(self.card.radius);
        length_by_radius.is_multiple_of(500)
    }

    /// One per mille more, and 8 refuses it.
    fn is_steepest(&self) -> bool {
        self.reply == 0 && self.reason_with(|card| card[4] += 1) == 8
    }
}

/// Whether a card is of a sort.
type IsOfSort = fn(&Seen) -> bool;

/// Sorts of cards; a card can be of more than one.
pub const SORTS: [(&str, IsOfSort); 107] = [
    ("II", |card| card.reply == 0 && card.card.profile == 1),
    ("III", |card| card.reply == 0 && card.card.profile == 2),
    ("IV", |card| card.reply == 0 && card.card.profile == 3),
    ("level ground", |card| {
        card.reply == 0 && card.card.terrain == 1
    }),
    ("mountains", |card| {
        card.reply == 0 && card.card.terrain == 2
    }),
    ("relative", |card| {
        card.is_relative() && card.numbers[HEIGHT..] == [0, 0]
    }),
    ("relative, a height beside it", |card| {
        card.is_relative() && card.height() != 0
    }),
    ("relative, 34's height beside it", |card| {
        card.is_relative() && card.is_outside()
    }),
    ("relative, 35's grade beside it", |card| {
        card.is_relative() && card.is_too_steep()
    }),
    ("absolute, unit 1", |card| {
        card.has_heights() && card.card.unit == 1
    }),
    ("absolute, unit 10", |card| {
        card.has_heights() && card.card.unit == 10
    }),
    ("mark above 1", |card| {
        card.has_heights() && card.numbers[MARK] > 1
    }),
    ("mark below 0", |card| {
        card.has_heights() && card.numbers[MARK] < 0
    }),
    ("mark of which 8 bits are 0", |card| {
        card.has_heights() && card.numbers[MARK] % 256 == 0
    }),
    ("mark of which 16 bits are 0", |card| {
        card.has_heights() && card.numbers[MARK] % 65_536 == 0
    }),
    ("height -100000", |card| {
        card.has_heights() && card.height() == LEAST_HEIGHT
    }),
    ("height 9000000", |card| {
        card.has_heights() && card.height() == GREATEST_HEIGHT
    }),
    ("height below 0", |card| {
        card.has_heights() && card.height() < 0
    }),
    ("height without a grade", |card| {
        card.has_heights() && card.height() != 0 && card.grade() == 0
    }),
    ("grade -80", |card| {
        card.has_heights() && card.grade() == LEAST_GRADE
    }),
    ("grade 80", |card| {
        card.has_heights() && card.grade() == GREATEST_GRADE
    }),
    ("grade below 0", |card| {
        card.has_heights() && card.grade() < 0
    }),
    ("limits on the longest clothoid", |card| {
        card.is_longest_at_limits()
    }),
    ("limits on it, and a widening", |card| {
        card.is_longest_at_limits() && card.card.full_widening > 0
    }),
    ("longest, R to 200, a widening", |card| {
        card.grows(|_| card.card.length == GREATEST_LENGTH && card.card.radius <= 200)
    }),
    ("a grade, and a last step cut", |card| {
        card.has_grade_and_cut_step()
    }),
    ("a last step whole", |card| {
        card.reply == 0 && card.card.length.is_multiple_of(card.card.step)
    }),
    ("301 rows", |card| card.rows.len() == MOST_ROWS),
    ("a row within the crowned part", |card| {
        card.shows(|shown| shown.any_row_within([whole(0), shown.first_stage[0]]))
    }),
    ("a row at the first stage's start", |card| {
        card.shows(|shown| shown.any_row(|at| at > whole(0) && at == shown.first_stage[0]))
    }),
    ("a row within the first stage", |card| {
        card.shows(|shown| shown.any_row_within(shown.first_stage))
    }),
    ("a row halfway in it", |card| {
        let middle = |[start, end]: [Fraction; 2]| (start + end) / whole(2);
        card.shows(|shown| shown.any_row(|at| at == middle(shown.first_stage)))
    }),
    ("a row at the first stage's end", |card| {
        card.shows(|shown| shown.any_row(|at| at == shown.first_stage[1]))
    }),
    ("a row within the second stage", |card| {
        let end = whole(card.card.length);
        card.shows(|shown| shown.any_row_within([shown.first_stage[1], end]))
    }),
    ("no row within the second stage", |card| {
        let end = whole(card.card.length);
        card.shows(|shown| !shown.any_row_within([shown.first_stage[1], end]))
    }),
    ("a first stage from station 0", |card| {
        card.shows(|shown| shown.first_stage[0] == whole(0))
    }),
    ("the least clothoid by 37", |card| {
        card.reply == 0 && card.reason_with(|card| card[3] -= 1) == 37
    }),
    ("a joint between two mm", |card| {
        let length_by_radius = u64::from(card.card.length) * u64::from(card.card.radius);
        card.reply == 0 && !length_by_radius.is_multiple_of(2000)
    }),
    ("full slope 21", |card| {
        card.reply == 0 && card.card.full_slope == 21
    }),
    ("full slope 22 to 40", |card| {
        card.reply == 0 && (22..=40).contains(&card.card.full_slope)
    }),
    ("full slope 41 to 59", |card| {
        card.reply == 0 && (41..60).contains(&card.card.full_slope)
    }),
    ("full slope 60", |card| {
        card.reply == 0 && card.card.full_slope == 60
    }),
    ("the greatest full slope by 8", |card| card.is_steepest()),
    ("the least clothoid by 8", |card| {
        card.reply == 0 && card.reason_with(|card| card[3] -= 1) == 8
    }),
    ("radius 1999", |card| {
        card.reply == 0 && card.card.radius == 1999
    }),
    ("radius 501", |card| {
        card.reply == 0 && card.card.radius == 501
    }),
    ("radius 500, no widening", |card| {
        card.reply == 0 && card.card.radius == 500 && card.card.full_widening == 0
    }),
    ("radius 500, a widening", |card| {
        card.grows(|_| card.card.radius == 500)
    }),
    ("radius below 500, no widening", |card| {
        card.reply == 0 && card.card.radius < 500 && card.card.full_widening == 0
    }),
    ("no widening, no whole place", |card| {
        card.reply == 0 && card.card.radius <= 500 && !card.has_whole_place()
    }),
    ("a row before the growth", |card| {
        card.grows(|shown| shown.any_row(|at| at > whole(0) && at < shown.growth[0]))
    }),
    ("a row at the growth's start", |card| {
        card.grows(|shown| shown.any_row(|at| at == shown.growth[0]))
    }),
    ("a row within the growth", |card| {
        card.grows(|shown| shown.any_row_within(shown.growth))
    }),
    ("a row at the growth's end", |card| {
        card.grows(|shown| shown.any_row(|at| at == shown.growth[1]))
    }),
    ("a row past the growth", |card| {
        card.grows(|shown| shown.any_row(|at| at > shown.growth[1]))
    }),
    ("the earliest growth", |card| {
        card.grows(|shown| shown.growth[0] == whole(76_000))
    }),
    ("W below c - m", |card| {
        card.grows(|shown| card.card.full_widening < shown.spare())
    }),
    ("W c - m", |card| {
        card.grows(|shown| card.card.full_widening == shown.spare())
    }),
    ("kept at m", |card| {
        card.grows(|shown| card.card.full_widening > shown.spare())
    }),
    ("kept at m within the growth", |card| {
        card.grows(|shown| {
            let [start, end] = shown.growth;
            let share = fraction(
                i128::from(shown.spare()),
                i128::from(card.card.full_widening),
            );
            let kept = start + whole(20_000) * share;
            shown.any_row_within([kept, end])
        })
    }),
    ("W c", |card| {
        card.grows(|shown| card.card.full_widening == shown.road.shoulder)
    }),
    ("W above c", |card| {
        card.grows(|shown| card.card.full_widening > shown.road.shoulder)
    }),
    ("W 3500", |card| {
        card.grows(|_| card.card.full_widening == 3500)
    }),
    ("otherwise, were parts rounded", |card| {
        card.rounded.otherwise_apart
    }),
    ("relative, halfway in mm above 0", |card| {
        card.is_relative() && card.is_halfway_above(MM)
    }),
    ("relative, halfway in mm below 0", |card| {
        card.is_relative() && card.is_halfway_below(MM)
    }),
    ("relative, halfway in cm above 0", |card| {
        card.is_relative() && card.is_halfway_above(CM)
    }),
    ("relative, halfway in cm below 0", |card| {
        card.is_relative() && card.is_halfway_below(CM)
    }),
    ("absolute, halfway in mm above 0", |card| {
        card.has_heights() && card.is_halfway_above(MM)
    }),
    ("absolute, halfway in mm below 0", |card| {
        card.has_heights() && card.is_halfway_below(MM)
    }),
    ("absolute, halfway in cm above 0", |card| {
        card.has_heights() && card.is_halfway_above(CM)
    }),
    ("absolute, halfway in cm below 0", |card| {
        card.has_heights() && card.is_halfway_below(CM)
    }),
    ("widening halfway in mm", |card| card.is_widened_halfway(MM)),
    ("widening halfway in cm", |card| card.is_widened_halfway(CM)),
    ("5 before 36", |card| {
        let profile = card.card.profile == 4 || card.card.profile == 5;
        card.reply == 5 && profile && (20..30).contains(&card.card.full_slope)
    }),
    ("6 before 36", |card| {
        card.reply == 6 && (card.card.full_slope == 20 || card.card.radius == 2000)
    }),
    ("36 by full slope 20 alone", |card| {
        card.reply == 36 && card.reason_with(|card| card[4] = 21) == 0
    }),
    ("36 by radius 2000", |card| {
        let other = card.card.full_slope > 20 && card.card.profile < 4;
        card.reply == 36 && card.card.radius == 2000 && other
    }),
    ("36 by profile 4 alone", |card| {
        card.reply == 36 && card.card.profile == 4 && card.reason_with(|card| card[0] = 3) == 0
    }),
    ("36 by profile 5 alone", |card| {
        card.reply == 36 && card.card.profile == 5 && card.reason_with(|card| card[0] = 3) == 0
    }),
    ("36 before 37", |card| {
        card.reply == 36 && card.reason_with(|card| card[4] = 21) == 37
    }),
    ("36 before 38", |card| {
        card.reply == 36 && card.reason_with(|card| card[4] = 21) == 38
    }),
    ("37 by one mm", |card| {
        card.reply == 37 && card.reason_with(|card| card[3] += 1) != 37
    }),
    ("37 by one metre of the radius", |card| {
        card.reply == 37 && card.reason_with(|card| card[2] += 1) != 37
    }),
    ("37 before 38", |card| {
        let is_no_place = card.card.radius > 500 || !card.has_whole_place();
        card.reply == 37 && card.card.full_widening > 0 && is_no_place
    }),
    ("38 by radius 501", |card| {
        card.reply == 38 && card.card.radius == 501
    }),
    ("38 by a radius above 501", |card| {
        card.reply == 38 && card.card.radius > 501
    }),
    ("38 by no whole place, one mm off", |card| {
        let off = |by: i32| card.reason_with(|card| card[3] += by);
        card.reply == 38 && card.card.radius < 500 && (off(1) == 0 || off(-1) == 0)
    }),
    ("38 by W 1", |card| {
        card.reply == 38 && card.card.full_widening == 1
    }),
    ("8 by one mm", |card| {
        card.reply == 8 && card.reason_with(|card| card[3] += 1) != 8
    }),
    ("8 by one per mille", |card| {
        card.reply == 8 && card.reason_with(|card| card[4] -= 1) == 0
    }),
    ("8 by the handbook alone", |card| {
        card.reply == 8 && check_card(card.numbers) == 0
    }),
    ("34 by one below", |card| {
        card.reply == 34 && card.height() == LEAST_HEIGHT - 1
    }),
    ("34 by one above", |card| {
        card.reply == 34 && card.height() == GREATEST_HEIGHT + 1
    }),
    ("34 by parts of a unit", |card| {
        card.reply == 34 && card.has_parts_of_a_unit()
    }),
    ("34 before 35", |card| {
        card.reply == 34 && card.is_too_steep()
    }),
    ("35 by one below", |card| {
        card.reply == 35 && card.grade() == LEAST_GRADE - 1
    }),
    ("35 by one above", |card| {
        card.reply == 35 && card.grade() == GREATEST_GRADE + 1
    }),
    ("10 before 34 and 35", |card| {
        let both = card.is_outside() && card.is_too_steep();
        card.reply == 10 && card.is_absolute() && both
    }),
    ("34 before 11", |card| {
        card.reply == 34 && card.is_short(ROW)
    }),
    ("35 before 11", |card| {
        card.reply == 35 && card.is_short(ROW)
    }),
    ("11 of an absolute card", |card| {
        card.reply == 11 && card.is_absolute()
    }),
    ("11 with seven numbers a row", |card| {
        card.reply == 11 && !card.is_short(7)
    }),
    ("radius below 0", |card| card.is_below_0(2, 3)),
    ("clothoid below 0", |card| card.is_below_0(3, 4)),
    ("full slope below 0", |card| card.is_below_0(4, 5)),
    ("widening below 0", |card| card.is_below_0(5, 6)),
];

pub struct MinskTally {
    pub cards: [[u64; MINSK_REPLIES.len()]; MINSK_KINDS],
    pub classes: [[u64; CLASSES.len()]; MINSK_KINDS],
    pub sorts: [u64; SORTS.len()],
    /// Cards to which the library or the paper gave a number that is not among the replies.
    pub unlisted: u64,
    pub rows: u64,
    pub numbers: u64,
    pub altered: [Altered; card_case::ALTERATIONS.len()],
}

impl Default for MinskTally {
    fn default() -> MinskTally {
        MinskTally {
            cards: [[0; MINSK_REPLIES.len()]; MINSK_KINDS],
            classes: [[0; CLASSES.len()]; MINSK_KINDS],
            sorts: [0; SORTS.len()],
            unlisted: 0,
            rows: 0,
            numbers: 0,
            altered: [Altered::default(); card_case::ALTERATIONS.len()],
        }
    }
}

/// Whether the library or the paper gave a number, by either call, that is not among the replies.
fn has_unlisted_reply(case: &CardCase) -> bool {
    let of = |answer: &CardAnswer| [answer.check, answer.reply];
    let mut given = of(&case.due).into_iter().chain(of(&case.came));
    given.any(|number| !MINSK_REPLIES.contains(&number))
}

impl MinskTally {
    pub fn count(&mut self, kind: usize, case: &CardCase) {
        self.unlisted += u64::from(has_unlisted_reply(case));
        let met = MINSK_REPLIES.iter().position(|&n| n == case.due.reply);
        if let Some(met) = met {
            self.cards[kind][met] += 1;
        }
        self.classes[kind][case.class] += 1;
        self.numbers += case.due.numbers_compared();
        let seen = seen(case);
        self.rows += seen.rows.len() as u64;
        let sorts = SORTS.map(|(_, is_of_sort)| u64::from(is_of_sort(&seen)));
        add_numbers(&mut self.sorts, &sorts);
    }

    pub fn add(&mut self, other: &MinskTally) {
        for kind in 0..MINSK_KINDS {
            add_numbers(&mut self.cards[kind], &other.cards[kind]);
            add_numbers(&mut self.classes[kind], &other.classes[kind]);
        }
        add_numbers(&mut self.sorts, &other.sorts);
        add_altered(&mut self.altered, &other.altered);
        self.unlisted += other.unlisted;
        self.rows += other.rows;
        self.numbers += other.numbers;
    }

    /// How often a reply was met.
    pub fn reply(&self, reply: usize) -> u64 {
        self.cards.iter().map(|kind| kind[reply]).sum()
    }
}

#[cfg(test)]
mod tests {
    use super::{seen, MinskTally, SORTS};
    use crate::card_case::{with_table, CardCase};
    use crate::cards::Numbers;
    use crate::minsk_case::{library, BY_THE_HANDBOOK};
    use crate::seeded::Seeded;
    use paper::card::{absolute, marked, relative};

    /// The first stage from 14000 to 42000; rows at its start, halfway in it, and at its end.
    const SECOND: [i32; 8] = [1, 1, 600, 140_000, 48, 0, 14_000, 1];
    /// The first stage from 4000 to 28000, the growth from 92000 to 112000; at 40000 the strips' edges stand at 80.5 mm.
    const FOURTH: [i32; 8] = [3, 2, 400, 140_000, 48, 500, 20_000, 1];
    /// The joint at 28000.2.
    const THIRD: [i32; 8] = [2, 1, 400, 140_001, 60, 0, 20_000, 1];

    fn case(card: Numbers, table_length: usize) -> CardCase {
        let mut seeded = Seeded::new(1, 1, 1);
        with_table(&BY_THE_HANDBOOK, card, table_length, library, &mut seeded)
    }

    /// The sorts of the card, one after another.
    fn sorts(card: Numbers, table_length: usize) -> String {
        let case = case(card, table_length);
        let seen = seen(&case);
        let met = SORTS.iter().filter(|(_, is_of_sort)| is_of_sort(&seen));
        let names: Vec<_> = met.map(|(name, _)| *name).collect();
        names.join("; ")
    }

    #[test]
    fn sorts_by_the_stages() {
        let second = "II; level ground; relative; a last step whole; a row at the first stage's start; \
                      a row within the first stage; a row halfway in it; a row at the first stage's end; \
                      a row within the second stage; full slope 41 to 59";
        assert_eq!(sorts(relative(SECOND), 99), second);
        let third = "III; level ground; relative; a row within the first stage; \
                     a row within the second stage; a joint between two mm; full slope 60; \
                     radius below 500, no widening; no widening, no whole place";
        assert_eq!(sorts(relative(THIRD), 81), third);
        let early = [3, 2, 200, 240_000, 21, 3500, 20_000, 10];
        let early = sorts(relative(early), 2709);
        for name in [
            "a first stage from station 0",
            "the earliest growth",
            "W 3500",
        ] {
            assert!(early.contains(name), "{early}");
        }
        let steep = sorts(relative([3, 2, 1999, 300_000, 21, 0, 20_000, 1]), 2709);
        for name in [
            "radius 1999",
            "the least clothoid by 8",
            "the greatest full slope by 8",
        ] {
            assert!(steep.contains(name), "{steep}");
        }
        assert!(steep.contains("no row within the second stage"), "{steep}");
    }

    #[test]
    fn sorts_by_the_widening() {
        let of = |widening, step| {
            let mut card = FOURTH;
            (card[5], card[6]) = (widening, step);
            sorts(relative(card), 2709)
        };
        // Rows at 100000 and 120000.
        let fourth = "IV; mountains; relative; a last step whole; a row within the first stage; \
                      a row within the second stage; full slope 41 to 59; a row before the growth; \
                      a row within the growth; a row past the growth; W below c - m; \
                      relative, halfway in mm above 0; relative, halfway in mm below 0";
        assert_eq!(of(500, 20_000), fourth);
        assert!(of(1000, 20_000).contains("a row past the growth; W c - m; relative"));
        // c - w is m at 102000.
        assert!(of(2000, 20_000).contains("a row past the growth; kept at m; W c; relative"));
        assert!(of(2001, 4000).contains("kept at m; kept at m within the growth; W above c"));
        let at_both = of(500, 4000);
        for name in ["a row at the growth's start", "a row at the growth's end"] {
            assert!(at_both.contains(name), "{at_both}");
        }
    }

    #[test]
    fn sorts_of_absolute_cards() {
        let card = marked(SECOND, -256, -100_000, -80);
        let low = "II; level ground; absolute, unit 1; mark below 0; mark of which 8 bits are 0; \
                   height -100000; height below 0; grade -80; grade below 0; a last step whole; \
                   a row at the first stage's start";
        assert!(sorts(card, 100).starts_with(low), "{}", sorts(card, 100));
        let mut steps = absolute(SECOND, 0, 1);
        steps[6] = 1625;
        let apart = sorts(steps, 2709);
        assert!(!apart.contains("otherwise"), "{apart}");
        // At 16250 the axis is 16.25 and the outer edge -58.75 from it; of so many rows none is looked into.
        steps[6] = 16_250;
        let apart = sorts(steps, 2709);
        assert!(apart.contains("otherwise, were parts rounded"), "{apart}");
        assert!(apart.contains("absolute, halfway in mm below 0"), "{apart}");
    }

    #[test]
    fn sorts_of_refused_cards() {
        let of = |eight| sorts(relative(eight), 2709);
        assert_eq!(of([4, 1, 600, 140_000, 20, 0, 5000, 1]), "5 before 36");
        assert_eq!(of([1, 1, 2000, 140_000, 20, 1, 5000, 1]), "6 before 36");
        let alone = "36 by full slope 20 alone";
        assert_eq!(of([1, 1, 600, 140_000, 20, 0, 5000, 1]), alone);
        assert_eq!(of([1, 1, 125, 140_000, 20, 0, 5000, 1]), "36 before 37");
        assert_eq!(of([1, 1, 600, 140_000, 20, 1, 5000, 1]), "36 before 38");
        assert_eq!(
            of([1, 1, 2000, 140_000, 30, 0, 5000, 1]),
            "36 by radius 2000"
        );
        assert_eq!(
            of([4, 1, 600, 140_000, 40, 0, 5000, 1]),
            "36 by profile 4 alone"
        );
        let by_one = "37 by one mm; 37 by one metre of the radius";
        assert_eq!(of([1, 1, 400, 139_999, 40, 0, 5000, 1]), by_one);
        let before = "37 by one mm; 37 by one metre of the radius; 37 before 38";
        assert_eq!(of([1, 1, 400, 139_999, 40, 1, 5000, 1]), before);
        assert_eq!(
            of([1, 1, 501, 140_000, 40, 1, 5000, 1]),
            "38 by radius 501; 38 by W 1"
        );
        let off = "38 by no whole place, one mm off";
        assert_eq!(of([1, 1, 400, 140_001, 40, 2, 5000, 1]), off);
        let steep = "8 by one mm; 8 by one per mille; 8 by the handbook alone";
        assert_eq!(of([1, 1, 1650, 123_999, 51, 0, 5000, 1]), steep);
        let short = "34 by one above; 34 before 35; 34 before 11";
        assert_eq!(sorts(absolute(SECOND, 9_000_001, 81), 98), short);
        let short = "11 of an absolute card; 11 with seven numbers a row";
        assert_eq!(sorts(absolute(SECOND, 0, 80), 98), short);
        assert_eq!(sorts(absolute(SECOND, 0, 80), 76), "11 of an absolute card");
    }

    /// How many cards are counted as unlisted when this is done to the answers for a card.
    fn unlisted(alter: fn(&mut CardCase)) -> u64 {
        let mut case = case(relative(SECOND), 99);
        alter(&mut case);
        let mut tally = MinskTally::default();
        tally.count(0, &case);
        tally.unlisted
    }

    #[test]
    fn other_numbers_are_counted_wherever_they_come_from() {
        assert_eq!(unlisted(|_| ()), 0);
        assert_eq!(unlisted(|case| case.due.check = 7), 1);
        assert_eq!(unlisted(|case| case.due.reply = 39), 1);
        assert_eq!(unlisted(|case| case.came.check = 12), 1);
        assert_eq!(unlisted(|case| case.came.reply = 40), 1);
        assert_eq!(unlisted(|case| case.came.reply = 38), 0);
    }
}
