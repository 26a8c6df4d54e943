//! A program for the walk from row to row, in whole numbers, by adding and carrying: what wrong ones are made from.

use crate::cards::{GRADE, HEIGHT, MARK};
use crate::walk_case::Loan;
use paper::card::{profile, Numbers};
use paper::section::Greater;
use paper::walked::Turn;
use paper::{check_card, Card};

/// Numbers in a row, the station among them.
pub const ROW: usize = 7;
/// Places of the rounded numbers in a row, the station left out.
pub const WIDENING: usize = 0;
pub const INNER_BROW: usize = 1;
pub const INNER_EDGE: usize = 2;
pub const AXIS: usize = 3;
pub const OUTER_EDGE: usize = 4;
pub const OUTER_BROW: usize = 5;
pub const SIX: usize = 6;

/// Where the inner slope, the shoulder's slope and the inner shoulder change sides.
pub const INNER: Turn = Turn::Change(Greater::InnerSlope);
pub const SLOPE: Turn = Turn::Change(Greater::ShoulderSlope);
pub const SHOULDER: Turn = Turn::Change(Greater::InnerShoulder);

/// A station in mm: a whole number over one above nought.
pub type Station = (i128, i128);

/// The letters of an accepted card.
#[derive(Clone, Copy)]
pub struct Letters {
    h: i128,
    pub c: i128,
    pub p: i128,
    pub q: i128,
    pub m: i128,
    pub v: i128,
    pub length: i128,
    pub full_widening: i128,
    pub step: i128,
    pub unit: i128,
    pub is_absolute: bool,
    height: i128,
    /// The grade, or what stands in its place on a relative card.
    pub grade: i128,
}

/// Which line the outer slope goes along.
#[derive(Clone, Copy, PartialEq)]
pub enum Stage {
    Even,
    First,
    Second,
}

/// What holds from a row that is worked afresh on.
#[derive(Clone, Copy)]
pub struct Sides {
    pub stage: Stage,
    /// The inner slope is the outer slope.
    pub is_turned: bool,
    /// The shoulder's slope is the inner slope.
    pub is_steep: bool,
    /// The inner shoulder is m.
    pub is_kept: bool,
}

impl Letters {
    fn new(numbers: &Numbers) -> Letters {
        let card = Card::new(numbers);
        let profile = profile(card.profile).expect("an accepted card has a profile");
        Letters {
            h: profile.half.into(),
            c: profile.shoulder.into(),
            p: profile.crown_slope.into(),
            q: profile.shoulder_slope.into(),
            m: profile.least_shoulder.into(),
            v: card.full_slope.into(),
            length: card.length.into(),
            full_widening: card.full_widening.into(),
            step: card.step.into(),
            unit: card.unit.into(),
            is_absolute: numbers[MARK] != 0,
            height: numbers[HEIGHT].into(),
            grade: numbers[GRADE].into(),
        }
    }

    pub fn is_even(&self) -> bool {
        self.h * (self.p + self.v) >= 3 * self.length
    }

    /// What the shoulder can give to the widening.
    pub fn spare(&self) -> i128 {
        self.c - self.m
    }

    /// The place of the last row, from 0.
    pub fn last(&self) -> usize {
        ((self.length + self.step - 1) / self.step) as usize
    }

    pub fn station(&self, row: usize) -> i128 {
        self.length.min(row as i128 * self.step)
    }

    /// How much of the last step there is; 0 where all of it is.
    pub fn last_step(&self) -> i128 {
        self.length % self.step
    }

    /// How fast the axis climbs.
    pub fn climb(&self) -> i128 {
        if self.is_absolute {
            self.grade
        } else {
            0
        }
    }

    /// The height at the start, in micrometres; of a relative card nought.
    pub fn benchmark(&self) -> i128 {
        if self.is_absolute {
            1000 * self.height
        } else {
            0
        }
    }

    /// A unit in micrometres.
    pub fn size(&self) -> i128 {
        1000 * self.unit
    }

    /// In micrometres.
    pub fn axis(&self, station: i128) -> i128 {
        if self.is_absolute {
            self.benchmark() + self.grade * station
        } else {
            self.c * self.q + self.h * self.p
        }
    }

    /// 0 in mm, where halfway goes up, and 1 in cm.
    pub fn tie(&self) -> i128 {
        i128::from(self.unit != 1)
    }

    pub fn joint(&self) -> Station {
        (2 * self.h * self.p, 3)
    }

    /// Where the outer slope of an even road is so.
    pub fn even_slope_at(&self, slope: i128) -> Station {
        ((self.p + slope) * self.length, self.p + self.v)
    }

    /// Where that of the second stage is so.
    fn second_slope_at(&self, slope: i128) -> Station {
        let (p, v, joint) = (self.p, self.v, 2 * self.h * self.p);
        let top = joint * (v - slope) + 3 * (slope - p) * self.length;
        (top, 3 * (v - p))
    }

    pub fn slope_at(&self, slope: i128) -> Station {
        match self.is_even() {
            true => self.even_slope_at(slope),
            false => self.second_slope_at(slope),
        }
    }

    /// From where on the shoulder is so narrow.
    pub fn narrowed_at(&self, shoulder: i128) -> Station {
        ((self.c - shoulder) * self.length, self.full_widening)
    }

    pub fn turns(&self) -> Vec<(Turn, Station)> {
        let mut turns = Vec::new();
        if !self.is_even() {
            turns.push((Turn::Joint, self.joint()));
        } else if self.v > self.p {
            turns.push((INNER, self.slope_at(self.p)));
        }
        if self.v > self.q {
            turns.push((SLOPE, self.slope_at(self.q)));
        }
        if self.full_widening > self.spare() {
            turns.push((SHOULDER, self.narrowed_at(self.m)));
        }
        turns
    }

    /// The place of the first row past a station; where there is none, the last.
    pub fn past(&self, (top, bottom): Station) -> usize {
        self.last().min((top / (bottom * self.step)) as usize + 1)
    }

    /// The same of the first row that is not before it.
    pub fn at_or_past(&self, (top, bottom): Station) -> usize {
        let over = bottom * self.step;
        self.last().min(((top + over - 1) / over) as usize)
    }

    /// The outer slope by a line, and the number that it stands over.
    fn outer(&self, stage: Stage, station: i128) -> (i128, i128) {
        let (h, p, v, length) = (self.h, self.p, self.v, self.length);
        match stage {
            Stage::Even => ((p + v) * station - p * length, length),
            Stage::First => (3 * station - p * h, h),
            Stage::Second => {
                let run = 3 * length - 2 * h * p;
                (p * run + (v - p) * (3 * station - 2 * h * p), run)
            }
        }
    }

    /// What holds at a station; on a turn what holds before it, or past it where `is_past` says so.
    pub fn sides_at(&self, station: i128, is_past: bool) -> Sides {
        let above = |one: i128, other: i128| one > other || (is_past && one == other);
        let stage = match self.is_even() {
            true => Stage::Even,
            false if above(3 * station, 2 * self.h * self.p) => Stage::Second,
            false => Stage::First,
        };
        let (outer, over) = self.outer(stage, station);
        let widening = self.full_widening * station;
        let is_turned = above(outer, self.p * over);
        Sides {
            stage,
            is_turned,
            is_steep: is_turned && above(outer, self.q * over),
            is_kept: above(widening, self.spare() * self.length),
        }
    }

    /// The widening, and the five lines where the axis stands so, in micrometres; and the number that all stand over.
    fn six(&self, sides: Sides, station: i128, axis: i128) -> ([i128; SIX], i128) {
        let (outer, over) = self.outer(sides.stage, station);
        let inner = match sides.is_turned {
            true => outer,
            false => self.p * over,
        };
        let slope = match sides.is_steep {
            true => inner,
            false => self.q * over,
        };
        let (widening, length) = (self.full_widening * station, self.length);
        let shoulder = match sides.is_kept {
            true => self.m * length,
            false => self.c * length - widening,
        };
        let axis = axis * over * length;
        let outer_edge = axis + self.h * outer * length;
        let outer_brow = outer_edge + self.c * outer * length;
        let inner_edge = axis - (self.h * length + widening) * inner;
        let inner_brow = inner_edge - shoulder * slope;
        let widening = 1000 * widening * over;
        let six = [
            widening, inner_brow, inner_edge, axis, outer_edge, outer_brow,
        ];
        (six, over * length)
    }
}

/// Whole units, and a rest over a number that is kept beside it.
#[derive(Clone, Copy)]
pub struct Mixed {
    pub count: i128,
    pub rest: i128,
}

pub const NOUGHT: Mixed = Mixed { count: 0, rest: 0 };

/// The whole units of a fraction, downwards, and the rest.
pub fn mixed(top: i128, bottom: i128) -> Mixed {
    Mixed {
        count: top.div_euclid(bottom),
        rest: top.rem_euclid(bottom),
    }
}

impl Mixed {
    pub fn plus(self, other: Mixed, over: i128) -> Mixed {
        let (count, rest) = (self.count + other.count, self.rest + other.rest);
        match rest < over {
            true => Mixed { count, rest },
            false => Mixed {
                count: count + 1,
                rest: rest - over,
            },
        }
    }

    /// The fraction's top.
    pub fn top(self, over: i128) -> i128 {
        self.count * over + self.rest
    }
}

/// One of the six numbers on its way from row to row; half a unit is in it, so that its count is the rounded number.
#[derive(Clone, Copy)]
pub struct Line {
    pub at: Mixed,
    /// From this row to the next one.
    pub rise: Mixed,
    /// How much greater each rise is than the one before.
    pub bend: Mixed,
    pub over: i128,
}

impl Line {
    pub fn next(&mut self) {
        self.at = self.at.plus(self.rise, self.over);
        self.rise = self.rise.plus(self.bend, self.over);
    }
}

/// A line at a row that is worked afresh.
pub struct Begun<'a> {
    pub letters: &'a Letters,
    pub column: usize,
    /// At the row before, and at this row.
    pub before: Line,
    pub new: Line,
    /// The turns that this row is the first past.
    pub turns: &'a [Turn],
}

impl Begun<'_> {
    pub fn is_past(&self, turn: Turn) -> bool {
        self.turns.contains(&turn)
    }

    /// With the rise of the row before.
    pub fn with_old_rise(&self) -> Line {
        Line {
            rise: self.before.rise,
            bend: self.before.bend,
            ..self.new
        }
    }

    /// The same past a turn alone.
    pub fn with_old_rise_past(&self, turn: Turn) -> Line {
        match self.is_past(turn) {
            true => self.with_old_rise(),
            false => self.new,
        }
    }

    /// With this in the rest where half a unit, or in cm hardly less, should be.
    pub fn with_half(&self, half: i128) -> Line {
        let due = self.new.over / 2 - self.letters.tie();
        let rest = self.new.at.rest + half - due;
        let at = Mixed {
            rest,
            ..self.new.at
        };
        Line { at, ..self.new }
    }

    /// With halfway where it should not go.
    pub fn with_other_tie(&self) -> Line {
        self.with_half(self.new.over / 2 - 1 + self.letters.tie())
    }
}

/// A number that is written.
pub struct Cell<'a> {
    pub letters: &'a Letters,
    pub column: usize,
    /// The row is worked afresh.
    pub is_fresh: bool,
    pub number: i128,
}

/// A turn, its station, and the place of the first row past it.
pub type Met = (Turn, Station, usize);

/// The rows that are worked afresh, and the turns.
pub struct Counted<'a> {
    pub letters: &'a Letters,
    pub rows: &'a [usize],
    pub turns: &'a [Met],
}

impl Counted<'_> {
    pub fn right(&self) -> usize {
        self.rows.len()
    }

    pub fn has(&self, turn: Turn) -> bool {
        self.turns.iter().any(|met| met.0 == turn)
    }

    /// The last row is the first past a turn.
    pub fn ends_past_a_turn(&self) -> bool {
        let last = self.letters.last();
        self.turns.iter().any(|met| met.2 == last)
    }

    /// Less the row past a turn, where nothing else makes it one that is worked afresh.
    pub fn without(&self, turn: Turn) -> usize {
        let others = self.turns.iter().filter(|met| met.0 != turn);
        let others = others.map(|met| met.2);
        apart([0, self.letters.last()].into_iter().chain(others)).len()
    }

    pub fn and_one_if(&self, is_so: bool) -> usize {
        self.right() + usize::from(is_so)
    }
}

/// Each row once, rising.
pub fn apart(rows: impl Iterator<Item = usize>) -> Vec<usize> {
    let mut rows: Vec<usize> = rows.collect();
    rows.sort();
    rows.dedup();
    rows
}

/// What a program that walks is put together from.
#[derive(Clone, Copy)]
pub struct Rules {
    pub turns: fn(&Letters) -> Vec<(Turn, Station)>,
    /// The place of the first row past a turn.
    pub past: fn(&Letters, Turn, Station) -> usize,
    /// The rows that are worked afresh besides: the first among them.
    pub besides: fn(&Letters) -> Vec<usize>,
    /// What is held to hold from a row that is worked afresh on, beside what does.
    pub sides: fn(&Letters, usize, Sides) -> Sides,
    /// What is held to hold for the rise, in the same stage.
    pub rise_sides: fn(Sides) -> Sides,
    /// Where the axis stands in micrometres, as reckoned at the first of these stations for the second.
    pub axis: fn(&Letters, i128, i128) -> i128,
    pub begin: fn(&Begun) -> Line,
    pub next: fn(&Letters, usize, &mut Line),
    pub station: fn(&Letters, usize) -> i128,
    pub cell: fn(&Cell) -> i128,
    pub fresh: fn(&Counted) -> usize,
}

/// The paper's rules, in whole numbers.
pub const RIGHT: Rules = Rules {
    turns: Letters::turns,
    past: |letters, _, station| letters.past(station),
    besides: |letters| vec![0, letters.last()],
    sides: |_, _, sides| sides,
    rise_sides: |sides| sides,
    axis: |letters, _, station| letters.axis(station),
    begin: |begun| begun.new,
    next: |_, _, line| line.next(),
    station: Letters::station,
    cell: |cell| cell.number,
    fresh: |met| met.right(),
};

impl Rules {
    /// The six lines as they go on from a row.
    fn lines(&self, letters: &Letters, row: usize) -> [Line; SIX] {
        let (from, step) = (letters.station(row), letters.step);
        let sides = (self.sides)(letters, row, letters.sides_at(from, false));
        let six = |sides, station| letters.six(sides, station, (self.axis)(letters, from, station));
        let (now, over) = six(sides, from);
        let on = |steps| six((self.rise_sides)(sides), from + steps * step).0;
        let on = [0, 1, 2].map(on);
        let size = letters.size() * over;
        std::array::from_fn(|column| {
            let [here, next, second] = on.map(|six| six[column]);
            let half = size - letters.tie();
            Line {
                at: mixed(2 * now[column] + half, 2 * size),
                rise: mixed(2 * (next - here), 2 * size),
                bend: mixed(2 * (second - 2 * next + here), 2 * size),
                over: 2 * size,
            }
        })
    }

    /// The lines at a row that is worked afresh.
    fn begun(
        &self,
        letters: &Letters,
        row: usize,
        before: [Line; SIX],
        turns: &[Turn],
    ) -> [Line; SIX] {
        let lines = self.lines(letters, row);
        std::array::from_fn(|column| {
            (self.begin)(&Begun {
                letters,
                column,
                before: before[column],
                new: lines[column],
                turns,
            })
        })
    }

    /// Fills the rows, and gives how many are worked afresh.
    fn walk(&self, letters: &Letters, table: &mut [i32]) -> usize {
        let turns = (self.turns)(letters).into_iter();
        let met = |(turn, at)| (turn, at, (self.past)(letters, turn, at));
        let turns: Vec<Met> = turns.map(met).collect();
        let besides = (self.besides)(letters).into_iter();
        let rows = apart(besides.chain(turns.iter().map(|met| met.2)));
        let mut lines = self.lines(letters, 0);
        for (row, to) in table.chunks_exact_mut(ROW).enumerate() {
            let is_fresh = rows.contains(&row);
            if is_fresh {
                let here = turns.iter().filter(|met| met.2 == row);
                let here: Vec<Turn> = here.map(|met| met.0).collect();
                lines = self.begun(letters, row, lines, &here);
            } else {
                let lines = lines.iter_mut().enumerate();
                lines.for_each(|(column, line)| (self.next)(letters, column, line));
            }
            to[0] = (self.station)(letters, row) as i32;
            for (column, line) in lines.iter().enumerate() {
                let cell = Cell {
                    letters,
                    column,
                    is_fresh,
                    number: line.at.count,
                };
                to[1 + column] = (self.cell)(&cell) as i32;
            }
        }
        (self.fresh)(&Counted {
            letters,
            rows: &rows,
            turns: &turns,
        })
    }
}

/// Refuses the card.
pub fn refuse(number: u32, loan: &mut Loan) -> u32 {
    (*loan.count, *loan.fresh) = (0, 0);
    number
}

/// The program by these rules.
pub fn ruled(loan: &mut Loan, rules: &Rules) -> u32 {
    let reason = check_card(loan.card);
    if reason != 0 {
        return refuse(reason, loan);
    }
    let letters = Letters::new(loan.card);
    let count = letters.last() + 1;
    if loan.table.len() < ROW * count {
        return refuse(11, loan);
    }
    let fresh = rules.walk(&letters, &mut loan.table[..ROW * count]);
    (*loan.count, *loan.fresh) = (count as u32, fresh as u32);
    0
}

/// The right program, but for what is changed in its rules.
pub fn ruled_by(loan: &mut Loan, change: fn(&mut Rules)) -> u32 {
    let mut rules = RIGHT;
    change(&mut rules);
    ruled(loan, &rules)
}
