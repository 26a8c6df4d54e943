//! Wrong programs for the walk from row to row: the comparison must find each of them.

use crate::cards::{Numbers, GRADE, LENGTH, MARK, STEP, WIDENING as CARD_WIDENING};
use crate::found::all_are_found;
use crate::walk_case::{Call, Loan};
use crate::walker::{
    apart, mixed, refuse, ruled, ruled_by, Begun, Cell, Counted, Letters, Line, Mixed, Rules,
    Sides, Stage, Station, AXIS, INNER, INNER_BROW, INNER_EDGE, NOUGHT, OUTER_BROW, OUTER_EDGE,
    RIGHT, ROW, SHOULDER, SLOPE, WIDENING,
};
use crate::work::{card, walk};
use crate::DEFAULT;
use paper::card::profile;
use paper::walked::Turn;
use paper::{fill_table, stations, walk_table, Card};
use std::mem::{swap, take};

/// A wrong program must be found among so many of the first cards of the default run.
const FIRST_CARDS: u64 = 10_000;
/// Numbers of a table that is long enough for every card.
const ENOUGH: usize = 301 * ROW;

fn right(loan: &mut Loan) -> u32 {
    right_for(loan.card, loan)
}

/// The right program, for another card.
fn right_for(card: &Numbers, loan: &mut Loan) -> u32 {
    let reply = walk_table(card, loan.table);
    (*loan.count, *loan.fresh) = (reply.count, reply.fresh);
    reply.number
}

/// The right program, but for which row is the first past a turn.
fn past_by(loan: &mut Loan, past: fn(&Letters, Turn, Station) -> usize) -> u32 {
    let mut rules = RIGHT;
    rules.past = past;
    ruled(loan, &rules)
}

/// The same, and a row on a turn already has what holds past it, so that every row is right.
fn at_or_past_by(loan: &mut Loan, past: fn(&Letters, Turn, Station) -> usize) -> u32 {
    let mut rules = RIGHT;
    rules.past = past;
    rules.sides = |letters, row, _| letters.sides_at(letters.station(row), true);
    ruled(loan, &rules)
}

fn up((top, bottom): Station) -> Station {
    ((top + bottom - 1) / bottom, 1)
}

fn nearest((top, bottom): Station) -> Station {
    ((2 * top + bottom) / (2 * bottom), 1)
}

/// Wrong as to which row is the first past a turn.
const WRONG_PAST: [(&str, Call); 12] = [
    ("a row on the joint past it", |loan| {
        at_or_past_by(loan, |letters, turn, at| match turn {
            Turn::Joint => letters.at_or_past(at),
            _ => letters.past(at),
        })
    }),
    ("a row on the inner slope's change past it", |loan| {
        at_or_past_by(loan, |letters, turn, at| match turn {
            INNER => letters.at_or_past(at),
            _ => letters.past(at),
        })
    }),
    ("a row on the shoulder slope's change past it", |loan| {
        at_or_past_by(loan, |letters, turn, at| match turn {
            SLOPE => letters.at_or_past(at),
            _ => letters.past(at),
        })
    }),
    ("a row on the inner shoulder's change past it", |loan| {
        at_or_past_by(loan, |letters, turn, at| match turn {
            SHOULDER => letters.at_or_past(at),
            _ => letters.past(at),
        })
    }),
    ("a row on any turn past it", |loan| {
        at_or_past_by(loan, |letters, _, at| letters.at_or_past(at))
    }),
    ("a row on a turn worked afresh by the old rule", |loan| {
        past_by(loan, |letters, _, at| letters.at_or_past(at))
    }),
    ("turns up to a whole mm", |loan| {
        past_by(loan, |letters, _, at| letters.past(up(at)))
    }),
    ("turns to the nearest mm", |loan| {
        past_by(loan, |letters, _, at| letters.past(nearest(at)))
    }),
    ("the joint to the nearest mm", |loan| {
        past_by(loan, |letters, turn, at| match turn {
            Turn::Joint => letters.past(nearest(at)),
            _ => letters.past(at),
        })
    }),
    ("the row before the first past a turn", |loan| {
        at_or_past_by(loan, |letters, _, at| letters.past(at) - 1)
    }),
    ("the row after the first past a turn", |loan| {
        past_by(loan, |letters, _, at| {
            letters.last().min(letters.past(at) + 1)
        })
    }),
    ("the row nearest to a turn", |loan| {
        past_by(loan, |letters, _, (top, bottom)| {
            let over = bottom * letters.step;
            letters.last().min(((2 * top + over) / (2 * over)) as usize)
        })
    }),
];

/// The right program, but for how many rows it says are worked afresh.
fn counted(loan: &mut Loan, fresh: fn(&Counted) -> usize) -> u32 {
    let mut rules = RIGHT;
    rules.fresh = fresh;
    ruled(loan, &rules)
}

/// Wrong as to how many rows are worked afresh, and right in every row.
const WRONG_COUNTS: [(&str, Call); 31] = [
    ("the first row not counted", |loan| {
        counted(loan, |met| met.right() - 1)
    }),
    ("the last row not counted", |loan| {
        counted(loan, |met| {
            met.right() - usize::from(!met.ends_past_a_turn())
        })
    }),
    ("the last row counted where its step is cut", |loan| {
        counted(loan, |met| {
            let is_whole = met.letters.last_step() == 0;
            met.right() - usize::from(is_whole && !met.ends_past_a_turn())
        })
    }),
    ("neither the first nor the last counted", |loan| {
        counted(loan, |met| met.right() - 2)
    }),
    ("the joint not counted", |loan| {
        counted(loan, |met| met.without(Turn::Joint))
    }),
    ("the joint not counted where v is p", |loan| {
        counted(loan, |met| match met.letters.v == met.letters.p {
            true => met.without(Turn::Joint),
            false => met.right(),
        })
    }),
    ("the inner slope's change not counted", |loan| {
        counted(loan, |met| met.without(INNER))
    }),
    ("the shoulder slope's change not counted", |loan| {
        counted(loan, |met| met.without(SLOPE))
    }),
    ("the inner shoulder's change not counted", |loan| {
        counted(loan, |met| met.without(SHOULDER))
    }),
    ("a joint of even roads counted", |loan| {
        ruled_by(loan, |rules| {
            rules.besides = |letters| vec![0, letters.past(letters.joint()), letters.last()];
        })
    }),
    ("the inner slope's change beside the joint", |loan| {
        counted(loan, |met| {
            let is_turned = met.letters.v > met.letters.p;
            met.and_one_if(is_turned && met.has(Turn::Joint))
        })
    }),
    ("coinciding rows counted twice", |loan| {
        counted(loan, |met| 2 + met.turns.len())
    }),
    ("coinciding rows counted twice, but the last", |loan| {
        counted(loan, |met| {
            let last = met.letters.last();
            2 + met.turns.iter().filter(|turn| turn.2 < last).count()
        })
    }),
    ("the last counted twice where it is past a turn", |loan| {
        counted(loan, |met| met.and_one_if(met.ends_past_a_turn()))
    }),
    ("stations counted, and not rows", |loan| {
        counted(loan, |met| {
            let is_one = |(a, b): Station, (c, d): Station| a * d == c * b;
            let is_new = |place: &usize| {
                let mut earlier = met.turns[..*place].iter();
                !earlier.any(|other| is_one(other.1, met.turns[*place].1))
            };
            2 + (0..met.turns.len()).filter(is_new).count()
        })
    }),
    ("two changes at one station counted twice", |loan| {
        counted(loan, |met| {
            let is_one = |(a, b): Station, (c, d): Station| a * d == c * b;
            let mut later = met.turns.iter().skip(1);
            met.and_one_if(later.any(|other| is_one(other.1, met.turns[0].1)))
        })
    }),
    ("a touch counted where v is p, even", |loan| {
        counted(loan, |met| {
            let touches = met.letters.v == met.letters.p;
            met.and_one_if(touches && met.letters.is_even())
        })
    }),
    ("a touch counted where v is p, two-stage", |loan| {
        counted(loan, |met| {
            let touches = met.letters.v == met.letters.p;
            met.and_one_if(touches && !met.letters.is_even())
        })
    }),
    ("a touch counted where v is q", |loan| {
        counted(loan, |met| met.and_one_if(met.letters.v == met.letters.q))
    }),
    ("a touch counted where W is c less m", |loan| {
        counted(loan, |met| {
            met.and_one_if(met.letters.full_widening == met.letters.spare())
        })
    }),
    ("W one above c less m taken for a touch", |loan| {
        counted(loan, |met| {
            match met.letters.full_widening == met.letters.spare() + 1 {
                true => met.without(SHOULDER),
                false => met.right(),
            }
        })
    }),
    ("rows counted", |loan| {
        counted(loan, |met| met.letters.last() + 1)
    }),
    ("the other rows counted", |loan| {
        counted(loan, |met| met.letters.last() + 1 - met.right())
    }),
    ("every row of an absolute card counted", |loan| {
        counted(loan, |met| match met.letters.is_absolute {
            true => met.letters.last() + 1,
            false => met.right(),
        })
    }),
    ("the place of the last but one of them", |loan| {
        counted(loan, |met| met.rows[met.rows.len() - 2])
    }),
    ("never more than four", |loan| {
        counted(loan, |met| met.right().min(4))
    }),
    ("never fewer than three", |loan| {
        counted(loan, |met| met.right().max(3))
    }),
    ("always two", |loan| counted(loan, |_| 2)),
    ("rows afresh given as the count", |loan| {
        let number = right(loan);
        *loan.count = *loan.fresh;
        number
    }),
    ("count and rows afresh exchanged", |loan| {
        let number = right(loan);
        swap(loan.count, loan.fresh);
        number
    }),
    ("rows afresh not given", |loan| {
        let before = *loan.fresh;
        let number = right(loan);
        *loan.fresh = before;
        number
    }),
];

/// The right program, and then this done after a refusal with 11 to the rows that there is room for.
fn despite_11(loan: &mut Loan, rows: usize) -> u32 {
    let number = right(loan);
    if number == 11 {
        let mut whole = [0; ENOUGH];
        walk_table(loan.card, &mut whole);
        let room = (ROW * rows).min(loan.table.len() / ROW * ROW);
        loan.table[..room].copy_from_slice(&whole[..room]);
    }
    number
}

/// The right program, and then this done to an accepted card's table, of which the rows take so many numbers.
fn then(loan: &mut Loan, change: fn(&mut [i32], usize)) -> u32 {
    let number = right(loan);
    if number == 0 {
        change(loan.table, ROW * *loan.count as usize);
    }
    number
}

/// Wrong as to refusals, and as to what else is touched.
const WRONG_REFUSALS: [(&str, Call); 19] = [
    ("rows afresh given with 11", |loan| {
        let number = right(loan);
        if number == 11 {
            *loan.fresh = walk_table(loan.card, &mut [0; ENOUGH]).fresh;
        }
        number
    }),
    ("two rows afresh on a refusal", |loan| {
        let number = right(loan);
        if number != 0 {
            *loan.fresh = 2;
        }
        number
    }),
    ("rows afresh kept on a refusal", |loan| {
        let before = *loan.fresh;
        let number = right(loan);
        if number != 0 {
            *loan.fresh = before;
        }
        number
    }),
    ("rows afresh kept with 11", |loan| {
        let before = *loan.fresh;
        let number = right(loan);
        if number == 11 {
            *loan.fresh = before;
        }
        number
    }),
    ("rows counted with 11", |loan| {
        let number = right(loan);
        if number == 11 {
            *loan.count = stations(&Card::new(loan.card)).len() as u32;
        }
        number
    }),
    ("the count kept on a refusal", |loan| {
        let before = *loan.count;
        let number = right(loan);
        if number != 0 {
            *loan.count = before;
        }
        number
    }),
    ("the first row written despite 11", |loan| {
        despite_11(loan, 1)
    }),
    ("walked as far as there is room, then 11", |loan| {
        despite_11(loan, ENOUGH / ROW)
    }),
    ("one row fewer wanted for 11", |loan| {
        let number = right(loan);
        if number != 11 {
            return number;
        }
        let rows = stations(&Card::new(loan.card)).len();
        let room = loan.table.len();
        if room < ROW * (rows - 1) {
            return number;
        }
        let mut whole = [0; ENOUGH];
        let fresh = walk_table(loan.card, &mut whole).fresh;
        loan.table.copy_from_slice(&whole[..room]);
        (*loan.count, *loan.fresh) = (rows as u32, fresh);
        0
    }),
    ("one row more wanted for 11", |loan| {
        let length = loan.table.len().saturating_sub(ROW);
        loan.table = &mut take(&mut loan.table)[..length];
        right(loan)
    }),
    ("a table exactly long enough refused", |loan| {
        let before = loan.table.to_vec();
        let number = right(loan);
        match number == 0 && loan.table.len() == ROW * *loan.count as usize {
            true => {
                loan.table.copy_from_slice(&before);
                refuse(11, loan)
            }
            false => number,
        }
    }),
    ("11 before 34 and 35", |loan| {
        let mut relative = *loan.card;
        relative[MARK] = 0;
        let number = right(loan);
        let is_short = || fill_table(&relative, &mut loan.table.to_vec()).number == 11;
        match matches!(number, 34 | 35) && is_short() {
            true => 11,
            false => number,
        }
    }),
    ("35 not met", |loan| match right(loan) {
        35 => {
            let mut level = *loan.card;
            level[GRADE] = 0;
            right_for(&level, loan)
        }
        number => number,
    }),
    ("7 for a narrow shoulder", |loan| {
        let is_narrow = profile(Card::new(loan.card).profile).is_some_and(|profile| {
            let least = i64::from(profile.least_shoulder);
            i64::from(loan.card[CARD_WIDENING]) + least > i64::from(profile.shoulder)
        });
        match right(loan) {
            8..=11 if is_narrow => 7,
            number => number,
        }
    }),
    ("a row past the last", |loan| {
        then(loan, |table, end| {
            if table.len() >= end + ROW {
                table.copy_within(end - ROW..end, end);
            }
        })
    }),
    ("a number past the last row", |loan| {
        then(loan, |table, end| {
            if table.len() > end {
                table[end] = 0;
            }
        })
    }),
    ("the tail cleared", |loan| {
        then(loan, |table, end| table[end..].fill(0))
    }),
    ("the table cleared on a refusal", |loan| {
        let number = right(loan);
        if number != 0 {
            loan.table.fill(0);
        }
        number
    }),
    ("the last row twice where its step is whole", |loan| {
        let number = right(loan);
        let end = ROW * *loan.count as usize;
        if number == 0 && loan.card[LENGTH] % loan.card[STEP] == 0 && loan.table.len() >= end + ROW
        {
            loan.table.copy_within(end - ROW..end, end);
            *loan.count += 1;
        }
        number
    }),
];

/// The right program, but for where its turns are.
fn turned(loan: &mut Loan, turns: fn(&Letters) -> Vec<(Turn, Station)>) -> u32 {
    let mut rules = RIGHT;
    rules.turns = turns;
    ruled(loan, &rules)
}

/// The same, and all rows that should be worked afresh are counted: past a turn that is left out rows are walked by the old rule.
fn walked_past(loan: &mut Loan, turns: fn(&Letters) -> Vec<(Turn, Station)>) -> u32 {
    let mut rules = RIGHT;
    rules.turns = turns;
    rules.fresh = |met| {
        let turns = met.letters.turns().into_iter();
        let past = turns.map(|(_, at)| met.letters.past(at));
        apart([0, met.letters.last()].into_iter().chain(past)).len()
    };
    ruled(loan, &rules)
}

/// All turns but this.
fn turns_but(letters: &Letters, missed: Turn) -> Vec<(Turn, Station)> {
    let mut turns = letters.turns();
    turns.retain(|(turn, _)| *turn != missed);
    turns
}

/// All turns, this one elsewhere.
fn turns_with(letters: &Letters, moved: Turn, to: Station) -> Vec<(Turn, Station)> {
    let mut turns = letters.turns();
    let found = turns.iter_mut().find(|(turn, _)| *turn == moved);
    if let Some((_, at)) = found {
        *at = to;
    }
    turns
}

/// Wrong as to which turns are met, and where.
const WRONG_TURNS: [(&str, Call); 19] = [
    ("the joint missed", |loan| {
        turned(loan, |letters| turns_but(letters, Turn::Joint))
    }),
    ("the inner slope's change missed", |loan| {
        turned(loan, |letters| turns_but(letters, INNER))
    }),
    ("the shoulder slope's change missed", |loan| {
        turned(loan, |letters| turns_but(letters, SLOPE))
    }),
    ("the inner shoulder's change missed", |loan| {
        turned(loan, |letters| turns_but(letters, SHOULDER))
    }),
    ("no turn met", |loan| turned(loan, |_| Vec::new())),
    ("the first turn alone met", |loan| {
        turned(loan, |letters| {
            letters.turns()[..1.min(letters.turns().len())].to_vec()
        })
    }),
    ("walked past the joint", |loan| {
        walked_past(loan, |letters| turns_but(letters, Turn::Joint))
    }),
    ("walked past the inner slope's change", |loan| {
        walked_past(loan, |letters| turns_but(letters, INNER))
    }),
    ("walked past the shoulder slope's change", |loan| {
        walked_past(loan, |letters| turns_but(letters, SLOPE))
    }),
    ("walked past the inner shoulder's change", |loan| {
        walked_past(loan, |letters| turns_but(letters, SHOULDER))
    }),
    ("walked past every turn", |loan| {
        walked_past(loan, |_| Vec::new())
    }),
    ("walked to the last but one past a turn", |loan| {
        walked_past(loan, |letters| {
            let mut turns = letters.turns();
            turns.retain(|&(_, at)| letters.past(at) + 1 != letters.last());
            turns
        })
    }),
    ("the shoulder slope's change as of an even road", |loan| {
        turned(loan, |letters| {
            turns_with(letters, SLOPE, letters.even_slope_at(letters.q))
        })
    }),
    ("the shoulder slope's change at q less p", |loan| {
        turned(loan, |letters| {
            turns_with(letters, SLOPE, letters.slope_at(letters.q - letters.p))
        })
    }),
    ("the inner slope's change at slope nought", |loan| {
        turned(loan, |letters| {
            turns_with(letters, INNER, letters.even_slope_at(0))
        })
    }),
    ("the joint at slope nought", |loan| {
        turned(loan, |letters| {
            let (top, bottom) = letters.joint();
            turns_with(letters, Turn::Joint, (top, 2 * bottom))
        })
    }),
    ("the joint as of an even road", |loan| {
        turned(loan, |letters| {
            turns_with(letters, Turn::Joint, letters.even_slope_at(letters.p))
        })
    }),
    ("the inner shoulder's change where c is used up", |loan| {
        turned(loan, |letters| {
            turns_with(letters, SHOULDER, letters.narrowed_at(0))
        })
    }),
    ("the inner shoulder's change where m is used up", |loan| {
        turned(loan, |letters| {
            turns_with(letters, SHOULDER, letters.narrowed_at(letters.spare()))
        })
    }),
];

/// The right program, but for what holds from a row that is worked afresh on.
fn sided(loan: &mut Loan, sides: fn(&Letters, usize, Sides) -> Sides) -> u32 {
    let mut rules = RIGHT;
    rules.sides = sides;
    ruled(loan, &rules)
}

/// Wrong as to which side is the greater, in rows worked afresh and past them.
const WRONG_SIDES: [(&str, Call); 10] = [
    ("the second stage never reached", |loan| {
        sided(loan, |_, _, sides| match sides.stage {
            Stage::Even => sides,
            _ => Sides {
                stage: Stage::First,
                ..sides
            },
        })
    }),
    ("the second stage from the start", |loan| {
        sided(loan, |_, _, sides| match sides.stage {
            Stage::Even => sides,
            _ => Sides {
                stage: Stage::Second,
                ..sides
            },
        })
    }),
    ("the inner lane never turned", |loan| {
        sided(loan, |_, _, sides| Sides {
            is_turned: false,
            ..sides
        })
    }),
    ("the inner lane turned from the start", |loan| {
        sided(loan, |_, _, sides| Sides {
            is_turned: true,
            ..sides
        })
    }),
    ("the shoulder never steeper than q", |loan| {
        sided(loan, |_, _, sides| Sides {
            is_steep: false,
            ..sides
        })
    }),
    ("the shoulder as steep as the turned lane", |loan| {
        sided(loan, |_, _, sides| Sides {
            is_steep: sides.is_turned,
            ..sides
        })
    }),
    ("the shoulder never kept", |loan| {
        sided(loan, |_, _, sides| Sides {
            is_kept: false,
            ..sides
        })
    }),
    ("the shoulder kept past the joint alone", |loan| {
        sided(loan, |_, _, sides| Sides {
            is_kept: sides.is_kept && sides.stage != Stage::First,
            ..sides
        })
    }),
    ("what held at the row before", |loan| {
        sided(loan, |letters, row, _| {
            letters.sides_at(letters.station(row.saturating_sub(1)), false)
        })
    }),
    ("what holds at the row after", |loan| {
        sided(loan, |letters, row, _| {
            letters.sides_at(letters.station(row + 1), false)
        })
    }),
];

/// The last row is made from the one before it, and counted as if it were not.
fn walk_to_the_last(rules: &mut Rules) {
    rules.besides = |_| vec![0];
    rules.past = |letters, _, at| match letters.past(at) {
        row if row == letters.last() => 0,
        row => row,
    };
    rules.fresh = |met| met.right() + 1;
}

/// The right program, but for what is written.
fn written(loan: &mut Loan, cell: fn(&Cell) -> i128) -> u32 {
    let mut rules = RIGHT;
    rules.cell = cell;
    ruled(loan, &rules)
}

/// Wrong as to the steps from row to row.
const WRONG_STEPS: [(&str, Call); 9] = [
    ("the last row stepped", |loan| {
        ruled_by(loan, |rules| {
            walk_to_the_last(rules);
            rules.station = |letters, row| row as i128 * letters.step;
        })
    }),
    ("the last row stepped, but for its station", |loan| {
        ruled_by(loan, walk_to_the_last)
    }),
    ("the last row stepped where its step is whole", |loan| {
        ruled_by(loan, |rules| {
            rules.besides = |letters| match letters.last_step() {
                0 => vec![0],
                _ => vec![0, letters.last()],
            };
        })
    }),
    ("the last row's station alone stepped", |loan| {
        ruled_by(loan, |rules| {
            rules.station = |letters, row| row as i128 * letters.step;
        })
    }),
    ("16 bits of the station", |loan| {
        ruled_by(loan, |rules| {
            rules.station = |letters, row| letters.station(row) & 0xffff;
        })
    }),
    ("16 bits of the numbers while walking", |loan| {
        written(loan, |cell| match cell.is_fresh {
            true => cell.number,
            false => (cell.number as i16).into(),
        })
    }),
    ("half a step past a turn", |loan| {
        begun_by(loan, |begun| {
            let mut line = begun.new;
            if !begun.turns.is_empty() {
                line.rise = mixed(line.rise.top(line.over).div_euclid(2), line.over);
            }
            line
        })
    }),
    ("the first row past a turn stepped twice", |loan| {
        begun_by(loan, |begun| {
            let mut line = begun.new;
            if !begun.turns.is_empty() {
                line.next();
            }
            line
        })
    }),
    ("the first row past a turn copied down", |loan| {
        begun_by(loan, |begun| {
            let mut line = begun.new;
            if !begun.turns.is_empty() {
                line.at = begun.before.at;
            }
            line
        })
    }),
];

/// The right program, but for how a line goes on from a row to the next.
fn stepped(loan: &mut Loan, next: fn(&Letters, usize, &mut Line)) -> u32 {
    let mut rules = RIGHT;
    rules.next = next;
    ruled(loan, &rules)
}

/// Goes on without the carry of what is added.
fn drop_carry(line: &mut Line) {
    let count = line.at.count + line.rise.count;
    line.next();
    line.at.count = count;
}

/// The same in one column.
fn drop_carry_in(here: bool, line: &mut Line) {
    match here {
        true => drop_carry(line),
        false => line.next(),
    }
}

/// Whether the rests make a whole unit.
fn carries(line: &Line) -> bool {
    line.at.rest + line.rise.rest >= line.over
}

/// The number in floats of 64 bits.
fn float(number: Mixed, over: i128) -> f64 {
    number.count as f64 + number.rest as f64 / over as f64
}

/// A float in whole units and a rest.
fn from_float(number: f64, over: i128) -> Mixed {
    let rest = (number - number.floor()) * over as f64;
    Mixed {
        count: number.floor() as i128,
        rest: (rest as i128).min(over - 1),
    }
}

/// Wrong as to what is carried.
const WRONG_CARRIES: [(&str, Call); 21] = [
    ("the carry dropped", |loan| {
        stepped(loan, |_, _, line| drop_carry(line))
    }),
    ("the widening's carry dropped", |loan| {
        stepped(loan, |_, column, line| {
            drop_carry_in(column == WIDENING, line)
        })
    }),
    ("the inner brow's carry dropped", |loan| {
        stepped(loan, |_, column, line| {
            drop_carry_in(column == INNER_BROW, line)
        })
    }),
    ("the inner edge's carry dropped", |loan| {
        stepped(loan, |_, column, line| {
            drop_carry_in(column == INNER_EDGE, line)
        })
    }),
    ("the axis's carry dropped", |loan| {
        stepped(loan, |_, column, line| drop_carry_in(column == AXIS, line))
    }),
    ("the outer edge's carry dropped", |loan| {
        stepped(loan, |_, column, line| {
            drop_carry_in(column == OUTER_EDGE, line)
        })
    }),
    ("the outer brow's carry dropped", |loan| {
        stepped(loan, |_, column, line| {
            drop_carry_in(column == OUTER_BROW, line)
        })
    }),
    ("the carry dropped in mm", |loan| {
        stepped(loan, |letters, _, line| {
            drop_carry_in(letters.unit == 1, line)
        })
    }),
    ("the carry dropped in cm", |loan| {
        stepped(loan, |letters, _, line| {
            drop_carry_in(letters.unit == 10, line)
        })
    }),
    ("the carry dropped below nought", |loan| {
        stepped(loan, |_, _, line| drop_carry_in(line.at.count < 0, line))
    }),
    ("the carry of the rise dropped", |loan| {
        stepped(loan, |_, _, line| {
            let count = line.rise.count + line.bend.count;
            line.next();
            line.rise.count = count;
        })
    }),
    ("a whole rest not carried", |loan| {
        stepped(loan, |_, _, line| {
            let count = line.at.count + line.rise.count;
            let is_whole = line.at.rest + line.rise.rest == line.over;
            line.next();
            if is_whole {
                line.at = Mixed {
                    count,
                    rest: line.over,
                };
            }
        })
    }),
    ("a rest one short of whole carried", |loan| {
        stepped(loan, |_, _, line| {
            let is_short = line.at.rest + line.rise.rest == line.over - 1;
            line.next();
            if is_short {
                line.at.count += 1;
                line.at.rest = 0;
            }
        })
    }),
    ("the rest kept after a carry", |loan| {
        stepped(loan, |_, _, line| {
            let rest = line.at.rest + line.rise.rest;
            line.next();
            line.at.rest = rest;
        })
    }),
    ("the rest lost after a carry", |loan| {
        stepped(loan, |_, _, line| {
            let carries = carries(line);
            line.next();
            if carries {
                line.at.rest = 0;
            }
        })
    }),
    ("the carry taken off", |loan| {
        stepped(loan, |_, _, line| {
            let carries = carries(line);
            line.next();
            line.at.count -= 2 * i128::from(carries);
        })
    }),
    ("the rests not added", |loan| {
        stepped(loan, |_, _, line| {
            let rest = line.at.rest;
            drop_carry(line);
            line.at.rest = rest;
        })
    }),
    ("carried by what the rests stood over before", |loan| {
        begun_by(loan, |begun| Line {
            over: begun.before.over,
            ..begun.new
        })
    }),
    ("32 bits of the rest", |loan| {
        stepped(loan, |_, _, line| {
            line.next();
            line.at.rest &= 0xffff_ffff;
        })
    }),
    ("in floats of 64 bits", |loan| {
        stepped(loan, |_, _, line| {
            let sum = float(line.at, line.over) + float(line.rise, line.over);
            line.next();
            line.at = from_float(sum, line.over);
        })
    }),
    ("in floats of 32 bits", |loan| {
        stepped(loan, |_, _, line| {
            let sum = float(line.at, line.over) as f32 + float(line.rise, line.over) as f32;
            line.next();
            line.at = from_float(sum.into(), line.over);
        })
    }),
];

/// The right program, but for how a line begins at a row that is worked afresh.
fn begun_by(loan: &mut Loan, begin: fn(&Begun) -> Line) -> u32 {
    let mut rules = RIGHT;
    rules.begin = begin;
    ruled(loan, &rules)
}

/// The right program, but for what is held to hold for the rise.
fn rising(loan: &mut Loan, sides: fn(Sides) -> Sides) -> u32 {
    let mut rules = RIGHT;
    rules.rise_sides = sides;
    ruled(loan, &rules)
}

/// The same line, if this holds without a bend.
fn straight_if(is_so: bool, line: Line) -> Line {
    match is_so {
        true => Line {
            bend: NOUGHT,
            ..line
        },
        false => line,
    }
}

/// Wrong as to what is added from row to row.
const WRONG_RISES: [(&str, Call); 20] = [
    ("the rise not renewed at the joint", |loan| {
        begun_by(loan, |begun| begun.with_old_rise_past(Turn::Joint))
    }),
    ("the rise not renewed where the lane is turned", |loan| {
        begun_by(loan, |begun| begun.with_old_rise_past(INNER))
    }),
    ("the rise not renewed where it is steeper", |loan| {
        begun_by(loan, |begun| begun.with_old_rise_past(SLOPE))
    }),
    ("the rise not renewed where it is kept at m", |loan| {
        begun_by(loan, |begun| begun.with_old_rise_past(SHOULDER))
    }),
    ("the rise renewed at the joint alone", |loan| {
        begun_by(loan, |begun| {
            match begun.turns.is_empty() || begun.is_past(Turn::Joint) {
                true => begun.new,
                false => begun.with_old_rise(),
            }
        })
    }),
    ("the outer brow's rise not renewed at the joint", |loan| {
        begun_by(loan, |begun| match begun.column {
            OUTER_BROW => begun.with_old_rise_past(Turn::Joint),
            _ => begun.new,
        })
    }),
    ("the rise's rest not renewed at the joint", |loan| {
        begun_by(loan, |begun| {
            let mut line = begun.new;
            line.rise.rest = begun.with_old_rise_past(Turn::Joint).rise.rest;
            line
        })
    }),
    ("the rise without its rest", |loan| {
        begun_by(loan, |begun| {
            let mut line = begun.new;
            line.rise.rest = 0;
            line
        })
    }),
    ("the rise rounded", |loan| {
        begun_by(loan, |begun| {
            let mut line = begun.new;
            line.rise.count += i128::from(2 * line.rise.rest >= line.over);
            line.rise.rest = 0;
            line
        })
    }),
    ("the bend left out", |loan| {
        begun_by(loan, |begun| straight_if(true, begun.new))
    }),
    ("the bend left out of the inner edge", |loan| {
        begun_by(loan, |begun| {
            straight_if(begun.column == INNER_EDGE, begun.new)
        })
    }),
    ("the bend left out of the inner brow", |loan| {
        begun_by(loan, |begun| {
            straight_if(begun.column == INNER_BROW, begun.new)
        })
    }),
    ("half the bend", |loan| {
        begun_by(loan, |begun| {
            let Line { bend, over, .. } = begun.new;
            let bend = mixed(bend.top(over).div_euclid(2), over);
            Line { bend, ..begun.new }
        })
    }),
    ("the bend twice", |loan| {
        begun_by(loan, |begun| {
            let Line { bend, over, .. } = begun.new;
            let bend = bend.plus(bend, over);
            Line { bend, ..begun.new }
        })
    }),
    ("bent before the rise is added", |loan| {
        stepped(loan, |_, _, line| {
            line.rise = line.rise.plus(line.bend, line.over);
            line.at = line.at.plus(line.rise, line.over);
        })
    }),
    ("the shoulder not narrowed from row to row", |loan| {
        rising(loan, |sides| Sides {
            is_kept: true,
            ..sides
        })
    }),
    ("the kept shoulder narrowed from row to row", |loan| {
        rising(loan, |sides| Sides {
            is_kept: false,
            ..sides
        })
    }),
    ("the steep shoulder's slope not turned on", |loan| {
        rising(loan, |sides| Sides {
            is_steep: false,
            ..sides
        })
    }),
    ("the turned lane not turned on", |loan| {
        rising(loan, |sides| Sides {
            is_turned: false,
            is_steep: false,
            ..sides
        })
    }),
    ("the inner lane turned from row to row at once", |loan| {
        rising(loan, |sides| Sides {
            is_turned: true,
            ..sides
        })
    }),
];

/// Wrong as to where halfway goes in rows that are walked, or to what is cut off them.
const WRONG_HALVES: [(&str, Call); 7] = [
    ("the tie rule lost while walking", |loan| {
        begun_by(loan, |begun| begun.with_other_tie())
    }),
    ("the tie rule lost while walking in mm", |loan| {
        begun_by(loan, |begun| match begun.letters.unit {
            1 => begun.with_other_tie(),
            _ => begun.new,
        })
    }),
    ("the tie rule lost while walking in cm", |loan| {
        begun_by(loan, |begun| match begun.letters.unit {
            10 => begun.with_other_tie(),
            _ => begun.new,
        })
    }),
    ("the tie rule lost past the joint", |loan| {
        begun_by(loan, |begun| match begun.is_past(Turn::Joint) {
            true => begun.with_other_tie(),
            false => begun.new,
        })
    }),
    ("the tie rule lost up to the first turn", |loan| {
        begun_by(loan, |begun| match begun.turns.is_empty() {
            true => begun.with_other_tie(),
            false => begun.new,
        })
    }),
    ("cut to whole units while walking", |loan| {
        begun_by(loan, |begun| begun.with_half(0))
    }),
    ("up to the next unit while walking", |loan| {
        begun_by(loan, |begun| begun.with_half(begun.new.over - 1))
    }),
];

/// The right program, but for where the axis stands.
fn with_axis(loan: &mut Loan, axis: fn(&Letters, i128, i128) -> i128) -> u32 {
    let mut rules = RIGHT;
    rules.axis = axis;
    ruled(loan, &rules)
}

/// Wrong as to the heights of absolute cards.
const WRONG_AXES: [(&str, Call); 12] = [
    ("the height lost in rows that are walked", |loan| {
        written(loan, |cell| {
            match cell.is_fresh || cell.column == WIDENING {
                true => cell.number,
                false => cell.number - cell.letters.benchmark() / cell.letters.size(),
            }
        })
    }),
    ("the height lost past the first turn", |loan| {
        with_axis(loan, |letters, from, station| match from {
            0 => letters.axis(station),
            _ => letters.axis(station) - letters.benchmark(),
        })
    }),
    ("the climb lost from row to row", |loan| {
        with_axis(loan, |letters, from, _| letters.axis(from))
    }),
    ("the climb turned round from row to row", |loan| {
        with_axis(loan, |letters, from, station| {
            letters.axis(from) - letters.climb() * (station - from)
        })
    }),
    ("the grade's sign lost from row to row", |loan| {
        with_axis(loan, |letters, from, station| {
            letters.axis(from) + letters.climb().abs() * (station - from)
        })
    }),
    ("the climb twice from row to row", |loan| {
        with_axis(loan, |letters, from, station| {
            letters.axis(from) + 2 * letters.climb() * (station - from)
        })
    }),
    ("the climb begun anew in rows worked afresh", |loan| {
        with_axis(loan, |letters, from, station| letters.axis(station - from))
    }),
    ("the climb of a whole step to the last row", |loan| {
        with_axis(loan, |letters, from, station| {
            let is_last = from == letters.length && letters.last_step() > 0;
            let more = i128::from(is_last) * (letters.step - letters.last_step());
            letters.axis(station + more)
        })
    }),
    ("the climb cut to whole units from row to row", |loan| {
        with_axis(loan, |letters, from, station| {
            let climb = letters.climb() * (station - from);
            letters.axis(from) + climb - climb.rem_euclid(letters.size())
        })
    }),
    ("the axis cut to whole units past a turn", |loan| {
        with_axis(loan, |letters, from, station| {
            let rest = letters.axis(from).rem_euclid(letters.size());
            letters.axis(station) - i128::from(letters.is_absolute && from > 0) * rest
        })
    }),
    ("the axis alone climbs from row to row", |loan| {
        begun_by(loan, |begun| {
            let (mut line, letters) = (begun.new, begun.letters);
            if begun.column != WIDENING && begun.column != AXIS {
                let climb = letters.climb() * letters.step * (line.over / letters.size());
                line.rise = mixed(line.rise.top(line.over) - climb, line.over);
            }
            line
        })
    }),
    ("a relative card's axis climbs too", |loan| {
        with_axis(loan, |letters, from, station| {
            let is_beside = !letters.is_absolute && (-80..=80).contains(&letters.grade);
            letters.axis(station) + i128::from(is_beside) * letters.grade * (station - from)
        })
    }),
];

/// The same rules in other forms.
const OTHER_FORMS: [(&str, Call); 7] = [
    ("by adding and carrying", |loan| ruled(loan, &RIGHT)),
    ("a row on a turn already by the new rule", |loan| {
        sided(loan, |letters, row, _| {
            letters.sides_at(letters.station(row), true)
        })
    }),
    ("turns down to a whole mm", |loan| {
        past_by(loan, |letters, _, (top, bottom)| {
            letters.past((top / bottom, 1))
        })
    }),
    ("the first row past a turn looked for", |loan| {
        past_by(loan, |letters, _, (top, bottom)| {
            let is_past = |row: &usize| letters.station(*row) * bottom > top;
            (0..letters.last()).find(is_past).unwrap_or(letters.last())
        })
    }),
    ("the inner slope's change at the joint too", |loan| {
        turned(loan, |letters| {
            let mut turns = letters.turns();
            if letters.v > letters.p && !letters.is_even() {
                turns.push((INNER, letters.joint()));
            }
            turns
        })
    }),
    ("every row worked afresh, those due counted", |loan| {
        ruled_by(loan, |rules| {
            rules.besides = |letters| (0..=letters.last()).collect();
            rules.fresh = |met| {
                let past = met.turns.iter().map(|turn| turn.2);
                apart([0, met.letters.last()].into_iter().chain(past)).len()
            };
        })
    }),
    ("carried where the rest falls", |loan| {
        stepped(loan, |_, _, line| {
            let Line { at, rise, .. } = *line;
            let rest = (at.rest + rise.rest) % line.over;
            line.next();
            line.at = Mixed {
                count: at.count + rise.count + i128::from(rest < at.rest),
                rest,
            };
        })
    }),
];

/// The first card for which the program differs from the paper.
fn first_difference(program: Call) -> Option<u64> {
    (0..FIRST_CARDS).find(|&index| {
        let (_, filled) = card(DEFAULT.seed, index, |_| [0, 0]);
        let case = walk(DEFAULT.seed, index, &filled, program);
        !case.due.unlike(&case.came).is_empty()
    })
}

/// Without this, a comparison that always differs would find every wrong program.
#[test]
fn right_programs_do_not_differ() {
    assert_eq!(first_difference(right), None);
    for (name, program) in OTHER_FORMS {
        assert_eq!(first_difference(program), None, "{name}");
    }
}

#[test]
fn wrong_past_are_found() {
    all_are_found(first_difference, &WRONG_PAST);
}

#[test]
fn wrong_counts_are_found() {
    all_are_found(first_difference, &WRONG_COUNTS);
}

#[test]
fn wrong_refusals_are_found() {
    all_are_found(first_difference, &WRONG_REFUSALS);
}

#[test]
fn wrong_turns_are_found() {
    all_are_found(first_difference, &WRONG_TURNS);
}

#[test]
fn wrong_sides_are_found() {
    all_are_found(first_difference, &WRONG_SIDES);
}

#[test]
fn wrong_steps_are_found() {
    all_are_found(first_difference, &WRONG_STEPS);
}

#[test]
fn wrong_carries_are_found() {
    all_are_found(first_difference, &WRONG_CARRIES);
}

#[test]
fn wrong_rises_are_found() {
    all_are_found(first_difference, &WRONG_RISES);
}

#[test]
fn wrong_halves_are_found() {
    all_are_found(first_difference, &WRONG_HALVES);
}

#[test]
fn wrong_axes_are_found() {
    all_are_found(first_difference, &WRONG_AXES);
}
