#!/usr/bin/env python3
"""Makes the cards with one figure made wrong in each, as wrong programs that walk from row to row would give it.

    python3 tools/walk_wrong.py > runs/wrong/walk.text

A wrong program is tools/reckon_walk.py with other rows worked afresh, or with another rule in the place of one of its own: of each column in
which its rows differ from the right ones, the first figure that does is the wrong one of a card. runs/walk.c says what the lines are.
"""
import sys
from fractions import Fraction

import reckon_walk
from day_data import LONGEST, RAISED, RAMP, REFUSED, SEVEN, altered, body_of, changed, in_cm, on, one_up
from minsk_wrong import Changed
from reckon import PROFILES, stations
from reckon_walk import first_past, gains, joint, lengths, onward, split, turns, walked_rows
from walk_data import ENOUGH, HALVES, ROW_NUMBERS, SMALL, STAGED, put_out, rowed, run, walked

# SMALL and STAGED with rows so close that several are made one from another between two that are worked afresh.
CLOSE, STAGED_CLOSE = changed(SMALL, 6, 3001), changed(STAGED, 6, 4999)
# Below the benchmark, where numbers that are rounded toward nought are other ones.
LOW, LOW_IN_CM = on(CLOSE, -50000, -7), on(in_cm(STAGED_CLOSE), -50000, -7)


# ---- wrong rows ----

def wrong_rows(card, fresh=None, **names):
    """For each column in which a wrong program differs the card with the first figure that does; it must differ in one."""
    body = body_of(card)
    _, right, own = walked(card)
    with Changed(reckon_walk, **names):
        wrong = list(walked_rows(body, own if fresh is None else fresh))
    found = {}
    for row, (good, bad) in enumerate(zip(right, wrong, strict=True)):
        for column in (column for column in range(ROW_NUMBERS) if good[column] != bad[column]):
            found.setdefault(column, (row, bad[column]))
    if not found:
        sys.exit(f"{card}, {fresh}, {names}: does not differ")
    for column, (row, figure) in sorted(found.items()):
        yield altered(run(card, shown=(row,)), 2, 2 + column, figure)


def without(card, *names):
    """The rows worked afresh, but for those that are so for these turns alone."""
    body = body_of(card)
    kept = {first_past(body, station) for name, station in turns(body) if name not in names}
    return sorted({0, walked(card)[2][-1]} | kept)


def moved(card, by):
    """The same rows, but each that is past a turn so many rows later, or earlier."""
    first, *middle, last = walked(card)[2]
    return sorted({first, last} | {min(row + by, last) for row in middle})


def wrong_pieces():
    """Programs that work other rows afresh."""
    yield "The row past the joint made from the one before; past the change of a slope; of the inner shoulder.", [
        lines for card, *names in (
            (STAGED_CLOSE, "joint", "inner slope"), (in_cm(STAGED_CLOSE), "joint", "inner slope"), (changed(SEVEN, 6, 9001), "joint"),
            (CLOSE, "inner slope"), (STAGED_CLOSE, "shoulder slope"), (CLOSE, "shoulder slope"),
            (CLOSE, "inner shoulder"), (STAGED_CLOSE, "inner shoulder"),
            (on(CLOSE, 250000, -35), "inner slope", "shoulder slope", "inner shoulder"))
        for lines in wrong_rows(card, without(card, *names))]
    yield "Only the first row worked afresh, and the last one made by a whole step.", [
        lines for card in (CLOSE, on(in_cm(STAGED_CLOSE), 0, 40)) for lines in wrong_rows(card, walked(card)[2][:-1])]
    yield "A row worked afresh too late, the one after it; too early, the one before a change.", [
        lines for card in (CLOSE, in_cm(STAGED_CLOSE)) for by in (1, -1) for lines in wrong_rows(card, moved(card, by))]


# ---- wrong steps ----

def each_rounded(rests, rises, bends, unit):
    """No remainder is carried: each gain is rounded by itself."""
    return [split(rise, unit)[0] for rise in rises], rests, [rise + bend for rise, bend in zip(rises, bends)]


def never_carried(rests, rises, bends, unit):
    """A remainder that has come to a whole unit begins again, and the number has nothing of it."""
    floors = [rise // 1 for rise in rises]
    left = [split(rest + rise, unit)[1] for rest, rise in zip(rests, rises)]
    return floors, left, [rise + bend for rise, bend in zip(rises, bends)]


def begun_again(rests, rises, bends, unit):
    """The remainder is nought again after each row that carried."""
    carried, left, others = onward(rests, rises, bends, unit)
    return carried, [Fraction(0) if carry else rest for carry, rest in zip(carried, left)], others


def straight(rests, rises, bends, unit):
    """The gains do not grow themselves: every line is taken for a straight one."""
    return *onward(rests, rises, bends, unit)[:2], rises


def grown_first(rests, rises, bends, unit):
    """The gains grow before they are added."""
    return onward(rests, [rise + bend for rise, bend in zip(rises, bends)], bends, unit)


def toward_nought(rests, rises, bends, unit):
    """What is carried is cut toward nought, as C divides."""
    sums = [rest + rise for rest, rise in zip(rests, rises)]
    return [int(length) for length in sums], [length - int(length) for length in sums], [rise + bend for rise, bend in zip(rises, bends)]


def other_tie(rests, rises, bends, unit):
    """A remainder of just half a unit is carried as in the other unit."""
    def other(length):
        number, left = split(length, unit)
        return (number - 1 if unit == 1 else number + 1, -left) if abs(left) == Fraction(1, 2) else (number, left)
    carried, left = zip(*(other(rest + rise) for rest, rise in zip(rests, rises)))
    return carried, left, [rise + bend for rise, bend in zip(rises, bends)]


def without_remainders(card, d):
    """A row worked afresh leaves no remainders."""
    return [split(length, card[7])[0] for length in lengths(card, d)], [Fraction(0)] * 6


def from_start(card, d):
    """The gains of the first piece, all along."""
    return [(rise + bend * Fraction(d) / card[6], bend) for rise, bend in gains(card, 0)]


def by_slope(card, d):
    """The gain over one step as the line's slope at the row, times the step."""
    return [(rise - bend / 2, bend) for rise, bend in gains(card, d)]


def by_row(card, d):
    """The gain over one step reckoned from whole numbers: as far as the next row's number is from this one's."""
    now, then = ([split(length, card[7])[0] for length in lengths(card, place)] for place in (d, min(d + card[6], card[3])))
    return [(Fraction(second - first), bend) for first, second, (_, bend) in zip(now, then, gains(card, d))]


def level_axis(card, d):
    """The gains of a relative card."""
    return gains(card[:8], d)


WRONG_STEPS = (
    ("No remainder carried; one that comes to a whole unit lost; one that begins again after it.", "onward",
     each_rounded, never_carried, begun_again),
    ("The gains do not grow, or grow too soon.", "onward", straight, grown_first),
    ("What is carried cut toward nought.", "onward", toward_nought),
    ("A row worked afresh leaves no remainder.", "begun", without_remainders),
    ("The gains of the first piece throughout; the slope for the gain; a gain between rounded numbers.", "gains", from_start, by_slope, by_row),
)


def wrong_steps():
    """Programs that add or carry otherwise."""
    for shown, name, *others in WRONG_STEPS:
        yield shown, [lines for other in others for card in (LOW, LOW_IN_CM) for lines in wrong_rows(card, **{name: other})]
    yield "The grade lost between rows worked afresh.", [
        lines for card in (LOW, LOW_IN_CM) for lines in wrong_rows(card, gains=level_axis)]
    yield "A remainder of half a unit carried as in the other unit.", [
        lines for card in (HALVES[1][0], HALVES[2][0], HALVES[4][0], HALVES[6][0]) for lines in wrong_rows(card, onward=other_tie)]


# ---- wrong counts ----

def wrong_counts(other, *cards):
    """Cards whose count of rows worked afresh is what this gives of them."""
    for card in cards:
        yield altered(run(card, shown=(0,)), 1, 3, other(card))


def by_stations(names_and_stations, past=first_past):
    """A count of the first row, the last, and the first past each of these stations."""
    def count(card):
        body = body_of(card)
        return len({0, walked(card)[2][-1]} | {past(body, station) for _, station in names_and_stations(body)})
    return count


def at_or_past(body, station):
    """The first row that is not before a station."""
    return next(i for i, d in enumerate(stations(body[3], body[6])) if d >= station)


def of_joint(change):
    """The turns, with another joint."""
    return lambda body: [(name, change(station) if name in ("joint", "inner slope") else station) for name, station in turns(body)]


def in_every_runoff(body):
    """The turns, with a joint where the runoff has none."""
    return [*turns(body), ("joint", joint(body))]


def of_widening(of):
    """The turns, with the inner shoulder's where the widening is what this gives of the profile."""
    def others(body):
        station = Fraction(of(PROFILES[body[0]]) * body[3], body[5])
        return [turn for turn in turns(body) if turn[0] != "inner shoulder"] + [("inner shoulder", station)]
    return others


def wrong_counting():
    """Programs that count other rows."""
    coincident = (
        rowed((2, 2, 100, 50000, 60, 2000)), rowed((3, 2, 300, 100000, 40, 2000), 19000), rowed((2, 2, 400, 120000, 41, 1001), 16000, 10))
    staged = (STAGED, rowed((1, 2, 600, 120000, 60, 500), 10000, 10))
    on_joint, early = rowed((4, 1, 150, 60001, 30, 300)), rowed((2, 2, 300, 100000, 60, 2100), 2029)
    touching = (rowed((2, 2, 150, 60000, 40, 1000), 5995), rowed((2, 2, 800, 130000, 20, 600), 13001, 10), rowed((3, 1, 60, 40000, 20, 0), 7000))
    yield "The count of rows, one of none, of the first alone, without the first or the last, of one row more.", [
        *wrong_counts(lambda card: len(walked(card)[1]), SMALL, RAMP, LONGEST), *wrong_counts(lambda card: 0, SMALL, RAMP),
        *wrong_counts(lambda card: 1, RAMP), *wrong_counts(lambda card: len(walked(card)[2]) - 1, SMALL, in_cm(STAGED), SEVEN),
        *wrong_counts(lambda card: len(walked(card)[2]) + 1, RAMP, STAGED)]
    yield "Turns counted and not rows: two past which the same row is the first; the joint and the inner slope's change apart.", [
        *wrong_counts(lambda card: 2 + len(turns(body_of(card))), *coincident, *staged),
        *wrong_counts(lambda card: 2 + len({name.replace("inner slope", "joint") for name, _ in turns(body_of(card))}), *coincident[:2])]
    yield "A rule that only touches counted; the last row counted again where a change is in the last step.", [
        *wrong_counts(lambda card: len(walked(card)[2]) + 1, *touching), *wrong_counts(lambda card: 3, rowed((3, 1, 60, 40000, 20, 1003), 6500))]
    yield "No row past the joint, past a slope's change, past the inner shoulder's.", [
        *wrong_counts(lambda card: len(without(card, "joint", "inner slope")), SEVEN, *staged),
        *wrong_counts(lambda card: len(without(card, "inner slope")), SMALL),
        *wrong_counts(lambda card: len(without(card, "shoulder slope")), SMALL, STAGED),
        *wrong_counts(lambda card: len(without(card, "inner shoulder")), SMALL, STAGED)]
    yield "A row on a station taken for one past it; the joint rounded up to a whole mm, or 1 mm early; a joint in an even runoff.", [
        *wrong_counts(by_stations(turns, at_or_past), on_joint, rowed((3, 2, 300, 100000, 50, 2200), 20000, 10)),
        *wrong_counts(by_stations(of_joint(lambda station: station + Fraction(1, 3))), early),
        *wrong_counts(by_stations(of_joint(lambda station: station - 1)), on_joint),
        *wrong_counts(by_stations(in_every_runoff), rowed((2, 2, 200, 80000, 60, 700), 3000), rowed((1, 1, 200, 90000, 60, 0), 4000, 10))]
    yield "The inner shoulder's change where the widening is the least shoulder, or all of the shoulder.", [
        *wrong_counts(by_stations(of_widening(lambda profile: profile[4])), rowed((2, 2, 200, 70000, 40, 1550), 15200)),
        *wrong_counts(by_stations(of_widening(lambda profile: profile[1])), rowed((2, 2, 200, 70000, 40, 2600), 15200))]
    yield "A refused card with rows worked afresh; a card in a table that is too short.", [
        *(altered(run(card), 1, 3, count) for card, count in zip((*REFUSED[:4], REFUSED[6], REFUSED[9]), (1, 2, 2, 2, 3, 2), strict=True)),
        altered(run(SMALL, 62), 1, 3, 5), altered(run(SMALL, 0, null=True), 1, 3, 1), altered(run(LONGEST, ENOUGH - 1), 1, 3, 2)]


# ---- replies and tables ----

def wrong_replies():
    """Other numbers, other counts, and tables that are written beside their rows."""
    rows = len(walked(SMALL)[1])
    room = ROW_NUMBERS * rows
    few, exact, longer = (run(SMALL, length, shown=(0,)) for length in (room - 1, room, ENOUGH))
    late = run(REFUSED[9], 20)
    yield "A reason not given; 7 for a narrow shoulder; 35 before 34; 11 before a card's own reason; nothing refused.", [
        *(altered(run(card), 1, 1, 0) for card in REFUSED), altered(run(rowed((2, 2, 400, 100000, 60, 1001))), 1, 1, 7),
        altered(run(changed(RAISED, 9, 9000001, 10, 81)), 1, 1, 35), altered(late, 1, 1, 11), altered(run(RAMP), 1, 1, 11)]
    yield "One number too few passes, an exact table does not; a count of numbers, of a row less, of one more; a count of a refused card.", [
        altered(few, 1, 1, 0), altered(exact, 1, 1, 11), *(altered(exact, 1, 2, count) for count in (room, rows - 1, rows + 1)),
        altered(few, 1, 2, rows), altered(late, 1, 2, 3)]
    yield "The table written up to its end, past it, before its start, by a row more or less; written or cleared on a refusal.", [
        altered(longer, 3, 1, ENOUGH), *(altered(exact, 3, 1, place) for place in (room + 1, -1, room + ROW_NUMBERS, room - ROW_NUMBERS)),
        altered(few, 2, 1, room - 1), altered(few, 2, 1, 56), altered(late, 2, 1, 20)]


def wrong_cards():
    """What wrong programs would give, and the cards with one such figure each."""
    yield "A whole table: each figure one too high.", list(one_up(run(SMALL)))
    for groups in (wrong_pieces, wrong_steps, wrong_counting, wrong_replies):
        yield from groups()


if __name__ == "__main__":
    put_out(wrong_cards())
