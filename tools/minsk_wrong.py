#!/usr/bin/env python3
"""Makes the cards with one figure made wrong in each, as wrong programs of the Minsk handbook's method would give it.

    python3 tools/minsk_wrong.py > runs/wrong/minsk.text

A wrong program is tools/reckon_minsk.py with another rule in the place of one of its own: of each column in which its rows differ from the
right ones, the first figure that does is the wrong one of a card. runs/minsk.c says what the lines are.
"""
import sys
from fractions import Fraction

import reckon
import reckon_minsk
from day_data import altered, changed, in_cm, on
from minsk_data import ENOUGH, EXACT_STAGE, II, III, IN_CM, IN_MM, RAISED, SMALL, put_out, rowed, run
from reckon_minsk import ROW_NUMBERS, WIDTHS, first_stage, joint, lines_at, outer_slope, single

# Cards whose rows stand closely enough for what starts, grows and ends between two rows of SMALL.
CLOSE, GROWING, WIDER = changed(SMALL, 6, 2000), changed(SMALL, 6, 5000), changed(SMALL, 5, 1100)


# ---- one wrong figure ----

class Changed:
    """Lets other functions or figures stand in a module for a while: a wrong program."""

    def __init__(self, module, **names):
        self.module, self.names, self.kept = module, names, {name: getattr(module, name) for name in names}

    def __enter__(self):
        for name, other in self.names.items():
            setattr(self.module, name, other)

    def __exit__(self, *_):
        for name, kept in self.kept.items():
            setattr(self.module, name, kept)


def wrong_rows(card, **names):
    """For each column in which a wrong program differs the card with the first figure that does; it must differ in one."""
    body = reckon_minsk.body_of(card)
    right = reckon_minsk.rows_of(body)
    with Changed(reckon if "rounded" in names else reckon_minsk, **names):
        wrong = reckon_minsk.rows_of(body)
    found = {}
    for row, (good, bad) in enumerate(zip(right, wrong, strict=True)):
        for column in (column for column in range(ROW_NUMBERS) if good[column] != bad[column]):
            found.setdefault(column, (row, bad[column]))
    if not found:
        sys.exit(f"{card}, {names}: does not differ")
    for column, (row, figure) in sorted(found.items()):
        yield altered(run(card, shown=(row,)), 2, 2 + column, figure)


def wrong_reply(number, *cards, room=ENOUGH):
    """Cards with another number for the one call, and for the other."""
    for card in cards:
        lines = run(card, room, shown=(0,))
        yield altered(lines, 1, 1, number)
        yield altered(lines, 1, 2, number)


def one_up(lines):
    """A card for each figure, which is one too high in it."""
    first = {"n": 1, "r": 2, "f": 3, "k": 1}
    for at, line in enumerate(lines):
        for number in range(first.get(line[0], len(line)), len(line)):
            yield altered(lines, at, number, line[number] + 1)


# ---- lines ----

class At:
    """The right lines at a station, and what wrong ones are made of."""

    def __init__(self, card, d):
        self.lines, self.outer = lines_at(card, d), outer_slope(card, d)
        self.widening, self.axis, self.outer_edge, self.outer_strip, self.outer_brow, self.inner_edge, self.inner_strip, self.inner_brow = self.lines
        self.inner = max(self.outer, Fraction(20))
        self.h, self.c, self.s, self.m = WIDTHS[card[0]]
        self.width = max(self.m, self.c - self.widening)

    def brow(self, slope, width):
        """An inner brow whose shoulder beyond the strip has this slope and this width."""
        return {8: self.inner_strip - width * slope}


def of_lines(change):
    """Lines of which some are others."""
    def changed_lines(card, d):
        lines = lines_at(card, d)
        for column, line in change(At(card, d)).items():
            lines[column - 1] = line
        return lines
    return changed_lines


def strip_at_40(at):
    strip = at.inner_edge - at.s * max(at.inner, 40)
    return {7: strip, 8: strip - (at.width - at.s) * max(at.inner, 40)}


def turning_inner_lane(at):
    """The inner lane has the outer one's slope without its sign in the first stage."""
    if at.outer >= 20:
        return {}
    slope = abs(at.outer)
    return {6: at.axis - (at.h + at.widening) * slope, 7: at.axis - (at.h + at.s + at.widening) * slope}


WRONG_LINES = (
    ("The inner strip at 40 per mille too; the outer shoulder at 40 per mille where the lane falls outwards.", SMALL, strip_at_40,
     lambda at: {5: at.outer_edge - (at.c - at.s) * 40} if at.outer < 0 else {}),
    ("The handbook's inner shoulder, which keeps 40 per mille; at the inner slope throughout; as wide beside the widening as before it.", SMALL,
     lambda at: at.brow(40, at.width - at.s), lambda at: at.brow(at.inner, at.width - at.s), lambda at: at.brow(max(at.inner, 40), at.c - at.s)),
    ("The least shoulder forgotten, or counted without the strip; the shoulder beside the strip, and not with it.", WIDER,
     lambda at: at.brow(max(at.inner, 40), at.c - at.widening - at.s), lambda at: at.brow(max(at.inner, 40), max(at.m, at.c - at.widening - at.s)),
     lambda at: {5: at.outer_strip + at.c * at.outer, **at.brow(max(at.inner, 40), at.width)}),
    ("The inner lane turns in the first stage.", SMALL, turning_inner_lane),
    ("The widening does not move the inner edge; it moves the edge and not the strip.", SMALL,
     lambda at: {6: at.axis - at.h * at.inner}, lambda at: {7: at.inner_strip + at.widening * at.inner, 8: at.inner_brow + at.widening * at.inner}),
    ("Columns exchanged: inner and outer lines, outer strip and brow, inner strip and brow, widening and axis.", SMALL,
     lambda at: {3: at.inner_edge, 4: at.inner_strip, 5: at.inner_brow, 6: at.outer_edge, 7: at.outer_strip, 8: at.outer_brow},
     lambda at: {4: at.outer_brow, 5: at.outer_strip}, lambda at: {7: at.inner_brow, 8: at.inner_strip},
     lambda at: {1: at.axis / 1000, 2: at.widening * 1000}),
    ("The columns of a row of seven numbers, from the inner brow to the outer one.", SMALL,
     lambda at: {2: at.inner_brow, 3: at.inner_edge, 4: at.axis, 5: at.outer_edge, 6: at.outer_brow}),
    ("The other lines lie about nought, and not about the axis.", RAISED,
     lambda at: {column: at.lines[column - 1] - at.axis for column in range(3, 9)}),
)


# ---- widening and slope ----

def full_at(card):
    return Fraction(card[3] * card[2], 500)


def grown(card, d, start, length):
    """A widening that grows in a straight line over this length from this station."""
    return card[5] * min(max((d - start) / length, Fraction(0)), Fraction(1))


WRONG_WIDENINGS = (
    ("The widening starts at L x R / 500; it goes on growing past it; it ends there.",
     lambda card, d: grown(card, d, full_at(card), 20000), lambda card, d: card[5] * max(d - full_at(card) + 20000, Fraction(0)) / 20000,
     lambda card, d: Fraction(0) if d > full_at(card) else grown(card, d, full_at(card) - 20000, 20000)),
    ("It grows over the whole clothoid, as by 503-0-45; from the first stage's end; up to the clothoid's end.",
     lambda card, d: grown(card, d, Fraction(0), card[3]), lambda card, d: grown(card, d, joint(card), full_at(card) - joint(card)),
     lambda card, d: grown(card, d, Fraction(card[3] - 20000), 20000)),
    ("It is there at once, from where it should start or from where it should be full.",
     lambda card, d: Fraction(card[5] if d > full_at(card) - 20000 else 0), lambda card, d: Fraction(card[5] if d >= full_at(card) else 0)),
)


def straight(d, start, end, first, last):
    """A slope that goes in a straight line from the first to the last."""
    return first + (last - first) * (d - start) / Fraction(end - start)


def at_3(card, d):
    """The outer edge climbs at 3 per mille, from the same start."""
    h = WIDTHS[card[0]][0]
    start = joint(card) - first_stage(h)
    return min(-20 + 3 * (d - start) / h, outer_slope(card, d)) if d > start else Fraction(-20)


WRONG_SLOPES = (
    ("One stage, from -20 at the start to full slope; the outer edge climbs at 3 per mille.",
     lambda card, d: straight(d, 0, card[3], -20, card[4]), at_3),
    ("The first stage from the start of the clothoid on; the second from 0 at its start.",
     lambda card, d: straight(d, 0, joint(card), -20, 20) if d < joint(card) else outer_slope(card, d),
     lambda card, d: straight(d, joint(card), card[3], 0, card[4]) if d > joint(card) else outer_slope(card, d)),
)


def wrong_lines():
    for shown, card, *changes in WRONG_LINES:
        yield shown, [lines for change in changes for lines in wrong_rows(card, lines_at=of_lines(change))]
    for shown, *others in WRONG_WIDENINGS:
        yield shown, [lines for other in others for lines in wrong_rows(GROWING, widening_at=other)]
    for shown, *others in WRONG_SLOPES:
        yield shown, [lines for other in others for lines in wrong_rows(CLOSE, outer_slope=other)]


# ---- figures, the axis, rounding ----

def wrong_figures():
    """Figures of the other method, or of another profile, in the handbook's place."""
    yield "The other method's half, its shoulder, and both for II: 3750.", [
        lines for h, c in ((3750, 3000), (3500, 3750), (3750, 3750)) for lines in wrong_rows(II, WIDTHS={1: (h, c, 750, 1500)})]
    yield "Another profile's strip, and another's least shoulder.", [
        *wrong_rows(II, WIDTHS={1: (3500, 3000, 500, 1500)}), *wrong_rows(III, WIDTHS={2: (3500, 2500, 750, 1500)}),
        *wrong_rows(changed(SMALL, 5, 1200), WIDTHS={3: (3000, 2000, 500, 1500)}),
        *wrong_rows(changed(III, 5, 1400), WIDTHS={2: (3500, 2500, 500, 1000)})]
    yield "The shoulder's slope of 503-0-45 for IV, 50; a crown of 30.", [
        *wrong_rows(SMALL, SHOULDER=50), *wrong_rows(changed(CLOSE, 3, 170000), CROWN=30)]
    yield "The first stage half as long; a joint at L x R / 1000; one rounded to a whole mm; one that starts where it should end.", [
        *wrong_rows(CLOSE, first_stage=lambda h: Fraction(h * 20, 5)),
        *wrong_rows(CLOSE, joint=lambda card: Fraction(card[3] * card[2], 1000)),
        *wrong_rows(rowed((3, 1, 401, 299999, 60, 0), 1001), joint=lambda card: Fraction(card[3] * card[2] // 2000)),
        *wrong_rows(CLOSE, joint=lambda card: Fraction(card[3] * card[2], 2000) + 24000)]


def wrong_axes():
    yield "The axis at the height of 503-0-45's.", list(wrong_rows(SMALL, axis_at=lambda card, d: Fraction(160000)))
    yield "The grade lost, its sign lost, the height lost, the grade times the row.", [
        lines for axis in (lambda card, d: 1000 * card[8], lambda card, d: 1000 * card[8] - card[9] * d, lambda card, d: card[9] * d,
                           lambda card, d: 1000 * card[8] + card[9] * d // card[6])
        for lines in wrong_rows(RAISED, axis_at=lambda card, d, axis=axis: Fraction(axis(card, d)))]


def lower(length, unit):
    """To the nearest count, halfway to the lower number."""
    return -((unit - 2 * length) // (2 * unit))


def higher(length, unit):
    """To the nearest count, halfway to the higher number."""
    return (2 * length + unit) // (2 * unit)


def away(length, unit):
    """To the nearest count, halfway away from nought."""
    return higher(length, unit) if length > 0 else lower(length, unit)


def wrong_roundings():
    """Halfway by the other unit's rule, cut toward nought, or the sum rounded twice."""
    in_mm, low_in_mm, high_in_cm, low_in_cm = on(IN_MM, 0, 1), on(IN_MM, -100000, -3), on(IN_CM, 9000000, -2), on(IN_CM, -100000, 2)
    yield "Halfway in mm to the lower number, as it was before Slip 6, and away from nought.", [
        *wrong_rows(in_mm, rounded=lower), *wrong_rows(low_in_mm, rounded=lower), *wrong_rows(low_in_mm, rounded=away)]
    yield "Halfway in cm to the higher number, and away from nought.", [
        *wrong_rows(high_in_cm, rounded=higher), *wrong_rows(low_in_cm, rounded=higher), *wrong_rows(high_in_cm, rounded=away)]
    yield "Cut toward nought; rounded down.", [
        *wrong_rows(GROWING, rounded=lambda length, unit: int(length / unit)), *wrong_rows(GROWING, rounded=lambda length, unit: length // unit)]
    apart = of_lines(lambda at: {column: 1000 * higher(at.axis / 1000, 1) + at.lines[column - 1] - at.axis for column in range(3, 9)})
    yield "The axis rounded apart from the sum.", list(wrong_rows(on(changed(SMALL, 6, 1500), 7, 1), lines_at=apart))


# ---- replies and tables ----

def wrong_reasons():
    """Numbers that programs with other reasons give."""
    whole, fraction = rowed((3, 1, 400, 140000, 40, 1)), rowed((3, 1, 400, 140001, 40, 1))
    past_500, two_lanes, radius_2000 = rowed((1, 1, 501, 140000, 50, 1)), rowed((4, 1, 400, 140000, 35, 500)), changed(SMALL, 2, 2000, 5, 0)
    steep, edge, last = rowed((1, 1, 1600, 139999, 60, 0)), rowed((1, 1, 1600, 140000, 60, 0)), rowed((3, 2, 1999, 300000, 21, 0))
    yield "36 not given; 5, 1 or 8 in its place; given for profile 3, at R 1999, and before 5.", [
        *wrong_reply(0, changed(SMALL, 4, 20), radius_2000, two_lanes), *wrong_reply(5, changed(SMALL, 4, 20)), *wrong_reply(1, two_lanes),
        *wrong_reply(8, radius_2000), *wrong_reply(36, rowed((4, 1, 400, 140000, 25, 500)), SMALL, last)]
    yield "37 not given where the stage is 1 mm too long, or with IV's L 1 mm less; given where it is exact; 38 before it; 36 after it; 7 for it.", [
        *wrong_reply(0, rowed((1, 1, 250, 223992, 60, 0)), rowed((3, 1, 400, 119999, 30, 0))), *wrong_reply(37, *map(rowed, EXACT_STAGE)),
        *wrong_reply(38, rowed((1, 1, 400, 100001, 50, 1))), *wrong_reply(37, rowed((1, 1, 400, 100000, 20, 1))),
        *wrong_reply(7, rowed((1, 1, 400, 100000, 50, 0)))]
    yield "38 not given at R 501 or for a fraction; given without a widening, at R 500, or where L x R / 500 is whole; 6 in its place.", [
        *wrong_reply(0, past_500, fraction), *wrong_reply(38, changed(fraction, 5, 0), whole, rowed((1, 1, 500, 140000, 50, 400)), changed(past_500, 5, 0)),
        *wrong_reply(6, past_500)]
    yield "8 as by 503-0-45; not given 1 mm past its edge; given at its edge.", [
        *wrong_reply(0, rowed((1, 1, 1999, 300000, 21, 0)), steep), *wrong_reply(8, edge, last)]
    yield "A number for the narrow shoulder, 7; 9, 10, 34 and 35 not given, or in another order; 11 before them.", [
        *wrong_reply(7, WIDER), *wrong_reply(0, changed(SMALL, 6, 999), changed(SMALL, 7, 5), on(SMALL, 9000001, 0), on(SMALL, 0, 81)),
        *wrong_reply(0, on(in_cm(SMALL), 5, 0)), *wrong_reply(10, changed(SMALL, 6, 0, 7, 5)), *wrong_reply(35, on(SMALL, 9000001, 81)),
        *wrong_reply(11, on(SMALL, 0, 81), room=0)]


def wrong_room():
    """Tables of seven or eleven numbers a row, other counts, and tables that are written beside their rows."""
    rows = len(single(SMALL, ENOUGH)[1])
    room = ROW_NUMBERS * rows
    few, exact, refused, longer = (run(card, length, shown=(0,)) for card, length in (
        (SMALL, room - 1), (SMALL, room), (changed(SMALL, 4, 20), ENOUGH), (SMALL, ENOUGH)))
    seven, ten = run(SMALL, 7 * rows), run(SMALL, 10 * rows, shown=(0,))
    yield "Seven numbers a row are enough, eleven are wanted; one number too few passes, an exact table does not; the check gives 11.", [
        altered(seven, 1, 2, 0), altered(ten, 1, 2, 11), altered(few, 1, 2, 0), altered(exact, 1, 2, 11), altered(few, 1, 1, 11)]
    yield "The count of numbers, of a row less, of one more; a count of a refused card.", [
        *(altered(exact, 1, 3, count) for count in (room, rows - 1, rows + 1)), altered(few, 1, 3, rows), altered(refused, 1, 3, rows)]
    yield "The table written up to its end, past it, before its start, for seven numbers a row; written or cleared on a refusal.", [
        altered(longer, 3, 1, ENOUGH), *(altered(exact, 3, 1, place) for place in (room + 1, -1, 7 * rows)), altered(few, 2, 1, room - 1),
        altered(refused, 2, 1, room)]


def wrong_cards():
    """What wrong programs would give, and the cards with one such figure each."""
    yield "A whole table: each figure one too high.", list(one_up(run(SMALL)))
    for groups in (wrong_lines, wrong_figures, wrong_axes, wrong_roundings, wrong_reasons, wrong_room):
        yield from groups()


if __name__ == "__main__":
    put_out(wrong_cards())
