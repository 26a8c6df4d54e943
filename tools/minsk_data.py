#!/usr/bin/env python3
"""Makes the cards that the calls of the Minsk handbook's method are held to; tools/minsk_wrong.py those with a figure made wrong in each.

    python3 tools/minsk_data.py > runs/minsk.text

runs/minsk.c says what the lines are. A card is reckoned by tools/reckon_minsk.py, from Slip 7 of document 02, whose words are quoted; the
figures of the handbook's examples are those of its scan, from tools/minsk_handbook.py. Nothing is shared with the library. A card has the
eleven numbers that a list has for it: eight, 0 or 1 for absolute, the height and the grade.
"""
import itertools
import sys
from fractions import Fraction

import minsk_handbook
import reckon
import reckon_minsk
from day_data import LEAST, MOST, RELATIVE, changed, in_cm, on
from reckon_minsk import ROW_NUMBERS, single

ENOUGH = 2709
# Slip 7: "For II the first stage is 28 m long; 3.5 m into it the outer edge is -0.0525 m." Example 2.1's card, whose stage begins at 14 m.
II = (1, 1, 600, 140000, 50, 0, 3500, 1, *RELATIVE)
III = (2, 2, 300, 200000, 45, 700, 20000, 1, *RELATIVE)
# Example 2.2's card.
IV = (3, 1, 400, 140000, 40, 500, 20000, 1, *RELATIVE)
# The least table that shows every rule: eight rows, a widening that grows between two of them, a full slope above 40.
SMALL = (3, 2, 400, 130000, 50, 900, 20000, 1, *RELATIVE)
RAISED = (*SMALL[:8], 1, 250000, -35)
# "a first stage longer than L x R / 2000": 2 x h x 20 / 5 = 28000, 28000 and 24000 mm, so L x R is 56,000,000 or 48,000,000 at least.
EXACT_STAGE = ((1, 1, 250, 224000, 60, 0), (2, 1, 400, 140000, 45, 300), (3, 2, 160, 300000, 60, 700), (3, 1, 400, 120000, 30, 0))
# Where a card of example 2.1 or 2.2 has the handbook's stakes as rows: one step does not do for all.
STEPS = {minsk_handbook.FIRST_140: (3500, 1500, 2500, 5900, 7900), minsk_handbook.FIRST_170: (20000,), minsk_handbook.SECOND: (5000, 4000)}
# Groups of the handbook's figures whose stage no card has, since it takes its joint with 140 m and its end with 170 m.
MIXED = ("2.1 text, second stage", "2.7 second stage", "2.7 way out, second stage, 13+20", "2.7 way out, second stage, 14+30", "2.8")


def listed(eight, *datum):
    """A card of eleven numbers; absolute where a height and a grade are given."""
    return (*eight[:8], 1, *datum) if datum else (*eight[:8], *RELATIVE)


def rowed(six, step=20000, unit=1):
    """A relative card of six numbers with this step and unit."""
    return listed((*six, step, unit))


# ---- the lines of a card ----

def begun(card, room, null=False):
    return ["z", *card] if null else ["c", room, *card]


def run(card, room=ENOUGH, shown=None, null=False):
    """The lines of a card, each a letter and numbers; of the rows those shown, or all."""
    number, rows = single(card, room)
    check = number if number != 11 else 0
    lines = [begun(card, room, null), ["n", check, number, len(rows)]]
    lines += [["r", i, *row] for i, row in enumerate(rows) if shown is None or i in shown]
    # Document 01: "table numbers after the last row are untouched. A refused card gives its number and count 0, and the table is untouched."
    return lines + [["k", ROW_NUMBERS * len(rows)]]


def runs(cards, shown=None):
    return [run(card, shown=shown) for card in cards]


def refused(number, *cards):
    """The lines of cards that the papers' words refuse with this number, or accept, with 0; a reckoning that gives another ends here."""
    for card in cards:
        if single(card, ENOUGH)[0] != number:
            sys.exit(f"{card}: {single(card, ENOUGH)[0]}, where the words give {number}")
    return runs(cards, shown=(0, 1))


# ---- the handbook's examples ----

def row_of(figure):
    """The card with this figure's unit and a step that puts a row on its station, and the place of that row."""
    unit = figure.unit
    for step in STEPS[figure.card[:6]]:
        stations = reckon.stations(figure.card[3], step)
        if figure.station in stations:
            return listed((*figure.card[:6], step, unit), *figure.card[8:]), stations.index(figure.station)
    sys.exit(f"no step puts a row on {figure.station}")


def is_due(figure):
    """Whether the method gives this figure of the handbook, by a card of the handbook's, and rounds it the same way."""
    if figure.group in MIXED or not figure.fits:
        return False
    return reckon.rounded(figure.exact, figure.unit) == counted(figure)


def counted(figure):
    """The printed figure in its unit: whole, but where four or five decimals are printed, which are rounded by Slip 6."""
    return reckon.rounded(figure.value, figure.unit)


def handbook_cards():
    """The cards of the examples with the figures that the scan has for them, as lines of single figures."""
    due = {}
    for figure in filter(is_due, minsk_handbook.figures()):
        card, row = row_of(figure)
        due.setdefault(card, []).append((row, figure.column, counted(figure)))
    for card, figures in due.items():
        count = len(reckon.stations(card[3], card[6]))
        lines = [begun(card, ROW_NUMBERS * count), ["n", 0, 0, count]]
        yield lines + [["f", *figure] for figure in sorted(set(figures))] + [["k", ROW_NUMBERS * count]]


# ---- what the cards show ----

def right_cards():
    """What the cards show, and the cards."""
    yield "Examples 2.1 and 2.2 of the handbook: the figures that its scan prints, where the method gives them.", list(handbook_cards())
    yield "Slip 7: 3.5 m into the first stage of II the outer edge is -52.5 mm; halfway goes up to -52, in cm -5.25 to -5.", [
        run(II, shown=(4, 5, 12)), run(in_cm(II), shown=(4, 5, 12))]
    yield "Whole tables of II, III and IV, in mm and in cm, on level ground and in mountains.", runs(
        [rowed(card[:1] + (terrain,) + card[2:6], unit=unit)
         for card in (changed(II, 3, 170000), III, IV, SMALL) for terrain in (1, 2) for unit in (1, 10)])
    yield from stage_cards()
    yield from widening_cards()
    yield from slope_cards()
    yield from reason_cards()
    yield from absolute_cards()
    yield from halfway_cards()
    yield from room_cards()
    yield from other_cards()


def stage_cards():
    exact = [rowed(card) for card in EXACT_STAGE]
    shorter = [changed(card, 3, card[3] - 1) for card in exact]
    # A first stage of one millimetre more than L x R / 2000.
    by_one = [changed(card, 3, card[3] - 2000 // card[2]) for card in exact if 2000 % card[2] == 0]
    by_radius = [rowed((1, 1, 187, 300000, 60, 0)), rowed((2, 2, 187, 300000, 60, 0)), rowed((3, 1, 160, 300000, 60, 0))]
    yield "The first stage exactly L x R / 2000 long: it begins at the start of the clothoid.", runs(exact)
    yield "The same with a clothoid of 1 mm less, and with a stage that is 1 mm too long: 37.", [
        *refused(37, *[card if card[5] == 0 else changed(card, 5, 0) for card in shorter]), *refused(37, *by_one)]
    yield "L 300 m, the least radius that passes, and 1 m less.", [
        *refused(0, *by_radius), *refused(37, *[changed(card, 2, card[2] - 1) for card in by_radius])]
    yield "L x R as near to 56,000,000 and 48,000,000 as it can be, below and above.", [
        *refused(37, rowed((1, 1, 199, 281407, 60, 0)), rowed((2, 1, 199, 281407, 60, 0)), rowed((3, 2, 279, 172043, 60, 0))),
        *refused(0, rowed((1, 1, 201, 278607, 60, 0)), rowed((2, 2, 201, 278607, 60, 0)), rowed((3, 1, 229, 209607, 60, 0)))]
    # "Rounding the stage joint to a whole millimetre" is one of document 01's blunders.
    yield "Joints on no whole millimetre, rows on both sides of them, and rows on the joint.", runs(
        [rowed((1, 1, 599, 140001, 50, 0), 1750), rowed((2, 2, 333, 180001, 45, 0), 10000), rowed((3, 1, 701, 120007, 40, 0), 14000),
         rowed((3, 1, 400, 140000, 40, 500), 14000), rowed((3, 1, 400, 140000, 40, 500), 4000)], shown=range(40))


def widening_cards():
    at_500, past_500 = (1, 1, 500, 140000, 50, 400), (1, 1, 501, 140000, 50, 0)
    fraction = (2, 2, 333, 180001, 45, 0)
    yield "R 500: the widening grows over the last 20 m, and is full at L only; without widening too. R 501 without widening.", runs(
        [rowed(at_500, 5000), rowed(changed(at_500, 5, 0), 5000), rowed(past_500, 5000)], shown=(0, 23, 24, 25, 26, 27, 28))
    yield "38: R 501 and 1000 with a widening of 1 mm.", refused(
        38, rowed(changed(past_500, 5, 1)), rowed(changed(past_500, 2, 1000, 5, 1)), rowed(changed(past_500, 5, 3500)))
    yield "38: L x R / 500 no whole mm, with the least widening; without one it passes.", [
        *refused(38, *[rowed(changed(card, 5, 1)) for card in (fraction, (3, 1, 400, 140001, 40, 0), (1, 2, 250, 240001, 50, 0))]),
        *refused(0, rowed(fraction), rowed((3, 1, 400, 140001, 40, 0)), rowed((1, 2, 250, 240001, 50, 0)))]
    # Rows stand at 5 m: 92 m is where the widening starts, 112 m where it is full.
    yield "A widening of 1 mm, and of the greatest, 3500, with rows where it starts, grows and is full.", runs(
        [rowed((3, 1, 400, 140000, 40, widening), 4000, unit) for widening in (1, 3500) for unit in (1, 10)], shown=range(20, 36))
    yield "The inner shoulder at its least: W 1 below c less m, there, 1 above; at c, above it, and the greatest.", runs(
        [rowed((profile, 2, 400, 145000, 60, widening), 10000) for profile, shoulder, least in ((1, 3000, 1500), (2, 2500, 1500), (3, 2000, 1000))
         for widening in (shoulder - least - 1, shoulder - least, shoulder - least + 1, shoulder, shoulder + 1, 3500)],
        shown=(10, 11, 12, 13, 15))


def slope_cards():
    yield "The full slope: 21 is the least, at 40 and 41 the inner shoulder begins to follow it, 60 is the greatest.", runs(
        [rowed((profile, 2, 450, 150000, slope, 250), 15000, unit) for profile in (1, 2, 3) for slope in (21, 40, 41, 60)
         for unit in (1, 10)], shown=(0, 1, 2, 3, 9, 10))
    # h x (v - 20) = added slope x (L - L x R / 2000); 1 mm of clothoid less, or 1 permille more, is too steep.
    edges = [((1, 1, 1600, 140000, 60, 0), 1), ((1, 2, 1600, 140000, 60, 0), 1), ((2, 1, 1800, 140000, 60, 0), 1),
             ((2, 2, 1900, 140000, 60, 0), 1), ((3, 1, 1800, 120000, 60, 0), 0), ((3, 2, 1999, 300000, 21, 0), 1), ((1, 1, 1900, 140000, 30, 0), 1)]
    yield "8 at its edge: h x (v - 20) just as much as the added slope allows.", refused(0, *[rowed(card) for card, _ in edges])
    yield "8 past its edge: 1 mm of clothoid less, or 1 per mille more where 5 and 4 let it pass.", refused(
        8, *[rowed(changed(card, 3, card[3] - 1)) for card, shorter in edges if shorter],
        *[rowed(changed(card, 4, card[4] + 1)) for card, _ in edges if card[4] < 60])
    # By 503-0-45, 8 would be h x (p + v) above added slope x L, which no card meets that passes 37.
    yield "8: cards that are gentle by 503-0-45, whose stages have the whole clothoid.", refused(
        8, rowed((1, 1, 1999, 300000, 21, 0)), rowed((2, 2, 1990, 200000, 40, 0)))


def reason_cards():
    bad = changed(SMALL, 0, 6)
    yield "Each reason of the method alone, in order: 1 to 6, 36, 37, 38, 8 to 10.", [
        *refused(1, bad, changed(SMALL, 0, 0)), *refused(2, changed(SMALL, 1, 3), changed(SMALL, 1, 0)),
        *refused(3, changed(SMALL, 2, 59), rowed((1, 1, 124, 300000, 60, 0)), rowed((2, 1, 99, 300000, 60, 0)), rowed((3, 1, 2001, 300000, 30, 0))),
        *refused(4, changed(SMALL, 3, 99999), changed(SMALL, 3, 300001)), *refused(5, changed(SMALL, 4, 19), changed(SMALL, 4, 61)),
        *refused(6, changed(SMALL, 5, 3501), changed(SMALL, 2, 1001, 5, 1)),
        *refused(36, changed(SMALL, 4, 20), changed(SMALL, 2, 2000, 5, 0)),
        *refused(37, changed(SMALL, 2, 350, 5, 0)), *refused(38, changed(SMALL, 2, 600)), *refused(8, changed(SMALL, 2, 1990, 5, 0, 4, 60)),
        *refused(9, changed(SMALL, 6, 999), changed(SMALL, 6, 20001)), *refused(10, changed(SMALL, 7, 0), changed(SMALL, 7, 5), changed(SMALL, 7, 100))]
    yield "36: profile 4 and 5, with a full slope that 5 lets pass, and with one that it refuses; R 2000; v 20.", [
        *refused(36, rowed((4, 1, 400, 140000, 35, 500)), rowed((5, 2, 400, 140000, 30, 500)), rowed((5, 1, 400, 140000, 60, 0)),
                 rowed((1, 1, 2000, 140000, 21, 0)), rowed((1, 1, 2000, 140000, 20, 0)), rowed((2, 2, 600, 140000, 20, 0))),
        *refused(5, rowed((4, 1, 400, 140000, 25, 500)), rowed((4, 1, 400, 140000, 20, 0)), rowed((5, 1, 400, 140000, 29, 0))),
        *refused(0, rowed((3, 2, 1999, 300000, 21, 0)))]
    # No card meets 37 or 38 and 8 too: where the least length of 4 is kept, the clothoid is then long enough for 60 per mille.
    yield "36 before 37, 38 and 8, 37 before 38: cards that meet the later ones too. 6 before 36.", [
        *refused(36, rowed((1, 1, 400, 100000, 20, 1)), rowed((4, 1, 50, 35001, 30, 1)), rowed((1, 1, 600, 140000, 20, 1)),
                 rowed((1, 1, 2000, 100000, 60, 0))),
        *refused(37, rowed((1, 1, 400, 100001, 50, 1)), rowed((1, 1, 125, 55000, 60, 0)), rowed((3, 1, 60, 40000, 60, 1))),
        *refused(6, rowed((4, 1, 2000, 140000, 30, 1)), rowed((1, 1, 600, 140000, 20, 3501)))]
    yield "8 before 9, 9 before 10, 10 before 34, 34 before 35, and all of these before 11; 36, 37 and 38 before 9 and 10.", [
        *refused(8, rowed((1, 1, 1999, 300000, 60, 0), 999, 5)), *refused(9, changed(SMALL, 6, 0, 7, 5)),
        *refused(10, changed(RAISED, 7, 5, 9, 9000001)), *refused(34, changed(RAISED, 9, 9000001, 10, 81)),
        *refused(36, rowed((4, 1, 400, 140000, 35, 0), 0, 0)), *refused(37, rowed((1, 1, 400, 100000, 50, 0), 0, 0)),
        *refused(38, rowed((1, 1, 600, 140000, 50, 1), 0, 0)),
        run(changed(SMALL, 7, 5), 0), run(changed(RAISED, 9, -100001), 0), run(changed(RAISED, 10, 81), 0, null=True), run(rowed((4, 1, 400, 140000, 35, 0)), 0)]


def absolute_cards():
    longest = (2, 2, 400, 300000, 60, 1200, 15000, 1, *RELATIVE)
    yield "A bend of IV 250 m above the benchmark on a grade of -35 per mille, and the relative one.", runs([SMALL, RAISED])
    yield "Heights and grades at either limit on the longest clothoid, in mm and in cm.", runs(
        [on(card, height, grade) for card in (longest, in_cm(longest)) for height in (-100000, 9000000) for grade in (-80, 80)], shown=(0, 1, 6, 19, 20))
    yield "Height 0 and grade 0: the rows of the relative card.", runs([on(IV, 0, 0), on(in_cm(SMALL), 0, 0)])
    yield "34: heights past the limits, and no whole number of units; the limits themselves pass.", [
        *refused(34, *[on(SMALL, height, 0) for height in (-100001, 9000001, MOST, LEAST)]),
        *refused(34, *[on(in_cm(SMALL), height, 0) for height in (5, -5, -99995, 9000010, 8999999)]),
        *refused(0, *[on(SMALL, height, 0) for height in (-100000, -1, 1, 9000000)], on(in_cm(SMALL), -100000, 0), on(in_cm(SMALL), 8999990, 0))]
    yield "35: grades past the limits; the limits pass.", [
        *refused(35, *[on(SMALL, 0, grade) for grade in (-81, 81, 8000, MOST, LEAST)]), *refused(0, on(SMALL, 0, -80), on(SMALL, 0, 80))]


def halves(card, d):
    """The columns of a row whose number stands halfway between two counts of the unit."""
    widening, *heights = reckon_minsk.lines_at(reckon_minsk.body_of(card), d)
    lengths = [widening] + [Fraction(height, 1000) for height in heights]
    return [column for column, length in enumerate(lengths, 1) if (2 * length / card[7]).denominator == 1 and (length / card[7]).denominator != 1]


# Cards with a row of which these columns stand halfway: the card, its station, the columns.
ALL, HEIGHTS, NONE = (1, 2, 3, 4, 5, 6, 7, 8), (2, 3, 4, 5, 6, 7, 8), ()
IN_MM, IN_CM = (3, 1, 400, 137500, 60, 2500, 9500, 1, *RELATIVE), (3, 2, 400, 137500, 60, 2500, 7500, 10, *RELATIVE)
HALFWAY = (
    (IN_MM, 104500, (1,)), (on(IN_MM, 0, 1), 104500, ALL), (on(IN_MM, 0, -1), 104500, ALL), (on(IN_MM, 9000000, 3), 104500, ALL),
    (on(IN_MM, -100000, -3), 104500, ALL), (on(IN_MM, -100, 1), 104500, ALL), (in_cm(on(IN_MM, 0, 1)), 104500, NONE),
    (IN_CM, 82500, NONE), (on(IN_CM, 0, 2), 82500, HEIGHTS), (on(IN_CM, 0, -2), 82500, HEIGHTS), (on(IN_CM, 9000000, -2), 82500, HEIGHTS),
    (on(IN_CM, -100000, 2), 82500, HEIGHTS), (on(IN_CM, -160, 2), 82500, HEIGHTS),
    (changed(IV, 6, 16000), 48000, (4, 7, 8)), (changed(IV, 6, 15000, 7, 10), 105000, (1,)), (in_cm(II), 0, (4, 7, 8)),
    (II, 17500, (3, 5)), (changed(IV, 4, 60, 6, 13000), 91000, (3, 5, 6, 8)),
)


def halfway_cards():
    for card, station, columns in HALFWAY:
        if halves(card, station) != list(columns):
            sys.exit(f"{card} has halfway at {station}: {halves(card, station)}")
    yield "Numbers halfway between two units, above nought and below: in mm to the higher, in cm to the lower; and the other unit.", runs(
        [card for card, _, _ in HALFWAY])


def room_cards():
    rows = len(single(SMALL, ENOUGH)[1])
    room = ROW_NUMBERS * rows
    longest, shortest = (2, 2, 400, 300000, 60, 1200, 1000, 1, *RELATIVE), (3, 2, 480, 100000, 40, 0, 20000, 1, *RELATIVE)
    ends = (0, 1, 55, 56, 57, 219, 220, 221, 238, 239, 240, 241, 299, 300)
    yield "11: a table of nine numbers a row passes, with one number less it does not; of eleven or seven a row, none, NULL; one of more.", [
        run(SMALL, room), run(SMALL, room - 1), run(SMALL, room + 1), run(SMALL, 11 * rows), run(SMALL, 8 * rows), run(SMALL, 7 * rows),
        run(SMALL, 0), run(SMALL, 0, null=True), run(SMALL, 1), run(RAISED, room), run(RAISED, room - 1)]
    yield "No card has more than 301 rows: 2709 numbers are enough, 2708 are not; twice as many keep the second half.", [
        run(longest, ENOUGH, ends), run(longest, ENOUGH - 1), run(longest, 2 * ENOUGH, ends), run(on(in_cm(longest), 9000000, 80), ENOUGH, ends),
        run(on(longest, -100000, -80), 2107), run(on(longest, -100000, -80), ENOUGH, ends)]
    yield "The fewest rows; a step that divides L, and one that leaves a last step of 1 mm.", runs([
        shortest, changed(SMALL, 6, 13000), changed(SMALL, 6, 18571, 3, 129998), changed(SMALL, 6, 10833)])


def other_cards():
    yield "Beside mark 0 height and grade are not looked at.", runs(
        [changed(SMALL, 9, 250000, 10, -35), changed(SMALL, 9, MOST, 10, LEAST), changed(in_cm(SMALL), 9, 5, 10, 81)], shown=(0, 7))
    yield "Every other mark is absolute, those that are 0 in fewer bits too; 34 and 35 are met.", [
        *runs([changed(RAISED, 8, mark) for mark in (2, -1, 256, 65536, MOST, LEAST)], shown=(0, 7)),
        *refused(34, changed(RAISED, 8, 2, 9, 9000001)), *refused(35, changed(RAISED, 8, -1, 10, 81))]
    numbers = (1, 2, 3, 4, 5, 6, 9, 10)
    yield "One of the eight below 0: the reason of that number, with -1, the right number with a minus, and the least of all.", [
        line for card in (SMALL, RAISED) for place, number in enumerate(numbers)
        for line in refused(number, *[changed(card, place, figure) for figure in (-1, -card[place], LEAST)])]
    yield "All eleven numbers the least, the greatest, and -1; the first eight -1.", refused(
        1, (LEAST,) * 11, (MOST,) * 11, (-1,) * 11, (-1,) * 8 + RELATIVE, (0,) * 11)


def put_out(groups):
    """Prints what is shown, after #, and the lines of its cards."""
    for shown, cards in groups:
        print("# " + shown)
        for line in itertools.chain.from_iterable(cards):
            print(*line)


if __name__ == "__main__":
    put_out(right_cards())
