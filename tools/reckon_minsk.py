#!/usr/bin/env python3
"""The rows of cards by the method of the Minsk handbook, reckoned from documents 01 and 02 alone.

Standard input: cards, each a line of a name and the eleven numbers of a list of Slip 5 of document 02: eight, 0 or 1 for absolute,
the height and the grade. Standard output: for each card its name and its count of rows, then the rows, nine numbers each; or its name,
`refused` and the number. Every height is an exact fraction, rounded once. Nothing is shared with the library's code. What is quoted
stands in Slip 7 of document 02 where no other paper is named; what every method shares is in tools/reckon.py.

    python3 tools/reckon_minsk.py < examples/minsk.cards > examples/minsk.sheet

In the functions a card is as a book would have it: eight numbers where it is relative; ten, the last two its height and its grade, where
it is absolute.
"""
import sys
from fractions import Fraction

import reckon

# "Half carriageway, shoulder with its strip, and the strip alone in mm are 3500, 3000, 750 (II), 3500, 2500, 500 (III) and 3000, 2000, 500
# (IV)"; and "narrows the inner shoulder to no less than 1500 (II, III) or 1000 (IV)".
WIDTHS = {
    1: (3500, 3000, 750, 1500),
    2: (3500, 2500, 500, 1500),
    3: (3000, 2000, 500, 1000),
}
CROWN = 20  # "with crown 20‰"
CLIMB = 5  # "the outer edge climbing at 5‰"
SHOULDER = 40  # "at 40‰ or the inner slope, whichever is greater"
GROWTH = 20000  # "grows in a straight line over 20 m"
ROW_NUMBERS = 9
# The columns of a row after the station.
COLUMNS = ("widening", "axis", "outer edge", "outer strip edge", "outer brow", "inner edge", "inner strip edge", "inner brow")


# ---- the card ----

def body_of(listed):
    """The eight or ten numbers of a card of eleven, as a book would have them.

    One of the eight below 0 counts as the greatest of 32 bits, which every reason refuses; with mark 0 height and grade are not looked at,
    and any other mark is absolute.
    """
    eight = [4294967295 if number < 0 else number for number in listed[:8]]
    return eight + list(listed[9:]) if listed[8] else eight


def refusal(card):
    """The first reason met, and 0 if none is; 11 is left out, since it is the table's."""
    profile, terrain, R, L, v, W, step, unit = card[:8]
    first = reckon.refusal((*card[:5], W, 1000, 1))
    # The reasons 1 to 6 are every method's; that method's 8, which is its last here, is not ours.
    if first in (1, 2, 3, 4, 5, 6):
        return first
    # "with 36 a full slope of 20, a radius of 2000 or profile 4 or 5"
    if v == 20 or R == 2000 or profile in (4, 5):
        return 36
    h = WIDTHS[profile][0]
    # "with 37 a first stage longer than L x R / 2000"
    if first_stage(h) > joint(card):
        return 37
    # "with 38 a widening above 0 where R is above 500 or L x R / 500 is no whole mm"
    if W > 0 and (R > 500 or L * R % 500):
        return 38
    # "8 then means h x (v - 20) above added slope x (L - L x R / 2000)"
    added_slope = reckon.PROFILES[profile][5 + terrain]
    if h * (v - CROWN) > added_slope * (L - joint(card)):
        return 8
    if step < 1000 or step > 20000:
        return 9
    if unit not in (1, 10):
        return 10
    return reckon.datum_refusal(card[8:], unit)


# ---- lines of the cross-section ----

def first_stage(h):
    """"2 x h x 20 / 5 mm long"."""
    return Fraction(2 * h * CROWN, CLIMB)


def joint(card):
    """"The first stage ends at L x R / 2000"."""
    return Fraction(card[3] * card[2], 2000)


def outer_slope(card, d):
    """The outer slope at station d, in permille."""
    h, end = WIDTHS[card[0]][0], joint(card)
    start = end - first_stage(h)
    # "before it the road is crowned"
    if d <= start:
        return Fraction(-CROWN)
    # "the outer edge climbing at 5 permille"
    if d <= end:
        return (-h * CROWN + CLIMB * (d - start)) / h
    # "From its end the slope goes in a straight line from 20 permille to full slope at L."
    return CROWN + (card[4] - CROWN) * (d - end) / (card[3] - end)


def widening_at(card, d):
    """The widening at station d, in mm."""
    _, _, R, L, _, W = card[:6]
    # "Widening starts 20 m before L x R / 500, grows in a straight line over 20 m"
    grown = d - (Fraction(L * R, 500) - GROWTH)
    return Fraction(W * min(max(grown, 0), GROWTH), GROWTH) if W else Fraction(0)


def axis_at(card, d):
    """"Seven lines are reckoned from the axis, which is 0, moved as in Slip 5"; in micrometres."""
    return Fraction(reckon.axis_at(card, d) if card[8:] else 0)


def lines_at(card, d):
    """Widening in mm, then the seven heights in micrometres, all exact, as a row has them."""
    h, shoulder, strip, least = WIDTHS[card[0]]
    axis, outer, widening = axis_at(card, d), outer_slope(card, d), widening_at(card, d)
    # "the strip lies at carriageway slope; the outer shoulder too"
    outer_lines = [axis + width * outer for width in (h, h + strip, h + shoulder)]
    # "The inner slope is as before.": the greater of the crown and the outer slope
    inner = max(Fraction(CROWN), outer)
    inner_edge = axis - (h + widening) * inner
    inner_strip = inner_edge - strip * inner
    # "narrows the inner shoulder to no less than ..."; "the inner shoulder beyond the strip at 40 permille or the inner slope"
    inner_shoulder = max(Fraction(least), shoulder - widening)
    inner_brow = inner_strip - (inner_shoulder - strip) * max(Fraction(SHOULDER), inner)
    return [widening, axis, *outer_lines, inner_edge, inner_strip, inner_brow]


# ---- rows ----

def row(card, d):
    """Nine whole numbers: the station in mm, then eight counts of the unit."""
    widening, *heights = lines_at(card, d)
    return [d] + [reckon.rounded(length, card[7]) for length in (widening, *(height / 1000 for height in heights))]


def rows_of(card):
    """All rows of an accepted card."""
    return [row(card, d) for d in reckon.stations(card[3], card[6])]


def single(listed, room):
    """What a call on so many numbers gives: the number and the rows."""
    card = body_of(listed)
    number = refusal(card)
    if number:
        return number, []
    rows = rows_of(card)
    # "11 counts nine a row"
    return (11, []) if room < ROW_NUMBERS * len(rows) else (0, rows)


# ---- the sheet ----

def sheet(lines):
    """The lines of the sheet of these cards, each a name and eleven numbers."""
    printed = []
    for line in lines:
        name, *numbers = line.split()
        number, rows = single([int(figure) for figure in numbers], 2709)
        printed.append(f"{name} refused {number}" if number else f"{name} {len(rows)}")
        printed += [" ".join(map(str, figures)) for figures in rows]
    return printed


def main():
    for line in sheet(sys.stdin):
        print(line)


if __name__ == "__main__":
    main()
