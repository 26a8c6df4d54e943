#!/usr/bin/env python3
"""The sheet of a book of cards, reckoned from documents 01 and 02 alone.

Standard input: a book of cards. Standard output: the sheet that document 01,
as Slips 1, 5 and 6 of document 02 change it, says the printer prints for it.
Every height is an exact fraction, rounded once. Nothing is shared with the
printer's code. What is quoted stands in document 01 where no Slip is named.

    python3 tools/reckon.py < book > sheet

A card is the numbers of its body: eight where it is relative; ten, the last two
its height and its grade, where it is absolute.
"""

import re
import sys
from fractions import Fraction
from math import ceil, floor

# "The card": h, c, p, q, m, least R, added slope level and mountain.
# h is half the carriageway, c the shoulder, m the least shoulder, in mm;
# p the crown slope and q the shoulder slope on a straight, in permille.
PROFILES = {
    1: (3750, 3750, 20, 40, 1500, 125, 5, 5),
    2: (3500, 2500, 20, 40, 1500, 100, 10, 20),
    3: (3000, 2000, 20, 50, 1000, 60, 10, 20),
    4: (3000, 2000, 30, 60, 1000, 30, 10, 20),
    5: (2250, 1750, 30, 60, 1000, 30, 10, 20),
}

# "Least L, in metres, by R in metres (002, table 2)".
LEAST_L = [
    (30, 30), (40, 30), (50, 35), (60, 40), (70, 40), (80, 45), (90, 45),
    (100, 50), (125, 55), (150, 60), (200, 70), (250, 80), (300, 90),
    (400, 100), (500, 110), (600, 120), (700, 120), (800, 120), (1000, 120),
    (2000, 100),
]

# "Numbers are decimal, 1 to 7 digits, no leading zero but in 0 itself."
NUMBER = rb"(?:0|[1-9][0-9]{0,6})"
COUNT_LINE = re.compile(NUMBER)
# "name, one blank, the line of its body. Names are 1 to 8 capitals or digits."
CONTENTS_LINE = re.compile(rb"([A-Z0-9]{1,8}) (" + NUMBER + rb")")
# Slip 5: "with an optional minus before a number other than 0"
SIGNED = rb"(?:0|-?[1-9][0-9]{0,6})"
# "A body is the eight numbers with one blank between." Slip 5: "an absolute
# body has ten numbers"
BODY_LINE = re.compile(rb" ".join([NUMBER] * 8) + rb"(?: %s %s)?" % (SIGNED, SIGNED))


# ---- the card ----

def least_length(radius):
    """Least L in mm for a radius from 30 to 2000 m."""
    # A listed radius stands below and above itself; "between two listed
    # radii the longer of the two lengths holds".
    below = [pair for pair in LEAST_L if pair[0] <= radius][-1]
    above = [pair for pair in LEAST_L if pair[0] >= radius][0]
    return 1000 * max(below[1], above[1])


def refusal(card):
    """The refusal, "in rising order, first one met"; 0 if accepted.

    7 is left out: "Number 7 never occurs again" (Slip 1). 11 is left out: the
    printer's table is "long enough for every card". 34 and 35 come "after 10
    and before 11" (Slip 5).
    """
    profile, terrain, R, L, v, W, step, unit = card[:8]
    if profile not in PROFILES:
        return 1
    h, _, p, _, _, least_R, level, mountain = PROFILES[profile]
    if terrain not in (1, 2):
        return 2
    if R < least_R or R > 2000:
        return 3
    if L < least_length(R) or L > 300000:
        return 4
    if v < p or v > 60:
        return 5
    if W > 3500 or (W > 0 and R > 1000):
        return 6
    added_slope = level if terrain == 1 else mountain
    if h * (p + v) > added_slope * L:
        return 8
    if step < 1000 or step > 20000:
        return 9
    if unit not in (1, 10):
        return 10
    return datum_refusal(card[8:], unit)


def datum_refusal(datum, unit):
    """34 or 35 for the height and the grade of an absolute card; 0 where they pass, or there are none."""
    if not datum:
        return 0
    height, grade = datum
    # Slip 5: "outside -100,000 to 9,000,000 or not a whole number of units"
    if not -100000 <= height <= 9000000 or height % unit:
        return 34
    # Slip 5: "a grade outside -80 to 80"
    if not -80 <= grade <= 80:
        return 35
    return 0


# ---- lines of the cross-section ----

def is_even(card):
    """Even "when h x (p + v) is at least 3 x L, else two-stage"."""
    profile, _, _, L, v = card[:5]
    h, _, p = PROFILES[profile][:3]
    return h * (p + v) >= 3 * L


def outer_slope(card, d):
    """The outer slope at station d, in permille."""
    profile, _, _, L, v = card[:5]
    h, _, p = PROFILES[profile][:3]
    if is_even(card):
        # "a straight line from -p at 0 to v at L"
        return -p + Fraction((p + v) * d, L)
    joint = Fraction(2 * h * p, 3)
    if d <= joint:
        # "the outer edge climbs at 3 permille until the outer slope is p":
        # it starts h x p below the axis and gains 3 micrometres a mm.
        return Fraction(-h * p + 3 * d, h)
    # "From there the outer slope goes in a straight line from p to v at L."
    return p + (v - p) * (d - joint) / (L - joint)


def axis_at(card, d):
    """The height of the axis at station d, in micrometres."""
    if card[8:]:
        # Slip 5: "Its axis then stands at that height plus grade times station"
        height, grade = card[8:]
        return 1000 * height + grade * d
    h, c, p, q = PROFILES[card[0]][:4]
    return c * q + h * p


def lines_at(card, d):
    """Widening in mm, then the five heights in micrometres, all exact."""
    profile, _, _, L, _, W = card[:6]
    h, c, p, q, m = PROFILES[profile][:5]
    # Slip 5: "the other lines keep their distance from the axis"
    axis = axis_at(card, d)
    outer = outer_slope(card, d)
    outer_edge = axis + h * outer
    outer_brow = outer_edge + c * outer
    inner = max(p, outer)
    widening = Fraction(W * d, L)
    inner_edge = axis - (h + widening) * inner
    # Slip 1: "the inner shoulder is the greater of m and c less the widening"
    inner_shoulder = max(m, c - widening)
    inner_brow = inner_edge - inner_shoulder * max(q, inner)
    return widening, inner_brow, inner_edge, axis, outer_edge, outer_brow


# ---- rows ----

def rounded(length, unit):
    """A length or a height in mm, exact, as the nearest whole count of the unit."""
    x, half = length / unit, Fraction(1, 2)
    # Slip 6: "in whole millimetres a halfway value goes to the higher number.
    # In centimetres it still goes to the lower."
    return floor(x + half) if unit == 1 else ceil(x - half)


def stations(L, step):
    """The stations: "0, step, 2 x step and so on below L, then one at L"."""
    return list(range(0, L, step)) + [L]


def row(card, d):
    """Seven whole numbers: the station in mm, then six counts of the unit."""
    widening, *heights = lines_at(card, d)
    lengths = [widening] + [Fraction(height, 1000) for height in heights]
    return [d] + [rounded(length, card[7]) for length in lengths]


# ---- the book of cards ----

class RefusedBook(Exception):
    """A refused book: its number and the line named."""


def line_due(lines, number, form, refused):
    """The match of the line of that number with its form, or RefusedBook."""
    # "A missing line, or one without byte 10, is malformed".
    found = number <= len(lines) and form.fullmatch(lines[number - 1])
    if not found:
        raise RefusedBook(refused, number)
    return found


def read_book(data):
    """The curves of a book, each a name and a card; or RefusedBook."""
    if len(data) == 0 or len(data) > 8192:
        raise RefusedBook(21, 0)
    # What follows the last byte 10 is a line without byte 10: as good as
    # missing where a line is due, and a tail where none is.
    *lines, rest = data.split(b"\n")
    n = int(line_due(lines, 1, COUNT_LINE, 22)[0])
    if not 1 <= n <= 64:
        raise RefusedBook(22, 1)
    names = []
    for i in range(1, n + 1):
        name, body_line = line_due(lines, 1 + i, CONTENTS_LINE, 23).groups()
        # "the i-th contents line names line n + 1 + i"
        if int(body_line) != n + 1 + i:
            raise RefusedBook(24, 1 + i)
        if name in names:
            raise RefusedBook(25, 1 + i)
        names.append(name)
    cards = []
    for i in range(1, n + 1):
        body = line_due(lines, n + 1 + i, BODY_LINE, 26)[0]
        cards.append([int(number) for number in body.split(b" ")])
    # "27 names line 2 x n + 2"
    if len(lines) > 2 * n + 1 or rest:
        raise RefusedBook(27, 2 * n + 2)
    return list(zip(names, cards))


# ---- the card list ----

def listed(card):
    """The numbers of a card in the list, after the place and the length of its name."""
    # Slip 5: "then 0 or 1 for absolute, the height and the grade, both 0 where relative"
    return (*card[:8], 1, *card[8:]) if card[8:] else (*card, 0, 0, 0)


# ---- the sheet ----

def sheet(data):
    """The lines of the sheet, without their byte 10."""
    try:
        curves = read_book(data)
    except RefusedBook as refused:
        number, line = refused.args
        return ["book %d line %d" % (number, line)]
    printed = []
    for name, card in curves:
        name = name.decode("ascii")
        number = refusal(card)
        if number:
            printed.append("%s refused %d" % (name, number))
            continue
        rows = [row(card, d) for d in stations(card[3], card[6])]
        printed.append("%s %d" % (name, len(rows)))
        printed += [" ".join(map(str, numbers)) for numbers in rows]
    return printed


def main():
    data = sys.stdin.buffer.read()
    text = "".join(line + "\n" for line in sheet(data))
    sys.stdout.buffer.write(text.encode("ascii"))


if __name__ == "__main__":
    main()
