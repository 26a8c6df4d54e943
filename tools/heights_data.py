#!/usr/bin/env python3
"""Makes the group of crates/readings/stdin with the heights above the benchmark, from tools/reckon.py and Slip 5 of document 02.

    python3 tools/heights_data.py

It prints the group; nothing is shared with the library.
"""
import sys

import reckon
from day_data import RAISED_ROWS

RAMP = (5, 1, 30, 30000, 60, 600, 20000, 1)
IN_CM = (*RAMP[:7], 10)
RAISED = (*RAMP, 250000, -35)
# "outside -100,000 to 9,000,000", "a grade outside -80 to 80"; the least and the greatest number that a card can hold
LOW, HIGH, DOWN, UP = -100000, 9000000, -80, 80
LEAST, MOST = -2147483648, 2147483647
# Each profile on the longest clothoid, with the steepest slope and the widest widening, at its least radius.
LONGEST = [(profile, 2, radius, 300000, 60, 3500, 20000) for profile, radius in ((1, 125), (2, 100), (3, 60), (4, 30), (5, 30))]


def rows_of(card):
    return [reckon.row(card, d) for d in reckon.stations(card[3], card[6])]


def card_lines(card, shown=(), room=2128):
    """The card, its reply, and the rows that are shown, all of them for None."""
    print("c", *card)
    number = reckon.refusal(card)
    rows = [] if number else rows_of(card)
    # 11: "lent table below 7 numbers a row", after 34 and 35
    if room < 7 * len(rows):
        number, rows = 11, []
    print("n", number, len(rows), 7 * len(rows))
    for i, row in enumerate(rows):
        if shown is None or i in shown:
            print("r", i, *row)


def several(words, cards, shown=(), room=None):
    print("# " + words)
    if room is not None:
        print("t %d" % room)
    for card in cards:
        card_lines(card, shown, 2128 if room is None else room)


def limits():
    several("The RAMP rows 250 m above the benchmark, on a grade of -35, worked out by hand in docs/ABSOLUTE-RAMP.md.", [RAISED], None)
    several("Heights and grades at both limits on the longest clothoid, for each profile, in mm and in cm.", [
        (*card, unit, height, grade) for card in LONGEST for unit in (1, 10) for height in (LOW, HIGH) for grade in (DOWN, UP)
    ], (0, 1, 4, 14, 15))
    most_rows = [(2, 2, 400, 300000, 60, 1200, 1000, 1, HIGH, UP), (2, 2, 400, 300000, 60, 1200, 1000, 10, LOW, DOWN)]
    several("The same with 301 rows, in an exact table.", most_rows, (0, 1, 46, 47, 299, 300), 2107)
    several("One number short.", most_rows, (), 2106)
    print("t 2128")


def beside_relative():
    bend, seven = (1, 1, 600, 120000, 60, 500, 20000, 1), (1, 1, 2000, 110000, 20, 0, 20000, 1)
    several("A relative card beside an absolute one of height 0 and grade 0: every height is less by the axis, 225 mm.", [
        bend, (*bend, 0, 0), seven, (*seven, 0, 0)], None)
    several("The RAMP card: its axis is 172 and a half, so the heights are less by 172 or by 173.", [(*RAMP, 0, 0)], None)
    several("In cm the axis of profile 1 is 22 and a half units.", [(*bend[:7], 10), (*bend[:7], 10, 0, 0)], None)


def rounding():
    close = (3, 1, 700, 120000, 40, 400, 5000, 10)
    several("The sum is rounded once, halfway in cm to the lower number: the axis at whole and half units, on grades of 1 and -1.", [
        (*close, height, grade) for height, grade in ((0, 1), (0, -1), (10, 1), (-10, -1))], (0, 1, 2, 3, 22, 23, 24))
    several("A station of no whole metre, 1 mm past a step: the grade is times the station.", [
        (5, 1, 30, 40001, 60, 600, 20000, 1, 1000, grade) for grade in (80, -80, 7)], None)
    several("Grades that leave parts of a unit besides the line's own.", [
        (2, 1, 300, 100000, 60, 600, 15963, 1, 182457, 13), (2, 1, 300, 100000, 60, 600, 15963, 10, 182450, -13),
        (1, 2, 125, 60000, 60, 2250, 7001, 1, -99999, -79), (4, 2, 30, 30000, 60, 1000, 7003, 10, 8999990, 79)], None)


def refused():
    several("34: a height on either side of the limits.", [
        (*RAMP, height, 0) for height in (LOW - 1, LOW, LOW + 1, -1, 0, 1, HIGH - 1, HIGH, HIGH + 1, LEAST, MOST)])
    several("34: a height that is not a whole number of units, above nought and below; and those that are.", [
        (*IN_CM, height, 0) for height in (
            5, -5, 1, -1, 9, -9, 10, -10, 0, LOW, LOW + 5, LOW - 10, HIGH, HIGH - 5, HIGH + 10, LEAST, MOST)])
    several("35: a grade on either side of the limits.", [
        (*RAMP, 0, grade) for grade in (DOWN - 1, DOWN, DOWN + 1, -1, 1, UP - 1, UP, UP + 1, LEAST, MOST)])
    several("Both at once: 34.", [(*RAMP, HIGH + 1, UP + 1), (*RAMP, LOW - 1, DOWN - 1), (*IN_CM, 5, UP + 1), (*RAMP, LEAST, MOST)])
    several("An earlier reason is met first.", [
        (*RAMP[:7], 5, HIGH + 1, UP + 1), (*RAMP[:7], 0, 5, 0), (*RAMP[:6], 999, 1, HIGH + 1, 0),
        (1, 1, 125, 55000, 60, 0, 20000, 1, 0, UP + 1), (*RAMP[:5], 3501, 20000, 1, 0, UP + 1),
        (5, 1, 30, 29999, 60, 600, 20000, 1, HIGH + 1, 0), (6, *RAMP[1:], HIGH + 1, UP + 1)])
    several("A table that is too short is looked at after them.", [
        (*RAMP, HIGH + 1, 0), (*RAMP, 0, UP + 1), RAISED, (*IN_CM, 5, 0)], (), 20)
    several("No table at all.", [(*RAMP, HIGH + 1, UP + 1), RAISED], (), 0)
    several("An exact table.", [RAISED], (), 21)
    print("t 2128")


def main():
    if rows_of(RAISED) != RAISED_ROWS:
        sys.exit("the absolute RAMP's rows are not those of docs/ABSOLUTE-RAMP.md")
    print("g heights above the benchmark\nt 2128")
    limits()
    beside_relative()
    rounding()
    refused()
    print("#")


main()
