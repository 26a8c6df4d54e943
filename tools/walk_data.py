#!/usr/bin/env python3
"""Makes the cards that the call which walks from row to row is held to; tools/walk_wrong.py those with a figure made wrong in each.

    python3 tools/walk_data.py > runs/walk.text

runs/walk.c says what the lines are. Numbers and rows are reckoned by tools/reckon.py, which works every row by itself, and the rows that are
worked afresh by tools/reckon_walk.py, from Slip 8 of document 02, whose words are quoted. Nothing is shared with the library. A card has
the eleven numbers that a list has for it: eight, 0 or 1 for absolute, the height and the grade.
"""
import itertools
import sys
from math import ceil, floor

import reckon_walk
from day_data import (
    HALFWAY, HALFWAY_IN_CM, LEAST, LONGEST, MOST, RAISED, RAISED_ROWS, RAMP, RAMP_ROWS, REFUSED, RELATIVE, SEVEN, STAKED, body_of, changed, in_cm, on,
    single)
from reckon import stations
from reckon_walk import bends_at, fresh_rows, lengths, turns, walked_rows

ROW_NUMBERS, ENOUGH, MANY = 7, 2107, 50
REASONS = (1, 2, 3, 4, 5, 6, 8, 9, 10, 34, 35)
# The least table that shows every rule: an even runoff of nine rows, five of them worked afresh, each for one thing.
SMALL = (2, 2, 200, 71993, 60, 2500, 10000, 1, *RELATIVE)
# The same of a two-stage runoff, in ten rows.
STAGED = (2, 2, 400, 120007, 60, 1200, 13499, 1, *RELATIVE)


def rowed(six, step=20000, unit=1):
    """A relative card of six numbers with this step and unit."""
    return (*six, step, unit, *RELATIVE)


# ---- the lines of a card ----

def walked(card, room=ENOUGH):
    """What the walking call gives on so many numbers: the number, the rows, and which of them it worked afresh."""
    number, rows = single(card, room)
    # "nought on a refusal"
    return number, rows, fresh_rows(body_of(card)) if rows else []


def seen_walked(card):
    """A card whose lines have a corner at each of its turns, and whose rows the walk gives; any other ends here."""
    body = body_of(card)
    _, rows, fresh = walked(card)
    for name, station in turns(body):
        if not bends_at(body, station):
            sys.exit(f"{card}: no line has a corner at {station}, {name}")
    if list(walked_rows(body, fresh)) != rows:
        sys.exit(f"{card}: walked with {fresh} worked afresh it has other rows")
    return card


def beside_fresh(card):
    """The first rows of a card, its last, and those on either side of each that is worked afresh."""
    return {1} | {i + k for i in walked(card)[2] for k in (-2, -1, 0, 1)}


def run(card, room=ENOUGH, shown=None, null=False):
    """The lines of a card, each a letter and numbers; of the rows those shown, or all, and of many those beside a fresh one."""
    number, rows, fresh = walked(card, room)
    if shown is None and len(rows) > MANY:
        shown = beside_fresh(card)
    lines = [["z", *card] if null else ["c", room, *card], ["n", number, len(rows), len(fresh)]]
    lines += [["r", i, *row] for i, row in enumerate(rows) if shown is None or i in shown]
    # Document 01: "table numbers after the last row are untouched. A refused card gives its number and count 0, and the table is untouched."
    return lines + [["k", ROW_NUMBERS * len(rows)]]


def runs(cards, shown=None):
    return [run(seen_walked(card), shown=shown) for card in cards]


def refused(number, *cards):
    """The lines of cards that the papers' words refuse with this number, or accept, with 0; a reckoning that gives another ends here."""
    for card in cards:
        if walked(card)[0] != number:
            sys.exit(f"{card}: {walked(card)[0]}, where the words give {number}")
    return [run(card) for card in cards]


def afresh(count, *cards):
    """The lines of cards of which the words have so many rows worked afresh; a reckoning that gives another count ends here."""
    for card in cards:
        if len(walked(card)[2]) != count:
            sys.exit(f"{card}: {walked(card)} where the words have {count} worked afresh")
    return runs(cards)


# ---- rows beside a turn ----

def beside(name, six, *steps, unit=1):
    """Cards with a row 1 mm before that turn, on it and 1 mm past it; or on either side of it, where it is no whole millimetre.

    The step of each is given, or 0 where no step puts a row there. The row after it is worked afresh for another thing, and the row itself is
    not, so that the count tells whether it is past the turn. It ends here where this is not so.
    """
    station = dict(turns([*six, 20000, unit]))[name]
    places = [station - 1, station, station + 1] if station.denominator == 1 else [floor(station), ceil(station)]
    for place, step in zip(places, steps, strict=True):
        card = rowed(six, step, unit)
        if step and place not in stations(six[3], step)[:-1]:
            sys.exit(f"{card}: no row at {place}, {name} at {station}")
        if step and not tells(card, place, station):
            sys.exit(f"{card}: the count tells nothing of the row at {place}")
        if step:
            yield card


def tells(card, place, turn):
    """Whether, for other things than the turns at this station, the row after that place is worked afresh, and the row at it is not."""
    body = body_of(card)
    others = {0, walked(card)[2][-1]} | {reckon_walk.first_past(body, station) for _, station in turns(body) if station != turn}
    row = stations(card[3], card[6]).index(place)
    return row not in others and row + 1 in others


def coinciding(count, names, *cards, at_end=False):
    """The lines of cards that have all these turns between the same two rows, and so many rows worked afresh; another ends here."""
    for card in cards:
        body = body_of(card)
        places = [reckon_walk.first_past(body, station) for name, station in turns(body) if name in names]
        if len(places) != len(names) or len(set(places)) != 1 or (places[0] == walked(card)[2][-1]) != at_end:
            sys.exit(f"{card}: {turns(body)}, whose rows are {places}")
    return afresh(count, *cards)


def lone(which, *cards):
    """The lines of cards that have one row in this piece, of those from a row worked afresh up to the next; another ends here."""
    for card in cards:
        pieces = [end - start for start, end in itertools.pairwise(walked(card)[2])]
        if pieces[which] != 1:
            sys.exit(f"{card}: {pieces} rows in its pieces")
    return runs(cards)


# ---- what the cards show ----

def right_cards():
    """What the cards show, and the cards."""
    yield "RAMP and the absolute RAMP, whose rows the papers and docs/ABSOLUTE-RAMP.md have; cards of document 01's readings.", runs(
        [RAMP, RAISED, in_cm(RAMP), STAKED, SEVEN, in_cm(SEVEN), on(STAKED, 152340, 12)])
    yield from reason_cards()
    yield from count_cards()
    yield from joint_cards()
    yield from change_cards()
    yield from coinciding_cards()
    yield from touching_cards()
    yield from piece_cards()
    yield from step_cards()
    yield from absolute_cards()
    yield from halfway_cards()
    yield from room_cards()
    yield from other_cards()


def reason_cards():
    yield "Each reason of a card, 1 to 6, 8 to 10, 34 and 35: a count of 0, none worked afresh, and the table keeps its marks.", [
        lines for number, card in zip(REASONS, REFUSED, strict=True) for lines in refused(number, card)]
    yield "The first reason met: 1 before 9, 5 before 10, 8 before 9, 10 before 34, 34 before 35. W 1001 passes for category III.", [
        *refused(1, changed(RAMP, 0, 0, 6, 0)), *refused(5, changed(RAMP, 4, 61, 7, 5)), *refused(8, changed(REFUSED[6], 6, 0)),
        *refused(10, changed(RAISED, 7, 5, 9, 9000001)), *refused(34, changed(RAISED, 9, 9000001, 10, 81)),
        *runs([rowed((2, 2, 400, 100000, 60, 1001))])]


# Cards by how many rows are worked afresh, and for what besides the first and the last.
COUNTED = (
    (2, "an even runoff whose slope keeps to the crown's; one that changes past its last row but one; the joint so",
     rowed((3, 1, 60, 40000, 20, 0), 7000), rowed((5, 2, 60, 43001, 31, 0), 6143, 10), rowed((4, 1, 150, 60001, 30, 1001), 11000)),
    (3, "the joint; the inner slope; the inner shoulder",
     rowed((1, 2, 2000, 110000, 20, 0), 9001), rowed((2, 2, 125, 60000, 40, 900), 7000, 10), rowed((3, 1, 60, 40000, 20, 1700), 3001)),
    (4, "the joint and the shoulder slope; the inner slope and the shoulder slope",
     rowed((1, 2, 600, 120000, 60, 500), 10000, 10), rowed((2, 2, 150, 60000, 60, 700), 7001)),
    (4, "the joint and the inner shoulder, the inner slope turning or not; the inner slope and the inner shoulder",
     rowed((3, 1, 700, 120000, 20, 1300), 11001), rowed((4, 2, 400, 110000, 50, 1400), 12500, 10), rowed((2, 2, 150, 60000, 40, 1200), 7001)),
    (5, "the joint or the inner slope, the shoulder slope and the inner shoulder, in each order",
     SMALL, STAGED, in_cm(STAGED), rowed((2, 2, 400, 120000, 60, 1200), 10000), rowed((2, 2, 200, 80000, 60, 1500), 7919, 10),
     rowed((1, 1, 200, 90000, 55, 2500), 4999), rowed((3, 2, 300, 119999, 60, 1100), 9001, 10)),
)


def count_cards():
    for count, shown, *cards in COUNTED:
        yield f"{count} rows worked afresh: {shown}.", afresh(count, *cards)


def joint_cards():
    # "the first row past the stage joint"; 140000 / 3 mm is the joint of category III.
    yield "A row 1 mm before the joint, on it, and 1 mm past it, then one worked afresh anyway: a row on it is made from the one before.", runs([
        *beside("joint", (1, 1, 125, 60000, 27, 500), 0, 12500, 16667), *beside("joint", (3, 2, 70, 43000, 22, 400), 13333, 20000, 3077, unit=10),
        *beside("joint", (4, 1, 150, 61500, 31, 300), 0, 15000, 2069), *beside("joint", (5, 2, 90, 46000, 31, 600), 2647, 9000, 4091, unit=10)])
    yield "The joint of category III is at 46666 2/3 mm: a row at 46667. L 93333 is even, 93334 two-stage.", runs([
        *beside("joint", (2, 2, 300, 100000, 60, 2100), 0, 2029), *beside("joint", (2, 2, 300, 100000, 20, 2100), 0, 2029),
        *beside("joint", (2, 1, 300, 93334, 60, 1960), 0, 2029, unit=10), *beside("inner slope", (2, 1, 300, 93333, 60, 1960), 0, 2029, unit=10),
        rowed((2, 1, 300, 93334, 60, 1500), 7001), rowed((2, 1, 300, 93333, 60, 1500), 7001)])
    last = (4, 1, 150, 60001, 30, 300)
    yield "The joint 1 mm before the end, on a row: only the last row is past it. So where it is between the last two rows.", afresh(
        2, rowed(last, 20000), rowed(last, 7500, 10), rowed(last, 12600), rowed((3, 2, 60, 40003, 20, 0), 19999))
    yield "Tables with a joint between two rows, and on a row.", runs([
        rowed((1, 2, 600, 120000, 60, 500), 12500), rowed((3, 1, 700, 120000, 40, 400), 13333, 10), rowed((4, 1, 700, 140000, 40, 400), 10001),
        rowed((5, 2, 200, 70001, 60, 800), 4091, 10)])


def change_cards():
    # "the first row past each station where a greater-of rule changes sides"
    yield "The same beside the change of the inner slope in even runoffs: 1 mm before it, on it, 1 mm past it, or on either side.", runs([
        *beside("inner slope", (3, 2, 70, 41000, 21, 300), 13333, 20000, 3077),
        *beside("inner slope", (4, 1, 150, 61000, 31, 600), 0, 15000, 2069, unit=10),
        *beside("inner slope", (3, 2, 70, 40200, 21, 600), 13073, 19610), *beside("inner slope", (5, 2, 40, 30000, 41, 600), 12676, 8451, unit=10)])
    yield "The same of the shoulder slope, in even runoffs and two-stage ones.", runs([
        *beside("shoulder slope", (2, 2, 150, 61000, 41, 600), 0, 15000, 2069),
        *beside("shoulder slope", (1, 2, 125, 55000, 41, 600), 4918, 18033, unit=10),
        *beside("shoulder slope", (1, 2, 200, 76271, 41, 600), 10717, 18755, 4413, unit=10),
        *beside("shoulder slope", (3, 2, 200, 71031, 51, 600), 7781, 14006, 5387),
        *beside("shoulder slope", (2, 2, 200, 71200, 41, 600), 5387, 17508)])
    yield "The same of the inner shoulder, in even runoffs and two-stage ones.", runs([
        *beside("inner shoulder", (3, 2, 70, 41000, 45, 1025), 13333, 10000, 3077),
        *beside("inner shoulder", (5, 2, 40, 30000, 60, 800), 7031, 5625, 4018, unit=10),
        *beside("inner shoulder", (1, 2, 125, 55000, 21, 2480), 16633, 12475, unit=10),
        *beside("inner shoulder", (4, 2, 150, 61100, 31, 1025), 5419, 19870)])


def coinciding_cards():
    # "each of these once and no other": the count is of rows.
    slopes, shoulders, bends = ("inner slope", "shoulder slope"), ("shoulder slope", "inner shoulder"), ("inner slope", "inner shoulder")
    yield "Two changes between the same two rows, and all three: the row past them counts once.", [
        *coinciding(3, slopes, rowed((2, 2, 100, 50000, 60, 800)), rowed((3, 2, 60, 40000, 60, 700), 18001, 10)),
        *coinciding(4, shoulders, rowed((2, 2, 200, 80000, 60, 1500), 10001), rowed((1, 2, 200, 90000, 55, 2700), 13000, 10)),
        *coinciding(3, (*slopes, "inner shoulder"), rowed((2, 2, 100, 50000, 60, 2000)), rowed((2, 1, 100, 51001, 60, 1600), 19201, 10))]
    yield "Two changes at one station, a row on it or not; the joint at the inner shoulder's change.", [
        *coinciding(4, bends, rowed((2, 2, 100, 50000, 60, 2000), 5000), rowed((2, 2, 100, 50000, 60, 2000), 7001, 10)),
        *coinciding(4, ("joint", *bends), rowed((3, 2, 400, 120000, 60, 3000), 8000), rowed((3, 2, 400, 120000, 60, 3000), 9000, 10))]
    yield "The joint and the inner shoulder's change between the same two rows, either first; the joint on a row.", coinciding(
        3, ("joint", "inner shoulder"), rowed((3, 2, 300, 100000, 40, 2000), 19000), rowed((1, 2, 400, 100001, 20, 3500), 16500),
        rowed((2, 2, 300, 100000, 38, 2200), 11111, 10), rowed((2, 2, 300, 100000, 40, 2100), 15000), rowed((3, 2, 300, 100000, 50, 2200), 20000, 10))
    # The joint and the change of the shoulder slope are more than 20 m apart in every runoff, so that no row is the first past both.
    yield "A change past the last row but one: the last row counts once; so does it where two are past that row.", [
        *coinciding(4, ("shoulder slope",), rowed((2, 2, 150, 60000, 45, 1300), 9000, 10), rowed((1, 2, 600, 120000, 41, 3000), 7500), at_end=True),
        *coinciding(3, shoulders, rowed((2, 2, 400, 120000, 41, 1001), 16000, 10), rowed((2, 2, 100, 50001, 41, 1010), 19000),
                    rowed((1, 1, 200, 79000, 42, 2300), 19000), at_end=True),
        *coinciding(2, ("inner shoulder",), rowed((3, 1, 60, 40000, 20, 1003), 6500), at_end=True)]


def touching_cards():
    # "where a greater-of rule changes sides": where its two lines only touch, it keeps to one of them.
    yield "v at the crown slope, and 1 above it: the inner slope touches, at the joint or at L, or changes sides.", [
        *afresh(2, rowed((4, 1, 125, 55000, 30, 0), 18049)), *afresh(3, rowed((4, 1, 125, 55000, 31, 0), 18049)),
        *afresh(3, rowed((2, 2, 800, 130000, 20, 600), 13001, 10)), *afresh(3, rowed((2, 2, 800, 130000, 21, 600), 13001, 10))]
    yield "v at the shoulder slope, and 1 above it: the shoulder slope touches at L, or changes sides.", [
        *afresh(3, rowed((2, 1, 150, 60000, 40, 500), 1700)), *afresh(4, rowed((2, 1, 150, 60000, 41, 500), 1700)),
        *afresh(3, rowed((1, 2, 800, 150001, 40, 500), 4999, 10)), *afresh(4, rowed((1, 2, 800, 150001, 41, 500), 4999, 10))]
    yield "W at the shoulder less the least shoulder, and 1 above it: the inner shoulder touches at L, or changes sides.", [
        *afresh(3, rowed((2, 2, 150, 60000, 40, 1000), 5995)), *afresh(4, rowed((2, 2, 150, 60000, 40, 1001), 5995)),
        *afresh(3, rowed((5, 2, 300, 90000, 45, 750), 17977, 10)), *afresh(4, rowed((5, 2, 300, 90000, 45, 751), 17977, 10))]


def piece_cards():
    yield "Every row worked afresh: of three, four and five.", [
        *afresh(3, rowed((5, 1, 30, 30000, 60, 3500)), rowed((3, 2, 60, 40000, 60, 3500), unit=10)), *afresh(4, rowed((2, 2, 100, 50000, 60, 3500))),
        *afresh(5, rowed((2, 2, 150, 65000, 60, 3500), unit=10), rowed((3, 2, 150, 64000, 60, 3500)))]
    yield "One row in the first piece; one in the last but one; one between two changes.", [
        *lone(0, rowed((5, 2, 150, 60000, 59, 3500), 13000), rowed((4, 2, 150, 66500, 50, 3500), 19999, 10)),
        *lone(-1, rowed((2, 2, 400, 120000, 60, 1200), 12000), rowed((1, 1, 400, 150000, 60, 2400), 18000, 10)),
        *lone(1, rowed((3, 2, 400, 130000, 60, 3500), 19000, 10), rowed((2, 2, 200, 80000, 60, 1500), 9000))]


def step_cards():
    steep = (1, 1, 125, 297001, 60, 3500)
    yield "Steps of 1 m on the longest clothoid, the first stage's and the widening's; of 301 rows those beside a row worked afresh.", runs([
        LONGEST, in_cm(LONGEST), rowed(steep, 1000), on(in_cm(rowed((5, 2, 30, 300000, 60, 3500), 1000)), 9000000, 80),
        on(rowed((4, 1, 30, 300000, 31, 3500), 1000), -100000, -80)])
    yield "Odd steps: 1001, 1999, 2003, 7919 and 19999 mm; a last step of 1 mm, of 1 mm less than a step, and of a whole one.", runs([
        rowed(steep, 1001), rowed((3, 2, 200, 90007, 57, 1409), 1999, 10), rowed((5, 1, 80, 61001, 53, 1777), 2003),
        rowed((4, 2, 333, 149999, 47, 2221), 7919), rowed((1, 2, 500, 250000, 43, 3499), 19999, 10),
        rowed((2, 2, 400, 120001, 60, 1200), 12000), rowed((2, 2, 400, 119999, 60, 1200), 12000, 10), rowed((2, 2, 400, 120000, 60, 1200), 12000)])
    yield "Steps of 20 m: profiles 1 to 5.", runs([
        rowed((1, 2, 300, 199999, 60, 2900), unit=10), rowed((2, 1, 300, 180001, 60, 1900)), rowed((3, 2, 300, 170003, 60, 1900), unit=10),
        rowed((4, 1, 300, 150001, 60, 1900)), rowed((5, 2, 300, 140009, 60, 1900), unit=10)])


def absolute_cards():
    yield "The rows of the least tables above the benchmark and below, on climbing roads and falling ones, in mm and in cm.", runs([
        on(SMALL, 250000, -35), on(in_cm(SMALL), -100000, 80), on(STAGED, -5, 1), on(in_cm(STAGED), 8999990, -79)])
    yield "Heights and grades at either limit, rows every 20 m on the longest clothoid, in mm and in cm.", runs([
        on(rowed((2, 2, 400, 300000, 60, 1200), 20000, unit), height, grade)
        for unit, height, grade in ((1, -100000, -80), (1, 9000000, 80), (10, -100000, 80), (10, 9000000, -80))])
    yield "Height 0 and grade 0; no grade; grades of 1 and -1, by which the axis carries below nought.", runs([
        on(STAKED, 0, 0), on(SMALL, 9000000, 0), on(in_cm(changed(SMALL, 6, 9001)), 0, 1), on(changed(SMALL, 6, 9001), 0, -1)])


# Cards with a row of which these columns stand halfway, and which is made from the one before: the card, its station, the columns.
ALL, HEIGHTS, NONE = (1, 2, 3, 4, 5, 6), (2, 3, 4, 5, 6), ()
HALVES = (
    (rowed((5, 1, 1000, 120000, 40, 1875), 10000), 60000, ALL), (changed(HALFWAY, 6, 6500), 39000, ALL),
    (on(rowed((2, 1, 400, 105000, 60, 375), 8750), -100000, 1), 87500, ALL), (on(rowed((3, 1, 100, 50000, 60, 1250), 2125), 9000000, -1), 42500, ALL),
    (rowed((1, 1, 1000, 125000, 60, 1250), 18750, 10), 112500, ALL), (rowed((1, 1, 125, 60000, 60, 1000), 15000, 10), 15000, HEIGHTS),
    (on(rowed((1, 1, 1000, 200000, 60, 3000), 17500, 10), -100000, -1), 175000, ALL), (rowed((1, 1, 1000, 125000, 60, 1250), 18750), 112500, NONE),
    (changed(HALFWAY_IN_CM, 6, 16250), 65000, ALL),
)


def halves(card, d):
    """The columns of a row whose number stands halfway between two counts of the unit."""
    return tuple(column for column, length in enumerate(lengths(body_of(card), d), 1) if length.denominator == 2)


def halfway_cards():
    for card, station, columns in HALVES:
        row = stations(card[3], card[6]).index(station)
        if halves(card, station) != columns or row in walked(card)[2][1:-1]:
            sys.exit(f"{card} has halfway at {station}: {halves(card, station)}, and {walked(card)[2]} worked afresh")
    yield "Numbers halfway in rows made from the one before: in mm to the higher, in cm to the lower, also below nought.", runs(
        [card for card, _, _ in HALVES])


def room_cards():
    rows = len(walked(SMALL)[1])
    room = ROW_NUMBERS * rows
    yield "11: a table of seven numbers a row passes, of one less it does not; none, NULL, one number; a longer table keeps the rest.", [
        *(run(SMALL, numbers) for numbers in (room, room - 1, room + 1, 2 * room + 3, 0, 1)), run(SMALL, 0, null=True),
        run(on(STAGED, 0, 35), ROW_NUMBERS * len(walked(STAGED)[1]) - 1), run(SEVEN, 48), run(SEVEN, 49)]
    yield "301 rows in 2107 numbers, not in 2106; twice as many keep the second half.", [
        run(LONGEST, ENOUGH), run(LONGEST, ENOUGH - 1), run(LONGEST, 2 * ENOUGH)]
    yield "A card's own reason before 11, where no table is lent.", [
        run(REFUSED[0], 0, null=True), run(REFUSED[8], 0), run(REFUSED[9], 20), run(REFUSED[10], 0, null=True)]


def other_cards():
    yield "Beside mark 0 height and grade are not looked at; every other mark is absolute, those that are 0 in fewer bits too.", [
        *runs([changed(RAMP, 9, MOST, 10, LEAST), *[changed(on(SMALL, 250000, -35), 8, mark) for mark in (2, -1, 256, LEAST)]]),
        *refused(34, changed(RAISED, 8, 2, 9, 9000001)), *refused(35, changed(RAISED, 8, -1, 10, 81))]
    yield "One of the eight numbers below 0; all eleven the least, and -1.", [
        *(line for place, number in enumerate((1, 2, 3, 4, 5, 6, 9, 10)) for line in refused(number, changed(SMALL, place, -SMALL[place]))),
        *refused(1, (LEAST,) * 11, (-1,) * 11)]


# ---- what the whole text must have ----

def carries(card):
    """Whether a straight line of the card goes on by two different numbers among rows made from the one before: some carry, some do not."""
    _, rows, fresh = walked(card)
    for column in (1, 4, 5, 6):
        for piece in zip(fresh, fresh[1:]):
            if len({after[column] - before[column] for before, after in itertools.pairwise(rows[slice(*piece)])}) > 1:
                return True
    return False


def seen_whole(groups):
    """The same cards, among which all counts are met, and a hundred whole tables of which some rows carry; else it ends here."""
    whole, counts = set(), set()
    for lines in itertools.chain.from_iterable(cards for _, cards in groups):
        card, (_, _, rows, fresh) = tuple(lines[0][-11:]), lines[1]
        counts.add(fresh)
        if rows and len(lines) == rows + 3 and carries(card):
            whole.add(card)
    if len(whole) < 100 or counts != {0, 2, 3, 4, 5}:
        sys.exit(f"all rows of {len(whole)} cards of which some carry, worked afresh: {counts}")
    return groups


def put_out(groups):
    """Prints what is shown, after #, and the lines of its cards."""
    for shown, cards in groups:
        print("# " + shown)
        for line in itertools.chain.from_iterable(cards):
            print(*line)


def main():
    if (walked(RAMP), walked(RAISED)) != ((0, RAMP_ROWS, [0, 2]), (0, RAISED_ROWS, [0, 2])):
        sys.exit("RAMP's rows are not those of document 02, Slip 6, or the absolute RAMP's not those of docs/ABSOLUTE-RAMP.md")
    put_out(seen_whole(list(right_cards())))


if __name__ == "__main__":
    main()
