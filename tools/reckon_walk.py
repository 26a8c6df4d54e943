#!/usr/bin/env python3
"""Which rows of a card are worked afresh where its table is walked from row to row, by Slip 8 of document 02.

Standard input: a book of cards. Standard output: of each accepted curve its name, its rows, how many of them are worked afresh, and which,
counted from 0. What is quoted stands in Slip 8 where no other paper is named; the lines are those of tools/reckon.py, from document 01.

    python3 tools/reckon_walk.py < book

Slopes and shoulder are straight lines with corners. Where two of them cross is found in exact fractions, corner by corner. Nothing is
shared with the library's code. A card is the numbers of its body, eight or ten.
"""
import sys
from fractions import Fraction
from itertools import pairwise

import reckon
from reckon import PROFILES, is_even, lines_at, outer_slope, rounded, stations


# ---- straight lines with corners: stations in rising order, each with the line's height there ----

def height(line, d):
    """The height of a line at a station."""
    for (start, first), (end, second) in pairwise(line):
        if start <= d <= end:
            return first + (second - first) * Fraction(d - start) / Fraction(end - start)
    raise ValueError(f"{d} is past the line")


def apart(one, other):
    """How far one line is above the other, at their corners and where they cross: between two of these it does not change its sign."""
    found = {d: height(one, d) - height(other, d) for d in {d for d, _ in one + other}}
    for (start, first), (end, second) in pairwise(sorted(found.items())):
        if first * second < 0:
            found[start + (end - start) * first / (first - second)] = Fraction(0)
    return sorted(found.items())


def greater(one, other):
    """The greater of two lines."""
    return [(d, max(height(one, d), height(other, d))) for d, _ in apart(one, other)]


def changes(one, other):
    """The stations where the greater of two lines changes sides: strictly the one before, strictly the other after."""
    known = apart(one, other)
    return [d for (_, before), (d, here), (_, after) in zip(known, known[1:], known[2:]) if here == 0 and before * after < 0]


# ---- a card ----

def joint(card):
    """The stage joint of a two-stage runoff."""
    h, _, p = PROFILES[card[0]][:3]
    # Document 01: "until the outer slope is p, at station 2 x h x p / 3"
    return Fraction(2 * h * p, 3)


def rules(card):
    """The greater-of rules: of which two lines each takes the greater."""
    _, c, p, q, m = PROFILES[card[0]][:5]
    L, W = card[3], card[5]

    def level(number):
        return [(0, Fraction(number)), (L, Fraction(number))]
    outer = [(d, Fraction(outer_slope(card, d))) for d in ([0, L] if is_even(card) else [0, joint(card), L])]
    return {
        # Document 01: "The inner slope is the greater of p and the outer slope."
        "inner slope": (level(p), outer),
        # Document 01: "Its slope is the greater of q and the inner slope."
        "shoulder slope": (level(q), greater(level(p), outer)),
        # Slip 1: "the greater of m and c less the widening"; document 01: "The widening at d is W x d / L"
        "inner shoulder": (level(m), [(0, Fraction(c)), (L, Fraction(c - W))]),
    }


def turns(card):
    """The stations past which a row is worked afresh, by their names: the joint, and where a rule changes sides."""
    found = [] if is_even(card) else [("joint", joint(card))]
    return found + [(name, d) for name, lines in rules(card).items() for d in changes(*lines)]


def first_past(card, station):
    """The first row past a station. A row on it is not yet past it."""
    return next(i for i, d in enumerate(stations(card[3], card[6])) if d > station)


def fresh_rows(card):
    """The rows of an accepted card that are worked afresh, each once, from 0."""
    # "working afresh only at the first row, at the last, at the first row past the stage joint and at the first row past each station
    # where a greater-of rule changes sides"
    last = len(stations(card[3], card[6])) - 1
    return sorted({0, last} | {first_past(card, station) for _, station in turns(card)})


# ---- the walk: each row from the one before "by adding and carrying the remainder" ----

def lengths(card, d):
    """The six lengths of a row in its unit, exact."""
    widening, *heights = lines_at(card, d)
    return [Fraction(length) / card[7] for length in [widening] + [Fraction(line, 1000) for line in heights]]


def gains(card, d):
    """By how much each length grows from this station over one step, and by how much that grows itself: up to the next corner."""
    end = min((station for _, station in turns(card) if station > d), default=card[3])
    half, step = Fraction(end - d) / 2, card[6]
    for first, second, third in zip(*(lengths(card, d + k * half) for k in range(3))):
        bend = (third - 2 * second + first) * (step / half) ** 2
        yield (second - first - (third - 2 * second + first) / 2) * step / half + bend / 2, bend


def split(length, unit):
    """The whole number that a length in its unit is rounded to, and the remainder that it leaves."""
    number = rounded(length * unit, unit)
    return number, length - number


def begun(card, d):
    """The six numbers of a row worked afresh, and their remainders."""
    return zip(*(split(length, card[7]) for length in lengths(card, d)))


def onward(rests, rises, bends, unit):
    """From a row to the next: what is added to each number, the remainders that are left, and the gains of the next step."""
    carried, left = zip(*(split(rest + rise, unit) for rest, rise in zip(rests, rises)))
    return carried, left, [rise + bend for rise, bend in zip(rises, bends)]


def walked_rows(card, fresh):
    """The rows of a card, walked: these are worked afresh, and each other is the one before with the gains added and carried."""
    places = stations(card[3], card[6])
    for i, d in enumerate(places):
        if i in fresh:
            numbers, rests = begun(card, d)
            rises, bends = zip(*gains(card, d)) if d < places[-1] else ((), ())
        else:
            carried, rests, rises = onward(rests, rises, bends, card[7])
            numbers = [number + carry for number, carry in zip(numbers, carried)]
        yield [d, *numbers]


def bends_at(card, d):
    """Whether a line has a corner at this station: it does not go on past it as it came."""
    step = Fraction(1, 1000)
    return any(fourth - 3 * third + 3 * second - first
               for first, second, third, fourth in zip(*(lengths(card, d + k * step) for k in (-2, -1, 0, 1))))


def main():
    for name, card in reckon.read_book(sys.stdin.buffer.read()):
        if reckon.refusal(card) == 0:
            fresh = fresh_rows(card)
            print(name.decode("ascii"), len(stations(card[3], card[6])), len(fresh), *fresh)


if __name__ == "__main__":
    main()
