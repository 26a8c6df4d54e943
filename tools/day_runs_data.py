#!/usr/bin/env python3
"""Makes the book that the program day_runs reads, and what it must print.

    python3 tools/day_runs_data.py book > crates/day_runs/stdin
    python3 tools/day_runs_data.py printed > crates/day_runs/stdout

A day is reckoned by tools/day_data.py, from document 02; nothing is shared with the library.
"""
import sys

from day_data import RAISED, RAMP, SEVEN, SHORT, body_of, changed, fill_day

# RAMP with a row every 10 m, 100 m below the benchmark on the steepest grade: four rows, which 24 numbers are too few for.
CLOSE = (*changed(RAMP, 6, 10000)[:8], 1, -100000, 80)
# Absolute cards that are refused with 34 and 35.
HIGH, STEEP = changed(RAISED, 9, 9000001), changed(RAISED, 10, -81)
CARDS = ([RAMP, SHORT, CLOSE, RAISED] + [RAMP, SEVEN, SHORT, HIGH, STEEP, RAISED] * 10)[:64]
# The place after the last curve of the list has a card of noughts.
NOUGHTS = (0,) * 11
# How many cards, numbers of the table and numbers of the reply list are lent.
RUNS = [
    (0, 63, 132), (0, 0, 0), (1, 21, 2), (1, 20, 2), (2, 63, 4), (3, 63, 7), (3, 63, 6), (3, 63, 5), (5, 63, 10), (5, 45, 12),
    (64, 63, 132), (64, 63, 128), (64, 63, 127), (65, 63, 132), (65, 63, 129), (65, 0, 0),
]
MARK = 1000000000


def book():
    count = len(CARDS)
    print(count)
    for i in range(count):
        print("CARD%d %d" % (i, count + 2 + i))
    for card in CARDS:
        print(*body_of(card))


def printed(count, table_length, replies_length, differ=0):
    """The reply, the reply list with two numbers more than the cards have in it, and how many numbers the second call leaves otherwise."""
    number, answered, replies, _ = fill_day((CARDS + [NOUGHTS])[:count], table_length, replies_length)
    shown = sum(replies, [])
    shown += [MARK + place for place in range(len(shown), 2 * count + 2)]
    print(number, answered, *shown, "differ:", differ)


def main():
    if sys.argv[1] == "book":
        return book()
    for lent in RUNS:
        printed(*lent)
    # with 20 numbers RAMP's 21 are not written, and its reply is 11 and 0 in place of 0 and 3
    printed(1, 21, 2, 21 + 2)


main()
