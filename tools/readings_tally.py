#!/usr/bin/env python3
"""Counts what a text of figures holds, and so what the program readings has to print of it.

    python3 tools/readings_tally.py < crates/readings/stdin > crates/readings/stdout

No figure may fail but those made wrong on purpose, one in each line.
"""
import sys

# The lines whose figures are compared, with how many numbers come before the figures: a row's or a curve's own number, or a
# count of bytes.
BEFORE_FIGURES = {"n": 0, "r": 1, "o": 0, "k": 1, "e": 1}


def main():
    # a book's text may have any byte but 10
    sys.stdin.reconfigure(encoding="latin-1", newline="\n")
    sys.stdout.reconfigure(encoding="latin-1", newline="\n")
    name, books, cards, rows, compared, wrong = None, 0, 0, 0, 0, 0
    for line in sys.stdin.read().split("\n") + ["g"]:
        letter, figures = line[:1], line[1:].split()
        if letter == "g":
            if name is not None:
                print("%s: %d books, %d cards, %d rows, %d figures compared, %d failed" % (name, books, cards, rows, compared, wrong))
            name, books, cards, rows, compared, wrong = line[2:], 0, 0, 0, 0, 0
        books += letter in ("o", "k")
        cards += letter in ("c", "h")
        rows += letter == "r"
        if letter in BEFORE_FIGURES:
            wrong += "wrong on purpose" in name
            compared += sum(figure != "x" for figure in figures[BEFORE_FIGURES[letter]:])
    print("lines not understood: 0")


main()
