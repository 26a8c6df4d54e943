#!/usr/bin/env python3
"""Every figure that the examples 2.1 and 2.2 of the Minsk handbook print, beside the method's own.

    python3 tools/minsk_handbook.py

The figures stand here as the scan of document 001 prints them, in metres, with the station that its stakes give and the card that has the
handbook's numbers. They were read off the scan; the method's are by tools/reckon_minsk.py. docs/MINSK-EXAMPLES.md says in words which fit
and why the others do not, and tools/minsk_data.py puts those that fit into the runs. A figure fits where it is the exact value to within
half a unit of its own last digit.
"""
import sys
from fractions import Fraction

import reckon_minsk

# The card of example 2.1 with the 140 m that it reckons S1 with, and with the 170 m that it states; and the card of example 2.2.
FIRST_140 = (1, 1, 600, 140000, 50, 0)
FIRST_170 = (1, 1, 600, 170000, 50, 0)
SECOND = (3, 1, 400, 140000, 40, 500)
# "Проектная линия имеет уклон +10 ‰ с отметкой 90,00"; on the way out 93.96 at stake 14+66.5, 14 m from the end, and falling.
INTO, OUT_OF = (90000, 10), (94100, -10)
WIDENING, AXIS, OUTER_EDGE, OUTER_STRIP, OUTER_BROW, INNER_EDGE, INNER_STRIP, INNER_BROW = range(1, 9)
LINES = (OUTER_EDGE, OUTER_STRIP, OUTER_BROW, INNER_EDGE, INNER_STRIP, INNER_BROW)

# Example 2.1 in its text: the stake, the distance from the start of the clothoid or from the end of the bend in mm, and for each line,
# 2 to 7 in the handbook, the figures printed for it.
FIRST_STAGE_TEXT = (
    ("10+54.5", 14000, "-0.07", "-0.085", "-0.13", "-0.07", "-0.085", "-0.18"),
    ("10+60", 19500, "-0.0425", "-0.05", "-0.078 -0.08", "", "", ""),
    ("10+70", 29500, "0.0075", "0.009 0.01", "0.0139 0.01", "", "", ""),
    ("10+80", 39500, "0.0575", "0.07", "0.1068 0.11", "", "", ""),
    ("10+82.5", 42000, "0.07 0.07", "0.085 0.085", "0.13 0.13", "", "", ""),
    # The handbook's own distances into the stage are 3.5, 13.5 and 23.5 m; the stakes 14+60, 14+50 and 14+40 are 6.5, 16.5 and 26.5 m in.
    ("3.5 m in", 17500, "-0.0525", "-0.06375", "-0.0975 -0.10", "", "", ""),
    ("13.5 m in", 27500, "-0.0025", "-0.003 0.00", "-0.0046 0.00", "", "", ""),
    ("23.5 m in", 37500, "0.0475", "0.0576 0.06", "0.088 0.09", "", "", ""),
    ("14+38.5", 42000, "0.07", "0.085", "0.13", "", "", ""),
)
SECOND_STAGE_TEXT = (
    ("10+90", 49500, "0.076", "0.0922 0.09", "0.14", "-0.07", "-0.09", "-0.18"),
    ("11+00", 59500, "0.0844", "0.10", "0.16", "-0.08", "-0.10", "0.19"),
    ("14+30", 50500, "0.07697", "0.09", "0.14", "-0.08", "-0.09", "-0.18"),
)
END_TEXT = (("12+10.5", 170000, "0.175", "0.21", "0.315 0.32", "-0.175", "-0.21", "-0.30"),)
# Table 2.7: the same, with the axis between.
FIRST_STAGE_TABLE = (
    ("10+54.5", 14000, "90.14", "-0.07", "-0.085", "-0.13", "-0.07", "-0.085", "-0.18"),
    ("10+60", 19500, "90.20", "-0.04", "-0.05", "-0.08", "-0.07", "-0.085", "-0.18"),
    ("10+70", 29500, "90.30", "0.01", "0.01", "0.01", "-0.07", "-0.085", "-0.18"),
    ("10+80", 39500, "90.40", "0.06", "0.07", "0.11", "-0.07", "-0.085", "-0.18"),
    ("10+82.5", 42000, "90.42", "0.07", "0.085", "0.13", "-0.07", "-0.085", "-0.18"),
)
SECOND_STAGE_TABLE = (
    ("10+90", 49500, "90.50", "0.08", "0.09", "0.14", "-0.08", "-0.09", "-0.18"),
    ("11+00", 59500, "90.60", "0.09", "0.10", "0.16", "-0.09", "-0.10", "-0.19"),
)
END_TABLE = (("12+10.5", 170000, "91.40", "0.175", "0.21", "0.32", "-0.175", "-0.21", "-0.30"),)
# The way out: distances from the end of the bend at 14+80.5. Where the stage is the first, the lines stand at the handbook's own distances.
OUT_SECOND_STAGE = (
    ("13+20", 160500, "93.50", "0.17", "0.20", "0.31", "-0.17", "-0.20", "-0.29"),
    ("14+30", 50500, "93.60", "0.08", "0.09", "0.14", "-0.08", "-0.09", "-0.18"),
)
OUT_END = (("13+10.5", 170000, "92.40", "0.175", "0.21", "0.32", "-0.175", "-0.21", "-0.30"),)
OUT_FIRST_STAGE = (
    ("14+38.5", 42000, "", "0.07", "0.085", "0.13", "-0.07", "-0.085", "-0.18"),
    ("14+40", 37500, "", "0.05", "0.06", "0.09", "-0.07", "-0.085", "-0.18"),
    ("14+50", 27500, "", "0.00", "0.00", "0.00", "-0.07", "-0.085", "-0.18"),
    ("14+60", 17500, "", "-0.05", "-5.06", "-0.10", "-0.07", "-0.085", "-0.18"),
    ("14+66.5", 14000, "", "-0.07", "-0.085", "-0.13", "-0.07", "-0.085", "-0.18"),
)
OUT_AXIS = (("14+38.5", 42000, "93.68"), ("14+40", 40500, "93.70"), ("14+50", 30500, "93.80"), ("14+60", 20500, "93.90"),
            ("14+66.5", 14000, "93.96"))
# Table 2.8 and the lines before it: heights above the benchmark.
ABSOLUTE = (("11+00", 59500, "90.60", "90.69", "90.70", "90.76", "90.51", "90.50", "90.41"),)

# Example 2.2: the lines, then the widening, in its text and in table 2.9.
SECOND_LINES = (
    ("10+63", 28000, "0.06", "", "", "", "", ""),
    ("11+20", 85000, "0.09", "0.105 0.11", "0.15", "-0.11", "-0.15", "-0.21"),
    ("11+40", 105000, "0.101", "0.12", "0.17", "-0.14", "-0.13", "-0.18"),
    ("12+80", 135000, "0.117 0.12", "0.14", "0.20", "-0.14", "-0.16", "-0.20"),
    ("11+75", 140000, "0.12", "", "", "", "", ""),
)
SECOND_WIDENING = (
    ("11+20", 85000, "0.00"), ("11+27", 92000, "0.00"), ("11+30", 95000, "0.075 0.08 0.08"), ("11+40", 105000, "0.32 0.32 0.50"),
    ("11+47", 112000, "0.50"), ("11+50", 115000, "0.50 0.50"), ("11+60", 125000, "0.50"), ("11+70", 135000, "0.50"),
    ("11+75", 140000, "0.50"), ("12+75", 140000, "0.50 0.50"), ("12+80", 135000, "0.50"), ("12+90", 125000, "0.50"),
    ("13+00", 115000, "0.50"), ("13+03", 112000, "0.50"), ("13+10", 105000, "0.32 0.32"), ("13+20", 95000, "0.08 0.08"),
    ("13+25", 90000, "0.00"), ("13+30", 85000, "0.00"),
)


class Printed:
    """A figure of the handbook: where it stands, of which card, station and column, and its digits."""

    def __init__(self, group, card, stake, station, column, digits):
        self.group, self.card, self.stake, self.station, self.column, self.digits = group, card, stake, station, column, digits
        self.value = 1000 * Fraction(digits)  # In mm.

    @property
    def half(self):
        """Half a unit of its last digit, in mm."""
        return Fraction(500, 10 ** len(self.digits.partition(".")[2]))

    @property
    def exact(self):
        """The method's own, in mm."""
        widening, *heights = reckon_minsk.lines_at(self.card, self.station)
        return [self.station, widening, *(height / 1000 for height in heights)][self.column]

    @property
    def fits(self):
        return abs(self.exact - self.value) <= self.half

    @property
    def unit(self):
        """The unit that shows its digits: cm for two decimals, else mm."""
        return 10 if len(self.digits.partition(".")[2]) == 2 else 1


def printed(group, card, rows, columns):
    """The figures of a table of the handbook; a cell of several digits has been printed several times."""
    for stake, station, *cells in rows:
        for column, cell in zip(columns, cells, strict=True):
            for digits in cell.split():
                yield Printed(group, card, stake, station, column, digits)


def lines_of(rows):
    """The rows without the axis, which is above the benchmark where the lines are about the axis."""
    return [row[:2] + row[3:] for row in rows]


def axis_of(rows):
    """The rows with the axis alone."""
    return [row[:3] for row in rows]


def groups():
    """By group, card, rows and columns. Where no card has both, each figure is of the card with its joint or of the one with its end."""
    into, out_of = ((*FIRST_140, 20000, 1, *datum) for datum in (INTO, OUT_OF))
    first, last, second = ((*card, 20000, 1) for card in (FIRST_140, FIRST_170, SECOND))
    return (
        ("2.1 text, first stage", first, FIRST_STAGE_TEXT, LINES),
        ("2.1 text, second stage", first, SECOND_STAGE_TEXT, LINES),
        ("2.1 text, end", last, END_TEXT, LINES),
        ("2.7 first stage", first, lines_of(FIRST_STAGE_TABLE), LINES),
        ("2.7 second stage", first, lines_of(SECOND_STAGE_TABLE), LINES),
        ("2.7 end", last, lines_of(END_TABLE), LINES),
        ("2.7 way out, end", last, lines_of(OUT_END), LINES),
        ("2.7 way out, second stage, 13+20", last, lines_of(OUT_SECOND_STAGE[:1]), LINES),
        ("2.7 way out, second stage, 14+30", first, lines_of(OUT_SECOND_STAGE[1:]), LINES),
        ("2.7 way out, first stage", first, lines_of(OUT_FIRST_STAGE), LINES),
        ("2.7 axis", into, axis_of(FIRST_STAGE_TABLE + SECOND_STAGE_TABLE), (AXIS,)),
        ("2.7 axis, end", (*FIRST_170, 20000, 1, *INTO), axis_of(END_TABLE), (AXIS,)),
        ("2.7 axis, way out", out_of, axis_of(OUT_AXIS + OUT_SECOND_STAGE[1:]), (AXIS,)),
        ("2.7 axis, way out, 13+20 and end", (*FIRST_170, 20000, 1, *OUT_OF), axis_of(OUT_SECOND_STAGE[:1] + OUT_END), (AXIS,)),
        ("2.8", into, ABSOLUTE, (AXIS, *LINES)),
        ("2.2 lines", second, SECOND_LINES, LINES),
        ("2.2 widening and 2.9", second, SECOND_WIDENING, (WIDENING,)),
    )


def figures():
    """All of them."""
    for group in groups():
        yield from printed(*group)


def main():
    names = ("station", *reckon_minsk.COLUMNS)
    tally = {}
    for figure in figures():
        tally.setdefault(figure.group, []).append(figure.fits)
        print(f"{figure.group}: {figure.stake}, {names[figure.column]}: printed {figure.digits}, "
              f"exact {float(figure.exact) / 1000:.5f}: {'fits' if figure.fits else 'DIFFERS'}")
    for group, fits in tally.items():
        print(f"{group}: {sum(fits)} of {len(fits)} fit")
    return 0


if __name__ == "__main__":
    sys.exit(main())
