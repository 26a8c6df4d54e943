#!/usr/bin/env python3
"""Makes the groups of the tables of 002 in the text of figures that the program readings runs.

    python3 tools/readings_data.py TABLES.csv < crates/readings/stdin > new-text

TABLES.csv, which is no part of this repository, has the tables of 002 as read from its scan, row by row.
The other groups stay as they are in the text.
"""
import csv
import re
import sys

CARD = ("profile", "R_m", "L_mm", "v_permille", "W_mm")
COLUMNS = ("widening", "inner_brow", "inner_edge", "axis", "outer_edge", "outer_brow")
STEPS = (1000, 2500)  # the tables of 002 stand at whole metres, but for one row at 22.5 m
UNIT = 10  # and are printed in centimetres, in which halfway "still goes to the lower" (document 02, Slip 6)


def blocks(rows):
    """The rows of one card together, cards in the order in which 002 first prints them."""
    found = {}
    for row in rows:
        found.setdefault(tuple(row[name] for name in CARD), []).append(row)
    return found


def places(rows):
    """Where the rows stand: sheets, and lines of the scan's text in runs."""
    sheets = sorted({int(row["sheet"]) for row in rows})
    runs = []
    for line in sorted({int(row["source_line"]) for row in rows}):
        if runs and runs[-1][1] == line - 1:
            runs[-1][1] = line
        else:
            runs.append([line, line])
    lines = ["%d-%d" % (a, b) if a < b else "%d" % a for a, b in runs]
    return "# 002, sheet %s, line %s" % (" ".join(map(str, sheets)), " ".join(lines))


def step_of(rows):
    """The first step that puts a row at each of these stations."""
    for step in STEPS:
        if all(int(row["station_mm"]) % step == 0 for row in rows):
            return step
    sys.exit("no step for %s" % places(rows))


def card_line(card, step):
    profile, radius, clothoid, slope, widening = card
    return "c %s 1 %s %s %s %s %d %d" % (profile, radius, clothoid, slope, widening, step, UNIT)


def accepted(card, step):
    """One row at each whole step below L and one at L, seven numbers a row."""
    count = (int(card[2]) + step - 1) // step + 1
    return "n 0 %d %d" % (count, 7 * count)


def by_rule(row):
    """The columns that differ from the rule, with the rule's figure."""
    return dict(re.findall(r"(\w+) printed -?\d+ rule (-?\d+)", row["detail"]))


def left_out(row):
    """The columns that differ from the rule, which are not compared."""
    return dict.fromkeys(by_rule(row), "x")


def row_line(row, step, differing):
    """A printed row: figures that differ are replaced, and x stands where nothing is printed."""
    instead = differing(row)
    figures = [instead.get(name, row[name + "_cm"]) or "x" for name in COLUMNS]
    station = int(row["station_mm"])
    return "r %d %d %s" % (station // step, station, " ".join(figures))


def group(rows, differing=by_rule):
    """The rows in their blocks."""
    lines = ["t 2128"]
    for card, block in blocks(rows).items():
        step = step_of(block)
        lines += [places(block), card_line(card, step), accepted(card, step)]
        lines += [row_line(row, step, differing) for row in block]
    return lines + ["#"]


def refused(rows):
    lines = ["t 2128"]
    for card, block in blocks(rows).items():
        number = block[0]["refusal_base_level"]
        lines += [places(block), card_line(card, STEPS[0]), "n %s 0 0" % number]
    return lines + ["#"]


def select(rows, numbers, flag):
    """The rows with this flag, of the cards to which document 01 by itself gives one of these numbers."""
    return [row for row in rows if row["refusal_base_level"] in numbers and row["flag"] == flag]


def main():
    with open(sys.argv[1], newline="", encoding="utf-8") as table:
        rows = list(csv.DictReader(table))
    # Document 02, Slip 1: the cards that gave 7 are accepted, since none of them meets a later reason.
    passed = ("0", "7")
    widened = select(rows, ("7",), "differs")
    shoulder = [row for row in widened if "other rule" in row["detail"]]
    made = {
        "g rows of 002 that agree": group(select(rows, passed, "agree")),
        "g rows of 002 at halfway, by the rule's figure": group(select(rows, passed, "halfway")),
        "g rows of 002 that fit another least shoulder, the inner brow by the rule's figure": group(shoulder),
        "g rows of 002 from blocks with a widened bank, without the figures that differ":
            group([row for row in widened if row not in shoulder], left_out),
        "g blocks of 002 that document 01 refuses": refused([row for row in rows if row["refusal_base_level"] not in passed]),
    }
    keep = True
    for line in sys.stdin.read().splitlines():
        if line.startswith("g "):
            keep = line not in made
            if not keep:
                print("\n".join([line] + made[line]))
        if keep:
            print(line)


main()
