#!/usr/bin/env python3
"""Makes the days that the day's call is held to, and those with a figure made wrong in each.

    python3 tools/day_data.py right > runs/day.text
    python3 tools/day_data.py wrong > runs/wrong/day.text

runs/day.c says what the lines are. A card by itself is reckoned by tools/reckon.py, a day by Slip 2 of document 02, whose words are
quoted; nothing is shared with the library. A card here has the eleven numbers that a list of Slip 5 has for it: eight, 0 or 1 for
absolute, the height and the grade.
"""
import itertools
import sys

import reckon

RELATIVE = (0, 0, 0)
RAMP = (5, 1, 30, 30000, 60, 600, 20000, 1, *RELATIVE)
# Slip 6 prints RAMP's rows; a reckoning that gives others ends here.
RAMP_ROWS = [
    [0, 0, 0, 105, 173, 105, 53],
    [20000, 400, 12, 93, 173, 240, 293],
    [30000, 600, -67, 2, 173, 308, 413],
]
# The same card 250 m above the benchmark on a road that falls by 35 permille; docs/ABSOLUTE-RAMP.md has its rows, by hand.
RAISED = (*RAMP[:8], 1, 250000, -35)
RAISED_ROWS = [
    [0, 0, 249828, 249933, 250000, 249933, 249880],
    [20000, 400, 249140, 249221, 249300, 249368, 249420],
    [30000, 600, 248710, 248779, 248950, 249085, 249190],
]
# "L 110000: 7 rows; a table of 48 numbers gives 11, of 49 passes." (document 01)
SEVEN = (1, 1, 2000, 110000, 20, 0, 20000, 1, *RELATIVE)
# Seven rows too, in centimetres; document 01 gives some of their figures.
STAKED = (3, 1, 700, 120000, 40, 400, 20000, 10, *RELATIVE)
# L 300 m and a step of 1 m: no card has more than these 301 rows.
LONGEST = (2, 2, 400, 300000, 60, 1200, 1000, 1, *RELATIVE)
# All six numbers of a row stand halfway: at 39000 in mm; on an odd grade at 59500 in mm; at the end in cm, on an odd grade too.
HALFWAY = (5, 1, 60, 40000, 50, 2500, 19500, 1, *RELATIVE)
HALFWAY_ON_GRADE = (1, 1, 200, 70000, 60, 1250, 14875, 1, *RELATIVE)
HALFWAY_IN_CM = (1, 1, 150, 65000, 48, 625, 20000, 10, *RELATIVE)
# RAMP's, 1 mm too short: refused with 4.
SHORT = (5, 1, 30, 29999, 60, 600, 20000, 1, *RELATIVE)
# The greatest and the least number of a card.
MOST, LEAST = 2147483647, -2147483648


def changed(card, *numbers):
    """The card with other numbers, each given by its place, from 0, and itself."""
    other = list(card)
    for place, number in zip(numbers[::2], numbers[1::2]):
        other[place] = number
    return tuple(other)


# One card for each reason, in order; 7 never occurs again, and 11 is the table's.
REFUSED = [
    changed(RAMP, 0, 6),
    changed(RAMP, 1, 3),
    changed(RAMP, 2, 29),
    SHORT,
    changed(RAMP, 4, 29),
    changed(RAMP, 5, 3501),
    (1, 1, 125, 55000, 60, 0, 20000, 1, *RELATIVE),
    changed(RAMP, 6, 999),
    changed(RAMP, 7, 5),
    changed(RAISED, 9, 9000001),
    changed(RAISED, 10, 81),
]
EXTREME = (MOST,) * 11


def body_of(card):
    """The eight numbers of a relative card, or the ten of an absolute one, as a book has them.

    A card that no book gave may hold anything: one of the eight below 0 counts as the greatest of 32 bits, which every reason refuses,
    and any mark but 0 is absolute; beside mark 0 height and grade are not looked at.
    """
    eight = [4294967295 if number < 0 else number for number in card[:8]]
    return eight + list(card[9:]) if card[8] else eight


def single(listed, room):
    """What a single call on so many numbers gives: the number and the rows."""
    card = body_of(listed)
    number = reckon.refusal(card)
    if number:
        return number, []
    rows = [reckon.row(card, d) for d in reckon.stations(card[3], card[6])]
    # 11: "lent table below 7 numbers a row"
    return (11, []) if room < 7 * len(rows) else (0, rows)


def fill_day(cards, table_length, replies_length):
    """The number, the count, the replies and the rows of a day."""
    # "It refuses with 29 more than 64 cards and with 30 a reply list below two numbers a card, in that order"
    if len(cards) > 64:
        return 29, 0, [], []
    if replies_length < 2 * len(cards):
        return 30, 0, [], []
    replies, rows = [], []
    for card in cards:
        # "Each card gets the part of the table that the cards before it haven't used."
        number, own = single(card, table_length - 7 * len(rows))
        replies.append([number, len(own)])
        # "A refused card uses nothing and the next is tried."
        rows += own
    # "else it gives number 0 and the count of cards"
    return 0, len(cards), replies, rows


def card_lines(cards):
    for card, alike in itertools.groupby(cards):
        times = len(list(alike))
        yield ["c", *card] if times == 1 else ["m", times, *card]


def day(cards, table_length, replies_length, begin="d", shown=None):
    """The lines of a day, each a letter and numbers; of the rows those shown, or all."""
    number, count, replies, rows = fill_day(cards, table_length, replies_length)
    lines = [[begin, len(cards), table_length, replies_length], *card_lines(cards), ["n", number, count]]
    lines += [["p", i, *reply] for i, reply in enumerate(replies)]
    lines += [["r", i, *row] for i, row in enumerate(rows) if shown is None or i in shown]
    # "its other numbers are kept", and the table's are those of single calls
    return lines + [["k", 7 * len(rows), 2 * len(replies)]]


def right_days():
    """What the days show, and the days."""
    mixed = [RAMP, SHORT, STAKED]
    ends_inside = [RAMP, SEVEN, RAMP]
    some = [0, 1, 2, 3, 4, 5, 186, 187, 188, 189, 190, 191]
    ends = [0, 1, 299, 300, 301, 302, 303]
    yield "No cards: 0 and 0, whatever is lent, and nothing is written.", [
        day([], 0, 0), day([], 0, 0, "z"), day([], 21, 2), day([], 21, 2, "z")]
    yield "One card; table and reply list exact and longer.", [day([RAMP], 21, 2), day([RAMP], 29, 5)]
    yield "The table one number short, and none at all.", [day([RAMP], 20, 2), day([RAMP], 0, 2), day([RAMP], 0, 2, "z")]
    yield "One refused card, and one of the greatest numbers.", [day([SHORT], 21, 2), day([EXTREME], 21, 2), day([SHORT], 0, 2, "z")]
    yield "Two cards, either first, and one twice.", [
        day([RAMP, STAKED], 70, 4), day([STAKED, RAMP], 70, 4), day([RAMP, RAMP], 42, 4)]
    yield "A refused card in the middle, first and last, and refused cards alone. The count is that of the cards.", [
        day(mixed, 70, 6), day([SHORT, RAMP, SHORT], 21, 6), day([SHORT, EXTREME, SHORT], 21, 6)]
    yield "Each reason of a card, 1 to 6, 8 to 10, 34 and 35; the table is exact.", [
        day([*REFUSED[:3], RAMP, *REFUSED[3:6], STAKED, *REFUSED[6:], RAMP], 91, 28)]
    yield "The table ends inside the second card, and the third, which is shorter, still fits; then the third lacks 21 numbers, 1 and none.", [
        day(ends_inside, 69, 6), day(ends_inside, 70, 6), day(ends_inside, 90, 6), day(ends_inside, 91, 6)]
    yield "The table ends inside the first card, by one number; and inside every card.", [
        day([SEVEN, RAMP], 48, 4), day([SEVEN, RAMP], 49, 4), day([RAMP, SEVEN, RAMP], 20, 6)]
    yield "No numbers are left: a card's own reason comes before 11.", [day([RAMP, SHORT, RAMP], 21, 6)]
    yield "The longest card and one after it; one number short for the second, and for the first.", [
        day([LONGEST, RAMP], 2128, 4, shown=ends), day([LONGEST, RAMP], 2127, 4, shown=ends), day([LONGEST, RAMP], 2106, 4)]
    yield "The reply list one number short, exact and longer; none at all; short for cards that would be refused.", [
        day(mixed, 70, 5), day(mixed, 77, 6), day(mixed, 70, 7), day(mixed, 70, 9), day([RAMP], 21, 1), day([RAMP], 21, 0),
        day([RAMP], 21, 0, "z"), day([RAMP], 0, 0, "z"), day([SHORT, EXTREME], 21, 3)]
    yield "64 cards: all fit; one number short; one more than enough of both lists.", [
        day([RAMP] * 64, 1344, 128, shown=some), day([RAMP] * 64, 1343, 128, shown=some), day([RAMP] * 64, 1345, 129, shown=some)]
    yield "64 cards and a reply list one number short; 63 refused cards before one.", [
        day([RAMP] * 64, 1344, 127), day([SHORT] * 63 + [RAMP], 21, 128)]
    yield "65 cards: 29, with a reply list long enough, one number short (29 before 30), and none; with refused cards.", [
        day([RAMP] * 65, 1365, 130), day([RAMP] * 65, 1365, 129), day([RAMP] * 65, 1365, 128), day([RAMP] * 65, 0, 0, "z"),
        day([RAMP] + [SHORT] * 64, 21, 130)]
    yield from absolute_days()
    yield from halfway_days()
    yield from other_lists_days()


def on(card, height, grade):
    """The card, absolute, with this height and this grade."""
    return (*card[:8], 1, height, grade)


def in_cm(card):
    return changed(card, 7, 10)


def absolute_days():
    """Days of Slip 5."""
    limits = [(height, grade) for height in (-100000, 9000000) for grade in (-80, 80)]
    bend = (1, 1, 600, 120000, 60, 500, 20000, 1, *RELATIVE)
    ends = [0, 1, 46, 47, 299, 300, 301, 302, 347, 348, 600, 601]
    close = changed(STAKED, 6, 5000)
    yield "RAMP above the benchmark, by itself, and with the relative one, either first.", [
        day([RAISED], 21, 2), day([RAMP, RAISED], 42, 4), day([RAISED, RAMP], 42, 4)]
    yield "A height and a grade at either limit on the longest clothoid, in mm and in cm.", [
        day([on(LONGEST, *datum), on(in_cm(LONGEST), *datum)], 4214, 4, shown=ends) for datum in limits]
    yield "Height 0 and grade 0 beside a relative card: all heights differ by the axis, 225 mm in the first two days.", [
        day([card, on(card, 0, 0)], 98, 4) for card in (SEVEN, bend, STAKED, RAMP)]
    yield "In cm the axis halfway between two units, above nought and below.", [
        day([on(close, height, grade)], 175, 2, shown=[0, 1, 2, 3, 23, 24])
        for height, grade in ((0, 1), (0, -1), (-10, 1), (10, -1), (-100000, 80), (9000000, -80))]
    yield "34: heights on either side of the limits, whole numbers of units or not.", [
        day([on(RAMP, height, 0) for height in (-100001, -100000, -99999, -1, 0, 1, 8999999, 9000000, 9000001, MOST, LEAST)], 147, 22),
        day([on(in_cm(RAMP), height, 0) for height in (
            5, -5, 10, -10, 1, 9, -9, 11, -100000, -99990, -99995, -100010, 9000000, 8999990, 8999995, 9000010)], 126, 32)]
    yield "35: grades on either side of the limits.", [
        day([on(RAMP, 0, grade) for grade in (-81, -80, -79, -1, 1, 79, 80, 81, 8000, MOST, LEAST)], 126, 22)]
    yield "Both at once: 34. A reason before them is met first; the table is looked at after them.", [
        day([on(RAMP, 9000001, 81), on(in_cm(RAMP), 5, -81), changed(RAISED, 7, 5, 9, 9000001), changed(RAISED, 6, 999, 9, 9000001),
             changed(RAISED, 3, 29999, 10, 81), changed(RAISED, 0, 6, 9, 9000001, 10, 81)], 21, 12),
        day([RAISED, on(RAMP, 9000001, 0), on(RAMP, 0, 81)], 20, 6), day([on(RAMP, 5, 81), on(in_cm(RAMP), 5, 0)], 0, 4, "z")]
    yield "64 absolute cards: all fit; one number short.", [
        day([RAISED] * 64, 1344, 128, shown=[0, 1, 2, 189, 190, 191]), day([RAISED] * 64, 1343, 128, shown=[0, 188])]


def halfway_days():
    """Days of Slip 6."""
    heights_and_grades = [(height, grade) for height in (-100000, 0, 9000000) for grade in (1, -1)]
    yield "All six numbers of a row halfway, in mm and in cm; each card in the other unit too.", [
        day([HALFWAY, in_cm(HALFWAY)], 56, 4), day([HALFWAY_IN_CM, changed(HALFWAY_IN_CM, 7, 1)], 70, 4)]
    yield "The same of absolute cards, with heights above nought and below.", [
        day([on(HALFWAY_ON_GRADE, *datum) for datum in heights_and_grades], 252, 12),
        day([on(HALFWAY_IN_CM, *datum) for datum in heights_and_grades], 210, 12)]


def other_lists_days():
    """Days of cards that no book gave."""
    yield "Beside mark 0 height and grade are not looked at.", [
        day([changed(RAMP, 9, 250000, 10, -35), changed(RAMP, 9, MOST, 10, LEAST), changed(in_cm(RAMP), 9, 5, 10, 81)], 63, 6)]
    yield "Every other mark is absolute, those that are 0 in fewer bits too; 34 and 35 are met.", [
        day([changed(RAISED, 8, mark) for mark in (2, -1, 256, 65536, 16777216, MOST, LEAST)], 147, 14),
        day([changed(RAISED, 8, 2, 9, 9000001), changed(RAISED, 8, -1, 10, 81)], 21, 4)]
    yield "One of the eight below 0, of a relative card and of an absolute one: -1, the right number with a minus, the least of all.", [
        day([changed(card, place, number or -card[place]) for place in range(8)] + [card], 21, 18)
        for card in (RAMP, RAISED) for number in (-1, None, LEAST)]
    yield "All eleven numbers the least; the first eight.", [day([(LEAST,) * 11, (-1,) * 8 + RELATIVE, RAMP], 21, 6)]


def altered(lines, place, number, figure):
    """The same day with another figure as that number of the line at that place."""
    other = [list(line) for line in lines]
    if other[place][number] == figure:
        sys.exit("the figure is right: %s" % lines[place])
    other[place][number] = figure
    return other


def place_of(lines, letter, which):
    """Where the lines have this one of those that begin with the letter, from 0."""
    return [place for place, line in enumerate(lines) if line[0] == letter][which]


def wrong_row(lines, which, column, figure):
    """The same day with another figure in this row and column."""
    return altered(lines, place_of(lines, "r", which), 2 + column, figure)


def wrong_reply(lines, number):
    """The same day with another number for its first card."""
    return altered(lines, place_of(lines, "p", 0), 2, number)


def one_up(lines):
    """A day for each figure, which is one too high in it."""
    first = {"n": 1, "p": 2, "r": 2, "k": 1}
    for place, line in enumerate(lines):
        for number in range(first.get(line[0], len(line)), len(line)):
            yield altered(lines, place, number, line[number] + 1)


def wrong_days():
    ramp = day([RAMP], 21, 2)
    mixed = day([RAMP, SHORT, STAKED], 70, 6)
    ends_inside = day([RAMP, SEVEN, RAMP], 69, 6)
    short = day([RAMP, SHORT, STAKED], 70, 5)
    many = day([RAMP] * 65, 1365, 129)
    yield "RAMP by itself: each figure one too high.", list(one_up(ramp))
    yield "The inner brow without its minus; places one too low.", [
        altered(ramp, 6, 4, 67), altered(ramp, 7, 1, 20), altered(ramp, 7, 2, 1)]
    yield "The count of accepted cards; rows of a refused card; its number lost.", [
        altered(mixed, 4, 2, 2), altered(mixed, 6, 3, 3), altered(mixed, 6, 2, 0)]
    yield "The table that ends inside a card: no 11, and the third card refused after it.", [
        altered(ends_inside, 6, 2, 0), altered(ends_inside, 7, 2, 11), altered(ends_inside, 7, 3, 0)]
    yield "30: not given, the count of cards given, the table written, the reply list written.", [
        altered(short, 4, 1, 0), altered(short, 4, 2, 3), altered(short, 5, 1, 70), altered(short, 5, 2, 5)]
    yield "29: 30 before it, not given, the count of cards given, the table written, the reply list written.", [
        altered(many, 2, 1, 30), altered(many, 2, 1, 0), altered(many, 2, 2, 65), altered(many, 3, 1, 1365), altered(many, 3, 2, 129)]
    yield from wrong_absolute_days()
    yield from wrong_halfway_days()


def wrong_absolute_days():
    """Figures that wrong programs would give of absolute cards, and of cards that no book gave."""
    raised = day([RAISED], 21, 2)
    low = day([on(RAMP, -100000, -35)], 21, 2)
    close = day([on(changed(STAKED, 6, 5000), 0, -1)], 175, 2, shown=[0, 1, 2, 24])
    height, grade, both = (day([on(RAMP, *datum)], 21, 2) for datum in ((9000001, 0), (0, 81), (9000001, 81)))
    axis = 4
    yield "RAMP above the benchmark: each figure one too high.", list(one_up(raised))
    yield "The height rounded apart from the sum, or from the relative row; the row of the relative card.", [
        wrong_row(raised, 0, 2, 249827), wrong_row(raised, 1, 2, 249139), wrong_row(raised, 0, 3, 249932), wrong_row(raised, 0, 2, 0)]
    yield "The grade lost, its sign lost, times the step, times two steps; the height lost; the axis of the relative card.", [
        wrong_row(raised, 1, axis, 250000), wrong_row(raised, 1, axis, 250700), wrong_row(raised, 2, axis, 249300),
        wrong_row(raised, 2, axis, 248600), wrong_row(raised, 2, axis, -1050), wrong_row(raised, 0, axis, 173)]
    yield "Halfway below nought: in mm away from nought; in cm toward nought, the axis of -0.5 units as 0.", [
        wrong_row(low, 0, 3, -100068), wrong_row(low, 0, 2, -100173), wrong_row(close, 1, axis, 0)]
    yield "34 and 35: not given, or with a count of rows; 35 before 34; 11 before both; 34 before 10.", [
        wrong_reply(height, 0), altered(height, place_of(height, "p", 0), 3, 3), wrong_reply(grade, 0), wrong_reply(both, 35),
        wrong_reply(grade, 34), wrong_reply(day([on(RAMP, 9000001, 0)], 20, 2), 11), wrong_reply(day([on(RAMP, 0, 81)], 20, 2), 11),
        wrong_reply(day([changed(RAISED, 7, 5, 9, 9000001)], 20, 2), 34)]
    yield "34 in cm: 5 mm above nought and below pass; a limit itself is refused.", [
        wrong_reply(day([on(in_cm(RAMP), 5, 0)], 21, 2), 0), wrong_reply(day([on(in_cm(RAMP), -5, 0)], 21, 2), 0),
        wrong_reply(day([on(in_cm(RAMP), -100000, 0)], 21, 2), 34), wrong_reply(day([on(RAMP, 9000000, 80)], 21, 2), 34),
        wrong_reply(day([on(RAMP, -100000, -80)], 21, 2), 35)]
    yield "34 and 35 on a relative card; marks 2 and 256 taken for relative; a number below 0 that passes, or counts without its minus.", [
        wrong_reply(day([changed(RAMP, 9, 9000001)], 21, 2), 34), wrong_reply(day([changed(RAMP, 10, 81)], 21, 2), 35),
        wrong_row(day([changed(RAISED, 8, 2)], 21, 2), 0, axis, 173), wrong_reply(day([changed(RAISED, 8, 256, 9, 9000001)], 21, 2), 0),
        wrong_reply(day([changed(RAMP, 5, -1)], 21, 2), 0), wrong_reply(day([changed(RAMP, 3, -30000)], 21, 2), 0)]


def wrong_halfway_days():
    """Halfway by the other unit's rule, in each of the six numbers."""
    millimetres, centimetres = day([HALFWAY], 28, 2), day([HALFWAY_IN_CM], 35, 2)
    yield "Halfway in mm: the lower number, as it was before Slip 6.", [
        wrong_row(millimetres, 2, column, figure) for column, figure in enumerate((2437, -113, -53, 172, 280, 364), 1)]
    yield "Halfway in cm: the higher number.", [
        wrong_row(centimetres, 4, column, figure) for column, figure in enumerate((63, -13, 2, 23, 41, 59), 1)]


def main():
    if single(RAMP, 21) != (0, RAMP_ROWS):
        sys.exit("RAMP's rows are not those of document 02, Slip 6")
    if single(RAISED, 21) != (0, RAISED_ROWS):
        sys.exit("the absolute RAMP's rows are not those of docs/ABSOLUTE-RAMP.md")
    if [single(card, 0)[0] for card in REFUSED] != [1, 2, 3, 4, 5, 6, 8, 9, 10, 34, 35]:
        sys.exit("a card is not refused for its reason")
    for shown, days in {"right": right_days, "wrong": wrong_days}[sys.argv[1]]():
        print("# " + shown)
        for line in itertools.chain.from_iterable(days):
            print(*line)


if __name__ == "__main__":
    main()
