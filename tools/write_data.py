#!/usr/bin/env python3
"""Makes the lists that the call which writes a book is held to, and those with a figure made wrong in each.

    python3 tools/write_data.py right > runs/write.text
    python3 tools/write_data.py wrong > runs/wrong/write.text

runs/write.c says what the lines are. The books are made by Slips 4 and 5 of document 02 and "The book of cards" of document 01, whose
words are quoted, and read back by tools/reckon.py; nothing is shared with the library. A card here is the numbers of its body, eight or
ten, or the eleven that the list has for it: eight, 0 or 1 for absolute, the height and the grade.
"""
import itertools
import re
import sys

import reckon

# Document 01 prints RAMP's book, and its rule for the list gives these numbers.
RAMP_BOOK = b"1\nRAMP 3\n5 1 30 30000 60 600 20000 1\n"
RAMP = (5, 1, 30, 30000, 60, 600, 20000, 1)
RAISED = (*RAMP, 250000, -35)
RAISED_BOOK = b"1\nRAMP 3\n5 1 30 30000 60 600 20000 1 250000 -35\n"
NOUGHTS = (0,) * 8
COUNTED = (1, 2, 3, 4, 5, 6, 7, 8)
COUNTED_UP = (*COUNTED, 9, -10)
# Slip 5: "thirteen signed numbers a curve: the ten as before, then 0 or 1 for absolute, the height and the grade"
WIDTH = 13
PLACE, SIZE, CARD, MARK, HEIGHT, GRADE = 0, 1, 2, 10, 11, 12
# The greatest number of seven digits; one above; the greatest and the least of the list.
NINES, EIGHT_DIGITS, MOST, LEAST = 9999999, 10000000, 2147483647, -2147483648
LETTERS = b"ABCDEFGHIJKLMNOPQRSTUVWXYZ0123456789"
# More bytes than every book has.
AMPLE = 8192


# ---- the papers ----

def book_of(curves):
    """The bytes of the book of curves, each a name and the numbers of its body."""
    n = len(curves)
    # "ASCII lines, each ended by byte 10, the last too. Line 1 is the count n."
    lines = [b"%d" % n]
    # "Then n contents lines: name, one blank, the line of its body. ... the i-th contents line names line n + 1 + i."
    lines += [name + b" %d" % (n + 1 + i) for i, (name, _) in enumerate(curves, 1)]
    # "Then n bodies, in the order of the contents ... A body is the eight numbers with one blank between."
    # Slip 5: "an absolute body has ten numbers, the last two with an optional minus before a number other than 0"
    lines += [b" ".join(b"%d" % number for number in body) for _, body in curves]
    return b"".join(line + b"\n" for line in lines)


def body_of(card):
    """The numbers of the body of a card in the list; None where 33 refuses them."""
    *eight, mark, height, grade = card
    # "a number above seven digits"; Slip 5: "a mark not 0 or 1, one of the eight below 0, and a height or grade beside mark 0"
    if not all(0 <= number <= NINES for number in eight) or not all(-NINES <= number <= NINES for number in (height, grade)):
        return None
    if mark == 0 and height == grade == 0:
        return eight
    return [*eight, height, grade] if mark == 1 else None


def write_book(numbers, names, room):
    """The number and the bytes of the book."""
    # "with 31 a list length not ten times 1 to 64, a malformed name or one outside those bytes"; it is thirteen times since Slip 5
    if len(numbers) not in range(WIDTH, 64 * WIDTH + 1, WIDTH):
        return 31, b""
    curves = []
    for start in range(0, len(numbers), WIDTH):
        # "byte place of the name from 0, its length, the eight numbers"
        place, size, *card = numbers[start:start + WIDTH]
        # "Names are 1 to 8 capitals or digits."
        if min(place, size) < 0 or place + size > len(names) or not re.fullmatch(rb"[A-Z0-9]{1,8}", names[place:place + size]):
            return 31, b""
        curves.append((names[place:place + size], body_of(card)))
    # "with 32 a twin name"
    if len({name for name, _ in curves}) < len(curves):
        return 32, b""
    # "with 33 a buffer that is shorter than the book or a number above seven digits, tested in that order"
    if any(body is None for _, body in curves) or room < len(book_of(curves)):
        return 33, b""
    # "Reading a written book gives those names and numbers"
    book = book_of(curves)
    if reckon.read_book(book) != curves:
        sys.exit("a book does not read back: %r" % book)
    # "It gives number 0 and the count of bytes"
    return 0, book


# ---- the lines of the text ----

def escaped(data):
    """Bytes as runs/write.c reads them; a blank at either end is not to be overlooked."""
    signs = {10: "\\n", 92: "\\\\"}
    shown = [signs.get(byte, chr(byte) if 32 <= byte < 127 else "\\x%02x" % byte) for byte in data]
    for end in (0, -1):
        if shown[end] == " ":
            shown[end] = "\\x20"
    return "".join(shown)


def pieces(data):
    """The same bytes in pieces that end with a line, or are 64 bytes long."""
    for line in data.splitlines(keepends=True):
        for start in range(0, len(line), 64):
            yield line[start:start + 64]


class Case:
    """A list, the bytes of its names, its book, and the runs: letter, room, number, count, place from which on the buffer is kept."""

    def __init__(self, numbers, names, rooms=None, null=(), lent=None, lent_names=None):
        self.numbers, self.names = list(numbers), names
        self.lent = len(self.numbers) if lent is None else lent
        self.lent_names = len(names) if lent_names is None else lent_names
        _, self.book = self.written(AMPLE)
        if rooms is None:
            # of a book: as many bytes as it has, and one short
            rooms = [len(self.book), len(self.book) - 1] if self.book else [AMPLE]
        self.runs = [["r", *self.due(room)] for room in rooms] + [["z", *self.due(room)] for room in null]

    def written(self, room):
        return write_book(self.numbers[:self.lent], self.names[:self.lent_names], room)

    def due(self, room):
        # "later bytes are untouched. A refusal leaves the whole buffer untouched."
        number, book = self.written(room)
        return [room, number, len(book), len(book)]

    def lines(self):
        yield "l %d %d" % (self.lent, self.lent_names)
        for piece in pieces(self.names):
            yield "t " + escaped(piece)
        for start in range(0, len(self.numbers), WIDTH):
            yield "c " + " ".join(map(str, self.numbers[start:start + WIDTH]))
        for piece in pieces(self.book):
            yield "b " + escaped(piece)
        for run in self.runs:
            yield " ".join(map(str, run))


def eleven(card=RAMP):
    """The numbers of a card in the list."""
    return tuple(card) if len(card) == 11 else reckon.listed(card)


def curves(*listed):
    """The list of curves, each a place, a size and a card; without a card it is RAMP's."""
    return list(itertools.chain.from_iterable((place, size, *eleven(*card)) for place, size, *card in listed))


def one(names, place, size, **lent):
    """A list of one curve."""
    return Case(curves((place, size)), names, **lent)


def in_list(curve, number):
    """The place in the list of a curve's number, both from 0."""
    return WIDTH * curve + number


def many(count, card=NOUGHTS):
    """A list of so many curves: names of one byte, then of two, which overlap in LETTERS."""
    return curves(*[(i, 1, card) if i < 36 else (i - 36, 2, card) for i in range(count)])


def replaced(numbers, place, number):
    return numbers[:place] + [number] + numbers[place + 1:]


# ---- the lists ----

EIGHT_BYTES = [b"CURVE%03d" % i for i in range(64)]
MOST_DIGITS = (*(NINES,) * 8, -NINES, -NINES)
GREATEST = Case(curves(*[(8 * i, 8, MOST_DIGITS) for i in range(64)]), b"".join(EIGHT_BYTES), [6048, 6049, 6050, AMPLE])
TWO = curves((2, 4, COUNTED), (6, 4, COUNTED))
TWO_UP = curves((2, 4, COUNTED_UP), (6, 4, COUNTED_UP))
TWO_NAMES = b"..RAMPROAD"
# Bytes just outside of capitals and digits, and others that may not stand in a name.
OUTSIDE = b"/:@[`az{ \n\x00\x7f\x80\xb0\xc1\xff"


def ramp(rooms, null=()):
    """RAMP's list; the names are its own book."""
    return Case(curves((2, 4)), RAMP_BOOK, rooms, null)


def lengths():
    """Lists of these lengths, with right curves behind them in memory."""
    letters = many(66)
    # ten a curve, as it was before Slip 5, among them
    for lent in (0, 1, 10, 12, 13, 14, 20, 25, 26, 27):
        yield Case(letters[:in_list(4, 0)], LETTERS, [AMPLE, 0], lent=lent)
    for lent in (640, 819, 831, 832, 833, 845, 858):
        yield Case(letters, LETTERS, [AMPLE], lent=lent)
    yield Case([], LETTERS, [], [AMPLE, 0])
    yield Case([], b"", [], [AMPLE, 0])


def names_at_the_end():
    for lent_names in (10, 9, 7, 6, 5, 1, 0):
        yield Case(curves((0, 2), (6, 4)), b"XYZABCROAD4567", [AMPLE], lent_names=lent_names)
    yield Case(curves((0, 1)), b"", [], [AMPLE])
    yield one(b"RAMP", 3, 1)
    yield one(b"RAMP", 4, 1)
    yield one(b"RAMP", 5, 1)
    yield one(b"RAMPROAD", 4, 4, lent_names=8)
    yield one(b"RAMPROAD", 4, 4, lent_names=7)


def sizes():
    for size in (0, 1, 2, 7, 8, 9, 16):
        yield one(b"ABCDEFGHIJKLMNOP", 0, size)
    yield one(b"RAMP", 4, 0)
    yield one(b"RAMP", 5, 0)
    yield Case(curves((0, 4), (4, 0), (4, 4)), b"RAMPROAD")
    # what is left of these sizes in 8 and 16 bits is right
    yield one(b"A" * 300, 0, 257)
    yield one(b"A" * 300, 0, 264)
    yield one(b"A" * 300, 0, 65540)


def beyond_31_bits():
    for place, size in ((MOST, 1), (MOST, 8), (2147483640, 8), (2147483644, 4), (1, MOST), (0, MOST), (8, MOST), (MOST, 0), (MOST, MOST)):
        yield one(b"RAMPROAD", place, size)
    yield Case(curves((0, 4), (MOST, 5)), b"RAMPROAD")
    # what is left of these places in 8 and 16 bits is right
    yield one(b"RAMPROAD", 256, 4)
    yield one(b"RAMPROAD", 65540, 4)


def names_below_nought():
    # place and length come to a place inside the names, the place or the length alone is right, or what is left of it in fewer bits is
    for place, size in ((-1, 1), (-1, 4), (-1, 5), (-4, 8), (-8, 8), (-2, 8), (1, -1), (0, -1), (8, -1), (8, -4), (4, -4), (-1, 0),
                        (-1, -1), (LEAST, 4), (0, LEAST), (LEAST, LEAST), (LEAST, MOST), (MOST, -2147483643), (-256, 4), (-65532, 4),
                        (0, -252)):
        yield one(b"RAMPROAD", place, size)
    yield Case(curves((0, 4), (-4, 4)), b"RAMPROAD")
    yield Case(curves((0, 4), (4, -4)), b"RAMPROAD")


def bytes_of_names():
    yield Case(curves(*[(i, 1) for i in range(4)], (0, 4), (4, 4)), b"09AZZA90")
    for byte in OUTSIDE:
        for name in (b"%cAM", b"R%cM", b"RA%c"):
            yield one(name % byte, 0, 3)
    for place in range(8):
        yield one(b"RAMPROAD"[:place] + b"-" + b"RAMPROAD"[place + 1:], 0, 8)
    yield one(b"/", 0, 1)
    # with the blank behind the name in its book, and the byte 10 before it
    yield one(RAMP_BOOK, 2, 5)
    yield one(RAMP_BOOK, 1, 5)
    yield Case(curves((0, 4), (4, 4)), b"RAMProad")


def names_elsewhere():
    yield one(b"ramp RAMP; road", 5, 4)
    # numbers of a book may be names, too
    yield Case(curves((0, 1), (7, 1), (9, 1), (13, 2), (22, 2), (2, 2)), RAMP_BOOK)
    yield Case(curves((8, 7, COUNTED), (4, 4), (0, 3, NOUGHTS)), b"PK5-RAMPPK1240L")
    yield Case(curves((0, 8), (1, 8), (2, 7), (2, 1), (0, 2), (7, 2)), b"ABCDEFGHI")
    # two names that end where the bytes end, the longer one first
    yield Case(curves((0, 4), (2, 2)), b"RAMP")


def twins():
    yield Case(curves((0, 4), (0, 4)), b"RAMP")
    yield Case(curves((0, 4), (4, 4)), b"RAMPRAMP")
    yield Case(curves((0, 4), (5, 4)), b"RAMP RAMP 3\n")
    yield Case(curves((0, 2), (1, 2)), b"AAA")
    yield Case(curves((0, 8), (8, 8)), b"PK1240LXPK1240LX")
    yield Case(curves((0, 4), (4, 4), (8, 4)), b"RAMPROADRAMP")
    yield Case(curves((0, 4), (4, 4), (8, 4)), b"ROADRAMPRAMP")
    yield Case(curves((0, 4), (4, 4), (8, 4)), b"RAMPRAMPROAD")
    # the numbers differ, the names do not
    yield Case(curves((0, 1, RAMP), (1, 1, COUNTED)), b"00")
    sixty_four = many(64)
    for place, size in ((0, 1), (26, 2)):
        yield Case(replaced(replaced(sixty_four, in_list(63, PLACE), place), in_list(63, SIZE), size), LETTERS)
    # one relative, one absolute
    yield Case(curves((0, 4, RAMP), (4, 4, RAISED)), b"RAMPRAMP")


def no_twins():
    yield Case(curves((0, 4), (0, 3)), b"RAMP")
    yield Case(curves((0, 3), (0, 4)), b"RAMP")
    yield Case(curves((0, 4), (1, 3)), b"RAMP")
    yield Case(curves((0, 5), (5, 5)), b"RAMP1RAMP2")
    yield Case(curves((0, 5), (5, 5)), b"1RAMP2RAMP")
    yield Case(curves((0, 1), (0, 2), (0, 3), (0, 8)), b"00000000")
    yield Case(curves((0, 4), (4, 4)), b"RAMPPMAR")
    # names of eight bytes, each of which differs from the first in one
    differ = [b"AAAAAAAA"] + [b"A" * i + b"B" + b"A" * (7 - i) for i in range(8)]
    yield Case(curves(*[(8 * i, 8) for i in range(9)]), b"".join(differ))


def long_numbers():
    for number in range(8):
        yield Case(replaced(TWO, in_list(0, CARD + number), EIGHT_DIGITS), TWO_NAMES)
        yield Case(replaced(TWO, in_list(1, CARD + number), MOST), TWO_NAMES)
    for curve, number in ((0, 0), (0, 7), (1, 0), (1, 7)):
        yield Case(replaced(TWO, in_list(curve, CARD + number), NINES), TWO_NAMES)
    # what is left of these in 16 and 8 bits, and of some in 24, has seven digits at most
    for number in (16777216, 16777217, 99999999, 100000000):
        yield Case(replaced(TWO, 5, number), TWO_NAMES)
    yield Case(replaced(many(64), in_list(63, CARD + 7), EIGHT_DIGITS), LETTERS)


def long_heights():
    for curve, number in itertools.product((0, 1), (HEIGHT, GRADE)):
        for figure in (NINES, -NINES, EIGHT_DIGITS, -EIGHT_DIGITS, MOST, LEAST):
            yield Case(replaced(TWO_UP, in_list(curve, number), figure), TWO_NAMES)
    # what is left of these in fewer bits has seven digits at most
    for figure in (16777217, -16777216, -99999999, -100000000, -2147483647):
        yield Case(replaced(TWO_UP, in_list(0, HEIGHT), figure), TWO_NAMES)
    yield Case(replaced(many(64, COUNTED_UP), in_list(63, GRADE), -EIGHT_DIGITS), LETTERS)


def cards_below_nought():
    for number in range(8):
        yield Case(replaced(TWO, in_list(0, CARD + number), -1), TWO_NAMES)
        yield Case(replaced(TWO_UP, in_list(1, CARD + number), -1), TWO_NAMES)
    for figure in (-8, -NINES, -EIGHT_DIGITS, LEAST, -2147483647, -16777216):
        yield Case(replaced(TWO_UP, in_list(1, CARD + 7), figure), TWO_NAMES)
    yield Case(replaced(many(64), in_list(63, CARD + 7), -1), LETTERS)


def marks():
    for mark in (2, -1, MOST, LEAST):
        yield Case(replaced(TWO_UP, in_list(0, MARK), mark), TWO_NAMES)
        yield Case(replaced(TWO, in_list(1, MARK), mark), TWO_NAMES)
    # what is left of these in 8, 16 and 24 bits is 0 or 1
    for mark in (256, 257, 65536, 65537, 16777217, -255, -2147483647):
        yield Case(replaced(TWO_UP, in_list(1, MARK), mark), TWO_NAMES)
    yield Case(replaced(many(64), in_list(63, MARK), 2), LETTERS)
    # a relative curve made absolute, with height and grade 0
    yield Case(replaced(TWO, in_list(1, MARK), 1), TWO_NAMES)


def beside_mark_nought():
    for curve, number in itertools.product((0, 1), (HEIGHT, GRADE)):
        for figure in (1, -1):
            yield Case(replaced(TWO, in_list(curve, number), figure), TWO_NAMES)
    for figure in (-NINES, EIGHT_DIGITS, 256, 65536, 16777216, LEAST):
        yield Case(replaced(TWO, in_list(0, HEIGHT), figure), TWO_NAMES)
    # both; an absolute curve made relative by its mark alone
    yield Case(curves((0, 4, (*RAMP, 0, 250000, -35))), b"RAMP")
    yield Case(replaced(TWO_UP, in_list(1, MARK), 0), TWO_NAMES)
    # and together, so that nothing is left
    yield Case(curves((0, 4, (*RAMP, 0, 35, -35))), b"RAMP")
    yield Case(replaced(many(64, COUNTED_UP), in_list(63, MARK), 0), LETTERS)


def in_order():
    rooms = [AMPLE, 0]
    malformed, outside = b"RAMPRAMProad", b"RAMPRAMPROAD"
    # 31 in the last curve, a twin in the second, and a long number in the first
    yield Case(curves((0, 4), (4, 4), (8, 4)), malformed, rooms)
    yield Case(curves((0, 4), (4, 4), (9, 4)), outside, rooms)
    yield Case(curves((0, 4, (MOST,) * 8), (4, 4), (8, 4)), malformed, rooms)
    yield Case(curves((0, 4, (MOST,) * 8), (4, 4), (8, 9)), outside + b"ABCDE", rooms)
    yield Case(curves((0, 4, (MOST,) * 8), (8, 4)), malformed, rooms)
    yield Case(curves((0, 4), (0, 4)), b"RAMP", rooms, lent=in_list(2, -1))
    yield Case(many(65, (MOST,) * 8), LETTERS, rooms)
    # 32 in the last curve, a long number in the first
    yield Case(curves((0, 4, (MOST,) * 8), (8, 4), (4, 4)), outside, rooms)
    yield Case(curves((0, 4, (EIGHT_DIGITS,) * 8), (4, 4)), b"RAMPRAMP", rooms)
    yield Case(curves((0, 4), (4, 4)), b"RAMPRAMP", [0, 1, 36, 73])
    # what Slip 5 adds to 33, in the first curve, with 31 and with 32 in the last
    for card in ((*RAMP, 2, 0, 0), (-1, *RAMP[1:]), (*RAMP, 0, 1, 0), (*RAMP, 0, -EIGHT_DIGITS)):
        yield Case(curves((0, 4, card), (4, 4), (-1, 4)), malformed, rooms)
        yield Case(curves((0, 4, card), (4, 4)), b"RAMPRAMP", rooms)
    # a long number, and a buffer too short for that book, exact, and longer
    eight_digits = Case(replaced(TWO, 2, EIGHT_DIGITS), TWO_NAMES)
    size = len(book_of([(b"RAMP", (EIGHT_DIGITS, 2, 3, 4, 5, 6, 7, 8)), (b"ROAD", COUNTED)]))
    eight_digits.runs = [["r", *eight_digits.due(room)] for room in (0, 1, size - 1, size, size + 1)]
    yield eight_digits


def digits():
    tens = (0, 9, 10, 99, 100, 999, 1000, 9999)
    more = (10000, 99999, 100000, 999999, 1000000, 9999999, 1000001, 9090909)
    yield Case(curves((0, 4, tens), (4, 4, more)), b"RAMPROAD")
    yield Case(curves((0, 1, NOUGHTS)), b"A")
    yield Case(curves((0, 1, COUNTED)), b"0")
    yield Case(curves((0, 4, (0,) + RAMP[1:])), b"RAMP")
    yield Case(curves((0, 4, RAMP[:7] + (0,))), b"RAMP")
    yield Case(curves((0, 1, (1234567, 7654321, 1000000, 2000000, 100200, 10203, 3040, 506))), b"9")


def bodies_of_ten():
    yield Case(curves((2, 4, RAISED)), RAISED_BOOK)
    yield Case(curves((0, 4, (*RAMP, 0, 0))), b"RAMP")
    # either sign in every count of digits, and 0 beside it
    tens = (1, 9, 10, 99, 100, 999, 1000, 9999, 10000, 99999, 100000, 999999, 1000000, 9999999)
    yield Case(curves(*[(i, 1, (*COUNTED, number, -number)) for i, number in enumerate(tens)]), LETTERS)
    yield Case(curves(*[(i, 1, (*COUNTED, -number, 0)) for i, number in enumerate(tens)]), LETTERS)
    yield Case(curves(*[(i, 1, (*COUNTED, 0, number)) for i, number in enumerate(tens)]), LETTERS)
    # bodies of both kinds in turn, either first
    yield Case(curves((0, 4, RAISED), (4, 4, RAMP), (0, 8, RAISED)), b"RAMPROAD")
    yield Case(curves((0, 4, RAMP), (4, 4, RAISED), (0, 8, RAMP)), b"RAMPROAD")
    yield Case(curves(*[(i, 1, RAISED if i % 2 else RAMP) for i in range(36)]), LETTERS)
    # cards that 34 and 35 refuse are written
    yield Case(curves((0, 4, (*RAMP, 9000001, -81)), (4, 4, (*RAMP, -NINES, NINES))), b"RAMPROAD")
    # the list is not the card: its numbers and its order
    yield Case(curves((0, 4, (1, 1, 1, 1, 1, 1, 1, 1, 1, 1)), (4, 4, (1, 1, 1, 1, 1, 1, 1, 1))), b"RAMPROAD")


def right():
    """What the lists show, and the lists."""
    yield "RAMP's list of document 01, its own book as names; the buffer exact, one short, longer, of length 0, and NULL.", [
        ramp([37, 36, 38, AMPLE, 1, 0], [0])]
    yield "Lists of these lengths, with right curves behind them; none at all, and everything NULL.", lengths()
    yield "The greatest book, 6049 bytes; the buffer one short, exact, and longer.", [GREATEST]
    yield "Names that end at the end of the bytes, and past it, with capitals behind it.", names_at_the_end()
    yield "Names of size 0, 1, 8 and 9, and of sizes that are right in 8 and 16 bits.", sizes()
    yield "Place and length together above 31 bits, and places that are right in 16 and 8.", beyond_31_bits()
    yield "Place or length below 0.", names_below_nought()
    yield "Bytes just inside capitals and digits, and just outside, first, in the middle and last.", bytes_of_names()
    yield "Names that stand elsewhere than in a book, in another order, and one in another.", names_elsewhere()
    yield "Twins: at the same place, and the same bytes at another.", twins()
    yield "No twins: one name is the front or the end of another, or they differ in one byte.", no_twins()
    yield "A number of eight digits or of ten in each place of the first and of the last card; the greatest of seven.", long_numbers()
    yield "Heights and grades of seven digits, of eight and of ten, above nought and below.", long_heights()
    yield "One of the eight below 0.", cards_below_nought()
    yield "Marks that are not 0 or 1.", marks()
    yield "A height or a grade beside mark 0.", beside_mark_nought()
    yield "The order 31, 32, 33, each over the whole list.", in_order()
    yield "Numbers of every count of digits, and 0.", digits()
    yield "Bodies of ten numbers, by themselves and beside bodies of eight.", bodies_of_ten()
    yield "Counts of curves by which the lines' numbers go from 9 to 10 and from 99 to 100.", [
        Case(many(n), LETTERS) for n in (2, 3, 4, 5, 7, 8, 9, 10, 11, 48, 49, 50, 64)] + [
        Case(many(n, COUNTED_UP), LETTERS) for n in (5, 50, 64)]


# ---- one figure made wrong in each ----

# Where they stand in a run.
NUMBER, COUNT, KEPT = 2, 3, 4


def altered(case, figure, wrong):
    """The same list with its first run alone, and another figure as number, count or kept place."""
    other = Case(case.numbers, case.names, [], lent=case.lent, lent_names=case.lent_names)
    other.runs = [list(case.runs[0])]
    if other.runs[0][figure] == wrong:
        sys.exit("the figure is right: %s" % case.runs[0])
    other.runs[0][figure] = wrong
    if figure == NUMBER:
        # a reply that is wrongly 0 is one figure, and no book is due with it
        other.book = b""
    return other


def with_book(case, book):
    """The same list with its first run alone, and another book."""
    other = Case(case.numbers, case.names, [], lent=case.lent, lent_names=case.lent_names)
    other.runs = [case.runs[0]]
    if other.book == book:
        sys.exit("the book is right: %r" % book)
    other.book = book
    return other


def wrong_books():
    """Books as wrong programs would write them; the count that is due stays right."""
    exact = ramp([37])
    for book in (
            RAMP_BOOK[:-1], RAMP_BOOK + b"\n", RAMP_BOOK + b"\0", b"", RAMP_BOOK.replace(b"\n", b"\r\n"),
            b"1\nRAMP 2\n5 1 30 30000 60 600 20000 1\n", b"1\nRAMP 4\n5 1 30 30000 60 600 20000 1\n",
            b"0\nRAMP 3\n5 1 30 30000 60 600 20000 1\n", b"01\nRAMP 3\n5 1 30 30000 60 600 20000 1\n",
            b"1\nRAMP 03\n5 1 30 30000 60 600 20000 1\n", b"1\nRAMP 3\n05 1 30 30000 60 600 20000 1\n",
            b"1\nRAMP  3\n5 1 30 30000 60 600 20000 1\n", b"1\nRAM 3\n5 1 30 30000 60 600 20000 1\n",
            b"1\nAMP  3\n5 1 30 30000 60 600 20000 1\n", b"1\nRAMP3\n5 1 30 30000 60 600 20000 1\n",
            b"1\nRAMP 3\n1 5 30 30000 60 600 20000 1\n", b"1\nRAMP 3\n5 1 30 30000 60 600 20000 1 \n",
            b"1\nRAMP 3\n5 1 30 30000 60 600 20000\n", b"1\nRAMP 3\n2 4 5 1 30 30000 60 600\n",
            b"1\nRAMP 3\n5 1 3 3 6 6 2 1\n", b"1\nRAMP 3\n5 1 03 00003 06 006 00002 1\n",
            b"1\nRAMP 3\n5 1 30 30000 60 600 20000 0\n", b"1\nramp 3\n5 1 30 30000 60 600 20000 1\n"):
        yield with_book(exact, book)
    two = Case(curves((0, 4, COUNTED), (4, 4, RAMP)), b"RAMPROAD")
    # bodies in another order; every curve with the first one's name, line or body
    for old, new in ((b"RAMP 4\nROAD 5", b"RAMP 4\nROAD 4"), (b"RAMP 4\nROAD 5", b"RAMP 3\nROAD 4"), (b"ROAD", b"RAMP"),
                     (b"1 2 3 4 5 6 7 8\n5 1 30 30000 60 600 20000 1", b"5 1 30 30000 60 600 20000 1\n1 2 3 4 5 6 7 8"),
                     (b"5 1 30 30000 60 600 20000 1", b"1 2 3 4 5 6 7 8")):
        yield with_book(two, two.book.replace(old, new))
    # nought as no digit at all, and as two
    noughts = Case(curves((0, 1, NOUGHTS)), b"A")
    for body in (b"       \n", b"00 00 00 00 00 00 00 00\n"):
        yield with_book(noughts, b"1\nA 3\n" + body)
    # the numbers of lines from 9 to 10, and from 99 to 100, cut to one digit and to two
    five, fifty = Case(many(5), LETTERS), Case(many(50), LETTERS)
    yield with_book(five, five.book.replace(b"D 10\n", b"D 0\n"))
    yield with_book(fifty, fifty.book.replace(b" 100\n", b" 00\n"))
    greatest = Case(GREATEST.numbers, GREATEST.names, [6049])
    yield with_book(greatest, GREATEST.book[:-2] + b"8\n")


def wrong_bodies():
    """Books with bodies of ten numbers as wrong programs would write them."""
    exact = Case(curves((2, 4, RAISED)), RAISED_BOOK)
    for last in (b" 250000 35", b" 250000 -53", b" 250000 - 35", b" 250000 --35", b" 250000 -035", b" 250000 4294967261", b" +250000 -35",
                 b" -35 250000", b" 1 250000 -35", b" 250000 -35 1", b" 250000", b" -35", b"", b" -250000 -35", b" 0 0", b" 250000  -35",
                 b" 250000 -35 "):
        yield with_book(exact, RAISED_BOOK.replace(b" 250000 -35", last))
    # a relative curve with ten numbers, or with its mark; noughts with a minus; an absolute curve of noughts as a relative one
    relative, noughts = ramp([37]), Case(curves((0, 1, (*RAMP, 0, 0))), b"A")
    for last in (b"1 0 0\n", b"1 0 0 0\n", b"1 0\n"):
        yield with_book(relative, RAMP_BOOK.replace(b"1\n", last).replace(last, b"1\n", 1))
    for last in (b" -0 0\n", b" 0 -0\n", b" -0 -0\n", b" - -\n", b"\n", b"  \n"):
        yield with_book(noughts, noughts.book.replace(b" 0 0\n", last))
    # the height and the grade of another curve
    two = Case(curves((0, 4, (*COUNTED, 9, -10)), (4, 4, (*COUNTED, -11, 12))), b"RAMPROAD")
    for old, new in ((b"9 -10", b"-11 12"), (b"-11 12", b"9 -10"), (b"-11 12", b"-11 -10")):
        yield with_book(two, two.book.replace(old, new))
    # the least of seven digits, cut by its minus
    seven = Case(curves((0, 4, (*COUNTED, -NINES, -NINES))), b"RAMP")
    yield with_book(seven, seven.book.replace(b"-9999999\n", b"-999999\n"))


def wrong():
    """What the figures made wrong are, and the lists."""
    exact, longer, short = ramp([37]), ramp([AMPLE]), ramp([36])
    twin = Case(curves((0, 4), (4, 4)), b"RAMPRAMP")
    long_number = Case(replaced(TWO, 2, EIGHT_DIGITS), TWO_NAMES)
    yield "RAMP's book: each figure one too high, one too low, or lost.", [
        altered(exact, NUMBER, 1), altered(exact, COUNT, 38), altered(exact, KEPT, 38),
        altered(exact, COUNT, 36), altered(exact, KEPT, 36), altered(exact, COUNT, 0), altered(exact, KEPT, 0)]
    yield "Books that wrong programs would write.", wrong_books()
    yield "Books with bodies of ten numbers that wrong programs would write.", wrong_bodies()
    yield "Later bytes: all cleared, the next one.", [altered(longer, KEPT, AMPLE), altered(longer, KEPT, 38)]
    yield "An exact buffer is refused, and one that is shorter than the greatest book; one byte short passes.", [
        altered(exact, NUMBER, 33), altered(ramp([38]), NUMBER, 33), altered(short, NUMBER, 0), altered(ramp([0]), NUMBER, 0)]
    yield "A buffer that is short is written before the room is known; the count of that refusal is the book's.", [
        altered(short, KEPT, 36), altered(short, KEPT, 2), altered(short, COUNT, 37), altered(short, COUNT, 36)]
    yield "31: lists of 0, 10, 12, 14, 640 and 845 numbers pass, and one of 832 is refused.", [
        altered(Case(many(2), LETTERS, [AMPLE], lent=lent), NUMBER, 0) for lent in (0, 10, 12, 14)] + [
        altered(Case(many(64), LETTERS, [AMPLE], lent=640), NUMBER, 0), altered(Case(many(65), LETTERS, [AMPLE]), NUMBER, 0),
        altered(Case(many(64), LETTERS, [AMPLE]), NUMBER, 31)]
    yield "31: names of size 0 and 9 pass, and one of 8 is refused; one past the bytes' end passes, and one that ends there is refused.", [
        altered(one(b"ABCDEFGHIJ", 0, 0), NUMBER, 0), altered(one(b"ABCDEFGHIJ", 0, 9), NUMBER, 0),
        altered(one(b"ABCDEFGHIJ", 0, 8), NUMBER, 31), altered(one(b"RAMPROAD", 4, 4, lent_names=7), NUMBER, 0),
        altered(one(b"RAMPROAD", 4, 4), NUMBER, 31)]
    yield "31: place and length that pass by what is left of them in 32 bits, or below 0; small letters pass; digits are refused.", [
        altered(one(b"RAMPROAD", MOST, 5), NUMBER, 0), altered(one(b"RAMPROAD", -4, 8), NUMBER, 0),
        altered(one(b"RAMPROAD", -1, 1), NUMBER, 0), altered(one(b"RAMPROAD", 8, -4), NUMBER, 0),
        altered(one(b"RAMPROAD", -1, 1), NUMBER, 33), altered(one(b"ramp", 0, 4), NUMBER, 0),
        altered(one(b"R@MP", 0, 4), NUMBER, 0), altered(one(b"0", 0, 1), NUMBER, 31)]
    yield "31: its count is the list's, the buffer is written.", [
        altered(one(b"ramp", 0, 4), COUNT, 1), altered(one(b"ramp", 0, 4), COUNT, 37), altered(one(b"ramp", 0, 4), KEPT, 2)]
    yield "32: a twin passes; given for the front of a name; its count and the buffer.", [
        altered(twin, NUMBER, 0), altered(Case(curves((0, 4), (0, 3)), b"RAMP"), NUMBER, 32),
        altered(Case(curves((0, 5), (5, 5)), b"RAMP1RAMP2"), NUMBER, 32), altered(twin, COUNT, 74), altered(twin, KEPT, 2),
        altered(twin, NUMBER, 25)]
    yield "33: eight digits pass, seven do not; the count and the buffer.", [
        altered(long_number, NUMBER, 0), altered(Case(replaced(TWO, 2, NINES), TWO_NAMES), NUMBER, 33),
        altered(long_number, COUNT, 59), altered(long_number, KEPT, 16)]
    yield "33, as Slip 5 has it: what it refuses passes, and what passes is refused; the count and the buffer.", wrong_marks()
    yield "The order: 32 before 31, 33 before 31, 33 before 32.", [
        altered(Case(curves((0, 4), (4, 4), (8, 4)), b"RAMPRAMProad"), NUMBER, 32),
        altered(Case(curves((0, 4, (MOST,) * 8), (4, 4)), b"RAMProad"), NUMBER, 33),
        altered(one(b"ramp", 0, 4, rooms=[0]), NUMBER, 33),
        altered(Case(curves((0, 4, (MOST,) * 8), (4, 4)), b"RAMPRAMP"), NUMBER, 33),
        altered(Case(curves((0, 4), (4, 4)), b"RAMPRAMP", [0]), NUMBER, 33),
        altered(Case(curves((0, 4, (*RAMP, 2, 0, 0)), (-1, 4)), b"RAMP"), NUMBER, 33),
        altered(Case(curves((0, 4, (*RAMP, 2, 0, 0)), (4, 4)), b"RAMPRAMP"), NUMBER, 33)]


def with_card(card):
    """A list of RAMP's name alone, with this card."""
    return Case(curves((0, 4, card)), b"RAMP", [AMPLE])


def wrong_marks():
    for card in ((*RAMP, 2, 0, 0), (*RAMP, -1, 0, 0), (*RAMP, 256, 0, 0), (-1, *RAMP[1:]), (*RAMP[:7], -1), (*RAMP[:7], -1, 0, 0),
                 (*RAMP, 0, 1, 0), (*RAMP, 0, 0, -1), (*RAMP, 0, 250000, -35), (*RAMP, -EIGHT_DIGITS, 0), (*RAMP, 0, -EIGHT_DIGITS),
                 (*RAMP, EIGHT_DIGITS, 0), (*RAMP, LEAST, 0), (*RAMP, 0, LEAST)):
        yield altered(with_card(card), NUMBER, 0)
    for card in (RAISED, (*RAMP, 0, 0), (*RAMP, -NINES, 0), (*RAMP, 0, -NINES), (*RAMP, NINES, NINES)):
        yield altered(with_card(card), NUMBER, 33)
    # a card that is refused is none of the writer's affair; nor is a mark the place's
    yield altered(with_card((*RAMP, 9000001, 0)), NUMBER, 34)
    yield altered(with_card((*RAMP, 0, 81)), NUMBER, 35)
    yield altered(with_card((*RAMP, 2, 0, 0)), NUMBER, 31)
    yield altered(with_card((*RAMP, 2, 0, 0)), COUNT, 37)
    yield altered(with_card((*RAMP, 2, 0, 0)), KEPT, 35)
    yield altered(with_card((*RAMP, 0, 1, 0)), KEPT, 2)


def main():
    if write_book(curves((2, 4)), RAMP_BOOK, 37) != (0, RAMP_BOOK):
        sys.exit("RAMP's book is not that of document 01")
    if len(GREATEST.book) != 6049:
        sys.exit("the greatest book has another size")
    for shown, cases in {"right": right, "wrong": wrong}[sys.argv[1]]():
        print("# " + shown)
        for case in cases:
            for line in case.lines():
                print(line)


if __name__ == "__main__":
    main()
