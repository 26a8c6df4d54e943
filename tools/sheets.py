"""Sheets and books as the tools read them.

A sheet is what the printer has printed; it alone says what is accepted and
which numbers a row has. The book beside it has the cards. A sheet by the Minsk
handbook's method, as examples/minsk.c prints it, has nine numbers a row; beside
it is the file of its cards, each a name and eleven numbers.
"""
import argparse
import os
import re
import signal
import sys
from collections import namedtuple
from itertools import zip_longest

import reckon
import reckon_minsk
from refusals import HANDBOOK_REASONS, REASONS, named

HEAD = re.compile(r"([A-Z0-9]{1,8}) (refused )?([0-9]{1,4})")
BOOK = re.compile(r"book ([0-9]{1,2}) line ([0-9]{1,3})")
CARD = re.compile(r"[0-9]{1,7}( [0-9]{1,7}){7}( -?[0-9]{1,7} -?[0-9]{1,7})?")
LISTED = re.compile(r"[A-Z0-9]{1,8}( -?[0-9]{1,10}){11}")

# A method: the form of its rows, which number refuses a card, a card's row at a station, and the words of its reasons.
Method = namedtuple("Method", "form refusal row reasons")
ALBUM = Method(re.compile(r"-?[0-9]{1,10}( -?[0-9]{1,10}){6}"), reckon.refusal, reckon.row, REASONS)
HANDBOOK = Method(re.compile(r"-?[0-9]{1,10}( -?[0-9]{1,10}){8}"), reckon_minsk.refusal, reckon_minsk.row, HANDBOOK_REASONS)

# What a tool ends with.
ALL_ACCEPTED, SOME_REFUSED, MISUSED = 0, 1, 2


class Fault(Exception):
    """Something that keeps a tool from its work, in words, and what the tool ends with."""

    def __init__(self, words, ending=MISUSED):
        super().__init__(words)
        self.ending = ending


class RefusedBook(Exception):
    """A sheet that is the line of a refused book: its number, and the line that is named."""

    def __init__(self, number, line):
        super().__init__(number, line)
        self.number, self.line = number, line


class Refused:
    """What a sheet has in place of the rows of a refused card: its number."""

    def __init__(self, number):
        self.number = number


def lines_of(data, what):
    """The lines of a file or sheet; each must be ended by byte 10."""
    text = data.decode("ascii", "replace")
    if not text.endswith("\n"):
        raise Fault(f"{what}: empty, or the last line is not ended")
    return text[:-1].split("\n")


def read_sheet(data, form=ALBUM.form):
    """Name to rows of this form, or to Refused, in the sheet's order; RefusedBook for the line of a refused book."""
    lines = lines_of(data, "sheet")
    refused = BOOK.fullmatch(lines[0])
    if refused and len(lines) == 1:
        raise RefusedBook(int(refused[1]), int(refused[2]))
    curves, at = {}, 0
    while at < len(lines):
        head = HEAD.fullmatch(lines[at])
        if not head:
            more = "a row too many" if form.fullmatch(lines[at]) else "not a curve's first line"
            raise Fault(f"sheet line {at + 1}: {more}")
        name, count = head[1], int(head[3])
        at += 1
        if name in curves:
            raise Fault(f"sheet line {at}: {name} stands in the sheet twice")
        if head[2]:
            curves[name] = Refused(count)
            continue
        rows = [row.split() for row in lines[at:at + count] if form.fullmatch(row)]
        if len(rows) != count:
            raise Fault(f"sheet line {at}: {name} says {count} rows, {len(rows)} good ones follow")
        curves[name] = [list(map(int, row)) for row in rows]
        at += count
    return curves


def read_cards(data, path):
    """Name to card, eight numbers or ten, in the order of a book that the printer has accepted."""
    lines = lines_of(data, path)
    count = int(lines[0]) if re.fullmatch(r"[0-9]{1,2}", lines[0]) else 0
    if count < 1 or len(lines) != 2 * count + 1:
        raise Fault(f"{path}: not a book of cards")
    cards = {}
    for i in range(1, count + 1):
        name, _, place = lines[i].partition(" ")
        if place != str(count + 1 + i) or name in cards:
            raise Fault(f"{path} line {i + 1}: not a contents line")
        if not CARD.fullmatch(lines[count + i]):
            raise Fault(f"{path} line {count + 1 + i}: not a card")
        cards[name] = list(map(int, lines[count + i].split()))
    return cards


def is_listed(data):
    """Whether a file is one of cards by the handbook's method: no book begins with a name and eleven numbers."""
    return bool(LISTED.fullmatch(data.split(b"\n")[0].decode("ascii", "replace")))


def read_listed(data, path):
    """Name to card, as a book would have it, in the order of a file of cards."""
    cards = {}
    for at, line in enumerate(lines_of(data, path), 1):
        name, *numbers = line.split(" ")
        if not LISTED.fullmatch(line) or name in cards:
            raise Fault(f"{path} line {at}: not a name and eleven numbers, or a name that stands there twice")
        cards[name] = reckon_minsk.body_of([int(number) for number in numbers])
    return cards


def check_fit(rows, card, name, method):
    """The rows must stand where the card puts them, and the last be the card's: its unit does not stand in the sheet."""
    length, step = card[3], card[6]
    if method.refusal(card):
        raise Fault(f"{name}: a sheet refuses the book's card, but this one has rows")
    due = (length - 1) // step + 2
    if len(rows) != due:
        raise Fault(f"{name}: the sheet has {len(rows)} rows, the book's card asks for {due}")
    if any(row[0] != min(i * step, length) for i, row in enumerate(rows)):
        raise Fault(f"{name}: the sheet's stations are not those of the book's card")
    if rows[-1] != method.row(card, length):
        raise Fault(f"{name}: the sheet's last row is not that of the book's card; print the sheet of this book anew")


def check_refusal(refused, card, name, method):
    """The number of a refused curve must be its card's, else the words for it would speak of another card."""
    if method.refusal(card) != refused.number:
        raise Fault(f"{name}: the sheet has it refused with {named(refused.number)}, which the book's card is not")


def check_curves(curves, cards, path, method):
    """The sheet must be the book's: its curves in the book's order, each as its card has it."""
    for place, (printed, due) in enumerate(zip_longest(curves, cards), 1):
        if printed != due:
            raise Fault(f"the sheet is not of {path}: curve {place} is {printed or 'missing'} in the sheet, "
                        f"{due or 'missing'} in the book")
    for name, printed in curves.items():
        check = check_refusal if isinstance(printed, Refused) else check_fit
        check(printed, cards[name], name, method)


def read_file(path):
    """The bytes of a file."""
    try:
        with open(path, "rb") as file:
            return file.read()
    except OSError as fault:
        raise Fault(f"{path}: {fault.strerror}") from fault


def read_input():
    """The bytes of standard input, which may be neither closed nor a terminal."""
    if sys.stdin is None:
        raise Fault("there is no standard input; the sheet goes in by it, from bin/sheet < BOOK")
    if os.isatty(0):
        raise Fault("standard input is a terminal; the sheet goes in by it, from bin/sheet < BOOK")
    try:
        return sys.stdin.buffer.read()
    except OSError as fault:
        raise Fault(f"standard input cannot be read: {fault.strerror}") from fault


def tell_refused(refused, book, path):
    """Says of a refused book what its sheet says, where the sheet is this book's."""
    number, line = refused.number, refused.line
    if is_listed(book) or reckon.sheet(book) != [f"book {number} line {line}"]:
        raise Fault(f"the sheet is that of a refused book, and {path} is another") from refused
    place = f", line {line}" if line else ""
    raise Fault(f"the book is refused with {named(number)}{place}: bin/check-book {path} says what is wrong",
                SOME_REFUSED) from refused


def read_sheet_of(path):
    """The curves of the sheet on standard input, the cards of its book or its file of cards, by name, in one order; and their method."""
    book = read_file(path)
    method = HANDBOOK if is_listed(book) else ALBUM
    try:
        curves = read_sheet(read_input(), method.form)
    except RefusedBook as refused:
        tell_refused(refused, book, path)
    cards = read_listed(book, path) if method is HANDBOOK else read_cards(book, path)
    check_curves(curves, cards, path, method)
    return curves, cards, method


def put_out(text):
    """Writes text to standard output, all of it or Fault."""
    left = text.encode("utf-8", "surrogateescape")
    try:
        while left:
            left = left[os.write(1, left):]
    except BrokenPipeError:
        # A reader that has seen enough is no fault: the tool ends as such commands do.
        signal.signal(signal.SIGPIPE, signal.SIG_DFL)
        os.kill(os.getpid(), signal.SIGPIPE)
    except OSError as fault:
        raise Fault(f"standard output cannot be written: {fault.strerror}") from fault


def say(tool, words):
    """One line on standard error. Where that is closed or full, what the tool ends with still tells."""
    try:
        os.write(2, f"{tool}: {words}\n".encode("utf-8", "surrogateescape"))
    except OSError:
        pass


class Arguments(argparse.ArgumentParser):
    """A tool's arguments: misuse is said in one line, and the help is put out as all else is."""

    def __init__(self, usage, words):
        super().__init__(usage=usage, description=words, allow_abbrev=False,
                         formatter_class=argparse.RawDescriptionHelpFormatter)

    def error(self, message):
        raise Fault(f"{message}; usage: {self.usage}")

    def print_help(self, file=None):
        put_out(self.format_help())


def run(tool, main):
    """Runs a tool's main, which gives what the tool ends with; says a fault in words."""
    signal.signal(signal.SIGINT, signal.SIG_DFL)  # Else who breaks it off gets a traceback.
    try:
        sys.exit(main())
    except Fault as fault:
        say(tool, fault)
        sys.exit(fault.ending)
