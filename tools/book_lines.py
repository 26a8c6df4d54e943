"""A line of a book as it stands: its words, and bytes that stand in no book.

Nothing is decided here: the printer says which line is at fault.
"""
import re

MARKS = {b"\xef\xbb\xbf": "UTF-8", b"\xff\xfe": "UTF-16", b"\xfe\xff": "UTF-16"}
SHOWN = {9: "<TAB>", 10: "<LF>", 13: "<CR>"}
LINES = re.compile(rb"[^\n]*\n|[^\n]+")
TOKEN = re.compile(rb"[^ \t\r\n]+")
# What spreadsheets put between their cells.
SEPARATORS = {b"\t": "tabs", b";": "semicolons", b",": "commas"}
UNIX_ENDS = "save the book with Unix line ends (LF)"
SAVE_PLAIN = "save the book as plain text, ANSI or UTF-8 without a byte-order mark"
DASHES, BLANKS = "\u2010\u2011\u2012\u2013\u2014\u2015\u2212\u00ad", "\u00a0\u2007\u2009\u202f\u3000"
# Cyrillic capitals, and the Latin ones that look like them.
LOOK_ALIKE = dict(zip("\u0410\u0412\u0415\u041a\u041c\u041d\u041e\u0420\u0421\u0422\u0423\u0425", "ABEKMHOPCTYX"))
# Cyrillic letters that look like digits.
DIGIT_ALIKE = {"\u041e": "0", "\u043e": "0", "\u0417": "3", "\u0437": "3"}


class Found:
    """A fault: the place in the line, from 0, what is there, and what to do about it."""

    def __init__(self, place, words, cure):
        self.place, self.words, self.cure = place, words, cure


class Line:
    """A line of a book, with its number and what the lines before it have said."""

    def __init__(self, data, number, path, count=None):
        self.data, self.number, self.path = data, number, path
        self.lines = LINES.findall(data)
        self.bytes = self.lines[number - 1] if number <= len(self.lines) else b""
        self.count = count if count is not None else int(self.lines[0]) if number > 1 else 0

    def content(self):
        """The line without its end, and without the carriage return before it."""
        return re.sub(rb"\r?\n\Z", b"", self.bytes)

    def cells_end(self):
        """Where the last word ends, if a spreadsheet has put separators of empty cells behind it; else where the content ends."""
        content = self.content()
        words = content.rstrip(b" \t;,")
        return len(words) if content[len(words):].strip(b" ") else len(content)

    def mark(self):
        """The byte-order mark that the line begins with, or nothing."""
        at_start = self.number == 1
        return next((mark for mark in MARKS if at_start and self.bytes.startswith(mark)), b"")

    def tokens(self):
        """The words of the line, each with its place: what stands between blanks of any kind, tabs and line ends."""
        start, plain = len(self.mark()), bytearray(self.bytes)
        for place, sign, size in signs_in(self.bytes):
            if sign in BLANKS:
                plain[place:place + size] = b" " * size
        plain[self.cells_end():] = b""
        return [(found.start(), found[0]) for found in TOKEN.finditer(bytes(plain), start)]

    def name(self):
        """The name whose body is due in this line."""
        return self.lines[self.number - self.count - 1].split(b" ")[0].decode("ascii")


# ---- bytes that stand in no book ----

def end_faults(line):
    """The end of the line: missing, or with a carriage return before it."""
    content = line.bytes
    returns = line.data.count(b"\r\n")
    if content.endswith(b"\r\n"):
        lines = "1 line ends" if returns == 1 else f"{returns} lines end"
        yield Found(len(content) - 2, f"a carriage return, <CR>, before the end of the line, as Windows editors put it ({lines} so)",
                    UNIX_ENDS)
    if not content.endswith(b"\n"):
        yield Found(len(content), "the book ends without the end of this line", "press Enter behind the last word of the line")


def signs_in(content):
    """The signs of a line that are not ASCII, each with its place and size: by UTF-8, or by the Windows code page of Cyrillic."""
    at = 0
    while at < len(content):
        size = next((size for size in (2, 3, 4) if content[at] >= 128 and is_utf8(content[at:at + size])), 1)
        if content[at] >= 128:
            part = content[at:at + size]
            yield at, part.decode("utf-8") if size > 1 else part.decode("cp1251", "replace"), size
        at += size


def is_utf8(part):
    """One whole sign of UTF-8."""
    try:
        return len(part.decode("utf-8")) == 1
    except UnicodeDecodeError:
        return False


def sign_words(sign, in_body):
    """What a sign is that is not ASCII, and what to type instead."""
    if sign in DASHES:
        return "a long dash", "type the minus of the keyboard, -"
    if sign in BLANKS:
        return "a blank of another kind, as spreadsheets put it", "take it out inside a number, and put a plain blank between two words"
    if in_body and sign in DIGIT_ALIKE:
        return f"a Cyrillic letter that looks like {DIGIT_ALIKE[sign]}", f"type the digit {DIGIT_ALIKE[sign]}"
    if sign in LOOK_ALIKE and not in_body:
        return f"the Cyrillic letter that looks like {LOOK_ALIKE[sign]}", f"type the Latin {LOOK_ALIKE[sign]}"
    if "\u0400" <= sign <= "\u04ff":
        return "a Cyrillic letter", "type the number anew, in digits" if in_body else "names have Latin capitals and digits"
    return "a letter or sign that stands in no book, and may be invisible", "take it out, or type the word anew, in plain letters or digits"


def byte_faults(line, in_body):
    """A byte-order mark, tabs, lone carriage returns, other control bytes, and signs that are not ASCII; each kind once."""
    mark, found = line.mark(), {}
    if mark:
        yield Found(0, f"a byte-order mark, as editors put it before {MARKS[mark]} text", SAVE_PLAIN)
    if MARKS.get(mark) == "UTF-16":
        return
    content = line.content()
    if b"\0" in content:
        yield Found(content.index(b"\0"), "a byte 0, as UTF-16 text has them", SAVE_PLAIN)
        return
    for place, byte in enumerate(content[:line.cells_end()]):
        if byte == 9:
            found.setdefault(("a tab, <TAB>", "put one blank in its place"), place)
        elif byte == 13:
            found.setdefault(("a carriage return, <CR>, that ends no line", UNIX_ENDS), place)
        elif byte < 32 or byte == 127:
            found.setdefault((f"a control sign, byte {byte}", "take it out"), place)
    for place, sign, _ in signs_in(content[len(mark):]):
        # What follows the first blank of a contents line is a number, as all is in a body.
        in_number = in_body or b" " in content[:len(mark) + place]
        found.setdefault(sign_words(sign, in_number), len(mark) + place)
    yield from (Found(place, *words) for words, place in found.items())


def blank_faults(line):
    """Blanks before the first word, behind the last, and two in a row; and the separators of empty cells."""
    end = line.cells_end()
    content, cells = line.content()[:end], line.content()[end:].strip(b" ")
    if cells and line.tokens():
        yield Found(end, f"{SEPARATORS[cells[:1]]} behind the last word, as spreadsheets put them for empty cells",
                    "take out all from here to the end of the line")
    for pattern, words, cure in ((rb"^ +", "a blank before the first word", "take it out"),
                                 (rb"(?<=[^ ] ) +(?=[^ ])", "more than one blank in a row", "leave one"),
                                 (rb"(?<=[^ ]) +$", "a blank behind the last word", "take it out")):
        found = re.search(pattern, content)
        if found:
            yield Found(found.start(), words, cure)


# ---- the line as it stands ----

def cells(line):
    """The line's bytes, each as it is shown: blanks by name where they are at fault, others than ASCII by number."""
    content, mark = line.bytes, line.mark()
    shown = [SHOWN.get(byte, chr(byte) if 32 <= byte < 127 else f"<byte {byte}>") for byte in content]
    if mark:
        shown[:len(mark)] = ["<byte-order mark>"] + [""] * (len(mark) - 1)
    for found in re.finditer(rb"^ +|  +| +(?=\r?\n?$)", content):
        for place in range(found.start(), found.end()):
            shown[place] = "<blank>"
    return shown


def shown(line, place, most=100):
    """The line made visible, and how far from its start the place stands; a long line is cut around the place."""
    parts = cells(line)
    start, end = place, place
    while start > 0 and len("".join(parts[start - 1:place])) <= most // 2:
        start -= 1
    while end < len(parts) and len("".join(parts[start:end + 1])) <= most:
        end += 1
    before = ("..." if start else "") + "".join(parts[start:place])
    return before + "".join(parts[place:end]) + ("..." if end < len(parts) else "") or "nothing", len(before)
