"""What is wrong in the line of a book that the printer has refused, in words, and what to do about it.

The printer says the number and the line. Nothing is decided here: the line is
looked at as document 01 has it, word by word, for what does not belong there.
"""
import re
import shlex
from decimal import Decimal
from pathlib import Path

from book_lines import MARKS, Found, Line, blank_faults, byte_faults, end_faults

MOST_CURVES, MOST_BYTES = 64, 8192
NUMBER = re.compile(rb"0|[1-9][0-9]{0,6}")
SIGNED = re.compile(rb"0|-?[1-9][0-9]{0,6}")
NAME = re.compile(rb"[A-Z0-9]{1,8}")
COUNT_CURE = "write the count of curves"
TAKE_LINE_OUT = "take the line out, or write what is due: a book has no title and no remarks"
# The numbers of a body: what they are called, what they are whole numbers of, and how great those in mm may be.
FIELDS = (("the profile", "", 0), ("the terrain", "", 0), ("R", "metres", 0), ("L", "mm", 300000), ("v", "per mille", 0),
          ("W", "mm", 3500), ("the step", "mm", 20000), ("the unit", "1 (mm) or 10 (cm)", 0), ("the height", "mm", 9000000),
          ("the grade", "per mille", 0))
WHOLE = "lengths are in whole mm (1.2 m is 1200), R in whole metres, slopes in whole per mille; do not just take the point out"
BODY_COUNT = "a body has eight numbers, or ten with height and grade"
# Separators with nothing between them, and something behind: without them the numbers would be of other cells.
EMPTY_CELL = re.compile(rb"[\t;] *[\t;][\t; ]*[^\t; \r\n]")
# How files of word processors begin.
DOCUMENTS = (b"PK\x03\x04", b"{\\rtf", b"\xd0\xcf\x11\xe0", b"%PDF")


# ---- what is due ----

def due_words(number, line):
    """What is due in the line that is refused with this number."""
    n = line.count
    if number == 22:
        return f"the count of curves, 1 to {MOST_CURVES}, and the end of the line"
    if number in (23, 24, 25):
        return f"a name of 1 to 8 capitals or digits, one blank, {n + line.number}, and the end of the line"
    if number == 26:
        return (f"the body of {line.name()}: the eight numbers of a relative curve, or the ten of an absolute one, "
                "one blank between, and the end of the line")
    return f"nothing: with a count of {n} the book ends with line {2 * n + 1}"


# ---- words that are no numbers and no names ----

def is_plain(token):
    """No byte in it that byte_faults speaks of."""
    return all(32 < byte < 127 for byte in token)


def cut(token):
    """A word as it is spoken of: a long one by its first bytes."""
    word = token.decode("ascii")
    return word if len(word) <= 24 else word[:20] + "..."


def whole_words(word, column):
    """What to write for a number with a point or a comma, by its place in the body, from 0."""
    if column is None:
        return WHOLE
    name, unit, most = FIELDS[column]
    value = Decimal(word.replace(",", "."))
    told = [f"{word} {short} is {int(times * value)}" for short, times in (("m", 1000), ("mm", 1))
            if times * value == int(times * value) and 0 < abs(times * value) <= most]
    whole = {"mm": " in whole mm", "": " a whole number", "1 (mm) or 10 (cm)": " 1 (mm) or 10 (cm)"}.get(unit, f" a whole number of {unit}")
    return f"{name} is{whole}" + (": " if told else "") + ", ".join(told)


def number_faults(place, token, may_be_below=False, column=None):
    """A word where a number is due; the column is its place in a body, from 0, where that is known."""
    form = SIGNED if may_be_below else NUMBER
    if form.fullmatch(token) or not is_plain(token):
        return
    word = token.decode("ascii")
    parts = re.fullmatch(r"([+-]?)([0-9]+)", word)
    cure = "write a whole number of 1 to 7 digits"
    if re.fullmatch(r"[+-]?[0-9]*[.,][0-9]+", word):
        words, cure = "is no whole number", whole_words(word, column)
    elif re.fullmatch(r"[0-9]+-", word):
        words, cure = "has its minus behind it", f"write -{word[:-1]}"
    elif not parts:
        words, cure = "is no number", "write the number alone, in digits, without units, signs or quotes"
    elif parts[1] == "+":
        words, cure = "has a plus", "take the plus out"
    elif parts[1] == "-" and not may_be_below:
        words, cure = "has a minus", "only a height and a grade, the ninth and the tenth number of a body, may be below 0"
    elif len(parts[2]) > 7:
        words = f"has {len(parts[2])} digits"
    else:
        words, cure = "has a 0 before its first digit" if int(word) else "is 0 written otherwise", f"write {int(word)}"
    yield Found(place, f"{cut(token)} {words}", cure)


def name_faults(place, token):
    """A word where a name is due."""
    if NAME.fullmatch(token) or not is_plain(token):
        return
    word, upper = cut(token), token.upper()
    small, wrong = re.search(rb"[a-z]", token), re.search(rb"[^A-Za-z0-9]", token)
    if small:
        cure = f"write {upper.decode('ascii')}" if NAME.fullmatch(upper) else "use capitals and digits"
        yield Found(place + small.start(), f"the name {word} has small letters", cure)
    if wrong:
        yield Found(place + wrong.start(), f"the name {word} has the sign {chr(wrong[0][0])}", "use capitals and digits")
    if len(token) > 8:
        yield Found(place + 8, f"the name {word} has {len(token)} letters", "use 8 at most")


# ---- lines of each form ----

def is_remark(tokens):
    """Two words or more, the first no name, and no digit."""
    return len(tokens) > 1 and not NAME.fullmatch(tokens[0][1]) and not any(re.search(rb"[0-9]", token) for _, token in tokens)


def is_own_name(line, token):
    """The name of the curve whose body the line is, perhaps with other signs; digits alone may be the profile."""
    name = re.sub(rb"[^A-Z0-9]", b"", token.upper())
    return name == line.name().encode("ascii") and not name.isdigit()


def is_contents(tokens):
    """A name and a number, as a contents line has them."""
    return len(tokens) == 2 and NAME.fullmatch(tokens[0][1]) and NUMBER.fullmatch(tokens[1][1])


def earlier_line(line):
    """The earlier contents line that has the name of this one, or nothing."""
    name = line.tokens()[0][1]
    return next((i for i, other in enumerate(line.lines[1:line.number - 1], 2) if other.split(b" ")[0] == name), None)


def is_count(content):
    """A number from 1 to 64."""
    return bool(NUMBER.fullmatch(content)) and 1 <= int(content) <= MOST_CURVES


def title_fault(line):
    """A first line that is no count, where a document begins or the count stands in one of the next lines, before a name."""
    if line.data.startswith(DOCUMENTS):
        return Found(0, "a word processor's document, and no plain text", "save the book as plain text")
    others = [Line(line.data, number, line.path, 0) for number in range(2, 8)]
    if is_count(line.content()[len(line.mark()):]):
        return None
    for other, behind in zip(others, others[1:]):
        if is_count(other.content()) and len(behind.tokens()) >= 2:
            lines = "line 1" if other.number == 2 else f"lines 1 to {other.number - 1}"
            return Found(0, f"the count of curves stands in line {other.number}", f"take {lines} out: a book has no title and no empty line")
    return None


def count_faults(line):
    """The count line: one number, 1 to 64."""
    tokens = line.tokens()
    if is_contents(tokens):
        yield Found(tokens[0][0], "this looks like a contents line, and the count is due", "put a line with the count of curves before it")
    elif len(tokens) != 1:
        place = tokens[1][0] if tokens else 0
        yield Found(place, "more than one word" if tokens else "the line is empty", f"{COUNT_CURE}, and nothing else")
    elif not NUMBER.fullmatch(tokens[0][1]):
        if is_plain(tokens[0][1]):
            yield Found(tokens[0][0], f"{cut(tokens[0][1])} is no count", f"{COUNT_CURE} alone, in digits, with no 0 before it")
    elif not 1 <= int(tokens[0][1]) <= MOST_CURVES:
        more = "make two books of a longer one" if int(tokens[0][1]) else COUNT_CURE
        yield Found(tokens[0][0], f"{int(tokens[0][1])} curves", f"a book has 1 to {MOST_CURVES}: {more}")


def contents_faults(line):
    """A contents line: a name and the line of its body."""
    tokens = line.tokens()
    words, due = [token for _, token in tokens], str(line.count + line.number).encode("ascii")
    if len(words) in (8, 10) and all(re.fullmatch(rb"[0-9.,-]+", word) for word in words):
        yield Found(tokens[2][0], "this looks like a body, and a contents line is due",
                    f"is the count in line 1, {line.count}, that of the curves? Each has a contents line, and all stand before the bodies")
    elif not words:
        yield Found(0, "the line is empty", "take it out, or write what is due")
    elif is_remark(tokens):
        yield Found(tokens[0][0], "words, and no number", TAKE_LINE_OUT)
    elif len(words) == 1:
        yield from lone_word_faults(line, *tokens[0], due)
    elif words[0] == due and NAME.fullmatch(words[1]):
        yield Found(tokens[0][0], "the name comes first", f"write {cut(words[1])} {cut(due)}")
    elif len(words) > 2 and words[-1] == due and NAME.fullmatch(b"".join(words[:-1])):
        yield Found(tokens[1][0] - 1, "a blank inside the name", f"write {cut(b''.join(words[:-1]))} {cut(due)}")
    else:
        yield from name_faults(*tokens[0])
        yield from (Found(fault.place, fault.words, f"write {cut(due)}") for fault in number_faults(*tokens[1]))
        if len(words) > 2:
            yield Found(tokens[2][0], "more than a name and a number", "take out all from here to the end of the line")


def lone_word_faults(line, place, token, due):
    """A contents line of one word: the name, the number, or both without a blank."""
    name = re.sub(rb"[^A-Za-z0-9]*" + due + rb"$", b"", token)
    if token == str(line.count).encode("ascii") and line.number == 2:
        yield Found(place, "the count of curves stands here again", "take this line out")
    elif token == due:
        yield Found(place, "the name is missing", "write it before the number, with one blank between")
    elif name != token and NAME.fullmatch(name):
        more = f"; if {cut(token)} is the name, write {cut(token)} {cut(due)}" if NAME.fullmatch(token) else ""
        yield Found(place + len(name), "no blank between the name and the number", f"write {cut(name)} {cut(due)}{more}")
    else:
        yield from name_faults(place, token)
        yield Found(place + len(token), "the line of the body is missing", f"write it behind the name: {cut(due)}")


def wrong_line_faults(line):
    """A contents line that names another line than the one due; perhaps the count is wrong, or the order of the lines."""
    (_, name), (place, token) = line.tokens()
    doubled = line.bytes in line.lines[1:line.number - 1]
    yield Found(place, f"line {int(token)} is named for the body of {name.decode('ascii')}",
                doubled_cure(line) if doubled else count_cure(line, int(token)) or numbers_cure(line, name.decode("ascii")))
    if earlier_line(line) and not doubled:
        yield from twin_faults(line)


def doubled_cure(line):
    """What to do where an earlier contents line is the same."""
    return f"is this line there twice? Take it out, if so; else give the curve another name, and write {line.count + line.number}"


def count_cure(line, named):
    """What to do where the number of lines is that of another count; nothing where it is not."""
    due, fitting, (curves, odd) = line.count + line.number, named - line.number, divmod(len(line.lines) - 1, 2)
    if odd or curves == line.count or not 1 <= curves <= MOST_CURVES:
        return ""
    if curves == fitting:
        return f"is the count in line 1 {fitting}, and not {line.count}? If not, and the body stands in line {due}, write {due}"
    return (f"the book has the {len(line.lines)} lines that a count of {curves} asks for: if no curve is missing, "
            f"write {curves} in line 1, and number the contents lines anew, from {curves + 2} in line 2 on")


def numbers_cure(line, name):
    """What to do where the count may be right: other numbers, or another order of the contents lines."""
    due, contents = line.count + line.number, range(2, line.count + 2)
    found = [Line(line.data, number, line.path, line.count).tokens() for number in contents]
    named = [int(tokens[1][1]) if is_contents(tokens) else 0 for tokens in found]
    if sorted(named) == [line.count + number for number in contents]:
        return f"another contents line names line {due}: put the contents lines into the order of the bodies, and leave their numbers"
    if line.number <= line.count and named[line.number - 1] != due + 1:
        return f"number the contents lines anew, from {due} in line {line.number} on"
    return f"the body of {name} is due in line {due}: if it stands there, write {due}"


def twin_faults(line):
    """A contents line whose name stands in an earlier one."""
    place, name = line.tokens()[0]
    yield Found(place, f"the name {name.decode('ascii')} stands in line {earlier_line(line)} already",
                "give one of the two curves another name")


def body_faults(line):
    """A body: eight numbers or ten."""
    tokens = line.tokens()
    if is_contents(tokens) and re.search(rb"[A-Z]", tokens[0][1]):
        yield Found(tokens[0][0], "this looks like a contents line, and a body is due",
                    f"is the count in line 1, {line.count}, that of the curves?")
    elif not tokens:
        yield Found(0, "the line is empty", "take it out, or write what is due")
    elif is_remark(tokens):
        yield Found(tokens[0][0], "words, and no number", TAKE_LINE_OUT)
    elif is_own_name(line, tokens[0][1]) and len(tokens) in (9, 11):
        yield Found(tokens[0][0], "the name of the curve", "take it out: it stands in the contents line only")
    else:
        separators = list(separator_faults(line))
        remark = next((i for i, (_, token) in enumerate(tokens) if is_plain(token) and not re.search(rb"[0-9]", token) and token != b"-"), None)
        if remark in (8, 10):
            yield Found(tokens[remark][0], f"{cut(tokens[remark][1])} is no number", "take out all from here to the end of the line")
        yield from separators or numbers_faults(line, tokens[:remark] if remark in (8, 10) else tokens)


def separator_faults(line):
    """Semicolons and commas between the numbers."""
    semicolon = re.search(rb"[0-9];(?=[ 0-9-])", line.content()[:line.cells_end()])
    comma = re.search(rb"[0-9],(?= )|(?<=[0-9]),(?=[0-9]+,[0-9]+,)", line.bytes)
    if semicolon:
        spaced = line.bytes[semicolon.end():semicolon.end() + 1] == b" "
        yield Found(semicolon.start() + 1, "a semicolon between two numbers",
                    "take out each semicolon before a blank" if spaced else "put one blank in place of each")
    elif comma:
        place = line.bytes.index(b",", comma.start())
        spaced = line.bytes[place + 1:place + 2] == b" "
        yield Found(place, "a comma between two numbers", "take out each comma before a blank" if spaced else "put one blank in place of each")


def joined_numbers(tokens):
    """The numbers with what stands behind a blank inside one of them joined to it: three digits that begin with 0, or what a minus leads."""
    joined, found = [], []
    for place, token in tokens:
        place_before, before = joined[-1] if joined else (0, b"")
        if re.fullmatch(rb"0[0-9]{2}", token) and re.fullmatch(rb"-?[1-9][0-9]{0,2}", before):
            found.append(Found(place - 1, f"a blank inside a number: {cut(before)} {cut(token)}", f"write {cut(before + token)}"))
            joined[-1] = (place_before, before + token)
        elif before == b"-" and re.fullmatch(rb"[0-9]+", token):
            found.append(Found(place - 1, "a blank behind the minus", f"write -{cut(token)}"))
            joined[-1] = (place_before, before + token)
        else:
            joined.append((place, token))
    return joined, found


def numbers_faults(line, tokens):
    """The numbers of a body: how many, and each of them."""
    numbers, found = joined_numbers(tokens)
    yield from found
    right = len(numbers) in (8, 10)
    for column, (place, token) in enumerate(numbers):
        # Of nine or eleven numbers it is not known which is which.
        yield from number_faults(place, token, column >= 8, column if right else None)
    if not right:
        count = "1 number" if len(numbers) == 1 else f"{len(numbers)} numbers"
        more = "; is there a blank inside a number? 120 000 is 120000" if len(numbers) > 8 else ""
        yield Found(len(line.content().rstrip()), count, BODY_COUNT + more)


def tail_faults(line):
    """Bytes after the last body."""
    if not line.bytes.strip(b" \t\r\n"):
        yield Found(0, "an empty line, or blanks, after the last body", "take it out: the last body's line end is the end of the book")
    elif line.bytes.strip() == b"\x1a":
        yield Found(0, "the end mark of an old editor, byte 26", "take it out")
    elif len(line.tokens()) in (8, 10):
        yield Found(0, "a body more than there are contents lines",
                    "is a body there twice, or was a contents line taken out? Each body must stand in the line that its curve names")
    else:
        yield Found(0, "more text after the last body", f"take it out; or is the count in line 1, {line.count}, too small?")


FORMS = {22: count_faults, 23: contents_faults, 24: wrong_line_faults, 25: twin_faults, 26: body_faults}


def faults(number, line):
    """The faults of the line that is refused with this number, in the order of their places."""
    if number == 27:
        return list(tail_faults(line))
    if not line.bytes:
        return [Found(0, "the book ends before this line", "write the line; or is the count in line 1 too great, or an earlier line missing?")]
    title = title_fault(line) if number == 22 else None
    if title:
        return [title]
    found = list(byte_faults(line, number in (22, 26)))
    lines_lost = MARKS.get(line.mark()) == "UTF-16" or re.search(rb"\0|\r(?!\n)", line.bytes)
    if not lines_lost:
        found += [*blank_faults(line), *FORMS[number](line), *end_faults(line)]
    return sorted(found, key=lambda fault: fault.place)


def repair(number, line):
    """The command that writes a copy of the book without what an editor has put into this line, or nothing."""
    mark, steps = line.mark(), []
    if number == 27 or number == 22 and title_fault(line):
        return ""
    if MARKS.get(mark) == "UTF-16":
        steps.append("iconv -f UTF-16 -t UTF-8")
    elif mark:
        steps.append(f"tail -c +{len(mark) + 1}")
    elif line.number == 1 and b"\0" in line.bytes[:2]:
        steps.append(f"iconv -f UTF-16{'BE' if line.bytes[:1] == bytes(1) else 'LE'} -t UTF-8")
    ends, lone = re.search(rb"\r\0?\n", line.data), re.search(rb"\r(?!\0?\n)", line.data)
    if ends and not lone and b"\r" in line.bytes:
        steps.append("tr -d '\\r'")
    elif lone and b"\n" not in line.data:
        steps.append("tr '\\r' '\\n'")
    if re.search(rb"\t|[0-9A-Z];+[ 0-9\r\n-]", line.bytes) and not EMPTY_CELL.search(line.data.replace(b"\0", b"")):
        steps += ["tr -s ';\\t' ' '", "sed 's/^ //; s/ $//'"]
    if not steps:
        return ""
    old = Path(line.path)
    new = old.with_name(f"{old.stem}-repaired{old.suffix}")
    steps[0] += f" < {shlex.quote(line.path)}"
    return " | ".join(steps) + f" > {shlex.quote(str(new))}"
