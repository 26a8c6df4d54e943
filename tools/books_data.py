#!/usr/bin/env python3
"""Makes the groups of crates/readings/stdin that need many lines: RAMP's book, relative or absolute, cut after every byte, and books of
64 curves.

    python3 tools/books_data.py cuts
    python3 tools/books_data.py absolute-cuts
    python3 tools/books_data.py curves

What is expected follows from how the books are made: a name stands where the lines before it end, and a book that is cut lacks the line
it is cut in.
"""
import sys

COUNT = 64


def cuts(datum=""):
    lines = ["1\n", "RAMP 3\n", "5 1 30 30000 60 600 20000 1%s\n" % datum]
    numbers = [22, 23, 26]
    print("k 0 21 0 0 0")
    size = 0
    for line, text in enumerate(lines, 1):
        for cut in range(max(size, 1), size + len(text)):
            print("k %d %d 0 %d 0" % (cut, numbers[line - 1], line))
        size += len(text)
    print("k %d 0 1 0 13" % size)


def absolute_cuts():
    cuts(" 250000 -35")


def contents(names, count):
    """The count line and the contents lines as text, and the place of each name."""
    text, places = "%d\n" % count, []
    print("b %d/" % count)
    for i, name in enumerate(names):
        places.append(len(text))
        line = "%s %d" % (name, count + 2 + i)
        text += line + "\n"
        print("a %s/" % line)
    return text, places


def longest():
    print("# The longest book: 64 names of 8 bytes, and ten numbers of 7 digits a body, the last two below nought: 6049 bytes.")
    names = ["CURVE%03d" % i for i in range(COUNT)]
    text, places = contents(names, COUNT)
    numbers = [[1000000 + (10 * i + j) * 13007 for j in range(10)] for i in range(COUNT)]
    bodies = [eight + [-height, -grade] for *eight, height, grade in numbers]
    for body in bodies:
        line = " ".join(map(str, body))
        text += line + "\n"
        print("a %s/" % line)
    print("o 0 64 0 832")
    for i, (*eight, height, grade) in enumerate(bodies):
        print("e %d %d 8 %s 1 %d %d" % (i, places[i], " ".join(map(str, eight)), height, grade))
    print("# Without its last byte; the list at 832 and 831; with one byte more.")
    print("k %d 26 0 129 0" % (len(text) - 1))
    print("l 832\no 0 64 0 832\nl 831\no 28 0 0 0\nl 896")
    print("a 0\no 27 0 130 0")
    print("# Cut where a line begins: the line that is missing is named.")
    starts = [0]
    for line in text.split("\n")[:-1]:
        starts.append(starts[-1] + len(line) + 1)
    for line in (2, 33, 65, 66, 97, 129):
        print("k %d %d 0 %d 0" % (starts[line - 1], 23 if line <= COUNT + 1 else 26, line))
    print("# The last name is the first one again.")
    contents(names[:-1] + names[:1], COUNT)
    print("m 64 0 0 0 0 0 0 0 0/\no 25 0 65 0")


def curves():
    longest()
    print("# Names of one byte and two, every number 0: the shortest book of 64 curves.")
    capitals = [chr(65 + i) for i in range(26)]
    names = [str(i) for i in range(10)] + capitals + ["A" + letter for letter in capitals] + ["00", "0A"]
    shown = (0, 9, 10, 35, 36, 61, 62, 63)
    _, places = contents(names, COUNT)
    print("m 64 0 0 0 0 0 0 0 0/\no 0 64 0 832")
    for i in shown:
        print("e %d %d %d 0 0 0 0 0 0 0 0 0 0 0" % (i, places[i], len(names[i])))
    print("# The same with bodies of eight numbers and of ten in turn; then the last one with nine.")
    contents(names, COUNT)
    print("m 31 0 0 0 0 0 0 0 0/0 0 0 0 0 0 0 0 0 0/")
    print("a 0 0 0 0 0 0 0 0/0 0 0 0 0 0 0 0 1 -1/\no 0 64 0 832")
    for i in shown:
        print("e %d %d %d 0 0 0 0 0 0 0 0 %s" % (i, places[i], len(names[i]), "1 1 -1" if i == 63 else "%d 0 0" % (i % 2)))
    contents(names, COUNT)
    print("m 63 0 0 0 0 0 0 0 0/\na 0 0 0 0 0 0 0 0 1/\no 26 0 129 0")
    print("# A book of 65 curves, right in all but its count.")
    contents(["C%d" % i for i in range(65)], 65)
    print("m 65 0 0 0 0 0 0 0 0/\no 22 0 1 0")


{"cuts": cuts, "absolute-cuts": absolute_cuts, "curves": curves}[sys.argv[1]]()
