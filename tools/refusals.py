"""What a card's refusal means, in words: its own figure, and the bound that it missed.

The printer says which number a card gets. Nothing is decided here: of that
number the words are found, with the figures of documents 01 and 02.
"""
import re
from math import ceil, floor, gcd
from pathlib import Path

from reckon import PROFILES, least_length
from reckon_minsk import CROWN, WIDTHS, first_stage, joint

HEADER = Path(__file__).resolve().parent.parent / "include" / "pippinterm.h"
# The trade's word of each number, as the header has it.
WORDS = {int(number): word.replace("_", " ").lower() for word, number in
         re.findall(r"#define PIPPINTERM_REFUSED_(\w+) ([0-9]+)", HEADER.read_text("utf-8"))}

# The road of each profile, and the ground of each terrain.
ROADS = {
    1: "category II",
    2: "category III",
    3: "category IV",
    4: "category V, two lanes",
    5: "category V, one lane",
}
TERRAINS = {1: "level", 2: "mountain"}

MOST_RADIUS, MOST_LENGTH, MOST_SLOPE = 2000, 300000, 60
MOST_WIDENING, WIDENED_RADIUS = 3500, 1000
LEAST_STEP, MOST_STEP = 1000, 20000
LEAST_HEIGHT, MOST_HEIGHT = -100000, 9000000
MOST_GRADE = 80


def named(number):
    """A number with its word, as 4 (clothoid)."""
    return f"{number} ({WORDS[number]})" if number in WORDS else str(number)


def of_profile(card):
    """The profile with its road."""
    return f"profile {card[0]} ({ROADS[card[0]]})"


def profile_words(card):
    """1: not 1 to 5."""
    return f"profile {card[0]} is not 1 to 5: II, III, IV, V with two lanes, V with one lane"


def terrain_words(card):
    """2: not 1 or 2."""
    return f"terrain {card[1]} is neither 1 (level) nor 2 (mountain)"


def radius_words(card):
    """3: below the profile's least, or above 2000. A radius of some 100000 was typed in mm."""
    if card[2] > MOST_RADIUS:
        words = f"R {card[2]} m is above {MOST_RADIUS} m, the greatest"
        if PROFILES[card[0]][5] <= card[3] <= MOST_RADIUS and card[2] <= MOST_LENGTH:
            words += "; are R and L exchanged? R comes first, in metres"
        elif card[2] % 1000 == 0 and PROFILES[card[0]][5] <= card[2] // 1000 <= MOST_RADIUS:
            words += f"; if {card[2]} mm are meant, write {card[2] // 1000}"
        return words
    return f"R {card[2]} m is below the {PROFILES[card[0]][5]} m that {of_profile(card)} needs"


def clothoid_words(card):
    """4: shorter than least L, or above 300000. A length of some hundreds was typed in metres."""
    radius, length = card[2], card[3]
    if length > MOST_LENGTH:
        return f"L {length} mm is longer than {MOST_LENGTH} mm, the longest"
    least = least_length(radius)
    words = f"L {length} mm is shorter than the {least} mm that R {radius} m needs"
    if least <= 1000 * length <= MOST_LENGTH:
        words += f"; if {length} metres are meant, write {1000 * length}"
    return words


def slope_words(card):
    """5: v below p, or above 60. A slope of one digit was typed in percent."""
    slope, crown = card[4], PROFILES[card[0]][2]
    if slope > MOST_SLOPE:
        return f"v {slope} per mille is above {MOST_SLOPE} per mille, the greatest"
    words = f"v {slope} per mille is below the {crown} per mille of the crown of {of_profile(card)}"
    if crown <= 10 * slope <= MOST_SLOPE:
        words += f"; if {slope} percent are meant, write {10 * slope}"
    return words


def widening_words(card):
    """6: W above 3500, or above 0 with R above 1000."""
    radius, widening = card[2], card[5]
    if widening > MOST_WIDENING:
        return f"W {widening} mm is above {MOST_WIDENING} mm, the greatest"
    return f"W {widening} mm is above 0, but R {radius} m is above {WIDENED_RADIUS} m, where W must be 0"


def added_slope_words(card):
    """8: h x (p + v) above added slope x L. The bound is told as a length, and as a slope where one is left."""
    half, _, crown, *_ = PROFILES[card[0]]
    added = PROFILES[card[0]][5 + card[1]]
    length, slope = card[3], card[4]
    needed = -(-half * (crown + slope) // added)
    gentle = added * length // half - crown
    words = (f"L {length} mm is shorter than the {needed} mm that v {slope} per mille needs on {of_profile(card)}, "
             f"{TERRAINS[card[1]]} terrain, where the added slope is {added} per mille")
    if gentle >= crown:
        words += f"; with this L, v may be {gentle} per mille at most"
    return words


def step_words(card):
    """9: below 1000 or above 20000. A step of one or two digits was typed in metres."""
    step = card[6]
    if step > MOST_STEP:
        return f"step {step} mm is longer than {MOST_STEP} mm, the longest"
    words = f"step {step} mm is shorter than {LEAST_STEP} mm, the shortest"
    if LEAST_STEP <= 1000 * step <= MOST_STEP:
        words += f"; if {step} metres are meant, write {1000 * step}"
    return words


def unit_words(card):
    """10: not 1 or 10."""
    return f"unit {card[7]} mm is neither 1 nor 10"


def height_words(card):
    """34: outside -100000 to 9000000, or not a whole number of units. A small one may be in metres."""
    height, unit = card[8], card[7]
    if height > MOST_HEIGHT:
        return f"height {height} mm is above {MOST_HEIGHT} mm, the greatest"
    if height < LEAST_HEIGHT:
        return f"height {height} mm is below {LEAST_HEIGHT} mm, the least"
    down = height // unit * unit
    if abs(height) <= MOST_GRADE < abs(card[9]):
        return f"height {height} mm is no whole number of units of {unit} mm; are height and grade exchanged? The height comes first"
    words = f"height {height} mm is no whole number of units: {down} and {down + unit} are, with a unit of {unit} mm"
    if LEAST_HEIGHT <= 1000 * height <= MOST_HEIGHT:
        words += f"; if {height} metres are meant, write {1000 * height}"
    return words


def grade_words(card):
    """35: outside -80 to 80."""
    grade = card[9]
    words = (f"grade {grade} per mille is above {MOST_GRADE} per mille, the greatest" if grade > MOST_GRADE else
             f"grade {grade} per mille is below {-MOST_GRADE} per mille, the least")
    return words + ("; are height and grade exchanged? The height comes first" if abs(card[8]) <= MOST_GRADE else "")


REASONS = {
    1: profile_words, 2: terrain_words, 3: radius_words, 4: clothoid_words, 5: slope_words,
    6: widening_words, 8: added_slope_words, 9: step_words, 10: unit_words, 34: height_words,
    35: grade_words,
}


# ---- the reasons of the Minsk handbook's method ----

def method_words(card):
    """36: a full slope of 20, a radius of 2000, or profile 4 or 5."""
    if card[0] not in WIDTHS:
        return f"{of_profile(card)} is not of the handbook's method, which has category II, III and IV"
    if card[4] == CROWN:
        return f"v {CROWN} per mille is the crown's, and the handbook's method is for full slopes above it"
    return f"R {card[2]} m is the greatest, and the handbook's method is for smaller ones"


def first_stage_words(card):
    """37: a first stage longer than L x R / 2000."""
    stage = first_stage(WIDTHS[card[0]][0])
    return (f"the first stage of {stage} mm on {of_profile(card)} is longer than L x R / 2000, which is {floor(joint(card))} mm here; "
            f"with R {card[2]} m, L must be {ceil(stage * 2000 / card[2])} mm at least")


def widening_place_words(card):
    """38: W above 0 where R is above 500 or L x R / 500 is no whole mm."""
    if card[2] > 500:
        return f"W {card[5]} mm is above 0, but R {card[2]} m is above 500 m, where W must be 0"
    return (f"W {card[5]} mm is above 0, but the place where it is full, L x R / 500, is no whole mm; "
            f"with R {card[2]} m, L must be a whole number of {500 // gcd(card[2], 500)} mm")


def second_stage_words(card):
    """8: h x (v - 20) above added slope x (L - L x R / 2000). The bound is told as a length, and as a slope where one is left."""
    half, added = WIDTHS[card[0]][0], PROFILES[card[0]][5 + card[1]]
    left, slope = card[3] - joint(card), card[4]
    gentle = CROWN + floor(added * left / half)
    words = (f"the {floor(left)} mm from L x R / 2000 to L are shorter than the {ceil(half * (slope - CROWN) / added)} mm that v {slope} per mille "
             f"needs on {of_profile(card)}, {TERRAINS[card[1]]} terrain, where the added slope is {added} per mille")
    return words + (f"; with this R and L, v may be {gentle} per mille at most" if gentle > CROWN else "")


HANDBOOK_REASONS = {**REASONS, 8: second_stage_words, 36: method_words, 37: first_stage_words, 38: widening_place_words}


def card_words(card):
    """An accepted card in words, so that who wrote it sees what it says."""
    unit = "cm" if card[7] == 10 else "mm"
    words = (f"{ROADS[card[0]]}, {TERRAINS[card[1]]} terrain, R {card[2]} m, L {card[3]} mm, v {card[4]} per mille, W {card[5]} mm, "
             f"a row every {card[6]} mm, in {unit}")
    return words + (f", the axis at {card[8]} mm with a grade of {card[9]} per mille" if card[8:] else "")


def refused_words(number, card, reasons=REASONS):
    """What is said of a card that is refused with this number: by the printer, or by the method that has these reasons."""
    said = f"refused with {named(number)}"
    return f"{said}: {reasons[number](card)}" if number in reasons else said
