"""What crates/edges must print, from paper 01, "Numbers", and paper 02 (iv), with exact fractions and no code of the project."""
from fractions import Fraction
from math import floor


def away(x):
    """The nearest whole number, halves away from zero."""
    whole = floor(abs(x) + Fraction(1, 2))
    return whole if x >= 0 else -whole


# The nearest whole number by each edition; `round` takes a fraction's halves to the even neighbour.
NEAREST = {1: away, 2: round}
OTHER_EDITIONS = (0, 3, 2 ** 32 - 1)


def decibels(c):
    return str(c - 174) if 34 <= c <= 254 else "refused 50"


def phase(c):
    return str(away(Fraction(1800 * (c - 144), 11))) if 34 <= c <= 254 else "refused 50"


def accuracy(edition, tenths):
    return str(NEAREST[edition](Fraction(tenths, 10))) if edition in NEAREST else "refused 32"


def exact(bits):
    """The exact value of a binary32, or None if it is infinite or no number."""
    sign, exponent, fraction = bits >> 31, bits >> 23 & 255, bits & 0x7FFFFF
    if exponent == 255:
        return None
    value = Fraction(fraction, 2 ** 23) + (1 if exponent else 0)
    value *= Fraction(2) ** ((exponent or 1) - 127)
    return -value if sign else value


def millimetres(edition, bits):
    if edition not in NEAREST:
        return "refused 32"
    value = exact(bits)
    if value is None:
        return "refused 30"
    if abs(value) > 1000:
        return "refused 31"
    return str(NEAREST[edition](1000 * value))


def line(*fields):
    print("\t".join(str(f) for f in fields))


HALVES = (0x3D800000, 0xBD800000, 0x3E400000, 0xBE400000)
line("rule", "edition", "input", "result")
for edition in NEAREST:
    for bits in HALVES + (0x80000000, 0x447A0000, 0x447A0001, 0x7F800000):
        line("float", edition, f"{bits:08x}", millimetres(edition, bits))
for edition in OTHER_EDITIONS:
    for bits in (0x3D800000, 0x7F800000, 0x447A0001):
        line("float", edition, f"{bits:08x}", millimetres(edition, bits))
line("dB", "-", 90, decibels(90))
for c in (90, 36):
    line("phase", "-", c, phase(c))
for edition in NEAREST:
    for tenths in (0x0005, 0x000F, 0x0019, 0x0023, 0x0205, 0x0200, 0xFFFF):
        line("accuracy", edition, f"{tenths:04x}", accuracy(edition, tenths))
for edition in OTHER_EDITIONS:
    line("accuracy", edition, "0005", accuracy(edition, 5))

line("byte", "dB", "phase")
for c in range(256):
    line(c, decibels(c), phase(c))

FRACTIONS = (0, 1, 0x400000, 0x7A0000, 0x7A0001, 0x7FFFFF)
for edition in NEAREST:
    line("edition", "exponent", *(sign + f"{f:06x}" for sign in ("", "-") for f in FRACTIONS))
    for e in range(256):
        line(edition, e, *(millimetres(edition, sign << 31 | e << 23 | f) for sign in (0, 1) for f in FRACTIONS))
