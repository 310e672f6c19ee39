#!/usr/bin/env python3
"""Makes the files stdin and stdout of the program scalar_cases: cases of the sixteen scalar operators, and their answers.

The answers come from exact rational arithmetic (fractions.Fraction), from document 01, the manual and paper 4 of document
02, and from no code of the project. Run it in this folder. A case is a line of 20 characters: the suboperation number and
the two operands, in hexadecimal; an operator of one operand has 0 for the second.
"""
from fractions import Fraction
from itertools import product as pairs
import random

IDENTITY, NEGATIVE, FLOOR, CEILING, MAGNITUDE, NOT, TEST_NUMBER, CONVERT = range(8)
SUM, DIFFERENCE, PRODUCT, QUOTIENT, AND, OR, LESS, EQUAL = range(8, 16)
LIMIT = 8_388_607


class Trap(Exception):
    pass


# ---- words

def integer(n):
    return n if n >= 0 else 0x8000_0000 | -n


def fields(sign, exponent, fraction):
    return sign << 31 | 1 << 30 | exponent << 22 | fraction


def character(code):
    return 1 << 24 | code


def is_float(w):
    return w >> 30 & 1 == 1


def is_character(w):
    return not is_float(w) and w >> 24 & 63 == 1


def value(w):
    sign = -1 if w >> 31 else 1
    if is_float(w):
        return sign * (1 + Fraction(w & 0x3F_FFFF, 2**22)) * Fraction(2) ** ((w >> 22 & 255) - 128)
    return Fraction(sign * (w & LIMIT))


# ---- results

def nearest(v):
    """The word of the float nearest to v, ties to even."""
    if v == 0:
        return 0
    sign, size = (1, -v) if v < 0 else (0, v)
    if size < Fraction(2) ** -128:
        raise Trap(8, 2)
    power = 0
    while size >= Fraction(2) ** (power + 1):
        power += 1
    while size < Fraction(2) ** power:
        power -= 1
    digits = round(size / Fraction(2) ** (power - 22))  # of a Fraction: to the nearest, a half to the even one
    if digits == 2**23:
        digits, power = 2**22, power + 1
    if power >= 128:
        raise Trap(8, 3)
    return fields(sign, power + 128, digits - 2**22)


def result(v, *operands):
    if any(map(is_float, operands)):
        return nearest(v)
    if abs(v) > LIMIT:
        raise Trap(8, 1)
    return integer(int(v))


# ---- operators

def numbers(*operands):
    if any(map(is_character, operands)):
        raise Trap(7, 0)


def logical(*operands):
    numbers(*operands)
    if any(value(w) not in (0, 1) for w in operands):
        raise Trap(8, 5)
    return [int(value(w)) for w in operands]


def whole(v, up):
    n = -(-v.numerator // v.denominator) if up else v.numerator // v.denominator
    return integer(n) if abs(n) <= LIMIT else nearest(Fraction(n))


def monadic(op, a):
    if op == TEST_NUMBER:
        return 0 if is_character(a) else 1
    if op == CONVERT:
        if is_character(a):
            return integer(a & 255)
        if value(a).denominator != 1 or not 0 <= value(a) <= 255:
            raise Trap(8, 5)
        return character(int(value(a)))
    numbers(a)
    if op == IDENTITY:
        return a
    if op == NEGATIVE:
        return a ^ 0x8000_0000 if value(a) else 0
    if op == MAGNITUDE:
        return a & 0x7FFF_FFFF
    if op == NOT:
        return 1 - logical(a)[0]
    return whole(value(a), op == CEILING)


def dyadic(op, a, b):
    if op == EQUAL and (is_character(a) or is_character(b)):
        return 1 if is_character(a) and is_character(b) and a & 255 == b & 255 else 0
    if op in (AND, OR):
        p, q = logical(a, b)
        return p & q if op == AND else p | q
    numbers(a, b)
    v, w = value(a), value(b)
    if op == SUM:
        return result(v + w, a, b)
    if op == PRODUCT:
        return result(v * w, a, b)
    if op == QUOTIENT:
        if w == 0:
            raise Trap(8, 4)
        return nearest(v / w)
    if op == LESS:
        return 1 if v < w else 0
    if op == EQUAL:
        return 1 if v == w else 0
    return result(v - w, a, b)


def answer(op, a, b):
    try:
        return "word %08x" % (monadic(op, a) if op < 8 else dyadic(op, a, b))
    except Trap as trap:
        return "trap %d,%d" % trap.args


# ---- cases

def number(v):
    return nearest(Fraction(v))


half, one, three = number(Fraction(1, 2)), number(1), number(3)
least, greatest = fields(0, 0, 0), fields(0, 255, 2**22 - 1)
cases = []


def add(ops, *operands):
    for op in ops:
        cases.append((op, *operands, 0)[:3])


# characters, zero, one, small and large numbers: every operator
some = [0, 1, integer(-1), 2, 255, 256, LIMIT, integer(-LIMIT), half, one, number(-1), three, number(-3), number(255),
        number(256), number(Fraction(131, 2)), least, greatest, character(0), character(65), character(255)]
for a in some:
    add(range(8), a)
for a, b in pairs([0, 1, integer(-2), half, one, character(65)], repeat=2):
    add(range(8, 16), a, b)

# whole numbers: halves up to 2^22, and floats from 2^22 on
for n in [1, 2, 2**20, 2**22 - 1]:
    for v in (n - Fraction(1, 2), n + Fraction(1, 2), n - Fraction(1, 4)):
        for sign in (1, -1):
            add([FLOOR, CEILING], number(sign * v))
for v in [2**22, 2**23 - 1, 2**23, 2**23 + 2, 2**40, Fraction(1, 2**30), Fraction(1, 2**100)]:
    for sign in (1, -1):
        add([FLOOR, CEILING], number(sign * v))

# integer limits
for n, m in [(LIMIT, 1), (LIMIT, 0), (LIMIT, -1), (LIMIT, LIMIT), (LIMIT - 1, 1), (4194304, 4194304), (4194304, 4194303),
             (2897, 2896), (2897, 2895), (-2896, 2897), (0, -LIMIT), (5, 5), (-5, 5)]:
    add([SUM, DIFFERENCE, PRODUCT, QUOTIENT, LESS, EQUAL], integer(n), integer(m))
    add([SUM, DIFFERENCE], integer(m), integer(n))

# comparisons of numbers in rising order: credits and debits far apart, neighbours, integers beside floats
rising = [greatest ^ 0x8000_0000, number(-LIMIT - 1), integer(-LIMIT), number(-LIMIT), integer(-1), number(-1), fields(1, 0, 1),
          least ^ 0x8000_0000, 0, least, fields(0, 0, 1), one, 1, fields(0, 128, 1), integer(LIMIT), number(LIMIT + 1), greatest]
for a, b in pairs(rising, repeat=2):
    add([LESS, EQUAL], a, b)
for a, b in pairs([greatest, greatest ^ 0x8000_0000, least, LIMIT], [character(0), character(255)]):
    add([LESS, EQUAL], a, b)
    add([LESS, EQUAL], b, a)

# around a tie: an odd and an even number of units, and a half of one, less, exactly and more, near and far below
for digits in (2**22, 2**22 + 1, 2**23 - 1, 2**23 - 2):
    base = fields(0, 150, digits - 2**22)
    for part in (Fraction(1, 2), Fraction(1, 2) - Fraction(1, 2**20), Fraction(1, 2) + Fraction(1, 2**20), Fraction(1, 4), Fraction(3, 4)):
        add([SUM, DIFFERENCE], base, number(part))
    for shift in (23, 24, 37, 38, 39, 40, 100):
        add([SUM, DIFFERENCE], base, fields(0, 150 - shift, 1))
        add([DIFFERENCE], fields(1, 150 - shift, 0), base)

# cancellation and near numbers
for e in (0, 1, 21, 22, 23, 128, 255):
    a = fields(0, e, 5)
    for f in (fields(0, e, 4), fields(0, e, 5), fields(0, e, 6), fields(0, max(e - 1, 0), 2**22 - 1)):
        add([DIFFERENCE, LESS, EQUAL], a, f)
        add([SUM], a, f ^ 0x8000_0000)

# extreme exponents: underflow is judged before rounding, overflow after
ends = [least, fields(0, 64, 0), fields(0, 63, 2**22 - 1), fields(0, 192, 0), fields(0, 191, 2**22 - 1), greatest, three]
for a, b in pairs(ends, repeat=2):
    add([PRODUCT, QUOTIENT], a, b)
add([PRODUCT], fields(0, 127, 2**22 - 1), least)
add([QUOTIENT], least, fields(0, 128, 1))
add([SUM], greatest, fields(0, 232, 0))
add([SUM], greatest, fields(0, 231, 2**22 - 1))
add([SUM], greatest, fields(0, 230, 0))

# more of everything
random.seed(1973)
for _ in range(15):
    a = fields(random.getrandbits(1), random.randrange(100, 160), random.getrandbits(22))
    b = fields(random.getrandbits(1), random.randrange(100, 160), random.getrandbits(22))
    n = integer(random.randint(-LIMIT, LIMIT))
    add([SUM, DIFFERENCE, PRODUCT, QUOTIENT, LESS], a, b)
    add([SUM, PRODUCT, QUOTIENT, EQUAL], n, b)
    add([DIFFERENCE, LESS], a, n)

cases = list(dict.fromkeys(cases))
lines = ["%02x %08x %08x" % case for case in cases]
with open("stdin", "w") as out:
    out.writelines(line + "\n" for line in lines)
with open("stdout", "w") as out:
    out.writelines("%s %s\n" % (line, answer(*case)) for line, case in zip(lines, cases))
