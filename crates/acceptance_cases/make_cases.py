#!/usr/bin/env python3
"""Writes stdin and stdout of this crate: one good data segment with its procedure segments, segments damaged in one named
way each and in two ways, and the answers of a model of document 01's table that is written here and nowhere else.

A line of stdin has 64 characters. "s IIII WWWWWWWW" writes a word of the data segment, "r" and "a" one of the regular and the
alternate procedure segment, in hexadecimal; "j NNNN RRRRAAAA name" judges the first N words with R and A bytes. After a case the
words that it damaged are written back.
"""
import os, struct

# ---- the model: the table of document 01, from 10 to 18


def high(w):
    return w >> 16


def low(w):
    return w & 0xFFFF


def kind(w):
    """scalar, array, local, global, undefined or None"""
    if w >> 30 & 1:
        return "scalar"
    sign, number, rest = w >> 31, w >> 24 & 0x3F, w & 0xFFFFFF
    if number == 0:
        return "scalar" if rest <= 8388607 and w != 0x80000000 else None
    if sign:
        return None
    if number == 1:
        return "scalar" if rest < 0x100 else None
    if number == 2:
        return "array" if rest < 0x10000 else None
    if number == 3:
        return "local" if rest < 0x10000 else "global" if rest < 0x20000 else None
    return "undefined" if number == 4 and rest == 0 else None


def procedure(p):
    """The headers by number as (arguments, locals), or None where test 12 fails."""
    zero, n = high(p[0]), low(p[0])
    if zero or not 1 <= n <= 2048 or n > len(p):
        return None
    found = {}
    for k in range(1, n):
        start, length = high(p[k]), low(p[k])
        if start < n or start + length > len(p) or length < 2:
            return None
        first, second = p[start], p[start + 1]
        nargs, nlines, nlocals, ncode = first >> 16 & 0xFF, low(first), high(second), low(second)
        if first >> 24 & 0x1F or nargs > 15 or nargs + nlocals > 4096:
            return None
        if first >> 29 & 1 and nlocals < 1:
            return None
        if length != 2 + ncode + (nlines + 1) // 2:
            return None
        found[k] = (nargs, nlocals)
    return found


def head(s):
    sbase, ltop, blockptr = high(s[0]), low(s[0]), s[4]
    return (
        s[2] < 16 and s[3] < 65536 and s[5] == s[6] == s[7] == 0 and blockptr >= 8 and sbase >= blockptr + 3 and sbase + ltop < len(s)
    )


def blocks(s):
    """The starts of arrays and of free blocks, or None where test 14 fails."""
    arrays, frees = [], []
    a, end, before = s[4], high(s[0]) - 3, False
    while a != end:
        if a > end:
            return None
        w = s[a]
        if w >> 31:
            size = w - 0x80000000
            if before or size < 3 or a + size > end or s[a + size - 1] != size:
                return None
            frees.append(a)
            a, before = a + size, True
            continue
        size, slop = low(w), w >> 16 & 3
        if w >> 18 != (0x1000 if before else 0) or slop == 3 or size < 3 or a + size + slop > end:
            return None
        if s[a + 1] & 0xFFF0 or not s[a + 1] & 15:
            return None
        rank = s[a + 1] & 15
        lengths = s[a + 2 : a + 2 + rank]
        count = 1
        for n in lengths:
            if n > 8388607:
                return None
            count *= n
        if size != 2 + rank + count:
            return None
        if any(kind(w) != "scalar" for w in s[a + 2 + rank : a + size]):
            return None
        arrays.append(a)
        a, before = a + size + slop, False
    if s[end] != (0x40000000 if before else 0) or s[end + 2] != 0:
        return None
    return arrays, frees


def ring(s, frees):
    dummy = high(s[0]) - 3
    members, at = [], dummy
    for _ in range(len(frees) + 1):
        members.append(at)
        following = high(s[at + 1])
        if following not in frees + [dummy] or low(s[following + 1]) != at:
            return False
        at = following
    return at == dummy and sorted(members) == sorted(frees + [dummy]) and low(s[1]) in members


def frames(s, functions):
    """(LBASE, start, arguments) from the current frame down, or None where test 16 fails."""
    sbase, ltop, base = high(s[0]), low(s[0]), high(s[1])
    if ltop < base + 1:
        return None
    found = []
    while True:
        last, code = s[sbase + base], s[sbase + base + 1]
        function = functions[code >> 27 & 1].get(code >> 16 & 0x7FF)
        if code >> 28 or function is None:
            return None
        start = base - sum(function)
        if last == base:
            if start != 0:
                return None
            return found + [(base, start, function[0])]
        if last > base or start < last + 2:
            return None
        found.append((base, start, function[0]))
        base = last


def cells(s, arrays, chain):
    sbase, blockptr = high(s[0]), s[4]

    def direct(w):
        return kind(w) in ("scalar", "undefined") or kind(w) == "array" and low(w) in arrays

    def indirect(w, variables):
        if kind(w) == "global":
            return 8 <= low(w) < blockptr and kind(s[low(w)]) not in ("local", "global")
        if kind(w) == "local":
            return low(w) in variables and kind(s[sbase + low(w)]) not in ("local", "global")
        return False

    if not all(direct(w) for w in s[8:blockptr]):
        return False
    top = low(s[0]) + 1
    for i, (base, start, nargs) in enumerate(chain):
        older = {v for b, st, _ in chain[i + 1 :] for v in range(st, b)}
        own = older | set(range(start, base))
        if not all(direct(s[sbase + v]) or indirect(s[sbase + v], own) for v in range(base + 2, top)):
            return False
        if not all(direct(s[sbase + v]) or indirect(s[sbase + v], older) for v in range(start, start + nargs)):
            return False
        if not all(direct(s[sbase + v]) for v in range(start + nargs, base)):
            return False
        top = start
    return True


def counts(s, arrays, chain):
    sbase, ltop = high(s[0]), low(s[0])
    words = {b + k for b, _, _ in chain for k in (0, 1)}
    all_cells = s[8 : s[4]] + [s[sbase + i] for i in range(ltop + 1) if i not in words]
    return all(high(s[a + 1]) == sum(w == 0x02000000 + a for w in all_cells) != 0 for a in arrays)


def refusal(s, regular, alternate):
    if not 32 <= len(s) <= 16384:
        return 10
    if any(not 4 <= len(p) <= 32768 or len(p) % 4 for p in (regular, alternate)):
        return 11
    functions = [procedure([w for (w,) in struct.iter_unpack(">I", bytes(p))]) for p in (regular, alternate)]
    if None in functions:
        return 12
    if not head(s):
        return 13
    found = blocks(s)
    if found is None:
        return 14
    arrays, frees = found
    if not ring(s, frees):
        return 15
    chain = frames(s, functions)
    if chain is None:
        return 16
    if not cells(s, arrays, chain):
        return 17
    return 0 if counts(s, arrays, chain) else 18


# ---- the good segment

UNDEFINED, ARRAY, LOCAL, GLOBAL, FREE, PREVFREE = 0x04000000, 0x02000000, 0x03000000, 0x03010000, 0x80000000, 0x40000000
ONE, LETTER = 0x60000000, 0x01000041

regular = [0] * 24
alternate = [0] * 16
# function 1 has 2 locals, 2 has 2 arguments and 1 local and a result, 3 has an argument; one line entry in 2
regular[0:4] = [4, 0x00040003, 0x00080005, 0x00100003]
regular[4:7] = [0x00000000, 0x00020001, 0]
regular[8:13] = [0x20020001, 0x00010002, 0, 0, 0x00080000]
regular[16:19] = [0x00010000, 0x00000001, 0]
alternate[0:2] = [2, 0x00040003]
alternate[4:7] = [0x00010000, 0x00020001, 0]

A1, F1, A2, F2, A3, A4, DUMMY = 16, 22, 26, 35, 40, 43, 51
SBASE = DUMMY + 3
data = [0] * 96
data[2:5] = [5, 0x0305, 16]
data[8:16] = [7, 0x80000007, ONE, LETTER, UNDEFINED, ARRAY + A1, ARRAY + A2, ARRAY + A3]
data[A1 : A1 + 6] = [6, 0x00010001, 3, 1, 2, 3]
data[F1 : F1 + 4] = [FREE + 4, F2 << 16 | DUMMY, 99, 4]
data[A2 : A2 + 9] = [PREVFREE | 1 << 16 | 8, 0x00020002, 2, 2, ONE, 5, LETTER, 0, 0xFFFFFFFF]
data[F2 : F2 + 5] = [FREE + 5, DUMMY << 16 | F1, 0, 0, 5]
data[A3 : A3 + 3] = [PREVFREE | 3, 0x00010001, 0]
data[A4 : A4 + 8] = [2 << 16 | 6, 0x00010003, 1, 1, 1, LETTER, 0, 0]
data[DUMMY : DUMMY + 3] = [0, F1 << 16 | F2, 0]
# the bottom frame: 2 locals, its words at 2 and 3, temporaries 4 and 5
B1, B2, B3 = 2, 9, 16
data[SBASE : SBASE + 6] = [11, ARRAY + A2, B1, 0x00010008, LOCAL + 0, 12]
# function 2: arguments 6 and 7, local 8; temporaries 11 and 12
data[SBASE + 6 : SBASE + 13] = [LOCAL + 0, GLOBAL + 10, UNDEFINED, B1, 0x0002000C, LOCAL + 8, GLOBAL + 8]
# function 1 of the alternate segment: argument 13, locals 14 and 15; temporaries 18 to 21
data[SBASE + 13 : SBASE + 22] = [LOCAL + 8, 14, ONE, B2, 0x08010008, LOCAL + 14, LOCAL + 1, ARRAY + A4, GLOBAL + 15]
LTOP = 21
data[0] = SBASE << 16 | LTOP
data[1] = B3 << 16 | F1

G, S = 8, SBASE

# ---- the damage, a name each: s, r and a are edits, n, rn and an lengths

cases = [("the good segment", {})]


def case(name, s={}, r={}, a={}, n=len(data), rn=4 * len(regular), an=4 * len(alternate)):
    cases.append((name, dict(s=s, r=r, a=a, n=n, rn=rn, an=an)))


# 10
case("31 words", n=31)
case("no word", n=0)
case("16,385 words", n=16385)
case("16,384 words", n=16384)
case("1,024 words", n=1024)
case("1,025 words", n=1025)
case("4,096 words", n=4096)
case("4,097 words", n=4097)
# 11
case("regular of 0 bytes", rn=0)
case("regular of 3 bytes", rn=3)
case("regular not whole words", rn=94)
case("regular of 32,772 bytes", rn=32772)
case("alternate of 0 bytes", an=0)
case("alternate not whole words", an=62)
case("alternate of 32,772 bytes", an=32772)
case("both of 32,768 bytes", rn=32768, an=32768)
# 12
case("entry 0 with a high half", r={0: 0x00010004})
case("no entries", r={0: 0})
case("2,049 entries", r={0: 2049}, rn=32768)
case("directory past the end", r={0: 25})
case("function inside the directory", r={1: 0x00030003})
case("function past the end", r={3: 0x00160003})
case("function of length 1", r={1: 0x00040001})
case("function's length too long", r={1: 0x00040004})
case("function's length too short", r={2: 0x00080004})
case("line entries not rounded up", r={8: 0x20020003})
case("an unnamed header bit", r={4: 0x01000000})
case("the highest unnamed header bit", r={4: 0x10000000})
case("16 arguments", r={8: 0x20100001})
case("a result and no local", r={9: 0x00000002})
case("4,097 variables", r={5: 0x10010001})
case("alternate: entry 0 with a high half", a={0: 0x00010002})
case("alternate: an unnamed header bit", a={4: 0x04010000})
case("alternate: function past the end", a={1: 0x000E0003})
# 13
case("a flag bit without a name", s={2: 0x10})
case("the highest flag bit", s={2: 0x80000005})
case("a trap class above 255", s={3: 0x00010305})
case("word 5 set", s={5: 1})
case("word 6 set", s={6: 1})
case("word 7 set", s={7: 0x80000000})
case("BLOCKPTR 7", s={4: 7})
case("BLOCKPTR past SBASE", s={4: SBASE})
case("two array words", s={4: SBASE - 2})
case("BLOCKPTR above 65,535", s={4: 0x00010010})
case("SBASE past the end", s={0: 97 << 16 | LTOP})
case("SBASE + LTOP at the end", s={0: SBASE << 16 | len(data) - SBASE})
case("SBASE 0", s={0: LTOP})
case("all flags and a trap", s={2: 15, 3: 0xFFFF})
# 14
case("a free block of 2", s={F1: FREE + 2, F1 + 1: 2})
case("a free block's last word", s={F1 + 3: 5})
case("PREVFREE in a free block", s={F1: FREE + PREVFREE + 4})
case("a stray bit in a free block", s={F1: FREE + 0x10000 + 4})
case("a free block past the dummy", s={F2: FREE + 17, F2 + 16: 17})
case("two free neighbours", s={A3: FREE + 3, A3 + 1: 0, A3 + 2: 3})
case("slop of 3", s={A4: 3 << 16 | 5})
case("a stray bit 18 in an array", s={A1: 0x00040006})
case("a stray bit 29 in an array", s={A1: 0x20000006})
case("PREVFREE in the first block", s={A1: PREVFREE + 6})
case("PREVFREE set after an array", s={A4: PREVFREE | 2 << 16 | 6})
case("PREVFREE clear after a free block", s={A3: 3})
case("SIZE 2 of an array", s={A3: PREVFREE | 2})
case("SIZE 0 of an array", s={A1: 0})
case("an array past the dummy", s={A4: 2 << 16 | 7, A4 + 2: 2})
case("the walk steps over the dummy", s={A4: 7})
case("the dummy with SIZE", s={DUMMY: 3})
case("the dummy with bit 31", s={DUMMY: FREE})
case("the dummy with PREVFREE", s={DUMMY: PREVFREE})
case("the dummy's last word", s={DUMMY + 2: 3})
case("rank 0", s={A3 + 1: 0x00010000})
case("rank 16", s={A1 + 1: 0x00010010})
case("a stray bit 4 beside the rank", s={A1 + 1: 0x00010011})
case("a stray bit 15 beside the rank", s={A1 + 1: 0x00018001})
case("rank above SIZE", s={A3 + 1: 0x0001000F})
case("a length too great for SIZE", s={A1 + 2: 4})
case("a length too small for SIZE", s={A1 + 2: 2})
case("a length that is no length", s={A3 + 2: 0x00800000})
case("a negative length", s={A1 + 2: 0x80000003})
case("a length that is a character", s={A1 + 2: 0x01000003})
case("a product past 32 bits", s={A2 + 2: 0x00400000, A2 + 3: 0x00400000})
case("a product that is right in 32 bits only", s={A2 + 2: 3303821, A2 + 3: 1300})
case("a product past 64 bits", s={A4 + 2: 0x007FFFFF, A4 + 3: 0x007FFFFF, A4 + 4: 0x007FFFFF})
case("no lengths, but elements", s={A1 + 2: 0})
case("an element undefined", s={A1 + 3: UNDEFINED})
case("an element that is an array", s={A1 + 4: ARRAY + A1})
case("an element that is indirect", s={A1 + 5: GLOBAL + 8})
case("an element minus zero", s={A2 + 4: 0x80000000})
case("an element that is no character", s={A2 + 6: 0x01000100})
case("an element with bit 23", s={A2 + 5: 0x00800000})
case("an element of type 5", s={A2 + 7: 0x05000000})
case("an element that is any float", s={A2 + 4: 0xFFFFFFFF})
case("slop that is no word", s={A2 + 8: 0x05000000})
# 15
case("NEXT to the dummy too early", s={F1 + 1: DUMMY << 16 | DUMMY})
case("NEXT to itself", s={F1 + 1: F1 << 16 | DUMMY})
case("NEXT to an array", s={F1 + 1: A2 << 16 | DUMMY})
case("NEXT past the end", s={F1 + 1: 0xFFFF0000 | DUMMY})
case("NEXT 0", s={F2 + 1: F1})
case("LAST of a free block", s={F2 + 1: DUMMY << 16 | DUMMY})
case("LAST of the first free block", s={F1 + 1: F2 << 16 | F2})
case("LAST of the dummy", s={DUMMY + 1: F1 << 16 | F1})
case("a ring without one free block", s={F1 + 1: DUMMY << 16 | DUMMY, DUMMY + 1: F1 << 16 | F1})
case("the dummy alone", s={DUMMY + 1: DUMMY << 16 | DUMMY})
case("two rings", s={DUMMY + 1: DUMMY << 16 | DUMMY, F1 + 1: F2 << 16 | F2, F2 + 1: F1 << 16 | F1})
case("ROVER on an array", s={1: B3 << 16 | A1})
case("ROVER 0", s={1: B3 << 16})
case("ROVER inside a free block", s={1: B3 << 16 | F1 + 1})
case("ROVER past the end", s={1: B3 << 16 | 0xFFFF})
case("ROVER on the dummy", s={1: B3 << 16 | DUMMY})
case("ROVER on the other free block", s={1: B3 << 16 | F2})
case("the ring the other way", s={DUMMY + 1: F2 << 16 | F1, F2 + 1: F1 << 16 | DUMMY, F1 + 1: DUMMY << 16 | F2})
# 16
case("LTOP at LBASE", s={0: SBASE << 16 | B3})
case("LTOP below LBASE", s={0: SBASE << 16 | B1})
case("LTOP at LBASE + 1", s={0: SBASE << 16 | B3 + 1, A4 + 1: 0x00010003, G + 4: ARRAY + A4})
case("LBASE past the stack", s={1: 0xFFFF0000 | F1})
case("LBASE on a cell", s={1: B3 - 1 << 16 | F1})
case("last LBASE above", s={S + B3: B3 + 1})
case("last LBASE with a high bit", s={S + B3: 0x00010000 | B2})
case("last LBASE that names itself", s={S + B3: B3})
case("last LBASE on a cell", s={S + B3: B2 - 1})
case("a frame over the older one's words", s={S + B3: B2 + 3})
case("the bottom frame does not name itself", s={S + B1: 0})
case("the bottom frame starts above 0", s={S + B1 + 1: 0x00030008})
case("the bottom frame starts below 0", s={S + B1 + 1: 0x00020008})
case("function 0", s={S + B2 + 1: 0x0000000C})
case("a function past its directory", s={S + B2 + 1: 0x0004000C})
case("a function of the other segment", s={S + B3 + 1: 0x08020008})
case("bit 28 of a frame", s={S + B3 + 1: 0x18010008})
case("bit 31 of a frame", s={S + B3 + 1: 0x88010008})
case("PCTR outside the code", s={S + B3 + 1: 0x0801FFFF})
case("a frame with fewer variables", s={S + B2 + 1: 0x0003000C})
# 17
case("a global that is minus zero", s={G: 0x80000000})
case("a global that is no descriptor", s={G: 0x05000000})
case("a global that is an almost undefined word", s={G: 0x04000001})
case("a global with bit 23", s={G: 0x00800000})
case("a global that is no character", s={G: 0x01000100})
case("a global that is indirect", s={G: GLOBAL + 9})
case("an array word with a stray bit", s={G: 0x02010000 | A1})
case("an array word with the sign", s={G: 0x82000000 | A1})
case("an array word to a free block", s={G: ARRAY + F1})
case("an array word to the dummy", s={G: ARRAY + DUMMY})
case("an array word inside an array", s={G: ARRAY + A1 + 1})
case("an array word to 0", s={G: ARRAY})
case("an array word past the end", s={G: ARRAY + 0xFFFF})
case("an indirect word in a local", s={S + 8: GLOBAL + 8})
case("an indirect word in the bottom frame", s={S: GLOBAL + 8})
case("an indirect word in the highest local", s={S + 15: LOCAL + 1})
case("an argument that names its own frame", s={S + 13: LOCAL + 14})
case("an argument that names itself", s={S + 13: LOCAL + 13})
case("an argument that names a temporary", s={S + 13: LOCAL + 5})
case("an argument that names a frame word", s={S + 13: LOCAL + B1})
case("an argument that names a newer frame", s={S + 6: LOCAL + 14})
case("an argument that names an indirect argument", s={S + 13: LOCAL + 6})
case("an argument with a stray bit", s={S + 13: 0x03020008})
case("a temporary that names an indirect argument", s={S + 18: LOCAL + 13})
case("a temporary that names a temporary", s={S + 18: LOCAL + 19})
case("a temporary that names a frame word", s={S + 18: LOCAL + B2 + 1})
case("a temporary past the stack", s={S + 18: LOCAL + 0xFFFF})
case("an older frame's temporary names a newer frame", s={S + 11: LOCAL + 14})
case("an indirect word to global 7", s={S + 18: GLOBAL + 7})
case("an indirect word to BLOCKPTR", s={S + 18: GLOBAL + 16})
case("an indirect word to an array's global", s={S + 18: GLOBAL + 13})
case("an indirect word with the sign", s={S + 18: 0x83000000 | 14})
case("a temporary that is no descriptor", s={S + 18: 0x3F000000})
case("a temporary undefined", s={S + 18: UNDEFINED})
case("an argument undefined", s={S + 13: UNDEFINED})
case("words above LTOP are no cells", s={S + 22: 0x05000000})
# 18
case("a count one too high", s={A1 + 1: 0x00020001})
case("a count one too low", s={A2 + 1: 0x00010002})
case("a count of zero", s={A3 + 1: 0x00000001})
case("the greatest count", s={A4 + 1: 0xFFFF0003})
case("an array that no cell points to", s={G + 7: UNDEFINED})
case("no cell points to an array of count zero", s={G + 7: UNDEFINED, A3 + 1: 0x00000001})
case("one more cell that points", s={S + 18: ARRAY + A1})
case("one more cell that points, counted", s={S + 18: ARRAY + A1, A1 + 1: 0x00020001})
case("an older frame's temporary points", s={S + 5: ARRAY + A1})
case("an older frame's temporary points, counted", s={S + 5: ARRAY + A1, A1 + 1: 0x00020001})
case("a word above LTOP is not counted", s={S + 22: ARRAY + A1})
case("one cell fewer", s={S + 1: UNDEFINED})
# the earlier test answers
case("31 words and a directory", n=31, r={0: 0})
case("lengths before contents", r={0: 0}, an=62)
case("alternate's contents before words 0-7", a={0: 0x00010002}, s={2: 16})
case("words 0-7 before blocks", s={5: 1, A3 + 1: 0x00010000})
case("blocks before ring", s={A1 + 3: UNDEFINED, 1: B3 << 16})
case("ring before frames", s={1: B3 - 1 << 16})
case("frames before cells", s={S + B2 + 1: 0x0000000C, G: 0x05000000})
case("frames before counts", s={S + B1: 0, A1 + 1: 0x00020001})
case("cells before counts", s={S + 8: GLOBAL + 8, A1 + 1: 0x00020001})
case("blocks before counts", s={DUMMY + 2: 1, A1 + 1: 0x00020001})


def line(text):
    assert len(text) < 64, text
    return text.ljust(63) + "\n"


def writes(letter, edits):
    return "".join(line(f"{letter} {i:04x} {w:08x}") for i, w in edits.items())


def back(base, edits):
    return {i: (base + [0] * 16400)[i] for i in edits}


def judged(name, s, r, a, n, rn, an):
    words = (data + [0] * 16400)[:n]
    for i, w in s.items():
        if i < n:
            words[i] = w
    parts = []
    for base, edits, length in ((regular, r, rn), (alternate, a, an)):
        p = base + [0] * 8200
        for i, w in edits.items():
            p[i] = w
        parts.append(b"".join(struct.pack(">I", w) for w in p)[:length])
    return refusal(words, *parts)


stdin = writes("s", dict(enumerate(data))) + writes("r", dict(enumerate(regular))) + writes("a", dict(enumerate(alternate)))
stdout, seen = "", {}
for name, how in cases:
    how = {**dict(s={}, r={}, a={}, n=len(data), rn=4 * len(regular), an=4 * len(alternate)), **how}
    answer = judged(name, **how)
    seen.setdefault(answer, []).append(name)
    damage = list(zip("sra", (data, regular, alternate), (how["s"], how["r"], how["a"])))
    stdin += "".join(writes(letter, edits) for letter, _, edits in damage)
    stdin += line(f"j {how['n']:04x} {how['rn']:04x}{how['an']:04x} {name}")
    stdin += "".join(writes(letter, back(base, edits)) for letter, base, edits in damage)
    stdout += f"{answer} {name}".ljust(len(str(answer)) + 48) + "\n"
here = os.path.dirname(os.path.abspath(__file__))
for name, text in (("stdin", stdin), ("stdout", stdout)):
    with open(os.path.join(here, name), "w") as file:
        file.write(text)
print(", ".join(f"{n}: {len(seen[n])}" for n in sorted(seen)))
