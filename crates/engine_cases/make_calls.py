#!/usr/bin/env python3
"""Writes the file stdin of the program engine_cases: calls of lay out, run, load and look.

FORM, below, says what the lines mean. Every answer that is written here comes from the documents and the manual, by hand; only
the calls of the mixed list at the end have none. If there is a file stdout, the script says where it differs from these
answers, where a refused call changed a word, and where a run in parts or under another table of operators leaves other words
than the whole run.
"""
import math
import os

FORM = """Calls of the four operations, written by make_calls.py. Numbers are hexadecimal, but in remarks.
n W R A            W data words, R bytes of the regular and A of the alternate procedure segment are lent from now on
s I V V ..         data words from I on become these; r, a: words of the regular, of the alternate procedure segment
L P F G A          lay out: function F of procedure segment P, G globals, A array words
R B                run, with budget B
T B C C ..         run, with budget B, under a table of operators that has these bytes
V G K L .. E ..    load global G with an array of rank K, its lengths and its elements; rank 0 is a scalar
K G                look at global G
w I I ..           no call: words of the data segment
An answer is the status; of a run the steps and the trap, of a look the scalar, or lengths | elements. A hash of the lent data
words ends it, so that a wrong word shows. In listings of code 5 is a SHORTCONST, word 5 a CONSTANT_SCALAR; G8 loads global 8 and
L-1 local -1; to G8 is an ASSIGN_NORESULT."""

lines = []       # of stdin
expected = []    # for each line of stdout the line that it answers and the answer, or None where none is written here
alike = []       # pairs of lines of stdout after which the words must be the same
lent = [0, 0, 0]
MANUAL = list(range(16))
numbering = list(MANUAL)    # the table of operators that code is written by


# ---- words

def i(n):
    """An integer's word."""
    return n if n >= 0 else 0x8000_0000 | -n


def f(x):
    """The word of a float that is exact in 22 bits of fraction."""
    part, power = math.frexp(abs(x))
    fraction = (2 * part - 1) * 2**22
    assert fraction == int(fraction)
    return (x < 0) << 31 | 1 << 30 | (power + 127) << 22 | int(fraction)


def c(letter):
    """A character's word."""
    return 0x0100_0000 | ord(letter)


UNDEFINED_WORD, ARRAY, INDIRECT_GLOBAL = 0x0400_0000, 0x0200_0000, 0x0301_0000


# ---- instructions: the manual's name, and the bytes, which may depend on their place and on labels

class Op:
    def __init__(self, name, code):
        self.name, self.code = name, code


def op(name, *code):
    return Op(name, lambda at, labels: bytes(code))


def operator(name, place):
    """One of the sixteen, by its place in the manual's table."""
    return Op(name, lambda at, labels: bytes([0x60 + numbering.index(place)]))


def half(name, first, number):
    return op(name, first | number >> 8, number & 0xFF)


def const(n):
    return half(str(n), 0x40, abs(n) | (n < 0) << 12)


def L(v):
    return op(f"L-{v}", 64 - v)


def long_L(v):
    return half(f"long L-{v}", 0xC0, 4096 - v)


def G(g):
    return half(f"G{g}", 0xD0, g)


def memref(name, suboperation, variable):
    address = variable.code(0, {})
    return op(f"{name} {variable.name}", 0x80 | suboperation, *address)


def put(rank, variable):
    return memref(f"ASSIGN_INDEXED({rank})", rank, variable)


def assign(variable):
    return memref("ASSIGN", 16, variable)


def store(variable):
    return memref("to", 17, variable)


def refer(variable):
    return memref("REFERENCE", 18, variable)


def defined(variable):
    return memref("TEST_DEFINED", 19, variable)


SCALARS = """IDENTITY NEGATIVE FLOOR CEILING MAGNITUDE NOT TEST_NUMBER CONVERT
SUM DIFFERENCE PRODUCT QUOTIENT LOGICAL_PRODUCT LOGICAL_SUM LESS EQUAL""".split()
(IDENTITY, NEGATIVE, FLOOR, CEILING, MAGNITUDE, NOT, TEST_NUMBER, CONVERT,
 SUM, DIFFERENCE, PRODUCT, QUOTIENT, AND, OR, LESS, EQUAL) = (operator(name, k) for k, name in enumerate(SCALARS))
UNDEFINED, EAT1, INTERCHANGE, SETORIGIN, GETORIGIN, SHAPE, RESHAPE, RAVEL, CATENATE, INDEXGEN = (
    op(name, 0xA0 + k) for k, name in enumerate(
        "UNDEFINED EAT1 INTERCHANGE SETORIGIN GETORIGIN SHAPE RESHAPE RAVEL CATENATE INDEXGEN".split()))
BRANCH, RETURN = op("BRANCH", 0xAC), op("RETURN", 0xB0)
NO_OPERATION, BREAKPOINT, ATTENTION = op("NO_OPERATION", 0xB2), op("BREAKPOINT", 0xB3), op("ATTENTION", 0xB4)


def lit(word):
    return op(f"word {word:x}", 0xAA, *word.to_bytes(4, "big"))


def vector(*words):
    """CONSTANT_VECTOR: its words start at a word boundary."""
    def code(at, labels):
        return bytes([0xAB, len(words)]) + bytes(-(at + 2) % 4) + b"".join(w.to_bytes(4, "big") for w in words)
    return Op("CONSTANT_VECTOR " + " ".join(f"{w:x}" for w in words), code)


def jump(name, first, to):
    return Op(f"{name} {to}", lambda at, labels: bytes([first]) + labels.get(to, to if type(to) is int else 0).to_bytes(2, "big"))


def go(to):
    return jump("GO", 0xAD, to)


def go_true(to):
    return jump("GO_TRUE", 0xAE, to)


def go_false(to):
    return jump("GO_FALSE", 0xAF, to)


def call(nargs, function, alternate=0):
    number = nargs << 12 | alternate << 11 | function
    return op(f"CALL {'alternate ' * alternate}{function} of {nargs}", 0xB1, number >> 8, number & 0xFF)


def index(rank):
    return op(f"INDEX({rank})", 0xE0 | rank)


def label(name):
    return Op(f"{name}:", lambda at, labels: b"")


def raw(*code):
    return op("bytes " + bytes(code).hex(), *code)


# ---- functions

CALLTRACE, RTNTRACE, RESULT = 0x8000_0000, 0x4000_0000, 0x2000_0000


class Function:
    """A function's block. `lines` are labels or places of the code."""

    def __init__(self, *code, nargs=0, nlocals=1, flags=0, lines=()):
        self.code, self.nargs, self.nlocals, self.flags, self.lines = code, nargs, nlocals, flags, lines

    def bytes(self, labels):
        text = b""
        for o in self.code:
            if o.name.endswith(":"):
                labels[o.name[:-1]] = 8 + len(text)
            text += o.code(8 + len(text), labels)
        return text

    def block(self):
        labels = {}
        self.bytes(labels)
        text = self.bytes(labels)
        text += bytes(-len(text) % 4)
        header = [self.flags | self.nargs << 16 | len(self.lines), self.nlocals << 16 | len(text) // 4]
        entries = [labels.get(line, line) for line in self.lines]
        entries += [0] * (len(entries) % 2)
        code = [int.from_bytes(text[k:k + 4], "big") for k in range(0, len(text), 4)]
        return header + code + [entries[k] << 16 | entries[k + 1] for k in range(0, len(entries), 2)]

    def listing(self):
        return ", ".join(o.name for o in self.code)


def segment(functions, table=None):
    """A procedure segment, in which operators are numbered by a table, or as in the manual."""
    numbering[:] = table or MANUAL
    blocks = [function.block() for function in functions]
    start = 1 + len(blocks)
    directory = [start]
    for block in blocks:
        directory.append(start << 16 | len(block))
        start += len(block)
    return directory + sum(blocks, [])


# ---- lines of stdin

def line(letter, *numbers):
    lines.append(" ".join([letter] + [f"{n:x}" for n in numbers]))


def remark(text):
    lines.append("# " + text)
    expected.append((lines[-1], None))


def asks(answer, letter, *numbers):
    line(letter, *numbers)
    expected.append((lines[-1], answer))


def lend(words=None, regular=None, alternate=None):
    new = [now if asked is None else asked for now, asked in zip(lent, (words, regular, alternate))]
    if new != lent:
        lent[:] = new
        line("n", *lent)


def regular(*functions, listed=True, table=None):
    words = segment(functions, table)
    for k, function in enumerate(functions):
        if listed:
            remark(f"{k + 1}: {function.listing()}")
    line("r", 0, *words)
    lend(regular=4 * len(words))


def alternate(*functions):
    words = segment(functions)
    for k, function in enumerate(functions):
        remark(f"alternate {k + 1}: {function.listing()}")
    line("a", 0, *words)
    lend(alternate=4 * len(words))


def lay_out(p, function, globals_, storage, answer="0"):
    asks(answer, "L", p, function, globals_, storage)


def run(budget, answer=None, table=None):
    asks(answer, "R", budget) if table is None else asks(answer, "T", budget, *table)


def load(g, lengths, elements, answer="0"):
    asks(answer, "V", g, len(lengths), *lengths, *elements)


def look(g, answer=None):
    asks(answer, "K", g)


def scalar(w):
    return f"0 {w:08x}"


def array(lengths, elements):
    return " ".join(["0"] + [f"{n:08x}" for n in lengths] + ["|"] + [f"{w:08x}" for w in elements])


def listed(*elements):
    return array([len(elements)], elements)


def show(*pairs):
    """Words of the data segment: the address and the word of each."""
    asks(" ".join(f"{w:08x}" for _, w in pairs) if pairs else None, "w", *(at for at, _ in pairs))


def words(start, *values):
    line("s", start, *values)


def trial(text, *code, trap=None, after=None, extra=(), nlocals=1, lines=(), flags=0, globals_=4, storage=24, loads=(), table=None):
    """Function 1 from a fresh segment: as many steps as it has instructions, or the trap after so many."""
    remark(text)
    regular(Function(*code, nlocals=nlocals, lines=lines), *extra, table=table)
    lay_out(0, 1, globals_, storage)
    if flags:
        words(2, flags)
    for g, lengths, elements in loads:
        load(g, lengths, elements)
    steps = len([o for o in code if not o.name.endswith(":")])
    if trap is None:
        run(steps, f"2 after {steps}", table)
    else:
        run(0x40, f"3 after {steps - 1 if after is None else after} {trap}", table)


# ---- document 01's examples

for text in FORM.split("\n"):
    remark(text)
lend(64)
remark("DOCUMENT 01'S EXAMPLES")
alternate()
remark("M1: lay out 64 words, 4 globals, 24 array words, one local")
regular(Function(const(5), INDEXGEN))
lay_out(0, 1, 4, 24)
show((0, 0x00240002), (1, 0x0001000C), (12, 0x80000015), (13, 0x00210021), (33, 0x40000000), (34, 0x000C000C))
remark("budget 0 returns 2")
run(0, "2 after 0")
remark("M2: then INDEXGEN of 5")
run(2, "2 after 2")
show((39, 0x02000019), (12, 0x8000000D), (25, 0x40000008), (1, 0x00010021))
trial("M3: a need of 18 from 21 splits", const(15), INDEXGEN)
show((12, 0x80000003), (15, 0x40000012), (1, 0x00010021))
trial("M4: a need of 19 leaves slop 2", const(16), INDEXGEN)
show((12, 0x00020013), (33, 0x00000000), (34, 0x00210021), (1, 0x00010021))
trial("M5: 1 divided by 1 is 0x60000000", const(1), const(1), QUOTIENT, store(G(8)))
look(8, scalar(0x60000000))
trial("M6: 1 divided by 2 is 0x5FC00000", const(2), const(1), QUOTIENT, store(G(8)))
look(8, scalar(0x5FC00000))
trial("M7: 8,388,607 + 1 is (8,1)", const(1), lit(i(8388607)), SUM, trap="(8,1)")
trial("M8: 4,194,304 + 0.5 is 4,194,304", lit(f(0.5)), lit(i(4194304)), SUM, store(G(8)))
look(8, scalar(f(4194304)))
trial("M9: 4,194,305 + 0.5 is 4,194,306", lit(f(0.5)), lit(i(4194305)), SUM, store(G(8)))
look(8, scalar(f(4194306)))
trial("M10: 0x4005 pushes 5, 0x5005 -5, 0x5000 0",
      raw(0x40, 0x05), store(G(8)), raw(0x50, 0x05), store(G(9)), raw(0x50, 0x00), store(G(10)))
look(8, scalar(5))
look(9, scalar(0x80000005))
look(10, scalar(0))
remark("31 words return 10, from each operation")
lend(words=31)
lay_out(0, 1, 4, 24, "10")
run(1, "10")
load(8, [], [5], "10")
look(8, "10")
lend(words=64)

remark("TRAPS FOR THE BUILDER")
trial("a variable assigned to itself keeps its block, counted once", G(8), store(G(8)), loads=[(8, [3], [1, 2, 3])])
look(8, listed(1, 2, 3))
show((27, 0x40000006), (28, 0x00010001))
trial("an array word out of code is (3,5), though a block stands there", lit(ARRAY + 27), trap="(3,5)", loads=[(8, [3], [1, 2, 3])])
trial("in a vector too", vector(1, ARRAY + 27), trap="(3,5)", loads=[(8, [3], [1, 2, 3])])
trial("SIZE is freed with its slop", const(16), INDEXGEN, EAT1)
show((12, 0x80000015), (13, 0x00210021), (32, 0x00000015), (33, 0x40000000), (34, 0x000C000C))

remark("THE PAR LIST: a list is loaded and copied; the copy's last element is written; the list stays as it was")
regular(Function(G(8), store(G(9)), const(0), const(4), put(1, G(9)), EAT1, const(1), const(0), put(1, G(9)), EAT1))
lay_out(0, 1, 4, 24)
load(8, [5], [50] * 5)
remark("copied: both share one block, counted twice")
run(2, "2 after 2")
look(8, listed(*[50] * 5))
look(9, listed(*[50] * 5))
show((8, ARRAY + 25), (9, ARRAY + 25), (26, 0x00020001))
remark("written: the copy has a block of its own")
run(4, "2 after 4")
look(8, listed(*[50] * 5))
look(9, listed(50, 50, 50, 50, 0))
show((8, ARRAY + 25), (9, ARRAY + 17), (26, 0x00010001), (18, 0x00010001))
remark("a second write finds it counted once and is made in place")
run(4, "2 after 4")
look(8, listed(*[50] * 5))
look(9, listed(1, 50, 50, 50, 0))
show((8, ARRAY + 25), (9, ARRAY + 17), (12, 0x80000005))
writer = Function(const(9), const(1), put(1, L(1)), EAT1, RETURN, nargs=1, nlocals=0)
trial("a function that writes into its argument leaves the list",
      G(8), call(1, 2), BREAKPOINT, extra=[writer], trap="(2,4)", after=7, loads=[(8, [3], [1, 2, 3])])
look(8, listed(1, 2, 3))
trial("a function that is handed the variable itself writes into it",
      refer(G(8)), call(1, 2), BREAKPOINT, extra=[writer], trap="(2,4)", after=7, loads=[(8, [3], [1, 2, 3])])
look(8, listed(1, 9, 3))


# ---- refused

remark("LAY OUT, REFUSED")
regular(Function(const(5), INDEXGEN), Function(RETURN, nargs=1))
remark("10: 31 words, 16,385 words; 32 and 16,384 are taken")
for n, answer in ((31, "10"), (32, "0"), (16384, "0"), (16385, "10")):
    lend(words=n)
    lay_out(0, 1, 4, 17, answer)
remark("19: one array word more than 32 words have room for; 4,089 globals; 5 array words; numbers far too great")
lend(words=32)
lay_out(0, 1, 4, 18, "19")
lend(words=16384)
for g, a, answer in ((4089, 24, "19"), (4088, 24, "0"), (4, 5, "19"), (4, 6, "0"), (2**32 - 1, 24, "19"), (4, 2**32 - 1, "19")):
    lay_out(0, 1, g, a, answer)
lend(words=64)
remark("20: no such segment, no such function, one with arguments, none in the other segment; before 19")
for p, function, a in ((2, 1, 24), (2**32 - 1, 1, 24), (0, 0, 24), (0, 3, 24), (0, 2**32 - 1, 24), (0, 2, 24), (1, 1, 24), (0, 2, 5)):
    lay_out(p, function, 4, a, "20")
size = lent[1]
remark("11: a procedure segment of 0, 3, 6 or 32,772 bytes; of 32,768 it is taken; 11 before 12 and 20")
for n, answer in ((0, "11"), (3, "11"), (6, "11"), (32772, "11"), (32768, "0")):
    lend(regular=n)
    lay_out(0, 1, 4, 24, answer)
lend(regular=size)
for n in (0, 3, 6, 32772):
    lend(alternate=n)
    lay_out(0, 9, 4, 24, "11")
lend(regular=8)
lay_out(0, 1, 4, 24, "11")
lend(alternate=4)
remark("12: a function that ends past the segment; no entries; RESULT without a local; 16 arguments; the other segment's directory")
lay_out(0, 1, 4, 24, "12")
lend(regular=size)
function = segment([Function(const(5), INDEXGEN), Function(RETURN, nargs=1)])
for at, *values in ((0, 0), (function[1] >> 16, RESULT, 1), (function[1] >> 16, 0x00100000), (function[1] >> 16, 0x10000000)):
    line("r", at, *values)
    lay_out(0, 1, 4, 24, "12")
    line("r", 0, *function)
line("a", 0, 0)
lay_out(0, 9, 4, 24, "12")
line("a", 0, 1)
lay_out(0, 1, 4, 24)

remark("RUN, LOAD AND LOOK, REFUSED: each changes no word")
load(8, [3], [1, 2, 3])
load(9, [], [7])
base = {0: 0x00240002, 1: 0x00010021, 2: 0, 3: 0, 4: 12, 5: 0, 9: 7, 10: UNDEFINED_WORD, 12: 0x8000000F, 13: 0x00210021,
        26: 15, 27: 0x40000006, 28: 0x00010001, 29: 3, 30: 1, 33: 0, 36: UNDEFINED_WORD, 37: 1, 38: 0x00010008}
show(*base.items())


def refused(answer):
    run(5, answer)
    load(9, [], [5], answer)
    look(8, answer)


remark("10")
for n in (31, 16385):
    lend(words=n)
    refused("10")
lend(words=64)
remark("11, in either segment")
for how in (dict(regular=3), dict(regular=32772), dict(alternate=6)):
    lend(**how)
    refused("11")
    lend(regular=size, alternate=4)
remark("12, in either segment")
lend(regular=8)
refused("12")
lend(regular=size)
line("a", 0, 0)
refused("12")
line("a", 0, 1)
damages = [
    ("13", "an unnamed bit", {5: 1}), ("13", "an unnamed flag", {2: 16}), ("13", "BLOCKPTR 7", {4: 7}),
    ("13", "SBASE past the end", {0: 0x00410002}), ("13", "the top of the stack past the end", {0: 0x0024001C}),
    ("14", "a free block that is too short", {12: 0x8000000E}), ("14", "an element that is none", {30: UNDEFINED_WORD}),
    ("14", "PREVFREE", {27: 6}), ("14", "a length", {29: 4}), ("14", "the dummy", {33: 0x40000000}),
    ("15", "ROVER beside the ring", {1: 0x0001001B}), ("15", "a ring of one", {13: 0x000C000C}), ("15", "LAST", {13: 0x0021000C}),
    ("16", "last LBASE", {37: 2}), ("16", "a function that is not there", {38: 0x00030008}), ("16", "LTOP below the frame", {0: 0x00240001}),
    ("17", "minus zero", {9: 0x80000000}), ("17", "an indirect global", {10: INDIRECT_GLOBAL + 8}), ("17", "no block there", {36: ARRAY + 16}),
    ("18", "a count of 2 for one cell", {28: 0x00020001}), ("18", "a count of 0", {28: 1}), ("18", "two cells counted once", {10: ARRAY + 27}),
    ("13", "13 before 14 to 18", {5: 1, 30: UNDEFINED_WORD, 1: 0x0001001B, 37: 2, 9: 0x80000000, 28: 1}),
    ("15", "15 before 16 to 18", {1: 0x0001001B, 37: 2, 9: 0x80000000, 28: 1}),
    ("17", "17 before 18", {9: 0x80000000, 28: 1}),
]
for number, text, damage in damages:
    remark(f"{number}: {text}")
    for at, value in damage.items():
        words(at, value)
    refused(number)
    for at in damage:
        words(at, base[at])
remark("nothing is left of that; lay out asks for none of 13 to 18")
run(2, "2 after 2")
words(5, 1)
lay_out(0, 1, 4, 24)
trial("a refused run leaves the old trap, an accepted one clears it, with budget 0 too", const(1), lit(i(8388607)), SUM, trap="(8,1)")
words(5, 1)
run(5, "13")
show((3, 0x801))
words(5, 0)
load(8, [], [1])
show((3, 0x801))
run(0, "2 after 0")
show((3, 0))

remark("LOAD AND LOOK")
regular(Function(const(5), INDEXGEN))
lay_out(0, 1, 4, 24)
remark("22: undefined; 21: below the globals, above them, far above; 21 before 23")
look(8, "22")
for g in (7, 12, 2**32 - 1):
    look(g, "21")
    load(g, [], [5], "21")
load(7, [2], [5], "21")
remark("scalars of each kind")
for w in (0, i(-8388607), f(-0.5), c("A")):
    load(8, [], [w])
    look(8, scalar(w))
remark("23: no word, two words; fewer and more elements than the lengths ask for; a length of 65,536; rank 16; no scalars")
for lengths, elements in (([], []), ([], [1, 2]), ([3], [1, 2]), ([2, 2], [1, 2, 3]), ([2], [1, 2, 3]), ([0], [1]), ([65536, 0], []),
                          ([65535, 65535, 65535, 65535], [1]), ([1] * 16, [1]), ([], [UNDEFINED_WORD]), ([1], [0x80000000]),
                          ([1], [0x00800000]), ([1], [0x01000100]), ([2], [1, ARRAY + 12]), ([1], [INDIRECT_GLOBAL + 8])):
    load(8, lengths, elements, "23")
look(8, scalar(c("A")))
remark("arrays: none, one and many elements, ranks to 15, kinds mixed")
load(8, [0], [])
look(8, array([0], []))
load(8, [65535, 0], [])
look(8, array([65535, 0], []))
load(9, [2, 3], [1, f(0.5), c("x"), i(-4), 0, 6])
look(9, array([2, 3], [1, f(0.5), c("x"), i(-4), 0, 6]))
load(8, [], [0])
load(9, [], [0])
load(8, [1] * 15, [5])
look(8, array([1] * 15, [5]))
remark("24: a need of 4 with 3 free; 23 before 24")
load(9, [1], [5], "24")
load(9, [1], [UNDEFINED_WORD], "23")
load(9, [0], [])
show((12, 0x00000003))


# ---- traps

remark("TRAPS, IN THE APPENDIX'S ORDER")
for text, code in (("SHORTCONST", const(1)), ("a global", G(8)), ("UNDEFINED", UNDEFINED), ("GETORIGIN", GETORIGIN), ("REFERENCE", refer(G(8))),
                   ("TEST_DEFINED", defined(G(8))), ("CONSTANT_SCALAR", lit(5)), ("CONSTANT_VECTOR", vector(1))):
    trial(f"(1,1): no word is left for {text}", code, trap="(1,1)", storage=49, loads=[(8, [], [5])])
trial("(1,1): one is left, but a local is loaded twice", const(1), store(L(1)), L(1), L(1), trap="(1,1)", storage=48)
inner = Function(RETURN, nlocals=0)
trial("(1,1): one word is left for a CALL that needs two", call(0, 2), trap="(1,1)", extra=[inner], storage=48)
trial("two are enough", call(0, 2), extra=[inner], storage=47)
deep = Function(call(0, 2), nlocals=1)
trial("(1,1): calls without end; nine frames fit", call(0, 2), trap="(1,1)", after=8, extra=[deep])
trial("(1,2): a need of 22 with 21 free", const(19), INDEXGEN, trap="(1,2)")
trial("a need of 21 is met", const(18), INDEXGEN)
trial("(1,2): a sum of two lists when storage is full", G(8), G(8), SUM, trap="(1,2)", loads=[(8, [9], [1] * 9)])
trial("(7,0) before (1,2)", G(8), G(8), SUM, trap="(7,0)", loads=[(8, [9], [1] * 8 + [c("A")])])
trial("(1,2): a write that must copy first", G(8), store(G(9)), const(0), const(4), put(1, G(9)), trap="(1,2)", loads=[(8, [9], [1] * 9)])
trial("(2,1): STEP", const(1), const(2), trap="(2,1)", after=1, flags=8)
remark("and before answer 2")
run(1, "3 after 1 (2,1)")
run(0, "2 after 0")
called = Function(const(7), store(L(1)), RETURN, flags=CALLTRACE | RTNTRACE | RESULT)
trial("(2,2): CALL while FCNCTRC is set, and the header traces", call(0, 2), trap="(2,2)", after=1, extra=[called], flags=2)
trial("(2,2), with STEP too", call(0, 2), trap="(2,2)", after=1, extra=[called], flags=10)
trial("FCNRTRC does not trace a CALL", call(0, 2), extra=[called], flags=4)
trial("nor does FCNCTRC one whose header does not", call(0, 2), extra=[Function(RETURN)], flags=2)
trial("(2,3): a return while FCNRTRC is set", call(0, 2), trap="(2,3)", after=4, extra=[called], flags=4)
trial("(2,4): BREAKPOINT, again and again", BREAKPOINT, const(1), trap="(2,4)", after=0)
run(5, "3 after 0 (2,4)")
remark("past it when PCTR is raised")
words(38, 0x00010009)
run(1, "2 after 1")
trial("(3,1): past the end of the code", const(1), const(2), trap="(3,1)", after=2)
trial("(3,1): no code", trap="(3,1)", after=0)
trial("(3,1): SHORTCONST is cut off", NO_OPERATION, NO_OPERATION, NO_OPERATION, raw(0x40), trap="(3,1)")
trial("(3,1): CONSTANT_SCALAR is cut off", raw(0xAA, 0, 0, 0), trap="(3,1)", after=0)
trial("(3,1): CONSTANT_VECTOR is cut off", raw(0xAB, 2, 0, 0, 0, 0, 0, 1), trap="(3,1)", after=0)
trial("(3,1): GO before the code", go(7), trap="(3,1)")
trial("(3,1): GO past the code", go(12), trap="(3,1)")
trial("(3,1): GO_TRUE past the code", const(1), go_true(99), trap="(3,1)")
trial("one that is not taken is not judged", const(0), go_true(99))
trial("nor GO_FALSE", const(1), go_false(99))
trial("(3,1): CALL of function 0", call(0, 0), trap="(3,1)")
trial("(3,1): CALL of a function that is not there, before (3,4)", call(5, 2), trap="(3,1)")
trial("(3,1): CALL into the other segment, which has none", call(0, 1, 1), trap="(3,1)")
trial("(3,1): BRANCH to a line outside the code", const(1), BRANCH, trap="(3,1)", lines=[6])
trial("PCTR is judged when code is read", const(1), const(2), trap="(3,1)", after=2)
words(38, 0x00010004)
run(0, "2 after 0")
run(1, "3 after 0 (3,1)")
trial("(3,2): a local that is none", L(2), trap="(3,2)", after=0)
trial("(3,2): 4,096 below", long_L(4096), trap="(3,2)")
trial("(3,2) before (3,4)", store(L(2)), trap="(3,2)", after=0)
trial("(3,3): below the globals", G(7), trap="(3,3)")
trial("(3,3): BLOCKPTR", const(1), store(G(12)), trap="(3,3)")
trial("(3,4): EAT1", EAT1, trap="(3,4)", after=0)
trial("(3,4): INTERCHANGE", const(1), INTERCHANGE, trap="(3,4)")
trial("(3,4): SUM", const(1), SUM, trap="(3,4)")
trial("(3,4): ASSIGN", assign(G(8)), trap="(3,4)")
trial("(3,4): ASSIGN_INDEXED, before its variable is looked at", const(1), put(1, G(8)), trap="(3,4)")
trial("(3,4): INDEX(2)", const(1), G(8), index(2), trap="(3,4)", loads=[(8, [3], [1, 2, 3])])
trial("(3,4): CALL without its argument", call(1, 2), trap="(3,4)", extra=[Function(RETURN, nargs=1)])
trial("(3,4): CALL with one too many", const(1), call(1, 2), trap="(3,4)", extra=[inner])
trial("(3,5): NEGATIVE of undefined", UNDEFINED, NEGATIVE, trap="(3,5)")
trial("(3,5): ASSIGN of undefined", UNDEFINED, assign(G(8)), trap="(3,5)")
trial("(3,5): ASSIGN of an indirect word", refer(G(8)), store(G(9)), trap="(3,5)")
trial("(3,5): ASSIGN_INDEXED into undefined", const(1), const(0), put(1, G(8)), trap="(3,5)")
trial("(3,5): constants that are no scalars: undefined", lit(UNDEFINED_WORD), trap="(3,5)")
trial("(3,5): minus zero", lit(0x80000000), trap="(3,5)")
trial("(3,5): INDEX with an indirect subscript", refer(G(8)), G(8), index(1), trap="(3,5)", loads=[(8, [3], [1, 2, 3])])
remark("(3,6) and (3,10) cannot occur: test 17 keeps chains out, and no instruction is resumed")
trial("(3,7): an address in none of the three forms, before (3,4)", raw(0x91, 0x40), trap="(3,7)")
trial("(3,8): MEMREF 0", raw(0x80, 0x3F), trap="(3,8)")
trial("(3,8): MEMREF 20, before the address is read", NO_OPERATION, NO_OPERATION, NO_OPERATION, raw(0x94), trap="(3,8)")
trial("(3,9): GENSCALAR 16", raw(0x70), trap="(3,9)")
trial("(3,11): ETC 21", raw(0xB5), trap="(3,11)")
trial("(3,11): F0", raw(0xF0), trap="(3,11)")
trial("(3,12): RETURN with a temporary", call(0, 2), trap="(3,12)", after=2, extra=[Function(const(1), RETURN)])
trial("(3,12) before (3,13)", const(1), RETURN, trap="(3,12)")
trial("(3,12): BRANCH 0 with one below its operand", const(1), const(0), BRANCH, trap="(3,12)")
trial("(3,13): RETURN of the bottom frame", RETURN, trap="(3,13)")
trial("(3,13): BRANCH 0 there, whose operand stays", const(0), BRANCH, trap="(3,13)")
show((0, 0x00240003), (39, 0))
trial("(4,0): ATTENTION", const(1), ATTENTION, trap="(4,0)")
square, three = (9, [2, 2], [1, 2, 3, 4]), (8, [3], [1, 2, 3])
trial("(5,0): a list and a table", G(8), G(9), SUM, trap="(5,0)", loads=[three, square])
trial("(5,0): INDEX of a scalar", const(0), const(5), index(1), trap="(5,0)")
trial("(5,0): INDEX by a list", G(8), G(8), index(1), trap="(5,0)", loads=[three])
trial("(5,0): INDEX by undefined", UNDEFINED, G(8), index(1), trap="(5,0)", loads=[three])
trial("(5,0): ASSIGN_INDEXED of a list", G(8), const(0), put(1, G(8)), trap="(5,0)", loads=[three])
trial("(5,0): CATENATE of a table and a scalar", const(5), G(9), CATENATE, trap="(5,0)", loads=[square])
trial("(5,0): RESHAPE by a table", G(8), G(9), RESHAPE, trap="(5,0)", loads=[three, square])
trial("(5,0): RESHAPE by 16 lengths", const(5), G(8), RESHAPE, trap="(5,0)", loads=[(8, [16], [1] * 16)])
trial("(5,0): BRANCH by a table", G(9), BRANCH, trap="(5,0)", loads=[square])
trial("(6,0): lists of 3 and 2", G(8), G(9), SUM, trap="(6,0)", loads=[three, (9, [2], [1, 2])])
trial("(6,0): tables of 2 by 2 and 1 by 2", G(8), G(9), SUM, trap="(6,0)", loads=[(8, [1, 2], [1, 2]), square])
trial("(6,0): CATENATE of a table of width 2 and a list of 3", G(8), G(9), CATENATE, trap="(6,0)", loads=[three, square])
trial("(6,0): SETORIGIN of two", G(8), SETORIGIN, trap="(6,0)", loads=[(8, [2], [1, 1])])
trial("(6,0): INDEXGEN of none", G(8), INDEXGEN, trap="(6,0)", loads=[(8, [0], [])])
trial("(6,0): GO_TRUE of three", G(8), go_true(8), trap="(6,0)", loads=[three])
trial("(6,0): RESHAPE of nothing into something", G(8), const(2), RESHAPE, trap="(6,0)", loads=[(8, [0], [])])
for text, code in (("NEGATIVE", [NEGATIVE]), ("INDEXGEN", [INDEXGEN]), ("SETORIGIN", [SETORIGIN]), ("GO_FALSE", [go_false(8)]), ("BRANCH", [BRANCH])):
    trial(f"(7,0): {text} of a character", lit(c("A")), *code, trap="(7,0)")
trial("(7,0): LESS of a number and a character", lit(c("A")), const(1), LESS, trap="(7,0)")
trial("(7,0): RESHAPE by a character", const(1), lit(c("A")), RESHAPE, trap="(7,0)")
trial("(7,0): a character as subscript", lit(c("A")), G(8), index(1), trap="(7,0)", loads=[three])
trial("(7,0): the second of three elements", G(8), NEGATIVE, trap="(7,0)", loads=[(8, [3], [1, c("A"), 3])])
most, least = lit(i(8388607)), lit(i(-8388607))
trial("(8,1): a product of 2 to the 23", lit(i(4096)), lit(i(2048)), PRODUCT, trap="(8,1)")
trial("(8,1): a difference", most, least, DIFFERENCE, trap="(8,1)")
trial("(8,2): half of 2 to the -128", lit(f(0.5)), lit(0x40000000), PRODUCT, trap="(8,2)")
trial("(8,2): a quotient", lit(f(2.0)), lit(0x40000000), QUOTIENT, trap="(8,2)")
trial("(8,3): twice the greatest float", lit(0x7FFFFFFF), lit(0x7FFFFFFF), SUM, trap="(8,3)")
trial("(8,3): a quotient", lit(f(0.5)), lit(0x7FC00000), QUOTIENT, trap="(8,3)")
trial("(8,4): 1 divided by 0", const(0), const(1), QUOTIENT, trap="(8,4)")
trial("(8,4): 0 divided by 0", const(0), const(0), QUOTIENT, trap="(8,4)")
for text, code in (("NOT 2", [const(2), NOT]), ("2 AND 1", [const(1), const(2), AND]), ("1 OR 2", [const(2), const(1), OR]),
                   ("CONVERT 256", [const(256), CONVERT]), ("CONVERT -1", [const(-1), CONVERT]), ("INDEXGEN -1", [const(-1), INDEXGEN]),
                   ("INDEXGEN 0.5", [lit(f(0.5)), INDEXGEN]), ("INDEXGEN 65,536", [lit(65536), INDEXGEN]), ("SETORIGIN 2", [const(2), SETORIGIN]),
                   ("GO_TRUE 2", [const(2), go_true(8)]), ("BRANCH 0.5", [lit(f(0.5)), BRANCH]), ("RESHAPE by -1", [const(1), const(-1), RESHAPE]),
                   ("RESHAPE by 256 256", [const(1), vector(256, 256), RESHAPE])):
    trial(f"(8,5): {text}", *code, trap="(8,5)")
trial("(8,5): a subscript of 0.5", lit(f(0.5)), G(8), index(1), trap="(8,5)", loads=[three])
trial("(9,1): two subscripts for a list", const(0), const(0), G(8), index(2), trap="(9,1)", loads=[three])
trial("(9,1): one for a table, in a write", const(5), const(0), put(1, G(9)), trap="(9,1)", loads=[square])
trial("(9,2): 3 of three", const(3), G(8), index(1), trap="(9,2)", loads=[three])
trial("(9,2): -1", const(-1), G(8), index(1), trap="(9,2)", loads=[three])
trial("(9,2): 0, when the origin is 1", const(0), G(8), index(1), trap="(9,2)", loads=[three], flags=1)
trial("(9,2): a write at 2, 0", const(5), const(0), const(2), put(2, G(9)), trap="(9,2)", loads=[square])
trial("(10,0): a global", G(8), trap="(10,0)")
trial("(10,0): a local", L(1), trap="(10,0)", after=0)
trial("(10,0): a result", call(0, 2), trap="(10,0)", after=1, extra=[Function(RETURN, flags=RESULT)])


# ---- runs in parts

remark("BUDGETS THAT END IN THE MIDDLE: the parts leave what the whole leaves")
again = [label("again"), G(8), store(G(9)), const(0), const(4), put(1, G(9)), EAT1, G(8), G(9), SUM, store(G(10)),
         const(3), INDEXGEN, call(1, 2), store(G(11)), go("again")]
adder = Function(L(2), const(1), SUM, store(L(1)), RETURN, nargs=1, flags=RESULT)
regular(Function(*again), adder)
lend(words=128)


def story():
    lay_out(0, 1, 4, 80)
    load(8, [5], [50] * 5)


story()
run(100, "2 after 100")
whole = len(expected) - 1
look(10, listed(100, 100, 100, 100, 50))
look(11, listed(1, 2, 3))
for parts in ([50, 50], [1] * 10 + [90], [0, 3, 0, 20, 7, 70], [13, 29, 58]):
    story()
    for part in parts:
        run(part, f"2 after {part}")
    alike.append((whole, len(expected) - 1))
remark("with STEP every run ends after one instruction, and does no other")
story()
words(2, 8)
for _ in range(5):
    run(100, "3 after 1 (2,1)")
words(2, 0)
run(95, "2 after 95")
alike.append((whole, len(expected) - 1))
lend(words=64)


# ---- storage

remark("FULL STORAGE: 21 words")
regular(Function(const(0), INDEXGEN, store(G(11)), label("again"), const(3), INDEXGEN, store(G(11)), go("again")))
lay_out(0, 1, 4, 24)
load(8, [5], [8] * 5)
load(9, [5], [9] * 5)
remark("5 words are left: not for 6, but for 5; then for none, neither by a load nor in a run")
load(10, [3], [10] * 3, "24")
load(10, [2], [10] * 2)
load(11, [0], [], "24")
run(2, "3 after 1 (1,2)")
for g, n in ((8, 5), (9, 5), (10, 2)):
    look(g, listed(*[g] * n))
look(11, "22")
show((12, 0x00000005), (17, 0x00000008), (25, 0x00000008), (33, 0), (34, 0x00210021))
remark("two free blocks, 5 and 8 words, are no block of 9")
load(10, [], [0])
load(8, [], [0])
show((12, 0x80000005), (17, 0x40000008), (25, 0x80000008), (33, 0x40000000))
load(10, [6], [6] * 6, "24")
remark("the one between them joins all three")
load(9, [], [0])
show((12, 0x80000015), (32, 21), (34, 0x000C000C))
load(10, [3], [6] * 3)
remark("a loop that makes a list over and over goes on in what it lets go")
run(202, "2 after 202")
look(11, listed(0, 1, 2))
remark("load releases the old value last: 18 elements do not go over 18 elements")
load(11, [], [0])
load(10, [], [0])
load(10, [18], [1] * 18)
load(10, [18], [2] * 18, "24")
look(10, listed(*[1] * 18))
load(10, [], [0])
load(10, [18], [2] * 18)
look(10, listed(*[2] * 18))
remark("slop 1")
load(10, [], [0])
load(10, [17], [3] * 17)
show((12, 0x00010014))


# ---- every instruction

remark("EVERY INSTRUCTION, WITH ITS RESULT")
three, twos = (8, [3], [i(7), i(-2), f(0.5)]), (9, [3], [2, 2, 2])
for o, result in ((IDENTITY, (i(7), i(-2), f(0.5))), (NEGATIVE, (i(-7), i(2), f(-0.5))), (FLOOR, (i(7), i(-2), 0)), (CEILING, (i(7), i(-2), 1)),
                  (MAGNITUDE, (i(7), i(2), f(0.5)))):
    trial(o.name, G(8), o, store(G(10)), loads=[three])
    look(10, listed(*result))
trial("NOT", G(8), NOT, store(G(10)), loads=[(8, [3], [0, 1, f(1.0)])])
look(10, listed(1, 0, 0))
trial("TEST_NUMBER", G(8), TEST_NUMBER, store(G(10)), loads=[(8, [3], [c("A"), 5, f(0.5)])])
look(10, listed(0, 1, 1))
trial("CONVERT", G(8), CONVERT, store(G(10)), loads=[(8, [3], [c("A"), 66, f(67.0)])])
look(10, listed(65, c("B"), c("C")))
for o, result in ((SUM, (9, 0, f(2.5))), (DIFFERENCE, (5, i(-4), f(-1.5))), (PRODUCT, (14, i(-4), f(1.0))), (QUOTIENT, (f(3.5), f(-1.0), f(0.25))),
                  (LESS, (0, 1, 1)), (EQUAL, (0, 0, 0))):
    trial(f"{o.name} of G8 and G9, G8 on top", G(9), G(8), o, store(G(10)), loads=[three, twos])
    look(10, listed(*result))
for o, result in ((AND, (0, 0, 0, 1)), (OR, (0, 1, 1, 1))):
    trial(o.name, G(9), G(8), o, store(G(10)), loads=[(8, [4], [0, 0, 1, 1]), (9, [4], [0, 1, 0, 1])])
    look(10, listed(*result))
trial("EQUAL of characters and numbers", G(9), G(8), EQUAL, store(G(10)), loads=[(8, [3], [c("A"), c("A"), 1]), (9, [3], [c("A"), 65, f(1.0)])])
look(10, listed(1, 0, 1))
# debits and credits, integers and the greatest floats, and the two least floats: by paper 4 of document 02 their exact values
debits, credits = (8, [3], [i(-8388607), 0xFFFFFFFF, 0x40000000]), (9, [3], [i(8388607), 0x7FFFFFFF, 0x40000001])
for first, second, o, result in ((G(8), G(9), LESS, (1, 1, 1)), (G(9), G(8), LESS, (0, 0, 0)), (G(8), G(9), EQUAL, (0, 0, 0))):
    trial(f"{o.name} of numbers of which DIFFERENCE traps", second, first, o, store(G(10)), loads=[debits, credits])
    look(10, listed(*result))
trial("EQUAL of debits with themselves", G(8), G(8), EQUAL, store(G(10)), loads=[debits])
look(10, listed(1, 1, 1))
trial("LESS and EQUAL of an integer and a float: 8,388,607, and -1 with the float below it", G(9), G(8), LESS, store(G(10)), G(9), G(8), EQUAL, store(G(11)),
      loads=[(8, [2], [i(8388607), 0xE0000001]), (9, [2], [f(8388607.0), i(-1)])])
look(10, listed(0, 1))
look(11, listed(1, 0))
trial("a scalar and a list", const(1), G(8), SUM, store(G(10)), loads=[three])
look(10, listed(8, i(-1), f(1.5)))
trial("a table of one element and a list of one: the greater rank gives the shape", G(9), G(8), SUM, store(G(10)),
      loads=[(8, [1], [1]), (9, [1, 1], [2])])
look(10, array([1, 1], [3]))
trial("a table of one element and a list of two", G(9), G(8), SUM, store(G(10)), loads=[(8, [2], [1, 2]), (9, [1, 1], [2])])
look(10, listed(3, 4))
trial("a list of one and an empty list", G(9), G(8), QUOTIENT, store(G(10)), loads=[(8, [0], []), (9, [1], [0])])
look(10, array([0], []))
trial("an integral float and an integer; zero is integer 0", lit(f(2.0)), const(2), DIFFERENCE, store(G(8)), const(5), lit(f(1.0)), SUM, store(G(9)))
look(8, scalar(0))
look(9, scalar(f(6.0)))
trial("SHAPE", G(8), SHAPE, store(G(9)), const(5), SHAPE, store(G(10)), loads=[(8, [2, 3], [1, 2, 3, 4, 5, 6])])
look(9, listed(2, 3))
look(10, listed())
trial("RESHAPE goes round", G(8), vector(2, 2), RESHAPE, store(G(9)), loads=[(8, [3], [1, 2, 3])])
look(9, array([2, 2], [1, 2, 3, 1]))
trial("RESHAPE by one length, and by none", G(8), const(2), RESHAPE, store(G(9)), G(8), vector(), RESHAPE, store(G(10)), loads=[(8, [3], [1, 2, 3])])
look(9, listed(1, 2))
look(10, scalar(1))
trial("RAVEL", G(8), RAVEL, store(G(9)), const(5), RAVEL, store(G(10)), loads=[(8, [2, 2], [1, 2, 3, 4])])
look(9, listed(1, 2, 3, 4))
look(10, listed(5))
trial("CATENATE: the top first", const(5), G(8), CATENATE, store(G(9)), loads=[(8, [2], [1, c("A")])])
look(9, listed(1, c("A"), 5))
trial("INDEXGEN, SETORIGIN, GETORIGIN", const(3), INDEXGEN, store(G(8)), const(1), SETORIGIN, store(G(9)), GETORIGIN, store(G(10)),
      lit(f(3.0)), INDEXGEN, store(G(11)))
look(8, listed(0, 1, 2))
look(9, scalar(0))
look(10, scalar(1))
look(11, listed(1, 2, 3))
show((2, 1))
table = (8, [2, 3], [10, 11, 12, 13, 14, 15])
trial("INDEX(2) of 1, 2: the first subscript is next to the array", const(2), const(1), G(8), index(2), store(G(9)), loads=[table])
look(9, scalar(15))
trial("INDEX(1), when the origin is 1, by an integral float", lit(f(3.0)), G(8), index(1), store(G(9)), loads=[(8, [3], [1, 2, 3])], flags=1)
look(9, scalar(3))
trial("ASSIGN_INDEXED(2) at 1, 0 leaves the array on the stack", const(99), const(0), const(1), put(2, G(8)), store(G(9)), loads=[table])
look(8, array([2, 3], [10, 11, 12, 99, 14, 15]))
look(9, array([2, 3], [10, 11, 12, 99, 14, 15]))
trial("ASSIGN leaves its value", const(5), assign(L(1)), assign(G(8)), store(G(9)))
look(8, scalar(5))
look(9, scalar(5))
trial("TEST_DEFINED of defined and undefined", defined(G(8)), store(G(9)), defined(G(10)), store(G(11)), loads=[(8, [], [0])])
look(9, scalar(1))
look(11, scalar(0))
trial("INTERCHANGE, EAT1, UNDEFINED, NO_OPERATION", const(1), const(2), INTERCHANGE, store(G(8)), EAT1, UNDEFINED, EAT1, NO_OPERATION)
look(8, scalar(1))
trial("constants", vector(i(-1), f(0.5), c("A")), store(G(8)), lit(c("B")), store(G(9)), vector(), store(G(10)))
look(8, listed(i(-1), f(0.5), c("A")))
look(9, scalar(c("B")))
look(10, listed())
trial("GO, GO_TRUE and GO_FALSE: 1 to 5 are added up, then a breakpoint", const(0), store(G(8)), const(5), store(G(9)),
      label("again"), G(8), G(9), SUM, store(G(8)), const(1), G(9), DIFFERENCE, assign(G(9)), const(0), EQUAL, go_false("again"),
      lit(f(1.0)), go_true("end"), const(9), store(G(8)), label("end"), go("last"), const(8), label("last"), BREAKPOINT,
      trap="(2,4)", after=4 + 5 * 11 + 3)
look(8, scalar(15))
look(9, scalar(0))
trial("BRANCH to line 2; by a list's first element to line 1; an empty list goes on", const(2), BRANCH, label("one"), const(7), store(G(9)),
      vector(), BRANCH, BREAKPOINT, label("two"), const(5), store(G(8)), vector(1, 9), BRANCH, trap="(2,4)", after=10, lines=("one", "two"))
look(8, scalar(5))
look(9, scalar(7))
factorial = Function(const(2), L(2), LESS, go_false("more"), const(1), store(L(1)), RETURN,
                     label("more"), const(1), L(2), DIFFERENCE, call(1, 2), L(2), PRODUCT, store(L(1)), RETURN, nargs=1, flags=RESULT)
trial("CALL and RETURN: 5 factorial", const(5), call(1, 2), store(G(8)), BREAKPOINT, extra=[factorial], trap="(2,4)", after=4 * 12 + 7 + 3)
look(8, scalar(120))
trial("7 factorial is too deep for the stack", const(7), call(1, 2), store(G(8)), extra=[factorial], trap="(1,1)", after=2 + 5 * 8 + 1)
trial("BRANCH 9 leaves a function, and hands its result on", call(0, 2), store(G(8)), BREAKPOINT,
      extra=[Function(const(6), store(L(1)), const(9), BRANCH, flags=RESULT)], trap="(2,4)", after=6)
look(8, scalar(6))
trial("REFERENCE of a local: a function stores into its caller's", const(1), store(L(1)), refer(L(1)), call(1, 2), L(1), store(G(8)), BREAKPOINT,
      extra=[Function(const(4), store(L(1)), RETURN, nargs=1, nlocals=0)], trap="(2,4)", after=9)
look(8, scalar(4))
remark("a function of the alternate segment is laid out, and calls one of the regular segment and one of its own")
alternate(Function(call(0, 1), store(G(8)), call(0, 2, 1), store(G(9)), BREAKPOINT), Function(const(2), store(L(1)), RETURN, flags=RESULT))
regular(Function(const(1), store(L(1)), RETURN, flags=RESULT))
lay_out(1, 1, 4, 24)
show((38, 0x08010008))
run(99, "3 after 10 (2,4)")
look(8, scalar(1))
look(9, scalar(2))
alternate()

remark("A SEGMENT OF 16,384 WORDS, 4,088 globals and 12,000 array words")
lend(words=16384)
regular(Function(const(7), store(G(4095)), lit(10000), INDEXGEN, store(G(8)), G(8), G(8), SUM))
lay_out(0, 1, 4088, 12000)
remark("two lists of 10,000 do not fit")
run(20, "3 after 7 (1,2)")
look(4095, scalar(7))
look(4096, "21")
load(8, [], [0])
load(9, [4, 3], range(12))
look(9, array([4, 3], range(12)))
trial("a list of 65,535 is (1,2) however long a segment is", lit(65535), INDEXGEN, trap="(1,2)", globals_=8, storage=16000)
lend(words=64)


# ---- joins

remark("JOINS, by paper 6 of document 02: G8, which is on top, then G9")
regular(Function(G(9), G(8), CATENATE, store(G(10))))


def join(first, second, answer, storage=40):
    """Two values, each its lengths and its elements, and the lengths of what they make, or a trap."""
    lay_out(0, 1, 4, storage)
    for g, (lengths, elements) in ((8, first), (9, second)):
        load(g, lengths, elements)
    # "the first operand's ravel and then the second's"
    joined_by(answer, first[1] + second[1])


def joined_by(answer, elements):
    """Both operands are pushed, then joined: the lengths and elements of the result, or a trap that changes no word but word 3."""
    run(2, "2 after 2")
    if type(answer) is str:
        before = len(expected) - 1
        run(1, f"3 after 0 {answer}")
        run(0, "2 after 0")
        alike.append((before, len(expected) - 1))
    else:
        run(2, "2 after 2")
        look(10, array(answer, elements))


def sized(*lengths, first=1):
    """A value with these lengths, its elements the numbers from `first` on."""
    return list(lengths), list(range(first, first + math.prod(lengths)))


remark("ranks 0 to 3 beside ranks 0 to 3")
BY_RANK = (([2], [3], "(5,0)", "(5,0)"),
           ([3], [4], [3, 2], "(5,0)"),
           ("(5,0)", [3, 2], [4, 2], "(5,0)"),
           ("(5,0)", "(5,0)", "(5,0)", "(5,0)"))
shapes = ((), (2,), (2, 2), (2, 1, 1))
for k, answers in enumerate(BY_RANK):
    for m, answer in enumerate(answers):
        join(sized(*shapes[k]), sized(*shapes[m], first=5), answer)
remark("elements of all kinds; rows of one element; tables of no rows; tables of no columns, where an empty list is a row")
mixed = [1, f(0.5), c("x"), i(-4), 0, 6]
join(([2, 3], mixed), ([1, 3], [c("y"), i(-8), f(-1.5)]), [3, 3])
join(([3], [c("y"), i(-8), f(-1.5)]), ([2, 3], mixed), [3, 3])
for first, second, answer in (((1,), (2, 1), [3, 1]), ((2, 1), (1,), [3, 1]), ((0, 3), (2, 3), [2, 3]), ((2, 3), (0, 3), [2, 3]),
                              ((0, 3), (0, 3), [0, 3]), ((3,), (0, 3), [1, 3]), ((0, 3), (3,), [1, 3]), ((2, 0), (3, 0), [5, 0]),
                              ((0,), (2, 0), [3, 0]), ((2, 0), (0,), [3, 0]), ((0,), (0, 0), [1, 0]), ((0, 0), (0, 0), [0, 0])):
    join(sized(*first), sized(*second, first=7), answer)
remark("(6,0): unequal widths, though the elements be as many or none; one element is not repeated; an empty list is no row of three")
for first, second in (((2, 3), (3, 2)), ((0, 3), (0, 2)), ((1,), (2, 3)), ((2, 3), (1,)), ((1, 1), (2, 3)), ((0,), (2, 3)), ((2, 3), (2,))):
    join(sized(*first), sized(*second), "(6,0)")
remark("65,535 rows; one more is (6,0)")
for first, second, answer in (((65534, 0), (1, 0), [65535, 0]), ((0,), (65534, 0), [65535, 0]), ((65535, 0), (0, 0), [65535, 0]),
                              ((65535, 0), (1, 0), "(6,0)"), ((0,), (65535, 0), "(6,0)"), ((65535, 0), (65535, 0), "(6,0)")):
    join(sized(*first), sized(*second), answer)
remark("65,536 rows, lent so, are (6,0) beside no rows")
lay_out(0, 1, 4, 40)
load(8, [1, 0], [])
words(47, 65536)
load(9, [0, 0], [])
joined_by("(6,0)", [])
remark("(5,0) before (6,0): 65,535 pages and a row; both before (1,2), where no word is free; then (1,2): 15 are free for 16, and 16 are enough")
join(sized(65535, 0, 0), sized(1, 0), "(5,0)")
join(sized(2, 3), sized(), "(5,0)", storage=13)
join(sized(2, 3), sized(2), "(6,0)", storage=18)
join(sized(65535, 0), sized(1, 0), "(6,0)", storage=11)
join(sized(2, 3), sized(2, 3), "(1,2)", storage=38)
join(sized(2, 3), sized(2, 3, first=7), [4, 3], storage=39)
remark("no elements still need 4 words")
join(sized(2, 0), sized(1, 0), "(1,2)", storage=14)
join(sized(2, 0), sized(1, 0), [3, 0], storage=15)
trial("(3,5) before (5,0)", G(8), UNDEFINED, CATENATE, trap="(3,5)", loads=[(8, [1, 2, 2], [1, 2, 3, 4])])
trial("a table joined with itself is a block of its own: a write into it leaves the one that another global holds", G(8), store(G(11)),
      G(8), G(8), CATENATE, store(G(8)), const(9), const(0), const(0), put(2, G(8)), EAT1, storage=40, loads=[(8, [2, 2], [1, 2, 3, 4])])
look(8, array([4, 2], [9, 2, 3, 4, 1, 2, 3, 4]))
look(11, array([2, 2], [1, 2, 3, 4]))
show((11, ARRAY + 41), (42, 0x00010002))
trial("operands that no variable holds are let go: with the result all 37 words are free again", const(1), vector(2, 2), RESHAPE,
      const(2), vector(1, 2), RESHAPE, CATENATE, store(G(8)), storage=40)
look(8, array([3, 2], [2, 2, 1, 1, 1, 1]))
load(8, [], [0])
show((12, 0x80000025))


# ---- tables of operators

remark("A LENT TABLE OF OPERATORS")
REVERSED, ROTATED = MANUAL[::-1], MANUAL[5:] + MANUAL[:5]
# Each operator on the list in a global, and on the next list where it has two operands, then on scalars, the first of two on top.
SIXTEEN = ((IDENTITY, 8, (7, i(-2), f(0.5)), [const(7)], 7), (NEGATIVE, 8, (i(-7), 2, f(-0.5)), [const(7)], i(-7)),
           (FLOOR, 8, (7, i(-2), 0), [lit(f(2.5))], 2), (CEILING, 8, (7, i(-2), 1), [lit(f(2.5))], 3),
           (MAGNITUDE, 8, (7, 2, f(0.5)), [const(-6)], 6), (NOT, 10, (1, 0, 0), [const(0)], 1),
           (TEST_NUMBER, 12, (0, 1, 1), [lit(c("A"))], 0), (CONVERT, 12, (65, c("B"), c("C")), [const(65)], c("A")),
           (SUM, 8, (9, 0, f(2.5)), [const(3), const(12)], 15), (DIFFERENCE, 8, (5, i(-4), f(-1.5)), [const(3), const(12)], 9),
           (PRODUCT, 8, (14, i(-4), f(1.0)), [const(3), const(12)], 36), (QUOTIENT, 8, (f(3.5), f(-1.0), f(0.25)), [const(3), const(12)], f(4.0)),
           (AND, 10, (0, 1, 0), [const(0), const(1)], 0), (OR, 10, (0, 1, 1), [const(0), const(1)], 1),
           (LESS, 8, (0, 1, 1), [const(12), const(3)], 1), (EQUAL, 10, (1, 1, 0), [const(3), const(3)], 1))
sixteen = []
for k, (o, g, _, scalars, _) in enumerate(SIXTEEN):
    sixteen += [*[G(g + 1), G(g)][-len(scalars):], o, store(G(13 + k)), *scalars, o, store(G(29 + k))]
lend(words=256)
remark("all sixteen, on lists and on scalars: by the manual's numbers, with no table lent, and with one; by the reversed table; by a rotated one")
for table in (None, MANUAL, REVERSED, ROTATED):
    if table is not MANUAL:
        regular(Function(*sixteen), listed=False, table=table)
    lay_out(0, 1, 37, 150)
    for k, elements in enumerate(([7, i(-2), f(0.5)], [2, 2, 2], [0, 1, f(1.0)], [0, 1, 0], [c("A"), 66, f(67.0)])):
        load(8 + k, [3], elements)
    run(len(sixteen), f"2 after {len(sixteen)}", table)
    if table is None:
        whole = len(expected) - 1
    alike.append((whole, len(expected) - 1))
    for k, (_, _, result, _, _) in enumerate(SIXTEEN):
        look(13 + k, listed(*result))
    show(*((29 + k, result) for k, (*_, result) in enumerate(SIXTEEN)))
lend(words=64)
trial("as many operands as the operator has: two for EQUAL, which is 0 here, and one for IDENTITY, which is 15",
      const(1), IDENTITY, EQUAL, trap="(3,4)", table=REVERSED)
trial("(3,9): 16", raw(0x70), trap="(3,9)", table=REVERSED)
trial("(3,9): 31", raw(0x7F), trap="(3,9)", table=ROTATED)
trial("the operator's traps: (8,4)", const(0), const(1), QUOTIENT, trap="(8,4)", table=ROTATED)
trial("(8,5)", const(2), NOT, trap="(8,5)", table=ROTATED)
trial("(7,0)", G(8), NEGATIVE, trap="(7,0)", loads=[(8, [3], [1, c("A"), 3])], table=REVERSED)
trial("through calls and returns: 5 factorial", const(5), call(1, 2), store(G(8)), BREAKPOINT, extra=[factorial], trap="(2,4)",
      after=4 * 12 + 7 + 3, table=ROTATED)
whole = len(expected) - 1
look(8, scalar(120))
remark("the same in parts")
lay_out(0, 1, 4, 24)
for part in (1, 20, 0, 30):
    run(part, f"2 after {part}", ROTATED)
run(64, "3 after 7 (2,4)", ROTATED)
alike.append((whole, len(expected) - 1))
remark("a table holds for one run: SUM by the reversed one is CONVERT in the plain run that follows, and then SUM again")
regular(Function(const(60), const(5), SUM, SUM, store(G(8)), const(60), const(5), SUM, store(G(9))), table=REVERSED)
lay_out(0, 1, 4, 24)
run(3, "2 after 3", REVERSED)
run(2, "2 after 2")
run(4, "2 after 4", REVERSED)
look(8, scalar(c("A")))
look(9, scalar(65))
trial("26: no byte, 15, 17, 32; a byte 16, a byte 255; a byte twice; all the same. The old trap stays", const(1), lit(i(8388607)), SUM,
      trap="(8,1)", table=ROTATED)
for table in ([], ROTATED[:15], ROTATED + [0], ROTATED * 2, [16] + ROTATED[1:], ROTATED[:15] + [255], ROTATED[:15] + ROTATED[:1],
              ROTATED[1:2] + ROTATED[1:], ROTATED[:15] + ROTATED[14:15], [0] * 16, [15] * 16):
    run(1, "26", table)
show((3, 0x801))
remark("10 to 12 go before 26, and 26 before 13 to 18")
regular(Function(const(5), INDEXGEN), Function(RETURN, nargs=1), listed=False)
lay_out(0, 1, 4, 24)
load(8, [3], [1, 2, 3])
load(9, [], [7])
whole, size = len(expected) - 1, lent[1]
for number, how in (("10", dict(words=31)), ("11", dict(regular=3)), ("11", dict(alternate=6)), ("12", dict(regular=8))):
    lend(**how)
    run(5, number, [])
    run(5, number, REVERSED)
    lend(words=64, regular=size, alternate=4)
for number in ("13", "14", "15", "16", "17", "18"):
    damage = next(damage for refusal, _, damage in damages if refusal == number)
    for at, value in damage.items():
        words(at, value)
    run(5, "26", [])
    run(5, number, REVERSED)
    for at in damage:
        words(at, base[at])
show((9, 7))
alike.append((whole, len(expected) - 1))
run(2, "2 after 2", REVERSED)


# ---- a long mixed list

class Generator:
    """The same numbers on every machine."""

    def __init__(self, state):
        self.state = state

    def below(self, n):
        self.state = (self.state * 6364136223846793005 + 1442695040888963407) % 2**64
        return (self.state >> 33) % n

    def pick(self, *items):
        return items[self.below(len(items))]


rng = Generator(1972)


def some_word():
    return rng.pick(0, 1, 2, 3, i(-1), i(-4), 8388607, f(0.5), f(-1.5), c("A"))


def some_three():
    return [rng.pick(0, 1, 2, 3, i(-2), f(0.5)) for _ in range(3)]


def some_scalar():
    return rng.pick([const(rng.below(9))], [const(-rng.below(3))], [lit(f(0.5))], [G(10)], [G(11)], [L(1)], [GETORIGIN], [defined(G(9))],
                    [const(rng.below(3)), G(8), index(1)], [const(rng.below(4)), G(10), LESS])


def some_list():
    return rng.pick([G(8)], [G(9)], [vector(*some_three())], [const(3), INDEXGEN], [L(1), const(3), RESHAPE, RAVEL],
                    [const(rng.below(9)), const(rng.below(3)), put(1, G(8))], [G(9), G(8), CATENATE, const(3), RESHAPE])


def some_statement():
    """G8 and G9 are lists of three, the other variables scalars; now and then an instruction that does not fit."""
    kind = rng.below(16)
    monadic = rng.pick(NEGATIVE, FLOOR, CEILING, MAGNITUDE, IDENTITY, TEST_NUMBER)
    dyadic = rng.pick(SUM, DIFFERENCE, LESS, EQUAL, SUM)
    if kind < 4:
        return some_list() + some_list() + [dyadic, store(rng.pick(G(8), G(9)))]
    if kind < 7:
        return some_scalar() + some_list() + [dyadic, monadic, store(rng.pick(G(8), G(9)))]
    if kind < 10:
        return some_scalar() + some_scalar() + [dyadic, assign(G(10)), store(rng.pick(G(11), L(1)))]
    if kind < 12:
        return some_list() + [call(1, 2), store(rng.pick(G(8), G(9)))]
    if kind < 13:
        return [refer(rng.pick(G(10), L(1))), call(1, 3)]
    if kind < 15:
        return some_scalar() + [store(rng.pick(G(10), G(11)))] + some_list() + [EAT1]
    return [rng.pick(PRODUCT, QUOTIENT, NOT, CONVERT, AND, SHAPE, SETORIGIN, INTERCHANGE, UNDEFINED, RETURN, BRANCH, index(2), G(12), L(3),
                     go_true(9), ATTENTION, raw(0x70), lit(ARRAY), vector(*[2] * 12))]


def some_code():
    body = sum((some_statement() for _ in range(3 + rng.below(4))), [])
    helper = Function(*some_scalar()[:1], L(2), rng.pick(SUM, DIFFERENCE, EQUAL), store(L(1)), RETURN, nargs=1, flags=RESULT | rng.pick(0, CALLTRACE))
    setter = Function(const(rng.below(9)), store(L(1)), RETURN, nargs=1, nlocals=0, flags=rng.pick(0, RTNTRACE))
    regular(Function(*some_scalar()[:1], store(L(1)), label("again"), *body, go("again")), helper, setter, listed=False)


def some_load():
    lengths, elements = rng.pick(([], [some_word()]), ([3], some_three()), ([3], some_three()), ([8], [1] * 8),
                                 ([2, 3], [some_word() for _ in range(6)]), ([3], [1, 2]), ([1], [UNDEFINED_WORD]))
    load(rng.pick(8, 8, 9, 9, 10, 11, 12), lengths, elements, None)


def some_call():
    kind = rng.below(10)
    if kind < 5:
        run(rng.pick(1, 2, 3, 7, 20, 50, 300))
    elif kind < 7:
        some_load()
    else:
        look(rng.pick(8, 8, 9, 9, 10, 11, 7))


remark("A LONG MIXED LIST: code of many instructions, brought anew while frames stand; PCTR, flags and other words set from outside")
for turn in range(64):
    some_code()
    if turn % 2 == 0:
        lend(words=rng.pick(96, 128, 256))
        storage = rng.pick(24, 36, 48, 60)
        frame_word = 12 + storage + 2
        lay_out(0, 1, 4, storage, None)
        for g in (8, 9):
            load(g, [3], some_three(), None)
        for g in (10, 11):
            load(g, [], [rng.below(5)], None)
        words(2, rng.pick(0, 0, 0, 0, 0, 1, 8, 2, 6))
    elif turn % 8 == 7:
        words(rng.pick(1, 8, 9, 13, 20, 40), rng.pick(0, 1, UNDEFINED_WORD, ARRAY + 20))
    else:
        words(frame_word, 0x00010008)
    for _ in range(3 + rng.below(4)):
        some_call()


# ---- the files

def answer_of(written):
    """The answer and the hash of a line of stdout."""
    answer, _, number = written.rpartition("#")
    return answer.partition("->")[2].strip(), number


def differences(written):
    if len(written) != len(expected):
        yield f"{len(written)} lines, and not {len(expected)}"
        return
    for k, (said, (_, answer)) in enumerate(zip(written, expected)):
        if answer is not None and answer_of(said)[0] != answer:
            yield f"line {k + 1}: {said}: and not {answer}"
    for a, b in alike:
        if answer_of(written[a])[1] != answer_of(written[b])[1]:
            yield f"lines {a + 1} and {b + 1}: the words are not the same"


def changes(written):
    """Refused calls must leave the hash of the line before, where no word was set in between."""
    before, k = None, 0
    for asked in lines:
        if asked[0] in "nsra":
            before = None
        elif asked[0] == "#":
            k += 1
        else:
            answer, number = answer_of(written[k])
            if asked[0] != "w" and int(answer.split()[0]) >= 10 and before not in (None, number):
                yield f"line {k + 1}: {written[k]}: words were changed"
            before, k = number, k + 1


# Each operation gives every refusal that it can, and a run every trap but (3,6) and (3,10).
TRAPS = {1: (1, 2), 2: (1, 2, 3, 4), 3: (1, 2, 3, 4, 5, 7, 8, 9, 11, 12, 13), 4: (0,), 5: (0,), 6: (0,), 7: (0,),
         8: (1, 2, 3, 4, 5), 9: (1, 2), 10: (0,)}
wanted = {(letter, str(n)) for letter, more in (("R", ()), ("T", (26,)), ("V", (21, 23, 24)), ("K", (21, 22)))
          for n in (*range(10, 19), *more)}
wanted |= {("L", str(n)) for n in (10, 11, 12, 19, 20)} | {("R", f"({k},{n})") for k, numbers in TRAPS.items() for n in numbers}
assert not wanted - {(asked[0], answer.split()[-1]) for asked, answer in expected if answer}

here = os.path.dirname(os.path.abspath(__file__))
text = "\n".join(lines) + "\n"
assert len(text) <= 65536, "more than the program reads"
with open(os.path.join(here, "stdin"), "w") as out:
    out.write(text)
print(sum(asked[0] in "LRTVK" for asked in lines), "calls,", sum(answer is not None for _, answer in expected), "answers by hand")
if os.path.exists(os.path.join(here, "stdout")):
    with open(os.path.join(here, "stdout")) as file:
        written = file.read().splitlines()
    print("\n".join(list(differences(written)) or list(changes(written))) or "stdout agrees")
