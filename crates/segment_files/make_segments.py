#!/usr/bin/env python3
"""Makes the segments that `sheet` and `storage_map` are tried on: crates/sheet/data/segments and crates/storage_map/data/segments.

    make_segments.py TARGET/bin/crms

Each data segment is laid out, loaded and run by the line tool, and some of its words are then set by hand; what the tool dumps is
written as big-endian words.
"""
import pathlib
import subprocess
import sys

CRATES = pathlib.Path(__file__).resolve().parent.parent
TOOL = sys.argv[1]

# Document 01's M1 and M2, with two assignments; and a function of NO_OPERATION.
REGULAR = "000000020002000500000000000100034005a991d008d00891d009b3"
OTHER = "00000002000200030000000000010001b2000000"
ALTERNATE = "00000001"


def segment(regular, words, *commands):
    """The words of a segment after these commands."""
    script = [f"reg {regular}", f"alt {ALTERNATE}", f"seg {words}", *commands, "dump"]
    answers = subprocess.run([TOOL], input="\n".join(script) + "\n", stdout=subprocess.PIPE, text=True, check=True).stdout
    assert "error" not in answers, answers
    return [int(word, 16) for word in answers.splitlines()[-1].split()[1:]]


def changed(words, **at):
    """The same words but for some, as w26=0x40001."""
    return [at.get(f"w{i}", word) for i, word in enumerate(words)]


def load(address, lengths, first=1):
    """Loads the numbers from `first` on."""
    count = 1
    for length in lengths:
        count *= length
    elements = " ".join(f"{first + i:x}" for i in range(count))
    return f"load {address} {len(lengths)} {' '.join(map(str, lengths))} | {elements}"


def scalar(address):
    return f"load {address} 0 | 7"


def big_endian(words):
    return b"".join(word.to_bytes(4, "big") for word in words)


def write(crate, segments):
    folder = CRATES / crate / "data" / "segments"
    for name, data in segments.items():
        (folder / f"{name}.seg").write_bytes(data)


regular, other, alternate = map(bytes.fromhex, (REGULAR, OTHER, ALTERNATE))
m1 = segment(REGULAR, 64, "layout 0 1 4 24")
# the array of M2 in globals 8 and 9, and by hand in 10
shared = segment(REGULAR, 64, "layout 0 1 4 24", "run 5", "word 10 02000019", "word 26 00030001")
slop = segment(OTHER, 64, "layout 0 1 4 24", load(8, [16], 0))
longest = segment(OTHER, 16384, "layout 0 1 8 16300", load(8, [300], 0))

# arrays of 1, 2, 3 and 6 cells, slop, and two free blocks; cells 15 to 22 are set by hand
cells = segment(
    OTHER, 200, "layout 0 1 20 110",
    load(8, [5]), load(9, [18]), load(10, [2, 6]), load(11, [7]), load(12, [3]), load(13, [9]),
    scalar(9), load(14, [16]), scalar(11),
    "words 15 0200005a 0200004a 0200004a 0200003e 0200003e 0200003e 0200003e 0200003e",
    "word 91 00020002", "word 75 00030001", "word 63 00060001",
)

# 300 arrays, of which every third is let go again and some come back a word or two shorter
many = segment(
    OTHER, 2600, "layout 0 1 300 2100",
    *(load(8 + i, [1 + i % 5]) for i in range(300)),
    *(scalar(8 + i) for i in range(0, 300, 3)),
    *(load(8 + i, [1 + i % 3]) for i in range(0, 300, 12)),
)

write("sheet", {
    "regular": regular,
    "regular-not-words": regular[:-1],
    "regular-longest": regular.ljust(32768, b"\0"),
    "regular-too-long": regular.ljust(32772, b"\0"),
    "other-regular": other,
    "alternate": alternate,
    "m1": big_endian(m1),
    "not-words": big_endian(m1) + b"\0",
    "short": big_endian(m1[:31]),
    "shared": big_endian(shared),
    "bad-size": big_endian(changed(shared, w12=0x80000005)),
    "bad-count": big_endian(changed(shared, w26=0x00040001)),
    "slop": big_endian(slop),
    "longest": big_endian(longest),
    "too-long": big_endian(longest + [0]),
})
write("storage_map", {
    "regular": regular,
    "other-regular": other,
    "alternate": alternate,
    "m1": big_endian(m1),
    "cells": big_endian(cells),
    "cells-bad-count": big_endian(changed(cells, w75=0x00040001)),
    "many": big_endian(many),
})
