#!/usr/bin/env python3
"""storage_model.py SEED STEPS: a script for crates/storage_script and what the program must write, by document 01's rules
told on a list of blocks and a list for the ring, without words. Writes the crate's stdin and stdout (they are those of
seed 4 and 400 steps). Run it at the root of the repository."""
import random, sys

BLOCKPTR, DUMMY, CELLS = 8, 77, 16


class Free:
    def __init__(self, size):
        self.size = size
        self.span = size


class Array:
    def __init__(self, size, slop, total):
        self.size, self.slop, self.span, self.total, self.count = size, slop, size + slop, total, 1


class Storage:
    """Blocks in the order of their addresses; the ring in the order of NEXT, from the dummy (None)."""

    def __init__(self):
        first = Free(DUMMY - BLOCKPTR)
        self.blocks, self.ring, self.rover = [first], [None, first], first
        self.cells = [None] * CELLS

    def address(self, block):
        at = BLOCKPTR
        for b in self.blocks:
            if b is block:
                return at
            at += b.span
        return DUMMY

    def along(self, block, way):
        return self.ring[(self.ring.index(block) + way) % len(self.ring)]

    def request(self, need, total):
        start = self.ring.index(self.rover)
        for found in self.ring[start:] + self.ring[:start]:
            if found is not None and need <= found.size:
                break
        else:
            return None
        self.rover = self.along(found, 1)
        i = self.blocks.index(found)
        if found.size - need >= 3:
            new = Array(need, 0, total)
            found.size -= need
            found.span = found.size
            self.blocks.insert(i + 1, new)
        else:
            new = Array(need, found.size - need, total)
            self.blocks[i] = new
            self.ring.remove(found)
        return new

    def release(self, block):
        i = self.blocks.index(block)
        before = self.blocks[i - 1] if i and isinstance(self.blocks[i - 1], Free) else None
        after = self.blocks[i + 1] if i + 1 < len(self.blocks) and isinstance(self.blocks[i + 1], Free) else None
        merged = Free(block.span + (before.size if before else 0) + (after.size if after else 0))
        gone = [b for b in (before, block, after) if b]
        self.blocks[self.blocks.index(gone[0]):self.blocks.index(gone[-1]) + 1] = [merged]
        if before:
            self.ring[self.ring.index(before)] = merged
            if after:
                self.ring.remove(after)
        elif after:
            self.ring[self.ring.index(after)] = merged
        else:
            self.ring.insert(1, merged)
        if self.rover is not None and self.rover in (before, after):
            self.rover = merged

    def drop(self, array):
        if array is None:
            return
        array.count -= 1
        if array.count == 0:
            self.release(array)

    def assign(self, cell, array):
        old, self.cells[cell] = self.cells[cell], array
        self.drop(old)

    def step(self, letter, a, b, value):
        if letter in "vm":
            shape = [b] if letter == "v" else [b, 2]
            n = b if letter == "v" else 2 * b
            new = self.request(2 + len(shape) + n, (sum(shape) + n * value) % 2**32)
            if new is None:
                return 0
            self.assign(a, new)
            return self.address(new)
        if letter == "s":
            array = self.cells[a]
            if array is not None:
                array.count += 1
            self.assign(b, array)
            return self.address(array) if array is not None else 0
        for cell in reversed(range(a, a + b)):
            self.drop(self.cells[cell])
        for cell in range(a, a + b):
            self.cells[cell] = None
        return 0

    def walk(self):
        text, free = "", False
        for b in self.blocks:
            text += f" {self.address(b)}{'^' if free else ''}"
            free = isinstance(b, Free)
            text += f"f{b.size}{self.links(b)}" if free else f"a{b.size}+{b.slop}#{b.count}={b.total}"
        return text + f" {DUMMY}{'^' if free else ''}d{self.links(None)}"

    def links(self, block):
        return f">{self.address(self.along(block, 1))}<{self.address(self.along(block, -1))}"


def choose(rng, cells):
    """A step: mostly on cells where it does something."""
    held = [i for i, array in enumerate(cells) if array is not None] or [0]
    kind, cell = rng.random(), rng.randrange(CELLS)
    if kind < 0.4:
        return "v", cell, rng.choice([0, 0, 1, 1, 2, 2, 3, 4, 5, 6, 8, 11, 20])
    if kind < 0.5:
        return "m", cell, rng.randrange(5)
    if kind < 0.65:
        return "s", rng.choice(held), cell
    if kind < 0.97:
        return "d", rng.choice(held), 1
    n = rng.randrange(2, 7)
    return "d", rng.randrange(CELLS - n + 1), n


rng = random.Random(int(sys.argv[1]))
storage, lines, out = Storage(), [], []
for i in range(int(sys.argv[2])):
    letter, a, b = choose(rng, storage.cells)
    line = f"{letter} {a:02} {b:02}"
    at = storage.step(letter, a, b, 8 * i)
    lines.append(line)
    out.append(f"{line} at {at} rover {storage.address(storage.rover)}{storage.walk()}")
folder = "crates/storage_script/"
open(folder + "stdin", "w").write("\n".join(lines) + "\n")
open(folder + "stdout", "w").write("\n".join(out) + "\n")
