#!/usr/bin/env python3
"""Brings the definitions and lemmas of this repository to the library's spelling: lower camel case becomes snake case.

usage: python3 tools/respell.py     at the top of the repository, once, after the kit's port.py

Names are turned word by word, in .antt files, in the clauses, ghost lines and comments of .rt files (their strings stay), and
in must-fail edits. A word is turned where a .antt file of the repository has it and no library outside it does. Names of
Rust functions, types and variants are in the library's spelling already. The script stops, and writes nothing, where two
names would fall together in one file.
"""

import collections
import os
import re
import sys

LOWER_CAMEL = re.compile(r"^[a-z][a-z0-9]*([A-Z][a-z0-9']*)+$")
WORD = re.compile(r"(?<![\w'-])[A-Za-z_][\w'-]*")
# Lemmas that would have their function's name, as the kit's script left them.
LEMMAS = {"laid_out", "array_kind", "index_in", "from_first", "with_byte", "float_word", "place_at"}
LONE_LEMMA = re.compile(r"(?<![\w'.-])(" + "|".join(sorted(LEMMAS)) + r")(?![\w'-]|\.(?:Statement|Tie))")
# A lemma and the field of a record that it fills.
FIELDS = {"in_order", "one_by_one", "made_again", "read_back", "high_end"}
# A function of the library that has another name now.
PARTS = {"getD": "get_or"}


def snake(name):
    return re.sub(r"(?<=[a-z0-9'])(?=[A-Z])|(?<=[A-Z])(?=[A-Z][a-z])", "_", name).lower()


def files(ending):
    for folder, dirs, names in os.walk("crates"):
        dirs[:] = sorted(d for d in dirs if d != "out")
        for name in sorted(names):
            if name.endswith(ending):
                yield os.path.join(folder, name)


def read(path):
    with open(path, encoding="utf-8") as f:
        return f.read()


def bare(text, comment):
    return re.sub(re.escape(comment) + ".*", "", text)


def outside(texts):
    """Words that come from libraries outside the repository."""
    crates = set(os.listdir("crates"))
    found = set()
    for text in texts:
        for m in re.finditer(r"^[ \t]*(?:pub )?use ([^\s{]+)\.\{([^}]*)\}", text, re.M):
            parts = m.group(1).split(".")
            if parts[0] != "Rattle" or parts[1] not in crates:
                found |= {p for n in m.group(2).split(",") for p in n.strip().split(" as ")[0].split("-")}
    return found


def renamed(texts):
    words = {p for t in texts for w in WORD.findall(t) for p in w.split("-") if LOWER_CAMEL.match(p)}
    turned = {w: snake(w) for w in words - outside(texts)}
    turned.update({k: v for k, v in PARTS.items() if k in words})
    return turned


def turn_word(word, turned):
    return "-".join(turned.get(p, p) for p in word.split("-"))


def turn(text, turned):
    return WORD.sub(lambda m: turn_word(m.group(0), turned), text)


def turn_logic(text, turned):
    return turn(LONE_LEMMA.sub(r"\1_lem", text), turned)


def turn_rust(text, turned):
    """All but the strings."""
    parts = re.split(r'("(?:[^"\\\n]|\\.)*")', text)
    return "".join(p if i % 2 else turn(p, turned) for i, p in enumerate(parts))


def together(path, text, turned):
    """Two words of one file, that are not parts of a path to a proof, which would be one."""
    text = re.sub(r"Rattle\.[\w.'-]+", "", LONE_LEMMA.sub("", text))
    before = collections.defaultdict(set)
    for w in set(WORD.findall(text)):
        before[turn_word(w, turned)].add(w)
    return [f"{path}: {sorted(v)} would be {k}" for k, v in sorted(before.items()) if len(v) > 1 and k not in FIELDS]


def main():
    logic = {p: read(p) for p in files(".antt")}
    code = {p: read(p) for p in files(".rt")}
    edits = {p: read(p) for p in files(".edit")}
    turned = renamed([bare(t, "--") for t in logic.values()])
    wrong = [line for p, t in logic.items() for line in together(p, bare(t, "--"), turned)]
    for p, t in code.items():
        words = set(WORD.findall(bare(t, "//")))
        values = set(re.findall(r"(?:let (?:mut )?|[(,] *(?:mut )?)([a-z_]\w*)\b(?= *[:=])", bare(t, "//"))) | set(re.findall(r"^ +(?:pub )?([a-z_]\w*):", t, re.M))
        wrong += [f"{p}: {w} would be the value {turn_word(w, turned)}" for w in sorted(words) if turn_word(w, turned) != w and turn_word(w, turned) in values]
    if wrong and "--anyway" not in sys.argv:
        print("\n".join(wrong))
        print(f"respell: {len(wrong)} names fall together; nothing is written")
        return 1
    count = 0
    for texts, how in ((logic, turn_logic), (code, turn_rust), (edits, turn)):
        for path, text in texts.items():
            new = how(text, turned)
            if new != text:
                with open(path, "w", encoding="utf-8") as f:
                    f.write(new)
                count += 1
    print(f"respell: {len(turned)} words, {count} files")
    return 0


if __name__ == "__main__":
    raise SystemExit(main())
