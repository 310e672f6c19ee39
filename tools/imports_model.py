#!/usr/bin/env python3
"""imports_model.py: a file of imports for crates/imports_cases and what the program must write, by the words of document 02,
paper 1, told on a list of bytes that is used up from its front. Writes the crate's stdin and stdout. Run it at the root of the
repository."""

# a vector; a scalar of three groups; a matrix with a two-group address and the greatest integer; an array of no elements, with
# the greatest length; a run of a two-group count
RECORDS = [
    [0, 9, 1, 3, 5, 0, 300],
    [0, 10, 0, 100_000],
    [0, 300, 2, 2, 3, 1, 2, 3, 4, 5, 8_388_607],
    [0, 8, 2, 0, 268_435_455],
    [1, 1000],
]


class Refused(Exception):
    pass


def written(number):
    """Groups of seven bits, the low group first; every byte but the last has its top bit set."""
    groups = [number & 0x7F]
    while number >> (7 * len(groups)):
        groups.append(number >> (7 * len(groups)) & 0x7F)
    return [group | 0x80 for group in groups[:-1]] + groups[-1:]


def take_number(left):
    groups, more = [], True
    while more:
        if not left or len(groups) == 4:
            raise Refused
        byte = left.pop(0)
        groups.append(byte & 0x7F)
        more = byte & 0x80
    if len(groups) > 1 and groups[-1] == 0:
        raise Refused
    return sum(group << (7 * i) for i, group in enumerate(groups))


def take_record(left):
    kind = take_number(left)
    if kind == 1:
        take_number(left)
        return
    if kind != 0:
        raise Refused
    take_number(left)
    rank = take_number(left)
    if rank > 15:
        raise Refused
    count = 1
    for _ in range(rank):
        count *= take_number(left)
    if count > 16_384:
        raise Refused
    for _ in range(count):
        if take_number(left) > 8_388_607:
            raise Refused


def ending(file):
    left, records = list(file), 0
    while left:
        place = len(file) - len(left)
        try:
            take_record(left)
        except Refused:
            return f"records {records} malformed {place}"
        records += 1
    return f"records {records} ends"


def main():
    file = [byte for record in RECORDS for number in record for byte in written(number)]
    lines = [f"cut {n} {ending(file[:n])}" for n in range(len(file) + 1)]
    for place, byte in enumerate(file):
        for changed in (byte ^ 0x80, 0x00, 0xFF, (byte + 1) % 0x100):
            lines.append(f"byte {place} as {changed:02x} {ending(file[:place] + [changed] + file[place + 1:])}")
    with open("crates/imports_cases/stdin", "wb") as out:
        out.write(bytes(file))
    with open("crates/imports_cases/stdout", "w") as out:
        out.write("\n".join(lines) + "\n")


main()
