#!/usr/bin/env python3
"""Writes a guest without end whose code is of a given form: code.py OUT loop INSTRUCTIONS, a loop of so many instructions on
registers; code.py OUT jumps COUNT DISTANCE, jumps in a circle, so many, so far apart."""
import struct
import sys

BASE = 0x10000
PAGE = 4096

# The instructions that a loop has again and again.
STEPS = [
    0x00B50533,  # add a0, a0, a1
    0x00A64633,  # xor a2, a2, a0
    0x00761693,  # slli a3, a2, 7
    0x00965713,  # srli a4, a2, 9
    0x00E6E7B3,  # or a5, a3, a4
    0x00158593,  # addi a1, a1, 1
]


def load_upper(register, value):
    return value & 0xFFFFF000 | register << 7 | 0x37


def jump_register(register):
    return register << 15 | 0x67


def loop(count):
    """A loop of so many instructions: its first one is at the base."""
    steps = [STEPS[place % len(STEPS)] for place in range(count - 2)]
    return [(BASE, steps + [load_upper(5, BASE), jump_register(5)])], BASE


def jumps(count, distance):
    """So many jumps, each in a page of its own, and what loads their addresses into s2 and the registers after it."""
    begin = BASE + PAGE
    places = [begin + number * distance for number in range(count)]
    loads = [load_upper(18 + number, place) for number, place in enumerate(places)]
    parts = [(BASE, loads + [jump_register(18)])]
    parts += [(place, [jump_register(18 + (number + 1) % count)]) for number, place in enumerate(places)]
    return parts, BASE


def elf(parts, entry):
    """An ELF file of these parts, each a segment that can be read and executed."""
    headers, bodies, offset = [], [], PAGE
    for place, words in parts:
        body = struct.pack(f"<{len(words)}I", *words)
        headers.append(struct.pack("<IIQQQQQQ", 1, 5, offset, place, place, len(body), len(body), PAGE))
        bodies.append(body.ljust(-(-len(body) // PAGE) * PAGE, b"\0"))
        offset += len(bodies[-1])
    head = struct.pack(
        "<4sBBBBB7xHHIQQQIHHHHHH", b"\x7fELF", 2, 1, 1, 0, 0, 2, 243, 1, entry, 64, 0, 0, 64, 56, len(headers), 64, 0, 0
    )
    return (head + b"".join(headers)).ljust(PAGE, b"\0") + b"".join(bodies)


if __name__ == "__main__":
    form = {"loop": loop, "jumps": jumps}[sys.argv[2]]
    with open(sys.argv[1], "wb") as out:
        out.write(elf(*form(*map(int, sys.argv[3:]))))
