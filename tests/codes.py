#!/usr/bin/env python3
"""Asks of 100,000 codes, made at random or from sound ones by a change, whether they are sound, and compares with a plain
checker that goes by the profile's words: where loops lie, where jumps lead, what stands on the operands.

Use: tests/codes.py PROGRAM    (the program of `i7story`; that of `calls` is built where it isn't yet)"""
import random
import struct
import subprocess
import sys
import tempfile

from plain_codes import BODY, COUNTS, JUMP, ROWS, TEST, Maker, changed, is_sound, packed_counts
from programs import calls_of

calls = calls_of("codes")
HOW_MANY = 100_000


def drawn(chance):
    """A code, its use, the loops around it, and what there is."""
    role = chance.randrange(3)
    around = chance.choice([0, 0, 0, 1, 2, 7, 8, 9]) if role == TEST else 0
    sizes = {name: chance.choice([1, 2, 3, 300]) for name in COUNTS}
    sizes["values"] = chance.choice([[], [1], [2, 1], [3, 100, 2]])
    sizes["own"] = chance.choice([0, 0, 1])
    sizes["codes"] = sizes["own"] + chance.choice([2, 3, 400])
    shape = chance.randrange(4)
    code = bytes(chance.choice(list(ROWS) + [0, 1, 2]) for _ in range(chance.randrange(12))) if shape == 0 else Maker(chance, role, around, sizes).code()
    return (changed(chance, code) if shape > 1 else code), role, around, sizes


def long(chance):
    """A code of many bytes, which a jump passes over, up to one that is too long."""
    length = chance.choice([4_095, 4_096, 4_097, 30_000, 65_535, 65_536])
    goal = chance.choice([3, 4, 4_095, 4_096, length - 1, length, length + 1])
    code = struct.pack(">BH", JUMP, min(goal, 65_535)) + bytes([0x38]) * (length - 3)
    return code, BODY, 0, {**{name: 1 for name in COUNTS}, "values": []}


def packed(code, role, around, sizes):
    return bytes([role, around]) + packed_counts(sizes) + len(code).to_bytes(3, "big") + code


chance = random.Random(20261123)
codes = [drawn(chance) for _ in range(HOW_MANY)] + [long(chance) for _ in range(40)]
with tempfile.NamedTemporaryFile() as file:
    file.write(b"".join(packed(*one) for one in codes))
    file.flush()
    told = subprocess.run([*calls, file.name], capture_output=True, check=True).stdout.decode()
assert len(told) == len(codes), f"codes: {len(told)} answers for {len(codes)} codes"
failed = 0
for digit, one in zip(told, codes):
    if digit != ("1" if is_sound(*one) else "0"):
        failed += 1
        if failed <= 5:
            print(f"codes: {digit} told of {one[0].hex()} for use {one[1]}, {one[2]} loops around, {one[3]}")
sound = told.count("1")
assert 20_000 < sound < 80_000, f"codes: {sound} are sound, so the others are hardly tried"
print(f"codes: {len(codes) - failed} passed, {failed} failed ({sound} sound)")
sys.exit(failed > 0)
