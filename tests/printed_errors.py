#!/usr/bin/env python3
"""Holds the decimals that compare prints, and the error behind their ±, to exact fractions: 3,000 modules, two at a time.

A module is a few chains of buffers, each chain read by an output, so that its exact reliability is known: a chain is right where an even number of its
gates flip. What must hold of each line: the decimals are the units to the nearest part of 10^-10; every number that is no further from the units than
one half unit more than the error lies within the printed error of the printed decimals; with one part less that is not so; and the exact reliability
lies within it too.
"""
import math
import pathlib
import random
import re
import struct
import subprocess
import sys
import tempfile
from fractions import Fraction

RUNS = 1500
PARTS = 10**10
LINE = re.compile(r"inputs 0 gates (\d+) outputs (\d+) live (\d+) average (\d+) error (\d+) (\d+\.\d{10}) ± (\d+\.\d{10})")


def chance(source):
    """A chance that a gate may have, of any size."""
    pick = source.randrange(6)
    if pick == 0:
        return source.choice([0.0, 0.25, 0.5, 2.0**-31, 3 * 2.0**-31, 5e-324])
    return source.random() / 2 if pick < 3 else source.random() * 10.0 ** -source.randrange(1, 12) / 2


def module(source):
    """The image of some chains, and its exact reliability."""
    records, outputs, exact = b"", [], Fraction(1)
    for _ in range(source.choice([1, 1, 1, 2, 3])):
        even = Fraction(1)  # the chance of an even number of flips less that of an odd one
        for link in range(source.choice([1, 2, 3, 10, 40])):
            kind = source.randrange(3)
            if kind == 2:
                field = struct.pack("<2f", source.random() * 10.0 ** -source.randrange(5), source.random() / 2)
                flip = Fraction(struct.unpack("<2f", field)[0]) * Fraction(struct.unpack("<2f", field)[1])
            else:
                field = struct.pack("<d", chance(source) if kind else 0.0)
                flip = Fraction(struct.unpack("<d", field)[0])
            pins, table, pin = (0, 1, 0) if link == 0 else (1, 2, len(records) // 20 - 1)
            records += struct.pack("<BBH4H", pins, kind, table, pin, 0, 0, 0) + field
            even *= 1 - 2 * flip
        outputs.append(len(records) // 20 - 1)
        exact *= (1 + even) / 2
    body = records + struct.pack(f"<{len(outputs)}H", *outputs)
    return body + struct.pack("<4H2I", 0, len(records) // 20, len(outputs), 1, len(body), len(body) + 16), exact


def fault(line, exact):
    """What is wrong with a line of a module, or None."""
    found = LINE.fullmatch(line)
    if not found:
        return "it is not laid out as a line of a module"
    units, error = int(found[4]), int(found[5])
    shown, off = Fraction(found[6]), Fraction(found[7])
    figure, half = Fraction(units, 2**30), Fraction(error + 1, 2**31)
    furthest = max(abs(shown - figure - half), abs(shown - figure + half))
    if abs(shown - figure) > Fraction(1, 2 * PARTS):
        return "the decimals are not the units"
    if furthest > off:
        return "the printed error does not hold all that the units' error does"
    if off * PARTS != math.ceil(furthest * PARTS):
        return "a smaller error would do"
    if abs(exact - shown) > off:
        return "the exact reliability lies outside"
    return None


def main(program):
    source = random.Random(20261117)
    errors = set()
    with tempfile.TemporaryDirectory() as folder:
        names = [pathlib.Path(folder, name) for name in ("first", "second")]
        for _ in range(RUNS):
            modules = [module(source) for _ in names]
            for name, (image, _) in zip(names, modules):
                name.write_bytes(image)
            printed = subprocess.run([program, *names], capture_output=True, check=True).stdout.decode().splitlines()
            for line, (_, exact) in zip(printed, modules):
                what = fault(line, exact)
                if what:
                    sys.exit(f"printed_errors: {what}: {line}")
                errors.add(int(LINE.fullmatch(line)[5]))
    if len(errors) < 50:
        sys.exit(f"printed_errors: only {len(errors)} errors are among them")
    print(f"printed_errors: {2 * RUNS} averages with {len(errors)} errors are printed as they must be")


main(sys.argv[1])
