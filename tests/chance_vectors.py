#!/usr/bin/env python3
"""Vectors for the conversion of flip fields, worked out with exact fractions and no code of the bench.

    tests/chance_vectors.py            writes crates/chance_vectors/stdin and stdout
    tests/chance_vectors.py --check    says whether both files are what it would write

A vector has 14 bytes: the kind, the eight bytes of the field, 0 if the field is refused, 1 if it is accepted and 2 if its chance is above 0.5, and the
units as a little-endian u32.
"""
import pathlib
import random
import sys
from fractions import Fraction

CRATE = pathlib.Path(__file__).resolve().parent.parent / "crates" / "chance_vectors"
UNITS_IN_ONE = 2**30
COUNT = 4096
F32, F64 = (8, 23), (11, 52)  # bits of exponent and of fraction


def value(bits, form):
    """The number that a bit pattern stands for, or None for a NaN or an infinity."""
    width, fraction_bits = form
    sign = bits >> (width + fraction_bits)
    exponent = (bits >> fraction_bits) % 2**width
    fraction = bits % 2**fraction_bits
    if exponent == 2**width - 1:
        return None
    bias = 2 ** (width - 1) - 1
    digits = fraction if exponent == 0 else 2**fraction_bits + fraction
    size = Fraction(digits) * Fraction(2) ** (max(exponent, 1) - bias - fraction_bits)
    return -size if sign else size


def pattern(number, form):
    """The bit pattern of a number from 0 up that the form holds exactly."""
    for_digits = form[1] + 1
    bias = 2 ** (form[0] - 1) - 1
    if number == 0:
        return 0
    exponent = max((number.numerator.bit_length() - number.denominator.bit_length()), 1 - bias)
    while exponent > 1 - bias and number < Fraction(2) ** exponent:
        exponent -= 1
    while number >= Fraction(2) ** (exponent + 1):
        exponent += 1
    digits = number / Fraction(2) ** (exponent - form[1])
    assert digits.denominator == 1 and digits < 2**for_digits, number
    digits = int(digits)
    if digits < 2 ** form[1]:
        return digits
    return ((exponent + bias) << form[1]) + digits - 2 ** form[1]


def chance(kind, field):
    """The chance that a field says, or None if it is refused."""
    whole = int.from_bytes(field, "little")
    if kind == 0:
        return Fraction(0) if whole == 0 else None
    if kind == 1:
        numbers = [value(whole, F64)]
    elif kind == 2:
        numbers = [value(whole % 2**32, F32), value(whole >> 32, F32)]
    else:
        return None
    product = Fraction(1)
    for number in numbers:
        if number is None or not 0 <= number <= 1:
            return None
        product *= number
    return product


def vector(kind, field):
    exact = chance(kind, field)
    answer, units = 0, 0
    if exact is not None:
        answer = 2 if exact > HALF else 1
        units = round(exact * UNITS_IN_ONE)  # a half goes to the even whole number
    return bytes([kind]) + field + bytes([answer]) + units.to_bytes(4, "little")


def plain(bits):
    return 1, (bits % 2**64).to_bytes(8, "little")


def strike(first, second):
    return 2, (first % 2**32).to_bytes(4, "little") + (second % 2**32).to_bytes(4, "little")


def around(bits):
    return [bits - 1, bits, bits + 1]


HALF = Fraction(1, 2)
ONE64, ONE32 = pattern(Fraction(1), F64), pattern(Fraction(1), F32)
HALF64, HALF32 = pattern(HALF, F64), pattern(HALF, F32)
INF64, INF32 = 0x7FF << 52, 0xFF << 23
MINUS64, MINUS32 = 1 << 63, 1 << 31


def fixed_fields():
    """The sheets of document 01 and the edges of both forms."""
    for number in [Fraction(1, 2), Fraction(1), Fraction(1, 2**31), Fraction(1, 2**32), Fraction(3, 2**31), Fraction(5, 2**31), Fraction(1, 4), Fraction(3, 4)]:
        for bits in around(pattern(number, F64)):
            yield plain(bits)
            yield plain(bits | MINUS64)
    yield plain(0x3FA999999999999A)  # 0.05
    for odd in (1, 3, 5):
        yield strike(pattern(Fraction(odd, 2**16), F32), pattern(Fraction(1, 2**15), F32))
    edges64 = [0, 1, 2, 2**52 - 1, 2**52, 2**52 + 1, ONE64 - 1, ONE64, ONE64 + 1, ONE64 + 2, INF64 - 1, INF64, INF64 + 1, INF64 + 2**51, MINUS64 - 1]
    edges32 = [0, 1, 2, 2**23 - 1, 2**23, 2**23 + 1, ONE32 - 1, ONE32, ONE32 + 1, ONE32 + 2, INF32 - 1, INF32, INF32 + 1, INF32 + 2**22, MINUS32 - 1]
    for bits in edges64:
        yield plain(bits)
        yield plain(bits | MINUS64)
    for first in edges32:
        for second in edges32:
            yield strike(first, second)
        yield strike(first | MINUS32, ONE32)
        yield strike(ONE32, first | MINUS32)
        yield strike(first | MINUS32, MINUS32)
    for first in around(HALF32):
        for second in around(ONE32):
            yield strike(first, second)
            yield strike(second, first)
    # products that are 0.5 but for one or two of 2^-48
    for first, second in [(10610063, 13264529), (8388609, 16777214), (8392705, 16769026)]:
        yield strike(pattern(Fraction(first, 2**24), F32), pattern(Fraction(second, 2**24), F32))
    for kind in range(256):
        yield kind, bytes(8)
    for kind in (0, 3, 4, 255):
        for place in range(8):
            for byte in (1, 0x80):
                yield kind, bytes(byte if i == place else 0 for i in range(8))


def beside_half(rng):
    """Two f32 whose exact product lies as close to 0.5 as 24 digits allow."""
    first = rng.randrange(2**23 + 1, 2**24)
    second = 2**47 // first + rng.choice([0, 1])
    return strike(pattern(Fraction(first, 2**24), F32), pattern(Fraction(second, 2**24), F32))


def near_half(rng):
    """Two f32 whose exact product lies as close to a half unit as 24 digits allow, so that a rounded product may land on it or past it."""
    first = rng.randrange(2**23, 2**24)
    half = 2 * rng.randrange(0, 2**rng.randrange(1, 30)) + 1  # in half units, of which 2^31 make 1
    low = half * 2**17 // first  # second number, with first / 2^24 and second / 2^24
    second = low + rng.choice([0, 1])
    if not 0 < second < 2**24:
        return strike(pattern(Fraction(first, 2**24), F32), ONE32)
    return strike(pattern(Fraction(first, 2**24), F32), pattern(Fraction(second, 2**24), F32))


def random_field(rng):
    choice = rng.randrange(14)
    if choice == 0:  # an exact half unit, and its neighbours
        return plain(rng.choice(around(pattern(Fraction(2 * rng.randrange(2 ** rng.randrange(1, 31)) + 1, 2**31), F64))))
    if choice == 1:  # a whole unit, and its neighbours
        return plain(rng.choice(around(pattern(Fraction(rng.randrange(1, 2**30), 2**30), F64))))
    if choice == 2:  # any exponent up to that of 1
        return plain(rng.randrange(ONE64 + 2**50))
    if choice == 3:  # a chance that is not small
        return plain(rng.randrange(ONE64 - 2**57, ONE64 + 2**40))
    if choice == 4:  # subnormal
        return plain(rng.randrange(2**52))
    if choice == 5:  # a strike that is exactly a half unit: two odd numbers over 2^15 and 2^16
        return strike(pattern(Fraction(2 * rng.randrange(2**14) + 1, 2**15), F32), pattern(Fraction(2 * rng.randrange(2**15) + 1, 2**16), F32))
    if choice in (6, 7):
        return near_half(rng)
    if choice == 8:  # a strike of two numbers that are not small
        return strike(rng.randrange(ONE32 - 2**26, ONE32 + 1), rng.randrange(ONE32 - 2**26, ONE32 + 1))
    if choice == 9:  # a strike of any two chances
        return strike(rng.randrange(ONE32 + 4), rng.randrange(ONE32 + 4))
    if choice == 10:  # a NaN in one place or the other
        nan = INF32 + rng.randrange(1, 2**23) + rng.choice([0, MINUS32])
        fine = rng.randrange(ONE32 + 1)
        return rng.choice([strike(nan, fine), strike(fine, nan), plain(INF64 + rng.randrange(1, 2**52) + rng.choice([0, MINUS64]))])
    if choice == 11:  # a strike next to 0.5
        return beside_half(rng)
    if choice == 12:  # a chance within two units of 0.5
        return plain(HALF64 - 2**22 + rng.randrange(2**24))
    return rng.randrange(4), rng.randbytes(8)


def vectors():
    rng = random.Random(20261115)
    made = [vector(kind, field) for kind, field in fixed_fields()]
    while len(made) < COUNT:
        made.append(vector(*random_field(rng)))
    assert len(made) == COUNT
    return b"".join(made)


def main():
    files = {"stdin": vectors(), "stdout": b"conversions %d agree\n" % COUNT}
    wrong = 0
    for name, content in files.items():
        path = CRATE / name
        if sys.argv[1:] == ["--check"]:
            same = path.exists() and path.read_bytes() == content
            print(path.name, "is as made" if same else "DIFFERS from what is made")
            wrong += not same
        else:
            path.write_bytes(content)
    sys.exit(1 if wrong else 0)


main()
