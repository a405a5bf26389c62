"""32-bit floats by exact arithmetic: a decimal's nearest float, and a float's shortest decimal."""

from fractions import Fraction

INFINITY = 0x7F800000
SIGN = 0x80000000


def magnitude(bits):
    """The exact value of non-negative float bits; infinity's count as the next power of two."""
    exponent, fraction = bits >> 23, bits & 0x7FFFFF
    if exponent == 0:
        return Fraction(fraction, 2 ** 149)
    return Fraction(fraction + 2 ** 23) * Fraction(2) ** (exponent - 150)


def nearest(value):
    """The bits of the float nearest to a non-negative fraction, ties to even; may be INFINITY."""
    low, high = 0, INFINITY
    while low < high:  # the largest bits whose value is at most `value`
        middle = (low + high + 1) // 2
        if magnitude(middle) <= value:
            low = middle
        else:
            high = middle - 1
    return low if rounds_to(value, low) else low + 1


def rounds_to(value, bits):
    """Whether these bits are nearest to a non-negative fraction: up to half way, ties to even."""
    if bits == INFINITY:
        return True  # asked only of what is no less than it
    low = (magnitude(bits - 1) + magnitude(bits)) / 2 if bits else 0
    high = (magnitude(bits) + magnitude(bits + 1)) / 2
    return low <= value <= high if bits % 2 == 0 else low < value < high


def of_decimal(text):
    """The bits for a decimal such as `-0.25`; None where no finite float is nearest."""
    negative = text.startswith("-")
    bits = nearest(Fraction(text.lstrip("-")))
    if bits == INFINITY:
        return None
    return bits | SIGN if negative else bits


def decimal(bits):
    """The decimal with fewest places that reads back to these bits; words if not finite."""
    if bits & ~SIGN > INFINITY:
        return "not a number"
    if bits & SIGN:
        return "-" + decimal(bits & ~SIGN)
    if bits == INFINITY:
        return "infinity"
    value, places = magnitude(bits), 0
    while True:
        scaled = value * 10 ** places
        floor = scaled.numerator // scaled.denominator
        # The larger first, so that min takes it at a tie.
        readable = [n for n in (floor + 1, floor) if rounds_to(Fraction(n, 10 ** places), bits)]
        if readable:
            return with_places(min(readable, key=lambda n: abs(n - scaled)), places)
        places += 1


def with_places(number, places):
    digits = str(number).rjust(places + 1, "0")
    return digits if places == 0 else "%s.%s" % (digits[:-places], digits[-places:])
