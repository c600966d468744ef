"""Triples x, y, z for the fused step x * y + z of either format: each generator is after one way of rounding wrongly."""
from fractions import Fraction

from exact import F32
from hostile import beside, special_triples


def scaled(f, d, significand, exponent):
    """significand * 2^exponent as a pattern of f, of either sign."""
    return f.rounded(d.bits(1), significand * Fraction(2) ** exponent)


def last_place(f, x):
    """The exponent of the last place of a finite pattern."""
    return max(x % f.sign // f.hidden, 1) - 1 - f.low


def split(f, d, exponent):
    """Two exponents with the given sum, such that significands of f's digits at either are values of f."""
    least, most = -f.low, f.low - 2 * f.digits + 2
    first = d.between(max(least, exponent - most), min(most, exponent - least))
    return first, exponent - first


def almost_a_power(f, d):
    """Two significands whose product is 2^(2 * digits - 1), or so little beside it that rounding the product first, or (f32) the sum to f64, loses the rest."""
    middle = 1 << (2 * f.digits - 1)
    while True:
        a = f.hidden + d.bits(f.digits - 1)
        b = (2 * middle + a) // (2 * a)
        if b.bit_length() == f.digits and (f is not F32 or abs(a * b - middle) < 1 << 18):
            return a, b


def ties(f, d):
    """z and a product of half a last place of z, or of an odd number of halves: exactly, or almost."""
    z = d.of([d.float(f, 30 - f.low, f.low - 90), d.bits(f.digits - 1)])
    half = last_place(f, z) - 1
    if d.bits(2):
        a, b = almost_a_power(f, d)
        half -= 2 * f.digits - 1
    else:
        a, b = d.of([(1, 1), (3, 1), (5, 7), (2 * d.bits(5) + 1, 2 * d.bits(5) + 1)])
    i, k = split(f, d, half)
    return scaled(f, d, a, i), scaled(f, d, b, k), z ^ d.bits(1) * f.sign


def far_apart(f, d):
    """The product's leading digit at any distance from z's at which they still meet in one rounding, and a little beyond."""
    z = d.float(f, 30 - f.low, f.low - 90)
    distance = d.of([d.between(-4, 4), f.digits + d.between(-3, 3), -f.digits + d.between(-3, 3), 2 * f.digits + d.between(-3, 3), -2 * f.digits + d.between(-3, 3)])
    i, k = split(f, d, last_place(f, z) + distance - f.digits + 1)
    x, y = d.float(f, 0, 0), d.float(f, 0, 0)
    return scaled(f, d, abs(f.value(x)) * f.hidden, i), scaled(f, d, abs(f.value(y)) * f.hidden, k), z


def cancelled(f, d):
    """z is the product's negative, rounded, or a neighbour of it: what is left is tiny, or an exact zero."""
    x, y = d.float(f, -f.low // 3, f.low // 3), d.float(f, -f.low // 3, f.low // 3)
    if d.bits(1):                                               # (m + n)(o - n) - m * o, where m * o is a value of f: a little above zero is left, or below
        half = f.digits // 2
        m = (d.bits(half - 2) + 2) << half
        o, n = m + (d.between(-1, 1) << half), d.bits(d.between(1, half)) + 1
        x, y = f.near(Fraction(m + n)), f.near(Fraction(d.of([1, -1]) * (o - n)))
        return x, y, f.near(-f.value(x) * f.value(y))
    z = f.near(-f.value(x) * f.value(y))
    return x, y, d.of(beside(f, z, (0, 0, 0, 1, -1)))


def completed(f, d):
    """z makes the digits of the product that rounding would lose into a half, into nothing or into a whole, or misses that by a last place of its own."""
    a, b = f.hidden + d.bits(f.digits - 1), f.hidden + d.bits(f.digits - 1)
    lost = (a * b).bit_length() - f.digits
    z = d.of([1 << (lost - 1), 1 << (lost - 1), 0, 1 << lost]) - a * b % (1 << lost)
    i, k = split(f, d, d.between(-f.low // 2, f.low // 2))
    x, y = scaled(f, d, a, i), scaled(f, d, b, k)
    z = f.rounded((x ^ y) // f.sign ^ (z < 0), abs(z) * Fraction(2) ** (i + k))
    return x, y, d.of(beside(f, z, (0, 0, 1, -1)))


def below(f, d):
    """A product at or below the smallest value, with z a zero, a subnormal or a power of two."""
    a, b = d.of([(1, 1), (3, 1), almost_a_power(f, d), (f.hidden + d.bits(f.digits - 1), f.hidden + d.bits(f.digits - 1))])
    size = (a * b).bit_length() - 1
    i, k = split(f, d, -f.low - d.of([0, 1, 2, 3, d.between(2, f.low - 2 * f.digits)]) - size)
    z = d.of([0, 0, 1, 2, 3, d.bits(f.digits - 1), f.hidden - 1, f.hidden, d.between(1, 40) * f.hidden])
    return scaled(f, d, a, i), scaled(f, d, b, k), z + d.bits(1) * f.sign


def over(f, d):
    """z beside the largest value, and a product of about half its last place; or a product beyond the largest value that z takes back."""
    largest = f.infinity - 1
    half = last_place(f, largest) - 1
    if d.bits(1):
        a, b = d.of([(1, 1), (3, 1), almost_a_power(f, d)])
        i, k = split(f, d, half - (0 if a < 4 else 2 * f.digits - 1))
        z = largest - d.of([0, 0, 0, 1, 2])
    else:
        a, b = f.hidden + d.bits(f.digits - 1), f.hidden + d.bits(f.digits - 1)
        i, k = split(f, d, half + 3 - f.digits - d.between(0, 1))
        z = largest - d.of([0, 1, d.bits(f.digits - 2)])
    return scaled(f, d, a, i), scaled(f, d, b, k), z + d.bits(1) * f.sign


def anything(f, d):
    return d.pattern(f), d.pattern(f), d.pattern(f)


def to_fuse(f, d):
    yield from special_triples(f, d)
    while True:
        for kind in (ties, ties, completed, far_apart, cancelled, below, over, anything):
            yield kind(f, d)
