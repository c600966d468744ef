#!/usr/bin/env python3
"""Measures with exact arithmetic how far `elementary`'s sine, cosine and exp2 lie from 01's fractions.

  elementary_errors.py [ARGUMENTS] [SEED]

Does the three functions' f64 steps, in their order, at ARGUMENTS random arguments (default 20000) and at the ends of
the ranges, compares them with Taylor's fractions over exact whole numbers, and prints the largest error of each, in
units of 2^-54 (2^-45 is 512 of them), with the argument. Checks on the way that the reduction's k is the floor of the
exact x/H + 1/2 and that x - kH loses nothing. Needs Python 3.9 and nothing else.
"""
import math, random, sys
from fractions import Fraction as F

H, LN2 = float.fromhex("0x1.921fb54442d18p+0"), float.fromhex("0x1.62e42fefa39efp-1")
HIGH, LOW, INVERSE = 26353589 / 2**24, 8947107 / 2**49, float.fromhex("0x1.45f306dc9c883p-1")
C = [1 / math.factorial(n) for n in range(19)]  # n! is exact in f64 up to 22!, so each is rounded once


def horner(d, z, n, k):
    q = C[n + d * k]
    for i in range(k - 1, -1, -1):
        q = C[n + d * i] + z * q
    return q


def sine_near(x):
    return x * horner(2, -(x * x), 1, 8)


def cosine_near(x):
    return horner(2, -(x * x), 0, 9)


def power_near(x):
    return horner(1, LN2 * x, 0, 13)


def rest(x, j):
    k = float(j) - 256.0
    return x - k * HIGH - k * LOW


def turn(x):
    j = int(x * INVERSE + 256.5)
    r = rest(x, j)
    if r < H / 2:
        return (j - 1, rest(x, j - 1)) if r < -(H / 2) else (j, r)
    return j + 1, rest(x, j + 1)


def nested(d, z, n, k):
    q = F(1, math.factorial(n + d * k))
    for i in range(k - 1, -1, -1):
        q = F(1, math.factorial(n + d * i)) + z * q
    return q


def near(x):
    """Arguments around x: the floats beside it, both signs."""
    a, b = math.nextafter(x, 0), math.nextafter(x, math.inf)
    return [s * v for v in (a, x, b) for s in (1, -1)]


def main(count=20000, seed=1):
    random.seed(seed)
    worst = {}

    def note(name, error, x):
        if error > worst.get(name, (-1, 0))[0]:
            worst[name] = (error, x)

    small = [v for x in (1.0, 0.5, H / 2, 2**-23, 2**-27, 2**-500, 2**-537, 2**-1000, 2**-1022, 2**-1060) for v in near(x) if abs(v) <= 1] + [5e-324, -5e-324]
    small += [random.uniform(-1, 1) * 2.0 ** -random.choice([0, 0, 0, 0, 1, 2, 3, 8, 20, 60]) for _ in range(count)]
    for x in small:
        X = F(x)
        tiny = abs(x) < 2**-80  # then the terms from the third on weigh less than 2^-300 of the first
        note("sine / |x|", abs(F(sine_near(x)) - X * (1 - X * X / 6 if tiny else nested(2, -X * X, 1, 10))) / abs(X), x)
        note("cosine", abs(F(cosine_near(x)) - (1 - X * X / 2 if tiny else nested(2, -X * X, 0, 10))), x)
        assert sine_near(-x) == -sine_near(x) and cosine_near(-x) == cosine_near(x)
    for x in [v for y in (0.5, 2**-30) for v in near(y) if abs(v) <= 0.5] + [0.0] + [random.uniform(-0.5, 0.5) for _ in range(count)]:
        e = nested(1, F(LN2) * F(x), 0, 16)
        note("2^x, relative", abs(F(power_near(x)) - e) / e, x)

    edges = [v for j in range(164) for v in near(float((2 * j + 1) * F(H) / 2))] + [v for k in range(1, 164) for v in near(float(k * F(H)))] + near(1.0) + near(256.0)
    moved = seen = 0
    for x in edges + [random.uniform(-256, 256) for _ in range(count)]:
        if 1 < abs(x) <= 256:
            seen += 1
            k = math.floor(F(x) / F(H) + F(1, 2))
            j, r = turn(x)
            moved += j != int(x * INVERSE + 256.5)
            assert j - 256 == k and F(r) == F(x) - k * F(H) and abs(r) <= H / 2, x
            note("sine beyond 1, to libm's", abs(F((sine_near(r), cosine_near(r), -sine_near(r), -cosine_near(r))[k % 4]) - F(math.sin(x))), x)
    for name, (error, x) in worst.items():
        print(f"{name:26} {float(error * 2**54):8.3f} units of 2^-54 at {x!r}")
    print(f"reduction: {seen} arguments, {moved} guesses one off, k and x - kH exact at all")


if __name__ == "__main__":
    if {"-h", "--help"} & set(sys.argv):
        print(__doc__.strip())
    else:
        main(*map(int, sys.argv[1:]))
