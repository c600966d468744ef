#!/usr/bin/env python3
"""Measures with exact fractions how far the sum called I0 lies from I0's series (Abramowitz and Stegun 9.6.12; W5a).

  bessel_errors.py [BETAS] [SEED]

Does the sum's f64 steps, in their order, with 24 terms (ported) and with 64 (full), at six betas and at BETAS random
ones from 0 to 20 (default 20000), and compares each with the series over exact whole numbers. Prints after how many
terms each ends and how far it lies from the series, relative to it; then the worst of the random ones, and the
greatest beta at which the tolerance ends the ported sum, by halving. Needs Python 3.9 and nothing else.
"""
import math
import random
import struct
import sys

LIMITS = {"ported": 24, "full": 64}
LISTED = (10.0, 10.9, 12.0, 14.0, 16.0, 20.0)
HALF_STEP = 2.0**-53  # one rounding of a sum at most, relative


def summed(x, limit):
    """000's bessel_i0 with `limit` for its 24: the sum, the terms added, and whether the tolerance ended it."""
    y = x * x / 4.0
    total = term = 1.0
    for k in range(1, limit + 1):
        term *= y / (float(k) * float(k))
        total += term
        if term < total * 1.0e-16:
            return total, k, True
    return total, limit, False


def series(x, terms=120):
    """I0's series as a fraction n / d: at 20 the terms left out weigh less than 2^-500 of it."""
    a, b = x.as_integer_ratio()
    p, q = a * a, 4 * b * b
    n = d = 1
    for k in range(terms, 0, -1):
        n, d = d * q * k * k + p * n, d * q * k * k
    return n, d


def error(total, n, d):
    """(total - n / d) / (n / d), in f64."""
    a, b = total.as_integer_ratio()
    return ((a * d - n * b) * 2**300 // (n * b)) / 2**300


def last_ended(low, high, limit):
    """The greatest f64 in between at which the tolerance ends the sum, where it does up to there and not behind."""
    pattern = lambda x: struct.unpack("<Q", struct.pack("<d", x))[0]
    number = lambda k: struct.unpack("<d", struct.pack("<Q", k))[0]
    a, b = pattern(low), pattern(high)
    while b - a > 1:
        c = (a + b) // 2
        if summed(number(c), limit)[2]:
            a = c
        else:
            b = c
    return number(a)


def main(count=20000, seed=1):
    random.seed(seed)
    print(f"{'beta':>6} {'mode':7} {'terms':>5} {'ended by':10} {'relative error':>14} {'last term':>12}")
    for beta in LISTED:
        n, d = series(beta)
        for mode, limit in LIMITS.items():
            total, k, ended = summed(beta, limit)
            last = (beta * beta / 4.0) ** k / math.factorial(k) ** 2
            why = "tolerance" if ended else "limit"
            print(f"{beta:6} {mode:7} {k:5} {why:10} {error(total, n, d):14.2e} {last:12.3e}")
    worst = {mode: (0.0, 0.0) for mode in LIMITS}
    most = {mode: 0 for mode in LIMITS}
    by_limit = {mode: 0 for mode in LIMITS}
    where_ended = 0.0
    for _ in range(count):
        beta = 20.0 * random.random()
        n, d = series(beta)
        for mode, limit in LIMITS.items():
            total, k, ended = summed(beta, limit)
            e = abs(error(total, n, d))
            worst[mode] = max(worst[mode], (e, beta))
            most[mode] = max(most[mode], k)
            by_limit[mode] += not ended
            if mode == "ported" and ended:
                where_ended = max(where_ended, e)
    for mode in LIMITS:
        e, beta = worst[mode]
        print(f"{mode}: {count} random betas, at most {most[mode]} terms, {by_limit[mode]} ended by the limit; "
              f"error at most {e:.2e} ({e / HALF_STEP:.1f} of 2^-53) at {beta!r}")
    e = where_ended
    print(f"ported, where the tolerance ended it: error at most {e:.2e} ({e / HALF_STEP:.1f} of 2^-53)")
    print(f"ported: the tolerance ends it up to {last_ended(10.0, 12.0, LIMITS['ported'])!r}")


if __name__ == "__main__":
    if {"-h", "--help"} & set(sys.argv):
        print(__doc__.strip())
    else:
        main(*map(int, sys.argv[1:]))
