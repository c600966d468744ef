"""Inputs that find mistakes in the number functions: special values, ties, neighbours of both, and patterns drawn at
random.

Each generator yields words, or triples of words, and says in its name or its comment what it is after. No answer is
computed here.
"""
from fractions import Fraction

from exact import F32, F64, WORD


class Draws:
    """xorshift64*, so that the same lists come on every machine and from every version of Python."""

    def __init__(self, seed):
        self.state = seed

    def word(self):
        s = self.state
        s ^= s >> 12
        s ^= (s << 25) % WORD
        s ^= s >> 27
        self.state = s
        return s * 0x2545F4914F6CDD1D % WORD

    def bits(self, n):
        return self.word() >> (64 - n) if n else 0

    def between(self, low, high):
        assert low <= high
        return low + self.word() % (high - low + 1)

    def of(self, items):
        return items[self.word() % len(items)]

    def pattern(self, f):
        return self.word() >> (64 - f.width)

    def float(self, f, low, high):
        """A finite float of f with its leading digit at 2^low to 2^high, of either sign; half of them with few digits."""
        fraction = self.bits(f.digits - 1)
        if self.bits(1):
            fraction = fraction >> self.between(1, f.digits - 1) << self.between(0, f.digits - 2)
        value = Fraction(f.hidden + fraction % f.hidden, f.hidden) * Fraction(2) ** self.between(low, high)
        return f.rounded(self.bits(1), value)


def specials(f):
    """Fourteen finite or infinite values, of both signs."""
    one = f.near(Fraction(1))
    plain = [0, one, 1, f.hidden - 1, f.hidden, f.infinity - 1, f.infinity]
    return [sign + x for x in plain for sign in (0, f.sign)]


def nans(f):
    """NaNs, quiet and signalling, of both signs."""
    return [sign + x for x in (f.nan, f.infinity + 1, f.nan + 1, f.sign - 1, f.nan - 1, f.infinity + f.hidden // 4) for sign in (0, f.sign)]


def beside(f, x, steps=(0, 1, -1)):
    """A pattern and its neighbours, in the order of patterns."""
    return [(x + s) % (2 * f.sign) for s in steps]


def midpoint(q):
    """The f64 that lies halfway between the f32 of pattern q and the next."""
    return F64.near((F32.value(q) + F32.value(q + 1)) / 2)


def to_narrow(d):
    """f64 patterns about f32's grid."""
    yield from specials(F64) + nans(F64)
    for x in specials(F32)[:-2]:
        yield from beside(F64, F64.rounded(x // F32.sign, abs(F32.value(x))))
    over = F32.value(F32.infinity - 1) + Fraction(2) ** 103      # the first magnitude that rounds to infinity, a tie
    for magnitude in (over, F32.unit / 2, F32.unit * 3 / 2, F32.unit / 4, over * 2):
        for s in (0, 1):
            yield from beside(F64, F64.rounded(s, magnitude), range(-3, 4))
    for _ in range(150):                                        # ties and their neighbours: normal, subnormal, at a binade's end
        q = d.of([d.bits(31) % (F32.infinity - 2), d.bits(d.between(1, 23)), (d.between(1, 254) << 23) - 1])
        sign = d.bits(1) * F64.sign
        yield from beside(F64, midpoint(q) + sign, (0, 1, -1, 1 << 28, -(1 << 28)))
    for _ in range(250):
        yield d.float(F64, -152, -120)                          # at the smallest values
        yield d.float(F64, 120, 130)                            # at the largest
        yield d.float(F64, -149, 127)
        yield d.pattern(F64)
    while True:
        yield d.pattern(F64)


def hard_roots():
    """f64 patterns whose root lies as near to a midpoint of two floats as one can: s is twice the midpoint, s * s = r modulo 2^n with r small,
    and (s * s - r) / 2^n has 53 digits. A square root of r modulo 2^n is lifted digit by digit."""
    for n in (54, 55):
        for r in [r for k in range(0, 60) for r in (8 * k + 1, -(8 * k + 7))]:
            s = 1
            for k in range(3, n):
                if (s * s - r) >> k & 1:
                    s += 1 << (k - 1)
            for t in (s, -s, s + (1 << (n - 1)), -s + (1 << (n - 1))):
                t %= 1 << n
                m = (t * t - r) >> n
                if t >> 53 == 1 and m.bit_length() == 53:
                    yield Fraction(m) * Fraction(2) ** n


def to_root(d):
    yield from specials(F64) + nans(F64)
    for value in hard_roots():
        x = F64.near(value)
        yield x
        yield x + (d.between(-500, 440) * 2 << 52)              # the same digits at another even distance
    for _ in range(200):                                        # perfect squares and their neighbours
        q = d.bits(d.between(1, 26)) + 1
        yield from beside(F64, F64.near(Fraction(q * q) * Fraction(4) ** d.between(-500, 480)))
    for _ in range(150):                                        # squares of midpoints, and of floats, rounded: their neighbours
        m = (1 << 53) + 2 * d.bits(52) + d.bits(1)
        yield from beside(F64, F64.near(Fraction(m * m) * Fraction(4) ** d.between(-500, 400)))
    for _ in range(200):
        yield d.bits(d.between(1, 52))                          # subnormal
        yield d.float(F64, -1022, 1023) % F64.sign
    while True:
        yield d.word() if d.bits(3) == 0 else d.word() % F64.sign


def to_floor(d):
    yield from specials(F64) + nans(F64)
    tiny = F64.near(Fraction(1, 10 ** 300))
    edges = [Fraction(n, 2) for n in range(1, 12)] + [Fraction(2) ** k + j for k in (31, 32, 36, 51, 52, 53, 62, 63, 64) for j in (0, 1, Fraction(1, 2), -1)]
    for value in edges:
        for sign in (0, 1):
            yield from beside(F64, F64.rounded(sign, value))
    for sign in (0, F64.sign):
        yield from beside(F64, tiny + sign)
    for _ in range(300):                                        # whole numbers and halves, with their neighbours
        yield from beside(F64, F64.rounded(d.bits(1), Fraction(d.bits(d.between(1, 53)) + 1, d.of([1, 2]))))
    for _ in range(400):
        yield d.float(F64, -3, 37)                              # 01's positions
        yield d.float(F64, 48, 66)
        yield d.float(F64, -60, 0)
    while True:
        yield d.pattern(F64)


def to_patterns(f, d):
    yield from specials(f) + nans(f)
    for x in specials(f):
        yield from beside(f, x)
    for _ in range(500):
        sign = d.bits(1) * f.sign
        yield sign + f.infinity + d.bits(d.between(0, f.digits - 1))     # infinities and NaNs
        yield sign + f.infinity - 1 - d.bits(d.between(0, 12))          # the largest values
        yield sign + d.bits(d.between(1, f.digits))                      # subnormals
    while True:
        yield d.pattern(f)


def special_triples(f, d):
    """Every triple of the fourteen special values and a NaN, once up to rotation: a line asks all three rotations."""
    kinds = len(specials(f)) + 1
    for i in range(kinds):
        for j in range(kinds):
            for k in range(kinds):
                if (i, j, k) == min((i, j, k), (j, k, i), (k, i, j)):
                    yield tuple(d.of(nans(f)) if n == kinds - 1 else specials(f)[n] for n in (i, j, k))


def to_compare(f, d):
    """Every pair of special values, equal values, neighbours, and a value with its negative."""
    values = specials(f) + [d.of(nans(f))]
    for x in values:
        for y in values:
            yield (x, y, d.of(nans(f) + values))
    while True:
        x = d.of([d.pattern(f), d.float(f, -4, 4)])
        y = d.of([x, x + 1, x - 1, x ^ f.sign, d.pattern(f), d.float(f, -4, 4)]) % (2 * f.sign)
        yield (x, y, d.of([x, y ^ f.sign, d.pattern(f)]))


def to_clamp(f, d):
    yield from special_triples(f, d)
    yield from to_compare(f, d)


def to_multiply(d):
    edges = [0, 1, 2, 3, (1 << 32) - 1, 1 << 32, (1 << 32) + 1, 1 << 63, WORD - 1, WORD - 2, 0x2545F4914F6CDD1D, 0xFFFFFFFF00000000]
    for x in edges:
        for y in edges:
            yield (x, y, d.word())
    while True:
        yield tuple(d.bits(d.of([64, 64, 33, 32, 16])) for _ in range(3))


def to_shift(d):
    for n in list(range(0, 130)) + [1 << 32, (1 << 32) + 25, WORD - 1, WORD - 64, 1 << 63]:
        yield (d.word(), n, d.between(0, 66))
        yield (WORD - 1, n, 1)
    while True:
        yield (d.word(), d.between(0, 70), d.between(0, 70))
