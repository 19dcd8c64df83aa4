"""The lists of roots (tag 1) and wraps (tag 2) for the program crates/vectors; make.py writes them.
The roots expected here are the machine's square root, each checked by exact fractions to be the nearest; the wraps are worked by exact fractions;
the refusals are those of the specification's table."""
import math
import random
import sys
from fractions import Fraction

sys.dont_write_bytecode = True
from records import bits_of, float_of, word

SEED = 20240611
ROOTS = 3000
WRAPS = 3000
SMALLEST = float_of(1)
LARGEST = float_of(0x7FEFFFFFFFFFFFFF)
INF = float_of(0x7FF0000000000000)
NAN_PATTERNS = [0x7FF8000000000000, 0x7FF0000000000001, 0x7FFFFFFFFFFFFFFF, 0xFFF8000000000000, 0xFFF0000000000001, 0xFFFFFFFFFFFFFFFF, 0x7FF4000000000000, 0x7FF000000000BEEF]


# ---- the root

def root_answer(bits):
    """The answer line for the root of the float with these bits: `0 0 F`, or `56 0` for a NaN, an infinity and what is below zero."""
    x = float_of(bits)
    if x == 0.0:
        return '0 0 ' + word(x)
    if not 0.0 < x < INF:
        return '56 0'
    r = math.sqrt(x)
    below, above = math.nextafter(r, 0.0), math.nextafter(r, INF)
    exact = Fraction(x)
    assert ((Fraction(below) + Fraction(r)) / 2) ** 2 < exact < ((Fraction(r) + Fraction(above)) / 2) ** 2
    return '0 0 ' + word(r)


def scales(k):
    """Even exponents e for which k * 2^e is a finite float."""
    return range(-1074, 1024 - k.bit_length(), 2)


def near_halves(c, fraction=52):
    """Floats x, as whole numbers, with x = k * (k + 1) - c for a k of fraction + 1 digits: their roots lie next to k + 1/2, half-way between two floats.
    c is even; k is found digit by digit from below, since k * (k + 1) - c has an odd slope."""
    low, high = 2 ** fraction, 2 ** (fraction + 1)
    for start in (0, 1):
        for digits in (fraction, fraction + 1):
            k = start
            for i in range(1, digits + 1):
                if (k * (k + 1) - c) % 2 ** i:
                    k += 2 ** (i - 1)
            for top in (k + low, k + high):
                x = top * (top + 1) - c
                if low <= top < high and x.bit_length() == fraction + 1 + digits and x % 2 ** digits == 0:
                    yield x


def root_bits():
    """The bits of the numbers whose roots are asked."""
    prng = random.Random(SEED)
    out = []

    def put(x):
        out.append(x if isinstance(x, int) else bits_of(x))

    def beside(x):
        put(x)
        if x > 0.0:
            put(math.nextafter(x, 0.0))
        if x < LARGEST:
            put(math.nextafter(x, INF))

    # by hand: zeros, ones, the smallest and largest, the specification's C5
    for x in (0.0, -0.0, 1.0, 2.0, 3.0, 4.0, 16.0, 0.25, 0.5, 2.0 ** -1074, 2.0 ** -1022, LARGEST, 1e308, 1e-308, 1e-320):
        beside(x)
    put(0x000FFFFFFFFFFFFF)
    # no numbers, and what is below zero
    for b in NAN_PATTERNS:
        put(b)
    for _ in range(16):
        put(0x7FF0000000000000 | prng.getrandbits(1) << 63 | prng.randrange(1, 2 ** 52))
    for x in (INF, -INF, -1.0, -SMALLEST, -LARGEST, -2.0 ** -1022, -4.0):
        put(x)
    for _ in range(40):
        put(1 << 63 | prng.randrange(1, 0x7FF0000000000000))
    # subnormals with every length of fraction
    for length in range(1, 53):
        put(1 << (length - 1))
        put((1 << length) - 1)
        put(1 << (length - 1) | prng.getrandbits(length) >> 1)
    # powers of two, even and odd, and what lies beside them
    for e in range(-1074, 1024, 7):
        put(2.0 ** e)
    for _ in range(60):
        beside(2.0 ** prng.randrange(-1074, 1024))
    # squares, and one unit beside them
    for _ in range(170):
        k = prng.randrange(1, 2 ** 26) if prng.random() < 0.7 else prng.randrange(1, 2 ** 12)
        beside(math.ldexp(float(k * k), prng.choice(scales(k * k))))
    # the hardest: roots next to half-way
    for c in range(-120, 121, 2):
        for x in near_halves(c):
            e = 2 * prng.randrange(-563, 450)
            y = math.ldexp(float(x), e)
            assert Fraction(y) == x * Fraction(2) ** e
            put(y)
    # squares of half-way values, rounded, and beside them
    for _ in range(100):
        k = prng.randrange(2 ** 52, 2 ** 53)
        beside(math.ldexp(float(Fraction((2 * k + 1) ** 2, 4)), 2 * prng.randrange(-560, 440)))
    # any bits
    assert len(out) < ROOTS
    while len(out) < ROOTS:
        put(prng.randrange(1, 0x7FF0000000000000))
    return out


# ---- the wrap

def wrap_answer(d_bits, h_bits):
    """The answer line for the wrap of d by h: number and place, and the value, +0 where it is refused."""
    d, h = float_of(d_bits), float_of(h_bits)
    if not (math.isfinite(d) and math.isfinite(h)):
        return '56 0 ' + word(0.0)
    turn = 2 * Fraction(h)
    if not (h > 0.0 and turn <= Fraction(LARGEST)):
        return '6 0 ' + word(0.0)
    # the remainder has the sign of d, a zero too; the two lines below it never give a zero, since it lies strictly inside one turn
    r = abs(Fraction(d)) % turn
    if r == 0:
        return '0 0 ' + word(math.copysign(0.0, d))
    if d < 0.0:
        r = -r
    if r > Fraction(h):
        r -= turn
    elif r <= -Fraction(h):
        r += turn
    assert r != 0 and -Fraction(h) < r <= Fraction(h)
    value = float(r)
    assert Fraction(value) == r
    return '0 0 ' + word(value)


def wrap_bits():
    """The bits of d and h whose wraps are asked."""
    prng = random.Random(SEED + 1)
    out = []

    def put(d, h):
        out.append((d if isinstance(d, int) else bits_of(d), h if isinstance(h, int) else bits_of(h)))

    def any_positive():
        return float_of(prng.randrange(1, 0x7FE0000000000000))

    def signed(x):
        return -x if prng.getrandbits(1) else x

    # the specification's C6, and others by hand
    for d in (350.0, 190.0, 180.0, -180.0, 540.0, -350.0, -360.0, 360.0, 0.0, -0.0, -540.0, 179.0, -179.0, 720.0, -720.0, 181.0, -181.0):
        put(d, 180.0)
    # every d here by every h here
    top = 2.0 ** 1023
    hs = [SMALLEST, 2 * SMALLEST, float_of(0x000FFFFFFFFFFFFF), 2.0 ** -1022, 1e-300, 1.0, math.pi, 180.0, 1e300, 2.0 ** 1022, math.nextafter(top, 0.0), top,
          math.nextafter(top, INF), LARGEST, 0.0, -0.0, -180.0, -SMALLEST, -LARGEST, INF, -INF] + NAN_PATTERNS[:2]
    ds = [0.0, -0.0, SMALLEST, -SMALLEST, 2.0 ** -1022, 1.0, -1.0, 400.0, -400.0, 1e308, -1e308, LARGEST, -LARGEST, top, -top, INF, -INF, NAN_PATTERNS[0], NAN_PATTERNS[4]]
    for h in hs:
        for d in ds:
            put(d, h)
    # d at and beside 1, 2 and 3 half-turns, exactly: such h leave two digits free
    for i in range(64):
        if i < 8:
            h = float_of(prng.randrange(1, 2 ** 50))
        else:
            h = math.ldexp(float(prng.randrange(2 ** 50, 2 ** 51)), prng.randrange(-1074, 970))
        for k in (1, 2, 3):
            d = k * h
            assert Fraction(d) == k * Fraction(h)
            for x in (d, math.nextafter(d, 0.0), math.nextafter(d, INF)):
                put(x, h)
                put(-x, h)
    # below the normal numbers, both
    for _ in range(200):
        put(signed(float_of(prng.randrange(0, 2 ** 52))), float_of(prng.randrange(1, 2 ** prng.randrange(1, 53))))
    # huge by tiny
    for _ in range(150):
        put(signed(float_of(prng.randrange(0x7FD0000000000000, 0x7FF0000000000000))), float_of(prng.randrange(1, 0x0100000000000000)))
    # the largest half-turns, refused and not
    for _ in range(60):
        put(signed(any_positive()), float_of(prng.randrange(0x7FDFFFFFFFFFFFF0, 0x7FE0000000000010)))
    # headings
    for _ in range(300):
        put(prng.uniform(-2000.0, 2000.0), prng.choice([180.0, math.pi, 200.0, 3200.0, prng.uniform(0.1, 400.0)]))
    # sizes that are near one another
    for _ in range(400):
        h = any_positive()
        put(signed(float_of(max(1, min(0x7FEFFFFFFFFFFFFF, bits_of(h) + prng.randrange(-2 ** 54, 2 ** 56))))), h)
    # any bits
    assert len(out) < WRAPS - 100
    while len(out) < WRAPS - 100:
        put(prng.getrandbits(64), prng.getrandbits(63))
    while len(out) < WRAPS:
        put(prng.getrandbits(64), prng.getrandbits(64))
    return out


def records():
    for b in root_bits():
        yield 1, ['%016x' % b], root_answer(b)
    for d, h in wrap_bits():
        yield 2, ['%016x' % d, '%016x' % h], wrap_answer(d, h)
