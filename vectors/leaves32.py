"""Roots and wraps at f32 (document 02, A6) as a script of calls (docs/SCRIPT.md) and its answers, worked by fractions and whole numbers alone:
    leaves32.py SCRIPT ANSWERS [COUNT] [SEED]
No float is touched: a number is its 32 bits and the fraction that they stand for."""
import math
import random
import sys
from fractions import Fraction

sys.dont_write_bytecode = True
from leaves import near_halves

INFINITY = 0x7F800000
LARGEST = INFINITY - 1
SIGN = 1 << 31
HIDDEN = 1 << 23


def parts(bits):
    """Finite bits but the sign: whole digits, and the exponent of two that they are multiplied with."""
    exponent, digits = bits >> 23 & 0xFF, bits & HIDDEN - 1
    return (digits | HIDDEN, exponent - 150) if exponent else (digits, -149)


def fraction_of(bits):
    digits, exponent = parts(bits)
    size = digits * Fraction(2) ** exponent
    return -size if bits & SIGN else size


def below(size):
    """The bits of the largest f32 that isn't above a fraction above 0."""
    exponent = size.numerator.bit_length() - size.denominator.bit_length() - 23
    if size < HIDDEN * Fraction(2) ** exponent:
        exponent -= 1
    exponent = max(exponent, -149)
    return min((exponent + 149 << 23) + math.floor(size / Fraction(2) ** exponent), LARGEST)


def bits_of(number):
    """The bits of a fraction that is an f32, and isn't zero."""
    bits = below(abs(number)) | (SIGN if number < 0 else 0)
    assert fraction_of(bits) == number
    return bits


def is_finite(bits):
    return bits & ~SIGN < INFINITY


def root_answer(a):
    if a & ~SIGN == 0:
        return f'0 0 {a:08x}'
    if not is_finite(a) or a & SIGN:
        return '56 0'
    # Whole, of 47 or 48 digits, times a power of 4: the root of whole has 24. There is no tie: a middle squared ends in 1/4.
    digits, exponent = parts(a)
    shift = 48 - digits.bit_length()
    shift -= exponent - shift & 1
    whole = digits << shift
    root = math.isqrt(whole)
    if whole > root * root + root:
        root += 1
    return f'0 0 {bits_of(root * Fraction(2) ** ((exponent - shift) // 2)):08x}'


def wrap_answer(d, h):
    if not (is_finite(d) and is_finite(h)):
        return '56 0 00000000'
    half = fraction_of(h)
    if half <= 0 or 2 * half > fraction_of(LARGEST):
        return '6 0 00000000'
    # The remainder has the sign of d, a zero too.
    rest = abs(fraction_of(d)) % (2 * half)
    if rest == 0:
        return f'0 0 {d & SIGN:08x}'
    if d & SIGN:
        rest = -rest
    if rest > half:
        rest -= 2 * half
    elif rest <= -half:
        rest += 2 * half
    return f'0 0 {bits_of(rest):08x}'


# ---- what is asked

def odd(prng):
    """Zeros, the smallest and largest numbers, infinities and NaNs."""
    return prng.choice([0, 1, 2, HIDDEN - 1, HIDDEN, HIDDEN + 1, 0x3F800000, LARGEST, INFINITY, INFINITY + 1, INFINITY | prng.getrandbits(22) + 1]) | prng.choice([0, SIGN])


def positive(prng):
    return prng.randrange(1, INFINITY)


def beside(bits, prng):
    return min(max(bits + prng.randint(-1, 1), 0), LARGEST)


def root_asked(prng):
    sort = prng.randrange(8)
    if sort < 3:
        return positive(prng)
    if sort == 3:  # subnormal, every length of its fraction
        return prng.getrandbits(prng.randint(1, 23))
    if sort == 4:  # beside a square
        k = prng.getrandbits(prng.randint(1, 12)) | 1
        return beside(below(Fraction(k * k) * Fraction(4) ** prng.randint(-74, 50)), prng)
    if sort == 5:  # the hardest: its root lies next to the middle between two numbers
        hard = list(near_halves(2 * prng.randint(-5000, 5000), 23))
        return bits_of(prng.choice(hard) * Fraction(4) ** prng.randint(-86, 39)) if hard else positive(prng)
    if sort == 6:  # beside a power of two
        return beside(below(Fraction(2) ** prng.randint(-149, 127)), prng)
    return prng.choice([odd(prng), SIGN | positive(prng)])


def wrap_asked(prng):
    sort = prng.randrange(10)
    h = positive(prng)
    if sort < 2:
        return prng.getrandbits(32), h
    sign = prng.choice([0, SIGN])
    if sort < 5:  # at and beside some number of half-turns, few or many
        turns = prng.randint(1, 9) if sort < 4 else prng.getrandbits(prng.randint(1, 40)) + 1
        return sign | beside(below(fraction_of(h) * turns), prng), h
    if sort == 5:  # huge by tiny
        return sign | prng.randrange(0x7E000000, INFINITY), prng.randrange(1, 1 << prng.randint(1, 25))
    if sort == 6:  # both subnormal
        return sign | prng.getrandbits(23), prng.getrandbits(prng.randint(1, 23)) + 1
    if sort == 7:  # sizes near one another
        return sign | min(max(h + prng.randint(-1 << 25, 1 << 26), 0), LARGEST), h
    if sort == 8:  # headings by 180 and by the f32 of pi; the largest half-turns, refused and not
        return sign | prng.randrange(0x3F000000, 0x46000000), prng.choice([0x43340000, 0x40490FDB, 0x7F000000 + prng.randint(-3, 3)])
    return (prng.choice([odd(prng), prng.getrandbits(32)]), prng.choice([odd(prng), h]))


def main():
    if len(sys.argv) < 3:
        sys.exit(__doc__)
    count = int(sys.argv[3]) if len(sys.argv) > 3 else 20000
    prng = random.Random(int(sys.argv[4]) if len(sys.argv) > 4 else 1)
    with open(sys.argv[1], 'w') as script, open(sys.argv[2], 'w') as answers:
        for at in range(count):
            if at % 3 == 0:
                a = root_asked(prng)
                script.write(f'@w root {a:08x}\n')
                answers.write(root_answer(a) + '\n')
            else:
                d, h = wrap_asked(prng)
                script.write(f'@w wrap {d:08x} {h:08x}\n')
                answers.write(wrap_answer(d, h) + '\n')


if __name__ == '__main__':
    main()
