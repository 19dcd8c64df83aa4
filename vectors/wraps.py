"""The laws of the wrap (document 02, A9), as what a program is asked and has to answer:
    wraps.py 64 INPUT ANSWERS [COUNT] [SEED]    at f64, for the program `vectors`
    wraps.py 32 INPUT ANSWERS [COUNT] [SEED]    at f32, a script for `replay`
COUNT pairs d, h, and of each four wraps: d by h, what that gives by h, −d by h, and 2d by 2h. Each answer is worked out by itself, by exact fractions (leaves.py, leaves32.py).
That the three laws hold of these answers is checked here; a program is tested by comparing its answers with them, which asks for more than the laws. How often each case was met is printed, and the status is 1 where one was not."""
import random
import sys
from collections import Counter
from fractions import Fraction

sys.dont_write_bytecode = True
import leaves
import leaves32
from records import bits_of, float_of, word


class Width:
    """Numbers of one width, as bits."""

    def __init__(self, digits, fraction, call, answer, fraction_of, near):
        """call: how a program is asked for a wrap. near(x), x above 0 and not above the largest number: the bits of x, or of a number next to it where the width doesn't have x."""
        self.digits, self.hidden, self.call, self.answer, self.fraction_of, self.near = digits, 1 << fraction, call, answer, fraction_of, near
        self.sign = 1 << 4 * digits - 1
        self.infinity = self.sign - self.hidden
        self.largest = self.infinity - 1
        self.top = self.infinity // self.hidden  # the exponent field of an infinity

    def is_finite(self, bits):
        return bits & ~self.sign < self.infinity

    def doubled(self, bits):
        """x + x: exact, or an infinity; a NaN stays one."""
        if not self.is_finite(bits) or bits & ~self.sign == 0:
            return bits
        twice = 2 * abs(self.fraction_of(bits))
        size = self.infinity if twice > self.fraction_of(self.largest) else self.near(twice)
        return bits & self.sign | size

    def word(self, bits):
        return f'{bits:0{self.digits}x}'


WIDTHS = {
    '64': Width(16, 52, f'{word(2)}\n{{}}\n{{}}\n', leaves.wrap_answer, lambda bits: Fraction(float_of(bits)), lambda size: bits_of(float(size))),
    '32': Width(8, 23, '@w wrap {} {}\n', leaves32.wrap_answer, leaves32.fraction_of, leaves32.below),
}


# ---- what is asked

def pair(w, prng):
    """d and h, where the laws' conditions turn more often than any bits would have them."""
    sort = prng.randrange(12)
    sign = prng.choice([0, w.sign])
    h = prng.randrange(1, w.infinity)

    def some(turns, h):
        """So many half-turns, or the largest number."""
        return w.near(min(turns * w.fraction_of(h), w.fraction_of(w.largest)))

    if sort == 0:
        return prng.getrandbits(4 * w.digits), h
    if sort <= 4:  # at and beside a few or many half-turns, exactly where h has few digits
        h = max(h & -1 << prng.randint(0, w.hidden.bit_length() - 2), w.hidden)
        turns = prng.randint(1, 9) if sort < 4 else prng.getrandbits(prng.randint(1, 60)) + 1
        return sign | min(some(turns, h) + prng.choice([0, 0, -1, 1]), w.largest), h
    if sort == 5:  # huge by tiny
        return sign | prng.randrange(w.infinity - 4 * w.hidden, w.infinity), prng.randrange(1, 1 << prng.randint(1, w.hidden.bit_length() + 2))
    if sort == 6:  # below the normal numbers, both
        return sign | prng.randrange(w.hidden), prng.randrange(w.hidden) >> prng.randrange(w.hidden.bit_length() - 1) | 1
    if sort == 7:  # sizes near one another
        return sign | min(max(h + prng.randint(-4 * w.hidden, 8 * w.hidden), 0), w.largest), h
    if sort == 8:  # headings by 180, 1, 200 and 3200: degrees, half-turns, gons, mils
        return sign | w.near(prng.choice([Fraction(10 * prng.randint(1, 400)), Fraction(prng.getrandbits(40) + 1, 1 << 28)])), w.near(Fraction(prng.choice([180, 1, 200, 3200])))
    if sort == 9:  # the largest half-turns, of either sign: twice or four times them is too large, or just not
        h = (w.top - prng.randint(1, 3)) * w.hidden + prng.randint(-2, 2)
        d = prng.choice([0, prng.randrange(w.infinity), prng.randrange(w.infinity - 4 * w.hidden, w.infinity), some(prng.randint(1, 4), min(h, w.largest))])
        return sign | d, h | prng.choice([0, 0, 0, w.sign])
    if sort == 10:  # the largest d: twice it is too large, or just not
        return sign | min((w.top - prng.randint(1, 2)) * w.hidden + prng.randint(-2, 2), w.largest), h
    odd = [0, 1, w.hidden - 1, w.hidden, w.largest, w.infinity, w.infinity + 1, w.infinity + w.hidden // 2]
    return sign | prng.choice([prng.choice(odd), prng.randrange(w.infinity)]), prng.choice([0, w.sign]) | prng.choice([prng.choice(odd), h])


# ---- the laws, of answers as they are written

# what the wrap of d by h can be, a refused one with its number and that of the +0 that it gave, by the same h
FIRST = ['the wrap is h', 'the wrap is a zero', 'the wrap is d', 'any other wrap', 'refused by 6, then 6', 'refused by 56, then 0', 'refused by 56, then 56', 'refused by 56, then 6']
# and that of 2d by 2h
SECOND = ['doubled', 'not doubled, by 56', 'not doubled, by 6']
# but where d or h isn't finite, neither is its double, and a d whose double isn't finite is above every h that passes
NEVER = [(first, second) for first in FIRST[5:] for second in SECOND if second != 'not doubled, by 56'] + [('the wrap is d', 'not doubled, by 56')]
CASES = [(first, second) for first in FIRST for second in SECOND if (first, second) not in NEVER]


def judged(w, d, h, once, twice, negative, double):
    """Checks the three laws of one pair's answers, and says which of their cases it was."""
    number, _, value = once.split()
    value = int(value, 16)
    zero = '0' * w.digits
    two_d, two_h, four_h = w.doubled(d), w.doubled(h), w.doubled(w.doubled(h))
    if number == '0':
        assert twice == once
        if value == h:
            assert negative == once
            first = 'the wrap is h'
        else:
            assert negative == '0 0 ' + w.word(value ^ w.sign)
            first = 'the wrap is a zero' if value & ~w.sign == 0 else 'the wrap is d' if value == d else 'any other wrap'
    else:
        then = '56' if not w.is_finite(h) else '6' if h & w.sign or h == 0 or not w.is_finite(two_h) else '0'
        assert value == 0 and twice == f'{then} 0 {zero}' and negative == once
        first = f'refused by {number}, then {then}'
    if w.is_finite(two_d) and w.is_finite(four_h):
        assert double == f'{number} 0 {w.word(w.doubled(value))}'
        return first, 'doubled'
    by = '6' if w.is_finite(two_d) and w.is_finite(two_h) else '56'
    assert double == f'{by} 0 {zero}'
    return first, f'not doubled, by {by}'


def main():
    if len(sys.argv) < 4 or sys.argv[1] not in WIDTHS:
        sys.exit(__doc__)
    w = WIDTHS[sys.argv[1]]
    count = int(sys.argv[4]) if len(sys.argv) > 4 else 20000
    prng = random.Random(int(sys.argv[5]) if len(sys.argv) > 5 else 1)
    met = Counter()
    with open(sys.argv[2], 'w') as put, open(sys.argv[3], 'w') as say:
        for _ in range(count):
            d, h = pair(w, prng)
            once = w.answer(d, h)
            asked = [(d, h), (int(once.split()[2], 16), h), (d ^ w.sign, h), (w.doubled(d), w.doubled(h))]
            told = [once] + [w.answer(*a) for a in asked[1:]]
            met[judged(w, d, h, *told)] += 1
            put.write(''.join(w.call.format(w.word(a), w.word(b)) for a, b in asked))
            say.write('\n'.join(told) + '\n')
    assert not set(met) - set(CASES)
    print(f'{count} pairs, {4 * count} wraps:')
    for case in CASES:
        print(f'{met[case]:10}  {case[0]}; {case[1]}')
    sys.exit(any(not met[case] for case in CASES))


if __name__ == '__main__':
    main()
