"""The steps of the specification once more, in plain Python over the machine's floats, and the lists of records that compare them with the crates' steps.
Written from the specification's text alone. Every sum starts at +0 and runs upward, every operation rounds once, none is fused.
Run, it writes nothing: it counts the records by tag, and the refusals by the step that ended the work."""
import math
import random
import sys

sys.dont_write_bytecode = True
from records import word

SEED = 20240612
LARGEST = 1.7976931348623157e308
PIVOT, INNOV, RANGE = 7, 8, 9


# ---- operations where Python leaves the IEEE rules: a division by zero, a remainder that is no number

def over(a, b):
    if b != 0.0:
        return a / b
    if a != a or a == 0.0:
        return math.nan
    return math.copysign(math.inf, a) * math.copysign(1.0, b)


def remainder(a, b):
    if a != a or b != b or math.isinf(a) or b == 0.0:
        return math.nan
    return math.fmod(a, b)


def finite(numbers):
    return all(math.isfinite(x) for x in numbers)


class Stop(Exception):
    """A refusal with its place, and the step that ended the work."""

    def __init__(self, refusal, step, place=0):
        super().__init__(refusal, step, place)
        self.refusal = '%d %d' % (refusal, place)
        self.step = step


def checked(numbers, step):
    """The numbers, if they are all finite; else the work ends with 9."""
    if not finite(numbers):
        raise Stop(RANGE, step)
    return numbers


# ---- matrices, row by row in flat lists

def factor(a, n, refusal):
    """L with L times its transpose near A, read from the lower triangle of A; the upper entries of L are +0."""
    l = [0.0] * (n * n)
    for j in range(n):
        pivot = a[j * n + j]
        for k in range(j):
            pivot = pivot - l[j * n + k] * l[j * n + k]
        if not (math.isfinite(pivot) and pivot > 0.0):
            raise Stop(refusal, 'pivot', j)
        l[j * n + j] = math.sqrt(pivot)
        for i in range(j + 1, n):
            e = a[i * n + j]
            for k in range(j):
                e = e - l[i * n + k] * l[j * n + k]
            l[i * n + j] = checked([over(e, l[j * n + j])], 'factor entry')[0]
    return l


def inverse(l, m):
    """The inverse of L times its transpose, column after column."""
    v = [0.0] * (m * m)
    for c in range(m):
        u = [0.0] * m
        for i in range(m):
            e = 1.0 if i == c else 0.0
            for k in range(i):
                e = e - l[i * m + k] * u[k]
            u[i] = over(e, l[i * m + i])
        for i in reversed(range(m)):
            e = u[i]
            for k in range(i + 1, m):
                e = e - l[k * m + i] * v[k * m + c]
            v[i * m + c] = over(e, l[i * m + i])
    return v


def mult_transb(a, b, n, m, d):
    """A (n rows of d) times the transpose of B (m rows of d)."""
    out = []
    for i in range(n):
        for j in range(m):
            s = 0.0
            for k in range(d):
                s = s + a[i * d + k] * b[j * d + k]
            out.append(s)
    return out


def plus(a, b):
    return [x + y for x, y in zip(a, b, strict=True)]


def minus(a, b):
    return [x - y for x, y in zip(a, b, strict=True)]


# ---- weights and draw

class Weights:
    def __init__(self, n, alpha, beta, kappa):
        size = float(n)
        lam = alpha * alpha * (size + kappa) - size
        self.total = size + lam
        self.w0m = over(lam, self.total)
        self.w0c = over(lam, self.total) + (1.0 - alpha * alpha + beta)
        self.wi = over(1.0, 2.0 * self.total)
        self.passes = finite([self.total, self.w0m, self.w0c, self.wi]) and self.total > 0.0

    def of(self, k):
        return self.w0c if k == 0 else self.wi


def draw(n, x, p, weights):
    l = factor(p, n, PIVOT)
    s = math.sqrt(weights.total)
    points = list(x)
    for j in range(n):
        points += [x[i] + s * l[i * n + j] for i in range(n)]
    for j in range(n):
        points += [x[i] - s * l[i * n + j] for i in range(n)]
    return checked(points, 'points')


# ---- kinds: None is plain, a number is the half-turn of a turn

def through(kind, d):
    if kind is None:
        return d
    turn = kind + kind
    r = remainder(d, turn)
    if r > kind:
        return r - turn
    if r <= -kind:
        return r + turn
    return r


# ---- means and spreads over 2n + 1 points of d numbers each

def anchored_mean(points, n, d, kinds, weights):
    total = weights.w0m
    offset = [0.0] * d
    for k in range(1, 2 * n + 1):
        total = total + weights.wi
        for i in range(d):
            offset[i] = offset[i] + weights.wi * through(kinds[i], points[k * d + i] - points[i])
    return [total * points[i] + offset[i] for i in range(d)]


def deviations(points, n, d, mean, kinds):
    return [through(kinds[i], points[k * d + i] - mean[i]) for k in range(2 * n + 1) for i in range(d)]


def spread(a, da, b, db, n, weights):
    out = []
    for i in range(da):
        for j in range(db):
            s = 0.0
            for k in range(2 * n + 1):
                s = s + weights.of(k) * a[k * da + i] * b[k * db + j]
            out.append(s)
    return out


# ---- the closes of a prediction and of a weighted correction

def reconstruct_prediction(n, kinds, q, points, weights):
    mean = checked(anchored_mean(points, n, n, kinds, weights), 'mean')
    dx = deviations(points, n, n, mean, kinds)
    return mean, checked(plus(q, spread(dx, n, dx, n, n, weights)), 'P')


def correct(n, m, kinds, z_kinds, x, p, z, r, points, observed, weights):
    z_mean = checked(anchored_mean(observed, n, m, z_kinds, weights), 'z mean')
    dz = deviations(observed, n, m, z_mean, z_kinds)
    s = checked(plus(r, spread(dz, m, dz, m, n, weights)), 'S')
    x_mean = checked(anchored_mean(points, n, n, kinds, weights), 'x mean')
    dx = deviations(points, n, n, x_mean, kinds)
    c = checked(spread(dx, n, dz, m, n, weights), 'cross covariance')
    v = checked(inverse(factor(s, m, INNOV), m), 'inverse')
    gain = checked(mult_transb(c, v, n, m, m), 'gain')
    y = checked([through(z_kinds[j], z[j] - z_mean[j]) for j in range(m)], 'y')
    moved = checked([x[i] + step for i, step in enumerate(mult_transb(gain, y, n, 1, m))], 'x')
    return moved, checked(minus(p, mult_transb(c, gain, n, n, m)), 'P')


# ---- records: each number of an answer stands after a space

def numbers(values):
    return ''.join(' ' + word(float(v)) for v in values)


def floats(values):
    return [word(float(v)) for v in values]


def kind_words(kinds):
    return [w for k in kinds for w in ([word(0), word(0.0)] if k is None else [word(1), word(float(k))])]


def outcome(work):
    """The refusal with its place and the step that ended the work, or 0 at 0 and what it gives."""
    try:
        return '0 0', None, work()
    except Stop as stop:
        return stop.refusal, stop.step, ()


def factor_record(which, n, a):
    refusal, step, l = outcome(lambda: factor(a, n, which))
    return (3, [word(which), word(n)] + floats(a), refusal + numbers(l)), step


def inverse_record(m, l):
    return 4, [word(m)] + floats(l), numbers(inverse(l, m))


def mult_record(n, m, d, a, b):
    return 5, [word(n), word(m), word(d)] + floats(a) + floats(b), numbers(mult_transb(a, b, n, m, d))


def plus_record(a, b):
    return 6, [word(len(a))] + floats(a) + floats(b), numbers(plus(a, b))


def minus_record(a, b):
    return 7, [word(len(a))] + floats(a) + floats(b), numbers(minus(a, b))


def weights_record(n, params):
    w = Weights(n, *params)
    return 8, [word(n)] + floats(params), str(int(w.passes)) + numbers([w.total, w.w0m, w.w0c, w.wi])


def draw_record(n, params, x, p):
    w = Weights(n, *params)
    assert w.passes
    refusal, step, points = outcome(lambda: draw(n, x, p, w))
    return (9, [word(n)] + floats(params) + floats(x) + floats(p), refusal + numbers(points)), step


def reconstruct_record(n, params, kinds, q, points):
    w = Weights(n, *params)
    assert w.passes
    refusal, step, both = outcome(lambda: reconstruct_prediction(n, kinds, q, points, w))
    answer = refusal + ''.join(numbers(part) for part in both)
    return (10, [word(n)] + floats(params) + kind_words(kinds) + floats(q) + floats(points), answer), step


def correct_record(n, m, params, kinds, z_kinds, x, p, z, r, points, observed):
    w = Weights(n, *params)
    assert w.passes
    refusal, step, both = outcome(lambda: correct(n, m, kinds, z_kinds, x, p, z, r, points, observed, w))
    answer = refusal + ''.join(numbers(part) for part in both)
    words = [word(n), word(m)] + floats(params) + kind_words(kinds) + kind_words(z_kinds)
    for part in (x, p, z, r, points, observed):
        words += floats(part)
    return (11, words, answer), step


# ---- what the lists are made of

C1, C2 = (1.0, 0.0, 0.0), (1.0, 2.0, 1.0)


def some(prng, count, scale=1.0):
    return [scale * prng.uniform(-1.0, 1.0) for _ in range(count)]


def lower(prng, n, whole=False):
    """A lower triangle with a diagonal above 0."""
    pick = (lambda: float(prng.randrange(-5, 6))) if whole else (lambda: prng.uniform(-2.0, 2.0))
    return [(abs(pick()) + 1.0 if i == j else pick()) if j <= i else 0.0 for i in range(n) for j in range(n)]


def positive(prng, n, scale=1.0):
    """A positive definite matrix."""
    l = lower(prng, n)
    return [scale * e for e in mult_transb(l, l, n, n, n)]


def diagonal(n, value):
    return [value if i == j else 0.0 for i in range(n) for j in range(n)]


def some_params(prng, n):
    while True:
        params = prng.choice([C1, C2, (1.0, 2.0, 3.0 - n), (0.5, 2.0, 0.0), (1e-3, 2.0, 0.0), (prng.uniform(0.05, 1.5), prng.uniform(-1.0, 3.0), prng.uniform(-0.5, 4.0))])
        if Weights(n, *params).passes:
            return params


def some_kinds(prng, d, chance):
    return [prng.choice([180.0, math.pi, prng.uniform(0.5, 50.0)]) if prng.random() < chance else None for _ in range(d)]


# ---- the lists; each yields (record, the step that ended the work or None)

def factors(prng):
    yield factor_record(PIVOT, 2, [4.0, 2.0, 2.0, 5.0])
    yield factor_record(PIVOT, 2, [1.0, 2.0, 2.0, 1.0])
    for n in range(1, 9):
        for which in [PIVOT] + [INNOV] * (n <= 4):
            for scale in (1.0, 1e-150, 1e150, 2.0 ** prng.randrange(-900, 900)):
                yield factor_record(which, n, positive(prng, n, scale))
            # nearly flat: one direction, and a little of every other; some end at a pivot
            for little in (1e-14, 1e-16, 3e-17):
                v = some(prng, n)
                yield factor_record(which, n, plus(mult_transb(v, v, n, n, 1), diagonal(n, little)))
            # the upper triangle is not read
            a = positive(prng, n)
            yield factor_record(which, n, [a[i * n + j] if j <= i else prng.choice([-1e300, 0.0, 7.0]) for i in range(n) for j in range(n)])
        # a pivot that is exactly zero, or below it, in each column
        for j in range(n):
            l = lower(prng, n, whole=True)
            for less in (l[j * n + j] ** 2, l[j * n + j] ** 2 + 1.0):
                a = mult_transb(l, l, n, n, n)
                a[j * n + j] -= less
                yield factor_record(PIVOT, n, a)
        for j in range(n - 1):
            # too large to be divided by a small root
            a = positive(prng, n)
            for k in range(n):
                a[j * n + k] = a[k * n + j] = 0.0
            a[j * n + j] = 1e-300
            a[prng.randrange(j + 1, n) * n + j] = prng.choice([-1e300, 1e300])
            yield factor_record(prng.choice([PIVOT, INNOV]), n, a)
            # an entry whose square is too large: the pivot of its row ends the work
            a = positive(prng, n)
            a[(j + 1) * n + j] = 1e200
            yield factor_record(prng.choice([PIVOT, INNOV]), n, a)
    # an entry that is no number: two products that are too large, of either sign
    for n in (4, 5, 8):
        a = diagonal(n, 1.0)
        a[2 * n + 2] = 9.0
        a[2 * n], a[2 * n + 1], a[3 * n], a[3 * n + 1] = 2.0, 2.0, 1e308, -1e308
        yield factor_record(PIVOT, n, a)


def inverses(prng):
    for m in range(1, 5):
        for scale in (1.0, 1.0, 1.0, 1e-3, 1e3, 1e-100, 1e100, 1e-155, 1e-162, 1e154):
            yield inverse_record(m, [scale * e for e in lower(prng, m)])
        yield inverse_record(m, diagonal(m, 0.5))
        l = lower(prng, m)
        for i in range(m):
            l[i * m + i] *= 10.0 ** prng.randrange(-120, 120)
        yield inverse_record(m, l)


def products(prng):
    for n, m, d in [(1, 1, 1), (8, 8, 8), (8, 4, 4), (8, 8, 4), (4, 4, 4), (1, 4, 4), (8, 1, 1), (3, 2, 2), (5, 5, 3), (8, 1, 4), (2, 2, 2), (7, 3, 3), (6, 6, 1)]:
        for scale in (1.0, 1e154, 1e-160):
            yield mult_record(n, m, d, some(prng, n * d, scale), some(prng, m * d, scale))
        yield mult_record(n, m, d, some(prng, n * d, LARGEST), some(prng, m * d, 10.0))
    yield mult_record(1, 1, 1, [-0.0], [1.0])
    for k in (1, 2, 4, 8, 9, 16, 25, 64):
        for record in (plus_record, minus_record):
            for scale in (1.0, LARGEST, 5e-324 * 100):
                yield record(some(prng, k, scale), some(prng, k, scale))
    for record in (plus_record, minus_record):
        yield record([0.0, -0.0, 0.0, -0.0, 1.0], [0.0, -0.0, -0.0, 0.0, 1.0])


def weightings(prng):
    yield weights_record(1, C1)
    yield weights_record(1, C2)
    yield weights_record(2, C1)
    yield weights_record(1, (1.0, 0.0, -1.0))
    for n in range(1, 9):
        for params in [C1, C2, (1e-3, 2.0, 0.0), (1e-8, 2.0, 0.0), (1.0, 2.0, 3.0 - n), (1.0, 0.0, -float(n)), (1.0, 0.0, -float(n) - 1.0), (0.0, 0.0, 1.0), (1e200, 0.0, 0.0), (1.0, 0.0, LARGEST),
                       (1.0, 0.0, 2.0 ** 1023), (1.0, 0.0, math.nextafter(2.0 ** 1023, 0.0)), (1e154, -LARGEST, 1e-5 - n), (1e154, 0.0, 1.0), (-1.0, 2.0, 0.0), (1.0, LARGEST, 0.0), (1.0, -LARGEST, 1.0)]:
            yield weights_record(n, params)
        for _ in range(6):
            yield weights_record(n, (prng.uniform(-2.0, 2.0), prng.uniform(-3.0, 3.0), prng.uniform(-8.0, 8.0)))


FAR = (1.0, 0.0, 1e308)  # N is past 2^1023: 2N is infinite, and wi is +0
CENTRE = 2.0 ** 664  # its square is infinite


def draws(prng):
    yield draw_record(1, C1, [2.0], [4.0])
    for n in range(1, 9):
        for _ in range(5):
            yield draw_record(n, some_params(prng, n), some(prng, n, 100.0), positive(prng, n, prng.choice([1.0, 1e-6, 1e6])))
        yield draw_record(n, FAR, some(prng, n), positive(prng, n))
        # the points are too large
        for params in (FAR, (1.0, 0.0, 1e307)):
            yield draw_record(n, params, [prng.choice([-LARGEST, LARGEST]) for _ in range(n)], positive(prng, n, 1e306))
        p = positive(prng, n)
        p[-1] = prng.choice([-1.0, -0.0, 0.0])
        yield draw_record(n, some_params(prng, n), some(prng, n), p)
        if n > 1:
            p = positive(prng, n)
            p[0], p[n] = 1e-300, 1e300
            yield draw_record(n, some_params(prng, n), some(prng, n), p)


def cloud(prng, n, d, centre, scale):
    """2n + 1 points of d numbers around a centre."""
    return [c + scale * prng.uniform(-1.0, 1.0) for _ in range(2 * n + 1) for c in centre]


def closes(prng):
    """Predictions."""
    yield reconstruct_record(1, C1, [None], [1.0], [2.0, 4.0, 0.0])
    yield reconstruct_record(1, C1, [180.0], [1.0], [179.0, -171.0, 169.0])
    for n in range(1, 9):
        for chance in (0.0, 0.0, 0.6, 1.0):
            params = some_params(prng, n)
            x, kinds = some(prng, n, 100.0), some_kinds(prng, n, chance)
            points = draw(n, x, positive(prng, n, prng.choice([1.0, 100.0])), Weights(n, *params))
            if chance:
                # headings as an instrument gives them
                points = [points[i] if kinds[i % n] is None else through(kinds[i % n], points[i]) for i in range(len(points))]
            yield reconstruct_record(n, params, kinds, positive(prng, n, 0.1), [v + prng.uniform(-0.1, 0.1) for v in points])
        # wi is +0
        yield reconstruct_record(n, FAR, some_kinds(prng, n, 0.3), positive(prng, n), cloud(prng, n, n, some(prng, n), 3.0))
        # the centre's square alone is too large, and its weight is 0; a power of two, so that the mean is exactly 0
        points = [CENTRE] * n + [0.0] * (2 * n * n)
        yield reconstruct_record(n, C1, [None] * n, positive(prng, n), points)
        # the mean, then the spread, then the sum is too large
        for scale in (LARGEST, 1e160):
            yield reconstruct_record(n, some_params(prng, n), some_kinds(prng, n, 0.2), positive(prng, n), cloud(prng, n, n, [0.0] * n, scale))
        yield reconstruct_record(n, C1, [None] * n, diagonal(n, LARGEST), cloud(prng, n, n, [0.0] * n, 1e150))


def case(prng, n, m, chance=0.0, params=None, sx=1.0, sz=1.0, cx=None, cz=None, x=None, z=None, r=None):
    """What a correction is given: points around cx, observed points around cz, with spreads sx and sz."""
    params = params or some_params(prng, n)
    cx = cx or [0.0] * n
    cz = cz or [0.0] * m
    return [n, m, params, some_kinds(prng, n, chance), some_kinds(prng, m, chance), x or some(prng, n), positive(prng, n), z or some(prng, m), r or positive(prng, m),
            cloud(prng, n, n, cx, sx), cloud(prng, n, m, cz, sz)]


def ends_pivot(prng, n, m):
    r = positive(prng, m)
    j = prng.randrange(m)
    r[j * m + j] = -1e6
    return case(prng, n, m, r=r)


def ends_entry(prng, n, m):
    if m == 1:
        return None
    r = positive(prng, m)
    r[0], r[m] = 1e-300, prng.choice([-1e300, 1e300])
    given = case(prng, n, m, params=C1, r=r)
    for k in range(2 * n + 1):
        given[10][k * m] = 0.0
    return given


def ends_x(prng, n, m):
    return case(prng, n, m, x=[prng.choice([-LARGEST, LARGEST]) for _ in range(n)], z=some(prng, m, LARGEST / 2), r=diagonal(m, 1e-3))


# for each listed step, inputs that may well end there
ENDS = {
    'z mean': lambda g, n, m: case(g, n, m, sz=LARGEST),
    'S': lambda g, n, m: case(g, n, m, sz=1e160),
    'x mean': lambda g, n, m: case(g, n, m, sx=LARGEST, sz=1e-3),
    'cross covariance': lambda g, n, m: case(g, n, m, sx=1e220, sz=1e120),
    'pivot': ends_pivot,
    'factor entry': ends_entry,
    'inverse': lambda g, n, m: case(g, n, m, sz=0.0, r=positive(g, m, 1e-321)),
    'gain': lambda g, n, m: case(g, n, m, params=C1, sx=1e300, sz=1e-105, r=diagonal(m, 1e-205)),
    'y': lambda g, n, m: case(g, n, m, params=C1, sz=0.0, cz=[-1.5e308] * m, z=[1.5e308] * m),
    'x': ends_x,
    'P': lambda g, n, m: case(g, n, m, params=C1, sx=1e155, sz=1e145, r=diagonal(m, 1e290)),
}
EACH = 6
TRIES = 4000


def corrections(prng):
    yield correct_record(1, 1, C1, [None], [None], [2.0], [5.0], [3.0], [12.0], [2.0, 4.0, 0.0], [2.0, 4.0, 0.0])
    for n in range(1, 9):
        for m in range(1, 5):
            for chance in (0.0, 0.5, 1.0):
                x = some(prng, n, 50.0)
                z = some(prng, m, 50.0)
                yield correct_record(*case(prng, n, m, chance, sx=2.0, sz=prng.choice([0.5, 20.0]), cx=x, cz=[v + prng.uniform(-2.0, 2.0) for v in z], x=x, z=z))
        m = prng.randrange(1, 5)
        # wi is +0
        yield correct_record(*case(prng, n, m, 0.3, params=FAR))
        # the centre's square alone is too large, and its weight is 0: that of the observed points, and that of both
        given = case(prng, n, m, params=C1)
        given[10] = [CENTRE] * m + [0.0] * (2 * n * m)
        yield correct_record(*given)
        given[9] = [CENTRE] * n + [0.0] * (2 * n * n)
        yield correct_record(*given)
    # for each listed step, some corrections that end there
    for step, make in ENDS.items():
        found = 0
        for _ in range(TRIES):
            given = make(prng, prng.randrange(1, 9), prng.randrange(1, 5))
            if given is None:
                continue
            record, ended = correct_record(*given)
            if ended == step:
                yield record, ended
                found += 1
                if found == EACH:
                    break
        assert found >= 3, step


def ended_lists():
    """Each list's name, and its records with the step that ended the work."""
    yield 'factor', factors(random.Random(SEED))
    yield 'draw', draws(random.Random(SEED + 1))
    yield 'prediction', closes(random.Random(SEED + 2))
    yield 'correction', corrections(random.Random(SEED + 3))


def records():
    """All of them, by tag."""
    lists = dict(ended_lists())
    yield from (record for record, _ in lists['factor'])
    yield from inverses(random.Random(SEED + 4))
    yield from products(random.Random(SEED + 5))
    yield from weightings(random.Random(SEED + 6))
    for name in ('draw', 'prediction', 'correction'):
        yield from (record for record, _ in lists[name])


def worked():
    """The specification's C1 to C12, where they speak of steps."""
    def four(n, params):
        w = Weights(n, *params)
        return w.w0m, w.w0c, w.wi
    assert four(1, C1) == (0.0, 0.0, 0.5) and four(1, C2) == (0.5, 2.5, 0.25) and four(2, C1) == (0.0, 0.0, 0.25)
    assert not Weights(1, 1.0, 0.0, -1.0).passes
    assert [through(180.0, d) for d in (350.0, 190.0, 180.0, -180.0, 540.0, -350.0)] == [-10.0, -170.0, 180.0, 180.0, 180.0, 10.0]
    assert factor([4.0, 2.0, 2.0, 5.0], 2, PIVOT) == [2.0, 0.0, 1.0, 2.0]
    assert outcome(lambda: factor([1.0, 2.0, 2.0, 1.0], 2, PIVOT))[:2] == ('7 1', 'pivot')
    w, plain = Weights(1, *C1), [None]
    assert draw(1, [2.0], [4.0], w) == [2.0, 4.0, 0.0]
    assert reconstruct_prediction(1, plain, [1.0], [2.0, 4.0, 0.0], w) == ([2.0], [5.0])
    assert correct(1, 1, plain, plain, [2.0], [5.0], [3.0], [12.0], [2.0, 4.0, 0.0], [2.0, 4.0, 0.0], w) == ([2.25], [4.0])
    assert draw(1, [2.25], [4.0], w) == [2.25, 4.25, 0.25]
    assert correct(1, 1, plain, plain, [2.25], [4.0], [4.25], [12.0], [2.25, 4.25, 0.25], [2.25, 4.25, 0.25], w) == ([2.75], [3.0])
    assert anchored_mean([179.0, -171.0, 169.0], 1, 1, [180.0], w) == [179.0]


if __name__ == '__main__':
    worked()
    by_tag, size = {}, 0
    for tag, words, answer in records():
        by_tag[tag] = by_tag.get(tag, 0) + 1
        size += 17 * (len(words) + 1) + len(answer) + 1
        assert all(len(w) == 16 and int(w, 16) >> 52 & 0x7FF != 0x7FF for w in words)
    print('records by tag:', by_tag, 'bytes:', size)
    for name, found in ended_lists():
        ends = {}
        for (tag, words, answer), step in found:
            key = answer.split()[0] + (' ' + step if step else '')
            ends[key] = ends.get(key, 0) + 1
        print(name, ends)
