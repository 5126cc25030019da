"""The flickermeter in whole numbers: coefficients, certificates, the bound of the cascade, and one channel's run.

Written from the equations alone, which docs/PROFILE.md and docs/CERTIFICATES.md have, and apart from the program. Voltages, points and levels are whole numbers
in units of 2^-48 of nominal; coefficients and gains are over 2^32. Python's `>>` and `//` round down."""
from fractions import Fraction

ONE = 1 << 48

# The constants of IEC 61000-4-15 for each lamp, in hertz: the corner of the low-pass, k (without a dimension),
# lambda and omega 1 to 4 over 2 pi.
LAMPS = {
    "230/50": (50, "35", "1.74802", "4.05981", "9.15494", "2.27979", "1.22535", "21.9"),
    "120/60": (60, "42", "1.6357", "4.167375", "9.077169", "2.939902", "1.394468", "17.31512"),
}


def hertz(lamp):
    return LAMPS[lamp][0]


def half(lamp, rate):
    """Samples of half a period."""
    return rate // (2 * hertz(lamp))


def window(lamp):
    """Half-periods of a steady window: one second."""
    return 2 * hertz(lamp)


def ceil_div(a, b):
    return -(-a // b)


def ceil32(v):
    """v / 2^32, rounded up."""
    return -((-v) >> 32)


def nearest(quotient):
    """The nearest whole number to 2^32 times the quotient, halves upward."""
    return (2 * (quotient.numerator << 32) + quotient.denominator) // (2 * quotient.denominator)


def design(lamp, rate):
    """The seven rows (b0, b1, b2, a1, a2)."""
    corner, k, l, w1, w2, w3, w4 = [Fraction(text) for text in LAMPS[lamp][1:]]
    scale = Fraction(355, 113 * rate)
    w, l, w1, w2, w3, w4 = [v * scale for v in (corner, l, w1, w2, w3, w4)]
    high = Fraction("0.05") * scale
    b0 = nearest(1 / (1 + high))
    rows = [(b0, -b0, 0, nearest((high - 1) / (1 + high)), 0)]
    for q in ("0.5176380902", "1.4142135624", "1.9318516526"):
        a0 = 1 + Fraction(q) * w + w * w
        b0 = nearest(w * w / a0)
        rows.append((b0, 2 * b0, b0, nearest(2 * (w * w - 1) / a0), nearest((1 - Fraction(q) * w + w * w) / a0)))
    a0 = 1 + 2 * l + w1 * w1
    b0 = nearest(k * w1 / a0)
    rows.append((b0, 0, -b0, nearest(2 * (w1 * w1 - 1) / a0), nearest((1 - 2 * l + w1 * w1) / a0)))
    rows.append((nearest(w3 / w2 * (1 + w2) / (1 + w3)), nearest(w3 / w2 * (w2 - 1) / (1 + w3)), 0,
                 nearest((w3 - 1) / (1 + w3)), 0))
    b0 = nearest(w4 / (1 + w4))
    rows.append((b0, b0, 0, nearest((w4 - 1) / (1 + w4)), 0))
    return rows


# ---- certificates

Q = 1 << 64


def shares(coefficients, x, y):
    """The input's share E and the share R of rounding in the row (x, y)."""
    b0, b1, b2, a1, a2 = coefficients
    e = abs(x * ((b1 << 32) - a1 * b0) + y * ((b2 << 32) - a2 * b0))
    r = (abs(a1 * x + a2 * y) << 32) + ((abs(x) + abs(y)) << 64)
    return e, r


def make_one(coefficients):
    a1 = coefficients[3]
    c = -a1 << 32
    e, r = shares(coefficients, 1 << 32, 0)
    g = h = 0
    if abs(c) < Q:
        g, h = ceil_div(e, Q - abs(c)), ceil_div(r, Q - abs(c))
    return [(1 << 32, 0, c, 0, g, h)]


def make(coefficients):
    """The certificate: rows (x, y, c, d, g, h)."""
    b0, b1, b2, a1, a2 = coefficients
    if b2 == 0 and a2 == 0:
        return make_one(coefficients)
    rows, x, y, before, closed = [], 1 << 32, 0, 0, False
    while True:
        last = (-a2 * y, x << 32)
        closed = len(rows) >= 1 and before + abs(last[0]) + abs(last[1]) <= Q // 64
        if closed or len(rows) == 4095 or abs(x) >= 1 << 44 or abs(y) >= 1 << 44:
            rows.append((x, y) + last)
            break
        big = -a1 * x - a2 * y
        c = big - (big >> 32 << 32)
        rows.append((x, y, c, 0))
        before += abs(c)
        x, y = big >> 32, x
    if not closed:
        return [row + (0, 0) for row in rows]
    both = [shares(coefficients, row[0], row[1]) for row in rows]
    bounds = [ceil_div(64 * (sum(ceil_div(part[i], Q) for part in both) + len(rows)), 63) for i in (0, 1)]
    g = h = 0
    out = []
    for (x, y, c, d), (e, r) in zip(reversed(rows), reversed(both)):
        g += ceil_div((abs(c) + abs(d)) * bounds[0] + e, Q)
        h += ceil_div((abs(c) + abs(d)) * bounds[1] + r, Q)
        out.append((x, y, c, d, g, h))
    return out[::-1]


def accepted(coefficients, rows):
    """Whether the certificate shows its bounds."""
    b0, b1, b2, a1, a2 = coefficients
    if not 1 <= len(rows) <= 4096 or rows[0][:2] != (1 << 32, 0) or (len(rows) > 1 and rows[1][:2] != (-a1, 1 << 32)):
        return False
    if any(abs(r[0]) >= 1 << 44 or abs(r[1]) >= 1 << 44 or not (0 <= r[4] < 1 << 60 and 0 <= r[5] < 1 << 60) for r in rows):
        return False
    if len(rows) == 1:
        x, y, c, d, g, h = rows[0]
        e, r = shares(coefficients, x, y)
        return (b2 == a2 == 0 and abs(c) < Q and c == -a1 << 32 and d == 0
                and abs(c) * g + e <= Q * g and abs(c) * h + r <= Q * h)
    if sum(abs(r[2]) + abs(r[3]) for r in rows) > Q // 4:
        return False
    for row, after in zip(rows, rows[1:] + [(0, 0, 0, 0, 0, 0)]):
        x, y, c, d, g, h = row
        e, r = shares(coefficients, x, y)
        if (-a1 * x - a2 * y) << 32 != Q * after[0] + (c << 32) - a1 * d or Q * x != Q * after[1] + (d << 32):
            return False
        if abs(c) * rows[0][4] + abs(d) * rows[1][4] + Q * after[4] + e > Q * g:
            return False
        if abs(c) * rows[0][5] + abs(d) * rows[1][5] + Q * after[5] + r > Q * h:
            return False
    return True


class Gain:
    """What an accepted certificate shows of a section."""

    def __init__(self, coefficients, rows):
        self.coefficients = coefficients
        self.rows = len(rows)
        self.first = rows[0][4:]
        self.second = rows[1][4:] if len(rows) > 1 else (0, 0)
        self.input = abs(coefficients[0]) + rows[0][4]
        self.rounding = 1 + ceil32(rows[0][5])

    def radius(self, r):
        return ceil32(r * self.input) + self.rounding


def fits(gains):
    b0, b1, b2 = gains[0].coefficients[:3]
    r, below = 66 << 48, True
    for gain in gains:
        r = gain.radius(r)
        below = below and r < 1 << 60 and gain.input < 1 << 36
    return below and b1 == -b0 and b2 == 0


LIMIT = 1 << 60


def own_bounds(gains):
    """The bounds of the two states of sections 2 to 7 as pairs (p, t), and the remainder of one step; or None."""
    p, t, states, rem = 1 << 32, 0, [], [0, 0]
    for gain in gains[1:]:
        a1 = gain.coefficients[3]
        g0, h0 = gain.first
        one = (ceil32(g0 * p), ceil32(g0 * t) + ceil32(h0))
        two = (0, 0)
        if gain.rows > 1:
            g, h = gain.second[0] + ceil32(abs(a1) * g0), gain.second[1] + ceil32(abs(a1) * h0)
            two = (ceil32(g * p), ceil32(g * t) + ceil32(h))
        after = (ceil32(p * gain.input), ceil32(t * gain.input) + gain.rounding)
        rem = [rem[0] + p + after[0], rem[1] + t + after[1]]
        if max((p, t) + one + two + after) >= LIMIT:
            return None
        states.append((one, two))
        p, t = after
    return states, rem


def whole_of(gains):
    """The bound (input, rounding) of sections 2 to 7 together, or None."""
    own = own_bounds(gains)
    if own is None:
        return None
    states, rem = own
    sections = [(gain.coefficients, gain.rows > 1) for gain in gains[1:]]
    u, v, z = [0] * 6, [0] * 6, 1 << 32
    for k in range(5, -1, -1):
        u[k] = z
        z = z * sections[k][0][0] >> 32
    weights, share = abs(z), sum(map(abs, u))
    for _ in range(4096):
        z = 0
        for k in range(5, -1, -1):
            (b0, b1, b2, a1, a2), several = sections[k]
            uk, vk = u[k], v[k]
            big = z + ((-a1 * uk - a2 * vk) >> 32)
            z = (big * b0 + uk * b1 + vk * b2) >> 32
            if abs(big) >= LIMIT or abs(z) >= LIMIT:
                return None
            share += abs(big) + abs(uk) + abs(vk)
            u[k], v[k] = big, uk if several else 0
        weights += abs(z)
    last = [sum(abs(u[k]) * states[k][0][i] + abs(v[k]) * states[k][1][i] for k in range(6)) for i in (0, 1)]
    whole = (weights + ceil32(4097 * rem[0]) + ceil32(last[0]), ceil32(share + 4097 * rem[1] + last[1]))
    if whole[0] >= 1 << 36 or whole[1] >= 1 << 40 or last_radius(gains, whole, 66 << 48) >= LIMIT:
        return None
    return whole


def last_radius(gains, whole, r):
    """The radius after section 7 where the points have the radius r."""
    return ceil32(gains[0].radius(r) * whole[0]) + whole[1]


class NotCertified(Exception):
    """A lamp whose filter has no proved bound: the section's number, or 0 for the filter as a whole."""


def certified(lamp, rate):
    """The seven gains and the bound of sections 2 to 7."""
    gains = []
    for number, coefficients in enumerate(design(lamp, rate), 1):
        rows = make(coefficients)
        if not accepted(coefficients, rows):
            raise NotCertified(number)
        gains.append(Gain(coefficients, rows))
    whole = whole_of(gains) if fits(gains) else None
    if whole is None:
        raise NotCertified(0)
    return gains, whole


# ---- the run of one channel

def squares(lo, hi):
    """The least and the greatest square of an interval."""
    a, b = lo * lo, hi * hi
    if lo <= 0 <= hi:
        return 0, max(a, b)
    return (a, b) if a <= b else (b, a)


def instantaneous(voltages, gains, whole, rate):
    """For each voltage interval the level: the least and the greatest instantaneous flicker sensation."""
    exponent, number = (16, 5965232) if rate == 2400 else (17, 2982616)
    shift = exponent - 16
    # A section is its five coefficients and its two states. The first one starts as if its input had always been 1.
    sections = [list(gain.coefficients) + [0, 0] for gain in gains]
    sections[0][5] = -65536 * sections[0][0]
    mean_lo = mean_hi = 1 << 64
    floor_of_mean = 1 << 62
    widest, radius = -1, 0
    level_lo = level_hi = 0
    known = {}
    for pair in voltages:
        got = known.get(pair)
        if got is None:
            lo, hi = squares(*pair)
            got = known[pair] = (lo >> 48, -(-hi >> 48))
        lo, hi = got
        y_lo = (lo << 64) // (mean_hi if mean_hi > floor_of_mean else floor_of_mean)
        y_hi = -(-(hi << 64) // (mean_lo if mean_lo > floor_of_mean else floor_of_mean))
        x = (y_lo + y_hi) >> 1
        mean_lo += (-mean_lo >> exponent) + (lo >> shift)
        mean_hi -= (mean_hi >> exponent) + (-hi >> shift)
        if y_hi - x > widest:
            widest = y_hi - x
            radius = last_radius(gains, whole, widest)
        for section in sections:
            b0, b1, b2, a1, a2, s1, s2 = section
            y = (b0 * x >> 32) + s1
            section[5] = (b1 * x >> 32) - (a1 * y >> 32) + s2
            section[6] = (b2 * x >> 32) - (a2 * y >> 32)
            x = y
        lo, hi = squares(x - radius, x + radius)
        lo = (lo >> 16) * 310700 >> 32
        hi = -((-hi >> 16) * 310700 >> 32)
        level_lo += number * (lo - level_lo) >> 32
        level_hi -= number * (level_hi - hi) >> 32
        yield level_lo, level_hi


# ---- severity

WEIGHTS = [(942, (1,)), (525, (7, 10, 15)), (657, (22, 30, 40)), (1680, (60, 80, 100, 130, 170)), (800, (300, 500, 800))]


def percentile(rising, tenths):
    """The level of rank ceil(tenths * n / 1000) from the greatest."""
    n = len(rising)
    return rising[n - ceil_div(tenths * n, 1000)]


def root_ceil(value, power):
    """The least w of 0 or more with w^power >= value."""
    low, high = -1, 1
    while high ** power < value:
        high *= 2
    while high - low > 1:
        middle = (low + high) // 2
        if middle ** power >= value:
            high = middle
        else:
            low = middle
    return high


def pst(levels):
    """Short-term severity in billionths, at most 1000."""
    rising = sorted(levels)
    total = sum(weight * sum(percentile(rising, k) for k in tenths) for weight, tenths in WEIGHTS)
    return min(10 ** 12, root_ceil(ceil_div(5 ** 14 * total, 3 << 34), 2))


def plt(values):
    """Long-term severity of twelve values, in billionths."""
    return root_ceil(ceil_div(sum(v ** 3 for v in values), 12), 3)
