"""Half-periods, steady windows and voltage changes: the plain rules over lists, in billionths of nominal."""
from math import isqrt

from reference_filters import squares

EARLY, SURE, NOT, DOUBTFUL = "early", "sure", "not", "doubtful"
NOMINAL = 10 ** 9
EXCESS = 33_000_000
SPREAD = 4_000_000


def cuts(negative, half):
    """The first sample of each half-period, and behind the last whole one its end."""
    begins, begin = [0], 0
    for p in range(1, len(negative)):
        length = p - begin
        if length == 2 * half or (2 * length >= half and negative[p] != negative[p - 1]):
            begins.append(p)
            begin = p
    return begins


def half_periods(negative, voltages, half):
    """The interval of each half-period's value."""
    begins, out, known = cuts(negative, half), [], {}
    for begin, end in zip(begins, begins[1:]):
        low = high = 0
        for pair in voltages[begin:end]:
            got = known.get(pair)
            if got is None:
                got = known[pair] = squares(*pair)
            low += got[0]
            high += got[1]
        out.append((isqrt(5 ** 18 * low // (half << 78)), isqrt(5 ** 18 * high // (half << 78))))
    return out


def flags(halves, window):
    out = []
    for j in range(len(halves)):
        if j + 1 < window:
            out.append(EARLY)
            continue
        part = halves[j + 1 - window:j + 1]
        lows, highs = [v[0] for v in part], [v[1] for v in part]
        if max(highs) - min(lows) <= SPREAD:
            out.append(SURE)
        else:
            out.append(NOT if max(lows) - min(highs) > SPREAD else DOUBTFUL)
    return out


def distance(p, q):
    """The interval of |p - q|."""
    return max(0, p[0] - q[1], q[0] - p[1]), max(p[1] - q[0], q[1] - p[0])


def both(a, b):
    """The greatest, end by end."""
    return max(a[0], b[0]), max(a[1], b[1])


def changes_of(halves, steady, window):
    """dc, dmax and T where exactly the windows that end at `steady` are steady."""
    def level(j):
        part = halves[j + 1 - window:j + 1]
        return sum(v[0] for v in part) // window, sum(v[1] for v in part) // window

    found = []                      # each change: before, after or None, its half-periods
    for j, k in zip(steady, steady[1:]):
        if k > j + 1:
            found.append((level(j), level(k), halves[j + 1:k - window + 1]))
    if not steady:
        found.append(((NOMINAL, NOMINAL), None, halves))
    elif steady[-1] + 1 < len(halves):
        found.append((level(steady[-1]), None, halves[steady[-1] + 1:]))
    dc = dmax = count = (0, 0)
    for before, after, part in found:
        if after is not None:
            dc = both(dc, distance(after, before))
        far = [distance(value, before) for value in part]
        for away in far:
            dmax = both(dmax, away)
        count = both(count, (sum(d[0] > EXCESS for d in far), sum(d[1] > EXCESS for d in far)))
    return dc, both(dc, dmax), count


def changes(halves, window):
    """dc, dmax and T over every way to decide the doubtful windows, and the number of these."""
    flag = flags(halves, window)
    doubtful = [j for j, f in enumerate(flag) if f == DOUBTFUL]
    if len(doubtful) > 6:
        wide = max(v[1] for v in halves) - min(v[0] for v in halves)
        far = max([wide] + [abs(end - NOMINAL) for v in halves for end in v])
        return (0, wide), (0, far), (0, len(halves)), len(doubtful)
    sure = [j for j, f in enumerate(flag) if f == SURE]
    found = []
    for number in range(1 << len(doubtful)):
        taken = [j for i, j in enumerate(doubtful) if number >> i & 1]
        found.append(changes_of(halves, sorted(sure + taken), window))
    hull = [(min(f[i][0] for f in found), max(f[i][1] for f in found)) for i in range(3)]
    return hull[0], hull[1], hull[2], len(doubtful)
