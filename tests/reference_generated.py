"""The two files of a generated recording, and the values of its last record, from their definition."""
QUARTER = (0, 3397, 6735, 9958, 13011, 15841, 18400, 20645, 22536, 24041, 25135, 25799, 26022)
SINE = QUARTER + QUARTER[-2:0:-1]
SINE += tuple(-value for value in SINE)
AHEAD = (0, 32, 16)

HEAD = "GENERATED,FLK,1999", "3,3A,0D"
CHANNEL = "%d,U%s,%s,,V,0.0125,0,0,-99999,99999,1,1,P"
START = "01/01/2000,00:00:00.000000"


def configuration(seconds):
    lines = list(HEAD) + [CHANNEL % (number, phase, phase) for number, phase in enumerate("ABC", 1)]
    lines += ["50", "1", "2400,%d" % (2400 * seconds), START, START, "ASCII", "1"]
    return "".join(line + "\r\n" for line in lines)


def draws(seed):
    while True:
        yield seed
        seed = (seed * 1664525 + 1013904223) % 4294967296


def columns(seed, count):
    """The values of the three channels."""
    source = draws(seed)
    drawn = [next(source) for _ in range(count // 1200 + 3)]
    for channel, ahead in enumerate(AHEAD):
        depths = [3 * (draw >> 16 + 2 * channel & 3) for draw in drawn]
        yield [SINE[place % 48] * (1000 - depths[1 + place // 1200]) // 1000 for place in range(ahead, count + ahead)]


def data(seed, seconds):
    """The text of the data file, and the values of the last record."""
    rows = list(zip(*columns(seed, 2400 * seconds)))
    text = "".join("%d,%d,%d,%d,%d\r\n" % ((n + 1, 1250 * n // 3) + row) for n, row in enumerate(rows))
    return text, rows[-1]
