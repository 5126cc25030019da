#!/usr/bin/env python3
"""An independent implementation of the commands `report`, `levels`, `check`, `tables` and `gen`, to compare the program with.

    python3 tests/reference.py report JOB CFG DAT WORKERS
    python3 tests/reference.py tables LAMP [RATE]
    python3 tests/reference.py levels CFG DAT CHANNEL NOMINAL_MV UNCERTAINTY_UV
    python3 tests/reference.py check CFG DAT
    python3 tests/reference.py gen SEED SECONDS CFG DAT

Prints the command's text and ends with its status. Whole numbers and the standard library alone; nothing here was
taken from the program. It reads the files whole, and a want of memory or a failed write isn't looked at."""
import re
import sys

sys.dont_write_bytecode = True
import reference_changes as changes  # noqa: E402
import reference_filters as filters  # noqa: E402
import reference_generated as generated  # noqa: E402
from reference_files import Fault, decimal_text, read_configuration, read_data, read_job  # noqa: E402

WORD = re.compile(r"[0-9]{1,10}")


def usage():
    raise Fault("usage")


def number_word(word, least, greatest):
    if not WORD.fullmatch(word) or not least <= int(word) <= greatest:
        usage()
    return int(word)


def content(name):
    try:
        with open(name, "rb") as file:
            return file.read()
    except OSError:
        raise Fault("read") from None


def billionths(value):
    return "%d.%09d" % divmod(value, 10 ** 9)


def span(pair):
    return "%s to %s" % (billionths(pair[0]), billionths(pair[1]))


def verdict(pair, limit):
    if pair[1] <= limit:
        return "pass"
    return "fail" if pair[0] > limit else "undecided"


def overall(verdicts):
    return next((v for v in ("fail", "undecided") if v in verdicts), "pass")


# ---- the channel

def unit_factor(unit):
    return {b"V": 1, b"KV": 1000}.get(unit.upper())


def match_channel(c, channel):
    if channel > len(c.analog):
        raise Fault("match", 1, channel, len(c.analog))
    unit, a, b = c.analog[channel - 1]
    if unit_factor(unit) is None:
        raise Fault("match", 2, channel, 0)
    if abs(a) > 10 ** 28 or abs(b) > 10 ** 28:
        raise Fault("match", 3, channel, 0)


class Channel:
    """A channel's scale: recorded values to voltage intervals, in units of 2^-48 of nominal."""

    def __init__(self, c, channel, nominal_mv, uncertainty_uv):
        unit, self.a, self.b = c.analog[channel - 1]
        self.factor = unit_factor(unit)
        self.nominal, self.uncertainty = nominal_mv * 10 ** 21, uncertainty_uv * 10 ** 18

    def exact(self, value):
        return (self.a * value + self.b) * self.factor

    def over(self, value):
        return abs(self.exact(value)) > 4 * self.nominal

    def voltage(self, value):
        v, e, n = self.exact(value), self.uncertainty, self.nominal
        return ((v - e) << 48) // n, -(((-v - e) << 48) // n)

    def run(self, values):
        """Which samples are negative, and the voltage interval of each."""
        of = {value: (self.exact(value) < 0, self.voltage(value)) for value in set(values)}
        pairs = [of[value] for value in values]
        return [p[0] for p in pairs], [p[1] for p in pairs]


def read_samples(name, c, numbers, scales):
    """The samples of the channels; raises the fault of the least record, its form before its voltages."""
    data = read_data(content(name), c, numbers)
    over = []
    for place, (number, scale) in enumerate(zip(numbers, scales)):
        far = {value for value in set(data.columns[number]) if scale.over(value)}
        if far:
            record = next(i for i, value in enumerate(data.columns[number], 1) if value in far)
            over.append((record, place, number))
    if over:
        record, _, number = min(over)
        raise Fault("range", record, number)
    if data.fault:
        raise data.fault
    return data.columns


# ---- commands

def tables(words):
    if len(words) not in (1, 2) or words[0] not in filters.LAMPS or (words[1:] and words[1] not in ("2400", "4800")):
        usage()
    gains, whole = certified(words[0], int((words[1:] or ["2400"])[0]))
    lines = []
    for i, gain in enumerate(gains, 1):
        lines.append("section %d %d %d %d %d %d" % ((i,) + gain.coefficients))
        lines.append("gain %d %d %d %d" % (i, gain.input, gain.rounding, gain.rows))
    return lines + ["cascade %d %d" % whole], 0


def certified(lamp, rate):
    try:
        return filters.certified(lamp, rate)
    except filters.NotCertified as stop:
        raise Fault("lamp", stop.args[0]) from None


def check(words):
    if len(words) != 2 or words[0] == words[1]:
        usage()
    c = read_configuration(content(words[0]))
    data = read_data(content(words[1]), c, [])
    if data.fault:
        raise data.fault
    return ["check", "analog %d digital %d" % (len(c.analog), c.digital), "records %d" % c.records,
            "first %d" % data.first, "form " + c.form], 0


def levels(words):
    if len(words) != 5:
        usage()
    channel = number_word(words[2], 1, 256)
    nominal = number_word(words[3], 1000, 1000000)
    uncertainty = number_word(words[4], 0, 10 * nominal)
    if words[0] == words[1]:
        usage()
    c = read_configuration(content(words[0]))
    match_channel(c, channel)
    lamp = {50 * 10 ** 24: "230/50", 60 * 10 ** 24: "120/60"}.get(c.lf)
    if lamp is None:
        raise Fault("match", 4, 0, decimal_text(c.lf))
    scale = Channel(c, channel, nominal, uncertainty)
    columns = read_samples(words[1], c, [channel], [scale])
    halves = changes.half_periods(*scale.run(columns[channel]), filters.half(lamp, c.rate))
    lines = ["levels channel %d" % channel, "half-periods %d" % len(halves)]
    for word, of in (("least", min), ("greatest", max)):
        ends = [of(h[i] for h in halves) for i in (0, 1)] if halves else None
        lines.append("%s %s" % (word, span(ends) if ends else "none"))
    return lines, 0


def match_job(job, c):
    for channel in job["channels"]:
        match_channel(c, channel)
    if c.lf != filters.hertz(job["lamp"]) * 10 ** 24:
        raise Fault("match", 4, filters.hertz(job["lamp"]), decimal_text(c.lf))
    needed = c.rate * (job["run_in_s"] + job["interval_s"])
    if c.records < needed:
        raise Fault("match", 5, needed, c.records)
    if c.records > c.rate * 25_000_000 // 3000:
        raise Fault("match", 6, c.rate * 25_000_000 // 3000, c.records)


def channel_lines(job, c, number, values, scale, gains, whole, count):
    """The lines of one channel, and their verdicts."""
    lamp, rate = job["lamp"], c.rate
    negative, voltages = scale.run(values)
    halves = changes.half_periods(negative, voltages, filters.half(lamp, rate))
    dc, dmax, t, doubtful = changes.changes(halves, filters.window(lamp))
    begin, size = rate * job["run_in_s"], rate * job["interval_s"]
    sensed = list(filters.instantaneous(voltages[:begin + count * size], gains, whole, rate))[begin:]
    severities = []
    for i in range(count):
        part = sensed[i * size:(i + 1) * size]
        severities.append(tuple(filters.pst([level[end] for level in part]) for end in (0, 1)))
    judged = [("dc", dc, 33_000_000), ("dmax", dmax, job["dmax"] * 10_000_000), ("t", t, filters.hertz(lamp))]
    judged += [("pst %d" % i, pair, 10 ** 9) for i, pair in enumerate(severities, 1)]
    if count == 12:
        judged.append(("plt", tuple(filters.plt([pair[end] for pair in severities]) for end in (0, 1)), 650_000_000))
    lines = ["channel %d" % number, "half-periods %d" % len(halves), "doubtful %d" % doubtful]
    verdicts = []
    for word, pair, limit in judged:
        verdicts.append(verdict(pair, limit))
        if word == "t":
            lines.append("t %d to %d limit %d %s" % (pair + (limit, verdicts[-1])))
        else:
            lines.append("%s %s limit %s %s" % (word, span(pair), billionths(limit), verdicts[-1]))
    return lines + (["plt none"] if count < 12 else []), verdicts


def report(words):
    if len(words) != 4:
        usage()
    number_word(words[3], 1, 16)
    if len(set(words[:3])) < 3:
        usage()
    job = read_job(content(words[0]))
    c = read_configuration(content(words[1]))
    match_job(job, c)
    gains, whole = certified(job["lamp"], c.rate)
    numbers = job["channels"]
    scales = [Channel(c, number, job["nominal_mv"], job["uncertainty_uv"]) for number in numbers]
    columns = read_samples(words[2], c, numbers, scales)
    count = min(12, (c.records - c.rate * job["run_in_s"]) // (c.rate * job["interval_s"]))
    standard = (job["run_in_s"], job["interval_s"]) == (60, 600)
    lines = ["report", "profile flicker-1", "form " + ("standard" if standard else "informative"),
             "lamp " + job["lamp"], "rate %d" % c.rate, "nominal-mv %d" % job["nominal_mv"],
             "uncertainty-uv %d" % job["uncertainty_uv"], "records %d" % c.records, "intervals %d" % count]
    verdicts = []
    for number, scale in zip(numbers, scales):
        more, judged = channel_lines(job, c, number, columns[number], scale, gains, whole, count)
        lines += more
        verdicts += judged
    last = overall(verdicts)
    return lines + ["verdict " + last], {"pass": 0, "fail": 1, "undecided": 3}[last]


def gen(words):
    if len(words) != 4:
        usage()
    seed = number_word(words[0], 0, 2 ** 32 - 1)
    seconds = number_word(words[1], 1, 8000)
    if words[2] == words[3]:
        usage()
    text, last = generated.data(seed, seconds)
    for name, content in ((words[2], generated.configuration(seconds)), (words[3], text)):
        with open(name, "w", encoding="ascii", newline="") as file:
            file.write(content)
    return ["gen", "records %d" % (2400 * seconds), "last %d %d %d" % last], 0


COMMANDS = {"report": report, "tables": tables, "levels": levels, "check": check, "gen": gen}


def answer(words):
    """What a program must print for the words, and its status."""
    try:
        if not words or words[0] not in COMMANDS:
            usage()
        lines, status = COMMANDS[words[0]](words[1:])
    except Fault as fault:
        lines, status = [fault.line()], 4 if fault.where == ("read",) else 2
    return "".join(line + "\n" for line in lines), status


def main():
    text, status = answer(sys.argv[1:])
    sys.stdout.write(text)
    sys.exit(status)


if __name__ == "__main__":
    main()
