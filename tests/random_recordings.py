"""Random jobs and recordings for tests/compare.py. The same seed and number give the same files."""
import math
import random
import struct


class Recording:
    """The three files and the words of a case."""

    def __init__(self, seed, number):
        self.random = random.Random("%d/%d" % (seed, number))
        self.note = []
        self.make()

    def chance(self, probability):
        return self.random.random() < probability

    def make(self):
        r = self.random
        self.lamp = r.choice(["230/50", "120/60"])
        self.hertz = int(self.lamp[4:])
        self.rate = r.choice([2400, 4800])
        self.binary = self.chance(0.5)
        self.analog = r.randint(1, 4)
        self.digital = r.choice([0, 0, 1, 17])
        self.selected = r.sample(range(1, self.analog + 1), r.randint(1, min(3, self.analog)))
        self.nominal = r.choice([230000, 120000, 400000, 1000, 1000000, r.randint(1000, 1000000)])
        self.kind = r.choices(["calm", "doubt", "lively", "exact", "long", "outage"], [30, 35, 30, 4, 5, 1])[0]
        if self.kind in ("long", "outage"):
            self.rate, self.analog, self.selected = 2400, 1, [1]
        self.uncertainty = self.draw_uncertainty()
        self.run_in = r.choice([0, 0, 1, 1, 2] if self.kind != "calm" else [2, 3])
        self.interval = r.choice([1, 1, 2, 3]) if self.kind != "long" else 1
        self.records = self.draw_records()
        self.wide = self.chance(0.15)       # a scale that reaches above four times nominal
        self.channels = [self.draw_channel() for _ in range(self.analog)]
        self.rows = [self.draw_samples(channel) for channel in self.channels]
        self.first = r.choice([0, 1, 1, 7, 4000000000])
        self.damage()

    def draw_uncertainty(self):
        greatest = 10 * self.nominal
        small = [0, 1, greatest // 10000, greatest // 1000, greatest // 300, greatest // 100]
        if self.kind in ("calm", "long", "outage"):
            return self.random.choice(small)
        if self.kind == "exact":
            return 0
        if self.kind == "doubt":
            return greatest // self.random.choice([20, 40, 80, 200, 400, 1000])
        return self.random.choice(small + [greatest, greatest // 30, self.random.randint(0, greatest)])

    def draw_records(self):
        r = self.random
        least = self.rate * (self.run_in + self.interval)
        if self.chance(0.03):
            self.note.append("too short")
            return least - r.randint(1, 5)
        if self.kind == "long":             # twelve intervals, so that Plt is judged
            return self.rate * (self.run_in + 12) + r.randint(0, 2000)
        if self.kind == "outage":           # the mean square falls below its clamp
            return 48 * self.rate
        return max(least, r.randint(2 * self.rate, 6 * self.rate // (2 if self.rate == 4800 else 1)))

    def draw_channel(self):
        """The unit, the scale and the offset as texts, and both as numbers in volts."""
        r = self.random
        most = 32767 if self.binary else 99998
        if self.kind == "exact":            # 10000 steps are nominal
            scale = "%d.%07d" % divmod(self.nominal, 10 ** 7)
            return "V", scale, "0", float(scale), 0.0
        unit, factor = r.choice([("V", 1), ("V", 1), ("v", 1), ("kV", 1000), ("KV", 1000)])
        reach = r.uniform(4.05, 6) if self.wide else r.uniform(1.6, 3.2)
        scale = "%.*e" % (r.randint(2, 9), self.nominal / 1000 * reach / most / factor)
        offset = r.choice(["0", "0", "0.0", "%.3e" % (r.uniform(-0.02, 0.02) * self.nominal / 1000 / factor)])
        if self.chance(0.2):
            scale = "-" + scale
        return unit, scale, offset, float(scale) * factor, float(offset) * factor

    def draw_envelope(self, halves):
        """The amplitude of each half-period over nominal."""
        r = self.random
        kind = r.choice({"calm": ["steady", "little", "little"], "doubt": ["pulses"],
                         "lively": ["dip", "dips", "sine", "edge", "steps"], "exact": ["limit"],
                         "long": ["little", "dips"], "outage": ["outage"]}[self.kind])
        self.note.append(kind)
        level = [r.choice([1.0, 1.0, r.uniform(0.95, 1.05)]) if self.kind == "lively" else 1.0] * halves
        if kind == "limit":                 # a spread of exactly the limit of a steady window, or one step beside it
            return self.stepped(level, 1e-4 * r.choice([-40, -40, -39, -41]))
        if kind == "outage":
            return [1.0 if i < 3 * self.hertz else 0.0 for i in range(halves)]
        if kind in ("dip", "dips"):
            return self.dipped(level, 1 if kind == "dip" else 4)
        if kind in ("little", "sine"):
            depth, frequency = r.choice([1, 2, 3, 10]) * (1e-4 if kind == "little" else 1e-3), r.uniform(0.5, 25)
            return [v * (1 + depth * math.sin(math.pi * frequency * i / self.hertz)) for i, v in enumerate(level)]
        if kind == "pulses":
            return self.pulsed(level, r.choice([1, 1, 1, 2]))
        for _ in range({"steady": 0, "edge": 1, "steps": 3}[kind]):
            level = self.stepped(level, r.choice([0.004, -0.004, 0.00401, 0.0399, 0.033, -0.033, -0.07]))
        return level

    def stepped(self, level, step):
        """A step at some half-period, to the end."""
        at = self.random.randrange(len(level))
        return [v * (1 + step * (i >= at)) for i, v in enumerate(level)]

    def dipped(self, level, count):
        """Dips and swells of all depths, and of lengths about the limit of T."""
        r = self.random
        for _ in range(count):
            at, size = r.randrange(len(level)), r.choice([1, 2, 7, 20, 50, 51, 60, 61, 120])
            factor = 1 + r.choice([-1, -1, 1]) * r.choice([0.003, 0.033, 0.04, 0.06, 0.3, 0.9, r.uniform(0, 0.1)])
            level = [v * (factor if at <= i < at + size else 1) for i, v in enumerate(level)]
        return level

    def pulsed(self, level, count):
        """Pairs of short pulses nearly a window apart: few windows hold both, and their spread is near the limit."""
        r, window = self.random, 2 * self.hertz
        for _ in range(count):
            first = r.randrange(max(1, len(level) - window))
            second = first + window - r.randint(1, 7)
            blur = r.choice([0, 2e-3 * self.uncertainty / self.nominal, 1e-5])
            part = r.uniform(0.0015, 0.0025)
            level[first] *= 1 + part
            if second < len(level):
                level[second] *= 1 - (0.004 + r.uniform(-blur, blur) - part)
        return self.stepped(level, r.choice([-0.05, 0.033, -0.034, 0.02, -0.004])) if self.chance(0.5) else level

    def draw_samples(self, channel):
        r = self.random
        _, _, _, scale, offset = channel
        most = 32767 if self.binary else 99998
        half = self.rate // (2 * self.hertz)
        level = self.draw_envelope(self.records // half + 2)
        square, phase, slip, noise = self.chance(0.35), r.randrange(2 * half), 0, r.choice([0, 0, 1])
        late = r.choice([0.25, 0.25, 0])    # without it the sine passes through zero at a sample
        if self.kind == "exact":
            square, noise = True, 0
        if self.kind == "lively":
            slip, noise = r.choice([0, 0, 0.01, -0.02]), r.choice([0, 0, 1, 3])
        volts, samples = self.nominal / 1000, []
        for n in range(self.records):
            turn = (n * (1 + slip) + phase + late) / (2 * half)
            wave = (1 if turn % 1 < 0.5 else -1) if square else math.sqrt(2) * math.sin(2 * math.pi * turn)
            value = volts * level[int((n + phase % half) // half)] * wave
            value = round((value - offset) / scale) + (r.randint(-noise, noise) if noise else 0)
            samples.append(max(-most, min(most, value)))
        return samples

    def damage(self):
        """A value over range, a missing value, a jump of the number or a cut, now and then."""
        r = self.random
        self.jump, self.cut, self.tail = None, 0, b""
        most = 32767 if self.binary else 99998
        if self.wide and self.chance(0.6):
            for _ in range(r.randint(1, 2)):
                self.rows[r.randrange(self.analog)][r.randrange(self.records)] = r.choice([most, -most])
            self.note.append("far value")
        if self.chance(0.06):
            self.rows[r.randrange(self.analog)][r.randrange(self.records)] = -32768 if self.binary else 99999
            self.note.append("missing value")
        if self.chance(0.04):
            self.jump = r.randrange(1, self.records)
            self.note.append("jump")
        if self.chance(0.03):
            self.cut = r.randint(1, 30)
            self.note.append("cut")
        if self.chance(0.06):
            self.tail = r.choice([b"\x1a", b"\r\n", b"x"])
            self.note.append("tail")

    # ---- the files

    def job(self):
        lines = ['lamp = "%s"' % self.lamp, "nominal_mv = %d" % self.nominal, "uncertainty_uv = %d" % self.uncertainty,
                 "channels = %r" % self.selected, "dmax = %d" % self.random.choice([4, 6, 7]),
                 "run_in_s = %d" % self.run_in, "interval_s = %d" % self.interval]
        return ("\n".join(lines) + "\n").encode()

    def configuration(self):
        lines = ["TEST HOUSE,RECORDER,1999", "%d,%dA,%dD" % (self.analog + self.digital, self.analog, self.digital)]
        for i, (unit, scale, offset, _, _) in enumerate(self.channels, 1):
            lines.append("%d,U%d,A,,%s,%s,%s,0,-99999,99999,1,1,P" % (i, i, unit, scale, offset))
        lines += ["%d,D%d,,,0" % (i, i) for i in range(1, self.digital + 1)]
        lines += ["%d" % self.hertz, "1", "%d,%d" % (self.rate, self.records), "12/03/2021,09:15:00.000000",
                  "12/03/2021,09:15:00.000000", "BINARY" if self.binary else "ASCII", "1"]
        return ("\r\n".join(lines) + "\r\n").encode()

    def data(self):
        out, bits = [], self.random.randint(0, 1)
        for n in range(self.records):
            number = self.first + n + (1 if self.jump is not None and n >= self.jump else 0)
            values = [row[n] for row in self.rows]
            if self.binary:
                out.append(struct.pack("<II%dh%dH" % (self.analog, (self.digital + 15) // 16), number, n, *values,
                                       *[bits] * ((self.digital + 15) // 16)))
            else:
                out.append((",".join(map(str, [number, ""] + values + [bits] * self.digital)) + "\r\n").encode())
        whole = b"".join(out)
        return whole[:len(whole) - self.cut] + self.tail
