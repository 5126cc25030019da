#!/usr/bin/env python3
"""Makes the files of all examples again from formulas: `python3 examples/make.py`.

The expected reports come from tests/reference.py, which is no part of the program. The expected lines of `levels` and
the fault lines are written here by hand, from docs/FORMATS.md and docs/PROFILE.md."""
import math
import os
import struct
import sys

sys.dont_write_bytecode = True
HERE = os.path.dirname(os.path.abspath(__file__))
sys.path.insert(0, os.path.join(os.path.dirname(HERE), "tests"))
import reference  # noqa: E402


def wave(half):
    """A sine of one period of 2*half samples, over 10000, from a table of four digits."""
    return [round(10000 * math.sin(math.pi * k / half)) for k in range(2 * half)]


def square(half):
    return [10000] * half + [-10000] * half


def samples(shape, amplitudes, shift=0):
    """A half-period of `shape` for each amplitude, each begun `shift` samples later."""
    half = len(shape) // 2
    return [round(amplitudes[n // half] * shape[(n + shift) % len(shape)] / 10000)
            for n in range(half * len(amplitudes))]


def configuration(channels, records, hertz=50, rate=2400, form="ASCII"):
    """A configuration; a channel is its name, its phase, its unit, a and b."""
    lines = ["TEST HOUSE,RECORDER 1,1999", "%d,%dA,0D" % (len(channels), len(channels))]
    for i, (name, phase, unit, a, b) in enumerate(channels, 1):
        lines.append("%d,%s,%s,,%s,%s,%s,0,-32767,32767,1,1,P" % (i, name, phase, unit, a, b))
    lines += ["%d" % hertz, "1", "%d,%d" % (rate, records), "12/03/2021,09:15:00.000000",
              "12/03/2021,09:15:00.000000", form, "1"]
    return "".join(line + "\n" for line in lines)


def ascii_data(*rows):
    return "".join("%d,,%s\n" % (n, ",".join(map(str, values))) for n, values in enumerate(zip(*rows), 1))


def binary_data(*rows):
    return b"".join(struct.pack("<II%dh" % len(values), n, 0, *values) for n, values in enumerate(zip(*rows), 1))


def job(lamp, nominal_mv, uncertainty_uv, channels, dmax, times):
    lines = ['lamp = "%s"' % lamp, "nominal_mv = %d" % nominal_mv, "uncertainty_uv = %d" % uncertainty_uv,
             "channels = %r" % channels, "dmax = %d" % dmax]
    if times:
        lines += ["run_in_s = %d" % times[0], "interval_s = %d" % times[1]]
    return "".join(line + "\n" for line in lines)


class Example:
    """A folder. A run is the files `words`, `expected` and `status`, with `-NAME` behind each where the run has a name."""

    def __init__(self, name, *readme):
        self.folder = os.path.join(HERE, name)
        os.makedirs(self.folder, exist_ok=True)
        for old in os.listdir(self.folder):
            os.remove(os.path.join(self.folder, old))
        self.file("README.md", "".join(line + "\n" for line in readme))

    def file(self, name, content):
        with open(os.path.join(self.folder, name), "wb") as file:
            file.write(content if isinstance(content, bytes) else content.encode())

    def run(self, words, expected=None, status=0, name=None):
        """A run with this text and status, or with those of the reference where no text is given."""
        if expected is None:
            here = os.getcwd()
            os.chdir(self.folder)
            expected, status = reference.answer(words.split())
            os.chdir(here)
        for kind, content in (("words", words + "\n"), ("expected", expected), ("status", "%d\n" % status)):
            self.file(kind + ("-" + name if name else ""), content)


REPORT = "report job.toml recording.cfg recording.dat 1"


def make_square():
    example = Example("square",
                      "A fifth of a second of a square wave of 230 V, whose sign changes every 10 ms; `levels` at one microvolt.",
                      "Each of the 19 half-periods that end within the recording has the nominal value, within five billionths.")
    row = samples(square(24), [230] * 20)
    example.file("recording.cfg", configuration([("U", "A", "V", "1", "0")], len(row)))
    example.file("recording.dat", ascii_data(row))
    example.run("levels recording.cfg recording.dat 1 230000 1",
                "levels channel 1\nhalf-periods 19\nleast 0.999999995 to 1.000000004\ngreatest 0.999999995 to 1.000000004\n")


def make_dip():
    example = Example("dip",
                      "3.2 s after the start the voltage dips by 5 % for 120 ms: dmax fails at its limit of 4 %, and with it the report.",
                      "The dip lies behind the one judged interval (from 1 s to 3 s), so Pst passes; its 12 half-periods are within T's limit of 50.")
    levels = [3253] * 450
    levels[320:332] = [3090] * 12
    row = samples(wave(24), levels)
    example.file("recording.cfg", configuration([("U", "A", "V", "0.1", "0")], len(row)))
    example.file("recording.dat", ascii_data(row))
    example.file("job.toml", job("230/50", 230000, 1000, [1], 4, (1, 2)))
    example.run(REPORT)


def make_flicker():
    example = Example("flicker",
                      "Every 60 ms the voltage falls or rises by 0.25 %, so Pst is near 1: undecided with samples known within 10 mV "
                      "(`job.toml`), pass within 5 mV, half a step of the recorder (`fine.toml`).",
                      "Run-in and interval have 2 s each. `standard.toml` asks for the times of a standard report, 60 s and ten minutes, "
                      "and this recording is too short for it.")
    levels = [32530 if i // 6 % 2 else 32448 for i in range(400)]
    row = samples(wave(24), levels)
    example.file("recording.cfg", configuration([("U", "A", "V", "0.01", "0")], len(row)))
    example.file("recording.dat", ascii_data(row))
    for name, uncertainty, times in (("job", 10000, (2, 2)), ("fine", 5000, (2, 2)), ("standard", 5000, None)):
        example.file(name + ".toml", job("230/50", 230000, uncertainty, [1], 4, times))
    example.run(REPORT)
    example.run(REPORT.replace("job", "fine"), name="fine")
    example.run(REPORT.replace("job", "standard"), "fault match 5 1584000 9600\n", 2, name="standard")


def make_kilovolts():
    example = Example("kilovolts",
                      "A channel in kV with an offset, in BINARY at 4800 samples a second on 60 Hz: a calm supply of 0.48 kV, which passes.",
                      "The recorder's zero lies 25 steps of 0.05 V too high, and `b` takes that away.")
    row = [value + 25 for value in samples(wave(40), [13576] * 240)]
    example.file("recording.cfg", configuration([("U", "A", "kV", "5E-05", "-1.25E-03")], len(row), 60, 4800, "BINARY"))
    example.file("recording.dat", binary_data(row))
    example.file("job.toml", job("120/60", 480000, 25000, [1], 6, (1, 1)))
    example.run(REPORT)


def make_three_phases():
    example = Example("three_phases",
                      "Three phases in one recording, worked by three workers: A is calm, B falls by 2 % to a new level, C rises by 8 % for 70 ms.",
                      "A passes. B's dc of 2 % passes, but its step makes Pst fail. C fails by dmax and Pst; the verdict is that of the worst line.")
    calm, half = [650] * 250, 24
    step = [650] * 130 + [637] * 120
    swell = [650] * 120 + [702] * 7 + [650] * 123
    rows = [samples(wave(half), levels, shift) for levels, shift in ((calm, 0), (step, 32), (swell, 16))]
    channels = [(name, phase, "V", "0.5", "0") for name, phase in (("UA", "A"), ("UB", "B"), ("UC", "C"))]
    example.file("recording.cfg", configuration(channels, len(rows[0])))
    example.file("recording.dat", ascii_data(*rows))
    example.file("job.toml", job("230/50", 230000, 1000, [1, 2, 3], 7, (1, 1)))
    example.run(REPORT[:-1] + "3")


def make_damaged():
    example = Example("damaged",
                      "One run for each fault line that words and files can give. `job.toml`, `recording.cfg` and `recording.dat` have no fault.",
                      "Each other file has one; docs/FORMATS.md says what the printed numbers mean.")
    good_job, good = job("230/50", 230000, 0, [1], 4, (0, 1)), configuration([("U", "A", "V", "0.01", "0")], 3)
    example.file("job.toml", good_job)
    example.file("recording.cfg", good)
    example.file("recording.dat", "1,,23000\n2,,23000\n3,,-23000\n")
    example.file("dmax.toml", good_job.replace("dmax = 4", "dmax = 5"))
    example.file("day.cfg", good.replace("12/03/2021,09:15:00.000000", "29/02/2023,09:15:00.000000", 1))
    example.file("unit.cfg", good.replace(",V,", ",A,"))
    example.file("order.dat", "1,,23000\n2,,23000\n4,,-23000\n")
    example.file("cut.dat", "1,,23000\n2,,23000\n")
    example.file("far.dat", "1,,23000\n2,,92001\n3,,-23000\n")
    levels = "levels recording.cfg %s 1 230000 0"
    for name, words, line, status in (
            ("usage", "levels recording.cfg recording.cfg 1 230000 0", "fault usage", 2),
            ("job", REPORT.replace("job", "dmax"), "fault job 5 5", 2),
            ("configuration", "check day.cfg recording.dat", "fault configuration 7 1 4", 2),
            ("match", levels.replace("recording", "unit") % "recording.dat", "fault match 2 1 0", 2),
            ("short", REPORT, "fault match 5 2400 3", 2),
            ("order", "check recording.cfg order.dat", "fault data 3 1 4", 2),
            ("cut", levels % "cut.dat", "fault data 3 0 5", 2),
            ("range", levels % "far.dat", "fault range 2 1", 2),
            ("read", "check recording.cfg absent.dat", "fault read", 4)):
        example.run(words, line + "\n", status, name)
    example.run("check recording.cfg recording.dat", "check\nanalog 1 digital 0\nrecords 3\nfirst 1\nform ASCII\n")


def main():
    for make in (make_square, make_dip, make_flicker, make_kilovolts, make_three_phases, make_damaged):
        make()


if __name__ == "__main__":
    main()
