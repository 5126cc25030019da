#!/usr/bin/env python3
"""Times `flicker levels` and `flicker check` on recordings beside a plain Rust program of the same rules and integer arithmetic.

    bench/recordings.py [SHARE] [RUNS]

Makes three recordings in a temporary folder, one after the other: 20,000,000 BINARY records of one and of three voltages, and 2,000,000
ASCII records of three. (With a SHARE, 1 where nothing is said, so many times as many.) The voltages have 220 V and 50 Hz, and
amplitudes that swing by 2 percent; the samples come 2400 times a second. Both programs run both commands on each recording RUNS times
(5) in turn and must print the same; `levels` measures the last channel. Printed are the least processor time of each and their ratio,
and the greatest peak of memory of each, and before it that on a tenth of the records. It builds the plain program by cargo, and needs
the built program (`./flicker` builds it)."""
import math
import os
import struct
import sys
import tempfile

import programs

RECORDINGS = [("BINARY", 1, 20_000_000), ("BINARY", 3, 20_000_000), ("ASCII", 3, 2_000_000)]
COMMANDS = {"levels": ["{channel}", "230000", "6250"], "check": []}
PERIOD = 48000


def configuration(form, channels, records):
    lines = ["LAB,DAQ,1999", "%d,%dA,0D" % (channels, channels)]
    lines += ["%d,U%d,A,,V,0.01,0,0,-32767,32767,1,1,P" % (k + 1, k + 1) for k in range(channels)]
    lines += ["50", "1", "2400,%d" % records, "12/03/2021,09:15:00.000000", "12/03/2021,09:15:00.000000", form, "1", ""]
    return "\r\n".join(lines)


def sample(k, channel):
    """Of one channel. The samples repeat after 20 seconds, so that they are made once."""
    swing = 1 + 0.02 * math.sin(2 * math.pi * k * 8.8 / 2400 + channel)
    return round(22000 * math.sqrt(2) * swing * math.sin(2 * math.pi * (k - 16 * channel) / 48))


def data(form, channels, records):
    """The bytes of the records, piece by piece. Their numbers count from 1, and a time stamp is in microseconds."""
    period = [tuple(sample(k, channel) for channel in range(channels)) for k in range(PERIOD)]
    packer = struct.Struct("<II%dh" % channels)
    ends = ["".join(",%d" % value for value in values) + "\r\n" for values in period]
    for first in range(0, records, PERIOD):
        numbers = range(first, min(first + PERIOD, records))
        if form == "BINARY":
            yield b"".join([packer.pack(n + 1, 0, *period[n - first]) for n in numbers])
        else:
            yield "".join(["%d,%d%s" % (n + 1, 1250 * n // 3, ends[n - first]) for n in numbers]).encode()


def make(folder, form, channels, records):
    """Writes rec.cfg and rec.dat, and answers how many bytes the data has."""
    with open(os.path.join(folder, "rec.cfg"), "w", newline="") as f:
        f.write(configuration(form, channels, records))
    with open(os.path.join(folder, "rec.dat"), "wb") as f:
        return sum(f.write(piece) for piece in data(form, channels, records))


def measured(folder, both, command, channels, runs):
    """The least time and the greatest peak of memory of each program."""
    words = [command, "rec.cfg", "rec.dat"] + [word.format(channel=channels) for word in COMMANDS[command]]
    best, peak, texts = {}, {}, set()
    for _ in range(runs):
        for name, program in both.items():
            seconds, memory, out = programs.run([program] + words, folder)
            best[name] = min(best.get(name, seconds), seconds)
            peak[name] = max(peak.get(name, 0), memory)
            texts.add(out)
    if len(texts) != 1:
        sys.exit("the two programs print different texts: %s" % texts)
    return list(best.values()), list(peak.values())


def main():
    share = float(sys.argv[1]) if len(sys.argv) > 1 else 1
    runs = int(sys.argv[2]) if len(sys.argv) > 2 else 5
    with tempfile.TemporaryDirectory() as folder:
        both = {"flicker": programs.built(), "plain Rust": programs.plain(folder, "recordings")}
        print("best of %d runs; memory in MB, on a tenth and on all of the records" % runs)
        print("%-6s %8s %10s %8s %-7s %10s %10s %6s %16s %16s" % ("form", "channels", "records", "MB", "command", *both, "ratio", *both))
        for form, channels, records in RECORDINGS:
            records = int(share * records)
            make(folder, form, channels, records // 10)
            tenth = {command: measured(folder, both, command, channels, 1)[1] for command in COMMANDS}
            size = make(folder, form, channels, records)
            for command in COMMANDS:
                (a, b), peaks = measured(folder, both, command, channels, runs)
                pairs = ["%7.1f %8.1f" % pair for pair in zip(tenth[command], peaks)]
                line = (form, channels, records, size / 1e6, command, a, b, a / b, *pairs)
                print("%-6s %8d %10d %8.1f %-7s %8.3f s %8.3f s %6.2f %16s %16s" % line)


if __name__ == "__main__":
    main()
