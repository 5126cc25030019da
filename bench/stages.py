#!/usr/bin/env python3
"""Times each stage of `report` by itself: in plain Rust as specified, the fast one of the same numbers, and `flicker`'s.

    bench/stages.py [RUNS]

Makes the recording of `bench/report.py` in both forms, and takes it through each stage of plain Rust RUNS times (7): reading of both forms,
and on the first channel voltage with half-periods, adaptor, sections, smoothing, ranks, flags and changes. Printed is the time of each in
nanoseconds a sample and channel: the sum over pieces of 2048 samples of the least time that a piece took, by the clock. Both must come to
the same numbers. It builds the program by cargo.

Then come `flicker`'s stages, in the same unit of processor time, each beside the fast one: reading is `flicker check` on the same recording,
by the built program, and the others are the small programs of `bench/flickermeter.py` and `bench/changes.py`, which `rt run` proves and
builds, on their pseudo-random samples."""
import subprocess
import sys
import tempfile

import changes
import flickermeter
import programs
import report

SAMPLES = 10_000_000
# Samples in half a nominal period: a half-period's share of a time.
HALF = 24
STAGES = {"voltage": "voltage, with half-periods", "front": "adaptor", "cascade": "sections", "smooth": "smoothing", "severity": "ranks"}


def table(text):
    """The nanoseconds of each stage's fast form, by its name."""
    rows = [line.split() for line in text.splitlines()[1:] if line]
    return {" ".join(row[:-3]): float(row[-2]) for row in rows if len(row) > 3}


def of_flicker(folder, runs):
    """Each stage of flicker, with its nanoseconds a sample and channel."""
    for form in ("ASCII", "BINARY"):
        words = [programs.built(), "check", form + ".cfg", form + ".dat"]
        seconds = min(programs.run(words, folder)[0] for _ in range(runs))
        yield "reading, " + form, seconds / (3 * 2400 * report.SECONDS)
    for _, text, uses, name, at_a_time in flickermeter.TIMED:
        turns = max(1, SAMPLES // at_a_time)
        with tempfile.TemporaryDirectory() as place:
            program = programs.over_crates(place, "bench_" + name, uses, {"src/main.rt": text % turns})
            yield STAGES[name], min(programs.run([program])[0] for _ in range(runs)) / (turns * at_a_time)
    count = 2_000_000
    with tempfile.TemporaryDirectory() as place:
        words = [changes.built(place), str(count), "100"]
        times = [changes.read(programs.run(words)[2])[1] for _ in range(runs)]
    for name, least in (("flags", min(t[0] for t in times)), ("changes", min(t[1] for t in times))):
        yield name, least / (count * HALF)


def main():
    runs = int(sys.argv[1]) if len(sys.argv) > 1 else 7
    with tempfile.TemporaryDirectory() as folder:
        program = programs.plain(folder, "stages")
        report.make(folder, 2400 * report.SECONDS)
        words = [program, "ASCII.cfg", "ASCII.dat", "BINARY.cfg", "BINARY.dat", str(runs)]
        text = subprocess.run(words, cwd=folder, check=True, stdout=subprocess.PIPE, text=True).stdout
        print(text, end="")
        fast = table(text)
        print("%-30s %8s %8s %6s" % ("stage", "flicker", "fast", "ratio"))
        for name, seconds in of_flicker(folder, runs):
            print("%-30s %8.2f %8.2f %6.2f" % (name, 1e9 * seconds, fast[name], 1e9 * seconds / fast[name]), flush=True)


if __name__ == "__main__":
    main()
