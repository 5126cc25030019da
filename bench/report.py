#!/usr/bin/env python3
"""Times `flicker report` on a generated recording of eleven minutes beside three programs in plain Rust.

    bench/report.py [RUNS] [PROGRAM]

Makes the recording that `flicker gen 1 660` makes, 1,584,000 records of three voltages at 2400 samples a second, as ASCII and with the same
values as BINARY, and a job of the standard's times: a run-in of 60 seconds and one interval of 600. The programs in plain Rust are one of the
same rules and integer arithmetic (plain), one that prints the same by faster arithmetic of whole numbers (fast), and one in double precision
without intervals (double). All report on each with 1, 2 and 4 workers, RUNS times (5) in turn. All but double must print the same and end with the
same status. Printed are for each the least processor time, the least time by the clock and the greatest peak of memory, and the ratios of
processor times; then how much faster four workers are than one, and how many processors the machine gives to four programs. The goals
stand beside. At the end it compares the peaks of memory on a tenth of the records and on all of them, both with a run-in of 6 seconds and
intervals of 60. It builds the plain programs by cargo. `flicker` is the built program (`./flicker` builds it), or another one as PROGRAM;
where there is none, the plain ones are compared alone."""
import os
import struct
import subprocess
import sys
import tempfile
import time

import programs

SECONDS = 660
WORKERS = [1, 2, 4]
QUARTER = [0, 3397, 6735, 9958, 13011, 15841, 18400, 20645, 22536, 24041, 25135, 25799, 26022]
HALF = QUARTER + QUARTER[-2:0:-1]
WAVE = HALF + [-value for value in HALF]
SHIFTS = [0, 32, 16]
JOB = 'lamp = "230/50"\nnominal_mv = 230000\nuncertainty_uv = 6250\nchannels = [1, 2, 3]\ndmax = 7\n'
SHORT = JOB + "run_in_s = 6\ninterval_s = 60\n"
SPEED_GOAL = 2.5
GOALS = {"ASCII": "at most 1.25 of plain, 1.5 of fast", "BINARY": "at most 1.25 of plain and of fast, below 1 of double"}


def draws(seed):
    while True:
        seed = (1664525 * seed + 1013904223) % 2**32
        yield seed


def voltages(seed, channel):
    """The samples of a channel, without an end. A draw holds for half a second."""
    lowered = [[value * (1000 - 3 * level) // 1000 for value in WAVE] for level in range(4)]
    skipped = SHIFTS[channel]
    for draw in draws(seed):
        period = lowered[(draw >> (16 + 2 * channel)) % 4]
        yield from (period * 25)[skipped:]
        skipped = 0


def configuration(form, records):
    lines = ["GENERATED,FLK,1999", "3,3A,0D"]
    lines += ["%d,U%s,%s,,V,0.0125,0,0,-99999,99999,1,1,P" % (k + 1, "ABC"[k], "ABC"[k]) for k in range(3)]
    lines += ["50", "1", "2400,%d" % records, "01/01/2000,00:00:00.000000", "01/01/2000,00:00:00.000000", form, "1", ""]
    return "\r\n".join(lines)


def make(folder, records):
    """Writes the jobs, and both recordings with so many records."""
    for name, text in [("long.toml", JOB), ("short.toml", SHORT)] + [(f + ".cfg", configuration(f, records)) for f in ("ASCII", "BINARY")]:
        with open(os.path.join(folder, name), "w", newline="") as f:
            f.write(text)
    packer = struct.Struct("<II3h")
    with open(os.path.join(folder, "ASCII.dat"), "w", newline="") as text, open(os.path.join(folder, "BINARY.dat"), "wb") as data:
        for n, values in zip(range(records), zip(*(voltages(1, channel) for channel in range(3)))):
            text.write("%d,%d,%d,%d,%d\r\n" % (n + 1, 1250 * n // 3, *values))
            data.write(packer.pack(n + 1, 1250 * n // 3, *values))


def measured(folder, all_of, job, form, workers, runs):
    """The least processor time, the least time by the clock and the greatest peak of memory of each program."""
    words = ["report", job + ".toml", form + ".cfg", form + ".dat", str(workers)]
    ends = {name: subprocess.run([program] + words, cwd=folder, stdout=subprocess.PIPE) for name, program in all_of.items()}
    texts = {(end.returncode, end.stdout) for name, end in ends.items() if name != "double"}
    if len(texts) != 1:
        sys.exit("the programs end with %s" % texts)
    best = {name: (float("inf"), float("inf"), 0) for name in all_of}
    for _ in range(runs):
        for name, program in all_of.items():
            start = time.monotonic()
            seconds, memory, _ = programs.run([program] + words, folder, status=ends[name].returncode)
            clock = time.monotonic() - start
            best[name] = (min(best[name][0], seconds), min(best[name][1], clock), max(best[name][2], memory))
    return best


def ratios(best):
    """The ratios of processor time: of the first program over each other one, and without flicker of fast over double too."""
    names = list(best)
    pairs = [(names[0], name) for name in names[1:]] + ([] if "flicker" in best else [("fast", "double")])
    return {"%s/%s" % pair: best[pair[0]][0] / best[pair[1]][0] for pair in pairs}


def processors(folder, program, form, runs):
    """How many processors the machine gives to four runs with one worker each, side by side: what four workers can gain at most."""
    words = [program, "report", "long.toml", form + ".cfg", form + ".dat", "1"]

    def clock(count):
        start = time.monotonic()
        for child in [subprocess.Popen(words, cwd=folder, stdout=subprocess.DEVNULL) for _ in range(count)]:
            child.wait()
        return time.monotonic() - start

    alone = min(clock(1) for _ in range(runs))
    return 4 * alone / min(clock(4) for _ in range(runs))


def compare(folder, all_of, form, runs):
    """Prints the lines of a form, and answers the ratios with one worker."""
    best = {workers: measured(folder, all_of, "long", form, workers, runs) for workers in WORKERS}
    for workers, line in best.items():
        columns = ["%6.3f %6.3f %6.1f" % line[name] for name in all_of]
        print("%-6s %7d   %s   %s" % (form, workers, "   ".join(columns), " ".join("%.2f" % ratio for ratio in ratios(line).values())))
    gains = ["%s %.2f" % (name, best[1][name][1] / best[4][name][1]) for name in all_of]
    goal = " (goal of flicker: at least %.2f)" % SPEED_GOAL if form == "BINARY" and "flicker" in all_of else ""
    print("%-6s four workers over one, by the clock: %s%s" % (form, ", ".join(gains), goal))
    first = next(iter(all_of))
    print("%-6s four runs of %s side by side, with one worker each, had %.2f processors" % (form, first, processors(folder, all_of[first], form, runs)))
    return ratios(best[1])


def programs_of(folder):
    """The path of each program by its name."""
    program = os.path.abspath(sys.argv[2]) if len(sys.argv) > 2 else programs.place()
    if len(sys.argv) > 2 and not os.path.exists(program):
        sys.exit("there is no %s" % program)
    first = {"flicker": program} if os.path.exists(program) else {}
    return {**first, **dict(zip(["plain", "fast", "double"], programs.plains(folder, ["report", "fast", "double"])))}


def main():
    runs = int(sys.argv[1]) if len(sys.argv) > 1 else 5
    with tempfile.TemporaryDirectory() as folder:
        all_of = programs_of(folder)
        records = 2400 * SECONDS
        make(folder, records)
        print("%d records, best of %d runs; processor time and time by the clock in seconds, memory in MB" % (records, runs))
        heads = "   ".join("%-20s" % name for name in all_of)
        pairs = " ".join(ratios({name: (1, 1, 1) for name in all_of}))
        print("%-6s %7s   %s   %s" % ("form", "workers", heads, pairs))
        one = {form: compare(folder, all_of, form, runs) for form in ("ASCII", "BINARY")}
        for form, line in one.items():
            goal = " (goals of flicker: %s)" % GOALS[form] if "flicker" in all_of else ""
            print("%-6s one worker, processor time: %s%s" % (form, ", ".join("%s %.2f" % ratio for ratio in line.items()), goal))
        peaks = {records: measured(folder, all_of, "short", "BINARY", 1, 1)}
        make(folder, records // 10)
        peaks[records // 10] = measured(folder, all_of, "short", "BINARY", 1, 1)
        for count in sorted(peaks):
            print("peak of memory with intervals of 60 s, %8d BINARY records: " % count
                  + ", ".join("%s %.1f MB" % (name, peak[2]) for name, peak in peaks[count].items()))


if __name__ == "__main__":
    main()
