#!/usr/bin/env python3
"""Times the reading of a configuration of 1,048,576 bytes, the most that is read, beside a reader in plain Rust.

    bench/configuration.py [RUNS]

Makes configurations of half and of all of that length in four shapes: `zeros` and `spaces`, 256 analog and 256 digital channels whose
decimals have leading zeros or stand behind spaces; `tail`, the same channels with a tail of spaces; and `number`, one decimal over the
whole length. Both programs read each of them RUNS times (40) in turn and must print the same. Printed are the least processor
times less that on the plainest configuration, for half and for all of the length, and the ratio of the latter. It builds the plain
program by cargo, and needs the built program (`./flicker` builds it)."""
import os
import sys
import tempfile

import programs

MOST = 1_048_576
CHANNELS = 256
REST = "50\r\n1\r\n2400,20000000\r\n12/03/2021,09:15:00.000000\r\n12/03/2021,09:15:00.000000\r\nBINARY\r\n1\r\n"


def with_channels(pad):
    """A configuration of all channels with texts of 64 bytes, each decimal changed by `pad`."""
    text = 64 * "t"
    decimals = ",".join(pad(d) for d in ("0.01", "0", "0", "32767", "32767", "1", "1"))
    analog = ["%d,%s,A,%s,t,%s,P" % (k + 1, text, text, decimals) for k in range(CHANNELS)]
    digital = ["%d,%s,,%s,1" % (k + 1, text, text) for k in range(CHANNELS)]
    head = ["LAB,DAQ,1999", "%d,%dA,%dD" % (2 * CHANNELS, CHANNELS, CHANNELS)]
    return "\r\n".join(head + analog + digital) + "\r\n" + REST


def filled(length, fill):
    """A configuration of all channels in which each decimal stands behind as many bytes `fill` as the length allows."""
    room = (length - len(with_channels(str))) // (7 * CHANNELS)
    return with_channels(lambda decimal: room * fill + decimal).ljust(length)


def with_number(length):
    """A configuration of one channel whose multiplier is a decimal over nearly the whole length."""
    head, tail = "LAB,DAQ,1999\r\n1,1A,0D\r\n1,U,A,,t,", "1,0,0,-32767,32767,1,1,P\r\n" + REST
    return head + (length - len(head) - len(tail)) * "0" + tail


SHAPES = {
    "zeros": lambda length: filled(length, "0"),
    "spaces": lambda length: filled(length, " "),
    "tail": lambda length: with_channels(str).ljust(length),
    "number": with_number,
}


def least_times(folder, both, runs):
    """The least time of each program on the configuration in the folder."""
    least = [float("inf")] * len(both)
    for _ in range(runs):
        outs = []
        for k, words in enumerate(both):
            seconds, _, out = programs.run(words, folder, status=2)
            least[k] = min(least[k], seconds)
            outs.append(out)
        if outs != [b"fault match 2 1 0\n"] * len(both):
            sys.exit("the programs print %s" % outs)
    return least


def main():
    runs = int(sys.argv[1]) if len(sys.argv) > 1 else 40
    with tempfile.TemporaryDirectory() as folder:
        both = [
            [programs.built(), "levels", "rec.cfg", "rec.dat", "1", "230000", "1"],
            [programs.plain(folder, "configuration"), "rec.cfg"],
        ]

        def timed(text):
            with open(os.path.join(folder, "rec.cfg"), "w", newline="") as f:
                f.write(text)
            return least_times(folder, both, runs)

        start = timed("LAB,DAQ,1999\r\n1,1A,0D\r\n1,U,A,,t,1,0,0,-32767,32767,1,1,P\r\n" + REST)
        print("%d bytes, best of %d runs, milliseconds above a short configuration" % (MOST, runs))
        print("%-8s %18s %18s %6s" % ("", "flicker half, all", "plain half, all", "ratio"))
        for name, shape in SHAPES.items():
            half, whole = ([1000 * (t - s) for t, s in zip(timed(shape(n)), start)] for n in (MOST // 2, MOST))
            print("%-8s %9.2f %8.2f %9.2f %8.2f %6.2f" % (name, half[0], whole[0], half[1], whole[1], whole[0] / whole[1]))


if __name__ == "__main__":
    main()
