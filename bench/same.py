#!/usr/bin/env python3
"""Checks that the plain programs of `report` print the same: the one as specified, and the fast one.

    bench/same.py [COUNT] [SEED] [FOLDER]

Runs both on the cases of tests/cases and the examples whose command is `report`, and on COUNT random recordings (300) of
tests/random_recordings.py with the SEED (1), each with a random number of workers. They must end with the same status and print the same. It
counts too on how many cases and examples they print what is expected there: the plain programs read jobs with less care than `flicker`. It
builds them by cargo, or takes them from a FOLDER. Ends with status 1 where there is a difference."""
import glob
import os
import subprocess
import sys
import tempfile

import programs

sys.dont_write_bytecode = True
sys.path.insert(0, os.path.join(programs.TOP, "tests"))
from random_recordings import Recording  # noqa: E402

FILES = ("job.toml", "recording.cfg", "recording.dat")


def read(path):
    with open(path, "rb") as file:
        return file.read()


def fixed():
    """Name, folder, words, output and status of each case and example."""
    for path in sorted(glob.glob(os.path.join(programs.TOP, "tests", "cases", "*", "*", "args"))):
        case = os.path.dirname(path)
        yield path, case, read(path).decode().splitlines(), read(case + "/expect.out"), int(read(case + "/expect.status"))
    for path in sorted(glob.glob(os.path.join(programs.TOP, "examples", "*", "words*"))):
        example, name = os.path.dirname(path), os.path.basename(path)[len("words"):]
        expected = read(example + "/expected" + name), int(read(example + "/status" + name))
        yield path, example, read(path).decode().split(), *expected


def answers(both, folder, words):
    runs = [subprocess.run([program] + words, cwd=folder, stdin=subprocess.DEVNULL, capture_output=True) for program in both]
    return [(run.stdout, run.returncode, run.stderr) for run in runs]


def check_fixed(both):
    """How many there are, on how many both print what is expected, and where they differ. Words that are no command are left out."""
    count, expected, different = 0, 0, []
    for name, folder, words, out, status in fixed():
        if words[:1] == ["report"] and len(words) == 5 and os.path.basename(os.path.dirname(folder)) != "usage":
            count += 1
            first, second = answers(both, folder, words)
            expected += first == (out, status, b"")
            if first != second:
                different.append(name)
    return count, expected, different


def check_random(both, count, seed):
    different, seen = [], {}
    with tempfile.TemporaryDirectory() as folder:
        for number in range(1, count + 1):
            recording = Recording(seed, number)
            for name, content in zip(FILES, (recording.job(), recording.configuration(), recording.data())):
                with open(os.path.join(folder, name), "wb") as file:
                    file.write(content)
            first, second = answers(both, folder, ["report", *FILES, str(recording.random.randint(1, 16))])
            kind = b" ".join(first[0].split()[:2]) if first[0].startswith(b"fault") else b"report"
            seen[kind.decode()] = seen.get(kind.decode(), 0) + 1
            if first != second:
                different.append("seed %d number %d" % (seed, number))
    return seen, different


def main():
    count = int(sys.argv[1]) if len(sys.argv) > 1 else 300
    seed = int(sys.argv[2]) if len(sys.argv) > 2 else 1
    with tempfile.TemporaryDirectory() as folder:
        names = ["report", "fast"]
        both = [os.path.join(os.path.abspath(sys.argv[3]), name) for name in names] if len(sys.argv) > 3 else programs.plains(folder, names)
        number, expected, different = check_fixed(both)
        seen, more = check_random(both, count, seed)
    print("%d cases and examples, %d of them as expected; %d random recordings: %s" % (number, expected, count, seen))
    print("%d differ" % len(different + more), *different, *more)
    sys.exit(1 if different + more else 0)


if __name__ == "__main__":
    main()
