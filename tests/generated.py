#!/usr/bin/env python3
"""Compares the files that a program generates with those of tests/reference_generated.py.

    python3 tests/generated.py PROGRAM [COUNT] [SEED]

COUNT is 20 and SEED is 1 where they aren't given. Prints each difference, and ends with status 1 where there is one."""
import os
import random
import shlex
import subprocess
import sys
import tempfile

sys.dont_write_bytecode = True
import reference_generated as generated  # noqa: E402

NAMES = "recording.cfg", "recording.dat"


def read(path):
    with open(path, "rb") as file:
        return file.read().decode("ascii", "replace")


def differs(program, seed, seconds):
    """What a recording has otherwise than it must, or None."""
    with tempfile.TemporaryDirectory() as folder:
        run = subprocess.run(program + ["gen", str(seed), str(seconds), *NAMES], cwd=folder, capture_output=True, timeout=600)
        files = [read(os.path.join(folder, name)) for name in NAMES] if run.returncode == 0 else []
    data, last = generated.data(seed, seconds)
    summary = "gen\nrecords %d\nlast %d %d %d\n" % ((2400 * seconds,) + last)
    if (run.returncode, run.stdout.decode(), run.stderr) != (0, summary, b""):
        return "status %d, output %r" % (run.returncode, run.stdout)
    return None if files == [generated.configuration(seconds), data] else "another file"


def main():
    if len(sys.argv) < 2:
        sys.exit(__doc__)
    program = [os.path.abspath(word) if os.path.exists(word) else word for word in shlex.split(sys.argv[1])]
    count = int(sys.argv[2]) if len(sys.argv) > 2 else 20
    source = random.Random(int(sys.argv[3]) if len(sys.argv) > 3 else 1)
    different = 0
    for _ in range(count):
        seed, seconds = source.choice((0, 1, 2 ** 32 - 1, source.randrange(2 ** 32))), source.choice((1, 2, 3, 7, source.randint(1, 60)))
        said = differs(program, seed, seconds)
        if said:
            different += 1
            print("seed %d, %d s: %s" % (seed, seconds, said))
    print("%d recordings, %d differ" % (count, different))
    sys.exit(1 if different else 0)


if __name__ == "__main__":
    main()
