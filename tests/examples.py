#!/usr/bin/env python3
"""Runs a program over all examples: `python3 tests/examples.py PROGRAM`.

A run of an example is its files `words`, `expected` and `status`, or those with `-NAME` behind each. The program is
called in the example's folder. Prints each difference, and ends with status 1 where there is one."""
import os
import shlex
import subprocess
import sys

EXAMPLES = os.path.join(os.path.dirname(os.path.dirname(os.path.abspath(__file__))), "examples")


def read(folder, name):
    with open(os.path.join(folder, name), "rb") as file:
        return file.read()


def difference(program, folder, name):
    """What the run prints and ends with otherwise than it must, or None."""
    words = read(folder, "words" + name).decode().split()
    run = subprocess.run(program + words, cwd=folder, stdin=subprocess.DEVNULL, capture_output=True, timeout=600)
    expected, status = read(folder, "expected" + name), int(read(folder, "status" + name))
    if (run.stdout, run.returncode, run.stderr) == (expected, status, b""):
        return None
    return "status %d for %d\n--- printed\n%s\n--- expected\n%s\n--- error output\n%s" % (
        run.returncode, status, run.stdout.decode(errors="replace"), expected.decode(), run.stderr.decode(errors="replace"))


def main():
    if len(sys.argv) != 2:
        sys.exit(__doc__)
    program = [os.path.abspath(word) if os.path.exists(word) else word for word in shlex.split(sys.argv[1])]
    runs = failed = 0
    for example in sorted(os.listdir(EXAMPLES)):
        folder = os.path.join(EXAMPLES, example)
        for file in sorted(os.listdir(folder)) if os.path.isdir(folder) else ():
            if not file.startswith("words"):
                continue
            runs += 1
            said = difference(program, folder, file[len("words"):])
            if said:
                failed += 1
                print("%s/%s: %s" % (example, file, said))
    print("%d runs, %d differ" % (runs, failed))
    sys.exit(1 if failed else 0)


if __name__ == "__main__":
    main()
