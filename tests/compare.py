#!/usr/bin/env python3
"""Compares a program's reports with those of tests/reference.py on random recordings.

    python3 tests/compare.py PROGRAM [COUNT] [SEED]

COUNT is 100 and SEED is 1 where they aren't given. Prints each difference, and keeps its files in a folder that is
named there. Ends with status 1 where there is a difference. The last lines count what the cases were."""
import collections
import difflib
import os
import re
import shlex
import shutil
import subprocess
import sys
import tempfile
import time

sys.dont_write_bytecode = True
import reference  # noqa: E402
from random_recordings import Recording  # noqa: E402

FILES = ("job.toml", "recording.cfg", "recording.dat")


def write(folder, recording):
    for name, content in zip(FILES, (recording.job(), recording.configuration(), recording.data())):
        with open(os.path.join(folder, name), "wb") as file:
            file.write(content)


def kinds_of(text):
    """What a text is, for the counts."""
    kinds = [text.split("\n")[-2]] if text.startswith("report") else [" ".join(text.split()[:2])]
    for word in re.findall(r"^doubtful (\d+)$", text, re.M):
        number = int(word)
        kinds.append("channels with %s" % ("no doubt" if number == 0 else "1 to 6 in doubt" if number < 7 else "more in doubt"))
    return kinds


def one(program, folder, number, seed, counts):
    """Runs one case; answers whether both agree."""
    recording = Recording(seed, number)
    write(folder, recording)
    words = ["report", *FILES, str(recording.random.randint(1, 16))]
    here = os.getcwd()
    os.chdir(folder)
    try:
        text, status = reference.answer(words)
    finally:
        os.chdir(here)
    counts.update(kinds_of(text))
    try:
        run = subprocess.run(program + words, cwd=folder, stdin=subprocess.DEVNULL, capture_output=True, timeout=600)
        got, ended, said = run.stdout.decode("utf-8", "replace"), run.returncode, run.stderr
    except subprocess.TimeoutExpired:
        got, ended, said = "", "no end", b""
    if (got, ended, said) == (text, status, b""):
        return True
    print("seed %d case %d (%s), %s: status %s, expected %d" % (
        seed, number, ", ".join(recording.note), " ".join(words), ended, status))
    print("\n".join(difflib.unified_diff(text.splitlines(), got.splitlines(), "reference", "program", lineterm="", n=1)))
    if said:
        print("error output: %r" % said[:300])
    return False


def main():
    if len(sys.argv) < 2:
        sys.exit(__doc__)
    program = [os.path.abspath(word) if os.path.exists(word) else word for word in shlex.split(sys.argv[1])]
    count = int(sys.argv[2]) if len(sys.argv) > 2 else 100
    seed = int(sys.argv[3]) if len(sys.argv) > 3 else 1
    counts, different, began = collections.Counter(), 0, time.time()
    for number in range(1, count + 1):
        folder = tempfile.mkdtemp(prefix="flicker-case-")
        if one(program, folder, number, seed, counts):
            shutil.rmtree(folder)
        else:
            different += 1
            print("files: %s\n" % folder, flush=True)
    for kind, times in sorted(counts.items()):
        print("%6d %s" % (times, kind))
    print("%d cases, %d differ, %d s" % (count, different, time.time() - began))
    sys.exit(1 if different else 0)


if __name__ == "__main__":
    main()
