#!/usr/bin/env python3
"""Runs the program over folders of cases: those of tests/cases, or others.

    python3 tests/cases.py PROGRAM [FOLDER ..]

A case is a folder with a file `args` (one word a line), the files that these name, `expect.out` (what the program prints) and
`expect.status`. Its file `note` says what it shows. Where there is a folder `expect.files`, the program must have written these files, and no
others. The program runs in a copy of that folder, and of the folder `common` beside it. Prints each difference, and ends with status 1 where there is
one."""
import os
import shlex
import shutil
import subprocess
import sys
import tempfile

CASES = os.path.join(os.path.dirname(os.path.abspath(__file__)), "cases")


def read(path):
    with open(path, "rb") as file:
        return file.read()


def difference(program, case):
    """What a case prints, writes and ends with otherwise than it must, or None."""
    words = read(os.path.join(case, "args")).decode().splitlines()
    common, files = os.path.join(os.path.dirname(case), "common"), os.path.join(case, "expect.files")
    with tempfile.TemporaryDirectory() as folder:
        work = os.path.join(folder, "case")
        shutil.copytree(case, work)
        if os.path.isdir(common):
            os.symlink(common, os.path.join(folder, "common"))
        run = subprocess.run(program + words, cwd=work, stdin=subprocess.DEVNULL, capture_output=True, timeout=120)
        wanted = set(os.listdir(files)) if os.path.isdir(files) else set()
        for name in sorted(wanted | set(os.listdir(work)) - set(os.listdir(case))):
            made = os.path.join(work, name)
            if name not in wanted or not os.path.exists(made) or read(made) != read(os.path.join(files, name)):
                return "the file %s is another one" % name
    out, status = read(os.path.join(case, "expect.out")), int(read(os.path.join(case, "expect.status")))
    if (run.stdout, run.returncode, run.stderr) == (out, status, b""):
        return None
    return "status %d for %d, output %r for %r, error output %r" % (run.returncode, status, run.stdout, out, run.stderr)


def main():
    if len(sys.argv) < 2:
        sys.exit(__doc__)
    program = [os.path.abspath(word) if os.path.exists(word) else word for word in shlex.split(sys.argv[1])]
    failed = 0
    for folder in sys.argv[2:] or sorted(os.path.join(CASES, name) for name in os.listdir(CASES)):
        cases = sorted(c for c in os.listdir(folder) if os.path.exists(os.path.join(folder, c, "args")))
        for case in cases:
            said = difference(program, os.path.join(os.path.abspath(folder), case))
            if said:
                failed += 1
                print("%s: %s" % (os.path.join(folder, case), said))
        print("%s: %d cases" % (os.path.relpath(folder), len(cases)))
    print("%d differ" % failed)
    sys.exit(1 if failed else 0)


if __name__ == "__main__":
    main()
