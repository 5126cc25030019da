#!/usr/bin/env python3
"""Checks docs/LINES.md and the README: that every line of the definitions stands on the page, and that the program prints the examples.

    python3 tests/lines.py PROGRAM

An example is a block that begins with `$ flicker WORDS`, and runs in a copy of the folder of examples/ or of tests/cases/ that the text named last.
A line `..` in it stands for any lines. PROGRAM may be `"python3 tests/reference.py"`. Ends with status 1 where something differs."""
import os
import re
import shlex
import shutil
import subprocess
import sys
import tempfile

TOP = os.path.dirname(os.path.dirname(os.path.abspath(__file__)))
SPECS = ["flk_top/specs/Faults.antt", "flk_top/specs/Text.antt", "flk_top/specs/Tables.antt", "flk_top/specs/GenDue.antt",
         "flk_report/specs/Report.antt"]


def read(*path):
    with open(os.path.join(TOP, *path), encoding="utf-8") as file:
        return file.read()


def words_of_definitions():
    """The texts that the definitions of lines begin with: each literal, line by line."""
    found = set()
    for path in SPECS:
        for literal in re.findall(r'codes "([^"]*)"', read("crates", path)):
            found.update(part.strip() for part in literal.split("\\n") if part.strip(" 0"))
    return found


def examples(page):
    """The folder, the words and the lines of each example."""
    folder, block = "", None
    for line in read(page).splitlines():
        named = re.search(r"(examples/\w+|tests/cases/\w+/\w+)", line)
        if named and not (block and block[0].startswith("$ flicker ")):
            folder = named[1]
        if line == "```":
            if block and block[0].startswith("$ flicker "):
                yield folder, shlex.split(block[0])[2:], block[1:]
            block = [] if block is None else None
        elif block is not None:
            block.append(line)


def fits(wanted, printed):
    pattern = "".join("(.*\n)*" if line == ".." else re.escape(line + "\n") for line in wanted)
    return re.fullmatch(pattern, printed) is not None


def main():
    if len(sys.argv) != 2:
        sys.exit(__doc__)
    program = [os.path.abspath(word) if os.path.exists(word) else word for word in shlex.split(sys.argv[1])]
    page, wrong, count = read("docs/LINES.md"), 0, 0
    for word in sorted(words_of_definitions()):
        if not re.search(r"(?<![\w-])%s(?![\w-])" % re.escape(word), page):
            wrong += 1
            print("docs/LINES.md has no line %r" % word)
    for name in ("docs/LINES.md", "README.md"):
        for folder, words, wanted in examples(name):
            count += 1
            with tempfile.TemporaryDirectory() as work:
                shutil.copytree(os.path.join(TOP, folder or "examples"), work, dirs_exist_ok=True)
                run = subprocess.run(program + words, cwd=work, capture_output=True, text=True, timeout=60)
            if run.stderr or not fits(wanted, run.stdout):
                wrong += 1
                print("%s, %s: printed %r %r" % (name, " ".join(words), run.stdout, run.stderr))
    print("%d examples, %d wrong" % (count, wrong))
    sys.exit(1 if wrong else 0)


if __name__ == "__main__":
    main()
