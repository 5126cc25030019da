#!/usr/bin/env python3
"""Checks what a script can check of the documents: `python3 tests/documents.py`.

Every file that a document names is there. docs/MAP.md has exactly the crates of crates.txt, and exactly the modules of flk_top. Every name of code in
docs/THEOREMS.md stands in the crate in whose row it is named, or in the repository where it is named elsewhere. docs/DEFINITIONS.md names each
file of definitions that is on docs/READING.md. The README has at most 900 words. Prints what
is wrong, and ends with status 1 where something is."""
import glob
import os
import re
import sys

TOP = os.path.dirname(os.path.dirname(os.path.abspath(__file__)))
PAGES = ["README.md", "CONTRIBUTING.md", "tests/README.md", "bench/README.md", "examples/README.md"]
FILE = re.compile(r"[\w/.-]+\.(?:md|py|rt|antt|toml|txt|c)|(?:crates|docs|tests|bench|examples|specs|src|proofs|must-fail)(?:/[\w.-]+)*/?")
NOT_FILES = re.compile(r"NAME|/out/|MODULE|TYPE|WHAT_|^[\w-]+\.toml$|Lib\.antt$")


def read(path):
    with open(os.path.join(TOP, path), encoding="utf-8") as file:
        return file.read()


def files():
    """All files and folders, by every ending of their path."""
    found = set()
    for base, folders, names in os.walk(TOP):
        folders[:] = [name for name in folders if name not in (".git", "out", "target")]
        for name in folders + names:
            parts = os.path.relpath(os.path.join(base, name), TOP).split(os.sep)
            found.update("/".join(parts[i:]) for i in range(len(parts)))
    return found


def missing_files():
    there = files()
    for page in PAGES + sorted(glob.glob("docs/*.md", root_dir=TOP)):
        for name in sorted(set(re.findall(r"`([^`\s]+)`", read(page)))):
            if FILE.fullmatch(name) and not NOT_FILES.search(name) and name.rstrip("/") not in there:
                yield "%s names `%s`, which isn't there" % (page, name)


def map_of_crates():
    page = read("docs/MAP.md")
    crates = {line.split(":")[0] for line in read("crates.txt").splitlines() if line and not line.startswith("#")}
    tables = page.split("Inside `flk_top`")
    for part, names, what in ((tables[0], crates, "crate"), (tables[1], modules(), "module of flk_top")):
        rows = set(re.findall(r"^\| `(\w+)` \|", part, re.M))
        for name in sorted(rows ^ names):
            yield "docs/MAP.md: %s `%s` %s" % (what, name, "isn't there" if name in rows else "has no row")


def modules():
    return set(re.findall(r"^mod (\w+);", read("crates/flk_top/src/lib.rt"), re.M)) | {"lib"}


def code_of(crate):
    paths = glob.glob("crates/%s/src/*.rt" % crate, root_dir=TOP) + glob.glob("crates/%s/specs/*.antt" % crate, root_dir=TOP)
    return set(re.findall(r"\w+", "".join(map(read, paths))))


def names_of_theorems():
    everywhere = code_of("*")
    for line in read("docs/THEOREMS.md").splitlines():
        row = re.match(r"\| `(flk_\w+)` \|", line)
        known = code_of(row[1]) if row else everywhere
        for name in re.findall(r"`([A-Za-z_][\w:]*)`", line):
            for part in name.split("::"):
                if part not in known and part not in everywhere and not part.startswith("flk"):
                    yield "docs/THEOREMS.md: `%s` isn't in the code" % name
                elif row and part not in known and not os.path.isdir(os.path.join(TOP, "crates", part)):
                    yield "docs/THEOREMS.md: `%s` isn't in %s" % (name, row[1])


def definitions():
    """Every file of the reading list whose crate's definitions have plain words."""
    named, crate, above = set(), None, None
    for line in read("docs/DEFINITIONS.md").splitlines():
        cell = line.rstrip("| ").rsplit("|", 1)[-1]
        for name in ([above] if "the same" in cell and above else []) + re.findall(r"`([\w./]+)`", cell):
            crate = name.split("/")[0] if "/" in name else crate
            above = "%s/specs/%s" % (crate, name.split("/")[-1])
            named.add(above)
    for path in re.findall(r"^\| `(\w+/specs/\w+\.antt)`", read("docs/READING.md"), re.M):
        if path not in named:
            yield "docs/DEFINITIONS.md doesn't name %s" % path


def main():
    wrong = [*missing_files(), *map_of_crates(), *names_of_theorems(), *definitions()]
    words = len(read("README.md").split())
    if words > 900:
        wrong.append("README.md has %d words" % words)
    print("\n".join(wrong + ["%d wrong" % len(wrong)]))
    sys.exit(1 if wrong else 0)


if __name__ == "__main__":
    main()
