#!/usr/bin/env python3
"""Checks docs/READING.md: that it lists exactly the definitions on which the clauses of `run` rest.

    python3 tests/reading.py            checks the page, and ends with status 1 where it isn't right
    python3 tests/reading.py --write    writes the names that are reached into the rows of the page, and prints the files that have no row

A definition is reached where its name stands in a clause of `run` in crates/flk_top/src/lib.rt, in the contract of a trait that `run` takes
(Shelf and Sink in flk_io, Gate in flk_phase), or in a definition that is reached. Names of the standard library and of the ported libraries
are listed on the page by name alone. A name that a definition binds itself is taken for a reached one too."""
import collections
import os
import re
import sys

TOP = os.path.dirname(os.path.dirname(os.path.abspath(__file__)))
CRATES = os.path.join(TOP, "crates")
PAGE = os.path.join(TOP, "docs", "READING.md")
NAME = re.compile(r"(?<![\w.◌'])[A-Za-z_][\w']*(?:-[\w']+)*")
USE = re.compile(r"^\s*(?:ghost )?(?:pub )?use ([\w.]+?)(?:\.\{([^}]*)\})?;?$", re.M)
OPERATOR = re.compile(r"(?<=[\s(])[^\s\w(){}.,;:]+[^\s(){}.,;:]*(?=[\s)])")
FIRST = re.compile(r"^(?:(?:(?:abbrev|unfoldable|opaque|pub|record|data) )+([\w'-]+|◌\S+)|([\w'-]+) :)")
ROOTS = (("flk_top/src/lib.rt", "pub fn run", "^{"), ("flk_io/src/outside.rt", "pub trait Shelf", "\\Z"),
         ("flk_phase/src/workers.rt", "pub trait Gate", "^}"))


def read(path):
    with open(path, encoding="utf-8") as file:
        return file.read()


def without_comments(text):
    return re.sub(r"(--|//).*", "", text)


def imports(text):
    """What each name stands for: (path, name)."""
    found = {}
    for path, names in USE.findall(text):
        for name in (names or path.rsplit(".", 1)[1]).split(","):
            own, _, other = name.strip().partition(" as ")
            if own:
                found[other or own] = (path if names else path.rsplit(".", 1)[0], own)
    return found


class SpecFile:
    """The definitions of a file of specs/: the text of each, and the names that its constructors give."""

    def __init__(self, path):
        text = without_comments(read(path))
        self.imports = imports(text)
        self.bodies, self.constructors = collections.OrderedDict(), {}
        name = None
        for line in USE.sub("", text).splitlines():
            match = FIRST.match(line)
            if match:
                name = match[1] or match[2]
                self.bodies.setdefault(name, "")
            if name and not line.startswith("infix"):
                self.bodies[name] += line + "\n"
        for name, body in self.bodies.items():
            if re.match(r"(pub )?data ", body):
                for constructor in re.findall(r"^  ([\w']+) :", body, re.M):
                    self.constructors[constructor] = name


class Reached:
    """All that is reached from the clauses of `run`."""

    def __init__(self):
        self.files, self.own, self.types, self.library = {}, set(), set(), set()
        for path, first, last in ROOTS:
            text = read(os.path.join(CRATES, path))
            begin = text.index(first)
            part = text[begin:re.compile(last, re.M).search(text, begin).start()]
            self.follow(without_comments(part), imports(text), None)

    def file(self, crate, name):
        if (crate, name) not in self.files:
            self.files[crate, name] = SpecFile(os.path.join(CRATES, crate, "specs", name + ".antt"))
        return self.files[crate, name]

    @staticmethod
    def home(crate, name):
        """The crate whose file it is, where a crate only passes it on."""
        passed = re.search(r"^pub use Rattle\.(\w+)\.specs\.%s$" % name, read(os.path.join(CRATES, crate, "specs", "Lib.antt")), re.M)
        return passed[1] if passed else crate

    def follow(self, text, known, here):
        text = re.sub(r'"[^"]*"', "", text)
        for name in set(NAME.findall(text)) | {"◌%s◌" % sign for sign in OPERATOR.findall(text)}:
            if here and name in self.file(*here).bodies:
                self.reach(*here, name)
            elif here and name in self.file(*here).constructors:
                self.reach(*here, self.file(*here).constructors[name])
            elif name in known:
                self.meet(*known[name])

    def meet(self, path, name):
        """A name that is imported."""
        parts = path.split(".")
        if parts[0] != "Rattle" or "proofs" in parts:
            return
        crate = parts[1]
        if not crate.startswith("flk"):
            self.library.add((crate, name))
        elif parts[3] == "declared":
            kind = parts[4:] + [name]
            kind = kind[:kind.index("TheVariants")] if "TheVariants" in kind else kind[:-1]
            self.types.add((crate, kind[-1]))
        else:
            crate = self.home(crate, parts[3])
            self.reach(crate, parts[3], self.file(crate, parts[3]).constructors.get(name, name))

    def reach(self, crate, file, name):
        if (crate, file, name) in self.own:
            return
        self.own.add((crate, file, name))
        spec = self.file(crate, file)
        self.follow(spec.bodies[name], spec.imports, (crate, file))

    def by_file(self):
        """The rows that the page has to have: a file and its names, in the order in which they stand there."""
        rows = collections.defaultdict(list)
        for crate, file, name in self.own:
            rows["%s/specs/%s.antt" % (crate, file)].append(name)
        for crate, name in self.types:
            rows[self.where(crate, name)].append(name)
        for path, names in rows.items():
            crate, _, file = path.split("/")
            order = list(self.file(crate, file[:-5]).bodies) if file.endswith(".antt") else re.findall(r"\w+", read(os.path.join(CRATES, path)))
            names.sort(key=order.index)
        return rows

    @staticmethod
    def where(crate, name):
        source = os.path.join(CRATES, crate, "src")
        for file in sorted(os.listdir(source)):
            if re.search(r"pub(\(crate\))? (struct|enum) %s\b" % name, read(os.path.join(source, file))):
                return "%s/src/%s" % (crate, file)
        sys.exit("%s: no type %s" % (crate, name))


def listed():
    """The rows of the page: the names behind each file."""
    rows = collections.defaultdict(list)
    for line in read(PAGE).splitlines():
        match = re.match(r"\| `([\w/]+\.(?:antt|rt))` \| ([^|]*) \|", line)
        if match:
            rows[match[1]] += re.findall(r"`([^`]+)`", match[2])
    return rows


def cell(names):
    return ", ".join("`%s`" % name.replace("|", "\\|") for name in names)


def write(rows, library):
    """Writes the names into the rows of the page, and prints the files that have none."""
    lines, there = [], set()
    of = {crate: sorted(name for c, name in library if c == crate) for crate, _ in library}
    for line in read(PAGE).splitlines():
        match = re.match(r"\| `([\w/]+\.(?:antt|rt))` \| .*? (\| [^|]* \|)$", line)
        own = re.match(r"\| `(\w+)` \| `", line)
        if match:
            there.add(match[1])
            if not rows[match[1]]:
                continue
            line = "| `%s` | %s %s" % (match[1], cell(rows[match[1]]), match[2])
        elif own and own[1] in of:
            line = "| `%s` | %s |" % (own[1], cell(of[own[1]]))
        lines.append(line + "\n")
    with open(PAGE, "w", encoding="utf-8") as file:
        file.write("".join(lines))
    for path in sorted(set(rows) - there):
        if rows[path]:
            print("| `%s` | %s | |" % (path, cell(rows[path])))


def main():
    reached = Reached()
    rows = reached.by_file()
    if sys.argv[1:] == ["--write"]:
        write(rows, reached.library)
    page, wrong = listed(), 0
    for path in sorted(set(rows) | set(page)):
        for what, names in (("isn't listed", set(rows[path]) - set(page[path])), ("isn't reached", set(page[path]) - set(rows[path]))):
            for name in sorted(names):
                wrong += 1
                print("%s: `%s` %s" % (path, name, what))
    text = read(PAGE).replace("\\|", "|")
    for crate, name in sorted(reached.library):
        if "`%s`" % name not in text:
            wrong += 1
            print("of the library %s: `%s` isn't listed" % (crate, name))
    print("%d definitions and types in %d files, %d names of libraries; %d wrong" % (
        sum(map(len, rows.values())), len([path for path in rows if rows[path]]), len(reached.library), wrong))
    sys.exit(1 if wrong else 0)


if __name__ == "__main__":
    main()
