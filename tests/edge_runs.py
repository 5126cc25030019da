"""One run of the program at the edge of the system, and the table of tests/edges.py."""
import collections
import contextlib
import os
import shutil
import subprocess
import sys
import tempfile

sys.dont_write_bytecode = True
import reference  # noqa: E402

HERE = os.path.dirname(os.path.abspath(__file__))
EXAMPLES = os.path.join(os.path.dirname(HERE), "examples")
NOBODY = 65534
READ = (4, b"fault read\n")
USAGE = (2, b"fault usage\n")


class Front(bytes):
    """An output that must be some front of these bytes."""


def content(path):
    with open(path, "rb") as file:
        return file.read()


def same(wanted, out):
    return wanted.startswith(out) if isinstance(wanted, Front) else wanted == out


class Row:
    """A row of the table: counts its cases, and tells of those with another answer."""

    def __init__(self, what, answer):
        self.what, self.answer, self.cases, self.failed, self.statuses = what, answer, 0, 0, collections.Counter()

    def case(self, name, got, *wanted):
        """A case: what it is, the status, output and error output that it gave, and the answers that are right."""
        self.cases += 1
        status, out, err = got
        self.statuses[status] += 1
        if err or not any(status == number and same(text, out) for number, text in wanted):
            self.failed += 1
            print("%s, %s: status %s, output %r, error output %r; wanted %s" % (
                self.what, name, status, out[:200], err[:200], [(n, bytes(t)[:80]) for n, t in wanted]), flush=True)

    def holds(self, name, right):
        """Tells of files that the run before left, where they are wrong."""
        if not right:
            self.failed += 1
            print("%s, %s: the files are wrong" % (self.what, name), flush=True)


class Table:
    """The program that is tried, a folder to work in, and the rows."""

    def __init__(self, program, folder):
        self.program, self.folder, self.rows = program, folder, []

    def row(self, what, answer):
        self.rows.append(Row(what, answer))
        return self.rows[-1]

    def failed(self):
        return sum(row.failed for row in self.rows)

    def print(self):
        print("| what | cases | answer | cases by status |\n|---|---|---|---|")
        for row in self.rows:
            statuses = ", ".join("%s: %d" % pair for pair in sorted(row.statuses.items(), key=str))
            print("| %s | %d | %s | %s |" % (row.what, row.cases, row.answer, statuses))
        print("\n%d cases, %d with another answer" % (sum(row.cases for row in self.rows), self.failed()))


class Command:
    """A command over the files of an example, with its right answer."""

    def __init__(self, example, words=None):
        self.source = os.path.join(EXAMPLES, example)
        if words is None:
            self.words = content(os.path.join(self.source, "words")).decode().split()
            self.right = (int(content(os.path.join(self.source, "status"))), content(os.path.join(self.source, "expected")))
        else:
            self.words = words
            self.right = self.expected(self.source)
        self.inputs = [i for i, word in enumerate(self.words) if os.path.exists(os.path.join(self.source, word))]

    def expected(self, folder, words=None):
        """The answer of the reference, over the files of a folder."""
        here = os.getcwd()
        os.chdir(folder)
        text, status = reference.answer(words or self.words)
        os.chdir(here)
        return status, text.encode()

    def with_word(self, place, word):
        return [word if i == place else old for i, old in enumerate(self.words)]


LEVELS, REPORT, CHECK = Command("square"), Command("three_phases"), Command("damaged")
LONG_CHECK = Command("three_phases", ["check", "recording.cfg", "recording.dat"])
TABLES = Command("damaged", ["tables", "230/50"])
READING = (LEVELS, REPORT, LONG_CHECK)


@contextlib.contextmanager
def copy(table, command):
    """A folder with the command's files, which anyone may read."""
    with tempfile.TemporaryDirectory(dir=table.folder) as folder:
        work = os.path.join(folder, "work")
        shutil.copytree(command.source, work)
        for path in (folder, work):
            os.chmod(path, 0o755)
        yield work


def run(table, words, folder, before=None, env=None, **streams):
    """Status, output and error output of a run. A status below 0 is a signal."""
    how = {"stdin": subprocess.DEVNULL, "stdout": subprocess.PIPE, "stderr": subprocess.PIPE}
    how.update(streams)
    child = subprocess.Popen([table.program] + words, cwd=folder, preexec_fn=before, env=dict(os.environ, **(env or {})), **how)
    try:
        out, err = child.communicate(timeout=60)
    except subprocess.TimeoutExpired:
        child.kill()
        child.communicate()
        return "no end", b"", b""
    return child.returncode, out or b"", err or b""


def as_nobody():
    if os.geteuid() == 0:
        os.setgroups([])
        os.setgid(NOBODY)
        os.setuid(NOBODY)


def closed(*numbers):
    def close():
        for number in numbers:
            os.close(number)
    return close


class Calls:
    """The library that makes calls fail."""

    def __init__(self, folder):
        self.library, self.log = os.path.join(folder, "failing_calls.so"), os.path.join(folder, "calls")
        subprocess.run(["gcc", "-shared", "-fPIC", "-O1", "-o", self.library, os.path.join(HERE, "failing_calls.c"), "-ldl"], check=True)

    def run(self, table, words, folder, kind, least, greatest, turned, more=None, **streams):
        with contextlib.suppress(OSError):
            os.remove(self.log)
        env = {"LD_PRELOAD": self.library, "CALLS_LOG": self.log, "CALLS_KIND": kind, "CALLS_FROM": str(least),
               "CALLS_TO": str(greatest), "CALLS_AS": str(turned)}
        return run(table, words, folder, None, dict(env, **(more or {})), **streams)

    def made(self):
        return content(self.log).decode() if os.path.exists(self.log) else ""

    def count_on(self, table, command, name):
        """How many reads there are of a file."""
        with copy(table, command) as folder:
            self.run(table, command.words, folder, "r", 1, 10 ** 9, 0, {"CALLS_FILE": os.path.join(folder, name)})
        return self.made().count("r!")
