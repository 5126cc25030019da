#!/usr/bin/env python3
"""Cuts each file of a command to k bytes for every k, and makes huge claims, and compares the program with tests/reference.py. Outside the gate.

    python3 tests/truncated.py PROGRAM

The files are small: 48 records for `check` and `levels`, 2400 for `report`, where the data are cut at every 101st byte. Prints a table of
counts, and ends with status 1 where an answer differs."""
import collections
import functools
import os
import struct
import subprocess
import sys
import tempfile
from concurrent.futures import ThreadPoolExecutor

sys.dont_write_bytecode = True
import reference  # noqa: E402

reference.filters.certified = functools.lru_cache(reference.filters.certified)
NAMES = ("job.toml", "recording.cfg", "recording.dat")
JOB = b'lamp = "230/50"\nnominal_mv = 230000\nuncertainty_uv = 0\nchannels = [1]\ndmax = 4\nrun_in_s = 0\ninterval_s = 1\n'
COMMANDS = {"check": "check recording.cfg recording.dat", "levels": "levels recording.cfg recording.dat 1 230000 0",
            "report": "report job.toml recording.cfg recording.dat 1"}


def configuration(records, form="BINARY", line_2="1,1A,0D"):
    lines = ["LAB,DAQ,1999", line_2, "1,U,A,,V,0.01,0,0,-32767,32767,1,1,P", "50", "1", "2400,%d" % records,
             "12/03/2021,09:15:00.000000", "12/03/2021,09:15:00.000000", form, "1"]
    return "".join(line + "\r\n" for line in lines).encode()


def square(records):
    return [23000 if n // 24 % 2 == 0 else -23000 for n in range(records)]


def data(form, records):
    if form == "BINARY":
        return b"".join(struct.pack("<IIh", n, 0, value) for n, value in enumerate(square(records), 1))
    return "".join("%d,,%d\r\n" % (n, value) for n, value in enumerate(square(records), 1)).encode()


class Cases:
    """Runs cases on all processors, and counts them by row."""

    def __init__(self, program, top):
        self.program, self.top, self.rows, self.failed, self.waiting = program, top, collections.OrderedDict(), 0, []

    def case(self, row, command, contents, stated=None):
        """A case: its row, its command, the contents of the three files, and the answer that a document states."""
        folder = os.path.join(self.top, str(len(self.waiting)))
        os.mkdir(folder)
        for name, content in zip(NAMES, contents):
            with open(os.path.join(folder, name), "wb") as file:
                file.write(content)
        words = COMMANDS[command].split()
        os.chdir(folder)
        text, status = reference.answer(words)
        os.chdir(self.top)
        if stated is not None and (text, status) != ("fault %s\n" % stated, 2):
            self.failed += 1
            print("%s, %s: the reference answers %r, %r is stated" % (row, command, text, stated))
        self.waiting.append((row, words, folder, (status, text.encode(), b"")))

    def compare(self, case):
        row, words, folder, wanted = case
        run = subprocess.run([self.program] + words, cwd=folder, stdin=subprocess.DEVNULL, capture_output=True, timeout=120)
        for name in NAMES:
            os.remove(os.path.join(folder, name))
        return row, words[0], wanted, (run.returncode, run.stdout, run.stderr)

    def run(self):
        with ThreadPoolExecutor(os.cpu_count()) as pool:
            for row, command, wanted, got in pool.map(self.compare, self.waiting):
                counts = self.rows.setdefault(row, collections.Counter())
                counts[command] += 1
                counts[wanted[1].split()[1].decode() if wanted[0] == 2 else "accepted"] += 1
                if wanted != got:
                    self.failed += 1
                    print("%s, %s: %r, wanted %r" % (row, command, got, wanted))

    def print(self):
        print("| what | `check` | `levels` | `report` | answers |\n|---|---|---|---|---|")
        for row, counts in self.rows.items():
            answers = ", ".join("%s %d" % pair for pair in sorted(counts.items()) if pair[0] not in COMMANDS)
            print("| %s | %d | %d | %d | %s |" % (row, counts["check"], counts["levels"], counts["report"], answers))
        print("\n%d cases, %d differ" % (sum(sum(c[name] for name in COMMANDS) for c in self.rows.values()), self.failed))


def cuts(cases):
    for form in ("BINARY", "ASCII"):
        small, whole = (configuration(48, form), data(form, 48)), (configuration(2400, form), data(form, 2400))
        for command in ("check", "levels"):
            for k in range(len(small[1])):
                stated = "data %d 0 5" % (1 + k // 10) if form == "BINARY" else None
                cases.case("%s data cut to k bytes" % form, command, (JOB, small[0], small[1][:k]), stated)
            for k in range(len(small[0])):
                cases.case("the configuration of %s data cut to k bytes" % form, command, (JOB, small[0][:k], small[1]))
        for k in range(0, len(whole[1]), 101):
            stated = "data %d 0 5" % (1 + k // 10) if form == "BINARY" else None
            cases.case("%s data cut to k bytes" % form, "report", (JOB, whole[0], whole[1][:k]), stated)
        for k in range(len(whole[0])):
            cases.case("the configuration of %s data cut to k bytes" % form, "report", (JOB, whole[0][:k], whole[1]))
    for k in range(len(JOB)):
        cases.case("the job cut to k bytes", "report", (JOB[:k], configuration(2400), data("BINARY", 2400)))
    small = (configuration(48), data("BINARY", 48))
    for front, line in ((b"", "1 0 1"), (b"LAB", "1 0 2"), (b"LAB,DA", "1 3 6")):
        for command in ("check", "levels"):
            cases.case("named fronts of a configuration", command, (JOB, front, small[1]), "configuration " + line)
    for command in ("check", "levels"):
        cases.case("a configuration without its last line end", command, (JOB, small[0][:-2], small[1]))


def claims(cases):
    binary = data("BINARY", 4800)
    for row, cfg, dat, stated in (
            ("99999999999999999999 channels", configuration(4800, line_2="99999999999999999999,1A,0D"), binary, "configuration 2 1 4"),
            ("256 channels and no line of one", b"LAB,DAQ,1999\r\n256,256A,0D\r\n", binary, "configuration 3 0 1"),
            ("4294967295 records, 4800 there", configuration(4294967295), binary, "data 4801 0 5"),
            ("an ASCII line of 16,385 bytes", configuration(4800, "ASCII"), b"1,," + b"0" * 16382 + b"\n", "data 1 0 8"),
            ("65,537 line ends behind the last record", configuration(1, "ASCII"), b"1,,0\n" + b"\n" * 65537, "data 2 0 6")):
        for command in ("check", "levels"):
            cases.case("huge claims", command, (JOB, cfg, dat), stated)
        if not stated.startswith("data"):
            cases.case("huge claims", "report", (JOB, cfg, dat), stated)
    cases.case("huge claims", "report", (JOB, configuration(4294967295), binary), "match 6 20000000 4294967295")
    cases.case("huge claims", "report", (JOB, configuration(20000000), binary), "data 4801 0 5")
    cases.case("huge claims", "report", (b"[" * 65536, configuration(2400), binary), "job 0 1")
    cases.case("huge claims", "report", (b" " * 65537, configuration(2400), binary), "job 0 6")
    cases.case("huge claims", "report", (JOB + b"channels_more = [" + b"1," * 30000 + b"]", configuration(2400), binary), "job 0 2")
    for command in ("check", "levels", "report"):
        cases.case("huge claims", command, (JOB, b" " * 1048577, binary), "configuration 0 0 8")


def main():
    if len(sys.argv) != 2:
        sys.exit(__doc__)
    with tempfile.TemporaryDirectory() as top:
        cases = Cases(os.path.abspath(sys.argv[1]), top)
        cuts(cases)
        claims(cases)
        cases.run()
    cases.print()
    sys.exit(1 if cases.failed else 0)


if __name__ == "__main__":
    main()
