#!/usr/bin/env python3
"""Tries the built program at the edge of the system: names that can't be read, files that change while they are read, an output that
takes nothing, and each call of the system failing in turn. Outside the gate; for Linux.

    python3 tests/edges.py PROGRAM

The wanted answers come from docs/LINES.md, and the texts of accepted files from examples/ and tests/reference.py. Every run must end
within a minute, without a signal, and with nothing on standard error. Prints a table with the number of cases of each row, and ends
with status 1 where a case has another answer. The part on `gen` is skipped where the program has no such command."""
import contextlib
import os
import resource
import shutil
import signal
import socket
import sys
import tempfile
import threading
import time

sys.dont_write_bytecode = True
from edge_runs import (CHECK, READ, READING, REPORT, TABLES, USAGE, Calls, Command, Front, Table, as_nobody, closed,  # noqa: E402
                       content, copy, run)

# ---- names

def bad_names(folder):
    """Names that can't be read, each made ready in the folder."""
    for name in ("folder", "closed"):
        os.mkdir(os.path.join(folder, name))
    shutil.copy(os.path.join(folder, "recording.cfg"), os.path.join(folder, "closed", "file"))
    shutil.copy(os.path.join(folder, "recording.cfg"), os.path.join(folder, "secret"))
    os.symlink("loop", os.path.join(folder, "loop"))
    os.symlink("nowhere", os.path.join(folder, "dangling"))
    with socket.socket(socket.AF_UNIX) as made:
        made.bind(os.path.join(folder, "socket"))
    os.chmod(os.path.join(folder, "secret"), 0)
    os.chmod(os.path.join(folder, "closed"), 0)
    return ["folder", "folder/", ".", "absent", "absent/file", "recording.cfg/file", "secret", "closed/file", "loop", "dangling",
            "socket", "", "x" * 256, "y/" * 2500, "z" * 131000, "/proc/self/mem"]


def names(table):
    row = table.row("an input that is a folder, isn't there, can't be opened or can't be read (16 names)", "4, `fault read`")
    for command in READING:
        with copy(table, command) as folder:
            for name in bad_names(folder):
                for place in command.inputs:
                    got = run(table, command.with_word(place, name), folder, as_nobody)
                    row.case("%s %d %s" % (command.words[0], place, name[:20]), got, READ)
            os.chmod(os.path.join(folder, "closed"), 0o755)
    row = table.row("a name of 4,095 bytes, with spaces and a line end, in Greek, through a link", "the whole text")
    for command in READING:
        with copy(table, command) as folder:
            for place in command.inputs:
                own = command.words[place]
                named = ["./" * ((4095 - len(own)) // 2) + own, "a b\nc", "\u03b1\u03b2", "link"]
                for name in named[1:3]:
                    shutil.copy(os.path.join(folder, own), os.path.join(folder, name))
                os.symlink(own, os.path.join(folder, "link"))
                for name in named:
                    row.case(name[:20], run(table, command.with_word(place, name), folder), command.right)
                os.remove(os.path.join(folder, "link"))
    row = table.row("a word that isn't UTF-8", "2, `fault usage`")
    for command in READING + (TABLES,):
        for place in range(len(command.words)):
            word = os.fsencode(command.words[place]) + b"\xff"
            row.case("word %d" % place, run(table, command.with_word(place, word), command.source), USAGE)


def two_names(table):
    same = table.row("one name for two files", "2, `fault usage`")
    other = table.row("two spellings of one file, by `./`, a link or a second name", "as of two files with these bytes")
    for command in READING:
        with copy(table, command) as folder:
            os.symlink("recording.cfg", os.path.join(folder, "linked"))
            os.link(os.path.join(folder, "recording.cfg"), os.path.join(folder, "second"))
            data = command.words.index("recording.dat")
            same.case(command.words[0], run(table, command.with_word(data, "recording.cfg"), folder), USAGE)
            for name in ("./recording.cfg", "linked", "second"):
                words = command.with_word(data, name)
                other.case(name, run(table, words, folder), command.expected(folder, words))


def devices(table):
    row = table.row("`/dev/null` and `/dev/zero` for each input", "2, the fault of no bytes, or of zeros without end")
    lines = {("job", "null"): "job 1 3", ("job", "zero"): "job 0 6", ("cfg", "null"): "configuration 1 0 1",
             ("cfg", "zero"): "configuration 0 0 8", ("dat", "null"): "data 1 0 5", ("dat", "zero"): "data 1 0 8"}
    for command in READING:
        for place in command.inputs:
            kind = "job" if command.words[place] == "job.toml" else command.words[place][-3:]
            for name in ("null", "zero"):
                got = run(table, command.with_word(place, "/dev/" + name), command.source)
                row.case(kind + " " + name, got, (2, b"fault %s\n" % lines[kind, name].encode()))


# ---- files that change

class Writer(threading.Thread):
    """Writes bytes into a FIFO in pieces, as soon as somebody reads it, and closes it."""

    def __init__(self, path, data, piece, pause):
        super().__init__()
        self.path, self.data, self.piece, self.pause, self.over = path, data, piece, pause, False

    def run(self):
        fd = None
        while fd is None and not self.over:
            try:
                fd = os.open(self.path, os.O_WRONLY | os.O_NONBLOCK)
            except OSError:
                time.sleep(0.001)
        if fd is None:
            return
        os.set_blocking(fd, True)
        with contextlib.suppress(BrokenPipeError):
            for at in range(0, len(self.data), self.piece):
                os.write(fd, self.data[at:at + self.piece])
                time.sleep(self.pause)
        os.close(fd)


def from_pipes(table, command, sizes):
    """The answers where some of a command's inputs are FIFOs that give a front of their bytes, and that of the cut files."""
    with copy(table, command) as folder:
        writers = []
        for place, size in sizes.items():
            path = os.path.join(folder, command.words[place])
            data = content(path)[:size]
            with open(path, "wb") as file:
                file.write(data)
            writers.append((path, data))
        wanted = command.expected(folder)
        threads = []
        for path, data in writers:
            os.remove(path)
            os.mkfifo(path)
            threads.append(Writer(path, data, max(1, len(data) // 100), 0.002))
            threads[-1].start()
        got = run(table, command.words, folder)
        for thread in threads:
            thread.over = True
            thread.join()
        return got, wanted


def pipes(table):
    row = table.row("inputs that are FIFOs, fed in a hundred pieces", "the whole text")
    for command in READING:
        for places in [[place] for place in command.inputs] + [command.inputs]:
            got, wanted = from_pipes(table, command, {place: None for place in places})
            row.case("%s %s" % (command.words[0], places), got, wanted, command.right)
    row = table.row("FIFOs that are closed after some of their bytes, or after none", "as of a file with these bytes")
    for command in READING:
        for place in command.inputs:
            size = os.path.getsize(os.path.join(command.source, command.words[place]))
            for front in (0, 1, size // 2, size - 3):
                got, wanted = from_pipes(table, command, {place: front})
                row.case("%s %d %d" % (command.words[0], place, front), got, wanted)


def changing(table, calls):
    """A file that is added to, or cut, just before the k-th read of it."""
    grows = table.row("a file that grows before its k-th read, by the rest that was due, for each k", "as of the whole file")
    shrinks = table.row("a file that is emptied before its k-th read, for each k", "as of the bytes that were read before")
    for command in READING:
        for place in command.inputs:
            name = command.words[place]
            whole = content(os.path.join(command.source, name))
            reads = calls.count_on(table, command, name)
            for k in range(1, reads + 1):
                with copy(table, command) as folder:
                    path, rest = os.path.join(folder, name), os.path.join(folder, "rest")
                    cut = len(whole) * 2 // 3 if k == 1 else min(len(whole) - 1, 65536 * (k - 1))
                    for file, data in ((path, whole[:cut]), (rest, whole[cut:])):
                        with open(file, "wb") as out:
                            out.write(data)
                    got = calls.run(table, command.words, folder, "r", k, k, "grow", {"CALLS_FILE": path, "CALLS_MORE": rest})
                    grows.case("%s %s %d" % (command.words[0], name, k), got, command.right)
                with copy(table, command) as folder:
                    path = os.path.join(folder, name)
                    got = calls.run(table, command.words, folder, "r", k, k, "shrink", {"CALLS_FILE": path})
                    with open(path, "wb") as out:
                        out.write(whole[:65536 * (k - 1)])
                    shrinks.case("%s %s %d" % (command.words[0], name, k), got, command.expected(folder))


# ---- the output

def outputs(table):
    """The ways in which standard output takes nothing: what is done before the run, and the stream."""
    ends = []
    full, unread = os.pipe(), os.pipe()
    os.close(unread[0])
    os.set_blocking(full[1], False)
    with contextlib.suppress(BlockingIOError):
        while True:
            os.write(full[1], bytes(4096))
    opened = [os.open("/dev/full", os.O_WRONLY), os.open("/dev/null", os.O_RDONLY)]
    ends += [("closed", closed(1), None), ("closed with the others", closed(0, 1, 2), None), ("full", None, opened[0]),
             ("not to write to", None, opened[1]), ("a pipe without a reader", None, unread[1]), ("a full pipe that doesn't wait", None, full[1])]
    return ends, [full[0], full[1], unread[1]] + opened


def output(table):
    row = table.row("standard output closed, full, only to be read, or a pipe that nobody reads, for each text and fault line", "5, nothing written")
    said = [(c.words, c.source) for c in READING + (CHECK, TABLES)]
    said += [(["levels"], CHECK.source), (["check", "recording.cfg", "absent"], CHECK.source), (["check", "folder", "absent"], CHECK.source),
             (["check", "day.cfg", "recording.dat"], CHECK.source), (["check", "recording.cfg", "cut.dat"], CHECK.source),
             ([b"\xff"], CHECK.source)]
    ends, opened = outputs(table)
    for words, folder in said:
        for name, before, stream in ends:
            streams = {} if stream is None and before is None else {"stdout": stream}
            row.case("%s %s" % (words[:1], name), run(table, words, folder, before, **streams), (5, b""))
    for fd in opened:
        os.close(fd)
    row = table.row("standard output that takes n bytes and no more, for each n", "5 and the first n bytes; the whole text from its length on")
    for command in READING + (TABLES,):
        status, text = command.right
        for room in sorted({*range(20), len(text) // 2, len(text) - 1, len(text)}):
            with tempfile.TemporaryFile() as file:
                def limit():
                    signal.signal(signal.SIGXFSZ, signal.SIG_IGN)
                    resource.setrlimit(resource.RLIMIT_FSIZE, (room, room))
                ended, _, err = run(table, command.words, command.source, limit, stdout=file)
                file.seek(0)
                row.case("room %d" % room, (ended, file.read(), err), (status, text) if room >= len(text) else (5, text[:room]))
    row = table.row("standard input, or standard error, or both closed", "the whole text")
    for command in READING + (TABLES,):
        for numbers in ((0,), (2,), (0, 2)):
            row.case("closed %s" % (numbers,), run(table, command.words, command.source, closed(*numbers)), command.right)


# ---- calls of the system

EINTR, EIO, ENOENT, EAGAIN, ENOMEM, EMFILE, ENOSPC, EPIPE = 4, 5, 2, 11, 12, 24, 28, 32
ALWAYS = 10 ** 9
TURNS = (("r", (EIO, ENOMEM, EAGAIN), "a read fails (EIO, ENOMEM, EAGAIN)", "4, `fault read`"),
         ("o", (ENOENT, EIO, EMFILE, ENOMEM), "an open fails (ENOENT, EIO, EMFILE, ENOMEM)", "4, `fault read`"),
         ("w", (EIO, ENOSPC, EPIPE, EAGAIN), "a write fails (EIO, ENOSPC, EPIPE, EAGAIN)", "5, a front of the text"),
         ("o", (EINTR,), "an open is interrupted once (EINTR)", "the whole text"),
         ("r", (EINTR,), "a read is interrupted once (EINTR)", "the whole text"),
         ("w", (EINTR,), "a write is interrupted once (EINTR)", "the whole text"),
         ("r", ("short",), "a read gives one byte", "the whole text"),
         ("w", ("short",), "a write takes one byte", "the whole text"),
         ("c", (EIO, EINTR), "a close fails (EIO, EINTR)", "the whole text"),
         ("t", (EAGAIN,), "a thread can't be made (EAGAIN)", "the whole text"))


def answer_of(kind, turned, right):
    if turned in (EINTR, "short") or kind in "ct":
        return right
    return (5, Front(right[1])) if kind == "w" else READ


def in_turn(table, calls):
    counts = {}
    for kind, turns, what, answer in TURNS:
        row = table.row("for each k the k-th time " + what, answer)
        for command in READING + (TABLES,):
            calls.run(table, command.words, command.source, kind, 1, 0, 0)
            made = counts[command.words[0], kind] = calls.made().count(kind)
            for turned in turns:
                for k in range(1, made + 1):
                    got = calls.run(table, command.words, command.source, kind, k, k, turned)
                    row.case("%s %s %d %s" % (command.words[0], kind, k, turned), got, answer_of(kind, turned, command.right))
    small = table.row("every read and every write moves one byte, or no thread can be made", "the whole text")
    never = table.row("every read, or every write, is interrupted", "4, `fault read`, or 5, nothing written")
    for command in READING + (TABLES,):
        for kind, turned in (("r", "short"), ("w", "short"), ("t", EAGAIN)):
            small.case("%s %s" % (kind, turned), calls.run(table, command.words, command.source, kind, 1, ALWAYS, turned), command.right)
        for kind, right in (("r", READ if command.inputs else command.right), ("w", (5, b""))):
            never.case(kind, calls.run(table, command.words, command.source, kind, 1, ALWAYS, EINTR), right)
    row = table.row("for each k the k-th read fails, and then the write of `fault read`", "5, nothing written")
    for command in READING:
        for k in range(1, counts[command.words[0], "r"] + 1):
            with open("/dev/full", "wb") as full:
                row.case("read %d" % k, calls.run(table, command.words, command.source, "r", k, k, EIO, stdout=full), (5, b""))


# ---- workers and memory

def workers(table):
    row = table.row("1 to 16 workers, on one channel and on three", "the same text")
    for command in (Command("dip"), REPORT):
        for number in range(1, 17):
            row.case("%d workers" % number, run(table, command.words[:-1] + [str(number)], command.source), command.right)
    row = table.row("an address space of 2,500 to 8,000 kilobytes (`ulimit -v`), every 50",
                    "6, nothing printed, or the whole text; or 4, `fault read`")
    for command in READING + (TABLES,):
        for size in range(2500, 8000, 50):
            def limit():
                resource.setrlimit(resource.RLIMIT_AS, (size << 10, size << 10))
            got = run(table, command.words, command.source, limit)
            if got[0] != 127 and got[0] != -signal.SIGKILL:         # the system could load the program
                row.case("%s %d" % (command.words[0], size), got, command.right, (6, b""), READ)


# ---- gen

MADE = ["gen", "1", "1", "made.cfg", "made.dat"]


def made_in(folder):
    """What stands in both files, or None where there is none."""
    paths = [os.path.join(folder, name) for name in MADE[3:]]
    return [content(path) if os.path.isfile(path) else None for path in paths]


def fronts(right, now):
    """Whether both files hold fronts of what is due, and the data none unless the configuration is whole."""
    cfg, dat = [part or b"" for part in now]
    return right[0].startswith(cfg) and right[1].startswith(dat) and (not dat or cfg == right[0])


def generated(table, calls):
    with tempfile.TemporaryDirectory(dir=table.folder) as folder:
        status, text, _ = run(table, MADE, folder)
        if (status, text) == USAGE:
            print("gen: skipped, the program has no such command\n")
            return
        right, summary = made_in(folder), (status, text)
    gen_names(table)
    gen_old_files(table, right, summary)
    gen_output(table, right)
    for kind, turned, what, answer in (("w", EIO, "append or write fails", "5, fronts in both files, nothing printed unless both are whole"),
                                       ("o", EIO, "open fails", "5, fronts in both files, nothing printed"),
                                       ("w", EINTR, "append or write is interrupted", "the whole text and files"),
                                       ("w", "short", "append or write takes one byte", "the whole text and files"),
                                       ("c", EIO, "close fails", "the whole text and files")):
        row = table.row("`gen`: for each k the k-th %s" % what, answer)
        with tempfile.TemporaryDirectory(dir=table.folder) as folder:
            calls.run(table, MADE, folder, kind, 1, 0, 0)
            made = calls.made().count(kind)
        for k in range(1, made + 1):
            with tempfile.TemporaryDirectory(dir=table.folder) as folder:
                got = calls.run(table, MADE, folder, kind, k, k, turned)
                now = made_in(folder)
            fails = turned == EIO and kind != "c"
            row.case("%s %d %s" % (kind, k, turned), got, (5, Front(text) if now == right else b"") if fails else summary)
            row.holds("files at %s %d %s" % (kind, k, turned), fronts(right, now) if fails else now == right)


def gen_names(table):
    row = table.row("`gen`: a name that is a folder, in no folder, in one that is closed, full or too long", "5, nothing printed")
    for place in (3, 4):
        for name in ("folder", "absent/file", "/dev/full", "", "x" * 256, "closed/file"):
            with tempfile.TemporaryDirectory(dir=table.folder) as folder:
                os.chmod(folder, 0o777)
                for made, mode in (("folder", 0o777), ("closed", 0)):
                    os.mkdir(os.path.join(folder, made))
                    os.chmod(os.path.join(folder, made), mode)
                words = [name if i == place else word for i, word in enumerate(MADE)]
                row.case("%d %s" % (place, name[:20]), run(table, words, folder, as_nobody), (5, b""))
                os.chmod(os.path.join(folder, "closed"), 0o755)
    row = table.row("`gen`: one name for both files, or a word that isn't UTF-8", "2, `fault usage`, nothing appended")
    for words in (MADE[:4] + ["made.cfg"], MADE[:4] + [b"\xff"], MADE[:3] + [b"\xff", "made.dat"]):
        with tempfile.TemporaryDirectory(dir=table.folder) as folder:
            row.case("%r" % words[3:], run(table, words, folder), USAGE)
            row.holds("files", os.listdir(folder) == [])


def gen_old_files(table, right, summary):
    old = b"old" * 100_000
    row = table.row("`gen`: longer old files under both names, and a name that can't be written", "both files new; or 5, and the file that isn't reached is the old one")
    for place, name, left in ((3, "made.cfg", None), (3, "/dev/full", [None, old]), (4, "/dev/full", [right[0], old])):
        with tempfile.TemporaryDirectory(dir=table.folder) as folder:
            for made in MADE[3:]:
                with open(os.path.join(folder, made), "wb") as file:
                    file.write(old)
            words = [name if i == place else word for i, word in enumerate(MADE)]
            row.case("%d %s" % (place, name), run(table, words, folder), (5, b"") if left else summary)
            now = made_in(folder)
            row.holds("files", now == right if left is None else now[1] == left[1] and now[0] == (left[0] or old))
    row = table.row("`gen`: two spellings of one file, by `./`, a link or a second name", "the whole text, and the data alone in the file")
    for link in (None, os.symlink, os.link):
        with tempfile.TemporaryDirectory(dir=table.folder) as folder:
            path, other = os.path.join(folder, "made.cfg"), "./made.cfg"
            if link:
                open(path, "wb").close()
                other = "other.dat"
                link(path, os.path.join(folder, other))
            row.case("%r" % link, run(table, MADE[:4] + [other], folder), summary)
            row.holds("file", content(path) == right[1])


def gen_output(table, right):
    row = table.row("`gen`: standard output takes nothing", "5, both files whole")
    ends, opened = outputs(table)
    for name, before, stream in ends:
        with tempfile.TemporaryDirectory(dir=table.folder) as folder:
            row.case(name, run(table, MADE, folder, before, stdout=stream), (5, b""))
            row.holds("files, " + name, made_in(folder) == right)
    for fd in opened:
        os.close(fd)


def main():
    if len(sys.argv) != 2:
        sys.exit(__doc__)
    with tempfile.TemporaryDirectory() as folder:
        os.chmod(folder, 0o755)
        program = os.path.join(folder, "flicker")
        shutil.copy(sys.argv[1], program)
        os.chmod(program, 0o755)
        table, calls = Table(program, folder), Calls(folder)
        for part in (names, two_names, devices, pipes):
            part(table)
        changing(table, calls)
        output(table)
        in_turn(table, calls)
        workers(table)
        generated(table, calls)
    table.print()
    sys.exit(1 if table.failed() else 0)


if __name__ == "__main__":
    main()
