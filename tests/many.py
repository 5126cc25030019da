#!/usr/bin/env python3
"""Runs the blocks of docs/MANY.md on generated recordings: once from end to end, once ended in the middle and resumed. Outside the gate.

    python3 tests/many.py PROGRAM [COUNT [HOST ..]]

COUNT is 300 where it isn't given. In the second run three recordings can't be read at first. A HOST is a line of `hosts`; with one or more there is
a third run on them. Prints the counts by status, and ends with status 1 where a report or a status differs. Needs GNU parallel."""
import collections
import os
import re
import shutil
import subprocess
import sys
import tempfile
import time

sys.dont_write_bytecode = True
from random_recordings import Recording  # noqa: E402

PAGE = os.path.join(os.path.dirname(os.path.dirname(os.path.abspath(__file__))), "docs", "MANY.md")


def blocks():
    """The blocks of the page by their names."""
    with open(PAGE) as file:
        return dict(re.findall(r"^```(\w+)\n(.*?)^```$", file.read(), re.M | re.S))


class Laboratory:
    """A folder in which the page is followed."""

    def __init__(self, top, name, recordings, environment):
        self.folder, self.environment, self.blocks = os.path.join(top, name), environment, blocks()
        os.mkdir(self.folder)
        os.symlink(recordings, os.path.join(self.folder, "recordings"))
        judge = os.path.join(self.folder, "judge")
        with open(judge, "w") as file:
            file.write(self.blocks["judge"])
        os.chmod(judge, 0o755)
        self.run("list")

    def start(self, block):
        return subprocess.Popen(["sh", "-c", "exec " + self.blocks[block] if block == "run" else self.blocks[block]], cwd=self.folder,
                                env=self.environment, stdin=subprocess.DEVNULL, stdout=subprocess.PIPE, stderr=subprocess.PIPE, text=True)

    def run(self, block):
        out, err = self.start(block).communicate(timeout=1800)
        if err:
            print("%s: error output %r" % (block, err[:500]))
        return out

    def log(self):
        """The status of each recording in the log."""
        path = os.path.join(self.folder, "log")
        if not os.path.exists(path):
            return {}
        with open(path) as file:
            rows = [line.rstrip("\n").split("\t") for line in file][1:]
        with open(os.path.join(self.folder, "names")) as file:
            names = file.read().splitlines()
        return {names[int(row[0]) - 1]: int(row[6]) for row in rows if len(row) == 9}

    def reports(self):
        found = {}
        for base, _, names in os.walk(os.path.join(self.folder, "reports")):
            for name in names:
                if name.endswith(".txt"):
                    with open(os.path.join(base, name), "rb") as file:
                        found[name] = file.read()
        return found


def make(folder, count, gap):
    """The files of `count` recordings, in ten folders; `gap` stands in their names."""
    for number in range(1, count + 1):
        recording = Recording(7, number)
        place = os.path.join(folder, "series%s%d" % (gap, number % 10))
        os.makedirs(place, exist_ok=True)
        for kind, content in (("toml", recording.job()), ("cfg", recording.configuration()), ("dat", recording.data())):
            with open(os.path.join(place, "recording%s%d.%s" % (gap, number, kind)), "wb") as file:
                file.write(content)


def broken(second, count, first):
    """A run that is ended once a third of the recordings are judged, and then goes on; three that have a report can't be read at first."""
    judged = sorted(name for name, status in first.log().items() if status in (0, 1, 3))
    hidden = [os.path.join(second.folder, "recordings", name + ".dat") for name in (judged[1], judged[len(judged) // 2], judged[-1])]
    for path in hidden:
        os.rename(path, path + ".away")
    child = second.start("run")
    while len(second.log()) < count // 3 and child.poll() is None:
        time.sleep(0.01)
    child.kill()
    child.communicate()
    ended = len(second.log())
    time.sleep(5)                       # what was being judged ends by itself
    second.run("run")
    cut = sorted(second.log().values()).count(4)
    for path in hidden:
        os.rename(path + ".away", path)
    second.run("forget")
    kept = len(second.log())
    second.run("run")
    print("ended with %d of %d in the log; after resuming %d had status 4; %d lines kept, then resumed again" % (ended, count, cut, kept))
    return cut == 3 and ended < count


def main():
    if len(sys.argv) < 2:
        sys.exit(__doc__)
    count = int(sys.argv[2]) if len(sys.argv) > 2 else 300
    with tempfile.TemporaryDirectory() as top:
        home, programs, recordings = [os.path.join(top, name) for name in ("home", "programs", "recordings")]
        for folder in (home, programs, recordings):
            os.mkdir(folder)
        shutil.copy(sys.argv[1], os.path.join(programs, "flicker"))
        os.makedirs(os.path.join(home, ".parallel"))
        open(os.path.join(home, ".parallel", "will-cite"), "w").close()
        environment = dict(os.environ, PATH=programs + ":" + os.environ["PATH"], PARALLEL_HOME=os.path.join(home, ".parallel"))
        make(recordings, count, "_" if sys.argv[3:] else " ")
        began = time.time()
        first = Laboratory(top, "first", recordings, environment)
        first.run("run")
        print("%d recordings in %.1f s" % (count, time.time() - began))
        second = Laboratory(top, "second", recordings, environment)
        right = broken(second, count, first)
        others = [second]
        if sys.argv[3:]:
            third = Laboratory(top, "third", recordings, environment)
            with open(os.path.join(third.folder, "hosts"), "w") as file:
                file.write("".join(host + "\n" for host in sys.argv[3:]))
            third.run("hosts")
            others.append(third)
        for other in others:
            same = other.log() == first.log() and other.reports() == first.reports() and other.run("same") == ""
            print("%s: %s" % (os.path.basename(other.folder), "the same statuses and the same bytes" if same else "differs"))
            right = right and same
        print("status, recordings:\n" + first.run("count") + "undecided: %d names" % len(first.run("undecided").splitlines()))
        right = right and len(first.log()) == count and collections.Counter(first.log().values())[4] == 0
    sys.exit(0 if right else 1)


if __name__ == "__main__":
    main()
