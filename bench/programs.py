"""What the scripts here have in common: the programs that are timed, and one run of a program."""
import os
import shutil
import subprocess
import sys
import time

TOP = os.path.dirname(os.path.dirname(os.path.abspath(__file__)))
PLAIN = os.path.join(TOP, "bench", "plain")


def peak_of(process):
    """The peak so far of the memory of a running process, in MB; 0 where it has ended."""
    try:
        with open("/proc/%d/status" % process) as f:
            return max((int(line.split()[1]) / 1000 for line in f if line.startswith("VmHWM:")), default=0)
    except OSError:
        return 0


def run(words, folder=None, status=0):
    """The seconds of processor time, the peak of memory in MB and the output (of at most 65,536 bytes) of one run in a folder, which
    must end with a status. The memory is looked at every millisecond: what the system tells at the end counts that of this script."""
    child = subprocess.Popen(words, cwd=folder, stdout=subprocess.PIPE)
    peak, ended = 0, 0
    while ended == 0:
        peak = max(peak, peak_of(child.pid))
        time.sleep(0.001)
        ended, code, usage = os.wait4(child.pid, os.WNOHANG)
    out = child.stdout.read()
    child.stdout.close()
    child.returncode = os.waitstatus_to_exitcode(code)
    if child.returncode != status:
        sys.exit("%s ended with %d: %s" % (words[0], child.returncode, out))
    return usage.ru_utime + usage.ru_stime, peak, out


def place():
    """Where the built program is."""
    return os.path.join(TOP, "crates", "flicker", "out", "flicker")


def built():
    """The path of the built program."""
    program = place()
    if not os.path.exists(program):
        sys.exit("build the program first: ./flicker")
    return program


def plains(folder, names):
    """The paths of plain Rust programs, built under a folder."""
    target = os.path.join(folder, "target")
    words = ["cargo", "build", "--release", "--quiet", "--offline", "--target-dir", target]
    subprocess.run(words + [word for name in names for word in ("--bin", name)], cwd=PLAIN, check=True)
    return [os.path.join(target, "release", name) for name in names]


def plain(folder, name):
    """The path of one of them."""
    return plains(folder, [name])[0]


def below(names):
    """The crates of the repository that these are or use, each with what it uses, as crates.txt has them."""
    with open(os.path.join(TOP, "crates.txt")) as f:
        lines = dict(line.strip().split(":", 1) for line in f if line.strip() and not line.startswith("#"))
    wanted = set(names)
    while True:
        more = wanted.union(*(lines[name].split() for name in wanted if name in lines))
        if more == wanted:
            return {name: uses for name, uses in lines.items() if name in wanted}
        wanted = more


def over_crates(folder, name, uses, files):
    """The path of a program with these files (from the path in its crate to the text), proved and built under a folder by `rt run`."""
    crates = os.path.join(folder, "crates")
    libraries = below(uses)
    for library in libraries:
        source = os.path.join(TOP, "crates", library)
        shutil.copytree(source, os.path.join(crates, library), ignore=shutil.ignore_patterns("out", "must-fail"))
    for path, text in files.items():
        place = os.path.join(crates, name, path)
        os.makedirs(os.path.dirname(place), exist_ok=True)
        with open(place, "w") as f:
            f.write(text)
    with open(os.path.join(folder, "crates.txt"), "w") as f:
        f.write("".join("%s:%s\n" % line for line in libraries.items()) + "%s: %s\n" % (name, " ".join(uses)))
    ran = subprocess.run(["rt", "run"], cwd=os.path.join(crates, name), stdout=subprocess.PIPE, stderr=subprocess.STDOUT, text=True)
    program = os.path.join(crates, name, "out", name)
    if not os.path.exists(program):
        sys.exit(ran.stdout)
    return program
