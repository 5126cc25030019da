#!/usr/bin/env python3
"""Refuses each request for memory in turn, one a run, while the built program answers a command. Outside the gate.

    python3 tests/refused_memory.py PROGRAM                 over the examples: `check`, `levels`, `report` and `tables`
    python3 tests/refused_memory.py PROGRAM WORD ..         the words of any command, in the folder of its files

The program must then answer 6 and print nothing, or as where a read failed (`gen`: an append) where the memory was for a file's name, or as
with ample memory.
What it appended, where the command appends, must be a front of what it appends with ample memory. `cc` compiles the refusals. Prints a
table of counts, and ends with status 1 where an answer is another one."""
import os
import shutil
import subprocess
import sys
import tempfile

EXAMPLES = os.path.join(os.path.dirname(os.path.dirname(os.path.abspath(__file__))), "examples")
RUNS = (("damaged", "check recording.cfg recording.dat"), ("square", "levels recording.cfg recording.dat 1 230000 1"),
        ("dip", "report job.toml recording.cfg recording.dat 1"), ("three_phases", "report job.toml recording.cfg recording.dat 3"),
        ("three_phases", "tables 230/50"), ("damaged", "check recording.cfg order.dat"), ("damaged", "gen 1 1 generated.cfg generated.dat"))
NOTHING = (6, b"", b"")
READ = (4, b"fault read\n", b"")
APPEND = (5, b"", b"")
FOR_A_NAME = 2      # at most so many requests are made for a name before its file is used: for its bytes, and for its place in the table

# Stands before the C library: the request with the number REFUSED is refused, and told on the error output.
REFUSALS = r"""
#define _GNU_SOURCE
#include <dlfcn.h>
#include <errno.h>
#include <stdatomic.h>
#include <stdlib.h>
#include <unistd.h>

static atomic_long made;

static int refused(void)
{
    static long which;
    if (which == 0)
        which = atol(getenv("REFUSED"));
    if (++made != which)
        return 0;
    if (write(2, "refused\n", 8) != 8)
        abort();
    errno = ENOMEM;
    return 1;
}

void *malloc(size_t size)
{
    static void *(*real)(size_t);
    if (!real)
        real = dlsym(RTLD_NEXT, "malloc");
    return refused() ? NULL : real(size);
}

void *realloc(void *old, size_t size)
{
    static void *(*real)(void *, size_t);
    if (!real)
        real = dlsym(RTLD_NEXT, "realloc");
    return refused() ? NULL : real(old, size);
}

void *aligned_alloc(size_t alignment, size_t size)
{
    static void *(*real)(size_t, size_t);
    if (!real)
        real = dlsym(RTLD_NEXT, "aligned_alloc");
    return refused() ? NULL : real(alignment, size);
}

int posix_memalign(void **out, size_t alignment, size_t size)
{
    static int (*real)(void **, size_t, size_t);
    if (!real)
        real = dlsym(RTLD_NEXT, "posix_memalign");
    return refused() ? ENOMEM : real(out, alignment, size);
}
"""



def library(folder):
    """The path of the library that refuses requests."""
    source, built = os.path.join(folder, "refusals.c"), os.path.join(folder, "refusals.so")
    with open(source, "w") as file:
        file.write(REFUSALS)
    subprocess.run(["cc", "-shared", "-fPIC", "-O1", "-o", built, source, "-ldl"], check=True)
    return built


def contents(folder):
    """What stands under each name of a folder."""
    found = {}
    for name in os.listdir(folder):
        if os.path.isfile(os.path.join(folder, name)):
            with open(os.path.join(folder, name), "rb") as file:
                found[name] = file.read()
    return found


class Command:
    """A command in a copy of the folder of its files, and its answer with ample memory."""

    def __init__(self, program, refusals, source, words):
        self.program, self.refusals, self.source, self.words = program, refusals, source, words
        self.right, self.made, _ = self.answer(0)

    def answer(self, number):
        """Status, output and error output where the request of this number is refused, what then stands in the folder, and whether one was."""
        environment = dict(os.environ, LD_PRELOAD=self.refusals, REFUSED=str(number))
        with tempfile.TemporaryDirectory() as folder:
            work = os.path.join(folder, "work")
            shutil.copytree(self.source, work)
            ran = subprocess.run([self.program] + self.words, cwd=work, env=environment, stdin=subprocess.DEVNULL, capture_output=True, timeout=120)
            made = contents(work)
        refused = ran.stderr.startswith(b"refused\n")
        return (ran.returncode, ran.stdout, ran.stderr[8 * refused:]), made, refused

    def appended(self, made):
        """Whether what stands in the folder is a front of what stands there with ample memory."""
        return all(self.made.get(name, b"").startswith(content) for name, content in made.items())


def tried(command):
    """The counts of each answer while each request is refused in turn; None where an answer is another one."""
    failed = APPEND if command.words[0] == "gen" else READ
    counts, number = {command.right: 0, NOTHING: 0, failed: 0}, 0
    names = sum(word in command.made for word in command.words)
    while True:
        number += 1
        said, made, refused = command.answer(number)
        if said not in counts or not command.appended(made) or (said == command.right and made != command.made):
            print("%s: request %d refused: %r" % (" ".join(command.words), number, said))
            return None
        if not refused:
            break
        counts[said] += 1
    if counts[NOTHING] == 0 and command.right != NOTHING or counts[failed] > FOR_A_NAME * names:
        print("%s: %r" % (" ".join(command.words), counts))
        return None
    return number - 1, counts[NOTHING], counts[failed], counts[command.right]


def main():
    if len(sys.argv) < 2:
        sys.exit(__doc__)
    runs = [(os.getcwd(), sys.argv[2:])] if sys.argv[2:] else [(os.path.join(EXAMPLES, name), words.split()) for name, words in RUNS]
    failed = False
    print("| words | requests | status 6, nothing printed | status 4, `fault read`, or 5, nothing printed | the whole text |\n|---|---|---|---|---|")
    with tempfile.TemporaryDirectory() as folder:
        refusals = library(folder)
        for source, words in runs:
            counts = tried(Command(os.path.abspath(sys.argv[1]), refusals, source, words))
            failed = failed or counts is None
            if counts:
                print("| `%s` | %d | %d | %d | %d |" % ((" ".join(words),) + counts), flush=True)
    sys.exit(1 if failed else 0)


if __name__ == "__main__":
    main()
