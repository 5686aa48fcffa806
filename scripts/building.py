#!/usr/bin/env python3
"""Proves and builds a program of this repository: building.py NAME

It has `rt run` prove what isn't proved yet, the first time all crates that the program stands on, and build crates/NAME/out/NAME.
From the first crate that had to be proved on, standard error says how many are: in one line that is rewritten where it is a
terminal, else in a line now and then. Standard output stays empty. Where a proof fails, standard error has what `rt` said, and the
exit status is 3; where there is no `rt` it is 2.

No command of `rt` builds a program and leaves it at that, so the program is run too: in its crate's folder, with no arguments and an
empty input. What it writes then, and its exit status, are set aside."""
import fcntl
import getopt
import os
import pathlib
import re
import shutil
import signal
import subprocess
import sys
import time

ROOT = pathlib.Path(__file__).resolve().parent.parent
# How the lines begin that end the check of a crate, of which the first names it and the second says that all of it is proved; and the line
# that comes once the program is built.
CHECKED = re.compile(r"crate (\w+): modules ")
PROVED = "logic=proved "
RUNNING = "rt: running "
SECONDS_BETWEEN_LINES = 15


class Failure(Exception):
    """What keeps a command from its work, as lines for standard error, and the exit status that says so."""

    def __init__(self, lines, status):
        super().__init__(lines)
        self.status = status


def command():
    return os.path.basename(sys.argv[0])


def write(stream, text):
    """Writes bytes to standard output or error, all of them or with an error. The stream's own buffer is left alone: there may be
    none, and then a part may be taken for the whole; or what can't be written is tried again when the interpreter ends."""
    with open(stream.fileno(), "wb", closefd=False) as file:
        file.write(text)


def say(line):
    """Writes a line to standard error, the names of files in it as the bytes that they are."""
    write(sys.stderr, os.fsencode(line) + b"\n")


def run_command(main):
    """Ends with the exit status that `main` answers for the command's words, or with that of what kept it from its work."""
    try:
        status = main(sys.argv[1:])
    except Failure as failure:
        say(str(failure))
        status = failure.status
    except KeyboardInterrupt:
        status = 128 + signal.SIGINT
    except BrokenPipeError:
        # Whoever reads the output has seen enough.
        status = 128 + signal.SIGPIPE
    except OSError as error:
        say("%s: %s" % (command(), error))
        status = 3
    sys.exit(status)


def parsed(words, usage, options, most=None):
    """The options among a command's words, with what they are given, and its other words, of which there is one and are no more than
    `most`. For any other words the failure is the usage. Where help is asked for, that is written, and the command ends."""
    try:
        pairs, others = getopt.gnu_getopt(words, "h", ["help", *options])
    except getopt.GetoptError as error:
        raise Failure("%s: %s\n\n%s" % (command(), error, usage), 2)
    given = dict(pairs)
    if "-h" in given or "--help" in given:
        write(sys.stdout, usage.encode() + b"\n")
        sys.exit(0)
    if not others or (most and most < len(others)):
        raise Failure(usage, 2)
    return given, others


class Progress:
    """How many crates of a program are proved, said on standard error from the first on that had to be."""

    def __init__(self, name):
        self.total = len(crates_of(name))
        self.proved = set()
        self.said = 0
        self.due = 0.0
        self.rewrites = sys.stderr.isatty()

    def count(self, crate):
        """Counts a crate that was proved just now, and those that it stands on: of these `rt` names none that it finds unchanged."""
        self.proved |= crates_of(crate)
        if self.rewrites or self.due <= time.monotonic():
            self.show()

    def show(self):
        line = b"proved %d of %d crates" % (len(self.proved), self.total)
        write(sys.stderr, b"\r" + line if self.rewrites else line + b"\n")
        self.said = len(self.proved)
        self.due = time.monotonic() + SECONDS_BETWEEN_LINES

    def end(self):
        if self.said < len(self.proved):
            self.show()
        if self.said and self.rewrites:
            write(sys.stderr, b"\n")


def crates_of(name):
    """The crates that a crate stands on, and itself. A name that has no line in crates.txt is a library of the toolchain."""
    needs = {}
    for line in (ROOT / "crates.txt").read_text(encoding="utf-8").splitlines():
        crate, colon, names = line.partition("#")[0].partition(":")
        if colon:
            needs[crate.strip()] = names.split()
    found = set()
    left = [name]
    while left:
        crate = left.pop()
        if crate in needs and crate not in found:
            found.add(crate)
            left += needs[crate]
    return found


def program_of(name):
    """Where a program of this repository stands once it is built."""
    return ROOT / "crates" / name / "out" / name


def build(name, progress):
    """What `rt run` says of a program, and whether that is proved and built. Each crate is counted as soon as it is said to be proved."""
    said, checked, is_built = [], None, False
    folder, nothing = os.fspath(ROOT / "crates" / name), subprocess.DEVNULL
    with subprocess.Popen(["rt", "run"], cwd=folder, stdin=nothing, stdout=nothing, stderr=subprocess.PIPE) as running:
        for line in map(os.fsdecode, running.stderr):
            said.append(line)
            named = CHECKED.match(line)
            if named:
                checked = named[1]
            elif line.startswith(PROVED) and checked:
                progress.count(checked)
            is_built = is_built or line.startswith(RUNNING)
    # A status above 0 is the program's own where that was run.
    return "".join(said), is_built or not running.returncode


def built(name):
    """The path of a program of this repository, which is proved and built."""
    if shutil.which("rt") is None:
        raise Failure("no `rt` on the path: the Rattle toolchain is needed to prove and build the program `%s`" % name, 2)
    progress = Progress(name)
    with open(ROOT / "crates.txt") as lock:
        # `rt` lets go of its own lock before it runs the program, whose file a second build would write to meanwhile.
        fcntl.flock(lock, fcntl.LOCK_EX)
        try:
            said, is_built = build(name, progress)
        finally:
            progress.end()
    if not is_built:
        raise Failure(said.rstrip("\n") or "`rt run` of the program `%s` failed without a word" % name, 3)
    program = program_of(name)
    if not program.exists():
        raise Failure("`rt run` left no program %s" % program.relative_to(ROOT), 3)
    return program


def main(words):
    if len(words) != 1:
        say(__doc__)
        return 2
    built(words[0])
    return 0


if __name__ == "__main__":
    run_command(main)
