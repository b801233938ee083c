"""What the test scripts share: the program under test, one run of it, and the count of cases."""

import os
import subprocess
import sys
from typing import NamedTuple, Optional

from support.audit import fault_in_audit

TOP = os.path.dirname(os.path.dirname(os.path.dirname(os.path.abspath(__file__))))
SECONDS = 120


class Ended(NamedTuple):
    """How a run ended: its exit status (below 0: the signal that ended it) and what it wrote.

    A run that has not ended after its time is ended, and has no status.
    """

    status: Optional[int]
    stdout: bytes
    stderr: bytes


def program_path():
    """The program named by the first argument, or the one that build.sh leaves. Where there is none, the script
    ends."""
    default = os.path.join(TOP, "crates", "l4map", "out", "l4map")
    path = os.path.abspath(sys.argv[1]) if len(sys.argv) > 1 else default
    if not (os.path.isfile(path) and os.access(path, os.X_OK)):
        give_up(f"there is no program {path}: ./build.sh proves it and builds it")
    return path


def give_up(why):
    """Ends a script that cannot run its cases: that is one failure."""
    print(f"FAILED {why}")
    print("0 passed, 1 failed")
    sys.exit(1)


def build_library(source, room):
    """Compiles a file of tests/support/ into a library that can be preloaded, in the folder `room`."""
    library = os.path.join(room, source + ".so")
    compiler = os.environ.get("CC", "cc")
    path = os.path.join(TOP, "tests", "support", source)
    words = [compiler, "-O1", "-fno-builtin", "-shared", "-fPIC", "-o", library, path]
    try:
        built = subprocess.run(words, capture_output=True, text=True, check=False)
    except OSError as error:
        give_up(f"{compiler}, a C compiler, does not start: {error.strerror}")
    if built.returncode:
        give_up(f"{source} is not compiled: {built.stderr.strip()[:400]}")
    return library


def preloaded(library, **settings):
    """The environment of a run with that library and these settings of it."""
    return {**os.environ, "LD_PRELOAD": library, **{name: str(value) for name, value in settings.items()}}


def run(program, given=b"", seconds=SECONDS, **how):
    """Runs the program, a path or a path with its arguments, on the bytes `given`, or with the streams that `how`
    names."""
    if "stdin" not in how:
        how["input"] = given
    how.setdefault("stdout", subprocess.PIPE)
    how.setdefault("stderr", subprocess.PIPE)
    words = program if isinstance(program, list) else [program]
    try:
        ran = subprocess.run(words, timeout=seconds, check=False, **how)
    except subprocess.TimeoutExpired as late:
        return Ended(None, late.stdout or b"", late.stderr or b"")
    return Ended(ran.returncode, ran.stdout or b"", ran.stderr or b"")


def difference(wanted, got):
    """What differs between two runs, in one line, or an empty text."""
    found = []
    if got.status is None:
        found.append("it did not end in its time")
    elif got.status != wanted.status:
        found.append(f"status {got.status} in place of {wanted.status}")
    for stream in ("stdout", "stderr"):
        ours, theirs = getattr(wanted, stream), getattr(got, stream)
        if ours != theirs:
            found.append(f"{stream} {first_difference(ours, theirs)}")
    return "; ".join(found)


def first_difference(wanted, got):
    """The first line in which two texts differ."""
    ours, theirs = wanted.splitlines(True), got.splitlines(True)
    alike = 0
    while alike < min(len(ours), len(theirs)) and ours[alike] == theirs[alike]:
        alike += 1
    here, there = ours[alike : alike + 1], theirs[alike : alike + 1]
    shown = [repr(it[0][:200]) if it else "its end" for it in (here, there)]
    return f"line {alike + 1}: {shown[1]} in place of {shown[0]}"


class Cases:
    """Counts cases, and prints one line for each that failed."""

    def __init__(self):
        self.passed = 0
        self.failed = 0

    def check(self, name, why):
        """Counts a case; `why` is what is wrong with it, or empty."""
        if why:
            self.failed += 1
            print(f"FAILED {name}: {why}", flush=True)
        else:
            self.passed += 1

    def compare(self, name, wanted, got):
        self.check(name, difference(wanted, got))

    def end(self):
        """Prints the closing line and ends the script."""
        print(f"{self.passed} passed, {self.failed} failed")
        sys.exit(1 if self.failed else 0)


def compare_replay(cases, program, name, given, wanted):
    """Two cases: a trace ends as wanted, with a lawful audit if it has one, and with --plain it ends so too."""
    got = run(program, given)
    cases.check(name, difference(wanted, got) or (fault_in_audit(got.stdout) if wanted.status == 0 else ""))
    cases.compare(f"{name}; with --plain", wanted, run([program, "--plain"], given))
