#!/usr/bin/env python3
"""The program with a stack of 64 KiB: every trace has its answer, however long its chains are, and so has every
refusal.

    tests/little_stack.py [PROGRAM]

`ulimit -s` sets the limit. It holds for the first thread, and is the size of the stack of every other one. The
arguments and the environment lie on the stack of the first thread too, so the environment is empty.
"""

import glob
import os
from concurrent.futures import ThreadPoolExecutor

from support import hostile_traces
from support.program import TOP, Cases, Ended, difference, program_path, run

KIBIBYTES = 64
CHOICES = [[], ["--plain"], ["--workers", "1"], ["--workers", "64", "--piece", "1"]]

# The traces that take seconds, which run with fewer choices.
CHOICES_OF_LARGE = [[], ["--plain"]]
LARGE = [
    hostile_traces.sends_that_extend_one_page,
    hostile_traces.million_mappings_revoked_at_once,
    hostile_traces.many_spaces_given_up,
    hostile_traces.space_with_every_page_cleared,
]

# Runs that end without an answer: a name, the arguments, the input, the status, and how standard error begins.
ENDED_EARLY = [
    ("empty input", [], b"", 2, b"l4map: BadHeader\n"),
    ("limits that are not served", [], b"l4map,1,513,18,1\n", 2, b"l4map: BadLimits\n"),
    ("a number of workers that is refused", ["--workers", "65"], b"", 1, b"error: "),
    ("an argument that is none", ["--fast"], b"", 1, b"error: "),
]


def run_with_little_stack(program, options, given):
    words = ["/bin/sh", "-c", f'ulimit -s {KIBIBYTES} && exec "$0" "$@"', program, *options]
    return run(words, given, env={})


def read(path):
    with open(path, "rb") as file:
        return file.read()


def traces():
    """The traces of replays/ and examples/, and the hostile ones, each with the choices by which it runs and with its
    answer."""
    for folder in ("examples", "tests/replays/*"):
        for path in sorted(glob.glob(f"{TOP}/{folder}/*.csv")):
            yield os.path.relpath(path, TOP), CHOICES, read(path), read(path.removesuffix(".csv") + ".txt")
    for make in hostile_traces.SMALL:
        yield make.__name__, CHOICES, *make()
    for make in LARGE:
        yield make.__name__, CHOICES_OF_LARGE, *make()


def check_trace(program, name, choices, given, answer):
    """What is wrong with the runs of a trace, choice by choice."""
    for options in choices:
        got = run_with_little_stack(program, options, given)
        yield " ".join([name, *options]), difference(Ended(0, answer, b""), got)


def check_limit(cases):
    """The limit is there: the shell, started as the program is, tells it."""
    got = run_with_little_stack("/bin/sh", ["-c", "ulimit -s"], b"")
    cases.compare("the limit of the stack", Ended(0, b"%d\n" % KIBIBYTES, b""), got)


def check_ended_early(cases, program):
    for name, options, given, status, told in ENDED_EARLY:
        got = run_with_little_stack(program, options, given)
        cases.compare(name, Ended(status, b"", told), got._replace(stderr=got.stderr[: len(told)]))
    helped = run_with_little_stack(program, ["--help"], b"")
    cases.check("help", "" if helped.status == 0 and b"--workers" in helped.stdout else f"status {helped.status}")


def main():
    program, cases = program_path(), Cases()
    check_limit(cases)
    check_ended_early(cases, program)
    with ThreadPoolExecutor(max_workers=os.cpu_count()) as pool:
        for found in pool.map(lambda trace: list(check_trace(program, *trace)), traces()):
            for name, why in found:
                cases.check(name, why)
    cases.end()


main()
