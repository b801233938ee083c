#!/usr/bin/env python3
"""Whole traces, each compared with the answer beside it: replays/SUBJECT/NAME.csv with NAME.txt, and those of
examples/.

    tests/replays.py [PROGRAM]

A trace is run twice, once with --plain. Both times it must end with status 0, a silent standard error, and NAME.txt on
standard output. The answers are worked out by hand from docs/FORMATS.md and docs/MODEL.md; replays/README.md tells how.
"""

import glob
import os

from support.program import TOP, Cases, Ended, compare_replay, program_path

FOLDERS = ["examples", "tests/replays/*"]


def names_with(ending):
    """The replays and examples that have a file with this ending, by their paths in the repository without it."""
    found = (path for folder in FOLDERS for path in glob.glob(f"{folder}/*{ending}", root_dir=TOP))
    return {path.removesuffix(ending) for path in found}


def read(path):
    with open(os.path.join(TOP, path), "rb") as file:
        return file.read()


def main():
    program, cases = program_path(), Cases()
    traces, answers = names_with(".csv"), names_with(".txt")
    for name in sorted(traces & answers):
        compare_replay(cases, program, name, read(name + ".csv"), Ended(0, read(name + ".txt"), b""))
    for name in sorted(traces ^ answers):
        cases.check(name, "a trace without its answer" if name in traces else "an answer without its trace")
    cases.end()


main()
