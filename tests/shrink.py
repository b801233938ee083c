#!/usr/bin/env python3
"""What shrink.py leaves of traces that fail.

    tests/shrink.py

Of commands whose least failing trace is known, that is left. Of bugs that are planted in the reference of the
definitions (support/planted_bugs.txt) random traces of 300 records are made small: what is left shows the bug, has few
records, and none of them can be left out.
"""

import importlib.util
import os
import sys
import tempfile

from planted_bugs import MADE_HERE, made_by, read_bugs, reference
from support.program import TOP, Cases, run

SHRINK = os.path.join(TOP, "shrink.py")
RECORDS = 300

TRACE = """l4map,2,5,20,7
send,0,3,10,8,c7,1008,10c7
clear,3
send,3,4,4010,1008,20c7
access,4,4abc,w
unmap,0,42,c1,1c2,2c4
"""

# A command, and the least trace for which it ends as it does for the whole one. It fails where a line is like this.
BY_HAND = [
    ("clear", "grep -q ^clear && exit 3; exit 0", "l4map,1,2,18,1\nclear,0\n"),
    ("an unmap of three words", "grep -q '^unmap,[0-9]*,[0-9a-f]*,[^,]*,[^,]*,[^,]*$' && exit 1; exit 0", "l4map,1,2,18,1\nunmap,0,2,0,0,0\n"),
    ("the word 1c2", "grep -q ,1c2 && exit 1; exit 0", "l4map,1,2,18,1\nunmap,0,0,1c2\n"),
    ("two items", "grep -q '^send.*8.*8' && exit 1; exit 0", "l4map,1,2,18,1\nsend,0,0,0,8,0,8,0\n"),
    ("a write", "grep -q 'w$' && exit 1; exit 0", "l4map,1,2,18,1\naccess,0,0,w\n"),
    ("spaces of 2^20 bytes", "grep -q '^l4map,.*,20,' && exit 1; exit 0", "l4map,1,2,20,1\n"),
    ("a send before a clear", "tr '\\n' ' ' | grep -q 'send.*clear' && exit 7; exit 0", "l4map,1,2,18,1\nsend,0,0,0,8,0\nclear,0\n"),
]

# Bugs that are made small, and how many records are left at most. By hand each of them can be shown with that many or
# fewer: maps make the pages that have to be there, one record is answered wrongly, or the audit shows what it left.
BUGS = [
    "complete-space-is-half",
    "send-base-mod-fpage",
    "partial-unmap-stops-at-depth-4",
    "partial-unmap-stops-behind-space-2",
    "grant-narrows-one-page",
    "replaced-target-leaves-orphans",
    "status-not-passed",
    "lost-pair-keeps-its-target",
    "clear-leaves-orphans",
    "31-items-refused",
]
MOST = 6


def the_module():
    """shrink.py as a module."""
    spec = importlib.util.spec_from_file_location("shrink", SHRINK)
    module = importlib.util.module_from_spec(spec)
    spec.loader.exec_module(module)
    return module


def check_by_hand(cases, room):
    path, output = os.path.join(room, "trace.csv"), os.path.join(room, "least.csv")
    with open(path, "w", encoding="ascii") as file:
        file.write(TRACE)
    for name, command, wanted in BY_HAND:
        got = run([sys.executable, SHRINK, path, "--run", command])
        cases.check(f"shrink: {name}", "" if (got.status, got.stdout.decode(), got.stderr) == (0, wanted, b"") else f"{got}")
    got = run([sys.executable, SHRINK, path, "--run", BY_HAND[0][1], "--output", output])
    with open(output, encoding="ascii") as file:
        least = file.read()
    cases.check("shrink --output", "" if (got.status, got.stdout, least) == (0, b"", BY_HAND[0][2]) else f"{got}, {least!r}")
    for name, words, status in (
        ("a trace that does not fail", [path, "--run", "exit 0"], 1),
        ("a command that there is not", [path, "--run", "no-such-command-of-anybody"], 2),
        ("a trace that there is not", [os.path.join(room, "none.csv"), "--run", "exit 1"], 2),
        ("a file that is no trace", [SHRINK, "--run", "exit 1"], 2),
        ("no command", [path], 2),
    ):
        got = run([sys.executable, SHRINK, *words])
        cases.check(f"shrink: {name}", "" if got.status == status and got.stderr and not got.stdout else f"{got}")


def fails_by(right, wrong):
    """Whether a reference with a bug answers a trace otherwise than the right one."""

    def fails(text):
        try:
            return list(right(text)) != list(wrong(text))
        except (AttributeError, LookupError, TypeError):
            return True

    return fails


def check_bug(cases, module, bug):
    """The first of a few random traces that finds a bug is made small."""
    fails = fails_by(reference().answers, reference(bug.edits).answers)
    for seed in range(1, 20):
        words = ["--seed", str(seed), "--records", str(RECORDS)] + (["--version", str(bug.version)] if bug.version else [])
        text = made_by(MADE_HERE, words)
        if fails(text):
            break
    least = module.Shrinking(text, fails).shrink()
    header, *records = least.splitlines()
    without = ["".join(line + "\n" for line in [header, *records[:i], *records[i + 1 :]]) for i in range(len(records))]
    cases.check(f"{bug.name}: what is left fails", "" if fails(least) else least)
    cases.check(f"{bug.name}: at most {MOST} records", "" if 0 < len(records) <= MOST else least)
    cases.check(f"{bug.name}: no record can be left out", "".join(it for it in without if fails(it)))
    cases.check(f"{bug.name}: the same again", "" if module.Shrinking(text, fails).shrink() == least else "it is another one")


def main():
    cases, module = Cases(), the_module()
    with tempfile.TemporaryDirectory() as room:
        check_by_hand(cases, room)
    bugs = {bug.name: bug for bug in read_bugs()}
    for name in BUGS:
        check_bug(cases, module, bugs[name])
    cases.end()


main()
