#!/usr/bin/env python3
"""Calls of one page ask for no memory of their own, however many there are.

    tests/one_page.py [PROGRAM]

Each kind of records is a round of calls that leaves as much held as there was before it. A trace of many rounds may
make a few more allocations than one of few, since the buffers of its text grow, but none for each round. Allocations
are counted by refusing one, with the preloaded library of support/fail_alloc.c: the first that is refused to no one is
behind the last.
"""

import tempfile

from support.program import Cases, build_library, program_path
from support.refusals import MOST, run_refusing

HEADER = b"l4map,1,3,18,64\n"

# Page 0 of space 0 goes to page 3 of space 1, with the rights that the last digit says; and to page 3 of space 2 from
# there.
TO_ONE = b"send,0,1,10,3008,c%d\n"
TO_TWO = b"send,1,2,10,%s,30c%d\n"
TAKEN_BACK = b"unmap,0,0,c7\n"

# What comes once, and the round.
KINDS = {
    "a page is mapped and unmapped": (b"", TO_ONE % 6 + TAKEN_BACK),
    "a page is mapped and given up": (b"", TO_ONE % 6 + b"unmap,1,40,30c7\n"),
    "a page is mapped on and unmapped": (b"", TO_ONE % 6 + TO_TWO % (b"3008", 6) + TAKEN_BACK),
    "a page is mapped, granted and unmapped": (b"", TO_ONE % 6 + TO_TWO % (b"300a", 6) + TAKEN_BACK),
    "a page loses what was mapped on of it": (b"", TO_ONE % 7 + TO_TWO % (b"3008", 4) + b"unmap,0,0,c4\n" + TAKEN_BACK),
    "a page is mapped again": (TO_ONE % 6, TO_ONE % 6),
    "a page is granted to and fro": (TO_ONE % 6, b"send,1,2,10,300a,30c6\nsend,2,1,10,300a,30c6\n"),
    "status is asked for": (TO_ONE % 6, b"unmap,0,0,c0\n"),
    "a page is accessed": (TO_ONE % 6, b"access,1,3abc,r\n"),
}

FEW, MANY = 100, 1_000

WORKERS = ("1", "4")

# How many more allocations the longer trace may make: its text is ten times as long, and a buffer doubles.
MORE = 12


def allocations(words, library, trace, records):
    """How many allocations a run makes, and what is wrong with how it ends, or an empty text."""
    none_refused, refused = MOST, 0
    ended = run_refusing(words, trace, library, "allocation", none_refused, False)
    if ended.was_refused or ended.got.status or not ended.got.stdout.endswith(b"\nend %d 0\n" % records):
        return none_refused, f"of {records} records: it ended with {ended.got.status} and {ended.got.stdout[-80:]!r}"
    while refused + 1 < none_refused:
        at = (refused + none_refused) // 2
        if run_refusing(words, trace, library, "allocation", at, False).was_refused:
            refused = at
        else:
            none_refused = at
    return refused, ""


def check_kind(words, library, once, again):
    """What is wrong with the allocations of a kind of records, or an empty text."""
    counts = []
    for rounds in (FEW, MANY):
        trace = HEADER + once + again * rounds
        count, why = allocations(words, library, trace, trace.count(b"\n") - 1)
        if why:
            return why
        counts.append(count)
    few, many = counts
    return "" if few <= many <= few + MORE else f"{FEW} rounds make {few} allocations, {MANY} make {many}"


def main():
    program, cases = program_path(), Cases()
    with tempfile.TemporaryDirectory() as room:
        library = build_library("fail_alloc.c", room)
        for workers in WORKERS:
            words = [program, "--workers", workers]
            for name, (once, again) in KINDS.items():
                why = check_kind(words, library, once, again)
                cases.check(f"{name}: no allocation for each call, --workers {workers}", why)
    cases.end()


main()
