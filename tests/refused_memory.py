#!/usr/bin/env python3
"""The program out of memory: each allocation of short runs is refused, alone and with all after it; so is each start of
a thread.

    tests/refused_memory.py [PROGRAM]

A run in which something was refused must end as the undisturbed one, or with status 3 and `NoMemory` or `NoWorker` at
some record, having written exactly the reply lines of the records before it: no line of the audit where memory is
refused to it. Where a thread is refused to the audit, to the plan of a call, or to the change of its trees, that is
made with fewer; where it is refused to the work of a call, that is `NoWorker`. No run may hang. Of each trace some
run must end before its first record, some at one of its records, and some at the audit. Allocations and starts of
threads are refused by the preloaded library of support/fail_alloc.c.
"""

import os
import tempfile
from concurrent.futures import ThreadPoolExecutor
from typing import NamedTuple

from support.program import TOP, Cases, Ended, build_library, program_path, run
from support.refusals import EXTENTS, fault_of_refused, record_told, runs_refusing

# By how many workers a trace of small phases is worked, each in pieces of one. Fewer than 256 pieces have one worker,
# so that these start no threads for a call.
WORKERS = [["--workers", str(workers), "--piece", "1"] for workers in (1, 4, 64)]

# Traces of replays/ whose phases are small, with their answers beside them.
SMALL = [
    "unmaps/after-a-write",
    "unmaps/narrows-a-nested-mapping",
    "unmaps/two-branches-add-to-one-origin",
    "single-pages/mapped-accessed-unmapped-and-refused",
    "grants/fewer-rights-narrow-what-derives",
    "grants/two-pages-of-one-chain",
    "phases/map-whose-flush-removes-a-source",
    "large-spaces/last-page-of-the-largest-space",
    "clears/space-in-a-chain",
    "clears/nested-mapping-of-the-space",
]

# Those of whole fpages, whose phases are in many pieces, but in too few for several workers to share them.
LARGE = [
    "unmaps/16-pages-of-one-frame",
    "unmaps/complete-space-twice",
    "windows/complete-space-granted-to-and-fro",
    "windows/complete-space-granted-and-mapped-on",
]

# How many pages the largest traces map, which have no file. Several workers share their phases.
PAGES = 512

# How many lines an audit has at least that several threads make.
LINES = 4096

# All traces with a file, each with the options by which it runs. Its calls start no threads.
RUNS = [
    *((trace, []) for trace in SMALL),
    *((trace, options) for trace in SMALL for options in WORKERS),
    *((trace, ["--plain"]) for trace in SMALL),
    *((trace, options) for trace in LARGE for options in WORKERS),
]


# How many rounds of refusals a trace may take whose calls start threads.
ROUNDS = 4


class Replay(NamedTuple):
    """A trace with its options, the lines of its whole answer, and whether its calls start threads."""

    name: str
    options: list
    trace: bytes
    lines: list
    starts_threads: bool


def read_replay(trace, options):
    path = os.path.join(TOP, "tests", "replays", trace)
    with open(path + ".csv", "rb") as records, open(path + ".txt", "rb") as answer:
        return Replay(" ".join([trace, *options]), options, records.read(), answer.readlines(), False)


def largest_replay(options):
    """The trace of calls that start threads, and its answer by the definitions: pages are mapped, lose a right, and are
    granted."""
    records = [f"l4map,1,3,21,{PAGES}", "send,0,1,10,8,17", "unmap,0,0,12", "send,1,2,10,a,17"]
    sent = f"send absent=0 norights=0 origin=0 lost=0 extended=0 linked={PAGES}"
    lines = [f"1 {sent}", "2 unmap 00000010", f"3 {sent}"]
    lines += [f"0,{page},{page},rwx,---,-" for page in range(PAGES)]
    lines += [f"2,{page},{page},r-x,---,0:{page}" for page in range(PAGES)]
    trace, answer = (("\n".join(it) + "\n").encode() for it in (records, [*lines, "end 3 0"]))
    return Replay(" ".join(["the largest trace", *options]), options, trace, answer.splitlines(keepends=True), True)


def cleared_replay(options):
    """The trace of a clear that starts threads, and its answer by the definitions: pages are mapped to a space, one of
    them is written to, and the space is deleted."""
    records = [f"l4map,2,3,21,{PAGES}", "send,0,1,10,8,17", "access,1,0,w", "clear,1"]
    lines = [f"1 send absent=0 norights=0 origin=0 lost=0 extended=0 linked={PAGES}", "2 access ok", "3 clear 00000016"]
    lines += [f"0,{page},{page},rwx,{'---' if page else 'RW-'},-" for page in range(PAGES)]
    trace, answer = (("\n".join(it) + "\n").encode() for it in (records, [*lines, "end 3 0"]))
    return Replay(" ".join(["a large clear", *options]), options, trace, answer.splitlines(keepends=True), True)


def audit_replay():
    """The trace of an audit of several parts, each of which several threads make, and its answer by the definitions:
    all pages of a space are mapped to each of the others."""
    pages = 64
    spaces = LINES // pages
    records = [f"l4map,1,{spaces},18,{pages}", *(f"send,0,{space},10,8,17" for space in range(1, spaces))]
    sent = f"send absent=0 norights=0 origin=0 lost=0 extended=0 linked={pages}"
    lines = [f"{number} {sent}" for number in range(1, spaces)]
    lines += [f"0,{page},{page},rwx,---,-" for page in range(pages)]
    lines += [f"{space},{page},{page},rwx,---,0:{page}" for space in range(1, spaces) for page in range(pages)]
    trace, answer = (("\n".join(it) + "\n").encode() for it in (records, [*lines, f"end {spaces - 1} 0"]))
    return Replay("a long audit", [], trace, answer.splitlines(keepends=True), False)


def audit_starts_threads(replay):
    """Whether threads make the audit: the lines of each space are made beside those of others, if there are enough."""
    records = int(replay.lines[-1].split()[1])
    audit = replay.lines[records:-1]
    return len(audit) >= LINES and len({line.split(b",")[0] for line in audit}) > 1


def wanting(replay, what, runs):
    """What the runs of a trace must come to between them and did not, or an empty text."""
    if runs[-1].was_refused:
        return f"there are more than {len(runs)}"
    told = {record_told(what, it.got) for it in runs} - {None}
    last = int(replay.lines[-1].split()[1])
    at_record = any(1 <= record <= last for record in told)
    if what == "allocation":
        return "" if 0 in told and at_record and last + 1 in told else f"runs ended at the records {sorted(told)} alone"
    if at_record != replay.starts_threads:
        return f"a call was refused a thread: {at_record}"
    starts = replay.starts_threads or audit_starts_threads(replay)
    return "" if runs[0].was_refused == starts else f"a thread was refused: {runs[0].was_refused}"


def check_refusing(program, library, replay, what, and_rest, extent):
    """The cases of all runs of a trace in which allocations, or threads, are refused in turn."""
    words, runs = [program, *replay.options], []
    # Several workers ask for more in one run than in another, so that a run may miss what is asked for last.
    for _ in range(ROUNDS if replay.starts_threads else 1):
        runs += runs_refusing(words, replay.trace, library, what, and_rest)
        if not wanting(replay, what, runs):
            break
    found = [(f"{replay.name}: {what} {it.at} {extent} is refused", fault_of_refused(what, replay.lines, it.got)) for it in runs]
    return found + [(f"{replay.name}: {what}s, {extent}, are refused in turn", wanting(replay, what, runs))]


def main():
    program, cases = program_path(), Cases()
    replays = [read_replay(*row) for row in RUNS] + [audit_replay()]
    replays += [make(options) for make in (largest_replay, cleared_replay) for options in WORKERS[1:]]
    for replay in replays:
        undisturbed = Ended(0, b"".join(replay.lines), b"")
        # This is what catches a body that always answers that it is out of memory, which meets every contract.
        cases.compare(f"{replay.name}: nothing is refused (always-no-memory)", undisturbed, run([program, *replay.options], replay.trace))
    with tempfile.TemporaryDirectory() as room, ThreadPoolExecutor(max_workers=os.cpu_count()) as pool:
        library = build_library("fail_alloc.c", room)
        tasks = [
            pool.submit(check_refusing, program, library, replay, what, and_rest, extent)
            for replay in replays
            for what in ("allocation", "thread")
            for and_rest, extent in EXTENTS
        ]
        for task in tasks:
            for name, why in task.result():
                cases.check(name, why)
    cases.end()


main()
