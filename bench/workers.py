#!/usr/bin/env python3
"""Where several workers begin to win: calls of several kinds, by their size and by the number of workers.

    bench/workers.py [PROGRAM]

PROGRAM is crates/l4map/out/l4map, which build.sh makes, if it is not given. It writes to a terminal, so that each reply
comes at once, and a call takes from the reply before it to its own. Printed is a table in Markdown: milliseconds of a
call by 1, 2, 4 and 64 workers, in turn. Each is the median of the calls of three runs, without the first call of each.
One worker works in place. A size is a number of full pieces, of 256 mappings each. Phases that fill fewer than the
program's constant are worked in place, and so are those of runs so short that they make more than four times as many
pieces. The kinds:

    status      an unmap that takes nothing but the status of so many mappings, the 256 of some frames
    revoke      one that takes a right from so many
    flush       one that takes all of so many, from the caller too
    sparse      the status of mappings of 1,024 frames, each in a shard of its own
    map         so many pages, each of a frame of its own, are mapped
    grant       as many such pages are granted
    accesses    so many in a row, with the reading of their records

Behind it stand processor time and memory of the largest status, and what more cores would give: a reckoning, not a
measurement. Nothing here has a threshold.
"""

import os
import pty
import random
import signal
import statistics
import subprocess
import sys
import tempfile
import time
import tty
from typing import NamedTuple

sys.path.insert(0, os.path.dirname(os.path.abspath(__file__)))
from bench import ALL_PAGES, COMPLETE, HEADER, PAGES, TOP, send_fpage, unmap  # noqa: E402

PIECE = 256
SIZES = [16, 256, 512, 1_024, 2_048, 4_096]  # full pieces
WORKERS = [1, 2, 4, 64]
MORE_CORES = [16, 64]
RUNS = 3
CALLS = 7  # of a run, the first of which is not counted, since its memory is new to the program
SPACES = 255  # that have pages of space 0, so that its page and theirs are a full piece
SPARSE_FRAMES = 1_024
SPACES_AT_MOST = 512
MOST = 1 << 20  # pages of a large space
SHARD = 64  # pages
MOST_ACCESSES = 65_536  # that are one call


class Kind(NamedTuple):
    """Calls of one kind and size: a header, what comes first, and for each call what comes before it, and its records."""

    header: str
    first: list[str]
    calls: list[tuple[list[str], list[str]]]


def large(frames):
    return f"l4map,1,512,32,{frames}"


def fpage(pages, rights=7):
    """The fpage of so many pages, a power of two, from page 0 on."""
    return (pages.bit_length() + 11) << 4 | rights


def spread(frames):
    """Space 1 has so many pages of space 0, and passes each on to all others."""
    yield send_fpage(0, 1, fpage(frames))
    for number in range(2, 1 + SPACES):
        yield send_fpage(1, number, fpage(frames))


def status(size):
    return Kind(HEADER, list(spread(size)), CALLS * [([], [unmap(0, fpage(size, 0))])])


def revoke(size):
    mapped = list(spread(size))
    return Kind(HEADER, [], [(mapped if k % 2 == 0 else [], [unmap(0, fpage(size, 2 - k % 2))]) for k in range(CALLS)])


def flush(size):
    return Kind(HEADER, [], CALLS * [(list(spread(size)), [f"unmap,1,40,{fpage(size):x}"])])


def sparse(size):
    spaces = size * PIECE // SPARSE_FRAMES
    if spaces >= SPACES_AT_MOST:
        return None
    chance, made = random.Random(5), []
    for space in range(1, 1 + spaces):
        for frame, shard in enumerate(chance.sample(range(MOST // SHARD), SPARSE_FRAMES)):
            made.append(f"send,0,{space},10,{shard * SHARD:x}008,{frame:x}0c7")
    return Kind(large(SPARSE_FRAMES), made, CALLS * [([], [unmap(0, COMPLETE)])])


def map_pages(size):
    pages = size * PIECE
    return Kind(large(pages), [], CALLS * [([unmap(0, ALL_PAGES)], [send_fpage(0, 1, fpage(pages))])])


def grant(size):
    pages = size * PIECE
    return Kind(large(pages), [], [([], [f"send,{k % 2},{1 - k % 2},10,a,{fpage(pages):x}"]) for k in range(CALLS)])


def accesses(size):
    if size * PIECE > MOST_ACCESSES:
        return None
    chance = random.Random(6)
    made = [f"access,0,{chance.randrange(PAGES):x}000,w" for _ in range(size * PIECE)]
    # A refused record ends a run of accesses.
    return Kind(HEADER, [], CALLS * [(["access,512,0,r"], made)])


KINDS = {
    "status": status,
    "revoke": revoke,
    "flush": flush,
    "sparse": sparse,
    "map": map_pages,
    "grant": grant,
    "accesses": accesses,
}


def written(kind):
    """A trace of the calls, and where the first reply of each stands among its replies."""
    records, places = [*kind.first], []
    for before, call in kind.calls:
        places.append(len(records) + len(before))
        records += [*before, *call]
    with tempfile.NamedTemporaryFile("w", suffix=".csv", delete=False) as trace:
        trace.writelines(line + "\n" for line in [kind.header, *records])
    return trace.name, places


class Ran(NamedTuple):
    """When each reply of a run came, in seconds; its processor time in milliseconds, and its peak memory in bytes."""

    came: list[float]
    processor: float
    peak: int


def ran(words, trace, count):
    """A run of a program, ended when so many replies have come, so that there is no audit."""
    near, far = pty.openpty()
    tty.setraw(far)
    with open(trace, "rb") as source:
        process = subprocess.Popen(words, stdin=source, stdout=far, stderr=subprocess.DEVNULL)
    os.close(far)
    came = []
    while len(came) < count:
        lines = os.read(near, 65_536).count(b"\n")
        came += lines * [time.perf_counter()]
    os.kill(process.pid, signal.SIGKILL)
    _, process.returncode, used = os.wait4(process.pid, 0)
    os.close(near)
    return Ran(came, 1e3 * (used.ru_utime + used.ru_stime), 1_024 * used.ru_maxrss)


def runs_of(program, kind):
    """Runs of a kind by each number of workers, in turn, and where the first reply of each call stands."""
    trace, places = written(kind)
    try:
        runs = {workers: [] for workers in WORKERS}
        for _ in range(RUNS):
            for workers, done in runs.items():
                done.append(ran([program, "--workers", str(workers)], trace, 1 + max(places)))
        return runs, places
    finally:
        os.remove(trace)


def median_of_a_call(runs, places):
    """Milliseconds of a call of some runs: the median of all but the first of each."""
    return statistics.median(1e3 * (run.came[place] - run.came[place - 1]) for run in runs for place in places[1:])


def median_of(runs, what):
    return statistics.median(getattr(run, what) for run in runs)


def tell_of_four(runs, places, mappings):
    """What four workers take beyond what one does, and what more cores would give, if a part of a call stays with one of
    them and the others share the rest."""
    by_one, by_two, by_four = (median_of_a_call(runs[workers], places) for workers in (1, 2, 4))
    processor = by_one + (median_of(runs[4], "processor") - median_of(runs[1], "processor")) / CALLS
    memory = (median_of(runs[4], "peak") - median_of(runs[1], "peak")) / mappings
    shared = 4 * (by_two - by_four)
    alone = by_four - shared / 4
    print(f"\nOf the largest status: {processor:.1f} ms of processor time by 4 workers, and {memory:.0f} bytes a mapping")
    print(f"beyond what one takes. Reckoned from 2 and 4: {alone:.1f} ms are one worker's and {shared:.1f} shared, so that")
    print(", ".join(f"{cores} cores would take {alone + shared / cores:.1f} ms" for cores in MORE_CORES) + ".")


def main():
    program = (sys.argv[1:] or [os.path.join(TOP, "crates", "l4map", "out", "l4map")])[0]
    print("| Call | " + " | ".join(f"{size:,}" for size in SIZES) + " |")
    print("|---|" + len(SIZES) * "---|")
    largest = None
    for name, make in KINDS.items():
        cells = []
        for size in SIZES:
            kind = make(size)
            if not kind:
                cells.append("-")
                continue
            runs, places = runs_of(program, kind)
            cells.append(", ".join(f"{median_of_a_call(done, places):.2f}" for done in runs.values()))
            if make is status:
                largest = runs, places, size * PIECE
        print(f"| {name} | " + " | ".join(cells) + " |", flush=True)
    tell_of_four(*largest)


if __name__ == "__main__":
    main()
