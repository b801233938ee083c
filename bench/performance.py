#!/usr/bin/env python3
"""l4map with one worker beside a plain program in Rust, on the same traces, in turn; and how the cost of l4map grows.

    bench/performance.py [--profile] [PROGRAM]
    bench/performance.py --beside OTHER [PROGRAM]

PROGRAM is crates/l4map/out/l4map, which build.sh makes, if it is not given. The other is plain.rs, built here by
`rustc -O`, as is launch.rs, by which both are started. Both must write the same bytes. Printed are tables in Markdown:
processor time (the user's and the system's) of three runs each, and the peak memory. Nothing here has a threshold: the
aims stand beside what was measured.

With --profile it prints instead in which functions of l4map the time of an access and of an unmap goes. That needs
`perf`. With --beside it prints instead what another l4map takes on the traces of the first table, of spaces that both
serve, in turn.
"""

import filecmp
import math
import os
import random
import re
import statistics
import subprocess
import sys
import tempfile
import time
from typing import Iterable, NamedTuple

HERE = os.path.dirname(os.path.abspath(__file__))
sys.path.insert(0, HERE)
from bench import (  # noqa: E402
    ALL_PAGES, FIRST_PAGE, HEADER, PAGES, TOP, accesses, aliases, audit, chain, flush, grants, pager, relay, send, send_fpage, single,
    spread, unmap,
)  # fmt: skip
from workers import ran  # noqa: E402

RUNS = 3
PAIRS = 25
MILLION = 1_000_000
SMALLEST = "l4map,1,2,18,1"
SPARSE = "l4map,1,512,32,64"  # spaces of 1,048,576 pages, of which few are held
DENSE = "l4map,1,2,32,1048576"  # all pages of a space are held
LARGEST = "l4map,1,512,32,1048576"
FEW_PAGES = "l4map,1,3,32,10"
LARGE_PAGES = 1 << 20
ONE_FRAME = "l4map,1,512,24,1"
LAST = 511  # the last space
MANY = 20_000  # calls of a kind, where they are short
SHARE = 50  # milliseconds that calls must take at least to be told apart from the rest of a run
ONE_WORKER = ["--workers", "1"]
FUNCTIONS = 12  # that a profile tells

# What l4map may take beside the text of its trace: bytes a mapping, bytes an access of a run of accesses, and bytes at
# all.
A_MAPPING, AN_ACCESS, BESIDE = 64, 32, 8 << 20
# A mapping that has a shard of 64 words to itself.
A_SPARSE_MAPPING = A_MAPPING + 512
A_ROOT = 32  # a page that a frame has at the start, where there are many
A_CALL = 65_536  # accesses that are one call at most


def sparse(pages):
    """So many pages of 512 large spaces, each from the last one of its frame: mapped and accessed one by one. Then
    items and words name whole spaces, nearly all of whose pages are absent, and the last one revokes all."""
    chance, last = random.Random(7), [(0, frame) for frame in range(64)]
    for number in range(pages):
        sender, page = last[number % 64]
        receiver = (sender + chance.randrange(1, 512)) % 512
        target = chance.randrange(LARGE_PAGES)
        yield f"send,{sender},{receiver},10,{target:x}008,{page:x}0c7"
        yield f"access,{receiver},{target:x}000,w"
        if receiver:
            last[number % 64] = (receiver, target)
    for space in range(0, 512, 32):
        yield f"send,{space},{space + 1},10,8,16"
        yield f"unmap,{space},0,10"
    yield "unmap,0,0,17"


def dense():
    """All pages of a large space are mapped, and revoked."""
    yield "send,0,1,10,8,17"
    yield "unmap,0,0,12"
    yield "unmap,0,0,17"


class Compared(NamedTuple):
    """A trace on which both programs run. The aim is how many times as long as the plain program l4map may take; the
    most mappings that are held at once, and the longest run of accesses that is one call, say how much memory."""

    name: str
    records: Iterable[str]
    aim: float
    mappings: int = PAGES
    accesses_in_a_row: int = 0
    header: str = HEADER
    a_mapping: int = A_MAPPING
    is_shared: bool = False  # some phase is, by the default workers


def compared():
    """The traces of the first table."""
    yield Compared("`accesses`: a million", accesses(MILLION), 2, accesses_in_a_row=A_CALL, is_shared=True)
    yield Compared("`pager`: a million records", pager(MILLION), 3, PAGES + 3 * 256, 63)
    yield Compared("`chain`: a million records", chain(MILLION), 3, PAGES + 511)
    yield Compared("`relay`: 1,600 records of 4,096 pages", relay(1_600), 2.5, 16 * PAGES)
    yield Compared("`grants`: 10,000 records of 512 pages", grants(10_000), 2.5, PAGES + 2 * 512)
    yield Compared("`spread`: 100,000 records of 16 pages", spread(100_000), 2.5, PAGES + 511 * 16)
    yield Compared("`single`: one frame at 131,072 pages more", single(64 * PAGES), 3, PAGES + 32 * PAGES)
    yield Compared("`audit` of 1,028,096 mappings", audit(250), 2, 251 * PAGES)
    yield Compared("a header alone, 512 spaces of 24 bits and 4,096 frames", [], 1.5)
    yield Compared("a header alone, the smallest limits", [], 1.5, 1, header=SMALLEST)
    yield Compared("`sparse`: 10,000 pages of 512 spaces of 32 bits", sparse(10_000), 1, 10_000, 63, SPARSE, A_SPARSE_MAPPING)
    yield Compared("`dense`: 1,048,576 pages mapped and revoked", dense(), 2.5, 2 * LARGE_PAGES, header=DENSE, is_shared=True)
    yield Compared("`all roots`: 1,048,576 frames and no record", [], 2, LARGE_PAGES, header=LARGEST, a_mapping=A_ROOT)


class Ran(NamedTuple):
    """Milliseconds of processor time, milliseconds by the clock, and KiB."""

    processor: float
    clock: float
    peak: int


class Bench:
    """The programs, and a room for traces and outputs."""

    def __init__(self, program, room):
        self.room = room
        self.launch = self.built("launch.rs")
        self.ours = [program, *ONE_WORKER]
        self.plain = [self.built("plain.rs")]
        self.check_floor()

    def path(self, name):
        return os.path.join(self.room, name)

    def built(self, source):
        """The program of a Rust file beside this one."""
        program = self.path(os.path.splitext(source)[0])
        subprocess.run(["rustc", "--edition", "2021", "-O", "-o", program, os.path.join(HERE, source)], check=True)
        return program

    def check_floor(self):
        """A program that does nothing is measured with little memory, so what is measured is the program's own."""
        peak = self.run(["true"], self.trace([])).peak
        if peak > 4096:
            sys.exit(f"performance.py: the program `true` is measured with {peak} KiB")

    def trace(self, records, header=HEADER, name="trace.csv"):
        path = self.path(name)
        with open(path, "w", encoding="ascii") as it:
            it.writelines(record + "\n" for record in (header, *records))
        return path

    def run(self, words, trace, output="output.txt"):
        words = [self.launch, trace, self.path(output), *words]
        told = subprocess.run(words, stdout=subprocess.PIPE, text=True, check=True).stdout
        status, processor, clock, peak = map(int, told.split())
        if status:
            sys.exit(f"performance.py: {words} ended with status {status}")
        return Ran(processor / 1000, clock / 1000, peak)

    def in_turn(self, trace):
        """The runs of both programs on a trace, which must write the same."""
        ours, plain = [], []
        for _ in range(RUNS):
            ours.append(self.run(self.ours, trace, "ours.txt"))
            plain.append(self.run(self.plain, trace, "plain.txt"))
            if not filecmp.cmp(self.path("ours.txt"), self.path("plain.txt"), shallow=False):
                sys.exit(f"performance.py: the programs write different bytes on {trace}")
        return ours, plain

    def least_of_ours(self, records):
        """The least processor time of l4map in a few runs on a trace of one frame, in milliseconds. All is taken back
        at its end, so that there is little to audit."""
        trace = self.trace([*records, unmap(0, FIRST_PAGE)], ONE_FRAME)
        return min(self.run(self.ours, trace).processor for _ in range(RUNS))


def median(runs):
    return statistics.median(run.processor for run in runs)


def least(runs):
    return min(run.processor for run in runs)


def peak(runs):
    return max(run.peak for run in runs)


def progress(text):
    print(f"performance.py: {text}", file=sys.stderr, flush=True)


def row(*cells):
    print("| " + " | ".join(cells) + " |", flush=True)


def head(*cells):
    row(*cells)
    row(*("---" for _ in cells))


def compare(bench):
    """The first table: both programs on each trace."""
    head("Trace", "l4map ms", "plain ms", "times", "aim", "l4map MiB", "at most", "plain MiB")
    for it in compared():
        progress(it.name)
        trace = bench.trace(it.records, it.header)
        ours, plain = bench.in_turn(trace)
        allowed = os.path.getsize(trace) + it.a_mapping * it.mappings + AN_ACCESS * it.accesses_in_a_row + BESIDE
        times = f"{median(ours):,.1f}", f"{median(plain):,.1f}", f"{median(ours) / median(plain):.2f}", f"{it.aim:g}"
        row(it.name, *times, mib(peak(ours)), mib(allowed / 1024), mib(peak(plain)))


def mib(kib):
    return f"{kib / 1024:.1f}"


def fpage_of(pages, first):
    """The fpage of so many pages, all rights."""
    return first * 4096 + 16 * (12 + pages.bit_length() - 1) + 7


def send_pages(receiver, pages, first):
    """So many pages of space 0 to the same pages of the receiver."""
    return f"send,0,{receiver},10,{first:x}008,{fpage_of(pages, first):x}"


def pages_in_words(pages, rounds):
    """All pages go to space 1 and are taken back, in words of so many pages; again and again."""
    for _ in range(rounds):
        for first in range(0, PAGES, pages):
            yield send_pages(1, pages, first)
        for first in range(0, PAGES, pages):
            yield unmap(0, fpage_of(pages, first))


def over_spaces(spaces, rounds):
    """Each page goes to 32 of so many spaces, and all are taken back by one unmap; again and again."""
    pages = 32 * PAGES // spaces
    for _ in range(rounds):
        for number in range(spaces):
            yield send_pages(1 + number, pages, number // 32 * pages)
        yield unmap(0, ALL_PAGES)


def grown():
    """What grows: its name, its size, of how many parts the time is told, and a trace."""
    for records in (125_000, 250_000, 500_000, MILLION):
        yield "records (accesses)", records, records, accesses(records)
    for records in (125_000, 250_000, 500_000, MILLION):
        yield "records (pager)", records, records, pager(records)
    for records in (4 << shift for shift in range(12, 18)):
        yield "mappings of a frame (single)", records // 2, records, single(records)
    for pages in (1, 16, 256, 4096):
        yield "pages of a word", pages, 2 * 32 * PAGES, pages_in_words(pages, 32)
    for spaces in (32, 64, 128, 256):
        yield "spaces", spaces, 2 * 8 * 32 * PAGES, over_spaces(spaces, 8)


def growth(bench):
    """The second table: one line for each size. Times a part are told beyond a start, and an exponent of these is 0
    where a part takes as long as at the size before, and 1 where it takes twice as long at twice the size."""
    head("What grows", "size", "l4map ms", "ns a part", "exponent", "plain ms", "ns a part", "exponent")
    start = [least(runs) for runs in bench.in_turn(bench.trace([]))]
    before = None
    for name, size, parts, records in grown():
        progress(f"{name}, {size:,}")
        taken = [least(runs) for runs in bench.in_turn(bench.trace(records))]
        nanos = [(whole - first) / parts * 1e6 for whole, first in zip(taken, start)]
        cells = []
        for program in range(2):
            exponent = ""
            if before and before[0] == name:
                exponent = exponent_of(before[2][program], nanos[program], size / before[1])
            cells += [f"{taken[program]:,.1f}", f"{nanos[program]:,.1f}", exponent]
        row(name, f"{size:,}", *cells)
        before = (name, size, nanos)


def exponent_of(before, now, times):
    return f"{math.log(now / before) / math.log(times):.2f}" if before > 0 and now > 0 else "-"


def one_frame(spaces):
    """One frame at all pages of so many spaces: the first has it from space 0, and the others from the first."""
    yield from aliases(PAGES)
    for space in range(2, 1 + spaces):
        yield send_fpage(1, space, ALL_PAGES)


def map_and_unmap(space, page):
    """A page goes to the last space, which gives it up."""
    return send(space, LAST, page, page), flush(LAST, page)


def ask_for_status(space, page):
    """The status of a page is asked for twice."""
    return 2 * (unmap(space, 4096 * page + 0xC0),)


def grant(sender, receiver, page):
    return f"send,{sender},{receiver},10,{page:x}00a,{page:x}0c7"


def grant_to_and_fro(space, page):
    return grant(space, LAST, page), grant(LAST, space, page)


def one_page(bench):
    """The third table: calls that are about one page of a frame with few or many mappings, none of which derives from
    that page."""
    head("Call", "mappings of the frame", "l4map us")
    for spaces in (1, 32, 510):
        made = list(one_frame(spaces))
        start = bench.least_of_ours(made)
        for call in (map_and_unmap, ask_for_status, grant_to_and_fro):
            name = call.__name__.replace("_", " ")
            progress(f"{name}, {spaces} spaces")
            taken, calls = time_of_calls(bench, made, start, lambda page: call(spaces, page))
            row(name, f"{1 + spaces * PAGES:,}", f"{taken / calls * 1000:,.1f}")


def time_of_calls(bench, made, start, calls):
    """The milliseconds that some calls take, two for each of some pages, and how many calls these are: so many that
    they take a share of the run."""
    for times in (10, 500, MANY):
        chance = random.Random(5)
        records = [record for _ in range(times) for record in calls(chance.randrange(PAGES))]
        taken = bench.least_of_ours(made + records) - start
        if taken > start / 4 + SHARE:
            break
    return taken, 2 * times


def few_held():
    """Ten pages of a large space, far apart."""
    return [send(0, 1, frame, frame * 104_857) for frame in range(10)]


def held_once():
    """A page at a place of each shard of a large space, taken back from all of them."""
    return [*(send(0, 1, 0, page) for page in range(0, LARGE_PAGES, 64)), unmap(0, 0xC7)]


def thinly_held(count):
    """A page at so many places of 511 large spaces."""
    chance = random.Random(11)
    return [send(0, chance.randrange(1, 512), 0, chance.randrange(LARGE_PAGES)) for _ in range(count)]


def to_first_reply(bench):
    """Seconds from the start of a run with the largest limits to its first reply, the least of some runs."""
    trace, taken = bench.trace(["access,0,0,r"], LARGEST), []
    for _ in range(2 * RUNS):
        begun = time.perf_counter()
        taken.append(ran(bench.ours, trace, 1).came[0] - begun)
    return min(taken)


def large_spaces(bench):
    """The fourth table: what spaces of 2^32 bytes cost of which little is held, and one that is held whole."""

    def taken(header, records):
        runs = [bench.run(bench.ours, bench.trace(records, header)) for _ in range(2 * RUNS)]
        return min(run.processor for run in runs), min(run.peak for run in runs)

    head("In spaces of 1,048,576 pages", "l4map", "at most")
    progress("large spaces")
    (small, small_peak), (large, large_peak) = taken(SMALLEST, []), taken("l4map,1,512,32,1", [])
    row("start of 512 spaces, times that of two spaces of 64 pages", f"{large / small:.2f}", "1.5")
    row("and MiB more", mib(large_peak - small_peak), "1")
    row("start with 1,048,576 frames, to the first reply, by the clock", f"{1e3 * to_first_reply(bench):,.1f} ms", "30 ms")
    start = taken(FEW_PAGES, few_held())[0]
    for name, record in (("31 items", "send,1,2,10" + 31 * ",8,17"), ("64 words", "unmap,1,3f" + 64 * ",10")):
        whole = taken(FEW_PAGES, [*few_held(), *1_000 * [record]])[0]
        row(f"a record of {name}, each a whole space of which 10 pages are held", f"{whole - start:,.1f} us", "50 us")
        made = [*held_once(), *few_held()]
        once = taken(FEW_PAGES, [*made, *1_000 * [record]])[0] - taken(FEW_PAGES, made)[0]
        row("the same, where each of its 16,384 shards held a page before", f"{once:,.1f} us", "50 us")
    audited, audited_peak = taken("l4map,1,512,32,1", thinly_held(1_000))
    row("1,000 mappings over 511 spaces, made and audited", f"{audited - large:,.2f} ms", "2 ms")
    row("bytes a mapping of these", f"{(audited_peak - large_peak) * 1024 / 1_000:,.0f}", "")
    more = taken("l4map,1,512,32,1", thinly_held(4_000))[1] - audited_peak
    row("bytes a mapping of 3,000 more", f"{more * 1024 / 3_000:,.0f}", f"{A_SPARSE_MAPPING:,}")
    for count in (1, 4, 64):
        progress(f"dense, {count} workers")
        words, trace = [bench.ours[0], "--workers", str(count)], bench.trace(dense(), DENSE)
        clock = statistics.median(bench.run(words, trace, f"dense_{count}.txt").clock for _ in range(RUNS))
        if not filecmp.cmp(bench.path("dense_1.txt"), bench.path(f"dense_{count}.txt"), shallow=False):
            sys.exit(f"performance.py: {count} workers write other bytes")
        row(f"`dense` by {count} workers, by the clock", f"{clock:,.1f} ms", "")


def by_default(bench):
    """The fifth table: the traces with phases that four workers, the default, share, beside one worker."""
    head("Trace", "one worker, clock ms", "four workers, clock ms", "times", "processor time, times")
    for it in compared():
        if not it.is_shared:
            continue
        progress(f"{it.name}, four workers")
        trace, one, four = bench.trace(it.records, it.header), [], []
        both = [(one, bench.ours, "one.txt"), (four, bench.ours[:1], "four.txt")]
        in_pairs(bench, trace, both)
        clocks = (f"{statistics.median(run.clock for run in runs):,.1f}" for runs in (one, four))
        row(it.name, *clocks, ratio((run.clock for run in four), (run.clock for run in one)), times(four, one))


def in_pairs(bench, trace, both):
    """Runs of two kinds on a trace, in turn, which must write the same. Each kind is a list for its runs, words and an
    output."""
    (_, _, output), (_, _, other) = both
    for _ in range(PAIRS):
        for runs, words, to in both:
            runs.append(bench.run(words, trace, to))
        both.reverse()
        if not filecmp.cmp(bench.path(output), bench.path(other), shallow=False):
            sys.exit(f"performance.py: {output} and {other} differ on {trace}")


def ratio(numbers, others):
    """The median of the ratios of the numbers of two runs side by side: a machine's speed may change between pairs."""
    return f"{statistics.median(number / other for number, other in zip(numbers, others)):.2f}"


def times(runs, others):
    """How many times the processor time of others runs take."""
    return ratio((run.processor for run in runs), (run.processor for run in others))


def given_up(rounds):
    """All pages go to space 1, which gives up one after another; again and again."""
    for _ in range(rounds):
        yield send_fpage(0, 1, ALL_PAGES)
        yield from (flush(1, page) for page in range(PAGES))


def profile(bench, name, records):
    """The functions in which l4map spends most of its time on a trace, with their shares."""
    samples = bench.path("samples")
    with open(bench.trace(records), "rb") as given:
        words = ["perf", "record", "-q", "-o", samples, *bench.ours]
        subprocess.run(words, stdin=given, stdout=subprocess.DEVNULL, stderr=subprocess.DEVNULL, check=True)
    words = ["perf", "report", "-i", samples, "--stdio", "-F", "overhead,sym"]
    told = subprocess.run(words, stdout=subprocess.PIPE, stderr=subprocess.DEVNULL, text=True, check=True).stdout
    head(name, "share")
    for share, symbol in re.findall(r"^ *([\d.]+%) +\[[.k]\] +(\S.*?) *$", told, re.MULTILINE)[:FUNCTIONS]:
        row(f"`{symbol}`", share)
    print()


def profiles(bench):
    profile(bench, "Accesses", accesses(MILLION))
    profile(bench, "Unmaps of one page", given_up(64))


def beside(bench, other):
    """Two programs l4map on each trace of spaces of 24 bits or fewer, in turn."""
    head("Trace", "other ms", "least", "ms", "least", "times", "other MiB", "MiB")
    for it in compared():
        if it.header in (SPARSE, DENSE, LARGEST):
            continue
        progress(it.name)
        trace, theirs, ours = bench.trace(it.records, it.header), [], []
        in_pairs(bench, trace, [(theirs, [other, *ONE_WORKER], "theirs.txt"), (ours, bench.ours, "ours.txt")])
        numbers = (f"{number:,.1f}" for runs in (theirs, ours) for number in (median(runs), least(runs)))
        row(it.name, *numbers, times(ours, theirs), mib(peak(theirs)), mib(peak(ours)))


def version_of_rustc():
    return subprocess.run(["rustc", "--version"], stdout=subprocess.PIPE, text=True, check=True).stdout.strip()


def main():
    words = sys.argv[1:]
    is_profile, is_beside = words[:1] == ["--profile"], words[:1] == ["--beside"]
    if is_beside and len(words) < 2:
        sys.exit("performance.py: --beside wants another program")
    other = words[1] if is_beside else ""
    default = os.path.join(TOP, "crates", "l4map", "out", "l4map")
    program = os.path.abspath((words[is_profile + 2 * is_beside :] or [default])[0])
    if not os.access(program, os.X_OK):
        sys.exit(f"performance.py: there is no program {program}: ./build.sh proves it and builds it")
    with tempfile.TemporaryDirectory() as room:
        bench = Bench(program, room)
        if is_profile:
            profiles(bench)
            return
        if is_beside:
            beside(bench, os.path.abspath(other))
            return
        print(f"medians of {RUNS} runs; {version_of_rustc()}; {os.cpu_count()} processors\n")
        for table in (compare, growth, one_page, large_spaces, by_default):
            table(bench)
            print()


if __name__ == "__main__":
    main()
