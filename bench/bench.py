#!/usr/bin/env python3
"""Time and peak memory of the proved program on traces of fourteen kinds, each at three sizes.

    bench/bench.py [PROGRAM]

PROGRAM is crates/l4map/out/l4map, which build.sh makes, if it is not given. Nothing here has a threshold. Beside each
time stands that of `wc -l` over what the program read and wrote.
"""

import math
import os
import random
import statistics
import subprocess
import sys
import tempfile
import time

TOP = os.path.dirname(os.path.dirname(os.path.abspath(__file__)))
HEADER = "l4map,1,512,24,4096"
SPACES = 512
PAGES = 4096
SIZES = [1_000, 10_000, 100_000]
RUNS = 5
LIMIT = 120  # once the runs on a trace have taken so many seconds, there are no more of them
GNU_TIME = "/usr/bin/time"

FIRST_PAGE = 0x0C7  # the fpage of page 0, all rights
FIRST_PAGES = 0x140  # the fpage of pages 0 to 255, no rights: an unmap of it reads and clears status
FIRST_16_PAGES = 0x107  # the fpages of so many pages from page 0 on, all rights
FIRST_512_PAGES = 0x157
ALL_PAGES = 0x17
COMPLETE = 0x10  # the same, no rights


def send(sender, receiver, page, target):
    """Page `page` of the sender to page `target` of the receiver, with all rights."""
    return f"send,{sender},{receiver},10,{target:x}008,{page:x}0c7"


def send_fpage(sender, receiver, fpage):
    """An fpage of the sender to the same pages of the receiver, by a MapItem."""
    return f"send,{sender},{receiver},10,8,{fpage:x}"


def grant_fpage(sender, receiver, fpage):
    """The same by a GrantItem."""
    return f"send,{sender},{receiver},10,a,{fpage:x}"


def access(space, page, kind, offset=0):
    return f"access,{space},{page:x}{offset:03x},{kind}"


def unmap(space, word):
    """An unmap of one fpage word that takes nothing from the caller's own pages."""
    return f"unmap,{space},0,{word:x}"


def flush(space, page):
    """An unmap of one page of the caller, from the caller too."""
    return f"unmap,{space},40,{page:x}0c7"


def mixed(records):
    """Half sends of one page to a fresh place, half accesses.

    The sends map page after page of space 0 to the same page of space 1, then those of space 1 on to space 2, and so
    forth. An access goes to the page that was mapped last or to any that was mapped before.
    """
    chance, mapped = random.Random(1), []
    for number in range(records):
        if number % 2 == 0:
            sender, page = divmod(number // 2, PAGES)
            yield send(sender, sender + 1, page, page)
            mapped.append((sender + 1, page))
        else:
            space, page = mapped[-1] if chance.random() < 0.5 else chance.choice(mapped)
            yield access(space, page, chance.choice("rwx"), chance.randrange(PAGES))


def chain(records):
    """A page goes from space to space through all of them, and space 0 takes it back from all; again and again."""
    while records > 0:
        length = min(records, SPACES)
        for space in range(length - 1):
            yield send(space, space + 1, 0, 0)
        yield unmap(0, FIRST_PAGE)
        records -= length


def fan(records):
    """One page goes to 2,000 pages of two spaces, and space 0 takes it back from all; again and again."""
    while records > 0:
        length = min(records, 2001)
        for target in range(length - 1):
            yield send(0, 1 + target % 2, 0, target // 2)
        yield unmap(0, FIRST_PAGE)
        records -= length


def pager(records):
    """A pager that ages its clients' pages: it has 256 pages and has passed each on to 2 clients.

    Then it reads and clears the status of all its pages after every 63 accesses of the clients.
    """
    chance = random.Random(2)
    pages, clients = min(256, records // 4), [2, 3]
    made = 0
    for page in range(pages):
        yield send(0, 1, page, page)
        for client in clients:
            yield send(1, client, page, page)
        made += 1 + len(clients)
    for number in range(made, records):
        if number % 64 == 0:
            yield unmap(1, FIRST_PAGES)
        else:
            yield access(chance.choice(clients), chance.randrange(pages), chance.choice("rw"))


def relay(records):
    """All 4,096 pages go from space to space through 16, in one item each, and space 0 takes them back; again and
    again."""
    while records > 0:
        length = min(records, 16)
        for space in range(length - 1):
            yield send_fpage(space, space + 1, ALL_PAGES)
        yield unmap(0, ALL_PAGES)
        records -= length


def grants(records):
    """Two spaces grant 512 pages to and fro, from which a third space has mappings."""
    yield send_fpage(0, 1, FIRST_512_PAGES)
    yield send_fpage(1, 3, FIRST_512_PAGES)
    for number in range(records - 2):
        sender = 1 + number % 2
        yield grant_fpage(sender, 3 - sender, FIRST_512_PAGES)


def spread(records):
    """16 pages go from space 0 to each of the other spaces, and space 0 takes them back from all; again and again."""
    while records > 0:
        length = min(records, SPACES)
        for space in range(1, length):
            yield send_fpage(0, space, FIRST_16_PAGES)
        yield unmap(0, FIRST_16_PAGES)
        records -= length


def accesses(records):
    """Reads and writes of all pages of space 0."""
    chance = random.Random(3)
    for _ in range(records):
        yield access(0, chance.randrange(PAGES), chance.choice("rw"), chance.randrange(PAGES))


def audit(records):
    """All 4,096 pages go from space 0 to one space after another, and stay: each record leaves as many audit lines."""
    for number in range(records):
        yield send_fpage(0, 1 + number, ALL_PAGES)


def aliases(records):
    """One page goes to page after page of space after space, and stays: one tree has all of them."""
    for number in range(records):
        space, page = divmod(number, PAGES)
        yield send(0, 1 + space, 0, page)


def shared(records):
    """One frame at all 4,096 pages of a space, which go on from space to space: one item has them all, again and
    again."""
    yield from aliases(min(records, PAGES))
    for number in range(records - PAGES):
        sender = 1 + number % 8
        yield send_fpage(sender, sender + 1, ALL_PAGES)


def siblings(records):
    """One frame at all 4,096 pages of a space, each from space 0; the space reads and clears their status, again and
    again."""
    yield from aliases(min(records, PAGES))
    for _ in range(records - PAGES):
        yield unmap(1, COMPLETE)


def passed(records):
    """One frame at all 4,096 pages of a space, which two spaces then grant to and fro, all in one item."""
    yield from aliases(min(records, PAGES))
    for number in range(records - PAGES):
        sender = 1 + number % 2
        yield grant_fpage(sender, 3 - sender, ALL_PAGES)


def single(records):
    """One page goes to page after page of space after space; then each of their holders gives its own up, in another
    order.

    No record makes or revokes more than one mapping.
    """
    mappings = [(1 + number // PAGES, number % PAGES) for number in range(records // 2)]
    for space, page in mappings:
        yield send(0, space, 0, page)
    random.Random(4).shuffle(mappings)
    for space, page in mappings:
        yield flush(space, page)


# Each kind with its numbers of records. A record of `relay` and of `audit` is about 4,096 pages, and one of `grants`
# about 512.
KINDS = [
    (mixed, SIZES),
    (chain, SIZES),
    (fan, SIZES),
    (pager, SIZES),
    (relay, [16, 160, 1_600]),
    (grants, [100, 1_000, 10_000]),
    (spread, SIZES),
    (accesses, [10_000, 100_000, 1_000_000]),
    (audit, [5, 25, 250]),
    (aliases, [100, 1_000, 10_000]),
    (shared, [PAGES, PAGES + 8, PAGES + 80]),
    (siblings, [PAGES, PAGES + 8, PAGES + 80]),
    (passed, [PAGES, PAGES + 8, PAGES + 80]),
    (single, [2 * PAGES, 8 * PAGES, 64 * PAGES]),
]


def trace(kind, records):
    """A trace of so many records."""
    return "\n".join([HEADER, *kind(records)]) + "\n"


def seconds_of(program, path, output, records):
    """The time of one run, which must answer every record."""
    with open(path, "rb") as given, open(output, "wb") as written:
        start = time.perf_counter()
        ended = subprocess.run([program], stdin=given, stdout=written, check=False)
        taken = time.perf_counter() - start
    with open(output, "rb") as written:
        last = written.read().splitlines()[-1:]
    if ended.returncode or last != [b"end %d 0" % records]:
        sys.exit(f"bench.py: the run of {records} records ended with status {ended.returncode} and the line {last}")
    return taken


def peak_kilobytes(program, path):
    """The largest resident memory of one run, or None where GNU time is missing."""
    if not os.access(GNU_TIME, os.X_OK):
        return None
    with open(path, "rb") as given:
        words = [GNU_TIME, "-f", "%M", program]
        ran = subprocess.run(words, stdin=given, stdout=subprocess.DEVNULL, stderr=subprocess.PIPE, text=True, check=False)
    return int(ran.stderr.split()[-1])


def seconds_to_count(*paths):
    """The time of `wc -l` over these files."""
    start = time.perf_counter()
    subprocess.run(["wc", "-l", *paths], stdout=subprocess.DEVNULL, check=True)
    return time.perf_counter() - start


def measure(program, kind, records, room):
    """The median time and the peak memory on a trace of so many records, and the median time of `wc -l`."""
    path = os.path.join(room, "trace.csv")
    with open(path, "w", encoding="ascii") as it:
        it.write(trace(kind, records))
    output = os.path.join(room, "output")
    times = []
    while len(times) < RUNS and sum(times) < LIMIT:
        times.append(seconds_of(program, path, output, records))
    counted = statistics.median(seconds_to_count(path, output) for _ in range(RUNS))
    return statistics.median(times), peak_kilobytes(program, path), counted


def main():
    default = os.path.join(TOP, "crates", "l4map", "out", "l4map")
    program = os.path.abspath(sys.argv[1] if len(sys.argv) > 1 else default)
    if not os.access(program, os.X_OK):
        sys.exit(f"bench.py: there is no program {program}: ./build.sh proves it and builds it")
    print(f"median time of {RUNS} runs each, or of fewer once they have taken {LIMIT} seconds; peak memory of one run")
    print(f"{'records':>19} {'seconds':>10} {'records/s':>11} {'peak MiB':>9} {'wc -l':>8}  growth from the size before")
    with tempfile.TemporaryDirectory() as room:
        start = measure(program, mixed, 0, room)
        line("", 0, start, "")
        for kind, sizes in KINDS:
            report(program, kind, sizes, start, room)


def report(program, kind, sizes, start, room):
    """A line for each size."""
    before = None
    for records in sizes:
        measured = measure(program, kind, records, room)
        notes = []
        if before:
            notes.append(f"{records / before[0]:g} times the records in {measured[0] / before[1][0]:.1f} times the time")
        if kind is single:
            notes += beyond_start(start, records, measured, before)
        line(kind.__name__, records, measured, ", ".join(notes))
        before = (records, measured)


def beyond_start(start, records, measured, before):
    """What the mappings of `single` cost beyond a start with no records: how the time grows as a power of their number,
    and the memory of each."""
    if before and start[0] < min(measured[0], before[1][0]):
        grown = math.log((measured[0] - start[0]) / (before[1][0] - start[0])) / math.log(records / before[0])
        yield f"exponent {grown:.2f}"
    yield f"{(measured[0] - start[0]) / records * 1e6:.2f} us a record"
    if measured[1] is not None:
        yield f"{(measured[1] - start[1]) * 1024 / (records // 2):.0f} bytes a mapping"


def line(name, records, measured, notes):
    """What was measured on a trace."""
    taken, peak, counted = measured
    rate = f"{records / taken:,.0f}" if records else "-"
    memory = f"{peak / 1024:.1f}" if peak is not None else "unknown"
    print(f"{name:>8} {records:>10,} {taken:>10.4f} {rate:>11} {memory:>9} {counted:>8.4f}  {notes}".rstrip(), flush=True)


if __name__ == "__main__":
    main()
