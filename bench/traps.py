#!/usr/bin/env python3
"""Traces that look for what makes a call of a tree cost more than it touches: l4map beside a plain program, by size.

    bench/traps.py [--only NAME] [PROGRAM]

PROGRAM is crates/l4map/out/l4map, which build.sh makes, if it is not given; the other is plain.rs. Both run with one
worker, if the trap does not say otherwise, in turn, and must write the same bytes. Each trap has four sizes. First the
mappings are made that it needs, then come its calls. Short calls take what they take beyond a run that only makes the
mappings, in processor time; long ones write to a terminal, and take from the reply before them to their own, by the
clock. Each is the least of RUNS runs, for each record. One table in Markdown is printed, and behind it what pieces of
one node take. An exponent is that of the time of a record from the smallest size to the largest: 0 where a record takes
as long, and 1 where it takes twice as long at twice the size. A trap ends where a run takes longer than LIMIT seconds.
Nothing here has a threshold.
"""

import math
import os
import random
import sys
import tempfile
from typing import Callable, NamedTuple

HERE = os.path.dirname(os.path.abspath(__file__))
sys.path.insert(0, HERE)
from bench import ALL_PAGES, PAGES, TOP, flush, send, send_fpage, unmap  # noqa: E402
from performance import ONE_FRAME, ONE_WORKER, Bench, head, least, one_frame, peak, progress, row  # noqa: E402
from workers import ran  # noqa: E402

RUNS = 5
SHARE = 20  # calls that take less than one such part of a run are not told from the rest of it
LIMIT = 60  # seconds of a run of l4map, beyond which a trap has no larger size
SPACES = 511  # beside space 0
LAST = 511  # the last space
MASK = (1 << 64) - 1
FREE = 470  # a space that `one_frame` leaves without mappings
ITEMS = 31  # of a send at most
RIGHT = 4  # the right to read


class Grown:
    """A frame whose page 0:0 is passed on place by place; no place gets a page twice."""

    def __init__(self):
        self.number = 0

    def child(self, of):
        """A record that maps a place to the next free one, and that one. They are in different spaces."""
        place = self.next()
        if place[0] == of[0]:
            place = self.next()
        return send(of[0], place[0], of[1], place[1]), place

    def next(self):
        page, space = divmod(self.number, SPACES)
        self.number += 1
        return 1 + space, page


ROOT = (0, 0)


def long_list(tree, mappings):
    """So many mappings of the root, and their records. The one made first is the last of the list."""
    made = [tree.child(ROOT) for _ in range(mappings)]
    return [record for record, _ in made], [place for _, place in made]


def fan_behind(size):
    """A mapping with one sibling behind it stands near the end of a block, and goes to one place after another."""
    tree = Grown()
    records, places = long_list(tree, 600)
    padded = places[342 - 1]
    records += [tree.child(padded)[0] for _ in range(8)]
    return records, [tree.child(places[274 - 1])[0] for _ in range(size)]


def comb(size):
    """A mapping at the front of a block gets two below it, and then the first of these does."""
    tree = Grown()
    records, places = long_list(tree, 1_000)
    at, calls = places[500], []
    for _ in range(size // 2):
        record, first = tree.child(at)
        calls += [record, tree.child(at)[0]]
        at = first
    return records, calls


def walk(size):
    """A mapping in the middle of the list is passed on: each new one derives from the one before, up to 64 deep."""
    tree = Grown()
    records, places = long_list(tree, 1_000)
    top, calls = places[500], []
    at = top
    for number in range(size):
        record, at = tree.child(top if number % 64 == 0 else at)
        calls.append(record)
    return records, calls


def end_again(size):
    """Two come behind the last of the list, and go again, 64 times; as often as a block has nodes, one stays."""
    tree = Grown()
    records, places = long_list(tree, size)
    last, calls = places[0], []
    for _ in range(130):
        for _ in range(64):
            record, first = tree.child(last)
            calls += [record, tree.child(first)[0], flush(*first)]
        record, last = tree.child(last)
        calls.append(record)
    return records, calls


def thinned(size):
    """Two of each three mappings of a long list go, one after another."""
    records, places = long_list(Grown(), size)
    return records, [flush(*place) for number, place in enumerate(places) if number % 3]


def thinned_at_once(size):
    """Two of each three spaces give up all that they have of a long list, each by one call."""
    records, _ = long_list(Grown(), size)
    return records, [f"unmap,{space},40,{ALL_PAGES:x}" for space in range(1, 1 + SPACES) if space % 3]


def crowded(size):
    """Places whose numbers stand close together where a multiplication spreads them over a table; each is extended."""
    slots = 16
    while slots < size + size // 2:
        slots *= 2

    def slot(place):
        return ((place[0] << 20 ^ place[1]) * 0x9E3779B97F4A7C15 & MASK) >> 32 & slots - 1

    places = sorted(((space, page) for space in range(1, 1 + SPACES) for page in range(PAGES)), key=slot)[:size]
    calls = [send(0, space, 0, page) for space, page in places]
    return [], calls + calls


def granted(spaces):
    """Two spaces grant 62 pages of a frame to and fro, two by an item. The frame is at all pages of so many spaces."""

    def record(sender, receiver):
        items = (f",{page:x}00a,{page:x}0d7" for page in range(0, 2 * ITEMS, 2))
        return f"send,{sender},{receiver},10" + "".join(items)

    return list(one_frame(spaces)), 200 * [record(1, LAST), record(LAST, 1)]


def mapped_whole(spaces):
    """A space with a frame at all its pages passes them on to so many spaces, each time in one item."""
    return list(one_frame(1)), [send_fpage(1, space, ALL_PAGES) for space in range(2, 2 + spaces)]


def partly_pruned(spaces):
    """A page with 600 mappings and more below it loses a right: one mapping goes, the others stay. The frame is at all
    pages of so many spaces."""
    records = [*one_frame(spaces), *(send(1, FREE, 0, page) for page in range(600))]
    return records, 500 * [f"send,1,{LAST},10,8,{0xC0 | RIGHT:x}", unmap(1, 0xC0 | RIGHT)]


def chain_grows(size):
    """A page goes through all spaces, is taken back from some of them, its status is read at the top, and it goes on."""
    chance, calls, reached = random.Random(13), [], 0
    while len(calls) < size:
        while reached < SPACES:
            calls.append(send(reached, reached + 1, 0, 0))
            reached += 1
        reached = chance.randrange(1, SPACES)
        calls += [unmap(reached, 0xC7), unmap(0, 0xC0)]
    return [], calls[:size]


def chains(size):
    """Chains of 64 below the root."""
    tree, records, at = Grown(), [], ROOT
    for number in range(size):
        record, at = tree.child(ROOT if number % 64 == 0 else at)
        records.append(record)
    return records


def random_tree(size):
    """Each mapping derives from any that there is. The audit at the end looks for the origin of each."""
    tree, chance, places, calls = Grown(), random.Random(17), [ROOT], []
    for _ in range(size):
        record, place = tree.child(chance.choice(places))
        calls.append(record)
        places.append(place)
    return [], calls


def chains_grow(size):
    return [], chains(size)


def chains_go(size):
    return chains(size), [unmap(0, 0xC7)]


class Trap(NamedTuple):
    """What is asked for by a size, the sizes, how many mappings of the frame one of a size is, whether calls are long,
    and arguments of l4map."""

    name: str
    trace: Callable
    sizes: list[int]
    scale: int = 1
    has_long_calls: bool = False
    arguments: list[str] = ONE_WORKER


BLOCKED = [8_000, 16_000, 32_000, 64_000]
WIDE = [58, 116, 232, 464]
LONG = [125_000, 250_000, 500_000, 1_000_000]
TRAPS = [
    Trap("fan behind a full block", fan_behind, BLOCKED),
    Trap("comb at the front of a block", comb, BLOCKED),
    Trap("walk in the middle of a list", walk, BLOCKED),
    Trap("end of a list, again and again", end_again, [16_000, 32_000, 64_000, 128_000]),
    Trap("two of three siblings go", thinned, [64_000, 128_000, 256_000, 512_000]),
    Trap("two of three spaces give all up", thinned_at_once, BLOCKED, 1, True),
    Trap("crowded places", crowded, [40_000, 80_000, 160_000, 320_000]),
    Trap("pages of one frame mapped at once", mapped_whole, WIDE, PAGES, True),
    Trap("pages of one frame granted at once", granted, WIDE, PAGES, True),
    Trap("partial prune of 600", partly_pruned, WIDE, PAGES, True),
    Trap("chain that is cut and grows", chain_grows, [25_000, 50_000, 100_000, 200_000]),
    Trap("chains of 64", chains_grow, LONG),
    Trap("each from any, and the audit", random_tree, LONG),
    Trap("chains revoked by recursion", chains_go, BLOCKED, 1, True, ["--plain"]),
    Trap("chains revoked in pieces of one", chains_go, LONG, 1, True, ["--workers", "64", "--piece", "1"]),
]


class Measured(NamedTuple):
    """Microseconds a record, if they can be told from the rest of the run; MiB; and seconds of processor time of it."""

    micros: float | None
    peak: float
    seconds: float


def beyond(bench, programs, made, calls):
    """What the calls take by each program beyond a run that only makes the mappings."""
    start = bench.trace(made, ONE_FRAME, "made.csv")
    whole = bench.trace([*made, *calls], ONE_FRAME)
    runs = [([], []) for _ in programs]
    for _ in range(RUNS):
        for words, (started, done) in zip(programs, runs):
            if sum(run.processor for run in done) < LIMIT * 1000:
                started.append(bench.run(words, start))
                done.append(bench.run(words, whole))
    for started, done in runs:
        run = least(done)
        taken = run - least(started)
        micros = taken / len(calls) * 1000 if taken > run / SHARE else None
        yield Measured(micros, peak(done) / 1024, run / 1000)


def by_replies(bench, programs, made, calls):
    """What the calls take by each program from the last reply before them to the last of theirs."""
    trace = bench.trace([*made, *calls], ONE_FRAME)
    taken = [[] for _ in programs]
    for _ in range(RUNS):
        for words, of_program in zip(programs, taken):
            came = ran(words, trace, len(made) + len(calls)).came
            of_program.append(came[-1] - came[len(made) - 1])
    for words, of_program in zip(programs, taken):
        whole = bench.run(words, trace)
        # Replies that are read at once have nothing between them.
        yield Measured(min(of_program) / len(calls) * 1e6 or None, whole.peak / 1024, whole.processor / 1000)


def check_same(bench, ours, made, calls):
    """Both programs write the same bytes."""
    trace, written = bench.trace([*made, *calls], ONE_FRAME), []
    for words, name in (ours, "ours.txt"), (bench.plain, "plain.txt"):
        bench.run(words, trace, name)
        with open(bench.path(name), "rb") as output:
            written.append(output.read())
    if written[0] != written[1]:
        sys.exit("traps.py: the programs write different bytes")


def exponent(sizes, results):
    """Of the time of a record, from the first size to the last."""
    if len(results) < 2 or results[0].micros is None or results[-1].micros is None:
        return "-"
    return f"{math.log(results[-1].micros / results[0].micros) / math.log(sizes[len(results) - 1] / sizes[0]):.2f}"


def shown(micros):
    """Microseconds, or a dash where they are lost in the rest of a run."""
    return "-" if micros is None else f"{micros:,.2f}"


def times(ours, plain):
    return "-" if ours is None or plain is None else f"{ours / plain:,.1f}"


def report(bench, trap):
    """A line for each size; the exponents stand in the last."""
    ours, plain, words = [], [], [*bench.ours[:1], *trap.arguments]
    for number, size in enumerate(trap.sizes):
        progress(f"{trap.name}, {size:,}")
        made, calls = trap.trace(size)
        if number == 0:
            check_same(bench, words, made, calls)
        measured = by_replies if trap.has_long_calls else beyond
        of_ours, of_plain = measured(bench, [words, bench.plain], made, calls)
        ours.append(of_ours)
        plain.append(of_plain)
        is_last = size == trap.sizes[-1] or ours[-1].seconds > LIMIT
        exponents = (exponent(trap.sizes, ours), exponent(trap.sizes, plain)) if is_last else ("", "")
        row(
            trap.name, f"{size * trap.scale:,}", shown(ours[-1].micros), shown(plain[-1].micros),
            times(ours[-1].micros, plain[-1].micros), *exponents, f"{ours[-1].peak:,.1f}", f"{plain[-1].peak:,.1f}",
        )  # fmt: skip
        if is_last:
            return


def tell_pieces(bench):
    """What pieces of one node take beyond what one worker takes in place, at the largest size."""
    made, calls = chains_go(LONG[-1])
    trace = bench.trace([*made, *calls], ONE_FRAME)
    for workers in 4, 64:
        one, many = (
            max(bench.run([*bench.ours[:1], *arguments], trace).peak for _ in range(RUNS))
            for arguments in (ONE_WORKER, ["--workers", str(workers), "--piece", "1"])
        )
        print(f"\nPieces of one take {1024 * (many - one) / LONG[-1]:.0f} bytes a mapping more by {workers} workers.")


def main():
    words = sys.argv[1:]
    only = words[1] if words[:1] == ["--only"] else ""
    default = os.path.join(TOP, "crates", "l4map", "out", "l4map")
    program = os.path.abspath((words[2 * bool(only) :] or [default])[0])
    if not os.access(program, os.X_OK):
        sys.exit(f"traps.py: there is no program {program}: ./build.sh proves it and builds it")
    with tempfile.TemporaryDirectory() as room:
        bench = Bench(program, room)
        head(
            "Trap", "size", "l4map us a record", "plain us", "times", "exponent", "plain's", "l4map MiB", "plain MiB",
        )  # fmt: skip
        for trap in TRAPS:
            if only in trap.name:
                report(bench, trap)
        if not only:
            tell_pieces(bench)


if __name__ == "__main__":
    main()
