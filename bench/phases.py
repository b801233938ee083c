#!/usr/bin/env python3
"""What a phase costs that a crew works, from `open` to `close`, with 1, 2 and 4 workers.

    bench/phases.py [NODES..]

The test `works_a_thousand_nodes_or_as_many_as_are_asked_for` of crates/phase_tests/out/phase_tests_tests, which `rt ci`
leaves, works strips of 1,048,576 nodes, or of as many as are asked for, in pieces of 256, 1,024 and 4,096, each crew
five times in turn. It times only the call of `work` of `crew`, which shares the words, starts the workers, works all
turns and takes the words back. It is run three times, and the medians and the least times are printed:

    1 worker, 2 workers, 4 workers
                  a crew of so many, with a gate that counts the ends of pieces
    1 to 2, 1 to 4
                  how many times faster 2 and 4 workers are than one

and then the nanoseconds of a look of a watcher, at entries that stand 389 apart, one after another:

    alone         of a million looks, while no step is made
    beside four   of the looks that a thread of its own makes while four workers work the phase, from its start until the
                  last piece has ended; after each hundred it asks whether that is so

Nothing here has a threshold.
"""

import collections
import os
import statistics
import subprocess
import sys

HERE = os.path.dirname(os.path.abspath(__file__))
TESTS = os.path.join(os.path.dirname(HERE), "crates", "phase_tests", "out", "phase_tests_tests")
TEST = "times::works_a_thousand_nodes_or_as_many_as_are_asked_for"
NODES = [1_048_576]
RUNS = 3
CREWS = ["1 worker", "2 workers", "4 workers"]
LOOKS = {"looks": "alone", "beside": "beside four"}


def told(nodes):
    """The milliseconds that one run tells, by the length of pieces and the crew, and the nanoseconds of a look."""
    text = subprocess.run([TESTS, TEST, str(nodes)], check=True, stdout=subprocess.PIPE, text=True).stdout
    for words in (line.split() for line in text.splitlines()):
        match words:
            case ["phase", "pieces-of", length, "workers", workers, "ns", nanos]:
                yield (int(length), "1 worker" if workers == "1" else f"{workers} workers"), int(nanos) / 1e6
            case ["phase", "pieces-of", length, "looks" | "beside" as kind, looks, "ns", nanos] if looks != "0":
                yield (int(length), LOOKS[kind]), int(nanos) / int(looks)


def main():
    if not os.access(TESTS, os.X_OK):
        sys.exit(f"phases.py: there is no {TESTS}: `rt test` in crates/phase_tests proves it and builds it")
    for nodes in [int(word) for word in sys.argv[1:]] or NODES:
        tell(nodes)


def tell(nodes):
    """Prints the medians and the least times of some runs."""
    times = collections.defaultdict(list)
    for _ in range(RUNS):
        for key, millis in told(nodes):
            times[key].append(millis)
    print(f"{nodes:,} nodes, ms")
    print()
    print_table(times, CREWS, [("1 to 2", "2 workers"), ("1 to 4", "4 workers")])
    print()
    print(f"{nodes:,} nodes, ns a look")
    print()
    print_table(times, LOOKS.values(), [])


def print_table(times, columns, ratios):
    """Prints a table of some columns, and then how many times faster than one worker some others are."""
    names = [*columns, *(name for name, _ in ratios)]
    print(f"| Nodes a piece | Of {min(map(len, times.values()))} times | {' | '.join(names)} |")
    print("|---|---|" + "---|" * len(names))
    for length in sorted({length for length, _ in times}):
        for name, part in [("median", statistics.median), ("least", min)]:
            cells = [f"{part(times[length, column]):.1f}" for column in columns]
            cells += [f"{part(times[length, '1 worker']) / part(times[length, other]):.2f}" for _, other in ratios]
            print(f"| {length:,} | {name} | {' | '.join(cells)} |")


main()
