#!/usr/bin/env python3
"""A million `set` and a million `get` over 512 spaces: the shards of `space` beside a plain vector in Rust.

    bench/shards.py

The first is the test `keeps_a_million_entries_over_512_spaces` of crates/page_tests/out/page_tests_tests, which `rt ci`
leaves; the second is shards.rs, built here by `rustc -O`. The first makes shards as it comes to them, the second a
vector of 2,097,152 words first. Nothing here has a threshold.
"""

import os
import statistics
import subprocess
import sys
import tempfile
import time

HERE = os.path.dirname(os.path.abspath(__file__))
TESTS = os.path.join(os.path.dirname(HERE), "crates", "page_tests", "out", "page_tests_tests")
RUNS = 15


def median_of(words):
    """The median time of some runs, in milliseconds."""
    taken = []
    for _ in range(RUNS):
        start = time.perf_counter()
        subprocess.run(words, check=True, stdout=subprocess.DEVNULL)
        taken.append(time.perf_counter() - start)
    return 1000 * statistics.median(taken)


def main():
    if not os.access(TESTS, os.X_OK):
        sys.exit(f"shards.py: there is no {TESTS}: `rt test` in crates/page_tests proves it and builds it")
    with tempfile.TemporaryDirectory() as room:
        plain = os.path.join(room, "shards")
        subprocess.run(["rustc", "-O", "-o", plain, os.path.join(HERE, "shards.rs")], check=True)
        print(f"plain vector, rustc -O  {median_of([plain]):6.1f} ms")
    print(f"shards, proved          {median_of([TESTS, 'entries::keeps_a_million_entries_over_512_spaces']):6.1f} ms")


if __name__ == "__main__":
    main()
