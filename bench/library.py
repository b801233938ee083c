#!/usr/bin/env python3
"""What calls of the library for C take, by size, with and without notes of their changes: a table in Markdown.

    bench/library.py [ARCHIVE]

ARCHIVE is crates/capi/out/libcapi.a, which library.sh makes, if it is not given. Times are the least of five, of processor
time; sizes are those of the largest block of memory that the call asks for. Nothing here has a threshold.
"""

import os
import subprocess
import sys
import tempfile

HERE = os.path.dirname(os.path.abspath(__file__))
CAPI = os.path.join(os.path.dirname(HERE), "crates", "capi")


def rows(archive):
    """The lines that library.c prints, over an archive."""
    with tempfile.TemporaryDirectory() as room:
        program = os.path.join(room, "library")
        source = os.path.join(HERE, "library.c")
        build = [os.environ.get("CC", "cc"), "-std=gnu11", "-O2", "-I", os.path.join(CAPI, "include"), "-o", program, source, archive]
        subprocess.run(build, check=True)
        said = subprocess.run([program], check=True, capture_output=True, text=True).stdout
    return [line.split("|") for line in said.splitlines()]


def time_text(nanoseconds):
    """A time in the unit that fits it."""
    for unit, size in (("ms", 1e6), ("us", 1e3)):
        if nanoseconds >= size:
            return f"{nanoseconds / size:,.1f} {unit}"
    return f"{nanoseconds:.0f} ns"


def main():
    archive = sys.argv[1] if len(sys.argv) > 1 else os.path.join(CAPI, "out", "libcapi.a")
    print("| Call | time | with notes | pages told | largest block, bytes | with notes |")
    print("|---|---|---|---|---|---|")
    for name, without, with_notes, told, block, more in rows(archive):
        cells = [name, time_text(float(without)), time_text(float(with_notes)), f"{int(told):,}", f"{int(block):,}", f"{int(more):,}"]
        print("| " + " | ".join(cells) + " |")


if __name__ == "__main__":
    main()
