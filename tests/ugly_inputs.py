#!/usr/bin/env python3
"""Tens of megabytes that are no good trace: the right answer, and memory within a multiple of the input.

    tests/ugly_inputs.py [PROGRAM]

Then input that never ends, under a limit of memory: the run is out of memory before its first record, and has written
nothing. Inputs are made, and outputs are compared, block by block, so that the peak memory that the system tells of a
run is the program's.
"""

import itertools
import os
import subprocess
import tempfile
import threading
from typing import NamedTuple

from support.hostile_traces import lines
from support.program import Cases, first_difference, program_path

# How many bytes of memory a run may take for each byte of its input.
MULTIPLE = 32

HEADER = b"l4map,1,2,18,1\n"
ROOT = "0,0,0,rwx,---,-"
MILLION = 1_000_000
BLOCK = 1 << 20
SECONDS = 120

# The memory, in KiB, that a run on endless input may ask the system for.
LIMIT = 256 << 10
OUT_OF_MEMORY = b"l4map: record 0: NoMemory\n"


class Ugly(NamedTuple):
    """An input, as a piece of bytes between others that comes so many times, and how a run on it ends."""

    name: str
    before: bytes
    piece: bytes
    times: int
    status: int
    output: object  # blocks of bytes
    told: bytes = b""

    def blocks(self):
        """The input, block by block."""
        at_once = max(BLOCK // len(self.piece), 1)
        yield self.before
        for _ in range(self.times // at_once):
            yield self.piece * at_once
        yield self.piece * (self.times % at_once)


def numbered(count, reply):
    """So many reply lines that say the same, block by block, with the audit of one root behind them."""
    refused = count if reply.startswith("refused") else 0
    for first in range(1, count + 1, 10_000):
        yield lines(*(f"{number} {reply}" for number in range(first, min(first + 10_000, count + 1))))
    yield lines(ROOT, f"end {count} {refused}")


def one_refused(name):
    return list(numbered(1, f"refused {name}"))


UGLY = [
    Ugly("ten million records of one byte", HEADER, b"x\n", 10 * MILLION, 0, numbered(10 * MILLION, "refused BadRecord")),
    Ugly("fifty million commas in one record", HEADER, b",", 50 * MILLION, 0, one_refused("BadRecord")),
    Ugly("a field of fifty megabytes", HEADER, b"x", 50 * MILLION, 0, one_refused("BadRecord")),
    Ugly("a quote that fifty megabytes do not end", HEADER + b'"', b"x\n", 25 * MILLION, 0, one_refused("BadRecord")),
    Ugly("fifty million empty lines", HEADER, b"\n", 50 * MILLION, 0, [lines(ROOT, "end 0 0")]),
    Ugly("a send of ten million items", HEADER + b"send,0,1,10", b",8,c7", 10 * MILLION, 0, one_refused("BadRecord")),
    Ugly("an unmap of ten million words", HEADER + b"unmap,0,3f", b",c7", 10 * MILLION, 0, one_refused("BadControl")),
    Ugly("two million accesses in a row", HEADER, b"access,1,0,r\n", 2 * MILLION, 0, numbered(2 * MILLION, "access fault")),
    Ugly("fifty megabytes of one field for a header", b"", b"x", 50 * MILLION, 2, [], b"l4map: BadHeader\n"),
    Ugly("fifty million commas for a header", b"", b",", 50 * MILLION, 2, [], b"l4map: BadHeader\n"),
    Ugly("a bad header before ten million records", b"l4map\n", b"x\n", 10 * MILLION, 2, [], b"l4map: BadHeader\n"),
]

# What never ends: a name, what comes first, and what comes again and again.
ENDLESS = [
    ("zero bytes", b"", b"\x00"),
    ("empty lines", b"", b"\n"),
    ("one field", HEADER, b"x"),
    ("commas", HEADER, b","),
    ("records of one byte", HEADER, b"x\n"),
    ("accesses", HEADER, b"access,0,0,r\n"),
    ("a quote that nothing ends", HEADER + b'"', b"x\n"),
]


def difference_in_stream(wanted, stream):
    """What differs between the blocks that are wanted and the bytes of a stream, which is read to its end; or an empty
    text."""
    for block in itertools.chain(wanted, [b""]):
        got = stream.read(len(block) or 1)
        if got != block:
            while stream.read(BLOCK):
                pass
            return f"stdout {first_difference(block, got)}"
    return ""


def run_measured(words, stdin, wanted):
    """Runs the program; what differs from the wanted output, its status, what it said, and its peak memory in bytes."""
    with tempfile.TemporaryFile() as said:
        with subprocess.Popen(words, stdin=stdin, stdout=subprocess.PIPE, stderr=said) as running:
            late = threading.Timer(SECONDS, running.kill)
            late.start()
            why = difference_in_stream(wanted, running.stdout)
            _, status, used = os.wait4(running.pid, 0)
            late.cancel()
            running.returncode = os.waitstatus_to_exitcode(status)
        said.seek(0)
        return why, running.returncode, said.read(), used.ru_maxrss * 1024


def fault_of(status, told, ended):
    """What is wrong with how a run ended, or an empty text."""
    why, got, said, _ = ended
    found = [why] if why else []
    if got != status:
        found.append(f"status {got} in place of {status}")
    if said != told:
        found.append(f"stderr {first_difference(told, said)}")
    return "; ".join(found)


def check_ugly(cases, program, ugly):
    with tempfile.TemporaryFile() as given:
        for block in ugly.blocks():
            given.write(block)
        size = given.tell()
        given.seek(0)
        ended = run_measured([program], given, ugly.output)
    cases.check(ugly.name, fault_of(ugly.status, ugly.told, ended))
    times = ended[-1] / size
    cases.check(f"{ugly.name}: memory", f"{times:.1f} times the input" if times > MULTIPLE else "")


def write_endlessly(descriptor, first, again):
    """Writes what comes first, and then the rest again and again, until nobody reads."""
    block = again * (BLOCK // len(again))
    with os.fdopen(descriptor, "wb", buffering=0) as stream:
        try:
            stream.write(first)
            while True:
                stream.write(block)
        except BrokenPipeError:
            pass


def check_endless(cases, program, name, first, again):
    reader, writer = os.pipe()
    feeder = threading.Thread(target=write_endlessly, args=(writer, first, again))
    feeder.start()
    words = ["/bin/sh", "-c", f'ulimit -v {LIMIT} && exec "$0"', program]
    ended = run_measured(words, reader, [])
    os.close(reader)
    feeder.join()
    cases.check(f"endless {name}", fault_of(3, OUT_OF_MEMORY, ended))


def main():
    program, cases = program_path(), Cases()
    for ugly in UGLY:
        check_ugly(cases, program, ugly)
    for name, first, again in ENDLESS:
        check_endless(cases, program, name, first, again)
    cases.end()


main()
