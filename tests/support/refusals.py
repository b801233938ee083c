"""Runs in which allocations, or starts of threads, are refused one after another."""

import os
import re
from typing import NamedTuple

from support.program import Ended, difference, preloaded, run

MOST = 100_000
SECONDS = 30
UNREFUSED = 8
EXTENTS = [(False, "alone"), (True, "and all after it")]

# How standard error may tell what was refused: an allocation may have been for the start of a thread, a thread for no
# memory.
TOLD = {
    "allocation": re.compile(rb"l4map: record (\d+): (NoMemory|NoWorker)\n"),
    "thread": re.compile(rb"l4map: record (\d+): (NoWorker)\n"),
}


class Refused(NamedTuple):
    """One run in which an allocation or a start of a thread was to be refused, the number `at`."""

    at: int
    got: Ended
    was_refused: bool


def run_refusing(words, given, library, what, at, and_rest):
    """One run in which allocation, or thread, number `at` is refused, and with `and_rest` all after it."""
    note, end = os.pipe()
    environment = preloaded(library, FAIL_WHAT=what, FAIL_AT=at, FAIL_REST=int(and_rest), FAIL_NOTE=end)
    got = run(words, given, seconds=SECONDS, env=environment, pass_fds=[end])
    os.close(end)
    was_refused = os.read(note, 1) == b"!"
    os.close(note)
    return Refused(at, got, was_refused)


def runs_refusing(words, given, library, what, and_rest):
    """Refuses the first, the second and so on, until none was left to refuse in some runs, one after another: of several
    workers one run asks for more than another."""
    unrefused = 0
    for at in range(1, MOST + 1):
        refused = run_refusing(words, given, library, what, at, and_rest)
        yield refused
        unrefused = 0 if refused.was_refused else unrefused + 1
        if unrefused == UNREFUSED:
            return


def record_told(what, got):
    """The number of the record that a run tells where it was refused an allocation or a thread, or None."""
    told = TOLD[what].fullmatch(got.stderr)
    return int(told[1]) if told and got.status == 3 else None


def fault_of_refused(what, lines, got):
    """What is wrong with how a run ended in which an allocation, or a thread, was refused, or an empty text.

    It ends as the undisturbed run, whose lines are given, or tells a record: 0, one of the trace, or the one behind the
    last for the audit; with `NoWorker` one of the trace. Then the reply lines of the records before it were written,
    and nothing else.
    """
    if got.status is None:
        return f"it did not end in {SECONDS} s"
    if got == Ended(0, b"".join(lines), b""):
        return ""
    record, records = record_told(what, got), int(lines[-1].split()[1])
    if record is None:
        return f"neither the undisturbed run nor a refusal: status {got.status}, standard error {got.stderr[:200]!r}"
    if record > records + 1 or (got.stderr.endswith(b"NoWorker\n") and not 1 <= record <= records):
        return f"{got.stderr!r}, of a trace of {records} records"
    return difference(Ended(3, b"".join(lines[: max(record - 1, 0)]), got.stderr), got)
