#!/usr/bin/env python3
"""Traces that ask for much or for odd things: the answer of the definitions, whatever the options, and a lawful audit.

    tests/hostile.py [PROGRAM]

support/hostile_traces.py has the traces, each with its answer. They run with 1, 4 and 64 workers, with pieces of 1 and
of 256, and with --plain, and so does each beginning of a short trace, cut off after every byte. Traces of one byte,
each of the 256, run with these choices in turn. Those that take seconds run with some of the choices, which the table
says, one trace after another.

The audit of each is read by support/audit.py, which says whether its mappings are lawful; what it must refuse is tried
first.
"""

import os
from concurrent.futures import ThreadPoolExecutor

from support import hostile_traces
from support.audit import fault_in_audit
from support.hostile_traces import lines, sent
from support.program import Cases, Ended, difference, program_path, run

PLAIN = ["--plain"]
CHOICES = [["--workers", str(workers), "--piece", str(piece)] for workers in (1, 4, 64) for piece in (1, 256)] + [PLAIN]
ONE_BY_256, FOUR_BY_256, MANY_BY_1 = CHOICES[1], CHOICES[3], CHOICES[4]

# The large traces, each with the choices by which it runs.
LARGE = [
    (hostile_traces.sends_that_extend_one_page, CHOICES),
    (hostile_traces.million_mappings_revoked_at_once, CHOICES),
    (hostile_traces.million_mappings_revoked_one_by_one, [FOUR_BY_256, MANY_BY_1, PLAIN]),
    (hostile_traces.many_spaces_with_every_page_held, [FOUR_BY_256, PLAIN]),
    (hostile_traces.many_spaces_given_up, [ONE_BY_256, FOUR_BY_256, PLAIN]),
    (hostile_traces.space_with_every_page_cleared, [ONE_BY_256, FOUR_BY_256, PLAIN]),
]

BAD_HEADER = Ended(2, b"", b"l4map: BadHeader\n")
BAD_LIMITS = Ended(2, b"", b"l4map: BadLimits\n")

HEADER = b"l4map,1,2,18,1"
SEND, ACCESS, UNMAP = b"send,0,1,10,3008,c6", b"access,1,3abc,w", b"unmap,0,0,c2"
SHORT = b"\n".join([HEADER, SEND, ACCESS, UNMAP, b""])

# A record of the short trace that is cut off, and its reply if it is not `refused BadRecord`. `c` is a nilpage with the
# right r and the free bit, which comes back without r. Without a word an unmap has one too few for its control word.
REPLIES_WHEN_CUT = {
    SEND[:-1]: sent(),
    SEND: sent(linked=1),
    ACCESS: "access ok",
    UNMAP[:-3]: "refused BadControl",
    UNMAP[:-1]: "unmap 00000008",
    UNMAP: "unmap 000000c6",
}

# What the reader of audits must refuse, by name, each beside nothing else.
UNLAWFUL = [
    ("a line without origin field", ["0,0,0,rwx,---"]),
    ("rights in another order", ["0,0,0,wrx,---,-"]),
    ("falling places", ["1,0,0,rwx,---,-", "0,1,1,rwx,---,-"]),
    ("falling pages", ["0,10,0,rwx,---,-", "0,9,1,rwx,---,-"]),
    ("a place twice", ["0,0,0,rwx,---,-", "0,0,1,rwx,---,-"]),
    ("no rights", ["0,0,0,---,---,-"]),
    ("two roots of a frame", ["0,0,0,rwx,---,-", "0,1,0,rwx,---,-"]),
    ("an origin without a line", ["0,0,0,rwx,---,-", "1,0,0,rwx,---,0:1"]),
    ("an origin with another frame", ["0,0,0,rwx,---,-", "1,0,1,rwx,---,0:0"]),
    ("a right more than the origin", ["0,0,0,rw-,---,-", "1,0,0,r-x,---,0:0"]),
    ("a place that is its own origin", ["0,0,0,rwx,---,0:0"]),
    ("a circle of three", ["0,0,0,rwx,---,2:0", "1,0,0,rwx,---,0:0", "2,0,0,rwx,---,1:0"]),
    ("a circle beside a root", ["0,0,0,rwx,---,-", "1,0,0,rwx,---,2:0", "2,0,0,rwx,---,1:0", "3,0,0,rwx,---,0:0"]),
]
LAWFUL = ["0,0,0,rwx,R--,-", "0,9,1,r-x,---,2:0", "0,10,0,rw-,---,0:0", "1,0,0,r--,RWX,0:10", "2,0,1,r-x,---,-"]


def check_reader(cases):
    """The reader of audits passes a lawful one, and none that is unlawful in one respect."""
    found = fault_in_audit(lines("1 access ok", *LAWFUL, "end 1 0"))
    cases.check("the reader passes a lawful audit", found)
    for name, audit in UNLAWFUL:
        missed = "" if fault_in_audit(lines("1 access ok", *audit, "end 1 0")) else "it is passed"
        cases.check(f"the reader refuses an audit with {name}", missed)
    for name, output in (("no output", b""), ("no end line", b"0,0,0,rwx,---,-\n"), ("too few replies", b"end 1 0\n")):
        cases.check(f"the reader refuses {name}", "" if fault_in_audit(output) else "it is passed")


def faults(program, given, wanted, choices, pool):
    """What is wrong with the runs of a trace: choice by choice, and then with the audit of the first."""
    runs = list(pool.map(lambda choice: run([program, *choice], given), choices))
    for choice, got in zip(choices, runs):
        yield " ".join(choice), difference(wanted, got)
    if wanted.status == 0:
        yield "the audit is lawful", fault_in_audit(runs[0].stdout)


def short_trace_cut_off(length):
    """The first bytes of the short trace, and how a run on them ends.

    A record that is cut off is one that has the form of none, but for those of the table. The send maps 0:0 to 1:3, the
    access leaves R and W there, and the unmap takes w and all status.
    """
    given = SHORT[:length]
    header, *records = given.split(b"\n")
    if header != HEADER:
        return given, BAD_HEADER
    records = [record for record in records if record]
    replies = [REPLIES_WHEN_CUT.get(record, "refused BadRecord") for record in records]
    audit = ["0,0,0,rwx,---,-"]
    if SEND in records:
        rights = "r--" if UNMAP in records else "rw-"
        status = "RW-" if ACCESS in records and UNMAP not in records else "---"
        audit.append(f"1,3,0,{rights},{status},0:0")
    refused = sum(reply.startswith("refused") for reply in replies)
    numbered = [f"{number} {reply}" for number, reply in enumerate(replies, 1)]
    return given, Ended(0, lines(*numbered, *audit, f"end {len(replies)} {refused}"), b"")


def check_beginnings(cases, program, pool):
    for length in range(len(SHORT) + 1):
        given, wanted = short_trace_cut_off(length)
        for choice, why in faults(program, given, wanted, CHOICES, pool):
            cases.check(f"the first {length} bytes of a trace, {choice}", why)


def check_single_bytes(cases, program, pool):
    """No byte alone is a header."""
    runs = pool.map(lambda byte: run([program, *CHOICES[byte % len(CHOICES)]], bytes([byte])), range(256))
    for byte, got in enumerate(runs):
        cases.compare(f"a trace of the byte {byte:02x}", BAD_HEADER, got)


def check_traces(cases, program, pool):
    for make in hostile_traces.SMALL:
        given, answer = make()
        for choice, why in faults(program, given, Ended(0, answer, b""), CHOICES, pool):
            cases.check(f"{make.__name__}, {choice}", why)
    limits = b"l4map,1,9999999,9999999,9999999\n" + SEND + b"\n"
    for choice, why in faults(program, limits, BAD_LIMITS, CHOICES, pool):
        cases.check(f"the largest numbers that a header can have, {choice}", why)


def check_large_traces(cases, program, pool):
    for make, choices in LARGE:
        given, answer = make()
        for choice, why in faults(program, given, Ended(0, answer, b""), choices, pool):
            cases.check(f"{make.__name__}, {choice}", why)


def main():
    program, cases = program_path(), Cases()
    check_reader(cases)
    with ThreadPoolExecutor(max_workers=os.cpu_count()) as pool:
        check_traces(cases, program, pool)
        check_beginnings(cases, program, pool)
        check_single_bytes(cases, program, pool)
    with ThreadPoolExecutor(max_workers=1) as pool:
        check_large_traces(cases, program, pool)
    cases.end()


main()
