#!/usr/bin/env python3
"""The command line: options that change nothing that is written, what is refused, help, version, and each exit status.

    tests/command_line.py [PROGRAM]
"""

import os
import resource

from support.program import Cases, Ended, program_path, run

# A chain of three, one of them nested in the space that is called upon; accesses; and unmaps of each kind.
TRACE = b"""\
l4map,1,3,18,16
send,0,1,c0,8,50c7
send,1,2,c0,8,c7
send,2,1,30c0,8,c7
access,1,3000,w
unmap,1,0,12
unmap,0,41,50c4,10
unmap,0,80,10
"""
ANSWER = (
    b"1 send absent=0 norights=0 origin=0 lost=0 extended=0 linked=1\n"
    b"2 send absent=0 norights=0 origin=0 lost=0 extended=0 linked=1\n"
    b"3 send absent=0 norights=0 origin=0 lost=0 extended=0 linked=1\n"
    b"4 access ok\n"
    b"5 unmap 00000016\n"
    b"6 unmap 000050c6 00000010\n"
    b"7 refused BadControl\n"
    + b"".join(b"0,%d,%d,%s,---,-\n" % (page, page, b"-wx" if page == 5 else b"rwx") for page in range(16))
    + b"1,0,5,-wx,---,0:5\n1,3,5,--x,---,2:0\n2,0,5,--x,---,1:0\nend 7 1\n"
)

TAKEN = [
    [],
    ["--plain"],
    ["--workers", "1"],
    ["--workers=64"],
    ["--piece", "1"],
    ["--piece=65536"],
    ["--workers", "7", "--piece", "3", "--plain"],
    ["--plain", "--piece=256", "--workers=4"],
]

REFUSED = [
    ["--workers", "0"],
    ["--workers", "65"],
    ["--workers", "-1"],
    ["--workers", "four"],
    ["--workers", ""],
    ["--workers"],
    ["--workers=1", "--workers=2"],
    ["--piece", "0"],
    ["--piece", "65537"],
    ["--piece", "99999999999999999999"],
    ["--piece"],
    ["--plain=yes"],
    ["--plain", "--plain"],
    ["--fast"],
    ["-w"],
    ["trace.csv"],
    [b"\xff"],
    ["--plain", b"--workers=\xff"],
]

# How many mappings derive from one another in a long chain, beside the first.
CHAIN = 4000

# Each word that help must name.
HELP = [b"Usage: l4map", b"--workers", b"--piece", b"--plain", b"--help", b"--version", b"standard input", b"l4map,1,2,18,1"]


def check_taken(cases, program):
    for words in TAKEN:
        cases.compare(f"taken: {' '.join(words)}", Ended(0, ANSWER, b""), run([program, *words], TRACE))


def long_chain():
    """A trace of a chain that goes to and fro between two spaces, and unmaps of all pages of one of them."""
    lines = ["l4map,1,3,24,1", "send,0,1,10,8,c7"]
    for page in range(CHAIN // 2):
        lines.append(f"send,1,2,10,{page:x}008,{page:x}0c7")
        lines.append(f"send,2,1,10,{page + 1:x}008,{page:x}0c7")
    return "\n".join([*lines, *["unmap,1,0,10"] * 4, ""]).encode()


def processor_time(words, given):
    """The least processor time of a few runs, in seconds."""
    times = []
    for _ in range(3):
        before = resource.getrusage(resource.RUSAGE_CHILDREN)
        run(words, given)
        after = resource.getrusage(resource.RUSAGE_CHILDREN)
        times.append(after.ru_utime + after.ru_stime - before.ru_utime - before.ru_stime)
    return min(times)


def check_plain(cases, program):
    """With --plain an unmap is worked page by page: what is written is the same, and a chain takes many times as
    long."""
    trace = long_chain()
    usual, plain = run([program], trace), run([program, "--plain"], trace)
    cases.compare("a long chain with --plain", usual, plain)
    cases.check("a long chain is answered", "" if usual.stdout.endswith(b"\nend %d 0\n" % (CHAIN + 5)) else f"it ended with {usual}")
    quick, slow = processor_time([program], trace), processor_time([program, "--plain"], trace)
    wrong = "" if slow > 3 * quick else f"{slow:.3f} s with it, {quick:.3f} s without"
    cases.check("a long chain takes longer with --plain", wrong)


def check_refused(cases, program):
    for words in REFUSED:
        got = run([program, *words], TRACE)
        told = got.stderr.startswith(b"error: ") and got.stderr.endswith(b"\n")
        right = (got.status, got.stdout) == (1, b"") and told
        cases.check(f"refused: {words}", "" if right else f"it ended with {got}")


def check_help_and_version(cases, program):
    for words in (["--help"], ["-h"], ["--help", "--plain"]):
        got = run([program, *words], TRACE)
        missing = [word.decode() for word in HELP if word not in got.stdout]
        wrong = f"status {got.status}, {got.stderr!r}, without {missing}" if got.status or got.stderr or missing else ""
        cases.check(f"help: {' '.join(words)}", wrong)
    for words in (["--version"], ["-V"]):
        got = run([program, *words], TRACE)
        right = got.status == 0 and got.stdout.startswith(b"l4map ") and got.stdout.count(b"\n") == 1 and not got.stderr
        cases.check(f"version: {' '.join(words)}", "" if right else f"it ended with {got}")
    # Help that cannot be written is a write that failed.
    with open("/dev/full", "wb") as full:
        got = run([program, "--help"], stdout=full)
    cases.compare("help to a full device", Ended(4, b"", b"l4map: WriteFailed\n"), got)


def check_closed_standard_error(cases, program):
    """Where standard error is closed, the status still tells."""
    for name, words, given, status in (
        ("a refused command line", ["--fast"], TRACE, 1),
        ("a bad header", [], b"", 2),
        ("bad limits", [], b"l4map,1,3,17,16\n", 2),
    ):
        got = run([program, *words], given, stderr=None, preexec_fn=lambda: os.close(2))
        cases.compare(f"{name}, with standard error closed", Ended(status, b"", b""), got)


def main():
    program, cases = program_path(), Cases()
    check_taken(cases, program)
    check_plain(cases, program)
    check_refused(cases, program)
    check_help_and_version(cases, program)
    check_closed_standard_error(cases, program)
    cases.end()


main()
