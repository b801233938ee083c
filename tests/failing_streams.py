#!/usr/bin/env python3
"""Standard streams that fail, close, are interrupted or give their bytes piece by piece.

    tests/failing_streams.py [PROGRAM]

A failed read ends the run with `Unreadable` and nothing written, a failed write with `WriteFailed`; both with status 4.
Where the system raises SIGXFSZ for a write past a limit of files, and it is not ignored, that signal ends the run.
"""

import os
import resource
import signal
import socket
import subprocess
import tempfile

from support.program import SECONDS, Cases, Ended, build_library, preloaded, program_path, run

TRACE = b"l4map,1,2,18,1\nsend,0,1,10,3008,c6\naccess,1,3abc,w\nunmap,0,0,c2\n"
ANSWER = (
    b"1 send absent=0 norights=0 origin=0 lost=0 extended=0 linked=1\n"
    b"2 access ok\n"
    b"3 unmap 000000c6\n"
    b"0,0,0,rwx,---,-\n"
    b"1,3,0,r--,---,0:0\n"
    b"end 3 0\n"
)
# Several times 64 KiB of reply lines, and more than 64 KiB of audit lines.
FAULTS = 20_000
LONG_REPLIES = b"l4map,1,2,18,1\n" + b"access,1,0,r\n" * FAULTS
LONG_REPLIES_ANSWER = b"".join(b"%d access fault\n" % number for number in range(1, FAULTS + 1))
LONG_REPLIES_ANSWER += b"0,0,0,rwx,---,-\nend %d 0\n" % FAULTS
LONG_AUDIT = b"l4map,1,2,24,4096\n"
LONG_AUDIT_ANSWER = b"".join(b"0,%d,%d,rwx,---,-\n" % (page, page) for page in range(4096)) + b"end 0 0\n"

OUTPUTS = [
    ("short output", TRACE, ANSWER),
    ("long replies", LONG_REPLIES, LONG_REPLIES_ANSWER),
    ("long audit", LONG_AUDIT, LONG_AUDIT_ANSWER),
]

# Writes of a long output that are made to fail in turn, if it has so many.
MOST_WRITES = 20

# Reads of its input, and writes of its output, that are interrupted in turn, if it has so many.
MOST_INTERRUPTED = 5

UNREADABLE = Ended(4, b"", b"l4map: Unreadable\n")
WRITE_FAILED = Ended(4, b"", b"l4map: WriteFailed\n")


def cut_socket(given):
    """A socket from which the bytes `given` can be read, and at which the read after them fails."""
    ours, theirs = socket.socketpair()
    theirs.sendall(b"unread")
    ours.sendall(given)
    ours.close()  # with bytes that nobody read, so the other end is reset
    return theirs


def check_reading(cases, program, room):
    folder = os.open(room, os.O_RDONLY)
    cases.compare("standard input is a folder", UNREADABLE, run(program, stdin=folder))
    os.close(folder)
    write_only = os.open(os.path.join(room, "write-only"), os.O_WRONLY | os.O_CREAT)
    cases.compare("standard input is open for writing alone", UNREADABLE, run(program, stdin=write_only))
    os.close(write_only)
    closed = run(program, stdin=None, preexec_fn=lambda: os.close(0))
    cases.compare("standard input is closed", UNREADABLE, closed)
    for length in range(len(TRACE) + 1):
        with cut_socket(TRACE[:length]) as cut:
            got = run(program, stdin=cut)
        cases.compare(f"reading fails after {length} bytes", UNREADABLE, got)


def check_pieces(cases, program):
    """A trace that comes one byte at a time is the same trace."""
    streams = {"stdin": subprocess.PIPE, "stdout": subprocess.PIPE, "stderr": subprocess.PIPE}
    with subprocess.Popen([program], bufsize=0, **streams) as running:
        for at in range(len(TRACE)):
            running.stdin.write(TRACE[at : at + 1])
        stdout, stderr = running.communicate(timeout=SECONDS)
    cases.compare("input that comes byte by byte", Ended(0, ANSWER, b""), Ended(running.returncode, stdout, stderr))


def check_writing(cases, program, room):
    for name, given, answer in OUTPUTS:
        cases.compare(f"{name} to a pipe", Ended(0, answer, b""), run(program, given))
        with open("/dev/full", "wb") as full:
            cases.compare(f"{name} to a full device", WRITE_FAILED, run(program, given, stdout=full))
        closed = run(program, given, stdout=None, preexec_fn=lambda: os.close(1))
        cases.compare(f"{name} to a closed standard output", WRITE_FAILED, closed)
        with open(os.devnull, "rb") as read_only:
            got = run(program, given, stdout=read_only)
        cases.compare(f"{name} to a standard output open for reading alone", WRITE_FAILED, got)
        reader, writer = os.pipe()
        os.close(reader)
        # Python ignores SIGPIPE, and so does a program that it starts without restoring its signals.
        got = run(program, given, stdout=writer, restore_signals=False)
        os.close(writer)
        cases.compare(f"{name} to a pipe whose reader has gone", WRITE_FAILED, got)
        for limit in (0, 1, len(answer) // 2, len(answer) - 1, len(answer)):
            wanted = Ended(0, answer, b"") if limit == len(answer) else WRITE_FAILED
            got = run_to_limited_file(program, given, os.path.join(room, "output"), limit)
            if limit < len(answer):
                got = got._replace(stdout=b"")  # nothing is promised of it
            cases.compare(f"{name} to a file of at most {limit} bytes", wanted, got)
    for name, given, answer in OUTPUTS[1:]:
        cases.compare(f"{name} to a reader that leaves early", WRITE_FAILED, run_to_leaving_reader(program, given))


def run_to_limited_file(program, given, path, limit):
    """Runs the program with its output in a file that cannot grow past `limit` bytes."""

    def limit_files():
        signal.signal(signal.SIGXFSZ, signal.SIG_IGN)
        resource.setrlimit(resource.RLIMIT_FSIZE, (limit, limit))

    with open(path, "wb") as output:
        got = run(program, given, stdout=output, preexec_fn=limit_files)
    with open(path, "rb") as output:
        return got._replace(stdout=output.read())


def check_signals(cases, program, room):
    """What comes of the signals that the system raises for a write that fails, where they are not ignored from outside.

    SIGPIPE, for a pipe whose reader has gone, the program ignores itself. SIGXFSZ, for a file that would pass its
    limit, ends it as it ends any other, before it can tell of the write.
    """

    def limit_files():
        signal.signal(signal.SIGXFSZ, signal.SIG_DFL)
        resource.setrlimit(resource.RLIMIT_FSIZE, (1, 1))
        resource.setrlimit(resource.RLIMIT_CORE, (0, 0))

    def end_by_broken_pipes():
        signal.signal(signal.SIGPIPE, signal.SIG_DFL)

    for name, given, _ in OUTPUTS:
        reader, writer = os.pipe()
        os.close(reader)
        got = run(program, given, stdout=writer, preexec_fn=end_by_broken_pipes)
        os.close(writer)
        cases.compare(f"{name} to a pipe whose reader has gone, with SIGPIPE", WRITE_FAILED, got)
        with open(os.path.join(room, "output"), "wb") as output:
            got = run(program, given, stdout=output, preexec_fn=limit_files)
        cases.compare(f"{name} to a file of at most 1 byte, with SIGXFSZ", Ended(-signal.SIGXFSZ, b"", b""), got)


def run_to_leaving_reader(program, given):
    """Runs the program with its output in a pipe whose reader takes a few bytes and goes."""
    with tempfile.TemporaryFile() as trace:
        trace.write(given)
        trace.seek(0)
        streams = {"stdin": trace, "stdout": subprocess.PIPE, "stderr": subprocess.PIPE}
        with subprocess.Popen([program], restore_signals=False, **streams) as running:
            os.read(running.stdout.fileno(), 100)
            running.stdout.close()
            stderr = running.stderr.read()
            running.wait(timeout=SECONDS)
    return Ended(running.returncode, b"", stderr)


def check_each_write(cases, program, room):
    """One write of an output fails, and those after it would not: by the preloaded library of support/fail_write.c.

    The only write of the short output is made by the last flush.
    """
    library = build_library("fail_write.c", room)
    for name, given, answer in OUTPUTS:
        fail_at, ended_early = 0, True
        while ended_early and fail_at < MOST_WRITES:
            fail_at += 1
            got = run(program, given, env=preloaded(library, FAIL_AT=fail_at))
            ended_early = got != Ended(0, answer, b"")
            if ended_early:
                cases.compare(f"write {fail_at} of {name} fails alone", WRITE_FAILED, got._replace(stdout=b""))
        cases.check(f"some write of {name} failed", "" if fail_at > 1 else "the library has no effect")


def run_interrupted(program, given, library, kind, at):
    """Runs the program with one of its reads or writes interrupted, and tells whether it was."""
    note, end = os.pipe()
    environment = preloaded(library, INTERRUPT=kind, INTERRUPT_AT=at, NOTE=end)
    got = run(program, given, env=environment, pass_fds=[end])
    os.close(end)
    was_interrupted = os.read(note, 1) == b"!"
    os.close(note)
    return got, was_interrupted


def check_interruptions(cases, program, room):
    """A read or a write that a signal interrupts is made again: by the preloaded library of support/interrupt.c."""
    library = build_library("interrupt.c", room)
    for name, given, answer in OUTPUTS:
        for kind in ("read", "write"):
            at, was_interrupted = 0, True
            while was_interrupted and at < MOST_INTERRUPTED:
                at += 1
                got, was_interrupted = run_interrupted(program, given, library, kind, at)
                cases.compare(f"{kind} {at} of {name} is interrupted", Ended(0, answer, b""), got)
            cases.check(f"some {kind} of {name} was interrupted", "" if at > 1 else "the library has no effect")


def check_silent_errors(cases, program):
    """The exit status stands also where standard error takes nothing."""
    with open("/dev/full", "wb") as full:
        got = run(program, b"", stderr=full)
        cases.compare("bad header and a full standard error", Ended(2, b"", b""), got)
        got = run(program, TRACE, stdout=full, stderr=full)
        cases.compare("failed write and a full standard error", Ended(4, b"", b""), got)


def main():
    program, cases = program_path(), Cases()
    with tempfile.TemporaryDirectory() as room:
        check_reading(cases, program, room)
        check_pieces(cases, program)
        check_writing(cases, program, room)
        check_signals(cases, program, room)
        check_each_write(cases, program, room)
        check_interruptions(cases, program, room)
        check_silent_errors(cases, program)
    cases.end()


main()
