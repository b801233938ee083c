#!/usr/bin/env python3
"""The programs with a terminal for standard output or standard error: what a long run tells of its progress, and that
replies are shown as they come.

    tests/terminals.py [PROGRAM [L4TRACE]]

Neither may change a byte of what is written. The long run takes some seconds: a word that names all pages is unmapped
again and again, which asks for the status of a million mappings each time.
"""

import os
import pty
import re
import select
import shlex
import subprocess
import sys
import tempfile
import time
import tty

from support.program import SECONDS, TOP, Cases, give_up, program_path, run

SPACES = 250
PASSES = 100
MADE = 1_000_000
ENOUGH = 5  # seconds of a long run of l4trace, whatever the machine: of two there is nothing to see
PROGRESS = re.compile(rb"\r\x1b\[K\d+ records, \d+ a second")
CLEARED = b"\r\x1b[K"


def long_trace(passes):
    """All pages of space 0 go to the other spaces, their status is asked for so often, and they are taken back from
    all."""
    yield "l4map,1,512,24,4096"
    for space in range(1, SPACES):
        yield f"send,0,{space},10,8,17"
    for _ in range(passes):
        yield "unmap,0,0,10"
    yield "unmap,0,0,17"


def text_of(lines):
    return "".join(line + "\n" for line in lines).encode()


LONG = text_of(long_trace(PASSES))
SHORT = b"l4map,1,3,18,2\nsend,0,1,10,8,c7\naccess,1,0,r\n"


def tool_path():
    """The l4trace named by the second argument, or the one that build.sh leaves. Where there is none, the script ends."""
    default = os.path.join(TOP, "crates", "l4trace", "out", "l4trace")
    path = os.path.abspath(sys.argv[2]) if len(sys.argv) > 2 else default
    if not os.access(path, os.X_OK):
        give_up(f"there is no program {path}: ./build.sh proves it and builds it")
    return path


def run_shown(words, given, shows_output, shows_errors, **settings):
    """What a run wrote to standard output and standard error, of which each may be a terminal; with how many seconds
    before its end the first byte of its output came."""
    main, other = pty.openpty()
    tty.setraw(other)
    pipes = {name: os.pipe() for name in ("stdin", "stdout", "stderr")}
    streams = {
        "stdin": pipes["stdin"][0],
        "stdout": other if shows_output else pipes["stdout"][1],
        "stderr": other if shows_errors else pipes["stderr"][1],
    }
    ran = subprocess.Popen(words, env={**os.environ, "TERM": "xterm", **settings}, **streams)
    for descriptor in (other, pipes["stdin"][0], pipes["stdout"][1], pipes["stderr"][1]):
        os.close(descriptor)
    os.write(pipes["stdin"][1], given)
    os.close(pipes["stdin"][1])
    written = {main: b"", pipes["stdout"][0]: b"", pipes["stderr"][0]: b""}
    output = main if shows_output else pipes["stdout"][0]
    errors = main if shows_errors else pipes["stderr"][0]
    left, first, end = set(written), None, time.monotonic() + SECONDS
    while left and time.monotonic() < end:
        for descriptor in select.select(left, [], [], 1)[0]:
            try:
                came = os.read(descriptor, 1 << 16)
            except OSError:  # the other end of a terminal is closed
                came = b""
            if came:
                written[descriptor] += came
            else:
                left.discard(descriptor)
            if came and descriptor == output and first is None:
                first = time.monotonic()
    early = time.monotonic() - (first or time.monotonic())
    if left:
        ran.kill()
    status = ran.wait()
    for descriptor in written:
        os.close(descriptor)
    return status, written[output], written[errors], early


def fault_of_output(status, output, plain):
    if status != plain.status:
        return f"status {status} in place of {plain.status}"
    return "" if output == plain.stdout else "other output than to a file"


def fault_of_progress(told):
    """What is wrong with what was told of a long run: lines in place of one another, and in the end none."""
    if not told.endswith(CLEARED):
        return f"the line is not taken away: {told[-40:]!r}"
    left = PROGRESS.sub(b"", told)
    if left != CLEARED or len(PROGRESS.findall(told)) < 2:
        return f"not lines of progress: {told[:200]!r}"
    return ""


def enough(number, words, given=b""):
    """So many times as much that a run of this number of records or passes takes long enough."""
    began = time.monotonic()
    run(words, given)
    return max(number, int(number * ENOUGH / (time.monotonic() - began)))


def check_tool(cases, tool):
    """l4trace tells its progress and takes it away before it writes its answer; on a dumb terminal it tells none."""
    words = [tool, "show", "-", "--frame", "0", "--max", "1"]
    long = text_of(long_trace(enough(PASSES, words, LONG)))
    plain = run(words, long)
    cases.check("l4trace: the run of which there is nothing to see", "" if plain.status == 0 else "it failed")
    status, output, told, _ = run_shown(words, long, False, True)
    cases.check("l4trace: output", fault_of_output(status, output, plain))
    cases.check("l4trace: progress", fault_of_progress(told))
    status, output, told, _ = run_shown(words, LONG, False, True, TERM="dumb")
    cases.check("l4trace on a dumb terminal: output", fault_of_output(status, output, run(words, LONG)))
    cases.check("l4trace on a dumb terminal: progress", f"{told!r} was told" if told else "")
    status, output, told, _ = run_shown(words, SHORT, False, True)
    cases.check("a short run of l4trace: progress", f"{told!r} was told" if told or status else "")


def check_on_the_way(cases, tool):
    """Commands of l4trace that write while they work tell their progress where standard output is no terminal."""
    with tempfile.TemporaryDirectory() as room:
        trace = os.path.join(room, "long.csv")
        made = [tool, "random", "--seed", "1", "--refused", "0", "--records"]
        check = [tool, "check", trace]

        def made_to_file(records):
            return ["sh", "-c", f"{shlex.join([*made, str(records)])} > {shlex.quote(trace)}"]

        status, _, told, _ = run_shown(made_to_file(enough(MADE, made_to_file(MADE))), b"", False, True)
        cases.check("l4trace random: progress", fault_of_progress(told) if status == 0 else f"status {status}")
        run(made_to_file(MADE))
        run(made_to_file(enough(MADE, check)))
        status, _, told, _ = run_shown(check, b"", False, True)
        cases.check("l4trace check: progress", fault_of_progress(told) if status == 0 else f"status {status}")
    status, output, told, _ = run_shown([tool, "check", "-"], SHORT, True, True)
    cases.check("l4trace check on one terminal", "" if output == b"2 records, 0 refused\n" else f"{output!r}, {told!r}")


def main():
    program, tool = program_path(), tool_path()
    cases = Cases()
    short, long = run(program, SHORT), run(program, LONG)
    cases.check("the runs of which there is nothing to see", "" if (short.status, long.status) == (0, 0) else "they failed")

    status, output, told, _ = run_shown([program], LONG, False, True)
    cases.check("a long run: output", fault_of_output(status, output, long))
    cases.check("a long run: progress", fault_of_progress(told))

    status, output, told, _ = run_shown([program], SHORT, False, True)
    cases.check("a short run: output", fault_of_output(status, output, short))
    cases.check("a short run: progress", f"{told!r} was told" if told else "")

    status, output, told, early = run_shown([program], LONG, True, False)
    cases.check("a long run that is shown: output", fault_of_output(status, output, long))
    cases.check("a long run that is shown: errors", f"{told!r} was told" if told else "")
    cases.check("a long run that is shown: replies as they come", "" if early > 1 else f"the first came {early:.2f} s before the end")

    status, output, _, _ = run_shown([program], SHORT, True, True)
    cases.check("a short run, all of it on one terminal", fault_of_output(status, output, short))
    check_tool(cases, tool)
    check_on_the_way(cases, tool)
    cases.end()


if __name__ == "__main__":
    main()
