#!/usr/bin/env python3
"""How many planted bugs random traces find.

    tests/planted_bugs.py [PROGRAM] [--seeds N] [--records N] [--version V] [--shape SHAPE] [--spaces N] [--bits N]
                          [--only WORD] [--l4map PROGRAM]
    tests/planted_bugs.py [PROGRAM] --quick [--l4map PROGRAM]

A planted bug is a change of one line of support/reference.py, which is the definitions in Python; the list is
support/planted_bugs.txt. A trace finds a bug where the changed reference answers it with another line than the right
one does. PROGRAM makes the traces, called as `PROGRAM random ..`: the proved l4trace if it is not given, or
support/random_traces.py, which makes the same ones. Seeds count from 1. An option that is not given is not handed to
PROGRAM either, which then does as it does by default. A bug that only one version of traces can show is looked for with
that version.

Prints a table of the bugs, then how often each outcome of a pair comes and how deep chains become, and then 'N of M bugs
are found by at least K of S seeds', K being nine tenths of S. The exit status is 0 exactly where N is M, all but one
seed in 50 reach each outcome 20 times and depth 8, and l4map answers each trace as the right reference does.

With --quick three seeds are tried, and what is printed is as by the other scripts here: the right reference answers the
stored replays as they are answered there, and the traces as l4map does; each bug is found; each trace reaches each
outcome and depth 8; and PROGRAM makes the same bytes as support/random_traces.py, with options of many kinds.
"""

import argparse
import glob
import os
import re
import sys
import types
from typing import NamedTuple, Optional

from support.program import TOP, Cases, Ended, difference, give_up, run

REFERENCE = os.path.join(TOP, "tests", "support", "reference.py")
BUGS = os.path.join(TOP, "tests", "support", "planted_bugs.txt")
MADE_HERE = os.path.join(TOP, "tests", "support", "random_traces.py")
REPLAYS = ["tests/replays/*/*.csv", "examples/*.csv"]
QUICK_SEEDS = 3
KEYS = ("bug", "wrong", "version", "old", "new")
OUTCOMES = ("absent", "norights", "origin", "lost", "extended", "linked")
# How often each outcome is to come in a trace, how deep its chains are to become, and how many seeds of 50 may miss that.
ENOUGH, DEEP, SELDOM = 20, 8, 1
# With these arguments, each beside a seed, the program makes the bytes of random_traces.py.
SAME = [
    "--records 1000", "--records 1000 --version 2", "--records 400 --bits 32", "--records 400 --bits 32 --version 2",
    "--records 300 --spaces 2 --frames 1", "--records 300 --spaces 512 --frames 64 --version 2", "--records 0",
    "--records 300 --spaces 3 --bits 25 --frames 7 --refused 0", "--records 300 --refused 100",
    "--records 300 --refused 100 --bits 32 --version 2", "--records 100", "--records 3000 --spaces 40 --frames 40",
]


class Bug(NamedTuple):
    """A bug: its name, what is wrong, the texts and what stands in their place, and the only version that shows it."""

    name: str
    wrong: str
    edits: list
    version: Optional[int]


class Trace(NamedTuple):
    """A trace, the lines of the right answers, how often each outcome comes, and how deep chains become."""

    text: str
    right: list
    counts: dict
    depth: int


def read_entry(entry):
    """The keys of an entry of the list with their texts, in order."""
    found = []
    for line in entry.splitlines():
        key, colon, text = line.partition(": ")
        if colon and key in KEYS:
            found.append((key, text))
        else:
            key, text = found.pop()
            found.append((key, f"{text}\n{line}"))
    return found


def read_bug(entry):
    found = read_entry(entry)
    fields = dict(found)
    olds, news = ([text for key, text in found if key == wanted] for wanted in ("old", "new"))
    version = fields.get("version")
    edits = list(zip(olds, news, strict=True))
    return Bug(fields["bug"], fields["wrong"], edits, int(version) if version else None)


def read_bugs():
    with open(BUGS, encoding="utf-8") as file:
        entries = file.read().strip().split("\n\n")
    return [read_bug(entry) for entry in entries if not entry.startswith("#")]


def reference(edits=()):
    """The module of the reference, after some edits."""
    with open(REFERENCE, encoding="utf-8") as file:
        text = file.read()
    for old, new in edits:
        if text.count(old) != 1:
            give_up(f"{old!r} stands {text.count(old)} times in reference.py")
        text = text.replace(old, new)
    module = types.ModuleType("reference")
    exec(compile(text, REFERENCE, "exec"), module.__dict__)
    return module


def answered(text):
    """A trace with the right answers."""
    module, depths = reference(), [0]

    class Watched(module.Holdings):
        def link(self, source, target, rights):
            super().link(source, target, rights)
            depths.append(len(self.origins(target)))

    module.Holdings = Watched
    right = list(module.answers(text))
    found = re.findall(rf"({'|'.join(OUTCOMES)})=([0-9]+)", "\n".join(right))
    counts = {wanted: sum(int(count) for outcome, count in found if outcome == wanted) for wanted in OUTCOMES}
    return Trace(text, right, counts, max(depths))


def shortfall(trace):
    """What a trace reaches less often, or less deep, than it is to; or an empty text."""
    few = [f"{outcome} {count}" for outcome, count in trace.counts.items() if count < ENOUGH]
    return ", ".join(few + ([f"depth {trace.depth}"] if trace.depth < DEEP else []))


def finds(trace, wrong):
    """Whether a wrong reference answers a trace with another text; one that fails does."""
    given = wrong(trace.text)
    try:
        return any(line != next(given, None) for line in trace.right) or next(given, None) is not None
    except (AttributeError, LookupError, TypeError):
        return True


def made_by(program, words):
    """What a program makes of the arguments of `random`."""
    words = [*([sys.executable] if program == MADE_HERE else []), program, "random", *words]
    made = run(words)
    if made.status != 0 or not made.stdout:
        give_up(f"{' '.join(words)} ends with status {made.status}: {made.stderr.decode()[:400]}")
    return made.stdout.decode()


def make_trace(arguments, seed, version):
    """The trace of a seed, with the right answers."""
    words = ["--seed", str(seed), "--records", str(arguments.records)]
    options = {"version": version, "shape": arguments.shape, "spaces": arguments.spaces, "bits": arguments.bits}
    for option, value in options.items():
        words += [f"--{option}", str(value)] if value else []
    return answered(made_by(arguments.program, words))


def make_traces(arguments, bugs):
    """The traces of all seeds by their version, of those versions that the bugs need."""
    versions = {bug.version or arguments.version for bug in bugs}
    seeds = range(1, arguments.seeds + 1)
    return {version: [make_trace(arguments, seed, version) for seed in seeds] for version in versions}


def fault_in_reference(l4map, trace):
    """What l4map answers otherwise than the right reference, or an empty text."""
    right = "".join(line + "\n" for line in trace.right)
    return difference(Ended(0, right.encode(), b""), run([l4map], trace.text.encode()))


def found_by(bug, traces, arguments):
    """How many seeds find a bug."""
    wrong = reference(bug.edits).answers
    return sum(finds(trace, wrong) for trace in traces[bug.version or arguments.version])


def compare_replays(cases):
    """The right reference answers the stored replays as they are answered there."""
    answers = reference().answers
    for path in sorted(path for pattern in REPLAYS for path in glob.glob(os.path.join(TOP, pattern))):
        with open(path, encoding="utf-8", newline="") as file:
            trace = file.read()
        with open(path.removesuffix(".csv") + ".txt", encoding="utf-8") as file:
            wanted = file.read()
        got = "".join(line + "\n" for line in answers(trace))
        cases.check(f"reference: {os.path.relpath(path, TOP)}", "" if got == wanted else "it answers otherwise")


def check_quickly(arguments, bugs):
    cases = Cases()
    arguments.seeds = QUICK_SEEDS
    compare_replays(cases)
    check_traces(cases, arguments, bugs)
    compare_bytes(cases, arguments.program)
    cases.end()


def check_traces(cases, arguments, bugs):
    """l4map answers the traces as the right reference does, they reach what they are to, and one finds each bug."""
    traces = make_traces(arguments, bugs)
    for version, made in traces.items():
        for seed, trace in enumerate(made, 1):
            name = f"version {version}, seed {seed}"
            cases.check(f"{name}: l4map", fault_in_reference(arguments.l4map, trace))
            cases.check(f"{name}: outcomes and depth", shortfall(trace))
    for bug in bugs:
        cases.check(bug.name, "" if found_by(bug, traces, arguments) else f"no trace finds it: {bug.wrong}")


def compare_bytes(cases, program):
    """A program makes the same bytes as random_traces.py."""
    for seed, words in enumerate([words for words in SAME for _ in range(2)]):
        words = ["--seed", str(seed), *words.split()]
        same = made_by(program, words) == made_by(MADE_HERE, words)
        cases.check(f"bytes of {' '.join(words)}", "" if same else "random_traces.py makes others")


def measure(arguments, bugs):
    """Prints the table, and ends the script."""
    traces = make_traces(arguments, bugs)
    faults = [fault_in_reference(arguments.l4map, trace) for made in traces.values() for trace in made]
    for fault in filter(None, faults):
        print(f"FAILED l4map and the reference: {fault}")
    short = [why for made in traces.values() for why in map(shortfall, made) if why]
    enough, reached = -(-arguments.seeds * 9 // 10), 0
    print(f"| Bug | What is wrong | Found by, of {arguments.seeds} |\n|---|---|---|")
    for bug in bugs:
        found = found_by(bug, traces, arguments)
        reached += found >= enough
        print(f"| {bug.name} | {bug.wrong} | {found} |", flush=True)
    for version, made in traces.items():
        print_reached(version, made)
    print(f"{reached} of {len(bugs)} bugs are found by at least {enough} of {arguments.seeds} seeds")
    few = len(short) * 50 <= SELDOM * arguments.seeds * len(traces)
    sys.exit(0 if reached == len(bugs) and few and not any(faults) else 1)


def print_reached(version, made):
    """Prints how often each outcome comes, and how deep chains become: the least of all seeds, and the mean."""
    print(f"| Version {version} | Least | Mean |\n|---|---|---|")
    for outcome in OUTCOMES:
        counts = [trace.counts[outcome] for trace in made]
        print(f"| {outcome} | {min(counts)} | {sum(counts) / len(counts):.1f} |")
    depths = [trace.depth for trace in made]
    print(f"| depth | {min(depths)} | {sum(depths) / len(depths):.1f} |")
    short = sum(shortfall(trace) != "" for trace in made)
    print(f"{short} of {len(made)} seeds have an outcome less than {ENOUGH} times, or no chain of depth {DEEP}")


def read_arguments():
    out = os.path.join(TOP, "crates", "{0}", "out", "{0}")
    parser = argparse.ArgumentParser(description=__doc__, formatter_class=argparse.RawDescriptionHelpFormatter)
    parser.add_argument("program", nargs="?", default=out.format("l4trace"))
    parser.add_argument("--l4map", default=out.format("l4map"))
    parser.add_argument("--seeds", type=int, default=50)
    parser.add_argument("--records", type=int, default=1000)
    parser.add_argument("--version", type=int, choices=(1, 2), default=1)
    parser.add_argument("--shape")
    parser.add_argument("--spaces", type=int)
    parser.add_argument("--bits", type=int)
    parser.add_argument("--only", default="", metavar="WORD", help="the bugs with this word in their name")
    parser.add_argument("--quick", action="store_true")
    arguments = parser.parse_args()
    for program in (arguments.program, arguments.l4map):
        if not os.access(program, os.X_OK):
            give_up(f"there is no program {program}: ./build.sh proves it and builds it")
    arguments.program, arguments.l4map = (os.path.abspath(path) for path in (arguments.program, arguments.l4map))
    return arguments


def main():
    arguments = read_arguments()
    bugs = [bug for bug in read_bugs() if arguments.only in bug.name]
    (check_quickly if arguments.quick else measure)(arguments, bugs)


if __name__ == "__main__":
    main()
