#!/usr/bin/env python3
"""Whatever the number of workers and the length of pieces, the same bytes.

    tests/workers.py [PROGRAM]

Each trace of replays/ and examples/ runs with every choice of options, and must end as the answer beside it says.
Random traces, made from a fixed table of seeds, run with some of the choices each; their answers are not known, so all
runs of a trace must end as the first does, with status 0. A trace whose calls are worked by up to 64 threads each runs
a thousand times, several runs at once, and must always end the same. The audit of a random trace must be lawful.

The program shares large phases alone. So each trace is also given to a test of crates/database_tests, as `rt ci` leaves
it, that replays it by crews that share every phase, with 1, 4 and 64 workers and pieces of 1, 2, 7 and 256.
"""

import glob
import os
import random
from concurrent.futures import ThreadPoolExecutor

from support.audit import fault_in_audit
from support.program import TOP, Cases, Ended, difference, program_path, run

FOLDERS = ["examples", "tests/replays/*"]
WORKERS = [1, 4, 64]
PIECES = [1, 2, 7, 256, 65536]
SHARES = [
    os.path.join(TOP, "crates/database_tests/out/database_tests_tests"),
    "replays::shared::crews_that_share_every_phase_write_what_one_worker_writes",
    "standard-input",
]
SHARED = b"12 crews wrote what one worker writes\n"
CHOICES = [["--workers", str(w), "--piece", str(p)] for w in WORKERS for p in PIECES] + [["--plain"]]

SEEDS = range(1, 201)
CHOICES_OF_A_SEED = 6
RECORDS = 40
SPACES = 3
PAGES = 8

RUNS = 1000
RUNS_AT_ONCE = 3 * (os.cpu_count() or 1)


def names():
    """The traces, by their paths in the repository without the ending."""
    found = (path for folder in FOLDERS for path in glob.glob(f"{folder}/*.csv", root_dir=TOP))
    return sorted(path.removesuffix(".csv") for path in found)


def read(path):
    with open(os.path.join(TOP, path), "rb") as file:
        return file.read()


def a_space(chance):
    return chance.randrange(SPACES)


def an_fpage(chance):
    """The word of some pages near the beginning of a space, or of none, or of all."""
    rights = chance.choice([7, 7, 7, 7, 7, 6, 5, 4, 2, 0])
    size = chance.choice([0, 1, 12, 12, 12, 12, 13, 13, 14, 14, 15])
    if size < 12:
        return 16 * size + rights
    pages = 1 << (size - 12)
    return chance.randrange(PAGES // pages) * pages * 4096 + 16 * size + rights


def a_send(chance):
    words = []
    for _ in range(chance.choice([1, 1, 1, 2, 3])):
        base = chance.randrange(PAGES) * 4096
        words += [base + chance.choice([8, 8, 8, 10]), an_fpage(chance)]
    window = chance.choice([16, 16, an_fpage(chance)])
    texts = ",".join(f"{word:x}" for word in [window] + words)
    sender, receiver = chance.sample(range(SPACES), 2)
    return f"send,{sender},{receiver},{texts}"


def an_unmap(chance):
    words = [an_fpage(chance) for _ in range(chance.choice([1, 1, 2, 4]))]
    control = chance.choice([0, 0, 0, 0, 64]) + len(words) - 1
    return ",".join([f"unmap,{a_space(chance)},{control:x}"] + [f"{word:x}" for word in words])


def an_access(chance):
    address = chance.randrange(PAGES) * 4096
    return f"access,{a_space(chance)},{address:x},{chance.choice('rwx')}"


def a_clear(chance):
    # What space 0 holds would be gone for good.
    return f"clear,{chance.randrange(1, SPACES)}"


def a_bad_record(chance):
    return chance.choice(
        [
            "access,9,0,r",
            "access,0,40000,r",
            "access,0,0,q",
            "send,1,1,10,8,c7",
            "send,0,1,0,8,c7",
            "send,0,1,10,4,c7",
            "send,0,9,10,8,c7",
            "clear,9",
            "unmap,9,0,10",
            "unmap,0,1,10",
            "unmap,0,0,57",
            "unmap,0,0,10d7",
            "map,0,1",
        ]
    )


def random_trace(seed):
    """Every other one has version 2, and clears."""
    chance = random.Random(seed)
    version = 1 + seed % 2
    kinds = [a_send] * 8 + [an_unmap] * 2 + [an_access] * 4 + [a_bad_record] + [a_clear] * (version - 1)
    records = [f"l4map,{version},{SPACES},18,{PAGES}"]
    for _ in range(RECORDS):
        records.append(chance.choice(kinds)(chance))
    return "".join(record + "\n" for record in records).encode()


def trace_for_many_workers():
    """A trace whose sends, unmaps and clear start threads, and its answer by the definitions: 512 pages go to two
    spaces, lose a right, and are granted on by one of them; the other one is deleted."""
    pages = range(512)
    trace, answer = ["l4map,2,4,21,512"], []

    def call(record, reply):
        trace.append(record)
        answer.append(f"{len(trace) - 1} {reply}")

    sent = "send absent=0 norights=0 origin=0 lost=0 extended=0 linked=512"
    for space in (1, 2):
        call(f"send,0,{space},10,8,17", sent)
    for space in (1, 2):
        call(f"access,{space},{space * 4096:x},r", "access ok")
    call("unmap,0,0,12", "unmap 00000014")
    call("access,1,5000,x", "access ok")
    call("access,2,5000,w", "access fault")
    call("send,2,3,10,a,17", sent)
    call("unmap,0,0,10", "unmap 00000015")
    call("unmap,0,40,50c1", "unmap 000050c0")
    call("access,1,7000,x", "access ok")
    call("clear,1", "clear 00000015")
    for space in (0, 3):
        for page in pages:
            rights = "r" + ("w" if space == 0 else "-") + ("x" if page != 5 else "-")
            status = "R-X" if (space, page) == (0, 7) else "---"
            origin = "-" if space == 0 else f"0:{page}"
            answer.append(f"{space},{page},{page},{rights},{status},{origin}")
    answer.append(f"end {len(trace) - 1} 0")
    return ["".join(line + "\n" for line in lines).encode() for lines in (trace, answer)]


def check_many_runs(program, pool):
    """What is wrong with one of a thousand runs, of which several are at work at once."""
    given, answer = trace_for_many_workers()
    words = [program, "--workers", "64", "--piece", "1"]
    wrong = [difference(Ended(0, answer, b""), got) for got in pool.map(lambda _: run(words, given), range(RUNS))]
    return next(filter(None, wrong), "")


def what_crews_write(given):
    """What is wrong with how crews work a trace that share every phase."""
    got = run(SHARES, given)
    return "" if got.status == 0 and SHARED in got.stdout else f"status {got.status}, {got.stdout + got.stderr!r}"


def check_stored(program, name):
    """What is wrong with the runs of a stored trace, choice by choice."""
    given, wanted = read(name + ".csv"), Ended(0, read(name + ".txt"), b"")
    for choice in CHOICES:
        yield f"{name} {' '.join(choice)}", difference(wanted, run([program] + choice, given))
    yield f"{name} by crews that share every phase", what_crews_write(given)


def check_random(program, seed):
    """What is wrong with the runs of a random trace, with some choices of the options."""
    given = random_trace(seed)
    choices = random.Random(-seed).sample(CHOICES[:-1], CHOICES_OF_A_SEED - 1) + CHOICES[-1:]
    first = run([program, "--workers", "1", "--piece", "65536"], given)
    wanted = Ended(0, first.stdout, b"")
    yield f"seed {seed}", difference(wanted, first) or fault_in_audit(first.stdout)
    for choice in choices:
        yield f"seed {seed} {' '.join(choice)}", difference(wanted, run([program] + choice, given))
    yield f"seed {seed} by crews that share every phase", what_crews_write(given)


def main():
    program, cases = program_path(), Cases()
    with ThreadPoolExecutor(max_workers=os.cpu_count()) as pool:
        found = list(pool.map(lambda name: list(check_stored(program, name)), names()))
        found += pool.map(lambda seed: list(check_random(program, seed)), SEEDS)
    for checks in found:
        for name, why in checks:
            cases.check(name, why)
    with ThreadPoolExecutor(max_workers=RUNS_AT_ONCE) as pool:
        cases.check(f"{RUNS} runs with 64 workers and the least pieces", check_many_runs(program, pool))
    cases.end()


main()
