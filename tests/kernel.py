#!/usr/bin/env python3
"""The kernel of examples/kernel over the archive by the Rattle backend: the right one passes its own checks, and two
wrong ones fail in them.

    tests/kernel.py [ARCHIVE]

The archive is built, if none is named. The kernels are built anew in a copy of the examples, and qemu boots them. Where
there is no qemu-system-x86_64 a line says what was skipped, which counts as nothing.
"""

import os
import re
import shutil
import sys
import tempfile

from support.archive import CAPI, build_both
from support.program import TOP, Cases, give_up, run

QEMU = os.environ.get("QEMU", "qemu-system-x86_64")

# What the right kernel says. The accesses are those of 6 records and one for each random call.
SAID = re.compile(
    r"first-six-records: 6 records were answered as expected\n"
    r"chain-and-its-revocation: 10 records were answered as expected\n"
    r"20000 random calls, with an access in ring 3 behind each\n"
    r"20010 calls noted (?P<changes>\d+) changes of pages\n"
    r"(?P<made>\d+) accesses in ring 3 were made, (?P<faults>\d+) were faults\n"
    r"216 walks over the page tables found what the database holds\n"
    r"the timer interrupted (?P<ticks>\d+) times\n"
)
ACCESSES = 20_006
LEAST = {"changes": 20_000, "made": 5_000, "faults": 5_000, "ticks": 1}

HELD = r"(?:nothing|frame \d+ [r-][w-][x-])"

PLACE = r"FAILED call \d+, page \d:\d+: "
WAS_MADE = r"an? \w+ was made, and should be a fault; "

# How the wrong kernels fail. Without a flush the table is right, and the processor does not heed it.
FAILURES = {
    "no-flush": rf"{PLACE}{WAS_MADE}the table has ({HELD}), expected \1",
    "caller-only": rf"{PLACE}(?:{WAS_MADE})?the table has ({HELD}), expected (?!\1$){HELD}",
}


def copy_tree(room):
    """A copy of the examples and the header, at their places; the folder of the kernel there."""
    tree = os.path.join(room, "tree")
    skipped = shutil.ignore_patterns("out", "target")
    shutil.copytree(os.path.join(TOP, "examples"), os.path.join(tree, "examples"), ignore=skipped)
    shutil.copytree(os.path.join(CAPI, "include"), os.path.join(tree, "crates", "capi", "include"))
    return os.path.join(tree, "examples", "kernel")


def make(folder, target, archive, kind="right"):
    """One run of make in the folder of the kernel."""
    env = {name: value for name, value in os.environ.items() if name not in ("ARCHIVE", "MAKEFLAGS")}
    words = ["make", "--no-print-directory", "-C", folder, target, f"ARCHIVE={archive}", f"WRONG={kind}"]
    return run(words, env=env)


def check_missing_archive(cases, folder):
    got = make(folder, "run", "/nowhere/libcapi.a")
    line = b"there is no archive /nowhere/libcapi.a: ./library.sh --backend rattle builds one\n"
    cases.check("without an archive", "" if got.status and line in got.stderr else f"it ended with {got}")


def check_red_zone(cases, folder, archive):
    """The archive by LLVM is refused."""
    got = make(folder, "out/right/kernel", archive)
    line = b"the archive is LLVM's, which uses the red zone: ./library.sh --backend rattle builds one\n"
    cases.check("over the archive by LLVM", "" if got.status and line in got.stderr else f"it ended with {got}")


def is_built(cases, folder, archive, kind):
    """Builds a kernel, which is a case, and says whether that was done."""
    got = make(folder, f"out/{kind}/kernel", archive, kind)
    why = "" if got.status == 0 else f"status {got.status}: {got.stderr.decode(errors='replace')[-600:]}"
    cases.check(f"the kernel is built, {kind}", why)
    return not why


def fault_in_right(got):
    """What is wrong with how the right kernel ended, or an empty text."""
    said = SAID.fullmatch(got.stdout.decode(errors="replace"))
    if got.status != 0 or got.stderr or not said:
        return f"it ended with {got}"
    few = [f"{name}: {said[name]}" for name, least in LEAST.items() if int(said[name]) < least]
    if int(said["made"]) + int(said["faults"]) != ACCESSES:
        few.append(f"{said['made']} and {said['faults']} accesses are not {ACCESSES}")
    return "; ".join(few)


def fault_in_wrong(got, kind):
    """What is wrong with how a wrong kernel ended: it must fail, in its last line, as its kind must."""
    lines = got.stdout.decode(errors="replace").splitlines() or [""]
    failed = got.status and b"this kernel is wrong: qemu ended with status 35\n" in got.stderr
    return "" if failed and re.fullmatch(FAILURES[kind], lines[-1]) else f"it ended with {got}"


def check_kernels(cases, folder, archive):
    """Builds all kernels, and boots them where there is an emulator."""
    built = [kind for kind in ("right", *FAILURES) if is_built(cases, folder, archive, kind)]
    if not shutil.which(QEMU):
        print(f"skipped, for there is no {QEMU}: {len(built)} kernels are built and not booted")
        return
    for kind in built:
        got = make(folder, "run", archive, kind)
        cases.check(f"the kernel runs, {kind}", fault_in_right(got) if kind == "right" else fault_in_wrong(got, kind))


def main():
    cases = Cases()
    if not shutil.which("make"):
        give_up("there is no make")
    with tempfile.TemporaryDirectory() as room:
        folder = copy_tree(room)
        check_missing_archive(cases, folder)
        if len(sys.argv) > 1:
            archive = os.path.abspath(sys.argv[1])
        else:
            llvm, archive = build_both(room)
            check_red_zone(cases, folder, llvm)
        check_kernels(cases, folder, archive)
    cases.end()


main()
