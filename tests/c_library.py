#!/usr/bin/env python3
"""The library for programs in C and in Rust: what its archive asks for and has, what its functions answer, and that its
header, its Rust package, its examples and library.sh are right.

    tests/c_library.py [PROGRAM [ARCHIVE ARCHIVE_BY_RATTLE]]

The archive is built by both of the kit's compilers, and all is tried over both; the one by LLVM is left in
crates/capi/out. The programs of c/ are compared with the texts beside them, which were worked out by hand; c/readme.c
runs the functions that docs/KERNELS.md has. Traces are replayed by c/replay.c: those of replays/ and of examples/
as the answers beside them say, and random ones, made from a table of seeds, as the program l4map replays them; some of
both also under valgrind. Where there is no valgrind, C++ compiler, make or cargo, a line says what was not tried.
"""

import glob
import os
import random
import re
import shutil
import sys
import tempfile
from typing import NamedTuple

from support.archive import CAPI, build_both
from support.program import TOP, Cases, Ended, difference, program_path, run

INCLUDE = os.path.join(CAPI, "include")
SOURCES = os.path.join(TOP, "tests", "c")
EXAMPLE = os.path.join(TOP, "examples", "c")
ANSWER = os.path.join(TOP, "examples", "first-six-records.txt")

# Older valgrinds do not read the DWARF that newer compilers write by themselves.
STRICT = ["-O1", "-gdwarf-4", "-Wall", "-Wextra", "-Werror", "-pedantic", "-I", INCLUDE, "-I", SOURCES]
C11 = [os.environ.get("CC", "cc"), "-std=c11", *STRICT]
CPP17 = [os.environ.get("CXX", "c++"), "-std=c++17", *STRICT]
FREESTANDING = ["-ffreestanding", "-nostdlib", "-static", "-fno-stack-protector"]
VALGRIND = ["valgrind", "-q", "--error-exitcode=9", "--leak-check=full", "--errors-for-leak-kinds=all"]

# An arena in which the largest limits have room.
LARGE_ARENA = "-DARENA_BYTES=((size_t)1<<28)"

# What an archive may ask a program for: its heap, and what LLVM writes for copies of memory.
HEAP = {"rattle_alloc", "rattle_realloc", "rattle_dealloc"}
COPIES = {"memset", "memmove", "memcpy"}

# How nm marks a symbol that is asked for; w and v are weak ones.
ASKED_KINDS = "Uwv"

SEEDS = range(1, 301)
WATCHED_SEEDS = SEEDS[:10]
RECORDS = 40
REFUSALS = ["BadRecord", "BadSize", "Misaligned", "OutOfSpace", "NotAnItem", "BadControl", "NoSuchSpace", "SameSpace", "NoWindow"]


class Archive(NamedTuple):
    """An archive, the compiler of the kit that it is by, and what it may ask for."""

    backend: str
    path: str
    may_want: set


def source(name):
    return os.path.join(SOURCES, name)


def read(*path):
    with open(os.path.join(TOP, *path), "rb") as file:
        return file.read()


# The archives.


def archives(room):
    """The archives that the arguments name, or those that are built."""
    llvm, rattle = map(os.path.abspath, sys.argv[2:4]) if len(sys.argv) > 3 else build_both(room)
    return [Archive("LLVM", llvm, HEAP | COPIES), Archive("Rattle", rattle, HEAP)]


def fault_in_symbols(archive):
    """What an archive asks for that it may not, and which functions it alone or the header alone has; or an empty
    text."""
    listed = run(["nm", "-g", archive.path])
    if listed.status != 0:
        return f"nm does not read it: {listed.stderr[:200]!r}"
    symbols = re.findall(r"^(?:[0-9a-f]+)? +([A-Za-z]) (\S+)$", listed.stdout.decode(), re.M)
    defined = {name for kind, name in symbols if kind not in ASKED_KINDS}
    asked = {name for kind, name in symbols if kind in ASKED_KINDS} - defined
    declared = set(re.findall(r"^\w+ (l4map_\w+)\(", read(INCLUDE, "l4map.h").decode(), re.M))
    exported = {name for name in defined if name.startswith("l4map_")}
    return " ".join(sorted(asked - archive.may_want) + sorted(exported ^ declared))


def fault_in_variables(archive):
    """What size says of an archive that has variables, of the program or of a thread; or an empty text."""
    told = run(["size", "-t", archive.path])
    found = re.search(rb"^ *\d+\s+(\d+)\s+(\d+)\s.*\(TOTALS\)$", told.stdout, re.M)
    has_none = told.status == 0 and found and int(found[1]) == int(found[2]) == 0
    return "" if has_none else f"size ends with {told}"


# Programs in C.


def compiled(cases, name, words, path):
    """Compiles a program, which is a case, and says whether that was done."""
    done = run([*words, "-o", path])
    why = "" if done.status == 0 else f"status {done.status}: {done.stderr.decode(errors='replace')[:600]}"
    cases.check(f"{name} is compiled", why)
    return not why


def check_program(cases, room, archive, name):
    """A program over the arena, which writes the text beside its source; under valgrind too."""
    program = os.path.join(room, name)
    words = [*C11, "-I", room, source(name + ".c"), source("arena.c"), archive.path]
    if not compiled(cases, f"{name}, {archive.backend}", words, program):
        return
    wanted = Ended(0, read(SOURCES, name + ".txt"), b"")
    cases.compare(f"{name}, {archive.backend}", wanted, run([program]))
    if shutil.which("valgrind"):
        cases.compare(f"{name} under valgrind, {archive.backend}", wanted, run([*VALGRIND, program]))


def check_bare(cases, room, archive):
    """The library in a program without a C library."""
    program = os.path.join(room, "bare")
    words = [*C11, *FREESTANDING, source("bare.c"), source("arena.c"), archive.path]
    if compiled(cases, f"bare, {archive.backend}", words, program):
        cases.compare(f"bare, {archive.backend}", Ended(0, b"", b""), run([program]))


def check_cpp(cases, room, archive):
    """The header in a program in C++, and the pager in C as one in C++."""
    if not shutil.which(CPP17[0]):
        return
    pager, heap = os.path.join(EXAMPLE, "pager.c"), os.path.join(EXAMPLE, "heap.c")
    check_in_cpp(cases, room, archive, source("header.cpp"), source("arena.c"), b"")
    check_in_cpp(cases, room, archive, pager, heap, read(ANSWER))


def check_in_cpp(cases, room, archive, path, heap, wanted):
    """A program compiled as C++, over a heap in C."""
    compiled_heap, program, name = os.path.join(room, "heap.o"), os.path.join(room, "in_cpp"), os.path.basename(path)
    words = [*CPP17, "-x", "c++", path, "-x", "none", compiled_heap, archive.path]
    if compiled(cases, f"the heap of {name} in C++", [*C11, "-c", heap], compiled_heap):
        if compiled(cases, f"{name} in C++, {archive.backend}", words, program):
            cases.compare(f"{name} in C++, {archive.backend}", Ended(0, wanted, b""), run([program]))


def write_functions_of_document(room):
    """The blocks in C of docs/KERNELS.md, as live.h and follow.h, which c/readme.c includes."""
    found = re.findall(r"^```c\n((?:.*\n)*?)```$", read("docs", "KERNELS.md").decode(), re.M)
    for name, block in zip(("live.h", "follow.h"), [*found, "", ""]):
        with open(os.path.join(room, name), "w", encoding="utf-8") as file:
            file.write(block)


def numbers(text):
    """Lines of a name and a number."""
    return {name.decode(): int(number) for name, number in re.findall(rb"^(.+) (\d+)$", text, re.M)}


def check_room(cases, room, archive):
    """How much heap and stack the library takes: some, and no more than room.txt says."""
    program = os.path.join(room, "room")
    words = [*C11, LARGE_ARENA, source("room.c"), source("arena.c"), archive.path]
    if not compiled(cases, f"room, {archive.backend}", words, program):
        return
    done, most = run([program]), numbers(read(SOURCES, "room.txt"))
    cases.check(f"room, {archive.backend}", "" if done.status == 0 else f"it ended with {done}")
    taken = numbers(done.stdout)
    for name in sorted(most.keys() | taken.keys()):
        said = taken.get(name, 0)
        right = 0 < said <= most.get(name, 0)
        cases.check(f"room: {name}, {archive.backend}", "" if right else f"{said} in place of 1 to {most.get(name, 0)}")


# Traces.


def odd(chance):
    """Whether something is to be done that is not done often."""
    return chance.random() < 0.04


def a_word(chance, low):
    """A word with a page near the beginning of a space and these low bits; now and then one bit of it is another."""
    word = chance.randrange(8) * 4096 + low
    return word ^ 1 << chance.randrange(32) if odd(chance) else word


def an_fpage(chance):
    """The word of a few pages, or of none, or of all; now and then it is none."""
    rights, size = chance.choice([7, 7, 7, 6, 5, 4, 2, 0]), chance.choice([0, 1, 1, 12, 12, 12, 12, 13, 13, 14, 15])
    if size < 12:
        return size * 16 + rights if not odd(chance) else chance.getrandbits(32)
    word = a_word(chance, size * 16 + rights)
    return word if odd(chance) else word & ~((1 << size) - 4096)


def a_send(chance, spaces):
    words = []
    for _ in range(chance.choice([1, 1, 1, 2, 3, 31 if odd(chance) else 1, 32 if odd(chance) else 1])):
        words += [a_word(chance, chance.choice([8, 8, 8, 10])), an_fpage(chance)]
    window = chance.choice([16, 16, 16, an_fpage(chance)])
    sender, receiver = chance.sample(range(spaces + odd(chance)), 2)
    receiver = sender if odd(chance) else receiver
    return ",".join(["send", str(sender), str(receiver)] + [f"{word:x}" for word in [window, *words[odd(chance) :]]])


def an_unmap(chance, spaces):
    words = [an_fpage(chance) for _ in range(chance.choice([1, 1, 1, 2, 4, 64 if odd(chance) else 1, 65 if odd(chance) else 1]))]
    control = chance.choice([0, 0, 0, 64]) + len(words) - 1 + odd(chance)
    return ",".join(["unmap", str(chance.randrange(spaces + odd(chance)))] + [f"{word:x}" for word in [control, *words]])


def an_access(chance, spaces):
    address = a_word(chance, chance.randrange(4096))
    return f"access,{chance.randrange(spaces + odd(chance))},{address:x},{chance.choice('rwx')}"


def a_clear(chance, spaces):
    return f"clear,{0 if odd(chance) else chance.randrange(1, spaces + odd(chance))}"


def random_trace(seed):
    """A trace in which each field has its form, but now and then not the number of words of a send. Every other one has
    version 2, and clears."""
    chance = random.Random(seed)
    version = 1 + seed % 2
    kinds = [a_send] * 5 + [an_access] * 2 + [an_unmap] + [a_clear] * (version - 1)
    spaces, bits = chance.choice([2, 3, 3, 4]), chance.choice([18, 18, 19])
    records = [f"l4map,{version},{spaces},{bits},{chance.choice([4, 8, 16, 64])}"]
    for _ in range(RECORDS):
        records.append(chance.choice(kinds)(chance, spaces))
    return "".join(record + "\n" for record in records).encode()


def stored(folder):
    """The names of the traces of a folder, and for each the trace and how its replay ends, by the answer beside it."""
    found = sorted(path.removesuffix(".csv") for path in glob.glob(f"{folder}/*.csv", root_dir=TOP))
    return {name: (read(name + ".csv"), Ended(0, read(name + ".txt"), b"")) for name in found}


def check_stored(cases, replay, backend):
    """The traces of examples/ and of replays/, with the answers beside them."""
    traces = {**stored("examples"), **stored("tests/replays/*")}
    cases.check("there are traces", "" if traces else "none was found")
    for name, (trace, wanted) in traces.items():
        cases.compare(f"{name}, {backend}", wanted, run([replay], trace))


def check_random(cases, replay, backend, replayed):
    """Random traces, as l4map replays them."""
    for seed, wanted in replayed.items():
        cases.compare(f"seed {seed}, {backend}", wanted, run([replay], random_trace(seed)))


def replay_random(cases, program):
    """What l4map writes for each random trace; all together they are to meet each refusal."""
    replayed = {seed: run([program], random_trace(seed)) for seed in SEEDS}
    failed = [seed for seed, ended in replayed.items() if ended.status != 0]
    cases.check("l4map replays the random traces", f"not those of the seeds {failed}" if failed else "")
    said = b"".join(ended.stdout for ended in replayed.values())
    missing = [name for name in REFUSALS if f" refused {name}\n".encode() not in said]
    cases.check("random traces meet each refusal", " ".join(missing))
    return replayed


def check_watched(cases, replay, backend, replayed):
    """Some traces, one behind another, under valgrind: it knows each block of this heap, and none of an arena."""
    if not shutil.which("valgrind"):
        return
    traces = [*stored("examples").values(), *((random_trace(seed), replayed[seed]) for seed in WATCHED_SEEDS)]
    wanted = Ended(0, b"".join(ended.stdout for _, ended in traces), b"")
    got = run([*VALGRIND, replay], b"".join(trace for trace, _ in traces))
    cases.compare(f"replay under valgrind, {backend}", wanted, got)


def check_replays(cases, room, archive, replayed):
    """The program that replays traces, over the heap of the examples."""
    replay = os.path.join(room, "replay")
    words = [*C11, source("replay.c"), os.path.join(EXAMPLE, "heap.c"), archive.path]
    if not compiled(cases, f"replay, {archive.backend}", words, replay):
        return
    check_stored(cases, replay, archive.backend)
    check_random(cases, replay, archive.backend, replayed)
    check_watched(cases, replay, archive.backend, replayed)


# Examples, the Rust package and library.sh, in a copy of what they need.


def copy_tree(room):
    """A copy of the examples, the Rust package and the header, at their places."""
    tree = os.path.join(room, "tree")
    skipped = shutil.ignore_patterns("out", "target", "Cargo.lock")
    for folder in ("examples/c", "examples/rust", "bindings/rust", "crates/capi/include"):
        shutil.copytree(os.path.join(TOP, folder), os.path.join(tree, folder), ignore=skipped)
    return tree


def put_in_place(tree, archive):
    """Leaves the archive in the copy where library.sh would, and so where both examples look for it."""
    folder = os.path.join(tree, "crates", "capi", "out")
    os.makedirs(folder, exist_ok=True)
    shutil.copy(archive.path, os.path.join(folder, "libcapi.a"))


def environment(**settings):
    """The environment of a run that is told of no archive but by these settings."""
    told = {name: value for name, value in os.environ.items() if name not in ("ARCHIVE", "L4MAP_ARCHIVE")}
    return {**told, **settings}


def check_c_example(cases, tree, archive):
    """The examples in C, compiled anew each time: by the command of the READMEs, and over an archive that is named."""
    if not shutil.which("make"):
        return
    for how, words in (("as it stands", []), ("over a named archive", [f"ARCHIVE={archive.path}"])):
        shutil.rmtree(os.path.join(tree, "examples", "c", "out"), ignore_errors=True)
        got = run(["make", "-C", "examples/c", "run", *words], cwd=tree, env=environment())
        # What make says itself, and the commands by which it compiles.
        said = re.sub(rb"^(?:make\b|.* -o out/(?:pager|tables) ).*\n", b"", got.stdout, flags=re.M)
        # Its numbers of changes and mappings were not worked out by hand; they are not 0.
        said = re.sub(rb"^(10000 calls), [1-9]\d+ changes, [1-9]\d+ mappings: ", rb"\1: ", said, flags=re.M)
        wanted = Ended(0, read(ANSWER) + b"10000 calls: the tables are right\n", b"")
        cases.compare(f"examples/c {how}, {archive.backend}", wanted, got._replace(stdout=said))


def cargo(tree, folder, *words, **settings):
    """One run of cargo in a folder of the copy, which leaves what it makes there too."""
    env = environment(CARGO_TARGET_DIR=os.path.join(tree, "target"), **settings)
    return run(["cargo", *words, "--offline", "--quiet"], cwd=os.path.join(tree, folder), env=env)


def check_rust(cases, tree, archive):
    """The tests of the Rust package, of its units, its changes, its heap and its documentation, and the example over it,
    which looks for the archive where library.sh leaves it."""
    package, name, named = "bindings/rust", f"bindings/rust, {archive.backend}", {"L4MAP_ARCHIVE": archive.path}
    if not shutil.which("cargo"):
        return
    tested = cargo(tree, package, "test", **named)
    counts = [int(count) for count in re.findall(rb"^test result: ok\. (\d+) passed; 0 failed;", tested.stdout, re.M)]
    right = tested.status == 0 and len(counts) == 4 and all(counts)
    cases.check(f"{name}: its tests", "" if right else f"it ended with {tested}")
    got = cargo(tree, package, "build", "--no-default-features", **named)
    cases.compare(f"{name}: without its heap", Ended(0, b"", b""), got)
    got = cargo(tree, ".", "run", "--manifest-path", "examples/rust/Cargo.toml")
    cases.compare(f"examples/rust, {archive.backend}", Ended(0, read(ANSWER), b""), got)


def check_missing_archive(cases, tree):
    """Where there is no archive one line says so."""
    nowhere = "/nowhere/libcapi.a"
    if shutil.which("make"):
        got = run(["make", "-C", os.path.join(tree, "examples", "c"), "ARCHIVE=" + nowhere])
        line = b"there is no archive /nowhere/libcapi.a: ./library.sh at the top of the repository builds it\n"
        cases.check("examples/c without the archive", "" if got.status and line in got.stderr else f"it ended with {got}")
    if shutil.which("cargo"):
        got = cargo(tree, "bindings/rust", "build", L4MAP_ARCHIVE=nowhere)
        line = b": there is no archive /nowhere/libcapi.a: ./library.sh builds one, and L4MAP_ARCHIVE may name another\n"
        cases.check("bindings/rust without the archive", "" if got.status and line in got.stderr else f"it ended with {got}")


def stand_in(room, text):
    """An environment in which the command `rt` is this script."""
    folder = tempfile.mkdtemp(dir=room)
    with open(os.path.join(folder, "rt"), "w", encoding="ascii", opener=lambda path, flags: os.open(path, flags, 0o755)) as file:
        file.write("#!/usr/bin/env bash\n" + text)
    return {**os.environ, "PATH": folder + os.pathsep + os.environ["PATH"], "TMPDIR": room}


def tools_without_rt(room):
    """An environment in which there is no `rt`, but what library.sh uses."""
    folder = tempfile.mkdtemp(dir=room)
    for tool in ("awk", "bash", "dirname", "env", "find", "readlink", "tac"):
        os.symlink(shutil.which(tool), os.path.join(folder, tool))
    return {"PATH": folder}


def check_script(cases, room):
    """library.sh in a copy, with a command in place of `rt` that builds at once, or that fails."""
    copy = os.path.join(room, "a copy")
    os.makedirs(os.path.join(copy, "crates", "words", "src"))
    os.makedirs(os.path.join(copy, "crates", "capi"))
    for name in ("maptree", "fpage"):
        os.mkdir(os.path.join(copy, "crates", name))
    for name in ("library.sh", "proving.sh"):
        shutil.copy(os.path.join(TOP, name), copy)
    with open(os.path.join(copy, "crates.txt"), "w", encoding="ascii") as file:
        file.write("# crates\nfpage: thiserror\nmaptree may_wait=2: fpage\nmaptree_tests: maptree\nwords: fpage\n")
        file.write("capi staticlib: words std_alloc\nl4map: words maptree\n")
    link = os.path.join(room, "link")
    os.symlink(os.path.join(copy, "library.sh"), link)
    archive, asked = os.path.join(copy, "crates", "capi", "out", "libcapi.a"), os.path.join(room, "asked")
    builds = stand_in(room, f'echo "$(basename "$PWD") $*" >> {asked}; mkdir -p out; [[ $PWD != */capi ]] || touch out/libcapi.a\n')
    told = f"{link}: the archive is {archive}\n{link}: its header is {copy}/crates/capi/include/l4map.h\n".encode()

    missing = "the command rt is missing: install the Rattle kit and put its bin folder on the PATH"
    got = run([link], env=tools_without_rt(room), cwd=room)
    cases.compare("library.sh without the kit", Ended(1, b"", f"{link}: {missing}\n".encode()), got)
    got = run([link], env=stand_in(room, "[[ $PWD != */words ]]\n"), cwd=room)
    right = got.status == 1 and re.fullmatch(rb".*: the crate words is not built; what rt said is in .*\n", got.stderr)
    cases.check("library.sh with a crate that does not build", "" if right else f"it ended with {got}")
    got = run([link], env=builds, cwd=room)
    right = got.status == 0 and got.stdout.endswith(told) and not got.stderr
    cases.check("library.sh tells where the archive is", "" if right else f"it ended with {got}")
    cases.check("library.sh builds what the archive stands on", differs(asked, "fpage lib\nwords lib\ncapi lib\n"))
    cases.compare("library.sh with a current archive", Ended(0, told, b""), run([link], env=tools_without_rt(room), cwd=room))
    os.utime(archive, (1, 1))
    cases.check("library.sh with an old archive", difference(Ended(0, got.stdout, b""), run([link], env=builds, cwd=room)))
    cases.check("library.sh builds an old archive anew", differs(asked, "fpage lib\nwords lib\ncapi lib\n" * 2))
    os.remove(asked)
    by_rattle = os.path.join(os.path.dirname(archive), "libcapi-rattle.a")
    got = run([link, "--backend", "rattle"], env=builds, cwd=room)
    right = got.status == 0 and got.stdout.endswith(told.replace(archive.encode(), by_rattle.encode())) and not got.stderr
    cases.check("library.sh tells where the archive by rattle is", "" if right else f"it ended with {got}")
    cases.check("library.sh builds both archives", differs(asked, "fpage lib\nwords lib\ncapi lib\ncapi lib --backend rattle\n"))
    cases.check("library.sh keeps both archives", "" if os.path.exists(archive) and os.path.exists(by_rattle) else "one is missing")
    wanted = Ended(1, b"", f"{link}: usage: {link} [--backend llvm|rattle]\n".encode())
    cases.compare("library.sh with an argument", wanted, run([link, "--fast"], env=builds, cwd=room))


def differs(path, wanted):
    """What stands in a file, where that is not what is wanted."""
    with open(path, encoding="ascii") as file:
        text = file.read()
    return "" if text == wanted else f"there is {text!r}"


def tell_what_is_missing():
    for tool in ("valgrind", CPP17[0], "make", "cargo"):
        if not shutil.which(tool):
            print(f"not tried, for there is no {tool}: what needs it")


def main():
    program, cases = program_path(), Cases()
    tell_what_is_missing()
    with tempfile.TemporaryDirectory() as room:
        check_script(cases, room)
        replayed, tree = replay_random(cases, program), copy_tree(room)
        write_functions_of_document(room)
        for archive in archives(room):
            put_in_place(tree, archive)
            cases.check(f"what the archive asks for, {archive.backend}", fault_in_symbols(archive))
            cases.check(f"the archive has no variables, {archive.backend}", fault_in_variables(archive))
            for name in ("look", "words", "calls", "changes", "listings", "refused", "large", "readme"):
                check_program(cases, room, archive, name)
            check_bare(cases, room, archive)
            check_cpp(cases, room, archive)
            check_room(cases, room, archive)
            check_replays(cases, room, archive, replayed)
            check_c_example(cases, tree, archive)
            check_rust(cases, tree, archive)
        check_missing_archive(cases, tree)
    cases.end()


main()
