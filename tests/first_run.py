#!/usr/bin/env python3
"""What run.sh and build.sh do, as a new user meets them: over the built program, without it, and without the kit.

    tests/first_run.py

What is to be seen without the built program is seen in copies of the repository. There run.sh builds a program without
proofs, in a minute or two; so that is done twice only, at once, and elsewhere a script stands in for the command `rt`.
"""

import os
import pty
import re
import shutil
import tempfile
from concurrent.futures import ThreadPoolExecutor

from support.program import TOP, Cases, Ended, program_path, run

TRACE = b"l4map,1,2,18,1\nsend,0,1,10,3008,c6\naccess,1,3abc,w\n"
ANSWER = (
    b"1 send absent=0 norights=0 origin=0 lost=0 extended=0 linked=1\n"
    b"2 access ok\n"
    b"0,0,0,rwx,---,-\n"
    b"1,3,0,rw-,RW-,0:0\n"
    b"end 2 0\n"
)
DONE = Ended(0, ANSWER, b"")
NOBODY = 65534
PROGRAMS = ("l4map", "l4trace")

# The crates that only library.sh builds.
OF_LIBRARY = ("c_handle", "capi")

# What run.sh says where the program is not built, before anything else, and where the program cannot be run to its end.
NOTICE = b"./run.sh: the program is not built; running it without proofs, in a minute or two (./build.sh proves and builds it)\n"
BUILDER = b"; ./build.sh builds the program, which has no such limit\n"
TOO_LONG = b"./run.sh: without proofs no more than 1 MiB can be written, and this trace has more" + BUILDER
TOO_SLOW = b"./run.sh: without proofs a run may take a minute, and this trace takes more" + BUILDER

# The seconds that a run without proofs may take where the machine is slow.
PATIENCE = 400

# 14 spaces that all hold 4,096 pages, so more than 1 MiB of audit.
LONG = b"l4map,1,14,24,4096\n" + b"".join(b"send,0,%d,10,8,17\n" % space for space in range(1, 14))

# Name, command and standard input of a run that is done.
TAKEN = [
    ("a trace", ["./run.sh", "{room}/trace.csv"], b""),
    ("standard input by its sign", ["./run.sh", "-"], TRACE),
    ("standard input by no argument", ["./run.sh"], TRACE),
    ("a trace with arguments", ["./run.sh", "{room}/trace.csv", "--workers", "2", "--plain"], b""),
    ("standard input with arguments", ["./run.sh", "-", "--piece=1"], TRACE),
    ("a name with spaces", ["./run.sh", "{room}/a  trace .csv"], b""),
    ("a name with a line feed", ["./run.sh", "{room}/a\ntrace.csv"], b""),
    ("a symbolic link to run.sh", ["{room}/link"], TRACE),
    ("a link to that link", ["{room}/links/link", "{room}/trace.csv"], b""),
    ("run.sh by its whole path", [os.path.join(TOP, "run.sh"), "{room}/trace.csv"], b""),
    ("run.sh by bash", ["bash", "run.sh", "{room}/trace.csv"], b""),
]
# Name, command, and the one line that tells why nothing is run.
REFUSED = [
    ("a file that is not there", ["./run.sh", "{room}/none.csv"], "./run.sh: there is no trace '{room}/none.csv'\n"),
    ("an empty name", ["./run.sh", ""], "./run.sh: there is no trace ''\n"),
    ("a folder", ["./run.sh", "tests"], "./run.sh: the trace 'tests' is a folder\n"),
    (
        "an argument in place of the trace",
        ["./run.sh", "--workers", "3"],
        "./run.sh: there is no trace '--workers'; usage: ./run.sh TRACE [ARGUMENT..]\n",
    ),
    ("a name by the link", ["{room}/link", "none.csv"], "{room}/link: there is no trace 'none.csv'\n"),
]


def placed(words, room):
    return [word.replace("{room}", room) for word in words]


def make_room(room):
    """Traces under several names, and links to run.sh."""
    os.chmod(room, 0o755)
    os.mkdir(os.path.join(room, "links"))
    for name in ("trace.csv", "a  trace .csv", "a\ntrace.csv", "-trace.csv", "--help"):
        with open(os.path.join(room, name), "wb") as file:
            file.write(TRACE)
    os.symlink(os.path.join(TOP, "run.sh"), os.path.join(room, "link"))
    os.symlink("../link", os.path.join(room, "links", "link"))


def check_traces(cases, room):
    """Which traces are taken and which refused."""
    for name, words, given in TAKEN:
        cases.compare(f"taken: {name}", DONE, run(placed(words, room), given, cwd=TOP))
    for name, words, why in REFUSED:
        wanted = Ended(125, b"", why.replace("{room}", room).encode())
        cases.compare(f"refused: {name}", wanted, run(placed(words, room), TRACE, cwd=TOP))
    runner = os.path.join(TOP, "run.sh")
    for name in ("-trace.csv", "./--help"):
        cases.compare(f"taken: a name with a leading dash, {name}", DONE, run([runner, name], cwd=room))
    check_unreadable(cases, room)
    check_terminal(cases)


def check_unreadable(cases, room):
    """A trace that the user may not read; root may read all, so root tries it as nobody."""
    for name in ("run.sh", "unproved.sh"):
        shutil.copy(os.path.join(TOP, name), room)
    with open(os.path.join(room, "unreadable.csv"), "wb") as file:
        os.fchmod(file.fileno(), 0)
    how = {"user": NOBODY} if os.geteuid() == 0 else {}
    wanted = Ended(125, b"", b"./run.sh: the trace 'unreadable.csv' cannot be read\n")
    cases.compare("refused: a trace that may not be read", wanted, run(["./run.sh", "unreadable.csv"], cwd=room, **how))


def check_terminal(cases):
    """With no argument at a terminal there is nothing to wait for."""
    ours, theirs = pty.openpty()
    got = run(["./run.sh"], stdin=theirs, cwd=TOP)
    os.close(ours)
    os.close(theirs)
    told = got.status == 125 and got.stderr.startswith(b"./run.sh: usage: ./run.sh TRACE") and got.stderr.count(b"\n") == 1
    cases.check("usage at a terminal", "" if told else f"it ended with {got}")


def check_program_speaks(cases, program, room):
    """What is the program's own: help, version, refused arguments, and each of its statuses."""
    for word in ("--help", "-h", "--version", "-V"):
        cases.compare(f"the program's own {word}", run([program, word]), run(["./run.sh", word], cwd=TOP))
    trace = os.path.join(room, "trace.csv")
    for words in (["--workers", "x"], ["--workers", "65"], ["--fast"], ["--help"]):
        got = run(["./run.sh", trace, *words], cwd=TOP)
        cases.compare(f"the program's own answer to {' '.join(words)}", run([program, *words], TRACE), got)
    bad_header = Ended(2, b"", b"l4map: BadHeader\n")
    cases.compare("status of a bad header", bad_header, run(["./run.sh", "-"], b"", cwd=TOP))
    closed = run(["./run.sh", trace], stdout=None, preexec_fn=lambda: os.close(1), cwd=TOP)
    cases.compare("closed standard output", Ended(4, b"", b"l4map: WriteFailed\n"), closed)
    cases.compare("no argument is left of run.sh", run([program, ""], TRACE), run(["./run.sh", trace, ""], cwd=TOP))


def unbuilt_copy(room, name):
    """A copy of the repository without what was built."""
    copy = os.path.join(room, name)
    os.mkdir(copy)
    for name in ("run.sh", "unproved.sh", "build.sh", "proving.sh", "crates.txt", "HANDLES"):
        shutil.copy(os.path.join(TOP, name), copy)
    skipped = shutil.ignore_patterns("out", "must-fail")
    shutil.copytree(os.path.join(TOP, "crates"), os.path.join(copy, "crates"), ignore=skipped)
    return copy


def check_quick_way(cases, copy, other):
    """Without the program run.sh says so in one line, and ends as the program does, or says what it cannot do."""
    with ThreadPoolExecutor() as pool:
        long = pool.submit(run, ["./run.sh", "-"], LONG, PATIENCE, cwd=other)
        closed = run(["./run.sh", "-"], TRACE, PATIENCE, stdout=None, preexec_fn=lambda: os.close(1), cwd=copy)
    wanted = Ended(4, b"", NOTICE + b"l4map: WriteFailed\n")
    cases.compare("without the program: closed standard output", wanted, closed)
    wanted = Ended(125, b"", NOTICE + TOO_LONG)
    cases.compare("without the program: more than 1 MiB of output", wanted, long.result())


def stand_in(room, text):
    """A folder with a command `rt` that is this script of bash, and the environment in which it is found."""
    folder = tempfile.mkdtemp(dir=room)
    path = os.path.join(folder, "rt")
    with open(path, "w", encoding="ascii") as file:
        file.write("#!/usr/bin/env bash\n" + text)
    os.chmod(path, 0o755)
    return {**os.environ, "PATH": folder + os.pathsep + os.environ["PATH"], "TMPDIR": room}


def check_ends_of_rt_try(cases, copy, room):
    """What run.sh makes of each end of `rt try`, with a command in its place that ends so at once."""
    ended = "echo 'checked: ended status={0}' >&2; echo 'run=ended status={0} runners=1 races=unchecked proved=no' >&2\n"
    no_answer = "echo 'run=no-answer proved=no' >&2; exit 6\n"
    for name, text, wanted in (
        ("a run", "echo \"$*\"; cat\n" + ended.format(0), Ended(0, b"try -- --plain\n" + TRACE, NOTICE)),
        ("a bad header", "echo 'l4map: BadHeader' >&2\n" + ended.format(2), Ended(2, b"", NOTICE + b"l4map: BadHeader\n")),
        (
            "more than a minute",
            "echo 'checked: no-answer: the program did not end within the time limit' >&2\n" + no_answer,
            Ended(125, b"", NOTICE + TOO_SLOW),
        ),
        (
            "an end of another kind",
            "echo 'an error' >&2; exit 1\n",
            Ended(125, b"", NOTICE + b"an error\n./run.sh: rt try did not run the program to its end\n"),
        ),
    ):
        got = run(["./run.sh", "-", "--plain"], TRACE, env=stand_in(room, text), cwd=copy)
        cases.compare(f"without the program: {name}", wanted, got)
    got = run(["./run.sh", "--help"], TRACE, env=stand_in(room, "echo \"$*\"; cat\n" + ended.format(0)), cwd=copy)
    cases.compare("without the program: help reads nothing", Ended(0, b"try -- --help\n", NOTICE), got)


def check_without_kit(cases, copy, room):
    """Where `rt` is missing one line says so."""
    tools = os.path.join(room, "tools")
    os.mkdir(tools)
    for tool in ("bash", "cat", "dirname", "env", "mktemp", "readlink", "rm", "sed"):
        os.symlink(shutil.which(tool), os.path.join(tools, tool))
    missing = "the command rt is missing: install the Rattle kit and put its bin folder on the PATH"
    for script, status in (("./build.sh", 1), ("./run.sh", 125)):
        wanted = Ended(status, b"", f"{script}: {missing}\n".encode())
        cases.compare(f"{script} without the kit", wanted, run([script], TRACE, env={"PATH": tools}, cwd=copy))


def check_build(cases, copy, room):
    """build.sh asks `rt` for each crate in turn but those of tests, with a command in its place that does nothing or
    fails."""
    with open(os.path.join(copy, "crates.txt"), encoding="ascii") as file:
        crates = [line.split(":")[0].split()[0] for line in file if not line.startswith("#")]
    crates = [crate for crate in crates if not crate.endswith("_tests") and crate not in OF_LIBRARY]
    asked = os.path.join(room, "asked")
    env = stand_in(room, f'echo "$(basename "$PWD") $*" >> {asked}\n')
    got = run(["./build.sh"], env=env, cwd=copy)
    paths = [f"{copy}/crates/{name}/out/{name}" for name in PROGRAMS]
    last = f"./build.sh: the proved programs are {' and '.join(paths)}".encode()
    right = got.status == 0 and got.stdout.splitlines()[-1] == last and not got.stderr
    cases.check("./build.sh tells where the programs are", "" if right else f"it ended with {got}")
    with open(asked, encoding="ascii") as file:
        words = file.read().splitlines()
    wanted = [f"{crate} run -- --version" if crate in PROGRAMS else f"{crate} lib" for crate in crates]
    cases.check("./build.sh builds each crate", "" if words == wanted else f"it asked for {words}")
    check_broken_build(cases, copy, room)
    wanted = Ended(1, b"", b"./build.sh: no argument is taken; usage: ./build.sh\n")
    cases.compare("./build.sh with an argument", wanted, run(["./build.sh", "--fast"], env=env, cwd=copy))


def check_broken_build(cases, copy, room):
    """Where a crate does not build, build.sh ends with one line that names the log."""
    env = stand_in(room, 'echo "an error in $(basename "$PWD")"; [[ $PWD != */maptree ]]\n')
    got = run(["./build.sh"], env=env, cwd=copy)
    told = re.fullmatch(rb"\./build\.sh: the crate maptree is not built; what rt said is in (.*)\n", got.stderr)
    said = b""
    if told:
        with open(told[1], "rb") as log:
            said = log.read()
    right = got.status == 1 and said == b"an error in maptree\n"
    cases.check("./build.sh with a crate that does not build", "" if right else f"it ended with {got}")


def main():
    program, cases = program_path(), Cases()
    with tempfile.TemporaryDirectory() as room:
        make_room(room)
        check_traces(cases, room)
        check_program_speaks(cases, program, room)
        copy, other = unbuilt_copy(room, "copy"), unbuilt_copy(room, "other")
        check_without_kit(cases, copy, room)
        check_ends_of_rt_try(cases, copy, room)
        check_build(cases, copy, room)
        check_quick_way(cases, copy, other)
    cases.end()


main()
