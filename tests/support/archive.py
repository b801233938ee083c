"""The archive of the library for C, by both of the kit's compilers."""

import fcntl
import glob
import os
import shutil
import subprocess
import tempfile

from support.program import TOP, give_up

CAPI = os.path.join(TOP, "crates", "capi")
BUILT = os.path.join(CAPI, "out", "libcapi.a")
BACKENDS = ("llvm", "rattle")
# Where library.sh leaves the archives, by LLVM and by the kit's own compiler.
LEFT = (BUILT, os.path.join(CAPI, "out", "libcapi-rattle.a"))


def libraries():
    """For each crate of crates.txt, the libraries that it names."""
    named = {}
    with open(os.path.join(TOP, "crates.txt"), encoding="utf-8") as file:
        for line in file:
            crate, colon, below = line.partition("#")[0].partition(":")
            if colon:
                named[crate.split()[0]] = below.split()
    return named


def crates_below(named, crate):
    """The crates of this repository on which one stands, each after those on which it stands itself."""
    found = []
    for below in named[crate]:
        if below in named:
            found += [one for one in [*crates_below(named, below), below] if one not in found]
    return found


def rlib(crate):
    return os.path.join(TOP, "crates", crate, "out", "rlib", crate + ".rlib")


def called(words):
    """Runs a command of the kit in the crate's folder, and gives up where it fails."""
    try:
        ran = subprocess.run(words, cwd=CAPI, capture_output=True, text=True, check=False)
    except OSError as error:
        give_up(f"{words[0]} does not start: {error.strerror}")
    if ran.returncode:
        give_up(f"{' '.join(words[:2])}: {(ran.stdout + ran.stderr).strip()[-400:]}")


def build_by_rt(room):
    """Archives by `rt lib`, which proves first what it does not know to be proved."""
    paths = []
    for backend in BACKENDS:
        called(["rt", "lib", *([] if backend == "llvm" else ["--backend", backend])])
        paths.append(shutil.copy2(BUILT, os.path.join(room, backend + ".a")))
    return paths


def build_over(room, named, below):
    """Archives over the crates that `rt ci` has proved and left, which `rt lib` would prove once more. This crate is
    proved again."""
    kit = os.path.dirname(os.path.dirname(os.path.realpath(shutil.which("rt"))))
    rattle, checked = os.path.join(kit, "bin", "rattle"), os.path.join(room, "checked")
    words = ["--crate-name", "capi", "src/lib.rt", "-L", f"dependency={kit}/rlibs", "--links", "capi=", "--crate-type", "staticlib"]
    for library in ["std", *named["capi"]]:
        words += ["--extern", f"{library}={rlib(library) if library in named else f'{kit}/rlibs/{library}.rlib'}"]
    for crate in below:
        words += ["-L", f"dependency={os.path.dirname(rlib(crate))}"]
    words += ["--antt-project", f"{kit}/rattle/logic/antt-project.json"]
    jobs = str(len(os.sched_getaffinity(0)))
    called([rattle, "check", *words, "--logic-built", f"{kit}/logic_built", "--jobs", jobs, "-o", checked])
    paths = [os.path.join(room, backend + ".a") for backend in BACKENDS]
    for backend, path in zip(BACKENDS, paths):
        called([rattle, "build", *words, "--crate-checked", checked, "--toolchain", f"{kit}/toolchain", "--backend", backend, "-o", path])
    return paths


def are_current(below):
    """Whether both archives are there, and newer than what they are built from."""
    made_of = [rlib(crate) for crate in below] + glob.glob(os.path.join(CAPI, "src", "*")) + glob.glob(os.path.join(CAPI, "include", "*"))
    if not all(os.path.exists(path) for path in (*LEFT, *made_of)):
        return False
    return min(map(os.path.getmtime, LEFT)) > max(map(os.path.getmtime, made_of))


def build_both(room):
    """The paths of archives by both compilers. Of several scripts the first builds them, in a folder of its own, and
    leaves them where library.sh does."""
    named = libraries()
    below = crates_below(named, "capi")
    os.makedirs(os.path.dirname(BUILT), exist_ok=True)
    with open(os.path.join(os.path.dirname(BUILT), "archives.lock"), "w", encoding="ascii") as lock:
        fcntl.flock(lock, fcntl.LOCK_EX)
        if not are_current(below):
            # `rt ci` leaves what it built without the stamp by which `rt lib` knows it.
            stamped = any(os.path.exists(os.path.join(os.path.dirname(rlib(crate)), "stamp")) for crate in below)
            if stamped or not all(os.path.exists(rlib(crate)) for crate in below):
                paths = build_by_rt(room)
            else:
                paths = build_over(room, named, below)
            for path, left in zip(paths, LEFT):
                shutil.copy(path, left)
    return list(LEFT)


if __name__ == "__main__":
    with tempfile.TemporaryDirectory() as folder:
        print(build_both(folder))
