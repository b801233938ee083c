#!/usr/bin/env python3
"""Wrong definitions: each one of the lists beside this script must be refused by a worked row, or by a law.

    tests/definitions/try_wrong_definitions.py [--jobs N] [--only WORD] [--all-rows]
    tests/definitions/try_wrong_definitions.py --table

A wrong definition is a change of the text of one file of specs/ in `fpage`, `space` or `model`. It is put into a copy
of the definitions in a temporary folder, which has no code, so that no contract can refuse it. The rows that the list
names for it are computed there: each must be false of the wrong definition, and hold of the right one. Where none is
false, all other rows are tried, and then the laws with their proofs. A wrong definition that does not type-check, a
text that does not stand in its file exactly once, and a row or a law that is named and does not refuse count as
surviving.

A row refuses where it computes to something else than it states. A law refuses where a proof of its function fails;
that may be a proof that no longer fits and a law that still holds, so what rests on laws alone has to be looked at.

Prints what survives, and then 'N refused, M survive'; the exit status is 0 exactly where nothing survives. The table of
docs/MODEL.md must be the one that --table prints. With --only the entries with this word in their name or file are
tried; with --all-rows each entry is tried with all rows, and all that refuse it are printed.
"""

import argparse
import glob
import os
import queue
import re
import shutil
import subprocess
import sys
import tempfile
from concurrent.futures import ThreadPoolExecutor
from typing import NamedTuple

HERE = os.path.dirname(os.path.abspath(__file__))
TOP = os.path.dirname(os.path.dirname(HERE))
MODEL_PAGE = os.path.join(TOP, "docs", "MODEL.md")
SECONDS = 1200
# How many wrong definitions one check tries, each in copies of its own of the definitions that rest on it.
BATCH = 12
# What a row's computation has to look into.
UNFOLDING = "unfolding digits next_record strip_bom records_from"
PROOF_HEAD = """use Rattle.std.proofs.Common.{refl}
use Rattle.std.specs.Fmt.{digits}
use Rattle.csv.specs.Machine.{next_record}
use Rattle.csv.specs.Reading.{strip_bom, records_from}
"""
# How a field's type of Rust is seen in definitions.
FIELD_TYPES = {"bool": "Bool", "u16": "ℕ", "u32": "ℕ", "Fpage": "Flexpage"}
# Where a definition imports a type of Rust: the crate, and the module there.
DECLARED = r"Rattle\.(fpage|space)\.specs\.declared\.(\w+)"
# What the checker says of a row that does not compute to what it states.
FALSE_ROW = re.compile(r"`shows_(\w+)`: (?:(?:as printed|computed as far as they go), the two types |expected type )")
# The folders of the definitions of `model`.
FOLDERS = ("Definitions", "Laws", "Rows")
KEYS = ("wrong", "file", "use", "old", "new", "refused by")


class Wrong(NamedTuple):
    """A wrong definition: its name, its file as crate/specs/file, its edits in order, imports for them, what refuses
    it."""

    name: str
    file: str
    edits: list
    uses: list
    refused_by: list

    @property
    def module(self):
        return module_of(self.file)


class Found(NamedTuple):
    """What became of a wrong definition: what refuses it, and what is wrong with its entry or empty."""

    refused_by: list
    fault: str


def give_up(why):
    print(f"FAILED {why}")
    sys.exit(2)


def read(path):
    with open(path, encoding="utf-8") as file:
        return file.read()


def write(path, text):
    os.makedirs(os.path.dirname(path), exist_ok=True)
    with open(path, "w", encoding="utf-8") as file:
        file.write(text)


# ---- the lists


def read_list(path):
    """The entries of one list: lines 'key: text', a blank line between entries, '#' before a comment, \\n for a line
    end."""
    entries = []
    for block in re.split(r"\n\s*\n", read(path)):
        lines = [line for line in block.split("\n") if line.strip() and not line.startswith("#")]
        if not lines:
            continue
        pairs = [line.split(": ", 1) for line in lines]
        if any(len(pair) != 2 or pair[0] not in KEYS for pair in pairs):
            give_up(f"{path}: not 'key: text' in the entry that begins with {lines[0]}")
        entries.append(entry_of(pairs))
    return entries


def entry_of(pairs):
    def texts(key):
        return [text.replace("\\n", "\n") for name, text in pairs if name == key]

    edits = list(zip(texts("old"), texts("new"), strict=True))
    refused_by = [name for text in texts("refused by") for name in text.split(", ")]
    return Wrong(texts("wrong")[0], texts("file")[0], edits, texts("use"), refused_by)


def read_lists():
    entries = [entry for path in sorted(glob.glob(os.path.join(HERE, "*.txt"))) for entry in read_list(path)]
    entries.sort(key=lambda entry: FILES.index(entry.file))
    names = [(entry.file, entry.name) for entry in entries]
    for name in names:
        if names.count(name) > 1:
            give_up(f"two entries have the name {name[1]}")
    return entries


def table(entries):
    """The table of docs/MODEL.md: for each file how many wrong definitions there are."""
    rows = {}
    for entry in entries:
        rows[entry.module] = rows.get(entry.module, 0) + 1
    lines = ["| Definitions | Wrong ones |", "|---|---|"] + [f"| {module} | {count} |" for module, count in rows.items()]
    return "\n".join(lines) + "\n"


# ---- the copy of the definitions


def submodules(crate, name):
    """The modules that a file of a crate's specs/ names."""
    return re.findall(r"^pub mod (\w+)", read(os.path.join(TOP, "crates", crate, "specs", f"{name}.antt")), re.MULTILINE)


def files_of(crate):
    """The files of a crate's specs/, as crate/specs/file; those of `model` stand in folders."""
    if crate == "model":
        return [f"model/specs/{folder}/{module}.antt" for folder in FOLDERS for module in submodules(crate, folder)]
    return [f"{crate}/specs/{module}.antt" for module in submodules(crate, "Lib")]


def module_of(path):
    return os.path.basename(path).removesuffix(".antt")


FILES = [path for crate in ("fpage", "space", "model") for path in files_of(crate)]


def is_row_module(module):
    return re.fullmatch(r"RowsOf\w+", module) is not None


def one_crate(text):
    """A text of specs/ or proofs/ as it stands where all definitions are one crate, and Rust's types are modules of
    it."""
    text = re.sub(rf"{DECLARED}\.(\w+)(?:\.TheVariants)?", r"Rattle.model.specs.Declared\3", text)
    text = re.sub(rf"Rattle\.model\.specs\.(?:{'|'.join(FOLDERS)})\.", "Rattle.model.specs.", text)
    return re.sub(r"Rattle\.(?:fpage|space)\.(specs|proofs)\.", r"Rattle.model.\1.", text)


def uses_of(text, folder):
    return set(re.findall(rf"Rattle\.model\.{folder}\.(\w+)", text))


def declared(crate, rust_module, name):
    """The module that stands for a struct or an enum of Rust."""
    source = read(os.path.join(TOP, "crates", crate, "src", f"{rust_module}.rt"))
    kind, body = re.search(rf"pub (struct|enum) {name} {{\n(.*?)^}}", source, re.MULTILINE | re.DOTALL).groups()
    if kind == "enum":
        variants = re.findall(r"^    (\w+),$", body, re.MULTILINE)
        return f"pub data {name} : Type 0 where\n" + "".join(f"  {variant} : {name}\n" for variant in variants)
    found = re.findall(r"^    pub (\w+): (\w+),$", body, re.MULTILINE)
    fields = [(field, FIELD_TYPES.get(field_type, field_type)) for field, field_type in found]
    uses = sorted({import_of(field_type) for _, field_type in fields})
    lines = "".join(f"  pub {field} : {field_type}\n" for field, field_type in fields)
    return "".join(uses) + f"pub record {name} : Type 0 where\n{lines}"


def import_of(field_type):
    if field_type in ("Bool", "ℕ"):
        return f"use Rattle.std.specs.Prelude.{{{field_type}}}\n"
    module = "Fpage" if field_type == "Flexpage" else f"Declared{field_type}"
    return f"use Rattle.model.specs.{module}.{{{field_type}}}\n"


def declared_modules(texts):
    wanted = set()
    for text in texts:
        wanted |= set(re.findall(rf"{DECLARED}\.(\w+)", text))
    return {f"Declared{name}": declared(crate, module, name) for crate, module, name in sorted(wanted)}


class Definitions:
    """All definitions and rows as the modules of one crate, without the laws and what rests on them."""

    def __init__(self):
        originals = {}
        for path in files_of("fpage") + ["space/specs/Place.antt"] + files_of("model"):
            originals[module_of(path)] = read(os.path.join(TOP, "crates", path))
        self.texts = declared_modules(originals.values())
        self.texts.update((module, one_crate(text)) for module, text in originals.items())
        for law_module in [module for module in self.texts if module.endswith("Laws")]:
            for module in self.resting_on(law_module):
                self.texts.pop(module, None)
        self.rows = {}
        for module in filter(is_row_module, self.texts):
            for name in re.findall(r"^abbrev pub (\w+) : Type 0$", self.texts[module], re.MULTILINE):
                self.rows[name] = module

    def resting_on(self, module):
        """The modules that rest on one, itself among them."""
        found = {module}
        grown = True
        while grown:
            more = {name for name, text in self.texts.items() if uses_of(text, "specs") & found}
            grown = not more <= found
            found |= more
        return found

    def row_module(self, module, names):
        """A module of rows with some of its rows alone."""
        text = self.texts[module]
        head = "".join(line + "\n" for line in text.split("\n") if line.startswith("use "))
        blocks = [re.search(rf"^abbrev pub {name} : Type 0\n(?:.+\n)+", text, re.MULTILINE).group(0) for name in names]
        return head + "\n" + "\n".join(blocks)


def edited(wrong):
    """The text of a wrong definition, or what is wrong with its edits."""
    text = read(os.path.join(TOP, "crates", wrong.file))
    for old, new in wrong.edits:
        if text.count(old) != 1:
            return None, f"{old!r} stands {text.count(old)} times in {wrong.file}"
        text = text.replace(old, new)
    return one_crate("".join(f"use {use}\n" for use in wrong.uses) + text), ""


def proofs_of(module, names):
    """A module that proves rows by computing them."""
    head = f"{PROOF_HEAD}use Rattle.model.specs.{module}.{{{', '.join(names)}}}\n"
    return head + "".join(f"\npub shows_{name} : {name}\n{UNFOLDING}\nshows_{name} = refl\n" for name in names)


# ---- rows


class Copy:
    """A crate of definitions in a folder of its own, with the rows as they are; wrong definitions join it batch by
    batch."""

    def __init__(self, definitions, room):
        self.definitions = definitions
        self.crate = os.path.join(room, "crates", "model")
        write(os.path.join(room, "crates.txt"), "model: csv\n")
        write(os.path.join(self.crate, "src", "lib.rt"), "//! Definitions and rows.\n#![tactic(auto)]\n")
        self.specs = dict(definitions.texts)
        self.proofs = {}
        for module in filter(is_row_module, definitions.texts):
            names = [name for name, where in definitions.rows.items() if where == module]
            self.proofs[f"Right{module}"] = proofs_of(module, names)

    def try_batch(self, batch):
        """What the rows of each entry say of it; a batch is a list of (number, entry, names of rows)."""
        specs, proofs, faults = dict(self.specs), dict(self.proofs), {}
        for number, wrong, names in batch:
            text, fault = edited(wrong)
            if fault:
                faults[number] = fault
                continue
            self.add(number, wrong, text, names, specs, proofs)
        for folder, modules in (("specs", specs), ("proofs", proofs)):
            shutil.rmtree(os.path.join(self.crate, folder), ignore_errors=True)
            for module, text in {**modules, "Lib": "".join(f"pub mod {module}\n" for module in modules)}.items():
                write(os.path.join(self.crate, folder, f"{module}.antt"), text)
        return self.judged(batch, faults, rt_check(self.crate))

    def add(self, number, wrong, text, names, specs, proofs):
        """Adds an entry's copies of all that rests on its file, and the proofs of its rows."""
        prefix = f"Wrong{number}"
        resting = self.definitions.resting_on(wrong.module)
        wanted = {}
        for name in names:
            wanted.setdefault(self.definitions.rows[name], []).append(name)
        copied = {module: self.definitions.texts[module] for module in resting if not is_row_module(module)}
        copied[wrong.module] = text
        for module, some in wanted.items():
            copied[module] = self.definitions.row_module(module, some)
        for module, original in copied.items():
            specs[prefix + module] = re.sub(
                r"(Rattle\.model\.specs\.)(\w+)", lambda use: use[1] + (prefix if use[2] in resting else "") + use[2], original
            )
        for module, some in wanted.items():
            proofs[prefix + module] = proofs_of(prefix + module, some)

    def judged(self, batch, faults, said):
        refused = {number: [] for number, _, _ in batch}
        for folder, module, why in re.findall(r"^\./(specs|proofs)/(\w+)\.antt:\d+:\d+: error: (.*)$", said, re.MULTILINE):
            place = re.fullmatch(r"Wrong(\d+)(\w+)", module)
            if not place:
                give_up(f"the definitions as they are do not pass: {folder}/{module}: {why}")
            row = FALSE_ROW.match(why)
            if row and folder == "proofs":
                refused[int(place[1])].append(row[1])
            else:
                faults.setdefault(int(place[1]), f"it does not type-check: {place[2]}: {why}")
        if not re.search(r"^logic=", said, re.MULTILINE):
            give_up(f"rt check ended with no verdict: {said[-400:]}")
        return {number: Found(sorted(refused[number]), faults.get(number, "")) for number, _, _ in batch}


def rt_check(crate):
    ran = subprocess.run(["rt", "check"], cwd=crate, capture_output=True, text=True, timeout=SECONDS, check=False)
    return ran.stdout + ran.stderr


def side_by_side(work, tasks, jobs):
    """Gives tasks to so many workers; each calls `work` with a folder of its own and the tasks that it takes."""
    waiting = queue.SimpleQueue()
    for task in tasks:
        waiting.put(task)

    def taken():
        while True:
            try:
                yield waiting.get_nowait()
            except queue.Empty:
                return

    def one_worker(_):
        with tempfile.TemporaryDirectory() as room:
            work(room, taken())

    with ThreadPoolExecutor(jobs) as pool:
        list(pool.map(one_worker, range(min(jobs, len(tasks)))))


def try_rows(definitions, tasks, jobs):
    """Tries entries, given as (number, entry, names of rows), in so many copies at once."""
    found = {}

    def work(room, batches):
        copy = Copy(definitions, room)
        for batch in batches:
            found.update(copy.try_batch(batch))
            print(f"tried {len(found)} of {len(tasks)} by rows", flush=True)

    side_by_side(work, [tasks[start : start + BATCH] for start in range(0, len(tasks), BATCH)], jobs)
    return found


# ---- laws


def laws():
    """The laws: each name with the function whose clause it is."""
    found = {}
    text = read(os.path.join(TOP, "crates", "model", "src", "laws.rt"))
    for function, clauses in re.findall(r"^pub fn (\w+)\(\)\n((?:    ensures .*\n)+)", text, re.MULTILINE):
        for name in re.findall(r"\{ (\w+) \}", clauses):
            found[name] = function
    return found


def law_crate(room):
    """A crate with the definitions, the laws and their proofs. Answers the folder."""
    crate = os.path.join(room, "crates", "model")
    write(os.path.join(room, "crates.txt"), "model: csv\n")
    texts = {}
    for name, module in [(name, module_of(name)) for name in FILES]:
        if not name.startswith("space/") or module == "Place":
            texts[module] = read(os.path.join(TOP, "crates", name))
    for module, text in {**declared_modules(texts.values()), **texts}.items():
        write(os.path.join(crate, "specs", f"{module}.antt"), one_crate(text))
    lines = [f"pub mod {path.removesuffix('.antt')}\n" for path in sorted(os.listdir(os.path.join(crate, "specs")))]
    write(os.path.join(crate, "specs", "Lib.antt"), "".join(lines))
    copy_proofs(crate)
    source = one_crate(read(os.path.join(TOP, "crates", "model", "src", "laws.rt")))
    functions = sorted(set(laws().values()))
    write(os.path.join(crate, "src", "laws.rt"), source)
    root = f"//! Definitions and laws.\n#![tactic(auto)]\n\nmod laws;\n\npub use laws::{{{', '.join(functions)}}};\n"
    write(os.path.join(crate, "src", "lib.rt"), root)
    return crate


def copy_proofs(crate):
    """The proofs of the laws, with the lemmas of the lower crates that they cite."""
    found = {}
    for path in glob.glob(os.path.join(TOP, "crates", "model", "proofs", "**", "*.antt"), recursive=True):
        name = os.path.relpath(path, os.path.join(TOP, "crates", "model", "proofs"))
        if not name.startswith("worked/") and name != "Lib.antt":
            found[name] = one_crate(read(path))
    wanted = True
    while wanted:
        cited = set().union(*(uses_of(text, "proofs") for text in found.values()))
        wanted = [module for module in sorted(cited) if f"{module}.antt" not in found and lemma_path(module)]
        for module in wanted:
            found[f"{module}.antt"] = one_crate(read(lemma_path(module)))
    for name, text in found.items():
        write(os.path.join(crate, "proofs", name), text)
    lines = [f"pub mod {name.removesuffix('.antt')}\n" for name in sorted(found) if "/" not in name]
    write(os.path.join(crate, "proofs", "Lib.antt"), "".join(lines))


def lemma_path(module):
    """The file of a lemma module of the crates below `model`, or None."""
    for crate in ("fpage", "space"):
        path = os.path.join(TOP, "crates", crate, "proofs", f"{module}.antt")
        if os.path.isfile(path):
            return path
    return None


def try_laws(tasks, jobs):
    """Tries entries, given as (number, entry), by the laws."""
    found = {}

    def work(room, tasks_of_one):
        crate = law_crate(room)
        if "logic=proved" not in rt_check(crate):
            give_up("the laws of the definitions as they are do not pass")
        for number, wrong in tasks_of_one:
            found[number] = try_law(crate, wrong)
            print(f"tried {len(found)} of {len(tasks)} by laws", flush=True)

    side_by_side(work, tasks, jobs)
    return found


def try_law(crate, wrong):
    text, fault = edited(wrong)
    if fault:
        return Found([], fault)
    path = os.path.join(crate, "specs", f"{wrong.module}.antt")
    right = read(path)
    write(path, text)
    said = rt_check(crate)
    write(path, right)
    bad = re.search(r"^\./specs/.*error: .*$", said, re.MULTILINE)
    if bad:
        return Found([], f"it does not type-check: {bad[0]}")
    if "logic=proved" in said:
        return Found([], "")
    failing = set(re.findall(r"^fn model::laws::(\w+): not proved", said, re.MULTILINE))
    proof = re.search(r"^\./proofs/(\S+?\.antt):\d+:\d+: error: `([^`]*)`", said, re.MULTILINE)
    where = f"first in {proof[1]}, {proof[2]}" if proof else "in no lemma of its own"
    return Found([law for law, function in laws().items() if function in failing], f"the proof that fails stands {where}")


# ---- the whole


def names_to_try(definitions, wrong, with_all):
    return list(definitions.rows) if with_all else [name for name in wrong.refused_by if name in definitions.rows]


def judged_by_rows(definitions, entries, options):
    """What the rows say: first those that are named, and then all, where none of these refuses."""
    tasks = [(number, wrong, names_to_try(definitions, wrong, options.all_rows)) for number, wrong in enumerate(entries)]
    found = try_rows(definitions, tasks, options.jobs)
    left = [(number, wrong) for number, wrong, _ in tasks if found[number] == Found([], "")]
    if left and not options.all_rows:
        found.update(try_rows(definitions, [(*task, list(definitions.rows)) for task in left], options.jobs))
    return found


def judged_by_laws(entries, by_rows, options):
    """What the laws say, where no row refuses or the list names a law."""
    known = laws()
    tasks = []
    for number, wrong in enumerate(entries):
        rows = by_rows[number]
        if rows == Found([], "") or (not rows.fault and not known.keys().isdisjoint(wrong.refused_by)):
            tasks.append((number, wrong))
    return try_laws(tasks, options.jobs)


def why_it_survives(wrong, refused_by, fault):
    """Why an entry counts as surviving, or an empty text."""
    if fault:
        return fault
    if not refused_by:
        return "nothing refuses it"
    idle = [name for name in wrong.refused_by if name not in refused_by]
    if idle or not wrong.refused_by:
        return f"the list names {', '.join(idle) or 'nothing'}; what refuses it is {', '.join(refused_by)}"
    return ""


def report(entries, by_rows, by_laws, options):
    """Prints what survives, with --all-rows what refuses each, and the closing line. Answers whether nothing
    survives."""
    survivors = 0
    for number, wrong in enumerate(entries):
        rows, law = by_rows[number], by_laws.get(number, Found([], ""))
        refused_by = rows.refused_by + law.refused_by
        if options.all_rows:
            print(f"{wrong.file}: {wrong.name}: refused by {', '.join(refused_by) or 'nothing'}")
        why = why_it_survives(wrong, refused_by, rows.fault or ("" if law.refused_by else law.fault))
        if why:
            survivors += 1
            print(f"survives: {wrong.file}: {wrong.name}: {why}{'; ' + law.fault if law.refused_by else ''}")
    print(f"{len(entries) - survivors} refused, {survivors} survive")
    return survivors == 0


def main():
    parser = argparse.ArgumentParser(description=__doc__.split("\n", maxsplit=1)[0])
    parser.add_argument("--jobs", type=int, default=2, help="how many copies are checked at once (2)")
    parser.add_argument("--only", default="", metavar="WORD", help="the entries with this word in their name or file")
    parser.add_argument("--all-rows", action="store_true", help="try each entry with all rows, and print those that refuse it")
    parser.add_argument("--table", action="store_true", help="print the table of docs/MODEL.md, and try nothing")
    options = parser.parse_args()
    entries = read_lists()
    if options.table:
        print(table(entries), end="")
        return 0
    definitions = Definitions()
    known = {*definitions.rows, *laws()}
    for wrong in entries:
        for name in wrong.refused_by:
            if name not in known:
                give_up(f"{wrong.name}: {name} is neither a row nor a law")
    same_table = table(entries) in read(MODEL_PAGE)
    if not same_table:
        print("docs/MODEL.md has another table than --table prints")
    entries = [wrong for wrong in entries if options.only in f"{wrong.file}: {wrong.name}"]
    by_rows = judged_by_rows(definitions, entries, options)
    by_laws = judged_by_laws(entries, by_rows, options)
    return 0 if report(entries, by_rows, by_laws, options) and same_table else 1


if __name__ == "__main__":
    sys.exit(main())
