#!/usr/bin/env python3
"""Makes a trace that fails as small as it can: the least records, items, words and numbers that still fail.

    ./shrink.py TRACE --run COMMAND [--output FILE]

COMMAND is run by `sh -c` in the current folder, with a trace on its standard input. Its exit status says whether that
trace fails: it does where the status is the one that COMMAND has for TRACE, which must not be 0. So a command that
cannot be run, or that stops for another reason, is no failure. docs/L4TRACE.md has a command for a kernel.

First records are left out, then items of sends and words of unmaps, and then numbers are made smaller, and all that
again, until no such change is left that fails. The same trace and command always give the same result, if the command
always says the same. Between two runs the result so far stands in FILE; without --output the last one is printed. On a
terminal, standard error tells how far it has come.

Exit status: 0 where that is done, 1 where TRACE does not fail, 2 where the command line is refused or TRACE cannot be
read or has no header.
"""

import argparse
import subprocess
import sys

# What stands in an fpage word: a base of pages, a size, and rights in the last digit; in a control word: the flush bit,
# and one less than the number of words.
PAGE = 0x1000
SIZE = 0x10
RIGHTS = 7
COUNT = 0x3F
LEAST = {2: 2, 3: 18, 4: 1}  # the least spaces, bits and frames, by field of the header
KINDS = "rwx"  # of accesses, the simplest first


def is_hexadecimal(field):
    return field != "" and set(field.lower()) <= set("0123456789abcdef")


def parts_of(record):
    """The fields before the parts of a record that can be left out, and these: items of a send, words of an unmap."""
    if record[0] == "send":
        return record[:4], [record[i : i + 2] for i in range(4, len(record), 2)]
    if record[0] == "unmap":
        return record[:3], [[word] for word in record[3:]]
    return record, []


def with_parts(record, front, parts):
    """A record with other parts. The control word of an unmap tells how many there are, as far as it told so before."""
    front = list(front)
    if record[0] == "unmap" and is_hexadecimal(front[2]):
        control = int(front[2], 16)
        if control & COUNT == len(record) - 4:
            front[2] = f"{control & ~COUNT | len(parts) - 1:x}"
    return front + [field for part in parts for field in part]


def smaller_words(word):
    """Smaller words than an fpage word or the first word of an item, the simplest first."""
    base, rest = word // PAGE * PAGE, word % PAGE
    size, rights = rest // SIZE * SIZE, rest % SIZE
    found = [rest, base // PAGE // 2 * PAGE + rest, base - PAGE + rest]
    found += [base + size + (rights & ~RIGHTS) + bit for bit in (4, 2, 1, 0)]
    found += [base + size + (rights & ~bit) for bit in (1, 2, 4)]
    found += [base + size - SIZE + rights]
    return [it for it in dict.fromkeys(found) if 0 <= it < word]


def smaller_numbers(number, least=0):
    """Smaller numbers than one, the least first."""
    found = [least, (number + least) // 2, number - 1]
    return [it for it in dict.fromkeys(found) if least <= it < number]


def plainer(field, text):
    """The text without what its number does not need: zeros in front, and upper case."""
    return [text] if text != field else []


def smaller_fields(record, i):
    """Simpler texts in the place of a field of a record."""
    kind, field = record[0], record[i]
    is_decimal = kind == "l4map" or i == 1 or (kind == "send" and i == 2)
    if kind == "l4map" and i == 1:
        return ["1"] if field == "2" else []
    if is_decimal and field.isdecimal():
        smaller = smaller_numbers(int(field), LEAST.get(i, 0) if kind == "l4map" else 0)
        return plainer(field, str(int(field))) + [str(it) for it in smaller]
    if kind == "access" and i == 3:
        return list(KINDS[: KINDS.find(field)]) if field in KINDS else []
    if is_decimal or not is_hexadecimal(field):
        return []
    number = int(field, 16)
    if kind == "unmap" and i == 2:
        smaller = [number & COUNT] if number > COUNT else []
    elif kind == "access":
        found = [0, number // PAGE // 2 * PAGE, number // PAGE * PAGE]
        smaller = [it for it in dict.fromkeys(found) if it < number]
    else:
        smaller = smaller_words(number)
    return plainer(field, f"{number:x}") + [f"{it:x}" for it in smaller]


def renumbered(records):
    """The records with the spaces that they name numbered from 0 on, in the order of their numbers."""
    places = {"send": (1, 2), "access": (1,), "unmap": (1,), "clear": (1,)}
    named = {int(record[i]) for record in records for i in places.get(record[0], ()) if i < len(record) and record[i].isdecimal()}
    number = {str(old): str(new) for new, old in enumerate(sorted(named | {0}))}
    return [[number.get(field, field) if i in places.get(record[0], ()) else field for i, field in enumerate(record)] for record in records]


def text_of(records):
    return "".join(",".join(record) + "\n" for record in records)


class Shrinking:
    """A trace that fails, with what tells whether another one does. Its records are lists of fields, the header first."""

    def __init__(self, text, fails, hear=lambda records, runs: None):
        self.records = [line.split(",") for line in text.splitlines() if line]
        self.fails = fails
        self.hear = hear
        self.known = {text_of(self.records): True}
        self.runs = 0

    def keep_if_failing(self, records):
        """Takes other records in the place of these, if they fail."""
        text = text_of(records)
        if text not in self.known:
            self.runs += 1
            self.known[text] = self.fails(text)
        if self.known[text] and records != self.records:
            self.records = records
            self.hear(records, self.runs)
            return True
        return False

    def leave_out(self, count, without):
        """Leaves parts out, many at once and then fewer. `without` gives the records without the parts from one up to
        another, and `count` tells how many parts there are."""
        size = max(1, count() // 2)
        while True:
            at, changed = 0, False
            while at < count():
                if self.keep_if_failing(without(at, min(at + size, count()))):
                    changed = True
                else:
                    at += size
            if size == 1 and not changed:
                return
            size = max(1, size // 2)

    def leave_out_records(self):
        # What stands behind the record that fails is left out first, by halves of what is left.
        self.leave_out(lambda: len(self.records) - 1, lambda at, end: self.records[: 1 + at] + self.records[1 + end :])

    def leave_out_parts(self):
        for i in range(1, len(self.records)):

            def without(at, end, i=i):
                record = self.records[i]
                front, parts = parts_of(record)
                left = parts[:at] + parts[end:]
                changed = with_parts(record, front, left) if left else record
                return self.records[:i] + [changed] + self.records[i + 1 :]

            self.leave_out(lambda i=i: len(parts_of(self.records[i])[1]), without)

    def make_numbers_smaller(self):
        self.keep_if_failing(renumbered(self.records))
        for i in range(len(self.records)):
            for j in range(1, len(self.records[i])):
                while self.make_field_smaller(i, j):
                    pass

    def make_field_smaller(self, i, j):
        record = self.records[i]
        for field in smaller_fields(record, j):
            changed = record[:j] + [field] + record[j + 1 :]
            if self.keep_if_failing(self.records[:i] + [changed] + self.records[i + 1 :]):
                return True
        return False

    def shrink(self):
        """The least text that was found."""
        before = None
        while before != self.records:
            before = self.records
            self.leave_out_records()
            self.leave_out_parts()
            self.make_numbers_smaller()
        return text_of(self.records)


def status_of(command, text):
    return subprocess.run(["sh", "-c", command], input=text.encode(), stdout=subprocess.DEVNULL, stderr=subprocess.DEVNULL).returncode


def give_up(why, status=2):
    print(f"shrink.py: {why}", file=sys.stderr)
    sys.exit(status)


def main():
    parser = argparse.ArgumentParser(description="Makes a trace that fails as small as it can.", epilog="docs/L4TRACE.md has an example.")
    parser.add_argument("trace", metavar="TRACE")
    parser.add_argument("--run", required=True, metavar="COMMAND", help="reads a trace, and ends with another status than 0 where it fails")
    parser.add_argument("--output", metavar="FILE", help="where the result is written (default: standard output)")
    words = parser.parse_args()
    try:
        with open(words.trace, encoding="ascii", newline="") as file:
            text = file.read()
    except (OSError, UnicodeDecodeError) as error:
        give_up(f"{words.trace} cannot be read: {error}")
    if not text.startswith("l4map,"):
        give_up(f"{words.trace} is no trace: it does not begin with a header")
    status = status_of(words.run, text)
    if status == 0:
        give_up("the trace does not fail: the command ended with status 0", 1)
    if status in (126, 127):
        give_up(f"the command cannot be run: `sh` ended with status {status}")

    def hear(records, runs):
        if words.output:
            with open(words.output, "w", encoding="ascii", newline="") as file:
                file.write(text_of(records))
        if sys.stderr.isatty():
            print(f"\r{len(records) - 1} records after {runs} runs \b", end="", file=sys.stderr, flush=True)

    shrinking = Shrinking(text, lambda candidate: status_of(words.run, candidate) == status, hear)
    least = shrinking.shrink()
    hear(shrinking.records, shrinking.runs)
    if sys.stderr.isatty():
        print(file=sys.stderr)
    if not words.output:
        sys.stdout.write(least)


if __name__ == "__main__":
    main()
