"""The mapping database of docs/MODEL.md and the formats of docs/FORMATS.md once more, in plain Python.

It follows the definitions line by line, so that a line can be made wrong: `planted_bugs.py` changes texts of this
file. Origins are followed through an index of what derives directly from each place; all else is as the definitions
say it. It reads records as they stand on their lines: a trace with quotes is no matter of its.

Nothing here relies on lawful mappings, since a wrong line may leave others: every walk along origins ends.
"""

import re
from collections import Counter
from typing import NamedTuple

PAGE = 4096
ALL = 7
COUNTS = ("absent", "norights", "origin", "lost", "extended", "linked")
# What an access needs, and what it leaves in the status of its page.
NEEDS = {"r": 4, "w": 2, "x": 1}
LEAVES = {"r": 4, "w": 6, "x": 5}


class Refused(Exception):
    """A record is refused, by this name."""


# Words


class Fpage(NamedTuple):
    first: int
    count: int
    rights: int


class Item(NamedTuple):
    grants: bool
    base: int
    sent: Fpage


def read_fpage(word, bits):
    base, size, rights = word >> 10 << 10, word >> 4 & 63, word & 7
    if size == 0 and base == 0:
        return Fpage(0, 0, rights)
    if size == 1 and base == 0:
        return Fpage(0, 2**bits // PAGE, rights)
    if size < 12:
        raise Refused("BadSize")
    if base % 2**size != 0:
        raise Refused("Misaligned")
    if base + 2**size > 2**bits:
        raise Refused("OutOfSpace")
    return Fpage(base // PAGE, 2**size // PAGE, rights)


def read_item(first, second, bits):
    if not first & 8 or first & 4:
        raise Refused("NotAnItem")
    sent = read_fpage(second, bits)
    return Item(first & 2 != 0, first // PAGE, sent)


def read_control(word, words):
    """Whether an unmap flushes."""
    if word >> 7 != 0:
        raise Refused("BadControl")
    if words != (word & 63) + 1:
        raise Refused("BadControl")
    return word & 64 != 0


def with_status(word, status):
    return word & ~7 | status


def pairing(item, window):
    """The first source, the first target, and the number of pairs."""
    sent = item.sent
    count = min(sent.count, window.count)
    source, target = sent.first, window.first
    if 0 < sent.count < window.count:
        target += item.base % window.count // count * count
    if sent.count > window.count > 0:
        source += item.base % sent.count // count * count
    return source, target, count


# Holdings


class Mapping:
    __slots__ = ("frame", "rights", "status", "origin")

    def __init__(self, frame, rights, status, origin):
        self.frame, self.rights, self.status, self.origin = frame, rights, status, origin


class Holdings:
    """What is held: by place, a pair of space and page, a mapping."""

    def __init__(self, limits):
        self.space_pages = 2**limits.bits // PAGE
        self.at = {}
        self.pages = {}
        self.derived = {}
        for page in range(limits.frames):
            self.put((0, page), Mapping(page, ALL, 0, None))

    def put(self, place, mapping):
        self.drop(place)
        self.at[place] = mapping
        self.pages.setdefault(place[0], set()).add(place[1])
        self.derived.setdefault(mapping.origin, set()).add(place)

    def drop(self, place):
        mapping = self.at.pop(place, None)
        if mapping:
            self.pages[place[0]].discard(place[1])
            self.derived[mapping.origin].discard(place)
        return mapping

    def of_space(self, space, first, count):
        """The held places among some pages of a space, by rising page."""
        pages = self.pages.get(space, ())
        few = range(first, first + count) if count < len(pages) else sorted(pages)
        return [(space, page) for page in few if page in pages and first <= page < first + count]

    def directly(self, place):
        """The places with this origin."""
        return self.derived.get(place, ())

    def under(self, places):
        """The places from which a chain of one or more origins leads to one of these."""
        found, ahead = set(), list(places)
        while ahead:
            for place in self.directly(ahead.pop()):
                if place not in found:
                    found.add(place)
                    ahead.append(place)
        return found

    def origins(self, place):
        """The places from which a place derives, the next one first."""
        found = []
        while place in self.at and self.at[place].origin not in (None, *found):
            place = self.at[place].origin
            found.append(place)
        return found

    def join_status(self, place, status):
        if place in self.at:
            self.at[place].status |= status

    def status_of(self, places):
        status = 0
        for place in places:
            status |= self.at[place].status
        return status

    def touch(self, place, kind):
        """An access: whether it is ok."""
        mapping = self.at.get(place)
        if mapping is None:
            return False
        if not mapping.rights & NEEDS[kind]:
            return False
        mapping.status |= LEAVES[kind]
        return True

    def strip(self, pages, taken, flush):
        """Strips a set of held places of rights, with flush or without: the status that was found."""
        under = self.under(pages)
        below = under | pages
        found = self.status_of(below)
        passed = []
        for place in pages:
            origin = self.at[place].origin
            if origin is not None and origin not in below:
                passed.append((origin, self.status_of(self.under({place}) | {place})))
        for place in below:
            self.at[place].status = 0
        for place in below if flush else under:
            mapping = self.at[place]
            mapping.rights &= ~taken
            if mapping.rights == 0:
                self.drop(place)
        for origin, status in passed:
            self.join_status(origin, status)
        return found

    def fate(self, item, source, target):
        sent, held = self.at.get(source), self.at.get(target)
        if sent is None:
            return "absent"
        if not sent.rights & item.sent.rights:
            return "norights"
        if held and target in self.origins(source):
            return "origin"
        if held and held.origin == source and not item.grants:
            return "extends"
        return "goes"

    def pairs_of(self, sender, receiver, item, window, counts):
        """The pairs of an item whose source is held, each with what becomes of it; all others are absent."""
        source, target, count = pairing(item, window)
        held = self.of_space(sender, source, count)
        counts["absent"] += count - len(held)
        pairs = [(place, (receiver, target + place[1] - source)) for place in held]
        return [(self.fate(item, *pair), *pair) for pair in pairs]

    def work_item(self, item, pairs, counts):
        """Works the pairs of an item: the flush, lost pairs, then what is mapped or granted."""
        replaced = {end for fate, _, end in pairs if fate == "goes" and end in self.at}
        self.strip(replaced, ALL, True)
        going = []
        for fate, place, end in pairs:
            if fate in ("absent", "norights", "origin"):
                counts[fate] += 1
            elif place not in self.at:
                counts["lost"] += 1
            elif fate == "extends":
                counts["extended"] += 1
                self.extend(place, end, item.sent.rights)
            else:
                counts["linked"] += 1
                going.append((place, end))
        if item.grants:
            self.grant(going, item.sent.rights)
        else:
            for place, end in going:
                self.link(place, end, item.sent.rights)

    def extend(self, source, target, rights):
        self.at[target].rights |= self.at[source].rights & rights

    def link(self, source, target, rights):
        sent = self.at[source]
        self.put(target, Mapping(sent.frame, sent.rights & rights, 0, source))

    def grant(self, pairs, rights):
        self.strip({source for source, _ in pairs}, ALL & ~rights, True)
        for source, target in pairs:
            children = list(self.directly(source))
            mapping = self.drop(source)
            mapping.status = 0
            self.put(target, mapping)
            for place in children:
                self.move_origin(place, target)

    def move_origin(self, place, origin):
        mapping = self.drop(place)
        mapping.origin = origin
        self.put(place, mapping)

    def send(self, sender, receiver, window, items):
        counts = Counter()
        for item in items:
            pairs = self.pairs_of(sender, receiver, item, window, counts)
            self.work_item(item, pairs, counts)
        return "send " + " ".join(f"{name}={counts[name]}" for name in COUNTS)

    def unmap(self, space, flush, words):
        reply = "unmap"
        for word, fpage in words:
            pages = set(self.of_space(space, fpage.first, fpage.count))
            status = self.strip(pages, fpage.rights, flush)
            reply += f" {with_status(word, status):08x}"
        return reply

    def clear(self, space):
        pages = set(self.of_space(space, 0, self.space_pages))
        status = self.strip(pages, ALL, True)
        return f"clear {with_status(0x10, status):08x}"


# Traces


class Limits(NamedTuple):
    version: int
    spaces: int
    bits: int
    frames: int


def read_number(field, form, base):
    if not re.fullmatch(form, field):
        raise Refused("BadRecord")
    return int(field, base)


def read_word(field):
    return read_number(field, "[0-9a-fA-F]{1,8}", 16)


def read_space(field):
    space = read_number(field, "[0-9]{1,5}", 10)
    if space > 65535:
        raise Refused("BadRecord")
    return space


def answer_send(held, limits, fields):
    if len(fields) < 6 or len(fields) % 2 != 0 or len(fields) > 66:
        raise Refused("BadRecord")
    sender, receiver = read_space(fields[1]), read_space(fields[2])
    words = [read_word(field) for field in fields[3:]]
    window = read_fpage(words[0], limits.bits)
    items = [read_item(*pair, limits.bits) for pair in zip(words[1::2], words[2::2])]
    for space in (sender, receiver):
        if space >= limits.spaces:
            raise Refused("NoSuchSpace")
    if sender == receiver:
        raise Refused("SameSpace")
    if window.count == 0:
        raise Refused("NoWindow")
    return held.send(sender, receiver, window, items)


def answer_access(held, limits, fields):
    if len(fields) != 4 or fields[3] not in ("r", "w", "x"):
        raise Refused("BadRecord")
    space, address = read_space(fields[1]), read_word(fields[2])
    if space >= limits.spaces:
        raise Refused("NoSuchSpace")
    if address >= 2**limits.bits:
        raise Refused("OutOfSpace")
    return "access ok" if held.touch((space, address // PAGE), fields[3]) else "access fault"


def answer_unmap(held, limits, fields):
    if len(fields) < 3:
        raise Refused("BadRecord")
    space, control = read_space(fields[1]), read_word(fields[2])
    words = [read_word(field) for field in fields[3:]]
    flush = read_control(control, len(words))
    fpages = [(word, read_fpage(word, limits.bits)) for word in words]
    if space >= limits.spaces:
        raise Refused("NoSuchSpace")
    return held.unmap(space, flush, fpages)


def answer_clear(held, limits, fields):
    if len(fields) != 2 or limits.version != 2:
        raise Refused("BadRecord")
    space = read_space(fields[1])
    if space >= limits.spaces:
        raise Refused("NoSuchSpace")
    return held.clear(space)


def answer_none(held, limits, fields):
    raise Refused("BadRecord")


ANSWERS = {"send": answer_send, "access": answer_access, "unmap": answer_unmap, "clear": answer_clear}


def named(number, letters):
    return "".join(letter if number & bit else "-" for letter, bit in zip(letters, (4, 2, 1)))


def audit_line(place, mapping):
    origin = f"{mapping.origin[0]}:{mapping.origin[1]}" if mapping.origin else "-"
    rights, status = named(mapping.rights, "rwx"), named(mapping.status, "RWX")
    return f"{place[0]},{place[1]},{mapping.frame},{rights},{status},{origin}"


def answers(trace):
    """The lines that a trace is answered with, one by one. Its header is a good one."""
    header, *records = trace.splitlines()
    limits = Limits(*(int(field) for field in header.split(",")[1:]))
    held, refused = Holdings(limits), 0
    for number, record in enumerate(records, 1):
        fields = record.split(",")
        try:
            reply = ANSWERS.get(fields[0], answer_none)(held, limits, fields)
        except Refused as why:
            refused += 1
            reply = f"refused {why}"
        yield f"{number} {reply}"
    for place, mapping in sorted(held.at.items()):
        yield audit_line(place, mapping)
    yield f"end {len(records)} {refused}"
