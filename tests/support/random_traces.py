#!/usr/bin/env python3
"""Traces at random that reach every rule, for planted_bugs.py: each bug of planted_bugs.txt is found by 45 of 50 seeds.

    tests/support/random_traces.py random --seed N --records N [--spaces N] [--bits N] [--frames N] [--refused N]
                                          [--version V]

It believes to know 256 places that are held, each with its rights and the place of its origin, and notes every record
that it makes; some few beliefs are wrong. By these it picks records that tell something: a page that was linked last, a
place that has two origins, a right that an unmap has just taken. Some records stand in episodes of a few: a chain that
grows and is cut, pages that are sent back to where they came from, mappings in a space's own pages. Space 0 keeps its
roots. The last 80 records ask for status, so that the audit shows where it went. Every walk has at most 256 steps.

It is `l4trace random` once more, in plain Python: with the same arguments both make the same bytes.
"""

import argparse
import sys

PAGE_BITS = 12
ALL = 7
NONE = None
# How many places it believes in at most.
SLOTS = 256
# Pages that are used: so many at the start of a space, and so many at its end.
LOW, HIGH = 8, 4
COMPLETE = "complete"


class Dice:
    """PCG32 as in rand_pcg."""

    def __init__(self, seed):
        self.step = 0x6C34_7472_6163_6501 << 1 & 2**64 - 1 | 1
        self.state = seed + self.step & 2**64 - 1
        self.advance()

    def advance(self):
        self.state = self.state * 6364136223846793005 + self.step & 2**64 - 1

    def word(self):
        state = self.state
        self.advance()
        turn, mixed = state >> 59, (state >> 18 ^ state) >> 27 & 0xFFFFFFFF
        return (mixed >> turn | mixed << (-turn & 31)) & 0xFFFFFFFF

    def below(self, count):
        return self.word() % count

    def chance(self, percent):
        return self.below(100) < percent

    def pick(self, *weighted):
        """One of the values, each with its weight: the weights add up to 100."""
        roll = self.below(100)
        for value, weight in weighted:
            if roll < weight:
                return value
            roll -= weight
        raise ValueError("the weights do not add up to 100")


class Slot:
    """A place that is believed to be held."""

    __slots__ = ("space", "page", "rights", "parent")

    def __init__(self, space, page, rights, parent):
        self.space, self.page, self.rights, self.parent = space, page, rights, parent


class Beliefs:
    """What is believed to be held: slots, each with the slot of its origin. Some may be wrong."""

    def __init__(self, dice, frames):
        self.dice = dice
        self.slots = [Slot(0, page, ALL, NONE) for page in range(frames)] + [NONE] * (SLOTS - frames)
        # How many pairs went to an origin of their source.
        self.origins = 0

    def scan(self, wanted):
        """The first slot from a random one on that is as wanted, or none."""
        start = self.dice.below(SLOTS)
        for step in range(SLOTS):
            slot = (start + step) % SLOTS
            if self.slots[slot] is not NONE and wanted(slot):
                return slot
        return NONE

    def find(self, space, page):
        for slot in range(SLOTS):
            known = self.slots[slot]
            if known is not NONE and (known.space, known.page) == (space, page):
                return slot
        return NONE

    def is_under(self, slot, above):
        for _ in range(SLOTS):
            slot = self.slots[slot].parent
            if slot is NONE:
                return False
            if slot == above:
                return True
        return False

    def depth(self, slot):
        for depth in range(SLOTS):
            slot = self.slots[slot].parent
            if slot is NONE:
                return depth
        return SLOTS

    def removed(self, space, page, size, taken, flush):
        """How many places an unmap of 2^size pages would leave without rights."""
        count = 0
        for slot in range(SLOTS):
            if self.slots[slot] is not NONE and not self.slots[slot].rights & ~taken:
                count += self.loses(slot, space, page >> size, size, flush)
        return count

    def loses(self, slot, space, block, size, flush):
        """Whether a slot derives from a block of 2^size pages, or with flush lies in it."""
        if not flush:
            slot = self.slots[slot].parent
        for _ in range(SLOTS):
            if slot is NONE:
                return False
            known = self.slots[slot]
            if known.space == space and known.page >> size == block:
                return True
            slot = known.parent
        return False

    def narrow(self, above, taken, flush):
        """Takes rights from what derives from a slot, and with flush from the slot: what has none left is free."""
        held = [slot for slot in range(SLOTS) if self.slots[slot] is not NONE]
        below = [slot for slot in held if slot == above and flush or self.is_under(slot, above)]
        for slot in below:
            self.slots[slot].rights &= ~taken
        for slot in below:
            if not self.slots[slot].rights:
                self.slots[slot] = NONE

    def note_pair(self, source, space, page, rights, grants):
        """A page of a slot is mapped or granted to a place: the slot of the place where it is now held."""
        sent, target = self.slots[source], self.find(space, page)
        given = sent.rights & rights
        if not given:
            return NONE
        if target is not NONE and self.is_under(source, target):
            self.origins += 1
            return NONE
        if target is not NONE and self.slots[target].parent == source and not grants:
            self.slots[target].rights |= given
            return target
        if target is not NONE:
            self.narrow(target, ALL, True)
        free = self.free_slot(source)
        if grants:
            self.narrow(source, ALL & ~rights, True)
            self.slots[source] = NONE
            for slot in range(SLOTS):
                if self.slots[slot] is not NONE and self.slots[slot].parent == source:
                    self.slots[slot].parent = free
            self.slots[free] = Slot(space, page, given, sent.parent)
        else:
            self.slots[free] = Slot(space, page, given, source)
        return free

    def free_slot(self, source):
        """A free slot. Where there is none, one from which the source does not derive is forgotten."""
        for slot in range(SLOTS):
            if self.slots[slot] is NONE:
                return slot

        def can_go(slot):
            return slot != source and self.slots[slot].parent is not NONE and not self.is_under(source, slot)

        forgotten = self.scan(can_go)
        self.narrow(forgotten, ALL, True)
        return forgotten


class Traces:
    def __init__(self, plan):
        self.plan = plan
        self.dice = Dice(plan.seed)
        self.beliefs = Beliefs(self.dice, plan.frames)
        self.whole = plan.bits - PAGE_BITS
        self.pages = 1 << self.whole
        # Slots: what was linked last, what was accessed last, what an unmap, a grant or an extending map named last,
        # with the rights in which what derives from it differs since.
        self.tip, self.seen, self.asked, self.revoked = 0, 0, 0, ALL
        # An episode: its kind, how many records it has left at most, and its slot.
        self.episode, self.left, self.knot = "chain", 0, 0
        # The place and the right of an access that is to come next.
        self.look = (0, 0, 4)
        self.spoilt = self.dice.below(len(SPOILT))
        self.to_come = plan.records
        self.wide = False
        # How many sends were made by which a pair is lost.
        self.lost = 0

    # Words

    def hexadecimal(self, word):
        return f"{word:08X}" if self.wide else f"{word:x}"

    def number(self, space):
        return f"{space:05}" if self.wide else f"{space}"

    def line(self, name, spaces, words):
        return ",".join([name, *map(self.number, spaces), *map(self.hexadecimal, words)])

    def fpage(self, page, size, rights):
        """The word of the 2^size pages that hold a page; all pages where the size is that of the space."""
        ignored = 8 if self.dice.chance(15) else 0
        if size == self.whole and self.dice.chance(60):
            return 16 + ignored + rights
        return (page >> size << size << PAGE_BITS) + 16 * (size + PAGE_BITS) + ignored + rights

    def first_word(self, grants, page):
        page %= 1 << 32 - PAGE_BITS
        low = 8 + 2 * grants
        if self.dice.chance(25):
            low += self.dice.below(2) + 16 * self.dice.below(256)
        return (page << PAGE_BITS) + low

    def rights(self):
        return self.dice.pick((ALL, 67), (6, 6), (5, 6), (3, 6), (4, 3), (2, 3), (1, 3), (0, 6))

    def right_of(self, rights):
        """One right of some, or none of none."""
        start = self.dice.below(3)
        for step in range(3):
            right = 1 << (start + step) % 3
            if rights & right:
                return right
        return 0

    # Slots and places

    def known(self, slot):
        return self.beliefs.slots[slot]

    def held(self, slot):
        """The slot, or none where it is free."""
        return NONE if slot is NONE or self.known(slot) is NONE else slot

    def place(self, slot):
        return self.known(slot).space, self.known(slot).page

    def parent(self, slot):
        return NONE if self.held(slot) is NONE else self.known(slot).parent

    def a_held(self):
        return self.beliefs.scan(lambda slot: True)

    def a_root(self):
        return self.beliefs.scan(lambda slot: self.known(slot).parent is NONE)

    def any_page(self):
        page = self.dice.below(LOW + HIGH)
        return page if page < LOW else self.pages - HIGH - LOW + page

    def other_space(self, space):
        other = self.dice.below(self.plan.spaces - 1)
        return other if other < space else other + 1

    def fresh(self, sender):
        """A place of another space than the sender's: of four the first that is not held, or the last. In space 0 the
        pages at the end alone are taken."""
        for _ in range(4):
            space, page = self.other_space(sender), self.any_page()
            if space == 0:
                page = self.pages - HIGH + page % HIGH
            if self.beliefs.find(space, page) is NONE:
                break
        return space, page

    def ancestor(self, slot):
        """A place from which a slot derives, at any level; none of a root."""
        depth = self.beliefs.depth(slot)
        if depth == 0:
            return NONE
        for _ in range(1 + self.dice.below(depth)):
            slot = self.known(slot).parent
        return slot

    def outer(self, slot):
        """The next origin of a slot that lies in the slot's space, or none."""
        space = self.known(slot).space
        for _ in range(SLOTS):
            slot = self.known(slot).parent
            if slot is NONE or self.known(slot).space == space:
                return slot
        return NONE

    def nested(self):
        """Two slots of one space, the second of which derives from the first, and the size of a block that holds both;
        or none."""
        inner = self.held(self.seen)
        if inner is NONE or self.known(inner).space == 0 or self.outer(inner) is NONE:
            inner = self.beliefs.scan(lambda slot: self.known(slot).space > 0 and self.outer(slot) is not NONE)
        if inner is NONE:
            return NONE, NONE, 0
        outer = self.outer(inner)
        size = 0
        while self.known(outer).page >> size != self.known(inner).page >> size:
            size += 1
        return outer, inner, size

    def spares(self, space, page, size):
        """Whether few places would go with a block of pages; else yes one time of four."""
        return self.beliefs.removed(space, page, size, ALL, True) <= 2 or self.dice.chance(25)

    # Sends

    def source(self):
        how = self.dice.pick(("tip", 45), ("seen", 12), ("root", 10), ("any", 33))
        slot = NONE
        if how == "tip":
            slot = self.held(self.tip)
        elif how == "seen":
            slot = self.held(self.seen)
        elif how == "root":
            slot = self.a_root()
        return self.a_held() if slot is NONE else slot

    def relative(self, slot, how):
        """A slot that stands so to another, and lies in another space, or none."""
        beliefs, known = self.beliefs, self.known(slot)
        if how == "ancestor":
            found = self.ancestor(slot)
        elif how == "seen":
            found = self.held(self.seen)
        elif how == "sibling":
            parent = known.parent
            found = beliefs.scan(lambda other: NONE is not parent == self.known(other).parent and other != slot)
        elif how == "descendant":
            found = beliefs.scan(lambda other: beliefs.is_under(other, slot))
        else:
            found = self.a_held()
        return found if found is not NONE and self.known(found).space != known.space else NONE

    def may_be_replaced(self, slot):
        """Whether a slot is no root, and what derives from it is little or can be spared."""
        return self.parent(slot) is not NONE and self.spares(*self.place(slot), 0)

    def target(self, slot):
        """The place that a slot is sent to."""
        near = ("fresh", 46), ("bounce", 15), ("ancestor", 14), ("seen", 7)
        how = self.dice.pick(*near, ("held", 7), ("sibling", 4), ("descendant", 7))
        if self.lacks(self.beliefs.origins):
            how = "ancestor"
        known = self.known(slot)
        if how == "bounce" and known.parent is not NONE:
            parent = self.known(known.parent)
            if parent.space not in (0, known.space):
                return parent.space, parent.page & ~3 | known.page & 3
        elif how not in ("fresh", "bounce"):
            found = self.relative(slot, how)
            if found is not NONE and (how == "ancestor" or self.may_be_replaced(found)):
                if how == "seen":
                    self.then_ask(self.parent(found))
                return self.place(found)
        return self.fresh(known.space)

    def send(self):
        how = self.dice.pick(("extend", 18), ("grant", 11), ("replace", 6), ("any", 65))
        if how == "extend":
            return self.send_extending()
        if how == "grant":
            return self.send_granting()
        if how == "replace":
            return self.begin_replacing()
        slot = self.source()
        if slot is NONE:
            return self.access()
        space, page = self.target(slot)
        if space == 0:
            # What replaced a root would leave nothing to send.
            return self.send_page(slot, space, page, self.rights(), False)
        sent, window = self.sizes()
        if min(sent, window) > 0 and not self.spares(space, page, min(sent, window)):
            sent = 0
        items = self.dice.pick((1, 52), (2, 20), (3, 14), (5, 11), (31, 3))
        return self.send_items(slot, sent, space, page, window, items)

    def lacks(self, count):
        """Whether something came less often than in one of 36 records."""
        return count * 36 < self.plan.records - self.to_come

    def sizes(self):
        """The sizes of a send fpage and of a window."""
        below, whole = self.dice.below, self.whole
        unlike = ("page", 30), ("window", 20), ("large", 8), ("cut", 8)
        how = self.dice.pick(*unlike, ("equal", 17), ("both", 12), ("all", 3), ("whole", 2))
        return {
            "page": lambda: (0, whole),
            "window": lambda: (0, 1 + below(3)),
            "large": lambda: (1 + below(3), 0),
            "cut": lambda: (2 + below(2), 1),
            "equal": lambda: (below(4),) * 2,
            "both": lambda: (1 + below(2), 2 + below(2)),
            "all": lambda: (whole, below(3)),
            "whole": lambda: (whole, whole),
        }[how]()

    def send_extending(self):
        """A map onto a place that derives directly from its source, if it can be with rights that the place lacks."""
        child = self.held(self.seen)
        if self.parent(child) is NONE or self.dice.chance(40):
            child = self.beliefs.scan(self.is_narrower)
            if self.dice.chance(50):
                child = self.parent(self.beliefs.scan(self.is_below_narrower))
        if child is not NONE and child != self.seen and self.left == 0 and self.dice.chance(40):
            self.episode, self.left, self.knot = "extend", 1, child
            return self.access_of(*self.place(child), self.right_of(self.known(child).rights))
        return self.extend(child)

    def begin_replacing(self):
        """An access of a place, after which another page replaces it, and its origin is asked."""
        slot = self.beliefs.scan(lambda slot: self.parent(slot) is not NONE and self.known(slot).space > 0)
        if slot is NONE or not self.spares(*self.place(slot), 0):
            return self.access()
        self.episode, self.left, self.knot = "replace", 2, slot
        return self.access_of(*self.place(slot), self.right_of(self.known(slot).rights))

    def replace_on(self):
        knot, parent = self.held(self.knot), self.parent(self.knot)
        if knot is NONE or self.left == 0:
            return self.ask()
        space, page = self.place(knot)
        is_under = self.beliefs.is_under
        other = self.beliefs.scan(
            lambda slot: self.known(slot).space != space and slot != parent and not is_under(slot, knot)
        )
        self.knot = parent
        return self.access() if other is NONE else self.send_page(other, space, page, ALL, False)

    def is_below_narrower(self, slot):
        """Whether the slot of a slot's origin is narrower than its own origin."""
        return self.parent(slot) is not NONE and self.is_narrower(self.parent(slot))

    def is_narrower(self, slot):
        """Whether a slot has an origin that has more rights."""
        return self.parent(slot) is not NONE and self.known(slot).rights != self.known(self.parent(slot)).rights

    def extend(self, child):
        parent = self.parent(child)
        if parent is NONE or self.known(parent).space == self.known(child).space:
            return self.access()
        has = self.known(parent).rights
        lacking = has & ~self.known(child).rights
        missing, there = self.right_of(lacking), self.right_of(ALL & ~lacking)
        rights = self.dice.pick((lacking, 26), (missing, 20), (there, 20), (ALL, 24), (self.dice.below(8), 10))
        record = self.send_page(parent, *self.place(child), rights, False)
        self.asked, self.revoked = child, lacking or ALL
        how = self.dice.pick(("below", 28), ("child", 42), ("ask", 30))
        below = self.beliefs.scan(lambda slot: self.beliefs.is_under(slot, child)) if how == "below" else NONE
        if below is not NONE:
            self.then_look(*self.place(below), self.right_of(lacking & rights or ALL))
        elif how == "ask":
            self.then_ask(child)
        else:
            self.then_look(*self.place(child), self.right_of(rights & ~has or lacking & ~rights or ALL))
        return record

    def then_look(self, space, page, right):
        """Has an access follow."""
        if self.left == 0:
            self.episode, self.left, self.look = "look", 1, (space, page, right)

    def then_ask(self, slot):
        """Has an unmap follow that asks a slot for its status."""
        if self.left == 0 and self.held(slot) is not NONE:
            self.episode, self.left, self.knot = "ask", 1, slot

    def send_granting(self):
        """A grant of what was accessed last, or of a slot that has derived ones."""
        slot = self.held(self.seen)
        if self.parent(slot) is NONE or self.dice.chance(50):
            slot = self.parent(self.beliefs.scan(lambda slot: self.parent(self.parent(slot)) is not NONE))
        if slot is not NONE and slot != self.seen and self.left == 0 and self.dice.chance(50):
            self.episode, self.left, self.knot = "grant", 1, slot
            seen = NONE if self.dice.chance(50) else self.beliefs.scan(lambda other: self.beliefs.is_under(other, slot))
            seen = slot if seen is NONE else seen
            return self.access_of(*self.place(seen), self.right_of(self.known(seen).rights))
        return self.grant(slot)

    def grant(self, slot):
        parent = self.parent(slot)
        if parent is NONE:
            return self.access()
        has = self.known(slot).rights
        withheld = 0 if self.dice.chance(40) else self.right_of(has)
        if withheld == has:
            withheld = 0
        place = self.fresh(self.known(slot).space)
        if self.dice.chance(12):
            child = self.beliefs.scan(lambda other: self.parent(other) == slot)
            if child is not NONE and self.known(child).space != self.known(slot).space:
                place = self.place(child)
        record = self.send_page(slot, *place, ALL & ~withheld, True)
        self.asked, self.revoked = self.tip, withheld
        how = self.dice.pick(("parent", 20), ("ask", 20), ("page", 20), ("below", 40))
        below = NONE
        if how == "below" and withheld:
            below = self.beliefs.scan(lambda other: self.beliefs.is_under(other, self.tip))
        if below is not NONE:
            self.then_look(*self.place(below), withheld)
        elif how == "page" and self.held(self.tip) is not NONE:
            self.then_look(*self.place(self.tip), self.right_of(withheld or ALL))
        else:
            self.then_ask(parent if how == "parent" else self.tip)
        return record

    def send_page(self, slot, space, page, rights, grants):
        """A page goes to a page."""
        sender = self.known(slot).space
        window = self.dice.pick((0, 50), (self.whole, 50))
        words = [self.fpage(page, window, self.dice.below(8)), *self.item(slot, 0, space, page, window, rights, grants)]
        return self.line("send", (sender, space), words)

    def send_items(self, slot, sent, space, page, window, items):
        sender = self.known(slot).space
        words = [self.fpage(page, window, self.dice.below(8))]
        words += self.item(slot, sent, space, page, window, self.rights(), self.grants(slot, sent))
        for _ in range(items - 1):
            other = NONE if self.dice.chance(8) else self.beliefs.scan(lambda other: self.known(other).space == sender)
            if other is NONE:
                words += [self.first_word(self.dice.chance(10), self.dice.below(16)), self.dice.below(16)]
                continue
            size = self.dice.pick((0, 60), (1, 20), (2, 20))
            inside = (page >> window << window) + self.any_page() % (1 << window)
            words += self.item(other, size, space, inside, window, self.rights(), self.grants(other, size))
        return self.line("send", (sender, space), words)

    def grants(self, slot, size):
        """Whether an item is a grant; roots are granted seldom, one by one, and where there are many."""
        few = size > 0 or self.plan.frames < 8
        return self.dice.chance(10 if self.known(slot).parent is not NONE else 0 if few else 2)

    def item(self, slot, sent, space, page, window, rights, grants):
        """The words of an item by which a page goes to another, or the blocks that hold them."""
        known = self.known(slot)
        count, larger = 1 << min(sent, window), 1 << max(sent, window)
        base = (known.page if sent > window else page) % larger // count * count + self.dice.below(count)
        if sent == window:
            base = self.dice.below(16)
        if self.dice.chance(40):
            base += larger * (1 + self.dice.below(3))
        words = [self.first_word(grants, base), self.fpage(known.page, sent, rights)]
        first, to = known.page // count * count, page // count * count
        sender = known.space
        for other in range(SLOTS):
            mapping = self.known(other)
            if mapping is not NONE and mapping.space == sender and first <= mapping.page < first + count:
                made = self.beliefs.note_pair(other, space, to + mapping.page - first, rights, grants)
                if made is not NONE and (other == slot or self.held(self.tip) is NONE):
                    self.tip = made
        return words

    # Accesses

    def access(self):
        how = self.dice.pick(("tip", 12), ("asked", 28), ("nested", 8), ("any", 44), ("none", 8))
        slot = NONE
        if how == "tip":
            slot = self.held(self.tip)
        elif how == "asked" and self.held(self.asked) is not NONE:
            return self.access_below()
        elif how == "nested":
            slot = self.beliefs.scan(lambda slot: self.outer(slot) is not NONE)
        elif how == "any":
            slot = self.a_held()
        if slot is NONE:
            return self.access_of(self.dice.below(self.plan.spaces), self.any_page(), self.right_of(ALL))
        self.seen = slot
        rights = self.known(slot).rights if self.dice.chance(80) else ALL
        return self.access_of(*self.place(slot), self.right_of(rights))

    def access_below(self):
        """An access that shows whether the last unmap or grant reached a place that derives from the one it named."""
        beliefs = self.beliefs
        slot = self.tip
        if self.held(slot) is NONE or not beliefs.is_under(slot, self.asked) or self.dice.chance(40):
            slot = beliefs.scan(lambda other: beliefs.is_under(other, self.asked))
        if slot is NONE or self.dice.chance(15):
            slot = self.asked
        return self.access_of(*self.place(slot), self.right_of(self.revoked or self.known(slot).rights))

    def access_of(self, space, page, right):
        kind = {4: "r", 2: "w", 1: "x"}.get(right, "r")
        return self.line("access", (space,), [(page << PAGE_BITS) + self.dice.below(1 << PAGE_BITS)]) + "," + kind

    # Unmaps

    def unmap(self):
        how = self.dice.pick(("origin", 18), ("above tip", 22), ("above seen", 22), ("nested", 18), ("any", 20))
        slot, least, rights = NONE, 0, NONE
        if how == "origin":
            slot = self.parent(self.asked)
        elif how == "above tip" and self.held(self.tip) is not NONE:
            slot = self.ancestor(self.tip)
        elif how == "above seen":
            slot = self.held(self.seen)
            slot = slot if self.dice.chance(40) else self.parent(slot)
        elif how == "nested":
            slot, inner, least = self.nested()
            rights = NONE if slot is NONE else self.right_of(self.known(inner).rights)
        if slot is NONE:
            slot = self.a_held()
        if slot is NONE:
            return self.access()
        return self.unmap_words(slot, least, rights)

    def unmap_words(self, slot, least, rights):
        """An unmap of one or more words, one of which names a slot, by a block of at least a size."""
        space, page = self.place(slot)
        flush = space > 0 and self.dice.chance(28)
        count = self.dice.pick((1, 62), (2, 16), (3, 10), (12, 11), (64, 1))
        chosen = self.dice.below(count) if count < 12 else count - 1 - self.dice.below(3)
        words = []
        for number in range(count):
            if number != chosen:
                words.append(self.other_word(space, flush))
                continue
            size = least or self.dice.pick((0, 68), (1, 12), (2, 12), (self.whole, 8))
            if rights is NONE and flush:
                rights = self.dice.pick((0, 10), (1, 24), (2, 24), (4, 24), (7, 18))
            if rights is NONE:
                rights = self.dice.pick((0, 22), (1, 18), (2, 18), (4, 18), (3, 6), (5, 6), (6, 6), (7, 6))
            if self.beliefs.removed(space, page, size, rights, flush) > (4 if flush else 2) and self.dice.chance(85):
                rights = 0
            self.asked, self.revoked = slot, rights
            words.append(self.fpage(page, size, rights))
            self.note_unmap(space, page, size, rights, flush)
            if rights and (flush or count > 3) and self.dice.chance(60):
                self.then_look(space, page, self.right_of(rights))
        return self.line("unmap", (space,), [64 * flush + count - 1, *words])

    def other_word(self, space, flush):
        """A word of an unmap that names any pages, most often without rights; it takes few places."""
        if self.dice.chance(8):
            return self.dice.below(16)
        page, size = self.any_page(), self.dice.pick((0, 80), (1, 10), (2, 10))
        rights = self.dice.pick((0, 70), (1, 9), (2, 9), (4, 9), (7, 3))
        if self.beliefs.removed(space, page, size, rights, flush) > 0:
            rights = 0
        self.note_unmap(space, page, size, rights, flush)
        return self.fpage(page, size, rights)

    def note_unmap(self, space, page, size, rights, flush):
        for slot in range(SLOTS):
            known = self.known(slot)
            if known is not NONE and known.space == space and known.page >> size == page >> size:
                self.beliefs.narrow(slot, rights, flush)

    def late_unmap(self):
        """An access of a place with two origins or more, after which an unmap takes its status: the audit shows where
        it is passed to."""
        slot = self.held(self.tip)
        if self.parent(self.parent(slot)) is NONE or self.dice.chance(70):
            slot = self.beliefs.scan(lambda slot: self.parent(self.parent(slot)) is not NONE)
        if slot is NONE:
            return self.access()
        self.episode, self.left, self.knot = "late", 1, slot
        return self.access_of(*self.place(slot), self.right_of(self.known(slot).rights))

    def late_on(self):
        if self.held(self.knot) is NONE:
            return self.access()
        space, page = self.place(self.knot)
        rights = self.dice.pick((0, 70), (1, 10), (2, 10), (4, 10))
        self.asked, self.revoked = self.knot, rights
        self.beliefs.narrow(self.knot, rights, False)
        return self.line("unmap", (space,), [0, self.fpage(page, 0, rights)])

    def clear(self):
        """A clear of any space; or an access of a place, then a clear of its space, and then its origin is asked."""
        slot = self.beliefs.scan(lambda slot: self.known(slot).space > 0 and self.known(slot).parent is not NONE)
        above = self.parent(slot)
        if above is not NONE and self.known(above).space > 0 and self.parent(above) is not NONE:
            slot = above
        if slot is not NONE and self.dice.chance(70):
            self.episode, self.left, self.knot = "clear", 2, slot
            return self.access_of(*self.place(slot), self.right_of(self.known(slot).rights))
        return self.clear_of(1 + self.dice.below(self.plan.spaces - 1))

    def clear_of(self, space):
        self.note_unmap(space, 0, self.whole, ALL, True)
        return self.line("clear", (space,), [])

    def clear_on(self):
        if self.held(self.knot) is NONE or self.left == 0:
            return self.ask()
        space, knot = self.known(self.knot).space, self.knot
        self.knot = self.known(knot).parent
        below = self.beliefs.scan(lambda slot: self.known(slot).space != space and self.beliefs.is_under(slot, knot))
        if below is not NONE and self.dice.chance(50):
            right = self.right_of(self.known(below).rights)
            self.episode, self.left, self.look = "look", 1, (*self.place(below), right)
        return self.clear_of(space)

    # Episodes

    def begin_episode(self, is_last):
        self.episode = self.dice.pick(("chain", 17), ("knot", 34), ("nested", 25), ("fold", 24))
        if self.lacks(self.lost):
            self.episode = "knot"
        if is_last:
            self.episode = "chain"
        if self.episode == "chain":
            root = self.a_root()
            if root is not NONE:
                self.tip, self.left = root, 13 + self.dice.below(6)
        elif self.episode == "knot":
            self.knot, self.left = self.beliefs.scan(self.is_knot), 4
            if self.knot is NONE:
                self.left = 0
        elif self.episode == "nested":
            self.knot, self.left = NONE, 4
        else:
            _, self.knot, _ = self.nested()
            self.left = 0 if self.knot is NONE else 4

    def go_on(self):
        """The next record of an episode."""
        self.left -= 1
        if self.episode == "chain":
            return self.chain_on()
        if self.episode == "knot":
            return self.knot_on()
        if self.episode == "look":
            return self.access_of(*self.look)
        if self.episode == "ask":
            return self.ask()
        if self.episode == "fold":
            return self.fold_on()
        if self.episode == "replace":
            return self.replace_on()
        if self.episode == "late":
            return self.late_on()
        if self.episode == "grant":
            return self.grant(self.knot)
        if self.episode == "clear":
            return self.clear_on()
        if self.episode == "extend":
            return self.extend(self.knot)
        return self.nested_on()

    def fold_on(self):
        """An access of a place that derives from another of its space, an unmap of both, and a look at what it did."""
        if self.held(self.knot) is NONE or self.outer(self.knot) is NONE:
            self.left = 0
            return self.access()
        known, outer = self.known(self.knot), self.outer(self.knot)
        if self.left == 3:
            return self.access_of(known.space, known.page, self.right_of(known.rights))
        if self.left == 1 and self.revoked:
            return self.access_of(known.space, known.page, self.revoked)
        if self.left < 2:
            self.knot, self.left = known.parent, 0
            return self.ask()
        rights = self.right_of(known.rights) if self.dice.chance(65) else 0
        size = 0
        while self.known(outer).page >> size != known.page >> size:
            size += 1
        self.asked, self.revoked = self.knot, rights
        self.note_unmap(known.space, known.page, size, rights, False)
        return self.line("unmap", (known.space,), [0, self.fpage(known.page, size, rights)])

    def ask(self):
        if self.held(self.knot) is NONE:
            return self.access()
        space, page = self.place(self.knot)
        return self.line("unmap", (space,), [0, self.fpage(page, 0, 0)])

    def chain_on(self):
        """A send from the chain's end on; at last a send back, an unmap near its start, two accesses, and the unmap
        again."""
        if self.held(self.tip) is NONE:
            self.left = 0
            return self.access()
        if self.left == 4:
            end, back = self.tip, self.ancestor(self.tip)
            if back is not NONE and self.known(back).space != self.known(end).space:
                return self.send_page(end, *self.place(back), self.dice.pick((ALL, 65), (0, 35)), self.dice.chance(45))
        if self.left == 3:
            return self.unmap_chain()
        if self.left < 3 and self.held(self.asked) is NONE:
            return self.access()
        if self.left == 2:
            return self.access_below()
        if self.left == 1:
            return self.access_of(*self.place(self.tip), self.right_of(self.known(self.tip).rights))
        if self.left == 0:
            # It takes nothing more: the status alone is news.
            space, page = self.place(self.asked)
            return self.line("unmap", (space,), [0, self.fpage(page, 0, self.revoked)])
        rights = self.dice.pick((ALL, 88), (6, 4), (5, 4), (3, 4))
        return self.send_page(self.tip, *self.fresh(self.known(self.tip).space), rights, self.dice.chance(2))

    def unmap_chain(self):
        """Takes one or two rights from all of the chain behind one of its first places."""
        slot = self.tip
        for _ in range(max(self.beliefs.depth(slot) - self.dice.below(3), 0)):
            slot = self.known(slot).parent
        space, page = self.place(slot)
        has = self.known(self.tip).rights
        rights = self.right_of(has)
        self.asked, self.revoked = slot, rights
        if self.dice.chance(60):
            rights |= self.right_of(ALL & ~has)
        self.beliefs.narrow(slot, rights, False)
        return self.line("unmap", (space,), [0, self.fpage(page, 0, rights)])

    def is_knot(self, slot):
        """Whether a slot's origin lies in another space than it and space 0, at another place of its block of four."""
        known, parent = self.known(slot), self.parent(slot)
        if parent is NONE:
            return False
        origin = self.known(parent)
        return origin.space not in (0, known.space) and known.space > 0 and (origin.page ^ known.page) & 3 != 0

    def knot_on(self):
        """Four pages go back to where one of them came from, so that it is lost: first what stands beside it, and what
        stands at its target, are put there."""
        if self.held(self.knot) is NONE or not self.is_knot(self.knot):
            self.left = 0
            return self.access()
        known, origin = self.known(self.knot), self.known(self.parent(self.knot))
        beside = known.space, known.page & ~3 | origin.page & 3
        front = origin.space, origin.page & ~3 | known.page & 3
        partner = self.beliefs.find(*beside)
        if partner is NONE or self.beliefs.is_under(partner, self.parent(self.knot)):
            return self.send_something(*beside)
        held = self.beliefs.find(*front)
        in_the_way = self.left > 0 and held is not NONE and self.parent(held) != self.knot
        if held is NONE or in_the_way and self.spares(*front, 0) and self.dice.chance(30):
            if self.dice.chance(50):
                return self.send_page(self.knot, *front, self.right_of(ALL) | self.right_of(ALL), False)
            return self.send_something(*front)
        self.left = 0
        self.lost += 1
        knot, grants = self.knot, self.dice.chance(15)
        words = [self.fpage(origin.page, 2, ALL), *self.item(knot, 2, *self.place(self.parent(knot)), 2, ALL, grants)]
        if self.dice.chance(45):
            # Another one.
            self.knot = self.beliefs.scan(self.is_knot)
            self.left = 0 if self.knot is NONE else 4
        return self.line("send", (known.space, origin.space), words)

    def send_something(self, space, page):
        """A slot of another space, which does not derive from the knot, goes to a place."""
        is_under, parent = self.beliefs.is_under, self.parent(self.knot)
        other = self.beliefs.scan(
            lambda slot: self.known(slot).space != space and not is_under(slot, parent) and slot != parent
        )
        return self.access() if other is NONE else self.send_page(other, space, page, ALL, False)

    def nested_on(self):
        """A page goes with one of its space that derives directly from it: such a one is made first, by a grant to the
        space of its origin. At last an unmap of the page where it is now, and an access."""
        if self.left < 2:
            return self.after_nested()
        inner = self.beliefs.scan(self.is_inner)
        if inner is NONE:
            return self.make_inner()
        outer = self.parent(inner)
        size = 0
        while self.known(outer).page >> size != self.known(inner).page >> size:
            size += 1
        sender = self.known(outer).space
        space, page = self.fresh(sender)
        if space == 0:
            return self.access()
        window = self.dice.pick((size, 50), (self.whole, 50))
        grants, self.left = self.dice.chance(85), 2
        words = [self.fpage(page, window, 0), *self.item(outer, size, space, page, window, ALL, grants)]
        self.knot = self.tip
        return self.line("send", (sender, space), words)

    def is_inner(self, slot):
        """Whether a slot's origin lies in its space, which is not space 0, and in its block of eight pages."""
        known, parent = self.known(slot), self.parent(slot)
        if parent is NONE:
            return False
        origin = self.known(parent)
        return origin.space == known.space > 0 and origin.page >> 3 == known.page >> 3

    def make_inner(self):
        slot = self.beliefs.scan(self.is_knot)
        if slot is NONE:
            return self.access()
        known, origin = self.known(slot), self.known(self.parent(slot))
        return self.send_page(slot, origin.space, origin.page & ~3 | known.page & 3, ALL, True)

    def after_nested(self):
        """An unmap of the page where it is now, and an access of the one that came with it."""
        knot = self.held(self.knot)
        inner = NONE
        if knot is not NONE:
            space = self.known(knot).space
            inner = self.beliefs.scan(lambda slot: self.parent(slot) == knot and self.known(slot).space == space)
        if inner is NONE:
            self.left = 0
            return self.access()
        rights = self.right_of(self.known(inner).rights)
        self.asked, self.revoked = knot, rights
        self.episode, self.left, self.look = "look", 1, (*self.place(inner), rights)
        self.beliefs.narrow(knot, rights, False)
        space, page = self.place(knot)
        return self.line("unmap", (space,), [0, self.fpage(page, 0, rights)])

    # Records

    def refused(self):
        """A record that is refused: each form in turn, from a random one on."""
        form = SPOILT[self.spoilt % len(SPOILT)]
        self.spoilt += 1
        spaces, bits = self.plan.spaces, self.plan.bits
        slot = self.a_held()
        space, page = self.place(slot) if slot is not NONE else (0, 0)
        right = self.right_of(self.known(slot).rights) if slot is not NONE else 4
        for _ in range(4):
            other = self.other_space(space)
            if self.beliefs.find(other, page) is NONE:
                break
        names = {
            "a": space, "b": other, "none": spaces, "page": f"{(page << 12) + 0xC7:x}", "map": f"{(page << 12) + 8:x}",
            "address": f"{page << 12:x}", "large": f"{16 * (bits + 1) + 7:x}",
            "both": f"{0x1000 + 16 * (bits + 1) + 7:x}",
            # A space of 32 bits has every address: there a size is past its end.
            "past": f"{(1 << bits) + 0xC7:x}" if bits < 32 else f"{16 * 33 + 7:x}",
            "end": f"{1 << bits:x}",
        }
        if form.startswith("send,{a},{b},10,{map},{page},"):
            self.episode, self.left, self.look = "look", 1, (other, page, right)
        if form.startswith("unmap,{a},4"):
            self.episode, self.left, self.look = "look", 1, (space, page, right)
        if "{end}" in form and bits == 32:
            form = "unmap,{a},0,{large}"
        if form.startswith("clear") and self.plan.version == 1:
            form = "clear,{a}"
        if form == "items":
            form = "send,{a},{b},10" + ",{map},{page}" * 32
        if form == "words":
            form = "unmap,{a},3f" + ",{page}" * 65
        return form.format(**names)

    def record(self):
        self.to_come -= 1
        self.wide = False
        if self.dice.chance(self.plan.refused):
            return self.refused()
        self.wide = self.dice.chance(6)
        if self.left == 0 and self.to_come > 100 and self.dice.chance(12 if self.to_come > 120 else 100):
            self.begin_episode(self.to_come <= 120)
        if self.left > 0:
            return self.go_on() if self.dice.chance(88) else self.access()
        if self.to_come < 100:
            kind = self.dice.pick(("send", 15), ("access", 45), ("late_unmap", 40))
        else:
            kind = self.dice.pick(("send", 50), ("access", 30), ("unmap", 17), ("clear", 3))
        if kind == "clear" and self.plan.version == 1:
            kind = "unmap"
        return getattr(self, kind)()


SPOILT = [
    # BadSize: the sizes 5 and 11, and a base behind the sizes 0 and 1.
    "unmap,{a},0,57", "unmap,{a},0,b7", "unmap,{a},0,1007", "unmap,{a},0,1017",
    # Misaligned, OutOfSpace, and both.
    "unmap,{a},0,10d7", "unmap,{a},0,{past}", "unmap,{a},0,{large}", "unmap,{a},0,{both}",
    # NotAnItem: bit 3 clear, bit 2 set, and with a bad fpage.
    "send,{a},{b},10,2,{page}", "send,{a},{b},10,c,{page}", "send,{a},{b},10,4,57",
    # BadControl: a high bit, more words, fewer words, and with a bad word.
    "unmap,{a},80,{page}", "unmap,{a},0,{page},{page}", "unmap,{a},1,{page}", "unmap,{a},1,57",
    # NoSuchSpace, SameSpace, NoWindow, and several at once.
    "send,{none},{a},10,8,{page}", "send,{a},{none},10,{map},{page}", "send,{none},{none},10,8,{page}",
    "send,{a},{a},10,{map},{page}", "send,{a},{a},0,8,{page}", "send,{a},{b},7,8,{page}",
    "send,{none},{a},10,8,57", "send,{a},{b},57,4,{page}", "send,{a},{b},10,8,57,4,{page}",
    "access,{none},0,r", "access,{none},{end},r", "access,{a},{end},w",
    "unmap,{none},0,{page}", "unmap,{none},0,57", "clear,{none}", "clear,{a},0",
    # A bad item or word behind a good one.
    "send,{a},{b},10,{map},{page},8,57", "unmap,{a},41,{page},57", "send,{a},{b},10,{map},{page},{map},b7",
    "send,{a},{b},10,{map},{page},c,{page}", "unmap,{a},42,{page},0,10d7",
    # BadRecord.
    "access,{a},{address},q", "access,{a},{address},r,r", "access,{a},{address}", "access,{a:06},{address},r",
    "access,70000,0,r", "access,{a},0{address:0>8},r", "access,{a},+{address},r", "send,{a},{b},10,{map},{page},8",
    "send,{a},{b},10", "items", "words", "map,{a},{b}", "unmap,{a}",
]


def main():
    parser = argparse.ArgumentParser()
    parser.add_argument("command", choices=["random"])
    defaults = {"seed": None, "records": None, "spaces": 16, "bits": 18, "frames": 16, "refused": 8, "version": 1}
    for name, default in defaults.items():
        parser.add_argument(f"--{name}", type=int, default=default, required=default is None)
    plan = parser.parse_args()
    lines = [f"l4map,{plan.version},{plan.spaces},{plan.bits},{plan.frames}"]
    traces = Traces(plan)
    lines += [traces.record() for _ in range(plan.records)]
    sys.stdout.write("".join(line + "\n" for line in lines))


if __name__ == "__main__":
    main()
