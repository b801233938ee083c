"""Traces that ask for much or for odd things, each with its answer, worked out from docs/FORMATS.md and docs/MODEL.md.

A trace is a function that returns the bytes of the trace and those of its answer. How the answer comes is said beside
it. Places are written space:page. The words that come again and again: window `10` is the complete space, `c0` page 0
alone; first item word `8` maps with send base 0; send fpage `c7` is page 0 with all rights, `17` the complete space
with all rights.
"""

SPACES = 512
PAGES = 4096
PAGE = 4096  # bytes

EXTENDING_SENDS = 200_000
ITEMS = 31
WORDS = 64
SPACES_OF_MILLION = 257
MILLION = (SPACES_OF_MILLION - 1) * PAGES
LARGEST_PAGES = 1_048_576


def lines(*texts):
    """The texts as lines, in bytes."""
    return "".join(f"{text}\n" for text in texts).encode()


def sent(absent=0, norights=0, origin=0, lost=0, extended=0, linked=0):
    """The reply to a send with these counts."""
    return f"send absent={absent} norights={norights} origin={origin} lost={lost} extended={extended} linked={linked}"


def roots(count):
    """The audit lines of pages of space 0 that no call has changed: page i is frame i with all rights."""
    return [f"0,{page},{page},rwx,---,-" for page in range(count)]


class Dialogue:
    """A trace that grows record by record, with the reply that each must get."""

    def __init__(self, spaces, bits, frames, version=1):
        self.records = [f"l4map,{version},{spaces},{bits},{frames}"]
        self.replies = []
        self.refused = 0

    def ask(self, record, reply):
        self.records.append(record)
        self.replies.append(f"{len(self.records) - 1} {reply}")
        self.refused += reply.startswith("refused ")

    def with_audit(self, audit):
        """The trace, and its answer if the audit has these lines."""
        end = f"end {len(self.replies)} {self.refused}"
        return lines(*self.records), lines(*self.replies, *audit, end)


def chain_of_three(spaces=3, bits=18, frames=16):
    """A dialogue that begins with the chain 0:5, 1:0, 2:0, each with all rights."""
    trace = Dialogue(spaces, bits, frames)
    trace.ask("send,0,1,c0,8,50c7", sent(linked=1))
    trace.ask("send,1,2,c0,8,c7", sent(linked=1))
    return trace


def chain_through_all_spaces():
    """A page goes from space to space through all 512; the last one writes to it, and space 0 takes it back from all.

    A write sets R and W, 6, which the unmap finds at the end of the chain. Its word is `c7`, so `c6` comes back.
    """
    trace = Dialogue(SPACES, 18, 1)
    for space in range(SPACES - 1):
        trace.ask(f"send,{space},{space + 1},c0,8,c7", sent(linked=1))
    trace.ask("access,511,0,w", "access ok")
    trace.ask("unmap,0,0,c7", "unmap 000000c6")
    return trace.with_audit(roots(1))


def chain_through_all_spaces_and_on():
    """A chain through page 0 of all 512 spaces goes on through page 1 of the first 16.

    15:1 is the end of the chain, so 14:0 and 0:0 are origins of it, which a send leaves alone. The write to 15:1 leaves
    R and W there. The unmap by space 15 names 15:0: what derives from it, 16:0 to 511:0 and 0:1 to 15:1, loses w, and
    the status goes to 14:0. The execute at 15:1 leaves R and X there, so that the whole chain has R, W and X, `7`, when
    space 0 asks, and nothing after. The last unmap takes 14:1 and with it 15:1.
    """
    trace = Dialogue(SPACES, 18, 1)
    for space in range(SPACES - 1):
        trace.ask(f"send,{space},{space + 1},c0,8,c7", sent(linked=1))
    trace.ask("send,511,0,10c0,8,c7", sent(linked=1))
    for space in range(15):
        trace.ask(f"send,{space},{space + 1},10c0,8,10c7", sent(linked=1))
    trace.ask("send,15,14,c0,8,10c7", sent(origin=1))
    trace.ask("send,15,0,c0,8,10c7", sent(origin=1))
    trace.ask("access,15,1000,w", "access ok")
    trace.ask("unmap,15,0,c2", "unmap 000000c6")
    trace.ask("access,15,1000,w", "access fault")
    trace.ask("access,15,1000,x", "access ok")
    trace.ask("unmap,0,0,c0", "unmap 000000c7")
    trace.ask("unmap,0,0,c0", "unmap 000000c0")
    trace.ask("unmap,14,40,10c7", "unmap 000010c0")
    audit = roots(1) + ["0,1,0,r-x,---,511:0"]
    for space in range(1, SPACES):
        rights = "rwx" if space <= 15 else "r-x"
        audit.append(f"{space},0,0,{rights},---,{space - 1}:0")
        if space < 14:
            audit.append(f"{space},1,0,r-x,---,{space - 1}:1")
    return trace.with_audit(audit)


def fan_of_one_page():
    """Space 0 maps its one page to each of the 4,096 pages of space 1, one by one, and takes w from all of them."""
    trace = Dialogue(2, 24, 1)
    for page in range(PAGES):
        trace.ask(f"send,0,1,10,{PAGE * page + 8:x},c7", sent(linked=1))
    trace.ask("unmap,0,0,c2", "unmap 000000c0")
    return trace.with_audit(roots(1) + [f"1,{page},0,r-x,---,0:0" for page in range(PAGES)])


def pages_sent_in_a_ring():
    """Four pages go from space 0 to 1, from 1 to 2, and from 2 to 1 again, where they find their own origins."""
    trace = Dialogue(3, 18, 16)
    trace.ask("send,0,1,e0,8,e7", sent(linked=4))
    trace.ask("send,1,2,e0,8,e7", sent(linked=4))
    trace.ask("send,2,1,e0,8,e7", sent(origin=4))
    derived = [f"{space},{page},{page},rwx,---,{space - 1}:{page}" for space in (1, 2) for page in range(4)]
    return trace.with_audit(roots(16) + derived)


def complete_space_64_times():
    """64 words of one unmap name the complete space: the first takes all that derives, and its status, R and X of an
    execute."""
    trace = chain_of_three()
    trace.ask("access,2,0,x", "access ok")
    trace.ask("unmap,0,3f" + ",17" * WORDS, "unmap 00000015" + " 00000010" * (WORDS - 1))
    return trace.with_audit(roots(16))


def one_page_64_times():
    """64 words of one unmap name one page.

    The first time they only ask, and the first word clears the status, R and W. Then they take r, w and x in turn, so
    that the first three take all that derives. Then they flush: the root goes with the first, and the others name what
    is not held.
    """
    trace = chain_of_three()
    trace.ask("access,2,0,w", "access ok")
    trace.ask("unmap,0,3f" + ",50c0" * WORDS, "unmap 000050c6" + " 000050c0" * (WORDS - 1))
    one_right_each = "".join(f",50c{(4, 2, 1)[number % 3]}" for number in range(WORDS))
    trace.ask("unmap,0,3f" + one_right_each, "unmap" + " 000050c0" * WORDS)
    trace.ask("access,1,0,r", "access fault")
    trace.ask("access,0,5000,x", "access ok")
    trace.ask("unmap,0,7f" + ",50c7" * WORDS, "unmap 000050c5" + " 000050c0" * (WORDS - 1))
    return trace.with_audit(roots(16)[:5] + roots(16)[6:])


def sends_that_extend_one_page():
    """A page is mapped with r, and 200,000 sends name w, x and r of it in turn: 1:0 gains w and x.

    Its status, R, stays, and so does what derives from it: 2:0 has r, and a write there is a fault.
    """
    trace = Dialogue(3, 18, 1)
    trace.ask("send,0,1,10,8,c4", sent(linked=1))
    trace.ask("send,1,2,10,8,c7", sent(linked=1))
    trace.ask("access,1,0,r", "access ok")
    for number in range(EXTENDING_SENDS):
        trace.ask(f"send,0,1,10,8,c{(2, 1, 4)[number % 3]}", sent(extended=1))
    trace.ask("access,2,0,w", "access fault")
    trace.ask("access,1,0,w", "access ok")
    return trace.with_audit(roots(1) + ["1,0,0,rwx,RW-,0:0", "2,0,0,r--,---,1:0"])


def items_that_replace_one_anothers_targets():
    """31 items of one send put 64 pages each into the same window, which holds 64 others with what derives from them.

    Space 0 has 2,048 pages. Pages 1984 to 2047 go to 1:0 to 1:63, from there to space 2, which writes to 2:5. Item i
    then sends the pages from 64 * i on. No target derives from its source, so each pair goes, and what stood there goes
    with all that derives from it: the first item's flush gives R and W to 0:1989, from which 1:5 came; the others find
    no status. The last item, 30, leaves the pages from 1920 on. `120` is 64 pages from page 0 on.
    """
    frames, block = 2048, 64
    trace = Dialogue(3, 24, frames)
    first_word = f"{(frames - block) * PAGE + 0x127:x}"
    trace.ask(f"send,0,1,120,8,{first_word}", sent(linked=block))
    trace.ask("send,1,2,120,8,127", sent(linked=block))
    trace.ask("access,2,5000,w", "access ok")
    items = "".join(f",8,{block * item * PAGE + 0x127:x}" for item in range(ITEMS))
    trace.ask(f"send,0,1,120{items}", sent(linked=ITEMS * block))
    audit = roots(frames)
    written = frames - block + 5
    audit[written] = f"0,{written},{written},rwx,RW-,-"
    kept = block * (ITEMS - 1)
    return trace.with_audit(audit + [f"1,{page},{kept + page},rwx,---,0:{kept + page}" for page in range(block)])


def grants_that_replace_one_anothers_targets():
    """31 GrantItems of one send put pages of space 1 into one page of space 2, of which each has a mapping in space 0.

    Space 0 maps its pages 0 to 31 to space 1, and space 1 maps each back, to the pages from 32 on, so that 1:i has 0:i
    as origin and 0:(32 + i) derives from it. Each grant moves 1:i to 2:0, with 0:(32 + i) behind it, and first takes
    away what the grant before it left there, with all that derives from that: so only the last is left, 2:0 and 0:62.
    1:31, which no item names, stays. R and W of 0:32 go to 0:0 before 1:0 moves.
    """
    trace = Dialogue(3, 18, 32)
    trace.ask("send,0,1,110,8,117", sent(linked=32))
    trace.ask("send,1,0,20110,8,117", sent(linked=32))
    trace.ask("access,0,20000,w", "access ok")
    trace.ask("send,1,2,c0" + "".join(f",a,{item * PAGE + 0xC7:x}" for item in range(ITEMS)), sent(linked=ITEMS))
    audit = roots(32)
    audit[0] = "0,0,0,rwx,RW-,-"
    audit += ["0,62,30,rwx,---,2:0", "0,63,31,rwx,---,1:31", "1,31,31,rwx,---,0:31", "2,0,30,rwx,---,0:30"]
    return trace.with_audit(audit)


def million_mappings(trace):
    """Makes 1,048,576 mappings of one frame: 4,096 of 0:0 in space 1, and from each a chain through the spaces up to
    256."""
    for page in range(PAGES):
        trace.ask(f"send,0,1,10,{PAGE * page + 8:x},c7", sent(linked=1))
    for space in range(1, SPACES_OF_MILLION - 1):
        trace.ask(f"send,{space},{space + 1},10,8,17", sent(linked=PAGES))
    trace.ask("access,256,fff000,w", "access ok")


def million_mappings_revoked_at_once():
    """A frame has a million mappings, and its root takes all rights from all of them. The status comes from the last, R
    and W."""
    trace = Dialogue(SPACES_OF_MILLION, 24, 1)
    million_mappings(trace)
    trace.ask("unmap,0,0,c7", "unmap 000000c6")
    return trace.with_audit(roots(1))


def million_mappings_revoked_one_by_one():
    """A frame has a million mappings, and each holder gives up its own, the last space first, so that nothing derives
    from it.

    256:4095 was written to: its R and W go to its origin, 255:4095, are found there again, and so on down to 0:0.
    """
    trace = Dialogue(SPACES_OF_MILLION, 24, 1)
    million_mappings(trace)
    for space in range(SPACES_OF_MILLION - 1, 0, -1):
        for page in range(PAGES):
            base = PAGE * page
            status = 6 if page == PAGES - 1 else 0
            trace.ask(f"unmap,{space},40,{base + 0xC7:x}", f"unmap {base + 0xC0 + status:08x}")
    return trace.with_audit(["0,0,0,rwx,RW-,-"])


def every_page_of_many_spaces(trace):
    """Maps the 4,096 pages of space 0 to each of the 511 others, and executes in the last page of the last."""
    for space in range(1, SPACES):
        trace.ask(f"send,0,{space},10,8,17", sent(linked=PAGES))
    trace.ask("access,511,ffffff,x", "access ok")
    trace.ask("access,511,1000000,x", "refused OutOfSpace")
    trace.ask("access,512,0,x", "refused NoSuchSpace")


def many_spaces_with_every_page_held():
    """All 2,097,152 pages of 512 spaces of 24 bits are held, and the audit lists them."""
    trace = Dialogue(SPACES, 24, PAGES)
    every_page_of_many_spaces(trace)
    audit = roots(PAGES)
    for space in range(1, SPACES):
        audit += [f"{space},{page},{page},rwx,---,0:{page}" for page in range(PAGES)]
    audit[-1] = "511,4095,4095,rwx,R-X,0:4095"
    return trace.with_audit(audit)


def many_spaces_given_up():
    """All pages of 512 spaces of 24 bits are held. Space 0 gives all up by one word, which returns R and X."""
    trace = Dialogue(SPACES, 24, PAGES)
    every_page_of_many_spaces(trace)
    trace.ask("unmap,0,40,17", "unmap 00000015")
    return trace.with_audit([])


def spaces_cleared_in_turn():
    """64 chains go through all 512 spaces, and the spaces are deleted one after another, the last one first.

    The last page of the last space was written to: its R and W are told by each clear, go to the page of the space
    before, and are found there by the next one. The clear of space 0 takes the roots.
    """
    trace = Dialogue(SPACES, 18, 64, version=2)
    for space in range(SPACES - 1):
        trace.ask(f"send,{space},{space + 1},10,8,17", sent(linked=64))
    trace.ask("access,511,3f000,w", "access ok")
    for space in range(SPACES - 1, -1, -1):
        trace.ask(f"clear,{space}", "clear 00000016")
        trace.ask(f"clear,{space}", "clear 00000010")
    trace.ask("clear,512", "refused NoSuchSpace")
    return trace.with_audit([])


def space_with_every_page_cleared():
    """A space of 2^32 bytes has all its 1,048,576 pages, and has mapped each on. It is deleted, and then space 0 is.

    What was seen of the last page of space 2, R and X, goes to the last root, and is told once more.
    """
    trace = Dialogue(3, 32, LARGEST_PAGES, version=2)
    for space in (0, 1):
        trace.ask(f"send,{space},{space + 1},10,8,17", sent(linked=LARGEST_PAGES))
    trace.ask("access,2,fffff000,x", "access ok")
    trace.ask("clear,1", "clear 00000015")
    trace.ask("access,2,fffff000,x", "access fault")
    trace.ask("clear,0", "clear 00000015")
    return trace.with_audit([])


def fields_that_are_none():
    """Records with one bad field each, between two accesses that are as if they stood alone."""
    trace = chain_of_three()
    trace.ask("access,2,0,w", "access ok")
    for record in (
        "send,0,1,c0" + ",8,50c7" * (ITEMS + 1),
        "access,000002,0,r",
        "unmap,000000,0,50c7",
        "access,2,000000000,r",
        "send,0,1,c0,8,0000050c7",
        "send,0,1,c0,+8,50c7",
        "unmap,0,+0,50c7",
    ):
        trace.ask(record, "refused BadRecord")
    trace.ask("access,2,0,x", "access ok")
    return trace.with_audit(roots(16) + ["1,0,5,rwx,---,0:5", "2,0,5,rwx,RWX,1:0"])


def byte_that_is_no_text():
    """The byte ff stands in a field of each kind of record, and in the name of one."""
    records = [b"access,0,\xff,r", b"access,\xff,0,r", b"access,0,0,\xff", b"send,0,1,c0,8,50c\xff", b"unmap,0,0,\xff", b"\xffmap"]
    trace = b"l4map,1,3,18,16\n" + b"".join(record + b"\n" for record in records)
    replies = [f"{number} refused BadRecord" for number in range(1, len(records) + 1)]
    return trace, lines(*replies, *roots(16), f"end {len(records)} {len(records)}")


# Those that take a fraction of a second, whatever the options.
SMALL = [
    chain_through_all_spaces,
    chain_through_all_spaces_and_on,
    fan_of_one_page,
    pages_sent_in_a_ring,
    complete_space_64_times,
    one_page_64_times,
    items_that_replace_one_anothers_targets,
    grants_that_replace_one_anothers_targets,
    spaces_cleared_in_turn,
    fields_that_are_none,
    byte_that_is_no_text,
]

# Those that take seconds.
LARGE = [
    sends_that_extend_one_page,
    million_mappings_revoked_at_once,
    million_mappings_revoked_one_by_one,
    many_spaces_with_every_page_held,
    many_spaces_given_up,
    space_with_every_page_cleared,
]
