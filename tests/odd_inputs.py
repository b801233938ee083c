#!/usr/bin/env python3
"""Inputs that are large or odd: long traces, noise, one long field, empty lines, and all that `csv` treats specially.

    tests/odd_inputs.py [PROGRAM]
"""

import random

from support.program import Cases, Ended, compare_replay, program_path, run

HEADER = b"l4map,1,2,18,1\n"
ROOT = b"0,0,0,rwx,---,-\n"
LINKED = b"send absent=0 norights=0 origin=0 lost=0 extended=0 linked=1"
MEGABYTE = 1 << 20


def answered(*replies, refused=0, mappings=ROOT):
    """The output of a run with these replies."""
    lines = b"".join(b"%d %s\n" % (number, reply) for number, reply in enumerate(replies, 1))
    return lines + mappings + b"end %d %d\n" % (len(replies), refused)


def lines(*texts):
    """The texts as lines, in bytes."""
    return "".join(text + "\n" for text in texts).encode()


def roots(count):
    """The audit lines of untouched pages of space 0: page i is frame i with all rights."""
    return lines(*(f"0,{page},{page},rwx,---,-" for page in range(count)))


def noise(without=b""):
    """A megabyte of bytes that look random, without some."""
    drawn = random.Random(1).randbytes(MEGABYTE)
    return drawn.translate(None, delete=without)


# Noise in which no byte ends a record, opens a quote or stands for a byte order mark is one record.
ONE_RECORD = noise(b'\r\n"')

REFUSED = [
    ("one field of a megabyte", b"x" * MEGABYTE + b"\n"),
    ("one quoted field of a megabyte", b'"' + b"x\n" * (MEGABYTE // 2) + b'"\n'),
    ("a megabyte of digits for an address", b"access,0," + b"0" * MEGABYTE + b",r\n"),
    ("a megabyte of commas", b"," * MEGABYTE + b"\n"),
    ("a megabyte of words for a send", b"send,0,1,10" + b",8,c6" * (MEGABYTE // 5) + b"\n"),
    ("a megabyte of words for an unmap", b"unmap,0,3f" + b",c2" * (MEGABYTE // 3) + b"\n"),
    ("a megabyte of noise", ONE_RECORD + b"\n"),
    ("a line of two quotes", b'""\n'),
    ("a quote in a field", b'acc"ess,0,0,r\n'),
    ("a quote that never ends", b'access,0,0,"r\naccess,0,0,r\n'),
    ("a zero byte in a field", b"access,0,0\x00,r\n"),
    ("a field that is no text", b"access,0,\xff\xfe,r\n"),
    ("a space before a field", b"access, 0,0,r\n"),
    ("a space behind a field", b"access,0,0,r \n"),
    ("a tab for a comma", b"access\t0\t0\tr\n"),
    ("a byte order mark", b"\xef\xbb\xbfaccess,0,0,r\n"),
]
REFUSALS = {
    "a megabyte of words for an unmap": b"BadControl",
}

# An access and a send, in each form that reads as the same records.
SAME = [
    ("line feeds", b"access,0,0,r\nsend,0,1,10,3008,c6\n"),
    ("carriage returns with line feeds", b"access,0,0,r\r\nsend,0,1,10,3008,c6\r\n"),
    ("carriage returns alone", b"access,0,0,r\rsend,0,1,10,3008,c6\r"),
    ("no last line feed", b"access,0,0,r\nsend,0,1,10,3008,c6"),
    ("quoted fields", b'"access","0","0","r"\n"send",0,"1",10,"3008",c6\n'),
    (
        "100,000 empty lines before, between and behind",
        b"\n" * 100_000 + b"access,0,0,r\n" + b"\r\n" * 100_000 + b"send,0,1,10,3008,c6\n" + b"\n" * 100_000,
    ),
]

# A header, a send and an access, in each form that reads as the same trace.
SAME_TRACE = [
    ("line feeds", b"l4map,1,2,18,1\nsend,0,1,10,3008,c6\naccess,1,3abc,w\n"),
    ("no last line feed", b"l4map,1,2,18,1\nsend,0,1,10,3008,c6\naccess,1,3abc,w"),
    ("carriage returns with line feeds", b"l4map,1,2,18,1\r\nsend,0,1,10,3008,c6\r\naccess,1,3abc,w\r\n"),
    ("lone carriage returns", b"l4map,1,2,18,1\rsend,0,1,10,3008,c6\raccess,1,3abc,w\r"),
    ("no last line end after carriage returns", b"l4map,1,2,18,1\rsend,0,1,10,3008,c6\raccess,1,3abc,w"),
    ("mixed line ends", b"l4map,1,2,18,1\rsend,0,1,10,3008,c6\r\naccess,1,3abc,w\n"),
    ("empty lines", b"\n\nl4map,1,2,18,1\n\nsend,0,1,10,3008,c6\n\n\naccess,1,3abc,w\n\n"),
    ("empty lines of carriage returns", b"\r\n\rl4map,1,2,18,1\r\n\r\nsend,0,1,10,3008,c6\r\raccess,1,3abc,w\r\n\r\n"),
    ("every field in quotes", b'"l4map","1","2","18","1"\n"send","0","1","10","3008","c6"\n"access","1","3abc","w"\n'),
    ("some fields in quotes", b'l4map,"1",2,18,"1"\r\n"send",0,1,10,"3008",c6\r\naccess,1,3abc,"w"'),
    ("quotes round a part of a field", b'l4map,1,2,18,1\n"se"nd,0,1,"1"0,3008,c6\naccess,1,"3"abc,w\n'),
    ("upper case digits", b"l4map,1,2,18,1\nsend,0,1,10,3008,C6\naccess,1,3ABC,w\n"),
    ("mixed case digits", b"l4map,1,2,18,1\nsend,0,1,10,3008,C6\naccess,1,3aBc,w\n"),
    (
        "leading zeros to the full width",
        b"l4map,1,0000002,0000018,0000001\nsend,00000,00001,00000010,00003008,000000c6\naccess,00001,00003abc,w\n",
    ),
]

# A trace that ends in its last record: the first has a quote that takes the rest, the other two end early.
CUT_OFF = [
    ("a quote that never ends takes the rest of the trace", b'access,0,0,"r\naccess,0,0,r\naccess,0,0,r\n', b"BadRecord"),
    ("last record cut off after a comma", b"access,0,0,", b"BadRecord"),
    ("unmap cut off in its last word", b"unmap,0,0,50c", b"Misaligned"),
]


def four_digits():
    """Record numbers of four digits."""
    replies = (f"{number} access fault" for number in range(1, 1001))
    return lines("l4map,1,2,18,1", *["access,1,0,r"] * 1000), lines(*replies) + roots(1) + lines("end 1000 0")


def upper_limits():
    """The last space and the last page at the upper limits."""
    trace = lines(
        "l4map,1,512,32,4096",
        "send,0,511,10,fffff008,fff0c7",
        "access,511,ffffffff,x",
        "access,511,100000000,x",
        "access,512,0,x",
    )
    replies = lines(f"1 {LINKED.decode()}", "2 access ok", "3 refused BadRecord", "4 refused NoSuchSpace")
    return trace, replies + roots(4096) + lines("511,1048575,4095,rwx,R-X,0:4095", "end 4 2")


def complete_spaces():
    """Complete spaces of 4,096 pages mapped, granted, extended and replaced.

    All of space 0 is mapped to space 1 and granted to space 2 with rw; a second map from space 0 finds each page of
    space 2 derived from its own and gives it x. Space 2 maps all to space 3, takes r there, and a map from space 0
    replaces it.
    """
    trace = lines(
        "l4map,1,4,24,4096",
        "send,0,1,10,8,17",
        "send,1,2,10,a,16",
        "send,0,2,10,8,11",
        "send,2,3,10,8,15",
        "unmap,2,0,14",
        "access,3,fff000,r",
        "access,3,fff000,x",
        "send,0,3,10,8,17",
    )
    linked = "send absent=0 norights=0 origin=0 lost=0 extended=0 linked=4096"
    extended = "send absent=0 norights=0 origin=0 lost=0 extended=4096 linked=0"
    replies = lines(
        f"1 {linked}",
        f"2 {linked}",
        f"3 {extended}",
        f"4 {linked}",
        "5 unmap 00000010",
        "6 access fault",
        "7 access ok",
        f"8 {linked}",
    )
    space_2 = lines(*(f"2,{page},{page},rwx,---,0:{page}" for page in range(4095)), "2,4095,4095,rwx,R-X,0:4095")
    space_3 = lines(*(f"3,{page},{page},rwx,---,0:{page}" for page in range(4096)))
    return trace, replies + roots(4096) + space_2 + space_3 + lines("end 8 0")


def chain_through_all_spaces():
    """A chain of page 0 of all 512 spaces.

    Its head is an origin of its end. Space 255 grants its page to 0:16 without w: 256:0 and what follows lose w, and
    the status of 511:0 goes to 254:0. At last space 0 grants its page to 1:0, which derives from it with all the rest,
    0:16 too.
    """
    linked = LINKED.decode()
    trace = lines(
        "l4map,1,512,18,1",
        *(f"send,{space},{space + 1},c0,8,c7" for space in range(511)),
        "access,511,0,w",
        "send,511,0,c0,8,c7",
        "send,255,0,10,1000a,c5",
        "access,511,0,w",
        "access,511,0,x",
        "access,254,0,r",
        "unmap,254,0,c0",
        "send,0,1,c0,a,c4",
    )
    answer = lines(
        *(f"{number} {linked}" for number in range(1, 512)),
        "512 access ok",
        "513 send absent=0 norights=0 origin=1 lost=0 extended=0 linked=0",
        f"514 {linked}",
        "515 access fault",
        "516 access ok",
        "517 access ok",
        "518 unmap 000000c7",
        f"519 {linked}",
        "1,0,0,r--,---,-",
        "end 519 0",
    )
    return trace, answer


def all_pages_of_the_largest_space():
    """Each of 1,048,576 pages is mapped, loses a right, and is revoked."""
    pages = 1 << 20
    trace = lines(f"l4map,1,2,32,{pages}", "send,0,1,10,8,17", "unmap,0,0,12", "unmap,0,0,17")
    linked = f"send absent=0 norights=0 origin=0 lost=0 extended=0 linked={pages}"
    return trace, lines(f"1 {linked}", "2 unmap 00000010", "3 unmap 00000010") + roots(pages) + lines("end 3 0")


LARGE = [four_digits, upper_limits, complete_spaces, chain_through_all_spaces, all_pages_of_the_largest_space]


def check_odd_records(cases, program):
    """A header, and behind it what may be one record, two, or none."""

    def check(name, records, stdout):
        cases.compare(name, Ended(0, stdout, b""), run(program, HEADER + records))

    for name, record in REFUSED:
        refusal = REFUSALS.get(name, b"BadRecord")
        check(f"refused: {name}", record, answered(b"refused " + refusal, refused=1))
    mapped = b"0,0,0,rwx,R--,-\n1,3,0,rw-,---,0:0\n"
    for name, records in SAME:
        check(f"the same records: {name}", records, answered(b"access ok", LINKED, mappings=mapped))
    check("100,000 empty lines", b"\n" * 100_000, answered())
    accessed = answered(*[b"access ok"] * 100_000, mappings=b"0,0,0,rwx,R-X,-\n")
    check("100,000 accesses", b"access,0,0,x\n" * 100_000, accessed)


def check_no_header(cases, program):
    for name, given in (
        ("a megabyte of noise", noise()),
        ("a megabyte of zero bytes", b"\x00" * MEGABYTE),
        ("a megabyte of empty lines", b"\n" * MEGABYTE),
    ):
        cases.compare(f"no header: {name}", Ended(2, b"", b"l4map: BadHeader\n"), run(program, given))


def check_replays(cases, program):
    """Whole traces, each with --plain too."""
    mapped = b"0,0,0,rwx,---,-\n1,3,0,rw-,RW-,0:0\n"
    for name, given in SAME_TRACE:
        wanted = Ended(0, answered(LINKED, b"access ok", mappings=mapped), b"")
        compare_replay(cases, program, f"the same trace: {name}", given, wanted)
    for name, record, refusal in CUT_OFF:
        wanted = Ended(0, answered(b"refused " + refusal, refused=1, mappings=roots(16)), b"")
        compare_replay(cases, program, f"cut off: {name}", b"l4map,1,3,18,16\n" + record, wanted)
    for large in LARGE:
        given, answer = large()
        compare_replay(cases, program, f"large: {large.__name__}", given, Ended(0, answer, b""))


def main():
    program, cases = program_path(), Cases()
    check_odd_records(cases, program)
    check_no_header(cases, program)
    check_replays(cases, program)
    cases.end()


main()
