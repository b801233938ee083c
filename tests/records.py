#!/usr/bin/env python3
"""One record between two others: what is taken and what is refused, by the rules of docs/FORMATS.md.

    tests/records.py [PROGRAM]

Before the record space 0 maps a page to 1:0, behind it space 1 writes there. A refused record changes nothing, so the
write is answered and the audit is the same for all of them. Each trace is run with --plain too, and with a header of
either version: but for clears both mean the same.
"""

from support.program import Cases, Ended, compare_replay, program_path

BEFORE = b"l4map,%d,3,18,16\nsend,0,1,10,8,50c6\n"
VERSIONS = (1, 2)
BEHIND = b"\naccess,1,0,w\n"
LINKED = "send absent=0 norights=0 origin=0 lost=0 extended=0 linked=1"
ABSENT = "send absent=1 norights=0 origin=0 lost=0 extended=0 linked=0"
NO_RIGHTS = "send absent=0 norights=1 origin=0 lost=0 extended=0 linked=0"


def sent(absent=0, norights=0, origin=0, lost=0, extended=0, linked=0):
    """The reply to a send with these counts."""
    pairs_without_effect = f"absent={absent} norights={norights} origin={origin} lost={lost}"
    return f"send {pairs_without_effect} extended={extended} linked={linked}"


# Name, record, reply, and the audit lines that the record adds in space 2.
ACCEPTED = [
    ("send base rounded down to a page", "send,0,2,10,9c08,50c7", LINKED, ["2,9,5,rwx,---,0:5"]),
    ("send base taken modulo the space", "send,0,2,10,fffff008,50c7", LINKED, ["2,63,5,rwx,---,0:5"]),
    ("send base taken modulo a window of two pages", "send,0,2,80d0,5008,50c7", LINKED, ["2,9,5,rwx,---,0:5"]),
    ("send base without effect in a window of one page", "send,0,2,90c0,5008,50c7", LINKED, ["2,9,5,rwx,---,0:5"]),
    ("window that is complete by its size", "send,0,2,120,9008,50c7", LINKED, ["2,9,5,rwx,---,0:5"]),
    ("window that ends at the end of the space", "send,0,2,3f0c0,8,50c7", LINKED, ["2,63,5,rwx,---,0:5"]),
    ("rights and the free bit of the window are ignored", "send,0,2,1f,9008,50c7", LINKED, ["2,9,5,rwx,---,0:5"]),
    ("window with read alone limits no rights", "send,0,2,14,9008,50c7", LINKED, ["2,9,5,rwx,---,0:5"]),
    ("window with write alone and read sent", "send,0,2,12,9008,50c4", LINKED, ["2,9,5,r--,---,0:5"]),
    ("free bit of the send fpage is ignored", "send,0,2,10,9008,50cf", LINKED, ["2,9,5,rwx,---,0:5"]),
    ("lowest bit of the first item word is ignored", "send,0,2,10,9009,50c7", LINKED, ["2,9,5,rwx,---,0:5"]),
    ("middle bits of the first item word are ignored", "send,0,2,10,93f8,50c7", LINKED, ["2,9,5,rwx,---,0:5"]),
    ("last page that is held", "send,0,2,10,8,f0c7", LINKED, ["2,0,15,rwx,---,0:15"]),
    ("first page that is not held", "send,0,2,10,8,100c7", ABSENT, []),
    ("last page of the space", "send,0,2,10,8,3f0c7", ABSENT, []),
    ("page of an empty space", "send,2,0,10,3f008,c7", ABSENT, []),
    ("absent page sent without rights", "send,0,2,10,8,100c0", ABSENT, []),
    ("send fpage without rights", "send,0,2,10,8,50c0", NO_RIGHTS, []),
    ("execute right alone", "send,0,2,10,8,50c1", LINKED, ["2,0,5,--x,---,0:5"]),
    ("write right alone", "send,0,2,10,8,50c2", LINKED, ["2,0,5,-w-,---,0:5"]),
    ("write and execute", "send,0,2,10,8,50c3", LINKED, ["2,0,5,-wx,---,0:5"]),
    ("read right alone", "send,0,2,10,8,50c4", LINKED, ["2,0,5,r--,---,0:5"]),
    ("read and execute", "send,0,2,10,8,50c5", LINKED, ["2,0,5,r-x,---,0:5"]),
    ("read and write", "send,0,2,10,8,50c6", LINKED, ["2,0,5,rw-,---,0:5"]),
    ("all rights of a page that has no execute", "send,1,2,10,8,c7", LINKED, ["2,0,5,rw-,---,1:0"]),
    ("read and execute of a page that has no execute", "send,1,2,10,8,c5", LINKED, ["2,0,5,r--,---,1:0"]),
    ("write and execute of a page that has no execute", "send,1,2,10,8,c3", LINKED, ["2,0,5,-w-,---,1:0"]),
    ("execute of a page that has no execute", "send,1,2,10,8,c1", NO_RIGHTS, []),
    ("two items", "send,0,2,10,8,50c7,1008,60c7", sent(linked=2), ["2,0,5,rwx,---,0:5", "2,1,6,rwx,---,0:6"]),
    ("31 items", "send,0,2,10" + ",8,50c7" * 31, sent(extended=30, linked=1), ["2,0,5,rwx,---,0:5"]),
    ("send fpage of two pages", "send,0,2,10,8,40d7", sent(linked=2), ["2,0,4,rwx,---,0:4", "2,1,5,rwx,---,0:5"]),
    ("send fpage of four pages into a window of one", "send,0,2,80c0,2008,40e7", LINKED, ["2,8,6,rwx,---,0:6"]),
    ("complete send fpage into a window of one page", "send,0,2,80c0,9008,17", LINKED, ["2,8,9,rwx,---,0:9"]),
    ("send fpage that is complete by its size", "send,0,2,80c0,9008,127", LINKED, ["2,8,9,rwx,---,0:9"]),
    ("nil send fpage", "send,0,2,10,8,0", sent(), []),
    ("nil send fpage with rights", "send,0,2,10,8,f", sent(), []),
    ("nil send fpage granted", "send,0,2,10,a,7", sent(), []),
    ("grant of an absent page", "send,0,2,10,a,100c7", ABSENT, []),
    ("grant without rights", "send,0,2,10,a,50c0", NO_RIGHTS, []),
    ("held target and absent source", "send,0,1,10,8,100c7", ABSENT, []),
    ("held target and no right in common", "send,0,1,10,8,60c0", NO_RIGHTS, []),
    ("held target that is the source's origin", "send,1,0,10,5008,c7", sent(origin=1), []),
    ("held target that gains nothing", "send,0,1,10,8,50c4", sent(extended=1), []),
    ("execute without the right", "access,1,0,x", "access fault", []),
    ("read of an absent page", "access,1,1000,r", "access fault", []),
    ("write to an absent page", "access,1,1000,w", "access fault", []),
    ("execute of an absent page", "access,2,0,x", "access fault", []),
    ("read at the last byte of a space", "access,2,3ffff,r", "access fault", []),
]

# What no word may be, and what no number of a space: a name and the field.
BAD_WORDS = [
    ("is empty", b""),
    ("has nine digits", b"000000010"),
    ("has a prefix", b"0x10"),
    ("has a plus sign", b"+8"),
    ("has a minus sign", b"-8"),
    ("has a space before it", b" 10"),
    ("has a space behind it", b"10 "),
    ("has a tab behind it", b"10\t"),
    ("has a letter past f", b"1g"),
    ("has a suffix", b"10h"),
    ("has an underscore", b"1_0"),
    ("has a dot", b"1.0"),
    ("is no text", b"1\xff"),
    ("has a zero byte", b"1\x000"),
    ("has digits of another script", "\u0661\u0660".encode()),
    ("is far too long", b"0" * 100_000),
]
BAD_NUMBERS = [
    ("is empty", b""),
    ("has six digits", b"000001"),
    ("is past 65535", b"65536"),
    ("is the largest of five digits", b"99999"),
    ("is hexadecimal", b"a"),
    ("has a prefix", b"0x1"),
    ("has a plus sign", b"+1"),
    ("has a minus sign", b"-1"),
    ("is minus zero", b"-0"),
    ("has a space before it", b" 1"),
    ("has a space behind it", b"1 "),
    ("has a dot", b"1.0"),
    ("has an exponent", b"1e0"),
    ("is no text", b"\xff"),
    ("has a zero byte", b"1\x00"),
    ("has a digit of another script", "\u0661".encode()),
    ("is far too long", b"1" * 100_000),
]


def bad_fields():
    """Each field of a send, an access and an unmap in every form that it must not have."""
    places = [
        ("sender", b"send,%s,2,10,8,50c7", BAD_NUMBERS),
        ("receiver", b"send,0,%s,10,8,50c7", BAD_NUMBERS),
        ("window", b"send,0,2,%s,8,50c7", BAD_WORDS),
        ("first item word", b"send,0,2,10,%s,50c7", BAD_WORDS),
        ("second item word", b"send,0,2,10,8,%s", BAD_WORDS),
        ("word of the second item", b"send,0,2,10,8,50c7,8,%s", BAD_WORDS),
        ("space of an access", b"access,%s,0,r", BAD_NUMBERS),
        ("address", b"access,1,%s,r", BAD_WORDS),
        ("space of an unmap", b"unmap,%s,0,c0", BAD_NUMBERS),
        ("control word", b"unmap,1,%s,c0", BAD_WORDS),
        ("word of an unmap", b"unmap,1,0,%s", BAD_WORDS),
        ("second word of an unmap", b"unmap,1,1,c0,%s", BAD_WORDS),
    ]
    for place, record, forms in places:
        for form, field in forms:
            yield f"{place} {form}", record % field, "BadRecord"


# Of all tables that follow: name, record, refusal.

# Names of records, and numbers of fields.
RECORD_FORMS = [
    ("unknown record name", b"map,0,1", "BadRecord"),
    ("second header", b"l4map,1,3,18,16", "BadRecord"),
    ("upper case name of a send", b"SEND,0,2,10,8,50c7", "BadRecord"),
    ("capital in the name of an access", b"Access,1,0,r", "BadRecord"),
    ("space before the name", b" send,0,2,10,8,50c7", "BadRecord"),
    ("space behind the name", b"send ,0,2,10,8,50c7", "BadRecord"),
    ("name cut short", b"sen,0,2,10,8,50c7", "BadRecord"),
    ("name drawn out", b"sends,0,2,10,8,50c7", "BadRecord"),
    ("empty name", b",0,2,10,8,50c7", "BadRecord"),
    ("name that is no text", b"send\xff,0,2,10,8,50c7", "BadRecord"),
    ("name with a zero byte", b"send\x00,0,2,10,8,50c7", "BadRecord"),
    ("name that is far too long", b"s" * 100_000, "BadRecord"),
    ("line of one space", b" ", "BadRecord"),
    ("send of its name alone", b"send", "BadRecord"),
    ("send without items", b"send,0,2,10", "BadRecord"),
    ("send with half an item", b"send,0,2,10,8", "BadRecord"),
    ("send with an item and a half", b"send,0,2,10,8,50c7,8", "BadRecord"),
    ("send with a last comma", b"send,0,2,10,8,50c7,", "BadRecord"),
    ("send with two last commas", b"send,0,2,10,8,50c7,,", "BadRecord"),
    ("send of 32 items", b"send,0,2,10" + b",8,50c7" * 32, "BadRecord"),
    ("send of 1000 items", b"send,0,2,10" + b",8,50c7" * 1000, "BadRecord"),
    ("access of its name alone", b"access", "BadRecord"),
    ("access without a kind", b"access,1,0", "BadRecord"),
    ("access with a field too many", b"access,1,0,r,r", "BadRecord"),
    ("access with a last comma", b"access,1,0,r,", "BadRecord"),
]

# Kinds of access.
KINDS = [
    ("empty kind", b"access,1,0,", "BadRecord"),
    ("two kinds", b"access,1,0,rw", "BadRecord"),
    ("kind twice", b"access,1,0,rr", "BadRecord"),
    ("upper case kind", b"access,1,0,R", "BadRecord"),
    ("another letter as kind", b"access,1,0,e", "BadRecord"),
    ("number as kind", b"access,1,0,4", "BadRecord"),
    ("space before the kind", b"access,1,0, r", "BadRecord"),
    ("space behind the kind", b"access,1,0,r ", "BadRecord"),
    ("kind that is no text", b"access,1,0,\xff", "BadRecord"),
]

# Quotes are for fields alone.
QUOTES = [
    ("two quotes are one empty field", b'""', "BadRecord"),
    ("whole record in one pair of quotes", b'"send,0,2,10,8,50c7"', "BadRecord"),
    ("quoted comma joins two fields", b'send,0,"2,10",8,50c7', "BadRecord"),
    ("quoted line feed stays in its field", b'send,0,2,"10\n",8,50c7', "BadRecord"),
    ("quoted carriage return stays in its field", b'access,1,0,"r\r"', "BadRecord"),
    ("quoted line end does not end a record", b'access,1,0,"r\naccess,1,0,w"', "BadRecord"),
    ("doubled quote inside quotes", b'"se""nd",0,2,10,8,50c7', "BadRecord"),
    ("quoted line end behind a doubled quote", b'access,1,0,"r""\naccess,1,0,w"', "BadRecord"),
    ("quote inside a plain field", b'se"nd,0,2,10,8,50c7', "BadRecord"),
    ("apostrophes for quotes", b"'send',0,2,10,8,50c7", "BadRecord"),
    ("quoted kind with a space", b'access,1,0,"r "', "BadRecord"),
    ("semicolons for commas", b"send;0;2;10;8;50c7", "BadRecord"),
]

# Unmaps.
UNMAPS = [
    ("unmap of its name alone", b"unmap", "BadRecord"),
    ("unmap without a control word", b"unmap,0", "BadRecord"),
    ("unmap with a last comma", b"unmap,0,0,50c2,", "BadRecord"),
    ("upper case name of an unmap", b"UNMAP,0,0,50c2", "BadRecord"),
    ("unmap without words", b"unmap,0,0", "BadControl"),
    ("unmap with a word too few", b"unmap,0,1,50c2", "BadControl"),
    ("unmap with a word too many", b"unmap,0,0,50c2,50c4", "BadControl"),
    ("unmap of 65 words", b"unmap,0,3f" + b",17" * 65, "BadControl"),
    ("control word with the bit above its fields", b"unmap,0,80,50c2", "BadControl"),
    ("control word with its highest bit", b"unmap,0,80000000,50c2", "BadControl"),
    ("unmap with a bad size", b"unmap,0,0,a7", "BadSize"),
    ("unmap of a page between pages", b"unmap,0,0,50c", "Misaligned"),
    ("unmap past the space", b"unmap,0,0,400c7", "OutOfSpace"),
    ("unmap by a space just past the spaces", b"unmap,3,0,c0", "NoSuchSpace"),
    ("unmap by the space with the largest number", b"unmap,65535,0,c0", "NoSuchSpace"),
]

# Windows, send fpages and addresses.
FPAGES = [
    *((f"window with s {s}", b"send,0,2,%x,8,50c7" % (16 * s), "BadSize") for s in range(2, 12)),
    ("window with s 0 and a base", b"send,0,2,1000,8,50c7", "BadSize"),
    ("window with s 0 and a base below a page", b"send,0,2,400,8,50c7", "BadSize"),
    ("window with s 1 and a base", b"send,0,2,1010,8,50c7", "BadSize"),
    ("window with s 11 and a base", b"send,0,2,10b0,8,50c7", "BadSize"),
    *((f"send fpage with s {s}", b"send,0,2,10,8,%x" % (16 * s + 7), "BadSize") for s in range(2, 12)),
    ("send fpage with s 0 and a base", b"send,0,2,10,8,1007", "BadSize"),
    ("send fpage with s 0 and a base below a page", b"send,0,2,10,8,407", "BadSize"),
    ("send fpage with s 1 and a base", b"send,0,2,10,8,1017", "BadSize"),
    ("send fpage with s 11 and a base", b"send,0,2,10,8,10b7", "BadSize"),
    ("window of a page between pages", b"send,0,2,4c0,8,50c7", "Misaligned"),
    ("window of two pages at an odd page", b"send,0,2,10d0,8,50c7", "Misaligned"),
    ("window of the space's size with a base", b"send,0,2,20120,8,50c7", "Misaligned"),
    ("send fpage of a page between pages", b"send,0,2,10,8,8c7", "Misaligned"),
    ("send fpage of two pages at an odd page", b"send,0,2,10,8,10d7", "Misaligned"),
    ("send fpage of four pages at an even page", b"send,0,2,10,8,20e7", "Misaligned"),
    ("window at the end of the space", b"send,0,2,400c0,8,50c7", "OutOfSpace"),
    ("window of twice the space", b"send,0,2,130,8,50c7", "OutOfSpace"),
    ("window of the largest size", b"send,0,2,3f0,8,50c7", "OutOfSpace"),
    ("window at the last page of 32 bits", b"send,0,2,fffff0c0,8,50c7", "OutOfSpace"),
    ("send fpage at the end of the space", b"send,0,2,10,8,400c7", "OutOfSpace"),
    ("send fpage of twice the space", b"send,0,2,10,8,137", "OutOfSpace"),
    ("send fpage of the largest size", b"send,0,2,10,8,3f7", "OutOfSpace"),
    ("send fpage at the last page of 32 bits", b"send,0,2,10,8,fffff0c7", "OutOfSpace"),
    ("address at the end of the space", b"access,1,40000,r", "OutOfSpace"),
    ("largest address", b"access,1,ffffffff,r", "OutOfSpace"),
]

# First words of items, spaces, nil windows.
ITEMS_AND_SPACES = [
    *((f"first item word that ends in {n:x}", b"send,0,2,10,900%x,50c7" % n, "NotAnItem") for n in [*range(8), *range(12, 16)]),
    ("second of two items is none", b"send,0,2,10,8,50c7,0,50c7", "NotAnItem"),
    ("item behind a grant is none", b"send,0,2,10,a,50c7,0,60c7", "NotAnItem"),
    ("item behind a grant is past the space", b"send,0,2,10,a,50c7,8,400c7", "OutOfSpace"),
    ("sender just past the spaces", b"send,3,2,10,8,50c7", "NoSuchSpace"),
    ("sender with the largest number", b"send,65535,2,10,8,50c7", "NoSuchSpace"),
    ("receiver just past the spaces", b"send,0,3,10,8,50c7", "NoSuchSpace"),
    ("receiver with the largest number", b"send,0,65535,10,8,50c7", "NoSuchSpace"),
    ("access just past the spaces", b"access,3,0,r", "NoSuchSpace"),
    ("access with the largest number", b"access,65535,0,r", "NoSuchSpace"),
    ("sender is the receiver", b"send,1,1,c0,8,c7", "SameSpace"),
    ("sender is the receiver in another spelling", b"send,1,001,c0,8,c7", "SameSpace"),
    ("nil window", b"send,0,2,0,8,50c7", "NoWindow"),
    ("nil window with rights", b"send,0,2,7,8,50c7", "NoWindow"),
    ("nil window with its free bit", b"send,0,2,8,8,50c7", "NoWindow"),
]

# Where a record has several faults, the first in the order of refusals is named.
FIRST_CAUSES = [
    ("bad last word before a bad window", b"send,0,2,20,8,+1", "BadRecord"),
    ("bad number of fields before a bad window", b"send,0,2,20,8", "BadRecord"),
    ("item and a half before an unknown sender", b"send,3,2,10,8,50c7,8", "BadRecord"),
    ("32 items before a bad window", b"send,0,2,20" + b",8,50c7" * 32, "BadRecord"),
    ("bad receiver before an unknown sender", b"send,3,65536,10,8,50c7", "BadRecord"),
    ("bad size before bad alignment in the window", b"send,0,2,4b0,8,50c7", "BadSize"),
    ("bad size before the end of the space in the window", b"send,0,2,400b0,8,50c7", "BadSize"),
    ("bad alignment before the end of the space in the window", b"send,0,2,410d0,8,50c7", "Misaligned"),
    ("bad alignment of the largest size in the window", b"send,0,2,403f0,8,50c7", "Misaligned"),
    ("bad size of the window before an item that is none", b"send,0,2,20,0,50c7", "BadSize"),
    ("bad alignment of the window before an item that is none", b"send,0,2,10d0,0,50c7", "Misaligned"),
    ("window past the space before an item that is none", b"send,0,2,400c0,0,50c7", "OutOfSpace"),
    ("window past the space before a bad size in the item", b"send,0,2,400c0,8,27", "OutOfSpace"),
    ("item that is none before its bad size", b"send,0,2,10,0,27", "NotAnItem"),
    ("item that is none before its bad alignment", b"send,0,2,10,0,10d7", "NotAnItem"),
    ("item that is none before the end of the space", b"send,0,2,10,c,400c7", "NotAnItem"),
    ("bad size before bad alignment in the item", b"send,0,2,10,8,4b7", "BadSize"),
    ("bad size before the end of the space in the item", b"send,0,2,10,8,400b7", "BadSize"),
    ("bad alignment before the end of the space in the item", b"send,0,2,10,8,410d7", "Misaligned"),
    ("fault of the first item before a second that is none", b"send,0,2,10,8,400c7,0,50c7", "OutOfSpace"),
    ("fault of the second item before a third that is none", b"send,0,2,10,8,50c7,8,10d7,0,50c7", "Misaligned"),
    ("item that is none before an unknown sender", b"send,3,2,10,0,50c7", "NotAnItem"),
    ("bad size in the item before an unknown receiver", b"send,0,3,10,8,27", "BadSize"),
    ("bad alignment in the item before one space twice", b"send,1,1,10,8,10d7", "Misaligned"),
    ("item past the space before a nil window", b"send,0,2,0,8,400c7", "OutOfSpace"),
    ("item that is none before a nil window", b"send,0,2,0,0,50c7", "NotAnItem"),
    ("fault of the last of 31 items before an unknown space", b"send,3,3,0" + b",8,50c7" * 30 + b",8,27", "BadSize"),
    ("unknown space before one space twice", b"send,3,3,10,8,50c7", "NoSuchSpace"),
    ("unknown sender before a nil window", b"send,3,2,0,8,50c7", "NoSuchSpace"),
    ("unknown receiver before a nil window", b"send,0,3,0,8,50c7", "NoSuchSpace"),
    ("one space twice before a nil window", b"send,1,1,0,8,c7", "SameSpace"),
    ("unknown space before two items", b"send,3,2,10,8,50c7,8,60c7", "NoSuchSpace"),
    ("one space twice before a grant", b"send,1,1,10,a,c7", "SameSpace"),
    ("one space twice before a held target", b"send,1,1,10,8,c7", "SameSpace"),
    ("nil window before two items", b"send,0,2,0,8,50c7,8,60c7", "NoWindow"),
    ("nil window before a nil send fpage", b"send,0,2,0,8,0", "NoWindow"),
    ("nil window before a send fpage of two pages", b"send,0,2,0,8,40d7", "NoWindow"),
    ("bad kind before an unknown space", b"access,3,40000,q", "BadRecord"),
    ("bad address before an unknown space", b"access,3,040000000,r", "BadRecord"),
    ("unknown space before an address past the space", b"access,3,40000,r", "NoSuchSpace"),
    ("bad space before a bad control word", b"unmap,65536,80,c0", "BadRecord"),
    ("bad last word before a bad control word", b"unmap,0,80,+1", "BadRecord"),
    ("bad control word before a bad size", b"unmap,0,80,a7", "BadControl"),
    ("bad number of words before a bad size", b"unmap,0,1,a7", "BadControl"),
    ("bad control word before an unknown space", b"unmap,3,80,c0", "BadControl"),
    ("fault of the first word before that of the second", b"unmap,0,1,a7,10d7", "BadSize"),
    ("fault of the second word before an unknown space", b"unmap,3,1,c0,10d7", "Misaligned"),
    ("fault of the last of 64 words before an unknown space", b"unmap,3,3f" + b",c0" * 63 + b",400c7", "OutOfSpace"),
]

# Clears in a trace of version 2: name, record, and why it is refused, or None. One that is taken finds nothing, and
# changes nothing.
CLEARS = [
    ("clear of a space that holds nothing", b"clear,2", None),
    ("clear with leading zeros", b"clear,00002", None),
    ("clear in quotes", b'"clear","2"', None),
    ("clear of a space just past the spaces", b"clear,3", "NoSuchSpace"),
    ("clear of the space with the largest number", b"clear,65535", "NoSuchSpace"),
    ("clear of its name alone", b"clear", "BadRecord"),
    ("clear with a field too many", b"clear,2,2", "BadRecord"),
    ("clear with a last comma", b"clear,2,", "BadRecord"),
    ("capital in the name of a clear", b"Clear,2", "BadRecord"),
    ("name of a clear cut short", b"clea,2", "BadRecord"),
    ("name of a clear drawn out", b"clears,2", "BadRecord"),
    ("space before the name of a clear", b" clear,2", "BadRecord"),
    *((f"space of a clear {form}", b"clear,%s" % field, "BadRecord") for form, field in BAD_NUMBERS),
]

REFUSED = [*bad_fields(), *RECORD_FORMS, *KINDS, *QUOTES, *UNMAPS, *FPAGES, *ITEMS_AND_SPACES, *FIRST_CAUSES]


def answered(reply, *audit):
    """What is written where the record has this reply and adds these lines to the audit."""
    refused = int(reply.startswith("refused "))
    roots = (f"0,{page},{page},rwx,---,-" for page in range(16))
    lines = (f"1 {LINKED}", f"2 {reply}", "3 access ok", *roots, "1,0,5,rw-,RW-,0:5", *audit, f"end 3 {refused}")
    return "".join(line + "\n" for line in lines).encode()


def main():
    program, cases = program_path(), Cases()
    for version in VERSIONS:
        before = BEFORE % version
        for name, record, reply, audit in ACCEPTED:
            wanted = Ended(0, answered(reply, *audit), b"")
            compare_replay(cases, program, f"version {version}, accepted: {name}", before + record.encode() + BEHIND, wanted)
        for name, record, refusal in REFUSED:
            wanted = Ended(0, answered(f"refused {refusal}"), b"")
            compare_replay(cases, program, f"version {version}, {refusal}: {name}", before + record + BEHIND, wanted)
        for name, record, refusal in CLEARS:
            why = refusal if version == 2 else "BadRecord"
            wanted = Ended(0, answered(f"refused {why}" if why else "clear 00000010"), b"")
            compare_replay(cases, program, f"version {version}: {name}", before + record + BEHIND, wanted)
    cases.end()


main()
