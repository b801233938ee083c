#!/usr/bin/env python3
"""What l4trace says of words and of traces, by answers worked out by hand from docs/FORMATS.md.

    tests/l4trace.py [PROGRAM]

The number of refused records of each trace is compared with that of the last line of l4map too.
"""

import os
import pty
import re
import shutil
import subprocess
import sys
import tempfile
import tty
from xml.etree import ElementTree

from support.program import TOP, Cases, Ended, give_up, run

L4MAP = os.path.join(TOP, "crates", "l4map", "out", "l4map")
NO_ITEM = "NotAnItem: its last digit is %s; that of a MapItem is 8 or 9, of a GrantItem a or b"
HIGH_BIT = "BadControl: it has a bit above bit 6"


def tool_path():
    """The program named by the first argument, or the proved one. Where there is none, the script ends."""
    default = os.path.join(TOP, "crates", "l4trace", "out", "l4trace")
    path = os.path.abspath(sys.argv[1]) if len(sys.argv) > 1 else default
    for program in (path, L4MAP):
        if not os.access(program, os.X_OK):
            give_up(f"there is no program {program}: ./build.sh proves it and builds it")
    return path


# A word, the bits of a space, and what the word is as an fpage, as the first word of an item and as a control word.
WORDS = [
    ("50c6", 24, "page 5, rights rw-; base 5000, s 12: 4K", NO_ITEM % 6, HIGH_BIT),
    ("50CE", 24, "page 5, rights rw-; base 5000, s 12: 4K", NO_ITEM % "e", HIGH_BIT),
    ("40e7", 24, "pages 4 to 7 (4 pages), rights rwx; base 4000, s 14: 16K", NO_ITEM % 7, HIGH_BIT),
    ("d7", 24, "pages 0 to 1 (2 pages), rights rwx; base 0, s 13: 8K", NO_ITEM % 7, HIGH_BIT),
    ("117", 24, "pages 0 to 31 (32 pages), rights rwx; base 0, s 17: 128K", NO_ITEM % 7, HIGH_BIT),
    ("180", 24, "pages 0 to 4095 (4096 pages), rights ---; base 0, s 24: 16M", NO_ITEM % 0, HIGH_BIT),
    ("14", 18, "pages 0 to 63 (64 pages), rights r--; the complete space", NO_ITEM % 4, "21 fpage words follow, without flush"),
    ("10", 24, "pages 0 to 4095 (4096 pages), rights ---; the complete space", NO_ITEM % 0, "17 fpage words follow, without flush"),
    ("00000005", 24, "no page, rights r-x; the nilpage", NO_ITEM % 5, "6 fpage words follow, without flush"),
    ("a", 24, "no page, rights -w-; the nilpage", "GrantItem, send base 0: page 0", "11 fpage words follow, without flush"),
    ("9008", 24, "BadSize: s is 0, the nilpage, but there is a base, 9000", "MapItem, send base 9000: page 9", HIGH_BIT),
    ("9ffb", 24, "Misaligned: base 9c00 is no multiple of the size, 2^63 bytes", "GrantItem, send base 9c00: page 9", HIGH_BIT),
    ("410", 24, "BadSize: s is 1, the complete space, but there is a base, 400", NO_ITEM % 0, HIGH_BIT),
    ("b7", 24, "BadSize: s is 11; that of one page is 12", NO_ITEM % 7, HIGH_BIT),
    ("40", 24, "BadSize: s is 4; that of one page is 12", NO_ITEM % 0, "1 fpage word follows, with flush"),
    ("7f", 24, "BadSize: s is 7; that of one page is 12", NO_ITEM % "f", "64 fpage words follow, with flush"),
    ("10d7", 24, "Misaligned: base 1000 is no multiple of the size, 8K; the next good base is 2000: 20d7", NO_ITEM % 7, HIGH_BIT),
    ("3f0d7", 18, "Misaligned: base 3f000 is no multiple of the size, 8K", NO_ITEM % 7, HIGH_BIT),
    ("400c7", 18, "OutOfSpace: it ends at 41000, and a space of 18 bits at 40000", NO_ITEM % 7, HIGH_BIT),
    ("400c7", 19, "page 64, rights rwx; base 40000, s 12: 4K", NO_ITEM % 7, HIGH_BIT),
    ("3f7", 24, "OutOfSpace: it ends at 8000000000000000, and a space of 24 bits at 1000000", NO_ITEM % 7, HIGH_BIT),
    ("fffff0c7", 24, "OutOfSpace: it ends at 100000000, and a space of 24 bits at 1000000", NO_ITEM % 7, HIGH_BIT),
    ("190", 25, "pages 0 to 8191 (8192 pages), rights ---; base 0, s 25: 32M", NO_ITEM % 0, HIGH_BIT),
    ("80000cc", 27, "OutOfSpace: it ends at 8001000, and a space of 27 bits at 8000000", NO_ITEM % "c", HIGH_BIT),
    ("11f7", 31, "Misaligned: base 1000 is no multiple of the size, 2G", NO_ITEM % 7, HIGH_BIT),
    ("11f7", 32, "Misaligned: base 1000 is no multiple of the size, 2G; the next good base is 80000000: 800001f7", NO_ITEM % 7, HIGH_BIT),
    ("1207", 32, "Misaligned: base 1000 is no multiple of the size, 4G", NO_ITEM % 7, HIGH_BIT),
    ("fffff0d7", 32, "Misaligned: base fffff000 is no multiple of the size, 8K", NO_ITEM % 7, HIGH_BIT),
    ("fffff0c6", 32, "page 1048575, rights rw-; base fffff000, s 12: 4K", NO_ITEM % 6, HIGH_BIT),
    ("800001f4", 32, "pages 524288 to 1048575 (524288 pages), rights r--; base 80000000, s 31: 2G", NO_ITEM % 4, HIGH_BIT),
    ("200", 32, "pages 0 to 1048575 (1048576 pages), rights ---; base 0, s 32: 4G", NO_ITEM % 0, HIGH_BIT),
    ("10", 32, "pages 0 to 1048575 (1048576 pages), rights ---; the complete space", NO_ITEM % 0, "17 fpage words follow, without flush"),
    ("217", 32, "OutOfSpace: it ends at 200000000, and a space of 32 bits at 100000000", NO_ITEM % 7, HIGH_BIT),
    ("3f7", 32, "OutOfSpace: it ends at 8000000000000000, and a space of 32 bits at 100000000", NO_ITEM % 7, HIGH_BIT),
    ("fffff008", 32, "BadSize: s is 0, the nilpage, but there is a base, fffff000", "MapItem, send base fffff000: page 1048575", HIGH_BIT),
]

# Arguments, and the words that they make.
MADE = [
    ("--base 5000 --size 4K --rights rw", "50c6"),
    ("--base 4000 --size 16384 --rights rwx", "40e7"),
    ("--size complete --rights r", "14"),
    ("--size nil --rights -", "0"),
    ("--size 4K", "c7"),
    ("--base ff0000 --size 64K --rights x", "ff0101"),
    ("--size 16777216 --rights -", "180"),
    ("--base fffff000 --size 4K --rights rw", "fffff0c6"),
    ("--base 80000000 --size 2G --rights r", "800001f4"),
    ("--size 4G --rights r", "204"),
    ("--size 4294967296 --rights r", "204"),
    ("--map fffff000 --size 4K --rights rw", "fffff008,c6"),
    ("--map 9000", "9008"),
    ("--grant 0", "a"),
    ("--map 9000 --base 5000 --size 4K --rights rw", "9008,50c6"),
    ("--grant 400 --size complete", "40a,17"),
    ("--control 1", "0"),
    ("--control 1 --flush", "40"),
    ("--control 64 --flush", "7f"),
]

# Arguments that are refused, and the line that says why.
REFUSED = [
    ("50g6", "error: '50g6' is not 1 to 8 hexadecimal digits"),
    ("0x50c6", "error: '0x50c6' is not 1 to 8 hexadecimal digits"),
    ("000050c67", "error: '000050c67' is not 1 to 8 hexadecimal digits"),
    ("--size 3K", "error: '3K' is not a size: a power of two from 4096 or 4K on, or nil, or complete"),
    ("--size 4K --rights rwy", "error: 'rwy' is not rights: r, w and x, or - for none"),
    ("--base 5k --size 4K", "error: '5k' is not 1 to 8 hexadecimal digits"),
    ("--base 1000 --size 8K", "error: Misaligned: base 1000 is no multiple of the size, 8K"),
    ("--base 1000 --size complete", "error: BadSize: s is 1, the complete space, but there is a base, 1000"),
    ("--base 40000 --size 4K --bits 18", "error: OutOfSpace: it ends at 41000, and a space of 18 bits at 40000"),
    ("--base 1000000 --size 4K --bits 24", "error: OutOfSpace: it ends at 1001000, and a space of 24 bits at 1000000"),
    ("--size 8G", "error: OutOfSpace: it ends at 200000000, and a space of 32 bits at 100000000"),
    ("--size 8589934592G", "error: OutOfSpace: it ends at 8000000000000000, and a space of 32 bits at 100000000"),
    ("--size 17179869184G", "error: '17179869184G' is not a size: a power of two from 4096 or 4K on, or nil, or complete"),
    ("--size 18446744073709551616", "error: '18446744073709551616' is not a size: a power of two from 4096 or 4K on, or nil, or complete"),
    ("--size +4K", "error: '+4K' is not a size: a power of two from 4096 or 4K on, or nil, or complete"),
    ("--base fffff000 --size 8K", "error: Misaligned: base fffff000 is no multiple of the size, 8K"),
    ("--base 100000000 --size 4K", "error: '100000000' is not 1 to 8 hexadecimal digits"),
    ("--map 9100", "error: a send base is a multiple of 400 (1024 bytes)"),
    ("", "error: give a word to explain, or --size, --map, --grant or --control to make one"),
]

HEADER = "l4map,1,3,18,16\n"
A_SEND = "a send has a sender, a receiver, a window, and two words for each of 1 to 31 items"
NO_COMMENTS = "a trace has no comments: grep -v '^#' takes such lines out"
PADDING = "a spreadsheet fills its rows up so: leave out the commas at the end"

# A record behind a header of three spaces of 18 bits: the column, the refusal and the cause, or nothing if it is taken.
RECORDS = [
    ("send,0,1,10,8,c7", ""),
    ("send,0,1,10,8,c7,1008,10c7", ""),
    ("access,2,3ffff,x", ""),
    ("unmap,1,41,17,0", ""),
    ("access,1,0x3abc,r", "10 BadRecord: the address is '0x3abc', not 1 to 8 hexadecimal digits; leave out the 0x"),
    ("access,1,0,R", "12 BadRecord: the kind of access is 'R', not r, w or x; kinds are in lower case"),
    ("access,a,0,r", "8 BadRecord: the space is 'a', not 1 to 5 decimal digits, at most 65535; spaces are decimal"),
    ("access,65536,0,r", "8 BadRecord: the space is '65536', not 1 to 5 decimal digits, at most 65535"),
    ("access, 1,0,r", "8 BadRecord: the space is ' 1', not 1 to 5 decimal digits, at most 65535; leave out the spaces around it"),
    ("access,1,0", "10 BadRecord: an access has a space, an address and a kind; 2 fields stand behind the name"),
    ("access,1,0,r,r", "14 BadRecord: an access has a space, an address and a kind; 4 fields stand behind the name"),
    ("access,1,0,r,,", "14 BadRecord: the last 2 fields are empty; " + PADDING),
    ("access,1,,r", "10 BadRecord: the address is '', not 1 to 8 hexadecimal digits"),
    ("access", "1 BadRecord: an access has a space, an address and a kind; 0 fields stand behind the name"),
    ("send,0,1,10", f"10 BadRecord: {A_SEND}; 3 fields stand behind the name"),
    ("send,0,1,10,8", f"13 BadRecord: {A_SEND}; 4 fields stand behind the name"),
    ("send,0,1,10,4E+07,c7", "13 BadRecord: the first word of item 1 is '4E+07', not 1 to 8 hexadecimal digits; a spreadsheet may have made a number of it: give its column the format of text"),
    ("send,0,1,10,8,c7,8,50c7h", "20 BadRecord: the send fpage of item 2 is '50c7h', not 1 to 8 hexadecimal digits; leave out the h"),
    ("send,0,1,10h,8,c7", "10 BadRecord: the window is '10h', not 1 to 8 hexadecimal digits; leave out the h"),
    ("send,0,-1,10,8,c7", "8 BadRecord: the receiver is '-1', not 1 to 5 decimal digits, at most 65535"),
    ("unmap,0", "7 BadRecord: an unmap has a space, a control word, and fpage words; 1 field stands behind the name"),
    ("unmap,0,0,c7,", "14 BadRecord: the last field is empty; " + PADDING),
    ("SEND,0,1,10,8,c7", "1 BadRecord: the name is 'SEND', not send, access or unmap; names are in lower case"),
    ("send;0;1;10;8;c7", "1 BadRecord: the name is 'send;0;1;10;8;c7', not send, access or unmap; fields are separated by commas, not by semicolons"),
    ("send\t0\t1\t10\t8\tc7", "1 BadRecord: the name is 'send\\x090\\x091\\x0910\\x098\\x09c7', not send, access or unmap; fields are separated by commas, not by tabs"),
    ('"send,0,1,10,8,c7"', " BadRecord: the name is 'send,0,1,10,8,c7', not send, access or unmap; a quote joins fields: leave out the quotes"),
    ("l4map,1,3,18,16", "1 BadRecord: the name is 'l4map', not send, access or unmap; a header stands only at the start"),
    ("map,0,1", "1 BadRecord: the name is 'map', not send, access or unmap"),
    ("clear,1", "1 BadRecord: the name is 'clear', not send, access or unmap; a trace with clear has a header of version 2: l4map,2,.."),
    ("# Space 1, too", "1 BadRecord: the name is '# Space 1', not send, access or unmap; " + NO_COMMENTS),
    ("\ufeffsend,0,1,10,8,c7", "1 BadRecord: the name is '\\xef\\xbb\\xbfsend', not send, access or unmap; a byte order mark stands before it: leave it out"),
    ("send,0,1,a7,8,c7", "10 BadSize: the window is a7: s is 10; that of one page is 12"),
    ("send,0,1,10,8,10d7", "15 Misaligned: the send fpage of item 1 is 10d7: base 1000 is no multiple of the size, 8K; the next good base is 2000: 20d7"),
    ("send,0,1,10,8,400c7", "15 OutOfSpace: the send fpage of item 1 is 400c7: it ends at 41000, and a space of 18 bits at 40000"),
    ("send,0,1,10,9000,c7", "13 NotAnItem: the first word of item 1 is 9000: its last digit is 0; that of a MapItem is 8 or 9, of a GrantItem a or b"),
    ("send,0,1,10,8,c7,c,c7", "18 NotAnItem: the first word of item 2 is c: its last digit is c; that of a MapItem is 8 or 9, of a GrantItem a or b"),
    ("send,0,3,10,8,c7", "8 NoSuchSpace: the receiver is 3; spaces are 0 to 2"),
    ("send,3,4,10,8,c7", "6 NoSuchSpace: the sender is 3; spaces are 0 to 2"),
    ("send,1,1,10,8,c7", "8 SameSpace: the sender is the receiver too"),
    ("send,0,1,7,8,c7", "10 NoWindow: the window is the nilpage, which has no pages"),
    ("access,3,0,r", "8 NoSuchSpace: the space is 3; spaces are 0 to 2"),
    ("access,1,40000,r", "10 OutOfSpace: the address is 40000: a space of 18 bits ends at 40000"),
    ("unmap,3,0,c7", "7 NoSuchSpace: the space is 3; spaces are 0 to 2"),
    ("unmap,0,1,c7", "9 BadControl: the control word is 1: the fpage words behind it are 1, and it says 2"),
    ("unmap,0,0", "9 BadControl: the control word is 0: the fpage words behind it are 0, and it says 1"),
    ("unmap,0,80,c7", "9 BadControl: the control word is 80: it has a bit above bit 6"),
    ("unmap,0,1,c7,10d7", "14 Misaligned: fpage word 2 is 10d7: base 1000 is no multiple of the size, 8K; the next good base is 2000: 20d7"),
]

SECOND_HEADER = "l4map,2,3,18,16\n"

# The same behind a header of version 2.
SECOND_RECORDS = [
    ("clear,1", ""),
    ("clear,00002", ""),
    ("send,0,1,10,8,c7", ""),
    ("clear,3", "7 NoSuchSpace: the space is 3; spaces are 0 to 2"),
    ("clear", "1 BadRecord: a clear has a space; 0 fields stand behind the name"),
    ("clear,1,2", "9 BadRecord: a clear has a space; 2 fields stand behind the name"),
    ("clear,1,", "9 BadRecord: the last field is empty; " + PADDING),
    ("clear,a", "7 BadRecord: the space is 'a', not 1 to 5 decimal digits, at most 65535; spaces are decimal"),
    ("Clear,1", "1 BadRecord: the name is 'Clear', not send, access, unmap or clear; names are in lower case"),
    ("unmap,3,0,c7", "7 NoSuchSpace: the space is 3; spaces are 0 to 2"),
]

LARGE_HEADER = "l4map,1,3,32,1048576\n"

# The same behind a header of three spaces of 32 bits, which have every address.
LARGE_RECORDS = [
    ("access,2,ffffffff,x", ""),
    ("access,2,100000000,x", "10 BadRecord: the address is '100000000', not 1 to 8 hexadecimal digits"),
    ("send,0,1,10,fffff008,fffff0c7", ""),
    ("send,0,1,217,8,c7", "10 OutOfSpace: the window is 217: it ends at 200000000, and a space of 32 bits at 100000000"),
    ("unmap,2,0,207", ""),
    ("unmap,2,0,fffff0d7", "11 Misaligned: fpage word 1 is fffff0d7: base fffff000 is no multiple of the size, 8K"),
    ("unmap,2,1,207,217", "15 OutOfSpace: fpage word 2 is 217: it ends at 200000000, and a space of 32 bits at 100000000"),
]

# A header, and the line and the rest of what is told of it.
HEADERS = [
    (b"", "1: header: BadHeader: there is no record"),
    (b"\n\n", "3: header: BadHeader: there is no record"),
    (b"\n\nl4map,3,3,18,16\n", "3:7: header: BadHeader: the version is '3', not 1 or 2"),
    (b"l4map,02,3,18,16\n", "1:7: header: BadHeader: the version is '02', not 1 or 2"),
    (b"\xef\xbb\xbfL4MAP,1,3,18,16\n", "1:1: header: BadHeader: the first field is 'L4MAP', not l4map; names are in lower case"),
    (b"\xef\xbb\xbf\xef\xbb\xbfl4map,1,3,18,16\n", "1:1: header: BadHeader: the first field is '\\xef\\xbb\\xbfl4map', not l4map; a byte order mark stands before it: leave it out"),
    (b"l4map;1;3;18;16\n", "1:1: header: BadHeader: the first field is 'l4map;1;3;18;16', not l4map; fields are separated by commas, not by semicolons"),
    (b"# three spaces\nl4map,1,3,18,16\n", f"1:1: header: BadHeader: the first field is '# three spaces', not l4map; {NO_COMMENTS}"),
    (b"l4map,1,3,18\n", "1:11: header: BadHeader: a header has 5 fields: l4map, version, spaces, bits, frames; here are 4"),
    (b"l4map,1,3,18,16,,\n", "1:17: header: BadHeader: the last 2 fields are empty; " + PADDING),
    (b"l4map,1,0x3,18,16\n", "1:9: header: BadHeader: the number of spaces is '0x3', not 1 to 7 decimal digits; leave out the 0x"),
    (b"l4map,1,3,18,16.0\n", "1:14: header: BadHeader: the number of frames is '16.0', not 1 to 7 decimal digits; a spreadsheet may have made a number of it: give its column the format of text"),
    ("l4map,1,3,18,16\n".encode("utf-16"), "1:1: header: BadHeader: the first field is '\\xff\\xfel\\x004\\x00m\\x00a\\x00p\\x00', not l4map; the file is UTF-16: save it as UTF-8"),
    (b"send,0,1,10,8,c7\n", "1:1: header: BadHeader: the first field is 'send', not l4map"),
    (b"l4map,1,513,18,16\n", "1:9: header: BadLimits: 513 spaces; there are 2 to 512"),
    (b"l4map,1,3,17,16\n", "1:11: header: BadLimits: 17 bits; a space has 18 to 32"),
    (b"l4map,1,3,33,16\n", "1:11: header: BadLimits: 33 bits; a space has 18 to 32"),
    (b"l4map,1,3,18,65\n", "1:14: header: BadLimits: 65 frames; there are 1 to 64, as many as a space of 18 bits has pages"),
    (b"l4map,1,3,32,1048577\n", "1:14: header: BadLimits: 1048577 frames; there are 1 to 1048576, as many as a space of 32 bits has pages"),
]

# Traces whose lines end in other ways, and where the refused records stand.
PLACES = [
    ("empty lines", b"l4map,1,3,18,16\n\n\nbad\n\nbad\n", ["4:1: record 1", "6:1: record 2"]),
    ("carriage returns with line feeds", b"l4map,1,3,18,16\r\naccess,1,0,r\r\nbad\r\n", ["3:1: record 2"]),
    ("carriage returns alone", b"l4map,1,3,18,16\raccess,1,0,r\rbad\rbad", ["3:1: record 2", "4:1: record 3"]),
    ("a byte order mark", b"\xef\xbb\xbfl4map,1,3,18,16\nbad", ["2:1: record 1"]),
    ("a field over two lines", b'l4map,1,3,18,16\naccess,1,"0\n",r\nbad\n', ["2: record 1", "4:1: record 2"]),
    ("a field in quotes", b'l4map,1,3,18,16\n"access",1,g,r\n', ["2: record 1"]),
]


def ended(status, *lines):
    return Ended(status, "".join(line + "\n" for line in lines).encode(), b"")


def counted(records, refused):
    noun = "record" if records == 1 else "records"
    return f"{records} {noun}, {refused} refused"


def check_words(cases, program):
    for word, bits, fpage, item, control in WORDS:
        lines = (word.lower().lstrip("0"), f"  fpage: {fpage}", f"  first word of an item: {item}", f"  control word: {control}")
        cases.compare(f"word {word} of {bits} bits", ended(0, *lines), run([program, "word", word, "--bits", str(bits)]))
        if bits == 32:
            cases.compare(f"word {word}", ended(0, *lines), run([program, "word", word]))
    for arguments, made in MADE:
        cases.compare(f"word {arguments}", ended(0, made), run([program, "word", *arguments.split()]))
    for arguments, why in REFUSED:
        wanted = Ended(2, b"", (why + "\n").encode())
        cases.compare(f"word {arguments}", wanted, run([program, "word", *arguments.split()]))


def compare_count(cases, name, given, got):
    """The last line of a check has the numbers of the last line of l4map."""
    last = run(L4MAP, given).stdout.decode().splitlines()[-1].split()
    wanted = counted(int(last[1]), int(last[2]))
    told = got.stdout.decode().splitlines()[-1:]
    cases.check(f"{name}; as l4map counts", "" if told == [wanted] else f"{told} in place of {wanted}")


def check_records(cases, program):
    for header, records in ((HEADER, RECORDS), (SECOND_HEADER, SECOND_RECORDS), (LARGE_HEADER, LARGE_RECORDS)):
        for record, told in records:
            check_record(cases, program, header, record, told)
    for header, told in HEADERS:
        cases.compare(f"check {header!r}", ended(1, f"-:{told}"), run([program, "check", "-"], header))
        wanted = Ended(2, b"", f"-:{told}\n".encode())
        for command in ("show -", "why - --page 0:0", "compare - /dev/null"):
            cases.compare(f"{command} of {header!r}", wanted, run([program, *command.split()], header))
    for name, given, places in PLACES:
        got = run([program, "check", "-"], given)
        lines = got.stdout.decode().splitlines()[:-1]
        alike = len(lines) == len(places) and all(line.startswith(f"-:{place}: ") for line, place in zip(lines, places))
        cases.check(f"places with {name}", "" if alike else f"{lines} in place of {places}")
        compare_count(cases, f"places with {name}", given, got)


def check_record(cases, program, header, record, told):
    given = (header + record + "\n").encode()
    lines = [counted(1, 1 if told else 0)]
    if told:
        column, cause = told.split(" ", 1)
        lines.insert(0, f"-:2:{column + ': ' if column else ' '}record 1: {cause}")
    got = run([program, "check", "-"], given)
    cases.compare(f"check {record}", ended(1 if told else 0, *lines), got)
    compare_count(cases, f"check {record}", given, got)


def check_program(cases, program):
    """Files, --max, help, and what cannot be read."""
    with tempfile.TemporaryDirectory() as room:
        path = os.path.join(room, "a trace.csv")
        with open(path, "wb") as trace:
            trace.write((HEADER + "bad\n" * 3 + "access,0,0,r\n").encode())
        cause = "BadRecord: the name is 'bad', not send, access or unmap"
        lines = [f"{path}:{n + 1}:1: record {n}: {cause}" for n in (1, 2, 3)]
        cases.compare("check of a file", ended(1, *lines, "4 records, 3 refused"), run([program, "check", path]))
        lines = [lines[0], ".. and 2 more; --max tells more of them", "4 records, 3 refused"]
        cases.compare("check with --max 1", ended(1, *lines), run([program, "check", "--max", "1", path]))
        unreadable_files(cases, program, room, path)
    for arguments, example in (("--help", "Exit status"), ("word --help", "9008,50c6"), ("check --help", "leave out the 0x"), ("compare --help", "first difference"), ("show --help", "2:4 r-x"), ("why --help", "took --x"), ("explain --help", "the status found is R--"), ("random --help", "every rule")):
        got = run([program, *arguments.split()])
        good = got.status == 0 and example in got.stdout.decode() and not got.stderr
        cases.check(arguments, "" if good else f"{got}")
    for arguments in ("", "chek t", "check", "word 50c6 --size 4K", "word 50c6 --bits 17", "word 50c6 --bits 33", "word --rights rw", "word --control 0", "word --flush", "compare t", "show", "why t", "random", "show t --svg --dot", "show t --space 1 --diff", "show t --space 1 --svg", "show t --diff --svg --dot", "show t --space 4294967296", "show t --frame -1", "compare t a --audit --part", "compare t a --ignore rights", "explain", "explain t --at x", "show t --audit --svg", "show t --audit --frame 0"):
        got = run([program, *arguments.split()])
        good = got.status == 2 and not got.stdout and got.stderr
        cases.check(f"refused: {arguments}", "" if good else f"{got}")


def unreadable_files(cases, program, room, path):
    """A file that is not there, a folder and other files that cannot be read are told apart."""
    missing, long = os.path.join(room, "missing"), os.path.join(room, "n" * 256)
    causes = [
        ("no file", missing, "there is no such file"),
        ("no name", "", "there is no such file"),
        ("a folder", room, "it is a folder"),
        ("a file as a folder", os.path.join(path, "trace.csv"), "Not a directory (os error 20)"),
        ("a long name", long, "File name too long (os error 36)"),
        # Page 0 of a process is not there to be read.
        ("a file whose read fails", "/proc/self/mem", "Input/output error (os error 5)"),
    ]
    for command in ("check", "show", "why --page 0:0", "compare -", f"compare {TRACE_NAME}"):
        for kind, name, cause in causes:
            words = [path if word == TRACE_NAME else word for word in command.split()]
            wanted = Ended(4, b"", f"l4trace: {name}: {cause}\n".encode())
            cases.compare(f"{command} of {kind}", wanted, run([program, *words, name]))
    closed = shutil.copy(path, os.path.join(room, "closed.csv"))
    os.chmod(closed, 0)
    wanted = Ended(4, b"", f"l4trace: {closed}: permission denied\n".encode())
    cases.compare("check of a file that may not be read", wanted, run_as_user([program, "check", closed], room))
    wanted = Ended(4, b"", b"l4trace: -: it is a folder\n")
    folder = os.open(room, os.O_RDONLY)
    got = subprocess.run([program, "check", "-"], stdin=folder, capture_output=True, check=False)
    os.close(folder)
    cases.compare("check of standard input, a folder", wanted, Ended(got.returncode, got.stdout, got.stderr))


def run_as_user(arguments, room):
    """Runs a program as a user who is not root, to whom every file is open; that user may enter the folder `room`."""
    if os.geteuid():
        return run(arguments)
    os.chmod(room, 0o755)
    program = shutil.copy(arguments[0], os.path.join(room, "program"))
    os.chmod(program, 0o755)
    got = subprocess.run([program, *arguments[1:]], capture_output=True, check=False, user=NOBODY, group=NOBODY, extra_groups=[])
    return Ended(got.returncode, got.stdout, got.stderr)


# Stands for the trace in the words of a command.
TRACE_NAME = "trace.csv"
# The number of the user nobody, who owns no file.
NOBODY = 65534

# Two spaces: page 0 of space 0 is mapped to 1:3, read there, and the right to write is taken from it again.
TRACE = b"l4map,1,2,18,1\nsend,0,1,10,3008,c6\naccess,1,3abc,r\n\nunmap,0,0,c2\n"
ANSWERS = [
    "1 send absent=0 norights=0 origin=0 lost=0 extended=0 linked=1",
    "2 access ok",
    "3 unmap 000000c4",
    "0,0,0,rwx,---,-",
    "1,3,0,r--,---,0:0",
    "end 3 0",
]
# What each record of it changes: the mappings, and the tree of frame 0, before the record and after it.
CHANGES = {
    1: ("send,0,1,10,3008,c6", 2, ["    + 1,3,0,rw-,---,0:0"], ["  0:0 rwx --- |   0:0 rwx ---", "              | + └─ 1:3 rw- ---"]),
    2: (
        "access,1,3abc,r",
        3,
        ["    - 1,3,0,rw-,---,0:0", "    + 1,3,0,rw-,R--,0:0"],
        ["  0:0 rwx ---    |   0:0 rwx ---", "* └─ 1:3 rw- --- | * └─ 1:3 rw- R--"],
    ),
    3: (
        "unmap,0,0,c2",
        5,
        ["    - 1,3,0,rw-,R--,0:0", "    + 1,3,0,r--,---,0:0"],
        ["  0:0 rwx ---    |   0:0 rwx ---", "* └─ 1:3 rw- R-- | * └─ 1:3 r-- ---"],
    ),
}


# What it holds at the end: the tree of frame 0, in which the last record changed a page.
AT_END = ["frame 0", "  0:0 rwx ---", "* └─ 1:3 r-- ---, was rw- R--"]


def at_end(path):
    return [f"after record 3, {path}:5: unmap,0,0,c2", *AT_END]


def changed(number, line):
    """The answers with another line in place of the one with this number, or without it."""
    return [*ANSWERS[: number - 1], *([line] if line else []), *ANSWERS[number:]]


# What is told of a line that ends in a carriage return, and of a comment.
RETURNS = "  the form alone differs: a carriage return at its end (tr -d '\\r' takes these out)"
COMMENT = "  a comment, which no answers have: grep -v '^#' takes such lines out"


def differs(path, number, ours, theirs, *form):
    """What is told of a first difference, and of the form of its lines."""
    lines = [f"first difference: line {number}", f"  l4map:   {ours}", f"  answers: {theirs}", *form]
    if number in CHANGES:
        record, line, changes, trees = CHANGES[number]
        lines += [f"  record {number}, {path}:{line}: {record}", "  it changes these mappings:", *changes]
        lines += ["the trees before and after it:", "frame 0", *trees]
    if number in (4, 5):
        lines += at_end(path)
    return ended(1, *lines)


def no_difference(lines):
    """What is told where none of so many lines differs."""
    return ended(0, f"no difference in {lines} line{'' if lines == 1 else 's'}")


def text_of(lines):
    return "".join(line + "\n" for line in lines).encode()


def compare_answers(cases, program):
    with tempfile.TemporaryDirectory() as room:
        path = os.path.join(room, "trace.csv")
        with open(path, "wb") as trace:
            trace.write(TRACE)

        def compared(answers, *arguments):
            return run([program, "compare", path, "-", *arguments], answers)

        cases.compare("compare with the right answers", no_difference(6), compared(text_of(ANSWERS)))
        wanted = Ended(2, b"", b"error: the trace and the answers cannot both be standard input\n")
        cases.compare("compare - -", wanted, run([program, "compare", "-", "-"], TRACE))
        for number, other in (
            (1, ANSWERS[0].replace("linked=1", "linked=0")),
            (2, "2 access fault"),
            (3, "3 unmap 000000c6"),
            (4, "0,0,0,rwx,R--,-"),
            (5, "1,3,0,rw-,---,0:0"),
            (6, "end 3 1"),
        ):
            got = compared(text_of(changed(number, other)))
            cases.compare(f"compare with another line {number}", differs(path, number, ANSWERS[number - 1], other), got)
        whole, cut = text_of(CHANGES[3][3]), text_of(["  0:0 rwx --- |   0:0 rwx ---", ".. and 1 more row; --max draws more of them"])
        wanted = differs(path, 3, ANSWERS[2], "3 unmap 000000c6").stdout.replace(whole, cut)
        got = compared(text_of(changed(3, "3 unmap 000000c6")), "--max", "1")
        cases.compare("compare with --max 1", Ended(1, wanted, b""), got)
        cases.compare("compare with no reply to record 2", differs(path, 2, ANSWERS[1], ANSWERS[2]), compared(text_of(changed(2, None))))
        cases.compare("compare with no audit", differs(path, 4, ANSWERS[3], "(the end)"), compared(text_of(ANSWERS[:3])))
        cases.compare("compare with a line too many", differs(path, 7, "(the end)", "more"), compared(text_of([*ANSWERS, "more"])))
        cases.compare("compare with nothing", differs(path, 1, ANSWERS[0], "(the end)"), compared(b""))
        got = compared(text_of(ANSWERS).replace(b"\n", b"\r\n"))
        cases.compare("compare with carriage returns", differs(path, 1, ANSWERS[0], ANSWERS[0] + "\\x0d", RETURNS), got)
        compare_audits(cases, path, compared)
        for name, lines in (
            ("the replies alone", ANSWERS[:3]),
            ("one reply", ANSWERS[1:2]),
            ("a reply and a mapping", [ANSWERS[2], ANSWERS[4]]),
            ("the end line alone", ANSWERS[5:]),
            ("the whole", ANSWERS),
        ):
            cases.compare(f"--part with {name}", no_difference(len(lines)), compared(text_of(lines), "--part"))
        cases.compare("--part with nothing", ended(1, "nothing was compared: the answers are empty"), compared(b"", "--part"))
        wanted = differs(path, 3, ANSWERS[2], "3 unmap 000000c6").stdout.replace(b"first difference: line 3", b"first difference: line 1")
        cases.compare("--part with another reply", Ended(1, wanted, b""), compared(b"3 unmap 000000c6\n", "--part"))
        wanted = ended(1, "first difference: line 2", f"  l4map:   {ANSWERS[4]}", "  answers: 1,3,0,rw-,---,0:0", *at_end(path))
        cases.compare("--part with another mapping", wanted, compared(text_of([ANSWERS[0], "1,3,0,rw-,---,0:0"]), "--part"))
        wanted = ended(1, "first difference: line 2", "  l4map:   (the end)", "  answers: 1,4,0,rw-,---,0:0", *at_end(path))
        cases.compare("--part with a mapping too many", wanted, compared(text_of([ANSWERS[4], "1,4,0,rw-,---,0:0"]), "--part"))
        wanted = ended(1, "first difference: line 2", "  l4map:   (the end)", "  answers: 1,4,7,rw-,---,0:0")
        cases.compare("--part with a mapping of no frame", wanted, compared(text_of([ANSWERS[4], "1,4,7,rw-,---,0:0"]), "--part"))
        wanted = ended(1, "first difference: line 6", f"  l4map:   {ANSWERS[5]}", "  answers: 1,4,0,rw-,---,0:0", *at_end(path))
        cases.compare("compare with a mapping too many", wanted, compared(text_of([*ANSWERS[:5], "1,4,0,rw-,---,0:0", ANSWERS[5]])))
        wanted = ended(1, "first difference: line 2", "  l4map:   (the end)", f"  answers: {ANSWERS[1]}")
        cases.compare("--part with a reply twice", wanted, compared(text_of([ANSWERS[1], ANSWERS[1]]), "--part"))
        missing = os.path.join(room, "missing")
        wanted = Ended(4, b"", f"l4trace: {missing}: there is no such file\n".encode())
        cases.compare("compare with no file", wanted, run([program, "compare", path, missing]))
        bad = written(room, "bad.csv", ["l4map,3"])
        wanted = Ended(2, b"", f"{bad}:1:7: header: BadHeader: the version is '3', not 1 or 2\n".encode())
        cases.compare("compare of no trace", wanted, run([program, "compare", bad, "-"]))


def compare_audits(cases, path, compared):
    """--audit compares the mappings alone, and tells the line of the answers in which one differs or is missing."""
    first, second = ANSWERS[3:5]
    other = "1,3,0,rw-,---,0:0"
    cases.compare("--audit with the whole", no_difference(2), compared(text_of(ANSWERS), "--audit"))
    cases.compare("--audit with other replies", no_difference(2), compared(text_of(changed(3, "3 unmap 000000c6")), "--audit"))
    cases.compare("--audit with the audit alone", no_difference(2), compared(text_of([first, second]), "--audit"))
    for name, answers, line, ours, theirs in (
        ("another audit alone", [first, other], 2, second, other),
        ("another audit", changed(5, other), 5, second, other),
        ("another audit behind comments", ["# no reply", *ANSWERS[:4], other, ANSWERS[5]], 6, second, other),
        ("a mapping missing at the end", changed(5, None), 5, second, "(the end)"),
        ("a mapping missing before another", changed(4, None), 4, first, second),
        ("a mapping too many", [*ANSWERS[:5], "1,4,0,rw-,---,0:0", ANSWERS[5]], 6, "(the end)", "1,4,0,rw-,---,0:0"),
        ("no audit", [*ANSWERS[:3], ANSWERS[5]], 4, first, "(the end)"),
        ("no answers", [], 1, first, "(the end)"),
    ):
        wanted = ended(1, f"first difference: line {line}", f"  l4map:   {ours}", f"  answers: {theirs}", *at_end(path))
        cases.compare(f"--audit with {name}", wanted, compared(text_of(answers), "--audit"))


def compare_nothing(cases, program):
    """All pages are revoked: the right audit is empty, and so there is no line of it to compare."""
    with tempfile.TemporaryDirectory() as room:
        path = written(room, "empty.csv", ["l4map,1,2,18,1", "unmap,0,40,17"])
        answers = ["1 unmap 00000010", "end 1 0"]

        def compared(lines, *arguments):
            return run([program, "compare", path, "-", *arguments], text_of(lines))

        cases.compare("compare of an empty audit", no_difference(2), compared(answers))
        nothing = ended(1, "nothing was compared: both audits are empty")
        for lines in (answers, []):
            cases.compare(f"--audit of an empty audit with {len(lines)} lines", nothing, compared(lines, "--audit"))
        lines = ["first difference: line 2", "  l4map:   (the end)", "  answers: 0,0,0,rwx,---,-"]
        wanted = ended(1, *lines, f"after record 1, {path}:2: unmap,0,40,17", "no longer held", "- 0:0 rwx --- of frame 0")
        cases.compare("--audit of an empty audit with a mapping", wanted, compared([answers[0], "0,0,0,rwx,---,-", answers[1]], "--audit"))


def compare_unchanged(cases, program):
    """Of an access that changes no mapping, the tree of its page is drawn, if the page is held."""
    with tempfile.TemporaryDirectory() as room:
        path = written(room, "seen.csv", ["l4map,1,2,18,1", "send,0,1,10,3008,c6", "access,1,3abc,r", "access,1,3abc,r", "access,1,0,r"])
        tree = [f"after record 3, {path}:4: access,1,3abc,r", "frame 0", "  0:0 rwx ---", "  └─ 1:3 rw- R--"]
        for number, record, ours, theirs, drawn in ((3, "access,1,3abc,r", "ok", "fault", tree), (4, "access,1,0,r", "fault", "ok", [])):
            lines = ["first difference: line 1", f"  l4map:   {number} access {ours}", f"  answers: {number} access {theirs}"]
            lines += [f"  record {number}, {path}:{number + 1}: {record}", "  it changes no mapping", *drawn]
            got = run([program, "compare", path, "-", "--part"], f"{number} access {theirs}\n".encode())
            cases.compare(f"compare of record {number}, which changes no mapping", ended(1, *lines), got)
        path = written(room, "roots.csv", ["l4map,1,2,18,2"])
        lines = ["first difference: line 1", "  l4map:   0,0,0,rwx,---,-", "  answers: 0,1,1,rwx,---,-", "at the start", "frame 0", "  0:0 rwx ---"]
        got = run([program, "compare", path, "-"], text_of(["0,1,1,rwx,---,-", "end 0 0"]))
        cases.compare("compare with a root missing", ended(1, *lines), got)


def sent(number, **counts):
    """The reply to a send with these counts; the others are 0."""
    names = ("absent", "norights", "origin", "lost", "extended", "linked")
    return f"{number} send " + " ".join(f"{name}={counts.get(name, 0)}" for name in names)


def replied(replies, number):
    """The line of show and why that has the reply to a record; at the start there is none."""
    return [f"reply: {replies[number - 1]}"] if number else []


def told(number, line, ours, theirs, *more):
    """What compare --all tells of a difference."""
    return [f"difference {number}: line {line}", f"  l4map:   {ours}", f"  answers: {theirs}", *more]


def in_all(count):
    return f"{count} difference{'' if count == 1 else 's'} in all"


NO_LINE = "(no such line)"
UNTOLD = ".. and %d more; --max tells more of them"


def compare_all(cases, program):
    """--all tells every difference: lines that tell of the same are set beside each other."""
    with tempfile.TemporaryDirectory() as room:
        path = os.path.join(room, "trace.csv")
        with open(path, "wb") as trace:
            trace.write(TRACE)
        record = {number: f"  record {number}, {path}:{line}: {text}" for number, (text, line, _, _) in CHANGES.items()}

        def compared(lines, *arguments):
            return run([program, "compare", path, "-", "--all", *arguments], text_of(lines) if isinstance(lines, list) else lines)

        cases.compare("--all with the right answers", no_difference(6), compared(ANSWERS))
        fault, other, page = "2 access fault", "1,3,0,rw-,---,0:0", "1,4,0,rw-,---,0:0"
        second = told(1, 2, ANSWERS[1], fault, record[2])
        fifth = told(2, 5, ANSWERS[4], other)
        both = [ANSWERS[0], fault, *ANSWERS[2:4], other, ANSWERS[5]]
        nothing = [told(n + 1, 1, line, NO_LINE, *([record[n + 1]] if n < 3 else [])) for n, line in enumerate(ANSWERS)]
        for name, answers, arguments, lines in (
            ("a reply and a mapping", both, [], [*second, *fifth, in_all(2)]),
            ("a reply and a mapping --max 1", both, ["--max", "1"], [*second, UNTOLD % 1, in_all(2)]),
            ("a reply and a mapping --max 0", both, ["--max", "0"], [UNTOLD % 2, in_all(2)]),
            ("a reply and a mapping --audit", both, ["--audit"], [*told(1, 5, ANSWERS[4], other), in_all(1)]),
            ("a reply and a mapping alone", both[1:5:3], ["--part"], [*second[:1], *told(1, 1, ANSWERS[1], fault, record[2])[1:], *told(2, 2, ANSWERS[4], other), in_all(2)]),
            ("a reply missing", changed(2, None), [], [*told(1, 2, ANSWERS[1], NO_LINE, record[2]), in_all(1)]),
            ("a mapping missing", changed(4, None), [], [*told(1, 4, ANSWERS[3], NO_LINE), in_all(1)]),
            ("a mapping too many", [*ANSWERS[:5], page, ANSWERS[5]], [], [*told(1, 6, NO_LINE, page), in_all(1)]),
            ("a line too many", [*ANSWERS, "more"], [], [*told(1, 7, NO_LINE, "more"), in_all(1)]),
            ("comments", ["# a", *ANSWERS[:2], "# b, c", *ANSWERS[2:]], [], [*told(1, 1, NO_LINE, "# a", COMMENT), *told(2, 4, NO_LINE, "# b, c", COMMENT), in_all(2)]),
            ("comments --part", ["# a", *ANSWERS[1:3]], ["--part"], [*told(1, 1, NO_LINE, "# a", COMMENT), in_all(1)]),
            ("a reply twice", [*ANSWERS[:2], ANSWERS[0], *ANSWERS[2:]], [], [*told(1, 3, NO_LINE, ANSWERS[0]), in_all(1)]),
            ("nothing", [], [], [*(line for lines in nothing for line in lines), in_all(6)]),
            ("no line feed at the end", text_of(ANSWERS)[:-1], [], [*told(1, 6, ANSWERS[5], ANSWERS[5], "  the line feed is missing in one of them"), in_all(1)]),
        ):
            if name == "a reply and a mapping alone":
                lines = [*told(1, 1, ANSWERS[1], fault, record[2]), *told(2, 2, ANSWERS[4], other), in_all(2)]
            cases.compare(f"--all with {name}", ended(1, *lines), compared(answers, *arguments))
        cases.compare("--all --audit with comments", no_difference(2), compared(["# a, b", *ANSWERS], "--audit"))


OTHER_CASE = "letters in the other case"
# A line in place of one of ANSWERS that differs from it in form alone, and what is told of that.
FORMS = [
    (2, "2 access ok\r", RETURNS),
    (2, "2 access ok ", "  the form alone differs: blanks at its end"),
    (2, "2 access ok\t \t", "  the form alone differs: blanks at its end"),
    (2, "2 ACCESS OK", f"  the form alone differs: {OTHER_CASE}"),
    (3, "3 unmap 000000C4", f"  the form alone differs: {OTHER_CASE}"),
    (3, "3 unmap 000000C4\r", f"{RETURNS}, {OTHER_CASE}"),
    (4, "0,0,0,RWX,---,- ", f"  the form alone differs: blanks at its end, {OTHER_CASE}"),
    (2, "2 access  ok", None),
    (3, "3 unmap 000000c6\r", None),
    (1, "# " + ANSWERS[0], COMMENT),
]


def compare_forms(cases, program):
    """What is told of lines that differ in their form alone."""
    with tempfile.TemporaryDirectory() as room:
        path = os.path.join(room, "trace.csv")
        with open(path, "wb") as trace:
            trace.write(TRACE)
        for number, line, form in FORMS:
            shown = line.replace("\r", "\\x0d").replace("\t", "\\x09")
            wanted = differs(path, number, ANSWERS[number - 1], shown, *([form] if form else []))
            got = run([program, "compare", path, "-"], text_of(changed(number, line)))
            cases.compare(f"compare with the form of {line!r}", wanted, got)


def ignore_status(cases, program):
    """--ignore status: status counts as none, in replies and mappings, and all else counts."""
    with tempfile.TemporaryDirectory() as room:
        path = os.path.join(room, "trace.csv")
        with open(path, "wb") as trace:
            trace.write(TRACE)

        def compared(lines, *arguments):
            return run([program, "compare", path, "-", "--ignore", "status", *arguments], text_of(lines))

        seen = [*ANSWERS[:2], "3 unmap 000000c7", "0,0,0,rwx,RWX,-", "1,3,0,r--,--X,0:0", ANSWERS[5]]
        for arguments, count in (([], 6), (["--audit"], 2), (["--part"], 6), (["--all"], 6)):
            cases.compare(f"--ignore status {arguments} with another status", no_difference(count), compared(seen, *arguments))
        for name, line, ours, theirs, given in (
            ("another base", 3, "3 unmap 000000c0", "3 unmap 000010c0", "3 unmap 000010c4"),
            ("another bit", 3, "3 unmap 000000c0", "3 unmap 000000c8", "3 unmap 000000cc"),
            ("other rights", 5, ANSWERS[4], "1,3,0,rw-,---,0:0", "1,3,0,rw-,R--,0:0"),
            ("no origin", 5, ANSWERS[4], "1,3,0,r--,R--", "1,3,0,r--,R--"),
        ):
            wanted = ended(1, *told(1, line, ours, theirs, *([f"  record 3, {path}:5: unmap,0,0,c2"] if line == 3 else [])), in_all(1))
            cases.compare(f"--ignore status with {name}", wanted, compared(changed(line, given), "--all"))
        path = written(room, "cleared.csv", CLEARED)
        answers = [*CLEARED_ANSWERS[:3], "4 clear 00000010", "0,0,0,rwx,---,-", *CLEARED_ANSWERS[5:]]
        cases.compare("--ignore status of a clear", no_difference(7), compared(answers))
        wanted = Ended(2, b"", b"error: 'rights' is not status\n")
        cases.compare("--ignore rights", wanted, run([program, "compare", path, "-", "--ignore", "rights"]))


# Four spaces, of version 2. Pages 0:0 and 0:1 go to 1:0 and 1:1; 1:0 goes to 2:5, and 1:1 is granted to 2:6. The access
# leaves R-X at 2:5, which record 7 finds and hands up to 0:0, where record 8 finds it; that record takes all pages.
EXPLAINED = [
    "l4map,2,4,18,2",
    "send,0,1,10,8,d7",
    "send,1,2,10,5008,c5,600a,10c7",
    "send,1,2,10,8,20c7",
    "access,2,5abc,x",
    "access,2,5abc,w",
    "access,3,0,r",
    "unmap,1,1,c2,50c0",
    "unmap,0,40,17",
    "clear,2",
    "send,0,9,10,8,c7",
    "bad",
]
EXPLAINED_REPLIES = [
    sent(1, linked=2),
    sent(2, linked=2),
    sent(3, absent=1),
    "4 access ok",
    "5 access fault",
    "6 access fault",
    "7 unmap 000000c5 000050c0",
    "8 unmap 00000015",
    "9 clear 00000010",
    "10 refused NoSuchSpace",
    "11 refused BadRecord",
]
# What its header says, and each of its records and replies.
FIRST_SENTENCE = "there are 4 spaces of 64 pages; space 0 holds page i as frame i for each i from 0 to 1, with all rights"
SENTENCES = [
    ("space 0 sends to space 1: it maps pages 0 to 1 to pages 0 to 1 with rwx", "2 pages now held by the receiver"),
    ("space 1 sends to space 2: it maps page 0 to page 5 with r-x; it grants page 1 to page 6 with rwx", "2 pages now held by the receiver"),
    ("space 1 sends to space 2: it maps page 2 to page 0 with rwx", "1 page not held by the sender"),
    ("space 2 executes page 5", "the page is held with r-x"),
    ("space 2 writes page 5", "the page is held with r-x only"),
    ("space 3 reads page 0", "the page is not held"),
    ("space 1 takes from all that derives from its pages: -w- of page 0; nothing of page 5", "the status found is R-X of page 0; --- of page 5"),
    ("space 0 takes from its pages and from all that derives from them: rwx of pages 0 to 63", "the status found is R-X of pages 0 to 63"),
    ("space 2 is deleted: it loses all pages, and so does all that derives from them", "the status found is ---"),
    (None, "the receiver is 9; spaces are 0 to 3"),
    (None, "the name is 'bad', not send, access, unmap or clear"),
]
# Its audits after records of these numbers.
EXPLAINED_AUDITS = {
    0: ["0,0,0,rwx,---,-", "0,1,1,rwx,---,-"],
    2: ["0,0,0,rwx,---,-", "0,1,1,rwx,---,-", "1,0,0,rwx,---,0:0", "2,5,0,r-x,---,1:0", "2,6,1,rwx,---,0:1"],
    5: ["0,0,0,rwx,---,-", "0,1,1,rwx,---,-", "1,0,0,rwx,---,0:0", "2,5,0,r-x,R-X,1:0", "2,6,1,rwx,---,0:1"],
    7: ["0,0,0,rwx,R-X,-", "0,1,1,rwx,---,-", "1,0,0,rwx,---,0:0", "2,5,0,r-x,---,1:0", "2,6,1,rwx,---,0:1"],
    8: [],
}

# A trace with each other outcome of a pair, one with pages that are lost, and what is said of their replies.
OUTCOMES = [
    (
        ["l4map,1,3,18,1", "send,0,1,10,8,c4", "send,0,1,10,8,c6", "send,1,2,10,8,c1", "send,1,0,10,8,c7", "send,0,1,10,8,5"],
        [
            (sent(1, linked=1), "1 page now held by the receiver"),
            (sent(2, extended=1), "1 page held by the receiver with more rights"),
            (sent(3, norights=1), "1 page without a right to be sent"),
            (sent(4, origin=1), "1 page derived from the receiver's page"),
            (sent(5), "no page was sent"),
        ],
    ),
    (
        ["l4map,1,2,18,3", "send,0,1,10,1008,c7", "send,0,1,10,8,10c7", "send,0,1,10,2008,20c7", "send,1,0,10,8,e7"],
        [
            (sent(1, linked=1), "1 page now held by the receiver"),
            (sent(2, linked=1), "1 page now held by the receiver"),
            (sent(3, linked=1), "1 page now held by the receiver"),
            (sent(4, absent=1, origin=1, lost=2), "1 page not held by the sender, 1 page derived from the receiver's page, 2 pages lost by the flush"),
        ],
    ),
]


def explain_traces(cases, program):
    """Each record and each reply in a sentence; the replies are those of l4map."""
    with tempfile.TemporaryDirectory() as room:
        path = written(room, "explained.csv", EXPLAINED)
        got = run([L4MAP], text_of(EXPLAINED)).stdout.decode().splitlines()
        cases.check("explained.csv: replies", "" if got == [*EXPLAINED_REPLIES, "end 11 2"] else f"{got}")

        def lines_at(number):
            if number == 0:
                return [f"header, {path}:1: {EXPLAINED[0]}", f"  {FIRST_SENTENCE}"]
            asked, what = SENTENCES[number - 1]
            return [record_at(path, EXPLAINED, number), *([f"  {asked}"] if asked else []), f"  {EXPLAINED_REPLIES[number - 1]}: {what}"]

        whole = [lines_at(number) for number in range(12)]
        cases.compare("explain", ended(0, *(line for lines in whole for line in lines)), run([program, "explain", path]))
        for number, lines in enumerate(whole):
            cases.compare(f"explain --at {number}", ended(0, *lines), run([program, "explain", path, "--at", str(number)]))
        cases.compare("explain --max 1", ended(0, *whole[0], *whole[1], UNTOLD % 10), run([program, "explain", path, "--max", "1"]))
        cases.compare("explain --at 12", none_such(path, "record 12; the trace has 11 records"), run([program, "explain", path, "--at", "12"]))
        for records, replies in OUTCOMES:
            path = written(room, "outcomes.csv", records)
            got = run([program, "explain", path]).stdout.decode().splitlines()[4::3]
            cases.check(f"explain {records[-1]}", "" if got == [f"  {reply}: {what}" for reply, what in replies] else f"{got}")
        show_refused(cases, program, written(room, "explained.csv", EXPLAINED))


def show_refused(cases, program, path):
    """show and why tell why a record is refused."""
    heading = record_at(path, EXPLAINED, 10)
    why = f"reply: {EXPLAINED_REPLIES[9]}: {SENTENCES[9][1]}"
    cases.compare("show of a refused record", ended(0, f"after {heading}", why), run([program, "show", path, "--at", "10"]))
    lines = [f"0:0 holds nothing, after {record_at(path, EXPLAINED, 11)}", f"reply: {EXPLAINED_REPLIES[10]}: {SENTENCES[10][1]}"]
    lines += [CHANGED, f"  {record_at(path, EXPLAINED, 8)}", "    took rwx; nothing is left"]
    cases.compare("why after a refused record", ended(0, *lines), run([program, "why", path, "--page", "0:0"]))


def audit_moments(cases, program):
    """show --audit gives the audit after any record, and compare --at compares with it."""
    with tempfile.TemporaryDirectory() as room:
        path = written(room, "explained.csv", EXPLAINED)
        for number, lines in EXPLAINED_AUDITS.items():
            cases.compare(f"show --audit --at {number}", ended(0, *lines), run([program, "show", path, "--audit", "--at", str(number)]))
            if lines:
                got = run([program, "compare", path, "-", "--audit", "--at", str(number)], text_of(lines))
                cases.compare(f"compare --audit --at {number}", no_difference(len(lines)), got)
        cases.compare("show --audit", ended(0), run([program, "show", path, "--audit", "--max", "0"]))
        why = "record 12; the trace has 11 records"
        cases.compare("show --audit --at 12", none_such(path, why), run([program, "show", path, "--audit", "--at", "12"]))
        cases.compare("compare --at 12", none_such(path, why), run([program, "compare", path, "-", "--at", "12"]))
        answers = [*EXPLAINED_REPLIES[:2], *EXPLAINED_AUDITS[2], "end 2 0"]
        cases.compare("compare --at 2", no_difference(8), run([program, "compare", path, "-", "--at", "2"], text_of(answers)))
        before, after = EXPLAINED_AUDITS[5], EXPLAINED_AUDITS[7]
        lines = [*told(1, 1, before[0], after[0]), *told(2, 4, before[3], after[3]), in_all(2)]
        got = run([program, "compare", path, "-", "--audit", "--at", "5", "--all"], text_of(after))
        cases.compare("compare --audit --at 5 with the audit after record 7", ended(1, *lines), got)
        got = run([program, "compare", path, "-", "--audit", "--at", "5", "--ignore", "status"], text_of(after))
        cases.compare("the same without status", no_difference(5), got)


# Four spaces. Page 0:0 goes to 1:0 and 2:0, and from 1:0 to 3:0 and 3:4; 0:1 to 2:5; then 0:1 to 1:0, which takes all
# back that 1:0 passed on.
TREES = [
    "l4map,1,4,18,2",
    "send,0,1,10,8,c7",
    "send,0,2,10,8,c6",
    "send,1,3,10,8,c7,4008,c5",
    "send,0,2,10,5008,10c7",
    "send,0,1,10,8,10c7",
]
TREES_REPLIES = [sent(1, linked=1), sent(2, linked=1), sent(3, linked=2), sent(4, linked=1), sent(5, linked=1)]
AFTER_4 = [
    "frame 0",
    "  0:0 rwx ---",
    "  ├─ 1:0 rwx ---",
    "  │  ├─ 3:0 rwx ---",
    "  │  └─ 3:4 r-x ---",
    "  └─ 2:0 rw- ---",
    "frame 1",
    "  0:1 rwx ---",
    "+ └─ 2:5 rwx ---",
]
AFTER_5 = [
    "frame 0",
    "  0:0 rwx ---",
    "  └─ 2:0 rw- ---",
    "frame 1",
    "  0:1 rwx ---",
    "* ├─ 1:0 rwx ---, was rwx --- of frame 0 from 0:0",
    "  └─ 2:5 rwx ---",
    "no longer held",
    "- 3:0 rwx --- of frame 0",
    "- 3:4 r-x --- of frame 0",
]
DIFF_5 = [
    "frame 0",
    "  0:0 rwx ---       |   0:0 rwx ---",
    "* ├─ 1:0 rwx ---    |   └─ 2:0 rw- ---",
    "- │  ├─ 3:0 rwx --- |",
    "- │  └─ 3:4 r-x --- |",
    "  └─ 2:0 rw- ---    |",
    "frame 1",
    "  0:1 rwx ---    |   0:1 rwx ---",
    "  └─ 2:5 rwx --- | * ├─ 1:0 rwx ---",
    "                 |   └─ 2:5 rwx ---",
]
TABLE_HEAD = "     page      base    frame  rights  status  origin"
# Four spaces and three frames. Page 0:0 goes to 1:0, and from there to 2:0 and 2:5; 0:1 goes to 2:9, and 0:0 to 3:0;
# then 2:0 and 2:5 are taken back, while pages on either side of them stay.
GONE = [
    "l4map,1,4,18,3",
    "send,0,1,10,8,c7",
    "send,1,2,10,8,c7,5008,c5",
    "send,0,2,10,9008,10c7",
    "send,0,3,10,8,c7",
    "unmap,1,0,c7",
]
GONE_REPLIES = [sent(1, linked=1), sent(2, linked=2), sent(3, linked=1), sent(4, linked=1), "5 unmap 000000c0"]
GONE_TREES = [
    "frame 0",
    "  0:0 rwx ---",
    "  ├─ 1:0 rwx ---",
    "  └─ 3:0 rwx ---",
    "frame 1",
    "  0:1 rwx ---",
    "  └─ 2:9 rwx ---",
    "frame 2",
    "  0:2 rwx ---",
]
GONE_PAGES = ["- 2:0 rwx --- of frame 0", "- 2:5 r-x --- of frame 0"]
GONE_DIFF = [
    "frame 0",
    "  0:0 rwx ---       |   0:0 rwx ---",
    "  ├─ 1:0 rwx ---    |   ├─ 1:0 rwx ---",
    "- │  ├─ 2:0 rwx --- |   └─ 3:0 rwx ---",
    "- │  └─ 2:5 r-x --- |",
    "  └─ 3:0 rwx ---    |",
]
GONE_TABLE = ["space 2: 1 of 64 pages held", TABLE_HEAD, "        9      9000        1  rwx     ---     0:1"]


def more(count, noun):
    return f".. and {count} more {noun}; --max draws more of them"


# Arguments, and what is shown of that trace after its last record: the lines that are left out are counted.
CUT = [
    ("", [*GONE_TREES, "no longer held", *GONE_PAGES]),
    ("--max 6", [*GONE_TREES, "no longer held", *GONE_PAGES]),
    ("--max 5", [*GONE_TREES[:7], more(1, "mapping"), "no longer held", *GONE_PAGES]),
    ("--max 2", [*GONE_TREES[:3], more(4, "mappings"), "no longer held", *GONE_PAGES]),
    ("--max 1", [*GONE_TREES[:2], more(5, "mappings"), "no longer held", GONE_PAGES[0], more(1, "mapping")]),
    ("--max 0", [more(6, "mappings"), "no longer held", more(2, "mappings")]),
    ("--frame 0 --max 1", [*GONE_TREES[:2], more(2, "mappings"), "no longer held", GONE_PAGES[0], more(1, "mapping")]),
    ("--frame 1 --max 1", ["frame 1", "  0:1 rwx ---", more(1, "mapping")]),
    ("--space 2", [*GONE_TABLE, *GONE_PAGES]),
    ("--space 2 --max 3", [*GONE_TABLE, *GONE_PAGES]),
    ("--space 2 --max 2", [*GONE_TABLE, GONE_PAGES[0], more(1, "mapping")]),
    ("--space 2 --max 1", [*GONE_TABLE, more(2, "mappings")]),
    ("--space 2 --max 0", [*GONE_TABLE[:2], more(3, "mappings")]),
    ("--diff", GONE_DIFF),
    ("--diff --max 5", GONE_DIFF),
    ("--diff --max 4", [*GONE_DIFF[:5], more(1, "row")]),
    ("--diff --max 2", ["frame 0", "  0:0 rwx ---    |   0:0 rwx ---", "  ├─ 1:0 rwx --- |   ├─ 1:0 rwx ---", more(3, "rows")]),
    ("--diff --max 0", [more(5, "rows")]),
]

# The same of TREES after its last record, whose two trees changed, and of a third frame, which did not.
CUT_DIFFS = [
    ("--max 8", DIFF_5),
    ("--max 7", [*DIFF_5[:9], more(1, "row")]),
    ("--max 5", [*DIFF_5[:6], more(3, "rows")]),
    ("--max 3", [*DIFF_5[:4], more(5, "rows")]),
]

# Arguments behind the name of the trace, and what is shown under the heading of a record.
SHOWN = [
    ("--at 0", 0, ["frame 0", "  0:0 rwx ---", "frame 1", "  0:1 rwx ---"]),
    ("--at 4", 4, AFTER_4),
    ("--at 4 --frame 1", 4, AFTER_4[6:]),
    ("--at 4 --max 3", 4, [*AFTER_4[:4], more(4, "mappings")]),
    ("", 5, AFTER_5),
    ("--at 5", 5, AFTER_5),
    ("--at 5 --diff", 5, DIFF_5),
    ("--at 5 --diff --frame 1", 5, DIFF_5[6:]),
    ("--at 4 --diff", 4, ["frame 1", "  0:1 rwx --- |   0:1 rwx ---", "              | + └─ 2:5 rwx ---"]),
    (
        "--at 3 --space 3",
        3,
        ["space 3: 2 of 64 pages held", TABLE_HEAD, "+       0         0        0  rwx     ---     1:0", "+       4      4000        0  r-x     ---     1:0"],
    ),
    ("--space 3", 5, ["space 3: 0 of 64 pages held", TABLE_HEAD, "- 3:0 rwx --- of frame 0", "- 3:4 r-x --- of frame 0"]),
    ("--space 2 --frame 1", 5, ["space 2: 1 of 64 pages held", TABLE_HEAD, "        5      5000        1  rwx     ---     0:1"]),
]


def record_at(path, records, number):
    """How a record of a trace, a list of lines without empty ones, is named: record 0 is its header."""
    return f"record {number}, {path}:{number + 1}: {records[number]}"


def written(room, name, lines):
    path = os.path.join(room, name)
    with open(path, "wb") as trace:
        trace.write(text_of(lines))
    return path


# Each mapping after record 4 of TREES by rows: what its text says, and its origin.
NODES = [("0:0", 0, "rwx", ""), ("1:0", 0, "rwx", "0:0"), ("3:0", 0, "rwx", "1:0"), ("3:4", 0, "r-x", "1:0"), ("2:0", 0, "rw-", "0:0"), ("0:1", 1, "rwx", ""), ("2:5", 1, "rwx", "0:1")]


def dot_of_nodes():
    lines = ["digraph holdings {", "  node [shape=box, fontname=monospace];"]
    for place, frame, rights, origin in NODES:
        colour = ", color=green" if place == "2:5" else ""
        lines.append(f'  "{place}" [label="{place}\\nframe {frame}\\n{rights} ---"{colour}];')
        if origin:
            lines.append(f'  "{origin}" -> "{place}";')
    return ended(0, *lines, "}")


SVG = "{http://www.w3.org/2000/svg}"
LEGEND = ["same", "new", "changed", "taken"]
# The frames and mappings of a picture: what was done to each, how deep it stands, and its text.
PICTURES = [
    (
        TREES,
        4,
        TREES_REPLIES,
        [
            ("frame", 0, "frame 0"),
            ("same", 0, "0:0 rwx ---"),
            ("same", 1, "1:0 rwx ---"),
            ("same", 2, "3:0 rwx ---"),
            ("same", 2, "3:4 r-x ---"),
            ("same", 1, "2:0 rw- ---"),
            ("frame", 0, "frame 1"),
            ("same", 0, "0:1 rwx ---"),
            ("new", 1, "2:5 rwx ---"),
        ],
    ),
    # What was taken from below a page that is of another frame now has no branch.
    (
        TREES,
        5,
        TREES_REPLIES,
        [
            ("frame", 0, "frame 0"),
            ("same", 0, "0:0 rwx ---"),
            ("same", 1, "2:0 rw- ---"),
            ("taken", 0, "3:0 rwx ---"),
            ("taken", 0, "3:4 r-x ---"),
            ("frame", 0, "frame 1"),
            ("same", 0, "0:1 rwx ---"),
            ("changed", 1, "1:0 rwx ---"),
            ("same", 1, "2:5 rwx ---"),
        ],
    ),
    (
        GONE,
        5,
        GONE_REPLIES,
        [
            ("frame", 0, "frame 0"),
            ("same", 0, "0:0 rwx ---"),
            ("same", 1, "1:0 rwx ---"),
            ("taken", 2, "2:0 rwx ---"),
            ("taken", 2, "2:5 r-x ---"),
            ("same", 1, "3:0 rwx ---"),
            ("frame", 0, "frame 1"),
            ("same", 0, "0:1 rwx ---"),
            ("same", 1, "2:9 rwx ---"),
            ("frame", 0, "frame 2"),
            ("same", 0, "0:2 rwx ---"),
        ],
    ),
]


def picture_of(cases, name, got):
    """The root of a picture, which is XML."""
    try:
        return ElementTree.fromstring(got.stdout)
    except ElementTree.ParseError as error:
        cases.check(name, f"no XML: {error}")
        return ElementTree.Element("none")


def texts_of(root):
    return [(text.get("class"), int(text.get("x")), text.text) for text in root.iter(SVG + "text")]


def check_picture(cases, name, got, heading, rows):
    """A picture has the heading, its first line as the title too, the legend, each frame and each mapping once, a box
    round what is not the same, and a branch to each mapping below another."""
    root = picture_of(cases, name, got)
    texts = texts_of(root)
    told = "".join(text for kind, _, text in texts if kind == "title")
    title = root.find(SVG + "title")
    good = title is not None and title.text == heading[0] and told == "".join(heading)
    cases.check(f"{name}: heading", "" if good else f"{told}")
    texts = [text for text in texts if text[0] != "title"]
    legend, texts = texts[: len(LEGEND)], texts[len(LEGEND) :]
    cases.check(f"{name}: legend", "" if [(kind, text) for kind, _, text in legend] == [(f"page {word}", word) for word in LEGEND] else f"{legend}")
    wanted = [(kind, 8, text) if kind == "frame" else (f"page {kind}", 16 + 24 * depth, text) for kind, depth, text in rows]
    cases.check(name, "" if texts == wanted else f"{texts}")
    boxes = [box.get("class") for box in root.iter(SVG + "rect") if box.get("class")]
    changed = [kind for kind, _, _ in rows if kind not in ("same", "frame")]
    cases.check(f"{name}: boxes", "" if boxes == [*LEGEND[1:], *changed] else f"{boxes}")
    branches = [branch.get("class") for branch in root.iter(SVG + "path")]
    wanted = [kind for kind, depth, _ in rows if depth]
    cases.check(f"{name}: branches", "" if branches == wanted else f"{branches}")


# Before and after side by side: each frame, and what was done to the rows of either side.
PAIRS = [
    (TREES, 4, [(1, [("same", 0, "0:1 rwx ---")], [("same", 0, "0:1 rwx ---"), ("new", 1, "2:5 rwx ---")])]),
    (
        TREES,
        5,
        [
            (
                0,
                [
                    ("same", 0, "0:0 rwx ---"),
                    ("changed", 1, "1:0 rwx ---"),
                    ("taken", 2, "3:0 rwx ---"),
                    ("taken", 2, "3:4 r-x ---"),
                    ("same", 1, "2:0 rw- ---"),
                ],
                [("same", 0, "0:0 rwx ---"), ("same", 1, "2:0 rw- ---")],
            ),
            (
                1,
                [("same", 0, "0:1 rwx ---"), ("same", 1, "2:5 rwx ---")],
                [("same", 0, "0:1 rwx ---"), ("changed", 1, "1:0 rwx ---"), ("same", 1, "2:5 rwx ---")],
            ),
        ],
    ),
    (
        GONE,
        5,
        [
            (
                0,
                [
                    ("same", 0, "0:0 rwx ---"),
                    ("same", 1, "1:0 rwx ---"),
                    ("taken", 2, "2:0 rwx ---"),
                    ("taken", 2, "2:5 r-x ---"),
                    ("same", 1, "3:0 rwx ---"),
                ],
                [("same", 0, "0:0 rwx ---"), ("same", 1, "1:0 rwx ---"), ("same", 1, "3:0 rwx ---")],
            ),
        ],
    ),
]


def check_pair(cases, name, got, frames, rest=None):
    """A picture of before and after has two columns, each frame at the same height in both, and a text for the rest."""
    root = picture_of(cases, name, got)
    texts = [(text.get("class"), int(text.get("x")), int(text.get("y")), text.text) for text in root.iter(SVG + "text")]
    texts = [text for text in texts if text[0] != "title"][len(LEGEND) :]
    top = texts[0][2] if texts else 0
    sides = [side for _, *both in frames for side in both]
    column = 310 + 24 * max([depth for side in sides for _, depth, _ in side], default=0)
    wanted = [("frame", 8, 0, "before"), ("frame", column + 8, 0, "after")]
    line = 1
    for frame, *both in frames:
        for left, rows in zip((0, column), both):
            wanted.append(("frame", left + 8, 24 * line, f"frame {frame}"))
            wanted += [(f"page {kind}", left + 16 + 24 * depth, 24 * (line + 1 + i), text) for i, (kind, depth, text) in enumerate(rows)]
        line += 1 + max(len(rows) for rows in both)
    if rest:
        wanted.append(("more", 8, 24 * line, rest))
    got = [(kind, x, y - top, text) for kind, x, y, text in texts]
    cases.check(name, "" if got == wanted and root.get("width") == str(max(700, 2 * column)) else f"{root.get('width')} {got}")
    boxes = [box.get("class") for box in root.iter(SVG + "rect") if box.get("class")]
    changed = [kind for side in sides for kind, _, _ in side if kind != "same"]
    cases.check(f"{name}: boxes", "" if boxes == [*LEGEND[1:], *changed] else f"{boxes}")
    branches = [branch.get("class") for branch in root.iter(SVG + "path")]
    cases.check(f"{name}: branches", "" if branches == [kind for side in sides for kind, depth, _ in side if depth] else f"{branches}")


def check_pairs(cases, program, room):
    """Pictures of before and after: of what changed, of a frame that did not, of nothing, and cut short."""
    for records, number, frames in PAIRS:
        path = written(room, "pairs.csv", records)
        got = run([program, "show", path, "--at", str(number), "--diff", "--svg"])
        check_pair(cases, f"show --at {number} --diff --svg", got, frames)
    path = written(room, "trees.csv", TREES)

    def shown(*arguments):
        return run([program, "show", path, "--diff", "--svg", *arguments])

    check_pair(cases, "show --at 0 --diff --svg", shown("--at", "0"), [], "no mapping changed")
    frame, before, after = PAIRS[1][2][0]
    check_pair(cases, "show --diff --svg --max", shown("--at", "5", "--max", "3"), [(frame, before[:3], after)], ".. and 5 more")
    check_pair(cases, "show --diff --svg --frame", shown("--at", "4", "--frame", "0"), [(0, *2 * [[("same", depth, text) for _, depth, text in before]])])


def check_pictures(cases, program, room):
    """Pictures of small traces, of a name that XML has to escape, of many mappings, and of a long chain."""
    for name in ("trees.csv", "a<b>&c.csv"):
        for records, number, replies, rows in PICTURES:
            path = written(room, name, records)
            heading = ["after " + record_at(path, records, number), f"reply: {replies[number - 1]}"]
            got = run([program, "show", path, "--at", str(number), "--svg"])
            check_picture(cases, f"show {name} --at {number} --svg", got, heading, rows)
    path = written(room, "trees.csv", TREES)
    rows = [("frame", 0, "frame 0"), ("same", 0, "0:0 rwx ---"), ("frame", 0, "frame 1"), ("same", 0, "0:1 rwx ---")]
    check_picture(cases, "show --svg at the start", run([program, "show", path, "--at", "0", "--svg"]), ["at the start"], rows)
    got = run([program, "show", path, "--at", "4", "--svg", "--max", "2"])
    texts = texts_of(picture_of(cases, "show --svg --max", got))[-4:]
    wanted = [("frame", 8, "frame 0"), ("page same", 16, "0:0 rwx ---"), ("page same", 40, "1:0 rwx ---"), ("more", 8, ".. and 5 more")]
    cases.check("show --svg --max", "" if texts == wanted else f"{texts}")
    # A frame and 61 mappings, of which 60 stand beside one another: 62 lines, so 21 in each of three columns.
    path = written(room, "wide.csv", ["l4map,1,3,18,1", *(f"send,0,1,10,{page:x}008,c7" for page in range(60))])
    root = picture_of(cases, "show --svg of many mappings", run([program, "show", path, "--svg"]))
    rows = [(x, text) for kind, x, text in texts_of(root)[-62:]]
    wanted = [(8, "frame 0"), (16, "0:0 rwx ---")] + [(40 + 334 * ((2 + page) // 21), f"1:{page} rwx ---") for page in range(60)]
    cases.check("show --svg of many mappings", "" if rows == wanted and root.get("width") == "1002" else f"{root.get('width')} {rows}")
    # A chain of 511 below the root, folded from level 9 on: 513 lines in two columns.
    path = written(room, "chain.csv", ["l4map,1,512,18,1", *(f"send,{n},{n + 1},10,8,c7" for n in range(511))])
    root = picture_of(cases, "show --svg of a long chain", run([program, "show", path, "--svg"]))
    texts = texts_of(root)
    good = root.get("width") == "1004" and texts[-1] == ("page new", 502 + 16 + 192, "(level 511) 511:0 rwx ---")
    cases.check("show --svg of a long chain", "" if good and len(list(root.iter(SVG + "path"))) == 8 else f"{root.get('width')} {texts[-1]}")


def none_such(path, why):
    """What is told where a trace has no such record, space, frame or page."""
    return Ended(2, b"", f"l4trace: {path}: there is no {why}\n".encode())


def show_traces(cases, program):
    with tempfile.TemporaryDirectory() as room:
        path = written(room, "trees.csv", TREES)
        for arguments, number, lines in SHOWN:
            heading = "after " + record_at(path, TREES, number) if number else "at the start"
            wanted = ended(0, heading, *replied(TREES_REPLIES, number), *lines)
            cases.compare(f"show {arguments}", wanted, run([program, "show", path, *arguments.split()]))
        cases.compare("show --dot", dot_of_nodes(), run([program, "show", path, "--at", "4", "--dot"]))
        check_pictures(cases, program, room)
        check_pairs(cases, program, room)
        for arguments, why in (
            ("--space 4", "space 4; spaces are 0 to 3"),
            ("--space 4294967295", "space 4294967295; spaces are 0 to 3"),
            ("--frame 2", "frame 2; frames are 0 to 1"),
            ("--at 6", "record 6; the trace has 5 records"),
            ("--at 18446744073709551615", "record 18446744073709551615; the trace has 5 records"),
            ("--at 6 --space 4", "record 6; the trace has 5 records"),
        ):
            cases.compare(f"show {arguments}", none_such(path, why), run([program, "show", path, *arguments.split()]))
        lone = written(room, "lone.csv", GRANT)
        cases.compare("show --frame 1 of one frame", none_such(lone, "frame 1; the only one is 0"), run([program, "show", lone, "--frame", "1"]))
        for count, why in ((0, "record 2; the trace has 0 records"), (1, "record 2; the trace has 1 record")):
            short = written(room, "short.csv", TREES[: count + 1])
            for command in ("show", "why --page 0:0"):
                cases.compare(f"{command} --at 2 of {count} records", none_such(short, why), run([program, *command.split(), short, "--at", "2"]))
        path = written(room, "gone.csv", GONE)
        for arguments, lines in CUT:
            wanted = ended(0, "after " + record_at(path, GONE, 5), *replied(GONE_REPLIES, 5), *lines)
            cases.compare(f"show {arguments} of pages that are gone", wanted, run([program, "show", path, *arguments.split()]))
        path = written(room, "three-frames.csv", ["l4map,1,4,18,3", *TREES[1:]])
        for arguments, lines in CUT_DIFFS:
            wanted = ended(0, "after " + record_at(path, TREES, 5), *replied(TREES_REPLIES, 5), *lines)
            cases.compare(f"show --diff {arguments} of three frames", wanted, run([program, "show", path, "--diff", *arguments.split()]))
        # An access that is seen, and an unmap that reads and clears what was seen.
        path = written(room, "seen.csv", TRACE.decode().replace("\n\n", "\n").splitlines())
        lines = ["frame 0", "  0:0 rwx ---", "* └─ 1:3 r-- ---, was rw- R--"]
        wanted = ended(0, f"after record 3, {path}:4: unmap,0,0,c2", *replied(ANSWERS, 3), *lines)
        cases.compare("show what was seen", wanted, run([program, "show", path]))
        chain = ["l4map,1,500,18,1", *(f"send,{n},{n + 1},10,8,c7" for n in range(40))]
        got = run([program, "show", written(room, "chain.csv", chain)]).stdout.decode().splitlines()
        cases.check("show a long chain", "" if got[-1] == "+ (level 40) 40:0 rwx ---" and len(got) == 44 else f"{got[-3:]}")
        bad = written(room, "bad.csv", ["", "l4map,1,1,18,1"])
        wanted = Ended(2, b"", f"{bad}:2:9: header: BadLimits: 1 spaces; there are 2 to 512\n".encode())
        cases.compare("show of bad limits", wanted, run([program, "show", bad]))


CHANGED = "what changed its frame, rights or origin"
UNCHANGED = "no record changed its frame, rights or origin"

# A page comes, is narrowed, gains a right again, and goes; then it is granted.
LIFE = ["l4map,1,4,18,2", "send,0,1,10,8,c5", "unmap,0,0,c1", "access,1,0,r", "send,0,1,10,8,c6", "unmap,1,40,c7", "send,0,1,10,a,c7"]
LIFE_REPLIES = [sent(1, linked=1), "2 unmap 000000c0", "3 access ok", sent(4, extended=1), "5 unmap 000000c4", sent(6, linked=1)]

# Page 0:0 goes to 1:0, from there to 2:5, and then 1:0 is granted to 3:7, which takes its place in the tree.
GRANT = ["l4map,1,4,18,1", "send,0,1,10,8,c7", "send,1,2,10,5008,c5", "send,1,3,10,700a,c7"]
GRANT_REPLIES = [sent(1, linked=1), sent(2, linked=1), sent(3, linked=1)]


def cut(count, where):
    """What is told where --max leaves out so many."""
    return f".. and {count} more {where}; --max tells more of them"


def why_pages(cases, program):
    with tempfile.TemporaryDirectory() as room:
        path = written(room, "trees.csv", TREES)

        def at(number):
            return record_at(path, TREES, number)

        def asked(page, *arguments):
            return run([program, "why", path, "--page", page, *arguments])

        reply = replied(TREES_REPLIES, 5)
        chain = ["it came from", f"  3:4 r-x --- from 1:0, since {at(3)}", f"  1:0 rwx --- from 0:0, since {at(1)}", "  0:0 rwx ---, a root, since the start"]
        come = [CHANGED, f"  {at(3)}", "    gave r-x of frame 0 from 1:0"]
        cases.compare("why of a chain", ended(0, f"3:4 holds frame 0 with r-x, after {at(4)}", *replied(TREES_REPLIES, 4), *chain, *come), asked("3:4", "--at", "4"))
        lines = [f"3:4 holds frame 0 with r-x, after {at(4)}", *replied(TREES_REPLIES, 4), *chain[:2], f"  {cut(2, 'above')}", *come]
        cases.compare("why of a chain --max 1", ended(0, *lines), asked("3:4", "--at", "4", "--max", "1"))
        gone = [f"  {at(5)}", "    took r-x; nothing is left"]
        cases.compare("why of a page that is gone", ended(0, f"3:4 holds nothing, after {at(5)}", *reply, *come, *gone), asked("3:4"))
        lines = ["it came from", f"  1:0 rwx --- from 0:1, since {at(5)}", "  0:1 rwx ---, a root, since the start"]
        lines += [CHANGED, f"  {at(1)}", "    gave rwx of frame 0 from 0:0", f"  {at(5)}", "    replaced what was held: gave rwx of frame 1 from 0:1"]
        cases.compare("why of a page that was replaced", ended(0, f"1:0 holds frame 1 with rwx, after {at(5)}", *reply, *lines), asked("1:0"))
        lines = ["it came from", "  0:0 rwx ---, a root, since the start", UNCHANGED]
        cases.compare("why at the start", ended(0, "0:0 holds frame 0 with rwx, at the start", *lines), asked("0:0", "--at", "0"))
        cases.compare("why of a page never held", ended(0, f"3:63 holds nothing, after {at(5)}", *reply, UNCHANGED), asked("3:63"))
        for page, why in (("4:0", "space 4; spaces are 0 to 3"), ("0:64", "page 64; pages are 0 to 63"), ("4:64", "space 4; spaces are 0 to 3")):
            cases.compare(f"why {page}", none_such(path, why), asked(page))
        cases.compare("why --at 6", none_such(path, "record 6; the trace has 5 records"), asked("0:0", "--at", "6"))
        wanted = Ended(2, b"", b"error: '3' is not a page: a space, a colon and a page, as 2:4\n")
        cases.compare("why 3", wanted, asked("3"))
        path = written(room, "life.csv", LIFE)

        def then(number):
            return record_at(path, LIFE, number)

        changes = [CHANGED]
        for number, what in (
            (1, "gave r-x of frame 0 from 0:0"),
            (2, "took --x: r-x became r--"),
            (4, "gave -w-: r-- became rw-"),
            (5, "took rw-; nothing is left"),
            (6, "gave rwx of frame 0, as a root"),
        ):
            changes += [f"  {then(number)}", f"    {what}"]
        lines = [f"1:0 holds frame 0 with rwx, after {then(6)}", *replied(LIFE_REPLIES, 6)]
        lines += ["it came from", f"  1:0 rwx ---, a root, since {then(6)}", *changes]
        cases.compare("why of a life", ended(0, *lines), run([program, "why", path, "--page", "1:0"]))
        for most, above, told in ((2, [f"  1:0 rwx ---, a root, since {then(6)}"], changes[7:]), (0, [f"  {cut(1, 'above')}"], [])):
            lines = [f"1:0 holds frame 0 with rwx, after {then(6)}", *replied(LIFE_REPLIES, 6), "it came from", *above]
            lines += [CHANGED, f"  {cut(5 - most, 'before')}", *told]
            got = run([program, "why", path, "--page", "1:0", "--max", str(most)])
            cases.compare(f"why of a life --max {most}", ended(0, *lines), got)
        path = written(room, "grant.csv", GRANT)
        first, second, third = (record_at(path, GRANT, number) for number in (1, 2, 3))
        root = "  0:0 rwx ---, a root, since the start"
        reply = replied(GRANT_REPLIES, 3)
        lines = [f"3:7 holds frame 0 with rwx, after {third}", *reply, "it came from", f"  3:7 rwx --- from 0:0, since {third}", root]
        lines += [CHANGED, f"  {third}", "    gave rwx of frame 0 from 0:0"]
        cases.compare("why of a page that was granted", ended(0, *lines), run([program, "why", path, "--page", "3:7"]))
        lines = [f"1:0 holds nothing, after {third}", *reply, CHANGED, f"  {first}", "    gave rwx of frame 0 from 0:0"]
        lines += [f"  {third}", "    granted to 3:7; nothing is left"]
        cases.compare("why of a page that was granted away", ended(0, *lines), run([program, "why", path, "--page", "1:0"]))
        lines = [f"2:5 holds frame 0 with r-x, after {third}", *reply, "it came from", f"  2:5 r-x --- from 3:7, since {third}"]
        lines += [f"  3:7 rwx --- from 0:0, since {third}", root, CHANGED, f"  {second}", "    gave r-x of frame 0 from 1:0"]
        lines += [f"  {third}", "    its origin moved from 1:0 to 3:7"]
        cases.compare("why of a page below one that was granted", ended(0, *lines), run([program, "why", path, "--page", "2:5"]))


# Page 0:0 goes to 1:0, from there to 2:5, and from there to 4:1; then 1:0 is granted to 3:7, which withholds w from all
# three. Space 3 revokes x from those two. At last 0:0 goes to 4:1, and then one record maps 0:1 there and 0:0 again.
NARROWED = [
    "l4map,1,5,18,2",
    "send,0,1,10,8,c7",
    "send,1,2,10,5008,c7",
    "send,2,4,10,1008,50c7",
    "send,1,3,10,700a,c5",
    "unmap,3,0,70c1",
    "send,0,4,10,1008,c7",
    "send,0,4,10,1008,10c7,1008,c5",
]
# Pages, and what each record did to them.
NARROWED_PAGES = [
    ("1:0", [(1, "gave rwx of frame 0 from 0:0"), (4, "granted to 3:7; nothing is left")]),
    (
        "2:5",
        [
            (2, "gave rwx of frame 0 from 1:0"),
            (4, "its origin moved from 1:0 to 3:7; the grant withheld -w-: rwx became r-x"),
            (5, "took --x: r-x became r--"),
        ],
    ),
    ("3:7", [(4, "gave r-x of frame 0 from 0:0")]),
    (
        "4:1",
        [
            (3, "gave rwx of frame 0 from 2:5"),
            (4, "a grant withheld -w-: rwx became r-x"),
            (5, "took --x: r-x became r--"),
            (6, "replaced what was held: gave rwx of frame 0 from 0:0"),
            (7, "replaced what was held: gave r-x of frame 0 from 0:0"),
        ],
    ),
]

# Pages 0:0 and 0:1 go to space 1 and 1:1 to 2:5; then both are granted to 3:4 and 3:5, and last 2:5 to 3:4.
GRANTS = ["l4map,1,4,18,2", "send,0,1,10,8,d7", "send,1,2,10,5008,10c7", "send,1,3,10,400a,d7", "send,2,3,10,400a,50c7"]
GRANTS_PAGES = [
    ("1:1", [(1, "gave rwx of frame 1 from 0:1"), (3, "granted to 3:5; nothing is left")]),
    ("2:5", [(2, "gave rwx of frame 1 from 1:1"), (3, "its origin moved from 1:1 to 3:5"), (4, "granted to 3:4; nothing is left")]),
    ("3:4", [(3, "gave rwx of frame 0 from 0:0"), (4, "replaced what was held: gave rwx of frame 1 from 3:5")]),
    ("3:5", [(3, "gave rwx of frame 1 from 0:1")]),
]

# Page 0:0 goes to 1:0, 2:0, 1:5 and as rw- to 3:9. One record grants 1:0 to 3:7 without w and gives 3:9 all of 1:5.
BOTH = ["l4map,1,4,18,1", "send,0,1,10,8,c7", "send,1,2,10,8,c7", "send,2,1,10,5008,c7", "send,1,3,10,9008,50c6", "send,1,3,10,700a,c5,9008,50c7"]
BOTH_PAGES = [
    ("3:9", [(4, "gave rw- of frame 0 from 1:5"), (5, "a grant withheld -w-; gave --x: rw- became r-x")]),
    ("2:0", [(2, "gave rwx of frame 0 from 1:0"), (5, "its origin moved from 1:0 to 3:7; the grant withheld -w-: rwx became r-x")]),
]

# Page 0:0 goes to 1:0, from there to 2:5 and to 2:6. One record grants 1:0 to 2:5, which is replaced by its own origin,
# while that of 2:6 moves. Then 0:0 goes to 2:6.
ONTO = ["l4map,1,3,18,1", "send,0,1,10,8,c7", "send,1,2,10,5008,c5,6008,c5", "send,1,2,10,500a,c7", "send,0,2,10,6008,c6"]
ONTO_PAGES = [
    ("2:5", [(2, "gave r-x of frame 0 from 1:0"), (3, "replaced what was held: gave rwx of frame 0 from 0:0")]),
    ("2:6", [(2, "gave r-x of frame 0 from 1:0"), (3, "its origin moved from 1:0 to 2:5"), (4, "replaced what was held: gave rw- of frame 0 from 0:0")]),
    ("1:0", [(1, "gave rwx of frame 0 from 0:0"), (3, "granted to 2:5; nothing is left")]),
]

# Page 0:0 goes to 2:0, from there to 1:0 and 1:7, and from 1:7 to 2:5. One record grants 1:0 to 2:5, which then comes
# from 2:0, and grants 1:7 to 2:0, where nothing is done, since 1:7 derives from it: so no origin moved.
ALIKE = ["l4map,1,3,18,1", "send,0,2,10,8,c7", "send,2,1,10,8,c7,7008,c7", "send,1,2,10,5008,70c7", "send,1,2,10,500a,c7,a,70c7"]
ALIKE_PAGES = [
    ("2:5", [(3, "gave rwx of frame 0 from 1:7"), (4, "replaced what was held: gave rwx of frame 0 from 2:0")]),
    ("1:7", [(2, "gave rwx of frame 0 from 2:0")]),
    ("1:0", [(2, "gave rwx of frame 0 from 2:0"), (4, "granted to 2:5; nothing is left")]),
]

# Page 0:0 goes to 1:1, and from there to 2:0; 0:1 goes to 2:1. Then 2:0 and 2:1 are granted to 1:0 and 1:1: the flush
# of 1:1 takes 2:0, whose pair is lost.
LOST = ["l4map,1,3,18,2", "send,0,1,10,1008,c7", "send,1,2,10,8,10c7", "send,0,2,10,1008,10c7", "send,2,1,10,a,d7"]
LOST_PAGES = [
    ("2:0", [(2, "gave rwx of frame 0 from 1:1"), (4, "took rwx; nothing is left")]),
    ("2:1", [(3, "gave rwx of frame 1 from 0:1"), (4, "granted to 1:1; nothing is left")]),
    ("1:1", [(1, "gave rwx of frame 0 from 0:0"), (4, "replaced what was held: gave rwx of frame 1 from 0:1")]),
]


def what_changed(cases, program):
    """Each way in which a record changes a page has its own words."""
    with tempfile.TemporaryDirectory() as room:
        for name, trace, pages in (
            ("narrowed.csv", NARROWED, NARROWED_PAGES),
            ("grants.csv", GRANTS, GRANTS_PAGES),
            ("both.csv", BOTH, BOTH_PAGES),
            ("onto.csv", ONTO, ONTO_PAGES),
            ("alike.csv", ALIKE, ALIKE_PAGES),
            ("lost.csv", LOST, LOST_PAGES),
        ):
            path = written(room, name, trace)
            for page, changes in pages:
                wanted = [CHANGED]
                for number, words in changes:
                    wanted += [f"  {record_at(path, trace, number)}", f"    {words}"]
                told = run([program, "why", path, "--page", page]).stdout.decode().splitlines()
                told = told[told.index(CHANGED) :] if CHANGED in told else told
                cases.check(f"why {page} of {name}", "" if told == wanted else f"{told}")
        path = written(room, "narrowed.csv", NARROWED)
        told = run([program, "why", path, "--page", "4:1"]).stdout.decode().splitlines()
        line = f"  4:1 r-x --- from 0:0, since {record_at(path, NARROWED, 7)}"
        cases.check("why 4:1: since it was replaced", "" if line in told else f"{told}")


# Version 2: page 0:0 goes to 1:0 and from there to 2:0, where it is executed; then space 1 is deleted. The status goes
# to 0:0.
CLEARED = ["l4map,2,3,18,2", "send,0,1,10,8,c7", "send,1,2,10,8,c5", "access,2,abc,x", "clear,1"]
CLEARED_ANSWERS = [
    ANSWERS[0],
    ANSWERS[0].replace("1", "2", 1),
    "3 access ok",
    "4 clear 00000015",
    "0,0,0,rwx,R-X,-",
    "0,1,1,rwx,---,-",
    "end 4 0",
]
CLEARED_PAGES = ["- 1:0 rwx --- of frame 0", "- 2:0 r-x R-X of frame 0"]
CLEARED_DIFF = ["frame 0", "* 0:0 rwx ---       | * 0:0 rwx R-X", "- └─ 1:0 rwx ---    |", "-    └─ 2:0 r-x R-X |"]
CLEARED_TABLE = ["space 2: 0 of 64 pages held", TABLE_HEAD, CLEARED_PAGES[1]]


def cleared_pages(cases, program):
    """What show, why and compare say of a space that is deleted."""
    with tempfile.TemporaryDirectory() as room:
        path = written(room, "cleared.csv", CLEARED)
        second, last = (record_at(path, CLEARED, number) for number in (2, 4))
        trees = ["frame 0", "* 0:0 rwx R-X, was rwx ---", "frame 1", "  0:1 rwx ---", "no longer held", *CLEARED_PAGES]
        for arguments, lines in (("", trees), ("--diff", CLEARED_DIFF), ("--space 2", CLEARED_TABLE)):
            got = run([program, "show", path, *arguments.split()])
            wanted = ended(0, f"after {last}", *replied(CLEARED_ANSWERS, 4), *lines)
            cases.compare(f"show {arguments} of a space that is deleted", wanted, got)
        lines = [f"2:0 holds nothing, after {last}", *replied(CLEARED_ANSWERS, 4), CHANGED, f"  {second}"]
        lines += ["    gave r-x of frame 0 from 1:0", f"  {last}", "    took r-x; nothing is left"]
        cases.compare("why of a page that a clear took", ended(0, *lines), run([program, "why", path, "--page", "2:0"]))
        got = run([program, "compare", path, "-"], text_of(CLEARED_ANSWERS))
        cases.compare("compare of a clear", no_difference(7), got)
        answers = [*CLEARED_ANSWERS[:3], "4 clear 00000010", *CLEARED_ANSWERS[4:]]
        lines = ["first difference: line 4", f"  l4map:   {CLEARED_ANSWERS[3]}", f"  answers: {answers[3]}", f"  {last}"]
        lines += ["  it changes these mappings:", "    - 0,0,0,rwx,---,-", "    + 0,0,0,rwx,R-X,-"]
        lines += ["    - 1,0,0,rwx,---,0:0", "    - 2,0,0,r-x,R-X,1:0", "the trees before and after it:", *CLEARED_DIFF]
        got = run([program, "compare", path, "-"], text_of(answers))
        cases.compare("compare of a clear with a wrong answer", ended(1, *lines), got)


# Two spaces of 32 bits, which have every address. Page 0 of space 0 is mapped to the last page of space 1 and written
# there; then the right to write is taken from it again. (A page that was written was read too.)
LARGE = ["l4map,1,2,32,1", "send,0,1,10,fffff008,c6", "access,1,fffff123,w", "unmap,0,0,c2"]
LARGE_ANSWERS = [
    "1 send absent=0 norights=0 origin=0 lost=0 extended=0 linked=1",
    "2 access ok",
    "3 unmap 000000c6",
    "0,0,0,rwx,---,-",
    "1,1048575,0,r--,---,0:0",
    "end 3 0",
]
LARGE_TREE = ["frame 0", "  0:0 rwx ---", "* └─ 1:1048575 r-- ---, was rw- RW-"]
LARGE_DIFF = ["frame 0", "  0:0 rwx ---          |   0:0 rwx ---", "* └─ 1:1048575 rw- RW- | * └─ 1:1048575 r-- ---"]
LARGE_TABLE = ["space 1: 1 of 1048576 pages held", TABLE_HEAD, "* 1048575  fffff000        0  r--     ---     0:0, was rw- RW-"]


def last_pages(cases, program):
    """The last page of a space of 32 bits."""
    with tempfile.TemporaryDirectory() as room:
        path = written(room, "large.csv", LARGE)
        first, third = (record_at(path, LARGE, number) for number in (1, 3))
        cases.compare("check of the last page", ended(0, counted(3, 0)), run([program, "check", path]))
        cases.compare("l4map of the last page", ended(0, *LARGE_ANSWERS), run(L4MAP, text_of(LARGE)))
        for arguments, lines in (("", LARGE_TREE), ("--diff", LARGE_DIFF), ("--space 1", LARGE_TABLE)):
            got = run([program, "show", path, *arguments.split()])
            wanted = ended(0, f"after {third}", *replied(LARGE_ANSWERS, 3), *lines)
            cases.compare(f"show {arguments} of the last page", wanted, got)
        lines = [f"1:1048575 holds frame 0 with r--, after {third}", *replied(LARGE_ANSWERS, 3), "it came from", f"  1:1048575 r-- --- from 0:0, since {first}"]
        lines += ["  0:0 rwx ---, a root, since the start", CHANGED, f"  {first}", "    gave rw- of frame 0 from 0:0"]
        lines += [f"  {third}", "    took -w-: rw- became r--"]
        cases.compare("why of the last page", ended(0, *lines), run([program, "why", path, "--page", "1:1048575"]))
        lines = [f"0:1048575 holds nothing, after {third}", *replied(LARGE_ANSWERS, 3), UNCHANGED]
        cases.compare("why of another last page", ended(0, *lines), run([program, "why", path, "--page", "0:1048575"]))
        for page, why in (
            ("1:1048576", "page 1048576; pages are 0 to 1048575"),
            ("1:9999999", "page 9999999; pages are 0 to 1048575"),
            ("2:1048575", "space 2; spaces are 0 to 1"),
        ):
            cases.compare(f"why of page {page}, which there is not", none_such(path, why), run([program, "why", path, "--page", page]))
        cases.compare("compare of the last page", no_difference(6), run([program, "compare", path, "-"], text_of(LARGE_ANSWERS)))
        answers = [*LARGE_ANSWERS[:2], "3 unmap 000000c4", *LARGE_ANSWERS[3:]]
        lines = ["first difference: line 3", f"  l4map:   {LARGE_ANSWERS[2]}", f"  answers: {answers[2]}", f"  {third}", "  it changes these mappings:"]
        lines += ["    - 1,1048575,0,rw-,RW-,0:0", "    + 1,1048575,0,r--,---,0:0", "the trees before and after it:", *LARGE_DIFF]
        got = run([program, "compare", path, "-"], text_of(answers))
        cases.compare("compare of the last page with a wrong answer", ended(1, *lines), got)


GREEN, RED, YELLOW, RESET = "\x1b[32m", "\x1b[31m", "\x1b[33m", "\x1b[0m"


def on_terminal(arguments, given=b"", **settings):
    """What a program writes to a terminal as its standard output, with some settings in its environment."""
    main, other = pty.openpty()
    tty.setraw(other)
    place = {name: value for name, value in os.environ.items() if name != "NO_COLOR"} | {"TERM": "xterm"} | settings
    ran = subprocess.Popen(arguments, stdin=subprocess.PIPE, stdout=other, stderr=subprocess.DEVNULL, env=place)
    os.close(other)
    ran.stdin.write(given)
    ran.stdin.close()
    written = b""
    while True:
        try:
            came = os.read(main, 1 << 16)
        except OSError:  # the other end of the terminal is closed
            came = b""
        if not came:
            break
        written += came
    os.close(main)
    ran.wait()
    return written.decode()


def check_colors(cases, program):
    """Lines are coloured on a terminal, or as they are asked to be; without the colours the text is the same."""
    with tempfile.TemporaryDirectory() as room:
        path, life = written(room, "trees.csv", TREES), written(room, "life.csv", LIFE)
        heading = ["after " + record_at(path, TREES, 5), *replied(TREES_REPLIES, 5)]
        tree = [*AFTER_5[:5], YELLOW + AFTER_5[5] + RESET, *AFTER_5[6:8], *(RED + line + RESET for line in AFTER_5[8:])]
        shown = ended(0, *heading, *tree)
        cases.compare("show --color always", shown, run([program, "show", path, "--color", "always"]))
        plain = ended(0, *heading, *AFTER_5)
        cases.compare("show --color never", plain, run([program, "show", path, "--color", "never"]))
        cases.compare("show to a file", plain, run([program, "show", path, "--color", "auto"]))
        got = on_terminal([program, "show", path])
        cases.check("show on a terminal", "" if got == shown.stdout.decode() else repr(got))
        got = on_terminal([program, "show", path, "--color=never"])
        cases.check("show on a terminal, not coloured", "" if got == plain.stdout.decode() else repr(got))
        for settings, wanted in (({"NO_COLOR": "1"}, plain), ({"NO_COLOR": ""}, shown), ({"TERM": "dumb"}, plain)):
            got = on_terminal([program, "show", path], **settings)
            cases.check(f"show on a terminal with {settings}", "" if got == wanted.stdout.decode() else repr(got))
        got = on_terminal([program, "show", path, "--color=always"], NO_COLOR="1")
        cases.check("show --color=always with NO_COLOR", "" if got == shown.stdout.decode() else repr(got))
        lines = [
            "frame 1",
            "  0:1 rwx --- |   0:1 rwx ---",
            f"              | {GREEN}+ └─ 2:5 rwx ---{RESET}",
        ]
        got = run([program, "show", path, "--at", "4", "--diff", "--color", "always"])
        wanted = ended(0, "after " + record_at(path, TREES, 4), *replied(TREES_REPLIES, 4), *lines)
        cases.compare("show --diff --color always", wanted, got)
        got = run([program, "show", path, "--diff", "--color", "always"]).stdout.decode()
        left = f"{RED}- │  ├─ 3:0 rwx ---{RESET} |"
        cases.check("show --diff --color always: the left column", "" if left in got.splitlines() else got)
        for form in ("--svg", "--dot"):
            wanted = run([program, "show", path, form])
            cases.compare(f"show {form} --color always", wanted, run([program, "show", path, form, "--color", "always"]))
        got = run([program, "why", life, "--page", "1:0", "--color", "always"]).stdout.decode()
        for line in (f"{GREEN}    gave r-x of frame 0 from 0:0{RESET}", f"{RED}    took --x: r-x became r--{RESET}"):
            cases.check(f"why --color always: {line!r}", "" if line in got.splitlines() else got)
        narrowed = written(room, "narrowed.csv", NARROWED)
        for page, color, line in (
            ("1:0", RED, "granted to 3:7; nothing is left"),
            ("2:5", YELLOW, "its origin moved from 1:0 to 3:7; the grant withheld -w-: rwx became r-x"),
            ("4:1", RED, "a grant withheld -w-: rwx became r-x"),
            ("4:1", YELLOW, "replaced what was held: gave rwx of frame 0 from 0:0"),
        ):
            got = run([program, "why", narrowed, "--page", page, "--color", "always"]).stdout.decode()
            cases.check(f"why {page} --color always: {line}", "" if f"{color}    {line}{RESET}" in got.splitlines() else got)
        trace = os.path.join(room, "trace.csv")
        with open(trace, "wb") as file:
            file.write(TRACE)
        answers = text_of(changed(2, "2 access fault"))
        got = run([program, "compare", trace, "-", "--color", "always"], answers).stdout.decode().splitlines()
        wanted = [f"{RED}    - 1,3,0,rw-,---,0:0{RESET}", f"{GREEN}    + 1,3,0,rw-,R--,0:0{RESET}", "the trees before and after it:", "frame 0"]
        wanted += ["  0:0 rwx ---    |   0:0 rwx ---", f"{YELLOW}* └─ 1:3 rw- ---{RESET} | {YELLOW}* └─ 1:3 rw- R--{RESET}"]
        cases.check("compare --color always", "" if got[-6:] == wanted else f"{got}")
        got = on_terminal([program, "compare", trace, "-"], answers).splitlines()
        cases.check("compare on a terminal", "" if got[-6:] == wanted else f"{got}")
        for command in (["show", path], ["why", path, "--page", "1:0"], ["compare", path, path]):
            colored = run([program, *command, "--color", "always"]).stdout.decode()
            stripped = re.sub("\x1b\\[[0-9]+m", "", colored)
            cases.check(f"{command[0]} without its colours", "" if stripped != colored and stripped == run([program, *command]).stdout.decode() else repr(colored))
        wanted = Ended(2, b"", b"error: 'red' is not auto, always or never\n")
        cases.compare("show --color red", wanted, run([program, "show", path, "--color", "red"]))


SHAPES = ("rules", "chain", "tree", "pagers", "conflicts", "fpages")


def make_random(cases, program):
    """Traces made at random: as long as asked, the same again, refused as asked, and replayed by l4map."""
    for shape in SHAPES:
        plan = ["random", "--seed", "7", "--records", "2000", "--shape", shape]
        trace = run([program, *plan]).stdout
        cases.check(f"random {shape}: the same again", "" if trace and trace == run([program, *plan]).stdout else "it differs")
        other = run([program, *plan[:2], "8", *plan[3:]]).stdout
        cases.check(f"random {shape}: another seed", "" if trace != other else "it is the same")
        for percent, least, most in ((0, 0, 0), (20, 300, 500), (100, 2000, 2000)):
            given = run([program, *plan, "--refused", str(percent)]).stdout
            last = run([program, "check", "-", "--max", "0"], given).stdout.decode().splitlines()[-1]
            records, refused = last.split(", ")
            good = records == "2000 records" and least <= int(refused.split()[0]) <= most
            cases.check(f"random {shape}: {percent} of 100 refused", "" if good else last)
        compare_random(cases, program, shape, trace)
    for bits in (18, 24, 25, 32):
        for shape in ("rules", "fpages"):
            random_of_bits(cases, program, bits, shape)
    for shape in SHAPES:
        random_with_clears(cases, program, shape)
    given = run([program, *"random --seed 7 --records 1000".split()]).stdout
    wanted = run([program, *"random --seed 7 --records 1000 --shape rules --spaces 16 --bits 18 --frames 16 --refused 8".split()]).stdout
    cases.check("random: what is the default", "" if given and given == wanted else "it is something else")
    for arguments in ("--version 0", "--version 3", "--spaces 1", "--bits 17", "--bits 33", "--frames 65", "--refused 101", "--shape ring", "--records x"):
        got = run([program, *"random --seed 1 --records 1".split(), *arguments.split()])
        cases.check(f"random {arguments}", "" if got.status == 2 and not got.stdout and got.stderr else f"{got}")


def random_with_clears(cases, program, shape):
    """Traces of version 2 have clears, which version 1 has not, and some of them are refused where records are."""

    def made(arguments):
        return run([program, *f"random --seed 7 --records 2000 --shape {shape} {arguments}".split()]).stdout

    trace = made("--version 2")
    lines = trace.decode().splitlines()
    cases.check(f"random {shape}: header of version 2", "" if lines[:1] == ["l4map,2,16,18,16"] else f"{lines[:1]}")
    clears = sum(line.startswith("clear,") for line in lines)
    few = 15 if shape == "rules" else 100
    cases.check(f"random {shape}: clears", "" if clears > few and b"clear" not in made("--version 1 --refused 0") else f"{clears}")
    cases.check(f"random {shape}: version 1 is the default", "" if made("") == made("--version 1") else "it is not")
    refused = made("--version 2 --refused 100").decode().splitlines()
    last = run([program, "check", "-", "--max", "0"], text_of(refused)).stdout.decode().splitlines()[-1:]
    good = last == [counted(2000, 2000)] and "clear,16" in refused
    cases.check(f"random {shape}: refused clears", "" if good else f"{last}")
    compare_random(cases, program, f"{shape} of version 2", trace)


REFUSALS = {"BadSize", "Misaligned", "OutOfSpace", "NotAnItem", "BadControl", "NoSuchSpace", "SameSpace", "NoWindow", "BadRecord"}


def random_of_bits(cases, program, bits, shape):
    """Traces of spaces of so many bits: of as many spaces and frames as there can be, with each refusal and without."""

    def made(arguments):
        return run([program, *f"random --seed 1 --bits {bits} --shape {shape} {arguments}".split()]).stdout

    given = made("--records 300 --spaces 512 --frames 64")
    cases.check(f"random {shape} of {bits} bits: header", "" if given.startswith(f"l4map,1,512,{bits},64\n".encode()) else given[:40].decode())
    told = run([program, "check", "-", "--max", "300"], made("--records 300 --refused 100")).stdout.decode().splitlines()
    found = {line.split(": ")[2] for line in told[:-1]}
    cases.check(f"random {shape} of {bits} bits: refusals", "" if told[-1:] == [counted(300, 300)] and found == REFUSALS else f"{told[-1:]} {found}")
    compare_random(cases, program, f"{shape} of {bits} bits", made("--records 2000 --refused 0"))


def compare_random(cases, program, shape, trace):
    """The answers of l4map are the same as themselves, and one that is changed is found."""
    answers = run([L4MAP], trace).stdout
    lines = answers.decode().splitlines()
    linked = [line for line in lines if " send " in line and "linked=0" not in line]
    cases.check(f"random {shape}: pages are mapped", "" if len(linked) > 50 else f"{len(linked)} sends link a page")
    with tempfile.TemporaryDirectory() as room:
        path = os.path.join(room, "trace.csv")
        with open(path, "wb") as file:
            file.write(trace)
        cases.compare(f"random {shape}: its answers", no_difference(len(lines)), run([program, "compare", path, "-"], answers))
        lines[999] = lines[999] + "x"
        got = run([program, "compare", path, "-"], text_of(lines)).stdout.decode()
        cases.check(f"random {shape}: a wrong answer", "" if got.startswith("first difference: line 1000\n") else got[:200])


MANY = 1_000_000
MANY_SECONDS = 60


def check_many(cases, program):
    """A million records, of which the last is refused; each run has a minute."""
    with tempfile.TemporaryDirectory() as room:
        path = written(room, "many.csv", [HEADER.strip(), *["access,0,0,r"] * (MANY - 1), "access,0,0,q"])

        def asked(*arguments, given=b""):
            return run([program, *arguments], given, MANY_SECONDS)

        cause = "BadRecord: the kind of access is 'q', not r, w or x"
        wanted = ended(1, f"{path}:{MANY + 1}:12: record {MANY}: {cause}", f"{MANY} records, 1 refused")
        cases.compare("check of a million records", wanted, asked("check", path))
        got = asked("show", path).stdout.decode()
        cases.check("show after a million records", "" if got.startswith(f"after record {MANY}, {path}:{MANY + 1}: access,0,0,q\n") else got[:200])
        got = asked("why", path, "--page", "0:0").stdout.decode()
        cases.check("why after a million records", "" if got.startswith(f"0:0 holds frame 0 with rwx, after record {MANY},") else got[:200])
        audit = ["0,0,0,rwx,R--,-", *(f"0,{page},{page},rwx,---,-" for page in range(1, 16))]
        answers = [*(f"{number} access ok" for number in range(1, MANY)), f"{MANY} refused BadRecord", *audit, f"end {MANY} 1"]
        got = asked("compare", path, "-", given=text_of(answers))
        cases.compare("compare of a million records", no_difference(MANY + 17), got)
        answers[MANY - 2] = f"{MANY - 1} access fault"
        lines = [f"first difference: line {MANY - 1}", f"  l4map:   {MANY - 1} access ok", f"  answers: {MANY - 1} access fault"]
        lines += [f"  record {MANY - 1}, {path}:{MANY}: access,0,0,r", "  it changes no mapping"]
        lines += [f"after record {MANY - 1}, {path}:{MANY}: access,0,0,r", "frame 0", "  0:0 rwx R--"]
        got = asked("compare", path, "-", given=text_of(answers))
        cases.compare("compare of a million records with a wrong answer", ended(1, *lines), got)


def check_large(cases, program):
    """As many spaces of 32 bits as there can be, of which two hold a page; then as many frames. A run has a minute."""
    with tempfile.TemporaryDirectory() as room:
        records = ["l4map,1,512,32,1", "send,0,511,10,fffff008,c6"]
        path = written(room, "spaces.csv", records)
        first, root = record_at(path, records, 1), "  0:0 rwx ---, a root, since the start"

        def asked(*arguments, given=b""):
            return run([program, *arguments], given, MANY_SECONDS)

        reply = replied([sent(1, linked=1)], 1)
        lines = [*reply, "space 511: 1 of 1048576 pages held", TABLE_HEAD, "+ 1048575  fffff000        0  rw-     ---     0:0"]
        cases.compare("show of 512 large spaces", ended(0, f"after {first}", *lines), asked("show", path, "--space", "511"))
        lines = [f"511:1048575 holds frame 0 with rw-, after {first}", *reply, "it came from", f"  511:1048575 rw- --- from 0:0, since {first}", root]
        lines += [CHANGED, f"  {first}", "    gave rw- of frame 0 from 0:0"]
        cases.compare("why of 512 large spaces", ended(0, *lines), asked("why", path, "--page", "511:1048575"))
        answers = [ANSWERS[0], "0,0,0,rwx,---,-", "511,1048575,0,rw-,---,0:0", "end 1 0"]
        cases.compare("compare of 512 large spaces", no_difference(4), asked("compare", path, "-", given=text_of(answers)))
        records = ["l4map,1,2,32,1048576", "access,0,ffffffff,w"]
        path = written(room, "frames.csv", records)
        first = record_at(path, records, 1)
        reply = replied(["1 access ok"], 1)
        lines = [*reply, "frame 1048575", "* 0:1048575 rwx RW-, was rwx ---"]
        cases.compare("show of the last of all frames", ended(0, f"after {first}", *lines), asked("show", path, "--frame", "1048575"))
        lines = [*reply, "frame 0", "  0:0 rwx ---", "frame 1", "  0:1 rwx ---", more(1048574, "mappings")]
        cases.compare("show of all frames", ended(0, f"after {first}", *lines), asked("show", path, "--max", "2"))
        lines = [*reply, "space 0: 1048576 of 1048576 pages held", TABLE_HEAD, "        0         0        0  rwx     ---     -", more(1048575, "mappings")]
        cases.compare("show of a space that is full", ended(0, f"after {first}", *lines), asked("show", path, "--space", "0", "--max", "1"))
        lines = [f"0:1048575 holds frame 1048575 with rwx, after {first}", *reply]
        lines += ["it came from", "  0:1048575 rwx RW-, a root, since the start"]
        cases.compare("why of the last of all frames", ended(0, *lines, UNCHANGED), asked("why", path, "--page", "0:1048575"))


def check_script(cases, program):
    """trace.sh runs the program."""
    script = os.path.join(TOP, "trace.sh")
    for words in (["word", "50c6"], ["word", "x"], ["--help"], ["check", "examples/chain-and-its-revocation.csv"]):
        cases.compare(f"trace.sh {' '.join(words)}", run([program, *words], cwd=TOP), run([script, *words], cwd=TOP))
    with tempfile.TemporaryDirectory() as room:
        check_unproved(cases, room)


def check_unproved(cases, room):
    """Where the program is not built, trace.sh runs it without proofs. In place of `rt` is a script that tells what it is
    given."""
    for name in ("trace.sh", "unproved.sh"):
        shutil.copy(os.path.join(TOP, name), room)
    for folder in ("crates/l4trace", "tools", "below"):
        os.makedirs(os.path.join(room, folder))
    path, lower = written(room, "a trace.csv", ["l4map,1,2,18,1"]), written(room, "below/b.csv", ["l4map,1,2,18,1"])
    tool = os.path.join(room, "tools", "rt")
    with open(tool, "w", encoding="ascii") as file:
        file.write("#!/usr/bin/env bash\nprintf '%s\\n' \"$@\"; cat; echo told >&2; echo 'run=ended status=1 runners=1 proved=no' >&2\n")
    os.chmod(tool, 0o755)
    script = os.path.join(room, "trace.sh")
    notice = f"the program is not built; running it without proofs, in one to three minutes ({room}/build.sh proves and builds it)"
    told = f"{script}: {notice}\ntold\n".encode()
    env = {**os.environ, "PATH": os.path.join(room, "tools") + os.pathsep + os.environ["PATH"]}
    for words, given, folder in (
        (["word", "50c6"], ["--", "word", "50c6"], "below"),
        (["check", path], ["--", "check", path], "below"),
        (["check", "b.csv"], ["--data", f"b.csv={lower}", "--", "check", "b.csv"], "below"),
        (["check", "../a trace.csv"], ["--", "check", path], "below"),
        (["check", "none.csv"], ["--", "check", "none.csv"], "below"),
        (["compare", "b.csv", "-"], ["--data", f"b.csv={lower}", "--", "compare", "b.csv", "-"], "below"),
    ):
        lines = text_of(["try", *given]) + (b"answers" if "-" in words else b"")
        got = run([script, *words], b"answers", env=env, cwd=os.path.join(room, folder))
        cases.compare(f"trace.sh {' '.join(words)} without the program", Ended(1, lines, told), got)
    written(room, "a=b.csv", ["l4map,1,2,18,1"])
    wanted = Ended(125, b"", f"{script}: without proofs the name of a file has no '=': 'a=b.csv'\n".encode())
    cases.compare("trace.sh of a name with a sign without the program", wanted, run([script, "check", "a=b.csv"], env=env, cwd=room))
    os.remove(tool)
    for name in ("bash", "dirname", "env", "readlink"):
        os.symlink(shutil.which(name), os.path.join(room, "tools", name))
    wanted = Ended(125, b"", f"{script}: the command rt is missing: install the Rattle kit and put its bin folder on the PATH\n".encode())
    cases.compare("trace.sh without the kit", wanted, run([script, "word", "50c6"], env={"PATH": os.path.join(room, "tools")}))


# Each document that shows commands of l4trace, and how many.
DOCUMENTS = (("README.md", 1), (os.path.join("docs", "L4TRACE.md"), 4))


def check_documents(cases, program):
    """What the documents show of l4trace is what it says."""
    for name, count in DOCUMENTS:
        with open(os.path.join(TOP, name), encoding="utf-8") as file:
            blocks = file.read().split("```\n")[1::2]
        shown = [block[len("$ ./trace.sh ") :] for block in blocks if block.startswith("$ ./trace.sh ")]
        cases.check(f"{name} shows its commands", "" if len(shown) == count else f"it shows {len(shown)}")
        for block in shown:
            check_shown(cases, program, name, block)


def check_shown(cases, program, name, block):
    """One command as a document shows it, and the lines below it or the file that it names."""
    words, lines = block.split("\n", 1)
    words, _, target = words.partition(" > ")
    if target:
        with open(os.path.join(TOP, "docs", target), encoding="utf-8") as file:
            lines = file.read()
    got = run([program, *words.split()], cwd=TOP)
    cases.check(f"{name}: {words}", "" if got.stdout.decode() == lines and not got.stderr else f"it says {got}")


def main():
    program, cases = tool_path(), Cases()
    check_script(cases, program)
    check_documents(cases, program)
    check_words(cases, program)
    check_records(cases, program)
    check_program(cases, program)
    compare_answers(cases, program)
    compare_unchanged(cases, program)
    compare_nothing(cases, program)
    compare_all(cases, program)
    compare_forms(cases, program)
    ignore_status(cases, program)
    explain_traces(cases, program)
    audit_moments(cases, program)
    show_traces(cases, program)
    why_pages(cases, program)
    what_changed(cases, program)
    cleared_pages(cases, program)
    last_pages(cases, program)
    check_colors(cases, program)
    make_random(cases, program)
    check_many(cases, program)
    check_large(cases, program)
    cases.end()


main()
