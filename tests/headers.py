#!/usr/bin/env python3
"""Headers: which are bad, which have limits that are not served, and which are taken, by the rules of docs/FORMATS.md.

    tests/headers.py [PROGRAM]

Each trace is run with --plain too.
"""

from support.program import Cases, Ended, compare_replay, program_path

# Name, and an input whose header does not have the form of one.
BAD_HEADERS = [
    ("empty input", b""),
    ("line feed alone", b"\n"),
    ("empty lines alone", b"\n\r\n\r\r\n\n"),
    ("two quotes", b'""\n'),
    ("version with a leading zero", b"l4map,01,3,18,16\n"),
    ("version 2 with a leading zero", b"l4map,02,3,18,16\n"),
    ("both versions", b"l4map,12,3,18,16\n"),
    ("later version", b"l4map,3,3,18,16\n"),
    ("later version and bad limits", b"l4map,3,1,17,0\n"),
    ("upper case name of version 2", b"L4MAP,2,3,18,16\n"),
    ("four fields of version 2", b"l4map,2,3,18\n"),
    ("version zero", b"l4map,0,3,18,16\n"),
    ("empty version", b"l4map,,3,18,16\n"),
    ("version with a space", b"l4map,1 ,3,18,16\n"),
    ("upper case name", b"L4MAP,1,3,18,16\n"),
    ("another name", b"l4maps,1,3,18,16\n"),
    ("space before the name", b" l4map,1,3,18,16\n"),
    ("name that is no text", b"l4map\xff,1,3,18,16\n"),
    ("name alone", b"l4map\n"),
    ("four fields", b"l4map,1,3,18\n"),
    ("six fields", b"l4map,1,3,18,16,0\n"),
    ("last comma", b"l4map,1,3,18,16,\n"),
    ("header in one pair of quotes", b'"l4map,1,3,18,16"\n'),
    ("record before the header", b"send,0,1,10,8,50c6\nl4map,1,3,18,16\n"),
    ("header cut off", b"l4map,1,3,18,"),
    ("quote that never ends", b'"l4map,1,3,18,16\nsend,0,1,10,8,50c6\n'),
    ("bad form and bad limits", b"l4map,01,1,17,0\n"),
    ("bad form of one number and bad limits of another", b"l4map,1,1,+18,16\n"),
    ("bad header before good records", b"l4map,1,3,18\nsend,0,1,10,8,50c6\n"),
]

# What none of the three numbers may be: a name and the field.
BAD_NUMBERS = [
    ("empty", b""),
    ("with eight digits", b"00000018"),
    ("with a plus sign", b"+18"),
    ("with a minus sign", b"-18"),
    ("with a space before", b" 18"),
    ("with a space behind", b"18 "),
    ("hexadecimal", b"1a"),
    ("with a prefix", b"0x18"),
    ("with a dot", b"18.0"),
    ("that is no text", b"18\xff"),
    ("with a zero byte", b"18\x00"),
    ("far too long", b"0" * 100_000 + b"18"),
]
NUMBERS = [("spaces", b"%s,18,16"), ("bits", b"3,%s,16"), ("frames", b"3,18,%s")]

# Name, and spaces, bits and frames outside of the limits.
BAD_LIMITS = [
    ("no space", "0,18,16"),
    ("one space", "1,18,16"),
    ("513 spaces", "513,18,16"),
    ("largest number of spaces", "9999999,18,16"),
    ("no bits", "3,0,16"),
    ("17 bits", "3,17,16"),
    ("33 bits", "3,33,16"),
    ("largest number of bits", "3,9999999,16"),
    ("no frame", "3,18,0"),
    ("a frame more than pages, 18 bits", "3,18,65"),
    ("a frame more than pages, 19 bits", "3,19,129"),
    ("a frame more than pages, 24 bits", "3,24,4097"),
    ("a frame more than pages, 32 bits", "3,32,1048577"),
    ("largest number of frames", "3,32,9999999"),
    ("all three", "0,0,0"),
]

# Name, spaces, bits and frames at the limits, and the number of frames.
GOOD_LIMITS = [
    ("two spaces", "2,18,1", 1),
    ("512 spaces", "512,18,1", 1),
    ("18 bits with all frames", "3,18,64", 64),
    ("19 bits with all frames", "3,19,128", 128),
    ("24 bits with one frame", "3,24,1", 1),
    ("24 bits with all frames", "3,24,4096", 4096),
    ("25 bits with one frame", "3,25,1", 1),
    ("32 bits with one frame", "3,32,1", 1),
    ("512 spaces of 24 bits with all frames", "512,24,4096", 4096),
    ("512 spaces of 32 bits with all frames", "512,32,1048576", 1048576),
    ("seven digits each", "0000003,0000018,0000016", 16),
]


# Headers with no more frames are tried with both versions.
FEW_FRAMES = 128


def bad_numbers():
    """Each number of the header in every form that it must not have."""
    for number, limits in NUMBERS:
        for form, field in BAD_NUMBERS:
            yield f"{number} {form}", b"l4map,1,%s\n" % (limits % field)


def start(frames):
    """The output of a run without records."""
    roots = "".join(f"0,{page},{page},rwx,---,-\n" for page in range(frames))
    return f"{roots}end 0 0\n".encode()


def main():
    program, cases = program_path(), Cases()
    bad_header, bad_limits = Ended(2, b"", b"l4map: BadHeader\n"), Ended(2, b"", b"l4map: BadLimits\n")
    for name, given in [*BAD_HEADERS, *bad_numbers()]:
        compare_replay(cases, program, f"BadHeader: {name}", given, bad_header)
    for name, limits in BAD_LIMITS:
        for version in (b"1", b"2"):
            for behind, record in (("alone", b""), ("and a record", b"send,0,1,10,8,50c6\n")):
                given = b"l4map,%s,%s\n" % (version, limits.encode()) + record
                compare_replay(cases, program, f"BadLimits: version {version.decode()}, {name}, {behind}", given, bad_limits)
    for name, limits, frames in GOOD_LIMITS:
        for version in (b"1", b"2") if frames <= FEW_FRAMES else (b"1",):
            given = b"l4map,%s,%s\n" % (version, limits.encode())
            compare_replay(cases, program, f"limits: version {version.decode()}, {name}", given, Ended(0, start(frames), b""))
    cases.end()


main()
