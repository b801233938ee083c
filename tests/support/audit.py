"""A reader of the audit: whether the mappings that it lists could be held at all, whatever was asked for before."""

import re
from typing import NamedTuple, Optional

LINE = re.compile(rb"(\d+),(\d+),(\d+),([r-][w-][x-]),[R-][W-][X-],(?:(\d+):(\d+)|-)")
END = re.compile(rb"end (\d+) (\d+)")

# The number of each set of rights.
RIGHTS = {r + w + x: 4 * (r != b"-") + 2 * (w != b"-") + (x != b"-") for r in (b"r", b"-") for w in (b"w", b"-") for x in (b"x", b"-")}


class Mapping(NamedTuple):
    """What one line of an audit says, but for the status. Places are pairs of space and page."""

    place: tuple
    frame: int
    rights: int
    origin: Optional[tuple]


def audit_lines(output):
    """The lines of an output between its replies and its last line; None where the last line is no end line."""
    lines = output.splitlines()
    end = END.fullmatch(lines[-1]) if lines else None
    return lines[int(end[1]) : -1] if end and int(end[1]) < len(lines) else None


def read_mapping(line):
    """The mapping of an audit line, or None."""
    read = LINE.fullmatch(line)
    if not read:
        return None
    space, page, frame, rights, origin_space, origin_page = read.groups()
    origin = (int(origin_space), int(origin_page)) if origin_space else None
    return Mapping((int(space), int(page)), int(frame), RIGHTS[rights], origin)


def fault_beside_origin(mapping, origin):
    """What is wrong between a mapping and that of its origin, or an empty text."""
    if origin is None:
        return f"the origin of {mapping.place} has no line"
    if origin.frame != mapping.frame:
        return f"the origin of {mapping.place} has another frame"
    if mapping.rights & ~origin.rights:
        return f"{mapping.place} has a right that its origin does not have"
    return ""


def place_in_circle(held):
    """A place whose chain of origins does not end, or None. Every origin has a line."""
    ends = {None}
    for place, mapping in held.items():
        if mapping.origin in ends:
            ends.add(place)
            continue
        chain = {}
        while place not in ends:
            if place in chain:
                return place
            chain[place] = True
            place = held[place].origin
        ends.update(chain)
    return None


def fault_in_lines(lines):
    """Why these lines are no audit of lawful mappings, or an empty text.

    The places rise; each origin has a line, with the same frame and at least the rights; every chain of origins ends;
    of each frame there is at most one mapping without an origin; and no mapping is without rights.
    """
    held, roots, last = {}, set(), (-1, -1)
    for line in lines:
        mapping = read_mapping(line)
        if mapping is None:
            return f"{line[:100]!r} is no audit line"
        if mapping.place <= last:
            return f"{line!r} does not rise"
        if not mapping.rights:
            return f"{line!r} has no rights"
        if mapping.origin is None and mapping.frame in roots:
            return f"{line!r} is a second root of its frame"
        if mapping.origin is None:
            roots.add(mapping.frame)
        last = mapping.place
        held[last] = mapping
    for mapping in held.values():
        if mapping.origin is not None and (why := fault_beside_origin(mapping, held.get(mapping.origin))):
            return why
    circle = place_in_circle(held)
    return f"{circle} derives from itself" if circle is not None else ""


def fault_in_audit(output):
    """Why an output does not end with an audit of lawful mappings and an end line, or an empty text."""
    lines = audit_lines(output)
    return "there is no end line, or it counts too many records" if lines is None else fault_in_lines(lines)
