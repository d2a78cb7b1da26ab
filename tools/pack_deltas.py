"""Objects of a pack as deltas over others that came before and begin or end alike, as the next text of a file mostly does."""
import struct

from repositories import Fault
from small_deltas import common, common_end, hunks_between, patched, seven_bits

SHORTEST, LONGEST = 128, 1 << 24
WINDOW = 64  # bytes at both ends by which objects are found
DEEPEST = 50
MOST_KEPT = 1 << 27
COPY, WITH_PLACE_AND_SIZE = struct.Struct('<BIH'), 0xbf
LONGEST_COPY = 1 << 16
LONGEST_INSERT = 127


class Kept:
    """The objects that came last for what they begin and end with, each with its id and how many deltas lie below it. All are forgotten where they may take
    too much memory."""

    def __init__(self):
        self.objects, self.size = {}, 0

    def add(self, kind, id, content):
        """Gives the id of another object and the delta over that which gives this one; nothing where it is better whole."""
        if not SHORTEST <= len(content) <= LONGEST:
            return None
        keys = [(kind, 'end', content[-WINDOW:]), (kind, 'beginning', content[:WINDOW])]
        base = next((self.objects[key] for key in keys if key in self.objects), None)
        found = over(kind, *base, content) if base else None
        self.keep(keys, (id, content, base[2] + 1 if found else 0))
        return found

    def keep(self, keys, item):
        self.size += len(item[1])
        if self.size > MOST_KEPT:
            self.objects, self.size = {}, 0
        for key in keys:
            self.objects[key] = item


def over(kind, id, base, depth, content):
    """The id of the other object and the delta, where it is less than half of the object."""
    if depth >= DEEPEST:
        return None
    hunks = hunk_of_bytes(base, content) if kind == b'tree' else hunks_between(base, content)
    delta = delta_of(base, content, hunks)
    return (id, delta) if 2 * len(delta) < len(content) else None


def hunk_of_bytes(base, content):
    """All between the bytes that both begin with and those that both end with, as the ids in a tree are no lines."""
    most = min(len(base), len(content))
    front = common(base, content, most)
    back = common_end(base, content, most - front)
    hunks = [(front, len(base) - back, content[front:len(content) - back])]
    if patched(base, hunks) != content:
        raise Fault('a delta doesn\'t give its object')
    return hunks


def delta_of(base, content, hunks):
    """The sizes of both, and in turn what is copied from the base and what is put in."""
    parts, place = [seven_bits(len(base)), seven_bits(len(content))], 0
    for start, end, piece in hunks:
        parts += copies(place, start), inserts(piece)
        place = end
    return b''.join([*parts, copies(place, len(base))])


def copies(start, end):
    """Each has a byte that says that all four bytes of its place and two of its size follow; no size stands for the longest copy."""
    return b''.join([COPY.pack(WITH_PLACE_AND_SIZE, place, min(LONGEST_COPY, end - place) % LONGEST_COPY) for place in range(start, end, LONGEST_COPY)])


def inserts(piece):
    parts = [piece[place:place + LONGEST_INSERT] for place in range(0, len(piece), LONGEST_INSERT)]
    return b''.join([bytes([len(part)]) + part for part in parts])
