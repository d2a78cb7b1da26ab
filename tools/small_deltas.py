"""Bundles HG10UN in which each delta has what differs alone. The program's bundles replace whole texts, for which `hg unbundle` takes several times as long.

Only deltas change: the texts and the nodes are the same. hg checks a node where it builds the text, which small deltas spare it; so each delta is tried here.
"""
import io
import operator
import re
import struct

from formats.hg import HEADER_SIZE, MAGIC, hunk
from repositories import Fault

HUNK = struct.Struct('>III')
TEXT = HEADER_SIZE + HUNK.size  # where the text begins in an entry whose delta is one hunk
NEAR = 256  # bytes that are compared as a number
CHANGED = re.compile(b'\1+')  # rows of lines that differ


def write_small(source, target, before_end=lambda: None):
    """Reads a bundle from a file, and writes it to another; something else is done before the last chunk, which ends the bundle, is written."""
    target.write(read_magic(source))
    copy_changesets(source, target)
    copy_group(source, target)
    while path := read_chunk(source):
        write_chunk(target, path)
        copy_group(source, target)
    target.flush()
    before_end()
    write_chunk(target, b'')


def read_magic(source):
    """What a bundle begins with."""
    magic = source.read(len(MAGIC))
    if magic != MAGIC:
        raise Fault('the program wrote no bundle HG10UN')
    return magic


def copy_changesets(source, target):
    """As they are: hg keeps their texts whole."""
    while entry := read_chunk(source):
        write_chunk(target, entry)
    write_chunk(target, b'')


def copy_group(source, target):
    """The entries of a kind or a path, each over the text before it."""
    for entry, before, text in texts_of(source):
        if text is not None and before is not None:
            entry = entry[:HEADER_SIZE] + difference(before, text)
        write_chunk(target, entry)
    write_chunk(target, b'')


def texts_of(source, before=None):
    """Each entry of a group with the text before it and its own; None stands for one that isn't known."""
    while entry := read_chunk(source):
        text = whole_text(before, entry)
        yield entry, before, text
        before = text


def whole_text(before, entry):
    """The text, where the entry's delta puts it in place of the whole text before it; None where it doesn't, or that isn't known to be whole."""
    if len(entry) <= HEADER_SIZE:
        return before
    start, end, length = HUNK.unpack_from(entry, HEADER_SIZE)
    is_whole = start == 0 and TEXT + length == len(entry) and before is not None and end == len(before)
    if is_whole or before is None and start == 0 == end:
        return entry[TEXT:]
    return None


def difference(before, text):
    """Hunks of whole lines, as hg reads the lines of a manifest from its deltas; nothing where the texts are equal."""
    return b''.join([hunk(*parts) for parts in hunks_between(before, text)])


def hunks_between(before, text):
    """The beginning and the end of what is replaced before, each with the lines that stand there in the text."""
    if before == text:
        return []
    front, back = shared_ends(before, text)
    hunks = list(changes(front, before[front:len(before) - back], text[front:len(text) - back]))
    if patched(before, hunks) != text:
        raise Fault('a small delta doesn\'t give its text')
    return hunks


def patched(before, hunks):
    """The text that hunks give."""
    parts, place = [], 0
    for start, end, lines in hunks:
        parts += before[place:start], lines
        place = end
    return b''.join([*parts, before[place:]])


def shared_ends(before, text):
    """How many bytes of whole lines both begin with, and how many more both end with."""
    most = min(len(before), len(text))
    front = before.rfind(b'\n', 0, common(before, text, most)) + 1
    back = common_end(before, text, most - front)
    if not (begins_line(before, len(before) - back) and begins_line(text, len(text) - back)):
        back = len(before) - (before.find(b'\n', len(before) - back) + 1 or len(before))
    return front, back


def changes(place, old, new):
    """What differs between two pieces at this place: lines in a row with the beginning and the end of those that they replace. Where the pieces have as many
    lines, each is compared with the one in its row."""
    rows, others = lines_of(old), lines_of(new)
    if len(rows) != len(others) or len(rows) == 1:
        yield place, place + len(old), new
        return
    row = 0
    for run in CHANGED.finditer(bytes(map(operator.ne, rows, others))):
        first, end = run.span()
        start = place + sum(map(len, rows[row:first]))
        place = start + sum(map(len, rows[first:end]))
        yield start, place, b''.join(others[first:end])
        row = end


def lines_of(piece):
    return io.BytesIO(piece).readlines()


def begins_line(text, place):
    return place == 0 or text[place - 1:place] == b'\n'


def common(one, other, most):
    """How many bytes both begin with, at most so many."""
    low, high = 0, most
    while high - low > NEAR:
        middle = (low + high) // 2
        if other.startswith(one[low:middle], low):
            low = middle
        else:
            high = middle
    return low + equal_bytes(one[low:high], other[low:high], 'little')


def common_end(one, other, most):
    """How many bytes both end with, at most so many."""
    low, high = 0, most
    end, other_end = len(one), len(other)
    while high - low > NEAR:
        middle = (low + high) // 2
        if other.endswith(one[end - middle:end - low], 0, other_end - low):
            low = middle
        else:
            high = middle
    return low + equal_bytes(one[end - high:end - low], other[other_end - high:other_end - low], 'big')


def equal_bytes(one, other, order):
    """How many bytes of two pieces of one length are equal before the first that isn't, from the first byte on (little) or from the last one back (big)."""
    if one == other:
        return len(one)
    differing = int.from_bytes(one, order) ^ int.from_bytes(other, order)
    return ((differing & -differing).bit_length() - 1) // 8


def read_chunk(source):
    """The payload of a chunk; nothing of an empty one."""
    length = int.from_bytes(read_whole(source, 4), 'big')
    return read_whole(source, length - 4) if length else b''


def read_whole(source, size):
    piece = source.read(size)
    if len(piece) != size:
        raise Fault('the program wrote a bundle that is cut short')
    return piece


def write_chunk(target, payload):
    target.write(struct.pack('>I', len(payload) + 4 if payload else 0) + payload)


def seven_bits(number):
    """A number in bytes of seven bits, the lowest first; each but the last has the highest bit set, which says that more follow."""
    parts = bytearray()
    while number > 0x7f:
        parts.append(number & 0x7f | 0x80)
        number >>= 7
    parts.append(number)
    return bytes(parts)
