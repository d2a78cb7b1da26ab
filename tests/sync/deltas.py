"""Small deltas of bundles: each gives the text behind it, and has whole lines."""
import io
import os
import random
import struct

from both import TOP
from small_deltas import begins_line, difference, patched, write_small

PAIRS = 20000
PIECES = [b'a', b'b', b'\n', b'ab\n']
LONG_PAIRS = 2000
LONGEST = 2000
EXAMPLE = os.path.join(TOP, 'examples', 'one-changeset.hg')


def check(report):
    numbers = random.Random(1)
    pairs = [[made(numbers), made(numbers)] for _ in range(PAIRS)] + [long_pair(numbers) for _ in range(LONG_PAIRS)]
    wrong = [pair for pair in pairs if patched(pair[0], hunks_of(difference(*pair))) != pair[1]]
    report.check(f'{len(pairs)} deltas give the text', wrong, [])
    report.check('and are of whole lines', [pair for pair in pairs if not has_whole_lines(pair[0], difference(*pair))], [])
    with open(EXAMPLE, 'rb') as file:
        bundle = file.read()
    small = io.BytesIO()
    write_small(io.BytesIO(bundle), small)
    report.check('a bundle of first texts stays as it is', small.getvalue(), bundle)


def made(numbers, most=8):
    return b''.join(numbers.choice(PIECES) for _ in range(numbers.randrange(most)))


def long_pair(numbers):
    """Two texts that have much in common, before, between and behind what differs."""
    front, inner, back = (made(numbers, LONGEST) for _ in range(3))
    return [front + made(numbers) + inner + made(numbers) + back for _ in range(2)]


def hunks_of(delta):
    """The beginning, the end and the lines of each hunk."""
    place = 0
    while place < len(delta):
        start, end, length = struct.unpack_from('>III', delta, place)
        yield start, end, delta[place + 12:place + 12 + length]
        place += 12 + length


def has_whole_lines(text, delta):
    return all(begins_line(text, start) and (end == len(text) or begins_line(text, end) and lines[-1:] in (b'', b'\n')) for start, end, lines in hunks_of(delta))
