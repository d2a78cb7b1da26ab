"""Mercurial's side: node ids, deltas, and bundles HG10UN."""
import hashlib
import struct
from typing import Iterator, List, NamedTuple, Tuple

MAGIC = b'HG10UN'
NULL = bytes(20)
EMPTY_CHUNK = bytes(4)
HEADER_SIZE = 80


def node_id(p, q, text):
    """The node of a revision: SHA-1 of its parents, the smaller first, and its text."""
    return hashlib.sha1(min(p, q) + max(p, q) + text).digest()


def hunk(start, end, data):
    """The bytes of the base from start to end give way to the data."""
    return struct.pack('>III', start, end, len(data)) + data


def hunks_of(delta) -> Iterator[Tuple[int, int, bytes]]:
    """The start, the end and the data of each hunk of a delta that is known to be well-formed."""
    at = 0
    while at < len(delta):
        start, end, size = struct.unpack_from('>III', delta, at)
        at += 12 + size
        yield start, end, delta[at - size:at]


def whole_delta(base_size, text):
    """The delta that replaces a whole base."""
    return hunk(0, base_size, text) if base_size or text else b''


def chunk(payload):
    return struct.pack('>I', len(payload) + 4) + payload


def entry(node, p, q, link, delta):
    """The chunk of one revision."""
    return chunk(node + p + q + link + delta)


def bundle(changesets=(), manifests=(), files=()):
    """A bundle of entries, and of pairs of a path and the entries of its file."""
    parts = [MAGIC, *changesets, EMPTY_CHUNK, *manifests, EMPTY_CHUNK]
    for path, entries in files:
        parts += [chunk(path), *entries, EMPTY_CHUNK]
    return b''.join(parts + [EMPTY_CHUNK])


def manifest_line(path, node, flag=b''):
    return path + b'\0' + node.hex().encode() + flag + b'\n'


def hex_of(node):
    return node.hex().encode()


def escape(raw):
    """Every byte outside `!` to `~`, and `%` and the backslash, as `%` and two hex digits."""
    return b''.join(bytes([b]) if 33 <= b <= 126 and b not in b'%\\' else b'%%%02X' % b for b in raw)


class Entry(NamedTuple):
    """A revision of a bundle: `group` is what a listing says before the ids, `at` where its chunk begins."""
    group: bytes
    node: bytes
    p: bytes
    q: bytes
    link: bytes
    delta: bytes
    at: int

    def delta_at(self):
        return self.at + 4 + HEADER_SIZE


def entries_of(data) -> List[Entry]:
    """The entries of a bundle that is known to be well-formed."""
    entries = []
    at = _read_group(data, len(MAGIC), b'changeset', entries)
    at = _read_group(data, at, b'manifest', entries)
    while data[at:at + 4] != EMPTY_CHUNK:
        size = _length_at(data, at)
        path = data[at + 4:at + size]
        at = _read_group(data, at + size, b'file ' + escape(path), entries)
    return entries


def revisions_of(data):
    """Each revision of such a bundle by its group, node and parents in rising order: links, order and deltas are the writer's own."""
    return {(e.group, e.node, *sorted([e.p, e.q])) for e in entries_of(data)}


def _read_group(data, at, group, entries):
    while data[at:at + 4] != EMPTY_CHUNK:
        size = _length_at(data, at)
        header, delta = data[at + 4:at + 84], data[at + 84:at + size]
        entries.append(Entry(group, header[:20], header[20:40], header[40:60], header[60:], delta, at))
        at += size
    return at + 4


def _length_at(data, at):
    return struct.unpack_from('>I', data, at)[0]
